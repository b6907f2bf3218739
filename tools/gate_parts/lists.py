"""Writes what is made of the one list of commands, vidi_tools/commands.py, and says which of the files were other texts: the man page
share/man/man1/vidi.1, and completion for bash in share/bash-completion/completions. With bin/ on PATH, man and bash find them there.

    gate lists              writes them
    gate lists --check      writes nothing; status 1 where one isn't what would be written, or where docs/FILES.md has other commands
"""
import importlib
import os
import re
import sys

from vidi_tools import commands
from vidi_tools import tool_kit
from vidi_tools.tool_kit import Problem

TOP = os.path.dirname(tool_kit.HERE)
OPTION = re.compile(r"""add_argument\((?:"-\w", )?"(--?[\w-]+)\"""")
FRONT = """\
Records the transactions of a design's valid/ready channels (AMBA AXI4) and replays them. It reads a design in a subset of Verilog (IEEE
1364-2005), a map of its channels, an environment script and a plan of trace-store stalls, and simulates cycle by cycle. All lines go to standard
output, those of a refusal too. A refusal names the file by its word and the reason, as in
.BR "vidi: refused design: E7 kind line 2" ."""
NOTES = """\
.SH ENVIRONMENT
.TP
.B VIDI
the program that bin/vidi and vidi-tools run; else crates/vidi/out/vidi
.SH SEE ALSO
docs/TUTORIAL.md, docs/FILES.md (files, printed lines, the bytes of a trace), docs/LANGUAGE.md (the Verilog, each refusal), docs/SHIMS.md (wrapped
designs), docs/TOOLS.md (the tools), docs/PROVED.md (what is proved)"""
COMPLETION = """\
# Completion for bash of vidi and vidi-tools, made by tools/gate lists.
_vidi() {{
    local word=${{COMP_WORDS[COMP_CWORD]}} program=${{COMP_WORDS[0]##*/}} at=1
    if [ "$program" = vidi-tools ] && [ "${{COMP_WORDS[1]}}" = --vidi ]; then
        at=3
    fi
    if [ "$COMP_CWORD" -eq "$at" ] && [ "$program" = vidi ]; then
        COMPREPLY=($(compgen -W "{vidi}" -- "$word"))
    elif [ "$COMP_CWORD" -eq "$at" ]; then
        COMPREPLY=($(compgen -W "--help --vidi {tools}" -- "$word"))
    elif [ "$program" = vidi-tools ] && [ "${{COMP_WORDS[at]}}" = say ] && [ "$COMP_CWORD" -eq $((at + 1)) ]; then
        COMPREPLY=($(compgen -W "{vidi}" -- "$word"))
    elif [ "$program" = vidi-tools ] && [ "${{word:0:1}}" = - ]; then
        case ${{COMP_WORDS[at]}} in
{options}
        esac
    else
        COMPREPLY=()
    fi
}}
complete -o default -F _vidi vidi vidi-tools
"""


def options_of(command):
    """The options of a command of vidi-tools, as its module adds them."""
    module = importlib.import_module(f"vidi_tools.{command.module}")
    text = tool_kit.text_of(module.__file__)
    if "port_kit" in text:
        text += tool_kit.text_of(os.path.join(os.path.dirname(module.__file__), "port_kit.py"))
    return sorted({"--help", *OPTION.findall(text), *(["--verbose"] if "add_verbose" in text else [])})


def words_of(command):
    """The words of a command of vidi."""
    return command.words.upper().replace("STALLS OUT", "STALLS TRACE")


def man_page():
    """The man page."""
    lines = ['.\\" Made by tools/gate lists.', ".TH VIDI 1", ".SH NAME", "vidi, vidi-tools \\- record and replay valid/ready channels", ".SH SYNOPSIS"]
    lines += [f".B vidi {one.name}\n.I {words_of(one)}\n.br" for one in commands.VIDI]
    lines += [".B vidi-tools\n.RI [ \"--vidi PROGRAM\" ] \" COMMAND WORDS\" ..", ".SH DESCRIPTION", FRONT, ".SH COMMANDS"]
    lines += [f".TP\n.B {one.name} {words_of(one)}\n{one.what}" for one in commands.VIDI]
    lines += [".SH TOOLS", "Nothing of these is proved; vidi-tools COMMAND --help says more of each."]
    lines += [f".TP\n.B vidi-tools {one.name} {one.words}\n{one.what}" for one in commands.TOOLS]
    lines += [".SH EXIT STATUS", *(f".TP\n.B {number}\n{what}" for number, what in commands.STATUS), NOTES]
    return re.sub(r"^'", r"\\'", "\n".join(lines), flags=re.M) + "\n"


def completion():
    """Completion for bash."""
    cases = (f"            {one.name}) COMPREPLY=($(compgen -W \"{' '.join(options_of(one))}\" -- \"$word\")) ;;" for one in commands.TOOLS)
    return COMPLETION.format(vidi=" ".join(one.name for one in commands.VIDI), tools=" ".join(one.name for one in commands.TOOLS),
                             options="\n".join(cases))


def wanted():
    """The files."""
    share, text = os.path.join(TOP, "share"), completion()
    return {os.path.join(share, "man", "man1", "vidi.1"): man_page(),
            os.path.join(share, "bash-completion", "completions", "vidi"): text,
            os.path.join(share, "bash-completion", "completions", "vidi-tools"): text}


def check_page():
    """docs/FILES.md has the same commands with the same words, and the same exit numbers."""
    page = tool_kit.text_of(os.path.join(TOP, "docs", "FILES.md"))
    section = page.partition("\n## What the commands print\n")[2].partition("\n### ")[0]
    calls = re.findall(r"^- `(\w+ [A-Z ]+)`: ", section, re.M)
    numbers = [int(number) for number in re.findall(r"^- \*\*(\d)\*\*, ", section, re.M)]
    if calls != [f"{one.name} {words_of(one)}" for one in commands.VIDI] or numbers != [number for number, _ in commands.STATUS]:
        raise Problem("docs/FILES.md has other commands or exit numbers than vidi_tools/commands.py")


def main():
    """Writes or compares."""
    words = sys.argv[1:]
    if words in (["--help"], ["-h"]):
        print(__doc__.strip())
        return
    if words not in ([], ["--check"]):
        raise Problem(f"wants no word or --check, not {' '.join(words)}")
    check_page()
    count = tool_kit.keep(wanted(), bool(words), "tools/gate lists")
    print(f"{count} files are as they are made of the list of {len(commands.VIDI) + len(commands.TOOLS)} commands")
