"""Plays the pages of docs/ that have commands, each in an empty folder, and compares what each command prints with what the page says.

    gate check pages [PAGES..] [--fill]

A command is a line `$ ..` of a block fenced by ```console, with lines `> ..` behind it where it goes on; the lines below are what it
prints, on both outputs. Blocks fenced by ```sh aren't played: they get the program. --fill writes what the commands print into the pages,
for who writes them. Of a page that calls `vidi-tools lower` the counts of `vidi check` aren't compared, as other versions of Yosys lower to other
ones, and it is skipped without Yosys. Without Icarus each page is skipped. Without Verilator the blocks that call it aren't played. A line says so.
"""
import glob
import os
import re
import shutil
import subprocess
import sys
import tempfile

from vidi_tools import tool_kit

DOCS = os.path.join(tool_kit.HERE, "..", "docs")
BLOCK = re.compile(r"(?<=```console\n)(.*?)(?=```\n)", re.S)
COMMAND = re.compile(r"\$ (.*\n(?:> .*\n|>\n)*)((?:(?!\$ ).*\n)*)")


def printed(command, folder, vidi):
    """What a command prints."""
    top = os.path.dirname(tool_kit.HERE)
    environment = {**os.environ, "VIDI": vidi, "PATH": os.path.join(top, "bin") + os.pathsep + os.environ["PATH"], "COLUMNS": "80",
                   "EXAMPLES": os.path.join(top, "examples"), "LC_ALL": "C"}
    text = re.sub(r"^> ?", "", command, flags=re.M)
    done = subprocess.run(["bash", "-c", text], cwd=folder, env=environment, stdout=subprocess.PIPE, stderr=subprocess.STDOUT, text=True)
    return done.stdout


def counted(text):
    """The text without the numbers of the lines of `vidi check`."""
    return re.sub(r"^(modules|instances) .*$", lambda line: re.sub(r"\d+", "N", line[0]), text, flags=re.M)


def is_lowering(page):
    """Whether a command of the page calls `vidi-tools lower`."""
    commands = [command for block in BLOCK.findall(page) for command, _ in COMMAND.findall(block)]
    return any(re.search(r"\bvidi-tools lower\s", command) for command in commands)


def is_left_out(block):
    """Whether a block calls Verilator and it isn't installed."""
    return re.search(r"^\$ verilator ", block, re.M) and not all(shutil.which(program) for program in ("verilator", "g++", "make"))


def played(page, vidi):
    """The page with what its commands print, how many there are, and what was wrong."""
    wrong, count, compared = [], 0, counted if is_lowering(page) else str
    if any(map(is_left_out, BLOCK.findall(page))):
        print("skipped for want of verilator, g++ or make: the blocks that call Verilator")
    with tempfile.TemporaryDirectory() as folder:
        def play(match):
            """The command with what it prints."""
            nonlocal count
            count += 1
            said = printed(match[1], folder, vidi)
            if compared(said) != compared(match[2]):
                wrong.append(f"$ {match[1].splitlines()[0]}: the page says {match[2]!r}, it prints {said!r}")
            return f"$ {match[1]}{said}"
        text = BLOCK.sub(lambda block: block[0] if is_left_out(block[0]) else COMMAND.sub(play, block[0]), page)
    return text, count, wrong


def play_page(path, vidi, is_filled):
    """Plays a page; whether all is right."""
    page = tool_kit.text_of(path)
    missing = [program for program in ["yosys"] * is_lowering(page) + ["iverilog"] if not shutil.which(program)]
    if missing:
        print(f"{path} skipped for want of {' and '.join(missing)}")
        return True
    text, count, wrong = played(page, vidi)
    if is_filled:
        tool_kit.write(path, text)
        print(f"{path}: what {count} commands print is written into it, {len(wrong)} of them anew")
        return True
    print(*wrong, f"{count} commands of {path} played, {len(wrong)} wrong", sep="\n")
    return count > 0 and not wrong


def main():
    """Plays the pages."""
    paths, is_filled = [word for word in sys.argv[1:] if word != "--fill"], "--fill" in sys.argv[1:]
    paths = paths or sorted(os.path.relpath(path) for path in glob.glob(os.path.join(DOCS, "*.md")) if "```console\n" in tool_kit.text_of(path))
    right = [play_page(path, tool_kit.wanted_program(), is_filled) for path in paths]
    sys.exit(0 if right and all(right) else 1)
