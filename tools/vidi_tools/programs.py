"""A program of several commands: its --help, where --vidi stands, and the call of a command."""
import importlib
import os
import re
import sys

from vidi_tools import commands, tool_kit


def too_few(command, words):
    """What is wrong with how many words a command without options of its own is given, or None."""
    wanted = command.words.split()
    least = sum(not word.startswith("[") for word in wanted)
    if least <= len(words) and (len(words) <= len(wanted) or command.words.endswith("..")):
        return None
    return f"wants {command.words or 'no word'}"


def help_of(program, head, listed, calls_vidi):
    """The whole --help."""
    option, meaning = ("[--vidi PROGRAM] ", "\n\nPROGRAM is the program vidi: else $VIDI, else crates/vidi/out/vidi, which `rt run` leaves.") if calls_vidi \
        else ("", "")
    return f"""{head.strip()}

    {program} {option}COMMAND WORDS ..
    {program} COMMAND --help

{commands.listed(listed, program)}{meaning}"""


def usage_error(program, line):
    """Ends with status 1 and a line."""
    sys.exit(f"{program}: {line}; see {program} --help")


def run(program, head, listed, package, plain=(), calls_vidi=True):
    """Runs the command that the words of the call name. `plain` are the commands whose words are counted here, as they have no options."""
    words = sys.argv[1:]
    if calls_vidi and words and re.match(r"--vidi(=|$)", words[0]):
        joined = re.match(r"--vidi=(.*)", words[0])
        if not joined and len(words) < 2:
            usage_error(program, "--vidi wants a program")
        os.environ["VIDI"] = os.path.abspath(joined[1] if joined else words[1])
        words = words[1 if joined else 2:]
    if not words or words[0] in ("--help", "-h"):
        print(help_of(program, head, listed, calls_vidi))
        sys.exit(0 if words else 1)
    command = next((one for one in listed if one.name == words[0]), None)
    if command is None:
        usage_error(program, f"no command {words[0]}")
    module = importlib.import_module(f"{package}.{command.module}")
    sys.argv = words
    tool_kit.PROGRAM = program
    if command.name in plain:
        if words[1:] in (["--help"], ["-h"]):
            print(module.__doc__.strip())
            return
        wrong = too_few(command, words[1:])
        if wrong:
            sys.exit(f"{command.name}: {wrong}; see {program} {command.name} --help")
    try:
        tool_kit.ended(module.main)
    except ValueError:
        if command.name not in plain:
            raise
        sys.exit(f"{command.name}: wants {command.words}, numbers where they are wanted; see {program} {command.name} --help")
