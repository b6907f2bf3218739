"""Plays examples, tools, pages, printed texts, wrapped designs and resets: what .ci/run asks for behind a green `rt ci` beside the wrong bodies.

    gate [--vidi PROGRAM] check                 all parts, each of which says what it played and what it skipped for want of a program
    gate [--vidi PROGRAM] check PART [WORDS..]  one of them, with its own words
    gate check PART --help

examples    runs and recordings of examples/, on real files
tools       the cases of the tools
pages       each page of docs/ that has commands, with what they print
printed     printed texts, which Icarus and Yosys must read
wrapped     what `vidi wrap` writes, in Icarus and Verilator
resets      random designs whose scripts ask for resets, in Icarus
"""
import importlib
import sys

from vidi_tools import tool_kit
from vidi_tools.tool_kit import Problem

PARTS = ("examples", "tools", "pages", "printed", "wrapped", "resets")


def status_of(part, words):
    """Plays a part; its status."""
    module = importlib.import_module(f"gate_parts.check_{part}")
    if words in (["--help"], ["-h"]) and part in ("examples", "pages", "printed"):
        print(module.__doc__.strip())
        return 0
    sys.argv = [f"check {part}", *words]
    try:
        tool_kit.ended(module.main)
    except SystemExit as end:
        if isinstance(end.code, str):
            print(end.code, file=sys.stderr)
        return 0 if end.code in (0, None) else 1
    return 0


def main():
    """Plays one part or all."""
    words = sys.argv[1:]
    if words in (["--help"], ["-h"]):
        print(__doc__.strip())
        return
    if words and words[0] not in PARTS:
        raise Problem(f"no part {words[0]}; there are {', '.join(PARTS)}")
    found = {part: status_of(part, words[1:]) for part in ([words[0]] if words else PARTS)}
    wrong = [part for part, status in found.items() if status]
    if not words:
        print(f"{len(found)} parts played, {len(wrong)} wrong{': ' if wrong else ''}{', '.join(wrong)}")
    sys.exit(1 if wrong else 0)
