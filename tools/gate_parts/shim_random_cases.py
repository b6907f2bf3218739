"""Writes as a case file (docs/CASES.md), which `rt ci` plays, that wrapped random designs run as monitors and replayers round the designs do.
The designs and maps are those of `make random`, a seed each. What is wanted is that statement alone, so nothing of it comes from Vidi.
"""
import os

from vidi_tools import tool_kit
from make_kinds.random_design import made
from gate_parts.page_cases import part

DATA = os.path.join(tool_kit.HERE, "..", "crates", "vidi_cases", "data", "wrapped", "random.case")
HEAD = "## Made by tools/gate cases of random designs.\n"
SEEDS, CYCLES = range(1, 51), 200


def case(word, seed):
    """The case of a word on rows."""
    return f"== {word} design.v map {seed} {CYCLES}\n" + part(">>", "0", f"alike {CYCLES}\n")


def group(seed):
    """The cases of a seed."""
    files = made(seed)
    texts = "".join(part("--", name, files[name]) for name in ("design.v", "map"))
    return f"** random design {seed}\n{texts}{case('rows', seed)}{case('fed_rows', seed)}"


def wanted():
    """The case file."""
    return {DATA: HEAD + "".join(map(group, SEEDS))}
