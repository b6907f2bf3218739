"""Writes the files `args` and `stdout` of each program that plays cases (docs/CASES.md): the names of its case files, and that each case in
them comes out. Such a program is each crate in whose folder data, or in a folder below it, a case file lies. A case is counted by its marked
line alone, so a player that leaves one out is found.
"""
import glob
import os
import re

from vidi_tools import tool_kit
from vidi_tools.tool_kit import Problem

CRATES = os.path.join(tool_kit.HERE, "..", "crates")
CASE = re.compile(r"^(==|\+\+|=!)( |$)", re.M)


def counted(data):
    """The names of the case files in a folder and below it, a line each, and what is printed of them."""
    found = (os.path.relpath(path, data) for path in glob.glob(os.path.join(data, "**", "*.case"), recursive=True))
    names = sorted(found, key=lambda name: (os.path.dirname(name), name))
    counts = {name: len(CASE.findall(tool_kit.text_of(os.path.join(data, name)))) for name in names}
    lines = [f"{name}: {count} of {count}\n" for name, count in [*counts.items(), ("all", sum(counts.values()))]]
    return {"args": "".join(f"{name}\n" for name in names), "stdout": "".join(lines)}


def wanted():
    """The files of all programs."""
    made = {}
    for data in glob.glob(os.path.join(CRATES, "*", "data")):
        files = counted(data)
        if files["args"]:
            made.update({os.path.join(os.path.dirname(data), name): text for name, text in files.items()})
    if not made:
        raise Problem("no crate has a case file in its folder data")
    return made
