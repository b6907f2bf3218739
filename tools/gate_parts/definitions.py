"""Prints where each definition stands: the files of specs/ with their first lines, crate after crate in the order of crates.txt.

    gate definitions            all
    gate definitions WORD       the files whose first line, name or definitions have WORD, and of these definitions the lines
"""
import os
import re
import sys

from vidi_tools import tool_kit
from vidi_tools.tool_kit import Problem

TOP = os.path.dirname(tool_kit.HERE)
DEFINED = re.compile(r"^ *(?:(?:pub|abbrev|unfoldable|record|data|opaque) )+(\S+)")


def crates():
    """The crates, in the order of crates.txt."""
    lines = (line.partition(":") for line in tool_kit.text_of(os.path.join(TOP, "crates.txt")).splitlines() if not line.startswith("#"))
    return [name.split()[0] for name, colon, _ in lines if colon]


def files(crate):
    """The files of specs/ of a crate: their names and texts."""
    folder = os.path.join(TOP, "crates", crate, "specs")
    names = sorted(name for name in os.listdir(folder) if name.endswith(".antt") and name != "Lib.antt") if os.path.isdir(folder) else []
    return [(name.removesuffix(".antt"), tool_kit.text_of(os.path.join(folder, name))) for name in names]


def about(text):
    """The first sentence of a file."""
    lines = []
    for line in text.splitlines():
        if not line.startswith("--"):
            break
        lines.append(line[2:].strip())
    said = " ".join(lines).strip()
    return re.match(r".*?(?:\.(?= )|$)", said)[0] or "(its first line says nothing)"


def main():
    """Prints the register."""
    word, count = "".join(sys.argv[1:2]), 0
    for crate in crates():
        for name, text in files(crate):
            defined = [line for line in text.splitlines() if (found := DEFINED.match(line)) and word and word.lower() in found[1].lower()]
            if word and not defined and word.lower() not in f"{name} {about(text)}".lower():
                continue
            count += 1
            print(f"{crate}/specs/{name}: {about(text)}", *(f"    {line.strip()}" for line in defined), sep="\n")
    if not count:
        raise Problem(f"no file of specs/ has {word}")
