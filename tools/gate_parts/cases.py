"""Writes the case files that are made, which `rt ci` plays, and says which of them were other texts; expectations never come from Vidi.

    gate cases              writes all
    gate cases --check      writes nothing; status 1 where one isn't what would be written
    gate cases --of sample NUMBER..     prints what is wanted of these samples
    gate cases --of wrap DESIGN         prints what is wanted of a wrapped design: held, wide, many, full or deep

pages      docs/LANGUAGE.md, docs/FILES.md and examples/ as cases
print      what the examples' designs are printed as
wrap       wrapped designs, written by a model of its own
sample     what samples come to, by a model of its own
random     wrapped random designs
bursts     what `vidi bursts` says of traces, by a reader of its own
move       moved completions of traces by chance, by a model of its own
resets     what `vidi run` says of scripts that ask for resets, by models of its own
records    what `vidi record` and `vidi replay` make of them, by the same models
count      of each program that plays cases the names and numbers of its cases, the last
"""
import sys

from gate_parts import burst_cases
from gate_parts import count_cases
from gate_parts import move_cases
from gate_parts import page_cases
from gate_parts import print_cases
from gate_parts import reset_cases
from gate_parts import reset_record_cases
from gate_parts import sample_cases
from gate_parts import shim_random_cases
from gate_parts import wrap_cases
from vidi_tools import tool_kit
from vidi_tools.tool_kit import Problem

KINDS = {"pages": page_cases, "print": print_cases, "wrap": wrap_cases, "sample": sample_cases, "random": shim_random_cases, "bursts": burst_cases,
         "move": move_cases, "resets": reset_cases, "records": reset_record_cases, "count": count_cases}


def main():
    """Writes, compares or prints."""
    words = sys.argv[1:]
    if words in (["--help"], ["-h"]):
        print(__doc__.strip())
        return
    if words[:1] == ["--of"]:
        told = getattr(KINDS.get("".join(words[1:2])), "told", None)
        if not told:
            raise Problem("--of wants sample NUMBER.. or wrap DESIGN")
        sys.stdout.write(told(words[2:]))
        return
    if words not in ([], ["--check"]):
        raise Problem(f"wants no word, --check or --of, not {' '.join(words)}; see gate cases --help")
    count = sum(tool_kit.keep(kind.wanted(), bool(words), "tools/gate cases") for kind in KINDS.values())
    print(f"{count} files of cases are as they are made")
