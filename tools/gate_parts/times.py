"""Prints for each trace how many microseconds its decoding, the steps of all cursors over it and its encoding take, how many steps there are,
and whether the bytes are the same again: for the measures of docs/SPEED.md.

    gate times TRACE ..

The program is tools/gate_parts/times.rt.txt, built anew over the crates as `vidi-tools build` does, UNPROVED; that takes a minute or two. Its
name has another ending than .rt, which `rt ci` accepts in crates alone.
"""
import argparse
import os
import pathlib
import shutil
import subprocess
import tempfile

from gate_parts.edits import PARTS, ROOT, Kit
from vidi_tools import build, tool_kit
from vidi_tools.tool_kit import Problem

SOURCE = pathlib.Path(__file__).with_name("times.rt.txt")
USES = ("vidi_io", "trace_code")


def repository(room):
    """Makes a repository of the program and of the crates that it stands on; the folder of the program in it."""
    kit, program = Kit(), room / "crates" / "times"
    below = dict.fromkeys(low for it in USES for low in [*kit.below(it), it])
    for crate, part in ((crate, part) for crate in below for part in PARTS):
        if (ROOT / "crates" / crate / part).is_dir():
            shutil.copytree(ROOT / "crates" / crate / part, room / "crates" / crate / part)
    (program / "src").mkdir(parents=True)
    shutil.copy(SOURCE, program / "src" / "main.rt")
    rows = [f"{crate}: {' '.join(kit.uses[crate])}" for crate in below]
    tool_kit.write(room / "crates.txt", "\n".join([*rows, f"times: {' '.join(USES)}\n"]))
    return program


def main():
    """Builds and measures."""
    parser = argparse.ArgumentParser(description=__doc__, formatter_class=argparse.RawDescriptionHelpFormatter)
    parser.add_argument("traces", metavar="TRACE", nargs="+", help="a trace, such as make trace makes")
    tool_kit.add_verbose(parser)
    options = tool_kit.parse_options(parser)
    lacking = [it for it in options.traces if not os.path.isfile(it)]
    if lacking:
        raise Problem(f"{lacking[0]}: no such file")
    with tempfile.TemporaryDirectory() as folder:
        program = build.built(str(repository(pathlib.Path(folder, "repository"))), folder, options)
        if subprocess.run([program, *options.traces]).returncode:
            raise Problem("a file can't be read, or is no trace")
