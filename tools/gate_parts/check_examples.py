"""Plays each example with `vidi run` and compares the exit status and the text with what its run.out has. Where it has a plan of
stalls, records it too and compares what `vidi record` and then `vidi dump` of the trace print with its record.out, and where it has an AXI file
what `vidi bursts` prints with its bursts.out.

    gate check examples [FOLDER]

An example is a folder of FOLDER, or of examples/, with the files design.v, map, script and run.out, and maybe stalls and record.out, axi and
bursts.out.
"""
import os
import subprocess
import sys
import tempfile

from vidi_tools import commands
from vidi_tools import tool_kit


def printed(vidi, folder, *words):
    """The text that vidi prints for these words, and what is wrong with its status, or None."""
    run = subprocess.run([vidi, *words], cwd=folder, capture_output=True)
    return run.stdout, f"{words[0]}: status {run.returncode}, {run.stdout[:200]!r}" if run.returncode else None


def parting(ours, folder, name):
    """Where the text parts from that of the file, or None."""
    expected = open(os.path.join(folder, name), "rb").read()
    if ours == expected:
        return None
    for number, (our, their) in enumerate(zip(ours.splitlines() + [b"(no line)"], expected.splitlines() + [b"(no line)"]), 1):
        if our != their:
            return f"line {number}: vidi prints {our.decode()!r}, {name} has {their.decode()!r}"
    return f"the last newline of {name} differs"


def recording_fault(vidi, folder):
    """What is wrong with the recording of this example, or None."""
    with tempfile.TemporaryDirectory() as room:
        trace = os.path.join(room, "trace")
        recorded, fault = printed(vidi, folder, "record", "design.v", "map", "script", "stalls", trace)
        dumped, broken = printed(vidi, folder, "dump", trace)
        found = fault or broken or parting(recorded + dumped, folder, "record.out")
        if found or not commands.has("bursts") or not os.path.exists(os.path.join(folder, "axi")):
            return found
        grouped, fault = printed(vidi, folder, "bursts", trace, "axi")
        return fault or parting(grouped, folder, "bursts.out")


def fault(vidi, folder):
    """What is wrong with this example, or None."""
    text, found = printed(vidi, folder, "run", "design.v", "map", "script")
    found = found or parting(text, folder, "run.out")
    if found or not os.path.exists(os.path.join(folder, "stalls")):
        return found
    return recording_fault(vidi, folder)


def main():
    """Plays them."""
    vidi, examples = tool_kit.wanted_program(), (sys.argv[1:] or [tool_kit.EXAMPLES])[0]
    names = tool_kit.examples(examples)
    if not names:
        sys.exit(f"{examples} has no example")
    faults = {name: fault(vidi, os.path.join(examples, name)) for name in names}
    for name, found in faults.items():
        print(f"example {name}: {found or 'as is expected'}")
    print(f"{len(faults)} examples played, {sum(map(bool, faults.values()))} wrong")
    sys.exit(1 if any(faults.values()) else 0)
