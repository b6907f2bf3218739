"""Plays random designs whose scripts ask for resets, in Icarus and with `vidi run`, `vidi record` and `vidi replay`.

    gate check resets [--random N] [--seed S] [--keep FOLDER]

At a reset Icarus begins its simulation of the design anew. When it comes, which gates are up, and what a replay offers is worked out from docs/FILES.md
row by row (vidi_tools/icarus_rows.py, gate_parts/replay_rows.py). First the cases of gate_parts/reset_cases.py and reset_record_cases.py are played, which
were made by hand or by models. What the program vidi doesn't know yet is skipped, with a line that says so.
"""
import argparse
import collections
import os
import random
import re
import shutil
import subprocess
import sys
import tempfile

from gate_parts import replay_rows
from gate_parts import reset_cases
from gate_parts import reset_record_cases
from make_kinds import resets
from vidi_tools import icarus_rows
from vidi_tools import tool_kit
from vidi_tools import trace_kit
from vidi_tools.tool_kit import Problem

PASS = os.path.join(tool_kit.EXAMPLES, "pass")


class Wrong(Exception):
    """What isn't as it was worked out: one line."""


def compared(what, got, wanted):
    """Refuses another text than the wanted one, with its first line that differs."""
    for our, their in zip(got.splitlines() + ["(no line)"], wanted.splitlines() + ["(no line)"]):
        if our != their:
            raise Wrong(f"{what}: {our!r}, and {their!r} is wanted")


class Folder:
    """A folder with a design and its map, in Icarus."""

    def __init__(self, path, texts):
        self.path = path
        for name, text in texts.items():
            self.write(name, text)
        self.plan = icarus_rows.Map(self.file("map"))
        self.design = icarus_rows.Design(self.file("design.v"), self.plan, path)
        self.widths = self.design.widths

    def file(self, name):
        """The path of a file."""
        return os.path.join(self.path, name)

    def write(self, name, content):
        """Writes a file."""
        tool_kit.write(self.file(name), content)

    def anew(self):
        """The design in its initial state."""
        self.design.close()
        self.design.begin(self.design.program, self.plan)
        return self.design

    def rows(self, stalls=None):
        """The rows of the script's run, or of its recording, and the channel that is unstable."""
        script = icarus_rows.lines(self.file("script"))
        room = icarus_rows.Room(self.widths, self.file(stalls), bool(icarus_rows.times_of(script))) if stalls else icarus_rows.AllUp(self.widths)
        if stalls and room.capacity < room.need():
            raise Problem(f"too small need {room.need()} given {room.capacity}")
        return icarus_rows.play(self.plan, self.anew(), script, room)[:2]

    def trace(self, rows):
        """The trace of rows."""
        return icarus_rows.trace_of(self.plan, self.widths, rows)

    def bytes_of(self, rows):
        """The bytes of that trace."""
        trace = self.trace(rows)
        return trace_kit.encoded(trace.channels, trace.packets)

    def recording(self, stalls):
        """What a recording says, and the bytes of its trace."""
        rows, unstable = self.rows(stalls)
        said = f"vidi: unstable {unstable} cycle {len(rows)}" if unstable else f"recorded {len(rows)} cycles {len(self.trace(rows).packets)} packets"
        return said, self.bytes_of(rows)

    def replay(self, content, cycles):
        """What a replay of these bytes says, its status, and the bytes of OUT."""
        lines, status, rows = replay_rows.replayed(self.plan, self.anew(), trace_kit.read(content), cycles)
        return lines, status, self.bytes_of(rows)

    def said(self, *words):
        """What vidi prints in the folder, and its status."""
        done = subprocess.run([tool_kit.wanted_program(), *words], cwd=self.path, capture_output=True, text=True)
        return done.stdout, done.returncode

    def content(self, name):
        """The bytes of a file."""
        with open(self.file(name), "rb") as file:
            return file.read()


def pass_texts(**more):
    """The files of examples/pass, some of them others."""
    return {**{name: tool_kit.text_of(os.path.join(PASS, name)) for name in ("design.v", "map")}, **more}


def play_recordings():
    """Icarus says of the recordings and replays that are cases what stands there. How many there are."""
    recordings = [("pass", script, stalls) for _, script, stalls, _, digits in reset_record_cases.WORKED if digits]
    recordings += [(name, script, stalls) for name, _, script, stalls in reset_record_cases.modelled()]
    for name, script, stalls in recordings:
        case, (_, design, mapped) = reset_record_cases.Case(name, script), reset_cases.DESIGNS[name]
        with tempfile.TemporaryDirectory() as path:
            folder = Folder(path, {"design.v": design, "map": mapped, "script": script, "stalls": stalls})
            line, content = folder.recording("stalls")
            wanted, trace = case.recording(stalls)
            compared(f"{name} recorded behind {stalls!r}", f"{line}\n{content.hex()}", f"{wanted}\n{trace.hex()}")
            folder.design.close()
    with tempfile.TemporaryDirectory() as path:
        folder = Folder(path, pass_texts())
        for title, packets, cycles, lines, out in reset_record_cases.REPLAYS:
            got, _, content = folder.replay(reset_record_cases.pass_trace(packets), cycles)
            compared(f"replay, {title}", "\n".join([*got, content.hex()]), "\n".join([*lines, reset_record_cases.pass_trace(out).hex()]))
        folder.design.close()
    return len(recordings) + len(reset_record_cases.REPLAYS)


def play_cases():
    """Icarus says of the runs that are cases what stands there, but of the one that has 50,000 cycles. How many there are."""
    found = [one for one in reset_cases.played() if not one[2].startswith("cycles 50000")]
    for name, named, script, lines in found:
        _, design, mapped = reset_cases.DESIGNS[name]
        with tempfile.TemporaryDirectory() as path:
            folder = Folder(path, {"design.v": design, "map": named or mapped, "script": script})
            compared(f"{name} with {script!r}", icarus_rows.text_of_rows(*folder.rows()), lines)
            folder.design.close()
    return len(found)


def known(path):
    """Which of run, record and replay take a reset in mid-run, by the first one that was made by hand."""
    _, script, stalls, said, digits = reset_record_cases.WORKED[0]
    folder = Folder(path, pass_texts(script=script, stalls=stalls, given=bytes.fromhex(digits)))
    folder.design.close()
    found = {"run": folder.said("run", "design.v", "map", "script")[1] == 0,
             "record": folder.said("record", "design.v", "map", "script", "stalls", "trace")[0] == said + "\n",
             "replay": not re.search("reset in packet", folder.said("replay", "design.v", "map", "given", "9", "out")[0])}
    return {name for name, is_there in found.items() if is_there}


class Checker:
    """Plays designs, and counts what came."""

    def __init__(self, can):
        self.can, self.seen = can, collections.Counter()

    def play(self, folder, seed):
        """A random design: its run, two recordings, and replays of them on it."""
        draw = random.Random(seed)
        rows, unstable = folder.rows()
        self.count(rows)
        if "run" in self.can:
            compared("vidi run", folder.said("run", "design.v", "map", "script")[0], icarus_rows.text_of_rows(rows, unstable))
        folder.write("wide", "capacity 65536\n")
        for stalls in ("wide", "stalls"):
            said, content = folder.recording(stalls)
            self.count(trace_kit.read(content).packets)
            if "record" in self.can:
                compared(f"vidi record, {stalls}", folder.said("record", "design.v", "map", "script", stalls, "trace")[0], said)
                compared(f"the trace, {stalls}", folder.content("trace").hex(), content.hex())
            most = 3 * len(rows) + 20
            for cycles in {most, draw.randrange(1, most), max(1, len(rows) // 2)}:
                self.replay(folder, content, cycles)
        self.replay(folder, self.foreign(folder, draw), most)

    def replay(self, folder, content, cycles):
        """A replay of these bytes."""
        lines, status, out = folder.replay(content, cycles)
        self.seen[f"replays with status {status}"] += 1
        if "replay" in self.can:
            folder.write("trace", content)
            said, got = folder.said("replay", "design.v", "map", "trace", str(cycles), "out")
            compared(f"vidi replay for {cycles} cycles of {content.hex()}", f"{said}exit {got}", "\n".join([*lines, f"exit {status}"]))
            compared("OUT", folder.content("out").hex(), out.hex())

    def foreign(self, folder, draw):
        """A trace of the design's channels by chance, with resets."""
        table, packets = folder.trace([]).channels, []
        for _ in range(draw.randrange(1, 4)):
            packets += trace_kit.drawn(draw, table, draw.randrange(5)) + [trace_kit.Packet({}, [], draw.randrange(3), True)]
        return trace_kit.encoded(table, packets[:-1] if draw.random() < 0.7 else packets)

    def count(self, ones):
        """Counts rows or packets, and the resets among them."""
        self.seen["rows and packets"] += len(ones)
        self.seen["resets"] += sum(one[-1] for one in ones)


def main():
    """Plays all."""
    parser = argparse.ArgumentParser(description=__doc__, formatter_class=argparse.RawDescriptionHelpFormatter)
    parser.add_argument("--random", type=int, default=10, metavar="N", help="how many random designs (10)")
    parser.add_argument("--seed", type=int, default=1, metavar="S", help="the number of the first one")
    parser.add_argument("--keep", metavar="FOLDER", help="keep the files of what was wrong in FOLDER")
    options = tool_kit.parse_options(parser)
    if not shutil.which("iverilog") or not shutil.which("vvp"):
        print("skipped, Icarus isn't installed: resets in mid-run")
        return
    try:
        print(f"{play_cases()} runs, {play_recordings()} recordings and replays with resets are in Icarus what the cases have")
    except Wrong as found:
        raise Problem(str(found)) from found
    with tempfile.TemporaryDirectory() as path:
        checker, wrong = Checker(known(path)), 0
    for name in sorted({"run", "record", "replay"} - checker.can):
        print(f"skipped, this vidi has no resets in mid-run: {name}")
    for seed in range(options.seed, options.seed + options.random):
        with tempfile.TemporaryDirectory() as path:
            folder = Folder(path, resets.made(seed))
            try:
                checker.play(folder, seed)
            except Wrong as found:
                wrong += 1
                print(f"random design {seed}: {found}", flush=True)
                if options.keep:
                    shutil.copytree(path, os.path.join(options.keep, f"resets_{seed}"), dirs_exist_ok=True)
            folder.design.close()
    print(f"{options.random} random designs with resets: {', '.join(f'{count} {what}' for what, count in sorted(checker.seen.items()))}; {wrong} wrong")
    sys.exit(1 if wrong else 0)
