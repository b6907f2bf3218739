"""Writes as a case file (docs/CASES.md), which `rt ci` plays, what `vidi sample` prints. The expectations don't come from Vidi: this tool
makes the numbers of a sample by itself, plays the registers behind the store and behind replayers by the rules of docs/FILES.md, and
compares the two traces. It stands apart on purpose: what it has of traces, clocks and findings is its own, and not that of vidi_tools/trace_kit.py and
gate_parts/found_rows.py.

The files of number s, where x_0 = s, x_(i+1) = (x_i * 1103515245 + 12345) mod 2^31, and y_i is x_i / 65536 rounded down:
- design: the module of examples/pass, and a module pipe with the same ports, which chains 1 + s mod 8 instances of it
- map: that of examples/pass, with `top pipe`
- script: `cycles N` with 100 + 8 * s; `a send V` for each of y_1 to y_s, where V is its lower 8 bits; `b take all`
- stalls: `capacity N` with 22 + s mod 32; `drain B 1` for each of the eight numbers from y_(s+1) on, where B is 1 and its lower 3 bits
"""
import os
import re
from dataclasses import dataclass, field

from vidi_tools import tool_kit
from gate_parts.page_cases import part
from vidi_tools.tool_kit import Problem

DATA = os.path.join(tool_kit.HERE, "..", "crates", "vidi_cases", "data", "sample.case")
HEAD = "## Made by tools/gate cases: a model of the registers, the store and the replayers in Python.\n"
# Bytes of a packet without contents, and what each of two channels of a byte reserves while it is idle.
PACKET, IDLE = 5, 2 * 5 + 1
NAMES = "ab"
MOST_CYCLES = 50_000


class Sample:
    """The numbers of a sample."""

    def __init__(self, number):
        state, drawn = number, []
        for _ in range(number + 8):
            state = (state * 1103515245 + 12345) % 2**31
            drawn.append(state // 65536)
        self.number, self.stages, self.cycles, self.capacity = number, 1 + number % 8, 100 + 8 * number, 22 + number % 32
        self.sends = [value % 256 for value in drawn[:number]]
        self.drains = [1 + value % 8 for value in drawn[number:]]


class Pipe:
    """Registers in a chain, each with a valid and a ready on both sides."""

    def __init__(self, stages):
        self.full, self.data = [False] * stages, [0] * stages

    def clock(self, valid, content, ready):
        """One cycle: each register takes what is before it where it is empty, else it is emptied where the next one takes."""
        before = [(valid, content), *zip(self.full, self.data)]
        behind = [not full for full in self.full[1:]] + [ready]
        now = list(zip(self.full, self.data))
        for i, (full, data) in enumerate(now):
            if before[i][0] and not full:
                now[i] = True, before[i][1]
            elif behind[i]:
                now[i] = False, data
        self.full, self.data = [full for full, _ in now], [data for _, data in now]


@dataclass
class Trace:
    """The starts of each channel with content and clock, the clocks of its ends, and the number of packets."""
    starts: tuple = field(default_factory=lambda: ([], []))
    ends: tuple = field(default_factory=lambda: ([], []))
    packets: int = 0

    def clock(self):
        """How many ends each channel has."""
        return len(self.ends[0]), len(self.ends[1])

    def add(self, starts, ends, contents):
        """Adds the events of a row, and gives the bytes of its packet."""
        clock = self.clock()
        for c in starts:
            self.starts[c].append((contents[c], clock))
        for c in ends:
            self.ends[c].append(clock)
        self.packets += bool(starts or ends)
        return PACKET + len(starts) if starts or ends else 0


class Bench:
    """The registers between what is offered at `a` and taken at `b`."""

    def __init__(self, stages):
        self.pipe, self.trace, self.flying, self.kept = Pipe(stages), Trace(), [False, False], None

    def row(self, offered, content, taken, gates):
        """Plays a row: what ended on each channel, and the bytes of its packet."""
        valid, out = self.pipe.full[-1], self.pipe.data[-1]
        if self.kept not in (None, (valid, out)):
            raise Problem("the row is unstable")
        shown = [offered and gates[0], valid and gates[1]]
        ends = [shown[0] and not self.pipe.full[0], shown[1] and taken]
        size = self.trace.add([c for c in (0, 1) if shown[c] and not self.flying[c]], [c for c in (0, 1) if ends[c]], (content, out))
        self.pipe.clock(shown[0], content, taken and gates[1])
        self.flying = [shown[c] and not ends[c] for c in (0, 1)]
        self.kept = (valid, out) if valid and not ends[1] else None
        return ends, size


def recorded(sample):
    """The trace of the recording."""
    bench, gates, used, sent = Bench(sample.stages), [True, True], 0, 0
    for cycle in range(sample.cycles):
        more = sent < len(sample.sends)
        ends, size = bench.row(more, sample.sends[sent] if more else 0, True, gates)
        sent += ends[0]
        used += size
        used -= min(used, sample.drains[cycle % 8])
        gates = [gates[c] and not ends[c] for c in (0, 1)]
        claimed = used + sum(PACKET if bench.flying[c] else IDLE for c in (0, 1) if gates[c])
        for c in (0, 1):
            if not gates[c] and claimed + IDLE <= sample.capacity:
                gates[c], claimed = True, claimed + IDLE
    return bench.trace


def covers(have, need):
    """Whether the clock is reached."""
    return all(x >= y for x, y in zip(have, need))


def replayed(sample, trace):
    """The trace of the replay, and its cycles."""
    bench = Bench(sample.stages)
    for cycle in range(MOST_CYCLES):
        have = bench.trace.clock()
        if all(len(bench.trace.starts[c]) >= len(trace.starts[c]) and have[c] >= len(trace.ends[c]) for c in (0, 1)):
            return bench.trace, cycle
        more = have[0] < len(trace.starts[0]) and covers(have, trace.starts[0][have[0]][1])
        content = trace.starts[0][have[0]][0] if more else 0
        bench.row(more, content, have[1] < len(trace.ends[1]) and covers(have, trace.ends[1][have[1]]), [True, True])
    raise Problem("the replay is short")


def findings(trace, other):
    """The lines of what differs, is missing, too much, or early."""
    lines = []
    for c, name in enumerate(NAMES):
        starts = list(zip(trace.starts[c], other.starts[c]))
        differs = [j for j, (one, two) in enumerate(starts) if one[0] != two[0]]
        lines += [f"differs {name} start {j}" for j in differs[:1]]
        events = {"start": (trace.starts[c], other.starts[c]), "end": (trace.ends[c], other.ends[c])}
        for kind, (one, two) in events.items():
            if len(one) != len(two):
                lines.append(f"{'missing' if len(one) > len(two) else 'extra'} {name} {kind} {min(len(one), len(two))}")
        clocks = {"start": [(one[1], two[1]) for one, two in starts], "end": list(zip(*events["end"]))}
        for kind, pairs in clocks.items():
            early = [j for j, (one, two) in enumerate(pairs) if not covers(two, one)]
            lines += [f"early {name} {kind} {j} count {len(early)}" for j in early[:1]]
    return lines


def said(number):
    """The exit number and the lines of `vidi sample NUMBER`."""
    sample = Sample(number)
    trace = recorded(sample)
    other, cycles = replayed(sample, trace)
    line = (f"sample {number}: stages {sample.stages} sends {len(sample.sends)} cycles {sample.cycles} packets {trace.packets} "
            f"replay {cycles}")
    found = findings(trace, other)
    return (7, [line, *found, "diverged"]) if found else (0, [line])


def case(word, marks=""):
    """A case of a number as it is written."""
    status, lines = said(int(word, 16 if "x" in word else 10))
    text = "" if "!! push 1" in marks else "".join(f"{line}\n" for line in lines)
    return f"== sample {word}\n{marks}" + part(">>", "3" if "!! push 1" in marks else str(status), text)


def wanted():
    """The case file."""
    cases = [HEAD, "** each of the eight designs; no send\n", *(case(str(number)) for number in range(8))]
    cases += ["** the first whose replay is early\n", *(case(str(number)) for number in (9, 10, 15))]
    cases += ["** the same number twice, and the largest\n", *(case(word) for word in ("600", "600", "6000"))]
    cases += ["** numbers as they may be written\n", *(case(word) for word in ("0x1", "01", "0x9"))]
    cases += ["** a push that fails, and one more; no file is fetched, started or added to\n"]
    cases += [case(word, f"!! push {k}\n") for word in ("1", "9") for k in (1, 2)]
    cases += [case("1", f"!! {call} 1\n") for call in ("fetch", "start", "append")]
    cases += ["** a file of the trace's name stays\n", "-- trace\nas it was\n", case("1")]
    words = ["sample", "sample 6001", "sample 1 2", "sample x", "sample -1", "sample 1x", "sample 0x", "sample 0x1771",
             "sample 340282366920938463463374607431768211456", "Sample 1", "sample --help"]
    cases += ["** words that are no sample\n", *(f"== {line}\n" + part(">>", "1", "vidi: usage\n") for line in words)]
    return {DATA: "".join(cases)}


def told(words):
    """What is wanted of these numbers."""
    if not words or not all(re.fullmatch("[0-9]+", word) for word in words):
        raise Problem("wants numbers of samples")
    return "".join(f"{line}\n" for word in words for line in said(int(word))[1])
