"""Writes as a case file (docs/CASES.md), which `rt ci` plays, what `vidi record` and `vidi replay` make of resets in mid-run. What is expected was made by
hand, or by the models of gate_parts/reset_cases.py behind the store of vidi_tools/icarus_rows.py and under the replayers of gate_parts/replay_rows.py;
`gate check resets` plays the same in Icarus.
"""
import os
import tempfile

from gate_parts import replay_rows
from gate_parts import reset_cases
from gate_parts.page_cases import part
from vidi_tools import icarus_rows
from vidi_tools import tool_kit
from vidi_tools import trace_kit
from vidi_tools.tool_kit import Problem

DATA = os.path.join(tool_kit.HERE, "..", "crates", "vidi_cases", "data", "reset_records.case")
HEAD = "## Made by tools/gate cases: recordings and replays with resets. What is expected was made by hand, or by models in Python.\n"
PASS_HEAD = "5649444954524332" + "02" + "0001610108" + "0101620108"
BETWEEN = PASS_HEAD + "010000010105" + "020000" + "010000010106" + "010000020206" + "0000000004"
# Of examples/pass by hand: what is shown, the script, the plan, the line of the recording, and the bytes of its trace.
WORKED = [
    ("between two sends", "cycles 8\na send 5\na send 6\nreset at 1\nb take all\n", "capacity 25\n", "recorded 8 cycles 4 packets", BETWEEN),
    ("two transactions are aborted, and the send is offered again", "cycles 8\na send 5\na send 6\nreset at 2\nb wait 3\nb take all\n", "capacity 25\n",
     "recorded 8 cycles 5 packets",
     PASS_HEAD + "010000010105" + "01000003000605" + "020000" + "010000010106" + "010000020206" + "0000000005"),
    ("the third reset has no permit", "cycles 8\na send 5\nreset at 1\nreset at 2\nreset at 3\nb take all\n", "capacity 25\ndrain 0 1\n",
     "recorded 8 cycles 3 packets", PASS_HEAD + "010000010105" + "020000" + "020001" + "0000000003"),
    ("no packet of a reset for a row that isn't made", "cycles 4\na send 5\nreset at 4\n", "capacity 25\n", "recorded 4 cycles 2 packets",
     PASS_HEAD + "010000010105" + "010000020005" + "0000000002"),
    ("a reset far behind the last row asks for its room too", "cycles 1\nreset at 49999\na send 5\n", "capacity 25\n", "recorded 1 cycles 1 packets",
     PASS_HEAD + "010000010105" + "0000000001"),
    ("no room for a reset", "cycles 8\nreset at 49999\na send 5\n", "capacity 24\n", "vidi: refused stalls: too small need 25 given 24", None)]
# Replays on examples/pass by hand: what is shown, the packets, the cycles, what is said, and the packets of OUT.
A5, A6, B5, B6, RESET = "010000010105", "010000010106", "010000020205", "010000020206", "020000"
REPLAYS = [
    ("all of it", [A5, RESET, A6, B6], 10, ["replayed 3 cycles, no divergence"], [A5, RESET, A6, B6]),
    ("before the reset", [A5, RESET, A6, B6], 1, ["short after 1 cycles", "waits reset 0"], [A5]),
    ("behind the reset", [A5, RESET, A6, B6], 2, ["short after 2 cycles", "epoch 1", "waits b start 0"], [A5, RESET, A6]),
    ("a reset alone takes two rows", [RESET], 5, ["replayed 2 cycles, no divergence"], ["020001"]),
    ("a reset alone in one row", [RESET], 1, ["short after 1 cycles", "waits reset 0"], []),
    ("two resets alone", [RESET, RESET], 5, ["replayed 3 cycles, no divergence"], ["020001", "020001"]),
    ("a reset waits for what completed before it", [A5, B5, RESET, A6], 1,
     ["short after 1 cycles", "held reset 0", "awaits b have 0 need 1", "waits b start 0"], [A5]),
    ("an output that is aborted may be missing", [A5, "010000020005", RESET, A6], 9, ["missing b start 0", "diverged"], [A5, RESET, A6]),
    ("an input that is aborted is waited for", [A5, "010000010006", RESET, A6], 9, ["extra b start 0", "diverged"],
     [A5, "01000003000605", RESET, A6]),
    ("what the design lacks is said with its epoch", [A5, RESET, B5], 3, ["short after 3 cycles", "epoch 1", "waits b start 0"], [A5, RESET])]
# Recordings by the models: the design, the script, and plans.
PLANS = ["capacity {}\n", "capacity {}\ndrain 0 1\n", "capacity {}\ndrain 3 2\ndrain 0 1\n", "capacity {}\ndrain 1 1\n"]
EVERY = "cycles 8\n" + "".join(f"reset at {time}\n" for time in range(1, 8)) + "".join(f"a send {value}\n" for value in range(1, 9)) + "b take all\n"
MODELLED = [
    ("pass", "resets in every row, behind stores of every kind", EVERY, [plan.format(room) for room in (25, 28, 40) for plan in PLANS]),
    ("pass", "a gate of a channel in flight goes down with the reset", "cycles 12\na send 1\na send 2\na send 3\nreset at 3\nb wait 5\nb take all\n",
     [plan.format(room) for room in (25, 31) for plan in PLANS]),
    ("store", "a memory", "cycles 12\nw send 1 7\nq after w 1\nq send 1\nq after r 1\nq send 1\nreset at 3\nreset at 8\nr take all\n",
     [plan.format(60) for plan in PLANS]),
    ("aged", "all state", "cycles 9\nb take 2\nb wait 1\nb take all\nreset at 2\nreset at 5\n", [plan.format(30) for plan in PLANS]),
    ("flick", "the row behind a reset is never unstable", "cycles 6\nreset at 2\nreset at 4\n", ["capacity 13\n", "capacity 13\ndrain 0 1\n"])]
# Recordings whose appends fail: the design, what is shown, the script, the plan.
CUT = [("pass", "each append of a recording with resets fails in turn", WORKED[1][1].replace("reset at 2\n", "reset at 2\nreset at 3\n"),
        "capacity 40\ndrain 7 1\n")]


class Case:
    """A design by its model, with a map and a script."""

    def __init__(self, name, script="cycles 1\n"):
        self.name, self.script_text = name, script
        self.model, _, mapped = reset_cases.DESIGNS[name]
        with tempfile.TemporaryDirectory() as folder:
            for file, text in (("map", mapped), ("script", script)):
                tool_kit.write(os.path.join(folder, file), text)
            self.plan, self.script = icarus_rows.Map(os.path.join(folder, "map")), icarus_rows.lines(os.path.join(folder, "script"))

    def design(self):
        """The design at its start."""
        return self.model(self.plan)

    def bytes_of(self, rows):
        """The bytes of the trace of rows."""
        trace = icarus_rows.trace_of(self.plan, self.model.widths, rows)
        return trace_kit.encoded(trace.channels, trace.packets)

    def room(self, stalls):
        """The store of a plan."""
        with tempfile.TemporaryDirectory() as folder:
            tool_kit.write(os.path.join(folder, "stalls"), stalls)
            return icarus_rows.Room(self.model.widths, os.path.join(folder, "stalls"), bool(icarus_rows.times_of(self.script)))

    def recording(self, stalls):
        """The line and the bytes of a recording; no bytes where it is refused."""
        room = self.room(stalls)
        if room.capacity < room.need():
            return f"vidi: refused stalls: too small need {room.need()} given {room.capacity}", None
        rows, unstable, _ = icarus_rows.play(self.plan, self.design(), self.script, room)
        content = self.bytes_of(rows)
        packets = len(trace_kit.read(content).packets)
        return f"vidi: unstable {unstable} cycle {len(rows)}" if unstable else f"recorded {len(rows)} cycles {packets} packets", content

    def appends(self, stalls):
        """The pieces in which a recording is written: the header, what drains in each cycle, the rest, and the end mark."""
        room = self.room(stalls)
        rows, _, _ = icarus_rows.play(self.plan, self.design(), self.script, room)
        content, head = self.bytes_of(rows), len(self.bytes_of([])) - len(trace_kit.end_mark(0))
        pieces, at = [content[:head]], head
        for size in [*room.drained, room.used]:
            pieces, at = pieces + [content[at:at + size]] * (size > 0), at + size
        return pieces + [content[at:]]

    def replay(self, content, cycles):
        """The lines, the status and the bytes of OUT of a replay."""
        lines, status, rows = replay_rows.replayed(self.plan, self.design(), trace_kit.read(content), cycles)
        return lines, status, self.bytes_of(rows)


def digits(mark, name, content):
    """A file in digits."""
    return part(mark, name, "".join(f"{content[at:at + 60].hex()}\n" for at in range(0, len(content), 60)))


def recorded(case, stalls, line, content, cycles):
    """A case of a recording, and one of the replay of its trace on the same design for so many cycles."""
    status = "4" if content is None else "5" if "unstable" in line else "0"
    text = "== record d m s p trace\n" + part("--", "s", case.script_text) + part("--", "p", stalls) + part(">>", status, f"{line}\n")
    if content is None:
        return text
    return text + digits(">x", "trace", content) + "++" + replayed(case, "trace", content, cycles)[2:]


def replayed(case, name, content, cycles):
    """A case of a replay."""
    lines, status, out = case.replay(content, cycles)
    return f"== replay d m {name} {cycles} out\n" + part(">>", str(status), "".join(f"{line}\n" for line in lines)) + digits(">x", "out", out)


def pass_trace(packets):
    """The trace of these packets of examples/pass."""
    return bytes.fromhex(PASS_HEAD + "".join(packets) + "00" + len(packets).to_bytes(4, "big").hex())


def by_hand():
    """The cases that were made by hand; the models have to say the same."""
    for title, script, stalls, line, hexadecimal in WORKED:
        case, wanted_content = Case("pass", script), bytes.fromhex(hexadecimal) if hexadecimal else None
        if case.recording(stalls) != (line, wanted_content):
            raise Problem(f"{title}: the model says {case.recording(stalls)}")
        yield f"** {title}\n" + reset_cases.files("pass") + recorded(case, stalls, line, wanted_content, 10)
    case = Case("pass")
    yield "** replays of traces with resets\n" + reset_cases.files("pass")
    for title, packets, cycles, lines, out in REPLAYS:
        content = pass_trace(packets)
        got = case.replay(content, cycles)
        if (got[0], got[2]) != (lines, pass_trace(out)):
            raise Problem(f"{title}: the model says {got[0]}, {got[2].hex()}")
        yield f"## {title}\n" + replayed(case, "trace", content, cycles).replace("\n", "\n" + digits("-x", "trace", content), 1)


def cut_off(case, stalls):
    """Each append of a recording fails in turn and keeps none, or any number, of its bytes; what is there is salvaged."""
    pieces = case.appends(stalls)
    out = [part("--", "s", case.script_text) + part("--", "p", stalls)]
    for number, piece in enumerate(pieces):
        for kept in range(len(piece)):
            content = b"".join(pieces[:number]) + piece[:kept]
            out.append(f"== record d m s p trace\n!! append {number + 1}{f' keeps {kept}' * (kept > 0)}\n" + part(">>", "3", "") +
                       digits(">x", "trace", content) + "++ salvage trace out\n")
            if number == 0:
                out.append(part(">>", "4", "vidi: refused trace: bad trace at 0\n"))
                continue
            whole, count = trace_kit.ended(content)
            out.append(part(">>", "0", f"salvaged {count} packets\n") + digits(">x", "out", whole))
    return "".join(out)


def modelled():
    """The recordings by the models: (design, title, script, plan)."""
    return [(name, title, script, plan) for name, title, script, plans in MODELLED for plan in plans]


def text():
    """The case file."""
    out, before = [HEAD, *by_hand()], None
    for name, title, script, plan in modelled():
        case = Case(name, script)
        out += [f"** {title}\n", reset_cases.files(name)] if title != before else []
        out.append(recorded(case, plan, *case.recording(plan), 40))
        before = title
    for name, title, script, stalls in CUT:
        out += [f"** {title}\n", reset_cases.files(name), cut_off(Case(name, script), stalls)]
    return "".join(out)


def wanted():
    """The case file."""
    return {DATA: text()}
