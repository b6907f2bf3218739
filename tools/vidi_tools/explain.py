"""Says where two traces part, why a run is unstable, which rule of AXI4 a trace breaks, or what blocks a move.

    explain A B                        each finding of `vidi compare A B`, with both packets, both values and the transactions round it:
                                       the first in time, then the others by channel, then those that only come early
    explain --run DESIGN MAP SCRIPT    of an unstable run the pin that changed, from what to what (Icarus plays the design)
    explain --axi TRACE AXI            of the rule that `vidi bursts TRACE AXI` finds broken the address, the beats and their packets
    explain --move TRACE CH J before CH K      or after: what blocks `vidi move` of these words, and how far the completion may go

Status 0 where there is nothing to explain, 7 where the traces part, 5 where the run is unstable, 4 where a rule is broken or a move blocked.
"""
import argparse
import os
import re
import sys
import tempfile

from vidi_tools import axi_kit
from vidi_tools import move_kit
from vidi_tools import tool_kit
from vidi_tools import trace_kit
from vidi_tools.tool_kit import Problem

AROUND = 2
MEANINGS = {"differs": "the contents differ", "missing": "B hasn't it", "extra": "A hasn't it",
            "early": "in B it comes before completions that A had before it"}


class Trace:
    """A trace as `vidi dump` tells it: the packets of each channel's transactions, epoch by epoch, and the names of channels in order."""

    def __init__(self, path):
        text, status = tool_kit.vidi("dump", path)
        if status:
            raise Problem(f"{path}: {text.strip() or 'vidi dump failed'}")
        events, self.widths, self.length, _ = tool_kit.events_of(text, path)
        self.found, self.names = [tool_kit.transactions_of(part) for part in tool_kit.epochs_of(events)], list(self.widths)
        self.clocks, counts, epoch = {}, {}, 0
        for words in (line.split() for line in text.splitlines()):
            if words[1:] == ["reset"]:
                counts, epoch = {}, epoch + 1
            if "clock" in words:
                at = counts.setdefault((words[1], words[2]), 0)
                self.clocks[epoch, words[1], words[2], at] = [int(word) for word in words[words.index("clock") + 1:]]
                counts[words[1], words[2]] = at + 1

    def one(self, epoch, name, at):
        """A transaction, or None."""
        ones = self.found[epoch].get(name, [])
        return ones[at] if at < len(ones) else None


class Finding:
    """A line of `vidi compare`, of a channel's event in an epoch; or of a reset, which has no channel."""

    def __init__(self, epoch, line):
        self.epoch, self.line = epoch, line
        self.kind, *words, self.at = line.split(" count ")[0].split()
        self.name, self.event = words if len(words) == 2 else (None, words[0])
        self.at = int(self.at)


def findings_of(text):
    """The findings of `vidi compare`."""
    found, epoch = [], 0
    for line in text.splitlines()[:-1]:
        if line.startswith("epoch "):
            epoch = int(line.split()[1])
        else:
            found.append(Finding(epoch, line))
    return found


def numbers(content):
    """A content in decimal and hexadecimal."""
    return " ".join(f"{value} (0x{value:x})" for value in content) or "no content"


def said(one):
    """A transaction's packets and content."""
    if one is None:
        return "not there"
    return f"packets {one.start} to {'-' if one.end is None else one.end}, {numbers(one.content)}"


def difference(trace, name, one, other):
    """Which content ports differ, in which bits."""
    for at, (a, b) in enumerate(zip(one.content, other.content)):
        if a != b:
            width = trace.widths[name][1][at]
            bits = [bit for bit in range(width) if (a ^ b) >> bit & 1]
            yield f"  content {at}: A {a} (0x{a:x}), B {b} (0x{b:x}), bits that differ: {' '.join(map(str, bits))}"


def waits_for(traces, finding):
    """The channels of whose completions B had fewer before this event than A."""
    a, b = (trace.clocks.get((finding.epoch, finding.event, finding.name, finding.at)) for trace in traces)
    for channel, had, has in zip(traces[0].names, a or [], b or []):
        if has < had:
            yield f"  completions of {channel} before it: A {had}, B {has}"


def neighbours(traces, finding):
    """The transactions of this channel round a finding, of both traces side by side, and what else was in flight in A then."""
    epoch, name, at = finding.epoch, finding.name, finding.at
    for near in range(max(0, at - AROUND), at + AROUND + 1):
        ones = [trace.one(epoch, name, near) for trace in traces]
        if any(ones):
            yield f"  {'>' if near == at else ' '} {name} {near}: A {said(ones[0])}; B {said(ones[1])}"
    centre = traces[0].one(epoch, name, at)
    for other in traces[0].names if centre else []:
        for count, one in enumerate(traces[0].found[epoch].get(other, [])):
            last = one.end if one.end is not None else traces[0].length
            if other != name and one.start <= (centre.end or centre.start) and last >= centre.start:
                yield f"    in A meanwhile: {other} {count}, {said(one)}"


def explained(traces, finding):
    """The lines that explain one finding of compare."""
    meaning, place = MEANINGS.get(finding.kind, finding.kind), f" in epoch {finding.epoch}" * (finding.epoch > 0)
    if finding.name is None:
        yield f"{finding.line}: reset {finding.at} (the first is 0): {meaning}"
        return
    yield f"{finding.line}: {finding.event} {finding.at} of {finding.name}{place} (the first is 0): {meaning}"
    ones = [trace.one(finding.epoch, finding.name, finding.at) for trace in traces]
    if finding.kind == "differs" and all(ones):
        yield from difference(traces[0], finding.name, *ones)
    if finding.kind == "early":
        yield from waits_for(traces, finding)
    yield from neighbours(traces, finding)


def when(traces, finding):
    """The packet in which a finding's event stands: that of A, or of B where A hasn't it."""
    for trace in traces if finding.name is not None else []:
        one = trace.one(finding.epoch, finding.name, finding.at)
        packet = one and (one.start if finding.event == "start" else one.end)
        if packet is not None:
            return packet
    return max(trace.length for trace in traces)


def in_order(traces, findings):
    """The findings in the order in which they are explained, each with the line above it: the first in time, the others, the early ones."""
    early = [finding for finding in findings if finding.kind == "early"]
    others = [finding for finding in findings if finding.kind != "early"]
    first = min(others, key=lambda finding: when(traces, finding), default=None)
    rest = [finding for finding in others if finding is not first]
    for at, finding in enumerate([first] * bool(others) + rest + early):
        head = {0: f"first in time, in packet {when(traces, finding)}:", 1: "then, by channel:"} if rest else {}
        if early and at == len(others):
            head = {at: "come early, which is no other content:"}
        yield head.get(at), finding


def explain_traces(options):
    """Explains the findings of compare, at most so many."""
    traces = [Trace(path) for path in options.words]
    text, status = tool_kit.vidi("compare", *options.words)
    if status not in (0, 7):
        raise Problem(text.strip() or "vidi compare failed")
    findings = findings_of(text)
    for head, finding in list(in_order(traces, findings))[:options.most]:
        print("\n".join([head] * bool(head) + list(explained(traces, finding))))
    if len(findings) > options.most:
        print(f"and {len(findings) - options.most} more; --most says how many are explained")
    print(text.splitlines()[-1])
    return status


def unstable_pins(path, map_path, script):
    """Plays the run in Icarus; the map, the last two rows, the channel that isn't stable, and its cycle."""
    from vidi_tools import icarus_rows
    plan = icarus_rows.Map(map_path)
    with tempfile.TemporaryDirectory() as folder:
        design = icarus_rows.Design(path, plan, folder)
        rows, name, shown = icarus_rows.play(plan, design, icarus_rows.lines(script), icarus_rows.AllUp(design.widths))
    return plan, shown[-2:], name, len(rows)


def explain_run(options):
    """Explains the end of a run."""
    for program in ("iverilog", "vvp"):
        tool_kit.need(program)
    design, path, script = options.words
    text, status = tool_kit.vidi("run", design, path, script)
    if status not in (0, 5):
        raise Problem(text.strip() or "vidi run failed")
    last = text.splitlines()[-1]
    if status == 0:
        print(f"{last}: the run is stable")
        return 0
    tool_kit.Map(path)
    plan, (before, after), name, cycle = unstable_pins(design, path, script)
    if not last.endswith(f"unstable {name} cycle {cycle}"):
        raise Problem(f"vidi says {last}, Icarus parts from it: unstable {name} cycle {cycle}")
    _, _, valid, ready, ports = next(channel for channel in plan.channels if channel[0] == name)
    print(f"{last}: {name} showed {valid} in cycle {cycle - 1}, {ready} was 0, so nothing of it may change in cycle {cycle}")
    for port, old, new in zip((valid, *ports), (before[name][0], *before[name][2]), (after[name][0], *after[name][2])):
        if old != new:
            print(f"  {port} goes from {old} (0x{old:x}) to {new} (0x{new:x})")
    found = tool_kit.transactions_of(tool_kit.events_of(text, script)[0])
    for at, one in list(enumerate(found[name]))[-1 - AROUND:]:
        print(f"  {name} {at}: cycles {one.start} to {'-' if one.end is None else one.end}, {numbers(one.content)}")
    return 5


def explain_bursts(options):
    """Explains the broken rule of AXI4's bursts."""
    text, status = tool_kit.vidi("bursts", *options.words)
    last = text.splitlines()[-1]
    broken = re.fullmatch(r"vidi: refused trace: (broken rule .*)", last)
    if status and not broken:
        raise Problem(last)
    found = next(axi_kit.Reader(trace_kit.read_file(options.words[0]), axi_kit.AxiFile(options.words[1])).findings(), None)
    if (found.line if found else None) != (broken[1] if broken else None):
        raise Problem(f"vidi says {last}, the tool's own reader {found.line if found else 'no broken rule'}")
    print("\n".join([f"{last}: {found.why[0]}", *found.why[1:]]) if found else f"{last}: no rule is broken")
    return status


def explain_move(options):
    """Explains what blocks a move."""
    with tempfile.TemporaryDirectory() as folder:
        text, status = tool_kit.vidi("move", *options.words, os.path.join(folder, "out"))
    last = text.splitlines()[-1]
    if status not in (0, 4):
        raise Problem(last)
    move = move_kit.Move(trace_kit.read_file(options.words[0]), options.words[1:])
    walls = move.blocked()
    if last.startswith("vidi: refused trace: blocked") != bool(walls) or walls and last != f"vidi: refused trace: blocked by packet {walls[0][0]}":
        raise Problem(f"vidi says {last}, and the tool finds {walls[0] if walls else 'nothing that blocks'}")
    stays = "the trace stays as it is" if move.stays() else f"it goes from packet {move.packet} to one of its own {move.way} packet {move.goal}"
    print(f"{last}: {walls[0][1] if walls else 'both are one completion' if status else stays}")
    for at, why in walls:
        print(f"  packet {at}: {move_kit.events_of(move.trace.packets[at])}" + f"; {why}" * (at != walls[0][0]))
    if walls:
        print(f"  not blocked: {move.furthest() or f'no completion of {move.other} lies between'}")
    return status


# For each kind the words that it wants, how many they are, and how many of them are files.
WANTED = {"run": ("DESIGN MAP SCRIPT", 3, 3), "axi": ("TRACE AXI", 2, 2), "move": ("TRACE CH J before CH K, or after", 6, 1), None: ("two traces A B", 2, 2)}
EXPLAINS = {"run": explain_run, "axi": explain_bursts, "move": explain_move, None: explain_traces}


def main():
    """Explains traces, a run, bursts or a move."""
    parser = argparse.ArgumentParser(description=__doc__, formatter_class=argparse.RawDescriptionHelpFormatter)
    parser.add_argument("--run", dest="kind", action="store_const", const="run", help="explain a run and not two traces")
    parser.add_argument("--axi", dest="kind", action="store_const", const="axi", help="explain a broken rule of AXI4's bursts")
    parser.add_argument("--move", dest="kind", action="store_const", const="move", help="explain what blocks a move")
    parser.add_argument("--most", type=int, default=5, metavar="N", help="how many findings are explained (5)")
    parser.add_argument("words", metavar="FILE", nargs="+", help="A B, or the words behind --run, --axi or --move")
    options = tool_kit.parse_options(parser)
    wanted, count, files = WANTED[options.kind]
    if len(options.words) != count:
        raise Problem(f"wants {wanted}")
    for path in options.words[:files]:
        try:
            open(path, "rb").close()
        except OSError as error:
            raise Problem(f"{path}: {error.strerror}") from error
    sys.exit(EXPLAINS[options.kind](options))
