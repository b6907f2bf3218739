"""Prints what `vidi replay` and then `vidi dump` of OUT have to print, with Icarus in the place of Vidi.

    gate replayed DESIGN MAP TRACE CYCLES

Icarus runs the design as in vidi_tools/icarus_rows.py. What is offered, when the design is reset, when the replay ends and what is held are worked out
row by row from docs/FILES.md, "replay", with lists of all events of an epoch; the findings are those of gate_parts/found_rows.py.
"""
import os
import sys
import tempfile

from gate_parts import found_rows
from vidi_tools import icarus_rows
from vidi_tools import trace_kit


class Epoch:
    """The events of a trace between two resets: of each channel its starts, as (content, clock), and the clocks of its completions."""

    def __init__(self, names, packets):
        self.names = names
        self.starts, self.ends = trace_kit.histories(names, packets)

    def clock(self):
        """How many completions each channel has."""
        return [len(self.ends[name]) for name in self.names]


class Replayer:
    """What a channel offers: an inward one its recorded starts, an outward one its recorded completions, each once its clock is covered."""

    def __init__(self, epoch, name, is_inward):
        self.name = name
        self.events = epoch.starts[name] if is_inward else [(None, clock) for clock in epoch.ends[name]]

    def offer(self, ends):
        """Whether it is offered, and the content, where the channels have completed so often in this epoch."""
        at = ends[self.name]
        is_on = at < len(self.events) and trace_kit.covered(self.events[at][1], ends.values())
        return is_on, self.events[at][0] if is_on else None


class Replay:
    """A replay on a design: its rows, the epoch that it is in, and what that epoch has shown."""

    def __init__(self, plan, design, trace):
        self.plan, self.design, self.names = plan, design, [name for name, *_ in plan.channels]
        self.epochs = [Epoch(self.names, packets) for packets in trace_kit.epochs_of(trace.packets)]
        self.base, self.rows, self.at, self.unstable = dict(plan.ties), [], -1, None
        self.enter()
        design.reset(self.base)

    def enter(self):
        """Goes on to the next epoch: nothing of it has come."""
        self.at += 1
        self.epoch = self.epochs[self.at]
        self.starts, self.ends = ({name: 0 for name in self.names} for _ in range(2))
        self.flying, self.before = {name: False for name in self.names}, None
        self.players = {name: Replayer(self.epoch, name, is_inward) for name, is_inward, *_ in self.plan.channels}

    def has_ended(self):
        """Whether the trace has come: this is the last epoch, and all of it is there."""
        return self.at + 1 == len(self.epochs) and all(
            self.starts[name] >= len(self.epoch.starts[name]) and self.ends[name] >= len(self.epoch.ends[name]) for name in self.names)

    def is_done(self):
        """Whether all completions of the epoch are there, and all starts of inward channels."""
        return all(self.ends[name] >= len(self.epoch.ends[name]) and (not is_inward or self.starts[name] >= len(self.epoch.starts[name]))
                   for name, is_inward, *_ in self.plan.channels)

    def make_row(self):
        """Makes the next row; False where it is unstable."""
        is_fresh = bool(self.rows) and self.at + 1 < len(self.epochs) and self.is_done()
        if is_fresh:
            self.enter()
            self.design.restart(self.base)
        row = icarus_rows.row_of(self.plan, self.design, self.players, self.ends, self.base, set(self.names))
        self.unstable = icarus_rows.first_unstable(self.plan.channels, row, self.before)
        if self.unstable:
            return False
        started = {name: shown[2] for name, shown in row.items() if shown[0] and not self.flying[name]}
        ended = [name for name, shown in row.items() if icarus_rows.completes(shown)]
        self.rows.append(icarus_rows.Row(started, ended, is_fresh))
        for name, shown in row.items():
            self.starts[name] += name in started
            self.ends[name] += name in ended
            self.flying[name] = bool(shown[0]) and name not in ended
        self.before = row
        return True

    def next_events(self):
        """The next recorded event of each channel, as (channel, kind, number, its clock or None where there is none)."""
        for name in self.names:
            kind = "end" if self.flying[name] else "start"
            found = (self.ends if self.flying[name] else self.starts)[name]
            clocks = self.epoch.ends[name] if self.flying[name] else [clock for _, clock in self.epoch.starts[name]]
            if found < len(clocks):
                yield name, kind, found

    def held(self):
        """The events that are held back, as (words, clock): of idle inward channels the next start, of outward ones the next completion, the reset."""
        for name, is_inward, *_ in self.plan.channels:
            kind, number = ("start", self.starts[name]) if is_inward else ("end", self.ends[name])
            clocks = [clock for _, clock in self.epoch.starts[name]] if is_inward else self.epoch.ends[name]
            if not (is_inward and self.flying[name]) and number < len(clocks) and not trace_kit.covered(clocks[number], self.ends.values()):
                yield (name, kind, number), clocks[number]
        if self.at + 1 < len(self.epochs) and not trace_kit.covered(self.epoch.clock(), self.ends.values()):
            yield ("reset", self.at), self.epoch.clock()

    def short_lines(self):
        """What a replay says that is short."""
        held, lines = list(self.held()), [f"short after {len(self.rows)} cycles"] + [f"epoch {self.at}"] * (self.at > 0)
        for words, clock in held:
            lines.append(" ".join(map(str, ("held", *words))))
            lines += [f"awaits {name} have {have} need {need}" for name, have, need in zip(self.names, self.ends.values(), clock) if have < need]
        waits = list(self.next_events()) + ([("reset", self.at)] if self.at + 1 < len(self.epochs) else [])
        return lines + [" ".join(map(str, ("waits", *words))) for words in waits if words not in [event for event, _ in held]]


def replayed(plan, design, trace, cycles):
    """The lines of a replay, its status, and its rows."""
    replay = Replay(plan, design, trace)
    while not replay.has_ended():
        if len(replay.rows) == cycles:
            return replay.short_lines(), 6, replay.rows
        if not replay.make_row():
            return [f"vidi: unstable {replay.unstable} cycle {len(replay.rows)}"], 5, replay.rows
    found = found_rows.findings(trace.packets, trace_kit.packets_of(replay.rows), replay.names)
    return (found, 7, replay.rows) if len(found) > 1 else ([f"replayed {len(replay.rows)} cycles, no divergence"], 0, replay.rows)


def main():
    """Prints the lines."""
    path, plan, trace, cycles = sys.argv[1], icarus_rows.Map(sys.argv[2]), trace_kit.read_file(sys.argv[3]), int(sys.argv[4])
    with tempfile.TemporaryDirectory() as folder:
        design = icarus_rows.Design(os.path.abspath(path), plan, folder)
        lines, _, rows = replayed(plan, design, trace, cycles)
        print("\n".join(lines + trace_kit.lines_of(icarus_rows.trace_of(plan, design.widths, rows))))
        design.close()
