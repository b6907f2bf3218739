"""Makes a script, or with --trace a trace, of the waves of any simulator.

    capture WAVES SCOPE MAP [-o OUT]            a script for vidi run and vidi record
    capture WAVES SCOPE MAP --trace OUT         a trace, the recording of a real environment; both may be asked for
    capture WAVES SCOPE MAP -o OUT --check DESIGN   the script, and whether vidi run of it shows what the waves show, row by row

WAVES is a VCD, one packed by gzip, or an FST (by fst2vcd of Debian's gtkwave); `-` is standard input. SCOPE is the place of the design in
it, such as bench.dut; MAP names its ports. A cycle is a rising edge of the map's clock outside reset; its values are those just before the
edge. With --each-step it is each time step: the samples of a logic analyser, which have no clock. What comes before the first reset, or
with --from N before the reset number N, is left out; where a valid is 1 there, that is said. Refused with the time, and nothing is
written: an x or z at a valid, a ready or the reset, a tied port that isn't at its number, a reset that comes again, which with --resets is a packet of
the trace. A valid that is taken
back, or a content that changes before it is taken, is said; the capture ends there, of an outward channel with the cycle in which vidi run says
unstable. Where the other polarity of the reset would give more cycles, that is said with their number. Said too: x bits of a content, which
count as 0; a content that isn't 0 beside a valid that is 0, where Vidi shows 0; a reset that never acts; more than 65,535 cycles without an
event, of which a trace keeps so many. Status 7 where --check finds a difference.
"""
import argparse
import itertools
import re
import sys

from vidi_tools import tool_kit
from vidi_tools import trace_kit
from vidi_tools import wave_kit
from vidi_tools.tool_kit import Problem

LONGEST = 50000


class Sampler:
    """Makes the rows of a map's channels of the waves' cycles. A row has for each channel valid, ready and, where valid is 1, the content."""

    def __init__(self, waves, plan, options):
        self.waves, self.plan, self.options = waves, plan, options
        self.notes, self.unseen, self.times, self.cycles, self.unstable = [], {}, [], 0, None
        self.fresh, self.is_fresh = [], False  # the cycles behind a reset that comes again, and whether the next one is
        if options.step and plan.reset and plan.reset[0] not in waves.codes:
            self.notes.append(f"no {plan.reset[0]} in these waves: Vidi's run begins behind a reset, so it is another one")
            self.plan.reset = None

    def ports(self):
        """The ports that are read; without a clock those of channels, and what the waves have of the others."""
        held = list(self.plan.ties) + ([self.plan.reset[0]] if self.plan.reset else [])
        if self.options.step:
            held = [port for port in held if port in self.waves.codes]
        return [port for channel in self.plan.channels for port in (channel.valid, channel.ready, *channel.ports)] + held

    def bit(self, values, port, time):
        """A port's bit; an x is refused with the time."""
        if values[port][-1] not in "01":
            raise Problem(f"{self.waves.path} time {time}: {port} is {values[port][-1]} outside reset")
        return int(values[port][-1])

    def content(self, values, port, time, cycle):
        """A content port's number."""
        bits = values[port]
        bits = bits.rjust(self.waves.widths[port], bits[0] if bits[0] in "xz" else "0")
        if re.search("[xz]", bits) and not any("counts as 0" in note for note in self.notes):
            self.notes.append(f"{port} has x at cycle {cycle} time {time}; it counts as 0, as do all later ones")
        return int(re.sub("[xz]", "0", bits), 2)

    def row(self, values, time, cycle):
        """For each channel valid, ready and, where valid is 1, the content."""
        shown = []
        for channel in self.plan.channels:
            valid, ready = self.bit(values, channel.valid, time), self.bit(values, channel.ready, time)
            shown.append((valid, ready, [self.content(values, port, time, cycle) for port in channel.ports] if valid else None))
            for port in channel.ports if channel.is_inward and not valid else []:
                self.unseen[channel.valid, port] = self.unseen.get((channel.valid, port), 0) + ("1" in values[port])
        for port, tied in self.plan.ties.items():
            if port in values and self.content(values, port, time, cycle) != tied:
                raise Problem(f"{self.waves.path} time {time}: {port} is {values[port]}, the map ties it to {tied}")
        return shown

    def all_cycles(self):
        """The time and the values of each cycle, those in reset too."""
        return self.waves.steps(self.options.step, self.ports()) if self.options.step else self.waves.edges(self.plan.clock, self.ports())

    def turned(self, count):
        """What a reset of the other polarity would give."""
        name, active, _ = self.plan.reset
        return f"; with `reset {name} {1 - active}` in the map there would be {count} cycles"

    def behind_reset(self):
        """The cycles from the chosen reset on; all of them where the reset never acts."""
        if not self.plan.reset:
            yield from self.all_cycles()
            return
        name, active, _ = self.plan.reset
        cycles, early, seen, held, before = self.all_cycles(), [], 0, 0, False
        for time, values in cycles:
            now = values[name][-1] == str(active)
            seen, held, before = seen + (now and not before), held + now, now
            if seen >= self.options.first and not now:
                self.note_left_out(early)
                yield from self.until_reset(itertools.chain([(time, values)], cycles), held)
                return
            early += [(time, values)] * (not now)
        if seen and self.options.first > 1:
            raise Problem(f"{self.waves.path}: no cycle behind a reset number {self.options.first}; {name} acts {seen} times")
        if seen:
            raise Problem(f"{self.waves.path}: no rising edge of {self.plan.clock} outside reset{self.turned(held)}")
        if early:
            self.notes.append(f"{name} never acts in these waves: Vidi's run begins behind a reset, so it is another one")
        yield from early

    def until_reset(self, cycles, held):
        """The cycles, as long as nobody asks for one that is in reset again; with --resets those outside reset."""
        name, active, _ = self.plan.reset
        for at, (time, values) in enumerate(cycles):
            if self.bit(values, name, time) == active and self.options.resets:
                self.is_fresh = True
                continue
            if self.bit(values, name, time) == active:
                held += 1 + sum(values[name][-1] == str(active) for _, values in cycles)
                again = f"cut the waves before it with --cycles {at}, or begin behind it with --from {self.options.first + 1}"
                raise Problem(f"{self.waves.path} time {time}: {name} is active again; {again}" + (self.turned(held) if held > at else ""))
            yield time, values

    def note_left_out(self, early):
        """Says that the cycles before the reset are left out, where one of them shows a valid."""
        if any(values[channel.valid][-1] == "1" for _, values in early for channel in self.plan.channels):
            self.notes.append(f"cycles before the reset, {len(early)} of them, are left out")

    def taken_back(self, old, new):
        """The first channel that takes back what it showed, and what that is; or None."""
        for channel, (was, ready, content), (now, _, changed) in zip(self.plan.channels, old, new):
            if was and not ready and (not now or changed != content):
                return channel, "its content" if now else f"its valid {channel.valid}"
        return None

    def rows(self, most):
        """The rows, so many at most, up to the first in which a channel takes back what it showed."""
        row = None
        for cycle, (time, values) in enumerate(itertools.islice(self.behind_reset(), most)):
            old, row = None if self.is_fresh else row, self.row(values, time, cycle)
            self.fresh.extend([cycle] * self.is_fresh)
            self.is_fresh = False
            broken = self.taken_back(old, row) if old else None
            if broken:
                channel, what = broken
                self.notes.append(f"{channel.name} changes {what} before it is taken, at cycle {cycle} time {time}; the capture ends there")
                self.unstable, self.cycles = None if channel.is_inward else channel.name, cycle + (not channel.is_inward)
                break
            self.cycles += 1
            self.times.append(time)
            yield row
        if not row:
            raise Problem(f"{self.waves.path}: no rising edge of {self.plan.clock} outside reset")

    def all_notes(self):
        """The notes, those too that are counted to the end."""
        resets = [f"resets that come again, {len(self.fresh)} of them, are packets of the trace: in Vidi such a reset brings all state back, memories "
                  "too"] * bool(self.fresh)
        return self.notes + resets + [f"{port} isn't 0 in {count} {'cycle' if count == 1 else 'cycles'} in which {valid} is 0; Vidi shows 0 there"
                             for (valid, port), count in self.unseen.items() if count]


def inward_steps(rows, at):
    """The steps of an inward channel: waits, and sends from the cycle in which valid rose."""
    steps, reached, sending = [], 0, False
    for cycle, row in enumerate(rows):
        valid, ready, content = row[at]
        if valid and not sending:
            steps += [("wait", cycle - reached)] if cycle > reached else []
            steps.append(("send", *content))
            sending = True
        if valid and ready:
            sending, reached = False, cycle + 1
    return steps


def outward_steps(rows, at):
    """The steps of an outward channel: waits, and takes from the cycle in which the ready rose that was used. Says also how many readies
    fell unused."""
    steps, reached, risen, taken, unused = [], 0, None, 0, 0
    for cycle, row in enumerate(rows + [[(0, 0, None)] * len(rows[0])]):
        valid, ready, _ = row[at]
        if risen is not None and (not ready or cycle == len(rows)):
            waits = [("wait", risen - reached)] if risen > reached else []
            if cycle == len(rows):
                steps += waits + [("take", "all")]
            elif taken:
                steps += waits + [("take", taken)]
            unused += not taken and cycle < len(rows)
            reached, risen = (last + 1 if taken else reached), None
        if ready and risen is None:
            risen, taken = cycle, 0
        if ready and valid:
            taken, last = taken + 1, cycle
    return steps, unused


def script_of(plan, rows, cycles, notes):
    """The text of the script."""
    lines = [f"cycles {cycles}"]
    for at, channel in enumerate(plan.channels):
        if channel.is_inward:
            steps = inward_steps(rows, at)
        else:
            steps, unused = outward_steps(rows, at)
            notes += [f"{channel.name}: readies that fell without a transfer, {unused} of them, aren't in the script"] if unused else []
        lines += [" ".join(map(str, (channel.name, *step))) for step in steps]
    return "\n".join(lines) + "\n"


def events(plan, rows, fresh=()):
    """For each row its starts with contents by name, the names of those that end, and whether the design was reset before it."""
    flying = set()
    for cycle, row in enumerate(rows):
        is_fresh = cycle in fresh[-1:]
        flying = set() if is_fresh else flying
        shown = {channel.name: signals for channel, signals in zip(plan.channels, row)}
        started = {name: content for name, (valid, _, content) in shown.items() if valid and name not in flying}
        ended = [name for name, (valid, ready, _) in shown.items() if valid and ready]
        flying = {name for name, (valid, ready, _) in shown.items() if valid and not ready}
        yield started, ended, is_fresh


def trace_of(plan, rows, widths, notes, fresh):
    """The bytes of the trace. Of a gap that is too long for a trace its most is kept, which is said."""
    table = [trace_kit.Table(channel.name, channel.is_inward, [widths[port] for port in channel.ports]) for channel in plan.channels]
    packets = trace_kit.packets_of(events(plan, rows, fresh))
    for number, packet in enumerate(packets):
        if packet.gap > trace_kit.MOST_GAP:
            notes.append(f"nothing in {packet.gap} cycles before packet {number}; the trace has {trace_kit.MOST_GAP} of them, the most")
            packets[number] = packet._replace(gap=trace_kit.MOST_GAP)
    return trace_kit.encoded(table, packets)


def compared(options, sampler, rows):
    """Plays the script that was written on a design, and says in which row the run parts from the waves. The status."""
    said, status = tool_kit.vidi("run", options.check, options.map, options.out)
    if status not in (0, 5):
        raise Problem(f"{options.out} is written; vidi run of it on {options.check}: {said.strip()}")
    length, ours, theirs = len(sampler.times), {}, {}
    for cycle, row in enumerate(events(sampler.plan, rows)):
        ours[cycle] = tool_kit.lines_of_row(cycle, *row[:2])
    if sampler.unstable:
        ours[length] = [f"vidi: unstable {sampler.unstable} cycle {length}"]
    for line in said.splitlines()[:-1 if status == 0 else None]:
        theirs.setdefault(length if line.startswith("vidi:") else int(line.split()[0]), []).append(line)
    for cycle in range(length + 1):
        if ours.get(cycle, []) != theirs.get(cycle, []):
            time = f" time {sampler.times[cycle]}" if cycle < length else ""
            sides = (", ".join(side.get(cycle, [])) or "nothing" for side in (ours, theirs))
            print("parts from the waves in cycle {}{}: waves: {}; vidi run: {}".format(cycle, time, *sides))
            return 7
    print(f"same {length} cycles, {sum(' end ' in line for lines in ours.values() for line in lines)} transfers, in the waves and by vidi run")
    return 0


def parser():
    """The words of this tool."""
    said = argparse.ArgumentParser(description=__doc__, formatter_class=argparse.RawDescriptionHelpFormatter)
    said.add_argument("waves", metavar="WAVES", help="a VCD, a VCD packed by gzip, an FST, or - for standard input")
    said.add_argument("scope", metavar="SCOPE")
    said.add_argument("map", metavar="MAP")
    said.add_argument("-o", dest="out", metavar="OUT", help="write the script to OUT and not to standard output")
    said.add_argument("--trace", metavar="OUT", help="write a trace to OUT, of any length")
    said.add_argument("--cycles", type=int, default=None, help=f"so many cycles at most; of a script 1 to {LONGEST:,}")
    said.add_argument("--from", dest="first", type=int, default=1, metavar="N", help="begin behind the reset number N (1)")
    said.add_argument("--resets", action="store_true", help="a reset that comes again is a packet of the trace; for --trace alone")
    said.add_argument("--each-step", dest="step", type=int, nargs="?", const=1, metavar="N",
                      help="a cycle is each step of N time units (1), and not an edge of the clock")
    said.add_argument("--check", metavar="DESIGN", help="play the script on this text of the subset and compare with the waves; wants -o")
    return said


def refuse_words(options):
    """Refuses numbers out of range, and a check of what isn't written."""
    is_script = options.out or not options.trace
    if options.cycles is not None and not 1 <= options.cycles <= (LONGEST if is_script else options.cycles):
        raise Problem(f"--cycles is {options.cycles}, not 1 to {LONGEST}" if is_script else f"--cycles is {options.cycles}, not 1 or more")
    for word, value in (("--from", options.first), ("--each-step", options.step)):
        if value is not None and value < 1:
            raise Problem(f"{word} is {value}, not 1 or more")
    if options.resets and is_script:
        raise Problem("--resets is for a trace: a script's sends go on over a reset, and those of a bench may not; say --trace OUT, and no -o")
    if options.check and not options.out:
        raise Problem("--check plays the script that is written: say -o OUT too")
    return is_script


def main():
    """Captures, and writes at the end."""
    options = tool_kit.parse_options(parser())
    is_script = refuse_words(options)
    plan = tool_kit.Map(options.map)
    waves = wave_kit.Waves(options.waves, options.scope)
    sampler = Sampler(waves, plan, options)
    rows = sampler.rows(options.cycles or (LONGEST + 1 if is_script else None))
    if is_script:
        rows = list(rows)
        if sampler.cycles > LONGEST:
            raise Problem(f"{options.waves} has more than {LONGEST} cycles, the most of a script: capture a part with --cycles, begin at a later "
                          "reset with --from, or make a trace with --trace, which has no limit")
    trace = trace_of(plan, rows, waves.widths, sampler.notes, sampler.fresh) if options.trace else None
    script = script_of(plan, rows, sampler.cycles, sampler.notes) if is_script else None
    for path, content in ((options.trace, trace), (options.out, script)):
        if path:
            tool_kit.write(path, content)
    if is_script and not options.out:
        sys.stdout.write(script)
    for note in sampler.all_notes():
        print(f"capture: {note}", file=sys.stderr)
    sys.exit(compared(options, sampler, rows) if options.check else 0)
