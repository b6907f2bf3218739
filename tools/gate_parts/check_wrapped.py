"""Plays what `vidi wrap` writes in Icarus Verilog, has Verilator read it, and compares with what Vidi played.

    gate check wrapped [--random N] [--seed S] [--only-random] [--verilator] [--keep FOLDER]

The designs are those of examples/, those of crates/vidi_cases/data/wrap.case with scripts of chance, and of `make random` two of 9 and of
26 channels and N small ones (20 where nothing is said). Of each design:

- OUT of `vidi wrap` is read by Icarus (-g2005) without a word, and by Verilator (--lint-only -Wall) with each top: all kinds of warning in what
  `vidi wrap` adds stand in docs/SHIMS.md, and the design's own modules have the kinds that the design has without it.
- vidi_record_top is given the offers of the script and the gates of the plan, which this tool makes by their definitions, and shows on v_N, r_N,
  d_N_I, start_N and stop_N the rows that Vidi played: the lines of `vidi run` and of `vidi record`, the bytes of its trace, and of each cycle all
  valids, readies and contents, which Vidi and Icarus tell of the design without the wrapping under the same pins.
- vidi_replay_top is given what the trace says, and shows the rows of `vidi replay`: its lines, the bytes of OUT and each cycle's numbers, as above.

Icarus starts registers at x and Vidi at 0: the copies that are played have SystemVerilog's `bit` for `reg`, which starts at 0. An x at a pin is
wrong. With --verilator OUT is played as it stands, by Verilator; building it takes some seconds a design. Without Icarus nothing is played, and
without Verilator nothing read by it; a line says so.
"""
import argparse
import collections
import os
import random
import re
import shutil
import subprocess
import sys
import tempfile

from gate_parts import check_pages
from gate_parts import found_rows
from vidi_tools import icarus_rows
from make_kinds import random_design
from vidi_tools import same_transfers
from vidi_tools import tool_kit
from vidi_tools import trace_kit
from vidi_tools.tool_kit import Problem

TOP = os.path.join(tool_kit.HERE, "..")
EXAMPLES = os.path.join(TOP, "examples")
CASES = os.path.join(TOP, "crates", "vidi_cases", "data", "wrap.case")
PAGE = os.path.join(TOP, "docs", "SHIMS.md")
PART = r"((?:(?!==|--|>>).*\n)*)"
CASE = re.compile(rf"^== wrap d m out\n-- d\n{PART}-- m\n{PART}>> 0\n", re.M)
WARNING = re.compile(r"^%(?:Warning|Error)-?(\w*): [^:\n]*:(\d+):\d+: (.*)$", re.M)
LONGEST = 50_000


class Wrong(Exception):
    """What Vidi or its modules do that they shouldn't: one line."""


class Case:
    """A design with its map, script and plan, in a folder, and what Vidi says of it."""

    def __init__(self, vidi, folder, name, texts):
        self.vidi, self.folder, self.name = vidi, folder, name
        for file, text in texts.items():
            tool_kit.write(self.path(file), text)
        self.plan = icarus_rows.Map(self.path("map"))

    def path(self, file):
        """The path of one of its files."""
        return os.path.join(self.folder, file)

    def said(self, *words):
        """What Vidi prints for these words, and its status."""
        done = subprocess.run([self.vidi, *words], cwd=self.folder, capture_output=True, text=True, timeout=300)
        return done.stdout, done.returncode

    def made(self, *words):
        """What Vidi prints where it has to end with status 0."""
        said, status = self.said(*words)
        if status:
            raise Wrong(f"vidi {' '.join(words)} ends with {status}: {said.strip()}")
        return said

    def bytes_of(self, file):
        """The bytes of one of its files."""
        with open(self.path(file), "rb") as opened:
            return opened.read()


def compared(what, ours, theirs):
    """Where two texts or lists part is Wrong."""
    if ours == theirs:
        return
    if isinstance(ours, str):
        ours, theirs = ours.splitlines() + ["(no line)"], theirs.splitlines() + ["(no line)"]
    for at, (our, their) in enumerate(zip(ours, theirs)):
        if our != their:
            raise Wrong(f"{what}: at {at} {our!r}, and of the wrapped design {their!r}")
    raise Wrong(f"{what}: {len(ours)} in all, and of the wrapped design {len(theirs)}")


class Circuit:
    """A module in Icarus: its text with all state at 0 at the start, and the names of the pins that are given and shown."""

    def __init__(self, case, text, top, clock, inputs, outputs):
        self.clock, self.inputs, self.outputs, self.channels, self.top = clock, inputs, outputs, [], top
        bench = re.sub(r"\bdut\.([\w$]+)", r"{dut.\1}", icarus_rows.bench(self))
        self.run, self.program = None, self.built(case, text, bench)

    def built(self, case, text, bench):
        """Builds the text and the bench. Gives the words that run them."""
        source, program = case.path(f"{self.top}.bench.sv"), case.path(f"{self.top}.bench.vvp")
        tool_kit.write(source, "`define FOUND_MEMORY logic\n" + same_transfers.from_zero(text) + "\n`default_nettype wire\n" + bench)
        done = subprocess.run(["iverilog", "-g2012", "-s", "bench", "-o", program, source], capture_output=True, text=True)
        if done.returncode:
            raise Wrong(f"Icarus doesn't take the bench of {self.top}: {(done.stderr or done.stdout).splitlines()[0]}")
        return ["vvp", "-n", program]

    def __enter__(self):
        self.run = subprocess.Popen(self.program, stdin=subprocess.PIPE, stdout=subprocess.PIPE, text=True)
        self.run.stdout.readline()
        return self

    def __exit__(self, *_):
        self.run.communicate()

    def cycle(self, pins):
        """The outputs under these pins; then the clock rises."""
        try:
            self.run.stdin.write(" ".join("%x" % pins[name] for name in self.inputs) + "\n")
            self.run.stdin.flush()
        except BrokenPipeError as ended:
            raise Wrong(f"the simulator of {self.top} ended") from ended
        words = self.run.stdout.readline().split()
        if len(words) != len(self.outputs) or not all(word.isdigit() for word in words):
            raise Wrong(f"{self.top} shows {dict(zip(self.outputs, words))}")
        return dict(zip(self.outputs, map(int, words)))


class Verilated(Circuit):
    """A module in Verilator, which starts at 0: its text as it stands."""

    def built(self, case, text, bench):
        """Builds the text and the bench."""
        source, folder, quick = case.path(f"{self.top}.bench.v"), case.path(f"{self.top}.built"), "OPT_FAST=-O0 OPT_SLOW=-O0 OPT_GLOBAL=-O0"
        # Verilator 5.006 doesn't see what $fscanf writes in a condition
        declared = "".join(f"  reg [127:0] in_{name} = 0;\n" for name in self.inputs)
        bench = bench.replace("  reg clock = 0;\n", f"  reg clock = 0;\n  integer got;\n{declared}")
        read = re.search(r"if \((\$fscanf\(.*\)) != (\d+)\) \$finish\(0\);", bench)
        copied, joined = " ".join(f"pin_{name} = in_{name};" for name in self.inputs), re.sub(r"\bpin_", "in_", read[1])
        bench = bench.replace(read[0], f"got = {joined}; if (got != {read[2]}) $finish(0); {copied}")
        tool_kit.write(source, text + "\n`default_nettype wire\n" + bench)
        words = ["verilator", "--binary", "--timing", "-Wno-fatal", "-Wno-lint", "--default-language", "1364-2005", "--top-module", "bench",
                 "-MAKEFLAGS", quick, "--Mdir", folder, "-o", "bench", source]
        done = subprocess.run(words, capture_output=True, text=True)
        if done.returncode:
            raise Wrong(f"Verilator doesn't take the bench of {self.top}: {(done.stderr or done.stdout).splitlines()[0]}")
        return [os.path.join(folder, "bench")]


class Names:
    """What a design's channels, held ports and widths are called in the tops: by number, channel by channel."""

    def __init__(self, case):
        self.plan, self.channels = case.plan, list(enumerate(case.plan.channels))
        self.held = ["t_" + name for name in list(case.plan.ties) + ([case.plan.reset[0]] if case.plan.reset else [])]
        self.record_in, self.record_out, self.replay_in, self.replay_out = list(self.held), [], list(self.held), []
        for at, (_, inward, _, _, ports) in self.channels:
            contents = [f"d_{at}_{place}" for place in range(len(ports))]
            self.record_in += [f"g_{at}", *([f"v_{at}", *contents] if inward else [f"r_{at}"])]
            self.record_out += [f"v_{at}", f"r_{at}", *contents, f"start_{at}", f"stop_{at}"]
            fed = [f"s_{at}_{place}" for place in range(len(ports))] if inward else []
            self.replay_in += [f"more_{at}", *(f"n_{at}_{other}" for other, _ in self.channels), *fed]
            self.replay_out += [f"v_{at}", f"r_{at}", f"pop_{at}", *([f"k_{at}_{place}" for place in range(len(ports))] if inward else contents)]

    def base(self, in_reset=False):
        """The held pins of the tops: the ties, and the reset's value."""
        pins = {"t_" + name: number for name, number in self.plan.ties.items()}
        if self.plan.reset:
            port, active, _ = self.plan.reset
            pins["t_" + port] = active if in_reset else 1 - active
        return pins

    def reset_cycles(self):
        """How many cycles the design is reset."""
        return self.plan.reset[2] if self.plan.reset else 0


class Played:
    """The rows of a play, and the channel on which the next one is unstable. A row has for each channel its valid, ready, content and gate."""

    def __init__(self, names):
        self.names, self.rows, self.unstable = names, [], None
        self.ends = {name: 0 for _, (name, *_) in names.channels}
        self.flying, self.events = {name: False for name in self.ends}, []

    def add(self, row):
        """Adds a row, and gives its starts and ends; None where it is unstable."""
        self.unstable = icarus_rows.first_unstable(self.names.plan.channels, row, self.rows[-1] if self.rows else None)
        if self.unstable:
            return None
        started = {name: shown[2] for name, shown in row.items() if shown[0] and shown[3] and not self.flying[name]}
        ended = [name for name, shown in row.items() if icarus_rows.completes(shown)]
        for name, shown in row.items():
            self.ends[name] += name in ended
            self.flying[name] = bool(shown[0] and shown[3]) and name not in ended
        self.rows.append(row)
        self.events.append((started, ended))
        return started, ended

    def packets(self):
        """The packets of the rows."""
        return trace_kit.packets_of(self.events)

    def pins(self):
        """The design's own pins of each reset cycle and each row, and what the design shows in the row (None in reset)."""
        plan, both = self.names.plan, []
        silent = {name: 0 for name in plan.inputs}
        for in_reset, row in [(True, None)] * self.names.reset_cycles() + [(False, row) for row in self.rows]:
            pins, shown = {**silent, **{name[2:]: number for name, number in self.names.base(in_reset).items()}}, {}
            for name, inward, valid, ready, ports in plan.channels if row else []:
                is_valid, is_ready, content, gate = row[name]
                pins[valid if inward else ready] = int(bool((is_valid if inward else is_ready) and gate))
                if inward and is_valid and gate:
                    pins.update(zip(ports, content))
                shown.update({ready: is_ready} if inward else {valid: is_valid, **dict(zip(ports, content))})
            both.append((pins, shown if row else None))
        return both


def read_row(names, shown, up, contents):
    """The row that a top shows. `contents` begins the names of an inward channel's; where its valid is down they count as 0."""
    row = {}
    for at, (name, inward, _, _, ports) in names.channels:
        stem, is_valid = contents if inward else "d", shown[f"v_{at}"]
        content = [shown[f"{stem}_{at}_{place}"] for place in range(len(ports))]
        row[name] = (is_valid, shown[f"r_{at}"], [0] * len(ports) if inward and not is_valid and contents == "d" else content, name in up)
    return row


def record_pins(names, players, ends, up, junk):
    """The pins of vidi_record_top in a cycle: the script's offers and the gates."""
    pins = names.base()
    for at, (name, inward, _, _, ports) in names.channels:
        offered, content = players[name].offer(ends)
        pins[f"g_{at}"], pins[f"v_{at}" if inward else f"r_{at}"] = int(name in up), int(bool(offered))
        for place in range(len(ports) if inward else 0):
            pins[f"d_{at}_{place}"] = content[place] if offered else junk.getrandbits(128) if junk else 0
    return pins


def record(names, circuit, script, room, junk=None):
    """The rows that vidi_record_top shows under the offers of the script and the gates of the room. `junk` draws what stands on contents that
    aren't offered; else it is 0."""
    played = Played(names)
    players = {name: icarus_rows.Player([words for own, *words in script[1:] if own == name]) for name in played.ends}
    with circuit:
        for _ in range(names.reset_cycles()):
            circuit.cycle({**dict.fromkeys(names.record_in, 0), **names.base(True)})
        for cycle in range(icarus_rows.number(script[0][1])):
            shown = circuit.cycle(record_pins(names, players, played.ends, room.up, junk))
            event = played.add(read_row(names, shown, room.up, "d"))
            if event is None:
                break
            compared(f"start and stop in cycle {cycle}", [(name, int(name in event[0]), int(name in event[1])) for name in played.ends],
                     [(name, shown[f"start_{at}"], shown[f"stop_{at}"]) for at, (name, *_) in names.channels])
            for name, player in players.items():
                player.seen(name in event[1])
            room.pass_row(cycle, *event, played.flying)
    return played


class Feed:
    """The events of a trace, channel by channel: of an inward one its starts and of an outward one its completions, as (clock, content)."""

    def __init__(self, names, packets):
        self.names, order = names, [name for _, (name, *_) in names.channels]
        self.starts, self.ends = trace_kit.histories(order, packets)
        self.popped = {name: 0 for name in order}
        self.events = {name: [(clock, content) for content, clock in self.starts[name]] if inward else [(clock, []) for clock in self.ends[name]]
                       for _, (name, inward, *_) in names.channels}

    def next(self, name):
        """The next event of a channel, or None."""
        return self.events[name][self.popped[name]] if self.popped[name] < len(self.events[name]) else None

    def has_ended(self, played):
        """Whether each channel has at least as many starts and completions as the trace."""
        return all(done + played.flying[name] >= len(self.starts[name]) and done >= len(self.ends[name]) for name, done in played.ends.items())

    def offers(self, ends):
        """What a replay offers by its definition: the name, whether its valid or ready is shown, and an inward one's content."""
        offers = []
        for _, (name, inward, _, _, ports) in self.names.channels:
            event = self.next(name)
            shows = event is not None and trace_kit.covered(event[0], list(ends.values()))
            offers.append((name, int(shows), (event[1] if shows else [0] * len(ports)) if inward else None))
        return offers

    def pins(self, junk):
        """The pins of vidi_replay_top in a cycle. What stands where no event is left is drawn by chance."""
        pins = self.names.base()
        for at, (name, inward, _, _, ports) in self.names.channels:
            event = self.next(name)
            pins[f"more_{at}"] = int(event is not None)
            pins.update({f"n_{at}_{other}": event[0][other] if event else junk.choice([0, 1 << 31]) for other, _ in self.names.channels})
            pins.update({f"s_{at}_{place}": event[1][place] if event else junk.getrandbits(128) for place in range(len(ports) if inward else 0)})
        return pins


def replay(names, circuit, packets, cycles, junk):
    """The rows that vidi_replay_top shows where it is given the events of the trace, the next one after each pop, and whether the trace ended. The
    offers are compared with those of a replay's definition."""
    played, feed = Played(names), Feed(names, packets)
    with circuit:
        for _ in range(names.reset_cycles()):
            drawn = {name: junk.getrandbits(32) for name in names.replay_in}
            circuit.cycle({**drawn, **{f"more_{at}": 0 for at, _ in names.channels}, **names.base(True)})
        while not feed.has_ended(played):
            if len(played.rows) == cycles:
                return played, False
            offers, shown = feed.offers(played.ends), circuit.cycle(feed.pins(junk))
            row, at_cycle = read_row(names, shown, set(played.ends), "k"), f"in replay cycle {len(played.rows)}"
            compared(f"the offers {at_cycle}", offers, [(name, row[name][0 if inward else 1], row[name][2] if inward else None)
                                                        for _, (name, inward, *_) in names.channels])
            event = played.add(row)
            if event is None:
                return played, False
            compared(f"pop {at_cycle}", [(name, int(name in event[1])) for name in feed.popped],
                     [(name, shown[f"pop_{at}"]) for at, (name, *_) in names.channels])
            for name in event[1]:
                feed.popped[name] += 1
    return played, True


def short_lines(played, starts, ends, names):
    """The lines of a replay that is short: what is held, and what is waited for."""
    lines, waits, have = [f"short after {len(played.rows)} cycles"], [], list(played.ends.values())
    for _, (name, inward, *_) in names.channels:
        count, flying = played.ends[name], played.flying[name]
        begun, events = count + flying, [clock for _, clock in starts[name]]
        held = None
        if inward and not flying and begun < len(events) and not trace_kit.covered(events[begun], have):
            held = ("start", begun, events[begun])
        if not inward and count < len(ends[name]) and not trace_kit.covered(ends[name][count], have):
            held = ("end", count, ends[name][count])
        if held:
            lines.append(f"held {name} {held[0]} {held[1]}")
            lines += [f"awaits {other} have {here} need {need}" for (_, (other, *_)), here, need in zip(names.channels, have, held[2]) if here < need]
        kind, place, all_of = ("end", count, ends[name]) if flying else ("start", begun, starts[name])
        if place < len(all_of) and not (held and held[:2] == (kind, place)):
            waits.append(f"waits {name} {kind} {place}")
    return lines + waits


def text(lines):
    """Lines, each with its line feed."""
    return "".join(line + "\n" for line in lines)


def replay_text(played, ended, packets, names):
    """The lines of `vidi replay`, and its status."""
    order = list(played.ends)
    if ended:
        found = found_rows.findings(packets, played.packets(), order)
        return (text(found), 7) if len(found) > 1 else (f"replayed {len(played.rows)} cycles, no divergence\n", 0)
    if played.unstable:
        return f"vidi: unstable {played.unstable} cycle {len(played.rows)}\n", 5
    return text(short_lines(played, *trace_kit.histories(order, packets), names)), 6


class Probe:
    """The design within a module that has its inputs as contents of channels that send in each cycle, and its outputs as those of channels
    that are taken in each cycle. So `vidi run` prints all numbers of each cycle."""

    def __init__(self, case, widths):
        self.case, plan = case, case.plan
        inputs, outputs = self.parts(plan.inputs), self.parts(plan.outputs)
        ports, lines = [f"input {plan.clock}"], ["top probe_of_rows", f"clock {plan.clock}"]
        # A design without clocked blocks may have its clock joined to that of one
        assigns = [f"  reg ticks;\n  always @(posedge {plan.clock}) ticks <= 1'b0;"]
        for stem, form, parts in (("pins", "in", inputs), ("row", "out", outputs)):
            for at, part in enumerate(parts):
                there, back = ("input", "output") if form == "in" else ("output", "input")
                ports += [f"{there} {stem}{at}_go", f"{back} {stem}{at}_on"]
                ports += [f"{there} [{widths[name] - 1}:0] {stem}_{name}" for name in part]
                assigns.append(f"  assign {stem}{at}_{'on' if form == 'in' else 'go'} = 1'b1;")
                lines.append(" ".join([form, f"{stem}{at}", f"{stem}{at}_go", f"{stem}{at}_on", *(f"{stem}_{name}" for name in part)]))
        joins = [f".{plan.clock}({plan.clock})"] + [f".{name}({stem}_{name})" for stem, names in
                                                    (("pins", plan.inputs), ("row", plan.outputs)) for name in names]
        module = f"module probe_of_rows({', '.join(ports)});\n" + "\n".join(assigns) + f"\n  {plan.top} probed ({', '.join(joins)});\nendmodule\n"
        tool_kit.write(case.path("probe.v"), tool_kit.text_of(case.path("design.v")) + "\n" + module)
        tool_kit.write(case.path("probe.map"), text(lines))
        self.inputs, self.outputs = inputs, outputs

    @staticmethod
    def parts(names):
        """The names in lists of at most sixteen."""
        return [names[at:at + 16] for at in range(0, len(names), 16)]

    def rows(self, pins):
        """What Vidi shows on the design's outputs, cycle by cycle, under these pins."""
        lines = [f"cycles {len(pins)}"] + [f"row{at} take all" for at in range(len(self.outputs))]
        lines += [" ".join([f"pins{at}", "send", *(str(cycle[name]) for name in part)]) for cycle in pins for at, part in enumerate(self.inputs)]
        tool_kit.write(self.case.path("probe.script"), text(lines))
        said = self.case.made("run", "probe.v", "probe.map", "probe.script")
        shown = [{} for _ in pins]
        for cycle, kind, name, numbers in tool_kit.events_of(said, "the probe")[0]:
            if kind == "start" and name.startswith("row"):
                shown[cycle].update(zip(self.outputs[int(name[3:])], numbers))
        return shown


class Play:
    """A design wrapped, and all plays of it."""

    def __init__(self, case, in_verilator):
        self.case, self.names, top = case, Names(case), Verilated if in_verilator else Circuit
        wrapped = case.made("wrap", "design.v", "map", "wrapped.v")
        compared("what vidi wrap prints", wrapped, f"wrapped {len(case.plan.channels)} channels\n")
        design, both, plan = tool_kit.text_of(case.path("design.v")), tool_kit.text_of(case.path("wrapped.v")), case.plan
        self.plain = Circuit(case, design, plan.top, plan.clock, plan.inputs, plan.outputs)
        self.recorder = top(case, both, "vidi_record_top", "clk", self.names.record_in, self.names.record_out)
        self.replayer = top(case, both, "vidi_replay_top", "clk", self.names.replay_in, self.names.replay_out)
        self.widths = self.port_widths(design)
        self.contents = {name: [self.widths[port] for port in ports] for name, *_, ports in plan.channels}
        self.table = [trace_kit.Table(name, inward, self.contents[name]) for name, inward, *_ in plan.channels]
        self.probe = Probe(case, self.widths)
        self.cycles = 0

    def port_widths(self, design):
        """The widths of the design's ports, by Icarus."""
        plan, source, program = self.case.plan, self.case.path("widths.sv"), self.case.path("widths.vvp")
        ports = plan.inputs + plan.outputs
        shows = ", ".join(f"$bits(dut.{port})" for port in ports)
        bench = f"module widths;\n  {plan.top} dut();\n  initial $display(\"{' '.join(['%0d'] * len(ports))}\", {shows});\nendmodule\n"
        tool_kit.write(source, design + "\n`default_nettype wire\n" + bench)
        subprocess.run(["iverilog", "-g2012", "-s", "widths", "-o", program, source], capture_output=True, check=True)
        words = subprocess.run(["vvp", "-n", program], capture_output=True, text=True, check=True).stdout.split()
        return dict(zip(ports, map(int, words)))

    def same_rows(self, what, played):
        """The numbers of each row are those of the design without the wrapping, in Icarus and in Vidi, under the same pins."""
        both = played.pins()
        wanted = [shown for _, shown in both]
        with self.plain as plain:
            compared(f"{what}, Icarus on the design", [one if shown else None for one, shown in
                                                       ((plain.cycle(pins), shown) for pins, shown in both)], wanted)
        if both:
            compared(f"{what}, Vidi on the design", [one if shown else None for one, shown in
                                                     zip(self.probe.rows([pins for pins, _ in both]), wanted)], wanted)
        self.cycles += len(played.rows)

    def run(self):
        """All gates up: `vidi run`."""
        script = icarus_rows.lines(self.case.path("script"))
        played = record(self.names, self.recorder, script, icarus_rows.AllUp(self.contents))
        said = self.case.said("run", "design.v", "map", "script")
        compared("vidi run", said[0], icarus_rows.text_of_rows(played.events, played.unstable))
        compared("vidi run's status", [said[1]], [5 if played.unstable else 0])
        self.same_rows("a run", played)

    def record(self, stalls, junk=None):
        """The gates of the plan: `vidi record` and its trace. Gives the packets."""
        script, path = icarus_rows.lines(self.case.path("script")), self.case.path(stalls)
        played = record(self.names, self.recorder, script, icarus_rows.Room(self.contents, path), junk)
        said, status = self.case.said("record", "design.v", "map", "script", stalls, "trace")
        packets = played.packets()
        lines = f"vidi: unstable {played.unstable} cycle {len(played.rows)}\n" if played.unstable else \
            f"recorded {len(played.rows)} cycles {len(packets)} packets\n"
        compared("vidi record", said, lines)
        compared("vidi record's status", [status], [5 if played.unstable else 0])
        trace = self.case.bytes_of("trace")
        compared("the packets of the trace", trace_kit.read(trace).packets, packets)
        compared("the bytes of the trace", list(trace), list(trace_kit.encoded(self.table, packets)))
        self.same_rows("a recording", played)
        return played

    def replay(self, cycles, junk):
        """The trace played again for so many cycles: `vidi replay` and OUT."""
        packets = trace_kit.read(self.case.bytes_of("trace")).packets
        played, ended = replay(self.names, self.replayer, packets, cycles, junk)
        said, status = self.case.said("replay", "design.v", "map", "trace", str(cycles), "out.trace")
        lines, wanted = replay_text(played, ended, packets, self.names)
        compared("vidi replay", said, lines)
        compared("vidi replay's status", [status], [wanted])
        compared("the packets of OUT", trace_kit.read(self.case.bytes_of("out.trace")).packets, played.packets())
        compared("the bytes of OUT", list(self.case.bytes_of("out.trace")), list(trace_kit.encoded(self.table, played.packets())))
        self.same_rows("a replay", played)
        return status

    def all(self, seed, seen):
        """Every play; `seen` counts how replays ended."""
        draw = random.Random(seed)
        self.run()
        tool_kit.write(self.case.path("wide"), "capacity 65536\n")
        for stalls, junk in (("wide", None), ("stalls", draw)):
            played = self.record(stalls, junk)
            seen["gates down"] += sum(not shown[3] for row in played.rows for shown in row.values())
            seen["unstable"] += played.unstable is not None
            for cycles in {min(LONGEST, 2 * len(played.rows) + 20), max(1, len(played.rows) // 2)}:
                seen[self.replay(cycles, draw)] += 1
        tool_kit.write(self.case.path("trace"), trace_kit.encoded(self.table, trace_kit.drawn(draw, self.table, 12)))
        seen[self.replay(40, draw)] += 1


def listed_kinds():
    """The kinds of Verilator's warnings that docs/SHIMS.md lists."""
    kinds = re.findall(r"^\| `([A-Z]+)`((?:, `[A-Z]+`)*) \|", tool_kit.text_of(PAGE), re.M)
    found = {kind for first, others in kinds for kind in [first, *re.findall(r"[A-Z]+", others)]}
    if not found:
        raise Problem("docs/SHIMS.md lists no warning of Verilator")
    return found


def warnings_of(path, top):
    """Verilator's warnings of a file: kind and line."""
    words = ["verilator", "--lint-only", "-Wall", "--default-language", "1364-2005", "--top-module", top, path]
    done = subprocess.run(words, capture_output=True, text=True, timeout=300)
    found = WARNING.findall(done.stderr)
    if done.returncode and not found or any(not kind for kind, *_ in found):
        faults = [line for line in done.stderr.splitlines() if line.startswith("%Error:")] or done.stderr.splitlines()
        raise Wrong(f"Verilator doesn't read {os.path.basename(path)}: {faults[0]}")
    return [(kind, int(line), message) for kind, line, message in found]


def said_by_icarus(path, top):
    """What Icarus says of a file, without places."""
    words = ["iverilog", "-g2005", "-tnull", "-s", top, path]
    done = subprocess.run(words, capture_output=True, text=True, timeout=300)
    lines = [re.sub(r"^[^:]*:\d+:", "", line) for line in (done.stdout + done.stderr).splitlines()]
    if done.returncode:
        raise Wrong(f"Icarus on {top}: {lines[0] if lines else 'no word'}")
    return lines


def read_by_icarus(case):
    """Icarus reads OUT as it stands, and says nothing but what it says of the design."""
    own = set(said_by_icarus(case.path("design.v"), case.plan.top))
    for top in ("vidi_record_top", "vidi_replay_top"):
        for line in said_by_icarus(case.path("wrapped.v"), top):
            if line not in own:
                raise Wrong(f"Icarus on {top}: {line}")


def read_by_verilator(case, listed, seen):
    """Verilator reads OUT: what `vidi wrap` added has warnings of the listed kinds alone, the rest those that the design has."""
    added = tool_kit.text_of(case.path("wrapped.v")).split("\n").index(next(
        line for line in tool_kit.text_of(case.path("wrapped.v")).split("\n") if line.startswith("module vidi_m_0 "))) + 1
    own = {kind for kind, *_ in warnings_of(case.path("design.v"), case.plan.top)}
    for top in ("vidi_record_top", "vidi_replay_top"):
        for kind, line, message in warnings_of(case.path("wrapped.v"), top):
            if line >= added:
                seen.setdefault(kind, set()).add(case.name)
            if kind not in (listed if line >= added else own | listed & {"DECLFILENAME", "VARHIDDEN"}):
                raise Wrong(f"Verilator on {top}, line {line}, {kind}, which docs/SHIMS.md doesn't list: {message}")


def page_in_verilator(vidi):
    """The commands of docs/SHIMS.md for Verilator print what those for Icarus print, but for the line of $finish."""
    section = tool_kit.text_of(PAGE).partition("## In another simulator\n")[2].partition("\n## ")[0]
    commands = [command[1] for block in check_pages.BLOCK.findall(section) for command in check_pages.COMMAND.finditer(block)]
    builds = re.findall(r"^(verilator --binary .*) && (\S+)$", section, re.M)
    with tempfile.TemporaryDirectory() as folder:
        for file in ("design.v", "map", "record_bench.v", "replay_bench.v"):
            shutil.copy(os.path.join(EXAMPLES, "pass", file), folder)
        subprocess.run([vidi, "wrap", "design.v", "map", "wrapped.v"], cwd=folder, capture_output=True, check=True)
        printed = [(command, check_pages.printed(command, folder, vidi)) for command in commands]
        icarus = [said for command, said in printed if command.startswith("iverilog")]
        if not builds or len(builds) != len(icarus):
            raise Wrong("docs/SHIMS.md has other commands for Verilator than for Icarus")
        for (build, run), wanted in zip(builds, icarus):
            subprocess.run(build.split(), cwd=folder, capture_output=True, check=True)
            said = subprocess.run([run], cwd=folder, capture_output=True, text=True, check=True).stdout
            compared(f"docs/SHIMS.md, {run}", wanted, re.sub(r"^- .*\$finish\n", "", said, flags=re.M))
    return len(builds)


def examples():
    """The examples without resets in mid-run, name by name; one without a plan has a small store."""
    for name in (name for name in tool_kit.examples() if not tool_kit.has_resets(name)):
        texts = {}
        for file in ("design.v", "map", "script", "stalls"):
            path = os.path.join(EXAMPLES, name, file)
            texts[file] = tool_kit.text_of(path) if os.path.exists(path) else "capacity 40\ndrain 3 2\n"
        yield name, texts


def cases():
    """The cases of wrap.case whose design is written out, with a script of chance."""
    for at, (design, plan) in enumerate(CASE.findall(tool_kit.text_of(CASES))):
        yield f"case {at + 1} of wrap.case", {"design.v": design, "map": plan, "stalls": "capacity 90\ndrain 7 2\n"}


def random_script(case, widths, seed):
    """The text of a script of chance."""
    script = same_transfers.some_script(random.Random(seed), case.plan, widths, 60)
    return text(" ".join(words) for words in script)


class Checker:
    """Plays the cases, counts them, and keeps what was wrong."""

    def __init__(self, options):
        self.options, self.wrong, self.played, self.cycles, self.kinds = options, [], {}, 0, {}
        self.ends = collections.Counter()
        self.has_verilator = shutil.which("verilator") is not None
        self.listed = listed_kinds() if self.has_verilator else set()

    def page(self):
        """The page's commands for Verilator."""
        if not self.has_verilator or not shutil.which("g++") or not shutil.which("make"):
            print("skipped, Verilator, g++ or make isn't installed: Verilator's commands of docs/SHIMS.md")
            return
        try:
            print(f"{page_in_verilator(self.options.vidi)} of Verilator's commands of docs/SHIMS.md print what Icarus prints")
        except (Wrong, subprocess.SubprocessError) as found:
            self.wrong.append("docs/SHIMS.md")
            print(f"docs/SHIMS.md: {found}", flush=True)

    def case(self, group, name, texts, seed, lint):
        """One design."""
        with tempfile.TemporaryDirectory() as folder:
            try:
                if "script" not in texts:
                    texts = {**texts, "script": "cycles 1\n"}
                case = Case(self.options.vidi, folder, name, texts)
                play = Play(case, self.options.verilator)
                if group == "cases":
                    tool_kit.write(case.path("script"), random_script(case, play.contents, seed))
                read_by_icarus(case)
                if lint and self.has_verilator:
                    read_by_verilator(case, self.listed, self.kinds)
                play.all(seed, self.ends)
                self.cycles += play.cycles
            except (Wrong, Problem, subprocess.SubprocessError) as found:
                self.wrong.append(name)
                print(f"{name}: {found}", flush=True)
                if self.options.keep:
                    shutil.copytree(folder, os.path.join(self.options.keep, name.replace(" ", "_")), dirs_exist_ok=True)
        self.played[group] = self.played.get(group, 0) + 1


def main():
    """Plays all."""
    parser = argparse.ArgumentParser(description=__doc__, formatter_class=argparse.RawDescriptionHelpFormatter)
    parser.add_argument("--random", type=int, default=20, metavar="N", help="how many random designs, 20 where nothing is said")
    parser.add_argument("--seed", type=int, default=1, metavar="S", help="the number of the first random design")
    parser.add_argument("--only-random", action="store_true", help="leave examples and cases out")
    parser.add_argument("--verilator", action="store_true", help="play OUT as it stands in Verilator, which takes long to build each")
    parser.add_argument("--keep", metavar="FOLDER", help="keep the files of what was wrong in FOLDER")
    options = tool_kit.parse_options(parser)
    options.vidi = tool_kit.wanted_program()
    if not shutil.which("iverilog") or not shutil.which("vvp"):
        print("skipped, Icarus isn't installed: wrapped designs")
        return
    checker = Checker(options)
    if not checker.has_verilator:
        print("skipped, Verilator isn't installed: what it reads of wrapped designs")
    if not options.only_random:
        checker.page()
    for at, (name, texts) in enumerate([] if options.only_random else examples()):
        checker.case("examples", name, texts, at, True)
    for at, (name, texts) in enumerate([] if options.only_random else cases()):
        checker.case("cases", name, texts, at, True)
    for count in [] if options.only_random else [9, 26]:
        checker.case("large designs", f"design of {count} channels", random_design.made(count, count), count, True)
    for seed in range(options.seed, options.seed + options.random):
        checker.case("random designs", f"random design {seed}", random_design.made(seed), seed, False)
    counts = ", ".join(f"{count} {group}" for group, count in checker.played.items())
    ends = {0: "the same", 5: "unstable", 6: "short", 7: "diverged"}
    replays = ", ".join(f"{checker.ends[status]} {end}" for status, end in ends.items())
    print(f"wrapped and played: {counts}; {checker.cycles} cycles, {checker.ends['gates down']} gates down, {checker.ends['unstable']} recordings "
          f"unstable; replays: {replays}")
    for kind, names in sorted(checker.kinds.items()):
        print(f"Verilator warns of {kind} in what is added: {len(names)} designs")
    print(f"{len(checker.wrong)} wrong")
    sys.exit(1 if checker.wrong else 0)
