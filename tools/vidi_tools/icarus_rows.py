"""Prints what `vidi run` has to print, with Icarus Verilog in the place of Vidi: for the files run.out of examples/.
With a plan of stalls it prints what `vidi record` and then `vidi dump` of its trace have to print: for the files record.out.

    gate rows DESIGN MAP SCRIPT [STALLS]

Icarus (iverilog and vvp) runs the design: a bench reads the pins of each cycle, and prints the outputs before the clock rises.
This file plays the script and the gates, and makes the rows, with lists and counts of its own. It trusts its files: it refuses nothing.

Vidi has no x: registers and memories start at 0. So the copy that Icarus runs has SystemVerilog's `bit` for `reg`, which starts at 0,
a loop that sets each memory to 0, and `always_comb` for `always @*`, which also runs once at the start. At a reset in mid-run the simulation is begun
anew, and so is the map's reset.
"""
import collections
import os
import re
import subprocess
import sys
import tempfile

from vidi_tools import tool_kit
from vidi_tools import trace_kit

RESET_BYTES = 3


# A row: what starts, with its content, the names of those that end, and whether the design was reset before it.
Row = collections.namedtuple("Row", "starts ends is_fresh", defaults=(False,))


def lines(path):
    """The words of each line."""
    return [words for words in (line.split("#")[0].split() for line in open(path)) if words]


def number(word):
    return int(word, 16) if word.startswith("0x") else int(word)


def is_reset(words):
    """Whether a line of a script is `reset at T`, whatever channel is called reset."""
    return words[:2] == ["reset", "at"]


def times_of(script):
    """When the script asks for resets."""
    return [number(words[2]) for words in script if is_reset(words)]


class Map:
    """The lines of a map: the channels as (name, inward, valid, ready, content ports)."""

    def __init__(self, path):
        self.channels, self.ties, self.reset = [], {}, None
        for form, *words in lines(path):
            if form in ("in", "out"):
                self.channels.append((words[0], form == "in", words[1], words[2], words[3:]))
            elif form == "tie":
                self.ties[words[0]] = number(words[1])
            elif form == "reset":
                self.reset = (words[0], number(words[1]), number(words[2]))
            elif form == "top":
                self.top = words[0]
            elif form == "clock":
                self.clock = words[0]
        self.inputs = list(self.ties) + ([self.reset[0]] if self.reset else [])
        self.outputs = []
        for _, inward, valid, ready, ports in self.channels:
            self.inputs += [valid, *ports] if inward else [ready]
            self.outputs += [ready] if inward else [valid, *ports]


def bench(plan):
    """A module that prints the widths of the content ports; it then reads the inputs of each cycle as hexadecimal numbers, prints the
    outputs, and lets the clock rise."""
    ports = [port for *_, contents in plan.channels for port in contents]
    widths = ", ".join([f"$bits(dut.{port})" for port in ports] + ["0"])
    reads = " ".join(["%h"] * len(plan.inputs))
    pins = ", ".join("pin_" + name for name in plan.inputs)
    joins = ", ".join([f".{plan.clock}(clock)"] + [f".{name}(pin_{name})" for name in plan.inputs])
    shows = ", ".join("dut." + name for name in plan.outputs)
    prints = " ".join(["%0d"] * len(plan.outputs))
    regs = "\n".join(f"  reg [127:0] pin_{name} = 0;" for name in plan.inputs)
    return f"""module bench;
  reg clock = 0;
{regs}
  {plan.top} dut({joins});
  initial begin
    $display("{' '.join(['%0d'] * (len(ports) + 1))}", {widths});
    $fflush;
    forever begin
      if ($fscanf('h80000000, "{reads}", {pins}) != {len(plan.inputs)}) $finish(0);
      #1 $display("{prints}", {shows});
      $fflush;
      #1 clock = 1;
      #1 clock = 0;
    end
  end
endmodule
"""


def from_zero(text):
    """The design with all state at 0 in the beginning."""
    zero = "initial begin : zero_{1} integer at; for (at = 0; at <= {2}; at = at + 1) {1}[at] = 0; end"
    memory = r"\breg\b(\s*\[[^\]]*\])?\s*(\w+)\s*\[0:([^\]]*)\]\s*;"
    text = re.sub(memory, lambda m: f"logic{m[1] or ''} {m[2]} [0:{m[3]}]; " + zero.format(*m.groups()), text)
    text = re.sub(r"\breg\b", "bit", text)
    return re.sub(r"\balways\s*@\s*(\*|\(\s*\*\s*\))", "always_comb", text)


class Design:
    """The design as Icarus runs it, from its initial state on."""

    def __init__(self, path, plan, folder):
        source, program = os.path.join(folder, "bench.sv"), os.path.join(folder, "bench.vvp")
        open(source, "w").write(from_zero(open(path).read()) + "\n`default_nettype wire\n" + bench(plan))
        built = subprocess.run(["iverilog", "-g2012", "-s", "bench", "-o", program, source], capture_output=True, text=True)
        if built.returncode:
            sys.exit(built.stderr)
        self.begin(program, plan)

    def begin(self, program, plan):
        """Runs the program, which prints the widths first."""
        self.run = subprocess.Popen(["vvp", "-n", program], stdin=subprocess.PIPE, stdout=subprocess.PIPE, stderr=subprocess.DEVNULL, text=True)
        self.program, self.plan = program, plan
        widths = iter(map(int, self.run.stdout.readline().split()))
        self.widths = {name: [next(widths) for _ in ports] for name, *_, ports in plan.channels}

    def close(self):
        """Ends the simulator."""
        self.run.stdin.close()
        self.run.wait()
        self.run.stdout.close()

    def reset(self, base):
        """Passes the map's reset cycles; `base` then has its inactive value."""
        if self.plan.reset:
            port, active, count = self.plan.reset
            for _ in range(count):
                self.cycle({**base, port: active})
            base[port] = 1 - active

    def restart(self, base):
        """Begins the simulation anew, with its reset cycles."""
        self.close()
        self.begin(self.program, self.plan)
        self.reset(base)

    def cycle(self, pins):
        """The outputs under these pins, all others 0; then the clock rises."""
        self.run.stdin.write(" ".join("%x" % pins.get(name, 0) for name in self.plan.inputs) + "\n")
        self.run.stdin.flush()
        return dict(zip(self.plan.outputs, map(int, self.run.stdout.readline().split())))


class Player:
    """The script's steps of one channel, and the step that it is at."""

    def __init__(self, steps):
        self.steps, self.place, self.cycles, self.taken = steps, 0, 0, 0

    def step(self):
        return self.steps[self.place] if self.place < len(self.steps) else ["end"]

    def move(self):
        self.place, self.cycles, self.taken = self.place + 1, 0, 0

    def offer(self, ends):
        """Whether the source's valid or the sink's ready is offered, and the content, where the channels have ended so often."""
        while self.step()[0] == "after" and ends[self.step()[1]] >= number(self.step()[2]):
            self.move()
        form, *words = self.step()
        return form in ("send", "take"), [number(word) for word in words] if form == "send" else None

    def seen(self, completed):
        """The row has been seen."""
        form, *words = self.step()
        self.cycles, self.taken = self.cycles + 1, self.taken + completed
        if form == "send" and completed:
            self.move()
        elif form == "take" and words != ["all"] and self.taken == number(words[0]):
            self.move()
        elif form == "wait" and self.cycles == number(words[0]):
            self.move()


class Room:
    """The store, the channels whose gate is up, and the permit to reset, which is asked for where the script has resets. All is added up anew in
    each row."""

    def __init__(self, widths, path, has_resets=False):
        (_, capacity), *drains = lines(path)
        self.capacity, self.used, self.up = number(capacity), 0, set(widths)
        self.mark, self.permit, self.drained = RESET_BYTES if has_resets else 0, True, []
        self.drains = [amount for _, amount, count in drains for _ in range(number(count))] or ["all"]
        self.head = 3 + 2 * -(-len(widths) // 8)
        self.content = {name: sum(-(-width // 8) for width in ports) for name, ports in widths.items()}

    def need(self):
        """The least capacity."""
        return sum(2 * self.head + size for size in self.content.values()) + self.mark

    def pass_row(self, cycle, starts, ends, flying, is_left=False):
        """The row of this cycle has these starts and ends, and leaves these channels in flight; a reset may come behind it."""
        waiting = self.used + (self.head + sum(self.content[name] for name in starts) if starts or ends else 0) + RESET_BYTES * is_left
        amount = self.drains[cycle % len(self.drains)]
        self.used = 0 if amount == "all" else waiting - min(number(amount), waiting)
        self.drained.append(waiting - self.used)
        whole = {name: 2 * self.head + size for name, size in self.content.items()}
        up = {name for name in self.up if name not in ends and not (is_left and flying[name])}
        claimed = self.used + sum(self.head if flying[name] else whole[name] for name in up)
        self.permit = self.permit and not is_left or claimed + self.mark <= self.capacity
        claimed += self.mark * self.permit
        for name in whole:
            if name not in up and claimed + whole[name] <= self.capacity:
                up.add(name)
                claimed += whole[name]
        self.up = up


class AllUp:
    """Without a store all gates stay up, and so does the permit."""
    permit = True

    def __init__(self, widths):
        self.up = set(widths)

    def pass_row(self, cycle, starts, ends, flying, is_left=False):
        pass


def first_unstable(channels, row, before):
    """The first outward channel that showed valid without a completion and now doesn't show the same."""
    for name, inward, *_ in channels:
        if not inward and before and before[name][0] and not completes(before[name]) and row[name][::2] != before[name][::2]:
            return name
    return None


def completes(shown):
    valid, ready, _, gate = shown
    return bool(valid and ready and gate)


def row_of(plan, design, players, ends, base, up):
    """For each channel: valid at its source, ready at its sink, the content, and the gate."""
    offers = {name: players[name].offer(ends) for name, *_ in plan.channels}
    pins = dict(base)
    for name, inward, valid, ready, ports in plan.channels:
        offered, content = offers[name]
        pins[valid if inward else ready] = int(offered and name in up)
        if inward and offered and name in up:
            pins.update(zip(ports, content))
    shown = design.cycle(pins)
    row = {}
    for name, inward, valid, ready, ports in plan.channels:
        offered, content = offers[name]
        gate = name in up
        if inward:
            row[name] = (int(offered), shown[ready], content if offered else [0] * len(ports), gate)
        else:
            row[name] = (shown[valid], int(offered), [shown[port] for port in ports], gate)
    return row


def play(plan, design, script, room):
    """The rows, the channel on which the next one is unstable, and what each row shows, that one too."""
    cycles, times, resets = number(script[0][1]), times_of(script), 0
    players = {name: Player([words for own, *words in script[1:] if own == name and not is_reset([own, *words])]) for name, *_ in plan.channels}
    ends, flying, shown_rows, rows = {name: 0 for name in players}, {name: False for name in players}, [], []
    base, is_fresh = dict(plan.ties), False
    design.reset(base)
    for cycle in range(cycles):
        row = row_of(plan, design, players, ends, base, room.up)
        unstable = first_unstable(plan.channels, row, shown_rows[-1] if shown_rows and not is_fresh else None)
        shown_rows.append(row)
        if unstable:
            return rows, unstable, shown_rows
        started = {name: shown[2] for name, shown in row.items() if shown[0] and shown[3] and not flying[name]}
        ended = [name for name, shown in row.items() if completes(shown)]
        rows.append(Row(started, ended, is_fresh))
        for name, shown in row.items():
            ends[name] += name in ended
            flying[name] = bool(shown[0] and shown[3]) and name not in ended
            players[name].seen(name in ended)
        is_fresh = cycle + 1 < cycles and resets < len(times) and times[resets] <= cycle + 1 and room.permit
        room.pass_row(cycle, started, ended, flying, is_fresh)
        if is_fresh:
            design.restart(base)
            flying, resets = {name: False for name in players}, resets + 1
    return rows, None, shown_rows


def text_of_rows(rows, unstable):
    """The lines of `vidi run` of these rows."""
    said = []
    for cycle, (started, ended, is_fresh) in enumerate(Row(*row) for row in rows):
        said += [f"{cycle} reset"] * is_fresh + tool_kit.lines_of_row(cycle, started, ended)
    said.append(f"vidi: unstable {unstable} cycle {len(rows)}" if unstable else f"cycles {len(rows)}")
    return "\n".join(said) + "\n"


def trace_of(plan, widths, rows):
    """The trace of these rows."""
    table = [trace_kit.Table(name, inward, widths[name]) for name, inward, *_ in plan.channels]
    return trace_kit.Trace(table, trace_kit.packets_of(rows))


def say_recording(plan, widths, rows, unstable):
    """The line of the recording, then the lines of its trace."""
    trace = trace_of(plan, widths, rows)
    print(f"vidi: unstable {unstable} cycle {len(rows)}" if unstable else f"recorded {len(rows)} cycles {len(trace.packets)} packets")
    print("\n".join(trace_kit.lines_of(trace)))


def main():
    path, plan, script = sys.argv[1], Map(sys.argv[2]), lines(sys.argv[3])
    with tempfile.TemporaryDirectory() as folder:
        design = Design(path, plan, folder)
        room = Room(design.widths, sys.argv[4], bool(times_of(script))) if len(sys.argv) > 4 else AllUp(design.widths)
        rows, unstable, _ = play(plan, design, script, room)
        if len(sys.argv) > 4:
            say_recording(plan, design.widths, rows, unstable)
        else:
            sys.stdout.write(text_of_rows(rows, unstable))
