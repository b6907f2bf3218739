"""Writes a random design with its map, a script and a plan of stalls: design.v, map, script and stalls in FOLDER.

    make random SEED FOLDER [CHANNELS]

The same seed gives the same files. A design has 1 to 4 channels of both directions with 0 to 3 contents, and by chance ties, a reset, ignored
outputs, memories, an instance, blocks without a clock, and names that the modules of `vidi wrap` have too. Outward channels mostly hold what they
show, some not. It reads no bit or word out of range, which Icarus shows as x, and leaves out what Icarus 11 has otherwise than IEEE 1364-2005: a shift of
or by a word of a memory, which it compiles wrongly, and an expression in an instance's connection that is narrower than the port, which it extends after
and not before its operators; and shifts by numbers of more than 32 bits, which Verilator 5.006 refuses. With CHANNELS, 1 to 26, it has so many channels, the first with 16
contents, and all hold what they show.
"""
import os
import random
import sys

from vidi_tools import tool_kit
from vidi_tools import trace_kit
from vidi_tools.tool_kit import Problem

WIDTHS = [1, 1, 2, 3, 4, 8, 8, 13, 16, 31, 32, 33, 64, 65, 128]
NAMES = ["v_0", "r_0", "d_0_0", "k_0_0", "w_0", "g_0", "g_1", "t_x", "start_0", "stop_1", "more_0", "n_0_0", "s_0_0", "pop_0", "fly", "kv", "kr",
         "sv", "sr", "s0", "k0", "n0", "d0", "c0", "c1", "g", "more", "pop", "start", "stop", "m_0", "q_0", "dut", "clk", "t_0", "_", "x$1", "A", "a"]
ONE = "1'b1"
TOPS = ["top", "dut", "m_0", "q_1", "clk", "bridge", "random_design"]
BINARY = ["+", "-", "*", "&", "|", "^", "^~", "~^"]
COMPARED = ["==", "!=", "<", "<=", ">", ">="]
UNARY = ["~", "-", "+"]
REDUCED = ["!", "&", "~&", "|", "~|", "^", "~^", "^~"]


class Net:
    """Something that can be read: its name, its width, and of a memory how many words it has."""

    def __init__(self, name, width, words=0):
        self.name, self.width, self.words = name, width, words


class Expressions:
    """Random expressions over the nets that may be read; each is its text and its width."""

    def __init__(self, draw, nets):
        self.draw, self.nets = draw, nets

    def literal(self, width):
        """A sized literal."""
        value = self.draw.choice([0, 1, (1 << width) - 1, self.draw.getrandbits(width)]) % (1 << width)
        base, text = self.draw.choice([("d", str(value)), ("h", hex(value)[2:]), ("b", bin(value)[2:]), ("o", oct(value)[2:])])
        return f"{width}'{base}{text}"

    def place(self, count):
        """A bit of text that is a number below `count`, a power of two."""
        bits = count.bit_length() - 1
        wide = [net for net in self.nets if not net.words and net.width >= bits]
        if bits == 0 or not wide or self.draw.random() < 0.2:
            return f"{max(bits, 1)}'d{self.draw.randrange(count)}"
        net = self.draw.choice(wide)
        return net.name if net.width == bits else f"{net.name}[{bits - 1}:0]" if bits > 1 else f"{net.name}[0]"

    def leaf(self):
        """A literal, a net, a select of one, or a word of a memory."""
        draw = self.draw
        if draw.random() < 0.15 or not self.nets:
            width = draw.choice(WIDTHS)
            return self.literal(width), width
        net = draw.choice(self.nets)
        if net.words:
            return f"{net.name}[{self.place(net.words)}]", net.width
        kind = draw.random()
        if net.width == 1 or kind < 0.6:
            return net.name, net.width
        if kind < 0.75:
            return f"{net.name}[{draw.randrange(net.width)}]", 1
        if kind < 0.85 and net.width & (net.width - 1) == 0:
            return f"{net.name}[{self.place(net.width)}]", 1
        low = draw.randrange(net.width)
        high = draw.randrange(low, net.width)
        return (f"{net.name}[{high}:{low}]" if kind < 0.95 else f"{net.name}[{low} +: {high - low + 1}]"), high - low + 1

    def any(self, depth):
        """An expression of at most this depth."""
        draw = self.draw
        kind = draw.randrange(10) if depth else 10
        if kind < 3:
            (a, width), (b, other) = self.any(depth - 1), self.any(depth - 1)
            return f"({a} {draw.choice(BINARY)} {b})", max(width, other)
        if kind == 3:
            (a, _), (b, _) = self.any(depth - 1), self.any(depth - 1)
            return f"({a} {draw.choice(COMPARED)} {b})", 1
        if kind == 4:
            (a, _), (b, _) = self.any(depth - 1), self.any(depth - 1)
            return f"({a} {draw.choice(['&&', '||'])} {b})", 1
        if kind == 5:
            (a, width), (b, size) = self.any(depth - 1), self.any(0)
            b = "6'd33" if b[0].isdigit() and size > 32 else b  # Verilator 5.006 can't shift by such a number
            words = tuple(net.name + "[" for net in self.nets if net.words)
            a, b = (f"(~{one})" if one.startswith(words) else one for one in (a, b))  # Icarus 11 can't shift a word of a memory, nor by one
            return f"({a} {draw.choice(['<<', '>>', '<<<', '>>>'])} {b})", width
        if kind == 6:
            (c, _), (a, width), (b, other) = self.any(depth - 1), self.any(depth - 1), self.any(depth - 1)
            return f"({c} ? {a} : {b})", max(width, other)
        if kind == 7:
            a, width = self.any(depth - 1)
            return (f"({draw.choice(UNARY)}{a})", width) if draw.random() < 0.5 else (f"({draw.choice(REDUCED)}{a})", 1)
        if kind == 8:
            parts = [self.any(depth - 1) for _ in range(draw.randrange(1, 4))]
            while sum(width for _, width in parts) > 128:
                parts = [self.leaf()]
            return "{" + ", ".join(text for text, _ in parts) + "}", sum(width for _, width in parts)
        if kind == 9:
            a, width = self.leaf()
            count = draw.randrange(1, max(2, min(4, 128 // width + 1)))
            return f"{{{count}{{{a}}}}}", count * width
        return self.leaf()

    def text(self, depth=3):
        """The text of an expression."""
        return self.any(self.draw.randrange(depth + 1))[0]

    def bit(self):
        """The text of a condition."""
        a, _ = self.any(self.draw.randrange(3))
        return a


class Writer:
    """Makes the parts of one design."""

    def __init__(self, seed, count):
        self.draw, self.count = random.Random(seed), count
        self.used, self.ports, self.channels, self.declared, self.items, self.children = set(), [], [], [], [], []

    def some(self, chance):
        return self.draw.random() < chance

    def name(self, stem):
        """A new name: by chance one that a generated module has."""
        name = self.draw.choice(NAMES) if self.some(0.15) else stem
        while name in self.used:
            name = f"{stem}{len(self.used)}"
        self.used.add(name)
        return name

    def port(self, direction, stem, width):
        """A new port; its place in the header is drawn at the end."""
        name = self.name(stem)
        self.ports.append((direction, name, width))
        return Net(name, width)

    def make_ports(self):
        """The clock, the reset, ties, ignored outputs and channels."""
        draw = self.draw
        self.clock = self.port("input", "clk", 1).name
        self.reset = self.port("input", draw.choice(["rst", "rst_n"]), 1) if self.some(0.6) else None
        self.active = draw.randrange(2)
        self.ties = [self.port("input", "mode", draw.choice(WIDTHS)) for _ in range(draw.choice([0, 0, 1, 2]))]
        self.ignored = [self.port("output", "seen", draw.choice(WIDTHS)) for _ in range(draw.choice([0, 0, 1, 2]))]
        for at in range(self.count or draw.choice([1, 2, 2, 3, 3, 4])):
            inward = self.some(0.5)
            stem, there, back = "abcdefghijklmnopqrstuvwxyz"[at], "input" if inward else "output", "output" if inward else "input"
            ports = 16 if self.count and not at else draw.choice([0, 1, 1, 2, 3])
            contents = [self.port(there, f"{stem}_d{place}", draw.choice(WIDTHS)) for place in range(ports)]
            self.channels.append((stem, inward, self.port(there, stem + "_v", 1), self.port(back, stem + "_r", 1), contents))
        draw.shuffle(self.ports)

    def make_state(self):
        """Registers and memories, and for each register whether it is written by a block of its own."""
        draw = self.draw
        self.registers = [Net(self.name(f"r{at}"), draw.choice(WIDTHS)) for at in range(draw.randrange(1, 5))]
        self.memories = [Net(self.name("m"), draw.choice(WIDTHS), 1 << draw.randrange(1, 4)) for _ in range(draw.choice([0, 0, 1, 2]))]
        say = Expressions(draw, [])
        for net in self.registers:
            start = f" = {say.literal(net.width)}" if self.some(0.4) else ""
            self.declared.append(f"  reg {span(net.width)}{net.name}{start};")
        self.declared += [f"  reg {span(net.width)}{net.name} [0:{net.words - 1}];" for net in self.memories]

    def make_wires(self):
        """Wires over inputs and state, each reading those before it; one may be a child's output, one made by a block without a clock."""
        draw = self.draw
        inputs = [Net(name, width) for direction, name, width in self.ports if direction == "input" and name != self.clock]
        self.nets = inputs + self.registers + self.memories
        for at in range(draw.randrange(4)):
            net, say = Net(self.name(f"w{at}"), draw.choice(WIDTHS)), Expressions(draw, self.nets)
            self.items.append(f"  wire {span(net.width)}{net.name} = {say.text()};")
            self.nets = self.nets + [net]
        if self.some(0.3):
            self.make_child()
        if self.some(0.35):
            self.make_chosen()

    def make_child(self):
        """An instance of a module with a parameter, a register and a wire."""
        draw, width = self.draw, self.draw.choice([1, 4, 8, 33])
        kind, name, net, state = self.name("unit"), self.name("u"), Net(self.name("y"), width), Net(self.name("z"), 1)
        self.children.append(f"module {kind} #(parameter W = 4) (input ck, input [W-1:0] x, output [W-1:0] y, output reg z = 1'b1);\n"
                             f"  reg [W-1:0] kept;\n  assign y = kept ^ x;\n"
                             f"  always @(posedge ck) begin kept <= kept + x; z <= ^{{kept, x}}; end\nendmodule\n")
        say, given = Expressions(draw, self.nets), self.name("x")  # Icarus takes an expression in a connection at its own width
        self.items.append(f"  wire {span_always(width)}{given} = {say.text(2)};\n  wire {span_always(width)}{net.name};\n  wire {state.name};\n"
                          f"  {kind} #(.W({width})) {name} (.ck({self.clock}), .x({given}), .y({net.name}), .z({state.name}));")
        self.nets = self.nets + [state] + ([net] if width > 1 else [])

    def make_chosen(self):
        """A register that a block without a clock assigns in every case."""
        draw, net, say = self.draw, Net(self.name("y"), self.draw.choice(WIDTHS)), Expressions(self.draw, self.nets)
        self.declared.append(f"  reg {span(net.width)}{net.name};")
        label, other = (say.literal(4) for _ in range(2))
        arms = f"{label}: {net.name} = {say.text()}; {other}, 4'd3: begin {net.name} = {say.text()}; end default: ;"
        body = draw.choice([f"    if ({say.bit()}) {net.name} = {say.text()};\n", f"    case ({say.text(1)}) {arms} endcase\n"])
        self.items.append(f"  always @* begin\n    {net.name} = {say.text()};\n{body}  end")
        self.nets = self.nets + [net]

    def statement(self, say, targets, depth):
        """A statement that assigns registers of `targets` or words of memories."""
        draw, kind = self.draw, self.draw.random()
        if depth and kind < 0.25:
            other = f" else {self.statement(say, targets, depth - 1)}" if self.some(0.5) else ""
            return f"if ({say.bit()}) begin {self.statement(say, targets, depth - 1)} end{other}"
        if depth and kind < 0.35:
            arms = " ".join(f"{say.literal(2)}: {self.statement(say, targets, depth - 1)}" for _ in range(draw.randrange(1, 3)))
            return f"case ({say.text(1)}) {arms} default: {self.statement(say, targets, depth - 1)} endcase"
        net = draw.choice(targets)
        if net.words:
            return f"{net.name}[{say.place(net.words)}] <= {say.text()};"
        if net.width > 1 and kind > 0.9:
            low = draw.randrange(net.width)
            return f"{net.name}[{draw.randrange(low, net.width)}:{low}] <= {say.text()};"
        if len(targets) > 1 and kind > 0.8 and not targets[0].words:
            return f"{{{net.name}, {targets[0].name}}} <= {say.text()};" if net is not targets[0] and net.width + targets[0].width <= 128 \
                else f"{net.name} <= {say.text()};"
        return f"{net.name} <= {say.text()};"

    def make_blocks(self):
        """One to three clocked blocks, which share the registers and memories among them."""
        draw, state = self.draw, self.registers + self.memories
        draw.shuffle(state)
        parts = [state[at::3] for at in range(3)] if self.some(0.5) else [state]
        say = Expressions(draw, self.nets)
        for targets in filter(None, parts):
            body = "\n      ".join(self.statement(say, targets, 2) for _ in range(draw.randrange(1, 5)))
            cleared = " ".join(f"{net.name} <= {net.width}'d{draw.randrange(2)};" for net in targets if not net.words)
            if self.reset and self.some(0.7):
                test = self.reset.name if self.active else draw.choice(["!", "~"]) + self.reset.name
                self.items.append(f"  always @(posedge {self.clock})\n    if ({test}) begin {cleared} end\n    else begin\n      {body}\n    end")
            else:
                self.items.append(f"  always @(posedge {self.clock}) begin\n      {body}\n    end")

    def make_outputs(self):
        """What the outputs show."""
        say = Expressions(self.draw, self.nets)
        self.items += [f"  assign {net.name} = {say.text()};" for net in self.ignored]
        free = [channel for channel in self.channels if channel[1]]
        for channel in self.channels:
            if not channel[1]:
                self.show_outward(channel, say, free)
        for _, _, valid, ready, _ in free:
            state = "|" + self.draw.choice(self.registers).name
            self.items.append(f"  assign {ready.name} = {self.draw.choice([ONE, ONE, say.bit(), say.bit(), state])};")

    def show_outward(self, channel, say, free):
        """An outward channel: held by a register, joined to an inward one, held at 1, or by chance."""
        stem, _, valid, ready, contents = channel
        kind = self.draw.random()
        if kind < 0.1 and free:
            _, _, source, taken, brought = free.pop()
            self.items.append(f"  assign {valid.name} = {source.name}, {taken.name} = {ready.name};")
            self.items += [f"  assign {net.name} = {brought[at % len(brought)].name if brought else say.literal(net.width)};"
                           for at, net in enumerate(contents)]
        elif kind < 0.2 and not self.count:
            self.items.append(f"  assign {valid.name} = {say.bit()};")
            self.items += [f"  assign {net.name} = {say.text()};" for net in contents]
        else:
            is_open = kind < 0.35
            held = [Net(self.name(f"{stem}_held"), net.width) for net in contents]
            full = Net(self.name(f"{stem}_full"), 1)
            self.declared += [f"  reg {span(net.width)}{net.name};" for net in held] + ([] if is_open else [f"  reg {full.name};"])
            self.items.append(f"  assign {valid.name} = {ONE if is_open else full.name};")
            self.items += [f"  assign {net.name} = {kept.name};" for net, kept in zip(contents, held)]
            takes = ready.name if is_open else f"!{full.name} | {ready.name}"
            fills = "" if is_open else f"{full.name} <= {self.draw.choice([say.bit(), say.bit(), ONE])}; "
            body = fills + " ".join(f"{net.name} <= {say.text()};" for net in held)
            if body:
                self.items.append(f"  always @(posedge {self.clock}) if ({takes}) begin {body} end")

    def design(self, top):
        """The text of the design."""
        header = ",\n    ".join(f"{direction} {span(width)}{name}" for direction, name, width in self.ports)
        own = f"module {top}({header});\n" + "\n".join(self.declared + self.items) + "\nendmodule\n"
        texts = self.children + [own]
        self.draw.shuffle(texts)
        return "\n".join(texts)

    def map(self, top):
        """The text of the map; the lines behind the first stand in any order, and so the channels."""
        lines = [f"clock {self.clock}"] + [f"tie {net.name} {value(self.draw, net.width)}" for net in self.ties]
        lines += [f"reset {self.reset.name} {self.active} {self.draw.randrange(1, 4)}"] if self.reset else []
        lines += [f"ignore {net.name}" for net in self.ignored]
        self.draw.shuffle(self.channels)
        lines += [" ".join(["in" if inward else "out", stem, valid.name, ready.name, *(net.name for net in contents)])
                  for stem, inward, valid, ready, contents in self.channels]
        others = lines[:len(lines) - len(self.channels)]
        self.draw.shuffle(others)
        for line in lines[len(others):]:
            others.insert(self.draw.randrange(len(others) + 1), line)
        order = [line.split()[1] for line in others if line.split()[0] in ("in", "out")]
        self.channels.sort(key=lambda channel: order.index(channel[0]))
        return "\n".join([f"top {top}"] + others) + "\n"

    def script(self):
        """The text of a script of 10 to 60 cycles."""
        draw, cycles = self.draw, self.draw.randrange(10, 61)
        lines = []
        for stem, inward, _, _, contents in self.channels:
            length, pause = 0, draw.choice([0, 1, 3, 8])
            while length < cycles and len(lines) < 200 * len(self.channels):
                wait = draw.randrange(pause + 1)
                lines += [f"{stem} wait {wait}"] if wait else []
                if self.some(0.08):
                    lines.append(f"{stem} after {draw.choice(self.channels)[0]} {draw.randrange(1, 6)}")
                count = draw.randrange(1, 5)
                if inward:
                    lines.append(" ".join([stem, "send"] + [str(value(draw, net.width)) for net in contents]))
                else:
                    lines.append(f"{stem} take {'all' if self.some(0.15) else count}")
                length += wait + (1 if inward else count)
        return f"cycles {cycles}\n" + "\n".join(lines) + "\n"

    def stalls(self):
        """The text of a plan whose store is small, at times the least."""
        draw, head = self.draw, trace_kit.head_bytes(len(self.channels))
        need = sum(2 * head + trace_kit.content_bytes(net.width for net in contents) for *_, contents in self.channels)
        lines = [f"capacity {need + draw.choice([0, 1, 4, 9, 30, 1000])}"]
        lines += [f"drain {draw.choice(['all', 0, 1, 2, 3, 5, 9])} {draw.randrange(1, 5)}" for _ in range(draw.choice([0, 1, 1, 2, 4]))]
        return "\n".join(lines) + "\n"


def span(width):
    """The range of a declaration, with a blank behind it."""
    return "" if width == 1 else f"[{width - 1}:0] "


def span_always(width):
    """The same where a width of 1 has a range too."""
    return f"[{width - 1}:0] "


def value(draw, width):
    """A number of this width."""
    return draw.choice([0, 1, (1 << width) - 1, draw.getrandbits(width), draw.getrandbits(width)]) % (1 << width)


def made(seed, count=None):
    """The files of a seed: their texts by their names. With a count there are so many channels."""
    writer = Writer(seed, count)
    top = writer.draw.choice(TOPS)
    writer.make_ports()
    writer.make_state()
    writer.make_wires()
    writer.make_blocks()
    writer.make_outputs()
    design = writer.design(top)
    return {"design.v": design, "map": writer.map(top), "script": writer.script(), "stalls": writer.stalls()}


def main():
    """Writes the files."""
    numbers = [int(word) for word in sys.argv[1:2] + sys.argv[3:] if word.isdigit()]
    if len(numbers) != len(sys.argv) - 2 or len(numbers) not in (1, 2) or numbers[1:] > [26] or not os.path.isdir(sys.argv[2]):
        raise Problem("wants a number and a folder, and maybe a number up to 26: make random SEED FOLDER [CHANNELS]")
    for name, text in made(*numbers).items():
        tool_kit.write(os.path.join(sys.argv[2], name), text)
