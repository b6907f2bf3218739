"""Writes as a case file (docs/CASES.md), which `rt ci` plays, what `vidi wrap` writes round designs with many channels, ports, instances and
nets. The expectations don't come from Vidi: this tool writes the modules that docs/SHIMS.md shows by itself, and counts nets,
drivers, instances and items in their text.
"""
import os
import re
from dataclasses import dataclass, field

from vidi_tools import tool_kit
from gate_parts.page_cases import part
from gate_parts.print_cases import laid_out
from vidi_tools.tool_kit import Problem

DATA = os.path.join(tool_kit.HERE, "..", "crates", "vidi_cases", "data", "wrapped.case")
HEAD = "## Made by tools/gate cases of the designs in it, and of the modules of docs/SHIMS.md.\n"
CLOCKED = "always @ ( posedge clk ) "


@dataclass
class Channel:
    """A channel of a map: its name, whether it is inward, and the widths of its contents."""
    name: str
    inward: bool
    widths: list = field(default_factory=list)

    def ports(self):
        """Direction, name and width of its ports at the design, in the map's order."""
        there, back = ("input", "output") if self.inward else ("output", "input")
        contents = [(there, f"{self.name}_{i}", width) for i, width in enumerate(self.widths)]
        return [(there, f"{self.name}_v", 1), (back, f"{self.name}_r", 1), *contents]


@dataclass
class Device:
    """A design and its map: ports in text order as (direction, name, width), channels and names of ties in map order; what else stands in the
    design, and the modules behind it. Outputs of no channel are ignored."""
    top: str
    ports: list
    channels: list
    ties: list = field(default_factory=list)
    reset: str = None
    body: str = ""
    below: str = ""

    def design(self):
        """The text: each output has a number of its own."""
        assigns = [f"  assign {name} = {i % 2};\n" for i, (way, name, _) in enumerate(self.ports) if way == "output"]
        ports = ",\n  ".join(f"{way} {bits(width)}{name}" for way, name, width in self.ports)
        return f"module {self.top}(\n  {ports});\n{''.join(assigns)}  reg t;\n  always @(posedge clk) t <= ~t;\n{self.body}endmodule\n{self.below}"

    def map(self):
        """The map."""
        lines = [f"top {self.top}", "clock clk"] + ([f"reset {self.reset} 1 2"] if self.reset else []) + [f"tie {name} 1" for name in self.ties]
        for c in self.channels:
            lines.append(" ".join(["in" if c.inward else "out", c.name, *(name for _, name, _ in c.ports())]))
        shown_ports = [name for c in self.channels for _, name, _ in c.ports()]
        lines += [f"ignore {name}" for way, name, _ in self.ports if way == "output" and name not in shown_ports]
        return "".join(f"{line}\n" for line in lines)


# ---- pieces of the text

def bits(width):
    """A range; a width of 1 has none."""
    return "" if width == 1 else f"[ {width - 1} : 0 ] "


def given(name, width=1):
    return f"input {bits(width)}{name}"


def shown(name, width=1):
    return f"output {bits(width)}{name}"


def wire(name, width=1):
    return f"wire {bits(width)}{name} ;\n"


def module(name, ports, items):
    return f"module {name} ( {' , '.join(ports)} ) ;\n{''.join(items)}endmodule\n"


def instance(kind, name, joined):
    return f"{kind} {name} ( {' , '.join(f'. {port} ( {net} )' if net else f'. {port} ( )' for port, net in joined)} ) ;\n"


def gated(widths):
    """The content lines of a monitor or a replayer."""
    return [f"assign k{i} = kv ? s{i} : {width}'d0 ;\n" for i, width in enumerate(widths)]


def each(letter, widths, form):
    return [form(f"{letter}{i}", width) for i, width in enumerate(widths)]


# ---- the modules of a channel

def monitor(n, c):
    ports = [given("clk"), given("g"), given("sv"), shown("sr"), *each("s", c.widths, given), shown("kv"), given("kr"),
             *each("k", c.widths, shown), shown("start"), shown("stop")]
    return module(f"vidi_m_{n}", ports, [
        "reg fly ;\n", "assign kv = sv & g ;\n", "assign sr = kr & g ;\n", *gated(c.widths), "assign start = kv & ~ fly ;\n",
        "assign stop = kv & kr ;\n", CLOCKED + "fly <= kv & ~ kr ;\n"])


def replayer(n, c, count):
    side = [*each("s", c.widths, given), shown("kv"), given("kr"), *each("k", c.widths, shown)] if c.inward else [given("sv"), shown("sr")]
    ports = [given("clk"), given("more"), *each("n", [32] * count, given), *each("d", [1] * count, given), *side, shown("pop")]
    offered, taken = ("kv", "kv & kr") if c.inward else ("sr", "sv & sr")
    covered = " & ".join(["more"] + [f"( c{j} >= n{j} )" for j in range(count)])
    return module(f"vidi_q_{n}", ports, [
        *(f"reg [ 31 : 0 ] c{j} ;\n" for j in range(count)), f"assign {offered} = {covered} ;\n", *(gated(c.widths) if c.inward else []),
        f"assign pop = {taken} ;\n", CLOCKED + "begin\n", *(f"c{j} <= c{j} + d{j} ;\n" for j in range(count)), "end\n"])


# ---- the tops

def held_ports(device):
    """The inputs `t_X`, in port order."""
    return [given(f"t_{name}", width) for _, name, width in device.ports if name in device.ties or name == device.reset]


def design_joined(device, valid, ready):
    """What the design's ports are joined to; `valid` and `ready` begin the nets of an inward valid and an outward ready."""
    nets = {"clk": "clk", **{name: f"t_{name}" for name in [*device.ties, device.reset]}}
    for n, c in enumerate(device.channels):
        (_, v, _), (_, r, _), *contents = c.ports()
        nets.update({v: f"{valid}{n}", r: f"r_{n}"} if c.inward else {v: f"v_{n}", r: f"{ready}{n}"})
        nets.update({name: f"{'k' if c.inward else 'd'}_{n}_{i}" for i, (_, name, _) in enumerate(contents)})
    return [(name, nets.get(name)) for _, name, _ in device.ports]


def record_ports(n, c):
    there, back = (given, shown) if c.inward else (shown, given)
    return [given(f"g_{n}"), there(f"v_{n}"), back(f"r_{n}"), *each(f"d_{n}_", c.widths, there), shown(f"start_{n}"), shown(f"stop_{n}")]


def monitor_joined(n, c):
    size = range(len(c.widths))
    return [("clk", "clk"), ("g", f"g_{n}"), ("sv", f"v_{n}"), ("sr", None if c.inward else f"w_{n}"), *((f"s{i}", f"d_{n}_{i}") for i in size),
            ("kv", f"w_{n}" if c.inward else None), ("kr", f"r_{n}"), *((f"k{i}", f"k_{n}_{i}" if c.inward else None) for i in size),
            ("start", f"start_{n}"), ("stop", f"stop_{n}")]


def record_top(device):
    channels = list(enumerate(device.channels))
    ports = [given("clk"), *held_ports(device), *(port for n, c in channels for port in record_ports(n, c))]
    wires = [item for n, c in channels for item in [wire(f"w_{n}"), *(each(f"k_{n}_", c.widths, wire) if c.inward else [])]]
    return module("vidi_record_top", ports, [*wires, instance(device.top, "dut", design_joined(device, "w_", "w_")),
                                             *(instance(f"vidi_m_{n}", f"m_{n}", monitor_joined(n, c)) for n, c in channels)])


def replay_ports(n, c, count):
    return [given(f"more_{n}"), *each(f"n_{n}_", [32] * count, given), *(each(f"s_{n}_", c.widths, given) if c.inward else []),
            shown(f"v_{n}"), shown(f"r_{n}"), shown(f"pop_{n}"), *([] if c.inward else each(f"d_{n}_", c.widths, shown))]


def replayer_joined(n, c, count):
    size = range(len(c.widths))
    side = ([*((f"s{i}", f"s_{n}_{i}") for i in size), ("kv", f"v_{n}"), ("kr", f"r_{n}"), *((f"k{i}", f"k_{n}_{i}") for i in size)]
            if c.inward else [("sv", f"v_{n}"), ("sr", f"r_{n}")])
    return [("clk", "clk"), ("more", f"more_{n}"), *((f"n{j}", f"n_{n}_{j}") for j in range(count)),
            *((f"d{j}", f"pop_{j}") for j in range(count)), *side, ("pop", f"pop_{n}")]


def replay_top(device):
    channels, count = list(enumerate(device.channels)), len(device.channels)
    ports = [given("clk"), *held_ports(device), *(port for n, c in channels for port in replay_ports(n, c, count))]
    wires = [item for n, c in channels if c.inward for item in each(f"k_{n}_", c.widths, wire)]
    return module("vidi_replay_top", ports, [*wires, instance(device.top, "dut", design_joined(device, "v_", "r_")),
                                             *(instance(f"vidi_q_{n}", f"q_{n}", replayer_joined(n, c, count)) for n, c in channels)])


def wrapped(device):
    """The text of OUT."""
    count = len(device.channels)
    shims = [text for n, c in enumerate(device.channels) for text in (monitor(n, c), replayer(n, c, count))]
    return laid_out(device.design(), device.top) + "".join([*shims, record_top(device), replay_top(device)])


# ---- counts

def declared(line):
    """How many names a line of wires or regs declares."""
    return line.count(" , ") + 1 if line.startswith(("wire ", "reg ")) else 0


def counted(text):
    """Items, nets, drivers and blocks of a module, and the modules of its instances: nets are ports, wires and regs; drivers are assignments
    and joined ports."""
    head, *lines = text.splitlines()
    kinds = [line.split()[0] for line in lines if re.match(r"\w+ \w+ \( [.)]", line)]
    assigns = sum(line.startswith("assign ") for line in lines)
    blocks = sum(line.startswith("always ") for line in lines)
    nets = len(re.findall(r"\b(?:input|output)\b", head)) + sum(map(declared, lines))
    joined = sum(len(re.findall(r"\. \w+ \( \w", line)) for line in lines)
    items = assigns + blocks + len(kinds) + sum(declared(line) > 0 for line in lines)
    return items, [1, nets, assigns + joined, blocks], kinds


def summed(counts, name):
    """Instances, nets, drivers and blocks of a module and all below it."""
    _, own, kinds = counts[name]
    below = {kind: summed(counts, kind) for kind in set(kinds)}
    return [count + sum(below[kind][i] for kind in kinds) for i, count in enumerate(own)]


def checked(text, top):
    """What `check` prints of a text with this top."""
    counts = {found.split()[1]: counted(found) for found in re.findall(r"^module .*?^endmodule$", text, re.S | re.M)}
    instances, nets, drivers, blocks = summed(counts, top)
    return (f"modules {len(counts)} items {sum(items for items, _, _ in counts.values())}\n"
            f"instances {instances} nets {nets} drivers {drivers} blocks {blocks} words 0\n")


# ---- the cases

def all_ports(channels):
    return [("input", "clk", 1), *(port for c in channels for port in c.ports())]


def held():
    """Ties in another order than the ports, with a reset between them; ignored outputs; channels with no, one and two contents."""
    a, b, c, d = Channel("a", True), Channel("b", True, [1, 128]), Channel("c", False), Channel("d", False, [2])
    ports = [("input", "mode", 128), *d.ports(), ("output", "spare", 1), *b.ports()[::-1], ("input", "clk", 1), ("input", "rst", 1),
             *a.ports(), ("input", "low", 1), *c.ports(), ("output", "left", 64), ("input", "size", 5)]
    return Device("held", ports, [c, a, d, b], ["size", "low", "mode"], "rst")


def wide():
    """16 contents each way, of all kinds of widths."""
    widths = [1, 2, 3, 4, 7, 8, 9, 15, 16, 17, 31, 32, 33, 63, 64, 128]
    channels = [Channel("a", True, widths), Channel("b", False, widths[::-1])]
    return Device("wide", all_ports(channels), channels)


def many(count):
    """So many channels, by turns in and out; every third has no content."""
    channels = [Channel(f"c{n}", n % 2 == 0, [] if n % 3 == 2 else [8] * (n % 3 + 1)) for n in range(count)]
    return Device("many", all_ports(channels), channels)


def full(regs):
    """So many regs beside 65,400 in modules of 100: the design has 65,406 nets more, and its two channels without content 31 in the top that
    records and 35 in the one that replays."""
    channels = [Channel("a", False), Channel("b", False)]
    few = f"module few(); reg {listed('r', 100)}; endmodule\n"
    lot = f"module lot(); {instances('few', 65)} endmodule\n"
    body = f"  reg {listed('s', regs)};\n  {instances('lot', 10)}\n  {instances('few', 4, 10)}\n"
    return Device("full", all_ports(channels), channels, body=body, below=few + lot)


def deep(leaves):
    """So many instances beside 4,033: the design, and 63 modules of 64."""
    channels = [Channel("a", False)]
    body = f"  {instances('node', 63)}\n  {instances('leaf', leaves, 63)}\n"
    below = f"module node(); {instances('leaf', 63)} endmodule\nmodule leaf(); endmodule\n"
    return Device("deep", all_ports(channels), channels, body=body, below=below)


def listed(letter, count):
    return ", ".join(f"{letter}{i}" for i in range(count))


def instances(kind, count, first=0):
    return " ".join(f"{kind} i{i}();" for i in range(first, first + count))


def case(device):
    """The design is wrapped, and the wrapped design is checked with both tops."""
    text = wrapped(device)
    lines = [*called(device), part(">>", "0", f"wrapped {len(device.channels)} channels\n"), part(">-", "out", text)]
    for top in ["vidi_record_top", "vidi_replay_top"]:
        lines += [f"++ check out {top}\n", part(">>", "0", checked(text, top))]
    return "".join(lines)


def taken(device):
    """The design is wrapped, as OUT is started, which fails: so the long text needn't stand here."""
    return "".join([*called(device), "!! start 1\n", part(">>", "3", "")])


def refused(device):
    """The design is refused."""
    return "".join([*called(device), part(">>", "4", "vidi: refused design: wrapped has E12\n")])


def called(device):
    return ["== wrap d m out\n", part("--", "d", device.design()), part("--", "m", device.map())]


CASES = [
    ("ties, a reset, ignored outputs, and channels with and without contents", case, held()),
    ("16 contents each way", case, wide()),
    ("33 channels", case, many(33)),
    ("126 channels, with 65,334 nets in the top that replays", taken, many(126)),
    ("127 channels, with 66,362", refused, many(127)),
    ("128 channels, with 67,397", refused, many(128)),
    ("65,536 nets with the top that replays", case, full(95)),
    ("one net more than that top may have", refused, full(96)),
    ("65,536 nets with the top that records, and too many with the other", refused, full(99)),
    ("too many with both", refused, full(100)),
    ("4,096 instances with each top", case, deep(61)),
    ("one more", refused, deep(62)),
]


def wanted():
    """The case file."""
    return {DATA: HEAD + "".join(f"** {title}\n{form(device)}" for title, form, device in CASES)}


def told(words):
    """The wrapped text of a design."""
    found = [device for _, _, device in CASES if words == [device.top]]
    if not found:
        raise Problem("no such design: held, wide, many, full or deep")
    return wrapped(found[0])
