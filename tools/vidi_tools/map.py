"""Makes a first map of a design's port names and widths.

    map [-D NAME[=VALUE]] [--param NAME=VALUE] [--sv] [-o OUT] [--script OUT] [--stalls OUT] [--axi OUT [--bus FRONT]] FILES.. TOP
    map --check MAP FILES.. TOP

Channels are found by the names of their handshake: *_valid/*_ready, *_vld/*_rdy, *_v/*_r, *valid/*ready of AXI4, *tvalid/*tready of
AXI4-Stream. Their contents are the ports of the same side that begin as the handshake does, or are called as what it begins with (crc of
crc_valid); where a side has one channel and no such port, what is left of that side. The clock is the one of the design's registers, else an
input with a clock's name; the reset is an input with a reset's name, active at 0 where the name says so (rst_n, aresetn). What is guessed
has a comment. Where Icarus is installed, the first cycles are tried: a ready that doesn't rise is warned of, and the reset's polarity is
turned where that helps. A port of several bits that is tied or ignored is warned of too; with -o warnings are also printed on standard
error. Where no channel is found it is a skeleton, with what was looked for. --script and --stalls write a first script, some numbers sent to
each channel and all taken, and a plan of stalls, a store that never stalls: enough for a first recording. --axi writes the AXI file of `vidi
bursts` for channels with AXI4's names; of several ports, --bus s_axi_ takes the one whose names begin so. --check tries in Icarus whether
each ready of MAP rises in its first cycles, with its reset and with the other polarity, and writes nothing.
"""
import argparse
import os
import re
import sys
import tempfile

from vidi_tools import axi_map
from vidi_tools import tool_kit
from vidi_tools import trace_kit
from vidi_tools.tool_kit import Problem

HANDSHAKES = [("tvalid", "tready"), ("valid", "ready"), ("vld", "rdy"), ("val", "rdy"), ("valid", "rdy"), ("v", "r")]
CLOCK = re.compile(r"(?i)^(i_)?(\w*_)?a?(clk|clock|ck)(_i|_in)?$")
RESET = re.compile(r"(?i)^(i_)?(\w*_)?n?_?a?(rst|reset|rest)_?(n|b)?i?(_i|_in|_ni)?$")
AT_ZERO = re.compile(r"(?i)(^n_?a?(rst|reset)|(rst|reset)_?n$|(rst|reset)_?n?_?ni$|(rst|reset)_?n_i(n)?$|(rst|reset)_b$)")
TRIED = 100


class Ports:
    """The ports of the top, and what has become of each: its line of the map."""

    def __init__(self, ports):
        self.widths = {name: width for name, _, width in ports}
        self.sides = {name: side for name, side, _ in ports}
        self.used, self.channels, self.guessed = set(), [], set()

    def free(self, side=None):
        """The ports that no line has yet."""
        return [name for name in self.widths if name not in self.used and side in (None, self.sides[name])]

    def is_pair(self, valid, ready):
        """Whether these could be the valid and the ready of one channel."""
        return (ready in self.widths and not {valid, ready} & self.used and self.widths[valid] == self.widths[ready] == 1
                and self.sides[valid] != self.sides[ready])


def without_side(name):
    """The name without the `_i` or `_o` of its side."""
    return name[:-2] if name.lower().endswith(("_i", "_o")) else name


def stem_of(name, ending):
    """The name without its ending, which stands alone or behind `_` where it is short; None where it hasn't that ending."""
    name = without_side(name)
    if not name.lower().endswith(ending):
        return None
    stem = name[:len(name) - len(ending)]
    return None if len(ending) < 3 and stem and not stem.endswith("_") else stem


def swapped(stem):
    """The stem of the other side where names begin with the side of the port: i_ and o_, s_ and m_ aren't of one channel."""
    for one, other in (("i_", "o_"), ("o_", "i_")):
        if stem.startswith(one):
            return other + stem[2:]
    return stem


def ready_of(ports, valid):
    """The ready that belongs to this valid and the stem of both names, or None."""
    for ending, other in HANDSHAKES:
        stem = stem_of(valid, ending)
        for whole in [] if stem is None else [stem, swapped(stem)]:
            for ready in ports.widths:
                if without_side(ready).lower() == (whole + other).lower() and ports.is_pair(valid, ready):
                    return ready, stem + ("t" if other == "tready" else "")
    return None


def data_ports(ports, side):
    """The ports of a side that no line has yet and that have no name of a clock or a reset."""
    return [name for name in ports.free(side) if not RESET.match(name) and not CLOCK.match(name)]


def take_the_rest(ports, valids, kept):
    """Gives what is left of a side to its one channel, where that has no content port by its name."""
    for side in ("input", "output"):
        own = [valid for valid in valids if ports.sides[valid] == side]
        if len(own) == 1 and (not kept[own[0]] or is_bare(own[0])):
            kept[own[0]] += data_ports(ports, side)
            ports.used |= set(kept[own[0]])
            ports.guessed |= set(own)


def find_channels(ports):
    """Finds the channels: longer stems first take the content ports that begin with them."""
    found = []
    for valid in ports.widths:
        pair = ready_of(ports, valid) if ports.widths[valid] == 1 else None
        if pair:
            ports.used |= {valid, pair[0]}
            found.append((valid, *pair))
    kept = {}
    for valid, ready, stem in sorted(found, key=lambda one: -len(one[2])):
        kept[valid] = [name for name in data_ports(ports, ports.sides[valid]) if name.startswith(stem) or without_side(name) == stem.rstrip("_")]
        ports.used |= set(kept[valid])
    take_the_rest(ports, [valid for valid, _, _ in found], kept)
    names, bus = set(), {stem[:-2].rstrip("aA") if stem[-2:].lower() in ("aw", "ar") else stem[:-1] for _, _, stem in found}
    is_axi = len(bus) == 1 and "axi" in min(bus).lower() and len(found) > 1
    for valid, ready, stem in found:
        stem = stem[len(min(bus)):].lower() if is_axi else stem
        name = base = re.sub(r"\W", "_", re.sub(r"_?t?$", "", stem)) or ("in" if ports.sides[valid] == "input" else "out")
        while name in names:
            name = base + ("_in" if ports.sides[valid] == "input" else "_out") + str(len(names))
        names.add(name)
        ports.channels.append((name, ports.sides[valid], valid, ready, kept[valid]))


def clock_of(module, ports):
    """The clock: that of the registers, or the input with a clock's name. Says also how it was found."""
    bits = {port["bits"][0]: name for name, port in module["ports"].items() if len(port["bits"]) == 1}
    for cell in module["cells"].values():
        ticks = cell["connections"].get("CLK") or cell["connections"].get("WR_CLK")
        if ticks and ticks[0] in bits:
            return bits[ticks[0]], "the clock of the registers"
    named = [name for name in ports.free("input") if CLOCK.match(name) and ports.widths[name] == 1]
    if not named:
        raise Problem("no clock: no register has an input as its clock, and no input has a clock's name")
    return named[0], "guessed by its name"


def reset_of(ports):
    """The reset and its active value, or None."""
    for name in ports.free("input"):
        if ports.widths[name] == 1 and RESET.match(name):
            return name, 0 if AT_ZERO.search(name) else 1
    return None


def is_bare(valid):
    """Whether a handshake has no name before it: then its contents are only what was left."""
    return without_side(valid).lower() in [ending for ending, _ in HANDSHAKES]


def lines_of(top, clock, how, reset, ports, notes):
    """The lines of the map."""
    lines = [f"top {top}", f"clock {clock}  # {how}"]
    if reset:
        lines.append(f"reset {reset[0]} {reset[1]} 2  # guessed by its name: active at {reset[1]}")
    for name, side, valid, ready, contents in ports.channels:
        lines.append(" ".join(["in" if side == "input" else "out", name, valid, ready, *contents]) +
                     ("" if contents else "  # no content port has its name") +
                     ("  # guessed: all ports of this side" if contents and valid in ports.guessed else ""))
    if not ports.channels:
        looked = ", ".join(f"*{valid}/*{ready}" for valid, ready in HANDSHAKES)
        lines += [f"# no channel was found; looked for, in either case, one bit each, of two directions: {looked}",
                  "# in NAME VALID READY CONTENT ..   a channel into the design: it takes VALID and gives READY",
                  "# out NAME VALID READY CONTENT ..  a channel out of the design; a port of a channel has no line tie or ignore"]
    lines += [f"tie {name} 0  # no channel has it: what should it be?" for name in ports.free("input")]
    lines += [f"ignore {name}  # no channel has it" for name in ports.free("output")]
    return lines + [f"# warning: {note}" for note in notes]


def limits(ports):
    """What of the channels is beyond the limits of a map."""
    for name, _, _, _, contents in ports.channels:
        if len(contents) > 16:
            yield f"{name} has {len(contents)} content ports, 16 are allowed: ignore some"
        for port in contents:
            if ports.widths[port] > 128:
                yield f"{port} has {ports.widths[port]} bits, 128 are allowed: split it in a wrapper"


def left_out_data(ports):
    """Which ports of several bits no channel has."""
    for side, what in (("input", "tied to 0"), ("output", "ignored")):
        for name in ports.free(side):
            if ports.widths[name] > 1:
                yield f"{name} has {ports.widths[name]} bits and is {what}: is it the content of a channel?"


def silent(options, lines):
    """The inward channels whose ready doesn't rise in the first cycles, by Icarus, while all outward ones are taken."""
    from vidi_tools import icarus_rows
    from vidi_tools import same_transfers
    with tempfile.TemporaryDirectory() as folder:
        path = os.path.join(folder, "map")
        tool_kit.write(path, "\n".join(lines) + "\n")
        plan = icarus_rows.Map(path)
    script = [["cycles", str(TRIED)]]
    for name, is_inward, _, _, contents in plan.channels:
        script.append([name, "send", *["0"] * len(contents)] if is_inward else [name, "take", "all"])
    text = same_transfers.icarus_run(options.files, plan, script, options.define, options.param)
    ended = {line.split()[2] for line in text.splitlines() if " end " in line}
    return [name for name, is_inward, *_ in plan.channels if is_inward and name not in ended]


def check_map(options):
    """Tries the reset's polarity of a map in its first cycles. The status: 1 where the other one makes more readies rise."""
    plan = tool_kit.Map(options.check)
    if plan.top != options.top:
        raise Problem(f"{options.check}: its top is {plan.top}, not {options.top}")
    lines = [text.split("#")[0].strip() for text in tool_kit.text_of(options.check).splitlines()]
    quiet = silent(options, lines)
    if plan.reset:
        name, active, _ = plan.reset
        turned = [re.sub(rf"^reset\s+{re.escape(name)}\s+{active}\b", f"reset {name} {1 - active}", line) for line in lines]
        better = [channel for channel in quiet if channel not in silent(options, turned)] if quiet else []
        if better:
            print(f"{options.check}: with `reset {name} {active}` {better[0]} isn't ready in {TRIED} cycles, with `reset {name} {1 - active}` it is: "
                  "turn it")
            return 1
    for channel in quiet:
        print(f"{options.check}: {channel} isn't ready in {TRIED} cycles with zeros sent: is the reset right, is a tie?")
    if not quiet:
        print(f"{options.check}: each inward channel is ready within {TRIED} cycles")
    return 1 if quiet else 0


def tried(options, top, clock, how, reset, ports):
    """The reset that was better in the first cycles, and warnings."""
    notes = list(limits(ports)) + list(left_out_data(ports))
    if not ports.channels:
        return reset, notes + ["no valid with its ready found: name the channels, or put a wrapper round a bus of another kind"]
    try:
        quiet = silent(options, lines_of(top, clock, how, reset, ports, []))
        if quiet and reset:
            turned = (reset[0], 1 - reset[1])
            better = silent(options, lines_of(top, clock, how, turned, ports, []))
            if len(better) < len(quiet):
                notes.append(f"{reset[0]} is named as active at {reset[1]}, but then {quiet[0]} is never ready: turned to {turned[1]}")
                reset, quiet = turned, better
    except Problem as problem:
        return reset, notes + [f"not tried whether a ready rises: {problem}"]
    said = f"doesn't rise in {TRIED} cycles with zeros sent: is the reset right, is a tie?"
    return reset, notes + [f"the ready of {name} {said}" for name in quiet]


def first_script(ports):
    """A first script: three contents for each inward channel, and all is taken."""
    lines = [f"cycles {TRIED}"]
    for name, side, _, _, contents in ports.channels:
        if side == "input":
            for count in range(1, 4):
                lines.append(" ".join([name, "send", *(str(count % (1 << min(ports.widths[port], 128))) for port in contents)]))
        else:
            lines.append(f"{name} take all")
    return "\n".join(lines) + "\n"


def first_stalls(ports):
    """A plan of stalls of which no gate goes down: room for some starts and ends of all channels, and everything drains in each cycle."""
    content = trace_kit.content_bytes(ports.widths[port] for channel in ports.channels for port in channel[4])
    return f"capacity {4 * (2 * trace_kit.head_bytes(len(ports.channels)) * len(ports.channels) + content)}\ndrain all 1\n"


def parser():
    """The words of this tool."""
    said = argparse.ArgumentParser(description=__doc__, formatter_class=argparse.RawDescriptionHelpFormatter)
    said.add_argument("-D", dest="define", action="append", default=[], metavar="NAME[=VALUE]", help="a macro of the files")
    said.add_argument("--param", action="append", default=[], metavar="NAME=VALUE", help="a parameter of the top")
    said.add_argument("--sv", action="store_true", help="the files are SystemVerilog")
    said.add_argument("-o", dest="out", metavar="OUT", help="write the map to OUT and not to standard output")
    said.add_argument("--script", metavar="OUT", help="write a first script to OUT")
    said.add_argument("--stalls", metavar="OUT", help="write a first plan of stalls to OUT")
    said.add_argument("--axi", metavar="OUT", help="write the AXI file of vidi bursts to OUT")
    said.add_argument("--bus", metavar="FRONT", help="what the names of that AXI4 port begin with, where there are several")
    said.add_argument("--check", metavar="MAP", help="try the reset's polarity of this map, and make none")
    said.add_argument("files", metavar="FILES", nargs="+")
    said.add_argument("top", metavar="TOP")
    return said


def main():
    """Makes the map and prints it."""
    options = tool_kit.parse_options(parser())
    if not all("=" in word for word in options.param):
        raise Problem("--param wants NAME=VALUE")
    options.param = [tuple(word.split("=", 1)) for word in options.param]
    if not re.fullmatch(r"[A-Za-z_][\w$]*", options.top):
        raise Problem(f"{options.top} is no name of a module; TOP is the last word")
    if options.check:
        sys.exit(check_map(options))
    module = tool_kit.elaborated(options.top, options.files, options.define, options.param, options.sv)
    ports = Ports(tool_kit.ports_of(module))
    clock, how = clock_of(module, ports)
    ports.used.add(clock)
    reset = reset_of(ports)
    ports.used |= {reset[0]} if reset else set()
    find_channels(ports)
    reset, notes = tried(options, options.top, clock, how, reset, ports)
    text = "\n".join(lines_of(options.top, clock, how, reset, ports, notes)) + "\n"
    if (options.script or options.stalls) and not ports.channels:
        raise Problem("no channel found, so there is no first script")
    axi = axi_map.text_of(ports.channels, ports.widths, options.bus) if options.axi else None
    for path, content in ((options.out, text), (options.script, first_script(ports)), (options.stalls, first_stalls(ports)), (options.axi, axi)):
        if path:
            tool_kit.write(path, content)
    if not options.out:
        sys.stdout.write(text)
    for note in notes if options.out else []:
        print(f"map: warning: {note}", file=sys.stderr)
