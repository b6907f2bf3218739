"""Makes a bench that plays a trace, or a script, on a design as it stands, in Icarus, Verilator or another simulator, with all its waves.

    bench TRACE MAP -o BENCH.v [--by packets|clocks|cycles]
    bench --script SCRIPT MAP -o BENCH.v --files FILES..

By clocks (where nothing is said) an input starts, and an output is taken, once the completions that were recorded before it have come: what
`vidi replay` does, and what the design shows is the trace that it writes. By packets they wait for all starts and completions of the packets
before, and starts of outputs wait too, so all comes in the recorded order. By cycles they wait for the recorded cycle as well: a
recording comes again as it was. A script is played by cycles. A trace with a reset isn't played.

BENCH.v has the module vidi_bench and the commands to run it; FILES are named there, and of a script Icarus is asked on them how wide the contents
are. It prints what `vidi dump` prints of the trace of what the
design shows, a line that begins with # where a content isn't the recorded one, and a last line. It writes BENCH.hex, of which `vidi-tools trace`
makes a trace, and BENCH.vcd.
"""
import argparse
import os
import re

from vidi_tools import bench_kit
from vidi_tools import icarus_rows
from vidi_tools import port_kit
from vidi_tools import store_kit
from vidi_tools import tool_kit
from vidi_tools import trace_kit
from vidi_tools.tool_kit import Problem


def steps_of(path, plan):
    """The cycles of a script, and for each channel its steps as (kind, words)."""
    cycles, steps, directions = None, {channel.name: [] for channel in plan.channels}, {channel.name: channel for channel in plan.channels}
    for line, text in enumerate(tool_kit.text_of(path).split("\n"), 1):
        words = text.split("#")[0].split()
        numbers = [tool_kit.number(word) for word in words[2:]]
        if words[:1] == ["cycles"] and cycles is None and len(words) == 2:
            cycles = tool_kit.number(words[1])
        elif icarus_rows.is_reset(words):
            raise Problem(f"{path} line {line}: a reset in mid-run, and a bench plays none")
        elif words and (cycles is None or words[0] not in steps):
            raise Problem(f"{path} line {line}: no line of a script of this map: {text.strip()}")
        elif words:
            kind, channel = words[1] if len(words) > 1 else "", directions[words[0]]
            is_right = {"send": channel.is_inward and len(numbers) == len(channel.ports), "take": not channel.is_inward and len(numbers) == 1,
                        "wait": len(numbers) == 1, "after": len(numbers) == 2 and words[2] in steps}.get(kind, False)
            if words[1:] == ["take", "all"] and is_right:
                kind, numbers = "all", []
            elif not is_right or None in numbers[kind == "after":]:
                raise Problem(f"{path} line {line}: no step of {words[0]}: {text.strip()}")
            steps[words[0]].append((kind, [words[2], numbers[1]] if kind == "after" else numbers))
    if not cycles:
        raise Problem(f"{path}: no line cycles N")
    return cycles, steps


def refuse_channels(trace, plan, path):
    """Refuses a trace of other channels than the map's."""
    ours = [(channel.name, channel.is_inward, len(channel.ports)) for channel in plan.channels]
    theirs = [(channel.name, channel.is_inward, len(channel.widths)) for channel in trace.channels]
    for our, their in zip(ours + [None], theirs + [None]):
        if our != their:
            sides = ("none" if one is None else f"{'in' if one[1] else 'out'} {one[0]} with {one[2]} contents" for one in (our, their))
            raise Problem("{}: other channels: the map has {}, the trace {}".format(path, *sides))


def bench_of_trace(options, plan):
    """The bench of a trace."""
    trace = trace_kit.read_file(options.trace)
    refuse_channels(trace, plan, options.trace)
    if trace.first_reset() is not None:
        raise Problem(f"{options.trace}: reset in packet {trace.first_reset()}, and a bench plays none")
    widths = {port: width for channel, table in zip(plan.channels, trace.channels) for port, width in zip(channel.ports, table.widths)}
    widths.update(port_kit.widths_of(options, plan) if options.files and plan.ties else {})
    bench = bench_kit.Bench(plan, store_kit.channels_of(plan, widths), options.by, {port: widths[port] for port in plan.ties if port in widths})
    bench.trace = trace
    bench.cycles = max(bench.cycles, 2 * len(trace.packets) + 1000, max(trace.cycles(), default=0) + 1000)
    bench.rest = 0 if options.by == "clocks" else bench_kit.ROOM
    return bench


def bench_of_script(options, plan):
    """The bench of a script."""
    if options.by != "cycles":
        raise Problem(f"a script is played by cycles, not by {options.by}")
    if not options.files:
        raise Problem("a script doesn't say how wide the ports are: name the design's files with --files")
    widths = port_kit.widths_of(options, plan)
    bench = bench_kit.Bench(plan, store_kit.channels_of(plan, widths), "cycles", {port: widths[port] for port in plan.ties})
    bench.cycles, bench.steps = steps_of(options.script, plan)
    for channel in bench.channels:
        for kind, words in bench.steps[channel.name]:
            for port, width, value in zip(channel.ports, channel.widths, words if kind == "send" else []):
                if value >> width:
                    raise Problem(f"{options.script}: {channel.name} sends {value}, and {port} has {width} bits")
    return bench


def head(options, bench):
    """The comment at the head: what this is, and how it is run."""
    files = " ".join(options.files) if options.files else "FILES"
    is_new = any(path.endswith(".sv") for path in options.files)
    flags = "".join(f" -D{define}" for define in options.define)
    icarus, verilator = ("-g2012", "") if is_new else ("-g2005", " --default-language 1364-2005")
    out, name = options.out, bench.name
    what = f"the script {options.script}" if options.script else f"the trace {options.trace}"
    yield f"// Plays {what} on {bench.plan.top} by {options.by}. Made by vidi-tools bench."
    yield f"//   in Icarus: iverilog {icarus}{flags} -s vidi_bench -o {name}.vvp {out} {files} && vvp -n {name}.vvp"
    yield (f"//   in Verilator: verilator --binary --timing --trace -Wno-fatal -Wno-lint{verilator}{flags} --top-module vidi_bench -o {name} {out} "
           f"{files} && obj_dir/{name}")
    yield f"// It prints the trace of what {bench.plan.top} shows, and writes it to {name}.hex and all waves to {name}.vcd."


def parser():
    """The words of this tool."""
    said = argparse.ArgumentParser(description=__doc__, formatter_class=argparse.RawDescriptionHelpFormatter)
    said.add_argument("trace", metavar="TRACE", nargs="?", help="the trace that is played")
    said.add_argument("map", metavar="MAP", help="the design's ports")
    said.add_argument("-o", dest="out", metavar="BENCH.v", required=True)
    said.add_argument("--by", choices=("packets", "clocks", "cycles"), help="what an event waits for (clocks; of a script cycles)")
    said.add_argument("--script", metavar="SCRIPT", help="play a script and no trace")
    said.add_argument("--cycles", type=int, metavar="N", help="so many cycles at most (50,000, or what a longer trace wants; of a script its own)")
    said.add_argument("--zero", action="append", default=[], metavar="NAME", help="a register of the design that begins at 0, as full or u.full")
    port_kit.add_words(said)
    return said


def main():
    """Makes the bench and writes it."""
    options = tool_kit.parse_options(parser())
    options.by = options.by or ("cycles" if options.script else "clocks")
    if (options.trace is None) == (options.script is None):
        raise Problem("wants a trace or --script SCRIPT")
    if not re.fullmatch(r"[\w.+/-]*\w\.s?v", options.out):
        raise Problem(f"{options.out}: the name of a bench ends in .v and has letters, digits, _, -, + and . alone")
    plan = tool_kit.Map(options.map)
    bench = bench_of_script(options, plan) if options.script else bench_of_trace(options, plan)
    if options.cycles is not None and options.cycles < 1:
        raise Problem(f"--cycles is {options.cycles}, not 1 or more")
    bench.cycles = options.cycles or bench.cycles
    bench.name = os.path.splitext(os.path.basename(options.out))[0]
    bench.zeros, bench.params = options.zero, options.param
    tool_kit.write(options.out, "\n".join([*head(options, bench), *bench_kit.lines(bench)]) + "\n")
