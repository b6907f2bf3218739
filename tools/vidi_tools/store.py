"""Makes a recorder of a map's channels as Verilog, for an own bench or for an FPGA.

    store MAP -o STORE.v --files FILES..
    store MAP -o STORE.v --files FILES.. --stream [--room BEATS]

The first is the module vidi_store for a bench: it watches the valids, readies and contents of the channels and writes their trace as
hexadecimal text, of which `vidi-tools trace` makes a trace; the task `close` writes its end. The second can be synthesised: the module
vidi_stream gives each packet as beats of an AXI4-Stream, whose bytes in order behind a header are the trace, and a gate for each channel, up only
while the FIFO before it has room for what the channel may still do. FILES are the design's; they say how wide the contents are. The head of STORE.v
has an example of how it is connected.
"""
import argparse
import re

from vidi_tools import port_kit
from vidi_tools import store_kit
from vidi_tools import stream_kit
from vidi_tools import tool_kit
from vidi_tools.tool_kit import Problem


def example(channels, plan):
    """How the recorder for a bench is connected, as a comment."""
    off = f"{plan.reset[0]} == {plan.reset[1]}" if plan.reset else "1'b0"
    joins = [f".clk({plan.clock})", f".off({off})"]
    for channel in channels:
        at = channel.number
        joins.append(f".v_{at}({channel.valid}), .r_{at}({channel.ready})")
        joins += [f".{name}({port})" for name, port in zip(channel.contents("d"), channel.ports)]
    yield "// In a bench, beside the design:"
    yield f'//   vidi_store #(.FILE("trace.hex")) store ({", ".join(joins)});'
    yield "// and before $finish: store.close; then: vidi-tools trace trace.hex TRACE"


def main():
    """Makes the store and writes it."""
    parser = argparse.ArgumentParser(description=__doc__, formatter_class=argparse.RawDescriptionHelpFormatter)
    parser.add_argument("map", metavar="MAP")
    parser.add_argument("-o", dest="out", metavar="STORE.v", required=True)
    parser.add_argument("--stream", action="store_true", help="make the one that can be synthesised")
    parser.add_argument("--room", type=int, metavar="BEATS", help="the beats of the FIFO before the stream (four times the least)")
    port_kit.add_words(parser)
    options = tool_kit.parse_options(parser)
    if not options.files:
        raise Problem("a map doesn't say how wide the ports are: name the design's files with --files")
    if not re.fullmatch(r".*\.s?v", options.out):
        raise Problem(f"{options.out}: the name of a Verilog text ends in .v")
    plan = tool_kit.Map(options.map)
    channels = store_kit.channels_of(plan, port_kit.widths_of(options, plan))
    least = stream_kit.least_room(channels)
    room = options.room or 4 * least
    if room < least:
        raise Problem(f"--room is {room}, and a start and an end of each channel need {least} beats")
    lines = stream_kit.lines(channels, room) if options.stream else [*example(channels, plan), *store_kit.recorder(channels)]
    tool_kit.write(options.out, "\n".join([f"// A recorder of the channels of {plan.top}. Made by vidi-tools store.", *lines]) + "\n")
