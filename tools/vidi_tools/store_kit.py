"""The Verilog of a recorder: a module that watches channels and writes their trace as hexadecimal text, and prints it as `vidi dump` does."""
from vidi_tools import trace_kit


class Pins:
    """A channel of a map with its number and the widths of its contents, and what its nets are called here."""

    def __init__(self, number, channel, widths):
        self.number, self.name, self.is_inward, self.widths = number, channel.name, channel.is_inward, widths
        self.valid, self.ready, self.ports = channel.valid, channel.ready, channel.ports

    def contents(self, stem):
        """The names of its contents: d_0_1 is content 1 of channel 0."""
        return [f"{stem}_{self.number}_{at}" for at in range(len(self.widths))]


def channels_of(plan, widths):
    """The channels of a map; `widths` has that of each content port."""
    return [Pins(number, channel, [widths[port] for port in channel.ports]) for number, channel in enumerate(plan.channels)]


def span(width):
    """The range of a net."""
    return f"[{width - 1}:0] " if width > 1 else ""


def octets(name, width):
    """An expression of whole bytes that has this number."""
    missing = -width % 8
    return f"{{{missing}'d0, {name}}}" if missing else name


def mask(stem, count):
    """The bytes of a mask: the first byte has the first eight channels, channel 0 as its lowest bit."""
    parts = []
    for first in range(0, count, 8):
        last = min(first + 8, count)
        parts += [f"{8 - (last - first)}'d0"] * (last - first < 8) + [f"{stem}_{at}" for at in range(last - 1, first - 1, -1)]
    return "{" + ", ".join(parts) + "}"


def shown_lines(channels):
    """The statements that print a packet as `vidi dump` does."""
    clock, counts = " ".join(["%0d"] * len(channels)), ", ".join(f"done_{channel.number}" for channel in channels)
    yield '      if (gap != 0) $display("%0d gap %0d", packets, gap);'
    for channel in channels:
        values = "".join(f", {name}" for name in channel.contents("d"))
        form = " ".join(["%0d start", channel.name, *["%0d"] * len(channel.widths), "clock", clock])
        yield f'      if (start_{channel.number}) $display("{form}", packets{values}, {counts});'
    for channel in channels:
        yield f'      if (stop_{channel.number}) $display("%0d end {channel.name} clock {clock}", packets, {counts});'


def declared(channels):
    """The ports and the nets of the recorder."""
    ports = ["input clk", "input off"]
    for channel in channels:
        at = channel.number
        ports += [f"input v_{at}", f"input r_{at}"] + [f"input {span(width)}{name}" for name, width in zip(channel.contents("d"), channel.widths)]
    yield "module vidi_store (" + ",\n  ".join(ports) + ");"
    yield '  parameter FILE = "trace.hex";  // the trace, as hexadecimal text'
    yield "  parameter SHOW = 0;            // 1: print each event as vidi dump does"
    yield "  integer file;\n  reg [31:0] packets, cycle, free;"
    yield "  wire [15:0] gap = cycle - free > 65535 ? 16'hffff : cycle[15:0] - free[15:0];  // the cycles since the packet before"
    for channel in channels:
        at = channel.number
        yield f"  reg fly_{at};\n  integer done_{at};\n  wire start_{at} = v_{at} & ~fly_{at}, stop_{at} = v_{at} & r_{at};"


def opening(channels):
    """The initial block: all counts from 0, the file, its header."""
    zero = " ".join(f"fly_{channel.number} = 0; done_{channel.number} = 0;" for channel in channels)
    yield f"  initial begin\n    packets = 0; cycle = 0; free = 0; {zero}\n    file = $fopen(FILE, \"w\");"
    yield f'    $fwrite(file, "{trace_kit.header(channels).hex()}\\n");'
    for channel in channels:
        words = ["channel", channel.number, "in" if channel.is_inward else "out", channel.name, *channel.widths]
        yield f'    if (SHOW) $display("{" ".join(map(str, words))}");'
    yield "  end"


def writing(channels):
    """The block that writes a packet where something starts or ends in the cycle."""
    count = len(channels)
    some = " | ".join(f"start_{channel.number} | stop_{channel.number}" for channel in channels)
    yield "  task packet;\n    begin\n      $fwrite(file, \"01\");"
    yield "      if (cycle - free > 65535)"
    yield '        $display("# vidi_store: nothing in %0d cycles before cycle %0d; the trace has 65535 of them, the most", cycle - free, cycle);'
    yield f'      $fwrite(file, "%h%h%h", gap, {mask("start", count)}, {mask("stop", count)});'
    for channel in channels:
        for name, width in zip(channel.contents("d"), channel.widths):
            yield f'      if (start_{channel.number}) $fwrite(file, "%h", {octets(name, width)});'
    yield '      $fwrite(file, "\\n");\n      if (SHOW) begin'
    yield from ("  " + line for line in shown_lines(channels))
    yield "      end\n      packets = packets + 1; free = cycle + 1;"
    yield "      " + " ".join(f"done_{channel.number} = done_{channel.number} + stop_{channel.number};" for channel in channels)
    yield "    end\n  endtask"
    yield f"  always @(posedge clk) begin\n    if (file != 0 && !off && ({some})) packet;"
    yield "    if (!off) cycle = cycle + 1;\n    else if (file != 0 && packets != 0) begin"
    yield '      $display("# vidi_store: a reset behind cycle %0d, time %0d; the trace ends there", cycle - 1, $time);\n      close;\n    end'
    yield "    " + " ".join(f"fly_{channel.number} <= ~off & v_{channel.number} & ~r_{channel.number};" for channel in channels) + "\n  end"


def recorder(channels):
    """The text of the module vidi_store. `close` writes the end mark; a reset behind the first packet closes it too."""
    yield from declared(channels)
    yield from opening(channels)
    yield "  task close;  // the end of the trace\n    if (file != 0) begin"
    yield '      $fwrite(file, "00%h\\n", packets);\n      $fclose(file);\n      file = 0;\n    end\n  endtask'
    yield from writing(channels)
    yield "endmodule"
