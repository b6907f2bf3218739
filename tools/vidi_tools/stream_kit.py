"""The Verilog of a recorder that can be synthesised: packets as beats of an AXI4-Stream, and gates from the room of the FIFO before it."""
from vidi_tools.store_kit import octets, span
from vidi_tools.trace_kit import content_bytes, head_bytes, header


def beat_bytes(channels):
    """The bytes of the longest packet, which are those of a beat."""
    return head_bytes(len(channels)) + sum(content_bytes(channel.widths) for channel in channels)


def least_room(channels):
    """The beats of the smallest FIFO: one for a start and one for an end of each channel."""
    return 2 * len(channels)


def mask_bytes(stem, channels):
    """The bytes of a mask, the last first: the first byte has the first eight channels, channel 0 as its lowest bit."""
    parts = []
    for first in reversed(range(0, len(channels), 8)):
        own = [f"{stem}_{channel.number}" for channel in reversed(channels[first:first + 8])]
        parts.append("{" + ", ".join(([f"{8 - len(own)}'d0"] if len(own) < 8 else []) + own) + "}")
    return ", ".join(parts)


def comment(channels, room):
    """What the text is, and how it is connected."""
    size = beat_bytes(channels)
    yield "// Behind vidi_record_top of `vidi wrap`, whose gates it gives:"
    yield "//   vidi_stream stream (.clk(clk), .rst(rst), .start_0(start_0), .stop_0(stop_0), .g_0(g_0), ..);"
    yield f"// A beat is a packet: {size} bytes, tdata[7:0] first, of which tkeep has those that count. The FIFO has {room} beats. A trace is these"
    yield "// bytes in order, then the end mark, which vidi-tools trace adds: behind the header, in hexadecimal:"
    yield f"//   {header(channels).hex()}"


def packet(channels, size):
    """The bytes of the packet of this cycle, the first the lowest, and how many they are."""
    for channel in channels:
        for name, width in zip(channel.contents("d"), channel.widths):
            count = -(-width // 8)
            turned = ", ".join(f"whole_{name[2:]}[{8 * at + 7}:{8 * at}]" for at in range(count))
            yield f"  wire [{8 * count - 1}:0] whole_{name[2:]} = {octets(name, width)};"
            yield f"  wire [{8 * count - 1}:0] turned_{name[2:]} = {{{turned}}};"
    yield "  reg [15:0] gap;  // the cycles since the packet before, 65535 at most"
    yield "  always @(posedge clk)\n    if (rst | push) gap <= 0;\n    else if (gap != 65535) gap <= gap + 1;"
    yield f"  reg [{8 * size - 1}:0] bytes, wide;\n  reg [{size.bit_length() - 1}:0] size;\n  always @* begin"
    yield f"    bytes = {{{mask_bytes('stop', channels)}, {mask_bytes('start', channels)}, gap[7:0], gap[15:8], 8'd1}};"
    yield f"    size = {head_bytes(len(channels))};"
    yield "    wide = 0;"
    for channel in channels:
        for name, width in zip(channel.contents("d"), channel.widths):
            yield f"    if (start_{channel.number}) begin\n      wide = turned_{name[2:]};\n      bytes = bytes | (wide << {{size, 3'd0}});"
            yield f"      size = size + {-(-width // 8)};\n    end"
    yield "  end"


def fifo(size, room):
    """The FIFO of beats."""
    yield f"  reg [{9 * size - 1}:0] beats [0:{room - 1}];\n  reg [15:0] first, last, count;"
    yield "  wire pop = tvalid & tready;"
    yield "  assign tvalid = count != 0, tlast = 1'b1, {tkeep, tdata} = beats[first];"
    yield "  always @(posedge clk) begin"
    yield f"    if (push) beats[last] <= {{{{{size}{{1'b1}}}} >> ({size} - size), bytes}};"
    yield "    if (rst) begin first <= 0; last <= 0; count <= 0; end\n    else begin"
    yield f"      if (push) last <= last == {room - 1} ? 0 : last + 1;\n      if (pop) first <= first == {room - 1} ? 0 : first + 1;"
    yield "      count <= after;\n    end\n  end"


def gates(channels, room):
    """The gates: one is kept until its channel completes, and comes up again where the FIFO has room for a start and an end more."""
    numbers = [channel.number for channel in channels]
    yield "  reg [15:0] after, claimed;"
    yield from (f"  reg gate_{at}, fly_{at}, next_{at};\n  assign g_{at} = gate_{at} & ~rst;" for at in numbers)
    yield "  always @* begin\n    after = count + push - pop;\n    claimed = after;"
    for at in numbers:
        yield f"    next_{at} = gate_{at} & ~stop_{at};"
        yield f"    if (next_{at}) claimed = claimed + ((fly_{at} | start_{at}) ? 1 : 2);"
    for at in numbers:
        yield f"    if (!next_{at} && claimed + 2 <= {room}) begin next_{at} = 1; claimed = claimed + 2; end"
    yield "  end\n  always @(posedge clk)"
    yield "    if (rst) begin " + " ".join(f"gate_{at} <= 1; fly_{at} <= 0;" for at in numbers) + " end"
    yield "    else begin " + " ".join(f"gate_{at} <= next_{at}; fly_{at} <= (fly_{at} | start_{at}) & ~stop_{at};" for at in numbers) + " end"


def lines(channels, room):
    """The text of the module vidi_stream."""
    yield from comment(channels, room)
    size, ports = beat_bytes(channels), ["input clk", "input rst"]
    for channel in channels:
        at = channel.number
        ports += [f"input start_{at}", f"input stop_{at}", f"output g_{at}"]
        ports += [f"input {span(width)}{name}" for name, width in zip(channel.contents("d"), channel.widths)]
    ports += ["output tvalid", "input tready", f"output [{8 * size - 1}:0] tdata", f"output [{size - 1}:0] tkeep", "output tlast"]
    yield "module vidi_stream (" + ",\n  ".join(ports) + ");"
    yield "  wire push = " + " | ".join(f"start_{channel.number} | stop_{channel.number}" for channel in channels) + ";"
    for part in (packet(channels, size), gates(channels, room), fifo(size, room)):
        yield from part
    yield "endmodule"
