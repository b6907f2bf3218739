"""For a test bench in cocotb: copy it there, put your channels in, and start record(dut, path) with cocotb.start_soon behind the reset.
`vidi-tools trace PATH TRACE` makes a trace of what it writes. Untested in cocotb, which isn't in Debian; with a stand-in it writes what it has to.
The bytes are those of docs/FILES.md, "The bytes of a trace": the header, and a packet for each cycle in which something starts or ends; the end mark
is added by `vidi-tools trace`."""
import cocotb
from cocotb.triggers import RisingEdge

# name, whether it goes into the design, valid, ready, contents with their widths: as the lines of the map
CHANNELS = [("a", True, "a_v", "a_r", [("a_d", 8)]), ("b", False, "b_v", "b_r", [("b_d", 8)])]


def mask(flags):
    """A byte for eight channels, channel 0 as the lowest bit of the first."""
    return sum(1 << at for at, flag in enumerate(flags) if flag).to_bytes((len(flags) + 7) // 8, "little")


async def record(dut, path):
    """Writes the trace of the channels; start it with cocotb.start_soon behind the reset."""
    flying, gap = [False] * len(CHANNELS), 0
    with open(path, "w") as out:
        header = b"VIDITRC2" + bytes([len(CHANNELS)])
        for name, inward, _, _, ports in CHANNELS:
            header += bytes([not inward, len(name)]) + name.encode() + bytes([len(ports), *(width for _, width in ports)])
        print(header.hex(), file=out, flush=True)
        while True:
            await RisingEdge(dut.clk)  # values before the edge: read them before anything that the edge changes
            seen = [(bool(getattr(dut, valid).value), bool(getattr(dut, ready).value)) for _, _, valid, ready, _ in CHANNELS]
            starts = [valid and not before for (valid, _), before in zip(seen, flying)]
            ends = [valid and ready for valid, ready in seen]
            flying = [valid and not ready for valid, ready in seen]
            if any(starts) or any(ends):
                contents = b"".join(int(getattr(dut, port).value).to_bytes((width + 7) // 8, "big")
                                    for (*_, ports), start in zip(CHANNELS, starts) if start for port, width in ports)
                print((b"\1" + gap.to_bytes(2, "big") + mask(starts) + mask(ends) + contents).hex(), file=out, flush=True)
                gap = -1
            gap = min(gap + 1, 65535)  # the cycles since the packet before
