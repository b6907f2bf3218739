"""Writes `crates/trace_code_checks/src/changes.rt` to standard output: what a trace with one byte changed is, for each byte and each value.

    make changes

It reads traces by itself, from docs/FILES.md, "The bytes of a trace". The trace has gaps, resets, a channel with two ports, and one whose mask
leaves spare bits.
"""
import sys

# VIDITRC2; a inward with 8 and 3 bits, b outward without content
HEADER = bytes.fromhex("5649444954524332 02 0001610208 03 01016200".replace(" ", ""))
# a starts; a reset behind 3 cycles; a starts and ends behind 256, and b starts; a reset behind 65,535, and another at once; b starts and ends
BODY = bytes.fromhex("010000010005 07 020003 0101000301 ff00 02ffff 020000 0100000202 0000000006".replace(" ", ""))
LETTERS = b"ABCDEFGHIJKLMNOPQRSTUVWXYZabcdefghijklmnopqrstuvwxyz_"


class Fault(Exception):
    """These bytes have no such part here."""


class Reader:
    """Takes bytes from the front."""

    def __init__(self, content):
        self.content, self.at = content, 0

    def number(self, count, order="big"):
        """The number in the next bytes."""
        if self.at + count > len(self.content):
            raise Fault
        self.at += count
        return int.from_bytes(self.content[self.at - count:self.at], order)

    def below(self, count, limit, order="big"):
        """The same, below a limit."""
        number = self.number(count, order)
        if number >= limit:
            raise Fault
        return number


def channel_of(reader):
    """A channel: its name, and the widths of its ports."""
    reader.below(1, 2)
    name = bytes(reader.number(1) for _ in range(reader.number(1)))
    if not 1 <= len(name) <= 64 or name[0] not in LETTERS or any(c not in LETTERS + b"0123456789" for c in name):
        raise Fault
    widths = [reader.number(1) for _ in range(reader.number(1))]
    if len(widths) > 16 or any(not 1 <= width <= 128 for width in widths):
        raise Fault
    return name, widths


def header_of(reader):
    """The channels of a lawful header."""
    if reader.number(8) != int.from_bytes(b"VIDITRC2", "big"):
        raise Fault
    channels = [channel_of(reader) for _ in range(reader.number(1))]
    if not 1 <= len(channels) <= 128 or len({name for name, _ in channels}) < len(channels):
        raise Fault
    if sum((width + 7) // 8 for _, widths in channels for width in widths) > 2048:
        raise Fault
    return channels


def packet_of(reader, channels, flying):
    """The channels in flight behind the packet that stands here, where it is lawful behind one that left these."""
    kind = reader.number(1)
    if kind not in (1, 2):
        raise Fault
    reader.number(2)
    if kind == 2:
        return 0
    count = len(channels)
    starts, ends = (reader.below((count + 7) // 8, 1 << count, "little") for _ in range(2))
    for c, (_, widths) in enumerate(channels):
        for width in widths if starts >> c & 1 else []:
            reader.below((width + 7) // 8, 1 << width)
    shown = flying | starts
    if not starts | ends or flying & starts or ends & ~shown:
        raise Fault
    return shown & ~ends


def fault_of(content):
    """The place of the fault in the bytes of a trace; None where they are those of a lawful one."""
    reader = Reader(content)
    try:
        channels = header_of(reader)
    except Fault:
        return 0
    packets, flying, at = 0, 0, reader.at
    try:
        while True:
            flying = packet_of(reader, channels, flying)
            packets, at = packets + 1, reader.at
    except Fault:
        return None if content[at:] == b"\0" + packets.to_bytes(4, "big") else at


def runs_of(content):
    """What each changed byte makes of the bytes, one value in place of it after the other: places, and runs of values with one fault."""
    for place in range(len(content)):
        faults = [fault_of(content[:place] + bytes([value]) + content[place + 1:]) for value in range(256)]
        first = 0
        for value in range(1, 257):
            if value == 256 or faults[value] != faults[first]:
                yield place, first, value - 1, faults[first]
                first = value


def main():
    content = HEADER + BODY
    assert fault_of(content) is None
    runs = list(runs_of(content))
    out = sys.stdout.write
    out("//! What a worked trace with one byte changed is, for each byte and each value: written by `tools/make changes`.\n\n")
    out("// VIDITRC2, a inward with 8 and 3 bits, b outward without content; three packets with events and three resets, behind gaps.\n")
    out(f"pub(crate) const TRACE: [u8; {len(content)}] = [\n")
    for at in range(0, len(content), 16):
        out("    " + ", ".join(f"0x{byte:02x}" for byte in content[at:at + 16]) + ",\n")
    out("];\n\n")
    out("// A place, the first and the last of some values in place of its byte, and the fault that these make, or 255 where there is none.\n")
    out(f"pub(crate) const RUNS: [[u8; 4]; {len(runs)}] = [\n")
    for place, first, last, fault in runs:
        out(f"    [{place}, {first}, {last}, {255 if fault is None else fault}],\n")
    out("];\n")
