"""Writes a large trace of bursts on a data bus of so many bytes, and its AXI file, for the measures of docs/SPEED.md.

    make beats GROUPS BEATS BYTES FOLDER

FOLDER gets `trace` and `axi` for `vidi bursts`. The data bus has BYTES bytes, a power of two from 1 to 128. Each of the GROUPS has 16 writes and 16
reads of BEATS beats (1 to 256, BYTES * BEATS at most 4,096), one of each with each of 16 IDs: first all addresses, a write and a read in a packet; then
the beats, of writes in order and of reads by turns of the IDs; then the responses, the last ID first. Each transaction completes in the packet in
which it starts, and each packet comes right behind the one before.
"""

import pathlib
import sys

IDS = 16


def ports(size):
    """Of each channel its direction, its name and the widths of its content ports: of addresses ADDR, LEN, SIZE, BURST and ID, of `w` LAST, the
    strobes and the data, of `b` ID and the response, of `r` LAST, ID and the data."""
    data = [min(8 * size, 128)] * -(-size // 16)
    address = [64, 8, 3, 2, 4]
    return [(0, b"aw", address), (0, b"w", [1, size, *data]), (1, b"b", [4, 2]), (0, b"ar", address), (1, b"r", [1, 4, *data])]


def header(size):
    rows = ports(size)
    return b"VIDITRC2" + bytes([len(rows)]) + b"".join(
        bytes([side, len(name)]) + name + bytes([len(widths), *widths]) for side, name, widths in rows)


def packet(channels, contents):
    """The packet in which these channels start and complete."""
    mask = sum(1 << channel for channel in channels)
    return bytes([1, 0, 0, mask, mask]) + contents


def group(number, beats, size):
    """The packets of a group's bursts."""
    last, strobes = bytes([0] * (beats - 1) + [1]), b"\xff" * -(-size // 8) if size >= 8 else bytes([(1 << size) - 1])
    out = []
    for i in range(IDS):
        address = ((IDS * number + i) % (1 << 20) * 4096).to_bytes(8, "big") + bytes([beats - 1, size.bit_length() - 1, 1, i])
        out.append(packet((0, 3), address + address))
    for k in range(IDS * beats):
        sent = bytes([last[k % beats]]) + strobes + (number + k).to_bytes(4, "big").rjust(size, b"\x5a")[-size:]
        got = bytes([last[k // IDS], k % IDS]) + (number * k).to_bytes(8, "big").rjust(size, b"\xa5")[-size:]
        out.append(packet((1, 4), sent + got))
    out.extend(packet((2,), bytes([IDS - 1 - i, 0])) for i in range(IDS))
    return out


def main():
    groups, beats, size, folder = int(sys.argv[1]), int(sys.argv[2]), int(sys.argv[3]), pathlib.Path(sys.argv[4])
    folder.mkdir(parents=True, exist_ok=True)
    with open(folder / "trace", "wb") as file:
        file.write(header(size))
        for number in range(groups):
            file.write(b"".join(group(number, beats, size)))
        file.write(b"\x00" + (groups * IDS * (2 + beats)).to_bytes(4, "big"))
    (folder / "axi").write_text(f"beat {size}\naw aw 4 0 1 2 3\nw w 0\nb b 0\nar ar 4 0 1 2 3\nr r 1 0\n")
