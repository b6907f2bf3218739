"""Writes a large trace to standard output, for the measures of docs/SPEED.md.

    make trace PACKETS CHANNELS PORTS WIDTH

Each channel has PORTS content ports of WIDTH bits. Each packet starts and completes every channel, right behind the one before, with numbers
from a small generator with a fixed seed, so the same words always give the same bytes.
"""
import sys


def main():
    packets, channels, ports, width = (int(word) for word in sys.argv[1:5])
    out = bytearray(b'VIDITRC2') + bytes([channels])
    for c in range(channels):
        name = b'c%d' % c
        out += bytes([c % 2, len(name)]) + name + bytes([ports]) + bytes([width]) * ports
    mask = ((1 << channels) - 1).to_bytes((channels + 7) // 8, 'little')
    head = b'\x01\x00\x00' + mask + mask
    size, state = (width + 7) // 8, 1
    for _ in range(packets):
        out += head
        for _ in range(channels * ports):
            state = (state * 0x2545F4914F6CDD1D + 0x9E3779B97F4A7C15) % (1 << 128)
            out += (state >> (128 - width)).to_bytes(size, 'big')
    out += b'\x00' + packets.to_bytes(4, 'big')
    sys.stdout.buffer.write(out)
