"""Writes a trace of an AXI4 port, of bursts of many IDs by turns that break no rule, and its AXI file: trace and axi in FOLDER.

    make bursts COUNT IDS FOLDER

Half of the COUNT bursts are writes. Data come in the order of their addresses, responses and read beats of 1 to 65,536 IDs in any order. A burst has 1
to 4 beats, seldom more. The same words always give the same bytes.
"""
import collections
import os
import random
import sys

from vidi_tools import tool_kit
from vidi_tools import trace_kit
from vidi_tools.tool_kit import Problem
from vidi_tools.trace_kit import Packet, Table

CHANNELS = [Table("aw", True, [64, 8, 3, 2, 16]), Table("w", True, [8, 1]), Table("b", False, [2, 16]), Table("ar", True, [64, 8, 3, 2, 16]),
            Table("r", False, [8, 1, 16])]
AXI = "beat 128\naw aw 4 0 1 2 3\nw w 1\nb b 1\nar ar 4 0 1 2 3\nr r 2 1\n"
BLOCK, MOST_OUT = 4_096, 4


class Port:
    """What is under way on the port: addresses still to come, data that are asked for, IDs to be answered, and beats to be read."""

    def __init__(self, draw, count, ids):
        self.draw, self.ids, self.left = draw, ids, {"aw": count - count // 2, "ar": count // 2}
        self.asked, self.answers, self.reading = collections.deque(), [], {}

    def ask(self):
        """The content of an address: a lawful burst."""
        draw, size = self.draw, self.draw.randrange(8)
        burst = draw.choice([0, 1, 1, 1, 2])
        beats = draw.choice([2, 4, 8, 16]) if burst == 2 else draw.choice([1, 2, 3, 4] * 8 + [16])
        width = 1 << size
        first = draw.randrange(1 << 40) * BLOCK + draw.randrange((BLOCK - beats * width) // width + 1) * width
        return [first + (0 if burst == 2 else draw.randrange(width)), beats - 1, size, burst, draw.randrange(self.ids)]

    def can(self):
        """The channels on which something can come."""
        return ([name for name in ("aw", "ar") if self.left[name] and len(self.answers) + len(self.asked) + len(self.reading) < MOST_OUT * 16] +
                ["w"] * bool(self.asked) + ["b"] * bool(self.answers) + ["r"] * bool(self.reading))

    def next(self, name):
        """The content of the next transaction of this channel."""
        if name in self.left:
            content = self.ask()
            self.left[name] -= 1
            self.asked.extend([(content[4], content[1] + 1)] if name == "aw" else [])
            if name == "ar":
                self.reading.setdefault(content[4], collections.deque()).append(content[1] + 1)
            return content
        if name == "w":
            own, beats = self.asked.popleft()
            self.asked.extendleft([(own, beats - 1)] if beats > 1 else [])
            self.answers.extend([own] if beats == 1 else [])
            return [self.draw.getrandbits(8), int(beats == 1)]
        if name == "b":
            return [0, self.answers.pop(self.draw.randrange(len(self.answers)))]
        own = self.draw.choice(list(self.reading))
        beats = self.reading[own].popleft()
        self.reading[own].extendleft([beats - 1] if beats > 1 else [])
        if not self.reading[own]:
            del self.reading[own]
        return [self.draw.getrandbits(8), int(beats == 1), own]


def transactions(draw, count, ids):
    """The transactions of so many bursts, in order, as (channel, content)."""
    port = Port(draw, count, ids)
    while port.can():
        name = draw.choice(port.can())
        yield name, port.next(name)


def packets(draw, ones):
    """Packets of these transactions: one of each, some of which complete with the next one."""
    late = []
    for name, content in ones:
        if name in late:
            yield Packet({}, late, 1)
            late = []
        is_late = draw.random() < 0.2
        yield Packet({name: content}, late + [name] * (not is_late))
        late = [name] * is_late
    if late:
        yield Packet({}, late)


def main():
    """Writes the files."""
    count, ids, folder = int(sys.argv[1]), int(sys.argv[2]), sys.argv[3]
    if not 1 <= ids <= 1 << 16 or not os.path.isdir(folder):
        raise Problem("wants how many bursts, 1 to 65536 IDs, and a folder: make bursts COUNT IDS FOLDER")
    draw, size = random.Random(count * ids), 0
    with open(os.path.join(folder, "trace"), "wb") as file:
        file.write(trace_kit.header(CHANNELS))
        for size, packet in enumerate(packets(draw, transactions(draw, count, ids)), 1):
            file.write(trace_kit.packet_bytes(CHANNELS, packet))
        file.write(trace_kit.end_mark(size))
    tool_kit.write(os.path.join(folder, "axi"), AXI)
