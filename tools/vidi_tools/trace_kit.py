"""The bytes of a trace, and what it means: docs/FILES.md, "The bytes of a trace" and "replay"."""
import collections

from vidi_tools.tool_kit import Problem

MAGIC, OLD_MAGIC = b"VIDITRC2", b"VIDITRC1"
MOST_CHANNELS, MOST_BYTES, MOST_GAP = 128, 2_048, 65_535
ROW, RESET = 1, 2

# What one cycle adds: its starts with contents by name, the names of those that end, and the gap, which are the cycles between the packet before and
# this one; or that the design was reset there. A list of starts and ends alone serves where neither gaps nor resets count.
Packet = collections.namedtuple("Packet", "starts ends gap is_reset", defaults=(0, False))


class Table:
    """A channel of a trace: its name, whether it is inward, and the widths of its contents."""

    def __init__(self, name, is_inward, widths):
        self.name, self.is_inward, self.widths = name, is_inward, widths


class Bytes:
    """Bytes that are read from the front."""

    def __init__(self, content):
        self.content, self.at = content, 0

    def take(self, count):
        """The next bytes."""
        if self.at + count > len(self.content):
            raise Problem("the trace ends early")
        self.at += count
        return self.content[self.at - count:self.at]

    def number(self, count=1):
        """The next bytes as a number."""
        return int.from_bytes(self.take(count), "big")


class Trace:
    """A trace: its channels, and its packets."""

    def __init__(self, channels, packets):
        self.channels, self.packets = channels, packets

    def cycles(self):
        """The cycle in which each packet began."""
        end, found = 0, []
        for packet in self.packets:
            found.append(end + packet.gap)
            end = found[-1] + (not packet.is_reset)
        return found

    def first_reset(self):
        """The number of the first packet that is a reset, or None."""
        return next((number for number, packet in enumerate(self.packets) if packet.is_reset), None)


def head_bytes(count):
    """The bytes of a packet without contents, over so many channels."""
    return 3 + 2 * -(-count // 8)


def content_bytes(widths):
    """The bytes of contents of these widths."""
    return sum(-(-width // 8) for width in widths)


def checked(channels):
    """The channels, where a trace can have so many, with so many contents."""
    size = sum(content_bytes(channel.widths) for channel in channels)
    if not 1 <= len(channels) <= MOST_CHANNELS:
        raise Problem(f"a trace of {len(channels)} channels, and 1 to {MOST_CHANNELS} are lawful")
    if size > MOST_BYTES:
        raise Problem(f"a trace with {size} content bytes in all channels, and {MOST_BYTES:,} are the most")
    return channels


def header_of(source):
    """The channels of a trace."""
    magic = source.content[:8]
    if magic == OLD_MAGIC:
        raise Problem("old trace: it begins with VIDITRC1, of version 1")
    if magic != MAGIC:
        raise Problem("no trace: it doesn't begin with VIDITRC2")
    source.take(8)
    channels = []
    for _ in range(source.number()):
        is_inward = source.number() == 0
        name = source.take(source.number()).decode(errors="replace")
        channels.append(Table(name, is_inward, list(source.take(source.number()))))
    return checked(channels)


def next_packet(source, channels):
    """The next packet; None at the end mark."""
    at, kind, size = source.at, source.number(), (len(channels) + 7) // 8
    if kind == 0:
        return None
    if kind not in (ROW, RESET):
        raise Problem(f"the trace has no packet at byte {at}")
    gap = source.number(2)
    if kind == RESET:
        return Packet({}, [], gap, True)
    starts, ends = (int.from_bytes(source.take(size), "little") for _ in range(2))
    started = {channel.name: [source.number((width + 7) // 8) for width in channel.widths]
               for at, channel in enumerate(channels) if starts >> at & 1}
    return Packet(started, [channel.name for at, channel in enumerate(channels) if ends >> at & 1], gap)


def read(content):
    """The trace that these bytes are."""
    source = Bytes(content)
    channels = header_of(source)
    packets = list(iter(lambda: next_packet(source, channels), None))
    if source.number(4) != len(packets) or source.at != len(content):
        raise Problem("the trace has no end mark")
    return Trace(channels, packets)


def ended(content):
    """The bytes up to the last whole packet with an end mark, and how many packets they have."""
    source, count = Bytes(content), 0
    channels = header_of(source)
    whole = source.at
    try:
        while next_packet(source, channels):
            whole, count = source.at, count + 1
    except Problem:
        pass
    return content[:whole] + end_mark(count), count


def read_file(path):
    """The trace in a file; what is wrong with it is said with its name."""
    try:
        with open(path, "rb") as file:
            return read(file.read())
    except OSError as error:
        raise Problem(f"{path}: {error.strerror}") from error
    except Problem as problem:
        raise Problem(f"{path}: {problem}") from problem


def packets_of(rows):
    """The packets of rows, which are (starts with contents by name, names of those that end, and maybe whether the row is the first behind a reset):
    one of each reset and of each row with an event."""
    found, end = [], 0
    for cycle, (starts, ends, *is_fresh) in enumerate(rows):
        if any(is_fresh):
            found.append(Packet({}, [], cycle - end, True))
            end = cycle
        if starts or ends:
            found.append(Packet(starts, ends, cycle - end))
            end = cycle + 1
    return found


def header(channels):
    """The bytes of a trace's header."""
    table = MAGIC + bytes([len(checked(channels))])
    for channel in channels:
        table += bytes([not channel.is_inward, len(channel.name)]) + channel.name.encode() + bytes([len(channel.widths), *channel.widths])
    return table


def packet_bytes(channels, packet):
    """The bytes of a packet."""
    out, size = bytearray([RESET if packet.is_reset else ROW]) + packet.gap.to_bytes(2, "big"), (len(channels) + 7) // 8
    for names in () if packet.is_reset else (packet.starts, packet.ends):
        out += sum(1 << at for at, channel in enumerate(channels) if channel.name in names).to_bytes(size, "little")
    for channel in channels:
        for width, value in zip(channel.widths, packet.starts.get(channel.name, [])):
            out += value.to_bytes((width + 7) // 8, "big")
    return bytes(out)


def end_mark(count):
    """The bytes behind so many packets."""
    return b"\0" + count.to_bytes(4, "big")


def encoded(channels, packets):
    """The bytes of a trace with these channels and packets."""
    return header(channels) + b"".join(packet_bytes(channels, packet) for packet in packets) + end_mark(len(packets))


def encoded_old(trace):
    """The bytes of a trace in version 1, which has neither gaps nor resets."""
    empty = encoded(trace.channels, [])
    packets = [encoded(trace.channels, [one])[len(empty) - 5:-5] for one in trace.packets]
    return OLD_MAGIC + empty[len(MAGIC):-5] + b"".join(one[:1] + one[3:] for one in packets) + b"\0" + len(packets).to_bytes(4, "big")


def lines_of(trace):
    """The lines of `vidi dump`."""
    lines, done = [], {channel.name: 0 for channel in trace.channels}
    for number, channel in enumerate(trace.channels):
        lines.append(" ".join(map(str, ("channel", number, "in" if channel.is_inward else "out", channel.name, *channel.widths))))
    for number, packet in enumerate(trace.packets):
        lines += [f"{number} gap {packet.gap}"] * (packet.gap > 0) + [f"{number} reset"] * packet.is_reset
        done = dict.fromkeys(done, 0) if packet.is_reset else done
        clock = " ".join(map(str, ("clock", *done.values())))
        lines += [" ".join(map(str, (number, "start", name, *content, clock))) for name, content in packet.starts.items()]
        lines += [f"{number} end {name} {clock}" for name in packet.ends]
        done.update({name: done[name] + 1 for name in packet.ends})
    return lines + [f"packets {len(trace.packets)}"]


def drawn(draw, channels, count):
    """Packets by chance: on each channel starts and completions by turns, and gaps of any length."""
    flying, packets = set(), []
    for _ in range(count):
        started = {channel.name: [draw.getrandbits(width) for width in channel.widths]
                   for channel in channels if channel.name not in flying and draw.random() < 0.4}
        ended = [channel.name for channel in channels if channel.name in flying | set(started) and draw.random() < 0.6]
        flying = (flying | set(started)) - set(ended)
        packets += [Packet(started, ended, draw.choice([0, 0, 0, 1, 300, MOST_GAP]))] if started or ended else []
    return packets


def epochs_of(packets):
    """The packets in parts, between one reset and the next."""
    parts = [[]]
    for packet in packets:
        if packet.is_reset:
            parts.append([])
        else:
            parts[-1].append(packet)
    return parts


def covered(clock, have):
    """Whether the completions cover a clock."""
    return all(need <= here for need, here in zip(clock, have))


def histories(names, packets):
    """For each channel its starts, as (content, clock), and its completions, as clocks, where there is no reset. A clock is the list of all channels'
    completions in the packets before."""
    done, starts, ends = {name: 0 for name in names}, {name: [] for name in names}, {name: [] for name in names}
    for started, ended, *_ in packets:
        clock = list(done.values())
        for name, content in started.items():
            starts[name].append((content, clock))
        for name in ended:
            ends[name].append(clock)
            done[name] += 1
    return starts, ends
