"""What blocks a completion that `vidi move` is to bring earlier or later, and what the trace is then: docs/FILES.md, "move"."""
from vidi_tools.tool_kit import Problem
from vidi_tools.trace_kit import Packet


class Move:
    """The words of a move: the completion, the other one, and whether it goes behind that; the packets in which both stand."""

    def __init__(self, trace, words):
        name, number, self.way, other, place = words
        if self.way not in ("before", "after") or not number.isdigit() or not place.isdigit():
            raise Problem("wants TRACE CH J before|after CH K, with J and K counted from 0")
        self.trace, self.name, self.number, self.other = trace, name, int(number), other
        self.packet, self.goal = end_of(trace, name, int(number)), end_of(trace, other, int(place))

    def stays(self):
        """Whether the trace stays as it is."""
        return self.packet > self.goal if self.way == "after" else self.packet < self.goal

    def blocked(self):
        """The packets that block it, in order, each with why: its own start, the next one, or a reset."""
        if self.stays():
            return []
        starts, (first, last) = starts_of(self.trace, self.name), sorted((self.packet, self.goal))
        found = [(at, "it is a reset, and a completion stays behind the resets that come before it") for at in range(first, last)
                 if self.trace.packets[at].is_reset]
        if self.way == "after":
            later = [number for number, at in enumerate(starts) if at > self.packet][:1]
            found += [(starts[at], f"start {at} of {self.name} follows this completion") for at in later if starts[at] <= self.goal]
        else:
            own = max(number for number, at in enumerate(starts) if at <= self.packet)
            found += [(starts[own], f"start {own} of {self.name} is its own, and no completion comes before its start")] * (starts[own] >= self.goal)
        return sorted(found)

    def moved(self):
        """The packets behind the move, where nothing blocks it."""
        packets, own, goal = self.trace.packets, self.packet, self.goal
        if self.stays():
            return packets
        left, alone = packets[own]._replace(ends=[name for name in packets[own].ends if name != self.name]), Packet({}, [self.name])
        kept = [left] if left.starts or left.ends else []
        if self.way == "after":
            return [*packets[:own], *kept, *packets[own + 1:goal + 1], alone, *packets[goal + 1:]]
        return [*packets[:goal], alone, *packets[goal:own], *kept, *packets[own + 1:]]

    def furthest(self):
        """How far the completion may go towards the other channel's, as a move, or None."""
        walls = [at for at, _ in self.blocked()]
        for number, at in (enumerate if self.way == "before" else backwards)(ends_of(self.trace, self.other)):
            if self.way == "after" and self.packet <= at < walls[0] or self.way == "before" and walls[-1] < at <= self.packet:
                if (self.name, self.number) != (self.other, number):
                    return f"{self.name} {self.number} {self.way} {self.other} {number}"
        return None


def backwards(items):
    """The items with their numbers, the last first."""
    return reversed(list(enumerate(items)))


def starts_of(trace, name):
    """The packets in which a channel starts, over the whole trace."""
    return [at for at, packet in enumerate(trace.packets) if name in packet.starts]


def ends_of(trace, name):
    """The packets in which a channel completes."""
    return [at for at, packet in enumerate(trace.packets) if name in packet.ends]


def end_of(trace, name, number):
    """The packet of a completion."""
    if name not in [channel.name for channel in trace.channels]:
        raise Problem(f"the trace has no channel {name}; it has {', '.join(channel.name for channel in trace.channels)}")
    found = ends_of(trace, name)
    if number >= len(found):
        raise Problem(f"{name} has {len(found)} completions, and {name} {number} would be one more: they count from 0, over the whole trace")
    return found[number]


def events_of(packet):
    """The events of a packet, as one line."""
    said = [" ".join(["start", name, *map(str, content)]) for name, content in packet.starts.items()] + [f"end {name}" for name in packet.ends]
    return ", ".join(["reset"] * packet.is_reset + said)
