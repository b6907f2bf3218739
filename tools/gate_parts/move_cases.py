"""Writes as a case file (docs/CASES.md), which `rt ci` plays, what `vidi move` answers and writes: every move of every pair of completions of traces
by chance, and worked traces with resets. The expectations don't come from Vidi: this tool moves completions by the sentences of docs/FILES.md.
"""
import os
import random

from vidi_tools import tool_kit
from vidi_tools import trace_kit
from vidi_tools.trace_kit import Packet, Table
from gate_parts.page_cases import part

DATA = os.path.join(tool_kit.HERE, "..", "crates", "vidi_cases", "data", "move.case")
HEAD = "## Made by tools/gate cases: moves of completions by a model in Python.\n"
SEEDS, MOST_PACKETS = range(16), 8
CHANNELS = [Table("a", True, [8]), Table("b", False, []), Table("cc", True, [])]


# ---- a move, by its sentences
def ends_of(packets, name):
    """The packets in which a channel completes, in order."""
    return [number for number, packet in enumerate(packets) if name in packet.ends]


def blocking(packets, name, here, there, after):
    """The packets that the completion in packet `here` can't be brought over or to, on its way to packet `there`."""
    low, high = sorted((here, there))
    found = [number for number in range(low + 1, high) if packets[number].is_reset]
    starts = [number for number, packet in enumerate(packets) if name in packet.starts]
    if after:
        following = [number for number in starts if number > here][:1]
        return found + [number for number in following if number <= there]
    own = [number for number in starts if number <= here][-1:]
    return found + [number for number in own if number >= there]


def without(packet, name):
    """The packet without that completion, in a list; no packet where nothing else is in it."""
    left = packet._replace(ends=[end for end in packet.ends if end != name])
    return [left] if left.starts or left.ends else []


def placed(packets, name, here, there, after):
    """The packets with the completion of packet `here` in one of its own on that side of packet `there`."""
    alone, found = Packet({}, [name]), []
    for number, packet in enumerate(packets):
        kept = without(packet, name) if number == here else [packet]
        own = [alone] if number == there else []
        found += kept + own if after else own + kept
    return found


def moved(packets, end, other, after):
    """The packets after the move of completion `end`, a name and an index, or the reason against it."""
    for which, (name, index) in ((1, end), (2, other)):
        if index >= len(ends_of(packets, name)):
            return f"no end {which}"
    if end == other:
        return "same end"
    here, there = (ends_of(packets, name)[index] for name, index in (end, other))
    if here > there if after else here < there:
        return packets
    against = blocking(packets, end[0], here, there, after)
    return f"blocked by packet {min(against)}" if against else placed(packets, end[0], here, there, after)


# ---- traces
def drawn(draw):
    """Packets by chance, some of them resets, with what is in flight at one broken off."""
    channels = CHANNELS[:draw.randint(2, 3)]
    packets = trace_kit.drawn(draw, channels, draw.randint(2, MOST_PACKETS))
    while len(packets) < MOST_PACKETS and draw.random() < 0.4:
        packets.append(Packet({}, [], draw.choice([0, 1, 300]), True))
        packets += trace_kit.drawn(draw, channels, draw.randint(1, 4))
    return channels, packets[:MOST_PACKETS]


def shown(content):
    """Bytes as hexadecimal digits, in lines."""
    digits = content.hex()
    return "".join(f"{digits[at:at + 100]}\n" for at in range(0, len(digits), 100))


def case(channels, packets, end, other, after):
    """The case of a move of this trace."""
    words = f"== move t {end[0]} {end[1]} {'after' if after else 'before'} {other[0]} {other[1]} o\n"
    new = moved(packets, end, other, after)
    if isinstance(new, str):
        return words + part(">>", "4", f"vidi: refused trace: {new}\n")
    return words + part(">>", "0", f"moved, {len(new)} packets\n") + part(">x", "o", shown(trace_kit.encoded(channels, new)))


def group(title, channels, packets, more=0):
    """All moves of a trace, and those of so many completions more on each channel."""
    ends = [(channel.name, index) for channel in channels for index in range(len(ends_of(packets, channel.name)) + more)]
    moves = [(end, other, after) for end in ends for other in ends for after in (False, True)]
    return f"** {title}\n" + part("-x", "t", shown(trace_kit.encoded(channels, packets))) + "".join(
        case(channels, packets, *move) for move in moves)


def by_chance(seeds):
    """All moves of the traces of these seeds that have two completions at least."""
    found = []
    for seed in seeds:
        channels, packets = drawn(random.Random(seed))
        if sum(len(packet.ends) for packet in packets) > 1:
            found.append(group(f"all moves of the trace of seed {seed}", channels, packets))
    return "".join(found)


# ---- worked traces; what comes of one_send stands in docs/FILES.md
def worked():
    """Traces with a reset on the way, with a packet that is left empty, with three completions in one packet, and words that aren't there."""
    two = CHANNELS[:2]
    reset = [Packet({"a": [5]}, ["a"]), Packet({"b": []}, [], 2), Packet({}, [], 1, True), Packet({"b": []}, ["b"]), Packet({"a": [6]}, ["a"], 3)]
    empty = [Packet({"a": [1], "b": []}, []), Packet({}, ["a"], 4), Packet({}, ["b"], 5)]
    three = [Packet({"a": [7], "b": [], "cc": []}, ["a", "b", "cc"], 1), Packet({"a": [8]}, ["a"])]
    return (group("over a reset, and one completion more than there are", two, reset, 1)
            + group("a packet that is left without events", two, empty)
            + group("within one packet", CHANNELS, three))


def words():
    """Names that no channel has, and words that are no move."""
    packets = [Packet({"a": [5]}, ["a"]), Packet({"b": []}, ["b"])]
    files = part("-x", "t", shown(trace_kit.encoded(CHANNELS[:2], packets)))
    missing = [(("x", 0), ("a", 0)), (("a", 0), ("x", 0)), (("x", 0), ("x", 0)), (("a", 1), ("x", 0)), (("aa", 0), ("", 0))]
    cases = [case(CHANNELS[:2], packets, end, other, True) for end, other in missing if other[0]]
    numbers = [f"== move t a {word} after b 0 o\n" + part(">>", "4", "vidi: refused trace: no end 1\n") for word in ("4294967295", "0xffffffff", "07")]
    usage = ("move t a 0 after b 4294967296 o", "move t a 4294967296 after b 0 o", "move t a 0 beside b 0 o", "move t a 0 After b 0 o",
             "move t a -1 after b 0 o", "move t a x after b 0 o", "move t a 0 after b 0x o", "move t a 0 after b 0", "move t a 0 after b 0 o o",
             "move t a 0 after b 0 t", "move t a after b o")
    return (f"** names that no channel has, the largest numbers, and words that are no move\n{files}" + "".join(cases + numbers)
            + "".join(f"== {line}\n" + part(">>", "1", "vidi: usage\n") for line in usage))


def failing():
    """Calls that fail: a file is read by two fetches, and written by one append. An old trace, and one without its end."""
    channels, packets = CHANNELS[:2], [Packet({"a": [5]}, ["a"]), Packet({"b": []}, ["b"])]
    whole = trace_kit.encoded(channels, packets)
    new = trace_kit.encoded(channels, moved(packets, ("a", 0), ("b", 0), True))
    line, done = "== move t a 0 after b 0 o\n", part(">>", "0", "moved, 3 packets\n") + part(">x", "o", shown(new))
    cases = [f"!! fetch {k}\n" + part(">>", "2", "vidi: read fault trace\n") for k in (1, 2)] + ["!! fetch 3\n" + done]
    cases += ["!! start 1\n" + part(">>", "3", ""), "!! start 2\n" + done, "!! push 1\n" + part(">>", "3", "") + part(">x", "o", shown(new))]
    cases += [f"!! append 1 keeps {keeps}\n" + part(">>", "3", "") + part(">x", "o", shown(new[:keeps])) for keeps in (0, 1, len(new) - 1)]
    cases += ["!! append 2\n" + done]
    bad = (("old trace", b"VIDITRC1" + whole[8:]), (f"bad trace at {len(whole) - 5}", whole[:-5]), ("bad trace at 0", b""))
    refused = [part("-x", "t", shown(content)) + part(">>", "4", f"vidi: refused trace: {said}\n") for said, content in bad]
    return ("** each call that fails, and one more\n" + part("-x", "t", shown(whole)) + "".join(line + one for one in cases)
            + "** no trace, before anything is said of completions\n" + "".join(line.replace("a 0", "x 9") + one for one in refused))


def wanted():
    """The case file."""
    return {DATA: HEAD + worked() + words() + failing() + by_chance(SEEDS)}


def told(chosen):
    """The cases of so many traces by chance, and of the worked ones."""
    return HEAD + worked() + words() + failing() + by_chance(range(int(chosen[0]) if chosen else 200))
