"""Cases of moves, which `gate check tools` plays: what blocks one, by hand, and all moves within random traces, against a second one in Python."""
import itertools
import os
import random

from vidi_tools import commands
from vidi_tools import move_kit
from vidi_tools import tool_kit
from vidi_tools import trace_kit
from vidi_tools.trace_kit import Packet, Table

CHANNELS = [Table("a", True, [8]), Table("b", False, [8])]
# The trace of examples/pass with two sends, and of one that is aborted by a reset.
TWO = [Packet({"a": [5]}, ["a"]), Packet({"a": [6], "b": [5]}, ["b"]), Packet({}, ["a"]), Packet({"b": [6]}, ["b"])]
RESET = [Packet({"a": [5]}, ["a"]), Packet({"a": [6]}, []), Packet({}, [], 0, True), Packet({"a": [6]}, ["a"]), Packet({"b": [6]}, ["b"])]
# Two transactions of b, the first of which lasts while a has one.
LONG = [Packet({"a": [1]}, ["a"]), Packet({"b": [9]}, []), Packet({"a": [2]}, ["a"]), Packet({}, ["b"]), Packet({"a": [3]}, []),
        Packet({"b": [8]}, ["b"]), Packet({}, ["a"])]
# Moves over a trace: the words, what vidi has to say, and what is said behind it.
MOVES = [
    (TWO, "a 0 after b 0", "vidi: refused trace: blocked by packet 1", ["start 1 of a follows this completion", "  packet 1: start a 6, start b 5, end b",
                                                                       "  not blocked: no completion of b lies between"]),
    (TWO, "b 0 before a 0", "vidi: refused trace: blocked by packet 1", ["start 0 of b is its own, and no completion comes before its start",
                                                                        "  packet 1: start a 6, start b 5, end b",
                                                                        "  not blocked: no completion of a lies between"]),
    (TWO, "b 0 after a 1", "moved, 5 packets", ["it goes from packet 1 to one of its own after packet 2"]),
    (TWO, "b 0 after b 1", "vidi: refused trace: blocked by packet 3", ["start 1 of b follows this completion", "  packet 3: start b 6, end b",
                                                                       "  not blocked: no completion of b lies between"]),
    (TWO, "b 0 after a 0", "moved, 4 packets", ["the trace stays as it is"]),
    (TWO, "a 1 before b 0", "vidi: refused trace: blocked by packet 1", ["start 1 of a is its own, and no completion comes before its start",
                                                                        "  packet 1: start a 6, start b 5, end b",
                                                                        "  not blocked: no completion of b lies between"]),
    (TWO, "a 1 before a 1", "vidi: refused trace: same end", ["both are one completion"]),
    (LONG, "b 0 before a 0", "vidi: refused trace: blocked by packet 1", ["start 0 of b is its own, and no completion comes before its start",
                                                                         "  packet 1: start b 9", "  not blocked: b 0 before a 1"]),
    (LONG, "a 1 after b 1", "vidi: refused trace: blocked by packet 4", ["start 2 of a follows this completion", "  packet 4: start a 3",
                                                                        "  not blocked: a 1 after b 0"]),
    (RESET, "a 1 before a 0", "vidi: refused trace: blocked by packet 2", [
        "it is a reset, and a completion stays behind the resets that come before it", "  packet 2: reset",
        "  packet 3: start a 6, end a; start 2 of a is its own, and no completion comes before its start",
        "  not blocked: no completion of a lies between"]),
    (RESET, "a 0 after b 0", "vidi: refused trace: blocked by packet 1", [
        "start 1 of a follows this completion", "  packet 1: start a 6",
        "  packet 2: reset; it is a reset, and a completion stays behind the resets that come before it",
        "  not blocked: no completion of b lies between"]),
    (RESET, "a 1 after b 0", "moved, 6 packets", ["it goes from packet 3 to one of its own after packet 4"])]


# The trace of one send, and what it is once the completion of a comes behind that of b.
ONE, LATE = [Packet({"a": [5]}, ["a"]), Packet({"b": [5]}, ["b"])], [Packet({"a": [5]}, []), Packet({"b": [5]}, ["b"]), Packet({}, ["a"])]
TRACES = 10


def drawn(draw):
    """A trace of up to 8 packets by chance, some of them resets."""
    channels, packets = CHANNELS + [Table("c", True, [])], []
    for part in range(draw.randrange(1, 4)):
        packets += [Packet({}, [], draw.randrange(3), True)] * (part > 0) + trace_kit.drawn(draw, channels, draw.randrange(1, 7))
    return trace_kit.Trace(channels, trace_kit.read(trace_kit.encoded(channels, packets[:8])).packets)


def wanted(trace, words):
    """The line, the status and the bytes of OUT of a move, or none where it is refused."""
    move = move_kit.Move(trace, words)
    if words[:2] == words[3:]:
        return "vidi: refused trace: same end\n", 4, None
    walls = move.blocked()
    if walls:
        return f"vidi: refused trace: blocked by packet {walls[0][0]}\n", 4, None
    packets = move.moved()
    return f"moved, {len(packets)} packets\n", 0, trace_kit.encoded(trace.channels, packets)


def check_all_moves(checker):
    """Every move of every pair of completions in random traces; by vidi, once it has the command."""
    move = move_kit.Move(trace_kit.Trace(CHANNELS, ONE), "a 0 after b 0".split())
    checker.case("a 0 after b 0 of one send", move.moved(), LATE)
    for seed in range(TRACES):
        trace = drawn(random.Random(seed))
        path, out = (os.path.join(checker.folder, name) for name in ("trace", "out"))
        tool_kit.write(path, trace_kit.encoded(trace.channels, trace.packets))
        ends = [(channel.name, str(at)) for channel in trace.channels for at in range(len(move_kit.ends_of(trace, channel.name)))]
        for one, way, other in itertools.product(ends, ("before", "after"), ends):
            line, status, content = wanted(trace, [*one, way, *other])
            if commands.has("move"):
                said = checker.run("vidi", "move", "trace", *one, way, *other, "out")
                got = open(out, "rb").read() if os.path.exists(out) else None
                checker.case(f"move {' '.join([*one, way, *other])} in random trace {seed}", (*said, got), (line, status, content))
                if got is not None:
                    os.remove(out)


def check_moves(checker):
    """What blocks each, and what isn't there; by vidi, once it has the command."""
    for packets, words, said, lines in MOVES:
        move = move_kit.Move(trace_kit.Trace(CHANNELS, packets), words.split())
        wall = move.blocked()[:1]
        checker.case(f"what blocks {words}", [(f"vidi: refused trace: blocked by packet {at}", why) for at, why in wall],
                     [(said, lines[0])] * ("blocked" in said))
        if commands.has("move"):
            tool_kit.write(os.path.join(checker.folder, "trace"), trace_kit.encoded(CHANNELS, packets))
            checker.case(f"explain --move {words}", checker.run("explain", "--move", "trace", *words.split()),
                         (f"{said}: " + "\n".join(lines) + "\n", 4 if "refused" in said else 0))
    if commands.has("move"):
        for words, line in (("a 2 after b 0", "a has 2 completions, and a 2 would be one more: they count from 0, over the whole trace"),
                            ("a 0 after c 0", "the trace has no channel c; it has a, b")):
            checker.refused(f"explain --move {words}", ["explain", "--move", "trace", *words.split()], f"explain: {line}")
    checker.write("trace", "")
    checker.refused("explain --move of few words", ["explain", "--move", "trace", "a", "0"], "explain: wants TRACE CH J before CH K, or after")


CHECKS = (check_moves, check_all_moves)
