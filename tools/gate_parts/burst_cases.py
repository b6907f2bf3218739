"""Writes as a case file (docs/CASES.md), which `rt ci` plays, what `vidi bursts` says of traces. What is expected was made by hand from AMBA AXI4 (IHI
0022, A3.3, A3.4, A5.3), or by the tools' own reader of its sentences (vidi_tools/axi_kit.py), which has to say the same of those by hand.

The channels are those of `make bursts`: aw and ar with ADDR, LEN, SIZE, BURST, ID, w with DATA, LAST, b with RESP, ID, r with DATA, LAST, ID.
"""
import os
import random

from make_kinds import bursts
from vidi_tools import axi_kit
from vidi_tools import commands
from vidi_tools import tool_kit
from vidi_tools import trace_kit
from gate_parts.page_cases import part
from vidi_tools.tool_kit import Problem
from vidi_tools.trace_kit import Packet, Table

DATA = os.path.join(tool_kit.HERE, "..", "crates", "vidi_cases", "data", "bursts.case")
HEAD = "## Made by tools/gate cases: what `vidi bursts` says of traces. What is expected was made by hand, or by a reader in Python.\n"
AXI = bursts.AXI
LITE = "beat 4\naw aw none 0 none none none\nw w none\nb b none\nar ar none 0 none none none\nr r none none\n"
LITE_CHANNELS = [Table("aw", True, [32, 3]), Table("w", True, [8, 4]), Table("b", False, [2]), Table("ar", True, [32, 3]), Table("r", False, [8, 2])]
FIXED, INCR, WRAP = range(3)
BORDERS = [4_096, 8_192, 1 << 32, 1 << 64]
SEEDS = range(1, 31)


def aw(addr, beats=1, size=2, burst=INCR, own=0):
    """A write address; its transactions are one packet each, as are those below, but where several stand in one list."""
    return "aw", [addr, beats - 1, size, burst, own]


def ar(*words, **named):
    """A read address."""
    return "ar", aw(*words, **named)[1]


def w(last):
    """A beat of data."""
    return "w", [0, last]


def b(own=0):
    """A response."""
    return "b", [0, own]


def r(last, own=0):
    """A read beat."""
    return "r", [0, last, own]


def write(number, addr, beats=1, end="done", own=0, kind="write"):
    """The line of a burst."""
    return f"{kind} {number} id {own} addr {addr} beats {beats} {end}"


def read(number, addr, beats=1, end="done", own=0):
    """The line of a read burst."""
    return write(number, addr, beats, end, own, "read")


def broken(rule, channel, number):
    """The line of a broken rule."""
    return f"vidi: refused trace: broken rule {rule} {channel} {number}"


def lawful(writes, reads, *lines):
    """The lines where no rule is broken."""
    return [*lines, f"writes {writes} reads {reads}"]


# For each rule the smallest traces that break it, each with what is said of it, and its mend.
RULES = [
    ("rule 1: BURST 3 is reserved", [
        ([aw(0, burst=3)], [broken(1, "aw", 0)]), ([aw(0)], lawful(1, 0, write(0, 0, end="open"))),
        ([ar(0, burst=3)], [broken(1, "ar", 0)]), ([ar(0)], lawful(0, 1, read(0, 0, end="open")))]),
    ("rule 1: each aw comes before each ar, and both before rule 2", [
        ([ar(0, burst=3), aw(0), aw(0, burst=3)], [broken(1, "aw", 1)]), ([aw(0), w(0), ar(0, burst=3)], [broken(1, "ar", 0)])]),
    ("rule 1: FIXED has at most 16 beats", [
        ([aw(0, 17, burst=FIXED)], [broken(1, "aw", 0)]), ([aw(0, 16, burst=FIXED)], lawful(1, 0, write(0, 0, 16, "open")))]),
    ("rule 1: WRAP has 2, 4, 8 or 16 beats", [
        ([aw(0, 1, burst=WRAP)], [broken(1, "aw", 0)]), ([aw(0, 3, burst=WRAP)], [broken(1, "aw", 0)]),
        ([aw(0, 15, burst=WRAP)], [broken(1, "aw", 0)]), ([aw(0, 32, burst=WRAP)], [broken(1, "aw", 0)]),
        ([aw(0, beats, burst=WRAP) for beats in (2, 4, 8, 16)],
         lawful(4, 0, *(write(at, 0, beats, "open") for at, beats in enumerate((2, 4, 8, 16)))))]),
    ("rule 1: the address of WRAP is a multiple of the size", [
        ([aw(2, 2, burst=WRAP)], [broken(1, "aw", 0)]), ([aw(4, 2, burst=WRAP)], lawful(1, 0, write(0, 4, 2, "open")))]),
    ("rule 1: INCR stays in a block of 4,096 bytes", [
        ([aw(4_095, 2, 0)], [broken(1, "aw", 0)]), ([aw(4_094, 2, 0)], lawful(1, 0, write(0, 4_094, 2, "open")))]),
    ("rule 2: LAST of the last beat", [
        ([aw(0), w(0)], [broken(2, "w", 0)]), ([aw(0), w(1)], lawful(1, 0, write(0, 0, end="open"))),
        ([aw(0, 2), w(0), w(0)], [broken(2, "w", 1)]), ([aw(0, 2), w(0), w(1)], lawful(1, 0, write(0, 0, 2, "open")))]),
    ("rule 2: LAST of another beat", [
        ([aw(0, 2), w(1)], [broken(2, "w", 0)]), ([aw(0, 2), w(0)], lawful(1, 0, write(0, 0, 2, "open")))]),
    ("rule 2: data before their address are judged once it is there", [
        ([w(1)], lawful(0, 0)), ([w(0), w(0)], lawful(0, 0)), ([w(0), w(1), aw(0), aw(4)], [broken(2, "w", 0)]),
        ([w(1), w(1), aw(0), aw(4)], lawful(2, 0, write(0, 0, end="open"), write(1, 4, end="open")))]),
    ("rule 2 before rule 3", [([b(), aw(0), w(0)], [broken(2, "w", 0)])]),
    ("rule 3: a response without an address", [
        ([b()], [broken(3, "b", 0)]), ([aw(0), w(1), b()], lawful(1, 0, write(0, 0))), ([aw(0), w(1), b(), b()], [broken(3, "b", 1)])]),
    ("rule 3: a response before its address", [
        ([w(1), b(), aw(0)], [broken(3, "b", 0)]), ([w(1), aw(0), b()], lawful(1, 0, write(0, 0))), ([w(1), [aw(0), b()]], lawful(1, 0, write(0, 0)))]),
    ("rule 3: a response before the last beat", [
        ([aw(0), b()], [broken(3, "b", 0)]), ([aw(0, 2), w(0), b(), w(1)], [broken(3, "b", 0)]),
        ([aw(0, 2), w(0), [w(1), b()]], lawful(1, 0, write(0, 0, 2)))]),
    ("rule 3: a response with another's ID", [
        ([aw(0, own=1), w(1), b(2)], [broken(3, "b", 0)]), ([aw(0, own=1), w(1), b(1)], lawful(1, 0, write(0, 0, own=1)))]),
    ("rule 3: of IDs 1 and 2 the second may be answered first, where its data are there", [
        ([aw(0, own=1), aw(4, own=2), w(1), b(2)], [broken(3, "b", 0)]),
        ([aw(0, own=1), aw(4, own=2), w(1), w(1), b(2)], lawful(2, 0, write(0, 0, end="open", own=1), write(1, 4, own=2)))]),
    ("rule 3 before rule 4", [([r(1), b()], [broken(3, "b", 0)])]),
    ("rule 4: a beat without an address", [
        ([r(1)], [broken(4, "r", 0)]), ([ar(0), r(1)], lawful(0, 1, read(0, 0))), ([ar(0), r(1), r(1)], [broken(4, "r", 1)])]),
    ("rule 4: a beat before its address", [
        ([r(1), ar(0)], [broken(4, "r", 0)]), ([[ar(0), r(1)]], lawful(0, 1, read(0, 0)))]),
    ("rule 4: LAST", [
        ([ar(0), r(0)], [broken(4, "r", 0)]), ([ar(0, 2), r(1)], [broken(4, "r", 0)]), ([ar(0, 2), r(0), r(0)], [broken(4, "r", 1)]),
        ([ar(0, 2), r(0)], lawful(0, 1, read(0, 0, 2, "open"))), ([ar(0, 2), r(0), r(1)], lawful(0, 1, read(0, 0, 2)))]),
    ("rule 4: a beat with another's ID", [
        ([ar(0, own=1), r(1, 2)], [broken(4, "r", 0)]), ([ar(0, own=1), r(1, 1)], lawful(0, 1, read(0, 0, own=1)))]),
    ("rule 4: beats of IDs 1 and 2 by turns, but not of one ID", [
        ([ar(0, 2, own=1), ar(64, 2, own=2), r(0, 2), r(0, 1), r(1, 1), r(1, 2)], lawful(0, 2, read(0, 0, 2, own=1), read(1, 64, 2, own=2))),
        ([ar(0, 2, own=1), ar(64, 1, own=1), r(1, 1), r(0, 1), r(1, 1)], [broken(4, "r", 0)])])]


def borders():
    """INCR, WRAP and FIXED at each border of 4 KB: of each border those that end there, as lawful ones, and INCR of one beat more."""
    groups = []
    for border in BORDERS:
        own = [aw(border - 16, 4), aw(border - 1, 1), aw(border - 4_096, 256, 4), aw(border - 4, 4, 2, WRAP), aw(border - 128, 16, 7, WRAP),
               aw(border - 1, 16, 7, FIXED)]
        lines = [write(at, ask[0], ask[1] + 1, "open") for at, (_, ask) in enumerate(own)]
        crossing = [aw(border - 16, 5), aw(border - 1, 2), aw(border - 4_095, 256, 5), aw(border - 128, 2, 7)]
        cases = [(own, lawful(len(own), 0, *lines))] + [([one], [broken(1, "aw", 0)]) for one in crossing]
        groups.append((f"INCR, WRAP and FIXED below {border}", cases))
    return groups


# Of AXI4-Lite, by LITE and LITE_CHANNELS: each beat is a burst.
LITE_CASES = ("AXI4-Lite: each beat is a burst", [
    ([("aw", [16, 0]), ("w", [1, 15]), ("b", [0]), ("ar", [16, 0]), ("r", [1, 0])], lawful(1, 1, write(0, 16), read(0, 16))),
    ([("w", [1, 15]), ("aw", [16, 0]), ("b", [0])], lawful(1, 0, write(0, 16))),
    ([("aw", [16, 0]), ("b", [0])], [broken(3, "b", 0)]),
    ([("ar", [16, 0]), ("r", [1, 0]), ("r", [1, 0])], [broken(4, "r", 1)])])
# Other AXI files, and what `none` counts as.
OTHERS = [
    ("SIZE none is the bus, BURST none is INCR", "beat 8\naw aw none 0 1 none none\nw w 1\nb b none\n", [
        ([aw(4_080, 2)], lawful(1, 0, write(0, 4_080, 2, "open"))), ([aw(4_080, 3)], [broken(1, "aw", 0)]),
        ([aw(4_088, 1, 7, 3)], lawful(1, 0, write(0, 4_088, end="open")))]),
    ("LEN none is 0: each burst has one beat", "beat 4\naw aw 4 0 none 2 3\nw w 1\nb b 1\n", [
        ([aw(0, 9), w(1), b()], lawful(1, 0, write(0, 0))), ([aw(0, 2), w(0)], [broken(2, "w", 0)])]),
    ("LAST none is 1 on every beat", "beat 4\naw aw 4 0 1 2 3\nw w none\nb b 1\n", [
        ([aw(0), w(0), b()], lawful(1, 0, write(0, 0))), ([aw(0, 2), w(0)], [broken(2, "w", 0)])]),
    ("ID none is 0", "beat 4\naw aw 4 0 1 2 3\nw w 1\nb b none\n", [
        ([aw(0, own=1), w(1), b(1)], [broken(3, "b", 0)]), ([aw(0, own=0), w(1), b(1)], lawful(1, 0, write(0, 0)))]),
    ("SIZE above the bus", "beat 4\naw aw 4 0 1 2 3\nw w 1\nb b 1\n", [
        ([aw(0, 1, 3)], [broken(1, "aw", 0)]), ([aw(0, 1, 2)], lawful(1, 0, write(0, 0, end="open")))]),
    ("only reads, on channels that are called otherwise", "beat 4\nar aw 4 0 1 2 3\nr r 2 1\n", [
        ([aw(8), r(1)], lawful(0, 1, read(0, 8))), ([aw(8), b(), w(0), r(0)], [broken(4, "r", 0)])])]
# AXI files, by hand: what is said of them beside a trace without packets.
FILES = [
    ("A1: the lines of a file", [
        ("", "A1 line 1"), ("\n# a port\n", "A1 line 3"), ("beat 3\n", "A1 line 1"), ("beat 256\n", "A1 line 1"), ("beat 0\n", "A1 line 1"),
        ("beat 4\n", "A1 line 2"), ("beat 4\nbeat 4\n", "A1 line 2"), ("w w 1\nbeat 4\n", "A1 line 1"),
        ("beat 4\nar ar none 0 none none none\n", "A1 line 3"), ("beat 4\nr r none none\n\n", "A1 line 4"),
        ("beat 4\naw aw 4 0 1 2 3\nb b 1\n", "A1 line 4"), ("beat 4\nar ar none none none none none\nr r none none\n", "A1 line 2"),
        ("beat 4\nar ar 4 0 1 2\nr r none none\n", "A1 line 2"), ("beat 4\nar ar 4 0 1 2 x\nr r none none\n", "A1 line 2"),
        ("beat 4\nar ar 4 0 1 2 3\nr r 2 1\nr r 2 1\n", "A1 line 4"), ("beat 4\nmemory 0\nar ar 4 0 1 2 3\nr r 2 1\n", "A1 line 2"),
        ("beat 4\ndata 0 1 0\nar ar 4 0 1 2 3\nr r 2 1\n", "A1 line 2"), ("beat 4\nmemory 65537\nar ar 4 0 1 2 3\nr r 2 1\n", "A1 line 2"),
        ("beat 4\ndata 0 1 0\naw\nw\nb\nar\nr\n", "A1 line 3"), ("beat 4\ndata 0 none 0\naw\nw\nb\nar\nr\n", "A1 line 2")]),
    ("A2: what fits the channels", [
        ("beat 4\nar a 4 0 1 2 3\nr r 2 1\n", "A2 port line 2"), ("beat 4\nr r 2 1\n\nar ar 4 5 1 2 3\n", "A2 port line 4"),
        ("beat 4\nar ar 4 0 1 2 0\nr r 2 1\n", "A2 port line 2"), ("beat 4\nar ar 4 0 2 2 3\nr r 2 1\n", "A2 port line 2"),
        ("beat 4\nar ar 4 0 2 1 3\nr r 2 1\n", "A2 port line 2"), ("beat 4\nar ar 4 0 1 2 3\nr r 1 2\n", "A2 port line 3"),
        ("beat 4\nar ar 4 0 1 2 3\nr ar 4 none\n", "A2 port line 3"), ("beat 4\nr r 2 1\nar b 1 0 none none none\n", "A2 port line 3"),
        ("beat 4\nar ar 4 0 1 2 3\nr w none 1\n", "A2 port line 3"),
        ("beat 4\nar ar 4 0 1 2 340282366920938463463374607431768211455\nr r 2 1\n", "A2 port line 2")])]


def packet_of(ones):
    """The packet in which these transactions start and complete."""
    return Packet(dict(ones), [name for name, _ in ones])


def trace_of(ones, channels=bursts.CHANNELS):
    """A trace with a packet of each transaction, or of each list of them."""
    return trace_kit.Trace(channels, [packet_of(one if isinstance(one, list) else [one]) for one in ones])


def reading(trace, axi):
    """What the reader in Python says."""
    return axi_kit.Reader(trace, axi_kit.AxiFile("axi", axi)).lines()


def hexadecimal(content):
    """Bytes as lines of digits."""
    return "".join(f"{content[at:at + 100].hex()}\n" for at in range(0, len(content), 100))


def said(lines):
    """The exit number and the lines."""
    return part(">>", "4" if lines[0].startswith("vidi: refused") else "0", "".join(f"{line}\n" for line in lines))


def case(trace, axi, lines):
    """A case of a trace, of which the reader in Python has to say the same."""
    if reading(trace, axi) != lines:
        raise Problem(f"of {trace_kit.lines_of(trace)} the reader says {reading(trace, axi)}, and {lines} is wanted")
    return "== bursts trace axi\n" + part("-x", "trace", hexadecimal(trace_kit.encoded(trace.channels, trace.packets))) + said(lines)


def group(title, cases, axi=AXI, channels=bursts.CHANNELS):
    """The cases of one AXI file."""
    return f"** {title}\n" + part("--", "axi", axi) + "".join(case(trace_of(ones, channels), axi, lines) for ones, lines in cases)


def long_burst(title, ask, name, beats, lines):
    """A case of 256 beats, whose packets are written as one that comes again: (how often, content) in turn."""
    trace = trace_of([ask] + [(name, content) for count, content in beats for _ in range(count)])
    if reading(trace, AXI) != lines:
        raise Problem(f"{title}: the reader says {reading(trace, AXI)[:2]}")
    front = trace_kit.header(trace.channels) + trace_kit.packet_bytes(trace.channels, trace.packets[0])
    pieces = [(count, trace_kit.packet_bytes(trace.channels, packet_of([(name, content)]))) for count, content in beats]
    text = "".join(f"{count} {piece.hex()}\n" for count, piece in [(1, front), *pieces, (1, trace_kit.end_mark(len(trace.packets)))])
    return f"** {title}\n== bursts trace axi\n" + part("-*", "trace", text) + part("--", "axi", AXI) + said(lines)


def long_bursts():
    """LEN 255: lawful, with LAST early, with none, and with a beat more."""
    whole, early, none = [(255, [0, 0]), (1, [0, 1])], [(254, [0, 0]), (1, [0, 1])], [(256, [0, 0])]
    yield long_burst("256 beats", aw(0, 256), "w", whole, lawful(1, 0, write(0, 0, 256, "open")))
    yield long_burst("256 beats, LAST one early", aw(0, 256), "w", early, [broken(2, "w", 254)])
    yield long_burst("256 beats without LAST", aw(0, 256), "w", none, [broken(2, "w", 255)])
    read_whole, read_more = ([(count, [*content, 7]) for count, content in beats] for beats in (whole, whole + [(1, [0, 1])]))
    yield long_burst("256 read beats", ar(0, 256, own=7), "r", read_whole, lawful(0, 1, read(0, 0, 256, own=7)))
    yield long_burst("256 read beats and one more", ar(0, 256, own=7), "r", read_more, [broken(4, "r", 256)])


def changed(draw, ones):
    """The transactions with one changed, gone, or put elsewhere: most such ones break a rule."""
    at = draw.randrange(len(ones))
    name, content = ones.pop(at)
    kind = draw.randrange(4)
    if kind == 0 and name in ("w", "r"):
        ones.insert(at, (name, [content[0], 1 - content[1], *content[2:]]))
    elif kind == 1 and name != "w":
        ones.insert(at, (name, [*content[:-1], draw.randrange(4)]))
    elif kind == 2:
        ones.insert(draw.randrange(len(ones) + 1), (name, content))
    return ones


def random_case(seed):
    """Bursts of up to 4 IDs by turns; of two in three seeds one transaction is changed, or the end is cut off."""
    draw = random.Random(seed)
    ones = list(bursts.transactions(draw, draw.randrange(1, 9), draw.randrange(1, 5)))
    ones = ones if seed % 3 == 0 else changed(draw, ones) if seed % 3 == 1 else ones[:draw.randrange(len(ones))]
    trace = trace_kit.Trace(bursts.CHANNELS, list(bursts.packets(draw, ones)))
    return case(trace, AXI, reading(trace, AXI))


def file_cases():
    """AXI files, and traces that aren't read, in the order in which they are refused."""
    empty, reset = (trace_kit.encoded(bursts.CHANNELS, packets).hex() for packets in ([], [Packet({}, [], 0, True)]))
    told = [f"** {title}\n" + part("-x", "trace", empty + "\n") + "".join(
        "== bursts trace axi\n" + part("--", "axi", text) + said([f"vidi: refused axi: {line}"]) for text, line in files) for title, files in FILES]
    traces = [("old trace", "56494449545243310100016100" + "0000000000"), ("bad trace at 0", "00"), ("reset in packet 0", reset)]
    told.append("** a trace is tried before the AXI file\n" + part("--", "axi", "x\n") + "".join(
        "== bursts trace axi\n" + part("-x", "trace", digits + "\n") + said([f"vidi: refused trace: {line}"]) for line, digits in traces))
    told.append("** the words\n== bursts trace\n" + part(">>", "1", "vidi: usage\n") + "== bursts trace axi\n" + part("--", "axi", "beat 4\n") +
                part(">>", "2", "vidi: read fault trace\n") + "== bursts trace axi\n" + part("-x", "trace", empty + "\n") +
                part(">>", "2", "vidi: read fault axi\n"))
    return "".join(told)


def text():
    """The case file."""
    parts = [HEAD] + [group(title, cases) for title, cases in RULES + borders()] + list(long_bursts())
    parts.append(group(*LITE_CASES, LITE, LITE_CHANNELS))
    parts += [group(title, cases, axi) for title, axi, cases in OTHERS]
    parts.append("** bursts of several IDs by turns, some of which are changed\n" + part("--", "axi", AXI) + "".join(map(random_case, SEEDS)))
    return "".join(parts) + file_cases()


def wanted():
    """The case file, once `bursts` is a command."""
    return {DATA: text()} if commands.has("bursts") else {}
