"""Makes the AXI file of `vidi bursts` beside a first map: the channels whose ports have AXI4's names (AMBA AXI4 IHI 0022, A2)."""
import re

from vidi_tools import axi_kit
from vidi_tools.tool_kit import Problem

VALID = re.compile(r"(.*?)(aw|ar|w|b|r)_?(valid|vld|v)")
WRITES, READS = ("aw", "w", "b"), ("ar", "r")


def plain(name):
    """A port's name in small letters, without the `_i` or `_o` of its side."""
    name = name.lower()
    return name[:-2] if name.endswith(("_i", "_o")) else name


def buses_of(channels):
    """For each front of names the channels of AXI4's five roles, as (name, content ports), where those of writes or of reads are all there."""
    found = {}
    for name, _, valid, _, contents in channels:
        named = VALID.fullmatch(plain(valid))
        if named:
            found.setdefault(named[1], {})[named[2]] = (name, contents)
    return {front: roles for front, roles in found.items() if any(set(own) <= set(roles) for own in (WRITES, READS))}


def place_of(front, role, word, contents):
    """The place of the port that has this word's name, or None."""
    names = [front + role + joint + word.lower() for joint in ("", "_")]
    return next((at for at, port in enumerate(contents) if plain(port) in names), None)


def bus_bytes(front, roles, widths):
    """The bytes of the data bus."""
    found = {}
    for role in {"w", "r"} & set(roles):
        at = place_of(front, role, "DATA", roles[role][1])
        if at is not None:
            found[roles[role][1][at]] = widths[roles[role][1][at]]
    sizes = set(found.values())
    if len(sizes) != 1 or not sizes <= {8 << at for at in range(8)}:
        said = ", ".join(f"{port} has {width} bits" for port, width in sorted(found.items())) or f"{front}* has no wdata and no rdata"
        raise Problem(f"no AXI file: {said}, and a data bus has 8 to 1024 bits, a power of two")
    return sizes.pop() // 8


def notes_of(port, contents, widths):
    """What of a line is to look at."""
    for word, place in port.places.items():
        if place is None and word == "ADDR":
            raise Problem(f"no AXI file: {port.channel} has no port that is called {port.role}addr")
        width = widths[contents[place]] if place is not None else None
        if width is not None and (width != axi_kit.WIDTHS.get(word, width) or width > axi_kit.MOST.get(word, 128)):
            wanted = axi_kit.WIDTHS.get(word) or f"at most {axi_kit.MOST[word]}"
            yield f"{contents[place]} has {width} bits, and {word} has {wanted}: vidi bursts refuses it"
    if "LEN" in port.places and port.places["LEN"] is None:
        yield f"{port.channel} has no LEN: each burst is one beat"


def lines_of(front, roles, widths):
    """The lines of the AXI file, with what is to look at as comments."""
    lines, notes = [f"beat {bus_bytes(front, roles, widths)}"], []
    kept = [role for own in (WRITES, READS) if set(own) <= set(roles) for role in own]
    for role in kept:
        name, contents = roles[role]
        port = axi_kit.Port(role, name, {word: place_of(front, role, word, contents) for word in axi_kit.WORDS[role]})
        lines.append(port.line())
        notes += notes_of(port, contents, widths)
    notes += [f"{roles[role][0]} is left out: the channels of its side aren't all there" for role in roles if role not in kept]
    return lines + [f"# {note}" for note in notes]


def text_of(channels, widths, wanted):
    """The AXI file of the one AXI4 port, or of the one whose names begin so."""
    buses = buses_of(channels)
    own = [front for front in buses if wanted is None or front == plain(wanted)]
    if len(own) != 1:
        names = ", ".join(f"--bus {front or repr('')}" for front in buses)
        raise Problem("no AXI file: no channels with AXI4's names (awvalid wvalid bvalid, arvalid rvalid)" if not buses else
                      f"an AXI file is of one port: say {names}")
    return "\n".join(lines_of(own[0], buses[own[0]], widths)) + "\n"
