"""The AXI file of `vidi bursts`, and AXI4's rules on bursts, read from the sentences of AMBA AXI4 (IHI 0022, A3.3, A3.4, A5.3) over a trace: a
reader beside Vidi's own, which also says why."""
from vidi_tools import tool_kit
from vidi_tools.tool_kit import Problem

ADDRESS = ("ID", "ADDR", "LEN", "SIZE", "BURST")
WORDS = {"aw": ADDRESS, "w": ("LAST",), "b": ("ID",), "ar": ADDRESS, "r": ("ID", "LAST")}
WIDTHS = {"LEN": 8, "SIZE": 3, "BURST": 2, "LAST": 1}
MOST = {"ADDR": 64, "ID": 32}
FIXED, INCR, WRAP, RESERVED = range(4)
KINDS = ("FIXED", "INCR", "WRAP", "BURST 3")
BLOCK = 4_096
SHOWN = 6


class Port:
    """A line of an AXI file: the channel of a role, and the place of each of its words among the content ports, or None."""

    def __init__(self, role, channel, places):
        self.role, self.channel, self.places = role, channel, places

    def line(self):
        """The line."""
        return " ".join([self.role, self.channel] + ["none" if self.places[word] is None else str(self.places[word]) for word in WORDS[self.role]])


class AxiFile:
    """The lines of an AXI file. Its form is checked here, and its channels by `vidi bursts`."""

    def __init__(self, path, text=None):
        self.beat, self.ports = None, {}
        for line, content in enumerate((tool_kit.text_of(path) if text is None else text).split("\n"), 1):
            words = content.split("#")[0].split()
            if words and not self.takes(*words):
                raise Problem(f"{path} line {line}: no line of an AXI file: {' '.join(words)}")
        if not self.beat or not self.ports:
            raise Problem(f"{path}: an AXI file has a line beat and the lines of channels")

    def takes(self, role, *words):
        """Takes a line, and says whether it has a form."""
        numbers = [None if word == "none" else tool_kit.number(word) for word in words]
        if role == "beat" and len(words) == 1 and self.beat is None and numbers[0] in [1 << at for at in range(8)]:
            self.beat = numbers[0]
        elif self.beat and role in WORDS and role not in self.ports and len(words) == 1 + len(WORDS[role]) and "none" not in words[:1]:
            self.ports[role] = Port(role, words[0], dict(zip(WORDS[role], numbers[1:])))
        else:
            return False
        return True


class Transfer:
    """A completed transaction of a channel: its number, the packets of its start and its completion, and what its words say."""

    def __init__(self, port, number, packets, content, beat):
        said = {word: None if place is None else content[place] for word, place in port.places.items()}
        self.number, (self.start, self.at) = number, packets
        self.id = said.get("ID") or 0
        self.last = 1 if said.get("LAST") is None else said["LAST"]
        self.addr, self.beats = said.get("ADDR"), (said.get("LEN") or 0) + 1
        self.size = beat if said.get("SIZE") is None else 1 << said["SIZE"]
        self.burst = INCR if said.get("BURST") is None else said["BURST"]

    def says(self, name):
        """The line on an address."""
        return (f"  {name} {self.number}: packets {self.start} to {self.at}, id {self.id} addr {self.addr} (0x{self.addr:x}) beats {self.beats} "
                f"of {self.size} bytes {KINDS[self.burst]}")


def transfers(trace, axi, role):
    """The completed transactions of a role's channel; none where the file doesn't have it."""
    port, found, waiting = axi.ports.get(role), [], None
    for at, packet in enumerate(trace.packets if port else []):
        if port.channel in packet.starts:
            waiting = (at, packet.starts[port.channel])
        if port.channel in packet.ends:
            found.append(Transfer(port, len(found), (waiting[0], at), waiting[1], axi.beat))
    return found


class Finding:
    """A broken rule: its number, the channel, the number of the transaction, and the lines that say why."""

    def __init__(self, rule, channel, number, why):
        self.line, self.why = f"broken rule {rule} {channel} {number}", why


class Reader:
    """The transactions of an AXI4 port in a trace."""

    def __init__(self, trace, axi):
        self.axi = axi
        self.found = {role: transfers(trace, axi, role) for role in WORDS}

    def name(self, role):
        """The channel of a role."""
        return self.axi.ports[role].channel

    def findings(self):
        """All broken rules, in their order."""
        for role in ("aw", "ar"):
            for one in self.found[role]:
                why = address_fault(one, self.axi.beat)
                if why:
                    yield Finding(1, self.name(role), one.number, [why, one.says(self.name(role))])
        yield from self.data_findings()
        yield from self.response_findings()
        yield from self.read_findings()

    def parts(self):
        """Of each beat that the write addresses ask for, in order, which beat it is of which burst."""
        return [(ask, beat) for ask in self.found["aw"] for beat in range(ask.beats)]

    def data_findings(self):
        """Rule 2: a data beat has LAST exactly where it is the last one of its burst."""
        for one, (ask, beat) in zip(self.found["w"], self.parts()):
            if (one.last == 1) != (beat == ask.beats - 1):
                yield Finding(2, self.name("w"), one.number, [f"it has LAST {one.last} and is beat {beat + 1} of {ask.beats} of {self.name('aw')} "
                                                              f"{ask.number}", ask.says(self.name("aw")), self.beats_of("w", self.data_of(ask))])

    def data_of(self, ask):
        """The data beats of a write burst, as far as they are there."""
        first = sum(other.beats for other in self.found["aw"][:ask.number])
        return self.found["w"][first:first + ask.beats]

    def beats_of(self, role, beats):
        """The line on the beats of a burst."""
        said = [f"{self.name(role)} {one.number} in packet {one.at} with LAST {one.last}" for one in beats[:SHOWN]]
        return "  its beats: " + (", ".join(said + [f"and {len(beats) - SHOWN} more"] * (len(beats) > SHOWN)) or "none")

    def response_findings(self):
        """Rule 3: a response comes behind its address and the last of its data."""
        asks, seen, ends = by_id(self.found["aw"]), {}, last_parts(self.found["aw"])
        for one in self.found["b"]:
            turn = seen[one.id] = seen.get(one.id, -1) + 1
            own, name = asks.get(one.id, []), self.name("aw")
            if turn >= len(own):
                yield Finding(3, self.name("b"), one.number, [f"it is response {turn} with id {one.id}, and {name} has {len(own)} with this id",
                                                              f"  {self.name('b')} {one.number}: packets {one.start} to {one.at}"])
                continue
            ask, data = own[turn], self.found["w"]
            end = data[ends[own[turn].number]] if ends[own[turn].number] < len(data) else None
            if ask.at > one.at or end is None or end.at > one.at:
                late = f"{name} {ask.number} completes behind it" if ask.at > one.at else f"the last beat of {name} {ask.number} isn't there" if \
                    end is None else f"the last beat of {name} {ask.number}, {self.name('w')} {end.number}, completes behind it"
                yield Finding(3, self.name("b"), one.number, [f"it answers {name} {ask.number}, and {late}", ask.says(name),
                                                              self.beats_of("w", self.data_of(ask)),
                                                              f"  {self.name('b')} {one.number}: packets {one.start} to {one.at}, id {one.id}"])

    def read_findings(self):
        """Rule 4: a read beat comes behind its address, and has LAST exactly where it is the last one of its burst."""
        asks, seen = by_id(self.found["ar"]), {}
        turns = {key: [(ask, beat) for ask in own for beat in range(ask.beats)] for key, own in asks.items()}
        for one in self.found["r"]:
            own = seen.setdefault(one.id, [])
            own.append(one)
            asked, name = turns.get(one.id, []), self.name("ar")
            where = f"  {self.name('r')} {one.number}: packets {one.start} to {one.at}, id {one.id}"
            if len(own) > len(asked):
                yield Finding(4, self.name("r"), one.number, [f"it is beat {len(own)} with id {one.id}, and {name} asks for {len(asked)} with this id",
                                                              where])
                continue
            ask, beat = asked[len(own) - 1]
            if ask.at > one.at:
                yield Finding(4, self.name("r"), one.number, [f"it is of {name} {ask.number}, which completes behind it", ask.says(name), where])
            elif (one.last == 1) != (beat == ask.beats - 1):
                yield Finding(4, self.name("r"), one.number, [f"it has LAST {one.last} and is beat {beat + 1} of {ask.beats} of {name} {ask.number}",
                                                              ask.says(name), self.beats_of("r", own[len(own) - 1 - beat:])])

    def is_done(self, role):
        """For each address of a role whether its burst is done: a write with its response, a read with its last beat."""
        answers, needed, done = by_id(self.found["b" if role == "aw" else "r"]), {}, []
        for one in self.found[role]:
            needed[one.id] = needed.get(one.id, 0) + (1 if role == "aw" else one.beats)
            done.append(len(answers.get(one.id, [])) >= needed[one.id])
        return done

    def lines(self):
        """The lines of `vidi bursts`."""
        broken = next(self.findings(), None)
        if broken:
            return [f"vidi: refused trace: {broken.line}"]
        lines = [f"{kind} {one.number} id {one.id} addr {one.addr} beats {one.beats} {'done' if is_done else 'open'}"
                 for kind, role in (("write", "aw"), ("read", "ar")) for one, is_done in zip(self.found[role], self.is_done(role))]
        return lines + [f"writes {len(self.found['aw'])} reads {len(self.found['ar'])}"]


def by_id(ones):
    """The transactions of each ID, in order."""
    found = {}
    for one in ones:
        found.setdefault(one.id, []).append(one)
    return found


def last_parts(asks):
    """Of each write address the number of its last data beat."""
    found, before = [], 0
    for ask in asks:
        before += ask.beats
        found.append(before - 1)
    return found


def address_fault(one, beat):
    """Why an address breaks rule 1, or None: A3.4.1 on lengths, sizes, wrapping and the boundary of 4 KB."""
    if one.burst == RESERVED:
        return "BURST 3 is reserved"
    if one.size > beat:
        return f"its beats have {one.size} bytes, and the bus has {beat}"
    if one.burst == FIXED and one.beats > 16:
        return f"a FIXED burst has {one.beats} beats, and 16 are the most"
    if one.burst == WRAP and one.beats not in (2, 4, 8, 16):
        return f"a WRAP burst has {one.beats} beats, and 2, 4, 8 or 16 are lawful"
    if one.burst == WRAP and one.addr % one.size:
        return f"the address of a WRAP burst is no multiple of its beats' {one.size} bytes"
    first = one.addr - one.addr % one.size
    last = first + one.beats * one.size - 1
    if one.burst == INCR and first // BLOCK != last // BLOCK:
        return f"its bytes, {first} to {last}, cross {last // BLOCK * BLOCK}, a boundary of 4 KB"
    return None
