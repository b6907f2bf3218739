"""Runs vidi with the same words, prints its lines, and says in one sentence more what a refusal means and what to write.

    say COMMAND WORDS ..       such as say run DESIGN MAP SCRIPT
    say                        the commands and their words; so does say --help

The status is that of vidi. The sentence, for the statuses 1 to 4, is a guess from
the files as they are and stands behind vidi's own lines.
"""
import os
import re
import sys

from vidi_tools import axi_kit
from vidi_tools import commands
from vidi_tools import tool_kit
from vidi_tools import trace_kit

COMMANDS = {one.name: one.words for one in commands.VIDI}
LAWFUL = {"CYCLES": "1 to 50000", "NUMBER": "0 to 6000", "J": "0 to 4294967295", "K": "0 to 4294967295"}
LOWER = "vidi-tools left-out {path} lists all such places, and vidi-tools lower makes a text of the subset"
# Each reason, and what to do about it: {path} is the file's name, {place} its line and the text of that, {at} the
# same with a comma, {0}, {1} what the reason names, and {fault} is
# looked for in the files.
ADVICE = [
    ("E1 ", "{at} has a word or a sign that the subset doesn't know; " + LOWER),
    ("E2 ", "{at} begins an item that isn't whole, as by a missing semicolon, or that has a form which is left out; " + LOWER),
    ("E3 twice (.*)", "{path} has two things that are called {0}: rename one"),
    ("E4 unknown (.*)", "{path} declares no {0}: declare it, mend the name, or name the right top"),
    ("E5 ", "{at} has a constant that isn't lawful: ranges begin at 0, numbers in braces have a size, literals fit 128 bits"),
    ("E6 .*?got (.*)", "{at} has a width or an index of {0}: widths are 1 to 128 bits, an index lies in the declared range; split it, or mend it"),
    ("E7 ", "{at} uses a name of another kind: assign drives wires, always @(posedge clk) writes reg with <=, always @* with ="),
    ("E8 drive (.*) bit (.*) drivers 0", "{path}: nothing drives bit {1} of {0}: drive it, or connect it, if only to 1'b0"),
    ("E8 drive (.*) bit (.*) drivers (.*)", "{path}: bit {1} of {0} has {2} drivers, and one is lawful: drive it in one place"),
    ("E9 latch (.*) line", "{at} leaves {0} as it is on some path: set it at the block's front, or in each branch, with a default in a case"),
    ("E10 loop lines (.*)", "{path}: the drivers in the lines {0} read each other in a circle: put a register in, or assign the bits apart"),
    ("E11 nested (.*)", "{path}: the module {0} contains itself: take the instance out"),
    ("E12 too big (.*)", "{path} has too many {0}: 4,096 instances, 65,536 nets and 1,048,576 words of memories are the most"),
    ("E13 ", "{at} has a clock that isn't the one: one input of the top clocks all blocks and is read nowhere else; write if (enable) in the block"),
    ("E14 ", "{at} is nested too deep or too long: 32 open brackets, 1,023 tokens between two cuts and 1,024 else are the most; split it"),
    ("M1 ", "{at} is no line of a map: top NAME first, clock PORT, in NAME VALID READY PORT .., out NAME VALID READY PORT .., tie PORT NUMBER, reset "
            "PORT 0 or 1 CYCLES, ignore PORT; top and clock have to stand there, and once"),
    ("M2 ", "{place}: {fault}"),
    ("M3 cover (.*) times 0", "no line of {path} names the port {0}: name it in a channel, or write {fault}"),
    ("M3 cover (.*) times (.*)", "{path} names the port {0} {1} times: take it out of all lines but one"),
    ("M4 limit channels got (.*)", "{path} has {0} channels, and 1 to 128 are lawful"),
    ("M4 limit ports got (.*)", "{path} has a channel with {0} content ports, and 16 are the most: ignore some, or make two channels"),
    ("M4 limit bytes got (.*)", "{path} has {0} content bytes in all channels, and 2,048 are the most: ignore some"),
    ("S1 ", "{at} is no line of a script: cycles N first, then CH send N .., CH take N, CH take all, CH wait N, CH after OTHER N, "
           "reset at T"),
    ("S2 ", "{place}: {fault}"),
    ("S3 ", "{place}: {fault}"),
    ("P1 ", "{at} is no line of a plan: capacity N first (1 to 16,777,216), then drain B K or drain all K, with K from 1 to 50,000"),
    ("too small need (.*) given (.*)", "{path} has a capacity of {1} bytes, and a start and an end of each channel need {0}: write capacity {0}"),
    ("too long, limit (.*)", "{path} has more than {0} bytes: make it shorter"),
    ("old trace", "{path} is an old trace, of version 1: vidi migrate {path} OUT writes it in today's bytes"),
    ("bad trace at (.*)", "{fault}"),
    ("reset in packet (.*)", "in {path} the design was reset in packet {0}, and this command takes no trace with a reset"),
    ("A1 ", "{at} is no line of an AXI file: beat N first, then aw CH ID ADDR LEN SIZE BURST, w CH LAST, b CH ID, ar CH ID ADDR LEN SIZE BURST, r CH ID "
            "LAST, each once, with places from 0 or none; aw, w and b come together, and so do ar and r"),
    ("A2 ", "{place}: {fault}"),
    ("broken rule (.*) (.*) (.*)", "{path} breaks rule {0} of AXI4's bursts at transaction {2} of {1}, counted from 0: vidi-tools explain --axi says why"),
    ("no end (.*)", "{path} hasn't so many completions of that channel: they count from 0, over the whole trace"),
    ("same end", "both are one completion of {path}: name another one"),
    ("blocked by packet (.*)", "packet {0} of {path} blocks it: vidi-tools explain --move with the same words says why, and how far it may go"),
    ("other channels at (.*)", "{path} has other channels from number {0} on: {fault}"),
    ("reserved (.*)", "{path}: the name {0} begins with vidi_, which wrap gives its own modules: rename it"),
    ("wrapped has (.*)", "what wrap makes of {path} is refused by {0}, as it is too big: take channels out of the map"),
    ("wrapped text", "what wrap makes of {path} has more than 4,194,304 bytes: take channels out of the map")]


def usage():
    """The commands and their words."""
    return commands.listed(commands.VIDI, "vidi")


def content_of(path):
    """The bytes of a file, or none."""
    try:
        with open(path, "rb") as file:
            return file.read()
    except OSError:
        return b""


def plan_of(path):
    """The map in a file, or None."""
    try:
        return tool_kit.Map(path)
    except tool_kit.Problem:
        return None


def header_of(path, top):
    """For each port of a module its direction, as its header has it."""
    header = re.search(rf"\bmodule\s+{re.escape(top)}\b(.*?);", tool_kit.text_of(path), re.S)
    ports, side = {}, None
    for words in re.findall(r"[A-Za-z_]\w*", re.sub(r"//[^\n]*|\[[^]]*\]|#\s*\(.*?\)\s*\(", " ", header[1])) if header else []:
        side = words if words in ("input", "output") else side
        if side and words not in ("input", "output", "reg", "wire"):
            ports[words] = side
    return ports


def width_of(path, port):
    """The width of a port whose range is written with numbers, or None."""
    found = re.search(rf"\[\s*(\d+)\s*:\s*0\s*\](?:(?!input|output|\[)[^;()])*?\b{re.escape(port)}\b", tool_kit.text_of(path))
    return int(found[1]) + 1 if found else None


def port_fault(files, words):
    """What is wrong with a port of a line of a map."""
    ports = header_of(files["design"], next((line.split()[1] for line in tool_kit.text_of(files["map"]).splitlines() if line.startswith("top ")), ""))
    form, *named = words
    sides = {"clock": ["input"], "reset": ["input"], "tie": ["input"], "ignore": ["output"]}.get(form)
    if form in ("in", "out"):
        own, other = ("input", "output") if form == "in" else ("output", "input")
        named, sides = named[1:], [own, other] + [own] * len(named)
    for port, side in zip(named, sides or []):
        if port not in ports:
            return f"the design has no port {port}; it has {', '.join(ports)}"
        if ports[port] != side:
            return f"{port} is an {ports[port]}, and an {side} is wanted there"
    return "a valid, a ready, a clock or a reset has 1 bit, a tie's number fits its port, and the clock is the design's"


def step_fault(files, words):
    """What is wrong with a step of a script."""
    plan = plan_of(files["map"])
    if words[0] == "cycles":
        return "cycles is 1 to 50,000"
    if words[:2] == ["reset", "at"]:
        return "a reset comes in row 1 to 49,999, and later than that of the reset line before it"
    channel = next((one for one in plan.channels if one.name == words[0]), None) if plan else None
    names = ", ".join(one.name for one in plan.channels) if plan else "none"
    if channel is None:
        return f"the map has no channel {words[0]}; it has {names}"
    if words[1] == "after" and not any(one.name == words[2] for one in plan.channels):
        return f"the map has no channel {words[2]}; it has {names}"
    if words[1] in ("send", "take") and channel.is_inward != (words[1] == "send"):
        return f"{words[0]} is {'inward: write send' if channel.is_inward else 'outward: write take'}"
    if words[1] == "send" and len(words) - 2 != len(channel.ports):
        return f"send wants a number for each content port of {words[0]} ({' '.join(channel.ports) or 'none'}), and {len(words) - 2} stand there"
    for port, word in zip(channel.ports, words[2:] if words[1] == "send" else []):
        width = width_of(files["design"], port)
        if width and tool_kit.number(word) is not None and tool_kit.number(word) >> width:
            return f"{word} doesn't fit {port}, which has {width} bits: the most is {(1 << width) - 1}"
    if words[1] == "send":
        return f"a number doesn't fit its port: the ports are {' '.join(channel.ports)}"
    return "wait is 1 to 50,000; take and after are 1 to 4,294,967,295"


def is_trace(content):
    """Whether the bytes are a trace."""
    try:
        return bool(trace_kit.read(content))
    except tool_kit.Problem:
        return False


def axi_fault(files, words):
    """What is wrong with a line of an AXI file."""
    role, name, *places = words
    tables = trace_kit.read_file(files["trace"]).channels
    widths = next((table.widths for table in tables if table.name == name), None)
    if widths is None:
        return f"the trace has no channel {name}; it has {', '.join(table.name for table in tables)}"
    for word, place in zip(axi_kit.WORDS.get(role, ()), map(tool_kit.number, places)):
        if place is not None and place >= len(widths):
            return f"{name} has {len(widths)} content ports, and {word} is port {place}: they count from 0"
        if place is not None and (axi_kit.WIDTHS.get(word, widths[place]) != widths[place] or widths[place] > axi_kit.MOST.get(word, 128)):
            wanted = axi_kit.WIDTHS.get(word) or f"at most {axi_kit.MOST[word]}"
            return f"port {place} of {name} has {widths[place]} bits, and {word} has {wanted}"
    return f"{name} or one of its ports is named twice, or goes the other way: aw, w and ar one way, b and r the other"


def trace_fault(path, whole):
    """What is wrong with the bytes of a trace."""
    content = content_of(path)
    if content[:7] != b"VIDITRC":
        return f"{path} is no trace: it doesn't begin with VIDITRC"
    if whole == 0 and is_trace(content):
        return f"{path} is a trace of version 2 already"
    if whole == 0:
        return f"{path} begins with VIDITRC, but its list of channels isn't whole"
    return f"{path} is whole up to byte {whole} of {len(content)}: vidi salvage {path} OUT writes what is whole"


def channels_of(files, where, at):
    """The channels of two files that part."""
    tables, names = [], ("trace", "other") if where == "other" else ("map", "trace")
    for word in names:
        if word == "map":
            plan = plan_of(files["map"])
            tables.append([f"{'in' if one.is_inward else 'out'} {one.name} with {len(one.ports)} contents" for one in plan.channels])
        else:
            tables.append([f"{'in' if one.is_inward else 'out'} {one.name} {' '.join(map(str, one.widths))}".strip()
                           for one in trace_kit.read_file(files[word]).channels])
    return "; ".join(f"{files[word]} has {table[at] if at < len(table) else 'none'}" for word, table in zip(names, tables))


def looks_like(path):
    """What a file seems to be by its first words."""
    content = content_of(path)
    words = re.sub(rb"//[^\n]*|/\*.*?\*/|#[^\n]*", b" ", content, flags=re.S).split()
    kinds = {b"top": "map", b"cycles": "script", b"capacity": "stalls"}
    if content[:7] == b"VIDITRC":
        return "trace"
    return kinds.get(words[0] if words else b"", "design" if b"endmodule" in words else None)


def exchanged(files, where, reason):
    """The sentence on a file that isn't what its word says, or None."""
    path = files[where]
    if content_of(path)[:3] == b"\xef\xbb\xbf":
        return f"{path} begins with a byte-order mark: save it as plain text without one"
    kind, wanted = looks_like(path), "trace" if where == "other" else where
    if kind not in (None, wanted) and reason.startswith(("E1 ", "E2 ", "M1 ", "S1 ", "P1 ", "bad trace")):
        return f"{path} looks like a {kind}, and a {wanted} is wanted there: are {kind} and {wanted} exchanged?"
    return None


def fault_of(files, where, reason, words):
    """What is wrong, as far as the files tell."""
    if reason.startswith("M2"):
        return port_fault(files, words)
    if reason.startswith("A2"):
        return axi_fault(files, words)
    if reason.startswith(("S2", "S3")):
        return step_fault(files, words)
    if reason.startswith("M3"):
        plan, port = plan_of(files["map"]), reason.split()[2]
        return f"ignore {port}" if plan and header_of(files["design"], plan.top).get(port) == "output" else f"tie {port} 0"
    if reason.startswith("bad trace"):
        return trace_fault(files[where], int(reason.split()[-1]))
    return channels_of(files, where, int(reason.split()[-1])) if reason.startswith("other channels") else ""


def refused(files, where, reason):
    """The sentence on a file that is refused."""
    path, line = files[where], re.search(r"\blines? (\d+)", reason)
    texts = tool_kit.text_of(path).splitlines() if line else []
    text = texts[int(line[1]) - 1].strip() if line and int(line[1]) <= len(texts) else "its end"
    place = f"{path} line {line[1]}, `{text[:80]}`" if line else path
    for pattern, advice in ADVICE:
        found = re.match(pattern, reason)
        if found:
            fault = fault_of(files, where, reason, text.split("#")[0].split())
            return advice.format(*found.groups(), path=path, place=place, at=place + "," * bool(line), fault=fault)
    return None


def misused(words):
    """The sentence on words that are no command."""
    if not words or words[0] not in COMMANDS:
        return f"the commands are {', '.join(COMMANDS)}; say --help lists their words"
    own = COMMANDS[words[0]].split()
    if len(words) - 1 != len(own):
        return f"{words[0]} takes {len(own)} words, {' '.join(own).upper()}, and {len(words) - 1} stand there"
    for word, given in zip(own, words[1:]):
        if word in LAWFUL:
            low, high = (int(number) for number in LAWFUL[word].split(" to "))
            if not re.fullmatch("[0-9]+", given) or not low <= int(given) <= high:
                return f"{word} is {given}, and {LAWFUL[word]} is lawful"
        if word == "SIDE" and given not in ("before", "after"):
            return f"SIDE is {given}, and before or after is lawful"
    if "OUT" in own and words[1 + own.index("OUT")] in [given for word, given in zip(own, words[1:]) if word.islower()]:
        return f"{words[1 + own.index('OUT')]} would be read and written: name another file for OUT"
    return "a word isn't UTF-8"


def unwritten(files):
    """The sentence on a write that failed."""
    out = files.get("OUT", "standard output")
    folder = os.path.dirname(os.path.abspath(out))
    if out != "standard output" and not os.path.isdir(folder):
        return f"{out} wasn't written: there is no folder {folder}"
    if os.path.isdir(out):
        return f"{out} wasn't written: it is a folder"
    if out != "standard output" and not os.access(out if os.path.exists(out) else folder, os.W_OK):
        return f"{out} wasn't written: this user may not write there"
    return f"{out} wasn't written whole: is the disk full, or is it a pipe that was closed?"


def sentence(words, said, status):
    """What to say beside vidi's lines, or None."""
    if status == 1:
        return misused(words)
    files = dict(zip(COMMANDS[words[0]].split(), words[1:])) if words and words[0] in COMMANDS else {}
    if status == 2:
        path = files.get(said.split()[-1], "")
        return f"{path} can't be read: " + ("it is a folder" if os.path.isdir(path) else "there is no such file" if not os.path.exists(path) else
                                            "this user may not, or it is no plain file")
    if status == 3:
        return unwritten(files)
    found = re.match(r"vidi: refused (\w+): (.*)", said.splitlines()[-1]) if status == 4 and said else None
    return (exchanged(files, found[1], found[2]) or refused(files, found[1], found[2])) if found else None


def main():
    """Runs vidi, and says more."""
    words = sys.argv[1:]
    if not words or words[0] in ("--help", "-h"):
        print(__doc__.strip() + "\n\n" + usage())
        sys.exit(0 if words else 1)
    said, status = tool_kit.vidi(*words)
    print(said, end="", flush=True)
    more = sentence(words, said, status)
    if more:
        print(f"say: {more}")
    sys.exit(status)
