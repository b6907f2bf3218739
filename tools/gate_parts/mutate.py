"""Runs mutated inputs through the program vidi: none may crash or hang, and each answer has to be one of docs/FILES.md.

    gate mutate [--count N] [--seed S] [--only COMMAND] [--keep FOLDER]

N inputs a command (10,000 where nothing is said) for check, run, record, replay, dump, compare, salvage, migrate and wrap. Each is made of the files of
an example or of a design of `make random`: in one or more of the files that the command reads, bytes are changed, cut or doubled and lines or
words exchanged, one to four times; to one trace in five a reset is added before. Wrong is: an end by a signal, more than a second of processor
time three times (or 20 seconds by the clock), anything on the standard error, an exit number other than 0, 4, 5, 6 and 7 (the words are always a
command, and its files are there), lines that aren't those of the exit number, a file beside the one to be written, that one after a refusal, and
an OUT that `vidi dump` (of `wrap`: `vidi check`, with both tops) doesn't take. The same seed tries the same inputs. It says how often each
command ended how.
"""
import argparse
import collections
import os
import random
import re
import resource
import shutil
import subprocess
import sys
import tempfile

from make_kinds import random_design
from vidi_tools import tool_kit
from vidi_tools import trace_kit
from vidi_tools.tool_kit import Problem

COMMANDS = {
    "check": (["design"], None), "run": (["design", "map", "script"], None), "record": (["design", "map", "script", "stalls"], "out"),
    "replay": (["design", "map", "trace"], "out"), "dump": (["trace"], None), "compare": (["trace", "other"], None),
    "salvage": (["trace"], "out"), "migrate": (["old"], "out"), "wrap": (["design", "map"], "out"),
}
N, CH, X = rb"(?:0|[1-9]\d*)", rb"[A-Za-z_]\w{0,63}", rb"[^\n]+"
DESIGN = rb"|".join([
    rb"E1 word line N", rb"E2 item line N", rb"E3 twice X", rb"E4 unknown X", rb"E5 const line N", rb"E6 width line N got N", rb"E7 kind line N",
    rb"E8 drive X bit N drivers N", rb"E9 latch X line N", rb"E10 loop lines N(?: N)*", rb"E11 nested X", rb"E12 too big (?:instances|nets|words)",
    rb"E13 clock line N", rb"E14 deep line N", rb"too long, limit 4194304"])
MAP = rb"M1 line N|M2 port line N|M3 cover X times N|M4 limit (?:channels|ports|bytes) got N|too long, limit 4194304"
SCRIPT = rb"S1 line N|S2 channel line N|S3 number line N|too long, limit 4194304"
STALLS = rb"P1 line N|too small need N given N|too long, limit 4194304"
TRACE = rb"old trace|bad trace at N|too long, limit 134217728"
REFUSED = {
    "check": {"design": DESIGN}, "run": {"design": DESIGN, "map": MAP, "script": SCRIPT},
    "record": {"design": DESIGN, "map": MAP, "script": SCRIPT, "stalls": STALLS},
    "replay": {"design": DESIGN, "map": MAP, "trace": TRACE + rb"|other channels at N"}, "dump": {"trace": TRACE},
    "compare": {"trace": TRACE, "other": TRACE + rb"|other channels at N"}, "salvage": {"trace": rb"bad trace at 0|too long, limit 134217728"},
    "migrate": {"trace": rb"bad trace at N|too long, limit 67108864"},
    "wrap": {"design": DESIGN + rb"|reserved X|wrapped has EN|wrapped text too long", "map": MAP},
}
FINDINGS = rb"(?:(?:epoch N|differs CH start N|(?:missing|extra) (?:CH (?:start|end)|reset) N|early CH (?:start|end) N count N)\n)+diverged\n"
EVENTS = rb"(?:N reset\n|N start CH(?: N)*\n|N end CH\n)*"
UNSTABLE = rb"vidi: unstable CH cycle N\n"
SAID = {
    ("check", 0): rb"modules N items N\ninstances N nets N drivers N blocks N words N\n",
    ("run", 0): EVENTS + rb"cycles N\n", ("run", 5): EVENTS + UNSTABLE,
    ("record", 0): rb"recorded N cycles N packets\n", ("record", 5): UNSTABLE,
    ("replay", 0): rb"replayed N cycles, no divergence\n", ("replay", 5): UNSTABLE, ("replay", 7): FINDINGS,
    ("replay", 6): rb"short after N cycles\n(?:epoch N\n)?(?:held (?:CH (?:start|end)|reset) N\n(?:awaits CH have N need N\n)+)*"
                    rb"(?:waits (?:CH (?:start|end)|reset) N\n)+",
    ("dump", 0): rb"(?:channel N (?:in|out) CH(?: N)*\n)+(?:N gap N\n|N reset\n|N start CH(?: N)* clock(?: N)+\n|N end CH clock(?: N)+\n)*packets N\n",
    ("compare", 0): rb"no divergence\n", ("compare", 7): FINDINGS,
    ("salvage", 0): rb"salvaged N packets\n", ("migrate", 0): rb"migrated N packets\n", ("wrap", 0): rb"wrapped N channels\n",
}


def pattern(text):
    """A pattern of the lines, in which N is a number, CH a channel and X a name."""
    return re.compile(re.sub(rb"\bN\b|EN\b|\bCH\b|\bX\b", lambda at: {b"N": N, b"EN": rb"E(?:[3-9]|1[0-4])", b"CH": CH, b"X": X}[at[0]], text))


LINES = {key: pattern(text) for key, text in SAID.items()}
REASONS = {(command, word): pattern(rb"vidi: refused " + word.encode() + rb": (?:" + reasons + rb")\n")
           for command, words in REFUSED.items() for word, reasons in words.items()}


def changed(draw, content):
    """The bytes with one change."""
    kind, size = draw.randrange(7), len(content)
    if not size:
        return bytes([draw.randrange(256)])
    at = draw.randrange(size)
    length = min(size - at, draw.choice([1, 1, 2, 4, 16, 200]))
    if kind == 0:
        signs = draw.choice([b"0", b"1", b"9", b" ", b"\n", b"[", b"]", b"(", b")", b";", b"\0", b"\xff"])
        some = draw.choice([bytes([draw.randrange(256)]), bytes([content[at] ^ 1 << draw.randrange(8)]), bytes([draw.choice(content)]), signs])
        return content[:at] + some + content[at + 1:]
    if kind == 1:
        return content[:at] + content[at + length:]
    if kind == 2:
        return content[:at] + content[at:at + length] * draw.choice([2, 2, 3, 40]) + content[at + length:]
    if kind == 3:
        return content[:at]
    if kind == 4:
        lines = content.split(b"\n")
        one, other = draw.randrange(len(lines)), draw.randrange(len(lines))
        lines[one], lines[other] = lines[other], lines[one]
        return b"\n".join(lines)
    if kind == 5:
        words = re.split(rb"(\W+)", content)
        one, other = draw.randrange(len(words)), draw.randrange(len(words))
        words[one] = words[other]
        return b"".join(words)
    number = draw.choice([b"0", b"1", b"2", b"127", b"128", b"129", b"255", b"256", b"65535", b"4294967295", b"4294967296", b"2147483648",
                          b"%d" % ((1 << 128) - 1), b"%d" % (1 << 128), b"0x10", b"8'hff", b"1'b1", b"50000", b"50001"])
    numbers = list(re.finditer(rb"\d+", content))
    if not numbers:
        return content[:at] + number + content[at:]
    found = draw.choice(numbers)
    return content[:found.start()] + number + content[found.end():]


def with_reset(draw, content):
    """The bytes of a trace with a reset put in where nothing is in flight."""
    trace, flying, places = trace_kit.read(content), set(), [0]
    for number, packet in enumerate(trace.packets, 1):
        flying = (flying | set(packet.starts)) - set(packet.ends)
        places += [number] * (not flying)
    trace.packets.insert(draw.choice(places), trace_kit.Packet({}, [], draw.choice([0, 1, 300, trace_kit.MOST_GAP]), True))
    return trace_kit.encoded(trace.channels, trace.packets)


class Base:
    """The files of a design from which inputs are made."""

    def __init__(self, vidi, texts, folder):
        self.top = re.search(r"^top (\S+)", texts["map"], re.M)[1]
        self.files = {name: texts[file].encode() for name, file in (("design", "design.v"), ("map", "map"), ("script", "script"), ("stalls", "stalls"))}
        for name, content in self.files.items():
            tool_kit.write(os.path.join(folder, name), content)
        tool_kit.write(os.path.join(folder, "wide"), b"capacity 65536\n")
        for plan, name in (("stalls", "trace"), ("wide", "other")):
            done = subprocess.run([vidi, "record", "design", "map", "script", plan, name], cwd=folder, capture_output=True)
            if done.returncode not in (0, 5):
                raise Problem(f"vidi record of a base ends with {done.returncode}: {done.stdout.decode()}")
            with open(os.path.join(folder, name), "rb") as file:
                self.files[name] = file.read()
            os.remove(os.path.join(folder, name))
        self.files["old"] = trace_kit.encoded_old(trace_kit.read(self.files["trace"]))


def bases(vidi, folder):
    """The designs of examples/, and some random ones."""
    found = []
    for name in tool_kit.examples():
        paths = {file: os.path.join(tool_kit.EXAMPLES, name, file) for file in ("design.v", "map", "script", "stalls")}
        texts = {file: tool_kit.text_of(path) if os.path.exists(path) else "capacity 40\n" for file, path in paths.items()}
        found.append(Base(vidi, texts, folder))
    return found + [Base(vidi, random_design.made(seed), folder) for seed in range(1, 31)]


class Tried:
    """One input: its files and words, and how vidi ended."""

    def __init__(self, vidi, command, base, draw):
        self.vidi, self.command = vidi, command
        self.reads, self.out = COMMANDS[command]
        self.files = {name: base.files[name] for name in self.reads}
        for name in sorted({"trace", "other"} & set(self.reads)):
            if draw.random() < 0.2:
                self.files[name] = with_reset(draw, self.files[name])
        for _ in range(draw.choice([1, 1, 1, 1, 2, 2, 3, 4])):
            name = draw.choice(self.reads)
            self.files[name] = changed(draw, self.files[name])
        middle = {"check": [base.top], "replay": [str(draw.choice([1, 5, 60, 300]))]}.get(command, [])
        self.words = [command, *self.reads, *middle, *([self.out] if self.out else [])]

    def run(self, folder):
        """Runs it in an empty folder; gives what is wrong, or None."""
        for name, content in self.files.items():
            tool_kit.write(os.path.join(folder, name), content)
        for _ in range(3):  # a busy machine makes one slow now and then
            before = resource.getrusage(resource.RUSAGE_CHILDREN)
            try:
                done = subprocess.run([self.vidi, *self.words], cwd=folder, capture_output=True, timeout=20)
            except subprocess.TimeoutExpired:
                return "hangs"
            after = resource.getrusage(resource.RUSAGE_CHILDREN)
            self.seconds = after.ru_utime + after.ru_stime - before.ru_utime - before.ru_stime
            if self.seconds <= 1:
                break
        self.status, self.said = done.returncode, done.stdout
        return self.fault(folder, done.stderr)

    def fault(self, folder, errors):
        """What is wrong with the answer, or None."""
        if self.status < 0:
            return f"ends by signal {-self.status}: {errors[-200:]!r}"
        if errors:
            return f"standard error has {errors[:200]!r}"
        if self.seconds > 1:
            return f"takes {self.seconds:.2f} s"
        if self.status == 4:
            if not any(REASONS[self.command, word].fullmatch(self.said) for word in REFUSED[self.command]):
                return f"refuses by {self.said[:200]!r}"
        elif (self.command, self.status) not in LINES:
            return f"ends with {self.status}: {self.said[:200]!r}"
        elif not LINES[self.command, self.status].fullmatch(self.said):
            return f"ends with {self.status} and prints {self.said[:200]!r} .. {self.said[-200:]!r}"
        return self.left(folder)

    def left(self, folder):
        """What is wrong with the files that are left, or None."""
        there = {entry.name for entry in os.scandir(folder)} - set(self.reads)
        for name, content in self.files.items():
            with open(os.path.join(folder, name), "rb") as file:
                if file.read() != content:
                    return f"the file {name} is changed"
        if there != ({self.out} if self.out and self.status != 4 else set()):
            return f"ends with {self.status} and leaves {sorted(there)}"
        if not there:
            return None
        looks = [["check", self.out, f"vidi_{kind}_top"] for kind in ("record", "replay")] if self.command == "wrap" else [["dump", self.out]]
        for words in looks:
            done = subprocess.run([self.vidi, *words], cwd=folder, capture_output=True, timeout=20)
            if done.returncode:
                return f"vidi {' '.join(words)} of what it wrote ends with {done.returncode}: {done.stdout[:200]!r}"
        return None


def tried(options, command, found, seed):
    """Tries the inputs of a command. Gives the counts of how they ended, the longest time, and what was wrong."""
    ends, longest, wrong = collections.Counter(), 0.0, []
    draw = random.Random(f"{seed} {command}")
    for at in range(options.count):
        with tempfile.TemporaryDirectory() as folder:
            one = Tried(tool_kit.wanted_program(), command, draw.choice(found), draw)
            fault = one.run(folder)
            if fault:
                wrong.append(f"{command} {at}: {fault}")
                if options.keep:
                    shutil.copytree(folder, os.path.join(options.keep, f"{command}{at}"), dirs_exist_ok=True)
            if fault != "hangs":
                reason = re.match(rb"vidi: refused (\w+): ((?:[EMSP]\d+)|\w+)", one.said)
                ends[" ".join(part.decode() for part in reason.groups()) if reason else f"exit {one.status}"] += 1
                longest = max(longest, one.seconds)
    return ends, longest, wrong


def main():
    """Tries all."""
    parser = argparse.ArgumentParser(description=__doc__, formatter_class=argparse.RawDescriptionHelpFormatter)
    parser.add_argument("--count", type=int, default=10_000, metavar="N", help="how many inputs a command, 10,000 where nothing is said")
    parser.add_argument("--seed", type=int, default=1, metavar="S")
    parser.add_argument("--only", choices=COMMANDS, metavar="COMMAND", help="this command alone")
    parser.add_argument("--keep", metavar="FOLDER", help="keep the files of what was wrong in FOLDER")
    options = tool_kit.parse_options(parser)
    faults = 0
    with tempfile.TemporaryDirectory() as folder:
        found = bases(tool_kit.wanted_program(), folder)
    for command in [options.only] if options.only else COMMANDS:
        ends, longest, wrong = tried(options, command, found, options.seed)
        faults += len(wrong)
        print(*wrong[:20], sep="\n", end="\n" if wrong else "")
        print(f"{command}: {options.count} inputs, {len(wrong)} wrong, longest {longest:.2f} s; " +
              ", ".join(f"{count} {end}" for end, count in ends.most_common()), flush=True)
    sys.exit(1 if faults else 0)
