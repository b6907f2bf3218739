"""Waves of any simulator: a VCD, one packed by gzip, or an FST by the program fst2vcd; from a file or from standard input."""
import gzip
import io
import shutil
import subprocess
import sys
import tempfile

from vidi_tools.tool_kit import Problem

GZIP, FST = b"\x1f\x8b", (b"\x00", b"\xfe")


def unpacked(file):
    """The bytes of an opened file, without gzip."""
    return io.BufferedReader(gzip.GzipFile(fileobj=file)) if file.peek(2)[:2] == GZIP else file


def of_fst(path, file):
    """The text of an FST's waves."""
    if not shutil.which("fst2vcd"):
        raise Problem(f"{path}: an FST wants fst2vcd, which isn't installed: apt-get install gtkwave")
    with tempfile.NamedTemporaryFile(suffix=".fst") as copy:
        shutil.copyfileobj(file, copy)
        copy.flush()
        done = subprocess.run(["fst2vcd", copy.name], capture_output=True, text=True, errors="replace")
    return io.StringIO(done.stdout)


def words_of(path):
    """The words of the waves in a file, `-` for standard input, one after the other."""
    try:
        file = unpacked(sys.stdin.buffer if path == "-" else open(path, "rb"))
        is_fst = file.peek(1)[:1] in FST
        for line in of_fst(path, file) if is_fst else io.TextIOWrapper(file, encoding="utf-8", errors="replace"):
            yield from line.split()
    except (OSError, EOFError) as error:
        raise Problem(f"{path}: {getattr(error, 'strerror', None) or error}") from error


def declarations(words):
    """The declarations of a VCD's words, up to the end of its definitions: the form and the words of each."""
    for word in words:
        if word[0] == "$":
            own = []
            for inner in words:
                if inner == "$end":
                    break
                own.append(inner)
            yield word[1:], own
            if word == "$enddefinitions":
                return


class Waves:
    """The signals of one scope: their codes, widths, and the changes in the order of the file."""

    def __init__(self, path, scope):
        self.path, self.scope, self.codes, self.widths, self.split = path, scope, {}, {}, set()
        self.words, at, scopes, form = words_of(path), [], set(), None
        for form, words in declarations(self.words):
            if form == "scope":
                at.append(words[-1])
                scopes.add(".".join(at))
            elif form == "upscope":
                at = at[:-1]
            elif form == "var" and len(words) > 3 and ".".join(at) == scope:
                self.add("".join(words[3:]).lstrip("\\"), words[2], int(words[1]))
        if form != "enddefinitions":
            raise Problem(f"{path}: no VCD: no $enddefinitions")
        if scope not in scopes:
            raise Problem(f"{path}: no scope {scope}; it has {', '.join(sorted(scopes)[:12]) or 'none'}")

    def add(self, name, code, width):
        """Takes a signal; `name` has its range or, where a vector is dumped bit by bit, its place."""
        name, opened, span = name.partition("[")
        if opened and ":" not in span:
            self.split.add(name)
        self.codes.setdefault(name, code)
        self.widths.setdefault(name, width)

    def code(self, port):
        """The code of a port."""
        if port in self.split:
            raise Problem(f"{self.path}: {port} is dumped bit by bit; dump it as a vector")
        if port not in self.codes:
            raise Problem(f"{self.path}: scope {self.scope} has no {port}; dump the ports of the design there, or mend the map")
        return self.codes[port]

    def changes(self):
        """What stands behind the definitions: a time, or a code with its bits."""
        for word in self.words:
            if word[0] == "#":
                yield int(word[1:]), None, None
            elif word[0] in "bBrR":
                yield None, next(self.words, ""), word[1:].lower()
            elif word[0] in "01xXzZ":
                yield None, word[1:], word[0].lower()
            elif word == "$comment":
                while next(self.words, "$end") != "$end":
                    pass

    def named(self, ports):
        """For each code its ports."""
        named = {}
        for port in ports:
            named.setdefault(self.code(port), []).append(port)
        return named

    def edges(self, clock, ports):
        """For each rising edge of the clock its time and the values of the ports just before it, as texts of bits."""
        named, values = self.named(ports), dict.fromkeys(ports, "x")
        tick, time, before, level = self.code(clock), 0, dict(values), "x"
        for now, code, bits in self.changes():
            if code is None:
                time, before = now, dict(values)
                continue
            if code == tick:
                if bits == "1" and level == "0":
                    yield time, before
                level = bits
            for port in named.get(code, []):
                values[port] = bits

    def steps(self, length, ports):
        """For each step of so many time units its time and the values of the ports at its end: each sample of waves without a clock."""
        named, values, time = self.named(ports), dict.fromkeys(ports, "x"), None
        for now, code, bits in self.changes():
            for port in named.get(code, []):
                values[port] = bits
            if code is None:
                for at in range(now if time is None else time, now, length):
                    yield at, dict(values)
                if time is not None and (now - time) % length:
                    raise Problem(f"{self.path} time {now}: no step of {length} behind time {time}; say --each-step with the step of these waves")
                time = now
        if time is not None:
            yield time, values
