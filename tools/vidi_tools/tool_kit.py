"""What the tools beside this file share: errors of one line, maps, waves, the lines of a run, traces, and the other programs."""
import argparse
import json
import os
import re
import shutil
import subprocess
import sys
import tempfile

HERE = os.path.dirname(os.path.dirname(os.path.abspath(__file__)))  # the folder tools/
PROGRAM = "vidi-tools"  # the program whose command runs
EXAMPLES = os.path.join(HERE, "..", "examples")
PACKAGES = {"yosys": "yosys", "iverilog": "iverilog", "vvp": "iverilog", "verilator": "verilator"}
WARNING = re.compile(r"^(?:(/.*?):(\d+): )?Warning: (.*)$", re.M)


class Problem(Exception):
    """What is wrong with the input, and where: one line."""


def ended(main):
    """Runs a tool; where its input is wrong it prints the one line and ends with status 1."""
    try:
        main()
        sys.stdout.flush()
    except Problem as problem:
        sys.exit(f"{os.path.basename(sys.argv[0])}: {problem}")
    except BrokenPipeError:  # who reads the lines has seen enough
        os.dup2(os.open(os.devnull, os.O_WRONLY), sys.stdout.fileno())


def text_of(path):
    """The text of a file."""
    try:
        with open(path, encoding="utf-8", errors="replace") as file:
            return file.read()
    except OSError as error:
        raise Problem(f"{path}: {error.strerror}") from error


def examples(folder=EXAMPLES):
    """The names of the examples in a folder, in order."""
    return sorted(entry.name for entry in os.scandir(folder) if entry.is_dir())


def has_resets(name):
    """Whether the script of an example asks for resets in mid-run."""
    return any(line.split()[:2] == ["reset", "at"] for line in text_of(os.path.join(EXAMPLES, name, "script")).splitlines())


def write(path, content):
    """Writes a text or bytes to a file in one go."""
    try:
        with open(path, "wb") as file:
            file.write(content if isinstance(content, bytes) else content.encode())
    except OSError as error:
        raise Problem(f"{path}: {error.strerror}") from error


def keep(made, is_check, tool):
    """Writes the files of `made`, a text for each path, and says which of them were another text; or compares them alone: the first that is
    another text is a Problem that names the tool. Gives how many there are."""
    for path, text in made.items():
        name = os.path.relpath(path, os.path.join(HERE, ".."))
        if os.path.exists(path) and text_of(path) == text:
            continue
        if is_check:
            raise Problem(f"{name} isn't what this tool makes: run {tool}")
        write(path, text)
        print(f"{name}: written anew")
    return len(made)


def need(program):
    """Says so where a program isn't installed."""
    if not shutil.which(program):
        raise Problem(f"{program} isn't installed: apt-get install {PACKAGES[program]}")


def vidi_program():
    """The path of the program vidi: $VIDI, which --vidi sets, or that of `rt run`; None where there is none."""
    built = os.path.join(HERE, "..", "crates", "vidi", "out", "vidi")
    path = os.environ.get("VIDI") or built
    if os.access(path, os.X_OK) and os.path.isfile(path):
        return os.path.abspath(path)
    if path != built:
        raise Problem(f"no program vidi at {path}: build one with vidi-tools build OUT")
    return None


def wanted_program():
    """The path of the program vidi."""
    program = vidi_program()
    if program is None:
        raise Problem(f"no program vidi: build one with vidi-tools build OUT, and say {PROGRAM} --vidi OUT or set VIDI")
    return program


def vidi(*words):
    """What vidi prints for these words, and its status."""
    done = subprocess.run([wanted_program(), *words], capture_output=True, text=True)
    return done.stdout, done.returncode


def number(word):
    """The number of a word of a map or a script, or None."""
    if re.fullmatch(r"[0-9]+", word):
        return int(word)
    return int(word, 16) if re.fullmatch(r"0x[0-9A-Fa-f]+", word) else None


class Channel:
    """A line `in` or `out` of a map."""

    def __init__(self, is_inward, words):
        self.is_inward = is_inward
        self.name, self.valid, self.ready, *self.ports = words


class Map:
    """The lines of a map. Its form is checked; what its ports are is left to the tool that has the design or the waves."""

    def __init__(self, path):
        self.path, self.top, self.clock, self.reset = path, None, None, None
        self.channels, self.ties, self.ignored = [], {}, []
        for line, text in enumerate(text_of(path).split("\n"), 1):
            words = text.split("#")[0].split()
            if words and not self.takes(*words):
                raise Problem(f"{path} line {line}: no line of a map: {' '.join(words)}")
        if not self.top or not self.clock or not self.channels:
            raise Problem(f"{path}: a map has a line top, a line clock and at least one channel")

    def takes(self, form, *words):
        """Takes a line, and says whether it has a form of docs/FILES.md."""
        if form in ("in", "out") and len(words) >= 3:
            self.channels.append(Channel(form == "in", words))
        elif form == "tie" and len(words) == 2 and number(words[1]) is not None:
            self.ties[words[0]] = number(words[1])
        elif form == "reset" and len(words) == 3 and words[1] in ("0", "1") and number(words[2]):
            self.reset = (words[0], int(words[1]), number(words[2]))
        elif form == "ignore" and len(words) == 1:
            self.ignored.append(words[0])
        elif form in ("top", "clock") and len(words) == 1:
            setattr(self, form, words[0])
        else:
            return False
        return True

    def outputs(self):
        """The outputs of the design that belong to channels."""
        return [port for channel in self.channels for port in
                ([channel.ready] if channel.is_inward else [channel.valid, *channel.ports])]


def yosys(commands, folder):
    """Runs Yosys on a list of commands. Its first error is a Problem."""
    need("yosys")
    script = os.path.join(folder, "commands.ys")
    write(script, "\n".join(commands) + "\n")
    done = subprocess.run(["yosys", "-q", "-s", script], capture_output=True, text=True)
    if done.returncode:
        errors = [line for line in (done.stdout + done.stderr).splitlines() if "ERROR" in line]
        error = (errors[0] if errors else "failed").replace("ERROR: ", "").replace("`\\", "`")
        raise Problem("Yosys: " + re.sub(r"^(/.*?):(\d+): ", lambda at: f"{os.path.relpath(at[1])} line {at[2]}: ", error))
    return done.stdout + done.stderr


def warnings_of(said):
    """The warnings in what Yosys said, each once, in order: (place or nothing, words)."""
    found = ((f"{os.path.relpath(path)} line {line}: " if path else "", words.replace("`\\", "`").replace("\\", ""))
             for path, line, words in WARNING.findall(said))
    return list(dict.fromkeys(found))


def quoted(path):
    """A path as a word of a Yosys command."""
    if '"' in path or "\n" in path:
        raise Problem(f"{path}: a name that Yosys can't read")
    return f'"{os.path.abspath(path)}"'


def reading(top, files, defines=(), params=(), is_sv=False, memories="-nomem2reg"):
    """The commands with which Yosys reads the files and makes `top` of them."""
    flags = "".join(f" -D{define}" for define in defines) + (" -sv" if is_sv else "")
    values = "".join(f" -chparam {name} {value}" for name, value in params)
    reads = [f"read_verilog {memories}{flags} {quoted(path)}" for path in files]
    return reads + [f"hierarchy -check -top {top}{values}", "rename -top " + top, "proc -norom", "flatten", "tribuf", "memory_collect"]


def read(commands_of, folder):
    """Runs Yosys on the commands that `commands_of` gives for a way to read memories: as they are, or, where they are wires or are written
    in blocks without a clock, as registers and wires."""
    try:
        return yosys(commands_of("-nomem2reg"), folder)
    except Problem as problem:
        if "memory" not in str(problem):
            raise
        return yosys(commands_of(""), folder)


def ports_of(module):
    """The ports of a module that Yosys wrote as JSON: name, direction and width, in order."""
    return [(name, port["direction"], len(port["bits"])) for name, port in module["ports"].items()]


def elaborated(top, files, defines=(), params=(), is_sv=False):
    """The flat module `top` of these files, as Yosys writes it in JSON."""
    for path in files:
        text_of(path)
    with tempfile.TemporaryDirectory() as folder:
        out = os.path.join(folder, "top.json")
        read(lambda memories: reading(top, files, defines, params, is_sv, memories) + [f'write_json "{out}"'], folder)
        return json.loads(text_of(out))["modules"][top]


def events_of(text, where):
    """The lines of a run, a dump or a bench: the events (time, kind, channel, numbers), those of kind gap and reset without a channel, the widths of
    the channels if they are said, how many cycles or packets there were, and the line that ends a run early, if there is one."""
    events, widths, length, ending = [], {}, None, None
    for line, words in enumerate((text.split() for text in text.split("\n")), 1):
        if not words or words[0] in ("recorded", "VCD", "-") or words[0].startswith("#"):  # what a simulator says beside a bench's lines
            continue
        if words[0] == "channel" and len(words) >= 4:
            widths[words[3]] = (words[2], [int(word) for word in words[4:]])
        elif len(words) >= 3 and words[0].isdigit() and words[1] in ("start", "end"):
            content = words[3:words.index("clock")] if "clock" in words else words[3:]
            events.append((int(words[0]), words[1], words[2], [int(word) for word in content]))
        elif words[0].isdigit() and (words[1:] == ["reset"] or words[1:2] == ["gap"] and len(words) == 3 and words[2].isdigit()):
            events.append((int(words[0]), words[1], "", [int(word) for word in words[2:]]))
        elif words[0] in ("cycles", "packets") and len(words) == 2 and words[1].isdigit():
            length = int(words[1])
        elif words[0] == "vidi:":
            ending = " ".join(words)
            length = int(words[-1]) if words[1:2] == ["unstable"] and length is None else length
        else:
            raise Problem(f"{where} line {line}: no line of vidi run or vidi dump: {' '.join(words)[:60]}")
    if length is None:
        raise Problem(f"{where}: {ending or 'no last line `cycles N` or `packets N`'}")
    return events, widths, length, ending


class Transaction:
    """A transaction of a channel: where it started and ended (None while it is in flight), its content, and the reset that took it back, or None."""

    def __init__(self, start, content):
        self.start, self.end, self.content, self.reset = start, None, content, None

    def last(self, length):
        """The last of so many cycles or packets in which it is: where it ends, or before it is taken back."""
        return self.end if self.end is not None else (length if self.reset is None else self.reset) - 1


def lines_of_row(cycle, started, ended):
    """The lines of `vidi run` of a row: its starts with contents by name, and the names of those that end."""
    return [" ".join(map(str, (cycle, "start", name, *content))) for name, content in started.items()] + [f"{cycle} end {name}" for name in ended]


def transactions_of(events):
    """For each channel its transactions, in order."""
    found = {}
    for time, kind, name, content in events:
        if kind == "start":
            found.setdefault(name, []).append(Transaction(time, content))
        elif kind == "reset":
            for one in (ones[-1] for ones in found.values() if ones[-1].end is None and ones[-1].reset is None):
                one.reset = time
        elif kind == "end" and name in found:
            found[name][-1].end = time
        elif kind == "end":
            raise Problem(f"{name} ends at {time} and hasn't started")
    return found


def epochs_of(events):
    """The events of a trace in parts, between one reset and the next."""
    parts = [[]]
    for event in events:
        if event[1] == "reset":
            parts.append([])
        else:
            parts[-1].append(event)
    return parts


def name_and_value(word):
    """The two sides of NAME=VALUE."""
    name, equals, value = word.partition("=")
    if not equals or not name:
        raise argparse.ArgumentTypeError(f"{word} isn't NAME=VALUE")
    return name, value


def add_verbose(parser):
    """The word that has a tool say what it is at, as it does on a terminal."""
    parser.add_argument("-v", "--verbose", action="store_true", default=sys.stderr.isatty(), help="say on standard error what it is at")


def at_work(options, line):
    """Says what a tool is at, where that is wanted."""
    if options.verbose:
        print(f"{os.path.basename(sys.argv[0])}: {line} ..", file=sys.stderr, flush=True)


def parse_options(parser):
    """The words of the command; a usage error ends with status 1 as every other one."""
    name = parser.prog

    def error(message):
        sys.exit(f"{name}: {message}; see {PROGRAM} {name} --help")
    parser.error, parser.prog = error, f"{PROGRAM} {name}"
    return parser.parse_args()
