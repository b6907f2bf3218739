"""The one list of commands: those of vidi and those of vidi-tools, of which --help, the man page, completion and `say` are made."""


class Command:
    """A command: its name, the words behind it, what it does, and the module that does it (None where it is one of vidi's own)."""

    def __init__(self, name, words, what, module=None):
        self.name, self.words, self.what, self.module = name, words, what, module


# Names of files in small letters are read, and named so in a refusal; OUT and TRACE of `record` are written.
VIDI = [Command(*one) for one in (
    ("check", "design TOP", "counts a design's parts, or refuses it with a reason"),
    ("run", "design map script", "plays it and prints each start, content and end"),
    ("record", "design map script stalls OUT", "does so behind the store, and writes the trace"),
    ("replay", "design map trace CYCLES OUT", "plays a trace again, and says where the design parts from it"),
    ("dump", "trace", "lists channels, events, contents, vector clocks"),
    ("compare", "trace other", "says where OTHER parts from TRACE"),
    ("salvage", "trace OUT", "writes what is whole of a broken trace"),
    ("migrate", "trace OUT", "writes an old trace in today's bytes"),
    ("bursts", "trace axi", "groups a trace's transactions into the bursts of AXI4"),
    ("move", "trace CH J SIDE CH K OUT", "writes a trace with one completion right before, or after, another one"),
    ("wrap", "design map OUT", "writes the design with monitors and replayers round it, as Verilog"),
    ("sample", "NUMBER", "records and replays a design made of a number"))]

TOOLS = [Command(*one) for one in (
    ("build", "OUT", "builds vidi in minutes, unproved", "build"),
    ("lower", "FILES.. TOP OUT.v", "makes a text of the subset of ordinary Verilog", "lower"),
    ("left-out", "FILES..", "lists all places of a text that the subset leaves out", "left_out"),
    ("map", "FILES.. TOP", "makes a first map of port names, and a script and a plan with it", "map"),
    ("capture", "WAVES SCOPE MAP", "makes a script or a trace of waves", "capture"),
    ("show", "[LINES]", "draws a run or a dump, or makes waves of it", "show"),
    ("explain", "A B", "says where two traces part, or why a run is unstable", "explain"),
    ("say", "COMMAND WORDS..", "runs vidi with these words, and says more of a refusal", "say"),
    ("again", "DESIGN MAP [TRACE]", "says by its status whether a failure is there", "again"),
    ("shrink", "DESIGN MAP SCRIPT", "finds a small script that still shows a failure", "shrink"),
    ("bench", "[TRACE] MAP", "makes a bench that plays a trace on your source in your simulator", "bench"),
    ("store", "MAP", "makes a recorder for your bench or your FPGA", "store"),
    ("trace", "TEXT OUT", "makes a trace of what a bench or a store wrote", "trace"))]

STATUS = [  # what vidi ends with, in short: docs/FILES.md, "What the commands print"
    (0, "the command did what it does"), (1, "the words are no command"), (2, "a file isn't there, or a read of it failed"),
    (3, "a write failed"), (4, "a file is refused, with its reason"), (5, "the design takes back what it showed"),
    (6, "the cycles of a replay didn't suffice"), (7, "two traces differ, or a trace and its replay"), (8, "no memory was found")]


def has(name):
    """Whether vidi has this command."""
    return any(one.name == name for one in VIDI)


def listed(commands, program):
    """A line for each command: how it is called, and what it does."""
    calls = [f"{program} {one.name} {one.words if one.module else one.words.upper()}" for one in commands]
    width = max(map(len, calls))
    return "\n".join(f"  {call:{width}}  {one.what}" for call, one in zip(calls, commands))
