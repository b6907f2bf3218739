"""Plays the cases of the tools: each line that a tool must print was made by hand, or by Icarus on a design as it was found.

    gate check tools [--verilator] [--only NAME]

Without Yosys, Icarus or Verilator the cases that want them are skipped, with a line that says how many. With --verilator, which .ci/run doesn't
give, benches of all examples are played in Verilator; that takes minutes. --only plays the checks whose name has NAME in it.
"""
import argparse
import os
import random
import re
import shutil
import subprocess
import sys
import tempfile

from gate_parts import check_bursts
from gate_parts import check_field
from gate_parts import check_gate
from gate_parts import check_moves
from gate_parts import check_replays
from gate_parts import check_said
from gate_parts import check_stores
from vidi_tools import left_out
from vidi_tools import tool_kit

TOOLS = tool_kit.HERE
EXAMPLES = os.path.join(TOOLS, "..", "examples")
CASES = os.path.join(TOOLS, "cases")
PROGRAMS = ("vidi-tools", "gate", "make")
FOUND = ["arbiter", "axi_ram", "axi_regs", "cpu", "crc32", "credit", "fifo", "frames", "width"]
# Texts that can't be lowered: the name of the top, the text, and what lower says.
REFUSED = [
    ("two", "module two(input a, input b, output reg x, output reg y);\nalways @(posedge a) x <= !x;\nalways @(posedge b) y <= !y;\n"
     "endmodule\n",
     "lower: two.v line 2: a second clock a beside b; record each side by itself"),
    ("latch", "module latch(input s, input d, output reg y);\nalways @* if (s) y = d;\nendmodule\n",
     "lower: latch.v line 2: a latch; drive the net in each branch, or clock it"),
    ("rom", "module rom(input clk, input [1:0] at, output reg [7:0] q);\nreg [7:0] m [0:3];\ninitial m[1] = 2;\n"
     "always @(posedge clk) q <= m[at];\nendmodule\n",
     "lower: rom.v line 2: memory m has contents at the start; write them by a channel, or make a case of them"),
    ("bus", "module bus(input a, inout pin, output b);\nassign b = a & pin;\nendmodule\n",
     "lower: port pin is inout; make an input, an output and an enable of it"),
    ("shared", "module shared(input on, output pin);\nassign pin = on ? 1'b1 : 1'bz;\nendmodule\n",
     "lower: shared.v line 2: a tri-state driver"),
    ("fall", "module fall(input clk, output reg x);\nalways @(negedge clk) x <= !x;\nendmodule\n",
     "lower: fall.v line 2: negedge of the clock; one clock that rises is lowered"),
    ("gated", "module gated(input clk, input en, output reg x);\nwire tick = clk & en;\nalways @(posedge tick) x <= !x;\nendmodule\n",
     "lower: gated.v line 3: a clock that isn't an input of the top; write it as an enable: if (en)"),
    ("bad", "module bad(input clk, output x);\nassign x = ;\nendmodule\n", "lower: Yosys: bad.v line 2: syntax error, unexpected ';'"),
    ("round", "module round(input s, output x);\nwire y = x ^ s;\nassign x = y;\nendmodule\n",
     re.compile(r"lower: lowered, but vidi: refused design: E10 loop lines .*")),
    ("wide", "module wide(input [199:0] a, output b);\nassign b = ^a;\nendmodule\n",
     "lower: port a has 200 bits, 128 are the most: split it in a wrapper"),
]


class Checker:
    """Counts the cases, and keeps what was wrong."""

    def __init__(self, vidi, is_long=False):
        self.is_long = is_long
        self.vidi, self.played, self.skipped, self.wrong = vidi, 0, {}, []
        self.folder = tempfile.mkdtemp()

    def run(self, *words, given=""):
        """What a tool or vidi prints, and its status."""
        if words[0] == "vidi":
            words = [self.vidi, *words[1:]]
        else:
            words = [os.path.join(TOOLS, word) for word in (words[:1] if words[0] in PROGRAMS else ("vidi-tools",))] + list(words[words[0] in PROGRAMS:])
        environment = {**os.environ, "VIDI": self.vidi}
        done = subprocess.run(words, cwd=self.folder, capture_output=True, text=True, input=given, env=environment)
        return done.stdout + done.stderr, done.returncode

    def case(self, name, said, expected):
        """A case: what was said is what is expected, a value or a pattern."""
        self.played += 1
        is_right = bool(expected.fullmatch(said)) if isinstance(expected, re.Pattern) else said == expected
        if not is_right:
            self.wrong.append(f"{name}: expected {getattr(expected, 'pattern', expected)!r}, got {said!r}")

    def refused(self, name, words, line, out=None):
        """A case in which a tool ends with status 1 and one line, and writes nothing."""
        said, status = self.run(*words)
        self.case(name, status, 1)
        self.case(name, said.removesuffix("\n"), line)
        if out:
            self.case(name + " writes nothing", os.path.exists(os.path.join(self.folder, out)), False)

    def has(self, name, *programs):
        """Whether the programs are installed; else the cases of this name are skipped."""
        missing = [program for program in programs if not shutil.which(program)]
        if missing:
            self.skipped[name] = missing
        return not missing

    def write(self, name, text):
        """Writes a file of the case."""
        tool_kit.write(os.path.join(self.folder, name), text)


def example(name, file):
    """The path of an example's file."""
    return os.path.abspath(os.path.join(EXAMPLES, name, file))


def check_left_out(checker):
    """The comments of the case's text say what is found in each line, and each form of the table stands there."""
    text, expected = tool_kit.text_of(os.path.join(CASES, "left_out.v")), []
    for line, code in enumerate(text.splitlines(), 1):
        expected += sorted((line, form) for form in code.partition(" // ")[2].split("; ") if form)
    said, status = checker.run("left-out", os.path.join(CASES, "left_out.v"))
    found = [(int(one[1]), one[2]) for one in re.finditer(r"line (\d+): (.*?): (?![^`]*`(?:[^`]*`[^`]*`)*[^`]*$).*", said)]
    checker.case("left-out", (found, status), (expected, 4))
    forms = {form for _, form in expected} | left_out.BY_CHECK | {"primitives", "a byte-order mark"}
    checker.case("left-out and the table of docs/LANGUAGE.md", forms ^ set(left_out.advice()), set())
    checker.write("marked.v", "\ufeffmodule m(input a, output b);\nassign b = a;\nendmodule\n")
    checker.case("left-out of a byte-order mark", checker.run("left-out", "marked.v"),
                 ("marked.v line 1: a byte-order mark: plain text from the first byte on\n", 4))
    for name in ["pass", "skid", "axi_lite"] + FOUND:
        checker.case(f"left-out of {name}", checker.run("left-out", example(name, "design.v")), ("", 0))
    checker.refused("left-out of no file", ["left-out", "none.v"], "left-out: none.v: No such file or directory")


def check_lower(checker):
    """What can't be lowered is refused with its place; the gallery's designs, lowered anew, run as Icarus has them run as found."""
    checker.refused("lower without files", ["lower", "top"], re.compile("lower: the following arguments are required.*"))
    if not checker.has("lower", "yosys"):
        return
    for top, text, line in REFUSED:
        checker.write(f"{top}.v", text)
        checker.refused(f"lower {top}", ["lower", f"{top}.v", top, "out.v"], line, "out.v")
    checker.refused("lower of no module", ["lower", "two.v", "none", "out.v"], re.compile("lower: Yosys: Module .none. not found!"), "out.v")
    checker.refused("lower of no file", ["lower", "none.v", "none", "out.v"], "lower: none.v: No such file or directory", "out.v")
    for name in FOUND:
        said, status = checker.run("lower", example(name, "found.v"), name, f"{name}.v")
        checker.case(f"lower {name}", (status, said.startswith("modules 1 items ")), (0, True))
        said = checker.run("vidi", "run", f"{name}.v", example(name, "map"), example(name, "script"))
        checker.case(f"{name}, lowered anew", said, (tool_kit.text_of(example(name, "run.out")), 0))
        check_bug(checker, name)


def check_words(checker):
    """Macros, parameters, several files, includes and SystemVerilog: what they change stands in the lowered text."""
    if not checker.has("lower of several files", "yosys"):
        return
    checker.write("width.vh", "`define KIND reg\n")
    checker.write("one.v", '`include "width.vh"\nmodule one #(parameter W = 8) (input clk, input [W-1:0] d, output [W-1:0] q);\n'
                  "two #(W) u (clk, d, q);\nendmodule\n")
    checker.write("two.v", "module two #(parameter W = 1) (input clk, input [W-1:0] d, output reg [W-1:0] q);\nalways @(posedge clk)\n"
                  "`ifdef TURNED\n  q <= ~d;\n`else\n  q <= d;\n`endif\nendmodule\n")
    said = checker.run("lower", "-D", "TURNED", "--param", "W=5", "one.v", "two.v", "one", "out.v")
    checker.case("lower with words", said[1], 0)
    text = tool_kit.text_of(os.path.join(checker.folder, "out.v"))
    checker.case("lower with a parameter", "input [4:0] d" in text, True)
    checker.case("lower with a macro", "~ d" in text, True)
    os.remove(os.path.join(checker.folder, "out.v"))
    checker.write("new.sv", "module new_style(input logic clk, input logic d, output logic q);\nalways_ff @(posedge clk) q <= d;\nendmodule\n")
    checker.case("lower --sv", checker.run("lower", "--sv", "new.sv", "new_style", "new.v"),
                 ("modules 1 items 1\ninstances 1 nets 3 drivers 0 blocks 1 words 0\n", 0))
    checker.write("none.map", tool_kit.text_of(example("fifo", "map")).replace("in_data", "in_word"))
    checker.refused("lower by another's map", ["lower", "--prove-same", "none.map", example("fifo", "found.v"), "fifo", "out.v"],
                    "lower: none.map: fifo has no port in_word; it has clk, rst_n, in_valid, in_ready, in_data, out_valid, out_ready, out_data",
                    "out.v")


def check_bug(checker, name):
    """Vidi says of the planted bug what bug.out has."""
    from gate_parts import found_rows
    checker.write("buggy_found.v", found_rows.edited(tool_kit.text_of(example(name, "found.v")), example(name, "bug.edit")))
    checker.run("lower", "buggy_found.v", name, "buggy.v")
    files = [example(name, "map"), example(name, "script")]
    said, status = checker.run("vidi", "run", "buggy.v", *files)
    if status == 0:
        checker.write("free", "capacity 65536\n")
        checker.run("vidi", "record", example(name, "design.v"), *files, "free", "good.trace")
        checker.run("vidi", "record", "buggy.v", *files, "free", "bad.trace")
        said, status = checker.run("vidi", "compare", "good.trace", "bad.trace")
    else:
        said = said.splitlines(keepends=True)[-1]
    checker.case(f"the bug of {name}", said, tool_kit.text_of(example(name, "bug.out")))


SAME = re.compile(r"same 2 scripts of 150 cycles, [1-9]\d* transfers, by Icarus and Vidi")


def check_same(checker):
    """Random scripts: lowered designs are the same in Icarus and Vidi, a broken one isn't."""
    if not checker.has("lower --prove-same", "yosys", "iverilog"):
        return
    for name in FOUND + ["signs", "fir", "lanes"]:
        found = example(name, "found.v") if name in FOUND else os.path.join(CASES, f"{name}.v")
        plan = example(name, "map") if name in FOUND else os.path.join(CASES, f"{name}.map")
        said, _ = checker.run("lower", "--scripts", "2", "--cycles", "150", "--prove-same", plan, found, name, "same.v")
        said = "\n".join(line for line in said.splitlines() if not line.startswith("lower: Yosys warns: "))
        checker.case(f"same transfers of {name}", said.splitlines()[-1:],
                     [line for line in said.splitlines() if SAME.fullmatch(line)] or ["same"])
    checker.write("turned.map", tool_kit.text_of(example("axi_ram", "map")).replace("aresetn 0", "aresetn 1"))
    words = ["--scripts", "1", "--cycles", "50", "--prove-same", "turned.map", example("axi_ram", "found.v"), "axi_ram", "none.v"]
    checker.refused("same transfers where there are none", ["lower", *words], "lower: no transfer in any script: is the map's reset right?", "none.v")
    from vidi_tools import icarus_rows
    from vidi_tools import same_transfers
    plan, folder = icarus_rows.Map(example("fifo", "map")), checker.folder
    script = same_transfers.some_script(random.Random(1), plan, {"in": [8], "out": [8]}, 50)
    text = tool_kit.text_of(example("fifo", "found.v"))
    checker.write("other.v", text.replace("= mem[", "= ~mem["))
    runs = [same_transfers.icarus_run([path], plan, script) for path in (example("fifo", "found.v"), os.path.join(folder, "other.v"))]
    checker.case("another FIFO isn't the same", runs[0] == runs[1], False)


NAMES = [  # the ports of a module, and the channels of its map
    ("input clk_i, input rst_ni, input in_valid_i, output in_ready_o, input [7:0] in_data_i, output out_valid_o, input out_ready_i, "
     "output [7:0] out_data_o", ["in in in_valid_i in_ready_o in_data_i", "out out out_valid_o out_ready_i out_data_o"]),
    ("input i_clk, input i_rst_n, input i_valid, output o_ready, input i_data, output o_valid, input i_ready, output o_data",
     ["in i i_valid o_ready i_data", "out o o_valid i_ready o_data"]),
    ("input clock, input valid, output ready, input data, input last, output [3:0] level",
     ["in in valid ready data last  # guessed: all ports of this side"]),
    ("input clk, input s_vld, output s_rdy, input s_x, output m_v, input m_r, output [3:0] m_x",
     ["in s s_vld s_rdy s_x", "out m m_v m_r m_x"])]


def check_map(checker):
    """The gallery's maps, which were read through by hand, and a reset whose name lies."""
    if not checker.has("map", "yosys"):
        return
    for name in FOUND + ["pass", "skid", "axi_lite"]:
        path = example(name, "found.v" if name in FOUND else "design.v")
        said, _ = checker.run("map", path, name)
        plain = "".join(re.sub(r" *#.*", "", line) + "\n" for line in said.splitlines() if not line.startswith("#"))
        checker.case(f"map of {name}", plain, tool_kit.text_of(example(name, "map")))
    for at, (ports, channels) in enumerate(NAMES):
        outputs = re.findall(r"output (?:\[[^]]*\] )?(\w+)", ports)
        checker.write("names.v", f"module names({ports});\n" + "".join(f"assign {name} = 0;\n" for name in outputs) + "endmodule\n")
        said, _ = checker.run("map", "names.v", "names")
        checker.case(f"map of names {at}", [line for line in said.splitlines() if line.split()[0] in ("in", "out")], channels)
    found = example("fifo", "found.v")
    checker.run("lower", found, "fifo", "low.v")
    checker.run("map", "-o", "map", "--script", "script", "--stalls", "stalls", found, "fifo")
    checker.case("three commands to a recording", checker.run("vidi", "record", "low.v", "map", "script", "stalls", "trace"),
                 ("recorded 100 cycles 4 packets\n", 0))
    checker.refused("map without its top", ["map", found, "none"], re.compile("map: Yosys: Module .none. not found!"))
    if checker.has("map's first cycles", "iverilog"):
        text = tool_kit.text_of(example("fifo", "found.v")).replace("rst_n", "rst").replace("assign in_ready =", "assign in_ready = rst &&")
        checker.write("lying.v", text)
        said, _ = checker.run("map", "lying.v", "fifo")
        checker.case("map of a reset whose name lies", [said.splitlines()[at] for at in (2, 5)],
                     ["reset rst 0 2  # guessed by its name: active at 0",
                      "# warning: rst is named as active at 1, but then in is never ready: turned to 0"])


def check_capture(checker):
    """Waves made by hand, with their script, their trace, and what is wrong in others."""
    shutil.copy(os.path.join(CASES, "two_words.vcd"), checker.folder)
    shutil.copy(os.path.join(CASES, "two_words.map"), checker.folder)
    waves, plan = tool_kit.text_of(os.path.join(CASES, "two_words.vcd")), tool_kit.text_of(os.path.join(CASES, "two_words.map"))
    said = checker.run("capture", "two_words.vcd", "bench.dut", "two_words.map")
    checker.case("capture", said, (tool_kit.text_of(os.path.join(CASES, "two_words.script")), 0))
    checker.run("capture", "two_words.vcd", "bench.dut", "two_words.map", "--trace", "out.trace")
    with open(os.path.join(checker.folder, "out.trace"), "rb") as file:
        checker.case("capture --trace", file.read().hex(), tool_kit.text_of(os.path.join(CASES, "two_words.hex")).strip())
    os.remove(os.path.join(checker.folder, "out.trace"))
    for name, old, new, line in (
            ("an x", "\n1a\n", "\nxa\n", "capture: bad.vcd time 25: a_v is x outside reset"),
            ("a lost port", "$var wire 1 b a_r $end\n", "",
             "capture: bad.vcd: scope bench.dut has no a_r; dump the ports of the design there, or mend the map"),
            ("a reset again", "#40\n", "#40\n1r\n",
             "capture: bad.vcd time 45: rst is active again; cut the waves before it with --cycles 3, or begin behind it with --from 2"),
            ("single bits", "$var wire 8 c a_d [7:0] $end", "$var wire 1 c a_d [0] $end\n$var wire 1 g a_d [1] $end",
             "capture: bad.vcd: a_d is dumped bit by bit; dump it as a vector"),
            ("no VCD", "$enddefinitions", "$end", "capture: bad.vcd: no VCD: no $enddefinitions")):
        checker.write("bad.vcd", waves.replace(old, new))
        checker.refused(f"capture of {name}", ["capture", "bad.vcd", "bench.dut", "two_words.map", "-o", "out"], line, "out")
    checker.refused("capture of no scope", ["capture", "two_words.vcd", "bench.top", "two_words.map"],
                    "capture: two_words.vcd: no scope bench.top; it has bench, bench.dut")
    checker.write("bad.map", plan.replace("in a", "inward a"))
    checker.refused("capture by a bad map", ["capture", "two_words.vcd", "bench.dut", "bad.map"],
                    "capture: bad.map line 4: no line of a map: inward a a_v a_r a_d")
    checker.write("again.vcd", waves.replace("#40\n", "#40\n1r\n").replace("#46\n0a\n", "#46\n0r\n"))
    said = checker.run("capture", "again.vcd", "bench.dut", "two_words.map", "--resets", "--trace", "out.trace")
    checker.case("capture of a reset that comes again", said, (
        "capture: resets that come again, 1 of them, are packets of the trace: in Vidi such a reset brings all state back, memories too\n", 0))
    with open(os.path.join(checker.folder, "out.trace"), "rb") as file:  # a 5, then 6 beside the 5 at b, the reset, and the 6 again
        checker.case("its trace", file.read().hex(), "564944495452433202000161010801016201080100010101050100000300060502000001000001010600000000" + "04")
    checker.refused("capture --resets of a script", ["capture", "again.vcd", "bench.dut", "two_words.map", "--resets", "-o", "out"],
                    "capture: --resets is for a trace: a script's sends go on over a reset, and those of a bench may not; say --trace OUT, and no -o", "out")
    checker.write("taken.vcd", waves.replace("#40\n0!\n", "#40\n0!\n0d\n"))
    said, status = checker.run("capture", "taken.vcd", "bench.dut", "two_words.map")
    note = "capture: b changes its valid b_v before it is taken, at cycle 3 time 45; the capture ends there"
    checker.case("capture of a valid taken back", (said.splitlines()[0], note in said.splitlines(), status), ("cycles 4", True, 0))


def check_capture_range(checker):
    """Cycles before the reset are left out, with a note where a valid is 1 there; --cycles has its range."""
    waves = tool_kit.text_of(os.path.join(CASES, "two_words.vcd"))
    shutil.copy(os.path.join(CASES, "two_words.map"), checker.folder)
    checker.write("two_words.vcd", waves)
    early = "#0\n0!\n0r\n1a\n1b\nb1 c\n#1\n1!\n#2\n0!\n#3\n1!\n#4\n0!\n1r\n"
    for name, valid, note in (("a valid", "1a", "capture: cycles before the reset, 2 of them, are left out\n"), ("no valid", "0a", "")):
        checker.write("early.vcd", waves.replace("#0\n0!\n1r\n", early.replace("1a", valid)))
        said = checker.run("capture", "early.vcd", "bench.dut", "two_words.map")
        lines = tool_kit.text_of(os.path.join(CASES, "two_words.script")).replace("capture: ", note + "capture: ", 1)
        checker.case(f"capture of {name} before the reset", said, (lines, 0))
    for cycles in ("-1", "0", "50001"):
        checker.refused(f"capture of {cycles} cycles", ["capture", "two_words.vcd", "bench.dut", "two_words.map", "-o", "out", "--cycles", cycles],
                        f"capture: --cycles is {cycles}, not 1 to 50000", "out")


def check_benches(checker):
    """Benches with $random in Icarus print their transfers; the captured scripts make Vidi print the same, and the traces hold them."""
    if not checker.has("capture of benches", "iverilog"):
        return
    for name in ("fifo", "cpu"):
        sources = [example(name, "bench.v"), example(name, "found.v")]
        subprocess.run(["iverilog", "-o", "bench.vvp", *sources], cwd=checker.folder, check=True)
        printed = subprocess.run(["vvp", "-n", "bench.vvp"], cwd=checker.folder, capture_output=True, text=True, check=True).stdout
        transfers = sorted(line for line in printed.splitlines() if re.match(r"\d+ [a-z]+( \d+)?$", line))
        checker.case(f"the bench of {name} has transfers", len(transfers) > 100, True)
        checker.run("capture", "bench.vcd", "bench.dut", example(name, "map"), "-o", "captured")
        said, status = checker.run("vidi", "run", example(name, "design.v"), example(name, "map"), "captured")
        checker.case(f"the transfers of the bench of {name}", (status, sorted(transfers_of(said))), (0, transfers))
        checker.run("capture", "bench.vcd", "bench.dut", example(name, "map"), "--trace", "bench.trace")
        said, _ = checker.run("vidi", "dump", "bench.trace")
        checker.case(f"the trace of the bench of {name}", sorted(line.split(" ", 1)[1] for line in transfers_of(said)),
                     sorted(line.split(" ", 1)[1] for line in transfers))


def transfers_of(text):
    """The transfers of a run's or a dump's lines, as a bench prints them."""
    found = tool_kit.transactions_of(tool_kit.events_of(text, "the run")[0])
    ended = [(one.end, name, *one.content) for name, ones in found.items() for one in ones if one.end is not None]
    return [" ".join(map(str, words)) for words in ended]


TIMELINE = "  0\na |<>...\nb .|.|..\n"
LISTED = """a 0 from 0 to 0 content 0x5
a 1 from 1 to 2 content 0x6
b 0 from 1 to 1 content 0x5
b 1 from 3 to 3 content 0x6
"""


def check_show(checker):
    """The picture of examples/pass, drawn by hand, and its waves, read back."""
    run = example("pass", "run.out")
    checker.case("show", checker.run("show", run), (TIMELINE, 0))
    checker.case("show --hex", checker.run("show", "--hex", run), (TIMELINE + LISTED, 0))
    checker.case("show of a range", checker.run("show", "--from", "1", "--to", "3", run), ("  1\na <>.\nb |.|\n", 0))
    hung = "0 start a 1\nvidi: unstable a cycle 3\n"
    checker.case("show of an unstable run", checker.run("show", given=hung), ("  0\na <--\nvidi: unstable a cycle 3\n", 0))
    folded = "0 start a 1\n11 end a\ncycles 12\n"
    checker.case("show in blocks", checker.run("show", "--width", "12", given=folded), ("  0\na <---------\n  10\na ->\n", 0))
    checker.run("show", example("pass", "record.out"), "--vcd", "out.vcd")
    text = tool_kit.text_of(os.path.join(checker.folder, "out.vcd"))
    checker.case("show --vcd", text, tool_kit.text_of(os.path.join(CASES, "pass.vcd")))
    checker.case("show's save file", tool_kit.text_of(os.path.join(checker.folder, "out.gtkw")),
                 '[dumpfile] "out.vcd"\n[timestart] 0\n@28\na.valid\n@28\na.fires\n@22\na.content0[7:0]\n'
                 "@28\nb.valid\n@28\nb.fires\n@22\nb.content0[7:0]\n")
    checker.write("bad", "0 begin a\n")
    checker.refused("show of another text", ["show", "bad", "--vcd", "x.vcd"],
                    "show: bad line 1: no line of vidi run or vidi dump: 0 begin a", "x.vcd")


def check_explain(checker):
    """A changed byte of a recorded trace, and an unstable run."""
    files = [example("pass", name) for name in ("design.v", "map", "script")]
    checker.write("free", "capacity 100\n")
    checker.run("vidi", "record", *files, "free", "a.trace")
    with open(os.path.join(checker.folder, "a.trace"), "rb") as file:
        whole = file.read()
    tool_kit.write(os.path.join(checker.folder, "b.trace"), whole.replace(b"\1\0\0\2\2\6", b"\1\0\0\2\2\4"))
    said, status = checker.run("explain", "a.trace", "b.trace")
    checker.case("explain", (said, status), (tool_kit.text_of(os.path.join(CASES, "explain.out")), 7))
    checker.case("explain of nothing", checker.run("explain", "a.trace", "a.trace"), ("no divergence\n", 0))
    checker.refused("explain of one trace", ["explain", "a.trace"], "explain: wants two traces A B")
    checker.refused("explain of no trace", ["explain", "a.trace", "free"], "explain: free: vidi: refused trace: bad trace at 0")
    if checker.has("explain --run", "iverilog"):
        checker.write("flick.v", "module flick(input clk, output reg b_v, input b_r, output reg [3:0] b_d);\n"
                      "always @(posedge clk) begin b_v <= 1'b1; b_d <= b_d + 4'd1; end\nendmodule\n")
        checker.write("map", "top flick\nclock clk\nout b b_v b_r b_d\n")
        checker.write("script", "cycles 6\n")
        said, status = checker.run("explain", "--run", "flick.v", "map", "script")
        checker.case("explain --run", (said, status), (
            "vidi: unstable b cycle 2: b showed b_v in cycle 1, b_r was 0, so nothing of it may change in cycle 2\n"
            "  b_d goes from 1 (0x1) to 2 (0x2)\n  b 0: cycles 1 to -, 1 (0x1)\n", 5))


def check_build(checker):
    """The refusals; the build itself takes minutes, and is tried by hand."""
    checker.refused("build of a proved name", ["build", "vidi"],
                    "build: vidi: the name has to say what it is, as in vidi-unproved", "vidi")
    checker.refused("build without a folder", ["build", "none/vidi-unproved"], "build: none/vidi-unproved: no such folder")


def main():
    """Plays all cases."""
    parser = argparse.ArgumentParser(description=__doc__, formatter_class=argparse.RawDescriptionHelpFormatter)
    parser.add_argument("--verilator", action="store_true", help="play benches of all examples in Verilator")
    parser.add_argument("--only", default="", metavar="NAME", help="the checks whose name has this in it")
    options = tool_kit.parse_options(parser)
    checker = Checker(tool_kit.wanted_program(), options.verilator)
    checks = (check_left_out, check_lower, check_words, check_same, check_map, check_capture, check_capture_range, check_benches, check_show,
              check_explain, check_build, *check_bursts.CHECKS, *check_gate.CHECKS, *check_field.CHECKS, *check_moves.CHECKS,
              *check_replays.CHECKS, *check_said.CHECKS, *check_stores.CHECKS)
    try:
        for check in (check for check in checks if options.only in check.__name__):
            check(checker)
    finally:
        shutil.rmtree(checker.folder)
    print(*checker.wrong, sep="\n", end="\n" if checker.wrong else "")
    for name, missing in checker.skipped.items():
        print(f"skipped for want of {' and '.join(missing)}: {name}")
    print(f"{checker.played} cases of the tools played, {len(checker.wrong)} wrong, {len(checker.skipped)} kinds skipped")
    sys.exit(1 if checker.wrong or not checker.played else 0)
