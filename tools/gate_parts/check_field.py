"""Cases of the field kit, which `gate check tools` plays: what the tools say in the place of silence, and failures in other simulators. What they
expect was made by hand, or by Icarus and Verilator on designs as they were found."""
import gzip
import os
import re
import shutil
import subprocess

from vidi_tools import tool_kit
from vidi_tools import trace_kit

CASES = os.path.join(tool_kit.HERE, "cases")
# Texts in which a net is read and nothing drives it: the name of the top, the text, and what lower says.
UNDRIVEN = [
    ("typo", "module typo(input clk, input s_valid, output s_ready);\nreg full;\nassign s_ready = ~ful;\nalways @(posedge clk) full <= s_valid;\n"
     "endmodule\n", "lower: typo.v line 3: ful isn't declared, so it would be a wire of one bit; declare it, or mend the name"),
    ("bare", "module bare(input clk, input s_valid, output s_ready);\nwire full;\nassign s_ready = ~full;\nendmodule\n",
     "lower: bare.v line 2: full is read, and nothing drives it; drive it, or take it out"),
    ("half", "module half(input [1:0] a, output [3:0] b);\nwire [3:0] x;\nassign x[0] = a[0];\nassign x[3] = a[1];\nassign b = x ^ 4'd5;\n"
     "endmodule\n",
     "lower: half.v line 2: x[2:1] is read, and nothing drives it; drive it, or take it out"),
    ("open", "module open(input clk, output q);\nchild u(.clk(clk), .q(q));\nendmodule\n"
     "module child(input clk, input d, output reg q);\nalways @(posedge clk) q <= d;\nendmodule\n",
     "lower: open.v line 2: u.d is read, and nothing drives it; drive it, or take it out"),
    ("mute", "module mute(input a, output b, output c);\nassign b = a;\nendmodule\n",
     "lower: mute.v line 1: c is an output, and nothing drives it; drive it, or take it out")]


def check_undriven(checker):
    """A net that nothing drives is refused by name and line; a register that only has its first value isn't; warnings are printed."""
    if not checker.has("lower of undriven nets", "yosys"):
        return
    for top, text, line in UNDRIVEN:
        checker.write(f"{top}.v", text)
        checker.refused(f"lower of an undriven net, {top}", ["lower", f"{top}.v", top, "out.v"], line, "out.v")
    checker.write("one.v", "module one(input clk, input a, output b);\nreg on = 1'b1;\nassign b = a & on;\nendmodule\n")
    said, status = checker.run("lower", "one.v", "one", "one_low.v")
    checker.case("lower of a register that nothing writes", (said.splitlines()[0].split()[:2], status), (["modules", "1"], 0))
    checker.write("cut.v", "module cut(input [7:0] d, output [7:0] q);\nwire [8:0] s;\nassign s = d + 9'd1;\nchild u(.d(s), .q(q));\nendmodule\n"
                  "module child(input [7:0] d, output [7:0] q);\nassign q = d;\nendmodule\n")
    said, status = checker.run("lower", "cut.v", "cut", "cut_low.v")
    checker.case("lower prints Yosys's warnings", ("lower: Yosys warns: Resizing cell port cut.u.d from 9 bits to 8 bits.\n" in said, status),
                 (True, 0))
    said, status = checker.run("lower", "-v", "one.v", "one", "one_low.v")
    length = len(tool_kit.text_of(os.path.join(checker.folder, "one_low.v")).splitlines())
    checker.case("lower -v", ([line for line in said.splitlines() if line.startswith("lower: ")], status), (
        ["lower: Yosys reads one.v ..", "lower: Yosys lowers it ..", f"lower: vidi checks a text of {length} lines .."], 0))


def check_ranges(checker):
    """Vectors that are counted upwards, or not from 0: by hand, bit 1 of [1:4] is its highest, and 4'b1010 turned right is 4'b0101."""
    if not checker.has("lower of other ranges", "yosys"):
        return
    checker.write("up.v", "module up(input clk, input a_v, output a_r, input [1:4] a_d, input [8:5] a_e,\n"
                  "          output reg b_v, input b_r, output reg [1:4] b_d, output reg b_z);\nassign a_r = 1'b1;\n"
                  "always @(posedge clk) begin\n  b_v <= a_v;\n  b_d <= {a_d[4], a_d[1:3]} ^ a_e;\n  b_z <= a_d[1] & a_e[5];\nend\nendmodule\n")
    checker.write("up.map", "top up\nclock clk\nin a a_v a_r a_d a_e\nout b b_v b_r b_d b_z\n")
    checker.write("up.script", "cycles 4\na send 0xa 0x1\na send 0x3 0x8\nb take all\n")
    checker.run("lower", "up.v", "up", "up_low.v")
    said, _ = checker.run("vidi", "run", "up_low.v", "up.map", "up.script")
    checker.case("lower of other ranges", [line for line in said.splitlines() if "start b" in line], ["1 start b 4 1", "2 start b 1 0"])


def hand_waves(checker):
    """Copies the waves that were made by hand. Gives their text, their map's, and the script's with its notes."""
    texts = [tool_kit.text_of(os.path.join(CASES, f"two_words.{kind}")) for kind in ("vcd", "map", "script")]
    checker.write("two_words.vcd", texts[0])
    checker.write("two_words.map", texts[1])
    return texts


WORDS = ["capture", "two_words.vcd", "bench.dut", "two_words.map"]


def check_capture_notes(checker):
    """What a capture says of a reset that never acts, of one whose polarity is turned, and of several resets."""
    waves, plan, script = hand_waves(checker)
    checker.write("window.vcd", waves.replace("#0\n0!\n1r\n", "#0\n0!\n0r\n").replace("\nxa\nxb\n", "\n0a\n1b\n").replace("\nxd\nxe\n", "\n0d\n0e\n"))
    said = checker.run("capture", "window.vcd", "bench.dut", "two_words.map")[0].splitlines()
    checker.case("capture of a window", [line for line in said if "rst" in line],
                 ["capture: rst never acts in these waves: Vidi's run begins behind a reset, so it is another one"])
    checker.write("turned.map", plan.replace("reset rst 1", "reset rst 0"))
    checker.refused("capture of a turned reset", ["capture", "two_words.vcd", "bench.dut", "turned.map", "-o", "out"],
                    "capture: two_words.vcd: no rising edge of clk outside reset; with `reset rst 1` in the map there would be 5 cycles", "out")
    again = waves + "#56\n1r\n#60\n0!\n#65\n1!\n#66\n0r\n1a\nb111 c\n#70\n0!\n#75\n1!\n"
    checker.write("again.vcd", again)
    checker.refused("capture of two resets", ["capture", "again.vcd", "bench.dut", "two_words.map", "-o", "out"],
                    "capture: again.vcd time 65: rst is active again; cut the waves before it with --cycles 5, or begin behind it with --from 2",
                    "out")
    said = checker.run("capture", "again.vcd", "bench.dut", "two_words.map", "--from", "2")
    checker.case("capture from the second reset", said, (
        "cycles 1\na send 7\nb take all\ncapture: cycles before the reset, 5 of them, are left out\n", 0))
    checker.refused("capture from a third reset", ["capture", "again.vcd", "bench.dut", "two_words.map", "--from", "3", "-o", "out"],
                    "capture: again.vcd: no cycle behind a reset number 3; rst acts 2 times", "out")
    late = waves.replace("#0\n0!\n1r\n", "#0\n0!\n0r\n").replace("#10\n0!\n0r\n", "#10\n0!\n1r\n").replace("#20\n0!\n", "#20\n0!\n0r\n")
    checker.write("late.vcd", late)
    checker.refused("capture of a reset that is turned and begins late", ["capture", "late.vcd", "bench.dut", "turned.map", "-o", "out"],
                    "capture: late.vcd time 25: rst is active again; cut the waves before it with --cycles 1, or begin behind it with --from 2; with "
                    "`reset rst 1` in the map there would be 5 cycles", "out")
    checker.write("still.vcd", waves.partition("#5\n")[0])
    checker.write("free.map", plan.replace("reset rst 1 1\n", "tie rst 1\n"))
    checker.refused("capture of waves without an edge", ["capture", "still.vcd", "bench.dut", "free.map", "-o", "out"],
                    "capture: still.vcd: no rising edge of clk outside reset", "out")
    checker.refused("capture --cycles of a trace", [*WORDS, "--trace", "out", "--cycles", "0"], "capture: --cycles is 0, not 1 or more", "out")
    for word, value in (("--from", "0"), ("--each-step", "0")):
        checker.refused(f"capture {word} {value}", [*WORDS, "-o", "out", word, value], f"capture: {word} is {value}, not 1 or more", "out")


def check_capture_forms(checker):
    """The same waves packed, as an FST, from standard input, and as samples without a clock; both files at once; and more cycles than a script
    has, in a trace."""
    waves, plan, script = hand_waves(checker)
    with gzip.open(os.path.join(checker.folder, "two_words.vcd.gz"), "wt") as file:
        file.write(waves)
    checker.case("capture of gzip", checker.run("capture", "two_words.vcd.gz", *WORDS[2:]), (script, 0))
    with open(os.path.join(checker.folder, "two_words.vcd.gz"), "rb") as file:
        tool_kit.write(os.path.join(checker.folder, "cut.gz"), file.read()[:-12])
    checker.refused("capture of a cut gzip", ["capture", "cut.gz", *WORDS[2:], "-o", "out"],
                    "capture: cut.gz: Compressed file ended before the end-of-stream marker was reached", "out")
    checker.case("capture of standard input", checker.run("capture", "-", *WORDS[2:], given=waves), (script, 0))
    checker.case("capture of both", checker.run(*WORDS, "-o", "both", "--trace", "both.trace")[1], 0)
    checker.case("capture of both, the script", tool_kit.text_of(os.path.join(checker.folder, "both")), script.partition("capture:")[0])
    with open(os.path.join(checker.folder, "both.trace"), "rb") as file:
        checker.case("capture of both, the trace", file.read().hex(), tool_kit.text_of(os.path.join(CASES, "two_words.hex")).strip())
    checker.write("no.fst", "\0\0\0\0\0\0\0\1\111")
    if not shutil.which("fst2vcd"):
        checker.refused("capture of an FST", ["capture", "no.fst", *WORDS[2:]],
                        "capture: no.fst: an FST wants fst2vcd, which isn't installed: apt-get install gtkwave")
    if checker.has("capture of an FST", "vcd2fst", "fst2vcd"):
        subprocess.run(["vcd2fst", "two_words.vcd", "two_words.fst"], cwd=checker.folder, capture_output=True, check=True)
        checker.case("capture of an FST", checker.run("capture", "two_words.fst", *WORDS[2:]), (script, 0))
        checker.refused("capture of no FST", ["capture", "no.fst", *WORDS[2:]], "capture: no.fst: no VCD: no $enddefinitions")
    samples = tool_kit.text_of(os.path.join(CASES, "samples.vcd"))
    checker.write("samples.vcd", samples)
    checker.case("capture --each-step", checker.run("capture", "samples.vcd", "ila", "two_words.map", "--each-step"),
                 (script.replace("capture: b", "capture: no rst in these waves: Vidi's run begins behind a reset, so it is another one\n"
                                 "capture: b"), 0))
    checker.write("odd.vcd", samples.replace("#4", "#5"))
    checker.refused("capture of odd steps", ["capture", "odd.vcd", "ila", "two_words.map", "--each-step", "2", "-o", "out"],
                    "capture: odd.vcd time 1: no step of 2 behind time 0; say --each-step with the step of these waves", "out")


def check_capture_length(checker):
    """Waves of 50,002 cycles, in each of which a word passes: no script, but a trace."""
    head = "$scope module top $end\n$var wire 1 c clk $end\n$var wire 1 v v $end\n$var wire 1 r r $end\n$upscope $end\n$enddefinitions $end\n"
    checker.write("long.vcd", head + "#0\n0c\n1v\n1r\n" + "".join(f"#{10 * at + 5}\n1c\n#{10 * at + 10}\n0c\n" for at in range(50002)))
    checker.write("long.map", "top t\nclock clk\nin a v r\n")
    words = ["capture", "long.vcd", "top", "long.map"]
    checker.refused("capture of 50,002 cycles", [*words, "-o", "out"],
                    "capture: long.vcd has more than 50000 cycles, the most of a script: capture a part with --cycles, begin at a later reset with "
                    "--from, or make a trace with --trace, which has no limit", "out")
    checker.run(*words, "--trace", "long.trace")
    with open(os.path.join(checker.folder, "long.trace"), "rb") as file:
        # A header of 13 bytes, packets of a one, a gap of 0 and two masks, the end mark with their number
        checker.case("capture --trace of 50,002 cycles", file.read().hex(),
                     "564944495452433201" + "00" + "0161" + "00" + "0100000101" * 50002 + "00" + "0000c352")
    check_capture_pauses(checker, head)


def check_capture_pauses(checker, head):
    """Waves in which a word passes in cycle 2, in cycle 65,538 behind the longest gap, and in cycle 131,075 behind one that is longer."""
    levels = {2: "1v\n", 3: "0v\n", 65538: "1v\n", 65539: "0v\n", 131075: "1v\n", 131076: "0v\n"}
    steps = (f"#{10 * at + 5}\n1c\n#{10 * at + 10}\n0c\n{levels.get(at + 1, '')}" for at in range(131077))
    checker.write("rare.vcd", head + "#0\n0c\n0v\n1r\n" + "".join(steps))
    said, status = checker.run("capture", "rare.vcd", "top", "long.map", "--trace", "rare.trace")
    checker.case("capture of a long pause", (said, status),
                 ("capture: nothing in 65536 cycles before packet 2; the trace has 65535 of them, the most\n", 0))
    with open(os.path.join(checker.folder, "rare.trace"), "rb") as file:
        checker.case("capture --trace of a long pause", file.read().hex(),
                     "564944495452433201" + "00" + "0161" + "00" + "0100020101" + "01ffff0101" * 2 + "00" + "00000003")


def check_capture_run(checker):
    """--check plays the script: it is the same on the stage that the waves are of, and parts where a stage adds one, or where the waves lose
    a word, as those made by hand do."""
    waves, *_ = hand_waves(checker)
    checker.write("stage.vcd", waves.replace("#46\n0a\n0d\n", "#46\n0a\nb110 f\n"))
    checker.write("stage.v", "module stage(input clk, input rst, input a_v, output a_r, input [7:0] a_d, output b_v, input b_r, output [7:0] b_d);\n"
                  "reg full;\nreg [7:0] word;\nassign a_r = ~full | b_r, b_v = full, b_d = word;\n"
                  "always @(posedge clk) begin\n  if (rst) full <= 1'b0;\n  else if (a_r) full <= a_v;\n  if (a_r) word <= a_d;\nend\nendmodule\n")
    said = checker.run("capture", "stage.vcd", *WORDS[2:], "-o", "seen", "--check", "stage.v")
    checker.case("capture --check", (said[0].splitlines()[0], said[1]), ("same 5 cycles, 4 transfers, in the waves and by vidi run", 0))
    said = checker.run(*WORDS, "-o", "seen", "--check", "stage.v")
    checker.case("capture --check of a lost word", (said[0].splitlines()[0], said[1]),
                 ("parts from the waves in cycle 4 time 55: waves: nothing; vidi run: 4 start b 6, 4 end b", 7))
    text = tool_kit.text_of(os.path.join(checker.folder, "stage.v"))
    checker.write("adds.v", text.replace("word <= a_d", "word <= a_d + 8'd1"))
    said = checker.run(*WORDS, "-o", "seen", "--check", "adds.v")
    checker.case("capture --check of another", (said[0].splitlines()[0], said[1]),
                 ("parts from the waves in cycle 2 time 35: waves: 2 start a 6, 2 start b 5; vidi run: 2 start a 6, 2 start b 6", 7))
    checker.refused("capture --check of no script", [*WORDS, "--check", "stage.v"],
                    "capture: --check plays the script that is written: say -o OUT too")
    said = checker.run(*WORDS, "-o", "seen", "--check", "two_words.map")
    checker.case("capture --check of no design", (said[0].splitlines()[-1], said[1]),
                 ("capture: seen is written; vidi run of it on two_words.map: vidi: refused design: E2 item line 1", 1))


CRC = """module crc(input clk, input rst, input s_valid, output s_ready, input [7:0] octet,
  output reg crc_valid, input crc_ready, output reg [7:0] crc, output [3:0] level, input [1:0] mode);
assign s_ready = !rst & (!crc_valid | crc_ready), level = {3'd0, crc_valid};
always @(posedge clk)
  if (rst) crc_valid <= 0;
  else begin
    if (s_valid & s_ready) crc <= crc ^ octet ^ mode;
    crc_valid <= s_valid & s_ready | crc_valid & !crc_ready;
  end
endmodule
"""
CRC_MAP = """top crc
clock clk  # the clock of the registers
reset rst 1 2  # guessed by its name: active at 1
in s s_valid s_ready octet mode  # guessed: all ports of this side
out crc crc_valid crc_ready crc
ignore level  # no channel has it
# warning: level has 4 bits and is ignored: is it the content of a channel?
"""
SKELETON = """top bus
clock clk  # the clock of the registers
reset rst_n 0 2  # guessed by its name: active at 0
# no channel was found; looked for, in either case, one bit each, of two directions: *tvalid/*tready, *valid/*ready, *vld/*rdy, *val/*rdy, *valid/*rdy, *v/*r
# in NAME VALID READY CONTENT ..   a channel into the design: it takes VALID and gives READY
# out NAME VALID READY CONTENT ..  a channel out of the design; a port of a channel has no line tie or ignore
tie stb 0  # no channel has it: what should it be?
tie adr 0  # no channel has it: what should it be?
ignore ack  # no channel has it
# warning: adr has 8 bits and is tied to 0: is it the content of a channel?
# warning: no valid with its ready found: name the channels, or put a wrapper round a bus of another kind
"""


def check_map_more(checker):
    """Contents that are called as the stem, and what is left of a side; a skeleton; a warning on standard error; a map's polarity."""
    if not checker.has("map of what is left", "yosys", "iverilog"):
        return
    checker.write("crc.v", CRC)
    checker.case("map of a content that is the stem", checker.run("map", "crc.v", "crc"), (CRC_MAP, 0))
    checker.case("map -o warns", checker.run("map", "-o", "crc.map", "crc.v", "crc"),
                 ("map: warning: level has 4 bits and is ignored: is it the content of a channel?\n", 0))
    checker.write("bus.v", "module bus(input clk, input rst_n, input stb, input [7:0] adr, output reg ack);\n"
                  "always @(posedge clk) ack <= stb & rst_n & adr == 3;\nendmodule\n")
    checker.case("map of no channel", checker.run("map", "bus.v", "bus"), (SKELETON, 0))
    checker.refused("map of no channel's script", ["map", "-o", "bus.map", "--script", "bus.script", "bus.v", "bus"],
                    "map: no channel found, so there is no first script", "bus.map")
    checker.case("map --check", checker.run("map", "--check", "crc.map", "crc.v", "crc"),
                 ("crc.map: each inward channel is ready within 100 cycles\n", 0))
    checker.write("turned.map", CRC_MAP.replace("reset rst 1", "reset rst 0"))
    checker.case("map --check of a turned reset", checker.run("map", "--check", "turned.map", "crc.v", "crc"),
                 ("turned.map: with `reset rst 0` s isn't ready in 100 cycles, with `reset rst 1` it is: turn it\n", 1))
    checker.refused("map --check of another top", ["map", "--check", "crc.map", "bus.v", "bus"],
                    "map: crc.map: its top is crc, not bus")
    checker.write("dead.v", CRC.replace("!rst & (", "1'b0 & ("))
    checker.case("map --check of a ready that never rises", checker.run("map", "--check", "crc.map", "dead.v", "crc"),
                 ("crc.map: s isn't ready in 100 cycles with zeros sent: is the reset right, is a tie?\n", 1))


# Two traces of a channel in (8 bits) and one out (8 bits), made by hand: packets as (starts, ends).
SIDE_A = [({"a": [1]}, ["a"]), ({"b": [9]}, []), ({"a": [2]}, ["a", "b"]), ({"b": [7]}, ["b"]), ({"a": [3]}, ["a"])]
SIDE_B = [({"a": [1], "b": [9]}, ["a"]), ({}, ["b"]), ({"a": [2]}, ["a"]), ({"b": [6]}, ["b"]), ({"a": [4]}, ["a"])]


def check_explain_order(checker):
    """The first place in time stands first, then the others by channel, and what only comes early at the end."""
    table = [trace_kit.Table("a", True, [8]), trace_kit.Table("b", False, [8])]
    for name, packets in (("side_a", SIDE_A), ("side_b", SIDE_B)):
        tool_kit.write(os.path.join(checker.folder, name), trace_kit.encoded(table, trace_kit.packets_of(packets)))
    said, status = checker.run("explain", "side_a", "side_b")
    checker.case("explain in time", (said, status), (tool_kit.text_of(os.path.join(CASES, "explain_time.out")), 7))
    said, status = checker.run("explain", "--most", "1", "side_a", "side_b")
    checker.case("explain of the first alone", (said.splitlines()[:2], said.splitlines()[-2:], status),
                 (["first in time, in packet 3:", "differs b start 1: start 1 of b (the first is 0): the contents differ"],
                  ["and 2 more; --most says how many are explained", "diverged"], 7))


# What `explain` says of two traces that part in epoch 1, and that OTHER has a reset more, by hand.
EPOCHS = """first in time, in packet 2:
differs a start 0: start 0 of a in epoch 1 (the first is 0): the contents differ
  content 0: A 2 (0x2), B 4 (0x4), bits that differ: 1 2
  > a 0: A packets 2 to 2, 2 (0x2); B packets 2 to 2, 4 (0x4)
then, by channel:
extra reset 1: reset 1 (the first is 0): A hasn't it
diverged
"""


def check_epochs(checker):
    """Traces with resets: where they part, and how a dump of one is drawn, in which a reset takes back what waits."""
    table, reset = [trace_kit.Table("a", True, [8]), trace_kit.Table("b", False, [8])], trace_kit.Packet({}, [], 3, True)
    for name, second, last in (("side_a", 2, []), ("side_b", 4, [reset])):
        packets = [trace_kit.Packet({"a": [1]}, ["a"]), reset, trace_kit.Packet({"a": [second]}, ["a"]), trace_kit.Packet({"b": [9]}, ["b"], 2)]
        tool_kit.write(os.path.join(checker.folder, name), trace_kit.encoded(table, packets + last))
    checker.case("explain of epochs", checker.run("explain", "side_a", "side_b"), (EPOCHS, 7))
    dump = ("channel 0 in a 8\nchannel 1 out b 8\n0 gap 2\n0 start a 5 clock 0 0\n1 start b 1 clock 0 0\n1 end b clock 0 0\n2 gap 7\n2 reset\n"
            "3 start a 6 clock 0 0\n3 end a clock 0 0\npackets 4\n")
    checker.case("show of a reset", checker.run("show", given=dump), ("  0\na <-R|\nb .|R.\n", 0))


CHECKS = (check_undriven, check_ranges, check_capture_notes, check_capture_forms, check_capture_length, check_capture_run, check_map_more,
          check_explain_order, check_epochs)
