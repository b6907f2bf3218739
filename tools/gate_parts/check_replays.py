"""Cases of the tools that have a failure come again, which `gate check tools` plays: those of `vidi-tools bench` in Icarus and Verilator against Vidi, and
designs with planted bugs."""
import os
import re
import shutil
import subprocess
import tempfile

from vidi_tools import icarus_rows
from make_kinds import random_design
from make_kinds import wide
from vidi_tools import same_transfers
from vidi_tools import tool_kit
from vidi_tools import trace_kit

CASES = os.path.join(tool_kit.HERE, "cases")
EXAMPLES = os.path.abspath(tool_kit.EXAMPLES)
# Registers that no reset sets: they begin at 0 in Vidi, and at x in Icarus.
WITHOUT_RESET = {"pass": ["full"]}
QUICK = "OPT_FAST=-O0 OPT_SLOW=-O0 OPT_GLOBAL=-O0"
# Traces of examples/pass, made by hand: a header, and packets of 01, a gap, two masks and contents.
PASS_HEADER = "5649444954524332" + "02" + "0001610108" + "0101620108"
PASS_GAPS = PASS_HEADER + "010007010105" + "010000020005" + "0100020002" + "0000000003"
PASS_TWO = PASS_HEADER + "010000010105" + "01000003020605" + "0100000001" + "010000020206" + "0000000004"


def bytes_of(checker, name):
    """The bytes of a file of the case."""
    with open(os.path.join(checker.folder, name), "rb") as file:
        return file.read()


def zeros(name):
    """The words that set an example's registers without a reset."""
    return [word for register in WITHOUT_RESET.get(name, []) for word in ("--zero", register)]


def in_icarus(checker, bench, *files):
    """What a bench prints in Icarus."""
    for standard in ("-g2005", "-g2012"):
        words = ["iverilog", standard, "-s", "vidi_bench", "-o", "bench.vvp", bench, *files]
        done = subprocess.run(words, cwd=checker.folder, capture_output=True, text=True)
        if done.returncode == 0:
            return subprocess.run(["vvp", "-n", "bench.vvp"], cwd=checker.folder, capture_output=True, text=True).stdout
    return done.stderr


def built_by_verilator(checker, top, flags, *files):
    """Builds the program run of a top in its folder, where what Verilator brings itself is compiled once. Gives what it said where it failed."""
    words = ["verilator", "--binary", "--timing", "--trace", "-Wno-fatal", "-Wno-lint", *flags, "--top-module", top, "-MAKEFLAGS", QUICK,
             "--Mdir", f"{top}_built", "-o", "run", *files]
    done = subprocess.run(words, cwd=checker.folder, capture_output=True, text=True)
    return done.stderr if done.returncode else None


def in_verilator(checker, bench, *files):
    """What a bench prints in Verilator."""
    failed = built_by_verilator(checker, "vidi_bench", ["--default-language", "1364-2005"], bench, *files)
    return failed or subprocess.run(["vidi_bench_built/run"], cwd=checker.folder, capture_output=True, text=True).stdout


def played(checker, play, words, *files):
    """What a bench prints, without what the simulator says, and the bytes of its trace."""
    for name in ("bench.hex", "bench.trace"):
        if os.path.exists(os.path.join(checker.folder, name)):
            os.remove(os.path.join(checker.folder, name))
    said, status = checker.run("bench", *words, "-o", "bench.v")
    if status:
        return said, b""
    said = play(checker, "bench.v", *files)
    checker.run("trace", "bench.hex", "bench.trace")
    trace = bytes_of(checker, "bench.trace") if os.path.exists(os.path.join(checker.folder, "bench.trace")) else b""
    return re.sub(r"^(VCD info|- ).*\n", "", said, flags=re.M), trace


def files_of(name):
    """The design of an example as it was found, its text of the subset, and its map, script and plan or None."""
    path = os.path.join(EXAMPLES, name)
    names = [os.path.join(path, file) for file in ("found.v", "design.v", "map", "script", "stalls")]
    return [file if os.path.exists(file) else None for file in names]


def by_clocks(checker, play, name, files, trace):
    """By clocks a bench prints and writes what `vidi replay` writes, and ends in its cycle."""
    found, design, plan, *_ = files
    said, status = checker.run("vidi", "replay", design, plan, trace, "400", "again.trace")
    lines, written = played(checker, play, [trace, plan, "--by", "clocks", "--cycles", "400", *zeros(name)], found or design)
    checker.case(f"bench of {name} by clocks", written, bytes_of(checker, "again.trace"))
    plain = "".join(line + "\n" for line in lines.splitlines() if not line.startswith(("#", "vidi:")))
    checker.case(f"bench of {name} by clocks, its lines", plain, checker.run("vidi", "dump", "again.trace")[0])
    cycles = re.match(r"replayed (\d+) cycles", said)
    if cycles:
        checker.case(f"bench of {name} by clocks, its end", lines.splitlines()[-1], f"# all of the trace came, in {cycles[1]} cycles")
    if status == 6:
        checker.case(f"bench of {name} by clocks, its end", lines.splitlines()[-1], "# short after 400 cycles")


def by_packets(checker, play, name, files, trace):
    """By packets a design that heeds a ready with its valid alone shows the recorded trace, at most in other packets."""
    found, design, plan, *_ = files
    lines, _ = played(checker, play, [trace, plan, "--by", "packets", *zeros(name)], found or design)
    checker.case(f"bench of {name} by packets", checker.run("vidi", "compare", trace, "bench.trace"), ("no divergence\n", 0))
    checker.case(f"bench of {name} by packets, its end", lines.splitlines()[-1][:24], "# all of the trace came,")


def by_script(checker, play, name, files):
    """A script by cycles shows the recording with a store in which no gate goes down."""
    found, design, plan, script, _ = files
    checker.run("vidi", "record", design, plan, script, "free", "whole.trace")
    words = ["--script", script, plan, "--files", found or design, *zeros(name)]
    checker.case(f"bench of {name} of its script", played(checker, play, words, found or design)[1], bytes_of(checker, "whole.trace"))


def widths_of(design, plan, folder):
    """The widths of each channel's contents, by Icarus."""
    source = icarus_rows.Design(design, plan, folder)
    source.close()
    return source.widths


def recorded(files, stalls):
    """The bytes of a recording, by Icarus and the definition of its gates."""
    _, design, plan, script, _ = files
    plan = icarus_rows.Map(plan)
    with tempfile.TemporaryDirectory() as folder:
        source = icarus_rows.Design(design, plan, folder)
        rows, _, _ = icarus_rows.play(plan, source, icarus_rows.lines(script), icarus_rows.Room(source.widths, stalls))
        source.close()
    trace = icarus_rows.trace_of(plan, source.widths, rows)
    return trace_kit.encoded(trace.channels, trace.packets)


def by_cycles(checker, play, name, files, stalls):
    """By cycles a recording behind a store comes again as it was, byte for byte with its gaps."""
    found, design, plan, *_ = files
    whole = recorded(files, stalls)
    checker.case(f"the recording of {name} by the definition of its gates", bytes_of(checker, "trace").hex(), whole.hex())
    said, written = played(checker, play, ["trace", plan, "--by", "cycles", *zeros(name)], found or design)
    checker.case(f"bench of {name} by cycles", (written.hex(), said.splitlines()[-1][:24]), (whole.hex(), "# all of the trace came,"))


def all_ways(checker, play, name):
    """An example by clocks, by packets, by its script and by cycles."""
    files = files_of(name)
    _, design, plan, script, stalls = files
    checker.write("free", "capacity 65536\n")
    checker.write("narrow", "capacity 80\ndrain 2 3\ndrain 0 2\n")
    stalls = stalls or os.path.join(checker.folder, "narrow")
    checker.run("vidi", "record", design, plan, script, stalls, "trace")
    by_clocks(checker, play, name, files, "trace")
    by_packets(checker, play, name, files, "trace")
    by_script(checker, play, name, files)
    by_cycles(checker, play, name, files, stalls)


# A bench plays no reset in mid-run.
PLAYED = [name for name in tool_kit.examples() if not tool_kit.has_resets(name)]


def check_benches(checker):
    """Each example by all ways in Icarus, on the design as it was found, against Vidi and the definition of a recording."""
    if checker.has("bench in Icarus", "iverilog"):
        for name in PLAYED:
            all_ways(checker, in_icarus, name)


def check_in_verilator(checker):
    """One example by all ways in Verilator, and all of them where --verilator is said: each bench takes it seconds to build. The script of axi_lite
    writes out of range, where Verilator 5.006 writes another word."""
    if checker.has("bench in Verilator", "verilator", "g++", "make", "iverilog"):
        for name in [name for name in PLAYED if name != "axi_lite"] if checker.is_long else ["fifo"]:
            all_ways(checker, in_verilator, name)


def check_gaps(checker):
    """Traces with gaps that were made by hand come again byte for byte on the design that they are of."""
    if not checker.has("traces with gaps in Icarus", "iverilog"):
        return
    files = files_of("pass")
    for name, digits in (("gaps", PASS_GAPS), ("two sends", PASS_TWO)):
        tool_kit.write(os.path.join(checker.folder, "two.trace"), bytes.fromhex(digits))
        said, written = played(checker, in_icarus, ["two.trace", files[2], "--by", "cycles", *zeros("pass")], files[1])
        checker.case(f"a trace with gaps, {name}", written.hex(), digits)
    checker.case("the cycles of packets", trace_kit.read(bytes.fromhex(PASS_GAPS)).cycles(), [7, 8, 11])


def check_replayers(checker):
    """The replayers of a bench are those that `vidi wrap` writes, token by token."""
    for name in PLAYED:
        found, design, plan, script, _ = files_of(name)
        checker.write("free", "capacity 65536\n")
        checker.run("vidi", "record", design, plan, script, "free", "trace")
        checker.run("vidi", "wrap", design, plan, "wrapped.v")
        checker.run("bench", "trace", plan, "-o", "bench.v")
        texts = [tool_kit.text_of(os.path.join(checker.folder, file)) for file in ("wrapped.v", "bench.v")]
        modules = [[re.findall(r"[\w']+|[^\w\s]", text) for text in re.findall(r"^module vidi_q_.*?^endmodule", text, re.M | re.S)] for text in texts]
        checker.case(f"the replayers of {name}", (modules[1], len(modules[1]) > 0), (modules[0], True))


def check_random(checker):
    """Random designs with up to 26 channels and contents of up to 128 bits, and stages with 40 channels, by clocks in Icarus, which starts all state
    at 0."""
    if not checker.has("benches of random designs", "iverilog"):
        return
    made = [(f"random design {seed}", random_design.made(seed, count)) for seed, count in ((9, 9), (26, 26), *((seed, None) for seed in range(1, 7)))]
    stages = {"design.v": wide.design(20), "map": wide.channels(20), "script": wide.script(20, 12), "stalls": "capacity 2000\ndrain 90 1\n"}
    for name, texts in [*made, ("40 channels", stages)]:
        for file, text in texts.items():
            checker.write(file, text)
        checker.write("zero.v", "`define FOUND_MEMORY logic\n" + same_transfers.from_zero(texts["design.v"]))
        _, status = checker.run("vidi", "record", "design.v", "map", "script", "stalls", "trace")
        checker.case(f"the recording of {name}", status in (0, 5), True)
        by_clocks(checker, in_icarus, name, ["zero.v", "design.v", "map"], "trace")


WORDS = [  # the words of bench, and what it says
    (["old.trace", "pass.map", "-o", "b.v"], "old.trace: old trace: it begins with VIDITRC1, of version 1"),
    (["pass.trace", "other.map", "-o", "b.v"], "pass.trace: other channels: the map has in c with 1 contents, the trace in a with 1 contents"),
    (["reset.trace", "pass.map", "-o", "b.v"], "reset.trace: reset in packet 1, and a bench plays none"),
    (["pass.map", "pass.map", "-o", "b.v"], "pass.map: no trace: it doesn't begin with VIDITRC2"),
    (["cut.trace", "pass.map", "-o", "b.v"], "cut.trace: the trace ends early"),
    (["pass.map", "-o", "b.v"], "wants a trace or --script SCRIPT"),
    (["--script", "pass.script", "pass.map", "-o", "b.v"],
     "a script doesn't say how wide the ports are: name the design's files with --files"),
    (["--script", "pass.script", "pass.map", "-o", "b.v", "--by", "clocks"], "a script is played by cycles, not by clocks"),
    (["--script", "wide.script", "pass.map", "-o", "b.v", "--files", "pass.v"], "wide.script: a sends 256, and a_d has 8 bits"),
    (["--script", "bad.script", "pass.map", "-o", "b.v", "--files", "pass.v"], "bad.script line 2: no step of a: a take 1"),
    (["--script", "reset.script", "pass.map", "-o", "b.v", "--files", "pass.v"], "reset.script line 2: a reset in mid-run, and a bench plays none"),
    (["--script", "reset.script", "pass.map", "-o", "b.v", "--files", "pass.v"], "reset.script line 2: a reset in mid-run, and a bench plays none"),
    (["--script", "none.script", "pass.map", "-o", "b.v", "--files", "pass.v"], "none.script line 2: no line of a script of this map: c send 1"),
    (["pass.trace", "pass.map", "-o", "b.txt"], "b.txt: the name of a bench ends in .v and has letters, digits, _, -, + and . alone"),
    (["--script", "pass.script", "pass.map", "-o", "b.v", "--files", "none.v"], "none.v: No such file or directory"),
    (["--script", "pass.script", "pass.map", "-o", "b.v", "--files", "other.v"], re.compile("bench: Icarus: .*pass.*")),
    (["pass.trace", "pass.map", "-o", "b.v", "--cycles", "0"], "--cycles is 0, not 1 or more")]


def check_bench_words(checker):
    """What bench refuses; and an x, which a bench says and ends at."""
    _, design, plan, script, stalls = files_of("pass")
    for name, path in (("pass.v", design), ("pass.map", plan), ("pass.script", script)):
        checker.write(name, tool_kit.text_of(path))
    checker.write("other.v", "module other(input clk);\nendmodule\n")
    checker.write("other.map", tool_kit.text_of(plan).replace("in a ", "in c "))
    for name, text in (("wide", "cycles 4\na send 256\n"), ("bad", "cycles 4\na take 1\n"), ("none", "cycles 4\nc send 1\n"), ("reset", "cycles 4\nreset at 1\n")):
        checker.write(f"{name}.script", text)
    checker.run("vidi", "record", design, plan, script, stalls, "pass.trace")
    whole = bytes_of(checker, "pass.trace")
    tool_kit.write(os.path.join(checker.folder, "cut.trace"), whole[:-7])
    tool_kit.write(os.path.join(checker.folder, "old.trace"), b"VIDITRC1" + whole[8:])
    tool_kit.write(os.path.join(checker.folder, "reset.trace"), bytes.fromhex(PASS_HEADER + "010000010105" + "020001" + "0000000002"))
    if checker.has("the words of bench", "iverilog"):
        for words, line in WORDS:
            wanted = line if isinstance(line, re.Pattern) else f"bench: {line}"
            checker.refused(f"bench {' '.join(words)}", ["bench", *words], wanted, "b.v")
        said, _ = played(checker, in_icarus, ["pass.trace", "pass.map"], "pass.v")
        checker.case("a bench of a register that nothing resets", said.splitlines()[2],
                     "# x at a_r in cycle 0, time 5: is its register reset? vidi-tools bench --zero sets it")


def check_bench_params(checker):
    """Parameters and macros of the design: the widths are those of the design as it is built, and the head of the bench says how."""
    if not checker.has("bench with parameters", "iverilog"):
        return
    checker.write("wires.sv", "module wires #(parameter W = 4) (input logic clk, input logic a_v, output logic a_r, input logic [W-1:0] a_d,\n"
                  "  output logic b_v, input logic b_r, output logic [`MORE+W-1:0] b_d, input logic [1:0] mode);\n"
                  "assign a_r = b_r, b_v = a_v, b_d = {a_d, mode};\nendmodule\n")
    checker.write("wires.map", "top wires\nclock clk\ntie mode 3\nin a a_v a_r a_d\nout b b_v b_r b_d\n")
    checker.write("wires.script", "cycles 3\na send 0xabc\nb wait 1\nb take all\n")
    words = ["--script", "wires.script", "wires.map", "--files", "wires.sv", "-D", "MORE=2", "--param", "W=12"]
    said, status = checker.run("bench", *words, "-o", "wide.v")
    head = tool_kit.text_of(os.path.join(checker.folder, "wide.v")).splitlines()[1:3]
    checker.case("the head of a bench", (said, status, head), ("", 0, [
        "//   in Icarus: iverilog -g2012 -DMORE=2 -s vidi_bench -o wide.vvp wide.v wires.sv && vvp -n wide.vvp",
        "//   in Verilator: verilator --binary --timing --trace -Wno-fatal -Wno-lint -DMORE=2 --top-module vidi_bench -o wide wide.v wires.sv && "
        "obj_dir/wide"]))
    done = subprocess.run(head[0].partition(": ")[2], shell=True, cwd=checker.folder, capture_output=True, text=True)
    checker.case("a bench with parameters", [line for line in done.stdout.splitlines() if not line.startswith("VCD")], [
        "channel 0 in a 12", "channel 1 out b 14", "0 start a 2748 clock 0 0", "0 start b 10995 clock 0 0", "1 end a clock 0 0", "1 end b clock 0 0",
        "packets 2", "# 3 cycles of the script"])


# Designs with a planted bug, which BUG brings in: whether a replay of the buggy design's trace on it shows it again, and on the good one.
PLANTED = {"sums": ("data", 0, 1), "slice": ("handshake", 0, 0), "merge": ("race", 2, 2)}


def run_bench(checker, simulator, flags, *sources):
    """What the module bench prints in a simulator, and where the instance dut stands in its waves."""
    if simulator == "icarus":
        subprocess.run(["iverilog", "-g2005", *flags, "-s", "bench", "-o", "bench.vvp", *sources], cwd=checker.folder, check=True)
        words, scope = ["vvp", "-n", "bench.vvp"], "bench.dut"
    else:
        built_by_verilator(checker, "bench", flags, *sources)
        words, scope = ["bench_built/run"], "TOP.bench.dut"
    return subprocess.run(words, cwd=checker.folder, capture_output=True, text=True, check=True).stdout, scope


def waves_of(checker, name, simulator, is_buggy=True):
    """What the bench of a planted design prints in a simulator; its waves are in bench.vcd. Gives the scope of the design too."""
    sources = [os.path.join(CASES, f"{name}_bench.v"), os.path.join(CASES, f"{name}.v")]
    flags = ["-DBUG"] * is_buggy
    said, scope = run_bench(checker, simulator, flags, *sources)
    return "".join(line + "\n" for line in said.splitlines() if re.match(r"\d+ \w+ \d+$", line)), scope


def lower_planted(checker, name):
    """The planted design with and without its bug, as texts of the subset, and its map."""
    for out, flags in (("bug.v", ["-D", "BUG"]), ("good.v", [])):
        checker.run("lower", *flags, os.path.join(CASES, f"{name}.v"), name, out)
    return os.path.join(CASES, f"{name}.map")


def bring_in(checker, name, simulator):
    """Captures the failure of a planted design from a simulator: Vidi's run has the transfers that the bench printed. Gives script and trace."""
    plan = lower_planted(checker, name)
    printed, scope = waves_of(checker, name, simulator)
    checker.case(f"{name} in {simulator} has transfers", len(printed.splitlines()) > 4, True)
    said, status = checker.run("capture", "bench.vcd", scope, plan, "-o", "seen", "--trace", "seen.trace", "--check", "bug.v")
    checker.case(f"capture of {name} from {simulator}", (said.splitlines()[0].split()[0], status), ("same", 0))
    lines = [line for line in checker.run("vidi", "run", "bug.v", plan, "seen")[0].splitlines() if not line.startswith(("cycles", "vidi:"))]
    found = tool_kit.transactions_of([(int(line.split()[0]), *line.split()[1:3], [int(word) for word in line.split()[3:]]) for line in lines])
    ends = [f"{one.end} {channel} {one.content[0]}" for channel, ones in found.items() for one in ones if one.end is not None]
    cycles = int(tool_kit.text_of(os.path.join(checker.folder, "seen")).split()[1])
    theirs = [line for line in printed.splitlines() if int(line.split()[0]) < cycles - (name == "slice")]
    checker.case(f"the transfers of {name} in {simulator}", sorted(ends), sorted(theirs))
    return plan, tool_kit.text_of(os.path.join(checker.folder, "seen")), bytes_of(checker, "seen.trace")


def statuses(checker, plan, *words):
    """What `again` answers of the design with its bug and without it."""
    return tuple(checker.run("again", text, plan, *words)[1] for text in ("bug.v", "good.v"))


def check_planted(checker):
    """Data, a handshake and a race that are wrong: brought in from Icarus and from Verilator, they come again by the commands that the table of
    docs/TOOLS.md names, and in Icarus on the design as it stands."""
    if not checker.has("planted bugs", "iverilog", "yosys"):
        return
    for name, (kind, bug, good) in PLANTED.items():
        plan, script, trace = bring_in(checker, name, "icarus")
        source, is_broken = os.path.join(CASES, f"{name}.v"), kind == "handshake"
        checker.case(f"again of {name} by its trace", statuses(checker, plan, "seen.trace"), (bug, good))
        checker.case(f"again of {name} by its script", statuses(checker, plan, "seen.trace", "--script", "seen"), (0, 0 if is_broken else 1))
        checker.case(f"again of {name} by a line", statuses(checker, plan, "--script", "seen", "--until", "unstable"), (1 - is_broken, 1))
        for way, words in (("packets", ["seen.trace", plan, "--by", "packets"]), ("cycles", ["seen.trace", plan, "--by", "cycles"]),
                           ("script", ["--script", "seen", plan, "--files", source])):
            checker.write("buggy.v", "`define BUG\n" + tool_kit.text_of(source))
            said, written = played(checker, in_icarus, words, "buggy.v")
            checker.case(f"{name} by {way} in Icarus", written.hex(), trace.hex()) if way != "packets" else \
                checker.case(f"{name} by {way} in Icarus", checker.run("vidi", "compare", "seen.trace", "bench.trace"), ("no divergence\n", 0))
            checker.case(f"{name} by {way} in Icarus, a broken handshake", "vidi: unstable m cycle" in said, is_broken)
            said, _ = played(checker, in_icarus, words, source)
            parts = "# differs" in said or "# short" in said
            checker.case(f"{name} without its bug, by {way} in Icarus", parts, not is_broken and way != "script")
        if checker.has(f"{name} from Verilator", "verilator", "g++", "make"):
            checker.case(f"{name} from Verilator is the same", bring_in(checker, name, "verilator"), (plan, script, trace))


def check_again_words(checker):
    """What `again` says."""
    if not checker.has("the words of again", "iverilog", "yosys"):
        return
    plan, *_ = bring_in(checker, "slice", "icarus")
    checker.case("again of a trace that ends in flight", checker.run("again", "good.v", plan, "seen.trace"), (
        "the failure is there: it comes as recorded\nthe trace ends while m waits: a handshake that broke then isn't in it; its script shows that, "
        "with --until unstable\n", 0))
    checker.case("again of a run", checker.run("again", "bug.v", plan, "--script", "seen", "--until", "unstable m"),
                 ("the failure is there: vidi: unstable m cycle 13\n", 0))
    checker.case("again of a good run", checker.run("again", "good.v", plan, "--script", "seen", "--until", "unstable m"),
                 ("the failure isn't there: no line of the run has unstable m; it ends with cycles 14\n", 1))
    checker.case("again of no design", checker.run("again", "none.v", plan, "seen.trace"), ("again: none.v: No such file or directory\n", 2))
    checker.case("again without words", checker.run("again", "good.v", plan), ("again: wants TRACE, or --script SCRIPT with --until TEXT\n", 2))
    said = checker.run("again", plan, plan, "seen.trace")
    checker.case("again of another design", said, ("something else: vidi: refused design: E2 item line 1\n", 2))


def check_shrink(checker):
    """A script with one send too many and steps that do nothing is left with the sends that break a FIFO's word; a design that breaks where a
    gate is down wants a plan of stalls."""
    checker.write("flick.v", "module flick(input clk, input a_v, output a_r, input [3:0] a_d, output reg b_v, input b_r, output reg [3:0] b_d);\n"
                  "assign a_r = 1'b1;\nalways @(posedge clk) begin\n  b_v <= b_v & ~b_r | a_v;\n  if (a_v) b_d <= a_d;\nend\nendmodule\n")
    checker.write("flick.map", "top flick\nclock clk\nin a a_v a_r a_d\nout b b_v b_r b_d\n")
    checker.write("long", "cycles 40\na wait 3\na send 1\na wait 4\na send 2\na send 3\na wait 1\na send 4\nb wait 5\nb take 1\nb wait 9\n"
                  "b take all\n")
    # Without waits and takes the first two sends do it: 1 shows in cycle 1, and 2 in cycle 2
    said, status = checker.run("shrink", "flick.v", "flick.map", "long", "--until", "unstable b", "-o", "short")
    lines = tool_kit.text_of(os.path.join(checker.folder, "short")).splitlines()
    checker.case("shrink, the lines that are left", (lines[0], [line.split()[1] for line in lines[1:]], status), ("cycles 3", ["send", "send"], 0))
    checker.case("shrink, what it says", re.sub(r"\d+ runs", "N runs", said), "shrink: 2 lines of 11, 3 cycles of 40, N runs\n")
    checker.write("taken", "cycles 40\na send 1\na wait 2\na send 2\na send 3\nb take all\n")
    checker.case("shrink's failure isn't in the run", checker.run("vidi", "run", "flick.v", "flick.map", "taken")[0].splitlines()[-1], "cycles 40")
    said, status = checker.run("shrink", "flick.v", "flick.map", "taken", "--until", "unstable b", "-o", "short", "--stalls", "plan")
    checker.case("shrink under plans", (status, "under the plan: capacity" in said), (0, True))
    said = checker.run("vidi", "record", "flick.v", "flick.map", "short", "plan", "shrunk.trace")
    checker.case("the plan that shrink found", (said[0].split()[:3], said[1]), (["vidi:", "unstable", "b"], 5))
    checker.refused("shrink of no failure", ["shrink", "flick.v", "flick.map", "taken", "--until", "start b 9", "--plans", "3", "-o", "none"],
                    "shrink: no line has start b 9, in the run or in 3 recordings under random plans", "none")
    checker.write("headless", "a send 1\n")
    checker.refused("shrink of no script", ["shrink", "flick.v", "flick.map", "headless", "--until", "x", "-o", "none"],
                    "shrink: headless: its first line isn't cycles N", "none")


def check_readme(checker):
    """The first minute of the README, command by command, prints what stands there."""
    text = tool_kit.text_of(os.path.join(tool_kit.HERE, "..", "README.md")).partition("## One minute\n")[2].partition("\n## ")[0]
    lines = [line[4:] for line in text.splitlines() if line.startswith("    ")]
    commands, prints = [line[2:] for line in lines if line.startswith("$ ")], [line for line in lines if not line.startswith("$ ")]
    shutil.copytree(os.path.join(EXAMPLES, "pass"), os.path.join(checker.folder, "examples", "pass"))
    os.symlink(checker.vidi, os.path.join(checker.folder, "vidi-unproved"))
    done = subprocess.run(["bash", "-c", "\n".join(commands)], cwd=checker.folder, capture_output=True, text=True)
    checker.case("the first minute of README.md", (done.stdout.splitlines(), done.stderr, len(commands)), (prints, "", 4))


# A design of Debian's package iverilog, which isn't copied in; its blocks and keys with their ciphers are known answers of DES.
DES = "/usr/share/doc/iverilog/examples/des.v"
CIPHERS = [(0x4E6F772069732074, 0x0123456789ABCDEF, 0x3FA40E8A984D4815), (0x0123456789ABCDEF, 0x133457799BBCDFF1, 0x85E813540F0AB405)]


def check_debian(checker):
    """A DES that nobody here wrote gets in behind a wrapper, has the known ciphers, and comes again in Icarus on its own text."""
    if not os.path.exists(DES):
        checker.skipped["the DES of Debian's iverilog"] = [DES]
    elif checker.has("the DES of Debian's iverilog", "yosys", "iverilog"):
        box = os.path.join(CASES, "desbox.v")
        said, status = checker.run("lower", box, DES, "desbox", "des_low.v")
        checker.case("lower of DES", ("modules 1 items" in said, status), (True, 0))
        checker.case("map of DES", checker.run("map", "-o", "des.map", box, DES, "desbox"), ("", 0))
        checker.write("des.script", "cycles 100\n" + "".join(f"in send {text} {key}\n" for text, key, _ in CIPHERS) + "out take all\n")
        found = tool_kit.events_of(checker.run("vidi", "run", "des_low.v", "des.map", "des.script")[0], "the run")[0]
        checker.case("the ciphers of DES", [content for _, kind, name, content in found if (kind, name) == ("start", "out")],
                     [[cipher] for *_, cipher in CIPHERS])
        checker.write("free", "capacity 65536\n")
        checker.run("vidi", "record", "des_low.v", "des.map", "des.script", "free", "des.trace")
        for way in ("clocks", "packets"):
            said, written = played(checker, in_icarus, ["des.trace", "des.map", "--by", way], box, DES)
            wanted = bytes_of(checker, "des.trace"), "# all of the trace came,"
            checker.case(f"DES by {way} in Icarus", (written, said.splitlines()[-1][:24]), wanted)


CHECKS = (check_benches, check_gaps, check_replayers, check_random, check_bench_words, check_bench_params, check_planted,
          check_again_words, check_shrink, check_readme, check_debian, check_in_verilator)
