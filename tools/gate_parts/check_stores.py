"""Cases of store and trace, which `gate check tools` plays: the recorder in a bench against capture, and the one that can be synthesised,
behind the gates of `vidi wrap`, against the packets that a bench prints."""
import os
import re
import subprocess

from gate_parts import check_replays
from vidi_tools import icarus_rows
from make_kinds import random_design
from vidi_tools import same_transfers
from vidi_tools import tool_kit
from vidi_tools import trace_kit

CASES = os.path.join(tool_kit.HERE, "cases")
EXAMPLES = os.path.abspath(tool_kit.EXAMPLES)
PASS_HEADER = "5649444954524332" + "02" + "0001610108" + "0101620108"


def watched(checker, simulator):
    """The trace that vidi_store writes in the bench of `sums`, and the one that capture makes of its waves."""
    plan, source = os.path.join(CASES, "sums.map"), os.path.join(CASES, "sums.v")
    checker.run("store", plan, "-o", "store.v", "--files", source)
    line = re.search(r"^//   (vidi_store .*);$", tool_kit.text_of(os.path.join(checker.folder, "store.v")), re.M)[1]
    text = tool_kit.text_of(os.path.join(CASES, "sums_bench.v"))
    text = text.replace("$finish(0);", "begin #1 store.close; $finish(0); end").replace("  always #5", f"  {line};\n  always #5")
    checker.write("watched.v", text)
    _, scope = check_replays.run_bench(checker, simulator, [], "watched.v", source, "store.v")
    checker.run("trace", "trace.hex", "own.trace")
    checker.run("capture", "bench.vcd", scope, plan, "--trace", "seen.trace")
    return check_replays.bytes_of(checker, "own.trace").hex(), check_replays.bytes_of(checker, "seen.trace").hex()


def check_store(checker):
    """The recorder in a bench writes what capture makes of the bench's waves."""
    for simulator, programs in (("icarus", ["iverilog"]), ("verilator", ["iverilog", "verilator", "g++", "make"])):
        if checker.has(f"store in {simulator}", *programs):
            own, seen = watched(checker, simulator)
            checker.case(f"the store's trace in {simulator}", (own, len(own) > 1000), (seen, True))


STREAM_BENCH = """module bench;
  reg clk = 0, rst = 1, tready = 0;
  integer cycle = 0, shut = 0, at;
{nets}
  wire tvalid, tlast;
  wire [2047:0] tdata;
  wire [255:0] tkeep;
  vidi_record_top top (.clk(clk), {held}{tops});
  vidi_stream stream (.clk(clk), .rst(rst), {streams}, .tvalid(tvalid), .tready(tready), .tdata(tdata), .tkeep(tkeep), .tlast(tlast));
  always #5 clk = !clk;
  always @(posedge clk) begin
    cycle <= cycle + 1;
    tready <= cycle > 300 || cycle % 5 == 0;
    if (cycle == 3) rst <= 0;
    if (!rst) begin
      if (!({gates})) shut <= shut + 1;
      $write("row"); {shows} $write("\\n");
      if (tvalid & tready) begin
        $write("beat ");
        for (at = 0; at < 256; at = at + 1) if (tkeep[at] === 1'b1) $write("%h", tdata[8*at +: 8]);
        $write("\\n");
      end
      {moves}
      if (cycle == 300) begin {ends} end
      if (cycle == 600) begin $display("shut %0d", shut); $finish(0); end
    end
  end
endmodule
"""


def stream_channel(at, inward, widths):
    """What a channel brings to the bench: its nets, its pins on both modules and on the top alone, what it prints, and how it goes on."""
    contents, offered, seen = [(f"d_{at}_{place}", width) for place, width in enumerate(widths)], "v" if inward else "r", "r" if inward else "v"
    nets = [f"  wire g_{at}, start_{at}, stop_{at}, {seen}_{at};\n  reg {offered}_{at} = 1;"]
    nets += [f"  {'reg' if inward else 'wire'} [{width - 1}:0] {name}{' = 1' if inward else ''};" for name, width in contents]
    both = [f".start_{at}(start_{at}), .stop_{at}(stop_{at}), .g_{at}(g_{at})"] + [f".{name}({name})" for name, _ in contents]
    shows = f'if (start_{at}) $write(" s{at}{":%h" * len(contents)}"{"".join(", " + name for name, _ in contents)}); '
    return {"nets": "\n".join(nets), "streams": ", ".join(both), "tops": ", ".join(both + [f".v_{at}(v_{at}), .r_{at}(r_{at})"]),
            "shows": shows + f'if (stop_{at}) $write(" e{at}");', "gates": f"g_{at}",
            "ends": f"{offered}_{at} <= 0;", "moves": " ".join(f"if (stop_{at}) {name} <= {name} * 5 + {at + 3};" for name, _ in contents if inward)}


def stream_bench(plan, widths):
    """A bench of vidi_record_top and vidi_stream: sources that always offer, numbers that grow, a sink that takes one beat in five cycles. It prints
    what starts and ends in each cycle, and the bytes of each beat."""
    parts = [stream_channel(at, inward, widths[name]) for at, (name, inward, *_) in enumerate(plan.channels)]
    held = [f".t_{port}({tied})" for port, tied in plan.ties.items()]
    held += [f".t_{plan.reset[0]}({'rst' if plan.reset[1] else '!rst'})"] if plan.reset else []
    between = {"nets": "\n", "streams": ", ", "tops": ", ", "gates": " & "}
    return STREAM_BENCH.format(held="".join(pin + ", " for pin in held),
                               **{key: between.get(key, " ").join(part[key] for part in parts) for key in parts[0]})


def packets_of(text, plan):
    """The packets that the bench printed."""
    rows = []
    for line in re.findall(r"^row(.*)$", text, re.M):
        starts, ends = {}, []
        for event in line.split():
            at, *contents = event[1:].split(":")
            if event[0] == "s":
                starts[plan.channels[int(at)][0]] = [int(word, 16) for word in contents]
            else:
                ends.append(plan.channels[int(at)][0])
        rows.append((starts, ends))
    return trace_kit.packets_of(rows)


def streamed(checker, name, texts, room):
    """Plays a design behind gates and a stream, and compares the bytes of the beats with the packets that were printed."""
    for file in ("design.v", "map"):
        checker.write(file, texts[file])
    plan = icarus_rows.Map(os.path.join(checker.folder, "map"))
    checker.run("vidi", "wrap", "design.v", "map", "wrapped.v")
    said, status = checker.run("store", "map", "-o", "stream.v", "--files", "design.v", "--stream", "--room", str(room))
    checker.case(f"the stream of {name} is made", (said, status), ("", 0))
    whole = "`define FOUND_MEMORY logic\n" + same_transfers.from_zero(tool_kit.text_of(os.path.join(checker.folder, "wrapped.v")))
    widths = check_replays.widths_of(os.path.join(checker.folder, "design.v"), plan, checker.folder)
    checker.write("streamed.sv", whole + tool_kit.text_of(os.path.join(checker.folder, "stream.v")) + stream_bench(plan, widths))
    subprocess.run(["iverilog", "-g2012", "-s", "bench", "-o", "streamed.vvp", "streamed.sv"], cwd=checker.folder, capture_output=True, check=True)
    text = subprocess.run(["vvp", "-n", "streamed.vvp"], cwd=checker.folder, capture_output=True, text=True, timeout=120).stdout
    packets = packets_of(text, plan)
    table = [trace_kit.Table(channel, inward, widths[channel]) for channel, inward, *_ in plan.channels]
    wanted = trace_kit.encoded(table, packets)
    header = re.search(r"^//   (5649\w+)$", tool_kit.text_of(os.path.join(checker.folder, "stream.v")), re.M)[1]
    checker.write("beats.hex", header + "\n" + "".join(re.findall(r"^beat (\w+\n)", text, re.M)))
    checker.run("trace", "beats.hex", "beats.trace")
    checker.case(f"the stream of {name}", (check_replays.bytes_of(checker, "beats.trace").hex(), len(packets) > 20), (wanted.hex(), True))
    checker.case(f"the stream of {name} shuts gates", int(re.search(r"^shut (\d+)$", text, re.M)[1]) > 0, True)
    dumped = checker.run("vidi", "dump", "beats.trace")[0].splitlines()
    checker.case(f"the stream of {name} is a trace for Vidi", dumped[-1], f"packets {len(packets)}")


def check_stream(checker):
    """A stream whose sink is slow loses nothing, with two channels, with five and with nine, whose masks have two bytes."""
    if not checker.has("store --stream", "iverilog"):
        return
    for name in ("pass", "axi_lite"):
        texts = {file: tool_kit.text_of(os.path.join(EXAMPLES, name, file)) for file in ("design.v", "map")}
        streamed(checker, name, texts, 10)
        if checker.has("synthesis of a stream", "yosys"):
            words = ["yosys", "-q", "-p", "read_verilog stream.v; synth -top vidi_stream; check -assert"]
            done = subprocess.run(words, cwd=checker.folder, capture_output=True, timeout=600)
            checker.case(f"Yosys makes a circuit of the stream of {name}", done.returncode, 0)
    streamed(checker, "nine channels", random_design.made(9, 9), 18)
    checker.refused("a stream without room", ["store", "map", "-o", "none.v", "--files", "design.v", "--stream", "--room", "17"],
                    "store: --room is 17, and a start and an end of each channel need 18 beats", "none.v")
    checker.refused("a store without files", ["store", "map", "-o", "none.v"],
                    "store: a map doesn't say how wide the ports are: name the design's files with --files", "none.v")


def check_hex(checker):
    """Text that lost its end, that was cut in a packet, and that is none."""
    whole = PASS_HEADER + "010000010105" + "010002020205"
    checker.write("cut.hex", f"# a note\n{PASS_HEADER}\n010000010105\n010002020205\n0100\n")
    checker.case("trace of a text without its end", checker.run("trace", "cut.hex", "cut.trace"),
                 ("trace: cut.hex: the trace ends early; an end mark behind 2 whole packets is added\n", 0))
    checker.case("trace's end mark", check_replays.bytes_of(checker, "cut.trace").hex(), whole + "0000000002")
    checker.write("odd.hex", "5649444954524332\n0x02\n")
    checker.refused("trace of other digits", ["trace", "odd.hex", "odd.trace"],
                    "trace: odd.hex line 2: no whole bytes in hexadecimal: 0x02", "odd.trace")
    checker.write("no.hex", "0102\n")
    checker.refused("trace of no trace", ["trace", "no.hex", "no.trace"],
                    "trace: no.hex: no trace: it doesn't begin with VIDITRC2", "no.trace")
    checker.write("old.hex", "5649444954524331" + PASS_HEADER[16:] + "0000000000\n")
    checker.refused("trace of an old trace", ["trace", "old.hex", "older.trace"],
                    "trace: old.hex: old trace: it begins with VIDITRC1, of version 1", "older.trace")
    checker.write("reset.hex", PASS_HEADER + "020003" + "010000010105" + "0000000002\n")
    checker.case("trace of a text with a reset", checker.run("trace", "reset.hex", "reset.trace"), ("", 0))
    checker.case("the trace of a text with a reset", check_replays.bytes_of(checker, "reset.trace").hex(),
                 PASS_HEADER + "020003" + "010000010105" + "0000000002")


RESET_BENCH = """module bench;
  reg clk = 0, off = 1;
  vidi_store #(.FILE("reset.hex")) store (.clk(clk), .off(off), .v_0(1'b1), .r_0(1'b1), .d_0_0(8'd5), .v_1(1'b0), .r_1(1'b1), .d_1_0(8'd0));
  initial begin
    #5 clk = 1; #5 clk = 0; off = 0;
    #5 clk = 1; #5 clk = 0; off = 1;
    #5 clk = 1; #5 clk = 0; off = 0;
    #5 clk = 1; #5 clk = 0; store.close;
  end
endmodule
"""


def check_store_reset(checker):
    """A reset in mid-run ends the trace, and that is said: one word of two is in it."""
    if not checker.has("a reset at store's recorder", "iverilog"):
        return
    checker.run("store", os.path.join(EXAMPLES, "pass", "map"), "-o", "store.v", "--files", os.path.join(EXAMPLES, "pass", "design.v"))
    checker.write("reset.v", RESET_BENCH)
    said, _ = check_replays.run_bench(checker, "icarus", [], "reset.v", "store.v")
    checker.case("what the store says of a reset", said, "# vidi_store: a reset behind cycle 0, time 25; the trace ends there\n")
    text = tool_kit.text_of(os.path.join(checker.folder, "reset.hex"))
    checker.case("the store's text before a reset", text, f"{PASS_HEADER}\n010000010105\n0000000001\n")


# A stand-in for cocotb, in which the rows of a design's pins come one after the other.
STAND_IN = """import sys, types

class RisingEdge:
    def __init__(self, clock):
        pass
    def __await__(self):
        yield

class Pin:
    value = 0

cocotb, triggers = types.ModuleType("cocotb"), types.ModuleType("cocotb.triggers")
cocotb.triggers, triggers.RisingEdge = triggers, RisingEdge
sys.modules.update({"cocotb": cocotb, "cocotb.triggers": triggers})
"""
PLAY = """
dut = types.SimpleNamespace(clk=None, **{name: Pin() for name in "a_v a_r a_d b_v b_r b_d".split()})
monitor = record(dut, "cocotb.hex")
monitor.send(None)
for row in [(0, 1, 0, 0, 0, 0), (1, 1, 5, 0, 0, 0), (1, 0, 6, 1, 1, 5), (1, 0, 6, 0, 0, 0), (1, 1, 6, 0, 0, 0)]:
    for name, value in zip("a_v a_r a_d b_v b_r b_d".split(), row):
        getattr(dut, name).value = value
    monitor.send(None)
"""


def check_cocotb(checker):
    """The monitor of vidi_tools/cocotb_record.py, with rows made by hand and a stand-in for cocotb: two words go in, the first comes out while the
    second waits. Nothing comes in the first row and in the one before the last."""
    text = tool_kit.text_of(os.path.join(tool_kit.HERE, "vidi_tools", "cocotb_record.py"))
    checker.write("monitor.py", STAND_IN + text.partition('"""\n')[2] + PLAY)
    done = subprocess.run(["python3", "monitor.py"], cwd=checker.folder, capture_output=True, text=True)
    checker.case("the monitor for cocotb runs", (done.stderr, done.returncode), ("", 0))
    checker.run("trace", "cocotb.hex", "cocotb.trace")
    checker.case("the trace of the monitor for cocotb", check_replays.bytes_of(checker, "cocotb.trace").hex(),
                 PASS_HEADER + "010001010105" + "01000003020605" + "0100010001" + "0000000003")


CHECKS = (check_cocotb, check_store, check_store_reset, check_stream, check_hex)
