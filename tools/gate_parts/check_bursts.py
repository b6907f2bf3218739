"""Cases of AXI4's bursts, which `gate check tools` plays: AXI files that `map` makes, what `explain` says of broken rules, and many bursts of many
IDs. What is expected was made by hand, or by the reader in Python (vidi_tools/axi_kit.py), which `gate cases` sets beside traces by hand."""
import os

from gate_parts import burst_cases
from gate_parts.burst_cases import ar, aw, b, r, w
from make_kinds import bursts
from vidi_tools import axi_kit
from vidi_tools import commands
from vidi_tools import tool_kit
from vidi_tools import trace_kit

# What is said of a trace of these transactions, by hand.
EXPLAINED = [
    ([aw(4_088, 3)], ["broken rule 1 aw 0: its bytes, 4088 to 4099, cross 4096, a boundary of 4 KB",
                      "  aw 0: packets 0 to 0, id 0 addr 4088 (0xff8) beats 3 of 4 bytes INCR"]),
    ([ar(0), ar(16, 3, burst=2, own=5)], ["broken rule 1 ar 1: a WRAP burst has 3 beats, and 2, 4, 8 or 16 are lawful",
                                          "  ar 1: packets 1 to 1, id 5 addr 16 (0x10) beats 3 of 4 bytes WRAP"]),
    ([aw(0), w(1), aw(8, 3), w(0), w(1)], ["broken rule 2 w 2: it has LAST 1 and is beat 2 of 3 of aw 1",
                                           "  aw 1: packets 2 to 2, id 0 addr 8 (0x8) beats 3 of 4 bytes INCR",
                                           "  its beats: w 1 in packet 3 with LAST 0, w 2 in packet 4 with LAST 1"]),
    ([aw(0, own=1), w(1), b(1), b(1)], ["broken rule 3 b 1: it is response 1 with id 1, and aw has 1 with this id", "  b 1: packets 3 to 3"]),
    ([aw(0, 2, own=1), w(0), b(1), w(1)], ["broken rule 3 b 0: it answers aw 0, and the last beat of aw 0, w 1, completes behind it",
                                           "  aw 0: packets 0 to 0, id 1 addr 0 (0x0) beats 2 of 4 bytes INCR",
                                           "  its beats: w 0 in packet 1 with LAST 0, w 1 in packet 3 with LAST 1", "  b 0: packets 2 to 2, id 1"]),
    ([ar(0, own=2), r(1, 2), r(1, 2)], ["broken rule 4 r 1: it is beat 2 with id 2, and ar asks for 1 with this id", "  r 1: packets 2 to 2, id 2"]),
    ([ar(0, 2, own=2), r(0, 2), r(0, 2)], ["broken rule 4 r 1: it has LAST 0 and is beat 2 of 2 of ar 0",
                                           "  ar 0: packets 0 to 0, id 2 addr 0 (0x0) beats 2 of 4 bytes INCR",
                                           "  its beats: r 0 in packet 1 with LAST 0, r 1 in packet 2 with LAST 0"]),
    ([r(1), ar(0)], ["broken rule 4 r 0: it is of ar 0, which completes behind it", "  ar 0: packets 1 to 1, id 0 addr 0 (0x0) beats 1 of 4 bytes INCR",
                     "  r 0: packets 0 to 0, id 0"])]
# A manager of which one side alone has AXI4's names, with a bus of 64 bits, an ID and joints in its names; and one more port.
TWO_PORTS = """module two(input clk, output m_aw_valid, input m_aw_ready, output [3:0] m_aw_id, output [39:0] m_aw_addr, output [7:0] m_aw_len,
  output [2:0] m_aw_size, output [1:0] m_aw_burst, output m_w_valid, input m_w_ready, output [63:0] m_w_data, output m_w_last,
  input m_b_valid, output m_b_ready, input [3:0] m_b_id, input [1:0] m_b_resp,
  input s_arvalid_i, output s_arready_o, input [11:0] s_araddr_i, input [3:0] s_arlen_i,
  output s_rvalid_o, input s_rready_i, output [31:0] s_rdata_o, output s_rlast_o);
assign m_aw_valid = 0, m_aw_id = 0, m_aw_addr = 0, m_aw_len = 0, m_aw_size = 0, m_aw_burst = 0;
assign m_w_valid = 0, m_w_data = 0, m_w_last = 0, m_b_ready = 1;
assign s_arready_o = 1, s_rvalid_o = 0, s_rdata_o = 0, s_rlast_o = 0;
reg x; always @(posedge clk) x <= 0;
endmodule
"""
PORTS = [("m_", "beat 8\naw m_aw 0 1 2 3 4\nw m_w 1\nb m_b 0\n"),
         ("s_", "beat 4\nar s_ar none 0 1 none none\nr s_r none 1\n# s_arlen_i has 4 bits, and LEN has 8: vidi bursts refuses it\n")]


def check_axi_map(checker):
    """The AXI files of the gallery, by hand, and of a design with two ports."""
    if not checker.has("map --axi", "yosys"):
        return
    lite = "# {} has no LEN: each burst is one beat\n"
    for name, file, wanted in (("axi_ram", "found.v", tool_kit.text_of(os.path.join(tool_kit.EXAMPLES, "axi_ram", "axi"))),
                               ("axi_lite", "design.v", burst_cases.LITE + lite.format("aw") + lite.format("ar"))):
        said, status = checker.run("map", "-o", "map", "--axi", f"{name}.axi", os.path.abspath(os.path.join(tool_kit.EXAMPLES, name, file)), name)
        checker.case(f"map --axi of {name}", (tool_kit.text_of(os.path.join(checker.folder, f"{name}.axi")), said, status), (wanted, "", 0))
    checker.write("two.v", TWO_PORTS)
    checker.refused("map --axi of two ports", ["map", "--axi", "two.axi", "two.v", "two"], "map: an AXI file is of one port: say --bus m_, --bus s_",
                    "two.axi")
    for front, wanted in PORTS:
        checker.run("map", "--axi", "two.axi", "--bus", front, "two.v", "two")
        checker.case(f"map --axi --bus {front}", tool_kit.text_of(os.path.join(checker.folder, "two.axi")), wanted)
    fifo = os.path.abspath(os.path.join(tool_kit.EXAMPLES, "fifo", "found.v"))
    checker.refused("map --axi of no AXI4 port", ["map", "--axi", "no.axi", fifo, "fifo"],
                    "map: no AXI file: no channels with AXI4's names (awvalid wvalid bvalid, arvalid rvalid)", "no.axi")


def check_explain_bursts(checker):
    """What is said of each broken rule; once vidi has the command, by `explain --axi`."""
    checker.write("axi", bursts.AXI)
    axi = axi_kit.AxiFile(os.path.join(checker.folder, "axi"))
    for ones, lines in EXPLAINED:
        trace = burst_cases.trace_of(ones)
        found = next(axi_kit.Reader(trace, axi).findings())
        checker.case(f"why of {lines[0]}", [f"{found.line}: {found.why[0]}", *found.why[1:]], lines)
        if commands.has("bursts"):
            tool_kit.write(os.path.join(checker.folder, "trace"), trace_kit.encoded(trace.channels, trace.packets))
            checker.case(f"explain --axi of {lines[0]}", checker.run("explain", "--axi", "trace", "axi"),
                         ("vidi: refused trace: " + "\n".join(lines) + "\n", 4))
    checker.refused("explain --axi of one file", ["explain", "--axi", "axi"], "explain: wants TRACE AXI")


def check_many_bursts(checker):
    """10,000 bursts of 16 IDs by turns, and as many with one LAST turned: vidi says what the reader in Python says."""
    checker.case("make bursts", checker.run("make", "bursts", "10000", "16", "."), ("", 0))
    trace, axi = (os.path.join(checker.folder, name) for name in ("trace", "axi"))
    whole = trace_kit.read_file(trace)
    at = max(number for number, packet in enumerate(whole.packets) if "r" in packet.starts)
    data, last, own = whole.packets[at].starts["r"]
    packets = list(whole.packets)
    packets[at] = packets[at]._replace(starts={"r": [data, 1 - last, own]})
    turned = trace_kit.Trace(whole.channels, packets)
    lines = axi_kit.Reader(whole, axi_kit.AxiFile(axi)).lines()
    checker.case("the reader of 10,000 bursts", (lines[-1], sum(" done" in line for line in lines)), ("writes 5000 reads 5000", 10_000))
    for name, one in (("10,000 bursts", whole), ("10,000 bursts and a LAST", turned)):
        lines = axi_kit.Reader(one, axi_kit.AxiFile(axi)).lines()
        checker.case(f"{name}, read", lines[0].startswith("vidi: refused trace: broken rule 4 r "), one is turned)
        if commands.has("bursts"):
            tool_kit.write(trace, trace_kit.encoded(one.channels, one.packets))
            said, status = checker.run("vidi", "bursts", "trace", "axi")
            checker.case(name, (said.splitlines(), status), (lines, 4 if one is turned else 0))


CHECKS = (check_axi_map, check_explain_bursts, check_many_bursts)
