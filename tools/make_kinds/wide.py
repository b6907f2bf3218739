"""Writes register stages side by side, all of whose channels move in each cycle, for the measures of docs/SPEED.md.

    make wide STAGES CYCLES FOLDER

FOLDER gets `design.v`, `map` and `script` for `vidi run`. STAGES is 1 to 64, CYCLES 1 to 50,000. Each stage has an inward and an
outward channel of 8 bits; each inward one sends in each cycle, and each outward one takes all.
"""

import pathlib
import string
import sys

STAGE = """module stage(input clk, input a_v, output a_r, input [7:0] a_d, output b_v, input b_r, output [7:0] b_d);
  reg full;
  reg [7:0] d;
  assign a_r = !full | b_r;
  assign b_v = full;
  assign b_d = d;
  always @(posedge clk) if (a_v & a_r) begin full <= 1'b1; d <= a_d; end else if (b_r) full <= 1'b0;
endmodule
"""
INWARD = [*string.ascii_lowercase, *(f"i{k}" for k in range(26, 64))]
OUTWARD = [*string.ascii_uppercase, *(f"o{k}" for k in range(26, 64))]


def ports(k):
    return [f"input a{k}_v", f"output a{k}_r", f"input [7:0] a{k}_d", f"output b{k}_v", f"input b{k}_r", f"output [7:0] b{k}_d"]


def instance(k):
    pins = ", ".join(f".{pin}({pin[0]}{k}{pin[1:]})" for pin in ["a_v", "a_r", "a_d", "b_v", "b_r", "b_d"])
    return f"  stage s{k}(.clk(clk), {pins});\n"


def design(stages):
    head = ", ".join(["input clk", *[port for k in range(stages) for port in ports(k)]])
    return STAGE + f"module wide({head});\n" + "".join(map(instance, range(stages))) + "endmodule\n"


def channels(stages):
    lines = [f"in {INWARD[k]} a{k}_v a{k}_r a{k}_d\nout {OUTWARD[k]} b{k}_v b{k}_r b{k}_d\n" for k in range(stages)]
    return "top wide\nclock clk\n" + "".join(lines)


def script(stages, cycles):
    """Each content is the upper part of a linear congruence's number, so that contents differ."""
    lines, seed = [f"cycles {cycles}\n"], 12345
    for k in range(stages):
        for _ in range(cycles):
            seed = (seed * 1103515245 + 12345) % (1 << 31)
            lines.append(f"{INWARD[k]} send {(seed >> 16) % 10}\n")
        lines.append(f"{OUTWARD[k]} take all\n")
    return "".join(lines)


def main():
    stages, cycles, folder = int(sys.argv[1]), int(sys.argv[2]), pathlib.Path(sys.argv[3])
    folder.mkdir(parents=True, exist_ok=True)
    (folder / "design.v").write_text(design(stages))
    (folder / "map").write_text(channels(stages))
    (folder / "script").write_text(script(stages, cycles))
