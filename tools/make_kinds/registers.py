"""Writes one module with many registers, and a short run of it, for the measures of docs/SPEED.md.

    make registers COUNT CYCLES FOLDER

FOLDER gets `design.v`, `map` and `script` for `vidi run`. Bytes go in at each cycle and through all registers in turn, of
which each begins with a number of its own. None comes out.
"""
import os
import sys


def module(count):
    """Register k takes the number of the one before it."""
    registers = "".join(f"  reg [7:0] r{k} = 8'd{k % 256};\n" for k in range(count))
    moves = "".join(f"    r{k} <= r{k - 1};\n" for k in range(1, count))
    ports = "(input clk, input a_v, output a_r, input [7:0] a_d)"
    return f"module regs{ports};\n{registers}  assign a_r = 1'b1;\n  always @(posedge clk) begin\n    r0 <= a_d;\n{moves}  end\nendmodule\n"


def main():
    count, cycles = (int(word) for word in sys.argv[1:3])
    folder = os.path.abspath(sys.argv[3])
    files = {
        "design.v": module(count),
        "map": "top regs\nclock clk\nin a a_v a_r a_d\n",
        "script": f"cycles {cycles}\n" + "".join(f"a send {k % 256}\n" for k in range(cycles)),
    }
    os.makedirs(folder, exist_ok=True)
    for name, text in files.items():
        with open(os.path.join(folder, name), "w") as file:
            file.write(text)
