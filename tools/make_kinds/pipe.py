"""Writes a pipeline of register stages, a run of it, and the same run for Icarus Verilog, for the measures of docs/SPEED.md.

    make pipe STAGES SENDS CYCLES FOLDER

FOLDER gets `design.v`, `map` and `script` for `vidi run`, and for iverilog `bench.v`, a test bench that sends the same bytes,
which it reads from `sends`. Each stage is the one of examples/pass. Bytes go in while there are any, and each that comes out is
taken at once. The bench prints the lines that `vidi run` prints; with the word +quiet it prints the last one alone.
"""
import os
import sys

STAGE = os.path.join(os.path.dirname(__file__), "../../examples/pass/design.v")
PORTS = """(input clk, input a_v, output a_r, input [7:0] a_d,
            output b_v, input b_r, output [7:0] b_d)"""


def pipe(stages):
    """The module of all stages: wires k lead into stage k, and the last ones out."""
    wires = "".join(f"  wire v{k}, r{k};\n  wire [7:0] d{k};\n" for k in range(stages + 1))
    joins = "".join(
        f"  pass u{k}(.clk(clk), .a_v(v{k}), .a_r(r{k}), .a_d(d{k}),"
        f" .b_v(v{k + 1}), .b_r(r{k + 1}), .b_d(d{k + 1}));\n"
        for k in range(stages)
    )
    ends = f"  assign v0 = a_v, d0 = a_d, a_r = r0;\n  assign b_v = v{stages}, b_d = d{stages}, r{stages} = b_r;\n"
    return f"module pipe{PORTS};\n{wires}{ends}{joins}endmodule\n"


def sends(count):
    """Bytes of a small generator with a fixed start."""
    state = count
    for _ in range(count):
        state = (state * 1103515245 + 12345) % (1 << 31)
        yield (state >> 16) % 256


def bench(stages, count, cycles, path):
    """All state starts at 0, as in Vidi. The inputs change while the clock is low, and all is printed before it rises."""
    zeros = "".join(f"    dut.u{k}.full = 0;\n    dut.u{k}.d = 0;\n" for k in range(stages))
    return f"""module bench;
  reg clk = 0, a_v = 0, b_r = 1, a_flies = 0, b_flies = 0, quiet;
  reg [7:0] a_d = 0;
  wire a_r, b_v;
  wire [7:0] b_d;
  reg [7:0] values [0:{count - 1}];
  integer cycle, sent = 0;
  pipe dut(.clk(clk), .a_v(a_v), .a_r(a_r), .a_d(a_d), .b_v(b_v), .b_r(b_r), .b_d(b_d));
  initial begin
    quiet = $test$plusargs("quiet");
    $readmemh("{path}", values);
{zeros}    for (cycle = 0; cycle < {cycles}; cycle = cycle + 1) begin
      a_v = sent < {count};
      a_d = a_v ? values[sent] : 0;
      #1;
      if (!quiet) begin
        if (a_v && !a_flies) $display("%0d start a %0d", cycle, a_d);
        if (b_v && !b_flies) $display("%0d start b %0d", cycle, b_d);
        if (a_v && a_r) $display("%0d end a", cycle);
        if (b_v && b_r) $display("%0d end b", cycle);
      end
      a_flies = a_v && !a_r;
      b_flies = b_v && !b_r;
      if (a_v && a_r) sent = sent + 1;
      #1 clk = 1;
      #1 clk = 0;
    end
    $display("cycles %0d", cycle);
    $finish(0);
  end
endmodule
"""


def main():
    stages, count, cycles = (int(word) for word in sys.argv[1:4])
    folder = os.path.abspath(sys.argv[4])
    values = list(sends(count))
    files = {
        "design.v": open(STAGE).read() + pipe(stages),
        "map": "top pipe\nclock clk\nin a a_v a_r a_d\nout b b_v b_r b_d\n",
        "script": f"cycles {cycles}\n" + "".join(f"a send {value}\n" for value in values) + "b take all\n",
        "bench.v": bench(stages, count, cycles, os.path.join(folder, "sends")),
        "sends": "".join(f"{value:02x}\n" for value in values),
    }
    os.makedirs(folder, exist_ok=True)
    for name, text in files.items():
        with open(os.path.join(folder, name), "w") as file:
            file.write(text)
