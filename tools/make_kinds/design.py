"""Writes a large design of modules of ordinary size to standard output, for the measures of docs/SPEED.md.

    make design BYTES

Each module has a clock, some ports, wires, registers, assignments and clocked blocks, about 1,800 bytes in all.
The numbers come from a small generator with a fixed seed, so the same word always gives the same bytes. The text is the
longest list of whole modules with at most BYTES bytes.
"""
import sys

OPERATORS = ['+', '-', '&', '|', '^', '*', '<<', '==', '&&']


def numbers():
    state = 1
    while True:
        state = (state * 0x2545F4914F6CDD1D + 0x9E3779B97F4A7C15) % (1 << 128)
        yield state >> 96


def expression(draw, names):
    a, b, c = (names[next(draw) % len(names)] for _ in range(3))
    o, p = (OPERATORS[next(draw) % len(OPERATORS)] for _ in range(2))
    return '(%s %s %s) %s %s' % (a, o, b, p, c)


def block(draw, names, k):
    return """  // stage %d
  always @(posedge clk)
    if (rst) begin
      r%d <= 16'd0;
    end else if (en & %s[%d]) begin
      r%d <= %s;
    end else
      r%d[7:0] <= {%s[3:0], 4'h%x};
""" % (k, k, names[next(draw) % len(names)], next(draw) % 16, k, expression(draw, names), k, names[next(draw) % len(names)],
       next(draw) % 16)


def module(draw, n):
    names = ['a', 'b'] + ['r%d' % k for k in range(6)]
    lines = ['module stage%d(input clk, input rst, input en, input [15:0] a, input [15:0] b,\n'
             '    output [15:0] y, output reg [15:0] z);' % n]
    lines += ['  reg [15:0] r%d = 16\'d%d;' % (k, next(draw) % 65536) for k in range(6)]
    lines += ['  wire [15:0] w%d = %s; /* wire %d */' % (k, expression(draw, names), k) for k in range(6)]
    names += ['w%d' % k for k in range(6)]
    lines += ['  assign y = en ? %s : %s;' % (expression(draw, names), expression(draw, names))]
    text = '\n'.join(lines) + '\n' + ''.join(block(draw, names, k) for k in range(6))
    return text + '  always @(posedge clk) z <= %s;\nendmodule\n\n' % expression(draw, names)


def main():
    most, draw, n, size = int(sys.argv[1]), numbers(), 0, 0
    while True:
        text = module(draw, n)
        size += len(text)
        if size > most:
            return
        sys.stdout.write(text)
        n += 1
