"""Writes as a case file (docs/CASES.md), which `rt ci` plays, what the examples' designs are printed as. The expectations don't come from
Vidi: this tool cuts each text into tokens by itself (IEEE 1364-2005, clause 3) and lays them out.
"""
import os
import re

from vidi_tools import tool_kit
from gate_parts.page_cases import part
from vidi_tools.tool_kit import Problem

TOP = os.path.join(tool_kit.HERE, "..")
CASES = os.path.join(TOP, "crates", "vidi_cases", "data", "verilog", "print.case")
HEAD = "## Made by tools/gate cases of examples/ and of the text below it.\n"
GAP = re.compile(r"\s+|//[^\n]*|/\*.*?\*/|`(?:timescale|default_nettype)\b[^\n]*", re.S)
TOKEN = re.compile(r"[A-Za-z_][\w$]*|(?:\d[\d_]*)?'[bodhBODH][\da-fA-F][\da-fA-F_]*|\d[\d_]*|<<<|>>>|[<>=!]=|&&|\|\||<<|>>|~[&|^]|\^~|\+:"
                   r"|[()\[\]{};,.:?#@=+\-*!~&|^<>]")
ENDS = {";", "begin", "end", "endcase", "endmodule"}

# A text with every production of the grammar: every operator, each form of a port, an item, a select, a target, a statement and an arm.
WHOLE = """\
`timescale 1ns / 1ps
module child #(parameter [3:0] A = 4'd3, B = 2, parameter C = 'b1) (input clk, input wire [A-1:0] d, output q, output wire r, output reg t, output reg [7:0] s = 8'hf_f);
  assign q = ^d, r = ~|d;
  always @(posedge clk) begin s <= s + {4'd0, d[2:0], q}; t <= B == C; end
endmodule // child
module bare(); endmodule
module whole(input clk, input a, b, input [7:0] c, input [2:0] i, output [7:0] x, output reg [7:0] y, z);
  wire on;
  wire [7:0] u, v;
  wire w = a | b;
  wire [7:0] n = c, o = ~c;
  reg k;
  reg [7:0] l = 8'd1, m [0:3], p;
  localparam Q = 8'o17;
  localparam [1:0] R = 2'd2, S = 2'b1_0;
  assign x = on ? u : v;
  assign u = ((c + n) - o) * 8'd3, v = c << i | c >> i ^ c <<< 1 & c >>> 1 ^~ l ~^ p;
  assign on = a && b || !a && (c < n) == (c <= o) && (c > l) != (c >= p) || &c && ~&n && |o && ~^l && ^~p && -c != +c;
  child #(.A(4), .B(S), .C()) one (.clk(clk), .d(c[5:2]), .q(), .r(), .s(), .t());
  child two (.clk(clk), .d({3{a}}), .q(), .r(), .s(), .t());
  bare three ();
  /* blocks */
  always @(posedge clk)
    if (a) begin
      m[i[1:0]] <= c;
      m[R][7:4] <= c[i[1:0] +: 4];
      {l, {p[3 +: 2], p[0]}} <= {c, i[1:0], b};
      k <= m[0][i] ^ m[1][3:2] == 2'd1 & m[2][i +: 2] != 2'D3;
    end else if (b) ; else
      case (i)
        3'd0, 3'd1: k <= w;
        3'd2: begin end
        3'd3: ;
        default k <= 1'b0;
      endcase
  always @* y = {2{c[3:0]}};
  always @(*) begin z = Q; if (w) z = 8'd0; case (c) 8'd1: z = 8'd2; default: ; endcase end
endmodule
"""


def tokens(text, name):
    """The tokens of a text."""
    at, found = 0, []
    while at < len(text):
        gap = GAP.match(text, at)
        piece = gap or TOKEN.match(text, at)
        if not piece:
            raise Problem(f"{name}: no token at {text[at:at + 20]!r}")
        found += [] if gap else [piece.group()]
        at = piece.end()
    return found


def laid_out(text, name):
    """The text with one space between two tokens of a line, and a line feed where a line ends."""
    return "".join(token + ("\n" if token in ENDS else " ") for token in tokens(text, name))


def case(text, name):
    """A case: the text, and what it is printed as."""
    return f"== print {name}\n" + part("--", name, text) + part(">>", "0", laid_out(text, name))


def wanted():
    """The case file."""
    cases = [HEAD, "** every production of the grammar, and what is printed of it once more\n", case(WHOLE, "whole.v"),
             case(laid_out(WHOLE, "whole.v"), "printed.v"), "** the examples' designs\n"]
    for name in tool_kit.examples():
        cases.append(case(tool_kit.text_of(os.path.join(tool_kit.EXAMPLES, name, "design.v")), f"{name}.v"))
    return {CASES: "".join(cases)}
