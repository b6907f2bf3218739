"""Writes as a case file (docs/CASES.md), which `rt ci` plays, what `vidi run` says of scripts that ask for resets. What is expected was made by hand, or
by models of four small designs in Python under the rows of vidi_tools/icarus_rows.py; `gate check resets` plays the same in Icarus.
"""
import os
import random
import tempfile

from gate_parts.page_cases import example_file, part
from make_kinds import resets
from vidi_tools import icarus_rows
from vidi_tools import same_transfers
from vidi_tools import tool_kit
from vidi_tools.tool_kit import Problem

DATA = os.path.join(tool_kit.HERE, "..", "crates", "vidi_cases", "data", "reset_runs.case")
HEAD = "## Made by tools/gate cases: what `vidi run` says of scripts that ask for resets. What is expected was made by hand, or by models in Python.\n"
STORE = """module store(input clk, input w_v, output w_r, input [1:0] w_a, input [7:0] w_d, input q_v, output q_r, input [1:0] q_a,
             output r_v, input r_r, output [7:0] r_d);
  reg [7:0] m [0:3];
  reg full;
  reg [7:0] d;
  assign w_r = 1'b1, q_r = !full, r_v = full, r_d = d;
  always @(posedge clk) begin
    if (w_v) m[w_a] <= w_d;
    if (q_v & !full) begin full <= 1'b1; d <= m[q_a]; end
    else if (r_r) full <= 1'b0;
  end
endmodule
"""
STORE_MAP = "top store\nclock clk\nin w w_v w_r w_a w_d\nin q q_v q_r q_a\nout r r_v r_r r_d\n"
AGED = """module aged(input clk, input rst, output b_v, input b_r, output [7:0] b_d, output [3:0] b_n);
  reg [7:0] life = 8'd100;
  reg [3:0] resets;
  assign b_v = 1'b1, b_d = life, b_n = resets;
  always @(posedge clk)
    if (rst) resets <= resets + 4'd1;
    else if (b_r) life <= life + 8'd1;
endmodule
"""
AGED_MAP = "top aged\nclock clk\nreset rst 1 2\nout b b_v b_r b_d b_n\n"
FLICK = """module flick(input clk, output b_v, input b_r);
  reg s;
  assign b_v = s;
  always @(posedge clk) s <= !s;
endmodule
"""
FLICK_MAP = "top flick\nclock clk\nout b b_v b_r\n"


class Model:
    """A design in Python: its registers by their names, `first` at the start."""
    first, widths = {}, {}

    def __init__(self, plan):
        self.plan = plan
        self.begin()

    def begin(self):
        """Goes to the initial state."""
        self.state = {name: dict(value) if isinstance(value, dict) else value for name, value in self.first.items()}

    def cycle(self, pins):
        """What is shown under these pins, all others 0; then the clock rises."""
        given = {name: pins.get(name, 0) for name in self.plan.inputs}
        shown = self.show(given)
        self.clock(given)
        return shown

    def reset(self, base):
        """Passes the map's reset cycles."""
        icarus_rows.Design.reset(self, base)

    def restart(self, base):
        """The design begun anew, with its reset cycles."""
        self.begin()
        self.reset(base)


class Pass(Model):
    """The design of examples/pass."""
    first, widths = {"full": 0, "d": 0}, {"a": [8], "b": [8]}

    def show(self, given):
        """The outputs."""
        return {"a_r": 1 - self.state["full"], "b_v": self.state["full"], "b_d": self.state["d"]}

    def clock(self, given):
        """The next state."""
        if given["a_v"] and not self.state["full"]:
            self.state = {"full": 1, "d": given["a_d"]}
        elif given["b_r"]:
            self.state["full"] = 0


class Store(Model):
    """A memory of four words."""
    first, widths = {"full": 0, "d": 0, "m": {at: 0 for at in range(4)}}, {"w": [2, 8], "q": [2], "r": [8]}

    def show(self, given):
        """The outputs."""
        return {"w_r": 1, "q_r": 1 - self.state["full"], "r_v": self.state["full"], "r_d": self.state["d"]}

    def clock(self, given):
        """The next state: a read sees the word as it was before a write of the same cycle."""
        word = self.state["m"][given["q_a"]]
        if given["w_v"]:
            self.state["m"][given["w_a"]] = given["w_d"]
        if given["q_v"] and not self.state["full"]:
            self.state.update(full=1, d=word)
        elif given["r_r"]:
            self.state["full"] = 0


class Aged(Model):
    """Counts the cycles of its reset, and what is taken of it from 100 on."""
    first, widths = {"life": 100, "resets": 0}, {"b": [8, 4]}

    def show(self, given):
        """The outputs."""
        return {"b_v": 1, "b_d": self.state["life"], "b_n": self.state["resets"]}

    def clock(self, given):
        """The next state."""
        if given["rst"]:
            self.state["resets"] = (self.state["resets"] + 1) % 16
        elif given["b_r"]:
            self.state["life"] = (self.state["life"] + 1) % 256


class Flick(Model):
    """Shows its valid in each second cycle, taken or not."""
    first, widths = {"s": 0}, {"b": []}

    def show(self, given):
        """The outputs."""
        return {"b_v": self.state["s"]}

    def clock(self, given):
        """The next state."""
        self.state["s"] = 1 - self.state["s"]


SEEDS = range(1, 9)
PASS, PASS_MAP = example_file("pass", "design.v"), example_file("pass", "map")
DESIGNS = {"pass": (Pass, PASS, PASS_MAP), "store": (Store, STORE, STORE_MAP), "aged": (Aged, AGED, AGED_MAP), "flick": (Flick, FLICK, FLICK_MAP)}
TWO = "a send 5\na send 6\nb take all\n"
ROWS = ["0 start a 5", "0 end a", "1 start a 6", "1 start b 5", "1 end b", "2 end a", "3 start b 6", "3 end b"]
# By hand: the design, what is shown, and scripts with the lines of their runs.
BY_HAND = [
    ("pass", "a reset in row 1 takes the 5 from the stage", [
        ("cycles 6\nreset at 1\n" + TWO, ["0 start a 5", "0 end a", "1 reset", "1 start a 6", "1 end a", "2 start b 6", "2 end b", "cycles 6"])]),
    ("pass", "a send that waits is aborted and offered again", [
        ("cycles 6\na send 5\na send 6\nreset at 2\n", ["0 start a 5", "0 end a", "1 start a 6", "1 start b 5", "2 reset", "2 start a 6", "2 end a",
                                                      "3 start b 6", "cycles 6"])]),
    ("pass", "what completes in the row before a reset isn't offered again", [
        ("cycles 5\nreset at 3\n" + TWO, [*ROWS[:6], "3 reset", "cycles 5"])]),
    ("pass", "in the last row, behind it, and much later", [
        ("cycles 4\nreset at 3\n" + TWO, [*ROWS[:6], "3 reset", "cycles 4"]), ("cycles 4\nreset at 4\n" + TWO, [*ROWS, "cycles 4"]),
        ("cycles 4\nreset at 49999\n" + TWO, [*ROWS, "cycles 4"])]),
    ("pass", "in row 49,999", [("cycles 50000\nreset at 49999\n", ["49999 reset", "cycles 50000"])]),
    ("pass", "in every row", [
        ("cycles 4\nreset at 1\na send 5\nreset at 2\na send 6\nreset at 3\na send 7\na send 8\nb take all\n",
         ["0 start a 5", "0 end a", "1 reset", "1 start a 6", "1 end a", "2 reset", "2 start a 7", "2 end a", "3 reset", "3 start a 8", "3 end a",
          "cycles 4"])]),
    ("pass", "waits, counts of takes and of afters go on over a reset", [
        ("cycles 9\nreset at 2\na wait 3\na send 5\na after b 1\na send 6\nb take 1\nb wait 2\nb take 1\n",
         ["2 reset", "3 start a 5", "3 end a", "4 start b 5", "4 end b", "5 start a 6", "5 end a", "6 start b 6", "7 end b", "cycles 9"]),
        ("cycles 9\nreset at 3\na send 5\na after b 1\na send 6\nb take 2\n",
         ["0 start a 5", "0 end a", "1 start b 5", "1 end b", "2 start a 6", "2 end a", "3 reset", "cycles 9"])]),
    ("pass", "lines that are read as they are elsewhere", [
        ("# twice\ncycles 0x6\n\nreset at 0x1 # a number\na send 5\n", ["0 start a 5", "0 end a", "1 reset", "cycles 6"])]),
    ("store", "a memory is empty again", [
        ("cycles 9\nw send 1 7\nq after w 1\nq send 1\nq after r 1\nq send 1\nreset at 3\nr take all\n",
         ["0 start w 1 7", "0 end w", "1 start q 1", "1 end q", "2 start r 7", "2 end r", "3 reset", "3 start q 1", "3 end q", "4 start r 0", "4 end r",
          "cycles 9"])]),
    ("aged", "all state is as behind the map's reset cycles, whatever they write", [
        ("cycles 5\nb take all\nreset at 2\nreset at 4\n",
         ["0 start b 100 2", "0 end b", "1 start b 101 2", "1 end b", "2 reset", "2 start b 100 2", "2 end b", "3 start b 101 2", "3 end b", "4 reset",
          "4 start b 100 2", "4 end b", "cycles 5"])]),
    ("flick", "the row behind a reset is never unstable, the next one may be", [
        ("cycles 6\nreset at 2\nreset at 4\n", ["1 start b", "2 reset", "3 start b", "4 reset", "5 start b", "cycles 6"]),
        ("cycles 6\nreset at 1\n", ["1 reset", "2 start b", "vidi: unstable b cycle 3"]),
        ("cycles 6\nreset at 3\n", ["1 start b", "vidi: unstable b cycle 2"])])]
# A channel that is called reset: `reset at` is never a step of it.
NAMED = [("cycles 4\nreset send 5\nreset at 2\nreset send 6\n", ["0 start reset 5", "0 end reset", "1 start reset 6", "1 start b 5", "2 reset",
                                                              "2 start reset 6", "2 end reset", "3 start b 6", "cycles 4"])]


def rows_of(name, script, named=None):
    """The lines of a run of a design by its model."""
    model, _, mapped = DESIGNS[name]
    with tempfile.TemporaryDirectory() as folder:
        for file, text in (("map", named or mapped), ("script", script)):
            tool_kit.write(os.path.join(folder, file), text)
        plan, script = icarus_rows.Map(os.path.join(folder, "map")), icarus_rows.lines(os.path.join(folder, "script"))
    design = model(plan)
    rows, unstable, _ = icarus_rows.play(plan, design, script, icarus_rows.AllUp([channel[0] for channel in plan.channels]))
    return icarus_rows.text_of_rows(rows, unstable)


def files(name, named=None):
    """A design and its map."""
    _, design, mapped = DESIGNS[name]
    return part("--", "d", design) + part("--", "m", named or mapped)


def case(script, text):
    """A case of a script."""
    return "== run d m s\n" + part("--", "s", script) + part(">>", "5" if "unstable" in text else "0", text)


def drawn(seed):
    """A script of 16 cycles by chance, with resets, of pass or store, and the design's name."""
    name, draw = ("pass", "store")[seed % 2], random.Random(f"reset case {seed}")
    with tempfile.TemporaryDirectory() as folder:
        tool_kit.write(os.path.join(folder, "map"), DESIGNS[name][2])
        plan = icarus_rows.Map(os.path.join(folder, "map"))
    lines = same_transfers.some_script(draw, plan, DESIGNS[name][0].widths, 16)
    return name, resets.with_resets(draw, "".join(" ".join(words) + "\n" for words in lines))


def played():
    """All scripts that are played: (design, map, script, the lines of its run)."""
    found = [(name, None, script, "".join(f"{line}\n" for line in lines)) for name, _, cases in BY_HAND for script, lines in cases]
    found += [("pass", PASS_MAP.replace("in a ", "in reset "), script, "".join(f"{line}\n" for line in lines)) for script, lines in NAMED]
    return found + [(name, None, script, rows_of(name, script)) for name, script in map(drawn, SEEDS)]


def text():
    """The case file; the models have to say what stands there by hand."""
    for name, named, script, lines in played():
        if rows_of(name, script, named) != lines:
            raise Problem(f"of {name} with {script!r} the model says {rows_of(name, script, named)!r}, and {lines!r} is wanted")
    out = [HEAD]
    for name, title, cases in BY_HAND:
        out += [f"** {title}\n", files(name)] + [case(script, "".join(f"{line}\n" for line in lines)) for script, lines in cases]
    out += ["** a channel that is called reset\n", files("pass", PASS_MAP.replace("in a ", "in reset "))]
    out += [case(script, "".join(f"{line}\n" for line in lines)) for script, lines in NAMED]
    for own in ("pass", "store"):
        out += [f"** scripts by chance over {own}\n", files(own)]
        out += [case(script, rows_of(name, script)) for name, script in map(drawn, SEEDS) if name == own]
    return "".join(out)


def wanted():
    """The case file."""
    return {DATA: text()}
