"""Random scripts over a map, played in Icarus on a design as it was found and on what `lower` made of it, and in Vidi on the latter."""
import os
import random
import re
import subprocess
import tempfile

from vidi_tools import icarus_rows
from vidi_tools import tool_kit
from vidi_tools.tool_kit import Problem


def zeroed_memory(match):
    """A memory's declaration, with a loop that sets it to 0. A macro hides its kind from what follows."""
    kind, name, first, last = match.groups()
    low, high = f"(({first}) < ({last}) ? ({first}) : ({last}))", f"(({first}) < ({last}) ? ({last}) : ({first}))"
    loop = f"for (at = {low}; at <= {high}; at = at + 1) {name}[at] = 0;"
    return f"`FOUND_MEMORY{kind} {name} [{first}:{last}]; initial begin : zero_{name} integer at; {loop} end"


def from_zero(text):
    """A text as it was found, with all state at 0 in the beginning, as Vidi has it: `bit` has no x. The blocks without a clock also run
    at the start. Icarus has no memory of `bit`: a memory is set to 0 by a loop."""
    memory = r"\b(?:reg|logic)\b(\s*(?:signed\b)?\s*(?:\[[^\]]*\])?)\s*(\w+)\s*\[([^:\]]*):([^\]]*)\]\s*;"
    text = re.sub(memory, zeroed_memory, text)
    text = re.sub(r"\b(reg|logic)\b", "bit", text)
    return re.sub(r"\balways\s*@\s*(\*|\(\s*\*\s*\)|\((?![^()]*edge)[^()]*\))", "always_comb", text)


class Found(icarus_rows.Design):
    """A design as it was found, in Icarus, from its initial state on. `plan` is a map as icarus_rows reads it."""

    def __init__(self, files, plan, folder, defines=(), params=()):
        values = ", ".join(f".{name}({value})" for name, value in params)
        bench = icarus_rows.bench(plan).replace(f"  {plan.top} dut(", f"  {plan.top} #({values}) dut(" if values else f"  {plan.top} dut(")
        bench = re.sub(r"\bdut\.(\w+)", r"{dut.\1}", bench)  # unsigned, whatever the port is
        source, program = os.path.join(folder, "found.sv"), os.path.join(folder, "found.vvp")
        texts = "\n".join(from_zero(tool_kit.text_of(path)) for path in files)
        tool_kit.write(source, "`define FOUND_MEMORY logic\n" + texts + "\n`default_nettype wire\n" + bench)
        folders = sorted({os.path.dirname(os.path.abspath(path)) for path in files})
        flags = [f"-D{define}" for define in defines] + [f"-I{path}" for path in folders]
        words = ["iverilog", "-g2012", *flags, "-s", "bench", "-o", program, source]
        built = subprocess.run(words, capture_output=True, text=True)
        if built.returncode:
            raise Problem("Icarus: " + (built.stderr.splitlines() or ["failed"])[0].replace(source, "the files"))
        self.begin(program, plan)

    def cycle(self, pins):
        """The outputs under these pins; an x counts as 0, as it does in Vidi."""
        self.run.stdin.write(" ".join("%x" % pins.get(name, 0) for name in self.plan.inputs) + "\n")
        self.run.stdin.flush()
        words = self.run.stdout.readline().split()
        return dict(zip(self.plan.outputs, (int(word) if word.isdigit() else 0 for word in words)))


def some_number(draw, width):
    """A number of this width: small, all ones or any."""
    return draw.choice([draw.randrange(min(4, 1 << width)), (1 << width) - 1, draw.randrange(1 << width), draw.randrange(1 << width)])


def some_steps(draw, channel, widths, cycles):
    """Steps of one channel that last about so many cycles."""
    name, is_inward, *_ = channel
    pause, steps, length = draw.choice([0, 1, 4, 12]), [], 0
    while length < cycles:
        wait = draw.randrange(pause + 1)
        if wait:
            steps.append([name, "wait", str(wait)])
        if is_inward:
            steps.append([name, "send", *(str(some_number(draw, width)) for width in widths)])
        else:
            steps.append([name, "take", str(draw.randrange(1, 4))])
        length += wait + 1
    return steps


def some_script(draw, plan, widths, cycles):
    """A random script, as lists of words."""
    steps = [step for channel in plan.channels for step in some_steps(draw, channel, widths[channel[0]], cycles)]
    return [["cycles", str(cycles)]] + steps


def icarus_run(files, plan, script, defines=(), params=()):
    """The lines of a run of a design as it was found, by Icarus."""
    for program in ("iverilog", "vvp"):
        tool_kit.need(program)
    with tempfile.TemporaryDirectory() as folder:
        design = Found(files, plan, folder, defines, params)
        try:
            rows, unstable, _ = icarus_rows.play(plan, design, script, icarus_rows.AllUp(design.widths))
            return icarus_rows.text_of_rows(rows, unstable)
        finally:
            design.close()


def widths_of(files, plan, defines=(), params=()):
    """The widths of each channel's contents, by Icarus."""
    with tempfile.TemporaryDirectory() as folder:
        design = Found(files, plan, folder, defines, params)
        design.close()
        return design.widths


def vidi_run(options, out, script, folder):
    """The lines of a run of the lowered design, by Vidi."""
    path = os.path.join(folder, "script")
    tool_kit.write(path, "".join(" ".join(words) + "\n" for words in script))
    return tool_kit.vidi("run", out, options.prove_same, path)[0]


def parting(their, our):
    """The first line in which two texts part."""
    both = zip(their.splitlines() + ["(no line)"], our.splitlines() + ["(no line)"])
    return next((f"the files: {one}; lowered: {other}" for one, other in both if one != other), "the length")


def compared(options, plan, out):
    """Plays the scripts on the files and on what was lowered, which is in `out`. Says how many transfers were the same; a difference is
    a Problem, and so is nothing to compare."""
    for program in ("iverilog", "vvp"):
        tool_kit.need(program)
    plan = icarus_rows.Map(plan.path)
    widths = widths_of(options.files, plan, options.define, options.param)
    has_vidi, transfers = tool_kit.vidi_program() is not None, 0
    for seed in range(options.seed, options.seed + options.scripts):
        script = some_script(random.Random(seed), plan, widths, options.cycles)
        their = icarus_run(options.files, plan, script, options.define, options.param)
        runs = [("Icarus", icarus_run([out], plan, script))]
        with tempfile.TemporaryDirectory() as folder:
            runs += [("Vidi", vidi_run(options, out, script, folder))] if has_vidi else []
        for where, our in runs:
            if our != their:
                raise Problem(f"seed {seed}: {where} on {options.out} parts from Icarus on the files: {parting(their, our)}")
        transfers += sum(" end " in line for line in their.splitlines())
    if not transfers:
        raise Problem("no transfer in any script: is the map's reset right?")
    players = "Icarus and Vidi" if has_vidi else "Icarus (no program vidi)"
    return f"same {options.scripts} scripts of {options.cycles} cycles, {transfers} transfers, by {players}"
