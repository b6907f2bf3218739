"""Finds a small script that still shows a failure.

    shrink DESIGN MAP SCRIPT --until TEXT [-o OUT] [--stalls OUT] [--plans N] [--seed S]

The failure is there where a line that `vidi run` prints has TEXT, such as `unstable out` or `start out 68`. Fewer cycles are tried, then fewer
lines, until none can be left out; the script that is left is written. Where the run doesn't show it, recordings under N random plans of stalls
are tried (100), until the line of `vidi record` or a line of `vidi dump` of its trace has TEXT; the plan is then kept, and written to the file that
--stalls names.
"""
import argparse
import os
import random
import re
import sys
import tempfile

from vidi_tools import tool_kit
from vidi_tools.tool_kit import Problem


class Trial:
    """Tries scripts, and counts the runs. `plan` is the text of a plan of stalls, or None for runs."""

    def __init__(self, options, folder):
        self.options, self.folder, self.runs, self.plan = options, folder, 0, None

    def path(self, name):
        """The path of a file of the trial."""
        return os.path.join(self.folder, name)

    def said(self, text, plan):
        """The lines of a run, or of a recording and its trace; what is refused is a Problem."""
        tool_kit.write(self.path("script"), text)
        words = [self.options.design, self.options.map, self.path("script")]
        self.runs += 1
        if plan is None:
            said, status = tool_kit.vidi("run", *words)
        else:
            tool_kit.write(self.path("plan"), plan)
            said, status = tool_kit.vidi("record", *words, self.path("plan"), self.path("trace"))
            said += tool_kit.vidi("dump", self.path("trace"))[0] if status in (0, 5) else ""
        if status not in (0, 5):
            raise Problem(f"{self.options.script}: {said.strip()}")
        return said

    def shows(self, cycles, lines):
        """Whether this script shows the failure."""
        said = self.said("".join(line + "\n" for line in [f"cycles {cycles}", *lines]), self.plan)
        return any(self.options.until in line for line in said.splitlines())


def random_plan(draw, least):
    """A plan of stalls of a store that is small, and in most cycles drains little."""
    drains = (f"drain {draw.choice([0, 1, 2, 3, draw.randrange(least), 'all'])} {draw.randrange(1, 9)}\n" for _ in range(draw.randrange(1, 6)))
    return f"capacity {draw.randrange(least, 2 * least + 1)}\n" + "".join(drains)


def look_for_plan(trial, cycles, lines):
    """Tries random plans until one shows the failure."""
    text, draw = "".join(line + "\n" for line in [f"cycles {cycles}", *lines]), random.Random(trial.options.seed)
    try:
        least = int(re.search(r"need (\d+)", trial.said(text, "capacity 1\n") + " need 1")[1])
    except Problem as problem:
        found = re.search(r"too small need (\d+)", str(problem))
        if not found:
            raise
        least = int(found[1])
    for _ in range(trial.options.plans):
        trial.plan = random_plan(draw, least)
        if trial.shows(cycles, lines):
            return
    raise Problem(f"no line has {trial.options.until}, in the run or in {trial.options.plans} recordings under random plans")


def fewer_cycles(trial, cycles, lines):
    """A smaller number of cycles that shows the failure, by halves."""
    low, high = 0, cycles
    while high - low > 1:
        middle = (low + high) // 2
        low, high = (low, middle) if trial.shows(middle, lines) else (middle, high)
    return high


def fewer_lines(trial, cycles, lines):
    """Lines of which none can be left out: parts of them are left out, large ones first."""
    size = max(1, len(lines) // 2)
    while True:
        at, before = 0, len(lines)
        while at < len(lines):
            rest = lines[:at] + lines[at + size:]
            if trial.shows(cycles, rest):
                lines = rest
            else:
                at += size
        if size == 1 and len(lines) == before:
            return lines
        size = max(1, size // 2)


def script_of(path):
    """The cycles of a script, and its other lines without comments."""
    lines = [" ".join(text.split("#")[0].split()) for text in tool_kit.text_of(path).splitlines()]
    lines = [line for line in lines if line]
    head = re.fullmatch(r"cycles (\w+)", lines[0]) if lines else None
    if not head or not tool_kit.number(head[1]):
        raise Problem(f"{path}: its first line isn't cycles N")
    return tool_kit.number(head[1]), lines[1:]


def main():
    """Shrinks, and writes what is left."""
    parser = argparse.ArgumentParser(description=__doc__, formatter_class=argparse.RawDescriptionHelpFormatter)
    for word in ("design", "map", "script"):
        parser.add_argument(word, metavar=word.upper())
    parser.add_argument("--until", metavar="TEXT", required=True, help="what a line of the run has where the failure is there")
    parser.add_argument("-o", dest="out", metavar="OUT", help="write the script to OUT and not to standard output")
    parser.add_argument("--stalls", metavar="OUT", help="write the plan of stalls to OUT, where one was needed")
    parser.add_argument("--plans", type=int, default=100, metavar="N", help="how many random plans are tried (100)")
    parser.add_argument("--seed", type=int, default=1, metavar="S", help="the seed of the plans (1)")
    options = tool_kit.parse_options(parser)
    first, lines = script_of(options.script)
    with tempfile.TemporaryDirectory() as folder:
        trial = Trial(options, folder)
        if not trial.shows(first, lines):
            look_for_plan(trial, first, lines)
        cycles = fewer_cycles(trial, first, lines)
        rest = fewer_lines(trial, cycles, lines)
        cycles = fewer_cycles(trial, cycles, rest)
    for path, text in ((options.stalls, trial.plan), (options.out, "".join(line + "\n" for line in [f"cycles {cycles}", *rest]))):
        if path and text:
            tool_kit.write(path, text)
        elif text and path is options.out:
            sys.stdout.write(text)
    how = "" if trial.plan is None else ", under the plan: " + trial.plan.strip().replace("\n", "; ")
    print(f"shrink: {len(rest)} lines of {len(lines)}, {cycles} cycles of {first}, {trial.runs} runs{how}", file=sys.stderr)
