"""Writes the texts of the pages and the examples as case files (docs/CASES.md), which `rt ci` plays; expectations are the pages' and the
examples' own.

- language.case of docs/LANGUAGE.md: a text is a block fenced by ```verilog, and behind it stands: `vidi check FILE TOP` prints `LINE`, or
  `LINE` and `LINE`.
- files.case of docs/FILES.md: a file is a block fenced by ```map, ```script or ```stalls, and behind it stands: `vidi run` prints `LINE`,
  or for a plan of stalls `vidi record` prints `LINE`. It takes the place of the file of this name among those of examples/pass.
- examples.case of examples/: each has design.v, map, script and run.out, and maybe stalls and record.out, which is what `vidi record` and
  then `vidi dump` print; the bytes of the trace are those of its dump (docs/FILES.md). With an AXI file it has bursts.out, of `vidi bursts`.

A refused file has the status 4, any other one 0.
"""
import os
import re

from vidi_tools import commands
from vidi_tools import tool_kit
from vidi_tools import trace_kit
from vidi_tools.tool_kit import Problem

TOP = os.path.join(tool_kit.HERE, "..")
DATA = os.path.join(TOP, "crates", "vidi_cases", "data")
TEXT = re.compile(r"```verilog\n(.*?)```\n\n`vidi check FILE (\w+)` prints `([^`]*)`(?:\s+and\s+`([^`]*)`)?", re.S)
FILE = re.compile(r"```(map|script|stalls)\n(.*?)```\n\n`vidi (run|record)` prints `([^`]*)`", re.S)
WORDS = {"run": "run design.v map script", "record": "record design.v map script stalls trace"}
MARKED = re.compile(r"^(\*\*|==|=!|\+\+|--|-x|-\*|!!|>>|>-|>x|>\*|##)( |$)", re.M)


def part(mark, name, text):
    """A marked line and its text."""
    if MARKED.search(text) or text and not text.endswith("\n"):
        raise Problem(f"{name}: a line of its text looks marked, or the last one has no line feed")
    return f"{mark} {name}\n{text}"


def ending(lines):
    """The exit number and the printed lines."""
    said = "".join(f"{line}\n" for line in lines)
    return part(">>", "4" if said.startswith("vidi: refused") else "0", said)


def page(path, fences, pattern):
    """What the pattern finds in a page, each of whose blocks with these fences has to be found."""
    text = tool_kit.text_of(os.path.join(TOP, path))
    found = pattern.findall(text)
    if len(found) != sum(text.count(f"```{fence}\n") for fence in fences) or not found:
        raise Problem(f"{path} has a text without a line that it prints")
    return found


def language():
    """The cases of docs/LANGUAGE.md."""
    cases = ["## Made by tools/gate cases of docs/LANGUAGE.md.\n"]
    for text, top, *lines in page("docs/LANGUAGE.md", ["verilog"], TEXT):
        cases += [f"== check text.v {top}\n", part("--", "text.v", text), ending(line for line in lines if line)]
    return "".join(cases)


def example_file(name, file):
    """The text of an example's file."""
    return tool_kit.text_of(os.path.join(tool_kit.EXAMPLES, name, file))


def files():
    """The cases of docs/FILES.md."""
    cases = ["## Made by tools/gate cases of docs/FILES.md.\n** each file in its place among those of examples/pass\n"]
    cases += [part("--", file, example_file("pass", file)) for file in ("design.v", "map", "script", "stalls")]
    for name, text, command, line in page("docs/FILES.md", ["map", "script", "stalls"], FILE):
        cases += [f"== {WORDS[command]}\n", part("--", name, text), ending([line])]
    return "".join(cases)


def trace_bytes(dump, where):
    """The bytes of the trace of which these are the lines."""
    events, table, count, _ = tool_kit.events_of(dump, where)
    packets = [trace_kit.Packet({}, []) for _ in range(count)]
    for at, kind, name, numbers in events:
        if kind == "start":
            packets[at].starts[name] = numbers
        elif kind == "end":
            packets[at].ends.append(name)
        else:
            packets[at] = packets[at]._replace(**({"gap": numbers[0]} if kind == "gap" else {"is_reset": True}))
    channels = [trace_kit.Table(name, direction == "in", widths) for name, (direction, widths) in table.items()]
    return trace_kit.encoded(channels, packets)


def recording(name):
    """The cases of an example's recording: the command, and the dump of the trace that it leaves."""
    first, dump = example_file(name, "record.out").split("\n", 1)
    trace = trace_bytes(dump, f"record.out of {name}")
    digits = "".join(f"{trace[at:at + 40].hex()}\n" for at in range(0, len(trace), 40))
    return f"== {WORDS['record']}\n{ending([first])}>x trace\n{digits}++ dump trace\n{ending(dump.splitlines())}{grouped(name)}"


def grouped(name):
    """The case of the bursts in an example's recording, where it has an AXI file."""
    if not commands.has("bursts") or not os.path.exists(os.path.join(tool_kit.EXAMPLES, name, "axi")):
        return ""
    return f"++ bursts trace axi\n{part('--', 'axi', example_file(name, 'axi'))}{ending(example_file(name, 'bursts.out').splitlines())}"


def examples():
    """The cases of the examples."""
    cases = ["## Made by tools/gate cases of examples/.\n"]
    for name in tool_kit.examples():
        is_recorded = os.path.exists(os.path.join(tool_kit.EXAMPLES, name, "stalls"))
        cases += [f"** {name}\n"]
        cases += [part("--", file, example_file(name, file)) for file in ["design.v", "map", "script"] + ["stalls"] * is_recorded]
        cases += [f"== {WORDS['run']}\n", ending(example_file(name, "run.out").splitlines())]
        if is_recorded:
            cases.append(recording(name))
    return "".join(cases)


def wanted():
    """The case files."""
    texts = {"language.case": language(), "files.case": files(), "examples.case": examples()}
    return {os.path.join(DATA, name): text for name, text in texts.items()}
