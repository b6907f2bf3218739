"""Plays a recorded failure on a design and says by its status whether it is there: for `git bisect run` and for a test that runs each night.

    again DESIGN MAP TRACE                              the trace is replayed
    again DESIGN MAP TRACE --script SCRIPT              the script is recorded anew, with a store in which no gate goes down, and compared
    again DESIGN MAP --script SCRIPT --until TEXT       the script is run: the failure is there where a line of the run has TEXT

Status 0: what was recorded comes again, the failure with it. 1: it comes with other contents, or with more or fewer transactions. 2: something
else, such as a design that is refused, a replay that is short or a handshake that breaks in it. An event that only comes early is no failure.
A broken handshake isn't in a trace, since that ends before it: play its script with --until unstable.
"""
import argparse
import os
import sys
import tempfile

from vidi_tools import tool_kit
from vidi_tools import trace_kit

THERE, GONE, OTHER = 0, 1, 2


def verdict_of_findings(text):
    """Whether the lines of `vidi compare` have a finding that isn't early."""
    found = [line for line in text.splitlines() if line.split(" ")[0] in ("differs", "missing", "extra")]
    return (GONE, found[0]) if found else (THERE, "it comes as recorded" if "no divergence" in text else "it comes as recorded, some of it early")


def replayed(options, folder):
    """Plays the trace."""
    said, status = tool_kit.vidi("replay", options.design, options.map, options.trace, str(options.cycles), os.path.join(folder, "out"))
    if status in (0, 7):
        return verdict_of_findings(said)
    return OTHER, (said.splitlines() or ["vidi ends with status {}".format(status)])[0 if status == 6 else -1]


def run(options):
    """Plays the script and looks for the text."""
    said, status = tool_kit.vidi("run", options.design, options.map, options.script)
    found = [line for line in said.splitlines() if options.until in line]
    if status not in (0, 5):
        return OTHER, said.strip()
    return (THERE, found[0]) if found else (GONE, f"no line of the run has {options.until}; it ends with {said.splitlines()[-1]}")


def recorded(options, folder):
    """Records the script anew and compares."""
    plan, out = os.path.join(folder, "plan"), os.path.join(folder, "out")
    tool_kit.write(plan, "capacity 65536\n")
    said, status = tool_kit.vidi("record", options.design, options.map, options.script, plan, out)
    if status not in (0, 5):
        return OTHER, said.strip()
    compared, compare_status = tool_kit.vidi("compare", options.trace, out)
    if compare_status not in (0, 7):
        return OTHER, compared.strip()
    answer, why = verdict_of_findings(compared)
    return (OTHER, f"{said.strip()}, and before it {why}") if status == 5 and answer == GONE else (answer, why)


def in_flight(path):
    """The outward channels that a trace ends with while they wait: what broke there isn't in it."""
    trace = trace_kit.read_file(path)
    counts = {channel.name: 0 for channel in trace.channels if not channel.is_inward}
    for packet in trace.packets:
        for name in counts:
            counts[name] = 0 if packet.is_reset else counts[name] + (name in packet.starts) - (name in packet.ends)
    return [name for name, count in counts.items() if count]


def main():
    """Plays, says what was found, and ends with the status."""
    parser = argparse.ArgumentParser(description=__doc__, formatter_class=argparse.RawDescriptionHelpFormatter)
    parser.add_argument("design", metavar="DESIGN")
    parser.add_argument("map", metavar="MAP")
    parser.add_argument("trace", metavar="TRACE", nargs="?")
    parser.add_argument("--script", metavar="SCRIPT", help="play this script and not the trace")
    parser.add_argument("--until", metavar="TEXT", help="what a line of the script's run has where the failure is there")
    parser.add_argument("--cycles", type=int, default=50000, metavar="N", help="the most cycles of a replay (50,000)")
    options = tool_kit.parse_options(parser)
    is_right = options.script if options.until else options.trace
    try:
        if not is_right:
            raise tool_kit.Problem("wants TRACE, or --script SCRIPT with --until TEXT")
        for path in filter(None, (options.design, options.map, options.trace, options.script)):
            tool_kit.text_of(path)
        with tempfile.TemporaryDirectory() as folder:
            answer, why = run(options) if options.until else recorded(options, folder) if options.script else replayed(options, folder)
    except tool_kit.Problem as problem:
        sys.stderr.write(f"again: {problem}\n")
        sys.exit(OTHER)
    print(("the failure is there: {}", "the failure isn't there: {}", "something else: {}")[answer].format(why))
    waiting = in_flight(options.trace) if answer == THERE and not options.until else []
    if waiting:
        print(f"the trace ends while {' and '.join(waiting)} waits: a handshake that broke then isn't in it; its script shows that, with "
              "--until unstable")
    sys.exit(answer)
