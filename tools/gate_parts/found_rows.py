"""Prints what Vidi has to print of a design as it was found, with Icarus in the place of Vidi: for the gallery of examples/.

    gate found FOUND MAP SCRIPT             the lines of vidi run
    gate found FOUND MAP SCRIPT STALLS      those of vidi record and of vidi dump of its trace
    gate found --bug FOUND MAP SCRIPT EDIT  those of the planted bug: the last line of an unstable run; else those of vidi compare of
                                               the recordings of both, found by the definition of early, missing and unequal events

EDIT has a line `old: TEXT` and a line `new: TEXT`; the old text stands once in FOUND.
"""
import os
import sys
import tempfile

from vidi_tools import icarus_rows
from vidi_tools import same_transfers
from vidi_tools import tool_kit
from vidi_tools import trace_kit
from vidi_tools.tool_kit import Problem


def edited(text, edit):
    """The text with the planted bug."""
    old, new = ([line[5:] for line in tool_kit.text_of(edit).splitlines() if line.startswith(word)] for word in ("old: ", "new: "))
    if len(old) != 1 or len(new) != 1 or text.count(old[0]) != 1:
        raise Problem(f"{edit}: its old text doesn't stand exactly once")
    return text.replace(old[0], new[0])


def rows_of(text, plan, script, stalls=None):
    """The rows of a text's run, the unstable channel if there is one, and the widths."""
    with tempfile.TemporaryDirectory() as folder:
        path = os.path.join(folder, "found.v")
        tool_kit.write(path, text)
        design = same_transfers.Found([path], plan, folder)
        room = icarus_rows.Room(design.widths, stalls, bool(icarus_rows.times_of(script))) if stalls else icarus_rows.AllUp(design.widths)
        try:
            rows, unstable, _ = icarus_rows.play(plan, design, script, room)
            return rows, unstable, design.widths
        finally:
            design.close()


def epoch_findings(packets, others, names):
    """The lines of `vidi compare` of two epochs."""
    mine, theirs, lines = trace_kit.histories(names, packets), trace_kit.histories(names, others), []
    for name in names:
        starts, others_starts = mine[0][name], theirs[0][name]
        lines += [f"differs {name} start {at}" for at, (a, b) in enumerate(zip(starts, others_starts)) if a[0] != b[0]][:1]
        clocks = {"start": ([clock for _, clock in starts], [clock for _, clock in others_starts]), "end": (mine[1][name], theirs[1][name])}
        for kind, (ours, those) in clocks.items():
            if len(ours) != len(those):
                lines.append(f"{'missing' if len(ours) > len(those) else 'extra'} {name} {kind} {min(len(ours), len(those))}")
        for kind, (ours, those) in clocks.items():
            early = [at for at, (clock, have) in enumerate(zip(ours, those)) if not trace_kit.covered(clock, have)]
            lines += [f"early {name} {kind} {early[0]} count {len(early)}"] if early else []
    return lines


def findings(packets, others, names):
    """The lines of `vidi compare`, by its definition: epoch by epoch, then the resets."""
    mine, theirs, lines = trace_kit.epochs_of(packets), trace_kit.epochs_of(others), []
    for epoch, both in enumerate(zip(mine, theirs)):
        found = epoch_findings(*both, names)
        lines += [f"epoch {epoch}"] * (epoch > 0 and bool(found)) + found
    if len(mine) != len(theirs):
        lines.append(f"{'missing' if len(mine) > len(theirs) else 'extra'} reset {min(len(mine), len(theirs)) - 1}")
    return lines + ["diverged" if lines else "no divergence"]


def main():
    """Prints the lines."""
    is_bug, words = sys.argv[1] == "--bug", [word for word in sys.argv[1:] if word != "--bug"]
    text, plan, script = tool_kit.text_of(words[0]), icarus_rows.Map(words[1]), icarus_rows.lines(words[2])
    names = [channel[0] for channel in plan.channels]
    if is_bug:
        rows, unstable, _ = rows_of(edited(text, words[3]), plan, script)
        good = rows_of(text, plan, script)[0]
        lines = [f"vidi: unstable {unstable} cycle {len(rows)}"] if unstable else findings(*map(trace_kit.packets_of, (good, rows)), names)
        print("\n".join(lines))
    elif len(words) > 3:
        rows, unstable, widths = rows_of(text, plan, script, words[3])
        icarus_rows.say_recording(plan, widths, rows, unstable)
    else:
        rows, unstable, _ = rows_of(text, plan, script)
        sys.stdout.write(icarus_rows.text_of_rows(rows, unstable))
