"""Prints the processor seconds that `rt ci` takes for each crate (its proof, its tests, its edits) and for itself.

    gate seconds FILE COMMAND WORD ..      for example: gate seconds /tmp/seconds rt ci --anew

It runs the command, reads /proc twice a second and keeps, for each process of the checker whose parent is none, the last time
that was seen of it and of its children that ended. So the last half second of a process may be missing. Only processes below the
command count. `rt itself` is the time of Python's processes below the command (rt's stamps, copies and bookkeeping), without that of
their children; `no check ran` is the time by the clock in which no process of the checker was seen. Each minute, and at the end, it
writes the table of docs/SPEED.md to FILE, so that a run that is ended early has said what it saw; the lines of a crate are those of src/,
specs/ and proofs/.
"""

import os
import pathlib
import subprocess
import sys
import time

TICKS = os.sysconf("SC_CLK_TCK")
ITSELF = ("rt itself", "")


def processes():
    """Each process: its parent, what it works on and its seconds (of Python its own alone, else those of its ended children too)."""
    found = {}
    for entry in os.listdir("/proc"):
        if not entry.isdigit():
            continue
        try:
            stat = pathlib.Path("/proc", entry, "stat").read_text()
            words = pathlib.Path("/proc", entry, "cmdline").read_bytes().decode(errors="replace").split("\0")
            folder = os.readlink(f"/proc/{entry}/cwd")
        except OSError:
            continue
        fields = stat[stat.rindex(")") + 2 :].split()
        named = label(words, folder)
        counted = fields[11:13] if named == ITSELF else fields[11:15]
        found[int(entry)] = (int(fields[1]), named, sum(map(int, counted)) / TICKS)
    return found


def label(words, folder):
    """The crate that a checker's process works on, and why; ITSELF for Python; None for another process. An edit has its own folder."""
    if pathlib.Path(words[0]).name.startswith("python"):
        return ITSELF
    if not words[0].endswith("/rattle") or "--crate-name" not in words:
        return None
    crate = words[words.index("--crate-name") + 1]
    if "/rt-edit" in folder or "/try-edits-" in folder or "/rt-edit" in " ".join(words):
        return crate, "edits"
    return crate, "tests" if "--test" in words else "proof"


def is_below(found, pid, root):
    while pid in found and pid != root:
        pid = found[pid][0]
    return pid == root


def seen_below(found, root):
    """The seconds of what runs below the root: of Python's processes, and of the checker's whose parent is none of the checker's."""
    seen = {}
    for pid, (parent, named, spent) in found.items():
        below_checker = parent in found and found[parent][1] not in (None, ITSELF)
        if named is not None and not below_checker and is_below(found, pid, root):
            seen[pid, named] = spent
    return seen


def lines_of(crate):
    folder = pathlib.Path("crates", crate)
    files = [f for f in folder.rglob("*") if f.suffix in (".rt", ".antt") and "out" not in f.parts]
    return sum(len(f.read_text().splitlines()) for f in files)


def table_of(seconds):
    """The table's lines, a crate each."""
    table = {}
    for (_, (crate, why)), spent in seconds.items():
        if (crate, why) == ITSELF:
            continue
        row = table.setdefault(crate, {"proof": 0.0, "tests": 0.0, "edits": 0.0})
        row[why] += spent
    yield f"{'crate':20}{'proof':>7}{'tests':>7}{'edits':>7}{'lines':>8}"
    lines_all, totals = 0, [0.0, 0.0, 0.0]
    for crate, row in sorted(table.items()):
        lines, spent = lines_of(crate), [row["proof"], row["tests"], row["edits"]]
        lines_all, totals = lines_all + lines, [one + other for one, other in zip(totals, spent)]
        yield f"{crate:20}{''.join(f'{round(one) or str():>7}' for one in spent)}{lines:>8}"
    yield f"{'all':20}{''.join(f'{round(one):>7}' for one in totals)}{lines_all:>8}"


def write_table(file, seconds, begin, idle):
    itself = sum(spent for (_, named), spent in seconds.items() if named == ITSELF)
    rows = [f"rt itself: {itself:.0f}", f"no check ran, by the clock: {idle:.0f}"]
    by_clock = f"{time.time() - begin:.0f} seconds by the clock"
    file.write_text("\n".join([*table_of(seconds), *rows, by_clock]) + "\n")


def main():
    file = pathlib.Path(sys.argv[1])
    command = subprocess.Popen(sys.argv[2:])
    seconds = {}
    idle = 0.0
    begin = written = last = time.time()
    while command.poll() is None:
        seen = seen_below(processes(), command.pid)
        seconds.update(seen)
        now = time.time()
        if all(named == ITSELF for _, named in seen):
            idle += now - last
        last = now
        if now - written > 60:
            written = now
            write_table(file, seconds, begin, idle)
        time.sleep(0.5)
    write_table(file, seconds, begin, idle)
    sys.exit(command.returncode)
