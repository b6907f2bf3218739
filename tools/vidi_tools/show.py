"""Shows the lines of `vidi run` or `vidi dump` as a timeline in the terminal, or as waves.

    vidi run DESIGN MAP SCRIPT | show [--from N] [--to N] [--around CHANNEL:N] [--hex]
    show LINES --vcd OUT.vcd [--around CHANNEL:N]
    show LINES --json

LINES are those of `vidi run`, `vidi dump` or a bench of `vidi-tools bench`. A row is a channel, a column a cycle (of a dump: a packet): `<` a
transaction starts, `-` it waits, `>` it ends, `|` it starts and ends, `.` nothing, `R` a reset. With --contents or --hex each transaction follows, with its
start, its end and its content. With --vcd the channels are written as waves, with valid, fires and contents, and OUT.gtkw beside them opens them
in GTKWave with contents in hexadecimal. --around shows ten columns before and behind transaction N of a channel, the first is 0, and sets
GTKWave's marker at its start. --json prints all transactions for other programs.
"""
import argparse
import json
import shutil
import sys

from vidi_tools import tool_kit
from vidi_tools.tool_kit import Problem

AROUND = 10


def marks(transactions, length, resets):
    """The signs of one channel, one for each cycle."""
    signs = ["R" if at in resets else "." for at in range(length)]
    for one in transactions:
        end = one.last(length)
        signs[one.start:end + 1] = "-" * (end + 1 - one.start)
        signs[one.start] = "|" if one.end == one.start else "<"
        if one.end not in (None, one.start):
            signs[one.end] = ">"
    return "".join(signs)


def ruler(first, count):
    """The numbers of the first column and of each tenth."""
    line = str(first)
    for column in range(first + 1, first + count):
        if column % 10 == 0 and len(line) < column - first:
            line = line.ljust(column - first) + str(column)
    return line


def timeline(names, found, length, resets, options):
    """The lines of the picture."""
    first, last = options.first, min(length, options.last + 1 if options.last is not None else length)
    if first >= last:
        raise Problem(f"no cycle from {first} on; there are {length}")
    margin = max(map(len, names)) + 1
    count = max(10, options.width - margin)
    signs = {name: marks(found.get(name, []), length, resets) for name in names}
    for begin in range(first, last, count):
        end = min(last, begin + count)
        yield " " * margin + ruler(begin, end - begin)
        for name in names:
            yield name.ljust(margin) + signs[name][begin:end]


def contents(names, found, length, options):
    """A line for each transaction that has a cycle in the range."""
    last = options.last if options.last is not None else float("inf")
    for name in names:
        for count, one in enumerate(found.get(name, [])):
            if one.start <= last and one.last(length) >= options.first:
                values = " ".join(f"0x{value:x}" if options.hex else str(value) for value in one.content)
                yield f"{name} {count} from {one.start} to {'-' if one.end is None else one.end}" + (f" content {values}" if values else "")


def waves(names, found, widths, length):
    """The text of the VCD: ten time units a cycle, and the names of its signals with their widths."""
    signals, changes = [], {}
    for name in names:
        ones = found.get(name, [])
        ports = widths[name][1] if name in widths else seen_widths(ones)
        signals += [(name, "valid", 1), (name, "fires", 1)] + [(name, f"content{at}", width) for at, width in enumerate(ports)]
        for one in ones:
            end = one.last(length)
            changes[10 * (end + 1), name, "valid"] = changes[10 * (end + 1), name, "fires"] = 0
        for one in ones:
            changes[10 * one.start, name, "valid"] = 1
            if one.end is not None:
                changes[10 * one.end, name, "fires"] = 1
            changes.update({(10 * one.start, name, f"content{at}"): value for at, value in enumerate(one.content)})
    codes = {signal[:2]: f"s{at}" for at, signal in enumerate(signals)}
    lines = ["$timescale 1ns $end"]
    for name in names:
        lines.append(f"$scope module {name} $end")
        lines += [f"$var wire {width} {codes[own, kind]} {kind} $end" for own, kind, width in signals if own == name]
        lines.append("$upscope $end")
    lines += ["$enddefinitions $end", "#0"] + [f"b0 {code}" for code in codes.values()]
    for time in sorted({time for time, *_ in changes} | {10 * length}):
        lines += [f"#{time}"] if time else []
        lines += [f"b{value:b} {codes[name, kind]}" for (at, name, kind), value in changes.items() if at == time]
    return "\n".join(lines) + "\n", signals


def seen_widths(transactions):
    """Widths that hold all contents that were seen, where the lines don't say them: whole digits of hexadecimal."""
    if not transactions:
        return []
    columns = zip(*(one.content for one in transactions))
    return [max(4, -(-max(column).bit_length() // 4) * 4) for column in columns]


def write_waves(path, names, found, widths, length, marked):
    """Writes the VCD and the save file of GTKWave beside it, with the marker at a cycle where there is one."""
    text, signals = waves(names, found, widths, length)
    tool_kit.write(path, text)
    save = [f'[dumpfile] "{path}"', "[timestart] 0"] if marked is None else \
        [f'[dumpfile] "{path}"', f"[timestart] {max(0, 10 * (marked - AROUND))}", f"*-3.000000 {10 * marked}" + " -1" * 26]
    for name, kind, width in signals:
        save += ["@28" if width == 1 else "@22", f"{name}.{kind}" + (f"[{width - 1}:0]" if width > 1 else "")]
    tool_kit.write(path.removesuffix(".vcd") + ".gtkw", "\n".join(save) + "\n")


def marked_one(options, found):
    """The transaction of --around, which also sets the range."""
    name, _, at = options.around.partition(":")
    ones = found.get(name, [])
    if not at.isdigit() or int(at) >= len(ones):
        has = ", ".join(f"{name}:0 to {name}:{len(ones) - 1}" for name, ones in found.items())
        raise Problem(f"--around {options.around}: no such transaction; there are {has or 'none'}")
    one = ones[int(at)]
    options.first, options.last = max(0, one.start - AROUND), (one.start if one.end is None else one.end) + AROUND
    return one


def as_json(names, found, widths, length, ending):
    """All that the lines tell, for other programs."""
    channels = [{"name": name, **({"direction": widths[name][0], "widths": widths[name][1]} if name in widths else {}),
                 "transactions": [{"start": one.start, "end": one.end, "content": one.content} for one in found.get(name, [])]} for name in names]
    return json.dumps({"length": length, "ending": ending, "channels": channels}, indent=1)


def main():
    """Reads the lines and shows them."""
    parser = argparse.ArgumentParser(description=__doc__, formatter_class=argparse.RawDescriptionHelpFormatter)
    parser.add_argument("lines", metavar="LINES", nargs="?", help="a file of lines (else standard input)")
    parser.add_argument("--from", dest="first", type=int, default=0, metavar="N", help="the first cycle (0)")
    parser.add_argument("--to", dest="last", type=int, metavar="N", help="the last cycle")
    parser.add_argument("--width", type=int, default=shutil.get_terminal_size().columns, help="columns (those of the terminal)")
    parser.add_argument("--contents", action="store_true", help="list the transactions, in decimal")
    parser.add_argument("--hex", action="store_true", help="list the transactions, in hexadecimal")
    parser.add_argument("--around", metavar="CHANNEL:N", help="the columns round transaction N of a channel")
    parser.add_argument("--json", action="store_true", help="print the transactions as JSON in place of the timeline")
    parser.add_argument("--vcd", metavar="OUT", help="write waves to OUT in place of the timeline")
    options = tool_kit.parse_options(parser)
    text = tool_kit.text_of(options.lines) if options.lines else sys.stdin.read()
    events, widths, length, ending = tool_kit.events_of(text, options.lines or "standard input")
    found = tool_kit.transactions_of(events)
    names = list(widths) or list(found)
    if not names:
        raise Problem(f"no transaction in {length} cycles")
    marked = marked_one(options, found) if options.around else None
    if options.json:
        print(as_json(names, found, widths, length, ending))
        return
    if options.vcd:
        write_waves(options.vcd, names, found, widths, length, marked and marked.start)
        return
    print("\n".join(timeline(names, found, length, {time for time, kind, *_ in events if kind == "reset"}, options)))
    if options.contents or options.hex:
        print("\n".join(contents(names, found, length, options)))
    if ending:
        print(ending)
