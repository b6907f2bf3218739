"""Writes a random design whose script asks for one to five resets in mid-run: design.v, map, script and stalls in FOLDER.

    make resets SEED FOLDER [CHANNELS]

The design, the map, the script's steps and the plan are those of `make random` of the same words; the store has room for a reset's bytes too. The resets
come in any row, some in rows side by side, some behind the last row.
"""
import os
import random
import sys

from make_kinds import random_design
from vidi_tools import icarus_rows
from vidi_tools import tool_kit
from vidi_tools.tool_kit import Problem


def with_resets(draw, script):
    """The script with one to five lines `reset at T`, somewhere among its lines."""
    head, *lines = script.splitlines()
    times, latest = [], int(head.split()[1]) + 3
    for _ in range(draw.randrange(1, 6)):
        first = times[-1] + 1 if times else 1
        if first <= latest:
            times.append(min(latest, draw.choice([first, first + 1, draw.randrange(first, latest + 1)])))
    places = sorted(draw.randrange(len(lines) + 1) for _ in times)
    for done, (place, time) in enumerate(zip(places, times)):
        lines.insert(place + done, f"reset at {time}")
    return "\n".join([head, *lines]) + "\n"


def with_room(stalls):
    """The plan with room for a reset's bytes."""
    head, *lines = stalls.splitlines()
    return "\n".join([f"capacity {int(head.split()[1]) + icarus_rows.RESET_BYTES}", *lines]) + "\n"


def made(seed, count=None):
    """The files of a seed: their texts by their names."""
    files = random_design.made(seed, count)
    return {**files, "script": with_resets(random.Random(f"resets {seed}"), files["script"]), "stalls": with_room(files["stalls"])}


def main():
    """Writes the files."""
    numbers = [int(word) for word in sys.argv[1:2] + sys.argv[3:] if word.isdigit()]
    if len(numbers) != len(sys.argv) - 2 or len(numbers) not in (1, 2) or numbers[1:] > [26] or not os.path.isdir(sys.argv[2]):
        raise Problem("wants a number and a folder, and maybe a number up to 26: make resets SEED FOLDER [CHANNELS]")
    for name, text in made(*numbers).items():
        tool_kit.write(os.path.join(sys.argv[2], name), text)
