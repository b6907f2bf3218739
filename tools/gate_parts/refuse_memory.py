"""Refuses the program vidi one allocation a run, each in turn, and looks at what it answers.

    gate memory [EXAMPLE ..] [--only COMMAND] [--most N]

The commands are check, run, record, replay, dump, compare, salvage, migrate and wrap on the files of these examples (pass where none is named). Each is
first run whole, and its allocations are counted; then it is run twice for each of them: that one is refused, and that one with all behind it. The
answer has to be the right one, with its status, its lines and its file, or status 8 with the line `vidi: out of memory` (or without a line where
the words weren't there yet), and no file. With --most N so many allocations a command are tried at most, spread evenly. It wants a C compiler for
the library that refuses, which stands before the C library's allocator.
"""
import argparse
import os
import shutil
import subprocess
import sys
import tempfile

from vidi_tools import tool_kit
from vidi_tools import trace_kit
from vidi_tools.tool_kit import Problem

EXAMPLES = os.path.join(tool_kit.HERE, "..", "examples")
REFUSER = r"""
#include <stddef.h>
#include <stdio.h>
#include <stdlib.h>
extern void *__libc_malloc(size_t), *__libc_calloc(size_t, size_t), *__libc_realloc(void *, size_t), *__libc_memalign(size_t, size_t);
static long asked, first, last;
__attribute__((constructor)) static void begin(void) {
  const char *one = getenv("REFUSE_FIRST"), *other = getenv("REFUSE_LAST");
  first = one ? atol(one) : 0, last = other ? atol(other) : 0, asked = 0;
}
static int refuses(void) { asked++; return first && asked >= first && asked <= last; }
__attribute__((destructor)) static void end(void) {
  const char *path = getenv("REFUSE_COUNT");
  FILE *file;
  if (!path) return;
  first = 0, last = asked;
  if ((file = fopen(path, "w"))) { fprintf(file, "%ld", last); fclose(file); }
}
void *malloc(size_t size) { return refuses() ? NULL : __libc_malloc(size); }
void *calloc(size_t count, size_t size) { return refuses() ? NULL : __libc_calloc(count, size); }
void *realloc(void *from, size_t size) { return refuses() ? NULL : __libc_realloc(from, size); }
void *aligned_alloc(size_t align, size_t size) { return refuses() ? NULL : __libc_memalign(align, size); }
int posix_memalign(void **to, size_t align, size_t size) {
  void *found = refuses() ? NULL : __libc_memalign(align, size);
  if (found) *to = found;
  return found ? 0 : 12;
}
"""
COMMANDS = {
    "check": ["design.v", "TOP"], "run": ["design.v", "map", "script"], "record": ["design.v", "map", "script", "stalls", "out"],
    "replay": ["design.v", "map", "trace", "300", "out"], "dump": ["trace"], "compare": ["trace", "other"], "salvage": ["broken", "out"],
    "migrate": ["old", "out"], "wrap": ["design.v", "map", "out"],
}


class Answer:
    """What a run printed, its status, and the file that it wrote."""

    def __init__(self, said, errors, status, out):
        self.said, self.errors, self.status, self.out = said, errors, status, out

    def __eq__(self, other):
        return vars(self) == vars(other)

    def is_lack(self):
        """Whether it says that memory is wanting, and wrote nothing."""
        return (self.status, self.errors, self.out) == (8, b"", None) and self.said in (b"vidi: out of memory\n", b"")

    def text(self):
        """It in one line."""
        return f"status {self.status}, {self.said[:80]!r}, {self.errors[:200]!r}, {'no file' if self.out is None else f'{len(self.out)} bytes'}"


class Room:
    """A folder with the files of an example, in which vidi runs."""

    def __init__(self, vidi, folder, name, refuser):
        self.vidi, self.folder, self.refuser = vidi, folder, refuser
        for file in ("design.v", "map", "script"):
            shutil.copy(os.path.join(EXAMPLES, name, file), folder)
        self.write("wide", b"capacity 65536\n")
        stalls = os.path.join(EXAMPLES, name, "stalls")
        self.write("stalls", open(stalls, "rb").read() if os.path.exists(stalls) else b"capacity 40\ndrain 3 2\n")
        self.top = tool_kit.Map(os.path.join(folder, "map")).top
        for plan, file in (("stalls", "trace"), ("wide", "other")):
            self.run(["record", "design.v", "map", "script", plan, file], {})
        with open(os.path.join(folder, "trace"), "rb") as file:
            content = file.read()
        self.write("broken", content[:-7])
        self.write("old", trace_kit.encoded_old(trace_kit.read(content)))

    def write(self, name, content):
        """Writes a file."""
        tool_kit.write(os.path.join(self.folder, name), content)

    def run(self, words, refused):
        """How vidi answers where the allocations of `refused` are refused."""
        out, environment = os.path.join(self.folder, "out"), {"LD_PRELOAD": self.refuser, **refused}
        if os.path.exists(out):
            os.remove(out)
        done = subprocess.run([self.vidi, *words], cwd=self.folder, capture_output=True, timeout=60, env=environment)
        content = open(out, "rb").read() if os.path.exists(out) else None
        return Answer(done.stdout, done.stderr, done.returncode, content)

    def count(self, words):
        """The right answer, and how many allocations it takes."""
        path = os.path.join(self.folder, "count")
        right = self.run(words, {"REFUSE_COUNT": path})
        count = int(tool_kit.text_of(path))
        os.remove(path)
        return right, count


def tried(room, command, most):
    """Tries the allocations of a command. Gives how many there are and were tried, how often each answer came, and what was wrong."""
    words = [command, *(room.top if word == "TOP" else word for word in COMMANDS[command])]
    right, count = room.count(words)
    if count < 5:
        raise Problem(f"{room.vidi} takes its memory elsewhere: {count} allocations are seen")
    places = range(1, count + 1) if count <= most else sorted({1 + at * (count - 1) // max(most - 1, 1) for at in range(most)})
    same, lacking, wrong = 0, 0, []
    for place in places:
        for last in (place, 1 << 40):
            answer = room.run(words, {"REFUSE_FIRST": str(place), "REFUSE_LAST": str(last)})
            if answer == right:
                same += 1
            elif answer.is_lack():
                lacking += 1
            else:
                wrong.append(f"allocation {place}{'' if last == place else ' and all behind it'}: {answer.text()}")
    return count, len(places), same, lacking, wrong


def main():
    """Tries all."""
    parser = argparse.ArgumentParser(description=__doc__, formatter_class=argparse.RawDescriptionHelpFormatter)
    parser.add_argument("examples", metavar="EXAMPLE", nargs="*", default=["pass"])
    parser.add_argument("--only", choices=COMMANDS, metavar="COMMAND", help="this command alone")
    parser.add_argument("--most", type=int, default=1_000_000, metavar="N", help="so many allocations a command at most")
    options = tool_kit.parse_options(parser)
    if options.most < 1:
        raise Problem(f"--most is {options.most}, not 1 or more")
    vidi = tool_kit.wanted_program()
    if not shutil.which("cc"):
        raise Problem("cc isn't installed: apt-get install gcc")
    faults = 0
    with tempfile.TemporaryDirectory() as folder:
        refuser = os.path.join(folder, "refuser.so")
        tool_kit.write(os.path.join(folder, "refuser.c"), REFUSER)
        subprocess.run(["cc", "-O1", "-shared", "-fPIC", "-fno-builtin", "-o", refuser, os.path.join(folder, "refuser.c")], check=True)
        for name in options.examples:
            with tempfile.TemporaryDirectory() as place:
                room = Room(vidi, place, name, refuser)
                for command in [options.only] if options.only else COMMANDS:
                    count, many, same, lacking, wrong = tried(room, command, options.most)
                    faults += len(wrong)
                    print(*(f"{command} of {name}: {line}" for line in wrong[:10]), sep="\n", end="\n" if wrong else "")
                    print(f"{command} of {name}: {count} allocations, {many} refused; {lacking} answers out of memory, {same} the right one, "
                          f"{len(wrong)} wrong", flush=True)
    sys.exit(1 if faults else 0)
