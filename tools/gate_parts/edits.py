"""Tries the wrong bodies of tools/edits, which `rt ci` doesn't try: the prover must refuse each.

    gate edits [--more] [CRATE ..]      of these crates, or of all that have some
    gate edits --check                  proves nothing: each edit can be made in the sources as they are

They stand in tools/edits/CRATE and, those that tell less, in tools/edits/CRATE/more, which are tried with --more alone. Their form is that
of the must-fail edits in crates/CRATE/must-fail. The changed functions alone are checked, with those that they call (`rattle check
--only`), over the libraries that `rt ci` left in crates/NAME/out: a check of the crate as it stands, which `rt ci` begins with, isn't
needed, since `rt ci` has proved it. Edits of different functions of a crate are made at once in a copy of it. An edit is refused where a
goal of the function that it changes isn't proved; one that may be refused for another edit's sake is tried alone. What was refused is
kept in the user's cache folder, by the toolchain and all files that the check reads.
"""

import concurrent.futures
import contextlib
import functools
import hashlib
import os
import pathlib
import re
import shutil
import subprocess
import sys
import tempfile

ROOT = pathlib.Path(__file__).resolve().parent.parent.parent
EDITS = ROOT / "tools" / "edits"
KEPT = pathlib.Path(os.environ.get("XDG_CACHE_HOME") or pathlib.Path.home() / ".cache") / "vidi" / "edits"
PARTS = ("src", "specs", "proofs")
# What the prover says of a proof that names what an edit took away, or that rests on another one: no goal of the function's own.
NAMES_ALONE = re.compile(r"has no field|is not in scope|has no `|was not admitted")
FUNCTION = re.compile(r"(\s*)(?:pub(?:\(\w+\))? )?(?:const )?fn (\w+)")
IMPL = re.compile(r"impl(?:<(?P<own>.*?)>)? (?:(?P<trait>\w+)(?:<(?P<asked>.*?)>)? for )?(?P<name>\w+)(?:<(?P<given>.*)>)?")


def owner(block):
    """The name that the prover gives the type of an `impl` block: `HostShelfShelf` of the trait `Shelf` for `HostShelf`, `RecordShell+Sim`,
    `FeederPlayerFeed` of `Player<Feed>`."""
    own, trait, asked, name, given = block.group("own", "trait", "asked", "name", "given")
    variables = [it.split(":")[0].strip() for it in (own or "").split(",")]
    types = [it.strip() for it in (given or "").split(",") if it.strip() not in ["", *variables]]
    of = [it.strip() for it in (asked or "").split(",") if it.strip() not in variables]
    return name + "".join(f"+{it}" for it in types if it.isalnum()) + (trait or "") + "".join(it for it in of if it.isalnum())


class Edit:
    """A wrong body: the texts that it changes, by their files, and the function that the first of them stands in."""

    def __init__(self, crate, path):
        self.crate, self.path, self.changes, file = crate, path, [], None
        for line in path.read_text().splitlines():
            word, _, rest = line.partition(": ")
            if word == "file":
                file = rest.strip()
            elif word == "old" and file:
                self.changes.append([file, rest, None])
            elif word == "new" and self.changes:
                self.changes[-1][2] = rest

    def name(self):
        return str(self.path.relative_to(EDITS))

    def text(self, file):
        return (ROOT / "crates" / self.crate / file).read_text()

    def fault(self):
        """Why the edit can't be made, or None."""
        if not self.changes or any(new is None for _, _, new in self.changes):
            return "it changes nothing"
        counts = [(self.text(file).count(old), old) for file, old, _ in self.changes]
        return next((f"its text is there {count} times, not once: {old.strip()}" for count, old in counts if count != 1), None)

    def make_in(self, folder):
        """Makes the edit in a copy of the crate."""
        for file, old, new in self.changes:
            path = pathlib.Path(folder, file)
            path.write_text(path.read_text().replace(old, new))

    def home(self, name):
        """The path of the crate's module that declares a type: methods in `impl` blocks elsewhere are named after it."""
        source = ROOT / "crates" / self.crate / "src"
        declares = re.compile(rf"^(?:pub(?:\(crate\))? )?(?:struct|enum) {name}\b", re.M)
        found = [it for it in sorted(source.rglob("*.rt")) if declares.search(it.read_text())]
        return list(found[0].relative_to(source).with_suffix("").parts) if found else None

    @functools.cached_property
    def lines(self):
        """The lines of the function that the first text stands in, from 0: its first and last one. None where it stands in none."""
        file, old, _ = self.changes[0]
        text = self.text(file)
        lines, at = text.splitlines(), text[: text.index(old)].count("\n")
        first = next((it for it in reversed(range(at + 1)) if FUNCTION.match(lines[it]) or lines[it] == "}"), None)
        if first is None or lines[first] == "}":
            return None
        return first, lines.index(FUNCTION.match(lines[first])[1] + "}", first)

    @functools.cached_property
    def function(self):
        """The path of that function, or of the file's module where there is none; and what its proof's folder ends with."""
        lines, path = self.text(self.changes[0][0]).splitlines(), list(pathlib.Path(self.changes[0][0]).with_suffix("").parts[1:])
        if not self.lines:
            return "::".join(path), "/".join(path)
        first = self.lines[0]
        indent, name = FUNCTION.match(lines[first]).groups()
        block = next((it for line in reversed(lines[:first]) if (it := IMPL.match(line))), None) if indent else None
        if block and not block["trait"]:
            path = self.home(block["name"]) or path
        path += [owner(block), name] if block else [name]
        cycle = re.match(r"\s*#\[cycle\((\w+)\)\]", lines[first - 1])
        return "::".join(path), f"+{cycle[1]}" if cycle else "/".join(path)


class Kit:
    """The toolchain, and which crates a crate names."""

    def __init__(self):
        told = [subprocess.run(["rt", word], stdout=subprocess.PIPE, text=True, check=True).stdout.strip() for word in ("doc", "version")]
        self.at, self.version, self.uses = pathlib.Path(told[0]).parent, told[1], {}
        for line in (ROOT / "crates.txt").read_text().splitlines():
            name, colon, uses = line.partition(":")
            if colon and not name.startswith("#"):
                self.uses[name.strip()] = uses.split()

    @functools.cache
    def below(self, crate):
        """The repository's crates that a crate stands on, lowest first."""
        found = {}
        for it in self.uses[crate]:
            if it in self.uses:
                found.update(dict.fromkeys([*self.below(it), it]))
        return list(found)

    def library(self, crate):
        return ROOT / "crates" / crate / "out" / "rlib" / f"{crate}.rlib" if crate in self.uses else self.at / "rlibs" / f"{crate}.rlib"

    def command(self, verb, crate, words):
        """A call of the checker on a crate, to be made in the crate's folder or in a copy of it."""
        root = "src/main.rt" if (ROOT / "crates" / crate / "src" / "main.rt").is_file() else "src/lib.rt"
        externs = [f"{it}={self.library(it)}" for it in ["std", *self.uses[crate]]]
        folders = [self.at / "rlibs", *(self.library(it).parent for it in self.below(crate))]
        return [
            *[self.at / "bin" / "rattle", verb, "--crate-name", crate, root, "--links", f"{crate}="],
            *[word for it in externs for word in ("--extern", it)],
            *[word for it in folders for word in ("-L", f"dependency={it}")],
            *["--antt-project", self.at / "rattle" / "logic" / "antt-project.json", "--logic-built", self.at / "logic_built"],
            *words,
        ]

    @functools.cache
    def sum_of(self, crate):
        """A sum of the toolchain and of all files of a crate and of those below it that a check reads."""
        read = hashlib.sha256(repr([self.version, crate, self.uses[crate], [self.sum_of(it) for it in self.below(crate)]]).encode())
        for path in sorted(it for part in PARTS for it in (ROOT / "crates" / crate / part).rglob("*") if it.is_file()):
            read.update(repr((str(path.relative_to(ROOT)), path.read_bytes())).encode())
        return read.hexdigest()

    def place(self, edit):
        """The file that keeps what came of an edit."""
        return KEPT / hashlib.sha256(repr((self.sum_of(edit.crate), edit.changes)).encode()).hexdigest()


def check_with(kit, crate, edits):
    """What the prover says of the functions that these edits change, once they are made in a copy of the crate."""
    with tempfile.TemporaryDirectory(prefix="try-edits-") as room:
        for part in PARTS:
            if (ROOT / "crates" / crate / part).is_dir():
                shutil.copytree(ROOT / "crates" / crate / part, f"{room}/{part}")
        for edit in edits:
            edit.make_in(room)
        functions = sorted({edit.function[0] for edit in edits})
        words = ["--jobs", "1", *(word for it in functions for word in ("--only", it))]
        return subprocess.run(kit.command("check", crate, words), cwd=room, stdout=subprocess.PIPE, stderr=subprocess.STDOUT, text=True, errors="replace")


def own_goal(edit, said):
    """The first line that shows a goal or a proof of the function's own (or of its module's) that the prover doesn't accept, or None."""
    own = re.compile(rf"proofs/(\S*/)?{re.escape(edit.function[1])}/")
    told = [line for line in said.splitlines() if own.search(line)]
    told = [line for line in told if ": error" in line or "must prove" in line or "expected answers" in line]
    for place in re.finditer(rf"^note: {re.escape(edit.changes[0][0])}:(\d+):\d+: it is not proved .*", said, re.M):
        if edit.lines and edit.lines[0] < int(place[1]) <= edit.lines[1] + 1:
            told.append(place[0])
    return next((line.strip() for line in told if not NAMES_ALONE.search(line)), None)


def groups(edits):
    """The edits in as few lists as can be in which no two change one function."""
    found = []
    for edit in edits:
        place = next((it for it in found if edit.function[1] not in [other.function[1] for other in it]), None)
        if place is None:
            found.append([edit])
        else:
            place.append(edit)
    return found


def tried(kit, crate, edits):
    """What each of the edits comes to: the edit, whether it is refused, and a line that says why."""
    ran = check_with(kit, crate, edits)
    goals = [own_goal(edit, ran.stdout) for edit in edits]
    has_ended = ran.returncode == 1 and re.search(r"^only=\d+ proved=\d+$", ran.stdout, re.M)
    if len(edits) == 1 and not (has_ended and goals[0]):
        last = "".join(ran.stdout.strip().splitlines()[-1:])
        return [(edits[0], False, f"no goal of its function is refused; the check ended with {ran.returncode}: {last}")]
    found = []
    for edit, goal in zip(edits, goals):
        found.extend([(edit, True, goal)] if has_ended and goal else tried(kit, crate, [edit]))
    return found


def kept_or_tried(kit, crate, edits):
    """The same, with what was refused before."""
    kept = [(edit, True, kit.place(edit).read_text()) for edit in edits if kit.place(edit).is_file()]
    others = [edit for edit in edits if edit not in [it[0] for it in kept]]
    new = tried(kit, crate, others) if others else []
    for edit, is_refused, why in new:
        if is_refused:
            with contextlib.suppress(OSError):
                KEPT.mkdir(parents=True, exist_ok=True)
                kit.place(edit).write_text(why)
    return kept + new


def check(edits):
    """Prints each edit that can't be made, and how many there are in all."""
    told = [f"{edit.name()}: {edit.fault()}" for edit in edits if edit.fault()]
    print("\n".join([*told, f"wrong bodies in tools/edits: {len(edits)}, {len(told)} wrong"]))
    return 1 if told or not edits else 0


def try_all(crates, edits):
    """Tries the edits, the crates beside each other, prints what each came to, and answers the exit status."""
    kit = Kit()
    lacking = sorted({it for crate in crates for it in kit.below(crate) if not kit.library(it).is_dir()})
    if lacking:
        sys.exit(f"edits: run rt ci first: there is no library of {lacking[0]}")
    lists = [(crate, group) for crate in crates for group in groups([it for it in edits if it.crate == crate])]
    with concurrent.futures.ThreadPoolExecutor(min(4, os.cpu_count() or 1)) as pool:
        found = [it for one in pool.map(lambda it: kept_or_tried(kit, *it), lists) for it in one]
    for edit, is_refused, why in found:
        print(f"{edit.name()}: {'refused' if is_refused else 'NOT REFUSED'}: {why[:200]}")
    wrong = sum(not is_refused for _, is_refused, _ in found)
    print(f"wrong bodies in tools/edits: {len(found)} tried, {wrong} not refused")
    return 1 if wrong or not found else 0


def main():
    words = sys.argv[1:]
    crates = [word for word in words if not word.startswith("--")] or sorted(it.name for it in EDITS.iterdir())
    form = "**/*.edit" if {"--more", "--check"} & set(words) else "*.edit"
    edits = [Edit(crate, path) for crate in crates for path in sorted((EDITS / crate).glob(form))]
    unknown = [word for word in words if word.startswith("--") and word not in ("--more", "--check")]
    unknown += [crate for crate in crates if not (EDITS / crate).is_dir()]
    if unknown:
        sys.exit(f"edits: no option and no crate of tools/edits is {unknown[0]}")
    crates = [crate for crate in crates if any(edit.crate == crate for edit in edits)]
    sys.exit(check(edits) if "--check" in words else try_all(crates, edits))
