"""Checks a crate over the libraries that `rt ci` left in crates/NAME/out.

    gate prove CRATE [WORDS..]

WORDS are what `rattle check` takes, for example:

    --only PATH        one function or module, with those that it calls; of "" what needs no proof to find: names, types, words
    --allow-holes      past open goals, printing each
    --test             with the tests
    --start FUNCTION   writes the files from which to start its proof

`rt check` builds these libraries anew, since `rt ci` keeps their statements alone. This builds one, with its proofs, where there is none or it
is older than its sources or than a library that it stands on. What was checked is kept in crates/NAME/out/prove, so a second check is quick.
"""
import os
import shutil
import subprocess
import sys
import time

from gate_parts.edits import PARTS, ROOT, Kit
from vidi_tools.tool_kit import Problem


def is_new(kit, crate):
    """Whether there is a library of the crate that isn't older than what it was made of. Those that it stands on are there."""
    if not kit.library(crate).is_dir():
        return False
    folders = [ROOT / "crates" / crate / part for part in PARTS]
    made_of = [path for folder in folders if folder.is_dir() for path in [folder, *folder.rglob("*")]]
    made_of += [kit.library(it) for it in kit.below(crate)]
    return max(path.stat().st_mtime for path in made_of) <= kit.library(crate).stat().st_mtime


def called(kit, verb, crate, words):
    """The exit status of a call of the checker on a crate."""
    words = [*words, *([] if "--jobs" in words else ["--jobs", "2"])]
    return subprocess.run(kit.command(verb, crate, words), cwd=ROOT / "crates" / crate).returncode


def check(kit, crate, words):
    """The exit status of a check of a crate over what earlier ones kept."""
    kept = ROOT / "crates" / crate / "out" / "prove"
    kept.mkdir(parents=True, exist_ok=True)
    return called(kit, "check", crate, [*words, "--incremental", kept])


def build(kit, crate):
    """Builds the library of a crate in the place of the one that is there."""
    print(f"prove: building {crate}", flush=True)
    library, begun = kit.library(crate), time.time()
    half = library.with_name("half.rlib")
    library.parent.mkdir(parents=True, exist_ok=True)
    shutil.rmtree(half, ignore_errors=True)
    if called(kit, "build", crate, ["--statements", "-o", half]):
        raise Problem(f"{crate} isn't proved, so there is no library of it")
    library.with_name("stamp").unlink(missing_ok=True)  # rt's, of the library that was there
    shutil.rmtree(library, ignore_errors=True)
    half.rename(library)
    os.utime(library, (begun, begun))


def main():
    """Builds what is lacking, and checks."""
    words = sys.argv[1:]
    if words in (["--help"], ["-h"]):
        print(__doc__.strip())
        return
    kit = Kit()
    if not words or words[0] not in kit.uses:
        raise Problem(f"wants a crate of crates.txt, not {words[0] if words else 'no word'}")
    for crate in kit.below(words[0]):
        if not is_new(kit, crate):
            build(kit, crate)
    sys.exit(check(kit, words[0], words[1:]))
