"""Builds the program vidi in minutes, UNPROVED.

    build OUT

OUT's name has to say what it is, as in vidi-unproved. No proof is tried: it is what `rt try` would run, with the run-time checks of
`rt try`, at -O2, and a label at the end of the file says so (`strings OUT | tail -1`). It is for a first look and for work on designs.
The program whose every answer is proved is the one that `rt run` leaves in crates/vidi/out/vidi, after hours of proofs.
"""
import argparse
import glob
import os
import re
import shutil
import subprocess
import tempfile

from vidi_tools import tool_kit
from vidi_tools.tool_kit import Problem

LABEL = b"\nvidi, quick build: unproved, with the run-time checks of rt try; rt run builds the proved program\n"
KEEPER = """#!/bin/bash
kept=$(mktemp -d "{folder}/keep/{tool}.XXXXXX")
for word in "$@"; do [ -f "$word" ] && cp "$word" "$kept/"; done
exec "{kit}/toolchain/bin/{tool}" "$@"
"""
COMPILE = ("--target=x86_64-unknown-linux-gnu -march=x86-64 -mllvm -no-trap-after-noreturn -ffunction-sections -fdata-sections -mllvm "
           "-trap-unreachable --no-default-config -no-canonical-prefixes -c -x ir -fPIE -O2").split()
LINK = "-m elf_x86_64 -pie --dynamic-linker /lib64/ld-linux-x86-64.so.2 --as-needed --eh-frame-hdr --gc-sections".split()


def kit_folder():
    """The folder of the Rattle kit."""
    if not shutil.which("rt"):
        raise Problem("rt isn't installed: this wants a machine with the Rattle kit")
    return os.path.dirname(subprocess.run(["rt", "doc"], capture_output=True, text=True).stdout.strip())


def keeping_kit(kit, folder):
    """A copy of rt in the folder whose compiler and linker keep what they are given."""
    for name in ("tools/bin", "bin", "keep"):
        os.makedirs(os.path.join(folder, name))
    os.symlink(f"{kit}/toolchain/lib", f"{folder}/tools/lib")
    for path in glob.glob(f"{kit}/toolchain/bin/*"):
        name = os.path.basename(path)
        if name in ("clang", "ld.lld"):
            tool_kit.write(f"{folder}/tools/bin/{name}", KEEPER.format(folder=folder, kit=kit, tool=name))
            os.chmod(f"{folder}/tools/bin/{name}", 0o755)
        else:
            os.symlink(path, f"{folder}/tools/bin/{name}")
    shutil.copy(f"{kit}/bin/rt", f"{folder}/bin/rt")
    text = tool_kit.text_of(f"{kit}/bin/rtlib.py")
    text = re.sub(r"^KIT = .*", f'KIT = "{kit}"', text, flags=re.M).replace('f"{KIT}/toolchain"', f'"{folder}/tools"')
    tool_kit.write(f"{folder}/bin/rtlib.py", text)


def done(words, **options):
    """Runs a command; a failure is a Problem with the end of what it said."""
    run = subprocess.run(words, capture_output=True, text=True, **options)
    if run.returncode:
        last = (run.stderr + run.stdout).strip().splitlines()[-1:]
        raise Problem(f"{os.path.basename(words[0])}: {last[0] if last else 'failed'}")


def built(crate, folder, options):
    """The path of the program of a crate's folder, compiled at -O2 of what rt try had compiled."""
    kit, name = kit_folder(), os.path.basename(crate)
    keeping_kit(kit, folder)
    tool_kit.at_work(options, f"rt try compiles {name} and what it stands on, without proofs; some two minutes")
    tried = subprocess.run(["python3", f"{folder}/bin/rt", "try", "--", "nothing"], cwd=crate, capture_output=True, text=True)
    modules = sorted(glob.glob(f"{folder}/keep/clang.*/module.bc"), key=os.path.getsize)
    links = glob.glob(f"{folder}/keep/ld.lld.*")
    if not modules or not links:
        said = (tried.stdout + tried.stderr).strip().splitlines()
        first = [line for line in said if "error" in line] + said[-1:] + ["it said nothing"]
        raise Problem(f"rt try built no program: {first[0]}")
    tool_kit.at_work(options, "clang compiles it again, at -O2; a minute or two")
    tools, lib = f"{kit}/toolchain", f"{kit}/toolchain/lib"
    done([f"{tools}/bin/clang", f"--sysroot={tools}", *COMPILE, modules[-1], "-o", f"{folder}/main.o"])
    done([f"{tools}/bin/ld.lld", *LINK, "-o", f"{folder}/program", *(f"{lib}/{name}" for name in ("Scrt1.o", "crti.o", "crtbeginS.o")),
          f"{folder}/main.o", "input-1", "input-2", "input-3",
          *(f"{lib}/{name}" for name in ("libm.so.6", "libc.so.6", "libc_nonshared.a", "ld-linux-x86-64.so.2", "libgcc.a", "libgcc_s.so.1",
                                         "crtendS.o", "crtn.o"))], cwd=links[0])
    return f"{folder}/program"


def main():
    """Builds, labels, and says what it is."""
    parser = argparse.ArgumentParser(description=__doc__, formatter_class=argparse.RawDescriptionHelpFormatter)
    parser.add_argument("out", metavar="OUT", help="the program, such as vidi-unproved")
    tool_kit.add_verbose(parser)
    options = tool_kit.parse_options(parser)
    if "unproved" not in os.path.basename(options.out):
        raise Problem(f"{options.out}: the name has to say what it is, as in vidi-unproved")
    if not os.path.isdir(os.path.dirname(os.path.abspath(options.out))):
        raise Problem(f"{options.out}: no such folder")
    with tempfile.TemporaryDirectory() as folder:
        with open(built(os.path.join(tool_kit.HERE, "..", "crates", "vidi"), folder, options), "rb") as file:
            program = file.read()
    tool_kit.write(options.out, program + LABEL)
    os.chmod(options.out, 0o755)
    print(f"{options.out}: unproved; it tells what a proved build would, with run-time checks in the place of proofs")
