"""Cases of the programs of tools/ themselves, which `gate check tools` plays: their words, gate's own commands, makers, completion and bin/. What they
expect was made by hand."""
import os
import re
import subprocess

from vidi_tools import commands
from vidi_tools import tool_kit

TOP = os.path.dirname(tool_kit.HERE)
PROVED = os.path.join(TOP, "docs", "PROVED.md")
# Changes of a word of docs/PROVED.md, and the line that tells each.
CHANGES = [
    ("`AreGates`, `permit_at`", "`AreGaits`, `permit_at`", "crates/room_ledger/specs/Gates.antt declares no AreGaits"),
    ("`chan_map/specs/Text`", "`chan_map/specs/Texts`", "no file crates/chan_map/specs/Texts.antt"),
    ("| `read_map` |", "| `read_maps` |", "no function read_maps in chan_map, vidi_commands"),
    ("`decode`: `decodes`, `only`", "`decode`: `decodes`, `lonely`", "decode in trace_code, vidi_commands has no ensures lonely"),
    ("`Sim`'s `Block` of `net_sim`", "`Sim`'s `Block` of `net_order`", "no impl of Block for Sim in net_order"),
    ("law `one_outcome`", "law `one_outcomes`", "no function one_outcomes in replay_run, vidi_commands")]
# A checkout of three crates: `up` names what stands in `low` through the doors of `mid`.
CHECKOUT = {
    "crates.txt": "low:\nmid: low\nup: mid\n",
    "crates/low/src/lib.rt": "mod data;\nmod hidden;\npub use data::{Data, Turn};\n",
    "crates/low/src/data.rt": "ghost use Rattle.low.specs.Facts.{IsTurned};\nghost use Rattle.std.specs.Prelude.{◌≡◌};\n\n/// Data.\npub struct Data {\n    pub "
                              "n: u32,\n}\n\npub trait Turn {\n    ghost seen: { Self → Data };\n\n    fn turn(&mut self) -> Data\n        ensures turned { "
                              "IsTurned result };\n}\n\nimpl Data {\n    pub fn new(n: u32) -> Data\n        ensures { result.n ≡ n }\n    {\n        Data { n }\n"
                              "    }\n\n    fn hide(&self) {}\n}\n",
    "crates/low/src/hidden.rt": "pub fn nobody() {}\n",
    "crates/low/specs/Lib.antt": "pub mod Facts\n",
    "crates/low/specs/Facts.antt": "-- What is turned.\nabbrev pub IsTurned : ℕ → Type 0\nIsTurned n = n ≡ 0\n",
    "crates/mid/src/lib.rt": "pub use low;\n",
    "crates/mid/specs/Lib.antt": "pub use Rattle.low.specs as low\n",
    "crates/up/src/lib.rt": "ghost use Rattle.mid.specs.low.Facts.{IsTurned as IsRound};\nghost use Rattle.mid.specs.low.Facts as facts;\n\nuse mid::low::Data;\n\n"
                            "/// Takes it: `{` and `}` of a comment don't count.\npub fn take(\n    data: &Data, // one\n    times: u32,\n) -> u32\n    requires few { "
                            "times ≤ 3 }\n    ensures round { IsRound data.now }\n    ensures facts { facts.IsTurned result }\n{\n    let text = \"}\";\n    times\n}\n\n"
                            "#[test]\npub fn tries() {}\n",
    "crates/up/specs/Lib.antt": ""}
CONTRACTS = """low::Data  struct Data { pub n: u32 }
low::Data::new  ensures { result.n ≡ n }
low::Data::new  fn new(n: u32) -> low::Data
low::Turn  ghost seen: { Self → Data }
low::Turn  trait Turn
low::Turn::turn  ensures turned { Rattle.low.specs.Facts.IsTurned result }
low::Turn::turn  fn turn(&mut self) -> low::Data
up::take  ensures facts { Rattle.low.specs.Facts.IsTurned result }
up::take  ensures round { Rattle.low.specs.Facts.IsTurned data.now }
up::take  fn take(data: &low::Data, times: u32) -> u32
up::take  requires few { times ≤ 3 }
"""


def check_promises(checker):
    """The page as it is, and with words of rows changed: each is told, and no other row."""
    said, status = checker.run("gate", "promises")
    checker.case("gate promises", (bool(re.fullmatch(r"\d+ promises, 0 wrong\n", said)), status), (True, 0))
    text = tool_kit.text_of(PROVED)
    for old, new, line in CHANGES:
        checker.case(f"docs/PROVED.md has {old}", text.count(old) > 0, True)
        text = text.replace(old, new, 1)
    checker.write("page.md", text)
    said, status = checker.run("gate", "promises", "page.md")
    told = [line.rsplit(": ", 1)[1] for line in said.splitlines()[:-1]]
    checker.case("gate promises of changed rows", (sorted(told), status), (sorted(line for _, _, line in CHANGES), 1))
    checker.write("empty.md", "# A page\n")
    checker.refused("gate promises of no table", ["gate", "promises", "empty.md"], "promises: the page has no row")


def check_contracts(checker):
    """The contracts of a small checkout: doors are followed, and what isn't public or is a test stays out."""
    for path, text in CHECKOUT.items():
        os.makedirs(os.path.join(checker.folder, os.path.dirname(path)), exist_ok=True)
        checker.write(path, text)
    checker.case("gate contracts", checker.run("gate", "contracts", "--all", "."), (CONTRACTS, 0))
    said, _ = checker.run("gate", "contracts", "--crates", "up", "--no-paths", ".")
    checker.case("gate contracts --no-paths", said.splitlines()[1], "take  ensures round { IsTurned data.now }")
    said, _ = checker.run("gate", "contracts", "--crates", "low", "--definitions", ".")
    checker.case("gate contracts --definitions", said.splitlines()[0],
                 "Rattle.low.specs.Facts.IsTurned  abbrev pub IsTurned : ℕ → Type 0 IsTurned n = n ≡ 0")
    checker.write("crates/up/src/lib.rt", CHECKOUT["crates/up/src/lib.rt"].replace("times ≤ 3", "times ≤ 4"))
    os.rename(os.path.join(checker.folder, "crates"), os.path.join(checker.folder, "new"))
    os.makedirs(os.path.join(checker.folder, "after"))
    os.rename(os.path.join(checker.folder, "new"), os.path.join(checker.folder, "after", "crates"))
    for path, text in CHECKOUT.items():
        os.makedirs(os.path.join(checker.folder, os.path.dirname(path)), exist_ok=True)
        checker.write(path, text)
    wanted = "- up::take  requires few { times ≤ 3 }\n+ up::take  requires few { times ≤ 4 }\n11 lines and 11, 2 of one alone\n"
    checker.case("gate contracts of two checkouts", checker.run("gate", "contracts", "--all", ".", "after"), (wanted, 1))
    checker.case("gate contracts of the same twice", checker.run("gate", "contracts", "--all", ".", "."), ("11 lines and 11, 0 of one alone\n", 0))
    checker.refused("gate contracts of nothing", ["gate", "contracts", "nothing"], "contracts: nothing is no checkout and no commit")
    checker.case("gate contracts of no crate", checker.run("gate", "contracts", "--crates", "none", "."), ("\ncontracts: no crate none in .\n", 2))


def check_programs(checker):
    """What the three programs say of their words."""
    for program, count in (("vidi-tools", len(commands.TOOLS)), ("gate", 16), ("make", 12)):
        said, status = checker.run(program, "--help")
        checker.case(f"{program} --help", (len(re.findall(rf"^  {program} \S+ ", said, re.M)), status), (count, 0))
        checker.case(f"{program} without words", checker.run(program), (said, 1))
        checker.refused(f"{program} of no command", [program, "nothing"], f"{program}: no command nothing; see {program} --help")
    for name in [one.name for one in commands.TOOLS]:
        said, status = checker.run("vidi-tools", name, "--help")
        checker.case(f"vidi-tools {name} --help", (f"    {name} " in said or f"| {name} " in said, status), (True, 0))
    checker.refused("vidi-tools --vidi of nothing", ["vidi-tools", "--vidi", "none", "say", "run"],
                    re.compile("say: no program vidi at .*/none: build one with vidi-tools build OUT"))
    checker.refused("vidi-tools --vidi alone", ["vidi-tools", "--vidi"], "vidi-tools: --vidi wants a program; see vidi-tools --help")
    checker.case("vidi-tools --vidi=PROGRAM", checker.run("vidi-tools", f"--vidi={checker.vidi}", "say", "sample", "1"), checker.run("vidi", "sample", "1"))
    checker.refused("make of too few words", ["make", "chain"], "chain: wants KIND MODULES; see make chain --help")
    checker.refused("make of other words", ["make", "design", "many"], re.compile("design: wants BYTES.*"))
    checker.case("make chain", checker.run("make", "chain", "chain", "2"), ("module m0();endmodule\nmodule m1();m0 u0();endmodule\n", 0))


def check_made(checker):
    """What is made is as it is made; the registers; what gate says of no word."""
    for words, line in ((("cases", "--check"), r"\d+ files of cases are as they are made\n"), (("lists", "--check"), r"3 files are as they .*\n"),
                        (("edits", "--check"), r"wrong bodies in tools/edits: \d+, 0 wrong\n"), (("definitions", "Stability"), r"(?s)trace_model/specs/Stability: .*"),
                        (("words", "latch"), r"(?s).*\| `latch B` \|.*")):
        said, status = checker.run("gate", *words)
        checker.case(f"gate {' '.join(words)}", (bool(re.fullmatch(line, said)), status), (True, 0))
    checker.refused("gate words of none", ["gate", "words", "nothere"], "words: no word nothere")
    checker.refused("gate definitions of none", ["gate", "definitions", "nothere"], "definitions: no file of specs/ has nothere")
    checker.refused("gate check of no part", ["gate", "check", "nothing"],
                    "check: no part nothing; there are examples, tools, pages, printed, wrapped, resets")


def check_bin(checker):
    """bin/ can stand on PATH: vidi and vidi-tools run from elsewhere, man finds the page, and completion completes."""
    path = {**os.environ, "PATH": os.path.join(TOP, "bin") + os.pathsep + os.environ["PATH"], "VIDI": checker.vidi}
    done = subprocess.run(["vidi", "sample", "1"], cwd=checker.folder, env=path, capture_output=True, text=True)
    checker.case("bin/vidi", (done.stdout, done.returncode), checker.run("vidi", "sample", "1"))
    done = subprocess.run(["vidi", "sample", "1"], cwd=checker.folder, env={**path, "VIDI": "/none"}, capture_output=True, text=True)
    checker.case("bin/vidi of no program", (done.stdout, done.stderr, done.returncode),
                 ("", "vidi: no program at /none: vidi-tools build OUT makes one, unproved; set VIDI to it\n", 127))
    done = subprocess.run(["vidi-tools", "--help"], cwd=checker.folder, env=path, capture_output=True, text=True)
    checker.case("bin/vidi-tools", (done.stdout, done.returncode), checker.run("vidi-tools", "--help"))
    script = os.path.join(TOP, "share", "bash-completion", "completions", "vidi")
    for words, wanted in (("vidi sa", "salvage sample"), ("vidi-tools left", "left-out"), ("vidi-tools --vidi x ca", "capture"), ("vidi-tools say du", "dump"),
                          ("vidi-tools again --u", "--until"), ("vidi run d", "")):
        text = f'source {script}; COMP_WORDS=({words}); COMP_CWORD={len(words.split()) - 1}; _vidi; echo "${{COMPREPLY[@]}}"'
        done = subprocess.run(["bash", "-c", text], capture_output=True, text=True)
        checker.case(f"completion of {words}", (done.stdout, done.stderr), (wanted + "\n", ""))
    if checker.has("the man page", "man"):
        done = subprocess.run(["man", "-l", os.path.join(TOP, "share", "man", "man1", "vidi.1")], env={**path, "MANPAGER": "cat", "MANWIDTH": "100"},
                              capture_output=True, text=True)
        lines = [one.name for one in commands.VIDI if re.search(rf"^ +vidi {one.name} ", done.stdout, re.M)]
        checker.case("the man page", (lines, done.returncode), ([one.name for one in commands.VIDI], 0))


CHECKS = (check_programs, check_promises, check_contracts, check_made, check_bin)
