"""Cases of `say` and `show`, which `gate check tools` plays: each refusal of the pages gets a sentence that names file, line, port or limit."""
import json
import os
import re

from vidi_tools import commands
from vidi_tools import tool_kit

EXAMPLES = os.path.abspath(tool_kit.EXAMPLES)
PAGES = os.path.join(tool_kit.HERE, "..", "docs")
SAID = [  # what is written to which file, the command, and the sentence
    ({"map": ("in a a_v a_r a_d", "in a a_v a_r a_e")}, "run design.v map script",
     "map line 3, `in a a_v a_r a_e`: the design has no port a_e; it has clk, a_v, a_r, a_d, b_v, b_r, b_d"),
    ({"map": ("in a a_v a_r a_d", "in a a_v a_r b_d")}, "run design.v map script",
     "map line 3, `in a a_v a_r b_d`: b_d is an output, and an input is wanted there"),
    ({"map": ("out b b_v b_r b_d\n", "")}, "run design.v map script",
     "no line of map names the port b_v: name it in a channel, or write ignore b_v"),
    ({"map": ("top pass", "\ufefftop pass")}, "run design.v map script", "map begins with a byte-order mark: save it as plain text without one"),
    ({}, "run map design.v script", "map looks like a map, and a design is wanted there: are map and design exchanged?"),
    ({}, "run design.v script map", "script looks like a script, and a map is wanted there: are script and map exchanged?"),
    ({"script": ("a send 5", "a send 500")}, "run design.v map script",
     "script line 2, `a send 500`: 500 doesn't fit a_d, which has 8 bits: the most is 255"),
    ({"script": ("a send 5", "a send 5 5")}, "run design.v map script",
     "script line 2, `a send 5 5`: send wants a number for each content port of a (a_d), and 2 stand there"),
    ({"script": ("a send 5", "c send 5")}, "run design.v map script", "script line 2, `c send 5`: the map has no channel c; it has a, b"),
    ({"script": ("b take all", "b send 1")}, "run design.v map script", "script line 4, `b send 1`: b is outward: write take"),
    ({"script": ("a send 5", "reset at 0")}, "run design.v map script",
     "script line 2, `reset at 0`: a reset comes in row 1 to 49,999, and later than that of the reset line before it"),
    ({"script": ("a send 5", "reset at one")}, "run design.v map script",
     "script line 2, `reset at one`, is no line of a script: cycles N first, then CH send N .., CH take N, CH take all, CH wait N, CH after OTHER N, "
     "reset at T"),
    ({"stalls": (None, "capacity 21\n")}, "record design.v map script stalls out",
     "stalls has a capacity of 21 bytes, and a start and an end of each channel need 22: write capacity 22"),
    ({"design.v": ("assign b_d", "assign c_d")}, "run design.v map script",
     "design.v declares no c_d: declare it, mend the name, or name the right top"),
    ({}, "dump design.v", "design.v looks like a design, and a trace is wanted there: are design and trace exchanged?"),
    ({"notes": (None, "some words\n")}, "dump notes", "notes is no trace: it doesn't begin with VIDITRC"),
    ({"old.trace": (None, "VIDITRC1\1\0\1a\0\0\0\0\0\0")}, "dump old.trace",
     "old.trace is an old trace, of version 1: vidi migrate old.trace OUT writes it in today's bytes"),
    ({"new.trace": (None, "VIDITRC2\1\0\1a\0\0\0\0\0\0")}, "migrate new.trace out", "new.trace is a trace of version 2 already"),
    ({"head.trace": (None, "VIDITRC2\1\0\1a")}, "dump head.trace", "head.trace begins with VIDITRC, but its list of channels isn't whole"),
    ({"cut.trace": (None, "VIDITRC2\1\0\1a\0\1\0\0\1\1\1\0")}, "dump cut.trace",
     "cut.trace is whole up to byte 18 of 20: vidi salvage cut.trace OUT writes what is whole"),
    ({"other.trace": (None, "VIDITRC2\1\0\1a\1\4\0\0\0\0\0")}, "replay design.v map other.trace 9 out",
     "other.trace has other channels from number 0 on: map has in a with 1 contents; other.trace has in a 4"),
    ({}, "run design.v map .", ". can't be read: it is a folder"),
    ({}, "record design.v map script stalls .", ". wasn't written: it is a folder"),
    ({}, "run design.v map none", "none can't be read: there is no such file"),
    ({}, "run design.v map", "run takes 3 words, DESIGN MAP SCRIPT, and 2 stand there"),
    ({}, "replay design.v map notes 60000 out", "CYCLES is 60000, and 1 to 50000 is lawful"),
    ({}, "wrap design.v map map", "map would be read and written: name another file for OUT"),
    ({}, "go", "the commands are check, run, record, replay, dump, compare, salvage, migrate, bursts, move, wrap, sample; say --help lists their words"),
    ({}, "record design.v map script stalls none/out", "none/out wasn't written: there is no folder {folder}/none")]


TRACE = "VIDITRC2\2\0\1a\1\x08\1\1b\1\x08"
# The same of commands that come later: the command, what is written to which file, its words, and the sentence.
LATER = [
    ("bursts", {"axi": (None, "beat 3\n")}, "bursts head.trace axi",
     "axi line 1, `beat 3`, is no line of an AXI file: beat N first, then aw CH ID ADDR LEN SIZE BURST, w CH LAST, b CH ID, ar CH ID ADDR LEN SIZE BURST, r "
     "CH ID LAST, each once, with places from 0 or none; aw, w and b come together, and so do ar and r"),
    ("bursts", {"axi": (None, "beat 4\nar c none 0 none none none\nr b none none\n")}, "bursts head.trace axi",
     "axi line 2, `ar c none 0 none none none`: the trace has no channel c; it has a, b"),
    ("bursts", {"axi": (None, "beat 4\nar a none 1 none none none\nr b none none\n")}, "bursts head.trace axi",
     "axi line 2, `ar a none 1 none none none`: a has 1 content ports, and ADDR is port 1: they count from 0"),
    ("bursts", {"axi": (None, "beat 4\nar a none 0 none none none\nr b none 0\n")}, "bursts head.trace axi",
     "axi line 3, `r b none 0`: port 0 of b has 8 bits, and LAST has 1"),
    ("bursts", {"axi": (None, "beat 4\nar a none 0 none none none\nr a none none\n")}, "bursts head.trace axi",
     "axi line 3, `r a none none`: a or one of its ports is named twice, or goes the other way: aw, w and ar one way, b and r the other"),
    ("bursts", {"reset.trace": (None, TRACE + "\1\0\0\1\1\5\2\0\0\0\0\0\0\2"), "axi": (None, "beat 4\n")}, "bursts reset.trace axi",
     "in reset.trace the design was reset in packet 1, and this command takes no trace with a reset"),
    ("bursts", {"axi": (None, "beat 4\nar a none 0 none none none\nr b none none\n")}, "bursts short.trace axi",
     "short.trace breaks rule 4 of AXI4's bursts at transaction 0 of b, counted from 0: vidi-tools explain --axi says why"),
    ("move", {}, "move short.trace b 0 before b 1 out", "short.trace hasn't so many completions of that channel: they count from 0, over the whole trace"),
    ("move", {}, "move short.trace b 0 before b 0 out", "both are one completion of short.trace: name another one")]


def check_say_later(checker):
    """Those of the commands that vidi has by now."""
    checker.write("head.trace", TRACE + "\0\0\0\0\0")
    checker.write("short.trace", TRACE + "\1\0\0\2\2\7" + "\0\0\0\0\1")
    for command, files, words, sentence in (one for one in LATER if commands.has(one[0])):
        for file, (_, text) in files.items():
            checker.write(file, text)
        plain, status = checker.run("vidi", *words.split())
        checker.case(f"say {words}: {sentence}", checker.run("say", *words.split()), (f"{plain}say: {sentence}\n", status))


def check_say(checker):
    """Each sentence, behind vidi's own lines and with its status; what is right gets none."""
    texts = {file: tool_kit.text_of(os.path.join(EXAMPLES, "pass", file)) for file in ("design.v", "map", "script", "stalls")}
    for changes, words, sentence in SAID:
        for file, text in texts.items():
            checker.write(file, text)
        for file, (old, new) in changes.items():
            checker.write(file, texts[file].replace(old, new) if old else new)
        plain, status = checker.run("vidi", *words.split())
        checker.case(f"say {words}: {sentence}", checker.run("say", *words.split()),
                     (f"{plain}say: {sentence.format(folder=checker.folder)}\n", status))
    for file, text in texts.items():
        checker.write(file, text)
    for words in ("run design.v map script", "check design.v pass", "sample 1"):
        checker.case(f"say {words}", checker.run("say", *words.split()), checker.run("vidi", *words.split()))
    said, status = checker.run("say", "--help")
    commands = re.findall(r"^  vidi (\w+) ", said, re.M)
    checker.case("say --help", (commands, status), ("check run record replay dump compare salvage migrate bursts move wrap sample".split(), 0))
    checker.case("say without words", checker.run("say"), (said, 1))


def check_say_reasons(checker):
    """Each refusal of docs/LANGUAGE.md and docs/FILES.md that stands beside an example gets a sentence."""
    language, files = (tool_kit.text_of(os.path.join(PAGES, page)) for page in ("LANGUAGE.md", "FILES.md"))
    designs = re.findall(r"```verilog\n((?:(?!```).)*?)```\n\n`vidi check FILE m` prints `(vidi: refused (?:(?!`).)*)`", language, re.S)
    checker.case("the designs of docs/LANGUAGE.md", len(designs) > 12, True)
    for text, line in designs:
        checker.write("m.v", text)
        said, status = checker.run("say", "check", "m.v", "m")
        checker.case(f"say of {line}", (said.splitlines()[0], "say: m.v" in said, len(said.splitlines()), status), (line, True, 2, 4))
    others = re.findall(r"```(map|script|stalls)\n((?:(?!```).)*?)```\n\n`vidi (?:run|record)` prints `(vidi: refused (?:(?!`).)*)`", files, re.S)
    checker.case("the files of docs/FILES.md", len(others) > 8, True)
    for kind, text, line in others:
        for file in ("design.v", "map", "script", "stalls"):
            checker.write(file, tool_kit.text_of(os.path.join(EXAMPLES, "pass", file)))
        checker.write(kind, text)
        said, status = checker.run("say", "record", "design.v", "map", "script", "stalls", "out")
        checker.case(f"say of {line}", (said.splitlines()[0], f" {kind}" in said.splitlines()[1], status), (line, True, 4))


FAR = "0 start a 1\n0 end a\n30 start a 2\n31 end a\n60 start a 3\ncycles 70\n"


def check_show_more(checker):
    """The columns round a transaction, GTKWave's marker, JSON, and the lines of a bench, which has its own remarks."""
    checker.case("show --around", checker.run("show", "--around", "a:1", given=FAR), ("  20        30        40\na ..........<>..........\n", 0))
    checker.write("far", FAR)
    checker.refused("show --around of none", ["show", "far", "--around", "a:3", "--vcd", "far.vcd"],
                    "show: --around a:3: no such transaction; there are a:0 to a:2", "far.vcd")
    checker.run("show", "far", "--around", "a:1", "--vcd", "far.vcd")
    save = tool_kit.text_of(os.path.join(checker.folder, "far.gtkw")).splitlines()
    checker.case("show's marker", save[:3], ['[dumpfile] "far.vcd"', "[timestart] 200", "*-3.000000 300" + " -1" * 26])
    said, status = checker.run("show", "--json", given=FAR)
    checker.case("show --json of a run", (json.loads(said), status), ({"length": 70, "ending": None, "channels": [{"name": "a", "transactions": [
        {"start": 0, "end": 0, "content": [1]}, {"start": 30, "end": 31, "content": [2]}, {"start": 60, "end": None, "content": [3]}]}]}, 0))
    bench = ("channel 0 out b 4\nVCD info: dumpfile bench.vcd opened for output.\n0 start b 1 clock 0\n# differs b start 0 in cycle 3, time 40: 1, in "
             "the trace 2\n1 end b clock 0\npackets 2\nvidi: unstable b cycle 9\n- bench.v:9: Verilog $finish\n")
    said, status = checker.run("show", "--json", given=bench)
    checker.case("show --json of a bench", (json.loads(said), status), ({"length": 2, "ending": "vidi: unstable b cycle 9", "channels": [
        {"name": "b", "direction": "out", "widths": [4], "transactions": [{"start": 0, "end": 1, "content": [1]}]}]}, 0))


CHECKS = (check_say, check_say_later, check_say_reasons, check_show_more)
