"""Lowers a design of ordinary Verilog to the subset that Vidi reads, with Yosys in front.

    lower [-D NAME[=VALUE]] [--param NAME=VALUE] [--sv] [--prove-same MAP] FILES.. TOP OUT.v

It writes one flat module TOP with the same ports to OUT.v and prints what `vidi check` says of it. What can't be lowered is refused with
a reason and a place, and OUT.v isn't written then; so is a net that is read and that nothing drives, and a name that isn't declared. Other
warnings of Yosys are printed on standard error. With --prove-same random scripts are played over the channels of MAP, in Icarus
on the FILES as they are and on OUT.v, and in Vidi on OUT.v; all must show the same transfers in the same cycles.

Nothing here is proved: Yosys and this tool are trusted to keep the meaning, and --prove-same tries it.
"""
import argparse
import json
import os
import re
import sys
import tempfile

from vidi_tools import tool_kit
from vidi_tools.tool_kit import Problem

LATCHES = ("$dlatch", "$adlatch", "$dlatchsr", "$sr", "$ff")
WITHOUT_MEANING = {"$tribuf": "a tri-state driver", "$pow": "an operator ** that isn't constant",
                   "$fsm": "a state machine cell"}
PASSES = ["async2sync", "opt_expr", "wreduce", "opt_clean", "setundef -zero", "pmuxtree", "opt_reduce", "techmap -map {cells}",
          "opt_expr", "wreduce", "opt_clean", "techmap -map {cells}", "opt_clean", "setundef -zero -undriven", "setundef -zero",
          "setundef -zero -init", "opt_clean", "write_verilog -noattr -nodec {out}"]
WORDS = set("""always and assign automatic begin buf bufif0 bufif1 case casex casez cell cmos config deassign default defparam design disable
edge else end endcase endconfig endfunction endgenerate endmodule endprimitive endspecify endtable endtask event for force forever fork
function generate genvar highz0 highz1 if ifnone incdir include initial inout input instance integer join large liblist library localparam
macromodule medium module nand negedge nmos nor noshowcancelled not notif0 notif1 or output parameter pmos posedge primitive pull0 pull1
pulldown pullup pulsestyle_ondetect pulsestyle_onevent rcmos real realtime reg release repeat rnmos rpmos rtran rtranif0 rtranif1 scalared
showcancelled signed small specify specparam strong0 strong1 supply0 supply1 table task time tran tranif0 tranif1 tri tri0 tri1 triand trior
trireg unsigned use uwire vectored wait wand weak0 weak1 while wire wor xnor xor""".split())


def place(thing):
    """Where a cell or a memory of Yosys stands in the files."""
    source = thing.get("attributes", {}).get("src", "").split("|")[0]
    found = re.match(r"(.*):(\d+)(\.\d+)?(-.*)?$", source)
    return f"{os.path.relpath(found[1])} line {found[2]}" if found else "a place that Yosys doesn't tell"


def clocks_of(module):
    """The clocks of the module's cells: (net bit, whether it rises, cell)."""
    for cell in module["cells"].values():
        ports, values = cell["connections"], cell["parameters"]
        if "CLK" in ports:
            yield ports["CLK"][0], int(values.get("CLK_POLARITY", "1"), 2), cell
        for side in ("RD", "WR"):
            clocked = values.get(f"{side}_CLK_ENABLE", "")
            rising = values.get(f"{side}_CLK_POLARITY", "")
            for at in range(len(clocked)):
                if clocked[-1 - at] == "1":
                    yield ports[f"{side}_CLK"][at], int(rising[-1 - at]), cell


def refuse_clocks(module):
    """Refuses a design of more than one clock, of a falling one, or of one that isn't an input."""
    inputs = {port["bits"][0]: name for name, port in module["ports"].items() if port["direction"] == "input" and len(port["bits"]) == 1}
    seen = None
    for bit, rises, cell in clocks_of(module):
        if not rises:
            raise Problem(f"{place(cell)}: negedge of the clock; one clock that rises is lowered")
        if bit not in inputs:
            raise Problem(f"{place(cell)}: a clock that isn't an input of the top; write it as an enable: if (en)")
        if seen not in (None, bit):
            raise Problem(f"{place(cell)}: a second clock {inputs[bit]} beside {inputs[seen]}; record each side by itself")
        seen = bit


def refuse(module):
    """Refuses what can't be lowered, with its place."""
    for name, direction, width in tool_kit.ports_of(module):
        if width > 128:
            raise Problem(f"port {name} has {width} bits, 128 are the most: split it in a wrapper")
        if direction == "inout":
            raise Problem(f"port {name} is inout; make an input, an output and an enable of it")
        if not re.fullmatch(r"[A-Za-z_][\w$]*", name) or name in WORDS:
            raise Problem(f"port {name} has a name that a map can't say; put a wrapper round the top")
    for name, cell in module["cells"].items():
        if cell["type"] in LATCHES:
            raise Problem(f"{place(cell)}: a latch; drive the net in each branch, or clock it")
        if cell["type"] in WITHOUT_MEANING:
            raise Problem(f"{place(cell)}: {WITHOUT_MEANING[cell['type']]}")
        if cell["type"] == "$mem_v2" and "1" in cell["parameters"]["INIT"]:
            raise Problem(f"{place(cell)}: memory {cell['parameters']['MEMID'].strip(chr(92))} has contents at the start; "
                          "write them by a channel, or make a case of them")
    refuse_clocks(module)


def refuse_undeclared(warnings):
    """Refuses a name that Verilog makes a wire of because nothing declares it."""
    for at, words in warnings:
        name = re.match(r"Identifier `(.*)' is implicitly declared", words)
        if name:
            raise Problem(f"{at.removesuffix(': ')}: {name[1]} isn't declared, so it would be a wire of one bit; declare it, or mend the name")


def undriven(module):
    """The bits that something reads and nothing drives, of a module without what isn't used."""
    driven, read = set(), set()
    for port in module["ports"].values():
        (driven if port["direction"] == "input" else read).update(port["bits"])
    for cell in module["cells"].values():
        for name, bits in cell["connections"].items():
            (driven if cell["port_directions"][name] == "output" else read).update(bits)
    for net in module["netnames"].values():
        first = net["attributes"].get("init", "")[::-1]
        driven.update(bit for bit, value in zip(net["bits"], first) if value in "01")
    return {bit for bit in read - driven if isinstance(bit, int)}


def refuse_undriven(module):
    """Refuses a net that is read and that nothing drives, with the place where it is declared or connected."""
    bits = undriven(module)
    for name, net in sorted(module["netnames"].items(), key=lambda named: named[0].count(".")):
        bare = [at for at, bit in enumerate(net["bits"]) if bit in bits]
        if bare and not net.get("hide_name"):
            part = f"[{bare[-1]}:{bare[0]}]" if len(bare) < len(net["bits"]) else ""
            is_output = module["ports"].get(name, {}).get("direction") == "output"
            what = "is an output, and" if is_output else "is read, and"
            raise Problem(f"{place(net)}: {name}{part} {what} nothing drives it; drive it, or take it out")


def plain_names(text):
    """The text with plain names in the place of escaped ones."""
    taken, plain = set(re.findall(r"[A-Za-z_][\w$]*", re.sub(r"\\\S+\s", " ", text))) | WORDS, {}

    def name_of(match):
        """The plain name of an escaped one."""
        if match[1] not in plain:
            name = first = re.sub(r"^(?=\d)", "_", re.sub(r"\W", "_", match[1]))
            count = 1
            while name in taken:
                name, count = f"{first}_{count}", count + 1
            taken.add(name)
            plain[match[1]] = name
        return plain[match[1]]
    return re.sub(r"\\(\S+)\s", name_of, text)


def with_plain_ranges(text):
    """RTLIL in which nets with ranges such as [1:8] and [8:1] have [7:0]: their bits are counted from the lowest there anyway."""
    return re.sub(r"^(  wire .*?)(?: upto| offset -?\d+)+", r"\1", text, flags=re.M)


def without_initial(text):
    """The text without the blocks that set memories to 0: that is how Vidi's memories begin."""
    return re.sub(r"^  initial begin\n(    .*\n)*?  end\n", "", text, flags=re.M)


def with_joined_writes(text):
    """The text in which one block has all writes of a memory, in the order of Yosys's blocks: the last one counts."""
    bodies = {}
    block = re.compile(r"^  always @\(posedge [\w$]+\) begin\n((?:    .*\n)*?)  end\n", re.M)
    memories = set(re.findall(r"^  reg (?:\[\d+:0\] )?([\w$]+) ?\[0:\d+\];", text, re.M))

    def written(match):
        """The memory that a block writes, or None."""
        return next((name for name in re.findall(r"^ +([\w$]+) ?\[[^=]*<= ", match[1], re.M) if name in memories), None)
    for match in block.finditer(text):
        bodies.setdefault(written(match), []).append(match[1])

    def joined(match):
        """The first block of a memory with all writes, or nothing for its others."""
        name = written(match)
        if name is None:
            return match[0]
        return match[0].replace(match[1], "".join(bodies.pop(name))) if name in bodies else ""
    return block.sub(joined, text)


def with_header(text):
    """The text with a header that has each port's direction, kind and range."""
    ports = re.search(r"^module [\w$]+\((.*?)\);\n", text, re.M | re.S)
    if not ports:
        raise Problem("Yosys wrote no module")
    declared = []
    for name in filter(None, ports[1].replace("\n", " ").replace(" ", "").split(",")):
        own, span = re.escape(name), r"(\[\d+:\d+\] )?"
        found = re.search(rf"^  (input|output) {span}{own} ?;\n  (wire|reg) {span}{own} ?(= [^;]*)?;\n", text, re.M)
        kind = "output reg" if found[3] == "reg" else found[1]
        declared.append(f"{kind} {found[2] or ''}{name}" + (f" {found[5]}" if found[5] else ""))
        text = text[:found.start()] + text[found.end():]
    header = re.search(r"^module [\w$]+\(", text, re.M)
    end = text.index(");", header.start())
    return text[:header.end()] + "".join("\n  " + line + "," for line in declared)[:-1] + text[end:]


def without_clock_aliases(text, clock):
    """The text in which no other name stands for the clock."""
    for alias in re.findall(rf"^  assign ([\w$]+) = {re.escape(clock)};\n", text, re.M) if clock else []:
        text = text.replace(f"  assign {alias} = {clock};\n", "")
        text = re.sub(rf"^  wire {re.escape(alias)} ?;\n", "", text, flags=re.M)
        text = re.sub(rf"(?<![\w$]){re.escape(alias)}(?![\w$])", clock, text)
    return text


def subset_text(text, module):
    """Yosys's text as one that Vidi reads."""
    clock_bits = {bit for bit, _, _ in clocks_of(module)}
    clock = next((name for name, port in module["ports"].items() if port["bits"][0] in clock_bits), None)
    text = plain_names(text)
    text = re.sub(r"^(  reg (?:\[\d+:0\] )?[\w$]+ ?) \[(\d+):0\];", r"\1 [0:\2];", text, flags=re.M)
    return without_clock_aliases(with_header(with_joined_writes(without_initial(text))), clock)


def lowered(options):
    """The text of the lowered design, and the module that Yosys had."""
    with tempfile.TemporaryDirectory() as folder:
        out, shape, used = (os.path.join(folder, name) for name in ("out.v", "top.json", "used.json"))
        words = options.top, options.files, options.define, options.param, options.sv
        ends = [f'write_json "{shape}"', f'write_rtlil "{folder}/top.il"', "opt_expr", "opt_clean", f'write_json "{used}"']
        tool_kit.at_work(options, f"Yosys reads {' '.join(options.files)}")
        warnings = tool_kit.warnings_of(tool_kit.read(lambda memories: tool_kit.reading(*words, memories) + ends, folder))
        refuse_undeclared(warnings)
        module, rest = (json.loads(tool_kit.text_of(path))["modules"][options.top] for path in (shape, used))
        refuse(module)
        refuse_undriven(rest)
        for at, warning in warnings:
            print(f"lower: Yosys warns: {at}{warning}", file=sys.stderr)
        il = f"{folder}/top.il"
        tool_kit.write(il, with_plain_ranges(tool_kit.text_of(il)))
        tool_kit.at_work(options, "Yosys lowers it")
        cells = os.path.join(tool_kit.HERE, "vidi_tools", "lower_cells.v")
        passes = [command.format(cells=tool_kit.quoted(cells), out=f'"{out}"') for command in PASSES]
        tool_kit.yosys([f'read_rtlil "{folder}/top.il"'] + passes, folder)
        return subset_text(tool_kit.text_of(out), module), module


def verdict(options, text):
    """What vidi check says of the lowered text. A refusal is a Problem."""
    program = tool_kit.vidi_program()
    if program is None:
        return "not checked: no program vidi; build one with vidi-tools build OUT, and say vidi-tools --vidi OUT or set VIDI"
    with tempfile.TemporaryDirectory() as folder:
        path = os.path.join(folder, "lowered.v")
        tool_kit.write(path, text)
        said, status = tool_kit.vidi("check", path, options.top)
        if status == 0:
            return said.strip()
        line = re.search(r"lines? (\d+)", said)
        at = f": {text.splitlines()[int(line[1]) - 1].strip()[:80]}" if line else ""
        raise Problem(f"lowered, but {said.strip()}{at}")


def refuse_map(plan, options, module):
    """Refuses a map that isn't of this design."""
    if plan.top != options.top:
        raise Problem(f"{plan.path}: its top is {plan.top}, not {options.top}")
    ports = [port for channel in plan.channels for port in (channel.valid, channel.ready, *channel.ports)]
    for port in [plan.clock, *ports, *plan.ties, *plan.ignored] + ([plan.reset[0]] if plan.reset else []):
        if port not in module["ports"]:
            raise Problem(f"{plan.path}: {options.top} has no port {port}; it has {', '.join(module['ports'])}")


def played(options, plan, text):
    """What the random scripts show, on a text that isn't written yet."""
    from vidi_tools import same_transfers
    with tempfile.TemporaryDirectory() as folder:
        path = os.path.join(folder, os.path.basename(options.out))
        tool_kit.write(path, text)
        return same_transfers.compared(options, plan, path)


def parser():
    """The words of this tool."""
    said = argparse.ArgumentParser(description=__doc__, formatter_class=argparse.RawDescriptionHelpFormatter)
    said.add_argument("-D", dest="define", action="append", default=[], metavar="NAME[=VALUE]", help="a macro of the files")
    said.add_argument("--param", action="append", default=[], type=tool_kit.name_and_value, metavar="NAME=VALUE", help="a parameter of the top")
    said.add_argument("--sv", action="store_true", help="the files are SystemVerilog")
    said.add_argument("--prove-same", metavar="MAP", help="play random scripts on FILES and on OUT.v")
    said.add_argument("--scripts", type=int, default=10, help="how many random scripts (10)")
    said.add_argument("--cycles", type=int, default=200, help="how many cycles each of them has (200)")
    said.add_argument("--seed", type=int, default=1, help="the seed of the first (1)")
    tool_kit.add_verbose(said)
    said.add_argument("files", metavar="FILES", nargs="+")
    said.add_argument("top", metavar="TOP")
    said.add_argument("out", metavar="OUT.v")
    return said


def main():
    """Lowers, checks and writes, and plays where that is asked for."""
    options = tool_kit.parse_options(parser())
    if os.path.abspath(options.out) in map(os.path.abspath, options.files):
        raise Problem(f"{options.out} is one of the files; name another one for what is written")
    for path in options.files:
        tool_kit.text_of(path)
    if not re.fullmatch(r"[A-Za-z_][\w$]*", options.top):
        raise Problem(f"{options.top} is no name of a module; TOP and OUT.v are the last words")
    plan = tool_kit.Map(options.prove_same) if options.prove_same else None
    text, module = lowered(options)
    tool_kit.at_work(options, f"vidi checks a text of {len(text.splitlines())} lines")
    said = [verdict(options, text)]
    if plan:
        refuse_map(plan, options, module)
        tool_kit.at_work(options, f"Icarus and Vidi play {options.scripts} scripts")
        said.append(played(options, plan, text))
    tool_kit.write(options.out, text)
    print("\n".join(said))
