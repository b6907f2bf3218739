"""The widths of a design's ports, asked of Icarus on the files as they stand."""
import os
import subprocess
import tempfile

from vidi_tools import tool_kit
from vidi_tools.tool_kit import Problem


def add_words(parser):
    """The words that name a design's files."""
    parser.add_argument("--files", nargs="+", default=[], metavar="FILES", help="the design's files")
    parser.add_argument("-D", dest="define", action="append", default=[], metavar="NAME[=VALUE]", help="a macro of the files")
    parser.add_argument("--param", action="append", default=[], type=tool_kit.name_and_value, metavar="NAME=VALUE", help="a parameter of the top")


def ports_of(plan):
    """The ports of a map that hold a number: contents and ties."""
    return [port for channel in plan.channels for port in channel.ports] + list(plan.ties)


def widths_of(options, plan):
    """The width of each content port and each tied one."""
    for program in ("iverilog", "vvp"):
        tool_kit.need(program)
    for path in options.files:
        tool_kit.text_of(path)
    names = ports_of(plan)
    if not names:
        return {}
    values = f" #({', '.join(f'.{name}({value})' for name, value in options.param)})" if options.param else ""
    asks = "\n".join(f'    $display("vidi_width {name} %0d", $bits(dut.{name}));' for name in names)
    with tempfile.TemporaryDirectory() as folder:
        source, program = os.path.join(folder, "asks.sv"), os.path.join(folder, "asks.vvp")
        tool_kit.write(source, f"module vidi_asks;\n  {plan.top}{values} dut ();\n  initial begin\n{asks}\n    $finish(0);\n  end\nendmodule\n")
        flags = [f"-D{define}" for define in options.define] + sorted({"-I" + (os.path.dirname(path) or ".") for path in options.files})
        is_new = any(path.endswith(".sv") for path in options.files)
        for standard in ("-g2012",) if is_new else ("-g2012", "-g2005"):  # a name such as bit is none in SystemVerilog
            words = ["iverilog", standard, *flags, "-s", "vidi_asks", "-o", program, *options.files, source]
            done = subprocess.run(words, capture_output=True, text=True)
            if done.returncode == 0:
                break
        else:
            raise Problem("Icarus: " + ((done.stderr + done.stdout).splitlines() or ["failed"])[0].replace(source, "the map's ports"))
        said = subprocess.run(["vvp", "-n", program], capture_output=True, text=True, stdin=subprocess.DEVNULL).stdout
    found = (line.split() for line in said.splitlines() if line.startswith("vidi_width "))
    return {name: int(width) for _, name, width in found}
