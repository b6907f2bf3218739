"""Prints what `vidi run` has to print, with Icarus Verilog in the place of Vidi: for the files run.out of examples/. With a plan of stalls it
prints what `vidi record` and then `vidi dump` of its trace have to print: for the files record.out.

    gate rows DESIGN MAP SCRIPT [STALLS]

vidi_tools/icarus_rows.py says how.
"""
from vidi_tools.icarus_rows import main  # noqa: F401
