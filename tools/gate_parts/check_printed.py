"""Gives the printed texts that the cases want (crates/vidi_cases/data/verilog/print.case) to Icarus Verilog and to Yosys, which must read
each. The gate sees to it that Vidi prints these texts.

    gate check printed

Without Icarus or Yosys its part is skipped, with a line that says so.
"""
import os
import re
import shutil
import subprocess
import sys
import tempfile

from vidi_tools import tool_kit
from vidi_tools.tool_kit import Problem

CASES = os.path.join(tool_kit.HERE, "..", "crates", "vidi_cases", "data", "verilog", "print.case")
TEXT = re.compile(r"^== print (\S+)\n-- \S+\n.*?^>> 0\n(.*?)(?=^==|^\*\*|\Z)", re.M | re.S)
READERS = {"iverilog": lambda path: ["iverilog", "-g2005", "-tnull", path], "yosys": lambda path: ["yosys", "-q", "-p", f"read_verilog {path}"]}


def main():
    """Has each reader read each text."""
    cases = tool_kit.text_of(CASES)
    texts = TEXT.findall(cases)
    if not texts or len(texts) != cases.count("\n== print "):
        raise Problem("print.case has a case that isn't seen, or none")
    with tempfile.TemporaryDirectory() as folder:
        for reader, words in READERS.items():
            if not shutil.which(reader):
                print(f"{reader}: skipped, it isn't installed")
                continue
            for name, text in texts:
                path = os.path.join(folder, "printed.v")
                tool_kit.write(path, text)
                done = subprocess.run(words(path), capture_output=True, text=True, timeout=120)
                if done.returncode or done.stderr:
                    raise Problem(f"{reader} doesn't read what {name} is printed as: {(done.stderr or done.stdout).strip()}")
            print(f"{reader}: {len(texts)} texts read")
