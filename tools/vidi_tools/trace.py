"""Makes a trace of the hexadecimal text that a bench or a store writes.

    trace TEXT OUT

The text is a trace's bytes as digits, in lines; a line that begins with # is passed over. Where the end mark is missing, as where a simulator
was ended or the packets come from an AXI4-Stream, one is added behind the last whole packet, and that is said.
"""
import argparse
import re
import sys

from vidi_tools import tool_kit
from vidi_tools import trace_kit
from vidi_tools.tool_kit import Problem


def bytes_of(path):
    """The bytes of all lines."""
    found = b""
    for line, text in enumerate(tool_kit.text_of(path).splitlines(), 1):
        digits = "".join(text.split())
        if digits and not digits.startswith("#"):
            if len(digits) % 2 or not re.fullmatch("[0-9a-fA-F]+", digits):
                raise Problem(f"{path} line {line}: no whole bytes in hexadecimal: {digits[:40]}")
            found += bytes.fromhex(digits)
    return found


def main():
    """Reads the text, mends its end, and writes the trace."""
    parser = argparse.ArgumentParser(description=__doc__, formatter_class=argparse.RawDescriptionHelpFormatter)
    parser.add_argument("text", metavar="TEXT")
    parser.add_argument("out", metavar="OUT")
    options = tool_kit.parse_options(parser)
    content = bytes_of(options.text)
    try:
        trace_kit.read(content)
    except Problem as problem:
        try:
            content, packets = trace_kit.ended(content)
        except Problem:
            raise Problem(f"{options.text}: {problem}") from problem
        print(f"trace: {options.text}: {problem}; an end mark behind {packets} whole packets is added", file=sys.stderr)
    tool_kit.write(options.out, content)
