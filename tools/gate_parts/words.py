"""Prints the words of cases of crates/vidi_cases/data/verilog and data/wrapped, which no command of vidi has: what they ask and what is printed.

    gate words            all, with how calls end, the signs of trees and the forms of the files
    gate words WORD       the lines and paragraphs that have it

The text is tools/gate_parts/words.txt; docs/CASES.md has the form of a case.
"""
import os
import re
import sys

from vidi_tools import tool_kit
from vidi_tools.tool_kit import Problem


def main():
    """Prints the text, or what of it has a word."""
    text = tool_kit.text_of(os.path.join(os.path.dirname(os.path.abspath(__file__)), "words.txt"))
    if not sys.argv[1:]:
        print(text, end="")
        return
    pieces = re.split(r"\n\n|\n(?=\|)", text)
    found = [piece for piece in pieces if re.search(rf"(?<!\w){re.escape(sys.argv[1])}(?!\w)", piece)]
    if not found:
        raise Problem(f"no word {sys.argv[1]}")
    print("\n".join(found))
