"""Lists every place in a text that the subset leaves out, with its line and what to write in its place.

    left-out FILES..

`vidi check` names the first reason alone; this looks for all forms of the table "What is left out" of docs/LANGUAGE.md at once, by their
words, and says what that table says. It knows no widths: what it finds is likely and not certain, and a latch, a loop or a net of two
drivers is only found by `vidi check`. Status 0 where nothing is found, 4 otherwise.
"""
import argparse
import collections
import os
import re
import sys

from vidi_tools import tool_kit
from vidi_tools.tool_kit import Problem

PAGE = os.path.join(tool_kit.HERE, "..", "docs", "LANGUAGE.md")
TOKEN = re.compile(r"""\(\*(?!\s*\))|"(?:[^"\\\n]|\\.)*"|\\\S+|`\w+|\$\w+|\d*\s*'\s*[sS]?[bodhBODH]\s*[\w?]+|'[01xz]|[A-Za-z_][\w$]*|\d[\w.]*
                   |===|!==|<<<|>>>|<=|>=|==|!=|&&|\|\||<<|>>|~&|~\||~\^|\^~|\*\*|\+:|-:|\+\+|--|[-+*/|&]=|.""", re.X | re.S)
GATES = set("and or nand nor xor xnor not buf bufif0 bufif1 notif0 notif1 nmos pmos cmos pullup pulldown".split())
SYSTEM_VERILOG = set("logic bit int always_ff always_comb always_latch typedef enum struct interface package import unique "
                     "priority".split())
NO_MODULES = GATES | set("if else case begin end assign wire reg always module function task for initial parameter input output".split())
STRENGTHS = set("strong0 strong1 pull0 pull1 weak0 weak1 highz0 highz1 supply0 supply1 small medium large".split())
UNARY = set("+ - ! ~ & | ^ ~& ~| ~^ ^~".split())
OPENING = UNARY | set("= ( , [ { ? : ; <= == != < > >= && || << >> * begin".split())  # before an operand
# The forms of the table that are one word: each with the tokens that have it.
BY_WORD = {"`===`": {"===", "!=="}, "`casez`": {"casez"}, "`casex`": {"casex"}, "`inout`": {"inout"}, "tri-state": {"tri", "tri0", "tri1"},
           "`/`": {"/"}, "`%`": {"%"}, "`**`": {"**"}, "`-:`": {"-:"}, "strengths": STRENGTHS, "primitives": {"primitive"},
           "`initial`": {"initial"}, "functions": {"function"}, "tasks": {"task"}, "`generate`": {"generate", "genvar"},
           "`for`": {"for", "while", "repeat", "forever"}, "`defparam`": {"defparam"}, "`negedge`": {"negedge"},
           "attributes": {"(*"}, "`integer`": {"integer", "real", "time", "realtime"}, "`include`": {"`include"},
           "SystemVerilog": SYSTEM_VERILOG | {"++", "--", "+=", "-=", "|=", "&="}}
BY_CHECK = {"latches"}  # found by vidi check alone


class Token(str):
    """A token, with its line."""
    line = 0


def tokens_of(text):
    """The tokens of a text without its comments."""
    text = re.sub(r"//[^\n]*|/\*.*?\*/", lambda found: "\n" * found[0].count("\n") or " ", text, flags=re.S)
    text = re.sub(r"(?<=`include)[^\n]*|`(timescale|default_nettype)\b[^\n]*", "", text)
    found, line = [], 1
    for match in TOKEN.finditer(text):
        if not match[0].isspace():
            token = Token(match[0])
            token.line = line
            found.append(token)
        line += match[0].count("\n")
    return found


def behind(tokens, at, opening, closing):
    """The place behind the bracket that closes the one at `at`."""
    depth = 0
    for place in range(at, len(tokens)):
        depth += tokens[place] in opening
        depth -= tokens[place] in closing
        if depth == 0:
            return place + 1
    return len(tokens)


def statement_end(tokens, at):
    """The place behind the statement at `at`."""
    word = tokens[at] if at < len(tokens) else ""
    if word in ("begin", "fork"):
        return behind(tokens, at, ("begin", "fork"), ("end", "join"))
    if word in ("case", "casez", "casex"):
        return behind(tokens, at, ("case", "casez", "casex"), ("endcase",))
    if word in ("if", "for", "while", "repeat") and tokens[at + 1:at + 2] == ["("]:
        end = statement_end(tokens, behind(tokens, at + 1, "(", ")"))
        return statement_end(tokens, end + 1) if word == "if" and tokens[end:end + 1] == ["else"] else end
    while at < len(tokens) and tokens[at] not in (";", "endmodule"):
        at += 1
    return at + 1


def always_blocks(tokens):
    """The always blocks: (tokens of the sensitivity, tokens of the statement)."""
    for at, token in enumerate(tokens):
        if token in ("always", "always_ff") and tokens[at + 1:at + 2] == ["@"]:
            body = behind(tokens, at + 2, "(", ")") if tokens[at + 2] in ("(", "(*") else at + 3
            yield tokens[at + 2:body], tokens[body:statement_end(tokens, body)]


def find_words(tokens):
    """Forms that are one token."""
    for token in tokens:
        for form, words in BY_WORD.items():
            if token in words:
                yield token.line, form
        if re.match(r"\d*\s*'\s*[sS]?[bodhBODH]", token):
            literal = token.lower()
            if re.search(r"'.*[xz?]", literal):
                yield token.line, "x and z"
            if "'s" in literal.replace(" ", ""):
                yield token.line, "signed numbers"
            if re.search(r"\s", token):
                yield token.line, "a space in a literal"
        elif re.fullmatch("'[01xz]", token):
            yield token.line, "SystemVerilog"
        if token in ("signed", "$signed"):
            yield token.line, "signed numbers"
        elif token[0] == "$":
            yield token.line, "`$clog2` and other `$` names"
        elif token[0] == "`" and token != "`include":
            yield token.line, "other directives"
        elif token[0] in "\\\"":
            yield token.line, "escaped names" if token[0] == "\\" else "strings"


def is_name(token):
    """Whether this is a name or a word."""
    return bool(re.match(r"[A-Za-z_]", token))


def find_pairs(tokens):
    """Forms of neighbouring tokens."""
    around = [Token("")] + tokens + [Token(""), Token("")]
    for last, token, word, far in zip(around, around[1:], around[2:], around[3:]):
        opens = not last or last in OPENING
        if token == "#" and (word[:1].isdigit() or word == "(" and not is_name(last)) and last != "module":
            yield token.line, "delays"
        if token == "begin" and word == ":":
            yield token.line, "named blocks"
        if token in UNARY and word in UNARY and (opens or token in ("!", "~")):
            yield token.line, "two unary operators on one operand"
        if token in ("~", "-") and opens and word.isdigit():
            yield token.line, "`~0` and `-1`"
        if token == "." and is_name(last) and is_name(word) and far != "(":
            yield token.line, "hierarchical names"
        if token in ("{", ",") and re.fullmatch(r"\d+|'[bodh]\w+", word) and far in (",", "}") and in_braces(tokens, word):
            yield word.line, "a number without a size as a part of `{ }`"


def in_braces(tokens, wanted):
    """Whether this very token stands directly within `{ }`."""
    open_ones = []
    for token in tokens:
        if token is wanted:
            return bool(open_ones) and open_ones[-1] == "{"
        if token in ("(", "[", "{"):
            open_ones.append(token)
        elif token in (")", "]", "}") and open_ones:
            open_ones.pop()
    return False


def find_ranges(tokens):
    """Forms of declared vectors and memories."""
    for at, token in enumerate(tokens):
        if token not in ("wire", "reg", "input", "output", "logic"):
            continue
        place = at + 1
        while place < len(tokens) and tokens[place] in ("wire", "reg", "signed", "logic"):
            place += 1
        if tokens[place:place + 1] == ["["]:
            end = behind(tokens, place, "[", "]")
            if tokens[end - 2:end - 1] != ["0"]:
                yield tokens[place].line, "a vector whose low index isn't 0"
            if tokens[place + 1].isdigit() and int(tokens[place + 1]) > 127:
                yield tokens[place].line, "nets wider than 128 bits"
            place = end
        stop = next((far for far in range(place, len(tokens)) if tokens[far] in (";", ")", "input", "output")), len(tokens))
        declared = tokens[place:stop]
        for near, word in enumerate(declared):
            is_memory = token == "reg" and word == "[" and is_name(declared[near - 1]) and "=" not in declared[:near]
            if is_memory and declared[near + 1:near + 3] != ["0", ":"]:
                yield word.line, "a memory `[N:0]`"
        if token == "wire" and "," in declared and "=" in declared and declared.index(",") < declared.index("="):
            yield token.line, "`wire a, b = c;`"


def find_assignments(tokens):
    """Forms of always blocks."""
    for sense, body in always_blocks(tokens):
        edges = sense.count("posedge") + sense.count("negedge")
        if not edges and "*" not in "".join(sense):
            yield sense[0].line, "`@(a or b)`"
        if edges > 1:
            yield sense[0].line, "an asynchronous reset"
        wrong, form = ("=", "`=` in a clocked block") if edges else ("<=", "`<=` in `always @*`")
        depth, is_fresh = 0, True
        for at, token in enumerate(body):
            depth += (token in ("(", "[", "{")) - (token in (")", "]", "}"))
            if token in (";", "begin", "end", "else", ":") and depth == 0:
                is_fresh = True
            elif depth == 0 and token in ("=", "<=") and is_fresh:
                is_fresh = False
                if token == wrong:
                    yield token.line, form
            if token == ";" and at and body[at - 1] in ("begin", ";", "end"):
                yield token.line, "a null statement"
            if not edges and token == "case":
                arms = body[at:behind(body, at, ("case", "casez", "casex"), ("endcase",))]
                if "default" not in arms:
                    yield token.line, "`case` without `default` where it should drive a net"


def modules_of(tokens):
    """The modules: (name, tokens of the header, tokens of the body)."""
    at = 0
    while at < len(tokens):
        if tokens[at] in ("module", "macromodule"):
            head = next((far for far in range(at, len(tokens)) if tokens[far] == ";"), len(tokens) - 1) + 1
            end = next((far for far in range(head, len(tokens)) if tokens[far] == "endmodule"), len(tokens))
            yield tokens[at + 1] if at + 1 < len(tokens) else "", tokens[at:head], tokens[head:end]
            at = end
        at += 1


def instances_of(body):
    """The instances of a module's body: (name of the module, the token that opens its connections, the token behind that)."""
    for at, token in enumerate(body):
        if not is_name(token) or at and body[at - 1] not in (";", ")", "end", "endcase", "begin", "endgenerate", "generate"):
            continue
        name = behind(body, at + 2, "(", ")") if body[at + 1:at + 3] == ["#", "("] else at + 1
        is_instance = name + 2 < len(body) and is_name(body[name]) and body[name + 1] == "("
        if is_instance and not {token, body[name]} & NO_MODULES:
            yield token, body[name + 1], body[name + 2]


def find_modules(tokens):
    """Forms of headers, parameters, connections, gates and clocks."""
    modules = list(modules_of(tokens))
    names = {name for name, _, _ in modules}
    for _, header, body in modules:
        ports = header[behind(header, 3, "(", ")"):] if header[2:3] == ["#"] else header[2:]
        if len(ports) > 2 and ports[0] == "(" and is_name(ports[1]) and ports[1] not in ("input", "output", "inout"):
            yield ports[1].line, "headers with names alone"
        for at, token in enumerate(body):
            if token == "parameter":
                yield token.line, "`parameter` in a module's body"
            if token in GATES and (not at or body[at - 1] in (";", "end", ")")) and token != "or":
                yield token.line, "gates"
        for module, opened, first in instances_of(body):
            if first not in (".", ")"):
                yield opened.line, "connections by position"
            if module not in names:
                yield module.line, "several files"
        yield from find_clocks(body)
        yield from find_unused(body)


def find_clocks(body):
    """A second clock, and a clock that an assign makes."""
    clocks = [sense[sense.index("posedge") + 1] for sense, _ in always_blocks(body) if "posedge" in sense and len(sense) > 3]
    for clock in clocks:
        if clock != clocks[0]:
            yield clock.line, "a second clock"
        for target, equals in zip(body, body[1:]):
            if target == clock and equals == "=":
                yield target.line, "a clock through `assign`"


def find_unused(body):
    """Wires whose name stands nowhere but in their declaration."""
    count = collections.Counter(body)
    for at, token in enumerate(body):
        if token == "wire":
            stop = next((far for far in range(at, len(body)) if body[far] in (";", "=")), at)
            for word in body[at + 1:stop]:
                if is_name(word) and word not in ("signed", "reg") and count[word] == 1 and body[stop:stop + 1] == [";"]:
                    yield word.line, "wires that nothing drives"


def advice():
    """The table of docs/LANGUAGE.md: what to write for each form."""
    section = tool_kit.text_of(PAGE).partition("## What is left out")[2].partition("\n## ")[0]
    said = {}
    for forms, instead in re.findall(r"^\| (.*?[^\\]) \| (.*?) \|$", section, re.M):
        for form in re.split(r", (?![^`]*`(?:[^`]*`[^`]*`)*[^`]*$)", forms):
            said[form] = instead
    said.pop("Left out", None)
    if len(said) < 20:
        raise Problem(f"{PAGE}: no table \"What is left out\"")
    return said


def found_in(path):
    """The findings of a file, by line, each once a line."""
    text = tool_kit.text_of(path)
    mark = [(1, "a byte-order mark")] if text.startswith("\ufeff") else []
    tokens = tokens_of(text.lstrip("\ufeff"))
    finders = (find_words, find_pairs, find_ranges, find_assignments, find_modules)
    return sorted(set(mark + [one for finder in finders for one in finder(tokens)]))


def main():
    """Prints the findings."""
    parser = argparse.ArgumentParser(description=__doc__, formatter_class=argparse.RawDescriptionHelpFormatter)
    parser.add_argument("files", metavar="FILES", nargs="+")
    options = tool_kit.parse_options(parser)
    said, count = advice(), 0
    for path in options.files:
        for line, form in found_in(path):
            print(f"{path} line {line}: {form}: {said.get(form, 'see docs/LANGUAGE.md')}")
            count += 1
    sys.exit(4 if count else 0)
