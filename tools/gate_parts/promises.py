"""Wants each row of docs/PROVED.md to name a definition and a clause that stand in the sources, and says of which it isn't so.

    gate promises [PAGE]

In the column Definition a file of specs/ has to be there, and to declare each name behind it; in the column Clause a function of a crate of these
files, of vidi_commands, or of the crate that is named, has to have each `ensures` that is named, or one at all where none is. Of `TYPE`'s `TRAIT`
there has to be an impl, with members of the names behind it, or clauses of the trait. Of a row that says (the clause) or (the toolchain) the definition isn't asked for.
"""
import os
import re
import sys

from gate_parts import contracts
from vidi_tools import tool_kit
from vidi_tools.tool_kit import Problem

TOP = os.path.dirname(tool_kit.HERE)
PAGE = os.path.join(TOP, "docs", "PROVED.md")
ROW = re.compile(r"^\| (.*) \|$", re.M)
NAME = re.compile(r"`([^`]*)`")
FREE = ("(the clause)", "(the toolchain)")
MARKS = r"(?:(?:pub|abbrev|unfoldable|record|data|opaque) )*"


class Sources:
    """The functions of each crate with their clauses, and its impls."""

    def __init__(self, top):
        self.top, self.checkout, self.known = top, contracts.Checkout(top, True), {}

    def of(self, crate):
        """Of a crate: (clauses by function, as NAME or TYPE::NAME; members by (TYPE, TRAIT); traits)."""
        if crate not in self.known:
            functions, impls, traits = {}, {}, {}
            items = [item for source in self.checkout.sources(crate).values() for item in source.items]
            for item in items:
                self.take(item, functions, impls, traits)
            for name, other in (alias.groups() for item in items if (alias := re.search(r"type (\w+)(?:<.*>)? = (\w+)", item["header"]))):
                functions.update({f"{name}{key[len(other):]}": lists for key, lists in list(functions.items()) if key.startswith(f"{other}::")})
            self.known[crate] = functions, impls, traits
        return self.known[crate]

    def take(self, item, functions, impls, traits):
        """Takes an item of a source."""
        if item["kind"] == "fn":
            functions.setdefault(item["name"], []).append(clauses_of(item))
        if item["kind"] not in ("impl", "trait"):
            return
        subject = item["name"] or self.checkout.subject_of(item["header"])
        of_trait = re.search(r"(\w+)(?:<[^>]*>)? for ", item["header"])
        members = {member["name"]: clauses_of(member) for member in item["members"] if member["kind"] == "fn"}
        ghosts = {re.match(r"ghost (\w+)", clause)[1] for member in item["members"] for clause in member["clauses"] if clause.startswith("ghost ")}
        for name, clauses in members.items():
            functions.setdefault(f"{subject}::{name}", []).append(clauses)
        if item["kind"] == "trait":
            traits[subject] = {*members, *ghosts, *(name for clauses in members.values() for name in clauses)}
        elif of_trait:
            impls[subject, of_trait[1]] = {*members, *ghosts, *(name for clauses in members.values() for name in clauses)}


def clauses_of(item):
    """The names of the `ensures` of a function, "" for one without a name."""
    found = (re.match(r"ensures\*? ?(\w*)", clause) for clause in item["clauses"])
    return {one[1] for one in found if one}


def is_declared(text, name):
    """Whether a text of specs/ declares the name, or passes it on."""
    return re.search(rf"^ *{MARKS}{re.escape(name)}(?![\w'-])", text, re.M) or re.search(rf"^pub use .*\b{re.escape(name)}\b", text, re.M)


def definition_faults(top, column):
    """What of the column Definition doesn't stand."""
    if column in FREE:
        return
    crate = None
    for part in column.split(";"):
        names = NAME.findall(part)
        if not names:
            yield f"no definition in {part.strip()!r}"
            continue
        path = names[0] if "/" in names[0] else f"{crate}/specs/{names[0]}"
        crate = path.split("/")[0]
        file = os.path.join(top, "crates", path + ".antt")
        if not os.path.exists(file):
            yield f"no file crates/{path}.antt"
            continue
        text = tool_kit.text_of(file)
        yield from (f"crates/{path}.antt declares no {name}" for name in names[1:] if not is_declared(text, name))


def clause_faults(sources, column, crates):
    """What of the column Clause doesn't stand."""
    if column == "every function":
        return
    for part in column.split(";"):
        of_crate = re.search(r"` of `(\w+)`", part)
        if of_crate and of_crate[1] not in sources.checkout.crates:
            yield f"no crate {of_crate[1]}"
            continue
        part = part.replace(f" of `{of_crate[1]}`", "") if of_crate else part
        of_trait = re.fullmatch(r" ?`(\w+)`'s `(\w+)`: (.*)", part)
        if of_trait:
            yield from impl_faults(sources, [of_crate[1]] if of_crate else crates, of_trait[1], of_trait[2], NAME.findall(of_trait[3]))
            continue
        left, _, right = part.partition(": ")
        if not NAME.search(left):
            yield f"no clause in {part.strip()!r}"
        for name in NAME.findall(left):
            yield from function_faults(sources, [of_crate[1]] if of_crate else crates, name, NAME.findall(right))


def impl_faults(sources, crates, subject, trait, members):
    """What is wanting of an impl."""
    found = [impls[subject, trait] for _, impls, _ in map(sources.of, crates) if (subject, trait) in impls]
    traits = set().union(*(sources.of(crate)[2].get(trait, set()) for crate in sources.checkout.crates))
    if not found:
        yield f"no impl of {trait} for {subject} in {', '.join(crates)}"
    yield from (f"{trait} for {subject} has no {member}" for member in members if found and member not in found[0] | traits)


def function_faults(sources, crates, name, wanted):
    """What is wanting of a function and its clauses."""
    found = []
    for functions, impls, _ in map(sources.of, crates):
        found += [clauses for key, lists in functions.items() for clauses in lists if key == name or key.endswith(f"::{name}") and "::" not in name]
        found += [{""} for _, trait in impls if trait == name]
    where = ", ".join(crates)
    if not found:
        yield f"no function {name} in {where}"
    elif not wanted and not any(found):
        yield f"{name} in {where} has no ensures"
    yield from (f"{name} in {where} has no ensures {clause}" for clause in wanted if found and not any(clause in clauses for clauses in found))


def faults(top, page):
    """What is wrong with each row of the table."""
    sources, count = Sources(top), 0
    rows = [cells for cells in (row.split(" | ") for row in ROW.findall(page)) if cells[0] != "Promise"]
    for cells in rows:
        count += 1
        if len(cells) != 3:
            yield count, f"{cells[0][:60]}: a row of {len(cells)} columns"
            continue
        promise, definition, clause = cells
        crates = [crate for crate in (name.split("/")[0] for name in NAME.findall(definition) if "/" in name) if crate in sources.checkout.crates]
        wrong = [*definition_faults(top, definition), *clause_faults(sources, clause, [*dict.fromkeys([*crates, "vidi_commands"])])]
        yield from ((count, f"{promise[:60]}: {line}") for line in wrong)
    yield count, None


def main():
    """Looks through the page."""
    found = list(faults(TOP, tool_kit.text_of(sys.argv[1] if sys.argv[1:] else PAGE)))
    rows, wrong = found[-1][0], [line for _, line in found if line]
    if not rows:
        raise Problem("the page has no row")
    print(*wrong, f"{rows} promises, {len({at for at, line in found if line})} wrong", sep="\n")
    sys.exit(1 if wrong else 0)
