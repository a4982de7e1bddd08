#!/usr/bin/env python3
"""Writes docs/PLANTED.md: what wrong bodies show of the contracts, and which public functions have none.

    tools/planted.py            writes the page
    tools/planted.py --check    says whether the page is what it would write

It counts the functions, their clauses and the must-fail edits of each crate. What planted bodies showed stands in
tools/planted.toml.

Public is a function that is declared `pub`, or that a public trait asks for. A function has a clause where an `ensures`
says something of what it returns or leaves. A function of an `impl` of a trait isn't counted: its clauses are the
trait's. Crates of tests, `fw_test_*`, aren't counted.

Exit status: 0 where the page is written, or is up to date; 1 where it is out of date; 2 where it can't be said.
"""

import os
import re
import sys
import textwrap
import tomllib
from dataclasses import dataclass, field

from changes import GitError, files_of
from command_line import add_top, parser_of
from functions import CLAUSES, NAME, OPENS, closing, tokens_of

PAGE, DATA = "docs/PLANTED.md", "tools/planted.toml"
MOST_COLUMNS = 100

INTRODUCTION = """
A contract may say less than its author thinks. What it refuses shows how much it says. So wrong bodies are put under the
contracts, and the prover has to reject each. A body that it accepts is *let through*: it meets its contract.

There are two kinds. A *must-fail edit* is a mutation that the prover must reject: a file in `crates/CRATE/must-fail`, named
by what the wrong body does. `tools/edits.py CRATE` tries the edits of a crate. *Planted bodies* are written by `rt plant`,
or by hand. They give up, as by a constant or a fault; or they call the function and change an argument, its answer or a
field.

`tools/planted.py` writes this page, and `tools/planted.py --check` compares it with the crates.
"""
CRATES = """
A function is public where it is declared `pub`, or where a public trait asks for it. It has a clause where an `ensures`
says something of what it returns or leaves. A law is a function that returns and changes nothing: its contract is a fact.
A function without a clause is proved all the same: it is safe, and it returns. Functions of an `impl` of a trait aren't
counted, since their clauses are the trait's.
"""
WITHOUT = """
Of these the prover shows that they are safe and that they return, and nothing else. Tests show what they do.
"""
PLANTED = """
Each row is of the code at its commit. What changed since wasn't planted again, and a crate without a row wasn't planted.
*Same* are bodies that turned out to be the function itself. *Not judged* are bodies at which the tactics met a limit, or
for which there was no time. In `fw_query` the first row has what is now in `fw_sums` and `fw_coverage`, and its parts were
planted again.
"""
THROUGH = """
Each of these meets its contract, for the reason beside it.
"""
READ = """
Each of these would meet its contract too. They were found by reading, and no check has shown it.

One reader saw the clauses of `fw_serve`, `fw_recover`, `fw_threads`, `fw_snapshot`, `fw_segment` and `fw_query`, and no body. The
reader named 54 wrong bodies that would break [the promise](PROOFS.md), and for 52 of them the clause that refuses it. Must-fail
edits turn these clauses. The other two stand here: `Store::run` with a checkpoint, and `Closed` for what may be stored. Another
reader of the same, who looked for what no clause refuses, named twenty. Seven are refused, and the others stand here.
"""
UNJUDGED = """
Nothing is known of these bodies. Where must-fail edits turn the same clauses, they are refused.
"""
LIMITS = """
- A refusal says that the tactics didn't prove the body, and not that nothing can. A `serve` that always answers `Read` was
  refused, though by its contract it may.
- A body that answers wherever it may that memory ran out isn't tried. It meets each contract that allows that answer, as
  those of `Inbox::push`, `Inbox::take`, `judge_hand` and `run_events`.
- `rt plant` writes the doc comment of an enum's variant into a body, where it hides the end of the line. Nothing compiles
  then, and nothing is judged. The figures are those of a copy of the tool that passes over doc comments.
"""


class PlantedError(Exception):
    """Why the page can't be written."""


@dataclass(frozen=True)
class Function:
    """A function: its name, behind that of its type; how many `ensures` it has; whether it is a law, which returns and changes nothing; whether it is public."""

    name: str
    clauses: int
    is_law: bool
    is_public: bool


@dataclass
class Crate:
    """A crate: its functions, and the names of its must-fail edits."""

    functions: list = field(default_factory=list)
    edits: set = field(default_factory=set)

    def kept(self, is_public):
        """The public functions, or the others."""
        return [it for it in self.functions if it.is_public == is_public]

    def without_clause(self, is_public):
        """The names of the public functions, or of the others, of which no clause says anything."""
        return [it.name for it in self.kept(is_public) if not it.clauses]

    def counts(self):
        """How many public functions there are, how many of them are laws and how many have no clause; how many others, and how many of them have none."""
        public, others = self.kept(True), self.kept(False)
        return [len(public), sum(it.is_law for it in public), len(self.without_clause(True)), len(others), len(self.without_clause(False))]


def head_of(tokens, at):
    """Of the function whose name stands at a number: how many `ensures` it has, whether it is a law, and where its head ends."""
    clauses, in_clause, acts, at = 0, False, False, at + 1
    while at < len(tokens):
        word = tokens[at][0]
        if word == ";" or word == "{" and not in_clause:
            break
        if word in CLAUSES:
            in_clause = True
            clauses += word == "ensures"
        elif word == "->":
            acts = True
        elif word in OPENS:
            end = closing(tokens, at)
            acts = acts or not in_clause and any(it == "mut" for it, _ in tokens[at:end])
            at, in_clause = end, in_clause and word != "{"
        at += 1
    return clauses, clauses > 0 and not acts, at


def functions_in(text):
    """The functions of a source file, but for those of an `impl` of a trait."""
    tokens, owner, depth, in_trait, is_of_trait, at = list(tokens_of(text)), "", 0, False, False, 0
    while at < len(tokens):
        word, before = tokens[at][0], tokens[at - 1][0] if at else ""
        if word in ("impl", "trait") and not depth:
            opened = next((number for number in range(at, len(tokens)) if tokens[number][0] == "{"), len(tokens) - 1)
            owner, is_of_trait = owner_name(tokens, at, opened)
            in_trait = word == "trait" and before == "pub"
            at, depth = opened, 1
        elif word == "fn" and at + 1 < len(tokens) and NAME.fullmatch(tokens[at + 1][0]):
            name = tokens[at + 1][0]
            clauses, is_law, end = head_of(tokens, at + 1)
            if not is_of_trait:
                yield Function(f"{owner}::{name}" if owner else name, clauses, is_law, before == "pub" or in_trait)
            at = closing(tokens, end) if end < len(tokens) and tokens[end][0] == "{" else end
        elif word in "{}":
            depth += 1 if word == "{" else -1
            if not depth:
                owner, in_trait, is_of_trait = "", False, False
        at += 1


def owner_name(tokens, at, opened):
    """The type of the `impl`, or the trait, whose keyword stands at a number and whose block opens at another; and whether it is an `impl` of a trait."""
    depth, found, is_of_trait, is_past_where = 0, "", False, False
    for number in range(at + 1, opened):
        word = tokens[number][0]
        depth += (word == "<") - (word == ">")
        is_past_where = is_past_where or word == "where"
        if word == "for" and not depth and not is_past_where:
            found, is_of_trait = "", True
        elif not depth and not is_past_where and not found and NAME.fullmatch(word) and word not in ("mut", "dyn", "unsafe"):
            found = word
    return found, is_of_trait


def crates_of(top):
    """The crates, by name."""
    crates = {}
    for path in files_of(top):
        found = re.fullmatch(r"crates/(\w+)/(?:src/.*\.rt|must-fail/(\w+)\.edit)", path)
        if not found or found[1].startswith("fw_test_"):
            continue
        crate = crates.setdefault(found[1], Crate())
        if found[2]:
            crate.edits.add(found[2])
        else:
            with open(os.path.join(top, path), encoding="utf-8") as file:
                crate.functions += functions_in(file.read())
    return crates


def data_of(top):
    """What tools/planted.toml says."""
    try:
        with open(os.path.join(top, DATA), "rb") as file:
            data = tomllib.load(file)
        return data["runs"], data["through"], data["read"], data["unjudged"]
    except (KeyError, tomllib.TOMLDecodeError) as error:
        raise PlantedError(f"{DATA}: {error}") from error


def prose(text):
    """Paragraphs and list items, each wrapped anew; a code span isn't broken."""
    blocks = re.split(r"\n\n|\n(?=- )", text.strip())
    wrapped = []
    for block in blocks:
        kept = re.sub(r"`[^`]+`", lambda found: found[0].replace(" ", "\0"), " ".join(block.split()))
        indent = "  " if block.startswith("- ") else ""
        lines = textwrap.wrap(kept, MOST_COLUMNS, subsequent_indent=indent, break_long_words=False, break_on_hyphens=False)
        wrapped.append("\n".join(lines).replace("\0", " "))
    gap = "\n" if text.strip().startswith("- ") else "\n\n"
    return gap.join(wrapped)


def table(head, rows):
    """A table."""
    lines = [head, ["---"] * len(head), *rows]
    return "\n".join(f"| {' | '.join(map(str, line))} |" for line in lines)


def edit_names(crate, names, crates):
    """The edits of these names, each with its crate where that is another one."""
    found = []
    for name in names:
        having = [other for other in crates if name in crates[other].edits]
        if not having:
            raise PlantedError(f"{DATA}: there is no edit {name}")
        found.append(f"`{name}`" if crate in having else f"`{having[0]}/{name}`")
    return ", ".join(found) or "none named"


def page_of(crates, runs, through, read, unjudged):
    """The page."""
    counted = []
    for name, crate in sorted(crates.items()):
        if crate.functions or crate.edits:
            counted.append([f"`{name}`", *crate.counts(), len(crate.edits)])
    sums = [sum(row[column] for row in counted) for column in range(1, 7)]
    counted.append(["all", *sums])
    bare = [(name, crate.without_clause(True)) for name, crate in sorted(crates.items())]
    without = [[f"`{name}`", ", ".join(f"`{it}`" for it in found)] for name, found in bare if found]
    rows = [[f"`{it['crate']}`", it["bodies"], it["why"]] for it in through]
    by_reading = [[f"`{it['crate']}`", it["bodies"], it["why"]] for it in read]
    unknown = [[f"`{it['crate']}`", it["bodies"], edit_names(it["crate"], it["edits"], crates)] for it in unjudged]
    parts = [
        "# Planted bugs",
        prose(INTRODUCTION),
        "## Crate by crate",
        prose(CRATES),
        table(["crate", "public functions", "laws among them", "without a clause", "other functions", "without a clause", "must-fail edits"], counted),
        "## Public functions without a clause",
        prose(WITHOUT),
        table(["crate", "functions"], without),
        "## Planted bodies",
        prose(PLANTED),
        table(["code", "functions", "refused", "same", "let through", "not judged", "commit"], [[*row[:-1], f"`{row[-1]}`"] for row in runs]),
        "## Let through",
        prose(THROUGH),
        table(["crate", "bodies", "why"], rows),
        "## Let through, by reading",
        prose(READ),
        table(["crate", "bodies", "why"], by_reading),
        "## Not judged",
        prose(UNJUDGED),
        table(["crate", "bodies", "edits of the same clauses"], unknown),
        "## What a planted body doesn't show",
        prose(LIMITS),
    ]
    return "\n\n".join(parts) + "\n"


def main():
    parser = parser_of(__doc__)
    parser.add_argument("--check", action="store_true", help="say whether the page is what would be written")
    add_top(parser)
    options = parser.parse_args()
    path = os.path.join(options.top, PAGE)
    try:
        text = page_of(crates_of(options.top), *data_of(options.top))
        if not options.check:
            with open(path, "w", encoding="utf-8") as file:
                file.write(text)
            return 0
        with open(path, encoding="utf-8") as file:
            is_same = file.read() == text
    except (GitError, OSError, PlantedError) as error:
        print(f"tools/planted.py: {error}", file=sys.stderr)
        return 2
    if not is_same:
        print(f"{PAGE} is out of date: run tools/planted.py", file=sys.stderr)
    return 0 if is_same else 1


if __name__ == "__main__":
    sys.exit(main())
