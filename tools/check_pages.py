#!/usr/bin/env python3
"""Checks the pages: README.md, CONTRIBUTING.md, and the Markdown files of docs, examples, bench and tools/fuzz; and the lines of clauses.

    tools/check_pages.py              prints each fault as PAGE:LINE: FAULT
    tools/check_pages.py --figures    prints the size of each page, its words a sentence, its longest lines and its longest sentence too

For example, `docs/DISK.md:12: no heading of README.md has the anchor #run-it`. These are faults:

- a relative link to a file that isn't there, or to an anchor that no heading of the page has
- a name in code quotes that isn't there: a crate (`fw_money`), an item of a crate (`fw_money::parse`, `State::apply`),
  a file or folder (`docs/DISK.md`, `src/lib.rt`), a must-fail edit (`fw_money/NAME`), or any other name with an
  underscore or a capital inside
- a crate, or a path from the top, in a block of code that isn't there
- a clause that the function beside it lacks: "`serve`, clause `done`", "clause `done` of `serve`", `serve.done`
- a row of a table of cases without its file, or of a table of definitions whose file doesn't define the name
- a line of prose of more than 100 columns that can be broken
- a page of more lines than it may have: README.md (150), CONTRIBUTING.md (200), docs/PROOFS.md, docs/BENCHMARKS.md
  and docs/CLUSTER.md (300)
- a page whose sentences have more than 18 words on average: those of paragraphs and list items, a code span as one word
- a decision of more than 80 words: the text of a section of docs/DECISIONS.md, from its heading to the next one
- words for which the field has a usual one, as `want of memory` for `out of memory`
- a line of a contract, in a source file of a crate, of more than 100 columns

In a path `..` and a part in capitals, as NAME, stand for anything (but not in the name of a page), and an extension may
be left out. A file named by its end alone, as `src/lib.rt`, has to be in a crate that its section names, if any.

Exit status: 0 where there is no fault, 1 where there is one, 2 where the pages can't be checked.
"""

import bisect
import functools
import os
import posixpath
import re
import sys
from dataclasses import dataclass, field

from changes import GitError, files_of, output_of
from command_line import add_top, parser_of, status_of_faults
from crates_txt import deps_of, lines_in

PAGE = re.compile(r"README\.md|CONTRIBUTING\.md|(docs|examples|bench|tools/fuzz)/[^/]+\.md")
# The first line of a clause.
CLAUSE = re.compile(r"\s*(requires|ensures)\b")
MOST_COLUMNS = 100
MOST_LINES = {"README.md": 150, "CONTRIBUTING.md": 200, "docs/PROOFS.md": 300, "docs/BENCHMARKS.md": 300, "docs/CLUSTER.md": 300}
MOST_WORDS_A_SENTENCE = 18
DECISIONS, MOST_WORDS_OF_A_DECISION = "docs/DECISIONS.md", 80

# Names that stand for something outside of the repository, each with the reason.
OUTSIDE = {
    "map_indices": "a function of Rattle's standard library",
    "FIRST_PROOFS.md": "a page of the toolchain",
    "SHORTER_PROOFS.md": "a page of the toolchain",
    "docs/ANSWERS.md": "a page of the toolchain",
}

# Words that no page has, each with those that it has instead.
USUAL = {
    r"(?:for )?want of memory|memory is wanting": "out of memory, or a failed allocation",
    r"(?:is|are) told": "returns, answers or reports",
    r"hands on": "re-exports",
    r"fails? on order": "injects faults",
    r"refused allocations?": "injected allocation failures",
    r"(?:doesn't|don't|does not|do not) bear out": "never trusts a length prefix",
}

# The kinds of lines.
BLANK, CODE, HEADING, TABLE, PROSE = "blank", "code", "heading", "table", "prose"
FENCE = re.compile(r"\s*(```+|~~~+)")
MARKER = re.compile(r"(\s*)(?:[-*+]|\d+[.)])\s+")
SPAN = re.compile(r"(?<!`)(`+)(?!`)((?:(?!\n\s*\n).)+?)(?<!`)\1(?!`)", re.DOTALL)
LINK = re.compile(r"\]\(([^()\s]*)\)|^\s*\[[^\]]+\]:\s*(\S+)", re.MULTILINE)
# What a line isn't broken in: a link, a code span with what touches it, a word.
ATOM = re.compile(r"(?:!?\[[^\]]*\]\([^()]*\)|`[^`]*`|\S)+")
SENTENCE_END = re.compile(r"(?<!\.)[.?!][)\"'*_\]]*(?=\s|$)")
WORD = re.compile(r"\S*\w\S*")

CRATE = re.compile(r"\bfw_[a-z]\w*\b(?!\*)")
ITEM = re.compile(r"\w+(?:::\w+)+")
NAME = re.compile(r"[A-Za-z]\w*")
# A name that is no word of English: with an underscore or a capital inside.
HARD_NAME = re.compile(r"\w*(?:[A-Za-z0-9]_[A-Za-z0-9]|[a-z0-9][A-Z])(?:\w*[A-Za-z0-9])?")
PATH = re.compile(r"[\w.*/-]+")
FILE = re.compile(r"[\w-]+\.(?:antt|answers|c|csv|edit|expected|md|py|rs|rt|script|sh|toml|txt)")
# The words before the name of a definition.
DEFINING = "abbrev|unfoldable|pub|record|data"
# What stands for anything in a path: `..`, `*`, a part in capitals but for the name of a page.
PLACEHOLDER = re.compile(r"\.{2,}|\*+|(?<![\w-])[A-Z][A-Z_]*(?![\w-]|\.md\b)")
IN_A_CRATE = ("src/", "specs/", "proofs/", "must-fail/")
SOME_CLAUSES = r"clause `[a-z]\w*`|clauses `[a-z]\w*`(?:(?:,| and|, and) `[a-z]\w*`)*"
CLAUSES = re.compile(rf"(?:(?:`([\w:]+)`|(the same laws?)), )?\(?(?:its )?({SOME_CLAUSES})(?: of `([\w:]+)`)?", re.IGNORECASE)


class PagesError(Exception):
    """Why the pages can't be checked."""


@dataclass(frozen=True)
class Fault:
    """A fault: its page, its line, and what is wrong."""

    page: str
    line: int
    what: str

    def __str__(self):
        return f"{self.page}:{self.line}: {self.what}"


def kinds_of(lines):
    """The kind of each line of a page."""
    kinds, fence, before, columns = [], "", BLANK, []
    for line in lines:
        text, depth = line.strip(), len(line) - len(line.lstrip())
        fenced, marker = FENCE.match(line), MARKER.match(line)
        kind = PROSE
        if fence or fenced:
            kind = CODE
            if not fence:
                fence = fenced[1]
            elif text.startswith(fence) and not text.strip(fence[0]):
                fence = ""
        elif not text:
            kind = BLANK
        else:
            # The columns at which the open list items have their text.
            while columns and depth < columns[-1] and (before != PROSE or marker):
                columns.pop()
            if before != PROSE and depth >= (columns[-1] if columns else 0) + 4:
                kind = CODE
            elif re.match(r"#{1,6}\s", text):
                kind = HEADING
            elif text.startswith("|"):
                kind = TABLE
            elif marker:
                columns.append(marker.end())
        kinds.append(kind)
        before = kind
    return kinds


def anchor_of(heading):
    """The anchor that GitHub gives to a heading."""
    text = re.sub(r"!?\[([^\]]*)\]\([^)]*\)", r"\1", heading.strip().lstrip("#").strip())
    return re.sub(r"[^\w\- ]", "", text.lower()).replace(" ", "-")


@dataclass
class Page:
    """A page: its path, its text, its lines and their kinds."""

    path: str
    text: str

    @functools.cached_property
    def lines(self):
        """The lines of the text."""
        return self.text.splitlines()

    @functools.cached_property
    def kinds(self):
        """The kind of each line."""
        return kinds_of(self.lines)

    @functools.cached_property
    def prose(self):
        """The text with an empty line for each line of code."""
        return "\n".join("" if kind == CODE else line for line, kind in zip(self.lines, self.kinds))

    @functools.cached_property
    def ends(self):
        """The places of the ends of lines in the prose."""
        return [found.start() for found in re.finditer("\n", self.prose)]

    def line_of(self, place):
        """The number of the line of a place in the prose."""
        return bisect.bisect_left(self.ends, place) + 1

    @functools.cached_property
    def anchors(self):
        """The anchors of the headings: one that is there already gets a number."""
        found, counts = set(), {}
        for line, kind in zip(self.lines, self.kinds):
            if kind == HEADING:
                anchor = anchor_of(line)
                count = counts.get(anchor, 0)
                counts[anchor] = count + 1
                found.add(f"{anchor}-{count}" if count else anchor)
        return found

    def spans(self):
        """The code spans: the line of each, and its text with single blanks."""
        for found in SPAN.finditer(self.prose):
            yield self.line_of(found.start()), " ".join(found[2].replace("\\|", "|").split())

    def links(self):
        """The targets of the links, each with its line. A code span has none."""
        text = SPAN.sub(lambda found: re.sub(r"[^\n]", "x", found[0]), self.prose)
        for found in LINK.finditer(text):
            yield self.line_of(found.start()), found[1] or found[2] or ""

    def blocks(self):
        """The paragraphs, list items and rows of tables: the line of each, and its lines."""
        at, lines = 0, []
        for number, (line, kind) in enumerate([*zip(self.lines, self.kinds), ("", BLANK)], 1):
            if lines and (kind != PROSE or MARKER.match(line)):
                yield at, lines
                lines = []
            if kind == TABLE:
                yield number, [line]
            elif kind == PROSE:
                at, lines = (at if lines else number), [*lines, line]

    def rows(self):
        """The rows of tables: the line of each, the cells of its table's head, and its own."""
        head = []
        for number, (line, kind) in enumerate(zip(self.lines, self.kinds), 1):
            cells = [cell.strip() for cell in re.split(r"(?<!\\)\|", line.strip().strip("|"))]
            if kind != TABLE:
                head = []
            elif not head:
                head = cells
            elif not re.fullmatch(r"[-:| ]+", line.strip()):
                yield number, head, cells

    def sections(self):
        """The number of the section of each line: a heading begins one."""
        number, found = 0, []
        for kind in self.kinds:
            number += kind == HEADING
            found.append(number)
        return found


@dataclass
class Item:
    """A type or a trait: its methods, constants, variants and fields, the clauses of each method, its traits."""

    members: set = field(default_factory=set)
    clauses: dict = field(default_factory=dict)
    traits: set = field(default_factory=set)


def owner_of(header):
    """The type of the head of an `impl`, and its trait or an empty text."""
    text, before = header.replace("->", "").split(" where ")[0], ""
    while text != before:
        before, text = text, re.sub(r"<[^<>]*>", "", text)
    names = [re.sub(r".*::", "", part.split()[-1]) if part.split() else "" for part in re.sub(r"^impl\b", "", text).split(" for ")]
    return re.sub(r"\W", "", names[-1]), re.sub(r"\W", "", names[0]) if len(names) > 1 else ""


class Crate:
    """What the sources of a crate name: functions and their clauses, types and traits, modules, what is re-exported."""

    def __init__(self):
        self.functions, self.items, self.names = {}, {}, set()

    def add(self, text):
        """Adds what a source file names. It reads lines as `rt fmt` leaves them: what is in a block is indented."""
        owner, clauses = None, None
        lines = text.splitlines()
        for number, line in enumerate(lines):
            found = re.match(r"(\s*)(?:pub(?:\([^)]*\))? )?(?:unsafe |ghost )?(struct|enum|trait|type|const|static|mod|fn|impl)\b(.*)", line)
            clause = re.match(r"\s*(?:requires|ensures) ([a-z]\w*) \{", line)
            if line.startswith("}"):
                owner = None
            elif found and not found[1] and found[2] == "impl":
                header = " ".join(lines[number : number + 12]).split(" {")[0]
                name, of_trait = owner_of(header)
                owner = self.items.setdefault(name, Item())
                owner.traits.add(of_trait)
            elif found and NAME.match(found[3].strip()):
                name = NAME.match(found[3].strip())[0]
                if found[2] == "fn":
                    kept = owner.clauses if found[1] and owner else self.functions
                    clauses = kept.setdefault(name, set())
                if found[1] and owner:
                    owner.members.add(name)
                elif not found[1]:
                    self.names.add(name)
                    if found[2] in ("struct", "enum", "trait", "type"):
                        owner = self.items.setdefault(name, Item()) if line.endswith("{") else None
                        self.items.setdefault(name, Item())
            elif clause and clauses is not None:
                clauses.add(clause[1])
            elif owner and (part := re.match(r" {4}(?:pub )?([A-Za-z]\w*)(?:[,({:]| [{=]|$)", line)):
                owner.members.add(part[1])
        for used in re.findall(r"^pub use ([^;]+);", text, re.MULTILINE):
            self.names.update(NAME.findall(used))


class Repository:
    """What the pages may name: files, folders, crates and what they name, words of the sources."""

    def __init__(self, top):
        self.top, self.files = top, files_of(top)
        self.folders = set()
        for path in self.files:
            while path := posixpath.dirname(path):
                self.folders.add(path)
        self.paths = {*self.files, *self.folders}
        # The paths by their last part, with its extension and without.
        self.by_name = {}
        for path in self.paths:
            name = posixpath.basename(path)
            for key in {name, name.split(".")[0]}:
                self.by_name.setdefault(key, []).append(path)
        self.words = {name.split(".")[0] for name in self.by_name}
        listed = self._listed()
        self.crates = {name: Crate() for name in listed}
        # Libraries that the crates stand on, whose names aren't here.
        self.foreign = {"std", "core", "alloc"}.union(*listed.values()) - self.crates.keys()
        for path in self.files:
            self._read(path)
        self.clauses = self._clauses()
        self.all_clauses = set().union(*self.clauses.values())

    def text(self, path):
        with open(os.path.join(self.top, path), encoding="utf-8", errors="replace") as file:
            return file.read()

    def _listed(self):
        """What each crate of crates.txt stands on."""
        if "crates.txt" not in self.paths:
            raise PagesError(f"{self.top} has no crates.txt")
        return deps_of(lines_in(self.text("crates.txt")))

    def _read(self, path):
        # Pages, data and answers give no names.
        if path.endswith((".md", ".csv", ".answers", ".expected")) or not os.path.isfile(os.path.join(self.top, path)):
            return
        text, source = self.text(path), re.fullmatch(r"crates/(\w+)/src/.+\.rt", path)
        self.words.update(NAME.findall(text))
        if source and source[1] in self.crates:
            self.crates[source[1]].add(text)

    def _clauses(self):
        """The clauses by each name that a page may use: of a function, a method, all methods of a type or a trait."""
        found = {}

        def note(clauses, *names):
            for name in names:
                found.setdefault(name, set()).update(clauses)

        traits = {name: item for crate in self.crates.values() for name, item in crate.items.items()}
        for title, crate in self.crates.items():
            for function, clauses in crate.functions.items():
                note(clauses, function, f"{title}::{function}")
            for name, item in crate.items.items():
                for it in (item, *(traits[of] for of in item.traits if of in traits)):
                    for method, clauses in it.clauses.items():
                        note(clauses, name, f"{title}::{name}", method, f"{name}::{method}", f"{title}::{name}::{method}")
        return found

    def pages(self):
        """The pages that are checked."""
        return [Page(path, self.text(path)) for path in self.files if PAGE.fullmatch(path)]

    def has_item(self, name):
        """Whether there is an item, as `fw_money::parse`, `State::apply` or `escapes::push_escaped`.

        One of another library passes.
        """
        parts, crates = name.split("::"), list(self.crates.values())
        if CRATE.fullmatch(parts[0]):
            crate = self.crates.get(parts[0])
            return bool(crate) and parts[1] in crate.names and (len(parts) < 3 or self._has_member([crate], *parts[1:3]))
        if any(path.endswith(f"/src/{parts[0]}.rt") for path in self.by_name.get(parts[0], ())):
            return any(parts[-1] in crate.names for crate in crates)
        return parts[0] in self.foreign or self._has_member(crates, *parts[:2])

    def _has_member(self, crates, title, member):
        """Whether a type of these crates has a member, or one that they re-export."""
        items = [crate.items[title] for crate in crates if title in crate.items]
        items = items or [crate.items[title] for crate in self.crates.values() if title in crate.items]
        return any(member in item.members for item in items)

    def defines(self, paths, name):
        """Whether one of some files, or one in one of some folders, begins a line with the definition of a name."""
        folders = tuple(f"{path.rstrip('/')}/" for path in paths)
        files = {*self.paths.intersection(paths), *(file for file in self.files if file.startswith(folders))} - self.folders
        begins = re.compile(rf"^\s*(?:(?:{DEFINING})\s+)*{re.escape(name)}(?!\w)", re.MULTILINE)
        return any(begins.search(self.text(file)) for file in files)

    def is_path(self, path):
        """Whether there is a file or a folder of this path."""
        path = posixpath.normpath(path)
        return path in self.paths or path in OUTSIDE or bool(self._like(path, self.by_name.get(posixpath.basename(path), ())))

    def ending_with(self, path):
        """The files and folders whose paths end with a path."""
        path = path.rstrip("/")
        return self._like(path, self.by_name.get(posixpath.basename(path), ()), "(.*/)?")

    def _like(self, path, named, front=""):
        """The paths that one with placeholders stands for; where its last part has none, these are among `named`."""
        some = self.paths if PLACEHOLDER.search(posixpath.basename(path)) else named
        parts = PLACEHOLDER.split(path)
        wild = [".*" if found.startswith("..") else "[^/]*" for found in PLACEHOLDER.findall(path)]
        pattern = "".join(re.escape(part) + any_text for part, any_text in zip(parts, [*wild, ""]))
        return [it for it in some if re.fullmatch(rf"{front}{pattern}(\.[^/]*)?", it)]

    def is_made(self, path):
        """Whether git ignores a path: what is there comes from a run or a build."""
        return bool(output_of(["git", "check-ignore", "--", path, f"{path.rstrip('/')}/x"], self.top))


def check_links(page, pages, repository):
    """The links that lead nowhere."""
    for line, target in page.links():
        if re.match(r"[a-z]+:", target):
            continue
        path, _, anchor = target.partition("#")
        path = posixpath.normpath(posixpath.join(posixpath.dirname(page.path), path)) if path else page.path
        if path not in repository.paths:
            yield Fault(page.path, line, f"the link {target} leads to no file")
        elif anchor and path in pages and anchor not in pages[path].anchors:
            yield Fault(page.path, line, f"no heading of {path} has the anchor #{anchor}")


def crates_in(span):
    """The crates that a code span names, also in a path."""
    return {*CRATE.findall(span), *re.findall(r"\bcrates/([a-z]\w*)(?![\w*])", span)}


class Names:
    """Checks the code spans of a page, and the crates and paths in its code."""

    def __init__(self, page, repository):
        self.page, self.repository = page, repository
        self.sections = page.sections()
        self.crates = {}
        for line, span in page.spans():
            self.crates.setdefault(self.sections[line - 1], set()).update(crates_in(span))

    def faults(self):
        for line, span in self.page.spans():
            for what in self._of(line, span):
                yield Fault(self.page.path, line, what)
        for number, (line, kind) in enumerate(zip(self.page.lines, self.page.kinds), 1):
            for what in self._of_code(number, line) if kind == CODE else ():
                yield Fault(self.page.path, number, what)

    def _no_crates(self, text):
        """What to say of the names of crates that aren't there."""
        known = self.repository.crates.keys() | self.repository.by_name.keys()
        return [f"{name} is no crate" for name in sorted(crates_in(text) - known)]

    def _of_code(self, number, line):
        # Only paths from the top: what a command prints may name files of a crate that aren't there yet.
        words = [word.rstrip(".") for word in re.findall(r"[\w./*-]+", line) if word.split("/")[0] in self.repository.folders]
        return self._no_crates(line) + [f"there is no {word}" for word in words if "/" in word and not self._is_there(number, word, False)]

    def _of(self, line, span):
        repository, words = self.repository, span.split()
        yield from self._no_crates(span)
        if span in OUTSIDE:
            return
        if ITEM.fullmatch(span) and not repository.has_item(span):
            yield f"{span} is in no crate"
        for word in words if len(words) == 1 else [word.rstrip(".,;:") for word in words]:
            if PATH.fullmatch(word) and not self._is_there(line, word, len(words) == 1):
                yield f"there is no {word}"
        if all(NAME.fullmatch(word) for word in words):
            for word in words:
                if HARD_NAME.fullmatch(word) and word not in repository.words and not CRATE.fullmatch(word):
                    yield f"no source names {word}"
        named = re.fullmatch(r"([a-z]\w*)\.([a-z]\w*)", span)
        if named and not FILE.fullmatch(span):
            clauses = repository.clauses.get(named[1])
            if clauses is not None and named[2] not in clauses:
                yield f"{named[1]} has no clause {named[2]}"

    def _is_there(self, line, word, is_alone):
        """Whether the file or folder that a word names is there; a word that names none passes."""
        repository, first = self.repository, word.split("/")[0]
        if word.startswith("/") or not word.strip("./*"):
            return True
        if "/" in word and first in repository.crates and CRATE.fullmatch(first):
            rest = word.partition("/")[2]
            return repository.is_path(f"crates/{word}") or repository.is_path(f"crates/{first}/must-fail/{rest}")
        if "/" in word and first in repository.folders:
            return repository.is_path(word) or repository.is_made(word)
        if word.startswith(IN_A_CRATE):
            return self._is_in_a_crate(line, word)
        if is_alone and ("/" in word or FILE.fullmatch(word)):
            beside = posixpath.join(posixpath.dirname(self.page.path), word)
            return repository.is_path(beside) or bool(repository.ending_with(word)) or repository.is_made(word)
        return True

    def _is_in_a_crate(self, line, word):
        """Whether a file is in a crate that the section names, or in any where it names none."""
        is_folder = word.rstrip("/") in map(posixpath.normpath, IN_A_CRATE)
        named = set() if is_folder else self.crates.get(self.sections[line - 1], set()) & self.repository.crates.keys()
        crates = [path.split("/")[1] for path in self.repository.ending_with(word) if path.startswith("crates/")]
        return bool(named.intersection(crates) if named else crates)


def check_clauses(page, repository):
    """The clauses that the function beside them lacks, or that no function has."""
    last = []
    for line, lines in page.blocks():
        text = " ".join(" ".join(lines).split())
        for found in CLAUSES.finditer(text):
            clauses = re.findall(r"`(\w+)`", found[3])
            names = [found[4] or found[1]] if found[4] or found[1] else last if found[2] else []
            known = [repository.clauses[name] for name in names if name in repository.clauses]
            for clause in clauses:
                if clause not in (set().union(*known) if known else repository.all_clauses):
                    title = " and ".join(names) if known else "no function"
                    at = next((line + row for row, it in enumerate(lines) if f"`{clause}`" in it), line)
                    yield Fault(page.path, at, f"{title} has {'no' if known else 'a'} clause {clause}")
        named = [span[2] for span in SPAN.finditer(text) if re.fullmatch(r"[\w:]+", span[2]) and repository.clauses.get(span[2])]
        if named and "the same law" not in text:
            last = named


def check_tables(page, repository):
    """The cases that have no file, and the definitions that aren't in the file of their row."""
    files = []
    for line, head, cells in page.rows():
        names = [found[2].split()[0] for found in SPAN.finditer(cells[0])]
        if head[0] == "case":
            for name in names:
                if not repository.is_path(posixpath.join(posixpath.dirname(page.path), "cases", name)):
                    yield Fault(page.path, line, f"there is no case {name}")
        elif (head[0], head[-1]) == ("definition", "file"):
            # A file beside the first one is named by its last part, and "the same" is that of the row before.
            paths = [found[2] for found in SPAN.finditer(cells[-1])]
            files = [path if "/" in path else posixpath.join(posixpath.dirname(paths[0]), path) for path in paths] or files
            for name in names:
                if not repository.defines(files, name):
                    yield Fault(page.path, line, f"{' and '.join(files) or 'no file'} doesn't define {name}")


def is_too_long(line):
    """Whether a line of prose has too many columns, and a place to break it."""
    return len(line) > MOST_COLUMNS and len(ATOM.findall(line[MARKER.match(line).end() if MARKER.match(line) else 0 :])) > 1


def check_lines(page):
    """The lines that are too long."""
    for number, (line, kind) in enumerate(zip(page.lines, page.kinds), 1):
        if kind == PROSE and is_too_long(line):
            yield Fault(page.path, number, f"{len(line)} columns, more than {MOST_COLUMNS}")


def check_words(page):
    """The words for which there is a usual one."""
    for line, lines in page.blocks():
        text = without_spans(lines)
        for words, usual in USUAL.items():
            for found in re.finditer(rf"\b(?:{words})\b".replace(" ", r"\s+"), text, re.IGNORECASE):
                at = line + text.count("\n", 0, found.start())
                yield Fault(page.path, at, f'"{" ".join(found[0].split())}": the usual word is {usual}')


def check_sizes(page):
    """The page that is too long, or whose sentences are, and the decisions that are."""
    most = MOST_LINES.get(page.path)
    if most and len(page.lines) > most:
        yield Fault(page.path, most + 1, f"{len(page.lines)} lines, more than {most}")
    mean = words_a_sentence(page)
    if mean > MOST_WORDS_A_SENTENCE:
        line, longest = longest_sentence(page)
        what = f"{mean:.2f} words a sentence on average, more than {MOST_WORDS_A_SENTENCE}; the longest sentence, of {longest}, begins here"
        yield Fault(page.path, line, what)
    for line, heading, words in sections_of(page) if page.path == DECISIONS else ():
        if words > MOST_WORDS_OF_A_DECISION:
            yield Fault(page.path, line, f'the decision "{heading}" has {words} words, more than {MOST_WORDS_OF_A_DECISION}')


def clause_lines(text):
    """The lines of a source file in which its contracts stand: each with its number."""
    depth = 0
    for number, line in enumerate(text.splitlines(), 1):
        if depth or CLAUSE.match(line):
            yield number, line
            depth = max(0, depth + line.count("{") - line.count("}"))


def check_contracts(repository):
    """The lines of clauses that are too long."""
    for path in repository.files:
        if re.fullmatch(r"crates/\w+/src/.+\.rt", path):
            for number, line in clause_lines(repository.text(path)):
                if len(line) > MOST_COLUMNS:
                    yield Fault(path, number, f"{len(line)} columns, more than {MOST_COLUMNS}: break the clause, or name the fact in specs")


def faults_of(repository):
    """The faults of all pages and of the lines of clauses, and the pages."""
    pages = {page.path: page for page in repository.pages()}
    faults = [*check_contracts(repository)]
    for page in pages.values():
        faults += [
            *check_links(page, pages, repository),
            *Names(page, repository).faults(),
            *check_clauses(page, repository),
            *check_tables(page, repository),
            *check_lines(page),
            *check_words(page),
            *check_sizes(page),
        ]
    return sorted(set(faults), key=lambda fault: (fault.page, fault.line, fault.what)), list(pages.values())


def without_spans(lines):
    """The text of a block, its marker left out and each code span as one word of as many lines."""
    text = SPAN.sub(lambda found: "x" + "\n" * found[0].count("\n"), "\n".join(lines))
    return MARKER.sub("", text, count=1) if MARKER.match(text) else text


def sentences_of(page):
    """The sentences of paragraphs and list items: the line at which each begins, and how many words it has. A code span is one word."""
    for line, lines in page.blocks():
        if not lines[0].lstrip().startswith("|"):
            text, at = without_spans(lines), 0
            for end in [*(found.end() for found in SENTENCE_END.finditer(text)), len(text)]:
                words = [found.start() for found in WORD.finditer(text, at, end)]
                if words:
                    yield line + text.count("\n", 0, words[0]), len(words)
                at = end


def words_a_sentence(page):
    """The mean number of words of a sentence in paragraphs and list items."""
    words = [count for _, count in sentences_of(page)]
    return sum(words) / max(len(words), 1)


def sections_of(page):
    """The sections behind the first heading of a page: the line and the text of each heading, and the words up to the next one, tables included."""
    counts, sections = {}, page.sections()
    for line, lines in page.blocks():
        number = sections[line - 1]
        counts[number] = counts.get(number, 0) + len(WORD.findall(without_spans(lines)))
    for line, (text, kind) in enumerate(zip(page.lines, page.kinds), 1):
        if kind == HEADING and sections[line - 1] > 1:
            yield line, text.lstrip("#").strip(), counts.get(sections[line - 1], 0)


def longest_sentence(page):
    """The line and the number of words of the longest sentence of a page."""
    return max(sentences_of(page), key=lambda sentence: sentence[1], default=(0, 0))


def figures(pages):
    """The lines of the table of figures."""
    heads = ("bytes", "lines", "words a sentence", "longest line", "longest of prose", "longest sentence", "at line")
    yield " ".join([f"{'page':24}", *(f"{head:>{len(head) + 1}}" for head in heads)])
    for page in pages:
        longest = max(map(len, page.lines), default=0)
        of_prose = max((len(line) for line, kind in zip(page.lines, page.kinds) if kind == PROSE), default=0)
        at, words = longest_sentence(page)
        cells = (len(page.text.encode()), len(page.lines), f"{words_a_sentence(page):.1f}", longest, of_prose, words, at)
        yield " ".join([f"{page.path:24}", *(f"{cell:>{len(head) + 1}}" for head, cell in zip(heads, cells))])


def main():
    parser = parser_of(__doc__)
    parser.add_argument("--figures", action="store_true", help="print figures of each page too")
    add_top(parser)
    options = parser.parse_args()
    try:
        faults, pages = faults_of(Repository(options.top))
    except (GitError, OSError, PagesError) as error:
        print(f"tools/check_pages.py: {error}", file=sys.stderr)
        return 2
    if options.figures:
        print("\n".join(figures(pages)))
    return status_of_faults(faults, f"{len(pages)} pages, {len(faults)} fault{'' if len(faults) == 1 else 's'}")


if __name__ == "__main__":
    sys.exit(main())
