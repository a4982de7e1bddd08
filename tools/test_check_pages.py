#!/usr/bin/env python3
"""Tests of tools/check_pages.py, over small repositories and over this one."""

import os
import subprocess
import sys
import tempfile
import unittest

sys.path.insert(0, os.path.dirname(os.path.abspath(__file__)))
import check_pages  # noqa: E402
from command_line import run_tests  # noqa: E402
from small_repository import made_for, write  # noqa: E402

TOOL = os.path.join(os.path.dirname(os.path.abspath(__file__)), "check_pages.py")
LIB = """//! Amounts, of which `gone_from_here` is no name in code.
mod reading;

pub use reading::{Fault, parse};

/// A disk.
pub trait Disk: Sized {
    ghost fn view(&self) -> View;

    /// Reads.
    fn read(&mut self) -> Result<u8, Fault>
        ensures calm { self.new ≡ self.old };
}

pub struct Amount<T> {
    pub nanos: T,
}

impl<T: Fn(u8) -> u8> Amount<T> {
    pub const MOST: u64 = 7;

    pub fn of(nanos: T) -> Amount<T>
        requires small { nanos ≤ 7 }
        ensures { result.nanos ≡ nanos }
        ensures kept { true }
    {
        Amount { nanos }
    }
}

impl<T> Disk for Amount<T>
where
    T: Copy,
{
    fn read(&mut self) -> Result<u8, Fault> {
        Ok(1)
    }
}
"""
READING = """/// A fault.
pub enum Fault {
    Empty,
    Wrong(u8),
}

pub(crate) fn digit_of(byte: u8) -> u8 {
    byte
}

/// Reads.
pub fn parse(
    text: &str,
) -> Result<u8, Fault>
    ensures done { true }
    ensures each_digit { true }
{
    Err(Fault::Empty)
}
"""
FILES = {
    "crates.txt": "# lowest first\nfw_low:\nfw_high may_wait=21: fw_low csv\n",
    ".gitignore": "out/\n",
    "crates/fw_low/src/lib.rt": LIB,
    "crates/fw_low/src/reading.rt": READING,
    "crates/fw_low/specs/Amounts.antt": "use A.{Taken}\n\npub record IsAmount (n : N) where\nunfoldable pub text_of : N → T\ntext_of n = n\n",
    "crates/fw_low/specs/Reading.antt": "pub Reads : T → Type 0\n",
    "crates/fw_low/must-fail/a_digit_too_many.edit": "file: src/lib.rt\nold: 1\nnew: 2\n",
    "crates/fw_high/src/lib.rt": "pub use fw_low::Amount;\n\npub fn run()\n    ensures over { true }\n{\n}\n",
    "tools/run.py": "STEPS_OF_A_RUN = 1\n",
    "examples/cases/a-short-case.script": "state\n",
    "docs/OTHER.md": "# Other\n\n## What `x` prints, to 2^3\n\n## Same\n\n## Same\n",
}


class Repositories(unittest.TestCase):
    def setUp(self):
        self.top = made_for(self, FILES)

    def faults(self, text, path="README.md"):
        """The faults of a page in the small repository, without their page."""
        write(self.top, {path: text})
        found, _ = check_pages.faults_of(check_pages.Repository(self.top))
        os.remove(os.path.join(self.top, path))
        return [str(fault).removeprefix(f"{path}:") for fault in found]

    def assert_passes(self, text, path="README.md"):
        self.assertEqual(self.faults(text, path), [])

    def test_links(self):
        self.assert_passes(
            "# Top\n\nSee [other](docs/OTHER.md), [a folder](docs/), [what `x`\nprints](docs/OTHER.md#what-x-prints-to-23), [top](#top),\n"
            "[second](docs/OTHER.md#same-1) and [far](https://a.example/b#c).\n\n`[no](link)`\n\n    [no](link)\n"
        )
        self.assertEqual(
            self.faults("# Top\n\n[a](docs/GONE.md)\n[b](#tip) [c](docs/OTHER.md#same-2)\n"),
            [
                "3: the link docs/GONE.md leads to no file",
                "4: no heading of README.md has the anchor #tip",
                "4: no heading of docs/OTHER.md has the anchor #same-2",
            ],
        )
        self.assertEqual(self.faults("[up](../README.md)\n", "docs/A.md"), ["1: the link ../README.md leads to no file"])

    def test_crates(self):
        self.assert_passes("`fw_low`, `rt must-fail fw_high`, `fw_*` and `fw_test_*`, not fw_gone\n")
        self.assertEqual(self.faults("`fw_gone` and `rt check fw_gone`\n"), ["1: fw_gone is no crate"])

    def test_items(self):
        self.assert_passes(
            "`fw_low::parse`, `fw_low::Amount::of`, `fw_high::Amount::MOST`, `fw_low::Disk`,\n`fw_low::reading`, `Fault::Wrong`,"
            " `Disk::read`, `Disk::view`,\n`Amount::read`, `reading::digit_of`, `std::simd`, `csv::Reader`, `git grep 'Gone::x'`\n"
        )
        crates = ["fw_low::pars", "fw_high::parse", "fw_low::Amount::off", "fw_gone::run"]
        for name in [*crates, "Gone::of", "Amount::small", "Fault::Gone", "reading::gone", "gone::run"]:
            self.assertIn(f"1: {name} is in no crate", self.faults(f"`{name}`\n"))

    def test_paths(self):
        self.assert_passes(
            "`tools/run.py --all X`, `crates/fw_low/specs/`, `crates/X/must-fail/NAME.edit`,\n`examples/cases/a-short-case`, `.../Amounts.antt`,"
            " `run.py`,\n`src/reading.rt`, `fw_low/src/lib.rt`, `fw_low/a_digit_too_many`, `a_digit_too_many.edit`,\n`out/`, `out/run`, `5 MB/s`,"
            " `/proc/x`, `..`\n"
        )
        self.assert_passes("`OTHER.md`, `docs/OTHER.md` and `cases/`\n", "examples/README.md")
        ends = ["Gone.antt", "gone.edit", "src/gone.rt", "cases/gone"]
        for name in [*ends, "tools/gone.py", "crates/fw_low/spec/", "fw_low/gone", "crates/X/NAME.edit", "docs/GONE.md"]:
            self.assertEqual(self.faults(f"`{name}`\n"), [f"1: there is no {name}"])
        self.assertEqual(self.faults("`run tools/gone.py, --all`\n"), ["1: there is no tools/gone.py"])

    def test_blocks_of_code(self):
        self.assert_passes("```\ntools/run.py --out=out/x fw_low <examples/cases/NAME.script | /a/b. a/b\n```\n")
        self.assert_passes("    docs/OTHER.md gone.py gone_name\n")
        self.assertEqual(self.faults("```\n--x=tools/gone.py fw_gone\n```\n"), ["2: fw_gone is no crate", "2: there is no tools/gone.py"])
        self.assertEqual(self.faults("    x 'docs/GONE.md'\n"), ["1: there is no docs/GONE.md"])

    def test_a_file_is_in_a_crate_of_its_section(self):
        self.assert_passes("# A\n\n`fw_high`\n\n# B\n\n`src/reading.rt`, `specs/`\n\n# C\n\n`fw_low`: `src/reading.rt`; `fw_high`: `specs/`\n")
        self.assertEqual(self.faults("# A\n\n`fw_high`\n\n- `src/reading.rt`\n"), ["5: there is no src/reading.rt"])

    def test_other_names(self):
        self.assert_passes("`STEPS_OF_A_RUN`, `IsAmount n`, `a_digit_too_many`, `digit_of`, `no_..`, `word`,\n`gone_name + 1`, gone_name\n")
        self.assertEqual(self.faults("`digit_off`\n`IsGone n`\n"), ["1: no source names digit_off", "2: no source names IsGone"])
        self.assertEqual(self.faults("a span `over\ntwo_gone lines`\n"), ["1: no source names two_gone"])

    def test_clauses(self):
        self.assert_passes(
            "`parse`, clause `done`; `fw_low::parse`, clauses `done` and `each_digit`; its clauses `small`,\n`kept`: `Amount::of`, clause `kept`"
            " (clause `over`), `parse.done`, clause `each_digit` of `parse`,\n`Amount`, clauses `small`, `calm`; `Disk`, clause"
            " `calm`, `other.word`\n\nSo much.\n"
        )
        self.assertEqual(self.faults("`parse`, clauses `done`, `small`\n"), ["1: parse has no clause small"])
        self.assertEqual(self.faults("clause `over` of `parse`\n"), ["1: parse has no clause over"])
        self.assertEqual(self.faults("`parse.over`\n"), ["1: parse has no clause over"])
        self.assertEqual(self.faults("`Amount::of`,\nclauses `kept`,\n`over`\n"), ["3: Amount::of has no clause over"])
        self.assertEqual(self.faults("its clauses `done`, `gone`\n"), ["1: no function has a clause gone"])

    def test_the_same_law_is_that_of_the_row_before(self):
        table = "| a | b |\n|---|---|\n| x | `parse`, clause `done` |\n| y | the same law, clause `each_digit` |\n"
        table += "| z | the same laws, clause `{}` |\n"
        self.assert_passes(table.format("done"))
        self.assertEqual(self.faults(table.format("over")), ["5: parse has no clause over"])

    def test_tables(self):
        table = "| definition | says | file |\n|---|---|---|\n| `IsAmount n`, `text_of` | x | `crates/fw_low/specs/Amounts.antt` |\n"
        self.assert_passes(table + "| `text_of n` | x | the same |\n| `Reads` | x | `crates/fw_low/specs/` |\n")
        self.assert_passes(table + "| `text_of`, `Reads` | x | `crates/fw_low/specs/Amounts.antt`, `Reading.antt` |\n")
        for name in ["Taken", "Reads"]:
            self.assertIn(f"4: crates/fw_low/specs/Amounts.antt doesn't define {name}", self.faults(f"{table}| `{name}` | x | the same |\n"))
        cases = "| case | shows |\n|---|---|\n| `a-short-case` | `gone` |\n"
        self.assert_passes(cases, "examples/README.md")
        self.assertEqual(self.faults(cases + "| `a-case` | x |\n", "examples/README.md"), ["4: there is no case a-case"])

    def test_long_lines(self):
        long, word = "ab. " * 30, "a" * 120
        self.assertEqual(self.faults(f"{long}\n"), ["1: 120 columns, more than 100"])
        self.assertEqual(self.faults(f"1. x\n   - {long.strip()}\n"), ["2: 124 columns, more than 100"])
        self.assert_passes(f"# {long}\n\n| {long} |\n\n    {long}\n\n```\n{long}\n```\n\n{word}\n- {word}\n`{long}`,\n[{long}](docs/OTHER.md)\n")
        self.assert_passes("ab. " * 25 + "\n")

    def test_lines_of_a_page(self):
        for page, most in [("README.md", 150), ("CONTRIBUTING.md", 200), ("docs/PROOFS.md", 300), ("docs/BENCHMARKS.md", 300)]:
            self.assert_passes("- a\n" * most, page)
            self.assertEqual(self.faults("- a\n" * (most + 1), page), [f"{most + 1}: {most + 1} lines, more than {most}"])
        self.assert_passes("- a\n" * 1000, "docs/FORMATS.md")

    def test_lines_of_clauses(self):
        text = "fn f()\n    requires a { b\n        c }\n{\n    call();\n}\n    ensures { d }\n"
        self.assertEqual([number for number, _ in check_pages.clause_lines(text)], [2, 3, 7])
        long = f"pub fn long()\n    ensures {{ true\n        {'+ 1 ' * 24}}}\n{{\n    // {'x' * 120}\n}}\n"
        write(self.top, {"crates/fw_low/src/long.rt": long})
        found, _ = check_pages.faults_of(check_pages.Repository(self.top))
        self.assertEqual([(fault.page, fault.line) for fault in found], [("crates/fw_low/src/long.rt", 3)])

    def test_usual_words(self):
        usual = "the usual word is out of memory, or a failed allocation"
        self.assertEqual(self.faults("# A\n\nIt ends\nfor want\nof memory.\n", "docs/A.md"), [f'4: "for want of memory": {usual}'])
        self.assertEqual(self.faults("| Memory is wanting |\n"), [f'1: "Memory is wanting": {usual}'])
        self.assert_passes("It ends out of memory. A hand on it, `is told`, he told.\n\n    it is told\n")

    def test_words_of_sentences(self):
        most, over = "a " * 17 + "end.\n", "a " * 18 + "end.\n"
        self.assert_passes(most)
        self.assert_passes(f"{over}\n{'a ' * 16}end.\n")
        self.assert_passes(f"| {'a ' * 40}|\n\n# {'a ' * 40}\n\n    {'a ' * 40}\n\n`{'a ' * 40}`\n")
        what = "words a sentence on average, more than 18; the longest sentence, of"
        self.assertEqual(self.faults(over), [f"1: 19.00 {what} 19, begins here"])
        self.assertEqual(self.faults(f"# A\n\n- {most}- {over}", "docs/A.md"), [f"4: 18.50 {what} 19, begins here"])
        self.assertEqual(self.faults(f"It is `a\nspan`. And\n{'a ' * 46}\n"), [f"2: 25.00 {what} 47, begins here"])

    def test_words_of_decisions(self):
        def fault(line, name, words):
            return f'{line}: the decision "{name}" has {words} words, more than 80'

        eighty = "a b c d e f g `h i`.\n" * 10
        self.assert_passes(f"# Decisions\n\n{eighty * 2}\n## A\n\n{eighty}\n## B\n\n### C\n\n{eighty}", "docs/DECISIONS.md")
        self.assertEqual(self.faults(f"# Decisions\n\n## A\n\n{eighty}More.\n", "docs/DECISIONS.md"), [fault(3, "A", 81)])
        text = f"# Decisions\n\n## A\n\n### B `b`\n\n{eighty}\n- c\n- d\n\n### E\n\n| a |\n|---|\n| b c |\n\n{eighty}\n"
        self.assertEqual(self.faults(text, "docs/DECISIONS.md"), [fault(5, "B `b`", 82), fault(21, "E", 83)])
        self.assert_passes(text, "docs/OTHER_DECISIONS.md")

    def run_tool(self, *words):
        """The status of the tool, and what it prints."""
        done = subprocess.run([sys.executable, "-B", TOOL, "--top", self.top, *words], capture_output=True, text=True, check=False)
        return done.returncode, done.stdout, done.stderr

    def test_the_status(self):
        write(self.top, {"README.md": "# A\n\nOne two three. Four `a b c`.\n"})
        status, said, _ = self.run_tool("--figures")
        self.assertEqual((status, said.splitlines()[-1]), (0, "2 pages, 0 faults"))
        self.assertIn(["README.md", "34", "3", "2.5", "28", "28", "3", "3"], [line.split() for line in said.splitlines()])
        write(self.top, {"README.md": "`fw_gone`\n"})
        self.assertEqual(self.run_tool()[:2], (1, "README.md:1: fw_gone is no crate\n2 pages, 1 fault\n"))
        os.remove(os.path.join(self.top, "crates.txt"))
        status, _, said = self.run_tool()
        self.assertEqual(status, 2)
        self.assertIn("crates.txt", said)

    def test_a_folder_without_git_cannot_be_checked(self):
        with tempfile.TemporaryDirectory() as top:
            self.top = top
            status, said, why = self.run_tool()
        self.assertEqual((status, said), (2, ""))
        self.assertIn("git can't list the files", why)


class Pages(unittest.TestCase):
    def test_kinds_of_lines(self):
        for text, kinds in [
            ("a\n    b\n\n    c\n\nd", "prose prose blank code blank prose"),
            ("- a\n\n  b\n\n      c\n  d", "prose blank prose blank code prose"),
            ("1. a\n   - b\n\n     c\n\n         d\n\n    e", "prose prose blank prose blank code blank prose"),
            ("- a\n\nb\n\n    c", "prose blank prose blank code"),
            ("```\n# a\n\n| b |\n```\n# c\n| d |", "code code code code code heading table"),
            ("~~~\n```\n~~~\na", "code code code prose"),
        ]:
            self.assertEqual(check_pages.kinds_of(text.split("\n")), kinds.split(), text)

    def test_blocks_begin_at_items_and_rows(self):
        page = check_pages.Page("A.md", "a\nb\n- c\n  d\n- e\n\n| f |\n| g |\nh\n")
        self.assertEqual(list(page.blocks()), [(1, ["a", "b"]), (3, ["- c", "  d"]), (5, ["- e"]), (7, ["| f |"]), (8, ["| g |"]), (9, ["h"])])

    def test_anchors(self):
        for heading, anchor in [
            ("## What `focusd` prints", "what-focusd-prints"),
            ("### A crate's folder: `src/`", "a-crates-folder-src"),
            ("# [Link](to/it.md) and_more · b", "link-and_more--b"),
            ("## Größe 2.0", "größe-20"),
        ]:
            self.assertEqual(check_pages.anchor_of(heading), anchor)

    def test_words_a_sentence(self):
        for text, mean in [
            ("One two. Three four five six!\n", 3),
            ("1, 2, 3 .. and 4.5 go on.\n", 7),
            ("(It is so.) Is it?\n", 2.5),
            ("It has 26. It ends here.\n", 3),
            ("7. It has 26. It ends here.\n", 3),
            ("- `a b. c` is one\n- two words\n", 2.5),
            ("| a b c. d |\n\n    x y z\n\n# A b\n\nc\n", 1),
            ("", 0),
        ]:
            self.assertEqual(check_pages.words_a_sentence(check_pages.Page("A.md", text)), mean, text)

    def test_owners_of_blocks(self):
        for header, owner in [
            ("impl Amount", ("Amount", "")),
            ("impl<T: Fn(u8) -> Vec<u8>> Amount<T>", ("Amount", "")),
            ("impl<'a> fw_disk::Disk<u8> for &'a Amount<Vec<T>> where T: Copy", ("Amount", "Disk")),
        ]:
            self.assertEqual(check_pages.owner_of(header), owner, header)


if __name__ == "__main__":
    run_tests(__doc__)
