#!/usr/bin/env python3
"""Tests of tools/planted.py, over a small repository and over this one."""

import contextlib
import io
import os
import sys
import unittest
from unittest import mock

sys.path.insert(0, os.path.dirname(os.path.abspath(__file__)))
import planted  # noqa: E402
from command_line import TOP, run_tests  # noqa: E402
from small_repository import made_for, write  # noqa: E402

SOURCE = """//! pub fn in_a_comment() {}
/// A disk.
pub trait Disk: Sized {
    ghost view: { Self → View };

    /// Reads.
    fn read(&mut self) -> Result<u8, Fault>
        ensures calm { self.new ≡ self.old };

    fn stop(self) {
    }
}

trait Hidden {
    fn hide(&self);
}

impl<T: Fn(u8) -> u8> Amount<T> {
    /// The amount of this many nanos.
    pub fn of(nanos: T) -> Amount<T>
        requires small { nanos ≤ 7 }
        ensures { result.nanos ≡ { nanos } }
        ensures kept { true }
    {
        if nanos { Amount { nanos } } else { fn inner() {} }
    }

    pub(crate) fn inside(&self) {}
}

impl<T> Disk for Amount<T>
where
    T: Copy,
{
    fn read(&mut self) -> Result<u8, Fault> {
        Ok(1)
    }
}

/// Clears it.
pub fn clear(items: &mut Vec<u8>)
    ensures { items.new ≡ [] }
{}

/// Amounts are one.
pub fn amounts_are_one(text: &[u8])
    ensures { (r s : ℕ) → r ≡ s }
{}

pub fn quiet(text: &str)
    requires { true }
{
    say("fn none() {");
}
"""
FILES = {
    "crates/fw_low/src/lib.rt": SOURCE,
    "crates/fw_low/must-fail/a_digit_too_many.edit": "file: src/lib.rt\nold: 1\nnew: 2\n",
    "crates/fw_low/must-fail/no_digit.edit": "file: src/lib.rt\nold: 1\nnew: 0\n",
    "crates/fw_high/src/a/b.rt": "pub fn run() -> u8\n    ensures over { true }\n{\n}\n",
    "crates/fw_test_low/src/lib.rt": "pub fn shown() {}\n",
    "tools/planted.toml": """runs = [["`fw_low`", 3, 4, 0, 1, 0, "0123abcd"]]

[[through]]
crate = "fw_low"
bodies = "`clear` that is slow"
why = "Only time is lost."

[[read]]
crate = "fw_low"
bodies = "`quiet` that is loud"
why = "It has no clause."

[[unjudged]]
crate = "fw_high"
bodies = "`run` that stops"
edits = ["no_digit"]
""",
    "docs/OTHER.md": "# Other\n",
}


class Functions(unittest.TestCase):
    def test_functions(self):
        found = [(it.name, it.clauses, it.is_law, it.is_public) for it in planted.functions_in(SOURCE)]
        self.assertEqual(
            found,
            [
                ("Disk::read", 1, False, True),
                ("Disk::stop", 0, False, True),
                ("Hidden::hide", 0, False, False),
                ("Amount::of", 2, False, True),
                ("Amount::inside", 0, False, False),
                ("clear", 1, False, True),
                ("amounts_are_one", 1, True, True),
                ("quiet", 0, False, True),
            ],
        )


class Prose(unittest.TestCase):
    def test_lines_are_wrapped_outside_of_code(self):
        text = planted.prose("\nA word, and `" + "x " * 60 + "y`, stand.\n\n" + "many " * 40)
        self.assertIn("`" + "x " * 60 + "y`", text)
        self.assertTrue(all(len(line) <= planted.MOST_COLUMNS or "`" in line for line in text.split("\n")))
        self.assertEqual(planted.prose("- one\n  more\n- two"), "- one more\n- two")


class Pages(unittest.TestCase):
    def setUp(self):
        self.top = made_for(self, FILES)

    def run_tool(self, *words):
        """The exit status of the tool, and what it prints on standard error."""
        told = io.StringIO()
        with mock.patch.object(sys, "argv", ["planted.py", "--top", self.top, *words]), contextlib.redirect_stderr(told):
            return planted.main(), told.getvalue()

    def page(self):
        with open(os.path.join(self.top, planted.PAGE), encoding="utf-8") as file:
            return file.read()

    def test_the_page_is_written(self):
        self.assertEqual(self.run_tool(), (0, ""))
        page = self.page()
        self.assertIn("| `fw_high` | 1 | 0 | 0 | 0 | 0 | 0 |\n| `fw_low` | 6 | 1 | 2 | 2 | 2 | 2 |\n| all | 7 | 1 | 2 | 2 | 2 | 2 |\n", page)
        self.assertIn("| `fw_low` | `Disk::stop`, `quiet` |\n", page)
        self.assertIn("| `fw_low` | 3 | 4 | 0 | 1 | 0 | `0123abcd` |\n", page)
        self.assertIn("| `fw_low` | `clear` that is slow | Only time is lost. |\n", page)
        self.assertIn("| `fw_low` | `quiet` that is loud | It has no clause. |\n", page)
        self.assertIn("| `fw_high` | `run` that stops | `fw_low/no_digit` |\n", page)
        self.assertNotIn("fw_test_low", page)

    def test_an_old_page_is_noticed(self):
        self.assertEqual(self.run_tool("--check")[0], 2)
        self.run_tool()
        self.assertEqual(self.run_tool("--check"), (0, ""))
        write(self.top, {"crates/fw_low/must-fail/another.edit": "file: src/lib.rt\nold: 1\nnew: 3\n"})
        status, told = self.run_tool("--check")
        self.assertEqual(status, 1)
        self.assertIn("docs/PLANTED.md is out of date", told)

    def test_an_edit_that_is_gone(self):
        os.remove(os.path.join(self.top, "crates/fw_low/must-fail/no_digit.edit"))
        status, told = self.run_tool()
        self.assertEqual(status, 2)
        self.assertIn("there is no edit no_digit", told)

    def test_data_without_a_table(self):
        write(self.top, {planted.DATA: "runs = []\n"})
        self.assertEqual(self.run_tool()[0], 2)


class ThisRepository(unittest.TestCase):
    def test_the_page_is_up_to_date(self):
        with open(os.path.join(TOP, planted.PAGE), encoding="utf-8") as file:
            self.assertEqual(file.read(), planted.page_of(planted.crates_of(TOP), *planted.data_of(TOP)))


if __name__ == "__main__":
    run_tests(__doc__)
