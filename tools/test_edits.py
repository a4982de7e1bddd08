#!/usr/bin/env python3
"""Tests of how must-fail edits are planted and judged, and of edits tried over a crate."""
import os
import subprocess
import sys
import tempfile
import threading
import time
import unittest

sys.path.insert(0, os.path.dirname(os.path.abspath(__file__)))
import edits  # noqa: E402
from command_line import TOP, run_tests  # noqa: E402
from functions import functions_of  # noqa: E402

TOOL = os.path.join(os.path.dirname(os.path.abspath(__file__)), "edits.py")

SOURCE = """//! Small sums. fn in_a_comment() { }
#![tactic(auto)]

ghost use Rattle.std.specs.Prelude.{◌≡◌, ◌+◌, ◌≤◌};

/// What is added.
pub const STEP: u8 = 1;

/// A byte in a box, '{'.
pub struct Boxed {
    byte: u8,
}

impl Boxed {
    /// Puts a byte in.
    pub fn new(byte: u8) -> Boxed
        ensures { result.byte ≡ byte }
    {
        Boxed { byte }
    }

    /// The byte.
    pub fn byte(&self) -> u8
        ensures { result ≡ self.now.byte }
    {
        self.byte
    }
}

impl From<u8> for Boxed {
    fn from(byte: u8) -> Boxed {
        Boxed::new(byte)
    }
}

/// One more than a byte.
#[inline(always)]
pub fn one_more(byte: u8) -> u16
    ensures { result ≡ byte + 1 }
{
    let name = "} {";
    let _ = name;
    u16::from(byte) + 1
}

/// Two more than a byte.
pub fn two_more(byte: u8) -> u16
    ensures more { result ≡ byte + 2 }
    ensures large { 2 ≤ result }
{
    one_more(byte) + 1
}
"""


def edit(name, old, new, file="src/lib.rt"):
    return edits.Edit("sums", name, ((file, old, new),))


ONE = edit("one.edit", "u16::from(byte) + 1", "u16::from(byte) + 2")
ONE_AGAIN = edit("one_again.edit", "u16::from(byte) + 1", "u16::from(byte)")
TWO = edit("two.edit", "one_more(byte) + 1", "one_more(byte)")
NEW = edit("new.edit", "Boxed { byte }", "Boxed { byte: 0 }")
SAME = edit("same.edit", "u16::from(byte) + 1", "1 + u16::from(byte)")
FROM = edit("from.edit", "Boxed::new(byte)", "Boxed::new(byte ^ 1)")
STEP = edit("step.edit", "STEP: u8 = 1", "STEP: u8 = 2")
CLAUSE = edit("clause.edit", "result ≡ byte + 2", "result ≡ byte + 3")


class Functions(unittest.TestCase):
    def test_a_function_is_found_with_its_type_and_its_parts(self):
        found = functions_of(SOURCE)
        self.assertEqual([(it.owner, it.name, it.is_of_trait) for it in found],
                         [("Boxed", "new", False), ("Boxed", "byte", False), ("Boxed", "from", True), ("", "one_more", False), ("", "two_more", False)])
        one = found[3]
        self.assertTrue(SOURCE[one.item :].startswith("#[inline(always)]\npub fn one_more"))
        self.assertTrue(SOURCE[one.at :].startswith("one_more("))
        self.assertEqual(SOURCE[one.start : one.end].split("\n")[1], '    let name = "} {";')
        self.assertTrue(SOURCE[: one.end].endswith("u16::from(byte) + 1\n}"))

    def test_what_has_no_body_is_none(self):
        text = "trait Stop {\n    fn stop(&mut self);\n    fn twice<F: Fn() -> u8>(f: F) -> u8\n    where\n        F: Copy,\n    {\n        f()\n    }\n}\n"
        self.assertEqual([(it.owner, it.name, it.is_of_trait) for it in functions_of(text)], [("Stop", "twice", True)])

    def test_the_functions_of_this_repository_end_in_their_bodies(self):
        count = 0
        for at, _, names in os.walk(os.path.join(TOP, "crates")):
            for name in names:
                if name.endswith(".rt") and "/src" in at:
                    with open(os.path.join(at, name), encoding="utf-8") as file:
                        text = file.read()
                    for function in functions_of(text):
                        count += 1
                        self.assertEqual((text[function.start], text[function.end - 1]), ("{", "}"), (name, function.name))
        self.assertGreater(count, 2000)


class Planting(unittest.TestCase):
    def setUp(self):
        self.room = tempfile.TemporaryDirectory()
        self.addCleanup(self.room.cleanup)
        crate = os.path.join(self.room.name, "sums")
        for path, text in [("src/lib.rt", SOURCE), ("proofs/one_more/Answers.antt", "use Rattle.sums.proofs.one_more.Goals as goal\nuse Rattle.sums.proofs.one_more_step.Goals\n")]:
            os.makedirs(os.path.dirname(f"{crate}/{path}"), exist_ok=True)
            with open(f"{crate}/{path}", "w", encoding="utf-8") as file:
                file.write(text)
        self.crate = edits.Crate(crate)

    def test_only_a_body_can_stand_twice(self):
        self.assertEqual({it.name for it in (ONE, TWO, NEW, SAME, FROM, STEP, CLAUSE) if self.crate.turned(it)}, {"one.edit", "two.edit", "new.edit", "same.edit"})

    def test_a_second_function_stands_beside_the_first_with_its_proof(self):
        texts, names = self.crate.planted([ONE, ONE_AGAIN, NEW])
        text = texts["src/lib.rt"]
        self.assertEqual(names, {ONE: [("proofs/one_more", "one_more_turned_1")], ONE_AGAIN: [("proofs/one_more", "one_more_turned_2")], NEW: [("proofs/Boxed/new", "new_turned_3")]})
        self.assertEqual([it.name for it in functions_of(text)], ["new", "new_turned_3", "byte", "from", "one_more", "one_more_turned_1", "one_more_turned_2", "two_more"])
        self.assertEqual(text.count("ensures { result ≡ byte + 1 }"), 3)
        self.assertEqual(text.count("u16::from(byte) + 2"), 1)
        self.assertEqual(text.count("#[inline(always)]"), 3)
        self.assertEqual(texts["proofs/one_more_turned_2/Answers.antt"], "use Rattle.sums.proofs.one_more_turned_2.Goals as goal\nuse Rattle.sums.proofs.one_more_step.Goals\n")
        self.assertEqual(texts["proofs/one_more/Answers.antt"], self.crate.texts["proofs/one_more/Answers.antt"])

    def judged(self, lines, status=1):
        texts, names = self.crate.planted([ONE, NEW])
        judge = edits.Together(self.crate, texts, names, edits.Said(status, [*lines, "logic=not-proved"]))
        return judge.fault(), {edit.name: judge.outcome(names[edit]).kind for edit in names}

    GOOD = ["fn sums::Boxed::new: proved", "fn sums::one_more: proved", "fn sums::two_more: proved"]

    def test_each_second_function_has_to_be_refused(self):
        refused = ["note: src/lib.rt:21:5: it is not proved that what the function ensures holds", "fn sums::Boxed::new_turned_2: no proof: expected answers", "fn sums::one_more_turned_1: not proved"]
        self.assertEqual(self.judged(self.GOOD + refused), (None, {"one.edit": edits.REFUSED, "new.edit": edits.REFUSED}))
        proved = refused[:2] + ["fn sums::one_more_turned_1: proved"]
        self.assertEqual(self.judged(self.GOOD + proved), (None, {"one.edit": edits.MISSED, "new.edit": edits.REFUSED}))
        waits = refused[:2] + ["fn sums::one_more_turned_1: not proved; it calls `sums::Boxed::new`, which is not proved"]
        self.assertEqual(self.judged(self.GOOD + waits)[1]["one.edit"], edits.UNSURE)

    def test_a_copy_says_nothing_where_a_function_as_it_stands_is_not_proved(self):
        refused = ["fn sums::Boxed::new_turned_2: not proved", "fn sums::one_more_turned_1: not proved"]
        self.assertIn("sums::two_more", self.judged(self.GOOD[:2] + ["fn sums::two_more: not proved", *refused])[0])

    def test_a_closure_is_proved_where_its_callers_give_what_it_asks(self):
        refused = ["fn sums::Boxed::new_turned_2: not proved", "fn sums::one_more_turned_1: not proved"]
        closure = "fn sums::fn::two_more::map: proved where its callers give what it asks"
        self.assertEqual(self.judged([*self.GOOD, closure, *refused]), (None, {"one.edit": edits.REFUSED, "new.edit": edits.REFUSED}))

    def test_an_edit_is_not_judged_where_its_proof_went_to_another_place(self):
        new = "fn sums::Boxed::new_turned_2: not proved"
        for one in (["fn sums::deep::one_more_turned_1: not proved"], ["fn sums::one_more_turned_1: not proved", "fn sums::Stop::one_more_turned_1: not proved"], []):
            self.assertEqual(self.judged([*self.GOOD, new, *one]), (None, {"one.edit": edits.UNSURE, "new.edit": edits.REFUSED}), one)

    def test_a_copy_says_nothing_where_there_is_no_verdict(self):
        self.assertIn("no verdict", self.judged(["error[E0308]: mismatched types"], status=2)[0])

    def test_edits_are_dealt_evenly(self):
        self.assertEqual([len(part) for part in edits.in_parts(list(range(65)), 32)], [22, 22, 21])
        self.assertEqual(edits.in_parts([], 32), [])


class Stopping(unittest.TestCase):
    def test_closed_lanes_end_checks_and_begin_none(self):
        lanes, ended = edits.Lanes(1), []

        def check():
            with lanes:
                process = subprocess.Popen(["sleep", "60"])
                lanes.began(process)
                ended.append(process.wait())

        def waits():
            try:
                with lanes:
                    ended.append("began")
            except edits.LanesClosed:
                ended.append("closed")

        threads = [threading.Thread(target=it) for it in (check, waits)]
        threads[0].start()
        while not lanes.processes:
            time.sleep(0.01)
        threads[1].start()
        lanes.close()
        for thread in threads:
            thread.join(10)
        self.assertEqual(sorted(map(str, ended)), ["-9", "closed"])


class Trying(unittest.TestCase):
    def test_the_prover_says_of_each_edit_what_it_says_alone(self):
        with tempfile.TemporaryDirectory() as top:
            for path, text in [("crates.txt", "sums:\n"), ("crates/sums/src/lib.rt", SOURCE)]:
                os.makedirs(os.path.dirname(f"{top}/{path}") or top, exist_ok=True)
                with open(f"{top}/{path}", "w", encoding="utf-8") as file:
                    file.write(text)
            os.makedirs(f"{top}/crates/sums/must-fail")
            gone = edit("gone.edit", "u16::from(byte) + 7", "u16::from(byte) + 8")
            for it in (ONE, ONE_AGAIN, TWO, NEW, SAME, STEP, CLAUSE, gone):
                with open(f"{top}/crates/sums/must-fail/{it.name}", "w", encoding="utf-8") as file:
                    file.writelines(f"file: {path}\nold: {old}\nnew: {new}\n" for path, old, new in it.changes)
            said = {}
            for flags in ([], ["--one-by-one"]):
                wanted = ["sums/two", "sums/same"] if flags else ["sums"]
                ran = subprocess.run([sys.executable, "-B", TOOL, *flags, "--top", top, *wanted], capture_output=True, text=True, check=False)
                self.assertEqual(ran.returncode, 1, ran.stdout + ran.stderr)
                lines = [line.removeprefix("must-fail sums/") for line in ran.stdout.splitlines() if line.startswith("must-fail ")]
                said[bool(flags)] = {line.split(":")[0]: line.split(": ")[1] for line in lines}
            refused = "refused, as it must be"
            self.assertEqual(said[False], {"one.edit": refused, "one_again.edit": refused, "two.edit": refused, "new.edit": refused,
                                           "same.edit": "NOT REFUSED", "step.edit": "NOT REFUSED", "clause.edit": refused, "gone.edit": "BAD EDIT"})
            self.assertEqual(said[True], {"two.edit": refused, "same.edit": "NOT REFUSED"})


if __name__ == "__main__":
    run_tests(__doc__)
