#!/usr/bin/env python3
"""Tests of which must-fail edits are due and tried, and of a run over a repository of two small crates."""
import os
import subprocess
import sys
import tempfile
import unittest

sys.path.insert(0, os.path.dirname(os.path.abspath(__file__)))
import changes  # noqa: E402
import due  # noqa: E402
import prove  # noqa: E402
import meter  # noqa: E402
import refuse_allocations  # noqa: E402
import rt_ci  # noqa: E402
from command_line import TOP, run_tests  # noqa: E402
from crates_txt import below, deps_of, lines_in  # noqa: E402

TOOL = os.path.join(os.path.dirname(os.path.abspath(__file__)), "prove.py")
SOURCE = """//! One function.
#![tactic(auto)]

ghost use Rattle.std.specs.Prelude.{◌≡◌, ◌+◌};

/// One more than a byte.
pub fn one_more(byte: u8) -> u16
    ensures { result ≡ byte + 1 }
{
    u16::from(byte) + 1
}
"""
# An edit that the prover refuses, and one that it accepts.
REFUSED = "file: src/lib.rt\nold:     u16::from(byte) + 1\nnew:     u16::from(byte) + 2\n"
ACCEPTED = "file: src/lib.rt\nold:     u16::from(byte) + 1\nnew:     1 + u16::from(byte)\n"


class Lines(unittest.TestCase):
    def test_a_program_stands_on_what_its_libraries_stand_on(self):
        lines = lines_in("# a note\nlow: thiserror\nmid: low\n\nother:\nprogram: mid clap  # the top\n")
        self.assertEqual(below("program", deps_of(lines)), {"mid", "low"})

    def test_what_only_says_proved_is_not_shown(self):
        self.assertFalse(prove.is_shown("fn fw_money::read::parse: proved", False))
        self.assertFalse(prove.is_shown("statements std: modules loaded=254 checked=0", False))
        for line in ["fn fw_money::read::parse: not proved", "rt: fw_money proved", "note: src/lib.rt:1:1", "3 passed, 0 failed"]:
            self.assertTrue(prove.is_shown(line, False), line)

    def test_a_crate_is_built_once_it_is_proved_or_kept(self):
        for line in ["rt: fw_money proved", "rt: fw_money is kept: an earlier run on this machine proved the same files over the same libraries"]:
            self.assertEqual(prove.BUILT.match(line)[1], "fw_money", line)
        for line in ["rt: fw_money NOT PROVED", "rt: fw_money: its tests are proved"]:
            self.assertIsNone(prove.BUILT.match(line), line)


class Lanes(unittest.TestCase):
    def test_a_proof_has_a_processor_where_it_has_memory(self):
        most = prove.MOST_MEMORY
        for processors, free, lanes in [(4, 5 * most, 4), (4, 4 * most, 4), (4, 4 * most - 1, 3), (2, 9 * most, 2), (8, most, 1), (4, 0, 1)]:
            self.assertEqual(prove.lanes_of(processors, free), lanes, (processors, free))

    def test_the_memory_that_is_free_is_read(self):
        self.assertGreater(prove.free_memory(), 0)


class Checksums(unittest.TestCase):
    def test_each_is_worked_out_once(self):
        asked = []

        class Crate:
            def __init__(self, folder, *below):
                self.folder, self.below = folder, below

            def stamp(self):
                asked.append(self.folder)
                return self.folder + "".join(it.stamp() for it in self.below)

        low = Crate("low")
        sides = Crate("left", low), Crate("right", low)
        top, wanted = Crate("top", *sides), Crate("top", *sides).stamp()
        asked.clear()
        Crate.stamp = rt_ci.once(Crate.stamp)
        self.assertEqual([top.stamp(), top.stamp()], [wanted, wanted])
        self.assertEqual(sorted(asked), ["left", "low", "right", "top"])

    def test_another_release_is_known_as_one(self):
        with tempfile.TemporaryDirectory() as kit:
            os.mkdir(os.path.join(kit, "bin"))
            path = os.path.join(kit, "bin", "rt")
            self.assertFalse(rt_ci.is_release(path))
            for line, known in [("rattle-kit-13b logic 1", True), ("rattle-kit-13f logic 1", False)]:
                with open(os.path.join(kit, "KIT-ID"), "w", encoding="utf-8") as file:
                    file.write(line)
                self.assertEqual(rt_ci.is_release(path), known)


class Files(unittest.TestCase):
    def test_costs_are_read_from_their_file(self):
        with tempfile.TemporaryDirectory() as top:
            self.assertEqual(due.read_costs(top), {}, "there is no such file")
            os.makedirs(os.path.join(top, "tools"))
            costs = {"a": due.Cost(100, 5, 20), "b": due.Cost(300, 6.5, 40)}
            for text, known in [("# a note\n\na 100 5 20.0\nb 300 6.5 40\n", costs), ("a 100\n", None), ("a 100 dear 1\n", None)]:
                with open(os.path.join(top, due.COSTS), "w", encoding="utf-8") as file:
                    file.write(text)
                if known is None:
                    self.assertRaises(due.DueError, due.read_costs, top)
                else:
                    self.assertEqual(due.read_costs(top), known)

    def test_records_are_read_as_they_were_written(self):
        with tempfile.TemporaryDirectory() as top:
            os.makedirs(os.path.join(top, "tools"))
            self.assertRaises(due.DueError, due.Records.read, top)
            records = due.Records("rattle-kit-1 logic ab", "c1", {"b": "c0", "a": "c1"})
            records.write(top)
            self.assertEqual(due.Records.read(top), records)

    def test_the_files_of_this_repository_name_crates_that_have_edits(self):
        crates = {changes.crate_of(path) for path in changes.files_of(TOP) if changes.is_edit(path)}
        self.assertEqual([crate for crate in due.read_costs(TOP) if crate not in crates], [])
        self.assertEqual([crate for crate in due.Records.read(TOP).tried if crate not in crates], [])


class Kinds(unittest.TestCase):
    def test_what_a_prover_does_is_told_by_its_command_line(self):
        for folder in ("rooms/rt-edit-x1", "rooms/edit-x1"):
            self.assertEqual(meter.kind_of(["rattle", "check", "--crate-name", "a"], folder), "edit")
        self.assertEqual(meter.kind_of(["rattle", "build", "--crate-name", "a", "--test"], "/r/crates/a"), "tests")
        self.assertEqual(meter.kind_of(["rattle", "build", "--crate-name", "a"], "/r/crates/a"), "proof")


class Changes(unittest.TestCase):
    def test_an_edit_that_is_gone_leaves_its_crate_as_it_was(self):
        with tempfile.TemporaryDirectory() as top:
            repository = Repository(top)
            repository.fill()
            commit = repository.commit("all that the last full run saw")
            self.assertEqual(changes.changes_since(top, commit), changes.Changes(set(), set()))
            os.remove(os.path.join(top, "crates/same/must-fail/adds_two.edit"))
            repository.commit("an edit goes")
            self.assertEqual(changes.changes_since(top, commit), changes.Changes(set(), set()))
            repository.write("crates/same/must-fail/adds_2.edit", REFUSED)
            self.assertEqual(changes.changes_since(top, commit), changes.Changes(set(), set()), "an edit with another name")
            three = "crates/same/must-fail/adds_three.edit"
            repository.write(three, REFUSED.replace("+ 2", "+ 3"))
            self.assertEqual(changes.changes_since(top, commit), changes.Changes(set(), {three}))
            code = "crates/changed/src/lib.rt"
            repository.write(code, SOURCE + "// a comment\n")
            repository.commit("another edit, and code")
            self.assertEqual(changes.changes_since(top, commit), changes.Changes({code}, {three}))
            self.assertIsNone(changes.changes_since(top, "0" * 40))

    def test_an_edit_is_due_where_its_file_or_a_definition_that_it_goes_by_changed(self):
        with tempfile.TemporaryDirectory() as top:
            repository = Repository(top)
            repository.fill()
            code = "crates/changed/src/lib.rt"
            repository.write(code, SOURCE + "ghost use Rattle.changed.specs.Before.{before};\n")
            commit = repository.commit("before")
            repository.write(code, SOURCE + "ghost use Rattle.changed.specs.Sums.{sum};\nghost use Rattle.same.specs.Other.{other};\nuse crate::views::{View};\nuse crate::{given, taken};\n")
            repository.write("crates/changed/src/views.rt", "ghost use Rattle.changed.specs.View.{view};\nuse crate::deep::inner::add;\n")
            repository.write("crates/changed/src/deep/inner.rt", "ghost use Rattle.changed.specs.Deep.{deep};\n")
            repository.write("crates/changed/src/taken.rt", "ghost use Rattle.changed.specs.Taken.{taken};\n")
            repository.write("crates/changed/specs/Sums.antt", "use Rattle.changed.specs.Numbers.{number}\n")
            repository.write("crates/changed/specs/Numbers.antt", "use Rattle.changed.specs.Sums.{sum}\n")
            edit = "crates/changed/must-fail/adds_two.edit"
            for files, is_due in [
                ({code}, True),
                *[({f"crates/changed/specs/{name}.antt"}, True) for name in ("Sums", "Numbers", "View", "Deep", "Taken", "Before")],
                ({"crates/changed/specs/Other.antt", "crates/changed/specs/Lib.antt", "crates/same/specs/Other.antt"}, False),
                ({"crates/changed/src/views.rt", "crates/changed/proofs/Lib.antt"}, False),
                ({"crates/same/src/lib.rt", "crates/same/specs/Lib.antt"}, False),
            ]:
                self.assertEqual(changes.is_turned(top, commit, edit, files), is_due, files)

    def test_other_imports_are_no_change(self):
        with tempfile.TemporaryDirectory() as top:
            repository = Repository(top)
            repository.fill()
            commit = repository.commit("before")
            for line, is_due in [
                ("ghost use Rattle.std.specs.Prelude.{◌≡◌, ◌+◌, ◌<◌};", False),
                ("ghost use Rattle.std.specs.Prelude.{◌≡◌, ◌+◌}; // a comment", True),
                ("", False),
            ]:
                repository.write("crates/changed/src/lib.rt", SOURCE.replace("ghost use Rattle.std.specs.Prelude.{◌≡◌, ◌+◌};", line))
                self.assertEqual(changes.changes_since(top, commit).files, {"crates/changed/src/lib.rt"} if is_due else set(), line)
            repository.write("crates/changed/src/lib.rt", SOURCE.replace("+ 1\n", "+ 2\n"))
            self.assertEqual(changes.changes_since(top, commit).files, {"crates/changed/src/lib.rt"})

    def test_another_layout_is_no_change(self):
        with tempfile.TemporaryDirectory() as top:
            repository = Repository(top)
            repository.fill()
            code, clause = "crates/changed/src/lib.rt", "    ensures { result ≡ byte + 1 }\n"
            repository.write(code, SOURCE + "// a comment, and code behind it\nconst NAME: &str = \"a b\";\n")
            commit = repository.commit("before")
            text = SOURCE + "// a comment, and code behind it\nconst NAME: &str = \"a b\";\n"
            for new, is_due in [
                (text.replace(clause, "    ensures { result\n        ≡ byte + 1 }\n\n"), False),
                (text.replace(clause, "    ensures { result ≡ byte\n        + 2 }\n"), True),
                (text.replace("// a comment, and code behind it", "// a comment,\nand code behind it"), True),
                (text.replace("a b", "a  b"), True),
            ]:
                repository.write(code, new)
                self.assertEqual(changes.changes_since(top, commit).files, {code} if is_due else set(), new)

    def test_what_was_tried_up_to_a_commit_is_due_again_once_it_changes(self):
        with tempfile.TemporaryDirectory() as top:
            repository = Repository(top)
            repository.fill()
            kit = due.Records.read(top).kit
            plan = lambda **how: due.plan(top, kit, **how)
            self.assertEqual(prove.number(plan(budget=None).due), 0)
            repository.write("crates/changed/src/lib.rt", SOURCE + "// a comment\n")
            commit = repository.commit("code of one crate")
            two = {"crates/changed/must-fail/adds_two.edit"}
            self.assertEqual((plan().due["changed"], plan().due["same"], plan().runs), (two, set(), {"changed": two}))
            records = due.Records.read(top)
            records.tried["changed"] = commit
            records.write(top)
            self.assertEqual(prove.number(plan().due), 0)
            three = "crates/same/must-fail/adds_three.edit"
            repository.write(three, REFUSED.replace("+ 2", "+ 3"))
            self.assertEqual((plan().due["same"], plan().new["same"], plan().runs), ({three}, {three}, {"same": {three}}))
            for another in ("another kit", "rattle-kit-1 logic another"):
                self.assertEqual(prove.number(due.plan(top, another).due), 4, another)
            later = f"a later release logic {due.logic_of(kit)}"
            self.assertEqual(prove.number(due.plan(top, later).due), 1, "it proves in the same logic")
            self.assertEqual(prove.number(plan(tries_all=True).runs), 4)
            records.tried["same"] = "0" * 40
            records.write(top)
            self.assertEqual(len(plan().due["same"]), 3, "a commit that isn't here")

    def test_a_budget_goes_to_new_texts_first_then_to_what_was_tried_longest_ago(self):
        with tempfile.TemporaryDirectory() as top:
            repository = Repository(top)
            repository.fill(("changed", "same", "third"))
            kit = due.Records.read(top).kit
            with open(os.path.join(top, due.COSTS), "w", encoding="utf-8") as file:
                file.write("changed 100 10 20\nsame 100 10 20\nthird 100 10 20\n")
            later = repository.commit("a later landing", date="2026-01-02T00:00:00")
            records = due.Records.read(top)
            records.tried["same"] = records.landing = later
            records.write(top)
            new = "crates/third/must-fail/adds_three.edit"
            repository.write(new, REFUSED.replace("+ 2", "+ 3"))
            for crate in ("changed", "same"):
                repository.write(f"crates/{crate}/src/lib.rt", SOURCE + "// a comment\n")
            repository.commit("all change", date="2026-01-03T00:00:00")
            one = 100 + 10 + 20 / due.SAMPLE
            runs = lambda budget: {crate: len(paths) for crate, paths in due.plan(top, kit, budget).runs.items()}
            self.assertEqual(runs(1), {"third": 1}, "the first is tried whatever it costs")
            self.assertEqual(runs(2 * one), {"third": 1, "changed": 1})
            self.assertEqual(runs(2 * one + 50), {"third": 2, "changed": 1}, "what is left of the budget goes to what isn't due")
            self.assertEqual(runs(4 * one), {"third": 2, "changed": 1, "same": 2})
            plan = due.plan(top, kit, 2 * one)
            self.assertEqual(plan.owed(), {"same": {"crates/same/must-fail/adds_two.edit", "crates/same/must-fail/adds_the_other_way.edit"}})
            self.assertEqual((plan.done(), plan.oldest(plan.owed()), plan.dates["same"]), (["third", "changed"], "same", "2026-01-02 00:00"))
            self.assertIn("must-fail edits owed: 2, of 1 crates; the oldest of same, tried up to a commit of 2026-01-02 00:00: same (2)", prove.owed_line(plan))

    def test_a_landing_is_written_down_as_its_run_went(self):
        with tempfile.TemporaryDirectory() as top:
            repository = Repository(top)
            repository.fill()
            before = due.Records.read(top)
            repository.write("crates/changed/src/lib.rt", SOURCE + "// a comment\n")
            landing = repository.commit("it lands")
            repository.write("README.md", "more\n")
            repository.commit("more")
            prove.landed(top, landing, before.kit)
            after = due.Records.read(top)
            self.assertEqual((after.landing, after.tried), (landing, {"changed": landing, "same": landing}))
            self.assertEqual(prove.number(due.plan(top, before.kit).due), 0)


# A program that reads its input by threes, and allocates after each; then beside a file that stands in its folder, and then without one.
ALLOCATES = r"""
#include <fcntl.h>
#include <stdlib.h>
#include <unistd.h>
static void needs(const char *otherwise) {
    void *volatile memory = malloc(100);
    if (memory == NULL) {
        char left[100];
        ssize_t length = read(0, left, sizeof left);
        write(1, otherwise, 1);
        write(1, left, length);
        _exit(*otherwise == 's' ? 1 : 0);
    }
    free(memory);
}
int main(void) {
    char bytes[3];
    for (int turn = 0; turn < 3; turn++) {
        write(1, bytes, read(0, bytes, 3));
        write(2, ".", 1);
        needs("s");
    }
    int file = open("file", O_CREAT | O_RDWR, 0600);
    needs("f");
    close(file);
    needs("g");
    unlink("file");
    needs("s");
    return 0;
}
"""


class Refusals(unittest.TestCase):
    def test_copies_of_a_process_end_as_processes_of_their_own(self):
        with tempfile.TemporaryDirectory() as room:
            program, shim = os.path.join(room, "program"), os.path.join(room, "shim.so")
            subprocess.run(["cc", "-x", "c", "-w", "-o", program, "-"], input=ALLOCATES.encode(), check=True)
            subprocess.run(["cc", "-shared", "-fPIC", "-o", shim, refuse_allocations.SHIM, "-ldl"], check=True)
            given = [program], b"abcdefghijkl"
            singly = {number: refuse_allocations.run(*given, number, shim, room)[1:] for number in range(1, 7)}
            copied = {number: ended for number, *ended in refuse_allocations.copies(*given, [1, 2, 3, 4, 5, 6], shim, room)}
            self.assertEqual(singly[2], (1, b"abcdefsghijkl", b".."))
            self.assertEqual([number for number, ended in copied.items() if ended[0] == refuse_allocations.NOT_TRIED], [4, 5])
            for number in (1, 2, 3, 6):
                self.assertEqual(tuple(copied[number]), singly[number])
            together = {number: tuple(ended) for number, *ended in refuse_allocations.runs(*given, [1, 2, 3, 4, 5, 6], shim, room)}
            self.assertEqual(together, singly)
            self.assertEqual([number for number, *_ in refuse_allocations.runs(*given, [2, 4, 6], shim, room)], [2, 6, 4])

    def test_numbers_of_one_step_are_refused_together(self):
        self.assertEqual(refuse_allocations.pieces([1, 2, 3, 5, 8, 9]), [[1, 2, 3], [5, 8], [9]])
        most = refuse_allocations.TOGETHER
        self.assertEqual([len(piece) for piece in refuse_allocations.pieces(range(1, 2 * most + 2))], [most, most, 1])
        self.assertEqual(refuse_allocations.pieces([]), [])

    def test_each_allocation_is_refused_where_there_are_few(self):
        self.assertEqual(refuse_allocations.numbers(3, 400), [1, 2, 3])
        self.assertEqual(refuse_allocations.numbers(0, 400), [])
        self.assertEqual(refuse_allocations.numbers(3, 0), [1, 2, 3])

    def test_the_rest_is_sampled_where_there_are_many(self):
        chosen = refuse_allocations.numbers(1000, 10)
        self.assertEqual(chosen[:10], list(range(1, 11)))
        self.assertEqual(len(chosen), 15)
        self.assertEqual(len(set(chosen)), 15)
        self.assertLessEqual(chosen[-1], 1000)

    def test_a_test_ends_by_an_error_that_says_that_memory_ran_out(self):
        stopped, answered = "test stopped at src/ended.rt:32:5\nerror: AllocError\n", "error: AllocError\n"
        failed = "test stopped at src/ended.rt:15:5\n"
        within = [stopped.replace("AllocError", error) for error in ("Store(NoMemory)", "Import(Rows(NoMemory))", "Store(Device)")]
        right = [(0, ""), (1, answered), (-6, stopped), *((-6, said) for said in within)]
        wrong = [
            (None, stopped),
            (1, ""),
            (1, "error: Corrupt\n"),
            (-6, failed),
            (-6, answered),
            (-6, stopped.replace("AllocError", "Corrupt")),
            (-6, stopped.replace("AllocError", "Rows(NoRows)")),
            (-6, stopped.replace("AllocError", "Gap { NoMemory: 1 }")),
            (-6, stopped.replace("ended.rt", "decoders.rt")),
            (-11, stopped),
        ]
        for status, said in right:
            self.assertTrue(refuse_allocations.is_right(status, said), (status, said))
        for status, said in wrong:
            self.assertFalse(refuse_allocations.is_right(status, said), (status, said))

    def test_a_script_is_cut_into_commands_and_its_answers_likewise(self):
        script = b"post a 1 2\nx\ny\nstate\npost a 1\nreport t f t"
        self.assertEqual(refuse_allocations.commands_of(script), [b"post a 1 2\nx\ny\n", b"state\n", b"post a 1\n", b"report t f t"])
        answers = b"accepted 1\nbytes 4\na\nb\nbad command\n"
        self.assertEqual(refuse_allocations.answers_of(answers), [b"accepted 1\n", b"bytes 4\na\nb\n", b"bad command\n"])

    def test_only_an_error_that_says_out_of_memory_is_right(self):
        self.assertTrue(refuse_allocations.is_right(0, "test result: ok\n"))
        self.assertTrue(refuse_allocations.is_right(101, "error: NoMemory\nthe test failed\n"))
        self.assertFalse(refuse_allocations.is_right(101, "error: TooLarge\nthe test failed\n"))
        self.assertFalse(refuse_allocations.is_right(101, "assertion failed: told\n"))
        self.assertFalse(refuse_allocations.is_right(-11, "error: NoMemory\n"))


class Repository:
    """A repository of the crates `changed` and `same`, of which the first gets another edit after the last full run."""

    def __init__(self, top):
        self.top = top

    def write(self, path, text):
        path = os.path.join(self.top, path)
        os.makedirs(os.path.dirname(path), exist_ok=True)
        with open(path, "w", encoding="utf-8") as file:
            file.write(text)

    def git(self, *words, date=None):
        identity = ["-c", "user.name=test", "-c", "user.email=test@localhost"]
        dated = {"GIT_AUTHOR_DATE": date, "GIT_COMMITTER_DATE": date, "TZ": "UTC"} if date else {}
        return subprocess.run(["git", *identity, *words], cwd=self.top, check=True, capture_output=True, text=True, env={**os.environ, **dated}).stdout.strip()

    def commit(self, message, date="2026-01-01T00:00:00"):
        self.git("add", "-A")
        self.git("commit", "-q", "--allow-empty", "-m", message, date=date)
        return self.git("rev-parse", "HEAD")

    def fill(self, crates=("changed", "same")):
        self.git("init", "-q")
        self.write("HANDLES", "Handles allowed: none.\n")
        self.write("crates.txt", "".join(f"{crate}:\n" for crate in crates))
        self.write(".gitignore", "out/\n")
        for crate in crates:
            self.write(f"crates/{crate}/src/lib.rt", SOURCE)
            self.write(f"crates/{crate}/must-fail/adds_two.edit", REFUSED)
        # the prover accepts this one, and a run that leaves the crate's edits doesn't see it
        self.write("crates/same/must-fail/adds_the_other_way.edit", ACCEPTED)
        kit = subprocess.run(["rt", "version"], check=True, capture_output=True, text=True).stdout.strip()
        os.makedirs(os.path.join(self.top, "tools"))
        commit = self.commit("all")
        due.Records(kit, commit, dict.fromkeys(crates, commit)).write(self.top)


class Gate(unittest.TestCase):
    def test_a_wrong_edit_in_a_changed_crate_fails_the_run(self):
        with tempfile.TemporaryDirectory() as top:
            repository = Repository(top)
            repository.fill()
            repository.write("crates/changed/src/lib.rt", SOURCE + "// a comment\n")
            repository.write("crates/changed/must-fail/adds_the_other_way.edit", ACCEPTED)
            repository.commit("changed")
            ran = subprocess.run([sys.executable, "-B", TOOL, "--top", top, "--budget", "0.01"], capture_output=True, text=True, check=False)
            self.assertEqual(ran.returncode, 1, ran.stdout + ran.stderr)
            self.assertIn("must-fail edits: 4, of which 2 are due, 1 of them new", ran.stdout)
            self.assertIn("within 0.01: changed (1)\n", ran.stdout)
            self.assertIn("must-fail changed/adds_the_other_way.edit: NOT REFUSED", ran.stdout)
            self.assertIn("2 passed, 0 failed\n", ran.stdout)
            self.assertIn("edits: 0 passed, 1 failed\n", ran.stdout)
            self.assertIn("must-fail edits owed: 1, of 1 crates; the oldest of changed, tried up to a commit of 2026-01-01", ran.stdout)
            self.assertRegex(ran.stdout, r"(?m)^changed +\d+ ")

    def test_what_is_owed_is_worked_through_and_written_down(self):
        with tempfile.TemporaryDirectory() as top:
            repository = Repository(top)
            repository.fill()
            repository.write("crates/changed/src/lib.rt", SOURCE + "// a comment\n")
            repository.write("crates/same/src/lib.rt", SOURCE + "// a comment\n")
            commit = repository.commit("changed")
            before = due.Records.read(top).tried["same"]
            ran = subprocess.run([sys.executable, "-B", TOOL, "--top", top, "--owed"], capture_output=True, text=True, check=False)
            self.assertEqual(ran.returncode, 1, ran.stdout + ran.stderr)
            self.assertIn("must-fail changed/adds_two.edit: refused", ran.stdout)
            self.assertIn("must-fail same/adds_the_other_way.edit: NOT REFUSED", ran.stdout)
            self.assertIn("edits: 2 passed, 1 failed\n", ran.stdout)
            self.assertEqual(due.Records.read(top).tried, {"changed": commit, "same": before})


if __name__ == "__main__":
    run_tests(__doc__)
