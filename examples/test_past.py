#!/usr/bin/env python3
"""Runs questions with `--as-of`, and `focusd policy list`, of a built program.

    examples/test_past.py out/focusd

A warehouse is sent a script, command by command. What it answered after each entry has to be what it answers later as of that number of
entries. What that is comes from expected.py: the reports and the lines of the first entries of the script.
"""
import re
import tempfile

from entries import ENTRIES, HEADER, HOURS, RANGE, after, body_of, command, row
from program_tests import Case, OneFolder, focusd, run_tests

LIST_HEADER = ["Entry", "Origin", "Number", "Tag", "Rules"]


class Past(OneFolder):
    @classmethod
    def setUpClass(cls):
        super().setUpClass()
        cls.folder = str(cls.room)
        focusd("run", "--dir", cls.folder, "--create", given=b"state\n")
        # What was answered after each entry, before the others came.
        cls.then = [cls.answers()]
        for text in ENTRIES:
            status, said, error = focusd("run", "--dir", cls.folder, given=text.encode())
            assert (status, said.split()[0], error) == (0, "accepted", ""), (text, said, error)
            cls.then.append(cls.answers())

    @classmethod
    def answers(cls, *more):
        """All that is asked of the warehouse."""
        asked = [
            ("report", "--tag", "team", *RANGE, "--format", "csv"), ("report", "--tag", "team", *RANGE), ("report", "--tag", "env", *RANGE, "--format", "csv"),
            ("report", "--tag", "team", *RANGE, "--by", "day", "--top", "2", "--format", "json"), ("report", "--tag", "team", "--format", "csv"),
            ("report", "--tag", "team", *RANGE, "--format", "html"), ("lines", *RANGE), ("lines",), ("coverage", *RANGE, "--format", "csv"),
            ("report", "--tag", "team", "--direct", *RANGE), ("export", *RANGE), ("export", *RANGE, "--format", "jsonl"),
        ]  # fmt: skip
        return [focusd(words[0], "--dir", cls.folder, *words[1:], *more) for words in asked]

    def test_it_is_what_was_answered_then(self):
        for count, answers in enumerate(self.then):
            self.assertEqual(self.answers("--as-of", str(count)), answers, count)

    def test_it_is_what_the_first_entries_come_to(self):
        for count in range(len(ENTRIES) + 1):
            kept = after(count)
            as_of = ("--as-of", str(count))
            for key in ("team", "env"):
                status, printed, _ = focusd("report", "--dir", self.folder, "--tag", key, *RANGE, "--format", "csv", *as_of)
                self.assertEqual((status, printed), (0, body_of(kept.report(key, *HOURS))), (count, key))
            status, printed, said = focusd("lines", "--dir", self.folder, *RANGE, *as_of)
            self.assertEqual((status, printed, said), (0, body_of(kept.lines(*HOURS)), ""), count)

    def test_after_a_checkpoint_and_a_dump(self):
        asked = ("report", "--tag", "team", *RANGE, "--format", "csv", "--as-of", "6")
        wanted = (0, body_of(after(6).report("team", *HOURS)))
        script = focusd("dump", "--dir", self.folder)[1].encode()
        with tempfile.TemporaryDirectory() as other:
            focusd("run", "--dir", other, "--create", given=script)
            self.assertEqual(focusd(asked[0], "--dir", other, *asked[1:])[:2], wanted)
            self.assertEqual(focusd("checkpoint", "--dir", other)[0], 0)
            self.assertEqual(focusd(asked[0], "--dir", other, *asked[1:])[:2], wanted)
            # What comes later changes nothing.
            focusd("run", "--dir", other, given=command("post late 1", HEADER + row(1, 3, "99", "web")).encode())
            self.assertEqual(focusd(asked[0], "--dir", other, *asked[1:])[:2], wanted)

    def test_status_has_the_number(self):
        said = focusd("status", "--dir", self.folder)[1]
        self.assertIn(["Entries", str(len(ENTRIES))], [line.split() for line in said.splitlines()])
        self.assertIn("--as-of", focusd("status", "--help")[1])

    def test_more_than_there_are(self):
        for words in (("report", "--tag", "team", *RANGE), ("lines",), ("coverage", *RANGE), ("report", "--tag", "team", "--direct"), ("export", *RANGE)):
            for count in (len(ENTRIES) + 1, 10**6, 2**64 - 1):
                status, printed, said = focusd(words[0], "--dir", self.folder, *words[1:], "--as-of", count)
                self.assertEqual((status, printed), (1, ""))
                self.assertEqual(said.splitlines()[0], f"focusd: --as-of: {self.folder}: the warehouse has {len(ENTRIES)} entries, and not so many")
                self.assertTrue(said.splitlines()[1].startswith("What to do: "))

    def test_what_is_no_number(self):
        for text in ("", "-1", "1.5", "x", "1,204", " 1", str(2**64)):
            status, printed, said = focusd("report", "--dir", self.folder, "--tag", "team", "--as-of=" + text)
            self.assertEqual((status, printed), (2, ""), text)
            self.assertRegex(said, "^focusd: --as-of: .* is not a number of entries, as 1204\n$")

    def test_as_of_no_entry(self):
        status, printed, said = focusd("report", "--dir", self.folder, "--tag", "team", "--as-of", "0")
        self.assertEqual((status, printed), (1, ""))
        self.assertIn("the warehouse has no row that counts", said)


class Policies(Case):
    def setUp(self):
        super().setUp()
        self.folder = str(self.top)
        focusd("run", "--dir", self.folder, "--create", given=b"state\n")

    def listed(self):
        status, printed, said = focusd("policy", "list", "--dir", self.folder)
        self.assertEqual((status, said), (0, ""))
        return [line.split() for line in printed.splitlines() if not line.startswith("--")]

    def test_each_that_was_accepted(self):
        found, seen = [LIST_HEADER], {}
        self.assertEqual(self.listed(), found)
        for place, text in enumerate(ENTRIES):
            focusd("run", "--dir", self.folder, given=text.encode())
            words = text.split()
            if words[0] == "policy":
                found.append([str(place + 1), words[1], words[2], re.search('key = "(.*)"', text)[1], str(text.count('[[rule]]'))])
                seen[place + 1] = found[-1]
            self.assertEqual(self.listed(), found)
        self.assertEqual(len(found), 4)
        self.assertEqual(focusd("checkpoint", "--dir", self.folder)[0], 0)
        self.assertEqual(self.listed(), found)
        for count in range(1, len(ENTRIES) + 1):
            last = max((at for at in seen if at <= count), default=None)
            for key in ("team", "env"):
                said = focusd("report", "--dir", self.folder, "--tag", key, *RANGE, "--as-of", count)[2]
                if last and seen[last][3] == key:
                    entry, origin, number, _, _ = seen[last]
                    self.assertIn(f"costs are shared by the policy for the tag {key}: entry {entry}, {origin} {number}\n", said)
                else:
                    self.assertNotIn("costs are shared by the policy", said)

    def test_wrong_words(self):
        for words in ((), ("show",), ("list", "list")):
            status, printed, _ = focusd("policy", *words, "--dir", self.folder)
            self.assertEqual((status, printed), (2, ""), words)
        self.assertEqual(focusd("policy", "list")[0], 2)
        self.assertEqual(focusd("policy", "list", "--dir", self.folder + "/none")[0], 1)


if __name__ == "__main__":
    run_tests(__doc__)
