#!/usr/bin/env python3
"""Runs the commands of a built program with `--summary json`, and compares the line with what was done.

    examples/test_summaries.py out/focusd

The numbers are worked by hand from the files below, and entries and digests are asked of other commands.
"""
import json

from program_tests import Case, run_tests

HEADER = "BillingCurrency,ChargeCategory,ChargePeriodStart,ChargePeriodEnd,BilledCost,EffectiveCost\n"
HOUR = "USD,Usage,2024-09-01T00:00:00Z,2024-09-01T01:00:00Z,"
GOOD = HEADER + f"{HOUR}1.50,1.50\n{HOUR}2,2\n{HOUR}-0.5,0\n"
BAD = HEADER + f"{HOUR}1,1\n{HOUR}one,1\n{HOUR}1,two\n"
USAGE = 'id = "cd-1"\ncategory = "Usage"\nstart = "2024-09-01T00:00Z"\nhours = 2\ncapacity = "2"\nunit = "Hours"\nskus = ["vm"]\n'
PAID = '[[purchase]]\nat = "2024-09-01T00:00Z"\nbilled = "14.4"\n'


class Summaries(Case):
    """Each command over a folder with files of its own."""

    def setUp(self):
        super().setUp()
        self.new_folder("house")
        for name, text in {"good.csv": GOOD, "bad.csv": BAD, "usage.toml": USAGE + PAID, "wrong.toml": USAGE}.items():
            self.file(name, text)

    def told(self, status, *words, given=b""):
        """What a command told as JSON, which stands alone on a line and agrees with its status; and standard error."""
        ended, output, said = self.focusd(*words, "--summary", "json", given=given)
        self.assertEqual(ended, status, said)
        self.assertEqual(output.count("\n"), 1)
        self.assertTrue(output.endswith("}\n"))
        self.assertNotIn(" ", output)
        told = json.loads(output)
        self.assertEqual(list(told)[:2], ["command", "ok"])
        self.assertEqual(told.pop("command"), words[0])
        self.assertIs(told.pop("ok"), status == 0)
        return told, said

    def imported(self, status, *words, **options):
        return self.told(status, "import", "--dir", "house", "--origin", "aws", "--quiet", *words, **options)

    def test_an_import(self):
        taken = {"rowsAdded": 3, "rowsThere": 0, "posts": 1, "repeatedHeaders": 0}
        self.assertEqual(self.imported(0, "--create", "good.csv"), (taken, ""))
        again = {"rowsAdded": 0, "rowsThere": 3, "posts": 1, "repeatedHeaders": 0}
        self.assertEqual(self.imported(0, "good.csv"), (again, ""))

    def test_an_import_of_parts_one_behind_the_other(self):
        told, _ = self.imported(0, "--create", "-", given=(GOOD + GOOD + GOOD).encode())
        self.assertEqual(told, {"rowsAdded": 9, "rowsThere": 0, "posts": 3, "repeatedHeaders": 2})

    def test_an_import_that_stops_counts_what_it_took(self):
        told, said = self.imported(1, "--create", "good.csv", "bad.csv")
        self.assertEqual(told, {"rowsAdded": 3, "rowsThere": 0, "posts": 1, "repeatedHeaders": 0})
        self.assertIn("V5", said)
        self.assertEqual(self.told(0, "verify", "--dir", "house")[0], {"entries": 1})

    def test_an_import_without_a_warehouse(self):
        told, said = self.imported(1, "good.csv")
        self.assertEqual(told, {"rowsAdded": 0, "rowsThere": 0, "posts": 0, "repeatedHeaders": 0})
        self.assertIn("S1 NoHouse", said)

    def test_a_check(self):
        self.assertEqual(self.told(0, "check", "good.csv")[0], {"files": 1, "records": 3, "badRecords": 0, "faults": 0})
        both = {"files": 2, "records": 6, "badRecords": 2, "faults": 2}
        self.assertEqual(self.told(1, "check", "good.csv", "bad.csv")[0], both)
        self.assertEqual(self.told(1, "check", "--format", "json", "good.csv", "bad.csv")[0], both)
        told, said = self.told(1, "check", "good.csv", "none.csv")
        self.assertEqual(told, {"files": 1, "records": 3, "badRecords": 0, "faults": 0})
        self.assertIn("none.csv", said)

    def test_a_replacement(self):
        self.imported(0, "--create", "good.csv")
        words = ("replace", "--dir", "house", "--origin", "aws", "--quiet")
        self.file("more.csv", GOOD + f"{HOUR}4,4\n")
        for dry in (["--dry-run"], []):
            self.assertEqual(self.told(0, *words, *dry, "more.csv"), ({"rowsBefore": 3, "rowsAfter": 4}, ""))
        self.assertEqual(self.told(0, *words, "more.csv")[0], {"rowsBefore": 4, "rowsAfter": 4})
        told, said = self.told(1, *words, "bad.csv")
        self.assertEqual(told, {})
        self.assertIn("nothing was replaced", said)
        self.assertEqual(self.told(1, "replace", "--dir", "none", "--origin", "aws", "good.csv")[0], {})

    def test_files_that_are_added(self):
        self.imported(0, "--create", "good.csv")
        words = ("add", "--dir", "house", "--origin", "billing")
        for dry in (["--dry-run"], []):
            self.assertEqual(self.told(0, *words, *dry, "usage.toml")[0], {"added": 1, "same": 0})
        self.assertEqual(self.told(0, *words, "usage.toml")[0], {"added": 0, "same": 1})
        told, said = self.told(1, *words, "usage.toml", "wrong.toml")
        self.assertEqual(told, {"added": 0, "same": 0})
        self.assertIn("nothing was added", said)

    def test_a_verification(self):
        self.imported(0, "--create", "good.csv", "good.csv")
        words = ("verify", "--dir", "house")
        digest = self.focusd(*words, "--digest")[1].strip()
        self.assertEqual(self.told(0, *words), ({"entries": 2}, ""))
        self.assertEqual(self.told(0, *words, "--digest")[0], {"entries": 2, "digest": digest})
        self.assertEqual(self.told(0, *words, "--expect", digest)[0], {"entries": 2, "digest": digest})
        told, said = self.told(1, *words, "--expect", "0" * 64)
        self.assertEqual(told, {"entries": 2, "digest": digest})
        self.assertIn(f"the digest is {digest}", said)
        for side in ("left", "right"):
            file = self.top / "house" / side
            file.write_bytes(file.read_bytes()[:1] + b"X" + file.read_bytes()[2:])
        told, said = self.told(1, *words)
        self.assertEqual(told, {})
        self.assertIn("S2 Corrupt", said)

    def test_words_stay(self):
        """Without the option, and with `text`, all is said in words."""
        for summary in ([], ["--summary", "text"]):
            self.assertEqual(self.focusd("check", *summary, "good.csv")[1].splitlines()[0], "good.csv: 3 records, 0 of them with faults; 0 faults")
        self.assertEqual(self.focusd("check", "--summary", "xml", "good.csv")[0], 2)
        self.assertEqual(self.focusd("status", "--dir", "house", "--summary", "json")[0], 2)


if __name__ == "__main__":
    run_tests(__doc__)
