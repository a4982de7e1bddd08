#!/usr/bin/env python3
"""Runs reports under the policy of a file (`focusd report --policy`) of a built program.

    examples/test_policy_file.py out/focusd

What a report has to be under another policy comes from expected.py: the report of a warehouse whose next entry sets that policy.
"""
import random

from entries import ENTRIES, HOURS, RANGE, after, body_of, command, policy, sent
from program_tests import OneFolder, focusd, run_tests

TEAMS = ["web", "data", "platform", *(f"t{number}" for number in range(7)), "", "nobody"]


def some_policy(chance):
    """A policy for the tag team by chance."""
    gives = chance.sample(TEAMS, chance.randint(1, 4))
    rest = sorted(set(TEAMS) - set(gives))
    text = 'key = "team"\n'
    for group in gives:
        text += f'[[rule]]\nfrom = "{group}"\n'
        if chance.random() < 0.5:
            text += "proportional = true\n"
        else:
            text += "[rule.to]\n" + "".join(f'"{to}" = {chance.randint(1, 9)}\n' for to in chance.sample(rest, chance.randint(1, 4)))
    return text


class UnderAPolicy(OneFolder):
    @classmethod
    def setUpClass(cls):
        super().setUpClass()
        cls.folder = cls.room / "costs"
        cls.folder.mkdir()
        focusd("run", "--dir", cls.folder, "--create", given="".join(ENTRIES).encode())

    def file(self, text):
        path = self.room / "policy.toml"
        path.write_text(text)
        return path

    def report(self, *words, given=b""):
        return focusd("report", "--dir", self.folder, *words, given=given)

    def test_it_is_the_report_after_that_policy(self):
        chance = random.Random(7)
        for _ in range(30):
            text, count = some_policy(chance), chance.randint(1, len(ENTRIES))
            kept = after(count)
            stored = kept.report("team", *HOURS)
            self.assertTrue(sent(kept, command("policy what 1", text)).startswith("accepted "), text)
            under = kept.report("team", *HOURS)
            file = self.file(text)
            asked = ("--tag", "team", *RANGE, "--format", "csv", "--as-of", count)
            status, printed, said = self.report(*asked, "--policy", file)
            self.assertEqual((status, printed), (0, body_of(under)), (count, text))
            self.assertEqual(said, f"costs are shared by the policy for the tag team: the one of the file {file}\n")
            self.assertEqual(self.report(*asked)[1], body_of(stored), "the warehouse is as it was")
            status, printed, said = self.report(*asked, "--policy", "-", given=text.encode())
            self.assertEqual((status, printed), (0, body_of(under)))
            self.assertEqual(said, "costs are shared by the policy for the tag team: the one of standard input\n")

    def test_the_stored_policy_gives_the_stored_report(self):
        text = ENTRIES[10].split("\n", 1)[1]
        self.assertTrue(ENTRIES[10].startswith("policy rules 3 "))
        file = self.file(text)
        for words in (("--format", "csv"), ("--format", "json"), ("--format", "html"), (), ("--by", "day", "--top", "2"), ("--by", "month", "--format", "csv")):
            asked = ("--tag", "team", *RANGE, *words)
            self.assertEqual(self.report(*asked, "--policy", file)[:2], self.report(*asked)[:2], words)
        # Without a range the rows give it, under each policy.
        self.assertEqual(self.report("--tag", "team", "--policy", file)[:2], self.report("--tag", "team")[:2])

    def test_the_periods_of_it(self):
        text = policy("team", "platform", "t1")
        file, kept = self.file(text), after(len(ENTRIES))
        self.assertTrue(sent(kept, command("policy what 1", text)).startswith("accepted "))
        printed = self.report("--tag", "team", *RANGE, "--by", "day", "--format", "csv", "--policy", file)[1]
        found = [line.split(",") for line in printed.splitlines()[1:]]
        wanted = []
        for day in range(1, 5):
            low, high = f"2024-01-{day:02}T00:00Z", f"2024-01-{day + 1:02}T00:00Z"
            lines = body_of(kept.report("team", low, high)).splitlines()[1:]
            wanted += [[low, high, "group", *line.split(",")] for line in lines]
        self.assertEqual(found, wanted)

    def test_nothing_is_written(self):
        before = {path: path.read_bytes() for path in self.folder.iterdir()}
        self.assertEqual(self.report("--tag", "team", "--policy", self.file(policy("team", "web")))[0], 0)
        self.assertEqual({path: path.read_bytes() for path in self.folder.iterdir()}, before)

    def test_a_policy_for_another_tag(self):
        file = self.file(policy("env", "web-env"))
        status, printed, said = self.report("--tag", "team", *RANGE, "--policy", file)
        self.assertEqual((status, printed), (1, ""))
        lines = said.splitlines()
        self.assertEqual(lines[0], f"focusd: --policy: {file}: the policy is for the tag env, so it shares no costs of this report")
        self.assertTrue(lines[1].startswith("What to do: ask by --tag env"))

    def test_what_is_no_policy(self):
        for text, wanted in (
            ("key =", "A1 NoToml"), ("", "A2 NoKind"), ('key = "team"\n[[rule]]\nfrom = 1\n', "policy"),
            ('id = "ri"\nat = "2024-01-02T05:00Z"\nbilled = "1"\n', "W9 OtherKind"),
        ):  # fmt: skip
            file = self.file(text)
            status, printed, said = self.report("--tag", "team", *RANGE, "--policy", file)
            self.assertEqual((status, printed), (1, ""), text)
            self.assertIn(str(file), said)
            self.assertIn(wanted, said)
        status, printed, said = self.report("--tag", "team", "--policy", self.room / "none.toml")
        self.assertEqual((status, printed), (1, ""))
        self.assertIn("none.toml", said)

    def test_a_wrong_command_line_is_found_before_the_file_is_read(self):
        missing = self.room / "none.toml"
        for words in ((), ("--tag", "team", "--tag", "env"), ("--total-only",), ("--tag", "team", "--top", "0"), ("--tag", "team", "--month", "2024-1")):
            status, printed, said = self.report(*words, "--policy", missing)
            self.assertEqual((status, printed), (2, ""), words)
            self.assertNotIn("none.toml", said)
        status, printed, said = focusd("compare", "--dir", self.folder, "--tag", "team", "--tag", "env", "--policy", missing)
        self.assertEqual((status, printed), (2, ""))
        self.assertNotIn("none.toml", said)

    def test_with_what_has_no_charges(self):
        file = self.file(policy("team", "web"))
        for words in (
            ("--tag", "team", "--direct"), ("--tag", "team", "--tag", "env"), ("--tag", "team", "--column", "SkuId"), ("--total-only",),
            ("--tag", "team", "--where", "env=x"), ("--tag", "team", "--where-not", "env=x"), ("--tag", "team", "--map", str(file)),
        ):  # fmt: skip
            status, printed, said = self.report(*words, "--policy", file)
            self.assertEqual((status, printed), (2, ""), words)
            self.assertIn("--policy", said)


if __name__ == "__main__":
    run_tests(__doc__)
