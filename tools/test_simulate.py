#!/usr/bin/env python3
"""Tests tools/simulate.py: each answer that isn't the right one is found."""
import os
import sys
import unittest

TOP = os.path.dirname(os.path.dirname(os.path.abspath(__file__)))
sys.path[:0] = [os.path.join(TOP, "tools"), os.path.join(TOP, "examples")]
import expected  # noqa: E402
from command_line import run_tests  # noqa: E402
from simulate import OLD_FILES, POSTS, WRONG, changes_of, entry_of, fault_of, judged, script_of, shown, split_answers  # noqa: E402


def lines_of(name):
    """The lines of a file of fw_simulate."""
    with open(os.path.join(TOP, "crates", "fw_simulate", name), encoding="utf-8") as file:
        return file.read().splitlines()


def scripts_and_answers():
    """The scripts of events that `rt ci` runs first, each with its answers: those before the first remark."""
    script, answers, found = [], lines_of("stdout"), []
    for line in lines_of("stdin"):
        if line.startswith("#"):
            break
        script.append(line)
        if line == "end":
            found.append((script, answers[: len(script)]))
            script, answers = [], answers[len(script) :]
    return found


# Purchases that are added to commitments: each line with its answer. The commitment costs 1 from the beginning, and 100,000,000 in the end.
ADDED = [
    *[("run 3 1 old", "created"), ("commitment 0 a 1 x", "posted"), ("add 1 b 1 y 4", "posted"), ("take", "took 2")],
    *[("commit", "committed; accepted 1 of 1; refused 8 at 1 of 1"), ("learn 0 3 0", "learned"), ("learn 0 3 1", "ignored")],
    *[("add 0 a 2 x 99999990", "posted"), ("add 1 b 1 x 10", "posted"), ("add 2 c 1 x 9", "posted"), ("take", "took 3")],
    *[("commit", "committed; accepted 2 of 3; refused 9 at 2 of 3; accepted 3 of 3")],
    *[("view 0", "viewed a/1=x a/2+x:99999990000000000 c/1+x:9000000000 |"), ("stop", "stopped")],
    *[("reopen", "reopened a/1=x a/2+x:99999990000000000 c/1+x:9000000000 |"), ("end", "end")],
]
# The same on a warehouse of an earlier version, to whose log none can be added before a checkpoint.
OLD = [
    *[(OLD_FILES + "run 2 1 old", "stopped"), ("view 0", "ignored"), ("reopen", "reopened |"), ("commitment 0 a 1 x", "posted"), ("take", "took 1")],
    *[("commit", "committed; accepted 1 of 1"), ("add 0 a 2 x 0", "posted"), ("use 1 b 1 z", "posted"), ("take", "took 2")],
    *[("commit", "failed S8 OldSide"), ("use 1 b 1 z", "ignored"), ("take", "took 0"), ("view 0", "viewed a/1=x |"), ("checkpoint", "checkpointed")],
    *[("commit", "committed; accepted 2 of 3; accepted 3 of 3"), ("view 0", "viewed a/1=x a/2+x:0 b/1:1 | 1000000000"), ("end", "end")],
]
# Posts that are withdrawn: one in the group that brings it, one whose id is then committed to; and withdrawals that are refused: of a post that is
# withdrawn already, of the number that the withdrawal has itself, and of an entry that is no post.
WITHDRAWN = [
    *[("run 3 1 old", "created"), ("post 0 a 1 2 3", "posted"), ("withdraw 1 a 2 1", "posted"), ("use 2 b 1 x", "posted"), ("take", "took 3")],
    *[("commit", "committed; accepted 1 of 3; accepted 2 of 3; accepted 3 of 3"), ("view 0", "viewed a/1:2 a/2-1 b/1:1 | 1000000000")],
    *[("withdraw 0 a 3 1", "posted"), ("withdraw 1 b 2 2", "posted"), ("commitment 2 c 1 x", "posted"), ("take", "took 3")],
    *[("commit", "committed; refused 7 at 3 of 3; refused 6 at 3 of 3; refused 3 at 3 of 3")],
    *[("withdraw 0 b 2 1", "posted"), ("commitment 1 c 1 x", "posted"), ("withdraw 2 c 2 1", "posted"), ("take", "took 3")],
    *[("commit", "committed; accepted 4 of 5; accepted 5 of 5; refused 6 at 5 of 5"), ("learn 0 15 1", "learned"), ("learn 0 15 2", "ignored")],
    *[("post 0 a 3 1 -2", "posted"), ("withdraw 1 a 9 1", "posted"), ("use 2 b 3 x", "posted"), ("take", "took 3")],
    *[("commit", "committed; accepted 6 of 6; gap 4 at 6 of 6; refused 4 at 6 of 6"), ("checkpoint", "checkpointed"), ("stop", "stopped")],
    *[("reopen", "reopened a/1:2 a/2-1 b/1:1 b/2-1 c/1=x a/3:1 | -2000000000"), ("end", "end")],
]
# The same on a warehouse of an earlier version, to whose log none comes before a checkpoint.
OLD_WITHDRAWN = [
    *[(OLD_FILES + "run 2 1 old", "stopped"), ("reopen", "reopened |"), ("post 0 a 1 2 3", "posted"), ("withdraw 1 b 1 1", "posted"), ("take", "took 2")],
    *[("commit", "committed; accepted 1 of 1; refused 6 at 1 of 1"), ("withdraw 0 a 2 1", "posted"), ("withdraw 1 b 1 1", "posted"), ("take", "took 2")],
    *[("commit", "failed S8 OldSide"), ("view 0", "viewed a/1:2 | 3000000000 3000000000"), ("checkpoint", "checkpointed")],
    *[("commit", "committed; accepted 2 of 2; refused 6 at 2 of 2"), ("view 0", "viewed a/1:2 a/2-1 |"), ("end", "end")],
]


def all_scripts_and_answers():
    """Those that `rt ci` runs first, and those above."""
    return [*scripts_and_answers(), *(tuple(map(list, zip(*pairs))) for pairs in (ADDED, OLD, WITHDRAWN, OLD_WITHDRAWN))]


# What the kinds of entries have, as the program makes it of a line, by the name or the number that they carry.
HEADER = (
    "BilledCost,EffectiveCost,BillingCurrency,ChargeCategory,ChargePeriodStart,ChargePeriodEnd,"
    "CommitmentDiscountId,CommitmentDiscountCategory,CommitmentDiscountStatus\n"
)
CONTENTS = {
    "post": lambda rows, cost: HEADER + f"{cost},0,USD,Usage,2024-01-01T00:00Z,2024-01-01T01:00Z,,,\n" * int(rows),
    "use": lambda name: HEADER + f"1,1,USD,Usage,2024-01-01T00:00Z,2024-01-01T01:00Z,{name},Usage,Used\n",
    "commitment": lambda name: f'id = "{name}"\ncategory = "Usage"\nstart = "2024-01-01T00:00Z"\nhours = 1\ncapacity = "1"\nunit = "Hours"\n'
    'skus = ["vm"]\n[[purchase]]\nat = "2024-01-01T00:00Z"\nbilled = "1"\n',
    "add": lambda name, cost: f'id = "{name}"\nat = "2024-01-01T00:00Z"\nbilled = "{cost}"\n',
    "policy": lambda key: f'key = "{key}"\n',
}


def answered(kept, entry):
    """What a warehouse of expected.py answers to an entry, in the words of a verdict here."""
    origin, number, kind, *content = entry
    if kind == "withdraw":
        words = kept.withdraw(origin, str(number), int(content[0])).split()
    else:
        how = {"post": kept.post, "use": kept.post, "commitment": kept.commit, "add": kept.add_purchase, "policy": kept.set_policy}[kind]
        words = kept.enter(origin, str(number), how, CONTENTS[kind](*content).encode()).split()
    return f"refused {words[1].removeprefix('J')}" if words[0] == "refused" else " ".join(words) if words[0] != "accepted" else "accepted"


# Answers of other kinds, of which none can come in place of another.
OTHERS = ("posted", "took 3", "committed", "committed; accepted 9 of 9", "committed; closed", "checkpointed", "viewed |", "learned", "reopened z/9:1 | 5", "end", "")


class Simulate(unittest.TestCase):
    def test_right_answers_are_right(self):
        for script, answers in all_scripts_and_answers():
            self.assertIsNone(fault_of(script, answers))

    def test_each_wrong_answer_is_found(self):
        tried = 0
        for script, answers in all_scripts_and_answers():
            for place, answer in enumerate(answers):
                for other in OTHERS:
                    if other != answer:
                        fault = fault_of(script, [*answers[:place], other, *answers[place + 1 :]])
                        self.assertIsNotNone(fault, (place, other))
                        self.assertEqual(fault[0], place)
                        tried += 1
        self.assertGreater(tried, 200)

    def test_an_answer_too_few_or_too_many_is_found(self):
        for script, answers in all_scripts_and_answers():
            self.assertIsNotNone(fault_of(script, answers[:-1]))
            self.assertIsNotNone(fault_of(script, [*answers, "end"]))

    def test_a_list_that_lost_a_row_is_found(self):
        script, answers = scripts_and_answers()[0]
        place = next(at for at, answer in enumerate(answers) if answer.startswith("reopened"))
        fault = fault_of(script, [*answers[:place], answers[place].rsplit(" ", 1)[0], *answers[place + 1 :]])
        self.assertEqual(fault[0], place)

    def test_a_commitment_has_64_purchases(self):
        script, answers = ["run 1 1 old", "commitment 0 a 1 x", "take", "commit"], ["created", "posted", "took 1", "committed; accepted 1 of 1"]
        for number in range(2, 66):
            script += [f"add 0 a {number} x 0", "take", "commit"]
            answers += ["posted", "took 1", f"committed; accepted {number} of {number}" if number < 65 else "committed; refused 9 at 64 of 64"]
        self.assertIsNone(fault_of([*script, "end"], [*answers, "end"]))

    def test_after_a_checkpoint_that_failed_the_side_in_use_is_of_either_form(self):
        script = [OLD_FILES + "run 1 1 old 9", "reopen", "commitment 0 a 1 x", "take", "commit", "checkpoint", "stop", "reopen"]
        script += ["add 0 a 2 x 1", "take", "commit", "commit", "end"]
        answers = ["stopped", "reopened |", "posted", "took 1", "committed; accepted 1 of 1", "failed S3 Device", "stopped", "reopened a/1=x |"]
        answers += ["posted", "took 1"]
        accepted, old = "committed; accepted 2 of 2", "failed S8 OldSide"
        for first, second in ((accepted, "committed"), (old, old)):
            self.assertIsNone(fault_of(script, [*answers, first, second, "end"]))
        self.assertEqual(fault_of(script, [*answers, old, accepted, "end"]), (11, old))
        self.assertEqual(fault_of(script, [*answers, "committed", "committed", "end"]), (10, accepted))

    def test_a_side_of_the_second_form_takes_purchases(self):
        script, answers = map(list, zip(*ADDED))
        place = answers.index("committed; accepted 2 of 3; refused 9 at 2 of 3; accepted 3 of 3")
        self.assertEqual(fault_of(script, [*answers[:place], "failed S8 OldSide", *answers[place + 1 :]])[0], place)

    def test_seeds_add_purchases_to_both_forms(self):
        scripts = [script_of(seed) for seed in range(1, 200)]
        adding = [script for script in scripts if any(line.startswith("add ") for line in script)]
        for is_old in (False, True):
            self.assertGreater(sum(script[0].startswith("files ") == is_old for script in adding), 10)

    def test_a_list_with_the_rows_of_a_withdrawn_post_is_found(self):
        script, answers = map(list, zip(*WITHDRAWN))
        place = answers.index("viewed a/1:2 a/2-1 b/1:1 | 1000000000")
        for other in ("a/1:2 a/2-1 b/1:1 | 3000000000 3000000000 1000000000", "a/1:2 a/2-1 b/1:1 | 3000000000 1000000000", "b/1:1 | 1000000000"):
            self.assertEqual(fault_of(script, [*answers[:place], f"viewed {other}", *answers[place + 1 :]])[0], place)

    def test_seeds_withdraw_posts_from_both_forms(self):
        """Posts, posts that are withdrawn already, and what is no post are named, and a post in the group that brings it."""
        scripts = [script_of(seed) for seed in range(1, 400)]
        withdrawing = [script for script in scripts if any(line.startswith("withdraw ") for line in script)]
        for is_old in (False, True):
            self.assertGreater(sum(script[0].startswith("files ") == is_old for script in withdrawing), 10)
        verdicts, together = [], 0
        for script in scripts:
            entries, group = [], 0
            for line in script[1:]:
                words = line.split(" ")
                group = len(entries) if words[0] == "take" else group
                if words[0] in POSTS:
                    entry = entry_of(words)
                    verdict = judged(entries, entry)
                    if words[0] == "withdraw":
                        verdicts.append(verdict)
                        named = (entry[0], int(entry[3]))
                        together += verdict == "accepted" and named in [other[:2] for other in entries[group:]]
                    if verdict == "accepted":
                        entries.append(entry)
        for verdict in ("accepted", "refused 6", "refused 7"):
            self.assertGreater(verdicts.count(verdict), 10)
        self.assertGreater(together, 10)

    def test_verdicts_are_those_of_the_oracle(self):
        """Of the entries of seeds, one after the other, the costs of the rows that count too."""
        accepted = refused = 0
        for seed in range(1, 150):
            entries, kept = [], expected.Warehouse()
            for line in script_of(seed)[1:]:
                words = line.split(" ")
                if words[0] in POSTS:
                    entry = entry_of(words)
                    verdict = judged(entries, entry)
                    self.assertEqual(answered(kept, entry), verdict, (seed, line))
                    refused += verdict.startswith("refused")
                    if verdict == "accepted":
                        entries.append(entry)
            costs = [row.billed for rows in kept.rows.values() for row in rows]
            self.assertEqual(shown(entries).partition(" |")[2].split(), [str(cost) for cost in costs])
            accepted += len(entries)
        self.assertGreater(accepted, 500)
        self.assertGreater(refused, 100)

    def test_a_device_fails_no_more_often_than_the_script_says(self):
        script = ["run 1 1 old", "post 0 a 1 1 1", "take", "commit", "end"]
        self.assertEqual(fault_of(script, ["created", "posted", "took 1", "committed; unknown", "end"])[0], 3)
        script[0] = "run 1 1 old 9"
        self.assertIsNone(fault_of(script, ["created", "posted", "took 1", "committed; unknown", "end"]))

    def test_a_wrong_body_is_made_of_one_text_of_the_sources(self):
        for edit in WRONG:
            changes = changes_of(edit)
            self.assertTrue(changes, edit)
            for path, old, new in changes:
                with open(os.path.join(TOP, path), encoding="utf-8") as file:
                    self.assertEqual(file.read().count(old), 1, edit)
                self.assertNotEqual(old, new)

    def test_what_was_printed_is_parted_by_scripts(self):
        parted = [answers for _, answers in scripts_and_answers()]
        self.assertGreater(len(parted), 1)
        self.assertEqual(split_answers("\n".join(lines_of("stdout")) + "\n")[: len(parted)], parted)

    def test_a_seed_makes_one_script(self):
        self.assertEqual(script_of(7), script_of(7))
        self.assertNotEqual(script_of(7), script_of(8))


if __name__ == "__main__":
    run_tests(__doc__)
