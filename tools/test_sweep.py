#!/usr/bin/env python3
"""Tests tools/sweep.py: a store that lost an entry, or made one up, is found, and so is one that goes on after a failure."""
import os
import sys
import unittest
from unittest import mock

TOP = os.path.dirname(os.path.dirname(os.path.abspath(__file__)))
sys.path.insert(0, os.path.join(TOP, "tools"))
import sweep  # noqa: E402
from command_line import run_tests  # noqa: E402
from sweep import STEPS, STORE_CALLS, Wrong, is_open, is_stored, listed, right_answers, side, sides_left, store_script, swept  # noqa: E402

SCRIPT = store_script("old ever 99", STORE_CALLS)


def answers_of(failing, made, found):
    """The answers of a store whose device fails at a step (one past the last: at none), which is opened with so many entries."""
    answers, stored = ["created" if made else "S3 Device"], 0
    for place, (step, count) in enumerate(STEPS):
        done, fails = right_answers(step, count, stored)
        if not made:
            answers.append("ignored")
        elif place < failing:
            answers.append(done)
            stored += count
        else:
            answers.append(fails if place == failing else "S4 Failed")
    opened = ["opened", *["ignored"] * 4, listed(found)] if found is not None else [*["S1 NoHouse"] * 5, "ignored"]
    return [*answers, "closed" if made else "ignored", "stopped", *opened, "end"]


class Sweep(unittest.TestCase):
    def test_each_accepted_entry_has_to_be_there(self):
        stored = [sum(count for _, count in STEPS[:place]) for place in range(len(STEPS) + 1)]
        for failing in range(len(STEPS) + 1):
            most = stored[min(failing + 1, len(STEPS))]
            for found in range(9):
                answers = answers_of(failing, True, found)
                if found in (stored[failing], most):
                    self.assertEqual(is_stored(SCRIPT, answers), failing == len(STEPS))
                else:
                    self.assertRaises(Wrong, is_stored, SCRIPT, answers)

    def test_a_warehouse_that_was_created_has_to_be_there(self):
        self.assertFalse(is_stored(SCRIPT, answers_of(0, False, None)))
        self.assertFalse(is_stored(SCRIPT, answers_of(0, False, 0)))
        self.assertRaises(Wrong, is_stored, SCRIPT, answers_of(9, True, None))
        self.assertRaises(Wrong, is_stored, SCRIPT, answers_of(0, False, 1))

    def test_each_wrong_answer_is_found(self):
        answers = answers_of(2, True, 1)
        for place in range(len(answers) - 7):
            for other in ("accepted", "checkpointed", "ignored", "S5 Generations", "S6 TooLarge", ""):
                if other != answers[place]:
                    self.assertRaises(Wrong, is_stored, SCRIPT, [*answers[:place], other, *answers[place + 1 :]])

    def test_a_sweep_ends_where_no_call_fails(self):
        cat = [sys.executable, "-c", "import sys; sys.stdout.write(sys.stdin.read())"]
        self.assertEqual(swept(cat, lambda calls: [f"{calls}", "end"], lambda script, answers: answers[0] == "20"), 21)
        with mock.patch.object(sweep, "MOST_CALLS", 40):
            self.assertRaises(Wrong, swept, cat, lambda calls: [f"{calls}", "end"], lambda script, answers: False)

    def test_a_checkpoint_leaves_a_side(self):
        self.assertEqual(sides_left("old", 6, 1, 0), ("Left 1 19", False))
        self.assertEqual(sides_left("old", 6, 1, 6), ("Right 2 19", True))
        self.assertEqual(sides_left("new", 7, 2, 1), ("Right 2 19", False))
        self.assertTrue(is_open(side(1)))
        self.assertFalse(is_open("00" + side(1)[2:]))
        self.assertFalse(is_open("01" * 25))


if __name__ == "__main__":
    run_tests(__doc__)
