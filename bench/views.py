#!/usr/bin/env python3
"""Measures views and reports beside threads that work, and prints the result as Markdown.

    python3 bench/views.py --date 2026-01-31 > result.md

Two of the tests on threads (crates/fw_test_threads) time what they do, and print it:

    gated::view_while_sync                a view at rest, and one while a commit is held in its sync
    reported::a_report_beside_importers   a report of 65,536 rows at rest, and one while eight importers post

Each of them is run in a process of its own, in turns. Of a turn the test tells the fastest of many batches of views, and the median of its
reports; what counts here is the median of the turns. `tools/prove.py` leaves the built tests in out/tests. Progress goes to standard error.

Exit status: 0 measured, 1 a test failed, 2 a wrong command line or a machine on which nothing can be measured.
"""
import os
import re
import statistics
import sys

from session import ROOT, Stopped, Turns, in_turns, load, load_since, measure, parser_of_turns, print_head, say, status_after, verdict

# How many times as long as at rest a view may take. For a report there is no such goal: with eight importers and a flusher there are more
# threads than most machines have cores.
MOST_TIMES = 2


class Timed(Turns):
    """A test that prints two times: one at rest, and one beside threads that work."""

    def __init__(self, name, program, test, line, unit, has_goal):
        super().__init__(name)
        self.has_goal = has_goal
        self.command, self.line, self.unit = [program, test], re.compile(line), unit
        self.pairs = []

    def take_turn(self, options):
        if not self.fault:
            self.keep(measure(self.command, os.devnull, options), options)

    def judge(self, output):
        """What is wrong with what a test printed, if anything. The two times are kept."""
        found = self.line.search(output.decode("utf-8", "replace"))
        if not found:
            return "told no times"
        rest, beside = map(int, found.groups())
        if not rest:
            return f"told {rest} {self.unit} at rest"
        self.pairs.append((rest, beside))
        say(f"  {self.name}: {rest} {self.unit} at rest, {beside} {self.unit} beside")
        return None

    @property
    def middles(self):
        """The medians of both times."""
        return tuple(statistics.median(times) for times in zip(*self.pairs))

    @property
    def times(self):
        """How many times as long it took beside the threads: the median of the turns."""
        return statistics.median(beside / rest for rest, beside in self.pairs)


def tests_of(program):
    return [
        Timed(
            "a view while a commit is held in its sync",
            program,
            "gated::view_while_sync",
            r"views: (\d+) ns at rest, (\d+) ns while a commit syncs",
            "ns",
            has_goal=True,
        ),
        Timed(
            "a report of 65,536 rows while eight importers post",
            program,
            "reported::a_report_beside_importers",
            r"reports: (\d+) us at rest, (\d+) us while 8 importers post",
            "us",
            has_goal=False,
        ),
    ]


def table(tests):
    yield "| what | at rest, each turn | beside, each turn | median at rest | median beside | times |"
    yield "|---|---|---|---:|---:|---:|"
    for test in tests:
        if not test.pairs:
            yield f"| {test.name} | {test.fault} | | | | |"
            continue
        each = (", ".join(str(it) for it in times) for times in zip(*test.pairs))
        middles = (f"{it:.0f} {test.unit}" for it in test.middles)
        yield f"| {test.name} | {' | '.join(each)} | {' | '.join(middles)} | {test.times:.2f} |"


def goals(tests):
    for test in (it for it in tests if it.has_goal):
        goal = f"Goal, {test.name}: at most {MOST_TIMES} times as long as at rest"
        if test.fault:
            yield f"{goal}: not judged, the test {test.fault}"
        else:
            yield f"{goal}: **{verdict(test.times <= MOST_TIMES)}** ({test.times:.2f} times)"


def run(options):
    os.makedirs(options.scratch, exist_ok=True)
    program = os.path.abspath(options.program)
    if not (os.access(program, os.X_OK) and os.path.isfile(program)):
        raise Stopped(f"{options.program} isn't there: build it by tools/prove.py")
    tests = tests_of(program)
    before = load()
    for test in in_turns(tests, options):
        test.take_turn(options)
    print_head(options)
    print(f"{load_since(before)}\n")
    print("\n".join(table(tests)) + "\n")
    for line in goals(tests):
        print(f"- {line}")
    return 1 if any(test.fault for test in tests) else 0


def main():
    tests = os.path.join(ROOT, "out", "tests", "fw_test_threads")
    parser = parser_of_turns(__doc__, turns=11, limit=60, program=tests, what="turns of each test")
    return status_after(run, parser.parse_args())


if __name__ == "__main__":
    sys.exit(main())
