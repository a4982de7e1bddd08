#!/usr/bin/env python3
"""Measures each goal of speed and memory in one session, and prints them as one Markdown table.

    python3 bench/goals.py --date 2026-01-31 > result.md

It runs bench.py and reports.py of this folder, with --withdrawals also withdrawals.py and with --state also state.py, one after the other. Each value
and its verdict is what the script in the last column prints. Times are medians of turns; where bench.py judges the least times too, their ratio stands
in parentheses. Speeds of state.py, and the time of a withdrawal, are those of the best turn. Progress goes to standard error, and what a script prints
beside its values is left out.

Exit status: 0 all was measured, 1 a script failed or couldn't measure a goal, 2 a wrong command line.
"""
import os
import re
import shlex
import subprocess
import sys

from session import FOCUSD, HERE, load, load_since, parser_of, print_head, say, whole_number

COVERED = 40


class Goal:
    """What is to be reached, and how its value and verdicts are found in what a script prints."""

    def __init__(self, name, find):
        self.name, self.find = name, find

    def row(self, printed, command):
        """Its row of the table, and whether it was measured."""
        found = self.find(printed)
        value, verdict = (found[0], judged(*found[1:])) if found else ("not measured", "")
        return f"| {self.name} | {value} | {verdict} | `{command}` |", bool(found)


def judged(goal, bar=None):
    """The verdict on a goal, and where it is missed that on its bar."""
    return f"**{goal}**" + (f", the bar {bar}" if bar and goal == "missed" else "")


def in_bench(name, unit):
    """Finds a value of bench.py with its verdicts; those by medians, where it has them, with the least beside."""

    def find(printed):
        line = r"^- {}: \*\*(.*?)\*\*; goal, at most [\d.]+: (\w+)(?:; bar, at most [\d.]+: (\w+))?"
        first = re.search(line.format(re.escape(name)), printed, re.M)
        middle = re.search(line.format(re.escape(f"{name}, by medians")), printed, re.M)
        if middle and first:
            return f"{middle[1]}{unit} (least: {first[1]})", middle[2], middle[3]
        return first and (f"{first[1]}{unit}", first[2], first[3])

    return find


def in_reports(count, program):
    """Finds the fourth column of a program in the table of reports.py for so many commitments, and the verdicts below it."""

    def find(printed):
        parts = re.split(r"^.* rows over .* hours, (\d+) commitments:$", printed, flags=re.M)
        part = dict(zip(parts[1::2], parts[2::2])).get(str(count), "")
        value = re.search(rf"^\| {re.escape(program)} \|[^|]*\|[^|]*\| (-?[\d.]+) \|", part, re.M)
        verdict = re.search(r"^The goal, .*?, is \*\*(\w+)\*\*(?:; the bar of .*? is \*\*(\w+)\*\*)?", part, re.M)
        return value and verdict and (f"{value[1]} times", verdict[1], verdict[2])

    return find


def in_state(name):
    """Finds a speed of state.py."""

    def find(printed):
        found = re.search(rf"^{name}: (.*? MB/s) \(goal \d+: (\w+); bar \d+: (\w+)\)", printed, re.M)
        return found and (found[1], found[2], found[3])

    return find


def in_withdrawals(what, limit):
    """Finds a bar of withdrawals.py, by what is held to it, and its limit."""

    def find(printed):
        found = re.search(rf"^- Bar, {re.escape(what)}at most {limit} times.*?: \*\*(\w+)\*\* \((?:at the most )?([\d.]+)", printed, re.M)
        return found and (f"{found[2]} times", found[1])

    return find


def under(name, find):
    """Two goals: without commitments, and under many."""
    return [Goal(f"{name}, {how}", find(count)) for how, count in (("without commitments", 0), (f"under {COVERED} commitments", COVERED))]


INGEST = [
    Goal("an ingest by one worker: at most 1.0 times plain Rust by processor time (bar 1.3)", in_bench("Processor time, times the plain Rust program", " times")),
    Goal("an ingest by four workers: at most 0.45 times plain Rust by the clock", in_bench(f"{FOCUSD} --workers 4, by the clock, times the plain Rust program", " times")),
    Goal("memory a row: at most 100 bytes (bar 140)", in_bench("Memory, bytes a row kept, the script aside", " bytes")),
]
REPEATED = under("a repeated report: at most 3 times plain Rust (bar 10)", lambda count: in_reports(count, FOCUSD))
AFTER_POST = under("the first report after a post: no slower than plain Rust's clustering and report together", lambda count: in_reports(count, FOCUSD))
FIRST = under("first reports by four workers: at least 3 times as fast as by one", lambda count: in_reports(count, f"{FOCUSD} --workers 4"))
STATE = [
    Goal("a state is written at 800 MB/s (bar 400)", in_state("encode")),
    Goal("a state is read at 400 MB/s (bar 200)", in_state("decode")),
]
WITHDRAWALS = [
    Goal("a report beside 100 withdrawn posts: at most 1.1 times one without them", in_withdrawals("", 1.1)),
    Goal("a withdrawal among 1,000,000 entries: at most 1.3 times one among 1,000, as posted", in_withdrawals("a withdrawal, as posted, ", 1.3)),
    Goal("the same after a checkpoint", in_withdrawals("a withdrawal, after a checkpoint, ", 1.3)),
    Goal("a purchase that is added among 1,000,000 entries: at most 1.3 times one among 1,000, as posted", in_withdrawals("an added purchase, as posted, ", 1.3)),
    Goal("the same after a checkpoint", in_withdrawals("an added purchase, after a checkpoint, ", 1.3)),
]


def scripts(options):
    """Each script that measures goals: its words, and the goals."""
    given = [word for name in ("rows", "program", "scratch") if getattr(options, name) for word in (f"--{name}", str(getattr(options, name)))]
    given += ["--turns", str(options.turns)]
    reports, counts = "reports.py", ["--commitments", "0", str(COVERED)]
    yield ["bench.py", "--fast", "--workers", "4", *given], INGEST
    yield [reports, *counts, *given], REPEATED
    yield [reports, "--after-post", *counts, *given], AFTER_POST
    yield [reports, "--first", "--workers", "1", "4", *counts, *given], FIRST
    if options.withdrawals:
        yield ["withdrawals.py", *given], WITHDRAWALS
    if options.state:
        yield ["state.py"], STATE


def measured(words, goals):
    """The rows of a script's goals, and what went wrong."""
    command = shlex.join(["python3", f"bench/{words[0]}", *words[1:]])
    say(command)
    ran = subprocess.run([sys.executable, os.path.join(HERE, words[0]), *words[1:]], stdout=subprocess.PIPE, text=True, encoding="utf-8")
    faults = [f"`{command}`: {line[2:]}" for line in ran.stdout.splitlines() if line.startswith("- Left out: ")]
    if ran.returncode:
        faults.append(f"`{command}` failed with status {ran.returncode}, and its values don't count")
    rows = [goal.row("" if ran.returncode else ran.stdout, command) for goal in goals]
    faults += [f"`{command}` printed no value for: {goal.name}" for goal, (_, is_there) in zip(goals, rows) if not is_there and not ran.returncode]
    return [row for row, _ in rows], faults


def run(options):
    before = load()
    rows, faults = [], []
    for words, goals in scripts(options):
        more, wrong = measured(words, goals)
        rows += more
        faults += wrong
    print_head(options)
    print(f"{load_since(before)}\n")
    print("| goal | value | met or missed | measured by |\n|---|---|---|---|")
    print("\n".join(rows))
    if faults:
        print("\n" + "\n".join(f"- {fault}" for fault in faults))
    return 1 if faults else 0


def main():
    parser = parser_of(__doc__)
    parser.add_argument("--program", default="", help="the built focusd (default: out/focusd)")
    parser.add_argument("--rows", type=whole_number, help="default: that of each script, 1,000,000")
    parser.add_argument("--turns", type=whole_number, default=5, help="turns of each program (default: 5)")
    parser.add_argument("--withdrawals", action="store_true", help="measure what withdrawn posts cost too, which takes some ten minutes more")
    parser.add_argument("--state", action="store_true", help="measure the bytes of a state too: proves and builds a program over copies of the crates, which takes long")
    parser.add_argument("--date", default="", help="the date that the result is to carry")
    parser.add_argument("--scratch", default="", help="default: bench/scratch")
    return run(parser.parse_args())


if __name__ == "__main__":
    sys.exit(main())
