#!/usr/bin/env python3
"""Measures what repeated reports cost, beside a plain Rust program in the same run, and prints the result as Markdown.

    python3 bench/reports.py --date 2026-01-31 > result.md

1,000,000 rows over 720 hours, posted in pieces of 4,096, and a policy; once without commitments and once under 40 of them. Half of the
reports are over all hours by the tag `team`, half over a quarter of the hours by the tag `env`. A report's time is the processor time of
a run with many reports less that of a run with 2, by their number, so that reading is left out, and so is what is made once for all
reports. The programs take turns, and all answers must be equal. Progress goes to standard error.

    python3 bench/reports.py --workers 1 2 4

measures focusd with each of these numbers of workers, each time by the clock and not by the processor: several workers take no less of that.

    python3 bench/reports.py --first

sends the policy again before each report. focusd then keeps nothing from one report to the next, so each report is what the first one after an
entry is, and what several workers share. With `--workers 1 4` it says whether four workers are at least 3 times as fast as one.

    python3 bench/reports.py --after-post

posts one more row before each report, in an hour of its range, so each report is the first one after a post. The plain Rust program then clusters
its rows anew for each, and focusd is to be no slower than its clustering and report together. What the post itself takes is in both figures.

The plain Rust program (peers/reports) keeps its rows clustered by hour until rows or commitments come. Needs cargo, and on Debian 12
librust-csv-dev, librust-serde-json-dev and librust-toml-dev. Exit status: 0 measured, 1 a program failed or the answers differ, 2 a wrong
command line or a machine on which nothing can be measured.
"""
import hashlib
import os
import random
import statistics
import sys

from session import FOCUSD, RUST, Stopped, build_rust, built, in_turns, load, load_since, measure, parser_of_turns, print_head, say, status_after
from session import verdict, whole_number

MOST_ROWS = 4_096
# Pairs of reports in the two runs: without commitments a report takes a few milliseconds, of which it takes many to measure.
FEW, MANY, MANY_COVERED = 1, 201, 41
# Pairs under commitments where nothing is kept from one report to the next.
FIRST_COVERED = 21
GOAL, BAR = 3, 10
# How many times as fast as one worker four are to be, and what the first report after a post is to take at most.
GOAL_FASTER, GOAL_AFTER_POST = 3, 1
HEADER = (
    "BilledCost,EffectiveCost,BillingCurrency,ChargeCategory,ChargePeriodStart,ChargePeriodEnd,"
    "ConsumedQuantity,ConsumedUnit,SkuId,SubAccountId,Tags"
)


def instant(hour):
    """The instant at which an hour of January 2024 and after begins, with 28 days to each month."""
    day, of_day = divmod(hour, 24)
    month, of_month = divmod(day, 28)
    return f"2024-{month + 1:02}-{of_month + 1:02}T{of_day:02}:00Z"


def commitments(count, hours, numbers):
    for number in range(count):
        skus = numbers.sample(range(30), 3)
        start = numbers.randrange(hours // 2)
        lines = [f'id = "plan-{number}"', f'start = "{instant(start)}"', f"hours = {numbers.randint(1, hours)}"]
        if number % 2:
            lines += ['category = "Usage"', 'unit = "Hours"', f'capacity = "{numbers.randint(1, 400)}"']
            lines += ["skus = [" + ", ".join(f'"sku-{sku}"' for sku in skus) + "]"]
        else:
            lines += ['category = "Spend"', f'capacity = "{numbers.randint(1, 60)}"']
            lines += ["rates = { " + ", ".join(f"sku-{sku} = {numbers.randint(300_000, 1_000_000)}" for sku in skus) + " }"]
        lines += [f'tags = {{ team = "team-{numbers.randrange(50)}" }}']
        cost = f"{numbers.randint(1, 90_000)}.{numbers.randrange(10**9):09}"
        lines += [f'purchase = [{{ at = "{instant(start)}", billed = "{cost}" }}]']
        yield "commit", lines


def row(hour, numbers):
    cost = f"{numbers.randrange(5)}.{numbers.randrange(10**9):09}"
    category = "Tax" if numbers.random() < 0.05 else "Usage"
    quantity = f"{numbers.randrange(8)}.{numbers.randrange(1000):03}"
    tags = f'{{""team"":""team-{numbers.randrange(50)}"",""env"":""e{numbers.randrange(4)}""}}'
    return (
        f"{cost},{cost},USD,{category},{instant(hour)},{instant(hour + 1)},"
        f'{quantity},Hours,sku-{numbers.randrange(30)},account-{numbers.randrange(20)},"{tags}"'
    )


def posts(rows, hours, numbers):
    for first in range(0, rows, MOST_ROWS):
        yield "post", [HEADER, *(row(number * hours // rows, numbers) for number in range(first, min(first + MOST_ROWS, rows)))]


POLICY = ("policy", ['key = "team"', "[[rule]]", 'from = "team-0"', "proportional = true", "[[rule]]", 'from = "team-1"', "to = { team-2 = 3, shared = 1 }"])


def many_pairs(count, options):
    """How many pairs of reports the longer run has."""
    if not count:
        return MANY
    return FIRST_COVERED if options.first or options.after_post else MANY_COVERED


def sent_before(options, numbers):
    """The entries that are sent before a report."""
    if options.first:
        yield POLICY
    if options.after_post:
        # The hours that both reports have.
        yield "post", [HEADER, row(numbers.randrange(options.hours // 4, options.hours // 2), numbers)]


def commands(options, count, pairs):
    """The lines of each entry, with its kind, and of each report, with None."""
    numbers = random.Random(options.seed)
    yield from commitments(count, options.hours, numbers)
    yield from posts(options.rows, options.hours, numbers)
    yield POLICY
    reports = f"report team {instant(0)} {instant(options.hours)}", f"report env {instant(options.hours // 4)} {instant(options.hours // 2)}"
    for report in reports * pairs:
        yield from sent_before(options, numbers)
        yield None, [report]


def write_script(path, options, count, pairs):
    """Writes a script with `count` commitments and twice `pairs` reports, where it isn't there yet."""
    if os.path.exists(path):
        return
    say(f"making {os.path.basename(path)}")
    number = 0
    with open(path + ".part", "w", encoding="utf-8") as file:
        for kind, lines in commands(options, count, pairs):
            if kind:
                number += 1
                file.write(f"{kind} bench {number} {len(lines)}\n")
            file.write("\n".join(lines) + "\n")
    os.replace(path + ".part", path)


class Program:
    def __init__(self, name, command):
        self.name, self.command, self.seconds, self.answers = name, command, [], set()
        self.clock = []

    def take_turn(self, scripts, reports, options):
        took, clock = [], []
        for script in scripts:
            turn = measure(self.command, script, options)
            if turn.status != 0:
                raise Stopped(f"{self.name} failed: {turn.complaint.strip()[-200:] or 'it took too long'}")
            took.append(turn.processor_seconds)
            clock.append(turn.seconds)
        self.answers.add(hashlib.sha256(turn.output).hexdigest())
        self.seconds.append((took[1] - took[0]) / reports)
        self.clock.append((clock[1] - clock[0]) / reports)
        say(f"  {self.name}: {self.seconds[-1] * 1000:.1f} ms a report, {self.clock[-1] * 1000:.1f} by the clock")

    @property
    def middle(self):
        return statistics.median(self.seconds)

    @property
    def middle_by_clock(self):
        return statistics.median(self.clock)


def print_workers(measured, options):
    """Prints what a report takes by the clock with each number of workers, and how many times as fast as the first it is."""
    print(f"| program | milliseconds a report by the clock, {options.turns} turns | median | times as fast | of the processor |\n|---|---|---|---|---|")
    for program in measured:
        turns = ", ".join(f"{it * 1000:.1f}" for it in program.clock)
        faster = measured[0].middle_by_clock / program.middle_by_clock
        print(f"| {program.name} | {turns} | {program.middle_by_clock * 1000:.1f} | {faster:.2f} | {program.middle * 1000:.1f} |")
    middles = dict(zip(options.workers, (it.middle_by_clock for it in measured)))
    if options.first and {1, 4} <= set(middles):
        print(f"\nThe goal, four workers at least {GOAL_FASTER} times as fast as one, is {judged(middles[1] >= GOAL_FASTER * middles[4])}.")


def print_programs(measured, options):
    """Prints what a report takes of the processor in each program, how many times plain Rust that is, and whether the goal is met."""
    rust = next((it.middle for it in measured if it.name == RUST), None)
    print(f"| program | milliseconds a report, {options.turns} turns | median | times plain Rust |\n|---|---|---|---|")
    for program in measured:
        turns = ", ".join(f"{it * 1000:.1f}" for it in program.seconds)
        times = f"{program.middle / rust:.2f}" if rust else ""
        print(f"| {program.name} | {turns} | {program.middle * 1000:.1f} | {times} |")
    if not rust:
        return
    ours = measured[0].middle / rust
    if options.after_post:
        print(f"\nThe goal, the first report after a post no slower than plain Rust's clustering and report together, is {judged(ours <= GOAL_AFTER_POST)}.")
    else:
        print(f"\nThe goal, at most {GOAL} times plain Rust, is {judged(ours <= GOAL)}; the bar of {BAR} times is {judged(ours <= BAR)}.")


def judged(is_met):
    return f"**{verdict(is_met)}**"


def compare(programs, count, options):
    """Measures and prints one table; tells whether all answers are equal."""
    paths, many = [], many_pairs(count, options)
    for pairs in (FEW, many):
        kind = "-first" * options.first + "-after-post" * options.after_post
        name = f"reports-{options.rows}-{options.hours}-{options.seed}-{count}-{pairs}{kind}.script"
        paths.append(os.path.join(options.scratch, name))
        write_script(paths[-1], options, count, pairs)
    measured = [Program(*it) for it in programs]
    for program in in_turns(measured, options, f"{count} commitments, "):
        program.take_turn(paths, 2 * (many - FEW), options)
    print(f"\n{options.rows:,} rows over {options.hours} hours, {count} commitments:\n")
    (print_workers if options.workers else print_programs)(measured, options)
    return len(set.union(*(it.answers for it in measured))) == 1


def run(options):
    os.makedirs(options.scratch, exist_ok=True)
    notes = []
    programs = [(FOCUSD, [built(options.program), "run"])]
    if options.workers:
        programs = [(f"{FOCUSD} --workers {it}", [*programs[0][1], "--workers", str(it)]) for it in options.workers]
    rust = not options.workers and build_rust(options, notes, "reports", ("csv", "serde-json", "toml"))
    if rust:
        programs.append((RUST, [rust]))
    before = load()
    print_head(options)
    are_equal = all([compare(programs, count, options) for count in options.commitments])
    print(f"\n{load_since(before)}")
    for note in notes:
        print(f"- Left out: {note}")
    if not are_equal:
        say("reports.py: the programs gave different answers")
    return 0 if are_equal else 1


def main():
    parser = parser_of_turns(__doc__, turns=3, limit=600)
    parser.add_argument("--rows", type=whole_number, default=1_000_000, help="default: 1,000,000")
    parser.add_argument("--hours", type=whole_number, default=720, help="default: 720")
    parser.add_argument("--commitments", type=int, nargs="+", default=[0, 40], help="default: 0 40")
    parser.add_argument("--workers", type=whole_number, nargs="+", default=[], help="numbers of workers to compare by the clock (default: none, and plain Rust beside one)")
    before = parser.add_mutually_exclusive_group()
    before.add_argument("--first", action="store_true", help="let each report be the first one after an entry")
    before.add_argument("--after-post", action="store_true", help="let each report be the first one after a post of one row")
    parser.add_argument("--seed", type=int, default=7, help="default: 7")
    return status_after(run, parser.parse_args())


if __name__ == "__main__":
    sys.exit(main())
