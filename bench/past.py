#!/usr/bin/env python3
"""Measures reports of a warehouse as it was after some of its entries beside a report of it as it is, and prints the result as Markdown.

    python3 bench/past.py --date 2026-01-31 > result.md
    python3 bench/past.py --entries 10000 --turns 1 --program out/quick/focusd

A script posts the entries, of four rows each, into a folder in memory (/dev/shm), where there is one. The folder is asked as its log has them, and after a
checkpoint. Each question is a command of its own, which opens the warehouse too. What is reported must be what the script has, to the nano. Processor
time counts. Progress goes to standard error.

Exit status: 0 all answers are right, 1 one isn't, 2 a wrong command line or a machine on which nothing can be measured.
"""
import os
import random
import statistics
import sys
import tempfile

from commands import COSTS, Runs, dicts, expected
from session import built, load, load_since, parser_of_turns, print_head, say, status_after, verdict, whole_number
from store import asked
from withdrawals import room_for

# The goal: a report of the past beside one of today.
MOST_TIMES_TODAY = 2
HEADER = "BilledCost,EffectiveCost,BillingCurrency,ChargeCategory,ChargePeriodStart,ChargePeriodEnd,Tags"
TEAMS = ("web", "data", "platform", "operations", "search")
ROWS, HOURS = 4, 720
# A cent in nanos.
CENT, NEWLINE = 10_000_000, "\n"


def posts(options, sums):
    """The posts of a script. What each team costs is added to `sums`, of all entries and of the first half of them, in cents."""
    chance = random.Random(options.seed)
    for number in range(options.entries):
        hour = number * HOURS // options.entries
        instant = f"2024-09-{1 + hour // 24:02}T{hour % 24:02}"
        names = ("all", "half") if number < options.entries // 2 else ("all",)
        lines = [HEADER]
        for _ in range(ROWS):
            costs, team = [chance.randrange(1, 10_000) for _ in COSTS], chance.choice(TEAMS)
            spelled = ",".join(f"{cost // 100}.{cost % 100:02}" for cost in costs)
            lines.append(f'{spelled},USD,Usage,{instant}:00Z,{instant}:30Z,"{{""team"":""{team}""}}"')
            for name in names:
                of_team = sums[name].setdefault(team, [0] * len(COSTS))
                for at, cost in enumerate(costs):
                    of_team[at] += cost
        yield f"post past {number + 1} {ROWS + 1}\n{NEWLINE.join(lines)}\n".encode()


def run(options):
    program, before = built(options.program), load()
    os.makedirs(options.scratch, exist_ok=True)
    runs, sums = Runs(program, options), {"all": {}, "half": {}}
    questions = {"today": ([], "all"), "as of all entries": (["--as-of", str(options.entries)], "all"), "as of half of them": (["--as-of", str(options.entries // 2)], "half")}
    took, layouts = {}, {"as its log has them": b"", "after a checkpoint": b"checkpoint\n"}
    with tempfile.TemporaryDirectory(prefix="past-", dir=room_for(options)) as room:
        folder, script = os.path.join(room, "costs"), os.path.join(room, "script")
        os.makedirs(folder)
        say(f"making a warehouse of {options.entries:,} posts")
        with open(script, "wb") as file:
            file.writelines(posts(options, sums))
        asked(program, folder, script, "--create")
        for layout, command in layouts.items():
            with open(script, "wb") as file:
                file.write(command)
            asked(program, folder, script)
            for turn in range(options.turns):
                for question, (words, name) in questions.items():
                    report = runs.run(f"{question}, {layout}", "report", "--dir", folder, "--tag", "team", "--month", "2024-09", "--format", "csv", *words)
                    found = {it["Group"]: [expected.nanos(it[cost]) // CENT for cost in COSTS] for it in dicts(report.output)}
                    runs.expect(f"{question} the report has the sums of the script", found == sums[name])
                    took.setdefault((layout, question), []).append(report.processor_seconds)
    print_head(options, load_since(before))
    print(f"\n### A report as of {options.entries:,} entries, {ROWS * options.entries:,} rows\n")
    print(f"| the warehouse | report | processor seconds, {options.turns} turns | medians, beside today's |\n|---|---|---|---:|")
    ratios = []
    for (layout, question), seconds in took.items():
        ratios.append(statistics.median(seconds) / statistics.median(took[layout, "today"]))
        print(f"| {layout} | {question} | {', '.join(f'{it:.2f}' for it in seconds)} | {ratios[-1]:.2f} |")
    print(f"\n- Bar, at most {MOST_TIMES_TODAY} times today's in each row: **{verdict(max(ratios) <= MOST_TIMES_TODAY)}** (at the most {max(ratios):.2f})")
    print(f"- The reports are {'those of the script' if not runs.wrong else '**not right**'}")
    return 1 if runs.wrong else 0


def main():
    parser = parser_of_turns(__doc__, 3, limit=600, what="turns of each question")
    parser.add_argument("--entries", type=whole_number, default=1_000_000, help="how many posts of four rows (default: 1000000)")
    parser.add_argument("--seed", type=int, default=1, help="of the rows (default: 1)")
    return status_after(run, parser.parse_args())


if __name__ == "__main__":
    sys.exit(main())
