#!/usr/bin/env python3
"""Measures how the time of a report grows, and prints the result as Markdown.

    python3 bench/growth.py --date 2026-01-31 > result.md

Each figure is a difference of whole runs of focusd, so that reading is left out: the first report of a run, and one of so many more, which find what
the first one has kept: 200 without commitments, 40 under some, and less where each takes long. The cases:

1. A report over 1,000,000 rows and no commitment, beside one pass of a plain C loop over the four columns that it needs.
2. More rows an hour, more commitments, more hours, from one line to the next.
3. The same rows in more hours: 720, 7,200 and 26,304, the most that a report takes, without commitments and under 256, the most that there can be.
4. More groups: 10 to 100,000 values of the tag that is asked for; and 100,000 of them over fewer and over more rows.
5. More SKUs for each commitment: 1 to 256.
6. Rows that nothing has in common: each with a tags text of its own, each with a SKU of its own, all of them in one hour. Each case at 100,000 rows
   and at 400,000.

A pair is a row and a commitment that may cover it: one of its SKUs, in its hour. Times are given beside rows and pairs together, as a report may take
time as these times a logarithm. Needs a C compiler (cc) for the first case. Progress goes to standard error.
Exit status: 0 measured, 1 a program failed, 2 a wrong command line.
"""
import datetime
import functools
import os
import random
import shutil
import subprocess
import sys
import tempfile

from session import ROOT, add_program, parser_of, say

sys.path.insert(0, os.path.join(ROOT, "tools"))
from meter import processor  # noqa: E402

START = datetime.datetime(2024, 1, 1)
HEADER = ("BilledCost,EffectiveCost,BillingCurrency,ChargeCategory,ChargePeriodStart,ChargePeriodEnd,"
          "ConsumedQuantity,ConsumedUnit,SkuId,Tags")
MOST_ROWS = 4096
# How many reports behind the first: more where each takes a few milliseconds alone, less where each takes long.
COVERED, UNCOVERED, LONG = 40, 200, 10
# From so many groups on each has its rows in turn and not by chance, so that none is missing.
MANY_GROUPS, GROUP_STEP = 10_000, 7_919

PASS = r"""
#include <stdint.h>
#include <stdio.h>
#include <stdlib.h>
#include <time.h>
int main(int argc, char **argv) {
    long rows = atol(argv[1]), turns = 50;
    int32_t *hour = malloc(rows * 4); uint32_t *team = malloc(rows * 4);
    int64_t *billed = malloc(rows * 8), *effective = malloc(rows * 8);
    for (long i = 0; i < rows; i++) { hour[i] = i % 744; team[i] = i * 2654435761u % 12; billed[i] = i; effective[i] = i * 3; }
    double best = 1e9; volatile int64_t seen = 0;
    for (long turn = 0; turn < turns; turn++) {
        struct timespec a, b; clock_gettime(CLOCK_MONOTONIC, &a);
        __int128 sums[12][2] = {{0}};
        for (long i = 0; i < rows; i++) if (hour[i] >= 24 && hour[i] < 720 + (int)(turn & 1)) { sums[team[i]][0] += billed[i]; sums[team[i]][1] += effective[i]; }
        for (int g = 0; g < 12; g++) seen += (int64_t)(sums[g][0] + sums[g][1]);
        clock_gettime(CLOCK_MONOTONIC, &b);
        double took = (b.tv_sec - a.tv_sec) + (b.tv_nsec - a.tv_nsec) / 1e9;
        if (took < best) best = took;
    }
    printf("%.6f\n", best); return 0;
}
"""


@functools.cache
def stamp(hour):
    return (START + datetime.timedelta(hours=hour)).strftime("%Y-%m-%dT%H:%M")


class Case:
    """Rows of some hours under some commitments, and what is asked of them."""

    def __init__(self, name, rows, hours, commitments=0, groups=12, skus=8, skus_each=2, own_texts=False, more=None):
        self.name, self.rows, self.hours = name, rows, hours
        self.commitments, self.groups, self.skus, self.skus_each = commitments, groups, skus, skus_each
        self.own_texts = own_texts
        # how many reports are asked for behind the first
        self.more = more or (COVERED if commitments else UNCOVERED)
        # how many commitments name each SKU
        self.names = [0] * skus
        for number in range(commitments):
            for sku in self.skus_of(number):
                self.names[sku] += 1
        self.pairs = 0

    def skus_of(self, number):
        """The SKUs of a commitment."""
        return sorted({(number * 5 + 3 * at) % self.skus for at in range(self.skus_each)})

    def record(self, numbers, place):
        hour = place * self.hours // self.rows
        cost = f"{numbers.randrange(1, 10**9) / 10**9:.9f}"
        need = f"{numbers.randrange(1, 4000) / 1000:.3f}"
        sku = place % self.skus if self.skus == self.rows else numbers.randrange(self.skus)
        self.pairs += self.names[sku]
        own = f',""row"":""{place}""' if self.own_texts else ""
        group = place * GROUP_STEP % self.groups if self.groups >= MANY_GROUPS else numbers.randrange(self.groups)
        tags = f'"{{""team"":""team-{group}""{own}}}"'
        return f"{cost},{cost},USD,Usage,{stamp(hour)}:00Z,{stamp(hour + 1)}:00Z,{need},Hours,vm-{sku},{tags}"

    def posts(self, seed=7):
        numbers = random.Random(seed)
        self.pairs = 0
        for number, at in enumerate(range(0, self.rows, MOST_ROWS), 1):
            records = [self.record(numbers, place) for place in range(at, min(at + MOST_ROWS, self.rows))]
            yield f"post billing {number} {len(records) + 1}\n{HEADER}\n" + "\n".join(records) + "\n"

    def contracts(self):
        """Commitments over all the hours, whose capacity ends within the rows of an hour."""
        for number in range(self.commitments):
            usage = number % 2 == 0
            skus = [f'"vm-{sku}"' for sku in self.skus_of(number)]
            text = [f'id = "cd-{number:03}"', f'category = "{"Usage" if usage else "Spend"}"', f'start = "{stamp(0)}Z"', f"hours = {self.hours}"]
            if usage:
                text += ['capacity = "40"', 'unit = "Hours"', f'skus = [{", ".join(skus)}]']
            else:
                text += ['capacity = "8"', f'rates = {{ {", ".join(f"{sku} = {700000 + number}" for sku in skus)} }}']
            text += ["[tags]", 'team = "platform"', "[[purchase]]", f'at = "{stamp(0)}Z"', f'billed = "{self.hours * 7}.123456789"']
            yield f"commit contracts {number + 1} {len(text)}\n" + "\n".join(text) + "\n"

    def report(self):
        return f"report team {stamp(0)}Z {stamp(self.hours)}Z\n"


def seconds(program, pieces, scratch, turns):
    """The least processor seconds of a run over a script."""
    path = os.path.join(scratch, "script")
    with open(path, "w") as file:
        file.writelines(pieces)
    best = None
    for _ in range(turns):
        with open(path) as script:
            begin = processor()
            answer = subprocess.run([program, "run"], stdin=script, stdout=subprocess.PIPE, check=True).stdout
            took = processor() - begin
        best = took if best is None else min(best, took)
    if b"refused" in answer or b"bad command" in answer:
        raise ValueError("focusd refused a line of the script")
    return best


def of_reports(program, entries, report, count, scratch, turns):
    """The seconds of a first report, and of one of so many more."""
    without = seconds(program, entries, scratch, turns)
    first = seconds(program, entries + [report], scratch, turns)
    more = seconds(program, entries + [report] * (count + 1), scratch, turns)
    return first - without, (more - first) / count


def plain_pass(rows, scratch):
    source, binary = os.path.join(scratch, "pass.c"), os.path.join(scratch, "pass")
    with open(source, "w") as file:
        file.write(PASS)
    subprocess.run(["cc", "-O2", "-o", binary, source], check=True)
    return float(subprocess.run([binary, str(rows)], stdout=subprocess.PIPE, check=True).stdout)


def rows_that(what, hours=200, own=(), **fields):
    """Two cases of rows that are hard to sum, few and many; `own` names what there is as many of as rows."""
    for rows in (100_000, 400_000):
        yield Case(what, rows, hours, 16, **{name: rows for name in own}, **fields)


TABLES = [
    (
        "rows an hour, commitments, hours",
        [
            Case(f"{rows}, {count}, {hours}", rows * hours, hours, count)
            for rows, count, hours in ((250, 5, 186), (500, 5, 186), (1000, 5, 186), (1000, 10, 186), (1000, 20, 186), (1000, 20, 372), (1000, 20, 744))
        ],
    ),
    (
        "commitments, hours over the same rows",
        [Case(f"{count}, {hours:,}", 400_000, hours, count, more=LONG if count else None) for count in (0, 256) for hours in (720, 7_200, 26_304)],
    ),
    (
        "groups",
        [Case(f"{groups:,}", 400_000, 400, groups=groups, more=LONG if groups >= MANY_GROUPS else None) for groups in (10, 100, 1_000, 10_000, 100_000)]
        + [Case("100,000", rows, 400, groups=100_000, more=LONG) for rows in (200_000, 800_000)],
    ),
    ("SKUs for each of 16 commitments", [Case(f"{each}", 200_000, 200, 16, skus=1_024, skus_each=each) for each in (1, 4, 16, 64, 256)]),
    (
        "rows that",
        [
            *rows_that("have 8 SKUs and 12 tags texts, in 200 hours"),
            *rows_that("have each a tags text of its own", own_texts=True),
            *rows_that("have each a SKU of its own", own=["skus"]),
            *rows_that("are all in one hour", hours=1),
            *rows_that("are all in one hour, each with a SKU, a tags text and a group of its own", hours=1, own=["skus", "groups"], own_texts=True, more=LONG),
        ],
    ),
]


def main():
    parser = parser_of(__doc__)
    parser.add_argument("--date", default="undated", help="the date that the result carries")
    add_program(parser)
    parser.add_argument("--turns", type=int, default=3, help="runs of each script, of which the least counts (default: 3)")
    options = parser.parse_args()
    if not os.path.exists(options.program):
        say(f"{options.program} is missing; build it by examples/run --proved")
        return 2
    scratch = tempfile.mkdtemp(prefix="growth-")
    try:
        print(f"Date: {options.date}; load of the machine before: {os.getloadavg()[0]:.1f}\n")
        say("a report over 1,000,000 rows")
        case = Case("", 1_000_000, 1000)
        report = f"report team {stamp(24)}Z {stamp(720)}Z\n"
        first, more = of_reports(options.program, list(case.posts()), report, UNCOVERED, scratch, options.turns)
        print("| a report over 1,000,000 rows in memory | seconds |\n|---|---|")
        print(f"| focusd, the first | {first:.4f} |\n| focusd, one of {UNCOVERED} more | {more:.4f} |")
        if shutil.which("cc"):
            plain = plain_pass(1_000_000, scratch)
            print(f"| one pass of a C loop over four columns | {plain:.4f} |")
            print(f"| times, one of {UNCOVERED} more | {more / plain:.1f} |")
        for title, cases in TABLES:
            print(f"\n| {title} | rows | pairs | the first report, s | one more, s | ns a row and pair, first | one more |\n|---|---:|---:|---:|---:|---:|---:|")
            for case in cases:
                say(f"{title}: {case.name}")
                entries = list(case.contracts()) + list(case.posts())
                first, more = of_reports(options.program, entries, case.report(), case.more, scratch, options.turns)
                size = case.rows + case.pairs
                print(f"| {case.name} | {case.rows:,} | {case.pairs:,} | {first:.3f} | {more:.4f} | {first / size * 1e9:.0f} | {more / size * 1e9:.0f} |", flush=True)
    finally:
        shutil.rmtree(scratch)
    return 0


if __name__ == "__main__":
    sys.exit(main())
