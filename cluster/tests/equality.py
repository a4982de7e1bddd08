#!/usr/bin/python3
"""Compares clusters with one warehouse, and with plain sums, to the byte. Each part takes minutes: run it by hand.

    python3 -B cluster/tests/equality.py out/focusd
    python3 -B cluster/tests/equality.py out/focusd --rows 100000 --local 2 --only shards

1. `shards`: a month of 744 hours with 40 commitments and a policy, in 1, 7, 31 and 744 shards. Reports over the month, by day and by month, and
   over other hours, and the coverage, beside one warehouse that holds all.
2. `hour`: one hour of 300,000 rows with 300 commitments, more than a warehouse takes, in 5 piles. The report is compared with sums that
   examples/expected.py makes of the lines of the hour, without focusd.

It needs python3-distributed. Exit status: 0 all bytes are the same, 1 some aren't.
"""

import contextlib
import csv
import datetime
import io
import os
import sys
import tempfile
import time
import tomllib

from bills import POLICY, TOP, one_warehouse, printed, sku_sets, write_export, write_terms, write_text

sys.path.append(os.path.join(TOP, "bench"))
import expected  # noqa: E402
import growth  # noqa: E402
from command_line import parser_of, say, whole_number  # noqa: E402
from focusd_cluster.command_line import main as run_command  # noqa: E402
from focusd_cluster.engine import engine_of  # noqa: E402

MONTH = datetime.datetime(2024, 10, 1)
HOURS = 744
MONTH_RANGE = ["--from", "2024-10", "--to", "2024-11"]
SHAPES = {"1": ("--by", "month"), "7": ("--by", "month", "--into", "7"), "31": ("--by", "day"), "744": ("--by", "hour")}


class Clusters:
    """Commands over clusters, what they print, and what was wrong."""

    def __init__(self, options, scheduler):
        self.program, self.scheduler, self.wrong, self.same = os.path.abspath(options.program), scheduler, [], 0

    def run(self, folder, *words):
        """What a command prints that ends well, and its seconds."""
        out = io.TextIOWrapper(io.BytesIO(), write_through=True)
        started = time.monotonic()
        with contextlib.redirect_stdout(out):
            status = run_command([words[0], "--dir", folder, "--scheduler", self.scheduler, "--program", self.program, "--quiet", *words[1:]])
        if status:
            sys.exit(f"{' '.join(words)} ended with status {status}")
        return out.buffer.getvalue(), time.monotonic() - started

    def compare(self, what, found, wanted):
        """Counts an answer that is right, and keeps the name of one that isn't."""
        self.same += found == wanted
        if found != wanted:
            self.wrong.append(what)
            say(f"WRONG: {what}")


def shards(clusters, room, rows):
    """The same month in 1, 7, 31 and 744 shards."""
    export = write_export(f"{room}/month.csv", rows, HOURS, MONTH)
    terms = write_terms(f"{room}/terms", 40, sku_sets(rows, HOURS, MONTH), HOURS, MONTH)
    terms.append(write_text(f"{room}/policy.toml", POLICY))
    whole = one_warehouse(clusters.program, f"{room}/whole", [export], terms)
    asked = [["report", "--tag", "team", *MONTH_RANGE, *more] for more in ([], ["--format", "csv"], *(["--by", by, "--format", "json"] for by in ("day", "month")))]
    asked += [["coverage", *MONTH_RANGE, *more] for more in ([], ["--format", "csv"])]
    asked += [["report", "--tag", "team", "--from", "2024-09-20", "--to", "2024-10-12T07:00Z", "--format", "json"]]
    wanted = [printed(clusters.program, words[0], "--dir", whole, *words[1:]) for words in asked]
    print(f"{rows:,} rows, 40 commitments, {len(asked)} answers each\n\n| shards | import, s | a report, s | answers that are the same |\n|---:|---:|---:|---:|")
    for name, shape in SHAPES.items():
        folder, before = f"{room}/{name}", clusters.same
        clusters.run(folder, "add", "--create", *shape, *terms)
        took = clusters.run(folder, "import", "--origin", "month", export)[1]
        found = len(os.listdir(f"{folder}/shards")) - len([it for it in os.listdir(f"{folder}/shards") if it.startswith("rest")])
        seconds = []
        for words, right in zip(asked, wanted):
            answer, second = clusters.run(folder, *words)
            seconds.append(second)
            clusters.compare(f"{name} shards: {' '.join(words)}", answer, right)
        clusters.compare(f"{name} shards are {found}", str(found), name)
        print(f"| {found} | {took:.1f} | {seconds[0]:.2f} | {clusters.same - before - 1} |", flush=True)


def hour(clusters, room, rows, commitments, piles):
    """One hour that one warehouse can't hold, in piles."""
    case = growth.Case("", rows, 1, skus=100)
    numbers, export = growth.random.Random(5), f"{room}/hour.csv"
    with open(export, "w", encoding="utf-8") as file:
        file.write(growth.HEADER + "\n")
        file.writelines(case.record(numbers, place) + "\n" for place in range(rows))
    sets = [("Hours", [f"vm-{place}", f"vm-{place + 1}"]) for place in range(0, 100, 2)]
    terms = write_terms(f"{room}/hour", commitments, sets, 1, growth.START)
    policy = write_text(f"{room}/hour.toml", POLICY)
    folder = f"{room}/piles"
    clusters.run(folder, "add", "--create", "--by", "hour", "--into", str(piles), *terms, policy)
    clusters.run(folder, "import", "--origin", "hour", export)
    low, high = (growth.START.strftime("%Y-%m-%dT%H:00Z"), (growth.START + datetime.timedelta(hours=1)).strftime("%Y-%m-%dT%H:00Z"))
    answer, took = clusters.run(folder, "report", "--tag", "team", "--from", low, "--to", high, "--format", "csv")
    say("plain sums")
    kept = expected.Warehouse()
    kept.policy = tomllib.loads(POLICY)
    kept.commitments = [expected.Commitment(tomllib.loads(open(path, encoding="utf-8").read()), kept.times) for path in terms]
    first = kept.times.hour(low)
    with open(export, encoding="utf-8", newline="") as file:
        empty = dict.fromkeys(expected.OPTIONAL, "")
        kept.rows[first] = [expected.Row({**empty, **record}, kept.times, "USD") for record in csv.DictReader(file)]
    lines = list(expected.lines_of_hour(kept.commitments, kept.rows[first], first))
    right = kept.report_of("team", lines).split("\n", 1)[1].encode()
    clusters.compare("the hour in piles", answer, right)
    purchases = sum(line.category == "Purchase" for line in lines)
    unused = sum(line.owner[2] == "Unused" for line in lines)
    print(f"\none hour of {rows:,} rows with {commitments} commitments in {piles} piles: {len(lines):,} lines, {purchases} of purchases, {unused} unused; ")
    print(f"a report in {took:.1f} s: {'the same' if answer == right else 'ANOTHER'}", flush=True)


def main():
    parser = parser_of(__doc__)
    parser.add_argument("program", metavar="PROGRAM", help="the built program")
    parser.add_argument("--local", type=whole_number, default=4, metavar="N", help="how many workers (default: 4)")
    parser.add_argument("--rows", type=whole_number, default=1_000_000, help="the rows of the month (default: 1,000,000)")
    parser.add_argument("--hour-rows", type=whole_number, default=300_000, help="the rows of the hour (default: 300,000)")
    parser.add_argument("--only", choices=["shards", "hour"], help="one part alone")
    options = parser.parse_args()
    with tempfile.TemporaryDirectory(prefix="equality-") as room, engine_of(None, options.local) as engine:
        clusters = Clusters(options, engine.client.scheduler.address)
        if options.only != "hour":
            shards(clusters, room, options.rows)
        if options.only != "shards":
            hour(clusters, room, options.hour_rows, 300, 5)
    print(f"{clusters.same} answers are the same, {len(clusters.wrong)} aren't")
    return 1 if clusters.wrong else 0


if __name__ == "__main__":
    sys.exit(main())
