#!/usr/bin/env python3
"""Runs the commands for people over an export of 1,000,000 rows, compares what they print with what other programs computed, and says what
each took, as Markdown.

    python3 bench/commands.py --date 2026-01-31 > result.md

The export is imported by one worker and by four, and posted by a script, in turns; the reports of all must be those of examples/expected.py. In the
same turns plain Rust (peers/expert) checks the same rows, keeps them and appends each post to a file that it syncs; an import that is run again,
`check` and `dump` take their turns too. The report by day, the statistics of `check` and the lines are compared with sums that this program makes of
the export by itself, in whole nanos. Then four commitments are posted, and the coverage is compared with sums over the lines. A dump is run into a new
folder, whose dump must have the same bytes. Progress goes to standard error. It takes some minutes, most of them to make the data.

Exit status: 0 all answers are right, 1 one isn't, 2 a wrong command line or a machine on which nothing can be measured.
"""
import collections
import csv
import json
import os
import shutil
import statistics
import sys
import tempfile

from bench import Data
from session import ROOT, RUST, add_export, build_rust, built, load, load_since, measure, parser_of_turns, print_head, say, status_after, verdict
from store import posts_alone, written

sys.path.insert(0, os.path.join(ROOT, "examples"))
import expected  # noqa: E402

# The goals: an import beside the same rows by a script, and its memory beside that of the warehouse alone.
MOST_TIMES_SCRIPT = 1.2
MOST_MEGABYTES = 100
# Each work beside plain Rust that keeps the rows in a synced file: by the processor, or by the clock; at most so many times as long, and better so many.
IMPORT, FOUR, SCRIPT, AGAIN, CHECK, DUMP = "import", "import --workers 4", "the same rows by a script", "import again", "check", "dump"
BESIDE = {IMPORT: ("processor_seconds", 1.3, 1.0), FOUR: ("seconds", 0.6, 0.45), AGAIN: ("processor_seconds", 1.0, 0.6),
          CHECK: ("processor_seconds", 1.0, 0.7), DUMP: ("processor_seconds", 1.3, 1.0)}
MONTH = ("--from", "2024-01-02", "--to", "2024-01-31")
COSTS = ("BilledCost", "EffectiveCost")


class Sums:
    """What this program makes of the export by itself."""

    def __init__(self, export):
        self.rows, self.hours, self.skus = 0, set(), collections.Counter()
        self.total, self.by_day = [0, 0], {}
        with open(export, encoding="utf-8-sig", newline="") as file:
            for row in csv.DictReader(file):
                costs = [expected.nanos(row[it]) for it in COSTS]
                start = row["ChargePeriodStart"]
                team = json.loads(row["Tags"] or "{}").get("team") or ""
                self.rows += 1
                self.hours.add(start[:13])
                self.skus[row["SkuId"]] += row["ChargeCategory"] == "Usage"
                self.add(self.total, costs)
                if "2024-01-02" <= start[:10] < "2024-01-31":
                    self.add(self.by_day.setdefault((start[:10], team), [0, 0]), costs)

    @staticmethod
    def add(sums, costs):
        for at, cost in enumerate(costs):
            sums[at] += cost


class Runs:
    """Runs of the program, what each took, and what was wrong."""

    def __init__(self, program, options):
        self.program, self.options, self.lines, self.wrong = program, options, [], []

    def run(self, name, *words, stdin=os.devnull, shown=True):
        """Runs a command: what it took and printed."""
        turn = measure([self.program, *words], stdin, self.options)
        self.expect(f"{name} ends well", turn.status == 0 or f"status {turn.status}: {turn.complaint.strip()[-300:]}")
        if shown:
            self.lines.append((name, turn))
        say(f"  {name}: {turn.seconds:.2f} s")
        return turn

    def expect(self, what, is_right):
        if is_right is not True:
            self.wrong.append(f"{what}: {is_right or 'no'}")
            say(f"WRONG: {self.wrong[-1]}")

    def table(self):
        yield "| command | s | processor s | peak MB |"
        yield "|---|---:|---:|---:|"
        for name, turn in self.lines:
            clock = f"{turn.processor_seconds:.2f} | {turn.peak / 1e6:.0f}" if turn.is_clocked else " | "
            yield f"| {name} | {turn.seconds:.2f} | {clock} |"

    def print_verdict(self):
        """Prints whether all answers are right, or which are wrong, and returns the exit status."""
        print("\nAll answers are right." if not self.wrong else "\n" + "\n".join(f"- WRONG: {it}" for it in self.wrong))
        return 1 if self.wrong else 0


def dicts(printed):
    return list(csv.DictReader(printed.decode().splitlines()))


def imports(runs, data, posts, folders, peer):
    """The export by import and by script, and other commands over it, in turns beside plain Rust: what each took, by its name."""
    taken, log = collections.defaultdict(list), os.path.join(runs.options.scratch, "commands-peer.log")
    for turn in range(runs.options.turns):
        for folder in (folders["import"], folders["four"], folders["script"]):
            shutil.rmtree(folder, ignore_errors=True)
            os.mkdir(folder)
        named = ("--create", "--origin", "bench", data.export)
        ways = {
            IMPORT: (("import", "--quiet", "--dir", folders["import"], *named), os.devnull),
            FOUR: (("import", "--quiet", "--workers", "4", "--dir", folders["four"], *named), os.devnull),
            SCRIPT: (("run", "--dir", folders["script"], "--create"), posts),
            AGAIN: (("import", "--quiet", "--dir", folders["import"], "--origin", "bench", data.export), os.devnull),
            CHECK: (("check", "--quiet", data.export), os.devnull),
            DUMP: (("dump", "--dir", folders["import"]), os.devnull),
        }
        for name, (words, stdin) in ways.items():
            taken[name].append(runs.run(name, *words, stdin=stdin, shown=turn == 0))
        if peer:
            taken[RUST].append(measure([peer, "--log", log, "--syncs", "1"], data.script, runs.options))
            runs.expect(f"{RUST} ends well", taken[RUST][-1].status == 0)
    runs.expect("an import that is run again imports nothing", taken[AGAIN][0].output.startswith(f"imported 0 rows, {data.rows} were there already".encode()))
    for name in ("import", "four", "script"):
        asked = ("report", "--dir", folders[name], "--tag", "team", *MONTH, "--format", "csv")
        report = runs.run("report --format csv", *asked, shown=name == "import")
        runs.expect(f"the report after {name} is that of expected.py", report.output == data.right_report)
    return taken


def median_of(turns, unit="processor_seconds"):
    return statistics.median(getattr(turn, unit) for turn in turns)


def beside_plain_rust(taken):
    """The lines of a table of each work beside plain Rust."""
    yield "| beside plain Rust that keeps the rows in a synced file | s | plain Rust, s | times | at most | better |"
    yield "|---|---:|---:|---:|---|---|"
    for name, (unit, most, better) in BESIDE.items():
        own, other = median_of(taken[name], unit), median_of(taken[RUST], unit)
        by = ", by the clock" if unit == "seconds" else ""
        yield f"| {name}{by} | {own:.2f} | {other:.2f} | {own / other:.2f} | {most}: {verdict(own <= most * other)} | {better}: {verdict(own <= better * other)} |"


def with_costs(sums):
    """The groups whose costs aren't all zero."""
    return {group: costs for group, costs in sums.items() if any(costs)}


def questions(runs, data, sums, folder):
    """The commands that ask a warehouse without commitments, and `check`."""
    found = dicts(runs.run("report --by day", "report", "--dir", folder, "--tag", "team", *MONTH, "--by", "day", "--format", "csv").output)
    by_day = {(it["From"][:10], it["Group"]): [expected.nanos(it[cost]) for cost in COSTS] for it in found}
    runs.expect("the report by day has the sums of the export", with_costs(by_day) == with_costs(sums.by_day))
    lines = dicts(runs.run("lines", "lines", "--dir", folder, *MONTH).output)
    totals = [sum(expected.nanos(it[cost]) for it in lines) for cost in COSTS]
    runs.expect("the lines sum to the rows of the range", totals == [sum(costs[at] for costs in sums.by_day.values()) for at in (0, 1)])
    for form in ("table", "json", "html"):
        runs.run(f"report --format {form}", "report", "--dir", folder, "--tag", "team", *MONTH, "--by", "day", "--format", form)
    checked = json.loads(runs.run("check --format json", "check", "--format", "json", data.export).output)
    runs.expect("check counts the rows and finds no fault", (checked["records"], checked["faults"]) == (sums.rows, 0))
    status = runs.run("status", "status", "--dir", folder)
    runs.expect("status counts the rows", ["Rows", f"{sums.rows:,}"] in [it.split()[:2] for it in status.output.decode().splitlines()])
    runs.expect("verify finds the files whole", runs.run("verify", "verify", "--dir", folder).output.startswith(b"sound\n"))
    return status


def coverage(runs, sums, folder, scratch):
    """Four commitments over the SKUs that most rows have: the coverage beside sums over the lines."""
    skus = [sku for sku, _ in sums.skus.most_common(4)]
    script = b""
    for number, sku in enumerate(skus, 1):
        named = json.dumps(sku)
        lines = [f'id = "plan-{number}"', 'start = "2024-01-01T00:00Z"', "hours = 700"]
        if number % 2:
            lines += ['category = "Usage"', 'unit = "Hours"', 'capacity = "40"', f"skus = [{named}]"]
        else:
            lines += ['category = "Spend"', 'capacity = "3"', f"rates = {{ {named} = 700000 }}"]
        lines += [f'purchase = [{{ at = "2024-01-01T00:00Z", billed = "{number}234.567890123" }}]']
        script += f"commit plans {number} {len(lines)}\n".encode() + "\n".join(lines).encode() + b"\n"
    path = written(os.path.join(scratch, "commands-commitments.script"), [script])
    posted = runs.run("four commitments", "run", "--dir", folder, stdin=path, shown=False)
    runs.expect("the commitments are taken", posted.output.count(b"accepted ") == 4 or posted.output)
    found = dicts(runs.run("coverage", "coverage", "--dir", folder, *MONTH, "--format", "csv").output)
    lines = dicts(runs.run("lines under commitments", "lines", "--dir", folder, *MONTH).output)
    runs.expect("each commitment has its coverage", [it["CommitmentDiscountId"] for it in found] == [f"plan-{it}" for it in (1, 2, 3, 4)])
    for line in found:
        own = [it for it in lines if it["CommitmentDiscountId"] == line["CommitmentDiscountId"]]
        for column, status in (("UsedCost", "Used"), ("UnusedCost", "Unused")):
            total = sum(expected.nanos(it["EffectiveCost"]) for it in own if it["CommitmentDiscountStatus"] == status)
            runs.expect(f"{column} of {line['CommitmentDiscountId']} is the sum of its lines", total == expected.nanos(line[column]))


def dumps(runs, folders, scratch):
    """A dump, run into a new folder, and the dump of that."""
    scripts = []
    for name in ("import", "copy"):
        dump = runs.run("dump", "dump", "--dir", folders[name], shown=name == "import")
        scripts.append(dump.output)
        if name == "import":
            path = written(os.path.join(scratch, "commands-dump.script"), [dump.output])
            os.mkdir(folders["copy"])
            runs.run("a dump that is run", "run", "--dir", folders["copy"], "--create", stdin=path)
    runs.expect("the dump of the copy has the same bytes", scripts[0] == scripts[1])
    asked = ("--tag", "team", *MONTH, "--format", "csv")
    reports = [runs.run("report", "report", "--dir", folders[it], *asked, shown=False).output for it in ("import", "copy")]
    runs.expect("both report the same", reports[0] == reports[1])


def run(options):
    os.makedirs(options.scratch, exist_ok=True)
    program = built(options.program)
    data, before = Data(options), load()
    posts = written(os.path.join(options.scratch, os.path.basename(data.script) + ".posts"), posts_alone(data.script))
    notes = []
    peer = build_rust(options, notes)
    say("summing the export")
    sums, runs = Sums(data.export), Runs(program, options)
    with tempfile.TemporaryDirectory(dir=options.scratch) as room:
        folders = {it: os.path.join(room, it) for it in ("import", "four", "script", "copy")}
        taken = imports(runs, data, posts, folders, peer)
        status = questions(runs, data, sums, folders["import"])
        coverage(runs, sums, folders["import"], room)
        dumps(runs, folders, room)
    print_head(options)
    print(f"{load_since(before)}\n")
    print("\n".join(runs.table()))
    print("\n" + "\n".join(beside_plain_rust(taken) if peer else notes))
    own, other = median_of(taken[IMPORT]), median_of(taken[SCRIPT])
    print(f"\nImport beside the same rows by a script, processor time, the median of {options.turns} turns: {own:.2f} and {other:.2f} s.")
    print(f"Goal, at most {MOST_TIMES_SCRIPT} times: **{verdict(own <= MOST_TIMES_SCRIPT * other)}** ({own / other:.2f} times)")
    room = (max(it.peak for name, it in runs.lines if name == "import") - status.peak) / 1e6
    print(f"\nPeak memory of an import above that of `status`, which opens the same warehouse: {room:.0f} MB.")
    print(f"Goal, below {MOST_MEGABYTES} MB: **{verdict(room < MOST_MEGABYTES)}**")
    return runs.print_verdict()


def main():
    parser = parser_of_turns(__doc__, turns=3, limit=600, what="how often each import is measured")
    add_export(parser)
    parser.set_defaults(narrow=False)
    return status_after(run, parser.parse_args())


if __name__ == "__main__":
    sys.exit(main())
