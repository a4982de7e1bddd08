#!/usr/bin/env python3
"""Measures what withdrawn posts cost, and prints the result as Markdown.

    python3 bench/withdrawals.py --date 2026-01-31 > result.md

    reports   a report over 1,000,000 rows with 100 posts of 245 rows more that were withdrawn, beside the same rows without these posts: repeated
              reports, and the first report after an entry; without commitments and under 40 of them; with the rows as they were posted, and in the
              long segments that a checkpoint made of them before the posts were withdrawn
    entries   one withdrawal, and one purchase that is added to one of 16 commitments, in a warehouse of 1,000 and of 1,000,000 posts of one row, as
              they were posted and after a checkpoint

Of reports the time of the processor counts: that of a run with many reports less that of a run with 2, by their number. Both warehouses take turns,
and their reports must be equal. An entry is timed by the clock, from the answer to the 101st of 960 or 1,000 to that to the last, each stored and synced
before the next. The folder is in memory (/dev/shm) where there is one, where a sync costs nothing; --on-disk has it in --scratch. Each turn begins
with a new copy of the folder, and sends the same entries. Progress goes to standard error.

Exit status: 0 measured, 1 the program failed or the reports differ, 2 a wrong command line or a machine on which nothing can be measured.
"""
import os
import random
import shutil
import statistics
import sys
import tempfile

from reports import FEW, FIRST_COVERED, HEADER, MANY, MANY_COVERED, MOST_ROWS, POLICY, commitments, instant, row
from session import Stopped, built, load, load_since, measure, parser_of_turns, print_head, say, status_after, verdict, whole_number
from store import asked, small_posts, times_of_answers

PARTS = ["reports", "entries"]
MOST_REPORTS, MOST_ENTRIES = 1.1, 1.3
# How many posts are withdrawn in a turn, and of how many answers no time is taken, while caches are cold.
WITHDRAWN, LEFT_OUT = 1_000, 100
# How many commitments there are, and how many purchases are added to each: with its own it may have 64.
COMMITMENTS, PURCHASES = 16, 60
ENTRIES = ("a withdrawal", "an added purchase")
FEW_ENTRIES = 1_000
LAYOUTS = {"as posted": b"", "after a checkpoint": b"checkpoint\n"}
KINDS = ("repeated", "the first after an entry")


def entry(kind, origin, number, lines):
    """An entry of a script."""
    return f"{kind} {origin} {number} {len(lines)}\n{chr(10).join(lines)}\n".encode()


# ---- reports


class Rows:
    """The commands of a script up to its reports, with posts that are withdrawn among the others or without them."""

    def __init__(self, options, count):
        numbers, own = random.Random(options.seed), random.Random(options.seed + 1)
        terms = [entry(kind, "terms", number, lines) for number, (kind, lines) in enumerate(commitments(count, options.hours, numbers), 1)]
        firsts = range(0, options.rows, MOST_ROWS)
        posts, gone = [], []
        for number, first in enumerate(firsts, 1):
            rows = range(first, min(first + MOST_ROWS, options.rows))
            posts.append(entry("post", "kept", number, [HEADER, *(row(at * options.hours // options.rows, numbers) for at in rows)]))
            # As many of the others by now as there are of these, all in all.
            while len(gone) < options.posts * number // len(firsts):
                hours = [own.choice(rows) * options.hours // options.rows for _ in range(options.each)]
                gone.append(entry("post", "gone", len(gone) + 1, [HEADER, *(row(hour, own) for hour in hours)]))
                posts.append(gone[-1])
        taken = set(gone)
        self.posts = {True: [*terms, *posts], False: [*terms, *(post for post in posts if post not in taken)]}
        self.withdrawals = {True: [f"withdraw gone {options.posts + target} {target}\n".encode() for target in range(1, options.posts + 1)], False: []}

    def write(self, path, has_withdrawn, layout, kind, pairs, options):
        """Writes a script with so many pairs of reports."""
        ask = f"report team {instant(0)} {instant(options.hours)}\n", f"report env {instant(options.hours // 4)} {instant(options.hours // 2)}\n"
        number = 1
        with open(path, "wb") as file:
            file.writelines(self.posts[has_withdrawn])
            file.write(LAYOUTS[layout])
            file.writelines(self.withdrawals[has_withdrawn])
            file.write(entry(POLICY[0], "shares", number, POLICY[1]))
            for report in ask * pairs:
                if kind == KINDS[1]:
                    number += 1
                    file.write(entry(POLICY[0], "shares", number, POLICY[1]))
                file.write(report.encode())


def reports_of(output):
    """What was answered beside `accepted`, whose numbers are others where more entries came before."""
    return b"".join(line for line in output.splitlines(keepends=True) if not line.startswith(b"accepted "))


def many_pairs(count, kind):
    """How many pairs of reports the longer run has."""
    return (MANY_COVERED if count else MANY) if kind == KINDS[0] else FIRST_COVERED


def seconds_a_report(program, scripts, reports, options):
    """The processor seconds of a report, by a run with few and one with many of them, and what was answered to the latter."""
    took = []
    for script in scripts:
        turn = measure([program, "run"], script, options)
        if turn.status != 0:
            raise Stopped(f"focusd failed: {turn.complaint.strip()[-200:] or 'it took too long'}")
        if not turn.is_clocked:
            raise Stopped("the processor time isn't known: Debian's package time isn't installed")
        if b"refused" in turn.output or b"bad command" in turn.output:
            raise Stopped("focusd refused a line of the script")
        took.append(turn.processor_seconds)
    return (took[1] - took[0]) / reports, reports_of(turn.output)


def compare(program, rows, count, layout, kind, options):
    """Measures reports with and without withdrawn posts: a row of the table, the ratio, and whether the reports are equal."""
    many = many_pairs(count, kind)
    seconds, answers = {True: [], False: []}, set()
    with tempfile.TemporaryDirectory(prefix="withdrawals-", dir=options.scratch) as folder:
        scripts = {}
        for has_withdrawn in seconds:
            scripts[has_withdrawn] = [os.path.join(folder, f"{has_withdrawn}-{pairs}") for pairs in (FEW, many)]
            for path, pairs in zip(scripts[has_withdrawn], (FEW, many)):
                rows.write(path, has_withdrawn, layout, kind, pairs, options)
        for turn in range(options.turns):
            for has_withdrawn, both in scripts.items():
                took, answer = seconds_a_report(program, both, 2 * (many - FEW), options)
                seconds[has_withdrawn].append(took)
                answers.add(answer)
                say(f"  turn {turn + 1}, {'with' if has_withdrawn else 'without'}: {took * 1000:.2f} ms a report")
    with_them, without = statistics.median(seconds[True]), statistics.median(seconds[False])
    ratio = with_them / without if without > 0 else float("inf")
    cells = [kind, layout, f"{count}", *(", ".join(f"{it * 1000:.2f}" for it in turns) for turns in seconds.values()), f"{ratio:.3f}"]
    return f"| {' | '.join(cells)} |", ratio, len(answers) == 1


def measure_reports(program, options):
    """The table of reports: whether all are equal."""
    print(f"### Reports over {options.rows:,} rows, and {options.posts} posts of {options.each} rows that were withdrawn\n")
    print(f"| reports | rows | commitments | ms a report with them, {options.turns} turns | without | medians, times |\n|---|---|---|---|---|---|")
    ratios, are_equal = [], True
    for count in options.commitments:
        say(f"making the rows under {count} commitments")
        rows = Rows(options, count)
        for layout in LAYOUTS:
            for kind in KINDS:
                say(f"{kind}, {layout}, {count} commitments")
                line, ratio, is_equal = compare(program, rows, count, layout, kind, options)
                print(line, flush=True)
                ratios.append(ratio)
                are_equal &= is_equal
    print(f"\n- Bar, at most {MOST_REPORTS} times in each row: **{verdict(max(ratios) <= MOST_REPORTS)}** (at the most {max(ratios):.3f})")
    print(f"- The reports are {'the same' if are_equal else '**not the same**'} with and without the withdrawn posts\n")
    return are_equal


# ---- entries


def targets(entries, count):
    """The posts that are withdrawn: spread over all of them, the first and the last one too, in a fixed order that isn't theirs."""
    chosen = [1 + place * (entries - 1) // (count - 1) for place in range(count)]
    random.Random(entries).shuffle(chosen)
    return chosen


def terms():
    """The commitments that purchases are added to."""
    for number in range(1, COMMITMENTS + 1):
        lines = [f'id = "plan-{number}"', 'category = "Usage"', f'start = "{instant(0)}"', "hours = 720", 'capacity = "1"', 'unit = "Hours"', 'skus = ["none"]']
        yield entry("commit", "terms", number, [*lines, f'purchase = [{{ at = "{instant(0)}", billed = "720" }}]'])


def purchases():
    """Purchases that are added to these commitments in turn."""
    for number in range(1, COMMITMENTS * PURCHASES + 1):
        lines = [f'id = "plan-{1 + number % COMMITMENTS}"', f'at = "{instant(number % 720)}"', 'billed = "1.5"']
        yield entry("add", "terms", COMMITMENTS + number, lines)


def withdrawals(entries):
    """Withdrawals of posts of a warehouse of so many."""
    for place, target in enumerate(targets(entries, min(WITHDRAWN, entries)), 1):
        yield f"withdraw small {entries + place} {target}\n".encode()


def seconds_an_entry(program, folder, script):
    """The time between two answers, by the number of answers between them."""
    times = times_of_answers([program, "run", "--dir", folder], script)
    return (times[-1] - times[LEFT_OUT]) / (len(times) - 1 - LEFT_OUT)


def of_warehouse(program, room, entries, options):
    """The seconds of an entry in a warehouse of so many posts, of each turn, by its kind and the layout of the rows."""
    paths = {name: os.path.join(room, name) for name in ("made", "script", "checkpoint", *ENTRIES)}
    copies = options.scratch if options.on_disk else room
    os.makedirs(paths["made"])
    say(f"making a warehouse of {entries:,} posts")
    for name, lines in {"script": [*terms(), *small_posts(1, entries)], "a withdrawal": withdrawals(entries), "an added purchase": purchases()}.items():
        with open(paths[name], "wb") as file:
            file.writelines(lines)
    asked(program, paths["made"], paths["script"], "--create")
    os.remove(paths["script"])
    found = {}
    for layout, command in LAYOUTS.items():
        if command:
            with open(paths["checkpoint"], "wb") as file:
                file.write(command)
            asked(program, paths["made"], paths["checkpoint"])
        for turn in range(options.turns):
            for kind in ENTRIES:
                with tempfile.TemporaryDirectory(prefix="withdrawals-", dir=copies) as copy:
                    shutil.copytree(paths["made"], copy, dirs_exist_ok=True)
                    os.sync()
                    took = seconds_an_entry(program, copy, paths[kind])
                found.setdefault((kind, layout), []).append(took)
                say(f"  {layout}, turn {turn + 1}: {took * 1e6:,.1f} microseconds {kind}")
    shutil.rmtree(paths["made"])
    return found


def room_for(options):
    """Where warehouses are made."""
    return "/dev/shm" if os.access("/dev/shm", os.W_OK) else options.scratch


def measure_entries(program, options):
    """The table of entries."""
    costs = {}
    with tempfile.TemporaryDirectory(prefix="withdrawals-", dir=room_for(options)) as room:
        for entries in (FEW_ENTRIES, options.entries):
            costs[entries] = of_warehouse(program, room, entries, options)
    print(f"### An entry in a small and in a large warehouse, in {'a folder on disk' if options.on_disk else room_for(options)}\n")
    print(f"| entry | rows | posts before | microseconds an entry, {options.turns} turns | the median |\n|---|---|---|---|---|")
    for kind in ENTRIES:
        for layout in LAYOUTS:
            for entries, found in costs.items():
                turns = found[kind, layout]
                print(f"| {kind} | {layout} | {entries:,} | {', '.join(f'{it * 1e6:,.1f}' for it in turns)} | {statistics.median(turns) * 1e6:,.1f} |")
    print()
    for kind in ENTRIES:
        for layout in LAYOUTS:
            ratio = statistics.median(costs[options.entries][kind, layout]) / statistics.median(costs[FEW_ENTRIES][kind, layout])
            print(f"- Bar, {kind}, {layout}, at most {MOST_ENTRIES} times: **{verdict(ratio <= MOST_ENTRIES)}** ({ratio:.2f} times)")
    print()


def run(options):
    os.makedirs(options.scratch, exist_ok=True)
    program = built(options.program)
    before, are_equal = load(), True
    print_head(options)
    print()
    if "reports" in options.only:
        are_equal = measure_reports(program, options)
    if "entries" in options.only:
        measure_entries(program, options)
    print(load_since(before))
    return 0 if are_equal else 1


def main():
    parser = parser_of_turns(__doc__, turns=3, limit=900)
    parser.add_argument("--rows", type=whole_number, default=1_000_000, help="of reports, those of the withdrawn posts aside (default: 1,000,000)")
    parser.add_argument("--hours", type=whole_number, default=720, help="default: 720")
    parser.add_argument("--posts", type=whole_number, default=100, help="how many posts were withdrawn (default: 100)")
    parser.add_argument("--each", type=whole_number, default=245, help="how many rows each of them has (default: 245)")
    parser.add_argument("--commitments", type=int, nargs="+", default=[0, 40], help="default: 0 40")
    parser.add_argument("--entries", type=whole_number, default=1_000_000, help="posts of the large warehouse (default: 1,000,000)")
    parser.add_argument("--on-disk", action="store_true", help="send the entries to a folder in --scratch, where a sync may cost more than all else")
    parser.add_argument("--seed", type=int, default=7, help="default: 7")
    parser.add_argument("--only", nargs="+", choices=PARTS, default=PARTS, metavar="PART", help="the parts that are measured (default: both)")
    return status_after(run, parser.parse_args())


if __name__ == "__main__":
    sys.exit(main())
