#!/usr/bin/env python3
"""Measures focusd and its peers on one job, all in one run, and prints the result as Markdown.

    python3 bench/bench.py --date 2026-01-31 > result.md

The job: an export of 1,000,000 rows is posted in pieces of 4,096 rows and kept
in memory, and then one report is asked for. The programs take turns, the best
turn of each counts, and each answer is compared byte for byte with the one that
examples/expected.py computes. What is missing on the machine is named and left
out. Progress goes to standard error.

Exit status: 0 measured, 1 a program failed or gave a wrong answer, 2 a wrong
command line or a machine on which nothing can be measured.
"""
import csv
import hashlib
import os
import shutil
import statistics
import subprocess
import sys

from session import FOCUSD, PEERS, ROOT, RUST, Stopped, Turns, build_rust, in_turns, load, load_since, measure, parser_of_turns, print_head
from session import say, status_after, verdict, whole_number

MAKE_EXPORT = os.path.join(ROOT, "examples", "make_export.py")
EXPECTED = os.path.join(ROOT, "examples", "expected.py")
SPLIT_EXPORT = os.path.join(ROOT, "tools", "split_export.py")
HOURS = 744
START, LOW, HIGH = "2024-01-01T00:00", "2024-01-02T00:00Z", "2024-01-31T00:00Z"
GOAL_TIMES, BAR_TIMES = 1.0, 1.3
GOAL_BYTES, BAR_BYTES = 100, 140
GOAL_WALL = 0.45


class Data:
    """The export, its script and the right answers, made once for each size and form."""

    def __init__(self, options):
        self.rows = options.rows
        form = "narrow" if options.narrow else "medium"
        known = hashlib.sha256()
        for path in (MAKE_EXPORT, SPLIT_EXPORT, EXPECTED):
            with open(path, "rb") as file:
                known.update(file.read())
        base = os.path.join(options.scratch, f"{form}-{options.rows}-{options.seed}-{known.hexdigest()[:8]}")
        self.export, self.script, self.answers = f"{base}.csv", f"{base}.script", f"{base}.answers"
        words = ["--rows", str(options.rows), "--hours", str(HOURS), "--seed", str(options.seed), "--start", START]
        words += ["--form", form, "--quotes", "needed", "--no-mark"]
        make(self.export, [sys.executable, MAKE_EXPORT, *words])
        report = ["--report", "team", LOW, HIGH]
        make(self.script, [sys.executable, SPLIT_EXPORT, self.export, "--origin", "bench", *report])
        make(self.answers, [sys.executable, EXPECTED, self.script])
        self.script_bytes = os.path.getsize(self.script)
        with open(self.answers, "rb") as file:
            self.right_answers = file.read()
        self.right_report = self.right_answers[self.right_answers.index(b"Group,") :]


def make(path, command):
    """Writes what a command prints to a file, where it isn't there yet."""
    if os.path.exists(path):
        return
    say(f"making {os.path.basename(path)}")
    with open(path + ".part", "wb") as file:
        if subprocess.run(command, stdout=file).returncode:
            raise Stopped(f"{os.path.basename(command[1])} failed, as its line above says")
    os.replace(path + ".part", path)


class Program(Turns):
    """One way to do the job, and its turns so far."""

    def __init__(self, name, command, data, reads_script=False, is_exact=True):
        super().__init__(name)
        self.command, self.data, self.off = command, data, 0
        self.reads_script, self.is_exact = reads_script, is_exact

    def take_turn(self, options):
        if not self.fault:
            self.keep(measure(self.command, self.data.script if self.reads_script else os.devnull, options), options)

    def judge(self, output):
        """What is wrong with an answer, if anything."""
        right = self.data.right_answers if self.reads_script else self.data.right_report
        if output == right:
            return None
        if self.is_exact:
            return "gave a wrong answer: " + first_difference(output, right)
        try:
            self.off = max(abs(given - wanted) for given, wanted in zip(amounts(output), amounts(right)))
        except (IndexError, ValueError):
            return "gave no report"
        return None

    @property
    def processor_seconds(self):
        """The least of all turns, None where it can't be measured."""
        return min((turn.processor_seconds for turn in self.turns if turn.is_clocked), default=None)

    @property
    def middle(self):
        """The median of all turns by the clock."""
        return statistics.median(turn.seconds for turn in self.turns)

    @property
    def processor_middle(self):
        """The median of all turns, where it can be measured."""
        return statistics.median(turn.processor_seconds for turn in self.turns if turn.is_clocked)

    @property
    def peak(self):
        """The greatest peak in bytes of all turns, None where it can't be measured."""
        return max((turn.peak for turn in self.turns if turn.is_clocked), default=None)

    @property
    def bytes_a_row(self):
        """Peak memory a row. focusd reads its whole script first, so the script's size is taken off."""
        if self.peak is None:
            return None
        return (self.peak - (self.data.script_bytes if self.name.startswith(FOCUSD) else 0)) / self.data.rows


def first_difference(output, right):
    for number, (given, wanted) in enumerate(zip(output.split(b"\n"), right.split(b"\n")), 1):
        if given != wanted:
            return f"line {number} is {given[:80]!r} and not {wanted[:80]!r}"
    return f"{len(output)} bytes and not {len(right)}"


def amounts(report):
    """The nanos of a report's records, one after the other."""
    records = list(csv.reader(report.decode().splitlines()))[1:]
    if not records:
        raise ValueError("no record")
    return [int(amount.replace(".", "")) for record in records for amount in record[1:]]


def programs_of(data, options, notes):
    """What can be measured here, focusd first."""
    programs = []
    if os.access(options.program, os.X_OK) and os.path.isfile(options.program):
        programs.append(Program(FOCUSD, [os.path.abspath(options.program), "run"], data, reads_script=True))
        for count in options.workers:
            command = [os.path.abspath(options.program), "run", "--workers", str(count)]
            programs.append(Program(f"{FOCUSD} --workers {count}", command, data, reads_script=True))
    else:
        notes.append(f"{FOCUSD}: {os.path.relpath(options.program)} isn't there: build it by `examples/run --proved`")
    rust = build_rust(options, notes)
    if rust:
        programs.append(Program(RUST, [rust], data, reads_script=True))
    if options.fast:
        return programs
    python = [sys.executable, os.path.join(PEERS, "python_peer.py")]
    sqlite = ["sh", os.path.join(PEERS, "sqlite.sh")]
    span = [data.export, LOW, HIGH]
    has_sqlite = shutil.which("sqlite3")
    if not has_sqlite:
        notes.append("SQLite: there is no sqlite3")
    for how, is_exact in [("exact", True), ("float", False)]:
        if has_sqlite:
            programs.append(Program(f"SQLite, {how}", [*sqlite, how, *span], data, is_exact=is_exact))
        programs.append(Program(f"Python, {how}", [*python, how, *span], data, is_exact=is_exact))
    return programs


def table(programs, data):
    """The lines of the table, the ratios over the plain Rust program."""
    rust = next((it.seconds for it in programs if it.name == RUST and it.turns), None)
    columns = ["program", "best s", "worst s", "processor s", "rows/s", "MB/s", "peak MB", "bytes a row"]
    columns += ["times plain Rust", "answer"]
    yield "| " + " | ".join(columns) + " |"
    yield "|" + "---|" * len(columns)
    for program in programs:
        if not program.turns:
            yield f"| {program.name} | | | | | | | | | {program.fault} |"
            continue
        seconds = program.seconds
        processor = "" if program.processor_seconds is None else f"{program.processor_seconds:.2f}"
        peak = "" if program.peak is None else f"{program.peak / 1e6:.0f}"
        per_row = "" if program.bytes_a_row is None else f"{program.bytes_a_row:.0f}"
        ratio = f"{seconds / rust:.2f}" if rust else ""
        answer = program.fault or (f"differs by {program.off:,} nanos" if program.off else "exact")
        times = f"{seconds:.3f} | {max(turn.seconds for turn in program.turns):.3f} | {processor}"
        speeds = f"{data.rows / seconds:,.0f} | {data.script_bytes / 1e6 / seconds:.1f}"
        yield f"| {program.name} | {times} | {speeds} | {peak} | {per_row} | {ratio} | {answer} |"


def goals(programs):
    """Whether focusd meets what it is to meet, in one line for each goal and the bar beside it."""
    done = {it.name: it for it in programs if it.turns and not it.fault}
    focusd, rust = done.get(FOCUSD), done.get(RUST)
    if focusd and rust and focusd.processor_seconds and rust.processor_seconds:
        what, ratio = "Processor time, times the plain Rust program", focusd.processor_seconds / rust.processor_seconds
        yield judged(what, ratio, GOAL_TIMES, BAR_TIMES, "")
        yield judged(f"{what}, by medians", focusd.processor_middle / rust.processor_middle, GOAL_TIMES, BAR_TIMES, "")
    if focusd and focusd.bytes_a_row is not None:
        yield judged("Memory, bytes a row kept, the script aside", focusd.bytes_a_row, GOAL_BYTES, BAR_BYTES, "")
    for name, program in done.items():
        if rust and name.startswith(f"{FOCUSD} --workers"):
            what, note = f"{name}, by the clock, times the plain Rust program", f" (the goal is for four workers on four processors; here are {os.cpu_count()})"
            yield judged(what, program.seconds / rust.seconds, GOAL_WALL, None, note)
            yield judged(f"{what}, by medians", program.middle / rust.middle, GOAL_WALL, None, note)


def judged(what, value, goal, bar, note):
    """A line on a figure, its goal and its bar."""
    line = f"{what}: **{value:,.2f}**; goal, at most {goal}: {verdict(value <= goal)}"
    return line + (f"; bar, at most {bar}: {verdict(value <= bar)}" if bar else "") + note


def run(options):
    os.makedirs(options.scratch, exist_ok=True)
    data = Data(options)
    if options.data_only:
        print(os.path.relpath(data.script))
        return 0
    notes = []
    programs = programs_of(data, options, notes)
    if not shutil.which("time"):
        notes.append("peak memory and processor time: Debian's package time isn't installed")
    if not programs:
        raise Stopped("there is no program to measure: " + "; ".join(notes))
    before = load()
    for program in in_turns(programs, options):
        program.take_turn(options)
    title = f"{options.rows:,} rows of {'6' if options.narrow else '15'} columns, {data.script_bytes / 1e6:.0f} MB"
    print(f"### {title}\n")
    print_head(options)
    print(f"{load_since(before)}\n")
    print("\n".join(table(programs, data)) + "\n")
    for line in [*goals(programs), *(f"Left out: {note}" for note in notes)]:
        print(f"- {line}")
    return 1 if any(it.fault for it in programs) else 0


def main():
    parser = parser_of_turns(__doc__, turns=3, limit=600)
    parser.add_argument("--rows", type=whole_number, default=1_000_000, help="default: 1,000,000")
    parser.add_argument("--narrow", action="store_true", help="six columns a row in place of 15")
    parser.add_argument("--seed", type=int, default=7, help="of the export (default: 7)")
    parser.add_argument("--fast", action="store_true", help="focusd and the plain Rust program alone")
    parser.add_argument("--workers", type=whole_number, nargs="+", default=[], help="focusd with these numbers of workers too (default: one alone)")
    parser.add_argument("--data-only", action="store_true", help="make the data, print the script's path and end")
    return status_after(run, parser.parse_args())


if __name__ == "__main__":
    sys.exit(main())
