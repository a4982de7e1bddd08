#!/usr/bin/env python3
"""Measures how fast small posts are stored by 1, 8 and 64 importers at once, as Markdown.

    python3 bench/loads.py --date 2026-01-31 --scratch /a/folder/on/the/disk > result.md
    python3 bench/loads.py --slow-sync 5 --turns 11

Each turn is a new folder and one `focusd load` of N files of one row each, each posted from a thread of its own; what waits together is
stored as one group, with one pair of syncs. The time of a run with an empty script, which creates the same folder, is taken off, so that
starting the program isn't counted. Beside it: SQLite with a write-ahead log and synchronous=FULL, N rows in transactions of their own, one
after the other. Each load must answer `accepted` for each file, `stale 0` and the right counts.

How much groups help depends on what a sync costs. With `--slow-sync 5` each sync, of focusd as of SQLite, takes 5 milliseconds longer
(slow_sync.c, built by `cc`), as on a disk that turns or lies behind a network.

Exit status: 0 all answers are right, 1 one isn't, 2 a wrong command line or a machine on which nothing can be measured.
"""
import os
import shlex
import shutil
import sqlite3
import statistics
import subprocess
import sys
import tempfile
import time

from session import HERE, Stopped, built, load, parser_of_turns, print_head, say, status_after, verdict

IMPORTERS = (1, 8, 64)
HEADER = "BilledCost,EffectiveCost,BillingCurrency,ChargeCategory,ChargePeriodStart,ChargePeriodEnd\n"
VALUES = (100_000_000, 100_000_000, "USD", "Usage", "2024-01-01T00:00:00Z", "2024-01-01T01:00:00Z")
ROW = "0.1,0.1,USD,Usage,2024-01-01T00:00:00Z,2024-01-01T01:00:00Z\n"
# The goal: how many times as many posts a second 64 importers store as one.
TIMES_ONE = 10


def timed(words, given=b""):
    """The seconds of a run, and what it printed."""
    start = time.perf_counter()
    ran = subprocess.run(words, input=given, capture_output=True, check=False)
    seconds = time.perf_counter() - start
    if ran.returncode:
        raise Stopped(f"{shlex.join(words[:3])} ended with status {ran.returncode}: {ran.stderr.decode()[-200:]}")
    return seconds, ran.stdout


class Room:
    """A folder for the files that are loaded and for the warehouses."""

    def __init__(self, program, folder):
        self.program, self.folder = program, folder
        self.files = []
        for number in range(max(IMPORTERS)):
            self.files.append(os.path.join(folder, f"{number}.csv"))
            with open(self.files[-1], "w", encoding="ascii") as file:
                file.write(HEADER + ROW)

    def new(self):
        """A new and empty folder for a warehouse."""
        path = os.path.join(self.folder, "costs")
        shutil.rmtree(path, ignore_errors=True)
        os.mkdir(path)
        return path

    def created(self):
        """The seconds that creating a warehouse takes, with the program's start."""
        return timed([self.program, "run", "--dir", self.new(), "--create"])[0]

    def loaded(self, count):
        """The seconds of a load of so many files into a new warehouse."""
        seconds, said = timed([self.program, "load", "--dir", self.new(), "--create", *self.files[:count]])
        wanted = "".join(f"{at} accepted\n" for at in range(1, count + 1)) + f"stale 0\nstate {count} {count} 0 0\n"
        if said.decode() != wanted:
            raise Stopped(f"a load of {count} files answered {said[-80:]!r}")
        return seconds

    def inserted(self, count):
        """The seconds that SQLite takes for so many rows, each in a transaction of its own."""
        base = sqlite3.connect(os.path.join(self.new(), "costs.db"), isolation_level=None)
        base.execute("PRAGMA journal_mode=WAL")
        base.execute("PRAGMA synchronous=FULL")
        base.execute("CREATE TABLE charge (billed INTEGER, effective INTEGER, currency TEXT, category TEXT, start TEXT, end TEXT)")
        start = time.perf_counter()
        for _ in range(count):
            base.execute("INSERT INTO charge VALUES (?, ?, ?, ?, ?, ?)", VALUES)
        seconds = time.perf_counter() - start
        base.close()
        return seconds

    def a_sync(self):
        """The median seconds of a write of 100 bytes and its sync."""
        took = []
        with open(os.path.join(self.folder, "sync"), "wb", buffering=0) as file:
            for _ in range(50):
                file.write(bytes(100))
                start = time.perf_counter()
                os.fdatasync(file.fileno())
                took.append(time.perf_counter() - start)
        return statistics.median(took)


def slowed(options):
    """Starts this program again, with a library that makes each sync of it and of its children slower."""
    os.makedirs(options.scratch, exist_ok=True)
    library = os.path.join(os.path.abspath(options.scratch), "slow_sync.so")
    try:
        subprocess.run(["cc", "-shared", "-fPIC", "-O2", "-o", library, os.path.join(HERE, "slow_sync.c"), "-ldl"], check=True)
    except (OSError, subprocess.CalledProcessError) as why:
        raise Stopped(f"slow_sync.c can't be built: {why}") from why
    given = dict(os.environ, LD_PRELOAD=library, SLOW_SYNC=str(options.slow_sync))
    os.execve(sys.executable, [sys.executable, *sys.argv], given)


def run(options):
    if options.slow_sync and os.environ.get("SLOW_SYNC") != str(options.slow_sync):
        slowed(options)
    program = built(options.program)
    os.makedirs(options.scratch, exist_ok=True)
    before = load()
    with tempfile.TemporaryDirectory(dir=options.scratch) as folder:
        room = Room(program, folder)
        sync = room.a_sync()
        starts, loads, rows = [], {it: [] for it in IMPORTERS}, {it: [] for it in IMPORTERS}
        for turn in range(options.turns):
            say(f"turn {turn + 1}")
            starts.append(room.created())
            for count in IMPORTERS:
                loads[count].append(room.loaded(count))
                rows[count].append(room.inserted(count))
    print_head(options)
    print(f"A sync of 100 bytes takes {sync * 1e6:.0f} microseconds where the files are. Load before and after: {before}; {load()}\n")
    print("| importers | focusd, ms a load | posts/s | SQLite, one transaction a row, rows/s |")
    print("|---:|---:|---:|---:|")
    start, speeds = statistics.median(starts), {}
    for count in IMPORTERS:
        took = max(statistics.median(loads[count]) - start, 1e-6)
        speeds[count] = count / took
        print(f"| {count} | {took * 1e3:.2f} | {speeds[count]:,.0f} | {count / statistics.median(rows[count]):,.0f} |")
    times = speeds[max(IMPORTERS)] / speeds[1]
    print(f"\nGoal, 64 importers at least {TIMES_ONE} times one: **{verdict(times >= TIMES_ONE)}** ({times:.1f} times)")
    return 0


def main():
    parser = parser_of_turns(__doc__, turns=21)
    parser.add_argument("--slow-sync", type=int, default=0, metavar="MS", help="each sync takes so many milliseconds longer (default: 0)")
    return status_after(run, parser.parse_args())


if __name__ == "__main__":
    sys.exit(main())
