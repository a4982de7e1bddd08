#!/usr/bin/env python3
"""Measures warehouses kept in files, beside programs that keep the same rows as durably, and prints the result as Markdown.

    python3 bench/store.py --date 2026-01-31 > result.md

In one run, in turns, of which the best counts:

    ingest      1,000,000 rows in posts of 4,096, each post stored and synced before the next
    small       5,000 posts of one row, each stored and synced before the next
    checkpoint  a checkpoint of the warehouse of `ingest`, beside `dd conv=fsync` of as many bytes; and what opening it costs, from its log
                before the checkpoint and from the body of a side after it
    growth      the time of one post of one row in warehouses of 1,000 and of 1,000,000 such entries (--entries)

The peers: a plain Rust program that appends each post to a file and syncs it, once, or twice as focusd does (peers/expert); SQLite with a
write-ahead log and synchronous=FULL; PostgreSQL with fsync on, whose server runs in a folder of its own. What is missing on the machine
is named and left out. All files are made in --scratch, which should be on the disk that is to be measured; above the tables is what a
sync costs there. Progress goes to standard error.

It needs what bench.py needs, and dd; SQLite and PostgreSQL where they are to be measured (Debian 12: apt-get install sqlite3 postgresql).
Exit status: 0 measured, 1 a program failed or gave a wrong answer, 2 a wrong command line or a machine on which nothing can be measured.
"""
import csv
import glob
import itertools
import os
import re
import shutil
import signal
import statistics
import subprocess
import sys
import time

from bench import Data
from session import FOCUSD, RUST, Stopped, Turns, build_rust, in_turns, load, load_since, measure, parser_of_turns, print_head, say, status_after
from session import verdict, whole_number

PARTS = ["ingest", "small", "checkpoint", "growth"]
SMALL_POSTS = 5_000
GROWN_POSTS = 2_000
MOST_GROWTH = 1.2
GOAL_OPENING = 500
HEADER = (
    "BilledCost,EffectiveCost,BillingCurrency,ChargeCategory,ChargePeriodStart,ChargePeriodEnd,ConsumedQuantity,ConsumedUnit,SkuId,Tags"
)
RECORD = '0.{0:09},0.{0:09},USD,Usage,2024-01-01T{1:02}:00Z,2024-01-01T{2:02}:00Z,1,Hours,vm-{3},"{{""team"":""team-{4}""}}"'


def record(number):
    """A record of a small post."""
    return RECORD.format(number % 1_000_000_000, number % 23, number % 23 + 1, number % 50, number % 40)


def small_posts(first, count):
    """Posts of one row each, numbered on from `first`."""
    for number in range(first, first + count):
        yield f"post small {number} 2\n{HEADER}\n{record(number)}\n".encode()


def written(path, parts):
    """A file of these bytes, made where it isn't there yet: its path."""
    if not os.path.exists(path):
        say(f"making {os.path.basename(path)}")
        with open(path + ".part", "wb") as file:
            file.writelines(parts)
        os.replace(path + ".part", path)
    return path


def asked(program, folder, script, *options):
    """A run over a folder that isn't measured."""
    with open(script, "rb") as file:
        ended = subprocess.run([program, "run", "--dir", folder, *options], stdin=file, stdout=subprocess.DEVNULL, stderr=subprocess.PIPE, check=False)
    if ended.returncode:
        raise Stopped(f"focusd ended with status {ended.returncode}: {ended.stderr.decode(errors='replace')[-200:]}")


def times_of_answers(words, script):
    """When each answer to a script came, which has to be `accepted`. Each answer has to come out at once."""
    times = []
    with open(script, "rb") as file:
        process = subprocess.Popen(words, stdin=file, stdout=subprocess.PIPE)
        for line in process.stdout:
            times.append(time.perf_counter())
            if not line.startswith(b"accepted "):
                process.kill()
                raise Stopped(f"focusd answers {line[:80]!r}")
    if process.wait():
        raise Stopped(f"focusd ended with status {process.returncode} after {len(times)} answers")
    return times


class Job:
    """A script of posts, and what the peers read in its place."""

    def __init__(self, name, script, rows, posts):
        self.name, self.script, self.rows, self.posts = name, script, rows, posts
        self.bytes = os.path.getsize(script)

    def contents(self):
        """The CSV of each post, a header and its records."""
        with open(self.script, "rb") as file:
            for line in iter(file.readline, b""):
                words = line.split()
                if words[0] == b"post":
                    yield b"".join(file.readline() for _ in range(int(words[3])))


class Peer(Turns):
    """A program that stores the rows of a job, and its turns."""

    def __init__(self, name, start, command, judge, after=None):
        super().__init__(name)
        self.start, self.command, self.judge, self.after = start, command, judge, after

    def take_turn(self, options, stdin):
        if not self.fault:
            self.start()
            self.keep(measure(self.command, stdin, options), options)


class Bench:
    """All that is measured, in one scratch folder."""

    def __init__(self, options):
        self.options, self.notes = options, []
        self.room = os.path.join(options.scratch, "store")
        shutil.rmtree(self.room, ignore_errors=True)
        os.makedirs(self.room)
        self.program = os.path.abspath(options.program)
        if not os.access(self.program, os.X_OK):
            raise Stopped(f"{os.path.relpath(self.program)} isn't there: build it by `examples/run --proved`")
        self.rust = build_rust(options, self.notes)
        self.postgres = Postgres.found(self.room, self.notes)
        self.failed = False

    def path(self, name):
        return os.path.join(self.room, name)

    def fresh(self, name):
        """An empty folder."""
        shutil.rmtree(self.path(name), ignore_errors=True)
        os.makedirs(self.path(name))

    def focusd(self, folder, *options):
        return [self.program, "run", "--dir", self.path(folder), *options]

    def run_focusd(self, folder, script, *options):
        """A run of focusd that isn't measured: what it answers."""
        with open(script, "rb") as file:
            ended = subprocess.run(self.focusd(folder, *options), stdin=file, capture_output=True, check=False)
        if ended.returncode or ended.stderr:
            raise Stopped(f"focusd ended with status {ended.returncode}: {ended.stderr.decode(errors='replace')[-200:]}")
        return ended.stdout

    def peers_of(self, job):
        """What can store the rows of a job here, focusd first."""

        def answers(output):
            kept = output.count(b"accepted ")
            return None if kept == job.posts else f"accepted {kept} of {job.posts} posts"

        def count(output):
            return None if output.split() == [str(job.rows).encode()] else f"kept {output[:80]!r} rows"

        def empty(name):
            return lambda: written_anew(self.path(name))

        peers = [Peer(FOCUSD, lambda: self.fresh("house"), self.focusd("house", "--create"), answers)]
        if self.rust:
            for syncs in (2, 1):
                command = [self.rust, "run", "--log", self.path("rust.log"), "--syncs", str(syncs)]
                peers.append(Peer(f"{RUST}, {syncs} sync{'s' if syncs > 1 else ''} a post", empty("rust.log"), command, answers))
        if shutil.which("sqlite3"):
            words = ["sqlite3", "-batch", "-init", sqlite_script(self.path(f"{job.name}.sql"), job), self.path("sqlite.db"), "SELECT count(*) FROM charge"]
            peers.append(Peer("SQLite, synchronous=FULL", lambda: no_files(self.path("sqlite.db*")), words, lambda output: count(output.splitlines()[-1])))
        else:
            self.notes.append("SQLite: there is no sqlite3")
        if self.postgres:
            words = self.postgres.psql("-f", postgres_script(self.path(f"{job.name}.psql"), job), "-c", "SELECT count(*) FROM charge")
            peers.append(Peer("PostgreSQL, fsync=on", self.postgres.empty, words, lambda output: count(output.splitlines()[-1])))
        return peers

    def stored(self, job, title):
        """The table of a job."""
        peers = self.peers_of(job)
        for peer in in_turns(peers, self.options, f"{job.name}, "):
            peer.take_turn(self.options, job.script if peer.name.startswith((FOCUSD, RUST)) else os.devnull)
        self.failed |= any(peer.fault for peer in peers)
        rust = next((peer.seconds for peer in peers if peer.name.startswith(RUST) and peer.turns), None)
        print(f"### {title}\n")
        print("| program | best s | worst s | processor s | rows/s | posts/s | peak MB | times plain Rust |")
        print("|---|---|---|---|---|---|---|---|")
        for peer in peers:
            if not peer.turns:
                print(f"| {peer.name} | | | | | | | {peer.fault} |")
                continue
            best = min(peer.turns, key=lambda turn: turn.seconds)
            clocked = f"{best.processor_seconds:.2f}" if best.is_clocked else ""
            peak = f"{max(turn.peak for turn in peer.turns) / 1e6:.0f}" if best.is_clocked else ""
            speeds = f"{job.rows / peer.seconds:,.0f} | {job.posts / peer.seconds:,.0f}"
            ratio = f"{peer.seconds / rust:.2f}" if rust else ""
            print(f"| {peer.name} | {peer.seconds:.3f} | {max(turn.seconds for turn in peer.turns):.3f} | {clocked} | {speeds} | {peak} | {ratio} |")
        print()
        first = peers[0]
        if first.turns and first.turns[0].is_clocked:
            peak = max(turn.peak for turn in first.turns) - job.bytes
            print(f"- focusd's peak memory, the script's {job.bytes / 1e6:.0f} MB aside: {peak / job.rows:,.0f} bytes a row")
        print()

    def seconds(self, folder, script, turns=None):
        """The best time of focusd over a folder, and the greatest peak, in bytes."""
        best, peak = None, 0
        for _ in range(turns or self.options.turns):
            turn = measure(self.focusd(folder), script, self.options)
            if turn.status != 0 or b"store " in turn.output:
                raise Stopped(f"focusd ended with status {turn.status}: {turn.complaint}{turn.output[:200]!r}")
            best, peak = min(best or turn.seconds, turn.seconds), max(peak, turn.peak if turn.is_clocked else 0)
        return best, peak

    def checkpoint(self, job):
        """What a checkpoint and opening cost."""
        state = written(self.path("state.script"), [b"state\n"])
        both = written(self.path("checkpoint.script"), [b"checkpoint\n"])
        self.fresh("none")
        self.run_focusd("none", state, "--create")
        nothing, _ = self.seconds("none", state)
        self.fresh("house")
        self.run_focusd("house", job.script, "--create")
        say("opening a log")
        log = os.path.getsize(self.path("house/left"))
        from_log, log_peak = self.seconds("house", state)
        # Twice, so that the side which is measured is there and is overwritten.
        for _ in range(2):
            self.run_focusd("house", both)
        say("opening a body, and checkpoints")
        body = min(os.path.getsize(self.path(f"house/{side}")) for side in ("left", "right"))
        from_body, body_peak = self.seconds("house", state)
        made, made_peak = self.seconds("house", both)
        copied = min(self.dd(body) for _ in range(self.options.turns))
        print("### Opening and checkpoints\n")
        print(f"| of {job.rows:,} rows | MB | seconds | MB/s | peak bytes a row |")
        print("|---|---|---|---|---|")
        for name, size, seconds, peak in (
            ("opening, all in the log", log, from_log - nothing, log_peak),
            ("opening, all in the body of a side", body, from_body - nothing, body_peak),
            ("a checkpoint", body, made - from_body, made_peak),
            ("dd conv=fsync", body, copied, None),
        ):
            room = f"{peak / job.rows:,.0f}" if peak else ""
            print(f"| {name} | {size / 1e6:.1f} | {seconds:.3f} | {size / 1e6 / max(seconds, 1e-9):,.0f} | {room} |")
        print("\nThe time of a run over an empty warehouse is taken off that of opening, and that of opening off that of a checkpoint.\n")
        speed = body / 1e6 / max(from_body - nothing, 1e-9)
        print(f"- Goal, opening: at least {GOAL_OPENING} MB of body a second: **{verdict(speed >= GOAL_OPENING)}** ({speed:,.0f})")
        print(f"- A checkpoint takes {(made - from_body) / copied:.2f} times dd\n")

    def dd(self, size):
        """Seconds to write and sync as many bytes as a checkpoint does."""
        words = ["dd", f"of={self.path('copy')}", "bs=1M", "conv=fsync", f"count={-(-size // 2**20)}", f"if={self.path('house/left')}"]
        began = time.perf_counter()
        if subprocess.run(words, capture_output=True, check=False).returncode:
            raise Stopped("dd failed")
        took = time.perf_counter() - began
        os.remove(self.path("copy"))
        return took

    def growth(self):
        """What a small post costs in a small and in a large warehouse."""
        costs = {}
        for entries in (1_000, self.options.entries):
            say(f"a warehouse of {entries:,} entries")
            self.fresh("grown")
            # Made in memory, as its syncs aren't what is measured; at the end it holds a checkpoint, so that it is soon opened.
            memory = "/dev/shm/focusd-bench-grown" if os.access("/dev/shm", os.W_OK) else self.path("growing")
            shutil.rmtree(memory, ignore_errors=True)
            os.makedirs(memory)
            script = written(self.path(f"grown-{entries}.script"), itertools.chain(small_posts(1, entries), [b"checkpoint\n"]))
            try:
                asked(self.program, memory, script, "--create")
                shutil.copytree(memory, self.path("grown"), dirs_exist_ok=True)
            finally:
                shutil.rmtree(memory, ignore_errors=True)
            os.remove(script)
            first, per_post = entries + 1, []
            for turn in range(self.options.turns):
                posts = b"".join(small_posts(first + turn * GROWN_POSTS, GROWN_POSTS))
                per_post.append(self.seconds_a_post(posts))
            costs[entries] = min(per_post)
        small, large = costs[1_000], costs[self.options.entries]
        print("### A post of one row in a small and in a large warehouse\n")
        print("| entries before | microseconds a post |")
        print("|---|---|")
        for entries, seconds in costs.items():
            print(f"| {entries:,} | {seconds * 1e6:,.1f} |")
        print("\nFrom the answer to the first of 2,000 posts to that to the last, in one run, syncs included.\n")
        print(f"- Goal, at most {MOST_GROWTH} times: **{verdict(large <= MOST_GROWTH * small)}** ({large / small:.2f} times)\n")

    def seconds_a_post(self, posts):
        """The time between the first and the last answer, by the number of posts between them."""
        with open(self.path("posts.script"), "wb") as file:
            file.write(posts)
        times = times_of_answers(self.focusd("grown"), self.path("posts.script"))
        if len(times) != GROWN_POSTS:
            raise Stopped(f"focusd ended with status 0 after {len(times)} answers")
        # The first tenth is left out: caches are cold, and the reader of the pipe wakes up.
        start = GROWN_POSTS // 10
        return (times[-1] - times[start]) / (GROWN_POSTS - 1 - start)

    def cost_of_a_sync(self):
        """A line on what a sync of 4 KB that were appended costs where the files are."""
        times = []
        with open(self.path("synced"), "wb", buffering=0) as file:
            for _ in range(500):
                file.write(bytes(4_096))
                began = time.perf_counter()
                os.fdatasync(file.fileno())
                times.append(time.perf_counter() - began)
        os.remove(self.path("synced"))
        system = subprocess.run(["df", "--output=fstype,source", self.room], capture_output=True, text=True, check=False).stdout.splitlines()
        where = " on ".join(system[-1].split()) if len(system) > 1 else "an unknown file system"
        return f"A sync of 4 KB appended: {statistics.median(times) * 1e6:,.0f} microseconds in the middle, {max(times) * 1e6:,.0f} at the most ({where})"


def written_anew(path):
    """Removes a file, so that it is made by what is measured."""
    if os.path.exists(path):
        os.remove(path)


def no_files(pattern):
    for path in glob.glob(pattern):
        os.remove(path)


def sqlite_script(path, job):
    """A script of SQLite's shell that stores each post in a transaction of its own."""

    def lines():
        yield b"PRAGMA journal_mode = WAL;\nPRAGMA synchronous = FULL;\n"
        names = None
        for number, content in enumerate(job.contents()):
            if names is None:
                names = content.partition(b"\n")[0].decode().strip().split(",")
                yield f"CREATE TABLE charge ({', '.join(f'{name} TEXT' for name in names)});\n".encode()
            if job.rows == job.posts:
                yield insertion(content)
            else:
                piece = written(f"{path}-{number}.csv", [content])
                yield f".import --csv --skip 1 '{piece}' charge\n".encode()

    return written(path, lines())


def insertion(content):
    """A post of one row as a statement."""
    fields = list(csv.reader(content.decode().splitlines()))[1]
    values = ", ".join("'" + field.replace("'", "''") + "'" for field in fields)
    return f"INSERT INTO charge VALUES ({values});\n".encode()


def postgres_script(path, job):
    """A script of psql that stores each post in a transaction of its own."""

    def lines():
        types = {"BilledCost": "numeric", "EffectiveCost": "numeric", "ConsumedQuantity": "numeric", "Tags": "jsonb"}
        types |= {"ChargePeriodStart": "timestamptz", "ChargePeriodEnd": "timestamptz"}
        names = None
        for content in job.contents():
            if names is None:
                names = content.partition(b"\n")[0].decode().strip().split(",")
                yield b"DROP TABLE IF EXISTS charge;\n"
                yield ("CREATE TABLE charge (" + ", ".join(f'"{name}" {types.get(name, "text")}' for name in names) + ");\n").encode()
            if job.rows == job.posts:
                yield insertion(content)
            else:
                yield b"COPY charge FROM STDIN (FORMAT csv, HEADER true);\n" + content + b"\\.\n"

    return written(path, lines())


class Postgres:
    """A server of PostgreSQL in a folder of its own."""

    def __init__(self, tools, folder, user):
        self.tools, self.folder, self.user = tools, folder, user

    @classmethod
    def found(cls, room, notes):
        """A server that was made and started; none where there is no PostgreSQL."""
        tools = sorted(glob.glob("/usr/lib/postgresql/*/bin")) or [os.path.dirname(shutil.which("initdb") or "")]
        if not os.access(os.path.join(tools[-1], "initdb"), os.X_OK):
            notes.append("PostgreSQL: there is no initdb")
            return None
        user = "postgres" if os.getuid() == 0 else None
        server = cls(tools[-1], os.path.join(room, "postgres"), user)
        os.makedirs(server.folder)
        if user:
            for parent in (room, os.path.dirname(room)):
                os.chmod(parent, 0o755)
            shutil.chown(server.folder, user, user)
        data = os.path.join(server.folder, "data")
        settings = f"-k {server.folder} -c listen_addresses='' -c fsync=on -c synchronous_commit=on -c full_page_writes=on"
        for words in (["initdb", "-D", data, "-A", "trust", "-U", "bench"], ["pg_ctl", "-D", data, "-l", f"{data}.log", "-w", "-o", settings, "start"]):
            ended = subprocess.run(server.words(words), stdout=subprocess.DEVNULL, stderr=subprocess.PIPE, check=False)
            if ended.returncode:
                notes.append(f"PostgreSQL: {words[0]} failed: {ended.stderr.decode(errors='replace').strip()[-200:]}")
                return None
        return server

    def words(self, words):
        before = ["runuser", "-u", self.user, "--"] if self.user else []
        return [*before, os.path.join(self.tools, words[0]), *words[1:]]

    def psql(self, *words):
        return [os.path.join(self.tools, "psql"), "-q", "-X", "-A", "-t", "-h", self.folder, "-U", "bench", "-d", "postgres", *words]

    def empty(self):
        subprocess.run(self.psql("-c", "DROP TABLE IF EXISTS charge", "-c", "CHECKPOINT"), capture_output=True, check=False)

    def stop(self):
        data = os.path.join(self.folder, "data")
        subprocess.run(self.words(["pg_ctl", "-D", data, "-m", "fast", "stop"]), capture_output=True, check=False)


def run(options):
    os.makedirs(options.scratch, exist_ok=True)
    data = Data(options) if {"ingest", "checkpoint"} & set(options.only) else None
    bench = Bench(options)
    try:
        before = load()
        print_head(options, bench.cost_of_a_sync())
        print()
        if data:
            posts = written(os.path.join(options.scratch, os.path.basename(data.script) + ".posts"), posts_alone(data.script))
            job = Job("ingest", posts, options.rows, data.right_answers.count(b"accepted "))
        if "ingest" in options.only:
            bench.stored(job, f"{job.rows:,} rows in {job.posts:,} posts, each synced, {job.bytes / 1e6:.0f} MB of script")
        if "small" in options.only:
            small = written(os.path.join(options.scratch, f"small-{SMALL_POSTS}.script"), small_posts(1, SMALL_POSTS))
            bench.stored(Job("small", small, SMALL_POSTS, SMALL_POSTS), f"{SMALL_POSTS:,} posts of one row, each synced")
        if "checkpoint" in options.only:
            bench.checkpoint(job)
        if "growth" in options.only:
            bench.growth()
        print(f"{load_since(before)}\n")
        for note in dict.fromkeys(bench.notes):
            print(f"- Left out: {note}")
        return 1 if bench.failed else 0
    finally:
        if bench.postgres:
            bench.postgres.stop()
        shutil.rmtree(bench.room, ignore_errors=True)


def posts_alone(script):
    """The lines of a script without its reports."""
    with open(script, "rb") as file:
        for line in file:
            if not re.match(rb"report team ", line):
                yield line


def main():
    parser = parser_of_turns(__doc__, turns=3, limit=900)
    parser.add_argument("--rows", type=whole_number, default=1_000_000, help="of `ingest` (default: 1,000,000)")
    parser.add_argument("--entries", type=whole_number, default=1_000_000, help="of the large warehouse of `growth` (default: 1,000,000)")
    parser.add_argument("--seed", type=int, default=7, help="of the export (default: 7)")
    parser.add_argument("--only", nargs="+", choices=PARTS, default=PARTS, metavar="PART", help="the parts that are measured (default: all)")
    parser.set_defaults(narrow=False)
    options = parser.parse_args()
    # A server that was started is stopped, and files are removed, where the bench itself is stopped.
    signal.signal(signal.SIGTERM, lambda *_: sys.exit(143))
    return status_after(run, options)


if __name__ == "__main__":
    sys.exit(main())
