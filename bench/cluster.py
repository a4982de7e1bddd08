#!/usr/bin/env python3
"""Measures a cluster of warehouses beside one process and beside peers, and prints the result as Markdown.

    python3 bench/cluster.py --date 2026-01-31 > result.md
    python3 bench/cluster.py --rows 40000000 --local 4 --shapes day hour --scratch /a/folder/on/the/disk > result.md

An export of so many rows over a month is made in pieces of 1,000,000 rows. Measured are, in turn:

1. An import of all pieces into shards by worker processes, beside one process that imports as many pieces as one warehouse takes: rows a second by
   the clock, the rows of the largest shard, and the most memory of a program and of a worker. The pieces are read once before each import.
2. A report over the month, by number of shards, under 40 commitments and a policy; and what the engine costs a task that does nothing.
3. The same grouped sums by peers, with no commitments: dask.dataframe on the same workers and SQLite, both in floats, and ClickHouse in decimals,
   each with its greatest difference of a sum in nanos.

The report of the shards is compared with one warehouse where all rows fit into it. Peers that are missing on the machine are left out. It needs
python3-distributed, and for peers python3-pandas, sqlite3 and clickhouse-server (Debian 12). Progress goes to standard error.

Exit status: 0 all answers are right, 1 one isn't, 2 a wrong command line or a machine on which nothing can be measured.
"""
import collections
import concurrent.futures
import contextlib
import csv
import datetime
import importlib.util
import json
import os
import shutil
import subprocess
import sys
import tempfile
import time
import urllib.request

DEBIAN = "/usr/bin/python3"
if importlib.util.find_spec("distributed") is None and os.access(DEBIAN, os.X_OK) and os.path.realpath(sys.executable) != os.path.realpath(DEBIAN):
    os.execv(DEBIAN, [DEBIAN, *sys.argv])

from session import ROOT, Stopped, built, load, load_since, parser_of_turns, print_head, say, status_after, whole_number  # noqa: E402

sys.path.append(os.path.join(ROOT, "cluster", "tests"))
from bills import POLICY, one_warehouse, sku_sets, write_export, write_terms, write_text  # noqa: E402

import expected  # noqa: E402

PIECE = 1_000_000
# The most rows of a warehouse.
MOST_ROWS = 4_194_304
MONTH = datetime.datetime(2024, 10, 1)
HOURS = 744
RANGE = ("--from", "2024-10", "--to", "2024-11")
TASKS = 1_000
# The tag of the peers, whose values are ASCII.
TAG = "environment"
CLICKHOUSE_PORT = 18_123


class Pieces:
    """The export, made once for each size: piece number N has rows of all hours, by a seed of its own."""

    def __init__(self, options):
        sizes = [PIECE] * (options.rows // PIECE) + [options.rows % PIECE] * bool(options.rows % PIECE)
        folder = os.path.join(options.scratch, "cluster")
        os.makedirs(folder, exist_ok=True)
        self.rows, self.sizes = options.rows, sizes
        self.paths = [os.path.join(folder, f"{size}-{number}.csv") for number, size in enumerate(sizes, 1)]

        def make(path, size, number):
            if not os.path.exists(path):
                say(f"making {os.path.basename(path)}")
                write_export(f"{path}.part", size, HOURS, MONTH, number)
                os.rename(f"{path}.part", path)

        with concurrent.futures.ThreadPoolExecutor(options.local) as pool:
            list(pool.map(make, self.paths, sizes, range(1, len(sizes) + 1)))
        self.terms = write_terms(os.path.join(folder, "terms"), 40, sku_sets(sizes[0], HOURS, MONTH), HOURS, MONTH)
        self.terms.append(write_text(os.path.join(folder, "policy.toml"), POLICY))
        self.bytes = sum(map(os.path.getsize, self.paths))


def timed_program(program, scratch):
    """A program that runs focusd and notes the kilobytes that it took at the most; the notes' path. Without GNU time it is focusd itself."""
    notes, script = os.path.join(scratch, "peaks"), os.path.join(scratch, "focusd-timed")
    open(notes, "w", encoding="ascii").close()
    if not shutil.which("time"):
        return program, notes
    with open(script, "w", encoding="utf-8") as file:
        file.write(f'#!/bin/sh\nexec {shutil.which("time")} -q -a -o {notes} -f %M {program} "$@"\n')
    os.chmod(script, 0o755)
    return script, notes


def peak(notes):
    """The most megabytes that a program took since this was asked last."""
    with open(notes, "r+", encoding="ascii") as file:
        kilobytes = [int(line) for line in file if line.strip().isdigit()]
        file.truncate(0)
    return f"{max(kilobytes) / 1e3:.0f}" if kilobytes else ""


class Clock:
    """The seconds of what stands in a `with`."""

    def __enter__(self):
        self.started = time.perf_counter()
        return self

    def __exit__(self, *_):
        self.seconds = time.perf_counter() - self.started


def nothing(order):
    """A task that does nothing."""
    return {"name": order["name"]}


def memory_of_worker():
    """The bytes of memory of a worker."""
    import psutil

    return psutil.Process().memory_info().rss


def rows_of_shards(folder):
    """How many rows each shard of a cluster has."""
    with open(os.path.join(folder, "manifest.json"), encoding="utf-8") as file:
        return [shard["rows"] for shard in json.load(file)["shards"].values()]


def warm(paths):
    """Reads files, so that an import finds them in the system's cache, as far as they fit there."""
    for path in paths:
        with open(path, "rb", buffering=0) as file:
            while file.read(1 << 22):
                pass


def clusters(engine, pieces, program, options, room):
    """Imports and reports by shape: lines of two tables, and the reports."""
    from focusd_cluster.command_line import main

    timed, notes = timed_program(program, room)
    imports, reports, answers = [], [], []
    for shape in options.shapes:
        folder = os.path.join(room, shape)
        words = ["--dir", folder, "--scheduler", engine.client.scheduler.address, "--program", timed, "--quiet"]

        def run(*more, words=words):
            with tempfile.TemporaryFile("w+", dir=room) as out, contextlib.redirect_stdout(out), Clock() as clock:
                if main([more[0], *words, *more[1:]]):
                    raise Stopped(f"focusd-cluster {more[0]} failed, as its line above says")
                out.flush()
                out.seek(0)
                return out.buffer.read(), clock

        run("add", "--create", "--by", shape, *pieces.terms)
        warm(pieces.paths)
        say(f"import by {shape}")
        _, took = run("import", "--origin", "month", *pieces.paths)
        workers = max(engine.client.run(memory_of_worker).values()) / 1e6
        sizes = rows_of_shards(folder)
        shards, most = len(sizes) - 1, max(sizes)
        imports.append(
            f"| {shards:,} shards, {options.local} workers | {pieces.rows:,} | {took.seconds:.1f} | {pieces.rows / took.seconds:,.0f} | {most:,} | {peak(notes)} | {workers:.0f} |"
        )
        times = []
        for _ in range(options.turns):
            say(f"report over {shards} shards")
            answer, took = run("report", "--tag", "team", *RANGE, "--format", "csv")
            times.append(took.seconds)
        answers.append(answer)
        reports.append(f"| {shards:,} | {pieces.rows:,} | {min(times):.2f} | {max(times):.2f} | {peak(notes)} |")
        shutil.rmtree(folder)
    return imports, reports, answers


def one_process(pieces, program, room):
    """The same into one warehouse, as far as it takes the pieces: the lines of both tables, and the report where all rows fit."""
    timed, notes = timed_program(program, room)
    count, rows = 0, 0
    while count < len(pieces.sizes) and rows + pieces.sizes[count] <= MOST_ROWS:
        rows, count = rows + pieces.sizes[count], count + 1
    say(f"import of {rows:,} rows by one process")
    folder = one_warehouse(program, os.path.join(room, "one"), [], pieces.terms)
    warm(pieces.paths[:count])
    with Clock() as took:
        subprocess.run([timed, "import", "--dir", folder, "--quiet", "--origin", "month", *pieces.paths[:count]], check=True, stdout=subprocess.DEVNULL)
    line = f"| one warehouse, one process | {rows:,} | {took.seconds:.1f} | {rows / took.seconds:,.0f} | {rows:,} | {peak(notes)} | |"
    with Clock() as took:
        answer = subprocess.run([timed, "report", "--dir", folder, "--tag", "team", *RANGE, "--format", "csv"], check=True, stdout=subprocess.PIPE).stdout
    report = f"| one warehouse | {rows:,} | {took.seconds:.2f} | | {peak(notes)} |"
    return line, report, answer if count == len(pieces.sizes) else None


def cost_of_a_task(engine):
    """The milliseconds of a task that does nothing, of so many at once."""
    orders = [{"name": str(number)} for number in range(TASKS)]
    with Clock() as took:
        engine.all(nothing, orders)
    return took.seconds / TASKS * 1e3


# ---- peers


def exact_sums(path):
    """BilledCost by the tag, each row rounded to the nano, in nanos."""
    sums = collections.defaultdict(int)
    with open(path, encoding="utf-8-sig", newline="") as file:
        for row in csv.DictReader(file):
            sums[expected.tags_of(row["Tags"]).get(TAG, "")] += expected.nanos(row["BilledCost"])
    return dict(sums)


def group_of(text):
    """The value of the tag in a row's tags."""
    return json.loads(text).get(TAG) or "" if isinstance(text, str) and text else ""


def by_dask(path, client):
    """The sums in floats by dask.dataframe."""
    import dask.dataframe

    # A field may hold a line feed, so the file is one block.
    read = dask.dataframe.read_csv(path, usecols=["BilledCost", "Tags"], dtype={"BilledCost": float, "Tags": str}, encoding="utf-8-sig", blocksize=None)
    read["group"] = read["Tags"].map(group_of, meta=("group", object))
    found = client.compute(read.groupby("group")["BilledCost"].sum()).result()
    return {group: nanos_of(total) for group, total in found.items()}


def nanos_of(total):
    """A float as whole nanos, with nothing lost on the way."""
    return round(float(total).as_integer_ratio()[0] * 10**9 / float(total).as_integer_ratio()[1])


def by_sqlite(path):
    """The sums in floats by SQLite's shell."""
    group = f"CASE WHEN Tags = '' THEN '' ELSE coalesce(json_extract(Tags, '$.{TAG}'), '') END"
    mark = os.path.join(os.path.dirname(path), "without-mark.csv")
    with open(path, "rb") as file, open(mark, "wb") as out:
        file.seek(3)
        shutil.copyfileobj(file, out)
    script = f".mode csv\n.import '{mark}' charge\nSELECT {group}, printf('%.17g', sum(CAST(BilledCost AS REAL))) FROM charge GROUP BY 1;\n"
    ran = subprocess.run(["sqlite3", "-batch", ":memory:"], input=script.encode(), stdout=subprocess.PIPE, check=True)
    return {group: nanos_of(float(total)) for group, total in csv.reader(ran.stdout.decode().splitlines())}


CLICKHOUSE_CONFIG = """<yandex><logger><level>none</level></logger><http_port>{port}</http_port><listen_host>127.0.0.1</listen_host>
<path>{room}/data/</path><tmp_path>{room}/tmp/</tmp_path><users_config>{room}/users.xml</users_config>
<default_profile>default</default_profile><default_database>default</default_database><mark_cache_size>1000000000</mark_cache_size></yandex>"""
CLICKHOUSE_USERS = """<yandex><profiles><default/></profiles><quotas><default/></quotas><users><default><password/><profile>default</profile>
<quota>default</quota><networks><ip>127.0.0.1</ip></networks></default></users></yandex>"""


def by_clickhouse(path, room):
    """The sums in decimals of twelve digits after the point by ClickHouse: a server of this program's own, in a folder of its own."""
    os.makedirs(f"{room}/data")
    os.makedirs(f"{room}/tmp")
    config = write_text(f"{room}/config.xml", CLICKHOUSE_CONFIG.format(port=CLICKHOUSE_PORT, room=room))
    write_text(f"{room}/users.xml", CLICKHOUSE_USERS)
    quiet = {"stdout": subprocess.DEVNULL, "stderr": subprocess.DEVNULL}
    server = subprocess.Popen([shutil.which("clickhouse-server", path="/usr/sbin:/usr/bin"), f"--config-file={config}"], **quiet)

    def ask(query, data=None):
        address = f"http://127.0.0.1:{CLICKHOUSE_PORT}/?query={urllib.request.quote(query)}"
        with urllib.request.urlopen(urllib.request.Request(address, data=data or b"", method="POST"), timeout=600) as answer:
            return answer.read().decode()

    try:
        for _ in range(100):
            with contextlib.suppress(OSError):
                ask("SELECT 1")
                break
            time.sleep(0.1)
        with open(path, encoding="utf-8-sig", newline="") as file:
            columns = ", ".join(f"{name} String" for name in next(csv.reader(file)))
        ask(f"CREATE TABLE charge ({columns}) ENGINE = MergeTree ORDER BY tuple()")
        with open(path, "rb") as file:
            file.seek(3)
            ask("INSERT INTO charge FORMAT CSVWithNames", file.read())
        found = ask(f"SELECT visitParamExtractString(Tags, '{TAG}') AS g, sum(toDecimal128(BilledCost, 12)) FROM charge GROUP BY g FORMAT TabSeparated")
    finally:
        server.terminate()
        server.wait()
    return {line.partition("\t")[0]: expected.nanos(line.partition("\t")[2]) for line in found.splitlines()}


def peers(pieces, client, room, program):
    """Lines of a table: the same sums over the first piece by each program, and what each loses."""
    path, rows = pieces.paths[0], pieces.sizes[0]
    right = exact_sums(path)
    ways = {"dask.dataframe, floats": lambda: by_dask(path, client)} if importlib.util.find_spec("pandas") else {}
    ways |= {"SQLite, floats": lambda: by_sqlite(path)} if shutil.which("sqlite3") else {}
    ways |= {"ClickHouse, decimals": lambda: by_clickhouse(path, f"{room}/clickhouse")} if shutil.which("clickhouse-server", path="/usr/sbin:/usr/bin") else {}

    def by_focusd():
        folder = f"{room}/peer"
        os.mkdir(folder)
        subprocess.run([program, "import", "--dir", folder, "--create", "--quiet", "--origin", "x", path], check=True, stdout=subprocess.DEVNULL)
        ran = subprocess.run([program, "report", "--dir", folder, "--tag", TAG, *RANGE, "--format", "csv"], check=True, stdout=subprocess.PIPE)
        return {row["Group"]: int(row["BilledCost"].replace(".", "")) for row in csv.DictReader(ran.stdout.decode().splitlines())}

    for name, way in {"focusd, one warehouse": by_focusd, **ways}.items():
        say(name)
        try:
            with Clock() as took:
                found = way()
        except (OSError, subprocess.SubprocessError, ValueError) as why:
            yield f"| {name} | {rows:,} | failed: {why} | |"
            continue
        off = max(abs(found.get(group, 0) - right.get(group, 0)) for group in {*found, *right})
        yield f"| {name} | {rows:,} | {took.seconds:.1f} | {off:,} |"


def run(options):
    if importlib.util.find_spec("distributed") is None:
        raise Stopped("python3-distributed isn't installed")
    from focusd_cluster.engine import engine_of

    program = built(options.program)
    pieces = Pieces(options)
    before = load()
    with tempfile.TemporaryDirectory(dir=options.scratch) as room, engine_of(None, options.local) as engine:
        imports, reports, answers = clusters(engine, pieces, program, options, room)
        line, report, whole = one_process(pieces, program, room)
        each = cost_of_a_task(engine)
        of_peers = [] if options.no_peers else list(peers(pieces, engine.client, room, program))
    right = whole or answers[0]
    wrong = sum(answer != right for answer in answers)
    print(f"### A cluster of {pieces.rows:,} rows, {pieces.bytes / 1e6:,.0f} MB, under 40 commitments\n")
    print_head(options)
    print(f"{load_since(before)}\n")
    print("| import | rows | s | rows/s by the clock | rows of the largest shard | most MB of a program | MB of a worker |\n|---|---:|---:|---:|---:|---:|---:|")
    print("\n".join([*imports, line]))
    print("\n| shards | rows | the best report, s | the worst, s | most MB of a program |\n|---:|---:|---:|---:|---:|")
    print("\n".join([*reports, report]))
    print(f"\nA task that does nothing costs {each:.2f} ms, of {TASKS:,} at once.\n")
    if of_peers:
        print("| sums by a tag, reading included | rows | s | a sum is off by, nanos |\n|---|---:|---:|---:|")
        print("\n".join(of_peers) + "\n")
    beside = "of one warehouse" if whole else "of the first number of shards"
    print(f"- The reports are {'those' if not wrong else 'NOT those'} {beside}, to the byte.")
    return 1 if wrong else 0


def main():
    parser = parser_of_turns(__doc__, turns=3, what="reports over each number of shards")
    parser.add_argument("--rows", type=whole_number, default=1_000_000, help="default: 1,000,000")
    parser.add_argument("--local", type=whole_number, default=4, metavar="N", help="how many workers (default: 4)")
    parser.add_argument("--shapes", choices=["month", "day", "hour"], nargs="+", default=["day", "hour"], help="how hours are cut into shards (default: day and hour)")
    parser.add_argument("--no-peers", action="store_true", help="leaves the peers out")
    return status_after(run, parser.parse_args())


if __name__ == "__main__":
    sys.exit(main())
