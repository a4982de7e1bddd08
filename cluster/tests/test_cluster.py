#!/usr/bin/python3
"""Tests clusters, in less than a minute: answers beside those of one warehouse, faults of shards, and commands that are run again.

    python3 -B cluster/tests/test_cluster.py out/focusd
    python3 -B cluster/tests/test_cluster.py out/focusd Faults.test_a_missing_shard

It needs python3-distributed (Debian 12: apt-get install python3-distributed). Where the Python that runs it has none, it looks for it in
/usr/bin/python3. Where there is none either, it says so, and ends with status 0.
"""

import contextlib
import datetime
import fcntl
import importlib.util
import io
import os
import random
import re
import shutil
import subprocess
import sys
import tempfile
import threading
import time
import unittest

DEBIAN = "/usr/bin/python3"
if importlib.util.find_spec("distributed") is None:
    if os.path.realpath(sys.executable) != os.path.realpath(DEBIAN) and os.access(DEBIAN, os.X_OK):
        os.execv(DEBIAN, [DEBIAN, "-B", *sys.argv])
    print("python3-distributed isn't installed, so clusters aren't tested (Debian 12: apt-get install python3-distributed)")
    sys.exit(0)

from bills import POLICY, one_warehouse, printed, questions, run_cluster, sku_sets, write_export, write_terms, write_text  # noqa: E402
from focusd_cluster import asking, hours, layout, manifest  # noqa: E402
from focusd_cluster.command_line import main  # noqa: E402
from focusd_cluster.faults import Fault, WrongWords  # noqa: E402

START = datetime.datetime(2024, 9, 29, 5)
ROWS, HOURS = 3_000, 60
RANGE = ("2024-09-28", "2024-10-03T02:00Z")
WARNING = re.compile(r"focusd-cluster: \d+ shards gave a warning, .*has rows of .*|All of them count\. ")
# The end and the start of a row's period, and the amount at the start of a record, in the exports that are made here.
START_TIME = re.compile(r'("2024-[^"]*Z"),"2024-[^"]*Z"')
AMOUNT = re.compile(r'[0-9.]+,(?="USD",)')
PROGRAM, SCHEDULER, ROOM = "", "", ""


def setUpModule():  # noqa: N802
    """An engine with two workers for all tests, and a bill: two exports, 8 commitments, an added purchase and a policy."""
    global SCHEDULER, ROOM
    import distributed

    stack = contextlib.ExitStack()
    unittest.addModuleCleanup(stack.close)
    ROOM = stack.enter_context(tempfile.TemporaryDirectory())
    options = {"dashboard_address": ":0", "silence_logs": 50, "local_directory": ROOM}
    SCHEDULER = stack.enter_context(distributed.LocalCluster(n_workers=2, threads_per_worker=2, processes=True, **options)).scheduler_address
    Bill.make(ROOM)


class Bill:
    """The bill, and one warehouse that holds all of it."""

    exports, terms, whole = [], [], ""

    @classmethod
    def make(cls, room):
        cls.exports = [write_export(f"{room}/{seed}.csv", ROWS // seed, HOURS, START, seed) for seed in (1, 2)]
        sets = sku_sets(ROWS, HOURS, START)
        cls.terms = write_terms(f"{room}/terms", 8, sets, HOURS, START)
        cls.terms.append(write_text(f"{room}/more.toml", 'id = "cd-003"\nat = "2024-09-28T07:30Z"\nbilled = "12.000000001"\n'))
        cls.terms.append(write_text(f"{room}/policy.toml", POLICY))
        cls.whole = one_warehouse(PROGRAM, f"{room}/whole", cls.exports, cls.terms)


def read(path):
    """The text of a file."""
    with open(path, encoding="utf-8-sig") as file:
        return file.read()


def cluster(*words):
    """The status, standard output and standard error of a command, run in this process."""
    out, error = io.TextIOWrapper(io.BytesIO(), write_through=True), io.StringIO()
    with contextlib.redirect_stdout(out), contextlib.redirect_stderr(error):
        status = main([words[0], "--scheduler", SCHEDULER, "--program", PROGRAM, "--quiet", *words[1:]])
    return status, out.buffer.getvalue().decode(), error.getvalue()


class Folder(unittest.TestCase):
    """A test with a cluster's folder."""

    def setUp(self):
        self.room = tempfile.TemporaryDirectory(dir=ROOM)
        self.addCleanup(self.room.cleanup)
        self.folder = f"{self.room.name}/costs"

    def done(self, *words):
        """What a command prints that ends well; it may warn of rows that two exports have."""
        status, said, error = cluster(words[0], "--dir", self.folder, *words[1:])
        self.assertEqual((status, [line for line in error.splitlines() if not WARNING.match(line)]), (0, []), words)
        return said

    def refused(self, *words, status=1):
        """What a command says on standard error that ends with a fault; it prints no answer."""
        ended, said, error = cluster(words[0], "--dir", self.folder, *words[1:])
        self.assertEqual((ended, said), (status, ""), words)
        return error

    def fill(self, *shape):
        """A cluster with the whole bill."""
        self.done("add", "--create", *shape, *Bill.terms)
        for number, export in enumerate(Bill.exports, 1):
            self.done("import", "--origin", f"export-{number}", export)

    def shards(self):
        """The names of the shards' folders."""
        return sorted(os.listdir(f"{self.folder}/shards"))


class Answers(Folder):
    """A cluster answers as one warehouse does, to the byte."""

    def check(self, *shape, shards, bys=("day", "month")):
        self.fill(*shape)
        self.assertEqual(len(self.shards()), shards)
        for words in questions(*RANGE, bys):
            with self.subTest(words=words):
                self.assertEqual(self.done(*words), printed(PROGRAM, words[0], "--dir", Bill.whole, *words[1:]).decode())

    def test_by_month(self):
        self.check("--by", "month", shards=3)

    def test_by_day(self):
        self.check("--by", "day", shards=5)

    def test_by_hour(self):
        self.check("--by", "hour", shards=62, bys=["day"])
        words = ["report", "--tag", "team", "--from", "2024-09-30T23:00Z", "--to", "2024-10-01T02:00Z", "--by", "hour", "--format", "csv"]
        self.assertEqual(self.done(*words), printed(PROGRAM, words[0], "--dir", Bill.whole, *words[1:]).decode())

    def test_into_piles(self):
        self.check("--by", "month", "--into", "3", shards=9)

    def test_terms_after_rows_in_piles(self):
        self.fill("--by", "month", "--into", "3")
        late = write_text(f"{self.room.name}/late.toml", read(Bill.terms[0]).replace('id = "cd-000"', 'id = "cd-x"'))
        self.assertIn("rows are in 3 piles already", self.refused("add", late))
        more = write_text(f"{self.room.name}/more.toml", 'id = "cd-005"\nat = "2024-10-01T07:30Z"\nbilled = "3"\n')
        self.done("add", more)
        whole = f"{self.room.name}/whole"
        shutil.copytree(Bill.whole, whole)
        printed(PROGRAM, "add", "--dir", whole, "--origin", "more", more)
        for words in questions(*RANGE, []):
            self.assertEqual(self.done(*words), printed(PROGRAM, words[0], "--dir", whole, *words[1:]).decode())

    def test_the_command(self):
        ended = run_cluster("add", "--dir", self.folder, "--create", Bill.terms[0], scheduler=SCHEDULER, program=PROGRAM)
        self.assertEqual((ended.returncode, ended.stderr), (0, b""))
        self.assertIn(b"1 terms are in 1 shards, 1 were sent some", ended.stdout)


class Again(Folder):
    """What is run again changes nothing, and goes on where it stopped."""

    REPORT = ("report", "--tag", "team", "--from", RANGE[0], "--to", RANGE[1], "--format", "csv")

    def test_an_import_counts_once(self):
        self.fill()
        report = self.done(*self.REPORT)
        self.assertEqual(self.done("import", "--origin", "export-1", Bill.exports[0]), "imported 0 rows into 4 shards, 3,000 were there already\n")
        self.assertIn("other files", self.refused("import", "--origin", "export-1", Bill.exports[1]))
        other = shutil.copy(Bill.exports[0], f"{self.room.name}/other.csv")
        with open(other, "r+b") as file:
            file.seek(-3, os.SEEK_END)
            file.write(b"x")
        self.assertIn("other files", self.refused("import", "--origin", "export-1", other))
        self.assertEqual(self.done(*self.REPORT), report)
        self.assertFalse(os.listdir(f"{self.folder}/parts"))

    def test_an_import_goes_on(self):
        """Shards that an import filled and didn't note, and one that it didn't make."""
        self.fill()
        report = self.done(*self.REPORT)
        kept = manifest.Cluster(self.folder)
        kept.load()
        export = kept.manifest.export("export-2")
        export.state = manifest.CUT
        for name, rows in export.shards.items():
            shard = kept.manifest.shards[name]
            shard.rows, shard.entries = shard.rows - rows, shard.entries - 1
        kept.save()
        self.assertIn("the import of export-2 isn't finished", self.refused(*self.REPORT))
        self.assertIn("the import of export-2 isn't finished", self.refused("import", "--origin", "export-3", Bill.exports[0]))
        self.assertIn("the import of export-2 isn't finished", self.refused("add", Bill.terms[0]))
        self.assertEqual(self.done("import", "--origin", "export-2", Bill.exports[1]), "imported 0 rows into 4 shards, 1,500 were there already\n")
        self.assertEqual(self.done(*self.REPORT), report)

    def test_terms_count_once(self):
        self.fill()
        self.assertEqual(self.done("add", Bill.terms[0]).splitlines()[0], f"{Bill.terms[0]}: commitment cd-000 is there already, the same")
        same = write_text(f"{self.room.name}/same.toml", 'billed = "12.000000001"\nat = "2024-09-28T07:30Z"\nid = "cd-003"\n')
        self.assertIn("is there already, the same; give --yes", self.refused("add", same))
        other = write_text(f"{self.room.name}/other.toml", read(Bill.terms[0]).replace("hours = ", "hours = 1"))
        self.assertIn("J2 DoubleId", self.refused("add", other))
        wrong = write_text(f"{self.room.name}/wrong.toml", read(Bill.terms[0]).replace('id = "cd-000"', 'id = "cd-x"\nmore = 1'))
        self.assertIn("C2 Field", self.refused("add", wrong))
        policy = write_text(f"{self.room.name}/policy.toml", 'key = "other"\n')
        self.assertIn("A4 OtherKey", self.refused("add", policy))
        # A term that was named in the manifest, and not sent.
        kept = manifest.Cluster(self.folder)
        kept.load()
        kept.manifest.shards["2024-09-30"].terms -= 1
        kept.save()
        self.assertIn("1 shards lack commitments: 2024-09-30", self.refused(*self.REPORT))
        self.assertEqual(self.done("add"), "9 terms are in 5 shards, 1 were sent some\n")
        self.assertEqual(self.done(*self.REPORT), printed(PROGRAM, "report", "--dir", Bill.whole, *self.REPORT[1:]).decode())

    def test_a_client_that_is_killed(self):
        self.done("add", "--create", "--by", "hour", *Bill.terms)
        words = [sys.executable, "-B", "-m", "focusd_cluster", "import", "--dir", self.folder, "--scheduler", SCHEDULER, "--program", PROGRAM]
        environment = {**os.environ, "PYTHONPATH": os.path.dirname(os.path.dirname(hours.__file__))}
        choice = random.Random(3)
        for _ in range(2):
            client = subprocess.Popen([*words, "--origin", "export-1", Bill.exports[0]], env=environment, stdout=subprocess.PIPE, stderr=subprocess.PIPE)
            client.stderr.readline()
            time.sleep(choice.uniform(0, 0.5))
            client.kill()
            client.communicate()
        for number, export in enumerate(Bill.exports, 1):
            self.done("import", "--origin", f"export-{number}", export)
        self.assertEqual(self.done(*self.REPORT), printed(PROGRAM, "report", "--dir", Bill.whole, *self.REPORT[1:]).decode())

    def test_a_busy_folder_is_waited_for(self):
        self.fill()
        folder = os.open(f"{self.folder}/shards/2024-09-30", os.O_RDONLY)
        fcntl.flock(folder, fcntl.LOCK_EX)
        threading.Timer(1.5, os.close, [folder]).start()
        self.done(*self.REPORT)

    def test_one_command_at_a_time(self):
        self.fill()
        with open(f"{self.folder}/lock", "r+b") as lock:
            fcntl.flock(lock, fcntl.LOCK_EX)
            self.assertIn("another focusd-cluster works on it", self.refused(*self.REPORT))


class Faults(Folder):
    """A shard that doesn't hold what it must is named, and no number is printed."""

    QUESTIONS = (Again.REPORT, ("coverage", "--from", RANGE[0], "--to", RANGE[1]))

    def setUp(self):
        super().setUp()
        self.done("add", "--create", *Bill.terms[:3])
        self.done("import", "--origin", "export-1", Bill.exports[0])
        self.shard = f"{self.folder}/shards/2024-09-30"

    def check(self, what):
        for words in self.QUESTIONS:
            error = self.refused(*words)
            self.assertIn("focusd-cluster: shard 2024-09-30: ", error)
            self.assertIn(what, error)
        status, said, error = cluster("status", "--dir", self.folder)
        self.assertEqual(status, 1)
        self.assertIn(what, error)

    def test_a_missing_shard(self):
        shutil.rmtree(self.shard)
        self.check("the folder is missing")
        self.assertIn("the folder is missing", self.refused("import", "--origin", "export-2", Bill.exports[1]))
        self.assertFalse(os.path.exists(self.shard))

    def test_a_shard_without_its_files(self):
        for side in ("left", "right"):
            os.remove(f"{self.shard}/{side}")
        self.check("S1 NoHouse")

    def test_a_corrupt_shard(self):
        for side in ("left", "right"):
            with open(f"{self.shard}/{side}", "r+b") as file:
                file.seek(30)
                file.write(b"\xff" * 40)
        self.check("S2 Corrupt")

    def test_an_older_shard(self):
        older = shutil.copytree(self.shard, f"{self.room.name}/older")
        self.done("import", "--origin", "export-2", Bill.exports[1])
        shutil.rmtree(self.shard)
        shutil.copytree(older, self.shard)
        self.check("entries, and had")

    def test_a_shard_that_lacks_a_commitment(self):
        older = shutil.copytree(self.shard, f"{self.room.name}/older")
        self.done("add", Bill.terms[3])
        shutil.rmtree(self.shard)
        shutil.copytree(older, self.shard)
        self.check("it lacks a commitment: it has 3, and the cluster has 4 for it")

    def test_a_shard_with_rows_of_another(self):
        printed(PROGRAM, "import", "--dir", self.shard, "--origin", "stray", "--quiet", Bill.exports[1])
        self.check("entries, and had")
        self.assertIn("rows, and", self.refused("import", "--origin", "export-2", Bill.exports[1]))

    def test_words(self):
        self.assertIn("2024-13", self.refused("report", "--tag", "t", "--from", "2024-13", "--to", "2025-01", status=2))
        self.assertIn("hours", self.refused("coverage", "--from", "2024-02", "--to", "2024-01", status=2))
        self.assertIn("--by", self.refused("import", "--by", "hour", "--origin", "x", Bill.exports[0], status=2))
        self.assertIn("--origin", self.refused("import", "--origin", "a b", Bill.exports[0], status=2))
        self.assertIn("No such file", self.refused("import", "--origin", "x", "/nowhere/at/all"))
        shutil.rmtree(self.folder)
        self.assertIn("No such file", self.refused("status"))

    def test_a_record_that_cannot_be_dealt(self):
        """Nothing is in a shard before all files are cut."""
        bad = write_text(f"{self.room.name}/bad.csv", START_TIME.sub(r'\1,"yesterday"', read(Bill.exports[1]), count=1))
        self.assertIn("V7 Time", self.refused("import", "--origin", "bad", bad))
        self.assertFalse(os.listdir(f"{self.folder}/parts"))
        self.done(*self.QUESTIONS[0])


class Mending(Folder):
    """An export with a row that a shard refuses, where other shards have taken their parts."""

    def setUp(self):
        super().setUp()
        self.good = read(Bill.exports[1])
        self.export = f"{self.room.name}/export.csv"

    def check_whole(self):
        """The answers are those of one warehouse, and each shard holds what the manifest says."""
        for words in questions(*RANGE, []):
            self.assertEqual(self.done(*words), printed(PROGRAM, words[0], "--dir", Bill.whole, *words[1:]).decode())
        self.assertIn(f"{ROWS + ROWS // 2:,}", self.done("status"))

    def check_mending(self, bad, *shape):
        """Imports an export with a fault, and then the mended one: what the first import said."""
        self.done("add", "--create", *shape, *Bill.terms)
        self.done("import", "--origin", "export-1", Bill.exports[0])
        write_text(self.export, bad)
        error = self.refused("import", "--origin", "export-2", self.export)
        self.assertIn("the import of export-2 isn't finished", self.refused(*Again.REPORT))
        self.assertEqual(error, self.refused("import", "--origin", "export-2", self.export))
        write_text(self.export, self.good)
        self.assertIn(f"imported {ROWS // 2:,} rows", self.done("import", "--origin", "export-2", self.export))
        self.check_whole()
        self.assertFalse(os.listdir(f"{self.folder}/parts"))
        self.assertIn(" were there already", self.done("import", "--origin", "export-2", self.export))
        return error

    def spoiled(self):
        """The export with a wrong amount in the middle, and the line where it is."""
        lines = self.good.split("\n")
        place = next(place for place in range(len(lines) // 2, len(lines)) if AMOUNT.match(lines[place]))
        return "\n".join([*lines[:place], AMOUNT.sub("1.2.3,", lines[place]), *lines[place + 1 :]]), place + 1

    def test_a_wrong_amount(self):
        bad, line = self.spoiled()
        error = self.check_mending(bad)
        self.assertIn(f"{self.export}:{line}: ", error)
        self.assertIn("1.2.3", error)
        self.assertNotIn(f"{self.folder}/parts", error)

    def test_a_wrong_amount_in_piles(self):
        self.check_mending(self.spoiled()[0], "--by", "month", "--into", "3")

    def test_rows_that_are_gone(self):
        """The first version has a day that the mended one hasn't, and a row less in another."""
        record = next(line for line in self.good.split("\n")[1:] if AMOUNT.match(line) and line.endswith('"'))
        stray = re.sub(r"2024-\d\d-\d\dT", "2024-10-09T", record)
        self.check_mending(self.spoiled()[0].replace(f"{record}\n", "", 1) + stray + "\n")
        self.assertIn("2024-10-09", self.shards())

    def test_an_export_that_changes_twice(self):
        """A version, another one, and the first again: parts that were taken and removed are cut again."""
        bad, _ = self.spoiled()
        self.done("add", "--create", *Bill.terms)
        self.done("import", "--origin", "export-1", Bill.exports[0])
        other = write_text(f"{self.room.name}/other.csv", bad.replace("1.2.3,", "1.2.3.4,"))
        write_text(self.export, bad)
        for path in (self.export, other, self.export):
            self.refused("import", "--origin", "export-2", path)
        write_text(self.export, self.good)
        self.done("import", "--origin", "export-2", self.export)
        self.check_whole()


    def test_a_part_that_is_not_what_was_cut(self):
        """A machine that stops may leave a part with its length and other bytes: the parts are cut again."""
        self.done("add", "--create", *Bill.terms)
        self.done("import", "--origin", "export-1", Bill.exports[0])
        write_text(self.export, self.good)
        # A program that cuts, and imports nothing.
        stopped = write_text(f"{self.room.name}/stopped", f'#!/bin/sh\n[ "$1" = import ] && exit 1\nexec {PROGRAM} "$@"\n')
        os.chmod(stopped, 0o755)
        self.refused("import", "--program", stopped, "--origin", "export-2", self.export)
        parts = [os.path.join(at, name) for at, _, names in os.walk(f"{self.folder}/parts") for name in names if name.endswith(".csv")]
        text = read(parts[0])
        head, _, records = text.partition("\n")
        write_text(parts[0], head + "\n" + AMOUNT.sub(lambda found: "x" * (len(found[0]) - 1) + ",", records, count=1))
        self.assertEqual(len(read(parts[0])), len(text))
        error = self.refused("import", "--origin", "export-2", self.export)
        self.assertIn("a part of them was damaged", error)
        self.assertFalse(os.path.exists(f"{self.folder}/parts/export-2"))
        self.done("import", "--origin", "export-2", self.export)
        self.check_whole()


class Parts(unittest.TestCase):
    """What needs no program."""

    def test_hours(self):
        self.assertEqual(hours.text_of(hours.hour_of("2024-02-29T23:00Z") + 1), "2024-03-01T00:00Z")
        self.assertEqual(hours.hour_of("1970-01"), 0)
        for wrong in ("2024", "2024-02-30", "2024-01-01T00:30Z", "1969-12", "2024-1-1"):
            self.assertRaises(WrongWords, hours.hour_of, wrong)
        self.assertEqual(hours.gaps((0, 9), [(5, 7), (1, 3)]), [(0, 1), (3, 5), (7, 9)])
        self.assertEqual(hours.gaps((2, 4), [(2, 4)]), [])

    def test_each_hour_is_asked_for_once_in_each_pile(self):
        choice = random.Random(1)
        for piles in (1, 3):
            kept = manifest.new_manifest("USD", "day", piles)
            for day in choice.sample(range(1, 29), 9):
                low, high = f"2024-01-{day:02}", f"2024-01-{day + 1:02}"
                shard = manifest.new_shard(low, high, low, choice.randrange(1, piles + 1), piles)
                kept.shards[shard.name] = shard
            whole = (hours.hour_of("2024-01-02T05:00Z"), hours.hour_of("2024-01-27"))
            asked = [(shard.pile, hour) for shard, ranges in kept.asked(whole) for low, high in ranges for hour in range(low, high)]
            self.assertEqual(sorted(asked), [(pile, hour) for pile in range(1, piles + 1) for hour in range(*whole)])

    def test_a_manifest_is_read_as_it_was_written(self):
        with tempfile.TemporaryDirectory() as folder:
            kept = manifest.Cluster(folder)
            kept.manifest = manifest.new_manifest("EUR", "hour", 2)
            kept.manifest.terms.append(manifest.Term("commit", "ü", "terms/1.toml", "00", 2))
            kept.manifest.exports.append(manifest.Export("x", manifest.CUT, [manifest.Source("/a", 3, "00")], 7, {"rest.1": 7}))
            kept.save()
            again = manifest.Cluster(folder)
            again.load()
            self.assertEqual(again.manifest, kept.manifest)
            old = read(f"{folder}/manifest.json").replace('"format": 2', '"format": 1').replace('"digest": "', '"sha256": "')
            write_text(f"{folder}/manifest.json", old)
            again.load()
            self.assertEqual(again.manifest.exports[0].files, [manifest.Source("/a", 3, "sha256:00")])
            write_text(f"{folder}/manifest.json", '{"format": 3}')
            self.assertRaises(Fault, again.load)

    def test_layout(self):
        for nanos, text in ((5_000_000, "0.00"), (15_000_000, "0.02"), (-5_000_001, "-0.01"), (-1, "0.00"), (1_234_567_895_000_000, "1,234,567.90")):
            self.assertEqual(layout.cents(nanos), text)
        self.assertEqual([layout.share(*it) for it in ((1, 3), (1, 2_000), (-1, 3), (0, 0))], ["33.3%", "0.1%", "", ""])
        self.assertEqual(layout.table([layout.Align.LEFT, layout.Align.RIGHT], [["a", "12"], None, ["bcd", ""]]), "a    12\n---  --\nbcd\n")
        self.assertRaises(Fault, layout.table, [layout.Align.LEFT], [["ü"]])
        self.assertEqual(asking.amount(-asking.nanos("12.000000001")), "-12.000000001")


if __name__ == "__main__":
    if len(sys.argv) < 2 or sys.argv[1].startswith("-"):
        print(__doc__.strip())
        sys.exit(0 if {"-h", "--help"} & set(sys.argv) else 2)
    PROGRAM = os.path.abspath(sys.argv.pop(1))
    unittest.main()
