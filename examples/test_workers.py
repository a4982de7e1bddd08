#!/usr/bin/env python3
"""Runs `focusd import --workers N` of a built program, and compares what comes of it with an import by one worker.

    examples/test_workers.py out/focusd

What one worker imports is compared with another program by the other tests. Here both files of each warehouse, the answer, the status and the words on
standard error have to be the same, to the byte: of long files, of several, of a folder, of standard input, with kept columns, in a dialect, and where a
file has a fault, is cut off, or was imported before.
"""
import contextlib
import random
import subprocess
import sys

import expected
from import_tests import Case, export_of_chance, header_of_chance
from program_tests import HERE, program, run_tests
from test_dialects import in_dialect, spelled

NUMBERS = (2, 3, 8, 64)


def made(rows, seed=1, form="medium"):
    """An export of so many rows."""
    words = [sys.executable, str(HERE / "make_export.py"), "--rows", str(rows), "--hours", "200", "--seed", str(seed), "--form", form]
    return subprocess.run(words, check=True, stdout=subprocess.PIPE).stdout


class Workers(Case):
    """Imports by several workers."""

    long = made(20_000)
    other = made(9_000, seed=2, form="full")

    def imported(self, name, workers, *words, given=b""):
        """What an import into a folder answers, and the files that it leaves."""
        house = self.top / name
        house.mkdir(exist_ok=True)
        done = self.focusd("import", "--dir", house, "--create", "--origin", "a", "--workers", workers, *words, given=given)
        return done, [(house / side).read_bytes() if (house / side).exists() else None for side in ("left", "right")]

    def same(self, *words, given=b"", status=0):
        """All numbers of workers do the same, which ends with this status."""
        one = self.imported("one", 1, *words, given=given)
        self.assertEqual(one[0][0], status, one[0])
        for workers in NUMBERS:
            several = self.imported(f"{workers}", workers, *words, given=given)
            self.assertEqual(several[0], one[0], workers)
            self.assertEqual([it == other for it, other in zip(several[1], one[1])], [True, True], workers)
        return one[0]

    def write(self, name, text):
        (self.top / name).parent.mkdir(exist_ok=True)
        (self.top / name).write_bytes(text)
        return name

    def test_long_files(self):
        names = [self.write("long.csv", self.long), self.write("other.csv", self.other)]
        answer = self.same(*names)[1]
        self.assertIn("imported 29000 rows, 0 were there already", answer)
        # Again, and with more of the same.
        self.assertIn("imported 0 rows, 29000 were there already", self.same(*names)[1])
        names.append(self.write("more.csv", made(5_000, seed=3)))
        self.assertIn("imported 5000 rows, 29000 were there already", self.same(*names)[1])

    def test_a_folder_and_standard_input(self):
        for seed in range(3):
            self.write(f"exports/{seed}.csv", made(4_500, seed=seed))
        self.assertIn("imported 13500 rows", self.same("exports")[1])
        for workers in (1, *NUMBERS):
            done, _files = self.imported(f"input-{workers}", workers, "-", given=self.long)
            self.assertEqual((done[0], done[1].split(",")[0]), (0, "imported 20000 rows"))

    def test_kept_columns(self):
        self.write("other.csv", self.other)
        self.assertIn("imported 9000 rows", self.same("--keep", "ServiceName=service", "--keep", "RegionId", "other.csv")[1])
        # The same rows with other tags aren't the same.
        self.assertIn("Differs", self.same("--keep", "ServiceName=service", "other.csv", status=1)[2])

    def test_headers_that_stand_again(self):
        header, rest = self.long.split(b"\n", 1)
        lines = rest.splitlines(keepends=True)
        self.write("long.csv", header + b"\n" + b"".join(lines[:6_000]) + header.removeprefix(expected.MARK) + b"\n" + b"".join(lines[6_000:]))
        self.assertIn("1 repeated header skipped", self.same("long.csv")[1])

    def test_a_dialect(self):
        rng = random.Random(4)
        header, records = in_dialect(export_of_chance(rng, 9_000, header_of_chance(rng, 2, tagless=10**9)), rng)
        self.write("gcp.csv", spelled(header, records, rng))
        self.assertIn("imported 9000 rows", self.same("--dialect", "gcp", "gcp.csv")[1])

    def test_faults(self):
        lines = self.long.splitlines(keepends=True)
        for place in (1, 4_096, 4_097, 13_000, 20_000):
            broken = [*lines]
            broken[place] = broken[place].replace(b"USD", b"EUR")
            self.write("broken.csv", b"".join(broken))
            said = self.same("broken.csv", status=1)[2]
            self.assertIn(f"broken.csv:{place + 1}: record {place}, BillingCurrency", said)
            for name in ("one", *map(str, NUMBERS)):
                for side in ("left", "right"):
                    (self.top / name / side).unlink(missing_ok=True)

    def test_a_fault_while_standard_input_stays_open(self):
        lines = self.long.splitlines(keepends=True)
        lines[1] = lines[1].replace(b"USD", b"EUR")
        for workers, parts in ((1, 0), (2, 2)):
            # No less than what is read before the first part is taken: two MiB and a piece behind the parts that are cut.
            sent = len(b"".join(lines[: 1 + 4_096 * parts])) + (2 << 20) + (64 << 10)
            words = [program(), "import", "--dir", "open", "--create", "--origin", "a", "--workers", str(workers), "-"]
            with subprocess.Popen(words, stdin=subprocess.PIPE, stderr=subprocess.PIPE, cwd=self.top, bufsize=0) as run:
                # It may end before it has read all of it.
                with contextlib.suppress(BrokenPipeError):
                    run.stdin.write(b"".join(lines)[:sent])
                # The pipe is closed behind this alone.
                self.assertEqual(run.wait(timeout=60), 1, workers)
                self.assertIn(b"standard input:2: record 1, BillingCurrency", run.stderr.read(), workers)

    def test_standard_input_that_comes_in_small_pieces(self):
        # Records of which fewer than a post can have are within two MiB, so that bytes say where a part ends.
        header = "BilledCost,EffectiveCost,BillingCurrency,ChargeCategory,ChargePeriodStart,ChargePeriodEnd,Note"
        lines = [f"{it},{it},USD,Usage,2024-01-01T00Z,2024-01-01T01Z,{'x' * (900 + it % 7)}" for it in range(6_000)]
        wide = "\n".join([header, *lines, ""]).encode()
        self.write("wide.csv", wide)
        right = self.imported("file", 1, "wide.csv")
        self.assertEqual(right[0][0], 0, right[0])
        for workers, size in ((1, 10_007), (3, 10_007), (1, 100_003)):
            house = self.new_folder(f"piped-{workers}-{size}")
            words = [program(), "import", "--dir", house, "--create", "--origin", "a", "--workers", str(workers), "-"]
            with subprocess.Popen(words, stdin=subprocess.PIPE, stdout=subprocess.PIPE, bufsize=0) as run:
                for at in range(0, len(wide), size):
                    run.stdin.write(wide[at : at + size])
                run.stdin.close()
                self.assertEqual((run.stdout.read().decode(), run.wait()), (right[0][1], 0))
            self.assertEqual([(house / side).read_bytes() == it for side, it in zip(("left", "right"), right[1])], [True, True])

    def test_an_end_within_quotes(self):
        self.write("cut.csv", self.long + b'"' + b"x" * (5 << 20))
        self.assertIn("V16 LongRecord", self.same("cut.csv", status=1)[2])

    def test_a_summary(self):
        self.write("long.csv", self.long)
        self.assertIn('"rowsAdded":20000', self.same("--summary", "json", "long.csv")[1])

    def test_reports(self):
        self.imported("one", 1, self.write("long.csv", self.long))
        commitment = (HERE / "commitment.toml").read_bytes()
        self.do("add", "--dir", "one", "--origin", "b", self.write("commitment.toml", commitment))
        for words in (("report",), ("report", "--by", "day"), ("report", "--by", "month", "--format", "json"), ("compare", "--month", "2024-09", "--before", "2024-09-02")):
            words = (*words, "--dir", "one", "--tag", "team")
            one = self.focusd(*words, "--workers", 1)
            self.assertEqual(one[0], 0, one)
            for workers in ((), *(("--workers", it) for it in NUMBERS)):
                self.assertEqual(self.focusd(*words, *workers), one, (words, workers))
        for command in ("report", "compare"):
            for workers in ("0", "65", "x", ""):
                self.assertEqual(self.focusd(command, "--dir", "one", "--tag", "team", "--workers", workers)[0], 2, workers)

    def test_how_many(self):
        self.write("long.csv", self.long)
        for workers in ("0", "65", "-1", "x", ""):
            self.assertEqual(self.imported("none", workers, "long.csv")[0][0], 2, workers)


if __name__ == "__main__":
    run_tests(__doc__)
