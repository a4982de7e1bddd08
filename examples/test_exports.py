#!/usr/bin/env python3
"""Runs `focusd check`, `import` and `replace` of a built program over exports as providers ship them.

    examples/test_exports.py out/focusd
    examples/test_exports.py out/focusd Headers.test_two_files_in_one_stream

A TEST is a class, or a test of one; without any all are run. What a stream of several files must give is what a stream without the further
headers gives.
"""
import bz2
import gzip
import io
import json
import lzma
import os
import pathlib
import subprocess
import zipfile

from program_tests import Case, program, run_tests

COLUMNS = "BilledCost,EffectiveCost,BillingCurrency,ChargeCategory,ChargePeriodStart,ChargePeriodEnd,Tags"
MARK = b"\xef\xbb\xbf"
TOTALS = ("--from", "2024-09", "--to", "2024-10")


def record(number, cost=None):
    """A record of an export: an hour of use, whose tags have a line feed within quotes in each seventh."""
    hour = f"2024-09-{number // 24 % 30 + 1:02}T{number % 24:02}:00Z"
    tags = '"{""team"":\n""web""}"' if number % 7 == 0 else ""
    return f"{cost or number},{number},USD,Usage,{hour},{hour.replace(':00Z', ':30Z')},{tags}"


def text(numbers, end="\n", mark=b"", last=True, header=COLUMNS):
    """An export of these records; the last one is ended or not."""
    lines = [header, *(record(it) for it in numbers)]
    return mark + (end.join(lines) + (end if last else "")).encode()


class Exports(Case):
    """A folder for exports and warehouses."""

    def house(self, name, given, *files):
        """A new warehouse with what is imported: what the import printed."""
        self.new_folder(name)
        return self.focusd("import", "--dir", name, "--create", "--origin", "aws", "--quiet", *(files or ["-"]), given=given)

    def answers(self, name):
        """What a warehouse says of its rows."""
        return self.focusd("report", "--dir", name, "--tag", "team", "--by", "hour", "--format", "csv", *TOTALS)


class Headers(Exports):
    """A header that stands again."""

    def test_two_files_in_one_stream(self):
        one, two = text(range(1, 40)), text(range(40, 90))
        self.assertEqual(self.focusd("check", "-", given=one + two)[1].split("\n")[0], "standard input: 89 records, 0 of them with faults; 0 faults; 1 repeated header skipped")
        self.assertEqual(self.house("both", one + two), (0, "imported 89 rows, 0 were there already; 2 posts; 1 repeated header skipped\n", ""))
        self.file("one.csv", one), self.file("two.csv", two)
        self.assertEqual(self.house("each", b"", "one.csv", "two.csv"), (0, "imported 89 rows, 0 were there already; 2 posts\n", ""))
        self.assertEqual(self.answers("both"), self.answers("each"))
        # Both have the same posts.
        again = self.focusd("import", "--dir", "both", "--origin", "aws", "--quiet", "one.csv", "two.csv")
        self.assertEqual(again, (0, "imported 0 rows, 89 were there already; 2 posts\n", ""))
        again = self.focusd("import", "--dir", "each", "--origin", "aws", "--quiet", "-", given=one + two)
        self.assertEqual(again, (0, "imported 0 rows, 89 were there already; 2 posts; 1 repeated header skipped\n", ""))

    def test_a_replacement(self):
        self.house("both", text(range(1, 40)))
        replaced = self.focusd("replace", "--dir", "both", "--origin", "aws", "--quiet", self.file("new.csv", text(range(1, 30)) + text(range(30, 80))))
        self.assertEqual((replaced[0], replaced[2]), (0, ""), replaced)
        self.house("each", text(range(1, 80)))
        self.assertEqual(self.answers("both"), self.answers("each"))

    def test_line_ends_and_marks(self):
        """A header with a byte order mark, with each line end, and without one at the end of the stream."""
        for end in ("\n", "\r\n", "\r"):
            for first in (b"", MARK):
                for second in (b"", MARK):
                    streams = [
                        (text(range(1, 9), end, first) + text(range(9, 20), end, second), 19, 1),
                        (text(range(1, 9), end, first) + end.encode() * 3 + text(range(9, 20), end, second, last=False), 19, 1),
                        (text(range(1, 9), end, first) + text([], end, second, last=False), 8, 1),
                        (text(range(1, 9), end, first) + text([], end, second) * 2, 8, 2),
                        (text([], end, first) + text([], end, second) * 3 + text(range(1, 20), end), 19, 4),
                    ]
                    for stream, records, headers in streams:
                        word = "header" if headers == 1 else "headers"
                        found = self.focusd("check", "-", given=stream)
                        self.assertEqual(found[0], 0, (stream, found))
                        self.assertEqual(found[1].split("\n")[0], f"standard input: {records} records, 0 of them with faults; 0 faults; {headers} repeated {word} skipped", stream)

    def test_in_json(self):
        one, two = text(range(1, 5)), text(range(5, 9))
        self.assertEqual(json.loads(self.focusd("check", "--format", "json", "-", given=one + two)[1])["repeatedHeaders"], 1)
        self.assertNotIn("repeatedHeaders", self.focusd("check", "--format", "json", "-", given=one)[1])

    def test_what_only_looks_like_the_header(self):
        """Records that begin like the header, miss its last byte, have quotes around it or blanks behind it are records."""
        for line in (COLUMNS + "x", COLUMNS[:-1], COLUMNS + ",", '"' + COLUMNS.replace(",", '","') + '"', COLUMNS + " ", COLUMNS.lower(), " " + COLUMNS):
            found = self.focusd("check", "-", given=text(range(1, 5)) + line.encode() + b"\n")
            self.assertEqual(found[0], 1, line)
            self.assertIn("standard input: 5 records, 1 of them with faults;", found[1])

    def test_lines_behind_a_header(self):
        """Lines count a header that is skipped, and records don't."""
        stream = text(range(1, 5)) + b"\n" + text(range(5, 9)) + record(9, "x").encode() + b"\n"
        line = stream[: stream.index(b"x,9")].count(b"\n") + 1
        found = self.focusd("check", "-", given=stream)
        self.assertIn(f"  standard input:{line}: record 9: \"x\"\n", found[1])
        status, printed, said = self.house("both", stream)
        self.assertEqual((status, printed), (1, ""))
        self.assertIn(f"focusd: standard input:{line}: record 9, BilledCost: \"x\": V5 Cost: expected ", said)

    def test_only_headers(self):
        self.assertEqual(self.focusd("check", "-", given=text([]) * 3)[0], 1)
        status, printed, said = self.house("none", text([]) * 3)
        self.assertEqual((status, printed), (1, ""))
        self.assertIn("V14 NoRows", said)

    def test_long_files(self):
        """Posts of 4,096 rows and less: those of the files one by one."""
        files = [text(range(1, 5000)), text(range(5000, 9097)), text(range(9097, 9100))]
        names = [self.file(f"{place}.csv", it) for place, it in enumerate(files)]
        self.assertEqual(self.house("each", b"", *names)[1], "imported 9099 rows, 0 were there already; 5 posts\n")
        again = self.focusd("import", "--dir", "each", "--origin", "aws", "--quiet", "-", given=b"".join(files))
        self.assertEqual(again, (0, "imported 0 rows, 9099 were there already; 5 posts; 2 repeated headers skipped\n", ""))


def zipped(content):
    """A zip archive with this as its one file."""
    out = io.BytesIO()
    with zipfile.ZipFile(out, "w") as archive:
        archive.writestr("costs.csv", content)
    return out.getvalue()


class Formats(Exports):
    """Files that are no CSV in UTF-8: what is said of each, and the command that is named."""

    CSV = text(range(1, 200))
    FORMATS = [
        ("costs.csv.gz", gzip.compress(CSV), "it is compressed by gzip", "gunzip -c", ""),
        ("costs.zip", zipped(CSV), "it is a zip archive or a spreadsheet", "unzip -p", "; save a spreadsheet as CSV"),
        ("costs.csv.zst", b"\x28\xb5\x2f\xfd\x00", "it is compressed by zstd", "zstd -dc", ""),
        ("costs.csv.bz2", bz2.compress(CSV), "it is compressed by bzip2", "bunzip2 -c", ""),
        ("costs.csv.xz", lzma.compress(CSV), "it is compressed by xz", "xz -dc", ""),
        ("utf16.csv", CSV.decode().encode("utf-16"), "it is UTF-16", "iconv -f UTF-16 -t UTF-8", "; or save it as UTF-8"),
        ("big.csv", b"\xfe\xff" + CSV.decode().encode("utf-16-be"), "it is UTF-16", "iconv -f UTF-16 -t UTF-8", "; or save it as UTF-8"),
    ]

    def commands(self, folder):
        """The commands that take exports, each with its words before the files."""
        return [("check",), ("import", "--dir", folder, "--origin", "aws"), ("replace", "--dir", folder, "--origin", "aws")]

    def test_each_format(self):
        self.house("costs", text(range(1, 5)))
        for name, content, kind, command, remedy in self.FORMATS:
            self.file(name, content)
            for words in self.commands("costs"):
                behind = "focusd: nothing was replaced\n" if words[0] == "replace" else ""
                todo = f"{command} {name} | focusd {words[0]} ... -{remedy}"
                self.assertEqual(self.focusd(*words, name), (1, "", f"focusd: {name}: {kind}. What to do: {todo}\n{behind}"))
                todo = f"... | {command} | focusd {words[0]} ... -{remedy}"
                self.assertEqual(self.focusd(*words, "-", given=content), (1, "", f"focusd: standard input: {kind}. What to do: {todo}\n{behind}"))

    def test_a_parquet_file(self):
        self.file("costs.parquet", b"PAR1" + bytes(99))
        self.assertEqual(self.focusd("check", "costs.parquet"), (1, "", "focusd: costs.parquet: it is a Parquet file. What to do: export it as CSV\n"))

    def test_a_name_that_a_shell_reads_otherwise(self):
        for name in ("my costs.gz", "a;b.gz", "$HOME.gz"):
            self.assertIn("What to do: gunzip -c FILE | focusd check ... -\n", self.focusd("check", self.file(name, gzip.compress(self.CSV)))[2])

    def test_short_files(self):
        """Files of each length below that of what is looked at, and the first bytes of each format."""
        for count in range(8):
            self.assertEqual(self.focusd("check", self.file("short.csv", self.CSV[:count]))[0], 1)
        for _, content, kind, _, _ in self.FORMATS:
            self.assertIn(kind, self.focusd("check", self.file("short.csv", content[:6]))[2])

    def test_a_mark_is_read(self):
        self.assertEqual(self.focusd("check", "-", given=MARK + self.CSV)[0], 0)

    def test_the_command_that_is_named(self):
        """What is named gives the same rows."""
        self.file("costs.csv.gz", gzip.compress(self.CSV))
        ran = subprocess.run(["sh", "-c", f"gunzip -c costs.csv.gz | {program()} check -"], capture_output=True, cwd=self.top)
        self.assertEqual((ran.returncode, ran.stdout.decode()), self.focusd("check", "-", given=self.CSV)[:2])


class Folders(Exports):
    """A folder in place of a file stands for the files in it whose names end in `.csv`."""

    def setUp(self):
        super().setUp()
        (self.top / "month" / "below.csv").mkdir(parents=True)
        (self.top / "none").mkdir()
        # the byte order of the names is neither the order in which they are made nor that of a dictionary
        self.names = ["10.csv", "9.csv", "B.csv", "a.csv", "ä.csv"]
        for name, first in zip(reversed(self.names), (81, 61, 41, 21, 1)):
            self.file(f"month/{name}", text(range(first, first + 20)))
        for name in ("month/a.CSV", "month/a.csv.gz", "month/acsv", "month/below.csv/x.csv"):
            self.file(name, b"no export")
        self.paths = [f"month/{name}" for name in self.names]

    def test_the_same_as_its_files(self):
        for name, files in (("one", ["month"]), ("slash", ["month/"]), ("many", self.paths)):
            self.house(name, b"", *files)
        self.assertEqual(self.answers("one"), self.answers("many"))
        self.assertEqual(self.answers("slash"), self.answers("many"))

    def test_the_posts_are_those_of_its_files(self):
        """An import of the files goes on one of the folder, and the other way round."""
        self.house("costs", b"", *self.paths[:3])
        ran = self.focusd("import", "--dir", "costs", "--origin", "aws", "month")
        self.assertEqual(ran, (0, "imported 40 rows, 60 were there already; 5 posts\n", ""))
        ran = self.focusd("import", "--dir", "costs", "--origin", "aws", *self.paths)
        self.assertEqual(ran, (0, "imported 0 rows, 100 were there already; 5 posts\n", ""))

    def test_among_files(self):
        self.file("first.csv", text(range(200, 210)))
        self.house("folder", b"", "first.csv", "month")
        self.house("files", b"", "first.csv", *self.paths)
        self.assertEqual(self.answers("folder"), self.answers("files"))

    def test_each_is_checked_in_order(self):
        status, printed, said = self.focusd("check", "month")
        self.assertEqual((status, said), (0, ""))
        heads = [line for line in printed.splitlines() if line.endswith("faults")]
        self.assertEqual(heads, [f"{path}: 20 records, 0 of them with faults; 0 faults" for path in self.paths])
        status, printed, said = self.focusd("check", "--format", "json", "month")
        self.assertEqual([json.loads(line)["file"] for line in printed.splitlines()], self.paths)

    def test_a_replacement(self):
        self.house("costs", text(range(1, 5)))
        ran = self.focusd("replace", "--dir", "costs", "--origin", "aws", "month")
        self.assertEqual((ran[0], ran[2]), (0, ""))
        self.house("files", b"", *self.paths)
        self.assertEqual(self.answers("costs"), self.answers("files"))

    def test_parts(self):
        ran = self.focusd("split", "--out", "parts", "month")
        self.assertEqual((ran[0], ran[2]), (0, ""))
        self.assertTrue(ran[1].startswith("split 100 rows into "))

    def test_a_fault_names_the_file_with_its_folder(self):
        # Record 42 has two lines.
        self.file("month/B.csv", text(range(41, 46)) + record(46, "much").encode() + b"\n")
        said = self.focusd("import", "--dir", "costs", "--create", "--origin", "aws", "month")[2]
        self.assertTrue(said.startswith("focusd: month/B.csv:8: record 6, BilledCost: "), said)
        status, printed, said = self.focusd("check", "month")
        self.assertEqual((status, printed.count(": 20 records")), (1, 4))

    def test_a_folder_without_exports(self):
        said = "focusd: none: F1 Read: it is a folder that has no file whose name ends in .csv\n"
        for words in (("check",), ("import", "--dir", "costs", "--create", "--origin", "aws")):
            self.assertEqual(self.focusd(*words, "none"), (1, "", said))
        status, printed, said = self.focusd("check", "none", "month")
        self.assertEqual((status, printed.count(": 20 records")), (1, 5))

    def test_a_name_that_is_no_text(self):
        """A folder whose files can't all be named is refused whole."""
        (pathlib.Path(os.fsdecode(os.fsencode(self.top / "month") + b"/\xff.csv"))).write_bytes(text(range(1, 3)))
        status, printed, said = self.focusd("check", "month")
        self.assertEqual((status, printed), (1, ""))
        self.assertTrue(said.startswith("focusd: month: F1 Read: "), said)


if __name__ == "__main__":
    run_tests(__doc__)
