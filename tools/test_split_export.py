#!/usr/bin/env python3
"""Tests of tools/split_export.py: how it cuts exports into scripts."""
import csv
import io
import os
import re
import subprocess
import sys
import tempfile
import unittest

from command_line import run_tests

TOOL = os.path.join(os.path.dirname(os.path.abspath(__file__)), "split_export.py")
HEADER = b"BilledCost,ChargeDescription\n"


def split(export, *options):
    """(exit status, script, complaint) of the tool on these bytes."""
    with tempfile.NamedTemporaryFile(suffix=".csv") as file:
        file.write(export)
        file.flush()
        ran = subprocess.run([sys.executable, TOOL, file.name, *options], capture_output=True)
        return ran.returncode, ran.stdout, ran.stderr.decode().replace(file.name, "FILE")


def read_script(script):
    """The posts of a script as (first line, text), each with the lines that it names, and the other lines."""
    lines = re.findall(rb"[^\n]*\n", script)
    posts, others = [], []
    while lines:
        line = lines.pop(0)
        words = line.decode().split()
        if words[0] != "post":
            others.append(line.decode())
            continue
        count = int(words[3])
        posts.append((line.decode().rstrip("\n"), b"".join(lines[:count])))
        del lines[:count]
    return posts, others


def rows_of(text):
    """The records of a text as Python's csv reads them, the header first."""
    return list(csv.reader(io.StringIO(text.decode("utf-8-sig"), newline="")))


class Cutting(unittest.TestCase):
    def posts(self, export, *options):
        status, script, complaint = split(export, *options)
        self.assertEqual((status, complaint), (0, ""))
        return read_script(script)[0]

    def test_one_piece_is_the_export(self):
        export = HEADER + b"1,a\n2,b\n"
        self.assertEqual(self.posts(export, "--origin", "july"), [("post july 1 3", export)])

    def test_4096_rows_are_one_post_and_4097_two(self):
        rows = [b"%d,x\n" % i for i in range(4097)]
        one = self.posts(HEADER + b"".join(rows[:4096]))
        self.assertEqual(one, [("post export 1 4097", HEADER + b"".join(rows[:4096]))])
        two = self.posts(HEADER + b"".join(rows), "--first-seq", "7")
        self.assertEqual(
            two,
            [
                ("post export 7 4097", HEADER + b"".join(rows[:4096])),
                ("post export 8 2", HEADER + rows[4096]),
            ],
        )

    def test_a_quoted_line_break_is_no_cut(self):
        export = HEADER + b'1,"first\nsecond, ""third""\n"\n2,b\n'
        self.assertEqual(
            self.posts(export, "--rows", "1"),
            [
                ("post export 1 4", HEADER + b'1,"first\nsecond, ""third""\n"\n'),
                ("post export 2 2", HEADER + b"2,b\n"),
            ],
        )

    def test_a_quoted_line_break_in_the_header(self):
        header = b'BilledCost,"Charge\nDescription"\n'
        posts = self.posts(header + b"1,a\n2,b\n", "--rows", "1")
        self.assertEqual(posts, [("post export 1 3", header + b"1,a\n"), ("post export 2 3", header + b"2,b\n")])

    def test_a_quote_within_an_unquoted_field_opens_nothing(self):
        export = HEADER + b'1,5" disk\n2,"a"b"c\n3,c\n'
        posts = self.posts(export, "--rows", "1")
        rows = [b'1,5" disk\n', b'2,"a"b"c\n', b"3,c\n"]
        self.assertEqual([text for _, text in posts], [HEADER + row for row in rows])

    def test_carriage_returns_stay(self):
        export = b"BilledCost,ChargeDescription\r\n" + b'1,"a\r\nb"\r\n2,b\r\n'
        self.assertEqual(
            self.posts(export, "--rows", "1"),
            [
                ("post export 1 3", b'BilledCost,ChargeDescription\r\n1,"a\r\nb"\r\n'),
                ("post export 2 2", b"BilledCost,ChargeDescription\r\n2,b\r\n"),
            ],
        )

    def test_a_last_line_without_line_feed_gets_one(self):
        self.assertEqual(self.posts(HEADER + b"1,a"), [("post export 1 2", HEADER + b"1,a\n")])
        self.assertEqual(self.posts(HEADER + b"1,a\r"), [("post export 1 2", HEADER + b"1,a\r\n")])
        self.assertEqual(self.posts(HEADER + b'1,"a"'), [("post export 1 2", HEADER + b'1,"a"\n')])

    def test_carriage_returns_alone_end_records(self):
        posts = self.posts(b"BilledCost\r1\r2\r", "--rows", "1")
        self.assertEqual(posts, [("post export 1 1", b"BilledCost\r1\r\n"), ("post export 2 1", b"BilledCost\r2\r\n")])

    def test_a_byte_order_mark_stays_before_each_header(self):
        header = b'\xef\xbb\xbf"Billed\nCost",ChargeDescription\n'
        posts = self.posts(header + b"1,a\n2,b\n", "--rows", "1")
        self.assertEqual(posts, [("post export 1 3", header + b"1,a\n"), ("post export 2 3", header + b"2,b\n")])

    def test_blank_lines_are_no_rows(self):
        posts = self.posts(b"\n\r\n" + HEADER + b"\n1,a\n\n\n2,b\n\n", "--rows", "1")
        self.assertEqual([text for _, text in posts], [HEADER + b"1,a\n", HEADER + b"2,b\n"])

    def test_records_across_reads(self):
        """Three megabytes of rows, so that records lie across the chunks that are read."""
        rows = [b'%d,"%s,\n""%d"""\r\n' % (i, b"x" * (i % 977), i) for i in range(6000)]
        export = b"BilledCost,ChargeDescription\r\n" + b"".join(rows)
        self.assertGreater(len(export), 2_500_000)
        posts = self.posts(export, "--rows", "500")
        self.assertEqual(len(posts), 12)
        self.assertEqual([row for _, text in posts for row in rows_of(text)[1:]], rows_of(export)[1:])

    def test_reports_stand_at_the_end(self):
        reports = ["--report", "team", "2024-01-01T00:00Z", "2024-01-02T00:00Z", "--report", "cost center", "A", "B"]
        status, script, _ = split(HEADER + b"1,a\n", *reports)
        self.assertEqual(status, 0)
        posts, others = read_script(script)
        self.assertEqual(len(posts), 1)
        self.assertEqual(others, ["report team 2024-01-01T00:00Z 2024-01-02T00:00Z\n", "report cost center A B\n"])

    def test_a_bad_file_is_named(self):
        for export, why in [
            (b"", "no header"),
            (b"\xef\xbb\xbf\n\n", "no header"),
            (HEADER, "no row"),
            (HEADER + b'1,a\n2,"b\n3,c\n', "row 2 has no end"),
            (b'"BilledCost\n1\n', "the header has no end"),
            (b"\x1f\x8b\x08\0", "gunzip"),
            (b"PAR1\0\0", "Parquet"),
        ]:
            with self.subTest(why=why):
                status, _, complaint = split(export)
                self.assertEqual(status, 1)
                self.assertTrue(complaint.startswith("split_export.py: FILE: "), complaint)
                self.assertIn(why, complaint)
        ran = subprocess.run([sys.executable, TOOL, "no-such-file.csv"], capture_output=True, text=True)
        self.assertEqual(ran.returncode, 1)
        self.assertIn("no-such-file.csv: No such file", ran.stderr)

    def test_a_wrong_command_line(self):
        for options in [
            ["--rows", "0"],
            ["--rows", "4097"],
            ["--first-seq", "0"],
            ["--origin", "two words"],
            ["--origin", ""],
            ["--report", "team", "2024-01-01T00:00Z"],
            ["--report", "team", "2024-01-01 00:00Z", "2024-01-02T00:00Z"],
        ]:
            with self.subTest(options=options):
                self.assertEqual(split(HEADER + b"1,a\n", *options)[0], 2)


if __name__ == "__main__":
    run_tests(__doc__)
