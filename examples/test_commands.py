#!/usr/bin/env python3
"""Runs the commands for people of a built program, and compares what they print with what another program computed.

    examples/test_commands.py out/focusd
    examples/test_commands.py out/focusd Files.test_an_import_is_taken_once

A TEST is a class, or a test of one; without any all are run.
The warehouse is made from a script by `focusd run --dir`. What reports and lines must be comes from expected.py; a table is
made of that here, by Python's decimal.
"""
import csv
import datetime
import decimal
import errno
import fcntl
import html.parser
import io
import json
import os
import pathlib
import re
import resource
import shutil
import signal
import struct
import subprocess
import sys
import tempfile
import time
import unittest

import expected
from program_tests import HERE, Case, OneFolder, focusd, program, run_tests, temporary_folder

CENT = decimal.Decimal("0.01")
COVERAGE_HEADER = [
    "CommitmentDiscountId", "CommitmentDiscountCategory", "Unit", "Capacity", "Used", "Unused", "UsedCost", "UnusedCost", "BilledCost",
]  # fmt: skip
MONTH = ("--from", "2024-01", "--to", "2024-02")
# What is said where the policy of commitments.script, which is for teams, is not of the tag that is asked for.
OTHER_POLICY = "the policy is for the tag team, so ChargedCost is EffectiveCost\n"
# What is said of a record and of a header that is too long.
TOO_LONG = "V16 LongRecord: expected a record of at most 4 MiB. Look for a quote that is not closed, in this record or before it.\n"
LONG_HEADER = "H3 LongHeader: expected a header of at most 2 MiB. Look for a quote in the header that is not closed, and whether the file is a CSV at all.\n"


def system(number):
    """What the system says of an error."""
    return f"{os.strerror(number)} (os error {number})"


# What is said where standard output is on a full disk.
FULL_OUTPUT = (
    f"focusd: F2 Write\nstandard output: {system(errno.ENOSPC)}. What to do: "
    "Look for a full disk. Send the entries again whose answers didn't come out: none counts twice.\n"
)
# Its name is that of a file, which opens, and of which no byte at the front can be read.
UNREADABLE = "/proc/self/mem"


def no_house(folder):
    """What a command says of a folder without a warehouse."""
    remedy = "Give the right folder, or make one by --create of focusd run, import or load."
    return f"focusd: S1 NoHouse\n{folder}: the folder holds no warehouse. What to do: {remedy}\n"


def applied(key, entry, sender):
    """What a report of a tag says of the policy for it, which is that entry of the warehouse, and of that sender and number."""
    return f"costs are shared by the policy for the tag {key}: entry {entry}, {sender}\n"


def no_key(key, there):
    """What a report says of a tag that no row and no commitment of its range has, where these are there."""
    return f"focusd: no row and no commitment of the range has the tag {key}; the tags there are: {there}\n"


def full(*words, given=b""):
    """The status and standard error of a run whose standard output is on a full disk."""
    with open("/dev/full", "wb") as output:
        ran = subprocess.run([program(), *words], input=given, stdout=output, stderr=subprocess.PIPE)
    return ran.returncode, ran.stderr.decode()


def at_a_terminal(lines, *words, **options):
    """The status of a run, and the first so many lines that it writes to a terminal as its standard error."""
    ours, terminal = os.openpty()
    run = subprocess.run([program(), *words], stderr=terminal, **options)
    os.close(terminal)
    said = b""
    while said.count(b"\n") < lines:
        said += os.read(ours, 4096)
    os.close(ours)
    return run.returncode, said.decode().splitlines()


def within(limit):
    """Options of a run in which no file may grow past so many bytes: writing there is an error, and no signal."""

    def set_limit():
        signal.signal(signal.SIGXFSZ, signal.SIG_IGN)
        resource.setrlimit(resource.RLIMIT_FSIZE, (limit, limit))

    return {"preexec_fn": set_limit, "restore_signals": False}


def with_no_reader(words):
    """The status and standard error of a run whose standard output nobody reads."""
    read, write = os.pipe()
    os.close(read)
    ran = subprocess.run([program(), *words], stdin=subprocess.DEVNULL, stdout=write, stderr=subprocess.PIPE)
    os.close(write)
    return ran.returncode, ran.stderr


def warehouse_of(script, currency="USD"):
    """The warehouse that expected.py keeps of a script of entries."""
    kept = expected.Warehouse(currency)
    how = {"post": kept.post, "commit": kept.commit, "policy": kept.set_policy, "add": kept.add_purchase}
    lines = io.BytesIO(script)
    for line in lines:
        words = line.decode().split()
        if words and words[0] in how:
            content = b"".join(next(lines) for _ in range(int(words[3])))
            kept.enter(words[1], words[2], how[words[0]], content)
        elif words and words[0] == "withdraw":
            kept.withdraw(words[1], words[2], int(words[3]))
    return kept


def cents(nanos):
    """An amount as a table shows it."""
    rounded = (decimal.Decimal(nanos) / 10**9).quantize(CENT, rounding=decimal.ROUND_HALF_EVEN)
    return f"{rounded + 0:,}"


def share(part, whole):
    """A share as a table shows it."""
    if part < 0 or whole <= 0:
        return ""
    tenths = (2000 * part + whole) // (2 * whole)
    return f"{tenths // 10}.{tenths % 10}%"


def periods(low, high, by):
    """The periods of a range of instants: cut where a new hour, day or month begins."""
    start, end = (datetime.datetime.strptime(it, "%Y-%m-%dT%H:%MZ") for it in (low, high))
    cut = [start]
    while cut[-1] < end:
        last = cut[-1]
        following = {
            "hour": last + datetime.timedelta(hours=1),
            "day": datetime.datetime(last.year, last.month, last.day) + datetime.timedelta(days=1),
            "month": datetime.datetime(last.year + last.month // 12, last.month % 12 + 1, 1),
        }[by]
        cut.append(min(following, end))
    texts = [it.strftime("%Y-%m-%dT%H:%MZ") for it in cut]
    return list(zip(texts, texts[1:]))


def units(nanos):
    """An amount exact to the nano."""
    sign = "-" if nanos < 0 else ""
    return f"{sign}{abs(nanos) // 10**9}.{abs(nanos) % 10**9:09}"


def shown(rows, names):
    """The lines of a report: kind, group and costs, of these groups (all where there is none), and the sums of the others."""
    lines = [("group", *row) for row in rows if names is None or row[0] in names]
    rest = [row for row in rows if names is not None and row[0] not in names]
    if rest:
        lines.append(("others", "(others)", *(sum(row[at] for row in rest) for at in (1, 2, 3))))
    return lines


def most_charged(rows, count):
    """The groups that are charged most, those first in byte order where they are charged alike."""
    return {row[0] for row in sorted(rows, key=lambda row: (-row[3], row[0].encode()))[:count]}


class Page(html.parser.HTMLParser):
    """What a page has: its tables as lists of rows of texts, its tags, and the attributes of all of them."""

    def __init__(self, text):
        super().__init__()
        self.tables, self.tags, self.attributes, self.titles = [], [""], [], []
        self.feed(text)

    def handle_starttag(self, tag, attributes):
        self.tags.append(tag)
        self.attributes += attributes
        if tag == "table":
            self.tables.append([])
        elif tag == "tr":
            self.tables[-1].append([])
        elif tag in ("td", "th"):
            self.tables[-1][-1].append("")
        elif tag == "title":
            self.titles.append("")

    def handle_data(self, text):
        if self.tags[-1] in ("td", "th"):
            self.tables[-1][-1][-1] += text
        elif self.tags[-1] == "title":
            self.titles[-1] += text

    def handle_endtag(self, tag):
        self.tags.append("/" + tag)


class Paths(Case):
    """A folder whose files are named by their paths, for runs in another folder."""

    def file(self, name, content):
        return str(self.top / super().file(name, content))


class Commands(OneFolder):
    """Each command over the shipped scripts."""

    @classmethod
    def setUpClass(cls):
        super().setUpClass()
        cls.folder = str(cls.room)
        cls.script = cls.entries()
        status, _, said = focusd("run", "--dir", cls.folder, "--create", given=cls.script)
        assert status == 0, said
        cls.kept = warehouse_of(cls.script)

    @classmethod
    def entries(cls):
        """The script that the warehouse is made of."""
        return (HERE / "commitments.script").read_bytes()

    def asked(self, *words, saying=""):
        """What a command over the warehouse prints, and nothing but this on standard error; of a report for teams the policy too."""
        status, printed, said = focusd(words[0], "--dir", self.folder, *words[1:])
        if words[0] == "report" and words[words.index("--tag") + 1] == "team" and "--direct" not in words:
            saying += applied("team", 10, "year 10")
        self.assertEqual((status, said), (0, saying), words)
        return printed

    def report(self, key, low, high):
        """The report of expected.py, as a CSV and as rows of group and nanos."""
        text = self.kept.report(key, low, high)
        text = text.split("\n", 1)[1]
        rows = list(expected.csv.reader(text.splitlines()))[1:]
        return text, [(row[0], *(expected.nanos(it) for it in row[1:])) for row in rows]

    def test_report_csv(self):
        for key, said in (("team", ""), ("env", no_key("env", "team") + OTHER_POLICY), ("no such tag", no_key("no such tag", "team") + OTHER_POLICY)):
            text, _ = self.report(key, "2024-01-01T00:00Z", "2024-02-01T00:00Z")
            self.assertEqual(self.asked("report", "--tag", key, *MONTH, "--format", "csv", saying=said), text)

    def test_report_table(self):
        _, rows = self.report("team", "2024-01-01T00:00Z", "2024-02-01T00:00Z")
        totals = [sum(row[at] for row in rows) for at in (1, 2, 3)]
        cells = [["Group", "BilledCost", "EffectiveCost", "ChargedCost", "Share"]]
        for group, *costs in [*rows, ("Total", *totals)]:
            cells.append([group or "(untagged)", *map(cents, costs), share(costs[2], totals[2])])
        widths = [max(len(row[at]) for row in cells) for at in range(5)]
        rule = "  ".join("-" * width for width in widths)
        lines = ["  ".join(it.ljust(w) if at == 0 else it.rjust(w) for at, (it, w) in enumerate(zip(row, widths))) for row in cells]
        lines = [lines[0], rule, *lines[1:-1], rule, lines[-1]]
        self.assertEqual(self.asked("report", "--tag", "team", *MONTH).splitlines(), lines)

    def test_report_by(self):
        for by, low, high in (
            ("hour", "2024-01-01T05:00Z", "2024-01-02T03:00Z"),
            ("day", "2024-01-01T05:00Z", "2024-01-04T02:00Z"),
            ("month", "2023-12-31T23:00Z", "2024-03-01T00:00Z"),
        ):
            wanted = [["From", "To", "Kind", "Group", "BilledCost", "EffectiveCost", "ChargedCost"]]
            for start, end in periods(low, high, by):
                wanted += [[start, end, kind, group, *map(units, costs)] for kind, group, *costs in shown(self.report("team", start, end)[1], None)]
            printed = self.asked("report", "--tag", "team", "--from", low, "--to", high, "--by", by, "--format", "csv")
            self.assertEqual(list(csv.reader(io.StringIO(printed))), wanted, by)
            self.assertGreater(len(wanted), 4, by)

    def test_report_by_month_is_the_whole(self):
        # What each group was billed and cost in the months is what it was billed and cost in all of them.
        low, high = "2024-01-01T00:00Z", "2024-03-01T00:00Z"
        _, rows = self.report("team", low, high)
        printed = self.asked("report", "--tag", "team", "--from", "2024-01", "--to", "2024-03", "--by", "month", "--format", "csv")
        sums = {}
        for _, _, _, group, *costs in list(csv.reader(io.StringIO(printed)))[1:]:
            before = sums.get(group, (0, 0))
            sums[group] = tuple(it + expected.nanos(cost) for it, cost in zip(before, costs))
        self.assertEqual(sums, {row[0]: row[1:3] for row in rows})

    def test_report_top(self):
        low, high = "2024-01-01T00:00Z", "2024-02-01T00:00Z"
        _, rows = self.report("team", low, high)
        self.assertGreater(len(rows), 2)
        for count in (1, 2, len(rows), 1000):
            names = most_charged(rows, count)
            wanted = [[low, high, kind, group, *map(units, costs)] for kind, group, *costs in shown(rows, names)]
            printed = self.asked("report", "--tag", "team", *MONTH, "--top", str(count), "--format", "csv")
            self.assertEqual(list(csv.reader(io.StringIO(printed)))[1:], wanted, count)
            table = self.asked("report", "--tag", "team", *MONTH, "--top", str(count)).splitlines()
            cells = [expected.re.split("  +", line)[:4] for line in table[2:-2]]
            self.assertEqual(cells, [[group or "(untagged)", *map(cents, costs)] for _, group, *costs in shown(rows, names)])

    def test_report_by_table(self):
        low, high = "2024-01-01T00:00Z", "2024-02-01T00:00Z"
        _, rows = self.report("team", low, high)
        names = most_charged(rows, 1)
        wanted = []
        for start, end in periods(low, high, "day"):
            own = self.report("team", start, end)[1]
            total = sum(row[3] for row in own)
            for _, group, *costs in shown(own, names):
                wanted.append([start[:10], group or "(untagged)", *map(cents, costs), *filter(None, [share(costs[2], total)])])
        table = self.asked("report", "--tag", "team", *MONTH, "--by", "day", "--top", "1").splitlines()
        self.assertEqual([re.split("  +", line.strip()) for line in table[2:-2]], wanted)
        totals = [sum(row[at] for row in rows) for at in (1, 2, 3)]
        self.assertEqual(table[-1].split(), ["Total", *map(cents, totals), share(totals[2], totals[2])])

    def test_report_json(self):
        low, high = "2024-01-01T00:00Z", "2024-02-01T00:00Z"
        _, rows = self.report("team", low, high)

        def members(start, end, names):
            own = self.report("team", start, end)[1]
            costs = lambda it: dict(zip(("billed", "effective", "charged"), map(units, it)))
            return {
                "from": start,
                "to": end,
                "groups": [{"group": group, "kind": kind, **costs(it)} for kind, group, *it in shown(own, names)],
                "total": costs(sum(row[at] for row in own) for at in (1, 2, 3)),
            }

        whole = {"tag": "team", "currency": "USD", **members(low, high, None)}
        printed = self.asked("report", "--tag", "team", *MONTH, "--format", "json")
        self.assertEqual(json.loads(printed), whole)
        self.assertEqual((printed.count("\n"), printed[-1]), (1, "\n"))
        names = most_charged(rows, 1)
        whole = {"tag": "team", "currency": "USD", **members(low, high, names), "by": "day", "periods": [members(*it, names) for it in periods(low, high, "day")]}
        printed = self.asked("report", "--tag", "team", *MONTH, "--by", "day", "--top", "1", "--format", "json")
        self.assertEqual(json.loads(printed), whole)

    def test_report_html(self):
        low, high = "2024-01-01T00:00Z", "2024-02-01T00:00Z"
        _, rows = self.report("team", low, high)
        totals = [sum(row[at] for row in rows) for at in (1, 2, 3)]
        groups = [[group or "(untagged)", *map(cents, costs), share(costs[2], totals[2])] for group, *costs in [*rows, ("Total", *totals)]]
        plain = Page(self.asked("report", "--tag", "team", *MONTH, "--format", "html"))
        self.assertEqual([row for row in plain.tables[0][1:]], groups)
        by_day = Page(self.asked("report", "--tag", "team", *MONTH, "--by", "day", "--format", "html"))
        self.assertEqual(by_day.tables[1][1:], groups)
        names = sorted((row[0] for row in rows), key=str.encode)
        self.assertEqual(by_day.tables[0][0], ["Period", *(it or "(untagged)" for it in names), "Total"])
        for row, (start, end) in zip(by_day.tables[0][1:], periods(low, high, "day")):
            own = {it[0]: it[3] for it in self.report("team", start, end)[1]}
            self.assertEqual(row, [start[:10], *(cents(own[it]) if it in own else "" for it in names), cents(sum(own.values()))])
        for page in (plain, by_day):
            self.assertFalse({"script", "link", "img", "iframe", "object"} & set(page.tags))
            self.assertFalse([it for it in page.attributes if it[0] in ("src", "href", "onload")])

    def test_names_that_look_like_markup(self):
        names = ['<b class="x">', "a&lt;b", "it's", "(others)", 'say "hi"', "</title>"]
        head = "BilledCost,EffectiveCost,BillingCurrency,ChargeCategory,ChargePeriodStart,ChargePeriodEnd,Tags"
        rows = [(json.dumps({"<t>": name}), cost + 1) for cost, name in enumerate(names)]
        quoted = ['"' + tags.replace('"', '""') + '"' for tags, _ in rows]
        lines = [head, *(f"{cost},{cost},USD,Usage,2024-01-01T00:00Z,2024-01-01T01:00Z,{tags}" for (_, cost), tags in zip(rows, quoted))]
        with tempfile.TemporaryDirectory() as folder:
            script = f"post a 1 {len(lines)}\n" + "\n".join(lines) + "\n"
            self.assertEqual(focusd("run", "--dir", folder, "--create", given=script.encode())[0], 0)
            words = ("report", "--dir", folder, "--tag", "<t>", *MONTH)
            ordered = sorted(names, key=str.encode)
            found = json.loads(focusd(*words, "--format", "json")[1])
            self.assertEqual((found["tag"], [it["group"] for it in found["groups"]]), ("<t>", ordered))
            found = json.loads(focusd(*words, "--format", "json", "--top", "3")[1])
            self.assertEqual([(it["group"], it["kind"]) for it in found["groups"]], [*((it, "group") for it in ordered if it in names[3:]), ("(others)", "others")])
            text = focusd(*words, "--format", "html", "--by", "day")[1]
            page = Page(text)
            self.assertEqual([row[0] for row in page.tables[1][1:-1]], ordered)
            self.assertEqual(page.titles[0], "Costs by <t>")
            self.assertEqual([it.split(", ", 1)[1] for it in page.titles[1:]], [f"{it}: {names.index(it) + 1}.00" for it in ordered])
            self.assertNotIn("b", page.tags)

    def test_bars_of_a_page(self):
        """Each bar is as long as its part of the room, to the right of zero, or to the left where the charge is below zero."""
        head = "BilledCost,EffectiveCost,BillingCurrency,ChargeCategory,ChargePeriodStart,ChargePeriodEnd,Tags"
        for costs, bars in (
            ({"a": 30, "b": -10, "c": 0}, {"a": ("25.0", "75.0"), "b": ("0.0", "25.0"), "c": ("25.0", "0.0")}),
            ({"a": -5, "b": -20}, {"a": ("75.0", "25.0"), "b": ("0.0", "100.0")}),
            ({"a": 20, "b": 5}, {"a": ("0.0", "100.0"), "b": ("0.0", "25.0")}),
            ({"a": 0}, {"a": ("0.0", "0.0")}),
        ):
            rows = [f'{cost},{cost},USD,Usage,2024-01-01T00:00Z,2024-01-01T01:00Z,"{{""team"":""{name}""}}"' for name, cost in costs.items()]
            script = f"post a 1 {len(rows) + 1}\n" + "\n".join([head, *rows]) + "\n"
            with tempfile.TemporaryDirectory() as folder:
                self.assertEqual(focusd("run", "--dir", folder, "--create", given=script.encode())[0], 0)
                text = focusd("report", "--dir", folder, "--tag", "team", *MONTH, "--format", "html")[1]
            found = re.findall(r'<span>(\w+)</span><span class="bar"><i class="c\d" style="margin-left:([\d.]+)%;width:([\d.]+)%"></i>', text)
            self.assertEqual({name: (start, width) for name, start, width in found}, bars)

    def test_times(self):
        for low, high, first, end in (
            ("2024-01", "2024-02", "2024-01-01T00:00Z", "2024-02-01T00:00Z"),
            ("2024-01-01", "2024-01-02", "2024-01-01T00:00Z", "2024-01-02T00:00Z"),
            ("2024-01-01T05:00Z", "2024-01-01T06:00Z", "2024-01-01T05:00Z", "2024-01-01T06:00Z"),
        ):
            text, _ = self.report("team", first, end)
            self.assertEqual(self.asked("report", "--tag", "team", "--from", low, "--to", high, "--format", "csv"), text)

    def test_lines(self):
        text = self.kept.lines("2024-01-01T00:00Z", "2024-01-02T00:00Z")
        text = text.split("\n", 1)[1]
        self.assertEqual(self.asked("lines", "--from", "2024-01-01", "--to", "2024-01-02"), text)

    def coverage(self, low, high):
        """The coverage that the program prints as CSV, its amounts in nanos."""
        rows = list(expected.csv.reader(self.asked("coverage", "--from", low, "--to", high, "--format", "csv").splitlines()))
        self.assertEqual(rows[0], COVERAGE_HEADER)
        return [(*row[:3], *map(expected.nanos, row[3:])) for row in rows[1:]]

    def test_coverage(self):
        ranges = ("2024-01", "2024-02"), ("2024-01-01T05:00Z", "2024-01-01T06:00Z"), ("2024-01-02", "2024-01-04"), ("2023-01", "2023-02")
        for low, high in ranges:
            whole = [f"{it}-01T00:00Z" if len(it) == 7 else f"{it}T00:00Z" if len(it) == 10 else it for it in (low, high)]
            found = self.coverage(low, high)
            self.assertEqual(found, self.kept.coverage(*whole), (low, high))
            self.check_against_lines(found, self.asked("lines", "--from", low, "--to", high))
        self.assertEqual(found, [])
        self.assertTrue(self.coverage("2024-01", "2024-02"))

    def check_against_lines(self, found, text):
        """The costs of a coverage are sums over the CSV of lines, and so is what was used of a commitment to a quantity."""
        lines = list(expected.csv.DictReader(text.splitlines()))
        for name, kind, _, capacity, used, unused, used_cost, unused_cost, paid in found:
            own = [line for line in lines if line["CommitmentDiscountId"] == name]

            def total(column, **wanted):
                return sum(expected.nanos(line[column]) for line in own if line[column] and all(line[it] == text for it, text in wanted.items()))

            self.assertEqual(used_cost, total("EffectiveCost", CommitmentDiscountStatus="Used"), name)
            self.assertEqual(unused_cost, total("EffectiveCost", CommitmentDiscountStatus="Unused"), name)
            self.assertEqual(paid, total("BilledCost", ChargeCategory="Purchase"), name)
            self.assertEqual(capacity, used + unused, name)
            if kind == "Usage":
                self.assertEqual(used, total("ConsumedQuantity", CommitmentDiscountStatus="Used"), name)
        shown = {line["CommitmentDiscountId"] for line in lines if line["ChargeCategory"] == "Purchase" or line["CommitmentDiscountStatus"]}
        self.assertLessEqual({row[0] for row in found}, shown)

    def test_coverage_table(self):
        rows = self.kept.coverage("2024-01-01T00:00Z", "2024-02-01T00:00Z")
        cells = [["Commitment", "Kind", "Unit", "Capacity", "Used", "Unused", "Share", "UsedCost", "UnusedCost", "BilledCost"]]
        for name, kind, unit, capacity, used, unused, *costs in rows:
            cells.append([name, kind, unit, *map(cents, (capacity, used, unused)), share(used, capacity), *map(cents, costs)])
        cells.append(["Total", *[""] * 6, *(cents(sum(row[at] for row in rows)) for at in (6, 7, 8))])
        widths = [max(len(row[at]) for row in cells) for at in range(10)]
        rule = "  ".join("-" * width for width in widths)
        lines = ["  ".join(it.ljust(w) if at < 3 else it.rjust(w) for at, (it, w) in enumerate(zip(row, widths))) for row in cells]
        lines = [lines[0], rule, *lines[1:-1], rule, lines[-1]]
        self.assertEqual(self.asked("coverage", *MONTH).splitlines(), lines)

    def test_status_verify_and_checkpoint(self):
        status = self.asked("status")
        entries, rows, commitments, _ = self.kept.state().split()[1:]
        rows, posted = int(rows), self.kept.posted
        gone = sum(posted is None for posted in self.kept.posts.values())
        if gone:
            of_rows = (("Rows", f"{rows:,},", "posted:", f"{posted:,}", "of", "4,194,304"), ("Withdrawn", "posts:", f"{gone:,},", "rows:", f"{posted - rows:,}"))
        else:
            of_rows = (("Rows", f"{rows:,}", "of", "4,194,304"),)
        for line in (
            ("Currency", "USD"),
            ("Entries", f"{int(entries):,}"),
            *of_rows,
            ("Commitments", commitments, "of", "256"),
        ):
            self.assertIn([*line], [line.split() for line in status.splitlines()])
        self.assertEqual(self.asked("verify"), "sound\n" + status)
        before = self.asked("lines", "--from", "2024-01", "--to", "2024-02")
        self.assertEqual(self.asked("checkpoint"), "checkpointed\n")
        self.assertIn(["Log", "0", "bytes"], [line.split() for line in self.asked("status").splitlines()])
        self.assertEqual(self.asked("lines", "--from", "2024-01", "--to", "2024-02"), before)

    def test_damage_is_found_and_nothing_changes(self):
        with tempfile.TemporaryDirectory() as folder:
            focusd("run", "--dir", folder, "--create", given=self.script)
            file = pathlib.Path(folder) / "left"
            file.write_bytes(file.read_bytes()[:1] + b"X" + file.read_bytes()[2:])
            damaged = file.read_bytes()
            status, printed, said = focusd("verify", "--dir", folder)
            self.assertEqual((status, printed), (1, ""))
            self.assertEqual(said, f"focusd: S2 Corrupt\n{folder}/left: damaged at byte 1\n")
            self.assertEqual(file.read_bytes(), damaged)

    def test_explain(self):
        status, printed, _ = focusd("explain", "V5")
        self.assertEqual((status, printed.split(":")[0]), (0, "V5 Cost"))
        status, printed, said = focusd("explain", "V99")
        self.assertEqual((status, printed), (2, ""))
        self.assertIn('"V99"', said)

    def test_explain_lists_each_code_once(self):
        status, printed, said = focusd("explain")
        self.assertEqual((status, said), (0, ""))
        names = [line.split(": ")[0] for line in printed.splitlines()]
        self.assertEqual(len(set(names)), len(names))
        self.assertEqual((names[0], names[-1]), ("H1 MissingColumn", "NoMemory"))
        for line in printed.splitlines():
            self.assertTrue(focusd("explain", line.split(":")[0].split()[0])[1].startswith(f"{line}.\nWhat to do: "), line)

    def test_a_message_carries_its_code_its_file_and_the_reason(self):
        """Also where nobody looks at a terminal, but for scripts, whose standard error has one line."""
        missing = self.folder + "/none"
        system = "No such file or directory"
        for words in (("report", "--tag", "t", *MONTH), ("lines", *MONTH), ("coverage", *MONTH), ("status",), ("verify",), ("checkpoint",), ("dump",)):
            said = focusd(*words, "--dir", missing)[2].splitlines()
            self.assertEqual((len(said), said[0]), (2, "focusd: K1 Io"), words)
            self.assertTrue(said[1].startswith(f"{missing}: {system}") and ". What to do: Look whether the folder is there" in said[1], said)
        self.assertEqual(focusd("run", "--dir", missing), (1, "", "focusd: K1 Io\n"))
        file = missing + ".csv"
        for words in (("import", "--dir", self.folder, "--origin", "new"), ("check",), ("replace", "--dir", self.folder, "--origin", "new")):
            self.assertTrue(focusd(*words, file)[2].startswith(f"focusd: {file}: F1 Read: {system}"), words)
        self.assertRegex(focusd("add", "--dir", self.folder, "--origin", "new", file)[2], rf"^{re.escape(file)}: {system}.* \(F1 Read\)\n")
        bad = pathlib.Path(self.folder) / "bad.csv"
        bad.write_text("BilledCost\n1\n")
        for words in (("import", "--quiet", "--dir", self.folder, "--origin", "new"), ("replace", "--quiet", "--dir", self.folder, "--origin", "new")):
            said = focusd(*words, str(bad))[2].splitlines()[0]
            self.assertEqual(said, f"focusd: {bad}:1: the header, EffectiveCost: H1 MissingColumn: expected a column of this name. `focusd check` lists all faults.")

    def test_each_code_of_the_formats_is_explained(self):
        text = (HERE.parent / "docs" / "FORMATS.md").read_text()
        for code in sorted(set(expected.re.findall(r"(?:refused|store|focusd:) ([A-Z]\d+ [A-Z]\w+)", text))):
            status, printed, _ = focusd("explain", code.split()[0])
            self.assertEqual((status, printed.split(":")[0]), (0, code))

    def test_each_code_in_the_sources_is_explained(self):
        codes = set()
        for source in (HERE.parent / "crates").glob("*/src/**/*.rt"):
            if "fw_explain" not in source.parts:
                codes |= set(re.findall(r'"([A-Z][0-9]+ [A-Z][A-Za-z0-9]+)', source.read_text()))
        self.assertTrue({"V5 Cost", "G1 Counts", "G2 Readers", "G3 Unpublished"} <= codes, codes)
        for code in [*sorted(codes), "NoMemory"]:
            status, printed, said = focusd("explain", code.split()[0])
            self.assertEqual((status, printed.split(":")[0], said), (0, code, ""))
        for code in ("F1", "F3"):
            self.assertIn("focusd load", focusd("explain", code)[1])

    def test_what_is_wrong(self):
        for words, wanted, named in (
            (("report", "--dir", self.folder, "--tag", "t", "--from", "2024-13", "--to", "2024-02"), 2, "--from"),
            (("report", "--dir", self.folder, "--tag", "t", "--from", "1969-12", "--to", "2024-02"), 2, '--from: "1969-12" is not a time from 1970 to 9999:'),
            (("report", "--dir", self.folder, "--tag", "t", "--from", "2024-01", "--to", "10000-01"), 2, '--to: "10000-01" is not a time from 1970 to 9999:'),
            (("report", "--dir", self.folder, "--tag", "t", "--from", "2024-01", "--to", "soon"), 2, "--to"),
            (("report", "--dir", self.folder, "--tag", "t", "--from", "2024-02", "--to", "2024-01"), 2, "--from"),
            (("report", "--dir", self.folder, "--from", "2024-01", "--to", "2024-02"), 2, "--tag"),
            (("report", "--dir", self.folder + "/none", "--tag", "t", *MONTH), 1, "K1 Io"),
            # A range without an hour is refused before the folder is looked at.
            (("report", "--dir", self.folder + "/none", "--tag", "t", "--from", "2024-02", "--to", "2024-01"), 2, "Q1 Range"),
            (("lines", "--dir", self.folder + "/none", "--from", "2024-01", "--to", "2024-01"), 2, "Q1 Range"),
            (("report", "--dir", self.folder, "--tag", "t", *MONTH, "--by", "week"), 2, "--by"),
            (("report", "--dir", self.folder, "--tag", "t", *MONTH, "--top", "0"), 2, "--top"),
            (("report", "--dir", self.folder, "--tag", "t", *MONTH, "--top", "1001"), 2, "1,000"),
            (("report", "--dir", self.folder, "--tag", "t", *MONTH, "--top", "many"), 2, "many"),
            (("report", "--dir", self.folder, "--tag", "t", *MONTH, "--format", "pdf"), 2, "--format"),
            (("status",), 2, "--dir"),
            (("lines", "--dir", self.folder, "--from", "2000-01", "--to", "2024-01"), 2, "26,304"),
        ):
            status, printed, said = focusd(*words)
            self.assertEqual((status, printed), (wanted, ""), words)
            self.assertIn(named, said, words)

    def test_a_reader_that_stops_early(self):
        command = [program(), "lines", "--dir", self.folder, "--from", "2024-01", "--to", "2024-02"]
        with subprocess.Popen(command, stdout=subprocess.PIPE, stderr=subprocess.PIPE) as run:
            run.stdout.read(10)
            run.stdout.close()
            self.assertEqual((run.stderr.read(), run.wait()), (b"", 0))

    def test_a_help_whose_reader_stops_early_and_one_that_is_full(self):
        for words in (("--version",), ("--help",), ("report", "--help")):
            self.assertEqual(full(*words), (1, FULL_OUTPUT), words)
            self.assertEqual(with_no_reader(words), (0, b""), words)

    def test_what_the_system_said_of_the_streams_of_a_script(self):
        """A script's standard error has one line, and where that is a terminal also what the system said."""
        remedy = "Look at what feeds the pipe, or at the file that the message names: whether it is there, is a file and may be read. Then run the command again."
        with open(UNREADABLE, "rb") as unreadable:
            ran = subprocess.run([program(), "run"], stdin=unreadable, capture_output=True)
            self.assertEqual((ran.returncode, ran.stdout, ran.stderr), (1, b"", b"focusd: F1 Read\n"))
            found = at_a_terminal(2, "run", stdin=unreadable, stdout=subprocess.DEVNULL)
        wanted = ["focusd: F1 Read", f"standard input: {system(errno.EIO)}. What to do: {remedy}"]
        self.assertEqual(found, (1, wanted))
        for words in (("run",), ("run", "--dir", self.folder)):
            self.assertEqual(full(*words, given=b"state\n"), (1, "focusd: F2 Write\n"), words)
            with open("/dev/full", "wb") as output:
                self.assertEqual(at_a_terminal(2, *words, input=b"state\n", stdout=output), (1, FULL_OUTPUT.splitlines()), words)

    def test_arguments_that_are_not_utf8(self):
        for words, place in (([b"caf\xe9"], 1), (["check", "a.csv", b"caf\xe9.csv", b"\xff"], 3), (["status", "--dir", b"\xff"], 3)):
            ran = subprocess.run([program(), *words], capture_output=True)
            said = f"focusd: argument {place} is not UTF-8: a file or a folder whose name is not UTF-8 can't be named; rename it\n"
            self.assertEqual((ran.returncode, ran.stdout, ran.stderr.decode()), (2, b"", said), words)

    def test_a_currency_that_is_none(self):
        # The line that scripts know, and the option and what it takes, where nothing reads standard error.
        self.assertEqual(focusd("run", "--currency", "eu"), (2, "", "focusd: currency\n"))
        found = at_a_terminal(2, "run", "--currency", "eu", stdin=subprocess.DEVNULL)
        self.assertEqual(found, (2, ["focusd: currency", '--currency: "eu" is not three capital letters, as USD']))

    def test_nothing_is_made_in_a_folder_without_a_warehouse(self):
        right = str(HERE / "focus-export.csv")
        asking = ("report", "--tag", "t", *MONTH), ("lines", *MONTH), ("coverage", *MONTH), ("status",), ("verify",), ("dump",), ("checkpoint",)
        correcting = ("withdraw", "--origin", "a", "--all", "--yes"), ("compact", "--into", "/no such folder/new")
        taking = ("replace", "--origin", "a", right), ("import", "--origin", "a", right), ("add", "--origin", "a", right)
        for words in (*asking, *correcting, *taking):
            with tempfile.TemporaryDirectory() as folder:
                status, printed, said = focusd(*words, "--dir", folder)
                self.assertEqual((status, printed, said.splitlines()[0]), (1, "", "focusd: S1 NoHouse"), words)
                self.assertEqual(os.listdir(folder), [], words)
                # A folder that isn't there, and a file in place of one, are another fault.
                file = pathlib.Path(folder) / "file"
                file.write_bytes(b"")
                for path in (file, file / "none", pathlib.Path(folder) / "none"):
                    self.assertEqual(focusd(*words, "--dir", str(path))[2].splitlines()[0], "focusd: K1 Io", path)
                self.assertEqual(os.listdir(folder), ["file"], words)

    def test_help_and_version(self):
        for words in ((), ("run",), ("import",), ("load",), ("add",), ("check",), ("report",), ("lines",), ("coverage",), ("status",), ("verify",), ("checkpoint",), ("dump",), ("explain",)):
            status, printed, said = focusd(*words, "--help")
            self.assertEqual((status, said), (0, ""), words)
            self.assertIn("Example", printed, words)
        self.assertEqual(focusd("--version")[0], 0)

    def test_the_help_has_each_command_of_scripts_and_each_warning(self):
        table = (HERE.parent / "docs" / "FORMATS.md").read_text().split("| command | meaning |\n", 1)[1].split("\n\n", 1)[0]
        words = re.findall(r"^\| `(\w+)", table, re.M)
        self.assertIn("withdraw", words)
        listed = focusd("run", "--help")[1].split("Commands of a script", 1)[1].split("\n\n", 1)[0]
        self.assertEqual(sorted(re.findall(r"^  (\w+)", listed, re.M)), sorted(words))
        for command in ("import", "check"):
            printed = " ".join(focusd(command, "--help")[1].split())
            for said in ("another origin has", "posts", "behind those of the files", "won't fit"):
                self.assertIn(said, printed, command)


class OnlyAsked(Case):
    """What commands that ask leave of a folder, and what commands that write leave of one without a warehouse."""

    EXPORT = str(HERE / "focus-export.csv")
    NO_TAG = "focusd: no row and no commitment of the range has the tag team; the tags there are: none\n"
    # Each command that asks, with what is its own behind --dir.
    ASKING = (
        ("report", "--tag", "team", *MONTH), ("lines", *MONTH), ("coverage", *MONTH), ("status",), ("verify",), ("dump",),
        ("replace", "--quiet", "--dry-run", "--origin", "aws", EXPORT), ("withdraw", "--dry-run", "--origin", "aws", "--all"),
        ("add", "--dry-run", "--origin", "new", str(HERE / "commitment.toml")),
    )  # fmt: skip
    WRITING = (
        ("run",), ("load", EXPORT), ("import", "--quiet", "--origin", "aws", EXPORT), ("add", "--origin", "new", str(HERE / "commitment.toml")),
        ("withdraw", "--origin", "aws", "--all", "--yes"), ("replace", "--quiet", "--origin", "aws", EXPORT), ("checkpoint",),
    )  # fmt: skip

    def setUp(self):
        super().setUp()
        self.folder = self.new_folder("costs")
        export = pathlib.Path(self.EXPORT).read_bytes()
        done = focusd("run", "--create", "--dir", str(self.folder), given=b"post aws 1 %d\n%s" % (export.count(b"\n"), export))
        self.assertEqual(done, (0, "accepted 1\n", ""))

    def asked(self, words, folder=None):
        return focusd(words[0], "--dir", str(folder or self.folder), *words[1:])

    def compacted(self, folder):
        """A warehouse made of that of a folder, which asks the folder."""
        with tempfile.TemporaryDirectory() as into:
            return focusd("compact", "--quiet", "--dir", str(folder), "--into", into)

    @staticmethod
    def found(folder):
        """All that stands in a folder: names, bytes, and what the system keeps of each file but when it was read."""
        found = []
        for path in (folder, *sorted(folder.iterdir())):
            it = path.lstat()
            kept = path.read_bytes() if path.is_file() else None
            found.append((path.name, kept, it.st_mode, it.st_ino, it.st_size, it.st_mtime_ns, it.st_ctime_ns))
        return found

    def test_a_command_that_asks_changes_nothing(self):
        before = self.found(self.folder)
        for words in self.ASKING:
            status, _, said = self.asked(words)
            # The range of the report has no row, and so none with the tag.
            self.assertEqual((status, said.replace(self.NO_TAG, "")), (0, ""), words)
            self.assertEqual(self.found(self.folder), before, words)
        self.assertEqual(self.compacted(self.folder)[0], 0)
        self.assertEqual(self.found(self.folder), before)

    def test_a_file_that_is_missing_is_not_made(self):
        """`right` is empty in a warehouse that was made: without it the warehouse is the same."""
        wanted = {words: self.asked(words) for words in self.ASKING}
        (self.folder / "right").unlink()
        before = self.found(self.folder)
        for words in self.ASKING:
            self.assertEqual(self.asked(words), wanted[words], words)
            self.assertEqual(self.found(self.folder), before, words)
        self.assertEqual(self.compacted(self.folder)[0], 0)
        self.assertEqual(self.found(self.folder), before)
        self.assertEqual(self.asked(("run",)), (0, "", ""))
        self.assertEqual((self.folder / "right").read_bytes(), b"")

    def test_no_command_makes_a_file_where_no_warehouse_is(self):
        closed = b"\0" * 30
        for files in ({}, {"left": b""}, {"right": b""}, {"left": closed}, {"left": closed, "right": closed}):
            for words in (*self.ASKING, *self.WRITING):
                with tempfile.TemporaryDirectory() as folder:
                    for name, kept in files.items():
                        (pathlib.Path(folder) / name).write_bytes(kept)
                    before = self.found(pathlib.Path(folder))
                    status, printed, said = self.asked(words, folder)
                    said = said.removesuffix(no_house(folder).split("\n", 1)[1])
                    self.assertEqual((status, printed, said), (1, "", "focusd: S1 NoHouse\n"), (words, files))
                    self.assertEqual(self.found(pathlib.Path(folder)), before, (words, files))

    def test_damage_is_found_before_a_file_is_made(self):
        (self.folder / "right").unlink()
        left = self.folder / "left"
        left.write_bytes(left.read_bytes()[:1] + b"X" + left.read_bytes()[2:])
        before = self.found(self.folder)
        for words in (*self.ASKING, *self.WRITING):
            status, printed, said = self.asked(words)
            self.assertEqual((status, printed, said.splitlines()[0]), (1, "", "focusd: S2 Corrupt"), words)
            self.assertEqual(self.found(self.folder), before, words)

    def test_an_import_that_is_refused_makes_no_file_in_a_folder_that_is_there(self):
        wrong = self.top / "wrong.csv"
        wrong.write_text("BilledCost\n1\n")
        folder = self.new_folder("empty")
        self.assertEqual(focusd("import", "--quiet", "--create", "--dir", str(folder), "--origin", "aws", str(wrong))[0], 1)
        self.assertEqual(list(folder.iterdir()), [])

    def test_a_folder_that_may_only_be_read(self):
        """As another user where this is the superuser, for whom no mode counts."""
        copy = self.top / "focusd"
        shutil.copy(program(), copy)
        user = {"user": 65534, "group": 65534, "extra_groups": []} if os.geteuid() == 0 else {}
        self.top.chmod(0o755)

        def done(words):
            ran = subprocess.run([copy, words[0], "--dir", str(self.folder), *words[1:]], stdin=subprocess.DEVNULL, capture_output=True, **user)
            return ran.returncode, ran.stdout.decode(), ran.stderr.decode()

        try:
            done(("status",))
        except (OSError, subprocess.SubprocessError):
            self.skipTest("no other user can run the program here")
        for name in ("focus-export.csv", "commitment.toml"):
            shutil.copy(HERE / name, self.top / name)
        words_of = {words: tuple(str(self.top / pathlib.Path(it).name) if it.startswith(str(HERE)) else it for it in words) for words in self.ASKING}
        wanted = {words: self.asked(words_of[words]) for words in self.ASKING}
        for file in self.folder.iterdir():
            file.chmod(0o444)
        self.folder.chmod(0o555)
        self.addCleanup(self.folder.chmod, 0o755)
        before = self.found(self.folder)
        for words in self.ASKING:
            self.assertEqual(done(words_of[words]), wanted[words], words)
        for words in (("run",), ("checkpoint",)):
            self.assertEqual(done(words)[2].splitlines()[0], "focusd: K1 Io", words)
        self.assertEqual(self.found(self.folder), before)

    def test_many_may_ask_at_once_and_none_while_one_writes(self):
        wanted = {words: self.asked(words) for words in self.ASKING}
        in_use = f"focusd: K1 Io\n{self.folder}: another process has this folder open\n"
        for how, answers in ((fcntl.LOCK_SH, wanted), (fcntl.LOCK_EX, {words: (1, "", in_use) for words in self.ASKING})):
            lock = os.open(self.folder, os.O_RDONLY)
            try:
                fcntl.flock(lock, how)
                for words in self.ASKING:
                    self.assertEqual(self.asked(words), answers[words], words)
                for words in self.WRITING:
                    said = in_use.splitlines()[: 1 if words == ("run",) else 2]
                    status, printed, found = self.asked(words)
                    self.assertEqual((status, printed, found.splitlines()), (1, "", said), words)
            finally:
                os.close(lock)

    def test_what_is_no_file_is_not_waited_for(self):
        left = self.folder / "left"
        left.unlink()
        os.mkfifo(left)
        for make, why in ((None, "unsupported"), (left.mkdir, system(errno.EISDIR))):
            if make:
                left.unlink()
                make()
            for words in self.ASKING:
                ran = subprocess.run([program(), words[0], "--dir", str(self.folder), *words[1:]], capture_output=True, timeout=60)
                self.assertEqual((ran.returncode, ran.stdout), (1, b""), words)
                self.assertTrue(ran.stderr.decode().startswith(f"focusd: K1 Io\n{self.folder}: {why}. What to do: "), ran.stderr)


class Ranges(Case):
    """Questions whose range comes from the rows, or is a month. The ranges are worked out by hand, and the answers over them by expected.py."""

    HEADER = "BilledCost,EffectiveCost,BillingCurrency,ChargeCategory,ChargePeriodStart,ChargePeriodEnd,Tags"
    COMMITMENT = (
        'id = "cd"\ncategory = "Usage"\nstart = "2024-02-10T00:00Z"\nhours = 24\ncapacity = "1"\nunit = "Hours"\nskus = ["s"]\n'
        '[tags]\nowner = "us"\n[[purchase]]\nat = "2024-02-09T00:00Z"\nbilled = "24"\n'
    )

    def setUp(self):
        super().setUp()
        self.folder = str(self.top)

    def row(self, start, tags="{}"):
        quoted = tags.replace('"', '""')
        return f'1.5,1.25,USD,Usage,{start},2030-01-01T00:00Z,"{quoted}"'

    def post(self, number, *rows):
        """A post of an origin's number, as a script has it."""
        return "\n".join([f"post o {number} {len(rows) + 1}", self.HEADER, *rows, ""])

    def make(self, script):
        """Makes the warehouse of a script, each entry of which is accepted; returns what expected.py keeps of it."""
        status, printed, said = focusd("run", "--dir", self.folder, "--create", "--strict", given=script.encode())
        self.assertEqual((status, said), (0, ""), printed)
        return warehouse_of(script.encode())

    def script(self):
        """Rows of four hours that count, the first and the last of the withdrawn ones before and behind them."""
        return (
            self.post(1, self.row("2024-02-29T05:30Z", '{"team":"a"}'), self.row("2024-01-31T22:59Z", '{"team":"b"}'))
            + self.post(2, self.row("2023-06-01T00:00Z", '{"gone":"c"}'), self.row("2024-09-01T00:00Z"))
            + self.post(3, self.row("2024-03-02T07:00Z", '{"team":""}'), self.row("2024-03-01T00:00Z"))
            + "withdraw o 4 2\n"
        )

    def test_the_hours_that_have_rows(self):
        kept = self.make(self.script())
        first, end = "2024-01-31T22:00Z", "2024-03-02T08:00Z"
        for words, low, high in (
            ((), first, end),
            (("--from", "2024-02"), "2024-02-01T00:00Z", end),
            (("--to", "2024-02-15"), first, "2024-02-15T00:00Z"),
            (("--last", "1", "month"), "2024-03-01T00:00Z", "2024-04-01T00:00Z"),
            (("--last", "2", "months"), "2024-02-01T00:00Z", "2024-04-01T00:00Z"),
            (("--last", "12", "months"), "2023-04-01T00:00Z", "2024-04-01T00:00Z"),
            (("--last", "1", "day"), "2024-03-02T00:00Z", "2024-03-03T00:00Z"),
            (("--last", "3", "days"), "2024-02-29T00:00Z", "2024-03-03T00:00Z"),
            (("--last", "1", "hour"), "2024-03-02T07:00Z", end),
            (("--last", "40", "hours"), "2024-02-29T16:00Z", end),
        ):
            self.check(kept, words, low, high, f"from {low} to {high}\n")
        for month, low, high in (("2024-02", "2024-02-01T00:00Z", "2024-03-01T00:00Z"), ("2024-12", "2024-12-01T00:00Z", "2025-01-01T00:00Z")):
            self.check(kept, ("--month", month), low, high, "")

    def check(self, kept, words, low, high, said):
        """A report, lines and a coverage answer over this range, and say this of it."""
        report = ("report", "--dir", self.folder, "--tag", "team", *words)
        table = no_key("team", "none") if words == ("--month", "2024-12") else ""
        self.assertEqual(focusd(*report, "--format", "csv"), (0, kept.report("team", low, high).split("\n", 1)[1], said + table), words)
        status, printed, told = focusd(*report, "--format", "json")
        self.assertEqual((status, told), (0, said + table))
        self.assertEqual((json.loads(printed)["from"], json.loads(printed)["to"]), (low, high))
        status, printed, told = focusd(*report, "--direct")
        self.assertEqual((status, told), (0, said))
        self.assertEqual(focusd("lines", "--dir", self.folder, *words), (0, kept.lines(low, high).split("\n", 1)[1], said), words)
        given = focusd("coverage", "--dir", self.folder, "--from", low, "--to", high)
        self.assertEqual(focusd("coverage", "--dir", self.folder, *words), (0, given[1], said), words)

    def test_what_is_wrong(self):
        self.make(self.script())
        month, last = "is not a month from 1970-01 to 9999-12, as 2024-09\n", "is not a number of hours, days or months from 1 to 26,304, as 3 months\n"
        for words, named in (
            (("--month", "2024-13"), f'focusd: --month: "2024-13" {month}'),
            (("--month", "1969-12"), f'focusd: --month: "1969-12" {month}'),
            (("--month", "2024-02-01"), f'focusd: --month: "2024-02-01" {month}'),
            (("--last", "0", "months"), f'focusd: --last: "0" "months" {last}'),
            (("--last", "26305", "hours"), f'focusd: --last: "26305" "hours" {last}'),
            (("--last", "3", "weeks"), f'focusd: --last: "3" "weeks" {last}'),
            (("--last", "-1", "days"), "'-1'"),
            (("--last", "3"), "--last <N> <UNIT>"),
            (("--from", "soon"), 'focusd: --from: "soon" is not a time'),
            (("--to", "1969-12"), 'focusd: --to: "1969-12" is not a time'),
            (("--month", "2024-02", "--from", "2024-01"), "cannot be used with"),
            (("--month", "2024-02", "--last", "1", "day"), "cannot be used with"),
            (("--last", "1", "day", "--to", "2024-01"), "cannot be used with"),
        ):
            for question in (("report", "--tag", "team"), ("lines",), ("coverage",)):
                status, printed, said = focusd(*question, "--dir", self.folder, *words)
                self.assertEqual((status, printed), (2, ""), words)
                self.assertIn(named, said, words)

    def test_rows_over_more_hours_than_a_range_has(self):
        # 26,304 hours are the three years from 2020, of which one is a leap year, and one hour more is too many.
        self.make(self.post(1, self.row("2020-01-01T00:00Z"), self.row("2022-12-31T23:59Z")))
        self.assertEqual(focusd("lines", "--dir", self.folder)[0], 0)
        focusd("run", "--dir", self.folder, given=self.post(2, self.row("2023-01-01T00:00Z")).encode())
        wanted = (
            "from 2020-01-01T00:00Z to 2023-01-01T01:00Z\n"
            "focusd: Q1 Range: the range has no hour, or more than 26,304 (three years). "
            "The end comes after the start and is not in the range: --from 2024-01 --to 2024-02 is January.\n"
            "What to do: ask for some of the hours that have rows, as by --month 2024-09 or --last 3 months\n"
        )
        for question in (("report", "--tag", "team"), ("lines",), ("coverage",)):
            self.assertEqual(focusd(*question, "--dir", self.folder), (2, "", wanted), question)
        self.assertEqual(focusd("lines", "--dir", self.folder, "--last", "36", "months")[0], 0)

    def test_no_row_that_counts(self):
        wanted = (
            f"focusd: {self.folder}: the warehouse has no row that counts, so the rows give no range\n"
            "What to do: import an export, or give the range by --from and --to\n"
        )
        for script in ("", self.post(1, self.row("2024-01-01T00:00Z")) + "withdraw o 2 1\n"):
            words = ("run", "--dir", self.folder) if script else ("run", "--dir", self.folder, "--create")
            self.assertEqual(focusd(*words, given=script.encode())[0], 0)
            for question in (("report", "--tag", "team"), ("lines",), ("coverage",)):
                for range_words in ((), ("--from", "2024-01"), ("--to", "2024-02"), ("--last", "1", "day")):
                    self.assertEqual(focusd(*question, "--dir", self.folder, *range_words), (1, "", wanted), question)
                self.assertEqual(focusd(*question, "--dir", self.folder, "--month", "2024-01")[0], 0)

    def test_tags_that_are_not_there(self):
        many = json.dumps({f"k{number:02}": "v" for number in range(25, 0, -1)})
        self.make(
            self.post(1, self.row("2024-01-01T00:00Z", many), self.row("2024-03-01T00:00Z", '{"team":"","\\u001b":"x"}'))
            + self.post(2, self.row("2024-01-01T00:00Z", '{"gone":"c"}'))
            + "withdraw o 3 2\n"
            + f"commit o 4 {self.COMMITMENT.count(chr(10))}\n{self.COMMITMENT}"
        )
        twenty = ", ".join(f"k{number:02}" for number in range(1, 21))
        for key, words, said in (
            ("k25", ("--month", "2024-01"), ""),
            ("gone", ("--month", "2024-01"), no_key("gone", f"{twenty} and 5 more")),
            ("team", ("--month", "2024-01"), no_key("team", f"{twenty} and 5 more")),
            # A tag without a text is there, and so is one of a commitment that runs, or was paid for, in the range.
            ("team", ("--month", "2024-03"), ""),
            ("owner", ("--from", "2024-02-10T23:00Z", "--to", "2024-02-11"), ""),
            ("owner", ("--from", "2024-02-09", "--to", "2024-02-09T01:00Z"), ""),
            ("owner", ("--from", "2024-02-09T01:00Z", "--to", "2024-02-10"), no_key("owner", "none")),
            ("owner", ("--month", "2024-03"), no_key("owner", "\\u{1b}, team")),
            ("k01", ("--month", "2024-02"), no_key("k01", "owner")),
        ):
            for form in ("table", "csv", "json", "html"):
                status, _, told = focusd("report", "--dir", self.folder, "--tag", key, *words, "--format", form)
                self.assertEqual((status, told), (0, said), (key, words))

    def test_a_policy_for_another_tag(self):
        policy = 'key = "team"\n[[rule]]\nfrom = "shared"\nproportional = true\n'
        self.make(self.post(1, self.row("2024-01-01T00:00Z", '{"team":"a","env":"b"}')) + f"policy o 2 4\n{policy}")
        report = ("report", "--dir", self.folder, "--month", "2024-01")
        for key, said in (("team", applied("team", 2, "o 2")), ("env", OTHER_POLICY)):
            status, _, told = focusd(*report, "--tag", key)
            self.assertEqual((status, told), (0, said))
        self.assertEqual(focusd(*report, "--tag", "env", "--direct")[2], "")


class Strict(unittest.TestCase):
    """Strict runs: what is printed stays as it is, and the status says whether each entry that was sent is there. Counted by hand."""

    HEADER = Ranges.HEADER + "\n"
    ROW = '1,1,USD,Tax,2024-01-01T00:00Z,2024-01-01T01:00Z,"{""team"":""a""}"\n'
    # A group whose text has lines that look like refusals.
    LIES = '1,1,USD,Tax,2024-01-01T00:00Z,2024-01-01T01:00Z,"{""team"":""a\\ngap 2\\nrefused V1 Fields 2\\nbad end\\nbytes 900\\n""}"\n'

    def post(self, number, row):
        return f"post o {number} 2\n{self.HEADER}{row}"

    def check(self, script, count):
        """A strict run prints what another one prints, and says how many entries were refused."""
        said = f"focusd: {count} {'entry was' if count == 1 else 'entries were'} refused\n" if count else ""
        plain = focusd("run", given=script.encode())
        self.assertEqual((plain[0], plain[2]), (0, ""))
        self.assertEqual(focusd("run", "--strict", given=script.encode()), (3 if count else 0, plain[1], said), script)
        with tempfile.TemporaryDirectory() as folder:
            words = ("run", "--strict", "--dir", folder, "--create", "--workers", "2")
            self.assertEqual(focusd(*words, given=script.encode()), (3 if count else 0, plain[1], said), script)
        return plain[1]

    def test_what_refuses_an_entry(self):
        right = self.post(1, self.ROW)
        january = "2024-01-01T00:00Z 2024-02-01T00:00Z"
        for script, count in (
            ("", 0),
            (right, 0),
            (right + right, 0),
            (right + self.post(3, self.ROW), 1),
            (right + self.post(2, "1,1\n"), 1),
            (self.post(0, self.ROW) + right, 1),
            ("pots o 1 2\n", 1),
            (right + "post o 2 2\nBilledCost\n", 1),
            (right + f"withdraw o 2 1\nwithdraw o 3 1\nwithdraw o 4 1\n{right}", 2),
            # A question that is refused is no entry, and what stands in a report is no answer.
            (right + "report team 2024-02-01T00:00Z 2024-01-01T00:00Z\nstate\ncheckpoint\n", 0),
            (self.post(1, self.LIES) + f"report team {january}\nlines {january}\nstate\n", 0),
            (self.post(1, self.LIES) + f"report team {january}\nlines {january}\n{self.post(3, self.ROW)}report team {january}\n", 1),
        ):
            self.check(script, count)
        printed = self.check(self.post(1, self.LIES) + f"report team {january}\n", 0)
        self.assertIn("\ngap 2\nrefused V1 Fields 2\nbad end\nbytes 900\n", printed)

    def test_a_fault_goes_first(self):
        self.assertEqual(full("run", "--strict", given=b"nonsense\n"), (1, "focusd: F2 Write\n"))
        self.assertEqual(focusd("run", "--strict", "--currency", "eu", given=b"nonsense\n"), (2, "", "focusd: currency\n"))
        self.assertEqual(focusd("run", "--strict", "--dir", "/no such folder", given=b"nonsense\n")[0], 1)

    def test_loads(self):
        with tempfile.TemporaryDirectory() as room:
            right, short = pathlib.Path(room, "right.csv"), pathlib.Path(room, "short.csv")
            right.write_text(self.HEADER + self.ROW)
            short.write_text(self.HEADER + "1,1\n")
            words = ("load", "--strict", "--dir", f"{room}/costs")
            pathlib.Path(room, "costs").mkdir()
            lines = "1 accepted\n2 refused V1 Fields 1\n3 refused V1 Fields 1\nstale 0\nstate 1 1 0 0\n"
            self.assertEqual(focusd(*words, "--create", right, short, short), (3, lines, "focusd: 2 entries were refused\n"))
            lines = "1 already 1\n2 accepted\nstale 0\nstate 2 2 0 0\n"
            self.assertEqual(focusd(*words, right, right), (0, lines, ""))
            lines = "1 already 1\n2 already 1\n3 refused V1 Fields 1\nstale 0\nstate 2 2 0 0\n"
            self.assertEqual(focusd(*words, right, right, short), (3, lines, "focusd: 1 entry was refused\n"))
            self.assertEqual(focusd("load", right, short)[0], 0)
            self.assertEqual(focusd("load", "--strict", *[right] * 65)[0], 1)


class WithdrawnPosts(Commands):
    """The same over the rows of that script in several posts, of which some were withdrawn. Its own post was withdrawn too."""

    EACH = 40

    @classmethod
    def entries(cls):
        script = super().entries()
        head, post = re.search(rb"^post (year \d+) \d+\n((?:.+\n)*?)(?=report )", script, re.M).groups()
        origin, number = head.decode().split()
        header, *rows = post.splitlines(keepends=True)
        for place, at in enumerate(range(0, len(rows), cls.EACH), 1):
            some = rows[at : at + cls.EACH]
            script += b"post again %d %d\n%s%s" % (place, len(some) + 1, header, b"".join(some))
        sent = {b"again": place, origin.encode(): warehouse_of(script).origins[origin]}
        for sender, target in ((b"again", 2), (origin.encode(), int(number)), (b"again", place), (b"again", 1)):
            sent[sender] += 1
            script += b"withdraw %s %d %d\n" % (sender, sent[sender], target)
        kept = warehouse_of(script)
        assert [target for target, posted in kept.posts.items() if posted is None] == [(origin, int(number)), ("again", 1), ("again", 2), ("again", place)]
        assert 0 < kept.row_count() < len(rows), kept.state()
        return script


class Outside(Case):
    """Texts from outside that would act on a terminal: what a table shows of them."""

    TEXT = "a\x1b[2Jb\nTotal  999.00\u202e\x85"
    SHOWN = r"a\u{1b}[2Jb\u{a}Total  999.00\u{202e}\u{85}"
    APPLIED = applied(SHOWN, 3, "a 3")

    def setUp(self):
        super().setUp()
        self.folder = str(self.top)
        text = json.dumps(self.TEXT)
        tags = json.dumps({self.TEXT: self.TEXT}).replace('"', '""')
        content = {
            "post": [
                "BilledCost,EffectiveCost,BillingCurrency,ChargeCategory,ChargePeriodStart,ChargePeriodEnd,Tags",
                f'1,1,USD,Tax,2024-01-01T00:00Z,2024-01-01T01:00Z,"{tags}"',
            ],
            "commit": [
                f"id = {text}", 'category = "Usage"', 'start = "2024-01-01T00:00Z"', "hours = 1", 'capacity = "1"', f"unit = {text}", f"skus = [{text}]",
                "[[purchase]]", 'at = "2024-01-01T00:00Z"', 'billed = "1"',
            ],
            "policy": [f"key = {text}"],
        }  # fmt: skip
        lines = []
        for number, (word, some) in enumerate(content.items(), 1):
            lines += [f"{word} a {number} {len(some)}", *some]
        script = "".join(f"{line}\n" for line in lines).encode()
        self.assertEqual(focusd("run", "--dir", self.folder, "--create", given=script), (0, "accepted 1\naccepted 2\naccepted 3\n", ""))

    def test_tables(self):
        for words, count in (
            (("report", "--dir", self.folder, "--tag", self.TEXT, *MONTH), 6),
            (("report", "--dir", self.folder, "--tag", self.TEXT, *MONTH, "--by", "day"), 6),
            (("coverage", "--dir", self.folder, *MONTH), None),
            (("status", "--dir", self.folder), None),
        ):
            status, printed, said = focusd(*words)
            self.assertEqual((status, said), (0, self.APPLIED if words[0] == "report" else ""), words)
            self.assertIn(self.SHOWN, printed, words)
            self.assertNotRegex(printed, "[\x00-\x09\x0b-\x1f\x7f-\x9f\u061c\u200e\u200f\u2028-\u202e\u2066-\u2069]", words)
            if count:
                self.assertEqual(len(printed.splitlines()), count, printed)

    ACTING = "[\x00-\x09\x0b-\x1f\x7f-\x9f\u061c\u200e\u200f\u2028-\u202e\u2066-\u2069]"

    def test_pages(self):
        for words in ((), ("--by", "day")):
            status, printed, said = focusd("report", "--dir", self.folder, "--tag", self.TEXT, *MONTH, "--format", "html", *words)
            self.assertEqual((status, said), (0, self.APPLIED), words)
            self.assertNotRegex(printed, self.ACTING, words)
            page = Page(printed)
            self.assertEqual(page.titles[0], f"Costs by {self.SHOWN}")
            self.assertIn(self.SHOWN, [row[0] for table in page.tables for row in table])

    def test_csv_and_json_have_texts_as_they_are(self):
        words = ("report", "--dir", self.folder, "--tag", self.TEXT, *MONTH, "--format")
        found = json.loads(focusd(*words, "json")[1])
        self.assertEqual((found["tag"], found["groups"][-1]["group"]), (self.TEXT, self.TEXT))
        found = list(expected.csv.reader(io.StringIO(focusd(*words, "csv")[1], newline="")))
        self.assertEqual(found[-1][0], self.TEXT)

    def test_messages(self):
        """Names of files and words of the command line."""
        name = "a\x1b[2J\u202e.csv"
        for words in (
            ("load", str(pathlib.Path(self.folder) / name)),
            ("load", self.folder + "/none\x1b[2J\u202e", self.folder),
            (name,),
            ("report", "--" + name),
            ("report", "--dir", self.folder, "--tag", "t", "--from", name, "--to", "2024-01"),
            ("report", "--dir", self.folder, "--tag", "t", *MONTH, "--top", name),
            ("explain", name),
            ("load", "--currency", name, "x"),
            ("verify", "--dir", self.folder + "/none\x1b[2J\u202e"),
        ):
            status, printed, said = focusd(*words)
            self.assertNotEqual(status, 0, words)
            self.assertEqual(printed, "", words)
            self.assertNotRegex(said, self.ACTING, words)
            self.assertIn("\\u{1b}[2J\\u{202e}", said, words)

    def said(self, status, *words):
        """What a run that ends with this status prints. It names a file, as a terminal may show it."""
        ended, printed, said = focusd(*words)
        self.assertEqual(ended, status, (words, said))
        self.assertNotRegex(printed + said, self.ACTING, words)
        self.assertIn("\\u{1b}[2J\\u{202e}", printed + said, words)
        return printed + said

    def test_names_of_files(self):
        head = "BilledCost,EffectiveCost,BillingCurrency,ChargeCategory,ChargePeriodStart,ChargePeriodEnd"
        row = "0,0,USD,Tax,2024-01-01T00:00Z,2024-01-01T01:00Z"

        def file(name, text):
            return str(self.top / self.file(f"{name}\x1b[2J\u202e", text))

        good, two = file("good", f"{head}\n{row}\n"), file("two", f"{head}\n{row}\n{row}\n")
        wrong, fields = file("wrong", f"{head}\n{row.replace('Tax', 'Rent')}\n"), file("fields", f"{head}\n{row},1\n")
        lacking, none, long = file("lacking", "a\n1\n"), file("none", ""), file("long", f'{head}\n"{"x" * (5 << 20)}')
        own = file("own", f"{head},CommitmentDiscountId,CommitmentDiscountCategory,CommitmentDiscountStatus\n{row},cd-1,Usage,Used\n")
        folder, missing = self.top / "folder\x1b[2J\u202e", self.top / "missing\x1b[2J\u202e"
        folder.mkdir()
        for name in (wrong, fields, lacking, none, long, str(folder), str(missing)):
            self.said(1, "check", name)
            for command in ("import", "replace"):
                self.said(1, command, "--dir", self.folder, "--origin", "new", name)
        words = ("import", "--dir", self.folder, "--origin", "new")
        self.assertIn("focusd: warning: ", self.said(0, *words, good))
        self.said(1, *words, two)
        self.assertEqual(focusd("run", "--dir", self.folder, given=b"withdraw new 2 1\n")[1], "accepted 5\n")
        self.said(1, *words, good)
        toml = 'id = "cd-1"\ncategory = "Usage"\nstart = "2024-01-01T00:00Z"\nhours = 1\ncapacity = "1"\nunit = "h"\nskus = ["v"]\n'
        toml += '[[purchase]]\nat = "2024-01-01T00:00Z"\nbilled = "1"\n'
        add = ("add", "--dir", self.folder, "--origin", "billing")
        for name in (wrong, none, str(folder), str(missing), file("no hour.toml", toml.replace("hours = 1", "hours = 0"))):
            self.said(1, *add, name)
        right = file("right.toml", toml)
        for more in (("--dry-run",), (), ()):
            self.said(0, *add, *more, right)
        self.said(1, *add, file("other.toml", toml.replace("hours = 1", "hours = 2")))
        self.said(1, "import", "--dir", self.folder, "--origin", "last", own)

    def test_the_name_of_a_folder(self):
        folder = pathlib.Path(self.folder) / "costs\x1b[2J\u202e"
        folder.mkdir()
        self.assertEqual(focusd("run", "--dir", str(folder), "--create")[0], 0)
        self.said(2, "import", "--dir", str(folder), "--origin", "a", "--currency", "EUR", "a file")
        (folder / "replacing").write_text("a\x1b[2J\u202e\n", encoding="utf-8")
        # The origin stands there twice, and the folder once.
        self.assertEqual(self.said(0, "status", "--dir", str(folder)).count("\\u{1b}[2J\\u{202e}"), 3)

    def test_check(self):
        file = pathlib.Path(self.folder) / "a\x1b[2J\u202e.csv"
        head = "BilledCost,EffectiveCost,BillingCurrency,ChargeCategory,ChargePeriodStart,ChargePeriodEnd"
        file.write_text(f"{head}\n\x1b[2J\u202e,1,USD,Tax,2024-01-01T00:00Z,2024-01-01T01:00Z\n", encoding="utf-8")
        status, printed, said = focusd("check", str(file))
        self.assertEqual((status, said), (1, ""))
        self.assertNotRegex(printed, self.ACTING)
        self.assertEqual(printed.count("\\u{1b}[2J\\u{202e}"), 3)


class Files(Paths):
    """Import and check, over the shipped export."""

    EXPORT = HERE / "focus-export.csv"
    SEPTEMBER = ("--tag", "team", "--from", "2024-09", "--to", "2024-10", "--format", "csv")
    HEADER = b"BilledCost,EffectiveCost,BillingCurrency,ChargeCategory,ChargePeriodStart,ChargePeriodEnd\n"
    ROW = b"0.1,0.1,USD,Tax,2024-01-01T00:00Z,2024-01-01T01:00Z\n"

    def setUp(self):
        super().setUp()
        self.folder = str(temporary_folder(self.addCleanup))
        self.do("run", "--dir", self.folder, "--create")

    def imported(self, file):
        return focusd("import", "--quiet", "--dir", self.folder, "--origin", "aws", str(file))

    def report(self):
        return focusd("report", "--dir", self.folder, *self.SEPTEMBER)[1]

    def test_an_import_is_taken_once(self):
        export = self.EXPORT.read_bytes()
        lines = export.count(b"\n")
        kept = warehouse_of(b"post aws 1 %d\n" % lines + export)
        wanted = kept.report("team", "2024-09-01T00:00Z", "2024-10-01T00:00Z").split("\n", 1)[1]
        for _ in range(2):
            self.assertEqual(self.imported(self.EXPORT)[0], 0)
            self.assertEqual(self.report(), wanted)

    def test_an_import_creates_a_warehouse_where_none_is(self):
        with tempfile.TemporaryDirectory() as folder:
            words = ("import", "--quiet", "--dir", folder, "--origin", "aws", str(self.EXPORT))
            status, printed, said = focusd(*words)
            self.assertEqual((status, printed, said), (1, "", no_house(folder)))
            for said in ("imported 300 rows, 0 were there already; 1 post\n", "imported 0 rows, 300 were there already; 1 post\n"):
                self.assertEqual(focusd(*words, "--create"), (0, said, ""))
            self.assertEqual(focusd(*words, "--create", "--currency", "dollars")[0], 2)
            self.assertEqual(self.imported(self.EXPORT)[0], 0)
            self.assertEqual(focusd("report", "--dir", folder, *self.SEPTEMBER)[1], self.report())

    def test_an_import_makes_the_folder_too(self):
        with tempfile.TemporaryDirectory() as room:
            folder = f"{room}/costs"
            words = ("import", "--quiet", "--origin", "aws", "--create", "--dir")
            # Nothing is made until the first post is known to be right.
            for wrong in (self.file("none.csv", self.HEADER), "no such file"):
                self.assertEqual(focusd(*words, folder, wrong)[:2], (1, ""), wrong)
                self.assertEqual(list(pathlib.Path(room).iterdir()), [], wrong)
            self.assertEqual(focusd(*words, folder, str(self.EXPORT)), (0, "imported 300 rows, 0 were there already; 1 post\n", ""))
            self.assertEqual(focusd(*words, folder, str(self.EXPORT)), (0, "imported 0 rows, 300 were there already; 1 post\n", ""))
            # None above it is made, and none without --create.
            for given in (("import", "--quiet", "--origin", "aws", "--dir", f"{room}/other"), (*words, f"{room}/no/costs")):
                status, printed, said = focusd(*given, str(self.EXPORT))
                self.assertEqual((status, printed), (1, ""), given)
                self.assertTrue(said.startswith(f"focusd: K1 Io\n{given[-1]}: No such file or directory"), said)
            self.assertEqual([it.name for it in pathlib.Path(room).iterdir()], ["costs"])

    def test_a_new_warehouse_has_the_currency_that_was_named(self):
        euros = self.file("euros.csv", self.EXPORT.read_bytes().replace(b"USD", b"EUR"))
        with tempfile.TemporaryDirectory() as folder:
            words = ("import", "--quiet", "--dir", folder, "--origin", "aws", "--create")
            # Nothing is made until the first post is known to be right.
            for more in (("--currency", "EUR", str(self.EXPORT)), (euros,), (self.file("none.csv", self.HEADER),), (self.file("empty.csv", b""),), ("no such file",)):
                status, printed, said = focusd(*words, *more)
                self.assertEqual((status, printed), (1, ""), more)
                self.assertEqual(focusd("status", "--dir", folder), (1, "", no_house(folder)), more)
            status, _, said = focusd(*words, euros)
            self.assertIn(':2: record 1, BillingCurrency: "EUR": V6 Currency: expected USD, the currency of the warehouse that would be made', said)
            self.assertEqual(focusd(*words, "--currency", "EUR", euros)[0], 0)
            self.assertIn(["Currency", "EUR"], [line.split() for line in focusd("status", "--dir", folder)[1].splitlines()])
            # The currency of a warehouse that there is needn't be named, and another one is refused by name of both.
            self.assertEqual(focusd(*words, euros)[0], 0)
            status, printed, said = focusd(*words, "--currency", "USD", euros)
            self.assertEqual((status, printed), (2, ""))
            self.assertEqual(said, f"focusd: --currency USD: the currency of the warehouse in {folder} is EUR\n")
            status, _, said = focusd(*words[:-1], str(self.EXPORT))
            self.assertEqual(status, 1)
            self.assertIn('BillingCurrency: "USD": V6 Currency: expected EUR, the currency of the warehouse\n', said)

    def test_an_origin_that_is_none_is_refused_before_anything_is_opened(self):
        for origin in ("a b", "", "a" * 65, "é"):
            for folder in (self.folder, "/no such folder"):
                status, printed, said = focusd("import", "--dir", folder, "--create", "--origin", origin, str(self.EXPORT))
                self.assertEqual((status, printed), (2, ""), origin)
                self.assertIn("focusd: --origin: ", said)

    def test_rows_that_another_origin_has_are_warned_of_once(self):
        self.assertEqual(self.imported(self.EXPORT)[2], "")
        self.assertEqual(self.imported(self.EXPORT)[2], "")
        export = self.EXPORT.read_bytes()
        header, *rows = export.splitlines(keepends=True)
        long = self.file("long.csv", header + b"".join(rows) * 30)
        status, printed, said = focusd("import", "--quiet", "--dir", self.folder, "--origin", "again", long)
        self.assertEqual((status, printed.split(";")[0]), (0, "imported 9000 rows, 0 were there already"))
        posts = int(printed.split()[-2])
        self.assertGreater(posts, 1)
        self.assertEqual(said.count("warning"), 1)
        self.assertRegex(said, r"^focusd: warning: .*long\.csv has rows of 2024-09-\d\dT\d\d:00Z .*, and so has the origin aws\.\n")
        self.assertIn("focusd replace", said)
        # Rows that were there already are no news, nor are those of another hour, nor those that count no more.
        self.assertEqual(focusd("import", "--quiet", "--dir", self.folder, "--origin", "again", long)[2], "")
        later = self.file("later.csv", export.replace(b"2024-09-", b"2025-09-").replace(b"2024-10-", b"2025-10-"))
        self.assertEqual(focusd("import", "--quiet", "--dir", self.folder, "--origin", "later", later)[2], "")
        gone = "withdraw aws 2 1\n" + "".join(f"withdraw again {posts + it} {it}\n" for it in range(1, posts + 1))
        self.assertEqual(focusd("run", "--dir", self.folder, given=gone.encode())[1].count("accepted"), posts + 1)
        self.assertEqual(focusd("import", "--quiet", "--dir", self.folder, "--origin", "anew", str(self.EXPORT))[2], "")

    def test_posts_behind_those_of_the_files_are_warned_of(self):
        one, two = self.file("one.csv", self.HEADER + self.ROW * 4096), self.file("two.csv", self.HEADER + self.ROW * 5)
        words = ("import", "--quiet", "--dir", self.folder, "--origin", "feed")
        self.assertEqual(focusd(*words, one, two, two), (0, "imported 4106 rows, 0 were there already; 3 posts\n", ""))
        status, printed, said = focusd(*words, one)
        self.assertEqual((status, printed), (0, "imported 0 rows, 4096 were there already; 1 post\n"))
        self.assertIn("focusd: warning: feed has 2 posts more, from entry 2 on, with 10 rows that count and that the files don't have.\n", said)
        self.assertIn("focusd replace", said)
        # Posts that were withdrawn count no more.
        self.assertEqual(focusd("run", "--dir", self.folder, given=b"withdraw feed 4 2\n")[1], "accepted 4\n")
        self.assertIn("feed has 1 post more, from entry 3 on, with 5 rows that count and", focusd(*words, one)[2])
        self.assertEqual(focusd("run", "--dir", self.folder, given=b"withdraw feed 5 3\n")[1], "accepted 5\n")
        self.assertEqual(focusd(*words, one)[2], "")

    def test_rows_of_an_own_commitment_are_placed(self):
        commitment = b'commit c 1 8\nid = "cd-7"\ncategory = "Usage"\nstart = "2024-01-01T00:00Z"\nhours = 2\ncapacity = "2"\nunit = "Hours"\nskus = ["vm"]\n'
        commitment += b'purchase = [{ at = "2024-01-01T00:00Z", billed = "3" }]\n'
        self.assertEqual(focusd("run", "--dir", self.folder, given=commitment)[1], "accepted 1\n")
        header = self.HEADER.replace(b"\n", b",CommitmentDiscountId,CommitmentDiscountCategory,CommitmentDiscountStatus\n")
        rows = [self.ROW.replace(b"\n", it) for it in (b",,,\n", b",cd-8,Usage,Used\n", b",cd-7,Usage,Used\n")]
        file = self.file("own.csv", header + rows[0] * 4096 + rows[1] + b"\n" + rows[2])
        status, printed, said = self.imported(file)
        self.assertEqual((status, printed), (1, ""))
        self.assertTrue(said.startswith(f'focusd: {file}:4100: record 4098, CommitmentDiscountId: "cd-7": J4 OwnCommitment: expected '), said)

    def test_an_answer_that_cannot_be_printed(self):
        for words in (("import", "--quiet", "--dir", self.folder, "--origin", "aws", str(self.EXPORT)), ("check", str(self.EXPORT))):
            self.assertEqual(full(*words), (1, FULL_OUTPUT), words)

    def test_a_file_of_which_a_read_fails(self):
        why, status = f"F1 Read: {system(errno.EIO)}\n", 1
        for words, wanted in (
            (("check",), f"focusd: {UNREADABLE}:1: from record 1 on: {why}"),
            (("import", "--quiet", "--dir", self.folder, "--origin", "a"), f"focusd: {UNREADABLE}:1: from record 1 on: {why}"),
            (("replace", "--quiet", "--dir", self.folder, "--origin", "a"), f"focusd: {UNREADABLE}:1: from record 1 on: {why}focusd: nothing was replaced\n"),
            (("add", "--dir", self.folder, "--origin", "a"), f"{UNREADABLE}: {system(errno.EIO)} (F1 Read)\nfocusd: nothing was added\n"),
            (("load", "--dir", self.folder), f"focusd: F1 Read\n{UNREADABLE}: {system(errno.EIO)}\n"),
        ):
            self.assertEqual(focusd(*words, UNREADABLE), (status, "", wanted), words)

    def test_a_device_that_fails(self):
        """Which file could not be written, and what the system said of it, is said by all commands, and of a script at a terminal."""
        self.assertEqual(self.imported(self.EXPORT)[0], 0)
        terms = self.file("cd.toml", (HERE / "commitment.toml").read_bytes())
        again = self.file("again.csv", self.HEADER + self.ROW)
        new = str(self.top / "new")
        remedy = "Look for a full or failing disk. Then run again and send what wasn't accepted: none counts twice."
        said = f"/(left|right): {re.escape(system(errno.EFBIG))}\\. What to do: {re.escape(remedy)}"
        for folder, *words in (
            (self.folder, "import", "--quiet", "--dir", self.folder, "--origin", "b", again),
            (new, "import", "--quiet", "--dir", new, "--create", "--origin", "b", again),
            (self.folder, "load", "--dir", self.folder, "--origin", "c", again),
            (self.folder, "add", "--dir", self.folder, "--origin", "terms", terms),
            (self.folder, "replace", "--quiet", "--dir", self.folder, "--origin", "aws", again),
            (self.folder, "withdraw", "--dir", self.folder, "--origin", "aws", "--all", "--yes"),
            (self.folder, "checkpoint", "--dir", self.folder),
            (new, "compact", "--quiet", "--dir", self.folder, "--into", new),
        ):
            shutil.rmtree(new, ignore_errors=True)
            ran = subprocess.run([program(), *words], stdin=subprocess.DEVNULL, capture_output=True, **within(16))
            self.assertEqual(ran.returncode, 1, words)
            self.assertRegex(ran.stderr.decode().split("\n", 1)[1], f"^{re.escape(folder)}{said}\n$", words)
            self.assertTrue(ran.stderr.startswith(b"focusd: S3 Device\n"), words)
        script = b"post d 1 2\n" + self.HEADER + self.ROW + b"state\n"
        ran = subprocess.run([program(), "run", "--dir", self.folder], input=script, capture_output=True, **within(16))
        self.assertEqual((ran.returncode, ran.stdout, ran.stderr), (0, b"store S3 Device\nstate 1 300 0 0\n", b""))
        status, lines = at_a_terminal(1, "run", "--dir", self.folder, input=script, stdout=subprocess.DEVNULL, **within(16))
        self.assertEqual((status, len(lines)), (0, 1), lines)
        self.assertRegex(lines[0], f"^{re.escape(self.folder)}{said}$")

    def test_rows_that_do_not_fit_are_refused_before_the_first_post(self):
        posts, rows, row = 1024, 4096, b"0,0,USD,Tax,20240101T00Z,20240101T00Z\n"
        full, more = self.file("full.csv", self.HEADER + row * rows), self.file("more.csv", self.HEADER + row)
        with tempfile.TemporaryDirectory() as folder:
            words = ("import", "--quiet", "--dir", folder, "--origin")
            # The same file again and again is as long as one that has all the rows.
            status, printed, said = focusd(*words, "a", "--create", *[full] * posts, more)
            self.assertEqual((status, printed), (1, ""))
            self.assertIn("focusd: the rows of the files: J1 Full: with this post more than 4,194,304 rows would have been posted to the warehouse", said)
            self.assertIn("\nWhat to do: Begin another warehouse, ", said)
            self.assertIn("\n1025 files have 4194305 rows, 0 rows were posted before, 0 of them by a. Nothing was imported.\n", said)
            self.assertEqual(focusd("status", "--dir", folder)[0], 1)
            # A warehouse that is full, of which one post counts no more. A checkpoint spares each of the next commands the log.
            content = self.HEADER + row * rows
            script = [b"post %s %d %d\n%s" % (b"z", number, rows + 1, content) for number in range(1, posts)]
            script += [b"post a 1 %d\n%s" % (rows + 1, content), b"withdraw z %d 7\ncheckpoint\n" % posts]
            status, printed, said = focusd("run", "--workers", "4", "--dir", folder, "--create", given=b"".join(script))
            self.assertEqual((status, printed.splitlines()[-2:], said), (0, [f"accepted {posts + 1}", "checkpointed"], ""))
            # What is there already takes no more room.
            self.assertEqual(focusd(*words, "a", full)[:2], (0, f"imported 0 rows, {rows} were there already; 1 post\n"))
            for origin, files, refusal in (
                ("a", (full, more), "2 files have 4097 rows, 4194304 rows were posted before, 4096 of them by a. Nothing was imported.\n"),
                ("b", (more,), "1 file has 1 row, 4194304 rows were posted before, 0 of them by b. Nothing was imported.\n"),
            ):
                status, printed, said = focusd(*words, origin, *files)
                self.assertEqual((status, printed), (1, ""))
                self.assertIn(refusal, said)
                self.assertIn("4096 of the rows posted were withdrawn: `focusd compact` makes room of them.", said)
            # Standard input isn't looked at first.
            ran = focusd(*words, "b", "-", given=self.HEADER + row)
            self.assertEqual(ran[:2], (1, ""))
            self.assertIn(":2: the post from record 1 on: J1 Full: with this post more than 4,194,304 rows would have been posted", ran[2])
            self.assertIn("\nRows that were posted before it, and stay: 4194304.\n", ran[2])

    def test_a_check_of_a_header_lists_all_that_is_wrong_with_it(self):
        lacking = b"BilledCost,BilledCost,Tags,Note,Tags,Note,Tags\n1,1,,,,,\n"
        wanted = [["H1 MissingColumn", it] for it in ("EffectiveCost", "BillingCurrency", "ChargeCategory", "ChargePeriodStart", "ChargePeriodEnd")]
        wanted += [["H2 DoubleColumn", "BilledCost"], ["H2 DoubleColumn", "Tags"]]
        doubled = self.HEADER.replace(b"\n", b",SkuId,BilledCost,SkuId\n") + self.ROW
        for text, findings in (
            (lacking, wanted),
            (doubled, [["H2 DoubleColumn", "BilledCost"], ["H2 DoubleColumn", "SkuId"]]),
            (b"a\n", [["H1 MissingColumn", "BilledCost"], *wanted[:5]]),
            (self.HEADER, [["V14 NoRows", ""]]),
            (self.HEADER + b"\n\n", [["V14 NoRows", ""]]),
            (self.HEADER[:-1], [["V14 NoRows", ""]]),
            (b"", [["V14 NoRows", ""]]),
        ):
            file = self.file("header.csv", text)
            status, printed, said = focusd("check", "--format", "json", file)
            self.assertEqual((status, said), (1, ""), text)
            found = json.loads(printed)
            self.assertEqual([[it["code"], it["column"]] for it in found["findings"]], findings, text)
            self.assertEqual((found["faults"], found["records"]), (len(findings), 0), text)
            self.assertEqual({(it["count"], *map(tuple, map(dict.items, it["places"]))) for it in found["findings"]}, {(1, (("line", 1), ("record", 0), ("value", "")))})
            printed = focusd("check", file)[1]
            for code, column in findings:
                self.assertIn(f"\n{code}{column and ' '}{column}: 1; expected ", printed)
            self.assertIn(f"\n  {file}:1: the header\n", printed)

    def test_a_check_prints_what_it_found_before_a_record_that_is_too_long(self):
        wrong = self.ROW.replace(b"Tax", b"Rent")
        file = self.file("long.csv", self.HEADER + self.ROW + b"\n" + wrong + b'"' + b"x" * (5 << 20) + self.ROW)
        status, printed, said = focusd("check", "--format", "json", file)
        found = json.loads(printed)
        self.assertEqual((status, [it["code"] for it in found["findings"]], found["records"]), (1, ["V3 Category"], 2))
        self.assertEqual(said, f"focusd: {file}:5: record 3: {TOO_LONG}")
        self.assertIn("V3 Category ChargeCategory: 1; ", focusd("check", file)[1])
        file = self.file("header.csv", b'"' + b"x" * (3 << 20))
        for words in (("check", file), ("import", "--quiet", "--dir", self.folder, "--origin", "a", file)):
            status, _, said = focusd(*words)
            self.assertEqual((status, said), (1, f"focusd: {file}:1: the header: {LONG_HEADER}"), words)

    def test_lines_that_a_carriage_return_ends(self):
        """A record with a fault is placed by lines of each kind, also behind several parts."""
        wrong = self.ROW.replace(b"Tax", b"Rent")
        rows = [self.HEADER, self.ROW, b"\n", wrong, *[self.ROW] * 9000, b"\n", b"\n", wrong, self.ROW, wrong]
        places = [(4, 2), (9007, 9003), (9009, 9005)]
        for end in (b"\n", b"\r\n", b"\r"):
            file = self.file("lines.csv", b"".join(rows).replace(b"\n", end))
            status, printed, said = focusd("check", "--format", "json", file)
            found = json.loads(printed)
            self.assertEqual((status, said, found["records"], found["faults"]), (1, "", 9005, 3), end)
            self.assertEqual([(it["line"], it["record"]) for it in found["findings"][0]["places"]], places, end)
            # The first fault in the first part, and one behind two parts that are taken.
            for some, (line, record) in ((rows, places[0]), ([*rows[:3], self.ROW, *rows[4:]], places[1])):
                file = self.file("lines.csv", b"".join(some).replace(b"\n", end))
                with tempfile.TemporaryDirectory() as folder:
                    self.assertEqual(focusd("run", "--dir", folder, "--create")[0], 0)
                    for command in ("import", "replace"):
                        status, printed, said = focusd(command, "--quiet", "--dir", folder, "--origin", "aws", file)
                        self.assertEqual((status, printed), (1, ""), (end, command))
                        self.assertTrue(said.startswith(f'focusd: {file}:{line}: record {record}, ChargeCategory: "Rent": V3 Category: '), (end, said))

    def test_a_record_that_is_too_long_behind_two_parts(self):
        for end in (b"\n", b"\r"):
            file = self.file("long.csv", b"".join([self.HEADER, self.ROW * 9000, b'"', b"x" * (5 << 20)]).replace(b"\n", end))
            said = f"focusd: {file}:9002: record 9001: {TOO_LONG}"
            self.assertEqual(focusd("check", file)[2], said)
            with tempfile.TemporaryDirectory() as folder:
                self.assertEqual(focusd("import", "--quiet", "--dir", folder, "--create", "--origin", "aws", file), (1, "", said))

    def test_a_folder_in_place_of_a_file(self):
        folder = str(self.top)
        said = f"focusd: {folder}: F1 Read: it is a folder that has no file whose name ends in .csv\n"
        for words, wanted in (
            (("check", folder), said),
            (("import", "--dir", self.folder, "--origin", "a", folder), said),
            (("replace", "--dir", self.folder, "--origin", "a", folder), said + "focusd: nothing was replaced\n"),
            (("add", "--dir", self.folder, "--origin", "a", folder), f"{folder}: it is a folder, and not a file (F1 Read)\nfocusd: nothing was added\n"),
        ):
            self.assertEqual(focusd(*words), (1, "", wanted), words)

    def test_a_message_has_a_line_of_its_own_behind_the_progress(self):
        one, none = self.file("one.csv", self.HEADER + self.ROW), str(self.top / "none.csv")
        for words in (("import", "--dir", self.folder, "--origin", "a"), ("replace", "--dir", self.folder, "--origin", "a"), ("check",)):
            ours, terminal = os.openpty()
            run = subprocess.run([program(), *words, one, none], stdin=subprocess.DEVNULL, stdout=subprocess.DEVNULL, stderr=terminal)
            os.close(terminal)
            said = b""
            while b"No such file" not in said:
                said += os.read(ours, 4096)
            os.close(ours)
            self.assertEqual(run.returncode, 1)
            self.assertRegex(said.decode(), r"^\r0 rows, 0 MB\x1b\[K\r1 row, 0 MB\x1b\[K\r\nfocusd: .*none\.csv: F1 Read: No such file", words)

    def test_a_record_with_too_few_fields_or_too_many(self):
        for row, fields in ((self.ROW.replace(b"\n", b",1,2\n"), "8 fields"), (b"1\n", "1 field")):
            file = self.file("fields.csv", self.HEADER + row)
            wanted = f"focusd: {file}:2: record 1: {fields}; the header has 6: V1 Fields: expected as many fields as the header\n"
            self.assertEqual(self.imported(file)[2].splitlines(keepends=True)[0], wanted)
            status, _, said = focusd("replace", "--dir", self.folder, "--origin", "aws", file)
            self.assertEqual((status, said), (1, wanted + "focusd: nothing was replaced\n"))

    def test_times_out_of_range(self):
        file = self.file("times.csv", self.HEADER + b"".join(b"0,0,USD,Tax,%s,%s\n" % (it, it) for it in (b"1969-12-31T23:00:00Z", b"9999-12-30T22:00:01Z", b"9999-12-30T22:00:00Z", b"1970-01-01T00:00:00Z")))
        found = json.loads(focusd("check", "--format", "json", file)[1])
        expected_time = "a time on a whole second from 1970 to 9999-12-30T22:00:00Z, as 2024-01-01T00:00:00Z"
        self.assertEqual([(it["code"], it["column"], it["expected"], it["count"]) for it in found["findings"]], [("V7 Time", it, expected_time, 2) for it in ("ChargePeriodStart", "ChargePeriodEnd")])
        self.assertEqual(found["rows"], 2)
        self.assertIn(f'"1969-12-31T23:00:00Z": V7 Time: expected {expected_time}\n', self.imported(file)[2])

    def test_counts_agree_with_their_nouns(self):
        wrong = self.ROW.replace(b"Tax", b"Rent")
        for text, said in (
            (b"", "0 records, 0 of them with faults; 1 fault"),
            (self.ROW, "1 record, 0 of them with faults; 0 faults"),
            (wrong, "1 record, 1 of them with faults; 1 fault"),
            (self.ROW + wrong * 2, "3 records, 2 of them with faults; 2 faults"),
        ):
            file = self.file("counts.csv", self.HEADER + text)
            self.assertEqual(focusd("check", file)[1].splitlines()[0], f"{file}: {said}")
        one = self.file("one.csv", self.HEADER + self.ROW)
        words = ("import", "--quiet", "--dir", self.folder, "--origin", "feed")
        self.assertEqual(focusd(*words, one, one), (0, "imported 2 rows, 0 were there already; 2 posts\n", ""))
        self.assertIn("feed has 1 post more, from entry 2 on, with 1 row that counts and that the files don't have.", focusd(*words, one)[2])
        self.assertEqual(focusd(*words, one, one, one), (0, "imported 1 row, 2 were there already; 3 posts\n", ""))

    def test_a_check_counts_the_currencies_of_right_records(self):
        rows = self.ROW + self.ROW.replace(b"USD", b"EUR") + self.ROW.replace(b"Tax", b"Rent") + self.ROW
        found = json.loads(focusd("check", "--format", "json", self.file("two.csv", self.HEADER + rows))[1])
        self.assertEqual((found["currencies"], found["rows"], found["badRecords"]), ({"USD": 2}, 2, 2))

    def test_a_file_that_changed_is_refused(self):
        self.assertEqual(self.imported(self.EXPORT)[0], 0)
        before = self.report()
        changed = pathlib.Path(self.folder).parent / (pathlib.Path(self.folder).name + ".csv")
        self.addCleanup(changed.unlink)
        records = list(expected.csv.reader(self.EXPORT.read_text(encoding="utf-8-sig").splitlines(keepends=True)))
        cost = records[0].index("BilledCost")
        records[7][cost] = "1" + records[7][cost].lstrip("-")
        with open(changed, "w", newline="", encoding="utf-8") as out:
            expected.csv.writer(out).writerows(records)
        status, _, said = self.imported(changed)
        self.assertEqual(status, 1)
        self.assertIn("has other rows", said)
        self.assertEqual(self.report(), before)

    def test_check_finds_what_was_planted(self):
        records = list(expected.csv.reader(self.EXPORT.read_text(encoding="utf-8-sig").splitlines(keepends=True)))
        planted = {}
        plants = (("ChargeCategory", "Rent", "V3"), ("BilledCost", "1.2.3", "V5"), ("ChargePeriodStart", "soon", "V7"), ("Tags", "[1]", "V12"))
        for number, record in enumerate(records[1:]):
            for place, (column, text, code) in enumerate(plants):
                if number % (place + 5) == 0:
                    record[records[0].index(column)] = text
                    planted[code, column] = planted.get((code, column), 0) + 1
        file = pathlib.Path(self.folder).parent / (pathlib.Path(self.folder).name + ".csv")
        self.addCleanup(file.unlink)
        with open(file, "w", newline="", encoding="utf-8") as out:
            expected.csv.writer(out).writerows(records)
        status, printed, _ = focusd("check", "--format", "json", str(file))
        self.assertEqual(status, 1)
        found = json.loads(printed)
        self.assertEqual({(it["code"].split()[0], it["column"]): it["count"] for it in found["findings"]}, planted)
        self.assertEqual(found["records"], len(records) - 1)
        self.assertEqual(focusd("check", str(self.EXPORT))[0], 0)

    def test_what_check_shows_of_values(self):
        head = "BilledCost,EffectiveCost,BillingCurrency,ChargeCategory,ChargePeriodStart,ChargePeriodEnd"
        rest = "1,USD,Tax,2024-01-01T00:00Z,2024-01-01T01:00Z"
        values = ["x" * 60, "x" * 61, "\u00e9" * 61]
        lines = [head, *(f"{value},{rest}" for value in values), f"1,{rest},more", "1"]
        file = pathlib.Path(self.folder).parent / (pathlib.Path(self.folder).name + ".csv")
        self.addCleanup(file.unlink)
        file.write_text("".join(f"{line}\n" for line in lines), encoding="utf-8")
        found = json.loads(focusd("check", "--format", "json", str(file))[1])
        shown = {it["code"]: [place["value"] for place in it["places"]] for it in found["findings"]}
        self.assertEqual(shown, {
            "V5 Cost": ["x" * 60, "x" * 60 + "...", "\u00e9" * 60 + "..."],
            "V1 Fields": ["7 fields; the header has 6", "1 field; the header has 6"],
        })  # fmt: skip

    # What each planted fault is called, and what it does to a record: fields by their columns.
    PLANTS = (
        ("V3", "ChargeCategory", lambda it: it.update(ChargeCategory="Rent")),
        ("V4", "ChargeClass", lambda it: it.update(ChargeClass="correction")),
        ("V5", "BilledCost", lambda it: it.update(BilledCost="1.2.3")),
        ("V5", "EffectiveCost", lambda it: it.update(EffectiveCost="one")),
        ("V6", "BillingCurrency", lambda it: it.update(BillingCurrency="EUR")),
        ("V7", "ChargePeriodStart", lambda it: it.update(ChargePeriodStart="soon")),
        ("V7", "ChargePeriodEnd", lambda it: it.update(ChargePeriodEnd="1969-12-31T23:00:00Z")),
        ("V8", "ChargePeriodEnd", lambda it: it.update(ChargePeriodEnd="1970-01-01T00:00:00Z")),
        ("V9", "CommitmentDiscountCategory", lambda it: it.update(CommitmentDiscountId="ri-1", CommitmentDiscountCategory="", CommitmentDiscountStatus="Used")),
        ("V10", "CommitmentDiscountStatus", lambda it: it.update(CommitmentDiscountId="", CommitmentDiscountCategory="", CommitmentDiscountStatus="Used")),
        ("V11", "ConsumedQuantity", lambda it: it.update(ConsumedQuantity="a dozen")),
        ("V12", "Tags", lambda it: it.update(Tags="[1]")),
        ("V13", "SubAccountId", lambda it: it.update(SubAccountId="a" * 257)),
        ("V13", "Tags", lambda it: it.update(Tags=json.dumps({f"k{at}": "" for at in range(257)}))),
        ("V2", "SkuId", lambda it: it.update(SkuId="\udcff")),
        ("V1", "", lambda it: it.popitem()),
    )

    def test_check_finds_a_thousand_planted_faults(self):
        """1,000 faults of all kinds in 900 of 4,500 records, 100 of which have two; each group with its count and its first three places."""
        made = [sys.executable, "-B", str(HERE / "make_export.py"), "--rows", "4500", "--seed", "7"]
        text = subprocess.run(made, capture_output=True, check=True).stdout.decode("utf-8-sig")
        header, *records = expected.csv.reader(io.StringIO(text, newline=""))
        planted, out, lines = {}, io.StringIO(newline=""), 2
        writer = expected.csv.writer(out, lineterminator="\n")
        writer.writerow(header)
        for number, record in enumerate(records):
            fields, turn = dict(zip(header, record)), number // 5
            plants = [] if number % 5 else [self.PLANTS[turn % len(self.PLANTS)]]
            if plants and turn % 9 == 0:
                # whatever the first one is, a second one that leaves it alone, and is read behind it or before it
                plants = [self.PLANTS[2], self.PLANTS[11 + turn // 9 % 2]]
            for code, column, plant in plants:
                plant(fields)
                planted.setdefault((code, column), []).append((lines, number + 1))
            before = out.tell()
            writer.writerow(fields.values())
            lines += out.getvalue()[before:].count("\n") if "\n" in "".join(fields.values()) else 1
        self.assertEqual(sum(len(it) for it in planted.values()), 1000)
        file = pathlib.Path(self.folder).parent / (pathlib.Path(self.folder).name + ".csv")
        self.addCleanup(file.unlink)
        file.write_bytes(out.getvalue().encode("utf-8", "surrogateescape"))
        status, printed, _ = focusd("check", "--format", "json", str(file))
        found = json.loads(printed)
        counted = {(it["code"].split()[0], it["column"]): it["count"] for it in found["findings"]}
        places = {(it["code"].split()[0], it["column"]): [(at["line"], at["record"]) for at in it["places"]] for it in found["findings"]}
        self.assertEqual(counted, {group: len(at) for group, at in planted.items()})
        self.assertEqual(places, {group: at[:3] for group, at in planted.items()})
        self.assertEqual((status, found["records"], found["badRecords"], found["faults"]), (1, 4500, 900, 1000))


class Progress(OneFolder):
    """What import and check print to a terminal while they read."""

    ROWS, POST = 1_500_000, 4_096
    # Rows, megabytes, and where the files have lengths all megabytes and the share; from the first second on the rate, and then the time left.
    LINE = re.compile(r"(\d+) rows, (\d+) MB(?: of (\d+) MB, (\d+)%)?(?:, (\d+) MB/s(?:, (\d+) (s|min) left)?)?\x1b\[K")

    @classmethod
    def setUpClass(cls):
        super().setUpClass()
        cls.file = cls.room / "export.csv"
        header = b"BilledCost,EffectiveCost,BillingCurrency,ChargeCategory,ChargePeriodStart,ChargePeriodEnd,Tags\n"
        row = b'0.1,0.1,USD,Usage,2024-01-01T00:00Z,2024-01-01T01:00Z,"{""team"":""web"",""note"":""%s""}"\n' % (b"n" * 150)
        cls.file.write_bytes(header + row * cls.ROWS)
        cls.header, cls.row = len(header), len(row)

    def told(self, *words, file=None):
        """The lines of progress of a run over a terminal, each as its numbers; it has to end well."""
        ours, terminal = os.openpty()
        began = time.monotonic()
        with open(file or os.devnull, "rb") as given:
            with subprocess.Popen([program(), *words], stdin=given, stdout=subprocess.PIPE, stderr=terminal) as run:
                os.close(terminal)
                text = b""
                # A terminal that nobody holds any more is read to its end, which is an error.
                try:
                    while part := os.read(ours, 65536):
                        text += part
                except OSError:
                    os.close(ours)
                self.printed = run.stdout.read().decode()
        self.took = time.monotonic() - began
        self.assertEqual(run.returncode, 0)
        if not text:
            return []
        first, *lines = text.decode().split("\r")
        self.assertEqual((first, lines.pop()), ("", "\n"))
        found = [self.LINE.fullmatch(line) for line in lines]
        self.assertNotIn(None, found)
        return [[int(it) if it and it.isdigit() else it for it in line.groups()] for line in found]

    def lines_add_up(self, lines):
        """Each line has the rows and bytes of the posts so far, and the rate and time left that follow from its time."""
        total = self.header + self.row * self.ROWS
        rows = [min(at, self.ROWS) for at in range(0, self.ROWS + self.POST, self.POST)]
        read = [self.header + self.row * it for it in rows]
        self.assertEqual([line[0] for line in lines], rows)
        self.assertEqual([line[1:4] for line in lines], [[it // 10**6, total // 10**6, it * 100 // total] for it in read])
        timed = [(it, line[4], line[5] * (60 if line[6] == "min" else 1)) for it, line in zip(read, lines) if line[4] is not None]
        # A fast machine reads all within a second, and then tells no rate.
        if self.took > 2:
            self.assertGreater(len(timed), 2)
        for it, rate, left in timed:
            least = it // 10**6 // (rate + 1)
            self.assertGreaterEqual(rate, it // 10**6 // (int(self.took) + 1))
            self.assertGreaterEqual(left + 60, (total - it) * least // it)
            self.assertLessEqual(left, (total - it) * self.took / it)
        if timed:
            self.assertEqual(timed[-1][2], 0)

    def test_an_import_tells_how_far_it_is(self):
        words = ("import", "--dir", str(self.room), "--origin", "aws", "--create")
        self.lines_add_up(self.told(*words, str(self.file)))
        self.assertIn(f"imported {self.ROWS} rows, 0 were there already", self.printed)
        # Standard input has no length, whatever it is.
        lines = self.told(*words, "-", file=self.file)
        self.assertEqual([line[0] for line in lines][-1], self.ROWS)
        self.assertEqual({(line[2], line[3], line[5]) for line in lines}, {(None, None, None)})
        self.assertEqual(self.told(*words, "--quiet", str(self.file)), [])

    def test_a_check_tells_how_far_it_is(self):
        self.lines_add_up(self.told("check", str(self.file)))
        self.assertEqual(self.told("check", "--quiet", str(self.file)), [])


class Loads(Paths):
    """Files that are loaded side by side. What is printed is worked out by hand from docs/FORMATS.md."""

    HEADER = "BilledCost,EffectiveCost,BillingCurrency,ChargeCategory,ChargePeriodStart,ChargePeriodEnd\n"
    ROW = "0.1,0.1,USD,Tax,2024-01-01T00:00Z,2024-01-01T01:00Z\n"
    SHORT = "0.1,0.1,USD,Tax,2024-01-01T00:00Z\n"

    def setUp(self):
        super().setUp()
        self.right = self.file("right.csv", self.HEADER + self.ROW)
        self.short = self.file("short.csv", self.HEADER + self.ROW + self.SHORT)
        self.new_folder("costs")

    def test_a_file_that_is_refused(self):
        wanted = "1 accepted\n2 refused V1 Fields 2\nstale 0\nstate 1 1 0 0\n"
        self.assertEqual(focusd("load", self.right, self.short), (0, wanted, ""))

    def test_a_folder(self):
        words = ("load", "--dir", str(self.top / "costs"))
        wanted = "1 accepted\n2 accepted\nstale 0\nstate 2 2 0 0\n"
        self.assertEqual(focusd(*words, "--create", self.right, self.right), (0, wanted, ""))
        # The same files again are there, and a new number is a new entry.
        wanted = "1 already 1\n2 already 1\n3 accepted\nstale 0\nstate 3 3 0 0\n"
        self.assertEqual(focusd(*words, self.right, self.right, self.right), (0, wanted, ""))
        wanted = "1 accepted\nstale 0\nstate 4 4 0 0\n"
        self.assertEqual(focusd(*words, "--origin", "g", "--analysts", "16", self.right), (0, wanted, ""))
        self.assertEqual(focusd("verify", "--dir", str(self.top / "costs"))[0], 0)

    def test_sixty_four_files(self):
        wanted = "".join(f"{number} accepted\n" for number in range(1, 65)) + "stale 0\nstate 64 64 0 0\n"
        self.assertEqual(focusd("load", "--analysts", "4", *[self.right] * 64), (0, wanted, ""))

    def test_what_is_wrong(self):
        for words, wanted, named in (
            (("load",), 2, "FILE"),
            (("load", "--analysts", "0", self.right), 2, "--analysts"),
            (("load", "--analysts", "17", self.right), 2, "--analysts"),
            (("load", "--currency", "usd", self.right), 2, 'focusd: --currency: "usd" is not three capital letters, as USD'),
            (("load", *[self.right] * 65), 1, "focusd: G1 Counts"),
            # A file that can't be read is found before the folder is looked at.
            (("load", "--dir", str(self.top / "none"), str(self.top / "none.csv")), 1, f"focusd: F1 Read\n{self.top}/none.csv: "),
            (("load", self.right, str(self.top)), 1, f"focusd: F1 Read\n{self.top}: it is a folder, and not a file\n"),
            (("load", "--dir", str(self.top / "none"), self.right), 1, "focusd: K1 Io"),
            (("load", "--dir", str(self.top / "costs"), self.right), 1, "focusd: S1 NoHouse"),
        ):
            status, printed, said = focusd(*words)
            self.assertEqual((status, printed), (wanted, ""), words)
            self.assertIn(named, said, words)

    def test_a_reader_that_stops_early_and_one_that_is_full(self):
        words = ("load", "--dir", str(self.top / "costs"), "--create", self.right)
        self.assertEqual(with_no_reader(words), (0, b""))
        wanted = "1 already 1\nstale 0\nstate 1 1 0 0\n"
        self.assertEqual(focusd("load", "--dir", str(self.top / "costs"), self.right), (0, wanted, ""))
        self.assertEqual(full("load", self.right), (1, FULL_OUTPUT))

    def test_an_origin_that_is_none(self):
        wanted = "1 refused E1 Origin\nstale 0\nstate 0 0 0 0\n"
        self.assertEqual(focusd("load", "--origin", "a b", self.right), (0, wanted, ""))


class Additions(Paths):
    """Commitments, policies and purchases that are added from files."""

    HEADER = "BilledCost,EffectiveCost,BillingCurrency,ChargeCategory,ChargePeriodStart,ChargePeriodEnd,ConsumedQuantity,ConsumedUnit,SkuId,SubAccountId,Tags,CommitmentDiscountId\n"
    COMMITMENT = """id = "cd-1"
category = "Usage"
start = "2024-01-01T00:00Z"
hours = 3
capacity = "2.5"
unit = "Hours"
skus = ["vm"]
[tags]
team = "platform"
[[purchase]]
at = "2024-01-01T00:00Z"
billed = "10.5"
[[purchase]]
at = "2024-01-01T01:00Z"
billed = "4"
"""
    SPEND = """id = "cd-s"
category = "Spend"
start = "2024-01-01T00:00Z"
hours = 1
capacity = "1"
rates = { vm = 500000, db = 1 }
sub_account = "a"
[[purchase]]
at = "2024-01-01T00:00Z"
billed = "0"
"""
    POLICY = """key = "team"
[[rule]]
from = "platform"
to = { web = 3, data = 1 }
"""
    PURCHASE = """id = "cd-1"
at = "2024-01-01T02:30Z"
billed = "1.5"
"""

    def setUp(self):
        super().setUp()
        self.folder = self.new_folder("costs")
        rows = [self.row(hour) for hour in (0, 1, 2, 2)]
        self.script = f"post rows 1 {len(rows) + 1}\n{self.HEADER}{''.join(rows)}"
        self.assertEqual(self.focusd("run", "--create", given=self.script.encode())[::2], (0, ""))

    def focusd(self, command, *words, given=b""):
        return focusd(command, "--dir", str(self.folder), *words, given=given)

    @staticmethod
    def row(hour, category="Usage", unit="Hours", sku="vm", account="a", discount="", quantity="1"):
        return (
            f"0.1,0.1,USD,{category},2024-01-01T{hour:02}:00:00Z,2024-01-01T{hour + 1:02}:00:00Z,{quantity},{unit},{sku},{account},"
            f'"{{""team"":""web""}}",{discount}\n'
        )

    def add(self, *words, origin="billing"):
        """The status, standard output and standard error of a run, without the names of the folder of the files."""
        status, printed, said = self.focusd("add", "--origin", origin, *words)
        return status, printed.replace(f"{self.top}/", ""), said.replace(f"{self.top}/", "")

    def kept(self):
        return {it.name: it.read_bytes() for it in self.folder.iterdir()}

    def state(self):
        return self.focusd("run", given=b"state\n")[1]

    def refused(self, said, *words, status=1):
        """A run that is refused with this on standard error, and changes nothing."""
        before = self.kept()
        found = self.add(*words)
        self.assertEqual(found[:2], (status, ""), found)
        self.assertIn(said, found[2])
        self.assertEqual(self.kept(), before)

    def test_a_commitment_and_a_policy(self):
        commitment, policy = self.file("cd.toml", self.COMMITMENT), self.file("team.toml", self.POLICY)
        self.assertEqual(self.add(commitment), (0, "cd.toml: commitment cd-1: entry 2 (billing 1)\n", ""))
        self.assertEqual(self.add(policy), (0, 'team.toml: policy by "team": entry 3 (billing 2)\n', ""))
        self.assertEqual(self.state(), "state 3 4 1 1\n")
        # What the files became is what a script makes of their lines.
        kinds = (("commit", self.COMMITMENT), ("policy", self.POLICY))
        sent = "".join(f"{kind} billing {at} {text.count(chr(10))}\n{text}" for at, (kind, text) in enumerate(kinds, 1))
        with tempfile.TemporaryDirectory() as other:
            self.assertEqual(focusd("run", "--dir", other, "--create", given=(self.script + sent).encode())[0], 0)
            self.assertEqual(focusd("dump", "--dir", other), self.focusd("dump"))

    def test_several_files_in_their_order(self):
        files = self.file("cd.toml", self.COMMITMENT), self.file("team.toml", self.POLICY), self.file("s.toml", self.SPEND)
        lines = (
            "cd.toml: commitment cd-1: entry 2 (billing 1)\n"
            'team.toml: policy by "team": entry 3 (billing 2)\n'
            "s.toml: commitment cd-s: entry 4 (billing 3)\n"
        )
        self.assertEqual(self.add(*files), (0, lines, ""))
        self.assertEqual(self.state(), "state 4 4 2 1\n")
        # A file that stands twice is added once, and another origin counts its own entries.
        other = self.file("other.toml", self.COMMITMENT.replace("cd-1", "cd-2"))
        lines = "other.toml: commitment cd-2: entry 5 (b 1)\nother.toml: commitment cd-2 is there already, the same\n"
        self.assertEqual(self.add(other, other, origin="b"), (0, lines, ""))

    def test_standard_input(self):
        found = self.focusd("add", "--origin", "billing", "-", given=self.POLICY.encode())
        self.assertEqual(found, (0, '-: policy by "team": entry 2 (billing 1)\n', ""))

    def test_the_same_again(self):
        files = self.file("cd.toml", self.COMMITMENT), self.file("team.toml", self.POLICY)
        self.assertEqual(self.add(*files)[0], 0)
        before = self.kept()
        lines = 'cd.toml: commitment cd-1 is there already, the same\nteam.toml: policy by "team" is there already, the same\n'
        # Spelled another way, it is the same.
        self.file("cd.toml", self.COMMITMENT.replace('"2.5"', '"2.50"').replace("hours = 3", "hours=3 # three"))
        for origin in ("billing", "another"):
            self.assertEqual(self.add(*files, origin=origin), (0, lines, ""))
        self.assertEqual(self.kept(), before)

    def test_other_terms(self):
        file = self.file("cd.toml", self.COMMITMENT)
        self.assertEqual(self.add(file)[0], 0)
        changes = (
            ("hours = 3", "hours = 4", "hours"),
            ('"2.5"', '"2"', "capacity"),
            ('unit = "Hours"', 'unit = "Hrs"', "unit"),
            ('["vm"]', '["vm", "db"]', "skus"),
            ("T00:00Z", "T05:00Z", "start, purchase"),
            ('"platform"', '"data"', "tags"),
            ('"4"', '"5"', "purchase"),
            ("[tags]", 'sub_account = "a"\n[tags]', "sub_account"),
        )
        for old, new, fields in changes:
            self.file("cd.toml", self.COMMITMENT.replace(old, new))
            said = f"it is never changed, and these of its fields differ: {fields}. What to do: Give each commitment an id of its own. (J2 DoubleId)\n"
            self.refused("cd.toml: commitment cd-1: a commitment of this id was accepted before; " + said, file)
        self.file("cd.toml", self.SPEND.replace("cd-s", "cd-1"))
        self.refused("these of its fields differ: category, hours, capacity, sub_account, tags, purchase. ", file)

    def test_two_files_with_one_id(self):
        first, second = self.file("one.toml", self.COMMITMENT), self.file("two.toml", self.COMMITMENT.replace("hours = 3", "hours = 4"))
        self.refused("two.toml: commitment cd-1: a commitment of this id was accepted before; it is never changed", first, second)

    def test_nothing_is_added_where_one_file_has_a_fault(self):
        good, bad = self.file("good.toml", self.COMMITMENT), self.file("bad.toml", self.POLICY.replace("web = 3", "web = -3"))
        self.refused("bad.toml: line 4: to = { web = -3, data = 1 }: ", good, bad)
        self.refused("focusd: nothing was added\n", bad, good)
        self.refused("none.toml: ", good, str(self.top / "none.toml"))
        # Each fault is said.
        said = self.add(bad, good, bad)[2]
        self.assertEqual(said.count("(P3 Limit)"), 2)

    def test_faults_of_commitments(self):
        file = self.file("cd.toml", "")
        for old, new, said in (
            ('"2024-01-01T00:00Z"\nhours', '"2024-01-01"\nhours', 'cd.toml: line 3: start = "2024-01-01": "start" must be the time of a whole hour from 1970 on, as 2024-09-01T00:00Z, in quotes (C2 Field)\n'),
            ('"2024-01-01T00:00Z"\nhours', '"1969-12-31T23:00Z"\nhours', 'cd.toml: line 3: start = "1969-12-31T23:00Z": "start" must be the time of a whole hour from 1970 on, '),
            ('id = "cd-1"\n', "", 'cd.toml: id is missing: "id" must be a text of 1 to 256 bytes, as "cd-1" (C2 Field)\n'),
            ("hours = 3", "hours = 0", 'cd.toml: line 4: hours = 0: "hours" must be a whole number from 1 to 26304, without quotes (C3 Limit)\n'),
            ("hours = 3", 'hours = "3"', 'cd.toml: line 4: hours = "3": "hours" must be a whole number from 1 to 26304, without quotes (C2 Field)\n'),
            ('"2.5"', "2.5", 'cd.toml: line 5: capacity = 2.5: "capacity" must be a number above 0, as 2.5, in quotes (C2 Field)\n'),
            ('"2.5"', '"-1"', "cd.toml: line 5: capacity = \"-1\": "),
            ('"Usage"', '"usage"', 'cd.toml: line 2: category = "usage": "category" must be '),
            ('["vm"]', '["vm", "vm"]', 'cd.toml: line 7: skus = ["vm", "vm"]: "skus" must be an array'),
            ('["vm"]', "[]", "cd.toml: line 7: skus = []: "),
            ('unit = "Hours"\n', "", "cd.toml: unit is missing: "),
            ('"platform"', "1", "cd.toml: line 8: [tags]: "),
            ('billed = "4"', 'billed = "four"', "cd.toml: line 10: [[purchase]]: there must be 1 to 64 [[purchase]]"),
            ("hours = 3", "hours = 3\n  colour = 1", "cd.toml: line 5: colour = 1: a commitment has the fields id, "),
            ("hours = 3", f"hours = 3 # {100 * 'x'}", "cd.toml: line 4: hours = 3"),
            ('["vm"]', '["vm"', "cd.toml: the file that is to be added is no TOML in UTF-8. What to do: "),
        ):
            text = self.COMMITMENT.replace(old, new)
            if "xxx" in text:
                text = text.replace("hours = 3", "hours = 0")
                said = f"cd.toml: line 4: hours = 0 # {48 * 'x'}: "
            self.file("cd.toml", text)
            self.refused(said, file)
        self.file("cd.toml", self.SPEND.replace("500000", "1000001"))
        self.refused('cd.toml: line 6: rates = { vm = 1000001, db = 1 }: "rates" must be a table', file)
        # A field of a table is not the field of the document.
        self.file("cd.toml", self.COMMITMENT.replace("hours = 3\n", "").replace("team =", "hours ="))
        self.refused("cd.toml: hours is missing: ", file)

    def test_faults_of_policies(self):
        file = self.file("p.toml", "")
        for text, said in (
            ('key = ""\n', 'p.toml: line 1: key = "": "key" must be a text of 1 to 1024 bytes'),
            ("[[rule]]\n", "p.toml: key is missing: "),
            ('key = "team"\nrule = 1\n', "p.toml: line 2: rule = 1: there must be at most 64 [[rule]]"),
            ('key = "team"\n[[rule]]\nto = { web = 1 }\n', "p.toml: from is missing: "),
            ('key = "team"\n[[rule]]\nfrom = 1\nproportional = true\n', "p.toml: line 3: from = 1: "),
            ('key = "team"\n[[rule]]\nfrom = "a"\nproportional = false\n', 'p.toml: line 4: proportional = false: "proportional" must be true'),
            ('key = "team"\n[[rule]]\nfrom = "a"\n[rule.to]\nweb = "1"\n', "p.toml: line 4: [rule.to]: "),
            ('key = "team"\n[[rule]]\nfrom = "a"\nproportional = true\ncolor = 1\n', "p.toml: line 5: color = 1: a policy has the fields key and rule"),
            ('key = "team"\nfrom = "a"\n', 'p.toml: line 2: from = "a": a policy has the fields key and rule'),
            ('key = "team"\n' + 2 * '[[rule]]\nfrom = "a"\nproportional = true\n', "(P4 DoubleFrom)"),
            ('key = "team"\n[[rule]]\nfrom = "a"\nto = { a = 1 }\n', "(P5 TargetIsFrom)"),
        ):
            self.file("p.toml", text)
            self.refused(said, file)

    def test_what_a_file_is(self):
        file = self.file("f.toml", "")
        for text in ("", 'id = "cd-1"\n', '[tags]\nkey = "a"\n', 'colour = "red"\n'):
            self.file("f.toml", text)
            self.refused("f.toml: the file that is to be added is neither a commitment, which has ", file)
            self.refused("(A2 NoKind)\n", file)
        self.file("f.toml", 'key = "team"\n' + self.COMMITMENT)
        self.refused("f.toml: the file that is to be added has fields of a policy, and of a commitment or a purchase", file)
        self.file("f.toml", 'key = "team"\nbilled = "1"\n')
        self.refused("f.toml: the file that is to be added has fields of a policy, and of a commitment or a purchase", file)
        # What only a purchase has is a fault of a commitment, whose terms are there.
        self.file("f.toml", self.COMMITMENT.replace("hours = 3", 'hours = 3\nat = "2024-01-01T00:00Z"'))
        self.refused('f.toml: line 5: at = "2024-01-01T00:00Z": a commitment has the fields id, ', file)
        for name in ("at", "billed"):
            self.file("f.toml", f'{name} = "1"\n')
            self.refused("f.toml: id is missing: ", file)

    def test_a_file_of_32_mib_and_one_of_a_byte_more(self):
        """A comment makes a file as long as one may be, and longer."""
        longest = self.COMMITMENT + "#" * (2**25 - len(self.COMMITMENT.encode()))
        self.refused("f.toml: it has more than 32 MiB (F3 TooLong)\n", self.file("f.toml", longest + "#"))
        self.assertEqual(self.add(self.file("f.toml", longest))[0], 0)

    def test_a_policy_that_takes_the_place_of_another(self):
        first, other = self.file("team.toml", self.POLICY), self.file("cost.toml", self.POLICY.replace("team", "cost-center"))
        self.assertEqual(self.add(first)[0], 0)
        self.file("team.toml", self.POLICY.replace("web = 3", "web = 4"))
        line = 'team.toml: policy by "team" takes the place of the policy by "team" (entry 2): entry 3 (billing 2)\n'
        self.assertEqual(self.add(first), (0, line, ""))
        refusal = 'cost.toml: policy by "cost-center" takes the place of the policy by "team" (entry 3), whose key is another one'
        self.refused(refusal, other)
        self.refused("What to do: Give --yes, where it is meant that costs by the old key are not shared any more. (A4 OtherKey)\n", other)
        line = 'cost.toml: policy by "cost-center" takes the place of the policy by "team" (entry 3): entry 4 (billing 3)\n'
        self.assertEqual(self.add("--yes", other), (0, line, ""))

    def with_a_purchase(self):
        """A file with a commitment and one with a purchase for it, which are added."""
        files = self.file("cd.toml", self.COMMITMENT), self.file("paid.toml", self.PURCHASE)
        lines = "cd.toml: commitment cd-1: entry 2 (billing 1)\npaid.toml: purchase for commitment cd-1: entry 3 (billing 2)\n"
        self.assertEqual(self.add(*files), (0, lines, ""))
        return files

    SAME = "paid.toml: purchase for commitment cd-1 is there already, the same; give --yes to add it once more\n"

    def test_a_purchase(self):
        _, purchase = self.with_a_purchase()
        self.assertEqual(self.state(), "state 3 4 1 0\n")
        # What the files became is what a script makes of their lines.
        kinds = (("commit", self.COMMITMENT), ("add", self.PURCHASE))
        sent = "".join(f"{kind} billing {at} {text.count(chr(10))}\n{text}" for at, (kind, text) in enumerate(kinds, 1))
        with tempfile.TemporaryDirectory() as other:
            self.assertEqual(focusd("run", "--dir", other, "--create", given=(self.script + sent).encode())[0], 0)
            self.assertEqual(focusd("dump", "--dir", other), self.focusd("dump"))
        # Any origin adds one.
        self.file("paid.toml", self.PURCHASE.replace("1.5", "2"))
        self.assertEqual(self.add(purchase, origin="bank"), (0, "paid.toml: purchase for commitment cd-1: entry 4 (bank 1)\n", ""))

    def test_a_purchase_again(self):
        commitment, purchase = self.with_a_purchase()
        before = self.kept()
        # The commitment's own second one, and the one that was added, in other words.
        own = self.PURCHASE.replace("T02:30Z", "T01:00Z").replace("1.5", "4.0")
        for text in (self.PURCHASE, self.PURCHASE.replace("02:30Z", "03:30:00+01:00").replace("1.5", "1.50") + "# twice", own):
            self.file("paid.toml", text)
            for origin in ("billing", "bank"):
                self.assertEqual(self.add(purchase, origin=origin), (0, self.SAME, ""))
        self.assertEqual(self.kept(), before)
        # Another second or amount is another purchase, and a commitment is the same whatever was added to it.
        for number, (old, new) in enumerate((("02:30Z", "02:30:01Z"), ('"1.5"', '"1.500000001"')), 3):
            self.file("paid.toml", self.PURCHASE.replace(old, new))
            line = f"paid.toml: purchase for commitment cd-1: entry {number + 1} (billing {number})\n"
            self.assertEqual(self.add(commitment, purchase), (0, "cd.toml: commitment cd-1 is there already, the same\n" + line, ""))
        self.file("cd.toml", self.COMMITMENT.replace("hours = 3", "hours = 4"))
        self.refused("these of its fields differ: hours. What to do: Give each commitment an id of its own. (J2 DoubleId)\n", commitment)
        # Two equal payments can be right.
        self.file("paid.toml", self.PURCHASE)
        self.assertEqual(self.add("--yes", purchase), (0, "paid.toml: purchase for commitment cd-1: entry 6 (billing 5)\n", ""))
        self.assertEqual(self.add(purchase), (0, self.SAME, ""))
        self.file("other.toml", self.PURCHASE.replace("1.5", "7"))
        lines = "other.toml: purchase for commitment cd-1: entry 7 (billing 6)\nother.toml: purchase for commitment cd-1"
        self.assertEqual(self.add(str(self.top / "other.toml"), str(self.top / "other.toml")), (0, lines + " is there already, the same; give --yes to add it once more\n", ""))

    def test_a_dry_run_says_what_a_commitment_would_have(self):
        commitment, purchase = self.with_a_purchase()
        before = self.kept()
        second = self.file("more.toml", self.PURCHASE.replace("02:30Z", "02:30:07Z").replace('"1.5"', '"0.000000001"'))
        third = self.file("last.toml", self.PURCHASE.replace("1.5", "2"))
        lines = """more.toml: purchase for commitment cd-1: 0.000000001 USD paid at 2024-01-01T02:30:07Z
more.toml: purchase for commitment cd-1: it would be entry 4 (billing 3)
more.toml: commitment cd-1 would have 4 purchases, for 16.000000001 USD
last.toml: purchase for commitment cd-1: 2 USD paid at 2024-01-01T02:30Z
last.toml: purchase for commitment cd-1: it would be entry 5 (billing 4)
last.toml: commitment cd-1 would have 5 purchases, for 18.000000001 USD
"""
        self.assertEqual(self.add("--dry-run", second, third), (0, lines, ""))
        lines = f"paid.toml: purchase for commitment cd-1: 1.5 USD paid at 2024-01-01T02:30Z\n{self.SAME}paid.toml: commitment cd-1 has 3 purchases, for 16 USD\n"
        self.assertEqual(self.add("--dry-run", purchase), (0, lines, ""))
        lines = """paid.toml: purchase for commitment cd-1: 1.5 USD paid at 2024-01-01T02:30Z
paid.toml: purchase for commitment cd-1: it would be entry 4 (billing 3)
paid.toml: commitment cd-1 would have 4 purchases, for 17.5 USD
"""
        self.assertEqual(self.add("--dry-run", "--yes", purchase), (0, lines, ""))
        self.assertEqual(self.kept(), before)
        # A commitment is shown with its own purchases.
        self.assertIn("; bought for 14.5 USD\n", self.add("--dry-run", commitment)[1])

    def test_purchases_that_are_not_added(self):
        commitment, purchase = self.file("cd.toml", self.COMMITMENT), self.file("paid.toml", self.PURCHASE)
        missing = "paid.toml: purchase for commitment cd-1: the warehouse has no commitment of the id that the purchase is added to. What to do: Correct the id, "
        self.refused(missing, purchase)
        self.refused(missing, purchase, commitment)
        self.assertIn(missing, self.add("--dry-run", purchase)[2])
        self.assertEqual(self.add(commitment)[0], 0)
        self.file("paid.toml", self.PURCHASE.replace("1.5", "99999985.500000001"))
        limit = "purchase for commitment cd-1: with this purchase the commitment would have more than 64 purchases, or they would come to more than 100,000,000 units; "
        remedy = (
            "What to do: Look for a wrong amount, and for a purchase that was added twice. Purchases that are still to be sent can be joined into one: "
            "only their sum counts. (J9 PurchaseLimit)\n"
        )
        self.refused(f"paid.toml: {limit}those that it has cost 14.5 USD. {remedy}", purchase)
        self.file("paid.toml", self.PURCHASE.replace("1.5", "99999985.5"))
        self.assertEqual(self.add(purchase)[0], 0)
        more = [self.file(f"{second}.toml", self.PURCHASE.replace("30Z", f"30:{second:02}Z").replace("1.5", "0")) for second in range(1, 60)]
        self.assertEqual(self.add(*more)[0], 0)
        more = [self.file(f"{minute}.toml", self.PURCHASE.replace("30Z", f"{minute}Z").replace("1.5", "0")) for minute in range(31, 34)]
        self.refused(f"33.toml: {limit}it has 64. {remedy}", *more)
        self.assertEqual(self.add(*more[:2])[0], 0)
        self.refused(f"33.toml: {limit}it has 64. {remedy}", more[2])

    def test_faults_of_purchases(self):
        file = self.file("paid.toml", "")
        for old, new, said in (
            ('id = "cd-1"\n', "", 'paid.toml: id is missing: "id" must be the id of the commitment that the purchase is added to, a text of 1 to 256 bytes, as "cd-1" (C2 Field)\n'),
            ('"cd-1"', '""', 'paid.toml: line 1: id = "": "id" must be the id of the commitment'),
            ('"2024-01-01T02:30Z"', '"2024-01-01"', 'paid.toml: line 2: at = "2024-01-01": "at" must be a time from 1970 on, as 2024-09-01T00:00Z, in quotes (C2 Field)\n'),
            ('"1.5"', "1.5", 'paid.toml: line 3: billed = 1.5: "billed" must be an amount of at least 0, as 14.4, in quotes (C2 Field)\n'),
            ('"1.5"', '"-1"', 'paid.toml: line 3: billed = "-1": "billed" must be an amount of at least 0, as 14.4, in quotes (C3 Limit)\n'),
            ('"1.5"', '"1.5"\ncolour = 1', "paid.toml: line 4: colour = 1: a purchase that is added to a commitment has the fields id, at and billed (C2 Field)\n"),
            ('"1.5"', '"1.5', "paid.toml: the file that is to be added is no TOML in UTF-8. What to do: "),
        ):
            self.file("paid.toml", self.PURCHASE.replace(old, new))
            self.refused(said, file)

    def test_a_purchase_for_a_warehouse_of_an_earlier_version(self):
        left = self.folder / "left"
        whole = left.read_bytes()
        self.assertEqual(whole[1:9], b"FWHOUSE2")
        left.write_bytes(whole[:8] + b"1" + whole[9:])
        commitment, purchase, policy = self.file("cd.toml", self.COMMITMENT), self.file("paid.toml", self.PURCHASE), self.file("team.toml", self.POLICY)
        said = "paid.toml: purchase for commitment cd-1: the warehouse is in an older form, which can hold neither a withdrawal nor a purchase"
        self.refused(said, commitment, purchase)
        self.assertEqual(self.add(commitment)[0], 0)
        self.refused("(S8 OldSide)\n", policy, purchase)
        self.assertEqual(self.add("--dry-run", purchase)[0], 1)
        # What is there already asks for nothing.
        self.file("paid.toml", self.PURCHASE.replace("02:30", "01:00").replace("1.5", "4"))
        self.assertEqual(self.add(purchase), (0, self.SAME, ""))
        self.file("paid.toml", self.PURCHASE)
        self.assertEqual(self.focusd("checkpoint"), (0, "checkpointed\n", ""))
        self.assertEqual(self.add(purchase), (0, "paid.toml: purchase for commitment cd-1: entry 3 (billing 2)\n", ""))

    def test_wrong_origins(self):
        file = self.file("cd.toml", self.COMMITMENT)
        for origin in ("", "a b", "a/b", "é", 65 * "a"):
            for folder in (self.folder, self.top / "none"):
                status, printed, said = focusd("add", "--dir", str(folder), "--origin", origin, file)
                self.assertEqual((status, printed), (2, ""), origin)
                self.assertIn("--origin", said)
        self.assertEqual(self.add(file, origin=64 * "a")[0], 0)
        self.assertEqual(self.focusd("add", file)[0], 2)
        self.assertEqual(self.focusd("add", "--origin", "billing")[0], 2)

    def test_no_warehouse(self):
        file = self.file("cd.toml", self.COMMITMENT)
        empty = self.top / "empty"
        empty.mkdir()
        for words in ((), ("--dry-run",)):
            found = focusd("add", "--dir", str(empty), "--origin", "billing", *words, file)
            self.assertEqual(found, (1, "", no_house(empty)))
            self.assertEqual(list(empty.iterdir()), [])
            found = focusd("add", "--dir", str(self.top / "none"), "--origin", "billing", *words, file)
            self.assertEqual(found[:2], (1, ""))
            self.assertRegex(found[2], r"^focusd: K1 Io\n" + re.escape(f"{self.top}/none") + r": No such file.*\. What to do: Look whether .*\.\n$")
            self.assertFalse((self.top / "none").exists())

    def test_an_id_that_a_row_carries(self):
        row = self.row(5, discount="cd-1").rstrip("\n")
        lines = self.HEADER.rstrip("\n") + ",CommitmentDiscountCategory,CommitmentDiscountStatus\n" + row + ",Usage,Used\n"
        self.assertEqual(self.focusd("run", given=f"post rows 2 2\n{lines}".encode())[1], "accepted 2\n")
        self.refused("(J3 IdInUse)", self.file("cd.toml", self.COMMITMENT))

    def test_257_commitments(self):
        files = [self.file(f"{number}.toml", self.COMMITMENT.replace("cd-1", f"cd-{number}")) for number in range(257)]
        said = "256 commitments were accepted before, and the warehouse takes no more. What to do: Begin another warehouse. (J5 TooManyCommitments)\n"
        self.refused(f"256.toml: commitment cd-256: {said}", *files)
        self.assertEqual(self.add(*files[:256])[0], 0)
        self.assertIn(["Commitments", "256", "of", "256"], [line.split() for line in self.focusd("status")[1].splitlines()])
        self.refused("(J5 TooManyCommitments)", files[256])

    def test_a_dry_run_says_what_files_are_and_changes_nothing(self):
        before = self.kept()
        commitment, spend, policy = self.file("cd.toml", self.COMMITMENT), self.file("s.toml", self.SPEND), self.file("team.toml", self.POLICY)
        lines = """cd.toml: commitment cd-1 (Usage): 2024-01-01T00:00Z to 2024-01-01T03:00Z, 3 hours; 2.5 Hours each hour; bought for 14.5 USD
cd.toml: commitment cd-1: it would be entry 2 (billing 1)
cd.toml: it applies to 4 rows
s.toml: commitment cd-s (Spend): 2024-01-01T00:00Z to 2024-01-01T01:00Z, 1 hour; 1 USD each hour; bought for 0 USD
s.toml: commitment cd-s: it would be entry 3 (billing 2)
s.toml: it applies to 1 row
s.toml: 3 rows of these SKUs are outside of the term
team.toml: policy by "team", 1 rule
team.toml: policy by "team": it would be entry 4 (billing 3)
"""
        self.assertEqual(self.add("--dry-run", commitment, spend, policy), (0, lines, ""))
        self.assertEqual(self.kept(), before)
        self.assertEqual(self.add(commitment, policy)[0], 0)
        before = self.kept()
        status, printed, said = self.add("--dry-run", commitment)
        self.assertEqual((status, printed.splitlines()[1], said), (0, "cd.toml: commitment cd-1 is there already, the same", ""))
        self.file("cd.toml", self.COMMITMENT.replace("hours = 3", "hours = 4"))
        status, _, said = self.add("--dry-run", commitment)
        self.assertEqual(status, 1)
        self.assertIn("(J2 DoubleId)", said)
        self.assertEqual(self.kept(), before)

    def test_a_reader_that_stops_early_and_one_that_is_full(self):
        words = [program(), "add", "--dir", str(self.folder), "--origin", "billing", self.file("cd.toml", self.COMMITMENT)]
        self.assertEqual(full(*words[1:], "--dry-run"), (1, FULL_OUTPUT))
        read, write = os.pipe()
        os.close(read)
        ran = subprocess.run(words, stdout=write, stderr=subprocess.PIPE)
        os.close(write)
        self.assertEqual((ran.returncode, ran.stderr), (0, b""))
        self.assertEqual(self.state(), "state 2 4 1 0\n")

    def test_texts_that_act_on_a_terminal(self):
        text = self.COMMITMENT.replace('"cd-1"', '"cd\\u001b[2J"').replace('"Hours"', '"Hou\\u202ers"')
        status, printed, said = self.add("--dry-run", self.file("cd.toml", text))
        self.assertEqual((status, said), (0, ""))
        self.assertIn("commitment cd\\u{1b}[2J", printed)
        self.assertIn('0 rows match unit "Hou\\u{202e}rs"', printed)
        self.assertFalse({"\x1b", "\u202e"} & set(printed))
        self.refused("hours = 0 # \\u{202e}", self.file("cd.toml", self.COMMITMENT.replace("hours = 3", "hours = 0 # \u202e")))

    def test_a_typo_in_the_unit(self):
        file = self.file("cd.toml", self.COMMITMENT.replace('unit = "Hours"', 'unit = "Hrs"'))
        status, printed, said = self.add("--dry-run", file)
        self.assertEqual((status, said), (0, ""))
        self.assertEqual(printed.splitlines()[2:], ["cd.toml: it applies to 0 rows", 'cd.toml: 0 rows match unit "Hrs"; 4 rows of this SKU have "Hours"'])
        status, printed, said = self.add(file)
        self.assertEqual((status, printed), (0, "cd.toml: commitment cd-1: entry 2 (billing 1)\n"))
        self.assertEqual(said, 'cd.toml: 0 rows match unit "Hrs"; 4 rows of this SKU have "Hours"\n')

    def test_a_typo_in_the_sku(self):
        for skus, words in (('["vms"]', "this SKU"), ('["vms", "db"]', "these SKUs")):
            file = self.file("cd.toml", self.COMMITMENT.replace('["vm"]', skus))
            status, printed, said = self.add("--dry-run", file)
            self.assertEqual((status, said), (0, ""))
            self.assertEqual(printed.splitlines()[2:], ["cd.toml: it applies to 0 rows", f"cd.toml: no row of the warehouse is of {words}"])

    def test_why_rows_are_not_matched(self):
        rows = [
            self.row(0, unit="GB"),
            self.row(1, unit=""),
            self.row(0, account="b"),
            self.row(0, category="Tax"),
            self.row(0, quantity=""),
            self.row(9),
            self.row(0, sku="db"),
            self.row(0, sku=""),
        ]
        script = f"post rows 2 {len(rows) + 1}\n{self.HEADER}{''.join(rows)}"
        self.assertEqual(self.focusd("run", given=script.encode())[1], "accepted 2\n")
        file = self.file("cd.toml", self.COMMITMENT.replace("[tags]", 'sub_account = "a"\n[tags]'))
        lines = """cd.toml: it applies to 4 rows
cd.toml: 4 rows match unit "Hours"; 1 row of this SKU has "GB"; 1 row of this SKU has no unit
cd.toml: 1 row of this SKU is of another sub-account
cd.toml: 1 row of this SKU is outside of the term
cd.toml: 2 rows of this SKU are not eligible: they are no use of exactly one hour, carry the id of a commitment, are corrections, or have no quantity above 0 or a cost below 0
"""
        self.assertEqual("".join(self.add("--dry-run", file)[1].splitlines(keepends=True)[2:]), lines)
        # What it says it applies to is what the lines have.
        self.assertEqual(self.add(file)[0], 0)
        found = self.focusd("lines", "--from", "2024-01-01", "--to", "2024-01-02")[1]
        used = [it for it in csv.DictReader(io.StringIO(found)) if it["CommitmentDiscountStatus"] == "Used" and it["CommitmentDiscountId"] == "cd-1"]
        self.assertEqual(len(used), 4)


class Dumps(unittest.TestCase):
    """A dump, served by a new warehouse, makes the same one again."""

    COLUMNS = (
        "BilledCost", "EffectiveCost", "BillingCurrency", "ChargeCategory", "ChargePeriodStart", "ChargePeriodEnd", "ChargeClass", "CommitmentDiscountId",
        "CommitmentDiscountCategory", "CommitmentDiscountStatus", "ConsumedQuantity", "ConsumedUnit", "SkuId", "SubAccountId", "Tags",
    )  # fmt: skip
    PLAIN = ("1", "2.5", "USD", "Usage", "2024-01-01T00:00:00Z", "2024-01-01T01:00:00Z", "", "", "", "", "1", "Hours", "vm", "", "")
    LEFT_OUT = "^(focusd: no row and no commitment of the range has the tag .*; the tags there are: .*|the policy is for the tag .*, so ChargedCost is EffectiveCost|costs are shared by the policy for the tag .*)$"
    # Texts that CSV, JSON and TOML each have their own trouble with.
    ODD = (
        'say "hi", twice ""', "two\nlines", "carriage\rreturn and\r\nboth", ",", '"', "\n", " blanks around ", "back\\slash \\n \\u0041", "'", "#[=]{,}", "=1+1", "0012",
        "facturación", "\u65e5\u672c\u8a9e", "\U0001f4b6\u200d", "e\u0301", "\u2028", "tab\t and \x01\x1f\x7f", "post a 1 1\nreport t 2024-01 2024-02", "x" * 256,
    )  # fmt: skip

    def folder(self):
        return str(temporary_folder(self.addCleanup))

    def done(self, *words, given=b""):
        """What a run prints that has to go well. On standard error stands at most what a report leaves out, and its policy: each folder is asked for tags that it may not have."""
        status, printed, said = focusd(*words, given=given)
        self.assertEqual(status, 0, words)
        for line in said.splitlines():
            self.assertRegex(line, self.LEFT_OUT, words)
        return printed

    def made(self, script, *currency):
        """The folder of a warehouse that is made of a script, each of whose commands is accepted."""
        folder = self.folder()
        answers = self.done("run", "--dir", folder, "--create", *currency, given=script).splitlines()
        self.assertEqual(answers, [f"accepted {number + 1}" for number in range(len(answers))])
        return folder

    def dumped(self, folder, *currency):
        """The dump of a warehouse. One that is made of it has the same dump, the same status but for its files, and the same lines and reports."""
        files = [(pathlib.Path(folder) / side).read_bytes() for side in ("left", "right")]
        script = self.done("dump", "--dir", folder)
        self.assertEqual(files, [(pathlib.Path(folder) / side).read_bytes() for side in ("left", "right")])
        copy = self.made(script.encode(), *currency)
        self.assertEqual(self.done("dump", "--dir", copy), script)
        for words in (("lines", "--from", "2024-01", "--to", "2025-01"), *(("report", "--tag", tag, "--from", "2024-01", "--to", "2025-01") for tag in ("team", "env", ""))):
            self.assertEqual(self.done(words[0], "--dir", copy, *words[1:]), self.done(words[0], "--dir", folder, *words[1:]), words)
        held = [[line for line in self.done("status", "--dir", it).splitlines() if line.split()[0] not in ("Body", "Log", "Checkpoint")] for it in (folder, copy)]
        self.assertEqual(*held)
        return script

    def post(self, origin, number, *rows):
        """A post of these rows."""
        text = io.StringIO()
        csv.writer(text, lineterminator="\n").writerows((self.COLUMNS, *rows))
        content = text.getvalue().encode()
        return b"post %s %d %d\n" % (origin, number, content.count(b"\n")) + content

    def row(self, **values):
        return [values.get(column, plain) for column, plain in zip(self.COLUMNS, self.PLAIN)]

    def same(self, script, currency="USD"):
        """A warehouse that is made of a script has a dump that expected.py reads as what it reads the script as."""
        words = ("--currency", currency)
        dumped = self.dumped(self.made(script, *words), *words).encode()
        kept, again = warehouse_of(script, currency), warehouse_of(dumped, currency)
        for one in (kept, again):
            one.rows = {hour: [vars(row) for row in rows] for hour, rows in one.rows.items()}
            one.commitments = [vars(it) for it in one.commitments]
            one.withdrawn = [sent for sent, rows in one.posts.items() if rows is None]
        self.assertEqual((again.entries, again.origins, again.rows), (kept.entries, kept.origins, kept.rows))
        self.assertEqual((again.commitments, again.policy), (kept.commitments, kept.policy))
        self.assertEqual((again.posted, again.withdrawn), (kept.posted, kept.withdrawn))
        return dumped

    def test_the_shipped_scripts(self):
        entries = {b"post", b"commit", b"policy", b"add"}
        for name in ("first-report", "commitments", "providers"):
            script, lines = b"", io.BytesIO((HERE / (name + ".script")).read_bytes())
            for line in lines:
                if line.split()[0] in entries:
                    script += line + b"".join(next(lines) for _ in range(int(line.split()[3])))
            self.same(script)

    def test_imported_exports(self):
        folder = self.folder()
        records = list(csv.reader(io.StringIO(Files.EXPORT.read_text(encoding="utf-8-sig"), newline="")))
        long = pathlib.Path(folder) / "long.csv"
        with open(long, "w", newline="", encoding="utf-8") as out:
            csv.writer(out).writerows(records + records[1:] * 20)
        for file in (Files.EXPORT, long, *sorted((HERE / "providers").glob("*.csv"))):
            costs = self.folder()
            self.done("import", "--quiet", "--dir", costs, "--create", "--origin", "aws-2024.09_x", str(file))
            script = self.dumped(costs)
            # The same file, imported into the copy, is there already.
            copy = self.made(script.encode())
            self.assertIn("imported 0 rows", self.done("import", "--quiet", "--dir", copy, "--origin", "aws-2024.09_x", str(file)))

    def test_odd_texts(self):
        tags = json.dumps({text: text[::-1] for text in self.ODD} | {"": "", "none": None, "yes": True})
        rows = [self.row(SkuId=text, ConsumedUnit=text, SubAccountId=text, Tags=json.dumps({"team": text, text: ""}, ensure_ascii=len(text) > 9)) for text in self.ODD]
        discounts = [self.row(CommitmentDiscountId=text, CommitmentDiscountCategory="Spend", CommitmentDiscountStatus="Used") for text in self.ODD]
        self.same(self.post(b"a", 1, *rows, self.row(Tags=tags), self.row(Tags="{}"), self.row(Tags="")) + self.post(b"a", 2, *discounts))

    def test_amounts_times_and_nulls(self):
        amounts = ("100000000", "-100000000", "1e-9", "-.000000001", "0", "-0", "1.9999999995", "+12.5E3", "0.1234567891")
        rows = [self.row(BilledCost=one, EffectiveCost=other, ConsumedQuantity=one) for one in amounts for other in amounts]
        rows += [self.row(ConsumedQuantity=text) for text in ("", "1e12", "-1e30", "100000000.000000001")]
        rows += [self.row(ChargeCategory=word, ChargeClass="Correction", ConsumedUnit="", SkuId="") for word in ("Usage", "Purchase", "Tax", "Credit", "Adjustment")]
        rows += [self.row(ChargeCategory="Purchase", CommitmentDiscountId="c", CommitmentDiscountCategory=kind, CommitmentDiscountStatus=status) for kind in ("Usage", "Spend") for status in ("", "Used", "Unused")]
        for start, end in (("1970-01-01T00:00Z", "1970-01-01T00:00:00Z"), ("2024-02-29T23:59:59Z", "2024-03-01T00:00:01Z"), ("2024-01-01T02:30:07Z", "9999-12-30T22:00:00Z")):
            rows.append(self.row(ChargePeriodStart=start, ChargePeriodEnd=end))
        dumped = self.same(self.post(b"a", 1, *rows))
        self.assertIn(b"\n-100000000.000000000,", dumped)
        self.assertIn(b",2024-02-29T23:59:59Z,2024-03-01T00:00:01Z,", dumped)

    def test_commitments_and_policies(self):
        def text(it):
            return json.dumps(it, ensure_ascii=False).replace("\x7f", "\\u007f").encode()

        script, number = b"", 0
        for place, odd in enumerate(self.ODD):
            wide = {"id": odd, "capacity": "0.000000001", "start": "2024-01-01T00:00Z", "hours": 26304, "sub_account": odd}
            wide |= {"category": "Usage", "unit": odd} if place % 2 else {"category": "Spend"}
            lines = [key.encode() + b" = " + (str(value).encode() if key == "hours" else text(value)) for key, value in wide.items()]
            many = sorted({*self.ODD[:place], odd})
            lines.append(b"skus = [" + b", ".join(map(text, reversed(many))) + b"]" if place % 2 else b"rates = { " + b", ".join(text(it) + b" = %d" % (n + 1) for n, it in enumerate(many)) + b" }")
            if place % 3:
                lines += [b"[tags]", *(text(it) + b" = " + text(it[::-1]) for it in many), b"owner = \"\""]
            lines += [b"[[purchase]]\nat = \"2024-01-01T00:00:%02dZ\"\nbilled = \"%d.5\"" % (n, n) for n in range(1 + place)]
            content = b"\n".join(lines) + b"\n"
            script += b"commit c 000%d %d\n" % (place + 1, content.count(b"\n")) + content
            number = place + 1
        rules = b"".join(b"[[rule]]\nfrom = " + text(odd) + b"\n" + (b"proportional = true\n" if n % 2 else b"to = { a = 0, \"\" = 1_000_000_000, " + text("to " + odd) + b" = 3 }\n") for n, odd in enumerate(self.ODD))
        for content in (b"key = \"t\"\n", b"key = " + text(self.ODD[0]) + b"\n" + rules):
            number += 1
            script += b"policy c %d %d\n" % (number, content.count(b"\n")) + content
        self.same(script)

    def test_purchases_that_are_added(self):
        script = b""
        for place, odd in enumerate(self.ODD, 1):
            name = json.dumps(odd, ensure_ascii=False).replace("\x7f", "\\u007f")
            script += f"commit c {place} 7\nid = {name}\ncategory = \"Spend\"\nstart = \"2024-01-01T00:00Z\"\nhours = {place}\ncapacity = \"1\"\n".encode()
            script += b'rates = { vm = 1 }\npurchase = [{ at = "2024-01-01T00:00Z", billed = "0" }]\n'
            for number, (time, billed) in enumerate((("1970-01-01T00:00Z", "1e-9"), (f"2024-01-01T01:02:{place:02}Z", f"{place}.5")), 2 * place - 1):
                script += f"add d {number} 3\nid = {name}\nat = \"{time}\"\nbilled = \"{billed}\"\n".encode()
        dumped = self.same(script)
        numbers = [int(line.split()[2]) for line in dumped.splitlines() if line.startswith(b"add d ")]
        self.assertEqual(numbers, [*range(1, 2 * len(self.ODD) + 1)])
        self.assertIn(b"2024-01-01T01:02:03Z", dumped)

    def test_posts_that_are_withdrawn(self):
        """A withdrawn post is dumped with its rows, and its withdrawal where it came, so that an id that its rows carried is free behind it."""
        carrying = self.row(CommitmentDiscountId="cd-7", CommitmentDiscountCategory="Usage", CommitmentDiscountStatus="Used")
        committed = (
            b'commit a 3 8\nid = "cd-7"\ncategory = "Usage"\nstart = "2024-01-01T00:00Z"\nhours = 2\ncapacity = "2"\nunit = "Hours"\nskus = ["vm"]\n'
            b'purchase = [{ at = "2024-01-01T00:00Z", billed = "3" }]\n'
        )
        tagged = [self.row(BilledCost=str(cost), Tags='{"team":"web"}') for cost in range(1, 5)]
        withdrawals = [b"withdraw a 2 1", b"withdraw b 3 2", b"withdraw a 5 4", b"withdraw a-1 2 1"]
        script = self.post(b"a", 1, carrying, *tagged[:2]) + self.post(b"b", 1, *tagged) + withdrawals[0] + b"\n" + committed
        script += self.post(b"b", 2, *tagged[2:]) + self.post(b"a-1", 1, tagged[0]) + withdrawals[1] + b"\n" + self.post(b"a", 4, *tagged)
        script += withdrawals[2] + b"\n" + withdrawals[3] + b"\n" + self.post(b"a", 6, *tagged[:2])
        dumped = self.same(script)
        self.assertEqual([line for line in dumped.splitlines() if line.startswith(b"withdraw ")], withdrawals)
        self.assertEqual(dumped.count(b"\npost ") + dumped.startswith(b"post "), script.count(b"\npost ") + 1)
        self.assertIn(b",cd-7,", dumped)

    def test_origins_that_interleave_and_checkpoints(self):
        script = b"".join(self.post(origin, number, self.row(BilledCost=str(number))) for number in range(1, 5) for origin in (b"b", b"a-1", b"a") if number < 4 or origin == b"a")
        folder = self.made(script)
        dumped = self.dumped(folder)
        heads = [line.split()[1:3] for line in dumped.splitlines() if line.startswith("post ")]
        self.assertEqual(heads, [[origin, str(number)] for number in range(1, 5) for origin in ("b", "a-1", "a") if number < 4 or origin == "a"])
        self.done("checkpoint", "--dir", folder)
        self.assertEqual(self.dumped(folder), dumped)
        self.done("run", "--dir", folder, given=self.post(b"b", 4, self.row()))
        self.assertTrue(self.dumped(folder).startswith(dumped))

    def test_an_empty_warehouse_and_another_currency(self):
        self.assertEqual(self.dumped(self.made(b"")), "")
        script = self.same(self.post(b"a", 1, self.row(BillingCurrency="EUR")), "EUR")
        answer = self.done("run", given=script)
        self.assertEqual(answer, "refused V6 Currency 1\n")

    def test_what_no_script_can_say(self):
        folder = self.made(self.post(b"a", 1, self.row()))
        first = self.done("dump", "--dir", folder)
        export = pathlib.Path(folder) / "feeds.csv"
        with open(export, "w", newline="", encoding="utf-8") as out:
            csv.writer(out, lineterminator="\n").writerows([self.COLUMNS, *[self.row(SkuId="\n" * 256)] * 4096])
        # Another origin has rows of the same hour, which is said.
        self.assertEqual(focusd("import", "--quiet", "--dir", folder, "--origin", "feeds", str(export))[0], 0)
        status, printed, said = focusd("dump", "--dir", folder)
        self.assertEqual((status, printed, said.splitlines()[0]), (1, first, "focusd: D1 TooManyLines"))
        self.assertIn("entry 2 of the warehouse: the entry can't be dumped: its CSV would have more than 1,000,000 lines", said)

    def test_a_time_that_no_text_reads_as(self):
        """A warehouse made byte by byte, as FORMATS has it: a tax of one nano, up to the last second of the year 9999."""
        row = struct.pack("<qqBBQQ", 1, 1, 3, 0, 0, 253402300799) + bytes(7) + struct.pack("<I", 0)
        head = struct.pack("<I", 1) + b"a" + struct.pack("<QBI", 1, 1, 1)
        body = struct.pack("<I", 3) + b"USD" + struct.pack("<Q", 1) + head + struct.pack("<I", 1) + struct.pack("<BI", 1, 1) + row
        folder = self.folder()
        (pathlib.Path(folder) / "left").write_bytes(b"\1FWHOUSE1" + struct.pack("<QQ", 1, len(body)) + body + b"\0")
        (pathlib.Path(folder) / "right").write_bytes(b"")
        self.assertTrue(self.done("verify", "--dir", folder).startswith("sound\n"))
        status, printed, said = focusd("dump", "--dir", folder)
        self.assertEqual((status, printed, said.splitlines()[0]), (1, "", "focusd: D2 Differs"))
        self.assertIn("entry 1 of the warehouse", said)

    def test_a_reader_that_stops_early_and_one_that_is_full(self):
        folder = self.made(self.post(b"a", 1, *[self.row(Tags=json.dumps({"team": str(n)})) for n in range(3000)]))
        with subprocess.Popen([program(), "dump", "--dir", folder], stdout=subprocess.PIPE, stderr=subprocess.PIPE) as run:
            run.stdout.read(10)
            run.stdout.close()
            self.assertEqual((run.stderr.read(), run.wait()), (b"", 0))
        self.assertEqual(full("dump", "--dir", folder), (1, FULL_OUTPUT))


class Month(unittest.TestCase):
    """README's month: its commands, one after the other, and what stands under each."""

    def test_each_command_prints_what_stands_under_it(self):
        month = (HERE.parent / "README.md").read_text(encoding="utf-8").split("\n## A month\n")[1].split("\n## ")[0]
        blocks = "\n".join(line[4:] for line in month.split("\n") if line.startswith("    "))
        blocks = re.sub(r" \\\n +", " ", blocks)
        steps = [step.split("\n", 1) for step in blocks.removeprefix("$ ").split("\n$ ")]
        words = " ".join(step[0] for step in steps)
        for command in ("check", "import", "add", "report", "export", "replace", "dump"):
            self.assertIn(f"focusd {command} ", words)
        with tempfile.TemporaryDirectory() as folder:
            pathlib.Path(folder, "examples").symlink_to(HERE)
            pathlib.Path(folder, "focusd").symlink_to(program())
            shell = {**os.environ, "PATH": f"{folder}:{os.environ['PATH']}"}
            for command, *shown in steps:
                with self.subTest(command):
                    if command.startswith("sqlite3 ") and not shutil.which("sqlite3"):
                        self.skipTest("there is no sqlite3")
                    ran = subprocess.run(["sh", "-c", command], cwd=folder, env=shell, capture_output=True)
                    self.assertEqual(ran.returncode, 0, ran.stderr)
                    # What is said beside an answer comes first.
                    if shown:
                        self.assertEqual((ran.stderr + ran.stdout).decode(), f"{shown[0]}\n")
                    else:
                        self.assertEqual(ran.stderr, b"")


class Bodies(unittest.TestCase):
    """Bodies made byte by byte, as FORMATS has them, of the entries of the script in README.md beside this file. Earlier programs wrote the rows one by
    one."""

    RANGE = ("2024-01-01T00:00Z", "2024-01-01T03:00Z")
    # The hour at which it begins, counted from 1970.
    FIRST = 473_352
    # Cost, quantity and team of each row of the post, the amounts in nanos.
    ROWS = ((100_000_000, 10**9, "web"), (50_000_000, 5 * 10**8, "data"))

    @classmethod
    def setUpClass(cls):
        blocks = (HERE / "README.md").read_text(encoding="utf-8").split("\n```\n")
        at = next(number for number, block in enumerate(blocks) if block.startswith("commit billing 1 "))
        cls.script, answers = blocks[at] + "\n", blocks[at + 2] + "\n"
        accepted, cls.answers = answers[: answers.index("bytes ")], answers[answers.index("bytes ") :]
        assert accepted == "accepted 1\naccepted 2\naccepted 3\n", accepted
        cls.report = cls.answers[cls.answers.index("Group,") : cls.answers.index("state ")]
        cls.lines = warehouse_of(cls.script.encode()).lines(*cls.RANGE)

    @staticmethod
    def text(it):
        return struct.pack("<I", len(it.encode())) + it.encode()

    def in_turn(self, rows):
        """A segment whose rows stand one by one."""
        times = struct.pack("<QQ", self.FIRST * 3600, (self.FIRST + 1) * 3600)
        texts = b"\1" + self.text("Hours") + b"\1" + self.text("vm") + b"\0"
        segment = struct.pack("<BI", 1, len(rows))
        for cost, quantity, team in rows:
            segment += struct.pack("<qqBB", cost, cost, 1, 0) + times + bytes(3) + struct.pack("<Bq", 1, quantity)
            segment += texts + struct.pack("<I", 1) + self.text("team") + self.text(team)
        return segment

    def by_column(self, rows):
        """A segment whose rows stand by column."""
        count = len(rows)
        names = list(dict.fromkeys(name for row in rows for name in ("Hours", "vm", "team", row[2])))
        place = {name: number for number, name in enumerate(names, 1)}
        costs = b"".join(struct.pack("<q", cost) for cost, _, _ in rows)
        times = [struct.pack("<Q", hour * 3600) * count for hour in (self.FIRST, self.FIRST + 1)]
        quantities = bytes([1] * count) + b"".join(struct.pack("<q", quantity) for _, quantity, _ in rows)
        texts = [struct.pack("<I", at) * count for at in (place["Hours"], place["vm"], 0)]
        tags = b"".join(struct.pack("<III", 1, place["team"], place[team]) for _, _, team in rows)
        columns = [costs, costs, bytes([1] * count), bytes(count), *times, bytes(4 * count), bytes(2 * count), quantities, *texts, tags]
        return struct.pack("<BII", 2, count, len(names)) + b"".join(map(self.text, names)) + b"".join(columns)

    def commitment(self):
        tags = struct.pack("<I", 1) + self.text("team") + self.text("platform")
        term = struct.pack("<IIq", self.FIRST, 3, 2 * 10**9)
        skus = self.text("Hours") + struct.pack("<I", 1) + self.text("vm")
        return self.text("cd-1") + b"\1\0" + tags + term + skus + struct.pack("<IQq", 1, self.FIRST * 3600, 10)

    def added(self):
        """The kind of an entry and of its head, and a purchase of two nanos in the second hour of the commitment."""
        return b"\5" + self.text("cd-1") + struct.pack("<Qq", (self.FIRST + 1) * 3600, 2)

    def policy(self):
        targets = struct.pack("<I", 2) + self.text("data") + struct.pack("<Q", 1) + self.text("web") + struct.pack("<Q", 3)
        return self.text("team") + struct.pack("<I", 1) + self.text("platform") + b"\1" + targets

    def side(self, form, generation, *segments, more=()):
        """A side of this form and generation whose body has the entries of README's script, with the post's rows in these segments, and more entries,
        and whose log is empty."""
        kinds = b"\2" + self.commitment(), b"\1" + struct.pack("<I", len(self.ROWS)), b"\3" + self.policy(), *more
        heads = b"".join(self.text("billing") + struct.pack("<Q", number) + kind for number, kind in enumerate(kinds, 1))
        body = self.text("USD") + struct.pack("<Q", len(kinds)) + heads + struct.pack("<I", len(segments)) + b"".join(segments)
        return b"\1" + form + struct.pack("<QQ", generation, len(body)) + body + b"\0"

    def says_what_readme_says(self, folder):
        """README's script, sent again, and the commands for people."""
        low, high = self.RANGE
        script = f"{self.script}lines {low} {high}\n".encode()
        self.assertEqual(focusd("run", "--dir", folder, given=script), (0, "already 3\n" * 3 + self.answers + self.lines, ""))
        words = ("--dir", folder, "--from", low, "--to", high)
        self.assertEqual(focusd("report", *words, "--tag", "team", "--format", "csv"), (0, self.report, applied("team", 3, "billing 3")))
        self.assertEqual(focusd("lines", *words), (0, self.lines.split("\n", 1)[1], ""))

    def test_each_layout_has_the_same_reports_and_lines(self):
        first, second = self.ROWS[:1], self.ROWS[1:]
        for name, segments in (
            ("one by one", [self.in_turn(self.ROWS)]),
            ("one by one, each in a segment of its own", [self.in_turn(first), self.in_turn(second)]),
            ("the first one by one, the second by column", [self.in_turn(first), self.by_column(second)]),
            ("by column", [self.by_column(self.ROWS)]),
        ):
            for form in (b"FWHOUSE1", b"FWHOUSE2"):
                with self.subTest(name, form=form), tempfile.TemporaryDirectory() as folder:
                    left, right = pathlib.Path(folder) / "left", pathlib.Path(folder) / "right"
                    left.write_bytes(self.side(form, 1, *segments))
                    right.write_bytes(b"")
                    self.says_what_readme_says(folder)
                    self.assertEqual((left.read_bytes(), right.read_bytes()), (self.side(form, 1, *segments), b""))
                    self.assertEqual(focusd("checkpoint", "--dir", folder), (0, "checkpointed\n", ""))
                    self.assertEqual(right.read_bytes(), self.side(b"FWHOUSE2", 2, self.by_column(self.ROWS)))
                    self.says_what_readme_says(folder)

    ADD = b'add billing 4 3\nid = "cd-1"\nat = "2024-01-01T01:00Z"\nbilled = "0.000000002"\n'

    @staticmethod
    def withdrawn(target):
        """The kind of an entry and of its head, and the number of the post that is withdrawn."""
        return b"\4" + struct.pack("<Q", target)

    def of_second_form(self):
        """Entries that the second form alone has, behind README's script: each as a command, and its kind and what it brings in bytes."""
        return ((self.ADD, self.added()), (b"withdraw billing 4 2\n", self.withdrawn(2)))

    def says_what_was_entered(self, folder, command):
        """README's script and an entry behind it, sent again, and what is asked of them."""
        low, high = self.RANGE
        asked = f"report team {low} {high}\nlines {low} {high}\nstate\n".encode()
        kept = warehouse_of(self.script.encode() + command)
        self.assertEqual(kept.entries, 4)
        again = "".join(line for line in self.script.splitlines(keepends=True) if not line.startswith(("report ", "state")))
        answers = kept.report("team", low, high) + kept.lines(low, high) + kept.state()
        self.assertEqual(focusd("run", "--dir", folder, given=again.encode() + command + asked), (0, "already 4\n" * 4 + answers, ""))

    def log_of(self, content):
        """A log of one group, of one entry behind README's script: from its first gate to the next one."""
        group = struct.pack("<I", 1) + self.text("billing") + struct.pack("<Q", 4) + content
        return b"\1" + struct.pack("<I", len(group)) + group + b"\0"

    def lay(self, folder, side):
        """Makes a folder hold this Left, and an empty Right."""
        (pathlib.Path(folder) / "left").write_bytes(side)
        (pathlib.Path(folder) / "right").write_bytes(b"")

    def is_damaged(self, folder, at):
        """Left is damaged at this byte."""
        self.assertEqual(focusd("run", "--dir", folder, given=b"state\n"), (1, "", "focusd: S2 Corrupt\n"))
        self.assertEqual(focusd("verify", "--dir", folder), (1, "", f"focusd: S2 Corrupt\n{folder}/left: damaged at byte {at}\n"))

    def test_a_purchase_and_a_withdrawal_in_the_log_and_in_the_body(self):
        """What a script writes, and what a checkpoint makes of it, byte for byte. The rows of a withdrawn post stay in the body."""
        segment, form = self.by_column(self.ROWS), b"FWHOUSE2"
        for command, content in self.of_second_form():
            with self.subTest(command), tempfile.TemporaryDirectory() as folder:
                left, right = pathlib.Path(folder) / "left", pathlib.Path(folder) / "right"
                self.lay(folder, self.side(form, 1, segment))
                self.assertEqual(focusd("run", "--dir", folder, given=command), (0, "accepted 4\n", ""))
                self.assertEqual(left.read_bytes(), self.side(form, 1, segment)[:-1] + self.log_of(content))
                self.says_what_was_entered(folder, command)
                self.assertEqual(focusd("checkpoint", "--dir", folder), (0, "checkpointed\n", ""))
                self.assertEqual(right.read_bytes(), self.side(form, 2, segment, more=[content]))
                self.says_what_was_entered(folder, command)

    def test_the_first_form_has_no_added_purchases_and_no_withdrawals(self):
        segment, form = self.by_column(self.ROWS), b"FWHOUSE1"
        for command, content in self.of_second_form():
            in_body, in_log = self.side(form, 1, segment, more=[content]), self.side(form, 1, segment)[:-1] + self.log_of(content)
            self.assertEqual(in_body.count(content), 1)
            # In the body the fault is at the byte of the kind, in the log at the gate in front of the group.
            for side, at in ((in_body, in_body.index(content)), (in_log, len(self.side(form, 1, segment)) - 1)):
                with self.subTest(command, at=at), tempfile.TemporaryDirectory() as folder:
                    self.lay(folder, side)
                    self.is_damaged(folder, at)
                    # The same bytes are right where the magic word is that of the second form.
                    self.lay(folder, side.replace(b"FWHOUSE1", b"FWHOUSE2", 1))
                    self.says_what_was_entered(folder, command)

    def test_withdrawals_that_would_be_refused(self):
        """A body or a log that withdraws what is no post, or a post twice: in the body the fault is at the head, in the log at the gate."""
        segment, form = self.by_column(self.ROWS), b"FWHOUSE2"
        for target in (0, 1, 3, 4, 5, 2**64 - 1):
            content = self.withdrawn(target)
            in_body, in_log = self.side(form, 1, segment, more=[content]), self.side(form, 1, segment)[:-1] + self.log_of(content)
            for side, at in ((in_body, in_body.rindex(self.text("billing"))), (in_log, len(self.side(form, 1, segment)) - 1)):
                with self.subTest(target=target, at=at), tempfile.TemporaryDirectory() as folder:
                    self.lay(folder, side)
                    self.is_damaged(folder, at)
        twice = self.side(form, 1, segment, more=[self.withdrawn(2)] * 2)
        with tempfile.TemporaryDirectory() as folder:
            self.lay(folder, twice)
            self.is_damaged(folder, twice.rindex(self.text("billing")))

    @staticmethod
    def short_posts(count):
        """So many posts of a row each, with a withdrawal behind each tenth: the number of each entry, and its row or the number that it withdraws."""
        number = 0
        for at in range(count):
            number += 1
            yield number, (1_000 * (at + 1), 10**9, f"t{at % 3}")
            if at % 10 == 9:
                number += 1
                yield number, number - 4

    def opens_with_short_posts(self, side, count):
        """A side is opened with the answers that expected.py has to a script that sends the short posts."""
        low, high = self.RANGE
        header = "BilledCost,EffectiveCost,BillingCurrency,ChargeCategory,ChargePeriodStart,ChargePeriodEnd,ConsumedQuantity,ConsumedUnit,SkuId,Tags"
        script = ""
        for number, what in self.short_posts(count):
            if isinstance(what, int):
                script += f"withdraw a {number} {what}\n"
                continue
            cost = f"{what[0]}e-9"
            script += f"post a {number} 2\n{header}\n" + f'{cost},{cost},USD,Usage,2024-01-01T00:00Z,2024-01-01T01:00Z,1,Hours,vm,"{{""team"":""{what[2]}""}}"\n'
        kept = warehouse_of(script.encode())
        self.assertEqual((kept.posted, kept.row_count()), (count, count - count // 10))
        asked = f"report team {low} {high}\nlines {low} {high}\nstate\n".encode()
        answers = kept.report("team", low, high) + kept.lines(low, high) + kept.state()
        with tempfile.TemporaryDirectory() as folder:
            self.lay(folder, side)
            self.assertEqual(focusd("run", "--dir", folder, "--workers", "3", given=asked), (0, answers, ""))
            self.assertEqual(focusd("run", "--dir", folder, given=b"checkpoint\n" + asked), (0, "checkpointed\n" + answers, ""))
            self.assertEqual(focusd("run", "--dir", folder, given=asked), (0, answers, ""))

    def test_very_many_short_segments(self):
        """Each post has a segment of its own in the body, by turns in both layouts."""
        posts, heads, segments = 3_000, b"", []
        for number, what in self.short_posts(posts):
            heads += self.text("a") + struct.pack("<Q", number) + (self.withdrawn(what) if isinstance(what, int) else b"\1" + struct.pack("<I", 1))
            if not isinstance(what, int):
                segments.append((self.in_turn, self.by_column)[number % 2]([what]))
        body = self.text("USD") + struct.pack("<Q", posts + posts // 10) + heads + struct.pack("<I", len(segments)) + b"".join(segments)
        self.opens_with_short_posts(b"\1FWHOUSE2" + struct.pack("<QQ", 1, len(body)) + body + b"\0", posts)

    def test_very_many_short_posts_in_a_log(self):
        """More than are kept apart while a log is read, in frames of 64 entries."""
        posts, entries = 33_000, []
        for number, what in self.short_posts(posts):
            content = self.withdrawn(what) if isinstance(what, int) else b"\1" + self.in_turn([what])[1:]
            entries.append(self.text("a") + struct.pack("<Q", number) + content)
        body = self.text("USD") + bytes(12)
        frames = []
        for at in range(0, len(entries), 64):
            group = struct.pack("<I", len(entries[at : at + 64])) + b"".join(entries[at : at + 64])
            frames.append(b"\1" + struct.pack("<I", len(group)) + group)
        self.opens_with_short_posts(b"\1FWHOUSE2" + struct.pack("<QQ", 1, len(body)) + body + b"".join(frames) + b"\0", posts)


class DamagedSides(unittest.TestCase):
    """A side of an empty warehouse that is damaged in one place, and the byte at which that is found."""

    # A frame with one entry, a policy for the key `t`, and the next gate.
    FRAME = bytes.fromhex("01 1b000000 01000000 0100000061 0100000000000000 03 0100000074 00000000 00")
    FORMS = (b"FWHOUSE1", b"FWHOUSE2")

    @staticmethod
    def side(form, generation=1):
        return b"\1" + form + struct.pack("<QQ", generation, 19) + bytes.fromhex("03000000 555344 0000000000000000 00000000 00")

    def damaged(self, form, generation=1):
        """Each damage, what it makes of the side, and the byte of the fault: none where the side is no longer open."""
        whole = self.side(form, generation)
        body = whole[:-1]
        yield "cut within its header", whole[:25], None
        yield "cut before its first gate", whole[:44], 17
        yield "another magic word", whole[:8] + b"9" + whole[9:], 1
        yield "generation 0", whole[:9] + bytes(8) + whole[17:], 9
        yield "a body of 2^64-1 bytes", whole[:17] + b"\xff" * 8 + whole[25:], 17
        yield "a body that is a byte shorter", whole[:17] + struct.pack("<Q", 18) + whole[25:], 40
        yield "a currency of small letters", whole.replace(b"USD", b"usd"), 25
        yield "an open gate with nothing behind it", body + b"\1", 44
        yield "a frame of no bytes", body + self.FRAME[:1] + bytes(4) + self.FRAME[5:], 44
        yield "an entry that leaves a gap", body + self.FRAME.replace(struct.pack("<Q", 1), struct.pack("<Q", 2), 1), 44

    def answers(self, left, right, wanted):
        """A run over these files, and what verify says; neither changes a file."""
        with tempfile.TemporaryDirectory() as folder:
            files = [pathlib.Path(folder) / name for name in ("left", "right")]
            for file, content in zip(files, (left, right)):
                file.write_bytes(content)
            code = wanted if isinstance(wanted, str) else "S2 Corrupt"
            self.assertEqual(focusd("run", "--dir", folder, given=b"state\n"), (1, "", f"focusd: {code}\n"))
            status, said, error = focusd("verify", "--dir", folder)
            self.assertEqual((status, said), (1, ""))
            self.assertTrue(error.startswith(f"focusd: {code}\n"))
            if code == "S2 Corrupt":
                self.assertEqual(error, f"focusd: {code}\n{folder}/{wanted[0]}: damaged at byte {wanted[1]}\n")
            self.assertEqual([file.read_bytes() for file in files], [left, right])

    def test_left_in_use(self):
        for form in self.FORMS:
            for name, side, at in self.damaged(form):
                with self.subTest(name, form=form):
                    self.answers(side, b"", "S1 NoHouse" if at is None else ("left", at))

    def test_right_in_use(self):
        for form in self.FORMS:
            for name, side, at in self.damaged(form):
                with self.subTest(name, form=form):
                    self.answers(b"", side, "S1 NoHouse" if at is None else ("right", at))

    def test_right_in_use_beside_an_older_left(self):
        for form in self.FORMS:
            for older in self.FORMS:
                for name, side, at in self.damaged(form, 2):
                    with self.subTest(name, form=form, older=older):
                        if at is not None:
                            self.answers(self.side(older), side, ("right", at))
                            continue
                        with tempfile.TemporaryDirectory() as folder:
                            (pathlib.Path(folder) / "left").write_bytes(self.side(older))
                            (pathlib.Path(folder) / "right").write_bytes(side)
                            self.assertEqual(focusd("run", "--dir", folder, given=b"state\n"), (0, "state 0 0 0 0\n", ""))

    def test_two_sides_of_one_generation(self):
        for form in self.FORMS:
            for other in self.FORMS:
                for generation in (1, 2, 2**64 - 1):
                    self.answers(self.side(form, generation), self.side(other, generation), ("right", 9))


class KeptVolumes(unittest.TestCase):
    """Folders that an earlier program wrote, of the form FWHOUSE1, open with the answers that their scripts had."""

    FOLDERS = ("empty", "log", "checkpointed", "both")
    MORE = (
        b"post more 1 2\n"
        b"BilledCost,EffectiveCost,BillingCurrency,ChargeCategory,ChargePeriodStart,ChargePeriodEnd\n"
        b"1,2,USD,Usage,2024-01-01T00:00Z,2024-01-01T01:00Z\n"
    )

    def copy(self, name):
        folder = temporary_folder(self.addCleanup)
        for file in ("left", "right"):
            shutil.copy(HERE / "volumes" / name / file, folder)
        return str(folder)

    def answers(self, *scripts):
        """What is answered to the last of these scripts after the others."""
        before = list(expected.answers(io.BytesIO(b"".join(scripts[:-1]))))
        return "".join(list(expected.answers(io.BytesIO(b"".join(scripts))))[len(before) :])

    def test_each_has_its_entries_before_and_after_a_further_one_and_a_checkpoint(self):
        questions = (HERE / "volumes" / "questions.script").read_bytes()
        for name in self.FOLDERS:
            folder, made = self.copy(name), (HERE / "volumes" / f"{name}.script").read_bytes()
            for more in (questions, self.MORE, questions, b"checkpoint\n", questions):
                self.assertEqual(focusd("run", "--dir", folder, given=more), (0, self.answers(made, more), ""), name)
                made += more

    def words(self, folder):
        """The magic words of both sides, none where there is no side, and that of the side in use."""
        sides = [(pathlib.Path(folder) / file).read_bytes() for file in ("left", "right")]
        there = [side for side in sides if len(side) >= 26 and side[0] == 1]
        used = max(there, key=lambda side: int.from_bytes(side[9:17], "little"))
        return [side[1:9] for side in sides], used[1:9]

    def test_each_keeps_its_form_until_a_checkpoint(self):
        """A post leaves the form of a side as it is. A checkpoint makes the other side of the second form, and changes no report."""
        questions = (HERE / "volumes" / "questions.script").read_bytes()
        for name in self.FOLDERS:
            folder = self.copy(name)
            before = self.words(folder)
            self.assertEqual(before[1], b"FWHOUSE1", name)
            self.done_script(folder, self.MORE)
            self.assertEqual(self.words(folder), before, name)
            reports = self.done_script(folder, questions)
            self.assertEqual(focusd("checkpoint", "--dir", folder), (0, "checkpointed\n", ""), name)
            both, used = self.words(folder)
            self.assertEqual((used, sorted(both)), (b"FWHOUSE2", [b"FWHOUSE1", b"FWHOUSE2"]), name)
            self.assertEqual(self.done_script(folder, questions), reports, name)
            self.assertEqual(focusd("checkpoint", "--dir", folder), (0, "checkpointed\n", ""), name)
            self.assertEqual(self.words(folder), ([b"FWHOUSE2"] * 2, b"FWHOUSE2"), name)
            self.assertEqual(self.done_script(folder, questions), reports, name)

    COMMIT = (
        b'commit more 1 7\nid = "later"\ncategory = "Spend"\nstart = "2024-01-01T01:00Z"\nhours = 2\ncapacity = "0.25"\nrates = { disk = 500000 }\n'
        b'purchase = [{ at = "2024-01-01T01:00Z", billed = "0.1" }]\n'
    )
    ADD = b'add more 2 3\nid = "later"\nat = "2024-01-01T02:30Z"\nbilled = "0.02"\n'
    WITHDRAW = b"withdraw more 2 1\n"

    def is_taken_after_a_checkpoint(self, first, entry, none, refusal):
        """A side of the first form doesn't take an entry behind a first one: the answer changes nothing, and holds until the next checkpoint. One that
        isn't accepted has its own answer. Each folder as it is then, with its name and the script that made it."""
        questions = (HERE / "volumes" / "questions.script").read_bytes()
        for name in self.FOLDERS:
            folder, made = self.copy(name), (HERE / "volumes" / f"{name}.script").read_bytes()
            answers = "gap 1\n" + self.answers(made, first) + refusal
            self.assertEqual(self.done_script(folder, none + first + none), answers, name)
            made += first
            files = [(pathlib.Path(folder) / file).read_bytes() for file in ("left", "right")]
            answers = f"store S8 OldSide\nalready 1\n{refusal}{self.answers(made, questions)}"
            self.assertEqual(self.done_script(folder, entry + first + none + questions), answers, name)
            self.assertEqual([(pathlib.Path(folder) / file).read_bytes() for file in ("left", "right")], files, name)
            answers = f"store S8 OldSide\ncheckpointed\n{self.answers(made, entry + questions)}"
            self.assertEqual(self.done_script(folder, entry + b"checkpoint\n" + entry + questions), answers, name)
            made += entry
            for more in (questions, b"checkpoint\n", questions, entry):
                self.assertEqual(self.done_script(folder, more), self.answers(made, more), name)
            yield name, folder, made

    def test_each_takes_a_purchase_after_a_checkpoint(self):
        none = self.ADD.replace(b"later", b"none")
        self.assertEqual(len(list(self.is_taken_after_a_checkpoint(self.COMMIT, self.ADD, none, "refused J8 NoSuchCommitment\n"))), 4)

    def test_each_takes_a_withdrawal_after_a_checkpoint(self):
        """Also of what an earlier program posted."""
        questions = (HERE / "volumes" / "questions.script").read_bytes()
        none = self.WITHDRAW.replace(b" 1\n", b" 2\n")
        for name, folder, made in self.is_taken_after_a_checkpoint(self.MORE, self.WITHDRAW, none, "refused J6 NoSuchPost\n"):
            number = warehouse_of(made).origins["billing"] + 1
            own = b"withdraw billing %d 1\n" % number
            answers = self.answers(made, own + questions)
            self.assertTrue(answers.startswith("refused J6 " if name == "empty" else "accepted "), (name, answers))
            self.assertEqual(self.done_script(folder, own + questions), answers, name)
            self.assertEqual(self.done_script(folder, b"checkpoint\n" + questions), "checkpointed\n" + answers.partition("\n")[2], name)

    def done_script(self, folder, script):
        """What is answered to a script, which has to end well."""
        status, printed, said = focusd("run", "--dir", folder, given=script)
        self.assertEqual((status, said), (0, ""))
        return printed

    def test_each_is_of_the_first_form_and_has_both_sides_where_it_should(self):
        for name in self.FOLDERS:
            sides = [(HERE / "volumes" / name / file).read_bytes() for file in ("left", "right")]
            self.assertEqual(sides[0][:9], b"\x01FWHOUSE1", name)
            self.assertEqual(sides[1][:9], b"\x01FWHOUSE1" if name in ("checkpointed", "both") else b"", name)


class Workers(unittest.TestCase):
    """Scripts of several MiB: workers read their posts while they come, and share the hours and segments of a report."""

    HEAD = b"BilledCost,EffectiveCost,BillingCurrency,ChargeCategory,ChargePeriodStart,ChargePeriodEnd,Tags\n"
    REPORT = b"report team 2024-01-01T00:00Z 2024-02-01T00:00Z\n"

    def post(self, number, rows, category="Usage"):
        """A post of so many rows, each different."""
        lines = [self.HEAD]
        for row in range(rows):
            start = f"2024-01-{row % 28 + 1:02}T{row % 23:02}:00:00Z,2024-01-{row % 28 + 1:02}T{row % 23 + 1:02}:00:00Z"
            lines.append(f'{number}.{row:09},{row}.5,USD,{category},{start},"{{""team"": ""t{row % 5}""}}"\n'.encode())
        return f"post importer {number} {rows + 1}\n".encode() + b"".join(lines)

    def test_the_answers_are_those_of_one_worker(self):
        sizes = [1, 4096, 3, 4096, 4096, 17, 1, 1, 2000, *[40] * 200, 4096, 4096, 1, 4096]
        script = b"".join(
            self.post(number, rows) + (self.REPORT + b"state\n" if number % 50 == 0 else b"") for number, rows in enumerate(sizes, 1)
        )
        script += self.post(len(sizes) + 1, 4096, "Rent") + self.post(5, 3000) + self.post(len(sizes) + 3, 1) + self.REPORT
        self.assertGreater(len(script), 3 * 2**20)
        right = "".join(expected.answers(io.BytesIO(script)))
        cut_short = b"post importer 9 100000\n" + self.HEAD
        for end, answer in ((b"", ""), (b"state", f"state {len(sizes)} {sum(sizes)} 0 0\n"), (cut_short, "bad end\n")):
            for workers in ("1", "2", "3", "4", "64"):
                with self.subTest(end=end, workers=workers):
                    self.assertEqual(focusd("run", "--workers", workers, given=script + end), (0, right + answer, ""))

    # One post more than a checkpoint joins to a segment of 65,536 rows.
    POSTS = 17
    HOURS = 600
    CONTRACTS = b"""commit contracts 1 11
id = "cd-1"
category = "Usage"
start = "2024-01-03T00:00Z"
hours = 400
capacity = "50"
unit = "Hours"
skus = ["vm-2", "vm-3"]
tags = { team = "team-7" }
[[purchase]]
at = "2024-01-03T00:00Z"
billed = "1234.567890123"
policy contracts 2 7
key = "team"
[[rule]]
from = "team-7"
proportional = true
[[rule]]
from = "team-3"
to = { team-4 = 3, shared = 1 }
"""

    @staticmethod
    def instant(hour):
        return f"2024-01-{hour // 24 + 1:02}T{hour % 24:02}:00Z"

    def charges(self, number):
        """A post of 4,096 rows over all hours. Its teams, SKUs and costs aren't those of the post before it."""
        lines = ["BilledCost,EffectiveCost,BillingCurrency,ChargeCategory,ChargePeriodStart,ChargePeriodEnd,ConsumedQuantity,ConsumedUnit,SkuId,Tags"]
        for row in range(4096):
            hour = (row * 7 + number * 131) % self.HOURS
            cost = f"{row % 7}.{(row + 1) * number:09}"
            use = f"{row % 5}.{row % 1000:03},Hours,vm-{(row // 3 + number) % 11}"
            tags = f'"{{""team"":""team-{number % 9 + row % 4}"",""env"":""env-{row % 3}""}}"'
            lines.append(f"{cost},{cost},USD,Usage,{self.instant(hour)},{self.instant(hour + 1)},{use},{tags}")
        return f"post importer {number} {len(lines)}\n" + "\n".join(lines) + "\n"

    def test_a_checkpoint_that_joins_segments_changes_no_answer(self):
        entries = self.CONTRACTS + "".join(map(self.charges, range(1, self.POSTS + 1))).encode()
        kept = warehouse_of(entries)
        accepted = "".join(f"accepted {number}\n" for number in range(1, self.POSTS + 3))
        whole, part, day = ((self.instant(low), self.instant(high)) for low, high in ((0, self.HOURS), (90, 333), (100, 124)))
        asked = [("report", "team", *whole), ("report", "team", *part), ("report", "env", *part), ("lines", *day)]
        known = {words: getattr(kept, words[0])(*words[1:]) for words in asked}
        # What is asked again is answered by what was kept of the first answers.
        questions = "".join(" ".join(words) + "\n" for words in asked * 3).encode()
        right = "".join(known[words] for words in asked * 3)
        both, right_both = questions + b"checkpoint\n" + questions, right + "checkpointed\n" + right
        for workers in ("1", "2", "64"):
            words = ("run", "--workers", workers)
            with self.subTest(workers=workers), tempfile.TemporaryDirectory() as folder:
                self.assertEqual(focusd(*words, given=entries + both), (0, accepted + right_both, ""))
                self.assertEqual(focusd(*words, "--dir", folder, "--create", given=entries + questions), (0, accepted + right, ""))
                # Opened from the log, and then from the body that the checkpoint wrote: two segments, the first by column and of 65,536 rows.
                self.assertEqual(focusd(*words, "--dir", folder, given=both), (0, right_both, ""))
                self.assertEqual((pathlib.Path(folder) / "right").read_bytes().count(struct.pack("<IBI", 2, 2, 65_536)), 1)
                self.assertEqual(focusd(*words, "--dir", folder, given=questions), (0, right, ""))

    def test_posts_that_are_withdrawn_from_joined_segments(self):
        """The first post, one amid the rows that a checkpoint joins, the last one of these and the one behind them are withdrawn, one after the other."""
        script = self.CONTRACTS + "".join(map(self.charges, range(1, self.POSTS + 1))).encode()
        kept = warehouse_of(script)
        accepted = "".join(f"accepted {number}\n" for number in range(1, self.POSTS + 3))
        whole, part = ((self.instant(low), self.instant(high)) for low, high in ((0, self.HOURS), (90, 333)))
        asked = [("report", "team", *whole), ("report", "env", *part), ("lines", self.instant(100), self.instant(103)), ("state",)]
        questions = "".join(" ".join(words) + "\n" for words in asked).encode()
        more, answers = b"", ""
        for place, target in enumerate((1, 9, self.POSTS - 1, self.POSTS), 1):
            withdrawal = b"withdraw importer %d %d\n" % (self.POSTS + place, target)
            self.assertEqual(kept.withdraw("importer", str(self.POSTS + place), target), f"accepted {self.POSTS + 2 + place}\n")
            right = "".join(getattr(kept, words[0])(*words[1:]) for words in asked)
            more += withdrawal + questions
            answers += f"accepted {self.POSTS + 2 + place}\n{right}"
        self.assertIn(f" {13 * 4096} 1 1\n", answers)
        script, answers = script + b"checkpoint\n" + more, f"{accepted}checkpointed\n{answers}"
        for workers in ("1", "4"):
            words = ("run", "--workers", workers)
            with self.subTest(workers=workers), tempfile.TemporaryDirectory() as folder:
                self.assertEqual(focusd(*words, given=script), (0, answers, ""))
                self.assertEqual(focusd(*words, "--dir", folder, "--create", given=script), (0, answers, ""))
                # Opened from the body and the log behind it, and then from a body that has the rows of all posts, in the same segments.
                self.assertEqual(focusd(*words, "--dir", folder, given=questions + b"checkpoint\n"), (0, right + "checkpointed\n", ""))
                self.assertEqual((pathlib.Path(folder) / "left").read_bytes().count(struct.pack("<IBI", 2, 2, 65_536)), 1)
                self.assertEqual(focusd(*words, "--dir", folder, given=questions), (0, right, ""))


if __name__ == "__main__":
    run_tests(__doc__)
