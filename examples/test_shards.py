#!/usr/bin/env python3
"""Runs the commands over shards of a built program: `focusd split`, `focusd report --direct` and `focusd charge`.

    examples/test_shards.py out/focusd

A bill under overlapping commitments and a policy is cut into shards, each is reported by itself, and what the reports add up to has
to be, to the byte, what one warehouse with all rows reports. That in turn is compared with the plain Python of expected.py.
"""
import collections
import csv
import io
import json
import re
import subprocess
import sys

import program_tests
from program_tests import HERE, focusd_bytes, run_tests

RANGE = ("--from", "2023-12-30", "--to", "2024-01-05")
FORMATS = ("table", "csv", "json", "html")


def year_script(days=2, rows=12):
    """A script of some days under overlapping commitments."""
    words = [sys.executable, str(HERE / "make_year.py"), "--days", str(days), "--rows-an-hour", str(rows)]
    return subprocess.run(words, capture_output=True, check=True).stdout.decode()


def entries_of(script):
    """The commands of a script that have lines, each as its kind and these lines."""
    lines = script.split("\n")
    found, place = [], 0
    while place < len(lines):
        words = lines[place].split()
        place += 1
        if words and words[0] in ("post", "commit", "policy"):
            count = int(words[3])
            found.append((words[0], "\n".join(lines[place : place + count]) + "\n"))
            place += count
    return found


class Case(program_tests.Case):
    """A folder of its own for each test. What runs print is in bytes."""

    def focusd(self, *words, given=b""):
        return focusd_bytes(*words, given=given, cwd=self.top)

    def do(self, *words, given=b""):
        """What a run prints that has to go well."""
        # Of a report the policy that it applied is said.
        applied = "costs are shared by the policy for the tag team: entry 10, policy 1\n"
        is_applied = words[0] == "report" and words[2] == getattr(self, "one", "") and "--direct" not in words
        return super().do(*words, given=given, said=applied if is_applied else "")

    def fails(self, status, what, *words, given=b""):
        """A run that has to fail with this status, and to say this."""
        found, output, error = self.focusd(*words, given=given)
        self.assertEqual((found, output), (status, b""), error)
        self.assertIn(what, error)
        return error


class Bills(Case):
    """One bill, in one warehouse and in shards."""

    def setUp(self):
        super().setUp()
        self.script = year_script()
        entries = entries_of(self.script)
        header = entries and next(text for kind, text in entries if kind == "post").split("\n", 1)[0]
        records = [text.split("\n", 1)[1] for kind, text in entries if kind == "post"]
        self.export = self.file("export.csv", header + "\n" + "".join(records))
        commitments = [text for kind, text in entries if kind == "commit"]
        self.commitments = [self.file(f"c{place}.toml", text) for place, text in enumerate(commitments)]
        self.policy = self.file("policy.toml", next(text for kind, text in entries if kind == "policy"))
        self.one = self.warehouse("one", [self.export], self.commitments)
        self.do("add", "--dir", self.one, "--origin", "policy", self.policy)

    def warehouse(self, name, files, commitments):
        folder = str(self.top / name)
        self.do("import", "--dir", folder, "--create", "--origin", "bill", "--quiet", *files)
        if commitments:
            self.do("add", "--dir", folder, "--origin", "commitments", *commitments)
        return folder

    def direct(self, folder, *words):
        return self.do("report", "--dir", folder, "--tag", "team", "--direct", *words)

    def charged(self, reports, *words):
        return self.do("charge", "--policy", self.policy, *words, *reports)

    def compare(self, reports, steps=("", "hour", "day", "month")):
        """Reports, charged in each format by each step, are those of the one warehouse."""
        for by in steps:
            cut = ("--by", by) if by else ()
            for shown in FORMATS:
                for top in ((), ("--top", "2")):
                    words = (*RANGE, *cut, *top, "--format", shown)
                    wanted = self.do("report", "--dir", self.one, "--tag", "team", *words)
                    self.assertEqual(self.charged(reports, *words), wanted, words)

    def test_days_are_shards(self):
        parts = self.top / "parts"
        listing = json.loads(self.do("split", "--by", "day", "--out", parts, "--format", "json", self.export))
        reports = []
        days = {"2023-12-30", "2023-12-31", "2024-01-01", "2024-01-02", "2024-01-03", "2024-01-04"}
        named = {part["from"][:10]: [str(parts / part["file"])] for part in listing["files"]}
        self.assertLess(set(named), days)
        for day in sorted(days):
            ends = (*("--from", day), *("--to", f"{day[:8]}{int(day[8:]) + 1:02}" if day != "2023-12-31" else "2024-01-01"))
            folder = str(self.top / day)
            if day in named:
                self.warehouse(day, named[day], self.commitments)
            else:
                # A day without rows has what the commitments bring to it.
                self.do("run", "--dir", self.new_folder(day), "--create")
                self.do("add", "--dir", folder, "--origin", "commitments", *self.commitments)
            reports.append(self.file(f"{day}.json", self.direct(folder, *ends, "--by", "hour")))
        self.compare(reports)

    def test_piles_are_shards(self):
        parts = self.top / "parts"
        given = [word for name in self.commitments for word in ("--commitments", name)]
        words = ("split", "--by", "month", "--into", "3", *given, "--out", parts, "--format", "json", self.export)
        listing = json.loads(self.do(*words))
        piles = collections.defaultdict(list)
        for part in listing["files"]:
            piles[part["pile"]].append(str(parts / part["file"]))
        held = collections.defaultdict(list)
        for commitment in listing["commitments"]:
            held[commitment["pile"]].append(commitment["file"])
        self.assertEqual(sorted(name for names in held.values() for name in names), sorted(self.commitments))
        reports = []
        for pile in sorted(piles):
            folder = self.warehouse(f"pile-{pile}", piles[pile], held[pile])
            reports.append(self.file(f"{pile}.json", self.direct(folder, *RANGE, "--by", "hour")))
            document = json.loads(self.direct(folder, *RANGE))
            self.assertEqual(document["commitments"], len(held[pile]))
        self.compare(reports)

    def test_what_one_warehouse_charges_is_right(self):
        """What is compared with elsewhere is what plain Python computes."""
        text = self.script.split("\nreport ")[0]
        policy = (self.top / self.policy).read_text(encoding="utf-8")
        text += f"\npolicy year 1000 {policy.count(chr(10))}\n{policy}report team 2023-12-30T00:00Z 2024-01-05T00:00Z\n"
        text = re.sub(r"(?m)^policy year \d+ ", f"policy year {len(self.commitments) + text.count(chr(10) + 'post ') + 1} ", text)
        script = self.top / self.file("all.script", text)
        answers = subprocess.run([sys.executable, str(HERE / "expected.py"), script], capture_output=True, check=True).stdout.decode()
        wanted = answers[answers.rindex("Group,BilledCost") :]
        report = self.file("d.json", self.direct(self.one, *RANGE))
        self.assertEqual(self.charged([report], "--format", "csv").decode(), wanted)

    def test_reports_of_standard_input(self):
        """Several reports stand one behind the other, each on a line."""
        first = self.direct(self.one, "--from", "2023-12-30", "--to", "2024-01-02", "--by", "day")
        second = self.direct(self.one, "--from", "2024-01-02", "--to", "2024-01-05", "--by", "day")
        wanted = self.do("report", "--dir", self.one, "--tag", "team", *RANGE, "--by", "day", "--format", "csv")
        words = ("charge", "--policy", self.policy, "--by", "day", "--format", "csv")
        self.assertEqual(self.do(*words, "-", given=first + second), wanted)
        self.assertEqual(self.do(*words, "-", given=second + b"\n" + first), wanted)
        spread = self.file("spread.json", json.dumps(json.loads(first), indent=2))
        self.assertEqual(self.do(*words, spread, self.file("2.json", second)), wanted)

    def test_the_range_is_that_of_the_reports(self):
        report = self.file("d.json", self.direct(self.one, "--from", "2024-01-01", "--to", "2024-01-02", "--by", "day"))
        document = json.loads(self.charged([report], "--by", "day", "--format", "json"))
        self.assertEqual((document["from"], document["to"]), ("2024-01-01T00:00Z", "2024-01-02T00:00Z"))
        wide = json.loads(self.charged([report], "--by", "day", "--format", "json", "--from", "2023-12", "--to", "2024-02"))
        self.assertEqual((wide["from"], wide["to"], len(wide["periods"])), ("2023-12-01T00:00Z", "2024-02-01T00:00Z", 62))
        self.assertEqual(wide["total"], document["total"])
        self.fails(1, "W5 OutsideRange", "charge", "--from", "2024-01-01T01:00Z", report)
        self.fails(2, "--from", "charge", "--from", "May", report)
        self.fails(2, "Q1 Range", "charge", "--from", "1990-01", report)


def document(**members):
    """A direct report, with these members in place of others."""
    groups = [{"group": "", "billed": "5", "direct": "-7"}, {"group": "web", "billed": "1", "direct": "2"}]
    made = {
        "direct": 1, "tag": "team", "currency": "USD", "from": "2024-01-01T00:00Z", "to": "2024-01-02T00:00Z", "by": None,
        "entries": 2, "commitments": 0, "rows": 3,
        "periods": [{"from": "2024-01-01T00:00Z", "to": "2024-01-02T00:00Z", "groups": groups}],
    }  # fmt: skip
    made.update(members)
    return json.dumps(made).encode()


def period(groups, first="2024-01-01T00:00Z", last="2024-01-02T00:00Z"):
    return [{"from": first, "to": last, "groups": groups}]


def group(name, billed, direct):
    return {"group": name, "billed": str(billed), "direct": str(direct)}


class Documents(Case):
    """Direct reports that were written by hand."""

    def charge(self, *documents, words=()):
        files = [self.file(f"{place}.json", text) for place, text in enumerate(documents)]
        return self.focusd("charge", "--format", "csv", *words, *files)

    def refused(self, what, *documents, words=()):
        status, output, error = self.charge(*documents, words=words)
        self.assertEqual((status, output), (1, b""), error)
        self.assertIn(what, error)
        return error

    def test_sums(self):
        one = document(periods=period([group("a", 1, 10**18), group("b", -3, 5)]))
        two = document(periods=period([group("b", 4, -6), group("c", 10**30, 0)]))
        status, output, error = self.charge(one, two)
        self.assertEqual((status, error), (0, ""))
        rows = list(csv.reader(io.StringIO(output.decode())))[1:]
        self.assertEqual(
            rows,
            [
                ["a", "0.000000001", "1000000000.000000000", "1000000000.000000000"],
                ["b", "0.000000001", "-0.000000001", "-0.000000001"],
                ["c", f"{10**21}.000000000", "0.000000000", "0.000000000"],
            ],
        )

    def test_no_direct_reports(self):
        for text in (b"", b"{", b"[]", b"{}", b"7", b"\xff", document(direct=2), document()[:-1]):
            self.refused("W1 NoDirectReport", text)
        for member, value in (
            ("tag", 1), ("currency", "usd"), ("currency", None), ("from", "2024-01-01T00:30Z"), ("to", "2023-01-01T00:00Z"), ("by", "week"), ("by", 1),
            ("entries", "2"), ("commitments", -1), ("rows", 1.5), ("periods", {}), ("periods", [1]), ("periods", period([]) * 2),
            ("periods", period([], last="2024-01-01T01:00Z")), ("periods", period([{}])), ("periods", period([{"group": "a", "billed": 1, "direct": "1"}])),
            ("periods", period([group("a", 1, "1.5")])), ("periods", period([group("a", 1, 2**127)])), ("periods", period([group("a", "", 1)])),
            ("periods", period([group("b", 1, 1), group("a", 1, 1)])), ("periods", period([group("a", 1, 1)] * 2)),
        ):  # fmt: skip
            error = self.refused("W1 NoDirectReport", document(), document(**{member: value}))
            self.assertIn("1.json", error, (member, value))

    def test_reports_that_do_not_go_together(self):
        self.refused("W2 OtherTag", document(), document(tag="env"))
        self.refused("W2 OtherTag", document(), words=("--tag", "env"))
        self.refused("W3 OtherCurrency", document(), document(currency="EUR"))
        self.refused("W4 OtherPeriod", document(), words=("--by", "hour"))
        self.assertEqual(self.charge(document(), words=("--by", "day"))[0], 0)

    def test_costs_that_are_too_large(self):
        large = document(periods=period([group("a", 0, 10**19), group("b", 0, 1)]))
        status, output, error = self.charge(large)
        self.assertEqual((status, output, error), (1, b"", "focusd: Q2 TotalTooLarge\n"))
        back = document(periods=period([group("b", 0, -1)]))
        self.assertEqual(self.charge(large, back)[0], 0)
        self.refused("W6 OutOfRange", document(periods=period([group("a", 10**37, 0)])), document(periods=period([group("a", 1, 0)])))

    def test_files_and_options(self):
        report = self.file("d.json", document())
        self.fails(1, "F1 Read", "charge", self.top / "none.json")
        self.fails(1, "F1 Read", "charge", self.top)
        self.fails(1, "d2.json:2", "charge", self.file("d2.json", document() + b"\n{}\n"))
        self.fails(1, "F1 Read", "charge", "--policy", self.top / "none.toml", report)
        self.fails(1, "P2 Field", "charge", "--policy", self.file("p.toml", 'key = "team"\nrule = 1\n'), report)
        self.fails(1, "W9 OtherKind", "charge", "--policy", HERE / "commitment.toml", report)
        self.fails(2, "--top", "charge", "--top", "0", report)
        self.fails(2, "REPORT", "charge")
        self.fails(2, "--by", "charge", "--by", "week", report)
        for words in (("--top", "3"), ("--format", "csv")):
            self.fails(2, "--direct", "report", "--dir", self.top, "--tag", "team", "--from", "2024", "--to", "2025", "--direct", *words)

    def test_a_policy_of_another_key(self):
        policy = self.file("p.toml", 'key = "env"\n[[rule]]\nfrom = "web"\nto = { data = 1 }\n')
        self.assertEqual(self.charge(document(), words=("--policy", policy)), self.charge(document()))


class Direct(Case):
    """What `focusd report --direct` prints."""

    def test_the_document(self):
        folder = self.top / "w"
        self.do("import", "--dir", folder, "--create", "--origin", "a", HERE / "focus-export.csv")
        self.do("add", "--dir", folder, "--origin", "b", HERE / "commitment.toml")
        month = ("--from", "2024-09", "--to", "2024-10")
        text = self.do("report", "--dir", folder, "--tag", "team", *month, "--by", "day", "--direct")
        self.assertTrue(text.endswith(b"}\n"))
        self.assertEqual(text.count(b"\n"), 1)
        made = json.loads(text)
        self.assertEqual(
            {name: made[name] for name in made if name != "periods"},
            {
                "direct": 1, "tag": "team", "currency": "USD", "from": "2024-09-01T00:00Z", "to": "2024-10-01T00:00Z", "by": "day", "entries": 2,
                "commitments": 1, "rows": 300,
            },
        )  # fmt: skip
        shown = json.loads(self.do("report", "--dir", folder, "--tag", "team", *month, "--by", "day", "--format", "json"))
        self.assertEqual(len(made["periods"]), 30)
        for one, other in zip(made["periods"], shown["periods"]):
            self.assertEqual((one["from"], one["to"]), (other["from"], other["to"]))
            nanos = [(entry["group"], *(entry[name].replace(".", "") for name in ("billed", "effective"))) for entry in other["groups"]]
            nanos = [(name, str(int(billed)), str(int(direct))) for name, billed, direct in nanos]
            self.assertEqual([(entry["group"], entry["billed"], entry["direct"]) for entry in one["groups"]], nanos)
        whole = json.loads(self.do("report", "--dir", folder, "--tag", "team", *month, "--direct"))
        self.assertEqual((whole["by"], len(whole["periods"])), (None, 1))

    def test_no_warehouse(self):
        (self.top / "w").mkdir()
        self.fails(1, "S1 NoHouse", "report", "--dir", self.top / "w", "--tag", "a", "--from", "2024-01", "--to", "2024-02", "--direct")
        self.fails(2, "Q1 Range", "report", "--dir", self.top / "w", "--tag", "a", "--from", "1990-01", "--to", "1990-01", "--direct")


HEADER = "BilledCost,EffectiveCost,BillingCurrency,ChargeCategory,ChargePeriodStart,ChargePeriodEnd,SkuId,Tags"


def record(time, sku, tags=""):
    """A record of half an hour from a time on."""
    return f"1,1,USD,Usage,2024-{time}:00Z,2024-{time}:30Z,{sku},{tags}"


def commitment(name, *skus):
    listed = ", ".join(f'"{sku}"' for sku in skus)
    return (
        f'id = "{name}"\ncategory = "Usage"\nstart = "2024-01-01T00:00Z"\nhours = 24\ncapacity = "1"\nunit = "Hours"\nskus = [{listed}]\n'
        '[[purchase]]\nat = "2024-01-01T00:00Z"\nbilled = "1"\n'
    )


class Split(Case):
    """What `focusd split` writes."""

    def split(self, text, *words):
        """The parts of a text, by their names."""
        parts = self.top / f"parts-{len(list(self.top.iterdir()))}"
        self.do("split", "--out", parts, *words, "-", given=text if isinstance(text, bytes) else text.encode())
        return {path.name: path.read_bytes().decode() for path in parts.iterdir()}

    def test_records_stay_as_they_are(self):
        """Line feeds and commas in quotes, bytes behind the last record, a byte order mark, and other ends of lines."""
        tags = '"{""team"": ""a, b""}"'
        spread = '"{""team"":\n ""c""}"'
        lines = [HEADER, record("01-31T23", "a", tags), record("02-01T00", "", spread), record("01-31T22", "b")]
        for mark in ("", "\ufeff"):
            for end in ("\n", "\r\n", "\r"):
                for last in ("", end):
                    parts = self.split(mark + end.join(lines) + last, "--by", "month")
                    self.assertEqual(sorted(parts), ["2024-01.csv", "2024-02.csv"])
                    read = {name: list(csv.reader(io.StringIO(text, newline=""))) for name, text in parts.items()}
                    whole = list(csv.reader(io.StringIO(mark + end.join(lines), newline="")))
                    self.assertEqual([row for row in read["2024-01.csv"] if row], [whole[0], whole[1], whole[3]])
                    self.assertEqual([row for row in read["2024-02.csv"] if row], [whole[0], whole[2]])

    def test_a_last_quote_that_is_open(self):
        first = "\n".join([HEADER, record("01-01T00", "a", '"{""team"":""x""}')])
        second = "\n".join([HEADER, record("01-01T01", "b"), ""])
        names = (self.file("1.csv", first), self.file("2.csv", second))
        self.do("split", "--out", self.top / "p", *names)
        rows = list(csv.reader(io.StringIO((self.top / "p" / "2024-01-01.csv").read_text())))
        self.assertEqual([row[6:] for row in rows[1:]], [["a", '{"team":"x"}'], ["b", ""]])

    def test_names(self):
        text = "\n".join([HEADER, record("02-29T23", "a"), record("03-01T00", "a"), ""])
        self.assertEqual(sorted(self.split(text, "--by", "hour")), ["2024-02-29T23.csv", "2024-03-01T00.csv"])
        self.assertEqual(sorted(self.split(text)), ["2024-02-29.csv", "2024-03-01.csv"])
        self.assertEqual(sorted(self.split(text, "--by", "month")), ["2024-02.csv", "2024-03.csv"])
        self.assertEqual(sorted(self.split(text, "--by", "month", "--into", "2")), ["2024-02.1.csv", "2024-03.1.csv"])

    def test_skus_that_commitments_join(self):
        """c1 and c3 are joined by c2; c4 stands alone."""
        listed = (("c1", "a", "b"), ("c4", "x"), ("c3", "c", "d"), ("c2", "b", "c"))
        files = [self.file(f"{name}.toml", commitment(name, *skus)) for name, *skus in listed]
        given = [word for name in files for word in ("--commitments", name)]
        skus = ["a", "b", "c", "d", "x", "y", "z", "w", ""]
        lines = [record(f"01-01T{place % 24:02}", skus[place % len(skus)]) for place in range(180)]
        parts = self.split("\n".join([HEADER, *lines, ""]), "--into", "2", *given)
        self.assertEqual(sorted(parts), ["2024-01-01.1.csv", "2024-01-01.2.csv"])
        held = [{row[6] for row in list(csv.reader(io.StringIO(text)))[1:]} for _, text in sorted(parts.items())]
        self.assertLessEqual({"a", "b", "c", "d"}, held[0])
        self.assertIn("x", held[1])
        self.assertFalse({"a", "b", "c", "d"} & held[1])
        self.assertNotIn("x", held[0])
        counts = [len(text.split("\n")) - 2 for text in parts.values()]
        self.assertEqual((sum(counts), abs(counts[0] - counts[1]) <= 1), (180, True))
        listing = json.loads(self.do("split", "--into", "2", *given, "--format", "json", "--out", self.top / "l", "-", given="\n".join([HEADER, *lines]).encode()))
        piles = {commitment["id"]: commitment["pile"] for commitment in listing["commitments"]}
        self.assertEqual(piles, {"c1": 1, "c2": 1, "c3": 1, "c4": 2})
        for part in listing["files"]:
            self.assertEqual(part["bytes"], (self.top / "l" / part["file"]).stat().st_size)

    def test_many_parts_and_rows(self):
        """Ten times what waits to be written is never in memory at once; here it is the parts that are many."""
        lines = [record(f"{1 + place % 3:02}-{1 + place % 28:02}T{place % 24:02}", f"sku-{place % 7}") for place in range(20_000)]
        parts = self.split("\n".join([HEADER, *lines, ""]), "--by", "hour", "--quiet")
        found = collections.Counter()
        for name, text in parts.items():
            for line in text.split("\n")[1:-1]:
                self.assertEqual(line.split(",")[4][:13], name[:-4])
                found[line] += 1
        self.assertEqual(found, collections.Counter(lines))

    def test_faults_leave_no_parts(self):
        lines = [record("01-01T00", "a"), record("01-01T01", "a")]
        wrong = {
            "V1 Fields": b"1,1,USD",
            ": 9 fields; the header has 8: V1": record("01-01T00", "a").encode() + b",",
            'ChargePeriodStart: "yesterday": V7 Time': b"1,1,USD,Usage,yesterday,2024-01-01T00:30Z,a,",
            "ChargePeriodStart: \"\": V7 Time": b'1,1,USD,Usage,"",2024-01-01T00:30Z,a,',
            "V2 NotUtf8": b"1,1,USD,Usage,2024-01-01T00:00Z\xff,2024-01-01T00:30Z,a,",
        }
        for place, (what, line) in enumerate(wrong.items()):
            name = self.file(f"{place}.csv", b"\n".join([HEADER.encode(), *(line.encode() for line in lines), line, b""]))
            out = self.top / f"out-{place}"
            status, output, error = self.focusd("split", "--out", out, name)
            self.assertEqual((status, output), (1, b""), what)
            self.assertIn(f"{name}:4: record 3", error)
            self.assertIn(what, error)
            self.assertEqual(list(out.iterdir()), [])
        for header, what in ((HEADER.replace("BilledCost", "Cost"), "H1 MissingColumn"), (HEADER + ",Tags", "H2 DoubleColumn")):
            self.fails(1, what, "split", "--out", self.top / "h", "-", given="\n".join([header, *lines]).encode())
        for text in (HEADER, HEADER + "\n", HEADER + "\n\n"):
            self.fails(1, "V14 NoRows", "split", "--out", self.top / "h", "-", given=text.encode())

    def test_other_faults_are_left_to_the_import(self):
        """A record is read as far as it is dealt by, and stays as it is: the import of its part finds its fault."""
        wrong = [
            "1,1,USD,Usage,2024-01-01T00:00Z,2023-01-01T00:00Z,a,",
            record("01-02T00", "a").replace("1,1,USD", "x,1,USD"),
            record("01-03T00", "a").replace("USD", "EUR"),
            record("01-04T00", "a", "{"),
        ]
        for place, end in enumerate(("\n", "\r\n")):
            parts = self.split(end.join([HEADER, *wrong, ""]))
            self.assertEqual(len(parts), len(wrong))
            for line, (name, part) in zip(wrong, sorted(parts.items())):
                self.assertEqual(part.split(), [HEADER, line])
                path = self.file(name, part.encode())
                self.fails(1, f"{path}:2: record 1", "import", "--dir", self.top / f"{place}-{name}", "--create", "--origin", "a", path)

    def test_fields_that_records_are_dealt_by(self):
        """Quoted, with pairs of quotes, behind fields with commas and line ends, in another order of columns."""
        header = "Tags,SkuId,ChargePeriodStart,BilledCost,EffectiveCost,BillingCurrency,ChargeCategory,ChargePeriodEnd"
        given = ["--commitments", self.file("c.toml", commitment("c", "a,b", "x")), "--commitments", self.file("d.toml", commitment("d", "y"))]
        rest = "1,1,USD,Usage,2024-01-01T01:00Z"
        lines = [
            f'"{{""a"": ""1,2\n3""}}","a,b","2024-01-01T00:00Z",{rest}', f',y,2024-01-01T00:00Z,{rest}', f'"",x,"2024-01-""01T00:00Z",{rest}',
            f'"{{}}",  ,2024-01-01T00:00:00+00:00,{rest}',
        ]  # fmt: skip
        good = [lines[0], lines[1], lines[3]]
        parts = self.split("\n".join([header, *good, ""]), "--into", "2", *given)
        self.assertEqual(parts, {"2024-01-01.1.csv": "\n".join([header, good[0], good[2], ""]), "2024-01-01.2.csv": "\n".join([header, good[1], ""])})
        self.fails(1, "q.csv:5: record 3, ChargePeriodStart", "split", "--out", self.top / "p", self.file("q.csv", "\n".join([header, *lines, ""])))

    def test_files_that_are_there(self):
        text = "\n".join([HEADER, record("01-01T00", "a"), record("01-02T00", "a"), ""]).encode()
        out = self.top / "out"
        out.mkdir()
        (out / "2024-01-02.csv").write_text("mine")
        (out / "2024-01-01.csv.part").write_text("what a killed run left")
        self.fails(1, "W7 Exists", "split", "--out", out, "-", given=text)
        self.assertEqual((out / "2024-01-02.csv").read_text(), "mine")
        self.assertEqual(sorted(path.name for path in out.iterdir() if path.suffix == ".csv"), ["2024-01-02.csv"])
        (out / "2024-01-02.csv").unlink()
        self.assertEqual(self.do("split", "--out", out, "-", given=text), b"split 2 rows into 2 files\n")
        self.assertEqual(sorted(path.name for path in out.iterdir()), ["2024-01-01.csv", "2024-01-02.csv"])

    def test_headers_that_differ(self):
        one = self.file("1.csv", "\n".join([HEADER, record("01-01T00", "a"), ""]))
        two = self.file("2.csv", "\n".join([HEADER + ",Region", record("01-01T00", "a") + ",eu", ""]))
        self.fails(1, "W8 OtherHeader", "split", "--out", self.top / "p", one, two)
        self.assertEqual(list((self.top / "p").iterdir()), [])

    def test_a_folder_that_cannot_be_made(self):
        self.fails(1, "W10 NotWritten", "split", "--out", self.top / "a" / "b", "-", given=b"")

    def test_options(self):
        for into in ("0", "-1", "1001", "x"):
            status, _, error = self.focusd("split", f"--into={into}", "--out", self.top / "p", "-")
            self.assertEqual((status, "--into" in error), (2, True), into)
        self.fails(2, "--out", "split", "-")
        self.fails(2, "--currency", "split", "--currency", "usd", "--out", self.top / "p", "-")
        policy = self.file("p.toml", 'key = "a"\n')
        self.fails(1, "W9 OtherKind", "split", "--commitments", policy, "--out", self.top / "p", "-")
        self.assertFalse((self.top / "p").exists())


if __name__ == "__main__":
    run_tests(__doc__)
