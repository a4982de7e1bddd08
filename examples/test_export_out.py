#!/usr/bin/env python3
"""Runs `focusd export` of a built program, and compares what it writes with what another program computed.

    examples/test_export_out.py out/focusd
    examples/test_export_out.py out/focusd Rows.test_rows_by_chance

The rows that the lines are exported as come from expected.py. Exported rows are also imported into a warehouse of their own, and summed
by SQLite, in whole nanos.
"""
import csv
import datetime
import decimal
import io
import json
import os
import random
import sqlite3
import subprocess

import expected
import program_tests
from program_tests import HERE, focusd, program, run_tests

COLUMNS = [
    "BilledCost", "EffectiveCost", "BillingCurrency", "ChargeCategory", "ChargePeriodStart", "ChargePeriodEnd", "ChargeClass", "CommitmentDiscountId",
    "CommitmentDiscountCategory", "CommitmentDiscountStatus", "ConsumedQuantity", "ConsumedUnit", "SkuId", "SubAccountId", "Tags",
]  # fmt: skip
AMOUNTS = ("BilledCost", "EffectiveCost", "ConsumedQuantity")
TIMES = ("ChargePeriodStart", "ChargePeriodEnd")
LOW, HIGH = "2024-01-01T00:00Z", "2024-01-01T06:00Z"
SIX_HOURS = ("--from", "2024-01-01", "--to", "2024-01-01T06:00Z")


def nanos(text):
    """An amount that has nine digits after the point, in nanos."""
    amount = decimal.Decimal(text)
    assert -amount.as_tuple().exponent == 9, text
    return int(amount.scaleb(9))


def second(text):
    """The second since 1970 of an instant."""
    return int(datetime.datetime.strptime(text, "%Y-%m-%dT%H:%M:%SZ").replace(tzinfo=datetime.timezone.utc).timestamp())


def read_cell(column, text):
    """What a cell says, as expected.py has it."""
    if text is None:
        return None
    if column in AMOUNTS:
        return nanos(text)
    return second(text) if column in TIMES else text


def rows_of_csv(text):
    """The rows of a CSV, each by column; what is null is None."""
    header, *records = csv.reader(io.StringIO(text, newline=""))
    assert header == COLUMNS, header
    assert all(len(record) == len(COLUMNS) for record in records)
    return [{c: json.loads(t) if c == "Tags" else read_cell(c, t or None) for c, t in zip(COLUMNS, record)} for record in records]


def rows_of_json(text):
    """The rows of JSON lines, each by column."""
    rows = [json.loads(line) for line in text.splitlines()]
    assert all(list(row) == COLUMNS for row in rows)
    return [{c: it if c == "Tags" else read_cell(c, it) for c, it in row.items()} for row in rows]


def records_of_chance(rng, count):
    """Records of rows of some hours: uses that commitments may cover, and all that they may not."""
    for _ in range(count):
        hour = rng.randrange(6)
        start, end = (f"2024-01-01T{it:02}:00Z" for it in (hour, hour + 1))
        row = dict.fromkeys(COLUMNS, "")
        row |= {"BillingCurrency": "USD", "ChargeCategory": "Usage", "ChargePeriodStart": start, "ChargePeriodEnd": end}
        row["BilledCost"] = row["EffectiveCost"] = expected.spelled(rng.randrange(10**11))
        row |= {"SkuId": rng.choice(["vm", "db", "x,y"]), "ConsumedQuantity": expected.spelled(rng.randrange(1, 4 * 10**9)), "ConsumedUnit": rng.choice(["Hours", "GB"])}
        row["SubAccountId"] = rng.choice(["a1", "a2", ""])
        tags = {"team": rng.choice(["web", 'the "data"\nteam', "", "größer"]), "env": "prod"}
        row["Tags"] = json.dumps(dict(rng.sample(sorted(tags.items()), rng.randrange(3))))
        kind = rng.randrange(8)
        if kind == 0:
            row |= {"ChargeCategory": "Credit", "BilledCost": "-1.5", "EffectiveCost": "-1.5", "ConsumedQuantity": "", "ConsumedUnit": "", "SkuId": ""}
        elif kind == 1:
            row |= {"ChargeClass": "Correction"}
        elif kind == 2:
            row |= {"ChargePeriodStart": f"2024-01-01T{hour:02}:59:59Z", "ChargePeriodEnd": "2024-02-01T00:00Z"}
        elif kind == 3:
            row |= {"CommitmentDiscountId": "plan", "CommitmentDiscountCategory": "Spend", "CommitmentDiscountStatus": "Used", "BilledCost": "0"}
        yield [row[c] for c in COLUMNS]


def commitments_of_chance(rng):
    """Some commitments, to quantities and to costs, which overlap."""
    for number in range(rng.randrange(4)):
        start = rng.randrange(6)
        terms = (
            f'category = "Usage"\nunit = "Hours"\nskus = ["vm", "x,y"]\ncapacity = "{rng.choice(["0.7", "2.5", "100"])}"\n'
            if rng.randrange(2)
            else f'category = "Spend"\nrates = {{ vm = {rng.randrange(1, 10**6)}, db = 500000 }}\ncapacity = "{rng.choice(["3", "70.5"])}"\n'
        )
        account = rng.choice(["", 'sub_account = "a9"\n'])
        yield (
            f'id = "c{number}"\nstart = "2024-01-01T{start:02}:00Z"\nhours = {rng.randrange(1, 5)}\n{terms}{account}[tags]\nteam = "platform"\n'
            f'[[purchase]]\nat = "2024-01-01T{start:02}:20Z"\nbilled = "{rng.randrange(1, 1000)}.000000007"\n'
        )


class Case(program_tests.Case):
    """A folder of its own for each test, and in it one for a warehouse."""

    def setUp(self):
        super().setUp()
        self.house = self.new_folder("house")

    def warehouse_of_chance(self, seed):
        """A warehouse made by chance, and what expected.py keeps of it."""
        rng = random.Random(seed)
        kept = expected.Warehouse()
        text = io.StringIO(newline="")
        csv.writer(text, lineterminator="\n").writerows([COLUMNS, *records_of_chance(rng, rng.randrange(1, 60))])
        export = text.getvalue().encode()
        self.do("import", "--dir", self.house, "--create", "--origin", "rows", "--quiet", self.file("rows.csv", export))
        kept.import_export("rows", export)
        for number, toml in enumerate(commitments_of_chance(rng), 1):
            self.do("add", "--dir", self.house, "--origin", "ops", self.file("c.toml", toml))
            self.assertIn("accepted", kept.enter("ops", str(number), kept.commit, toml.encode()))
        return kept

    def exported(self, kept, low=LOW, high=HIGH):
        """The rows that have to be exported of a range."""
        return [kept.exported(line) for line in kept.lines_between(low, high)]


class Rows(Case):
    def test_rows_by_chance(self):
        kinds = set()
        for seed in range(12):
            with self.subTest(seed=seed):
                self.house = self.new_folder(f"house-{seed}")
                kept = self.warehouse_of_chance(seed)
                wanted = self.exported(kept)
                kinds |= {(row["ChargeCategory"], row["CommitmentDiscountStatus"], row["ChargeClass"]) for row in wanted}
                as_csv = self.do("export", "--dir", self.house, *SIX_HOURS)
                self.assertEqual(rows_of_csv(as_csv), wanted)
                as_json = self.do("export", "--dir", self.house, *SIX_HOURS, "--format", "jsonl")
                self.assertEqual(rows_of_json(as_json), wanted)
                # Hour by hour the same rows come.
                hours = [f"2024-01-01T{hour:02}:00Z" for hour in range(7)]
                parts = [self.do("export", "--dir", self.house, "--from", low, "--to", high, "--format", "jsonl") for low, high in zip(hours, hours[1:])]
                self.assertEqual("".join(parts), as_json)
        # Purchases, what was used and unused, corrections, and what is left of rows.
        for kind in (("Purchase", None, None), ("Usage", "Used", None), ("Usage", "Unused", None), ("Usage", None, "Correction"), ("Usage", None, None)):
            self.assertIn(kind, kinds)

    def test_the_examples(self):
        for name, low, high in (("commitments", "2023-12-30T00:00Z", "2024-02-01T00:00Z"), ("providers", "2024-09-01T00:00Z", "2024-11-01T00:00Z")):
            script = (HERE / f"{name}.script").read_bytes()
            house = self.new_folder(name)
            focusd("run", "--dir", house, "--create", given=script)
            kept = expected.Warehouse()
            list(expected.answers(iter(io.BytesIO(script).readline, b""), kept))
            wanted = self.exported(kept, low, high)
            self.assertGreater(len(wanted), 3)
            self.assertEqual(rows_of_csv(self.do("export", "--dir", house, "--from", low, "--to", high)), wanted)

    def test_the_bytes(self):
        # What is null is an empty field, and a field is in quotes where it has to be. All was written by hand.
        header = "BilledCost,EffectiveCost,BillingCurrency,ChargeCategory,ChargePeriodStart,ChargePeriodEnd,SkuId,Tags\n"
        record = '1.5,-2,EUR,Tax,2024-01-01T00:00:01Z,2024-01-01T00:00:02Z,"a,""b""","{""b"":""x\\ny"",""a"":null}"\n'
        self.do("import", "--dir", self.house, "--create", "--currency", "EUR", "--origin", "a", "--quiet", self.file("a.csv", header + record))
        self.assertEqual(
            self.do("export", "--dir", self.house, *SIX_HOURS),
            ",".join(COLUMNS)
            + "\n1.500000000,-2.000000000,EUR,Tax,2024-01-01T00:00:01Z,2024-01-01T00:00:02Z,,,,,,,"
            + '"a,""b""",,"{""a"":"""",""b"":""x\\ny""}"\n',
        )
        self.assertEqual(
            self.do("export", "--dir", self.house, *SIX_HOURS, "--format", "jsonl"),
            '{"BilledCost":"1.500000000","EffectiveCost":"-2.000000000","BillingCurrency":"EUR","ChargeCategory":"Tax",'
            '"ChargePeriodStart":"2024-01-01T00:00:01Z","ChargePeriodEnd":"2024-01-01T00:00:02Z","ChargeClass":null,'
            '"CommitmentDiscountId":null,"CommitmentDiscountCategory":null,"CommitmentDiscountStatus":null,"ConsumedQuantity":null,'
            '"ConsumedUnit":null,"SkuId":"a,\\"b\\"","SubAccountId":null,"Tags":{"a":"","b":"x\\ny"}}\n',
        )


class Sums(Case):
    def test_a_round_trip(self):
        """Exported rows, imported into a warehouse that has nothing else, cost by each tag and by each column what they cost where they come from."""
        for seed in range(6):
            with self.subTest(seed=seed):
                self.house = self.new_folder(f"house-{seed}")
                self.warehouse_of_chance(seed)
                exported = self.file("exported.csv", self.do("export", "--dir", self.house, *SIX_HOURS))
                again = self.new_folder(f"again-{seed}")
                self.do("import", "--dir", again, "--create", "--origin", "x", "--quiet", exported)
                columns = [("--column", it) for it in ("SkuId", "SubAccountId", "ChargeCategory", "CommitmentDiscountId", "CommitmentDiscountStatus")]
                for keys in *(("--tag", it) for it in ("team", "env", "nothing")), *columns, ("--tag", "team", "--tag", "env", *columns[0], *columns[3]):
                    reports = [focusd("report", "--dir", it, *keys, *SIX_HOURS, "--format", "csv")[1] for it in (self.house, again)]
                    self.assertGreater(len(reports[0].splitlines()), 1)
                    self.assertEqual(*reports)

    def test_sums_of_sqlite(self):
        """SQLite sums the nanos of exported rows by a tag to what the report says."""
        for seed in range(6):
            with self.subTest(seed=seed):
                self.house = self.new_folder(f"house-{seed}")
                kept = self.warehouse_of_chance(seed)
                base = sqlite3.connect(":memory:")
                base.execute(f"create table rows ({', '.join(f'{c} text' for c in COLUMNS)})")
                records = csv.reader(io.StringIO(self.do("export", "--dir", self.house, *SIX_HOURS), newline=""))
                next(records)
                base.executemany(f"insert into rows values ({', '.join('?' * len(COLUMNS))})", records)
                count = "cast(replace({}, '.', '') as integer)"
                found = base.execute(
                    f"select coalesce(json_extract(Tags, '$.team'), '') as team, sum({count.format('BilledCost')}), sum({count.format('EffectiveCost')}) "
                    "from rows group by team order by cast(team as blob)"
                ).fetchall()
                base.close()
                report = csv.reader(io.StringIO(kept.report("team", LOW, HIGH).partition("\n")[2], newline=""))
                next(report)
                self.assertEqual(found, [(group, nanos(billed), nanos(effective)) for group, billed, effective, _ in report])


class Streams(Case):
    def test_ranges(self):
        header = "BilledCost,EffectiveCost,BillingCurrency,ChargeCategory,ChargePeriodStart,ChargePeriodEnd\n"
        rows = "".join(f"{day},0,USD,Tax,2024-01-{day:02}T00:00Z,2024-01-{day:02}T01:00Z\n" for day in (3, 5))
        self.do("import", "--dir", self.house, "--create", "--origin", "a", "--quiet", self.file("a.csv", header + rows))
        for options, costs, said in (
            ([], [3, 5], "from 2024-01-03T00:00Z to 2024-01-05T01:00Z\n"),
            (["--last", "1", "days"], [5], "from 2024-01-05T00:00Z to 2024-01-06T00:00Z\n"),
            (["--from", "2024-01-04"], [5], "from 2024-01-04T00:00Z to 2024-01-05T01:00Z\n"),
            (["--month", "2024-01"], [3, 5], ""),
            (["--month", "2024-02"], [], ""),
        ):
            with self.subTest(options=options):
                status, output, error = focusd("export", "--dir", self.house, *options)
                self.assertEqual((status, error), (0, said))
                self.assertEqual([row["BilledCost"] for row in rows_of_csv(output)], [cost * 10**9 for cost in costs])
        # No range.
        for options in (["--from", "2024-01-02", "--to", "2024-01-01"], ["--from", "2020-01", "--to", "2024-01"], ["--from", "2024-02"]):
            status, output, error = focusd("export", "--dir", self.house, *options)
            self.assertEqual((status, output), (2, ""), options)
            self.assertIn("focusd: Q1 Range: ", error)
        for options in (["--month", "2024-13"], ["--from", "x"], ["--format", "xml"], ["--last", "0", "days"]):
            status, output, error = focusd("export", "--dir", self.house, *options)
            self.assertEqual((status, output), (2, ""), options)

    def test_no_rows(self):
        self.do("run", "--dir", self.house, "--create")
        status, output, error = focusd("export", "--dir", self.house)
        self.assertEqual((status, output), (1, ""))
        self.assertIn("the warehouse has no row that counts", error)
        self.assertEqual(self.do("export", "--dir", self.house, *SIX_HOURS), ",".join(COLUMNS) + "\n")
        self.assertEqual(self.do("export", "--dir", self.house, *SIX_HOURS, "--format", "jsonl"), "")
        status, output, error = focusd("export", "--dir", self.new_folder("empty"))
        self.assertEqual((status, output), (1, ""))
        self.assertIn("S1 NoHouse", error)

    def test_standard_output(self):
        self.warehouse_of_chance(1)
        words = [program(), "export", "--dir", str(self.house), *SIX_HOURS]
        read, write = os.pipe()
        os.close(read)
        ran = subprocess.run(words, stdout=write, stderr=subprocess.PIPE)
        os.close(write)
        self.assertEqual((ran.returncode, ran.stderr), (0, b""))
        with open("/dev/full", "wb") as output:
            ran = subprocess.run(words, stdout=output, stderr=subprocess.PIPE)
        self.assertEqual(ran.returncode, 1)
        self.assertIn(b"focusd: F2 Write", ran.stderr)


if __name__ == "__main__":
    run_tests(__doc__)
