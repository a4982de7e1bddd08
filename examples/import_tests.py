"""What the tests of imports share: exports by chance, their rows, and warehouses into which they are imported."""

import collections
import csv
import decimal
import io
import json

import expected
import program_tests

READ = expected.REQUIRED + expected.OPTIONAL
OTHERS = ["ServiceName", "RegionId", "x_Cost Centre", "größe"]
VALUES = ["", "", "web", 'the "data", all of it', "größer", "two\nlines", "a\\b", "{}", "null", "東京"]
MONTH = ("--from", "2024-09", "--to", "2024-10")


def header_of_chance(rng, others, tagless):
    """A header with so many columns that aren't read, in any order; one in so many has no tags."""
    header = [*READ, *OTHERS[:others]]
    if rng.randrange(tagless) == 0:
        header.remove("Tags")
    rng.shuffle(header)
    return header


def export_of_chance(rng, count, header):
    """An export of some records under a header."""
    records = []
    for _ in range(count):
        hour = rng.randrange(48)
        start, end = (f"2024-09-{it // 24 + 1:02}T{it % 24:02}:00Z" for it in (hour, hour + 1))
        row = dict.fromkeys(header, "")
        row |= {"BillingCurrency": "USD", "ChargeCategory": rng.choice(["Usage", "Tax", "Credit"]), "ChargePeriodStart": start, "ChargePeriodEnd": end}
        row |= {"BilledCost": expected.spelled(rng.randrange(10**11)), "EffectiveCost": expected.spelled(rng.randrange(10**11))}
        tags = {"team": rng.choice(["web", 'the "data"\nteam', "", "größer"]), "env": rng.choice(["prod", True, False, None]), "zone": "z"}
        tags = dict(rng.sample(sorted(tags.items()), rng.randrange(4)))
        row |= {"Tags": rng.choice(["", "{}"]) if not tags else json.dumps(tags, ensure_ascii=rng.random() < 0.5, indent=rng.choice([None, 1]))}
        row |= {"SkuId": rng.choice(["vm", "db", "x,y", ""]), "SubAccountId": rng.choice(["a1", "a2", ""])}
        row |= {column: rng.choice(VALUES) for column in OTHERS if column in header}
        records.append([row[column] for column in header])
    return expected.csv_of(header, records)


def row_of(billed, effective, start, tags):
    """A row, as rows are compared: amounts as numbers, the hour without its seconds, tags in order."""
    return decimal.Decimal(billed), decimal.Decimal(effective), start[:13], tuple(sorted(expected.tags_of(tags).items()))


def rows_of(text):
    """How often each row stands in an export."""
    header, records = expected.records_of(text)
    rows = (dict(zip(header, fields)) for fields in records)
    return collections.Counter(row_of(row["BilledCost"], row["EffectiveCost"], row["ChargePeriodStart"], row["Tags"]) for row in rows)


class Case(program_tests.Case):
    """A folder for exports and warehouses."""

    def house(self, name, *words, keeps=()):
        """What an import into a warehouse, which is made, printed."""
        (self.top / name).mkdir(exist_ok=True)
        kept = [word for keep in keeps for word in ("--keep", keep)]
        return self.focusd("import", "--dir", name, "--create", "--origin", "aws", "--quiet", *kept, *words)

    def check_runs(self, count):
        """Checks so many runs by chance, each by the seed of its number."""
        for seed in range(count):
            with self.subTest(seed=seed):
                self.check_run(seed)

    def digest(self, name):
        status, printed, said = self.focusd("verify", "--dir", name, "--digest")
        self.assertEqual((status, said), (0, ""))
        return printed

    def exported(self, name):
        """How often each row of a warehouse stands there: its costs, its hour and its tags."""
        status, printed, said = self.focusd("export", "--dir", name, *MONTH)
        self.assertEqual(status, 0, said)
        rows = csv.DictReader(io.StringIO(printed, newline=""))
        return collections.Counter(row_of(row["BilledCost"], row["EffectiveCost"], row["ChargePeriodStart"], row["Tags"]) for row in rows)

    def report(self, name, key):
        """The billed cost of each group of a report by a tag."""
        status, printed, said = self.focusd("report", "--dir", name, "--tag", key, "--format", "csv", *MONTH)
        self.assertEqual(status, 0, said)
        rows = list(csv.reader(io.StringIO(printed, newline="")))
        at = rows[0].index("BilledCost")
        return {row[0]: decimal.Decimal(row[at]) for row in rows[1:] if row[0] != "TOTAL"}
