#!/usr/bin/env python3
"""Runs `focusd report --sum` of a built program, and compares each sum with the plain Python of expected.py, to the nano.

    examples/test_sums.py out/focusd
    examples/test_sums.py out/focusd --runs 2000     more random warehouses
    examples/test_sums.py out/focusd --seed 7        others

Each warehouse is made by chance, as those of test_commitments.py: of its rows some have an amount in the tag ListCost, some a text that is none,
and some no such tag; own commitments take parts of rows, and whole ones. It is asked by tags, by columns and without groups, under filters and
maps, of the whole range and by period, of all groups and of the largest, as CSV, as JSON and as a table.
"""
import csv
import io
import json
import pathlib
import random
import tempfile
import unittest
from collections import defaultdict

import expected
from as_reported import cents, time_of
from program_tests import run_tests
from program_tests import focusd_bytes as focusd
from test_commitments import HEADER, HIGH, HOURS, LOW, Chance, House

RUNS, SEED = 150, 1
KEYS = [expected.Key(name) for name in ("team", "ListCost", "nobody")] + [
    expected.Key(name, True) for name in ("SkuId", "SubAccountId", "ChargeCategory", "CommitmentDiscountId", "CommitmentDiscountStatus")
]
MAP = '[[map]]\nkey = "team"\nfold = true\nempty = "none"\nvalues = { web = "shop" }\n[[map]]\nkey = "SkuId"\nvalues = { b = "a" }\n'
LEFT_OUT = "ChargedCost is left out: a policy shares the costs of all lines, by one tag\n"
NO_POLICY = "ChargedCost is left out: a report with --sum has no policy\n"


def order(group):
    return [text.encode() for text in group]


def words_of(keys, where, where_not):
    words = [word for key in keys for word in ("--column" if key.is_column else "--tag", key.name)]
    for option, pairs in (("--where", where), ("--where-not", where_not)):
        words += [word for key, value in pairs for word in (option, f"{key.name}={value}")]
    return words or ["--total-only"]


class Asked:
    """A question by chance, and what is known of its answer."""

    def __init__(self, house, dice):
        self.house, self.dice = house, dice
        self.keys = sorted(dice.sample(KEYS, dice.choice([0, 1, 1, 1, 2, 3])), key=lambda key: key.is_column)
        lines = list(house.kept.lines_between(LOW, HIGH))
        self.where, self.where_not = [], []
        for pairs in (self.where, self.where_not):
            if lines and dice.random() < 0.3:
                key = dice.choice(KEYS)
                pairs.append((key, key.of(dice.choice(lines))))
        self.maps = MAP if dice.random() < 0.3 else None
        self.tag = dice.choice(["ListCost", "ListCost", "ListCost", "team", "absent"])
        self.low = dice.randrange(HOURS)
        self.high = dice.randrange(self.low + 1, HOURS + 1)
        if dice.random() < 0.6:
            self.low, self.high = 0, HOURS
        first = house.kept.times.hour(LOW)
        self.from_, self.to = first + self.low, first + self.high
        self.step = dice.choice([None, None, "day", "hour"])
        self.top = dice.choice([None, None, 1, 2, 5]) if self.keys else None

    def selection(self):
        # The oracle's selections have a key. Where none is asked for, the groups of one are added.
        return expected.Selection(self.keys or [expected.Key("team")], self.where, self.where_not, expected.maps_of(self.maps.encode()) if self.maps else ())

    def groups(self, low, high):
        """What each group has in these hours: both costs and the sum; and how many rows have no amount."""
        low, high = time_of(low), time_of(high)
        selection = self.selection()
        groups = defaultdict(lambda: (0, 0, 0))
        for group, (billed, effective) in selection.sums(self.house.kept.lines_between(low, high)).items():
            groups[group] = billed, effective, 0
        amounts, missing = self.house.kept.amounts(selection, self.tag, low, high)
        for group, amount in amounts.items():
            groups[group] = (*groups[group][:2], amount)
        return dict(groups), missing

    def periods(self):
        if self.step is None:
            return [(self.from_, self.to)]
        long = 24 if self.step == "day" else 1
        first, periods = self.from_, []
        while first < self.to:
            end = min(self.to, (first // long + 1) * long)
            periods.append((first, end))
            first = end
        return periods

    def chosen(self, whole):
        if self.top is None:
            return set(whole)
        return set(sorted(whole, key=lambda group: (-whole[group][1], order(group)))[: self.top])

    def rows(self, groups, chosen):
        """The rows of a part: of each group that is chosen, in their order, and of all others."""
        if not self.keys:
            return [("group", (), total(groups.values()))]
        rows = [("group", group, groups[group]) for group in sorted(groups, key=order) if group in chosen]
        others = [groups[group] for group in groups if group not in chosen]
        return rows + ([("others", ("(others)",) * len(self.keys), total(others))] if others else [])

    def words(self, map_file):
        words = [*words_of(self.keys, [], [])]
        filters = words_of([], self.where, self.where_not)
        words += filters if filters != ["--total-only"] else []
        if self.maps:
            map_file.write_text(self.maps)
            words += ["--map", str(map_file)]
        words += ["--sum", self.tag, "--from", time_of(self.from_), "--to", time_of(self.to)]
        return words + (["--by", self.step] if self.step else []) + (["--top", str(self.top)] if self.top else [])


def total(rows):
    rows = list(rows)
    return tuple(sum(row[at] for row in rows) for at in range(3))


class Sums(unittest.TestCase):
    maxDiff = None

    def setUp(self):
        made = tempfile.TemporaryDirectory()
        self.addCleanup(made.cleanup)
        self.room = pathlib.Path(made.name)

    def ask(self, folder, *words):
        status, output, error = focusd("report", "--dir", str(folder), *words)
        self.assertEqual(status, 0, (words, error))
        return output.decode(), error

    def test_random_warehouses(self):
        for seed in range(SEED, SEED + RUNS):
            house = House(self.room / f"w{seed}", Chance(seed).script())
            dice = random.Random(-seed)
            for number in range(4):
                asked = Asked(house, dice)
                words = asked.words(self.room / "maps.toml")
                with self.subTest(seed=seed, number=number, words=words):
                    self.check(house, asked, words)

    def check(self, house, asked, words):
        whole, missing = asked.groups(asked.from_, asked.to)
        chosen = asked.chosen(whole)
        parts = [(low, high, asked.groups(low, high)[0]) for low, high in asked.periods()]
        text, error = self.ask(house.folder, *words, "--format", "csv")
        self.check_csv(text, asked, parts, chosen)
        self.check_error(error, asked, missing)
        found = json.loads(self.ask(house.folder, *words, "--format", "json")[0])
        self.check_object(found, asked, whole, chosen)
        if asked.step:
            self.assertEqual(len(found["periods"]), len(parts))
            for one, (_, _, groups) in zip(found["periods"], parts):
                self.check_object(one, asked, groups, chosen)
        self.check_table(self.ask(house.folder, *words)[0], asked, whole, parts, chosen)

    def check_csv(self, text, asked, parts, chosen):
        in_front = asked.step is not None or asked.top is not None
        header = [*["From", "To", "Kind"] * in_front, *(key.name for key in asked.keys), "BilledCost", "EffectiveCost", asked.tag]
        rows = [
            [*[time_of(low), time_of(high), kind] * in_front, *group, *map(expected.spelled, sums)]
            for low, high, groups in parts for kind, group, sums in asked.rows(groups, chosen)
        ]  # fmt: skip
        self.assertEqual(list(csv.reader(io.StringIO(text))), [header, *rows])

    def check_object(self, found, asked, groups, chosen):
        """The groups and the total of an object of JSON."""
        rows = asked.rows(groups, chosen) if asked.keys else []
        names = [key.name for key in asked.keys]
        wanted = [{"keys": dict(zip(names, group)), "kind": kind, **self.members(asked, sums)} for kind, group, sums in rows]
        self.assertEqual(found["groups"], wanted)
        self.assertEqual(found["total"], self.members(asked, total(groups.values())))

    def members(self, asked, sums):
        billed, effective, amount = map(expected.spelled, sums)
        return {"billed": billed, "effective": effective, "sums": {asked.tag: amount}}

    def check_table(self, text, asked, whole, parts, chosen):
        """The last column of a table, in cents: of each row, and of the total."""
        lines = text.splitlines()
        self.assertEqual(lines[0].split()[-1], asked.tag)
        sums = [amount for _, _, groups in parts for _, _, (_, _, amount) in asked.rows(groups, chosen)]
        if asked.keys or asked.step:
            sums.append(total(whole.values())[2])
        shown = [line.split()[-1] for line in lines[1:] if set(line) - set("- ")]
        self.assertEqual(shown, [cents(amount) for amount in sums])

    def check_error(self, error, asked, missing):
        lines = error.splitlines(keepends=True)
        one_tag = len(asked.keys) == 1 and not (asked.keys[0].is_column or asked.where or asked.where_not or asked.maps)
        self.assertEqual(lines[-1], NO_POLICY if one_tag else LEFT_OUT)
        said = [line for line in lines if "no amount in the tag" in line]
        rows = "1 row has" if missing == 1 else f"{missing} rows have"
        self.assertEqual(said, [f"{rows} no amount in the tag {asked.tag}\n"] if missing else [])

    def by_hand(self, *more):
        """A warehouse of six rows whose ListCost was kept, and perhaps of a commitment."""
        header = HEADER.replace(",Tags", ",Tags,ListCost")
        web, shop = '"{""team"": ""web""}"', '"{""team"": ""shop""}"'
        hour = "2024-01-31T00:00Z,2024-01-31T01:00Z"
        rows = [
            (f"1,3.25,USD,Usage,{hour},,,,1,Hours,a,one,{web}", "4.0000000005"),  # rounds to the even nano
            (f"2,1,USD,Usage,{hour},,,,1,Hours,a,one,{web}", "1.5E0"),
            (f"0,2,USD,Usage,{hour},plan,Spend,Used,1,Hours,b,one,{shop}", ""),  # no tag
            (f"3,3,USD,Tax,{hour},,,,,,,one,{shop}", "$2"),  # no amount
            (f"1,1,USD,Credit,{hour},,,,,,,one,{shop}", "-0.25"),
            (f"5,5,USD,Usage,2024-02-01T00:00Z,2024-02-01T01:00Z,,,,1,Hours,a,one,", "9"),
        ]
        file = self.room / "kept.csv"
        file.write_text(header + "".join(f"{row},{price}\n" for row, price in rows))
        folder = self.room / "kept"
        status, _, error = focusd("import", "--quiet", "--create", "--dir", str(folder), "--origin", "kept", "--keep", "ListCost", str(file))
        self.assertEqual(status, 0, error)
        for number, text in enumerate(more):
            commitment = self.room / f"{number}.toml"
            commitment.write_text(text)
            status, _, error = focusd("add", "--yes", "--dir", str(folder), "--origin", "own", str(commitment))
            self.assertEqual(status, 0, error)
        return folder

    def test_by_hand(self):
        folder = self.by_hand()
        text, error = self.ask(folder, "--tag", "team", "--sum", "ListCost", "--format", "csv")
        self.assertEqual(
            text.splitlines(),
            [
                "team,BilledCost,EffectiveCost,ListCost",
                ",5.000000000,5.000000000,9.000000000",
                "shop,4.000000000,6.000000000,-0.250000000",
                "web,3.000000000,4.250000000,5.500000000",
            ],
        )
        self.assertEqual(error.splitlines()[1:], ["2 rows have no amount in the tag ListCost", NO_POLICY.strip()])
        self.assertEqual(
            [line.rstrip() for line in self.ask(folder, "--tag", "team", "--sum", "ListCost")[0].splitlines()],
            [
                "team        BilledCost  EffectiveCost   Share  ListCost",
                "----------  ----------  -------------  ------  --------",
                "(untagged)        5.00           5.00   32.8%      9.00",
                "shop              4.00           6.00   39.3%     -0.25",
                "web               3.00           4.25   27.9%      5.50",
                "----------  ----------  -------------  ------  --------",
                "Total            12.00          15.25  100.0%     14.25",
            ],
        )
        self.assertEqual(self.ask(folder, "--total-only", "--sum", "ListCost")[0].split()[-3:], ["12.00", "15.25", "14.25"])
        text = self.ask(folder, "--tag", "team", "--sum", "ListCost", "--by", "day", "--top", "1", "--format", "csv")[0]
        days = "2024-01-31T00:00Z,2024-02-01T00:00Z", "2024-02-01T00:00Z,2024-02-01T01:00Z"
        self.assertEqual(
            text.splitlines(),
            [
                "From,To,Kind,team,BilledCost,EffectiveCost,ListCost",
                f"{days[0]},group,shop,4.000000000,6.000000000,-0.250000000",
                f"{days[0]},others,(others),3.000000000,4.250000000,5.500000000",
                f"{days[1]},others,(others),5.000000000,5.000000000,9.000000000",
            ],
        )
        error = self.ask(folder, "--tag", "team", "--where", "team=web", "--where-not", "SkuId=b", "--sum", "price")[1]
        self.assertIn("\n2 rows have no amount in the tag price\n", error)
        self.assertIn("no row and no commitment of the range has the tag price; the tags there are: ListCost, team\n", error)
        error = self.ask(folder, "--column", "SkuId", "--where", "SkuId=b", "--sum", "ListCost")[1]
        self.assertIn("\n1 row has no amount in the tag ListCost\n", error)

    def test_rows_that_a_commitment_took_whole(self):
        """They count in the group that they are of, which has no line then."""
        folder = self.by_hand(
            'id = "own"\nstart = "2024-01-31T00:00Z"\nhours = 2\ncategory = "Usage"\nunit = "Hours"\nskus = ["a"]\ncapacity = "2"\n'
            '[[purchase]]\nat = "2024-01-31T00:00Z"\nbilled = "4"\n'
        )
        words = ["--column", "CommitmentDiscountId", "--where", "SkuId=a", "--month", "2024-01", "--sum", "ListCost", "--format"]
        text = self.ask(folder, *words, "csv")[0]
        self.assertEqual(
            text.splitlines(),
            [
                "CommitmentDiscountId,BilledCost,EffectiveCost,ListCost",
                ",0.000000000,0.000000000,5.500000000",
                "own,0.000000000,2.000000000,0.000000000",
            ],
        )
        found = json.loads(self.ask(folder, *words, "json")[0])
        self.assertEqual(found["groups"][0], {"keys": {"CommitmentDiscountId": ""}, "kind": "group", "billed": "0.000000000", "effective": "0.000000000", "sums": {"ListCost": "5.500000000"}})  # fmt: skip
        self.assertEqual(found["total"]["sums"], {"ListCost": "5.500000000"})

    def test_names_that_need_quotes(self):
        folder = self.by_hand()
        text = self.ask(folder, "--tag", "team", "--sum", 'a,"b"', "--format", "csv")[0]
        self.assertEqual(next(csv.reader(io.StringIO(text)))[-1], 'a,"b"')
        found = json.loads(self.ask(folder, "--tag", "team", "--sum", 'a"\n\x1b', "--format", "json")[0])
        self.assertEqual(found["total"]["sums"], {'a"\n\x1b': "0.000000000"})
        table, error = self.ask(folder, "--tag", "team", "--sum", "\x1b[31m")
        self.assertIn("\\u{1b}[31m", table.splitlines()[0])
        self.assertIn("6 rows have no amount in the tag \\u{1b}[31m\n", error)

    def test_wrong_command_lines(self):
        folder = self.by_hand()
        for words, what in (
            (["--tag", "team", "--format", "html"], "--sum: a page has no such column"),
            (["--format", "csv"], "name what the groups are"),
            (["--tag", "team", "--direct"], "--direct"),
            (["--tag", "team", "--only", "web"], "--only"),
            (["--tag", "team", "--sum", "other"], "--sum"),
            (["--tag", "team", "--policy", "policy.toml"], "--policy"),
        ):
            with self.subTest(words=words):
                status, output, error = focusd("report", "--dir", str(folder), "--sum", "ListCost", *words)
                self.assertEqual((status, output), (2, b""), error)
                self.assertIn(what, error)


if __name__ == "__main__":
    run_tests(__doc__, RUNS="how many random warehouses", SEED="the seed of chance")
