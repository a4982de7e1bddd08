#!/usr/bin/env python3
"""Runs reports by several keys, under filters and maps, of a built program, and compares each with the plain Python of expected.py.

    examples/test_selections.py out/focusd
    examples/test_selections.py out/focusd --runs 3000      more random selections
    examples/test_selections.py out/focusd --seed 7         others

The questions are asked of the shipped export, the exports of four providers, and a script of two days under overlapping commitments and a
policy: keys, filters, maps, ranges, periods and policies by chance, each as CSV and JSON, and what the messages say.
"""
import csv
import html
import io
import json
import random
import re
import subprocess
import sys
import tomllib

import expected
from as_reported import time_of
from program_tests import HERE, OneFolder, run_tests
from program_tests import focusd_bytes as focusd

RUNS, SEED = 200, 1
TAGS = ("team", "environment", "project", "nobody", "SkuId")
COLUMNS = ("SkuId", "SubAccountId", "ChargeCategory", "CommitmentDiscountId", "CommitmentDiscountStatus")
LEFT_OUT = "ChargedCost is left out: a policy shares the costs of all lines, by one tag\n"


class House:
    """A warehouse in a folder, and the same one in expected.py."""

    def __init__(self, folder, script=None, exports=()):
        self.folder, self.kept = str(folder), expected.Warehouse()
        folder.mkdir()
        if script is not None:
            self.well("run", "--dir", self.folder, "--create", given=script)
            list(expected.answers(iter(io.BytesIO(script).readline, b""), self.kept))
        for number, export in enumerate(exports):
            self.well("import", "--quiet", "--create", "--dir", self.folder, "--origin", f"e{number}", str(export))
            self.kept.import_export(f"e{number}", export.read_bytes())
        self.low, self.high = min(self.kept.rows), max(self.kept.rows) + 1

    def well(self, *words, given=b""):
        status, output, error = focusd(*words, given=given)
        if status:
            raise AssertionError(f"{words}: {error}")
        return output

    def lines(self, low, high):
        return list(self.kept.lines_between(time_of(low), time_of(high)))


def toml_text(text):
    return json.dumps(text, ensure_ascii=False)


class Chance:
    """Questions by chance, from what a warehouse has."""

    def __init__(self, house, seed):
        self.house, self.random = house, random.Random(seed)
        self.all = house.lines(house.low, house.high)

    def key(self):
        if self.random.random() < 0.6:
            return expected.Key(self.random.choice(TAGS))
        return expected.Key(self.random.choice(COLUMNS), True)

    def value(self, key):
        """A value that the key has on some line, or another one."""
        if self.random.random() < 0.15:
            return self.random.choice(["", "nothing", "Production", "a=b"])
        return key.of(self.random.choice(self.all))

    def pairs(self, most):
        keys = [self.key() for _ in range(self.random.randrange(most + 1))]
        return [(key, self.value(key)) for key in keys for _ in range(self.random.choice([1, 1, 2]))]

    def maps(self):
        """The text of a file of maps, or none."""
        if self.random.random() < 0.6:
            return None
        text = ""
        for key in {self.key() for _ in range(self.random.randrange(1, 3))}:
            text += f"[[map]]\nkey = {toml_text(named(key))}\n"
            if self.random.random() < 0.5:
                text += f"fold = {self.random.choice(['true', 'false'])}\n"
            if self.random.random() < 0.5:
                text += 'empty = "unknown"\n'
            if self.random.random() < 0.7:
                values = {self.value(key).lower() if self.random.random() < 0.5 else self.value(key): self.random.choice(["one", "two", ""]) for _ in range(3)}
                text += "values = { " + ", ".join(f"{toml_text(old)} = {toml_text(new)}" for old, new in values.items() if old) + " }\n"
        return text

    def policy(self, key):
        """The text of a policy for a tag, of groups that lines have and of others, or none."""
        if self.random.random() < 0.4:
            return None
        groups = sorted({*(key.of(line) for line in self.all), "nobody", "a b"})
        gives = self.random.sample(groups, min(len(groups) - 1, self.random.randint(1, 3)))
        rest = [group for group in groups if group not in gives]
        text = f"key = {toml_text(key.name)}\n"
        for group in gives:
            shares = ", ".join(f"{toml_text(to)} = {self.random.randint(0, 9)}" for to in self.random.sample(rest, self.random.randint(1, min(4, len(rest)))))
            text += f"[[rule]]\nfrom = {toml_text(group)}\n" + self.random.choice(["proportional = true\n", f"to = {{ {shares} }}\n"])
        return text

    def hours(self):
        low = self.random.randrange(self.house.low - 3, self.house.high)
        return low, self.random.randrange(low + 1, self.house.high + 3)

    def question(self):
        keys = []
        while not keys or (len(keys) < 4 and self.random.random() < 0.6):
            key = self.key()
            if key not in keys:
                keys.append(key)
        # The program has tags in front of columns.
        keys.sort(key=lambda key: key.is_column)
        return keys, self.pairs(2), self.pairs(2), self.maps(), *self.hours()


def named(key):
    """A key as a filter or a map names it."""
    return f"tag:{key.name}" if not key.is_column and key.name in COLUMNS else key.name


def words_of(keys, where, where_not):
    words = [word for key in keys for word in ("--column" if key.is_column else "--tag", key.name)]
    for option, pairs in (("--where", where), ("--where-not", where_not)):
        words += [word for key, value in pairs for word in (option, f"{named(key)}={value}")]
    return words


class Selections(OneFolder):
    maxDiff = None

    @classmethod
    def setUpClass(cls):
        super().setUpClass()
        top = cls.room
        year = subprocess.run([sys.executable, str(HERE / "make_year.py"), "--days", "2", "--rows-an-hour", "12"], capture_output=True, check=True).stdout
        cls.houses = [
            House(top / "export", exports=[HERE / "focus-export.csv"]),
            House(top / "providers", exports=sorted((HERE / "providers").glob("*.csv"))),
            House(top / "commitments", script=(HERE / "commitments.script").read_bytes()),
            House(top / "year", script=year),
        ]
        cls.map_file, cls.policy_file = top / "maps.toml", top / "policy.toml"

    def ask(self, house, *words):
        status, output, error = focusd("report", "--dir", house.folder, *words)
        self.assertEqual(status, 0, (words, error))
        return output.decode(), error

    def test_random_selections(self):
        """RUNS questions: each group and its sums, as CSV and JSON."""
        chances = [Chance(house, f"{SEED} {number}") for number, house in enumerate(self.houses)]
        for run in range(RUNS):
            chance = chances[run % len(chances)]
            keys, where, where_not, maps, low, high = chance.question()
            words = [*words_of(keys, where, where_not), "--from", time_of(low), "--to", time_of(high)]
            if maps is not None:
                self.map_file.write_text(maps)
                words += ["--map", str(self.map_file)]
            selection = expected.Selection(keys, where, where_not, expected.maps_of(maps.encode()) if maps else ())
            with self.subTest(run=run, words=words, maps=maps):
                if selection.is_one_tag():
                    self.compare_charges(chance, words, keys[0], selection, low, high)
                else:
                    self.compare(chance.house, words, keys, selection, low, high)

    def compare_charges(self, chance, words, key, selection, low, high):
        """A report by one tag has charges: under the policy of the warehouse, or under one that is given."""
        kept, policy = chance.house.kept, chance.policy(key)
        stored = kept.policy
        if policy is not None:
            self.policy_file.write_text(policy)
            words = [*words, "--policy", str(self.policy_file)]
            kept.policy = {"key": key.name, "rule": tomllib.loads(policy)["rule"]}
        wanted = kept.selected(selection, chance.house.lines(low, high))
        kept.policy = stored
        rows = [[group, *map(expected.spelled, wanted[(group,)])] for group in sorted((group for (group,) in wanted), key=str.encode)]
        text = self.ask(chance.house, *words, "--format", "csv")[0]
        self.assertEqual(list(csv.reader(io.StringIO(text))), [["Group", "BilledCost", "EffectiveCost", "ChargedCost"], *rows], policy)

    def compare(self, house, words, keys, selection, low, high):
        wanted = house.kept.selected(selection, house.lines(low, high))
        groups = [(group, wanted[group]) for group in sorted(wanted, key=lambda group: [it.encode() for it in group])]
        text, error = self.ask(house, *words, "--format", "csv")
        rows = [[*group, *map(expected.spelled, costs)] for group, costs in groups]
        self.assertEqual(list(csv.reader(io.StringIO(text))), [[*(key.name for key in keys), "BilledCost", "EffectiveCost"], *rows])
        self.assertTrue(error.endswith(LEFT_OUT), error)
        found = json.loads(self.ask(house, *words, "--format", "json")[0])
        self.assertEqual([(tuple(it["keys"].values()), (it["billed"], it["effective"])) for it in found["groups"] if len(it["keys"]) == len(keys)],
                         [(group, tuple(map(expected.spelled, costs))) for group, costs in groups if len({it.name for it in keys}) == len(keys)])
        total = [sum(costs[at] for _, costs in groups) for at in (0, 1)]
        self.assertEqual((found["total"]["billed"], found["total"]["effective"]), tuple(map(expected.spelled, total)))

    def test_by_day(self):
        """Each period has the groups of its own hours, and they sum to the whole."""
        house = self.houses[3]
        keys = [expected.Key("team"), expected.Key("ChargeCategory", True)]
        low, high = house.low + 5, house.high - 3
        words = [*words_of(keys, [], [(keys[1], "Tax")]), "--from", time_of(low), "--to", time_of(high), "--by", "day"]
        selection = expected.Selection(keys, where_not=[(keys[1], "Tax")])
        rows = list(csv.DictReader(io.StringIO(self.ask(house, *words, "--format", "csv")[0])))
        wanted, first = [], low
        while first < high:
            end = min(high, (first // 24 + 1) * 24)
            sums = house.kept.selected(selection, house.lines(first, end))
            wanted += [[time_of(first), time_of(end), "group", *group, *map(expected.spelled, sums[group])] for group in sorted(sums)]
            first = end
        self.assertGreater(len(wanted), 4)
        self.assertEqual([list(row.values()) for row in rows], wanted)

    def test_the_largest(self):
        house, key = self.houses[3], expected.Key("SkuId", True)
        low, high = house.low, house.high
        sums = house.kept.selected(expected.Selection([key]), house.lines(low, high))
        self.assertGreater(len(sums), 3)
        ranked = sorted(sums, key=lambda group: (-sums[group][1], group))[:2]
        rows = list(csv.DictReader(io.StringIO(self.ask(house, "--column", "SkuId", "--top", "2", "--format", "csv")[0])))
        self.assertEqual([row["SkuId"] for row in rows], [*sorted(group for (group,) in ranked), "(others)"])
        rest = [sum(costs[at] for group, costs in sums.items() if group not in ranked) for at in (0, 1)]
        self.assertEqual((rows[-1]["Kind"], rows[-1]["BilledCost"], rows[-1]["EffectiveCost"]), ("others", *map(expected.spelled, rest)))

    def test_the_sums_alone(self):
        house = self.houses[0]
        lines = house.lines(house.low, house.high)
        total = [expected.spelled(sum(it)) for it in ((line.billed for line in lines), (line.effective for line in lines))]
        text, error = self.ask(house, "--total-only", "--format", "csv")
        self.assertEqual(list(csv.reader(io.StringIO(text))), [["BilledCost", "EffectiveCost"], total])
        self.assertIn(LEFT_OUT, error)
        table = self.ask(house, "--total-only")[0].splitlines()
        self.assertEqual([len(line.split()) for line in table], [2, 2, 2])
        self.assertEqual(table[0].split(), ["BilledCost", "EffectiveCost"])
        page = self.ask(house, "--total-only", "--format", "html")[0]
        self.assertIn("<h1>Costs by range</h1>", page)
        self.assertIn('<tr><th scope="row">(all)</th>', page)
        self.assertIn("<h1>Costs by period</h1>", self.ask(house, "--total-only", "--by", "day", "--format", "html")[0])

    def test_a_page(self):
        """Its table has a row for each group, its chart the periods of each, and nothing of it speaks of charges."""
        house, keys = self.houses[0], [expected.Key("team"), expected.Key("SubAccountId", True)]
        self.map_file.write_text('[[map]]\nkey = "team"\nvalues = { web = "a / b", data = "(untagged)" }\n')
        words = ["--tag", "team", "--column", "SubAccountId", "--map", str(self.map_file), "--where-not", "team=platform"]
        page = self.ask(house, *words, "--format", "html")[0]
        selection = expected.Selection(keys, where_not=[(keys[0], "platform")], maps=expected.maps_of(self.map_file.read_bytes()))
        sums = house.kept.selected(selection, house.lines(house.low, house.high))
        rows = re.findall(r'<tr><th scope="row">([^<]*)</th><td>([^<]*)</td><td>([^<]*)</td>', page)
        names = {"": "(untagged)", "a / b": '"a / b"', "(untagged)": '"(untagged)"'}
        wanted = {f"{names.get(team, team)} / {account or '(none)'}" for team, account in sums}
        self.assertEqual({html.unescape(name) for name, *_ in rows if name != "Total"}, wanted)
        self.assertIn("<h1>Costs by team and SubAccountId</h1>", page)
        self.assertIn("not counted are lines whose team is platform", page)
        self.assertNotIn("ChargedCost", page)
        by_day = self.ask(house, *words, "--by", "day", "--format", "html")[0]
        self.assertRegex(by_day, r"<title>2024-09-01, &quot;a / b&quot; / \d+: [\d.]+</title>|<title>2024-09-01, \"a / b\" / \d+: [\d.]+</title>")
        self.assertIn('aria-label="EffectiveCost by period"', by_day)

    def test_messages(self):
        house = self.houses[0]
        error = self.ask(house, "--tag", "team", "--tag", "nobody", "--where", "environment=production", "--where", "environment=staging", "--where-not", "team=")[1]
        self.assertIn("counted are only lines whose environment is production or staging\n", error)
        self.assertIn("not counted are lines whose team is empty\n", error)
        self.assertRegex(error, r"no row and no commitment of the range has the tag nobody; the tags there are: .*team")
        self.assertNotIn("the tag team;", error)
        error = self.ask(house, "--column", "SkuId", "--where", "ChargeCategory=\x1b[31m")[1]
        self.assertIn("whose ChargeCategory is \\u{1b}[31m\n", error)

    def test_wrong_command_lines(self):
        house = self.houses[0]
        for words, what in (
            ([], "name what the groups are: --tag KEY or --column COLUMN"),
            (["--tag", "a", "--tag", "b", "--tag", "c", "--tag", "d", "--tag", "e"], "at most 4 of them, and not 5"),
            (["--tag", "a", "--tag", "a"], "a is named twice"),
            (["--column", "SkuId", "--column", "SkuId"], "SkuId is named twice"),
            (["--column", "Region"], "Region"),
            (["--tag", "a", "--where", "team"], "--where: team is not a key and a value"),
            (["--tag", "a", "--where-not", ""], "--where-not"),
            (["--tag", "a", "--tag", "b", "--direct"], "--direct"),
            (["--tag", "a", "--column", "SkuId", "--direct"], "--direct"),
            (["--total-only", "--tag", "a"], "--total-only"),
            (["--total-only", "--top", "3"], "--total-only"),
            (["--tag", "a", "--tag", "b", "--top", "0"], "--top"),
        ):
            with self.subTest(words=words):
                status, output, error = focusd("report", "--dir", house.folder, *words)
                self.assertEqual((status, output), (2, b""), error)
                self.assertIn(what, error)

    def test_files_of_maps(self):
        house = self.houses[0]
        good = b'[[map]]\nkey = "team"\nvalues = { web = "shop" }\n'
        status, output, error = focusd("report", "--dir", house.folder, "--tag", "team", "--map", "-", "--format", "csv", given=good)
        self.assertEqual(status, 0, error)
        self.assertIn(b"\nshop,", output)
        for text, what in (
            (b"\xff", "N1 MapSyntax"),
            (b"[[map]", "N1 MapSyntax"),
            (b"", "N2 MapField: map 0: there must be one [[map]] or more"),
            (b"map = 1\n", "N2 MapField"),
            (b"[[map]]\n", 'N2 MapField: map 1: "key" must be'),
            (b'[[map]]\nkey = ""\n', "N2 MapField"),
            (b'[[map]]\nkey = "a"\nfold = 1\n', '"fold" must be true or false'),
            (b'[[map]]\nkey = "a"\nempty = 1\n', '"empty" must be a text'),
            (b'[[map]]\nkey = "a"\nvalues = { b = 1 }\n', '"values" must be'),
            (b'[[map]]\nkey = "a"\nvalues = { "" = "b" }\n', '"empty" is what stands for none'),
            (b'[[map]]\nkey = "a"\nother = 1\n', "a map has the fields"),
            (b'[[map]]\nkey = "a"\n[[map]]\nkey = "tag:a"\n', "map 2"),
        ):
            with self.subTest(text=text):
                self.map_file.write_bytes(text)
                status, output, error = focusd("report", "--dir", house.folder, "--tag", "team", "--map", str(self.map_file))
                self.assertEqual((status, output), (1, b""), error)
                self.assertIn(what, error)
                self.assertIn(str(self.map_file), error)
                self.assertIn("\nWhat to do: ", error)
        status, output, error = focusd("report", "--dir", house.folder, "--tag", "team", "--map", str(self.map_file) + ".not")
        self.assertEqual((status, output), (1, b""))
        self.assertIn("F1 Read", error)


if __name__ == "__main__":
    run_tests(__doc__, RUNS="how many random selections", SEED="the seed of chance")
