#!/usr/bin/env python3
"""Runs `focusd report --only` of a built program: what one group cost, and nothing of others.

    examples/test_owner.py out/focusd
    examples/test_owner.py out/focusd --runs 1000    more random questions
    examples/test_owner.py out/focusd --seed 7       others

Warehouses are made by chance: rows of six months, whose groups have names that stand nowhere else, and policies. Amounts come from the plain Python of
expected.py. No name of another group may be in what is printed, and two warehouses that differ in other groups alone are answered with the same bytes.
"""
import csv
import io
import json
import random
import re

import expected
from as_reported import before_of, cents, hour_of, range_by_chance, share, time_of
from entries import HEADER, HouseOfEntries, command, policy
from expected import spelled as text_of
from program_tests import OneFolder, focusd, run_tests

RUNS, SEED = 200, 1
FORMATS = ("table", "csv", "json", "html")
COSTS = ("billed", "effective", "charged")
HTML = {"&": "&amp;", "<": "&lt;", ">": "&gt;", '"': "&quot;", "'": "&#39;"}
# Marks that a page has to show as texts, and that end no name.
ODD = ["", "", "", "<b>", "&", '"', "'", "é", " / x", "</title>"]
LOW, HIGH = hour_of(2024, 5), hour_of(2024, 11)
NAMED = ["From", "To", "Group", "BilledCost", "EffectiveCost", "ChargedCost", "FromBefore", "ToBefore",
         *(cost + part for part in ("Before", "Difference") for cost in ("BilledCost", "EffectiveCost", "ChargedCost"))]  # fmt: skip


def name_by_chance(chance):
    """A name of twelve letters that no other text has, and perhaps an odd end."""
    return "".join(chance.choice("ghjkmqvwxyz") for _ in range(12)) + chance.choice(ODD)


def row(chance, hour, team):
    tags = {"env": chance.choice(["prod", "dev"]), **({"team": team} if team else {})}
    amounts = [text_of(chance.randint(-(10**9), 10**12)) for _ in range(2)]
    cells = [*amounts, "USD", "Usage", time_of(hour), time_of(hour + 1), "1", "Hours", chance.choice(["m5.large", "s3"]), "shop", json.dumps(tags)]
    out = io.StringIO()
    csv.writer(out, lineterminator="\n").writerow(cells)
    return out.getvalue()


class House(HouseOfEntries):
    """A warehouse by chance in a folder, and the same one in expected.py."""

    def __init__(self, folder, posts, rules=None):
        entries = [command(f"post aws {number}", HEADER + "".join(rows)) for number, rows in enumerate(posts, 1)]
        entries += [command("policy rules 1", rules)] if rules else []
        self.entries = len(entries)
        super().__init__(folder, entries)

    def costs(self, key, group, low, high):
        """What a group cost in some hours, or None where it isn't there."""
        return self.sums(expected.Selection([expected.Key.named(key)]), low, high).get((group,))

    def totals(self, low, high):
        """BilledCost and EffectiveCost of all groups in some hours."""
        lines = self.lines(low, high)
        return sum(line.billed for line in lines), sum(line.effective for line in lines)

    def stretch(self, key, group, low, high):
        """Hours, what the group cost, the hours before, what it cost there, and the difference."""
        first, end = before_of(low, high)
        now, old = (self.costs(key, group, *hours) or (0, 0, 0) for hours in ((low, high), (first, end)))
        return (low, high), now, (first, end), old, tuple(a - b for a, b in zip(now, old))


def periods(low, high, step):
    """The periods of a range, cut where days or months begin."""
    months = [hour_of(2024, at) for at in range(1, 30)]
    starts = [hour for hour in range(low + 1, high) if (hour in months if step == "month" else hour % 24 == 0)]
    return list(zip([low, *starts], [*starts, high]))


def in_html(text):
    return "".join(HTML.get(letter, letter) for letter in text)


class Owned(OneFolder):
    def house(self, chance, name):
        """A warehouse, and the names of its groups."""
        names = [name_by_chance(chance) for _ in range(chance.randint(2, 8))]
        posts = [[row(chance, chance.randrange(LOW, HIGH), chance.choice([*names, ""])) for _ in range(chance.randint(1, 60))] for _ in range(3)]
        gives = [json.dumps(name, ensure_ascii=False)[1:-1] for name in names[:2]]
        rules = chance.choice([None, policy("team", *gives), policy("env", "dev")])
        return House(self.room / name, posts, rules), names

    def test_by_chance(self):
        chance = random.Random(SEED)
        houses = [self.house(chance, f"house-{number}") for number in range(max(1, RUNS // 10))]
        for run in range(RUNS):
            with self.subTest(run=run):
                self.one(chance, *chance.choice(houses))

    def one(self, chance, house, names):
        group = chance.choice([*names, "", "nobody"])
        step = chance.choice([None, "month", "month", "day"])
        low, high = range_by_chance(chance, months=2, end=9, hours=1000)
        asked = ["report", "--dir", house.folder, "--tag", "team", f"--only={group}", "--from", time_of(low), "--to", time_of(high)]
        asked += ["--by", step] if step else []
        asked += ["--as-of", house.entries] if chance.random() < 0.3 else []
        whole = house.stretch("team", group, low, high)
        parts = [house.stretch("team", group, *hours) for hours in periods(low, high, step)] if step else []
        is_there = house.costs("team", group, low, high) is not None
        totals = [text_of(total) for total in house.totals(low, high) if total not in whole[1]]
        for form in FORMATS:
            status, printed, said = focusd(*asked, "--format", form)
            self.assertEqual(status, 0, said)
            self.assertEqual("focusd: the range has no costs" in said, not is_there, asked)
            for other in names:
                if other != group:
                    for text in (other, other[:12], in_html(other), json.dumps(other)[1:-1]):
                        self.assertNotIn(text, printed + said, (asked, form))
            for total in totals:
                self.assertNotIn(total, printed)
            getattr(self, f"check_{form}")(printed, group, step, whole, parts)

    def check_csv(self, printed, group, _step, whole, parts):
        wanted = [NAMED]
        for hours, now, before, old, change in parts or [whole]:
            wanted.append([*map(time_of, hours), group, *map(text_of, now), *map(time_of, before), *map(text_of, old), *map(text_of, change)])
        self.assertEqual(list(csv.reader(io.StringIO(printed))), wanted)

    def check_json(self, printed, group, step, whole, parts):
        def stretch(hours, now, before, old, change):
            def costs(amounts):
                return dict(zip(COSTS, map(text_of, amounts)))

            def ends(pair):
                return dict(zip(("from", "to"), map(time_of, pair)))

            return {**ends(hours), **costs(now), "before": {**ends(before), **costs(old)}, "difference": costs(change)}

        wanted = {"tag": "team", "group": group, "currency": "USD", **stretch(*whole)}
        wanted |= {"by": step, "periods": [stretch(*part) for part in parts]} if step else {}
        self.assertEqual(json.loads(printed), wanted)
        self.assertTrue(printed.endswith("}\n"))

    def rows(self, group, step, whole, parts):
        """The cells of a table: of the periods, and of the whole range."""
        names = [time_of(part[0][0])[: 7 if step == "month" else 10] for part in parts] + ["Total" if step else group or "(untagged)"]
        rows = [["Period" if step else "Group", "BilledCost", "EffectiveCost", "ChargedCost", "ChargedCost before", "Difference", "Change"]]
        for name, (_, now, _, old, change) in zip(names, [*parts, whole]):
            rows.append([name, *map(cents, now), cents(old[2]), cents(change[2]), share(change[2], old[2])])
        return rows

    def check_table(self, printed, group, step, whole, parts):
        lines = [line for line in printed.splitlines() if not line.startswith("--")]
        found = [re.split(r"  +", line.strip()) for line in lines]
        wanted = [[cell for cell in row if cell] for row in self.rows(group, step, whole, parts)]
        self.assertEqual(found, wanted)

    def check_html(self, printed, group, step, whole, parts):
        shown = in_html(group or "(untagged)")
        self.assertIn(f"<title>Costs of {shown}</title>", printed)
        self.assertIn(f"<h1>Costs of {shown}</h1>", printed)
        rows = [re.findall(r"<t[hd](?: [^>]*)?>(.*?)</t[hd]>", line) for line in printed.splitlines() if "<th scope" in line or line.startswith("<tr>")]
        self.assertEqual(rows, [[in_html(cell) for cell in row] for row in self.rows(group, step, whole, parts)])
        self.assertEqual(printed.count("<rect "), len(parts))
        for tag in ("<script", "http:", "https:", "src=", "href="):
            self.assertNotIn(tag, printed)

    def test_other_groups_change_no_byte(self):
        chance = random.Random(SEED + 1)
        for number in range(12):
            mine = name_by_chance(chance)
            own = [row(chance, chance.randrange(LOW, HIGH), mine) for _ in range(30)]
            answers = []
            for side in ("one", "two"):
                others = [row(chance, chance.randrange(LOW, HIGH), name_by_chance(chance)) for _ in range(chance.randint(1, 60))]
                house = House(self.room / f"apart-{number}-{side}", [own, others])
                words = ["report", "--dir", house.folder, "--tag", "team", "--only", mine, "--from", "2024-06", "--to", "2024-10", "--by", "month"]
                answers.append([focusd(*words, "--format", form) for form in FORMATS])
            self.assertEqual(*answers)

    def test_a_group_under_a_policy_that_is_given_and_as_of_an_entry(self):
        chance = random.Random(SEED + 2)
        names = [name_by_chance(chance) for _ in range(4)]
        posts = [[row(chance, chance.randrange(hour_of(2024, 7), hour_of(2024, 9)), name) for name in names * 5] for _ in range(2)]
        house = House(self.room / "given", posts)
        rules = policy("team", names[0])
        file = self.room / "policy.toml"
        file.write_text(rules)
        asked = ("report", "--dir", house.folder, "--tag", "team", "--only", names[1], "--month", "2024-08", "--format", "csv")
        under = House(self.room / "under", posts, rules)
        first = House(self.room / "first", posts[:1])
        for more, kept in (((), house), (("--policy", file), under), (("--as-of", 1), first)):
            status, printed, said = focusd(*asked, *more)
            self.assertEqual(status, 0, said)
            self.check_csv(printed, names[1], None, kept.stretch("team", names[1], hour_of(2024, 8), hour_of(2024, 9)), [])
            self.assertEqual(f"the one of the file {file}" in said, "--policy" in more)
        status, printed, said = focusd(*asked[:4], "env", *asked[5:], "--policy", file)
        self.assertEqual((status, printed), (1, ""))
        self.assertIn("the policy is for the tag team", said)

    def test_hours_that_the_rows_give_and_a_range_before_which_there_are_none(self):
        house = House(self.room / "few", [[row(random.Random(3), hour_of(2024, 8) + 5, "web")]])
        for words, hours in (((), (5, 6)), (("--last", "1", "months"), (0, 744))):
            status, printed, said = focusd("report", "--dir", house.folder, "--tag", "team", "--only", "web", "--format", "csv", *words)
            self.assertEqual(status, 0, said)
            low, high = (hour_of(2024, 8) + hour for hour in hours)
            self.assertIn(f"from {time_of(low)} to {time_of(high)}\n", said)
            self.check_csv(printed, "web", None, house.stretch("team", "web", low, high), [])
        old = House(self.room / "old", [[row(random.Random(4), 3, "web")]])
        asked = ("report", "--dir", old.folder, "--tag", "team", "--only", "web", "--from", "1970-01-01", "--to", "1970-01-02")
        now = old.costs("team", "web", 0, 24)
        status, printed, _ = focusd(*asked, "--format", "csv")
        wanted = [NAMED, ["1970-01-01T00:00Z", "1970-01-02T00:00Z", "web", *map(text_of, now), *[""] * 8]]
        self.assertEqual((status, list(csv.reader(io.StringIO(printed)))), (0, wanted))
        status, printed, _ = focusd(*asked, "--format", "json")
        self.assertEqual((status, "before" in printed, "difference" in printed), (0, False, False))
        status, printed, _ = focusd(*asked)
        self.assertEqual((status, printed.splitlines()[-1].split()), (0, ["web", *map(cents, now)]))

    def test_a_group_or_a_tag_that_is_not_there(self):
        house = House(self.room / "gone", [[row(random.Random(5), hour_of(2024, 8), "web")]])
        asked = ("report", "--dir", house.folder, "--month", "2024-08")
        status, printed, said = focusd(*asked, "--tag", "team", "--only", "w\x1beb")
        self.assertEqual((status, said), (0, "focusd: the range has no costs whose tag team is w\\u{1b}eb\n"))
        self.assertEqual(printed.splitlines()[-1].split(), ["w\\u{1b}eb", "0.00", "0.00", "0.00", "0.00", "0.00"])
        status, _, said = focusd(*asked, "--tag", "team", "--only", "")
        self.assertEqual((status, said), (0, "focusd: the range has no costs without the tag team\n"))
        status, _, said = focusd(*asked, "--tag", "tema", "--only", "web")
        self.assertEqual(status, 0)
        self.assertIn("has the tag tema; the tags there are: env, team\n", said)
        self.assertIn("the range has no costs whose tag tema is web\n", said)
        self.assertNotIn("prod", said)

    def test_wrong_words(self):
        house = House(self.room / "wrong", [[row(random.Random(6), hour_of(2024, 8), "web")]])
        asked = ("report", "--dir", house.folder, "--only", "web", "--tag", "team")
        for words in (
            ("--top", "3"), ("--direct",), ("--column", "SkuId"), ("--where", "env=prod"), ("--where-not", "env=prod"), ("--map", "maps.toml"),
            ("--total-only",), ("--tag", "env"), ("--only", "api"), ("--format", "xml"), ("--by", "week"),
        ):  # fmt: skip
            status, printed, said = focusd(*asked, *words)
            self.assertEqual((status, printed), (2, ""), (words, said))
        self.assertEqual(focusd(*asked[:-2])[:2], (2, ""))
        status, printed, said = focusd(*asked, "--from", "2024-09", "--to", "2024-08")
        self.assertEqual((status, printed), (2, ""))
        self.assertIn("Q1 Range", said)


if __name__ == "__main__":
    run_tests(__doc__, RUNS="how many random questions", SEED="the seed of chance")
