#!/usr/bin/env python3
"""Runs `focusd compare` of a built program, and compares it with the plain Python of expected.py.

    examples/test_compare.py out/focusd
    examples/test_compare.py out/focusd --runs 1000    more random comparisons
    examples/test_compare.py out/focusd --seed 7       others

Warehouses are made by chance: rows of six months, commitments and policies. Ranges, keys, filters, formats and --top are by chance too.
"""
import csv
import io
import json
import random
import re

import expected
from as_reported import before_of, cents, hour_of, range_by_chance, share, time_of
from entries import HEADER, HouseOfEntries, command, policy, sent
from expected import spelled as text_of
from program_tests import OneFolder, focusd, run_tests

RUNS, SEED = 120, 1
TEAMS = ["web", "data", "platform", "team / a", "(odd)", '"q"', "é", ""]
SKUS = ["m5.large", "s3", "gp3", ""]


def row(chance, hour):
    tags = {key: value for key, value in (("team", chance.choice(TEAMS)), ("env", chance.choice(["prod", "dev", ""]))) if value or chance.random() < 0.3}
    billed = text_of(chance.randint(-(10**9), 10**12))
    effective = text_of(chance.randint(-(10**9), 10**12))
    cells = [billed, effective, "USD", "Usage", time_of(hour), time_of(hour + 1), "1", "Hours", chance.choice(SKUS), "shop", json.dumps(tags)]
    out = io.StringIO()
    csv.writer(out, lineterminator="\n").writerow(cells)
    return out.getvalue()


class House(HouseOfEntries):
    """A warehouse by chance in a folder, and the same one in expected.py."""

    def __init__(self, folder, chance):
        low, high = hour_of(2024, 5), hour_of(2024, 11)
        entries = []
        for number in range(1, 4):
            entries.append(command(f"post aws {number}", HEADER + "".join(row(chance, chance.randrange(low, high)) for _ in range(chance.randint(1, 60)))))
        if chance.random() < 0.7:
            key = chance.choice(["team", "team", "env"])
            entries.append(command("policy rules 1", policy(key, chance.choice(["web", "data", "prod"]), "platform")))
        super().__init__(folder, entries)


def shown(key, text):
    if " / " in text or text[:1] in ('"', "("):
        return json.dumps(text, ensure_ascii=False)
    return text or ("(none)" if key.is_column else "(untagged)")


def ranked(selection, before, after):
    """The lines: the texts of a group, and of each cost what it was before, after, and the difference; the largest rise of the last cost first."""
    zero = (0, 0, 0)
    lines = []
    for group in {*before, *after}:
        one, two = before.get(group, zero), after.get(group, zero)
        name = " / ".join(shown(key, text) for key, text in zip(selection.keys, group))
        lines.append((name.encode(), group, [(b, a, a - b) for b, a in zip(one, two)]))
    return [(group, costs) for name, group, costs in sorted(lines, key=lambda line: (-line[2][2][2], line[0]))]


def cut(lines, top):
    """The first lines, and one of all others, where there are some."""
    if top is None or top >= len(lines):
        return lines
    others = [[sum(costs[cost][at] for _, costs in lines[top:]) for at in range(3)] for cost in range(3)]
    return [*lines[:top], (None, [tuple(cost) for cost in others])]


class Compared(OneFolder):
    def house(self, chance, name):
        return House(self.room / name, chance)

    def test_by_chance(self):
        chance = random.Random(SEED)
        houses = [self.house(chance, f"house-{number}") for number in range(max(1, RUNS // 12))]
        for run in range(RUNS):
            with self.subTest(run=run):
                self.one(chance, chance.choice(houses))

    def one(self, chance, house):
        keys = chance.choice([["team"], ["team"], ["team"], ["SkuId"], ["team", "SkuId"], ["team", "env"]])
        words = []
        for place, key in enumerate(keys):
            words += ["--by", key] if place == 1 and chance.random() < 0.5 else ["--column", key] if key == "SkuId" else ["--tag", key]
        where = [("env", "prod")] if chance.random() < 0.2 else []
        words += [word for key, value in where for word in ("--where", f"{key}={value}")]
        selection = expected.Selection([expected.Key.named(key) for key in keys], [(expected.Key.named(key), value) for key, value in where])
        low, high = range_by_chance(chance, months=3, end=10, hours=1500)
        words += ["--from", time_of(low), "--to", time_of(high)]
        first, end = before_of(low, high)
        if chance.random() < 0.3:
            first = chance.choice([hour_of(2024, 5), hour_of(2024, 6), chance.randrange(hour_of(2024, 5), low)])
            words += ["--before", time_of(first)]
            end = first + high - low
            months = [hour_of(2024, at) for at in range(1, 40)]
            if first in months and low in months and high in months:
                end = months[months.index(first) + months.index(high) - months.index(low)]
            if chance.random() < 0.4:
                end = first + chance.randint(1, 700)
                words += ["--before-to", time_of(end)]
        top = chance.choice([None, None, 1, 2, 5])
        words += ["--top", str(top)] if top else []
        lines = ranked(selection, house.sums(selection, first, end), house.sums(selection, low, high))
        asked = ["compare", "--dir", house.folder, *words]
        charges = selection.is_one_tag()
        total = [tuple(sum(costs[cost][at] for _, costs in lines) for at in range(3)) for cost in range(3)]
        for cost in range(3):
            self.assertEqual(total[cost][2], total[cost][1] - total[cost][0])
        self.check_csv(asked, keys, cut(lines, top), charges)
        self.check_json(asked, keys, cut(lines, top), charges, total, ((first, end), (low, high)))
        self.check_table(asked, selection, cut(lines, top), charges, total, (first, end))

    def check_csv(self, asked, keys, lines, charges):
        status, printed, said = focusd(*asked, "--format", "csv")
        self.assertEqual(status, 0, said)
        names = ["BilledCost", "EffectiveCost", *["ChargedCost"] * charges]
        wanted = [["Kind", *keys, *(name + part for name in names for part in ("Before", "After", "Difference"))]]
        for group, costs in lines:
            texts = ["(others)"] * len(keys) if group is None else group
            wanted.append(["group" if group is not None else "others", *texts, *(text_of(nanos) for cost in costs[: len(names)] for nanos in cost)])
        self.assertEqual(list(csv.reader(io.StringIO(printed))), wanted, asked)

    def check_json(self, asked, keys, lines, charges, total, ranges):
        status, printed, said = focusd(*asked, "--format", "json")
        self.assertEqual(status, 0, said)
        names = ["billed", "effective", *["charged"] * charges]

        def sides(costs):
            return {side: {name: text_of(cost[at]) for name, cost in zip(names, costs)} for at, side in enumerate(("before", "after", "difference"))}

        groups = []
        for group, costs in lines:
            texts = ["(others)"] * len(keys) if group is None else group
            groups.append({"keys": dict(zip(keys, texts)), "kind": "others" if group is None else "group", **sides(costs)})
        before, after = ({"from": time_of(low), "to": time_of(high)} for low, high in ranges)
        wanted = {"keys": keys, "currency": "USD", "before": before, "after": after, "groups": groups, "total": sides(total)}
        self.assertEqual(json.loads(printed), wanted, asked)

    def check_table(self, asked, selection, lines, charges, total, before):
        status, printed, said = focusd(*asked)
        self.assertEqual(status, 0, said)
        self.assertIn(f"compared with {time_of(before[0])} to {time_of(before[1])}\n", said)
        self.assertEqual("ChargedCost is left out" in said, not charges)
        found = [re.split(r"  +", line.strip()) for line in printed.splitlines() if not line.startswith("--")]
        cost = "ChargedCost" if charges else "EffectiveCost"
        self.assertEqual(found[0], ["Group", f"{cost} before", "after", "Difference", "Share", *["of EffectiveCost"] * charges, "of BilledCost"])
        names = [" / ".join(shown(key, text) for key, text in zip(selection.keys, group)) if group is not None else "(others)" for group, _ in lines]
        for name, line, (_, costs) in zip([*names, "Total"], found[1:], [*lines, (None, total)], strict=True):
            b, a, d = costs[2]
            part = [share(d, total[2][2])] if total[2][2] else []
            more = [cents(costs[1][2])] * charges + [cents(costs[0][2])]
            self.assertEqual(line, [name, cents(b), cents(a), cents(d), *part, *more], asked)

    def test_a_range_before_1970_and_empty_ones(self):
        house = self.house(random.Random(5), "plain")
        for words in (("--from", "1970-01-01", "--to", "1970-01-02"), ("--from", "2024-08", "--to", "2024-09", "--before", "2024-07", "--before-to", "2024-07")):
            status, printed, said = focusd("compare", "--dir", house.folder, "--tag", "team", *words)
            self.assertEqual((status, printed), (2, ""), said)
            self.assertIn("Q1 Range", said)

    def test_wrong_words(self):
        house = self.house(random.Random(6), "wrong")
        asked = ("compare", "--dir", house.folder, "--tag", "team")
        for words, wanted in (
            (("--before", "soon"), "--before"), (("--before-to", "2024-08"), "--before"), (("--by", "day"), "--by: names a tag or a column"),
            (("--by", "team"), "team is named twice"), (("--format", "html"), "--format"), (("--top", "0"), "--top"), (("--month", "x"), "--month"),
        ):  # fmt: skip
            status, printed, said = focusd(*asked, *words)
            self.assertEqual((status, printed), (2, ""), words)
            self.assertIn(wanted, said)
        self.assertEqual(focusd("compare", "--dir", house.folder)[0], 2)
        self.assertEqual(focusd("compare", "--dir", self.room / "none", "--tag", "team")[0], 1)

    def test_under_the_policy_of_a_file(self):
        house = self.house(random.Random(8), "policy")
        text = policy("team", "data", "platform")
        file = self.room / "policy.toml"
        file.write_text(text)
        asked = ("compare", "--dir", house.folder, "--tag", "team", "--month", "2024-08", "--format", "csv", "--policy", file)
        status, printed, said = focusd(*asked)
        self.assertEqual(status, 0, said)
        self.assertIn(f"the one of the file {file}\n", said)
        self.assertTrue(sent(house.kept, command("policy what 1", text)).startswith("accepted "))
        selection = expected.Selection([expected.Key.named("team")])
        lines = ranked(selection, house.sums(selection, hour_of(2024, 7), hour_of(2024, 8)), house.sums(selection, hour_of(2024, 8), hour_of(2024, 9)))
        found = [(record[1], record[10]) for record in list(csv.reader(io.StringIO(printed)))[1:]]
        self.assertEqual(found, [(group[0], text_of(costs[2][2])) for group, costs in lines])
        for words in (("--by", "SkuId"), ("--where", "env=prod"), ("--tag", "env")):
            self.assertEqual(focusd(*asked, *words)[:2], (2, ""), words)


if __name__ == "__main__":
    run_tests(__doc__, RUNS="how many random comparisons", SEED="the seed of chance")
