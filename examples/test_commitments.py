#!/usr/bin/env python3
"""Runs `focusd commitments` of a built program, and compares each figure with the plain Python of expected_commitments.py, to the nano.

    examples/test_commitments.py out/focusd
    examples/test_commitments.py out/focusd --runs 2000     more random warehouses
    examples/test_commitments.py out/focusd --seed 7        others

Each warehouse is made by chance: rows of a few SKUs and teams, some that providers' commitments cover or left unused, own commitments to
quantities and to costs that overlap, and purchases that come later. It is asked by commitment, by tag and by column, of the whole range and by
period, as CSV, as JSON and as a page; and the laws of the figures are looked at.
"""
import csv
import fractions
import html.parser
import io
import json
import pathlib
import random
import tempfile
import unittest

import expected
import expected_commitments as oracle
from as_reported import cents
from entries import command
from program_tests import HERE, run_tests
from program_tests import focusd_bytes as focusd

RUNS, SEED = 200, 1
HEADER = "BilledCost,EffectiveCost,BillingCurrency,ChargeCategory,ChargePeriodStart,ChargePeriodEnd,CommitmentDiscountId,CommitmentDiscountCategory,CommitmentDiscountStatus,ConsumedQuantity,ConsumedUnit,SkuId,SubAccountId,Tags\n"  # fmt: skip
LOW, HIGH = "2024-01-31T00:00Z", "2024-02-02T00:00Z"
HOURS = 48
SKUS, TEAMS, ACCOUNTS = ("a", "b", "c"), ("web", "shop", ""), ("one", "two")
NAMES = ("a", "b", "c", "d")


def time(hour):
    """The instant at which an hour of the range begins."""
    return f"2024-01-31T{hour:02}:00Z" if hour < 24 else f"2024-02-{1 + (hour - 24) // 24:02}T{hour % 24:02}:00Z"


class Chance:
    """A script that makes a warehouse by chance."""

    def __init__(self, seed):
        self.dice = random.Random(seed)

    def amount(self, most):
        """An amount with up to nine digits after the point."""
        digits = self.dice.choice([0, 1, 2, 9])
        return f"{self.dice.randrange(most)}" + (f".{self.dice.randrange(10**digits):0{digits}}" if digits else "")

    def price(self):
        """What an import may have kept as a price: mostly an amount, also with more digits than a nano has; or something else."""
        chosen = self.dice.random()
        if chosen < 0.7:
            return self.dice.choice(["", "-", "+"]) * (chosen < 0.1) + self.amount(40) + self.dice.choice(["", "", "5", "499", "e1", "E-3"]) * (chosen < 0.4)
        return self.dice.choice(["", " 1", "1,000.00", "free", "1.2.3", "100000000.000000001", "0." + "3" * 38, "0." + "3" * 39, "1e41", ".", "null"])

    def row(self):
        dice, hour = self.dice, self.dice.randrange(HOURS)
        team = dice.choice(TEAMS)
        tags = {"team": team} if team else {}
        if dice.random() < 0.8:
            tags["ListCost"] = self.price()
        tags = json.dumps(tags) if tags else ""
        billed, effective = self.amount(20), self.amount(20)
        category, discount, quantity = "Usage", ",,", f"{dice.randrange(1, 9)}" + dice.choice(["", ".5", ".333333333"])
        chosen = dice.random()
        if chosen < 0.15:
            discount = f"provider-{dice.randrange(3)},{dice.choice(['Usage', 'Spend'])},{dice.choice(['Used', 'Used', 'Unused'])}"
        elif chosen < 0.2:
            category = dice.choice(["Purchase", "Credit", "Tax"])
            discount = f"provider-{dice.randrange(3)},Usage," + dice.choice(["", "Used"])
        elif chosen < 0.25:
            category, effective = dice.choice(["Purchase", "Tax", "Credit"]), "-" + effective
        elif chosen < 0.3:
            billed = "0"
        elif chosen < 0.35:
            quantity = ""
        unit = "Hours" if quantity and dice.random() < 0.9 else ("Other" if quantity else "")
        end = time(hour + 1)
        cells = [billed, effective, "USD", category, time(hour), end, discount, quantity, unit, dice.choice(SKUS), dice.choice(ACCOUNTS)]
        return ",".join(cells) + ',"' + tags.replace('"', '""') + '"\n'

    def commitment(self, number):
        dice = self.dice
        start, hours = dice.randrange(-20, HOURS), dice.randrange(1, 60)
        begins = f"2024-01-30T{start % 24:02}:00Z" if start < 0 else time(start)
        text = f'id = "own-{number}"\nstart = "{begins}"\nhours = {hours}\ncapacity = "{self.amount(20)}1"\n'
        if dice.random() < 0.3:
            text += f'sub_account = "{dice.choice(ACCOUNTS)}"\n'
        skus = sorted(dice.sample(SKUS, dice.randrange(1, 4)))
        if dice.random() < 0.5:
            text += f'category = "Usage"\nunit = "{dice.choice(["Hours", "Hours", "Other"])}"\nskus = [' + ", ".join(f'"{sku}"' for sku in skus) + "]\n"
        else:
            text += 'category = "Spend"\nrates = { ' + ", ".join(f"{sku} = {dice.choice([1, 250_000, 600_000, 1_000_000])}" for sku in skus) + " }\n"
        if dice.random() < 0.6:
            text += f'tags = {{ team = "{dice.choice(["web", "platform"])}" }}\n'
        for _ in range(dice.randrange(1, 3)):
            text += f'[[purchase]]\nat = "{begins}"\nbilled = "{self.amount(900)}"\n'
        return text

    def script(self):
        dice = self.dice
        number, parts = 0, []
        for _ in range(dice.randrange(1, 4)):
            number += 1
            rows = "".join(self.row() for _ in range(dice.randrange(1, 120)))
            parts.append(command(f"post rows {number}", HEADER + rows))
            if dice.random() < 0.2:
                number += 1
                parts.append(f"withdraw rows {number} {number - 1}\n")
        for at in range(dice.randrange(5)):
            parts.insert(dice.randrange(len(parts) + 1), None)
        at = 0
        for place, part in enumerate(parts):
            if part is None:
                at += 1
                parts[place] = command(f"commit own {at}", self.commitment(at))
        return "".join(parts).encode()


class House:
    """A warehouse in a folder, and the same one in expected.py."""

    def __init__(self, folder, script):
        self.folder, self.kept = str(folder), expected.Warehouse()
        folder.mkdir()
        answers = self.well("run", "--dir", self.folder, "--create", given=script).decode()
        right = "".join(expected.answers(iter(io.BytesIO(script).readline, b""), self.kept))
        if answers != right or "refused" in answers:
            raise AssertionError((answers, right))

    def well(self, *words, given=b""):
        status, output, error = focusd(*words, given=given)
        if status:
            raise AssertionError(f"{words}: {error}")
        return output

    def asked(self, *words):
        return self.well("commitments", "--dir", self.folder, *words)


UNITS = ("Unit", "Capacity", "UsedCapacity", "EligibleCapacity")


def amount_of(text):
    return expected.nanos(text) if text else None


def read_csv(text, keys, by_period, has_list=False):
    """The records of a CSV: each its hours, kind, keeper, name, units, amounts and how many rows have no price."""
    header, *rows = csv.reader(io.StringIO(text.decode()))
    hours = ["From", "To"] if by_period else []
    names = [key.name for key in keys] or ["CommitmentDiscountId"]
    if header != [*hours, "Kind", "Keeper", *names, *UNITS, *oracle.AMOUNTS, *["UnpricedRows"] * has_list]:
        raise AssertionError(header)
    for row in rows:
        cells = iter(row)
        period = tuple(next(cells) for _ in hours)
        kind, keeper = next(cells), next(cells)
        name = tuple(next(cells) for _ in (keys or [0]))
        units = (next(cells), *(amount_of(next(cells)) for _ in range(3)))
        amounts = tuple(amount_of(next(cells)) for _ in oracle.AMOUNTS)
        unpriced = next(cells, "")
        yield period, (kind, keeper, None if kind.startswith("total") else name, amounts, int(unpriced) if unpriced else None), units


# The figures of a page: a cost by its place among the amounts, or a rate by those of its part and its whole.
SHOWN = {"UsedCost": 0, "UnusedCost": 1, "AmortizedCost": 2, "Utilization": (0, 2), "PurchaseCost": 3, "CoveredCost": 4, "UncoveredCost": 5,
         "EligibleCost": 6, "Coverage": (4, 6), "Savings": 7, "SavingsRate": (7, 6)}  # fmt: skip


def percent(part, whole):
    """A rate as people see it: with one digit, the nearest, a tie away from 0; none where the whole isn't above 0."""
    if None in (part, whole) or whole <= 0:
        return ""
    tenths = int(abs(fractions.Fraction(part, whole)) * 1000 + fractions.Fraction(1, 2))
    return f"{'-' if part < 0 else ''}{tenths // 10}.{tenths % 10}%"


def savings_whole(amounts):
    """What savings are measured by: what could have been covered, or what was covered where only that is known."""
    return amounts[6] if amounts[6] is not None else amounts[4]


def shown(amounts):
    """The figures of a record as a page shows them."""
    for name, at in SHOWN.items():
        if isinstance(at, tuple):
            yield percent(amounts[at[0]], savings_whole(amounts) if name == "SavingsRate" else amounts[at[1]])
        else:
            yield "" if amounts[at] is None else cents(amounts[at])


class Tables(html.parser.HTMLParser):
    """The tables of a page: of each its label and its rows, of each row the texts of its cells, and which of these are its headings."""

    def __init__(self, text):
        super().__init__()
        self.tables, self.tags, self.cell = [], [], None
        self.feed(text)

    def handle_starttag(self, tag, attrs):
        self.tags.append((tag, dict(attrs)))
        if tag == "table":
            self.tables.append((dict(attrs)["aria-label"], [], []))
        elif tag == "tr":
            self.tables[-1][1].append([])
            self.tables[-1][2].append([])
        elif tag in ("td", "th"):
            self.cell = ""
            if tag == "th":
                self.tables[-1][2][-1].append((len(self.tables[-1][1][-1]), dict(attrs)["scope"]))

    def handle_endtag(self, tag):
        if tag in ("td", "th"):
            self.tables[-1][1][-1].append(self.cell)
            self.cell = None

    def handle_data(self, text):
        if self.cell is not None:
            self.cell += text


def periods(step):
    """The days or months of the range."""
    if step == "day":
        return [("2024-01-31T00:00Z", "2024-02-01T00:00Z"), ("2024-02-01T00:00Z", "2024-02-02T00:00Z")]
    return [("2024-01-31T00:00Z", "2024-02-01T00:00Z"), ("2024-02-01T00:00Z", "2024-02-02T00:00Z")]


class Figures(unittest.TestCase):
    def setUp(self):
        self.made = tempfile.TemporaryDirectory()
        self.addCleanup(self.made.cleanup)

    def house(self, seed):
        return House(pathlib.Path(self.made.name) / f"w{seed}", Chance(seed).script())

    def test_random_warehouses(self):
        for seed in range(SEED, SEED + RUNS):
            house = self.house(seed)
            dice = random.Random(-seed)
            keys = dice.choice([[], [], [expected.Key("team")], [expected.Key("SkuId", True)], [expected.Key("team"), expected.Key("SubAccountId", True)]])
            price_tag = dice.choice([None, "ListCost", "ListCost", "team"])
            with self.subTest(seed=seed, keys=keys, price_tag=price_tag):
                self.check(house, keys, price_tag)
                self.check_periods(house, keys, price_tag, dice.choice(["day", "month"]))
                self.check_page(house, keys, price_tag, dice.choice([None, "day", "month"]))
                self.check_laws(house)

    def words(self, keys, price_tag):
        words = [word for key in keys for word in ("--column" if key.is_column else "--tag", key.name)]
        return [*words, "--price-tag", price_tag] if price_tag else words

    def check(self, house, keys, price_tag):
        words = ["--from", LOW, "--to", HIGH, *self.words(keys, price_tag)]
        right = oracle.records(house.kept, LOW, HIGH, keys, price_tag)
        found = list(read_csv(house.asked(*words, "--format", "csv"), keys, False, price_tag is not None))
        costs, units = found[: len(right)], oracle.unit_records(house.kept, LOW, HIGH, keys)
        self.assertEqual([record for _, record, _ in costs], right)
        self.assertEqual([self.unit_record(one) for one in found[len(right) :]], [((), *one) for one in units])
        told = json.loads(house.asked(*words, "--format", "json"))
        self.check_json_units(told, units, keys)
        kept = {} if keys else oracle.units(house.kept, LOW, HIGH)
        self.check_units(costs, lambda _: kept)
        if not keys:
            for one, (_, record, _) in zip(told["records"], costs):
                own = record[:2] == ("commitment", "own")
                members = [one.get(member) for member in ("unit", "capacity", "usedCapacity", "eligibleCapacity")]
                unit, *quantities = kept[record[2][0]] if own else (None, None, None, None)
                self.assertEqual(members, [unit, *map(expected.spelled, quantities)] if own else [None] * 4)
        self.check_json(told, right, keys, price_tag)
        self.check_note(house.asked(*words).decode(), right, price_tag)

    def unit_record(self, found):
        """A record of quantities, without the costs, which it doesn't have."""
        period, (kind, keeper, name, amounts, unpriced), (unit, capacity, used, eligible) = found
        self.assertEqual((keeper, set(amounts), unpriced), ("own", {None}, None))
        return period, kind, name, unit, capacity, used, eligible

    def check_json_units(self, found, units, keys):
        """The quantities of groups and of all as JSON."""
        right = []
        for kind, name, unit, capacity, used, eligible in units:
            one = {"kind": kind.split()[0], "unit": unit, "usedCapacity": expected.spelled(used), "eligibleCapacity": expected.spelled(eligible)}
            one |= {} if name is None else {"keys": {key.name: text for key, text in zip(keys, name)}}
            right.append(one | ({} if capacity is None else {"capacity": expected.spelled(capacity)}))
        self.assertEqual(found["units"], right)

    def check_units(self, found, units):
        """What is known in units of each own commitment, and of no other record; and rows used no more than they could have used."""
        for period, (kind, keeper, name, _, _), shown in found:
            if kind.endswith("units"):
                continue
            own = kind == "commitment" and keeper == "own"
            self.assertEqual(shown, units(period)[name[0]] if own else ("", None, None, None), name)
            if own:
                _, capacity, used, eligible = shown
                self.assertLessEqual(used, min(capacity, eligible))

    def check_note(self, text, right, price_tag):
        """Behind a table it is said how many rows have no price, where some have none."""
        count = sum(unpriced or 0 for kind, *_, unpriced in right if kind == "total")
        note = text.splitlines()[-1] if count else ""
        rows = "1 row that is covered by providers' commitments has" if count == 1 else f"{count} rows that are covered by providers' commitments have"
        self.assertEqual(note, f"{rows} no amount in the tag {price_tag}: CoveredCost and Savings are too low by what it would be." if count else "")
        self.assertEqual(text.count("no amount"), 1 if count else 0)

    def check_json(self, found, right, keys, price_tag):
        self.assertEqual((found["keys"], found["currency"], found["from"], found["to"]), ([key.name for key in keys], "USD", LOW, HIGH))
        self.assertEqual(found.get("priceTag"), price_tag)
        self.assertEqual(len(found["records"]), len(right))
        for one, (kind, keeper, name, amounts, unpriced) in zip(found["records"], right):
            self.assertEqual((one["kind"], one["keeper"]), (kind, keeper))
            if kind == "group":
                self.assertEqual(one["keys"], {key.name: text for key, text in zip(keys, name)})
            elif kind == "commitment":
                self.assertEqual(one["id"], name[0])
            members = [column[0].lower() + column[1:] for column in oracle.AMOUNTS]
            self.assertEqual([amount_of(one.get(member, "")) for member in members], list(amounts))
            used, _, amortized, _, covered, _, eligible, savings = amounts
            whole = savings_whole(amounts)
            for rate, part, whole in (("utilization", used, amortized), ("coverage", covered, eligible), ("effectiveSavingsRate", savings, whole)):
                spelled = {"part": expected.spelled(part), "whole": expected.spelled(whole)} if None not in (part, whole) else None
                self.assertEqual(one.get(rate), spelled)
            self.assertEqual(one.get("unpricedRows"), unpriced)

    def check_periods(self, house, keys, price_tag, step):
        words = ["--from", LOW, "--to", HIGH, *self.words(keys, price_tag), "--by", step]
        right = [(period, record) for period in periods(step) for record in oracle.records(house.kept, *period, keys, price_tag)]
        found = list(read_csv(house.asked(*words, "--format", "csv"), keys, True, price_tag is not None))
        self.assertEqual([(period, record) for period, record, _ in found if not record[0].endswith("units")], right)
        units = [(period, *one) for period in periods(step) for one in oracle.unit_records(house.kept, *period, keys)]
        self.assertEqual([self.unit_record(one) for one in found if one[1][0].endswith("units")], units)
        self.check_units(found, lambda period: {} if keys else oracle.units(house.kept, *period))
        told = json.loads(house.asked(*words, "--format", "json"))
        self.assertEqual((told["by"], [(one["from"], one["to"]) for one in told["periods"]]), (step, periods(step)))
        self.assertEqual(sum(len(one["records"]) for one in told["periods"]), len(right))
        for period, one in zip(periods(step), told["periods"]):
            self.check_json_units(one, oracle.unit_records(house.kept, *period, keys), keys)

    def check_page(self, house, keys, price_tag, step):
        """The tables that a reader of a page gets, cell by cell, the chart, and what is said of prices."""
        words = ["--from", LOW, "--to", HIGH, *self.words(keys, price_tag), *(["--by", step] if step else [])]
        text = house.asked(*words, "--format", "html").decode()
        page = Tables(text)
        names = [*([key.name for key in keys] or ["Commitment"]), "Keeper", *SHOWN]

        def rows(low, high, period):
            for kind, keeper, name, amounts, _ in oracle.records(house.kept, low, high, keys, price_tag):
                texts = ["Total", *[""] * (len(keys) - 1)] if kind == "total" else [text or "(none)" for text in name]
                yield [*period, *texts, keeper, *shown(amounts)]

        def unit_rows(low, high, period):
            by_name = [] if keys else [(None, (id,), *found) for id, found in sorted(oracle.units(house.kept, low, high).items(), key=lambda one: one[0].encode())]
            for _, name, unit, capacity, used, eligible in by_name + oracle.unit_records(house.kept, low, high, keys):
                texts = ["Total", *[""] * (len(keys) - 1)] if name is None else [text or "(none)" for text in name]
                rates = percent(used, capacity), percent(used, eligible)
                yield [*period, *texts, unit or "USD", "" if capacity is None else cents(capacity), cents(used), rates[0], cents(eligible), rates[1]]

        wanted = []
        if step:
            found = [row for low, high in periods(step) for row in rows(low, high, [low[: 7 if step == "month" else 10]])]
            wanted.append(("Figures by period", [["Period", *names], *found]))
        wanted.append(("Figures of the whole range", [names, *rows(LOW, HIGH, [])]))
        in_units = list(unit_rows(LOW, HIGH, []))
        if in_units:
            names = [*([key.name for key in keys] or ["Commitment"]), "Unit", "Capacity", "UsedCapacity", "Utilization", "EligibleCapacity", "Coverage"]
            if step:
                found = [row for low, high in periods(step) for row in unit_rows(low, high, [low[: 7 if step == "month" else 10]])]
                wanted.append(("Quantities by period", [["Period", *names], *found]))
            wanted.append(("Quantities of the whole range", [names, *in_units]))
        self.assertEqual([(label, cells) for label, cells, _ in page.tables], wanted)
        for _, cells, headings in page.tables:
            self.assertEqual(headings, [[(at, "col") for at in range(len(cells[0]))], *[[(0, "row")]] * (len(cells) - 1)])
        drawn = [attrs["class"] for tag, attrs in page.tags if tag == "rect"]
        self.assertEqual(sorted(drawn), sorted(["c0", "c1"] * len(periods(step))) if step else [])
        for word in ("<script", "http:", "https:", "src=", "href="):
            self.assertNotIn(word, text)
        unpriced = sum(one or 0 for kind, *_, one in oracle.records(house.kept, LOW, HIGH, keys, price_tag) if kind == "total")
        said = f"{unpriced} row{' that is' if unpriced == 1 else 's that are'} covered by providers"
        self.assertEqual((said in text, "no amount in the tag" in text), (unpriced > 0, unpriced > 0))
        self.assertEqual(f"prices of what providers' commitments cover: {price_tag}</p>" in text, price_tag is not None)

    def check_laws(self, house):
        """Per commitment and per group the parts sum to the totals, and savings are what reports without and with the commitments differ by."""
        by_id = oracle.figures(house.kept, LOW, HIGH, (), "ListCost")
        by_team = oracle.figures(house.kept, LOW, HIGH, [expected.Key("team")], "ListCost")
        for keeper in ("own", "provider"):
            for what in ("used", "unused", "paid", "covered", "unpriced"):
                total = getattr(by_id[keeper][None], what)
                for kept in (by_id, by_team):
                    self.assertEqual(sum(getattr(one, what) for name, one in kept[keeper].items() if name), total)
        total = by_team["own"][None]
        self.assertEqual(sum(one.eligible for name, one in by_team["own"].items() if name), total.eligible)
        lines = list(house.kept.lines_between(LOW, HIGH))
        rows = [row for hour in range(house.kept.times.hour(LOW), house.kept.times.hour(HIGH)) for row in house.kept.rows.get(hour, ())]
        without, with_them = sum(row.effective for row in rows), sum(line.effective for line in lines)
        self.assertEqual(total.covered - total.used - total.unused, without - with_them)

    def test_table(self):
        """What people see: cents, and percent with one digit after the point."""
        row = "{0},{0},USD,Usage,2024-01-31T00:00Z,2024-01-31T01:00Z,,,,{1},Hours,a,one,\"{{\"\"team\"\":\"\"{2}\"\"}}\"\n"
        provider = '0,3,USD,Usage,2024-01-31T00:00Z,2024-01-31T01:00Z,plan,Spend,Used,1,Hours,b,one,\n1,1,USD,Usage,2024-01-31T00:00Z,2024-01-31T01:00Z,plan,Spend,Unused,1,Hours,b,one,\n'
        commitment = 'id = "own"\ncategory = "Usage"\nunit = "Hours"\nskus = ["a"]\nstart = "2024-01-31T00:00Z"\nhours = 2\ncapacity = "3"\n[[purchase]]\nat = "2024-01-31T00:00Z"\nbilled = "4"\n'
        script = command("post rows 1", HEADER + row.format("3", "2", "web") + row.format("8", "4", "shop") + provider) + command("commit own 1", commitment)
        house = House(pathlib.Path(self.made.name) / "table", script.encode())
        self.assertEqual(
            [line.rstrip() for line in house.asked("--from", LOW, "--to", HIGH).decode().splitlines()],
            [
                "Commitment  Keeper    Utilization  UnusedCost  AmortizedCost  CoveredCost  EligibleCost  Coverage  Savings  SavingsRate",
                "----------  --------  -----------  ----------  -------------  -----------  ------------  --------  -------  -----------",
                "own         own             50.0%        2.00           4.00         5.00         11.00     45.5%     1.00         9.1%",
                "plan        provider        75.0%        1.00           4.00",
                "----------  --------  -----------  ----------  -------------  -----------  ------------  --------  -------  -----------",
                "Total       own             50.0%        2.00           4.00         5.00         11.00     45.5%     1.00         9.1%",
                "Total       provider        75.0%        1.00           4.00",
                "",
                "Commitment  Unit   Capacity  UsedCapacity  Utilization  EligibleCapacity  Coverage",
                "----------  -----  --------  ------------  -----------  ----------------  --------",
                "own         Hours      6.00          3.00        50.0%              6.00     50.0%",
                "----------  -----  --------  ------------  -----------  ----------------  --------",
                "Total       Hours      6.00          3.00        50.0%              6.00     50.0%",
            ],
        )
        # The commitment takes 2 Hours of web's row, which comes first, and 1 of the 4 of shop's.
        lines = [line.rstrip() for line in house.asked("--from", LOW, "--to", HIGH, "--tag", "team", "--by", "day").decode().splitlines()]
        self.assertEqual(
            lines[lines.index("") + 1 :],
            [
                "Period      team   Unit   Capacity  UsedCapacity  Utilization  EligibleCapacity  Coverage",
                "----------  -----  -----  --------  ------------  -----------  ----------------  --------",
                "2024-01-31  shop   Hours                    1.00                           4.00     25.0%",
                "2024-01-31  web    Hours                    2.00                           2.00    100.0%",
                "----------  -----  -----  --------  ------------  -----------  ----------------  --------",
                "            Total  Hours      6.00          3.00        50.0%              6.00     50.0%",
            ],
        )

    def test_a_page_shows_texts_of_others_as_texts(self):
        """An id and a tag with markup, and what is drawn of a period: 3 used and 1 unused of 4 that are as high as the chart."""
        sign = "<b>&'"
        row = f'{{}},USD,Usage,2024-01-31T00:00Z,2024-01-31T01:00Z,{sign},Spend,{{}},1,Hours,a,one,"{{{{""{sign}"":""x""}}}}"\n'
        script = command("post rows 1", HEADER + row.format("0,3", "Used") + row.format("1,1", "Unused"))
        house = House(pathlib.Path(self.made.name) / "markup", script.encode())
        text = house.asked("--from", LOW, "--to", HIGH, "--by", "month", "--format", "html").decode()
        self.assertIn("<td class=\"text\">&lt;b&gt;&amp;&#39;</td>", text)
        self.assertIn("<title>Commitments</title>", text)
        self.assertIn('<rect class="c1" x="10" y="750" width="80" height="250"><title>2024-01, UnusedCost: 1.00</title></rect>', text)
        self.assertIn('<rect class="c0" x="10" y="0" width="80" height="750"><title>2024-01, UsedCost: 3.00</title></rect>', text)
        by_tag = house.asked("--from", LOW, "--to", HIGH, "--tag", sign, "--format", "html").decode()
        self.assertIn('<th scope="col" class="text">&lt;b&gt;&amp;&#39;</th>', by_tag)
        self.assertNotIn("<b>", text + by_tag)

    def provided(self, name, commitment=None):
        """A warehouse of the export of a provider, perhaps with a commitment of its own, and what is known of its commitments by id."""
        folder = pathlib.Path(self.made.name) / name
        status, _, error = focusd("import", "--quiet", "--create", "--dir", str(folder), "--origin", name, str(HERE / "providers" / f"{name}.csv"))
        self.assertEqual(status, 0, error)
        if commitment:
            file = pathlib.Path(self.made.name) / f"{name}.toml"
            file.write_text(commitment)
            status, _, error = focusd("add", "--yes", "--dir", str(folder), "--origin", "own", str(file))
            self.assertEqual(status, 0, error)
        status, text, error = focusd("commitments", "--dir", str(folder), "--month", "2024-09", "--format", "csv")
        self.assertEqual(status, 0, error)
        return {record[2]: (record[3], units) for _, record, units in read_csv(text, [], False) if record[0] == "commitment"}

    def test_prices_that_an_import_kept(self):
        """A column is kept as a tag, and read as the price of what a provider's commitment covers."""
        header = HEADER.replace(",Tags", ",Tags,ListCost")
        rows = [
            ("0,3.25,USD,Usage,2024-01-31T00:00Z,2024-01-31T01:00Z,plan,Spend,Used,1,Hours,b,one,", "4.0000000005"),  # rounds to the even nano
            ("0,1,USD,Usage,2024-01-31T01:00Z,2024-01-31T02:00Z,plan,Spend,Used,1,Hours,b,one,", "1.5E0"),
            ("0,2,USD,Usage,2024-01-31T02:00Z,2024-01-31T03:00Z,plan,Spend,Used,1,Hours,b,one,", ""),  # no price
            ("0.75,0.75,USD,Usage,2024-01-31T00:00Z,2024-01-31T01:00Z,plan,Spend,Unused,1,Hours,b,one,", "9"),  # not covered
            ("0,1,USD,Usage,2024-01-31T00:00Z,2024-01-31T01:00Z,other,Usage,Used,1,Hours,b,one,", "$2"),  # no amount
        ]
        file = pathlib.Path(self.made.name) / "kept.csv"
        file.write_text(header + "".join(f"{row},{price}\n" for row, price in rows))
        folder = str(pathlib.Path(self.made.name) / "kept")
        status, _, error = focusd("import", "--quiet", "--create", "--dir", folder, "--origin", "kept", "--keep", "ListCost=price", str(file))
        self.assertEqual(status, 0, error)
        words = ["commitments", "--dir", folder, "--from", LOW, "--to", HIGH, "--price-tag"]
        found = focusd(*words, "price", "--format", "csv")[1].decode().splitlines()[1:]
        self.assertEqual(
            found,
            [
                "commitment,provider,other,,,,,1.000000000,0.000000000,1.000000000,0.000000000,0.000000000,,,-1.000000000,1",
                "commitment,provider,plan,,,,,6.250000000,0.750000000,7.000000000,0.000000000,5.500000000,,,-1.500000000,1",
                "total,provider,,,,,,7.250000000,0.750000000,8.000000000,0.000000000,5.500000000,,,-2.500000000,2",
            ],
        )
        table = focusd(*words, "price")[1].decode()
        self.assertEqual(
            [line.rstrip() for line in table.splitlines()],
            [
                "Commitment  Keeper    Utilization  UnusedCost  AmortizedCost  CoveredCost  EligibleCost  Coverage  Savings  SavingsRate",
                "----------  --------  -----------  ----------  -------------  -----------  ------------  --------  -------  -----------",
                "other       provider       100.0%        0.00           1.00         0.00                            -1.00",
                "plan        provider        89.3%        0.75           7.00         5.50                            -1.50       -27.3%",
                "----------  --------  -----------  ----------  -------------  -----------  ------------  --------  -------  -----------",
                "Total       provider        90.6%        0.75           8.00         5.50                            -2.50       -45.5%",
                "",
                "2 rows that are covered by providers' commitments have no amount in the tag price: CoveredCost and Savings are too low by what it would be.",
            ],
        )
        self.assertIn("\n4 rows that are covered", focusd(*words, "absent")[1].decode())
        missing = "focusd: no row and no commitment of the range has the tag {}; the tags there are: "
        self.assertTrue(focusd(*words, "absent", "--format", "csv")[2].startswith(missing.format("absent")))
        self.assertTrue(focusd(*words, "price", "--tag", "nobody")[2].startswith(missing.format("nobody")))
        self.assertEqual(focusd(*words, "price")[2], "")

    def test_four_exports_by_hand(self):
        """The sums that docs/FINOPS.md works out."""
        own = 'id = "own"\nstart = "2024-09-01T00:00Z"\nhours = 2\n{}[[purchase]]\nat = "2024-09-01T00:00Z"\nbilled = "{}"\n'
        hours = 'category = "Usage"\nunit = "Hours"\nskus = ["B88317"]\ncapacity = "4.5"\n'
        spend = 'category = "Spend"\ncapacity = "1"\nrates = { "2DA5-55D3-E679" = 1000000 }\n'
        of_provider = ("", None, None, None)
        for name, commitment, end, units, amounts in (
            ("amazon", None, "0b3c6a52", of_provider, (2692288294, 0, 2692288294, 0, None, None, None, None)),
            ("microsoft", None, "8e2a", of_provider, (0, 0, 0, 2429201562, None, None, None, None)),
            ("google", own.format(spend, 2), "own", ("", 2 * 10**9, 0, 0), (0, 2 * 10**9, 2 * 10**9, 2 * 10**9, 0, 0, 0, -2 * 10**9)),
            (
                "oracle", own.format(hours, 3), "own", ("Hours", 9 * 10**9, 9 * 10**9, 12 * 10**9),
                (3 * 10**9, 0, 3 * 10**9, 3 * 10**9, 4843171415, 1607153785, 6450325200, 1843171415),
            ),
        ):  # fmt: skip
            with self.subTest(name):
                found = [kept for id, kept in self.provided(name, commitment).items() if id[0].endswith(end)]
                self.assertEqual(found, [(amounts, units)])

    def test_a_commitment_to_a_cost_by_hand(self):
        """What docs/FINOPS.md works out of half of each row's cost."""
        half = 'id = "own"\nstart = "2024-09-01T00:00Z"\nhours = 2\ncategory = "Spend"\ncapacity = "1"\nrates = { B88317 = 500000 }\n[[purchase]]\nat = "2024-09-01T00:00Z"\nbilled = "3"\n'
        _, units = self.provided("oracle", half)[("own",)]
        self.assertEqual(units, ("", 2 * 10**9, 2 * 10**9, 3225162602))

    def test_wrong_use(self):
        folder = str(pathlib.Path(self.made.name) / "wrong")
        House(pathlib.Path(folder), b"state\n")
        for words in (["--by", "week"], ["--format", "xml"], ["--column", "Nothing"], ["--tag", "a", "--tag", "a"], ["--month", "2024"], ["--from", HIGH, "--to", LOW]):
            self.assertEqual(focusd("commitments", "--dir", folder, *words)[0], 2, words)
        for words in (["--as-of", "7", "--from", LOW, "--to", HIGH], []):
            self.assertEqual(focusd("commitments", "--dir", folder, *words)[0], 1, words)


if __name__ == "__main__":
    run_tests(__doc__, RUNS="how many random warehouses", SEED="the seed of the first one")
