#!/usr/bin/env python3
"""Writes a script for `focusd run`: a year of hourly rows under overlapping commitments, with reports and lines.

    python3 examples/make_year.py > year.script
    python3 examples/make_year.py --days 3 --seed 7 > days.script

Commitments to quantities and to costs overlap in time and in SKUs, and run out in mid-row in most hours; some rows are of
one sub-account only, some are older charges that no commitment may cover. The same bytes for the same options.
"""
import argparse
import datetime
import random
import sys

START = datetime.datetime(2024, 1, 1)
HEADER = (
    "BilledCost,EffectiveCost,BillingCurrency,ChargeCategory,ChargeClass,ChargePeriodStart,ChargePeriodEnd,"
    "ConsumedQuantity,ConsumedUnit,SkuId,SubAccountId,Tags"
)
SKUS = ["m5.large", "m5.xlarge", "c6g.large", "r5.large"]
TEAMS = ["web", "data", "search, ranking", "facturación", ""]
MOST_ROWS = 4_096


def time_text(time):
    return time.strftime("%Y-%m-%dT%H:%MZ")


def nanos_text(nanos):
    return f"{nanos // 10**9}.{nanos % 10**9:09d}"


def commitment(name, kind, start, hours, capacity, scope, purchases, account=None):
    """The lines of a commitment's TOML."""
    lines = [f'id = "{name}"', f'category = "{kind}"', f'start = "{time_text(start)}"', f"hours = {hours}", f'capacity = "{capacity}"']
    if kind == "Usage":
        lines += ['unit = "Hours"', "skus = [" + ", ".join(f'"{sku}"' for sku in scope) + "]"]
    else:
        lines += ["rates = { " + ", ".join(f'"{sku}" = {ppm}' for sku, ppm in scope.items()) + " }"]
    if account:
        lines += [f'sub_account = "{account}"']
    lines += ["[tags]", 'team = "platform"']
    for at, billed in purchases:
        lines += ["[[purchase]]", f'at = "{time_text(at)}"', f'billed = "{billed}"']
    return lines


def commitments(days):
    """Eight commitments that begin and end all over the days."""
    hours = days * 24
    at = lambda part: START + datetime.timedelta(hours=hours * part // 100)
    length = lambda part: max(1, hours * part // 100)
    whole = {"m5.large": 700_000, "m5.xlarge": 650_000, "c6g.large": 812_345, "r5.large": 1_000_000}
    return [
        commitment("ri-m5", "Usage", at(0), length(100), "1.75", SKUS[:2], [(at(0), "1234.567890123")]),
        commitment("ri-m5-late", "Usage", at(40), length(80), "0.333333333", SKUS[:1], [(at(40), "99.99"), (at(60), "0.000000001")]),
        commitment("ri-all", "Usage", at(10), length(50), "1", SKUS, [(at(10), "700")], account="shop"),
        commitment("ri-dear", "Usage", at(10), length(50), "0.25", SKUS[2:], [(at(5), "10"), (at(10), "10.000000007")]),
        commitment("sp-whole", "Spend", at(0), length(100), "0.2", whole, [(at(0), "900.123456789")]),
        commitment("sp-small", "Spend", at(25), length(30), "0.000000007", {"r5.large": 1}, [(at(25), "0.000000003")]),
        commitment("sp-free", "Spend", at(50), length(60), "0.05", {"m5.large": 500_000, "r5.large": 499_999}, [(at(50), "0")]),
        commitment("sp-old", "Spend", at(0) - datetime.timedelta(hours=30), 40, "0.5", whole, [(at(0) - datetime.timedelta(hours=30), "7")]),
    ]


def row(chance, time):
    """One charge of an hour, or of a longer period."""
    sku, team = chance.choice(SKUS), chance.choice(TEAMS)
    billed = chance.randrange(10**9)
    quantity = chance.choice([10**9, 10**9, chance.randrange(1, 2 * 10**9)])
    category, correction, end = "Usage", "", time + datetime.timedelta(hours=1)
    if chance.random() < 0.05:
        category, quantity = chance.choice(["Tax", "Credit", "Adjustment"]), 0
    elif chance.random() < 0.03:
        correction = "Correction"
    elif chance.random() < 0.03:
        end = time + datetime.timedelta(days=1)
    sign = "-" if category == "Credit" else ""
    tags = f'"{{""team"":""{team}""}}"' if team else ""
    effective = billed - billed // 9
    fields = [
        sign + nanos_text(billed), sign + nanos_text(effective), "USD", category, correction, time_text(time), time_text(end),
        nanos_text(quantity) if quantity else "", "Hours" if quantity else "", sku, chance.choice(["shop", "lab", ""]), tags,
    ]  # fmt: skip
    return ",".join(fields)


def script(days, seed, rows_an_hour):
    chance = random.Random(seed)
    sequence = 0

    def entry(word, lines):
        nonlocal sequence
        sequence += 1
        return [f"{word} year {sequence} {len(lines)}", *lines]

    for lines in commitments(days):
        yield from entry("commit", lines)
    rows = []
    for hour in range(days * 24):
        time = START + datetime.timedelta(hours=hour)
        rows += [row(chance, time) for _ in range(chance.randrange(2 * rows_an_hour + 1))]
        while len(rows) >= MOST_ROWS:
            yield from entry("post", [HEADER, *rows[:MOST_ROWS]])
            rows = rows[MOST_ROWS:]
    if rows:
        yield from entry("post", [HEADER, *rows])
    first, last = time_text(START - datetime.timedelta(days=2)), time_text(START + datetime.timedelta(days=days + 2))
    middle = time_text(START + datetime.timedelta(days=days // 2))
    yield f"report team {first} {last}"
    rules = ["[[rule]]", 'from = "platform"', "proportional = true", "[[rule]]", 'from = ""', 'to = { web = 2, data = 1, "new group" = 4 }']
    yield from entry("policy", ['key = "team"', *rules])
    yield f"report team {first} {last}"
    yield f"report team {middle} {last}"
    yield f"report other {first} {last}"
    yield f"lines {first} {last}"


def main():
    parser = argparse.ArgumentParser(description=__doc__, formatter_class=argparse.RawDescriptionHelpFormatter)
    parser.add_argument("--days", type=int, default=366, help="how many days (default: 366)")
    parser.add_argument("--seed", type=int, default=1, help="another seed gives other rows (default: 1)")
    parser.add_argument("--rows-an-hour", type=int, default=5, help="how many rows an hour has on average (default: 5)")
    options = parser.parse_args()
    for line in script(options.days, options.seed, options.rows_an_hour):
        sys.stdout.buffer.write(line.encode() + b"\n")


if __name__ == "__main__":
    main()
