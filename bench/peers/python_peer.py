#!/usr/bin/env python3
"""The job by Python's standard library: rows kept in a list, then one report.

    bench/peers/python_peer.py exact export.csv 2024-09-01T00:00Z 2024-10-01T00:00Z

`exact` rounds each amount to its nano by decimal, `float` sums floats, as most
scripts do. The export is one file; each different text of a time is read once.
"""
import argparse
import csv
import datetime
import decimal
import json
import sys

COLUMNS = "BilledCost EffectiveCost BillingCurrency ChargeCategory ChargePeriodStart ChargePeriodEnd".split()
CATEGORIES = {"Usage", "Purchase", "Tax", "Credit", "Adjustment"}
EXACT = decimal.Context(prec=100, rounding=decimal.ROUND_HALF_EVEN)
NANO = decimal.Decimal("1e-9")
LIMIT = decimal.Decimal(10**8)


def read_exact(text):
    """Nanos."""
    amount = EXACT.quantize(decimal.Decimal(text), NANO)
    if abs(amount) > LIMIT:
        raise ValueError(f"the amount {text} is too great")
    return int(EXACT.scaleb(amount, 9))


def spell_exact(amount):
    return f"{'-' if amount < 0 else ''}{abs(amount) // 10**9}.{abs(amount) % 10**9:09d}"


def spell_float(amount):
    return f"{amount:.9f}"


def seconds(text):
    return int(datetime.datetime.fromisoformat(text.replace("Z", "+00:00")).timestamp())


class Times(dict):
    def __missing__(self, text):
        self[text] = seconds(text)
        return self[text]


def team(text):
    """The group of a text of tags."""
    group = json.loads(text).get("team") if text else None
    return {None: "", True: "true", False: "false"}.get(group, group)


def read_rows(path, amount):
    times, kept = Times(), []
    with open(path, newline="", encoding="utf-8-sig") as file:
        records = csv.reader(file, strict=True)
        header = next(records)
        billed, effective, currency, category, start, end = (header.index(column) for column in COLUMNS)
        tags = header.index("Tags") if "Tags" in header else None
        for record in records:
            first, last = times[record[start]], times[record[end]]
            if record[currency] != "USD" or record[category] not in CATEGORIES or not 0 <= first <= last:
                raise ValueError(f"line {records.line_num} breaks a rule")
            group = team(record[tags]) if tags is not None else ""
            kept.append((first, group, amount(record[billed]), amount(record[effective])))
    return kept


def main():
    parser = argparse.ArgumentParser(description=__doc__, formatter_class=argparse.RawDescriptionHelpFormatter)
    parser.add_argument("how", choices=["exact", "float"], help="how amounts are summed")
    parser.add_argument("export", metavar="EXPORT", help="the CSV")
    parser.add_argument("low", metavar="FROM", type=seconds, help="when the range begins")
    parser.add_argument("high", metavar="TO", type=seconds, help="when it ends")
    options = parser.parse_args()
    low, high = options.low, options.high
    amount, spell = (read_exact, spell_exact) if options.how == "exact" else (float, spell_float)
    kept = read_rows(options.export, amount)
    sums = {}
    for start, group, billed, effective in kept:
        if low <= start < high:
            pair = sums.setdefault(group, [0, 0])
            pair[0] += billed
            pair[1] += effective
    out = csv.writer(sys.stdout, lineterminator="\n")
    out.writerow(["Group", "BilledCost", "EffectiveCost", "ChargedCost"])
    for group in sorted(sums, key=str.encode):
        billed, effective = map(spell, sums[group])
        out.writerow([group, billed, effective, effective])


if __name__ == "__main__":
    main()
