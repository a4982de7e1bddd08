#!/usr/bin/env python3
"""Writes a script of entries at the limits of a warehouse, and one past each.

    python3 examples/make_limits.py > limits.script

A post that is written in 4,194,304 bytes, which is the most, and one of a byte more; one of 4,096 rows, and one of a row more, which
is looked at no further, and one whose third row is wrong; 256 commitments, and one more; as many purchases as may be added to one of
them, and one more; and entries that are sent twice or out of turn.

Two posts have rows of 256 tags, which is the most: one as many rows as may be, which are read and then too many bytes for an entry,
and one as many as an entry has room for. The longest post is withdrawn, and so is the one of rows of the most tags.

Two of the commitments have all that one may have: 26,304 hours, 256 SKUs or rates, 256 tags and 64 purchases. Rows of 256 tags
use them. All others run in one hour, and rows of that hour are enough for each of them. Reports and lines are over 26,304 hours, which
is the most, under policies of 64 rules: each with weights for 256 groups, and then each in proportion; and one report is asked for over
an hour more. The last questions come after a checkpoint, so that they can be asked once more of a warehouse that is opened again.
"""
import argparse
import sys

MOST_BYTES = 4_194_304
MOST_COMMITMENTS = 256
MOST_ROWS = 4_096
MOST_HOURS = 26_304
MOST_SKUS = 256
MOST_TAGS = 256
MOST_PURCHASES = 64
MOST_RULES = 64
MOST_TARGETS = 256
ORIGIN = "limits"
HEADER = "BilledCost,EffectiveCost,BillingCurrency,ChargeCategory,ChargePeriodStart,ChargePeriodEnd,Tags"
# What an entry has beside its origin and its rows, what a row has that has one tag, and what is put into most tags.
ENTRY, ROW, LONG = 4 + 8 + 1 + 4, 34 + 3 + 1 + 3 + 4 + 8 + len("k"), 1_000


def row(length):
    tags = '"{""k"":""' + "x" * length + '""}"'
    return f"1,1,USD,Tax,2024-01-01T00:00Z,2024-01-01T01:00Z,{tags}"


def post(number, size):
    """A post that is written in so many bytes."""
    whole, rest = divmod(size - ENTRY - len(ORIGIN), ROW + LONG)
    if rest < ROW:
        whole, rest = whole - 1, rest + ROW + LONG
    rows = [row(LONG)] * whole + [row(rest - ROW)]
    return f"post {ORIGIN} {number} {len(rows) + 1}\n{HEADER}\n" + "\n".join(rows) + "\n"


def post_of_rows(number, rows):
    """A post of these rows, after the header."""
    return f"post rows {number} {len(rows) + 1}\n{HEADER}\n" + "\n".join(rows) + "\n"


def posts_of_many_rows():
    """As many rows as may be; one more, of too few fields; and a wrong third row before as many as may be."""
    most, wrong = [row(1)] * MOST_ROWS, row(1).replace("Tax", "Taxes")
    return [post_of_rows(1, most), post_of_rows(2, [*most, "x"]), post_of_rows(2, [row(1), row(1), wrong, *most])]


def wide_row():
    """A row of as many tags as there may be."""
    tags = ",".join(f'""{tag:x}"":""""' for tag in range(MOST_TAGS))
    return row(1).rsplit(",", 1)[0] + f',"{{{tags}}}"'


def posts_of_wide_rows():
    """As many rows as may be, of as many tags each: more bytes than an entry has room for; and as many as it has room for."""
    tags = sum(8 + len(f"{tag:x}") for tag in range(MOST_TAGS))
    room = (MOST_BYTES - ENTRY - len("rows")) // (ROW - 8 - len("k") + tags)
    return [post_of_rows(2, [wide_row()] * MOST_ROWS), post_of_rows(2, [wide_row()] * (room + 1)), post_of_rows(2, [wide_row()] * room)]


def rows_for_all(number):
    """A post of rows that are enough for every commitment of one hour, with something left."""
    lines = [f"{HEADER.replace('Tags', 'ConsumedQuantity,ConsumedUnit,SkuId')}"]
    lines += [f"{place}.75,{place}.5,USD,Usage,2024-01-01T00:00Z,2024-01-01T01:00Z,2.51,Hours,vm" for place in range(102)]
    return f"post all {number} {len(lines)}\n" + "\n".join(lines) + "\n"


def commitment(number):
    return f"""commit ids {number} 10
id = "cd-{number}"
category = "Usage"
start = "2024-01-01T00:00Z"
hours = 1
capacity = "1"
unit = "Hours"
skus = ["vm"]
[[purchase]]
at = "2024-01-01T00:00Z"
billed = "1"
"""


def widest(number):
    """A commitment that has as much of everything as there may be: to a quantity where the number is odd, else to a cost."""
    skus = [f"vm-{place:03}" for place in range(MOST_SKUS)]
    if number % 2:
        terms = ['category = "Usage"', 'unit = "Hours"', f"skus = {list(map(str, skus))}".replace("'", '"')]
    else:
        terms = ['category = "Spend"', "rates = { " + ", ".join(f"{sku} = {1_000_000 - place}" for place, sku in enumerate(skus)) + " }"]
    lines = [f'id = "cd-{number}"', *terms, 'start = "2024-01-01T00:00Z"', f"hours = {MOST_HOURS}", 'capacity = "1.5"']
    lines += ["[tags]", 'team = "reserved"', *(f'tag-{place:03} = "{place}"' for place in range(1, MOST_TAGS))]
    for place in range(MOST_PURCHASES):
        lines += ["[[purchase]]", f'at = "2024-01-{place % 28 + 1:02}T{place % 24:02}:00Z"', f'billed = "{place}.000000007"']
    return f"commit ids {number} {len(lines)}\n" + "\n".join(lines) + "\n"


def added_purchases():
    """A purchase to a commitment that has as many as there may be; and to one that has a single one as many more, and one after these."""
    for number, name in enumerate([1, *[3] * MOST_PURCHASES]):
        at = f"2024-{number % 12 + 1:02}-01T{number % 24:02}:{number % 60:02}Z"
        yield f'add paid {max(number, 1)} 3\nid = "cd-{name}"\nat = "{at}"\nbilled = "{number}.000000001"\n'


def withdrawals():
    """The longest post and that of the widest rows are withdrawn, the latter twice, and posts that aren't there: of the greatest number, and one past it."""
    greatest = 2**64 - 1
    targets = [(ORIGIN, 2, 1), (ORIGIN, 3, greatest), (ORIGIN, 3, greatest + 1), (ORIGIN, greatest, 1), ("rows", 3, 2), ("rows", 4, 2)]
    return [f"withdraw {origin} {number} {target}\n" for origin, number, target in targets]


def rows_of_teams(number):
    """A post of rows of many teams with 256 tags each, from the first hour of the longest range to the last."""
    lines = ["BilledCost,EffectiveCost,BillingCurrency,ChargeCategory,ChargePeriodStart,ChargePeriodEnd,ConsumedQuantity,ConsumedUnit,SkuId,Tags"]
    for place in range(600):
        day, hour = ("2024-01-01", place % 24) if place < 500 else ("2026-12-31", 23)
        tags = [f'""team"":""team-{place % 320:03}""', *(f'""tag-{tag:03}"":""""' for tag in range(1, MOST_TAGS))]
        lines.append(
            f"{place}.5,{place}.25,USD,Usage,{day}T{hour:02}:00Z,{day}T{hour:02}:30Z,0.{place % 7 + 1},Hours,vm-{place % MOST_SKUS:03},"
            f'"{{{",".join(tags)}}}"'
        )
    return f"post teams {number} {len(lines)}\n" + "\n".join(lines) + "\n"


def policy(number, rule):
    """A policy of as many rules as there may be: 63 teams and the rows of no team give their costs away."""
    lines = ['key = "team"']
    for place in range(MOST_RULES):
        lines += ["[[rule]]", f'from = "team-{place:03}"' if place else 'from = ""', rule(place)]
    return f"policy shares {number} {len(lines)}\n" + "\n".join(lines) + "\n"


def weights(place):
    """Weights of as many groups as there may be."""
    return "to = { " + ", ".join(f"team-{64 + group:03} = {(place + 1) * group}" for group in range(MOST_TARGETS)) + " }"


def at_most_hours():
    """What can be asked at most, and a report over an hour more."""
    longest = "2024-01-01T00:00Z 2027-01-01T00:00Z\n"
    ask = [f"report team {longest}", policy(1, weights), f"report team {longest}", policy(2, lambda _: "proportional = true")]
    last = [f"report team {longest}", f"lines {longest}", "report team 2024-01-01T00:00Z 2027-01-01T01:00Z\n"]
    return [rows_of_teams(1), rows_for_all(1), *ask, "checkpoint\n", *last]


def main():
    argparse.ArgumentParser(description=__doc__, formatter_class=argparse.RawDescriptionHelpFormatter).parse_args()
    script = [post(1, MOST_BYTES), post(2, MOST_BYTES + 1), post(1, MOST_BYTES), post(3, MOST_BYTES)]
    script += [*posts_of_many_rows(), *posts_of_wide_rows()]
    script += [widest(1), widest(2)]
    script += [commitment(number) for number in range(3, MOST_COMMITMENTS + 2)]
    script += [commitment(MOST_COMMITMENTS), commitment(MOST_COMMITMENTS + 2), *added_purchases(), "state\n", *withdrawals(), "state\n"]
    script += at_most_hours()
    sys.stdout.write("".join(script))
    return 0


if __name__ == "__main__":
    sys.exit(main())
