"""Computes the figures of commitments that `focusd commitments` must print, without focusd.

It goes over the lines of expected.py, and over the rows behind them. Amounts are whole numbers of nanos, and so exact.
"""
from collections import defaultdict

import expected

AMOUNTS = ("UsedCost", "UnusedCost", "AmortizedCost", "PurchaseCost", "CoveredCost", "UncoveredCost", "EligibleCost", "Savings")
OWN, PROVIDER = "own", "provider"


class Figures:
    """What is summed of commitments, in nanos; and how many covered rows have no price."""

    def __init__(self):
        self.used = self.unused = self.paid = self.covered = self.eligible = self.unpriced = 0

    def amounts(self, keeper, has_list=False):
        """The amounts by column. Of a provider's commitments those that need prices are None where no tag has them, and what could have
        been covered always is."""
        amortized = self.used + self.unused
        covered, savings = (self.covered, self.covered - amortized) if keeper == OWN or has_list else (None, None)
        uncovered, eligible = (self.eligible - self.covered, self.eligible) if keeper == OWN else (None, None)
        return (self.used, self.unused, amortized, self.paid, covered, uncovered, eligible, savings)


def covered_parts(lines):
    """Each Used line of an own commitment beside the part of the EffectiveCost of its row that was taken: what was left of the row before
    costs more by that than what is left of it after, each rounded down."""
    left = {}
    for line in lines:
        if line.row is None or not line.row.is_eligible() or line.owner[2] != "Used":
            continue
        row = line.row
        before = left.get(id(row), row.quantity)
        after = left[id(row)] = before - line.quantity
        yield line, row.effective * before // row.quantity - row.effective * after // row.quantity


def eligible_rows(warehouse, low, high):
    """Each row of a range of hours that commitments may cover, beside the own commitments that run in its hour and apply to it."""
    for hour in range(warehouse.times.hour(low), warehouse.times.hour(high)):
        for row in warehouse.rows.get(hour, ()):
            found = [c for c in warehouse.commitments if row.is_eligible() and c.runs_in(hour) and c.applies_to(row)]
            if found:
                yield row, found


def listed_rows(warehouse, low, high, tag):
    """Each row of a range of hours that a provider's commitment covers, beside its price: the amount that the tag has, or None."""
    for hour in range(warehouse.times.hour(low), warehouse.times.hour(high)):
        for row in warehouse.rows.get(hour, ()):
            if row.status == "Used":
                try:
                    yield row, expected.nanos(row.tags.get(tag, ""))
                except expected.Unknown:
                    yield row, None


def of_row(key, row):
    """The value of a key on a row by itself."""
    line = expected.Line(row.hour, row.category, (row.id, row.kind, row.status), row.billed, row.effective, row.quantity, row.sku, row.account, row.tags)
    return key.of(line)


def figures(warehouse, low, high, keys=(), price_tag=None):
    """The figures of a range of hours by who keeps the commitments and by name: the id of a commitment, or the values of keys where there are
    some; and those of all under the name None. Where a tag has prices, what providers' commitments cover is summed at these."""
    own = {c.id for c in warehouse.commitments}
    kept = {OWN: defaultdict(Figures), PROVIDER: defaultdict(Figures)}

    def add(keeper, name, what, amount):
        for found in (kept[keeper][name], kept[keeper][None]):
            setattr(found, what, getattr(found, what) + amount)

    lines = list(warehouse.lines_between(low, high))
    for line in lines:
        name, keeper = line.owner[0], OWN if line.owner[0] in own else PROVIDER
        if not name:
            continue
        named = tuple(key.of(line) for key in keys) or (name,)
        if line.owner[2] == "Used":
            add(keeper, named, "used", line.effective)
        elif line.owner[2] == "Unused":
            add(keeper, named, "unused", line.effective)
        elif line.category == "Purchase":
            add(keeper, named, "paid", line.billed)
    for line, cost in covered_parts(lines):
        add(OWN, tuple(key.of(line) for key in keys) or (line.owner[0],), "covered", cost)
    for row, commitments in eligible_rows(warehouse, low, high):
        names = [tuple(of_row(key, row) for key in keys)] if keys else [(c.id,) for c in commitments]
        for name in names:
            kept[OWN][name].eligible += row.effective
        kept[OWN][None].eligible += row.effective
    for row, price in listed_rows(warehouse, low, high, price_tag) if price_tag is not None else ():
        name = tuple(of_row(key, row) for key in keys) or (row.id,)
        add(PROVIDER, name, *(("unpriced", 1) if price is None else ("covered", price)))
    return kept


def records(warehouse, low, high, keys=(), price_tag=None):
    """The records of a range of hours as the program has them: each its kind, its keeper, its name, its amounts and how many rows have no
    price, None where it has no prices of a tag."""
    found, of_all = [], []
    kept = figures(warehouse, low, high, keys, price_tag)
    kind = "group" if keys else "commitment"

    def record(kind, keeper, name):
        has_list, one = price_tag is not None, kept[keeper][name]
        return kind, keeper, name, one.amounts(keeper, has_list), one.unpriced if has_list and keeper == PROVIDER else None

    for keeper in (OWN, PROVIDER):
        names = sorted((name for name in kept[keeper] if name is not None), key=lambda name: [text.encode() for text in name])
        for name in names:
            found.append(record(kind, keeper, name))
        if names:
            of_all.append(record("total", keeper, None))
    return found + of_all


def usable(commitment, row):
    """What a row to which a commitment applies could have used of it, in nanos: its quantity; or, of a commitment to a cost, its BilledCost at the
    rate, rounded up."""
    return row.quantity if commitment.kind == "Usage" else -(-row.billed * commitment.rates[row.sku] // 10**6)


def units(warehouse, low, high):
    """Of each own commitment with a line its unit, capacity, what was used of it and what rows could have used of it, by its id."""
    eligible = defaultdict(int)
    for row, commitments in eligible_rows(warehouse, low, high):
        for commitment in commitments:
            eligible[commitment.id] += usable(commitment, row)
    return {id: (unit, capacity, used, eligible[id]) for id, _, unit, capacity, used, *_ in warehouse.coverage(low, high)}


def unit_records(warehouse, low, high, keys=()):
    """The records of quantities of a range of hours as the program has them: each its kind, its name, its unit, which is empty where it is the
    currency, and in nanos of the unit the capacity, which a group doesn't have, what rows used of it and what they could have used. A row counts
    once in its unit, and once in the currency: with the most that it could have used of one commitment."""
    used, eligible, capacities = defaultdict(int), defaultdict(int), defaultdict(int)
    units = {c.id: c.unit if c.kind == "Usage" else "" for c in warehouse.commitments}

    def add(sums, name, unit, quantity):
        for place in ([(name, unit)] if keys else []) + [(None, unit)]:
            sums[place] += quantity

    for line in warehouse.lines_between(low, high):
        if line.owner[0] in units and line.owner[2] == "Used":
            add(used, tuple(key.of(line) for key in keys), units[line.owner[0]], line.weight)
    for row, commitments in eligible_rows(warehouse, low, high):
        for kind in ("Usage", "Spend"):
            alike = [c for c in commitments if c.kind == kind]
            if alike:
                add(eligible, tuple(of_row(key, row) for key in keys), units[alike[0].id], max(usable(c, row) for c in alike))
    for id, _, unit, capacity, *_ in warehouse.coverage(low, high):
        capacities[unit] += capacity
    places = sorted({place for place in [*used, *eligible] if place[0] is not None}, key=lambda place: [text.encode() for text in (*place[0], place[1])])
    groups = [("group units", name, unit, None, used[name, unit], eligible[name, unit]) for name, unit in places]
    of_all = sorted(capacities, key=str.encode)
    return groups + [("total units", None, unit, capacities[unit], used[None, unit], eligible[None, unit]) for unit in of_all]
