#!/usr/bin/env python3
"""Computes what `focusd run` must answer to a script, without focusd.

    python3 examples/expected.py examples/first-report.script

It reads the posts by Python's csv and json, commitments and policies by
tomllib, and rounds each amount by its decimal: to the nearest 10^-9, ties to
even. Sums, shares and floors are whole numbers and so exact. It tells entries
apart that are sent twice, out of turn, or that don't go with those before. It
knows contents that are all right, the first wrong field of a purchase that is
added to a commitment, and lines that name no post to withdraw; at anything
else it stops with status 1 and says what it met, so that it never makes up an
answer.

Scripts ask for a report by one tag. Tests ask it for more: reports by several
keys under filters and maps (Selection), exports that are imported with columns
kept as tags (with_columns_as_tags) or in the dialect of GCP (focus_of_gcp),
and the rows that lines are exported as (Warehouse.exported).
"""
import argparse
import csv
import datetime
import decimal
import io
import itertools
import json
import re
import sys
import tomllib
from collections import defaultdict
from dataclasses import dataclass
from fractions import Fraction

REQUIRED = "BilledCost EffectiveCost BillingCurrency ChargeCategory ChargePeriodStart ChargePeriodEnd".split()
OPTIONAL = (
    "ChargeClass CommitmentDiscountId CommitmentDiscountCategory CommitmentDiscountStatus ConsumedQuantity ConsumedUnit "
    "SkuId SubAccountId Tags"
).split()
CATEGORIES = {"Usage", "Purchase", "Tax", "Credit", "Adjustment"}
NUMBER = re.compile(r"[+-]?(?:[0-9]+\.?[0-9]*|\.[0-9]+)(?:[eE]([+-]?[0-9]+))?")
INSTANT = re.compile(r"(\d{4}-\d\d-\d\dT\d\d:\d\d)(:\d\d(?:\.0{1,9})?)?Z", re.ASCII)
# 9999-12-30T22:00:00Z, the last instant.
LAST_SECOND = 253_402_207_200
MOST_ROWS = 4_096
MOST_KEPT = 4_194_304
MOST_COMMITMENTS = 256
MOST_PURCHASES = 64
MOST_ID_BYTES = 256
MOST_BYTES = 4_194_304
ENTRY_BYTES = 4 + 8 + 1
NUMBER_BYTES = 8
MOST_NANOS = 10**17
MOST_HOURS = 26_304
MOST_LINES = 1_000_000
MOST_TOTAL = 10**19
EXACT = decimal.Context(prec=100, rounding=decimal.ROUND_HALF_EVEN)
NANOS_OF_ONE = decimal.Decimal(10**9)
REPORT_HEADER = ["Group", "BilledCost", "EffectiveCost", "ChargedCost"]
LINES_HEADER = (
    "Hour ChargeCategory CommitmentDiscountId CommitmentDiscountCategory CommitmentDiscountStatus BilledCost EffectiveCost "
    "ConsumedQuantity SkuId SubAccountId"
).split()
MOST_KEYS = 4
# The columns by which lines are grouped and filtered as by a tag, and where a line has them.
LINE_COLUMNS = {
    "SkuId": lambda line: line.sku,
    "SubAccountId": lambda line: line.account or "",
    "ChargeCategory": lambda line: line.category,
    "CommitmentDiscountId": lambda line: line.owner[0],
    "CommitmentDiscountStatus": lambda line: line.owner[2],
}
GCP_TIME = re.compile(r"(\d{4}-\d\d-\d\d) (\d\d:\d\d:\d\d) UTC", re.ASCII)
MARK = b"\xef\xbb\xbf"


class Unknown(Exception):
    """Something that this program can't answer."""


class OutOfRange(Unknown):
    """A number text past 10^17 nanos."""


def nanos(text):
    """The amount as a whole number of 10^-9."""
    found = NUMBER.fullmatch(text)
    if not found or len(text) > 40 or abs(int(found[1] or 0)) > 40:
        raise Unknown(f"the amount {text!r}")
    exact = EXACT.multiply(decimal.Decimal(text), NANOS_OF_ONE)
    rounded = int(exact.to_integral_value(rounding=decimal.ROUND_HALF_EVEN))
    if abs(rounded) > MOST_NANOS:
        raise OutOfRange(f"the amount {text!r}")
    return rounded


def spelled(amount):
    """Nanos as a text with nine decimals."""
    whole, part = divmod(abs(amount), 10**9)
    return f"{'-' if amount < 0 else ''}{whole}.{part:09d}"


def whole_number(word):
    """The whole number from 1 to 2^64-1 that a word spells, or None."""
    number = int(word) if re.fullmatch(r"[0-9]+", word) else 0
    return number if 1 <= number < 2**64 else None


def record(fields):
    """A CSV record, quoted only where it must be."""
    return ",".join('"' + f.replace('"', '""') + '"' if any(c in f for c in ',"\r\n') else f for f in fields) + "\n"


def sized(text):
    """A text behind the line that says how many bytes it has."""
    return f"bytes {len(text.encode())}\n{text}"


def records_of(text):
    """The header of a CSV, and its records one after the other."""
    lines = csv.reader(io.StringIO(text.removeprefix(MARK).decode(), newline=""), strict=True)
    records = (fields for fields in lines if fields)
    return next(records), records


def csv_of(header, records):
    """The CSV of a header and records."""
    out = io.StringIO(newline="")
    csv.writer(out, lineterminator="\n").writerows([header, *records])
    return out.getvalue().encode()


class Times:
    """Seconds since 1970 of texts, each different text read once."""

    def __init__(self):
        self.known = {}

    def seconds(self, text):
        if text not in self.known:
            found = INSTANT.fullmatch(text)
            if not found:
                raise Unknown(f"the time {text!r}")
            try:
                time = datetime.datetime.strptime(found[1] + (found[2] or ":00")[:3], "%Y-%m-%dT%H:%M:%S")
            except ValueError as why:
                raise Unknown(f"the time {text!r}: {why}") from why
            second = (time - datetime.datetime(1970, 1, 1)) // datetime.timedelta(seconds=1)
            if second > LAST_SECOND:
                raise Unknown(f"the time {text!r}, which is past the last instant")
            self.known[text] = second
        return self.known[text]

    def hour(self, text):
        hour, rest = divmod(self.seconds(text), 3_600)
        if rest:
            raise Unknown(f"the time {text!r}, which isn't on a whole hour")
        return hour


def number_in_json(text):
    raise Unknown(f"the number {text} among tags")


def tags_of(text, known={}):
    """The tags of a row; words in place of true and false, and the empty text in place of null."""
    if text == "":
        return {}
    if text not in known:
        read = json.loads(text, parse_int=number_in_json, parse_float=number_in_json, parse_constant=number_in_json)
        if not isinstance(read, dict) or len(read) > 256:
            raise Unknown(f"the tags {text!r}")
        words = {None: "", True: "true", False: "false"}
        tags = {key: value if isinstance(value, str) else words[value] for key, value in read.items() if not isinstance(value, (dict, list))}
        if len(tags) != len(read) or any(len(t.encode()) > 1_024 for pair in tags.items() for t in pair):
            raise Unknown(f"the tags {text!r}")
        known[text] = tags
    return known[text]


def pairs_of(text):
    """The members of a JSON object, in order and each as often as it stands there; none for the empty text."""
    pairs = json.loads(text, object_pairs_hook=list) if text else []
    if not isinstance(pairs, list):
        raise Unknown(f"the tags {text!r}")
    return pairs


def object_of(pairs):
    """A JSON object with these members, in order and each as often as it is among them."""
    return "{" + ",".join(f"{json.dumps(key)}:{json.dumps(value)}" for key, value in pairs) + "}" if pairs else ""


def with_columns_as_tags(text, keeps):
    """An export whose rows have columns as tags too, each kept as COLUMN or as COLUMN=TAG. An empty field is no tag. A row
    that has the tag already is refused, by its number and the tag."""
    header, records = records_of(text)
    keeps = [(column, tag or column) for column, _, tag in (keep.partition("=") for keep in keeps)]
    for column in [column for column, _ in keeps] + ["Tags"]:
        if header.count(column) > 1 or column != "Tags" and column not in header:
            raise Unknown(f"the column {column!r} of the header {header}")
    at = header.index("Tags") if "Tags" in header else len(header)
    out = []
    for number, fields in enumerate(records, 1):
        fields = fields if at < len(header) else [*fields, ""]
        pairs = pairs_of(fields[at])
        for column, tag in keeps:
            value = fields[header.index(column)]
            if value and tag in dict(pairs):
                raise Refused(f"the tag {tag!r} of record {number}")
            pairs += [(tag, value)] if value else []
        out.append([*fields[:at], object_of(pairs), *fields[at + 1 :]])
    return csv_of([*header[:at], "Tags", *header[at + 1 :]], out)


def focus_of_gcp(text):
    """The FOCUS export that one in the dialect of GCP stands for: a time `2024-09-01 00:00:00 UTC` is `2024-09-01T00:00:00Z`,
    and a list of tags, objects with `key` and `value`, is the object with these members."""
    header, records = records_of(text)
    out = []
    for fields in records:
        for at, column in enumerate(header):
            if column in ("ChargePeriodStart", "ChargePeriodEnd"):
                time = GCP_TIME.fullmatch(fields[at])
                fields[at] = f"{time[1]}T{time[2]}Z" if time else fields[at]
            elif column == "Tags" and fields[at]:
                tags = json.loads(fields[at])
                if not isinstance(tags, list) or any(set(tag) != {"key", "value"} for tag in tags):
                    raise Unknown(f"the tags {fields[at]!r}")
                fields[at] = object_of([(tag["key"], tag["value"]) for tag in tags])
        out.append(fields)
    return csv_of(header, out)


class Row:
    """A charge row."""

    def __init__(self, fields, times, currency):
        start, end = times.seconds(fields["ChargePeriodStart"]), times.seconds(fields["ChargePeriodEnd"])
        self.category = fields["ChargeCategory"]
        self.corrects = fields["ChargeClass"]
        self.id, self.kind, self.status = (
            fields["CommitmentDiscountId"], fields["CommitmentDiscountCategory"], fields["CommitmentDiscountStatus"],
        )  # fmt: skip
        self.unit, self.sku, self.account = fields["ConsumedUnit"], fields["SkuId"], fields["SubAccountId"]
        right = [
            fields["BillingCurrency"] == currency and self.category in CATEGORIES and 0 <= start <= end,
            self.corrects in ("", "Correction") and self.kind in ("", "Usage", "Spend") and self.status in ("", "Used", "Unused"),
            (self.id == "") == (self.kind == ""),
            self.status == "" if self.id == "" else self.status != "" or self.category != "Usage",
            all(len(text.encode()) <= 256 for text in (self.id, self.unit, self.sku, self.account)),
        ]
        if not all(right):
            raise Unknown(f"the row {fields}")
        self.start, self.end, self.hour = start, end, start // 3_600
        self.is_clock_hour = start % 3_600 == 0 and end == start + 3_600
        self.billed, self.effective = nanos(fields["BilledCost"]), nanos(fields["EffectiveCost"])
        try:
            self.quantity = nanos(fields["ConsumedQuantity"]) if fields["ConsumedQuantity"] else None
        except OutOfRange:
            self.quantity = None
        self.tags = tags_of(fields["Tags"])

    def size(self):
        """How many bytes it is stored in: amounts, codes and times, the discount, the quantity, three texts, and the tags."""
        discount = 1 + (4 + len(self.id.encode()) if self.id else 0) + 2
        texts = sum(1 + (4 + len(text.encode()) if text else 0) for text in (self.unit, self.sku, self.account))
        tags = sum(8 + len(key.encode()) + len(value.encode()) for key, value in self.tags.items())
        return 8 + 8 + 1 + 1 + 8 + 8 + discount + (1 if self.quantity is None else 9) + texts + 4 + tags

    def is_eligible(self):
        """Whether a commitment may cover it."""
        return (
            self.category == "Usage" and not self.id and not self.corrects and self.is_clock_hour and self.sku != ""
            and self.quantity is not None and self.quantity > 0 and self.billed >= 0 and self.effective >= 0
        )  # fmt: skip


def values_of(text, keeps):
    """Of each column that is kept as COLUMN or as COLUMN=TAG the values of its tag, each with the number of rows that have it, in the order in which
    they first come. An empty text is none."""
    header, records = records_of(with_columns_as_tags(text, keeps))
    at = header.index("Tags")
    counts = [(column, tag or column, {}) for column, _, tag in (keep.partition("=") for keep in keeps)]
    for fields in records:
        tags = tags_of(fields[at])
        for _column, tag, values in counts:
            if tags.get(tag):
                values[tags[tag]] = values.get(tags[tag], 0) + 1
    return counts


def rows_again(text):
    """The records whose rows have the values of an earlier one, each with the number of the first record that has them."""
    header, records = records_of(text)
    times, first, again = Times(), {}, []
    for number, fields in enumerate(records, 1):
        row = vars(Row(dict.fromkeys(REQUIRED + OPTIONAL, "") | dict(zip(header, fields)), times, "USD"))
        values = tuple(sorted(row["tags"].items()) if name == "tags" else value for name, value in sorted(row.items()))
        values = repr(values)
        if first.setdefault(values, number) != number:
            again.append((number, first[values]))
    return again


class Commitment:
    """What was committed to, and what was paid for it."""

    def __init__(self, table, times):
        self.id, self.kind = table.pop("id"), table.pop("category")
        self.start, self.hours = times.hour(table.pop("start")), table.pop("hours")
        self.capacity = nanos(table.pop("capacity"))
        if self.kind == "Usage":
            self.unit, self.rates = table.pop("unit"), {sku: None for sku in table.pop("skus")}
        else:
            self.unit, self.rates = None, table.pop("rates")
        self.account = table.pop("sub_account", None)
        self.tags = table.pop("tags", {})
        self.purchases = [(times.seconds(p["at"]) // 3_600, nanos(p["billed"])) for p in table.pop("purchase")]
        if table:
            raise Unknown(f"the fields {sorted(table)} of a commitment")

    def runs_in(self, hour):
        return self.start <= hour < self.start + self.hours

    def applies_to(self, row):
        same = row.sku in self.rates and self.account in (None, row.account)
        return same and self.unit in (None, row.unit)

    def amount(self, hour):
        """The part of the purchases that an hour of the term carries."""
        paid, k = self.paid(), hour - self.start
        return paid * (k + 1) // self.hours - paid * k // self.hours

    def paid(self):
        """What all purchases cost, those that were added to it too."""
        return sum(billed for _, billed in self.purchases)

    def has_room_for(self, billed):
        """Whether it can have a purchase of this cost more."""
        return len(self.purchases) < MOST_PURCHASES and self.paid() + billed <= MOST_NANOS


class AddedPurchase:
    """A purchase that is added to a commitment. Its fields are checked in this order, each by itself, and what else there is comes last."""

    def __init__(self, table, times):
        self.id = self.text(table, "id")
        if not 1 <= len(self.id.encode()) <= MOST_ID_BYTES:
            raise Refused("C3 Limit id")
        at = self.text(table, "at")
        # No instant is without a digit. Others that Times doesn't know may be instants.
        seconds = times.seconds(at) if re.search("[0-9]", at) else -1
        if seconds < 0:
            raise Refused("C2 Field at")
        self.hour = seconds // 3_600
        try:
            self.billed = nanos(self.text(table, "billed"))
        except Unknown as why:
            raise Refused("C2 Field billed") from why
        if self.billed < 0:
            raise Refused("C3 Limit billed")
        if table:
            raise Refused("C2 Field unknown")

    @staticmethod
    def text(table, name):
        """Takes a field out of the table, which has to be a text."""
        text = table.pop(name, None)
        if not isinstance(text, str):
            raise Refused(f"C2 Field {name}")
        return text

    def size(self):
        """How many bytes it is stored in: the id, the instant and what was billed."""
        return 4 + len(self.id.encode()) + 8 + 8


def shares(total, weights):
    """A total in parts by weights, by largest remainder; a tie goes to the earlier place."""
    exact = [Fraction(abs(total) * weight, sum(weights)) for weight in weights]
    parts = [int(part) for part in exact]
    first = sorted(range(len(weights)), key=lambda i: (parts[i] - exact[i], i))
    for i in first[: abs(total) - sum(parts)]:
        parts[i] += 1
    return [-part if total < 0 else part for part in parts]


class Line:
    """A line of an hour. Its row is the one that it is of, and None where it is of a commitment alone."""

    def __init__(self, hour, category, owner, billed, effective, quantity, sku, account, tags, weight=0, row=None):
        self.weight = weight  # of a used or unused line: its part of the commitment's capacity
        self.row = row
        self.hour, self.category, self.owner = hour, category, owner
        self.billed, self.effective, self.quantity = billed, effective, quantity
        self.sku, self.account, self.tags = sku, account, tags

    def fields(self):
        quantity = "" if self.quantity is None else spelled(self.quantity)
        amounts = [spelled(self.billed), spelled(self.effective), quantity]
        return [str(self.hour), self.category, *self.owner, *amounts, self.sku, self.account or ""]


def lines_of_hour(commitments, rows, hour):
    """The lines of an hour; `rows` are its rows in the order in which they were accepted."""
    for c in commitments:
        for at, billed in c.purchases:
            if at == hour:
                yield Line(hour, "Purchase", (c.id, c.kind, ""), billed, 0, None, "", c.account, c.tags)
    for row in rows:
        if not row.is_eligible():
            owner = (row.id, row.kind, row.status)
            yield Line(hour, row.category, owner, row.billed, row.effective, row.quantity, row.sku, row.account, row.tags, row=row)
    rows = [row for row in rows if row.is_eligible()]
    left = [row.quantity for row in rows]
    for c in sorted(commitments, key=lambda c: (c.kind == "Spend", c.start, c.id.encode())):
        if not c.runs_in(hour):
            continue
        capacity, taken = c.capacity, []
        places = [i for i, row in enumerate(rows) if c.applies_to(row)]
        for i in sorted(places, key=lambda i: c.rates[rows[i].sku] or 0):
            row = rows[i]
            if c.kind == "Usage":
                quantity = weight = min(left[i], capacity)
            else:
                cost = row.billed * left[i] // row.quantity
                need = -(-cost * c.rates[row.sku] // 10**6)
                quantity, weight = (left[i], need) if need <= capacity else (left[i] * capacity // need, capacity)
                quantity = 0 if need == 0 else quantity
            if quantity:
                taken.append((row, quantity, weight))
                left[i] -= quantity
                capacity -= weight
        weights = [weight for _, _, weight in taken] + [capacity] * (capacity > 0)
        parts = shares(c.amount(hour), weights)
        for (row, quantity, weight), part in zip(taken, parts):
            yield Line(hour, "Usage", (c.id, c.kind, "Used"), 0, part, quantity, row.sku, row.account, row.tags, weight, row)
        if capacity:
            yield Line(hour, "Usage", (c.id, c.kind, "Unused"), 0, parts[-1], None, "", c.account, c.tags, capacity)
    for row, u in zip(rows, left):
        if u:
            billed, effective = row.billed * u // row.quantity, row.effective * u // row.quantity
            yield Line(hour, row.category, ("", "", ""), billed, effective, u, row.sku, row.account, row.tags, row=row)


@dataclass(frozen=True)
class Key:
    """What lines are grouped and filtered by: a tag, or a column of lines."""

    name: str
    is_column: bool = False

    @staticmethod
    def named(word):
        """The key that a filter or a map names: one of the columns, or else a tag. With `tag:` in front it is the tag in any case."""
        return Key(word, True) if word in LINE_COLUMNS else Key(word.removeprefix("tag:"))

    def of(self, line):
        """The text that a line has of it, empty where it has none."""
        return LINE_COLUMNS[self.name](line) if self.is_column else line.tags.get(self.name, "")


class Mapping:
    """How the values of a key are rewritten, by a table of a map file: ASCII letters are made small where it folds; the empty
    text becomes another one; other values are looked up."""

    def __init__(self, table):
        self.key = Key.named(table.pop("key"))
        self.folds, self.empty, self.values = table.pop("fold", False), table.pop("empty", None), table.pop("values", {})
        if table or "" in self.values:
            raise Unknown(f"the fields {sorted(table)} of a map, or a value for the empty text")

    def of(self, text):
        if text == "" and self.empty is not None:
            return self.empty
        # Of bytes, lower() changes ASCII letters alone.
        text = text.encode().lower().decode() if self.folds else text
        return self.values.get(text, text)


def maps_of(text):
    """The maps of a map file."""
    tables = tomllib.loads(text.decode())
    maps = [Mapping(table) for table in tables.pop("map", [])]
    if tables or len({it.key for it in maps}) < len(maps):
        raise Unknown(f"the map file {text!r}")
    return maps


class Selection:
    """What a report is asked for: the keys that lines are grouped by; filters, pairs of a key and a value, which all have to
    hold; and maps, through which both see values. A key of `where` has to have one of its values, and one of `where_not` none
    of them."""

    def __init__(self, keys, where=(), where_not=(), maps=()):
        if not 1 <= len(keys) <= MOST_KEYS:
            raise Unknown(f"{len(keys)} keys")
        self.keys, self.where, self.where_not = list(keys), defaultdict(set), defaultdict(set)
        for filters, pairs in ((self.where, where), (self.where_not, where_not)):
            for key, value in pairs:
                filters[key].add(value)
        self.maps = {it.key: it for it in maps}

    def is_one_tag(self):
        """Whether it is a report by one tag and nothing else, in which the policy counts."""
        return len(self.keys) == 1 and not (self.keys[0].is_column or self.where or self.where_not or self.maps)

    def value(self, key, line):
        text = key.of(line)
        return self.maps[key].of(text) if key in self.maps else text

    def takes(self, line):
        one_of = all(self.value(key, line) in values for key, values in self.where.items())
        return one_of and not any(self.value(key, line) in values for key, values in self.where_not.items())

    def group(self, line):
        """The group of a line: the values of all keys."""
        return tuple(self.value(key, line) for key in self.keys)

    def sums(self, lines):
        """BilledCost and EffectiveCost of each group of the lines that it takes."""
        sums = defaultdict(lambda: (0, 0))
        for line in lines:
            if self.takes(line):
                group = self.group(line)
                billed, effective = sums[group]
                sums[group] = billed + line.billed, effective + line.effective
        return sums


def charged(direct, policy):
    """What each group is charged: its direct cost, less what the policy gives away of it, and the shares that it gets."""
    out = defaultdict(int, direct)
    froms = {rule["from"] for rule in policy["rule"]}
    for rule in policy["rule"]:
        if "to" in rule:
            weights = rule["to"]
        else:
            weights = {group: cost for group, cost in direct.items() if cost > 0 and group not in froms}
        total = direct.get(rule["from"], 0)
        for group in [rule["from"], *rule.get("to", {})]:
            out[group] += 0
        if sum(weights.values()):
            groups = sorted(weights, key=str.encode)
            out[rule["from"]] -= total
            for group, part in zip(groups, shares(total, [weights[group] for group in groups])):
                out[group] += part
    return out


def small(text):
    """A size that is surely not too large: a stored commitment or policy is at most four times its text."""
    if len(text) > MOST_BYTES // 4 - 100:
        raise Unknown(f"a commitment or policy of {len(text)} bytes")
    return len(text) * 4


class Refused(Exception):
    """The fault for which an entry's content is refused."""


class Warehouse:
    """What was accepted so far."""

    def __init__(self, currency="USD"):
        self.currency = currency
        self.entries = 0
        self.origins = defaultdict(int)
        # The rows of each post by its origin and number; None where it was withdrawn.
        self.posts = {}
        # How many rows were posted, those of withdrawn posts too.
        self.posted = 0
        # The rows of each hour that count: those of posts that weren't withdrawn, in the order in which they were accepted.
        self.rows = defaultdict(list)
        self.commitments = []
        self.policy = None
        self.times = Times()

    def enter(self, origin, number, read, text):
        """Reads an entry's content, and then looks at its origin and number and at what was accepted before."""
        try:
            found = read(text)
        except Refused as fault:
            return f"refused {fault}\n"
        if not re.fullmatch(r"[A-Za-z0-9._-]{1,64}", origin):
            return "refused E1 Origin\n"
        number = whole_number(number)
        if number is None:
            return "refused E2 Seq\n"
        return self.judged(origin, number, *found)

    def judged(self, origin, number, refusal, size, keep):
        """Judges an entry by its size, its number and what was accepted before, and keeps it where it is accepted."""
        if ENTRY_BYTES + len(origin) + size > MOST_BYTES:
            return "refused E3 TooLarge\n"
        last = self.origins[origin]
        if number <= last:
            return f"already {last}\n"
        if number > last + 1:
            return f"gap {last + 1}\n"
        if refusal:
            return f"refused {refusal}\n"
        keep((origin, number))
        self.origins[origin] += 1
        self.entries += 1
        return f"accepted {self.entries}\n"

    def row_count(self):
        """How many rows count."""
        return sum(len(rows) for rows in self.rows.values())

    def state(self):
        return f"state {self.entries} {self.row_count()} {len(self.commitments)} {int(self.policy is not None)}\n"

    def post(self, text):
        header, records = records_of(text)
        if any(header.count(c) != 1 for c in REQUIRED) or any(header.count(c) > 1 for c in OPTIONAL):
            raise Unknown(f"the header {header}")
        places = {c: header.index(c) for c in REQUIRED + OPTIONAL if c in header}
        rows = []
        for fields in records:
            if len(rows) == MOST_ROWS:
                raise Refused("V15 TooManyRows")
            if len(fields) != len(header):
                raise Unknown(f"a row of {len(fields)} fields under a header of {len(header)}")
            named = {c: fields[places[c]] if c in places else "" for c in REQUIRED + OPTIONAL}
            if named["ChargeCategory"] not in CATEGORIES:
                raise Refused(f"V3 Category {len(rows) + 1}")
            rows.append(Row(named, self.times, self.currency))
        if not rows:
            raise Refused("V14 NoRows")
        return self.post_of(rows)

    def post_of(self, rows):
        """What is to be judged of a post: its conflict, its size, and what keeps it."""
        refusal = None
        if self.posted + len(rows) > MOST_KEPT:
            refusal = "J1 Full"
        elif {row.id for row in rows} & {c.id for c in self.commitments}:
            refusal = "J4 OwnCommitment"

        def keep(sender):
            self.posts[sender] = rows
            self.posted += len(rows)
            for row in rows:
                self.rows[row.hour].append(row)

        return refusal, 4 + sum(row.size() for row in rows), keep

    def import_export(self, origin, text):
        """Takes an export of any length as the next posts of an origin, each of as many rows as a post can have."""
        header, records = records_of(text)
        while part := list(itertools.islice(records, MOST_ROWS)):
            number = self.origins[origin] + 1
            answer = self.enter(origin, str(number), self.post, csv_of(header, part))
            if answer != f"accepted {self.entries}\n":
                raise Unknown(f"post {number} of {origin}: {answer}")

    def commit(self, text):
        return self.commit_of(Commitment(tomllib.loads(text.decode()), self.times), small(text))

    def commit_of(self, commitment, size):
        """The same of a commitment."""
        refusal = None
        if commitment.id in {c.id for c in self.commitments}:
            refusal = "J2 DoubleId"
        elif commitment.id in {row.id for rows in self.rows.values() for row in rows}:
            refusal = "J3 IdInUse"
        elif len(self.commitments) >= MOST_COMMITMENTS:
            refusal = "J5 TooManyCommitments"
        return refusal, size, lambda sender: self.commitments.append(commitment)

    def add_purchase(self, text):
        return self.add_of(AddedPurchase(tomllib.loads(text.decode()), self.times))

    def add_of(self, more):
        """The same of a purchase that is added."""
        commitment = next((c for c in self.commitments if c.id == more.id), None)
        refusal = None
        if commitment is None:
            refusal = "J8 NoSuchCommitment"
        elif not commitment.has_room_for(more.billed):
            refusal = "J9 PurchaseLimit"
        return refusal, more.size(), lambda sender: commitment.purchases.append((more.hour, more.billed))

    def withdraw(self, origin, number, target):
        """Takes the rows of the post that an origin sent under this number out of what counts."""
        refusal = None
        if (origin, target) not in self.posts:
            refusal = "J6 NoSuchPost"
        elif self.posts[origin, target] is None:
            refusal = "J7 Withdrawn"

        def keep(sender):
            gone = {id(row) for row in self.posts[origin, target]}
            for hour in {row.hour for row in self.posts[origin, target]}:
                self.rows[hour] = [row for row in self.rows[hour] if id(row) not in gone]
                if not self.rows[hour]:
                    del self.rows[hour]
            self.posts[origin, target] = None

        return self.enter(origin, number, lambda _: (refusal, NUMBER_BYTES, keep), b"")

    def set_policy(self, text):
        policy = tomllib.loads(text.decode())
        return self.policy_entry({"key": policy["key"], "rule": policy.get("rule", [])}, small(text))

    def policy_entry(self, policy, size):
        """The same of a policy."""

        def keep(sender):
            self.policy = policy

        return None, size, keep

    def lines_between(self, low, high):
        """The lines of a range of hours, or None where it is no range."""
        low, high = self.times.hour(low), self.times.hour(high)
        if low >= high or high - low > MOST_HOURS:
            return None
        hours = (h for h in range(low, high) if h in self.rows or any(self.touches(c, h) for c in self.commitments))
        return (line for h in hours for line in lines_of_hour(self.commitments, self.rows.get(h, []), h))

    @staticmethod
    def touches(commitment, hour):
        return commitment.runs_in(hour) or any(at == hour for at, _ in commitment.purchases)

    def lines(self, low, high):
        lines = self.lines_between(low, high)
        return "refused Q1 Range\n" if lines is None else self.text_of(lines)

    @staticmethod
    def text_of(lines):
        """The answer that these lines make."""
        return sized(record(LINES_HEADER) + "".join(record(line.fields()) for line in lines))

    def coverage(self, low, high):
        """Of each commitment that has a line in a range of hours its id, kind and unit, and, in nanos, its capacity there, what of it was used
        and unused, what its Used and its Unused lines cost, and what was paid for it."""
        kept = {c.id: [0] * 6 for c in self.commitments}
        shown = set()
        for line in self.lines_between(low, high):
            if line.owner[0] in kept:
                shown.add(line.owner[0])
                sums = kept[line.owner[0]]
                at = {"Used": 0, "Unused": 1}.get(line.owner[2])
                if at is not None:
                    sums[1 + at] += line.weight
                    sums[3 + at] += line.effective
                if line.category == "Purchase":
                    sums[5] += line.billed
        low, high = self.times.hour(low), self.times.hour(high)
        for c in self.commitments:
            kept[c.id][0] = c.capacity * sum(c.runs_in(hour) for hour in range(low, high))
        return [(c.id, c.kind, c.unit or "", *kept[c.id]) for c in self.commitments if c.id in shown]

    def report(self, key, low, high):
        lines = self.lines_between(low, high)
        return "refused Q1 Range\n" if lines is None else self.report_of(key, lines)

    def charges(self, key, direct):
        """What each group of a tag is charged where these are the direct costs."""
        return charged(direct, self.policy) if self.policy and self.policy["key"] == key else direct

    def selected(self, selection, lines):
        """What each group of a selection of these lines has: BilledCost, EffectiveCost and, in a report by one tag and nothing
        else, ChargedCost."""
        sums = selection.sums(lines)
        if not selection.is_one_tag():
            return dict(sums)
        charges = self.charges(selection.keys[0].name, {group: effective for (group,), (_, effective) in sums.items()})
        return {(group,): (*sums.get((group,), (0, 0)), cost) for group, cost in charges.items()}

    def amounts(self, selection, tag, low, high):
        """What the texts of a tag read as on the rows of a range of hours that a selection takes, summed by group, and how many of these rows
        have no amount there. Each row counts once, as it was given."""
        sums, missing = defaultdict(int), 0
        for hour in range(self.times.hour(low), self.times.hour(high)):
            for row in self.rows.get(hour, []):
                owner = (row.id, row.kind, row.status)
                line = Line(hour, row.category, owner, row.billed, row.effective, row.quantity, row.sku, row.account, row.tags, row=row)
                if selection.takes(line):
                    try:
                        amount = nanos(row.tags.get(tag, ""))
                    except Unknown:
                        amount, missing = 0, missing + 1
                    sums[selection.group(line)] += amount
        return dict(sums), missing

    def exported(self, line):
        """The row that a line is exported as, by column: amounts in nanos, times in seconds since 1970, tags as a dict; None where
        it is null. A line of a row has the row's period, unit and class, and one of a commitment alone the hour that it is of."""
        row = line.row
        return {
            "BilledCost": line.billed, "EffectiveCost": line.effective, "BillingCurrency": self.currency, "ChargeCategory": line.category,
            "ChargeClass": row.corrects or None if row else None, "ChargePeriodStart": row.start if row else line.hour * 3_600,
            "ChargePeriodEnd": row.end if row else (line.hour + 1) * 3_600, "CommitmentDiscountId": line.owner[0] or None,
            "CommitmentDiscountCategory": line.owner[1] or None, "CommitmentDiscountStatus": line.owner[2] or None, "ConsumedQuantity": line.quantity,
            "ConsumedUnit": row.unit or None if row else None, "SkuId": line.sku or None, "SubAccountId": line.account or None, "Tags": dict(line.tags),
        }  # fmt: skip

    def report_of(self, key, lines):
        """The report by a tag over these lines."""
        billed, direct = defaultdict(int), defaultdict(int)
        for line in lines:
            group = line.tags.get(key, "")
            billed[group] += line.billed
            direct[group] += line.effective
        if sum(abs(cost) for cost in direct.values()) > MOST_TOTAL:
            return "refused Q2 TotalTooLarge\n"
        charges = self.charges(key, direct)
        text = record(REPORT_HEADER)
        for group in sorted(charges, key=str.encode):
            text += record([group, *map(spelled, (billed[group], direct.get(group, 0), charges[group]))])
        return sized(text)


def answers(script, warehouse=None):
    """The answers to the commands of a script, one after the other, over a warehouse or a new one."""
    warehouse = warehouse or Warehouse()
    entries = {"post": warehouse.post, "commit": warehouse.commit, "policy": warehouse.set_policy, "add": warehouse.add_purchase}
    for line in script:
        words = line.decode().rstrip("\n").split(" ")
        if words[0] in entries and len(words) == 4:
            if not re.fullmatch(r"[0-9]{1,7}", words[3]) or int(words[3]) > MOST_LINES:
                raise Unknown(f"an entry of {words[3]!r} lines")
            content = [next(script, b"") for _ in range(int(words[3]))]
            if not all(content):
                raise Unknown("an entry with fewer lines than it names")
            yield warehouse.enter(words[1], words[2], entries[words[0]], b"".join(content))
        elif words[0] == "withdraw":
            target = whole_number(words[3]) if len(words) == 4 else None
            yield warehouse.withdraw(words[1], words[2], target) if target else "bad command\n"
        elif words[0] == "report" and len(words) >= 4:
            yield warehouse.report(" ".join(words[1:-2]), words[-2], words[-1])
        elif words[0] == "lines" and len(words) == 3:
            yield warehouse.lines(words[1], words[2])
        elif words == ["state"]:
            yield warehouse.state()
        elif words == ["checkpoint"]:
            yield "checkpointed\n"
        else:
            raise Unknown(f"the command {' '.join(words)!r}")


def main():
    parser = argparse.ArgumentParser(description=__doc__, formatter_class=argparse.RawDescriptionHelpFormatter)
    parser.add_argument("script", nargs="?", metavar="FILE.script", help="the commands (default: standard input)")
    options = parser.parse_args()
    try:
        with open(options.script, "rb") if options.script else sys.stdin.buffer as script:
            for answer in answers(iter(script.readline, b"")):
                sys.stdout.buffer.write(answer.encode())
    except (Unknown, OSError, ValueError, KeyError, csv.Error) as why:
        print(f"expected.py: this program has no answer to {why!r}", file=sys.stderr)
        return 1
    return 0


if __name__ == "__main__":
    sys.exit(main())
