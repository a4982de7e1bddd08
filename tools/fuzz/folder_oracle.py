"""What the two files of a folder stand for, by docs/FORMATS.md, "The bytes of a warehouse", "The journal" and "The sides of a warehouse".

`opened(left, right)` gives the warehouse as an `Oracle`, which answers questions, or raises `NoHouse`, or `Corrupt` with the side and the
offset of the first fault. A file that isn't there is None.
"""

from dataclasses import dataclass, field

import oracle
from oracle import expected, texts

FORMS = {b"FWHOUSE1": 3, b"FWHOUSE2": 5}
LEAST_SIDE = 26
HEADER = 25
MOST_PAYLOAD = 8_388_608
MOST_SECOND = 253_402_300_799
MOST_HOUR = 70_389_527
CATEGORIES = ["Usage", "Purchase", "Tax", "Credit", "Adjustment"]
KINDS = ["", "Usage", "Spend"]
STATUSES = ["", "Used", "Unused"]
POST, COMMIT, POLICY, WITHDRAW, ADD = 1, 2, 3, 4, 5


class NoHouse(Exception):
    """No side is open."""


class Corrupt(Exception):
    """The side and the offset of the first fault."""


class Fault(Exception):
    """The offset of the first fault in what is decoded."""


@dataclass
class Layout:
    """Where what a file is made of stands, as far as it was read."""

    # Of numbers and codes the places and widths.
    fields: list = field(default_factory=lambda: [(0, 1), (1, 8), (9, 8), (17, 8)])
    # Of texts where their lengths stand and where they end.
    texts: list = field(default_factory=list)
    # Of lists where their count stands, and where each part begins and ends. A column has no count of its own.
    lists: list = field(default_factory=list)
    # Where the first gate is.
    log: int = 0


class Reader:
    """Reads fields from the left; a fault is at the first byte of the field."""

    # The layout of a file while `layout_of` looks at it, and where the bytes that are read begin in it.
    seen = None
    base = 0

    def __init__(self, data):
        self.data, self.at = data, 0

    def checked(self, read, rule):
        """A value that has to keep a rule, else it is a fault at its first byte."""
        at = self.at
        value = read()
        if not rule(value):
            raise Fault(at)
        return value

    def bytes(self, count):
        if count > len(self.data) - self.at:
            raise Fault(self.at)
        self.at += count
        return self.data[self.at - count : self.at]

    def byte(self):
        self.note(1)
        return self.bytes(1)[0]

    def note(self, width):
        if Reader.seen is not None:
            Reader.seen.fields.append((Reader.base + self.at, width))

    def number(self, width, signed=False):
        self.note(width)
        return int.from_bytes(self.bytes(width), "little", signed=signed)

    def number_in(self, width, least, most):
        return self.checked(lambda: self.number(width), lambda n: least <= n <= most)

    def code(self, least, most):
        return self.checked(self.byte, lambda code: least <= code <= most)

    def nanos(self, least=-texts.MOST_NANOS):
        return self.checked(lambda: self.number(8, True), lambda n: least <= n <= texts.MOST_NANOS)

    def second(self):
        return self.number_in(8, 0, MOST_SECOND)

    def text(self, least, most):
        """A text of UTF-8: a fault is at the first byte of its length."""
        at = self.at
        try:
            text = self.bytes(self.number(4)).decode()
        except (Fault, UnicodeDecodeError):
            raise Fault(at) from None
        if not least <= len(text.encode()) <= most:
            raise Fault(at)
        if Reader.seen is not None:
            Reader.seen.texts.append((Reader.base + at, Reader.base + self.at))
        return text

    def short(self):
        return self.text(1, oracle.LONGEST_TEXT)

    def tag_text(self):
        return self.text(0, texts.LONGEST_TAG)

    def optional(self, read):
        return read() if self.code(0, 1) else None

    def items(self, least, most, read):
        at = self.at
        return self.parts(self.number_in(4, least, most), read, at)

    def parts(self, count, read, counted_at=None):
        """So many parts, whose count stands at a place if anywhere."""
        if Reader.seen is None:
            return [read() for _ in range(count)]
        spans, found = [], []
        Reader.seen.lists.append((None if counted_at is None else Reader.base + counted_at, spans))
        for _ in range(count):
            at = Reader.base + self.at
            found.append(read())
            spans.append((at, Reader.base + self.at))
        return found

    def tags(self):
        return self.items(0, texts.MOST_TAGS, lambda: (self.tag_text(), self.tag_text()))

    def agreeing(self, read, agrees):
        """What is read of several fields, which have to agree, else the fault is at the first of them."""
        return self.checked(read, agrees)


def rises(names):
    keys = [name.encode() for name in names]
    return all(a < b for a, b in zip(keys, keys[1:]))


class Row(expected.Row):
    """A row as it is stored."""

    def __init__(self, billed, effective, category, corrects, start, end, owner, kind, status, quantity, unit, sku, account, tags):
        self.billed, self.effective, self.category, self.corrects = billed, effective, CATEGORIES[category - 1], "Correction" if corrects else ""
        self.start, self.end, self.hour = start, end, start // 3_600
        self.is_clock_hour = start % 3_600 == 0 and end == start + 3_600
        self.id, self.kind, self.status = owner or "", KINDS[kind], STATUSES[status]
        self.quantity, self.unit, self.sku, self.account = quantity, unit or "", sku or "", account or ""
        self.listed, self.tags = tags, dict(tags)

    def agrees(self):
        if self.end < self.start or not rises([key for key, _ in self.listed]):
            return False
        if not self.id:
            return not self.kind and not self.status
        return bool(self.kind) and (bool(self.status) or self.category != "Usage")


def row(r):
    return r.agreeing(
        lambda: Row(
            r.nanos(), r.nanos(), r.code(1, 5), r.code(0, 1), r.second(), r.second(), r.optional(r.short), r.code(0, 2), r.code(0, 2),
            r.optional(r.nanos), r.optional(r.short), r.optional(r.short), r.optional(r.short), r.tags(),
        ),
        Row.agrees,
    )  # fmt: skip


class Commitment(expected.Commitment):
    def __init__(self, r):
        self.id = r.short()
        self.kind = KINDS[r.code(1, 2)]
        self.account = r.optional(r.short)
        self.listed = r.tags()
        self.tags = dict(self.listed)
        self.start, self.hours, self.capacity = r.number_in(4, 0, MOST_HOUR), r.number_in(4, 1, expected.MOST_HOURS), r.nanos(1)
        if self.kind == "Usage":
            self.unit = r.short()
            self.skus = r.items(1, 256, r.short)
            self.rates = dict.fromkeys(self.skus)
        else:
            self.unit = None
            rates = r.items(1, 256, lambda: (r.short(), r.number_in(4, 1, 1_000_000)))
            self.skus, self.rates = [sku for sku, _ in rates], dict(rates)
        self.seconds = r.items(1, expected.MOST_PURCHASES, lambda: (r.second(), r.nanos(0)))
        self.purchases = [(second // 3_600, billed) for second, billed in self.seconds]

    def agrees(self):
        return rises([key for key, _ in self.listed]) and rises(self.skus) and self.paid() <= texts.MOST_NANOS

    size = oracle.Commitment.size


class AddedPurchase(expected.AddedPurchase):
    def __init__(self, r):
        self.id, self.second, self.billed = r.short(), r.second(), r.nanos(0)
        self.hour = self.second // 3_600


def rule(r):
    given = {"from": r.tag_text()}
    if r.code(1, 2) == 1:
        given["listed"] = r.items(1, 256, lambda: (r.tag_text(), r.number_in(8, 0, 10**9)))
        given["to"] = dict(given["listed"])
    return given


def policy_agrees(policy):
    rules = policy["rule"]
    froms = [rule["from"] for rule in rules]
    return (
        all(rises([group for group, _ in rule.get("listed", [])]) for rule in rules)
        and len(set(froms)) == len(froms)
        and not any(group in froms for rule in rules for group in rule.get("to", {}))
    )


def policy(r):
    at = r.at
    found = r.agreeing(lambda: {"key": r.text(1, texts.LONGEST_TAG), "rule": r.items(0, 64, lambda: rule(r))}, policy_agrees)
    return found, r.at - at


def origin_and_number(r):
    origin = r.checked(lambda: r.text(0, 2**32), lambda text: bool(oracle.ORIGIN.fullmatch(text.encode()))).encode()
    return origin, r.number_in(8, 1, 2**64 - 1)


def brought(r, kind, read_post):
    """What an entry of a kind brings."""
    if kind == POST:
        return read_post()
    if kind == COMMIT:
        return r.agreeing(lambda: Commitment(r), Commitment.agrees)
    if kind == POLICY:
        return policy(r)
    return r.number(8) if kind == WITHDRAW else AddedPurchase(r)


class Entry:
    """An entry, or the head of one, whose rows come later."""

    def __init__(self, r, last_kind, read_post):
        self.at = r.at
        self.origin, self.number = origin_and_number(r)
        self.kind = r.code(1, last_kind)
        self.content = brought(r, self.kind, read_post)
        self.size = r.at - self.at


def group(data, last_kind):
    """The entries of a frame's payload."""
    r = Reader(data)

    def entry():
        return r.checked(lambda: Entry(r, last_kind, lambda: r.items(1, expected.MOST_ROWS, lambda: row(r))), lambda e: e.size <= expected.MOST_BYTES)

    found = r.items(1, 64, entry)
    if r.at < len(data):
        raise Fault(r.at)
    return found


def segment(r):
    """The rows of a segment."""
    at = r.at
    if r.code(1, 2) == 1:
        return r.items(1, 65_536, lambda: row(r))
    count = r.number_in(4, 1, 65_536)
    names = r.items(0, 2**32 - 1, r.tag_text)

    def column(read):
        return r.parts(count, read)

    def short_name():
        code = r.checked(lambda: r.number(4), lambda c: c <= len(names) and (c == 0 or 1 <= len(names[c - 1].encode()) <= oracle.LONGEST_TEXT))
        return names[code - 1] if code else None

    def place():
        return r.number_in(4, 1, len(names)) - 1

    columns = [column(r.nanos), column(r.nanos), column(lambda: r.code(1, 5)), column(lambda: r.code(0, 1)), column(r.second), column(r.second)]
    columns += [column(short_name), column(lambda: r.code(0, 2)), column(lambda: r.code(0, 2))]
    has_quantity, quantities = column(lambda: r.code(0, 1)), column(r.nanos)
    columns.append([amount if there else None for there, amount in zip(has_quantity, quantities)])
    columns += [column(short_name), column(short_name), column(short_name)]
    columns.append(column(lambda: r.items(0, texts.MOST_TAGS, lambda: (names[place()], names[place()]))))
    rows = [Row(*fields) for fields in zip(*columns)]
    seen = dict.fromkeys(text for row in rows for text in texts_of(row))
    if not all(row.agrees() for row in rows) or list(seen) != names or any(amount and not there for there, amount in zip(has_quantity, quantities)):
        raise Fault(at)
    return rows


def texts_of(row):
    """The texts of a row in the order of its fields."""
    yield from (text for text in (row.id, row.unit, row.sku, row.account) if text)
    for tag in row.listed:
        yield from tag


class House:
    """A warehouse that entries are added to as they are found in files."""

    def __init__(self, currency):
        self.oracle = oracle.Oracle(currency)
        self.kinds = []
        # What only another program can have written: times after the last instant that is read.
        self.is_past_the_last_instant = False

    def add(self, entry):
        """Whether the entry is accepted after those before it."""
        o, content = self.oracle, entry.content
        if entry.kind == WITHDRAW:
            # Number 0 is no post's.
            answer = o.withdraw(entry.origin, b"%d" % entry.number, content)
        else:
            made = {
                POST: lambda: o.post_of(content), COMMIT: lambda: o.commit_of(content, content.size()),
                POLICY: lambda: o.policy_entry(*content), ADD: lambda: o.add_of(content),
            }  # fmt: skip
            answer = o.enter(entry.origin, b"%d" % entry.number, lambda _: made[entry.kind](), b"")
        self.kinds.append(entry.kind)
        latest = {
            POST: lambda: max(max(row.start, row.end) for row in content), ADD: lambda: content.second,
            COMMIT: lambda: max(content.start * 3_600, *(second for second, _ in content.seconds)),
        }.get(entry.kind, lambda: 0)()  # fmt: skip
        self.is_past_the_last_instant |= latest > texts.LAST_SECOND
        return answer.startswith("accepted ")


def state(data, last_kind):
    """The warehouse that a body spells."""
    r = Reader(data)
    currency = r.checked(lambda: r.text(0, 2**32), lambda text: len(text) == 3 and all("A" <= letter <= "Z" for letter in text))
    at = r.at
    heads = r.parts(r.number(8), lambda: Entry(r, last_kind, lambda: r.number_in(4, 1, expected.MOST_ROWS)), at)
    rows = [row for rows in r.items(0, 2**32 - 1, lambda: segment(r)) for row in rows]
    if r.at < len(data):
        raise Fault(r.at)
    if len(rows) != sum(head.content for head in heads if head.kind == POST):
        raise Fault(0)
    house, at = House(currency), 0
    for head in heads:
        if head.kind == POST:
            count = head.content
            head.content = rows[at : at + count]
            at += count
        if not house.add(head):
            raise Fault(head.at)
    return house


class Side:
    """The header of an open side, which is sound."""

    def __init__(self, name, file):
        self.name, self.file = name, file
        self.last_kind = FORMS.get(file[1:9])
        self.generation = int.from_bytes(file[9:17], "little")
        self.log = HEADER + int.from_bytes(file[17:25], "little")
        if self.last_kind is None:
            raise Corrupt(name, 1)
        if self.generation == 0:
            raise Corrupt(name, 9)
        if self.log >= len(file):
            raise Corrupt(name, 17)

    def house(self):
        Reader.base = HEADER
        try:
            house = state(self.file[HEADER : self.log], self.last_kind)
        except Fault as fault:
            raise Corrupt(self.name, HEADER + fault.args[0]) from None
        gate = self.log
        while True:
            if gate >= len(self.file):
                raise Corrupt(self.name, gate)
            if self.file[gate] != 1:
                house.log_bytes = gate - self.log
                return house
            length = int.from_bytes(self.file[gate + 1 : gate + 5], "little")
            if len(self.file) < gate + 5 or not 1 <= length <= MOST_PAYLOAD or gate + 5 + length > len(self.file):
                raise Corrupt(self.name, gate)
            Reader.base = gate + 5
            if Reader.seen is not None:
                Reader.seen.fields += [(gate, 1), (gate + 1, 4)]
            try:
                entries = group(self.file[gate + 5 : gate + 5 + length], self.last_kind)
            except Fault:
                raise Corrupt(self.name, gate) from None
            if not all(house.add(entry) for entry in entries):
                raise Corrupt(self.name, gate)
            gate += 5 + length


def opened(left, right):
    """The warehouse of two files."""
    sides = [Side(name, file) for name, file in (("left", left), ("right", right)) if file is not None and len(file) >= LEAST_SIDE and file[0] == 1]
    if not sides:
        raise NoHouse
    if len(sides) == 2 and sides[0].generation == sides[1].generation:
        raise Corrupt("right", 9)
    return max(sides, key=lambda side: side.generation).house()


def layout_of(file):
    """The layout of a file, as far as it can be read."""
    layout = Reader.seen = Layout(log=len(file))
    try:
        side = Side("", file)
        layout.log = side.log
        side.house()
    except Corrupt:
        pass
    finally:
        Reader.seen = None
    layout.fields = [(at, width) for at, width in layout.fields if at + width <= len(file)]
    return layout
