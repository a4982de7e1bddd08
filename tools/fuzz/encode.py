"""Writes the files of a warehouse byte for byte as docs/FORMATS.md has them, for tests and for the corpus.

An entry is (origin, number, kind, content): of a post rows, of a commitment, a policy or a purchase what oracle.py reads, of a withdrawal a number.
"""

import oracle

POST, COMMIT, POLICY, WITHDRAW, ADD = 1, 2, 3, 4, 5
CODES = {"Usage": 1, "Purchase": 2, "Tax": 3, "Credit": 4, "Adjustment": 5}
KINDS = {"": 0, "Usage": 1, "Spend": 2}
STATUSES = {"": 0, "Used": 1, "Unused": 2}


def number(value, width):
    return (value % 2 ** (8 * width)).to_bytes(width, "little")


def text(value):
    data = value if isinstance(value, bytes) else value.encode()
    return number(len(data), 4) + data


def optional(data):
    return b"\0" if data is None else b"\1" + data


def listed(parts):
    parts = list(parts)
    return number(len(parts), 4) + b"".join(parts)


def in_order(names):
    return sorted(names, key=str.encode)


def tags(found):
    return listed(text(key) + text(found[key]) for key in in_order(found))


def short(value):
    return optional(text(value) if value else None)


def row(r):
    quantity = optional(None if r.quantity is None else number(r.quantity, 8))
    head = number(r.billed, 8) + number(r.effective, 8) + bytes([CODES[r.category], bool(r.corrects)]) + number(r.start, 8) + number(r.end, 8)
    return head + short(r.id) + bytes([KINDS[r.kind], STATUSES[r.status]]) + quantity + short(r.unit) + short(r.sku) + short(r.account) + tags(r.tags)


def commitment(c, seconds):
    """`seconds` are the instants of its purchases, of which the oracle keeps the hours alone."""
    out = text(c.id) + bytes([KINDS[c.kind]]) + (b"\0" if c.account is None else short(c.account)) + tags(c.tags)
    out += number(c.start, 4) + number(c.hours, 4) + number(c.capacity, 8)
    skus = in_order(c.rates)
    out += text(c.unit) + listed(map(text, skus)) if c.kind == "Usage" else listed(text(sku) + number(c.rates[sku], 4) for sku in skus)
    return out + listed(number(second, 8) + number(billed, 8) for second, (_, billed) in zip(seconds, c.purchases))


def added(a):
    return text(a.id) + number(a.hour * 3_600, 8) + number(a.billed, 8)


def rule(r):
    if "to" in r:
        return text(r["from"]) + b"\1" + listed(text(group) + number(r["to"][group], 8) for group in in_order(r["to"]))
    return text(r["from"]) + b"\2"


def policy(p):
    return text(p["key"]) + listed(map(rule, p["rule"]))


def brought(kind, content):
    """What an entry of a kind brings, where it is no post."""
    if kind == COMMIT:
        return commitment(content, [hour * 3_600 for hour, _ in content.purchases])
    return {POLICY: policy, ADD: added, WITHDRAW: lambda target: number(target, 8)}[kind](content)


def entry(origin, seq, kind, content):
    head = text(origin) + number(seq, 8) + bytes([kind])
    return head + (listed(map(row, content)) if kind == POST else brought(kind, content))


def head(origin, seq, kind, content):
    """The head of an entry: of a post the number of its rows."""
    start = text(origin) + number(seq, 8) + bytes([kind])
    return start + (number(len(content), 4) if kind == POST else brought(kind, content))


def columns(rows):
    """A segment by column."""
    def texts_of(r):
        yield from (name for name in (r.id, r.unit, r.sku, r.account) if name)
        for key in in_order(r.tags):
            yield from (key, r.tags[key])

    names = list(dict.fromkeys(name for r in rows for name in texts_of(r)))
    place = {name: at + 1 for at, name in enumerate(names)}

    def code(name):
        return number(place[name] if name else 0, 4)

    def column(write):
        return b"".join(map(write, rows))

    out = b"\2" + number(len(rows), 4) + listed(map(text, names))
    out += column(lambda r: number(r.billed, 8)) + column(lambda r: number(r.effective, 8)) + column(lambda r: bytes([CODES[r.category]]))
    out += column(lambda r: bytes([bool(r.corrects)])) + column(lambda r: number(r.start, 8)) + column(lambda r: number(r.end, 8))
    out += column(lambda r: code(r.id)) + column(lambda r: bytes([KINDS[r.kind]])) + column(lambda r: bytes([STATUSES[r.status]]))
    out += column(lambda r: bytes([r.quantity is not None])) + column(lambda r: number(r.quantity or 0, 8))
    out += column(lambda r: code(r.unit)) + column(lambda r: code(r.sku)) + column(lambda r: code(r.account))
    # A key may be the empty text, which is a name like any other.
    return out + column(lambda r: listed(number(place[key], 4) + number(place[r.tags[key]], 4) for key in in_order(r.tags)))


def rows_in_turn(rows):
    return b"\1" + listed(map(row, rows))


def state(entries, layouts, currency="USD"):
    """A body: the heads, and a segment for each post, written by these functions in turn."""
    posts = [content for _, _, kind, content in entries if kind == POST]
    segments = [layouts[at % len(layouts)](rows) for at, rows in enumerate(posts)]
    return text(currency) + number(len(entries), 8) + b"".join(head(*one) for one in entries) + listed(segments)


def frame(entries):
    payload = listed(entry(*one) for one in entries)
    return b"\1" + number(len(payload), 4) + payload


def side(entries, groups, form=b"FWHOUSE2", generation=1, layouts=(columns,), currency="USD"):
    """A file: a body of entries, and a log of groups of further ones."""
    body = state(entries, layouts, currency)
    return b"\1" + form + number(generation, 8) + number(len(body), 8) + body + b"".join(map(frame, groups)) + b"\0"


def entries_of(script):
    """The entries of a script that are accepted."""
    warehouse, found = oracle.Oracle(), []
    for command in oracle.commands_of(script):
        if not warehouse.answer(command).startswith("accepted "):
            continue
        words = command.line.split()
        kind = {b"post": POST, b"commit": COMMIT, b"policy": POLICY, b"add": ADD, b"withdraw": WITHDRAW}[words[0]]
        read = {
            POST: lambda: oracle.rows_of(command.content, b"USD"), COMMIT: lambda: oracle.Commitment(command.content),
            POLICY: lambda: oracle.policy_of(command.content)[0], ADD: lambda: oracle.AddedPurchase(command.content),
            WITHDRAW: lambda: int(words[3]),
        }[kind]  # fmt: skip
        found.append((words[1], int(words[2]), kind, read()))
    return found
