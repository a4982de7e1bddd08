"""What `focusd run` has to answer to any script, byte for byte, without the program.

The readers are those of texts.py and toml_text.py. examples/expected.py judges what was read, and computes what rows and commitments come to.
`Script` splits a script into commands, `Oracle` answers them. An answer is its text and a label, which names what was met: `refused V5`,
`accepted`, `bad command`; reports count the cases of reports.

    python3 tools/fuzz/oracle.py examples/first-report.script    prints the answers
"""

import os
import re
import sys

HERE = os.path.dirname(os.path.abspath(__file__))
TOP = os.path.dirname(os.path.dirname(HERE))
sys.path[:0] = [HERE, os.path.join(TOP, "tools"), os.path.join(TOP, "examples")]
import expected  # noqa: E402
import texts  # noqa: E402
import toml_text  # noqa: E402
from command_line import parser_of  # noqa: E402

COLUMNS = [name.encode() for name in expected.REQUIRED + expected.OPTIONAL]
REQUIRED = len(expected.REQUIRED)
CATEGORIES = {name.encode() for name in expected.CATEGORIES}
LONGEST_TEXT = 256
ORIGIN = re.compile(rb"[A-Za-z0-9._-]{1,64}")
DIGITS = re.compile(rb"[0-9]+")
ENTRY_WORDS = {b"post", b"commit", b"add", b"policy"}
# How many amounts of each fault were met.
AMOUNT_FAULTS = dict.fromkeys((texts.EMPTY, texts.SYNTAX, texts.TOO_LONG, texts.RANGE), 0)


# The ways through the oracle that led to a refusal, by the lines that it was at: what is new there is worth to be kept.
PATHS = set()


class Refused(Exception):
    """The fault of an entry's content."""


def path_of(error):
    """The lines at which an exception was raised, and those of the ones that led to it."""
    lines = []
    while error is not None:
        step = error.__traceback__
        while step is not None:
            lines.append((step.tb_frame.f_code.co_name, step.tb_lineno))
            step = step.tb_next
        error = error.__context__
    return tuple(lines[-6:])


def number_of(word, most):
    """The whole number that a word spells, or none where it is no number or past the most."""
    if not DIGITS.fullmatch(word):
        return None
    digits = word.lstrip(b"0") or b"0"
    return int(digits) if len(digits) <= 20 and int(digits) <= most else None


def amount(text):
    """The amount of a text in nanos; its fault is counted and raised."""
    try:
        return texts.nanos(text)
    except texts.NoAmount as fault:
        AMOUNT_FAULTS[fault.args[0]] += 1
        raise


# ---- rows


class Row(expected.Row):
    """A row of which each field is right. `find_fault` says what is wrong with the others."""

    def __init__(self, fields, currency):
        def broken(code):
            raise Refused(code)

        try:
            words = [field.decode() for field in fields]
        except UnicodeDecodeError:
            broken("V2 NotUtf8")
        (billed, effective, of_currency, category, start, end, corrects, owner, kind, status, quantity, unit, sku, account, tags) = fields
        if category not in CATEGORIES:
            broken("V3 Category")
        if corrects not in (b"", b"Correction"):
            broken("V4 Class")
        try:
            self.billed, self.effective = amount(billed), amount(effective)
        except texts.NoAmount:
            broken("V5 Cost")
        if of_currency != currency:
            broken("V6 Currency")
        try:
            start, end = texts.second(start), texts.second(end)
        except texts.NoInstant:
            broken("V7 Time")
        if end < start:
            broken("V8 PeriodOrder")
        if kind not in ((b"",) if owner == b"" else (b"Usage", b"Spend")):
            broken("V9 Commitment")
        if status not in (b"", b"Used", b"Unused") or status and not owner or owner and not status and category == b"Usage":
            broken("V10 Status")
        self.quantity = None
        if quantity:
            try:
                self.quantity = amount(quantity)
            except texts.NoAmount as fault:
                if fault.args[0] != texts.RANGE:
                    broken("V11 Quantity")
        try:
            self.tags = texts.tags_of(words[14]) if tags else {}
        except texts.NoJson:
            broken("V12 BadTags")
        except texts.TagsTooLong:
            broken("V13 TooLong")
        if any(len(text) > LONGEST_TEXT for text in (owner, unit, sku, account)):
            broken("V13 TooLong")
        self.category, self.corrects = words[3], words[6]
        self.id, self.kind, self.status, self.unit, self.sku, self.account = words[7], words[8], words[9], words[11], words[12], words[13]
        self.start, self.end = start, end
        self.hour = start // 3_600
        self.is_clock_hour = start % 3_600 == 0 and end == start + 3_600


class Header:
    """Where the fifteen columns stand in a record."""

    def __init__(self, names):
        self.width = len(names)
        for column in COLUMNS[:REQUIRED]:
            if column not in names:
                raise Refused(f"H1 MissingColumn {column.decode()}")
        for column in COLUMNS:
            if names.count(column) > 1:
                raise Refused(f"H2 DoubleColumn {column.decode()}")
        self.places = [names.index(column) if column in names else None for column in COLUMNS]

    def row(self, fields, currency):
        """The row of a record, or its first fault."""
        if len(fields) != self.width:
            raise Refused("V1 Fields")
        return Row([b"" if place is None else fields[place] for place in self.places], currency)


def rows_of(text, currency):
    """The rows of a post, or its first fault."""
    found = texts.records(text)
    header = Header(next(found, []))
    rows = []
    for fields in found:
        if len(rows) == expected.MOST_ROWS:
            raise Refused("V15 TooManyRows")
        try:
            rows.append(header.row(fields, currency))
        except Refused as fault:
            raise Refused(f"{fault} {len(rows) + 1}") from None
    if not rows:
        raise Refused("V14 NoRows")
    return rows


# ---- commitments, purchases and policies


class Fields:
    """The fields of a table, taken out one by one. A fault's code begins with this letter."""

    def __init__(self, letter, table):
        self.letter, self.table = letter, dict(table)

    def no_field(self, name):
        raise Refused(f"{self.letter}2 Field {name}")

    def past_limit(self, name):
        raise Refused(f"{self.letter}3 Limit {name}")

    def take(self, name, *kinds):
        """A field of one of these kinds."""
        value = self.table.pop(name.encode(), None)
        if type(value) not in kinds:
            self.no_field(name)
        return value

    def text(self, name, most=LONGEST_TEXT, least=1):
        text = self.take(name, bytes)
        if not least <= len(text) <= most:
            self.past_limit(name)
        return text.decode()

    def instant(self, name, read):
        try:
            return read(self.take(name, bytes))
        except texts.NoInstant:
            self.no_field(name)

    def amount(self, name):
        try:
            return amount(self.take(name, bytes))
        except texts.NoAmount:
            self.no_field(name)

    def end(self):
        if self.table:
            self.no_field("unknown")


def table_of(letter, text):
    try:
        return Fields(letter, toml_text.document(text))
    except toml_text.NoToml:
        raise Refused(f"{letter}1 Syntax") from None


class Commitment(expected.Commitment):
    """A commitment, read field by field in the order of the table in FORMATS."""

    def __init__(self, text):
        fields = table_of("C", text)
        self.id = fields.text("id")
        kind = fields.take("category", bytes)
        if kind not in (b"Usage", b"Spend"):
            fields.no_field("category")
        self.kind = kind.decode()
        self.start = fields.instant("start", texts.hour)
        self.hours = fields.take("hours", int)
        if not 1 <= self.hours <= expected.MOST_HOURS:
            fields.past_limit("hours")
        self.capacity = fields.amount("capacity")
        if self.capacity <= 0:
            fields.past_limit("capacity")
        self.unit = None
        if self.kind == "Usage":
            self.unit = fields.text("unit")
            self.rates = dict.fromkeys(self.skus(fields))
        else:
            self.rates = self.rates_of(fields)
        self.account = fields.text("sub_account") if b"sub_account" in fields.table else None
        self.tags = self.tags_of(fields)
        self.purchases = self.purchases_of(fields)
        fields.end()

    @staticmethod
    def skus(fields):
        skus = fields.take("skus", list)
        if any(type(sku) is not bytes for sku in skus) or len(set(skus)) < len(skus):
            fields.no_field("skus")
        if not 1 <= len(skus) <= 256 or not all(1 <= len(sku) <= LONGEST_TEXT for sku in skus):
            fields.past_limit("skus")
        return [sku.decode() for sku in skus]

    @staticmethod
    def rates_of(fields):
        rates = fields.take("rates", dict)
        if any(type(rate) is not int for rate in rates.values()):
            fields.no_field("rates")
        if not 1 <= len(rates) <= 256 or not all(1 <= len(sku) <= LONGEST_TEXT and 1 <= rate <= 1_000_000 for sku, rate in rates.items()):
            fields.past_limit("rates")
        return {sku.decode(): rate for sku, rate in rates.items()}

    @staticmethod
    def tags_of(fields):
        if b"tags" not in fields.table:
            return {}
        tags = fields.take("tags", dict)
        if any(type(text) is not bytes for text in tags.values()):
            fields.no_field("tags")
        if len(tags) > texts.MOST_TAGS or any(len(part) > texts.LONGEST_TAG for pair in tags.items() for part in pair):
            fields.past_limit("tags")
        return {key.decode(): text.decode() for key, text in tags.items()}

    @staticmethod
    def purchases_of(fields):
        purchases = fields.take("purchase", list)
        found = []
        for table in purchases:
            if type(table) is not dict or set(table) != {b"at", b"billed"} or any(type(text) is not bytes for text in table.values()):
                fields.no_field("purchase")
            try:
                found.append((texts.second(table[b"at"]) // 3_600, amount(table[b"billed"])))
            except (texts.NoInstant, texts.NoAmount):
                fields.no_field("purchase")
        if not 1 <= len(found) <= expected.MOST_PURCHASES or any(billed < 0 for _, billed in found) or sum(b for _, b in found) > texts.MOST_NANOS:
            fields.past_limit("purchase")
        return found

    def size(self):
        """How many bytes it is stored in."""
        texts_ = (8 + len(key.encode()) + len(text.encode()) for key, text in self.tags.items())
        skus = sum(4 + len(sku.encode()) + (0 if self.kind == "Usage" else 4) for sku in self.rates)
        account = 1 if self.account is None else 5 + len(self.account.encode())
        unit = 4 + len(self.unit.encode()) if self.kind == "Usage" else 0
        return 4 + len(self.id.encode()) + 1 + account + 4 + sum(texts_) + 4 + 4 + 8 + unit + 4 + skus + 4 + 16 * len(self.purchases)


class AddedPurchase(expected.AddedPurchase):
    """A purchase that is added, read in the same way."""

    def __init__(self, text):
        fields = table_of("C", text)
        self.id = fields.text("id")
        self.hour = fields.instant("at", texts.second) // 3_600
        self.billed = fields.amount("billed")
        if self.billed < 0:
            fields.past_limit("billed")
        fields.end()


def policy_of(text):
    """A policy and how many bytes it is stored in."""
    fields = table_of("P", text)
    key = fields.text("key", texts.LONGEST_TAG)
    tables = fields.take("rule", list) if b"rule" in fields.table else []
    if any(type(table) is not dict for table in tables):
        fields.no_field("rule")
    if len(tables) > 64:
        fields.past_limit("rule")
    rules = [rule_of(Fields("P", table)) for table in tables]
    if any(left for _, left in rules):
        fields.no_field("unknown")
    fields.end()
    rules = [rule for rule, _ in rules]
    froms = [rule["from"] for rule in rules]
    if len(set(froms)) < len(froms):
        raise Refused("P4 DoubleFrom")
    if any(group in froms for rule in rules for group in rule.get("to", {})):
        raise Refused("P5 TargetIsFrom")
    size = 4 + len(key.encode()) + 4
    for rule in rules:
        size += 4 + len(rule["from"].encode()) + 1
        size += sum(12 + len(group.encode()) for group in rule["to"]) + 4 if "to" in rule else 0
    return {"key": key, "rule": rules}, size


def rule_of(fields):
    """A rule, and the fields that it has beside its own."""
    rule = {"from": fields.text("from", texts.LONGEST_TAG, 0)}
    if (b"to" in fields.table) == (b"proportional" in fields.table):
        fields.no_field("rule")
    if b"to" in fields.table:
        weights = fields.take("to", dict)
        if any(type(weight) is not int for weight in weights.values()):
            fields.no_field("to")
        if not 1 <= len(weights) <= 256 or not all(len(g) <= texts.LONGEST_TAG and 0 <= w <= 10**9 for g, w in weights.items()):
            fields.past_limit("to")
        rule["to"] = {group.decode(): weight for group, weight in weights.items()}
    elif fields.take("proportional", bool) is not True:
        fields.no_field("proportional")
    return rule, fields.table


# ---- scripts


class Command:
    """A command of a script: its words, and the lines of its entry. `is_whole` says whether these are all that it announces."""

    def __init__(self, line, content=b"", is_entry=False, is_whole=True):
        self.line, self.content, self.is_entry, self.is_whole = line, content, is_entry, is_whole

    @property
    def text(self):
        return self.line + self.content


def lines_in(text, at, count):
    """Where so many lines from a place on end, and how many there are."""
    for found in range(count):
        end = text.find(b"\n", at)
        if end < 0:
            return len(text), found + (at < len(text))
        at = end + 1
    return at, count


def commands_of(script):
    """The commands of a script in order. The last one of an entry with too few lines takes all that is left."""
    at = 0
    while at < len(script):
        end = script.find(b"\n", at)
        end = len(script) if end < 0 else end + 1
        line = script[at:end]
        at = end
        words = line.removesuffix(b"\n").split(b" ")
        count = number_of(words[3], expected.MOST_LINES) if len(words) == 4 and words[0] in ENTRY_WORDS else None
        if count is None:
            yield Command(line)
            continue
        end, found = lines_in(script, at, count)
        yield Command(line, script[at:end], True, found == count)
        if found < count:
            return
        at = end


class Oracle(expected.Warehouse):
    """A warehouse that answers each command of each script."""

    def __init__(self, currency="USD"):
        super().__init__(currency)
        self.currency_bytes = currency.encode()

    def run(self, script):
        """Yields each command with its answer and the answer's label."""
        for command in commands_of(script):
            answer = self.answer(command)
            yield command, answer.encode(), label_of(answer)

    def answer(self, command):
        words = command.line.removesuffix(b"\n").split(b" ")
        if command.is_entry:
            if not command.is_whole:
                return "bad end\n"
            read = {b"post": self.post, b"commit": self.commit, b"add": self.add_purchase, b"policy": self.set_policy}[words[0]]
            return self.enter(words[1], words[2], read, command.content)
        if words[0] == b"withdraw" and len(words) == 4 and number_of(words[3], 2**64 - 1):
            return self.withdraw(words[1], words[2], number_of(words[3], 2**64 - 1))
        try:
            if words[0] == b"report" and len(words) >= 4:
                return self.report_hours(b" ".join(words[1:-2]).decode(), texts.hour(words[-2]), texts.hour(words[-1]))
            if words[0] == b"lines" and len(words) == 3:
                return self.lines_of_hours(texts.hour(words[1]), texts.hour(words[2]))
        except (texts.NoInstant, UnicodeDecodeError):
            return "bad command\n"
        if words == [b"state"]:
            return self.state()
        if words == [b"checkpoint"]:
            return "checkpointed\n"
        return "bad command\n"

    def enter(self, origin, number, read, text):
        try:
            found = read(text)
        except Refused as fault:
            PATHS.add(path_of(fault))
            return f"refused {fault}\n"
        if not ORIGIN.fullmatch(origin):
            return "refused E1 Origin\n"
        number = number_of(number, 2**64 - 1)
        if not number:
            return "refused E2 Seq\n"
        return self.judged(origin, number, *found)

    def post(self, text):
        return self.post_of(rows_of(text, self.currency_bytes))

    def commit(self, text):
        commitment = Commitment(text)
        return self.commit_of(commitment, commitment.size())

    def add_purchase(self, text):
        return self.add_of(AddedPurchase(text))

    def set_policy(self, text):
        return self.policy_entry(*policy_of(text))

    def between(self, low, high):
        """The lines of a range of hours."""
        hours = set(hour for hour in self.rows if low <= hour < high)
        for c in self.commitments:
            hours.update(range(max(low, c.start), min(high, c.start + c.hours)))
            hours.update(at for at, _ in c.purchases if low <= at < high)
        for hour in sorted(hours):
            yield from expected.lines_of_hour(self.commitments, self.rows.get(hour, []), hour)

    @staticmethod
    def is_range(low, high):
        return low < high and high - low <= expected.MOST_HOURS

    def lines_of_hours(self, low, high):
        return self.text_of(self.between(low, high)) if self.is_range(low, high) else "refused Q1 Range\n"

    def report_hours(self, key, low, high):
        return self.report_of(key, self.between(low, high)) if self.is_range(low, high) else "refused Q1 Range\n"


def label_of(answer):
    """What an answer is, without its numbers."""
    words = answer.split("\n", 1)[0].split(" ")
    return " ".join(words[:2]) if words[0] in ("refused", "bad", "store", "no") else words[0]


def answers(script, currency="USD"):
    """All answers to a script."""
    return b"".join(answer for _, answer, _ in Oracle(currency).run(script))


def main():
    parser = parser_of(__doc__)
    parser.add_argument("script", metavar="FILE.script", help="the commands")
    with open(parser.parse_args().script, "rb") as file:
        sys.stdout.buffer.write(answers(file.read()))
    return 0


if __name__ == "__main__":
    sys.exit(main())
