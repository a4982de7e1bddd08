"""The readers of small texts, written from docs/FORMATS.md: amounts, instants, CSV, and the JSON of tags.

They take bytes, and know each text, right or wrong: they are the oracle's own, and share nothing with the program. What FORMATS leaves to a
crate (`csv`, `serde_json`, `jiff`) is as that crate documents it, and as the program in bench/peers has it.
"""

import functools
import re

# How many texts are kept with what they spell: most inputs differ in few texts.
MOST_KEPT = 1 << 14

# ---- amounts

NUMBER = re.compile(rb"[+-]?(?:[0-9]+\.?[0-9]*|\.[0-9]+)(?:[eE]([+-]?[0-9]+))?")
LONGEST_NUMBER = 40
MOST_EXPONENT = 40
MOST_NANOS = 10**17
EMPTY, SYNTAX, TOO_LONG, RANGE = "M1 Empty", "M2 Syntax", "M3 TooLong", "M4 Range"


class NoAmount(Exception):
    """The fault of a text that is no amount."""


@functools.lru_cache(MOST_KEPT)
def nanos(text):
    """The amount that a text spells, in units of 10^-9, rounded to the nearest one and on a tie to the even one."""
    if not text:
        raise NoAmount(EMPTY)
    found = NUMBER.fullmatch(text)
    if not found:
        raise NoAmount(SYNTAX)
    exponent_text = found[1] or b"0"
    # A long exponent is cut, since only its being too great counts.
    digits = exponent_text.lstrip(b"+-").lstrip(b"0") or b"0"
    if len(text) > LONGEST_NUMBER or len(digits) > 4 or int(digits) > MOST_EXPONENT:
        raise NoAmount(TOO_LONG)
    exponent = -int(digits) if exponent_text.startswith(b"-") else int(digits)
    mantissa = re.split(rb"[eE]", text)[0]
    negative = mantissa.startswith(b"-")
    whole, _, fraction = mantissa.lstrip(b"+-").partition(b".")
    number, power = int(whole + fraction or b"0"), exponent - len(fraction) + 9
    if power >= 0:
        amount = number * 10**power
    else:
        amount, rest = divmod(number, 10**-power)
        twice = 2 * rest
        amount += twice > 10**-power or twice == 10**-power and amount % 2
    if amount > MOST_NANOS:
        raise NoAmount(RANGE)
    return -amount if negative else amount


# ---- instants

LAST_SECOND = 253_402_207_200
MOST_OFFSET = 26 * 3_600
FIRST_DAYS = (0, 31, 59, 90, 120, 151, 181, 212, 243, 273, 304, 334)
ZONE = re.compile(rb"(?:[A-Za-z_.][A-Za-z0-9_.+-]*)(?:/[A-Za-z_.][A-Za-z0-9_.+-]*)*")
ANNOTATION_KEY = re.compile(rb"[a-z_][a-z0-9_-]*")
ANNOTATION_VALUE = re.compile(rb"[A-Za-z0-9]+(?:-[A-Za-z0-9]+)*")


class NoInstant(Exception):
    """The text is no instant that a row or a commitment may have."""


def is_leap(year):
    return year % 4 == 0 and (year % 100 != 0 or year % 400 == 0)


def day_number(year, month, day):
    """Days since 1970-01-01 on the calendar of today."""
    before = year - 1
    days = before * 365 + before // 4 - before // 100 + before // 400 - 719_162
    return days + FIRST_DAYS[month - 1] + (month > 2 and is_leap(year)) + day - 1


def days_in(year, month):
    return 29 if month == 2 and is_leap(year) else (31, 28, 31, 30, 31, 30, 31, 31, 30, 31, 30, 31)[month - 1]


class Instant:
    """A reader of one instant, which goes over its text from the left."""

    def __init__(self, text):
        self.text, self.at = text, 0

    def take(self, *marks):
        """Takes one of these bytes where it is next: the byte, or none."""
        here = self.text[self.at : self.at + 1]
        if here and here in marks:
            self.at += 1
            return here
        return b""

    def digits(self, count, most):
        found = self.text[self.at : self.at + count]
        if len(found) != count or not re.fullmatch(rb"[0-9]+", found) or int(found) > most:
            raise NoInstant
        self.at += count
        return int(found)

    def more(self, has_colons):
        """Whether another pair of digits comes; with colons it has one before it."""
        if has_colons:
            return bool(self.take(b":"))
        return bool(re.match(rb"[0-9]{2}", self.text[self.at :]))

    def fraction(self):
        """A fraction of a second, in nanoseconds."""
        if not self.take(b".", b","):
            return 0
        found = re.match(rb"[0-9]{1,9}", self.text[self.at :])
        if not found:
            raise NoInstant
        self.at += len(found[0])
        return int(found[0].ljust(9, b"0"))

    def day(self):
        if self.take(b"+"):
            year = self.digits(6, 9_999)
        elif self.take(b"-"):
            # A year before 0, which lies before 1970.
            raise NoInstant
        else:
            year = self.digits(4, 9_999)
        has_marks = bool(self.take(b"-"))
        month = self.digits(2, 12)
        if bool(self.take(b"-")) != has_marks:
            raise NoInstant
        day = self.digits(2, 31)
        if month == 0 or day == 0 or day > days_in(year, month):
            raise NoInstant
        return day_number(year, month, day) if year else day_number(400, month, day) - 146_097

    def clock(self):
        """The seconds of the day, and the nanoseconds."""
        seconds = self.digits(2, 23) * 3_600
        has_colons = self.text[self.at : self.at + 1] == b":"
        if not self.more(has_colons):
            return seconds, 0
        seconds += self.digits(2, 59) * 60
        if not self.more(has_colons):
            return seconds, 0
        seconds += min(self.digits(2, 60), 59)
        return seconds, self.fraction()

    def offset(self):
        """The seconds of an offset, behind its sign."""
        seconds = self.digits(2, 25) * 3_600
        has_colons = self.text[self.at : self.at + 1] == b":"
        if self.more(has_colons):
            seconds += self.digits(2, 59) * 60
            if self.more(has_colons):
                seconds += self.digits(2, 59)
                seconds += self.fraction() >= 500_000_000
        if seconds >= MOST_OFFSET:
            raise NoInstant
        return seconds

    def annotations(self):
        is_first = True
        while self.take(b"["):
            end = self.text.find(b"]", self.at)
            if end < 0:
                raise NoInstant
            text, self.at = self.text[self.at : end], end + 1
            is_critical = text.startswith(b"!")
            text = text[is_critical:]
            if b"=" in text:
                key, _, value = text.partition(b"=")
                right = not is_critical and ANNOTATION_KEY.fullmatch(key) and ANNOTATION_VALUE.fullmatch(value)
            else:
                right = is_first and (ZONE.fullmatch(text) or is_zone_offset(text))
            if not right:
                raise NoInstant
            is_first = False

    def second(self):
        days = self.day()
        if not self.take(b"T", b"t", b" "):
            raise NoInstant
        seconds, fraction = self.clock()
        mark = self.take(b"Z", b"z", b"+", b"-")
        if not mark:
            raise NoInstant
        offset = self.offset() if mark in b"+-" else 0
        self.annotations()
        if self.at != len(self.text) or fraction:
            raise NoInstant
        return days * 86_400 + seconds - (-offset if mark == b"-" else offset)


def is_zone_offset(text):
    """Whether an annotation is an offset of hours, or of hours and minutes."""
    if not text[:1] in (b"+", b"-") or sum(byte in b"0123456789" for byte in text) > 4:
        return False
    reader = Instant(text)
    reader.at = 1
    try:
        reader.offset()
    except NoInstant:
        return False
    return reader.at == len(text)


@functools.lru_cache(MOST_KEPT)
def second(text):
    """The second since 1970 that a text names, which is whole and not before 1970."""
    found = Instant(text).second()
    if not 0 <= found <= LAST_SECOND:
        raise NoInstant
    return found


def hour(text):
    """The hour since 1970 that a text names, which is on a whole hour."""
    found, rest = divmod(second(text), 3_600)
    if rest:
        raise NoInstant
    return found


# ---- CSV

BARE = re.compile(rb"[^,\r\n]*")
WITHIN_QUOTES = re.compile(rb'(?:[^"]|"")*')
EMPTY_LINES = re.compile(rb"[\r\n]*")
BYTE_ORDER_MARK = b"\xef\xbb\xbf"


def records(text):
    """The records of a CSV, each a list of fields."""
    return (fields for fields, _, _ in placed_records(text))


def placed_records(text):
    """The records of a CSV, each a list of fields, the place of its first byte, and that of the byte that ends it."""
    at, end = (3 if text.startswith(BYTE_ORDER_MARK) else 0), len(text)
    while True:
        begin = at = EMPTY_LINES.match(text, at).end()
        if at == end:
            return
        fields = []
        while True:
            field, at = field_at(text, at)
            fields.append(field)
            if text[at : at + 1] != b",":
                break
            at += 1
        yield fields, begin, at
        # One of CR, LF and CRLF ends a record; a bare LF behind it would be an empty line anyway.
        at += 1


def without_repeats(text):
    """A CSV without the records that are the bytes of its header again, and how many records stand before each of these, and behind the last. A byte
    order mark may stand before each."""
    kept, last, counts, header = [], 0, [0], None
    for _, begin, end in placed_records(text):
        record = text[begin:end]
        if header is None:
            header = record
        elif record.removeprefix(BYTE_ORDER_MARK) == header:
            kept.append(text[last:begin])
            last = end + 1
            counts.append(0)
        else:
            counts[-1] += 1
    return b"".join([*kept, text[last:]]), counts


def field_at(text, at):
    """The field that begins at a place, and where it ends: at a comma, at the end of the record, or at the end of the text."""
    if text[at : at + 1] != b'"':
        found = BARE.match(text, at)
        return found[0], found.end()
    found = WITHIN_QUOTES.match(text, at + 1)
    # Behind a closing quote the field goes on, and quotes in it are bytes like any other.
    rest = BARE.match(text, found.end() + 1) if found.end() < len(text) else None
    field = found[0].replace(b'""', b'"') + (rest[0] if rest else b"")
    return field, rest.end() if rest else len(text)


# ---- JSON

DEEPEST = 127
BLANK = re.compile(r"[ \t\n\r]*")
PLAIN = re.compile(r'[^"\\\x00-\x1f]*')
JSON_NUMBER = re.compile(r"-?(?:0|[1-9][0-9]*)(?:\.[0-9]+)?(?:[eE][+-]?[0-9]+)?")
ESCAPES = {'"': '"', "\\": "\\", "/": "/", "b": "\b", "f": "\f", "n": "\n", "r": "\r", "t": "\t"}
WORDS = {"true": True, "false": False, "null": None}
# What stands for a number, an array or an object where the value itself doesn't matter.
OTHER = object()


class NoJson(Exception):
    """The text is no JSON, or none that the crate reads."""


class Json:
    """A reader of one JSON text. Texts, true, false and null are kept, of other values that they are there."""

    def __init__(self, text):
        self.text, self.at = text, 0

    def skip(self):
        self.at = BLANK.match(self.text, self.at).end()

    def here(self):
        return self.text[self.at : self.at + 1]

    def expect(self, mark):
        if self.here() != mark:
            raise NoJson
        self.at += 1

    def members(self):
        """The members of the object that the whole text is, in the order of the text."""
        self.skip()
        self.expect("{")
        found = self.rest_of_object(1)
        self.skip()
        if self.at != len(self.text):
            raise NoJson
        return found

    def rest_of_object(self, depth):
        found = []
        self.skip()
        if self.here() == "}":
            self.at += 1
            return found
        while True:
            self.skip()
            if self.here() != '"':
                raise NoJson
            key = self.string()
            self.skip()
            self.expect(":")
            found.append((key, self.value(depth)))
            self.skip()
            if self.here() == "}":
                self.at += 1
                return found
            self.expect(",")

    def rest_of_array(self, depth):
        self.skip()
        if self.here() == "]":
            self.at += 1
            return
        while True:
            self.value(depth)
            self.skip()
            if self.here() == "]":
                self.at += 1
                return
            self.expect(",")

    def value(self, depth):
        self.skip()
        mark = self.here()
        if mark == '"':
            return self.string()
        if mark in ("{", "["):
            if depth >= DEEPEST:
                raise NoJson
            self.at += 1
            (self.rest_of_object if mark == "{" else self.rest_of_array)(depth + 1)
            return OTHER
        for word, meaning in WORDS.items():
            if self.text.startswith(word, self.at):
                self.at += len(word)
                return meaning
        found = JSON_NUMBER.match(self.text, self.at)
        if not found or abs(float(found[0])) == float("inf"):
            raise NoJson
        self.at = found.end()
        return OTHER

    def string(self):
        self.at += 1
        parts = []
        while True:
            found = PLAIN.match(self.text, self.at)
            parts.append(found[0])
            self.at = found.end() + 1
            mark = self.text[found.end() : self.at]
            if mark == '"':
                return "".join(parts)
            if mark != "\\":
                raise NoJson
            parts.append(self.escape())

    def escape(self):
        letter = self.here()
        self.at += 1
        if letter in ESCAPES:
            return ESCAPES[letter]
        if letter != "u":
            raise NoJson
        unit = self.four()
        if 0xD800 <= unit < 0xDC00:
            if self.text[self.at : self.at + 2] != "\\u":
                raise NoJson
            self.at += 2
            low = self.four()
            if not 0xDC00 <= low < 0xE000:
                raise NoJson
            return chr(0x10000 + (unit - 0xD800) * 0x400 + low - 0xDC00)
        if 0xDC00 <= unit < 0xE000:
            raise NoJson
        return chr(unit)

    def four(self):
        found = self.text[self.at : self.at + 4]
        if not re.fullmatch(r"[0-9a-fA-F]{4}", found):
            raise NoJson
        self.at += 4
        return int(found, 16)


class TagsTooLong(Exception):
    """The tags are past their limits."""


MOST_TAGS = 256
LONGEST_TAG = 1_024


def tags_of(text):
    """The tags that a text holds, which is UTF-8 and not empty: each key with its text."""
    found = {}
    for key, value in Json(text).members():
        found.pop(key, None)
        found[key] = value
    if any(value is OTHER for value in found.values()):
        raise NoJson
    words = {None: "", True: "true", False: "false"}
    tags = {key: value if isinstance(value, str) else words[value] for key, value in found.items()}
    if len(tags) > MOST_TAGS or any(len(part.encode()) > LONGEST_TAG for pair in tags.items() for part in pair):
        raise TagsTooLong
    return tags
