"""A reader of TOML 1.1 as the crate `toml` reads it, written from the text of the standard.

`document(text)` gives the table of a text as a dictionary of bytes, or raises `NoToml`. Texts are bytes, whole numbers `int`, truth values
`bool`, arrays lists and tables dictionaries. Of a float or a date it keeps that it is one, since no field of a warehouse may be one.

The crate's own limits: keys of at most 80 parts, arrays and inline tables at most 80 in one another, whole numbers of 64 bits with a sign,
and no float past the greatest one.
"""

import math
import re

DEEPEST = 80
MOST_INT = 2**63 - 1
SPACE = re.compile(rb"[ \t]*")
BARE_KEY = re.compile(rb"[A-Za-z0-9_-]+")
WORD = re.compile(rb"[A-Za-z0-9_+.:-]+")
COMMENT = re.compile(rb"#[^\x00-\x08\x0a-\x1f\x7f]*")
ONE_LINE = {b'"': re.compile(rb'[^"\\\x00-\x08\x0a-\x1f\x7f]*'), b"'": re.compile(rb"[^'\x00-\x08\x0a-\x1f\x7f]*")}
LINES = {b'"': re.compile(rb'[^"\\\x00-\x08\x0b-\x1f\x7f]*'), b"'": re.compile(rb"[^'\x00-\x08\x0b-\x1f\x7f]*")}
ESCAPES = {b"b": b"\x08", b"e": b"\x1b", b"f": b"\x0c", b"n": b"\n", b"r": b"\r", b"t": b"\t", b'"': b'"', b"\\": b"\\"}
HEX_LENGTHS = {b"x": 2, b"u": 4, b"U": 8}
DECIMAL = re.compile(rb"[+-]?(?:0|[1-9](?:_?[0-9])*)")
FLOAT = re.compile(rb"[+-]?(?:0|[1-9](?:_?[0-9])*)(?:\.[0-9](?:_?[0-9])*)?(?:[eE][+-]?[0-9](?:_?[0-9])*)?")
PREFIXED = {
    16: re.compile(rb"0x[0-9A-Fa-f](?:_?[0-9A-Fa-f])*"), 8: re.compile(rb"0o[0-7](?:_?[0-7])*"), 2: re.compile(rb"0b[01](?:_?[01])*"),
}  # fmt: skip
LIKE_A_DATE = re.compile(rb"[0-9]+[-:]")
DATE = re.compile(rb"([0-9]{4})-([0-9]{2})-([0-9]{2})")
TIME = re.compile(rb"([0-9]{2}):([0-9]{2})(?::([0-9]{2})(?:\.[0-9]+)?)?")
OFFSET = re.compile(rb"[Zz]|[+-](?:[01][0-9]|2[0-3]):[0-5][0-9]")
# Values that are there and are nothing that a field may be.
A_FLOAT, A_DATE = "a float", "a date"


class NoToml(Exception):
    """The text is no TOML."""


class Table:
    """A table that is being read, and what made it: a header that went through it, a dotted key, or its own header."""

    def __init__(self, origin):
        self.origin, self.members = origin, {}

    def plain(self):
        return {key: plain(value) for key, value in self.members.items()}


class Tables:
    """An array of tables: the last one is still being read."""

    def __init__(self):
        self.tables = [Table("header")]

    def plain(self):
        return [table.plain() for table in self.tables]


class Done:
    """A value, which nothing may be added to."""

    def __init__(self, value):
        self.value = value

    def plain(self):
        return self.value


def plain(value):
    return value.plain()


class Reader:
    def __init__(self, text):
        self.text, self.at = text, 0

    def here(self, count=1):
        return self.text[self.at : self.at + count]

    def skip_space(self):
        self.at = SPACE.match(self.text, self.at).end()

    def newline(self):
        """Takes a line end, where one is next."""
        for mark in (b"\n", b"\r\n"):
            if self.text.startswith(mark, self.at):
                self.at += len(mark)
                return True
        return False

    def skip_blank(self):
        """Takes white space, line ends and comments."""
        while True:
            self.skip_space()
            if self.newline():
                continue
            comment = COMMENT.match(self.text, self.at)
            if not comment:
                return
            self.at = comment.end()

    def take(self, mark):
        if self.text.startswith(mark, self.at):
            self.at += len(mark)
            return True
        return False

    def need(self, mark):
        if not self.take(mark):
            raise NoToml(f"no {mark!r} at {self.at}")

    # strings

    def hex_escape(self, count):
        digits = self.here(count)
        if not re.fullmatch(rb"[0-9A-Fa-f]{%d}" % count, digits):
            raise NoToml("an escape")
        self.at += count
        code = int(digits, 16)
        if 0xD800 <= code < 0xE000 or code > 0x10FFFF:
            raise NoToml("an escape of no character")
        return chr(code).encode()

    def escape(self, multi):
        """What a backslash stands for, behind it."""
        if multi:
            before = self.at
            self.skip_space()
            if self.newline():
                while True:
                    self.skip_space()
                    if not self.newline():
                        return b""
            self.at = before
        letter = self.here()
        self.at += 1
        if letter in HEX_LENGTHS:
            return self.hex_escape(HEX_LENGTHS[letter])
        if letter not in ESCAPES:
            raise NoToml("an escape")
        return ESCAPES[letter]

    def string(self, may_have_lines):
        mark = self.here()
        if may_have_lines and self.take(mark * 3):
            self.newline()
            return self.string_of_lines(mark)
        self.at += 1
        parts = []
        while True:
            found = ONE_LINE[mark].match(self.text, self.at)
            parts.append(found[0])
            self.at = found.end()
            if self.take(mark):
                return b"".join(parts)
            if mark == b"'" or not self.take(b"\\"):
                raise NoToml("a string")
            parts.append(self.escape(False))

    def string_of_lines(self, mark):
        parts = []
        while True:
            found = LINES[mark].match(self.text, self.at)
            parts.append(found[0])
            self.at = found.end()
            marks = 0
            while self.text[self.at + marks : self.at + marks + 1] == mark:
                marks += 1
            if marks > 5:
                raise NoToml("a string of lines")
            if marks >= 3:
                self.at += marks
                return b"".join(parts) + mark * (marks - 3)
            if marks:
                parts.append(mark * marks)
                self.at += marks
            elif self.text.startswith(b"\r\n", self.at):
                parts.append(b"\r\n")
                self.at += 2
            elif mark == b'"' and self.take(b"\\"):
                parts.append(self.escape(True))
            else:
                raise NoToml("a string of lines")

    # keys

    def key(self):
        """The parts of a key, and the white space behind it."""
        parts = []
        while True:
            if len(parts) == DEEPEST:
                raise NoToml("a key of too many parts")
            if self.here() in (b'"', b"'"):
                parts.append(self.string(False))
            else:
                found = BARE_KEY.match(self.text, self.at)
                if not found:
                    raise NoToml("a key")
                parts.append(found[0])
                self.at = found.end()
            self.skip_space()
            if not self.take(b"."):
                return parts
            self.skip_space()

    # values

    def value(self, deeper):
        """A value that has at most so many arrays and inline tables in one another."""
        mark = self.here()
        if mark in (b'"', b"'"):
            return self.string(True)
        if mark in (b"[", b"{") and mark:
            if not deeper:
                raise NoToml("too deep")
            self.at += 1
            return self.array(deeper - 1) if mark == b"[" else self.inline_table(deeper - 1)
        return self.scalar()

    def array(self, deeper):
        items = []
        while True:
            self.skip_blank()
            if self.take(b"]"):
                return items
            items.append(self.value(deeper))
            self.skip_blank()
            if not self.take(b",") and self.here() != b"]":
                raise NoToml("an array")

    def inline_table(self, deeper):
        table = Table("header")
        while True:
            self.skip_blank()
            if self.take(b"}"):
                return table.plain()
            self.pair(table, deeper)
            self.skip_blank()
            if not self.take(b",") and self.here() != b"}":
                raise NoToml("an inline table")

    def pair(self, table, deeper):
        parts = self.key()
        self.need(b"=")
        self.skip_space()
        put(table, parts, Done(self.value(deeper)))

    def scalar(self):
        found = WORD.match(self.text, self.at)
        if not found:
            raise NoToml("a value")
        end = found.end()
        if re.match(rb" [0-9]", self.text[end : end + 2]):
            # A space joins a date and a time.
            end = WORD.match(self.text, end + 1).end()
        word, self.at = self.text[self.at : end], end
        return scalar(word)

    # documents

    def document(self):
        if self.text.startswith(b"\xef\xbb\xbf"):
            self.at = 3
        root = Table("header")
        table_path = []
        while True:
            self.skip_blank()
            if self.at == len(self.text):
                return root.plain()
            if self.take(b"[["):
                table_path = self.header(b"]]")
                add_to_array(root, table_path)
            elif self.take(b"["):
                table_path = self.header(b"]")
                open_table(root, table_path)
            else:
                self.pair(table_at(root, table_path), DEEPEST)
            self.skip_space()
            # A carriage return alone is seen as a line that begins with it, and is refused there.
            if self.at < len(self.text) and self.here() not in (b"#", b"\n", b"\r"):
                raise NoToml("more on a line")

    def header(self, end):
        self.skip_space()
        parts = self.key()
        self.need(end)
        return parts


def table_at(root, path):
    """The table that a header names, which is there: of an array its last one."""
    table = root
    for part in path:
        table = table.members[part]
        if isinstance(table, Tables):
            table = table.tables[-1]
    return table


def through(root, parts):
    """The table that the parts of a header lead through; those that are missing are made."""
    table = root
    for part in parts:
        found = table.members.setdefault(part, Table("passed"))
        if isinstance(found, Tables):
            found = found.tables[-1]
        if not isinstance(found, Table):
            raise NoToml("a header through a value")
        table = found
    return table


def open_table(root, path):
    table = through(root, path[:-1])
    found = table.members.get(path[-1])
    if found is None:
        table.members[path[-1]] = Table("header")
    elif isinstance(found, Table) and found.origin == "passed":
        found.origin = "header"
    else:
        raise NoToml("a table that is there")


def add_to_array(root, path):
    table = through(root, path[:-1])
    found = table.members.get(path[-1])
    if found is None:
        table.members[path[-1]] = Tables()
    elif isinstance(found, Tables):
        found.tables.append(Table("header"))
    else:
        raise NoToml("an array of tables over what is there")


def put(table, parts, value):
    """Puts a value under a dotted key."""
    for part in parts[:-1]:
        found = table.members.setdefault(part, Table("dotted"))
        if not isinstance(found, Table) or found.origin == "header":
            raise NoToml("a dotted key through what is defined")
        # Through a table that headers passed a dotted key may go, and makes it its own.
        found.origin = "dotted"
        table = found
    if parts[-1] in table.members:
        raise NoToml("a key twice")
    table.members[parts[-1]] = value


def scalar(word):
    if word in (b"true", b"false"):
        return word == b"true"
    if LIKE_A_DATE.match(word):
        if not is_date(word):
            raise NoToml("a date")
        return A_DATE
    if word.lstrip(b"+-") in (b"inf", b"nan") and len(word) <= 4:
        return A_FLOAT
    for base, form in PREFIXED.items():
        if form.fullmatch(word):
            number = int(word[2:].replace(b"_", b""), base)
            if number > MOST_INT:
                raise NoToml("a number past 64 bits")
            return number
    if DECIMAL.fullmatch(word):
        number = int(word.replace(b"_", b""))
        if not -MOST_INT - 1 <= number <= MOST_INT:
            raise NoToml("a number past 64 bits")
        return number
    if FLOAT.fullmatch(word) and math.isfinite(float(word.replace(b"_", b""))):
        return A_FLOAT
    raise NoToml("no value")


def is_date(word):
    found = DATE.match(word)
    if not found:
        whole = TIME.fullmatch(word)
        return bool(whole) and is_clock(whole)
    year, month, day = (int(part) for part in found.groups())
    leap = year % 4 == 0 and (year % 100 != 0 or year % 400 == 0)
    if not 1 <= month <= 12 or not 1 <= day <= (31, 29 if leap else 28, 31, 30, 31, 30, 31, 31, 30, 31, 30, 31)[month - 1]:
        return False
    rest = word[found.end() :]
    if not rest:
        return True
    clock = TIME.match(rest, 1)
    if rest[:1] not in (b"T", b"t", b" ") or not clock or not is_clock(clock):
        return False
    return clock.end() == len(rest) or bool(OFFSET.fullmatch(rest, clock.end()))


def is_clock(found):
    hour, minute, second = (int(part or 0) for part in found.groups())
    return hour < 24 and minute < 60 and second <= 60


def document(text):
    """The table of a text."""
    try:
        text.decode()
    except UnicodeDecodeError as why:
        raise NoToml("no UTF-8") from why
    return Reader(text).document()
