"""Changes of inputs: bytes, words of a format, records, blanks, instants, numbers at limits, splices of two inputs, and what the two files are made of.

Each function takes a `random.Random`, so that the same seed makes the same input.
"""

import datetime
import os
import re
import sys

HERE = os.path.dirname(os.path.abspath(__file__))
sys.path[:0] = [HERE, os.path.dirname(HERE)]
import compare_hostile as hostile  # noqa: E402
import texts  # noqa: E402

NUMBERS = [
    "0", "-0", "1", "-1", "00", "01", "255", "256", "257", "1024", "1025", "4095", "4096", "4097", "26304", "26305", "65535", "65536", "65537", "1000000",
    "1000001", "2147483647", "2147483648", "4294967295", "4294967296", "9223372036854775807", "9223372036854775808", "-9223372036854775808",
    "-9223372036854775809", "18446744073709551615", "18446744073709551616", "100000000000000000", "100000000000000001", "1e17", "1e40", "1e41", "1e-40",
    "-1e40", "1e400", "340282366920938463463374607431768211456", "9" * 40, "9" * 41, "0" * 60,
]  # fmt: skip
EXTREMES = [0, 1, 2, 3, 5, 64, 65, 255, 256, 1023, 1024, 1025, 4096, 4097, 65536, 65537, 2**31 - 1, 2**31, 2**32 - 1, 10**17, 10**17 + 1, 2**63 - 1, 2**63, 2**64 - 1]
NUMBER = re.compile(rb"-?[0-9]+(?:\.[0-9]+)?")
MOST_BYTES = 16_384
# The length of texts at the limits of fields.
LENGTHS = (0, 1, 64, 65, 255, 256, 257, 1_023, 1_024, 1_025)


def encoded(words):
    return [word if isinstance(word, bytes) else word.encode() for word in words]


WORDS = {
    "csv": encoded(
        hostile.COLUMNS + "ChargeClass CommitmentDiscountId CommitmentDiscountCategory CommitmentDiscountStatus ConsumedQuantity ConsumedUnit".split()
        + "SkuId SubAccountId Tags".split() + hostile.OTHER_COLUMNS + hostile.AMOUNTS + hostile.TIMES + hostile.RARE_TIMES + hostile.WORDS + hostile.WRONG_WORDS
        + hostile.WRONG_CURRENCIES + ["Correction", "Used", "Unused", "Spend", "USD", "Hours", "vm", "cd-1", '{""team"":""web""}', "{}", "[]", '""{""'] * 3
        + hostile.HOSTILE
    ),
    "json": encoded(
        ["{", "}", "[", "]", ":", ",", '"', "\\", '"team"', '"env"', '"a":"b"', "true", "false", "null", "tru", "nul", "NaN", "Infinity", "1", "-", "1.", "1e5"]
        + ['"\\u0000"', '"\\ud83d\\ude00"', '"\\ud800"', '"\\udc00"', '"\\ud800\\ud800"', "\\u00e9", "\\x41", "\\n", '"\\/"', "/*c*/", "//", "'", "\ufeff", "\u00e9"]
        + ["\n", "\r", "\t", " ", "\x0b", "\0", "\x1f", "\x7f", "[" * 126, "[" * 127, "[" * 128, '{"a":' * 126, '{"a":' * 127, "]" * 126, "1e308", "1e309", "-1e400"]
        + [f'"{letter * length}"' for letter in ("k", "\u00e9") for length in (512, 513, 1_024, 1_025)] + NUMBERS
    ),
    "toml": encoded(
        "id category start hours capacity unit skus rates sub_account tags purchase at billed key rule from to proportional".split()
        + ["=", " = ", '"', "'", '"""', "'''", "[", "]", "[[", "]]", "{", "}", ",", ".", "#", "\n", "\r\n", "\r", " ", "\t", "\\", "_", "+", "-", "\0", "\x7f", "\ufeff"]
        + ['"Usage"', '"Spend"', '"2024-01-01T00:00Z"', '"2024-01-01T00:30Z"', '"cd-1"', '"vm"', "true", "false", "inf", "-nan", "[purchase]", "[[purchase]]"]
        + ["[tags]", "[[rule]]", "[rates]", "[rule.to]", "to = {}", "[a.b]", "a.b = 1", '"".a = 1', "a . b", "proportional = true", "# c", "#\x07", "\\e", "\\x41", "\\u00e9"]
        + ["\\U0010FFFF", "\\ud800", "\\\n", "1979-05-27", "07:32:00", "07:32", "1979-05-27T07:32:00-07:00", "1979-05-27 07:32:60.999Z", "1979-02-29", "24:00:00"]
        + ["0x7fffffffffffffff", "0xffffffffffffffff", "0o7", "0b1", "1_000", "1__0", "_1", "0x_1", "+0", "1.5", "1.", ".5", "1e5", "1e400", "[" * 79, "[" * 80, "[" * 81]
        + ["]" * 80, "{a=" * 79, "{a=" * 80, "a." * 78, "a." * 79, "a." * 80] + NUMBERS + hostile.TIMES + [f'"{text}"' for text in hostile.AMOUNTS + hostile.TIMES]
    ),
    "scripts": encoded(hostile.ODD_LINES + hostile.COUNTS + hostile.TARGETS + hostile.KEYS + hostile.HOSTILE + NUMBERS)
    + encoded("post commit add policy withdraw report lines state checkpoint a b team 1 2".split() + ["2024-01-01T00:00Z", "2024-01-02T00:00Z", " ", "\n", "\r\n"]),
    "command-lines": encoded(
        "run import load add replace withdraw check report compare lines coverage commitments status verify checkpoint compact dump explain policy list export help --as-of --before --before-to --digest --expect --column --where --where-not --map --sum --total-only --only --policy --summary --summary=json --keep ServiceName=service --dialect gcp SkuId team=web team= jsonl --seq --all --into --yes --dry-run --dir --create --currency --workers --origin --quiet --tag --from --to".split()
        + "--by --top --format --analysts --dry-run --yes --help -h --version -V -- - -d --di --dir=house house none rows.csv odd.csv usage.toml USD EUR usd day hour month".split()
        + "week csv json html table text 2024-01 2024-02 2024-01-01 2024-01-01T00:00Z 2024-13 1 0 -1 16 17 64 65 256 1000 1001 V5 S2 J9 v5 Z1 team".split()
        + ["", " ", "=", "\n", "\u00e9", b"\xff", "--=", "--dir=", "---", "--top=5", "--workers=2", "--no-such", "a" * 300] + NUMBERS
    ),
}  # fmt: skip
WORDS["folders"] = []


def of_bytes(chance, data):
    """Bytes changed, put in, left out, doubled or moved."""
    at = chance.randint(0, len(data))
    kind = chance.randrange(8)
    if kind == 0 and at < len(data):
        return data[:at] + bytes([data[at] ^ 1 << chance.randrange(8)]) + data[at + 1 :]
    if kind == 1:
        return data[:at] + bytes([chance.randrange(256)]) + data[at + 1 :]
    if kind == 2:
        return data[:at] + chance.randbytes(chance.randint(1, 4)) + data[at:]
    if kind == 3:
        return data[:at] + data[at + chance.randint(1, 20) :]
    if kind == 4:
        return data[:at]
    end = min(len(data), at + chance.randint(1, 40))
    if kind == 5:
        return data[:end] + data[at:end] * chance.choice([1, 1, 2, 10]) + data[end:]
    if kind == 6:
        other = chance.randint(0, len(data))
        return data[:other] + data[at:end] + data[other:]
    return data[:at] + chance.choice(hostile.HOSTILE) * chance.choice([1, 1, 1, 2, 7]) + data[at:]


def of_words(chance, data, words):
    """A word of the format put in, or in place of another word."""
    if not words:
        return of_bytes(chance, data)
    word = chance.choice(words)
    places = [found.span() for found in re.finditer(rb"[^\s,=\"\[\]{}]+", data)]
    if places and chance.random() < 0.6:
        start, end = chance.choice(places)
        return data[:start] + word + data[end:]
    at = chance.randint(0, len(data))
    return data[:at] + word + data[at:]


def of_numbers(chance, data, words=()):
    """A number at a limit in place of another one, or one that differs by 1."""
    places = [found.span() for found in NUMBER.finditer(data)]
    if not places:
        return of_bytes(chance, data)
    start, end = chance.choice(places)
    text = data[start:end]
    if chance.random() < 0.3 and b"." not in text:
        return data[:start] + str(int(text) + chance.choice([-1, 1])).encode() + data[end:]
    return data[:start] + chance.choice(NUMBERS).encode() + data[end:]


def of_lines(chance, data, words=()):
    """Lines doubled, left out, exchanged, cut, or many times repeated."""
    lines = data.splitlines(keepends=True)
    if not lines:
        return of_bytes(chance, data)
    at = chance.randrange(len(lines))
    kind = chance.randrange(6)
    if kind == 0:
        lines.insert(at, chance.choice(lines))
    elif kind == 1:
        del lines[at]
    elif kind == 2:
        other = chance.randrange(len(lines))
        lines[at], lines[other] = lines[other], lines[at]
    elif kind == 3:
        lines[at] = lines[at][: chance.randint(0, len(lines[at]))]
    elif kind == 4:
        lines[at] *= chance.choice([2, 3, 64, 65, 257])
    else:
        lines[at] = lines[at].rstrip(b"\r\n") + chance.choice([b"\r\n", b"\r", b"\n\n", b"\n\r", b"", b" \n"])
    return b"".join(lines)


def of_texts(chance, data, words=()):
    """A quoted text made as long as a limit, or one more or less."""
    places = [found.span(1) for found in re.finditer(rb'"([^"\n]*)"', data)]
    if not places:
        return of_words(chance, data, words)
    start, end = chance.choice(places)
    letter = chance.choice([b"x", b"x", b"\xc3\xa9", b"\xf0\x9f\x98\x80", b"-"])
    length = chance.choice(LENGTHS)
    return data[:start] + letter * (length // len(letter)) + b"y" * (length % len(letter)) + data[end:]


# Bytes that a reader may take for nothing at an end of a text.
BLANKS = (b" ", b" ", b" ", b"  ", b"\t", b"\xc2\xa0", b"\xe3\x80\x80", b"\x0b", b"\xe2\x80\x8b", b"\xef\xbb\xbf")
QUOTED = re.compile(rb"\"([^\"\r\n]*)\"|'([^'\r\n]*)'")
PIECE = re.compile(rb"[^,=\"'\[\]{}:\r\n]+")


def of_blanks(chance, data, words=()):
    """A blank put at an end of a text, or taken away from there: of a text in quotes, or of what stands between two marks."""
    quoted = [found.span(1 if found[1] is not None else 2) for found in QUOTED.finditer(data)]
    places = quoted if quoted and chance.random() < 0.6 else [found.span() for found in PIECE.finditer(data)]
    if not places:
        return of_bytes(chance, data)
    start, end = chance.choice(places)
    return data[:start] + blanked(chance, data[start:end]) + data[end:]


def blanked(chance, text):
    """A text with a blank more at an end, or without the one that was there."""
    blank = chance.choice(BLANKS)
    kind = chance.random()
    if kind < 0.15:
        return text.strip(b" \t")
    return text + blank if kind < 0.7 else blank + text


INSTANT = re.compile(rb"[0-9]{4}-[0-9]{2}-[0-9]{2}[Tt ][0-9]{2}(?::[0-9]{2}(?::[0-9]{2})?)?(?:[Zz]|[+-][0-9]{2}(?::?[0-9]{2})?)")
# By how many seconds an instant moves: to halves and quarters of an hour, by a minute, a second, an hour and a day.
MOVES = (1_800, 1_800, 900, 2_700, 60, 1, 3_600, 86_400)
# Offsets in minutes: whole hours, and those of zones that have half and quarter hours.
OFFSETS = (0, 60, 120, -300, 30, -30, 15, 330, 345, -210, 525, 765, 840, -720, 1_559)


def of_times(chance, data, words=()):
    """An instant moved, as to half an hour, or spelled in another zone, or both; or all instants of its line moved by the same time."""
    places = [found.span() for found in INSTANT.finditer(data)]
    if not places:
        return of_words(chance, data, words)
    start, end = chance.choice(places)
    if chance.random() < 0.25:
        low, high = data.rfind(b"\n", 0, start) + 1, (data + b"\n").index(b"\n", end)
        move = chance.choice(MOVES) * chance.choice([1, 1, -1])
        return data[:low] + INSTANT.sub(lambda found: moved_by(found[0], move), data[low:high]) + data[high:]
    return data[:start] + moved(chance, data[start:end]) + data[end:]


def moved(chance, text):
    """An instant that is moved or spelled otherwise; as it was where it is none."""
    kind = chance.random()
    move = chance.choice(MOVES) * chance.choice([1, 1, -1]) if kind < 0.75 else 0
    return moved_by(text, move, chance.choice(OFFSETS) if kind > 0.5 else 0, chance.random() < 0.2)


def moved_by(text, move, offset=0, is_long=False):
    try:
        return instant(texts.second(text) + move, offset, is_long)
    except texts.NoInstant:
        return text


def instant(second, offset=0, is_long=False):
    """The text of a second, in the zone of so many minutes; the nearest one where there is no such day."""
    first, last = datetime.datetime(1970, 1, 1), datetime.datetime(9999, 12, 31, 23, 59, 59)
    local = first + datetime.timedelta(seconds=min(max(second + offset * 60, 0), (last - first).total_seconds()))
    sign = "Z" if offset == 0 else f"{'-' if offset < 0 else '+'}{abs(offset) // 60:02}:{abs(offset) % 60:02}"
    seconds = f":{local.second:02}" if is_long or local.second else ""
    return f"{local.year:04}-{local.month:02}-{local.day:02}T{local.hour:02}:{local.minute:02}{seconds}{sign}".encode()


def splice(chance, data, other):
    """The front of one input and the rest of another one, most often at the end of a line."""
    def place(text):
        ends = [found.end() for found in re.finditer(rb"\n", text)]
        return chance.choice(ends) if ends and chance.random() < 0.7 else chance.randint(0, len(text))

    return data[: place(data)] + other[place(other) :]


def mutated(chance, data, other, words):
    """One to five changes of an input."""
    for _ in range(chance.choice([1, 1, 1, 2, 2, 3, 5])):
        kind = chance.random()
        if kind < 0.22:
            data = of_bytes(chance, data)
        elif kind < 0.48:
            data = of_words(chance, data, words)
        elif kind < 0.59:
            data = of_numbers(chance, data)
        elif kind < 0.73:
            data = of_lines(chance, data)
        elif kind < 0.81:
            data = of_texts(chance, data, words)
        elif kind < 0.87:
            data = of_blanks(chance, data, words)
        elif kind < 0.93:
            data = of_times(chance, data, words)
        else:
            data = splice(chance, data, other)
    return data[:MOST_BYTES]


# ---- CSV by field


def fields_of(line):
    """The fields of a line as they are written; commas within quotes part none."""
    fields = [b""]
    for piece in re.findall(rb'"(?:[^"]|"")*"?|[^",]+|,', line):
        if piece == b",":
            fields.append(b"")
        else:
            fields[-1] += piece
    return fields


def of_fields(chance, data, words):
    """One field of a CSV in place of which a word stands, by the place of its column. Quotes are as they must be, or not."""
    lines = data.split(b"\n")
    # Most often not the header.
    at = chance.randrange(len(lines) > 1 and chance.random() < 0.8, len(lines))
    fields = fields_of(lines[at])
    place = chance.randrange(len(fields))
    kind = chance.random()
    if kind < 0.1:
        fields[place] = of_blanks(chance, fields[place])
    elif kind < 0.2:
        places = [at for at, field in enumerate(fields) if INSTANT.search(field)] or [place]
        place = chance.choice(places)
        fields[place] = of_times(chance, fields[place], words)
    elif kind < 0.7:
        word = chance.choice(words)
        quoted = b'"' + word.replace(b'"', b'""') + b'"'
        fields[place] = quoted if chance.random() < 0.4 or re.search(rb'[,"\r\n]', word) and chance.random() < 0.9 else word
    elif kind < 0.8:
        other = chance.randrange(len(fields))
        fields[place], fields[other] = fields[other], fields[place]
    elif kind < 0.9:
        fields.insert(place, chance.choice([b"", b"x", b'""', fields[place]]))
    else:
        del fields[place]
    lines[at] = b",".join(fields)
    return b"\n".join(lines)


# ---- TOML by value

VALUES = encoded(
    ['""', '"x"', '"cd-1"', '"cd-2"', "'Usage'", '"Spend"', '"Usage"', '"2024-01-01T00:00Z"', '"2024-01-01T01:00Z"', '"1970-01-01T00:00Z"', '"9999-12-30T22:00Z"', "[]", "{}"]
    + ["true", "false", '["vm"]', '["vm", "db"]', '["", "x"]', "[1]", "[[]]", "[{}]", '{ vm = 1 }', '{ a = "b" }', "{ a = 1.5 }", '"""x"""', "2024-01-01", "1.5", "-1"]
    + ['{ vm = 1000000, db = 1 }', '{ vm = 1000001 }', "{ vm = 0 }", '[{ at = "2024-01-01T00:00Z", billed = "1" }]', '[{ at = "2024-01-01T00:00Z" }]', '{ at = "x", billed = "1" }']
    + NUMBERS + [f'"{text}"' for text in hostile.AMOUNTS + hostile.TIMES + hostile.RARE_TIMES if not set('\n\r\0"\\') & set(text)]
    + [f'"{"x" * length}"' for length in LENGTHS]
)  # fmt: skip
TOP_NAMES = encoded("id category start hours capacity unit skus rates sub_account tags purchase at billed key rule from to proportional".split())


def of_values(chance, data):
    """A line of TOML with another value or another name, or a field more."""
    lines = data.splitlines(keepends=True)
    places = [place for place, line in enumerate(lines) if b"=" in line]
    if not places or chance.random() < 0.1:
        lines.insert(chance.randint(0, len(lines)), b"%s = %s\n" % (chance.choice(TOP_NAMES), chance.choice(VALUES)))
        return b"".join(lines)
    place = chance.choice(places)
    name, _, value = lines[place].partition(b"=")
    kind = chance.random()
    if kind < 0.45:
        value = b" " + chance.choice(VALUES) + b"\n"
    elif kind < 0.55:
        value = of_blanks(chance, value)
    elif kind < 0.65:
        dated = [at for at in places if INSTANT.search(lines[at])]
        if dated:
            place = chance.choice(dated)
            name, _, value = lines[place].partition(b"=")
        value = of_times(chance, value, VALUES)
    elif kind < 0.75:
        value = lines[chance.choice(places)].partition(b"=")[2]
    elif kind < 0.9:
        name = chance.choice(TOP_NAMES) + b" "
    else:
        lines[place] = b""
        return b"".join(lines)
    lines[place] = name + b"=" + value
    return b"".join(lines)


# ---- command lines


def of_arguments(chance, arguments, other, words):
    arguments = list(arguments)
    for _ in range(chance.choice([1, 1, 2, 3])):
        at = chance.randint(0, len(arguments))
        kind = chance.randrange(7)
        if kind == 0:
            arguments.insert(at, chance.choice(words))
        elif kind == 1 and at < len(arguments):
            arguments[at] = chance.choice(words)
        elif kind == 2 and at < len(arguments):
            del arguments[at]
        elif kind == 3 and at < len(arguments):
            arguments.insert(at, arguments[at])
        elif kind == 4 and at < len(arguments):
            arguments[at] = of_bytes(chance, arguments[at])
        elif kind == 5 and at + 1 < len(arguments):
            arguments[at : at + 2] = [arguments[at] + b"=" + arguments[at + 1]]
        else:
            arguments = arguments[:at] + list(other)[chance.randint(0, len(other)) :]
    return tuple(arguments[:20])


# ---- the two files


def with_number(data, at, width, value):
    return data[:at] + (value % 2 ** (8 * width)).to_bytes(width, "little") + data[at + width :]


def number_at(data, at, width):
    return int.from_bytes(data[at : at + width], "little")


def of_file(chance, file, layout):
    """A file in which something of its layout is changed: a number or a code, a text, the parts of a list, or bytes anywhere."""
    kind = chance.random()
    if layout.fields and kind < 0.42:
        return of_number_in(chance, file, layout.fields)
    if kind < 0.54:
        return of_parts(chance, file, layout)
    if kind < 0.62:
        return of_text_in(chance, file, layout)
    if kind < 0.8:
        return of_bytes(chance, file)
    return resized(chance, file, layout.log)


def of_number_in(chance, file, fields):
    """A file with another number or code at one of these places, each of which has a width."""
    at, width = chance.choice(fields)
    value = number_at(file, at, width)
    others = [value + 1, value - 1, value ^ 1 << chance.randrange(8 * width), *chance.choices(EXTREMES, k=4), len(file) - at, len(file)]
    if width == 8:
        others += [value + move for move in chance.choices(MOVES, k=2)]
    return with_number(file, at, width, chance.choice(others))


def of_parts(chance, file, layout):
    """A file in which two parts of a list change places, as two tags, names, rows, entries or segments; or one is doubled or left out, and then
    the list's count is made to fit, and the length of what has it."""
    counted = [(at, parts) for at, parts in layout.lists if at is not None and parts]
    columns = [(at, parts) for at, parts in layout.lists if at is None and len(parts) > 1]
    kind = chance.random()
    if columns and kind < 0.2:
        return exchanged(chance, file, chance.choice(columns)[1])
    # Most lists have one part alone.
    longer = [(at, parts) for at, parts in counted if len(parts) > 1]
    if longer and kind < 0.75:
        return exchanged(chance, file, chance.choice(longer)[1])
    if not counted:
        return resized(chance, file, layout.log)
    at, parts = chance.choice(counted)
    start, end = chance.choice(parts)
    more, put = (1, file[start:end] * 2) if chance.random() < 0.5 else (-1, b"")
    return replaced(with_number(file, at, 4, number_at(file, at, 4) + more), layout.log, start, end, put)


def exchanged(chance, file, parts):
    """A file in which two of these parts change places, most often neighbours."""
    first = chance.randrange(len(parts) - 1)
    second = first + 1 if chance.random() < 0.7 else chance.randrange(first + 1, len(parts))
    (a, b), (c, d) = parts[first], parts[second]
    return file[:a] + file[c:d] + file[b:c] + file[a:b] + file[d:]


def of_text_in(chance, file, layout):
    """A file with another text, whose length is made to fit: a blank more or less at an end, a letter changed, or as many bytes as a limit allows."""
    if not layout.texts:
        return of_bytes(chance, file)
    at, end = chance.choice(layout.texts)
    text = file[at + 4 : end]
    kind = chance.random()
    if kind < 0.5:
        text = blanked(chance, text)
    elif kind < 0.75:
        text = of_bytes(chance, text)
    else:
        text = b"x" * chance.choice(LENGTHS)
    return replaced(file, layout.log, at, end, len(text).to_bytes(4, "little") + text)


def replaced(file, log, start, end, put):
    """A file with other bytes in a place, and the length of the body, or of the frame, that has the place made to fit."""
    field, width = next(((gate + 1, 4) for gate, behind in frames_of(file, log) if gate + 5 <= start <= behind), (17, 8))
    changed = file[:start] + put + file[end:]
    return with_number(changed, field, width, number_at(file, field, width) + len(put) - (end - start))


def resized(chance, file, log):
    """A file in which bytes are put in or left out, and the length of the body, or of the frame, that has them is made to fit."""
    if len(file) < 26:
        return of_bytes(chance, file)
    frames = list(frames_of(file, log))
    start, end = chance.choice([(25, log), *((gate + 5, end) for gate, end in frames)])
    at = chance.randint(start, end)
    gone = min(chance.choice([0, 0, 1, 2, 4, 8]), end - at)
    put = chance.choice([b"", b"\0", b"\1", bytes(4), bytes(8), chance.randbytes(chance.randint(1, 8)), file[at : at + chance.randint(1, 40)]])
    return replaced(file, log, at, at + gone, put)


def frames_of(file, log):
    """The gates of the whole frames of a log, each with the place behind its frame."""
    gate = log
    while gate + 5 <= len(file) and file[gate] == 1:
        end = gate + 5 + number_at(file, gate + 1, 4)
        if end > len(file):
            return
        yield gate, end
        gate = end


def of_frames(chance, file, log, other):
    """A file whose log has frames doubled, left out, exchanged, or taken over from another file."""
    frames = [file[gate:end] for gate, end in frames_of(file, log)]
    kind = chance.randrange(4)
    if kind == 0 and frames:
        frames.insert(chance.randint(0, len(frames)), chance.choice(frames))
    elif kind == 1 and frames:
        del frames[chance.randrange(len(frames))]
    elif kind == 2 and len(frames) > 1:
        chance.shuffle(frames)
    else:
        others = [other[gate:end] for gate, end in frames_of(other, 25 + number_at(other, 17, 8))] if len(other) > 25 else []
        if others:
            frames.insert(chance.randint(0, len(frames)), chance.choice(others))
    return file[:log] + b"".join(frames) + chance.choice([b"\0", b"\0", b"\0", b"", b"\2", b"\1"])
