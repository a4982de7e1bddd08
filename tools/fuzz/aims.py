#!/usr/bin/env python3
"""Measures the program on inputs that aim at its memory and its time.

    tools/fuzz/aims.py > aims.md
    tools/fuzz/aims.py --sizes 1,10 --only csv

Each input is made anew in each size, in megabytes of 10^6 bytes, and given to each command that reads such inputs. The table, in Markdown, has
the memory that the run held at its most and its processor seconds. PAST stands where the memory is above 20 bytes for each byte of input and
64 MB (of 2^20 bytes), and where the time grew by more than twice of what n log n grows by, from a run of half a second on. A run that took
longer than the limit (120 seconds) is stopped: its time is that limit.

    tools/fuzz/aims.py --list

says what each input is. Exit status: 0 where nothing is PAST, 1 where something is, 2 where nothing could be run.
"""

import math
import os
import shutil
import sys
import tempfile

HERE = os.path.dirname(os.path.abspath(__file__))
sys.path[:0] = [HERE, os.path.dirname(HERE)]
import running  # noqa: E402
from command_line import add_program, parser_of  # noqa: E402

COLUMNS = b"BilledCost,EffectiveCost,BillingCurrency,ChargeCategory,ChargePeriodStart,ChargePeriodEnd"
ROW = b"1,1,USD,Usage,2024-01-01T00:00Z,2024-01-01T01:00Z"
COMMITMENT = b'id = "cd-1"\ncategory = "Usage"\nstart = "2024-01-01T00:00Z"\nhours = 3\ncapacity = "2"\nunit = "Hours"\n'
PURCHASE = b'[[purchase]]\nat = "2024-01-01T00:00Z"\nbilled = "1"\n'
MOST_LINES = 1_000_000
# From how many seconds on a time is judged, and how much more than n log n it may grow by.
LEAST_SECONDS = 0.5
GROWTH = 2.0
NO_FILE = b""


def number(value, width):
    return value.to_bytes(width, "little")


def filled(piece, size):
    """So many bytes of a piece again and again, whole pieces alone."""
    return piece * max(1, size // len(piece))


# ---- CSV: each is checked, imported and posted


def of_columns(more, field=b""):
    """An export with columns more, and a row."""
    return COLUMNS + more + b"\n" + ROW + field + b"\n"


CSV = {
    "a line of commas": lambda n: COLUMNS + b"\n" + b"," * n + b"\n",
    "lines of one comma": lambda n: COLUMNS + b"\n" + filled(b",\n", n),
    "empty lines": lambda n: COLUMNS + filled(b"\n", n) + ROW + b"\n",
    "a quote that never ends": lambda n: of_columns(b",Note", b',"' + b"x" * n),
    "quotes alone": lambda n: of_columns(b",Note", b"," + b'"' * n),
    "line feeds within quotes": lambda n: of_columns(b",Note", b',"' + b"\n" * n),
    "a field that isn't read": lambda n: of_columns(b",Note", b"," + b"x" * n),
    "a field that is too long": lambda n: of_columns(b",SkuId", b"," + b"x" * n),
    "a long number": lambda n: COLUMNS + b"\n" + b"1" * n + ROW[1:] + b"\n",
    "columns of one letter": lambda n: of_columns(filled(b",x", n // 2), filled(b",", n // 2)[: n // 2]),
    "columns without a name": lambda n: of_columns(b"," * (n // 2), b"," * (n // 2)),
    "the same column again and again": lambda n: of_columns(filled(b",Tags", n)),
    "rows": lambda n: COLUMNS + b"\n" + filled(ROW + b"\n", n),
    "rows with a fault each": lambda n: COLUMNS + b"\n" + filled(ROW.replace(b"Usage", b"?") + b"\n", n),
    "short rows with too few fields": lambda n: COLUMNS + b"\n" + filled(b"x\n", n),
    "rows each of another tag": lambda n: COLUMNS + b",Tags\n" + b"".join(ROW + b',"{""k%d"":""v%d""}"\n' % (i, i) for i in range(n // 80)),
    "JSON that nests": lambda n: of_columns(b",Tags", b',"' + b"[" * n + b'"'),
    "JSON objects that nest": lambda n: of_columns(b",Tags", b',"' + filled(b'{""a"":', n) + b'"'),
    "JSON of many keys": lambda n: of_columns(b",Tags", b',"{' + b",".join(b'""k%d"":""""' % i for i in range(n // 16)) + b'}"'),
    "JSON of one key again and again": lambda n: of_columns(b",Tags", b',"{' + filled(b'""k"":"""",', n) + b'""k"":""""}"'),
    "JSON of a long text": lambda n: of_columns(b",Tags", b',"{""k"":""' + b"x" * n + b'""}"'),
    "JSON of escapes": lambda n: of_columns(b",Tags", b',"{""k"":""' + filled(b"\\u00e9", n) + b'""}"'),
}

# ---- TOML: each is sent in a script, and added


TOML = {
    "arrays that nest": lambda n: COMMITMENT + b"skus = " + b"[" * n + b"\n",
    "tables that nest": lambda n: COMMITMENT + b"rates = " + filled(b"{a=", n) + b"\n",
    "a key of many parts": lambda n: filled(b"a.", n) + b"a = 1\n",
    "a header of many parts": lambda n: b"[" + filled(b"a.", n) + b"a]\n",
    "an array of texts": lambda n: COMMITMENT + b"skus = [" + b",".join(b'"s%d"' % i for i in range(n // 12)) + b"]\n" + PURCHASE,
    "an array of one text again and again": lambda n: COMMITMENT + b"skus = [" + filled(b'"s",', n) + b"]\n" + PURCHASE,
    "an array of numbers": lambda n: b'key = "k"\nrule = [' + filled(b"1,", n) + b"]\n",
    "many keys": lambda n: b"".join(b"k%d = 1\n" % i for i in range(n // 14)),
    "many tables": lambda n: b"".join(b"[t%d]\n" % i for i in range(n // 10)),
    "keys with two parts": lambda n: b"".join(b"a.k%d = 1\n" % i for i in range(n // 16)),
    "an array of empty tables": lambda n: b'key = "k"\n' + filled(b"[[rule]]\n", n),
    "many purchases": lambda n: COMMITMENT + b'skus = ["vm"]\n' + filled(PURCHASE, n),
    "a long text": lambda n: b'id = "' + b"x" * n + b'"\n',
    "a text of lines": lambda n: b'id = """' + b"\n" * n + b'"""\n',
    "a text that never ends": lambda n: b'id = "' + b"x" * n,
    "comments": lambda n: filled(b"#\n", n),
    "a long number": lambda n: b"hours = " + b"1" * n + b"\n",
    "weights": lambda n: b'key = "k"\n[[rule]]\nfrom = "a"\n[rule.to]\n' + b"".join(b"g%d = 1\n" % i for i in range(n // 14)),
}


# ---- scripts


def posts(n):
    """Posts that are accepted, each of one row, by turns of some origins."""
    content = COLUMNS + b"\n" + ROW + b"\n"
    return b"".join(b"post o%d %d 2\n%s" % (i % 7, i // 7 + 1, content) for i in range(max(1, n // (len(content) + 14))))


def origins(n):
    content = COLUMNS + b"\n" + ROW + b"\n"
    return b"".join(b"post o%d 1 2\n%s" % (i, content) for i in range(max(1, n // (len(content) + 18))))


def big_post(n):
    """A post of 4,096 rows of so many bytes in all, which is past 4 MiB where n is."""
    width = max(1, min(1_000, n // 4_096 - 60))
    rows = b"".join(ROW + b',"{""k"":""' + b"x" * width + b'""}"\n' for _ in range(4_096))
    return b"".join(b"post big%d 1 4097\n%s,Tags\n%s" % (i, COLUMNS, rows) for i in range(max(1, n // len(rows))))


SCRIPTS = {
    "empty lines": lambda n: b"\n" * n,
    "a line that never ends": lambda n: b"x" * n,
    "posts without lines": lambda n: filled(b"post a 1 0\n", n),
    "refused posts of a byte": lambda n: filled(b"post a 1 1\nx\n", n),
    "posts of line feeds": lambda n: filled(b"post a 1 1000000\n" + b"\n" * MOST_LINES, n),
    "policies of line feeds": lambda n: filled(b"policy a 1 1000000\n" + b"\n" * MOST_LINES, n),
    "questions": lambda n: filled(b"state\n", n),
    "reports of nothing": lambda n: filled(b"report t 2024-01-01T00:00Z 2027-01-01T00:00Z\n", n),
    "a report of a long key": lambda n: b"report " + b"k" * n + b" 2024-01-01T00:00Z 2024-01-01T01:00Z\n",
    "a post of a long origin": lambda n: b"post " + b"o" * n + b" 1 0\n",
    "a post of a long number": lambda n: b"post a " + b"1" * n + b" 0\n",
    "withdrawals of nothing": lambda n: filled(b"withdraw a 1 1\n", n),
    "accepted posts of a row": posts,
    "accepted posts of an origin each": origins,
    "posts of 4,096 rows": big_post,
    "policies again and again": lambda n: b"".join(b'policy a %d 1\nkey = "team"\n' % (i + 1) for i in range(n // 30)),
    "checkpoints": lambda n: filled(b"checkpoint\n", n),
}


# ---- folders: the two files


def header(body, generation=1):
    return b"\1FWHOUSE2" + number(generation, 8) + number(body, 8)


def body_of(rest):
    return header(len(rest)) + rest + b"\0"


CURRENCY = number(3, 4) + b"USD"
EMPTY = body_of(CURRENCY + bytes(12))
HEAD = number(1, 4) + b"a"
SEGMENT = CURRENCY + number(1, 8) + HEAD + number(1, 8) + b"\1" + number(1, 4) + number(1, 4)


def policies(n):
    """A log of policies, each in a frame of its own."""
    frames = []
    for i in range(max(1, n // 35)):
        entry = HEAD + number(i + 1, 8) + b"\3" + number(1, 4) + b"t" + number(0, 4)
        frames.append(b"\1" + number(len(entry) + 4, 4) + number(1, 4) + entry)
    return EMPTY[:-1] + b"".join(frames) + b"\0", NO_FILE


def heads(n):
    """A body of policies."""
    found = b"".join(HEAD + number(i + 1, 8) + b"\3" + number(1, 4) + b"t" + number(0, 4) for i in range(max(1, n // 22)))
    return body_of(CURRENCY + number(max(1, n // 22), 8) + found + number(0, 4)), NO_FILE


# Rows that differ in their tags alone: 1 USD, usage of the first hour of 2024.
COST, START, END = number(10**9, 8), number(1_704_067_200, 8), number(1_704_070_800, 8)
PIECES = (COST, COST, b"\1", b"\0", START, END, bytes(4), b"\0", b"\0", b"\0", bytes(8), bytes(4), bytes(4), bytes(4))
PLAIN_ROW = COST + COST + b"\1\0" + START + END + bytes(11)
POST = b"\1"
# How many rows a segment may have, and so many of a post that it is within 4 MiB whatever they hold.
MOST_ROWS = 65_536
FEW_ROWS = 1_024


def segment(tags, names=()):
    """A segment by column: the bytes of each row's tags, and the names."""
    spelled = b"".join(number(len(name), 4) + name for name in names)
    columns = b"".join(piece * len(tags) for piece in PIECES)
    return b"\2" + number(len(tags), 4) + number(len(names), 4) + spelled + columns + b"".join(tags)


ONE_ROW = segment([bytes(4)])
ONE_TAG = number(1, 4) + number(1, 4) + number(2, 4)


def post_heads(counts):
    """The heads of posts of so many rows each."""
    return number(len(counts), 8) + b"".join(HEAD + number(i + 1, 8) + POST + number(rows, 4) for i, rows in enumerate(counts))


def body_of_posts(counts, segments):
    return body_of(CURRENCY + post_heads(counts) + number(len(segments), 4) + b"".join(segments)), NO_FILE


def parts_of(count, size):
    """A number in parts of this size, and what is left."""
    return [size] * (count // size) + ([count % size] if count % size else [])


def tiny_segments(n, last=ONE_ROW):
    """Posts of one row, each with a segment of its own."""
    count = max(2, n // (18 + len(ONE_ROW)))
    return body_of_posts([1] * count, [ONE_ROW] * (count - 1) + [last])


def tiny_segments_in_turn(n):
    """Posts of one row, each with a segment of its own in which it stands by itself, which has fewer bytes than one by column."""
    one = b"\1" + number(1, 4) + PLAIN_ROW
    count = max(2, n // (18 + len(one)))
    return body_of_posts([1] * count, [one] * count)


def tiny_posts(n):
    """Posts of one row, whose rows share segments."""
    count = max(2, n // (18 + len(ONE_ROW) - 9))
    return body_of_posts([1] * count, [segment([bytes(4)] * rows) for rows in parts_of(count, MOST_ROWS)])


def tagged(n, row_bytes, names_of, tags_of):
    """Posts of rows with tags: of each segment the names, and the bytes of each row's tags, by the number of its rows."""
    counts = parts_of(max(2, n // row_bytes), MOST_ROWS)
    segments = [segment(tags_of(rows), names_of(rows)) for rows in counts]
    return body_of_posts([part for rows in counts for part in parts_of(rows, FEW_ROWS)], segments)


def another_text_each(n, width):
    """Each row has another text of so many bytes under one key."""
    return tagged(
        n, 74 + 4 + width, lambda rows: [b"k", *(b"%0*d" % (width, i) for i in range(rows))],
        lambda rows: [number(1, 4) + number(1, 4) + number(i + 2, 4) for i in range(rows)],
    )  # fmt: skip


def many_tags_each(n):
    """Each row has the same 256 tags."""
    names = [name for i in range(256) for name in (b"k%03d" % i, b"v%03d" % i)]
    tags = number(256, 4) + b"".join(number(i + 1, 4) for i in range(512))
    return tagged(n, 66 + len(tags), lambda rows: names, lambda rows: [tags] * rows)


def frame(payload, length=None):
    return b"\1" + number(len(payload) if length is None else length, 4) + payload


def log_of(frames):
    return EMPTY[:-1] + b"".join(frames) + b"\0", NO_FILE


def one_row_entry(i):
    return HEAD + number(i + 1, 8) + POST + number(1, 4) + PLAIN_ROW


def tiny_groups(n):
    """A log of posts of one row, each in a frame of its own."""
    return log_of([frame(number(1, 4) + one_row_entry(i)) for i in range(max(1, n // (27 + len(PLAIN_ROW))))])


def full_groups(n):
    """A log of posts of one row, 64 in a frame."""
    entry = len(one_row_entry(0))
    return log_of([frame(number(64, 4) + b"".join(one_row_entry(i) for i in range(at * 64, at * 64 + 64))) for at in range(max(1, n // (64 * entry + 9)))])


def withdrawn_posts(n):
    """A log of posts of one row, each of which is withdrawn by the entry behind it."""
    frames = []
    for i in range(max(1, n // 110)):
        withdrawal = HEAD + number(2 * i + 2, 8) + b"\4" + number(2 * i + 1, 8)
        frames.append(frame(number(2, 4) + one_row_entry(2 * i) + withdrawal))
    return log_of(frames)


def lying(kind, before, count):
    """A body whose one head, of this kind, has bytes and then a count that isn't so."""
    return lambda n: (body_of(CURRENCY + number(1, 8) + HEAD + number(1, 8) + kind + before + number(count, 4) + bytes(n)), NO_FILE)


MOST = 2**32 - 1
TEXT_A = number(1, 4) + b"a"


FOLDERS = {
    "the length of the body is 2^64-1": lambda n: (header(2**64 - 1) + bytes(n), NO_FILE),
    "the length of the body is 2^63": lambda n: (header(2**63) + bytes(n), NO_FILE),
    "2^64-1 heads": lambda n: (body_of(CURRENCY + number(2**64 - 1, 8) + bytes(n)), NO_FILE),
    "2^64-1 heads, and many": lambda n: (body_of(heads(n)[0][25:-1].replace(CURRENCY + number(max(1, n // 22), 8), CURRENCY + number(2**64 - 1, 8), 1)), NO_FILE),
    "a currency of 2^32-1 bytes": lambda n: (body_of(number(2**32 - 1, 4) + bytes(n)), NO_FILE),
    "2^32-1 segments": lambda n: (body_of(CURRENCY + bytes(8) + number(2**32 - 1, 4) + b"\1" + bytes(n)), NO_FILE),
    "2^32-1 names": lambda n: (body_of(SEGMENT + b"\2" + number(1, 4) + number(2**32 - 1, 4) + bytes(n)), NO_FILE),
    "names that are empty": lambda n: (body_of(SEGMENT + b"\2" + number(1, 4) + number(n // 4, 4) + bytes(n // 4 * 4) + bytes(80)), NO_FILE),
    "65,536 rows that aren't there": lambda n: (body_of(SEGMENT + b"\2" + number(65_536, 4) + bytes(4) + bytes(n)), NO_FILE),
    "segments that no head has": lambda n: (
        body_of(CURRENCY + bytes(8) + number(n // 50, 4) + filled(b"\1" + number(1, 4) + number(1, 8) * 2 + b"\3\0" + bytes(27), n // 50 * 50)), NO_FILE,
    ),
    "a frame of 8 MiB that is zeros": lambda n: (EMPTY[:-1] + b"\1" + number(min(n, 8_388_608), 4) + bytes(n) + b"\0", NO_FILE),
    "a frame past the file": lambda n: (EMPTY[:-1] + b"\1" + number(2**32 - 1, 4) + bytes(n), NO_FILE),
    "a group of 2^32-1 entries": lambda n: (EMPTY[:-1] + b"\1" + number(min(n, 8_388_608), 4) + number(2**32 - 1, 4) + bytes(n), NO_FILE),
    "bytes behind the log": lambda n: (EMPTY + bytes(n), NO_FILE),
    "an old side of zeros": lambda n: (bytes(n), EMPTY),
    "a log of policies": policies,
    "a body of policies": heads,
    "a body that is a byte longer than it says": lambda n: (header(len(tiny_segments(n)[0]) - 27) + tiny_segments(n)[0][25:], NO_FILE),
    "a body that reaches the end of the file": lambda n: (header(len(tiny_segments(n)[0]) - 25) + tiny_segments(n)[0][25:], NO_FILE),
    "an origin of 2^32-1 bytes": lambda n: (body_of(CURRENCY + number(1, 8) + number(MOST, 4) + bytes(n)), NO_FILE),
    "a policy of 2^32-1 rules": lying(b"\3", TEXT_A, MOST),
    "a rule of 2^32-1 targets": lying(b"\3", TEXT_A + number(1, 4) + TEXT_A + b"\1", MOST),
    "a commitment of 2^32-1 tags": lying(b"\2", TEXT_A + b"\1\0", MOST),
    "a commitment of 2^32-1 SKUs": lying(b"\2", TEXT_A + b"\1\0" + bytes(4) + number(1, 4) * 2 + number(1, 8) + TEXT_A, MOST),
    "a commitment of 2^32-1 purchases": lying(b"\2", TEXT_A + b"\1\0" + bytes(4) + number(1, 4) * 2 + number(1, 8) + TEXT_A + number(1, 4) + TEXT_A, MOST),
    "a post of 2^32-1 rows": lying(POST, b"", MOST),
    "a segment of 2^32-1 rows": lambda n: (body_of(SEGMENT + b"\2" + number(MOST, 4) + bytes(n)), NO_FILE),
    "65,536 rows in turn that aren't there": lambda n: (body_of(SEGMENT + b"\1" + number(MOST_ROWS, 4) + filled(PLAIN_ROW, n)), NO_FILE),
    "a row of 2^32-1 tags": lambda n: (body_of(SEGMENT + b"\1" + number(1, 4) + PLAIN_ROW[:-4] + number(MOST, 4) + bytes(n)), NO_FILE),
    "a name of 2^32-1 bytes": lambda n: (body_of(SEGMENT + b"\2" + number(1, 4) * 2 + number(MOST, 4) + bytes(n)), NO_FILE),
    "columns of a row too few": lambda n: (body_of(SEGMENT + b"\2" + number(min(n // 74, MOST_ROWS), 4) + segment([bytes(4)] * min(n // 74, MOST_ROWS))[5:-4]), NO_FILE),
    "an entry of 2^32-1 rows": lambda n: log_of([frame(number(1, 4) + HEAD + number(1, 8) + POST + number(MOST, 4) + bytes(min(n, 8_000_000)))]),
    "a group that ends before its frame": lambda n: log_of([frame(number(1, 4) + one_row_entry(0) + bytes(min(n, 8_000_000)))]),
    "frames, the last of which is too long": lambda n: (tiny_groups(n)[0][:-1] + frame(b"", 9), NO_FILE),
    "posts with more rows than there are": lambda n: body_of_posts([4_096] * (n // 92), [ONE_ROW] * (n // 92)),
    "more segments than posts": lambda n: body_of_posts([1], [ONE_ROW] * (n // 74)),
    "tiny segments": tiny_segments,
    "tiny segments row by row": tiny_segments_in_turn,
    "tiny segments, the last of which is wrong": lambda n: tiny_segments(n, ONE_ROW[:-4] + b"\1\0\0\0"),
    "tiny posts that share segments": tiny_posts,
    "a log of tiny groups": tiny_groups,
    "a log of groups of 64 entries": full_groups,
    "a log of posts that are withdrawn": withdrawn_posts,
    "names of 1,024 bytes": lambda n: another_text_each(n, 1_024),
    "names of 8 bytes": lambda n: another_text_each(n, 8),
    "one name of 1,024 bytes in each row": lambda n: tagged(n, 74, lambda rows: [b"k", b"v" * 1_024], lambda rows: [ONE_TAG] * rows),
    "256 tags in each row": many_tags_each,
    "one name again and again": lambda n: body_of_posts([1], [segment([bytes(4)], [b"name"] * (n // 8))]),
    "one long name again and again": lambda n: body_of_posts([1], [segment([bytes(4)], [b"n" * 1_024] * (n // 1_028))]),
    "names that no row has": lambda n: body_of_posts([1], [segment([bytes(4)], [b"%08d" % i for i in range(n // 12)])]),
    "names of which one comes twice": lambda n: body_of_posts([1], [segment([bytes(4)], [*(b"%08d" % i for i in range(n // 12)), b"%08d" % 0])]),
}  # fmt: skip


class Runs:
    """Runs the commands over the inputs, and writes the table."""

    def __init__(self, options, folder):
        self.options, self.folder, self.past = options, folder, 0
        self.before = {}

    def path(self, name, content=b""):
        path = os.path.join(self.folder, name)
        with open(path, "wb") as file:
            file.write(content)
        return path

    def house(self, files=None):
        """A folder with these two files, or with a new warehouse."""
        house = os.path.join(self.folder, "house")
        shutil.rmtree(house, ignore_errors=True)
        os.mkdir(house)
        if files is None:
            running.run([self.options.program, "run", "--dir", house, "--create"], b"")
        else:
            for side, content in zip(("left", "right"), files):
                with open(os.path.join(house, side), "wb") as file:
                    file.write(content)
        return house

    def measure(self, kind, name, size, words, given, count):
        ended = running.measured([self.options.program, *words], given, self.folder, self.options.limit)
        key = kind, name, words[0]
        bound = running.memory_bound(count)
        too_much = ended.memory > bound
        growth, too_long = "", False
        if key in self.before:
            old_count, old_seconds = self.before[key]
            by = count / old_count
            allowed = by * math.log(count) / math.log(max(old_count, 2)) * GROWTH
            growth = f"{ended.processor / max(old_seconds, 0.01):.1f}"
            too_long = ended.processor > LEAST_SECONDS and ended.processor / max(old_seconds, 0.05) > allowed
        too_long |= ended.status is None
        self.before[key] = count, ended.processor
        crash = ended.crash() if ended.status is not None else ""
        self.past += too_much or too_long or bool(crash)
        verdict = ", ".join(word for word, is_so in (("memory PAST", too_much), ("time PAST", too_long), (f"CRASH: {crash}", bool(crash))) if is_so)
        said = (ended.out or ended.error)[:30].split(b"\n")[0].decode(errors="replace").replace("|", "\\|")
        command = words[0] + (" --dry-run" if words[0] == "add" else "")
        print(
            f"| {kind}: {name} | {count:,} | {command} | {ended.status} `{said}` | {ended.memory / 2**20:.0f} | {bound / 2**20:.0f} | {ended.processor:.2f} "
            f"| {growth} | {verdict} |", flush=True,
        )  # fmt: skip

    def run_csv(self, name, size):
        content = CSV[name](size)
        file, nothing = self.path("input.csv", content), self.path("nothing")
        self.measure("csv", name, size, ["check", file], nothing, len(content))
        self.measure("csv", name, size, ["import", "--dir", self.house(), "--origin", "aim", file], nothing, len(content))
        lines = content.count(b"\n") + (not content.endswith(b"\n"))
        if lines <= MOST_LINES:
            script = b"post aim 1 %d\n" % lines + content
            self.measure("csv", name, size, ["run"], self.path("script", script), len(script))

    def run_toml(self, name, size):
        content = TOML[name](size)
        content += b"" if content.endswith(b"\n") else b"\n"
        lines = content.count(b"\n")
        nothing = self.path("nothing")
        file = self.path("input.toml", content)
        self.measure("toml", name, size, ["add", "--dir", self.house(), "--origin", "aim", "--dry-run", file], nothing, len(content))
        if lines <= MOST_LINES:
            script = b"".join(b"%s aim 1 %d\n%s" % (word, lines, content) for word in (b"commit", b"policy"))
            self.measure("toml", name, size, ["run"], self.path("script", script), len(script))

    def run_scripts(self, name, size):
        script = SCRIPTS[name](size)
        given = self.path("script", script)
        self.measure("script", name, size, ["run"], given, len(script))

    def run_folders(self, name, size):
        files = FOLDERS[name](size)
        given = self.path("questions", b"state\nlines 2024-01-01T00:00Z 2024-01-02T00:00Z\n")
        for words in (["verify"], ["run"], ["status"], ["dump"]):
            self.measure("folder", name, size, [*words, "--dir", self.house(files)], given, sum(map(len, files)))


def read_command_line():
    parser = parser_of(__doc__)
    add_program(parser)
    parser.add_argument("--sizes", default="1,10,100", help="in megabytes, each greater than the one before (default: 1,10,100)")
    parser.add_argument("--only", nargs="+", default=[], metavar="NAME", help="csv, toml, scripts or folders, or a part of the name of an input")
    parser.add_argument("--limit", type=float, default=120.0, help="how many seconds a run may take (default: 120)")
    parser.add_argument("--list", action="store_true", help="only say which inputs there are")
    options = parser.parse_args()
    options.program = os.path.abspath(options.program)
    return options


def main():
    options = read_command_line()
    groups = {"csv": CSV, "toml": TOML, "scripts": SCRIPTS, "folders": FOLDERS}
    chosen = [(kind, name) for kind, inputs in groups.items() for name in inputs if not options.only or any(word == kind or word in name for word in options.only)]
    if options.list:
        print("\n".join(f"{kind}: {name}" for kind, name in chosen))
        return 0
    if not os.access(options.program, os.X_OK):
        print(f"aims.py: {options.program} is no program", file=sys.stderr)
        return 2
    print("| input | bytes | command | answer | MB | at most | seconds | grew by | |\n|---|---:|---|---|---:|---:|---:|---:|---|")
    with tempfile.TemporaryDirectory(dir=running.room()) as folder:
        runs = Runs(options, folder)
        for kind, name in chosen:
            for size in (round(float(size) * 1_000_000) for size in options.sizes.split(",")):
                getattr(runs, f"run_{kind}")(name, size)
    print(f"\n{runs.past} past")
    return 1 if runs.past else 0


if __name__ == "__main__":
    sys.exit(main())
