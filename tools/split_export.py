#!/usr/bin/env python3
"""Turns a FOCUS export into a script for `focusd run`.

One post holds at most 4,096 rows, so a longer export is cut between records
and its header is repeated in front of each piece:

    python3 tools/split_export.py export.csv --origin september \\
        --report team 2024-09-01T00:00Z 2024-10-01T00:00Z | focusd run

A record is what `focusd` reads as one: a line break or a comma inside a quoted
field doesn't end it. The export is read once from its beginning to its end,
and only one piece of it is held in memory. Its bytes are kept as they stand;
blank lines are left out, and a line feed is added where the last record has
none.

Exit status: 0 done, 1 the export can't be read or cut, 2 a wrong command line.
"""
import argparse
import os
import re
import sys

from command_line import parser_of

MOST_ROWS = 4_096
MOST_LINES = 1_000_000
MOST_SCRIPT_BYTES = 1 << 30
MOST_RECORD_BYTES = 1 << 24
CHUNK_BYTES = 1 << 20
BYTE_ORDER_MARK = b"\xef\xbb\xbf"

# A quoted field ends at a quote that no second quote follows. What stands
# between that quote and the next comma belongs to the field, and a quote within
# an unquoted field is an ordinary character.
FIELD = rb'(?:"[^"]*(?:""[^"]*)*"(?!")[^,\r\n]*|[^",\r\n][^,\r\n]*|)'
RECORD = re.compile(FIELD + rb"(?:," + FIELD + rb")*(?:\r\n|\r|\n)")

# How files begin that aren't texts in UTF-8, and what to do about each.
OTHER_FORMATS = [
    (b"\x1f\x8b", "it is compressed by gzip: unpack it by gunzip first"),
    (b"PK\x03\x04", "it is a zip archive or a spreadsheet: unpack it, or save it as CSV"),
    (b"PAR1", "it is a Parquet file: export it as CSV"),
    (b"\xff\xfe", "it is UTF-16: save it as UTF-8"),
    (b"\xfe\xff", "it is UTF-16: save it as UTF-8"),
]


class BadExport(Exception):
    """Why an export can't be cut, and what to do."""


def refuse_other_formats(start):
    """Refuses a file whose first bytes show that it isn't a CSV in UTF-8."""
    for first, advice in OTHER_FORMATS:
        if start.startswith(first):
            raise BadExport(advice)


def records(file):
    """Each record of a CSV with its line end, the header first. Blank lines are left out.

    A byte order mark stays in front of the header.
    """
    chunk = file.read(CHUNK_BYTES)
    refuse_other_formats(chunk)
    mark = BYTE_ORDER_MARK if chunk.startswith(BYTE_ORDER_MARK) else b""
    held, number, used = chunk, 0, len(mark)
    while True:
        at_end = not chunk
        if at_end and held[-1:] not in (b"\r", b"\n"):
            held += b"\n"
        while True:
            found = RECORD.match(held, used)
            # A carriage return at the end of what is held may have its line feed still to come.
            if not found or (not at_end and found.end() == len(held) and held.endswith(b"\r")):
                break
            used = found.end()
            text = found.group()
            if text.strip(b"\r\n"):
                yield text if number else mark + text
                number += 1
        held, used = held[used:], 0
        if held and (at_end or len(held) > MOST_RECORD_BYTES):
            where = f"row {number}" if number else "the header"
            raise BadExport(f"{where} has no end: a quoted field isn't closed there, or the file isn't a CSV")
        if at_end:
            return
        chunk = file.read(CHUNK_BYTES)
        held += chunk


class Piece:
    """The records of one post."""

    def __init__(self, header):
        self.header = header
        self.texts = []
        self.lines = header.count(b"\n")

    def has_room(self, record, most_rows):
        return len(self.texts) < most_rows and self.lines + record.count(b"\n") < MOST_LINES

    def add(self, record):
        self.texts.append(record)
        self.lines += record.count(b"\n")

    def post(self, origin, seq):
        """The post as text. Its last record ends with a line feed, so that the next command has a line of its own."""
        body = self.header + b"".join(self.texts)
        if not body.endswith(b"\n"):
            body += b"\n"
        return f"post {origin} {seq} ".encode() + b"%d\n" % body.count(b"\n") + body


def pieces(file, most_rows):
    """The export as pieces of at most `most_rows` rows."""
    source = records(file)
    header = next(source, None)
    if header is None:
        raise BadExport("it has no header line: give a CSV export with the FOCUS columns")
    piece = Piece(header)
    for record in source:
        if not piece.has_room(record, most_rows):
            yield piece
            piece = Piece(header)
        piece.add(record)
    if not piece.texts:
        raise BadExport("it has a header and no row: nothing can be posted")
    yield piece


def write_script(file, out, options):
    """Writes the posts and then the reports."""
    size = 0
    for number, piece in enumerate(pieces(file, options.rows)):
        text = piece.post(options.origin, options.first_seq + number)
        size += len(text)
        if size > MOST_SCRIPT_BYTES:
            raise BadExport(
                f"its script has more than {MOST_SCRIPT_BYTES:,} bytes, which is all that one run of focusd reads: "
                "cut the export into several files"
            )
        out.write(text)
    for key, low, high in options.report:
        out.write(f"report {key} {low} {high}\n".encode("utf-8", "surrogateescape"))
    out.flush()


def origin(text):
    if not re.fullmatch(r"[A-Za-z0-9._-]{1,64}", text):
        raise argparse.ArgumentTypeError("an origin has 1 to 64 ASCII letters, digits, '-', '_' or '.'")
    return text


def whole_number(least, most):
    def read(text):
        if not re.fullmatch(r"[0-9]{1,20}", text) or not least <= int(text) <= most:
            raise argparse.ArgumentTypeError(f"{text!r} is not a whole number from {least:,} to {most:,}")
        return int(text)

    return read


def read_command_line(arguments):
    parser = parser_of(__doc__)
    parser.add_argument("export", metavar="EXPORT", help="the CSV file, or - for standard input")
    parser.add_argument("--origin", type=origin, default="export", help="who posts, one word (default: export)")
    parser.add_argument(
        "--first-seq",
        type=whole_number(1, 2**64 - 1),
        default=1,
        metavar="N",
        help="the sequence number of the first post; each further post has the next one (default: 1)",
    )
    parser.add_argument(
        "--rows",
        type=whole_number(1, MOST_ROWS),
        default=MOST_ROWS,
        metavar="N",
        help=f"the most rows of one post (default: {MOST_ROWS:,}, which is the most that a post may have)",
    )
    parser.add_argument(
        "--report",
        nargs=3,
        action="append",
        default=[],
        metavar=("KEY", "FROM", "TO"),
        help="ask for a report by this tag over the hours from FROM up to and without TO, "
        "as 2024-09-01T00:00Z; may stand several times",
    )
    options = parser.parse_args(arguments)
    for key, low, high in options.report:
        if "\n" in key:
            parser.error("--report: KEY holds a line break, which a script can't say")
        for time in (low, high):
            if not re.fullmatch(r"\S+", time):
                parser.error(f"--report: {time!r} is not a time such as 2024-09-01T00:00Z")
    return options


def open_export(path):
    if path == "-":
        return sys.stdin.buffer
    try:
        return open(path, "rb")
    except OSError as why:
        raise BadExport(f"{why.strerror}: give the path of a CSV export that can be read") from why


def main(arguments=None):
    options = read_command_line(arguments)
    try:
        with open_export(options.export) as file:
            write_script(file, sys.stdout.buffer, options)
    except BadExport as why:
        print(f"split_export.py: {options.export}: {why}", file=sys.stderr)
        return 1
    except BrokenPipeError:
        # Whoever reads the script has ended. Python would flush standard output once more at its own end.
        os.dup2(os.open(os.devnull, os.O_WRONLY), sys.stdout.fileno())
        return 1
    return 0


if __name__ == "__main__":
    sys.exit(main())
