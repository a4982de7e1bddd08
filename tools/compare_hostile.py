#!/usr/bin/env python3
"""Compares focusd with another program on hostile scripts: right posts that were bent, withdrawals of them, and odd command lines.

    tools/compare_hostile.py --program focusd --oracle bench/scratch/target/release/expert --cases 2000

A case is a script of some 12 commands. Both programs read it from standard input, called with the words `run` and,
where a currency is given, `--currency CUR`. Their output, exit status and standard error have to be the same. Each
difference is printed with what makes it again and with the shortest script found that still differs. A case depends on
the seed, its number and these options alone.

The other program may be a command line. One that takes no words, and answers only what it knows, is compared up to the
place where it stops by

    --oracle "sh -c 'exec python3 examples/expected.py'" --may-stop

Exit status: 0 where no case differed, 1 where one did, 2 where the command line is wrong or a program can't be started.
"""

import argparse
import itertools
import random
import re
import shlex
import subprocess
import sys
import tempfile

from command_line import parser_of

COLUMNS = "BilledCost EffectiveCost BillingCurrency ChargeCategory ChargePeriodStart ChargePeriodEnd".split()
OTHER_COLUMNS = ["Tags", "x", "", "billedcost", " BilledCost", "BilledCost ", "\ufeffBilledCost", 'a"b', "a,b", "c\nd"]
AMOUNTS = """
    0 -0 +0 00 0.1 -0.05 1e-9 . + - +. -.e1 .5 +.5 5. -5.e0 1e40 1e41 1e-40 1e-41 0e40 0e41 0e-41 1e+40 1e+041 1E-05
    1e 1e+ e5 1e5e5 1e1.5 1..2 1.2.3 +-1 --1 0x10 1_000 inf NaN 1f 1e99999999999999999999 0e99999999999999999999
    0.0e-00000000000000000000 1e00000000000000000000000000000000000001 1e000000000000000000000000000000000000001
    1e-4294967296 1e18446744073709551617 100000000 100000000.0 -100000000 100000000.0000000004 100000000.0000000005
    100000000.00000000050 -100000000.0000000005 100000000.0000000006 100000000.00000000051 100000000.000000001
    -100000000.000000001 99999999.9999999995 99999999.99999999949 99999999.9999999985 1e8 10e7 0.1e9
    1.000000000000000001e8 1e9 18446744073709551616 9223372036854775808e-9 1e17 1e-10 5e-10 5.0e-10 5.1e-10 -5e-10
    15e-10 25e-10 -15e-10 1.0000000005 1.0000000015 1.00000000050000000000000000000001 0.0000000005
    0.00000000050000000000000000000000000001 0.0000000004999999999999999999999999999 -0.0000000025 1e-39 9e-40 5e9e
    1,5 100000000000000000000000000000000000e-27 0.000000000000000000000000000000000001e40
    00000000000000000000000000000000000000.1 000000000000000000000000000000000000000.1
    1000000000000000000000000000000000000e-40 0.1e-40 123456789.123456789
""".split()
AMOUNTS += ["", " ", " 1", "1 ", "1\n", "1\r", "\t1", "1\0", "\u0661", "\uff11", "1\u00a0"]
AMOUNTS += ["0" * 40, "0" * 41, "x" * 40, "x" * 41]
TIMES = """
    2024-01-01T00:00:00Z 2024-01-01T00:00Z 2024-01-01T01:00:00Z 2024-01-01T01:00:00.0Z 2024-01-01T00:00:00.000000000Z
    2024-01-01T00:00:00.0000000000Z 2024-01-01T00:00:00.5Z 2024-01-01T00:00:00.000000001Z 2024-01-01T00:00:00.Z
    2024-01-01T00:00.0Z 2024-01-01T02:00:00+02:00 2024-01-01T00:00-00:00 2023-12-31T19:00-05:00 2024-01-01T00:00+23:59
    2024-01-01T00:00+26:00 2024-01-01T00:00+01:60 1970-01-01T00:00Z 1970-01-01T00:00:01Z 1969-12-31T23:59:59Z
    1969-12-31T23:59:59.999999999Z 1970-01-01T00:00+00:01 1969-12-31T23:00-01:00 1969-12-31T23:59:59-00:01
    9999-12-30T22:00:00Z 9999-12-30T21:59:59Z 9999-12-30T00:00Z 10000-01-01T00:00Z 0000-01-01T00:00Z 2024-02-29T00:00Z
    2023-02-29T00:00Z 1900-02-29T00:00Z 2000-02-29T00:00Z 2024-04-31T00:00Z 2024-13-01T00:00Z 2024-00-01T00:00Z
    2024-01-00T00:00Z 2024-01-01T24:00Z 2024-01-01T23:60Z 2024-01-01T00:00:61Z 2024-01-01T00:00 2024-01-01T00:00:00
    2024-01-01 2024-01-01Z 2024-01-01T 2024-1-1T0:0Z 2024-01-01T00:00:0Z 2024-01-01T00:00ZZ 2024-01-01T00:00:00+
    2024-01-01T00:00:00+0 2024-01-01T00:00+1:00 1704067200 T00:00Z 2024-01-01T00:00X
""".split()
TIMES += ["", " 2024-01-01T00:00Z", "2024-01-01T00:00Z ", "2024-01-01T00:00Z\n", "2024-01-01T00:00Z\0"]
TIMES += ["\uff12024-01-01T00:00Z"]
# Forms that a reader of times written by hand may not know.
RARE_TIMES = """
    2024-01-01t00:00z 2024-01-01T00:00z 2024-01-01t00:00:00Z 2024-01-01T00Z 2024-01-01T00:Z 20240101T000000Z
    20240101T0000Z 20240101T00Z 2024-01-01T0000Z 2024-01-01T000000Z 20240101T00:00Z 2024-0101T00:00Z 202401-01T00:00Z
    2024-01-01T000000.0Z 2024-01-01T00:0000Z 2024-01-01T0000:00Z 2024-01-01T00:00:00,0Z 2024-01-01T00:00:00,5Z
    2024-01-01T00:00:60Z 2024-06-30T23:59:60Z 2024-01-01T00:00:60.0Z 9999-12-30T22:00:01Z 9999-12-30T23:00Z
    9999-12-31T00:00:00Z 9999-12-31T23:59:59Z 9999-12-31T00:00+02:00 9999-12-31T00:00:01+02:00
    9999-12-31T23:59:59+25:59:59 2024-01-01T00:00+24:00 2024-01-01T00:00-25:59 2024-01-01T00:00+02
    2024-01-01T00:00+0200 2024-01-01T00:00-0530 2024-01-01T00:00+02:00:00 2024-01-01T00:00+02:00:30
    2024-01-01T00:00+020030 2024-01-01T00:00+02:0030 2024-01-01T00:00+25:59:59 2024-01-01T00:00+02:00:60
    2024-01-01T00:00+02:00:00.5 2024-01-01T00:00+020 2024-01-01T00:00+02: +002024-01-01T00:00Z -002024-01-01T00:00Z
    -000000-01-01T00:00Z +010000-01-01T00:00Z +0020240101T00Z 2024-01-01T00:00Z[UTC] 2024-01-01T00:00[UTC]
    2024-01-01T00:00Z[+02:00] 2024-01-01T00:00+02[Europe/Berlin][u-ca=iso8601] 2024-01-01T00:00Z[!u-ca=iso8601]
    2024-01-01T00:00Z[u-ca=] 2024-01-01T00:00Z[ 2024-01-01T00:00Z[] 2024-01-01T00:00Z[!UTC]
    2024-01-01T00:00Z[a=b][UTC] 2024-01-01T00:00Z[-02:00:00] 2024-W01-1T00:00Z
""".split()
RARE_TIMES += ["2024-01-01 00:00Z", "2024-01-01  00:00Z", "2024-01-01T00:00 Z", "2024-01-01T00:00\u221202:00"]
WORD_END = re.compile(rb'[, "\r\n]')
LIKE_A_TIME = re.compile(rb"(?=.*\d).*[TtZz:]", re.DOTALL)
WORDS = ["Usage", "Purchase", "Tax", "Credit", "Adjustment"]
WRONG_WORDS = ["", "usage", "USAGE", " Usage", "Usage ", "Usag", "Usagee", "Usage\0", "Correction", "T\u00e4x", "Tax\n"]
WRONG_CURRENCIES = ["", "usd", "US", "USDD", "EUR", " USD", "USD ", "US\0", "\uff35SD"]
HOSTILE = [b'"', b'""', b"\r", b"\n", b"\r\n", b"\n\n", b"\0", b"\xef\xbb\xbf", b"\xff", b"\xc3", b"\xc3\xa9"]
HOSTILE += [b"\xed\xa0\x80", b"\xf4\x90\x80\x80", b"\xc0\x80", b"\xe2\x80\xa8", b" ", b"\t", b"\x1a", b"\\", b"'", b";", b"#"]
HOSTILE += [b",", b",,", b'","', b'"\n', b'"x']
COUNTS = ["+1", "-1", "", " 1", "1 ", "1.0", "1e1", "0x1", "one", "1000001", "4294967297", "9" * 60, "\u0661"]
COUNTS += ["18446744073709551617"]
KEYS = ["team", "", " ", "a b", "x  y ", "t\u00e4g", "\0", "\xff", "report", "2024-01-01T00:00Z", "\r", '"', "k" * 300]
ODD_LINES = """
    post post_a post_a_1 post_a_1_1_1 post__1_0 POST_a_1_1 posta_1_1 _post_a_1_1 post_a_1_1_ report report_
    report_team report__ report_team_2024-01-01T00:00Z report_2024-01-01T00:00Z_2024-01-01T01:00Z
    report_t_2024-01-01T00:00Z_2024-01-01T01:00Z_ checkpoint_ _checkpoint checkpoints state state state_ _state states STATE lines commit_a add_a
    add_a_1 add_a_1_x policy_a help quit # -- withdraw withdraw_ withdraw_a_1 withdraw_a_1_1 withdraw__1_1 withdraw_a__1 withdraw_a_1_1_
    withdraw_a_1_1_0 withdraws_a_1_1 WITHDRAW_a_1_1 _withdraw_a_1_1
""".split()
ODD_LINES = [line.replace("_", " ").encode() for line in ODD_LINES] + [b"", b" ", b"\r", b"\0", b"\xff", b"post\ta\t1\t1"]
ODD_LINES += [b"\xef\xbb\xbfpost a 1 1", b"report\tt\t2024-01-01T00:00Z\t2024-01-01T01:00Z"]
ODD_LINES += [b"post a 1 1\0", b"post \xff \xfe 0", b"withdraw a 1 1\0", b"withdraw \xff \xfe 1", b"withdraw a 1 \xff", b"withdraw\ta\t1\t1"]
TARGETS = ["0", "00", "", "x", "-1", "+1", "1.0", "1e0", "0x1", "\u0661", "1\0", "0" * 50 + "1", "9" * 60]
TARGETS += ["4294967297", "18446744073709551615", "18446744073709551616", "18446744073709551617"]
REPORTED_YEARS = [(b"1970", b"1972"), (b"2023", b"2025")]
PIPES = {"stdout": subprocess.PIPE, "stderr": subprocess.PIPE}
MOST_COMMANDS = 12
MOST_SECONDS = 60
MOST_TRIES = 400
MOST_SHOWN = 40


class Maker:
    """Makes the commands of one case."""

    def __init__(self, seed, case, currency, has_rare_times):
        self.random = random.Random(f"{seed}/{case}")
        self.currency, self.has_rare_times = currency, has_rare_times

    def chance(self, percent):
        return self.random.random() * 100 < percent

    def pick(self, items):
        return self.random.choice(items)

    def script(self):
        """The commands as byte texts; only the last may end without a line feed."""
        if self.chance(0.5):
            return []
        commands = [self.command() for _ in range(self.random.randint(1, MOST_COMMANDS))]
        commands += [b"report team %s-01-01T00:00Z %s-01-01T00:00Z\n" % years for years in REPORTED_YEARS]
        commands.append(b"state\n")
        if self.chance(10):
            commands.append(self.command())
        if self.chance(15):
            commands[-1] = self.cut_end(commands[-1])
        return commands

    def cut_end(self, command):
        """A last command without its last bytes, or one that asks for more lines than follow."""
        if self.chance(30):
            return b"post a 1 %d\n" % self.random.randint(1, 1_000_000) + command
        return command[: -self.random.randint(1, min(4, len(command)))]

    def command(self):
        kind = self.random.random()
        if kind < 0.7:
            return self.post()
        if kind < 0.83:
            return self.withdrawal()
        if kind < 0.95:
            return self.report()
        return self.pick(ODD_LINES) + self.pick([b"\n", b"\n", b"\r\n", b"\n\n"])

    def report(self):
        times = [self.time() if self.chance(60) else self.right_hour() for _ in range(2)]
        words = ["report", self.pick(KEYS), *times]
        if self.chance(10):
            self.random.shuffle(words)
        line = " ".join(words).encode("utf-8" if self.chance(80) else "latin-1", "replace").replace(b"\n", b"")
        return line + (b"\n" if self.chance(95) else b"\r\n")

    def right_hour(self):
        year, month, hour = (self.random.randint(*span) for span in [(1970, 2030), (1, 12), (0, 23)])
        return f"{year}-{month:02}-01T{hour:02}:00Z"

    def post(self):
        content = self.content()
        lines = content.count(b"\n") + (not content.endswith(b"\n"))
        content += b"" if content.endswith(b"\n") else b"\n"
        count = str(lines)
        if self.chance(3):
            count = str(max(0, lines + self.pick([-1, -1, 1, -2])))
        elif self.chance(2):
            count = self.pick(COUNTS)
        elif self.chance(3):
            count = "0" * self.pick([1, 5, 40]) + count
        return self.line("post", *self.sender(), count) + content

    def line(self, *words):
        line = " ".join(words).encode("latin-1" if self.chance(5) else "utf-8", "replace")
        return line + (b"\n" if self.chance(99) else b"\r\n")

    def withdrawal(self):
        """A withdrawal, or several behind a right post, most often of that."""
        if self.chance(30):
            return self.line("withdraw", *self.sender(), self.target())
        origin, times = f"w{self.random.randrange(10_000)}", sorted([self.right_hour(), self.right_hour()])
        fields = [self.amount(0), self.amount(0), self.currency, self.pick(WORDS), *times]
        post = f"post {origin} 1 2\n{','.join(COLUMNS)}\n{','.join(fields)}\n".encode()
        lines = [self.line("withdraw", origin, self.pick([str(number)] * 3 + ["1", "4"]), self.target()) for number in range(2, self.random.randint(3, 6))]
        return post + b"".join(lines)

    def target(self):
        return self.pick(TARGETS) if self.chance(15) else self.pick("111123")

    def sender(self):
        """An origin and a number: mostly a new origin's first, else one that may be there already, leave a gap or be none."""
        if self.chance(70):
            return f"o{self.random.randrange(10_000)}", self.pick(["1", "1", "1", "01", "0" * 50 + "1"])
        origins = ["a", "a", "a", "b", "A.b-c_9", "x" * 64, "x" * 65, "", "\u00e9", "a/b", "a\0", "a\t"]
        numbers = ["1", "1", "2", "2", "3", "4", "x", "", "-1", "+1", "0", "0" * 50, "18446744073709551615"]
        numbers += ["18446744073709551616", "9" * 60, "1.0", "\u0661"]
        return self.pick(origins), self.pick(numbers)

    def content(self):
        """A CSV that is right at most in part."""
        names = list(COLUMNS)
        if self.chance(50):
            self.random.shuffle(names)
        for _ in range(self.pick([0, 0, 0, 1, 3])):
            names.insert(self.random.randint(0, len(names)), self.pick(OTHER_COLUMNS))
        if self.chance(4):
            names[self.random.randrange(len(names))] = self.pick(COLUMNS + OTHER_COLUMNS)
        if self.chance(3):
            names.remove(self.pick(names))
        count = self.random.randint(4_095, 4_098) if self.chance(0.3) else self.random.randint(0, 4)
        rows = [self.record(self.row(names)) for _ in range(min(count, 5))]
        if rows and len(rows[0]) < 1_000:
            rows = rows[:1] * (count - len(rows)) + rows
        end = self.pick(["\n", "\n", "\n", "\r\n", "\r", "\n\r"])
        text = "".join(record + end for record in [self.record(names), *rows]).encode()
        if self.chance(10):
            text = b"\xef\xbb\xbf" + text
        if self.chance(15):
            text = text.rstrip(b"\r\n")
        for _ in range(self.pick([0, 0, 0, 1, 1, 2, 4])):
            bent = self.bend_part(text)
            if self.has_rare_times or times_in(bent) <= times_in(text):
                text = bent
        return text

    def row(self, names):
        start, end = sorted([self.right_hour(), self.right_hour()])
        right = dict(zip(COLUMNS, [self.amount(10), self.amount(10), self.currency, self.pick(WORDS), start, end]))
        if self.chance(12):
            column = self.pick(COLUMNS)
            right[column] = self.odd_field(column)
        if self.chance(12):
            right["ChargePeriodStart"] = right["ChargePeriodEnd"] = self.time()
        fields = [right[name] if name in right else self.other_field() for name in names]
        if self.chance(3):
            fields.insert(self.random.randint(0, len(fields)), self.pick(["", "x"]))
        if self.chance(3) and fields:
            fields.pop()
        return fields

    def odd_field(self, column):
        if column == "BillingCurrency":
            return self.pick(WRONG_CURRENCIES)
        if column == "ChargeCategory":
            return self.pick(WRONG_WORDS)
        return self.amount(90) if column.endswith("Cost") else self.time()

    def other_field(self):
        if self.chance(3):
            # As long as a buffer of a reader may be.
            length = self.pick([4_096, 8_192, 16_384]) - self.random.randint(-20, 200)
            return self.pick(["x", '"', "\n", ",", "\u00e9"]) * length
        return self.pick(["", "x", "a,b", 'say "x"', "two\nlines", "\r\n", "\0"])

    def amount(self, percent_odd):
        if self.chance(percent_odd):
            return self.pick(AMOUNTS)
        digits = "".join(self.pick("0123456789") for _ in range(self.random.randint(1, 9)))
        sign = self.pick(["", "", "-", "+"])
        if self.chance(30):
            return sign + digits
        tail = "".join(self.pick("00059123") for _ in range(self.random.randint(0, 14)))
        if self.chance(40):
            tail = tail[:9].ljust(9, self.pick("01234567")) + "5" + self.pick(["", "", "0", "000", "0001"])
        text = f"{sign}{digits[:8]}.{tail}"
        if self.chance(20):
            text += self.pick("eE") + str(self.random.randint(-42, 12 if self.chance(80) else 42))
        return text

    def time(self):
        return self.pick(RARE_TIMES if self.has_rare_times and self.chance(50) else TIMES)

    def record(self, fields):
        return ",".join(self.field(field) for field in fields)

    def field(self, text):
        if any(byte in text for byte in ',"\r\n') or self.chance(3):
            if self.chance(97):
                return '"' + text.replace('"', '""') + '"'
        return text

    def bend_part(self, text):
        """A text with one of its places changed, which is seldom in the header."""
        rows = text.find(b"\n") + 1 if self.chance(80) else 0
        return text[:rows] + self.bend(text[rows:])

    def bend(self, text):
        at = self.random.randint(0, len(text))
        kind = self.random.randrange(9)
        if kind == 0 and at < len(text):
            return text[:at] + bytes([text[at] ^ (1 << self.random.randrange(8))]) + text[at + 1 :]
        if kind == 1:
            return text[:at] + bytes([self.random.randrange(256)]) + text[at + 1 :]
        if kind == 2:
            return text[:at]
        if kind == 3:
            return text[:at] + text[at + self.random.randint(1, 20) :]
        if kind in (4, 5):
            count = 1 if kind == 4 else self.random.randint(2, 8)
            return text[:at] + b"".join(self.pick(HOSTILE) for _ in range(count)) + text[at:]
        if kind == 6:
            at = text.find(b",", at)
            return text[:at] + self.pick(HOSTILE) + text[at:]
        lines = text.splitlines(keepends=True) or [b""]
        if kind == 7:
            place = self.random.randrange(len(lines))
            lines.insert(place, self.pick([b"\n", b"\r\n", b" \n", b'""\n', b",\n", lines[place]]))
            return b"".join(lines)
        lines.pop(self.random.randrange(len(lines)))
        return b"".join(lines)


def times_in(text):
    """The words that may be times."""
    return {word for word in WORD_END.split(text) if LIKE_A_TIME.match(word)}


class Pair:
    """The two programs, and how one script is run by both."""

    def __init__(self, options):
        words = ["run"] + (["--currency", options.currency] if options.currency else [])
        self.commands = [[options.program, *words], [*options.oracle, *words]]
        self.may_stop, self.has_rare_times = options.may_stop, options.rare_times

    def run(self, script):
        """What each program answers: (exit status, output, standard error)."""
        with tempfile.TemporaryFile() as file:
            file.write(script)
            started = []
            for command in self.commands:
                file.seek(0)
                # Each gets a place of its own in the file, as both read at once.
                with open(f"/dev/fd/{file.fileno()}", "rb") as stdin:
                    started.append(subprocess.Popen(command, stdin=stdin, **PIPES))
            return [self.answer(process) for process in started]

    def answer(self, process):
        try:
            output, complaint = process.communicate(timeout=MOST_SECONDS)
            return process.returncode, output, complaint
        except subprocess.TimeoutExpired:
            process.kill()
            process.communicate()
            return f"stopped after {MOST_SECONDS} s", b"", b""

    def differs(self, script):
        """The two answers where they differ, else None."""
        ours, other = self.run(script)
        if self.may_stop and other[0] == 1:
            return None if ours[1].startswith(other[1]) else (ours, other)
        return None if ours == other else (ours, other)


def shorter(pair, commands):
    """A script that still differs, from which no part that was tried can be left out."""
    tries = [MOST_TRIES]
    times = times_in(b"".join(commands))

    def still_differs(script):
        tries[0] -= 1
        return (pair.has_rare_times or times_in(script) <= times) and pair.differs(script)

    def without(parts):
        step = max(len(parts) // 2, 1)
        while True:
            place = 0
            while place < len(parts) and tries[0] > 0:
                rest = parts[:place] + parts[place + step :]
                if still_differs(b"".join(rest)):
                    parts = rest
                else:
                    place += step
            if step == 1 or tries[0] <= 0:
                return parts
            step //= 2

    script = b"".join(without(commands))
    script = b"".join(without(script.splitlines(keepends=True)))
    return b"".join(without([bytes([byte]) for byte in script]))


def show(name, answer):
    status, output, complaint = answer
    print(f"  {name}: status {status}, output {clipped(output)}, standard error {clipped(complaint)}")


def clipped(text):
    return repr(text) if len(text) <= 600 else f"{text[:300]!r} .. {text[-300:]!r}"


def report_difference(pair, options, case, commands):
    again = f"--seed {options.seed} --first {case} --cases 1" + (" --rare-times" if options.rare_times else "")
    again += f" --currency {shlex.quote(options.currency)}" if options.currency else ""
    print(f"difference in case {case}; again by {again}")
    script = b"".join(commands) if options.whole else shorter(pair, commands)
    lines = [(line, len(list(alike))) for line, alike in itertools.groupby(script.splitlines(keepends=True))]
    for line, times in lines[:MOST_SHOWN]:
        print(f"    {clipped(line)}" + (f" {times:,} times" if times > 1 else ""))
    if not lines or len(lines) > MOST_SHOWN:
        print("    the empty script" if not lines else f"    and {len(lines) - MOST_SHOWN:,} more")
    answers = pair.differs(script)
    if answers:
        show("program", answers[0])
        show("oracle", answers[1])
    else:
        print("  it came once and not again")
    sys.stdout.flush()


def command_line(text):
    words = shlex.split(text)
    if not words:
        raise argparse.ArgumentTypeError("no program is named")
    return words


def whole_number(text):
    if not text.isascii() or not text.isdecimal():
        raise argparse.ArgumentTypeError(f"{text!r} is not a whole number")
    return int(text)


def read_command_line():
    parser = parser_of(__doc__)
    parser.add_argument("--program", required=True, help="the built focusd")
    parser.add_argument("--oracle", required=True, type=command_line, help="the other program, or its command line")
    parser.add_argument("--seed", type=whole_number, default=1, help="of the cases (default: 1)")
    parser.add_argument("--cases", type=whole_number, default=1_000, help="how many scripts (default: 1,000)")
    parser.add_argument("--first", type=whole_number, default=0, help="the number of the first case (default: 0)")
    parser.add_argument("--currency", help="the currency of the warehouse, handed to both (default: none, so USD)")
    parser.add_argument("--rare-times", action="store_true", help="also times that few readers of times know")
    parser.add_argument("--may-stop", action="store_true", help="the oracle stops with status 1 where it has no answer")
    parser.add_argument("--most", type=whole_number, default=10, help="end after this many differences (default: 10)")
    parser.add_argument("--whole", action="store_true", help="print scripts that differ as they are, not shortened")
    return parser.parse_args()


def main():
    options = read_command_line()
    pair = Pair(options)
    scripts = posts = size = differences = 0
    for case in range(options.first, options.first + options.cases):
        commands = Maker(options.seed, case, options.currency or "USD", options.rare_times).script()
        script = b"".join(commands)
        scripts, posts, size = scripts + 1, posts + script.count(b"post "), size + len(script)
        try:
            if pair.differs(script):
                differences += 1
                report_difference(pair, options, case, commands)
        except OSError as why:
            print(f"compare_hostile.py: {why}", file=sys.stderr)
            return 2
        if differences >= options.most:
            break
    print(f"{scripts:,} scripts with {posts:,} posts and {size:,} bytes compared: {differences:,} differ")
    return 1 if differences else 0


if __name__ == "__main__":
    sys.exit(main())
