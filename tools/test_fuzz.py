#!/usr/bin/env python3
"""Tests of the fuzzer: its readers and its oracle on what docs/FORMATS.md says, the changes of inputs, and that it finds planted bugs.

It needs no built program.
"""

import collections
import os
import random
import re
import subprocess
import sys
import tempfile
import unittest

HERE = os.path.dirname(os.path.abspath(__file__))
sys.path.insert(0, os.path.join(HERE, "fuzz"))
import aims  # noqa: E402
import command_oracle  # noqa: E402
import each_byte  # noqa: E402
import encode  # noqa: E402
import folder_oracle  # noqa: E402
import fuzz  # noqa: E402
import mutate  # noqa: E402
import oracle  # noqa: E402
import readers  # noqa: E402
import running  # noqa: E402
import shrink  # noqa: E402
import texts  # noqa: E402
import toml_text  # noqa: E402
from command_line import run_tests  # noqa: E402

TOP = os.path.dirname(HERE)
SIX = b"BilledCost,EffectiveCost,BillingCurrency,ChargeCategory,ChargePeriodStart,ChargePeriodEnd"
ROW = b"0.1,0.25,USD,Usage,2024-01-01T00:00Z,2024-01-01T01:00Z"
USAGE = readers.COMMITMENT
HOUR = 473_352


def content_of(*parts):
    with open(os.path.join(TOP, *parts), "rb") as file:
        return file.read()


def answered(script):
    """The answers to a script, without their texts."""
    return [answer.split(b"\n")[0].decode() for _, answer, _ in oracle.Oracle().run(script)]


def post(*rows, header=SIX):
    return readers.entry(b"post", b"a", b"\n".join([header, *rows]))


class Amounts(unittest.TestCase):
    def fault(self, text):
        with self.assertRaises(texts.NoAmount) as caught:
            texts.nanos(text)
        return caught.exception.args[0]

    def test_values(self):
        for text, nanos in (
            (b"1", 10**9), (b"-0", 0), (b"+.5", 5 * 10**8), (b"5.", 5 * 10**9), (b"1e-9", 1), (b"5e-10", 0), (b"1.5e-9", 2), (b"2.5e-9", 2), (b"-2.5e-9", -2),
            (b"2.50000000000001e-9", 3), (b"100000000", 10**17), (b"100000000.0000000005", 10**17), (b"0e40", 0), (b"1E+8", 10**17), (b"1e-40", 0),
        ):  # fmt: skip
            self.assertEqual(texts.nanos(text), nanos, text)

    def test_faults_in_their_order(self):
        self.assertEqual(self.fault(b""), texts.EMPTY)
        for text in (b".", b"+", b"1e", b"e5", b"1..2", b"0x1", b" 1", b"1_0", b"inf", "\u0661".encode()):
            self.assertEqual(self.fault(text), texts.SYNTAX, text)
        for text in (b"0" * 41, b"1e41", b"0e-41", b"1e" + b"9" * 30):
            self.assertEqual(self.fault(text), texts.TOO_LONG, text)
        for text in (b"100000000.0000000006", b"1e9", b"-1e40"):
            self.assertEqual(self.fault(text), texts.RANGE, text)


class Instants(unittest.TestCase):
    def test_hours(self):
        for text in (
            b"2024-01-01T00:00:00Z", b"2024-01-01T00:00Z", b"2024-01-01t00z", b"20240101T000000Z", b"2024-01-01 02:00+02", b"2023-12-31T19:00:00.000-05:00",
            b"+002024-01-01T00:00Z", b"2024-01-01T00:00Z[UTC][u-ca=iso8601]",
        ):  # fmt: skip
            self.assertEqual(texts.hour(text), HOUR * 1, text)
        self.assertEqual(texts.second(b"1970-01-01T00:00Z"), 0)
        self.assertEqual(texts.second(b"2016-12-31T23:59:60Z"), texts.second(b"2016-12-31T23:59:59Z"))
        self.assertEqual(texts.second(b"9999-12-30T22:00:00Z"), texts.LAST_SECOND)
        self.assertEqual(texts.second(b"2000-02-29T00:00Z"), 951_782_400)

    def test_what_is_none(self):
        for text in (
            b"", b"2024-01-01", b"2024-01-01T00:00", b"2023-02-29T00:00Z", b"2024-13-01T00:00Z", b"2024-01-01T24:00Z", b"1969-12-31T23:59:59Z", b"9999-12-30T22:00:01Z",
            b"2024-01-01T00:00:00.5Z", b"2024-01-01T00:00+26:00", b"2024-0101T00:00Z", b"2024-01-01T00:00Z ", b"2024-01-01T00:00Z[", b"2024-01-01T00:00Z[!a=b]",
        ):  # fmt: skip
            self.assertRaises(texts.NoInstant, texts.second, text)
        self.assertRaises(texts.NoInstant, texts.hour, b"2024-01-01T00:30Z")


class Csv(unittest.TestCase):
    def test_records(self):
        for text, records in (
            (b"", []), (b"\r\n\n\r", []), (b"a,b\nc", [[b"a", b"b"], [b"c"]]), (b"a\rb\r\nc\n\nd", [[b"a"], [b"b"], [b"c"], [b"d"]]), (b",\n", [[b"", b""]]),
            (b'"a,""b""\n"c,d"e\n', [[b'a,"b"\nc', b'd"e']]), (b'"a"b"c,d', [[b'ab"c', b"d"]]), (b'a,"b\n', [[b"a", b"b\n"]]), (b'""', [[b""]]),
            (b"\xef\xbb\xbfa", [[b"a"]]), (b'"', [[b""]]), (b'a,"', [[b"a", b""]]),
        ):  # fmt: skip
            self.assertEqual(list(texts.records(text)), records, text)


class Exports(unittest.TestCase):
    """What the commands that read exports make of a text, where a post of a script would read another."""

    def test_a_header_that_stands_again_is_no_record(self):
        again = SIX.replace(b"BilledCost", b'"BilledCost"')
        for text, kept, counts in (
            (SIX + b"\n" + ROW + b"\n" + SIX + b"\n" + ROW, SIX + b"\n" + ROW + b"\n" + ROW, [1, 1]),
            (SIX + b"\r\n" + SIX + b"\r\n" + ROW, SIX + b"\r\n\n" + ROW, [0, 1]),
            (SIX + b"\n\n\xef\xbb\xbf" + SIX, SIX + b"\n\n", [0, 0]),
            (b"\xef\xbb\xbf\n" + SIX + b"\n" + SIX, b"\xef\xbb\xbf\n" + SIX + b"\n", [0, 0]),
            # The same names in other bytes are a record.
            (SIX + b"\n" + again + b"\n", SIX + b"\n" + again + b"\n", [1]),
            (b"", b"", [0]),
        ):  # fmt: skip
            self.assertEqual(texts.without_repeats(text), (kept, counts), text)

    def test_a_repeated_header_is_counted_and_the_rows_are_the_others(self):
        checked = readers.Checked(SIX + b"\n" + ROW + b"\n" + SIX + b"\n" + ROW + b"\n")
        self.assertEqual((checked.repeated, checked.records, len(checked.rows), checked.is_clean), (1, 2, 2, True))
        checked = readers.Checked(SIX + b"\n" + SIX + b"\n")
        self.assertEqual((checked.repeated, checked.whole, checked.is_clean), (1, readers.NO_ROWS, False))

    def test_what_is_no_csv_in_utf_8_has_no_line(self):
        checked = readers.Checked(b"\xff\xfe" + SIX + b"\n" + ROW)
        self.assertTrue(checked.is_foreign and not checked.is_clean)
        self.assertFalse(checked.fault(None, ["it is UTF-16"]))
        self.assertTrue(checked.fault(None, []))
        self.assertTrue(checked.fault({"records": 1}, ["it is UTF-16"]))


class Json(unittest.TestCase):
    def test_tags(self):
        for text, tags in (
            ("{}", {}), (' {"a" : "b" }\n', {"a": "b"}), ('{"a":true,"b":false,"c":null}', {"a": "true", "b": "false", "c": ""}), ('{"a":1,"a":"x"}', {"a": "x"}),
            ('{"\\u00e9\\ud83d\\ude00":"\\/\\b"}', {"\u00e9\U0001f600": "/\b"}), ('{"a":' + "[" * 126 + "]" * 126 + ',"a":""}', {"a": ""}),
        ):  # fmt: skip
            self.assertEqual(texts.tags_of(text), tags)

    def test_what_is_none(self):
        for text in (
            "", "[]", '"a"', '{"a":1}', '{"a":[]}', '{"a":"b",}', '{"a":"b"}x', '{"a":"\n"}', '{"a":"\\ud800"}', '{"a":"\\x"}', '{a:"b"}', '{"a":01,"a":""}',
            '{"a":1e999,"a":""}', '{"a":' + "[" * 127 + "]" * 127 + ',"a":""}', '{"a":"b"', "\ufeff{}", '{"a":truE}',
        ):  # fmt: skip
            self.assertRaises(texts.NoJson, texts.tags_of, text)

    def test_limits(self):
        many = "{" + ",".join(f'"{n}":""' for n in range(256)) + "}"
        self.assertEqual(len(texts.tags_of(many)), 256)
        self.assertRaises(texts.TagsTooLong, texts.tags_of, many[:-1] + ',"x":""}')
        self.assertRaises(texts.TagsTooLong, texts.tags_of, '{"a":"' + "\u00e9" * 513 + '"}')


class Toml(unittest.TestCase):
    def test_documents(self):
        for text, table in (
            (b"", {}), (b"a=1 # c\r\n", {b"a": 1}), (b'a.b."c d"=true\na.b.e=-0x', None), (b"a.b=1\na.c=+1_0\n[d]\n[[d.e]]\nf=[1,{g='h',},]\n[[d.e]]", {
                b"a": {b"b": 1, b"c": 10}, b"d": {b"e": [{b"f": [1, {b"g": b"h"}]}, {}]}}),
            (b'a="""\nx\\\n  y\n"""\nb=\'\'\'z\'\'\'\'', {b"a": b"xy\n", b"b": b"z'"}), (b'a="\\e\\x41\\u00e9\\U0001F600"', {b"a": "\x1bA\u00e9\U0001f600".encode()}),
            (b"a=0x7fffffffffffffff\nb=-9223372036854775808", {b"a": 2**63 - 1, b"b": -(2**63)}), (b"a=[\n1,\n#c\n2]", {b"a": [1, 2]}),
            (b"a={b=1,\n# c\nc=2\n}", {b"a": {b"b": 1, b"c": 2}}), (b"[a.b]\n[a]\nc=1", {b"a": {b"b": {}, b"c": 1}}), (b"a=1979-05-27 07:32Z\nb=1e5", {b"a": "a date", b"b": "a float"}),
        ):  # fmt: skip
            if table is None:
                self.assertRaises(toml_text.NoToml, toml_text.document, text)
            else:
                self.assertEqual(toml_text.document(text), table, text)

    def test_what_is_none(self):
        for text in (
            b"a", b"a=", b"a=1 b=2", b"a=1\ra=2", b"a=1\na=2", b"[a]\n[a]", b"a=[]\n[[a]]", b"[a.b]\n[a]\nb.c=1", b"a={b\n=1}", b"a='\n'", b'a="\\ud800"', b"a=01", b"a=1__0",
            b"a=9223372036854775808", b"a=1e400", b"a=2023-02-29", b"a=24:00", b"#\x07", b"a=\xff", b'a="\x00"', b"a=" + b"[" * 81 + b"]" * 81, b"a." * 80 + b"a=1",
            b"a=1.", b"a=.5", b"a=0x_1", b"a={,}", b"[[a]]\n[a]", b"[a]]", b"a=tru", b"a={b=1}\n[a.c]", b"a.b=1\n[a]",
        ):  # fmt: skip
            self.assertRaises(toml_text.NoToml, toml_text.document, text)
        self.assertTrue(toml_text.document(b"a=" + b"[" * 80 + b"]" * 80))
        self.assertTrue(toml_text.document(b"a." * 79 + b"a=1"))


class Scripts(unittest.TestCase):
    def test_all_kept_answers(self):
        cases = [os.path.join("examples", "cases", name[:-7]) for name in os.listdir(os.path.join(TOP, "examples", "cases")) if name.endswith(".script")]
        for case in cases:
            self.assertEqual(oracle.answers(content_of(case + ".script")), content_of(case + ".answers"), case)
        for name in ("first-report", "commitments"):
            self.assertEqual(oracle.answers(content_of("examples", name + ".script")), content_of("examples", name + ".expected"), name)

    def test_faults_of_a_row(self):
        """A row breaks a rule, and each later one too where it can: the first is answered."""
        names = SIX.decode().split(",") + ["ChargeClass", "CommitmentDiscountId", "CommitmentDiscountCategory", "CommitmentDiscountStatus", "ConsumedQuantity", "SkuId", "Tags"]
        right = dict(zip(names, ROW.decode().split(",")))
        wrong = [
            ("V13 TooLong 1", {"SkuId": "s" * 257}), ("V12 BadTags 1", {"Tags": "[]"}), ("V11 Quantity 1", {"ConsumedQuantity": "x"}),
            ("V10 Status 1", {"CommitmentDiscountStatus": "Used"}), ("V9 Commitment 1", {"CommitmentDiscountCategory": "Usage"}),
            ("V8 PeriodOrder 1", {"ChargePeriodEnd": "2023-01-01T00:00Z"}), ("V7 Time 1", {"ChargePeriodStart": "soon"}), ("V6 Currency 1", {"BillingCurrency": "EUR"}),
            ("V5 Cost 1", {"EffectiveCost": ""}), ("V4 Class 1", {"ChargeClass": "x"}), ("V3 Category 1", {"ChargeCategory": "x"}),
        ]  # fmt: skip
        for code, change in wrong:
            right.update(change)
            row = ",".join(right.get(name, "") for name in names).encode()
            self.assertEqual(answered(post(row, header=",".join(names).encode())), [f"refused {code}"])
        self.assertEqual(answered(post(row + b"\xff", header=",".join(names).encode())), ["refused V2 NotUtf8 1"])
        self.assertEqual(answered(post(row + b",", header=",".join(names).encode())), ["refused V1 Fields 1"])

    def test_faults_of_a_post(self):
        self.assertEqual(answered(b"post a 1 0\n"), ["refused H1 MissingColumn BilledCost"])
        self.assertEqual(answered(post(ROW, header=SIX[:-1])), ["refused H1 MissingColumn ChargePeriodEnd"])
        self.assertEqual(answered(post(ROW + b",,", header=SIX + b",Tags,Tags")), ["refused H2 DoubleColumn Tags"])
        self.assertEqual(answered(post()), ["refused V14 NoRows"])
        self.assertEqual(answered(post(*[ROW] * 4_096)), ["accepted 1"])
        self.assertEqual(answered(post(*[ROW] * 4_096, b"?")), ["refused V15 TooManyRows"])

    def test_verdicts(self):
        self.assertEqual(answered(post(ROW).replace(b" a ", b" a/b ")), ["refused E1 Origin"])
        self.assertEqual(answered(post(ROW).replace(b"a 1 ", b"a 0 ")), ["refused E2 Seq"])
        self.assertEqual(answered(post(ROW).replace(b"a 1 ", b"a 18446744073709551615 ")), ["gap 1"])
        self.assertEqual(answered(post(ROW).replace(b"a 1 ", b"a 18446744073709551616 ")), ["refused E2 Seq"])
        self.assertEqual(answered(post(ROW) * 2), ["accepted 1", "already 1"])
        long = post(*[ROW + b',"{""k"":""' + b"v" * 1_024 + b'""}"'] * 4_096, header=SIX + b",Tags")
        self.assertEqual(answered(long), ["refused E3 TooLarge"])

    def test_faults_of_a_commitment(self):
        for old, new, code in (
            (b"category", b"= x", "C1 Syntax"), (b'"cd-1"', b'""', "C3 Limit id"), (b'"cd-1"', b"1", "C2 Field id"), (b'"Usage"', b'"usage"', "C2 Field category"),
            (b"hours = 3", b"hours = 26305", "C3 Limit hours"), (b"hours = 3", b'hours = "3"', "C2 Field hours"), (b'"3"', b'"0"', "C3 Limit capacity"),
            (b'"3"', b'"1e9"', "C2 Field capacity"), (b'["vm"]', b'["vm","vm"]', "C2 Field skus"), (b'["vm"]', b"[]", "C3 Limit skus"), (b'"shared"', b"1", "C2 Field tags"),
            (b'"7.000000001"', b'"-1"', "C3 Limit purchase"), (b'"7.000000001"', b'"1"\nx = 1', "C2 Field purchase"), (b"[tags]", b"rates = 1\n[tags]", "C2 Field unknown"),
        ):  # fmt: skip
            self.assertEqual(answered(readers.entry(b"commit", b"a", USAGE.replace(old, new, 1))), [f"refused {code}"])
        self.assertEqual(answered(readers.entry(b"commit", b"a", USAGE)), ["accepted 1"])

    def test_faults_of_a_policy(self):
        start = 'key = "k"\n[[rule]]\nfrom = "a"\n'
        for text, code in (
            ("key =", "P1 Syntax"), ("rule = 1", "P2 Field key"), ('key = ""', "P3 Limit key"), ('key = "k"\nrule = [1]', "P2 Field rule"), (start, "P2 Field rule"),
            (start + "to = 1\nproportional = 1", "P2 Field rule"), (start + "to = {}", "P3 Limit to"), (start + "to = {b = 'x'}", "P2 Field to"),
            (start + "to = {b = 1000000001}", "P3 Limit to"), (start + "proportional = false", "P2 Field proportional"), (start + "proportional = true\nx = 1", "P2 Field unknown"),
            (start + "proportional = true\n" + start[10:] + "to = {b = 1}", "P4 DoubleFrom"), (start + "to = {a = 1}", "P5 TargetIsFrom"),
        ):  # fmt: skip
            found = answered(readers.entry(b"policy", b"a", text.encode()))
            self.assertEqual(found, [f"refused {code}"], text)

    def test_lines_that_are_no_commands(self):
        for line in (b"", b" state", b"state ", b"state\r", b"post a 1", b"post a 1 x", b"post a 1 1000001", b"withdraw a 1 0", b"report 2024-01-01T00:00Z 2024-01-01T01:00Z", b"report \xff 2024-01-01T00:00Z 2024-01-01T01:00Z"):
            self.assertEqual(answered(line + b"\n"), ["bad command"], line)
        self.assertEqual(answered(b"post a 1 2\nx"), ["bad end"])
        self.assertEqual(answered(b"report  2024-01-01T00:00Z 2024-01-01T00:00Z\n"), ["refused Q1 Range"])


class Folders(unittest.TestCase):
    # What docs/FORMATS.md spells: an empty side, and an open frame with a policy for the key `t` and the next gate.
    EMPTY = bytes.fromhex("01 4657484f55534532 0100000000000000 1300000000000000 03000000 555344 0000000000000000 00000000 00")
    FRAME = bytes.fromhex("01 1b000000 010000000100000061010000000000000003010000007400000000 00")
    SEGMENTS = (
        "01 01000000 0100000000000000 0100000000000000 03 00 0000000000000000 100e000000000000 00 00 00 00 00 00 00 00000000",
        "02 01000000 00000000 0100000000000000 0100000000000000 03 00 0000000000000000 100e000000000000 00000000 00 00 00 0000000000000000 00000000 00000000 00000000 00000000",
    )

    def corrupt(self, left, right=b""):
        with self.assertRaises(folder_oracle.Corrupt) as caught:
            folder_oracle.opened(left, right)
        return caught.exception.args

    def test_what_the_page_spells(self):
        self.assertEqual(self.EMPTY, encode.side([], []))
        house = folder_oracle.opened(self.EMPTY[:-1] + self.FRAME, None).oracle
        self.assertEqual((house.state(), house.policy), ("state 1 0 0 1\n", {"key": "t", "rule": []}))
        rows = encode.entries_of(post(b"0.000000001,0.000000001,USD,Tax,1970-01-01T00:00Z,1970-01-01T01:00Z"))[0][3]
        for segment, write in zip(self.SEGMENTS, (encode.rows_in_turn, encode.columns)):
            self.assertEqual(write(rows), bytes.fromhex(segment))

    def test_kept_volumes(self):
        volumes = os.path.join(TOP, "examples", "volumes")
        for name in ("empty", "log", "checkpointed", "both"):
            house = folder_oracle.opened(*readers.files_of(os.path.join(volumes, name))).oracle
            made = oracle.Oracle()
            collections.deque(made.run(content_of("examples", "volumes", name + ".script")), maxlen=0)
            self.assertEqual(readers.Compared(readers.ASKED, house).out, readers.Compared(readers.ASKED, made).out, name)
        entries = encode.entries_of(content_of("examples", "volumes", "log.script"))
        self.assertEqual(encode.side([], [[one] for one in entries], form=b"FWHOUSE1"), content_of("examples", "volumes", "log", "left"))

    def test_what_is_written_is_read(self):
        script = content_of("tools", "fuzz", "corpus", "scripts", "each-kind-of-entry.script")
        made, entries = oracle.Oracle(), encode.entries_of(script)
        collections.deque(made.run(script), maxlen=0)
        for count in range(len(entries) + 1):
            for layouts in ((encode.columns,), (encode.rows_in_turn,)):
                house = folder_oracle.opened(encode.side(entries[:count], [[one] for one in entries[count:]], layouts=layouts), None)
                self.assertEqual(readers.Compared(readers.ASKED, house.oracle).out, readers.Compared(readers.ASKED, made).out)

    def test_faults_of_sides(self):
        e = self.EMPTY
        for left, right in ((None, None), (b"", b""), (b"\2" + e[1:], e[:25])):
            self.assertRaises(folder_oracle.NoHouse, folder_oracle.opened, left, right)
        self.assertEqual(self.corrupt(e[:8] + b"3" + e[9:]), ("left", 1))
        self.assertEqual(self.corrupt(e, e[:9] + bytes(8) + e[17:]), ("right", 9))
        self.assertEqual(self.corrupt(e, e), ("right", 9))
        self.assertEqual(self.corrupt(e[:17] + b"\xff" * 8 + e[25:]), ("left", 17))
        self.assertEqual(self.corrupt(e[:17] + b"\x14" + e[18:]), ("left", 17))
        self.assertEqual(self.corrupt(e[:29] + b"\xff" + e[30:]), ("left", 25))
        self.assertEqual(self.corrupt(e[:32] + b"\1" + e[33:]), ("left", 40))
        self.assertEqual(self.corrupt(e[:-1]), ("left", 17))
        self.assertEqual(self.corrupt(e[:-1] + self.FRAME[:-1]), ("left", 44 + len(self.FRAME) - 1))
        self.assertEqual(self.corrupt(e[:-1] + self.FRAME[:-1] + self.FRAME), ("left", 44 + len(self.FRAME) - 1))
        self.assertEqual(self.corrupt(e[:-1] + b"\1" + bytes(40)), ("left", 44))

    def test_each_field_is_known(self):
        entries = encode.entries_of(content_of("tools", "fuzz", "corpus", "scripts", "each-kind-of-entry.script"))
        file = encode.side(entries[:3], [[one] for one in entries[3:]])
        layout = folder_oracle.layout_of(file)
        self.assertIn((17, 8), layout.fields)
        self.assertEqual(layout.log, 25 + int.from_bytes(file[17:25], "little"))
        self.assertTrue(all(at + width <= len(file) for at, width in layout.fields) and max(at for at, _ in layout.fields) > layout.log)

    def test_each_text_and_each_list_is_known(self):
        rows = encode.entries_of(post(ROW + b',"{""a"":""x"",""b"":""y""}"', header=SIX + b",Tags"))[0]
        layout = folder_oracle.layout_of(encode.side([rows], [[(b"b", 1, *rows[2:])]]))
        file = encode.side([rows], [[(b"b", 1, *rows[2:])]])
        self.assertEqual([file[at + 4 : end] for at, end in layout.texts], [b"USD", b"a", b"a", b"x", b"b", b"y", b"b", b"a", b"x", b"b", b"y"])
        for at, end in layout.texts:
            self.assertEqual(int.from_bytes(file[at : at + 4], "little"), end - at - 4)
        counted = {at: len(parts) for at, parts in layout.lists if at is not None}
        # The heads, the segments, the names, the tags of the segment's row; the entries of the frame, their rows, and the tags of theirs.
        self.assertEqual(sorted(counted.values()), [1, 1, 1, 1, 2, 2, 4])
        for at, count in counted.items():
            self.assertEqual(int.from_bytes(file[at : at + 4], "little"), count)
        self.assertEqual(sum(at is None for at, _ in layout.lists), 15)


class CommandLines(unittest.TestCase):
    def test_meanings(self):
        report = "report --dir d --tag t --from 2024-01 --to 2024-02"
        for line, meaning in (
            ("", "wrong"), ("--help", "help"), ("-V", "help"), ("run -h", "help"), ("help run", "help"), ("help no", "wrong"), ("no", "wrong"), ("run", "runs"),
            ("run --workers=64", "runs"), ("run --workers 65", "wrong"), ("run --create --create", "wrong"), ("run --create=yes", "wrong"), ("run --dir", "wrong"),
            ("run --dir --create", "wrong"), ("run x", "wrong"), ("run --currency usd", "wrong"), ("import --dir d --origin o", "wrong"), ("check -", "runs"),
            ("check -- --no", "runs"), ("explain", "runs"), ("explain V5", "runs"), ("explain V5 V6", "wrong"), (report, "runs"), (report + " --top 1001", "wrong"), (report + " --by week", "wrong"),
            ("report --dir d --tag t", "runs"), ("report --dir d --tag t --from 2024-01", "runs"), ("report --dir d --tag t --to x", "wrong"),
            ("lines --dir d --month 2024-09", "runs"), ("lines --dir d --month 2024-9", "wrong"), ("lines --dir d --month 2024-09 --to 2024-10", "wrong"),
            ("coverage --dir d --last 3 months", "runs"), ("coverage --dir d --last 1 day", "runs"), ("coverage --dir d --last 0 days", "wrong"),
            ("coverage --dir d --last 3", "wrong"), ("coverage --dir d --last=3 months", "wrong"), ("coverage --dir d --last 3 weeks", "wrong"),
            ("coverage --dir d --last 3 months --month 2024-09", "wrong"), ("run --strict", "runs"), ("run --strict=yes", "wrong"), ("split --no-sync --out o f", "runs"),
            ("split --currency USD --out o f", "wrong"), ("replace --dir d --origin o --from 2024-01 f", "wrong"), (report.replace("2024-02", "2024-01"), "wrong"), (report.replace("2024-01", "2020-01"), "wrong"), ("run --no --help", "wrong"), ("run --help --no", "help"),
        ):  # fmt: skip
            self.assertEqual(command_oracle.meaning(line.encode().split()), meaning, line)
        self.assertEqual(command_oracle.meaning([b"run", b"--dir", b"\xff"]), "wrong")

    def test_words_are_kept(self):
        for word in (b"", b"--dir=", b"\xff\0\\x", b"a b\n"):
            self.assertEqual(readers.unescaped(readers.escaped(word)), word)

    def test_another_currency_than_that_of_the_folder_is_a_wrong_word(self):
        words = (b"import", b"--currency", b"EUR", b"--dir", b"house", b"--origin", b"v", b"rows.csv")
        for given, error, is_right in ((words, b"the warehouse in house is in USD\n", True), (words, b"no\n", False), (words[3:], b"it is in USD\n", False)):
            ended = running.Ended(2, b"", b"focusd: --currency: " + error, 0.0, 0.0, 0)
            self.assertEqual(readers.CommandLines.is_right_end(given, ended), is_right, error)


class Changes(unittest.TestCase):
    def test_a_seed_makes_the_same_inputs(self):
        for reader in readers.READERS.values():
            pool = list(reader.corpus().values())
            made = [[reader.mutated(chance, pool) for _ in range(60)] for chance in (random.Random(7), random.Random(7), random.Random(8))]
            self.assertEqual(made[0], made[1])
            self.assertNotEqual(made[0], made[2])
            self.assertGreater(len(set(made[0])), 40, reader.name)

    def test_the_length_is_made_to_fit(self):
        entries = encode.entries_of(content_of("tools", "fuzz", "corpus", "scripts", "each-kind-of-entry.script"))
        file, chance = encode.side(entries[:3], [[one] for one in entries[3:]]), random.Random(1)
        for _ in range(200):
            changed = mutate.resized(chance, file, 25 + mutate.number_at(file, 17, 8))
            log = 25 + mutate.number_at(changed, 17, 8)
            gates = list(mutate.frames_of(changed, log))
            self.assertEqual(len(gates), len(entries) - 3)
            self.assertEqual(changed[gates[-1][1] :], b"\0")

    def test_the_lengths_are_made_to_fit_around_parts_and_texts(self):
        entries = encode.entries_of(content_of("tools", "fuzz", "corpus", "scripts", "each-kind-of-entry.script"))
        file, chance = encode.side(entries[:3], [[one] for one in entries[3:]]), random.Random(1)
        layout, counts = folder_oracle.layout_of(file), set()
        for change in [mutate.of_parts, mutate.of_text_in] * 200:
            changed = change(chance, file, layout)
            gates = list(mutate.frames_of(changed, 25 + mutate.number_at(changed, 17, 8)))
            self.assertEqual(len(gates), len(entries) - 3)
            self.assertEqual(changed[gates[-1][1] :], b"\0")
            counts.add(len(changed) - len(file))
        self.assertTrue(min(counts) < 0 < max(counts) and 0 in counts)

    def test_parts_change_places(self):
        made = {mutate.exchanged(random.Random(seed), b"(a)(bb)(c)", [(0, 3), (3, 7), (7, 10)]) for seed in range(300)}
        self.assertEqual(made, {b"(bb)(a)(c)", b"(a)(c)(bb)", b"(c)(bb)(a)"})

    def test_blanks_stand_at_ends(self):
        chance = random.Random(1)
        made = {mutate.of_blanks(chance, b'skus = ["vm", "db"]') for _ in range(400)}
        for text in (b'skus = ["vm ", "db"]', b'skus = ["vm", " db"]', b'skus = ["vm\t", "db"]', b'skus = ["vm", "db\xc2\xa0"]', b'skus = ["vm","db"]'):
            self.assertIn(text, made)
        self.assertIn(b"a,vm ,b", {mutate.of_blanks(chance, b"a,vm,b") for _ in range(100)})
        self.assertIn(b"vm", {mutate.blanked(chance, b" vm ") for _ in range(50)})

    def test_instants_move(self):
        chance, text = random.Random(1), b"report t 2024-01-01T01:00Z x"
        made = {mutate.of_times(chance, text)[9:-2] for _ in range(600)}
        seconds = {texts.second(one) - texts.second(b"2024-01-01T01:00Z") for one in made}
        self.assertTrue({0, 1_800, -1_800, 900, -900, 2_700, 1, 60, 3_600, -86_400} <= seconds, seconds)
        for one in (b"2024-01-01T01:30Z", b"2024-01-01T01:30+00:30", b"2024-01-01T06:30+05:30", b"2023-12-31T21:30-03:30"):
            self.assertIn(one, made)
        lines = b"a 2024-01-01T00:00Z,2024-01-01T01:00Z\nb 2024-01-01T02:00Z"
        self.assertIn(b"a 2024-01-01T00:30Z,2024-01-01T01:30Z\nb 2024-01-01T02:00Z", {mutate.of_times(chance, lines) for _ in range(400)})
        # Where there is no such day, the nearest one.
        self.assertEqual(mutate.instant(-1), b"1970-01-01T00:00Z")
        self.assertEqual(mutate.instant(texts.LAST_SECOND + 86_400, 1_559), b"9999-12-31T23:59:59+25:59")
        self.assertEqual(mutate.of_times(chance, b"2024-13-01T00:00Z"), b"2024-13-01T00:00Z")

    def test_fields_of_a_line(self):
        self.assertEqual(mutate.fields_of(b'a,"b,c",,"d""e'), [b"a", b'"b,c"', b"", b'"d""e'])

    def test_the_corpus_has_a_line_for_each_file(self):
        index = content_of("tools", "fuzz", "corpus", "README.md").decode()
        named = re.findall(r"^\| `([^`]+)` \| (.+) \|$", index, re.MULTILINE)
        files = [name for reader in readers.READERS for name in os.listdir(os.path.join(readers.CORPUS, reader))]
        self.assertEqual(sorted(name for name, _ in named), sorted(files))
        why = dict(named)
        for reader in ("csv", "json"):
            for name, one in readers.READERS[reader].kept_in(os.path.join(readers.CORPUS, reader)).items():
                (command,) = readers.READERS[reader].commands(0, one)
                found = answered(command)[0]
                code = re.match(r"[HV][0-9]+", why[name])
                wanted = f"refused {code[0]} " if code else "refused V5 " if re.match(r"M[0-9]", why[name]) else "accepted"
                self.assertTrue(found.startswith(wanted), f"{name}: {found}")


class EachByte(unittest.TestCase):
    def test_each_front_and_each_change_is_one_input(self):
        text = b"ab\xff"
        made = [each_byte.input_at(text, number) for number in range(sum(each_byte.count_of(text)))]
        self.assertEqual(made[:4], [b"", b"a", b"ab", text])
        self.assertEqual(len(set(made)), 4 + 3 * 255)
        self.assertTrue(all(len(one) == 3 and sum(a != b for a, b in zip(one, text)) == 1 for one in made[4:]))

    def test_the_texts_are_those_of_the_script(self):
        found = each_byte.texts()
        self.assertEqual([len(text.bytes) for text in found.values()], [695, 320, 198, 67, 60])
        for name, answers in (("csv", ["accepted 4"]), ("commitment", ["accepted 2"]), ("policy", ["accepted 4"]), ("purchase", ["accepted 4"])):
            script = each_byte.script_of(found[name], [found[name].bytes])
            self.assertEqual(answered(script)[len(answered(found[name].before)) :][: len(answers)], answers, name)

    def test_a_wrong_answer_is_found(self):
        session, text = Planted(rb"V6 Currency", b"V7 Time"), each_byte.texts()["csv"]
        wrong = each_byte.differences(session, text, [text.bytes, text.bytes.replace(b"USD", b"EUR", 1), b""])
        self.assertEqual([inputs for inputs, _ in wrong], [[text.bytes.replace(b"USD", b"EUR", 1)]])
        self.assertEqual(each_byte.differences(session, text, [text.bytes, b""]), [])


class Shrinking(unittest.TestCase):
    def test_what_is_needed_is_left(self):
        data = b"one two\nthree four five\nsix \xff seven\n" * 20
        self.assertEqual(shrink.smaller(data, lambda text: b"four" in text and b"\xff" in text), b"four\xff")
        self.assertEqual(len(shrink.smaller(b"x" * 100, lambda text: len(text) > 2)), 3)

    def test_tries_are_counted(self):
        calls = []
        shrink.smaller(b"ab\n" * 500, lambda text: calls.append(text) or b"a" in text, most=50)
        self.assertLessEqual(len(calls), 50)


class Planted(readers.Session):
    """A program that is the oracle with a bug."""

    def __init__(self, old, new):
        super().__init__("", 1)
        self.old, self.new = old, new

    def run(self, words, given=b"", size=None):
        out = oracle.answers(given)
        return running.Ended(0, re.sub(self.old, self.new, out), b"", 0, 0, 0)


class Misread(readers.Session):
    """A program that is the oracle, and reads another script."""

    def __init__(self, old, new):
        super().__init__("", 1)
        self.old, self.new = old, new

    def run(self, words, given=b"", size=None):
        return running.Ended(0, oracle.answers(re.sub(self.old, self.new, given)), b"", 0, 0, 0)


class Driver(unittest.TestCase):
    def found(self, reader, old, new, turns=12, program=Planted):
        """What is kept of a planted bug: the smallest input."""
        session, chance = program(old, new), random.Random(3)
        pool = list(reader.corpus().values())
        reader.other_faults = reader.folder_faults = lambda *_: []
        try:
            for _ in range(turns):
                inputs = [reader.mutated(chance, pool) for _ in range(reader.together)]
                for place, why in reader.faults(inputs, session):
                    with tempfile.TemporaryDirectory() as folder:
                        finder = fuzz.Finder(type("Options", (), {"program": "", "limit": 1, "peer": None, "found": folder}), {"seed": 3})
                        finder.session = session
                        kept = finder.found(reader, inputs, place, why)
                        again, ones = fuzz.case_of(kept[0])
                        self.assertIs(again, reader)
                        return ones
        finally:
            del reader.other_faults, reader.folder_faults
        return None

    def test_a_wrong_code_is_found_and_made_small(self):
        (one,) = self.found(readers.READERS["csv"], rb"V8 PeriodOrder", b"V9 Commitment")
        self.assertLess(len(one), 400)
        (one,) = self.found(readers.READERS["json"], rb"V13 TooLong", b"V12 BadTags")
        self.assertLess(len(one), 2_500)
        (one,) = self.found(readers.READERS["toml"], rb"C3 Limit", b"C2 Field")
        self.assertLess(len(one), 120)

    def test_a_blank_and_half_an_hour_are_found(self):
        (one,) = self.found(readers.READERS["toml"], rb' +(")', rb"\1", turns=40, program=Misread)
        self.assertIn(b' "', one)
        (one,) = self.found(readers.READERS["json"], rb' +(")', rb"\1", turns=40, program=Misread)
        self.assertIn(b' "', one)
        self.assertIn(b":30", b"".join(self.found(readers.READERS["scripts"], rb":30Z", b":00Z", turns=200, program=Misread)))

    def test_tags_out_of_order_are_made(self):
        """The oracle that takes names in any order finds sound what the right one finds damaged."""
        reader, chance = readers.READERS["folders"], random.Random(3)
        pool, right = list(reader.corpus().values()), folder_oracle.rises
        made = [reader.mutated(chance, pool) for _ in range(1_500)]
        found = []
        for files in made:
            answers = []
            for folder_oracle.rises in (right, lambda names: True):
                try:
                    folder_oracle.opened(*files)
                    answers.append("sound")
                except (folder_oracle.NoHouse, folder_oracle.Corrupt) as fault:
                    answers.append(repr(fault))
            found += [files] if answers[0] != "sound" == answers[1] else []
        folder_oracle.rises = right
        self.assertTrue(found)

    def test_another_program_has_to_answer_the_same(self):
        class Beside(Planted):
            def __init__(self, *bug):
                super().__init__(*bug)
                self.peer, self.given = "expert", b""

            def run(self, words, given=b"", size=None):
                return running.Ended(0, oracle.answers(given), b"", 0, 0, 0)

            def run_peer(self, given):
                self.given = given
                return super().run([], given)

        reader = readers.READERS["csv"]
        right, wrong = readers.ROWS, readers.ROWS.replace(b"Usage", b"?")
        session = Beside(rb"V3 Category", b"V4 Class")
        ((place, why),) = reader.faults([right, wrong, right], session, random.Random(3))
        self.assertEqual(place, 1)
        self.assertIn("expert: the program answers", why)
        self.assertIn(b"\nreport ", session.given)
        self.assertNotIn(b"\nlines ", session.given)
        self.assertEqual(reader.faults([right, wrong], Beside(rb"\0", b""), random.Random(3)), [])
        # It takes no entries but posts and withdrawals.
        self.assertEqual(readers.READERS["toml"].faults([readers.COMMITMENT], Beside(rb"accepted", b"refused"), random.Random(3)), [])

    def test_sigterm_ends_it_with_its_counts(self):
        with tempfile.TemporaryDirectory() as folder:
            words = [sys.executable, "-B", fuzz.__file__, "--program", "/bin/false", "--reader", "json", "--seconds", "600", "--jobs", "2", "--most", "1000000"]
            run = subprocess.Popen([*words, "--found", folder], stdout=subprocess.PIPE, text=True)
            # Each answer of this program is wrong, so the first case says that the jobs have begun.
            first = run.stdout.readline()
            run.terminate()
            said = run.communicate(timeout=120)[0]
        self.assertIn("FOUND", first)
        self.assertRegex(said, r"(?m)^[\d,]+ inputs in [\d,]+ executions, \d+ s: ")
        self.assertRegex(said, r"(?m)^\d[\d,.]* processor seconds, ")
        self.assertEqual(run.returncode, 1)

    def test_a_right_program_has_no_fault(self):
        for name in ("csv", "json", "toml"):
            self.assertIsNone(self.found(readers.READERS[name], rb"\0", b"", turns=2))

    def test_a_crash_a_hang_and_too_much_memory(self):
        self.assertIn("SIGSEGV", running.run(["/bin/sh", "-c", "kill -SEGV $$"]).crash())
        self.assertIn("had not ended", running.run(["/bin/sleep", "5"], limit=0.02).crash())
        self.assertIn("panicked", running.run(["/bin/sh", "-c", "echo thread main panicked at x >&2; exit 1"]).crash())
        self.assertIn("status 101", running.run(["/bin/sh", "-c", "exit 101"]).crash())
        self.assertEqual(running.run(["/bin/cat"], b"abc").out, b"abc")
        with tempfile.TemporaryDirectory() as folder:
            given = os.path.join(folder, "given")
            open(given, "wb").close()
            words = [sys.executable, "-S", "-E", "-c", "x = bytearray(200 << 20)"]
            self.assertGreater(running.measured(words, given, folder).memory, running.memory_bound(0))
            self.assertLess(running.measured(["/bin/true"], given, folder).memory, 32 << 20)

    def test_each_known_answer_has_a_name(self):
        page = content_of("docs", "FORMATS.md").decode()
        codes = set(re.findall(r"`refused ([A-Z][0-9]+)", page))
        self.assertEqual(codes, {name.split(" ")[1] for name in fuzz.answers_known() if name.startswith("refused ")})

    def test_aims_are_as_large_as_asked_for(self):
        for inputs in (aims.CSV, aims.TOML, aims.SCRIPTS):
            for name, make in inputs.items():
                self.assertTrue(40_000 < len(make(100_000)) < 260_000 or "4,096" in name or "line feeds" in name, name)
        for name, make in aims.FOLDERS.items():
            try:
                folder_oracle.opened(*make(20_000))
            except folder_oracle.Corrupt as corrupt:
                self.assertEqual(corrupt.args[0], "left", name)
        for name in ("tiny segments", "tiny segments row by row", "tiny posts that share segments", "a log of tiny groups", "names of 1,024 bytes", "256 tags in each row"):
            self.assertTrue(folder_oracle.opened(*aims.FOLDERS[name](20_000)).kinds, name)


if __name__ == "__main__":
    run_tests(__doc__)
