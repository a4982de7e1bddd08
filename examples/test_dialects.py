#!/usr/bin/env python3
"""Runs `focusd import`, `check` and `replace` with `--dialect gcp` of a built program, and compares what comes of it with another program.

    examples/test_dialects.py out/focusd
    examples/test_dialects.py out/focusd Dialects.test_exports_by_chance --runs 400

The FOCUS export that one in the dialect stands for comes from expected.py. Both are imported: the digests of the warehouses have to be equal, and the
rows that are exported again are those that expected.py reads.
"""
import collections
import csv
import io
import json
import random

import expected
from import_tests import READ, Case, export_of_chance, header_of_chance, rows_of
from program_tests import HERE, run_tests

RUNS = 100
NOTE = "BigQuery exports Google's costs so: --dialect gcp reads such times and tags."
HEADER = "BilledCost,EffectiveCost,BillingCurrency,ChargeCategory,ChargePeriodStart,ChargePeriodEnd,Tags,Other"
TIMES = "2024-09-01 00:00:00 UTC,2024-09-01 01:00:00 UTC"


def spelled(header, records, rng):
    """A CSV in which a field is within quotes where it must be, or by chance, with one of the line ends and empty lines by chance."""
    end = rng.choice(["\n", "\r\n", "\r"])
    lines = []
    for record in [header, *records]:
        fields = [it if rng.random() < 0.7 and not set(it) & set(',"\r\n') else '"' + it.replace('"', '""') + '"' for it in record]
        lines.append(",".join(fields) + end * (rng.choice([1, 1, 1, 2, 3]) if lines else 1))
    text = "".join(lines)
    return (expected.MARK if rng.randrange(4) == 0 else b"") + (text.removesuffix(end) if rng.randrange(3) == 0 else text).encode()


def in_dialect(text, rng):
    """An export as BigQuery would have it: most times and tags in the dialect, some as FOCUS has them."""
    header, records = expected.records_of(text)
    out = []
    for fields in records:
        for at, column in enumerate(header):
            if column.startswith("ChargePeriod") and rng.random() < 0.9:
                day, time = fields[at].removesuffix("Z").split("T")
                fields[at] = f"{day} {time}:00 UTC"
            elif column == "Tags" and rng.random() < 0.9:
                pairs = expected.pairs_of(fields[at])
                if len({key for key, _ in pairs}) == len(pairs):
                    items = [dict(rng.sample([("key", key), ("value", value)], 2)) for key, value in pairs]
                    fields[at] = json.dumps(items, ensure_ascii=rng.random() < 0.5, indent=rng.choice([None, None, 1]))
        out.append(fields)
    return header, out


def focus_of(text):
    """The FOCUS export that one stands for, of which some fields are FOCUS already. expected.focus_of_gcp takes lists of tags alone."""
    header, records = expected.records_of(text)
    at = header.index("Tags") if "Tags" in header else None
    out = []
    for fields in records:
        if at is not None and not fields[at].lstrip().startswith("["):
            tags, fields[at] = fields[at], ""
        else:
            tags = None
        _, one = expected.records_of(expected.focus_of_gcp(expected.csv_of(header, [fields])))
        fields = next(one)
        if tags is not None:
            fields[at] = tags
        out.append(fields)
    return expected.csv_of(header, out)


class Dialects(Case):
    """Exports in the dialect of Google."""

    def gcp(self, house, *words, keeps=()):
        return self.house(house, "--dialect", "gcp", *words, keeps=keeps)

    def test_the_shipped_export(self):
        text = (HERE / "dialects" / "gcp.csv").read_bytes()
        self.assertIn(b" UTC", text)
        self.assertIn(b'"[{""key""', text)
        file, plain = self.file("gcp.csv", text), self.file("plain.csv", expected.focus_of_gcp(text))
        self.assertEqual(self.gcp("gcp", file), (0, "imported 60 rows, 0 were there already; 1 post\n", ""))
        self.assertEqual(self.house("plain", plain)[0], 0)
        self.assertEqual(self.digest("gcp"), self.digest("plain"))
        self.assertEqual(self.exported("gcp"), rows_of(expected.focus_of_gcp(text)))
        # They are the rows of the provider's export in the form of FOCUS.
        self.assertEqual(self.exported("gcp"), rows_of((HERE / "providers" / "google.csv").read_bytes()))
        # The FOCUS export is the same one, so it is there already.
        self.assertEqual(self.house("gcp", plain)[1], "imported 0 rows, 60 were there already; 1 post\n")
        status, printed, said = self.focusd("check", "--dialect", "gcp", file)
        self.assertEqual((status, said), (0, ""))
        self.assertTrue(printed.startswith("gcp.csv: 60 records, 0 of them with faults; 0 faults\n"), printed)
        self.assertEqual(printed.replace("gcp.csv", "plain.csv"), self.focusd("check", plain)[1])

    def test_exports_by_chance(self):
        self.check_runs(RUNS)

    def check_run(self, seed):
        rng = random.Random(seed)
        header = header_of_chance(rng, rng.randrange(3), 5)
        count = rng.choice([1, 3, 40, 400, 9_000 if seed % 10 == 0 else 40])
        text = spelled(*in_dialect(export_of_chance(rng, count, header), rng), rng)
        plain = focus_of(text)
        names = self.file(f"{seed}.csv", text), self.file(f"{seed}-plain.csv", plain)
        status, printed, said = self.gcp(f"gcp{seed}", names[0])
        self.assertEqual((status, said), (0, ""))
        self.assertTrue(printed.startswith(f"imported {count} row"), printed)
        self.assertEqual(self.house(f"plain{seed}", names[1])[0], 0)
        # 2 MiB of a file end a post too, so the posts of the two differ where the files are long.
        if len(text) < 2**20:
            self.assertEqual(self.digest(f"gcp{seed}"), self.digest(f"plain{seed}"))
        self.assertEqual(self.exported(f"gcp{seed}"), rows_of(expected.with_columns_as_tags(plain, [])))
        again = self.gcp(f"gcp{seed}", names[0])
        self.assertEqual((again[0], again[2]), (0, ""))
        self.assertTrue(again[1].startswith("imported 0 rows, "), again)
        checked = [json.loads(self.focusd("check", "--format", "json", *words)[1]) for words in (("--dialect", "gcp", names[0]), (names[1],))]
        for one in checked:
            one.pop("file", None)
            one.pop("name", None)
            one.pop("lines", None)
        self.assertEqual(*checked)

    def test_an_import_that_goes_on(self):
        """An import of a part of the files and then of all of them, and columns that are kept."""
        rng = random.Random(71)
        texts = [spelled(*in_dialect(export_of_chance(rng, count, [*READ, "ServiceName"]), rng), rng) for count in (5_000, 300, 4_200)]
        names = [self.file(f"{place}.csv", text) for place, text in enumerate(texts)]
        keeps = ["ServiceName=service"]
        self.assertEqual(self.gcp("parts", names[0], keeps=keeps)[1], "imported 5000 rows, 0 were there already; 2 posts\n")
        self.assertEqual(self.gcp("parts", *names, keeps=keeps)[1], "imported 4500 rows, 5000 were there already; 5 posts\n")
        self.assertEqual(self.gcp("whole", *names, keeps=keeps)[0], 0)
        self.assertEqual(self.digest("parts"), self.digest("whole"))
        rows = sum((rows_of(expected.with_columns_as_tags(focus_of(text), keeps)) for text in texts), collections.Counter())
        self.assertEqual(self.exported("parts"), rows)

    def test_replacements(self):
        rng = random.Random(72)
        old, new = (spelled(*in_dialect(export_of_chance(rng, 300, READ), rng), rng) for _ in range(2))
        self.assertEqual(self.gcp("house", self.file("old.csv", old))[0], 0)
        status, printed, said = self.focusd("replace", "--dir", "house", "--origin", "aws", "--dialect", "gcp", "--quiet", self.file("new.csv", new))
        self.assertEqual((status, said), (0, ""))
        self.assertTrue(printed.startswith("300 rows replaced by 300; "), printed)
        self.assertEqual(self.exported("house"), rows_of(focus_of(new)))


class Faults(Case):
    """What isn't in the dialect."""

    def said_of(self, fields, *words):
        """What an import and a check of a record say."""
        buffer = io.StringIO(newline="")
        csv.writer(buffer, lineterminator="\n").writerow(fields)
        file = self.file("bad.csv", f"{HEADER}\n{buffer.getvalue()}")
        (self.top / "bad").mkdir(exist_ok=True)
        status, printed, said = self.focusd("import", "--dir", "bad", "--create", "--origin", "gcp", "--quiet", *words, file)
        checked = self.focusd("check", *words, file)
        self.assertEqual((status, printed, checked[0]), (1, "", 1), (said, checked))
        self.assertEqual(list((self.top / "bad").iterdir()), [])
        return said, checked[1] + checked[2]

    def record(self, start="2024-09-01 00:00:00 UTC", tags="[]"):
        return ["1", "1", "USD", "Usage", start, "2024-09-01 01:00:00 UTC", tags, ""]

    def test_times(self):
        wrong = [
            "2024-09-01 00:00:00.5 UTC", "2024-13-01 00:00:00 UTC", "2024-09-01 00:00:00", "2024-09-01 00:00:00 CET", "2024-09-01  0:00:00 UTC",
            "2024-09-01 00:00:00 UTC ", " 2024-09-01 00:00:00 UTC", "２024-09-01 00:00:00 UTC", "1969-12-31 23:00:00 UTC", "2024-09-01T00:00:00 UTC",
            "2024-09-01 00:00:00 UTC" * 9, "",
        ]  # fmt: skip
        for start in wrong:
            with self.subTest(start=start):
                for said in self.said_of(self.record(start=start), "--dialect", "gcp"):
                    self.assertIn("V7 Time", said)
                    self.assertNotIn(NOTE, said)
                imported, _checked = self.said_of(self.record(start=start), "--dialect", "gcp")
                shown = start if len(start) <= 60 else start[:60] + "..."
                self.assertIn(f"ChargePeriodStart: {json.dumps(shown, ensure_ascii=False)}: V7 Time", imported)

    def test_tags(self):
        wrong = [
            '[{"key":"a"}]', '[{"value":"a"}]', '[{"key":"a","value":"b","more":1}]', '[{"key":1,"value":"b"}]', '[{"key":"a","value":1}]', '[1]', "[[]]",
            '[{"key":"a","value":{}}]', '[{"key":null,"value":"b"}]', '[{"key":"a","value":"b"},{"key":"a","value":"c"}]', "[", '[{"key":"a","value":"b"}',
            '[{"key":"a","value":"b"}]]', '[{"key":"a","value":"b"},]', '[{"key":"a","value":"\\ud800"}]', "[" * 4_000, '[{"key":"a","value":[]}]', "[] []",
            '[{"Key":"a","value":"b"}]', "5", "null", '"[]"',
        ]  # fmt: skip
        for tags in wrong:
            with self.subTest(tags=tags):
                for said in self.said_of(self.record(tags=tags), "--dialect", "gcp"):
                    self.assertIn("V12 BadTags", said)
                    self.assertNotIn(NOTE, said)
        # Too many tags, or too long ones, are those of the reader.
        many = json.dumps([{"key": f"k{it}", "value": ""} for it in range(257)])
        long = json.dumps([{"key": "k", "value": "x" * 1_025}])
        for tags in (many, long):
            self.assertIn("V13 TooLong", self.said_of(self.record(tags=tags), "--dialect", "gcp")[0])
        self.assertIn("V2 NotUtf8", self.focusd("check", "--dialect", "gcp", "-", given=f"{HEADER}\n1,1,USD,Usage,{TIMES},".encode() + b'"[{""key"":""\xff"",""value"":""""}]",\n')[1])

    def test_fields_that_are_read(self):
        """Forms at the edges, each with the tags that come of it."""
        for tags, wanted in (
            ("[]", {}), (" [ ] ", {}), ("", {}), ("{}", {}), ('{"a":"b"}', {"a": "b"}), ('[{"value":null,"key":"n"}]', {"n": ""}),
            ('[{"key":"","value":true},{"key":"b","value":false}]', {"": "true", "b": "false"}),
            ('\n[\r\n{"key":"z","value":"1"}\n,{"key":"a","value":"\\u00e9\\"\\n,"}]\n', {"z": "1", "a": 'é"\n,'}),
            ('[{"key":"a","key":"b","value":"c"}]', {"b": "c"}), (json.dumps([{"key": f"k{it}", "value": "v"} for it in range(256)]), {f"k{it}": "v" for it in range(256)}),
        ):  # fmt: skip
            with self.subTest(tags=tags):
                name = f"house{abs(hash(tags))}"
                file = self.file(f"{name}.csv", expected.csv_of(HEADER.split(","), [self.record(tags=tags)]))
                self.assertEqual(self.house(name, "--dialect", "gcp", file), (0, "imported 1 row, 0 were there already; 1 post\n", ""))
                ((row, times),) = self.exported(name).items()
                self.assertEqual((dict(row[3]), times), (wanted, 1))

    def test_lines_and_records_keep_their_numbers(self):
        """A fault behind fields with line ends, empty lines and a header that stands again."""
        tags = '"[\n\n{""key"":""a"",\n""value"":""b""}]"'
        good = f"1,1,USD,Usage,{TIMES},{tags},\"x\ny\"\n"
        text = f"{HEADER}\n{good}\n\n{good}{HEADER}\n{good}1,1,USD,Use,{TIMES},[],\n"
        file = self.file("bad.csv", text)
        line = text[: text.index("USD,Use")].count("\n") + 1
        status, _printed, said = self.house("bad", "--dialect", "gcp", file)
        self.assertEqual(status, 1)
        self.assertTrue(said.startswith(f'focusd: bad.csv:{line}: record 4, ChargeCategory: "Use": V3 Category'), said)
        status, printed, _said = self.focusd("check", "--dialect", "gcp", file)
        self.assertEqual(status, 1)
        self.assertIn(f'  bad.csv:{line}: record 4: "Use"\n', printed)

    def test_other_columns_stay(self):
        """A column that is kept has the text that the file has, whatever its form."""
        record = ["1", "1", "USD", "Usage", *TIMES.split(","), "[]", "2024-09-01 00:00:00 UTC"]
        file = self.file("good.csv", expected.csv_of(HEADER.split(","), [record, [*record[:-1], '[{"key":"a","value":"b"}]']]))
        self.assertEqual(self.house("good", "--dialect", "gcp", file, keeps=["Other"])[0], 0)
        kept = sorted(dict(row[3])["Other"] for row in self.exported("good"))
        self.assertEqual(kept, ["2024-09-01 00:00:00 UTC", '[{"key":"a","value":"b"}]'])
        said = self.house("bad", "--dialect", "gcp", self.file("bad.csv", expected.csv_of(HEADER.split(","), [[*record[:6], '[{"key":"Other","value":""}]', "x"]])), keeps=["Other"])[2]
        self.assertIn("V17 TagTwice", said)
        self.assertIn("The record has the tag Other, as which the column Other is to be kept.", said)

    def test_what_is_proposed(self):
        """Without the option nothing is read so, and it is proposed."""
        for fields in (self.record(), ["1", "1", "USD", "Usage", "2024-09-01T00:00Z", "2024-09-01T01:00Z", '[{"key":"a","value":"b"}]', ""]):
            for said in self.said_of(fields):
                self.assertEqual(said.count(NOTE), 1, said)
        # Other faults propose nothing.
        for said in self.said_of(["1", "1", "USD", "Usage", "2024-09-01 00:00:00", "2024-09-01T01:00Z", "", ""]):
            self.assertNotIn(NOTE, said)
        (self.top / "house").mkdir()
        self.assertEqual(self.house("house", self.file("good.csv", f"{HEADER}\n1,1,USD,Usage,2024-09-01T00:00Z,2024-09-01T01:00Z,,\n"))[0], 0)
        status, _printed, said = self.focusd("replace", "--dir", "house", "--origin", "aws", "--quiet", "bad.csv")
        self.assertEqual(status, 1)
        self.assertNotIn(NOTE, said)
        self.file("bad.csv", f"{HEADER}\n1,1,USD,Usage,{TIMES},,\n")
        self.assertIn(NOTE, self.focusd("replace", "--dir", "house", "--origin", "aws", "--quiet", "bad.csv")[2])

    def test_other_dialects(self):
        file = self.file("good.csv", f"{HEADER}\n1,1,USD,Usage,{TIMES},,\n")
        for words in (("check",), ("import", "--dir", ".", "--create", "--origin", "a"), ("replace", "--dir", ".", "--origin", "a")):
            for name in ("aws", "", "GCP", "gcp "):
                status, printed, said = self.focusd(*words, "--dialect", name, file)
                self.assertEqual((status, printed), (2, ""), said)
                self.assertIn("--dialect", said)
                self.assertIn("gcp", said)


if __name__ == "__main__":
    run_tests(__doc__, RUNS="how many exports by chance")
