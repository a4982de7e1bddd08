#!/usr/bin/env python3
"""Runs `import`, `replace` and `check` of a built program with `--keep`, and compares rows and counts with those that another program computed.

    examples/test_keeps.py out/focusd
    examples/test_keeps.py out/focusd Keeps.test_rows_by_chance --runs 200

The rows with columns kept as tags come from expected.py. They are compared three times: as `focusd export` writes them, as sums of a report
by a kept tag, and by the digest of a warehouse into which the export was imported that has the tags in its Tags already.
"""
import collections
import decimal
import json
import random

import expected
from import_tests import OTHERS, READ, Case, export_of_chance, header_of_chance, rows_of
from program_tests import run_tests

RUNS = 40


def keeps_of_chance(rng, header):
    """Some columns of a header, each kept as itself or as another tag."""
    columns = rng.sample([it for it in header if it != "Tags"], rng.randrange(1, 4))
    return [it if rng.randrange(2) else f"{it}={rng.choice(['service', 'a', 'zz', 'größe 2'])}{place}" for place, it in enumerate(columns)]


def sums_of(text, key):
    """The billed cost of each group of an export by a tag."""
    sums = collections.defaultdict(decimal.Decimal)
    for (billed, _effective, _hour, tags), times in rows_of(text).items():
        sums[dict(tags).get(key, "")] += billed * times
    return dict(sums)


class Keeps(Case):
    """Columns that are kept as tags."""

    def test_rows_by_chance(self):
        self.check_runs(RUNS)

    def check_run(self, seed):
        rng = random.Random(seed)
        header = header_of_chance(rng, rng.randrange(1, 5), 4)
        count = rng.choice([1, 3, 40, 400, 9_000 if seed % 8 == 0 else 40])
        text = export_of_chance(rng, count, header)
        keeps = keeps_of_chance(rng, header)
        with_tags = expected.with_columns_as_tags(text, keeps)
        file, other = self.file(f"{seed}.csv", text), self.file(f"{seed}-tags.csv", with_tags)
        posts = -(-count // expected.MOST_ROWS)
        word = ("row" if count == 1 else "rows", "was" if count == 1 else "were", "post" if posts == 1 else "posts")
        status, printed, said = self.house(f"kept{seed}", file, keeps=keeps)
        self.assertEqual((status, said), (0, ""), (keeps, said))
        self.assertTrue(printed.startswith(f"imported {count} {word[0]}, 0 were there already; "), printed)
        self.house(f"tags{seed}", other)
        # 2 MiB of a file end a post too, so the posts of the two differ where the files are long.
        if len(with_tags) < 2**20:
            self.assertEqual(self.digest(f"kept{seed}"), self.digest(f"tags{seed}"))
        self.assertEqual(self.exported(f"kept{seed}"), rows_of(with_tags))
        for keep in keeps:
            key = keep.partition("=")[2] or keep
            self.assertEqual(self.report(f"kept{seed}", key), sums_of(with_tags, key), (keep, keeps))
        # The same file with the same columns is there already; with others it differs, unless no row has a text there.
        again = self.house(f"kept{seed}", file, keeps=keeps)
        self.assertEqual((again[0], again[2]), (0, ""))
        self.assertTrue(again[1].startswith("imported 0 rows, "), again)
        if with_tags != expected.with_columns_as_tags(text, keeps[1:]):
            status, printed, said = self.house(f"kept{seed}", file, keeps=keeps[1:])
            differs = rows_of(with_tags) != rows_of(expected.with_columns_as_tags(text, keeps[1:]))
            self.assertEqual((status, "R1 Differs" in said), (1, True) if differs else (0, False), said)

    def test_an_import_that_goes_on(self):
        """An import of a part of the files, and then of all of them."""
        rng = random.Random(51)
        header = [*READ, *OTHERS]
        texts = [export_of_chance(rng, count, header) for count in (5_000, 300, 4_200)]
        names = [self.file(f"{place}.csv", text) for place, text in enumerate(texts)]
        keeps = ["ServiceName=service", "RegionId"]
        self.assertEqual(self.house("parts", names[0], keeps=keeps), (0, "imported 5000 rows, 0 were there already; 2 posts\n", ""))
        self.assertEqual(self.house("parts", *names, keeps=keeps), (0, "imported 4500 rows, 5000 were there already; 5 posts\n", ""))
        self.assertEqual(self.house("whole", *names, keeps=keeps), (0, "imported 9500 rows, 0 were there already; 5 posts\n", ""))
        self.assertEqual(self.digest("parts"), self.digest("whole"))
        rows = sum((rows_of(expected.with_columns_as_tags(text, keeps)) for text in texts), collections.Counter())
        self.assertEqual(self.exported("parts"), rows)

    def test_two_headers(self):
        """Files of an import have the kept column at other places."""
        rng = random.Random(52)
        texts = [export_of_chance(rng, 50, header) for header in ([*READ, "ServiceName"], ["ServiceName", *READ], ["RegionId", *READ, "ServiceName"])]
        names = [self.file(f"{place}.csv", text) for place, text in enumerate(texts)]
        self.assertEqual(self.house("all", *names, keeps=["ServiceName"])[0], 0)
        rows = sum((rows_of(expected.with_columns_as_tags(text, ["ServiceName"])) for text in texts), collections.Counter())
        self.assertEqual(self.exported("all"), rows)


class Replacements(Case):
    """Columns that are kept as tags where rows are replaced."""

    def replace(self, house, file, *words, keeps=()):
        kept = [word for keep in keeps for word in ("--keep", keep)]
        return self.focusd("replace", "--dir", house, "--origin", "aws", "--quiet", *kept, *words, file)

    def test_rows_by_chance(self):
        self.check_runs(RUNS)

    def check_run(self, seed):
        rng = random.Random(1_000 + seed)
        header = [*READ, *OTHERS[: rng.randrange(1, 5)]]
        rng.shuffle(header)
        keeps = keeps_of_chance(rng, header)
        house, counts = f"replaced{seed}", [rng.choice([1, 40, 5_000 if seed % 8 == 0 else 40]) for _ in range(2)]
        old, new = (export_of_chance(rng, count, header) for count in counts)
        # The old rows may be kept otherwise.
        self.assertEqual(self.house(house, self.file("old.csv", old), keeps=rng.choice([keeps, keeps[1:]]))[0], 0)
        status, printed, said = self.replace(house, self.file("new.csv", new), keeps=keeps)
        self.assertEqual((status, said), (0, ""), (keeps, said))
        self.assertIn(f"replaced by {counts[1]:,}", printed)
        wanted = rows_of(expected.with_columns_as_tags(new, keeps))
        self.assertEqual(self.exported(house), wanted)
        # Again nothing changes, and an import of the same file finds no more than the posts that count.
        status, printed, said = self.replace(house, "new.csv", keeps=keeps)
        self.assertEqual((status, said), (0, ""))
        self.assertIn("billed 0.00", printed)
        self.assertEqual(self.exported(house), wanted)

    def test_posts_that_are_the_same(self):
        """A file that grew adds what came to it, under the same columns; under others all posts are new."""
        rng = random.Random(53)
        header = [*READ, "ServiceName"]
        first, more = (export_of_chance(rng, count, header) for count in (4_096, 10))
        grown = first + more.partition(b"\n")[2]
        self.assertEqual(self.house("house", self.file("first.csv", first), keeps=["ServiceName"])[0], 0)
        self.assertEqual(self.replace("house", self.file("grown.csv", grown), keeps=["ServiceName"])[0], 0)
        posts = self.focusd("dump", "--dir", "house")[1]
        self.assertEqual([line.split()[:1] for line in posts.splitlines() if line.startswith(("post ", "withdraw "))], [["post"], ["post"]])
        self.assertEqual(self.replace("house", "grown.csv", keeps=["ServiceName=service"])[0], 0)
        posts = self.focusd("dump", "--dir", "house")[1]
        self.assertEqual(len([line for line in posts.splitlines() if line.startswith("withdraw ")]), 2)
        self.assertEqual(self.exported("house"), rows_of(expected.with_columns_as_tags(grown, ["ServiceName=service"])))

    def test_faults(self):
        text = f"{Faults.HEADER}\n{Faults.ROW},,db\n"
        file, digest = self.file("good.csv", text), None
        self.assertEqual(self.house("house", file, keeps=["ServiceName"])[0], 0)
        digest = self.digest("house")
        bad = f'{Faults.HEADER}\n{Faults.ROW},"{{""service"":""x""}}",db\n'
        for content, keeps, fault in (
            (bad, ["ServiceName=service"], "V17 TagTwice"), (text, ["Region"], "H1 MissingColumn"), (f"{Faults.HEADER},ServiceName\n{Faults.ROW},,db,db\n", ["ServiceName"], "H2 DoubleColumn"),
            (f"{Faults.HEADER}\n{Faults.ROW},,{'x' * 1_025}\n", ["ServiceName"], "V13 TooLong"),
        ):  # fmt: skip
            status, printed, said = self.replace("house", self.file("bad.csv", content), keeps=keeps)
            self.assertEqual((status, printed), (1, ""), said)
            self.assertIn(fault, said)
            self.assertTrue(said.endswith("focusd: nothing was replaced\n"), said)
            self.assertEqual(self.digest("house"), digest)
        said = self.replace("house", self.file("bad.csv", bad), keeps=["ServiceName=service"])[2]
        self.assertIn("The record has the tag service, as which the column ServiceName is to be kept.", said)
        for keeps in (["=service"], ["ServiceName="], ["Tags"], ["A", "A"], [""]):
            status, printed, said = self.replace("house", file, keeps=keeps)
            self.assertEqual((status, printed), (2, ""), (keeps, said))
            self.assertTrue(said.startswith("focusd: --keep "), said)


def spelled_otherwise(rng, header, fields):
    """A record of the same row, some of whose fields are spelled otherwise."""
    fields = list(fields)
    for name in ("BilledCost", "EffectiveCost"):
        at = header.index(name)
        fields[at] = rng.choice([fields[at], "+" + fields[at], "0" + fields[at]]) if fields[at][0] in "0123456789" else fields[at]
    at = header.index("ChargePeriodEnd")
    fields[at] = rng.choice([fields[at], fields[at].replace(":00Z", ":00:00Z") if fields[at].count(":") == 1 else fields[at]])
    if "Tags" in header:
        at = header.index("Tags")
        pairs = list(json.loads(fields[at] or "{}").items())
        rng.shuffle(pairs)
        fields[at] = json.dumps(dict(pairs), ensure_ascii=rng.random() < 0.5) if pairs else rng.choice(["", "{}"])
    return fields


class Checks(Case):
    """Columns that are kept as tags where an export is checked, and rows that stand twice."""

    def check(self, file, *words, keeps=(), status=0):
        """What a check found, as JSON; what it printed as text begins and ends alike."""
        kept = [word for keep in keeps for word in ("--keep", keep)]
        ended, printed, said = self.focusd("check", "--quiet", "--format", "json", *kept, *words, file)
        self.assertEqual((ended, said), (status, ""), (file, said))
        return json.loads(printed)

    def text(self, file, keeps=()):
        kept = [word for keep in keeps for word in ("--keep", keep)]
        return self.focusd("check", "--quiet", *kept, file)[1]

    def test_values_by_chance(self):
        for seed in range(RUNS):
            with self.subTest(seed=seed):
                self.check_values(seed)

    def check_values(self, seed):
        rng = random.Random(2_000 + seed)
        header = [*READ, *OTHERS[: rng.randrange(1, 5)]]
        if rng.randrange(4) == 0:
            header.remove("Tags")
        rng.shuffle(header)
        text = export_of_chance(rng, rng.choice([1, 3, 40, 400, 9_000 if seed % 8 == 0 else 40]), header)
        keeps = keeps_of_chance(rng, header)
        with_tags = expected.with_columns_as_tags(text, keeps)
        file, other = self.file("kept.csv", text), self.file("tags.csv", with_tags)
        found, wanted = self.check(file, keeps=keeps), self.check(other)
        lines, counts = self.text(file, keeps).splitlines(), expected.values_of(text, keeps)
        shown = []
        for column, tag, values in counts:
            most = sorted(values.items(), key=lambda it: -it[1])
            shown.append({"column": column, "tag": tag, "rows": sum(values.values()), "values": len(values)})
            shown[-1]["mostFrequent"] = [{"value": value, "rows": count} for value, count in most[:10]]
            rows, number = sum(values.values()), len(values)
            at = [place for place, line in enumerate(lines) if line.startswith(f'kept "{column}" as "{tag}": ')]
            self.assertEqual([lines[it] for it in at], [f'kept "{column}" as "{tag}": {rows} row{"s"[: rows != 1]}, {number} value{"s"[: number != 1]}'])
            behind = [it for it in lines[at[0] + 1 : at[0] + 12] if it.startswith("  .. and ")]
            self.assertEqual(behind[:1], [f"  .. and {number - 10} more"] if number > 10 else behind[:1])
        self.assertEqual(found.pop("kept"), shown)
        # All else is what is found in the export that has the tags in its Tags.
        self.assertEqual(found | {"file": ""}, wanted | {"file": ""})

    def test_many_values(self):
        """Of many values the ten that most rows have; of those that as many have, the first."""
        rows = [f"{Faults.ROW},,v{place}" for place in range(30) for _ in range(1 + place % 3)]
        text = "\n".join([Faults.HEADER, *rows, ""])
        [kept] = self.check(self.file("many.csv", text), keeps=["ServiceName=service"])["kept"]
        self.assertEqual((kept["rows"], kept["values"]), (60, 30))
        self.assertEqual([(it["value"], it["rows"]) for it in kept["mostFrequent"]], [(f"v{place}", 3) for place in range(2, 30, 3)])
        printed = self.text("many.csv", ["ServiceName=service"])
        self.assertIn('kept "ServiceName" as "service": 60 rows, 30 values\n  "v2" 3\n  "v5" 3\n', printed)
        self.assertIn('  "v29" 3\n  .. and 20 more\n', printed)

    def test_faults(self):
        """What an import refuses is a fault, and no more."""
        tags = '"{""service"":""x""}"'
        long, number = "x" * 1_025, Faults.ROW
        text = f"{Faults.HEADER}\n{number},,db\n{number},{tags},db\n{number},{tags},\n{number},,{long}\n{number},,".encode() + b"\xff\n" + f"{number.replace('Usage', 'Use')},none,{long}\n".encode()
        file = self.file("bad.csv", text)
        found = self.check(file, keeps=["ServiceName=service"], status=1)
        faults = [(it["code"], it["column"], it["count"], it["places"][0]["record"]) for it in found["findings"]]
        wanted = [
            ("V17 TagTwice", "Tags", 1, 2), ("V13 TooLong", "ServiceName", 2, 4), ("V2 NotUtf8", "ServiceName", 1, 5), ("V3 Category", "ChargeCategory", 1, 6), ("V12 BadTags", "Tags", 1, 6),
        ]  # fmt: skip
        self.assertEqual(sorted(faults), sorted(wanted))
        self.assertEqual((found["records"], found["badRecords"], found["faults"], found["rows"]), (6, 4, 6, 2))
        self.assertEqual(found["kept"], [{"column": "ServiceName", "tag": "service", "rows": 2, "values": 2, "mostFrequent": [{"value": "db", "rows": 1}, {"value": "x", "rows": 1}]}])
        # Without the option the column isn't read.
        self.assertEqual([it["code"] for it in self.check(file, status=1)["findings"]], ["V3 Category", "V12 BadTags"])

    def test_headers(self):
        file = self.file("lacks.csv", f"{Faults.HEADER}\n{Faults.ROW},,db\n")
        found = self.check(file, keeps=["Region", "ServiceName", "Zone=zone"], status=1)
        self.assertEqual([(it["code"], it["column"]) for it in found["findings"]], [("H1 MissingColumn", "Region"), ("H1 MissingColumn", "Zone")])
        self.assertEqual((found["records"], found["faults"], found["kept"][1]["rows"]), (0, 2, 0))
        file = self.file("twice.csv", f"{Faults.HEADER},ServiceName\n{Faults.ROW},,db,db\n")
        self.assertEqual([(it["code"], it["column"]) for it in self.check(file, keeps=["ServiceName"], status=1)["findings"]], [("H2 DoubleColumn", "ServiceName")])
        self.check(file)

    def test_command_lines(self):
        name = self.file("good.csv", f"{Faults.HEADER}\n{Faults.ROW},,db\n")
        for keeps in (["=service"], ["ServiceName="], ["Tags"], ["A=b", "C=b"], [""], ["A=" + "x" * 1_025]):
            kept = [word for keep in keeps for word in ("--keep", keep)]
            status, printed, said = self.focusd("check", *kept, name)
            self.assertEqual((status, printed), (2, ""), (keeps, said))
            self.assertTrue(said.startswith("focusd: --keep "), said)

    def test_rows_that_stand_twice(self):
        for seed in range(RUNS):
            with self.subTest(seed=seed):
                self.check_repeats(seed)

    def check_repeats(self, seed):
        rng = random.Random(3_000 + seed)
        header = [*READ, "ServiceName"]
        rng.shuffle(header)
        text = export_of_chance(rng, rng.choice([1, 20, 400, 9_000 if seed % 8 == 0 else 40]), header)
        records = list(expected.records_of(text)[1])
        for _ in range(rng.choice([0, 1, 3, 30])):
            records.insert(rng.randrange(len(records) + 1), spelled_otherwise(rng, header, rng.choice(records)))
        keeps = ["ServiceName"] if rng.randrange(2) else []
        text = expected.csv_of(header, records)
        again = expected.rows_again(expected.with_columns_as_tags(text, keeps))
        found = self.check(self.file("twice.csv", text), keeps=keeps)
        self.assertEqual(found.get("repeatedRows", 0), len(again))
        self.assertEqual(found.get("firstRepeated", []), [{"record": number, "earlier": earlier} for number, earlier in again[:10]])
        printed = self.text("twice.csv", keeps)
        shown = [f"  record {number} is as record {earlier}" for number, earlier in again[:10]]
        if again:
            words = "row repeats" if len(again) == 1 else "rows repeat"
            shown = ["", f"warning: {len(again)} {words} an earlier row: all values that are read are the same", *shown]
        shown += [f"  .. and {len(again) - 10} more"] if len(again) > 10 else []
        self.assertEqual(printed.splitlines()[-len(shown) :] if again else [], shown)
        self.assertEqual("warning: " in printed, bool(again))

    def test_rows_with_faults_stand_twice_nowhere(self):
        """Only rows that break no rule are compared; an earlier file's rows aren't."""
        row, bad = f"{Faults.ROW},,db", f"{Faults.ROW.replace('USD', 'EUR')},,db"
        first, second = self.file("1.csv", "\n".join([Faults.HEADER, bad, row, bad, row, ""])), self.file("2.csv", f"{Faults.HEADER}\n{row}\n")
        status, printed, said = self.focusd("check", "--quiet", "--format", "json", first, second)
        self.assertEqual((status, said), (1, ""))
        found = [json.loads(line) for line in printed.splitlines()]
        self.assertEqual((found[0]["repeatedRows"], found[0]["firstRepeated"], "repeatedRows" in found[1]), (1, [{"record": 4, "earlier": 2}], False))


class Faults(Case):
    """What is refused."""

    HEADER = "BilledCost,EffectiveCost,BillingCurrency,ChargeCategory,ChargePeriodStart,ChargePeriodEnd,Tags,ServiceName"
    ROW = "1,1,USD,Usage,2024-09-01T00:00Z,2024-09-01T01:00Z"

    def refused(self, text, *keeps):
        """What an import that is refused says; nothing is made."""
        name = self.file("bad.csv", text)
        status, printed, said = self.house("bad", name, keeps=keeps)
        self.assertEqual((status, printed), (1, ""), said)
        self.assertEqual(list((self.top / "bad").iterdir()), [])
        return said

    def test_a_tag_that_is_there(self):
        tags = '"{""team"":""web""}"'
        said = self.refused(f'{self.HEADER}\n{self.ROW},{tags},\n{self.ROW},{tags},db\n{self.ROW},"{{""service"":""x""}}",db\n', "ServiceName=service", "BilledCost=cost")
        first, second, *_rest = said.splitlines()
        self.assertTrue(first.startswith('focusd: bad.csv:4: record 3, Tags: "{\\"service\\":\\"x\\"}": V17 TagTwice: expected '), said)
        self.assertEqual(second, "The record has the tag service, as which the column ServiceName is to be kept. --keep ServiceName=TAG names another tag.")
        # A record whose column is empty doesn't have it twice.
        self.assertEqual(self.house("good", self.file("good.csv", f"{self.HEADER}\n{self.ROW},{tags},\n"), keeps=["ServiceName=team"])[0], 0)

    def test_texts_that_are_too_long(self):
        for text, fault in (("x" * 1_024, None), ("x" * 1_025, "V13 TooLong"), ("é" * 512, None), ("é" * 513, "V13 TooLong")):
            name = self.file("long.csv", f"{self.HEADER}\n{self.ROW},,{text}\n")
            status, _printed, said = self.house(f"house{len(text)}", name, keeps=["ServiceName"])
            self.assertEqual((status, "V13 TooLong" in said), (1, True) if fault else (0, False), said)
        tags = json.dumps({f"k{it}": "v" for it in range(256)}).replace('"', '""')
        self.assertIn("V13 TooLong", self.refused(f'{self.HEADER}\n{self.ROW},"{tags}",db\n', "ServiceName"))

    def test_bytes_that_are_no_text(self):
        self.assertIn("V2 NotUtf8", self.refused(f"{self.HEADER}\n{self.ROW},,".encode() + b"\xff\n", "ServiceName"))
        # They are no fault of a column that isn't read.
        self.assertEqual(self.house("good", self.file("good.csv", f"{self.HEADER}\n{self.ROW},,".encode() + b"\xff\n"))[0], 0)

    def test_faults_of_other_columns(self):
        """A record with a fault has that fault, whatever is kept."""
        self.assertIn("V3 Category", self.refused(f"{self.HEADER}\n{self.ROW.replace('Usage', 'Use')},,db\n", "ServiceName"))
        self.assertIn("V12 BadTags", self.refused(f"{self.HEADER}\n{self.ROW},[],db\n", "ServiceName"))
        self.assertIn("V1 Fields", self.refused(f"{self.HEADER}\n{self.ROW},\n", "ServiceName"))

    def test_headers(self):
        said = self.refused(f"{self.HEADER}\n{self.ROW},,db\n", "ServiceName", "Region")
        self.assertTrue(said.startswith("focusd: bad.csv:1: the header, Region: H1 MissingColumn: expected a column of this name"), said)
        said = self.refused(f"{self.HEADER},ServiceName\n{self.ROW},,db,db\n", "ServiceName")
        self.assertTrue(said.startswith("focusd: bad.csv:1: the header, ServiceName: H2 DoubleColumn: expected one column of this name"), said)

    def test_command_lines(self):
        name = self.file("good.csv", f"{self.HEADER}\n{self.ROW},,db\n")
        for keeps in (["=service"], ["ServiceName="], ["Tags"], ["Tags=tags"], ["A=b", "C=b"], ["A", "A"], [""], ["A=" + "x" * 1_025]):
            status, printed, said = self.house("bad", name, keeps=keeps)
            self.assertEqual((status, printed), (2, ""), (keeps, said))
            self.assertTrue(said.startswith("focusd: --keep "), said)
            self.assertEqual(list((self.top / "bad").iterdir()), [])


if __name__ == "__main__":
    run_tests(__doc__, RUNS="how many exports by chance")
