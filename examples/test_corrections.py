#!/usr/bin/env python3
"""Runs the commands that correct what was posted: `focusd withdraw`, `focusd replace` and `focusd compact` of a built program.

    examples/test_corrections.py out/focusd

What must be in the warehouse afterwards is said by other means: a warehouse that was sent the rows that count and no others, and sums made here.
"""
import decimal
import random
import re
import subprocess

from program_tests import HERE, Case, program, run_tests

HEADER = "BilledCost,EffectiveCost,BillingCurrency,ChargeCategory,ChargePeriodStart,ChargePeriodEnd,ConsumedQuantity,ConsumedUnit,SkuId,SubAccountId,Tags\n"
MONTHS = ("--from", "2024-09", "--to", "2024-11")
# The most rows of a post.
MOST_ROWS = 4096
# What a report says where no row has its tag.
NO_TAG = r"focusd: no row and no commitment of the range has the tag team; the tags there are: none\n"
COMMITMENT = """id = "cd-1"
category = "Usage"
start = "2024-09-01T00:00Z"
hours = 24
capacity = "2"
unit = "Hours"
skus = ["vm"]
[[purchase]]
at = "2024-09-01T00:00Z"
billed = "14.4"
"""


def record(hour, cost, month=9, team="web"):
    """A record of an export: an hour of use."""
    start = f"2024-{month:02}-{hour // 24 + 1:02}T{hour % 24:02}:00Z"
    end = f"2024-{month:02}-{(hour + 1) // 24 + 1:02}T{(hour + 1) % 24:02}:00Z"
    return f'{cost},{cost},USD,Usage,{start},{end},1,Hours,vm,a,"{{""team"":""{team}""}}"\n'


def export(count, seed=0, month=9):
    """The records of an export."""
    dice = random.Random(seed)
    return [record(dice.randrange(24 * 20), f"{dice.randrange(10**5)}.{dice.randrange(10**9):09}", month, dice.choice(["web", "data"])) for _ in range(count)]


def billed(records):
    """What records cost, exactly."""
    return sum((decimal.Decimal(it.split(",", 1)[0]) for it in records), decimal.Decimal(0))


def cents(amount):
    """A difference of costs as it is printed, with its sign."""
    rounded = amount.quantize(decimal.Decimal("0.01"), rounding=decimal.ROUND_HALF_EVEN) + 0
    return f"{rounded:+,}" if rounded else "0.00"


class Corrections(Case):
    """A folder with a warehouse, and what is asked of it."""

    def setUp(self):
        super().setUp()
        self.folder = self.new_folder("costs")

    def new_folder(self, name):
        """A folder with a new warehouse."""
        folder = super().new_folder(name)
        self.assertEqual(self.focusd("run", folder, "--create")[0], 0)
        return folder

    def focusd(self, command, folder, *words, given=""):
        """The status, standard output and standard error of a run over a warehouse."""
        return super().focusd(command, "--dir", folder, *words, given=given)

    def file(self, name, records):
        """The path of an export of these records."""
        return str(self.top / super().file(name, HEADER + "".join(records)))

    def do(self, command, *words, folder=None, given=""):
        """What a run over a warehouse prints that ends well. It says nothing else."""
        return super().do(command, folder or self.folder, *words, given=given)

    def fails(self, said, command, *words, status=1, folder=None):
        """A run that says this on standard error and changes nothing."""
        folder = folder or self.folder
        before = self.kept(folder)
        found = self.focusd(command, folder, *words)
        self.assertEqual(found[0], status, found)
        self.assertIn(said, found[2])
        self.assertEqual(self.kept(folder), before)
        return found

    def kept(self, folder=None):
        return {it.name: it.read_bytes() for it in (folder or self.folder).iterdir()}

    def imported(self, origin, records, folder=None):
        # That another origin has rows of the same hours is said, and no fault.
        found = self.focusd("import", folder or self.folder, "--origin", origin, "--quiet", self.file(f"{origin}.csv", records))
        self.assertEqual(found[0], 0, found)

    def answers(self, folder=None):
        """All reports and lists that are asked of a warehouse here."""
        words = [
            ("report", "--tag", "team", *MONTHS, "--format", "csv"),
            ("report", "--tag", "team", *MONTHS, "--by", "day", "--format", "csv"),
            ("lines", *MONTHS),
            ("coverage", *MONTHS, "--format", "csv"),
        ]
        return [self.asked(command, *rest, folder=folder) for command, *rest in words]

    def asked(self, command, *words, folder=None):
        """The answer to a question. Where no row of the range has the tag, a line says so."""
        status, printed, said = self.focusd(command, folder or self.folder, *words)
        self.assertEqual((status, re.sub(NO_TAG, "", said)), (0, ""), printed)
        return printed, said

    def has_just(self, *sent, commitment=False):
        """The warehouse answers as one that was sent these exports alone, in this order."""
        other = self.top / "other"
        number = len(list(self.top.glob("other*")))
        other = self.new_folder(f"other{number}")
        if commitment:
            self.do("add", "--origin", "terms", self.commitment(), folder=other)
        for place, records in enumerate(sent):
            self.imported(f"part-{place}", records, other)
        self.assertEqual(self.answers(), self.answers(other))

    def commitment(self):
        path = self.top / "cd-1.toml"
        path.write_text(COMMITMENT, encoding="utf-8")
        return str(path)

    def entries(self):
        """How many entries the warehouse has."""
        return int(re.search(r"^Entries +([\d,]+)$", self.do("status"), re.M)[1].replace(",", ""))


class WithdrawnByScript(Corrections):
    """Many posts of one long segment, which are withdrawn one by one while reports are asked for."""

    REPORT = "report team 2024-09-01T00:00:00Z 2024-10-01T00:00:00Z\n"
    # Between two reports are few withdrawals, or more than are noted one by one.
    GONE_AT_REPORTS = (1, 2, 65, 66, 131, 140)

    def post(self, number, records):
        return f"post small {number} {len(records) + 1}\n{HEADER}{''.join(records)}"

    def reports(self, script, folder=None):
        """The reports that a script prints. Every entry is accepted."""
        lines = self.do("run", given=script, folder=folder).splitlines()
        self.assertEqual([it for it in lines if it.startswith(("already", "gap", "refused", "store"))], [])
        return [it for it in lines if not it.startswith(("accepted", "checkpointed"))]

    def of_others(self, posts, gone):
        """The report of a warehouse that was sent the other posts alone."""
        left = [records for number, records in posts.items() if number not in gone]
        script = "".join(self.post(number, records) for number, records in enumerate(left, 1))
        return self.reports(script + self.REPORT, self.new_folder(f"without-{len(gone)}"))

    def test_one_after_the_other(self):
        dice = random.Random(11)
        posts = {number: export(dice.randrange(1, 4), number) for number in range(1, 151)}
        order = dice.sample(sorted(posts), max(self.GONE_AT_REPORTS))
        script, expected = "".join(self.post(number, records) for number, records in posts.items()) + "checkpoint\n", []
        for place, number in enumerate(order, 1):
            script += f"withdraw small {len(posts) + place} {number}\n"
            if place in self.GONE_AT_REPORTS:
                script += self.REPORT
                last = self.of_others(posts, order[:place])
                expected += last
        self.assertEqual(self.reports(script), expected)
        # Opened again, and once more from a checkpoint.
        self.assertEqual(self.reports(self.REPORT), last)
        self.assertEqual(self.reports("checkpoint\n" + self.REPORT), last)

    def test_none_twice(self):
        posts = {number: export(2, number) for number in range(1, 101)}
        script = "".join(self.post(number, records) for number, records in posts.items()) + "checkpoint\n"
        script += "".join(f"withdraw small {100 + number} {number}\n" for number in range(1, 81))
        script += "".join(f"withdraw small 181 {number}\n" for number in range(1, 101))
        answers = self.do("run", given=script).splitlines()[181:]
        self.assertEqual(answers, ["refused J7 Withdrawn"] * 80 + ["accepted 181"] + ["already 181"] * 19)


class Withdrawals(Corrections):
    def setUp(self):
        super().setUp()
        self.first, self.second = export(30, 1), export(20, 2, month=10)
        self.imported("aws", self.first + [])
        self.do("import", "--origin", "aws", self.file("aws.csv", self.first), self.file("more.csv", self.second))
        self.other = export(10, 3)
        self.imported("gcp", self.other)

    def test_all(self):
        self.assertEqual(self.do("withdraw", "--origin", "aws", "--all", "--yes").splitlines()[-1], "withdrawn: 2 posts, 50 rows")
        self.has_just(self.other)
        self.assertEqual(self.do("withdraw", "--origin", "aws", "--all", "--yes"), "no post is left to withdraw\n")

    def test_the_list_of_posts(self):
        printed = self.do("withdraw", "--origin", "aws", "--all", "--dry-run")
        lines = printed.splitlines()
        self.assertEqual(lines[0].split(), ["Post", "Rows", "Hours", "Billed"])
        for line, number, records in ((lines[2], 1, self.first), (lines[3], 2, self.second)):
            cells = line.split()
            self.assertEqual(cells[:2], [str(number), str(len(records))])
            self.assertEqual(cells[-1], cents(billed(records)).lstrip("+"))
            hours = sorted(it.split(",")[4] for it in records)
            self.assertEqual(cells[2:5], [hours[0], "to", hours[-1]])
        self.has_just(self.first, self.second, self.other)

    def test_one_by_its_number(self):
        self.assertTrue(self.do("withdraw", "--origin", "aws", "--seq", "2", "--yes").endswith("withdrawn: 1 post, 20 rows\n"))
        self.has_just(self.first, self.other)
        self.assertEqual(self.do("withdraw", "--origin", "aws", "--seq", "2", "--yes"), "no post is left to withdraw\n")
        self.fails("aws has no post 9", "withdraw", "--origin", "aws", "--seq", "9", "--yes")
        # Entry 3 is the withdrawal.
        self.fails("aws has no post 3", "withdraw", "--origin", "aws", "--seq", "3", "--yes")

    def test_those_of_a_range(self):
        self.do("withdraw", "--origin", "aws", "--from", "2024-10", "--to", "2024-11", "--yes")
        self.has_just(self.first, self.other)

    def test_a_post_across_the_end_of_a_range(self):
        self.fails("post 1 of aws has rows of", "withdraw", "--origin", "aws", "--from", "2024-09-01", "--to", "2024-09-02", "--yes")

    def test_nobody_says_yes(self):
        self.fails("say --yes", "withdraw", "--origin", "aws", "--all", status=2)

    def test_wrong_words(self):
        for words, said in (
            ((), "say which posts"),
            (("--all", "--seq", "1"), "say which posts"),
            (("--seq", "0"), "--seq"),
            (("--seq", "x"), "--seq"),
            (("--from", "2024-09"), "both --from and --to"),
            (("--from", "2024-09", "--to", "soon"), "--to"),
        ):
            self.fails(said, "withdraw", "--origin", "aws", *words, status=2)
        self.fails("--origin", "withdraw", "--origin", "a b", "--all", status=2)

    def test_a_folder_without_a_warehouse(self):
        empty = self.top / "empty"
        empty.mkdir()
        self.fails("S1 NoHouse", "withdraw", "--origin", "aws", "--all", "--yes", folder=empty)
        self.assertEqual(list(empty.iterdir()), [])

    def test_a_terminal_is_asked(self):
        script = f"{program()} withdraw --dir {self.folder} --origin aws --all"
        for answer, status in (("n", 1), ("", 1), ("y", 0)):
            before = self.kept()
            ran = subprocess.run(["script", "-qec", script, "/dev/null"], input=f"{answer}\n".encode(), capture_output=True)
            self.assertEqual(ran.returncode, status, ran)
            self.assertIn(b"[y/N]", ran.stdout)
            self.assertEqual(self.kept() == before, status != 0)
        self.has_just(self.other)


class Replacements(Corrections):
    def replaced(self, printed, before, after, more=""):
        """What was printed of rows that were replaced by others."""
        change = cents(billed(after) - billed(before))
        word = "row" if len(before) == 1 else "rows"
        self.assertEqual(printed, f"{len(before):,} {word} replaced by {len(after):,}; billed {change}; effective {more or change}\n")

    def test_a_month_that_was_sent_again(self):
        first, again = export(50, 1), export(60, 2)
        self.imported("aws", first)
        self.replaced(self.do("replace", "--origin", "aws", self.file("again.csv", again)), first, again)
        self.has_just(again)
        self.assertEqual(self.entries(), 3)

    def test_the_same_again_changes_nothing(self):
        first = export(50, 1)
        self.imported("aws", first)
        before = self.kept()
        self.replaced(self.do("replace", "--origin", "aws", self.file("again.csv", first)), first, first)
        self.assertEqual(self.kept(), before)

    def test_a_file_that_grew(self):
        first = export(2 * MOST_ROWS + 10, 1)
        self.imported("aws", first)
        grown = first + export(100, 2)
        self.replaced(self.do("replace", "--origin", "aws", self.file("again.csv", grown)), first, grown)
        # The two posts that are full stay; the third one is withdrawn, and sent with what came to it.
        self.assertEqual(self.entries(), 5)
        self.has_just(grown)

    def test_a_first_time(self):
        records = export(20, 1)
        self.replaced(self.do("replace", "--origin", "aws", self.file("first.csv", records)), [], records)
        self.has_just(records)

    def test_a_range_of_one_origin(self):
        september, october, again = export(30, 1), export(20, 2, month=10), export(25, 3)
        self.do("import", "--origin", "aws", self.file("a.csv", september), self.file("b.csv", october))
        printed = self.do("replace", "--origin", "aws", "--from", "2024-09", "--to", "2024-10", self.file("again.csv", again))
        self.replaced(printed, september, again)
        self.has_just(october, again)
        # Rows outside of the range are named, and nothing is done.
        self.fails(
            "R5 Outside: the files have rows outside of the range", "replace", "--origin", "aws", "--from", "2024-09", "--to", "2024-10", self.file("wrong.csv", again + october)
        )
        # A post that has rows on both sides of a range's end.
        ends = sorted(it.split(",")[4] for it in october)
        one = self.file("one.csv", [record(24 * 19, "1", 10)])
        self.fails("post 2 of aws has rows of", "replace", "--origin", "aws", "--from", ends[10], "--to", "2024-11-01", one)

    def test_other_origins_stay(self):
        first, other, again = export(30, 1), export(20, 2), export(25, 3)
        self.imported("aws", first)
        self.imported("gcp", other)
        self.do("replace", "--origin", "aws", self.file("again.csv", again))
        self.has_just(other, again)

    def test_under_a_commitment(self):
        # The commitment covers two hours of use in each hour. What it covers costs its share of the purchase, and the rest what it cost.
        first, again = [record(1, "5")] * 3, [record(1, "5")] * 4
        self.do("add", "--origin", "terms", self.commitment())
        self.imported("aws", first)
        printed = self.do("replace", "--origin", "aws", self.file("again.csv", again))
        self.assertEqual(printed, "3 rows replaced by 4; billed +5.00; effective +5.00\n")
        self.has_just(again, commitment=True)

    def test_a_dry_run(self):
        first, again = export(50, 1), export(60, 2)
        self.imported("aws", first)
        before = self.kept()
        self.replaced(self.do("replace", "--origin", "aws", "--dry-run", self.file("again.csv", again)), first, again)
        self.assertEqual(self.kept(), before)

    def test_a_file_with_a_fault(self):
        self.imported("aws", export(5, 1))
        wrong = [*export(3, 2), record(1, "x")]
        found = self.fails("wrong.csv:5: record 4, BilledCost", "replace", "--origin", "aws", self.file("wrong.csv", wrong))
        self.assertIn("nothing was replaced", found[2])
        self.fails("no/where.csv", "replace", "--origin", "aws", "no/where.csv")

    def test_rows_that_carry_the_id_of_a_commitment(self):
        self.do("add", "--origin", "terms", self.commitment())
        self.imported("aws", export(5, 1))
        path = self.top / "wrong.csv"
        path.write_text(HEADER.strip() + ",CommitmentDiscountId,CommitmentDiscountCategory,CommitmentDiscountStatus\n" + record(1, "1").strip() + ",cd-1,Usage,Used\n", encoding="utf-8")
        self.fails("J4", "replace", "--origin", "aws", str(path))

    def test_standard_input(self):
        first, again = export(5, 1), export(6, 2)
        self.imported("aws", first)
        self.replaced(self.do("replace", "--origin", "aws", "-", given=HEADER + "".join(again)), first, again)

    def test_many_posts(self):
        """More than fits into one group, also of withdrawals alone."""
        first, again = export(70 * 3, 1), export(40, 2)
        files = [self.file(f"{place}.csv", first[at : at + 3]) for place, at in enumerate(range(0, len(first), 3))]
        self.do("import", "--origin", "aws", *files)
        self.replaced(self.do("replace", "--origin", "aws", self.file("again.csv", again)), first, again)
        self.has_just(again)
        self.assertNotIn("replacing", self.kept())

    def test_an_unfinished_one_is_said(self):
        records = export(5, 1)
        self.imported("aws", records)
        (self.folder / "replacing").write_text("aws\n", encoding="utf-8")
        for command, *words in (("status",), ("report", "--tag", "team", *MONTHS)):
            status, printed, said = self.focusd(command, self.folder, *words)
            self.assertEqual(status, 0)
            self.assertIn("focusd replace --dir", said)
            self.assertIn("--origin aws", said)
        self.fails("R6 Unfinished: ", "replace", "--origin", "gcp", self.file("g.csv", records))
        self.do("replace", "--origin", "aws", self.file("again.csv", records))
        self.assertNotIn("replacing", self.kept())
        # One that was not written whole was never begun.
        (self.folder / "replacing").write_text("aw", encoding="utf-8")
        self.do("status")

    def test_a_side_of_the_first_form(self):
        folder = self.top / "old"
        volume = HERE / "volumes"
        made = [it for it in sorted(volume.iterdir()) if it.is_dir() and (it / "left").exists()]
        for source in made:
            with self.subTest(source=source.name):
                folder = self.top / source.name
                folder.mkdir()
                for name in ("left", "right"):
                    if (source / name).exists():
                        (folder / name).write_bytes((source / name).read_bytes())
                if (folder / "left").read_bytes()[1:9] != b"FWHOUSE1":
                    continue
                origin = re.search(r"^  of (\S+) ", self.focusd("status", folder)[1], re.M)
                if origin is None:
                    continue
                status, _, said = self.focusd("withdraw", folder, "--origin", origin[1], "--all", "--yes")
                if status == 0:
                    continue
                self.assertIn("S8 OldSide", said)
                self.assertEqual(self.focusd("checkpoint", folder)[0], 0)
                self.assertEqual(self.focusd("withdraw", folder, "--origin", origin[1], "--all", "--yes")[0], 0)


class Compactions(Corrections):
    def test_the_same_answers(self):
        first, again, other = export(50, 1), export(60, 2), export(10, 3, month=10)
        self.do("add", "--origin", "terms", self.commitment())
        self.imported("aws", first)
        self.do("import", "--origin", "gcp", self.file("gcp.csv", other))
        self.do("replace", "--origin", "aws", self.file("again.csv", again))
        new = self.top / "new"
        printed = self.do("compact", "--into", str(new))
        self.assertEqual(printed, "kept 3 of 5 entries, 70 of 120 rows\n")
        self.assertEqual(self.answers(new), self.answers())
        status = self.do("status", folder=new)
        self.assertNotIn("Withdrawn", status)
        self.assertRegex(status, r"(?m)^Rows +70 of 4,194,304$")
        # An import of the same file is known again, since the origin's numbers begin at 1.
        self.assertIn("60 were there already", self.do("import", "--origin", "aws", self.file("again.csv", again), folder=new))

    def test_an_empty_warehouse(self):
        new = self.top / "new"
        self.assertEqual(self.do("compact", "--into", str(new)), "kept 0 of 0 entries, 0 of 0 rows\n")
        self.assertEqual(self.answers(new), self.answers())

    def test_a_folder_that_has_a_warehouse(self):
        other = self.new_folder("other")
        self.imported("aws", export(5, 1))
        before = self.kept(other)
        self.fails("S7 Exists", "compact", "--into", str(other))
        self.assertEqual(self.kept(other), before)

    def test_many_posts(self):
        records = export(200, 1)
        files = [self.file(f"{place}.csv", records[at : at + 2]) for place, at in enumerate(range(0, len(records), 2))]
        self.do("import", "--origin", "aws", *files)
        self.do("withdraw", "--origin", "aws", "--seq", "7", "--yes")
        new = self.top / "new"
        self.assertEqual(self.do("compact", "--into", str(new)), "kept 99 of 101 entries, 198 of 200 rows\n")
        self.assertEqual(self.answers(new), self.answers())


if __name__ == "__main__":
    run_tests(__doc__)
