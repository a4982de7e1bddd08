#!/usr/bin/env python3
"""Tests of the examples: that each kept file is what its program makes, and that the answers are right."""
import csv
import datetime
import decimal
import io
import os
import re
import shutil
import subprocess
import sys
import tempfile
import unittest
from unittest import mock

import expected

HERE = os.path.dirname(os.path.abspath(__file__))
sys.path.append(os.path.join(os.path.dirname(HERE), "tools"))
from command_line import run_tests  # noqa: E402

FILES = [
    "focus-export.csv",
    *(f"{name}.{kind}" for name in ("first-report", "providers", "commitments") for kind in ("script", "expected")),
    "dialects/gcp.csv",
    *(f"providers/{name}.csv" for name in ("amazon", "microsoft", "google", "oracle")),
]


def read(*path):
    with open(os.path.join(*path), "rb") as file:
        return file.read()


def answers_to(script):
    return subprocess.run([sys.executable, os.path.join(HERE, "expected.py")], input=script, capture_output=True)


class Example(unittest.TestCase):
    COMMITMENT = (
        b'commit a 1 10\nid = "c"\ncategory = "Usage"\nstart = "2024-01-01T00:00Z"\nhours = 3\ncapacity = "2"\nunit = "Hours"\n'
        b'skus = ["vm"]\n[[purchase]]\nat = "2024-01-01T00:00Z"\nbilled = "1e-8"\n'
    )

    def test_the_kept_files_are_what_their_programs_make(self):
        with tempfile.TemporaryDirectory() as folder:
            for part in ["examples", "tools"]:
                shutil.copytree(os.path.join(HERE, "..", part), os.path.join(folder, part))
            for name in FILES:
                os.remove(os.path.join(folder, "examples", name))
            subprocess.run(["sh", os.path.join(folder, "examples", "remake")], check=True)
            for name in FILES:
                with self.subTest(name=name):
                    self.assertEqual(read(HERE, name), read(folder, "examples", name))

    def test_the_export_has_what_it_is_to_show(self):
        """All 43 columns, every category, and costs of each spelling."""
        with open(os.path.join(HERE, "focus-export.csv"), newline="", encoding="utf-8-sig") as file:
            rows = list(csv.DictReader(file, strict=True))
        self.assertEqual({len(row) for row in rows}, {43})
        self.assertEqual({row["ChargeCategory"] for row in rows}, {"Usage", "Purchase", "Tax", "Credit", "Adjustment"})
        costs = [row[column] for row in rows for column in ("BilledCost", "EffectiveCost")]
        decimals = {len(cost.partition(".")[2]) for cost in costs if "E" not in cost}
        self.assertLessEqual(set(range(1, 13)), decimals)
        self.assertTrue(any("E-" in cost for cost in costs))
        self.assertTrue(any(cost.startswith("-") for cost in costs))
        # Amounts that lie exactly between two nanos, above an even and above an odd one.
        ends = {decimal.Decimal(cost) * 10**9 % 2 for cost in costs}
        self.assertLessEqual({decimal.Decimal("0.5"), decimal.Decimal("1.5")}, ends)
        self.assertTrue(any("\n" in row["ChargeDescription"] for row in rows))
        self.assertTrue(any('"' in row["ChargeDescription"] and "," in row["ChargeDescription"] for row in rows))

    def test_the_oracle_on_sums_done_by_hand(self):
        """Ties go to the even nano, an exponent moves the point, and the hour after the last one isn't counted."""
        script = (
            b"post a 1 6\n"
            b"BilledCost,EffectiveCost,BillingCurrency,ChargeCategory,ChargePeriodStart,ChargePeriodEnd\n"
            b"0.0000000005,1,USD,Usage,2024-01-01T00:00:00Z,2024-01-01T01:00:00Z\n"
            b"0.0000000015,.5,USD,Usage,2024-01-01T00:59:59Z,2024-01-01T01:00:00Z\n"
            b"-0.0000000025,1e-9,USD,Credit,2024-01-01T00:00:00Z,2024-02-01T00:00:00Z\n"
            b"1.2E-05,-0,USD,Tax,2024-01-01T01:00:00Z,2024-01-01T02:00:00Z\n"
            b"7,7,USD,Usage,2024-01-01T02:00:00Z,2024-01-01T03:00:00Z\n"
            b"report team 2024-01-01T00:00Z 2024-01-01T02:00Z\n"
        )
        ran = answers_to(script)
        # 0 + 2 - 2 + 12,000 nanos; 1 + 0.5 units and 1 nano.
        wanted = "Group,BilledCost,EffectiveCost,ChargedCost\n,0.000012000,1.500000001,1.500000001\n"
        self.assertEqual((ran.returncode, ran.stdout.decode()), (0, f"accepted 1\nbytes {len(wanted)}\n{wanted}"))

    def test_the_oracle_on_shares_done_by_hand(self):
        """Ten nanos over three hours are 3, 3 and 4. In the first hour two rows of 1 and 0.5 hours and an unused half share 3."""
        script = (
            b'commit a 1 10\nid = "c"\ncategory = "Usage"\nstart = "2024-01-01T00:00Z"\nhours = 3\ncapacity = "2"\nunit = "Hours"\n'
            b'skus = ["vm"]\n[[purchase]]\nat = "2024-01-01T00:00Z"\nbilled = "1e-8"\n'
            b"post a 2 3\n"
            b"BilledCost,EffectiveCost,BillingCurrency,ChargeCategory,ChargePeriodStart,ChargePeriodEnd,ConsumedQuantity,ConsumedUnit,SkuId,Tags\n"
            b'9,9,USD,Usage,2024-01-01T00:00Z,2024-01-01T01:00Z,1,Hours,vm,"{""team"":""web""}"\n'
            b'9,9,USD,Usage,2024-01-01T00:00Z,2024-01-01T01:00Z,0.5,Hours,vm,"{""team"":true}"\n'
            b'policy a 3 4\nkey = "team"\n[[rule]]\nfrom = ""\nto = { web = 3, lab = 1 }\n'
            b"report team 2024-01-01T00:00Z 2024-01-01T03:00Z\n"
        )
        ran = answers_to(script)
        # The group without a team keeps what nothing used, 1 + 3 + 4 nanos, and gives them away as 6 and 2.
        wanted = (
            "Group,BilledCost,EffectiveCost,ChargedCost\n,0.000000010,0.000000008,0.000000000\nlab,0.000000000,0.000000000,0.000000002\n"
            "true,0.000000000,0.000000001,0.000000001\nweb,0.000000000,0.000000001,0.000000007\n"
        )
        answers = "accepted 1\naccepted 2\naccepted 3\n"
        self.assertEqual((ran.returncode, ran.stdout.decode()), (0, f"{answers}bytes {len(wanted)}\n{wanted}"))

    @staticmethod
    def added(number, name, at, billed):
        """The command that adds a purchase to a commitment."""
        return f'add a {number} 3\nid = "{name}"\nat = "{at}"\nbilled = "{billed}"\n'.encode()

    def test_the_oracle_on_an_added_purchase_done_by_hand(self):
        """Ten nanos over three hours are 3, 3 and 4, and thirteen are 4, 4 and 5: what is paid in the last hour changes those before it too. It is
        given twice, and counts once."""
        once = self.added(2, "c", "2024-01-01T02:59:59Z", "0.000000003")
        lines = b"lines 2024-01-01T00:00Z 2024-01-01T03:00Z\n"
        ran = answers_to(self.COMMITMENT + lines + once + once + lines + b"state\n")
        header = (
            "Hour,ChargeCategory,CommitmentDiscountId,CommitmentDiscountCategory,CommitmentDiscountStatus,BilledCost,EffectiveCost,"
            "ConsumedQuantity,SkuId,SubAccountId\n"
        )
        paid, unused = "{},Purchase,c,Usage,,0.0000000{:02},0.000000000,,,\n", "{},Usage,c,Usage,Unused,0.000000000,0.00000000{},,,\n"
        first = header + paid.format(473352, 10) + unused.format(473352, 3) + unused.format(473353, 3) + unused.format(473354, 4)
        then = header + paid.format(473352, 10) + unused.format(473352, 4) + unused.format(473353, 4) + paid.format(473354, 3) + unused.format(473354, 5)
        wanted = f"accepted 1\nbytes {len(first)}\n{first}accepted 2\nalready 2\nbytes {len(then)}\n{then}state 2 0 1 0\n"
        self.assertEqual((ran.returncode, ran.stdout.decode()), (0, wanted))

    def test_the_oracle_refuses_a_purchase(self):
        name, at, billed = 'id = "c"', 'at = "2024-01-01T00:00Z"', 'billed = "1"'
        for lines, answer in (
            ([name, at, billed], "accepted 2"),
            ([name, at, 'billed = "99999999.99999999"'], "accepted 2"),
            ([name, at, 'billed = "99999999.999999991"'], "refused J9 PurchaseLimit"),
            (['id = "d"', at, billed], "refused J8 NoSuchCommitment"),
            ([at, billed], "refused C2 Field id"),
            (['id = ""', at, billed], "refused C3 Limit id"),
            ([name, 'at = "1969-12-31T23:59Z"', billed], "refused C2 Field at"),
            ([name, at, 'billed = "100000000.1"'], "refused C2 Field billed"),
            ([name, at, 'billed = "-1"', "hours = 3"], "refused C3 Limit billed"),
            ([name, at, billed, "hours = 3"], "refused C2 Field unknown"),
        ):
            with self.subTest(lines=lines):
                ran = answers_to(self.COMMITMENT + f"add a 2 {len(lines)}\n".encode() + "".join(f"{line}\n" for line in lines).encode())
                self.assertEqual((ran.returncode, ran.stdout.decode()), (0, f"accepted 1\n{answer}\n"))

    def test_the_oracle_keeps_to_64_purchases(self):
        script = self.COMMITMENT + b"".join(self.added(number, "c", "2024-01-01T00:00Z", "0") for number in range(2, 66))
        wanted = "".join(f"accepted {number}\n" for number in range(1, 65)) + "refused J9 PurchaseLimit\n"
        self.assertEqual(answers_to(script).stdout.decode(), wanted)

    HEADER = b"BilledCost,EffectiveCost,BillingCurrency,ChargeCategory,ChargePeriodStart,ChargePeriodEnd,ConsumedQuantity,ConsumedUnit,SkuId,Tags\n"
    ROW = b'9,9,USD,Usage,2024-01-01T00:00Z,2024-01-01T01:00Z,%s,Hours,vm,"{""team"":""%s""}"\n'

    def test_the_oracle_on_a_withdrawn_post_done_by_hand(self):
        """The first of ten nanos' three hours carries 3. A row of 1.5 hours is covered whole, and gets 2 of them, and one of an hour is covered by
        the half that is left, and gets 1. Without the first the other is covered whole, and shares the 3 with as much that is unused: 1.5 each,
        of which the first place gets the odd one. Sent again it comes last, and is covered by half of its quantity."""
        report = b"report team 2024-01-01T00:00Z 2024-01-01T01:00Z\n"
        first, second = self.ROW % (b"1.5", b"web"), self.ROW % (b"1", b"lab")
        script = self.COMMITMENT + b"post a 2 2\n" + self.HEADER + first + b"post b 1 2\n" + self.HEADER + second + report
        script += b"withdraw a 3 2\n" + report + b"state\n" + b"post a 4 2\n" + self.HEADER + first + report + b"state\n"
        header = "Group,BilledCost,EffectiveCost,ChargedCost\n"
        whole = f"{header},0.000000010,0.000000000,0.000000000\nlab,4.500000000,4.500000001,4.500000001\nweb,0.000000000,0.000000002,0.000000002\n"
        without = f"{header},0.000000010,0.000000001,0.000000001\nlab,0.000000000,0.000000002,0.000000002\n"
        again = f"{header},0.000000010,0.000000000,0.000000000\nlab,0.000000000,0.000000002,0.000000002\nweb,3.000000000,3.000000001,3.000000001\n"
        wanted = f"accepted 1\naccepted 2\naccepted 3\nbytes {len(whole)}\n{whole}accepted 4\nbytes {len(without)}\n{without}state 4 1 1 0\n"
        wanted += f"accepted 5\nbytes {len(again)}\n{again}state 5 2 1 0\n"
        ran = answers_to(script)
        self.assertEqual((ran.returncode, ran.stdout.decode()), (0, wanted))

    def test_the_oracle_refuses_a_withdrawal(self):
        script = self.COMMITMENT + b"post a 2 2\n" + self.HEADER + self.ROW % (b"1", b"web") + b"withdraw a 3 2\n"
        for line, answer in (
            (b"withdraw a 4 1", "refused J6 NoSuchPost"),
            (b"withdraw a 4 2", "refused J7 Withdrawn"),
            (b"withdraw a 4 0000002", "refused J7 Withdrawn"),
            (b"withdraw a 4 3", "refused J6 NoSuchPost"),
            (b"withdraw a 4 4", "refused J6 NoSuchPost"),
            (b"withdraw b 1 2", "refused J6 NoSuchPost"),
            (b"withdraw a 3 9", "already 3"),
            (b"withdraw a 5 2", "gap 4"),
            (b"withdraw a/b 1 1", "refused E1 Origin"),
            (b"withdraw a 0 1", "refused E2 Seq"),
            (b"withdraw a x 1", "refused E2 Seq"),
            (b"withdraw a/b x 0", "bad command"),
            (b"withdraw a 4 18446744073709551615", "refused J6 NoSuchPost"),
            (b"withdraw a 4 18446744073709551616", "bad command"),
            (b"withdraw a 4 +2", "bad command"),
            (b"withdraw a 4", "bad command"),
            (b"withdraw a 4 2 0", "bad command"),
        ):
            with self.subTest(line=line):
                ran = answers_to(script + line + b"\n")
                self.assertEqual((ran.returncode, ran.stdout.decode()), (0, f"accepted 1\naccepted 2\naccepted 3\n{answer}\n"))

    def test_a_withdrawn_post_holds_no_id_and_still_its_room(self):
        """An id that a withdrawn row carries may be committed to, and its rows count among the most that there may be."""
        carrying = (
            b"post p 1 2\nBilledCost,EffectiveCost,BillingCurrency,ChargeCategory,ChargePeriodStart,ChargePeriodEnd,CommitmentDiscountId,"
            b"CommitmentDiscountCategory,CommitmentDiscountStatus\n0,1,USD,Usage,2024-01-01T00:00Z,2024-01-01T01:00Z,c,Usage,Used\n"
        )
        script = carrying + self.COMMITMENT + b"withdraw p 2 1\n" + self.COMMITMENT + carrying.replace(b"p 1", b"p 3") + b"state\n"
        wanted = "accepted 1\nrefused J3 IdInUse\naccepted 2\naccepted 3\nrefused J4 OwnCommitment\nstate 3 0 1 0\n"
        self.assertEqual(answers_to(script).stdout.decode(), wanted)
        post = b"2\n" + self.HEADER + self.ROW % (b"1", b"web")
        lines = b"post a 1 " + post + b"withdraw a 2 1\npost a 3 " + post + b"post a 4 " + post + b"state\n"
        with mock.patch.object(expected, "MOST_KEPT", 2):
            answers = list(expected.answers(iter(io.BytesIO(lines).readline, b"")))
        self.assertEqual(answers, ["accepted 1\n", "accepted 2\n", "accepted 3\n", "refused J1 Full\n", "state 3 1 0 0\n"])

    def test_reports_are_as_without_the_posts_that_were_withdrawn(self):
        """Each report and the lines of two cases, beside those of a script that has neither these posts nor the withdrawals."""
        for name in ("a-post-that-is-withdrawn", "posts-withdrawn-one-after-the-other"):
            entries, asked = {}, 0
            lines = io.BytesIO(read(HERE, "cases", f"{name}.script"))
            for command, answer in zip(lines, expected.answers(iter(io.BytesIO(lines.getvalue()).readline, b""))):
                words, is_accepted = command.split(), answer.startswith("accepted ")
                if words[0] == b"withdraw":
                    if is_accepted:
                        del entries[words[1], words[3]]
                elif words[0] in (b"report", b"lines"):
                    # Each entry is the only one of an origin of its own, so that none leaves a gap.
                    script = b"".join(b"%s e%d 1 %d\n%s" % (kind, at, text.count(b"\n"), text) for at, (kind, text) in enumerate(entries.values()))
                    self.assertEqual(answers_to(script + command).stdout.decode().partition("bytes ")[2], answer.removeprefix("bytes "), (name, command))
                    asked += 1
                elif len(words) == 4:
                    content = b"".join(next(lines) for _ in range(int(words[3])))
                    if is_accepted:
                        entries[words[1], words[2]] = words[0], content
            self.assertGreater(asked, 8)

    def test_what_the_oracle_says_of_a_case_stands_beside_it(self):
        """Where it has no answer it stops, and all before it is right."""
        whole = 0
        for name in sorted(os.listdir(os.path.join(HERE, "cases"))):
            if name.endswith(".script"):
                with self.subTest(name=name):
                    ran, right = answers_to(read(HERE, "cases", name)), read(HERE, "cases", name.removesuffix(".script") + ".answers")
                    self.assertTrue(right.startswith(ran.stdout), ran.stdout)
                    self.assertEqual(ran.returncode, int(ran.stdout != right))
                    whole += ran.returncode == 0
        self.assertGreater(whole, 15)

    def test_a_checkpoint_changes_no_answer_of_the_oracle(self):
        done = answers_to(b"checkpoint\npolicy a 1 1\nkey = \"t\"\ncheckpoint\nstate\n")
        self.assertEqual(done.stdout, b"checkpointed\naccepted 1\ncheckpointed\nstate 1 0 0 1\n")

    def test_the_oracle_makes_up_no_answer(self):
        for line in ["status", "post a 1 2\nBilledCost\n1"]:
            with self.subTest(line=line):
                ran = answers_to(line.encode())
                self.assertEqual((ran.returncode, ran.stdout), (1, b""))
                self.assertTrue(re.match("expected.py: this program has no answer to ", ran.stderr.decode()))


class Selections(unittest.TestCase):
    """The oracle on reports by several keys, filters and maps, on kept columns, on the dialect of GCP, and on exported lines: all
    done by hand."""

    HEADER = (
        "BilledCost,EffectiveCost,BillingCurrency,ChargeCategory,ChargePeriodStart,ChargePeriodEnd,CommitmentDiscountId,CommitmentDiscountCategory,"
        "CommitmentDiscountStatus,ConsumedQuantity,ConsumedUnit,SkuId,SubAccountId,Tags\n"
    )
    # An hour and a half of which the commitment covers one; a tax of a month; what a provider's plan covered; and a credit whose team is null.
    ROWS = (
        '9,6,USD,Usage,2024-01-01T00:00Z,2024-01-01T01:00Z,,,,1.5,Hours,vm,a1,"{""team"":""Web""}"\n'
        "2,2,USD,Tax,2024-01-01T00:00Z,2024-02-01T00:00Z,,,,,,,a2,\n"
        '0,4,USD,Usage,2024-01-01T00:00Z,2024-01-01T01:00Z,plan,Spend,Used,1,Hours,x,a1,"{""team"":""web""}"\n'
        '-1,-1,USD,Credit,2024-01-01T00:30Z,2024-01-02T00:00Z,,,,,,,,"{""team"":null}"\n'
    )
    COMMITMENT = (
        b'id = "c"\ncategory = "Usage"\nstart = "2024-01-01T00:00Z"\nhours = 1\ncapacity = "1"\nunit = "Hours"\nskus = ["vm"]\n'
        b'[tags]\nteam = "platform"\n[[purchase]]\nat = "2024-01-01T00:20Z"\nbilled = "1e-8"\n'
    )
    # Of the row of 1.5 hours the commitment's ten nanos are what the covered hour costs, and a third of its costs is left.
    ONE = 10**9
    TEAM, CATEGORY, ID, ACCOUNT = expected.Key("team"), *(expected.Key(it, True) for it in ("ChargeCategory", "CommitmentDiscountId", "SubAccountId"))

    def setUp(self):
        self.kept = expected.Warehouse()
        self.kept.enter("a", "1", self.kept.commit, self.COMMITMENT)
        self.kept.import_export("b", (self.HEADER + self.ROWS).encode())

    def lines(self):
        return list(self.kept.lines_between("2024-01-01T00:00Z", "2024-01-01T01:00Z"))

    def selected(self, *keys, **more):
        return self.kept.selected(expected.Selection(keys, **more), self.lines())

    def test_keys(self):
        one = self.ONE
        by_team = {
            ("", ""): (-one, -one), ("", "a2"): (2 * one, 2 * one), ("Web", "a1"): (3 * one, 2 * one + 10),
            ("platform", ""): (10, 0), ("web", "a1"): (0, 4 * one),
        }  # fmt: skip
        self.assertEqual(self.selected(self.TEAM, self.ACCOUNT), by_team)
        self.assertEqual(self.selected(self.ACCOUNT, self.TEAM), {group[::-1]: costs for group, costs in by_team.items()})
        by_id = {
            ("Credit", ""): (-one, -one), ("Purchase", "c"): (10, 0), ("Tax", ""): (2 * one, 2 * one),
            ("Usage", ""): (3 * one, 2 * one), ("Usage", "c"): (0, 10), ("Usage", "plan"): (0, 4 * one),
        }  # fmt: skip
        self.assertEqual(self.selected(self.CATEGORY, self.ID), by_id)
        status, sku = expected.Key("CommitmentDiscountStatus", True), expected.Key("SkuId", True)
        self.assertEqual(self.selected(status), {("",): (4 * one + 10, 3 * one), ("Used",): (0, 4 * one + 10)})
        by_sku = {
            ("", "", "c", ""): (10, 0), ("", "", "", ""): (-one, -one), ("", "a2", "", ""): (2 * one, 2 * one),
            ("vm", "a1", "c", "Used"): (0, 10), ("vm", "a1", "", ""): (3 * one, 2 * one), ("x", "a1", "plan", "Used"): (0, 4 * one),
        }  # fmt: skip
        self.assertEqual(self.selected(sku, self.ACCOUNT, self.ID, status), by_sku)
        # A tag may be called as a column is.
        self.assertEqual(self.selected(expected.Key("SkuId"), self.CATEGORY)["", "Tax"], (2 * one, 2 * one))
        for keys in ([], [self.TEAM] * 5):
            self.assertRaises(expected.Unknown, expected.Selection, keys)

    def test_filters(self):
        one = self.ONE
        usage, tax, web, none = (self.CATEGORY, "Usage"), (self.CATEGORY, "Tax"), (self.TEAM, "web"), (self.TEAM, "")
        for where, where_not, wanted in (
            ([usage], [], {("Web",): (3 * one, 2 * one + 10), ("web",): (0, 4 * one)}),
            ([usage, tax], [], {("",): (2 * one, 2 * one), ("Web",): (3 * one, 2 * one + 10), ("web",): (0, 4 * one)}),
            ([usage, web], [], {("web",): (0, 4 * one)}),
            ([tax, web], [], {}),
            ([], [usage, tax], {("",): (-one, -one), ("platform",): (10, 0)}),
            ([usage], [web], {("Web",): (3 * one, 2 * one + 10)}),
            ([usage], [usage], {}),
            ([none], [], {("",): (one, one)}),
            ([], [none, web], {("Web",): (3 * one, 2 * one + 10), ("platform",): (10, 0)}),
            ([(self.ID, "c")], [], {("Web",): (0, 10), ("platform",): (10, 0)}),
        ):
            with self.subTest(where=where, where_not=where_not):
                self.assertEqual(self.selected(self.TEAM, where=where, where_not=where_not), wanted)
        for word, name in (("tag:SkuId", "SkuId"), ("team", "team"), ("tag:team", "team"), ("skuId", "skuId")):
            self.assertEqual(expected.Key.named(word), expected.Key(name))
        self.assertEqual(expected.Key.named("SkuId"), expected.Key("SkuId", True))

    def test_maps(self):
        one = self.ONE
        text = '[[map]]\nkey = "tag:team"\nfold = true\nempty = "none"\nvalues = { web = "shop", Web = "never" }\n'
        text += '[[map]]\nkey = "ChargeCategory"\nvalues = { Tax = "Usage" }\n'
        maps = expected.maps_of(text.encode())
        wanted = {("none",): (one, one), ("platform",): (10, 0), ("shop",): (3 * one, 6 * one + 10)}
        self.assertEqual(self.selected(self.TEAM, maps=maps), wanted)
        # Filters see what the maps made of values.
        taxes_are_usage = {("none",): (2 * one, 2 * one), ("shop",): (3 * one, 6 * one + 10)}
        self.assertEqual(self.selected(self.TEAM, maps=maps, where=[(self.CATEGORY, "Usage")]), taxes_are_usage)
        self.assertEqual(self.selected(self.TEAM, maps=maps, where=[(self.TEAM, "web")]), {})
        self.assertEqual(self.selected(self.TEAM, maps=maps, where_not=[(self.TEAM, "none"), (self.TEAM, "shop")]), {("platform",): (10, 0)})
        ways = {
            'fold = true': [("ÀÉ Web", "ÀÉ web"), ("", "")],
            'empty = "none"': [("", "none"), ("Web", "Web"), ("none", "none")],
            'values = { Web = "a", a = "b" }': [("Web", "a"), ("web", "web"), ("a", "b")],
        }
        for way, pairs in ways.items():
            for old, new in pairs:
                self.assertEqual(expected.maps_of(f'[[map]]\nkey = "k"\n{way}\n'.encode())[0].of(old), new, way)
        for text in ('other = 1\n', '[[map]]\nkey = "k"\nother = 1\n', '[[map]]\nkey = "k"\n[[map]]\nkey = "tag:k"\n'):
            self.assertRaises(expected.Unknown, expected.maps_of, text.encode())

    def test_the_policy_counts_where_one_tag_is_all_that_is_asked_for(self):
        one = self.ONE
        self.kept.enter("a", "2", self.kept.set_policy, b'key = "team"\n[[rule]]\nfrom = ""\nto = { web = 3, lab = 1 }\n')
        wanted = {
            ("",): (one, one, 0), ("Web",): (3 * one, 2 * one + 10, 2 * one + 10), ("lab",): (0, 0, one // 4),
            ("platform",): (10, 0, 0), ("web",): (0, 4 * one, 4 * one + one * 3 // 4),
        }  # fmt: skip
        self.assertEqual(self.selected(self.TEAM), wanted)
        text = self.kept.report("team", "2024-01-01T00:00Z", "2024-01-01T01:00Z")
        rows = list(csv.reader(text.splitlines()))[2:]
        self.assertEqual({(group,): tuple(map(expected.nanos, costs)) for group, *costs in rows}, wanted)
        self.assertEqual(self.selected(expected.Key("other")), {("",): (4 * one + 10, 7 * one + 10, 7 * one + 10)})
        direct = {group: costs[:2] for group, costs in wanted.items() if group != ("lab",)}
        self.assertEqual(self.selected(self.TEAM, where_not=[(self.CATEGORY, "None")]), direct)
        self.assertEqual(self.selected(self.TEAM, maps=expected.maps_of(b'[[map]]\nkey = "none"\nfold = true\n')), direct)
        self.assertEqual(self.selected(self.ACCOUNT)["a2",], (2 * one, 2 * one))

    def test_selections_add_up(self):
        """Over two days of commitments: groups of two keys to those of one, a filter and its opposite to the whole, and groups
        that a map joins to one."""
        kept = expected.Warehouse()
        list(expected.answers(iter(io.BytesIO(read(HERE, "commitments.script")).readline, b""), kept))
        lines = list(kept.lines_between("2023-12-30T00:00Z", "2024-01-05T00:00Z"))

        def sums(*keys, **more):
            return dict(expected.Selection(keys, **more).sums(lines))

        def added(groups):
            found = {}
            for group, costs in groups:
                found[group] = tuple(map(sum, zip(found.get(group, (0, 0)), costs)))
            return found

        both, team = sums(self.TEAM, self.ID), sums(self.TEAM)
        self.assertGreater(len(both), 20)
        self.assertEqual(added(((group[0],), costs) for group, costs in both.items()), team)
        self.assertEqual(added(((group[1],), costs) for group, costs in both.items()), sums(self.ID))
        some = [(self.ID, "ri-m5"), (self.ID, "")]
        parts = [sums(self.TEAM, where=some), sums(self.TEAM, where_not=some)]
        self.assertTrue(all(parts))
        self.assertEqual(added(item for part in parts for item in part.items()), team)
        mapped = sums(self.TEAM, maps=expected.maps_of(b'[[map]]\nkey = "team"\nempty = "data"\nvalues = { web = "data" }\n'))
        self.assertEqual(mapped, added((("data",) if group[0] in ("", "web") else group, costs) for group, costs in team.items()))

    def test_columns_that_are_kept(self):
        text = '\ufeffService,Tags,Unit Name,Cost\n"a, ""b""","{""t"":""old"",""t"":""x"",""n"":null}",h,1\n,,h,2\né,,,3\n'
        found = expected.with_columns_as_tags(text.encode(), ["Service", "Unit Name=unit=2"])
        header, records = expected.records_of(found)
        self.assertEqual(header, ["Service", "Tags", "Unit Name", "Cost"])
        records = list(records)
        tags = [expected.tags_of(record[1]) for record in records]
        self.assertEqual(tags, [{"t": "x", "n": "", "Service": 'a, "b"', "unit=2": "h"}, {"unit=2": "h"}, {"Service": "é"}])
        self.assertEqual([[record[0], *record[2:]] for record in records], [['a, "b"', "h", "1"], ["", "h", "2"], ["é", "", "3"]])
        # Without a column of tags there is one behind the others.
        found = expected.with_columns_as_tags(b"A,B\n1,2\n,3\n", ["A=B", "B=A"])
        self.assertEqual(found.decode(), 'A,B,Tags\n1,2,"{""B"":""1"",""A"":""2""}"\n,3,"{""A"":""3""}"\n')
        for keeps, tag in ((["Cost=t"], "t"), (["Cost=n"], "n"), (["Cost", "Unit Name=Cost"], "Cost")):
            with self.assertRaises(expected.Refused) as refused:
                expected.with_columns_as_tags(text.encode(), keeps)
            self.assertEqual(str(refused.exception), f"the tag {tag!r} of record 1")
        # A tag that is there is no fault where the field is empty.
        expected.with_columns_as_tags(b'A,Tags\n,"{""A"":""1""}"\n', ["A"])
        for text in (b"B\n1\n", b"A,A\n1,2\n", b"A,Tags,Tags\n1,,\n"):
            self.assertRaises(expected.Unknown, expected.with_columns_as_tags, text, ["A"])

    def test_the_dialect_of_gcp(self):
        tags = '"[{""key"": ""team"", ""value"": ""a, \'b\'""}, {""value"": ""é"", ""key"": ""x/y""}]"'
        text = "ChargePeriodStart,Other,Tags,ChargePeriodEnd\n"
        text += f"2024-09-01 00:00:00 UTC,2024-09-01 00:00:00 UTC,{tags},2024-09-01 23:59:59 UTC\n2024-09-01T00:00Z,,[],\n,,,\n"
        header, records = expected.records_of(expected.focus_of_gcp(text.encode()))
        self.assertEqual(header, ["ChargePeriodStart", "Other", "Tags", "ChargePeriodEnd"])
        first, *others = records
        self.assertEqual([first[0], first[1], first[3]], ["2024-09-01T00:00:00Z", "2024-09-01 00:00:00 UTC", "2024-09-01T23:59:59Z"])
        self.assertEqual(expected.tags_of(first[2]), {"team": "a, 'b'", "x/y": "é"})
        self.assertEqual(others, [["2024-09-01T00:00Z", "", "", ""], ["", "", "", ""]])
        for tags in ('{"a":"b"}', '[{"key":"a"}]', '[{"key":"a","value":"b","more":1}]'):
            self.assertRaises(expected.Unknown, expected.focus_of_gcp, expected.csv_of(["Tags"], [[tags]]))

    def test_an_export_of_several_posts(self):
        rows = "".join(f"{number},1,USD,Usage,2024-01-01T00:00Z,2024-01-01T01:00Z\n" for number in range(1, 4098))
        kept = expected.Warehouse()
        kept.import_export("long", ("BilledCost,EffectiveCost,BillingCurrency,ChargeCategory,ChargePeriodStart,ChargePeriodEnd\n" + rows).encode())
        self.assertEqual((kept.state(), len(kept.posts["long", 1]), len(kept.posts["long", 2])), ("state 2 4097 0 0\n", 4096, 1))
        lines = kept.lines_between("2024-01-01T00:00Z", "2024-01-02T00:00Z")
        self.assertEqual([line.billed for line in lines], [number * self.ONE for number in range(1, 4098)])

    def test_exported_lines(self):
        first = 473_352 * 3600
        self.assertEqual(datetime.datetime.fromtimestamp(first, datetime.timezone.utc).isoformat(), "2024-01-01T00:00:00+00:00")
        columns = "BilledCost EffectiveCost ChargeCategory ChargePeriodStart ChargePeriodEnd CommitmentDiscountId".split()
        columns += "CommitmentDiscountCategory CommitmentDiscountStatus ConsumedQuantity ConsumedUnit SkuId SubAccountId Tags".split()
        found = [self.kept.exported(line) for line in self.lines()]
        one, hour = self.ONE, 3600
        wanted = [
            [10, 0, "Purchase", first, first + hour, "c", "Usage", None, None, None, None, None, {"team": "platform"}],
            [2 * one, 2 * one, "Tax", first, first + 31 * 24 * hour, None, None, None, None, None, None, "a2", {}],
            [0, 4 * one, "Usage", first, first + hour, "plan", "Spend", "Used", one, "Hours", "x", "a1", {"team": "web"}],
            [-one, -one, "Credit", first + hour // 2, first + 24 * hour, None, None, None, None, None, None, None, {"team": ""}],
            [0, 10, "Usage", first, first + hour, "c", "Usage", "Used", one, "Hours", "vm", "a1", {"team": "Web"}],
            [3 * one, 2 * one, "Usage", first, first + hour, None, None, None, one // 2, "Hours", "vm", "a1", {"team": "Web"}],
        ]
        self.assertEqual([[row[it] for it in columns] for row in found], wanted)
        self.assertEqual({(row["BillingCurrency"], row["ChargeClass"]) for row in found}, {("USD", None)})


if __name__ == "__main__":
    run_tests(__doc__)
