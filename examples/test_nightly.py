#!/usr/bin/env python3
"""Runs the nightly job of examples/nightly with a built program, night after night: good ones and bad ones.

    examples/test_nightly.py out/focusd
"""
import csv
import io
import os
import pathlib
import re
import shutil
import subprocess
import time

from program_tests import HERE, Case, focusd, program, run_tests

NIGHTLY = HERE / "nightly"


def has_open(process, file):
    """Whether a process has a file open."""
    try:
        return any(link.resolve() == file for link in pathlib.Path(f"/proc/{process.pid}/fd").iterdir())
    except OSError:
        return False


class Nights(Case):
    def setUp(self):
        super().setUp()
        self.exports = self.new_folder("exports")
        self.alert, self.report = self.top / "alert", self.top / "report.csv"
        self.good = (HERE / "focus-export.csv").read_text(encoding="utf-8")
        self.deliver("aws-2024-09", self.good)
        self.create(self.top / "costs")

    @staticmethod
    def create(folder):
        """Makes the warehouse, as the script says."""
        folder.mkdir()
        status, _, said = focusd("run", "--dir", folder, "--create")
        assert status == 0, said

    def deliver(self, name, text):
        (self.exports / f"{name}.csv").write_text(text, encoding="utf-8")

    def night(self, printing="", **other):
        """The status of a night, and what was alerted. Nothing is printed but what has to be."""
        self.alert.unlink(missing_ok=True)
        names = {
            "FOCUSD": program(), "FOCUSD_DIR": self.top / "costs", "FOCUSD_EXPORTS": self.exports, "FOCUSD_REPORT": self.report, "FOCUSD_ALERT": f"cat >'{self.alert}'",
        }  # fmt: skip
        environment = {"PATH": os.environ["PATH"], **{name: str(value) for name, value in {**names, **other}.items()}}
        ran = subprocess.run([NIGHTLY / "nightly"], env=environment, capture_output=True)
        self.assertEqual(ran.stdout, b"")
        self.assertRegex(ran.stderr.decode(), f"^{printing}$")
        return ran.returncode, self.alert.read_text(encoding="utf-8") if self.alert.exists() else None

    def status(self):
        return self.do("status", "--dir", "costs")

    def entries(self):
        return int(re.search(r"^Entries +([\d,]+)$", self.status(), re.M)[1].replace(",", ""))

    def spoiled(self):
        """The export with another currency in its last record."""
        front, _, last = self.good.rpartition('"USD"')
        return f'{front}"EUR"{last}'

    def half(self):
        """The export with its first 150 rows alone."""
        header, *records = csv.reader(io.StringIO(self.good.removeprefix("\ufeff"), newline=""), strict=True)
        out = io.StringIO(newline="")
        csv.writer(out, lineterminator="\n").writerows([header, *records[:150]])
        return out.getvalue()

    def test_good_nights(self):
        """The report is the one that another program computed, and a night that brings nothing new adds nothing."""
        self.assertEqual(self.night(), (0, None))
        expected = (HERE / "first-report.expected").read_text(encoding="utf-8")
        self.assertIn(self.report.read_text(encoding="utf-8"), expected)
        entries = self.entries()
        self.assertEqual(self.night(), (0, None))
        self.assertEqual(self.entries(), entries)

    def test_an_export_that_grows(self):
        """On the first night half of the export is there. In the end the report is that of the whole."""
        self.deliver("aws-2024-09", self.half())
        self.assertEqual(self.night(), (0, None))
        half = self.report.read_text(encoding="utf-8")
        self.deliver("aws-2024-09", self.good)
        self.assertEqual(self.night(), (0, None))
        whole = self.report.read_text(encoding="utf-8")
        self.assertNotEqual(half, whole)
        self.assertIn(whole, (HERE / "first-report.expected").read_text(encoding="utf-8"))

    def test_a_bad_night(self):
        """A fault is alerted by file, record and code, changes nothing, and keeps no other export from being taken."""
        self.assertEqual(self.night(), (0, None))
        before = self.report.read_text(encoding="utf-8")
        self.deliver("aws-2024-09", self.spoiled())
        status, alert = self.night()
        self.assertEqual(status, 1)
        self.assertRegex(alert, r"aws-2024-09\.csv:\d+: record 300, BillingCurrency: \"EUR\": V6 Currency")
        self.assertEqual(self.report.read_text(encoding="utf-8"), before)
        other = self.good.replace("2024-09-", "2024-10-")
        self.deliver("aws-2024-10", other)
        status, alert = self.night()
        self.assertEqual(status, 1)
        self.assertNotIn("aws-2024-10", alert)
        self.assertIn("of aws-2024-10", self.status())
        self.deliver("aws-2024-09", self.good)
        self.assertEqual(self.night(), (0, None))

    def test_an_export_that_has_shrunk(self):
        """It may have been cut on its way. It is alerted, and the whole one takes its place again."""
        self.assertEqual(self.night(), (0, None))
        whole = self.report.read_text(encoding="utf-8")
        self.deliver("aws-2024-09", self.half())
        status, alert = self.night()
        self.assertEqual(status, 1)
        self.assertRegex(alert, r"aws-2024-09\.csv has fewer rows than before: 150, and not 300\n$")
        self.assertEqual(self.night(), (0, None))
        self.deliver("aws-2024-09", self.good)
        self.assertEqual(self.night(), (0, None))
        self.assertEqual(self.report.read_text(encoding="utf-8"), whole)

    def test_a_night_without_exports(self):
        (self.exports / "aws-2024-09.csv").unlink()
        status, alert = self.night(FOCUSD_REPORT="")
        self.assertEqual(status, 1)
        self.assertIn("no export was taken", alert)
        self.exports.rmdir()
        self.assertEqual(self.night(FOCUSD_REPORT=""), (status, alert))

    def test_a_night_without_the_warehouse(self):
        """Where its disk isn't there, no new warehouse takes its place."""
        (self.top / "costs").rename(self.top / "elsewhere")
        (self.top / "costs").mkdir()
        status, alert = self.night()
        self.assertEqual(status, 1)
        self.assertIn("S1 NoHouse", alert)
        self.assertEqual(list((self.top / "costs").iterdir()), [])
        (self.top / "costs").rmdir()
        self.assertEqual(self.night()[0], 1)
        self.assertFalse((self.top / "costs").exists())
        (self.top / "elsewhere").rename(self.top / "costs")
        self.assertEqual(self.night(), (0, None))

    def test_a_report_that_cannot_be_written(self):
        status, alert = self.night(FOCUSD_REPORT=self.top / "no such folder" / "report.csv")
        self.assertEqual(status, 1)
        self.assertIn("status 1: cp ", alert)

    def test_a_tag_that_is_not_there(self):
        status, alert = self.night(FOCUSD_TAG="squad")
        self.assertEqual(status, 1)
        self.assertRegex(alert, r"^of the report:\nfocusd: .+ has the tag squad; .+\n$")

    def test_a_policy_for_the_tag(self):
        """A report that says which policy it applied leaves nothing out; one under a policy for another tag does."""
        self.assertEqual(self.night(), (0, None))
        for tag, status in ("team", 0), ("environment", 1):
            (self.top / "policy.toml").write_text(f'key = "{tag}"\n[[rule]]\nfrom = ""\nto = {{ web = 3, data = 1 }}\n', encoding="utf-8")
            self.do("add", "--dir", "costs", "--yes", "--origin", tag, "policy.toml")
            ended, alerted = self.night()
            self.assertEqual(ended, status, alerted)
        self.assertIn("the policy is for the tag environment, so ChargedCost is EffectiveCost", alerted)

    def test_an_alert_that_fails(self):
        """What went wrong is printed then, so cron mails it, and systemd keeps it."""
        self.deliver("aws-2024-09", self.spoiled())
        status, alert = self.night(FOCUSD_ALERT="cat >&2; exit 7", printing=r"(status 1: [\s\S]+ V6 Currency[\s\S]+){2}")
        self.assertEqual((status, alert), (1, None))
        status, alert = self.night(FOCUSD_ALERT="", printing=r"status 1: [\s\S]+ V6 Currency[\s\S]+")
        self.assertEqual((status, alert), (1, None))

    def test_no_room_for_temporary_files(self):
        status, alert = self.night(TMPDIR=self.top / "no such folder", printing=r"mktemp: .+\n")
        self.assertEqual((status, alert), (1, "no folder for temporary files could be made\n"))

    def test_a_warehouse_that_is_open(self):
        self.assertEqual(self.night(), (0, None))
        with subprocess.Popen([program(), "run", "--dir", self.top / "costs"], stdin=subprocess.PIPE, stdout=subprocess.PIPE) as other:
            # A process has the lock of a folder before it opens the files there.
            while not has_open(other, self.top / "costs" / "right"):
                self.assertIsNone(other.poll())
                time.sleep(0.01)
            status, alert = self.night()
            other.stdin.close()
            other.stdout.read()
        self.assertEqual(status, 1)
        self.assertIn("another process has this folder open", alert)
        self.assertEqual(self.night(), (0, None))

    def test_a_damaged_warehouse(self):
        self.assertEqual(self.night(), (0, None))
        left = self.top / "costs" / "left"
        left.write_bytes(left.read_bytes()[:100])
        (self.top / "costs" / "right").write_bytes(b"")
        status, alert = self.night()
        self.assertEqual(status, 1)
        self.assertIn(" verify ", alert)

    def test_names_from_a_file(self):
        """The shipped file of names, with other folders, is read as a shell reads it; a wrong one begins nothing."""
        text = (NIGHTLY / "nightly.conf").read_text(encoding="utf-8").replace("/srv/costs", str(self.top / "srv"))
        (self.top / "srv").mkdir()
        self.create(self.top / "srv" / "warehouse")
        shutil.copytree(self.exports, self.top / "srv" / "exports")
        (self.top / "names.conf").write_text(f"{text}FOCUSD='{program()}'\n", encoding="utf-8")
        run = {"cwd": self.top, "env": {"PATH": os.environ["PATH"]}, "capture_output": True}
        for name in ("names.conf", self.top / "names.conf"):
            ran = subprocess.run([NIGHTLY / "nightly", name], **run)
            self.assertEqual((ran.returncode, ran.stdout, ran.stderr), (0, b"", b""))
        self.assertTrue((self.top / "srv" / "last-month.csv").read_text(encoding="utf-8").startswith("Group,"))
        self.assertEqual(subprocess.run([NIGHTLY / "nightly", "nowhere.conf"], **run).returncode, 2)
        self.assertEqual(subprocess.run([NIGHTLY / "nightly"], **run).returncode, 2)

    def test_the_units(self):
        """systemd takes the units, where it is there to be asked."""
        analyze = shutil.which("systemd-analyze")
        if not analyze:
            self.skipTest("there is no systemd-analyze")
        job = self.top / "focusd-nightly"
        shutil.copy(NIGHTLY / "nightly", job)
        for name in ("focusd-nightly.service", "focusd-nightly.timer"):
            text = (NIGHTLY / name).read_text(encoding="utf-8").replace("/usr/local/bin/focusd-nightly", str(job))
            (self.top / name).write_text(text, encoding="utf-8")
        ran = subprocess.run([analyze, "verify", self.top / "focusd-nightly.timer"], capture_output=True)
        self.assertNotIn(b"focusd-nightly", ran.stderr)


if __name__ == "__main__":
    run_tests(__doc__)
