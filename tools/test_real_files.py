#!/usr/bin/env python3
"""Tests the step over real files: that a missing strace is installed or named, and that what a tool finds ends the step.

It runs neither strace nor the program: small scripts stand in for them.
"""
import contextlib
import io
import os
import sys
import tempfile
import unittest
from unittest import mock

sys.path.insert(0, os.path.dirname(os.path.abspath(__file__)))
import real_files  # noqa: E402
from command_line import run_tests  # noqa: E402
from store_runs import CannotRun, Case, commands  # noqa: E402

FOLLOWS = "exit 0"
CANNOT_FOLLOW = 'echo "PTRACE_TRACEME: Operation not permitted" >&2; exit 1'
# How strace comes into the folder of these scripts, and from when on: by the first `apt-get install`, or by one behind an update.
INSTALLS = 'echo "$@" >>"$0.calls"; [ "$1" = install ] || exit 0; printf "#!/bin/sh\\nexit 0\\n" >"${0%/*}/strace"; /bin/chmod +x "${0%/*}/strace"'
INSTALLS_BEHIND_AN_UPDATE = '[ "$1" = update ] && : >"$0.updated"; [ -e "$0.updated" ] || { echo "$@" >>"$0.calls"; exit 100; }; ' + INSTALLS
HAS_NO_PACKAGE = 'echo "$@" >>"$0.calls"; exit 100'


class Prepares(unittest.TestCase):
    def setUp(self):
        room = tempfile.TemporaryDirectory()
        self.addCleanup(room.cleanup)
        self.room = room.name

    def put(self, name, body):
        path = os.path.join(self.room, name)
        with open(path, "w", encoding="utf-8") as file:
            file.write(f"#!/bin/sh\n{body}\n")
        os.chmod(path, 0o755)

    def prepare(self, user=0):
        """Prepares where nothing is there but these scripts: what is wrong."""
        with mock.patch.dict(os.environ, {"PATH": self.room}), mock.patch("os.geteuid", return_value=user), contextlib.redirect_stdout(io.StringIO()):
            try:
                real_files.prepare()
            except CannotRun as why:
                return str(why)
        return ""

    def asked(self):
        with open(os.path.join(self.room, "apt-get.calls"), encoding="utf-8") as file:
            return file.read().splitlines()

    def test_a_strace_that_is_there_is_enough(self):
        self.put("strace", FOLLOWS)
        self.put("apt-get", HAS_NO_PACKAGE)
        self.assertEqual(self.prepare(), "")
        self.assertFalse(os.path.exists(os.path.join(self.room, "apt-get.calls")))

    def test_a_missing_strace_is_installed(self):
        self.put("apt-get", INSTALLS)
        self.assertEqual(self.prepare(), "")
        self.assertEqual(self.asked(), ["install -y strace"])

    def test_where_the_list_of_packages_is_missing_it_is_asked_for(self):
        self.put("apt-get", INSTALLS_BEHIND_AN_UPDATE)
        self.assertEqual(self.prepare(), "")
        self.assertEqual(self.asked(), ["install -y strace", "update", "install -y strace"])

    def test_a_strace_that_cannot_be_installed_is_named(self):
        self.put("apt-get", HAS_NO_PACKAGE)
        self.assertIn("apt-get install strace", self.prepare())
        self.assertEqual(self.asked(), ["install -y strace", "update", "install -y strace"])

    def test_without_root_nothing_is_installed(self):
        self.put("apt-get", INSTALLS)
        self.assertIn("apt-get install strace", self.prepare(user=1000))
        self.assertFalse(os.path.exists(os.path.join(self.room, "apt-get.calls")))

    def test_without_apt_get_strace_is_named(self):
        self.assertIn("apt-get install strace", self.prepare())

    def test_a_strace_that_cannot_follow_a_process_is_not_enough(self):
        self.put("strace", CANNOT_FOLLOW)
        self.assertIn("Operation not permitted", self.prepare())

    def test_a_missing_strace_ends_the_step_with_status_2(self):
        said = io.StringIO()
        with mock.patch.dict(os.environ, {"PATH": self.room}), mock.patch.object(sys, "argv", ["real_files.py"]), contextlib.redirect_stderr(said):
            self.assertEqual(real_files.main(), 2)
        self.assertIn("apt-get install strace", said.getvalue())


class Steps(unittest.TestCase):
    def ended(self, statuses):
        """The step over tools that end with these statuses: what it says, and which tools ran."""
        with tempfile.TemporaryDirectory() as top:
            os.mkdir(os.path.join(top, "tools"))
            for name, status in statuses.items():
                with open(os.path.join(top, "tools", name), "w", encoding="utf-8") as file:
                    file.write(f"import sys\nopen({top!r} + '/ran', 'a').write('{name} ')\nsys.exit({status})\n")
            with mock.patch.object(real_files, "TOP", top), contextlib.redirect_stdout(io.StringIO()):
                name, status, _ = real_files.step("focusd", 2)
            with open(os.path.join(top, "ran"), encoding="utf-8") as file:
                return name, status, file.read().split()

    def test_all_three_tools_run(self):
        names = ["crash_images.py", "failing_calls.py", "kill_runs.py"]
        self.assertEqual(self.ended(dict.fromkeys(names, 0)), ("", 0, names))

    def test_what_one_finds_ends_the_step(self):
        self.assertEqual(self.ended({"crash_images.py": 1}), ("crash_images.py", 1, ["crash_images.py"]))
        self.assertEqual(self.ended({"crash_images.py": 0, "failing_calls.py": 1}), ("failing_calls.py", 1, ["crash_images.py", "failing_calls.py"]))

    def test_a_tool_that_cannot_run_ends_the_step(self):
        self.assertEqual(self.ended({"crash_images.py": 2}), ("crash_images.py", 2, ["crash_images.py"]))


class Selection(unittest.TestCase):
    def test_its_scripts_have_commands_and_answers_of_each_kind(self):
        name, *words = real_files.STEP[0]
        self.assertEqual(name, "crash_images.py")
        scripts, entries, first = (int(words[words.index(word) + 1]) for word in ("--scripts", "--entries", "--seed"))
        cases = [Case(commands(seed, entries)) for seed in range(first, first + scripts)]
        asked = {command.split()[0] for case in cases for command in case.commands}
        self.assertEqual(asked, {b"post", b"commit", b"add", b"withdraw", b"policy", b"checkpoint", b"state", b"report", b"lines"})
        answered = {answer.split()[0] for case in cases for answer in case.answers}
        self.assertLessEqual({b"accepted", b"already", b"gap", b"refused", b"checkpointed"}, answered)


class WrongVolumes(unittest.TestCase):
    def test_the_library_knows_each_of_them(self):
        with open(real_files.SHIM, encoding="utf-8") as file:
            text = file.read()
        for how in real_files.WRONG:
            self.assertEqual(text.count(f'is_wrong("{how}")'), 1, how)


if __name__ == "__main__":
    run_tests(__doc__)
