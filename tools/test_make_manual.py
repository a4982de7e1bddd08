#!/usr/bin/env python3
"""Tests of tools/make_manual.py, with a program that prints a help and does nothing else."""

import os
import subprocess
import sys
import tempfile
import unittest

sys.path.insert(0, os.path.dirname(os.path.abspath(__file__)))
import make_manual  # noqa: E402
from command_line import run_tests  # noqa: E402

TOP = """Keeps a warehouse of costs

Usage: prog <COMMAND>

Commands:
  take     Takes files, 'quoted' [and: more]
  report   Sums costs
  explain  Says what a code means
  help     Print this message or the help of the given subcommand(s)

Options:
  -h, --help     Print help
  -V, --version  Print version

Example:
  prog take a.csv
"""
TAKE = """Takes files, 'quoted' [and: more]

Usage: prog take [OPTIONS] --dir <DIR> <FILE>...

Arguments:
  <FILE>...  A CSV,
             or `-` for standard input

Options:
      --dir <DIR>  The folder of the warehouse
      --quiet      Prints no progress
  -h, --help       Print help

The first paragraph.

.A line that begins with a point
"""
REPORT = """Sums costs

Usage: prog report [OPTIONS]

Options:
      --format <FORMAT>  How it is printed [default: table] [possible values: table, csv]
  -h, --help             Print help
"""
EXPLAIN = """Says what a code means

Usage: prog explain [CODE]

Arguments:
  [CODE]  A code, as V5

Options:
  -h, --help  Print help
"""
LIST = "V5 Cost: the cost is none: it is no number\nNoMemory: memory ran out\n"
COST = "V5 Cost: the cost is none: it is no number.\nWhat to do: Write digits - and a point.\n"
MEMORY = "NoMemory: memory ran out.\nWhat to do: Close other programs.\n"
PROGRAM = f"""#!{sys.executable}
import sys
texts = {{"--help": {TOP!r}, "take --help": {TAKE!r}, "report --help": {REPORT!r}, "explain --help": {EXPLAIN!r}, "--version": "prog 1.2"}}
texts.update({{"explain": {LIST!r}, "explain V5": {COST!r}, "explain NoMemory": {MEMORY!r}}})
print(texts[" ".join(sys.argv[1:])], end="")
"""


class MakeManual(unittest.TestCase):
    def setUp(self):
        self.room = tempfile.TemporaryDirectory()
        self.addCleanup(self.room.cleanup)
        self.program = os.path.join(self.room.name, "prog")
        with open(self.program, "w", encoding="utf-8") as file:
            file.write(PROGRAM)
        os.chmod(self.program, 0o755)

    def test_a_help_is_read(self):
        said = make_manual.read_help(TAKE)
        self.assertEqual(said.usage, "prog take [OPTIONS] --dir <DIR> <FILE>...")
        self.assertEqual(said.arguments, [("<FILE>...", "A CSV, or `-` for standard input")])
        self.assertEqual([(it.names, it.value) for it in said.options], [(["--dir"], "DIR"), (["--quiet"], ""), (["-h", "--help"], "")])
        self.assertTrue(said.after.startswith("The first paragraph.\n\n.A line"))
        self.assertEqual(make_manual.read_help(REPORT).options[0].words, ["table", "csv"])
        self.assertEqual(make_manual.read_help(REPORT).options[0].summary, "How it is printed")

    def test_what_is_no_help_is_refused(self):
        for text in ("", "about\n\nno usage\n", "about\n\nUsage: x\n\nCommands:\n  a  b\n"):
            with self.assertRaises(make_manual.HelpError):
                make_manual.read_help(text)

    def test_the_page_names_each_command_and_option(self):
        page = make_manual.made_of(self.program)[make_manual.MANUAL]
        for name in (".SS take", ".SS report", "\\fB\\-\\-dir\\fR \\fIDIR\\fR", "\\&.A line that begins with a point"):
            self.assertIn(name, page)
        self.assertNotIn(".SS help", page)

    def test_the_page_explains_each_code(self):
        page = make_manual.made_of(self.program)[make_manual.MANUAL]
        said = "\\fBV5 Cost\\fR\nthe cost is none: it is no number.\nWhat to do: Write digits \\- and a point.\n"
        self.assertTrue(page.endswith(f".TP\n{said}.TP\n\\fBNoMemory\\fR\nmemory ran out.\nWhat to do: Close other programs.\n"), page[-400:])

    def test_a_code_that_is_not_explained_is_refused(self):
        with open(self.program, "w", encoding="utf-8") as file:
            file.write(PROGRAM.replace("What to do: Close", "Close"))
        with self.assertRaises(make_manual.HelpError):
            make_manual.made_of(self.program)

    def completed(self, words, place):
        """What bash completes at a place of these words."""
        script = os.path.join(self.room.name, "completion")
        with open(script, "w", encoding="utf-8") as file:
            file.write(make_manual.made_of(self.program)[make_manual.BASH])
        listed = " ".join(f"'{word}'" for word in words)
        call = f"source {script}; COMP_WORDS=({listed}); COMP_CWORD={place}; _focusd; printf '%s\\n' \"${{COMPREPLY[@]}}\""
        done = subprocess.run(["bash", "-c", call], cwd=self.room.name, stdout=subprocess.PIPE, text=True, check=True)
        return sorted(done.stdout.split())

    def test_bash_completes(self):
        self.assertEqual(self.completed(["focusd", "re"], 1), ["report"])
        self.assertEqual(self.completed(["focusd", "-"], 1), ["--help", "--version"])
        self.assertEqual(self.completed(["focusd", "help", ""], 2), ["explain", "report", "take"])
        self.assertEqual(self.completed(["focusd", "take", "--q"], 2), ["--quiet"])
        self.assertEqual(self.completed(["focusd", "report", "--format", ""], 3), ["csv", "table"])
        self.assertEqual(self.completed(["focusd", "take", "pro"], 2), ["prog"])
        self.assertEqual(self.completed(["focusd", "report", "pro"], 2), [])

    def test_each_shell_is_offered_the_help(self):
        made = make_manual.made_of(self.program)
        about = "Print this message or the help of the given subcommand(s)"
        self.assertEqual(self.completed(["focusd", "he"], 1), ["help"])
        self.assertIn(f"'help:{about}'", made[make_manual.ZSH])
        self.assertIn(f"-n __fish_use_subcommand -a help -d '{about}'", made[make_manual.FISH])

    def test_a_stale_file_is_named(self):
        top, make_manual.TOP = make_manual.TOP, self.room.name
        self.addCleanup(setattr, make_manual, "TOP", top)
        run = lambda *words: self.run_main([self.program, *words])
        self.assertEqual(run("--check"), 1)
        self.assertEqual(run(), 0)
        self.assertEqual(run("--check"), 0)
        with open(os.path.join(self.room.name, make_manual.FISH), "a", encoding="utf-8") as file:
            file.write("# changed\n")
        self.assertEqual(run("--check"), 1)

    def run_main(self, words):
        before, sys.argv = sys.argv, ["make_manual.py", *words]
        output, sys.stdout = sys.stdout, open(os.devnull, "w", encoding="utf-8")
        try:
            return make_manual.main()
        finally:
            sys.stdout.close()
            sys.argv, sys.stdout = before, output


if __name__ == "__main__":
    run_tests(__doc__)
