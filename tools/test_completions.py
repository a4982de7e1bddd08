#!/usr/bin/env python3
"""Tests of the completions below share/, at the prompts of real shells.

    python3 -B tools/test_completions.py
    python3 -B tools/test_completions.py --all-shells

What TAB puts on the command line has to reach a stand-in of focusd as one argument, which is the name, and may run nothing. bash has to be there; zsh
and fish are tried too with --all-shells, where they are installed.
"""

import errno
import fcntl
import os
import pty
import select
import shutil
import signal
import struct
import subprocess
import sys
import tempfile
import termios
import time
import unittest

sys.path.insert(0, os.path.dirname(os.path.abspath(__file__)))
import make_manual  # noqa: E402
from command_line import TOP, options_of_tests, parser_of  # noqa: E402

# Names that a shell would cut, expand or run, if they were not quoted. Each is alone in its folder.
HARD = (
    "jan file.csv",
    "it's.csv",
    'say "x".csv',
    "$(touch PWNED).csv",
    "`touch PWNED`.csv",
    "\"$(touch PWNED)\".csv",
    "'$(touch PWNED)'.csv",
    "jan;touch PWNED;.csv",
    "back\\slash.csv",
)
NAMES = HARD + (
    " blank.csv ",
    "$(id>PWNED).csv",
    "jan&touch PWNED&.csv",
    "jan|touch PWNED.csv",
    "jan>PWNED",
    "<(touch PWNED)",
    "$HOME.csv",
    "~home.csv",
    "star*?[a-z].csv",
    "{a,b}.csv",
    "#hash.csv",
    "!bang.csv",
    "2024-01-01T00:00Z=a@b.csv",
    "tab\there.csv",
)
LINE_FEEDS = ("two\nlines.csv", "$(touch PWNED)\n.csv", "a\n$(touch PWNED)\n.csv", "\ntouch PWNED\n")
# Names that focusd would take for options.
OPTIONS = ("-x.csv", "--create", "-$(touch PWNED)")

# The completion of bash as it was: it has to be caught.
WRONG = """_focusd() {
    local word="${COMP_WORDS[COMP_CWORD]}"
    COMPREPLY=($(compgen -W "--dir --create --currency --origin --quiet --help" -- "$word") $(compgen -f -- "$word"))
}
complete -F _focusd focusd
"""
CAUGHT = ("jan file.csv", "it's.csv", "jan$(id>PWNED).csv", "jan`id>PWNED`.csv", "jan;id>PWNED;.csv")

STAND_IN = """#!/bin/sh
printf '%s\\0' "$@" >"$FOCUSD_ARGUMENTS"
"""
# Whether zsh and fish are tested too.
ALL_SHELLS = False
# How long a shell may take, in seconds: to show a prompt, and to echo what is typed.
LONGEST_WAIT, LONGEST_ECHO = 60, 8


class Terminal:
    """A shell at a pseudo-terminal, whose prompts are numbered: `[ready 1]`, `[ready 2]` .."""

    def __init__(self, words, environ, folder):
        self.process, self.screen = pty.fork()
        if self.process == 0:
            try:
                os.chdir(folder)
                os.execvpe(words[0], words, environ)
            finally:
                os._exit(127)
        # Wide, so that no line is broken.
        fcntl.ioctl(self.screen, termios.TIOCSWINSZ, struct.pack("HHHH", 50, 1000, 0, 0))
        self.shown = b""
        self.prompts = 0
        # What was waited for in vain, if anything: then nothing more is tried.
        self.lost = ""
        self.next_prompt()

    def close(self):
        os.close(self.screen)
        os.kill(self.process, signal.SIGKILL)
        os.waitpid(self.process, 0)

    def await_one(self, *marks):
        """The mark that is shown first. What is shown up to it is forgotten."""
        if self.lost:
            raise TimeoutError(self.lost)
        end = time.monotonic() + LONGEST_WAIT
        while True:
            found = [(self.shown.index(mark), mark) for mark in marks if mark in self.shown]
            if found:
                place, mark = min(found)
                self.shown = self.shown[place + len(mark) :]
                return mark
            if not select.select([self.screen], [], [], max(0, end - time.monotonic()))[0]:
                self.lost = f"the shell doesn't show {marks}, but {self.shown!r}"
                raise TimeoutError(self.lost)
            try:
                self.shown += os.read(self.screen, 65536)
            except OSError as error:
                if error.errno != errno.EIO:
                    raise
                raise EOFError(f"the shell ended: {self.shown!r}") from error

    def next_prompt(self):
        """Waits for the next prompt. A line that isn't whole is given up."""
        self.prompts += 1
        ready = f"[ready {self.prompts}]".encode()
        if self.await_one(ready, b"[more]") != ready:
            os.write(self.screen, b"\x03")
            self.await_behind_interrupt(ready)

    def await_behind_interrupt(self, ready):
        """Waits for the prompt behind an interrupt. On a full machine a shell may lose it; an empty line then brings the next one."""
        try:
            self.await_one(ready)
        except TimeoutError:
            self.lost = ""
            os.write(self.screen, b"\r")
            # The line brings the prompt that was missing, or the one behind it, or the shell shows both.
            behind = f"[ready {self.prompts + 1}]".encode()
            shown = self.await_one(ready, behind)
            self.settle()
            if shown == behind or behind in self.shown:
                self.prompts += 1

    def enter(self, keys):
        """Types these keys and Enter, and waits for the next prompt."""
        if self.lost:
            raise TimeoutError(self.lost)
        self.settle()
        os.write(self.screen, keys.encode() + b"\r")
        # A shell may drop what is typed while it makes its prompt. Then nothing is echoed, and it is typed again.
        if not select.select([self.screen], [], [], LONGEST_ECHO)[0]:
            os.write(self.screen, keys.encode() + b"\r")
        self.next_prompt()

    def settle(self):
        """Reads what still belongs to a prompt."""
        while select.select([self.screen], [], [], 0.03)[0]:
            try:
                self.shown += os.read(self.screen, 65536)
            except OSError:
                return


class Room:
    """A folder with the stand-in, and with folders to complete in."""

    def __init__(self):
        self.top = os.path.realpath(tempfile.mkdtemp())
        self.arguments = os.path.join(self.top, "arguments")
        self.folders = 0
        for path in ("bin", "home", "functions", "data/fish/generated_completions"):
            os.makedirs(os.path.join(self.top, path))
        self.written("bin/focusd", STAND_IN)
        os.chmod(os.path.join(self.top, "bin/focusd"), 0o755)

    def close(self):
        shutil.rmtree(self.top)

    def written(self, path, text):
        path = os.path.join(self.top, path)
        with open(path, "w", encoding="utf-8") as file:
            file.write(text)
        return path

    def folder_with(self, files, folders=()):
        """A new folder, whose path needs no quotes, with these empty files and folders."""
        self.folders += 1
        folder = os.path.join(self.top, f"folder{self.folders}")
        os.mkdir(folder)
        for name in folders:
            os.mkdir(os.path.join(folder, name))
        for name in files:
            with open(os.path.join(folder, name), "w", encoding="utf-8"):
                pass
        return folder

    def environ(self):
        kept = {name: text for name, text in os.environ.items() if not name.startswith(("LC_", "XDG_", "BASH", "ZDOTDIR"))}
        home = os.path.join(self.top, "home")
        return kept | {
            "PATH": f"{self.top}/bin:{os.environ['PATH']}",
            "HOME": home,
            "ZDOTDIR": home,
            "XDG_DATA_HOME": os.path.join(self.top, "data"),
            "XDG_CONFIG_HOME": os.path.join(self.top, "data"),
            "LC_ALL": "C.UTF-8",
            "TERM": "xterm",
            "FOCUSD_ARGUMENTS": self.arguments,
        }


def source(path):
    with open(os.path.join(TOP, path), encoding="utf-8") as file:
        return file.read()


def bash(room, completion):
    start = room.written("bashrc", f"{completion}\nPROMPT_COMMAND='(( ++turn ))'\nPS1='[ready $turn]'\nPS2='[more]'\n")
    return ["bash", "--noprofile", "--rcfile", start, "-i"]


def zsh(room, completion):
    room.written("functions/_focusd", completion)
    start = f"fpath=({room.top}/functions $fpath)\nautoload -Uz compinit\ncompinit -D -u\nprecmd() {{ (( ++turn )) }}\n"
    room.written("home/.zshrc", f"{start}setopt prompt_subst\nPS1='[ready $turn]'\nPS2='[more]'\n")
    return ["zsh", "-d", "-i"]


def fish(room, completion):
    start = "set -g turn 0\nfunction next_turn --on-event fish_prompt\n    set -g turn (math $turn + 1)\nend\n"
    start += 'function fish_prompt\n    echo -n "[ready $turn]"\nend\nfunction fish_greeting\nend\n'
    return ["fish", "--no-config", "--interactive", "--init-command", f"source {room.written('start.fish', completion + start)}"]


class AtThePrompt:
    """The tests of a shell."""

    start = None

    @staticmethod
    def can(name, within=""):
        """Whether the shell itself completes this name, within a quote, or as a folder (`/`) that is looked into. What it can't runs nothing."""
        return True

    @staticmethod
    def can_folder(name):
        """Whether the shell itself completes a folder of this name."""
        return True

    @classmethod
    def setUpClass(cls):
        shell = cls.start.__name__
        if shell != "bash" and not ALL_SHELLS:
            raise unittest.SkipTest(f"{shell}: by --all-shells")
        if not shutil.which(shell):
            if shell == "bash":
                raise FileNotFoundError("bash is not installed")
            print(f"skipped {shell}: it is not installed", file=sys.stderr)
            raise unittest.SkipTest(f"{shell} is not installed")
        cls.room = Room()
        cls.addClassCleanup(cls.room.close)
        cls.terminal = cls.opened(source(cls.path))
        cls.addClassCleanup(cls.terminal.close)

    @classmethod
    def opened(cls, completion):
        return Terminal(cls.start(cls.room, completion), cls.room.environ(), cls.room.top)

    def arguments(self, keys, folder, terminal=None):
        """The arguments that focusd gets after these keys and Enter, typed in this folder. None where it was not run."""
        terminal = terminal or self.terminal
        if os.path.exists(self.room.arguments):
            os.remove(self.room.arguments)
        terminal.enter(f"cd {folder}")
        terminal.enter(keys)
        try:
            with open(self.room.arguments, encoding="utf-8") as file:
                return file.read().split("\0")[:-1]
        except FileNotFoundError:
            return None

    def wrong_with(self, keys, folder, *expected, terminal=None):
        """What is wrong with what comes of these keys, or an empty text. The last of the arguments is any of those expected."""
        before = keys.removeprefix("focusd ").replace("\t", "").split(" ")[:-1]
        there = sorted(os.listdir(folder))
        got = self.arguments(keys, folder, terminal)
        if sorted(os.listdir(folder)) != there:
            return f"{keys!r} ran something, which left {os.listdir(folder)}"
        return "" if got in [[*before, one] for one in expected] else f"{keys!r} gave {got}, expected {before} and one of {expected}"

    def assert_completes(self, keys, folder, *expected, can=True):
        with self.subTest(keys=keys, expected=expected):
            wrong = self.wrong_with(keys, folder, *expected)
            self.assertTrue(not wrong or not can and "ran something" not in wrong, wrong)

    def test_a_file_comes_as_one_argument(self):
        for name in NAMES + LINE_FEEDS:
            folder = self.room.folder_with([name])
            self.assert_completes("focusd import \t", folder, name, can=self.can(name))
            if name[0].isalpha():
                self.assert_completes(f"focusd import {name[0]}\t", folder, name, can=self.can(name))

    def test_a_file_comes_as_one_argument_within_quotes(self):
        for name in HARD + LINE_FEEDS:
            folder = self.room.folder_with([name])
            for quote in "'\"":
                self.assert_completes(f"focusd check {quote}\t", folder, name, can=self.can(name, quote))

    def test_a_file_in_a_folder_with_such_a_name(self):
        for name in HARD:
            folder = self.room.folder_with([], [name])
            inner = os.path.join(name, name)
            with open(os.path.join(folder, inner), "w", encoding="utf-8"):
                pass
            self.assert_completes("focusd load \t\t", folder, inner, can=self.can(name, "/"))

    def test_a_name_like_an_option(self):
        for name in OPTIONS:
            folder = self.room.folder_with([name])
            self.assert_completes("focusd import \t", folder, f"./{name}", can=self.can(name))
            self.assert_completes("focusd import ./\t", folder, f"./{name}")
            self.assert_completes("focusd import -- -\t", folder, name)

    def test_only_folders_are_offered_for_a_folder(self):
        for name in NAMES + LINE_FEEDS:
            folder = self.room.folder_with(["a file", "-file"], [name])
            self.assert_completes("focusd status --dir \t", folder, name, f"{name}/", can=self.can_folder(name))

    def test_words(self):
        folder = self.room.folder_with(["xyz"])
        for keys, last in (
            ("focusd he\t", "help"),
            ("focusd help im\t", "import"),
            ("focusd --vers\t", "--version"),
            ("focusd status --d\t", "--dir"),
            ("focusd check --format j\t", "json"),
            ("focusd report --by d\t", "day"),
            ("focusd coverage --format t\t", "table"),
            # No files where none is expected.
            ("focusd report x\t", "x"),
            ("focusd xy\t", "xy"),
            ("focusd explain x\t", "x"),
            ("focusd import --origin x\t", "x"),
        ):
            self.assert_completes(keys, folder, last)


class Bash(AtThePrompt, unittest.TestCase):
    start = staticmethod(bash)
    path = make_manual.BASH

    def test_the_completion_as_it_was_is_caught(self):
        terminal = self.opened(WRONG)
        self.addCleanup(terminal.close)
        for name in CAUGHT:
            folder = self.room.folder_with([name])
            keys = f"focusd import {name[0]}\t"
            self.assertNotEqual(self.wrong_with(keys, folder, name, terminal=terminal), "", name)
            self.assertEqual("PWNED" in name, os.path.exists(os.path.join(folder, "PWNED")), name)
            self.assertEqual(self.wrong_with(keys, self.room.folder_with([name]), name), "")

    def test_names_behind_equals_home_and_redirections(self):
        folder = self.room.folder_with(["a $(touch PWNED).csv"], ["D $(touch PWNED)"])
        self.assert_completes("focusd status --dir=\t", folder, "--dir=D $(touch PWNED)/")
        self.assert_completes("focusd check --format=j\t", folder, "--format=json")
        home = os.path.join(self.room.top, "home")
        with open(os.path.join(home, "a $(touch PWNED).csv"), "w", encoding="utf-8"):
            pass
        for keys in ("focusd import ~/a\t", "focusd import $HOME/a\t", 'focusd import "$HOME"/a\t'):
            self.assert_completes(keys, folder, f"{home}/a $(touch PWNED).csv")
        self.assertEqual(self.arguments("focusd run <a\t", folder), ["run"])
        self.assertFalse(os.path.exists(os.path.join(folder, "PWNED")))

    def offered(self, *words, within):
        """What the function offers for the last of these words."""
        call = 'source "$1"; shift; COMP_WORDS=("$@"); COMP_CWORD=$(($# - 1)); _focusd; printf "%s\\0" "${COMPREPLY[@]}"'
        command = ["bash", "--norc", "-c", call, "bash", os.path.join(TOP, make_manual.BASH), "focusd", *words]
        done = subprocess.run(command, cwd=within, env=self.room.environ(), stdout=subprocess.PIPE, text=True, check=True)
        return sorted(done.stdout.split("\0")[:-1]) if done.stdout != "\0" else []

    def test_what_is_offered(self):
        commands = "add charge check checkpoint commitments compact compare coverage dump explain export help import lines load policy replace report run split status verify withdraw".split()
        options = ["--create", "--currency", "--dialect", "--dir", "--help", "--keep", "--origin", "--quiet", "--summary", "--workers"]
        folder = self.room.folder_with(["-x.csv", "a b.csv", "a$(touch PWNED).csv"], ["costs now"])
        for words, offered in (
            ([""], sorted(commands)),
            (["-"], ["--help", "--version"]),
            (["c"], ["charge", "check", "checkpoint", "commitments", "compact", "compare", "coverage"]),
            (["help", ""], sorted(set(commands) - {"help"})),
            (["import", "-"], options),
            (["import", "--q"], ["--quiet"]),
            (["import", ""], ["./-x.csv", "a b.csv", "a$(touch PWNED).csv", "costs now"]),
            (["import", "a"], ["a b.csv", "a$(touch PWNED).csv"]),
            (["import", "--", "-"], ["-x.csv"]),
            (["import", "--dir", ""], ["costs now"]),
            (["import", "--dir", "=", "c"], ["costs now"]),
            (["import", "--currency", ""], []),
            (["report", "--format", ""], ["csv", "html", "json", "table"]),
            (["report", "--by", "m"], ["month"]),
            (["add", "-"], ["--dir", "--dry-run", "--help", "--origin", "--summary", "--yes"]),
            (["status", ""], ["--dir", "--help"]),
            (["status", "a"], []),
            (["run", "<", "a"], ["a b.csv", "a$(touch PWNED).csv"]),
            # Of a word that bash has cut, the start is not known.
            (["import", "x", ":", "a"], []),
            (["import", "x", "="], []),
            (["x", ""], []),
        ):
            with self.subTest(words=words):
                self.assertEqual(self.offered(*words, within=folder), sorted(offered))
        self.assertFalse(os.path.exists(os.path.join(folder, "PWNED")))


class Zsh(AtThePrompt, unittest.TestCase):
    start = staticmethod(zsh)
    path = make_manual.ZSH

    @staticmethod
    def can(name, within=""):
        # It leaves a quote open, and doesn't look into a folder whose name has a backslash.
        return not (within == "'" and "'" in name or within == "/" and "\\" in name)


class Fish(AtThePrompt, unittest.TestCase):
    start = staticmethod(fish)
    path = make_manual.FISH

    @staticmethod
    def can(name, within=""):
        # It cuts a name at a tab, and puts no ./ before a name that begins with -.
        return "\t" not in name and name not in OPTIONS

    @staticmethod
    def can_folder(name):
        # It lists folders line by line.
        return "\t" not in name and "\n" not in name


if __name__ == "__main__":
    parser = parser_of(__doc__)
    parser.add_argument("--all-shells", action="store_true", help="try zsh and fish too, where they are installed")
    ALL_SHELLS = options_of_tests(parser).all_shells
    unittest.main()
