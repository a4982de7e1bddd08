#!/usr/bin/env python3
"""Tries must-fail edits, many of them in one check.

    tools/edits.py fw_money fw_charge          tries all edits of these crates
    tools/edits.py fw_money/cuts_digits        tries one edit
    tools/edits.py --one-by-one fw_money       tries each edit in a copy of its own, as `rt must-fail` does, to compare

An edit of a function's body changes no contract. So beside each function that an edit turns stands, in one copy of the crate, a second one: with another name,
the edited body, the same contract and the same proof files. One check then has to prove every function as it stands, and to refuse each
second one at a goal of its own. Two edits of one function, or of a function and of what it calls, don't meet: each second function calls those that are as they were.

An edit of anything else has a copy of its own, in which the crate must be refused: a definition, a constant, a contract, a proof, a method of a trait's `impl`, a
function that calls itself.

The copies of a crate are checked one after the other, each over what the ones before it proved. The crates below have to be built, in
crates/NAME/out/rlib, as `rt ci` and `rt check` leave them.

Exit status: 0 where every edit was refused, 1 where one wasn't, 2 where nothing could be tried.
"""

import os
import re
import subprocess
import sys
import tempfile
import threading
import time
import zlib
from concurrent.futures import ThreadPoolExecutor
from dataclasses import dataclass

from command_line import add_top, parser_of
from crates_txt import below, deps_of, lines_of
from functions import functions_of

# The parts of a crate that a check reads.
PARTS = ("src", "specs", "proofs")
# The most edits of one copy: more would take more memory than a check has.
MOST_TOGETHER = 32
# What stands behind the name of a second function, before its number.
TURNED = "_turned_"
# A line of a check that says what became of a function.
VERDICT = re.compile(r"fn (\S+): (.*)")
# What such a line says where the function calls one that isn't proved.
CALLS = re.compile(r"it calls `([^`]+)`")
# A message that is due to names alone: the edit took away what a proof file names, which says little of the contract.
NAMES = re.compile(r"(note: )?(\./)?proofs/.*(has no field|is not in scope|has no `|was not admitted)")
# What becomes of an edit: refused; still proved; not applied or not read by the compiler; nothing is known.
REFUSED, MISSED, BAD, UNSURE = "refused", "NOT REFUSED", "BAD EDIT", "NOT TRIED"


class EditError(Exception):
    """Why an edit can't be applied."""


@dataclass(frozen=True)
class Edit:
    """A must-fail edit: the crate, the name of its file, and its changes, each a file, the old text and the new one."""

    crate: str
    name: str
    changes: tuple

    @classmethod
    def read(cls, path):
        changes, file, old = [], "", None
        with open(path, encoding="utf-8", errors="replace") as lines:
            for line in lines.read().split("\n"):
                if line.startswith("file: "):
                    file = line[6:].strip()
                elif line.startswith("old: "):
                    old = line[5:]
                elif line.startswith("new:") and old is not None:
                    changes.append((file, old, line[4:].removeprefix(" ")))
                    old = None
        parts = path.split(os.sep)
        return cls(parts[-3], parts[-1], tuple(changes))

    def applied(self, texts):
        """The texts by file with the changes made, each on what the earlier ones made."""
        made = dict(texts)
        if not self.changes:
            raise EditError("it has no 'old:' and 'new:' pair")
        for file, old, new in self.changes:
            count = made.get(file, "").count(old)
            if count != 1:
                raise EditError(f"an 'old:' text is in {file} {count} times, and not once")
            made[file] = made[file].replace(old, new)
        return made


def module_of(file):
    """The path of the module that a source file holds, as ['a', 'b'] of src/a/b.rt."""
    parts = file.removesuffix(".rt").split("/")[1:]
    return parts[:-1] if parts[-1] in ("lib", "main", "mod") else parts


class Crate:
    """A crate's texts by file."""

    def __init__(self, folder):
        self.folder, self.name, self.texts = folder, os.path.basename(folder), {}
        for part in PARTS:
            for at, _, names in sorted(os.walk(f"{folder}/{part}")):
                for name in sorted(names):
                    path = os.path.relpath(f"{at}/{name}", folder)
                    with open(f"{at}/{name}", encoding="utf-8") as file:
                        self.texts[path] = file.read()
        sources = {file: text for file, text in self.texts.items() if file.endswith(".rt")}
        self.functions = {file: functions_of(text) for file, text in sources.items()}
        # The files that declare a type of this name.
        self.homes = {}
        for file, text in sources.items():
            for name in re.findall(r"(?m)^\s*(?:pub(?:\(\w+\))? )?(?:struct|enum|union) (\w+)", text):
                self.homes.setdefault(name, []).append(file)

    def turned(self, edit):
        """The functions that an edit turns and that can stand a second time, each as its file and its number there, or None where it turns anything else."""
        found, texts = set(), dict(self.texts)
        for file, old, new in edit.changes:
            at = texts[file].find(old)
            some = functions_of(texts[file]) if file.endswith(".rt") else []
            inside = [number for number, function in enumerate(some) if function.start < at and at + len(old) <= function.end]
            if len(some) != len(self.functions.get(file, ())) or not inside:
                return None
            found.add((file, inside[0]))
            texts[file] = texts[file].replace(old, new, 1)
        return None if any(self._stands_alone(file, self.functions[file][number]) for file, number in found) else found

    def _stands_alone(self, file, function):
        """Whether a function can't stand a second time: one that a trait asks for, or that is in a cycle of calls, whose proof goes by another name."""
        calls_itself = f"+{function.name}" in "".join(path for path in self.texts if path.startswith("proofs/"))
        return function.is_of_trait or calls_itself or "cycle" in self.texts[file][function.item : function.at]

    def folder_of(self, file, function):
        """The folder of a function's proof files: that of a method lies where its type is declared."""
        homes = self.homes.get(function.owner, [file])
        file = file if file in homes else homes[0]
        return "/".join(["proofs", *module_of(file), *([function.owner] if function.owner else []), function.name])

    def planted(self, edits):
        """The crate's texts with a second function for each that an edit turns, and the names of these by edit."""
        texts, added, names = dict(self.texts), {}, {}
        for edit in edits:
            changed = edit.applied(self.texts)
            for file, number in sorted(self.turned(edit)):
                function, second = self.functions[file][number], functions_of(changed[file])[number]
                name = f"{function.name}{TURNED}{sum(map(len, names.values())) + 1}"
                text = changed[file]
                body = text[second.item : second.at] + name + text[second.at + len(second.name) : second.end]
                added.setdefault(file, []).append((function.end, f"\n\n{body}\n"))
                names.setdefault(edit, []).append((self.folder_of(file, function), name))
                texts.update(self._proof_again(file, function, name))
        for file, some in added.items():
            for at, text in sorted(some, reverse=True):
                texts[file] = texts[file][:at] + text + texts[file][at:]
        return texts, names

    def _proof_again(self, file, function, name):
        """The proof files of a function, for its second one."""
        folder = self.folder_of(file, function)
        above = folder.rpartition("/")[0]
        path = re.compile(rf"(Rattle\.{self.name}\.{folder.replace('/', '.')})(?![\w'-])".replace("+", r"\+"))
        again = f"Rattle.{self.name}.{above}/{name}".replace("/", ".")
        return {f"{above}/{name}/{part[len(folder) + 1 :]}": path.sub(again, text) for part, text in self.texts.items() if part.startswith(f"{folder}/")}


@dataclass
class Said:
    """What a check said: its exit status and its lines."""

    status: int
    lines: list

    @staticmethod
    def is_proved(verdict):
        """Whether a verdict says that a function is proved: a closure is so where its callers give what it asks, which they have to."""
        return verdict.startswith("proved")

    def verdicts(self):
        """What the check says of each function, by the name that it prints."""
        found = (VERDICT.fullmatch(line) for line in self.lines)
        return {match[1]: match[2] for match in found if match}

    def is_of_prover(self):
        """Whether the prover gave a verdict on the crate."""
        return self.status in (0, 1) and bool(self.lines) and self.lines[-1].startswith("logic=")

    def told(self):
        """The messages of the prover that stand at a place of a file."""
        placed = [line for line in self.lines if re.match(r"(note: )?\S+:\d+:\d+:", line)]
        return [line for line in placed if ": error" in line or line.startswith("note: ")]


@dataclass
class Outcome:
    """What became of an edit, and the message that shows it."""

    kind: str
    said: str = ""


@dataclass
class Tally:
    """How many checks a crate's edits took, and the processor seconds of these, and of those with many edits."""

    checks: int = 0
    spent: float = 0
    together: float = 0


class Checker:
    """Checks copies of a crate, one after the other, over what the earlier ones proved."""

    def __init__(self, crate, words, room, lane):
        self.crate, self.words, self.room, self.lane, self.tally = crate, words, room, lane, Tally()
        os.makedirs(f"{room}/kept", exist_ok=True)

    def check(self, texts):
        """What a check says of the crate with these texts."""
        with tempfile.TemporaryDirectory(prefix="edit-", dir=self.room) as copy:
            for path, text in texts.items():
                os.makedirs(os.path.dirname(f"{copy}/{path}"), exist_ok=True)
                with open(f"{copy}/{path}", "w", encoding="utf-8") as file:
                    file.write(text)
            with self.lane:
                process = subprocess.Popen(
                    ["nice", "-n", "10", *self.words, "--incremental", f"{self.room}/kept", "--jobs", "1"],
                    cwd=copy, stdin=subprocess.DEVNULL, stdout=subprocess.PIPE, stderr=subprocess.STDOUT, errors="replace",
                )
                self.lane.began(process)
                lines = process.stdout.read().rstrip("\n").split("\n")
                _, status, used = os.wait4(process.pid, 0)
                process.returncode = os.waitstatus_to_exitcode(status)
        spent = used.ru_utime + used.ru_stime
        self.tally.checks += 1
        self.tally.spent += spent
        self.tally.together += spent * any(TURNED in text for path, text in texts.items() if path.endswith(".rt"))
        return Said(process.returncode, lines)


def judged_alone(said, edit):
    """What a check of a copy with one edit shows: the crate has to be refused."""
    if said.status == 0:
        return Outcome(MISSED, "the crate is still proved with this edit")
    if said.status == 1 and said.is_of_prover():
        files = tuple({file for file, _, _ in edit.changes}) + ("src/", "specs/")
        unread = next((line for line in said.lines if is_unread(line, files)), None)
        if unread:
            return Outcome(BAD, f"the prover can't read the edited text: {unread}")
        told = said.told()
        other = next((line for line in told if not NAMES.match(line)), None)
        return Outcome(REFUSED, other or (f"only because a proof file names what the edit took away: {told[0]}" if told else ""))
    if said.status == 1 and any(re.search(r"\berror\[[\w-]+\]", line) for line in said.lines):
        return Outcome(BAD, "it did not reach the prover: " + " / ".join(said.lines[:4]))
    return Outcome(UNSURE, f"its check ended with status {said.status}: " + " / ".join(said.lines[-3:]))


def is_unread(line, files):
    """Whether a message says that a text can't be read, where an edit that only makes a statement false reads well."""
    at = re.match(r"(?:\./)?(\S+?):\d+:\d+: error: (?:(`[^`]*`): )?(.*)", line)
    if not at or not at[1].startswith(files):
        return False
    words = re.sub(r"`[^`]*`", "", at[3])
    return not at[2] or bool(re.search(r"is not in scope|has no field|is no name|operand is missing|expected the end|cannot continue", words))


class Together:
    """Judges the edits that were planted in one copy of a crate."""

    def __init__(self, crate, texts, names, said):
        self.crate, self.texts, self.said, self.verdicts = crate, texts, said, said.verdicts()
        self.seconds = {name: [printed for printed in self.verdicts if name in re.split("::", printed)] for some in names.values() for _, name in some}

    def fault(self):
        """Why the check says nothing, or None: each function as it stands has to be proved."""
        if not self.said.is_of_prover():
            return f"no verdict, status {self.said.status}: " + " / ".join(self.said.lines[:3])
        others = {printed for some in self.seconds.values() for printed in some}
        open_ones = [printed for printed, verdict in self.verdicts.items() if not self.said.is_proved(verdict) and printed not in others]
        return f"{open_ones[0]}: {self.verdicts[open_ones[0]]}" if open_ones else None

    def misplaced(self, seconds):
        """Why an edit isn't judged by its second functions, or None: each has to stand once, with the proof files of the first."""
        for folder, name in seconds:
            printed = [it for it in self.seconds[name] if it.endswith(f"::{name}") and "::fn::" not in it]
            if len(printed) != 1:
                return f"{name} is named {len(printed)} times"
            proper = "proofs/" + "/".join(printed[0].split("::")[1:-1] + [name.rpartition(TURNED)[0]])
            if proper != folder and (self._has_files(proper) or self._has_files(folder)):
                return f"the proof files of {printed[0]} are those of {folder}"
        return None

    def _has_files(self, folder):
        return any(path.startswith(f"{folder}/") for path in self.crate.texts)

    def messages(self, name):
        """The messages on a second function: at its lines, or in the folder of its proof."""
        found = [line for line in self.said.told() if f"/{name}/" in line.split(":")[0 if line.startswith(("./", "proofs")) else 1]]
        for file, text in self.texts.items():
            if file.endswith(".rt") and name in text:
                for function in functions_of(text):
                    if function.name == name:
                        first, last = (text.count("\n", 0, place) + 1 for place in (function.item, function.end))
                        placed = ((line, re.match(r"(?:note: )?(?:\./)?(\S+?):(\d+):\d+:", line)) for line in self.said.told())
                        found += [line for line, at in placed if at and at[1] == file and first <= int(at[2]) <= last]
        return found

    def outcome(self, seconds):
        """What the check shows of an edit, by its second functions."""
        misplaced = self.misplaced(seconds)
        if misplaced:
            return Outcome(UNSURE, misplaced)
        printed = [it for _, name in seconds for it in self.seconds[name]]
        refused = [it for it in printed if self.verdicts[it].startswith(("not proved", "no proof")) and not CALLS.search(self.verdicts[it])]
        if refused:
            told = [line for _, name in seconds for line in self.messages(name)]
            other = next((line for line in told if not NAMES.match(line)), None)
            if other or not told:
                return Outcome(REFUSED, other or f"fn {refused[0]}: {self.verdicts[refused[0]]}")
            return Outcome(REFUSED, f"only because a proof file names what the edit took away: {told[0]}")
        if all(self.said.is_proved(self.verdicts[it]) for it in printed):
            return Outcome(MISSED, "the function is still proved with this edit")
        return Outcome(UNSURE, f"fn {printed[0]}: {self.verdicts[printed[0]]}")


def in_parts(some, most):
    """A list in as few parts as may be, none longer than so much, and of about the same length."""
    count = -(-len(some) // most)
    return [some[number::count] for number in range(count)]


def sampled(crate, edits, most):
    """One of so many edits, by a checksum of the crate's texts, so that others are chosen once it changes."""
    sum = zlib.crc32("".join(crate.texts[path] for path in sorted(crate.texts)).encode())
    return edits[sum % most :: most] if most else []


def try_crate(crate, edits, check, one_by_one=False, sample=0, say=lambda line: None):
    """What becomes of each edit of a crate. `check` gives what a check of these texts says. Of the edits that are tried together one of `sample` is tried alone as well."""
    outcomes, together, alone = {}, [], []
    for edit in edits:
        try:
            edit.applied(crate.texts)
        except EditError as error:
            outcomes[edit] = Outcome(BAD, str(error))
        else:
            (alone if one_by_one or not crate.turned(edit) else together).append(edit)
    for chosen in in_parts(together, MOST_TOGETHER):
        texts, names = crate.planted(chosen)
        judge = Together(crate, texts, names, check(texts))
        fault = judge.fault()
        if fault:
            say(f"{crate.name}: {len(chosen)} edits together say nothing, so each gets a copy of its own: {fault}")
        found = {} if fault else {edit: judge.outcome(names[edit]) for edit in chosen}
        for edit, outcome in found.items():
            if outcome.kind == REFUSED:
                outcomes[edit] = outcome
            else:
                say(f"{crate.name}: {edit.name} is tried alone: among others it came out as {outcome.kind}: {outcome.said}")
        alone += [edit for edit in chosen if edit not in outcomes]
    for edit in [*alone, *(edit for edit in sampled(crate, together, sample) if edit in outcomes)]:
        found = judged_alone(check(edit.applied(crate.texts)), edit)
        if edit in outcomes and found.kind != REFUSED:
            say(f"must-fail {crate.name}/{edit.name}: among others it was refused ({outcomes[edit].said[:100]}), and alone it is not")
        outcomes[edit] = outcomes.get(edit, found) if found.kind == REFUSED else found
    return outcomes


def kit():
    """The folder of the toolchain."""
    return os.path.dirname(subprocess.run(["rt", "doc"], stdout=subprocess.PIPE, check=True, text=True).stdout.strip())


def words_of(top, name, deps):
    """The command that checks a crate, over the libraries that are built in the tree."""
    at, crates = kit(), f"{top}/crates"
    root = "src/main.rt" if os.path.isfile(f"{crates}/{name}/src/main.rt") else "src/lib.rt"
    words = [f"{at}/bin/rattle", "check", "--crate-name", name, root, "-L", f"dependency={at}/rlibs"]
    own = [dep for dep in deps[name] if dep in deps]
    for dep in ["std", *(dep for dep in deps[name] if dep not in deps)]:
        words += ["--extern", f"{dep}={at}/rlibs/{dep}.rlib"]
    for dep in own:
        words += ["--extern", f"{dep}={crates}/{dep}/out/rlib/{dep}.rlib"]
    for dep in sorted(below(name, deps)):
        words += ["-L", f"dependency={crates}/{dep}/out/rlib"]
    return [*words, "--antt-project", f"{at}/rattle/logic/antt-project.json", "--logic-built", f"{at}/logic_built"]


class LanesClosed(Exception):
    """No check begins any more: the run was told to stop."""


class Lanes:
    """Lets so many checks run at once, and none that memory has no room for beside others."""

    # What a check may take, in bytes.
    NEED = 5 << 30

    def __init__(self, most):
        self.most, self.running, self.turn = most, 0, threading.Condition()
        self.is_closed, self.processes = False, []

    def began(self, process):
        """Notes a check that runs, so that it can be ended."""
        with self.turn:
            self.processes = [it for it in self.processes if it.returncode is None] + [process]
            if self.is_closed:
                process.kill()

    def close(self):
        """Lets no check begin any more, and ends those that run."""
        with self.turn:
            self.is_closed = True
            for process in self.processes:
                if process.returncode is None:
                    process.kill()
            self.turn.notify_all()

    def widen(self, most):
        with self.turn:
            self.most = most
            self.turn.notify_all()

    def __enter__(self):
        with self.turn:
            while not self.is_closed and (self.running >= self.most or self.running and free_memory() < self.NEED):
                self.turn.wait(timeout=2)
            if self.is_closed:
                raise LanesClosed
            self.running += 1

    def __exit__(self, *_):
        with self.turn:
            self.running -= 1
            self.turn.notify_all()


def free_memory():
    with open("/proc/meminfo", encoding="ascii") as file:
        return 1024 * int(re.search(r"MemAvailable:\s+(\d+)", file.read())[1])


def run_crate(top, name, edits, lanes, one_by_one=False, sample=0, say=print):
    """Tries some edits of a crate, and says what became of each: the outcomes, and what it took."""
    deps = deps_of(lines_of(top))
    crate = Crate(f"{top}/crates/{name}")
    with tempfile.TemporaryDirectory(prefix=f"edits-{name}-") as room:
        checker = Checker(crate, words_of(top, name, deps), room, lanes)
        began = time.monotonic()
        outcomes = try_crate(crate, edits, checker.check, one_by_one, sample, say)
    for edit, outcome in sorted(outcomes.items(), key=lambda item: item[0].name):
        verdict = "refused, as it must be" if outcome.kind == REFUSED else outcome.kind
        say(f"must-fail {name}/{edit.name}: {verdict}{': ' + outcome.said[:200] if outcome.said else ''}")
    refused = sum(outcome.kind == REFUSED for outcome in outcomes.values())
    say(
        f"{name}: {refused} of {len(outcomes)} edits refused, in {checker.tally.checks} checks, {checker.tally.spent:.0f} s of the processor"
        f" ({checker.tally.together:.0f} of them with many edits), {time.monotonic() - began:.0f} s by the clock"
    )
    return outcomes, checker.tally


def edits_of(top, name):
    """The edits of a crate."""
    folder = f"{top}/crates/{name}/must-fail"
    names = sorted(os.listdir(folder)) if os.path.isdir(folder) else []
    return [Edit.read(f"{folder}/{edit}") for edit in names if edit.endswith(".edit")]


def main():
    parser = parser_of(__doc__)
    parser.add_argument("crates", nargs="+", metavar="CRATE", help="a crate, or CRATE/NAME for one edit")
    parser.add_argument("--one-by-one", action="store_true", help="give each edit a copy of its own")
    add_top(parser)
    parser.add_argument("--at-once", type=int, default=1, metavar="N", help="crates tried at once (default: 1)")
    options = parser.parse_args()
    wanted = {}
    for word in options.crates:
        crate, _, name = word.partition("/")
        some = edits_of(options.top, crate)
        wanted.setdefault(crate, []).extend(edit for edit in some if not name or edit.name.removesuffix(".edit") == name)
    if not any(wanted.values()):
        print("tools/edits.py: no such edits", file=sys.stderr)
        return 2
    lanes = Lanes(options.at_once)
    say = lambda line: print(line, flush=True)
    with ThreadPoolExecutor(options.at_once) as pool:
        tried = list(pool.map(lambda item: run_crate(os.path.abspath(options.top), *item, lanes, options.one_by_one, 0, say), wanted.items()))
    return int(any(outcome.kind != REFUSED for outcomes, _ in tried for outcome in outcomes.values()))


if __name__ == "__main__":
    sys.exit(main())
