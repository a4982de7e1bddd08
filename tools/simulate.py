#!/usr/bin/env python3
"""Runs the system by chance, and checks every answer.

    tools/simulate.py out/fw_simulate --seeds 5000   runs so many seeds, and stops at the first difference
    tools/simulate.py out/fw_simulate --seed 7       runs one seed, and prints its script, its answers and what is wrong with them
    tools/simulate.py --script 7                     prints the script of a seed
    tools/simulate.py --self-test                    tries wrong bodies: some seed has to show each

PROGRAM is a built `fw_simulate`. A seed makes a script of events: importers post entries, repeated, with gaps and against the rules; groups are taken
and committed; checkpoints; analysts view and learn; the system stops and is opened again. Some scripts begin on a warehouse that an earlier version
wrote, whose log takes no withdrawal and no added purchase before a checkpoint. The device fails at some calls, and a stop leaves of what wasn't
synced the old bytes, the new ones, or others. Each answer is compared with what docs/DEFINITIONS.md and docs/PROOFS.md say of the running system;
when the device fails is its own choice, no more often than the script says. A script with a difference is made smaller before it is printed.

The self-test takes must-fail edits, those of the list WRONG where none is named. It applies each to a copy of the sources and runs `fw_simulate` from
there over the first 300 seeds, by `rt try`, which proves nothing. It begins with the sources as they are, by which no answer may differ. Each takes
some three minutes, most of it to compile.

Exit status: 0 no answer differs, 1 one does (self-test: a wrong body isn't found), 2 the program could not be run.
"""
import math
import os
import random
import re
import shutil
import subprocess
import sys
import tempfile
import time

from command_line import TOP, parser_of

MOST_ITEMS = 64
MOST_PURCHASES = 64
# The most that the purchases of a commitment cost together, and what each commitment of a script was bought for, in units of the currency.
MOST_COST, BOUGHT_FOR = 10**8, 1
NANOS = 10**9
BATCH = 250

# How many calls of the device it takes to make a warehouse.
CREATING = 8
# The kinds of entries, as lines begin.
POSTS = ("post", "use", "commitment", "policy", "add", "withdraw")
# The kinds that bring rows, and those that a side of the first form can't have.
WITH_ROWS, OF_SECOND_FORM = ("post", "use"), ("add", "withdraw")
# The kinds of events, and how often each comes while the system runs, and while it is stopped.
EVENTS = ("post", "take", "commit", "checkpoint", "view", "learn", "stop", "reopen")
WHILE_OPEN = (40, 13, 14, 5, 8, 6, 6, 2)
WHILE_STOPPED = (8, 2, 2, 2, 2, 2, 2, 40)

# How many seeds the self-test runs in one process.
TOGETHER = 25
# Wrong bodies that the prover refuses, each a must-fail edit of a crate, which seeds have to show as well.
WRONG = (
    "fw_group/the_answer_of_the_first_item",
    "fw_group/a_group_is_taken_while_one_is_in_hand",
    "fw_group/a_group_stays_in_hand",
    "fw_journal/acknowledged_before_the_last_sync",
    "fw_recover/the_older_side_is_in_use",
)


# ---- scripts

# The magic words of both forms of a side. What earlier versions wrote is of the first one, which has no withdrawals and no added purchases, and what
# is written now of the second.
FORMS = (b"FWHOUSE1", b"FWHOUSE2")
# A side of an empty warehouse in dollars: the gate, the magic word, the generation, a body of 19 bytes, and a closed gate.
BODY = "03000000" + b"USD".hex() + "00" * 12


def side(generation, form=FORMS[1]):
    """The bytes of a side of an empty warehouse, of 45 bytes."""
    return "01" + form.hex() + generation.to_bytes(8, "little").hex() + (19).to_bytes(8, "little").hex() + BODY + "00"


# The line before a script that begins on an empty warehouse of an earlier version. The first item of such a script is it and the line `run ..`.
OLD_FILES = f"files {1 << 20} {side(1, FORMS[0])} -\n"


class Sent:
    """What a script has sent so far, as it stands where no call of the device fails. By it most events of a script apply."""

    def __init__(self, importers, is_old=False):
        self.importers = importers
        self.waiting, self.hand = [], []
        self.stored, self.ahead = [], []
        self.commits = []
        # Whether the side in use is of the first form. A warehouse that is there has to be opened.
        self.is_old = self.stopped = is_old

    def free(self):
        """The importers that may post."""
        busy = {importer for importer, _ in self.waiting + self.hand}
        return [importer for importer in range(self.importers) if importer not in busy]

    def note(self, line, place):
        """Takes the event at a place."""
        words = line.split(" ")
        if words[0] == "reopen":
            self.stopped = False
        elif self.stopped:
            pass
        elif words[0] == "stop":
            self.stopped, self.waiting, self.hand, self.ahead = True, [], [], list(self.stored)
        elif words[0] == "take" and not self.hand:
            self.hand, self.waiting = self.waiting[:MOST_ITEMS], self.waiting[MOST_ITEMS:]
        elif words[0] == "checkpoint":
            self.is_old = False
        elif words[0] == "commit" and self.hand:
            accepted = accepted_of(self.stored, [entry for _, entry in self.hand])
            if not (self.is_old and needs_second_form(accepted)):
                self.commits.append(place)
                self.stored += accepted
                self.hand = []
        elif words[0] in POSTS and int(words[1]) in self.free():
            self.waiting.append((int(words[1]), entry_of(words)))
            self.ahead += accepted_of(self.ahead, [entry_of(words)])


def entry_of(words):
    """The entry that the words of a post bring."""
    return words[2], int(words[3]), words[0], *words[4:]


def accepted_of(entries, more):
    """Those of more entries that are accepted behind the entries, one after the other."""
    accepted = []
    for entry in more:
        if judged(entries + accepted, entry) == "accepted":
            accepted.append(entry)
    return accepted


def needs_second_form(entries):
    """Whether one of the entries withdraws a post or adds a purchase, which a side of the first form can't have."""
    return any(kind in OF_SECOND_FORM for _, _, kind, *_ in entries)


def ids_of(entries, kind):
    """The ids of the entries of a kind."""
    return [content[0] for _, _, other, *content in entries if other == kind]


def posts_of(entries, origin):
    """The numbers of the posts of an origin."""
    return [number for other, number, kind, *_ in entries if other == origin and kind in WITH_ROWS]


def counting(entries):
    """The posts that no withdrawal names."""
    withdrawn = {(origin, int(content[0])) for origin, _, kind, *content in entries if kind == "withdraw"}
    return [entry for entry in entries if entry[2] in WITH_ROWS and entry[:2] not in withdrawn]


def last_of(entries, origin):
    """The last number of an origin, 0 where it has none."""
    return max((number for other, number, *_ in entries if other == origin), default=0)


def number_for(chance, last):
    """A number for an entry of an origin whose last one is this: most often the next, else one that was used, or that leaves a gap."""
    kind = chance.random()
    if kind < 0.8:
        return last + 1
    return chance.randint(1, max(last, 1)) if kind < 0.9 else last + chance.randint(2, 3)


def post(chance, sent):
    """The line of a post."""
    free = sent.free()
    importer = chance.choice(free) if free and chance.random() < 0.9 else chance.randrange(sent.importers + 1)
    origin = chance.choice("aaabbc")
    last = last_of(sent.ahead, origin)
    words = [str(importer), origin, str(number_for(chance, last))]
    names, posts = ids_of(sent.ahead, "commitment"), posts_of(sent.ahead, origin)
    freed = [name for name in ids_of(sent.ahead, "use") if name not in ids_of(counting(sent.ahead), "use")]
    # Where there is a commitment, purchases are added to it often. Where the origin has posts, they are withdrawn often, and what was committed to by
    # rows that were withdrawn is committed to often.
    kind = chance.choices(POSTS, [12, 5, 12 if freed else 5, 1, 14 if names else 1, 12 if posts else 1])[0]
    if kind == "post":
        words += [str(chance.choice([1, 1, 2, 3])), str(chance.randint(-3, 9))]
    elif kind == "withdraw":
        # A post, perhaps one that is withdrawn already; or any entry of the origin, or one that it doesn't have.
        words.append(str(chance.choice(posts) if posts and chance.random() < 0.7 else chance.choice([*range(1, last + 3), 2**64 - 1])))
    else:
        often = {"add": names, "commitment": freed}.get(kind)
        words.append(chance.choice(often or ["x", "y", "z"]))
    if kind == "add":
        # Now and then as much as a commitment may cost, or nearly so.
        words.append(str(chance.randint(0, 9) if chance.random() < 0.8 else MOST_COST - chance.randint(0, 2)))
    return " ".join([kind, *words])


def learn(chance, analysts, place, sent):
    """The line by which an analyst learns of an item: most often of one that a commit answered."""
    at = chance.choice(sent.commits) if sent.commits and chance.random() < 0.8 else chance.randrange(place + 2)
    return f"learn {chance.randrange(analysts + 1)} {at} {chance.randrange(3)}"


def event(chance, analysts, place, sent):
    """The line of an event at a place."""
    kind = chance.choices(EVENTS, WHILE_STOPPED if sent.stopped else WHILE_OPEN)[0]
    if kind == "post":
        return post(chance, sent)
    if kind == "view":
        return f"view {chance.randrange(analysts + 1)}"
    return learn(chance, analysts, place, sent) if kind == "learn" else kind


def plan(chance, is_old):
    """How many calls of the device pass before each one that fails. Few fail while a warehouse is made."""
    passes = [chance.choice([0, 1, 2, chance.randint(0, 12), chance.randint(6, 60)]) for _ in range(chance.choice([0, 1, 1, 2, 3]))]
    if passes and not is_old and chance.random() < 0.95:
        passes[0] += CREATING
    return [str(calls) for calls in passes]


def script_of(seed):
    """The script of a seed: how it begins, and its events as lines."""
    chance = random.Random(seed)
    importers, analysts = chance.choice([1, 2, 3, 5, 8, 70]), chance.randint(1, 3)
    left = chance.choice(["old", "new", "0", "1", "7", str(chance.randrange(256))])
    is_old = chance.random() < 0.25
    lines, sent = ["reopen"] * is_old, Sent(importers, is_old)
    if importers == 70:
        lines += [f"post {importer} {importer}x 1 1 {importer}" for importer in range(70)] + ["take", "commit", "take", "commit"]
    for place, line in enumerate(lines):
        sent.note(line, place)
    for place in range(len(lines), len(lines) + chance.randint(5, 60)):
        lines.append(event(chance, analysts, place, sent))
        sent.note(lines[-1], place)
    run = " ".join(["run", str(importers), str(analysts), left, *plan(chance, is_old)])
    return [OLD_FILES * is_old + run, *lines, "stop", "reopen", "view 0", "end"]


# ---- what must be answered


class Wrong(Exception):
    """An answer that isn't one of those that may come."""


class System:
    """The running system: what waits, what is in hand, what is published, and what may be stored behind it. `begin` is how its script begins."""

    def __init__(self, begin):
        *files, run = begin.split("\n")
        words = run.split(" ")[1:]
        self.importers, self.analysts = int(words[0]), int(words[1])
        self.fails_left = {"once": 1, "ever": math.inf}.get(words[3], len(words) - 3) if len(words) > 3 else 0
        self.has_failed = False
        self.waiting, self.hand, self.published, self.group = [], [], [], []
        self.failed = False
        self.stopped = self.is_there = bool(files)
        self.is_made = True
        # The forms that the side in use may have.
        self.forms = {FORMS[0] if files else FORMS[1]}
        self.receipts = []

    def fails(self):
        """The device fails once more."""
        self.has_failed = True
        self.fails_left -= 1
        if self.fails_left < 0:
            raise Wrong("the device failed more often than the script says")

    def create(self, answer):
        """The warehouse is made, or not. One that is there is stopped."""
        if self.is_there:
            expect(answer, "stopped")
            return
        if answer == "created":
            return
        if answer != "not created S3 Device":
            raise Wrong("created, or not created S3 Device")
        self.fails()
        self.stopped, self.is_made = True, False

    def answer(self, line, answer):
        """Takes an event and its answer."""
        words = line.split(" ")
        receipts = []
        if words[0] == "reopen":
            self.reopen(answer)
        elif words[0] == "stop":
            expect(answer, "ignored" if self.stopped else "stopped")
            self.waiting, self.hand, self.stopped = [], [], True
        elif self.stopped:
            expect(answer, "ignored")
        elif words[0] == "take":
            self.take(answer)
        elif words[0] == "commit":
            receipts = self.commit(answer)
        elif words[0] == "checkpoint":
            self.checkpoint(answer)
        elif words[0] == "view":
            expect(answer, "viewed" + shown(self.published) if int(words[1]) < self.analysts else "ignored")
        elif words[0] == "learn":
            self.learn(answer, *map(int, words[1:]))
        else:
            self.post(answer, int(words[1]), entry_of(words))
        self.receipts.append(receipts)

    def post(self, answer, importer, entry):
        """An item goes last into what waits, if its importer has none."""
        is_free = all(item[0] != importer for item in self.waiting + self.hand)
        if importer < self.importers and is_free:
            expect(answer, "posted")
            self.waiting.append((importer, entry))
        else:
            expect(answer, "ignored")

    def take(self, answer):
        """The first items that wait go into the hand, if it is empty."""
        count = 0 if self.hand else min(len(self.waiting), MOST_ITEMS)
        expect(answer, f"took {count}")
        if count:
            self.hand, self.waiting = self.waiting[:count], self.waiting[count:]

    def commit(self, answer):
        """What is in hand is judged in turn and published; or it may be stored; or nothing is, and perhaps it stays in hand."""
        hand, self.hand = self.hand, []
        if self.failed and hand:
            expect(answer, "; ".join(["committed", *["closed"] * len(hand)]))
            return [False] * len(hand)
        now, answers, accepted = list(self.published), [], []
        for _, entry in hand:
            verdict = judged(now, entry)
            if verdict == "accepted":
                now.append(entry)
                accepted.append(entry)
                answers.append((f"accepted {len(now)}", True))
            else:
                answers.append((f"{verdict} at {len(now)}", False))
        if needs_second_form(accepted) and not self.is_of_second_form(answer):
            self.hand = hand
            return []
        if accepted and answer == "; ".join(["committed", *["unknown"] * len(hand)]):
            self.fails()
            self.failed, self.group = True, accepted
            return [False] * len(hand)
        expect(answer, "; ".join(["committed", *[f"{text} of {len(now)}" for text, _ in answers]]))
        self.published = now
        return [is_receipt for _, is_receipt in answers]

    def is_of_second_form(self, answer):
        """Whether the side in use is of the second form, by what is answered to a group that needs it."""
        if len(self.forms) > 1:
            self.forms = {FORMS[0] if answer == "failed S8 OldSide" else FORMS[1]}
        if FORMS[0] in self.forms:
            expect(answer, "failed S8 OldSide")
        return FORMS[1] in self.forms

    def checkpoint(self, answer):
        """The warehouse is written anew, as a side of the second form, which changes no list. Where the device fails, either side may be in use."""
        if self.failed:
            expect(answer, "failed S4 Failed")
        elif answer == "failed S3 Device":
            self.fails()
            self.failed = True
            self.forms = self.forms | {FORMS[1]}
        else:
            expect(answer, "checkpointed")
            self.forms = {FORMS[1]}

    def learn(self, answer, analyst, at, place):
        """An analyst learns of a receipt, if there is one."""
        receipts = self.receipts[at] if at < len(self.receipts) else []
        is_told = analyst < self.analysts and place < len(receipts) and receipts[place]
        expect(answer, "learned" if is_told else "ignored")

    def reopen(self, answer):
        """What was published is found, perhaps with what may be stored behind it."""
        if not self.stopped:
            expect(answer, "ignored")
        elif answer == "failed S3 Device":
            self.fails()
        elif answer == "failed S1 NoHouse" and not self.is_made:
            pass
        else:
            with_group = self.published + self.group
            if answer == "reopened" + shown(with_group):
                self.published = with_group
            else:
                expect(answer, "reopened" + shown(self.published))
            self.group, self.failed, self.stopped, self.is_made = [], False, False, True


def expect(answer, expected):
    """Holds an answer to the only one that may come."""
    if answer != expected:
        raise Wrong(expected)


def judged(entries, entry):
    """The verdict on an entry behind others."""
    origin, number, kind, *content = entry
    last = last_of(entries, origin)
    if number <= last:
        return f"already {last}"
    if number > last + 1:
        return f"gap {last + 1}"
    if kind == "add":
        return judged_purchase(entries, *content)
    if kind == "withdraw":
        return judged_withdrawal(entries, origin, int(content[0]))
    if kind == "commitment" and content[0] in ids_of(entries, "commitment"):
        return "refused 2"
    if kind == "commitment" and content[0] in ids_of(counting(entries), "use"):
        return "refused 3"
    if kind == "use" and content[0] in ids_of(entries, "commitment"):
        return "refused 4"
    return "accepted"


def judged_purchase(entries, name, cost):
    """The verdict on a purchase that is added to a commitment, behind entries."""
    if name not in ids_of(entries, "commitment"):
        return "refused 8"
    paid = [BOUGHT_FOR, *(int(content[1]) for _, _, kind, *content in entries if kind == "add" and content[0] == name)]
    return "refused 9" if len(paid) >= MOST_PURCHASES or sum(paid) + int(cost) > MOST_COST else "accepted"


def judged_withdrawal(entries, origin, target):
    """The verdict on the withdrawal of an origin's post of this number, behind entries."""
    if target not in posts_of(entries, origin):
        return "refused 6"
    return "accepted" if target in posts_of(counting(entries), origin) else "refused 7"


def shown(entries):
    """How a list of entries is printed, with the costs of the rows that count, in order."""
    heads, costs = [], []
    for origin, number, kind, *content in entries:
        if kind == "add":
            what = f"+{content[0]}:{int(content[1]) * NANOS}"
        else:
            what = {"post": ":", "use": ":", "commitment": "=", "policy": "!", "withdraw": "-"}[kind] + (content[0] if kind != "use" else "1")
        heads.append(f" {origin}/{number}{what}")
    for _, _, kind, *content in counting(entries):
        costs += [NANOS] if kind == "use" else [int(content[1]) * NANOS] * int(content[0])
    return "".join(heads) + " |" + "".join(f" {cost}" for cost in costs)


def fault_of(script, answers):
    """The first answer that is wrong: the number of its line, counted from 0, and what was expected; or None."""
    return after(script, answers)[1]


def after(script, answers):
    """The running system after a script with these answers, up to the first one that is wrong, and that one as `fault_of` has it."""
    system = System(script[0])
    for place, line in enumerate(script):
        answer = answers[place] if place < len(answers) else "nothing"
        try:
            if place == 0:
                system.create(answer)
            elif line == "end":
                expect(answer, "end")
            else:
                system.answer(line, answer)
        except Wrong as wrong:
            return system, (place, str(wrong))
    return system, None if len(answers) == len(script) else (len(script), "nothing more")


# ---- runs


def answers_of(program, scripts):
    """The answers to each script."""
    given = "\n".join("\n".join(script) for script in scripts) + "\n"
    done = subprocess.run(program, input=given, capture_output=True, text=True, check=False)
    if done.returncode:
        raise OSError(f"{program[0]} ended with status {done.returncode}: {done.stderr.strip()[:300]}")
    answers = split_answers(done.stdout)
    if len(answers) != len(scripts):
        raise OSError(f"{len(scripts)} scripts had {len(answers)} answers")
    return answers


def split_answers(text):
    """The answers to each script, out of what the program printed."""
    answers, found = [], []
    for line in text.split("\n"):
        found.append(line)
        if line == "end":
            answers.append(found)
            found = []
    return answers


def smaller(program, script):
    """A script that is still answered wrongly, and from which no event can be left out."""
    place = len(script) - 2
    while place > 0:
        without = script[:place] + script[place + 1 :]
        if fault_of(without, answers_of(program, [without])[0]):
            script = without
        place = min(place, len(script) - 1) - 1
    return script


def tell(script, answers):
    """Prints a script beside its answers, up to the first that is wrong."""
    fault = fault_of(script, answers)
    for place, lines in enumerate(script):
        *files, line = lines.split("\n")
        print(*files, f"{line:40} {answers[place] if place < len(answers) else ''}", sep="\n")
        if fault and place == fault[0]:
            print(f"{'':40} EXPECTED {fault[1]}")
            break
    return fault


def run_seeds(program, first, count):
    """Runs seeds, and answers whether all were right."""
    began, events = time.monotonic(), 0
    for start in range(first, first + count, BATCH):
        seeds = range(start, min(start + BATCH, first + count))
        scripts = [script_of(seed) for seed in seeds]
        for seed, script, answers in zip(seeds, scripts, answers_of(program, scripts)):
            events += len(script) - 2
            if fault_of(script, answers):
                print(f"seed {seed} is answered wrongly, after {seed - first + 1} seeds. Made smaller:\n")
                small = smaller(program, script)
                tell(small, answers_of(program, [small])[0])
                return False
    spent = time.monotonic() - began
    print(f"{count} seeds, {events} events, no difference; {count / spent:.0f} seeds a second")
    return True


# ---- wrong bodies


def changes_of(edit):
    """What a must-fail edit changes: for each text the file, the old text and the new one."""
    crate, _, name = edit.partition("/")
    file, old, changes = "", "", []
    with open(os.path.join(TOP, "crates", crate, "must-fail", f"{name}.edit"), encoding="utf-8") as lines:
        for line in lines.read().splitlines():
            word, _, text = line.partition(": ")
            if word == "file":
                file = os.path.join("crates", crate, text)
            elif word == "old":
                old = text
            elif word == "new":
                changes.append((file, old, text))
    return changes


def copy_sources(folder):
    """Copies what git knows of the crates."""
    listed = subprocess.run(["git", "ls-files", "-z", "crates", "crates.txt", "HANDLES"], cwd=TOP, capture_output=True, text=True, check=False)
    for path in listed.stdout.split("\0")[:-1]:
        os.makedirs(os.path.join(folder, os.path.dirname(path)), exist_ok=True)
        shutil.copy(os.path.join(TOP, path), os.path.join(folder, path))


def apply(edit, folder):
    """Applies a must-fail edit to a copy of the sources."""
    for path, old, new in changes_of(edit):
        with open(os.path.join(folder, path), "r+", encoding="utf-8") as file:
            text = file.read()
            if text.count(old) != 1:
                raise OSError(f"{edit}: its old text stands {text.count(old)} times in {path}, not once")
            file.seek(0)
            file.write(text.replace(old, new))
            file.truncate()


def tried(folder, seeds):
    """Each seed with its answers by `rt try` of a copy of the sources. A seed at which the program ended otherwise than by itself has none, nor
    have those that it ran in one process with it."""
    cases = os.path.join(folder, "cases")
    os.mkdir(cases)
    groups = {f"{some[0]:06}": some for some in (seeds[at : at + TOGETHER] for at in range(0, len(seeds), TOGETHER))}
    for name, some in groups.items():
        with open(os.path.join(cases, name), "w", encoding="utf-8") as file:
            file.writelines(f"{line}\n" for seed in some for line in script_of(seed))
    words = ["rt", "try", "fw_simulate", "--steps", "1", "--seconds", "600", "--cases", cases]
    done = subprocess.run(words, cwd=os.path.join(folder, "crates", "fw_simulate"), capture_output=True, text=True, check=False)
    ended = set(re.findall(r"(?m)^case=(\d+) run=ended status=0 ", done.stderr))
    if not ended:
        raise OSError(f"rt try gave no answer: {done.stderr.strip()[-500:]}")
    printed = dict(re.findall(r"(?ms)^== (\d+)\n(.*?)(?=^== |\Z)", done.stdout))
    for name, some in groups.items():
        answers = split_answers(printed[name]) if name in ended else []
        yield from zip(some, answers + [[]] * (len(some) - len(answers)))


def first_shown(edit, count):
    """The first of so many seeds whose answers are wrong where an edit was applied, and its script and answers; or None."""
    with tempfile.TemporaryDirectory(prefix="simulate-") as folder:
        copy_sources(folder)
        if edit:
            apply(edit, folder)
        for seed, answers in tried(folder, range(1, count + 1)):
            script = script_of(seed)
            if fault_of(script, answers):
                return seed, script, answers
    return None


def self_test(edits, count):
    """Tries the sources as they are, and then each edit: whether no seed is answered wrongly by the first, and some seed by each other."""
    passed = True
    for edit in [None, *edits]:
        shown = first_shown(edit, count)
        if not shown:
            print(f"{edit or 'no edit'}: shown by none of {count} seeds", flush=True)
        elif shown[2]:
            print(f"{edit or 'no edit'}: shown by seed {shown[0]}", flush=True)
        else:
            print(f"{edit or 'no edit'}: the program stopped by itself at a seed from {shown[0]} to {shown[0] + TOGETHER - 1}", flush=True)
        if bool(shown) != bool(edit):
            passed = False
            if shown:
                tell(*shown[1:])
    return passed


def main():
    parser = parser_of(__doc__)
    parser.add_argument("program", nargs="*", help="a built fw_simulate, or a command that runs it; with --self-test the edits to try")
    parser.add_argument("--seeds", type=int, metavar="N", help="how many seeds (1,000; with --self-test 300)")
    parser.add_argument("--from", type=int, default=1, dest="first", metavar="SEED", help="the first seed (1)")
    parser.add_argument("--seed", type=int, metavar="SEED", help="run this one, and print it")
    parser.add_argument("--script", type=int, metavar="SEED", help="print the script of this seed")
    parser.add_argument("--self-test", action="store_true", help="try wrong bodies, and see that a seed shows each")
    options = parser.parse_args()
    if options.script is not None:
        print("\n".join(script_of(options.script)))
        return 0
    if not options.program and not options.self_test:
        parser.error("name a built fw_simulate")
    try:
        if options.self_test:
            return 0 if self_test(options.program or WRONG, options.seeds or 300) else 1
        if options.seed is not None:
            script = script_of(options.seed)
            return 1 if tell(script, answers_of(options.program, [script])[0]) else 0
        return 0 if run_seeds(options.program, options.first, options.seeds or 1_000) else 1
    except OSError as fault:
        print(f"tools/simulate.py: {fault}", file=sys.stderr)
        return 2


if __name__ == "__main__":
    sys.exit(main())
