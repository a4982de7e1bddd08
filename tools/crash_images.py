#!/usr/bin/env python3
"""Opens what a crash may leave of a warehouse's two files, at each moment of a run.

    tools/crash_images.py                            opens 10,000 images or more
    tools/crash_images.py --scripts 3 --entries 6    opens all images of three short scripts

Scripts of entries and checkpoints are run by `focusd run --dir`, and strace records the writes and syncs. After each of these calls,
folders are made that hold what a crash may leave then: what was synced stands, and each range written since is old, new, torn at some
byte, or holds bytes that nobody wrote; the file ends anywhere between its old and its new end. The program opens each of these folders.
It has to find each entry that was answered `accepted` before that moment, or of which all writes were synced by then, and no entry but
these and the one being written. For these entries it has to answer `state`, two reports and all lines as examples/expected.py does. No
folder may be missing or corrupt, but where the warehouse is still being created.

After some of the images the run goes on with the rest of its script, and is opened once more; some of these runs are recorded in
their turn, so that a crash follows a crash. In others the program is killed at a sync, and a second run, recorded too, goes on over what
the first one left unsynced. In each recorded run no answer and no opened gate may come before the writes ahead of them are synced.

An image that the program gets wrong is kept, with a text that says what is wrong, in a folder of its own in --keep.

    tools/crash_images.py --self-test

edits recorded runs instead, each as a wrong program would make it (no sync after a frame, an answer before the sync, a gate written
before its frame and so on), and opens images until one shows the edit. Each edit has to be seen.

It needs strace (Debian 12: apt-get install strace) and a built program. The images of a seed are the same in each run, and by --scripts
there are as many on each machine.
Exit status: 0 where all images were right, 1 where one wasn't, 2 where nothing could be run.
"""

import os
import random
import sys
import tempfile
import threading
from concurrent.futures import ThreadPoolExecutor
from dataclasses import replace

from command_line import TOP, add_jobs, add_program, parser_of, status_of
from store_runs import (
    QUESTIONS, SIDES, CannotRun, Case, Disk, Image, Progress, add_room, commands, contents_of, lay, order_faults, own_folder, program_at, record, role,
    room_of, run, shown,
)  # fmt: skip

# How many entries a script has that is begun in an empty folder.
ENTRIES = 24
# One image in so many goes on with its script.
GOES_ON = 10
# How many syncs a run makes before that of its first frame.
FIRST_SYNCS = 6
# How many images of a recorded run are gone on with in a run that is recorded too.
RECORDED = 2
# How many calls in a wrong order are told of a run.
MOST_ORDER_FAULTS = 3
# How many runs are killed for each edit of the self-test.
KILLS = 4
# How wrong programs order their calls, for the self-test.
EDITS = {
    "no sync after a frame": lambda steps: without_syncs(steps, "frame"),
    "no sync after a gate": lambda steps: without_syncs(steps, "gate"),
    "no sync after closing a side": lambda steps: without_syncs(steps, "closing"),
    "no sync after filling a side": lambda steps: without_syncs(steps, "filling"),
    "no sync after opening a side": lambda steps: without_syncs(steps, "opening"),
    "no syncs when the folder is opened": lambda steps: without_syncs(steps, "start"),
    "answers before the last sync": lambda steps: answers_first(steps),
    "a gate before its frame": lambda steps: exchanged(steps, "frame", "gate"),
    "a side opened before it is filled": lambda steps: exchanged(steps, "filling", "opening"),
    "no syncs at all": lambda steps: [call for call in steps if call.name != "fdatasync"],
    "each sync made of the other file": lambda steps: other_syncs(steps),
    "a frame that isn't written": lambda steps: without_write(steps, "frame"),
    "a gate that isn't written": lambda steps: without_write(steps, "gate"),
    "a body that isn't written": lambda steps: without_write(steps, "filling"),
}


class Search:
    """The images of a seed, and what was found."""

    def __init__(self, options, room):
        self.options, self.room = options, room
        self.pool = ThreadPoolExecutor(options.jobs)
        self.images = self.runs = self.kills = self.rests = self.wrong = self.wrong_images = self.moments = 0
        self.lock = threading.Lock()

    @property
    def is_over(self):
        """Whether so many images are wrong that no more is tried."""
        return self.options.most_wrong is not None and self.wrong_images >= self.options.most_wrong

    def folder(self, name):
        """An empty folder of this thread."""
        return own_folder(self.room, name)

    def check(self, image, goes_on):
        """Opens an image, and goes on with it: how many entries it holds."""
        if self.is_over:
            return None
        folder = self.folder("image")
        entries, fault = image.fault(self.options.program, folder)
        if not fault and goes_on and entries is not None:
            fault = image.rest_fault(self.options.program, folder, entries)
        with self.lock:
            self.images += 1
            self.rests += goes_on
            if fault:
                self.wrong += 1
                self.wrong_images += 1
                self.keep(image, fault)
        return entries

    def keep(self, image, fault):
        """Keeps a wrong image with what is wrong."""
        if self.options.self_test:
            return
        folder = os.path.join(self.options.keep, f"seed-{self.options.seed}-image-{self.images}")
        lay(folder, image.contents)
        with open(os.path.join(folder, "why.txt"), "w", encoding="utf-8") as file:
            file.write(f"{image.name}\n{fault}\n")
        if self.wrong <= 10:
            print(f"WRONG: {image.name}; kept in {folder}\n{shown(fault)}", flush=True)

    def fault_of_run(self, name, fault):
        with self.lock:
            self.wrong += 1
        if not self.options.self_test:
            print(f"WRONG: {name}: {fault}", flush=True)

    def images_of(self, name, case, progress, steps, choice):
        """The images after each call of recorded runs, each once."""
        found = {}
        for place, call in enumerate(steps):
            progress.apply(call)
            if call.where == "out" or call.name in ("pwrite64", "fdatasync", "fsync", "openat"):
                self.moments += 1
                for kind, contents in progress.disk.images(choice):
                    key = contents, progress.least
                    if key not in found:
                        found[key] = Image(case, contents, f"{name}, after call {place} ({call}): {kind}", progress.least, progress.frames)
        return list(found.values())

    def check_all(self, images, choice):
        """Opens these images, some of them with the rest of their script: each image with the number of its entries."""
        goes_on = [choice.randrange(GOES_ON) == 0 for _ in images]
        return list(zip(images, self.pool.map(self.check, images, goes_on)))

    def recorded(self, name, case, folder, script, answers, *options, inject=None):
        """A recorded run: its calls."""
        before = contents_of(folder)
        ended, calls = record(self.options.program, folder, script, *options, inject=inject)
        self.runs += 1
        if not inject and (ended.status != 0 or ended.error or ended.said != answers):
            self.fault_of_run(name, f"the run itself is wrong:\n{ended}")
        disk = Disk(*before)
        for call in calls:
            disk.apply(call)
        if not inject and disk.as_read() != contents_of(folder):
            raise CannotRun(f"{name}: the recorded calls don't make the files that the run left")
        faults = order_faults(calls)
        if len(faults) > MOST_ORDER_FAULTS:
            faults[MOST_ORDER_FAULTS:] = [f"{len(faults) - MOST_ORDER_FAULTS} more calls come before the sync ahead of them"]
        for fault in faults:
            self.fault_of_run(name, fault)
        return calls

    def explore(self, seed):
        """All that is tried with one script."""
        choice = random.Random(seed)
        name, case = f"script {seed}", Case(commands(seed, self.options.entries))
        folder = self.folder("run")
        script, answers = b"".join(case.commands), b"".join(case.answers)
        calls = self.recorded(name, case, folder, script, answers, "--create")
        checked = self.check_all(self.images_of(name, case, Progress(Disk(), None, 0), calls, choice), choice)
        some = [pair for pair in checked if pair[1] is not None and pair[1] < case.entries]
        for image, entries in choice.sample(some, min(RECORDED, len(some))):
            if self.is_over:
                return
            folder = self.folder("run")
            lay(folder, image.contents)
            rest, answers = case.rest(entries)
            calls = self.recorded(f"{image.name}, gone on", case, folder, b"".join(rest), b"".join(answers))
            images = self.images_of(f"{image.name}, gone on", case, Progress(Disk(*image.contents), entries, entries), calls, choice)
            self.check_all(images, choice)
        if not self.is_over:
            self.check_all(self.killed(name, case, choice), choice)

    def killed(self, name, case, choice, edit=list):
        """Images of runs that go on over what a run left unsynced which was killed at a sync."""
        folder, script = self.folder("run"), b"".join(case.commands)
        number = choice.randrange(FIRST_SYNCS, FIRST_SYNCS + 2 * case.entries)
        first = self.recorded(name, case, folder, script, b"", "--create", inject=f"fdatasync:error=EIO:signal=KILL:when={number}")
        self.kills += 1
        progress = Progress(Disk(), None, 0)
        for call in edit(first):
            progress.apply(call)
        found = run(self.options.program, folder, b"".join(QUESTIONS))
        least = progress.least or 0
        entries = next((n for n in range(least, progress.frames + 1) if found.said == case.histories[n]), None)
        name = f"{name}, killed at sync {number}"
        if found.status != 0 or entries is None:
            self.fault_of_run(name, f"it has to hold {least} to {progress.frames} entries, and answers:\n{found}")
            return []
        rest, answers = case.rest(entries)
        state = case.histories[entries].partition(b"\n")[0] + b"\n"
        steps = self.recorded(f"{name}, opened", case, folder, QUESTIONS[0], state)
        steps += self.recorded(f"{name}, gone on", case, folder, b"".join(rest), b"".join(answers))
        return self.images_of(f"{name}, opened", case, Progress(progress.disk, least, entries), edit(steps), choice)


# The self-test.


def without_syncs(steps, wanted):
    """The calls without the syncs after writes of a kind; `start` stands for the syncs before the first write."""
    kept, last = [], {}
    for call in steps:
        if call.name == "pwrite64":
            last[call.where] = role(call)
        if call.name != "fdatasync" or last.get(call.where, "start") != wanted:
            kept.append(call)
    return kept


def answers_first(steps):
    """The calls with each answer before the sync that came ahead of it."""
    made = list(steps)
    for place in range(1, len(made)):
        if made[place].where == "out" and made[place - 1].name == "fdatasync":
            made[place - 1 : place + 1] = [made[place], made[place - 1]]
    return made


def exchanged(steps, earlier, later):
    """The calls with writes of two kinds, which follow each other but for a sync, in the other order."""
    made = list(steps)
    for place in range(len(made) - 2):
        first, sync, second = made[place : place + 3]
        if first.name == second.name == "pwrite64" and sync.name == "fdatasync" and (role(first), role(second)) == (earlier, later):
            made[place : place + 3] = [second, sync, first]
    return made


def other_syncs(steps):
    """The calls with each sync of a file made of the other one."""
    other = dict(zip(SIDES, reversed(SIDES)))
    return [replace(call, where=other.get(call.where, call.where)) if call.name == "fdatasync" else call for call in steps]


def without_write(steps, wanted):
    """The calls without the first write of a kind."""
    lost = next((place for place, call in enumerate(steps) if call.name == "pwrite64" and role(call) == wanted), len(steps))
    return steps[:lost] + steps[lost + 1 :]


def self_test(options, room):
    """Tries each edit over recorded runs, until an image shows it: the edits that no image shows."""
    missed = []
    for name, edit in {"no edit": list, **EDITS}.items():
        search, choice = Search(options, room), random.Random(options.seed)
        case = Case(commands(options.seed, 5))
        folder = search.folder("run")
        calls = search.recorded(name, case, folder, b"".join(case.commands), b"".join(case.answers), "--create")
        images = search.images_of(name, case, Progress(Disk(), None, 0), edit(calls), choice)
        for _ in range(KILLS):
            images += search.killed(name, case, choice, edit)
        choice.shuffle(images)
        # What was just answered is where a missing sync shows, and such moments are few.
        images.sort(key=lambda image: "(out)" not in image.name)
        images = images[: options.images]
        while images and not search.wrong:
            some, images = images[:GOES_ON], images[GOES_ON:]
            search.check_all(some, choice)
        print(f"{name}: {'seen' if search.wrong else 'not seen'} in {search.images} images", flush=True)
        if (search.wrong > 0) != (name in EDITS):
            missed.append(name)
    return missed


def search_all(options):
    """Opens the images of one script after the other, or runs the self-test: the exit status."""
    options.program = program_at(options.program)
    with tempfile.TemporaryDirectory(prefix="crash-images-", dir=room_of(options.room)) as room:
        if options.self_test:
            missed = self_test(options, room)
            print(f"wrong: {', '.join(missed)}" if missed else "each edit was seen")
            return 1 if missed else 0
        search, seed = Search(options, room), options.seed
        while not search.is_over and (search.images < options.images if options.scripts is None else seed < options.seed + options.scripts):
            search.explore(seed)
            print(f"script {seed}: so far {search.images} images of {search.moments} moments in {search.runs} runs, {search.wrong} wrong", flush=True)
            seed += 1
        print(
            f"{search.images} images of {search.runs} runs (seeds {options.seed} to {seed - 1}), {search.kills} of which were killed; "
            f"{search.rests} images gone on with, {search.wrong} wrong"
        )
        return 1 if search.wrong else 0


def main():
    parser = parser_of(__doc__)
    add_program(parser)
    parser.add_argument("--images", type=int, default=None, metavar="N", help="how many images at the least (default: 10000; with --self-test at most so many of each edit: 1000)")
    parser.add_argument("--scripts", type=int, default=None, metavar="N", help="all images of so many scripts, however many these are")
    parser.add_argument("--entries", type=int, default=ENTRIES, metavar="N", help=f"how many entries a script has (default: {ENTRIES})")
    parser.add_argument("--most-wrong", type=int, default=None, metavar="N", help="end where so many images are wrong (default: try all)")
    parser.add_argument("--seed", type=int, default=1, metavar="N", help="the first script (default: 1)")
    add_jobs(parser, "images")
    add_room(parser)
    parser.add_argument("--keep", default=os.path.join(TOP, "out", "crash-images"), metavar="DIR", help="where wrong images are kept (default: out/crash-images)")
    parser.add_argument("--self-test", action="store_true", help="edit the recorded runs, and see that an image shows each edit")
    options = parser.parse_args()
    options.images = options.images or (1_000 if options.self_test else 10_000)
    return status_of("tools/crash_images.py", lambda: search_all(options), CannotRun)


if __name__ == "__main__":
    sys.exit(main())
