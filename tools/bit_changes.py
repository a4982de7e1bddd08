#!/usr/bin/env python3
"""Changes single bits of the files of warehouses, and asks whether `focusd verify --expect` finds each.

    tools/bit_changes.py                    10,000 changes, by out/focusd
    tools/bit_changes.py --changes 600      fewer
    tools/bit_changes.py --self-test        only counts how many changes give another report and are called sound by a plain `verify`

Warehouses are made of the shipped scripts: one with all in its log, one with all in its body, and one with both. In each round one bit of `left` or of
`right` is turned. Then `verify --expect` is run with the digest of the warehouse as it was. What may come out:

    found       it ends with status 1: it names two digests, or the folder can't be opened
    the same    it ends with status 0, and dump and reports are those of the warehouse as it was: a byte that doesn't count was changed

Anything else is wrong: above all, status 0 and another report. The bits are all those of the files, where they are fewer than the changes, else by chance
under a fixed seed.

It needs a built program. Exit status: 0 where all was right, 1 where it wasn't, 2 where nothing could be run.
"""

import os
import random
import subprocess
import sys
import tempfile
from collections import Counter
from concurrent.futures import ThreadPoolExecutor

from command_line import TOP, add_jobs, add_program, parser_of, status_of, whole_number

SIDES = ("left", "right")
SEED = 20241201
EXAMPLES = os.path.join(TOP, "examples")
# What is asked of a warehouse that is called the same.
REPORTS = (
    ("report", "--tag", "team", "--from", "2024-01", "--to", "2024-12", "--format", "csv"),
    ("lines", "--from", "2024-01", "--to", "2024-12"),
    ("dump",),
)


class CannotRun(Exception):
    """Nothing can be tried."""


def ran(program, *words, given=b""):
    return subprocess.run([program, *words], input=given, stdout=subprocess.PIPE, stderr=subprocess.PIPE, check=False)


def done(program, *words, given=b""):
    """The standard output of a run that has to succeed."""
    run = ran(program, *words, given=given)
    if run.returncode:
        raise CannotRun(f"{program} {' '.join(words)}: {run.stderr.decode()}")
    return run.stdout


class House:
    """A warehouse, its digest, and what it answers."""

    def __init__(self, program, folder, name, parts):
        self.name, self.folder = name, os.path.join(folder, name)
        os.mkdir(self.folder)
        done(program, "run", "--dir", self.folder, "--create", given=b"")
        for script, checkpoint in parts:
            done(program, "run", "--dir", self.folder, given=script)
            if checkpoint:
                done(program, "checkpoint", "--dir", self.folder)
        self.digest = done(program, "verify", "--dir", self.folder, "--digest").decode().strip()
        self.answers = answers(program, self.folder)
        self.sides = {}
        for side in SIDES:
            with open(os.path.join(self.folder, side), "rb") as file:
                self.sides[side] = file.read()

    def bits(self):
        """Each bit of the files: the house, the side, and its place."""
        return [(self, side, at) for side in SIDES for at in range(8 * len(self.sides[side]))]


def answers(program, folder):
    return [ran(program, words[0], "--dir", folder, *words[1:]).stdout for words in REPORTS]


def houses(program, folder):
    """Warehouses of the shipped scripts: with a log, with a body, and with both."""
    scripts = {}
    for name in ("first-report", "commitments"):
        with open(os.path.join(EXAMPLES, f"{name}.script"), "rb") as file:
            scripts[name] = file.read()
    first, second = scripts["first-report"], scripts["commitments"]
    return [
        House(program, folder, "log", [(second, False)]),
        House(program, folder, "body", [(first, True)]),
        House(program, folder, "both", [(first, True), (second, False)]),
        House(program, folder, "two-bodies", [(first, True), (second, True)]),
    ]


def tried(program, room, change, plain):
    """What became of a change."""
    house, side, at = change
    data = bytearray(house.sides[side])
    data[at // 8] ^= 1 << at % 8
    with tempfile.TemporaryDirectory(dir=room) as folder:
        for name in SIDES:
            with open(os.path.join(folder, name), "wb") as file:
                file.write(data if name == side else house.sides[name])
        expect = () if plain else ("--expect", house.digest)
        run = ran(program, "verify", "--dir", folder, *expect)
        if run.returncode == 0:
            return "the same" if answers(program, folder) == house.answers else "another report unnoticed"
    if run.returncode == 1 and not run.stdout:
        if b"the digest is " in run.stderr:
            return "found by its digest"
        if run.stderr.startswith(b"focusd: S"):
            return "found by opening"
    return f"status {run.returncode}: {run.stderr[:200]!r}"


RIGHT = ("the same", "found by its digest", "found by opening")


def run_all(options):
    program = os.path.abspath(options.program)
    if not os.path.exists(program):
        raise CannotRun(f"there is no {program}")
    with tempfile.TemporaryDirectory() as folder:
        bits = [bit for house in houses(program, folder) for bit in house.bits()]
        changes = random.Random(SEED).sample(bits, min(options.changes, len(bits)))
        counts, wrong = Counter(), []
        with ThreadPoolExecutor(options.jobs) as pool:
            for change, what in zip(changes, pool.map(lambda it: tried(program, folder, it, options.self_test), changes)):
                counts[what] += 1
                if what not in RIGHT:
                    wrong.append(f"{change[0].name}/{change[1]}: bit {change[2] % 8} of byte {change[2] // 8}: {what}")
    print(f"{len(changes)} of {len(bits)} bits were changed: " + ", ".join(f"{count} {what}" for what, count in sorted(counts.items())))
    if options.self_test:
        # Without a digest some have to be missed, else this tool couldn't show that the digest finds them.
        return 0 if counts["another report unnoticed"] else 1
    for line in wrong[:20]:
        print(line)
    return 1 if wrong or not counts["found by its digest"] or not counts["found by opening"] else 0


def main():
    parser = parser_of(__doc__)
    add_program(parser)
    parser.add_argument("--changes", type=whole_number, default=10_000, metavar="N", help="how many bits are changed (default: 10,000)")
    parser.add_argument("--self-test", action="store_true", help="run verify without --expect, which has to miss some changes")
    add_jobs(parser, "changes")
    options = parser.parse_args()
    return status_of("tools/bit_changes.py", lambda: run_all(options), (CannotRun, OSError))


if __name__ == "__main__":
    sys.exit(main())
