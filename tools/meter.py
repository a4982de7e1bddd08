#!/usr/bin/env python3
"""Runs a command, and says how long the prover worked on each crate below it: wall and processor time of its proof, of its tests' proof
and of each must-fail edit.

    tools/meter.py rt all check

The figures are read off the running processes four times a second, so a step's are up to a quarter of a second short.
"""

import argparse
import os
import resource
import subprocess
import sys
import threading
import time
from dataclasses import dataclass, field

from command_line import parser_of

# How long the meter sleeps between two looks, in seconds.
EVERY = 0.25
TICK = os.sysconf("SC_CLK_TCK")


@dataclass
class Step:
    """One process of the prover at the top of its tree: one proof, or one edit."""

    crate: str
    kind: str  # proof, tests, edit or build
    began: float
    ended: float
    spent: dict = field(default_factory=dict)  # seconds of the processor, by process

    @property
    def wall(self):
        return self.ended - self.began

    @property
    def processor(self):
        return sum(self.spent.values())


def kind_of(words, folder):
    """What a prover's process does, by its command line and its folder."""
    if os.path.basename(folder).startswith(("rt-edit-", "edit-")):
        return "edit"
    if "--test" in words:
        return "tests"
    return "build" if "--crate-checked" in words else "proof"


def processes():
    """Each process of the system: its id, parent, name, start and processor seconds."""
    for name in os.listdir("/proc"):
        if not name.isdigit():
            continue
        try:
            with open(f"/proc/{name}/stat", encoding="utf-8", errors="replace") as file:
                text = file.read()
        except OSError:
            continue
        open_at, close_at = text.index("("), text.rindex(")")
        rest = text[close_at + 2 :].split()
        spent = (int(rest[11]) + int(rest[12])) / TICK
        yield int(name), int(rest[1]), text[open_at + 1 : close_at], rest[19], spent


class Meter:
    """Watches the prover's processes below this one, until it is told to stop."""

    def __init__(self):
        self.steps = []
        self._open = {}
        self._stopped = threading.Event()
        self._thread = threading.Thread(target=self._watch, daemon=True)
        self._thread.start()

    def stop(self):
        self._stopped.set()
        self._thread.join()
        return self.steps

    def _watch(self):
        while not self._stopped.wait(EVERY):
            self._look()

    def _look(self):
        now = time.monotonic()
        found = {pid: (parent, name, start, spent) for pid, parent, name, start, spent in processes()}
        for pid, (_, name, start, spent) in found.items():
            if name != "rattle":
                continue
            top, inside = pid, False
            while True:
                above = found.get(found[top][0])
                if above is None:
                    break
                if above[1] != "rattle":
                    break
                top = found[top][0]
            key = (top, found[top][2])
            step = self._open.get(key)
            if step is None:
                if not self._is_ours(top, found):
                    continue
                try:
                    with open(f"/proc/{top}/cmdline", encoding="utf-8", errors="replace") as file:
                        words = file.read().split("\0")
                    folder = os.readlink(f"/proc/{top}/cwd")
                except OSError:
                    continue
                if "--crate-name" not in words:
                    continue
                step = Step(words[words.index("--crate-name") + 1], kind_of(words, folder), now, now)
                self._open[key] = step
                self.steps.append(step)
            step.ended = now
            step.spent[pid, start] = spent

    @staticmethod
    def _is_ours(pid, found):
        while pid in found:
            if pid == os.getpid():
                return True
            pid = found[pid][0]
        return False


def processor():
    """The processor seconds of all that this process has run and waited for."""
    used = resource.getrusage(resource.RUSAGE_CHILDREN)
    return used.ru_utime + used.ru_stime


def table(steps):
    """The steps by crate, the dearest first: proof, tests' proof, the first edit and the mean of the others, in processor seconds and wall."""
    crates = {}
    for step in steps:
        crates.setdefault(step.crate, {}).setdefault(step.kind, []).append(step)
    def spent(some):
        return sum(step.processor for step in some)
    def total(kinds):
        return sum(spent(some) for some in kinds.values())
    lines = [f"{'crate':18} {'all':>6}  {'proof':>6} {'wall':>6}  {'tests':>6} {'wall':>6}  {'edits: checks':>13} {'first':>6} {'further':>7} {'wall':>6}"]
    for crate, kinds in sorted(crates.items(), key=lambda item: -total(item[1])):
        proof, tests, edits = (kinds.get(kind, []) for kind in ("proof", "tests", "edit"))
        proof = proof + kinds.get("build", [])
        wall = lambda some: sum(step.wall for step in some)
        first = edits[0].processor if edits else 0
        further = spent(edits[1:]) / (len(edits) - 1) if len(edits) > 1 else 0
        lines.append(
            f"{crate:18} {total(kinds):6.0f}  {spent(proof):6.0f} {wall(proof):6.0f}  {spent(tests):6.0f} {wall(tests):6.0f}  "
            f"{len(edits):13} {first:6.0f} {further:7.1f} {wall(edits):6.0f}"
        )
    return "\n".join(lines)


def main():
    parser = parser_of(__doc__)
    parser.add_argument("command", metavar="COMMAND", help="what is run")
    parser.add_argument("arguments", nargs=argparse.REMAINDER, metavar="ARGUMENT", help="its words")
    options = parser.parse_args()
    meter, began = Meter(), time.monotonic()
    status = subprocess.run([options.command, *options.arguments], check=False).returncode
    steps = meter.stop()
    used = processor()
    print(table(steps))
    seen = sum(step.processor for step in steps)
    print(f"wall {(time.monotonic() - began) / 60:.1f} min, processor {used / 60:.1f} min, of which the prover {seen / 60:.1f}")
    sys.exit(status)


if __name__ == "__main__":
    main()
