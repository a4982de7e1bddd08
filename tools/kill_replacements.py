#!/usr/bin/env python3
"""Kills replacements at random, and compares the warehouses that they leave with one whose replacement was not stopped.

    tools/kill_replacements.py out/focusd
    tools/kill_replacements.py out/focusd --runs 10

A warehouse has so many small posts of an origin. Half of them come again in the export, the others don't, and there are new ones, so a replacement
takes several groups. Each run starts `PROGRAM replace` over a copy of the folder again and again, and kills each (SIGKILL) after a random time, until one
ends by itself. Then the dump, a report and the lines have to be those of the warehouse whose replacement was not stopped, to the byte, and nothing may
say any more that a replacement is unfinished. Where a run was killed, `focusd status` has to say so if not all entries are there.
"""
import os
import random
import shutil
import subprocess
import sys
import tempfile
import time

from store_runs import killed_until_done, killing

HEADER = "BilledCost,EffectiveCost,BillingCurrency,ChargeCategory,ChargePeriodStart,ChargePeriodEnd,SkuId,Tags\n"
RANGE = ("--from", "2024-01", "--to", "2024-02")
ORIGIN = "aws"


def write_export(path, rows, dice):
    """An export of so many rows."""
    with open(path, "w", newline="", encoding="utf-8") as out:
        out.write(HEADER)
        for row in range(rows):
            hour = dice.randrange(24 * 31)
            start = f"2024-01-{hour // 24 + 1:02}T{hour % 24:02}:00:00Z"
            cost = f"{dice.randrange(10**6)}.{dice.randrange(10**9):09}"
            out.write(f'{cost},{cost},USD,Usage,{start},{start},sku-{row % 97},"{{""team"":""{dice.choice(["web", "data"])}""}}"\n')
    return path


def ran(program, *words):
    """What a run prints that ends well, and what it says."""
    found = subprocess.run([program, *words], stdin=subprocess.DEVNULL, capture_output=True, check=False)
    if found.returncode:
        sys.exit(f"{words}: status {found.returncode}: {found.stderr.decode()}")
    return found.stdout, found.stderr


def answers(program, folder):
    """What is compared. Nothing says that a replacement is unfinished."""
    asked = [("dump",), ("report", "--tag", "team", *RANGE, "--format", "csv"), ("lines", *RANGE)]
    found = []
    for command, *words in asked:
        printed, said = ran(program, command, "--dir", folder, *words)
        if said:
            sys.exit(f"{command}: {said.decode()}")
        found.append(printed)
    return found


def entries_in(program, folder):
    """How many entries a warehouse has, and what is said of it."""
    printed, said = ran(program, "status", "--dir", folder)
    return int(printed.decode().split("\n")[1].split()[1].replace(",", "")), said


def replacing(program, folder, files):
    return [program, "replace", "--dir", folder, "--origin", ORIGIN, "--quiet", *files]


def replace_with_kills(program, folder, files, longest, dice, whole):
    """How many replacements were killed before one ended by itself, and how many of them stood between two groups."""
    between = 0

    def look():
        nonlocal between
        count, said = entries_in(program, folder)
        if whole[0] < count < whole[1]:
            between += 1
            if b"are being replaced" not in said:
                sys.exit(f"{count} entries, and no word of an unfinished replacement")

    kills = killed_until_done(replacing(program, folder, files), longest, dice, look)
    return kills, between


def main():
    given = killing(__doc__, 200, "--posts", 300, "how many posts the warehouse has")
    dice = random.Random(given.seed)
    program = os.path.abspath(given.program)
    with tempfile.TemporaryDirectory() as top:
        old = [write_export(f"{top}/old-{it}.csv", 20, dice) for it in range(given.posts)]
        new = [it for place, it in enumerate(old) if place % 2] + [write_export(f"{top}/new-{it}.csv", 20, dice) for it in range(given.posts // 2)]
        base, whole = f"{top}/base", f"{top}/whole"
        os.mkdir(base)
        ran(program, "import", "--dir", base, "--create", "--origin", ORIGIN, "--quiet", *old)
        shutil.copytree(base, whole)
        started = time.monotonic()
        subprocess.run(replacing(program, whole, new), check=True, stdout=subprocess.DEVNULL)
        seconds = time.monotonic() - started
        wanted = answers(program, whole)
        bounds = entries_in(program, base)[0], entries_in(program, whole)[0]
        if bounds[1] - bounds[0] <= 128:
            sys.exit(f"a replacement of {bounds[1] - bounds[0]} entries takes too few groups: give more --posts")
        kills = between = 0
        for run in range(given.runs):
            folder = f"{top}/run-{run}"
            shutil.copytree(base, folder)
            some, stood = replace_with_kills(program, folder, new, 1.5 * seconds, dice, bounds)
            kills, between = kills + some, between + stood
            if answers(program, folder) != wanted:
                sys.exit(f"run {run}: the warehouse differs")
            shutil.rmtree(folder)
        print(
            f"{given.runs} replacements by {bounds[1] - bounds[0]} entries, killed {kills} times, {between} of them between two groups: the same warehouse each time"
        )


if __name__ == "__main__":
    main()
