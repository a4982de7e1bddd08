#!/usr/bin/env python3
"""Kills imports at random, and compares the warehouses that they leave with one that was imported at once.

    tools/kill_imports.py out/focusd
    tools/kill_imports.py out/focusd --runs 10 --rows 5000

Each run starts `PROGRAM import` again and again, and kills each (SIGKILL) after a random time, until one ends by itself. Then what a
script asks of the warehouse has to be answered as by the warehouse that was imported without a kill.
"""
import os
import random
import subprocess
import sys
import tempfile
import time

from store_runs import killed_until_done, killing

HEADER = "BilledCost,EffectiveCost,BillingCurrency,ChargeCategory,ChargePeriodStart,ChargePeriodEnd,SkuId,Note,Tags\n"
QUESTIONS = "state\nreport team 2024-01-01T00:00Z 2024-02-01T00:00Z\nlines 2024-01-01T00:00Z 2024-01-02T00:00Z\n"


def write_export(path, rows, dice):
    """An export of so many rows, with line feeds within quotes and lines without a record."""
    with open(path, "w", newline="") as out:
        out.write(HEADER)
        for row in range(rows):
            hour = dice.randrange(24 * 31)
            start = f"2024-01-{hour // 24 + 1:02}T{hour % 24:02}:00:00Z"
            tags = '"{""team"":""' + dice.choice(["web", "data", "api"]) + '""}"'
            note = dice.choice(["", "plain", '"two\nlines"', '"a ""quote"""'])
            cost = f"{dice.randrange(10**6)}.{dice.randrange(10**9):09}"
            out.write(f"{cost},{cost},USD,Usage,{start},{start},sku-{row % 97},{note},{tags}\n")
            if dice.randrange(50) == 0:
                out.write("\n")


def create(program, folder):
    os.mkdir(folder)
    subprocess.run([program, "run", "--dir", folder, "--create"], input=b"", check=True)


def answers(program, folder):
    return subprocess.run([program, "run", "--dir", folder], input=QUESTIONS.encode(), capture_output=True, check=True).stdout


def importing(program, folder, export):
    return [program, "import", "--dir", folder, "--origin", "export", "--quiet", export]


def main():
    given = killing(__doc__, 100, "--rows", 20000, "how many rows are imported")
    dice = random.Random(given.seed)
    program = os.path.abspath(given.program)
    with tempfile.TemporaryDirectory() as top:
        export = f"{top}/export.csv"
        write_export(export, given.rows, dice)
        create(program, f"{top}/whole")
        started = time.time()
        subprocess.run(importing(program, f"{top}/whole", export), check=True)
        seconds = time.time() - started
        wanted = answers(program, f"{top}/whole")
        if f"state {-(-given.rows // 4096)} {given.rows} 0 0\n".encode() not in wanted:
            sys.exit(f"not all rows were imported: {wanted[:60]!r}")
        kills = 0
        for run in range(given.runs):
            folder = f"{top}/run-{run}"
            create(program, folder)
            kills += killed_until_done(importing(program, folder, export), 1.5 * seconds, dice)
            if answers(program, folder) != wanted:
                sys.exit(f"run {run}: the warehouse differs")
        print(f"{given.runs} imports of {given.rows} rows, killed {kills} times: the same warehouse each time")


if __name__ == "__main__":
    main()
