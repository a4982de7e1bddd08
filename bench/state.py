#!/usr/bin/env python3
"""Measures what an entry costs in a warehouse of 10, 10^3 and 10^6 entries, and how fast a state is written and read.

    python3 bench/state.py --date 2026-01-31 > result.md

The program that is measured, bench/state/measure.rt.txt, is a crate of its own beside copies of this
repository's crates, in a folder that is removed at the end: it is proved and built there (some
minutes, and much longer where the crates' out/ folders are not there). Each figure is the least of
several turns. Progress goes to standard error.
Exit status: 0 measured, 1 the program couldn't be built or run, 2 a wrong command line.
"""
import datetime
import os
import shutil
import subprocess
import sys
import tempfile

from session import HERE, ROOT, parser_of, say, verdict

TURNS = 2_000
STANDS_ON = "fw_charge fw_columns fw_entry fw_entry_bytes fw_row_bytes fw_segment fw_snapshot anyhow"


def run(folder):
    """The lines that the program prints."""
    shutil.copytree(f"{ROOT}/crates", f"{folder}/crates")
    with open(f"{ROOT}/crates.txt", encoding="utf-8") as listed, open(f"{folder}/crates.txt", "w", encoding="utf-8") as out:
        out.write(listed.read() + f"measure: {STANDS_ON}\n")
    shutil.copy(f"{ROOT}/HANDLES", folder)
    os.makedirs(f"{folder}/crates/measure/src")
    shutil.copy(f"{HERE}/state/measure.rt.txt", f"{folder}/crates/measure/src/main.rt")
    subprocess.run(["git", "init", "-q", folder], check=True)
    say("proving and building the program")
    crate = f"{folder}/crates/measure"
    ran = subprocess.run(["rt", "run"], cwd=crate, stdout=subprocess.PIPE, stderr=subprocess.STDOUT, text=True)
    lines = [line.split() for line in ran.stdout.splitlines() if line.startswith(("entry ", "state "))]
    if ran.returncode or not lines:
        say(ran.stdout[-2000:])
        sys.exit(1)
    return lines


def main():
    parser = parser_of(__doc__)
    parser.add_argument("--date", default=datetime.date.today().isoformat(), help="the date that the result carries")
    arguments = parser.parse_args()
    with tempfile.TemporaryDirectory(prefix="measure-") as folder:
        lines = run(folder)
    load = os.getloadavg()[0]
    print(f"Measured on {arguments.date}, {os.cpu_count()} processors, load {load:.1f} at the end.\n")
    print("| entries before | judge, ns | apply, ns |\n|---:|---:|---:|")
    best = {}
    for _, entries, judged, applied, _, _ in (line for line in lines if line[0] == "entry"):
        before = best.get(int(entries), (float("inf"), float("inf")))
        best[int(entries)] = (min(before[0], int(judged) / TURNS), min(before[1], int(applied) / TURNS))
    for entries, (judged, applied) in sorted(best.items()):
        print(f"| {entries:,} | {judged:,.0f} | {applied:,.0f} |")
    small, large = best[1_000], best[1_000_000]
    for name, at in (("judge", 0), ("apply", 1)):
        ratio = large[at] / small[at]
        print(f"\n{name}: 10^6 entries beside 10^3: {ratio:.2f} times (goal at most 1.2: {verdict(ratio <= 1.2)})")
    states = [line for line in lines if line[0] == "state"]
    rows, size = int(states[0][1]), int(states[0][2])
    print(f"\nA state of {rows:,} rows, {size:,} bytes:")
    for name, at, goal, bar in (("encode", 3, 800, 400), ("decode", 4, 400, 200)):
        speed = size / 1e6 / (min(int(line[at]) for line in states) / 1e9)
        print(f"\n{name}: {speed:,.0f} MB/s (goal {goal}: {verdict(speed >= goal)}; bar {bar}: {verdict(speed >= bar)})")
    return 0


if __name__ == "__main__":
    sys.exit(main())
