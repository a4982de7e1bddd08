#!/usr/bin/env python3
"""Compares the tables of faults in docs/FORMATS.md with what the program says of each code.

    tools/test_words.py out/focusd
    tools/test_words.py --self-test    whether it finds what is wrong with a small page

A row of a table is one of a fault where a cell has nothing but its code and its name, in code quotes: `refused V5 Cost N`, `store S3 Device`,
`focusd: K1 Io` or `R1 Differs`. Its last cell has to begin with what `focusd explain CODE` says that the code means, without code quotes; where more
follows, a colon, a semicolon or a full stop comes first. Each code that `focusd explain` lists has to have such a row, and each row such a code.

Exit status: 0 where there is no fault, 1 where there is one, which is printed, 2 where the program or the page can't be read.
"""

import os
import re
import subprocess
import sys

from command_line import TOP, parser_of, status_of_faults

PAGE = "docs/FORMATS.md"
FAULT = re.compile(r"`(?:refused |store |focusd: )?([A-Z][0-9]+ [A-Z]\w+|NoMemory)(?: [A-Z])?`")
EXPLAINED = re.compile(r"([A-Z][0-9]+ [A-Z]\w+|NoMemory): (.+)\.\nWhat to do: (.+)\n")


class Unread(Exception):
    """The program or the page can't be read."""


def cells_of(line):
    """The cells of a line of a table."""
    return [cell.strip().replace("\\|", "|") for cell in re.split(r"(?<!\\)\|", line.strip())[1:-1]]


def rows_of(page):
    """The rows of faults: the number of each line, the code with its name, and the last cell without code quotes."""
    rows = []
    for number, line in enumerate(page.splitlines(), 1):
        cells = cells_of(line) if line.startswith("|") else []
        for cell in cells[:-1]:
            found = FAULT.fullmatch(cell)
            if found:
                rows.append((number, found[1], cells[-1].replace("`", "")))
    return rows


def says(text, meaning):
    """Whether a cell says what a code means, and where more follows ends that first."""
    return text == meaning or (text.startswith(meaning) and text[len(meaning)] in ":;.")


def faults_of(page, listed, explained):
    """What is wrong with a page, by the list of all codes with their meanings and by what is explained of each."""
    faults = []
    rows = rows_of(page)
    for name, meaning in listed.items():
        if explained.get(name, "") != meaning:
            faults.append(f"focusd explain lists {name}: {meaning}, and of the code alone it says: {explained.get(name, '')}")
        if name not in {it for _, it, _ in rows}:
            faults.append(f"{PAGE}: no row has {name}, which focusd explain lists")
    for number, name, text in rows:
        if name not in listed:
            faults.append(f"{PAGE}:{number}: {name} is no code that focusd explain lists")
        elif not says(text, listed[name].replace("`", "")):
            faults.append(f"{PAGE}:{number}: {name}: {text}\n  and focusd explain says: {listed[name]}")
    return faults


def printed(program, *words):
    """What the program prints; its status has to be 0."""
    done = subprocess.run([program, *words], stdout=subprocess.PIPE, stderr=subprocess.PIPE, text=True, check=False)
    if done.returncode:
        raise Unread(f"{program} {' '.join(words)} ends with status {done.returncode}: {done.stderr.strip()}")
    return done.stdout


def list_of(text):
    """All codes with their names, and what each means."""
    listed = dict(line.split(": ", 1) for line in text.splitlines())
    if len(listed) != len(text.splitlines()) or len(listed) < 50:
        raise Unread("focusd explain lists a code twice, or hardly any")
    return listed


def explained_by(program, listed):
    """What the program says that each code means."""
    explained = {}
    for name in listed:
        found = EXPLAINED.fullmatch(printed(program, "explain", name.split()[0]))
        if not found:
            raise Unread(f"focusd explain {name.split()[0]} doesn't say what it means and what to do")
        explained[found[1]] = found[2]
    return explained


SMALL_PAGE = """| answer | when |
|---|---|
| `refused V5 Cost N` | the cost is `no number`; it may be 0 |
| `store S3 Device` | a write failed |
| 1 | `focusd: NoMemory` | memory ran out |
| `R1 Differs`, in words | no row of a fault |
"""
SMALL_LIST = {"V5 Cost": "the cost is `no number`", "S3 Device": "a write failed", "NoMemory": "memory ran out"}


def self_test():
    """What this program doesn't find."""
    missed = []
    for what, page, listed, explained, wanted in (
        ("a right page", SMALL_PAGE, SMALL_LIST, SMALL_LIST, 0),
        ("another sentence", SMALL_PAGE.replace("a write failed", "a write has failed"), SMALL_LIST, SMALL_LIST, 1),
        ("a sentence that goes on", SMALL_PAGE.replace("a write failed", "a write failed twice"), SMALL_LIST, SMALL_LIST, 1),
        ("another name", SMALL_PAGE.replace("S3 Device", "S3 Disk"), SMALL_LIST, SMALL_LIST, 2),
        ("a row that is missing", SMALL_PAGE.replace("`focusd: NoMemory`", "`no memory`"), SMALL_LIST, SMALL_LIST, 1),
        ("a code that isn't listed", SMALL_PAGE + "| `refused V6 Time N` | no time |\n", SMALL_LIST, SMALL_LIST, 1),
        ("a list that differs", SMALL_PAGE, SMALL_LIST, {**SMALL_LIST, "NoMemory": "memory is full"}, 1),
    ):
        found = faults_of(page, listed, explained)
        if len(found) != wanted:
            missed.append(f"{what}: {len(found)} faults, not {wanted}: {found}")
    return missed


def main():
    parser = parser_of(__doc__)
    parser.add_argument("program", nargs="?", help="the built program")
    parser.add_argument("--self-test", action="store_true", help="say what isn't found in a small page")
    options = parser.parse_args()
    if options.self_test or not options.program:
        missed = self_test() if options.self_test else ["no program is given"]
        print("\n".join(missed) or "it finds what is wrong with a small page")
        return (1 if options.self_test else 2) if missed else 0
    try:
        with open(os.path.join(TOP, PAGE), encoding="utf-8") as file:
            page = file.read()
        listed = list_of(printed(options.program, "explain"))
        faults = faults_of(page, listed, explained_by(options.program, listed))
    except (Unread, OSError, ValueError) as error:
        print(f"tools/test_words.py: {error}", file=sys.stderr)
        return 2
    return status_of_faults(faults, f"{len(listed)} codes, {len(rows_of(page))} rows of {PAGE}, {len(faults)} faults")


if __name__ == "__main__":
    sys.exit(main())
