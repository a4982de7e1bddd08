"""What the tests and the benchmark of clusters share: exports with commitments and a policy, runs of both programs, and one warehouse that holds all."""

import datetime
import os
import random
import subprocess
import sys
from collections.abc import Sequence

HERE = os.path.dirname(os.path.abspath(__file__))
TOP = os.path.dirname(os.path.dirname(HERE))
COMMAND = os.path.join(TOP, "cluster", "focusd-cluster")
sys.path[:0] = [os.path.join(TOP, "examples"), os.path.join(TOP, "tools"), os.path.join(TOP, "cluster")]
import make_export  # noqa: E402
from make_year import commitment  # noqa: E402

START = datetime.datetime(2024, 9, 1)
POLICY = 'key = "team"\n[[rule]]\nfrom = "platform"\nproportional = true\n[[rule]]\nfrom = ""\nto = { web = 3, data = 1, "new, group" = 2 }\n'


def write_export(path: str, rows: int, hours: int, start: datetime.datetime = START, seed: int = 1, form: str = "medium") -> str:
    """Writes an export."""
    words = [sys.executable, os.path.join(TOP, "examples", "make_export.py"), "--rows", str(rows), "--hours", str(hours), "--seed", str(seed)]
    with open(path, "wb") as file:
        subprocess.run([*words, "--start", start.isoformat(), "--form", form], stdout=file, check=True)
    return path


def sku_sets(rows: int, hours: int, start: datetime.datetime = START, seed: int = 1) -> list[tuple[str, list[str]]]:
    """SKUs of an export that stand in one commitment, each set with its unit: of each SKU's regions two together, and one alone."""
    skus, found = make_export.Maker(rows, hours, seed, start).skus, []
    for *_, unit, _, _, text in make_export.SKUS:
        one, two, three = (skus[text, region] for region, _ in make_export.REGIONS)
        found += [(unit, [one, two]), (unit, [three])]
    return found


def write_terms(folder: str, count: int, sets: list[tuple[str, list[str]]], hours: int, start: datetime.datetime = START, seed: int = 1) -> list[str]:
    """Writes so many commitments, whose terms begin and end all over the hours, some before and after them. Some are paid outside of their terms."""
    choice, paths = random.Random(seed), []
    os.makedirs(folder, exist_ok=True)
    of_hours = [skus for unit, skus in sets if unit == "Hours"]
    for number in range(count):
        kind = ("Usage", "Spend")[number % 2]
        skus = choice.choice(of_hours) if kind == "Usage" else choice.choice(sets)[1]
        scope = skus if kind == "Usage" else {sku: choice.randrange(1, 1_000_001) for sku in skus}
        begins = start + datetime.timedelta(hours=choice.randrange(-hours // 4, hours))
        length, capacity = choice.randrange(1, hours + 2), choice.choice(["0.25", "1.75", "3", "0.000000007"])
        times = [begins + datetime.timedelta(hours=choice.randrange(-30, length + 30)) for _ in range(choice.randrange(1, 4))]
        bought = [(time, f"{choice.randrange(2_000)}.{choice.randrange(10**9):09}") for time in times]
        account = choice.choice([None, None, make_export.ACCOUNTS[0][0]])
        paths.append(os.path.join(folder, f"cd-{number}.toml"))
        with open(paths[-1], "w", encoding="utf-8") as file:
            file.write("\n".join(commitment(f"cd-{number:03}", kind, begins, length, capacity, scope, bought, account)) + "\n")
    return paths


def write_text(path: str, text: str) -> str:
    """Writes a file."""
    with open(path, "w", encoding="utf-8") as file:
        file.write(text)
    return path


def printed(program: str, *words: str, given: bytes = b"") -> bytes:
    """What a run of focusd prints that ends well."""
    return subprocess.run([program, *words], input=given, stdout=subprocess.PIPE, check=True).stdout


def one_warehouse(program: str, folder: str, exports: Sequence[str], terms: Sequence[str]) -> str:
    """A warehouse that holds all."""
    os.mkdir(folder)
    printed(program, "run", "--dir", folder, "--create")
    if terms:
        printed(program, "add", "--dir", folder, "--origin", "terms", "--yes", *terms)
    for number, export in enumerate(exports, 1):
        printed(program, "import", "--dir", folder, "--quiet", "--origin", f"export-{number}", export)
    return folder


def questions(low: str, high: str, bys: Sequence[str]) -> list[list[str]]:
    """What a whole warehouse and a cluster are asked, to the byte."""
    ranged = ["--from", low, "--to", high]
    found = [["report", "--tag", "team", *ranged, "--format", form] for form in ("table", "csv", "json", "html")]
    found += [["report", "--tag", "environment", *ranged, "--top", "1", "--format", "json"]]
    for by in bys:
        found += [["report", "--tag", "team", *ranged, "--by", by, "--format", form] for form in ("csv", "json")]
        found += [["report", "--tag", "team", *ranged, "--by", by, "--top", "3", "--format", "html"]]
    return found + [["coverage", *ranged, "--format", form] for form in ("table", "csv")]


def run_cluster(*words: str, scheduler: str, program: str) -> subprocess.CompletedProcess[bytes]:
    """A run of the command of clusters."""
    return subprocess.run(
        [sys.executable, "-B", COMMAND, words[0], "--scheduler", scheduler, "--program", program, "--quiet", *words[1:]], capture_output=True, check=False
    )
