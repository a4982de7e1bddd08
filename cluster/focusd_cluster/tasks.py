"""What a worker does: each function runs `focusd` over one folder or one file, and can be run again, also beside a run of it that hasn't ended.

A task takes an order, a plain dictionary, and returns another one. What is wrong for good comes back as the text `fault`. Where another program
has the folder open the task raises `Busy`, and the engine runs it again. Numbers make each entry count once: a term is sent under its place among
the terms of the shard, and an import finds its posts by their numbers.
"""

import csv
import functools
import io
import json
import os
import re
import shutil
import subprocess
import time
import uuid
from collections.abc import Callable
from typing import Any

from focusd_cluster.faults import Busy, Fault
from focusd_cluster.manifest import OF_EXPORTS, digest_of, has_digest, sync_folder

Order = dict[str, Any]

# The origin under which a shard has its commitments, and purchases that are added to them.
TERMS = "focusd-cluster.terms"
IS_BUSY = b"another process has this folder open"
# How long a task waits before it says that the folder is busy: with the retries of the engine this is how long an orphan may take.
PAUSE = 1.0
STATE = re.compile(rb"state (\d+) (\d+) (\d+) ([01])")
IMPORTED = re.compile(r"imported (\d+) rows?, (\d+) (?:was|were) there already; (\d+) posts?")
REPLACED = re.compile(r"replaced by ([\d,]+)")
RECEIPT = "receipt.json"


def ran(words: list[str], given: bytes = b"") -> subprocess.CompletedProcess[bytes]:
    """A run of `focusd` that ended well."""
    try:
        done = subprocess.run(words, input=given, capture_output=True, check=False)
    except OSError as why:
        raise Fault(f"{words[0]}: {why.strerror}. What to do: give the program by --program, or put it on the path of each worker") from why
    if IS_BUSY in done.stderr:
        time.sleep(PAUSE)
        raise Busy(words[words.index("--dir") + 1])
    if done.returncode:
        raise Fault(done.stderr.decode("utf-8", "replace").strip() or f"{' '.join(words[:2])} ended with status {done.returncode}")
    return done


def task(run: Callable[[Order], Order]) -> Callable[[Order], Order]:
    """A task: what it returns is what it found, with the seconds that it took, or its fault with the name of the shard or the file."""

    @functools.wraps(run)
    def guarded(order: Order) -> Order:
        started, name = time.monotonic(), order["name"]
        try:
            found = run(order)
        except Fault as why:
            return {"name": name, "fault": f"{name}: {why}"}
        except OSError as why:
            return {"name": name, "fault": f"{name}: {why.filename}: {why.strerror}"}
        except (ValueError, LookupError) as why:
            return {"name": name, "fault": f"{name}: focusd wrote what isn't known here: {why!r}"}
        return {"name": name, "seconds": time.monotonic() - started, **found}

    return guarded


def served(order: Order, script: bytes, *more: str) -> list[bytes]:
    """The answers to a script over the shard's folder."""
    return ran([order["program"], "run", "--dir", order["folder"], *more], script).stdout.splitlines()


def state_in(answers: list[bytes]) -> dict[str, int]:
    """Entries, rows and commitments, as the last answer says."""
    found = STATE.fullmatch(answers[-1]) if answers else None
    if not found:
        raise Fault(f"focusd answered {answers[-1:]!r} where the state was asked for")
    return dict(zip(("entries", "rows", "commitments"), map(int, found.groups())))


def script_of(terms: list[tuple[str, str, str]]) -> bytes:
    """The script that sends terms to a shard, each under its place, and asks for the state."""
    lines = []
    for number, (kind, path, digest) in enumerate(terms, 1):
        if not has_digest(path, digest):
            raise Fault(f"{path}: it isn't the file that was added. What to do: take it from a back-up")
        with open(path, "rb") as file:
            content = file.read()
        content += b"" if content.endswith(b"\n") else b"\n"
        lines.append(f"{kind} {TERMS} {number} {content.count(10)}\n".encode() + content)
    return b"".join(lines) + b"state\n"


@task
def fill(order: Order) -> Order:
    """Makes a shard where it is new, sends it its terms, and has it take its parts of an export."""
    held = with_terms(order)
    if order["replaces"]:
        found = replaced(order)
    elif order["parts"]:
        found = imported(order, held)
    else:
        found = {**held, "new": 0, "known": 0, "warning": ""}
    if found["commitments"] != sum(kind == "commit" for kind, _, _ in order["terms"]):
        raise Fault(f"it has {found['commitments']} commitments, and the cluster has {len(order['terms'])} terms for it")
    wanted = order["rows"] + found["new"] + found["known"]
    if found["rows"] != wanted:
        raise Fault(f"it has {found['rows']:,} rows, and {wanted:,} were imported into it. What to do: take the folder from a back-up")
    return {**found, "terms": len(order["terms"])}


def with_terms(order: Order) -> dict[str, int]:
    """Makes a shard where it is new, and sends it its terms: what it holds."""
    is_new, script = order["entries"] is None, script_of(order["terms"])
    if is_new:
        os.makedirs(order["folder"], exist_ok=True)
        sync_folder(os.path.dirname(order["folder"]))
        try:
            answers = served(order, script, "--create", "--currency", order["currency"])
        except Fault as why:
            if "S7 Exists" not in str(why):
                raise
            answers = served(order, script)
    elif os.path.isdir(order["folder"]):
        answers = served(order, script)
    else:
        raise Fault("the folder is missing. What to do: take it from a back-up")
    for answer, (kind, path, _) in zip(answers, order["terms"]):
        if not answer.startswith((b"accepted ", b"already ")):
            raise Fault(f"{os.path.basename(path)} ({kind}) was answered {answer.decode()!r}")
    held = state_in(answers)
    before = held["entries"] - sum(answer.startswith(b"accepted ") for answer in answers)
    if not is_new and before < order["entries"]:
        raise Fault(f"it has {before} entries, and had {order['entries']}. What to do: take the folder from a back-up that isn't older")
    return held


def part_words(order: Order) -> list[str]:
    """The paths of a shard's parts, each of which has its length."""
    for path, size in order["parts"]:
        if os.path.getsize(path) != size:
            raise Fault(f"{path} isn't whole. What to do: run the command again")
    return [path for path, _ in order["parts"]]


def imported(order: Order, held: dict[str, int]) -> Order:
    """Imports a shard's parts: what it holds then. Where all posts are new, they are the entries that came."""
    words = [order["program"], "import", "--dir", order["folder"], "--origin", order["origin"], "--quiet", *part_words(order)]
    done = ran(words)
    found = IMPORTED.search(done.stdout.decode())
    if not found:
        raise Fault("focusd import ended without its line")
    new, known, posts = map(int, found.groups())
    if new + known != order["part_rows"]:
        raise Fault(f"its parts have {order['part_rows']:,} rows, and {new + known:,} were imported")
    if known:
        holds = state_in(served(order, b"state\n"))
    else:
        holds = {**held, "entries": held["entries"] + posts, "rows": held["rows"] + new}
    return {**holds, "new": new, "known": known, "warning": done.stderr.decode("utf-8", "replace")}


def replaced(order: Order) -> Order:
    """Has a shard's parts take the place of what an earlier version of the export's files left in it: what it holds then."""
    command = ["replace", "--quiet", *part_words(order)] if order["parts"] else ["withdraw", "--all", "--yes"]
    done = ran([order["program"], command[0], "--dir", order["folder"], "--origin", order["origin"], *command[1:]])
    rows = REPLACED.search(done.stdout.decode())
    if order["parts"] and not (rows and int(rows[1].replace(",", "")) == order["part_rows"]):
        raise Fault(f"its parts have {order['part_rows']:,} rows, and focusd replace said {done.stdout.decode().strip()!r}")
    answers = served(order, b"checkpoint\nstate\n")
    return {**state_in(answers), "new": order["part_rows"], "known": 0, "warning": done.stderr.decode("utf-8", "replace") if order["parts"] else ""}


@task
def check(order: Order) -> Order:
    """What `focusd check` says of the faults of a file; nothing where it has none."""
    words = [order["program"], "check", "--currency", order["currency"], order["path"]]
    try:
        done = subprocess.run(words, stdin=subprocess.DEVNULL, capture_output=True, check=False)
    except OSError as why:
        raise Fault(f"{words[0]}: {why.strerror}") from why
    # Behind the faults stands what is in the rows without one.
    faults = done.stdout.decode("utf-8", "replace").partition("\nrows ")[0] + done.stderr.decode("utf-8", "replace")
    return {"said": faults.strip() if done.returncode else ""}


@task
def cut(order: Order) -> Order:
    """Cuts a file of an export into parts. The receipt lies beside them, and all get their place at once, by a rename. Parts that aren't whole are cut
    again, but for those of shards that have taken theirs."""
    receipt = os.path.join(order["out"], RECEIPT)
    found = receipt_in(order)
    if not found:
        if os.path.isdir(order["out"]):
            shutil.rmtree(order["out"])
        cut_into(order, f"{order['out']}.{uuid.uuid4().hex}")
        with open(receipt, "rb") as file:
            found = json.load(file)
    return {**found, "out": order["out"]}


def receipt_in(order: Order) -> Order | None:
    """The receipt of the parts that an earlier run cut, where those that are still wanted are whole."""
    try:
        with open(os.path.join(order["out"], RECEIPT), "rb") as file:
            found: Order = json.load(file)
        for part in found["files"]:
            if part["file"] not in order["taken"] and os.path.getsize(os.path.join(order["out"], part["file"])) != part["bytes"]:
                return None
    except (OSError, ValueError):
        return None
    return found


def cut_into(order: Order, own: str) -> None:
    """Cuts the file into a folder of this run's own, which then gets its name, if none has it yet."""
    found = {"bytes": order["stamp"][0], "digest": digest_of(order["path"], OF_EXPORTS)}
    os.makedirs(os.path.dirname(own), exist_ok=True)
    try:
        found |= json.loads(ran([order["program"], *order["words"], "--out", own, order["path"]]).stdout)
        forget(order["path"])
        after = os.stat(order["path"])
        if [after.st_size, after.st_mtime_ns] != order["stamp"]:
            raise Fault("it changed while it was read. What to do: import it again")
        # What a machine that stops loses of the parts is found by their lengths and their rows, and they are cut again.
        with open(os.path.join(own, RECEIPT), "w", encoding="utf-8") as file:
            json.dump(found, file, ensure_ascii=False)
        # Fails where another run of this task was first: its parts are the same.
        os.rename(own, order["out"])
    except OSError:
        if not os.path.exists(os.path.join(order["out"], RECEIPT)):
            raise
    finally:
        shutil.rmtree(own, ignore_errors=True)


def forget(path: str) -> None:
    """Tells the system that a file isn't read again soon, so that it keeps the parts in memory in its place."""
    with open(path, "rb") as file:
        os.posix_fadvise(file.fileno(), 0, 0, os.POSIX_FADV_DONTNEED)


@task
def measure(order: Order) -> Order:
    """The length of a file, and its digest, made as one is that is known."""
    return {"bytes": os.path.getsize(order["path"]), "digest": digest_of(order["path"], order["known"].partition(":")[0])}


def check_state(order: Order, found: dict[str, int]) -> None:
    """Refuses a shard that doesn't hold what the manifest says."""
    if found["commitments"] < order["commitments"]:
        raise Fault(
            f"it lacks a commitment: it has {found['commitments']}, and the cluster has {order['commitments']} for it. "
            "What to do: take the folder from a back-up"
        )
    for what in ("entries", "rows", "commitments"):
        if found[what] != order[what]:
            raise Fault(f"it has {found[what]:,} {what}, and had {order[what]:,} when it was filled. What to do: take the folder from a back-up")


def check_folder(order: Order) -> None:
    """Refuses a shard that was never filled, or whose folder isn't there."""
    if order["entries"] is None:
        raise Fault("it was never filled. What to do: run focusd-cluster add without files")
    if not os.path.isdir(order["folder"]):
        raise Fault("the folder is missing. What to do: take it from a back-up")


def check_shard(order: Order) -> None:
    """Opens a shard, and refuses one that doesn't hold what the manifest says."""
    check_folder(order)
    check_state(order, state_in(served(order, b"state\n")))


@task
def ask(order: Order) -> Order:
    """The direct reports of a shard, one for each of the ranges that it is asked for."""
    check_folder(order)
    documents = []
    for low, high in order["ranges"]:
        words = [order["program"], "report", "--direct", "--dir", order["folder"], "--tag", order["tag"], "--from", low, "--to", high]
        text = ran([*words, *(["--by", order["by"]] if order["by"] else [])]).stdout
        check_state(order, json.loads(text))
        documents.append(text)
    return {"documents": documents}


@task
def cover(order: Order) -> Order:
    """The coverage of a shard: the records of all ranges that it is asked for, without heads."""
    check_shard(order)
    records = []
    for low, high in order["ranges"]:
        text = ran([order["program"], "coverage", "--dir", order["folder"], "--from", low, "--to", high, "--format", "csv"]).stdout.decode()
        head, *rest = csv.reader(io.StringIO(text, newline=""), strict=True)
        records += [dict(zip(head, record, strict=True)) for record in rest]
    return {"records": records}


@task
def look(order: Order) -> Order:
    """Whether a shard holds what the manifest says."""
    check_shard(order)
    return {}
