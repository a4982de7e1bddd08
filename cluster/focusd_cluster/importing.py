"""Exports are cut into parts, and the parts are imported into their shards."""

import hashlib
import os
import re
import shutil
from collections import defaultdict
from collections.abc import Callable
from typing import Any

from focusd_cluster.engine import Engine
from focusd_cluster.faults import Fault, WrongWords
from focusd_cluster.filling import fill_order, filled
from focusd_cluster.manifest import CUT, DONE, Cluster, Export, Shard, Source, new_shard
from focusd_cluster.piles import check_piles, split_words
from focusd_cluster.tasks import TERMS, Order, check, cut, measure

# The most rows of a warehouse.
MOST_ROWS = 4_194_304
# How focusd names the rule that a row breaks.
ROW_FAULT = re.compile(r"\bV\d+ [A-Z]")

Say = Callable[[str], None]


def import_export(cluster: Cluster, engine: Engine, program: str, origin: str, files: list[str], say: Say, warn: Say) -> str:
    """Imports an export, or goes on with it: what is said at the end."""
    if not re.fullmatch(r"[A-Za-z0-9._-]{1,64}", origin, re.ASCII) or origin == TERMS:
        raise WrongWords(f"--origin: {origin!r} is not made of 1 to 64 ASCII letters, digits, '-', '_' and '.'")
    manifest = cluster.manifest
    other = manifest.unfinished()
    if other and other.origin != origin:
        raise Fault(f"the import of {other.origin} isn't finished. What to do: run it again first")
    export = manifest.export(origin)
    if export and export.state == DONE:
        check_same(export, files, engine)
        # A command that was killed at its end may have left them.
        shutil.rmtree(cluster.path("parts", origin), ignore_errors=True)
        return f"imported 0 rows into {len(export.shards)} shards, {export.rows:,} were there already"
    say(f"cutting {len(files)} files")
    export, receipts = cut_export(cluster, engine, program, origin, files)
    say(f"filling {len(export.shards)} shards")
    try:
        new, known, warnings = fill_shards(cluster, engine, program, export, receipts, say)
    except Fault as why:
        raise with_rows_named(why, cluster, engine, program, origin, files) from why
    export.state, export.done, export.touched = DONE, [], []
    cluster.save()
    shutil.rmtree(cluster.path("parts", origin), ignore_errors=True)
    if warnings:
        name, text = min(warnings.items())
        warn(f"{len(warnings)} shards gave a warning, {name} this one: {text.strip()}")
    return f"imported {new:,} rows into {len(export.shards)} shards, {known:,} were there already"


def check_same(export: Export, files: list[str], engine: Engine) -> None:
    """Refuses other files than those that an export was imported from."""
    known = export.files[0].digest
    found = engine.all(measure, [{"name": path, "path": os.path.abspath(path), "known": known} for path in files])
    if not are_same(export, found):
        raise Fault(f"{export.origin} was imported from other files. What to do: give another export an origin of its own")


def are_same(export: Export, found: list[Order]) -> bool:
    """Whether files are those that an export was imported from."""
    return [(file.bytes, file.digest) for file in export.files] == [(file["bytes"], file["digest"]) for file in found]


def cut_export(cluster: Cluster, engine: Engine, program: str, origin: str, files: list[str]) -> tuple[Export, list[Order]]:
    """Cuts the files of an export, and has the manifest name its shards. Where an earlier run didn't end, and the files are others now, they take the place
    of what that run may have left in its shards."""
    manifest, export = cluster.manifest, cluster.manifest.export(origin)
    taken = [f"{name}.csv" for name in export.done] if export else []
    try:
        receipts = engine.all(cut, [{**cut_order(cluster, program, origin, number, path), "taken": taken} for number, path in enumerate(files, 1)])
        if export and are_same(export, receipts):
            return export, receipts
        touched = sorted({*export.touched, *export.shards}) if export else []
        planned = plan(cluster, origin, files, receipts, touched)
    except Fault:
        # Nothing of an export that has no plan is in a shard.
        if not export:
            shutil.rmtree(cluster.path("parts", origin), ignore_errors=True)
        raise
    if export:
        manifest.exports.remove(export)
        # Some parts of the earlier files were taken, and removed.
        kept = {os.path.basename(receipt["out"]) for receipt in receipts}
        for name in set(os.listdir(cluster.path("parts", origin))) - kept:
            shutil.rmtree(cluster.path("parts", origin, name))
    manifest.exports.append(planned)
    cluster.save()
    return planned, receipts


def with_rows_named(why: Fault, cluster: Cluster, engine: Engine, program: str, origin: str, files: list[str]) -> Fault:
    """The fault of a shard's import. Where a rule of rows is broken, what `focusd check` says of the export's files takes its place: it names their lines,
    and not those of parts."""
    if not ROW_FAULT.search(str(why)):
        return why
    orders = [{"name": f"file {number}, {path}", "program": program, "path": os.path.abspath(path), "currency": cluster.manifest.currency} for number, path in enumerate(files, 1)]
    said = [answer["said"] for answer in engine.all(check, orders) if answer["said"]]
    if not said:
        # The export has no fault, so a part isn't what was cut: a machine that stopped may have lost bytes of it. It is cut again.
        shutil.rmtree(cluster.path("parts", origin), ignore_errors=True)
        return Fault(f"{why}\nthe files of {origin} have no fault, so a part of them was damaged, and the parts are removed. What to do: run the command again")
    more = f"the import of {origin} isn't finished, and nothing is reported. What to do: mend the export, and import it again with this origin"
    return Fault("\n".join([*said, more]))

def cut_order(cluster: Cluster, program: str, origin: str, number: int, path: str) -> Order:
    """The order to cut a file. The parts have a folder of their own, named by the length and the time of the file, and by the commitments that it was
    cut with: so what an earlier run left is taken only where it is the same."""
    manifest, path = cluster.manifest, os.path.abspath(path)
    commitments = [term for term in manifest.terms if term.kind == "commit"] if manifest.piles > 1 else []
    digest = hashlib.blake2b("".join(term.digest for term in commitments).encode(), digest_size=8).hexdigest()
    try:
        found = os.stat(path)
    except OSError as why:
        raise Fault(f"{path}: {why.strerror}") from why
    return {
        "name": f"file {number}, {path}",
        "program": program,
        "path": path,
        "stamp": [found.st_size, found.st_mtime_ns],
        "words": split_words(manifest, [cluster.path(term.file) for term in commitments]),
        "out": cluster.path("parts", origin, f"{number}-{found.st_size}-{found.st_mtime_ns}-{digest}"),
    }


def shard_of(cluster: Cluster, part: dict[str, Any]) -> Shard:
    """The shard that a part of a file belongs to."""
    manifest = cluster.manifest
    length = {"hour": 13, "day": 10, "month": 7}[manifest.by]
    shard = new_shard(part["from"], part["to"], part["from"][:length], part["pile"], manifest.piles)
    return manifest.shards.get(shard.name, shard)


def plan(cluster: Cluster, origin: str, files: list[str], receipts: list[Order], touched: list[str]) -> Export:
    """Names the shards of an export, and how many rows each takes. It refuses an export that doesn't fit. In shards that an earlier version touched most
    rows are there already."""
    manifest = cluster.manifest
    shards: dict[str, Shard] = {}
    rows: dict[str, int] = defaultdict(int)
    for receipt in receipts:
        check_piles(manifest.terms, receipt)
        for part in receipt["files"]:
            shard = shard_of(cluster, part)
            shards[shard.name] = shard
            rows[shard.name] += part["rows"]
    full = [name for name, count in rows.items() if count + (0 if name in touched else shards[name].rows) > MOST_ROWS]
    if full:
        names = ", ".join(sorted(full)[:5])
        raise Fault(
            f"{len(full)} shards would have more than {MOST_ROWS:,} rows: {names}. What to do: import all exports into a new cluster, with a shorter "
            "--by or more piles (--into)"
        )
    manifest.shards |= shards
    sources = [Source(os.path.abspath(path), receipt["bytes"], receipt["digest"]) for path, receipt in zip(files, receipts)]
    return Export(origin, CUT, sources, sum(receipt["rows"] for receipt in receipts), dict(rows), touched=touched)


def fill_shards(cluster: Cluster, engine: Engine, program: str, export: Export, receipts: list[Order], say: Say) -> tuple[int, int, dict[str, str]]:
    """Has the shards take their parts: how many rows are new, how many were there, and the warnings by shard. A part that was taken is removed, once the
    manifest says so."""
    manifest, counts, warnings = cluster.manifest, [0, 0], {}
    parts: dict[str, list[tuple[str, int]]] = defaultdict(list)
    for receipt in receipts:
        for part in receipt["files"]:
            parts[shard_of(cluster, part).name].append((os.path.join(receipt["out"], part["file"]), part["bytes"]))
    orders = [(shard, fill_order(cluster, shard, program)) for shard in manifest.shards.values() if not shard.hours and manifest.lacks_terms(shard)]
    for name in sorted({*export.shards, *export.touched}):
        part_rows = export.shards.get(name, 0)
        if name in export.done:
            counts[1] += part_rows
            continue
        shard = manifest.shards[name]
        order = {**fill_order(cluster, shard, program), "origin": export.origin, "part_rows": part_rows, "parts": parts[name]}
        if name in export.touched:
            order |= {"replaces": True, "rows": sum(other.shards.get(name, 0) for other in manifest.exports if other is not export)}
        orders.append((shard, order))
    spent: list[str] = []

    def note(shard: Shard, answer: Order) -> None:
        if not shard.hours:
            return
        export.done.append(shard.name)
        spent.extend(path for path, _ in parts[shard.name])
        counts[0] += answer["new"]
        counts[1] += answer["known"]
        if answer["warning"]:
            warnings[shard.name] = answer["warning"]
        say(f"{len(export.done)} of {len({*export.shards, *export.touched})} shards")

    def saved() -> None:
        while spent:
            os.unlink(spent.pop())

    filled(cluster, engine, orders, note, saved)
    return counts[0], counts[1], warnings
