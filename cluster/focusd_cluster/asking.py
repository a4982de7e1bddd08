"""Reports and coverage of all shards: each hour is asked for once, and the answers are added up exactly."""

import subprocess
from collections import defaultdict
from collections.abc import Callable
from typing import Any

from focusd_cluster.engine import Engine
from focusd_cluster.faults import Fault, WrongWords
from focusd_cluster.hours import MOST_HOURS, Range, hour_of, text_of
from focusd_cluster.layout import Align, cents, share, table
from focusd_cluster.manifest import Cluster, Shard
from focusd_cluster.tasks import Order, ask, cover, look

COVERAGE = [
    "CommitmentDiscountId", "CommitmentDiscountCategory", "Unit", "Capacity", "Used", "Unused", "UsedCost", "UnusedCost", "BilledCost",
]  # fmt: skip
# The columns of a coverage that are added up.
SUMMED = COVERAGE[3:]


def range_of(low: str, high: str) -> Range:
    """The range that the command line names."""
    found = hour_of(low), hour_of(high)
    if not 0 < found[1] - found[0] <= MOST_HOURS:
        raise WrongWords(f"--to: the range has {max(0, found[1] - found[0]):,} hours; it must have 1 to {MOST_HOURS:,}")
    return found


def check_whole(cluster: Cluster, shards: list[Shard]) -> None:
    """Refuses to ask where an import isn't finished, or where a shard wasn't sent all that it must have."""
    other = cluster.manifest.unfinished()
    if other:
        raise Fault(f"the import of {other.origin} isn't finished. What to do: run it again")
    lacking = [shard.name for shard in shards if cluster.manifest.lacks_terms(shard)]
    if lacking:
        raise Fault(f"{len(lacking)} shards lack commitments: {', '.join(lacking[:5])}. What to do: run focusd-cluster add without files")


def order_of(cluster: Cluster, shard: Shard, program: str) -> Order:
    """The order to open a shard and to look whether it holds what the manifest says."""
    return {
        "name": f"shard {shard.name}",
        "program": program,
        "folder": cluster.shard_folder(shard),
        "entries": shard.entries,
        "rows": shard.rows,
        "commitments": shard.commitments,
    }


def answers(cluster: Cluster, engine: Engine, program: str, whole: Range, task: Callable[[Order], Order], more: Order) -> list[Order]:
    """What each shard answers for its hours of a range."""
    asked = cluster.manifest.asked(whole)
    check_whole(cluster, [shard for shard, _ in asked])
    orders = []
    for shard, ranges in asked:
        texts = [(text_of(low), text_of(high)) for low, high in ranges]
        orders.append({**order_of(cluster, shard, program), "ranges": texts, **more})
    return engine.all(task, orders)


def report(cluster: Cluster, engine: Engine, program: str, options: Any) -> bytes:
    """The report of all shards, as `focusd report` prints it of one warehouse."""
    whole = range_of(options.low, options.high)
    policies = cluster.manifest.policies[-1:]
    for policy in policies:
        cluster.check_file(policy.file, policy.digest)
    found = answers(cluster, engine, program, whole, ask, {"tag": options.tag, "by": options.by})
    words = [program, "charge", "--tag", options.tag, "--from", text_of(whole[0]), "--to", text_of(whole[1]), "--format", options.format]
    words += ["--by", options.by] if options.by else []
    words += ["--top", str(options.top)] if options.top else []
    words += ["--policy", cluster.path(policies[0].file)] if policies else []
    documents = b"".join(document for answer in found for document in answer["documents"])
    done = subprocess.run([*words, "-"], input=documents, capture_output=True, check=False)
    if done.returncode:
        raise Fault(done.stderr.decode("utf-8", "replace").strip())
    return done.stdout


def nanos(text: str) -> int:
    """An amount with nine digits after the point as a whole number of nanos."""
    whole, _, part = text.partition(".")
    if len(part) != 9:
        raise Fault(f"focusd wrote the amount {text!r}, which has not nine digits after the point")
    return int(whole + part)


def amount(number: int) -> str:
    """Nanos as `focusd` writes them."""
    return f"{'-' if number < 0 else ''}{abs(number) // 10**9}.{abs(number) % 10**9:09d}"


def record_of(fields: list[str]) -> str:
    """A record of a CSV, quoted only where it must be."""
    return ",".join('"' + field.replace('"', '""') + '"' if set(field) & set(',"\r\n') else field for field in fields) + "\n"


def coverage(cluster: Cluster, engine: Engine, program: str, options: Any) -> str:
    """The coverage of all shards. Each number is a sum over hours, so those of the shards add up exactly."""
    whole = range_of(options.low, options.high)
    found = answers(cluster, engine, program, whole, cover, {})
    sums: dict[str, list[int]] = defaultdict(lambda: [0] * len(SUMMED))
    kinds: dict[str, list[str]] = {}
    for record in (record for answer in found for record in answer["records"]):
        name = record[COVERAGE[0]]
        kinds[name] = [record[column] for column in COVERAGE[1:3]]
        sums[name] = [one + nanos(record[column]) for one, column in zip(sums[name], SUMMED)]
    # In the order in which the commitments were added.
    names = [term.id for term in cluster.manifest.terms if term.kind == "commit" and term.id in sums]
    if options.format == "csv":
        return "".join(map(record_of, [COVERAGE, *([name, *kinds[name], *map(amount, sums[name])] for name in names)]))
    lines = [["Commitment", "Kind", "Unit", "Capacity", "Used", "Unused", "Share", "UsedCost", "UnusedCost", "BilledCost"], None]
    for name in names:
        quantities, costs = sums[name][:3], sums[name][3:]
        lines.append([name, *kinds[name], *map(cents, quantities), share(quantities[1], quantities[0]), *map(cents, costs)])
    totals = [sum(sums[name][place] for name in names) for place in (3, 4, 5)]
    return table([Align.LEFT] * 3 + [Align.RIGHT] * 7, [*lines, None, ["Total", *[""] * 6, *map(cents, totals)]])


def status(cluster: Cluster, engine: Engine, program: str) -> tuple[str, list[str]]:
    """What the cluster holds, and what is wrong with its shards: each is opened."""
    manifest = cluster.manifest
    shards = list(manifest.shards.values())
    filled = [shard for shard in shards if shard.entries is not None]
    orders = [order_of(cluster, shard, program) for shard in filled]
    faults = sorted(answer["fault"] for answer in engine.done(look, orders) if "fault" in answer)
    faults += [f"shard {shard.name}: it lacks terms" for shard in shards if manifest.lacks_terms(shard)]
    with_rows = [shard.hours for shard in shards if shard.hours]
    lines = [
        ("Currency", manifest.currency),
        ("Cut", f"by {manifest.by}" + (f", into {manifest.piles} piles" if manifest.piles > 1 else "")),
        ("Shards", f"{len(shards):,}, without rows: {len(shards) - len(with_rows):,}"),
        ("Rows", f"{sum(shard.rows for shard in shards):,}, most in a shard: {max((shard.rows for shard in shards), default=0):,}"),
        *([("Hours", f"{text_of(min(h[0] for h in with_rows))} to {text_of(max(h[1] for h in with_rows) - 1)}")] if with_rows else []),
        ("Terms", f"{sum(term.kind == 'commit' for term in manifest.terms)} commitments, {sum(term.kind == 'add' for term in manifest.terms)} purchases added"),
        ("Policy", f"by {manifest.policies[-1].key!r}" if manifest.policies else "none"),
        ("Exports", f"{len(manifest.exports):,}"),
        *[(f"  {export.origin}", f"{export.state}, {export.rows:,} rows in {len(export.shards):,} shards") for export in manifest.exports],
    ]
    width = max(len(name) for name, _ in lines) + 2
    return "".join(f"{name:{width}}{value}\n" for name, value in lines), faults
