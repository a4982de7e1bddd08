"""What importing and adding share: shards are filled, and the manifest says what they hold."""

import dataclasses
import os
import time
from collections.abc import Callable

from focusd_cluster.engine import Engine, raise_faults
from focusd_cluster.manifest import Cluster, Shard, new_manifest
from focusd_cluster.faults import Fault, WrongWords
from focusd_cluster.tasks import Order, fill

# How many seconds lie between two manifests that say how far an import is.
SAVE_EVERY = 2.0


@dataclasses.dataclass
class Shape:
    """How a cluster is made."""

    currency: str | None
    by: str | None
    piles: int | None


def open_cluster(cluster: Cluster, create: bool, shape: Shape) -> None:
    """Reads the manifest, or makes the cluster where the folder holds none. A cluster that is there has to have the shape that is named."""
    if create and not cluster.exists():
        if os.path.exists(cluster.path("shards")):
            raise Fault(f"{cluster.folder}: it has shards and no manifest. What to do: take manifest.json from a back-up, or give another folder")
        cluster.manifest = new_manifest(shape.currency or "USD", shape.by or "day", shape.piles or 1)
        cluster.save()
    cluster.load()
    for option, wanted, found in (
        ("--currency", shape.currency, cluster.manifest.currency),
        ("--by", shape.by, cluster.manifest.by),
        ("--into", shape.piles, cluster.manifest.piles),
    ):
        if wanted is not None and wanted != found:
            raise WrongWords(f"{option}: the cluster was made with {found}, and stays so")


def fill_order(cluster: Cluster, shard: Shard, program: str) -> Order:
    """The order to make a shard and to send it its terms."""
    manifest = cluster.manifest
    return {
        "name": f"shard {shard.name}",
        "program": program,
        "folder": cluster.shard_folder(shard),
        "currency": manifest.currency,
        "terms": [(term.kind, cluster.path(term.file), term.digest) for term in manifest.terms_of(shard.pile)],
        "entries": shard.entries,
        "rows": shard.rows,
        "parts": [],
        "replaces": False,
    }


def filled(
    cluster: Cluster, engine: Engine, orders: list[tuple[Shard, Order]], note: Callable[[Shard, Order], None], saved: Callable[[], None] = lambda: None
) -> None:
    """Fills shards, and notes each that is done. What went right is kept where other shards had faults, which are raised together. `saved` is called each
    time that the manifest says what is done so far."""
    shards = {order["name"]: shard for shard, order in orders}
    faults, last = [], time.monotonic()
    try:
        for answer in engine.done(fill, [order for _, order in orders]):
            if "fault" in answer:
                faults.append(answer)
                continue
            shard = shards[answer["name"]]
            shard.entries, shard.rows, shard.commitments = answer["entries"], answer["rows"], answer["commitments"]
            shard.terms = answer["terms"]
            note(shard, answer)
            if time.monotonic() - last > SAVE_EVERY:
                cluster.save()
                saved()
                last = time.monotonic()
    finally:
        cluster.save()
        saved()
    raise_faults(faults)
