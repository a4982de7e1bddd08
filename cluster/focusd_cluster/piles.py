"""Piles: the rows of an hour that commitments join by SKUs stay together, and so do these commitments.

`focusd split` puts all rows of the SKUs that a commitment lists, and of those that further commitments join to them, into one pile. Which pile that
is follows from the commitments and their order alone. Other rows go wherever there is room, so a commitment for their SKUs comes too late.
"""

import json
import os
import tempfile

from focusd_cluster.faults import Fault
from focusd_cluster.manifest import Manifest, Term
from focusd_cluster.tasks import Order, ran

HEADER = "BilledCost,EffectiveCost,BillingCurrency,ChargeCategory,ChargePeriodStart,ChargePeriodEnd\n"


def piles_of(program: str, manifest: Manifest, commitments: list[str]) -> dict[str, int]:
    """The pile of each of these commitments, by its id: what `focusd split` says where it cuts an export of one row."""
    with tempfile.TemporaryDirectory(prefix="focusd-cluster-") as folder:
        export = os.path.join(folder, "export.csv")
        with open(export, "w", encoding="ascii") as file:
            file.write(f"{HEADER}0,0,{manifest.currency},Usage,2024-01-01T00:00Z,2024-01-01T01:00Z\n")
        words = [program, *split_words(manifest, commitments), "--out", os.path.join(folder, "out"), export]
        answer = json.loads(ran(words).stdout)
    return {named["id"]: named["pile"] for named in answer["commitments"]}


def split_words(manifest: Manifest, commitments: list[str]) -> list[str]:
    """The command that cuts an export for a cluster, but for where to."""
    words = ["split", "--by", manifest.by, "--into", str(manifest.piles), "--format", "json", "--quiet", "--no-sync"]
    return [*words, *(word for path in commitments for word in ("--commitments", path))]


def check_new(manifest: Manifest, path: str) -> None:
    """Refuses a commitment that comes too late."""
    if manifest.piles > 1 and manifest.exports:
        raise Fault(
            f"{path}: rows are in {manifest.piles} piles already, and this commitment may apply to rows of several. What to do: make a new cluster, "
            "add all commitments, and import the exports again"
        )


def check_piles(terms: list[Term], receipt: Order) -> None:
    """Refuses an export that was cut with commitments in other piles."""
    wanted = {term.id: term.pile for term in terms if term.kind == "commit"}
    for named in receipt["commitments"]:
        if wanted.get(named["id"]) != named["pile"]:
            raise Fault(f"focusd split put commitment {named['id']} into pile {named['pile']}, and it is in pile {wanted.get(named['id'])}")
