"""Commitments, purchases that are added to them, and policies: files of the cluster's folder, and entries of the shards."""

import os
import tempfile
import tomllib
from typing import Any

from focusd_cluster.engine import Engine
from focusd_cluster.faults import Fault
from focusd_cluster.filling import fill_order, filled
from focusd_cluster.importing import Say
from focusd_cluster.manifest import Cluster, Policy, Term, digest_of, has_digest, write_synced
from focusd_cluster.piles import check_new, piles_of
from focusd_cluster.tasks import Order, ran, script_of

OF_COMMITMENTS = {"category", "start", "hours", "capacity", "unit", "skus", "rates", "purchase"}
OF_POLICIES = {"key", "rule"}


def add_files(cluster: Cluster, program: str, files: list[str], yes: bool) -> list[str]:
    """Takes files into the cluster's folder, and names them in the manifest: a line for each. All are checked before the first is taken."""
    manifest = cluster.manifest
    other = manifest.unfinished()
    if other:
        raise Fault(f"the import of {other.origin} isn't finished. What to do: run it again first")
    lines, taken = [], Taken(cluster, yes)
    for path in files:
        lines.append(taken.line_of(path))
    taken.check(program)
    for part in ("terms", "policies"):
        os.makedirs(cluster.path(part), exist_ok=True)
    new: list[tuple[str, Term | Policy]] = [*taken.terms, *taken.policies]
    for path, item in new:
        with open(path, "rb") as file:
            write_synced(cluster.path(item.file), file.read())
        cluster.check_file(item.file, item.digest)
    manifest.terms += [term for _, term in taken.terms]
    manifest.policies += [policy for _, policy in taken.policies]
    cluster.save()
    return lines


class Taken:
    """The files that are taken, each with what the manifest will say of it."""

    def __init__(self, cluster: Cluster, yes: bool):
        self.cluster, self.manifest, self.yes = cluster, cluster.manifest, yes
        self.terms: list[tuple[str, Term]] = []
        self.policies: list[tuple[str, Policy]] = []

    def line_of(self, path: str) -> str:
        """Takes a file, unless it is there already: what is said of it."""
        table = read(path)
        kind = kind_of(path, table)
        return self.policy(path, table) if kind == "policy" else self.term(path, kind, table)

    def policy(self, path: str, table: dict[str, Any]) -> str:
        """Takes a policy."""
        before, key = [*self.manifest.policies, *(policy for _, policy in self.policies)], str(table.get("key", ""))
        if before and has_digest(path, before[-1].digest):
            return f"{path}: policy by {key!r} is there already, the same"
        if before and before[-1].key != key and not self.yes:
            raise Fault(f"{path}: the policy takes the place of one by another key, {before[-1].key!r} (A4 OtherKey). What to do: give --yes if that is right")
        self.policies.append((path, Policy(key, f"policies/{len(before) + 1}.toml", digest_of(path))))
        return f"{path}: policy by {key!r}: policy {len(before) + 1}"

    def term(self, path: str, kind: str, table: dict[str, Any]) -> str:
        """Takes a commitment or a purchase."""
        before, name = [*self.manifest.terms, *(term for _, term in self.terms)], str(table.get("id", ""))
        word = "commitment" if kind == "commit" else "purchase for commitment"
        if any(term.kind == kind and has_digest(path, term.digest) for term in before) and not (kind == "add" and self.yes):
            return f"{path}: {word} {name} is there already, the same"
        if kind == "commit" and any((term.kind, term.id) == (kind, name) for term in before):
            raise Fault(f"{path}: a commitment {name} with other terms is there (J2 DoubleId)")
        if kind == "commit":
            check_new(self.manifest, path)
        self.terms.append((path, Term(kind, name, f"terms/{len(before) + 1}.toml", digest_of(path), 1)))
        return f"{path}: {word} {name}: term {len(before) + 1}"

    def check(self, program: str) -> None:
        """Gives new terms their piles, and lets focusd judge all files over the terms that are there."""
        manifest = self.manifest
        if manifest.piles > 1 and self.terms:
            self.place(program)
        for pile in sorted({term.pile for _, term in self.terms}):
            judge(self.cluster, program, pile, [path for path, term in self.terms if term.pile == pile], self.yes)
        if self.policies:
            judge(self.cluster, program, 0, [path for path, _ in self.policies], True)

    def place(self, program: str) -> None:
        """Gives new terms their piles: a purchase that of its commitment."""
        old = [self.cluster.path(term.file) for term in self.manifest.terms if term.kind == "commit"]
        piles = piles_of(program, self.manifest, old + [path for path, term in self.terms if term.kind == "commit"])
        for term in self.manifest.terms:
            if piles[term.id] != term.pile:
                raise Fault(f"commitment {term.id} would move from pile {term.pile} to {piles[term.id]}. What to do: add all commitments to a new cluster")
        for _, term in self.terms:
            term.pile = piles.get(term.id, 1)


def read(path: str) -> dict[str, Any]:
    """What a TOML file says."""
    try:
        with open(path, "rb") as file:
            return tomllib.load(file)
    except OSError as why:
        raise Fault(f"{path}: {why.strerror}") from why
    except ValueError as why:
        raise Fault(f"{path}: it is no TOML in UTF-8: {why} (A1 NoToml)") from why


def kind_of(path: str, table: dict[str, Any]) -> str:
    """What a file is, by the names at its top level, as `focusd add` decides it: `commit`, `add` or `policy`."""
    names = table.keys()
    if names & OF_POLICIES and names & (OF_COMMITMENTS | {"at", "billed"}):
        raise Fault(f"{path}: it has fields of a policy, and of a commitment or a purchase (A3 TwoKinds)")
    if names & OF_COMMITMENTS:
        return "commit"
    if names & OF_POLICIES:
        return "policy"
    if names & {"at", "billed"}:
        return "add"
    raise Fault(f"{path}: it is neither a commitment nor a policy nor a purchase (A2 NoKind)")


def judge(cluster: Cluster, program: str, pile: int, files: list[str], yes: bool) -> None:
    """Adds files to a warehouse with the terms of a pile, which is then removed."""
    manifest = cluster.manifest
    with tempfile.TemporaryDirectory(prefix="focusd-cluster-") as folder:
        terms = [(term.kind, cluster.path(term.file), term.digest) for term in manifest.terms_of(pile)]
        ran([program, "run", "--dir", folder, "--create", "--currency", manifest.currency], script_of(terms))
        said = ran([program, "add", "--dir", folder, "--origin", "new", *(["--yes"] if yes else []), *files]).stdout.decode()
    same = [line for line in said.splitlines() if " is there already, the same" in line]
    if same:
        raise Fault("\n".join(same))


def send_terms(cluster: Cluster, engine: Engine, program: str, say: Say) -> str:
    """Sends each shard what it lacks of the terms of its pile: what is said at the end."""
    manifest = cluster.manifest
    lacking = [shard for shard in manifest.shards.values() if manifest.lacks_terms(shard)]
    sent: list[str] = []

    def note(shard: object, answer: Order) -> None:
        sent.append(answer["name"])
        say(f"{len(sent)} of {len(lacking)} shards")

    filled(cluster, engine, [(shard, fill_order(cluster, shard, program)) for shard in lacking], note)
    return f"{len(manifest.terms):,} terms are in {len(manifest.shards):,} shards, {len(sent):,} were sent some"
