"""What a cluster's folder holds, as its manifest says.

    manifest.json    currency, how it is cut, terms, policies, exports and what of them is done, shards and what each holds
    terms/N.toml     commitments, and purchases that are added to them, in the order in which they were added
    policies/N.toml  policies; the last one is in force
    shards/NAME/     the warehouses
    parts/ORIGIN/    the parts of an export while it is imported
    lock             held by the command that works on the cluster

A manifest is written to another file, synced, and renamed: so a reader finds the old or the new one, whole.
"""

import contextlib
import dataclasses
import fcntl
import functools
import hashlib
import json
import os
import zlib
from collections.abc import Iterator

from focusd_cluster.faults import Fault
from focusd_cluster.hours import Range, gaps, hour_of, overlap, text_of

FORMAT = 2
MANIFEST = "manifest.json"


class Crc32:
    """A CRC-32, with what a digest of `hashlib` has. An export is long, and this costs a fifth of the quickest digest."""

    def __init__(self) -> None:
        self.sum = 0

    def update(self, data: bytes | memoryview) -> None:
        self.sum = zlib.crc32(data, self.sum)

    def hexdigest(self) -> str:
        return f"{self.sum:08x}"


# How digests of files are made; each has the name of its own before it.
DIGESTS = {"blake2b": functools.partial(hashlib.blake2b, digest_size=32), "crc32": Crc32, "sha256": hashlib.sha256}
# That of a new commitment, purchase or policy, and that of a new export.
OF_TERMS, OF_EXPORTS = "blake2b", "crc32"
# How far an export is: its files were cut and its rows are on the way to the shards, or all are there.
CUT, DONE = "cut", "done"


@dataclasses.dataclass
class Term:
    """A commitment, or a purchase that is added to one: each shard of its pile has it."""

    kind: str  # "commit" or "add", as in a script
    id: str
    file: str
    digest: str
    pile: int


@dataclasses.dataclass
class Policy:
    """A policy: it is applied to the sums of all shards, so no shard has it."""

    key: str
    file: str
    digest: str


@dataclasses.dataclass
class Source:
    """A file of an export."""

    path: str
    bytes: int
    digest: str


@dataclasses.dataclass
class Export:
    """What was imported under an origin, or is being imported."""

    origin: str
    state: str
    files: list[Source]
    rows: int = 0
    shards: dict[str, int] = dataclasses.field(default_factory=dict)  # the rows for each shard
    done: list[str] = dataclasses.field(default_factory=list)  # the shards that have theirs
    touched: list[str] = dataclasses.field(default_factory=list)  # the shards that may have rows of an earlier version of the files


@dataclasses.dataclass
class Shard:
    """A warehouse, and the hours that it is asked for. One without hours is asked for those that no other shard of its pile has: it holds no rows."""

    name: str
    pile: int
    start: str | None
    end: str | None
    entries: int | None = None  # what it held when a command last ended over it; none where it was never filled
    rows: int = 0
    commitments: int = 0
    terms: int = 0  # how many of the terms of its pile it was sent

    @property
    def hours(self) -> Range | None:
        """The hours that it is asked for."""
        return None if self.start is None or self.end is None else (hour_of(self.start), hour_of(self.end))


@dataclasses.dataclass
class Manifest:
    """What is written of a cluster."""

    currency: str
    by: str
    piles: int
    terms: list[Term] = dataclasses.field(default_factory=list)
    policies: list[Policy] = dataclasses.field(default_factory=list)
    exports: list[Export] = dataclasses.field(default_factory=list)
    shards: dict[str, Shard] = dataclasses.field(default_factory=dict)

    def terms_of(self, pile: int) -> list[Term]:
        """The terms that each shard of a pile has, in order: their places number them."""
        return [term for term in self.terms if term.pile == pile]

    def lacks_terms(self, shard: Shard) -> bool:
        """Whether a shard was never filled, or wasn't sent all terms of its pile."""
        return shard.entries is None or shard.terms != len(self.terms_of(shard.pile))

    def export(self, origin: str) -> Export | None:
        """The export of an origin."""
        return next((export for export in self.exports if export.origin == origin), None)

    def unfinished(self) -> Export | None:
        """The export whose import was begun and hasn't ended."""
        return next((export for export in self.exports if export.state != DONE), None)

    def asked(self, whole: Range) -> list[tuple[Shard, list[Range]]]:
        """The shards that are asked for a range, each with its hours: each pile is asked for each hour once."""
        found: list[tuple[Shard, list[Range]]] = []
        for pile in range(1, self.piles + 1):
            own = []
            for shard in self.shards.values():
                hours = overlap(shard.hours, whole) if shard.pile == pile and shard.hours else None
                if hours:
                    own.append(hours)
                    found.append((shard, [hours]))
            rest = gaps(whole, own)
            if rest:
                found.append((self.shards[rest_name(pile, self.piles)], rest))
        return found


def pile_name(name: str, pile: int, piles: int) -> str:
    """A name with the number of its pile, where there are several."""
    return f"{name}.{pile}" if piles > 1 else name


def rest_name(pile: int, piles: int) -> str:
    """The name of the shard of a pile that is asked for the hours without rows."""
    return pile_name("rest", pile, piles)


def new_shard(start: str, end: str, name: str, pile: int, piles: int) -> Shard:
    """A shard that holds nothing yet."""
    return Shard(pile_name(name, pile, piles), pile, text_of(hour_of(start)), text_of(hour_of(end)))


def new_manifest(currency: str, by: str, piles: int) -> Manifest:
    """The manifest of a cluster without rows."""
    rests = [Shard(rest_name(pile, piles), pile, None, None) for pile in range(1, piles + 1)]
    return Manifest(currency, by, piles, shards={shard.name: shard for shard in rests})


def from_json(text: bytes) -> Manifest:
    """The manifest that a text is."""
    table = json.loads(text)
    if table.pop("format") not in (1, FORMAT):
        raise ValueError("another format")
    # Format 1 has the SHA-256 of each file.
    for item in [*table["terms"], *table["policies"], *(file for export in table["exports"] for file in export["files"])]:
        if "sha256" in item:
            item["digest"] = f"sha256:{item.pop('sha256')}"
    table["terms"] = [Term(**term) for term in table["terms"]]
    table["policies"] = [Policy(**policy) for policy in table["policies"]]
    for export in table["exports"]:
        export["files"] = [Source(**file) for file in export["files"]]
    table["exports"] = [Export(**export) for export in table["exports"]]
    table["shards"] = {name: Shard(**shard) for name, shard in table["shards"].items()}
    return Manifest(**table)


def write_synced(path: str, content: bytes) -> None:
    """Writes a file beside its place, syncs it, and renames it."""
    with open(f"{path}.new", "wb") as file:
        file.write(content)
        file.flush()
        os.fsync(file.fileno())
    os.rename(f"{path}.new", path)
    sync_folder(os.path.dirname(path))


def sync_folder(path: str) -> None:
    """Syncs the names of a folder."""
    folder = os.open(path, os.O_RDONLY)
    try:
        os.fsync(folder)
    finally:
        os.close(folder)


def digest_of(path: str, name: str = OF_TERMS) -> str:
    """The digest of a file, with the name of how it is made before it."""
    made, room = DIGESTS[name](), memoryview(bytearray(1 << 20))
    with open(path, "rb", buffering=0) as file:
        while count := file.readinto(room):
            made.update(room[:count])
    return f"{name}:{made.hexdigest()}"


def has_digest(path: str, digest: str) -> bool:
    """Whether a file is the one of a digest."""
    return digest_of(path, digest.partition(":")[0]) == digest


class Cluster:
    """A cluster's folder, and its manifest while the lock is held."""

    def __init__(self, folder: str):
        self.folder = os.path.abspath(folder)
        self.manifest = new_manifest("", "", 0)

    def path(self, *parts: str) -> str:
        """A path below the folder."""
        return os.path.join(self.folder, *parts)

    def shard_folder(self, shard: Shard) -> str:
        """The folder of a shard."""
        return self.path("shards", shard.name)

    def save(self) -> None:
        """Writes the manifest."""
        text = json.dumps({"format": FORMAT, **dataclasses.asdict(self.manifest)}, ensure_ascii=False, indent=1)
        write_synced(self.path(MANIFEST), text.encode() + b"\n")

    def exists(self) -> bool:
        """Whether the folder has a manifest."""
        return os.path.exists(self.path(MANIFEST))

    def load(self) -> None:
        """Reads the manifest."""
        try:
            with open(self.path(MANIFEST), "rb") as file:
                self.manifest = from_json(file.read())
        except FileNotFoundError as why:
            raise Fault(f"{self.folder}: the folder holds no cluster. What to do: give the right folder, or make one by --create of import or add") from why
        except OSError as why:
            raise Fault(f"{self.path(MANIFEST)}: {why.strerror}") from why
        except (ValueError, KeyError, TypeError, AttributeError) as why:
            raise Fault(f"{self.path(MANIFEST)}: it is no manifest of a cluster ({why}). What to do: take it from a back-up") from why

    def check_file(self, file: str, digest: str) -> None:
        """Refuses a term or a policy whose file isn't the one that was added."""
        try:
            is_same = has_digest(self.path(file), digest)
        except OSError as why:
            raise Fault(f"{self.path(file)}: {why.strerror}. What to do: take it from a back-up") from why
        if not is_same:
            raise Fault(f"{self.path(file)}: it isn't the file that was added. What to do: take it from a back-up")

    @contextlib.contextmanager
    def locked(self, alone: bool) -> Iterator[None]:
        """Holds the lock: alone to change the cluster, with others to ask it."""
        try:
            lock = os.open(self.path("lock"), os.O_RDWR | os.O_CREAT, 0o666)
        except OSError as why:
            raise Fault(f"{self.folder}: {why.strerror}") from why
        try:
            fcntl.flock(lock, (fcntl.LOCK_EX if alone else fcntl.LOCK_SH) | fcntl.LOCK_NB)
        except BlockingIOError as why:
            raise Fault(f"{self.folder}: another focusd-cluster works on it. What to do: wait until it ends") from why
        else:
            yield
        finally:
            os.close(lock)
