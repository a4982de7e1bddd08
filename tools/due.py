"""Which must-fail edits are due, and which of them a run tries.

An edit is due once its text, a file that it turns, or a definition of its crate that this file goes by is another than when the edits of its
crate were last tried. A run tries within a budget, in this order: the edits whose own text is new since the last landing; then the crates with edits that are due,
all of a crate's at once, those first whose edits were tried longest ago; then the crates that have none due, in the same order. What a run tries
goes by the commit, the records and the costs, not by how fast the machine is.
"""

import os
import re
from dataclasses import dataclass

from changes import changes_since, crate_of, files_of, is_edit, is_turned, output_of
from edits import Crate, Edit

# The records: `kit LINE`, the toolchain's line; `landing COMMIT`, the last landing; and `CRATE COMMIT`, the commit up to which the crate's edits are known to be refused.
RECORDS = "tools/edits-tried"
# What the edits of each crate cost: lines `crate first together alone`, in seconds of the processor. It says more in its head.
COSTS = "tools/edit-costs"
# One of so many edits that are tried together is tried alone as well, and has to come out the same.
SAMPLE = 16


class DueError(Exception):
    """Why it can't be said what is due."""


@dataclass
class Records:
    """What was tried so far: by which toolchain, the last landing, and for each crate the commit up to which its edits are known to be refused."""

    kit: str
    landing: str
    tried: dict

    @classmethod
    def read(cls, top):
        try:
            with open(os.path.join(top, RECORDS), encoding="utf-8") as file:
                lines = dict(line.rstrip("\n").split(" ", 1) for line in file if " " in line and not line.startswith("#"))
            return cls(lines.pop("kit"), lines.pop("landing"), lines)
        except (OSError, KeyError, ValueError) as error:
            raise DueError(f"{RECORDS} can't be read: {error}") from error

    def write(self, top):
        with open(os.path.join(top, RECORDS), "w", encoding="utf-8") as file:
            file.write("# Up to which commit the must-fail edits of each crate are known to be refused. tools/prove.py --help says how this is used.\n")
            file.write(f"kit {self.kit}\nlanding {self.landing}\n")
            file.writelines(f"{crate} {commit}\n" for crate, commit in sorted(self.tried.items()))


def logic_of(kit):
    """The logic in which a toolchain proves, by its line of `rt version`; a line that names none stands for itself."""
    named = re.search(r"\blogic (\w+)$", kit)
    return named[1] if named else kit


@dataclass
class Cost:
    """What a crate's edits cost, in seconds of the processor: the first check, which proves the crate as it stands; a further edit that is tried among others; and one in a
    copy of its own."""

    first: float
    together: float
    alone: float


def read_costs(top):
    """What the edits of each crate cost; of no crate where there is no such file."""
    try:
        with open(os.path.join(top, COSTS), encoding="utf-8") as file:
            lines = [line.split() for line in file if line.strip() and not line.startswith("#")]
        return {crate: Cost(float(first), float(together), float(alone)) for crate, first, together, alone in lines}
    except FileNotFoundError:
        return {}
    except ValueError as error:
        raise DueError(f"{COSTS} can't be read: {error}") from error


class Costs:
    """What trying edits costs. A crate that isn't known costs the mean of those that are."""

    def __init__(self, top, known):
        self.top, self.known, self.crates = top, known, {}
        every = list(known.values()) or [Cost(1, 1, 1)]
        self.mean = Cost(*(sum(getattr(cost, name) for cost in every) / len(every) for name in ("first", "together", "alone")))

    def of(self, crate, paths, begun=False):
        """The seconds for these edits of a crate, without the first check where that is made anyway."""
        if not paths:
            return 0
        cost = self.known.get(crate, self.mean)
        alone = sum(not self._is_together(path) for path in paths)
        return (0 if begun else cost.first) + (len(paths) - alone) * cost.together + (alone + (len(paths) - alone) / SAMPLE) * cost.alone

    def _is_together(self, path):
        crate = crate_of(path)
        if crate not in self.crates:
            self.crates[crate] = Crate(os.path.join(self.top, "crates", crate))
        try:
            return bool(self.crates[crate].turned(Edit.read(os.path.join(self.top, path))))
        except KeyError:
            return False


@dataclass
class Plan:
    """What a run tries: the edits of each crate; those that are due; those whose texts are new; the commit up to which each crate's were tried, and its date."""

    runs: dict
    due: dict
    new: dict
    bases: dict
    dates: dict
    seconds: float
    why: str

    def owed(self):
        """The edits that are due and stay so after the run."""
        left = {crate: paths - self.runs.get(crate, set()) for crate, paths in self.due.items()}
        return {crate: paths for crate, paths in left.items() if paths}

    def done(self):
        """The crates of which nothing is due any more once the run has passed, of those that it tries."""
        return [crate for crate, paths in self.runs.items() if self.due.get(crate, set()) <= paths]

    def oldest(self, crates):
        """Of these crates the one whose edits were tried longest ago, or None."""
        return min(crates, key=lambda crate: (self.dates.get(crate, ""), crate), default=None)


def dates_of(top, commits):
    """The time of each commit that is here, as text in order of time."""
    found = {commit: output_of(["git", "show", "-s", "--format=%cd", "--date=format-local:%Y-%m-%d %H:%M", commit], top) for commit in commits if commit}
    return {commit: date.strip() for commit, date in found.items() if date}


def edits_by_crate(top):
    """The paths of all edits, by crate."""
    found = {}
    for path in files_of(top):
        if is_edit(path):
            found.setdefault(crate_of(path), set()).add(path)
    return found


def due_of(top, every, records, kit):
    """The edits of each crate that are due, those with a new text among them, the commits that were gone by, and why, if all are."""
    if logic_of(records.kit) != logic_of(kit):
        return every, {}, {crate: None for crate in every}, f"every edit is due: they were tried by {records.kit}, and this is {kit}"
    known = {commit: changes_since(top, commit) for commit in {*records.tried.values(), records.landing}}
    due, new, bases = {}, {}, {}
    since = known[records.landing]
    for crate, paths in every.items():
        base = records.tried.get(crate)
        changes = known.get(base)
        bases[crate] = base if changes else None
        due[crate] = {
            path for path in paths if changes is None or path in changes.edits or is_turned(top, base, path, changes.files)
        }
        new[crate] = {path for path in paths if since is None or path in since.edits}
        due[crate] |= new[crate]
    return due, new, bases, ""


def plan(top, kit, budget=None, only_due=False, tries_all=False):
    """What a run tries within a budget of seconds; without one all that is due. `only_due` leaves out the edits that are not."""
    every, records, costs = edits_by_crate(top), Records.read(top), Costs(top, read_costs(top))
    due, new, bases, why = due_of(top, every, records, kit)
    times = dates_of(top, set(bases.values()))
    dates = {crate: times.get(commit, "") for crate, commit in bases.items()}
    if tries_all:
        return Plan(every, due, new, bases, dates, sum(costs.of(crate, paths) for crate, paths in every.items()), why or "every edit is tried")
    runs, spent = {}, 0.0
    def take(crate, paths):
        nonlocal spent
        more = paths - runs.get(crate, set())
        cost = costs.of(crate, more, begun=crate in runs)
        # The first of a kind is taken whatever it costs, so that none waits for ever.
        if budget is not None and spent and spent + cost > budget:
            return
        if more:
            runs.setdefault(crate, set()).update(more)
            spent += cost
    by_age = sorted(every, key=lambda crate: (dates[crate], crate))
    for wanted in [new, due] if only_due or budget is None else [new, due, every]:
        for crate in by_age:
            take(crate, wanted.get(crate, set()))
    return Plan(runs, due, new, bases, dates, spent, why or f"the last landing was of {records.landing[:12]}")
