#!/usr/bin/env python3
"""Runs stores and the running system on devices of which each call fails in turn, and checks every answer.

    tools/sweep.py out/fw_simulate                 runs all sweeps, and prints how many runs each had
    tools/sweep.py out/fw_simulate groups stops    runs the sweeps of these names

PROGRAM is a built `fw_simulate`. A run is a script whose device passes so many calls, and then fails one, or each, or several; a stop then leaves of
what wasn't synced the old bytes, the new ones, or others. A sweep has one run for each number of calls, up to the first at which none fails. What
has to be answered is what docs/DEFINITIONS.md and docs/PROOFS.md say of a store and of the running system.

Exit status: 0 no answer is wrong, 1 one is, 2 the program could not be run.
"""
import sys

from command_line import parser_of
from simulate import CREATING, FORMS, after, answers_of, side

# What a stop leaves of what wasn't synced.
CHOICES = ("old", "new", "0", "1", "7")
# How many runs the program makes at a time.
TOGETHER = 16
# The most calls of the device that a run makes.
MOST_CALLS = 999


class Wrong(Exception):
    """Runs that aren't as they have to be."""


def require(holds, what):
    """Holds runs to what they have to be."""
    if not holds:
        raise Wrong(what)


def answered(program, files, scripts):
    """The answers to scripts that each begin on these files, and end with `end`."""
    return answers_of(program, [[*files, *script] for script in scripts])


def swept(program, script_at, is_over, files=(), first=0):
    """The runs of the scripts that fail after each number of calls in turn, up to the first one that is over: how many there are."""
    for start in range(first, first + MOST_CALLS, TOGETHER):
        scripts = [script_at(calls) for calls in range(start, start + TOGETHER)]
        for place, (script, answers) in enumerate(zip(scripts, answered(program, files, scripts))):
            if is_over(script, answers):
                return start + place + 1 - first
    raise Wrong(f"a call fails in each of {MOST_CALLS} runs")


# ---- the running system

# The plans of a sweep over events: each call fails from one on; one fails; one, the next, another after one that passes, another after two.
PLANS = {"each call fails": "ever {}", "one call fails": "once {}", "four calls fail": "{} 0 1 2"}
REOPEN = ["reopen"] * 5

# One importer and one analyst: an entry, a checkpoint, and another entry. Opening fails at most four times.
ONE = ["policy 0 a 1 t", "take", "commit", "checkpoint", "policy 0 a 2 t", "take", "commit", "stop", *REOPEN, "view 0"]
# The same where the second entry withdraws the first.
ONE_WITHDRAWN = ["post 0 a 1 2 3", "take", "commit", "checkpoint", "withdraw 0 a 2 1", "take", "commit", "stop", *REOPEN, "view 0"]
# Several importers, with repeats and gaps, groups of two to five, and two stops.
SEVERAL = [
    *["policy 0 a 1 t", "policy 1 b 1 t", "policy 0 a 2 t", "take", "policy 2 a 1 t", "commit", "view 0", "learn 1 5 1"],
    *["policy 0 a 3 t", "policy 1 a 2 t", "policy 3 b 3 t", "policy 4 a 3 t", "take", "commit", "learn 0 13 2", "learn 0 13 4"],
    *["checkpoint", "view 1", "policy 0 b 2 t", "policy 1 c 1 t", "take", "commit", "commit", "checkpoint", "policy 2 c 2 t", "take"],
    *["policy 3 c 3 t", "stop", "policy 0 c 2 t", "view 0", *REOPEN, "view 0", "learn 0 5 0", "policy 3 c 2 t", "policy 1 a 1 t"],
    *["take", "commit", "stop", *REOPEN, "view 1"],
]
# A commitment, purchases that are added to it, one to another that isn't there, and a checkpoint between them.
ADDING = [
    *["commitment 0 a 1 x", "take", "commit", "add 0 a 2 x 3", "add 1 b 1 y 4", "add 2 c 1 x 5", "take", "commit", "checkpoint"],
    *["add 0 a 3 x 99999990", "add 1 b 1 x 2", "add 2 c 2 x 1", "take", "commit", "view 0", "stop", *REOPEN, "view 0"],
]
# The same on a warehouse of an earlier version, whose log takes no added purchase: what is in hand stays there until a checkpoint.
OLD = f"files 4096 {side(1, FORMS[0])} -\n"
ADDING_TO_OLD = [
    *[*REOPEN, "commitment 0 a 1 x", "add 1 b 1 y 2", "take", "commit", "add 0 a 2 x 3", "policy 1 b 1 t", "take", "commit", "take", "commit"],
    *["view 0", "checkpoint", "commit", "view 0", "stop", *REOPEN, "view 0", "add 0 a 3 x 4", "take", "commit", "checkpoint", "commit"],
    *["stop", *REOPEN, "view 0"],
]
# Posts that are withdrawn, one of them twice, one in the group that brings it, and one whose rows keep a commitment away until then; and withdrawals of
# what is no post, or that of another origin.
WITHDRAWING = [
    *["post 0 a 1 2 3", "use 1 b 1 x", "take", "commit", "withdraw 0 a 2 1", "withdraw 1 b 2 2", "commitment 2 c 1 x", "withdraw 3 d 1 1", "take", "commit"],
    *["checkpoint"],
    *["withdraw 0 a 3 1", "withdraw 1 b 2 1", "commitment 2 c 1 x", "post 3 d 1 1 4", "withdraw 4 d 2 1", "take", "commit", "view 0", "stop"],
    *[*REOPEN, "view 0"],
]
# The same on a warehouse of an earlier version, whose log takes no withdrawal.
WITHDRAWING_FROM_OLD = [
    *[*REOPEN, "post 0 a 1 2 3", "withdraw 1 b 1 1", "take", "commit", "withdraw 0 a 2 1", "policy 1 b 1 t", "take", "commit", "take", "commit"],
    *["view 0", "checkpoint", "commit", "view 0", "stop", *REOPEN, "view 0", "post 0 a 3 1 4", "withdraw 1 a 4 3", "take", "commit", "checkpoint", "commit"],
    *["stop", *REOPEN, "view 0"],
]
# A group that changes nothing is no call of the device.
NOTHING = ["policy 0 a 2 t", "policy 1 b 9 t", "take", "commit", "stop", "reopen", "view 0"]


def run_script(device, events, files=""):
    """The script of events with 64 importers and two analysts, on these files."""
    return [f"{files}run 64 2 {device}", *events, "end"]


def is_quiet(script, answers):
    """Whether no call of the device failed in a run, each of whose answers has to be right."""
    system, fault = after(script, answers)
    require(fault is None, (script, answers, fault))
    return not system.has_failed


def runs_of_events(program, plan, events, files=""):
    """How many runs of events there are with a plan, over all that a stop may leave. A warehouse is made where there are no files."""
    first = 0 if files else CREATING
    return sum(swept(program, lambda calls, left=left: run_script(f"{left} {plan.format(calls)}", events, files), is_quiet, first=first) for left in CHOICES)


def runs_of_plans(program, events, least, files=""):
    """How many runs of events there are with each plan, so many at least."""
    counts = {name: runs_of_events(program, plan, events, files) for name, plan in PLANS.items()}
    require(min(counts.values()) >= least, counts)
    return ", ".join(f"{name}: {count} runs" for name, count in counts.items())


def one_importer(program):
    """A stop leaves what one importer was answered. An entry is four calls of the device, and a checkpoint six."""
    return runs_of_plans(program, ONE, 75)


def several_importers(program):
    """A stop leaves what several importers were answered."""
    return runs_of_plans(program, SEVERAL, 125)


def added_purchases(program):
    """A stop leaves the purchases that were added to a commitment."""
    return runs_of_plans(program, ADDING, 95)


def added_to_an_old_side(program):
    """To a side of the first form no purchase is added, which is no call of the device and changes nothing; and after a checkpoint it is. A warehouse
    is opened in five calls."""
    return runs_of_plans(program, ADDING_TO_OLD, 100, OLD)


def one_withdrawn(program):
    """A stop leaves a post and its withdrawal, as it leaves two other entries."""
    return runs_of_plans(program, ONE_WITHDRAWN, 75)


def withdrawals(program):
    """A stop leaves the posts that several importers withdrew."""
    return runs_of_plans(program, WITHDRAWING, 95)


def withdrawn_from_an_old_side(program):
    """On a side of the first form no post is withdrawn, which is no call of the device and changes nothing; and after a checkpoint it is."""
    return runs_of_plans(program, WITHDRAWING_FROM_OLD, 100, OLD)


def none_accepted(program):
    """A group of which none is accepted is not written."""
    count = runs_of_events(program, PLANS["each call fails"], NOTHING)
    require(count == len(CHOICES), count)
    return f"{count} runs"


def posts(count, first):
    """Each of so many importers posts an entry. Each eighth one posts for the same origin, with the numbers from the first on, in their order; but
    each fifth importer repeats number 1, and each seventh leaves a gap."""
    for importer in range(count):
        number = 1 if importer % 5 == 4 else 99 if importer % 7 == 6 else first + importer // 8
        yield f"policy {importer} {'abcdefgh'[importer % 8]} {number} t"


def two_groups(count):
    """Two groups of a size, a checkpoint between them, and a stop behind."""
    return [*posts(count, 1), "take", "commit", "view 0", "checkpoint", *posts(count, 2), "take", "commit", "stop", *REOPEN, "view 0"]


def groups(program):
    """A group stands whole where calls fail."""
    counts = {name: sum(runs_of_events(program, plan, two_groups(size)) for size in (2, 7, 64)) for name, plan in PLANS.items()}
    require(min(counts.values()) >= 225, counts)
    return ", ".join(f"{name}: {count} runs" for name, count in counts.items())


def sizes(program):
    """A group has up to 64 entries."""
    scripts = [run_script("old", two_groups(size)) for size in range(2, 65)]
    for script, answers in zip(scripts, answered(program, [], scripts)):
        require(is_quiet(script, answers), "a call failed")
    return f"{len(scripts)} runs"


def the_65th(program):
    """The 65th waits for the next group: a group is taken, another while that is in hand, and another after it."""
    script = ["run 65 2 old", *posts(65, 1), "take", "take", "commit", "take", "end"]
    (answers,) = answered(program, [], [script])
    require(is_quiet(script, answers), "a call failed")
    require([answers[place] for place in (66, 67, 69)] == ["took 64", "took 0", "took 1"], answers[66:])
    return "1 run"


# A run in a warehouse of the last generation, with its answers. Checkpoints are refused, one of them while a group is in hand. They change
# nothing, and the run goes on.
LAST = [
    *[("reopen", "reopened |"), ("checkpoint", "failed S5 Generations"), ("view 0", "viewed |"), ("policy 0 a 1 t", "posted"), ("take", "took 1")],
    *[("checkpoint", "failed S5 Generations"), ("commit", "committed; accepted 1 of 1"), ("checkpoint", "failed S5 Generations")],
    *[("view 0", "viewed a/1!t |"), ("stop", "stopped"), ("reopen", "reopened a/1!t |"), ("checkpoint", "failed S5 Generations")],
    *[("policy 0 a 2 t", "posted"), ("take", "took 1"), ("commit", "committed; accepted 2 of 2")],
]
# The answers up to the stop, where a call of the commit fails: the checkpoint behind it is refused for that.
UNKNOWN = [*[answer for _, answer in LAST[:6]], "committed; unknown", "failed S4 Failed", "viewed |", "stopped"]


def last_generation(program):
    """A checkpoint at the last generation changes nothing. One that made a call would be answered as a fault of the device where that fails. An
    entry is four calls."""
    files = [f"files 4096 {side(2**64 - 1)} -"]
    scripts = [[f"run 1 1 old once {calls}", *[event for event, _ in LAST], "end"] for calls in range(40)]
    unopened = unknown = same = 0
    for script, (start, *answers) in zip(scripts, answered(program, files, scripts)):
        require(start == "stopped", start)
        if answers[0] == "failed S3 Device":
            unopened += 1
        elif answers == [*[answer for _, answer in LAST], "end"]:
            same += 1
        else:
            require(answers[: len(UNKNOWN)] == UNKNOWN, (script[0], answers))
            unknown += 1
    require(unopened > 0 and unknown == 4 and same > 0, (unopened, unknown, same))
    return f"{len(scripts)} runs: {unopened} unopened, {unknown} unknown, {same} as without"


# ---- a store

# What a store is asked to do, and how many entries each call is to add. The first checkpoint makes Right, the second one Left again, the third one
# Right again: each of the last two closes a side that is open.
STEPS = (
    *[("entry 1", 1), ("checkpoint", 0), ("group 2 3", 2), ("checkpoint", 0), ("prepared 4 5 6", 3), ("checkpoint", 0), ("entry 7", 1)],
)
# A warehouse is created and asked to do that; then it is stopped and opened. A plan fails at most four times there.
STORE_CALLS = ["create", *[step for step, _ in STEPS], "close", "stop", *["open"] * 5, "list"]
# Which calls fail after the first so many: each; one; one, and more after these numbers that pass, by then perhaps while the warehouse is opened.
STORE_PLANS = ("ever {}", "once {}", "{} 0", "{} 1", "{} 2", "{} 0 1", "{} 0 1 2")


def listed(entries):
    """The list of so many entries."""
    return "listed" + "".join(f" a/{number + 1}!t" for number in range(entries)) + " |"


def right_answers(step, count, stored):
    """What a call that adds so many entries is answered where all are accepted, and where the device fails in it."""
    if step == "checkpoint":
        return "checkpointed", "S3 Device"
    if step.startswith("entry"):
        return "accepted", "S3 Device"
    verdicts = "group" + " accepted" * count
    if step.startswith("group"):
        return verdicts, "S3 Device"
    before = f"{verdicts}; next{listed(stored + count)[len('listed'):]}; {stored} log 0; "
    return before + verdicts, before + "S3 Device"


def is_stored(script, answers):
    """Whether no call of the device failed before the stop. Each accepted entry has to be there after it, and of the group that was being written
    all or none; and the store takes nothing after the device failed."""
    made, *told = answers[: 1 + len(STEPS)]
    require(made in ("created", "S3 Device"), (script, answers))
    accepted, most, failed = 0, 0, made != "created"
    for (step, count), answer in zip(STEPS, told):
        done, fails = right_answers(step, count, accepted)
        if made != "created":
            require(answer == "ignored", (script, answers))
        elif failed:
            require(answer == "S4 Failed", (script, answers))
        elif answer == done:
            accepted = most = accepted + count
        else:
            require(answer == fails, (script, answers))
            failed, most = True, accepted + count
    closed, stopped, *opened, found, _ = answers[1 + len(STEPS) :]
    require(closed == ("closed" if made == "created" else "ignored") and stopped == "stopped", (script, answers))
    how = next((answer for answer in opened if answer != "S3 Device"), None)
    if how == "S1 NoHouse":
        require(made != "created", (script, answers))
    else:
        require(how == "opened" and found in (listed(accepted), listed(most)), (script, answers))
    return not failed


def store_script(device, calls):
    """The script of calls on a store."""
    return [f"store {device}", *calls, "end"]


def runs_of_stores(program, files, plans, least):
    """How many runs of a store there are, with more than so many in each sweep."""
    count = 0
    for left in CHOICES:
        for plan in plans:
            more = swept(program, lambda passed, left=left, plan=plan: store_script(f"{left} {plan.format(passed)}", STORE_CALLS), is_stored, files)
            require(more > least, (left, plan, more))
            count += more
    return f"{count} runs"


def stops(program):
    """A stop leaves each entry that was answered. Creating the warehouse takes 8 calls, or 9 where Left has an open gate; an entry or a group 4;
    the first checkpoint 6; and each further one 7."""
    return runs_of_stores(program, ["files 4096 - -"], STORE_PLANS, 44)


def stops_over_a_byte(program):
    """The same over a Left of the one byte 1, which a stop while a warehouse was created can leave."""
    return runs_of_stores(program, ["files 4096 01 -"], STORE_PLANS[:1], 45)


# After how many calls of an entry a stop leaves it, from none to all four: a write and a sync of the frame, and of its gate.
ENTRY_LEFT = {"old": (0, 0, 0, 0, 1), "new": (0, 0, 1, 1, 1), "0": (0, 0, 0, 0, 1), "1": (0, 0, 1, 1, 1), "7": (0, 0, 0, 0, 1)}


def entries(program):
    """A stop leaves the entry or not, in the log of a side of either form. A warehouse is opened in five calls."""
    calls = ["open", "entry 1", "entry 1", "list", "close", "stop", "open", "list"]
    cases = [(left, passed, there) for left, row in ENTRY_LEFT.items() for passed, there in enumerate(row)]
    scripts = [store_script(f"{left} ever {passed + 5}", calls) for left, passed, _ in cases]
    for form in FORMS:
        for (left, passed, there), answers in zip(cases, answered(program, [f"files 100 {side(1, form)} -"], scripts)):
            added = ("accepted", "already 1") if passed == 4 else ("S3 Device", "S4 Failed")
            expected = ["opened", *added, listed(int(passed == 4)), "closed", "stopped", "opened", listed(there), "end"]
            require(answers == expected, (form, left, passed, answers))
    return f"{len(cases) * len(FORMS)} runs"


def making_a_side(program):
    """A stop leaves one of both sides, of which the first may be of either form. A side that isn't there yet is made in six calls, a write and a sync for each of its three steps."""
    cases = [(left, passed) for left in CHOICES for passed in range(7)]
    scripts = [store_script(f"{left} ever {passed}", ["side 2", "stop", "sides"]) for left, passed in cases]
    for form in FORMS:
        for (left, passed), answers in zip(cases, answered(program, [f"files 100 {side(1, form)} -"], scripts)):
            made = answers[0] == "made"
            require(made == (passed == 6) and answers[0] in ("made", "S3 Device"), (form, left, passed, answers))
            right = answers[2] == "Right 2 19" and passed >= 4 or answers[2] == "Left 1 19" and not made
            require(right and answers[1] == "stopped", (form, left, passed, answers))
    return f"{len(cases) * len(FORMS)} runs"


# The checkpoints of a new warehouse: how many calls pass before each, how many it makes, and the generation before. The first one makes a Right that
# isn't there. Each further one reads the gate of a side that is open, and closes it.
ROUNDS = ((8, 6, 1), (14, 7, 2), (21, 7, 3), (28, 7, 4))


def sides_left(left, calls, generation, passed):
    """What a stop leaves of a checkpoint that ends at the call after so many of its calls: the side in use, and whether both are open. The side that
    it makes is in use once the write that opens its gate is kept, and was open before until the write that closes it is kept."""
    opens, closes = {"old": (calls, 3), "new": (calls - 2, 1), "1": (calls - 2, 3)}.get(left, (calls, 1))
    made = passed >= opens
    used = generation + made
    return f"{'Left' if used % 2 else 'Right'} {used} 19", made or generation > 1 and passed < closes


def is_open(file):
    """Whether a side with these bytes is open."""
    return len(file) >= 52 and file.startswith("01")


def checkpoints(program):
    """A stop within a checkpoint leaves a side in use."""
    cases = [(left, before, calls, generation, passed) for left in CHOICES for before, calls, generation in ROUNDS for passed in range(calls + 1)]
    scripts = [
        store_script(f"{left} ever {before + passed}", ["create", *["checkpoint"] * generation, "close", "stop", "sides", "files"])
        for left, before, _, generation, passed in cases
    ]
    for (left, before, calls, generation, passed), answers in zip(cases, answered(program, ["files 64 - -"], scripts)):
        created, *made, closed, stopped, used, files, _ = answers
        require([created, closed, stopped] == ["created", "closed", "stopped"], (left, before, passed, answers))
        require(set(made) <= {"checkpointed", "S3 Device", "S4 Failed"}, (left, before, passed, answers))
        both = all(is_open(file) for file in files.split(" "))
        require((used, both) == sides_left(left, calls, generation, passed), (left, before, passed, answers))
    return f"{len(cases)} runs"


# A run of each kind, in which a call fails, for tools/refuse_allocations.py.
SAMPLES = (
    *[run_script("old 19 0 1 2", ONE), run_script("1 40 0 1 2", SEVERAL), run_script("7 25 0 1 2", two_groups(7))],
    *[run_script("1 25 0 1 2", ADDING), run_script("new 15 0 1 2", ADDING_TO_OLD, OLD)],
    *[run_script("1 25 0 1 2", WITHDRAWING), run_script("new 15 0 1 2", WITHDRAWING_FROM_OLD, OLD)],
    *[store_script(f"{left} {calls} 0 1 2", STORE_CALLS) for left, calls in (("old", 4), ("1", 30), ("7", 99))],
)

SWEEPS = (
    *[one_importer, several_importers, added_purchases, added_to_an_old_side, one_withdrawn, withdrawals, withdrawn_from_an_old_side],
    *[none_accepted, groups, sizes, the_65th, last_generation, stops, stops_over_a_byte, entries, making_a_side, checkpoints],
)


def main():
    parser = parser_of(__doc__)
    parser.add_argument("program", help="a built fw_simulate")
    parser.add_argument("names", nargs="*", choices=[[], *[sweep.__name__ for sweep in SWEEPS]], metavar="NAME", help="sweeps")
    options = parser.parse_args()
    passed = True
    for sweep in SWEEPS:
        if options.names and sweep.__name__ not in options.names:
            continue
        try:
            print(f"{sweep.__name__:26} {sweep([options.program])}", flush=True)
        except Wrong as wrong:
            passed = False
            print(f"{sweep.__name__:26} WRONG {wrong}", flush=True)
        except OSError as fault:
            print(f"tools/sweep.py: {fault}", file=sys.stderr)
            return 2
    return 0 if passed else 1


if __name__ == "__main__":
    sys.exit(main())
