"""The form `order` of the companion, beside the order of the run by its definition (plain.py).

Of pairs of steps of stored runs it must tell a way where the first happens before the second, each step of which has an
edge from the one before, with the reason that its footprints have; and that nothing orders the two where it doesn't."""
import os
import re
import subprocess

import companion
import plain
from judging import EXAMPLES, judge, run
from traces import trace_script

# The examples, and how many pairs of each are asked for.
RUNS = ("race", "race-lock", "lock", "deadlock", "lost-update", "flag", "atomic", "spawns", "stop", "use-while-freed",
        "class/bank", "class/list", "class/slot", "class/hidden")
PAIRS = 40
LINE = re.compile(rb"step ([0-9]+), thread ([0-9]+)(?:, (.*?))?  .*")
WORDS = {"thread": b"in the same thread", "woken": b"woken or started by it", "lock": b"by their lock",
         "locks": b"both create a lock", "starts": b"both start a thread", "join": b"by a join",
         "access": b"by what they load and store", "allocation": b"by an allocation"}


def reason(steps, i, j):
    """The reason of the edge between two steps."""
    one, other = steps[i], steps[j]
    tests = (("thread", one[0] == other[0]), ("woken", plain.synchronised(steps, i, j)),
             ("lock", plain.lock_of(one) is not None and plain.lock_of(one) == plain.lock_of(other)),
             ("locks", one[1][0] == other[1][0] == plain.CREATE), ("starts", one[1][0] == other[1][0] == plain.SPAWN),
             ("join", plain.joins(one, other) or plain.joins(other, one)),
             ("access", plain.some(plain.conflict, one, other)), ("allocation", True))
    return WORDS[next(name for name, holds in tests if holds)]


def before(steps):
    """For each step those that happen before it."""
    found = []
    for j in range(len(steps)):
        found.append({k for i in range(j) if plain.is_edge(steps, i, j) for k in (i, *found[i])})
    return found


def way_told(text):
    """The steps of a way as it is written, each with its reason; None where there is none."""
    lines = [LINE.fullmatch(line) for line in text.split(b"\n")[:-1]]
    return [(int(it[1]) - 1, int(it[2]), it[3]) for it in lines] if all(lines) else None


def is_way(steps, told, i, j):
    """Whether this leads from one step to the other by edges, each with its reason."""
    numbers = [number for number, _, _ in told]
    threads = all(steps[number][0] == thread for number, thread, _ in told)
    edges = all(plain.is_edge(steps, a, b) and told[k + 1][2] == reason(steps, a, b)
                for k, (a, b) in enumerate(zip(numbers, numbers[1:])))
    return numbers[0] == i and numbers[-1] == j and numbers == sorted(set(numbers)) and threads and edges


def pairs_of(count):
    """Pairs of so many steps, spread over all of them."""
    pairs = [(i, j) for j in range(count) for i in range(j)]
    return pairs[::max(1, len(pairs) // PAIRS)]


def ordered_steps_of_runs(at):
    """Ways that the companion's `order` tells, beside the definition of the order."""
    script, ordered, unordered = trace_script(), 0, 0
    for name in RUNS:
        program, schedule = f"{EXAMPLES}/{name}.mr", f"{EXAMPLES}/{name}.sched"
        if not os.path.isfile(schedule):
            judge(f"order: {schedule}", False, "it isn't there")
            continue
        trace, _ = run(["trace", program, schedule], at)
        steps = [script.step_of(line) for line in script.decode(trace).splitlines()]
        found = before(steps)
        for i, j in pairs_of(len(steps)):
            words = [companion.COMPANION, "order", program, schedule, str(i + 1), str(j + 1)]
            text = subprocess.run(words, stdin=subprocess.DEVNULL, stdout=subprocess.PIPE, timeout=60).stdout
            told, what = way_told(text), f"order: {name}: steps {i + 1} and {j + 1}"
            if i in found[j]:
                ordered += 1
                judge(what, told and is_way(steps, told, i, j), repr(text))
            else:
                unordered += 1
                none = b"step %d and step %d: nothing orders them\n" % (i + 1, j + 1)
                judge(what, text == none, repr(text))
    judge("order: pairs with an order and without", ordered > 100 and unordered > 50, f"{ordered}, {unordered}")
