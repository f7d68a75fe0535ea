"""The predicted races of a run by their definition: the edges between each two steps, all that follows by chains of edges,
and of each step the greatest earlier one that races with it unordered.

A step is what `step_of` of examples/trace/trace.py gives: its thread, its event, whether it ended its thread, its accesses, the
allocations that it made, freed and touched, and the threads that it woke. Nothing here is shared with the program, whose
list is made by clocks.
"""

QUIET, CREATE, ACQUIRE, RELEASE, SPAWN, JOIN = range(6)


def meet(one, other):
    """Two accesses have a byte in common."""
    return one[1] < other[1] + other[2] and other[1] < one[1] + one[2]


def conflict(one, other):
    """They meet, and one of them stores. A kind is 1 for a store, and 2 more where it is atomic."""
    return meet(one, other) and bool((one[0] | other[0]) & 1)


def race(one, other):
    """They conflict, and not both are atomic."""
    return conflict(one, other) and not one[0] & other[0] & 2


def some(test, earlier, later):
    return any(test(one, other) for one in earlier[3] for other in later[3])


def spawned_by(step, thread):
    return step[1] == (SPAWN, thread)


def wakes(step, thread):
    return thread in step[5] or spawned_by(step, thread)


def lock_of(step):
    kind, number = step[1]
    return number if kind in (CREATE, ACQUIRE, RELEASE) else None


def joins(step, other):
    """The step waits for the end of a thread that the other one starts or ends."""
    kind, number = step[1]
    return kind == JOIN and (spawned_by(other, number) or (other[2] and other[0] == number))


def shares(later, earlier):
    """The later step uses or frees an allocation that the earlier one made, or frees one that it used."""
    (made, _, touched), (_, freed, used) = earlier[4], later[4]
    return any(it in used or it in freed for it in made) or any(it in freed for it in touched)


def depends(later, earlier):
    return (
        (lock_of(earlier) is not None and lock_of(earlier) == lock_of(later))
        or earlier[1][0] == later[1][0] == CREATE
        or earlier[1][0] == later[1][0] == SPAWN
        or joins(later, earlier) or joins(earlier, later)
        or shares(later, earlier) or some(conflict, earlier, later))


def synchronised(steps, i, j):
    """Step i wakes the thread of step j, whose first step after i is j."""
    thread = steps[j][0]
    return wakes(steps[i], thread) and all(steps[k][0] != thread for k in range(i + 1, j))


def is_edge(steps, i, j):
    one, other = steps[i], steps[j]
    return one[0] == other[0] or synchronised(steps, i, j) or (depends(other, one) and not some(race, one, other))


def order(steps):
    """For each step the set of those before it, as bits."""
    before = []
    for j in range(len(steps)):
        reached = 0
        for i in range(j):
            if is_edge(steps, i, j):
                reached |= before[i] | 1 << i
        before.append(reached)
    return before


def races_by(steps, before):
    """Pairs of places, counted from 0: each step that races with an earlier one which isn't before it, with the
    greatest of these."""
    pairs = []
    for j, step in enumerate(steps):
        partners = (i for i in reversed(range(j))
                    if steps[i][0] != step[0] and some(race, steps[i], step) and not before[j] >> i & 1)
        pairs += [(i, j) for i in [next(partners, None)] if i is not None]
    return pairs


def races(steps):
    """The races of a run: each step that has a partner, with its greatest one."""
    return races_by(steps, order(steps))


def listed(steps):
    """The lines of a report that tell them."""
    return told(races(steps))


def told(pairs):
    """The lines of a report that tell these races."""
    return b"races %d\n" % len(pairs) + b"".join(b"race %d %d\n" % (i + 1, j + 1) for i, j in pairs)
