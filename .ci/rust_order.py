#!/usr/bin/env python3
"""The data races of a run by Rust's own order, by the definition: what comes right before what, all that follows by
chains of it, and of each step the greatest earlier one that races with it unordered.

    python3 .ci/rust_order.py TRACE ..

tells them of each trace, as `mirace offline` tells those by the machine's order, each behind the trace's name. A step
is what `step_of` of examples/trace/trace.py gives, as in plain.py. Nothing here is shared with the program, whose list
is made by clocks.
"""
import bisect
import importlib.util
import os
import sys

from plain import ACQUIRE, JOIN, RELEASE, races_by, told, wakes

TRACES = os.path.join(os.path.dirname(os.path.abspath(__file__)), "..", "examples", "trace")


def has(access, byte):
    return access[1] <= byte < access[1] + access[2]


def borders(steps):
    """Each address where an access begins or ends. Between two of them all bytes belong to the same accesses."""
    return sorted({at for step in steps for _, begin, length in step[3] for at in (begin, begin + length)})


def bytes_loaded(step, borders_of_all):
    """A byte of each part of what a step loads atomically. A kind is 1 for a store, and 2 more where it is atomic."""
    for kind, begin, length in step[3]:
        if kind == 2:
            low = bisect.bisect_left(borders_of_all, begin)
            yield from borders_of_all[low:bisect.bisect_left(borders_of_all, begin + length)]


def stores(step, byte):
    """The kinds of the stores of a step to a byte."""
    return [access[0] for access in step[3] if access[0] & 1 and has(access, byte)]


def read_from(steps, j, byte):
    """The last step before j that stores to the byte, if it does so by atomic stores alone."""
    for i in reversed(range(j)):
        kinds = stores(steps[i], byte)
        if kinds:
            return i if all(kind & 2 for kind in kinds) else None
    return None


def hands_over(one, other):
    """A lock is released by the one step and acquired by the other, which may fail to."""
    return one[1][0] == RELEASE and other[1] == (ACQUIRE, one[1][1])


def is_joined(one, other):
    """The one step ended the thread that the other joins."""
    return one[2] and other[1] == (JOIN, one[0])


def is_right_before(steps, i, j, read):
    """Whether step i comes right before the later step j, which reads atomic stores of these steps."""
    one, other = steps[i], steps[j]
    return (one[0] == other[0] or wakes(one, other[0]) or hands_over(one, other) or is_joined(one, other)
            or i in read)


def order(steps):
    """For each step the set of those before it, as bits."""
    before, parts = [], borders(steps)
    for j, step in enumerate(steps):
        read = {read_from(steps, j, byte) for byte in bytes_loaded(step, parts)}
        reached = 0
        for i in range(j):
            if is_right_before(steps, i, j, read):
                reached |= before[i] | 1 << i
        before.append(reached)
    return before


def races(steps):
    """Pairs of places, counted from 0: each step that has a race with an earlier one, with the greatest such step."""
    return races_by(steps, order(steps))


def listed(steps):
    """The lines of a report that tell them."""
    return told(races(steps))


def steps_of(path):
    """The steps of a trace."""
    spec = importlib.util.spec_from_file_location("trace_script", f"{TRACES}/trace.py")
    script = importlib.util.module_from_spec(spec)
    sys.dont_write_bytecode = True
    spec.loader.exec_module(script)
    with open(path, "rb") as it:
        return [script.step_of(line) for line in script.decode(it.read()).splitlines()]


def main():
    for path in sys.argv[1:]:
        sys.stdout.write(f"{path}\n{listed(steps_of(path)).decode()}")


if __name__ == "__main__":
    main()
