"""The form `witness` of the companion, beside its definition.

Of each race that is listed of a stored run it must write the kept schedule of its two steps, and with `short` the short one,
both by the order of the run (plain.py), where `mirace run` reports a data race behind that schedule; and else that an
earlier race is in its way, which it never is for the first race. Of a step that isn't listed it must say so."""
import subprocess

import companion
import plain
from judging import judge, read, run, short, write
from traces import trace_script

# Runs of at most so many steps are compared, and so many races of each.
STEPS, RACES = 200, 6
# So many schedules are told at the least, and so many races with another one in their way.
TOLD, HINDERED = 100, 4


def places_before(bits):
    """The steps of a set of them."""
    return {k for k in range(bits.bit_length()) if bits >> k & 1}


def kept(before, i, j):
    """The steps of the kept schedule: those before j that i isn't before, and then i and j."""
    return [k for k in range(j) if k != i and not before[k] >> i & 1] + [i, j]


def needed(steps, before, i, j):
    """Those of the short one: what is before i or j, the partners of j, what is before a partner; and then i and j."""
    partners = {k for k in range(j) if steps[k][0] != steps[j][0] and plain.some(plain.race, steps[k], steps[j])
                and not before[j] >> k & 1}
    found = partners | places_before(before[j]).union(*(places_before(before[k]) for k in {i, *partners}))
    return sorted(found - {i}) + [i, j]


def schedule_of(lines, places):
    """The text of the entries at these places, from the lines of a schedule in version 1."""
    return b"\n".join([*lines[:2], *(lines[2 + k] for k in places), b""])


def told(words):
    ran = subprocess.run([companion.COMPANION, "witness", *words], stdin=subprocess.DEVNULL, stdout=subprocess.PIPE, timeout=60)
    return ran.stdout, ran.returncode


def in_its_way(i, j):
    return b"step %d races with step %d, but an earlier race is in its way\n" % (j + 1, i + 1)


def a_race(what, run_of, lines, steps, before, is_first, pair, at):
    """Both schedules of a race; how often one is told, and how often an earlier race is in its way."""
    (program, schedule, status), (i, j), counted = run_of, pair, [0, 0]
    for words, places in (([], kept(before, i, j)), (["short"], needed(steps, before, i, j))):
        text = schedule_of(lines, places)
        write(at, "witness.sched", text)
        report, _ = run(["run", program, "witness.sched"], at)
        is_shown = b"\nverdict undefined 100 DataRace\n" in b"\n" + report
        wanted = (text if is_shown else in_its_way(i, j), status)
        judge(f"{what}: of the first race it is told", is_shown or not is_first)
        wrote = told([program, schedule, str(j + 1), *words])
        judge(f"{what}: step {j + 1} {words}", wrote == wanted, f"{short(wrote[0])}, {wrote[1]} and not {short(wanted[0])}, {status}")
        counted[not is_shown] += 1
    return counted


def witnesses_of_races(at):
    """The schedules that the companion's `witness` tells of the races of stored runs, beside their definition."""
    script, shown, hindered = trace_script(), 0, 0
    for program, schedule, report, status in companion.stored():
        if b"\nrace " not in report:
            continue
        lines = read(schedule).split(b"\n")[:-1]
        if lines[:1] != [b"schedule 1"]:
            continue
        trace, _ = run(["trace", program, schedule], at)
        steps = [script.step_of(line) for line in script.decode(trace).splitlines()]
        if len(steps) > STEPS or len(lines) - 2 < len(steps):
            continue
        before = plain.order(steps)
        races, what = plain.races_by(steps, before), f"witness: {schedule}"
        for pair in races[:RACES]:
            counted = a_race(what, (program, schedule, status), lines, steps, before, pair == races[0], pair, at)
            shown, hindered = shown + counted[0], hindered + counted[1]
        free = next(j for j in range(len(steps)) if j not in {second for _, second in races})
        wanted = (b"step %d races with no earlier step\n" % (free + 1), status)
        judge(f"{what}: step {free + 1}", told([program, schedule, str(free + 1)]) == wanted)
    judge("witness: schedules that are told, and races with another in their way", shown >= TOLD and hindered >= HINDERED,
          f"{shown} and {hindered}")
