"""The form `hunt` of the companion, beside `mirace auto` of each number.

Of five examples the table of 200 numbers must be the one that is made here from their reports, and from what
`mirace_show races` tells of each drawn schedule that shows a race. And the number that is found for an aim must be the
least one whose report has it; for the aim `rust`, the least one whose run has a race by the definition of Rust's order,
which are told too."""
import collections
import re
import subprocess

import companion
import two_orders
from judging import EXAMPLES, judge, run, short, write
from traces import trace_script

# The examples, with how many entries their schedules have at most; aims, with what a report or a list of races by
# places has of them.
TABLES = (
    ("race", 300), ("lost-update", 300), ("use-while-freed", 300), ("hunting/ring", 1000), ("class/misuse", 1000))
AIMS = (
    ("race", "race", rb"^race [0-9]"), ("deadlock", "deadlock", rb"^verdict deadlock$"),
    ("leak", "leak", rb"^verdict leak$"), ("exit", "running", rb"^verdict running$"),
    ("use-after-free", "undefined", rb"^verdict undefined "), ("unwind", "abort", rb"^verdict abort$"),
    ("use-after-free", "DeadAllocation", rb"^verdict undefined 105 "), ("lost-update", "prints 1", rb"^> 1$"),
    ("hunting/rare", "any", rb"^race [0-9]"), ("class/bank", "prints 20 60", rb"^> 20 60$"),
    ("class/bank", "{0} {1}", None), ("race", "{1} {0}", None))
# Programs with a race by Rust's order, and without: of so many numbers.
RUST, NUMBERS = ("stop", "spawns", "class/hidden", "exercises/15-hidden", "hunting/rare", "flag", "lock"), 100


def shown(words, at):
    """The bytes that the companion writes, and its status."""
    ran = subprocess.run(
        [companion.COMPANION, *words], cwd=at, stdin=subprocess.DEVNULL, stdout=subprocess.PIPE, timeout=120)
    return ran.stdout, ran.returncode


def places_of(program, report, at):
    """The races by pairs of places of a run whose report this is, in the order of the first race of each."""
    schedule = re.split(rb"^(?=[>v])", report, maxsplit=1, flags=re.M)[0]
    write(at, "drawn.sched", schedule)
    wrote, _ = shown(["races", program, "drawn.sched"], at)
    rows = []
    for line in wrote.split(b"\n")[:-2]:
        places, times = line.rsplit(b": ", 1)
        first = tuple(map(int, re.search(rb"(\d+) (\d+)$", times).groups()))
        rows.append((first, places))
    by_first = {tuple(map(int, it)): n for n, it in enumerate(re.findall(rb"^race (\d+) (\d+)$", report, re.M))}
    return [places for first, places in sorted(rows, key=lambda it: by_first[it[0]])]


def ends_of(program, number, most, at):
    """What the run of a number shows: its verdict, and its races by places."""
    report, _ = run(["auto", program, str(number), str(most)], at)
    verdict = re.search(rb"^verdict .*$", report, re.M)[0]
    races = [b"race " + it for it in places_of(program, report, at)] if b"\nraces 0\n" not in report else []
    return report, [verdict, *races]


def table_of(program, numbers, most, at):
    """The table of some numbers."""
    counts, firsts = collections.Counter(), {}
    for number in numbers:
        for end in ends_of(program, number, most, at)[1]:
            counts[end] += 1
            firsts.setdefault(end, number)
    lines = []
    for head in (b"verdict ", b"race "):
        for end in (it for it in firsts if it.startswith(head)):
            times = b"once" if counts[end] == 1 else b"%d times" % counts[end]
            lines.append(b"%s, first %d: %s\n" % (times, firsts[end], end))
    return b"".join(lines) + b"numbers %d\n" % len(numbers)


def tables_of_numbers(at):
    """The companion's tables of 200 numbers, beside those that are made from the report of each number."""
    for name, most in TABLES:
        program = f"{EXAMPLES}/{name}.mr"
        wrote, status = shown(["hunt", program, "0", "199", str(most)], at)
        wanted = table_of(program, range(200), most, at)
        judge(f"hunt of 200 numbers: {name}", (wrote, status) == (wanted, 0), f"{short(wrote)}, not {short(wanted)}")


def lines_of(places):
    """The lines of the two places of a race."""
    first, second = places.removeprefix(b"race ").split(b"  /  ")
    return tuple(int(it.partition(b":")[0]) for it in (first, second))


def numbers_of_aims(at):
    """The number that the companion finds for an aim, beside the least one whose report has it; and what it tells."""
    for name, aim, wanted in AIMS:
        program = f"{EXAMPLES}/{name}.mr"
        runs = {n: ends_of(program, n, 1000, at) for n in range(100)}
        if wanted is None:
            pairs = sorted({tuple(sorted(lines_of(it))) for _, ends in runs.values() for it in ends[1:]})
            aim = aim.format(*pairs[-1])
            fits = [n for n, (_, ends) in runs.items() if pairs[-1] in {tuple(sorted(lines_of(it))) for it in ends[1:]}]
        else:
            fits = [n for n, (report, _) in runs.items() if re.search(wanted, report, re.M)]
        words = aim.split(" ", 1) if aim.startswith("prints ") else aim.split()
        wrote, status = shown(["hunt", program, "0", "99", "1000", *words], at)
        if fits:
            ends = runs[fits[0]][1]
            head = b"number %d\n%s\n" % (fits[0], ends[0])
            back = b"shown by: mirace auto %s %d 1000\n" % (program.encode(), fits[0])
            told = wrote[len(head):-len(back)]
            races = {b"race " + it.rsplit(b": ", 1)[0] for it in told.split(b"\n")[:-2]}
            is_well = wrote.startswith(head) and wrote.endswith(back) and status == 1 and races == set(ends[1:])
        else:
            is_well = (wrote, status) == (b"numbers 0 to 99: no run has it\n", 0)
        judge(f"hunt for an aim: {name}: {aim}: {fits[:1]}", is_well, short(wrote))


def rust_of(script, program, number, at):
    """The report of a number, and what is told of its run by both orders."""
    report, _ = run(["auto", program, str(number), "1000"], at)
    write(at, "drawn.sched", re.split(rb"^(?=[>v])", report, maxsplit=1, flags=re.M)[0])
    trace, _ = run(["trace", program, "drawn.sched"], at)
    listing, _ = shown(["steps", program, "drawn.sched"], at)
    return report, two_orders.of_run(two_orders.orders_in(script, trace), listing)


def told_by_rust(program, number, report, both, at):
    """What is told of the run of a number whose races by Rust's order were looked for."""
    races, _ = shown(["races", program, "drawn.sched"], at)
    places = {tuple(map(both.name, it)): pairs for it, pairs in both.at_places(both.orders.rust).items()}
    lines = [b"%s  /  %s: %s%d %d\n" % (*it, two_orders.often(pairs), pairs[0][0] + 1, pairs[0][1] + 1)
             for it, pairs in places.items()]
    return b"".join((
        b"number %d\n" % number, re.search(rb"^verdict .*\n", report, re.M)[0], races, b"by Rust's order:\n", *lines,
        b"races %d\n" % len(both.orders.rust), b"shown by: mirace auto %s %d 1000\n" % (program.encode(), number)))


def numbers_by_rusts_order(at):
    """The number that the companion finds for the aim `rust`, from each tenth number on, and what it tells of it."""
    script = trace_script()
    for name in RUST:
        program, wanted = f"{EXAMPLES}/{name}.mr", (b"", 0)
        for number in reversed(range(NUMBERS)):
            report, both = rust_of(script, program, number, at)
            if both.orders.rust:
                wanted = told_by_rust(program, number, report, both, at), 1
            if number % 10 == 0:
                none = b"numbers %d to %d: no run has it\n" % (number, NUMBERS - 1)
                found = shown(["hunt", program, str(number), str(NUMBERS - 1), "1000", "rust"], at)
                judge(f"hunt by Rust's order: {name}, from {number} on", found == (wanted if wanted[1] else (none, 0)),
                      f"{short(found[0])} and {found[1]}, not {short(wanted[0])}")
