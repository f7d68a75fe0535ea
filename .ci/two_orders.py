"""The form `rust` of the companion: the races of a run or of a trace by Rust's order beside those by the machine's, by
their definitions (rust_order.py and plain.py). Nothing here is shared with the program.

- Each stored run of mirace_cases, each example and each program of a class: what is told of the run, of its trace at
  places that are drawn, and of the trace alone.
- 10,000 lists of steps that are drawn, with many atomic accesses, locks, wakes, starts and joins.
- What docs/BESIDE.md says of the examples: their races by each order, and that ThreadSanitizer reports those by Rust's.
- What a step takes of the form for the shapes of long.py, beside one of `mirace run`, in instructions.
"""
import os
import random
import re
import shutil
import subprocess

import companion
import long
import ordered
import plain
import rust_order
import shapes
import told
from judging import CASES, CLASS, EXAMPLES, PROGRAM, TOP, judge, read, run, short, stored_runs, write
from traces import drawn_places, trace_script

INDENT = b" " * 8
# Of so many groups of Rust's list it is told why the machine's hasn't theirs.
MOST = 8
# How many lists are drawn.
LISTS = 10000
# How many entries the runs have that are counted, and how many times what `run` takes of a step the form may take.
ENTRIES, TIMES = (1 << 11, 1 << 12), 1.5
# The page with a row of each example and its twin: its races, those by Rust's order, and what ThreadSanitizer reports.
BESIDE = f"{TOP}/docs/BESIDE.md"
ROW = re.compile(r"^\| `([a-z-]+)` \| ([^|]*) \| ([^|]*) \| ([^|]*) \|.* of \d+ \|$", re.M)
# Examples without a race by Rust's order, of whose twins one is reported: to free is no access in edition 1.
FREEING = {"use-after-free"}


def races(count):
    return b"1 race" if count == 1 else b"%d races" % count


def in_places(places):
    return b" at 1 pair of places" if places == 1 else b" at %d pairs of places" % places


def often(pairs):
    """How many pairs there are, in front of the first."""
    return b"once, " if len(pairs) == 1 else b"%d times, first " % len(pairs)


class Orders:
    """Both orders of the steps of a run or a trace, and the list by each."""

    def __init__(self, steps):
        self.steps = steps
        self.by_rust, self.by_machine = rust_order.order(steps), plain.order(steps)
        self.rust, self.machine = plain.races_by(steps, self.by_rust), plain.races_by(steps, self.by_machine)

    def way(self, i, j):
        """The links from one step to another by the greatest steps that lead on, by the machine's order."""
        while i != j:
            leads = (k for k in range(j, i, -1)
                     if plain.is_edge(self.steps, i, k) and (k == j or self.by_machine[j] >> k & 1))
            k = next(leads)
            yield i, k
            i = k

    def since(self, i, j):
        """The first link of that way that Rust's order hasn't, with its reason."""
        one, other = next((a, b) for a, b in self.way(i, j) if not self.by_rust[b] >> a & 1)
        return b", since step %d comes before step %d: %s" % (
            one + 1, other + 1, ordered.reason(self.steps, one, other))


class Both:
    """What is told of both orders, by where the steps stand. `key` of a step is its place; `name` of a place is what is
    written of it; `side` of a step is what is told of it below. Of the places with as many races those of lower keys
    come first, or where `is_by_race` says so those with the first race."""

    def __init__(self, orders, key, name, side=lambda k: (), is_by_race=False):
        self.orders, self.key, self.name, self.side, self.is_by_race = orders, key, name, side, is_by_race

    def at_places(self, pairs):
        """The pairs at each two places, those with most first."""
        found = {}
        for pair in pairs:
            found.setdefault(tuple(map(self.key, pair)), []).append(pair)
        rank = lambda both: (-len(found[both]), *(() if self.is_by_race else both))
        return {both: found[both] for both in sorted(found, key=rank)}

    def alone(self, pair, listed, words, since):
        """Why the other list hasn't a pair: it has the second step with a later one, or the other order has the two one
        behind the other."""
        i, j = pair
        others = [one for one, other in listed if other == j and one > i]
        if others:
            return words[1] % (j + 1, others[0] + 1)
        return words[0] % (i + 1, j + 1) + since(i, j)

    def rust_alone(self, pair, is_told):
        """Why the machine's list hasn't a race of Rust's."""
        words = (b"Rust's order alone: in the machine's step %d comes before step %d",
                 b"Rust's order alone: the machine's lists step %d with step %d")
        return self.alone(pair, self.orders.machine, words, self.orders.since if is_told else lambda i, j: b"")

    def machine_alone(self, pair):
        """Why Rust's list hasn't a race of the machine's."""
        words = (b"the machine's order alone: in Rust's step %d comes before step %d",
                 b"the machine's order alone: Rust's lists step %d with step %d")
        return self.alone(pair, self.orders.rust, words, lambda i, j: b"")

    def group(self, both, pairs, why):
        """The lines of the races at two places."""
        (i, j), sides = pairs[0], (line for k in pairs[0] for line in self.side(k))
        head = b"%s  /  %s: %s%d %d\n" % (*map(self.name, both), often(pairs), i + 1, j + 1)
        return b"".join((head, *sides, INDENT, why, b"\n"))

    def groups(self):
        """The groups of Rust's list, and those of the machine's where Rust's has none."""
        rust, machine = self.at_places(self.orders.rust), self.at_places(self.orders.machine)
        yield b"Rust's order: %s; the machine's: %s\n" % (
            races(len(self.orders.rust)) + in_places(len(rust)), races(len(self.orders.machine)) + in_places(len(machine)))
        for number, (both, pairs) in enumerate(rust.items()):
            if both in machine:
                why = b"both: %d by Rust's order, %d by the machine's" % (len(pairs), len(machine[both]))
            else:
                why = self.rust_alone(pairs[0], number < MOST)
            yield self.group(both, pairs, why)
        for both, pairs in machine.items():
            if both not in rust:
                yield self.group(both, pairs, self.machine_alone(pairs[0]))

    def text(self):
        """What is written."""
        return b"".join(self.groups())


class Bare(Both):
    """What is told of both orders of a trace without places: race by race."""

    def __init__(self, orders):
        super().__init__(orders, None, lambda k: b"step %d, thread %d" % (k + 1, orders.steps[k][0]))

    def race(self, pair, why):
        return b"%s  /  %s\n%s%s\n" % (*map(self.name, pair), INDENT, why)

    def groups(self):
        rust, machine = self.orders.rust, self.orders.machine
        yield b"Rust's order: %s; the machine's: %s\n" % (races(len(rust)), races(len(machine)))
        for number, pair in enumerate(rust):
            yield self.race(pair, b"both" if pair in machine else self.rust_alone(pair, number < MOST))
        for pair in machine:
            if pair not in rust:
                yield self.race(pair, self.machine_alone(pair))


def of_trace(orders, places=None):
    """A trace at the places of a text, or alone."""
    if places is None:
        return Bare(orders)
    it = told.Told(orders.steps, [], places)
    return Both(orders, lambda k: it.sites[k][0], it.name, it.side)


def of_run(orders, listing):
    """A run, whose steps are told by `mirace_show steps` at their places."""
    told_steps, _ = companion.parted(listing)
    spots = {(it.row, it.column): it.place() for it in told_steps}
    return Both(orders, lambda k: (told_steps[k].row, told_steps[k].column), spots.get, is_by_race=True)


def expect(what, words, both, at, otherwise=0):
    """The companion writes this, with status 1 where there is a race in either list."""
    wanted = both.text(), 1 if both.orders.rust or both.orders.machine else otherwise
    wrote = companion.ran(words, at)
    judge(f"{what}: {words[0]} of {len(words) - 1} files", wrote == wanted,
          f"{short(wanted[0])} and {wanted[1]}, not {short(wrote[0])} and {wrote[1]}")


def each_run():
    """The stored runs, and those of the examples and of the class."""
    for program, schedule, _, _ in stored_runs():
        yield f"{program[len(CASES) + 1:]} under {schedule[len(CASES) + 1:]}", program, schedule
    for folder in (EXAMPLES, CLASS, f"{EXAMPLES}/recipes"):
        programs = [it[:-3] for it in os.listdir(folder) if it.endswith(".mr")]
        for schedule in sorted(it for it in os.listdir(folder) if it.endswith(".sched")):
            fits = [it for it in programs if schedule.startswith(it)]
            if fits:
                yield schedule, f"{folder}/{max(fits, key=len)}.mr", f"{folder}/{schedule}"


def orders_in(script, trace):
    """The orders of a trace."""
    return Orders([script.step_of(line) for line in script.decode(trace).splitlines()])


def both_orders_of_runs(at):
    """What the companion tells of runs by Rust's order beside the machine's, against both definitions."""
    script, draw, counts = trace_script(), random.Random(9), {"runs": 0, "alone": 0}
    for what, program, schedule in each_run():
        trace, status = run(["trace", program, schedule], at)
        if status:
            continue
        orders = orders_in(script, trace)
        listing, ended = companion.ran(["steps", program, schedule], at)
        expect(what, ["rust", program, schedule], of_run(orders, listing), at, ended)
        if len({it[0] for it in orders.steps}) > 1:
            places = drawn_places(draw, len(orders.steps))
            write(at, "run.trace", trace)
            write(at, "run.places", places)
            expect(what, ["rust", "run.trace", "run.places"], of_trace(orders, places), at)
            expect(what, ["rust", "run.trace"], of_trace(orders), at)
        counts["runs"] += 1
        counts["alone"] += orders.rust != orders.machine
    judge("both orders of runs", counts["runs"] > 800 and counts["alone"] > 5, f"{counts}")


def pairs_in(cell):
    """The pairs of steps of a cell, counted from 0."""
    return sorted((int(i) - 1, int(j) - 1) for i, j in re.findall(r"(\d+) and (\d+)", cell))


def reported():
    """Of which twins ThreadSanitizer reports a race."""
    return {name: bool(pairs_in(cell)) for name, _, _, cell in ROW.findall(read(BESIDE).decode())}


def orders_of_examples(at):
    """The races of each example by both orders are those of docs/BESIDE.md, and where it has one by Rust's order,
    ThreadSanitizer reports one."""
    script, rows = trace_script(), ROW.findall(read(BESIDE).decode())
    names = sorted(it[:-2] for it in os.listdir(f"{EXAMPLES}/beside") if it.endswith(".c"))
    judge("BESIDE: a row of each example", sorted(it[0] for it in rows) == names, f"{rows}")
    for name, machine, rust, said in rows:
        trace, _ = run(["trace", f"{EXAMPLES}/{name}.mr", f"{EXAMPLES}/{name}.sched"], at)
        orders = orders_in(script, trace)
        is_well = (pairs_in(machine), pairs_in(rust)) == (sorted(orders.machine), sorted(orders.rust))
        judge(f"BESIDE: the races of {name}", is_well, f"{orders.machine} and {orders.rust}")
        is_well = bool(pairs_in(said)) == (bool(orders.rust) or name in FREEING)
        judge(f"BESIDE: whether a race of {name} is reported", is_well, said)


# ---- lists that are drawn

def drawn_accesses(draw, width):
    """Some accesses of a few bytes, most of them atomic; some are updates, which load and store."""
    for _ in range(draw.choice((0, 1, 1, 1, 2, 3))):
        kind, address = draw.choice((0, 1, 1, 2, 2, 2, 3, 3, 3)), draw.randrange(width)
        length = draw.choice((1, 1, 1, 2, 4, 8))
        yield kind, address, length
        if kind == 2 and draw.random() < .3:
            yield 3, address, length


def drawn_event(draw, threads):
    """What a step does to a lock or to a thread."""
    often_drawn = (plain.QUIET,) * 5 + (plain.ACQUIRE, plain.RELEASE) * 2
    kind = draw.choice((*often_drawn, plain.CREATE, plain.SPAWN, plain.JOIN))
    if kind == plain.QUIET:
        return kind, None
    return kind, draw.randrange(threads if kind in (plain.SPAWN, plain.JOIN) else 2)


def drawn_allocations(draw, threads):
    """The allocations that a step made, freed and used; mostly none."""
    one = lambda: [(draw.randrange(threads), draw.randrange(2))] if draw.random() < .05 else []
    return one(), one(), one()


def drawn_steps(draw):
    """A list of steps of some threads, most of which use the same few bytes."""
    threads, width, wakes = draw.randrange(2, 5), draw.choice((1, 2, 4, 12)), draw.choice((0, .1, .3))
    steps = []
    for _ in range(draw.randrange(2, 15)):
        woken = sorted(draw.sample(range(threads), draw.randrange(1, threads))) if draw.random() < wakes else []
        steps.append((draw.randrange(threads), drawn_event(draw, threads), draw.random() < .1,
                      [*drawn_accesses(draw, width)], drawn_allocations(draw, threads), woken))
    return steps


def trace_of(script, steps):
    """The bytes of a trace."""
    return script.MAGIC + len(steps).to_bytes(4, "little") + b"".join(map(script.bytes_of, steps))


def both_orders_of_steps(at):
    """Lists of steps that are drawn: both lists of each, against both definitions."""
    script, draw, counts = trace_script(), random.Random(61), {"rust": 0, "machine": 0, "differ": 0}
    for number in range(LISTS):
        orders = Orders(drawn_steps(draw))
        write(at, "drawn.trace", trace_of(script, orders.steps))
        expect(f"drawn steps, {number}", ["rust", "drawn.trace"], of_trace(orders), at)
        counts["rust"] += bool(orders.rust)
        counts["machine"] += bool(orders.machine)
        counts["differ"] += orders.rust != orders.machine
    judge("drawn steps: with races and without, and with lists that differ",
          LISTS // 4 < counts["rust"] < LISTS * 9 // 10 and counts["differ"] > LISTS // 50, f"{counts}")


# ---- what it takes

def instructions(words, at):
    """How many instructions a command takes."""
    ran = subprocess.run([*shapes.VALGRIND, *words], cwd=at, stdout=subprocess.DEVNULL, stderr=subprocess.PIPE)
    return int(re.search(rb"I +refs: +([\d,]+)", ran.stderr).group(1).replace(b",", b""))


def both_orders_counted(at):
    """A step of `rust P S` takes at most half more instructions than one of `mirace run P S`, for each shape of long.py:
    the difference of two runs. Of a shape that ends at a race at once both are the same run."""
    if not shutil.which("valgrind"):
        print("outputs: there is no valgrind, so that no instructions of both orders are counted")
        return
    forms = [PROGRAM, "run"], [companion.COMPANION, "rust"]
    for name, text in long.SHAPES.items():
        write(at, "P", text.encode())
        counts = []
        for entries in ENTRIES:
            write(at, "S", long.drawn(PROGRAM, at, entries))
            counts.append([instructions([*form, "P", "S"], at) for form in forms])
        one, both = ((longer - shorter) // (ENTRIES[1] - ENTRIES[0]) for shorter, longer in zip(*counts))
        judge(f"both orders: {name}", both <= TIMES * one, f"{both:,} instructions a step, beside {one:,} of `run`")
