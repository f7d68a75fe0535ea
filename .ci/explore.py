"""The script that goes through the orders of a program, examples/explore, beside a search over all schedules.

The search takes each schedule of a small program, and reads what it needs of each run from the steps that `mirace_show`
tells: who is started, who waits and who is woken, what is printed, and the races by places. It knows nothing of steps
that depend on each other. So what the script leaves out is left out rightly where both find the same."""
import importlib.machinery
import importlib.util
import os
import re
import subprocess
import sys

import companion
from judging import EXAMPLES, EXERCISES, PROGRAM, judge, write

SCRIPT = f"{EXAMPLES}/explore"
# Programs that are written for this: two: three threads without an order, of which two store; cross: two locks, taken
# in opposite orders; heap: a use and a freeing in edition 2; own: each of two threads stores in a place of its own.
SMALL = {
    "two.mr": """minirust 1
global g align 1 { 0 }
global h align 1 { 0 }
fn w(p) -> r {
let p: raw, r: unit;
b0 regular: deref(load(p), u8) = u8 1; return;
}
fn u(p) -> r {
let p: raw, r: unit;
b0 regular: deref(global h + 0, u8) = load(deref(load(p), u8)); do print(load(deref(global h + 0, u8))) to b1;
b1 regular: return;
}
fn main() -> r {
let r: unit, t: u32;
b0 regular: live t; do spawn(fn w, global g + 0) -> t to b1;
b1 regular: do spawn(fn u, global g + 0) -> t to b2;
b2 regular: do print(load(deref(global h + 0, u8))) to b3;
b3 regular: exit;
}
main main
""",
    "cross.mr": """minirust 1
fn w(p) -> r {
let p: raw, r: unit;
b0 regular: do acquire(u32 1) to b1;
b1 regular: do acquire(u32 0) to b2;
b2 regular: do release(u32 0) to b3;
b3 regular: do release(u32 1) to b4;
b4 regular: return;
}
fn main() -> r {
let r: unit, t: u32;
b0 regular: live t; do create_lock() -> t to b1;
b1 regular: do create_lock() -> t to b2;
b2 regular: do spawn(fn w, raw 0) -> t to b3;
b3 regular: do acquire(u32 0) to b4;
b4 regular: do acquire(u32 1) to b5;
b5 regular: do release(u32 1) to b6;
b6 regular: do release(u32 0) to b7;
b7 regular: do join(load(t)) to b8;
b8 regular: exit;
}
main main
""",
    "heap.mr": """minirust 2
fn w(p) -> r {
let p: raw, r: unit, x: u8;
b0 regular: live x; x = load(deref(load(p), u8)); do print(load(x)) to b1;
b1 regular: return;
}
fn main() -> r {
let r: unit, t: u32, n: raw;
b0 regular: live t; live n; do allocate(u64 1, u64 1) -> n to b1;
b1 regular: deref(load(n), u8) = u8 3; do spawn(fn w, load(n)) -> t to b2;
b2 regular: do deallocate(load(n), u64 1, u64 1) to b3;
b3 regular: exit;
}
main main
""",
    "own.mr": """minirust 1
global g align 1 { 0*2 }
fn w(p) -> r {
let p: raw, r: unit;
b0 regular: deref(load(p), u8) = u8 1; deref(load(p), u8) = u8 2; return;
}
fn main() -> r {
let r: unit, t: u32;
b0 regular: live t; do spawn(fn w, global g + 0) -> t to b1;
b1 regular: do spawn(fn w, global g + 1) -> t to b2;
b2 regular: do join(u32 1) to b3;
b3 regular: do join(u32 2) to b4;
b4 regular: exit;
}
main main
""",
}
# The programs, each with how many ends and how many races by places it has.
PROGRAMS = (
    (f"{EXERCISES}/09-turns.mr", 2, 0), (f"{EXERCISES}/15-hidden.mr", 2, 2), (f"{EXAMPLES}/race.mr", 2, 2),
    (f"{EXAMPLES}/race-atomic.mr", 2, 0), (f"{EXAMPLES}/race-lock.mr", 2, 0), (f"{EXAMPLES}/stop.mr", 2, 2),
    ("two.mr", 5, 4), ("cross.mr", 2, 0), ("heap.mr", 3, 1), ("own.mr", 1, 0))
# So many times as many runs the search has to need for two of them.
RATIO = 10
STEP = re.compile(r"(\d+)  thread (\d+)  (.*)")


def script():
    """The module of examples/explore."""
    loader = importlib.machinery.SourceFileLoader("explore_script", SCRIPT)
    module = importlib.util.module_from_spec(importlib.util.spec_from_loader("explore_script", loader))
    is_quiet, sys.dont_write_bytecode = sys.dont_write_bytecode, True
    loader.exec_module(module)
    sys.dont_write_bytecode = is_quiet
    module.MIRACE, module.SHOW = PROGRAM, companion.COMPANION
    return module


class Search:
    """Takes every schedule of a program."""

    def __init__(self, module, machine):
        self.module, self.machine, self.count, self.ends, self.pairs = module, machine, 0, set(), set()

    def listed(self, turns):
        """The steps of a run: of each its thread, its place and what it did; and how the run ended."""
        with open(f"{self.machine.at}/plain", "wb") as it:
            it.write(self.machine.schedule(turns))
        words = [self.module.SHOW, "steps", self.machine.program, f"{self.machine.at}/plain"]
        steps, verdict = [], None
        for line in self.module.written(words, (0, 1)).decode().split("\n"):
            head = STEP.fullmatch(line)
            if head:
                steps.append((int(head[2]), head[3], []))
            elif line.startswith("        "):
                steps[-1][2].append(line.strip())
            elif line.startswith("verdict "):
                verdict = line[8:]
        return steps, verdict

    def choices(self, steps, verdict):
        """In front of each step the turns that could be taken, and those behind the last one."""
        able, waiting, found = {0}, {}, []
        for thread, _, did in steps:
            turns = [(it, None) for it in sorted(able)]
            lock = next((it.split()[2] for it in did if it.startswith("gives lock ")), None)
            if lock is not None:
                turns = [it for it in turns if it[0] != thread]
                turns += [(thread, it) for it, what in sorted(waiting.items()) if what == lock]
            found.append(turns)
            for it in did:
                words = it.split()
                if it.startswith("waits for lock "):
                    waiting[thread] = words[3]
                if it.startswith("waits for ") or it == "ends":
                    able.discard(thread)
                if it.startswith("wakes thread "):
                    able.add(int(words[2]))
                    waiting.pop(int(words[2]), None)
        return found, [(it, None) for it in sorted(able)] if verdict == "running" else []

    def keep(self, steps, verdict):
        prints = tuple(it[7:] for _, _, did in steps for it in did if it.startswith("prints "))
        if verdict != self.module.RACE:
            self.ends.add((prints, verdict))
        for at, (_, place, did) in enumerate(steps):
            others = [int(it.split()[-1]) - 1 for it in did if it.startswith("races with step ")]
            self.pairs |= {(steps[it][1], place) for it in others if it < at}

    def search(self, front=()):
        """Each run that begins with some turns."""
        todo = [list(front)]
        while todo:
            turns = todo.pop()
            fixed = len(turns)
            while True:
                steps, verdict = self.listed(turns + [turns[-1] if turns else (0, None)] * 30)
                found, behind = self.choices(steps, verdict)
                turns = [self.taken(steps, found, at) for at in range(len(steps))]
                if not behind:
                    break
                turns.append(behind[0])
            self.count += 1
            self.keep(steps, verdict)
            for at in range(fixed, len(turns)):
                todo += [turns[:at] + [it] for it in found[at] if it != turns[at]]

    @staticmethod
    def taken(steps, found, at):
        """The turn that made a step."""
        thread, _, did = steps[at]
        picks = [it for it in found[at] if it[0] == thread and it[1] is not None]
        woken = [int(it.split()[2]) for it in did if it.startswith("wakes thread ")]
        return (thread, woken[0]) if picks else (thread, None)


def shown_by_their_orders(name, module, machine, explorer):
    """Each end and each race is shown by the schedule of its order."""
    for end, turns in explorer.ends.items():
        search = Search(module, machine)
        search.keep(*search.listed(turns))
        judge(f"explore: {name}: the order of {end}", search.ends == {end}, f"it shows {search.ends}")
    for pair, turns in explorer.pairs.items():
        search = Search(module, machine)
        search.keep(*search.listed(turns))
        judge(f"explore: {name}: the order of {pair}", pair in search.pairs, f"it shows {search.pairs}")


def words_of_the_script(at):
    """Its statuses, where the words aren't right, a program is refused, or nothing is wrong."""
    how = {"stdin": subprocess.DEVNULL, "stdout": subprocess.PIPE, "stderr": subprocess.DEVNULL, "timeout": 60}
    how["env"] = {**os.environ, "MIRACE": PROGRAM, "MIRACE_SHOW": companion.COMPANION}
    once = b"end 1: verdict exit\n> 42\n        order 0*4\nends 1, races by places 0, after 1 runs\n"
    cut = b"end 1: verdict running\n> 42\n        order 0*3\nends 1, races by places 0, after 1 runs\n"
    cut += b"some runs were cut at 3 steps: there may be more\n"
    for what, words, text, status in (
            ("no words", [], b"", 2), ("a number that is none", ["print.mr", "x"], b"", 2),
            ("a program that breaks a rule", ["ill-formed.mr"], b"form main b0 2 32 BlockKind\n", 4),
            ("no program", ["missing.mr"], b"read program\n", 6), ("one thread", ["print.mr"], once, 0),
            ("too few steps", ["print.mr", "3"], cut, 1)):
        words = [f"{EXAMPLES}/{words[0]}", *words[1:]] if words else []
        ran = subprocess.run([SCRIPT, *words], cwd=at, **how)
        judge(f"explore: {what}", (ran.stdout, ran.returncode) == (text, status), f"{ran.stdout} and {ran.returncode}")


def explored_orders(at):
    """The ends and the races by places that examples/explore finds of ten small programs are those of all schedules."""
    words_of_the_script(at)
    module, ratios = script(), []
    for name, text in SMALL.items():
        write(at, name, text.encode())
    for program, ends, pairs in PROGRAMS:
        program = os.path.join(at, program)
        machine = module.Machine(program, 200, at)
        explorer = module.Explorer(machine)
        explorer.explore()
        search = Search(module, machine)
        search.search()
        name = os.path.basename(program)
        same = set(explorer.ends) == search.ends and set(explorer.pairs) == search.pairs
        told = f"{set(explorer.ends)} and {set(explorer.pairs)}, not {search.ends} and {search.pairs}"
        judge(f"explore: {name}: what all schedules show", same, told)
        counts = len(explorer.ends), len(explorer.pairs)
        judge(f"explore: {name}: its ends and its races", counts == (ends, pairs), f"{counts}")
        ratios.append(search.count / machine.runs)
        shown_by_their_orders(name, module, machine, explorer)
    judge("explore: it needs few runs", sum(it >= RATIO for it in ratios) >= 2, f"{ratios}")
