"""Runs, texts, traces and forms of the companion that are as slow as may be: what makes them, and what each may take.

Each is made in two sizes, the second twice the first, and measured in both: its instructions, counted by valgrind; or
its memory, the most that was resident; or the bytes that it writes. What the second takes may be so many times what the
first does. And what it takes more than the first may be so many times what the second of a plain shape takes more than
its first, for each entry, or whatever else its size counts. `.ci/outputs` judges that. `.ci/long.py` tells it, and of
those too that exceed their bound now: they are open, and aren't judged.
"""
import collections
import os
import re
import shutil
import struct
import subprocess
import sys
import tempfile

import hostile
import turns
from limits import RUNNING, program

TOP = os.path.dirname(os.path.dirname(os.path.abspath(__file__)))
PROGRAMS = {"mirace": f"{TOP}/crates/mirace/out/mirace", "mirace_show": f"{TOP}/crates/mirace_show/out/mirace_show"}
PAGE = f"{TOP}/docs/SPEED.md"
VALGRIND = ("valgrind", "--tool=cachegrind", "--cache-sim=no", "--cachegrind-out-file=/dev/null")
# How many times what it takes may be where the size doubles: twice, and a tenth of it for each doubling of a search.
GROWTH = 2.6
NONE, LEAK = b"races 0\n", b"verdict leak\nraces 0\n"
# What is measured: its name; the words of its command, over the files that `made` gives of a size; the first size; what
# is counted; what must be written at its end, and the status; the plain shape and how many times what that takes; how
# many times what half the size takes; and why it is open where it is.
Shape = collections.namedtuple(
    "Shape", "what words made size counted end status plain most growth is_open",
    defaults=("instructions", RUNNING, 0, None, None, GROWTH, ""))

# What many threads do, by the work of turns.py; and with how many threads, in which orders of their turns.
ALL, TWO = (*turns.ORDERS,), ("rising", "random")
DONE = {
    "locals of their own": ("store to locals of their own", {2: ("random",), 64: ("random",), 1000: TWO}),
    "one cell": ("store atomically to one cell", {2: TWO, 8: ALL, 64: ALL, 512: ALL, 1000: ALL}),
    "cells of their own": ("store atomically to 16 cells of their own", {2: ("random",), 64: TWO, 1000: TWO}),
    "shared cells": ("store atomically to shared cells in no order", {2: ("random",), 64: TWO, 1000: TWO}),
    "a lock": ("raise a counter under a lock", {2: TWO, 8: ALL, 64: ALL, 512: TWO, 1000: TWO}),
    "many locks": ("take 4,000 locks in no order", {2: ("random",), 64: ALL}),
    "loads and a store": ("load one cell, to which one of them stores", {2: ("random",), 512: TWO, 1000: ("rising",)}),
}
# How many steps they have at first; and of a thousand threads under a lock, so that each takes it again.
STEPS, STEPS_AGAIN = 3 << 10, 3 << 11
# How many times what a plain shape takes one may take. Of many threads it is a tenth more for each of them: the clock
# of a step has a number for each.
TIMES = 12


def of_turns():
    """Many threads in three orders of their turns, each beside two threads that do the same."""
    for work, (what, numbers) in DONE.items():
        for threads, orders in numbers.items():
            size = STEPS_AGAIN if (work, threads) == ("a lock", 1000) else STEPS
            for order in orders:
                plain = f"2 threads {what}, in random turns" if threads > 2 else None
                yield Shape(f"{threads:,} threads {what}, in {order} turns", "run P S",
                            turns.threaded(work, threads, order), size, plain=plain, most=TIMES + threads // 10)


def of_memory():
    """Bytes that are made uninitialised."""
    middle = "one byte in the middle of %s emptied and stored, again and again"
    second = f"each second byte of {turns.MEBIBYTE:,} %s, one after the other"
    moved = "16 threads that empty %s bytes of their own, 8 further on each time"
    yield Shape(middle % 64, "run P S", turns.emptied(64), STEPS)
    yield Shape(middle % f"{turns.MEBIBYTE:,}", "run P S", turns.emptied(turns.MEBIBYTE), 384, plain=middle % 64,
                most=TIMES)
    yield Shape(second % "stored", "run P S", turns.each_second("%s = u8 1"), STEPS)
    yield Shape(second % "emptied", "run P S", turns.each_second("deinit %s"), 768, plain=second % "stored", most=TIMES)
    yield Shape(moved % 8, "run P S", turns.moved(8), 3 << 13)
    yield Shape(moved % f"{turns.MEBIBYTE:,}", "run P S", turns.moved(turns.MEBIBYTE), 3 << 13, plain=moved % 8,
                most=TIMES, is_open="each meets all the ranges before it that lie over its own")


def of_frames():
    """Calls and frames, by their instructions and by their memory."""
    for counted, size in (("instructions", 4000), ("memory", 64000)):
        by = "" if counted == "instructions" else ", by memory"
        frames, calls = f"chains of %s frames unwound again and again{by}", f"calls of %s{by}"
        yield Shape(frames % 10, "run P S", turns.unwound(10), size, counted)
        yield Shape(frames % "1,000", "run P S", turns.unwound(1000), size, counted, plain=frames % 10, most=2.6)
        yield Shape(calls % "an argument", "run P S", turns.calls(1), size // 4, counted)
        yield Shape(calls % "40 arguments", "run P S", turns.calls(40), size // 8, counted,
                    plain=calls % "an argument", most=40)


def a_step(thread, accesses):
    """The bytes of a step that only has accesses."""
    parts = [struct.pack("<IHQ", thread, 0, len(accesses)), *(struct.pack("<BQQ", *it) for it in accesses), bytes(32)]
    return b"".join(parts)


def traced(*steps):
    return {"T": b"MRTR\1" + struct.pack("<I", len(steps)) + b"".join(steps)}


def stores(thread, first, apart, length, count):
    """A step of so many stores of a length."""
    return a_step(thread, [(1, first + apart * k, length) for k in range(count)])


def of_traces():
    """Traces of few steps with many stores."""
    apart = lambda n: traced(stores(0, 16, 16, 8, n), stores(1, 16 + 16 * n, 16, 8, n))
    mixed = lambda n: traced(stores(0, 16, 16, 8, n), stores(1, 24, 16, 8, n))
    two = "two steps of many stores, %s"
    yield Shape(two % "those of one behind those of the other", "offline T", apart, 16000, end=NONE)
    yield Shape(two % "those of one between those of the other", "offline T", mixed, 2000, end=NONE,
                plain=two % "those of one behind those of the other", most=TIMES)
    single = lambda n: traced(stores(0, 8, 8, 8, n))
    over = lambda n: traced(stores(0, 8, 8, 1 << 40, n))
    for counted, size, more in (("instructions", 2000, 8), ("memory", 4000, 64)):
        one = "one step of many stores, %s" + ("" if counted == "instructions" else ", by memory")
        yield Shape(one % "none over another", "offline T", single, more * size, counted, NONE)
        yield Shape(one % "all over one another", "offline T", over, size, counted, NONE,
                    plain=one % "none over another", most=TIMES)


def placed(*steps):
    """A trace, and a file of places in which each step has a place of its own."""
    names = b"".join(b"name place %d\n" % k for k in range(len(steps)))
    return {**traced(*steps), "PLACES": b"places 2\n" + names + b"".join(b"%d\n" % k for k in range(len(steps)))}


def of_told_traces():
    """Traces with many races, as the companion tells them: each step races with the one before it; and many race with
    one of many stores, of which few are written each time."""
    chain = lambda n: placed(*(a_step(k % 2, [(1, 64, 8)]) for k in range(n)))
    star = lambda n: placed(stores(0, 64, 8, 8, n), *(a_step(1, [(0, 64 + 8 * k, 8)]) for k in range(n)))
    plain, last = "a trace each step of which races with the one before it", lambda n: b"race %d %d\n" % (n - 1, n)
    yield Shape(plain, "offline T", chain, 4000, end=last, status=1)
    for word in ("races", "steps"):
        words, count = f"show {word} T PLACES", lambda n: b"races %d\n" % n
        yield Shape(f"`{word}` of {plain}", words, chain, 4000, "instructions", lambda n: count(n - 1), 1, plain, TIMES)
        many = f"`{word}` of a trace of a step of many stores that races with many, by what is written"
        yield Shape(many, words, star, 2000, "written", count, 1)


def leaking(count):
    """A run that leaks so many blocks."""
    blocks = "b0 regular: live p; live n; n = u32 0; goto b1;\nb1 regular: do allocate(u64 8, u64 8) -> p to b2;\n"
    blocks += f"b2 regular: n = add(load(n), u32 1); switch lt(load(n), u32 {count}) {{ 1 => b1, _ => b3 }};\n"
    entries = ["0 4096", "0 4104", "0", "0"]
    for k in range(count):
        entries += [f"0 {turns.BEHIND + 8 * k}", "0", "0"]
    text = program(b"", b", p: raw, n: u32", blocks.encode() + b"b3 regular: exit;")
    return {"P": text, "S": turns.files("", "16 32", [*entries, "0"])["S"]}


def at_prints(threads, numbers):
    """So many threads in front of a print of so many numbers."""
    printed = "do print(%s) to b1" % ", ".join(["u8 1"] * numbers)
    text = turns.GLOBAL + "fn w(p) -> r {\nlet p: raw, r: unit;\nb0 regular: goto b1;\n"
    text += f"b1 regular: {printed};\n}}\n" + turns.MAIN % ("b1", 0)
    at = turns.itertools.count(turns.BEHIND, 8)
    entries = turns.begun(at, threads) + [str(k) for k in range(1, threads + 1)]
    return turns.files(text, f"16 17 {turns.AT} 32", entries)


def printing(numbers):
    """40 prints of so many numbers."""
    text = program(b"", b"", b"b0 regular: do print(%s) to b0;" % b", ".join([b"u8 1"] * numbers))
    return {"P": text, "S": turns.files("", "16 32", ["0"] * 40)["S"]}


def picked(count):
    """An entry of so many picks, which asks for none."""
    return {"P": program(), "S": turns.files("", "16 32", ["0" + " 1" * count])["S"]}


def last_leaked(size):
    """The end of the line of the last block that a run of `leaking` leaks."""
    return b" at address %d\n" % (turns.BEHIND + 8 * size - 8)


def of_companion():
    """Forms of the companion."""
    leaks, many, drawn = "a run that leaks many blocks", "`next` of many threads at a print of %s", b"</svg>\n"
    prints, asked = "40 prints of many numbers, by what is written", b"to b1\n"
    yield Shape(leaks, "run P S", leaking, 2000, end=LEAK, status=1)
    yield Shape(f"`steps` of {leaks}", "show steps P S 1 1", leaking, 2000, "instructions", last_leaked, 1, leaks, TIMES)
    yield Shape(f"`picture` of {leaks}", "show picture P S", leaking, 2000, "instructions", drawn, 1, leaks, TIMES)
    yield Shape(many % "a number", "show next P S", lambda n: at_prints(n, 1), 20, end=asked)
    yield Shape(many % "5,000 numbers", "show next P S", lambda n: at_prints(n, 5000), 20, end=b" ..\n",
                plain=many % "a number", most=TIMES)
    yield Shape(prints, "run P S", printing, 4000, "written")
    yield Shape(f"`picture` of {prints}", "show picture P S", printing, 4000, "written", drawn, 0, prints, GROWTH)
    yield Shape("`next` of a refused entry of many picks, by what is written", "show next P S", picked, 10000,
                "written", b"main b0  exit\n", 1, growth=1.5)


def all_shapes():
    yield from (Shape("a text of a global of many items", "run P S", turns.items, 250000, end=hostile.EXITED),
                *of_turns(), *of_memory(), *of_frames(), *of_traces(), *of_told_traces(), *of_companion())


# Runs a command, and tells as an error the most memory that was resident. It is small itself, and never held the files.
APART = """import os, sys
started = os.posix_spawn(sys.argv[1], sys.argv[1:], os.environ)
_, status, used = os.wait4(started, 0)
print(used.ru_maxrss, file=sys.stderr)
sys.exit(os.waitstatus_to_exitcode(status))
"""
BEFORE = {"instructions": VALGRIND, "memory": (sys.executable, "-c", APART), "written": ()}


def taken(shape, size, programs):
    """What a shape takes in a size. Where it writes anything else than it must, that is an error."""
    words = shape.words.split()
    path = programs["mirace_show" if words[0] == "show" else "mirace"]
    words = [*BEFORE[shape.counted], path, *words[words[0] == "show":]]
    with tempfile.TemporaryDirectory() as at:
        for name, text in shape.made(size).items():
            with open(f"{at}/{name}", "wb") as it:
                it.write(text)
        ran = subprocess.run(words, cwd=at, stdin=subprocess.DEVNULL, stdout=subprocess.PIPE, stderr=subprocess.PIPE)
    end = shape.end(size) if callable(shape.end) else shape.end
    if ran.returncode != shape.status or not ran.stdout.endswith(end):
        raise RuntimeError(f"status {ran.returncode}, {ran.stdout[-100:]!r}")
    if shape.counted == "instructions":
        return int(re.search(rb"I +refs: +([\d,]+)", ran.stderr).group(1).replace(b",", b""))
    return int(ran.stderr) / 1024 if shape.counted == "memory" else len(ran.stdout)


class Figures:
    """What shapes take in both sizes, each found once."""

    def __init__(self, programs):
        self.programs, self.known, self.found = programs, {it.what: it for it in all_shapes()}, {}

    def of(self, what):
        if what not in self.found:
            shape = self.known[what]
            self.found[what] = [taken(shape, size, self.programs) for size in (shape.size, 2 * shape.size)]
        return self.found[what]

    def each(self, what):
        """What it takes more in the second size, for each of what the size counts."""
        first, second = self.of(what)
        return (second - first) / self.known[what].size

    def times(self, shape):
        """How many times as much it takes in the second size, and how many times what its plain shape takes."""
        first, second = self.of(shape.what)
        return second / first, self.each(shape.what) / self.each(shape.plain) if shape.plain else 0


def told(programs, word):
    """A line for each shape with the word in its name."""
    figures = Figures(programs)
    for shape in filter(is_counted, figures.known.values()):
        if word in shape.what:
            growth, times = figures.times(shape)
            first, second = figures.of(shape.what)
            memory = taken(shape._replace(counted="memory"), 2 * shape.size, programs)
            beside = f"; {times:.1f} times what is taken by: {shape.plain}" if shape.plain else ""
            is_open = f"; OPEN: {shape.is_open}" if shape.is_open else ""
            counts = f"{first:15,.0f} {second:15,.0f} {growth:6.2f} {figures.each(shape.what):11,.1f} "
            counts += f"{memory:6,.0f} MiB"
            yield f"{counts}  {shape.counted}, {shape.size} and twice that: {shape.what}{beside}{is_open}"


def is_counted(shape):
    """Whether it can be counted here."""
    return shape.counted != "instructions" or shutil.which("valgrind")


def compare_page(judge, known):
    """The table of docs/SPEED.md has shapes alone, each as it stands, and all that are open."""
    with open(PAGE, encoding="utf-8") as it:
        rows = re.findall(r"^\| (.*?) \|.*\| (held|open) \|$", it.read(), re.M)
    wanted = [(what, "open" if what in known and known[what].is_open else "held") for what, _ in rows]
    judge("SPEED: how slow shapes stand", rows == wanted, f"{sorted({*rows} - {*wanted})} stand otherwise")
    missing = {what for what, it in known.items() if it.is_open} - {what for what, _ in rows}
    unknown = {what for what, _ in rows} - {*known}
    judge("SPEED: the open shapes", not missing and not unknown, f"{missing} not in the table, {unknown} no shapes")


def compare(judge, programs=PROGRAMS):
    """Each shape that isn't open takes no more than it may."""
    figures = Figures(programs)
    compare_page(judge, figures.known)
    if not shutil.which("valgrind"):
        print("outputs: there is no valgrind, so that no instructions of long runs are counted")
    for shape in figures.known.values():
        if shape.is_open or not is_counted(shape):
            continue
        try:
            growth, times = figures.times(shape)
        except (RuntimeError, OSError) as error:
            judge(shape.what, False, str(error))
            continue
        judge(f"{shape.what}: twice the size", growth <= shape.growth, f"{growth:.2f} times, not {shape.growth}")
        if shape.plain:
            judge(f"{shape.what}: beside the plain shape", times <= shape.most, f"{times:.1f} times, not {shape.most}")
