"""Programs whose threads, bytes or frames are many, and schedules of them whose turns are told: rising, falling or at
random. .ci/shapes.py has the table of them."""
import itertools

# How many locks the program of many locks has, and how many bytes a mebibyte.
LOCKS, MEBIBYTE = 4000, 1 << 20
# How many bytes are a worker's own, and how many are those of all.
OWN, BYTES = 128, 128 * 1024
# Where globals stand, and what follows them.
AT, BEHIND = MEBIBYTE, 1 << 24
# What a worker does: how many locks there are; the local that it gives storage to; what its first block does behind
# that, and in how many steps; its other blocks, and how many steps a turn of it has. Its argument `p` points to cells
# of its own.
NEXT_CELL = "i = rem(add(mul(load(i), u64 21), u64 7), u64 1000)"
NEXT_OF_OWN = f"i = rem(add(load(i), i64 8), i64 {OWN})"
NEXT_LOCK = f"i = rem(add(mul(load(i), u32 21), u32 7), u32 {LOCKS})"
CELL = "addrof(raw, deref(global g + 0, array(1000, u64))[load(i)])"
COUNTER = "deref(global g + 0, u64)"
WORKERS = {
    "locals of their own": (0, "x: u64", "goto b1", 1, "b1 regular: x = u64 1; goto b1;\n", 2),
    "one cell": (0, "", "goto b1", 1, "b1 regular: do atomic_store(global g + 0, u64 1) to b1;\n", 1),
    "cells of their own": (0, "i: i64", "i = i64 0; goto b1", 2, f"b1 regular: {NEXT_OF_OWN}; "
                           "do atomic_store(offset(load(p), load(i)), u64 1) to b1;\n", 2),
    "shared cells": (0, "i: u64", "do fetch_add(global g + 0, u64 1) -> i to b1", 1,
                     f"b1 regular: {NEXT_CELL}; do atomic_store({CELL}, u64 1) to b1;\n", 2),
    "a lock": (1, "", "goto b1", 1, "b1 regular: do acquire(u32 0) to b2;\n"
               f"b2 regular: {COUNTER} = add(load({COUNTER}), u64 1); do release(u32 0) to b1;\n", 3),
    "many locks": (LOCKS, "i: u32", "i = u32 0; goto b1", 2,
                   f"b1 regular: {NEXT_LOCK}; do acquire(load(i)) to b2;\nb2 regular: do release(load(i)) to b1;\n", 3),
    "loads and a store": (0, "x: u64", f"switch eq(load(p), global g + {OWN}) {{ 1 => b2, _ => b1 }}", 1,
                          "b1 regular: do atomic_load(global g + 0) -> x to b1;\n"
                          "b2 regular: do atomic_store(global g + 0, u64 1) to b2;\n", 1),
}
MAIN = """fn main() -> r {
let r: unit, t: u32, k: i64;
b0 regular: live t; live k; k = i64 0; goto %s;
c0 regular: do create_lock() -> t to c1;
c1 regular: k = add(load(k), i64 1); switch lt(load(k), i64 %d) { 1 => c0, _ => c2 };
c2 regular: k = i64 0; goto b1;
b1 regular: k = add(load(k), i64 128); do spawn(fn w, offset(global g + 0, load(k))) -> t to b1;
}
main main
"""
GLOBAL = f"minirust 1\nglobal g align 8 {{ 0*{BYTES} }}\n"


def rising(threads, count):
    """So many turns of the threads, from 1 on."""
    return (1 + k % threads for k in range(count))


def falling(threads, count):
    return (threads - k % threads for k in range(count))


def at_random(threads, count):
    state = 7
    for _ in range(count):
        state = (state * 6364136223846793005 + 1442695040888963407) % (1 << 64)
        yield 1 + (state >> 32) * threads // (1 << 32)


ORDERS = {"rising": rising, "falling": falling, "random": at_random}


def files(text, start, entries):
    return {"P": text.encode(), "S": ("schedule 1\nstart %s\n%s\n" % (start, "\n".join(entries))).encode()}


def threaded(work, threads, order):
    """A program of so many threads that do this work, and what gives its files with so many entries behind the first
    steps of all of them."""
    locks, local, front, steps, blocks, each = WORKERS[work]
    live = f"live {local.partition(':')[0]}; " if local else ""
    worker = "fn w(p) -> r {\nlet p: raw, r: unit%s;\nb0 regular: %s%s;\n%s}\n" % (
        f", {local}" if local else "", live, front, blocks)
    text = GLOBAL + worker + MAIN % ("c0" if locks else "b1", locks)

    def made(count):
        at = itertools.count(BEHIND, 8)
        entries = begun(at, threads, 3 * locks + 2 * bool(locks))
        for thread in range(1, threads + 1):
            entries += [f"{thread} {next(at)}"] * bool(local) + [str(thread)] * steps
        for thread in ORDERS[order](threads, count // each):
            entries += [str(thread)] * each
        return files(text, f"16 17 {AT} 32", entries)

    return made


def begun(at, threads, more=0):
    """The entries of MAIN by which so many threads are made, with so many steps more in front of that."""
    entries = [f"0 {next(at)}", f"0 {next(at)}", "0", "0"] + ["0"] * more
    for _ in range(threads):
        entries += ["0", "0 %d %d" % (next(at), next(at))]
    return entries


def alone(text, picks, count):
    """A program of `main` with a global, and so many entries behind its first one."""
    return files(text, f"16 {AT} 32", [f"0 {picks}".strip()] + ["0"] * count)


def emptied(size):
    """One byte in the middle of so many is made uninitialised and stored, again and again."""
    place = "deref(global g + %d, u8)" % (size // 2)
    text = f"minirust 1\nglobal g align 1 {{ 7*{size} }}\nfn main() -> r {{\nlet r: unit;\n"
    text += f"b0 regular: deinit {place}; {place} = u8 1; goto b0;\n}}\nmain main\n"
    return lambda count: alone(text, "", count)


def each_second(statement):
    """A statement over each second byte of a mebibyte, one after the other."""
    place = f"deref(global g + 0, array({MEBIBYTE}, u8))[load(i)]"
    text = f"minirust 1\nglobal g align 1 {{ 7*{MEBIBYTE} }}\nfn main() -> r {{\nlet r: unit, i: u64;\n"
    text += "b0 regular: live i; i = u64 0; goto b1;\n"
    text += f"b1 regular: {statement % place}; i = rem(add(load(i), u64 2), u64 {MEBIBYTE}); goto b1;\n}}\nmain main\n"
    return lambda count: alone(text, str(BEHIND), count)


# Threads that empty so many bytes of a block of their own, each time eight bytes further on.
MOVED = GLOBAL + """fn w(p) -> r {
let p: raw, r: unit, q: raw, i: i64;
b0 regular: live q; live i; i = i64 0; do allocate(u64 2097152, u64 8) -> q to b1;
b1 regular: deinit deref(offset(load(q), load(i)), array(%d, u8)); i = rem(add(load(i), i64 8), i64 1048576); goto b1;
}
""" + MAIN % ("b1", 0)


def moved(size, threads=16):
    """The same in rising turns."""
    def made(count):
        at = itertools.count(BEHIND, 8)
        entries = begun(at, threads)
        for k in range(1, threads + 1):
            entries += ["%d %d" % (k, next(at)), "%d %d" % (k, next(at)), str(k), "%d %d" % (k, (1 << 32) + (k << 22))]
        return files(MOVED % size, f"16 17 {AT} 32", [*entries, *map(str, rising(threads, count))])

    return made


UNWOUND = """minirust 1
fn f(n) -> r {
let n: u32, r: unit, u: unit;
b0 regular: live u; switch eq(load(n), u32 0) { 1 => b1, _ => b2 };
b1 regular: unwind raw 0 to c;
b2 regular: call fn f(sub(load(n), u32 1)) -> u to b3 unwind c;
b3 regular: return;
c cleanup: resume;
}
fn main() -> r {
let r: unit, u: unit;
b0 regular: live u; goto b1;
b1 regular: call fn f(u32 %d) -> u to b2 unwind c;
b2 regular: exit;
c catch: stop to b1;
}
main main
"""


def unwound(frames):
    """Chains of so many frames, each made and unwound, and so many frames in all."""
    def made(count):
        at = itertools.count(BEHIND, 8)
        entries = [f"0 {next(at)}", "0"]
        for _ in range(count // frames):
            for _ in range(frames):
                entries += ["0 %d %d" % (next(at), next(at)), f"0 {next(at)}", "0"]
            entries += ["0"] * (frames + 2)
        return files(UNWOUND % (frames - 1), "16 17 32", entries)

    return made


def calls(arguments):
    """So many calls of a function of so many arguments, one after the other."""
    names = ["a%d" % k for k in range(arguments)]
    text = "minirust 1\nfn f(%s) -> r {\nlet r: unit, %s;\nb0 regular: return;\n}\n" % (
        ", ".join(names), ", ".join(f"{name}: u32" for name in names))
    text += "fn main() -> r {\nlet r: unit, u: unit;\nb0 regular: live u; goto b1;\n"
    text += "b1 regular: call fn f(%s) -> u to b1;\n}\nmain main\n" % ", ".join(["u32 1"] * arguments)

    def made(count):
        at = itertools.count(BEHIND, 8)
        entries = [f"0 {next(at)}", "0"]
        for _ in range(count):
            entries += ["0 " + " ".join(str(next(at)) for _ in range(arguments + 1)), "0"]
        return files(text, "16 17 32", entries)

    return made


def items(count):
    """A global of so many given bytes, no two of which in a row are equal."""
    text = "minirust 1\nglobal g align 1 { %s}\nfn main() -> r {\nlet r: unit;\nb0 regular: exit;\n}\nmain main\n"
    return files(text % ("7 8 " * (count // 2)), f"16 {AT} 32", ["0"])
