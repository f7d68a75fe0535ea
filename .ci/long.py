#!/usr/bin/env python3
"""The time and the memory of long runs, by the shape of what their steps do to each other.

    .ci/long.py [--counted PROGRAM [COMPANION]] [--shape WORD]
    .ci/long.py PROGRAM .. [--shape WORD] [--times N]

The first tells of each shape of .ci/shapes.py what it takes, counted and not in seconds: in two sizes, how many times as
much in the second, and how many times what a plain shape takes. Behind one that exceeds its bound stands OPEN, and why;
`.ci/outputs` judges the others. The programs are those that are built, where no others are named. The second tells, for each program and each shape, the processor seconds and the MiB of `run` at 2^17 and at 2^20 entries, and how
many times as long the second takes. Of N runs (one where it isn't given) the least is told. The schedules are those that
`auto` draws with the first program, so the threads take their turns at random; `alone` is one thread, to compare with.
"""
import os
import re
import resource
import subprocess
import sys
import tempfile

COUNTS = (1 << 17, 1 << 20)
# The most seconds that a run may take; one that takes longer is told as such.
PATIENCE = 900

HEAD = "minirust 1\n"
# A worker whose body repeats, and a main function that starts so many of them and then repeats a body of its own.
WORKER = "fn w(p) -> r {\nlet p: raw, r: unit%s;\n%s}\n"
MAIN = "fn main() -> r {\nlet r: unit, t: u32%s;\nb0 regular: live t; goto s0;\n%s%s}\nmain main\n"
# The cells of the large array, and how the next one is found.
CELLS = 100_000
NEXT = f"i = rem(add(load(i), u64 1), u64 {CELLS})"
CELL = f"deref(global a + 0, array({CELLS}, u8))[load(i)]"


def repeating(body, name="l"):
    """Blocks that repeat a body for ever: its parts, each of which goes to the next one where it ends with `%s`."""
    parts = [f"{name}{k} regular: {part};\n" for k, part in enumerate(body)]
    ends = [f"{name}{(k + 1) % len(body)}" for k in range(len(body))]
    return "".join(part.replace("@", end) for part, end in zip(parts, ends))


def program(globals_, worker, main, count=1, locals_=""):
    """A program of so many workers, and what the main function repeats beside them."""
    lives = "".join(f"live {name}; " for name in re.findall(r", (\w+):", locals_))
    sets = "".join(f"{name} = u64 0; " for name in re.findall(r", (\w+): u64", locals_))
    front = f"s regular: {lives}{sets}goto l0;\n"
    begun = WORKER % (locals_, f"b0 regular: {lives}{sets}goto l0;\n" + repeating(worker))
    starts = "".join(f"s{k} regular: do spawn(fn w, raw 0) -> t to {f's{k + 1}' if k + 1 < count else 's'};\n" for k in range(count))
    return HEAD + globals_ + begun + MAIN % (locals_, starts, front + repeating(main))


GLOBAL = "global g align 4 { 0*4 }\n"
ARRAY = GLOBAL + f"global a align 1 {{ 0*{CELLS} }}\n"
CELL_OF_G = "deref(global g + 0, u32)"
ATOMIC = "do atomic_store(global g + 0, u32 1) to @"
STORE = f"{CELL_OF_G} = u32 1; goto @"
LOAD = f"x = load({CELL_OF_G}); goto @"
TAKE = "do acquire(u32 0) to @"


def with_lock(text):
    """The same program, whose main function makes a lock first."""
    return text.replace("goto s0;", "do create_lock() -> t to s0;", 1)


def locked(threads):
    """So many threads that raise a counter under a lock."""
    raised = f"{CELL_OF_G} = add(load({CELL_OF_G}), u32 1); do release(u32 0) to @"
    text = program(GLOBAL, [TAKE, raised], [TAKE, raised], threads - 1)
    return with_lock(text)


# How many nodes each of the four threads puts into the list.
NODES = 25_000


def listing():
    """Four threads that put nodes in front of a list, under a lock; then the first one walks along the list, again and again."""
    put = "deref(load(n), raw) = load(deref(global h + 0, raw)); deref(global h + 0, raw) = load(n); do release(u32 0) to l3;"
    count = "i = add(load(i), u64 1); switch load(i) { %d => %s, _ => %s };"
    build = "l0 regular: do allocate(u64 16, u64 8) -> n to l1;\nl1 regular: do acquire(u32 0) to l2;\n"
    build += f"l2 regular: {put}\nl3 regular: {count % (NODES, 'e0', 'l0')}\n"
    begun = WORKER % (", i: u64, n: raw", f"b0 regular: live i; live n; i = u64 0; goto l0;\n{build}e0 regular: return;\n")
    joins = "".join(f"e{k} regular: do join(u32 {k + 1}) to {f'e{k + 1}' if k < 2 else 'w0'};\n" for k in range(3))
    walk = "w0 regular: i = u64 0; n = load(deref(global h + 0, raw)); goto w1;\n"
    walk += f"w1 regular: n = load(deref(load(n), raw)); {count % (4 * NODES, 'w0', 'w1')}\n"
    starts = "".join(f"s{k} regular: do spawn(fn w, raw 0) -> t to {f's{k + 1}' if k < 2 else 's'};\n" for k in range(3))
    front = "s regular: live i; live n; i = u64 0; goto l0;\n"
    text = HEAD + "global h align 8 { 0*8 }\n" + begun + MAIN % (", i: u64, n: raw", starts, front + build + joins + walk)
    return with_lock(text.replace("live t; goto", "live t; deref(global h + 0, raw) = raw 8; goto"))


def guarded(is_locked):
    """One thread writes a large array, cell by cell, and another reads it, under a lock or without."""
    take, give = ([TAKE], "do release(u32 0) to @") if is_locked else ([], "goto @")
    worker = take + [f"{CELL} = u8 1; {NEXT}; {give}"]
    main = take + [f"x = load({CELL}); {NEXT}; {give}"]
    text = program(ARRAY, worker, main, locals_=", i: u64, x: u8")
    return with_lock(text) if is_locked else text


SHAPES = {
    "one thread": HEAD + "fn main() -> r {\nlet r: unit, x: u32;\nb0 regular: live x; goto b1;\nb1 regular: x = u32 1; goto b1;\n}\nmain main\n",
    "two threads, each to locals of its own": program("", ["x = u32 1; goto @"], ["x = u32 1; goto @"], locals_=", x: u32"),
    "one atomic and two threads": program(GLOBAL, [ATOMIC], [ATOMIC]),
    "each store races": program(GLOBAL, [STORE], [STORE]),
    "one store, and loads": program(GLOBAL, [f"{CELL_OF_G} = u32 1; return"], [LOAD], locals_=", x: u32"),
    "atomics and own stores in turn": program(GLOBAL, ["x = u32 1; " + ATOMIC], ["x = u32 1; " + ATOMIC], locals_=", x: u32"),
    "an array, written and read under a lock": guarded(True),
    "an array, written and read without": guarded(False),
    "a list of 100,000 nodes, built by four threads": listing(),
    "64 threads and a lock": locked(64),
    "1,000 threads that load one cell": program(GLOBAL, [LOAD], [LOAD], 999, locals_=", x: u32"),
}


def drawn(tool, at, count):
    """The schedule that is drawn for the program."""
    answer = subprocess.run([tool, "auto", "P", "7", str(count)], cwd=at, stdout=subprocess.PIPE, timeout=PATIENCE).stdout
    lines = answer.split(b"\n")
    ends = next(k for k, line in enumerate(lines) if k > 1 and not re.fullmatch(rb"[0-9 *]+", line))
    return b"\n".join(lines[:ends]) + b"\n"


def took(tool, at):
    """The processor seconds and the MiB of a run, and its status."""
    with open(os.devnull, "wb") as nowhere:
        started = subprocess.Popen([tool, "run", "P", "S"], cwd=at, stdout=nowhere, preexec_fn=lambda: resource.setrlimit(resource.RLIMIT_CPU, (PATIENCE, PATIENCE)))
        _, status, used = os.wait4(started.pid, 0)
    return used.ru_utime + used.ru_stime, used.ru_maxrss >> 10, os.waitstatus_to_exitcode(status)


def measure(tools, name, text, times):
    with tempfile.TemporaryDirectory() as at:
        with open(f"{at}/P", "w") as it:
            it.write(text)
        figures = {tool: [] for tool in tools}
        for count in COUNTS:
            schedule = drawn(tools[0], at, count)
            with open(f"{at}/S", "wb") as it:
                it.write(schedule)
            for tool in tools:
                figures[tool].append(min(took(tool, at) for _ in range(times)))
    for tool, (short, long) in figures.items():
        times_as_long = long[0] / max(short[0], 0.001)
        print(f"{name:42} {short[0]:8.2f} s {long[0]:8.2f} s {times_as_long:6.1f} {short[1]:6} {long[1]:6} MiB  status {long[2]}  {tool}", flush=True)


def tell(programs, word):
    """What each shape of shapes.py takes, or each with the word in its name."""
    import shapes
    named = {name: os.path.abspath(path) for name, path in zip(shapes.PROGRAMS, programs)}
    known = {**shapes.PROGRAMS, **named}
    missing = [path for path in known.values() if not os.path.isfile(path)]
    if missing:
        sys.exit(f"long: no program {' and '.join(missing)}")
    for line in shapes.told(known, word):
        print(line, flush=True)


def main():
    words, word, times = list(sys.argv[1:]), "", 1
    while "--shape" in words:
        at = words.index("--shape")
        word = words[at + 1]
        del words[at:at + 2]
    while "--times" in words:
        at = words.index("--times")
        times = int(words[at + 1])
        del words[at:at + 2]
    if words[:1] in ([], ["--counted"]):
        return tell(words[1:], word)
    tools = [os.path.abspath(it) for it in words]
    for name, text in SHAPES.items():
        if word in name:
            measure(tools, name, text, times)


if __name__ == "__main__":
    main()
