#!/usr/bin/env python3
"""What long runs and long texts take: the figures of docs/SPEED.md.

    .ci/speed.py [PROGRAM [WORDS [TIMES]]]

writes a row of that page's table for each case, or for those with the words in their name. The seconds are processor
seconds of the whole run, the least of so many (3). The memory is the most that was resident; what is less than this
script itself takes isn't told apart. Before the rows a line tells the processor. A case whose answer isn't the wanted
one is told in place of its figures.
"""
import collections
import concurrent.futures
import os
import subprocess
import sys
import tempfile

sys.dont_write_bytecode = True
import hostile  # noqa: E402
from limits import RUNNING, STAYING, program  # noqa: E402

TOP = os.path.dirname(os.path.dirname(os.path.abspath(__file__)))
PROGRAM = f"{TOP}/crates/mirace/out/mirace"
TIMES = 3
# What is tried: the words of the command over the files P, S and T; the files; what the text that is written must end
# with, and the status; and the words of a command whose output is the file T.
Case = collections.namedtuple("Case", "what words files end status before", defaults=(RUNNING, 0, None))

MILLION, MOST = 1000000, 1 << 22
WITH_LOCAL = program(b"", b", x: u32", b"b0 regular: live x; goto b1;\nb1 regular: x = u32 1; goto b1;")
CALLING = program(b"fn f(n) -> r {\nlet n: u32, r: unit;\nb0 regular: return;\n}\n", b", u: unit",
                  b"b0 regular: live u; goto b1;\nb1 regular: call fn f(u32 1) -> u to b1;")
# Two threads that go on for ever; what each does in its loop stands in the two places.
TWO = b"""minirust 1
global g align 4 { 0*4 }
fn w(p) -> r {
let p: raw, r: unit, x: u32;
b0 regular: live x; goto b1;
b1 regular: %s;
}
fn main() -> r {
let r: unit, t: u32, x: u32;
b0 regular: live t; live x; do spawn(fn w, raw 0) -> t to b1;
b1 regular: %s;
}
main main
"""
BARE = TWO % (b"goto b1", b"goto b1")
LOCALS = TWO % (b"x = u32 1; goto b1", b"x = u32 1; goto b1")
ATOMIC = TWO % (b"do atomic_store(global g + 0, i32 1) to b1", b"do atomic_store(global g + 0, i32 1) to b1")
# The start of TWO, the steps up to both loops, and turns of the two threads.
TWO_START = b"16 17 4096 32"
TWO_FRONT = b"0 8192\n0 8200\n0 33 8208\n1 8216\n1\n"


def schedule(start, entries, version=1):
    return b"schedule %d\nstart %s\n%s" % (version, start, entries)


def turns(count, version=1):
    """A schedule of TWO with so many entries, in which the threads take turns."""
    return schedule(TWO_START, TWO_FRONT + b"0\n1\n" * ((count - 5) // 2), version)


def over_global(size, by):
    """A loop that writes to a global of so many bytes, each time so many bytes further on."""
    loop = b"deref(global g + 0, array(%d, u8))[load(i)] = u8 9; i = rem(add(load(i), u64 %d), u64 %d); goto b1;"
    blocks = b"b0 regular: live i; i = u64 0; goto b1;\nb1 regular: " + loop % (size, by, size)
    return program(b"global g align 16 { 0*%d }\n" % size, b", i: u64", blocks)


def of_one_thread():
    alone = schedule(b"16 4096", b"0 8192\n" + b"0\n" * (MILLION - 1))
    staying = schedule(b"16 4096", b"0\n" * MILLION)
    yield Case("`run` of a loop of one `goto`, 1,000,000 entries", "run P S", {"P": STAYING, "S": staying})
    yield Case("`run` of a loop that stores to a local, 1,000,000 entries", "run P S", {"P": WITH_LOCAL, "S": alone})
    for size in (64, 1 << 20):
        entries = schedule(b"16 1048576 4096", b"0 8192\n" + b"0\n" * (MILLION - 1))
        yield Case(f"`run` of a loop over a global of {size:,} bytes, a byte each time, 1,000,000 entries", "run P S",
                   {"P": over_global(size, 1), "S": entries})
    for count in (100000, MILLION):
        entries = schedule(b"16 1048576 4096", b"0 8192\n" + b"0\n" * (count - 1))
        yield Case(f"`run` of a loop that writes each second byte of 1,048,576, {count:,} entries", "run P S",
                   {"P": over_global(1 << 20, 2), "S": entries})
    for count in (10000, 100000, 900000):
        entries = b"".join(b"0 %d\n" % ((1 << 20) + 16 * n) for n in range(count))
        yield Case(f"`run` of a loop that allocates 8 bytes, {count:,} times", "run P S",
                   {"P": hostile.ALLOCATING, "S": schedule(b"16 4096", b"0 8192\n0\n" + entries)})
    for count in (10000, 100000):
        entries = b"".join(b"0 33 %d\n0\n" % ((1 << 20) + 16 * n) for n in range(count))
        yield Case(f"`run` of {count:,} calls in a loop", "run P S",
                   {"P": CALLING, "S": schedule(b"16 17 4096", b"0 34\n0\n" + entries)})


def of_large_memory():
    exited = b"verdict exit\nraces 0\n"
    for what, item in (("uninitialised", b"?"), ("given", b"7")):
        front = b"".join(b"global g%d align 16 { %s * 1048576 }\n" % (n, item) for n in range(256))
        picks = b"16 " + b" ".join(b"%d" % (n << 20) for n in range(1, 257)) + b" 4096"
        yield Case(f"the start of 256 globals of 1,048,576 {what} bytes each", "run P S",
                   {"P": program(front), "S": schedule(picks, b"0\n")}, exited)
    far = program(b"", b", p: raw", b"b0 regular: live p; do allocate(u64 1099511627776, u64 8) -> p to b1;\n"
                  b"b1 regular: deref(load(p), u8) = u8 7; exit;")
    yield Case("a store to one byte of 2^40 that are allocated", "run P S",
               {"P": far, "S": schedule(b"16 32", b"0 4096\n0 1048576\n0\n0\n")}, b"verdict leak\nraces 0\n", 1)


def traced(what, text, count):
    """A run whose footprints are written, and the races of what was written."""
    files = {"P": text, "S": turns(count)}
    yield Case(f"`trace` of {what}, {count:,} entries", "trace P S", files, None)
    yield Case(f"`offline` of the trace of {what}, {count:,} entries", "offline T", files, b"races 0\n", 0, "trace P S")


def of_two_threads():
    locals_of_two, bare, atomic = "two threads that store to locals", "two threads that loop without accesses", (
        "two threads that store atomically to one global")
    yield Case(f"`run` of {locals_of_two}, 1,000,000 entries", "run P S", {"P": LOCALS, "S": turns(MILLION)})
    yield Case(f"`auto` with {bare}, 1,048,576 entries", "auto P 7 1048576", {"P": BARE})
    yield Case(f"`auto` with {locals_of_two}, 1,048,576 entries", "auto P 7 1048576", {"P": LOCALS})
    for count in (1 << 20, MOST):
        files = {"P": ATOMIC, "S": turns(count)}
        for command in ("run P S", "short P S", "shuffle P S 7"):
            yield Case(f"`{command.split()[0]}` of {atomic}, {count:,} entries", command, files)
    yield Case(f"`run` of {atomic}, in version 2, {MOST:,} entries", "run P S", {"P": ATOMIC, "S": turns(MOST, 2)})
    for count in (1 << 20, 3579000):
        yield from traced(atomic, ATOMIC, count)
    yield Case(f"`run` of {bare}, {MOST:,} entries", "run P S", {"P": BARE, "S": turns(MOST)})
    yield from traced(bare, BARE, MOST)
    waiting = list(hostile.made_waiting()) + list(hostile.handed_on(1000))
    yield Case("`run` of 1,022 threads that wait for one lock, handed on 1,000 times", "run P S",
               {"P": hostile.WAITING, "S": schedule(hostile.WAITING_START, b"\n".join(waiting) + b"\n")})


def of_schedules():
    one = schedule(b"16 4096", b"0\n" * MOST)
    two = schedule(b"16 4096", b"0*%d\n" % MOST, 2)
    for version, text in ((1, one), (2, two)):
        files = {"P": STAYING, "S": text}
        yield Case(f"`run` of a loop of one `goto`, in version {version}, {MOST:,} entries", "run P S", files)
        yield Case(f"`upgrade` of its schedule in version {version}, {MOST:,} entries", "upgrade S", {"S": text}, two)
    files = {"S": turns(MOST)}
    yield Case(f"`upgrade` of a schedule whose threads take turns, {MOST:,} entries", "upgrade S", files, None)


def of_texts():
    """Texts of nearly 2^20 bytes, which repeat one thing as often as goes into them."""
    wide = dict(hostile.WIDE)
    for what in ("statements", "chunks under an array", "fields", "tags beside fields", "variants", "cases of a switch",
                 "cases of a tree"):
        yield Case(f"`check` of a text of {what}", "check P", {"P": hostile.widest(wide[what])}, None)


def cases():
    for part in (of_one_thread, of_large_memory, of_two_threads, of_schedules, of_texts):
        yield from part()


def ran(path, words, at, name):
    """The status of a command, its processor seconds and its most resident memory in MiB. What it writes is a file."""
    with open(f"{at}/{name}", "wb") as written:
        started = subprocess.Popen([path, *words.split()], cwd=at, stdin=subprocess.DEVNULL, stdout=written)
        _, status, used = os.wait4(started.pid, 0)
    return os.waitstatus_to_exitcode(status), used.ru_utime + used.ru_stime, used.ru_maxrss / 1024


def size(files, words):
    """The bytes of the file that the command is about: its schedule or trace, or else its program."""
    count = len(files[next(it for it in "TSP" if it in words.split())])
    for unit, many in (("MB", 1e6), ("kB", 1e3)):
        if count >= many:
            return f"{count / many:.1f} {unit}"
    return f"{count} bytes"


def row(case, path, times, at, apart, least):
    """A row of the table. The runs are made in another process, which never held the files: so a run begins small."""
    ran_apart = lambda words, name: apart.submit(ran, path, words, at, name).result()
    files = dict(case.files)
    for name, text in files.items():
        with open(f"{at}/{name}", "wb") as it:
            it.write(text)
    if case.before:
        ran_apart(case.before, "T")
        files["T"] = bytes(os.path.getsize(f"{at}/T"))
    found = [ran_apart(case.words, "written") for _ in range(times)]
    with open(f"{at}/written", "rb") as it:
        if case.end is not None:
            it.seek(max(os.path.getsize(f"{at}/written") - len(case.end), 0))
        text = it.read()
    if any(status != case.status for status, _, _ in found) or case.end not in (None, text):
        return f"{case.what}: UNLIKE: status {found[0][0]}, {text[-80:]!r}"
    seconds, memory = min(it[1] for it in found), max(it[2] for it in found)
    room = f"{memory:,.0f}" if memory > least + 1 else f"below {least:.0f}"
    return f"| {case.what} | {size(files, case.words)} | {seconds:.2f} | {room} MiB |"


def processor():
    """The name of the processor, and how many there are."""
    with open("/proc/cpuinfo") as it:
        names = [line.partition(":")[2].strip() for line in it if line.startswith("model name")]
    return f"{len(names)} of {names[0]}" if names else "of an unknown processor"


def main(path=PROGRAM, word="", times=TIMES):
    print(f"# {processor()}; the least of {times}")
    print("| what | size | seconds | memory |\n|---|---|---|---|", flush=True)
    path = os.path.abspath(path)
    with tempfile.TemporaryDirectory() as at, concurrent.futures.ProcessPoolExecutor(1) as apart:
        least = apart.submit(ran, path, "--help", at, "written").result()[2]
        for case in cases():
            if word in case.what:
                print(row(case, path, int(times), at, apart, least), flush=True)


if __name__ == "__main__":
    main(*sys.argv[1:])
