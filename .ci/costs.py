"""What must be done within seconds, and in so much memory: long runs, each limit, texts and runs that are as slow as
may be, large memory; and a program over `mr_runs` that the compiler refuses."""
import itertools
import os
import resource
import shutil
import subprocess
import time

import hostile
import limits
from judging import PATIENCE, PROGRAM, TOP, expect, judge, read, run, short, timed, write
from made import STEPS, STORING

# A thread loads again and again what another stored before it spawned it: each load could race with the store.
LOADING = b"""minirust 1
global g align 4 { 0*4 }
fn w(p) -> r {
let p: raw, r: unit, x: u32;
b0 regular: live x; goto b1;
b1 regular: x = load(deref(global g + 0, u32)); goto b1;
}
fn main() -> r {
let r: unit, t: u32;
b0 regular: live t; deref(global g + 0, u32) = u32 1; do spawn(fn w, raw 0) -> t to b1;
b1 regular: goto b1;
}
main main
"""
# A program that reads bytes through a view, writes one, and reads again, from what has this name.
LENT = """//! Bytes that are read through a view, and written.
#![tactic(auto)]

use mr_base::AbstractByte;
use mr_runs::{OutOfMemory, Runs};

fn main(rt: HostRuntime) -> Result<(), OutOfMemory> {
    let mut runs = Runs::uninit(rt.alloc(), 8)?;
    let view = runs.view(0, 8);
    let before = view.len();
    runs.write(3, &[AbstractByte::Init(1, None)])?;
    assert!(rt; %s.len() == before);
    Ok(())
}
"""


def ordered_steps(at):
    """The races of 5,000 steps that are ordered by a spawn long before: there are none, which is told within
    seconds."""
    front = b"schedule 1\nstart 16 17 4096 64\n0 8192\n0\n0 8200 8208\n1 8216\n1\n"
    write(at, "loading.mr", LOADING)
    write(at, "loading.sched", front + b"0\n1\n" * ((STEPS - 5) // 2))
    begun = time.monotonic()
    expect("5,000 steps of two threads", ["run", "loading.mr", "loading.sched"], at, b"verdict running\nraces 0\n", 0)
    judge("their races are listed within seconds", time.monotonic() - begun < PATIENCE)


def long_runs(at):
    """A long run of one thread, and one of two threads whose steps are ordered by what they store."""
    write(at, "storing.mr", STORING)
    turns = b"start 16 17 4096 32\n0 8192\n0 33 8208\n" + b"1\n0\n" * ((1 << 19) - 1)
    for what, name, text in (("2^20 + 1 entries", "staying.mr", b"start 16 4096\n" + b"0\n" * ((1 << 20) + 1)),
                             ("2^20 steps of two threads, atomic stores", "storing.mr", turns)):
        write(at, "entries.sched", b"schedule 1\n" + text)
        timed(what, ["run", name, "entries.sched"], at, limits.RUNNING, 0)
    os.remove(f"{at}/entries.sched")


def each_limit(at):
    """Each limit of texts, programs, schedules and runs at its number, and above it."""
    for what, words, files, text, status in limits.cases():
        for name, it in files.items():
            write(at, name, it)
        timed(f"a limit: {what}", words, at, text, status)


def hostile_inputs(at):
    """Texts and runs within the limits that are as slow as may be, each in as much memory as it may take: what they
    write, and in which time."""
    plain = 0
    for case in itertools.chain(hostile.texts(), hostile.runs()):
        text, status, seconds = hostile.ran(case, PROGRAM, at)
        judge(case.what, hostile.is_well(case, text, status), f"it writes {short(text)} and ends with {status}")
        # (the first one is the plain text)
        plain = plain or seconds
        most = case.seconds or hostile.TIMES * plain
        judge(f"{case.what}: its time", seconds <= most, f"{seconds:.2f} seconds, not {most:.2f}")


def in_seconds(what, name, program, start, entries, text, status, at, room=None):
    """A run that is to end within seconds and, where `room` is given, in so many bytes of memory."""
    write(at, f"{name}.mr", program)
    write(at, f"{name}.sched", b"schedule 1\nstart %s\n%s\n" % (start, b"\n".join(entries)))
    how = {"preexec_fn": lambda: resource.setrlimit(resource.RLIMIT_AS, (room, room))} if room else {}
    begun = time.monotonic()
    wrote, ended = run(["run", f"{name}.mr", f"{name}.sched"], at, **how)
    judge(what, wrote == text and ended == status, f"it writes {short(wrote)} and ends with {ended}")
    judge(f"{what}: within seconds", time.monotonic() - begun < PATIENCE)


def large_memory(at):
    """Large allocations, many allocations, and one with many runs of bytes: their size alone costs nothing."""
    running = b"verdict running\nraces 0\n"
    main = lambda front, local, blocks: b"minirust 1\n%sfn main() -> r {\nlet r: unit%s;\n%s\n}\nmain main\n" % (front, local, blocks)
    in_seconds("2^40 bytes, of which one is written", "large", main(b"", b", p: raw",
               b"b0 regular: live p; do allocate(u64 1099511627776, u64 8) -> p to b1;\n"
               b"b1 regular: deref(load(p), u8) = u8 7; exit;"),
               b"16 32", [b"0 4096", b"0 1048576", b"0", b"0"], b"verdict leak\nraces 0\n", 1, at, room=20 << 20)
    picks = b"16 " + b" ".join(b"%d" % (n << 20) for n in range(1, 257)) + b" 4096"
    # (272 MiB hold the bytes of all the given ones, and no list of those of the last, which takes 24 MiB)
    for what, item, room in (("uninitialised", b"?", 20 << 20), ("given", b"7", 272 << 20)):
        front = b"".join(b"global g%d align 16 { %s * 1048576 }\n" % (n, item) for n in range(256))
        in_seconds(f"256 globals of 2^20 {what} bytes", f"{what}-globals", main(front, b"", b"b0 regular: exit;"), picks, [b"0"],
                   b"verdict exit\nraces 0\n", 0, at, room)
    for what, item in (("given", b"7"), ("uninitialised", b"?")):
        in_seconds(f"each second byte of 2^20 {what} ones written", f"{what}-runs", main(b"global g align 16 { %s * 1048576 }\n" % item, b", i: u64",
                   b"b0 regular: live i; i = u64 0; goto b1;\nb1 regular: deref(global g + 0, array(1048576, u8))[load(i)] = u8 9; "
                   b"i = rem(add(load(i), u64 2), u64 1048576); goto b1;"),
                   b"16 1048576 4096", [b"0 8192"] + [b"0"] * 299999, running, 0, at)
    in_seconds("100,000 allocations", "many", main(b"", b", p: raw", b"b0 regular: live p; goto b1;\n"
               b"b1 regular: do allocate(u64 8, u64 8) -> p to b1;"),
               b"16 4096", [b"0 8192", b"0"] + [b"0 %d" % ((1 << 20) + 16 * n) for n in range(100000)], running, 0, at)


def lent_bytes(at):
    """A write while a view lives isn't compiled, and the same program is that doesn't read the view behind it."""
    own = [it for it in read(f"{TOP}/crates.txt").split(b"\n") if it.partition(b":")[0] in (b"mr_base", b"mr_runs")]
    write(at, "crates.txt", b"\n".join((*own, b"lent: mr_base mr_runs", b"")))
    for crate in ("mr_base", "mr_runs"):
        for part in ("src", "specs"):
            shutil.copytree(f"{TOP}/crates/{crate}/{part}", f"{at}/crates/{crate}/{part}")
    os.makedirs(f"{at}/crates/lent/src")
    for name, is_refused in (("view", True), ("runs", False)):
        write(f"{at}/crates/lent/src", "main.rt", (LENT % name).encode())
        tried = subprocess.run(["rt", "try"], cwd=f"{at}/crates/lent", stdout=subprocess.DEVNULL, stderr=subprocess.PIPE, timeout=600)
        is_told = b"error[borrow-e0502]: cannot borrow `runs` as mutable" in tried.stderr
        judge(f"a write, and behind it {name} read", (tried.returncode != 0, is_told) == (is_refused, is_refused), short(tried.stderr))
