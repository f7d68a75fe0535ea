"""The files that the parts of .ci/outputs find in their folders, and programs that several of them run."""
import os

import limits
from judging import EXAMPLES, run, write

# A program that prints a number of 39 digits at each step, and the line that it prints.
PRINTING = b"minirust 1\nfn main() -> r {\nlet r: unit;\nb0 regular: do print(u128 %d) to b0;\n}\nmain main\n" % (2**128 - 1)
PRINTED = b"> %d\n" % (2**128 - 1)
STEPS = 5000
# Two threads that store atomically to one global, for ever.
STORING = b"""minirust 1
global g align 4 { 0*4 }
fn w(p) -> r {
let p: raw, r: unit;
b0 regular: do atomic_store(global g + 0, i32 1) to b0;
}
fn main() -> r {
let r: unit, t: u32;
b0 regular: live t; do spawn(fn w, raw 0) -> t to b1;
b1 regular: do atomic_store(global g + 0, i32 1) to b1;
}
main main
"""
# The bytes of a run without a completed step.
NO_STEPS = b"MRTR\x01\0\0\0\0"


def steps(count):
    """A schedule of PRINTING whose first 4,096 bytes end behind a line."""
    return b"schedule 1\nstart 1 16\n" + b"0\n" * count


def make_files(at):
    write(at, "empty", b"")
    write(at, "printing.mr", PRINTING)
    write(at, "printing.sched", steps(STEPS))
    write(at, "cut.sched", steps(STEPS)[:4096])
    write(at, "spaces.mr", b" " * (3 << 20))
    # 3 MiB but for the last byte
    picks = b"schedule 1\nstart 16"
    picks += b" 1" * (((3 << 20) - len(picks)) // 2)
    write(at, "whole.sched", picks + b"\n")
    write(at, "unended.sched", picks + b"1")
    # 5 MiB
    write(at, "wide.sched", picks + b" 1" * (1 << 20) + b"\n")
    write(at, "x" * 250, b"")
    write(at, "x", PRINTING)
    write(at, "many.sched", steps(30000))
    write(at, "none.trace", NO_STEPS)
    write(at, "no-entries.sched", b"schedule 1\nstart 16 4096\n")
    write(at, "staying.mr", limits.STAYING)
    write(at, "race.trace", run(["trace", f"{EXAMPLES}/race.mr", f"{EXAMPLES}/race.sched"], at)[0])
    os.mkdir(f"{at}/folder")
