"""Runs of small programs, and races of steps that are made by hand, as the built programs tell them; rows.py goes
through the rows.

- PIECES: the first block of a program, a schedule, and what the run comes to. HALVES: what a run, its trace and its
  two witnesses show.
- WITNESSES: programs with a race, the entries of its witness and of the short one. (What other orders are drawn is
  in `mirace_cases`.)
- BESIDE and LIMITS: steps in the language of examples/trace: two accesses that race or don't; numbers at their
  limits, and above.
"""
import companion

# What stands before and behind the first block: a global that points to its own last four bytes, the main function,
# and a block that exits.
HEAD = "minirust 1\nglobal g align 8 { &g + 8 7*4 }\nfn main() -> r {\nlet r: unit, x: u32;\nb0 regular: "
TAIL = "\nb1 regular: exit;\n}\nmain main\n"
# A start and three steps, of which the first makes a local.
LIVE = "16 32 64\n0 8192\n0\n0\n"
PIECES = (
    # A program exits, and takes no entry behind that.
    ("exit;", "16 32 4096\n0\n", "verdict exit"),
    ("exit;", "16 32 4096\n0\n0\n", "schedule 4 66 AfterStop"),
    # A start without an address for the return local.
    ("exit;", "16 32\n0\n", "schedule 2 61 MissingPick"),
    ("exit;", "16 32 4096\n1\n", "schedule 3 60 NotEnabled"),
    ("exit;", "16 32 4096\n0 5\n", "schedule 3 62 ExtraPick"),
    # An address is aligned, and taken once.
    ("live x; dead x; live x; exit;", "16 32 64\n0 8193\n", "schedule 3 63 BadAddress"),
    ("live x; dead x; live x; exit;", "16 32 64\n0 8192\n0\n0 8192\n", "schedule 5 64 Reused 0 3"),
    # A dead local has no place: to store into, and to evaluate.
    ("x = u32 7; exit;", "16 32 64\n0\n", "verdict undefined 102 DeadLocal"),
    ("live x; dead x; mention x; exit;", "16 32 64\n0 8192\n0\n0\n", "verdict undefined 102 DeadLocal"),
    # The main function does not return.
    ("return;", "16 32 64\n0\n", "verdict undefined 120 MainReturned"),
    # A print is kept; what is stored is loaded.
    ("live x; x = u32 7; do print(load(x), true, i8 -5) to b1;", LIVE, "> 7 true -5\nverdict running"),
    # A place is the pointer to the storage of its local: its address, and its provenance, through which the 7 is
    # loaded.
    ("live x; x = u32 7; do print(eq(addrof(raw, x), raw 8192), load(deref(addrof(raw, x), u32)), load(x)) to b1;",
     LIVE, "> true 7 7\nverdict running"),
    # A typed store through a pointer is what the local holds.
    ("live x; deref(addrof(raw, x), u32) = u32 7; do print(load(x)) to b1;", LIVE, "> 7\nverdict running"),
    # A print without arguments is an empty line.
    ("do print() to b1;", "16 32 64\n0\n", "> \nverdict running"),
    # A global holds a pointer.
    ("do print(load(deref(load(deref(global g + 0, raw)), u32))) to b1;", "16 32 64\n0\n",
     "> 117901063\nverdict running"),
    # An address alone gives no access.
    ("do print(load(deref(raw 32, u32))) to b1;", "16 32 64\n0\n", "verdict undefined 104 NoProvenance"),
    # The case of the number is taken.
    ("switch u32 7 { 8 => b0, 7 => b1, _ => b0 };", "16 32 64\n0\n0\n", "verdict exit"),
    # What is assumed is true.
    ("do assume(false) to b1;", "16 32 64\n0\n", "verdict undefined 124 AssumeFalse"),
    ("do assume(true) to b1;", "16 32 64\n0\n", "verdict running"),
)
# Two threads store one byte each of a number, and main loads both. Nothing is stored there before.
HALVES = """minirust 1
global halves align 2 { ?*2 }
fn low(p) -> r {
let p: raw, r: unit;
b0 regular: deref(global halves + 0, u8) = u8 1; return;
}
fn high(p) -> r {
let p: raw, r: unit;
b0 regular: deref(global halves + 1, u8) = u8 2; return;
}
fn main() -> r {
let r: unit, t: u32, x: u16;
b0 regular: live t; live x; do spawn(fn low, raw 0) -> t to b1;
b1 regular: do spawn(fn high, raw 0) -> t to b2;
b2 regular: x = load(deref(global halves + 0, u16)); do print(load(x)) to b3;
b3 regular: exit;
}
main main
"""
HALVES_START, HALVES_SPAWNS = "schedule 1\nstart 16 17 18 4096 32\n", ("0 8192", "0 8200", "0 33 8208", "0 34 8216")
# The entries behind the spawns, or all of them where one is refused; the prints and the verdict; the races; the
# threads of the witness and of the short one behind the spawns.
HALVES_RUNS = (
    # The load races with the second thread's store.
    ("1 1 2 2 0 0 0", "> 513\nverdict exit\n", ((7, 9),), "1 1 2 0", "1 2 0"),
    # Right behind the store, the race stops the machine.
    ("1 2 0", "verdict undefined 100 DataRace\n", ((6, 7),), "1 2 0", "1 2 0"),
)
# A whole schedule, and the report.
HALVES_REPORTS = (
    # No entry: no step.
    (HALVES_START, "verdict running\nraces 0\n", 0),
    # The start line has one address too few.
    ("schedule 1\nstart 16 17 18 4096\n0 8192\n", "schedule 2 61 MissingPick\n", 5),
    # The third entry is of a thread that isn't there.
    (f"{HALVES_START}0 8192\n0 8200\n1\n", "schedule 5 60 NotEnabled\n", 5),
)
# Two threads store, one of them beside, and then main does.
BESIDES = """minirust 1
global g align 8 { 0*16 }
fn one(p) -> r {
let p: raw, r: unit;
b0 regular: deref(global g + 0, u8) = u8 1; return;
}
fn two(p) -> r {
let p: raw, r: unit;
b0 regular: deref(global g + 8, u8) = u8 2; return;
}
fn main() -> r {
let r: unit, t: u32;
b0 regular: live t; do spawn(fn one, raw 0) -> t to b1;
b1 regular: do spawn(fn two, raw 0) -> t to b2;
b2 regular: deref(global g + 0, u8) = u8 %s; exit;
}
main main
"""
BESIDES_START = ("schedule 1\nstart 16 17 18 4096 32", "0 8192", "0 33 8208", "0 34 8216")
# The threads behind the spawns, and those of the witness, whose last two steps race, and of the short one. What a
# third thread did beside stands in front of both, and is left out of the short one.
WITNESSES = (("2 1 0", "2 1 0", "1 0"), ("2 2 1 1 0", "2 2 1 0", "1 0"), ("1 2 0", "2 1 0", "1 0"))
# Accesses of two steps that nothing orders, and whether they race.
BESIDE = (
    ("store 16 4", "load 19 1", True),
    ("store 16 4", "load 20 1", False),
    ("store 16 4", "load 12 4", False),
    ("store 16 4", "load 12 5", True),
    ("store 16 4", "atomic load 16 4", True),
    ("store 16 4", "store 0 18446744073709551615", True),
    ("atomic store 16 4", "atomic store 16 4", False),
    ("load 16 4", "load 16 4", False),
    ("store 60 24", "load 80 4", True),
    ("load 80 4", "store 60 24", True),
    ("load 60 24", "load 80 4", False),
    ("store 60 24", "load 84 4", False),
)
# A step at a limit, and a number of it in so many bytes that takes the place of another.
LIMITS = (
    ("1023", 4, 1023, 1024),
    ("0: create lock 4095", 4, 4095, 4096),
    ("0: acquire 4095", 4, 4095, 4096),
    ("0: release 4095", 4, 4095, 4096),
    ("0: spawn 1023", 4, 1023, 1024),
    ("0: join 1023", 4, 1023, 1024),
    ("0: wakes 2; wakes 1023", 4, 1023, 1024),
    ("0: wakes 2; wakes 1023", 4, 1023, 2),
    ("0: wakes 2; wakes 1023", 4, 1023, 1),
    ("0: allocates 1023 5", 4, 1023, 1024),
    ("0: frees 1023 5", 4, 1023, 1024),
    ("0: touches 1023 5", 4, 1023, 1024),
    ("0: load 0 7777", 8, 7777, 0),
    ("0: load 18446744073709543839 7777", 8, 7777, 7778),
    ("0: load 7777 18446744073709543839", 8, 7777, 7778),
    ("0: load 0 18446744073709551615", 8, 0xFFFFFFFFFFFFFFFF, 0),
)


def pieces(bench):
    """What each of the small runs comes to."""
    for piece, lines, wanted in PIECES:
        text, status = f"{wanted}\nraces 0\n", int("undefined" in wanted)
        if "verdict" not in wanted:
            text, status = f"{wanted}\n", 5
        program, schedule = HEAD + piece + TAIL, "schedule 1\nstart " + lines
        bench.expect(f"{piece} under {lines!r}", "run P S", text, status, P=program, S=schedule)


def witness_of(races, start, entries):
    """The races of a report and the witness of the first one."""
    lines = "".join(f"race {one} {other}\n" for one, other in races)
    return f"races {len(races)}\n{lines}witness {len(entries)}\n{start}" + "".join(f"{it}\n" for it in entries)


def traced(bench, what, program, schedule, wanted):
    """The trace of a run, and its races."""
    trace, status = bench.ran("trace P S", P=program, S=schedule)
    bench.judge(f"{what}: its trace", status == 0, f"{status}")
    bench.expect(f"{what}: the races of its trace", "offline T", wanted, int(wanted != "races 0\n"), T=trace)


def halves(bench):
    """What is told of the runs of one program, by each command."""
    for threads, told, races, kept, few in HALVES_RUNS:
        schedule = HALVES_START + "".join(f"{it}\n" for it in (*HALVES_SPAWNS, *threads.split()))
        listed = f"races {len(races)}\n" + "".join(f"race {one} {other}\n" for one, other in races)
        for command, behind in (("run", kept), ("short", few)):
            text = told + witness_of(races, HALVES_START, [*HALVES_SPAWNS, *behind.split()])
            bench.expect(f"halves, {command}, {threads}", f"{command} P S", text, 1, P=HALVES, S=schedule)
        traced(bench, f"halves, {threads}", HALVES, schedule, listed)
    for schedule, text, status in HALVES_REPORTS:
        for command in ("run", "short"):
            bench.expect(f"halves, {command}, {schedule!r}", f"{command} P S", text, status, P=HALVES, S=schedule)
    traced(bench, "halves without an entry", HALVES, HALVES_START, "races 0\n")


def witnesses(bench):
    """The witness of the first race, and the short one."""
    start, *spawns = BESIDES_START
    for threads, kept, few in WITNESSES:
        schedule = "".join(f"{it}\n" for it in (start, *spawns, *threads.split()))
        for command, behind in (("run", kept), ("short", few)):
            wrote, status = bench.ran(f"{command} P S", P=BESIDES % 9, S=schedule)
            wanted = "".join(f"{it}\n" for it in (start, *spawns, *behind.split())).encode()
            is_well = status == 1 and wrote.endswith(b"witness %d\n" % (3 + len(behind.split())) + wanted)
            bench.judge(f"the witness of {threads} by {command}", is_well, f"{wanted} is wanted, not {wrote}")


def steps(bench):
    """Two accesses that nothing orders; and steps at their limits, and above them."""
    script = companion.trace_script()
    for one, other, is_race in BESIDE:
        for first, second in ((one, other), (other, one)):
            trace = script.encode(f"thread 1: {first}\nthread 2: {second}\n")
            text = "races 1\nrace 1 2\n" if is_race else "races 0\n"
            bench.expect(f"{first} beside {second}", "offline T", text, int(is_race), T=trace)
    for line, width, number, other in LIMITS:
        trace = script.encode(f"thread {line}\n")
        old, new = number.to_bytes(width, "little"), other.to_bytes(width, "little")
        at = trace.index(old, 9)
        bench.expect(f"a step at its limit: {line}", "offline T", "races 0\n", 0, T=trace)
        wrote, status = bench.ran("offline T", T=trace[:at] + new + trace[at + width:])
        told = [f"trace {place} 71 BadField\n".encode() for place in (at, at + 8)]
        what = f"{line}, and {other} in place of {number}"
        bench.judge(what, wrote in told and status == 9, f"{wrote} and {status}, at {at}")


def compare(bench):
    """All of them."""
    pieces(bench)
    halves(bench)
    witnesses(bench)
    steps(bench)
