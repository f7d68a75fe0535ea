"""What `trace` writes and `offline` reads, beside the script of examples/trace/ and the threads that are recorded
there; and what the companion tells of traces, beside told.py."""
import importlib.util
import os
import random
import re
import resource
import shutil
import subprocess
import sys
import time

import companion
import pictures
import plain
import told
from judging import CASES, EXAMPLES, PATIENCE, expect, judge, report_parts, run, short, stored_runs, write
from made import NO_STEPS, STORING

TRACES = f"{EXAMPLES}/trace"


def trace_script():
    """The module of examples/trace/trace.py."""
    spec = importlib.util.spec_from_file_location("trace_script", f"{TRACES}/trace.py")
    module = importlib.util.module_from_spec(spec)
    sys.dont_write_bytecode = True
    spec.loader.exec_module(module)
    return module


def offline(what, trace, text, status, at):
    write(at, "run.trace", trace)
    expect(what, ["offline", "run.trace"], at, text, status)


def fault_of(script, trace):
    """The line of a trace's fault by the script, or nothing."""
    try:
        script.decode(trace)
    except script.NoTrace as fault:
        return f"{fault}\n".encode()
    return b""


def traces_of_runs(at, script):
    """The trace of each stored run has its races, and is read and written by the script."""
    count = 0
    for program, schedule, report, _ in stored_runs():
        what = f"{program[len(CASES) + 1:]} under {schedule[len(CASES) + 1:]}"
        trace, status = run(["trace", program, schedule], at)
        races = report_parts(report)[2]
        judge(f"{what}: its trace", status == 0 and fault_of(script, trace) == b"" and script.encode(script.decode(trace)) == trace, short(trace))
        offline(f"{what}: the races of its trace", trace, races, int(races != b"races 0\n"), at)
        told = plain.listed([script.step_of(line) for line in script.decode(trace).splitlines()])
        judge(f"{what}: its races by their definition", told == races, short(told))
        count += 1
    judge("traces of stored runs", count > 800, f"{count} of them")


def changed_traces(at, script):
    """Each byte of three traces with other values, and each part from their fronts: a fault by the script is the same
    one of `offline`, with status 9; else races are listed. What is cut has always a fault."""
    races = re.compile(rb"races (0|[1-9][0-9]*)\n(race [0-9]+ [0-9]+\n)*")
    for name in ("print", "lock", "races/worked-stores"):
        trace, _ = run(["trace", f"{CASES}/{name}.mr", f"{CASES}/{name}.sched"], at)
        # (the first steps are enough: a trace of so few, which has more behind them no more)
        if len(trace) > 1000:
            steps = script.decode(trace).split("\n")[:8]
            trace = script.encode("\n".join(steps) + "\n")
        faults = 0
        for k in range(len(trace)):
            for more in (1, 85, 128):
                changed = trace[:k] + bytes([(trace[k] + more) % 256]) + trace[k + 1:]
                write(at, "changed.trace", changed)
                wrote, ended = run(["offline", "changed.trace"], at)
                fault = fault_of(script, changed)
                faults += bool(fault)
                count = races.fullmatch(wrote)
                is_listed = count and ended == int(count[1] != b"0") and wrote.count(b"\n") == int(count[1]) + 1
                is_right = (wrote, ended) == (fault, 9) if fault else is_listed
                judge(f"{name}: the byte at {k} of its trace and {more} more", is_right, f"{short(wrote)} and {ended}")
            wanted = b"trace %d 72 Truncated\n" % k if k > 4 else b"trace 0 70 BadMagic\n"
            offline(f"{name}: the first {k} bytes of its trace", trace[:k], wanted, 9, at)
        offline(f"{name}: its trace and a byte", trace + b"\0", b"trace %d 73 Trailing\n" % len(trace), 9, at)
        judge(f"{name}: changed traces with and without a fault", 0 < faults < 3 * len(trace), f"{faults} of {3 * len(trace)}")


def claimed_traces(at):
    """Counts that no file could hold take neither time nor memory."""
    room = 64 << 20
    limit = lambda: resource.setrlimit(resource.RLIMIT_AS, (room, room))
    front = b"MRTR\x01\1\0\0\0" + b"\0" * 6
    for lists in range(5):
        for count in (1 << 63, (1 << 63) - 1, (1 << 64) - 1, 1 << 40):
            trace = front + b"\0" * (8 * lists) + count.to_bytes(8, "little")
            write(at, "claimed.trace", trace)
            begun = time.monotonic()
            wrote, ended = run(["offline", "claimed.trace"], at, preexec_fn=limit)
            judge(f"a count of {count} in list {lists} of a trace", (wrote, ended) == (b"trace %d 72 Truncated\n" % len(trace), 9), short(wrote))
            judge(f"a count of {count} in list {lists} of a trace: at once", time.monotonic() - begun < PATIENCE / 4)
    write(at, "claimed.trace", b"MRTR\x01\0\0\x40\0")
    expect("a trace that claims 2^22 steps", ["offline", "claimed.trace"], at, b"trace 9 72 Truncated\n", 9)
    write(at, "claimed.trace", b"MRTR\x01\1\0\x40\0")
    expect("a trace that claims 2^22 + 1 steps", ["offline", "claimed.trace"], at, b"trace 5 71 BadField\n", 9)


def long_trace(at):
    """The trace of a run of 2^20 entries of two threads, atomic stores."""
    schedule = b"schedule 1\nstart 16 17 4096 32\n0 8192\n0 33 8208\n" + b"1\n0\n" * ((1 << 19) - 1)
    write(at, "storing.mr", STORING)
    write(at, "storing.sched", schedule)
    begun = time.monotonic()
    trace, status = run(["trace", "storing.mr", "storing.sched"], at)
    # (a step has 46 bytes, each access 17, each identity 12)
    judge("the trace of 2^20 steps", status == 0 and trace[:9] == b"MRTR\x01\0\0\x10\0" and len(trace) > (46 + 17) << 20, short(trace[:20]))
    offline("the races of the trace of 2^20 steps", trace, b"races 0\n", 0, at)
    judge("they are listed within seconds", time.monotonic() - begun < PATIENCE)
    offline("the same without its last byte", trace[:-1], b"trace %d 72 Truncated\n" % (len(trace) - 1), 9, at)
    os.remove(f"{at}/run.trace")
    os.remove(f"{at}/storing.sched")


def long_traces(at):
    """A trace has at most 2^28 bytes; the bytes behind that are told before all else."""
    with open(f"{at}/long.trace", "wb") as it:
        it.write(NO_STEPS)
        it.truncate((1 << 28) + 1)
    expect("2^28 + 1 bytes", ["offline", "long.trace"], at, b"trace 0 74 TooLong\n", 9)
    os.truncate(f"{at}/long.trace", 1 << 28)
    expect("2^28 bytes", ["offline", "long.trace"], at, b"trace 9 73 Trailing\n", 9)
    os.remove(f"{at}/long.trace")


def traces(at):
    """What `trace` writes and `offline` reads."""
    script = trace_script()
    traces_of_runs(at, script)
    changed_traces(at, script)
    claimed_traces(at)
    long_trace(at)
    long_traces(at)


def drawn_places(draw, steps):
    """A file of places of so many steps, in any order: names of any bytes, and numbers, some of which no name has."""
    byte = [it for it in range(256) if it != ord("\n")]
    lines = [b"name " + bytes(draw.choices(byte, k=draw.randrange(6))) for _ in range(5)]
    numbers = lambda: draw.choices(range(7), k=draw.choice((1, 2)))
    lines += [b" ".join(b"%d" % it for it in numbers()) for _ in range(steps)]
    lines += [b""] * draw.randrange(3)
    draw.shuffle(lines)
    return b"\n".join([b"places 2", *lines])


def expect_told(what, words, at, text, status):
    """The companion writes this text, and ends with this status."""
    wrote, ended = companion.ran(words.split(), at)
    judge(f"{what}: {words}", (wrote, ended) == (text, status), f"{short(text)} and {status}, not {short(wrote)} and {ended}")


def drawn_trace(what, named, at, first, last, status):
    """A picture of these steps of a trace, counted from 1: each with what told.py tells of it; all lies in its view box,
    no two texts overlap, and no link comes near a foreign mark."""
    words = f"picture run.trace run.places {first} {last}"
    wrote, ended = companion.ran(words.split(), at)
    picture, begin = pictures.Picture(wrote), min(max(first - 1, 0), len(named.steps))
    span = range(begin, min(max(last, begin), len(named.steps), begin + 500))
    titles = [it for it in picture.titled("step") + picture.titled("racing") if ", thread " in it.partition("\n")[0]]
    wanted = sorted(named.title(k, span) for k in span)
    judge(f"{what}: {words}", ended == status and sorted(set(titles)) == wanted, f"{sorted(titles)[:2]}, not {wanted[:2]}")
    wrong = [*picture.unknown(), *pictures.is_within(picture), *pictures.overlaps(picture), *pictures.too_near(picture)]
    judge(f"{what}: {words}: its marks", not wrong, f"{wrong[:3]}")


def changed_places(at, script):
    """Each byte of a file of places with other values, and each part from its front: its fault, or what is told."""
    steps = "thread 0: spawn 1; wakes 1\nthread 0: store 16 4\nthread 1: load 16 8; atomic store 64 1; ends\n"
    write(at, "few.trace", script.encode(steps))
    steps, races = [script.step_of(line) for line in steps.splitlines()], [(1, 2)]
    text, faults, count = b"places 2\nname a b\nname c\n\n0\n1 0\n4294967295 10\n", 0, 0
    changed = [text[:k] + it + text[k + 1:] for k in range(len(text)) for it in (b" ", b"\n", b"0", b"9", b"x", b"\xe9")]
    for other in [*changed, *(text[:k] for k in range(len(text) + 1)), text * 2, text + b"0"]:
        try:
            wanted = told.Told(steps, races, other).races_text(), 1
        except told.NoPlaces as fault:
            wanted, faults = (fault.args[0], 9), faults + 1
        write(at, "few.places", other)
        expect_told(f"places {other!r}", "races few.trace few.places", at, *wanted)
        count += 1
    judge("changed places with and without a fault", 0 < faults < count, f"{faults} of {count}")


def told_traces(at):
    """The companion tells the trace of each stored run as told.py does, at places that are drawn, and refuses files of
    places as it does."""
    script, draw, count = trace_script(), random.Random(5), 0
    for program, schedule, report, _ in stored_runs():
        what = f"{program[len(CASES) + 1:]} under {schedule[len(CASES) + 1:]}"
        trace, _ = run(["trace", program, schedule], at)
        steps = [script.step_of(line) for line in script.decode(trace).splitlines()]
        races, places = told.races_in(report_parts(report)[2]), drawn_places(draw, len(steps))
        named, bare, status = told.Told(steps, races, places), told.Told(steps, races), int(bool(races))
        first, last = draw.randrange(len(steps) + 2), draw.randrange(len(steps) + 2)
        write(at, "run.trace", trace)
        write(at, "run.places", places)
        expect_told(what, "races run.trace run.places", at, named.races_text(), status)
        expect_told(what, "steps run.trace run.places", at, named.steps_text(), status)
        expect_told(what, f"steps run.trace run.places {first} {last}", at, named.steps_text(first, last), status)
        expect_told(what, f"steps run.trace {first} {last}", at, bare.steps_text(first, last), status)
        drawn_trace(what, named, at, first, last, status)
        count += 1
    judge("traces that are told", count > 800, f"{count} of them")
    changed_places(at, script)


def scripted_traces(at):
    """The script of examples/trace/ against bytes that are made by hand; and each list of steps comes back as it
    was."""
    script = trace_script()
    step = b"\0" * 46
    store = b"\1\0\0\0\0\0" + b"\1" + b"\0" * 7 + b"\1" + b"\x10" + b"\0" * 7 + b"\4" + b"\0" * 7 + b"\0" * 32
    parts = (b"\xff\3\0\0\3\xff\x0f\0\0\1" + b"\1" + b"\0" * 7 + b"\2" + b"\xff" * 8 + b"\1" + b"\0" * 7 + b"\1" + b"\0" * 7 + b"\2\0\0\0"
             + b"\3" + b"\0" * 7 + b"\1" + b"\0" * 7 + b"\4\0\0\0" + b"\5" + b"\0" * 7 + b"\1" + b"\0" * 7 + b"\6\0\0\0" + b"\xff" * 8
             + b"\2" + b"\0" * 7 + b"\0\0\0\0" + b"\xff\3\0\0")
    told = ("thread 1023: atomic load 18446744073709551615 1; release 4095; ends; allocates 2 3; frees 4 5; "
            "touches 6 18446744073709551615; wakes 0; wakes 1023\n")
    for text, count, steps in (("", 0, b""), ("thread 0\n", 1, step), ("thread 0\nthread 0\n", 2, step * 2),
                               ("thread 1: store 16 4\n", 1, store), (told, 1, parts)):
        trace = b"MRTR\x01" + bytes([count, 0, 0, 0]) + steps
        judge(f"trace.py: {text!r} to a trace", script.encode(text) == trace, short(script.encode(text)))
        judge(f"trace.py: {text!r} from its trace", script.decode(trace) == text, script.decode(trace))
        cut = all(fault_of(script, trace[:k]) for k in range(len(trace)))
        judge(f"trace.py: what begins the trace of {text!r} is none", cut and fault_of(script, trace + b"\0") == b"trace %d 73 Trailing\n" % len(trace))
    for text in ("thread 0", "\n", "thread 01\n", "thread 0:\n", "thread 0: \n", "thread 1024\n", "thread 0: ends; ends\n",
                 "thread 0: load 1 0\n", "thread 0: load 1 18446744073709551616\n", "thread 0: load 18446744073709551616 1\n",
                 "thread 0: store 18446744073709551615 2\n", "thread 0: acquire 4096\n", "thread 0: spawn 1024\n", "thread 0: acquire 1; load 1 1\n",
                 "thread 0: acquire 1; release 1\n", "thread 0: wakes 1; wakes 1\n", "thread 0: frees 0 0; allocates 0 0\n", "thread 0: walks 1\n",
                 "thread 0;ends\n", "thread 0: ends;\n", "thread 0: load 1\n", "thread 0: load 1 1 1\n", "thread 0\r\n", "thread \u0661\n"):
        try:
            judge(f"trace.py: {text!r} is no list of steps", False, short(script.encode(text)))
        except script.NoSteps:
            judge(f"trace.py: {text!r} is no list of steps", True)


def recorded_threads(at):
    """The C program of examples/trace/ with threads of the host, several times. In each run the threads race on the
    counter without a lock, and on nothing else."""
    if not shutil.which("gcc"):
        print("outputs: there is no gcc: the threads of examples/trace/race.c are left out")
        return
    made = subprocess.run(["gcc", "-pthread", f"{TRACES}/race.c", "-o", f"{at}/race"], stderr=subprocess.PIPE, timeout=60)
    judge("race.c is compiled without a warning", made.returncode == 0 and not made.stderr, short(made.stderr))
    for number in range(5):
        what = f"race.c, run {number}"
        ran = subprocess.run([f"{at}/race"], stdout=subprocess.PIPE, stderr=subprocess.PIPE, timeout=60)
        steps, counters = ran.stdout.decode().split("\n")[:-1], dict(it.split() for it in ran.stderr.decode().split("\n")[:-1])
        script = [sys.executable, f"{TRACES}/trace.py"]
        trace = subprocess.run([*script, "encode"], input=ran.stdout, stdout=subprocess.PIPE, timeout=60).stdout
        again = subprocess.run([*script, "decode"], input=trace, stdout=subprocess.PIPE, timeout=60).stdout
        judge(f"{what}: its steps come back from their trace", ran.returncode == 0 and again == ran.stdout, short(again))
        mine = lambda thread: [it.partition(": ")[2] for it in steps if it.startswith(f"thread {thread}: ")]
        work = ["acquire 0", *(f"{it} {counters['locked']} 4" for it in ("load", "store")), "release 0",
                *(f"{it} {counters['unlocked']} 4" for it in ("load", "store")), "ends"]
        main = ["create lock 0", "spawn 1; wakes 1", "spawn 2; wakes 2", "join 1", "join 2"]
        judge(f"{what}: the steps of each thread", (mine(0), mine(1), mine(2)) == (main, work, work) and len(steps) == 19, f"{steps}")
        write(at, "threads.trace", trace)
        wrote, ended = run(["offline", "threads.trace"], at)
        pairs = [tuple(map(int, it.split()[1:])) for it in wrote.decode().split("\n")[1:-1]]
        sides = [(steps[i - 1].split(": "), steps[j - 1].split(": ")) for i, j in pairs]
        is_named = all({i[0], j[0]} == {"thread 1", "thread 2"} and i[1].split()[1] == j[1].split()[1] == counters["unlocked"] for i, j in sides)
        judge(f"{what}: its races", ended == 1 and wrote.startswith(b"races 2\n") and len(pairs) == 2 and is_named, f"{sides}")
