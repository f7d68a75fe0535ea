"""Schedules that are drawn, runs in other orders, and shorter witnesses: each is run as a file."""
import os
import time

from judging import CASES, EXAMPLES, PATIENCE, entries_of, judge, read, replay, report_parts, run, short, stored_runs, write
from made import PRINTED

# How many other orders are tried of a stored run of several threads. A run of one thread has one order alone, which is
# tried once.
ORDERS = 5
# Programs of examples/ whose schedules are drawn from so many numbers, with at most so many entries.
DRAWN, NUMBERS, ENTRIES = ("lock", "lost-update", "deadlock", "flag-plain"), 200, 300


def drawn(what, name, number, most, at):
    """The lines of the entries that are drawn for a program, and the report. The schedule, run as a file, has the same
    report."""
    wrote, status = run(["auto", name, number, most], at)
    begin = min(it for it in (wrote.find(b"\n> "), wrote.find(b"\nverdict ")) if it >= 0) + 1
    write(at, "drawn.sched", wrote[:begin])
    again, ended = run(["run", name, "drawn.sched"], at)
    judge(f"{what}: the drawn schedule has the same report", again == wrote[begin:] and ended == status, f"it writes {short(again)}")
    replay(what, f"{at}/{name}" if not os.path.isabs(name) else name, wrote[begin:], at)
    return wrote[:begin].split(b"\n")[2:-1], wrote[begin:]


def drawn_schedules(at):
    """Where a drawn schedule ends: at so many entries, where the machine stops, and in front of a step that can't be
    drawn."""
    running = b"verdict running\nraces 0\n"
    for most in ("0", "1", "4097"):
        entries, report = drawn(f"{most} entries at most", "printing.mr", "7", most, at)
        judge(f"{most} entries at most", len(entries) == int(most) and report == PRINTED * int(most) + running)
    for number in range(20):
        _, report = drawn(f"a deadlock, {number}", f"{EXAMPLES}/deadlock.mr", str(number), "1000", at)
        ends = report.partition(b"\n")[0] in (b"verdict deadlock", b"verdict exit", b"verdict leak")
        judge(f"a deadlock, {number}: it ends", ends, short(report))
        for name in ("race.mr", "lost-update.mr", "lock.mr", "atomic.mr", "flag.mr"):
            drawn(f"{name}, {number}", f"{EXAMPLES}/{name}", str(number), "1000", at)
    write(at, "looping.mr", b"minirust 1\nfn w(p) -> r {\nlet p: raw, r: unit, x: u32;\nb0 regular: live x; goto b1;\n"
          b"b1 regular: x = u32 1; goto b1;\n}\nfn main() -> r {\nlet r: unit, t: u32, y: u32;\n"
          b"b0 regular: live t; live y; do spawn(fn w, raw 0) -> t to b1;\nb1 regular: y = u32 1; goto b1;\n}\nmain main\n")
    begun = time.monotonic()
    wrote, status = run(["auto", "looping.mr", "7", "1048576"], at)
    judge("2^20 steps of two threads", wrote.endswith(b"\n" + running) and wrote.count(b"\n") == 2 ** 20 + 4 and status == 0)
    judge("they are made within seconds", time.monotonic() - begun < PATIENCE)
    drawn("four workers and a list", f"{CASES}/drawn/workers.mr", "7", "4000", at)
    write(at, "spawning.mr", b"minirust 1\nfn w(p) -> r {\nlet p: raw, r: unit;\nb0 regular: return;\n}\nfn main() -> r {\n"
          b"let r: unit, t: u32;\nb0 regular: live t; goto b1;\nb1 regular: do spawn(fn w, raw 0) -> t to b1;\n}\nmain main\n")
    entries, report = drawn("a thread too many", "spawning.mr", "3", "5000", at)
    spawned = sum(len(it.split(b" ")) == 3 for it in entries)
    judge("a thread too many: the schedule ends in front of it", spawned == 1023 and report == running, f"{spawned} spawns")
    write(at, "locking.mr", b"minirust 1\nfn main() -> r {\nlet r: unit, t: u32;\nb0 regular: live t; goto b1;\n"
          b"b1 regular: do create_lock() -> t to b1;\n}\nmain main\n")
    entries, report = drawn("a lock too many", "locking.mr", "3", "5000", at)
    judge("a lock too many: the schedule ends in front of it", len(entries) == 4098 and report == running, f"{len(entries)} entries")
    write(at, "filling.mr", b"minirust 1\nfn main() -> r {\nlet r: unit, p: raw;\nb0 regular: live p; goto b1;\n"
          b"b1 regular: do allocate(u64 1, u64 9223372036854775808) -> p to b1;\n}\nmain main\n")
    entries, report = drawn("no address left", "filling.mr", "3", "5000", at)
    judge("no address left: the schedule ends in front of it", len(entries) == 3 and report == running, f"{entries}")


def by_thread(entries):
    """The entries of each thread, in their order."""
    found = {}
    for it in entries:
        found.setdefault(it.split(b" ")[0], []).append(it)
    return found


def prints_by_thread(program, schedule, at):
    """What each thread prints, by runs of the first 0, 1, 2, .. entries of a schedule."""
    entries, found, before = list(entries_of(schedule)), {}, 0
    for count in range(len(entries) + 1):
        front = b"\n".join((b"schedule 1", schedule.split(b"\n")[1], *entries[:count], b""))
        write(at, "front.sched", front)
        prints = report_parts(run(["run", program, f"{at}/front.sched"], at)[0])[0]
        if prints[before:]:
            found.setdefault(entries[count - 1].split(b" ")[0], []).extend(prints[before:])
        before = len(prints)
    return found


def put_in_order(what, program, schedule, report, status, number, at):
    """Another order of a run without a race. It keeps the entries of each thread, and its schedule, run as a file, has
    the same report: the same verdict, no race, the same status, and of each thread the same prints."""
    recorded = read(schedule)
    wrote, ended = run(["shuffle", program, schedule, str(number)], at)
    begin = min(it for it in (wrote.find(b"\n> "), wrote.find(b"\nverdict "), len(wrote)) if it >= 0) + 1
    write(at, "order.sched", wrote[:begin])
    again, rerun = run(["run", program, f"{at}/order.sched"], at)
    judge(f"{what}: the other order has the same report", again == wrote[begin:] and (rerun, ended) == (status, status),
          f"it writes {short(again)} and ends with {rerun}")
    entries, old = by_thread(entries_of(wrote[:begin])), by_thread(entries_of(recorded))
    judge(f"{what}: the other order keeps the entries of each thread", entries == old and wrote.split(b"\n")[:2] == recorded.split(b"\n")[:2])
    prints, verdict, races = report_parts(again)
    mine, wanted, _ = report_parts(report)
    is_same = prints == mine if len(old) < 2 else sorted(prints) == sorted(mine)
    if wrote[:begin] != recorded and len(prints) > 1:
        is_same &= prints_by_thread(program, wrote[:begin], at) == prints_by_thread(program, recorded, at)
    judge(f"{what}: the other order ends alike", (verdict, races) == (wanted, b"races 0\n") and is_same, short(again))
    return wrote[:begin] != recorded


def made_shorter(what, program, schedule, report, status, at):
    """The report of `short`: it is the one of the run but for the witness, which has at most as many entries, begins
    the entries of each thread, and shows the race."""
    wrote, ended = run(["short", program, schedule], at)
    front, _, witness = wrote.partition(b"\nwitness ")
    wanted, _, kept = report.partition(b"\nwitness ")
    judge(f"{what}: the report of `short` but for its witness", front == wanted and ended == status, short(wrote))
    length, most = (int(it.partition(b"\n")[0] or 0) for it in (witness, kept))
    entries, old = list(entries_of(witness.partition(b"\n")[2])), by_thread(entries_of(read(schedule)))
    is_begun = all(it == old.get(thread, [])[:len(it)] for thread, it in by_thread(entries).items())
    judge(f"{what}: the shorter witness", is_begun and len(entries) == length <= most, f"{length} entries, not {most} at most")
    replay(f"{what}: `short`", program, wrote, at)
    return length < most


def other_orders(at):
    """The stored runs without a race in other orders, and those with one with a shorter witness."""
    runs, changed, shorter = 0, 0, 0
    for program, schedule, report, status in stored_runs():
        what = f"{program[len(CASES) + 1:]} under {schedule[len(CASES) + 1:]}"
        if b"\nraces 0\n" in b"\n" + report:
            threads = {it.split(b" ")[0] for it in entries_of(read(schedule))}
            for number in range(ORDERS if len(threads) > 1 else 1):
                changed += put_in_order(f"{what}, {number}", program, schedule, report, status, number, at)
        else:
            shorter += made_shorter(what, program, schedule, report, status, at)
        runs += 1
    told = f"{runs} runs, {changed} other orders that aren't the recorded one, {shorter} shorter witnesses"
    judge("stored runs in other orders", runs > 800 and changed > 100 and shorter > 2, told)


def drawn_orders(at):
    """The same of runs that are drawn from numbers."""
    for name in DRAWN:
        program = f"{EXAMPLES}/{name}.mr"
        for number in range(NUMBERS):
            wrote, status = run(["auto", program, str(number), str(ENTRIES)], at)
            begin = min(it for it in (wrote.find(b"\n> "), wrote.find(b"\nverdict ")) if it >= 0) + 1
            write(at, "recorded.sched", wrote[:begin])
            case = (f"{name}.mr, drawn from {number}", program, f"{at}/recorded.sched", wrote[begin:], status)
            if b"\nraces 0\n" in wrote:
                put_in_order(*case, number, at)
            else:
                made_shorter(*case, at)


def replayed_witnesses(at):
    """Of each example with a race the witness that is printed."""
    count = 0
    for name in sorted(os.listdir(EXAMPLES)):
        if not name.endswith(".sched"):
            continue
        program = max((it[:-3] for it in os.listdir(EXAMPLES) if it.endswith(".mr") and name.startswith(it[:-3])), key=len)
        program = f"{EXAMPLES}/{program}.mr"
        wrote, _ = run(["run", program, f"{EXAMPLES}/{name}"], at)
        count += replay(name, program, wrote, at)
    judge("witnesses are run", count > 2, f"{count} of them")
