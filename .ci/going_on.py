"""How a run can go on, as the built companion tells it, beside stored runs; .ci/companion.py runs it.

- `next P S` of a run and of fronts of it: the thread that steps next can go on, at the place that `steps` lists of that
  step, and what it asks for fits the picks that the schedule has there; who waits, who has which lock and who has ended is
  what the footprints tell. A schedule that breaks a rule: the rule that `run` answers.
- `fill P O` of the order that a schedule has, in one way of writing or another: a legal schedule with these threads, up to
  the line that `halt P O` and the error output tell; and of its own order once more that schedule.
"""
import re
import subprocess

HEAD = re.compile(rb"thread (\d+) (can go on|ended|waits for the end of thread (\d+)|waits for lock (\d+)(?:, which thread (\d+) has)?)"
                  rb"(?:; its next step is (.*))?")
ADDRESS = re.compile(rb"        asks for address, size (\d+), align (\d+)(, for .*)?")
WAITERS = re.compile(rb"        asks for one of the threads ([\d, ]+), which wait for lock (\d+)")
LIMIT = re.compile(rb"        would break (67|68) \w+")
HALT = re.compile(rb"# line (\d+) can't go on: (\d+) (\w+)\n")
BREAKS = re.compile(rb"entry (\d+) of thread (\d+) breaks (\d+) (\w+): .*\n")


class Ahead:
    """What is told of a thread: how it stands, its next step, and what that asks for."""

    def __init__(self, told):
        number, self.how, joined, lock, holder, self.place = told.groups()
        self.number = int(number)
        self.joined, self.lock, self.holder = (it and int(it) for it in (joined, lock, holder))
        self.asks = []


def threads_ahead(text):
    """The threads of a text of `next`, in order; None where a line is none of its lines."""
    found = []
    for line in text.splitlines():
        told = HEAD.fullmatch(line)
        if told:
            found.append(Ahead(told))
        elif found and (ADDRESS.fullmatch(line) or WAITERS.fullmatch(line) or LIMIT.fullmatch(line)):
            found[-1].asks.append(line)
        else:
            return None
    return found


def fits(ask, pick):
    """Whether a pick is one of those that are asked for."""
    address, waiters = ADDRESS.fullmatch(ask), WAITERS.fullmatch(ask)
    if address:
        return pick % int(address.group(2)) == 0
    return waiters is not None and pick in map(int, waiters.group(1).split(b","))


def front_of(schedule, entries, count):
    """A schedule with the first entries alone, in version 1."""
    start = schedule.split(b"\n")[1]
    lines = (b" ".join(b"%d" % it for it in (thread, *picks)) for thread, picks in entries[:count])
    return b"".join(b"%s\n" % line for line in (b"schedule 1", start, *lines))


def standing(doings, feet):
    """Who has which lock and who has ended behind so many steps, and how many threads there are."""
    state = doings()
    for foot in feet:
        state.lines(foot)
    return state, 1 + sum(foot[1][0] == 4 for foot in feet)


def ahead_of(judge, what, text, state, count, step, picks):
    """The text in front of a step with these picks."""
    found = threads_ahead(text)
    if found is None or [it.number for it in found] != list(range(count)):
        return judge(f"{what}: its threads", False, text[:300])
    here = found[step.thread]
    judge(f"{what}: the next step", (here.how, here.place) == (b"can go on", step.place()), f"{here.how}, {here.place}, not {step.line}")
    judge(f"{what}: what it asks for", len(here.asks) == len(picks) and all(map(fits, here.asks, picks)), f"{here.asks} for {picks}")
    judge(f"{what}: who has ended", {it.number for it in found if it.how == b"ended"} == state.ended, text[:300])
    waiting = [(it.lock, it.holder) for it in found if it.lock is not None]
    judge(f"{what}: who has the locks", all(state.holders.get(lock) == holder for lock, holder in waiting), f"{waiting}")
    judge(f"{what}: whose ends are waited for", all(it.joined not in state.ended for it in found if it.joined is not None), text[:300])
    return None


def at_the_end(judge, what, text, report):
    """The text behind the last entry."""
    verdict = report.partition(b"verdict ")[2].split(b"\n")[0].split(b" ")[0]
    going = [it.how == b"can go on" for it in threads_ahead(text.removeprefix(b"no thread can go on\n")) or []]
    if verdict == b"running":
        judge(f"{what}: a thread can go on", any(going), text[:300])
    elif verdict == b"deadlock":
        judge(f"{what}: no thread can go on", text.startswith(b"no thread can go on\n") and going and not any(going), text[:300])
    else:
        judge(f"{what}: the end", text == b"the run has ended\n", text[:300])


def fronts(judge, kit, run, steps, feet, at, count=4):
    """`next` at the end of a run, and in front of some of its steps."""
    program, schedule, report, _ = run
    what, text = f"companion: next of {kit.title(run)}", kit.read(schedule)
    entries = list(zip(kit.threads_of(text), kit.picks_of(text)[1:]))
    wrote, ended = kit.ran(["next", program, schedule], at)
    judge(f"{what}: the status", ended == 0, f"{ended}")
    at_the_end(judge, what, wrote, report)
    for k in sorted({len(steps) * i // count for i in range(count)} & {*range(len(steps))}):
        kit.write(at, "front.sched", front_of(text, entries, k))
        wrote, ended = kit.ran(["next", program, "front.sched"], at)
        judge(f"{what}, in front of step {k + 1}: the status", ended == 0, f"{ended}")
        ahead_of(judge, f"{what}, in front of step {k + 1}", wrote, *standing(kit.Doings, feet[:k]), steps[k], entries[k][1])


def broken(judge, kit, program, schedule, report, at):
    """`next` of a schedule that is refused: the entry and its rule; or the same refusal, where there is no entry to tell."""
    what = f"companion: next of {kit.title((program, schedule))}, which is refused"
    line, code, name = re.match(rb"schedule (\d+) (\d+) (\w+)", report).groups()
    wrote, ended = kit.ran(["next", program, schedule], at)
    told = BREAKS.match(wrote)
    if told:
        judge(what, (told.group(3), told.group(4), ended) == (code, name, 1), f"{wrote[:200]} and {ended}, not {report}")
    else:
        judge(what, (wrote, ended) == (report, 5) and (int(line) <= 2 or int(code) < 60), f"{wrote[:200]} and {ended}, not {report}")


# ---- orders

def spelled(threads, way):
    """An order of threads, in one of three ways of writing, and the line of each turn."""
    if way == 0:
        return b" ".join(b"%d" % it for it in threads), [1] * len(threads)
    if way == 1:
        return b"".join(b"\t%d # turn\r\n" % it for it in threads), list(range(1, len(threads) + 1))
    words, lines = [], []
    for thread in threads:
        if words and words[-1][0] == thread:
            words[-1][1] += 1
        else:
            words.append([thread, 1])
        lines.append(len(words) + 1)
    return b"# an order\n" + b"".join(b"%d*%d\n" % tuple(it) for it in words), lines


def orders(judge, kit, run, way, at):
    """`fill` and `halt` of the order of a run."""
    program, schedule = run[:2]
    what, threads = f"companion: fill of {kit.title(run)}", kit.threads_of(kit.read(schedule))
    order, lines = spelled(threads, way)
    kit.write(at, "of.order", order)
    filled = subprocess.run([kit.companion(), "fill", program, "of.order"], cwd=at, stdin=subprocess.DEVNULL, capture_output=True, timeout=60)
    halt, halted = kit.ran(["halt", program, "of.order"], at)
    kit.write(at, "filled.sched", filled.stdout)
    taken = kit.threads_of(filled.stdout)
    judge(f"{what}: its threads", taken == threads[:len(taken)], f"{taken[:40]}, not {threads[:40]}")
    judge(f"{what}: the statuses", filled.returncode == halted == (0 if len(taken) == len(threads) else 1), f"{filled.returncode} and {halted}")
    judge(f"{what}: the error output", filled.stderr == halt, f"{filled.stderr[:200]}, not {halt[:200]}")
    told = HALT.fullmatch(halt)
    wanted = told and int(told.group(1)) == lines[len(taken)] if len(taken) < len(threads) else not halt
    judge(f"{what}: where it ends", wanted, halt[:200])
    report, status = kit.ran(["run", program, "filled.sched"], at, kit.program())
    judge(f"{what}: it is legal", status in (0, 1), report[:200])
    kit.write(at, "again.order", spelled(taken, (way + 1) % 3)[0] + b"\n" + halt)
    again = kit.ran(["fill", program, "again.order"], at)
    judge(f"{what}: its own order once more", again == (filled.stdout, 0), f"{again[0][:200]} and {again[1]}")
