"""What the built companion writes, mirace_show, beside its stored runs; .ci/outputs runs it.

- A case of each status, words that are none of its forms, a pipe and a device that take nothing, want of memory.
- `why CODE` of each code against its entry of docs/CODES.md, and of the numbers around them.
- Each stored run of mirace_cases, and those of examples/class: the steps that are listed are those of the schedule; the text at
  the line and column of a step begins with the statement that is shown there; behind a statement its thread stands at the
  next one of the text, and behind a `goto` at the block's first; the prints, the verdict, and the count of the races are those of `mirace run`,
  and each step has the partners that the report lists. The races by pairs of places are made once more from the steps.
  A part of the steps is that part of all.
- The JSON of each of these runs, beside its listing and its report (json_form.py).
- What an undefined run speaks of, beside its reason and its steps (spoken.py).
- How runs go on, and what orders become (going_on.py).
- The pictures of the pages, and those of runs beside their listings and their footprints (pictures.py).
- What `check` tells of texts, programs and schedules with faults, by rows (refusals.py).
- Long runs, in seconds.

    python3 .ci/companion.py [COMPANION [PROGRAM]]
"""
import importlib.util
import os
import re
import resource
import subprocess
import sys
import tempfile
import time

sys.dont_write_bytecode = True
import codes  # noqa: E402
import going_on  # noqa: E402
import json_form  # noqa: E402
import limits  # noqa: E402
import pictures  # noqa: E402
import spoken  # noqa: E402
from refusals import compare as compare_refusals  # noqa: E402

TOP = os.path.dirname(os.path.dirname(os.path.abspath(__file__)))
COMPANION = f"{TOP}/crates/mirace_show/out/mirace_show"
PROGRAM = f"{TOP}/crates/mirace/out/mirace"
EXAMPLES = f"{TOP}/examples"
CLASS = f"{EXAMPLES}/class"
CASES = f"{TOP}/crates/mirace_cases/data"
STORED = f"{TOP}/crates/mirace_cases/stdout"
USAGE = b"usage: steps P S [FIRST LAST] | json P S | races P S | rust P S | picture P S [FIRST LAST] | order P S FIRST LAST | witness P S J [short] | races T PLACES | rust T [PLACES] | steps T PLACES [FIRST LAST] | steps T FIRST LAST | picture T PLACES [FIRST LAST] | next P S | check P [S] | fill P O | halt P O | hunt P FROM TO M [AIM] | draw P N M | why CODE | --help\n"
# The most seconds that a long run may take, on a slow machine.
PATIENCE = 40
# The line of a step, with its number, its thread, its place, its function, its block and its statement.
HEAD = re.compile(rb"(\d+)  thread (\d+)  (\d+):(\d+)  (\w+) (\w+)  (.*)")
# How many runs are compared at the least, how many of their steps, and how many that speak of an allocation.
RUNS, STEPS, SPEAKING = 800, 8000, 150
# Of one in so many of them, and of each example, it is compared how they go on; and how many stored schedules are refused at the least.
FEW, REFUSED = 4, 100
# As many steps are drawn at most.
DRAWN = 500
# The schedule of the race of examples/race.
RACE_WITNESS = b"schedule 1\nstart 16 17 4096 64\n0 8192\n0 8200\n0 8208 8216\n1 8224\n0\n1\n"
# The second of two steps that race, without a place.
ONE_RACE = b"2  thread 0\n        load address 19, 1 byte\n        races with step 1\nraces 1\n"


class Step:
    """A step of a listing: what its line says, and the lines below it."""

    def __init__(self, line):
        number, thread, row, column, self.function, self.block, self.statement = HEAD.fullmatch(line).groups()
        self.number, self.thread, self.row, self.column = map(int, (number, thread, row, column))
        self.line, self.below = line, []

    def place(self):
        """As a line of the races tells it."""
        return self.line.split(b"  ", 2)[2]

    def told(self, word):
        return [line[len(word):] for line in self.below if line.startswith(word)]


def read(path):
    with open(path, "rb") as it:
        return it.read()


def write(at, name, text):
    with open(f"{at}/{name}", "wb") as it:
        it.write(text)


def ran(words, at, program=None, **how):
    """What is written, and the status."""
    ended = subprocess.run([program or COMPANION, *words], cwd=at, stdin=subprocess.DEVNULL, stdout=subprocess.PIPE, timeout=120, **how)
    return ended.stdout, ended.returncode


def trace_script():
    """The module of examples/trace/trace.py, which reads footprints."""
    spec = importlib.util.spec_from_file_location("trace_script", f"{EXAMPLES}/trace/trace.py")
    module = importlib.util.module_from_spec(spec)
    spec.loader.exec_module(module)
    return module


def short(text):
    return repr(text if len(text) <= 300 else text[:150] + b" .. " + text[-100:])


# ---- statuses

def cases(at):
    """What is tried, the words, what is written, and the status."""
    example = lambda name: f"{EXAMPLES}/{name}"
    exit_steps = b"1  thread 0  4:13  main b0  exit\nstep 1 ended the run\nverdict exit\nraces 0\n"
    yield "0, all steps", ["steps", example("exit.mr"), example("exit.sched")], exit_steps, 0
    yield "0, no race", ["races", example("exit.mr"), example("exit.sched")], b"races 0\n", 0
    yield "1, a number that is no code", ["why", "10"], b"no rule, no fault and no reason has the number 10\n", 1
    for form in ("steps", "json", "races", "rust", "picture", "next", "fill", "halt"):
        yield f"3, a text, {form}", [form, example("unknown-name.mr"), "missing"], b"text 4 18 5 UnknownName\n", 3
        yield f"4, a program, {form}", [form, example("ill-formed.mr"), "missing"], b"form main b0 2 32 BlockKind\n", 4
        if form in ("steps", "json", "races", "rust", "picture"):
            yield f"5, a rule, {form}", [form, example("print.mr"), example("print-reused.sched")], b"schedule 3 64 Reused 0 0\n", 5
        if form in ("steps", "json", "races", "rust", "picture", "next"):
            yield f"5, an empty text, {form}", [form, example("print.mr"), "empty"], b"schedule 1 50 BadHeader\n", 5
        else:
            yield f"5, a word that is no turn, {form}", [form, example("print.mr"), "words"], b"schedule 2 51 BadLine\n", 5
        yield f"6, no program, {form}", [form, "missing", example("print.sched")], b"read program\n", 6
        yield f"6, a folder, {form}", [form, "folder", example("print.sched")], b"read program\n", 6
        yield f"6, no schedule, {form}", [form, example("print.mr"), "missing"], b"read schedule\n", 6
        yield f"6, a folder for the schedule, {form}", [form, example("print.mr"), "folder"], b"read schedule\n", 6
    yield "1, a schedule for a race", ["witness", example("race.mr"), example("race.sched"), "9"], RACE_WITNESS, 1
    yield "1, no race of a step", ["witness", example("race.mr"), example("race.sched"), "4", "short"], b"step 4 races with no earlier step\n", 1
    yield "3, a text, witness", ["witness", example("unknown-name.mr"), "missing", "1"], b"text 4 18 5 UnknownName\n", 3
    yield "4, a program, witness", ["witness", example("ill-formed.mr"), "missing", "1"], b"form main b0 2 32 BlockKind\n", 4
    yield "5, a rule, witness", ["witness", example("print.mr"), example("print-reused.sched"), "1"], b"schedule 3 64 Reused 0 0\n", 5
    yield "6, no program, witness", ["witness", "missing", example("print.sched"), "1"], b"read program\n", 6
    yield "6, a folder for the schedule, witness", ["witness", example("print.mr"), "folder", "1"], b"read schedule\n", 6
    yield "0, a right program", ["check", "one.mr"], b"one.mr: well-formed\n", 0
    yield "0, a right schedule", ["check", "one.mr", "one.sched"], b"one.sched: legal, 1 entries\n", 0
    yield "6, no program to check", ["check", "missing"], b"read program\n", 6
    yield "6, no program to check beside a schedule", ["check", "missing", "missing"], b"read program\n", 6
    yield "6, a folder to check", ["check", "folder", "one.sched"], b"read program\n", 6
    yield "6, no schedule to check", ["check", "one.mr", "missing"], b"read schedule\n", 6
    yield "6, no schedule beside a wrong program", ["check", example("unknown-name.mr"), "missing"], b"read schedule\n", 6
    yield "6, a folder for a schedule to check", ["check", "one.mr", "folder"], b"read schedule\n", 6
    yield "3, a text above 2^20 bytes to check", ["check", "above.mr"], b"text 1 1 3 LongText\n", 3
    yield "3, the same beside a schedule", ["check", "above.mr", "missing"], b"text 1 1 3 LongText\n", 3
    yield "5, a schedule above 2^26 bytes to check", ["check", "one.mr", "long"], b"schedule 1 52 TooLong\n", 5
    traced = lambda what, words, text, status: (f"{status}, {what}", words, text, status)
    yield traced("a trace", ["races", "none.trace", "none.places"], b"races 0\n", 0)
    yield traced("a trace by two orders", ["rust", "none.trace"], b"Rust's order: 0 races; the machine's: 0 races\n", 0)
    yield traced("a trace with a race", ["steps", "one.trace", "2", "2"], ONE_RACE, 1)
    yield traced("a text above 2^20 bytes", ["races", "above.mr", "missing"], b"text 1 1 3 LongText\n", 3)
    yield traced("a file above 2^28 bytes, in place of a program", ["steps", "long", "missing"], b"text 1 1 3 LongText\n", 3)
    yield traced("no places", ["races", "none.trace", "missing"], b"read schedule\n", 6)
    yield traced("a folder for a trace", ["steps", "folder", "1", "2"], b"read trace\n", 6)
    yield traced("a folder for a trace, by two orders", ["rust", "folder"], b"read trace\n", 6)
    yield traced("a folder for the places", ["steps", "none.trace", "folder"], b"read schedule\n", 6)
    yield traced("a file above 2^28 bytes, as a trace", ["steps", "long", "1", "2"], b"trace 0 74 TooLong\n", 9)
    yield traced("places above 2^28 bytes", ["races", "cut.trace", "long"], b"places 1 the file is too long\n", 9)
    yield traced("places of one step", ["steps", "none.trace", "one.places"], b"places 1 steps, and the trace has 0\n", 9)
    yield traced("a trace that is cut", ["races", "cut.trace", "none.places"], b"trace 8 72 Truncated\n", 9)
    yield "0, an order without turns", ["halt", example("exit.mr"), "empty"], b"", 0
    yield "1, a turn too many", ["halt", example("exit.mr"), "turns"], b"# line 1 can't go on: 66 AfterStop\n", 1
    yield "10, a word that is no text", ["why", b"\xff"], b"", 10


def statuses(judge, at):
    with open(f"{EXAMPLES}/exit.mr", "rb") as program, open(f"{EXAMPLES}/exit.sched", "rb") as schedule:
        write(at, "one.mr", program.read())
        write(at, "one.sched", schedule.read())
    write(at, "words", b"0\n0*x\n")
    write(at, "turns", b"0 0\n")
    write(at, "none.trace", b"MRTR\1\0\0\0\0")
    write(at, "cut.trace", b"MRTR\1\0\0\0")
    write(at, "one.trace", trace_script().encode("thread 1: store 16 4\nthread 0: load 19 1\n"))
    write(at, "none.places", b"places 2\n")
    write(at, "one.places", b"places 2\nname a\n0")
    write(at, "above.mr", b" " * ((1 << 20) + 1))
    write(at, "long", b"MRTR\1")
    os.truncate(f"{at}/long", (1 << 28) + 1)
    for what, words, text, status in cases(at):
        wrote, ended = ran(words, at)
        judge(f"companion: status {what}", (wrote, ended) == (text, status), f"{short(wrote)} and {ended}")
    pair = [f"{EXAMPLES}/exit.mr", f"{EXAMPLES}/exit.sched"]
    numbers = [["steps", *pair, *it] for it in (["1"], ["1", "x"], ["01", "2"], ["1", str(1 << 32)], ["-1", "2"], ["1", "2", "3"])]
    numbers += [["picture", *it[1:]] for it in numbers]
    few = [[], ["steps"], ["json", pair[0]], ["json", *pair, "1", "2"], ["races", pair[0]], ["next"], ["check"], ["check", *pair, "1"], ["fill", pair[0]], ["halt", *pair, "1"], ["why"], ["why", ""], ["why", "066"], ["why", str(1 << 16)], ["why", "66", "67"]]
    others = [["run", *pair], ["races", *pair, "1", "2"], ["rust", *pair, "1", "2"], ["rust"], ["--version"], ["help"], ["--help", "steps"], ["run", "--help"]]
    for words in (*numbers, *few, *others):
        wrote, ended = ran(words, at)
        judge(f"companion: status 2, the words {words}", (wrote, ended) == (USAGE, 2), f"{short(wrote)} and {ended}")


def helps(judge, at):
    """The text of each help begins with its form, in lines of at most 120 bytes, and names no other."""
    for words, first in (([], b"mirace_show steps P S [FIRST LAST]   "), (["steps"], b"mirace_show steps P S [FIRST LAST]\n"),
                         (["json"], b"mirace_show json P S\n"), (["races"], b"mirace_show races P S\n"), (["rust"], b"mirace_show rust P S\n"), (["picture"], b"mirace_show picture P S [FIRST LAST]\n"), (["next"], b"mirace_show next P S\n"), (["check"], b"mirace_show check P [S]\n"),
                         (["fill"], b"mirace_show fill P O | halt P O\n"), (["halt"], b"mirace_show fill P O | halt P O\n"), (["hunt"], b"mirace_show hunt P FROM TO M [AIM]\n"), (["draw"], b"mirace_show hunt P FROM TO M [AIM]\n"), (["order"], b"mirace_show order P S FIRST LAST\n"), (["witness"], b"mirace_show witness P S J [short]\n"),
                         (["why"], b"mirace_show why CODE\n")):
        wrote, ended = ran([*words, "--help"], at)
        is_well = wrote.startswith(first) and max(map(len, wrote.split(b"\n"))) <= 120 and ended == 0
        judge(f"companion: help with {words}", is_well, f"{short(wrote)} and {ended}")


def each_code(judge, at):
    """`why CODE` of each number, against the page of codes."""
    table = {entry["code"]: entry for entry in codes.entries()}
    for code in [*range(256), 65535]:
        entry = table.get(code)
        wanted = f"no rule, no fault and no reason has the number {code}\n"
        if entry:
            wanted = "{code} {name}\n{what}\nusual cause: {cause}\nwhat to do: {next}\nexample: {example}\n".format(**entry)
        wrote, ended = ran(["why", str(code)], at)
        judge(f"companion: why {code}", (wrote.decode(), ended) == (wanted, 0 if entry else 1), f"{short(wrote)} and {ended}")


def refused_writes(judge, at):
    """Status 7: a pipe that nobody reads, and a full device."""
    pair = [f"{EXAMPLES}/race.mr", f"{EXAMPLES}/race.sched"]
    for words in (["steps", *pair], ["json", *pair], ["races", *pair], ["rust", *pair], ["picture", *pair], ["next", *pair], ["check", *pair], ["fill", pair[0], "turns"], ["why", "66"], ["--help"], ["walk"], ["races", "missing", "missing"]):
        end, begin = os.pipe()
        os.close(end)
        ended = subprocess.run([COMPANION, *words], cwd=at, stdout=begin, timeout=60).returncode
        os.close(begin)
        judge(f"companion: status 7, a closed pipe, the words {words}", ended == 7, f"not {ended}")
        with open("/dev/full", "wb") as full:
            ended = subprocess.run([COMPANION, *words], cwd=at, stdout=full, timeout=60).returncode
        judge(f"companion: status 7, a full device, the words {words}", ended == 7, f"not {ended}")


def want_of_memory(judge, at):
    """Status 8: with less and less memory a listing ends so at least once, and then nothing is written."""
    write(at, "staying.mr", limits.STAYING)
    write(at, "many.sched", b"schedule 1\nstart 16 4096\n" + b"0\n" * 30000)
    words, ends = ["steps", "staying.mr", "many.sched"], set()
    whole = ran(words, at)
    for room in range(1 << 20, 48 << 20, 1 << 20):
        limit = lambda room=room: resource.setrlimit(resource.RLIMIT_AS, (room, room))
        end = ran(words, at, preexec_fn=limit, stderr=subprocess.DEVNULL)
        # (with least, the program isn't started)
        if end[1] in (0, 8):
            ends.add(end[1] if end in (whole, (b"", 8)) else end)
    judge("companion: status 8, want of memory", ends == {0, 8}, f"{len(whole[0])} bytes in all; the statuses are {ends}")


# ---- listings

def parted(text):
    """The steps of a listing, and what stands behind them."""
    found, lines = [], text.split(b"\n")
    while lines and (HEAD.fullmatch(lines[0]) or lines[0].startswith(b"        ")):
        line = lines.pop(0)
        if HEAD.fullmatch(line):
            found.append(Step(line))
        else:
            found[-1].below.append(line)
    return found, b"\n".join(lines)


def threads_of(schedule):
    """The threads of a schedule's entries, in order."""
    found = []
    for line in schedule.split(b"\n")[2:-1]:
        thread, _, times = line.partition(b" ")[0].partition(b"*")
        found += [int(thread)] * int(times or 1)
    return found


class Source:
    """A program's text, without its comments."""

    def __init__(self, text):
        self.text, self.code = text, re.sub(rb"#[^\n]*", lambda it: b" " * len(it.group()), text)
        self.starts = [0] + [it.end() for it in re.finditer(rb"\n", text)]

    def at(self, step):
        return self.starts[step.row - 1] + step.column - 1

    def words(self, step):
        """The words of its statement."""
        here = self.at(step)
        return self.code[here:self.code.index(b";", here)].replace(b"(", b" ( ").split()

    def shows(self, step):
        """The text at the place of a step begins with what is shown of its statement, up to its end or to a cut."""
        here, shown = self.at(step), step.statement
        if shown.endswith(b" .."):
            front = shown[:-3]
            rest = self.text[here + len(front):here + len(front) + 1]
            return self.text.startswith(front, here) and (len(front) == 60 or rest in (b"\n", b"\r", b"#", b""))
        return self.text.startswith(shown + b";", here) and len(shown) <= 60

    def behind(self, step):
        """Where the next statement begins behind that of a step; None where it ends its block otherwise than by a `goto`."""
        words = self.words(step)
        if words[0] == b"goto":
            function = re.search(rb"\bfn\s+%s\s*\([^()]*\)\s*->\s*\w+\s*\{" % step.function, self.code)
            head = re.compile(rb"[\s;]%s\s+\w+\s*:\s*" % words[1])
            return head.search(self.code, self.code.index(b";", function.end())).end()
        if words[0] in (b"switch", b"call", b"do", b"return", b"exit", b"unwind", b"resume", b"stop", b"abort", b"unreachable"):
            return None
        return re.compile(rb"\s*").match(self.code, self.code.index(b";", self.at(step)) + 1).end()


def places(judge, what, source, steps):
    """Each step at its statement, and behind it its thread at the next one."""
    judge(f"{what}: the text at each place is what is shown", all(map(source.shows, steps)), f"{[it.line for it in steps if not source.shows(it)][:2]}")
    due, wrong = {}, []
    for step in steps:
        if due.get(step.thread) not in (None, source.at(step)):
            wrong.append(step.line)
        due[step.thread] = source.behind(step)
    judge(f"{what}: each thread goes from a statement to the next", not wrong, f"{wrong[:2]}")


def like_the_report(judge, what, steps, tail, report, status, ended):
    """The prints, the verdict, the count of races and the partners of the steps are those of the report."""
    front = report.partition(b"verdict ")[0]
    judge(f"{what}: the status", status == ended, f"{ended}")
    prints = b"".join(b"%s\n" % line for step in steps for line in step.told(b"        prints "))
    judge(f"{what}: the prints", prints == front, f"{short(prints)}, not {short(front)}")
    lines = report.partition(b"witness ")[0].split(b"\n")
    verdict = [line for line in lines if re.match(rb"(verdict|races) ", line)]
    judge(f"{what}: the verdict and the count of races", all(line in tail.split(b"\n") for line in verdict), short(tail))
    pairs = [tuple(map(int, line.split()[1:])) for line in lines if line.startswith(b"race ")]
    wanted = sorted([*pairs, *((second, first) for first, second in pairs)])
    told = sorted((step.number, int(other)) for step in steps for other in step.told(b"        races with step "))
    judge(f"{what}: the partners", told == wanted, f"{told[:5]}, not {wanted[:5]}")
    return pairs


ACCESS = re.compile(rb"        ((?:atomic )?(?:load|store)) (.*?)(?: = (.*))?, (\d+) bytes?")
KINDS = (b"load", b"store", b"atomic load", b"atomic store")


class Doings:
    """What the steps of a run did, as it is told below them, from its footprints: who has which lock, and which threads ended."""

    def __init__(self):
        self.holders, self.ended = {}, set()

    def event(self, thread, kind, number, woken):
        """The line of an event. Of a spawn it goes on with the function."""
        if kind == 1:
            return b"creates lock %d" % number
        if kind == 2:
            is_free = number not in self.holders
            self.holders.setdefault(number, thread)
            return b"%s lock %d" % (b"takes" if is_free else b"waits for", number)
        if kind == 3:
            del self.holders[number]
            self.holders.update({number: it for it in woken})
            return b"%s lock %d" % (b"gives" if woken else b"frees", number)
        if kind == 4:
            return b"starts thread %d in " % number
        return b"%s thread %d" % (b"joins" if number in self.ended else b"waits for the end of", number)

    def lines(self, foot):
        """The lines in front of the accesses."""
        thread, (kind, number), ended, _, _, woken = foot
        found = [self.event(thread, kind, number, woken)] if kind else []
        if ended:
            self.ended.add(thread)
            found.append(b"ends")
        return [*found, *(b"wakes thread %d" % it for it in woken)]


class Names:
    """What the allocations of a run are called, by their first addresses: from the program's text, and from the picks of the
    schedule at the steps that made them."""

    def __init__(self, source, start):
        self.source, self.called = source, {}
        self.functions = {name: (args.split(), ret) for name, args, ret in re.findall(
            rb"\bfn\s+(\w+)\s*\(([^()]*)\)\s*->\s*(\w+)\s*\{", source.code.replace(b",", b" "))}
        main = re.search(rb"\bmain\s+(\w+)\s*$", source.code).group(1)
        names = [*(b"fn " + it for it in self.functions), *re.findall(rb"\bglobal\s+(\w+)\s+align\b", source.code)]
        for addr, name in zip(start, [*names, (self.functions[main][1], main, 0)]):
            self.call(addr, name)

    def call(self, addr, name):
        self.called.setdefault(addr, []).append(name)

    def made(self, step, picks, entered):
        """The allocations of a step. A call or a spawn makes those of a function that a thread enters."""
        words = self.source.words(step)
        if words[0] == b"live":
            self.call(picks[0], (words[1], step.function, step.thread))
        elif words[:2] == [b"do", b"allocate"]:
            self.call(picks[0], b"the block of step %d" % step.number)
        elif entered:
            args, ret = self.functions[entered[0]]
            for addr, name in zip(picks, (ret, *args)):
                self.call(addr, (name, *entered))

    def are(self, step, addr, shown):
        """An access to an address may be shown so: by the name of what begins at it, or so many bytes in front of it."""
        noun, offset, owner = re.fullmatch(rb"(.*?)(?:\+(\d+))?( of .*)?", shown).groups()
        front = noun + (owner or b"")
        for name in self.called.get(addr - int(offset or 0), []):
            if isinstance(name, tuple):
                own = name[1:] == (step.function, step.thread)
                name = name[0] if own else b"%s of %s, thread %d" % name
            if name == front:
                return True
        return False


class Held:
    """The numbers that bytes hold, as the accesses of a run so far tell them."""

    def __init__(self):
        self.numbers = {}

    def forget(self, addr, length):
        """What held a number is stored to."""
        self.numbers = {it: number for it, number in self.numbers.items()
                        if it[0] + it[1] <= addr or addr + length <= it[0]}

    def differing(self, told, accesses):
        """The loads of a step that are told nothing where there is a number or a pointer, or another number than the bytes
        hold. Its loads come before its stores."""
        found, stored = [], []
        for value, (kind, addr, length) in zip(told, accesses):
            is_number = value is not None and value.isdigit()
            if kind % 2:
                stored.append((addr, length, value if is_number else None))
            elif value is None and length in (1, 2, 4, 8, 16):
                found.append((addr, length))
            elif is_number and self.numbers.setdefault((addr, length), value) != value:
                found.append((addr, length, value, self.numbers[addr, length]))
        for addr, length, value in stored:
            self.forget(addr, length)
            if value is not None:
                self.numbers[addr, length] = value
        return found


def picks_of(schedule):
    """The picks of the start, and those of each entry."""
    lines = schedule.split(b"\n")[1:-1]
    found = [list(map(int, lines[0].split()[1:]))]
    for line in lines[1:]:
        entry, *picks = line.split(b" ")
        found += [list(map(int, picks))] * int(entry.partition(b"*")[2] or 1)
    return found


def entered_by(source, steps, k):
    """The function that step k, counted from 0, has entered, and the thread that stands in it."""
    words = source.words(steps[k])
    if words[0] == b"call":
        later = (it.function for it in steps[k + 1:] if it.thread == steps[k].thread)
        return words[2] if words[1] == b"fn" else next(later, b""), steps[k].thread
    begun = [re.fullmatch(rb"(\d+) in (\w+)", it) for it in steps[k].told(b"        starts thread ")]
    return (begun[0].group(2), int(begun[0].group(1))) if begun else None


def like_the_footprints(judge, what, source, schedule, steps, feet):
    """What stands below each step is what its footprint has, and each access has a name of what it reaches. A load is told
    what the last store to its bytes was told."""
    doings, picks, wrong, unnamed, differing = Doings(), picks_of(schedule), [], [], []
    names, held = Names(source, picks[0]), Held()
    for k, (step, foot) in enumerate(zip(steps, feet)):
        lines = [it for it in step.below if not it.startswith((b"        prints ", b"        races with "))]
        wanted = doings.lines(foot)
        names.made(step, picks[k + 1], entered_by(source, steps, k))
        shown = [ACCESS.fullmatch(it) for it in lines[len(wanted):]]
        if not all(it.startswith(b"        " + other) for it, other in zip(lines, wanted)) or len(shown) != len(foot[3]) or None in shown:
            wrong.append((step.line, lines, foot))
            continue
        for it, (kind, addr, length) in zip(shown, foot[3]):
            if (it.group(1), int(it.group(4))) != (KINDS[kind], length):
                wrong.append((step.line, it.group(), kind, length))
            if not names.are(step, addr, it.group(2)):
                unnamed.append((step.line, it.group(2), addr, names.called.get(addr)))
        differing += [(step.line, *it) for it in held.differing([it.group(3) for it in shown], foot[3])]
    judge(f"{what}: what its steps did", not wrong and len(steps) - len(feet) in (0, 1), f"{wrong[:2]}")
    judge(f"{what}: the names of what they reach", not unnamed, f"{unnamed[:2]}")
    judge(f"{what}: what they load and store", not differing, f"{differing[:2]}")


def by_places(steps, pairs):
    """The lines of the races by pairs of places, those with most races first."""
    found = {}
    for first, second in pairs:
        found.setdefault((steps[first - 1].place(), steps[second - 1].place()), []).append((first, second))
    lines = []
    for (one, other), races in sorted(found.items(), key=lambda it: -len(it[1])):
        often = b"once, " if len(races) == 1 else b"%d times, first " % len(races)
        lines.append(b"%s  /  %s: %s%d %d\n" % (one, other, often, *races[0]))
    return b"".join(lines) + b"races %d\n" % len(pairs)


def a_part(judge, what, words, steps, tail, at):
    """Steps of the middle, alone."""
    first, last = len(steps) // 3 + 1, 2 * len(steps) // 3
    wanted = b"".join(b"%s\n" % line for step in steps[first - 1:last] for line in (step.line, *step.below)) + tail
    wrote, _ = ran([*words, str(first), str(last)], at)
    judge(f"{what}: steps {first} to {last}", wrote == wanted, f"{short(wrote)}, not {short(wanted)}")


def listing(judge, script, program, schedule, report, status, at):
    """A run as it is listed, beside its report and its footprints. Its steps, these, and whether it speaks of an allocation."""
    what = f"companion: {title((program, schedule))}"
    wrote, ended = ran(["steps", program, schedule], at)
    steps, tail = parted(wrote)
    judge(f"{what}: the threads of its steps", [it.thread for it in steps] == threads_of(read(schedule)), short(wrote))
    judge(f"{what}: its steps are numbered", [it.number for it in steps] == list(range(1, len(steps) + 1)))
    source, (trace, _) = Source(read(program)), ran(["trace", program, schedule], at, PROGRAM)
    places(judge, what, source, steps)
    feet = [script.step_of(it) for it in script.decode(trace).splitlines()]
    like_the_footprints(judge, what, source, read(schedule), steps, feet)
    pairs = like_the_report(judge, what, steps, tail, report, status, ended)
    speaks = spoken.compare(judge, what, source, steps, tail)
    grouped = ran(["races", program, schedule], at)
    judge(f"{what}: its races by places", grouped == (by_places(steps, pairs), status), short(grouped[0]))
    a_part(judge, what, ["steps", program, schedule], steps, tail, at)
    a_picture(judge, what, program, schedule, status, steps, feet, pairs, at)
    as_json = ran(["json", program, schedule], at)
    judge(f"{what}: the status of its JSON", as_json[1] == status, f"{as_json[1]}")
    json_form.compare(judge, what, as_json[0], source, steps, feet, report)
    return steps, feet, speaks


def a_picture(judge, what, program, schedule, status, steps, feet, pairs, at):
    """The picture of a run that is drawn whole."""
    text, ended = ran(["picture", program, schedule], at)
    judge(f"{what}: the status of its picture", ended == status, f"{ended}")
    if len(steps) <= DRAWN:
        pictures.picture(judge, what, text, steps, feet, pairs)


def title(run):
    return f"{os.path.basename(run[0])} under {os.path.basename(run[1])}"


class Kit:
    """What going_on.py takes from here."""
    title, read, write, ran = staticmethod(title), staticmethod(read), staticmethod(write), staticmethod(ran)
    threads_of, picks_of, Doings = staticmethod(threads_of), staticmethod(picks_of), Doings

    @staticmethod
    def companion():
        return COMPANION

    @staticmethod
    def program():
        return PROGRAM


def stored():
    """The stored runs of a program under a schedule: both, what is written, and the status."""
    for case in re.split(rb"^\$ ", read(STORED), flags=re.M)[1:]:
        line, _, rest = case.partition(b"\n")
        words, (report, _, status) = line.decode().split(), rest.rpartition(b"= ")
        if words[:1] == ["run"] and len(words) == 3:
            yield f"{CASES}/{words[1]}", f"{CASES}/{words[2]}", report, int(status)


def runs():
    """Each run that mirace_cases stores, of a program under a schedule that can both be used, and those of examples/class:
    the program, the schedule, the report, the status."""
    yield from (it for it in stored() if it[3] in (0, 1))
    names = os.listdir(CLASS)
    for name in sorted(it for it in names if it.endswith(".sched")):
        program = max((it for it in names if it.endswith(".mr") and name.startswith(it[:-3])), key=len)
        yield f"{CLASS}/{program}", f"{CLASS}/{name}", *ran(["run", program, name], CLASS, PROGRAM)


def listings(judge, at):
    count, total, speaking, script = 0, 0, 0, trace_script()
    for run in runs():
        steps, feet, speaks = listing(judge, script, *run, at)
        if count % FEW == 0 or os.path.dirname(run[0]) in (CASES, CLASS):
            going_on.fronts(judge, Kit, run, steps, feet, at)
            going_on.orders(judge, Kit, run, count % 3, at)
        total += len(steps)
        speaking += speaks
        count += 1
    judge("companion: runs that are listed", count >= RUNS and total >= STEPS, f"{count} runs, {total} steps")
    judge("companion: runs that speak of an allocation", speaking >= SPEAKING, f"{speaking} runs")


def refused_schedules(judge, at):
    """Each stored run whose schedule is refused, by `next`."""
    count = 0
    for program, schedule, report, status in stored():
        if status == 5:
            going_on.broken(judge, Kit, program, schedule, report, at)
            count += 1
    judge("companion: schedules that are refused", count >= REFUSED, f"{count}")


def checks(judge, at):
    """What `check` tells, by rows."""
    os.mkdir(f"{at}/checked")
    compare_refusals(judge, COMPANION, PROGRAM, f"{at}/checked")


# ---- long runs

def long_runs(judge, at):
    """2^20 entries: the last steps of a thread that stays at a `goto`, and the races of two threads that have none."""
    entries = 1 << 20
    write(at, "staying.mr", limits.STAYING)
    write(at, "staying.sched", b"schedule 1\nstart 16 4096\n" + b"0\n" * entries)
    place = b"4:13  main b0  goto b0\n"
    lines = b"".join(b"%d  thread 0  %s" % (number, place) for number in (entries - 1, entries))
    behind = b"verdict running\nraces 0\nthread 0 can go on; its next step is " + place
    for what, words, wanted in (("its last two steps", ["steps", str(entries - 1), str(entries)], lines + behind),
                                ("its races", ["races"], b"races 0\n"), ("its picture", ["picture"], None)):
        begun = time.monotonic()
        wrote, ended = ran([words[0], "staying.mr", "staying.sched", *words[1:]], at)
        seconds = time.monotonic() - begun
        is_well = (wrote, ended) == (wanted, 0) if wanted is not None else ended == 0 and wrote.count(b'<g class="step">') == DRAWN + 1
        judge(f"companion: a run of 2^20 entries: {what}", is_well, f"{short(wrote)} and {ended}")
        judge(f"companion: a run of 2^20 entries: {what}: its time", seconds < PATIENCE, f"{seconds:.1f} seconds")


def compare(judge, at):
    """All of it, in a folder."""
    if not os.path.isfile(COMPANION):
        subprocess.run(["rt", "run", "--", "--help"], cwd=f"{TOP}/crates/mirace_show", stdout=subprocess.DEVNULL)
    judge("crates/mirace_show/out/mirace_show", os.path.isfile(COMPANION), "the program isn't built")
    if os.path.isfile(COMPANION):
        write(at, "empty", b"")
        os.mkdir(f"{at}/folder")
        for check in (statuses, helps, each_code, refused_writes, want_of_memory, listings, refused_schedules, checks, long_runs):
            check(judge, at)
        pictures.kept(judge, COMPANION)


def main():
    global COMPANION, PROGRAM
    COMPANION, PROGRAM = [*map(os.path.abspath, sys.argv[1:]), *(COMPANION, PROGRAM)[len(sys.argv) - 1:]]
    results = []

    def tell(what, is_well, why=""):
        results.append(is_well)
        if not is_well:
            print(f"{what}: {why}")

    with tempfile.TemporaryDirectory() as at:
        compare(tell, at)
    print(f"{sum(results)} passed, {len(results) - sum(results)} failed")
    return not all(results)


if __name__ == "__main__":
    sys.exit(main())
