"""What the parts of .ci/outputs share: how a case is counted and told, how the program is run, and what its answers
consist of."""
import os
import re
import subprocess
import tempfile
import time

TOP = os.path.dirname(os.path.dirname(os.path.abspath(__file__)))
PROGRAM = f"{TOP}/crates/mirace/out/mirace"
EXAMPLES = f"{TOP}/examples"
CASES = f"{TOP}/crates/mirace_cases/data"
STORED = f"{TOP}/crates/mirace_cases/stdout"
CLASS = f"{EXAMPLES}/class"
EXERCISES = f"{EXAMPLES}/exercises"
# The most seconds that a long run may take, on a slow machine.
PATIENCE = 20
# How many cases passed so far, and how many failed.
counts = {True: 0, False: 0}


def judge(what, is_well, told=""):
    """Counts a case, and tells one that failed."""
    counts[bool(is_well)] += 1
    if not is_well:
        print(f"outputs: FAILED: {what}{': ' if told else ''}{told}")


def short(text):
    return repr(text if len(text) <= 300 else text[:150] + b" .. " + text[-100:])


def run(words, at, **how):
    """The bytes that the program writes and its status; at most a minute."""
    ran = subprocess.run([PROGRAM, *words], cwd=at, stdin=subprocess.DEVNULL, stdout=subprocess.PIPE, timeout=60, **how)
    return ran.stdout, ran.returncode


def expect(what, words, at, text, status):
    wrote, ended = run(words, at)
    wanted = f"{short(text)} and {status} are wanted, not {short(wrote)} and {ended}"
    judge(what, wrote == text and ended == status, wanted)


def timed(what, words, at, text, status):
    begun = time.monotonic()
    expect(what, words, at, text, status)
    judge(f"{what}: within seconds", time.monotonic() - begun < PATIENCE)


def write(folder, name, text):
    with open(f"{folder}/{name}", "wb") as it:
        it.write(text)


def read(path):
    with open(path, "rb") as it:
        return it.read()


def report_parts(report):
    """The prints of a report, its verdict, and its races as they stand there."""
    front, _, back = report.partition(b"verdict ")
    verdict, _, races = back.partition(b"\n")
    return front.split(b"\n")[:-1], verdict, races.partition(b"witness ")[0]


def entries_of(schedule):
    """The entries of a schedule of either version, each as its line in version 1."""
    for line in schedule.split(b"\n")[2:-1]:
        entry, _, count = line.partition(b"*")
        yield from [entry] * int(count or 1)


def stored_runs():
    """Each run that mirace_cases stores, of a program under a schedule that both can be used: their names, the report,
    the status."""
    for case in re.split(rb"^\$ ", read(STORED), flags=re.M)[1:]:
        line, _, rest = case.partition(b"\n")
        words = line.decode().split()
        report, _, status = rest.rpartition(b"= ")
        if words[:1] == ["run"] and len(words) == 3 and status.strip() in (b"0", b"1"):
            yield f"{CASES}/{words[1]}", f"{CASES}/{words[2]}", report, int(status)


def replay(what, program, report, at):
    """Whether a witness is printed exactly where a race is listed; and the witness, run as a schedule: its last step
    races with the one before it, that is its first race, and its witness is itself. True where there is one."""
    front, is_there, witness = report.partition(b"\nwitness ")
    judge(f"{what}: a witness exactly where a race is listed", (b"\nrace " in front) == bool(is_there))
    if not is_there:
        return False
    length, _, schedule = witness.partition(b"\n")
    entries = int(length)
    with tempfile.NamedTemporaryFile() as kept:
        kept.write(schedule)
        kept.flush()
        again, status = run(["run", program, kept.name], at)
    wanted = b"verdict undefined 100 DataRace\nraces 1\nrace %d %d\nwitness %d\n" % (entries - 1, entries, entries)
    ends = again[max(again.find(b"verdict "), 0):] == wanted + schedule
    judge(f"{what}: its witness shows the race", ends and status == 1, f"it writes {short(again)}")
    return True
