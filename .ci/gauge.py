#!/usr/bin/env python3
"""How many instructions a step of a run takes, by what the steps do.

    .ci/gauge.py [--write] [PROGRAM]

compares them with the table of docs/MAINTAINING.md, as .ci/outputs does: each may be a tenth more or less. With the
word it writes that table. The instructions are those that valgrind counts in a run of LONG entries and in one of SHORT,
and a step takes the difference by so many entries. What is lost of what spares the machine work, as a memo or a skip
that is never taken, changes no answer; it is seen here.
"""
import os
import re
import shutil
import subprocess
import sys
import tempfile

sys.dont_write_bytecode = True
import limits  # noqa: E402
import long  # noqa: E402
import speed  # noqa: E402

TOP = os.path.dirname(os.path.dirname(os.path.abspath(__file__)))
PROGRAM = f"{TOP}/crates/mirace/out/mirace"
PAGE = f"{TOP}/docs/MAINTAINING.md"
SHORT, LONG = 1 << 13, 1 << 15
# By how many tenths of the figure in the page a figure may differ.
TENTHS = 1
VALGRIND = ("valgrind", "--tool=cachegrind", "--cache-sim=no", "--cachegrind-out-file=/dev/null")
HEAD = "| what the threads do | instructions a step |\n|---|---|"


def of_one(start, first, count):
    """A schedule of one thread."""
    return speed.schedule(start, first + b"0\n" * (count - first.count(b"\n")))


# What is gauged: the program, and its schedule of so many entries, or none where it is drawn.
SHAPES = {
    "one thread stays at a `goto`": (limits.STAYING, lambda count: of_one(b"16 4096", b"", count)),
    "one thread stores to a local": (speed.WITH_LOCAL, lambda count: of_one(b"16 4096", b"0 8192\n", count)),
    "one thread writes a global of 64 bytes, byte by byte": (
        speed.over_global(64, 1), lambda count: of_one(b"16 1048576 4096", b"0 8192\n", count)),
    "two threads store to locals of their own": (speed.LOCALS, speed.turns),
    "two threads store atomically to one global": (speed.ATOMIC, speed.turns),
    "64 threads raise a counter under a lock": (long.locked(64).encode(), None),
}


def drawn(path, at):
    """The schedules of so many entries that are drawn for the program, by cutting one."""
    lines = long.drawn(path, at, LONG).split(b"\n")
    return lambda count: b"\n".join((*lines[:2 + count], b""))


def counted(path, at):
    """The instructions of a run."""
    ran = subprocess.run([*VALGRIND, path, "run", "P", "S"], cwd=at, stdout=subprocess.DEVNULL, stderr=subprocess.PIPE)
    found = re.search(rb"I +refs: +([\d,]+)", ran.stderr)
    if ran.returncode or not found:
        raise RuntimeError(f"status {ran.returncode}: {ran.stderr[-300:]!r}")
    return int(found.group(1).replace(b",", b""))


def gauged(path, what):
    """How many instructions a step of this shape takes."""
    text, scheduled = SHAPES[what]
    with tempfile.TemporaryDirectory() as at:
        with open(f"{at}/P", "wb") as it:
            it.write(text)
        scheduled = scheduled or drawn(path, at)
        totals = []
        for count in (SHORT, LONG):
            with open(f"{at}/S", "wb") as it:
                it.write(scheduled(count))
            totals.append(counted(path, at))
    return round((totals[1] - totals[0]) / (LONG - SHORT))


def kept():
    """The figures of the page's table."""
    with open(PAGE, encoding="utf-8") as it:
        text = it.read().partition(HEAD)[2].partition("\n\n")[0]
    return {what: int(figure.replace(",", "")) for what, figure in re.findall(r"^\| (.*?) \| ([\d,]+) \|$", text, re.M)}


def compare(judge, path=PROGRAM):
    """Each figure of the table is that of the program, within a tenth."""
    figures = kept()
    judge("MAINTAINING: the rows of instructions a step", list(figures) == list(SHAPES), f"{list(figures)}")
    if not shutil.which("valgrind"):
        print("outputs: there is no valgrind, so that no instructions are counted")
        return
    for what in SHAPES:
        mine, told = gauged(path, what), figures.get(what, 0)
        judge(f"instructions a step: {what}", 10 * abs(mine - told) <= TENTHS * told, f"{mine:,}, not about {told:,}")


def main(words):
    path = os.path.abspath(words[-1]) if words and words[-1] != "--write" else PROGRAM
    if words[:1] == ["--write"]:
        print(HEAD)
        for what in SHAPES:
            print(f"| {what} | {gauged(path, what):,} |", flush=True)
        return 0
    results = []

    def tell(what, is_well, why=""):
        results.append(is_well)
        if not is_well:
            print(f"{what}: {why}")

    compare(tell, path)
    print(f"{sum(results)} passed, {len(results) - sum(results)} failed")
    return not all(results)


if __name__ == "__main__":
    sys.exit(main(sys.argv[1:]))
