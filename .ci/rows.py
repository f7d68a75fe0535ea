"""Rows of the tables of texts.py, schedules.py, values.py, blocks.py, runs.py and forms.py: the built programs run
over files that are given as texts.

`.ci/outputs` goes through all of them. By itself it takes the two programs, `python3 .ci/rows.py [PROGRAM
COMPANION]`, and tells what fails.
"""
import os
import subprocess
import sys
import tempfile

sys.dont_write_bytecode = True
import blocks  # noqa: E402
import forms  # noqa: E402
import runs  # noqa: E402
import schedules  # noqa: E402
import texts  # noqa: E402
import values  # noqa: E402

TOP = os.path.dirname(os.path.dirname(os.path.abspath(__file__)))
PROGRAMS = (f"{TOP}/crates/mirace/out/mirace", f"{TOP}/crates/mirace_show/out/mirace_show")


def short(text):
    return repr(text if len(text) <= 300 else text[:150] + b" .. " + text[-100:])


def encoded(text):
    return text if isinstance(text, bytes) else text.encode()


class Bench:
    """Runs the programs in a folder, and judges what they write and end with."""

    def __init__(self, judge, at, program, companion):
        self.judge, self.at, self.program, self.companion = judge, at, program, companion

    def ran(self, line, **files):
        """What the words of a line write, and the status, where the files have these texts. `mirace_show` begins
        those of the companion."""
        words = line.split()
        is_shown = words[:1] == ["mirace_show"]
        for name, text in files.items():
            with open(f"{self.at}/{name}", "wb") as it:
                it.write(encoded(text))
        command = [self.companion, *words[1:]] if is_shown else [self.program, *words]
        how = {"stdin": subprocess.DEVNULL, "stdout": subprocess.PIPE, "stderr": subprocess.DEVNULL, "timeout": 60}
        ended = subprocess.run(command, cwd=self.at, **how)
        return ended.stdout, ended.returncode

    def expect(self, what, line, text, status, **files):
        """The text and the status are those of the words of a line."""
        wrote, ended = self.ran(line, **files)
        is_well = (wrote, ended) == (encoded(text), status)
        self.judge(what, is_well, f"{short(encoded(text))} and {status} are wanted, not {short(wrote)} and {ended}")


def compare(judge, programs):
    """All rows of all tables."""
    for tables in (texts, schedules, values, blocks, runs, forms):
        with tempfile.TemporaryDirectory() as at:
            tables.compare(Bench(judge, at, *programs))


def main():
    """Goes through the rows, and tells how many of them pass."""
    counts = {True: 0, False: 0}

    def judge(what, is_well, told=""):
        counts[bool(is_well)] += 1
        if not is_well:
            print(f"rows: FAILED: {what}: {told}")

    compare(judge, [os.path.abspath(it) for it in sys.argv[1:]] or PROGRAMS)
    print(f"rows: {counts[True]} passed, {counts[False]} failed")
    return counts[False] > 0


if __name__ == "__main__":
    sys.exit(main())
