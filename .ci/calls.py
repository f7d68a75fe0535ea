"""Calls of the built program: its statuses, its words, files of several pieces and files that are cut, pipes and
devices, memory that is short, and calls of the host that are refused."""
import fcntl
import itertools
import os
import resource
import re
import shutil
import subprocess
import time

import grammar
import limits
from judging import CASES, EXAMPLES, PROGRAM, TOP, entries_of, expect, judge, read, report_parts, run, short, write
from made import NO_STEPS, PRINTED, STEPS

USAGE = b"usage: see the table of commands\n"


def each_status(at):
    """A case of each status from 0 to 6, of 9 and of 10, and the same with a word too many."""
    example = lambda name: f"{EXAMPLES}/{name}"
    cases = [
        ("0, a run", ["run", example("exit.mr"), example("exit.sched")], b"verdict exit\nraces 0\n", 0),
        ("1, a run", ["run", example("uninitialised.mr"), example("uninitialised.sched")],
         b"> 7\nverdict undefined 107 InvalidValue\nraces 0\n", 1),
        ("1, a race that stops the run", ["run", example("lost-update.mr"), example("lost-update-racing.sched")],
         b"verdict undefined 100 DataRace\nraces 1\nrace 8 9\nwitness 9\n" + read(example("lost-update-racing.sched")), 1),
        ("1, a deadlock", ["run", example("deadlock.mr"), example("deadlock.sched")], b"verdict deadlock\nraces 0\n", 1),
        ("1, a leak", ["run", example("leak.mr"), example("leak.sched")], b"verdict leak\nraces 0\n", 1),
        ("3, a text", ["check", example("unknown-name.mr")], b"text 4 18 5 UnknownName\n", 3),
        ("3, an empty text", ["check", "empty"], b"text 1 1 4 Unexpected\n", 3),
        ("4, a check", ["check", example("ill-formed.mr")], b"form main b0 2 32 BlockKind\n", 4),
        ("4, a run", ["run", example("ill-formed.mr"), "missing"], b"form main b0 2 32 BlockKind\n", 4),
        ("5, a rule", ["run", example("print.mr"), example("print-reused.sched")], b"schedule 3 64 Reused 0 0\n", 5),
        ("5, an empty text", ["run", example("print.mr"), "empty"], b"schedule 1 50 BadHeader\n", 5),
        ("0, JSON", ["json", example("exit.mr"), example("exit.sched")],
         b'{"output":[],"races":[],"verdict":"exit","witness":null}\n', 0),
        ("0, another order", ["shuffle", example("print.mr"), example("print.sched"), "7"],
         read(example("print.sched")) + b"> 42\nverdict exit\nraces 0\n", 0),
        ("0, no witness", ["short", example("exit.mr"), example("exit.sched")], b"verdict exit\nraces 0\n", 0),
        ("0, a schedule of version 2", ["upgrade", example("print.sched")], b"schedule 2\nstart 16 4096\n0 8192\n0*3\n", 0),
        ("1, a leak in another order", ["shuffle", example("leak.mr"), example("leak.sched"), "0"],
         read(example("leak.sched")) + b"verdict leak\nraces 0\n", 1),
        ("5, an empty text for version 2", ["upgrade", "empty"], b"schedule 1 50 BadHeader\n", 5),
        ("0, the footprints of no step", ["trace", example("exit.mr"), example("exit.sched")], NO_STEPS, 0),
        ("0, the same of a leak", ["trace", "staying.mr", "no-entries.sched"], NO_STEPS, 0),
        ("0, no step's races", ["offline", "none.trace"], b"races 0\n", 0),
        ("1, a race of footprints", ["offline", "race.trace"], b"races 1\nrace 4 9\n", 1),
        ("3, a text to trace", ["trace", "empty", "missing"], b"text 1 1 4 Unexpected\n", 3),
        ("4, a program to trace", ["trace", example("ill-formed.mr"), "missing"], b"form main b0 2 32 BlockKind\n", 4),
        ("5, a rule, for a trace", ["trace", example("print.mr"), example("print-reused.sched")], b"schedule 3 64 Reused 0 0\n", 5),
        ("6, no program to trace", ["trace", "missing", "missing"], b"read program\n", 6),
        ("6, no schedule to trace", ["trace", example("print.mr"), "missing"], b"read schedule\n", 6),
        ("6, no trace", ["offline", "missing"], b"read trace\n", 6),
        ("6, a folder for the trace", ["offline", "folder"], b"read trace\n", 6),
        ("9, no bytes", ["offline", "empty"], b"trace 0 70 BadMagic\n", 9),
        ("9, a program", ["offline", example("exit.mr")], b"trace 0 70 BadMagic\n", 9),
        ("6, no schedule for version 2", ["upgrade", "missing"], b"read schedule\n", 6),
        ("6, no schedule for another order", ["shuffle", example("print.mr"), "missing", "7"], b"read schedule\n", 6),
        ("6, no schedule for a short witness", ["short", example("print.mr"), "missing"], b"read schedule\n", 6),
        ("3, a text to draw for", ["auto", "empty", "7", "1"], b"text 1 1 4 Unexpected\n", 3),
        ("4, a program to draw for", ["auto", example("ill-formed.mr"), "7", "1"], b"form main b0 2 32 BlockKind\n", 4),
        ("5, a rule, for JSON", ["json", example("print.mr"), example("print-reused.sched")], b"schedule 3 64 Reused 0 0\n", 5),
        ("6, no program to draw for", ["auto", "missing", "7", "1"], b"read program\n", 6),
        ("6, no schedule for JSON", ["json", example("print.mr"), "missing"], b"read schedule\n", 6),
        ("6, no program", ["run", "missing", example("print.sched")], b"read program\n", 6),
        ("6, no program to check", ["check", "missing"], b"read program\n", 6),
        ("6, no schedule", ["run", example("print.mr"), "missing"], b"read schedule\n", 6),
        ("6, a folder for the program", ["check", "folder"], b"read program\n", 6),
        ("6, a folder for the schedule", ["run", example("print.mr"), "folder"], b"read schedule\n", 6),
        ("6, an empty name", ["check", ""], b"read program\n", 6),
    ]
    for what, words, text, status in cases:
        expect(f"status {what}", words, at, text, status)
        expect(f"a word too many for status {what}", [*words, "word"], at, USAGE, 2)
    empty = ["auto", "empty"]
    numbers = [[*empty, "7", "1048577"], [*empty, "07", "1"], [*empty, "7", "00"], [*empty, str(1 << 64), "1"], [*empty, "7"],
               ["big"], ["big", "01"], ["big", str(1 << 64)], ["big", "-1"], ["big", ""]]
    few = [[], ["run"], ["check"], ["json", "empty"], ["short", "empty"], ["shuffle", "empty", "empty"], ["upgrade"], ["trace", "empty"], ["offline"]]
    for words in (*few, ["walk", "empty"], ["--help"], ["--version"], *numbers):
        expect(f"status 2, the words {words}", words, at, USAGE, 2)
    expect("status 10, a word that is no text", ["check", b"\xff"], at, b"", 10)
    expect("status 10, a word too many that is no text", ["check", "empty", b"\xff"], at, b"", 10)


def long_files(at):
    """Files of several pieces."""
    expect("a schedule of 10 kB", ["run", "printing.mr", "printing.sched"], at,
           PRINTED * STEPS + b"verdict running\nraces 0\n", 0)
    expect("its first 4,096 bytes", ["run", "printing.mr", "cut.sched"], at,
           PRINTED * ((4096 - 22) // 2) + b"verdict running\nraces 0\n", 0)
    expect("a schedule of 3 MiB", ["run", "printing.mr", "whole.sched"], at, b"schedule 2 62 ExtraPick\n", 5)
    expect("a schedule of 5 MiB", ["run", "printing.mr", "wide.sched"], at, b"schedule 2 62 ExtraPick\n", 5)
    expect("a report above 1 MB", ["run", "printing.mr", "many.sched"], at, PRINTED * 30000 + b"verdict running\nraces 0\n", 0)
    expect("a name of 250 bytes", ["check", "x" * 250], at, b"text 1 1 4 Unexpected\n", 3)
    expect("the same but for its last byte", ["run", "printing.mr", "unended.sched"], at, b"schedule 2 51 BadLine\n", 5)
    expect("a program of 3 MiB", ["check", "spaces.mr"], at, b"text 1 1 3 LongText\n", 3)


def is_text_fault(line, text):
    """Whether a line tells a fault of a text that ends too soon: a token with which nothing goes on, or an unknown
    name, at a place that the text has."""
    found = re.fullmatch(rb"text (\d+) (\d+) (4 Unexpected|5 UnknownName)\n", line)
    return bool(found) and (int(found[1]), int(found[2])) <= limits.place(text, len(text))


def cut_programs(at):
    """What begins a program is none, but where its last LF alone is missing."""
    for stem in (f"{EXAMPLES}/unwind", f"{EXAMPLES}/race", f"{CASES}/calls/worked-payload"):
        program = read(f"{stem}.mr")
        whole = run(["check", f"{stem}.mr"], at)
        for k in range(len(program)):
            write(at, "cut.mr", program[:k])
            wrote, ended = run(["check", "cut.mr"], at)
            is_well = (wrote, ended) == whole if k == len(program) - 1 else ended == 3 and is_text_fault(wrote, program[:k])
            judge(f"{stem}.mr cut behind {k} bytes", is_well, f"it writes {short(wrote)} and ends with {ended}")


def in_version_two(schedule):
    """A schedule of version 1 in version 2."""
    lines = schedule.split(b"\n")
    text = b"schedule 2\n" + lines[1] + b"\n"
    for line, alike in itertools.groupby(lines[2:-1]):
        count = len(list(alike))
        text += line + b"\n" if b" " in line or count == 1 else b"%s*%d\n" % (line, count)
    return text


def shorter_report(report, entries):
    """What a report says of the first entries, where there are more: the most prints that there may be, the verdict,
    the races."""
    prints, _, races = report_parts(report)
    kept = [it for it in races.split(b"\n")[1:-1] if int(it.split(b" ")[2]) <= entries]
    return prints, b"running", b"".join(it + b"\n" for it in (b"races %d" % len(kept), *kept))


def cut_schedules(at):
    """A schedule that is cut within a line is none, in both versions, and that line is told. What is cut between two
    lines is a shorter schedule. It is run as one: it shows the first of the prints, goes on running, and has the races
    so far."""
    for stem in (f"{EXAMPLES}/unwind", f"{EXAMPLES}/race", f"{CASES}/races/worked-stores"):
        one, report = read(f"{stem}.sched"), run(["run", f"{stem}.mr", f"{stem}.sched"], at)[0]
        shorter = {}
        for text in (one, in_version_two(one)):
            for k in range(len(text)):
                write(at, "cut.sched", text[:k])
                wrote, ended = run(["run", f"{stem}.mr", "cut.sched"], at)
                what, line = f"{text[:10].decode()} of {stem} cut behind {k} bytes", text.count(b"\n", 0, k) + 1
                if line < 3 or text[k - 1:k] != b"\n":
                    fault = b"schedule 1 50 BadHeader\n" if line == 1 else b"schedule %d 51 BadLine\n" % line
                    judge(what, wrote == fault and ended == 5, f"it writes {short(wrote)} and ends with {ended}")
                    continue
                entries = len(list(entries_of(text[:k])))
                parts, (most, verdict, races) = report_parts(wrote), shorter_report(report, entries)
                is_well = parts == (most[:len(parts[0])], verdict, races) and ended == (races != b"races 0\n")
                judge(what, is_well, f"it writes {short(wrote)} and ends with {ended}")
                judge(f"{what}: in both versions", shorter.setdefault(entries, parts) == parts, short(wrote))


def big_programs(at):
    """The summary of a large program, the same each time; where the number is even, no step of it depends on the
    order."""
    text = b"big 0\nworkers 2\nrounds 1\nentries 32\n> 2\nverdict exit\nraces 0\n"
    for _ in range(2):
        expect("a large program", ["big", "0"], at, text, 0)
    for number in (2, 14, 26, 1000):
        workers, rounds = 2 + number % 7, 1 + number // 7 % 1024
        wrote, ended = run(["big", str(number)], at)
        entries = 4 + 2 * workers + workers * (6 + 6 * rounds)
        wanted = b"big %d\nworkers %d\nrounds %d\nentries %d\n> %d\nverdict exit\nraces 0\n"
        judge(f"large program {number}", wrote == wanted % (number, workers, rounds, entries, workers * rounds) and ended == 0, short(wrote))


def slow_pipe(at):
    """A pipe of a page whose reader takes 500 bytes at a time."""
    end, begin = os.pipe()
    fcntl.fcntl(begin, 1031, 4096)
    started = subprocess.Popen([PROGRAM, "run", "printing.mr", "printing.sched"], cwd=at, stdout=begin)
    os.close(begin)
    wrote = b""
    while piece := os.read(end, 500):
        wrote += piece
        time.sleep(0.0005)
    os.close(end)
    wanted = PRINTED * STEPS + b"verdict running\nraces 0\n"
    judge("200 kB through a pipe that takes little at a time", wrote == wanted and started.wait() == 0)


def failed_writes(at):
    """Status 7: a pipe that nobody reads, and a full device."""
    for words in (["run", "printing.mr", "printing.sched"], ["check", "printing.mr"], ["check", "missing"], ["walk"], ["big", "0"]):
        end, begin = os.pipe()
        os.close(end)
        ended = subprocess.run([PROGRAM, *words], cwd=at, stdout=begin, timeout=60).returncode
        os.close(begin)
        judge(f"status 7, a closed pipe, the words {words}", ended == 7, f"not {ended}")
        with open("/dev/full", "wb") as full:
            ended = subprocess.run([PROGRAM, *words], cwd=at, stdout=full, timeout=60).returncode
        judge(f"status 7, a full device, the words {words}", ended == 7, f"not {ended}")


def want_of_memory(at):
    """Status 8: with less and less memory a run of 3 MiB ends so at least once, and then nothing is written."""
    whole = b"schedule 2 62 ExtraPick\n"
    ends = set()
    for room in range(1 << 18, 24 << 20, 1 << 18):
        limit = lambda room=room: resource.setrlimit(resource.RLIMIT_AS, (room, room))
        wrote, ended = run(["run", "printing.mr", "whole.sched"], at, preexec_fn=limit, stderr=subprocess.DEVNULL)
        # (with least, the program isn't started)
        if ended in (5, 8):
            ends.add((ended, wrote == (whole if ended == 5 else b"")))
    judge("status 8, want of memory", ends == {(5, True), (8, True)}, f"status and whether the text is right: {ends}")


def refused_calls(at):
    """Memory, reads and writes that are refused, each in turn. This needs a C compiler."""
    if not shutil.which(os.environ.get("CC", "cc").split()[0]):
        print("outputs: there is no C compiler, so that no call is refused")
        return
    tried = subprocess.run([f"{TOP}/.ci/refused"], stdout=subprocess.PIPE, timeout=600)
    judge("each allocation, read and write refused", tried.returncode == 0, short(tried.stdout))


def both_builds(at):
    """The program as both compilers built it, on commands, programs and schedules that are drawn."""
    if os.path.isfile(f"{PROGRAM}.by-rattle"):
        tried = subprocess.run([f"{TOP}/.ci/twice", "500"], stdout=subprocess.PIPE, timeout=600)
        judge("both builds of the program", tried.returncode == 0, short(tried.stdout))
    else:
        print("outputs: one build of the program is there, so that no two are compared")


def alone(at):
    """The program is one file of less than 1 MB, and needs the C library alone: a copy runs in another folder."""
    judge("the size of the program", os.path.getsize(PROGRAM) < 1_000_000, f"{os.path.getsize(PROGRAM)} bytes")
    if shutil.which("ldd"):
        needs = subprocess.run(["ldd", PROGRAM], stdout=subprocess.PIPE).stdout.decode().split("\n")
        names = {os.path.basename(it.split()[0]).partition(".")[0] for it in needs if it.strip()}
        is_little = all(it in ("linux-vdso", "libc") or it.startswith("ld-linux") for it in names)
        judge("what the program needs", is_little, f"{names}")
    os.mkdir(f"{at}/copied")
    for path in (PROGRAM, f"{EXAMPLES}/print.mr", f"{EXAMPLES}/print.sched"):
        shutil.copy(path, f"{at}/copied")
    words = ["./mirace", "run", "print.mr", "print.sched"]
    ran = subprocess.run(words, cwd=f"{at}/copied", env={}, stdout=subprocess.PIPE)
    judge("a copy of the program", ran.stdout == b"> 42\nverdict exit\nraces 0\n" and ran.returncode == 0, short(ran.stdout))


def grammar_of_the_page(at):
    """Texts of the reference's grammar, and texts just outside it."""
    wrong, inside, outside = grammar.tried(PROGRAM)
    judge("the grammar of docs/LANGUAGE.md", not wrong, "; ".join(wrong[:5]))
    is_many = min(inside, outside) >= grammar.COUNT
    judge("texts of the grammar, and outside it", is_many, f"{inside} and {outside}")
