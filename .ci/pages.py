"""Each block of output that the pages show, the script that hunts, and the twins in C.

A fenced block of a page with no word behind its fence is one of these two:

- a file: its first line is `# file NAME`, and what stands behind that line is written to a file of this name;
- commands: its first line is `$ ` and a command of `mirace` or `mirace_show`, a loop over `mirace`, a script of
  examples/ (hunt, explore, exercises/mark, trace/trace.py), or one of `cd`, `sed` and `cmp`. Below each stands what it
  writes.

A block that is neither, as a picture, has a word behind its fence. The commands of a page are run by a shell, in a
folder of their own. It has the page's files and links to all that stands at the top of the clone, or in the page's
folder below examples/. Each witness that a page prints is run as a schedule."""
import itertools
import os
import re
import shlex
import shutil
import subprocess
import tempfile

import companion
from judging import EXAMPLES, EXERCISES, PROGRAM, TOP, judge, read, replay, run, short, write

TWINS = f"{EXAMPLES}/beside"
HUNT = f"{EXAMPLES}/hunt"
# The commands that a page may have, beside a loop over `mirace` and the script of examples/trace/.
COMMANDS = (
    "mirace", "mirace_show", "cd", "sed", "cmp", "examples/hunt", "../hunt", "examples/explore", "../explore",
    "examples/exercises/mark", "./mark")
# The most columns of a line of prose, and the most characters of a cell of a table.
WIDEST_LINE, WIDEST_CELL = 120, 300
# The pages that show output, each with the folder whose entries its commands find.
PAGES = (
    ("README.md", TOP), ("docs/GUIDE.md", TOP), ("docs/LANGUAGE.md", TOP), ("docs/OWN.md", TOP),
    ("docs/HUNTING.md", TOP), ("docs/RECIPES.md", TOP), ("docs/CLASS.md", TOP), ("docs/COURSE.md", TOP),
    ("docs/EXERCISES.md", TOP), ("docs/PICTURES.md", TOP), ("docs/BESIDE.md", TOP), ("docs/EDITORS.md", TOP),
    ("examples/README.md", EXAMPLES), ("examples/exercises/README.md", EXERCISES))


def blocks(name):
    """The fenced blocks of a page: the line of each, what stands behind its fence, and its lines."""
    found, inside = [], None
    for number, line in enumerate(read(f"{TOP}/{name}").decode().split("\n"), 1):
        if line.startswith("```"):
            if inside:
                found.append(inside)
            inside = None if inside else (number, line[3:], [])
        elif inside:
            inside[2].append(line)
    judge(f"{name}: each block is closed", not inside)
    return found


def commands(lines):
    """The commands of a block, each with what is shown behind it."""
    found = []
    for line in lines:
        if line.startswith("$ "):
            found.append([line[2:], ""])
        else:
            found[-1][1] += line + "\n"
    return found


def first_words(command):
    """The words of a command up to a `;` that stands in no quotes."""
    lexer = shlex.shlex(command, posix=True, punctuation_chars=";|>&")
    lexer.whitespace_split, lexer.commenters = True, ""
    return list(itertools.takewhile(lambda it: it != ";", lexer))


def shown(where, lines, at):
    """The commands of a block, run in a folder."""
    how = {"stdin": subprocess.DEVNULL, "stdout": subprocess.PIPE, "timeout": 60}
    built = ":".join(map(os.path.dirname, (PROGRAM, companion.COMPANION)))
    how["env"] = {**os.environ, "PATH": f"{built}:{os.environ['PATH']}"}
    for command, text in commands(lines):
        words = first_words(command)
        is_loop = words[0] == "for" and "; do mirace " in command
        is_script = words[:2] == ["python3", "examples/trace/trace.py"]
        judge(f"{where}: {command}: a command that a page may have", is_loop or is_script or words[0] in COMMANDS)
        if words[0] == "cd":
            at = f"{at}/{words[1]}"
            judge(f"{where}: {command}", os.path.isdir(at) and not text, "no such folder, or something is shown behind it")
            continue
        wrote = subprocess.run(["sh", "-c", command], cwd=at, **how).stdout
        judge(f"{where}: {command}", wrote == text.encode(), f"it shows {text!r}, and {short(wrote)} is written")
        if words[:2] == ["mirace", "run"] and len(words) == 4:
            wrote, _ = run(words[1:], at)
            replay(f"{where}: {command}", words[2], wrote, at)


def page(name, folder):
    """The blocks of a page, in their order."""
    found = blocks(name)
    judge(f"{name}: it shows output", any(lines[:1] and lines[0].startswith("$ ") for _, _, lines in found))
    with tempfile.TemporaryDirectory() as above:
        at = f"{above}/the-page"
        os.mkdir(at)
        for below, it in ((at, folder), *([(above, os.path.dirname(folder))] if folder != TOP else [])):
            for entry in os.listdir(it):
                os.symlink(f"{it}/{entry}", f"{below}/{entry}")
        for number, word, lines in found:
            where = f"{name}:{number}"
            first = lines[0] if lines else ""
            if word:
                judge(f"{where}: what is shown of a command has no word behind its fence", not first.startswith("$ "))
            elif first.startswith("# file "):
                is_new = not os.path.lexists(f"{at}/{first[7:]}")
                judge(f"{where}: {first}, one of this name", is_new)
                if is_new:
                    write(at, first[7:], "".join(line + "\n" for line in lines[1:]).encode())
            else:
                is_shown = first.startswith("$ ")
                judge(f"{where}: a block is a file, or begins with a command, or has a word behind its fence", is_shown)
                if is_shown:
                    shown(where, lines, at)


def pages(at):
    """The blocks of all pages that show output: what each command shows is what it writes."""
    for name, folder in PAGES:
        judge(f"{name} is there", os.path.isfile(f"{TOP}/{name}"))
        if os.path.isfile(f"{TOP}/{name}"):
            page(name, folder)


def widths():
    """The pages that show output have lines of prose of at most 120 columns, and cells of tables of at most 300
    characters."""
    for name, _ in PAGES:
        text = re.sub(r"^```.*?^```", "", read(f"{TOP}/{name}").decode(), flags=re.M | re.S)
        rows = [it for it in text.split("\n") if it.startswith("|")]
        cells = [it.strip() for row in rows for it in re.split(r"(?<!\\)\|", row) if len(it.strip()) > WIDEST_CELL]
        lines = [it for it in text.split("\n") if len(it) > WIDEST_LINE and not it.startswith(("|", "!"))]
        judge(f"{name}: its lines and cells are short", not lines and not cells, "; ".join((lines + cells)[:3]))


def hunts(at):
    """The script that hunts: its statuses, and that it finds the first number."""
    how = {"cwd": at, "stdin": subprocess.DEVNULL, "stdout": subprocess.PIPE, "stderr": subprocess.DEVNULL}
    how |= {"timeout": 60, "env": {**os.environ, "MIRACE": PROGRAM, "MIRACE_SHOW": companion.COMPANION}}
    plain = b"numbers 3 to 40: each run ends with exit and lists no race\n"
    for what, words, text, status in (
            ("no words", [], b"", 2), ("a number that is none", ["print.mr", "0", "x", "10"], b"", 2),
            ("numbers that fall", ["print.mr", "5", "4", "10"], b"", 2),
            ("an aim that is none", ["print.mr", "0", "9", "10", "fault"], b"", 2),
            ("no such reason", ["print.mr", "3", "40", "10", "Nothing"], b"", 2),
            ("a reason that no run has", ["print.mr", "3", "40", "10", "FreeKind"],
             b"numbers 3 to 40: no run shows FreeKind\n", 0),
            ("a program that breaks a rule", ["ill-formed.mr", "0", "9", "10"], b"form main b0 2 32 BlockKind\n", 4),
            ("no program", ["missing.mr", "0", "9", "10"], b"read program\n", 6),
            ("nothing to find", ["print.mr", "3", "40", "10"], plain, 0)):
        words = [f"{EXAMPLES}/{words[0]}", *words[1:]] if words else []
        ran = subprocess.run([HUNT, *words], **how)
        told = f"{short(ran.stdout)} and {ran.returncode}"
        judge(f"hunt: {what}", (ran.stdout, ran.returncode) == (text, status), told)
    for name in ("use-after-free", "deadlock"):
        program = f"{EXAMPLES}/{name}.mr"
        runs = {n: run(["auto", program, str(n), "300"], at)[0] for n in range(40)}
        first = min(n for n, it in runs.items() if not it.endswith(b"\nverdict exit\nraces 0\n"))
        ran = subprocess.run([HUNT, program, "0", "39", "300"], **how)
        head = runs[first][re.search(rb"^[>v]", runs[first], re.M).start():].partition(b"witness ")[0]
        wanted = b"number %d\n%sshown by: mirace auto %s %d 300\n" % (first, head, program.encode(), first)
        judge(f"hunt: {name}", (ran.stdout, ran.returncode) == (wanted, 1), f"{short(ran.stdout)}, not {short(wanted)}")


def aimed_hunts(at):
    """The script that hunts, by its aims: it finds the first number whose report shows what is looked for, and with a
    file of its state it goes on behind that."""
    how = {"cwd": at, "stdin": subprocess.DEVNULL, "stdout": subprocess.PIPE, "stderr": subprocess.DEVNULL}
    how |= {"timeout": 60}
    how["env"] = {**os.environ, "MIRACE": PROGRAM, "MIRACE_SHOW": companion.COMPANION, "JOBS": "3"}
    known = "not DeadAllocation"
    for name, aim, wanted in (
            ("deadlock", "deadlock", rb"^verdict deadlock$"), ("use-after-free", "undefined", rb"^verdict undefined "),
            ("use-after-free", "DeadAllocation", rb"^verdict undefined 105 "), ("race", "race", rb"^race [0-9]"),
            ("lost-update", "prints 1", rb"^> 1$"), ("leak", "leak", rb"^verdict leak$"),
            ("race", "lines 7 13", rb"^race [0-9]"), ("race", "lines 7 14", rb"^nothing$"),
            ("race", "rust", rb"^race [0-9]"), ("flag", "rust", rb"^nothing$"),
            ("exit", "running", rb"^verdict running$"), ("use-after-free", known, rb"^verdict (?!exit|undefined)")):
        program = f"{EXAMPLES}/{name}.mr"
        reports = {n: run(["auto", program, str(n), "300"], at)[0] for n in range(30)}
        fits = [n for n, it in reports.items() if re.search(wanted, it, re.M)]
        for n in fits[:2] + [None] * (len(fits) < 2):
            ran = subprocess.run([HUNT, program, "0", "29", "300", aim, f"{name} {aim}.state"], **how)
            is_told = ran.stdout.startswith(b"number %d\n" % n) if n is not None else b" no run shows " in ran.stdout
            judge(f"hunt: {name}: {aim}: {n}", is_told and ran.returncode == (n is not None), short(ran.stdout))
    other = subprocess.run([HUNT, f"{EXAMPLES}/leak.mr", "0", "29", "300", "race", "leak leak.state"], **how)
    judge("hunt: a state of another hunt", (other.stdout, other.returncode) == (b"", 2), short(other.stdout))
    done = subprocess.run([HUNT, f"{EXAMPLES}/exit.mr", "0", "29", "300", "running", "exit running.state"], **how)
    told = b"numbers 0 to 29: all are done\n"
    judge("hunt: a hunt that is done", (done.stdout, done.returncode) == (told, 0), short(done.stdout))


def twins(at):
    """The C programs of examples/beside/ are compiled without a warning, and each example with threads has one."""
    programs = sorted(it[:-3] for it in os.listdir(EXAMPLES) if it.endswith(".mr"))
    names = [it for it in programs if b"do spawn(" in read(f"{EXAMPLES}/{it}.mr")]
    made = sorted(it[:-2] for it in os.listdir(TWINS) if it.endswith(".c"))
    judge("each example with threads has a twin", names == made, f"{names}, not {made}")
    if not shutil.which("gcc"):
        print("outputs: there is no gcc: the programs of examples/beside are left out")
        return
    for name in names:
        words = ["gcc", "-Wall", "-Wextra", "-O0", "-g", "-pthread", f"{TWINS}/{name}.c", "-o", f"{at}/twin"]
        made = subprocess.run(words, stderr=subprocess.PIPE, timeout=60)
        is_well = made.returncode == 0 and not made.stderr
        judge(f"examples/beside/{name}.c is compiled without a warning", is_well, short(made.stderr))
