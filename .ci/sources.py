"""What reads the sources and the pages alone: edits, examples and their copies, exercises, links, rows of figures; and
that release/ has what was built."""
import hashlib
import os
import re
import subprocess
import tempfile

import memory
import speed
from judging import CASES, CLASS, EXAMPLES, EXERCISES, TOP, judge, read

# The programs that release/ has.
RELEASED = ("mirace", "mirace_show")
# How many tasks the page of exercises has, and the most lines of README.
TASKS, README_LINES = 15, 150
# The most must-fail edits of a crate; the crates of the top call together have twice as many. And those of all crates.
TOP_CRATES = {"mirace", "mr_command", "mr_answer", "mr_input"}
MOST_EDITS = 6
MOST_EDITS_IN_ALL = 130
# The wrong bodies that must have an edit, each with what it does.
WRONG_BODIES = (
    ("witness_is_the_prefix", "A witness keeps each entry before the race but the first step of the pair."),
    ("witness_drops_too_much", "A witness drops steps too that are before neither step of the pair."),
    ("only_the_first_pair", "Of the races of a run the first one alone is listed."),
    ("edge_between_racing_atomics", "Two steps that race have an edge, so that no race is seen across them."),
    ("earlier_readers_forgotten", "A store is compared with earlier stores of its bytes, and not with earlier loads."),
    ("woken_threads_ignored", "A step that woke the thread of the next one isn't taken for what orders the two."),
    ("old_provenance_kept", "A byte that is written over keeps the provenance that it had."),
    ("first_provenance_wins", "A pointer whose bytes differ in provenance gets that of the first one."),
    ("padding_is_zero", "The padding of a value is stored as zeros, and not as uninitialised bytes."),
    ("dead_range_reused", "The range of a freed allocation is given to a later one."),
    ("leading_zero_taken", "A number that begins with a zero is taken, where it has more digits."),
    ("rest_unread", "What stands behind the end of a program isn't read, so that it is no fault."),
    ("unwind_target_skipped", "The block that a call unwinds to is not judged."),
    ("release_wakes_all", "A release wakes each thread that waits for the lock, and gives the lock to none."),
    ("always_read_fault", "Each read is told as failed, whatever the files tell."),
    ("reads_a_decoy", "The file of the program is read in place of the schedule."),
    ("always_write_fault", "Each write of some bytes is told as failed, whatever the sink takes."),
    ("every_entry_refused", "The entries of each schedule are refused, whatever they are."),
)
# The libraries that the project stands on.
LIBRARIES = ("indexmap", "smallvec", "itoa", "serde_json", "thiserror")


def stripped(path):
    """The bytes of a program without its tables of symbols, where it is there."""
    with tempfile.TemporaryDirectory() as at:
        ran = subprocess.run(("strip", "-o", f"{at}/it", path), stderr=subprocess.DEVNULL)
        return read(f"{at}/it") if ran.returncode == 0 else None


def released():
    """What release/ has is what was built, byte for byte, without tables of symbols; and its sums are those."""
    sums = ""
    for name in RELEASED:
        built, kept = f"{TOP}/crates/{name}/out/{name}", f"{TOP}/release/{name}"
        is_built = os.access(kept, os.X_OK) and stripped(built) == read(kept)
        judge(f"release/{name}", is_built, "not what was built: .ci/release takes what was")
        sums += f"{hashlib.sha256(read(kept)).hexdigest()}  {name}\n"
    judge("release/SHA256SUMS", read(f"{TOP}/release/SHA256SUMS") == sums.encode(), "these aren't the sums: .ci/release")


def same_examples():
    """The programs and schedules of examples/ and the files at the top of data/ are the same, and so are those of the
    programs' own stored runs."""
    for crate in ("mirace", "mirace_show"):
        own = f"{TOP}/crates/{crate}/data"
        for name in sorted(os.listdir(own)):
            example = f"{EXAMPLES}/{name}"
            judge(f"{name} in examples/ and in data/ of {crate}", os.path.isfile(example) and read(example) == read(f"{own}/{name}"))
    kept = {it for it in os.listdir(EXAMPLES) if it.endswith((".mr", ".sched", ".order"))}
    for name in sorted(kept | {it for it in os.listdir(CASES) if os.path.isfile(f"{CASES}/{it}")}):
        both = [f"{EXAMPLES}/{name}", f"{CASES}/{name}"]
        is_same = all(map(os.path.isfile, both)) and read(both[0]) == read(both[1])
        judge(f"{name} in examples/ and in data/ of mirace_cases", is_same)
    for name in sorted(set(os.listdir(CLASS)) | set(os.listdir(f"{CASES}/class"))):
        both = [f"{CLASS}/{name}", f"{CASES}/class/{name}"]
        is_same = all(map(os.path.isfile, both)) and read(both[0]) == read(both[1])
        judge(f"{name} in examples/class and in data/class of mirace_cases", is_same)


def exercises():
    """Each task has an answer, and each file of the exercises is named by a page."""
    tasks, answers = (read(f"{TOP}/docs/EXERCISES.md").decode(), read(f"{EXERCISES}/README.md").decode())
    titles = re.findall(r"^## (\d+\. .*)$", tasks, re.M)
    numbers = [it.partition(".")[0] for it in titles]
    judge("the numbers of the tasks", numbers == [str(1 + k) for k in range(TASKS)], f"{titles}")
    judge("each task has an answer", titles == re.findall(r"^## (\d+\. .*)$", answers, re.M))
    for part in re.split(r"^## ", answers, flags=re.M)[1:]:
        judge(f"the answer to {part.split(chr(10))[0]}: it is run", "\n$ " in part)
    for name in sorted(it for it in os.listdir(EXERCISES) if it != "README.md"):
        where = answers if "-solved" in name else tasks + answers
        judge(f"examples/exercises/{name}: a page names it", name in where)


def figures():
    """The rows of the page of figures are the cases of speed.py, in their order."""
    rows = re.findall(r"^\| (.*?) \| [^|]* \| [^|]* \| [^|]* MiB \|$", read(f"{TOP}/docs/SPEED.md").decode(), re.M)
    judge("the rows of docs/SPEED.md are the cases of speed.py", rows == [it.what for it in speed.cases()])


def lines_of_readme():
    """README has no more lines than it may have."""
    count = read(f"{TOP}/README.md").count(b"\n")
    judge("the lines of README", count <= README_LINES, f"{count} of them")


def anchors(path):
    """The names by which the headings of a page are linked to."""
    text = re.sub(r"^```.*?^```", "", read(path).decode(), flags=re.M | re.S)
    titles = re.findall(r"^#+ (.*)$", text, re.M)
    return {re.sub(r"[^\w\- ]", "", it.lower()).replace(" ", "-") for it in titles}


def links():
    """Each link of a page leads to a file or folder of the clone and, where it names one, to a heading of it."""
    count = 0
    for folder in ("", "docs", "examples", "examples/trace", "examples/exercises"):
        for name in sorted(it for it in os.listdir(f"{TOP}/{folder}") if it.endswith(".md")):
            text = re.sub(r"^```.*?^```", "", read(f"{TOP}/{folder}/{name}").decode(), flags=re.M | re.S)
            for link in re.findall(r"\]\(([^)\s]*)\)", text):
                path, _, anchor = link.partition("#")
                to = os.path.normpath(f"{TOP}/{folder}/{path or name}")
                is_there = os.path.exists(to) and (not anchor or anchor in anchors(to))
                judge(f"{folder}/{name}: the link {link}", is_there, "it leads nowhere")
                count += 1
    judge("links of pages", count > 100, f"{count} of them")


def edits():
    """Each must-fail edit can be made: each old text stands once in its file, behind the pairs before it. And there are
    so many."""
    counts = {}
    for crate in sorted(os.listdir(f"{TOP}/crates")):
        folder = f"{TOP}/crates/{crate}/must-fail"
        for name in listed(folder):
            what, texts, path, old, pairs = f"{crate}: {name}", {}, None, None, 0
            judge(f"{what}: an edit's name", re.fullmatch(r"[a-z][a-z0-9_]*\.edit", name))
            for line in read(f"{folder}/{name}").decode().split("\n"):
                if line.startswith("file: "):
                    path = f"{TOP}/crates/{crate}/{line[6:].strip()}"
                    judge(f"{what}: {line}", os.path.isfile(path) and path.endswith(".rt"), "no source of the crate")
                    texts.setdefault(path, read(path).decode() if os.path.isfile(path) else "")
                elif line.startswith("old: "):
                    old = line[5:]
                elif line.startswith("new: ") and path and old is not None:
                    count = texts[path].count(old)
                    judge(f"{what}: {old.strip()}", count == 1 and line[5:] != old, f"it stands {count} times in its file")
                    texts[path], old, pairs = texts[path].replace(old, line[5:]), None, pairs + 1
                else:
                    judge(f"{what}: {line}", not line, "no line of an edit")
            judge(f"{what}: whole pairs", pairs > 0 and old is None)
            group = "mirace" if crate in TOP_CRATES else crate
            counts[group] = counts.get(group, 0) + 1
    for crate, count in counts.items():
        judge(f"{crate}: the count of its edits", count <= MOST_EDITS * (1 + (crate == "mirace")), f"{count} of them")
    judge("the count of all edits", sum(counts.values()) <= MOST_EDITS_IN_ALL, f"{sum(counts.values())} of them")


def wrong_bodies():
    """Each wrong body that must have a must-fail edit has one, by its name."""
    found = {name for crate in os.listdir(f"{TOP}/crates") for name in listed(f"{TOP}/crates/{crate}/must-fail")}
    for name, what in WRONG_BODIES:
        judge(f"must-fail: {name}", f"{name}.edit" in found, f"there is no edit of this name: {what}")


def listed(folder):
    """The names in a folder, if it is there."""
    return sorted(os.listdir(folder)) if os.path.isdir(folder) else []


def libraries():
    """Each library that the project stands on is used in the code of a crate that is no test."""
    lines = {it for _, text in memory.sources() for it in memory.bare(text) if not it.lstrip().startswith("ghost")}
    for name in LIBRARIES:
        used = re.compile(rf"(?<![\w:.]){name}::")
        judge(f"the library {name}", any(used.search(line) for line in lines), "no code of a crate uses it")
