#!/usr/bin/env python3
"""Which files a new statement, intrinsic, reason, command or form needs: those that name one of its kind, without tests
and pages.

    .ci/files.py [--write]

compares the tables of docs/MAINTAINING.md with the sources, as .ci/outputs does. With the word it writes the counts and
the rows of each table as they must be; what a row says of its files in the last cell is kept where the page has a row
of that crate.
"""
import os
import re
import sys

TOP = os.path.dirname(os.path.dirname(os.path.abspath(__file__)))
PAGE = f"{TOP}/docs/MAINTAINING.md"
# The sections of the page, each with those that are counted: the words that name it, and the crates, where it isn't all
# of them. The table of a section is that of its first.
KINDS = (
    ("A new statement", (("Deinit", ()),)),
    ("A new intrinsic", (("FetchXor", ()), ("AtomicStore", ()), ("CompareExchange", ()), ("Deallocate", ()))),
    ("A new reason", (("UnknownThread", ()), ("AssumeFalse", ()), ("ZeroDivisor", ()))),
    ("A new command", (("Canonical|Check", ("mr_command", "mirace")),)),
    ("A command that reads another kind of file", (("OfTrace", ()),)),
    ("A report in another form", (("Short", ("mr_answer", "mr_command")),)),
    ("A new form of the companion", (("Order|order_help|OF_ORDERED", ("mr_show", "mirace_show")),
                                     ("Races|races_help|OF_RACES", ("mr_show", "mirace_show")),
                                     ("CheckedProgram|check_help|OF_CHECK", ("mr_show", "mirace_show")))),
)
FOLDERS = ("specs", "src", "proofs")


def read(path):
    with open(path, encoding="utf-8") as it:
        return it.read()


def sources():
    """The texts of all crates that aren't tests, by crate, folder and file; without examples, and without proofs/Common,
    which passes on names that stand elsewhere: a new one can be named where it is used."""
    found = {}
    for crate in sorted(it for it in os.listdir(f"{TOP}/crates") if not it.endswith(("_tests", "_cases"))):
        for part in FOLDERS:
            top = f"{TOP}/crates/{crate}/{part}"
            for folder, _, names in os.walk(top):
                for name in (it for it in names if it.endswith((".rt", ".antt")) and not re.search("Examples|^Common", it)):
                    path = os.path.relpath(f"{folder}/{name}", top).rsplit(".", 1)[0]
                    found[crate, part, path] = read(f"{folder}/{name}")
    return found


def naming(texts, words, crates):
    """The files that have one of the words, other than as the name of a file of definitions."""
    word, each = re.compile(rf"(?<!specs\.)\b(?:{words})\b"), words.split("|")
    has = lambda text: any(it in text for it in each) and word.search(text)
    return sorted(key for key, text in texts.items() if (not crates or key[0] in crates) and has(text))


def rows(files):
    """The first two cells of a table's rows: each crate, and its files."""
    found = {}
    for crate, part, path in sorted(files, key=lambda it: (it[0], FOLDERS.index(it[1]), it[2])):
        found.setdefault(crate, {}).setdefault(part, []).append(path)
    cells = lambda parts: "; ".join(f"`{part}/` {', '.join(names)}" for part, names in parts.items())
    return [(f"`{crate}`", cells(parts)) for crate, parts in found.items()]


def section(head):
    """The text of a section of the page, up to the next one."""
    found = re.search(rf"^#+ {re.escape(head)}\n(.*?)(?=^#|\Z)", read(PAGE), re.M | re.S)
    return found.group(1) if found else ""


def shown(text):
    """The rows of a section's table that are of crates, each a list of its cells."""
    lines = [line for line in text.split("\n") if line.startswith("| `")]
    return [[cell.strip() for cell in line.strip().strip("|").split("|")] for line in lines]


def count_shown(text, words):
    """How many files a section says that these words stand in."""
    named = r"`,\s+`".join(words.split("|"))
    found = re.search(rf"\b(\d+)(?: files)?\s+\(`{named}`\)", text)
    return int(found.group(1)) if found else None


def compare(judge):
    """The tables and counts of docs/MAINTAINING.md are those of the sources."""
    texts = sources()
    for head, counted in KINDS:
        text = section(head)
        judge(f"MAINTAINING: a section: {head}", bool(text))
        for words, crates in counted:
            count, told = len(naming(texts, words, crates)), count_shown(text, words)
            what = f"MAINTAINING: {head}: the count of files that name {words}"
            judge(what, count == told, f"{told} is told, and {count} have it")
        mine = [tuple(cells[:2]) for cells in shown(text)]
        wanted = rows(naming(texts, *counted[0]))
        unlike = sorted(set(mine) ^ set(wanted))
        judge(f"MAINTAINING: {head}: its table", mine == wanted, f".ci/files.py --write tells it; unlike is {unlike}")


def write():
    texts = sources()
    for head, counted in KINDS:
        told = {cells[0]: cells[2] for cells in shown(section(head)) if len(cells) > 2}
        print(f"## {head}\n")
        for words, crates in counted:
            print(f"{len(naming(texts, words, crates))} files (`{'`, `'.join(words.split('|'))}`)")
        print("\n| crate | files | what |\n|---|---|---|")
        for crate, files in rows(naming(texts, *counted[0])):
            print(f"| {crate} | {files} | {told.get(crate, '')} |")
        print()


def main():
    if sys.argv[1:] == ["--write"]:
        return write()
    results = []

    def tell(what, is_well, why=""):
        results.append(is_well)
        if not is_well:
            print(f"{what}: {why}")

    compare(tell)
    print(f"{sum(results)} passed, {len(results) - sum(results)} failed")
    return not all(results)


if __name__ == "__main__":
    sys.exit(main())
