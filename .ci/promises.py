"""Compares docs/PROMISES.md with the sources: each clause of a public call has a row, and each row has its clause."""
import os
import re

TOP = os.path.dirname(os.path.dirname(os.path.abspath(__file__)))
# The call whose clauses stand in tables of their own, the file with the parts of its groups, and the section of answers.
TOP_CALL = "mirace"
PROMISES = f"{TOP}/crates/mr_command/specs/Promises.antt"
ANSWERS = "Each answer and its cause"
# Calls of std's traits, whose clauses are the traits' own.
COMMON = {"fmt", "from", "clone", "eq", "next", "drop"}
NAME = re.compile(r"`([A-Za-z_][\w:]*)`")


def read(path):
    with open(path, encoding="utf-8") as it:
        return it.read()


def exported(crate):
    """The names that a crate's root hands on or takes for itself, and those that it declares."""
    for root, taken in (("lib.rt", "pub use"), ("main.rt", "(?:pub )?use")):
        path = f"{TOP}/crates/{crate}/src/{root}"
        if os.path.isfile(path):
            text = read(path)
            listed = re.findall(rf"^{taken} [\w:]+::(\{{[^}}]*\}}|\w+)", text, re.M)
            words = [word.strip() for group in listed for word in group.strip("{}").split(",")]
            own = re.findall(r"^pub (?:fn|struct|enum|trait) (\w+)", text, re.M)
            return {word.split(" as ")[-1] for word in words if word} | set(own)
    return set()


def calls_in(text):
    """The functions of a file: the type or trait they stand in, their name, whether they are public, and their clauses."""
    around, is_trait, found = None, False, []
    for line in text.split("\n"):
        opened = re.match(r"(?:pub )?(impl|trait)\b(?:<.*?>)? ?(.*?)\s*\{?$", line)
        if opened:
            whole = opened.group(2)
            is_trait = opened.group(1) == "trait" or " for " in whole
            around = re.match(r"\w*", whole.split(" for ")[-1]).group()
        elif line == "}":
            around, is_trait = None, False
        begun = re.match(r"( {4})?(pub(?:\([^)]*\))? )?(?:const )?fn (\w+)", line)
        if begun and bool(begun.group(1)) == (around is not None):
            found.append((around, begun.group(3), begun.group(2) == "pub " or is_trait, set()))
        clause = re.match(r"\s*ensures\b\*? ?(\w+)? ?\{", line)
        if clause and found:
            found[-1][3].add(clause.group(1) or "-")
    return found


def sources():
    """The public calls with clauses of all crates: by crate, the clauses of each call."""
    known = {}
    for crate in sorted(os.listdir(f"{TOP}/crates")):
        names, folder = exported(crate), f"{TOP}/crates/{crate}/src"
        calls = known.setdefault(crate, {})
        for name in sorted(os.listdir(folder) if os.path.isdir(folder) else []):
            for around, call, is_public, clauses in calls_in(read(f"{folder}/{name}")) if name.endswith(".rt") else []:
                if is_public and clauses and (around or call) in names and call not in COMMON:
                    calls.setdefault(f"{around}::{call}" if around else call, set()).update(clauses)
    return known


def tables(text):
    """The rows of the tables of a text, each a list of its cells, with the heads of their columns."""
    head = None
    for line in text.split("\n"):
        if not line.startswith("|"):
            head = None
            continue
        cells = [cell.strip() for cell in line.strip("|").split("|")]
        if head is None:
            head = cells
        elif not set(line) <= set("|-"):
            yield head, cells


def sections():
    """The sections of the page: their heads and their texts."""
    return re.findall(r"^## (.*?)\n(.*?)(?=^## |\Z)", read(f"{TOP}/docs/PROMISES.md"), re.M | re.S)


def clauses_of(cell):
    return set(NAME.findall(cell)) | ({"-"} if re.search(r"(^|[\s,`])-($|[\s,`])", cell) else set())


def told(text):
    """The calls of a section's tables with the clauses of their rows."""
    found, calls = {}, []
    for head, cells in tables(text):
        if head[0] in ("call", "law"):
            calls = NAME.findall(cells[0]) or calls
            for call in calls:
                found.setdefault(call, set()).update(clauses_of(cells[1]))
    return found


def compare(judge):
    """Each clause of a public call has a row in its crate's section, and each row's clause is one of the call's."""
    known, rows = sources(), {}
    for head, text in sections():
        if head == ANSWERS:
            continue
        crates = [name for name in NAME.findall(head) if name in known]
        here, said = {call: clauses for crate in crates for call, clauses in known[crate].items()}, told(text)
        for call, clauses in said.items():
            rows.setdefault(call, set()).update(clauses)
            judge(f"PROMISES: {head}: {call} is a call", call in here or any(call in calls for calls in known.values()))
        for call, clauses in here.items():
            if call != TOP_CALL:
                missing, more = clauses - said.get(call, set()), said.get(call, set()) - clauses
                judge(f"PROMISES: {head}: the clauses of {call}", not missing and not more, f"{missing} have no row, {more} no clause")
    top_call(judge, known)
    answers(judge, rows)


def top_call(judge, known):
    """The rows of the top call: its clauses, and the parts of its three groups."""
    text = next(text for head, text in sections() if TOP_CALL in NAME.findall(head))
    said = {kind: set() for kind in ("clause", "part")}
    for head, cells in tables(text):
        if head[0] in said:
            said[head[0]].update(NAME.findall(cells[0]))
    both = [known[crate].get(TOP_CALL, set()) for crate in ("mirace", "mr_command")]
    judge("PROMISES: the clauses of mirace", said["clause"] == both[0] == both[1], f"{said['clause'] ^ both[0]}, {both[0] ^ both[1]}")
    parts = set(re.findall(r"^ {2}pub (\w+) :", read(PROMISES), re.M))
    judge("PROMISES: the parts of its groups", said["part"] == parts, f"{said['part'] ^ parts}")


def answers(judge, rows):
    """The tables of answers: each call has a row above, which has the clause that is named."""
    text = next(text for head, text in sections() if head == ANSWERS)
    parts = set(re.findall(r"^ {2}pub (\w+) :", read(PROMISES), re.M))
    parts |= {name for _, body in sections() for head, cells in tables(body) if head[0] == "clause" for name in NAME.findall(cells[0])}
    calls, count = [], 0
    for head, cells in tables(text):
        count += 1
        if head[0] == "status":
            named = set(NAME.findall(cells[2])) - {"run", "wordless", "other"}
            judge(f"PROMISES: the answer {cells[0]}", named <= parts, f"{named - parts}")
            continue
        calls = [name for name in NAME.findall(cells[0]) if not name.startswith("mr_")] or calls
        have = set().union(*(rows.get(call, set()) for call in calls))
        judge(f"PROMISES: the answer {cells[1]} of {calls}", all(call in rows for call in calls), "no row above")
        judge(f"PROMISES: the clauses of it", clauses_of(cells[3]) <= have, f"{clauses_of(cells[3]) - have}")
    judge("PROMISES: answers are told", count > 40, f"{count} of them")


if __name__ == "__main__":
    results = []

    def tell(what, is_well, why=""):
        results.append(is_well)
        if not is_well:
            print(f"{what}: {why}")

    compare(tell)
    print(f"{sum(results)} passed, {len(results) - sum(results)} failed")
