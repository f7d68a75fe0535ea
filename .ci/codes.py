"""Makes what crates/mr_why says of each code of the table of codes, which is docs/CODES.md: the definitions (specs/), the
code (src/) and the law of the numbers (proofs/): `python3 .ci/codes.py --write`, and then `rt fmt` in the crate. Without the
word it compares them with the page, as .ci/outputs does: each text of the page stands in both, at its rule or reason. It
looks whether each code that the sources have is on the page, by its name, and whether the page's lines are laid out."""
import os
import re
import sys
import textwrap

TOP = os.path.dirname(os.path.dirname(os.path.abspath(__file__)))
PAGE = f"{TOP}/docs/CODES.md"
CRATE = f"{TOP}/crates/mr_why"
FIELDS = ("what", "cause", "next", "example")
LABELS = {"cause": "Usual cause", "next": "What to do", "example": "Example"}
# The files that number and name rules, faults and reasons, and those with the numbers that are constants.
NAMED = ("mr_lex/src/rule.rt", "mr_ast/src/rule.rt", "mr_sched/src/rule.rt", "mr_base/src/trace_rule.rt", "mr_base/src/reason.rt")
NUMBERS = ("mr_lex/src/lib.rt", "mr_sched/src/fault.rt", "mr_base/src/trace_rule.rt")
HEAD = """# Codes

Each code that `mirace` tells: its name, what it says, what usually causes it, what to do next, and the smallest
example. This page is the table of `mirace_show why CODE`: `.ci/codes.py` makes what `crates/mr_why` says of it.
"""


class Part:
    """A part of the page: up to which code, what its codes are of, which status tells them, and where they come from."""

    def __init__(self, most, head, line, module, what, crate, kind, path):
        self.most, self.head, self.line, self.module, self.what = most, head, line, module, what
        self.crate, self.kind, self.path = crate, kind, path
        self.function = f"said_of_{module.rstrip('s')}"

    def stem(self):
        return f"-- What is said of {self.what}. This file is made of docs/CODES.md by .ci/codes.py.\n"


PARTS = (
    Part(9, "Texts of programs", "`text LINE COLUMN CODE NAME`, with status 3.", "texts", "the rules of texts", "mr_lex", "TextRule", "rule.TextRule"),
    Part(47, "Programs", "`form ITEM BLOCK PLACE CODE NAME`, with status 4.", "programs", "the rules of programs", "mr_ast", "Rule", "rule.Rule"),
    Part(68, "Schedules", "`schedule LINE CODE NAME`, with status 5.", "schedules", "the rules of schedules", "mr_sched", "ScheduleRule", "rule.ScheduleRule"),
    Part(74, "Traces", "`trace OFFSET CODE NAME`, with status 9.", "traces", "the faults of traces", "mr_base", "TraceRule", "trace_rule.TraceRule"),
    Part(255, "Undefined behaviour", "`verdict undefined CODE NAME`, in a report.", "reasons", "the reasons of undefined behaviour", "mr_base", "Reason", "reason.Reason"))


def read(path):
    with open(path, encoding="utf-8") as it:
        return it.read()


def joined(text):
    """The lines of a paragraph, as one."""
    return re.sub(r"\n *", " ", text.strip())


def entries():
    """The entries of the page, each a dict of its fields."""
    found = []
    for block in re.split(r"\n(?=\*\*\d+ \w+\.\*\* )", re.sub(r"(?m)^## .*$", "", read(PAGE)))[1:]:
        code, name, what = re.match(r"\*\*(\d+) (\w+)\.\*\* ((?:.+\n)+)", block).groups()
        entry = {"code": int(code), "name": name, "what": joined(what)}
        for field, label in LABELS.items():
            entry[field] = joined(re.search(rf"^- {label}: (.+\n(?:  .+\n)*)", block + "\n", re.M).group(1))
        found.append(entry)
    return found


def part_of(entry):
    return next(part for part in PARTS if entry["code"] <= part.most)


def names():
    """The names of all codes, as the sources have them."""
    numbers, found = {}, {}
    for name in NUMBERS:
        own = re.findall(r"const ([A-Z_]+): u8 = (\d+);", read(f"{TOP}/crates/{name}"))
        numbers.update({(name.split("/")[0], word): code for word, code in own})
    for name in NAMED:
        text, crate = read(f"{TOP}/crates/{name}"), name.split("/")[0]
        words = dict(re.findall(r'(?:\w+)::(\w+) => "(\w+)"', text))
        for variant, code in re.findall(r"(?:\w+)::(\w+) => (\w+),", text):
            if code.isdigit() or (crate, code) in numbers:
                found[int(numbers.get((crate, code), code))] = words[variant]
    return found


# ---- the page

def wrapped(text, first, then):
    return textwrap.fill(text, 120, initial_indent=first, subsequent_indent=then, break_on_hyphens=False, break_long_words=False)


def page(table):
    """The page, laid out."""
    lines, least = [HEAD], 0
    for part in PARTS:
        lines.append(f"## {part.head}\n\n{part.line}\n")
        for entry in table:
            if least < entry["code"] <= part.most:
                lines.append(wrapped(f"**{entry['code']} {entry['name']}.** {entry['what']}", "", ""))
                lines.append("")
                lines += [wrapped(f"{label}: {entry[field]}", "- ", "  ") for field, label in LABELS.items()]
                lines[-1] += "\n"
        least = part.most
    return "\n".join(lines).rstrip("\n") + "\n"


# ---- the files of the crate

def pieces(text, width):
    """The pieces of a text, none of which is longer; they end in a blank where the text goes on."""
    found = [""]
    for word in re.findall(r"\S+ *", text):
        if len(found[-1]) + len(word) > width:
            found.append("")
        found[-1] += word
    return found


def definition(part, table):
    """The file of specs/: what is said of each, by cases."""
    reasons = part.module == "reasons"
    lines = [part.stem() + f"use Rattle.std.specs.Prelude.{{{'ℕ, ◌==◌, List, [], ◌∷◌, Option, ' if reasons else ''}◌++◌, codes}}"]
    if reasons:
        lines.append("use Rattle.std.specs.List.{find}\nuse Rattle.mr_base.specs.Reasons.{code_of}")
    lines.append(f"use Rattle.{part.crate}.specs.declared.{part.path}.{{{part.kind}}}")
    lines.append(f"use Rattle.{part.crate}.specs.declared.{part.path}.TheVariants as it")
    lines.append(f"use Rattle.mr_why.specs.Words.{{Words}}\n\nabbrev pub {part.function} : {part.kind} → Words")
    for entry in table:
        lines.append(f"{part.function} it.{entry['name']} = record {{")
        for field in FIELDS:
            parts = [f'codes "{piece}"' for piece in pieces(entry[field], 96)]
            lines.append(f"  {field} =" + (f" {parts[0]};" if len(parts) == 1 else "\n      " + "\n      ++ ".join(parts) + ";"))
        lines.append("}")
    return "\n".join(lines) + "\n" + (by_number(part, table) if reasons else "")


def by_number(part, table):
    """What stands behind it for reasons: all of them, and the one of a number, where there is one."""
    rows = [" ∷ ".join(f"it.{entry['name']}" for entry in table[k:k + 4]) + " ∷" for k in range(0, len(table), 4)]
    listed = "\n    ".join(rows) + " []"
    return (f"\n-- all of them, by their numbers\nabbrev pub reasons : List {part.kind}\nreasons =\n    {listed}\n\n"
            f"-- the one of a number, where there is one\nabbrev pub reason_of : ℕ → Option {part.kind}\n"
            "reason_of code = find (λ r. code_of r == code) reasons\n")


def code_by_number(part, table):
    """The same by an arm for each."""
    arms = "".join(f"        {entry['code']} => Some({part.kind}::{entry['name']}),\n" for entry in table)
    return (f"\n/// The reason of a number, where there is one.\npub(crate) fn reason_of(code: u16) -> Option<{part.kind}>\n"
            f"    ensures {{ result ≡ reason_of code }}\n{{\n    match code {{\n{arms}        _ => None,\n    }}\n}}\n")


def literal(text):
    return '"' + "\\\n                ".join(pieces(text, 90)) + '"'


def code(part, table):
    """The file of src/: the same, by an arm for each."""
    lines = [f"//! What is said of {part.what}. This file is made of docs/CODES.md by .ci/codes.py."]
    lines.append("ghost use Rattle.std.specs.Prelude.{◌≡◌};")
    lines.append("ghost use Rattle.mr_why.specs.Words.{words_of};")
    lines.append(f"ghost use Rattle.mr_why.specs.{part.module.capitalize()}.{{{part.function}}};\n")
    lines.append(f"use crate::said::Said;\nuse {part.crate}::{part.kind};\n")
    lines.append(f"/// What is said of one of {part.what}.")
    lines.append(f"pub(crate) fn {part.function}(it: {part.kind}) -> Said")
    lines.append(f"    ensures {{ words_of result ≡ {part.function} it }}\n{{\n    match it {{")
    for entry in table:
        lines.append(f"        {part.kind}::{entry['name']} => Said {{")
        lines += [f"            {field}: {literal(entry[field])}," for field in FIELDS]
        lines.append("        },")
    return "\n".join(lines) + "\n    }\n}\n"


def code_by_field(part, table):
    """The same by a function for each field, where there are many entries."""
    lines = [f"//! What is said of {part.what}. This file is made of docs/CODES.md by .ci/codes.py."]
    lines.append("ghost use Rattle.std.specs.Prelude.{◌≡◌};")
    lines.append("ghost use Rattle.mr_why.specs.Words.{words_of};")
    lines.append(f"ghost use Rattle.mr_why.specs.{part.module.capitalize()}.{{reason_of, {part.function}}};\n")
    lines.append(f"use crate::said::Said;\nuse {part.crate}::{part.kind};\n")
    for field in FIELDS:
        lines.append(f"// {LABELS.get(field, 'What it says')}.\nfn {field}_of(it: {part.kind}) -> &'static str")
        lines.append(f"    ensures {{ result.now ≡ ({part.function} it).{field} }}\n{{\n    match it {{")
        for entry in table:
            lines.append(f"        {part.kind}::{entry['name']} => {literal(entry[field])},")
        lines.append("    }\n}\n")
    lines.append(f"/// What is said of one of {part.what}.")
    lines.append(f"pub(crate) fn {part.function}(it: {part.kind}) -> Said")
    lines.append(f"    ensures {{ words_of result ≡ {part.function} it }}\n{{\n    Said {{")
    lines += [f"        {field}: {field}_of(it)," for field in FIELDS]
    return "\n".join(lines) + "\n    }\n}\n" + code_by_number(part, table)


def law(table):
    """The file of proofs/: each rule and each reason is found by its number."""
    lines = ["-- Each rule and each reason is found by its number. This file is made of docs/CODES.md by .ci/codes.py."]
    lines.append("use Rattle.std.specs.Prelude.{◌≡◌, Some}\nuse Rattle.std.proofs.Common.{refl}")
    for part in PARTS:
        lines.append(f"use Rattle.{part.crate}.specs.declared.{part.path}.{{{part.kind}}}")
        lines.append(f"use Rattle.{part.crate}.specs.declared.{part.path}.TheVariants as {part.module.rstrip('s')}")
    lines.append("use Rattle.mr_why.specs.declared.subject.Subject.{Subject}")
    lines.append("use Rattle.mr_why.specs.declared.subject.Subject.TheVariants as subject")
    lines.append("use Rattle.mr_why.specs.Why.{number_of, subject_of}\n")
    lines.append("abbrev IsFound : Subject → Type 0\nIsFound s = subject_of (number_of s) ≡ Some s\n")
    for part in PARTS:
        name = f"{part.module.rstrip('s')}_found"
        variant = {"texts": "Text", "programs": "Form", "schedules": "Schedule", "traces": "Trace", "reasons": "Undefined"}[part.module]
        lines.append(f"{name} : (it : {part.kind}) → IsFound (subject.{variant} it)\nunfolding subject_of")
        lines += [f"{name} {part.module.rstrip('s')}.{entry['name']} = refl" for entry in table if part_of(entry) is part]
        lines.append("")
    lines.append("pub number_found : (s : Subject) → IsFound s")
    for variant, name in (("Text", "text"), ("Form", "program"), ("Schedule", "schedule"), ("Trace", "trace"), ("Undefined", "reason")):
        lines.append(f"number_found (subject.{variant} it) = {name}_found it")
    return "\n".join(lines) + "\n"


def files(table):
    """The files of the crate that are made, with their texts."""
    found = {f"{CRATE}/proofs/NumberLaws.antt": law(table)}
    for part in PARTS:
        own = [entry for entry in table if part_of(entry) is part]
        found[f"{CRATE}/specs/{part.module.capitalize()}.antt"] = definition(part, own)
        found[f"{CRATE}/src/{part.module}.rt"] = (code if len(own) < 30 else code_by_field)(part, own)
    return found


def defined(text, function):
    """The texts of a file of specs/, by name and field, however it is laid out."""
    found = {}
    for name, block in re.findall(rf"^{function} it\.(\w+) = record \{{(.*?)^\}}", text, re.M | re.S):
        for field, value in re.findall(r"(\w+) =((?:\s*(?:\+\+ )?codes \"[^\"]*\")+);?", block):
            found[name, field] = "".join(re.findall(r'codes "([^"]*)"', value))
    return found


def written(text, kind):
    """The texts of a file of src/, by name and field, however it is laid out."""
    found = {}
    for field, block in re.findall(r"^fn (\w+)_of\((.*?)\n\}", text, re.M | re.S):
        for name, value in re.findall(rf'{kind}::(\w+) =>\s*\{{?\s*"([^"]*)"', block):
            found[name, field] = re.sub(r"\\\n\s*", "", value)
    for name, block in re.findall(rf"{kind}::(\w+) => Said \{{(.*?)\n        \}},", text, re.S):
        for field, value in re.findall(r'(\w+):\s*"([^"]*)"', block):
            found[name, field] = re.sub(r"\\\n\s*", "", value)
    return found


def compare(judge):
    """The crate says what the page has, and the page has each code with its name, by rising codes."""
    table = entries()
    judge("the lines of docs/CODES.md are laid out", read(PAGE) == page(table), "run .ci/codes.py --write")
    codes, known = [entry["code"] for entry in table], names()
    judge("the codes of docs/CODES.md rise", codes == sorted(set(codes)))
    judge("the codes of docs/CODES.md are those of the sources", set(codes) == set(known), f"{set(codes) ^ set(known)}")
    for part in PARTS:
        wanted = {(entry["name"], field): entry[field] for entry in table if part_of(entry) is part for field in FIELDS}
        for path, said in ((f"specs/{part.module.capitalize()}.antt", defined), (f"src/{part.module}.rt", written)):
            found = said(read(f"{CRATE}/{path}"), part.function if said is defined else part.kind)
            judge(f"crates/mr_why/{path} says what docs/CODES.md says", found == wanted, f"{sorted(k for k in set(found) | set(wanted) if found.get(k) != wanted.get(k))[:3]}")
    for entry in table:
        judge(f"the name of code {entry['code']}", entry["name"] == known.get(entry["code"]), f"{entry['name']}")
        judge(f"code {entry['code']}: one sentence says what it is", ". " not in entry["what"], entry["what"])
        judge(f"code {entry['code']}: plain bytes", all(" " <= c <= "~" and c not in '"\\' for field in FIELDS for c in entry[field]))


def main():
    if sys.argv[1:] == ["--write"]:
        table = entries()
        for path, text in {**files(table), PAGE: page(table)}.items():
            with open(path, "w", encoding="utf-8") as it:
                it.write(text)
        return 0
    results = []

    def tell(what, is_well, why=""):
        results.append(is_well)
        if not is_well:
            print(f"{what}: {why}")

    compare(tell)
    print(f"{sum(results)} passed, {len(results) - sum(results)} failed")
    return 0 if all(results) else 1


if __name__ == "__main__":
    sys.exit(main())
