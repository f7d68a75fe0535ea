#!/usr/bin/env python3
"""The grammar of docs/LANGUAGE.md against the built program.

    .ci/grammar.py [PROGRAM [COUNT [SEED]]]

reads the page's block `grammar` and its list of words that are no names, draws COUNT texts of the grammar, and changes
some tokens of each. Each program of examples/ and of mirace_cases is tried too. `mirace check` must find no fault of
syntax in a text of the grammar. Of one that is none it must tell the first token with which no text of the grammar goes
on, by its line and column. Each alternative of each rule has to be in some of the texts, and within a change that leads
out of the grammar. `.ci/outputs` tries them all.

A rule is a name, `=`, and its alternatives with `|` between them. `X?` is an X or nothing, `X*` any number of X, `X,*`
any number with commas between, and `X,+` the same, but one at least. What is quoted stands for itself. A name in
capitals without a rule is a class of tokens: see CLASSES.
"""
import collections
import concurrent.futures
import os
import random
import re
import subprocess
import sys
import tempfile

TOP = os.path.dirname(os.path.dirname(os.path.abspath(__file__)))
PROGRAM = f"{TOP}/crates/mirace/out/mirace"
PAGE = f"{TOP}/docs/LANGUAGE.md"
FOLDERS = (f"{TOP}/examples", f"{TOP}/crates/mirace_cases/data")
COUNT, SEED = 1000, 0
# How many changes of each text are tried, how deep a derivation goes freely, and how often each alternative must be
# in a text, and in a change that leads out.
CHANGES, DEEP, OFTEN = 3, 9, 5
# The most brackets that may be open.
OPEN = 32
SIGN = re.compile(r"'([^']+)'|([A-Za-z]+)|(,\*|,\+|[*+?|()=])|\s+")
NUMBER, WORD = re.compile(r"0|[1-9][0-9]*"), re.compile(r"[A-Za-z_][A-Za-z0-9_]*")
TOKEN = re.compile(r"#[^\n]*|[ \t\r\n]+|(->|=>|[A-Za-z_][A-Za-z0-9_]*|[0-9]+|[(){}\[\],;:.@+*=?&-])")
# The codes that the grammar says nothing of: bytes, long texts, and limits.
OTHER_CODES = ("1", "3", "7", "8", "9")
# The classes of numbers: the least one, and the first that is too great.
CLASSES = {
    "BYTE": (0, 256), "COUNT": (1, (1 << 20) + 1), "SIZE": (0, 1 << 64), "NATURAL": (0, 1 << 128),
    "POSITIVE": (1, 1 << 128)}
NAMES = ("a", "b", "c", "x1", "_y", "u8", "fn", "main", "tuple", "regular", "global", "never", "print", "Z_9")
# What a token is changed into.
OTHERS = (
    ";", ":", ",", "(", ")", "{", "}", "[", "]", "->", "=>", "=", "-", "+", "*", "@", ".", "&", "?", "_", "0", "7",
    "256", "1048577", str(1 << 64), str((1 << 128) - 1), "a", "u8", "live", "deref", "to", "unwind", "exit", "never")

# A text; its answer, or nothing where no fault of syntax may be told; and the alternatives that it is there for.
Case = collections.namedtuple("Case", "text wanted used")


def page():
    """The rules of the page as text, and the words that are no names."""
    with open(PAGE, encoding="utf-8") as it:
        text = it.read()
    rules = re.search(r"^```grammar\n(.*?)^```", text, re.M | re.S)[1]
    reserved = re.search(r"^These words are no names: `([^`]*)`", text, re.M)[1]
    return rules, frozenset(reserved.split())


class Reader:
    """The rules of a grammar from its text: words, references, rows, alternatives and repeats."""

    def __init__(self, text):
        self.signs = [(it[1], it[2], it[3]) for it in SIGN.finditer(text) if it[0].strip()]
        assert "".join(it[0] for it in SIGN.finditer(text)) == text, "the grammar has another sign"
        self.at = 0
        self.rules = {}
        while self.at < len(self.signs):
            name = self.signs[self.at][1]
            assert name and self.sign(1) == "=" and name not in self.rules, f"no rule at {self.signs[self.at]}"
            self.at += 2
            self.rules[name] = self.alternatives()

    def sign(self, further=0):
        return self.signs[self.at + further][2] if self.at + further < len(self.signs) else None

    def alternatives(self):
        found = [self.row()]
        while self.sign() == "|":
            self.at += 1
            found.append(self.row())
        return ("either", tuple(found)) if len(found) > 1 else found[0]

    def row(self):
        found = []
        while self.at < len(self.signs) and self.sign() not in ("|", ")") and self.sign(1) != "=":
            found.append(self.repeated(self.piece()))
        return ("row", tuple(found))

    def piece(self):
        word, name, sign = self.signs[self.at]
        self.at += 1
        if sign == "(":
            inner = self.alternatives()
            assert self.sign() == ")", "a bracket of the grammar isn't closed"
            self.at += 1
            return inner
        assert not sign, f"the grammar has a {sign} too many"
        return ("word", word) if word else ("name", name)

    def repeated(self, piece):
        sign = self.sign()
        if sign not in ("*", "+", "?", ",*", ",+"):
            return piece
        self.at += 1
        listed = ("row", (piece, ("many", ("row", (("word", ","), piece)))))
        return {"*": ("many", piece), "+": ("row", (piece, ("many", piece))), "?": ("maybe", piece),
                ",*": ("maybe", listed), ",+": listed}[sign]


class Grammar:
    def __init__(self, rules, reserved):
        self.rules, self.reserved = Reader(rules).rules, reserved
        # how deep each rule is, what begins each form, and how often each alternative was drawn and changed
        self.depths, self.begins, self.drawn, self.changed = {}, {}, collections.Counter(), collections.Counter()
        for name in self.names(("row", tuple(self.rules.values()))):
            assert name in self.rules or name in CLASSES or name == "NAME", f"{name} is no rule and no class"
        for _ in self.rules:
            for name, rule in self.rules.items():
                self.depths[name] = self.depth(rule)

    def names(self, form):
        kind, inner = form
        if kind == "name":
            return [inner]
        parts = inner if kind in ("row", "either") else () if kind == "word" else (inner,)
        return [it for part in parts for it in self.names(part)]

    def depth(self, form):
        """How deep the least derivation is."""
        kind, inner = form
        if kind == "name":
            return 1 + (self.depths.get(inner, 99) if inner in self.rules else 0)
        if kind in ("word", "many", "maybe"):
            return 0
        return (max if kind == "row" else min)(map(self.depth, inner), default=0)

    def is_in(self, name, token):
        """Whether a token is of a class."""
        if name == "NAME":
            return bool(WORD.fullmatch(token)) and token not in self.reserved
        return bool(NUMBER.fullmatch(token)) and CLASSES[name][0] <= int(token) < CLASSES[name][1]

    def is_too_great(self, name, token):
        """Whether a number stands where one below 2^64 must."""
        return name in ("SIZE", "COUNT") and bool(NUMBER.fullmatch(token)) and int(token) >= 1 << 64

    def first(self, form):
        """What may begin a form: words and classes; and whether it may be nothing."""
        kind, inner = form
        if kind == "word":
            return {inner}, set(), False
        if kind == "name":
            return self.starts(self.rules[inner]) if inner in self.rules else (set(), {inner}, False)
        if kind in ("many", "maybe"):
            return (*self.starts(inner)[:2], True)
        words, classes, is_empty = set(), set(), kind == "row"
        for part in inner:
            if is_empty or kind == "either":
                more = self.starts(part)
                words, classes, is_empty = words | more[0], classes | more[1], more[2]
        return words, classes, is_empty

    def starts(self, form):
        """The same, worked out once for each form."""
        if id(form) not in self.begins:
            self.begins[id(form)] = (form, self.first(form))
        return self.begins[id(form)][1]

    def can_begin(self, form, token):
        words, classes, _ = self.starts(form)
        return token in words or any(self.is_in(it, token) or self.is_too_great(it, token) for it in classes)

    def draw(self, chance, form, left, used):
        """The tokens of a derivation; `used` takes the alternatives, each with the tokens that it spans."""
        kind, inner = form
        if kind == "word":
            return [inner]
        if kind == "name" and inner not in self.rules:
            return [chance.choice(NAMES) if inner == "NAME" else drawn_number(chance, *CLASSES[inner])]
        if kind == "name":
            return self.draw(chance, self.rules[inner], left - 1, used)
        if kind == "row":
            tokens = []
            for part in inner:
                mine = []
                tokens += shifted(self.draw(chance, part, left, mine), mine, len(tokens), used)
            return tokens
        if kind == "either":
            least = min(map(self.depth, inner))
            open_ones = [k for k, it in enumerate(inner) if left > 0 or self.depth(it) == least]
            k = rarest(chance, open_ones, lambda it: self.drawn[id(form), it])
            self.drawn[id(form), k] += 1
            mine = []
            tokens = self.draw(chance, inner[k], left, mine)
            used += [*mine, (id(form), k, 0, len(tokens))]
            return tokens
        tokens = []
        for _ in range(chance.choice((0, 1) if kind == "maybe" else (0, 1, 1, 2)) if left > 0 else 0):
            mine = []
            tokens += shifted(self.draw(chance, inner, left, mine), mine, len(tokens), used)
        used.append((id(form), int(bool(tokens)), 0, len(tokens)))
        return tokens

    def fault(self, tokens):
        """The position of the first token with which no text of the grammar goes on, and the form that must stand
        there; nothing where the tokens are a text."""
        at, rest = 0, [("name", "program")]
        while rest:
            kind, inner = form = rest.pop()
            token = tokens[at] if at < len(tokens) else ""
            if kind == "word" or (kind == "name" and inner not in self.rules):
                if not (token == inner if kind == "word" else self.is_in(inner, token)):
                    return at, form
                at += 1
            elif kind == "name":
                rest.append(self.rules[inner])
            elif kind == "row":
                rest += reversed(inner)
            elif kind == "either":
                open_ones = [it for it in inner if self.can_begin(it, token)]
                assert len(open_ones) < 2, f"two alternatives begin with {token}"
                if not open_ones:
                    return at, form
                rest += open_ones
            elif self.can_begin(inner, token):
                rest += [form, inner] if kind == "many" else [inner]
        return (at, None) if at < len(tokens) else None


def shifted(tokens, mine, by, used):
    """Puts the spans of some tokens behind others."""
    used += [(form, k, begin + by, end + by) for form, k, begin, end in mine]
    return tokens


def rarest(chance, things, count):
    """One of some things: mostly the one with the least count."""
    things = chance.sample(things, len(things))
    return min(things, key=count) if chance.random() < 0.7 else things[0]


def drawn_number(chance, least, above):
    return str(chance.choice((least, above - 1, chance.randrange(least, min(above, 300)))))


def depth_of(tokens):
    depth = most = 0
    for token in tokens:
        depth += (token in "([{") - (token in ")]}")
        most = max(most, depth)
    return most


def written(chance, tokens):
    """The text of the tokens, and the place of each and of the end: mostly with a blank between two."""
    text, places, line, column = "", [], 1, 1
    for token in [*tokens, ""]:
        places.append((line, column))
        blank = chance.choice((" ",) * 9 + ("\n", "\t", "\r\n", "  ", " # a (comment;\n"))
        text += token + (blank if token else "")
        column += len(token) + len(blank)
        if "\n" in blank:
            line, column = line + 1, 1
    return text, places


def changed(chance, tokens, span):
    """The tokens with one of a span left out, doubled, or changed into another."""
    at = chance.randrange(*span)
    return tokens[:at] + chance.choice(([], [tokens[at]] * 2, [chance.choice(OTHERS)])) + tokens[at + 1:]


def judged(grammar, text, tokens, places, used):
    """A text and what must be told of it."""
    fault = grammar.fault(tokens)
    if not fault:
        return Case(text, None, used)
    at, form = fault
    is_great = form and at < len(tokens) and any(grammar.is_too_great(it, tokens[at]) for it in grammar.starts(form)[1])
    return Case(text, "text %d %d %s\n" % (*places[at], "2 BadNumber" if is_great else "4 Unexpected"), used)


def case_of(grammar, chance, tokens, used):
    """A text of the tokens, and what must be told of it."""
    text, places = written(chance, tokens)
    return judged(grammar, text, tokens, places, used)


def kept_texts(grammar):
    """The programs of the repository whose bytes are all of tokens, and whose numbers are numbers."""
    for path in sorted(f"{at}/{name}" for top in FOLDERS for at, _, names in os.walk(top) for name in names):
        with open(path, encoding="latin-1", newline="") as it:
            text = it.read() if path.endswith(".mr") else ""
        found = list(TOKEN.finditer(text))
        tokens = [it[1] for it in found if it[1]]
        is_whole = text and "".join(it[0] for it in found) == text
        if is_whole and all(NUMBER.fullmatch(it) and int(it) < 1 << 128 for it in tokens if it[0].isdigit()):
            starts = [*(it.start(1) for it in found if it[1]), len(text)]
            places = [(text.count("\n", 0, at) + 1, at - text.rfind("\n", 0, at)) for at in starts]
            yield judged(grammar, text, tokens, places, set())


def cases(grammar, count=COUNT, seed=SEED):
    """Texts of the grammar, and changes of them. Each change is within the tokens of an alternative of the text."""
    chance = random.Random(seed)
    while count > 0:
        used = []
        tokens = grammar.draw(chance, ("name", "program"), DEEP, used)
        if depth_of(tokens) > OPEN or len(tokens) > 400:
            continue
        count -= 1
        yield case_of(grammar, chance, tokens, {it[:2] for it in used})
        spans = [it for it in used if it[2] < it[3]]
        for _ in range(min(CHANGES, len(spans))):
            form, k, begin, end = rarest(chance, spans, lambda it: grammar.changed[it[:2]])
            grammar.changed[form, k] += 1
            others = changed(chance, tokens, (begin, end))
            if depth_of(others) <= OPEN:
                yield case_of(grammar, chance, others, {(form, k)})


def alternatives(grammar):
    """Each alternative of each rule, and each repeat with and without something."""
    found, rest = [], list(grammar.rules.values())
    while rest:
        kind, inner = form = rest.pop()
        if kind == "either":
            found += [(form, k) for k in range(len(inner))]
        elif kind in ("many", "maybe"):
            found += [(form, 0), (form, 1)]
        rest += inner if kind in ("row", "either") else [inner] if kind in ("many", "maybe") else []
    return found


def answer(program, text):
    """What `check` writes of a text, and its status."""
    how = {"stdin": subprocess.DEVNULL, "stdout": subprocess.PIPE, "timeout": 60}
    with tempfile.NamedTemporaryFile(suffix=".mr") as kept:
        kept.write(text.encode("latin-1"))
        kept.flush()
        ran = subprocess.run([program, "check", kept.name], **how)
    return ran.stdout.decode(), ran.returncode


def is_well(case, text, status):
    """Whether the answer to a text is right. In a text of the grammar names may be unknown or double (5, 6), or a rule
    broken."""
    if case.wanted:
        return (text, status) == (case.wanted, 3)
    is_about_names = re.fullmatch(r"text \d+ \d+ (5 UnknownName|6 DoubleName)\n", text)
    return status in (0, 4) or (status == 3 and bool(is_about_names))


def tried(program=PROGRAM, count=COUNT, seed=SEED):
    """Tries the texts: what is wrong, how many texts of the grammar there were, and how many of no grammar."""
    grammar = Grammar(*page())
    wrong, inside, outside = [], collections.Counter(), collections.Counter()
    counts = [0, 0]
    with concurrent.futures.ThreadPoolExecutor(os.cpu_count()) as pool:
        made = [*cases(grammar, count, seed), *kept_texts(grammar)]
        for case, (text, status) in zip(made, pool.map(lambda it: answer(program, it.text), made)):
            if not case.used and text.startswith("text ") and text.split(" ")[3] in OTHER_CODES:
                continue
            counts[bool(case.wanted)] += 1
            (outside if case.wanted else inside).update(case.used)
            if not is_well(case, text, status):
                wrong.append(f"{case.text!r}: {text!r} and {status}, not {case.wanted!r}")
    for form, k in alternatives(grammar):
        if inside[id(form), k] < OFTEN:
            wrong.append(f"alternative {k} of {form} is in {inside[id(form), k]} texts alone")
        # (a repeat of nothing has no token that could be changed)
        if outside[id(form), k] < OFTEN and (form[0] == "either" or k == 1):
            wrong.append(f"alternative {k} of {form} is in {outside[id(form), k]} changes alone that lead out")
    return wrong, counts[0], counts[1]


def main(program=PROGRAM, count=COUNT, seed=SEED):
    wrong, inside, outside = tried(os.path.abspath(program), int(count), int(seed))
    print(*wrong[:20], sep="\n", end="\n" if wrong else "")
    print(f"grammar: {inside} texts of it, {outside} that are none, {len(wrong)} wrong")
    return bool(wrong)


if __name__ == "__main__":
    sys.exit(main(*sys.argv[1:]))
