"""What `mirace_show check P [S]` tells of texts, programs and schedules that are refused, by rows; .ci/companion.py runs it.

- A row changes one place of a program or of a schedule. In what it writes a `§` stands where the fault is to be told; that
  mark is taken away. Told must be: the place, which is also the one that `mirace` tells; the code and its name; the line
  itself, and the caret under that column; the word that stands there; of the words that may stand there those of the
  row, and none that the row excludes; the status of `mirace`.
- Each word that is told to go, written there, has its first fault further on, and each other word that is tried has it
  there.
- A newcomer's text with ten slips: each is mended at the place that is told, by a word that is told, until it is right.

    python3 .ci/refusals.py [COMPANION [PROGRAM]]
"""
import os
import re
import subprocess
import sys
import tempfile

TOP = os.path.dirname(os.path.dirname(os.path.abspath(__file__)))
HEAD = re.compile(rb"([^\n:]+):(\d+):(\d+): (\d+) (\w+): ([^\n]+)\n    ([^\n]*)\n    ( *)\^\n")
ENTRY = re.compile(rb"([^\n:]+):(\d+):(\d+)\n    ([^\n]*)\n    ( *)\^\nentry (\d+) of thread (\d+) breaks (\d+) (\w+): [^\n]+\n")
PROGRAM_TEXT = b"""minirust 1
global g align 8 { 0*8 }
fn worker(p) -> r {
let p: raw, r: unit, n: u32;
b0 regular: live n; n = load(deref(load(p), u32)); goto b1;
b1 regular: dead n; return;
}
fn main() -> r {
let r: unit, t: u32, x: u32;
b0 regular: live x; x = add(u32 1, u32 2); do print(load(x)) to b1;
b1 regular: switch load(x) { 3 => b2, _ => b2 };
b2 regular: exit;
}
main main
"""
SCHEDULE_TEXT = b"""schedule 1
start 16 32 64 80
0 8192
0
0
0
0
"""
# Of a text: what is changed, to what (the mark stands at the fault), the code, the word that stands there, words that may
# stand there, and words that may not.
TEXTS = (
    ("a byte of no token", b"fn main()", "fn ma§!n()", 1, None, "", ""),
    ("a letter with an accent", b"fn worker", "fn w§\u00f6rker", 1, None, "", ""),
    ("a zero in front", b"u32 1,", "u32 §01,", 2, None, "", ""),
    ("a number of 40 digits", b"u32 1,", "u32 §" + "9" * 40 + ",", 2, None, "", ""),
    ("a size of 2^64", b"align 8", "align §18446744073709551616", 2, "18446744073709551616", "", ""),
    ("an edition", b"minirust 1", "minirust §3", 4, "3", "NUMBER", "NAME minirust END"),
    ("no header", b"minirust 1\n", "§", 4, "global", "minirust", "global NAME END"),
    ("no space of the header", b"minirust 1", "§minirust1", 4, "minirust1", "minirust", "NAME"),
    ("no alignment of a global", b" align 8 {", " §{", 4, "{", "align", "NAME {"),
    ("a comma between bytes", b"0*8", "0§, 1", 4, ",", "} * ? & NUMBER", ", NAME"),
    ("no arguments", b"fn main() ", "fn main §", 4, "->", "(", ") NAME"),
    ("an arrow of another kind", b"fn main() ->", "fn main() §=>", 4, "=>", "->", "=> NAME"),
    ("no let", b"let r: unit, t", "§r: unit, t", 4, "r", "let", "NAME ;"),
    ("a reserved word as a local", b"x: u32;", "§stop: u32;", 4, "stop", "NAME", "stop u32"),
    ("a type of another language", b"x: u32;", "x: §int;", 4, "int", "u32 array tuple bool raw", "NAME load END"),
    ("no end of the locals", b"x: u32;\n", "x: u32\n§", 4, "b0", ", ;", "NAME ."),
    ("no kind of a block", b"b2 regular: exit", "b2§: exit", 4, ":", "regular cleanup catch terminate", "NAME :"),
    ("no colon of a block", b"b2 regular: ", "b2 regular §", 4, "exit", ":", "NAME exit"),
    ("a number without a type", b"add(u32 1,", "add(§1,", 4, "1", "u8 u32 i128 load add true tuple", "NUMBER NAME ("),
    ("a local without load", b"print(load(x))", "print(§x)", 4, "x", "load ) add u32", "NAME NUMBER"),
    ("an operator in the middle", b"add(u32 1, u32 2)", "u32 1 §+ u32 2", 4, "+", ";", "+ - NAME"),
    ("an equation of two signs", b"x = add", "x =§= add", 4, "=", "load add", "= NAME"),
    ("no semicolon", b"x = add(u32 1, u32 2); ", "x = add(u32 1, u32 2) §", 4, "do", ";", "do NAME ,"),
    ("a bracket too few", b"print(load(x)) to", "print(load(x) §to", 4, "to", ", )", "to NAME"),
    ("no to", b"print(load(x)) to b1", "print(load(x)) §b1", 4, "b1", "to ->", "NAME ;"),
    ("a semicolon in front of to", b"print(load(x)) to b1", "print(load(x))§; to b1", 4, ";", "to ->", "; NAME"),
    ("a block without an end", b" do print(load(x)) to b1;", "\nb1 §regular: return;", 4, "regular", "= . [ @", "regular NAME :"),
    ("a word for switch", b"switch load(x) {", "match §load(x) {", 4, "load", "= . [ @", "load NAME"),
    ("a switch without a last case", b", _ => b2 }", " §}", 4, "}", ",", "} NAME"),
    ("a case without its number", b"3 => b2", "§b2 => b2", 4, "b2", "NUMBER - _", "NAME }"),
    ("a call of no intrinsic", b"do print", "do §write", 4, "write", "print spawn join acquire", "NAME write"),
    ("two ends of a function", b"exit;\n}\n", "exit;\n}\n§}\n", 4, "}", "fn main", "} NAME global END"),
    ("no name of the first function", b"main main\n", "main\n§", 4, "", "NAME", "main END NUMBER"),
    ("nothing behind the functions", b"main main\n", "§", 4, "", "fn main", "NAME END"),
    ("a word behind the end", b"main main\n", "main main\n§x\n", 4, "x", "END", "NAME NUMBER fn ;"),
    ("an unknown block", b"print(load(x)) to b1", "print(load(x)) to §b7", 5, "b7", "", ""),
    ("an unknown local", b"do print(load(x))", "do print(load(§n))", 5, "n", "", ""),
    ("a local that stands twice", b"t: u32, x: u32", "t: u32, §t: u32", 6, "t", "", ""),
    ("a function of a global's name", b"fn worker", "fn §g", 6, "g", "", ""),
    ("brackets in one another", b"add(u32 1,", "add(" + "not(" * 30 + "not§(u32 1,", 7, "(", "", ""),
    ("a pointer as a number", b"do print(load(x)) to", "do §expose_provenance(load(x)) to", 9, "expose_provenance", "", ""),
)
# Of a program: the same, with the code, and the function and block, or the global, that are told.
FORMS = (
    ("two types", b"u32 2); do", "u32 2); x = add(u32 1, u8 2); do", "x = add(u32 1, u8 2)", 34, b"in function main, block b0\n"),
    ("a value of another type", b"x = add(u32 1, u32 2)", "x = u8 1", "x = u8 1", 36, b"in function main, block b0\n"),
    ("live of the returned local", b"live x; x", "live r; x", "live r; x", 38, b"in function main, block b0\n"),
    ("a result of print", b"print(load(x)) to b1", "print(load(x)) -> x to b1", "do print", 41, b"in function main, block b0\n"),
    ("a switch on a unit", b"switch load(x)", "switch load(r)", "switch load(r)", 39, b"in function main, block b1\n"),
    ("a block of another kind", b"b2 regular", "b2 cleanup", "switch load(x)", 32, b"in function main, block b1\n"),
    ("a large type", b"x: u32;", "x: array(2097152, u8);", "x: array", 20, b"in function main\n"),
    ("fields over one another", b"p: raw, r: unit, n: u32", "p: raw, n: tuple size 4 align 4 { 0: u32, 2: u8 }, r: unit", "n: tuple", 23,
     b"in function worker\n"),
    ("an argument twice", b"worker(p)", "worker(p, p)", "fn worker", 30, b"in function worker\n"),
    ("a main that takes one", b"fn main()", "fn main(t)", "fn main", 45, b"in function main\n"),
    ("an alignment of a global", b"align 8", "align 3", "global g", 44, b"in global g\n"),
)
# Of a schedule: what is changed and to what, the line, the code, and of an entry its number and its thread.
SCHEDULES = (
    ("a comment above", b"schedule 1\n", b"# mine\nschedule 1\n", 1, 50, None),
    ("version 3", b"schedule 1", b"schedule 3", 1, 50, None),
    ("line ends of Windows", b"schedule 1\n", b"schedule 1\r\n", 1, 50, None),
    ("no start", b"start 16 32 64 80", b"begin 16 32 64 80", 2, 51, None),
    ("an empty start line", b"start 16 32 64 80", b"", 2, 51, None),
    ("two blanks", b"0 8192", b"0  8192", 3, 51, None),
    ("a blank at the end", b"0 8192", b"0 8192 ", 3, 51, None),
    ("a comment behind", b"0 8192", b"0 8192 # x", 3, 51, None),
    ("a word", b"0 8192", b"zero 8192", 3, 51, None),
    ("an empty line", b"0 8192\n", b"0 8192\n\n", 4, 51, None),
    ("a zero in front", b"0 8192", b"0 08192", 3, 51, None),
    ("a last line without its end", b"0\n0\n0\n0\n", b"0\n0\n0\n0", 7, 51, None),
    ("an address too few", b" 80", b"", 2, 61, None),
    ("an address too many", b" 80", b" 80 96", 2, 62, None),
    ("an address twice", b" 32 ", b" 16 ", 2, 64, None),
    ("no pick", b"0 8192", b"0", 3, 61, (1, 0)),
    ("two picks", b"0 8192\n0\n", b"0 8192\n0 9\n", 4, 62, (2, 0)),
    ("an odd address", b"0 8192", b"0 8193", 3, 63, (1, 0)),
    ("an address that was used", b"0 8192", b"0 64", 3, 64, (1, 0)),
    ("a thread that isn't there", b"0 8192\n0\n", b"0 8192\n1\n", 4, 60, (2, 1)),
    ("entries behind the end", b"0\n0\n0\n0\n", b"0\n0\n0\n0\n0\n0\n", 8, 66, (6, 0)),
)
# A newcomer's text, and how it is mended: how many bytes are taken away at the place that is told, and what is written.
SLIPPED = b"""minirust 1
fn main() -> r {
let r: unit, x: u32, y: u32, y: u32
b0 regular: live x; x = 7; live y;
y = x + u32 1; live r;
do print(y) to b9;
b1 regular: switch load(y) { 8 => b2 };
b2: x = u8 1; exit;
}
main main
"""
MENDS = (
    (0, b";\n"),                                  # 4:1 the locals have no end
    (0, b"u32 "),                                 # a number without its type
    (9, b"add(load(x), u32 1)"),                  # an operator in the middle
    (1, b"load(y)"),                              # a local without load
    (0, b", _ => b2 "),                           # a switch without its last case
    (0, b" regular"),                             # a block without its kind
    (1, b"z"),                                    # a name that stands twice
    (2, b"b1"),                                   # an unknown name
    (7, b"live z;"),                              # live of the returned local
    (8, b"x = u32 1"),                            # a value of another type
)


def place_of(text, at):
    """The line and the column of an offset, counted from 1, in bytes."""
    return text.count(b"\n", 0, at) + 1, at - (text.rfind(b"\n", 0, at) + 1) + 1


def shown(text, line, col):
    """The part of a line that is shown, and how many blanks stand in front of the caret."""
    row, before = text.split(b"\n")[line - 1], col - 1
    start = 0 if before < 90 else before - 60
    part = row[start:start + 120].replace(b"\t", b" ")
    return bytes(it if 32 <= it <= 126 else 63 for it in part), before - start


class Told:
    """What is told of a fault at a place."""

    def __init__(self, wrote):
        found = HEAD.match(wrote)
        self.found = found is not None
        if found:
            self.file, line, col, code, self.name, self.sentence, self.shown, blanks = found.groups()
            self.line, self.col, self.code, self.blanks = int(line), int(col), int(code), len(blanks)
            self.rest = wrote[found.end():]
            may = re.search(rb"^here may stand:(.*)\n", self.rest, re.M)
            self.may = may[1].split() if may else []
            word = re.search(rb"^(?:here stands|the name is) `(.*)`\n", self.rest, re.M)
            self.word = word[1] if word else None


class Kit:
    """Runs both programs in a folder."""

    def __init__(self, judge, companion, program, at):
        self.judge, self.companion, self.program, self.at = judge, companion, program, at

    def write(self, name, text):
        with open(f"{self.at}/{name}", "wb") as it:
            it.write(text)

    def ran(self, program, *words):
        ran = subprocess.run([program, *words], cwd=self.at, stdin=subprocess.DEVNULL, capture_output=True, timeout=60)
        return ran.stdout, ran.returncode

    def of_text(self, text):
        """What the companion tells of a text, and what the program does."""
        self.write("p.mr", text)
        return self.ran(self.companion, "check", "p.mr"), self.ran(self.program, "check", "p.mr")


def same_place(kit, what, text, told, code, at):
    """The place, the code, the line and the caret."""
    kit.judge(f"{what}: a fault is told", told.found, "there is none")
    if not told.found:
        return False
    line, col = place_of(text, at)
    kit.judge(f"{what}: the place", (told.line, told.col, told.code) == (line, col, code), f"{told.line}:{told.col} {told.code}, not {line}:{col} {code}")
    wanted = shown(text, told.line, told.col)
    kit.judge(f"{what}: the line and the caret", (told.shown, told.blanks) == wanted, f"{told.shown} and {told.blanks}, not {wanted}")
    return True


def changed(old, new):
    """The program with one place changed, and the offset of the mark."""
    assert PROGRAM_TEXT.count(old) == 1, old
    text = PROGRAM_TEXT.replace(old, new.encode())
    at = text.index("§".encode()) if "§" in new else None
    return text.replace("§".encode(), b""), at


def texts(kit):
    """Each row of texts."""
    for title, old, new, code, word, may, may_not in TEXTS:
        what, (text, at) = f"refusals: {title}", changed(old, new)
        (wrote, ended), (line, status) = kit.of_text(text)
        told = Told(wrote)
        kit.judge(f"{what}: the status", ended == status == 3, f"{ended} and {status}")
        if code == 1 and at is not None:
            kit.judge(f"{what}: the byte", b"the byte is %d\n" % text[at] in wrote, wrote[:400])
        if not same_place(kit, what, text, told, code, at):
            continue
        kit.judge(f"{what}: as the program tells it", line == b"text %d %d %d %s\n" % (told.line, told.col, told.code, told.name), line)
        wanted = {None: None, "": None}.get(word, word and word.encode())
        kit.judge(f"{what}: the word", told.word == wanted and (word != "" or told.rest.startswith(b"the text ends here\n")), told.rest[:200])
        missing = [it for it in may.encode().split() if it not in told.may]
        wrong = [it for it in may_not.encode().split() if it in told.may]
        kit.judge(f"{what}: what may stand", not missing and not wrong and (code == 4) == bool(told.may), f"{missing} are missing, {wrong} don't go: {told.may}")


def words_that_go(kit, rows=(5, 13, 18, 22, 29)):
    """Each word that is told goes, and no other does, by the program's own first fault."""
    for title, old, new, *_ in (TEXTS[it] for it in rows):
        text, at = changed(old, new)
        (wrote, _), _ = kit.of_text(text)
        may = [{b"NAME": b"x", b"NUMBER": b"1"}.get(it, it) for it in Told(wrote).may]
        tried = [b"x", b"1", *may, b"load", b"to", b";", b",", b"(", b"}", b"regular", b"u32", b"live", b"=>", b"minirust"]
        for word in dict.fromkeys(it for it in tried if it != b"END"):
            front = text[:at] + b"\n" + word
            kit.write("tried.mr", front)
            line, _ = kit.ran(kit.program, "check", "tried.mr")
            found = re.match(rb"text (\d+) (\d+) (\d+)", line)
            row = place_of(front, at + 1)[0]
            goes = not found or int(found[3]) in (5, 6) or (int(found[1]), int(found[2])) > (row, 1)
            named = b"x" in may and re.fullmatch(rb"[a-z_]\w*", word) and word not in (b"live", b"x")
            kit.judge(f"refusals: {title}: `{word.decode()}`", (word in may) == (goes and not named), f"{line} and {may}")


def forms(kit):
    """Each row of programs."""
    for title, old, new, statement, code, where in FORMS:
        what, (text, _) = f"refusals: {title}", changed(old, new)
        (wrote, ended), (line, status) = kit.of_text(text)
        told = Told(wrote)
        kit.judge(f"{what}: the status", ended == status == 4, f"{ended} and {status}: {line}")
        if same_place(kit, what, text, told, code, text.index(statement.encode())):
            kit.judge(f"{what}: where", told.rest == where, told.rest)
            kit.judge(f"{what}: as the program tells it", line.split()[4:] == [b"%d" % code, told.name], line)


def schedules(kit):
    """Each row of schedules."""
    kit.write("p.mr", PROGRAM_TEXT)
    for title, old, new, line, code, entry in SCHEDULES:
        what = f"refusals: {title}"
        assert SCHEDULE_TEXT.count(old) == 1, old
        text = SCHEDULE_TEXT.replace(old, new)
        kit.write("s.sched", text)
        (wrote, ended), (report, status) = (kit.ran(it, word, "p.mr", "s.sched") for it, word in ((kit.companion, "check"), (kit.program, "run")))
        kit.judge(f"{what}: the status", ended == status == 5, f"{ended} and {status}: {report}")
        kit.judge(f"{what}: as the program tells it", report.split()[1:3] == [b"%d" % line, b"%d" % code], report)
        if entry is None:
            told = Told(wrote)
            same_place(kit, what, text, told, code, len(b"\n".join(text.split(b"\n")[:line - 1])) + (line > 1))
            continue
        found = ENTRY.match(wrote)
        numbers = found and tuple(int(found[it]) for it in (2, 3, 6, 7, 8))
        kit.judge(f"{what}: the entry", numbers == (line, 1, *entry, code), wrote[:300])
        kit.judge(f"{what}: its line", found and (found[4], len(found[5])) == shown(text, line, 1), wrote[:300])


def right(kit):
    """What is said where nothing is wrong."""
    (wrote, ended), _ = kit.of_text(PROGRAM_TEXT)
    kit.judge("refusals: a right program", (wrote, ended) == (b"p.mr: well-formed\n", 0), f"{wrote[:200]} and {ended}")
    kit.write("s.sched", SCHEDULE_TEXT)
    wrote, ended = kit.ran(kit.companion, "check", "p.mr", "s.sched")
    kit.judge("refusals: a legal schedule", (wrote, ended) == (b"s.sched: legal, 5 entries\n", 0), f"{wrote[:200]} and {ended}")
    (alone, _), _ = kit.of_text(PROGRAM_TEXT.replace(b"goto b1", b"goto b7"))
    beside, ended = kit.ran(kit.companion, "check", "p.mr", "s.sched")
    kit.judge("refusals: a wrong program beside a schedule", (beside, ended) == (alone, 3), f"{beside[:200]} and {ended}")


def far(kit):
    """Behind more than 2^16 bytes it is told what stands there, and not what may."""
    for size, may in ((1 << 16, [b"minirust"]), ((1 << 16) + 1, [])):
        text = b"\n" * size + b"x"
        (wrote, ended), _ = kit.of_text(text)
        told, what = Told(wrote), f"refusals: {size} bytes in front"
        if same_place(kit, what, text, told, 4, size):
            kit.judge(f"{what}: what may stand", (told.word, told.may, ended) == (b"x", may, 3), f"{told.rest} and {ended}")


def mended(kit):
    """A newcomer's text, from wrong to right by the messages alone."""
    text = SLIPPED
    for number, (taken, written) in enumerate(MENDS, 1):
        (wrote, _), _ = kit.of_text(text)
        told, what = Told(wrote), f"refusals: slip {number}"
        kit.judge(f"{what} is told", told.found, wrote[:300])
        if not told.found:
            return
        rows = text.split(b"\n")
        at = len(b"\n".join(rows[:told.line - 1])) + (told.line > 1) + told.col - 1
        if told.code == 4:
            first = re.match(rb"\s*(\w+|\W)", written)[1]
            kit.judge(f"{what}: what is written is told", first in told.may, f"{first} in {told.may}")
        text = text[:at] + written + text[at + taken:]
    (wrote, ended), _ = kit.of_text(text)
    kit.judge("refusals: the mended text", (wrote, ended) == (b"p.mr: well-formed\n", 0), f"{wrote[:300]} of {text}")


def compare(judge, companion, program, at):
    """All rows."""
    kit = Kit(judge, companion, program, at)
    for part in (texts, words_that_go, forms, schedules, right, far, mended):
        part(kit)


def main(words):
    failed = []

    def judge(what, holds, why):
        if not holds:
            failed.append(what)
            print(f"{what}: {why}")
    known = (f"{TOP}/crates/mirace_show/out/mirace_show", f"{TOP}/crates/mirace/out/mirace")
    with tempfile.TemporaryDirectory() as at:
        compare(judge, *(os.path.abspath(it) for it in (*words, *known[len(words):])), at)
    print(f"refusals: {len(failed)} failed")
    return bool(failed)


if __name__ == "__main__":
    sys.exit(main(sys.argv[1:]))
