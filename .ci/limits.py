"""The table of limits: each at its number, and then above it.

`cases()` gives what is tried, the words of the command, the files that it reads, and what it must write and end with.
The texts are made here, the large ones of pieces, and so is the canonical text of each that is taken. `.ci/outputs`
tries them all.
"""
import re

# The tokens of a text without comments and negative numbers, and the brackets among them.
TOKEN = re.compile(rb"->|=>|[A-Za-z_][A-Za-z0-9_]*|[0-9]+|[(){}\[\],;:.@+*=?&]")
OPENING, CLOSING = (b"(", b"{", b"["), (b")", b"}", b"]")

RUNNING = b"verdict running\nraces 0\n"
USAGE = b"usage: see the table of commands\n"
# The most bytes of a program's text and of a schedule's, and the most entries of a schedule.
TEXT, SCHEDULE, ENTRIES = 1 << 20, 1 << 26, 1 << 22
# The start of a program of `main` alone, and that of one with a global and a function more.
START, START_OF_TWO = b"start 16 4096\n", b"start 16 17 4096 32\n"


def program(front=b"", local_types=b"", blocks=b"b0 regular: exit;"):
    """A program: its globals and other functions, the locals of `main` behind `r`, and the blocks of `main`."""
    head = b"minirust 1\n%sfn main() -> r {\nlet r: unit%s;\n" % (front, local_types)
    return b"%s%s\n}\nmain main\n" % (head, blocks)


def lines_of_function(tokens):
    """The lines of a function behind its opening brace: its locals, the name of each block, each statement, a brace."""
    line, depth = [], 0
    for token in tokens:
        line.append(token)
        depth += (token in OPENING) - (token in CLOSING)
        ends = token == b";" or (token == b":" and line[0] != b"let")
        if depth < 0 or (depth == 0 and ends):
            yield line
            line = []
        if depth < 0:
            return


def lines_of(tokens):
    """The lines of a canonical text."""
    yield tokens[:2]
    at = 2
    while tokens[at] in (b"global", b"fn"):
        end = tokens.index(b"}" if tokens[at] == b"global" else b"{", at) + 1
        yield tokens[at:end]
        if tokens[at] == b"fn":
            for line in lines_of_function(iter(tokens[end:])):
                yield line
                end += len(line)
        at = end
    yield tokens[at:]


def canonical(text):
    """The canonical text of a program. Its text has no repeat of 1, and no tuple that is `unit`."""
    tokens = TOKEN.findall(re.sub(rb"#[^\n]*", b"", text))
    return b"".join(b" ".join(line) + b"\n" for line in lines_of(tokens))


def place(text, at):
    """The line and the column of a byte of a text."""
    return text.count(b"\n", 0, at) + 1, at - text.rfind(b"\n", 0, at)


def checked(what, text, written, status):
    return what, ["check", "limit.mr"], {"limit.mr": text}, written, status


def taken(what, text):
    """A program that `check` takes."""
    return checked(what, text, canonical(text), 0)


def no_text(what, text, at, code, name):
    """A text above a limit, whose first fault stands at a byte."""
    return checked(f"{what}, and above", text, b"text %d %d %d %s\n" % (*place(text, at), code, name), 3)


def no_form(what, text, fault):
    """A program above a limit, which breaks a rule."""
    return checked(f"{what}, and above", text, b"form %s\n" % fault, 4)


def ran(what, text, schedule, written, status):
    """A run of a program under a schedule."""
    return what, ["run", "limit.mr", "limit.sched"], {"limit.mr": text, "limit.sched": schedule}, written, status


def bytes_and_numbers():
    """The bytes of a text, and the sizes of numbers."""
    what, base = "a text of 2^20 bytes", program()
    longest = base + b"#" * (TEXT - len(base))
    yield taken(what, longest)
    yield no_text(what, longest + b"#", 0, 3, b"LongText")
    for what, most, block in (
            ("a constant below 2^128", 1 << 128, b"b0 regular: do print(u128 %d) to b0;"),
            ("an address below 2^64", 1 << 64, b"b0 regular: mention deref(raw %d, u8); exit;")):
        yield taken(what, program(blocks=block % (most - 1)))
        text = program(blocks=block % most)
        yield no_text(what, text, text.index(b"%d" % most), 2, b"BadNumber")
    for what, item, most in (
            ("a byte of a global", b"%d", 255),
            ("a repeat of a byte", b"7*%d", 1 << 20),
            ("a repeat of no byte", b"?*%d", 1 << 20)):
        front = b"global g align 1 { %s }\n" % item
        yield taken(what, program(front % most))
        text = program(front % (most + 1))
        yield no_text(what, text, text.index(b"%d }" % (most + 1)), 4, b"Unexpected")


# For each kind of bracket the locals and the block of a program, in which a nest takes the place of `%s`. The nest is
# what opens so many times, what stands inside, and what closes as often. With one time more, the bracket at the place
# that stands last, in what opens last, is the 33rd.
NESTS = (
    ("round", b"", b"b0 regular: do print(%s) to b0;", b"neg(", b"i8 1", b")", 30, 3),
    ("curly", b", x: %s", b"b0 regular: exit;", b"tuple size 8 align 1 { 0: ", b"u64", b" }", 31, 21),
    ("square", b", x: array(1, u64)", b"b0 regular: mention %s; exit;", b"x[load(", b"x[u64 0]", b")]", 15, 6),
)


def open_brackets():
    """The brackets that may be open at once: 32, of which the first is the brace of the function."""
    for kind, local_types, block, opened, inner, closed, count, behind in NESTS:
        what = f"32 open brackets, the last of them {kind}"
        for times in (count, count + 1):
            nest = opened * times + inner + closed * times
            text = program(b"", local_types.replace(b"%s", nest), block.replace(b"%s", nest))
            if times == count:
                yield taken(what, text)
        yield no_text(what, text, text.index(nest) + len(opened) * count + behind, 7, b"TooDeep")
    # (there the 33rd was the round bracket behind `load`)
    nest = b"b0 regular: do print(neg(load(%sx[u64 0]%s))) to b0;" % (b"x[load(" * 13, b")]" * 13)
    text = program(b"", b", x: array(1, u64)", nest)
    yield taken("31 open brackets, the last of them square", text)
    text = text.replace(b"u64 0", b"load(x[u64 0])")
    yield no_text("32 open brackets, and a square one", text, text.index(b"[u64 0"), 7, b"TooDeep")


def postfixes():
    """The postfixes of a place: 32. No type is so deep that a place keeps the rules with as many, so a rule is told."""
    for postfix in (b".0", b"@0", b"[u64 0]"):
        what = f"32 postfixes {postfix.decode()}"
        text = program(blocks=b"b0 regular: mention r%s; exit;" % (postfix * 32))
        yield checked(what, text, b"form main b0 0 33 Place\n", 4)
        text = text.replace(b"; exit", postfix + b"; exit")
        yield no_text(what, text, text.index(postfix + b"; exit"), 7, b"TooDeep")


def function(number):
    return b"fn f%d() -> r {\nlet r: unit;\nb0 regular: exit;\n}\n" % number


def repeated(piece, count):
    """So many pieces, each with its number."""
    return b"".join(piece % number for number in range(count))


def statements(count):
    return b"b0 regular:\n%sdead x; exit;" % (b"live x;\n" * (count - 1))


def counts():
    """How many functions, globals, locals, blocks and statements there may be. The last one begins with `last`."""
    for what, most, made, last in (
            ("functions", 256, lambda n: program(b"".join(map(function, range(n - 1)))), b"main() ->"),
            ("globals", 256, lambda n: program(repeated(b"global g%d align 1 { }\n", n)), b"g256 "),
            ("locals", 256, lambda n: program(local_types=repeated(b", x%d: u8", n - 1)), b"x255:"),
            ("blocks", 1024, lambda n: program(blocks=repeated(b"b%d regular: exit;\n", n)), b"b1024 "),
            ("statements", 4096, lambda n: program(b"", b", x: u8", statements(n)), b"dead x")):
        yield taken(f"{most} {what}", made(most))
        text = made(most + 1)
        yield no_text(f"{most} {what}", text, text.index(last), 8, b"TooMany")


# Types with a number in them, the most that it may be, a number above, and the rule on it.
TYPES = (
    (b"tuple size %d align 1 { }", 1 << 20, (1 << 20) + 1, b"20 TypeSize"),
    (b"union size %d align 1 { } chunks { }", 1 << 20, (1 << 20) + 1, b"20 TypeSize"),
    (b"enum size %d align 1 disc u8 { 0: array(%d, u8) tag { } } known 0", 1 << 20, (1 << 20) + 1, b"20 TypeSize"),
    (b"array(%d, u8)", 1 << 20, (1 << 20) + 1, b"20 TypeSize"),
    (b"array(%d, u64)", 1 << 17, (1 << 17) + 1, b"20 TypeSize"),
    (b"array(%d, tuple size 0 align 2 { })", 1 << 20, (1 << 20) + 1, b"20 TypeSize"),
    (b"ref %d 1", (1 << 63) - 1, 1 << 63, b"20 TypeSize"),
    (b"tuple size 0 align %d { }", 4096, 8192, b"21 TypeAlign"),
    (b"union size 0 align %d { } chunks { }", 4096, 8192, b"21 TypeAlign"),
    (b"enum size 0 align %d disc u8 { 0: unit tag { } } known 0", 4096, 8192, b"21 TypeAlign"),
    (b"ref 8 %d", 4096, 8192, b"21 TypeAlign"),
)


def types():
    """The size and the alignment of a type, the count of an array, and the bytes that a reference points to."""
    for form, most, above, rule in TYPES:
        what = f"a type: {form.decode().replace('%d', str(most))}"
        made = lambda number: program(local_types=b", x: %s" % form.replace(b"%d", b"%d" % number))
        yield taken(what, made(most))
        yield no_form(what, made(above), b"main - 1 %s" % rule)


def globals_of_programs():
    """The size and the alignment of a global."""
    for what, form, most, above in (
            ("a global of 2^20 bytes", b"global g align 1 { 7*1048575 %s }\n", b"8", b"8 9"),
            ("a global of 2^20 bytes without values", b"global g align 1 { ?*1048575 %s }\n", b"?", b"? ?"),
            ("a global of 2^20 bytes with a pointer", b"global g align 8 { 7*1048568 %s }\n", b"&g + 8", b"&g + 8 9"),
            ("a global aligned to 4,096", b"global g align %s { 7 }\n", b"4096", b"8192")):
        yield taken(what, program(form % most))
        yield no_form(what, program(form % above), b"g - 0 44 GlobalForm")


WORKER = b"fn w(p) -> r {\nlet p: raw, r: unit;\nb0 regular: deref(global g + 0, i32) = i32 1; return;\n}\n"
SPAWNING = program(b"global g align 4 { 0*4 }\n" + WORKER, b", t: u32",
                   b"b0 regular: live t; goto b1;\nb1 regular: do spawn(fn w, raw 0) -> t to b1;")
LOCKING = program(b"", b", t: u32", b"b0 regular: live t; goto b1;\nb1 regular: do create_lock() -> t to b1;")
STAYING = program(blocks=b"b0 regular: goto b0;")


def threads_and_locks():
    """1,024 threads, `main` among them, and 4,096 locks. The rules on them are told before that on missing picks."""
    front = b"schedule 1\n" + START_OF_TWO + b"0 8192\n0\n"
    front += b"".join(b"0 33 %d\n" % (8208 + 8 * k) for k in range(1023))
    yield ran("1,024 threads", SPAWNING, front, RUNNING, 0)
    yield ran("1,024 threads, and above", SPAWNING, front + b"0\n", b"schedule 1028 67 TooManyThreads\n", 5)
    front = b"schedule 1\n" + START + b"0 8192\n0\n" + b"0\n" * 4096
    yield ran("4,096 locks", LOCKING, front, RUNNING, 0)
    yield ran("4,096 locks, and above", LOCKING, front + b"0\n", b"schedule 4101 68 TooManyLocks\n", 5)


def allocations():
    """The size of an allocation, its last address, and its alignment."""
    most, last = 1 << 63, (1 << 64) - 8
    for what, size, align, pick, written, status in (
            ("2^63 - 1 bytes", most - 1, 1, b" 8192", RUNNING, 0),
            ("2^63 - 1 bytes, and above", most, 1, b"", b"verdict undefined 125 SizeTooLarge\nraces 0\n", 1),
            ("the last eight bytes of all", 8, 8, b" %d" % last, RUNNING, 0),
            ("the last eight bytes of all, and above", 9, 8, b" %d" % last, b"schedule 4 63 BadAddress\n", 5),
            ("aligned to 2^63", 8, most, b" %d" % most, RUNNING, 0),
            ("aligned to 2^63, and above", 8, most + 1, b"", b"verdict undefined 126 BadAlign\nraces 0\n", 1)):
        block = b"b0 regular: live p; do allocate(u64 %d, u64 %d) -> p to b1;\nb1 regular: exit;" % (size, align)
        schedule = b"schedule 1\n" + START + b"0 4104\n0%s\n" % pick
        yield ran(f"an allocation of {what}", program(b"", b", p: raw", block), schedule, written, status)


def schedules():
    """The entries of a schedule, in both versions, and the bytes of its text."""
    for what, front, most, above, line in (
            ("2^22 entries", b"schedule 1\n", b"0\n" * ENTRIES, b"0\n" * (ENTRIES + 1), b"4194307"),
            ("2^22 entries on a line", b"schedule 2\n", b"0*4194304\n", b"0*4194305\n", b"3"),
            ("2^22 entries on a line, and no other", b"schedule 2\n", b"0*4194304\n", b"0*4194304\n1\n", b"4")):
        yield ran(what, STAYING, front + START + most, RUNNING, 0)
        yield ran(f"{what}, and above", STAYING, front + START + above, b"schedule %s 52 TooLong\n" % line, 5)
    for version in (b"1", b"2"):
        what, front = f"a schedule of version {version.decode()} of 2^26 bytes", b"schedule %s\n" % version + START
        # (its third line is a number that no thread has)
        longest = front + b"7" * (SCHEDULE - len(front) - 1)
        yield ran(what, STAYING, longest + b"\n", b"schedule 3 51 BadLine\n", 5)
        yield ran(f"{what}, and above", STAYING, longest + b"7\n", b"schedule 1 52 TooLong\n", 5)


def words():
    """The most entries of a drawn schedule, and the numbers that it is drawn from."""
    drawn, files = b"schedule 1\nstart 65536 65537\n", {"limit.mr": STAYING}
    for what, number, most, written, status in (
            ("2^20 entries to draw", 7, 1 << 20, drawn + b"0\n" * (1 << 20) + RUNNING, 0),
            ("2^20 entries to draw, and above", 7, (1 << 20) + 1, USAGE, 2),
            ("2^64 - 1 to draw from", (1 << 64) - 1, 2, drawn + b"0\n0\n" + RUNNING, 0),
            ("2^64 - 1 to draw from, and above", 1 << 64, 2, USAGE, 2)):
        yield what, ["auto", "limit.mr", str(number), str(most)], files, written, status


def cases():
    """Each limit at its number, and then above it."""
    of_texts = (bytes_and_numbers, open_brackets, postfixes, counts, types, globals_of_programs)
    for part in (*of_texts, threads_and_locks, allocations, schedules, words):
        yield from part()
