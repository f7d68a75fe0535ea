#!/usr/bin/env python3
"""The slowest texts and runs within the limits that we can think of, and what each may cost.

    .ci/hostile.py [PROGRAM [WORD]]

tells the processor seconds of each, or of those that have the word in their name, in the memory that it is given.
`.ci/outputs` judges them: what each must write and end with, and what it may take. A text may take so many times what a
plain one takes; a run has its own bounds.
"""
import collections
import itertools
import os
import re
import resource
import subprocess
import sys
import tempfile

sys.dont_write_bytecode = True
from alike import alike, worst_text  # noqa: E402
from limits import RUNNING, TEXT, place, program, repeated  # noqa: E402

EXITED = b"verdict exit\nraces 0\n"

TOP = os.path.dirname(os.path.dirname(os.path.abspath(__file__)))
PROGRAM = f"{TOP}/crates/mirace/out/mirace"
# How many times as long as a plain text of its length a text may take to be checked, and in how much memory, in MiB.
TIMES, TEXT_ROOM = 12, 300
# What is tried: the words of the command, the files, what must be written (of a text that is taken none: its tokens)
# and ended with; the most processor seconds (of a text none: as many as TIMES says); and its memory, in MiB.
Case = collections.namedtuple("Case", "what words files written status seconds room")


def ran(case, program_path, at):
    """What a case writes, its status, and its processor seconds."""
    for name, text in case.files.items():
        with open(f"{at}/{name}", "wb") as it:
            it.write(text)
    limited = lambda: resource.setrlimit(resource.RLIMIT_AS, (case.room << 20, case.room << 20))
    with open(f"{at}/written", "w+b") as written:
        how = {"cwd": at, "stdin": subprocess.DEVNULL, "stdout": written, "stderr": subprocess.DEVNULL}
        started = subprocess.Popen([program_path, *case.words], **how, preexec_fn=limited)
        _, status, used = os.wait4(started.pid, 0)
        written.seek(0)
        text = written.read()
    return text, os.waitstatus_to_exitcode(status), used.ru_utime + used.ru_stime


def is_well(case, text, status):
    """Whether this is what must be written, and the status."""
    if case.written is None:
        tokens = re.sub(rb"#[^\n]*", b"", case.files["P"])
        return status == case.status and text.translate(None, b" \n") == tokens.translate(None, b" \n")
    return status == case.status and text == case.written


def widest(made):
    """A text with as many pieces as go into one."""
    count = TEXT // 50
    for _ in range(2):
        count = count * TEXT // len(made(count))
    while len(made(count)) > TEXT:
        count -= count // 500 + 1
    return made(count)


def listed(piece, count):
    """So many pieces, each with its number where it has one, with commas between them."""
    return b", ".join(piece.replace(b"%d", b"%d" % number) for number in range(count))


def rows_of_padded(count):
    """So many rows of elements with one used byte, each its own, and six times as many chunks with such a byte."""
    rows = ((15 * (k % 50), 6 * count - 50 - k // 50) for k in range(count))
    fields = b", ".join(b"%d: array(%d, tuple size 15 align 1 { 0: u8 })" % row for row in rows)
    chunks = b", ".join(b"%d 1" % (15 * k) for k in range(6 * count))
    return b"union size 1048576 align 1 { %s } chunks { %s }" % (fields, chunks)


def tags_from(first, count):
    """So many tags on odd bytes, from one of them on."""
    return b", ".join(b"%d: u8 = 1" % (2 * k + 1) for k in range(first, first + count))


def tagged_elements(count):
    """An array of elements with so many fields and a hole behind each, and more tags in the holes."""
    fields = min(count, 32768)
    elements = b"array(16, tuple size 65536 align 1 { %s })" % b", ".join(b"%d: u8" % (2 * k) for k in range(fields))
    tags = tags_from(0, min(count * 5 // 4, 524288))
    return b"enum size 1048576 align 1 disc u8 { 0: %s tag { %s } } known 0" % (elements, tags)


def tagged_arrays(array, count, tags, depth=1):
    """So many arrays over one another, whose odd bytes are padding, and tags there, in enums around one another."""
    arrays = b", ".join(b"%d: %s tag { }" % (k, array) for k in range(count))
    of_type = b"enum size 1048576 align 1 disc u32 { %s } known 0" % arrays
    for level in range(depth):
        more = tags_from(level * (tags // depth), tags // depth)
        of_type = b"enum size 1048576 align 1 disc u8 { 0: %s tag { %s } } known 0" % (of_type, more)
    return of_type


def sooner(depth):
    """Arrays of one element in one another, each of which ends before what is around it does."""
    of_type = b"unit"
    for level in range(depth):
        of_type = b"tuple size %d align 1 { 0: array(1, %s) }" % (TEXT - depth + level + 1, of_type)
    return of_type


def tagged(of_type, count):
    """An enum of so many variants with this type, the last byte of which is a tag of one around it."""
    variants = b", ".join(b"%d: %s tag { }" % (k, of_type) for k in range(count))
    of_type = b"enum size 1048576 align 1 disc u32 { %s } known 0" % variants
    return b"enum size 1048576 align 1 disc u8 { 0: %s tag { 1048575: u8 = 1 } } known 0" % of_type


def local(of_type):
    return program(b"", b", x: " + of_type)


def block(terminator):
    return program(blocks=b"b0 regular: %s;" % terminator)


def blocks_of(statement, count):
    """So many statements, in as few blocks as may be."""
    rows = [min(4096, count - at) for at in range(0, count, 4096)]
    return b"".join(b"b%d regular:\n%sgoto b0;\n" % (k, statement * row) for k, row in enumerate(rows))


def summed(count):
    """A sum of so many numbers."""
    return b"u8 1" if count < 2 else b"add(%s, %s)" % (summed(count // 2), summed(count - count // 2))


def locals_of(number):
    """A function with as many locals as there may be, whose names no other function has."""
    names = b"".join(b", local_%d_%d: u8" % (number, k) for k in range(255))
    return b"fn f%d() -> r {\nlet r: unit%s;\nb0 regular: exit;\n}\n" % (number, names)


def locals_alike(number):
    """The same, with names that std's hasher, whose seed is known, gives one hash."""
    names = b"".join(b", nnnnnnnnnnaaamQwdDfmMBSQ%08d: u8" % (255 * number + k) for k in range(255))
    return b"fn f%d() -> r {\nlet r: unit%s;\nb0 regular: exit;\n}\n" % (number, names)


def named_locals(names, count, used=None):
    """A function with locals of these names, and so many statements that name one after the other, or those that are
    used."""
    used = used or names
    rows = [b"live %s;\n" % used[k % len(used)] for k in range(count)]
    parts = ((k, b"".join(rows[k:k + 4096])) for k in range(0, max(count, 1), 4096))
    blocks = b"".join(b"b%d regular:\n%sexit;\n" % it for it in parts)
    return program(b"", b"".join(b", %s: u8" % name for name in names), blocks)


def fronted(size):
    """As many names as a function has locals, with a front of so many bytes in common."""
    return [b"x" * size + b"%03d" % k for k in range(255)]


def alike_blocks(count):
    """Blocks whose names collide without a key, and so many cases that name one after the other."""
    names = alike()
    cases = b"".join(b"%d => %s, " % (k, names[k % len(names)]) for k in range(count))
    blocks = b"".join(b"%s regular: exit;\n" % name for name in names)
    return program(blocks=b"b0 regular: switch u32 7 { %s_ => b0 };\n%s" % (cases, blocks))


def blocks_in(number):
    """A function with as many blocks as there may be."""
    return b"fn f%d() -> r {\nlet r: unit;\n%s}\n" % (number, repeated(b"b%d regular: exit;\n", 1024))


def of_arguments(statements):
    """A function whose statements name a local, behind as many arguments as there may be."""
    types = listed(b"a%d: u8", 254)
    return b"fn f(%s) -> r {\nlet r: unit, x: u8, %s;\n%s}\n" % (types.replace(b": u8", b""), types, statements)


def called(name):
    """A function of this name."""
    return b"fn %s() -> r {\nlet r: unit;\nb0 regular: exit;\n}\n" % name


# Types of which a part is still to be put in: the fields of a tuple, the tags of the only variant of an enum, and the
# cases of a tree.
FIELDS = b"tuple size 1048576 align 1 { %s }"
TAGGED = b"enum size 1048576 align 1 disc u8 { 0: tuple size 1048576 align 1 { %s } tag { %s } } known 0"
CASES = b"enum size 4 align 4 disc u8 { 0: tuple size 4 align 4 { } tag { } } %s"
TREE = b"branch 0 u32 { %s_ => invalid }"
ONE_FIELD = b"tuple size 1 align 1 { 0: "
ONE_VARIANT = b"enum size 0 align 1 disc u8 { 0: "
# The same without bytes, and the least that has a part.
EMPTY = b"tuple size 0 align 1 { 0: "
SMALL = EMPTY + b"unit }"
# An array of 16 bytes, of which each second one is padding.
PADDED = b"array(8, tuple size 2 align 1 { 0: u8 })"
# The same as long as may be, at once and in halves.
LONG = b"array(524288, tuple size 2 align 1 { 0: u8 })"
HALVES = b"array(2, array(262144, tuple size 2 align 1 { 0: u8 }))"
# Each form of a text that repeats something, and as often as goes into a text. The first is the plain one.
WIDE = (
    ("statements", lambda n: program(b"", b", x: u8", blocks_of(b"live x;\n", n))),
    ("fields without bytes", lambda n: local(b"tuple size 0 align 1 { %s }" % listed(b"0: unit", n))),
    ("fields", lambda n: local(FIELDS % listed(b"%d: u8", n))),
    ("fields of a union, each with a chunk",
     lambda n: local(b"union size 1048576 align 1 { %s } chunks { %s }" % (listed(b"%d: u8", n), listed(b"%d 1", n)))),
    ("chunks under an array",
     lambda n: local(b"union size 1048576 align 1 { 0: array(%d, u8) } chunks { %s }" % (n, listed(b"%d 1", n)))),
    ("chunks under padded arrays", lambda n: local(rows_of_padded(n))),
    ("chunks without bytes", lambda n: local(b"union size 1048576 align 1 { } chunks { %s }" % listed(b"%d 0", n))),
    ("variants", lambda n: local(b"enum size 0 align 1 disc u32 { %s } invalid" % listed(b"%d: unit tag { }", n))),
    ("variants with tags and cases", lambda n: local(
        b"enum size 4 align 4 disc u32 { %s } %s" % (
            listed(b"%d: tuple size 4 align 4 { } tag { 0: u32 = %d }", n),
            TREE % b"".join(b"%d => known %d, " % (k, k) for k in range(n))))),
    ("tags", lambda n: local(TAGGED % (b"", listed(b"%d: u8 = 1", n)))),
    ("tags beside fields", lambda n: local(TAGGED % (
        b", ".join(b"%d: u8" % (2 * k) for k in range(n)), b", ".join(b"%d: u8 = 1" % (2 * k + 1) for k in range(n))))),
    ("tags in padded arrays", lambda n: local(TAGGED % (
        b", ".join(b"%d: %s" % (16 * k, PADDED) for k in range(n)),
        b", ".join(b"%d: u8 = 1, %d: u8 = 1" % (16 * k + 1, 16 * k + 15) for k in range(n))))),
    ("tags beside the fields of an array's elements", lambda n: local(tagged_elements(n))),
    ("tags beside arrays over one another", lambda n: local(tagged_arrays(LONG, n, 3 * n))),
    ("a tag beside arrays over one another", lambda n: local(tagged_arrays(LONG, n, 1))),
    ("a tag beside halves of arrays over one another", lambda n: local(tagged_arrays(HALVES, n, 1))),
    ("enums with a tag beside one another", lambda n: local(b"enum size 1048576 align 1 disc u32 { %s } known 0" % listed(
        b"%d: enum size 1048576 align 1 disc u8 { 0: tuple size 1048576 align 1 { } tag { 7: u8 = 1 } } known 0 tag { }", n))),
    ("cases of a tree", lambda n: local(CASES % (TREE % repeated(b"%d => known 0, ", n)))),
    ("cases of a switch", lambda n: block(b"switch u32 7 { %s_ => b0 }" % repeated(b"%d => b0, ", n))),
    ("arguments of a print", lambda n: block(b"do print(%s) to b0" % listed(b"i8 1", n))),
    ("arguments of a call", lambda n: block(b"call fn main(%s) -> r to b0" % listed(b"i8 1", n))),
    ("parts of an array", lambda n: program(
        b"", b", x: array(%d, u8)" % n, b"b0 regular: x = tuple(array(%d, u8), %s); exit;" % (n, listed(b"u8 1", n)))),
    ("parts of a tuple", lambda n: program(
        b"", b", x: " + FIELDS % listed(b"%d: u8", n),
        b"b0 regular: x = tuple(%s, %s); exit;" % (FIELDS % listed(b"%d: u8", n), listed(b"u8 1", n)))),
    ("a sum", lambda n: block(b"do print(%s) to b0" % summed(n))),
    ("items of a global", lambda n: program(b"global g align 1 { %s}\n" % (b"7 8 " * n))),
    ("pointers of a global", lambda n: program(b"global g align 8 { %s}\n" % (b"&g + 0 " * min(n, 1 << 17)))),
    ("locals of many functions", lambda n: program(b"".join(map(locals_of, range(min(n, 255)))))),
    ("locals whose names have one hash", lambda n: program(b"".join(map(locals_alike, range(min(n // 80, 255)))))),
    ("locals whose names collide without a key", lambda n: named_locals(alike()[:255], n)),
    ("the last local whose name collides without a key", lambda n: named_locals(alike()[:255], n, alike()[254:255])),
    ("blocks whose names collide without a key", alike_blocks),
    ("names with 64 bytes in common in front", lambda n: named_locals(fronted(64), n)),
    ("names with 500 bytes in common in front", lambda n: named_locals(fronted(500), n)),
    ("names with 1,500 bytes in common in front", lambda n: named_locals(fronted(1500), n)),
    ("blocks of many functions", lambda n: program(b"".join(map(blocks_in, range(min(n, 255)))))),
    ("functions with long names", lambda n: program(b"".join(called(b"x" * n + b"%d" % k) for k in range(255)))),
    ("statements behind many arguments", lambda n: program(of_arguments(blocks_of(b"live x;\n", n)))),
    ("types written in statements", lambda n: program(
        blocks=blocks_of(b"mention deref(raw 0, array(7, u8));\n", n))),
    ("a name", lambda n: b"minirust 1\n%smain %s\n" % (called(b"x" * n), b"x" * n)),
    ("a comment", lambda n: program() + b"#" * n),
    ("blanks", lambda n: program() + b" " * n),
    ("ends of lines", lambda n: program() + b"\n" * n),
)


def nested(opened, inner, closed, depth=29):
    return opened * depth + inner + closed * depth


def wide(count):
    """A type with so many parts, without bytes."""
    return b"tuple size 0 align 1 { %s }" % listed(b"0: unit", count)


def wide_before(count, number):
    """The same, and behind the parts another that has a number."""
    return b"tuple size 0 align 1 { %s, 0: array(0, array(%d, u8)) }" % (listed(b"0: unit", count), number)


# Each form that may stand in itself, as deep as may be, around something wide; and deep ones over and over.
DEEP = (
    ("tuples around fields", lambda n: local(nested(FIELDS[:-4] + b"0: ", FIELDS % listed(b"%d: u8", n), b" }"))),
    ("arrays around fields", lambda n: local(nested(b"array(1, ", FIELDS % listed(b"%d: u8", n), b")"))),
    ("unions around fields", lambda n: local(nested(
        FIELDS.replace(b"tuple", b"union")[:-4] + b"0: ", FIELDS % listed(b"%d: u8", n), b" } chunks { 0 1048576 }"))),
    ("enums around fields", lambda n: local(nested(
        b"enum size 1048576 align 1 disc u8 { 0: ", FIELDS % listed(b"%d: u8", n), b" tag { } } known 0"))),
    ("enums with tags around fields", lambda n: local(b"".join((
        b"".join(b"enum size 1048576 align 1 disc u8 { 0: " for k in range(29)), FIELDS % listed(b"%d: u8", n),
        b"".join(b" tag { %d: u8 = 1 } } known 0" % (TEXT - 1 - k) for k in range(29)))))),
    ("enums with tags around arrays over one another", lambda n: local(tagged_arrays(LONG, n, 3 * n, 28))),
    ("enums with some tags around arrays over one another", lambda n: local(tagged_arrays(LONG, n, 28 * 64, 28))),
    ("enums with a tag around arrays over one another", lambda n: local(tagged_arrays(LONG, n, 28, 28))),
    ("a tag around arrays that end sooner and sooner", lambda n: local(tagged(sooner(13), n))),
    ("trees in the first case", lambda n: local(CASES % nested(
        b"branch 0 u32 { 0 => ", TREE % repeated(b"%d => known 0, ", n), b", _ => invalid }"))),
    ("trees in the last case", lambda n: local(CASES % nested(
        b"branch 0 u32 { 0 => invalid, _ => ", TREE % repeated(b"%d => known 0, ", n), b" }"))),
    ("operators", lambda n: program(b"", b", x: u8", blocks_of(b"x = %s;\n" % nested(b"not(", b"u8 1", b")"), n))),
    ("loads", lambda n: program(
        b"", b", x: raw", blocks_of(b"x = load(%s);\n" % nested(b"deref(load(", b"x", b"), raw)", 15), n))),
    ("fields of fields", lambda n: program(
        b"", b", x: " + nested(ONE_FIELD, b"u8", b" }"), blocks_of(b"mention x%s;\n" % (b".0" * 29), n))),
    ("variants of variants", lambda n: program(
        b"", b", x: " + nested(ONE_VARIANT, b"unit", b" tag { } } known 0"),
        blocks_of(b"mention x%s;\n" % (b"@0" * 29), n))),
    ("variants of variants moved", lambda n: program(
        b"", b", x: " + nested(ONE_VARIANT, SMALL, b" tag { } } known 0", 28),
        blocks_of(b"x%s = load(x%s);\n" % (b"@0" * 28, b"@0" * 28), n))),
    ("equal types in one another", lambda n: local(
        b"tuple size 0 align 1 { %s }" % listed(b"0: " + nested(EMPTY, b"unit", b" }", 28), n))),
    ("equal arrays in one another", lambda n: local(
        b"tuple size 0 align 1 { %s }" % listed(b"0: " + nested(b"array(1, ", b"unit", b")", 28), n))),
    ("equal types around fields", lambda n: local(
        b"tuple size 0 align 1 { %s }" % listed(b"0: " + nested(b"array(1, ", wide(45), b")", 28), n))),
    ("few equal types around many fields", lambda n: local(
        b"tuple size 0 align 1 { %s }" % listed(b"0: " + nested(b"array(1, ", wide(n), b")", 28), 32))),
    ("types around many fields that end otherwise", lambda n: local(b"tuple size 0 align 1 { %s }" % b", ".join(
        b"0: " + nested(b"array(1, ", wide_before(n, k), b")", 26) for k in range(32)))),
    ("many types around fields that end otherwise", lambda n: local(b"tuple size 0 align 1 { %s }" % b", ".join(
        b"0: " + nested(b"array(1, ", wide_before(200, 40503 * k % (1 << 17)), b")", 26) for k in range(n)))),
    ("types written in statements", lambda n: program(
        blocks=blocks_of(b"mention deref(raw 0, %s);\n" % nested(ONE_FIELD, b"u8", b" }", 28), n))),
)


def variants(count):
    return b"enum size 0 align 1 disc u32 { %s } invalid" % listed(b"%d: unit tag { }", count)


def turned(count):
    """The same, each with a number that the others' order doesn't tell."""
    numbers = (40503 * k % (1 << 17) for k in range(count))
    return b"enum size 0 align 1 disc u32 { %s } invalid" % b", ".join(b"%d: unit tag { }" % k for k in numbers)


def halves(count):
    """A type with two equal wide parts."""
    return b"tuple size 0 align 1 { %s }" % listed(b"0: " + wide(count // 2), 2)


def halved(count):
    """Types with two equal parts, in one another as deep as so many go."""
    return SMALL if count < 2 else b"tuple size 0 align 1 { %s }" % listed(b"0: " + halved(count // 2), 2)


# What has to do with one wide thing, over and over.
AGAIN = (
    ("a wide type moved", lambda n: program(b"", b", x: " + wide(n), blocks_of(b"x = load(x);\n", n))),
    ("a wide type moved from one local to another", lambda n: program(
        b"", b", x: %s, y: %s" % (wide(n), wide(n)), blocks_of(b"x = load(y);\n", n))),
    ("a wide part moved", lambda n: program(b"", b", x: " + halves(n), blocks_of(b"x.0 = load(x.1);\n", n))),
    ("a wide element moved", lambda n: program(
        b"", b", x: array(2, %s)" % wide(n), blocks_of(b"x[u64 0] = load(x[u64 1]);\n", n))),
    ("a wide variant moved", lambda n: program(
        b"", b", x: enum size 0 align 1 disc u8 { 0: %s tag { } } known 0, y: %s" % (wide(n), wide(n)),
        blocks_of(b"x@0 = load(y);\n", n))),
    ("a type of halves moved", lambda n: program(b"", b", x: " + halved(n), blocks_of(b"x = load(x);\n", n))),
    ("a union of chunks moved", lambda n: program(
        b"", b", x: union size 1048576 align 1 { } chunks { %s }" % listed(b"%d 0", n),
        blocks_of(b"x = load(x);\n", n))),
    ("an enum with a wide tree moved", lambda n: program(
        b"", b", x: " + CASES % (TREE % repeated(b"%d => known 0, ", n)), blocks_of(b"x = load(x);\n", n))),
    ("an element of arrays in one another moved", lambda n: program(
        b"", b", x: " + nested(b"array(1, ", SMALL, b")", 28),
        blocks_of(b"x%s = load(x%s);\n" % (b"[u64 0]" * 28, b"[u64 0]" * 28), n))),
    ("an array of wide elements", lambda n: program(
        b"", b", x: %s, y: %s, z: array(%d, %s)" % (wide(n // 4), wide(n // 4), n, wide(n // 4)),
        b"b0 regular: z = tuple(array(%d, %s), %s); exit;" % (
            n, wide(n // 4), b", ".join((b"load(x)", b"load(y)")[k % 2] for k in range(n))))),
    ("the last of many fields", lambda n: program(b"", b", x: " + wide(n), blocks_of(b"mention x.%d;\n" % (n - 1), n))),
    ("the last of many variants", lambda n: program(
        b"", b", x: " + variants(n), blocks_of(b"mention x@%d;\n" % (n - 1), n))),
    ("the last of many variants in no order", lambda n: program(
        b"", b", x: " + turned(n), blocks_of(b"mention x@%d;\n" % (40503 * (n - 1) % (1 << 17)), n))),
    ("each of many variants", lambda n: program(b"", b", x: " + turned(n), b"b0 regular:\n%sexit;\n" % b"".join(
        b"mention x@%d;\n" % (40503 * k % (1 << 17)) for k in range(min(n, 4096))))),
    ("the discriminant of the last of many variants", lambda n: program(
        b"", b", x: " + variants(n), blocks_of(b"disc x = %d;\n" % (n - 1), n))),
    ("leaves that name the last of many variants", lambda n: local(
        b"enum size 4 align 4 disc u32 { %s } %s" % (
            listed(b"%d: u32 tag { }", n), TREE % b"".join(b"%d => known %d, " % (k, n - 1) for k in range(n))))),
)


def searched():
    """The text whose end is searched for, so that its last local costs most to find: 255 locals, and statements that
    name it."""
    names = [b"n%03d" % k for k in range(255)]
    front = widest(lambda n: named_locals(names, n, names[-1:]) + b"# 12345678\n")[:-9]
    text, cost = worst_text(front, names)
    what = f"searched for against the key of its text: a local that is compared with {cost} names or groups"
    yield Case(what, ["check", "P"], {"P": text}, None, 0, None, TEXT_ROOM)


def faults():
    """A plain text with one fault, which stands at its end."""
    plain = widest(lambda n: program(b"", b", x: u8", blocks_of(b"live x;\n", n)) + b"#" * 40)[:-40]
    for what, text, at, fault, status in (
            ("a byte of no token", plain + b"$", len(plain), b"1 BadByte", 3),
            ("a number that is none", plain[:-1] + b" 00", len(plain), b"2 BadNumber", 3),
            ("no end", plain[:-6], len(plain) - 6, b"4 Unexpected", 3),
            ("an unknown name", plain[:-5] + b"nope\n", len(plain) - 5, b"5 UnknownName", 3)):
        written, what = b"text %d %d %s\n" % (*place(text, at), fault), f"a long text with a fault at its end: {what}"
        yield Case(what, ["check", "P"], {"P": text}, written, status, None, TEXT_ROOM)
    text = plain.replace(b"fn main() -> r {\nlet r: unit", b"fn main(y) -> r {\nlet r: unit, y: u8")
    written = b"form main - 0 45 MainForm\n"
    yield Case("a long text that breaks the last rule", ["check", "P"], {"P": text}, written, 4, None, TEXT_ROOM)


def texts(word=""):
    """The texts that are taken, and those with a fault; of the first those with a word in their name."""
    for kind, table in (("wide", WIDE), ("deep", DEEP), ("again", AGAIN)):
        for what, made in (it for it in table if word in f"{kind}: {it[0]}"):
            yield Case(f"{kind}: {what}", ["check", "P"], {"P": widest(made)}, None, 0, None, TEXT_ROOM)
    yield from searched()
    yield from faults()


def run(what, text, start, entries, written, status, seconds, room):
    """A run of a program under the entries, of which each is a line."""
    schedule = b"schedule 1\nstart %s\n%s\n" % (start, b"\n".join(entries))
    return Case(f"run: {what}", ["run", "P", "S"], {"P": text, "S": schedule}, written, status, seconds, room)


# `main` takes a lock, makes 1,022 threads that wait for it and one that goes on for ever, and waits for that one.
WAITING = b"""minirust 1
fn w(p) -> r {
let p: raw, r: unit;
b0 regular: do acquire(u32 0) to b1;
b1 regular: do release(u32 0) to b0;
}
fn v(p) -> r {
let p: raw, r: unit;
b0 regular: goto b0;
}
fn main() -> r {
let r: unit, t: u32, n: u32;
b0 regular: live t; live n; n = u32 0; do create_lock() -> t to b1;
b1 regular: do acquire(u32 0) to b2;
b2 regular: switch lt(load(n), u32 1022) { 1 => b3, _ => b5 };
b3 regular: do spawn(fn w, raw 0) -> t to b4;
b4 regular: n = add(load(n), u32 1); goto b2;
b5 regular: do spawn(fn v, raw 0) -> t to b6;
b6 regular: do release(u32 0) to b7;
b7 regular: do join(u32 1023) to b8;
b8 regular: exit;
}
main main
"""
WAITING_START = b"16 17 18 64"


def made_waiting():
    """The entries by which the threads of WAITING are made, and those that take the lock wait for it."""
    yield from (b"0 8192", b"0 8200", b"0", b"0", b"0")
    for thread in range(1, 1024):
        yield b"0"
        yield b"0 33 %d" % (8208 + 8 * thread)
        if thread < 1023:
            yield from (b"0", b"0")
    for thread in range(1, 1023):
        yield b"%d" % thread


def handed_on(count):
    """The entries by which the lock of WAITING goes from thread to thread, so many times; who gives it waits for it."""
    yield b"0 1"
    for k in range(count):
        yield b"%d %d" % (1 + k % 1022, 1 + (k + 1) % 1022)
        yield b"%d" % (1 + k % 1022)


# Two threads that go through the bytes of a global each.
APART = b"""minirust 1
global a align 1 { 0*65536 }
global b align 1 { 0*65536 }
fn w(p) -> r {
let p: raw, r: unit, i: u64;
b0 regular: live i; i = u64 0; goto b1;
b1 regular: deref(global a + 0, array(65536, u8))[load(i)] = u8 1; i = add(load(i), u64 1); goto b1;
}
fn main() -> r {
let r: unit, t: u32, i: u64;
b0 regular: live t; live i; i = u64 0; do spawn(fn w, raw 0) -> t to b1;
b1 regular: deref(global b + 0, array(65536, u8))[load(i)] = u8 1; i = add(load(i), u64 1); goto b1;
}
main main
"""
# One thread stores to a global, and another one loads it.
RACING = b"""minirust 1
global g align 1 { 0 }
fn w(p) -> r {
let p: raw, r: unit;
b0 regular: deref(global g + 0, u8) = u8 1; goto b0;
}
fn main() -> r {
let r: unit, t: u32, x: u8;
b0 regular: live t; live x; do spawn(fn w, raw 0) -> t to b1;
b1 regular: x = load(deref(global g + 0, u8)); goto b1;
}
main main
"""


def racing(turns):
    """A run of RACING, in which no two steps that race are neighbours. Each store but the first races with the load
    before it, and each load with the store before it."""
    start, front = b"16 17 64 32", [b"0 8192", b"0 8200", b"0 33 8208"]
    races = b"".join(b"race %d %d\n" % (step, step + 2) for step in range(4, 4 * turns + 2, 2))
    witness = b"witness 5\nschedule 1\nstart %s\n%s\n1\n0\n" % (start, b"\n".join(front))
    written = b"verdict running\nraces %d\n%s%s" % (races.count(b"\n"), races, witness)
    return run("a list of many races", RACING, start, front + [b"1", b"1", b"0", b"0"] * turns, written, 1, 5, 200)


# Two threads that print what they load, `%s`.
PRINTING = b"""minirust 1
fn w(p) -> r {
let p: raw, r: unit, x: u8;
b0 regular: live x; x = u8 1; goto b1;
b1 regular: do print(%s) to b1;
}
fn main() -> r {
let r: unit, t: u32;
b0 regular: live t; do spawn(fn w, raw 0) -> t to b1;
b1 regular: do spawn(fn w, raw 0) -> t to b2;
b2 regular: goto b2;
}
main main
"""


# The block that moves a local into itself for ever.
MOVING = b"b1 regular: x = load(x); goto b1;"
MOST = b"340282366920938463463374607431768211455"


def switching(count):
    return block(b"switch u32 %d { %s_ => b0 }" % (count - 1, repeated(b"%d => b0, ", count)))


def choosing(count):
    """A value of an enum whose tree has so many cases, the last of which is the value's, moved for ever."""
    of_type = b"enum size 4 align 4 disc u8 { 0: u32 tag { } } " + TREE % repeated(b"%d => known 0, ", count)
    first = b"b0 regular: live x; deref(addrof(raw, x), u32) = u32 %d; goto b1;\n" % (count - 1)
    return program(b"", b", x: " + of_type, first + MOVING)


def moving(of_type):
    """A local without value that is moved into itself for ever."""
    return program(b"", b", x: " + of_type, b"b0 regular: live x; goto b1;\n" + MOVING)


ALLOCATING = program(
    b"", b", p: raw", b"b0 regular: live p; goto b1;\nb1 regular: do allocate(u64 8, u64 8) -> p to b1;")
CALLING = program(
    b"fn f() -> r {\nlet r: unit, x: unit;\nb0 regular: live x; call fn f() -> x to b1;\nb1 regular: return;\n}\n",
    b"", b"b0 regular: call fn f() -> r to b1;\nb1 regular: exit;")
COPYING = program(
    b"global g align 1 { 7*1048576 }\n", b", x: array(1048576, u8)",
    b"b0 regular: live x; x = load(deref(global g + 0, array(1048576, u8))); goto b1;\n" + MOVING)
FIRST = b"16 4096"


def scattered(count):
    """So many addresses of eight bytes each, none twice, in no order."""
    return (b"0 %d" % ((1 << 32) + 8 * (k * 40503 % (1 << 17))) for k in range(count))


def of_threads():
    """Many threads that wait, and two whose steps have many accesses."""
    waiting = list(made_waiting())
    text = WAITING.replace(b"do release(u32 0) to b7", b"do join(u32 1023) to b7")
    yield run("the last of 1,024 threads goes on alone", text, WAITING_START,
              waiting + [b"0"] + [b"1023"] * 100, RUNNING, 0, 5, 200)
    yield run("a lock that goes round 1,022 threads", WAITING, WAITING_START,
              waiting + list(handed_on(1000)), RUNNING, 0, 5, 200)
    entries = [b"0 8192", b"0 8200", b"0", b"0 33 8208", b"1 8216", b"1", b"1"] + [b"1", b"0"] * 10000
    yield run("two threads whose steps differ", APART, b"16 17 131072 262144 32", entries, RUNNING, 0, 10, 200)
    yield racing(10000)
    line = b"> " + b" ".join([b"1"] * 1000) + b"\n"
    entries = [b"0 8192", b"0 33 8200", b"0 33 8208", b"1 8216", b"1", b"1", b"2 8217", b"2", b"2"] + [b"1", b"2"] * 50
    yield run("two threads that load 1,000 times in a step", PRINTING % listed(b"load(x)", 1000), b"16 17 32",
              entries, line * 100 + RUNNING, 0, 5, 200)


def of_values():
    """Steps on wide values and wide terminators."""
    yield run("a switch of 50,000 cases", switching(50000), FIRST, [b"0"] * 5000, RUNNING, 0, 3, 200)
    yield run("an enum of 30,000 cases", choosing(30000), FIRST, [b"0 8192"] + [b"0"] * 1000, RUNNING, 0, 5, 200)
    yield run("a value of 2^20 parts without bytes", moving(b"array(1048576, unit)"), FIRST,
              [b"0 8192"] + [b"0"] * 10, RUNNING, 0, 5, 200)
    yield run("a value of 2^40 parts without bytes", moving(b"array(1048576, array(1048576, unit))"), FIRST,
              [b"0 8192", b"0", b"0"], b"", 8, 10, 512)
    yield run("2^20 bytes moved in a step", COPYING, b"16 2097152 32",
              [b"0 4194304"] + [b"0"] * 10, RUNNING, 0, 5, 400)
    yield run("prints without end", block(b"do print(%s) to b0" % listed(b"u128 " + MOST, 5000)), FIRST,
              [b"0"] * 100000, b"", 8, 10, 256)
    wide = nested(FIELDS[:-4] + b"0: ", FIELDS % listed(b"%d: u8", 60000), b" }", 20)
    yield run("the layouts of tuples around 60,000 fields", local(wide), FIRST, [b"0"], EXITED, 0, 5, 1000)


def of_memory():
    """Many allocations, many frames, and many picks."""
    begun = [b"0 4104", b"0"]
    yield run("100,000 allocations in no order", ALLOCATING, FIRST, [*begun, *scattered(100000)], RUNNING, 0, 3, 200)
    yield run("100,000 allocations, each below the last", ALLOCATING, FIRST,
              [*begun, *(b"0 %d" % ((1 << 32) - 8 * k) for k in range(100000))], RUNNING, 0, 3, 200)
    yield run("100,000 calls in one another", CALLING, b"16 17 32", [b"0 33"] * 200001, RUNNING, 0, 3, 400)
    yield run("an entry of 2^24 picks", program(), FIRST, [b"0" + b" 1" * (1 << 24)],
              b"schedule 3 62 ExtraPick\n", 5, 5, 700)


def runs():
    yield from of_threads()
    yield from of_values()
    yield from of_memory()


def measure(cases, path, word):
    """Tells what each case costs."""
    with tempfile.TemporaryDirectory() as at:
        for case in cases:
            if word in case.what:
                text, status, seconds = ran(case, path, at)
                size = max(map(len, case.files.values()), default=0)
                told = "" if is_well(case, text, status) else f" UNLIKE: {status} and {text[:80]!r}, {len(text)} bytes"
                print(f"{seconds:8.2f} s in {case.room:5} MiB, {size:8} bytes: {case.what}{told}", flush=True)


if __name__ == "__main__":
    path, word = [*sys.argv[1:], PROGRAM, ""][:2] if len(sys.argv) < 2 else [*sys.argv[1:], ""][:2]
    measure(itertools.chain(texts(word), runs()), os.path.abspath(path), word)
