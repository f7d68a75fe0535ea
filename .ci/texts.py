"""The texts of programs, as `mirace check` reads them: rows of a text, and of what is told of it; rows.py goes
through them.

- CONSTRUCTS: pieces of a text that denotes a program, by what stands around them. Whether it keeps the rules is
  another matter.
- FAULTS: texts with the line, the column and the code of their first fault. Of most codes there is a row at the
  first, a middle and the last token.
- REPEATED: what a text repeats so many times, and what is one too many.
- The canonical text of programs that are written in another way; and of many names.
"""
import os
import re

import limits

TOP = os.path.dirname(os.path.dirname(os.path.abspath(__file__)))
STORED = f"{TOP}/crates/mirace_cases/stdout"
NAMES = {1: "BadByte", 2: "BadNumber", 3: "LongText", 4: "Unexpected", 5: "UnknownName", 6: "DoubleName", 7: "TooDeep",
         8: "TooMany", 9: "Exposed"}

TYPES = (
    "u8", "u16", "u32", "u64", "u128", "i8", "i16", "i32", "i64", "i128", "bool", "raw", "fnptr", "unit", "ref 4 4",
    "ref 4 4 never", "tuple size 0 align 1 { }", "tuple size 8 align 4 { 0: u8, 4: u32 }", "array(3, u16)",
    "array(0, array(2, bool))", "union size 4 align 4 { } chunks { }",
    "union size 4 align 4 { 0: u32, 0: i16 } chunks { 0 2, 2 2 }", "enum size 0 align 1 disc i128 { } invalid",
    "enum size 2 align 1 disc u8 { 0: tuple size 2 align 1 { } tag { 0: u8 = 0 }, 1: tuple size 2 align 1 { 1: u8 "
    "} tag { 0: u8 = 1 } } branch 0 u8 { 0 => known 0, 1 => known 1, _ => invalid }",
    "enum size 2 align 1 disc i8 { -1: unit tag { } } branch 1 i16 { -5 => branch 0 u8 { _ => invalid }, _ => "
    "known -1 }",
)
VALUES = (
    "u8 7", "i32 -1", "u128 340282366920938463463374607431768211455", "true", "false", "raw 16",
    "raw 18446744073709551615", "fn f", "global g + 4", "tuple(unit)", "tuple(array(2, u8), u8 1, u8 2)",
    "union(union size 4 align 4 { 0: u32 } chunks { 0 4 }, 0, u32 1)",
    "variant(enum size 0 align 1 disc u8 { 0: unit tag { } } known 0, 0, tuple(unit))", "load(x)", "load(x.0)",
    "load(x[u64 1])", "load(x@-1.2[load(x)])", "load(deref(load(x), u32))", "disc(x)", "addrof(raw, x)",
    "addrof(ref 1 1, deref(raw 16, u8).1)", "cast(i8, u32 200)", "transmute(u32, i32 -1)", "neg(i8 1)", "not(true)",
    "not(not(true))", "load(x@1)",
)
OPERATORS = (
    "add", "sub", "mul", "div", "rem", "and", "or", "xor", "add_unchecked", "sub_unchecked", "mul_unchecked",
    "add_overflow", "sub_overflow", "mul_overflow", "shl", "shr", "shl_unchecked", "shr_unchecked", "eq", "ne", "lt",
    "le", "gt", "ge", "offset", "wrapping_offset",
)
STATEMENTS = (
    "live x", "dead x", "x = u8 1", "deref(load(x), u8).0 = load(x)", "mention x", "disc x = 1", "disc x.0 = -1",
    "deinit x", "validate x",
)
TERMINATORS = (
    "goto b", "switch load(x) { _ => b }", "switch load(x) { 0 => b, -1 => c, _ => b }", "unreachable", "return",
    "exit", "abort", "resume", "stop to b", "unwind raw 0 to c", "call fn f() -> x",
    "call fn f(load(x), u8 1) -> x to b", "call load(x)() -> x unwind c", "call fn f() -> x.0 to b unwind c",
    "do print() to b", "do atomic_load(raw 8, u8 1) -> x to b",
)
INTRINSICS = (
    "assume", "print", "allocate", "deallocate", "spawn", "join", "create_lock", "acquire", "release", "atomic_store",
    "atomic_load", "compare_exchange", "fetch_add", "fetch_sub", "fetch_and", "fetch_or", "fetch_xor", "payload",
)
ITEMS = (
    "0", "255", "0*1", "1*1048576", "?", "?*2", "&g + 0", "&f + 18446744073709551615", "1 2 ? 3", "",
)
# Whole programs: the one that the guide begins with, one whose names are words of the grammar that aren't kept for
# it, with a comment and other blanks, one whose names begin with `_`, and one of edition 2.
PROGRAMS = (
    "minirust 1\nglobal g align 8 { 0*8 &main + 4 }\nfn main() -> r {\nlet r: unit, x: u64;\nb0 regular: live x; x "
    "= load(deref(global g + 0, u64)); do print(load(x)) to b1;\nb1 regular: exit;\n}\nmain main\n",
    "minirust 1#one\r\nfn\tfn(u8,let)->let{let let:unit,u8:u8;regular regular:exit;}main fn",
    "minirust 1 fn __() -> _0 { let _0: unit; a regular: exit; } main __",
    "minirust 2 fn main() -> r { let r: unit; b0 regular: exit; } main main",
)
FRONT = "minirust 1 global g align 1 { } fn f() -> r { let r: unit, x: u8; b regular: "
BACK = "; c cleanup: resume; d catch: goto d; e terminate: abort; } main f"
# The pieces of a kind, and what stands before and behind each.
CONSTRUCTS = (
    ("a program", PROGRAMS, "", ""),
    ("a type", TYPES, FRONT.replace("u8; b regular: ", ""), "; b regular: live x; exit" + BACK),
    ("a value", VALUES, FRONT + "x = ", "; exit" + BACK),
    ("an operator", OPERATORS, FRONT + "x = ", "(u8 1, load(x)); exit" + BACK),
    ("a statement", STATEMENTS, FRONT, "; exit" + BACK),
    ("a terminator", TERMINATORS, FRONT + "live x; ", BACK),
    ("an intrinsic", INTRINSICS, FRONT + "live x; do ", "(u8 1, load(x)) -> x to b" + BACK),
    ("an item", ITEMS, FRONT.split("}")[0], "}" + FRONT.split("}")[1] + "live x; exit" + BACK),
)
# Texts, each with the line, the column and the code of its first fault.
FAULTS = (
    # A byte that begins no token.
    ("$minirust 1", 1, 1, 1),
    ("minirust 1\nfn main() -> r {\n let r%: unit;", 3, 7, 1),
    ("minirust\t1\t$", 1, 12, 1),
    # A fault of the tokens is told before one of the grammar.
    ("main main\n~", 2, 1, 1),
    # A number that is none.
    ("01", 1, 1, 2),
    ("minirust 01", 1, 10, 2),
    ("minirust 1\nglobal g align 340282366920938463463374607431768211456 { }\nmain main\n", 2, 16, 2),
    ("minirust 1 main main 00", 1, 22, 2),
    # Below 2^128, and too large where it stands.
    ("minirust 1\nglobal g align 18446744073709551616 { }\nmain main\n", 2, 16, 2),
    ("minirust 1\nglobal g align 1 { 0*18446744073709551616 }\nmain main\n", 2, 22, 2),
    ("minirust 1\nfn f() -> r {\nlet r: ref 1 18446744073709551616", 3, 14, 2),
    # A token with which nothing goes on.
    ("", 1, 1, 4),
    ("main", 1, 1, 4),
    ("minirust 3", 1, 10, 4),
    ("minirust 18446744073709551616", 1, 10, 4),
    ("minirust 1 main", 1, 16, 4),
    ("minirust 1 main\n\t", 2, 2, 4),
    ("minirust 1\nfn main( -> r", 2, 10, 4),
    ("minirust 1 main live", 1, 17, 4),
    ("minirust 1 main main main", 1, 22, 4),
    # A byte above 255, a repeat of 0, minus 0, and a negative address.
    ("minirust 1\nglobal g align 1 { 256 }\nmain main\n", 2, 20, 4),
    ("minirust 1\nglobal g align 1 { 0*0 }\nmain main\n", 2, 22, 4),
    ("minirust 1\nglobal g align 1 { ?*1048577 }\nmain main\n", 2, 22, 4),
    ("minirust 1\nfn f() -> r {\nlet r: unit;\nb regular: disc r = -0;", 4, 22, 4),
    ("minirust 1\nfn f() -> r {\nlet r: unit;\nb regular: r = raw -1;", 4, 20, 4),
    # A block without a terminator, a function without a block, and a statement behind the terminator.
    ("minirust 1\nfn f() -> r {\nlet r: unit;\nb regular: live r; }", 4, 20, 4),
    ("minirust 1\nfn f() -> r {\nlet r: unit;\n}", 4, 1, 4),
    ("minirust 1\nfn f() -> r {\nlet r: unit;\nb regular: exit; live r;", 4, 18, 4),
    # A name that stands for nothing.
    ("minirust 1 main foo", 1, 17, 5),
    ("minirust 1\nglobal g align 1 { &h + 0 }\nmain g\n", 2, 21, 5),
    ("minirust 1\nglobal g align 1 { }\nmain g\n", 3, 6, 5),
    ("minirust 1\nfn f(a) -> r {\nlet r: unit;\nb regular: exit;\n}\nmain f", 2, 6, 5),
    ("minirust 1\nfn f() -> r {\nlet r: unit;\nb regular: goto\tc;\n}\nmain f", 4, 17, 5),
    # The locals of another function are none.
    ("minirust 1\nfn f() -> r {\nlet r: unit, x: u8;\nb regular: exit;\n}\nfn g() -> r {\nlet r: unit;\nb regular: "
     "live x; exit;\n}\nmain f", 8, 17, 5),
    # The first definition says what a name is.
    ("minirust 1\nglobal f align 1 { }\nfn g() -> r {\nlet r: unit;\nb regular: r = fn f; exit;\n}\nfn f() -> r {\n"
     "let r: unit;\nb regular: exit;\n}\nmain g", 5, 19, 5),
    # A name that is defined twice.
    ("minirust 1 global g align 1 { } global g align 1 { } main g", 1, 40, 6),
    ("minirust 1\nfn f() -> r {\nlet r: unit, x: u8, r: u8;\nb regular: exit;\n}\nmain f", 3, 21, 6),
    ("minirust 1\nfn f() -> r {\nlet r: unit;\nb regular: goto b;\nb regular: exit;\n}\nmain f", 5, 1, 6),
    ("minirust 1\nglobal f align 1 { }\nfn f() -> r {\nlet r: unit;\nb regular: exit;\n}\nmain f", 3, 4, 6),
    # An intrinsic that exposes.
    ("minirust 1\nfn f() -> r {\nlet r: unit;\nb regular: r = expose_provenance(raw 0);", 4, 16, 9),
    ("minirust 1\nfn f() -> r {\nlet r: unit;\nb regular: do with_exposed_provenance", 4, 15, 9),
    ("minirust 1\nfn f() -> r {\nlet r: unit;\nb regular: do print(expose_provenance", 4, 21, 9),
    # As a name it is any other.
    ("minirust 1\nfn expose_provenance() -> r {\nlet r: unit;\nb regular: exit;\n}\nmain f", 6, 6, 5),
    # The first walk with a fault counts.
    # A name of nothing, a token that doesn't fit, and a byte of no token.
    ("minirust 1 main foo bar $", 1, 25, 1),
    ("minirust 1 main foo bar", 1, 21, 4),
    ("minirust 1 main foo", 1, 17, 5),
    # A word of the grammar that is kept for it is no name.
    ("minirust 1 fn live", 1, 15, 4),
    ("minirust 1 fn _", 1, 15, 4),
    # Lines and columns are counted in bytes, also in comments; a number ends where a letter stands.
    ("a\n  $", 2, 3, 1),
    ("= >", 1, 3, 1),
    ("x 340282366920938463463374607431768211456", 1, 3, 2),
    ("minirust 1\n\ta_1 # $ é ->\n12", 2, 2, 4),
    ("minirust 1 # é # $", 1, 20, 4),
    ("minirust 1#é\n  12ab", 2, 3, 4),
    ("minirust 1ab", 1, 11, 4),
    ("minirust 1 fn f(ab12", 1, 21, 4),
    ("minirust 1 =>", 1, 12, 4),
    ("minirust 1 fn f ( ->", 1, 19, 4),
    ("minirust 1 main - 0", 1, 17, 4),
)
# What a text repeats: what stands before, what is repeated, what closes it as often, and what stands behind; how
# often it is repeated, around what stands inside; and the line, the column and the code of the first fault, or none.
# A bracket too many is told, of any kind, also where no bracket may stand.
BLOCK = ("minirust 1\nfn f() -> r { let r: unit; b regular:\n", "live r;\n", "", "exit; }\nmain f\n")
BRACKETS = ("minirust 1\nfn f() -> r { let r: unit;\nb regular: do print(", "neg(", ")",
            ") to c;\nc regular: exit; }\nmain f\n")
POSTFIXES = ("minirust 1\nfn f() -> r { let r: unit;\nb regular: mention r\n", ".0 ", "", ";\nexit; }\nmain f\n")
REPEATED = (
    (BLOCK, 4096, "", None),
    (BLOCK, 4096, " live r;", (4099, 2, 8)),
    (BLOCK, 4096, "\tr = true;", (4099, 2, 8)),
    (BLOCK, 4096, "  deref(raw 0, u8) = true;", (4099, 3, 8)),
    (BRACKETS, 30, "i8 1", None),
    (BRACKETS, 31, "i8 1", (3, 144, 7)),
    (BRACKETS, 30, "load(r)", (3, 145, 7)),
    (BRACKETS, 29, "load(r[", (3, 143, 7)),
    (BRACKETS, 30, "{", (3, 141, 7)),
    (BRACKETS, 30, "}", (3, 141, 4)),
    (POSTFIXES, 32, "", None),
    (POSTFIXES, 32, ".0", (4, 97, 7)),
    (POSTFIXES, 32, "@1", (4, 97, 7)),
    (POSTFIXES, 32, "[u8 1]", (4, 97, 7)),
)
# The smallest programs of both editions, as they may be written.
SMALLEST = ("minirust 1 fn main()->r{let r:tuple size 0 align 1{};b0 regular:exit;}main main",
            "minirust 2\nfn main()->r{let r:unit;b0 regular:exit;}main main")
SMALLEST_LINES = "fn main ( ) -> r {\nlet r : unit ;\nb0 regular :\nexit ;\n}\nmain main\n"


def fault(line, column, code):
    return f"text {line} {column} {code} {NAMES[code]}\n"


def constructs(bench):
    """Each of the pieces makes a program: no fault of the text is told, though it may break a rule."""
    for kind, pieces, before, behind in CONSTRUCTS:
        for piece in pieces:
            wrote, status = bench.ran("check P", P=before + piece + behind)
            is_well = status in (0, 4) and not wrote.startswith(b"text")
            bench.judge(f"{kind}, {piece!r}", is_well, f"{wrote[:100]} and {status}")


def repeated(kind, count, inner):
    before, opened, closed, behind = kind
    return before + opened * count + inner + closed * count + behind


def faults(bench):
    """The first fault of each text."""
    for text, *wanted in FAULTS:
        bench.expect(f"the first fault of {text!r}", "check P", fault(*wanted), 3, P=text)
    bench.expect("blanks up to the limit", "check P", fault(1, 1048577, 4), 3, P=" " * 1048576)
    bench.expect("a blank too many", "check P", fault(1, 1, 3), 3, P=" " * 1048577)
    for kind, count, inner, wanted in REPEATED:
        what, text = f"{count} times {kind[1]!r} around {inner!r}", repeated(kind, count, inner)
        if wanted:
            bench.expect(what, "check P", fault(*wanted), 3, P=text)
        else:
            bench.judge(what, bench.ran("check P", P=text)[1] in (0, 4), "a fault of the text")


def tight(text):
    """A canonical text with blanks only where they are needed."""
    return re.sub(rb"(?<![A-Za-z0-9_])[ \n]|[ \n](?![A-Za-z0-9_])", b"", text)


def canonical(bench):
    """The canonical text of the smallest programs, of one with every construct that is written with few blanks, and
    of one with many names, each of which is used before it is defined."""
    for text in SMALLEST:
        bench.expect("the smallest program", "check P", text[:10] + "\n" + SMALLEST_LINES, 0, P=text)
    with open(STORED, "rb") as it:
        every = it.read().split(b"$ check canonical/every.mr\n")[1].split(b"= 0\n$ ")[0]
    bench.expect("every construct, with few blanks", "check P", every, 0, P=tight(every))
    blocks = b"".join(b"name%d regular: goto name%d;\n" % (k, (k + 1) % 1000) for k in range(1000))
    text = limits.program(blocks=blocks)
    bench.expect("a thousand names", "check P", limits.canonical(text), 0, P=text)


def compare(bench):
    """All of them."""
    constructs(bench)
    faults(bench)
    canonical(bench)
