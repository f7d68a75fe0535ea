"""Memory, as runs of built programs show it; rows.py goes through the rows.

- STORED: what is done to a block of four bytes, one after another, and its bytes behind that. RANGES: what lies in
  it, and what doesn't.
- PICKED: addresses that are picked for a block beside it; ROWS: many allocations in no order, each pick against a
  walk over all of them.
- Changes that are drawn, against a plain list of bytes with their provenances; and a block of 2^40 bytes.
"""
import random
import re

import limits
from values import report, told

UNINITIALISED = "--"
# A pair of bytes, and so many of a kind.
PAIR = "array(2, u8)"
STORED = (
    ("", "-- -- -- --"),
    (f"deref(%1, {PAIR}) = tuple({PAIR}, u8 7, u8 8);", "-- 07 08 --"),
    ("deinit deref(%2, u16);", "-- 07 -- --"),
    ("deref(%0, array(3, u8)) = tuple(array(3, u8), u8 9, u8 9, u8 9);", "09 09 09 --"),
    (f"deref(%1, {PAIR}) = tuple({PAIR}, u8 5, u8 6);", "09 05 06 --"),
    ("deref(%2, u16) = u16 1027;", "09 05 03 04"),
    ("deinit deref(%0, u32);", "-- -- -- --"),
)
# A statement on the block, and the reason against it, or none. No bytes lie everywhere.
RANGES = (
    ("deinit deref(%0, u32);", None),
    ("deinit deref(%4, unit);", None),
    ("deinit deref(raw 16, unit);", None),
    ("deinit deref(raw 400, unit);", None),
    ("deinit deref(%2, unit);", None),
    ("deinit deref(raw 16, u8);", "NoProvenance"),
    (f"deinit deref(%-1, {PAIR});", "OutOfBounds"),
    ("deinit deref(%1, array(4, u8));", "OutOfBounds"),
    (f"deref(%3, {PAIR}) = tuple({PAIR}, u8 7, u8 7);", "OutOfBounds"),
    ("deref(%4, u8) = u8 7;", "OutOfBounds"),
    ("deref(%1, u16) = u16 7;", "Misaligned"),
    ("deinit deref(%1, u16);", "Misaligned"),
    ("deref(%4, u16) = u16 7;", "OutOfBounds"),
    ("deref(%-2, u32) = u32 7;", "Misaligned"),
)
# The address, the size and the alignment of a block beside one of four bytes at 16, and the code of the rule that the
# pick breaks.
PICKED = (
    (0, 4, 4, "63 BadAddress"), (22, 4, 4, "63 BadAddress"), ((1 << 64) - 4, 5, 4, "63 BadAddress"),
    ((1 << 64) - 4, 4, 4, ""), (16, 4, 4, "64 Reused 0 4"), (8, 9, 8, "64 Reused 0 4"), (8, 8, 8, ""), (20, 4, 4, ""),
    (18, 0, 1, ""), (19, 1, 1, "64 Reused 0 4"),
)
# The addresses and sizes of allocations. Some overlap earlier ones, and some are empty.
ROWS = (
    (40, 8), (16, 8), (44, 2), (48, 16), (24, 0), (100, 1), (90, 10), (89, 1), (101, 9), (30, 10), (24, 6), (64, 25),
    (63, 1), (110, 30), (8, 8), (2, 6), (44, 0), (20, 90), (140, 7), (139, 2), (150, 50), (147, 3), (300, 4), (201, 1),
)
# The addresses of the function, of its returned local and of two others, behind which a block is the allocation 0 4.
START, LOCALS = "schedule 1\nstart 1048576 1048577\n", "0 1048584\n0 1048592\n"
BLOCK = "b0 regular: live p; live q; do allocate(u64 4, u64 4) -> p to b1;\n"
RUNNING = "verdict running\nraces 0\n"
# Writes a byte at each of 1,000 places that are 2^30 bytes apart, and looks at each of them, and at the bytes beside.
LARGE = """b0 regular: live p; live i; i = i64 0; do allocate(u64 1099511627776, u64 1) -> p to b1;
b1 regular: deref(%s, u8) = cast(u8, load(i)); i = add(load(i), i64 1);
switch lt(load(i), i64 1000) { 1 => b1, _ => b2 };
b2 regular: i = i64 0; goto b3;
b3 regular: do assume(eq(load(deref(%s, u8)), cast(u8, load(i)))) to b4;
b4 regular: i = add(load(i), i64 1); switch lt(load(i), i64 1000) { 1 => b3, _ => b5 };
b5 regular: do print(load(i)) to b6;
b6 regular: do print(load(deref(offset(load(p), i64 1), u8))) to b6;"""
PLACE = "offset(load(p), mul(load(i), i64 1073741824))"


def placed(text):
    """A statement or a value, where `%N` is the pointer to a place of the block."""
    return re.sub("%(-?[0-9]+)", r"wrapping_offset(load(p), i64 \1)", text)


def block_of(statements, values):
    """A program that prints values behind some statements on a block of the heap, which it frees at last."""
    parts = [f"do print({it}) to c{k + 1};" for k, it in enumerate(values)]
    parts.append(f"do deallocate(load(p), u64 4, u64 4) to c{len(parts) + 1};")
    parts[0] = statements + parts[0]
    named = "".join(f"c{k} regular: {it}\n" for k, it in enumerate((*parts, "exit;")))
    return limits.program(local_types=b", p: raw, q: raw", blocks=(BLOCK.replace("b1", "c0") + named).encode())


def reported(bench, what, program, wanted):
    """What a run comes to whose addresses are drawn: these texts, of which the last may be a reason."""
    wrote, ended = bench.ran("auto P 7 10000", P=program)
    begins = min(it for it in (wrote.find(b">"), wrote.find(b"verdict"), len(wrote)) if it >= 0)
    text, status = report(wanted)
    bench.judge(what, (wrote[begins:], ended) == (text.encode(), status), f"{text!r} is wanted, not {wrote[begins:]!r}")


def blocks(bench):
    """What is stored in a block is there, and what is out of it isn't."""
    done = ""
    for text, wanted in STORED:
        done += placed(text)
        for at, word in enumerate(wanted.split()):
            result = "InvalidValue" if word == UNINITIALISED else str(int(word, 16))
            program = block_of(done, [placed(f"load(deref(%{at}, u8))")])
            reported(bench, f"the byte at {at} behind {text or 'nothing'}", program, [result])
    for text, reason in RANGES:
        reported(bench, text, block_of(placed(text), []), [reason] if reason else [])
    program = limits.program(local_types=b", p: raw, i: i64", blocks=LARGE.replace("%s", PLACE).encode())
    reported(bench, "1,000 places of 2^40 bytes", program, ["1000", "InvalidValue"])


def picks(bench):
    """Each pick beside a block, also where this is freed; and many picks, each against a walk over all that there
    are: the first of those that it meets is told."""
    for address, size, align, wanted in PICKED:
        for freed in ("", "b1 regular: do deallocate(load(p), u64 4, u64 4) to b2;\n"):
            last = f"b{2 if freed else 1} regular: do allocate(u64 {size}, u64 {align}) -> q to b3;\nb3 regular: exit;"
            program = limits.program(local_types=b", p: raw, q: raw", blocks=(BLOCK + freed + last).encode())
            entries = LOCALS + "0 16\n" + ("0\n" if freed else "") + f"0 {address}\n"
            text = f"schedule {7 if freed else 6} {wanted}\n" if wanted else RUNNING
            what = f"{size} bytes at {address} beside a block{' that is freed' if freed else ''}"
            bench.expect(what, "run P S", text, 5 if wanted else 0, P=program, S=START + entries)
    made = []
    for row in ROWS:
        if picked(bench, made, row):
            made.append(row)
    bench.judge("how many picks are lawful", len(made) == 20, f"{len(made)}, {made}")
    for address, size in ROWS:
        for row in ((address, size + 1), (address + size, 1), (address + size // 2, 0), (address, 64)):
            picked(bench, made, row)


def picked(bench, made, row):
    """Whether a pick is lawful behind those that are made: the run tells it."""
    met = [n for n, it in enumerate(made) if set(range(it[0], sum(it))) & set(range(row[0], sum(row)))]
    blocks = [f"do allocate(u64 {it[1]}, u64 1) -> p to b{n + 1};" for n, it in enumerate((*made, row))]
    named = "\n".join(f"b{n} regular: {it}" for n, it in enumerate(("live p; " + blocks[0], *blocks[1:], "exit;")))
    program = limits.program(local_types=b", p: raw", blocks=named.encode())
    schedule = START + "0 1048584\n" + "".join(f"0 {it[0]}\n" for it in (*made, row))
    text = f"schedule {4 + len(made)} 64 Reused 0 {3 + met[0]}\n" if met else RUNNING
    bench.expect(f"{row} picked behind {made}", "run P S", text, 5 if met else 0, P=program, S=schedule)
    return not met


class Plain:
    """Bytes one by one, each a number with its provenance, or none; and the statements that make them, in a global of
    64 bytes that has no provenance of its own."""

    def __init__(self, chance):
        self.chance, self.bytes, self.statements = chance, [None] * 64, []

    def change(self):
        """One change: numbers are stored, bytes are copied as they are, or made uninitialised, or a pointer is
        stored."""
        at = self.chance.randrange(64)
        count = self.chance.randrange(1, 65 - at)
        kind = self.chance.randrange(4)
        if kind == 0:
            numbers = [self.chance.randrange(256) for _ in range(count)]
            self.bytes[at:at + count] = [(it, None) for it in numbers]
            value = f"tuple(array({count}, u8), {', '.join(f'u8 {it}' for it in numbers)})"
            self.statements.append(f"deref(global t + {at}, array({count}, u8)) = {value};")
        elif kind == 1:
            self.bytes[at:at + count] = [None] * count
            self.statements.append(f"deinit deref(global t + {at}, array({count}, u8));")
        elif kind == 2:
            source = self.chance.randrange(65 - count)
            self.bytes[at:at + count] = self.bytes[source:source + count]
            whole = f"union size {count} align 1 {{ }} chunks {{ 0 {count} }}"
            self.statements.append(f"deref(global t + {at}, {whole}) = load(deref(global t + {source}, {whole}));")
        else:
            at, moved = at // 8 * 8, self.chance.randrange(1 << 20)
            self.bytes[at:at + 8] = [(it, "a") for it in (65544 + moved).to_bytes(8, "little")]
            self.statements.append(f"deref(global t + {at}, raw) = wrapping_offset(global a + 0, i64 {moved});")

    def looks(self):
        """Values, each with what is wanted of it: all bytes that there are, the numbers of a pointer, and at last one
        thing that has a reason against it: a byte that isn't there, or what a pointer leads to."""
        for at, byte in enumerate(self.bytes):
            if byte:
                yield f"load(deref(global t + {at}, u8))", str(byte[0])
        pointers = [at for at in range(0, 64, 8) if all(self.bytes[at:at + 8])]
        for at in pointers:
            number = int.from_bytes(bytes(it[0] for it in self.bytes[at:at + 8]), "little")
            yield f"transmute(u64, load(deref(global t + {at}, raw)))", str(number)
        at = self.chance.choice(pointers or [0])
        if pointers:
            owners = {it[1] for it in self.bytes[at:at + 8]}
            far = f"wrapping_offset(load(deref(global t + {at}, raw)), i64 -1000000000)"
            yield f"load(deref({far}, u8))", "OutOfBounds" if owners == {"a"} else "NoProvenance"
        elif None in self.bytes:
            yield f"load(deref(global t + {self.bytes.index(None)}, u8))", "InvalidValue"


def drawn(bench):
    """Changes that are drawn from numbers make the bytes that a plain list has."""
    front = "global a align 8 { 0*8 }\nglobal t align 16 { ?*64 }\n"
    for number in range(150):
        plain = Plain(random.Random(number))
        for _ in range(1 + number % 40):
            plain.change()
        values, wanted = zip(*plain.looks())
        program = told(values, front, "", " ".join(plain.statements) + " ")
        reported(bench, f"bytes of the number {number}", program, list(wanted))


def compare(bench):
    """All of them."""
    blocks(bench)
    picks(bench)
    drawn(bench)
