"""Numbers, types and bytes, as runs of built programs show them: rows of a table of operators or of types; rows.py
goes through them.

- WRAPPING, DIVISIONS, BITS, SHIFTS, ORDERS, CASTS and SIGNS: operators at the edges of the types.
- TYPES, BROKEN and CHUNKED: sizes, alignments, used bytes and broken rules of types.
- MEANT and LOADED: what bytes mean, and which bytes are written of that.
"""
import limits

# A type without a value.
NEVER = "enum size 0 align 1 disc u8 { } invalid"
# The greatest numbers of the types.
U64, I64, U128, I128 = (1 << 64) - 1, (1 << 63) - 1, (1 << 128) - 1, (1 << 127) - 1
# An operator, the type and the operands, and the wrapped result and whether it overflowed.
WRAPPING = (
    ("add", "u8", 254, 1, 255, False), ("add", "u8", 255, 1, 0, True), ("sub", "u8", 1, 1, 0, False),
    ("sub", "u8", 0, 1, 255, True), ("mul", "u8", 127, 2, 254, False), ("mul", "u8", 128, 2, 0, True),
    ("add", "i8", 126, 1, 127, False), ("add", "i8", 127, 1, -128, True), ("add", "i8", -128, -1, 127, True),
    ("sub", "i8", -127, 1, -128, False), ("sub", "i8", -128, 1, 127, True), ("sub", "i8", 127, -1, -128, True),
    ("mul", "i8", 63, 2, 126, False), ("mul", "i8", 64, 2, -128, True), ("mul", "i8", -128, -1, -128, True),
    ("mul", "i8", -64, 2, -128, False), ("add", "u64", U64 - 1, 1, U64, False), ("add", "u64", U64, 1, 0, True),
    ("sub", "u64", 1, 1, 0, False), ("sub", "u64", 0, 1, U64, True), ("mul", "u64", I64, 2, U64 - 1, False),
    ("mul", "u64", I64 + 1, 2, 0, True), ("add", "i64", I64 - 1, 1, I64, False), ("add", "i64", I64, 1, -I64 - 1, True),
    ("add", "i64", -I64 - 1, -1, I64, True), ("sub", "i64", -I64, 1, -I64 - 1, False),
    ("sub", "i64", -I64 - 1, 1, I64, True), ("sub", "i64", I64, -1, -I64 - 1, True),
    ("mul", "i64", 0x3fffffffffffffff, 2, I64 - 1, False), ("mul", "i64", 0x4000000000000000, 2, -I64 - 1, True),
    ("mul", "i64", -I64 - 1, -1, -I64 - 1, True), ("mul", "i64", -0x4000000000000000, 2, -I64 - 1, False),
    ("add", "u128", U128 - 1, 1, U128, False), ("add", "u128", U128, 1, 0, True), ("sub", "u128", 1, 1, 0, False),
    ("sub", "u128", 0, 1, U128, True), ("mul", "u128", I128, 2, U128 - 1, False), ("mul", "u128", I128 + 1, 2, 0, True),
    ("add", "i128", I128 - 1, 1, I128, False), ("add", "i128", I128, 1, -I128 - 1, True),
    ("add", "i128", -I128 - 1, -1, I128, True), ("sub", "i128", -I128, 1, -I128 - 1, False),
    ("sub", "i128", -I128 - 1, 1, I128, True), ("sub", "i128", I128, -1, -I128 - 1, True),
    ("mul", "i128", 0x3fffffffffffffffffffffffffffffff, 2, I128 - 1, False),
    ("mul", "i128", 0x40000000000000000000000000000000, 2, -I128 - 1, True),
    ("mul", "i128", -I128 - 1, -1, -I128 - 1, True),
    ("mul", "i128", -0x40000000000000000000000000000000, 2, -I128 - 1, False),
)
# The type and the operands, the quotient and the remainder, or the reason against them.
DIVISIONS = (
    ("u8", 255, 2, 127, 1), ("u8", 255, 0, "ZeroDivisor", "ZeroDivisor"), ("u8", 0, 255, 0, 0), ("i8", 127, 2, 63, 1),
    ("i8", 127, 0, "ZeroDivisor", "ZeroDivisor"), ("i8", -128, 127, -1, -1),
    ("i8", -128, -1, "DivOverflow", "DivOverflow"), ("i8", -128, 2, -64, 0), ("i8", -7, 2, -3, -1),
    ("i8", 7, -2, -3, 1), ("u64", U64, 2, I64, 1), ("u64", U64, 0, "ZeroDivisor", "ZeroDivisor"), ("u64", 0, U64, 0, 0),
    ("i64", I64, 2, 0x3fffffffffffffff, 1), ("i64", I64, 0, "ZeroDivisor", "ZeroDivisor"),
    ("i64", -I64 - 1, I64, -1, -1), ("i64", -I64 - 1, -1, "DivOverflow", "DivOverflow"),
    ("i64", -I64 - 1, 2, -0x4000000000000000, 0), ("i64", -7, 2, -3, -1), ("i64", 7, -2, -3, 1),
    ("u128", U128, 2, I128, 1), ("u128", U128, 0, "ZeroDivisor", "ZeroDivisor"), ("u128", 0, U128, 0, 0),
    ("i128", I128, 2, 0x3fffffffffffffffffffffffffffffff, 1), ("i128", I128, 0, "ZeroDivisor", "ZeroDivisor"),
    ("i128", -I128 - 1, I128, -1, -1), ("i128", -I128 - 1, -1, "DivOverflow", "DivOverflow"),
    ("i128", -I128 - 1, 2, -0x40000000000000000000000000000000, 0), ("i128", -7, 2, -3, -1), ("i128", 7, -2, -3, 1),
    ("i32", 7, 0, "ZeroDivisor", "ZeroDivisor"),
)
# The type and the operands, and the results of `and`, `or` and `xor`.
BITS = (
    ("u8", 12, 10, 8, 14, 6), ("i8", -1, -128, -128, -1, 127),
    ("u64", 0xffff0000ffff0000, 0xff00ff00ff00ff00, 0xff000000ff000000, 0xffffff00ffffff00, 0xffff0000ffff00),
    ("i128", -I128 - 1, I128, 0, -1, -1), ("u128", U128, 1, 1, U128, U128 - 1),
    ("i64", -1, -I64 - 1, -I64 - 1, -1, I64),
)
# The type and the number to be shifted, the amount's type and number, the results to the left and to the right, and
# whether the unchecked shifts are defined.
SHIFTS = (
    ("u8", 1, "u8", 9, 2, 0, False), ("u8", 1, "u8", 8, 1, 1, False), ("i8", -128, "u8", 8, -128, -128, False),
    ("i8", -128, "u8", 7, 0, -1, True), ("u8", 200, "i8", -1, 0, 1, False), ("u64", U64, "u8", 63, I64 + 1, 1, True),
    ("u64", U64, "i64", -1, I64 + 1, 1, False), ("u64", 1, "u128", I128 + 1, 1, 1, False),
    ("i64", I64, "u8", 63, -I64 - 1, 0, True), ("i64", -I64 - 1, "i64", -1, 0, -1, False),
    ("i64", -I64, "u128", I128 + 1, -I64, -I64, False), ("u128", U128, "u8", 127, I128 + 1, 1, True),
    ("u128", U128, "i64", -1, I128 + 1, 1, False), ("u128", 1, "u128", I128 + 1, 1, 1, False),
    ("i128", I128, "u8", 127, -I128 - 1, 0, True), ("i128", -I128 - 1, "i64", -1, 0, -1, False),
    ("i128", -I128, "u128", I128 + 1, -I128, -I128, False), ("i128", -2, "i8", -128, -2, -2, False),
    ("i64", -9, "i8", 1, -18, -5, True), ("u8", 255, "u8", 0, 255, 255, True),
)
# The type and the operands, and which of `lt`, `eq` and `gt` is true of them.
ORDERS = (
    ("i8", -1, 0, "lt"), ("u8", 255, 0, "gt"), ("u8", 0, 255, "lt"), ("u8", 255, 255, "eq"), ("i8", -128, 127, "lt"),
    ("i8", 127, -128, "gt"), ("i8", 127, 127, "eq"), ("i8", -1, -2, "gt"), ("u64", 0, U64, "lt"), ("u64", U64, 0, "gt"),
    ("u64", U64, U64, "eq"), ("i64", -I64 - 1, I64, "lt"), ("i64", I64, -I64 - 1, "gt"), ("i64", I64, I64, "eq"),
    ("i64", -1, -2, "gt"), ("u128", 0, U128, "lt"), ("u128", U128, 0, "gt"), ("u128", U128, U128, "eq"),
    ("i128", -I128 - 1, I128, "lt"), ("i128", I128, -I128 - 1, "gt"), ("i128", I128, I128, "eq"),
    ("i128", -1, -2, "gt"),
)
# The types from which and to which a number is cast, and the number in both.
CASTS = (
    ("u32", "i8", 200, -56), ("i8", "u128", -1, U128), ("i8", "i16", -1, -1), ("i128", "u64", -I128 - 1, 0),
    ("i128", "i8", -129, 127), ("u128", "i128", U128, -1), ("i64", "i128", -I64 - 1, -I64 - 1),
    ("u64", "i128", U64, U64), ("i64", "u8", I64, 255),
)
# The type and a number, the number with the other sign, and the flipped one.
SIGNS = (
    ("i8", -128, -128, 127), ("u8", 0, 0, 255), ("u8", 1, 255, 254), ("u8", 255, 1, 0), ("i8", 0, 0, -1),
    ("i8", 1, -1, -2), ("i8", 127, -127, -128), ("u64", 0, 0, U64), ("u64", 1, U64, U64 - 1), ("u64", U64, 1, 0),
    ("i64", 0, 0, -1), ("i64", 1, -1, -2), ("i64", I64, -I64, -I64 - 1), ("u128", 0, 0, U128),
    ("u128", 1, U128, U128 - 1), ("u128", U128, 1, 0), ("i128", 0, 0, -1), ("i128", 1, -1, -2),
    ("i128", I128, -I128, -I128 - 1), ("i64", -I64 - 1, -I64 - 1, I64), ("i128", -I128 - 1, -I128 - 1, I128),
)
# A type that keeps the rules, its size, its alignment, and which of its first seven bytes carry a part of a value.
TYPES = (
    ("u8", 1, 1, "#......"),
    ("u16", 2, 2, "##....."),
    ("u32", 4, 4, "####..."),
    ("u64", 8, 8, "#######"),
    ("u128", 16, 16, "#######"),
    ("i8", 1, 1, "#......"),
    ("i16", 2, 2, "##....."),
    ("i32", 4, 4, "####..."),
    ("i64", 8, 8, "#######"),
    ("i128", 16, 16, "#######"),
    ("bool", 1, 1, "#......"),
    ("raw", 8, 8, "#######"),
    ("fnptr", 8, 8, "#######"),
    ("unit", 0, 1, "......."),
    # References, whose size and alignment are those of what they refer to.
    ("ref 9223372036854775807 4096", 8, 8, "#######"),
    ("ref 3 2", 8, 8, "#######"),
    # Arrays, at the ends of their counts.
    ("array(3, u16)", 6, 2, "######."),
    ("array(1048576, bool)", 1048576, 1, "#######"),
    # The enum without variants.
    ("enum size 0 align 1 disc u8 { } invalid", 0, 1, "......."),
    ("array(0, enum size 0 align 1 disc u8 { } invalid)", 0, 1, "......."),
    ("array(1, enum size 0 align 1 disc u8 { } invalid)", 0, 1, "......."),
    # Two numbers, in both orders.
    ("tuple size 6 align 2 { 0: u16, 4: u16 }", 6, 2, "##..##."),
    ("tuple size 4 align 2 { 0: u16, 2: u16 }", 4, 2, "####..."),
    ("tuple size 4 align 2 { 2: u16, 0: u16 }", 4, 2, "####..."),
    # A byte behind the offset of the tag.
    ("enum size 2 align 1 disc u8 { 0: tuple size 2 align 1 { 1: bool } tag { 0: u8 = 7 } } branch 0 u8 { 7 => "
     "known 0, _ => invalid }", 2, 1, "##....."),
    # Two numbers that stand in some chunks.
    ("union size 4 align 2 { 0: u16, 2: u16 } chunks { 0 2, 2 2 }", 4, 2, "####..."),
    ("union size 4 align 2 { 0: u16, 2: u16 } chunks { 0 4, 1 0 }", 4, 2, "####..."),
    # Padding in each element of an array, which chunks leave out or tags take.
    ("union size 6 align 1 { 0: array(3, tuple size 2 align 1 { 0: u8 }) } chunks { 0 1, 2 1, 4 1 }", 6, 1, "#.#.#.."),
    ("union size 8 align 1 { 1: array(2, tuple size 3 align 1 { 1: u8 }) } chunks { 2 1, 5 1 }", 8, 1, "..#..#."),
    ("union size 8 align 1 { 4: array(2, array(2, tuple size 1 align 1 { })) } chunks { }", 8, 1, "......."),
    ("enum size 4 align 1 disc u8 { 0: array(2, tuple size 2 align 1 { 1: u8 }) tag { 2: u8 = 1, 0: u8 = 2 } } "
     "known 0", 4, 1, "####..."),
)
# A type that breaks a rule, and the number of this.
BROKEN = (
    ("ref 9223372036854775808 1", 20),
    ("ref 8 0", 21),
    ("ref 8 3", 21),
    ("ref 8 8192", 21),
    ("array(1048577, bool)", 20),
    ("array(1048577, ref 8 3)", 21),
    ("array(9223372036854775807, bool)", 20),
    ("array(9223372036854775808, bool)", 20),
    ("tuple size 4 align 2 { 0: u16, 3: u16 }", 22),
    ("tuple size 4 align 2 { 3: u16, 0: u16 }", 22),
    ("tuple size 4 align 2 { 0: u16, 1: u16 }", 23),
    ("tuple size 4 align 2 { 1: u16, 0: u16 }", 23),
    ("tuple size 5 align 2 { 0: u16, 2: u16 }", 24),
    ("tuple size 5 align 2 { 2: u16, 0: u16 }", 24),
    ("enum size 2 align 1 disc u8 { 0: tuple size 3 align 1 { 1: bool } tag { 0: u8 = 7 } } branch 0 u8 { 7 => "
     "known 0, _ => invalid }", 25),
    ("enum size 2 align 1 disc u8 { 0: tuple size 2 align 1 { 1: bool } tag { 1: u8 = 7 } } branch 0 u8 { 7 => "
     "known 0, _ => invalid }", 26),
    ("enum size 2 align 1 disc u8 { 0: tuple size 2 align 1 { 1: bool } tag { 0: u8 = 7 } } branch 0 u8 { 7 => "
     "known 1, _ => invalid }", 27),
    ("union size 4 align 2 { 0: u16, 2: u16 } chunks { 0 5 }", 22),
    ("union size 4 align 2 { 0: u16, 2: u16 } chunks { 0 3, 1 0, 2 2 }", 28),
    ("union size 4 align 2 { 0: u16, 2: u16 } chunks { 2 2, 0 2 }", 28),
    ("union size 4 align 2 { 0: u16, 2: u16 } chunks { 0 3 }", 28),
    ("union size 6 align 1 { 0: array(3, tuple size 2 align 1 { 0: u8 }) } chunks { 0 1, 2 2 }", 28),
    ("union size 8 align 1 { 1: array(2, tuple size 3 align 1 { 1: u8 }) } chunks { 2 2 }", 28),
    ("enum size 4 align 1 disc u8 { 0: array(2, tuple size 2 align 1 { 1: u8 }) tag { 3: u8 = 1, 0: u8 = 2 } } "
     "known 0", 26),
    ("enum size 4 align 1 disc u8 { 0: array(2, tuple size 2 align 1 { 1: u8 }) tag { 1: u16 = 1 } } known 0", 26),
)
# The fields and the chunks of a union of 2,048 bytes, behind which many chunks without a byte stand, and whether a
# used byte lies in no chunk.
CHUNKED = (
    # A used byte of the first, a middle and the last element in no chunk; the padding may be.
    ("0: array(4, tuple size 3 align 1 { 1: u8 })", "1 1, 4 1, 7 1, 10 1", False),
    ("0: array(4, tuple size 3 align 1 { 1: u8 })", "0 1, 2 1, 4 1, 7 1, 10 1", True),
    ("0: array(4, tuple size 3 align 1 { 1: u8 })", "1 1, 4 1, 6 1, 8 1, 10 1", True),
    ("0: array(4, tuple size 3 align 1 { 1: u8 })", "1 1, 4 1, 7 1, 9 1, 11 1", True),
    ("5: array(4, tuple size 3 align 1 { 1: u8 })", "6 1, 9 1, 12 1, 15 1", False),
    ("5: array(4, tuple size 3 align 1 { 1: u8 })", "5 1, 9 1, 12 1, 15 1", True),
    # The byte behind a row.
    ("0: array(3, tuple size 3 align 1 { 1: u8 })", "1 1, 4 1, 7 1", False),
    ("0: array(4, tuple size 3 align 1 { 1: u8 })", "1 1, 4 1, 7 1", True),
    # Rows in rows.
    ("0: array(2, tuple size 8 align 1 { 0: array(2, tuple size 3 align 1 { 0: u8 }), 7: bool })",
     "0 1, 3 1, 7 2, 11 1, 15 1", False),
    ("0: array(2, tuple size 8 align 1 { 0: array(2, tuple size 3 align 1 { 0: u8 }), 7: bool })",
     "0 1, 3 1, 7 2, 15 1", True),
    ("0: array(2, tuple size 8 align 1 { 0: array(2, tuple size 3 align 1 { 0: u8 }), 7: bool })",
     "0 1, 3 1, 8 1, 11 1, 15 1", True),
    ("2: array(2, array(3, tuple size 2 align 1 { 1: u8 }))", "3 1, 5 1, 7 1, 9 1, 11 1, 13 1", False),
    ("2: array(2, array(3, tuple size 2 align 1 { 1: u8 }))", "3 1, 5 1, 7 1, 9 1, 11 1", True),
    # A union's used bytes are its chunks, alone and in a row.
    ("4: union size 6 align 1 { 0: u8 } chunks { 0 2, 5 1 }", "4 2, 9 1", False),
    ("4: union size 6 align 1 { 0: u8 } chunks { 0 2, 5 1 }", "4 1, 9 1", True),
    ("0: array(3, union size 4 align 1 { } chunks { 1 1, 3 1 })", "1 1, 3 1, 5 1, 7 1, 9 1, 11 1", False),
    ("0: array(3, union size 4 align 1 { } chunks { 1 1, 3 1 })", "1 1, 3 1, 5 1, 7 1, 11 1", True),
    # An enum's used bytes, and its tags.
    ("0: array(2, enum size 4 align 1 disc u8 { 0: tuple size 4 align 1 { 0: u8 } tag { 2: u8 = 1 } } known 0)",
     "0 1, 2 1, 4 1, 6 1", False),
    ("0: array(2, enum size 4 align 1 disc u8 { 0: tuple size 4 align 1 { 0: u8 } tag { 2: u8 = 1 } } known 0)",
     "0 1, 2 1, 4 1", True),
    ("0: array(2, enum size 4 align 1 disc u8 { 0: tuple size 4 align 1 { 0: u8 } tag { 2: u8 = 1 } } known 0)",
     "0 1, 2 1, 6 1", True),
    # One element, none, and elements without a byte.
    ("0: array(1, tuple size 3 align 1 { 1: u8 })", "1 1", False),
    ("0: array(1, tuple size 3 align 1 { 1: u8 })", "0 1, 2 1", True),
    ("0: array(0, u64), 3: array(9, unit)", "0 0", False),
    # A field that meets no gap, beside one that does.
    ("0: array(4, tuple size 3 align 1 { 1: u8 }), 20: u16", "0 12, 20 2", False),
    ("0: array(4, tuple size 3 align 1 { 1: u8 }), 20: u16", "0 12, 20 1", True),
    ("20: u16, 0: array(4, tuple size 3 align 1 { 1: u8 })", "0 10, 11 1, 20 2", True),
    # A row of long elements.
    ("0: array(3, tuple size 300 align 1 { 299: u8 })", "299 1, 599 1, 899 1", False),
    ("0: array(3, tuple size 300 align 1 { 299: u8 })", "0 599, 600 300", True),
    ("0: array(3, tuple size 300 align 1 { 299: u8 })", "0 899", True),
    # A long row of short elements.
    ("0: array(600, tuple size 2 align 1 { 0: u8 })", "0 601, 602 597", False),
    ("0: array(600, tuple size 2 align 1 { 0: u8 })", "0 600, 601 598", True),
    ("0: array(600, tuple size 2 align 1 { 0: u8 })", "0 1198", True),
    ("0: array(600, tuple size 2 align 1 { 0: u8 }), 8: array(600, tuple size 2 align 1 { 0: u8 })", "0 1207", False),
    ("0: array(600, tuple size 2 align 1 { 0: u8 }), 8: array(600, tuple size 2 align 1 { 0: u8 })", "0 1206", True),
)
PAIR = "tuple size 8 align 4 { 0: u8, 4: u32 }"
PAIRS = "array(2, tuple size 4 align 2 { 0: u8, 2: u16 })"
# Nothing or a byte, told apart by the first byte.
MAYBE = (
    "enum size 2 align 1 disc u8 { 0: tuple size 2 align 1 { } tag { 0: u8 = 0 }, 1: tuple size 2 align 1 { 1: u8 "
    "} tag { 0: u8 = 1 } } branch 0 u8 { 0 => known 0, 1 => known 1, _ => invalid }")
# A byte and, behind one of padding, two more.
BYTE_OR_TWO = "union size 4 align 2 { 0: u8, 2: u16 } chunks { 0 1, 2 2 }"
# A type and bytes, a word a byte: two digits, and behind `@` the allocation of its provenance, where it has one; what
# they mean; and the bytes that this is written as.
MEANT = (
    (PAIR, "01 07 -- 07 02 00 00 00", "tuple of 2", "01 -- -- -- 02 00 00 00"),
    (PAIRS, "01 02 03 04 05 06 07 08", "tuple of 2",
     "01 -- 03 04 05 -- 07 08"),
    (MAYBE, "00 09", "variant 0", "00 --"),
    (MAYBE, "01 09", "variant 1", "01 09"),
    (MAYBE, "02 09", "none", ""),
    (MAYBE, "-- 09", "none", ""),
    (BYTE_OR_TWO, "-- 01 02 03", "union -- 02 03", "-- -- 02 03"),
    ("bool", "01", "true", "01"),
    ("bool", "02", "none", ""),
    ("fnptr", "00 00 00 00 00 00 00 00", "none", ""),
    ("ref 4 4", "02 02 02 02 02 02 02 02", "none", ""),
    ("ref 0 1 never", "02 02 02 02 02 02 02 02", "none", ""),
    # The lowest byte comes first.
    ("u8", "fe", "254", "fe"),
    ("i8", "fe", "-2", "fe"),
    # Bytes of several provenances.
    ("u32", "01@1.7 02@1.7 03 04@1.7", "67305985", "01 02 03 04"),
    ("u64", "01 02 03 04 05 06 07 88", "9801809732607083009", "01 02 03 04 05 06 07 88"),
    ("i64", "01 02 03 04 05 06 07 88", "-8644934341102468607", "01 02 03 04 05 06 07 88"),
    ("u128", "ff ff ff ff ff ff ff ff ff ff ff ff ff ff ff ff", "340282366920938463463374607431768211455",
     "ff ff ff ff ff ff ff ff ff ff ff ff ff ff ff ff"),
    ("i128", "ff ff ff ff ff ff ff ff ff ff ff ff ff ff ff ff", "-1",
     "ff ff ff ff ff ff ff ff ff ff ff ff ff ff ff ff"),
    # An integer has no provenance, and a pointer has that of all its bytes.
    ("u32", "01@0.0 02 00@0.0 00", "513", "01 02 00 00"),
    ("raw", "10@0.0 10@0.0 10@0.0 10@0.0 10@0.0 10@0.0 10@0.0 10@0.0", "1157442765409226768@0.0",
     "10@0.0 10@0.0 10@0.0 10@0.0 10@0.0 10@0.0 10@0.0 10@0.0"),
    ("raw", "00@0.0 00@0.0 00@0.0 00@0.0 00@0.0 00@0.0 00@0.0 00@1.7", "0", "00 00 00 00 00 00 00 00"),
)
# A type, the bytes of an allocation, or a pointer to its own first one; the offset of a load; and what is loaded, or
# the reason against it.
LOADED = (
    # Bytes of several provenances, in three runs.
    ("u32", "01@1.7 02@1.7 03 04@1.7", 0, "67305985"),
    ("u32", "01 02 -- 04", 0, "InvalidValue"),
    ("u16", "01 02 03 04", 2, "1027"),
    ("u32", "01 02 03 04", 2, "Misaligned"),
    ("u32", "01 02 03 04", 4, "OutOfBounds"),
    ("u16", "01 02 03 04", 3, "Misaligned"),
    ("bool", "01", 0, "true"),
    ("bool", "02", 0, "InvalidValue"),
    ("raw", "itself", 0, "itself"),
    ("ref 8 8", "itself", 0, "itself"),
    ("ref 0 16", "itself", 0, "itself"),
    # What it points to doesn't lie in one allocation.
    ("ref 9 8", "itself", 0, "DanglingReference"),
    ("ref 8 32", "itself", 0, "InvalidValue"),
)
RULES = {20: "TypeSize", 21: "TypeAlign", 22: "FieldOutside", 23: "FieldOverlap", 24: "SizeMultiple", 25: "EnumVariant",
         26: "EnumTag", 27: "EnumTree", 28: "UnionChunk"}
REASONS = {"Misaligned": 103, "NoProvenance": 104, "OutOfBounds": 106, "InvalidValue": 107, "DanglingReference": 108,
           "Overflow": 109, "ZeroDivisor": 110, "DivOverflow": 111, "ShiftAmount": 112}
# Globals, with the addresses that `auto` draws for them, the first ones behind that of the only function: two whose
# provenance some bytes have, one that takes room, and the one whose bytes are looked at. Its address is a multiple of
# 16, and of no more.
GLOBALS = """global a align 8 {{ 0*8 }}
global b align 8 {{ 0*8 }}
global c align 16 {{ 0*16 }}
global t align 16 {{ ?*{} }}
"""
OWNERS = {"0.0": ("a", 65544), "1.7": ("b", 65552)}
LOWEST_BYTE = 65584 % 256
# A type of one byte that keeps it as it is.
ONE = "union size 1 align 1 { 0: u8 } chunks { 0 1 }"
UNINITIALISED = "InvalidValue"
# A schedule without an entry, and what is told then of a program whose first statement is `live x`.
NO_ENTRY = "schedule 1\nstart 16 4096\n"
ASKED = """thread 0 can go on; its next step is 4:13  main b0  live x
        asks for address, size %d, align %d, for local x
"""


def told(values, front="", local_types="", before=""):
    """A program that prints values, each on a line, behind some statements."""
    blocks = [f"do print({it}) to c{k + 1};" for k, it in enumerate(values)] + ["exit;"]
    blocks[0] = before + blocks[0]
    named = "\n".join(f"c{k} regular: {it}" for k, it in enumerate(blocks))
    return limits.program(front.encode(), local_types.encode(), named.encode())


def report(wanted):
    """What is written where these texts are printed, of which the last may be the reason against its value; and the
    status."""
    if wanted and wanted[-1] in REASONS:
        *lines, reason = wanted
        verdict, status = f"undefined {REASONS[reason]} {reason}", 1
    else:
        lines, verdict, status = wanted, "exit", 0
    return "".join(f"> {it}\n" for it in lines) + f"verdict {verdict}\nraces 0\n", status


def shown(value):
    """A number, a truth or a reason as a text."""
    return str(value).lower() if isinstance(value, bool) else str(value)


def operated(bench, what, values, wanted, local_types="", before="", front=""):
    """Values are printed behind some statements, up to the first that has a reason against it; addresses are drawn."""
    wanted = list(map(shown, wanted))
    text, status = report(wanted)
    wrote, ended = bench.ran("auto P 7 1000", P=told(values, front, local_types, before))
    begins = min(it for it in (wrote.find(b">"), wrote.find(b"verdict"), len(wrote)) if it >= 0)
    bench.judge(what, (wrote[begins:], ended) == (text.encode(), status), f"{text!r} is wanted, not {wrote[begins:]!r}")


def arithmetic(bench):
    """The operators on two numbers, those that wrap, overflow and are unchecked, and the quotients and remainders."""
    for operator, kind, one, other, wanted, is_over in WRAPPING:
        numbers, size = f"{kind} {one}, {kind} {other}", int(kind[1:]) // 8
        pair = f", o: tuple size {2 * size} align {size} {{ 0: {kind}, {size}: bool }}"
        values = [f"{operator}({numbers})", "load(o.0)", "load(o.1)", f"{operator}_unchecked({numbers})"]
        results = [wanted, wanted, is_over, "Overflow" if is_over else wanted]
        before = f"live o; o = {operator}_overflow({numbers}); "
        operated(bench, f"{operator} of {numbers}", values, results, pair, before)
    for kind, one, other, *wanted in DIVISIONS:
        for operator, result in zip(("div", "rem"), wanted):
            value = f"{operator}({kind} {one}, {kind} {other})"
            operated(bench, value, [value], [result])
    for kind, one, other, *wanted in BITS:
        values = [f"{it}({kind} {one}, {kind} {other})" for it in ("and", "or", "xor")]
        operated(bench, f"bits of {kind} {one} and {other}", values, wanted)


def others(bench):
    """Shifts, comparisons, casts, and the operators on one number."""
    for kind, one, amount, other, left, right, is_defined in SHIFTS:
        for operator, result in (("shl", left), ("shr", right)):
            numbers = f"({kind} {one}, {amount} {other})"
            wanted = [result, result if is_defined else "ShiftAmount"]
            operated(bench, f"{operator}{numbers}", [operator + numbers, f"{operator}_unchecked{numbers}"], wanted)
    for kind, one, other, order in ORDERS:
        values = [f"{it}({kind} {one}, {kind} {other})" for it in ("lt", "le", "eq", "ne", "ge", "gt")]
        wanted = [order == "lt", order != "gt", order == "eq", order != "eq", order != "lt", order == "gt"]
        operated(bench, f"{kind} {one} compared with {other}", values, wanted)
    for source, target, number, wanted in CASTS:
        value = f"cast({target}, {source} {number})"
        operated(bench, value, [value], [wanted])
    for kind, number, negated, flipped in SIGNS:
        values = [f"neg({kind} {number})", f"not({kind} {number})"]
        operated(bench, f"signs of {kind} {number}", values, [negated, flipped])


def ruled(bench, what, text, rule):
    """A type breaks a rule, or none."""
    program = limits.program(local_types=b", x: " + text.encode())
    wrote, status = bench.ran("check P", P=program)
    wanted = f"form main - 1 {rule} {RULES[rule]}\n".encode() if rule else limits.canonical(program)
    bench.judge(what, (wrote, status) == (wanted, 4 if rule else 0), f"{wrote[-200:]} and {status}")


def types(bench):
    """The size and the alignment of a type by the address that its local asks for. A byte carries a part of a value
    where a union of all other bytes leaves out one that is needed."""
    for text, size, align, used in TYPES:
        program = limits.program(local_types=b", x: " + text.encode(), blocks=b"b0 regular: live x; exit;")
        asked, what = ASKED % (size, align), f"{text}: size and alignment"
        bench.expect(what, "mirace_show next P S", asked, 0, P=program, S=NO_ENTRY)
        for at, mark in enumerate(used[:size]):
            chunks = f"0 {at}, {at + 1} {size - at - 1}"
            around = f"union size {size} align {align} {{ 0: {text} }} chunks {{ {chunks} }}"
            ruled(bench, f"{text}: the byte at {at}", around, 28 if mark == "#" else 0)
    for text, rule in BROKEN:
        ruled(bench, f"{text}: its rule", text, rule)
    empty = ", ".join(f"{at} 0" for at in range(1984, 2048))
    for fields, chunks, is_left_out in CHUNKED:
        text = f"union size 2048 align 1 {{ {fields} }} chunks {{ {chunks}, {empty} }}"
        ruled(bench, f"{fields} in the chunks {chunks}", text, 28 if is_left_out else 0)
    whether = (("unit", True), (NEVER, False), (f"array(0, {NEVER})", True), (f"array(1, {NEVER})", False))
    for text, has_value in whether:
        wanted = [] if has_value else ["InvalidValue"]
        operated(bench, f"whether {text} has a value", [], wanted, f", x: {text}", "live x; validate x; ")


def stores(words):
    """Statements that write bytes, a word a byte."""
    for at, word in enumerate(words.split()):
        number, _, owner = word.partition("@")
        if owner:
            name, address = OWNERS[owner]
            yield f"p = wrapping_offset(global {name} + 0, i64 {int(number, 16) - address});"
            yield f"deref(global t + {at}, {ONE}) = load(deref(addrof(raw, p), {ONE}));"
        elif number != "--":
            yield f"deref(global t + {at}, u8) = u8 {int(number, 16)};"


def looked_at(bench, what, kind, words, values, wanted, before=""):
    """Values are printed where the bytes of a global are written, and a local has a type."""
    front = GLOBALS.format(8 if words == "itself" else len(words.split()))
    written = "deref(global t + 0, raw) = global t + 0;" if words == "itself" else " ".join(stores(words))
    operated(bench, what, values, wanted, f", p: raw, x: {kind}", f"live p; live x; {written} {before}", front)


def meant(bench, kind, words, value, written):
    """What bytes mean at a type, and each byte of what is written of that."""
    what, load = f"{words} as {kind}", f"load(deref(global t + 0, {kind}))"
    if value == "none":
        looked_at(bench, what, kind, words, [], [UNINITIALISED], f"x = {load}; ")
    elif kind == "raw":
        number, _, owner = value.partition("@")
        reason = "OutOfBounds" if owner else "NoProvenance"
        looked_at(bench, what, kind, words, [f"transmute(u64, {load})", f"load(deref({load}, u8))"], [number, reason])
        looked_at(bench, f"{what}, copied", kind, words, ["load(deref(load(x), u8))"], [reason], f"x = {load}; ")
    elif value.startswith("variant"):
        looked_at(bench, what, kind, words, ["disc(x)"], [value.split()[1]], f"x = {load}; ")
    elif not value.startswith(("tuple", "union")):
        looked_at(bench, what, kind, words, [load], [value])
    for at, word in enumerate(written.split()):
        byte = f"load(deref(wrapping_offset(addrof(raw, x), i64 {at}), u8))"
        number = UNINITIALISED if word == "--" else int(word.partition("@")[0], 16)
        looked_at(bench, f"{what}: the byte at {at} of the copy", kind, words, [byte], [number], f"x = {load}; ")


def loaded(bench, kind, words, offset, wanted):
    """A load from an offset of an allocation: a number, a truth, a pointer that leads to the first byte, or the
    reason against it."""
    what, load = f"{kind} from {offset} of {words}", f"load(deref(global t + {offset}, {kind}))"
    if wanted in REASONS:
        looked_at(bench, what, kind, words, [], [wanted], f"x = {load}; ")
    elif wanted == "itself":
        looked_at(bench, what, kind, words, ["load(deref(load(x), u8))"], [LOWEST_BYTE], f"x = {load}; ")
    else:
        looked_at(bench, what, kind, words, [load], [wanted])


def compare(bench):
    """All of them."""
    arithmetic(bench)
    others(bench)
    types(bench)
    for row in MEANT:
        meant(bench, *row)
    for row in LOADED:
        loaded(bench, *row)
