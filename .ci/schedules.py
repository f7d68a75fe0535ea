"""The texts of schedules, orders and traces, as the built programs read them: rows of a text, and of what is told of
it; rows.py goes through them.

- UPGRADED: schedules, and their texts in version 2, which have all that was read: the numbers at the ends of their
  ranges, in both versions. FAULTS: texts with the line and the code of their first fault.
- NO_STARTS and NO_ENTRIES: what is no line of either version, at each line that it may stand on.
- ORDERS: orders with the turns that they have, or their first fault. TRACES: bytes that are no trace.
"""
import re

import limits

NAMES = {50: "BadHeader", 51: "BadLine", 52: "TooLong", 70: "BadMagic", 71: "BadField", 72: "Truncated", 73: "Trailing"}
MOST = 1 << 22
UPGRADED = (
    ("schedule 1\nstart 16 4096\n0\n", "schedule 2\nstart 16 4096\n0\n"),
    ("schedule 1\nstart\n4294967295 18446744073709551615 0\n",
     "schedule 2\nstart\n4294967295 18446744073709551615 0\n"),
    ("schedule 1\nstart\n", "schedule 2\nstart\n"),
    ("schedule 2\nstart 16 4096\n0*2\n", "schedule 2\nstart 16 4096\n0*2\n"),
    ("schedule 2\nstart\n4294967295\n0*3\n0 7\n0\n", "schedule 2\nstart\n4294967295\n0*3\n0 7\n0\n"),
    ("schedule 2\nstart\n0 1\n0 2\n", "schedule 2\nstart\n0 1\n0 2\n"),
    ("schedule 2\nstart\n", "schedule 2\nstart\n"),
    # One schedule in both versions.
    ("schedule 1\nstart 16 17 4096 32\n0 8192\n0 33 8208\n0 34 8216\n1\n1\n2\n2\n0\n",
     "schedule 2\nstart 16 17 4096 32\n0 8192\n0 33 8208\n0 34 8216\n1*2\n2*2\n0\n"),
    ("schedule 2\nstart 16 17 4096 32\n0 8192\n0 33 8208\n0 34 8216\n1*2\n2*2\n0\n",
     "schedule 2\nstart 16 17 4096 32\n0 8192\n0 33 8208\n0 34 8216\n1*2\n2*2\n0\n"),
)
FAULTS = (
    ("schedule 9\nstart 16 4096\n0\n", 1, 50),
    ("schedule 1", 1, 50),
    ("", 1, 50),
    ("schedule 1\r\nstart\n", 1, 50),
    ("schedule 10\nstart\n0\n", 1, 50),
    ("schedule 01\nstart\n0\n", 1, 50),
    ("\nschedule 1\nstart\n0\n", 1, 50),
    ("start\n0\n", 1, 50),
    ("schedule 1\n", 2, 51),
    ("schedule 1\nstart 016\n", 2, 51),
    ("schedule 1\nstart \n", 2, 51),
    ("schedule 1\nstart 16 4096", 2, 51),
    ("schedule 1\nstart 18446744073709551616\n", 2, 51),
    ("schedule 1\nstart 16 4096\n0  5\n", 3, 51),
    ("schedule 1\nstart 16 4096\n0 5", 3, 51),
    ("schedule 1\nstart\n0 \n", 3, 51),
    ("schedule 1\nstart\n0\r\n", 3, 51),
    ("schedule 1\nstart\n\n0\n", 3, 51),
    ("schedule 1\nstart\n4294967296\n", 3, 51),
    ("schedule 1\nstart\n0\n0 18446744073709551616\n", 4, 51),
    ("schedule 1\nstart\n0\n1 00\n", 4, 51),
    ("schedule 1\nstart\n0*2\n", 3, 51),
    ("schedule 2", 1, 50),
    ("schedule 2\r\nstart\n0\n", 1, 50),
    ("schedule 02\nstart\n0\n", 1, 50),
    ("schedule 2*1\nstart\n0\n", 1, 50),
    ("schedule 2\n", 2, 51),
    ("schedule 2\nstart*2\n", 2, 51),
    ("schedule 2\nstart\n0*1\n", 3, 51),
    ("schedule 2\nstart\n0*0\n", 3, 51),
    ("schedule 2\nstart\n0\n0\n", 4, 51),
    ("schedule 2\nstart\n0*2\n0\n", 4, 51),
    ("schedule 2\nstart\n0\n0*2\n", 4, 51),
    ("schedule 2\nstart\n0*2\n0*2\n", 4, 51),
    ("schedule 2\nstart\n0*2", 3, 51),
    ("schedule 2\nstart\n0*\n", 3, 51),
    ("schedule 2\nstart\n*2\n", 3, 51),
    ("schedule 2\nstart\n0**2\n", 3, 51),
    ("schedule 2\nstart\n0*2*2\n", 3, 51),
    ("schedule 2\nstart\n0*02\n", 3, 51),
    ("schedule 2\nstart\n0 *2\n", 3, 51),
    ("schedule 2\nstart\n0*2 5\n", 3, 51),
    ("schedule 2\nstart\n0 5*2\n", 3, 51),
    ("schedule 2\nstart\n4294967296*2\n", 3, 51),
    ("schedule 2\nstart\n0*18446744073709551616\n", 3, 51),
    ("schedule 2\nstart\n0*18446744073709551618\n", 3, 51),
    ("schedule 2\nstart\n1\n0*18446744073709551616\n", 4, 51),
    ("schedule 2\nstart\n0*18446744073709551615\n", 3, 52),
    ("schedule 2\nstart\n1\n0*18446744073709551615\n", 4, 52),
    ("schedule 2\nstart\n0*4194304\n1*18446744073709551615\n", 4, 52),
    ("schedule 2\nstart\n0*4194305\n1\n0 016\n", 3, 52),
    ("schedule 2\nstart\n0*4194305\n", 3, 52),
    ("schedule 2\nstart\n1\n0*4194304\n", 4, 52),
)
# What is no start line and no line of an entry of either version, each without its LF.
NO_STARTS = (
    "", "0", "start ", " start", "start  16", "start 16 ", "start 016", "start 18446744073709551616", "start -1",
    "start 16\r", "start 16*2", "Start 16",
)
NO_ENTRIES = (
    "", " ", "00", "01", "-1", "4294967296", "18446744073709551616", "7 ", " 7", "7  5", "7 05", "7 00",
    "7 18446744073709551616", "7 5 ", "7\t5", "7\r", "7,5", "x", "start 16", "7*1", "7*18446744073709551616", "7* 2",
)
# An order, and each of its turns, as `LINE:THREAD` and `>RECEIVER` where it names one; or its first fault.
ORDERS = (
    ("", ""),
    ("# nothing but a comment", ""),
    ("0", "1:0"),
    ("0 1", "1:0 1:1"),
    ("0\n1\n", "1:0 2:1"),
    # Line ends of Windows, tabs, and blanks at both ends.
    ("0\r\n1\r\n", "1:0 2:1"),
    ("\t0\t1  2 \n", "1:0 1:1 1:2"),
    # A comment reaches to the end of its line.
    ("0 # 1 *\n# 2\n3#4\n", "1:0 3:3"),
    ("0*3 1", "1:0 1:0 1:0 1:1"),
    ("0*1", "1:0"),
    ("2>1 1", "1:2>1 1:1"),
    ("4294967295", "1:4294967295"),
    # What is no word of an order.
    ("0*0", "line 1 code 51"),
    ("0*", "line 1 code 51"),
    ("*2", "line 1 code 51"),
    ("0*2*2", "line 1 code 51"),
    ("0>1>2", "line 1 code 51"),
    ("0>", "line 1 code 51"),
    ("0>1*2", "line 1 code 51"),
    ("0\n\n01", "line 3 code 51"),
    ("0\nx", "line 2 code 51"),
    ("4294967296", "line 1 code 51"),
    ("0*1048577", "line 1 code 51"),
    # One turn too many.
    ("0\n0*1048576", "line 2 code 52"),
)
# A main thread and two others that go round for ever, and the lines of the first three steps in the schedule that
# `fill` makes: it takes the addresses from 65,536 on, two for the functions and one for the returned local, and what
# has no size takes one too.
THREE = """minirust 1
fn w(p) -> r {
let p: raw, r: unit;
b0 regular: goto b0;
}
fn main() -> r {
let r: unit, t: u32;
b0 regular: live t; do spawn(fn w, raw 0) -> t to b1;
b1 regular: do spawn(fn w, raw 0) -> t to b2;
b2 regular: goto b2;
}
main main
"""
START, SPAWNED = b"schedule 1\nstart 65536 65537 65538\n", b"0 65540\n0 65544 65552\n0 65560 65568\n"
# The steps of a program, the entries of a schedule that has no place for its picks there or goes on behind its end,
# and the line of the entry that is told in each version.
STEPS = ("live x;", "live y;", "x = u8 1;", "x = u8 2;", "x = u8 3;", "live z;", "x = u8 4;")
ONE = "schedule 1\nstart 16 4096\n0 8192\n0 8200\n0\n0\n0\n0 8208\n0\n0\n"
TWO = "schedule 2\nstart 16 4096\n0 8192\n0 8200\n0*3\n0 8208\n0*2\n"
PLACES = ((0, 3, 3, "62 ExtraPick"), (1, 4, 4, "62 ExtraPick"), (2, 6, 5, "66 AfterStop"), (3, 7, 5, "66 AfterStop"),
          (4, 8, 6, "66 AfterStop"), (5, 8, 6, "62 ExtraPick"), (6, 10, 7, "66 AfterStop"))
# The commands that read a program and a schedule.
READING = ("run P S", "json P S", "short P S", "shuffle P S 7", "trace P S")
STEP = b"MRTR\1\1\0\0\0" + b"\0" * 46
# Bytes, and the place and the code of their first fault. The last count of accesses is believed only as they come:
# the first of them has length 0.
TRACES = (
    (b"MRTR", 0, 70),
    (b"MRTR\2\0\0\0\0", 0, 70),
    (b"MRTR\1\0\0\0", 8, 72),
    (STEP[:54], 54, 72),
    (STEP + b"\0", 55, 73),
    (STEP[:14] + b"\2" + STEP[15:], 14, 71),
    (STEP[:15] + b"\xff" * 8 + STEP[23:], 32, 71),
)


def refused(line, code):
    return f"schedule {line} {code} {NAMES[code]}\n"


def lines(bench):
    """Each line that is none, at the first line that it may stand on, with good ones and bad ones behind it, and at
    the last; and each without an LF behind it."""
    rows = [("", line, behind, 2) for line in NO_STARTS for behind in ("\n0\n1 5\n", "\n\n00\n", "\n")]
    rows += [("start 16\n", line, behind, 3) for line in NO_ENTRIES for behind in ("\n0\n1 5\n", "\n\n00\n")]
    rows += [("start 16\n0\n1 5\n2\n", line, "\n", 6) for line in NO_ENTRIES]
    rows += [("", "start 16", "", 2), ("start 16\n", "0 5", "", 3), ("start 16\n0\n1 5\n", "2", "", 5)]
    for before, line, behind, at in rows:
        for version in (1, 2):
            text = f"schedule {version}\n{before}{line}{behind}"
            what = f"no line of version {version}: {line!r} behind {before!r}"
            bench.expect(what, "upgrade S", refused(at, 51), 5, S=text)


def schedules(bench):
    """What is read of a schedule, and its first fault."""
    for text, wanted in UPGRADED:
        bench.expect(f"{text!r} in version 2", "upgrade S", wanted, 0, S=text)
    for text, line, code in FAULTS:
        bench.expect(f"the first fault of {text!r}", "upgrade S", refused(line, code), 5, S=text)
    lines(bench)
    most = "schedule 2\nstart\n" + "0\n1\n" * (MOST // 2)
    bench.expect("2^22 entries on as many lines of version 2", "upgrade S", most, 0, S=most)
    bench.expect("one more", "upgrade S", refused(MOST + 3, 52), 5, S=most + "0\n")
    for behind, code in (("1\n", 52), ("0\n", 51), ("1", 51)):
        text = f"schedule 2\nstart\n0*{MOST}\n{behind}"
        bench.expect(f"{behind!r} behind 2^22 entries on a line", "upgrade S", refused(4, code), 5, S=text)


def places(bench):
    """The line of an entry in both versions, where the program exits behind so many steps."""
    for count, *lines, wanted in PLACES:
        blocks = f"b0 regular: {' '.join(STEPS[:count])} exit;"
        text = limits.program(local_types=b", x: u8, y: u8, z: u8", blocks=blocks.encode())
        for schedule, line in zip((ONE, TWO), lines):
            what = f"an entry behind {count} steps, in {schedule[:10]}"
            bench.expect(what, "run P S", f"schedule {line} {wanted}\n", 5, P=text, S=schedule)


def filled(turns, threads):
    """The lines of the schedule that these turns become, where so many threads go round for ever; and the line of the
    first turn that can't go on: of a thread that isn't there, or with a receiver where none is asked for."""
    lines = b""
    for turn in turns.split():
        line, thread, receiver = re.fullmatch("([0-9]+):([0-9]+)>?([0-9]*)", turn).groups()
        if int(thread) >= threads or receiver:
            why = "60 NotEnabled" if int(thread) >= threads else "62 ExtraPick"
            return lines, f"# line {line} can't go on: {why}\n".encode()
        lines += b"%s\n" % thread.encode()
    return lines, b""


def orders(bench):
    """The turns of each order for one thread, and behind those that make three of them; and its first fault."""
    for text, wanted in ORDERS:
        if wanted.startswith("line"):
            line, code = map(int, re.findall("[0-9]+", wanted))
            what = f"the first fault of the order {text!r}"
            bench.expect(what, "mirace_show fill P O", refused(line, code), 5, P=THREE, O=text)
            continue
        alone = limits.program(blocks=b"b0 regular: goto b0;")
        for kind, program, front, order, threads in (("one thread", alone, b"schedule 1\nstart 65536 65537\n", text, 1),
                                                     ("three threads", THREE, START + SPAWNED, "0*3 " + text, 3)):
            lines, halt = filled(wanted, threads)
            what, files, status = f"the order {text!r} of {kind}", {"P": program, "O": order}, int(halt != b"")
            bench.expect(what, "mirace_show fill P O", front + lines, status, **files)
            bench.expect(f"{what}: where it ends", "mirace_show halt P O", halt, status, **files)


def lengths(bench):
    """A program and a schedule that are a byte too long, by each command that reads one."""
    text, order = " " * (limits.TEXT + 1), "0" * (limits.SCHEDULE + 1)
    for line in ("check P", *READING, "auto P 7 1"):
        bench.expect(f"a program that is too long, by {line}", line, "text 1 1 3 LongText\n", 3, P=text, S=ONE)
    for line in (*READING, "upgrade S"):
        bench.expect(f"a schedule that is too long, by {line}", line, refused(1, 52), 5, P=limits.program(), S=order)


def traces(bench):
    """The first fault of bytes that are no trace; and a run of two stores."""
    for text, place, code in TRACES:
        bench.expect(f"no trace: {text!r}", "offline T", f"trace {place} {code} {NAMES[code]}\n", 9, T=text)
    store = b"\0\0\0\0\0\1" + b"\0" * 7 + b"\1\x10" + b"\0" * 7 + b"\4" + b"\0" * 7 + b"\0" * 32
    bench.expect("two stores", "offline T", "races 1\nrace 1 2\n", 1, T=b"MRTR\1\2\0\0\0\1" + store + b"\2" + store)


def compare(bench):
    """All of them."""
    schedules(bench)
    places(bench)
    orders(bench)
    lengths(bench)
    traces(bench)
