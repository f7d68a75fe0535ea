"""The forms of the companion, as the built `mirace_show` answers them: rows of a program, a schedule or an order, the
words of a form, and what is written; rows.py goes through them.

- ANSWERED, REFUSED, TRACED, PROSPECTS, ORDERS, FORMLESS and CODES: words, and what refuses a form.
- LAID: programs whose texts are laid out in other ways, and races at more than two places.
- NEXTS and FILLED: how a run can go on, and which schedule an order becomes.
"""
EXIT = """minirust 1
fn main() -> r {
let r: unit;
b0 regular: exit;
}
main main
"""
# A block of another kind is jumped to.
ILL_FORMED = """minirust 1
fn main() -> r {
let r: unit;
b0 regular: goto b1;
b1 cleanup: exit;
}
main main
"""
SCHEDULE = """schedule 1
start 16 4096
0
"""
NO_ENTRY = "schedule 1\nstart 16 4096\n"
# The machine has stopped before the second entry.
TOO_FAR = """schedule 1
start 16 4096
0
0
"""
USAGE = ("usage: steps P S [FIRST LAST] | json P S | races P S | rust P S | picture P S [FIRST LAST] | "
         "order P S FIRST LAST | witness P S J [short] | races T PLACES | rust T [PLACES] | "
         "steps T PLACES [FIRST LAST] | "
         "steps T FIRST LAST | picture T PLACES [FIRST LAST] | "
         "next P S | check P [S] | fill P O | halt P O | hunt P FROM TO M [AIM] | draw P N M | why CODE | --help\n")
EXITS = """1  thread 0  4:13  main b0  exit
step 1 ended the run
verdict exit
races 0
"""
EXITS_JSON = (
    '{"code":null,"output":[],"races":[],"steps":[{"did":null,"number":1,"place":{"block":"b0","column":13,'
    '"function":"main","line":4,"statement":1},"prints":[],"thread":0}],"verdict":"exit","version":1}\n')
NO_STEP = """step 1 ended the run
verdict exit
races 0
"""
ENTERED = "thread 0 can go on; its next step is 4:13  main b0  exit\n"
ONE_TOO_MANY = """entry 2 of thread 0 breaks 66 AfterStop: The machine had stopped before this entry.
        no pick
the run has ended
"""
NO_RUST = "Rust's order: 0 races at 0 pairs of places; the machine's: 0 races at 0 pairs of places\n"
BARE_RUST = "Rust's order: 0 races; the machine's: 0 races\n"
CODE_2 = (
    "2 BadNumber\n"
    "A number is written in a way that numbers aren't.\n"
    "usual cause: A zero in front of other digits, as in `07`; a number of 2^128 or more; one of 2^64 or more "
    "where a size, an offset or an address stands.\n"
    "what to do: Leave the zeros out. Sizes, offsets and addresses are below 2^64.\n"
    "example: do print(u8 042) to b1;\n")
# What `check` tells of a byte, of an empty text, of a block of another kind, of a program in place of a schedule, and of
# an entry and an address that lack.
BAD_BYTE = """P:1:10: 1 BadByte: The text has a byte that begins no token.
    minirust !
             ^
the byte is 33
"""
EMPTY = """P:1:1: 4 Unexpected: Here stands a token with which no program can go on.
    
    ^
the text ends here
here may stand: minirust
"""
BLOCK_KIND = """P:4:13: 32 BlockKind: A block ends in a way that its kind doesn't have, or leads to a block of the wrong kind.
    b0 regular: goto b1;
                ^
in function main, block b0
"""
BAD_HEADER = """S:1:1: 50 BadHeader: The first line is no header of a schedule.
    minirust 1
    ^
"""
AFTER_STOP = """S:4:1
    0
    ^
entry 2 of thread 0 breaks 66 AfterStop: The machine had stopped before this entry.
        no pick
"""
MISSING_PICK = """S:2:1: 61 MissingPick: The step asks for more picks than the entry has.
    start 16
    ^
"""
# Words, and what is written of them, with the status, where the program exits at once.
ANSWERED = (
    ("steps P S", EXITS, 0),
    ("steps P S 1 1", EXITS, 0),
    ("steps P S 0 1", EXITS, 0),
    ("steps P S 2 9", NO_STEP, 0),
    ("steps P S 1 0", NO_STEP, 0),
    ("steps P S 4294967295 4294967295", NO_STEP, 0),
    ("json P S", EXITS_JSON, 0),
    ("json Q S", "read program\n", 6),
    ("json P Q", "read schedule\n", 6),
    ("races P S", "races 0\n", 0),
    ("rust P S", NO_RUST, 0),
    ("rust Q S", "read program\n", 6),
    ("rust P Q", "read schedule\n", 6),
    ("steps Q S", "read program\n", 6),
    ("steps P Q", "read schedule\n", 6),
    ("order P S 1 2", "step 1 and step 2: the first must be earlier, and 0 steps were completed\n", 0),
    ("order P S 2 1", "step 2 and step 1: the first must be earlier, and 0 steps were completed\n", 0),
    ("order P S 0 0", "step 1 and step 1: the first must be earlier, and 0 steps were completed\n", 0),
    ("order P S 4294967295 1", "step 4294967295 and step 1: the first must be earlier, and 0 steps were completed\n", 0),
    ("witness P S 1", "step 1 races with no earlier step\n", 0),
    ("witness P S 4294967295 short", "step 4294967295 races with no earlier step\n", 0),
    ("witness Q S 1", "read program\n", 6),
    ("witness P Q 1 short", "read schedule\n", 6),
    ("hunt P 0 3 1", "4 times, first 0: verdict exit\nnumbers 4\n", 0),
    ("hunt P 7 8 0", "2 times, first 7: verdict running\nnumbers 2\n", 0),
    ("hunt P 5 5 1048576", "once, first 5: verdict exit\nnumbers 1\n", 0),
    (f"hunt P {2 ** 64 - 2} {2 ** 64 - 1} 1", f"2 times, first {2 ** 64 - 2}: verdict exit\nnumbers 2\n", 0),
    ("hunt P 3 9 1 exit", "number 3\nverdict exit\nraces 0\nshown by: mirace auto P 3 1\n", 1),
    ("hunt P 3 9 0 any", "number 3\nverdict running\nraces 0\nshown by: mirace auto P 3 0\n", 1),
    ("hunt P 0 3 1 any", "numbers 0 to 3: no run has it\n", 0),
    ("hunt P 0 3 1 race", "numbers 0 to 3: no run has it\n", 0),
    ("hunt P 0 3 1 rust", "numbers 0 to 3: no run has it\n", 0),
    ("hunt P 0 3 1 NotHolder", "numbers 0 to 3: no run has it\n", 0),
    ("hunt P 0 3 1 4 4294967295", "numbers 0 to 3: no run has it\n", 0),
    ("hunt P 0 3 1 prints 1", "numbers 0 to 3: no run has it\n", 0),
    ("draw P 3 1", "schedule 1\nstart 65536 65537\n0\n", 0),
    ("draw P 3 0", "schedule 1\nstart 65536 65537\n", 0),
    (f"draw P {2 ** 64 - 1} 1048576", "schedule 1\nstart 65536 65537\n0\n", 0),
    ("draw Q 3 1", "read program\n", 6),
    ("hunt Q 0 3 1", "read program\n", 6),
    ("hunt Q 0 3 1 race", "read program\n", 6),
    ("check P", "P: well-formed\n", 0),
    ("check P S", "S: legal, 1 entries\n", 0),
    ("check Q", "read program\n", 6),
    ("check Q Q", "read program\n", 6),
    ("check P Q", "read schedule\n", 6),
)
# A trace without steps.
NO_TRACED = "MRTR\1\0\0\0\0"
ONE_ADDRESS = "schedule 1\nstart 16\n0\n"
# A program, a schedule, words, and what refuses them, with the status.
REFUSED = (
    ("minirust !\n", SCHEDULE, "races P S", "text 1 10 1 BadByte\n", 3),
    (ILL_FORMED, SCHEDULE, "races P S", "form main b0 0 32 BlockKind\n", 4),
    (ILL_FORMED, SCHEDULE, "races P Q", "form main b0 0 32 BlockKind\n", 4),
    (ILL_FORMED, SCHEDULE, "draw P 0 1", "form main b0 0 32 BlockKind\n", 4),
    (ILL_FORMED, SCHEDULE, "rust P Q", "form main b0 0 32 BlockKind\n", 4),
    (EXIT, TOO_FAR, "races P S", "schedule 4 66 AfterStop\n", 5),
    (EXIT, TOO_FAR, "rust P S", "schedule 4 66 AfterStop\n", 5),
    (EXIT, TOO_FAR, "json P S", "schedule 4 66 AfterStop\n", 5),
    (EXIT, TOO_FAR, "witness P S 1", "schedule 4 66 AfterStop\n", 5),
    (ILL_FORMED, SCHEDULE, "witness P Q 1 short", "form main b0 0 32 BlockKind\n", 4),
    (NO_TRACED, SCHEDULE, "json P S", "text 1 5 1 BadByte\n", 3),
    (NO_TRACED, SCHEDULE, "witness P S 1", "text 1 5 1 BadByte\n", 3),
    (EXIT, EXIT, "steps P S", "schedule 1 50 BadHeader\n", 5),
    ("minirust !\n", SCHEDULE, "check P", BAD_BYTE, 3),
    ("minirust !\n", SCHEDULE, "check P S", BAD_BYTE, 3),
    ("minirust !\n", SCHEDULE, "check P Q", "read schedule\n", 6),
    ("", SCHEDULE, "check P", EMPTY, 3),
    (ILL_FORMED, SCHEDULE, "check P", BLOCK_KIND, 4),
    (ILL_FORMED, EXIT, "check P S", BLOCK_KIND, 4),
    (EXIT, EXIT, "check P S", BAD_HEADER, 5),
    (EXIT, TOO_FAR, "check P S", AFTER_STOP, 5),
    (EXIT, ONE_ADDRESS, "check P S", MISSING_PICK, 5),
)
# A trace, places, words of forms over them, and what is written, with the status.
TRACED = (
    (NO_TRACED, "places 2\n", "races P S", "races 0\n", 0),
    (NO_TRACED, "places 2\nname a\n\n", "steps P S", "races 0\n", 0),
    (NO_TRACED, "places 2\n", "steps P S 1 4294967295", "races 0\n", 0),
    (NO_TRACED, "", "steps P 0 4294967295", "races 0\n", 0),
    (NO_TRACED, "places 2\n0\n", "steps P S", "places 1 steps, and the trace has 0\n", 9),
    (NO_TRACED, "places 1\n", "races P S", "places 1 it isn't `places 2`\n", 9),
    (NO_TRACED, "places 2\n-\n", "races P S", "places 2 neither a name nor a step\n", 9),
    (NO_TRACED[:-1], "places 1\n", "races P S", "trace 8 72 Truncated\n", 9),
    ("MRTR", "", "steps P S", "trace 0 70 BadMagic\n", 9),
    ("MRTR", "", "races P Q", "read schedule\n", 6),
    ("MRTR", "", "picture P Q", "read schedule\n", 6),
    (NO_TRACED[:-1], "places 2\n", "picture P S 1 2", "trace 8 72 Truncated\n", 9),
    (NO_TRACED, "places 2\n0\n", "picture P S", "places 1 steps, and the trace has 0\n", 9),
    (NO_TRACED, "places 2\n", "rust P S", BARE_RUST, 0),
    (NO_TRACED, "places 2\n0\n", "rust P S", "places 1 steps, and the trace has 0\n", 9),
    ("MRTR", "", "rust P Q", "read schedule\n", 6),
    (NO_TRACED, "", "rust P", BARE_RUST, 0),
    (NO_TRACED[:-1], "", "rust P", "trace 8 72 Truncated\n", 9),
    (EXIT, "", "rust P", "trace 0 70 BadMagic\n", 9),
    (EXIT, "", "rust Q", "read trace\n", 6),
    ("MRT", "", "races P Q", "text 1 1 4 Unexpected\n", 3),
    (EXIT, "", "steps P 1 2", "trace 0 70 BadMagic\n", 9),
    (EXIT, "", "steps Q 1 2", "read trace\n", 6),
)
# A program, a schedule, words of `next`, and what is written of them, with the status.
PROSPECTS = (
    (EXIT, SCHEDULE, "next P S", "the run has ended\n", 0),
    (EXIT, NO_ENTRY, "next P S", ENTERED, 0),
    (EXIT, TOO_FAR, "next P S", ONE_TOO_MANY, 1),
    (EXIT, SCHEDULE, "next P Q", "read schedule\n", 6),
)
# A program, an order, words of `fill` and `halt`, and what is written of them, with the status.
ORDERS = (
    (EXIT, "0 0\n", "halt P S", "# line 1 can't go on: 66 AfterStop\n", 1),
    (EXIT, "\t0 # once\r\n", "halt P S", "", 0),
    (EXIT, "0\n0*x\n", "fill P S", "schedule 2 51 BadLine\n", 5),
    (EXIT, "", "fill P Q", "read schedule\n", 6),
    (ILL_FORMED, "", "halt P S", "form main b0 0 32 BlockKind\n", 4),
)
# Words of no form.
FORMLESS = (
    "", "steps", "steps P", "steps P S 1", "steps P S 1 x", "steps P S 1 4294967296", "steps P S 01 2", "races P S 1 2",
    "json", "json P", "json P S 1", "json P S 1 2", "jsons P S",
    "races P 1 2", "steps P 1 4294967296",
    "rust", "rust P S 1", "rust P S 1 2", "rusts P S", "hunt P 0 3 1 rusty", "hunt P 0 3 1 rust 1",
    "picture P S 1", "run P S", "--helps", "next P", "fill P", "why", "why 65536", "why Nothing", "why badnumber", "whys 66",
    "check", "check P S 1", "check P S 1 2", "checks P", "checks P S", "Check P",
    "order P S", "order P S 1", "order P S 1 4294967296", "order P S 01 2", "order P S 1 2 3", "orders P S 1 2",
    "witness P", "witness P S", "witness P S 0", "witness P S 01", "witness P S x", "witness P S 4294967296",
    "witness P S 1 long", "witness P S 0 short", "witness P S 1 short 2", "witnes P S 1",
    "hunt P", "hunt P 0 3", "hunt P 3 2 1", "hunt P 0 3 1048577", "hunt P 0 18446744073709551616 1", "hunt P 00 3 1",
    "hunt P 0 3 1 Nothing", "hunt P 0 3 1 prints", "hunt P 0 3 1 4", "hunt P 0 3 1 4 4294967296",
    "draw P", "draw P 1", "draw P 1 1048577", "draw P 18446744073709551616 1", "draw P 1 2 3", "draws P 1 2",
    "hunt P 0 3 1 4 4 4", "hunt P 0 3 1 print 1", "hunts P 0 3 1 race", "hunts P 0 3 1",
)
# Codes, and what is said of them.
CODES = (
    ("why 65535", "no rule, no fault and no reason has the number 65535\n", 1),
    ("why 2", CODE_2, 0),
    ("why BadNumber", CODE_2, 0),
)
# Tabs, comments, several statements on a line, lines that end with a carriage return, and a long statement.
LAID = """minirust 1
fn main() -> r { # the only function
\tlet r: unit, x: u8;
\tstart regular: # a comment; it is no end
\t\tlive x; x = u8 1; # behind two statements
\t\tx = # seven
 u8 7;\tx =\r
\t u8 8;
   x = add(u8 1, add(u8 2, add(u8 3, add(u8 4, add(u8 5, add(u8 6, u8 7)))))); exit
;
}
main main
"""
ONE_THREAD = """schedule 1
start 16 4096
0 8192
0
0
0
0
0
"""
LAID_STEPS = """1  thread 0  5:3  main start  live x
2  thread 0  5:11  main start  x = u8 1
        store x = 1, 1 byte
3  thread 0  6:3  main start  x =  ..
        store x = 7, 1 byte
4  thread 0  7:8  main start  x = ..
        store x = 8, 1 byte
5  thread 0  9:4  main start  x = add(u8 1, add(u8 2, add(u8 3, add(u8 4, add(u8 5, add(u8 ..
        store x = 28, 1 byte
6  thread 0  9:80  main start  exit ..
step 6 ended the run
verdict exit
races 0
"""
ADDRESS_0 = """schedule 1
start 16 4096
0 0
"""
ASKS = """thread 0 can go on; its next step is 5:3  main start  live x
        asks for address, size 1, align 1, for local x
"""
NO_ADDRESS = """entry 1 of thread 0 breaks 63 BadAddress: An address may not be picked.
        picks 0
        by the pick 0
thread 0 can go on; its next step is 5:3  main start  live x
        asks for address, size 1, align 1, for local x
"""
# Most of a program on one line, a block's head on three, and a statement of 60 bytes and one of 61.
ON_A_LINE = """minirust 1 fn main() -> r { let r: unit, x: u8; start
regular
:
live x; x = u8 1; goto last; last regular: x = add(u8 1,add(u8 2,add(u8 3, add(u8 4, add(u8 5,u8 6)))));
x = add(u8 1, add(u8 2,add(u8 3, add(u8 4, add(u8 5,u8 6))))); exit; } main main"""
SIX_STEPS = """1  thread 0  4:1  main start  live x
2  thread 0  4:9  main start  x = u8 1
        store x = 1, 1 byte
3  thread 0  4:19  main start  goto last
4  thread 0  4:44  main last  x = add(u8 1,add(u8 2,add(u8 3, add(u8 4, add(u8 5,u8 6)))))
        store x = 21, 1 byte
5  thread 0  5:1  main last  x = add(u8 1, add(u8 2,add(u8 3, add(u8 4, add(u8 5,u8 6)))) ..
        store x = 21, 1 byte
6  thread 0  5:64  main last  exit
step 6 ended the run
verdict exit
races 0
"""
# Two threads store again and again, and then main does, where nothing orders them.
STORES = """minirust 1
global number align 1 { 0 }
fn worker(p) -> r {
let p: raw, r: unit;
again regular: deref(load(p), u8) = u8 1; goto again;
}
fn main() -> r {
let r: unit, t: u32;
start regular: live t; do spawn(fn worker, global number + 0) -> t to second;
second regular: do spawn(fn worker, global number + 0) -> t to last;
last regular: deref(global number + 0, u8) = u8 9; exit;
}
main main
"""
# They take turns, and each jumps back behind its store, so that no two stores stand side by side.
IN_TURN = """schedule 1
start 16 17 32 33
0 64
0 72 80
0 88 96
1
1
2
2
1
1
2
2
0
0
"""
STORES_RACES = """\
5:16  worker again  deref(load(p), u8) = u8 1  /  5:16  worker again  deref(load(p), u8) = u8 1: 3 times, first 4 6
5:16  worker again  deref(load(p), u8) = u8 1  /  11:15  main last  deref(global number + 0, u8) = u8 9: once, 10 12
races 4
"""
STORES_STEPS = """10  thread 2  5:16  worker again  deref(load(p), u8) = u8 1
        load p = number, 8 bytes
        store number = 1, 1 byte
        races with step 8
        races with step 12
11  thread 2  5:43  worker again  goto again
12  thread 0  11:15  main last  deref(global number + 0, u8) = u8 9
        store number = 9, 1 byte
        races with step 10
step 13 ended the run
verdict exit
races 4
"""
# A program, a schedule, words, and what is written of them, with the status.
LAID_OUT = (
    (LAID, ONE_THREAD, "steps P S", LAID_STEPS, 0),
    (LAID, NO_ENTRY, "next P S", ASKS, 0),
    (LAID, ADDRESS_0, "next P S", NO_ADDRESS, 1),
    (ON_A_LINE, ONE_THREAD, "steps P S", SIX_STEPS, 0),
    (STORES, IN_TURN, "races P S", STORES_RACES, 1),
    (STORES, IN_TURN, "steps P S 10 12", STORES_STEPS, 1),
)
# One thread with a global, a local, and a block of the heap.
ALONE = """minirust 1
global g align 8 { &g + 8 0*4 }
fn main() -> r {
  let r: unit, x: u32, p: raw;
  b0 regular: live x; x = u32 7; live p; do allocate(u64 16, u64 32) -> p to b1;
  b1 regular: do deallocate(load(p), u64 16, u64 32) to b2;
  b2 regular: exit;
}
main main
"""
# Two threads that wait for a lock of the main thread.
LOCK = """minirust 1
fn w(p) -> r {
  let p: raw, r: unit;
  b0 regular: do acquire(u32 0) to b1;
  b1 regular: do release(u32 0) to b2;
  b2 regular: return;
}
fn main() -> r {
  let r: unit, l: u32, t: u32;
  b0 regular: live l; live t; do create_lock() -> l to b1;
  b1 regular: do acquire(u32 0) to b2;
  b2 regular: do spawn(fn w, raw 0) -> t to b3;
  b3 regular: do spawn(fn w, raw 0) -> t to b4;
  b4 regular: do release(u32 0) to b5;
  b5 regular: do join(u32 1) to b6;
  b6 regular: exit;
}
main main
"""
# Addresses rise from 65,536 on: those of the functions, of the globals, and of the main function's returned local.
ALONE_START = "schedule 1\nstart 65536 65544 65556\n"
LOCK_START = """schedule 1
start 65536 65537 65538
0 65540
0 65544
0
0
0 65548 65552
0 65560 65568
"""
# A program, an order, the entries of the schedule behind its start, and where it can't go on.
FILLED = (
    (ALONE, "", "", ""),
    # The local of four bytes at a multiple of four; the pointer; and the block at a multiple of 32.
    (ALONE, "0*6", "0 65560\n0\n0 65568\n0 65600\n0\n0\n", ""),
    # The program ends before the order does.
    (ALONE, "0*6\n# there is no more\n0", "0 65560\n0\n0 65568\n0 65600\n0\n0\n",
     "# line 3 can't go on: 66 AfterStop\n"),
    (ALONE, "0 1", "0 65560\n", "# line 1 can't go on: 60 NotEnabled\n"),
    # Nobody waits where a lock is named.
    (ALONE, "0 0>1", "0 65560\n", "# line 1 can't go on: 62 ExtraPick\n"),
    # The first that waits gets the lock, or the one that is named.
    (LOCK, "0*6 1 2 0", "1\n2\n0 1\n", ""),
    (LOCK, "0*6 1 2 0>2 2", "1\n2\n0 2\n2 1\n", ""),
    (LOCK, "0*6 2 0>1", "2\n", "# line 1 can't go on: 65 NotWaiting\n"),
    (LOCK, "0*6 1\n1", "1\n", "# line 2 can't go on: 60 NotEnabled\n"),
)
# A program, a schedule, what `next` tells, and the status.
NEXTS = (
    (ALONE, ALONE_START, """thread 0 can go on; its next step is 5:15  main b0  live x
        asks for address, size 4, align 4, for local x
""", 0),
    (ALONE, ALONE_START + "0 65560\n0\n0 65568\n", """\
thread 0 can go on; its next step is 5:42  main b0  do allocate(u64 16, u64 32) -> p to b1
        asks for address, size 16, align 32, for a block of the heap
""", 0),
    # The state in front of the entry that breaks a rule.
    (ALONE, ALONE_START + "0 65561\n0\n", """entry 1 of thread 0 breaks 63 BadAddress: An address may not be picked.
        picks 65561
        by the pick 65561
thread 0 can go on; its next step is 5:15  main b0  live x
        asks for address, size 4, align 4, for local x
""", 1),
    (ALONE, ALONE_START + "0 65544\n0\n", """\
entry 1 of thread 0 breaks 64 Reused: The bytes at this address were those of an earlier allocation, maybe a dead one.
        picks 65544
        by the pick 65544
        the bytes were those of allocation 1 of thread 0
thread 0 can go on; its next step is 5:15  main b0  live x
        asks for address, size 4, align 4, for local x
""", 1),
    # The start line breaks a rule.
    (ALONE, "schedule 1\nstart 65536 65544\n", "schedule 2 61 MissingPick\n", 5),
    # Two threads wait for the lock that the first one holds.
    (LOCK, LOCK_START + "1\n2\n0\n", """\
entry 9 of thread 0 breaks 61 MissingPick: The step asks for more picks than the entry has.
        no pick
thread 0 can go on; its next step is 14:15  main b4  do release(u32 0) to b5
        asks for one of the threads 1, 2, which wait for lock 0
thread 1 waits for lock 0, which thread 0 has; its next step is 5:15  w b1  do release(u32 0) to b2
thread 2 waits for lock 0, which thread 0 has; its next step is 5:15  w b1  do release(u32 0) to b2
""", 1),
    # One thread ended, and one waits for it no more.
    (LOCK, LOCK_START + "0\n0\n2\n2\n2\n", """\
thread 0 waits for the end of thread 1; its next step is 16:15  main b6  exit
thread 1 can go on; its next step is 4:15  w b0  do acquire(u32 0) to b1
thread 2 ended
""", 0),
)


def answered(bench):
    """What words come to, and what refuses them."""
    for line, text, status in (*ANSWERED, *CODES):
        bench.expect(line, f"mirace_show {line}", text, status, P=EXIT, S=SCHEDULE)
    for program, other, line, text, status in (*REFUSED, *TRACED, *PROSPECTS, *ORDERS, *LAID_OUT):
        what = f"{line} of {program[:40]!r} and {other!r}"
        bench.expect(what, f"mirace_show {line}", text, status, P=program, S=other)
    for line in FORMLESS:
        bench.expect(f"the words {line!r}", f"mirace_show {line}", USAGE, 2, P=EXIT, S=SCHEDULE)


def going_on(bench):
    """How the threads can go on, and which schedule an order becomes."""
    for program, schedule, text, status in NEXTS:
        bench.expect(f"what is next behind {schedule!r}", "mirace_show next P S", text, status, P=program, S=schedule)
    for program, order, entries, halt in FILLED:
        start = ALONE_START if program == ALONE else LOCK_START
        files, status = {"P": program, "O": order}, int(halt != "")
        bench.expect(f"the order {order!r}", "mirace_show fill P O", start + entries, status, **files)
        bench.expect(f"the order {order!r}: where it ends", "mirace_show halt P O", halt, status, **files)


def compare(bench):
    """All of them."""
    answered(bench)
    going_on(bench)
