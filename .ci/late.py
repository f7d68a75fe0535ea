"""Faults that come late, and answers that are large: no answer may turn into want of memory, or into another one, by
where it stands or how long it is."""
from judging import expect, judge, run, write
from made import STORING

# How many entries stand in front of the one that breaks a rule, and how many statements in front of one.
ENTRIES, STATEMENTS = 70000, 300
# Two threads that store to one global and to a local in turn, for ever.
RACING = b"""minirust 1
global g align 4 { 0*4 }
fn w(p) -> r {
let p: raw, r: unit, x: i32;
b0 regular: live x; goto b1;
b1 regular: deref(global g + 0, i32) = i32 1; x = i32 0; goto b1;
}
fn main() -> r {
let r: unit, t: u32, x: i32;
b0 regular: live t; live x; do spawn(fn w, raw 0) -> t to b1;
b1 regular: deref(global g + 0, i32) = i32 2; x = i32 0; goto b1;
}
main main
"""


def drawn(program, count, at):
    """A schedule of so many entries, drawn for a program."""
    lines = run(["auto", program, "7", str(count)], at)[0].split(b"\n")
    return b"\n".join((*lines[:2 + count], b""))


def late_rules(at):
    """Rules that an entry breaks behind many others: the line is told in each format."""
    write(at, "storing.mr", STORING)
    schedule = drawn("storing.mr", ENTRIES, at)
    line = ENTRIES + 3
    for name, entry, told in (("late-thread.sched", b"7\n", b"60 NotEnabled"), ("late-pick.sched", b"0 8\n", b"62 ExtraPick")):
        write(at, name, schedule + entry)
        text = b"schedule %d %s\n" % (line, told)
        for words in (["run"], ["json"], ["short"], ["trace"]):
            expect(f"{words[0]}: {told.decode()} behind {ENTRIES} entries", [*words, "storing.mr", name], at, text, 5)
        expect(f"shuffle: {told.decode()} behind {ENTRIES} entries", ["shuffle", "storing.mr", name, "3"], at, text, 5)


def late_forms(at):
    """A rule of programs that a statement breaks behind many others, in each command that reads a program."""
    text = b"minirust 1\nfn main() -> r {\nlet r: unit, n: u32;\nb0 regular: live n; %sn = u8 1; exit;\n}\nmain main\n"
    write(at, "late.mr", text % (b"n = u32 1; " * STATEMENTS))
    told = b"form main b0 %d 36 Assign\n" % (STATEMENTS + 1)
    for words in (["check", "late.mr"], ["run", "late.mr", "missing"], ["auto", "late.mr", "1", "9"]):
        expect(f"{words[0]}: a rule behind {STATEMENTS} statements", words, at, told, 4)


def large_answers(at):
    """A number of a million and more, a name of 240 bytes, and a list of many races."""
    for number, told in ((1_000_000, b"workers 3\nrounds 522\nentries 9424\n> 1566\n"),):
        text = b"big %d\n%sverdict exit\nraces 0\n" % (number, told)
        expect(f"big {number}", ["big", str(number)], at, text, 0)
    write(at, "racing.mr", RACING)
    start = b"schedule 1\nstart 16 17 4096 64\n0 8192\n0 8196\n0 8200 8208\n1 8216\n1\n"
    write(at, "racing.sched", start + b"0\n0\n0\n1\n1\n1\n" * 8)
    report, _ = run(["run", "racing.mr", "racing.sched"], at)
    listed = report[report.find(b"races "):].partition(b"witness ")[0]
    judge("a run of many races", listed.count(b"\nrace ") > 3, f"it writes {report[:200]!r}")
    name = "t" * 240
    write(at, name, run(["trace", "racing.mr", "racing.sched"], at)[0])
    expect("offline: many races, of a file with a name of 240 bytes", ["offline", name], at, listed, 1)
