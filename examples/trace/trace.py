#!/usr/bin/env python3
"""Turns a list of steps into a trace, and a trace into its list of steps.

    python3 trace.py encode < STEPS > TRACE
    python3 trace.py decode < TRACE > STEPS

A trace is what `mirace offline` reads. A list of steps has a line a step:

    thread 1: load 4096 4; store 4096 4; release 0; wakes 2

Behind the number of the thread, and a colon, stand the parts of the step, in this order. Where there is none, the colon is left out.

    load A N, store A N, atomic load A N, atomic store A N    it uses the N bytes from address A on; as many as there are
    create lock L, acquire L, release L, spawn T, join T      its event; one at most
    ends                                                      its thread ends
    allocates T C, frees T C, touches T C                     the allocation that thread T makes with count C; as many as there are
    wakes T                                                   another thread that may go on; rising, as many as there are

Each list of steps has one trace and each trace one list. The status is 0, and 1 where a list of steps has another form. Where bytes
are no trace it is 9, and the line is the one of `mirace offline`.
"""
import re
import struct
import sys

MAGIC = b"MRTR\x01"
MOST_BYTES, MOST_STEPS, THREADS, LOCKS, END = 1 << 28, 1 << 22, 1024, 4096, 1 << 64
FAULTS = {70: "BadMagic", 71: "BadField", 72: "Truncated", 73: "Trailing", 74: "TooLong"}
ACCESSES = ("load", "store", "atomic load", "atomic store")
EVENTS = ("create lock", "acquire", "release", "spawn", "join")
IDENTITIES = ("allocates", "frees", "touches")
LINE = re.compile(r"thread (0|[1-9][0-9]*)(?:: (.+))?")
PART = re.compile(r"([a-z]+(?: [a-z]+)?)((?: (?:0|[1-9][0-9]*))*)")


class NoTrace(Exception):
    """The first fault of bytes: its offset and its code."""

    def __str__(self):
        return f"trace {self.args[0]} {self.args[1]} {FAULTS[self.args[1]]}"


class NoSteps(Exception):
    """What is wrong with a list of steps."""


def number_below(end, n, what):
    if n >= end:
        raise NoSteps(f"{what} {n} isn't below {end}")
    return n


def step_of(line):
    """The step on a line: its thread, its event as a kind and a number, whether it ended its thread, its accesses, its three
    lists of allocations, and the threads that it woke."""
    found = LINE.fullmatch(line)
    if not found:
        raise NoSteps("a line begins with `thread` and a number, and a colon where parts follow")
    accesses, event, ended, identities, woken = [], (0, None), False, ([], [], []), []
    place = 0
    for part in found[2].split("; ") if found[2] else []:
        words = PART.fullmatch(part)
        if not words:
            raise NoSteps(f"`{part}` is no part of a step")
        name, numbers = words[1], [int(it) for it in words[2].split()]
        before = place
        if name in ACCESSES and len(numbers) == 2:
            place = 1
            addr, length = number_below(END, numbers[0], "address"), numbers[1]
            if not 0 < length <= END - addr or length == END:
                raise NoSteps(f"`{part}` has no byte, or goes past the end of the addresses")
            accesses.append((ACCESSES.index(name), addr, length))
        elif name in EVENTS and len(numbers) == 1:
            place = 2
            kind = 1 + EVENTS.index(name)
            event, before = (kind, number_below(LOCKS if kind < 4 else THREADS, numbers[0], "lock" if kind < 4 else "thread")), before + 1
        elif part == "ends":
            place, ended, before = 3, True, before + 1
        elif name in IDENTITIES and len(numbers) == 2:
            place = 4 + IDENTITIES.index(name)
            thread = number_below(THREADS, numbers[0], "thread")
            identities[place - 4].append((thread, number_below(END, numbers[1], "count")))
        elif name == "wakes" and len(numbers) == 1:
            place = 7
            if woken and numbers[0] <= woken[-1]:
                raise NoSteps("the woken threads rise")
            woken.append(number_below(THREADS, numbers[0], "thread"))
        else:
            raise NoSteps(f"`{part}` is no part of a step")
        if place < before:
            raise NoSteps(f"`{part}` stands too late, or is there twice")
    return number_below(THREADS, int(found[1]), "thread"), event, ended, accesses, identities, woken


def line_of(step):
    thread, (kind, number), ended, accesses, identities, woken = step
    parts = [f"{ACCESSES[kind]} {addr} {length}" for kind, addr, length in accesses]
    parts += [f"{EVENTS[kind - 1]} {number}"] if kind else []
    parts += ["ends"] if ended else []
    parts += [f"{name} {t} {count}" for name, ids in zip(IDENTITIES, identities) for t, count in ids]
    parts += [f"wakes {t}" for t in woken]
    return f"thread {thread}: " + "; ".join(parts) if parts else f"thread {thread}"


def bytes_of(step):
    """The bytes of a step. The lowest byte of a number stands first."""
    thread, (kind, number), ended, accesses, identities, woken = step
    out = struct.pack("<IB", thread, kind) + (struct.pack("<I", number) if kind else b"") + struct.pack("<B", ended)
    out += struct.pack("<Q", len(accesses)) + b"".join(struct.pack("<BQQ", *it) for it in accesses)
    for ids in identities:
        out += struct.pack("<Q", len(ids)) + b"".join(struct.pack("<IQ", *it) for it in ids)
    return out + struct.pack("<Q", len(woken)) + b"".join(struct.pack("<I", t) for t in woken)


def encode(text):
    """The trace of a list of steps."""
    if text and not text.endswith("\n"):
        raise NoSteps("the last line isn't ended")
    lines, steps = text.split("\n")[:-1], []
    if len(lines) > MOST_STEPS:
        raise NoSteps(f"there are more than {MOST_STEPS} steps")
    for at, line in enumerate(lines, 1):
        try:
            steps.append(bytes_of(step_of(line)))
        except NoSteps as why:
            raise NoSteps(f"line {at}: {why}") from None
    return MAGIC + struct.pack("<I", len(steps)) + b"".join(steps)


class Reader:
    """The bytes of a trace, and how far they are read."""

    def __init__(self, data):
        self.data, self.at = data, len(MAGIC)

    def take(self, size, low=0, end=END):
        """The next number of so many bytes, which is to be from `low` up to below `end`."""
        if self.at + size > len(self.data):
            raise NoTrace(len(self.data), 72)
        n = int.from_bytes(self.data[self.at:self.at + size], "little")
        if not low <= n < end:
            raise NoTrace(self.at, 71)
        self.at += size
        return n

    def access(self):
        kind, addr = self.take(1, 0, 4), self.take(8)
        return kind, addr, self.take(8, 1, END + 1 - addr)

    def identity(self):
        return self.take(4, 0, THREADS), self.take(8)

    def many(self, one):
        """As many as a count tells. No memory is taken by the count alone."""
        count, found = self.take(8), []
        while len(found) < count:
            found.append(one())
        return found

    def step(self):
        thread, kind = self.take(4, 0, THREADS), self.take(1, 0, 6)
        event = kind, self.take(4, 0, LOCKS if kind < 4 else THREADS) if kind else None
        ended, accesses = bool(self.take(1, 0, 2)), self.many(self.access)
        identities = self.many(self.identity), self.many(self.identity), self.many(self.identity)
        low, woken = 0, []
        for _ in range(self.take(8)):
            woken.append(self.take(4, low, THREADS))
            low = woken[-1] + 1
        return thread, event, ended, accesses, identities, woken


def decode(data):
    """The list of steps of a trace."""
    if len(data) > MOST_BYTES:
        raise NoTrace(0, 74)
    if not data.startswith(MAGIC):
        raise NoTrace(0, 70)
    reader = Reader(data)
    lines = [line_of(reader.step()) + "\n" for _ in range(reader.take(4, 0, MOST_STEPS + 1))]
    if reader.at < len(data):
        raise NoTrace(reader.at, 73)
    return "".join(lines)


def main(words):
    try:
        if words == ["encode"]:
            sys.stdout.buffer.write(encode(sys.stdin.buffer.read().decode("ascii", "replace")))
            return 0
        if words == ["decode"]:
            sys.stdout.write(decode(sys.stdin.buffer.read()))
            return 0
    except NoSteps as why:
        print(f"trace.py: {why}", file=sys.stderr)
        return 1
    except NoTrace as why:
        print(why)
        return 9
    print("usage: trace.py encode or trace.py decode", file=sys.stderr)
    return 2


if __name__ == "__main__":
    sys.exit(main(sys.argv[1:]))
