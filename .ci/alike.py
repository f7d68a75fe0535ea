"""Names whose hashes are alike in the tables that a text's names are kept in.

A table has groups of twelve places, a power of 2 of them, for nine names each at most. A hash of 64 bits is folded to
32: its low bits tell the group in which a name is looked for, its top 8 a tag, and a name is compared with those that
have its tag there. So names are alike where both agree; the first twelve fill the group, and the next ones stand in the
groups behind it.

The hash is SipHash-1-3. Names that collide under it without a key are searched for. What the program takes in front of
each name is the SHA-256 digest of the whole text: so only a text can be tried, and `worst_text` tries many ends of one.

Python's own hash is the same function where it has no seed, and is many times as fast as `siphash`. So this module runs
itself without a seed, and its hash is compared with `siphash`; where it is another one, `siphash` is taken for less.
"""
import functools
import hashlib
import itertools
import os
import subprocess
import sys

WORD = (1 << 64) - 1
LETTERS = b"abcdefghijklmnopqrstuvwxyz"
# How many names a group of a table has at most when the table grows, and how many places.
LOAD, PLACES = 9, 12
# How many names are searched for, and how many ends of a text are tried; and both where Python's hash is another one.
ALIKE, ENDS = 511, 5000
FEW, FEW_ENDS = 63, 100


def rotated(number, by):
    return (number << by | number >> 64 - by) & WORD


def turned(a, b, c, d):
    """A round of SipHash."""
    a, c = (a + b) & WORD, (c + d) & WORD
    b, d = rotated(b, 13) ^ a, rotated(d, 16) ^ c
    a = rotated(a, 32)
    c, a = (c + b) & WORD, (a + d) & WORD
    b, d = rotated(b, 17) ^ c, rotated(d, 21) ^ a
    return a, b, rotated(c, 32), d


def siphash(text):
    """SipHash-1-3 of some bytes, both keys 0."""
    a, b, c, d = 0x736f6d6570736575, 0x646f72616e646f6d, 0x6c7967656e657261, 0x7465646279746573
    whole = len(text) // 8 * 8
    words = [int.from_bytes(text[k:k + 8], "little") for k in range(0, whole, 8)]
    words.append(int.from_bytes(text[whole:], "little") | len(text) % 256 << 56)
    for word in words:
        a, b, c, d = turned(a, b, c, d ^ word)
        a ^= word
    c ^= 255
    for _ in range(3):
        a, b, c, d = turned(a, b, c, d)
    return a ^ b ^ c ^ d


def is_python_hash():
    """Whether Python's hash is this one, in a process without a seed."""
    tried = (b"name\xff", bytes(range(41)))
    return os.environ.get("PYTHONHASHSEED") == "0" and all(hash(it) & WORD == siphash(it) for it in tried)


def groups(names):
    """How many groups a table of so many names has."""
    count = 1
    while LOAD * count < names:
        count *= 2
    return count


def place(number):
    """What of a hash tells where a name stands: 32 bits."""
    return (number ^ number >> 32) & 0xffffffff


def bits(names):
    """The bits of a place in which names are alike, in a table of so many."""
    return 0xff000000 | groups(names) - 1


def candidates():
    """Names of eight bytes, by blocks of those with one front."""
    ends = [bytes(it) + b"\xff" for it in itertools.product(LETTERS, repeat=3)]
    for front in itertools.product(LETTERS, repeat=4):
        yield [b"n" + bytes(front) + end for end in ends]


def searched(count, hashed):
    """So many names that are alike in a table of theirs: those that collide with the first one, without a key."""
    mask, found, wanted = bits(count), [], None
    for block in candidates():
        hashes = list(map(hashed, block))
        wanted = (hashes[0] ^ hashes[0] >> 32) & mask if wanted is None else wanted
        found += [name[:-1] for name, it in zip(block, hashes) if (it ^ it >> 32) & mask == wanted]
        if len(found) >= count:
            return found[:count]
    return found


def cost(name, others, digest, hashed):
    """What a look-up of a name costs where its text has this digest: the names that it is compared with, and groups."""
    mask, low = bits(len(others) + 1), groups(len(others) + 1) - 1
    mine = place(hashed(digest + name))
    places = [place(hashed(digest + it)) for it in others]
    same = sum(it & mask == mine & mask for it in places)
    return same + sum(it & low == mine & low for it in places) // PLACES


def worst_end(front, names, ends, hashed):
    """The end of a text, of those that are tried, by which a look-up of its last name costs most."""
    begun = hashlib.sha256(front)
    names = [name + b"\xff" for name in names]
    worst = (-1, 0)
    for number in range(ends):
        text = begun.copy()
        text.update(b"%08d\n" % number)
        worst = max(worst, (cost(names[-1], names[:-1], text.digest(), hashed), number))
    return worst


def without_seed(words, text=b""):
    """What this module writes, run without a seed."""
    how = {"input": text, "stdout": subprocess.PIPE, "check": True, "env": {**os.environ, "PYTHONHASHSEED": "0"}}
    return subprocess.run([sys.executable, os.path.abspath(__file__), *words], **how).stdout


@functools.cache
def alike():
    """Names that are alike without a key, in a table of them alone."""
    return without_seed(["alike"]).split()


def worst_text(front, names):
    """A text that ends in a comment, of those that are tried: the one by which its last name costs most, and that
    cost."""
    told, number = map(int, without_seed(["worst"], b"\n".join((b" ".join(names), front))).split())
    return front + b"%08d\n" % number, told


def main(words):
    is_fast = is_python_hash()
    hashed = hash if is_fast else siphash
    if words == ["alike"]:
        print(b" ".join(searched(ALIKE if is_fast else FEW, hashed)).decode())
    elif words == ["worst"]:
        names, _, front = sys.stdin.buffer.read().partition(b"\n")
        print(*worst_end(front, names.split(), ENDS if is_fast else FEW_ENDS, hashed))


if __name__ == "__main__":
    main(sys.argv[1:])
