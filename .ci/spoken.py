"""What an undefined run speaks of, as the companion tells it, beside the reason, the steps and the program's text; companion.py
runs it.

The line is there exactly where the reason speaks of an allocation. Where the bytes lie in it, whether it was freed, and what was
wanted of them have to be what the reason says; a block is that of a step which allocates, and has as many bytes as stand there;
what was freed was freed by a step that gives up storage; and where bytes mean no value, a step that stored there did store.
"""
import re

VERDICT = re.compile(rb"^verdict undefined (\d+) ", re.M)
# The reasons that speak of an allocation.
OF_MEMORY = {*range(103, 109), *range(127, 131)}
LINE = re.compile(
    rb"it speaks of (?:no allocation|(?P<name>.+), which has (?P<size>\d+) bytes?(?: and was freed by step (?P<freed>\d+))?): "
    rb"(?P<doing>load of|store of|atomic change of|move over|reference to|freeing of) (?P<length>\d+) bytes? "
    rb"at (?:byte (?P<at>-?\d+), )?address (?P<address>\d+)(?:; (?:step (?P<stored>\d+) stored there last|(?P<never>no step stored there)))?")
# No program here has a type of a greater alignment.
MOST_ALIGNED = 4096
ACCESSES = (b"load of", b"store of", b"atomic change of")
BLOCK = re.compile(rb"the block of step (\d+)")
LOCAL = re.compile(rb"(\w+) of (\w+), thread (\d+)")


class Told:
    """What a line says. Where there is no allocation, it has no name, size and place."""

    def __init__(self, line):
        it = LINE.fullmatch(line).groupdict()
        self.name, self.doing = it["name"], it["doing"]
        self.size, self.freed, self.length, self.at = (it[key] and int(it[key]) for key in ("size", "freed", "length", "at"))
        self.address = int(it["address"])
        self.stored, self.never = it["stored"] and int(it["stored"]), it["never"]
        self.is_whole = (it["at"] is None) == (self.name is None)

    def is_inside(self):
        return self.name is not None and 0 <= self.at and self.at + self.length <= self.size

    def is_block(self):
        return self.name is not None and BLOCK.fullmatch(self.name) is not None

    def frees(self):
        """It frees the bytes from the first one on of what is alive."""
        return self.doing == b"freeing of" and self.name is not None and not self.freed and self.at == 0


def fits(code, told):
    """Whether what is told is what the reason says."""
    is_alive = told.name is not None and not told.freed
    return told.is_whole and {
        103: told.doing in ACCESSES and told.address % MOST_ALIGNED != 0,
        104: told.name is None and told.doing != b"reference to",
        105: told.freed and told.doing != b"reference to",
        106: is_alive and not told.is_inside() and told.doing not in (b"reference to", b"freeing of"),
        107: told.doing in (b"load of", b"atomic change of") and (not told.length or is_alive and told.is_inside()),
        108: told.doing == b"reference to" and not (is_alive and told.is_inside()),
        127: told.doing == b"freeing of" and is_alive and told.at != 0,
        128: told.frees() and not told.is_block(),
        129: told.frees() and told.is_block() and told.length != told.size,
        130: told.frees() and told.is_block() and told.length == told.size,
    }[code]


def is_stored(code, steps, told):
    """Whether it tells who stored the bytes exactly where they mean no value, and the step that it tells did store."""
    if code != 107 or not told.length:
        return told.stored is None and told.never is None
    stores = [line.strip().startswith((b"store ", b"atomic store ")) for line in steps[told.stored - 1].below] if told.stored else []
    return any(stores) if told.stored else told.never is not None


def gives_up(words):
    """Whether the step of a statement may give up storage."""
    return words[0] in (b"dead", b"live", b"return", b"resume") or words[:2] == [b"do", b"deallocate"]


def is_named(source, steps, told):
    """Whether the name is one of what the program and its run have, and it was freed where it could be."""
    if told.freed and not (told.freed < len(steps) and gives_up(source.words(steps[told.freed - 1]))):
        return False
    block, local = (it.fullmatch(told.name or b"") for it in (BLOCK, LOCAL))
    if block:
        words = source.words(steps[int(block.group(1)) - 1])
        return words[:2] == [b"do", b"allocate"] and (words[3] != b"u64" or int(words[4].strip(b",")) == told.size)
    if local:
        return re.search(rb"\bfn\s+%s\b" % local.group(2), source.code) and re.search(rb"\b%s\s*:" % local.group(1), source.code)
    return told.name is None or re.search(rb"\b%s\b" % (told.name if told.name[:3] == b"fn " else b"global " + told.name), source.code)


def compare(judge, what, source, steps, tail):
    """The line of what a run speaks of. Whether it has one."""
    verdict = VERDICT.search(tail)
    code = int(verdict.group(1)) if verdict else None
    lines = [line for line in tail.split(b"\n") if line.startswith(b"it speaks of ")]
    judge(f"{what}: whether it speaks of an allocation", len(lines) == (code in OF_MEMORY), f"{lines} of {code}")
    if not lines or code not in OF_MEMORY:
        return False
    is_known = LINE.fullmatch(lines[0]) is not None
    judge(f"{what}: the line of what it speaks of", is_known and tail.endswith(b"\n%s\n" % lines[0]), f"{lines[0]}")
    if is_known:
        told = Told(lines[0])
        judge(f"{what}: what it speaks of, by its reason", bool(fits(code, told)), f"{lines[0]} of {code}")
        judge(f"{what}: who stored what it speaks of", is_stored(code, steps, told), f"{lines[0]}")
        judge(f"{what}: the name of what it speaks of", bool(is_named(source, steps, told)), f"{lines[0]}")
    return True
