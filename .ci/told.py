"""What the companion tells of a trace: the texts of `mirace_show races T PLACES` and `steps T PLACES FIRST LAST`, and
what a picture of it tells of a step, by their definition, made of the steps of the trace, as `step_of` of examples/trace/trace.py gives them, of its races, and
of a file of places. Nothing here is shared with the program. traces.py and record.py compare with it.
"""
import re
from collections import Counter

EVENTS = (b"", b"creates lock", b"acquires lock", b"releases lock", b"starts thread", b"joins thread")
ACCESSES = (b"load", b"store", b"atomic load", b"atomic store")
# So many accesses of a step are shown below a pair of places.
MOST = 8
INDENT = b" " * 8
SITE = re.compile(rb"(0|[1-9][0-9]*)(?: (0|[1-9][0-9]*))?")


class NoPlaces(Exception):
    """The line that tells what is wrong with a file of places."""


def races_in(listed):
    """The pairs of steps of a list of races, counted from 0."""
    return [(int(one) - 1, int(other) - 1) for one, other in re.findall(rb"^race (\d+) (\d+)$", listed, re.M)]


def plural(count, word):
    return b"%d %s%s" % (count, word, b"" if count == 1 else b"s")


class Told:
    """A trace and its races, at the places of a text, or at none."""

    def __init__(self, steps, races, text=None):
        self.steps, self.races = steps, races
        self.names, self.sites = [], []
        if text is not None:
            self.read(text)

    def read(self, text):
        head, *lines = text.split(b"\n")
        if head != b"places 2":
            raise NoPlaces(b"places 1 it isn't `places 2`\n")
        for number, line in enumerate(lines, 2):
            found = SITE.fullmatch(line)
            site = [int(it) for it in found.groups() if it] if found else []
            if line.startswith(b"name "):
                self.names.append(line[5:])
            elif found and max(site) < 1 << 32:
                self.sites.append(site)
            elif line:
                raise NoPlaces(b"places %d neither a name nor a step\n" % number)
        if len(self.sites) != len(self.steps):
            raise NoPlaces(b"places %d steps, and the trace has %d\n" % (len(self.sites), len(self.steps)))

    def name(self, number):
        if number >= len(self.names):
            return b"name %d" % number
        return bytes(it if 32 <= it <= 126 else ord("?") for it in self.names[number])

    def head(self, k):
        """The line of step k, counted from 0."""
        site = b"".join(b"  " + self.name(it) for it in self.sites[k]) if self.sites else b""
        return b"%d  thread %d%s\n" % (k + 1, self.steps[k][0], site)

    def accesses(self, k):
        for kind, address, length in self.steps[k][3]:
            yield INDENT + b"%s address %d, %s\n" % (ACCESSES[kind], address, plural(length, b"byte"))

    def step(self, k):
        """The lines of step k."""
        _, (kind, number), is_end, _, _, woken = self.steps[k]
        yield self.head(k)
        if kind:
            yield INDENT + b"%s %d\n" % (EVENTS[kind], number)
        if is_end:
            yield INDENT + b"ends\n"
        yield from (INDENT + b"wakes thread %d\n" % it for it in woken)
        yield from self.accesses(k)
        for pair in self.races:
            if k in pair:
                yield INDENT + b"races with step %d\n" % (sum(pair) - k + 1)

    def title(self, k, span):
        """What is shown with the mark of step k of a picture of these steps: the races whose second step is drawn come
        first, those before whose first."""
        _, *lines = [it.strip().decode() for it in self.step(k)]
        near = [pair for pair in self.races if pair[1] in span]
        partners = [one for one, other in near if other == k] + [other for one, other in near if one == k]
        lead = "races with step " if len(partners) == 1 else "races with steps "
        phrase = [lead + ", ".join(str(it + 1) for it in partners)] if partners else []
        did = phrase + [it for it in lines if not it.startswith("races with step ")]
        site = "  ".join(self.name(it).decode() for it in self.sites[k])
        return "\n".join([f"step {k + 1}, thread {self.steps[k][0]}  {site}", *did])

    def side(self, k):
        """The lines of a step of a race: some of its accesses are left out where it has many."""
        accesses = list(self.accesses(k))
        yield b"    " + self.head(k)
        yield from accesses[:MOST]
        if len(accesses) > MOST:
            yield INDENT + b"and %d more\n" % (len(accesses) - MOST)

    def group(self, both, count, first):
        """The lines of the races at two places."""
        often = b"once, " if count == 1 else b"%d times, first " % count
        yield b"%s  /  %s: %s%d %d\n" % (*map(self.name, both), often, *(k + 1 for k in first))
        for k in first:
            yield from self.side(k)

    def races_text(self):
        at = lambda pair: tuple(self.sites[k][0] for k in pair)
        counts, first = Counter(map(at, self.races)), {at(pair): pair for pair in reversed(self.races)}
        ranked = sorted(counts, key=lambda both: (-counts[both], both))
        lines = [line for both in ranked for line in self.group(both, counts[both], first[both])]
        return b"".join(lines) + b"races %d\n" % len(self.races)

    def steps_text(self, first=1, last=1 << 22):
        """The steps from one number to another, counted from 1."""
        chosen = range(max(first - 1, 0), min(last, len(self.steps)))
        return b"".join(line for k in chosen for line in self.step(k)) + b"races %d\n" % len(self.races)
