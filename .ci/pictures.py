"""Pictures of runs, as mirace_show draws them; companion.py runs it.

- docs/pictures has a picture of each example with threads, NAME.svg of examples/NAME.sched, which is what the program writes now.
- Each of these, and those of stored runs, is a document of XML with the elements and attributes that are known here, and no
  others. All that it draws lies in its view box, and no two texts overlap, if a byte has at most 8 pixels. No link comes
  within 8 of the mark of a step that isn't one of its two. Where rsvg-convert and xmllint are there, they read those of
  docs/pictures without a complaint.
- Its legend tells those signs that its other marks have. Its line of threads names each with the function that the step of
  its start tells. Its steps are those of the listing. Its arrows are those that plain.py's edges give: between steps of two
  threads of which one comes before the other by a chain of edges, where no step lies between. Its races are the first six
  of the report, its second line tells where there are more, and the witness's column has each drawn step once where there
  is a race.

    python3 .ci/pictures.py [--write] [COMPANION]      the first check alone; with --write it makes the pictures
"""
import os
import re
import shutil
import subprocess
import sys
import xml.etree.ElementTree as tree

sys.dont_write_bytecode = True
import plain  # noqa: E402
import rust_order  # noqa: E402

TOP = os.path.dirname(os.path.dirname(os.path.abspath(__file__)))
COMPANION = f"{TOP}/crates/mirace_show/out/mirace_show"
EXAMPLES, PICTURES = f"{TOP}/examples", f"{TOP}/docs/pictures"
SPACE = "{http://www.w3.org/2000/svg}"
# How a line of an access begins.
ACCESS = ("load ", "store ", "atomic load ", "atomic store ")
# The elements of a document, each with its attributes.
KNOWN = {"svg": {"width", "height", "viewBox", "role", "{http://www.w3.org/XML/1998/namespace}space"}, "title": set(), "style": set(), "defs": set(), "rect": {"class", "width", "height"},
         "marker": {"id", "viewBox", "refX", "refY", "markerWidth", "markerHeight", "orient", "markerUnits", "class"}, "g": {"class"}, "path": {"d", "class"},
         "text": {"x", "y", "text-anchor"}}
# The arrows by their signs, each with what its title says of it.
ARROWS = {"wake": ": it woke or started its thread", "dependence": ", which depends on it",
          "machine-order": ", which depends on it; Rust's order has no such arrow"}

# So many races have a line at most.
RACES = 6

# What the legend says of each sign that it tells.
LEGEND = {"step": "a step, in the lane of its thread; later ones are below", "racing": "a step of a race", "stop": "the step that ended the run",
          "left-out": "a step that the witness leaves out", "wake": "the first step woke or started that thread",
          "dependence": "the second step depends on the first one", "machine-order": "it depends on the first one, but not in Rust's order",
          "first-race": "the first race: neither step happens before the other", "race": "another race"}


def read(path):
    with open(path, "rb") as it:
        return it.read()


def threads_of(schedule):
    return {line.split(b" ")[0].split(b"*")[0] for line in read(schedule).split(b"\n")[2:-1]}


def examples():
    """The examples with threads: the name of a schedule, its program and itself."""
    names = sorted(os.listdir(EXAMPLES))
    for name in (it for it in names if it.endswith(".sched")):
        program = max((it for it in names if it.endswith(".mr") and name.startswith(it[:-3])), key=len)
        if len(threads_of(f"{EXAMPLES}/{name}")) > 1:
            yield name[:-len(".sched")], f"{EXAMPLES}/{program}", f"{EXAMPLES}/{name}"


def drawn(program, schedule, companion, *part):
    ended = subprocess.run([companion, "picture", program, schedule, *part], stdin=subprocess.DEVNULL, stdout=subprocess.PIPE, timeout=120)
    return ended.stdout, ended.returncode


def kept(judge, companion):
    """The pictures of docs/pictures are what the program draws, and there are no others."""
    names = set()
    for name, program, schedule in examples():
        names.add(f"{name}.svg")
        path = f"{PICTURES}/{name}.svg"
        wrote, status = drawn(program, schedule, companion)
        judge(f"docs/pictures/{name}.svg", os.path.isfile(path) and read(path) == wrote and status in (0, 1), "not what is drawn; --write makes it")
        for reader in (["xmllint", "--noout"], ["rsvg-convert"]):
            if shutil.which(reader[0]):
                ended = subprocess.run([*reader, path], stdin=subprocess.DEVNULL, capture_output=True, timeout=120)
                judge(f"{reader[0]} {name}.svg", ended.returncode == 0 and not ended.stderr, f"{ended.stderr[:200]}")
    there = set(os.listdir(PICTURES)) if os.path.isdir(PICTURES) else set()
    judge("docs/pictures", there == names, f"{sorted(there ^ names)}")


# ---- what a picture has

class Picture:
    """A picture: its size, its marks by their signs, each with its title, and the boxes of all that it draws."""

    def __init__(self, text):
        self.root = tree.fromstring(text.decode())
        self.wide, self.high = int(self.root.get("width")), int(self.root.get("height"))
        self.marks = [(it.get("class"), it.find(f"{SPACE}title").text or "", it) for it in self.root.findall(f"{SPACE}g")]

    def unknown(self):
        """Elements and attributes that are not known."""
        for it in self.root.iter():
            name = it.tag.removeprefix(SPACE)
            for attribute in set(it.attrib) - KNOWN.get(name, set()):
                yield name, attribute
            if name not in KNOWN or "href" in str(it.attrib):
                yield name, None

    def titled(self, sign):
        return [title for it, title, _ in self.marks if it == sign]

    def boxes(self):
        """The boxes of its texts: left, top, right, bottom, and the text."""
        for _, _, mark in self.marks:
            for it in mark.iter(f"{SPACE}text"):
                wide, x, y = 8 * len(it.text or ""), int(it.get("x")), int(it.get("y"))
                left = x - wide if it.get("text-anchor") == "end" else x
                yield left, y - 12, left + wide, y + 3, it.text

    def points(self):
        """The points of its paths, each with how far round it something is drawn."""
        for _, _, mark in self.marks:
            for it in mark.iter(f"{SPACE}path"):
                path = it.get("d")
                is_round = re.match(r"M\d+ \d+m", path)
                for x, y in [re.match(r"M(\d+) (\d+)", path).groups()] if is_round else re.findall(r"(\d+) (\d+)", path):
                    yield int(x), int(y), 8 if is_round else 0


    def places(self):
        """Where the marks of steps stand in their lanes, by their numbers."""
        for sign in ("step", "racing", "stop"):
            for it, title, mark in self.marks:
                number = re.match(r"step (\d+), thread ", title) if it == sign else None
                if number:
                    x, y = re.match(r"M(\d+) (\d+)m", next(mark.iter(f"{SPACE}path")).get("d")).groups()
                    yield int(number.group(1)), (int(x), int(y))

    def links(self):
        """The arrows and the lines of races: their two steps, and the points of their ways; a corner as it is, uncut."""
        for it, title, mark in self.marks:
            ends = re.match(r"step (\d+) (?:happens before|and) step (\d+)", title)
            if it in (*ARROWS, "race", "first-race") and ends:
                path = next(mark.iter(f"{SPACE}path")).get("d")
                yield [int(k) for k in ends.groups()], [(int(x), int(y)) for x, y in re.findall(r"(\d+) (\d+)", path)]


def distance(at, a, b):
    """How far a point is from the straight way between two others."""
    dx, dy = b[0] - a[0], b[1] - a[1]
    along = dx * dx + dy * dy
    t = min(1, max(0, ((at[0] - a[0]) * dx + (at[1] - a[1]) * dy) / along)) if along else 0
    return ((at[0] - a[0] - t * dx) ** 2 + (at[1] - a[1] - t * dy) ** 2) ** 0.5


def too_near(picture):
    """Links that come within 8 of the mark of a step that isn't one of their two."""
    places = dict(picture.places())
    for ends, way in picture.links():
        for number, at in places.items():
            if number not in ends and any(distance(at, a, b) <= 8 for a, b in zip(way, way[1:])):
                yield *ends, number


def is_within(picture):
    boxes = [it[:4] for it in picture.boxes()] + [(x - far, y - far, x + far, y + far) for x, y, far in picture.points()]
    return [it for it in boxes if not (0 <= it[0] and 0 <= it[1] and it[2] <= picture.wide and it[3] <= picture.high)]


def overlaps(picture):
    """Texts that overlap. Rows are 15 high, so that those with one top suffice, and the ones above them."""
    boxes = sorted(picture.boxes(), key=lambda it: (it[1], it[0]))
    for k, one in enumerate(boxes):
        for other in boxes[k + 1:]:
            if other[1] >= one[3]:
                break
            if other[0] < one[2] and one[0] < other[2]:
                yield one[4], other[4]


# ---- beside the run

def arrows(feet):
    """The arrows by definition, counted from 1, each with its sign."""
    before, rusts = [], rust_order.order(feet)
    for j in range(len(feet)):
        reached = 0
        for i in range(j):
            if plain.is_edge(feet, i, j):
                reached |= before[i] | 1 << i
        before.append(reached)
    for j in range(len(feet)):
        for i in range(j):
            between = any(before[j] >> k & 1 and before[k] >> i & 1 for k in range(i + 1, j))
            if feet[i][0] != feet[j][0] and before[j] >> i & 1 and not between:
                sign = "dependence" if rusts[j] >> i & 1 else "machine-order"
                yield i + 1, j + 1, "wake" if plain.wakes(feet[i], feet[j][0]) else sign


def arrows_in(picture):
    for sign, why in ARROWS.items():
        for title in picture.titled(sign):
            found = re.fullmatch(rf"step (\d+) happens before step (\d+){why}", title)
            if found:
                yield int(found.group(1)), int(found.group(2)), sign


def races_in(picture):
    for sign in ("first-race", "race"):
        for title in picture.titled(sign):
            found = re.fullmatch(r"step (\d+) and step (\d+) race: neither happens before the other", title)
            if found:
                yield int(found.group(1)), int(found.group(2))


def part_of(pairs):
    """The second line of the picture of a whole run with these races."""
    return "all of them are drawn" + (f"; of their {len(pairs)} races {RACES} are drawn" if len(pairs) > RACES else "")


def threads_named(picture):
    """The threads with their functions, as their line has them, and as the steps tell them: nothing where no first step
    stands anywhere."""
    titles = picture.titled("step") + picture.titled("racing") + picture.titled("stop")
    steps = sorted((int(found.group(1)), title) for title in titles if (found := re.match(r"step (\d+), thread ", title)))
    main = re.match(r"step 1, thread 0  \d+:\d+  (\S+) ", steps[0][1]) if steps else None
    started = [it for _, title in steps for it in re.findall(r"^starts thread (\d+) in (\S+)$", title, re.M)]
    wanted = [", ".join(f"T{thread} {function}" for thread, function in [("0", main.group(1)), *started])] if main else []
    return [it for it in picture.titled("note") if it.startswith("T0 ")], wanted


def accesses_in(titles):
    """What the titles of steps tell of loads and stores."""
    steps = [(found, title) for title in titles if (found := re.match(r"step (\d+), thread ", title))]
    return {int(found.group(1)): [line for line in title.split("\n") if line.startswith(ACCESS)] for found, title in steps}


def accesses_of(steps):
    """The same of the steps of a listing; a picture tells the last one first."""
    lines = {step.number: [line.strip().decode() for line in step.below] for step in steps}
    return {number: [line for line in reversed(told) if line.startswith(ACCESS)] for number, told in lines.items()}


def told_and_drawn(picture):
    """The signs that the legend tells, and those that the other marks have."""
    words = set(LEGEND.values())
    told = [sign for sign, says in LEGEND.items() if says in picture.titled("note")]
    return told, [sign for sign in LEGEND if any(title not in words for title in picture.titled(sign))]


def numbers(titles, form):
    return [int(re.fullmatch(form, it, re.S).group(1)) for it in titles if re.fullmatch(form, it, re.S)]


def picture(judge, what, text, steps, feet, pairs):
    """A picture of a whole run, beside its listing, its footprints and the races of its report."""
    it = Picture(text)
    judge(f"{what}: the elements of its picture", not list(it.unknown()), f"{list(it.unknown())[:3]}")
    judge(f"{what}: its picture lies in the view box", not is_within(it), f"{is_within(it)[:3]}")
    judge(f"{what}: no two texts of its picture overlap", not list(overlaps(it)), f"{list(overlaps(it))[:3]}")
    judge(f"{what}: no link of its picture comes near a foreign mark", not list(too_near(it)), f"{list(too_near(it))[:3]}")
    marks = sorted(numbers(it.titled("step") + it.titled("racing") + it.titled("stop"), r"step (\d+), thread .*"))
    judge(f"{what}: the steps of its picture", marks == [step.number for step in steps], f"{marks}")
    told, wanted = accesses_in(it.titled("step") + it.titled("racing") + it.titled("stop")), accesses_of(steps)
    judge(f"{what}: what its picture tells of loads and stores", told == wanted, f"{told}, not {wanted}")
    told, wanted = told_and_drawn(it)
    judge(f"{what}: the legend of its picture", told == wanted, f"{told}, not {wanted}")
    named, wanted = threads_named(it)
    judge(f"{what}: the threads of its picture", not wanted or named == wanted, f"{named}, not {wanted}")
    wanted = sorted(arrows(feet))
    judge(f"{what}: the arrows of its picture", sorted(arrows_in(it)) == wanted, f"{sorted(arrows_in(it))}, not {wanted}")
    found, wanted = sorted(races_in(it)), sorted(pairs[:RACES])
    judge(f"{what}: the races of its picture", found == wanted, f"{found}, not {wanted}")
    judge(f"{what}: the second line of its picture", part_of(pairs) in it.titled("note"), f"not {part_of(pairs)}")
    column = numbers(it.titled("left-out"), r"the witness leaves out step (\d+)")
    column += numbers(it.titled("step") + it.titled("racing"), r"step (\d+) is step \d+ of the witness, of those that are drawn")
    places = list(range(1, len(feet) + 1)) if pairs else []
    judge(f"{what}: the witness's column of its picture", sorted({*column}) == places, f"{sorted(column)}")


def main():
    words = sys.argv[1:]
    is_writing = "--write" in words
    companion = os.path.abspath(next((it for it in words if it != "--write"), COMPANION))
    results = []

    def tell(what, is_well, why=""):
        results.append(is_well)
        if not is_well:
            print(f"{what}: {why}")

    if is_writing:
        os.makedirs(PICTURES, exist_ok=True)
        for name, program, schedule in examples():
            with open(f"{PICTURES}/{name}.svg", "wb") as it:
                it.write(drawn(program, schedule, companion)[0])
    kept(tell, companion)
    print(f"{sum(results)} passed, {len(results) - sum(results)} failed")
    return not all(results)


if __name__ == "__main__":
    sys.exit(main())
