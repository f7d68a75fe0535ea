"""The JSON of a run, as `mirace_show json P S` writes it; companion.py compares that of each stored run.

- It is a line that has the form of docs/run.schema.json. A value of that form, changed in any one place, hasn't it.
- Its steps make the lines that `steps` writes of them, but for the texts of statements, whose numbers are counted in the
  program's text. Its accesses are those of the footprints, its races and its verdict those of the report.
"""
import copy
import json
import os
import re

TOP = os.path.dirname(os.path.dirname(os.path.abspath(__file__)))
SCHEMA = f"{TOP}/docs/run.schema.json"
TYPES = {"null": type(None), "boolean": bool, "integer": int, "string": str, "array": list, "object": dict}
# What the form has words for, and `steps` writes in others.
DEEDS = {"waits for thread": "waits for the end of thread"}
# Of runs with so few steps each place is changed.
FEW = 12


def of_type(word, value):
    return isinstance(value, TYPES[word]) and not (word == "integer" and isinstance(value, bool))


def fits(schema, value, defs):
    """Whether a value has the form of a schema, by those of its words that the file uses."""
    if "$ref" in schema:
        return fits(defs[schema["$ref"].rsplit("/", 1)[1]], value, defs)
    types = schema.get("type", [])
    checks = (
        not types or any(of_type(it, value) for it in (types if isinstance(types, list) else [types])),
        "const" not in schema or (type(value), value) == (type(schema["const"]), schema["const"]),
        value in schema.get("enum", [value]),
        "anyOf" not in schema or any(fits(it, value, defs) for it in schema["anyOf"]))
    if not all(checks):
        return False
    if of_type("integer", value):
        return schema.get("minimum", value) <= value <= schema.get("maximum", value)
    if isinstance(value, str):
        return re.search(schema.get("pattern", ""), value) is not None
    if isinstance(value, list):
        return all(fits(schema.get("items", {}), it, defs) for it in value)
    if isinstance(value, dict) and "properties" in schema:
        known = schema["properties"]
        return set(schema["required"]) <= set(value) <= set(known) and all(fits(known[k], value[k], defs) for k in value)
    return True


def inside(value, path=()):
    """Where values stand in a value."""
    yield path, value
    for key, it in value.items() if isinstance(value, dict) else enumerate(value) if isinstance(value, list) else ():
        yield from inside(it, (*path, key))


def put(value, path, what):
    """The same with another one there."""
    changed = copy.deepcopy(value)
    at = changed
    for key in path[:-1]:
        at = at[key]
    at[path[-1]] = what
    return changed


def changes(value):
    """The value with one place changed: to what no schema of the file has there, or with a member less or more."""
    for path, it in list(inside(value))[1:]:
        yield path, put(value, path, -1)
        yield path, put(value, path, {"odd": []})
        if isinstance(it, dict):
            yield path, put(value, path, {**it, "odd": 1})
            for key in it if len(it) > 2 else ():
                # (a local without its thread and its function would be a global)
                if not {"local", "global"} & set(it):
                    yield (*path, key), put(value, path, {k: v for k, v in it.items() if k != key})


def reached(it, address, here):
    """What `steps` calls an address, where a thread stands in a function."""
    if it is None:
        return f"address {address}"
    behind = f"+{it['offset']}" if it["offset"] else ""
    if "global" in it:
        return it["global"] + behind
    if "step" in it:
        return f"the block{behind} of step {it['step']}"
    if "local" not in it:
        return f"fn {it['function']}{behind}"
    own = (it["thread"], it["function"]) == here
    return it["local"] + behind + ("" if own else f" of {it['function']}, thread {it['thread']}")


def value_told(it, here):
    if it is None:
        return ""
    return f" = {reached(it['to'], it['address'], here) if isinstance(it, dict) else it}"


def access_line(it, here):
    kind = ("atomic " if it["atomic"] else "") + ("store " if it["store"] else "load ")
    bytes_ = "1 byte" if it["bytes"] == 1 else f"{it['bytes']} bytes"
    return kind + reached(it["reached"], it["address"], here) + value_told(it["value"], here) + ", " + bytes_


def event_lines(did):
    event = did["event"]
    if event is None:
        return
    within = f" in {did['starts']}" if did["starts"] is not None else ""
    yield f"{DEEDS.get(event['deed'], event['deed'])} {event['number']}{within}"


def lines_below(step, partners):
    """The lines that `steps` writes below that of a step."""
    yield from (f"prints > {it['text']}" for it in step["prints"])
    did = step["did"]
    if did is not None:
        yield from event_lines(did)
        yield from ["ends"] * did["ends"]
        yield from (f"wakes thread {it}" for it in did["wakes"])
        yield from (access_line(it, (step["thread"], step["place"]["function"])) for it in did["accesses"])
    yield from (f"races with step {it}" for it in partners)


def head(number, thread, place):
    return f"{number}  thread {thread}  {place['line']}:{place['column']}  {place['function']} {place['block']}  "


def numbered(source, step):
    """Which statement of its block that of a step is, by the text."""
    here = source.at(step)
    block = [*re.finditer(rb"\b%s\s+\w+\s*:" % step.block, source.code[:here])][-1]
    return source.code.count(b";", block.end(), here) + 1


def pairs_in(lines):
    return [tuple(map(int, it.split()[1:])) for it in lines if it.startswith("race ")]


def sides(run, pair):
    """A race of the report, with the places of its steps."""
    return [{"step": it, "place": run["steps"][it - 1]["place"]} for it in pair]


def like_the_report(judge, what, run, report):
    lines = report.decode().split("\n")
    verdict = next(it for it in lines if it.startswith("verdict "))[8:]
    code = int(verdict.split()[1]) if verdict.startswith("undefined") else None
    judge(f"{what}: its verdict", (run["verdict"], run["code"]) == (verdict, code), f"{run['verdict']}")
    prints = [it[2:] for it in lines if it.startswith("> ")]
    told = [it for step in run["steps"] for it in step["prints"]]
    judge(f"{what}: its prints", [it["text"] for it in run["output"]] == prints and run["output"] == told, f"{told[:2]}")
    threads = [it["thread"] == step["thread"] for step in run["steps"] for it in step["prints"]]
    judge(f"{what}: who prints", all(threads))
    wanted = [sides(run, it) for it in pairs_in(lines)]
    judge(f"{what}: its races", [[it["first"], it["second"]] for it in run["races"]] == wanted, f"{run['races'][:2]}")


def like_the_steps(judge, what, run, source, steps, feet):
    partners = {}
    for race in run["races"]:
        one, other = race["first"]["step"], race["second"]["step"]
        partners.setdefault(one, []).append(other)
        partners.setdefault(other, []).append(one)
    wrong, accesses = [], []
    for it, step in zip(run["steps"], steps):
        line = head(it["number"], it["thread"], it["place"]).encode() + step.statement
        below = [f"        {other}".encode() for other in lines_below(it, partners.get(it["number"], ()))]
        if (line, below, it["place"]["statement"]) != (step.line, step.below, numbered(source, step)):
            wrong.append((it, step.line, step.below))
        if it["did"] is not None:
            accesses.append([(2 * a["atomic"] + a["store"], a["address"], a["bytes"]) for a in it["did"]["accesses"]])
    judge(f"{what}: its steps", not wrong and len(run["steps"]) == len(steps), f"{wrong[:1]}")
    judge(f"{what}: its accesses", accesses == [[*map(tuple, foot[3])] for foot in feet], f"{accesses[:2]}")


def compare(judge, what, wrote, source, steps, feet, report):
    """The JSON of a run, beside its listing, its footprints and its report."""
    what, text = f"{what}: json", wrote.decode()
    run = json.loads(text)
    compact = json.dumps(run, separators=(",", ":"), ensure_ascii=False, sort_keys=True) + "\n"
    judge(f"{what}: one line without spaces, whose members stand by their names", compact == text)
    with open(SCHEMA, encoding="utf-8") as it:
        schema = json.load(it)
    if not fits(schema, run, schema["$defs"]):
        judge(f"{what}: its form", False)
        return
    if len(steps) <= FEW:
        odd = [path for path, it in changes(run) if fits(schema, it, schema["$defs"])]
        judge(f"{what}: its form, changed in a place", not odd, f"{odd[:3]}")
    like_the_report(judge, what, run, report)
    like_the_steps(judge, what, run, source, steps, feet)
