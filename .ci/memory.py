"""Whether an answer for want of memory is given only where a call found no memory.

Such an answer stands in an arm whose left side is want of memory and nothing else, in a conversion from the errors of
std, or in an arm `Err(_)` of a call that fails for want of memory alone, which is listed (ALLOCATING). An answer that
is made by hand is listed with all that it depends on (BY_HAND). The status that tells it, 8, stands in the lines that
are listed (WRITTEN).

The check tries itself: put in place of what stands in the sources, each text of WRONG must be refused. A reservation
that is far too large isn't seen here, since it is refused by the host.
"""
import os
import re

from judging import TOP, judge, read

# An answer for want of memory, where it stands for a value: the error of std, or the variant of one of our own types.
OUT_OF_MEMORY = re.compile(
    r"[(|]\s*(AllocError|OutOfMemory)\s*\)|=>\s*(AllocError|OutOfMemory)\b|^\s*(return )?(AllocError|OutOfMemory);?$"
    r"|\bErr\(Memory\b|\b(AllocError|OutOfMemory)\.|\b[A-Z]\w*::(Memory|OutOfMemory)\b")
# Lines in which the words stand for no answer; and a line of a clause has other letters than those of code.
NO_ANSWER = re.compile(r"\s*(pub )?(use|ghost|requires|ensures)\b|\s*#|.*(matches!|[=!]= \w+::Memory)")
# The left of an arm that is want of memory and nothing else. (A machine that found no memory once says `Failed` from
# then on.)
WANT = r"((\w+::)?(Memory|AllocError|OutOfMemory)|StepFault::Failed)"
WANTED = re.compile(rf"\s*(Err\({WANT}( \| {WANT})*\)|{WANT}( \| {WANT})*)\s*")
# A conversion from the errors of std.
CONVERSION = re.compile(r"impl(<[^>]*>)? From<Alloc(Error|Failed)\b")
# The head of a function, with its name; and of what is done in some cases alone.
FUNCTION = re.compile(r"\s*(?:pub(?:\([^)]*\))? )?(?:const )?fn (\w+)")
CONDITION = re.compile(r"\s*(\} )?(if|else|for|while|loop|let)\b")
# The calls that fail for want of memory alone, of which an arm `Err(_)` is taken: the function, and the line that
# matches. (The steps and the start among them are those of a run that is legal.)
ALLOCATING = {
    ("typed", "match types(e, args, spare) {"),
    ("refuse", "match refusal.text(alloc) {"),
    ("answered", "match written {"),
    ("read", "match into.extend_from_slice(bytes) {"),
    ("keep_piece", "match into.extend_from_slice(&piece[..n]) {"),
    ("reach", "match reach_entries(alloc, &mut machine, w.entries.as_slice()) {"),
    ("tables_of", "Ok(parts) => match tables_in(alloc, key, tokens, &parts) {"),
    ("object", "match serde_json::to_vec(alloc, &told) {"),
    ("step", "Some(foot) => match kept.keep(foot) {"),
    ("wanted", "match Vec::from_slice(alloc, wanted_bytes(filling, text)) {"),
    ("push_told", "match steps.push(told) {"),
    ("joined", "match push_rows(alloc, rows, p, &told) {"),
    ("tell_behind", "match behind(alloc, machine, number, thread, told) {"),
    ("tell_step", "match told_before(alloc, machine, entry) {"),
    ("stand_step", "match stands.push(stand) {"),
    ("walked", "match sizes_of(alloc, p.globals.as_slice()) {"),
}
# The answers that are made by hand: the function, the line, the one that it depends on, and the constant in that. A
# thread whose count of allocations can't rise gives up, and so does what would number more links or more semicolons
# than there are numbers.
BY_HAND = {
    ("act", "return Err(TurnFault::Memory);", "if thread.count >= MOST_ALLOCATIONS {",
     "const MOST_ALLOCATIONS: u64 = 0x4000_0000_0000_0000;"),
    ("reserve_links", "return Err(OutOfMemory);", "if links.len() > MOST_LINKS || more > MOST_LINKS - links.len() {",
     "const MOST_LINKS: usize = 4_294_967_295;"),
    ("added", "return Err(AllocError);", "let Some(sum) = n.checked_add(more) else {", ""),
    ("added", "None => Err(AllocError),", "match sum.checked_add(1) {", ""),
}
# The status for want of memory, where it is written: the function, and the line. It is looked for where statuses are
# spoken of.
WRITTEN = {("status", "Refusal::Memory => 8,"), ("wordless", "ErrorKind::OutOfMemory => 8,")}
EIGHT = re.compile(r"(?<![\w.])8(?![\w.])")


def bare(text):
    """The lines of a source without their comments."""
    return [it.partition("//")[0].rstrip() for it in text.split("\n")]


def depth(line):
    return len(line) - len(line.lstrip())


def around(lines, at):
    """The numbers of the lines in which a line stands, from its arm of a match, or its conditions, outwards."""
    outer = depth(lines[at])
    for number in range(at - 1, -1, -1):
        if lines[number].strip() and depth(lines[number]) < outer:
            outer = depth(lines[number])
            yield number


def function_of(lines, at):
    """The name of the function in which a line stands."""
    found = (FUNCTION.match(lines[number]) for number in range(at, -1, -1) if depth(lines[number]) < depth(lines[at]))
    return next((it.group(1) for it in found if it), "")


def line_around(lines, at):
    """The line that a line stands in."""
    return next((lines[number].strip() for number in around(lines, at)), "")


def arm_of(lines, at):
    """The number of the line of the arm that a line stands in, where nothing between them is done in some cases
    alone."""
    for number in (at, *around(lines, at)):
        if "=>" in lines[number]:
            return number
        if number != at and CONDITION.match(lines[number]):
            return None
    return None


def is_by_hand(lines, at):
    """Whether an answer is one that is listed with all that it depends on."""
    mine = (function_of(lines, at), lines[at].strip(), line_around(lines, at))
    return any(it[:3] == mine and (not it[3] or it[3] in lines) for it in BY_HAND)


def is_passed_on(lines, at):
    """Whether the answer for want of memory on a line is one that a call gave, or a conversion."""
    if any(CONVERSION.match(lines[number]) for number in around(lines, at)):
        return True
    arm = arm_of(lines, at)
    if arm is None:
        return False
    left = lines[arm].partition("=>")[0]
    call = (function_of(lines, arm), line_around(lines, arm))
    return bool(WANTED.fullmatch(left)) or (left.strip() == "Err(_)" and call in ALLOCATING)


def answers(text):
    """The answers for want of memory of a source: the number of each line, and whether it may stand there."""
    lines = bare(text)
    speaks = re.search(r"\bstatus\b", text)
    for at, line in enumerate(lines):
        if NO_ANSWER.match(line) or not line.isascii():
            continue
        arrow = line.find("=>")
        if any(it.end() > arrow for it in OUT_OF_MEMORY.finditer(line)):
            yield at, is_by_hand(lines, at) or is_passed_on(lines, at)
        if speaks and EIGHT.search(line):
            yield at, (function_of(lines, at), line.strip()) in WRITTEN


def sources():
    """The sources of all crates that aren't tests: the paths, and the texts."""
    for crate in sorted(os.listdir(f"{TOP}/crates")):
        if not crate.endswith(("_tests", "_cases")):
            for folder, _, names in sorted(os.walk(f"{TOP}/crates/{crate}/src")):
                for name in sorted(it for it in names if it.endswith(".rt")):
                    yield f"{folder}/{name}", read(f"{folder}/{name}").decode()


def memory_answers():
    """An answer for want of memory is given only where a call failed: no function gives up because of what it was
    given."""
    count, known = 0, list(sources())
    for path, text in known:
        lines = text.split("\n")
        for at, is_well in answers(text):
            count += 1
            where = f"{path[len(TOP) + 1:]}:{at + 1}: {lines[at].strip()}"
            judge(f"{where}: passed on", is_well, "an answer for want of memory is made")
    judge("answers for want of memory", count > 20, f"{count} of them are found")
    listed(known)
    wrong_answers(known)


def listed(known):
    """Each entry of the lists above stands in the sources."""
    texts = [bare(text) for _, text in known]
    stand = lambda function, line: any(
        it.strip() == line and function_of(lines, at) == function for lines in texts for at, it in enumerate(lines))
    for function, line in sorted({*ALLOCATING, *WRITTEN, *(it[:2] for it in BY_HAND)}):
        what = f"want of memory: {function}: {line}"
        judge(what, stand(function, line), "it is listed in memory.py, and stands nowhere")


def wrong_answers(known):
    """Each answer that is made, put in place of what stands in the sources, is seen."""
    for name, old, new in WRONG:
        texts = [text for path, text in known if os.path.basename(path) == name and text.count(old) == 1]
        what = f"want of memory that is made in {name}: {new.strip().splitlines()[0].strip()}"
        judge(f"{what}: its place", len(texts) == 1, f"{len(texts)} files of this name have once what stands there")
        if len(texts) == 1:
            changed = texts[0].replace(old, new)
            judge(what, not all(is_well for _, is_well in answers(changed)), "it isn't seen")


# Bodies that give up because of what they were given: the file, what stands there, and what takes its place.
WRONG = (
    ("input.rt", """Err(FileFault::Long) => Err(Refusal::Text {
            line: 1,
            col: 1,
            code: LONG_TEXT,
        }),""", "Err(FileFault::Long) => Err(Refusal::Memory),"),
    ("input.rt", "Err(FileFault::Long) => Err(broken(1, TOO_LONG)),", "Err(FileFault::Long) => Err(Refusal::Memory),"),
    ("input.rt", "Err(FileFault::Long) => Err(broken(1, TOO_LONG)),",
     "Err(FileFault::Long | FileFault::Memory) => Err(Refusal::Memory),"),
    ("input.rt", "Err(ParseFault::Text(fault)) => Err(wrong(fault)),", """Err(ParseFault::Text(fault)) => {
            if fault.line >= 65_536 {
                return Err(Refusal::Memory);
            }
            Err(wrong(fault))
        }"""),
    ("input.rt", "Err(ParseFault::Text(fault)) => Err(wrong(fault)),", """\
Err(ParseFault::Text(fault)) if fault.line < 65_536 => Err(wrong(fault)),
        Err(ParseFault::Text(_)) => Err(Refusal::Memory),"""),
    ("input.rt", "Err(ParseFault::Text(fault)) => Err(wrong(fault)),", """\
Err(ParseFault::Text(fault)) if fault.line < 65_536 => Err(wrong(fault)),
        Err(_) => Err(Refusal::Memory),"""),
    ("input.rt", "Err(SchedFault::Bad { line, code }) => Err(broken(line, code)),",
     """Err(SchedFault::Bad { line, code }) => {
            if line < 65_536 { Err(broken(line, code)) } else { Err(Refusal::Memory) }
        }"""),
    ("input.rt", "Err(SchedFault::Memory) => Err(Refusal::Memory),", "Err(_) => Err(Refusal::Memory),"),
    ("writing.rt", "Ok(text) => finish(out, text.as_slice(), refusal.status()),",
     "Ok(text) => finish(out, text.as_slice(), 8),"),
    ("writing.rt", "Ok(text) => finish(out, text.as_slice(), refusal.status()),",
     "Ok(text) => finish(out, text.as_slice(), Refusal::Memory.status()),"),
    ("form.rt", "    let text = form_line(alloc, p, fault)?;\n", """    if fault.place >= 256 {
        return Err(Refusal::Memory);
    }
    let text = form_line(alloc, p, fault)?;
"""),
    ("form.rt", "let text = form_line(alloc, p, fault)?;",
     "let text = form_line(alloc, p, fault).or(Err(Refusal::Memory))?;"),
    ("form.rt", "Ok(Written { text, status: 4 })", "Ok(Written { text, status: 8 })"),
    ("answer.rt", "Err(WfFault::Form { .. }) => unreachable!(),", "Err(WfFault::Form { .. }) => Err(Refusal::Memory),"),
    ("answer.rt", """Ok(checked) => said(alloc, saying, &checked),
        Err(WfFault::Form { fault, program }) => form_answer(alloc, &program, fault),""",
     """Ok(checked) => said(alloc, saying, &checked),
        Err(WfFault::Form { .. }) => Err(Refusal::Memory),"""),
    ("listed.rt", "Err(TraceFault::Bad { at, code }) => Err(Refusal::Trace { at, code }),",
     """Err(TraceFault::Bad { at, code }) if at < 1_000_000 => Err(Refusal::Trace { at, code }),
        Err(TraceFault::Bad { .. }) => Err(Refusal::Memory),"""),
    ("traced.rt", "    let mut text = Vec::new(alloc);\n    push_count(&mut text, b\"races \"", """\
    if races.len() > 3 {
        return Err(AllocError);
    }
    let mut text = Vec::new(alloc);
    push_count(&mut text, b"races \""""),
    ("traced.rt", "    let mut text = Vec::new(alloc);\n    push_count(&mut text, b\"races \"", """\
    races.get(3).map_or(Ok(()), |_| Err(AllocError))?;
    let mut text = Vec::new(alloc);
    push_count(&mut text, b"races \""""),
    ("decoding.rt", "{\n    whole_trace(alloc, bytes)\n}", """{
    if bytes.len() > 4_000_000 {
        return Err(TraceFault::Memory);
    }
    whole_trace(alloc, bytes)
}"""),
    ("running.rt", """\
            Ok(()) => place += 1,
            Err(fault) => return Err(at_place(place, fault)),""", """\
            Ok(()) if place > 1_000_000 => return Err(RunFault::Memory),
            Ok(()) => place += 1,
            Err(fault) => return Err(at_place(place, fault)),"""),
    ("clocked.rt", "    races.reserve(1)?;\n    foot.push_to(steps)?;", """    if steps.len() > 1_000_000 {
        return Err(OutOfMemory);
    }
    races.reserve(1)?;
    foot.push_to(steps)?;"""),
    ("host_files.rt", "*taken += n as u64;", """*taken += n as u64;
    if *taken > 4_000_000 {
        return Err(FileFault::Memory);
    }"""),
    ("advance.rt", "0x4000_0000_0000_0000", "1024"),
    ("advance.rt", "if thread.count >= MOST_ALLOCATIONS {", "if thread.count >= 1024 {"),
    ("advance.rt", "    turn(alloc, look, &mut thread.stack, scene, sync, picks)\n", """    if picks.len() > 1024 {
        return Err(TurnFault::Memory);
    }
    turn(alloc, look, &mut thread.stack, scene, sync, picks)
"""),
    ("rows.rt", "const MOST_LINKS: usize = 4_294_967_295", "const MOST_LINKS: usize = 4_294_967"),
    ("caller.rt", "        _ => 10,", "        ErrorKind::NotFound => 8,\n        _ => 10,"),
)
