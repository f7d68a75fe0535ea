"""Whether the calls of the host are the plain ones.

A clause says of such a call that it was made, and not with what: another name may be opened, a word dropped, or an
empty piece handed over, and all is proved. So the bodies of these functions are compared with what they must be, and
the host is called nowhere else. The check tries itself: put in place of what stands in the sources, each text of WRONG
must be refused.
"""
import os
import re

import memory
from judging import judge

# The functions that call the host: the file, the line of what they stand in, the head, and the body.
BODIES = (
    ("host.rt", "impl<R: rt::Files> Opener for R {", "fn open(&mut self, name: &str) -> io::Result<R::File>",
     "fs::open(self, name)"),
    ("host.rt", "impl<F: Read> Source for F {", "fn give(&mut self, buf: &mut [u8]) -> io::Result<usize>",
     "self.read(buf)"),
    ("host.rt", "impl<W: Write> Stream for W {", "fn put(&mut self, bytes: &[u8]) -> io::Result<usize>",
     "self.write(bytes)"),
    ("host.rt", "impl<W: Write> Stream for W {", "fn settle(&mut self) -> io::Result<()>", "self.flush()"),
    ("caller.rt", "impl<R: Env + AllocGlobal> Caller for R {", "fn args(&self) -> io::Result<Args>", "env::args(self)"),
    ("caller.rt", "", "pub fn words_of<C: Caller>(alloc: Global, caller: &C) -> io::Result<Vec<String>>",
     "let all = caller.args()?; Ok(behind_first(alloc, all)?)"),
    ("host_out.rt", "", "fn put<W: Stream>(out: &mut W, piece: &[u8]) -> Option<usize>",
     "match out.put(piece) { Ok(n) => flushed(n, out.settle()), Err(_) => None, }"),
)
# What calls the host, or leads to it, and how often it stands in the sources.
CALLS = (
    (r"\bfs::\w+\(", 1), (r"\benv::\w+\(", 1), (r"\.flush\(", 1), (r"\.settle\(", 1), (r"\.args\(\)", 1),
    (r"\bself\.read\(", 1), (r"\bself\.write\(", 1), (r"\bfn main\(rt: HostRuntime\)", 2))


def body_of(text, within, head):
    """The body of a function, its lines joined by blanks."""
    lines = text.split("\n")
    begin = lines.index(within) if within in lines else 0 if not within else len(lines)
    for number in range(begin, len(lines)):
        line = lines[number]
        if line.strip().removesuffix(" {") == head:
            edge = line[:len(line) - len(line.lstrip())]
            first = number if line.endswith(" {") else lines.index(edge + "{", number)
            last = lines.index(edge + "}", first)
            return " ".join(it.strip() for it in memory.bare("\n".join(lines[first + 1:last])) if it.strip())
    return None


def faults(known):
    """What is wrong in the sources, given by their paths and texts."""
    for name, within, head, body in BODIES:
        found = [body_of(text, within, head) for path, text in known if os.path.basename(path) == name]
        found = [it for it in found if it is not None]
        if found != [body]:
            yield f"{name}: the body of `{head}` is {found}, not {body!r}"
    lines = (line for _, text in known for line in memory.bare(text))
    code = [line for line in lines if line.isascii() and not memory.NO_ANSWER.match(line)]
    for call, count in CALLS:
        found = sum(len(re.findall(call, line)) for line in code)
        if found != count:
            yield f"{call} stands {found} times in the sources, not {count} times"


def host_calls():
    """The functions that call the host have the plain bodies, and nothing else calls it."""
    known = list(memory.sources())
    found = list(faults(known))
    judge("the calls of the host", not found, "; ".join(found))
    for name, old, new in WRONG:
        places = [k for k, (path, text) in enumerate(known) if os.path.basename(path) == name and text.count(old) == 1]
        what = f"another call of the host in {name}: {new.strip()}"
        judge(f"{what}: its place", len(places) == 1, f"{len(places)} of them")
        if len(places) == 1:
            path, text = known[places[0]]
            changed = [*known[:places[0]], (path, text.replace(old, new)), *known[places[0] + 1:]]
            judge(what, list(faults(changed)), "it isn't seen")


# Bodies that a proof lets through: the file, what stands there, and what takes its place.
WRONG = (
    ("host.rt", "fs::open(self, name)", "fs::open(self, \"other\")"),
    ("host.rt", "fs::open(self, name)", "let _ = fs::open(self, name);\n        fs::open(self, name)"),
    ("host.rt", "self.read(buf)", "self.read(&mut buf[..1])"),
    ("host.rt", "self.write(bytes)", "self.write(&bytes[..0])"),
    ("host.rt", "self.write(bytes)", "self.write(&bytes[..bytes.len().min(1)])"),
    ("host.rt", "self.flush()", "Ok(())"),
    ("host.rt", "self.flush()", "self.flush()?;\n        self.flush()"),
    ("caller.rt", "env::args(self)", "let mut all = env::args(self)?;\n        all.next();\n        Ok(all)"),
    ("caller.rt", "let all = caller.args()?;", "caller.args()?;\n    let all = caller.args()?;"),
    ("host_out.rt", "Ok(n) => flushed(n, out.settle()),", "Ok(n) => flushed(n, out.settle().and(out.settle())),"),
    ("host_out.rt", "Ok(n) => flushed(n, out.settle()),", "Ok(n) => Some(n),"),
    ("host_out.rt", "match out.put(piece) {", "match out.put(&piece[..0]) {"),
    ("sink.rt", "        done += out.write(&text[done..])?;",
     "        out.settle();\n        done += out.write(&text[done..])?;"),
)
