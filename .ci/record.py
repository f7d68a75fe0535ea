"""The recorder of examples/record/: it is compiled without a warning; small programs (record_programs.py) are
recorded, and their races are those that they have by construction, and those of the definition (plain.py); so are
the twins of examples/beside, beside what ThreadSanitizer reports of them by docs/BESIDE.md; what the companion tells of
their traces is what told.py and two_orders.py make of them, and the races by Rust's order are those by the machine's;
and what can go wrong is told, and leaves no trace that is taken for a whole one.

    .ci/record.py [PROGRAM]     checks the recorder alone, with this mirace
"""
import importlib.machinery
import importlib.util
import os
import re
import resource
import shutil
import signal
import subprocess
import sys
import tempfile
from collections import Counter

sys.dont_write_bytecode = True
import plain  # noqa: E402
import record_programs  # noqa: E402
import rust_order  # noqa: E402
import told  # noqa: E402
import two_orders  # noqa: E402

TOP = os.path.dirname(os.path.dirname(os.path.abspath(__file__)))
HERE = f"{TOP}/examples/record"
TWINS = f"{TOP}/examples/beside"
COMPANION = f"{TOP}/crates/mirace_show/out/mirace_show"
# The compilers of each language, and the one of them that builds all but the small programs.
COMPILERS = {"gcc": {"c": "gcc", "cpp": "g++"}, "clang": {"c": "clang", "cpp": "clang++"}}
PATIENCE = 600
# The most steps of a trace whose races are compared with the definition, which looks at each two of them.
MOST_STEPS = 1500
# Twins with another list than their example by Rust's order, by the example's steps: to free is a store here, as in
# edition 2.
OTHER_RACES = {"use-after-free": {"6-7"}}


def module(name, path):
    """The module of a file of Python, whatever its name is."""
    loader = importlib.machinery.SourceFileLoader(name, path)
    it = importlib.util.module_from_spec(importlib.util.spec_from_loader(name, loader))
    loader.exec_module(it)
    return it


class Recorded:
    """A program that was recorded."""

    def __init__(self, at, words=(), limits=None, **variables):
        self.trace = f"{at}/recorded.trace"
        for name in (self.trace, f"{self.trace}.part", f"{self.trace}.places"):
            if os.path.exists(name):
                os.remove(name)
        names = {**os.environ, "MIRACE_TRACE": self.trace, **variables}
        ran = subprocess.run([f"{at}/recorded", *words], cwd=at, env=names, preexec_fn=limits, stdin=subprocess.DEVNULL,
                             stdout=subprocess.PIPE, stderr=subprocess.PIPE, timeout=PATIENCE)
        self.output, self.told, self.status = ran.stdout, ran.stderr.decode(), ran.returncode
        self.is_whole = os.path.exists(self.trace)


class Checks:
    """What the checks share: where they are, the judge, the program, and the scripts that they read."""

    def __init__(self, judge, program, at):
        self.judge, self.program, self.at = judge, program, at
        self.races = module("races_script", f"{HERE}/races")
        self.script = module("trace_script", f"{TOP}/examples/trace/trace.py")

    def build(self, text, language, *flags, name="recorded", family="gcc"):
        """The program of a text; what the compiler says."""
        source = f"{self.at}/{name}.{language}"
        flags = [*flags, "-std=c++17"] if language == "cpp" else flags
        with open(source, "w", encoding="utf-8") as it:
            it.write(text)
        return self.build_file(source, COMPILERS[family][language], *flags, name=name)

    def build_file(self, source, compiler, *flags, name="recorded"):
        words = [f"{HERE}/record-cc", "-O0", "-mcx16", *flags, source, "-o", f"{self.at}/{name}"]
        made = subprocess.run(words, env={**os.environ, "MIRACE_CC": compiler, "MIRACE_BUILT": f"{self.at}/built"},
                              stdout=subprocess.PIPE, stderr=subprocess.STDOUT, timeout=PATIENCE)
        return made.stdout.decode() if made.returncode or b"warning" in made.stdout else ""

    def steps(self, trace):
        with open(trace, "rb") as it:
            text = self.script.decode(it.read())
        return [self.script.step_of(line) for line in text.splitlines()]

    def offline(self, trace):
        ran = subprocess.run([self.program, "offline", trace], stdout=subprocess.PIPE, timeout=PATIENCE)
        return ran.stdout

    def lines(self, trace, pairs):
        """Of each pair the two lines of the source, by rising numbers."""
        places = self.races.Places(f"{trace}.places")
        rows = {it: places.row(it) for pair in pairs for it in pair}
        known = self.races.names(places, {it[0] for it in rows.values()})
        line = lambda it: int(known.get(rows[it][0], ("?:0", ""))[0].rpartition(":")[2].replace("?", "0"))
        return {tuple(sorted(map(line, pair))) for pair in pairs}

    def by_definition(self, what, trace):
        """The list is that of the definition, where a trace is short enough to try."""
        steps = self.steps(trace)
        self.judge(f"{what}: a trace that is short", len(steps) <= MOST_STEPS, f"{len(steps)} steps")
        if len(steps) <= MOST_STEPS:
            orders = two_orders.Orders(steps)
            wanted, listed = plain.told(orders.machine), self.offline(trace)
            told = f"{listed[:300]} and not {wanted[:300]}"
            self.judge(f"{what}: its races by their definition", wanted == listed, told)
            self.judge(f"{what}: its races by Rust's order", orders.rust == orders.machine, f"{orders.rust[:9]}")
            self.by_companion(what, trace, orders)

    def by_companion(self, what, trace, orders):
        """What the companion tells of the trace is what told.py and two_orders.py make of it, at the places of `names`;
        and its pairs of places have as many races as the list of `races` says."""
        places = f"{self.at}/recorded.names"
        named = subprocess.run([f"{HERE}/names", trace], stdout=subprocess.PIPE, timeout=PATIENCE).stdout
        with open(places, "wb") as it:
            it.write(named)
        races = told.races_in(self.offline(trace))
        wanted, both = told.Told(orders.steps, races, named), two_orders.of_trace(orders, named)
        for word, text in (("races", wanted.races_text()), ("steps", wanted.steps_text()), ("rust", both.text())):
            ran = subprocess.run([COMPANION, word, trace, places], stdout=subprocess.PIPE, timeout=PATIENCE)
            is_well = (ran.stdout, ran.returncode) == (text, int(bool(races)))
            said = f"{ran.returncode}: {ran.stdout[:500]} and not {text[:500]}"
            self.judge(f"{what}: its {word} by the companion", is_well, said)
        place = lambda k: wanted.names[wanted.sites[k][0]].decode().partition(" in ")[0]
        by_names = Counter(tuple(sorted(map(place, pair))) for pair in races)
        by_list = self.counted(trace, [(one + 1, other + 1) for one, other in races]) if races else Counter()
        self.judge(f"{what}: its races by `names` and by `races`", by_names == by_list, f"{by_names} and {by_list}")

    def counted(self, trace, pairs):
        """How many pairs of steps the list of `races` has of each two places."""
        lines = list(self.races.listed(self.races.Places(f"{trace}.places"), pairs))
        place = lambda line: re.split(r" in |: ", line.strip())[0]
        heads = zip(lines[::3], lines[1::3], lines[2::3])
        return Counter({tuple(sorted((place(one), place(other)))): int(head.split()[0]) for head, one, other in heads})


def named(text, pairs, sign):
    """Pairs of lines as pairs of what marks them."""
    marks = {k: it[1] for k, line in enumerate(text.split("\n"), 1) if (it := re.search(sign, line))}
    return {tuple(sorted((marks.get(it, f"line {it}") for it in pair), key=lambda it: (len(it), it))) for pair in pairs}


def recorder_itself(checks):
    """The recorder is compiled by gcc and by clang without a warning, and another tool finds nothing."""
    files = [f"{HERE}/{it}" for it in sorted(os.listdir(HERE)) if it.endswith(".c")]
    for compiler in filter(shutil.which, ("gcc", "clang")):
        words = [compiler, "-std=c11", "-D_GNU_SOURCE", "-O2", "-Wall", "-Wextra", "-fsyntax-only", *files]
        said = subprocess.run(words, stdout=subprocess.PIPE, stderr=subprocess.STDOUT, timeout=PATIENCE)
        checks.judge(f"the recorder by {compiler}", not said.returncode and not said.stdout, said.stdout.decode()[:500])
    if shutil.which("cppcheck"):
        kinds = "--enable=warning,performance,portability"
        words = ["cppcheck", "--quiet", "--std=c11", kinds, "--error-exitcode=1", *files]
        said = subprocess.run(words, stdout=subprocess.PIPE, stderr=subprocess.STDOUT, timeout=PATIENCE)
        checks.judge("the recorder by cppcheck", not said.returncode and not said.stdout, said.stdout.decode()[:500])


def small_program(checks, it, family):
    """A program of the table: its races are those that it has, and those of the definition."""
    text, what = record_programs.source(it), f"{it.name}, by {family}"
    said = checks.build(text, it.language, family=family)
    checks.judge(f"{what}: it is compiled", not said, said[:500])
    if said:
        return
    ran = Recorded(checks.at)
    is_well = ran.status == 0 and ran.is_whole
    checks.judge(f"{what}: it runs to its end", is_well, f"{ran.status}: {ran.told}{ran.output}")
    if not ran.is_whole:
        return
    pairs = checks.races.pairs_of(checks.program, ran.trace)
    found = {"".join(pair) for pair in named(text, checks.lines(ran.trace, pairs), r"//(.)$")}
    checks.judge(f"{what}: its races", found == it.races, f"{sorted(found)} and not {sorted(it.races)}")
    checks.by_definition(what, ran.trace)


def small_programs(checks):
    for family in (it for it in COMPILERS if all(map(shutil.which, COMPILERS[it].values()))):
        for it in record_programs.cases():
            small_program(checks, it, family)


def twin(checks, name, slot):
    """A twin that keeps a time table of such slots: what is recorded, and its races by steps of the example."""
    ran = Recorded(checks.at, SLOT=str(slot))
    checks.judge(f"the twin {name} is recorded", ran.is_whole, ran.told)
    pairs = checks.races.pairs_of(checks.program, ran.trace)
    with open(f"{TWINS}/{name}.c", encoding="utf-8") as it:
        found = {"-".join(it) for it in named(it.read(), checks.lines(ran.trace, pairs), r"// step (\d+)$")}
    checks.by_definition(f"the twin {name}", ran.trace)
    return found


def by_rust(checks, name):
    """The races of an example by Rust's order."""
    words = [checks.program, "trace", f"{TOP}/examples/{name}.mr", f"{TOP}/examples/{name}.sched"]
    trace = subprocess.run(words, stdout=subprocess.PIPE, timeout=PATIENCE).stdout
    steps = [checks.script.step_of(line) for line in checks.script.decode(trace).splitlines()]
    return {f"{i + 1}-{j + 1}" for i, j in rust_order.races(steps)}


def twins(checks):
    """The twins in the order of the recorded run: what is listed of each, beside the list of its example by Rust's
    order, and whether ThreadSanitizer reports a race of it. On a machine with much else to do a time table isn't always
    kept: a longer one is tried then."""
    reported = two_orders.reported()
    for name in sorted(it[:-2] for it in os.listdir(TWINS) if it.endswith(".c")):
        example_has = by_rust(checks, name)
        said = checks.build_file(f"{TWINS}/{name}.c", "gcc")
        checks.judge(f"the twin {name} is compiled", not said, said)
        wanted, found = OTHER_RACES.get(name, example_has), None
        for slot in (40, 150, 600):
            found = found if found == wanted else twin(checks, name, slot)
        checks.judge(f"the twin {name}: its races", found == wanted, f"{sorted(found)} and not {sorted(wanted)}")
        is_well = (name in OTHER_RACES) == (found != example_has)
        checks.judge(f"the twin {name}: whether its list is the example's", is_well, f"{sorted(found)}")
        checks.judge(f"the twin {name}: whether ThreadSanitizer reports a race", bool(found) == reported.get(name),
                     f"{sorted(found)}, and {reported.get(name)}")


# Two threads that store so often as the first word says; what they store is summed up.
LONG = record_programs.C + """#include "mirace.h"
static volatile int cells[1024];
static void *work(void *argument) {
  for (long k = *(long *)argument; k > 0; k--) {
    if (k == 5) MIRACE_BEGIN();
    cells[k % 1024] = 1; //a
    if (k == 3) MIRACE_END();
  }
  return argument; }
int main(int count, char **words) {
  long times = count > 1 ? atol(words[1]) : 0;
  pthread_t t;
  pthread_create(&t, 0, work, &times);
  work(&times);
  pthread_join(t, 0);
  if (count > 2) raise(atoi(words[2]));
  return 0; }
"""
THREADS = record_programs.C + """
static void *work(void *argument) { x++; return argument; }
int main(void) {
  for (int k = 0; k < 1100; k++) { pthread_t t; must(!pthread_create(&t, 0, work, 0)); pthread_join(t, 0); }
  puts("1100 threads");
  return 0; }
"""
# Two threads store under a lock each, of 5,000: of one and of another number.
LOCKS = record_programs.C + """
static pthread_mutex_t all[5000];
static void *work(void *argument) {
  pthread_mutex_t *it = &all[*(int *)argument];
  pthread_mutex_lock(it);
  x++;
  pthread_mutex_unlock(it);
  return argument; }
int main(int count, char **words) {
  int numbers[2] = {count > 2 ? atoi(words[1]) : 0, count > 2 ? atoi(words[2]) : 0};
  for (int k = 0; k < 5000; k++) {
    pthread_mutex_init(&all[k], 0);
    pthread_mutex_lock(&all[k]);
    pthread_mutex_unlock(&all[k]);
  }
  pthread_t t;
  must(!pthread_create(&t, 0, work, &numbers[0]));
  work(&numbers[1]);
  pthread_join(t, 0);
  return 0; }
"""
# Four threads add to a number under a lock, while a handler that stores interrupts them again and again.
STORM = record_programs.C + """#include <sys/time.h>
static atomic_int count;
static volatile int cells[64];
static void on(int signal) { (void)signal; cells[atomic_fetch_add(&count, 1) % 64]++; }
static void *work(void *argument) {
  for (int k = 0; k < 2000; k++) { cells[k % 64] = k; pthread_mutex_lock(&m); x++; pthread_mutex_unlock(&m); }
  return argument; }
int main(void) {
  struct sigaction it = {.sa_handler = on, .sa_flags = SA_RESTART};
  struct itimerval often = {{0, 50}, {0, 50}}, never = {{0, 0}, {0, 0}};
  pthread_t t[4];
  sigaction(SIGALRM, &it, 0);
  setitimer(ITIMER_REAL, &often, 0);
  while (count < 9) usleep(50);
  for (int k = 0; k < 4; k++) must(!pthread_create(&t[k], 0, work, 0));
  for (int k = 0; k < 4; k++) pthread_join(t[k], 0);
  setitimer(ITIMER_REAL, &never, 0);
  printf("%d\\n", x);
  return 0; }
"""
# A program that starts itself while it is recorded, and one that closes files that it didn't open.
STARTING = record_programs.C + """
static void *work(void *argument) { x++; return argument; }
int main(int count, char **words) {
  pthread_t t;
  must(!pthread_create(&t, 0, work, 0));
  pthread_join(t, 0);
  char command[4096];
  snprintf(command, sizeof command, "'%s' again", words[0]);
  if (count == 1) must(!system(command));
  printf("2%s", count == 1 ? "\\n" : " ");
  return 0; }
"""
CLOSING = record_programs.C + """#include <fcntl.h>
int main(void) {
  for (int k = 3; k < 1024; k++) close(k);
  for (int k = 3; k < 1024; k++) {
    int it = open("own", O_WRONLY | O_CREAT, 0666);
    must(it < 0 || write(it, "own\\n", 4) == 4);
  }
  return 0; }
"""
PARALLEL = "int main(void) { int sum = 0;\n#pragma omp parallel\nsum++;\nreturn 0; }\n"


def without_window(text):
    return re.sub(r".*(mirace.h|MIRACE_BEGIN|MIRACE_END).*\n", "", text)


def windows(checks):
    """A part of a run is recorded: by numbers of steps, and by what the program says."""
    said = checks.build(without_window(LONG), "c")
    checks.judge("a long program is compiled", not said, said)
    whole, part, rest = Recorded(checks.at, ["100"]), None, None
    steps = checks.steps(whole.trace)
    checks.judge("a run without a window", len(steps) > 200, f"{len(steps)} steps")
    part = Recorded(checks.at, ["100"], MIRACE_FROM="10", MIRACE_TO="30")
    checks.judge("a window by steps", part.is_whole and len(checks.steps(part.trace)) == 20, part.told)
    checks.by_definition("a window by steps", part.trace)
    rest = Recorded(checks.at, ["100"], MIRACE_FROM="x")
    is_told = rest.status == 70 and not rest.is_whole and "MIRACE_FROM is no number" in rest.told
    checks.judge("a window by no number", is_told, rest.told)
    said = checks.build(LONG, "c", f"-I{HERE}")
    ran = Recorded(checks.at, ["1000"])
    stores = [it for it in checks.steps(ran.trace) if it[3]]
    told = f"{said}{len(stores)} steps of {ran.told}"
    checks.judge("a window that the program opens", not said and 3 <= len(stores) < 1000, told)


def many_steps(checks):
    """More steps than a trace has: the first are written, and it is told; so are buffers that are full, and too
    many threads."""
    said = checks.build(without_window(LONG), "c", "-O1")
    checks.judge("a long program is compiled with -O1", not said, said)
    before = resource.getrusage(resource.RUSAGE_CHILDREN)
    ran = Recorded(checks.at, ["2200000"])
    after = resource.getrusage(resource.RUSAGE_CHILDREN)
    spent = after.ru_utime + after.ru_stime - before.ru_utime - before.ru_stime
    with open(ran.trace, "rb") as it:
        count = int.from_bytes(it.read(9)[5:], "little")
    is_told = f"of which the first {count} from 0 on are written" in ran.told
    checks.judge("more than 2^22 steps", count <= 1 << 22 and count > 4000000 and is_told, f"{count}: {ran.told}")
    checks.judge("more than 2^22 steps: within seconds", spent < 10, f"{spent:.1f} seconds of the processor")
    listed = checks.offline(ran.trace)
    checks.judge("2^22 steps are read", listed.startswith(b"races "), f"{listed[:100]}")
    full = Recorded(checks.at, ["2200000"], MIRACE_ROOM="8")
    checks.judge("full buffers", full.is_whole and full.status == 0 and "the buffers are full" in full.told, full.told)
    said = checks.build(THREADS, "c")
    ran = Recorded(checks.at)
    is_told = "more than 1,024 threads" in ran.told and ran.output == b"1100 threads\n"
    checks.judge("more than 1,024 threads", not said and ran.is_whole and is_told, f"{said}{ran.told}{ran.output}")
    checks.judge("the first 1,024 threads", checks.offline(ran.trace) == b"races 0\n", ran.told)


def interrupted(checks):
    """Handlers of signals that come at any time: nothing is lost, and the trace is one."""
    said = checks.build(STORM, "c")
    ran = Recorded(checks.at)
    is_well = not said and ran.status == 0 and ran.output == b"8000\n" and "didn't start" not in ran.told
    checks.judge("a storm of signals", is_well, f"{said}{ran.status}: {ran.told}{ran.output}")
    steps = checks.steps(ran.trace)
    counts = [sum(step[1][0] == kind for step in steps) for kind in (plain.ACQUIRE, plain.RELEASE, plain.JOIN)]
    checks.judge("a storm of signals: its locks and joins", counts == [8000, 8000, 4], f"{counts}")
    checks.judge("a storm of signals: its races", b"\nrace " in checks.offline(ran.trace), ran.told)


def first_list(checks):
    """The list that the page shows is that of its program, by each compiler: clang's stores alone are told."""
    with open(f"{TOP}/docs/RECORD.md", encoding="utf-8") as it:
        wanted = re.search(r"^```text\n(.*?)^```", it.read(), re.M | re.S)[1]
    for compiler in filter(shutil.which, ("gcc", "g++", "clang", "clang++")):
        language = ["-xc++"] if compiler.endswith("++") else []
        said = checks.build_file(f"{HERE}/two.c", compiler, *language)
        ran = Recorded(checks.at)
        words = [f"{HERE}/races", ran.trace, checks.program]
        list_of = subprocess.run(words, stdout=subprocess.PIPE, timeout=PATIENCE)
        text = list_of.stdout.decode()
        names = {it.split(" in ")[0].strip() for it in text.split("\n") if it.startswith("    ")}
        is_well = text == wanted if compiler == "gcc" else names == {"two.c:9"}
        is_well = is_well and list_of.returncode == 1 and ran.output == b"2 2\n"
        checks.judge(f"two.c by {compiler}", is_well, f"{said}{text}{ran.told}")


def many_locks(checks):
    """More locks than a trace has numbers for: the others order as well."""
    said = checks.build(LOCKS, "c")
    checks.judge("many locks are compiled", not said, said)
    cases = ((["9", "9"], b"races 0\n"), (["4500", "4500"], b"races 0\n"), (["4500", "4501"], b"races 2\n"))
    for words, wanted in cases:
        ran = Recorded(checks.at, words)
        listed = checks.offline(ran.trace)
        is_well = listed.startswith(wanted) and "5000 locks, of which 4,096 have a number" in ran.told
        checks.judge(f"the locks {words} of 5,000", is_well, f"{listed[:100]}{ran.told}")


def small_files():
    signal.signal(signal.SIGXFSZ, signal.SIG_IGN)
    resource.setrlimit(resource.RLIMIT_FSIZE, (4096, 4096))


def small_memory():
    resource.setrlimit(resource.RLIMIT_AS, (96 << 20, 96 << 20))


def faults(checks):
    """What goes wrong is told, and no trace is there that isn't whole."""
    said = checks.build(without_window(LONG), "c", "-O1")
    checks.judge("a program for faults is compiled", not said, said)
    ran = Recorded(checks.at, ["9"], MIRACE_TRACE=f"{checks.at}/nowhere/a")
    checks.judge("a name that can't be opened", ran.status == 70 and "can't be opened" in ran.told, ran.told)
    os.mkdir(f"{checks.at}/folder")
    ran = Recorded(checks.at, ["9"], MIRACE_TRACE=f"{checks.at}/folder")
    checks.judge("the name of a folder", ran.status == 70 and "is no file" in ran.told, ran.told)
    ran = Recorded(checks.at, ["900"], limits=small_files)
    checks.judge("a full disk", ran.status == 70 and "can't be written" in ran.told and not ran.is_whole, ran.told)
    words = [f"{HERE}/races", ran.trace, checks.program]
    cut = subprocess.run(words, stdout=subprocess.PIPE, stderr=subprocess.PIPE, timeout=PATIENCE)
    checks.judge("a full disk: there is no list", cut.returncode == 2 and b"isn't whole" in cut.stderr, f"{cut.stderr}")
    part = checks.offline(f"{ran.trace}.part")
    checks.judge("a full disk: what is there is refused", part.startswith(b"trace "), f"{part[:100]}")
    ran = Recorded(checks.at, ["3000000"], limits=small_memory)
    is_well = "there is no" in ran.told and "memory" in ran.told
    checks.judge("want of memory", is_well and (ran.is_whole or ran.status == 70), f"{ran.status}: {ran.told}")


def ends(checks):
    """Programs that signals end, that start themselves, or close all files; and what isn't recorded at all."""
    said = checks.build(without_window(LONG), "c", "-O1")
    checks.judge("a program for signals is compiled", not said, said)
    for number in (signal.SIGKILL, signal.SIGTERM, signal.SIGSEGV, signal.SIGABRT):
        is_told = number != signal.SIGKILL
        ran = Recorded(checks.at, ["9", str(int(number))])
        is_well = ran.is_whole == is_told and (f"signal {int(number)} ends the program" in ran.told) == is_told
        is_well = is_well and ran.status == -number
        checks.judge(f"a program that {number.name} ends", is_well, f"{ran.status}: {ran.told}")
        if is_told:
            checks.judge(f"{number.name}: its races", b"\nrace " in checks.offline(ran.trace), ran.told)
    said = checks.build(STARTING, "c")
    ran = Recorded(checks.at)
    is_told = "this one isn't recorded" in ran.told and ran.output == b"2 2\n"
    checks.judge("a program that starts itself", is_told and ran.status == 0 and ran.is_whole, f"{said}{ran.told}")
    checks.by_definition("a program that starts itself", ran.trace)
    said = checks.build(CLOSING, "c")
    ran = Recorded(checks.at)
    with open(f"{checks.at}/own", "rb") as it:
        own = it.read()
    is_well = "the program closed" in ran.told and ran.status == 70 and not ran.is_whole and own == b"own\n"
    checks.judge("a program that closes all files", is_well, f"{said}{ran.status}: {ran.told}{own[:20]}")
    said = checks.build(PARALLEL, "c", "-fopenmp")
    checks.judge("OpenMP", "OpenMP isn't recorded" in said, said)
    said = checks.build(PARALLEL, "c", "-static")
    checks.judge("a static program", "linked statically" in said, said)


def compare(judge, program):
    """All checks of the recorder; where gcc isn't there they are left out, with a line."""
    if not shutil.which("gcc") or not shutil.which("g++"):
        print("outputs: there is no gcc or g++: the recorder of examples/record is left out")
        return
    with tempfile.TemporaryDirectory() as at:
        checks = Checks(judge, program, at)
        checked = (recorder_itself, first_list, small_programs, twins, windows, many_steps, many_locks,
                   interrupted, faults, ends)
        for check in checked:
            check(checks)


def main(program):
    counts = [0, 0]

    def judge(what, is_well, told=""):
        counts[not is_well] += 1
        if not is_well:
            print(f"record: FAILED: {what}: {told}", flush=True)
    compare(judge, program)
    print(f"record: {counts[0]} passed, {counts[1]} failed")
    return counts[1] > 0


if __name__ == "__main__":
    sys.exit(main(os.path.abspath(sys.argv[1]) if len(sys.argv) > 1 else f"{TOP}/crates/mirace/out/mirace"))
