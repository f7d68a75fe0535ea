"""The script that looks at answers to the exercises, examples/exercises/mark: each stored answer is right, and a wrong
one for each is wrong."""
import os
import re
import subprocess

from judging import EXERCISES, PROGRAM, judge, read, run, short, write

SCRIPT = f"{EXERCISES}/mark"
# A wrong answer for each stored one: what is replaced in it, and by what. Where one name stands, that file is it.
WRONG = {
    "01-print-solved.mr": ("true", "false"), "01-print-solved.sched": (r"\n0\n$", "\n"),
    "02-addresses-solved.sched": ("0 32", "0 40"), "03-loop-solved.mr": ("u32 5", "u32 6"),
    "04-bytes-solved.mr": "04-bytes.mr",
    "05-call-solved.mr": ("1 => first, _ => second", "1 => second, _ => first"),
    "05-call-solved.sched": (r"\n0\n$", "\n"), "06-end-solved.mr": "06-end-b.mr", "07-local-solved.mr": "07-local.mr",
    "08-list-solved.mr": "08-list.mr", "09-turns-solved-123.sched": (r"\n0\n$", "\n"),
    "09-turns-solved-213.sched": (r"\n0\n$", "\n"), "10-tickets-solved.sched": ("10-tickets.mr", 0),
    "11-atomic-solved.mr": "11-twice.mr",
    "12-lock-solved.mr": ("none regular: do release.u32 0. to end;", "none regular: return;"),
    "13-forks-solved.mr": "13-forks.mr", "13-forks-solved.sched": ("13-forks.mr", 1),
    "14-witness-solved.sched": "14-witness.sched"}


def drawn(program, number, at):
    """A schedule that is drawn from a number."""
    text, _ = run(["auto", f"{EXERCISES}/{program}", str(number), "1000"], at)
    return re.split(rb"^[>v]", text, flags=re.M)[0]


def wrong_one(name, at):
    """The bytes of a wrong answer in the place of a stored one."""
    how = WRONG[name]
    if isinstance(how, str):
        return read(f"{EXERCISES}/{how}")
    if isinstance(how[1], int):
        return drawn(*how, at)
    text = re.sub(how[0].encode(), how[1].encode(), read(f"{EXERCISES}/{name}"))
    judge(f"mark: {name}: what makes it wrong stands in it", text != read(f"{EXERCISES}/{name}"))
    return text


def marked(what, words, at, status):
    how = {"stdin": subprocess.DEVNULL, "stdout": subprocess.PIPE, "stderr": subprocess.DEVNULL, "timeout": 60}
    ran = subprocess.run([SCRIPT, *words], cwd=at, env={**os.environ, "MIRACE": PROGRAM}, **how)
    has_wrong = b"\nwrong: " in b"\n" + ran.stdout
    fits = ran.returncode == status and has_wrong == (status == 1) and bool(ran.stdout) == (status < 2)
    judge(f"mark: {what}", fits, f"{short(ran.stdout)} and {ran.returncode}")


def marked_answers(at):
    """What examples/exercises/mark says of each stored answer, and of a wrong one for each."""
    answers = sorted(it for it in os.listdir(EXERCISES) if "-solved" in it)
    judge("mark: each answer has a wrong one", answers == sorted(WRONG), f"{answers}")
    for name in answers:
        marked(name, [f"{EXERCISES}/{name}"], at, 0)
        if name.endswith(".sched") and os.path.isfile(f"{EXERCISES}/{name[:-6]}.mr"):
            write(at, f"{name[:-6]}.mr", read(f"{EXERCISES}/{name[:-6]}.mr"))
        wrong = f"{name[:3]}wrong{os.path.splitext(name)[1]}"
        if name in ("01-print-solved.sched", "05-call-solved.sched"):
            write(at, f"{name[:3]}wrong.mr", read(f"{EXERCISES}/{name[:-6]}.mr"))
        write(at, wrong, wrong_one(name, at))
        marked(f"a wrong one for {name}", [wrong], at, 1)
    for number, status in ((0, 0), (4, 1)):
        write(at, "15-mine.sched", drawn("15-hidden.mr", number, at))
        marked(f"a schedule of task 15 from {number}", ["15-mine.sched"], at, status)
    write(at, "01-cut.mr", b"minirust 1\n")
    marked("a text that is no program", ["01-cut.mr"], at, 1)
    for words in ([], ["mine.mr"], ["99-mine.mr"], ["02-mine.mr"], ["11-mine.sched"]):
        marked(f"the words {words}", words, at, 2)
