#!/usr/bin/env python3
"""Times the program on sessions of 1,048,576 bytes, the longest that are read, each of a kind that is dear to read.

`bench/hostile.py [--limit SECONDS] [--write FOLDER] PROGRAM [KIND ..]`: PROGRAM is the built program, as
`crates/fjcalc/out/fjcalc`, or `bin/fjcalc`; the kinds are those of the table, all of them where none is named. For each
the table has the seconds of a processor, the most memory in MB (at least what Python itself has), and the status, or `cut` where the
limit of seconds passed. The questions of these sessions are cheap, so nearly all of the time goes into reading. With
`--write` the sessions are written to that folder too. The status of the script is 1 where a session was cut or ended
with another status than 0 or 2.
"""

import argparse
import os
import pathlib
import resource
import signal
import subprocess
import sys
import tempfile
from typing import Callable

LENGTH = 1 << 20
# The program itself, or the script over it, after the limit.
CUT = (-signal.SIGXCPU, -signal.SIGKILL, 128 + signal.SIGXCPU, 128 + signal.SIGKILL)
HEAD = "ring 5 x, y, z, u, v, w, t\n"


def filled(piece: str, head: str = HEAD) -> str:
    """As many copies of the lines as there is room for, and a comment to the full length."""
    room = LENGTH - len(head)
    text = head + piece * (room // len(piece))
    return text + "#" * (LENGTH - len(text))


def numbered(line: Callable[[int], str], count: int, head: str = HEAD) -> str:
    """A line for each number up to `count`, as far as there is room, and a comment to the full length."""
    text = head
    for place in range(count):
        following = line(place)
        if len(text) + len(following) > LENGTH:
            break
        text += following
    return text + "#" * (LENGTH - len(text))


def one_line(piece: str, joint: str, head: str = HEAD) -> str:
    """One polynomial of many pieces with a joint between each two."""
    start = head + "poly f = " + piece
    more = (LENGTH - len(start) - 1) // len(joint + piece)
    return filled("\n", start + (joint + piece) * more + "\n")


def many_names() -> str:
    return numbered(lambda i: f"poly {'a' * 240}{i} = x\n", 4096)


def many_questions() -> str:
    return numbered(lambda i: "ask member f J" + " " * 230 + "\n", 4096, HEAD + "poly f = x\nideal J = (x)\n")


def names_and_uses() -> str:
    declared = "".join(f"poly f{i} = x\n" for i in range(4095)) + "ideal J = (x)\n"
    return numbered(lambda i: f"ask member f{4094 - i} J\n", 4095, HEAD + declared)


def long_name() -> str:
    start = HEAD + "poly "
    return start + "a" * (LENGTH - len(start) - len(" = x\n")) + " = x\n"


def long_number() -> str:
    start = HEAD + "poly f = "
    return start + "0" * (LENGTH - len(start) - 2) + "7\n"


def generators() -> str:
    """Ideals of 64 generators with 1,000 terms each, until the limit of all terms."""
    one = "(x+1)^499*(y+1)"
    return numbered(lambda i: f"ideal J{i} = (" + ",".join([one] * 64) + ")\n", 15)


def nested_lines() -> str:
    return numbered(lambda i: f"poly f{i} = " + "(" * 64 + "x" + ")" * 64 + "\n", 4096)


def lines_of(expression: str, head: str = HEAD) -> str:
    return numbered(lambda i: f"poly f{i} = {expression}\n", 1000, head)


def repeated(expression: str, joint: str = "+") -> str:
    """An expression on lines of their own, as often as the names and the length allow, all lines filled alike."""
    count = max(1, (LENGTH // 1000 - 20) // len(joint + expression))
    return numbered(lambda i: f"poly f{i} = " + joint.join([expression] * count) + "\n", 1000)


def all_powers() -> str:
    """A value of 1,000 terms, to which one term after another is added."""
    powers = "+".join(f"x^{e}" for e in range(1000, 1, -1)) + "+x"
    start = HEAD + "poly f = " + powers
    more = (LENGTH - len(start) - 1) // 2
    return filled("\n", start + "+x" * more + "\n")


KINDS: dict[str, Callable[[], str]] = {
    "blanks": lambda: HEAD + " " * (LENGTH - len(HEAD)),
    "empty lines": lambda: filled("\n"),
    "comments": lambda: filled("# a comment\n"),
    "one comment": lambda: filled("#"),
    "a name of a million letters": long_name,
    "a number of a million digits": long_number,
    "4,096 names": many_names,
    "4,096 questions": many_questions,
    "names and uses": names_and_uses,
    "64 parentheses a line": nested_lines,
    "64 parentheses, x times": lambda: one_line("(" * 64 + "x" + ")" * 64, "+"),
    "-(x)-(x)..": lambda: one_line("(x)", "-"),
    "1*1*..": lambda: one_line("1", "*"),
    "x+x+..": lambda: one_line("x", "+"),
    "1,000 terms, then +x+x..": all_powers,
    "x^1000+x^1000+..": lambda: one_line("x^1000", "+"),
    "1^1000*1^1000*..": lambda: one_line("1^1000", "*"),
    "(x+1)^1000 a line": lambda: lines_of("(x+1)^1000"),
    "(x+1)^1000 in ring 13": lambda: lines_of("(x+1)^1000-(x+1)^999", "ring 13 x\n"),
    "(x+y+1)^44 a line": lambda: lines_of("(x+y+1)^44"),
    "(x+y+1)^43-.. a line": lambda: repeated("(x+y+1)^43", "-"),
    "(x^3+x^2+x+1)^300": lambda: repeated("(x^3+x^2+x+1)^300", "-"),
    "(x+y+z)^9*(x+y+z)^8": lambda: repeated("(x+y+z)^9*(x+y+z)^8", "-"),
    "(x+1)^499*(x+1)^499": lambda: repeated("(x+1)^499*(x+1)^499", "-"),
    "64 generators, 1,000 terms": generators,
    "no line at all": lambda: "\x00" * LENGTH,
    "a line that never ends": lambda: HEAD + ("poly f = x+" + "x+" * LENGTH)[: LENGTH - len(HEAD)],
    "a byte too many": lambda: filled("#") + "#",
}


def run(program: str, session: pathlib.Path, limit: int) -> tuple[float, float, str]:
    """Seconds of a processor, megabytes at the most, and the status."""
    with session.open("rb") as given:
        child = subprocess.Popen([program, "run"], stdin=given, stdout=subprocess.DEVNULL, stderr=subprocess.DEVNULL)
    resource.prlimit(child.pid, resource.RLIMIT_CPU, (limit, limit + 1))
    _, status, used = os.wait4(child.pid, 0)
    child.returncode = os.waitstatus_to_exitcode(status)
    was_cut = child.returncode in CUT
    return used.ru_utime + used.ru_stime, used.ru_maxrss / 1024, "cut" if was_cut else str(child.returncode)


def main() -> int:
    parser = argparse.ArgumentParser(description="Times the program on long sessions that are dear to read.")
    parser.add_argument("--limit", type=int, default=60, help="seconds of a processor for each session")
    parser.add_argument("--write", type=pathlib.Path, help="a folder that the sessions are written to")
    parser.add_argument("program", help="the built program")
    parser.add_argument("kinds", nargs="*", help="kinds of the table")
    options = parser.parse_args()
    unknown = [kind for kind in options.kinds if kind not in KINDS]
    if unknown:
        parser.error(f"no such kind: {unknown[0]}; the kinds are: {'; '.join(KINDS)}")
    good = True
    print(f"{'session':32} {'seconds':>8} {'MB':>7} {'status':>6}")
    with tempfile.TemporaryDirectory() as folder:
        place = options.write or pathlib.Path(folder)
        place.mkdir(parents=True, exist_ok=True)
        for number, kind in enumerate(options.kinds or KINDS):
            session = place / f"{number:02}.session"
            session.write_text(KINDS[kind]())
            seconds, memory, ended = run(options.program, session, options.limit)
            good = good and ended in ("0", "2")
            print(f"{kind:32} {seconds:8.2f} {memory:7.1f} {ended:>6}", flush=True)
    return 0 if good else 1


if __name__ == "__main__":
    sys.exit(main())
