#!/usr/bin/env python3
"""Tries how `bin/fjcalc` ends where its input or output fails: the status, and at most one line on standard error.

`bench/ends.py [PROGRAM]`; PROGRAM is `bin/fjcalc` where none is named. It has to be built. Each row of the table has
the status that the manual names, the one that came, and what was written on standard error.
"""

import os
import pathlib
import pty
import signal
import subprocess
import sys
import tempfile
import time
from typing import Callable

TOP = pathlib.Path(__file__).resolve().parent.parent
SESSION = b"ring 5 x, y\nideal J = (x)\nask basis J\n"
FAULTY = b"ring 4 x\n"
STOPPED = b"ring 5 x, y, z\nbudget 1\nideal J = (x^2*y+1, x*y^2+z, y*z)\nask basis J\n"
SECONDS = 60
Ended = tuple[int, str]


def ended(command: list[str], **streams) -> Ended:
    """The status of a command with these streams, and what it wrote on standard error."""
    quiet = {"stdout": subprocess.DEVNULL, "stderr": subprocess.PIPE} | streams
    done = subprocess.run(command, timeout=SECONDS, **quiet)
    return done.returncode, done.stderr.decode("utf-8", "replace")


def with_input(session: bytes) -> Callable[[str], Ended]:
    return lambda program: ended([program, "run"], input=session)


def with_words(*words: str) -> Callable[[str], Ended]:
    return lambda program: ended([program, *words], input=b"")


def full_disk(program: str) -> Ended:
    with open("/dev/full", "wb") as full:
        return ended([program, "run"], input=SESSION, stdout=full)


def closed_pipe(program: str) -> Ended:
    """The output is a pipe that nobody reads."""
    reading, writing = os.pipe()
    os.close(reading)
    try:
        return ended([program, "run"], input=SESSION, stdout=writing)
    finally:
        os.close(writing)


def redirected(streams: str) -> Callable[[str], Ended]:
    """The streams are redirected by the shell, and closed ones are really closed."""
    return lambda program: ended(["bash", "-c", f'exec "$0" run {streams}', program], input=SESSION)


def directory(program: str) -> Ended:
    place = os.open("/", os.O_RDONLY)
    try:
        return ended([program, "run"], stdin=place)
    finally:
        os.close(place)


def write_only(program: str) -> Ended:
    """The input is a file that is open for writing alone, so that it can't be read."""
    with tempfile.NamedTemporaryFile() as file:
        place = os.open(file.name, os.O_WRONLY)
        try:
            return ended([program, "run"], stdin=place)
        finally:
            os.close(place)


def terminal(program: str) -> Ended:
    """A session is typed at a terminal, and ended by the end of input."""
    own, other = pty.openpty()
    with subprocess.Popen([program, "run"], stdin=other, stdout=subprocess.DEVNULL, stderr=subprocess.PIPE) as child:
        os.close(other)
        os.write(own, SESSION + b"\x04")
        _, errors = child.communicate(timeout=SECONDS)
    os.close(own)
    return child.returncode, errors.decode("utf-8", "replace")


def descendants(parent: int) -> list[int]:
    children = pathlib.Path(f"/proc/{parent}/task/{parent}/children").read_text().split()
    return [int(child) for child in children]


def killed(program: str) -> Ended:
    """The program itself is killed while it waits for its input."""
    pipe = subprocess.PIPE
    with subprocess.Popen([program, "run"], stdin=pipe, stdout=subprocess.DEVNULL, stderr=pipe) as child:
        until = time.monotonic() + SECONDS / 2
        while not (inner := descendants(child.pid)) and time.monotonic() < until:
            time.sleep(0.1)
        time.sleep(1)
        inner = descendants(child.pid)
        os.kill(inner[0] if inner else child.pid, signal.SIGKILL)
        _, errors = child.communicate(timeout=SECONDS)
    return child.returncode, errors.decode("utf-8", "replace")


# What is tried, the status that is wanted, and whether a line on standard error is wanted.
ROWS: list[tuple[str, int, bool, Callable[[str], Ended]]] = [
    ("a session", 0, False, with_input(SESSION)),
    ("no word", 1, False, with_words()),
    ("other words", 1, False, with_words("walk")),
    ("a fault", 2, False, with_input(FAULTY)),
    ("a stop", 3, False, with_input(STOPPED)),
    ("no input", 2, False, with_input(b"")),
    ("a terminal as input", 0, False, terminal),
    ("a directory as input", 4, True, directory),
    ("an input that can't be read", 4, True, write_only),
    ("a closed input", 4, True, redirected("<&-")),
    ("a full disk", 5, True, full_disk),
    ("a pipe that nobody reads", 5, True, closed_pipe),
    ("a closed output", 5, True, redirected(">&-")),
    ("a closed standard error", 0, False, redirected("2>&-")),
    ("a killed program", 137, True, killed),
]


def main() -> int:
    program = str(pathlib.Path(sys.argv[1] if len(sys.argv) > 1 else TOP / "bin" / "fjcalc").resolve())
    failed = 0
    for what, wanted, is_told, attempt in ROWS:
        try:
            status, errors = attempt(program)
        except subprocess.TimeoutExpired:
            status, errors = -1, "no end\n"
        good = status == wanted and errors.count("\n") == (1 if is_told else 0)
        failed += not good
        print(f"{'ok ' if good else 'BAD'} {what:28} {status:4} {wanted:4}  {errors.strip()}")
    print(f"ends: {len(ROWS) - failed} passed, {failed} failed")
    return 1 if failed else 0


if __name__ == "__main__":
    sys.exit(main())
