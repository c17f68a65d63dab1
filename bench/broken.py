#!/usr/bin/env python3
"""Runs the program on sessions that are broken at random: cut, joined and changed bytes of those in `examples`.

`bench/broken.py [--count N] [--seed S] [--limit SECONDS] [--keep FOLDER] PROGRAM`: PROGRAM is the built program, as
`crates/fjcalc/out/fjcalc`, or `bin/fjcalc`. N sessions are made, 10,000 where no count is given, always the same for
one seed. Each has to end within the limit with status 0, 2 or 3 and write nothing on standard error; with status 2 it has
to write the line of one fault alone, and with 0 and 3 the answers of questions, numbered from 1. Budgets and exponents
are kept low, so that what is read is answered soon. The last line counts the statuses; the status of the script is 1
where a session ended otherwise, and that session is written to the folder of `--keep`.
"""

import argparse
import collections
import concurrent.futures
import os
import pathlib
import random
import re
import subprocess
import sys

TOP = pathlib.Path(__file__).resolve().parent.parent
KINDS = "Long Byte Syntax NoRing Prime Vars Taken Unknown Kind Wide Large Constant Arity Many Range".split()
FAULT = re.compile(rf"fault ({'|'.join(KINDS)}) at ([1-9]\d*):([1-9]\d*)\n")
ANSWERS = re.compile(r"(?:[1-9]\d*: [^\n]+\n)*")
STOPPED = re.compile(r"^\d+: stopped (?:pairs|high)$", re.MULTILINE)
WORDS = ("ring order budget poly ideal point ask grevlex grlex lex parts basis member same sum product meet colon power "
         "root test left isjump regular jumps nu threshold fpure split compatible x y z f J P 0 1 2 5 7 1000 1001 "
         "65536 4294967295 4294967296 = , ( ) + - * ^ / # \n \t \r").split(" ")
LONGEST = 400


def gallery() -> list[bytes]:
    return [session.read_bytes() for session in sorted((TOP / "examples").glob("*.session"))]


def piece(chance: random.Random, session: bytes) -> bytes:
    """Some lines of a session that stand together, with its first statement before them more often than not."""
    lines = session.splitlines(keepends=True)
    first = chance.choice((0, 0, chance.randrange(len(lines))))
    some = b"".join(lines[first : first + chance.randint(1, 8)])
    ring = next((line for line in lines if line.startswith(b"ring")), b"")
    return (ring if chance.random() < 0.8 else b"") + some


def change(chance: random.Random, text: bytearray) -> None:
    """One byte, word or run of bytes is changed, left out, doubled or put in."""
    place = chance.randrange(len(text) + 1)
    after = min(len(text), place + chance.choice((1, 1, 1, 2, 5, 40)))
    match chance.randrange(7):
        case 0:
            text[place:after] = bytes([chance.randrange(256)])
        case 1:
            text[place:after] = b""
        case 2:
            text[place:place] = text[place:after]
        case 3:
            text[place:place] = bytes([chance.randrange(256)])
        case 4:
            text[place:place] = chance.choice(WORDS).encode()
        case 5:
            text[place:after] = b" " + chance.choice(WORDS).encode() + b" "
        case 6:
            other = chance.randrange(len(text) + 1)
            text[place:after] = text[other : other + after - place]


def broken(seed: int, number: int, sessions: list[bytes]) -> bytes:
    """The session of this number: pieces joined, then changed at some places, or cut."""
    chance = random.Random(seed * 1_000_003 + number)
    joined = b"".join(piece(chance, chance.choice(sessions)) for _ in range(chance.choice((1, 1, 1, 2, 3))))
    text = bytearray(joined[:LONGEST])
    for _ in range(chance.choice((0, 0, 1, 1, 1, 2, 3, 8))):
        change(chance, text)
    if chance.random() < 0.2:
        del text[chance.randrange(len(text) + 1) :]
    return cheap(bytes(text))


def cheap(text: bytes) -> bytes:
    """The same with a low budget from the second line on, so that no question takes long."""
    lines = text.split(b"\n")
    if lines[0].startswith(b"ring "):
        lines[1:1] = [b"budget 200"]
    return b"\n".join(lines)


def complaint(done: subprocess.CompletedProcess, session: bytes) -> str:
    """What is wrong with how the program ended, and nothing where all is well."""
    if done.stderr:
        return f"standard error: {done.stderr[:200]!r}"
    try:
        written = done.stdout.decode("ascii")
    except UnicodeDecodeError:
        return "bytes that are no ASCII were written"
    if done.returncode == 2:
        fault = FAULT.fullmatch(written)
        if not fault:
            return f"no fault line: {written[:200]!r}"
        lines = session.split(b"\n")
        line, column = int(fault[2]), int(fault[3])
        there = line <= len(lines) and column <= len(lines[line - 1]) + 1
        return "" if there else f"a fault outside the session: {written!r}"
    if done.returncode not in (0, 3):
        return f"status {done.returncode}"
    if not ANSWERS.fullmatch(written):
        return f"no answers: {written[:200]!r}"
    is_stopped = STOPPED.search(written) is not None
    return "" if is_stopped == (done.returncode == 3) else f"status {done.returncode} with: {written[:200]!r}"


def tried(program: str, session: bytes, limit: float) -> tuple[str, str]:
    """The status, or the fault's kind, and the complaint."""
    try:
        done = subprocess.run([program, "run"], input=session, capture_output=True, timeout=limit)
    except subprocess.TimeoutExpired:
        return "cut", f"still running after {limit} seconds"
    kind = done.stdout.decode("ascii", "replace").split(" ")[1] if done.stdout.startswith(b"fault ") else ""
    return f"{done.returncode} {kind}".strip(), complaint(done, session)


def main() -> int:
    parser = argparse.ArgumentParser(description="Runs the program on sessions that are broken at random.")
    parser.add_argument("--count", type=int, default=10_000, help="how many sessions")
    parser.add_argument("--seed", type=int, default=1, help="which sessions")
    parser.add_argument("--limit", type=float, default=20, help="seconds for each session")
    parser.add_argument("--keep", type=pathlib.Path, help="a folder for the sessions that ended otherwise")
    parser.add_argument("program", help="the built program")
    options = parser.parse_args()
    sessions = gallery()
    counts: collections.Counter[str] = collections.Counter()
    bad = 0
    made = (broken(options.seed, number, sessions) for number in range(options.count))

    def one(session: bytes) -> tuple[bytes, str, str]:
        return session, *tried(options.program, session, options.limit)

    with concurrent.futures.ThreadPoolExecutor(min(4, os.cpu_count() or 1)) as pool:
        for number, (session, status, wrong) in enumerate(pool.map(one, made)):
            counts[status] += 1
            if not wrong:
                continue
            bad += 1
            print(f"session {number}: {wrong}")
            if options.keep:
                options.keep.mkdir(parents=True, exist_ok=True)
                (options.keep / f"{number}.session").write_bytes(session)
    for status, count in sorted(counts.items()):
        print(f"{count:7} {status}")
    print(f"broken sessions: {options.count - bad} passed, {bad} failed")
    return 1 if bad or not options.count else 0


if __name__ == "__main__":
    sys.exit(main())
