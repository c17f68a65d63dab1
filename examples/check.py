#!/usr/bin/env python3
"""Runs the built program on every example of the documents and of this folder, and compares what it writes.

`examples/check.py [PROGRAM]`; the program is crates/fjcalc/out/fjcalc where none is named. The examples are

- each NAME.session of this folder, with the answers NAME.answers;
- in README.md and docs/MANUAL.md each block marked `session`, with the next block marked `answers`, and each block
  marked `sh` that such a block follows, which is run at the top of the repository with the program for `bin/fjcalc`;
- in docs/MANUAL.md each row of a table with a session in one cell, its lines parted by a return sign, and what the
  program writes in the next;
- the rows of rows.json: words, a session, the status and what is written, of every kind of question and of fault;
- the sessions of table/tests/stored.txt, whose answers the tests of bin/fjcalc-table stand on.

The status has to be the one that the manual tells: 2 after a fault, 3 where an answer is a stop. The tests of
bin/fjcalc-table are run too.
"""

import json
import pathlib
import re
import subprocess
import sys

HERE = pathlib.Path(__file__).resolve().parent
TOP = HERE.parent
SECONDS = 60

sys.path[:0] = [str(TOP / "table"), str(TOP / "table" / "tests")]

from stored import stored

LINES = r"(?:(?!```)[^\n]*\n)*"
BLOCKS = re.compile(rf"^```(session|sh)\n({LINES})```\n{LINES}```answers\n({LINES})```$", re.MULTILINE)
ROWS = re.compile(r"^\|.*\| `([^`|]*⏎[^`|]*)` \| `([^`|]*)` \|$", re.MULTILINE)


def with_program(command: str, program: str) -> str:
    """A command of a document, with this program for bin/fjcalc."""
    return re.sub(r"bin/fjcalc(-table)?", lambda found: f"{found[0]} --program {program}" if found[1] else program, command)


def status_of(answers: str) -> int:
    if answers.startswith("fault "):
        return 2
    return 3 if re.search(r"^\d+: stopped \w+$", answers, re.MULTILINE) else 0


def examples(program: str):
    """Each example: where it stands, the command, its input, and what it has to write."""
    answering = [program, "run"]
    for session in sorted(HERE.glob("*.session")):
        yield session.name, answering, session.read_text(), session.with_suffix(".answers").read_text()
    for document in [TOP / "README.md", TOP / "docs" / "MANUAL.md"]:
        text = document.read_text()
        for block in BLOCKS.finditer(text):
            kind, asked, answers = block.groups()
            where = f"{document.name}, line {text.count(chr(10), 0, block.start()) + 1}"
            command = ["bash", "-c", with_program(asked, program)]
            yield (where, answering, asked, answers) if kind == "session" else (where, command, "", answers)
        for row in ROWS.finditer(text):
            where = f"{document.name}, line {text.count(chr(10), 0, row.start()) + 1}"
            lines = [line.strip() for line in row[1].split("⏎")]
            yield where, answering, "\n".join(lines) + "\n", row[2] + "\n"
    for session, answers in stored().items():
        yield "table/tests/stored.txt, " + " / ".join(session.splitlines()), answering, session, answers


def rows_agree(program: str) -> tuple[int, int]:
    """How many rows of rows.json the program answers as they say, and how many not."""
    passed = failed = 0
    for row in json.loads((HERE / "rows.json").read_text()):
        asked = row["session"].encode("latin-1")
        done = subprocess.run([program, *row["words"]], input=asked, capture_output=True, timeout=SECONDS)
        if (done.stdout, done.returncode) == (row["output"].encode("latin-1"), row["status"]):
            passed += 1
            continue
        failed += 1
        print(f"row {row}: status {done.returncode}\n--- written\n{done.stdout!r}")
    return passed, failed


def run(command: list[str], asked: str) -> tuple[str, int | str]:
    """What the command writes, and its status."""
    try:
        done = subprocess.run(command, cwd=TOP, input=asked, capture_output=True, text=True, timeout=SECONDS)
    except subprocess.TimeoutExpired:
        return "", f"none after {SECONDS} seconds"
    return done.stdout, done.returncode


def main() -> None:
    program = str(pathlib.Path(sys.argv[1] if len(sys.argv) > 1 else TOP / "crates" / "fjcalc" / "out" / "fjcalc").resolve())
    passed = failed = 0
    for where, command, asked, answers in examples(program):
        written, status = run(command, asked)
        if (written, status) == (answers, status_of(answers)):
            passed += 1
            continue
        failed += 1
        print(f"{where}: status {status}, wanted {status_of(answers)}\n--- written\n{written}--- wanted\n{answers}")
    good, bad = rows_agree(program)
    passed, failed = passed + good, failed + bad
    print(f"examples: {passed} passed, {failed} failed", flush=True)
    tests = subprocess.run([sys.executable, "-B", TOP / "table" / "tests" / "test_table.py"])
    sys.exit(1 if failed or not passed else tests.returncode)


if __name__ == "__main__":
    main()
