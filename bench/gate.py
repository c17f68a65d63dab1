#!/usr/bin/env python3
"""Measures what the gate costs: for each crate its lines, and the minutes of one processor for proof, tests and edits.

`bench/gate.py` takes all crates of crates.txt in turn, lowest first, and `bench/gate.py NAME..` these alone. The command
`rt` of the Rattle toolchain must be on the path. It works on a copy in a temporary folder, and the table that it prints is
that of docs/MAP.md.

Lines are those of src without tests, of specs, of proofs and of tests. Minutes are those that the processors were busy, on
all of them together, with everything proved from nothing: for a crate without its tests, for its tests, and for its
must-fail edits. `rt ci` proves the same; beside that it builds and runs tests and programs, which isn't counted here.
"""

import argparse
import pathlib
import re
import resource
import shutil
import subprocess
import sys
import tempfile

from plant import ROOT, copy_of_repository, crates

COLUMNS = ("src", "specs", "proofs", "tests", "min. proof", "min. tests", "min. edits")
TESTS = re.compile(r"#\[cfg\(test\)\]\n(?:pub )?mod (\w+)( \{|;)\n?")


def below(name: str) -> list[str]:
    """The crates of the repository that a crate stands on, lowest first."""
    wanted = {}
    for line in (ROOT / "crates.txt").read_text().splitlines():
        if ":" in line and not line.startswith("#"):
            head, tail = line.split(":", 1)
            wanted[head.split()[0]] = tail.split()
    found = set(wanted[name])
    for low in reversed(crates()):
        if low in found:
            found.update(wanted[low])
    return [low for low in crates() if low in found]


def remove_tests(crate: pathlib.Path) -> None:
    """Takes the modules of tests and their proofs out of a copy of a crate."""
    for file in list((crate / "src").rglob("*.rt")):
        if not file.exists():
            continue
        text = file.read_text()
        inside = file.parent if file.stem in ("lib", "main") else file.parent / file.stem
        while found := TESTS.search(text):
            shutil.rmtree(crate / "proofs" / inside.relative_to(crate / "src") / found[1], ignore_errors=True)
            if found[2] == ";":
                (inside / f"{found[1]}.rt").unlink(missing_ok=True)
                shutil.rmtree(inside / found[1], ignore_errors=True)
                text = text[: found.start()] + text[found.end() :]
            else:
                # (a module of tests that stands in its file ends it)
                text = text[: found.start()]
        file.write_text(text.rstrip("\n") + "\n")


def lines(folder: pathlib.Path, pattern: str) -> int:
    return sum(len(file.read_text().splitlines()) for file in folder.rglob(pattern))


def minutes(words: list[str], folder: pathlib.Path) -> float | None:
    """The minutes that a command kept processors busy, None where it failed."""
    before = resource.getrusage(resource.RUSAGE_CHILDREN)
    run = subprocess.run(words, cwd=folder, stdout=subprocess.PIPE, stderr=subprocess.STDOUT, text=True)
    after = resource.getrusage(resource.RUSAGE_CHILDREN)
    if run.returncode != 0:
        print(f"{' '.join(words)} in {folder.name}:", *run.stdout.splitlines()[-5:], sep="\n", file=sys.stderr)
        return None
    return (after.ru_utime + after.ru_stime - before.ru_utime - before.ru_stime) / 60


def quietly(words: list[str], folder: pathlib.Path) -> None:
    subprocess.run(words, cwd=folder, stdout=subprocess.DEVNULL, stderr=subprocess.DEVNULL)


def measured(room: pathlib.Path, name: str) -> list[str]:
    """The cells of a crate's row. The libraries below it are built before the clock runs, and its tests are gone after."""
    crate = room / "crates" / name
    for low in below(name):
        quietly(["rt", "lib"], room / "crates" / low)
    has_tests = any("#[test]" in file.read_text() for file in (crate / "src").rglob("*.rt"))
    whole = lines(crate / "src", "*.rt")
    both = minutes(["rt", "verdict"], crate) if has_tests else None
    edits = 0.0
    if (crate / "must-fail").exists():
        quietly(["rt", "check"], crate)
        edits = minutes(["rt", "must-fail", "--anew", name], room)
    remove_tests(crate)
    own = lines(crate / "src", "*.rt")
    proof = minutes(["rt", "verdict"], crate)
    tests = 0.0
    if has_tests:
        tests = None if both is None or proof is None else max(both - proof, 0.0)
    counts = [own, lines(crate / "specs", "*.antt"), lines(crate / "proofs", "*.antt"), whole - own]
    times = ["failed" if time is None else f"{time:.1f}" for time in (proof, tests, edits)]
    return [*map(str, counts), *times]


def main() -> int:
    parser = argparse.ArgumentParser(description="Measures what the gate costs, crate by crate.")
    parser.add_argument("names", nargs="*", metavar="NAME", help="a crate of crates.txt; none: each")
    asked = parser.parse_args()
    every = crates()
    for name in asked.names:
        if name not in every:
            parser.error(f"crates.txt has no {name}")
    print("| Crate | " + " | ".join(COLUMNS) + " |")
    print("|---|" + "---|" * len(COLUMNS), flush=True)
    failed = False
    with tempfile.TemporaryDirectory() as folder:
        room = pathlib.Path(folder)
        copy_of_repository(room)
        for name in [name for name in every if name in asked.names] or every:
            cells = measured(room, name)
            failed = failed or "failed" in cells
            print(f"| {name} | " + " | ".join(cells) + " |", flush=True)
    return 1 if failed else 0


if __name__ == "__main__":
    sys.exit(main())
