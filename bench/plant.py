#!/usr/bin/env python3
"""Tries wrong bodies in each crate by `rt plant`, and prints what the contracts let through, in one table.

`bench/plant.py` takes all crates of crates.txt in turn, lowest first, and `bench/plant.py NAME..` these alone. The command
`rt` of the Rattle toolchain must be on the path. It works on a copy in a temporary folder; `--minutes N` and `--max N` are
those of `rt plant`, for each crate. Nothing of it is part of the gate.

A row counts functions with a body and a clause on what they give (functions), wrong bodies that were refused (refused),
wrong or equal bodies that meet the contract and have to be looked at (proves), functions without such a clause
(no-ensures), functions none of whose bodies that give up could be judged (untested), and bodies that weren't judged (not
judged). Below the table stand the lines of `rt plant` on the second, third and fourth of these.
"""

import argparse
import pathlib
import re
import shutil
import subprocess
import sys
import tempfile

ROOT = pathlib.Path(__file__).resolve().parent.parent
TOLD = ("proves", "no-ensures", "untested")
NOT_JUDGED = ("elsewhere", "not-judged", "not-source", "not-run")
COLUMNS = ("functions", "refused", "proves", "no-ensures", "untested", "not judged")


def crates() -> list[str]:
    """The crates of crates.txt, each behind those that it stands on."""
    lines = [line for line in (ROOT / "crates.txt").read_text().splitlines() if ":" in line and not line.startswith("#")]
    below = {line.split(":")[0].split()[0]: line.split(":")[1].split() for line in lines}
    order: list[str] = []

    def visit(name: str) -> None:
        if name in below and name not in order:
            for low in below[name]:
                visit(low)
            order.append(name)

    for name in below:
        visit(name)
    return order


def copy_of_repository(folder: pathlib.Path) -> None:
    """Copies what a check reads, and not what earlier checks kept."""
    for name in ("crates.txt", "HANDLES"):
        if (ROOT / name).exists():
            shutil.copy(ROOT / name, folder)
    for name in crates():
        shutil.copytree(ROOT / "crates" / name, folder / "crates" / name, ignore=shutil.ignore_patterns("out"))


def plant(crate: pathlib.Path, options: list[str]) -> tuple[dict[str, int] | None, list[str]]:
    """The counts of `rt plant` in a crate, None where it gave none, and its lines on what has to be looked at."""
    run = subprocess.run(["rt", "plant", *options], cwd=crate, stdout=subprocess.PIPE, stderr=subprocess.STDOUT, text=True)
    lines = run.stdout.splitlines()
    last = [line for line in lines if line.startswith("plants crate=")]
    if not last:
        return None, lines[-5:]
    counts = {name: int(number) for name, number in re.findall(r"([a-z-]+)=(\d+)", last[-1])}
    return counts, [line for line in lines if line.startswith(TOLD)]


def row(counts: dict[str, int]) -> list[int]:
    """The counts in the order of the columns."""
    rest = sum(counts.get(kind, 0) for kind in NOT_JUDGED)
    return [counts.get("planted-in", 0), *(counts.get(kind, 0) for kind in ("refused", *TOLD)), rest]


def main() -> int:
    parser = argparse.ArgumentParser(description="Tries wrong bodies in each crate, and prints one table.")
    parser.add_argument("names", nargs="*", metavar="NAME", help="a crate of crates.txt; none: each")
    parser.add_argument("--minutes", type=int, default=10, help="for each crate, after its check (10)")
    parser.add_argument("--max", type=int, default=400, help="bodies tried in each crate (400)")
    asked = parser.parse_args()
    every = crates()
    for name in asked.names:
        if name not in every:
            parser.error(f"crates.txt has no {name}")
    names = [name for name in every if name in asked.names] or every
    options = ["--minutes", str(asked.minutes), "--max", str(asked.max)]
    told = []
    failed = False
    print("| Crate | " + " | ".join(COLUMNS) + " |")
    print("|---|" + "---|" * len(COLUMNS), flush=True)
    with tempfile.TemporaryDirectory() as folder:
        copy_of_repository(pathlib.Path(folder))
        for name in names:
            counts, lines = plant(pathlib.Path(folder) / "crates" / name, options)
            failed = failed or counts is None
            cells = [str(number) for number in row(counts)] if counts else ["no count"] * len(COLUMNS)
            print(f"| {name} | " + " | ".join(cells) + " |", flush=True)
            told += [f"{name}: {line}" for line in lines]
    for line in told:
        print(line)
    return 1 if failed else 0


if __name__ == "__main__":
    sys.exit(main())
