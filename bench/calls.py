#!/usr/bin/env python3
"""Times the calls `mul`, `pow` and `parts` alone, without sessions, and prints a table.

`bench/calls.py` builds the program that stands in `bench/program.txt` beside a copy of the crates, in a temporary folder,
and runs it for each row. The command `rt` of the Rattle toolchain must be on the path. With a folder as its argument
it builds there, and finds the program again in a later run.

A row's time is the least of five runs, by a clock: other work on the machine makes it longer. The growth is that of
the time from the row before, and the last column that of N log N, for the number N of terms worked on: for `parts` the
two should be near each other.
"""

import math
import pathlib
import shutil
import subprocess
import sys
import tempfile

HERE = pathlib.Path(__file__).resolve().parent
USED = ["fj_coeff", "fj_mono", "fj_poly", "fj_root"]
RUNS = 5

# Each workload with its sizes, and what a term is that was worked on.
WORKLOADS = [
    ("mul-dense", [10, 100, 316, 1000], "products of two terms, most of which have the monomial of another"),
    ("mul-sparse", [10, 100, 316, 1000], "products of two terms, hardly two of which have one monomial"),
    ("pow", [12, 168, 1000, 2196], "terms of the power of x+y+1 with this exponent"),
    ("parts-1", [10**3, 10**4, 10**5, 10**6], "terms, at e = 1"),
    ("parts-3", [10**3, 10**4, 10**5, 10**6], "terms, at e = 3"),
]


def crates_below(used: list[str]) -> dict[str, list[str]]:
    """The crates of the repository that these and those below them stand on, themselves included."""
    below = {}
    for line in (HERE.parent / "crates.txt").read_text().splitlines():
        name, _, wanted = line.partition(":")
        below[name] = wanted.split()
    found = {}
    pending = list(used)
    while pending:
        name = pending.pop()
        if name in below and name not in found:
            found[name] = below[name]
            pending.extend(below[name])
    return found


def build(folder: pathlib.Path) -> pathlib.Path:
    """Copies the crates and the program into the folder, and builds the program."""
    (folder / "crates").mkdir(parents=True, exist_ok=True)
    shutil.copy(HERE.parent / "HANDLES", folder)
    crates = crates_below(USED)
    lines = [f"{name}: {' '.join(wanted)}" for name, wanted in crates.items()]
    lines.append(f"bench: {' '.join(USED)} anyhow")
    (folder / "crates.txt").write_text("\n".join(lines) + "\n")
    for name in crates:
        for part in ["src", "specs", "proofs"]:
            source = HERE.parent / "crates" / name / part
            target = folder / "crates" / name / part
            shutil.rmtree(target, ignore_errors=True)
            if source.is_dir():
                shutil.copytree(source, target)
    bench = folder / "crates" / "bench"
    (bench / "src").mkdir(parents=True, exist_ok=True)
    shutil.copy(HERE / "program.txt", bench / "src" / "main.rt")
    print("proving and building; the first time this takes some minutes", file=sys.stderr)
    built = subprocess.run(["rt", "run", "--", "pow", "1"], cwd=bench, capture_output=True, text=True)
    program = bench / "out" / "bench"
    if built.returncode != 0 or not program.exists():
        sys.exit(f"the program was not built:\n{built.stdout[-2000:]}{built.stderr[-2000:]}")
    return program


def measure(program: pathlib.Path, workload: str, size: int) -> tuple[int, int, float]:
    """The terms worked on, the terms of the answer, and the least time in seconds."""
    best = math.inf
    for _ in range(RUNS):
        printed = subprocess.run([program, workload, str(size)], capture_output=True, text=True, check=True).stdout
        worked, answer, micros = (int(word) for word in printed.split())
        best = min(best, micros / 1e6)
    return worked, answer, best


def print_table(program: pathlib.Path) -> None:
    print(f"{'workload':<12}{'size':>9}{'worked on':>11}{'answer':>9}{'seconds':>11}{'terms/s':>13}{'growth':>9}{'N log N':>9}")
    for workload, sizes, _ in WORKLOADS:
        before = None
        for size in sizes:
            worked, answer, seconds = measure(program, workload, size)
            growth = ""
            law = ""
            if before is not None:
                growth = f"{seconds / before[1]:.1f}"
                law = f"{worked * math.log(worked) / (before[0] * math.log(before[0])):.1f}"
            print(f"{workload:<12}{size:>9}{worked:>11}{answer:>9}{seconds:>11.6f}{worked / seconds:>13.0f}{growth:>9}{law:>9}")
            before = (worked, seconds)
    print()
    for workload, _, meaning in WORKLOADS:
        print(f"{workload}: worked on are {meaning}")


def main() -> None:
    if len(sys.argv) > 1:
        print_table(build(pathlib.Path(sys.argv[1]).resolve()))
        return
    with tempfile.TemporaryDirectory() as folder:
        print_table(build(pathlib.Path(folder)))


if __name__ == "__main__":
    main()
