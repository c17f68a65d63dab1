#!/usr/bin/env python3
"""Refuses each allocation of a session in turn, and tells how the runs end.

`bench/refused.py [--jobs N] [PROGRAM]`: each session below is answered under the words `run audit` once for each number N
of an allocation, and that allocation is refused by a library that is loaded before the program, `bench/refused.c`, which
is built by `cc`. Each run has to end with status 6 and a prefix of the output, or with the whole output. PROGRAM is the
built `fjcalc` where none is named. With `--keep` it is the program of `bench/refused.txt`, whose auditors are one that
fails its second note, one that counts and one that keeps all certificates: it is put beside a copy of the crates, proved
and built by `rt run`, which must be on the path. A table tells for each session how many runs ended in which way, and the
numbers of the first ones that ended otherwise; status 1 is that of such a run.
"""

import argparse
import collections
import concurrent.futures
import itertools
import os
import pathlib
import shutil
import subprocess
import sys
import tempfile

HERE = pathlib.Path(__file__).resolve().parent
TOP = HERE.parent
USED = ["fj_audit", "fj_io", "fj_session"]
BATCH = 256

# Each session with its answers and how many certificates they have, told by hand.
SESSIONS = {
    "limits": (
        "ring 5 x, y\npoly f = x^2+y^3\nask test f 4/5\nask left f 4/5\n",
        "1: (y, x)\n2: (1)\n",
        2,
    ),
    "questions": (
        "ring 2 x, y\npoly f = x^2+y^3\nideal J = (x, y)\nideal K = (x*y)\npoint O = (0, 0)\nlet T = test f 1/2\n"
        "ask parts 1 f\nask member f J\nask same T J\nask sum J K\nask product J K\nask meet J K\nask colon K J\n"
        "ask power 1 J\nask root 1 K\nask isjump f 1/2\nask regular f 1/2\nask jumps f 1\nask nu 1 f J\n"
        "ask threshold f O 1\nask fpure K\nask fpure K O\nask compatible 1 f J\nask split K\norder lex\nask basis T\n",
        "1: part (0,0) = x\n1: part (0,1) = y\n2: yes\n3: yes\n4: (y, x)\n5: (x*y^2, x^2*y)\n6: (x*y)\n7: (x*y)\n"
        "8: (y^2, x^2)\n9: (1)\n10: yes\n11: no\n12: jump 1 = (y^3+x^2)\n12: open (0, 1)\n12: incomplete\n"
        "13: nu 0\n14: between 0 and 1\n15: yes\n16: yes\n17: yes\n18: (1)\n19: (y, x)\n",
        11,
    ),
}

# The auditors of a program that have lines.
OWN = ["recheck", "tally"]
KEEPING = ["tally", "keep"]


def lines_of(auditors: list[str], seen: int) -> str:
    return "".join(f"auditor {name}: seen {seen}, bad 0\n" for name in auditors)


def library(folder: pathlib.Path) -> pathlib.Path:
    """The library that refuses."""
    built = folder / "refused.so"
    subprocess.run(["cc", "-O2", "-shared", "-fPIC", "-o", built, HERE / "refused.c", "-ldl"], check=True)
    return built


def crates_below(used: list[str]) -> dict[str, list[str]]:
    """The crates of the repository that these and those below them stand on, themselves included."""
    below = {}
    for line in (TOP / "crates.txt").read_text().splitlines():
        name, _, wanted = line.partition(":")
        below[name] = wanted.split()
    found = {}
    pending = list(used)
    while pending:
        name = pending.pop()
        if name in below and name not in found:
            found[name] = below[name]
            pending.extend(below[name])
    return found


def keeping_program(folder: pathlib.Path) -> pathlib.Path:
    """The program of `bench/refused.txt`, beside a copy of the crates."""
    crates = crates_below(USED)
    lines = [f"{name}: {' '.join(wanted)}" for name, wanted in crates.items()] + [f"refused: {' '.join(USED)}"]
    for name, part in itertools.product(crates, ["src", "specs", "proofs"]):
        if (TOP / "crates" / name / part).is_dir():
            shutil.copytree(TOP / "crates" / name / part, folder / "crates" / name / part)
    shutil.copy(TOP / "HANDLES", folder)
    (folder / "crates.txt").write_text("\n".join(lines) + "\n")
    crate = folder / "crates" / "refused"
    (crate / "src").mkdir(parents=True)
    shutil.copy(HERE / "refused.txt", crate / "src" / "main.rt")
    subprocess.run(["rt", "run"], cwd=crate, stdin=subprocess.DEVNULL, stdout=subprocess.DEVNULL, check=False)
    return crate / "out" / "refused"


class Tries:
    """The runs of one session."""

    def __init__(self, program: pathlib.Path, loaded: pathlib.Path, folder: pathlib.Path, session: str, output: str):
        self.program, self.loaded, self.folder = program, loaded, folder
        self.session, self.output = session.encode(), output.encode()

    def ended(self, number: int) -> str | None:
        """How the run ended whose allocation of this number was refused, nothing where it has no such allocation."""
        noted = self.folder / f"noted-{number}"
        there = os.environ | {"LD_PRELOAD": str(self.loaded), "REFUSED": str(number), "NOTED": str(noted)}
        done = subprocess.run([self.program, "run", "audit"], input=self.session, env=there, capture_output=True)
        if not noted.exists():
            return None
        noted.unlink()
        if done.returncode == 6 and self.output.startswith(done.stdout):
            return "status 6 and a prefix"
        if done.returncode == 0 and done.stdout == self.output:
            return "the whole output"
        return f"otherwise, with status {done.returncode}"

    def all(self, jobs: int) -> dict[str, list[int]]:
        """The numbers of the refused allocations, by how the runs ended."""
        found = collections.defaultdict(list)
        with concurrent.futures.ThreadPoolExecutor(jobs) as pool:
            for first in itertools.count(1, BATCH):
                numbers = range(first, first + BATCH)
                for number, how in zip(numbers, pool.map(self.ended, numbers)):
                    if how is None:
                        return found
                    found[how].append(number)
        return found


def main() -> int:
    parser = argparse.ArgumentParser(description="Refuses each allocation of a session in turn.")
    parser.add_argument("--jobs", type=int, default=os.cpu_count(), help="how many runs are made side by side")
    parser.add_argument("--keep", action="store_true", help="build the program of bench/refused.txt and try that one")
    parser.add_argument("program", nargs="?", type=pathlib.Path, default=TOP / "crates" / "fjcalc" / "out" / "fjcalc")
    options = parser.parse_args()
    good = True
    with tempfile.TemporaryDirectory() as temporary:
        folder = pathlib.Path(temporary)
        program = keeping_program(folder) if options.keep else options.program.resolve()
        loaded = library(folder)
        for name, (session, output, certificates) in SESSIONS.items():
            whole = output + lines_of(KEEPING if options.keep else OWN, certificates)
            for how, numbers in sorted(Tries(program, loaded, folder, session, whole).all(options.jobs).items()):
                is_good = not how.startswith("otherwise")
                print(f"{name}: {len(numbers)} runs: {how}" + ("" if is_good else f", the first at {numbers[:5]}"), flush=True)
                good &= is_good
    return 0 if good else 1


if __name__ == "__main__":
    sys.exit(main())
