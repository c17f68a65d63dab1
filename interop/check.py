#!/usr/bin/env python3
"""Runs the Macaulay2 calls of `interop/fjcalc.m2` beside those of Macaulay2's own packages, and compares the answers.

`interop/check.py [PROGRAM]`; the program is bin/fjcalc where none is named. The comparisons stand in `interop/examples.m2`.
Where Macaulay2 isn't installed, a line says that nothing was run.
"""

import os
import pathlib
import shutil
import subprocess
import sys

TOP = pathlib.Path(__file__).resolve().parent.parent
LEAST = 20
SECONDS = 600


def main() -> int:
    if shutil.which("M2") is None:
        print("interop: not run, since there is no Macaulay2")
        return 0
    program = pathlib.Path(sys.argv[1] if len(sys.argv) > 1 else TOP / "bin" / "fjcalc").resolve()
    command = ["M2", "--script", "interop/examples.m2"]
    named = os.environ | {"FJCALC_PROGRAM": str(program)}
    done = subprocess.run(command, cwd=TOP, env=named, stdin=subprocess.DEVNULL, stdout=subprocess.PIPE, text=True, timeout=SECONDS)
    lines = done.stdout.splitlines()
    agreed = sum(line.startswith("agrees: ") for line in lines)
    print(*[line for line in lines if not line.startswith("agrees: ")], sep="\n", end="\n" if agreed < len(lines) else "")
    print(f"interop: {agreed} agree, {len(lines) - agreed} lines are others, status {done.returncode}")
    return 0 if done.returncode == 0 and agreed == len(lines) and agreed >= LEAST else 1


if __name__ == "__main__":
    sys.exit(main())
