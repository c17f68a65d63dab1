"""Stands for the program in tests: answers the sessions of `stored.txt`, and any session without a question by nothing.

In that file each session is followed by a line `=>` and what the program writes for it, and an empty line ends that.
`examples/check.py` asks the program itself for all of them.
"""

import pathlib
import subprocess

from program import Program

FILE = pathlib.Path(__file__).resolve().parent / "stored.txt"


def stored() -> dict[str, str]:
    """The sessions of the file with what is written for them."""
    pairs = [block.partition("\n=>\n") for block in FILE.read_text().rstrip("\n").split("\n\n")]
    return {session + "\n": answers + "\n" for session, _, answers in pairs}


def status_of(answers: str) -> int:
    if answers.startswith("fault "):
        return 2
    return 3 if ": stopped " in answers else 0


class Stored(Program):
    """The program, as far as the file has its answers; else it fails with status 9."""

    answers = stored()

    def run(self, session: str, is_shown: bool = False):
        found = self.answers.get(session, None if "\nask " in session else "")
        status = 9 if found is None else status_of(found)
        told = f"not stored: {session!r}" if found is None else ""
        return self.written(session, subprocess.CompletedProcess([], status, found or "", told))
