"""Runs the proved program on sessions, and asks it for a member of a family over a prime."""

import dataclasses
import re
import subprocess

from answers import NotUnderstood, Outcome, Unanswered, read
from family import Member
from query import Query

FAULT = re.compile(r"fault (\w+) at (\d+):(\d+)")
MOST_DIGITS = 64  # more than the program takes for any prime

# What a fault means to somebody who wrote a family and no session.
MEANINGS = {
    "Prime": "the program takes no such prime",
    "Vars": "the program takes no more variables",
    "Taken": "the name stands twice",
    "Unknown": "no variable has this name",
    "Kind": "this can't stand in a polynomial",
    "Syntax": "this can't stand here, or the line ends too early",
    "Byte": "this sign is none of the language",
    "Wide": "the number is too great",
    "Large": "the exponent, or the number of terms or the degree, is too great",
    "Constant": "the polynomial is constant over this field",
    "Arity": "the point needs one number for each variable",
    "Many": "there are too many of these",
    "Range": "the number is outside of its limits",
    "Long": "the session is too long",
}
STATUSES = {
    1: "the program doesn't know the word run",
    4: "the session could not be read",
    5: "the answers could not be written",
    6: "out of memory",
    8: "the program could not be built or run",
}


class ProgramError(Exception):
    """The program could not be run, or failed in a way that no session brings about."""


@dataclasses.dataclass(frozen=True)
class Fault:
    """A fault of a session, with the line of the session that has it."""

    kind: str
    column: int
    line: str
    text: str

    def told(self) -> str:
        """The program's fault line with its meaning, and under it the line of the session with a mark at the place."""
        return f"{self.text} ({MEANINGS.get(self.kind, 'see docs/MANUAL.md')})\n  {self.line}\n  {' ' * (self.column - 1)}^"


@dataclasses.dataclass(frozen=True)
class Program:
    """The program, the greatest time of a session in seconds, if there is one, and whether its own notes are shown."""

    path: str
    seconds: float | None = None

    def run(self, session: str, is_shown: bool = False) -> str | Fault | None:
        """What the program writes for a session, or its fault, or nothing where it was cut at the greatest time."""
        command = [self.path, "run"]
        notes = None if is_shown else subprocess.PIPE
        limit = None if is_shown else self.seconds
        try:
            done = subprocess.run(command, input=session, stdout=subprocess.PIPE, stderr=notes, text=True, timeout=limit)
        except subprocess.TimeoutExpired:
            return None
        except OSError as error:
            raise ProgramError(f"{self.path} does not run: {error.strerror}") from None
        return self.written(session, done)

    def written(self, session: str, done: subprocess.CompletedProcess) -> str | Fault:
        """What a run that ended has written, or the fault that it tells; ProgramError where it failed."""
        if done.returncode in (0, 3):
            return done.stdout
        found = FAULT.match(done.stdout)
        if done.returncode == 2 and found:
            kind, line, column = found[1], int(found[2]), int(found[3])
            return Fault(kind, column, session.split("\n")[line - 1], done.stdout.strip())
        why = STATUSES.get(done.returncode, f"status {done.returncode}")
        raise ProgramError("\n".join([f"{self.path}: {why}", *(done.stderr or "").splitlines()[-5:]]))

    def ask(self, query: Query, prime: str, member: Member) -> Outcome:
        """The answer for a member over a prime, with the least number of digits that settles it, or the greatest that is let."""
        best = None
        most = (query.digits or MOST_DIGITS) if query.is_searching else 1
        for digits in range(1, most + 1):
            found = self.ask_once(query, prime, member, digits)
            if best and isinstance(found.answer, Unanswered):
                is_limit = query.digits is None and found.answer.why == "fault Range"
                return best if is_limit else dataclasses.replace(best, halted=f"{found.answer.why} with {digits} digits")
            best = found
            if best.is_whole or isinstance(best.answer, Unanswered):
                break
        return best

    def ask_once(self, query: Query, prime: str, member: Member, digits: int) -> Outcome:
        """The answer with so many digits."""
        written = self.run(query.session(prime, member, digits))
        if written is None:
            return Outcome(Unanswered(f"cut after {self.seconds:g} s"), digits)
        if isinstance(written, Fault):
            return Outcome(Unanswered(f"fault {written.kind}"), digits)
        try:
            return Outcome(read(written), digits)
        except NotUnderstood as line:
            raise ProgramError(f"{self.path} wrote a line that isn't understood: {line}") from None
