"""Tables and pictures of many polynomials over many primes, from answers of the proved program: see `options.py`."""

import concurrent.futures
import pathlib
import sys

import options
from answers import Outcome, Unanswered
from family import Member
from picture import picture
from program import Fault, Program, ProgramError
from tables import Grid, table


class Refused(Exception):
    """A fault that no table can stand beside: of the primes, the variables, the place or a polynomial."""


def checked(program: Program, session: str, what: str, is_shown: bool = False) -> None:
    """Runs a session without a question, and refuses where it has a fault."""
    found = program.run(session, is_shown)
    if isinstance(found, Fault):
        raise Refused(f"{what}: {found.told()}")


def check(program: Program, asked: options.Request) -> None:
    """Refuses a request with a fault in its ring, its place or the text of its polynomials, before anything is asked.

    The first session builds the program where it isn't built yet, and its notes are shown.
    """
    for place, prime in enumerate(asked.primes):
        checked(program, asked.query.ring(prime), f"the ring over GF({prime})", place == 0)
        checked(program, asked.query.ring(prime) + asked.query.place(), f"the place over GF({prime})")
    for member in asked.family:
        session = asked.query.ring(asked.primes[0]) + asked.query.declaration(member)
        checked(program, session, f"the polynomial {member.label}")


def show_progress(done: int, whole: int) -> None:
    if sys.stderr.isatty():
        print(f"\rfjcalc-table: {done} of {whole}", end="\n" if done == whole else "", file=sys.stderr, flush=True)


def answer_all(program: Program, asked: options.Request) -> Grid:
    """Asks for each member over each prime, some side by side."""
    pairs: list[tuple[Member, str]] = [(member, prime) for member in asked.family for prime in asked.primes]
    with concurrent.futures.ThreadPoolExecutor(asked.jobs) as pool:
        waiting = [pool.submit(program.ask, asked.query, prime, member) for member, prime in pairs]
        try:
            for done, ended in enumerate(concurrent.futures.as_completed(waiting), 1):
                ended.result()
                show_progress(done, len(pairs))
        except BaseException:
            pool.shutdown(cancel_futures=True)
            raise
    found = [one.result() for one in waiting]
    wide = len(asked.primes)
    return Grid(asked.query, asked.family, asked.primes, [found[i : i + wide] for i in range(0, len(found), wide)])


def status_of(outcomes: list[Outcome]) -> int:
    """2 where a session has a fault, 3 where an answer is a stop or was cut, else 0."""
    why = [outcome.answer.why for outcome in outcomes if isinstance(outcome.answer, Unanswered)]
    why += [outcome.halted for outcome in outcomes if outcome.halted]
    if any(word.startswith("fault ") for word in why):
        return 2
    return 3 if why else 0


def run(words: list[str], program_of: type[Program]) -> int:
    """The same, where nothing is wrong."""
    asked = options.read(words)
    program = program_of(asked.program, asked.seconds)
    check(program, asked)
    grid = answer_all(program, asked)
    sys.stdout.write(table(grid, asked.form, asked.layout))
    if asked.svg:
        pathlib.Path(asked.svg).write_text(picture(grid))
    return status_of([outcome for _, _, outcome in grid.pairs()])


def main(words: list[str], program: type[Program] = Program) -> int:
    """Does what the command line asks for, tells what is wrong where something is, and answers the status."""
    try:
        return run(words, program)
    except options.UsageError as error:
        status = 1, error
    except Refused as error:
        status = 2, error
    except ProgramError as error:
        status = 8, error
    except OSError as error:
        status = 8, f"{error.filename}: {error.strerror}"
    except KeyboardInterrupt:
        status = 130, "ended"
    print(f"fjcalc-table: {status[1]}", file=sys.stderr)
    return status[0]


if __name__ == "__main__":
    sys.exit(main(sys.argv[1:]))
