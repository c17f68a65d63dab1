#!/usr/bin/env python3
"""Times the built program on sessions, and beside it Macaulay2 and Singular on the same questions, where installed.

`bench/run.py [--turns] [--audit] [--page] [--once] [--limit S] [--program PATH] [WORKLOAD ..]`; the workloads are those
of `bench/workloads.py`, all of them where none is named. The program is built by `bin/fjcalc` where none is named. A
time is that of a processor, the least of up to five runs, less that of an empty session or script, so start-up is left
out; below a thousandth of a second it says nothing, and for Singular below a hundredth, where the row says that it was
too short. Macaulay2 starts in a second and answers in thousandths, so its script tells the time from after its packages
on. A ratio is the program's time over the peer's; for `basis` Singular is asked for `liftstd`, which returns cofactors
too, and in a column of its own for `std`, which doesn't. Where a peer has no call for a question (Singular for
Frobenius roots) the ratio is left out, where its answers differ from the program's the row says so, and where it takes
over a minute of a processor, or the limit, it is cut: the ratio is then below what is printed. With `--once` each is
run once. With `--turns` the least budget with which no question is stopped is looked for, by bisection: the number of
turns that the run takes. With `--audit` no peer is asked: beside the seconds stand those that the program takes longer
where its answers are audited, and their ratio. With `--page` the rows are those of docs/PERFORMANCE.md: no times, but
the greatest memory of the program and of Macaulay2 in MB, and how the time grew from the row before.
"""

import argparse
import dataclasses
import os
import pathlib
import resource
import signal
import subprocess
import tempfile
import time

from peers import PEERS, Peer, Unknown
from session import read
from workloads import WORKLOADS

TOP = pathlib.Path(__file__).resolve().parent.parent
ENOUGH = 3.0  # seconds after which a run isn't repeated
LEAST = 1e-4
CLOCK = 0.01  # the step of the clock of a peer that doesn't tell its own time
SMALL = 0.01  # seconds below which a growth says nothing
COUNTED = ("cyclic", "katsura", "quadrics")


class Settings:
    """What the command line sets: the program, how often each session is run, and the limit in seconds of a processor."""

    program = TOP / "crates" / "fjcalc" / "out" / "fjcalc"
    runs = 5
    limit = 60


@dataclasses.dataclass
class Timed:
    """What a command printed, before it was cut too, its least seconds of a processor, whether it was cut, its memory in MB,
    and the seconds below which its time says nothing."""

    lines: list[str]
    seconds: float
    was_cut: bool
    memory: float
    least: float = LEAST

    def less(self, start: float) -> "Timed":
        """The same without start-up."""
        return dataclasses.replace(self, seconds=max(self.seconds - start, LEAST))


def run_once(command: list, text: str) -> Timed:
    # Macaulay2's collector takes several processors where it is let.
    one_thread = os.environ | {"GC_MARKERS": "1", "OMP_NUM_THREADS": "1"}
    with tempfile.TemporaryFile("w+") as asked, tempfile.TemporaryFile("w+") as told:
        asked.write(text)
        asked.seek(0)
        child = subprocess.Popen(command, stdin=asked, stdout=told, stderr=subprocess.DEVNULL, env=one_thread)
        resource.prlimit(child.pid, resource.RLIMIT_CPU, (Settings.limit, Settings.limit))
        _, status, used = os.wait4(child.pid, 0)
        child.returncode = os.waitstatus_to_exitcode(status)
        told.seek(0)
        lines = told.read().splitlines()
    was_cut = child.returncode in (-signal.SIGKILL, -signal.SIGXCPU)
    return Timed(lines, used.ru_utime + used.ru_stime, was_cut, used.ru_maxrss / 1024)


def run(command: list, text: str) -> Timed:
    """The least of some runs."""
    begin = time.perf_counter()
    best = run_once(command, text)
    for _ in range(Settings.runs - 1):
        if best.was_cut or time.perf_counter() - begin > ENOUGH:
            break
        best = min(best, run_once(command, text), key=lambda timed: timed.seconds)
    return best


def answered(workload: str, *words: str) -> Timed:
    """The program on a session, or on the session that it generates."""
    if workload.startswith("gen "):
        return run([Settings.program, *workload.split()], "")
    return run([Settings.program, "run", *words], workload)


def peer_answered(peer: Peer, text: str, start: float) -> Timed | None:
    """The same of a peer, without its start-up, or nothing where it has no call for a question."""
    if text.startswith("gen "):
        return None
    session = read(text)
    try:
        script = peer.script(session)
    except Unknown:
        return None
    timed = run(peer.command, script)
    told = peer.seconds_told(timed.lines)
    if told is None:
        timed = dataclasses.replace(timed.less(start), least=CLOCK)
    else:
        timed = dataclasses.replace(timed, seconds=max(told, LEAST))
    return dataclasses.replace(timed, lines=peer.answers(timed.lines, session))


def turns(session: str) -> int:
    """The least budget with which no question is stopped."""
    first, rest = session.split("\n", 1)
    low, high = 0, 100_000
    while high - low > 1:
        middle = (low + high) // 2
        stops = any("stopped" in line for line in answered(f"{first}\nbudget {middle}\n{rest}").lines)
        low, high = (middle, high) if stops else (low, middle)
    return high


def ratio(there: Timed | None, own: Timed) -> str:
    if there is None:
        return "-"
    if there.seconds < there.least:
        return "too short" + ("" if there.lines == own.lines else " differs")
    quotient = own.seconds / there.seconds
    figure = f"{quotient:.2f}" if quotient >= 0.1 else f"{quotient:.2g}"
    if own.was_cut or there.was_cut:
        return "both cut" if own.was_cut and there.was_cut else (f"> {figure}" if own.was_cut else f"< {figure} cut")
    return figure + ("" if there.lines == own.lines else " differs")


def row(name: str, size: int, text: str, before: float | None, starts: dict[str, float], with_turns: bool) -> float:
    """Prints the row of a session, and hands on the program's seconds."""
    own = answered(text).less(starts[""])
    label = f"{name:<12}{size:>6}"
    growth = f"{own.seconds / before:.1f}" if before else ""
    counts = with_turns and name in COUNTED and not own.was_cut
    count = f"{turns(text):>8}" if counts else (" " * 8 if with_turns else "")
    there = [peer_answered(peer, text, starts[peer.name]) for peer in PEERS if peer.name in starts]
    ratios = "".join(f"{ratio(timed, own):>20}" for timed in there)
    print(f"{label}{own.seconds:>10.4f}{growth:>8}{count}{ratios}{note(own)}", flush=True)
    return own.seconds


def note(own: Timed) -> str:
    return "  cut" if own.was_cut else ("  stopped" if any(": stopped" in line for line in own.lines) else "")


def page_row(name: str, size: int, text: str, before: float | None, starts: dict[str, float], _: bool) -> float:
    """The same as a row of docs/PERFORMANCE.md."""
    own = answered(text).less(starts[""])
    there = [peer_answered(peer, text, starts[peer.name]) for peer in PEERS if peer.name in starts]
    growth = f"{own.seconds / before:.1f}" if before and before > SMALL else ""
    memory = [f"{timed.memory:.0f}" if timed else "-" for timed in [own, *there[:1]]]
    cells = [name, str(size), growth, *[ratio(timed, own) for timed in there], *memory]
    print("| " + " | ".join(cells) + " |" + note(own), flush=True)
    return own.seconds


def audit_row(name: str, size: int, text: str, before: float | None, starts: dict[str, float], _: bool) -> float:
    """The seconds that the program takes longer where its answers are audited, and their ratio to those without."""
    own = answered(text).less(starts[""])
    more = max(answered(text, "audit").seconds - starts[""] - own.seconds, 0.0)
    print(f"{name:<12}{size:>6}{own.seconds:>10.4f}{more:>10.4f}{more / own.seconds:>8.2f}{note(own)}", flush=True)
    return own.seconds


def start_times(is_named: bool) -> dict[str, float]:
    """The seconds of an empty session of the program, under the empty name, and of each peer that is installed."""
    empty = "ring 2 x\n"
    if not is_named:
        subprocess.run([TOP / "bin" / "fjcalc", "run"], input=empty, text=True, check=True)
    starts = {"": answered(empty).seconds}
    for peer in PEERS:
        if peer.is_installed():
            starts[peer.name] = run(peer.command, peer.script(read(empty))).seconds
    return starts


def heading(asked: argparse.Namespace, peers: list[str]) -> str:
    if asked.page:
        names = ["workload", "size", "growth", *[f"to {name}" for name in peers], "MB", *[f"MB of {name}" for name in peers[:1]]]
        return "| " + " | ".join(names) + " |\n" + "|---" * len(names) + "|"
    if asked.audit:
        return f"{'workload':<12}{'size':>6}{'seconds':>10}{'audit':>10}{'ratio':>8}"
    header = f"{'workload':<12}{'size':>6}{'seconds':>10}{'growth':>8}" + ("   turns" if asked.turns else "")
    return header + "".join(f"{'to ' + name:>20}" for name in peers)


def main() -> None:
    parser = argparse.ArgumentParser(description="Times the program on sessions, beside Macaulay2 and Singular.")
    parser.add_argument("workloads", nargs="*", metavar="WORKLOAD")
    parser.add_argument("--turns", action="store_true", help="count the turns of bases")
    parser.add_argument("--audit", action="store_true", help="time what auditing costs, in place of the peers")
    parser.add_argument("--page", action="store_true", help="print the rows of docs/PERFORMANCE.md")
    parser.add_argument("--once", action="store_true", help="run each session once")
    parser.add_argument("--limit", type=int, default=Settings.limit, metavar="S", help="cut a run after so many seconds of a processor")
    parser.add_argument("--program", metavar="PATH", help="the built program; bin/fjcalc builds it where none is named")
    asked = parser.parse_args()
    Settings.runs, Settings.limit = 1 if asked.once else Settings.runs, asked.limit
    Settings.program = asked.program or Settings.program
    starts = start_times(asked.program is not None)
    print(heading(asked, [peer.name for peer in PEERS if peer.name in starts]), flush=True)
    for name, make, sizes in WORKLOADS:
        if asked.workloads and name not in asked.workloads:
            continue
        before = None
        for size in sizes:
            print_row = page_row if asked.page else audit_row if asked.audit else row
            before = print_row(name, size, make(size), before, starts, asked.turns)


if __name__ == "__main__":
    main()
