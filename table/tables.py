"""Tables of outcomes as text, CSV, LaTeX and Markdown."""

import csv
import dataclasses
import io
import re
import textwrap

from answers import Answer, Between, Jumps, Outcome, Threshold, Unanswered, Word
from family import Member
from query import Query
from text import latex_math, latex_name, latex_text, markdown_code

FORMATS = ("text", "csv", "latex", "markdown")
WIDTH, LINE = 26, 88  # of a cell with a list in plain text at least, and of all of them together

NOTES = {
    "between": "between a and b: the threshold lies inside this gap, and isn't a fraction with so few digits.",
    "open": "open (a, b): inside this gap there are F-jumping numbers that aren't fractions with so few digits.",
    "incomplete": "incomplete: the list lacks the F-jumping numbers inside its open gaps.",
    "stopped": "stopped: a basis that the answer needs passes the budget (pairs) or the degree 2^40 (high); nothing is said.",
    "cut": "cut: the session took longer than it was let; nothing is said.",
    "fault Constant": "fault Constant: the polynomial is constant over this field.",
    "fault Range": "fault Range: the program doesn't take so many digits, or so great a budget.",
    "fault Large": "fault Large: over this field the polynomial passes the program's limits.",
    "off": "off: the point isn't a zero.",
    "notin": "notin: the polynomial isn't in the ideal.",
    "unit": "unit: the ideal is the whole ring.",
}


@dataclasses.dataclass(frozen=True)
class Grid:
    """The outcomes of a family over primes, `outcomes[i][j]` that of member i over prime j."""

    query: Query
    members: list[Member]
    primes: list[str]
    outcomes: list[list[Outcome]]

    @property
    def has_names(self) -> bool:
        return any(member.name for member in self.members)

    def pairs(self):
        """Each member and prime with its outcome, the primes changing fastest."""
        for member, row in zip(self.members, self.outcomes):
            for prime, outcome in zip(self.primes, row):
                yield member, prime, outcome


def pieces(answer: Answer) -> list[str]:
    """The pieces of a cell: numbers, and words that say what else is told."""
    match answer:
        case Threshold(at):
            return [at]
        case Between(low, high):
            return [f"between {low} and {high}"]
        case Word(word) | Unanswered(word):
            return [word]
        case Jumps(jumps, gaps, is_complete):
            numbers = [", ".join(jump.at for jump in jumps)] if jumps else []
            opened = ["open " + ", ".join(f"({gap.low}, {gap.high})" for gap in gaps)] if gaps else []
            return numbers + opened + ([] if is_complete else ["incomplete"])


def told(outcome: Outcome) -> list[str]:
    """The same, with why the search was ended early."""
    return pieces(outcome.answer) + ([outcome.halted] if outcome.halted else [])


def cell(outcome: Outcome) -> str:
    """The text of a cell."""
    return "; ".join(told(outcome))


def notes(grid: Grid) -> list[str]:
    """The notes that the cells need."""
    words = [piece for _, _, outcome in grid.pairs() for piece in told(outcome)]
    return [note for start, note in NOTES.items() if any(word.startswith(start) for word in words)]


def steps(outcome: Outcome) -> list[tuple[str, str]]:
    """The rows of a long table for one list: each number with its test ideal, and what else is told, with none."""
    if not isinstance(outcome.answer, Jumps):
        return [(word, "") for word in told(outcome)]
    rows = [(jump.at, jump.ideal) for jump in outcome.answer.jumps]
    others = dataclasses.replace(outcome, answer=dataclasses.replace(outcome.answer, jumps=()))
    return rows + [(word, "") for word in told(others)]


@dataclasses.dataclass(frozen=True)
class Style:
    """How a format writes primes, names, polynomials and cells."""

    prime: str
    name: object
    math: object
    number: object


def plain(text: str) -> str:
    return text


def latex_number(text: str) -> str:
    """The text of a cell: fractions and gaps in mathematics, words as they are."""
    found = re.split(r"(\([\d/]+, [\d/]+\)|\d+(?:/\d+)?)", text)
    return "".join(f"${piece}$" if place % 2 else latex_text(piece) for place, piece in enumerate(found))


STYLES = {
    "text": Style("p = {}", plain, plain, plain),
    "latex": Style("$p={}$", latex_name, lambda text: f"${latex_math(text)}$", latex_number),
    "markdown": Style("p = {}", lambda text: text.replace("|", "\\|"), markdown_code, plain),
}


def member_cells(grid: Grid, member: Member, style: Style) -> list[str]:
    """The cells that say which member a row or a column is on."""
    return ([style.name(member.name)] if grid.has_names else []) + [style.math(member.text)]


def head_cells(grid: Grid, style: Style) -> list[str]:
    what = "J" if grid.query.kind == "fpure" else "f"
    return (["name"] if grid.has_names else []) + [style.math(what)]


def wide(grid: Grid, style: Style) -> list[list[str]]:
    """A row for each member and a column for each prime, with a head."""
    rows = [head_cells(grid, style) + [style.prime.format(prime) for prime in grid.primes]]
    for member, outcomes in zip(grid.members, grid.outcomes):
        cells = [style.number(cell(outcome)) for outcome in outcomes]
        rows.append(member_cells(grid, member, style) + cells)
    return rows


def tall(grid: Grid, style: Style) -> list[list[str]]:
    """A row for each prime and a column for each member, with a head."""
    rows = [["prime"] + [": ".join(filter(None, [style.name(m.name), style.math(m.text)])) for m in grid.members]]
    for place, prime in enumerate(grid.primes):
        cells = [style.number(cell(row[place])) for row in grid.outcomes]
        rows.append([style.prime.format(prime), *cells])
    return rows


def long(grid: Grid, style: Style) -> list[list[str]]:
    """A row for each F-jumping number with its test ideal, with a head."""
    rows = [head_cells(grid, style) + ["prime", style.math("t"), "test ideal"]]
    for member, prime, outcome in grid.pairs():
        for at, ideal in steps(outcome):
            rows.append(member_cells(grid, member, style) + [prime, style.number(at), style.math(ideal) if ideal else ""])
    return rows


def wrap(text: str, width: int) -> list[str]:
    """The lines of a long cell; a gap isn't broken."""
    whole = re.sub(r"(\([\d/]+,) ", "\\1\N{NO-BREAK SPACE}", text)
    return [line.replace("\N{NO-BREAK SPACE}", " ") for line in textwrap.wrap(whole, width, break_long_words=False)]


def text_table(rows: list[list[str]], is_wrapped: bool) -> str:
    """Columns of plain text, with long cells of lists wrapped."""
    made, width = [], max(WIDTH, LINE // len(rows[0]))
    for row in rows:
        wrapped = [wrap(text, width) if is_wrapped and place else [text] for place, text in enumerate(row)]
        made += [[lines[i] if i < len(lines) else "" for lines in wrapped] for i in range(max(1, *map(len, wrapped)))]
    widths = [max(len(row[place]) for row in made) for place in range(len(rows[0]))]
    lines = ["   ".join(text.ljust(width) for text, width in zip(row, widths)).rstrip() for row in made]
    head = 1
    return "\n".join(lines[:head] + ["-" * (sum(widths) + 3 * (len(widths) - 1))] + lines[head:]) + "\n"


def markdown_table(rows: list[list[str]]) -> str:
    lines = ["| " + " | ".join(row) + " |" for row in rows]
    return "\n".join([lines[0], "|" + "---|" * len(rows[0]), *lines[1:]]) + "\n"


def latex_table(rows: list[list[str]]) -> str:
    lines = [" & ".join(row) + r" \\" for row in rows]
    begin = [f"\\begin{{tabular}}{{{'l' * len(rows[0])}}}", r"\toprule", lines[0], r"\midrule"]
    return "\n".join(["% needs \\usepackage{booktabs}", *begin, *lines[1:], r"\bottomrule", r"\end{tabular}"]) + "\n"


def csv_rows(member: Member, prime: str, outcome: Outcome) -> list[list[str]]:
    """The rows of one answer: the kind of each, its numbers and its ideal in columns of their own."""
    head = [member.name, member.text, prime, str(outcome.digits)]
    match outcome.answer:
        case Threshold(at):
            rows = [["threshold", at, "", ""]]
        case Between(low, high):
            rows = [["between", low, high, ""]]
        case Word(word):
            rows = [[word, "", "", ""]]
        case Unanswered(why):
            rows = [[why, "", "", ""]]
        case Jumps(jumps, gaps, is_complete):
            rows = [["jump", jump.at, "", jump.ideal] for jump in jumps]
            rows += [["open", gap.low, gap.high, ""] for gap in gaps]
            rows.append(["complete" if is_complete else "incomplete", "", "", ""])
    if outcome.halted:
        rows.append([outcome.halted, "", "", ""])
    return [head + row for row in rows]


def csv_table(grid: Grid) -> str:
    """One row for each line of an answer, whatever the layout."""
    made = io.StringIO()
    writer = csv.writer(made, lineterminator="\n")
    writer.writerow(["name", "polynomial", "prime", "digits", "kind", "number", "to", "ideal"])
    for member, prime, outcome in grid.pairs():
        writer.writerows(csv_rows(member, prime, outcome))
    return made.getvalue()


def table(grid: Grid, form: str, layout: str) -> str:
    """The table in one of FORMATS, with its title and the notes that it needs."""
    if form == "csv":
        return csv_table(grid)
    rows = {"wide": wide, "tall": tall, "long": long}[layout](grid, STYLES[form])
    told = notes(grid)
    if form == "text":
        return "\n".join([grid.query.title(), "", text_table(rows, grid.query.kind == "jumps" and layout != "long")] + told).rstrip("\n") + "\n"
    if form == "markdown":
        return "\n".join([grid.query.title() + ".", "", markdown_table(rows)] + [f"- {note}" for note in told]).rstrip("\n") + "\n"
    return "".join(f"% {line}\n" for line in [grid.query.title(), *told]) + latex_table(rows)
