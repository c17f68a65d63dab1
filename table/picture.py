"""The staircase of test ideals as a picture in SVG: F-jumping numbers on the line from 0 to 1, one row a prime."""

import re
from fractions import Fraction
from xml.sax.saxutils import escape

from answers import Jumps, Outcome
from staircase import Gap, Step, levels, staircase
from tables import Grid, cell

LEFT, PLOT, EDGE, TOP = 96, 640, 24, 18
LEAST_RIGHT, MOST_RIGHT = 60, 420
RISE, MOST_HEIGHT = 22, 264  # the height of a level, and of a staircase
SIZE, SMALL = 14, 12
GRID = ["0", "1/4", "1/2", "3/4", "1"]
INK, GREY, PALE, LINE, OPEN = "#1a2530", "#5d6b78", "#d5dbe1", "#1f5f99", "#b4521c"
LIGHT, DARK = (226, 238, 248), (126, 176, 216)  # the first level and the last
STYLE = f"""
text {{ font-family: "STIX Two Text", "Latin Modern Roman", "Liberation Serif", "Times New Roman", serif; fill: {INK}; }}
.v {{ font-style: italic; }}
.ideal {{ stroke: #ffffff; stroke-width: 3px; stroke-opacity: 0.7; paint-order: stroke; }}
"""


def spans(text: str, size: int) -> str:
    """A polynomial or an ideal in the mathematics of SVG: variables slanted, exponents raised, no signs of multiplication."""
    made, raised = [], False
    for caret, word, number, sign in re.findall(r"(\^)?(?:([A-Za-z_]\w*)|(\d+)|(.))", text.replace("*", "")):
        shift = -0.38 * size if caret else (0.38 * size if raised else 0)
        raised = bool(caret)
        small = f' font-size="{0.72 * size:.1f}"' if caret else ""
        moved = f' dy="{shift:.1f}"' if shift else ""
        slanted = ' class="v"' if word else ""
        body = word or number or {"+": " + ", "-": " − ", ",": ","}.get(sign, sign)
        made.append(f'<tspan{moved}{small}{slanted} xml:space="preserve">{escape(body)}</tspan>' if moved or small or slanted else escape(body))
    return "".join(made)


def name_spans(name: str, size: int) -> str:
    """The name of a member, a number after a low line set as an index."""
    found = re.fullmatch(r"(\w+?)_(\d+)(.*)", name)
    if not found:
        return escape(name)
    index = f'<tspan dy="{0.2 * size:.1f}" font-size="{0.72 * size:.1f}">{found[2]}</tspan>'
    return f'{escape(found[1])}{index}<tspan dy="{-0.2 * size:.1f}">{escape(found[3])}\N{ZERO WIDTH SPACE}</tspan>'


def width(text: str, size: int) -> float:
    """About how wide a polynomial or an ideal is when it is drawn, rather too wide than too narrow."""
    total = 0.0
    for caret, body in re.findall(r"(\^\d+)|([^*])", text):
        total += 0.38 * (len(caret) - 1) if caret else {"+": 1.15, "-": 1.15, "(": 0.38, ")": 0.38, ",": 0.3, " ": 0.3}.get(body, 0.53)
    return total * size


def x_of(t: Fraction) -> float:
    return LEFT + PLOT * float(t)


def words(x: float, y: float, body: str, size: int = SIZE, anchor: str = "start", fill: str = "", extra: str = "") -> str:
    """A text; its body is markup."""
    colour = f' style="fill:{fill}"' if fill else ""
    return f'<text x="{x:.1f}" y="{y:.1f}" font-size="{size}" text-anchor="{anchor}" xml:space="preserve"{colour}{extra}>{body}</text>'


def stroke(x1: float, y1: float, x2: float, y2: float, colour: str, weight: float = 1, dashes: str = "") -> str:
    dashed = f' stroke-dasharray="{dashes}"' if dashes else ""
    return f'<line x1="{x1:.1f}" y1="{y1:.1f}" x2="{x2:.1f}" y2="{y2:.1f}" stroke="{colour}" stroke-width="{weight}"{dashed}/>'


def box(x: float, y: float, wide: float, high: float, fill: str) -> str:
    return f'<rect x="{x:.1f}" y="{y:.1f}" width="{wide:.1f}" height="{high:.1f}" fill="{fill}"/>'


def dot(x: float, y: float, is_closed: bool) -> str:
    return f'<circle cx="{x:.1f}" cy="{y:.1f}" r="3.2" fill="{LINE if is_closed else "#ffffff"}" stroke="{LINE}" stroke-width="1.4"/>'


def shade(level: int, count: int) -> str:
    """The fill under a step: the darker, the smaller its ideal."""
    part = level / max(1, count - 1)
    return "#" + "".join(f"{round(low + part * (high - low)):02x}" for low, high in zip(LIGHT, DARK))


def spread(places: list[float], apart: list[float], low: float, high: float) -> list[float] | None:
    """Places near these, rising, each as far from the one before as is asked for; nothing where they have no room."""
    if sum(apart) > high - low:
        return None
    moved = list(places)
    for i in range(1, len(moved)):
        moved[i] = max(moved[i], moved[i - 1] + apart[i])
    over = high
    for i in reversed(range(len(moved))):
        moved[i] = min(moved[i], over)
        over = moved[i] - apart[i]
    return moved


class Row:
    """The drawing of one prime: a staircase with its numbers under it, or the words in its place."""

    def __init__(self, prime: str, outcome: Outcome, right: float):
        self.prime, self.outcome, self.right = prime, outcome, right
        self.parts = staircase(outcome.answer) if isinstance(outcome.answer, Jumps) else []
        self.count = levels(self.parts) if self.parts else 2
        self.rise = min(RISE, MOST_HEIGHT / max(1, self.count - 1))
        self.high = self.rise * (self.count - 1)
        self.height = SIZE + 8 + self.high + 52

    def y_of(self, level: int) -> float:
        return self.top + SIZE + 8 + self.rise * level

    def draw(self, top: float) -> list[str]:
        """The row with its upper edge here."""
        self.top, self.base = top, top + SIZE + 8 + self.high + 8
        middle = (self.y_of(0) + self.base) / 2
        made = [words(LEFT - 22, middle + 2, f'<tspan class="v">p</tspan> = {self.prime}', 15, "end")]
        if not self.parts:
            why = escape(cell(self.outcome))
            return made + [words(x_of(Fraction(1, 2)), middle + 5, why, SIZE, "middle", OPEN), self.axis()]
        state = "complete" if self.outcome.answer.is_complete else "incomplete"
        made.append(words(LEFT - 22, middle + 17, state, 11, "end", GREY if state == "complete" else OPEN))
        if self.outcome.halted:
            made.append(words(LEFT - 22, middle + 30, escape(self.outcome.halted.split(" with")[0]), 10, "end", OPEN))
        for part in self.parts:
            made += self.gap(part) if isinstance(part, Gap) else self.step(part)
        return made + [self.axis()] + self.dots() + self.labels() + self.numbers()

    def axis(self) -> str:
        return stroke(LEFT, self.base, LEFT + PLOT, self.base, GREY)

    def step(self, part: Step) -> list[str]:
        """A step with the fill under it, and the line down to it from the one before."""
        x1, x2, y = x_of(part.low), x_of(part.high), self.y_of(part.level)
        made = [box(x1, y, x2 - x1, self.base - y, shade(part.level, self.count))] if x2 > x1 else []
        dashes = "" if part.ideal else "3 3"
        made.append(stroke(x1, y, x2, y, LINE, 2.2, dashes))
        return made + ([stroke(x1, self.y_of(part.level - 1), x1, self.base, LINE, 1, "2 2")] if part.begins else [])

    def gap(self, part: Gap) -> list[str]:
        """An open gap, hatched from the level before it down to the axis."""
        x1, x2 = x_of(part.low), max(x_of(part.high), x_of(part.low) + 3)
        return [box(x1, self.y_of(part.level), x2 - x1, self.base - self.y_of(part.level), "url(#open)")]

    def dots(self) -> list[str]:
        """A closed dot where a step begins with a number of the list, an open one where the step before it ends."""
        made = []
        for before, part in zip([None, *self.parts], self.parts):
            if isinstance(part, Step) and part.begins:
                if isinstance(before, Step):
                    made.append(dot(x_of(part.low), self.y_of(part.level - 1), False))
                made.append(dot(x_of(part.low), self.y_of(part.level), True))
        return made

    def labels(self) -> list[str]:
        """The ideals on their steps, where there is room; each is told where the pointer rests, too."""
        made = []
        for part in self.parts:
            if isinstance(part, Gap) or not part.ideal:
                continue
            x, long = x_of(part.low) + 7, width(part.ideal, SIZE)
            room = self.right - x if self.rise > SIZE + 1 else x_of(part.high) - x
            if long <= room:
                made.append(words(x, self.y_of(part.level) - 7, spans(part.ideal, SIZE), extra=' class="ideal"'))
        return made

    def numbers(self) -> list[str]:
        """The F-jumping numbers and the ends of open gaps under the axis, moved apart where they are close."""
        marked: dict[Fraction, tuple[str, str]] = {}
        for part in self.parts:
            for end in part.ends if isinstance(part, Gap) else ():
                marked.setdefault(Fraction(end), (end, OPEN))
        for part in self.parts:
            if isinstance(part, Step) and part.begins:
                marked[part.low] = (part.begins, INK)
        marked.pop(Fraction(0), None)
        at = sorted(marked)
        return self.marks(at, [marked[t] for t in at])

    def marks(self, at: list[Fraction], texts: list[tuple[str, str]]) -> list[str]:
        """A mark on the axis for each number, and its text where all of them have room."""
        wide = [0.5 * SMALL * len(text) + 10 for text, _ in texts]
        apart = [0.0] + [(before + after) / 2 for before, after in zip(wide, wide[1:])]
        places = spread([x_of(t) for t in at], apart, LEFT, LEFT + PLOT + 24)
        made = [stroke(x_of(t), self.base, x_of(t), self.base + 5, colour) for t, (_, colour) in zip(at, texts)]
        if places is None:
            return made + [words(LEFT + PLOT / 2, self.base + 24, f"{len(at)} numbers, too close to be written", SMALL, "middle", GREY)]
        for t, place, (text, colour) in zip(at, places, texts):
            made.append(stroke(x_of(t), self.base + 5, place, self.base + 13, PALE if abs(place - x_of(t)) < 1 else GREY, 0.8))
            made.append(words(place, self.base + 25, text, SMALL, "middle", colour))
        return made


def lines_of_grid(top: float, bottom: float) -> list[str]:
    """The quarters of the line, as faint lines with their numbers above."""
    made = [stroke(x_of(Fraction(t)), top, x_of(Fraction(t)), bottom, PALE) for t in GRID]
    return made + [words(x_of(Fraction(t)), top - 6, t, 11, "middle", GREY) for t in GRID]


def legend(top: float) -> list[str]:
    """What the signs mean."""
    made = [dot(LEFT + 4, top, True), words(LEFT + 16, top + 4, "the test ideal from this number on", SMALL)]
    made += [dot(LEFT + 222, top, False), words(LEFT + 234, top + 4, "before this number", SMALL)]
    made += [box(LEFT + 352, top - 7, 26, 14, "url(#open)"), words(LEFT + 386, top + 4, "open gap: the test ideal falls inside,", SMALL)]
    made.append(words(LEFT + 386, top + 19, "at numbers that are not in the list", SMALL))
    bar = [box(LEFT + 7 * i, top + 14, 7, 10, shade(i, 4)) for i in range(4)]
    made += bar + [words(LEFT + 36, top + 23, "the darker, the smaller", SMALL)]
    made.append(stroke(LEFT + 222 - 4, top + 19, LEFT + 222 + 8, top + 19, LINE, 2.2, "3 3"))
    return made + [words(LEFT + 234, top + 23, "ideal not told", SMALL)]


def right_margin(grid: Grid) -> float:
    """The room to the right of 1 that the ideals want."""
    wanted = [LEAST_RIGHT]
    for _, _, outcome in grid.pairs():
        parts = staircase(outcome.answer) if isinstance(outcome.answer, Jumps) else []
        wanted += [x_of(part.low) + 14 + width(part.ideal, SIZE) - LEFT - PLOT for part in parts if isinstance(part, Step)]
    return min(MOST_RIGHT, max(wanted))


def panel(grid: Grid, place: int, top: float, right: float) -> tuple[list[str], float]:
    """The rows of one member under its name, and where they end."""
    member = grid.members[place]
    name = f'<tspan font-weight="bold">{name_spans(member.name, 17)}</tspan>,  ' if member.name else ""
    made = [words(EDGE, top + 20, name + spans(member.text, 17), 17)]
    rows = [Row(prime, outcome, right) for prime, outcome in zip(grid.primes, grid.outcomes[place])]
    first = top + 56
    made += lines_of_grid(first, first + sum(row.height for row in rows) - 36)
    at = first
    for row in rows:
        made += row.draw(at)
        at += row.height
    return made, at + 6


def picture(grid: Grid) -> str:
    """The picture of a grid of lists: a panel for each member, a row for each prime."""
    margin = right_margin(grid)
    whole = LEFT + PLOT + margin + EDGE
    made, at = [], TOP
    for place in range(len(grid.members)):
        drawn, at = panel(grid, place, at, LEFT + PLOT + margin)
        made += drawn
    made += legend(at + 12)
    high = at + 48
    hatch = f'<pattern id="open" width="6" height="6" patternUnits="userSpaceOnUse" patternTransform="rotate(45)">'
    hatch += f'<rect width="6" height="6" fill="#fbeee6"/><line x1="0" y1="0" x2="0" y2="6" stroke="{OPEN}" stroke-width="2"/></pattern>'
    head = f'<svg xmlns="http://www.w3.org/2000/svg" width="{whole:.0f}" height="{high:.0f}" viewBox="0 0 {whole:.0f} {high:.0f}">'
    title = f"<title>Test ideals and {escape(grid.query.title())}</title>"
    return "\n".join([head, title, f"<style>{STYLE}</style><defs>{hatch}</defs>", box(0, 0, whole, high, "#ffffff"), *made, "</svg>"]) + "\n"
