"""What is asked of each polynomial over each prime, as the text of a session."""

import dataclasses

from family import Member

KINDS = ("threshold", "jumps", "fpure")


@dataclasses.dataclass(frozen=True)
class Query:
    """The question: its kind, the variables, and where a threshold or F-purity is asked for.

    A threshold is asked for at the ideal where there is one, else at the point. F-purity is that of the whole quotient
    where there is no point. `digits` is the greatest E to ask with, none where the program's own limit is to decide.
    """

    kind: str
    variables: tuple[str, ...]
    point: tuple[str, ...] | None = None
    ideal: str = ""
    digits: int | None = None
    budget: int | None = None

    @property
    def is_searching(self) -> bool:
        """Whether the question has a number E of digits, which is raised until the answer is whole."""
        return self.kind != "fpure"

    def name(self, wanted: str) -> str:
        """A name near the wanted one that no variable has."""
        while wanted in self.variables:
            wanted += "_"
        return wanted

    def ring(self, prime: str) -> str:
        """The first line of a session."""
        return f"ring {prime} {', '.join(self.variables)}\n"

    def declaration(self, member: Member) -> str:
        """The line that declares a member of the family."""
        if self.kind == "fpure":
            return f"ideal {self.name('J')} = ({member.text})\n"
        return f"poly {self.name('f')} = {member.text}\n"

    def place(self) -> str:
        """The line that declares the point or the ideal, if there is one."""
        if self.ideal:
            return f"ideal {self.name('K')} = ({self.ideal})\n"
        if self.point is not None:
            return f"point {self.name('P')} = ({', '.join(self.point)})\n"
        return ""

    def question(self, digits: int) -> str:
        """The line that asks, with so many digits where the question has them."""
        at = self.name("K") if self.ideal else self.name("P")
        if self.kind == "jumps":
            return f"ask jumps {self.name('f')} {digits}\n"
        if self.kind == "threshold":
            return f"ask threshold {self.name('f')} {at} {digits}\n"
        return f"ask fpure {self.name('J')}" + (f" {at}\n" if self.point is not None else "\n")

    def session(self, prime: str, member: Member, digits: int) -> str:
        """The whole session for one member over one prime."""
        budget = f"budget {self.budget}\n" if self.budget is not None else ""
        return self.ring(prime) + budget + self.declaration(member) + self.place() + self.question(digits)

    def title(self) -> str:
        """What the table has, in words."""
        ring = f"GF(p)[{', '.join(self.variables)}]"
        if self.kind == "jumps":
            return f"F-jumping numbers in (0, 1], in {ring}"
        where = "the origin" if self.point and all(c == "0" for c in self.point) else f"({', '.join(self.point or ())})"
        if self.kind == "threshold":
            return f"F-thresholds at the ideal ({self.ideal}), in {ring}" if self.ideal else f"F-pure thresholds at {where}, in {ring}"
        return f"F-purity of the quotients of {ring}" + (f" at {where}" if self.point is not None else "")
