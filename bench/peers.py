"""Macaulay2 and Singular on the questions of a session, where they are installed.

Each peer writes a script with the same questions, runs it, and answers what it printed in the texts of fjcalc, so that
answers can be compared. A question that a peer has no call for makes the whole session one that it doesn't answer.
"""

import dataclasses
import shutil

from session import Question, Session, printed, printed_ideal, terms_of

YES_OR_NO = ["member", "same", "isjump", "regular", "fpure", "compatible"]


class Unknown(Exception):
    """The peer has no call for the question."""


class Peer:
    name = ""
    command: list[str] = []
    orders: dict[str, str] = {}

    def is_installed(self) -> bool:
        return shutil.which(self.command[0]) is not None

    def script(self, session: Session) -> str:
        raise NotImplementedError

    def seconds_told(self, output: list[str]) -> float | None:
        """The time that the script told, if it does."""
        told = [line.removeprefix("seconds @ ") for line in output if line.startswith("seconds @ ")]
        return float(told[0]) if told else None

    def answers(self, output: list[str], session: Session) -> list[str]:
        """The lines `k @ text` of the output in the texts of fjcalc."""
        texts: dict[int, list[str]] = {}
        for line in output:
            number, mark, text = line.partition(" @ ")
            if mark and number.strip().isdigit():
                texts.setdefault(int(number), []).append(text.strip())
        return [
            f"{question.number}: {self.answer(question, text, session)}"
            for question in session.questions
            for text in texts.get(question.number, ["?"])
        ]

    def answer(self, question: Question, text: str, session: Session) -> str:
        """One line of an answer, for a text of the peer: a list of polynomials, a truth value, a number or words."""
        kind = question.words[0]
        if text == "?":
            return "nothing"
        if kind in YES_OR_NO:
            return "yes" if text in ("true", "1") else "no"
        if kind == "nu":
            return "notin" if text == "infinity" else f"nu {text}"
        if kind == "threshold":
            return text if text.startswith("between") else f"threshold {text}"
        if kind == "parts":
            return f"part ({','.join('0' * len(session.variables))}) = {printed(terms_of(text, session, question.order), session)}"
        at, mark, members = text.rpartition(" = ")
        if kind == "jumps" and not mark:
            return text
        members = [member for member in members.strip("{}").split(",") if member.strip()]
        return at + mark + printed_ideal(members, session, question.order)


# Macaulay2's users look for jumping numbers and thresholds among the candidates, the fractions with so many digits.
CANDIDATES = """
candidates = (p, E) -> sort unique flatten flatten for b from 1 to E list for c from 0 to E - b list
  for m from 1 to p^c*(p^b - 1) list m/(p^c*(p^b - 1));
changes = (f, at, i, j, I, J) -> if I == J then {} else if j == i + 1 then {(at#j, J)} else (
  k := (i + j)//2; K := testIdeal(at#k, f); changes(f, at, i, k, I, K) | changes(f, at, k, j, K, J));
printJumps = (number, f, E) -> (at := {0/1} | candidates(char ring f, E); last := #at - 1;
  found := changes(f, at, 0, last, ideal 1_(ring f), testIdeal(at#last, f));
  jumps := select(found, c -> isFJumpingExponent(c#0, f));
  scan(jumps, c -> print(number | " @ jump " | toString(c#0) | " = " | toString flatten entries gens gb c#1));
  print(number | " @ " | if #jumps == #found then "complete" else "incomplete"));
threshold = (f, J, E) -> (at := {0/1} | candidates(char ring f, E); i := 0; j := #at - 1;
  while j - i > 1 do (k := (i + j)//2; if isSubset(testIdeal(at#k, f), J) then j = k else i = k);
  if isFJumpingExponent(at#j, f) then toString(at#j) else "between " | toString(at#i) | " and " | toString(at#j));
"""


def without_low_lines(session: Session) -> Session:
    """The session with names that Macaulay2 doesn't take for a name with an index."""
    named = lambda values: {name.replace("_", "'"): value for name, value in values.items()}
    asked = [dataclasses.replace(q, words=[word.replace("_", "'") for word in q.words]) for q in session.questions]
    return dataclasses.replace(
        session,
        polynomials=named(session.polynomials),
        ideals=named(session.ideals),
        points=named(session.points),
        lets={name: [word.replace("_", "'") for word in words] for name, words in named(session.lets).items()},
        questions=asked,
    )


class Macaulay2(Peer):
    name = "Macaulay2"
    command = ["M2", "--silent", "--no-readline", "--no-prompts", "-q", "-e", "", "/dev/stdin"]
    orders = {"grevlex": "GRevLex", "grlex": "GLex", "lex": "Lex"}

    def ideal_of(self, words: list[str], session: Session) -> str:
        match words:
            case ["basis", j]:
                return f"i{j}"
            case ["sum", j, k]:
                return f"(i{j} + i{k})"
            case ["product", j, k]:
                return f"(i{j} * i{k})"
            case ["meet", j, k]:
                return f"intersect(i{j}, i{k})"
            case ["colon", j, k]:
                return f"(i{j} : i{k})"
            case ["power", e, j]:
                return f"(ideal apply(flatten entries gens i{j}, g -> g^{session.prime ** int(e)}))"
            case ["root", e, j]:
                return f"(frobeniusRoot({e}, i{j}))"
            case ["test", f, t]:
                return f"(testIdeal({fraction(t)}, p{f}))"
            case ["split", j]:
                return f"(frobeniusRoot(1, frobenius(1, i{j}) : i{j}))"
        raise Unknown(words[0])

    def value(self, question: Question, session: Session) -> str:
        """The answer to a question that isn't an ideal."""
        match question.words:
            case ["member", f, j]:
                return f"(p{f} % i{j}) == 0"
            case ["same", j, k]:
                return f"i{j} == i{k}"
            case ["parts", "0", f]:
                return f"p{f}"
            case ["isjump", f, t]:
                return f"isFJumpingExponent({fraction(t)}, p{f})"
            case ["regular", f, t]:
                return f"isFRegular({fraction(t)}, p{f})"
            case ["nu", e, f, j]:
                return f"frobeniusNu({e}, p{f}, i{j})"
            case ["fpure", j]:
                return f"isFPure(i{j})"
            case ["fpure", j, at] if all(int(c) == 0 for c in session.points[at]):
                return f"isFPure(i{j}, AtOrigin => true)"
            case ["compatible", e, u, j]:
                return f"isSubset(frobeniusRoot({e}, ideal(p{u}) * i{j}), i{j})"
            case ["threshold", f, j, e] if j in session.ideals or j in session.lets:
                return f"threshold(p{f}, i{j}, {e})"
            case ["threshold", f, at, _] if all(int(c) == 0 for c in session.points[at]):
                return f"fpt p{f}"
        inside = f"S{question.order}"
        return f"flatten entries gens gb sub({self.ideal_of(question.words, session)}, {inside})"

    def question(self, question: Question, session: Session) -> str:
        if question.words[0] == "jumps":
            _, f, e = question.words
            return f'printJumps("{question.number}", p{f}, {e}); flush stdio;'
        return f'print("{question.number} @ " | toString({self.value(question, session)})); flush stdio;'

    def script(self, session: Session) -> str:
        session = without_low_lines(session)
        names = ",".join(session.variables)
        lines = ['needsPackage "TestIdeals";', 'needsPackage "FrobeniusThresholds";', CANDIDATES, "began = cpuTime();"]
        for order, word in self.orders.items():
            if order != "grevlex" and any(q.order == order for q in session.questions):
                lines.append(f"S{order} = ZZ/{session.prime}[{names}, MonomialOrder => {word}];")
        lines.append(f"Sgrevlex = ZZ/{session.prime}[{names}, MonomialOrder => GRevLex];")
        lines += [f"p{name} = {value} + 0_Sgrevlex;" for name, value in session.polynomials.items()]
        lines += [f"i{name} = ideal({', '.join(f'({g}) + 0_Sgrevlex' for g in gens)});" for name, gens in session.ideals.items()]
        lines += [f"i{name} = {self.ideal_of(words, session)};" for name, words in session.lets.items()]
        lines += [self.question(question, session) for question in session.questions]
        lines.append('print("seconds @ " | toString(cpuTime() - began)); exit 0')
        return "\n".join(lines) + "\n"


def fraction(ratio: str) -> str:
    """A fraction as Macaulay2 reads it, whole numbers too."""
    return ratio if "/" in ratio else f"{ratio}/1"


class Singular(Peer):
    name = "Singular"
    command = ["Singular", "-q", "--no-tty", "--no-rc"]
    orders = {"grevlex": "dp", "grlex": "Dp", "lex": "lp"}

    def basis(self, ideal: str, number: int) -> list[str]:
        """The basis of an ideal of the ring that is set, with cofactors."""
        return [f"matrix t{number}; ideal a{number} = liftstd({ideal}, t{number});", f"a{number} = interred(a{number});"]

    def ideal_of(self, words: list[str], session: Session) -> str:
        match words:
            case ["basis", j]:
                return f"i{j}"
            case ["sum", j, k]:
                return f"i{j} + i{k}"
            case ["product", j, k]:
                return f"i{j} * i{k}"
            case ["meet", j, k]:
                return f"intersect(i{j}, i{k})"
            case ["colon", j, k]:
                return f"quotient(i{j}, i{k})"
            case ["power", e, j]:
                q = session.prime ** int(e)
                return ", ".join(f"i{j}[{n + 1}]^{q}" for n in range(len(session.ideals[j])))
        raise Unknown(words[0])

    def question(self, question: Question, session: Session) -> list[str]:
        match question.words:
            case ["member", f, j]:
                return [f'print("{question.number} @ " + string(reduce(p{f}, std(i{j})) == 0));']
            case ["same", j, k]:
                inside = f"size(reduce(i{j}, std(i{k}))) + size(reduce(i{k}, std(i{j}))) == 0"
                return [f'print("{question.number} @ " + string({inside}));']
            case ["parts", "0", f]:
                return [f'print("{question.number} @ " + string(p{f}));']
            case ["basis", j]:
                n = question.number
                moved = [f"setring S{question.order};", f"ideal b{n} = imap(Sgrevlex, i{j});"] if question.order != "grevlex" else []
                made = self.basis(f"b{n}" if moved else f"i{j}", n)
                return moved + made + [f'print("{n} @ " + string(a{n}));', "setring Sgrevlex;"]
            case words:
                made = f"ideal a{question.number} = {self.ideal_of(words, session)};"
                at = f"S{question.order}"
                basis = f'print("{question.number} @ " + string(std(imap(Sgrevlex, a{question.number}))));'
                return [made, f"setring {at};", basis, "setring Sgrevlex;"]

    def script(self, session: Session) -> str:
        if session.lets:
            raise Unknown("let")
        names = ",".join(session.variables)
        lines = []
        for order, word in self.orders.items():
            if order != "grevlex" and any(q.order == order for q in session.questions):
                lines.append(f"ring S{order} = {session.prime}, ({names}), {word}; short = 0;")
        lines += [f"ring Sgrevlex = {session.prime}, ({names}), dp; short = 0;", "option(redSB);"]
        lines += [f"poly p{name} = {value};" for name, value in session.polynomials.items()]
        lines += [f"ideal i{name} = {', '.join(gens)};" for name, gens in session.ideals.items()]
        for question in session.questions:
            lines += self.question(question, session)
        return "\n".join(lines) + "\nquit;\n"


class SingularAlone(Singular):
    """Singular on bases without cofactors."""

    name = "std"

    def basis(self, ideal: str, number: int) -> list[str]:
        return [f"ideal a{number} = std({ideal});"]

    def script(self, session: Session) -> str:
        if any(question.words[0] != "basis" for question in session.questions):
            raise Unknown("a question that isn't for a basis")
        return super().script(session)


PEERS: list[Peer] = [Macaulay2(), Singular(), SingularAlone()]
