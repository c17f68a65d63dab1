"""Polynomials, ideals, numbers and names in the notation of LaTeX and of Markdown."""

import re

PIECE = re.compile(r"\s*([A-Za-z_][A-Za-z0-9_]*|\d+|.)")
SPECIAL = {sign: f"\\{sign}" for sign in "#$%&_{}"} | {"~": r"\textasciitilde{}", "^": r"\textasciicircum{}", "\\": r"\textbackslash{}"}


def latex_word(word: str) -> str:
    """A variable, whose digits at the end are an index."""
    stem, _, index = word.partition("_") if "_" in word.strip("_") else (word.rstrip("0123456789"), "", "")
    index = index or word[len(stem) :]
    index = index.replace("_", r"\_")
    stem = stem if len(stem) == 1 else f"\\mathit{{{stem}}}".replace("_", r"\_")
    return f"{stem}_{{{index}}}" if index else stem


def latex_math(text: str) -> str:
    """A polynomial or an ideal of the session language as LaTeX writes it in mathematics."""
    made, before = [], ""
    pieces = PIECE.findall(text)
    for place, piece in enumerate(pieces):
        after = pieces[place + 1] if place + 1 < len(pieces) else ""
        if before == "^":
            made.append(f"{{{piece}}}")
        elif piece == "*":
            made.append(r"\cdot " if before.isdigit() and after[:1].isdigit() else "")
        elif piece[0].isalpha() or piece[0] == "_":
            made.append(latex_word(piece))
        else:
            made.append(", " if piece == "," else piece)
        before = piece
    return "".join(made)


def latex_text(text: str) -> str:
    """Words as LaTeX prints them."""
    return "".join(SPECIAL.get(sign, sign) for sign in text)


def latex_name(name: str) -> str:
    """A name: letters with an index, such as A_5, in mathematics, and anything else as words."""
    found = re.fullmatch(r"([A-Za-z])_?(\d+)(?:\^(\d+))?", name)
    if not found:
        return latex_text(name)
    return f"${found[1]}_{{{found[2]}}}{'^{' + found[3] + '}' if found[3] else ''}$"


def markdown_code(text: str) -> str:
    """A polynomial in a cell of Markdown."""
    return f"`{text.replace('|', chr(92) + '|')}`"
