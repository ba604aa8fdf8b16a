"""The words and quantities of tools/page, which are HTML, in LaTeX. So both say the same."""
# SPDX-License-Identifier: Apache-2.0
import html
import re
from html.parser import HTMLParser

import paths  # noqa: F401
from proof import factor_html, monomial_html
from words import name_html

SIGNS = {"\u2212": "-", "\u00b7": r"\cdot ", "\u202f": r"\,", "\u2009": r"\,", "\u2026": r"\dots "}
WORD = re.compile(r"[A-Za-z,;.]+")
LONG = re.compile(r"(?<!\\)\b[A-Za-z]{2,}")
ESCAPES = {c: "\\" + c for c in "&%$#_{}"} | {"~": r"\textasciitilde{}", "^": r"\textasciicircum{}", "\\": r"\textbackslash{}"}


def escaped(text):
    """A text as it is; what LaTeX has no sign for is a question mark."""
    return "".join(ESCAPES.get(c, c if c.isascii() and c.isprintable() or c in "\n" else "?") for c in text)


class Maths(HTMLParser):
    """Goes through HTML, and keeps pieces of text and of formulas: `pieces` are pairs of whether it is a formula, and the piece."""

    def __init__(self, text):
        super().__init__()
        self.pieces = []
        self.ends = []
        self.in_name = False
        self.feed(text)
        self.close()

    def formula(self, tex):
        self.pieces.append((True, tex))

    def handle_starttag(self, tag, attrs):
        kind = dict(attrs).get("class", "")
        if tag == "var":
            self.in_name = True
        begin, end = {
            "sub": ("_{", "}"), "sup": ("^{", "}"), "fraction": (r"\dfrac", ""), "span": ("{", "}"), "slash": (None, None),
        }.get(kind or tag, ("", ""))  # fmt: skip
        self.ends.append(end)
        if begin:
            self.formula(begin)

    def handle_endtag(self, tag):
        if tag == "var":
            self.in_name = False
        end = self.ends.pop() if self.ends else ""
        if end:
            self.formula(end)

    def handle_data(self, data):
        if self.ends and self.ends[-1] is None:
            return
        if self.in_name or self.ends:
            self.formula(name(data) if self.in_name else LONG.sub(lambda word: name(word[0]), signs(data)))
            return
        at = 0
        for word in WORD.finditer(data):
            self.between(data[at : word.start()])
            self.pieces.append((False, word[0]))
            at = word.end()
        self.between(data[at:])

    def between(self, text):
        """What stands between words: blanks are text, signs and digits are formulas."""
        if text.strip():
            self.formula(signs(text))
        elif text:
            self.pieces.append((None, " "))


def name(text):
    return text if len(text) == 1 else rf"\mathit{{{escaped(text)}}}"


def signs(text):
    return "".join(SIGNS.get(c, ESCAPES.get(c, c)) for c in text)


def mixed(text):
    """Words with formulas between them."""
    out, is_open, blank = "", False, ""
    for is_formula, piece in Maths(text).pieces:
        if is_formula is None:
            blank = " "
            continue
        if bool(is_formula) != is_open:
            out += "$" if is_open else ""
            out += blank + ("$" if is_formula else "")
            is_open = bool(is_formula)
        else:
            out += blank
        blank = ""
        out += piece
    return out + ("$" if is_open else "")


def formula(text):
    """The same where all is one formula."""
    return "".join(piece for is_formula, piece in Maths(text).pieces)


def barred(tex):
    """The lengths of a ratio get their bars."""
    return re.sub(r"\\dfrac\{([^{}]*(?:\{[^{}]*\}[^{}]*)*)\}\{([^{}]*(?:\{[^{}]*\}[^{}]*)*)\}", r"\\dfrac{\\overline{\1}}{\\overline{\2}}", tex)


def factor(text):
    return barred(formula(factor_html(text)))


def monomial(text, is_first):
    return barred(formula(monomial_html(text, is_first)))


def polynomial(text, most):
    """A polynomial with its first terms, at most so many; 0 is no limit."""
    monomials = text.split(" ")
    most = most or len(monomials)
    tex = "".join(monomial(m, k == 0) for k, m in enumerate(monomials[:most]))
    more = len(monomials) - most
    return tex + (rf" + \langle\text{{{more} more terms}}\rangle" if more > 0 else "")


def name_tex(text):
    """A point's name as a formula."""
    return formula(name_html(text))


def code(cell):
    """A cell of the lemma table: what stands in backquotes is a formula."""
    parts = html.unescape(cell).split("`")
    return "".join(f"${row_formula(part)}$" if k % 2 else escaped(part) for k, part in enumerate(parts))


def row_formula(text):
    text = re.sub(r"([A-Z][A-Z])/([A-Z][A-Z])", r"\\tfrac{\\overline{\1}}{\\overline{\2}}", text)
    text = re.sub(r"\b([xy])([A-Z])\b", r"\1_\2", re.sub(r"([SP])_([A-Z]+)", r"\1_{\2}", text))
    text = re.sub(r" ([-+=]) ", r"\1", text.replace("²", "^2")).replace(" ", r"\,")
    return re.sub("([-+=])", r" \1 ", text)
