"""Names of the language for the labels of a file."""
# SPDX-License-Identifier: Apache-2.0
import re
import string
import unicodedata

import paths  # noqa: F401
from forms import FORMS
from language import OPERANDS, QUANTITIES

GREEK = (
    "alpha beta gamma delta epsilon zeta eta theta iota kappa lambda mu nu xi omicron pi rho sigma sigma tau upsilon phi chi psi omega"
).split()
LONGEST = 48


def reserved_words():
    """The words that are no names: those of tools/forms, and those of expressions."""
    return {"prove", "assume", *OPERANDS, *QUANTITIES, *(form.word for form in FORMS if form.kind != "assume")}


RESERVED = reserved_words()


class Names:
    """New names for labels: the label where it may stand, else one like it."""

    def __init__(self):
        self.taken = set(RESERVED)
        self.coming = set()
        self.counts = {}
        self.changed = []

    def expect(self, labels):
        """Labels that the file has: things without one get other names."""
        self.coming |= {plain(label) for label in labels}

    def new(self, label):
        """The name of a thing with this label, which is told where it is another; without one it is the next free letter."""
        if not label:
            return self.letter()
        stem = plain(label)
        name = f"{stem}_" if stem in RESERVED else stem
        if name in self.taken:
            name = self.counted(f"{stem}_", 2)
        self.taken.add(name)
        if name != label:
            self.changed.append((label, name))
        return name

    def fresh(self, stem):
        """A name for a thing that the file does not name."""
        name = self.counted(stem, 1)
        self.taken.add(name)
        return name

    def counted(self, stem, first):
        count = self.counts.get(stem, first)
        while not self.is_free(f"{stem}{count}"):
            count += 1
        self.counts[stem] = count + 1
        return f"{stem}{count}"

    def letter(self):
        name = next((letter for letter in string.ascii_uppercase if self.is_free(letter)), None)
        if name is None:
            return self.fresh("P")
        self.taken.add(name)
        return name

    def is_free(self, name):
        return name not in self.taken and name not in self.coming


def plain(label):
    """A word of the language for a label: no accents, Greek letters by their names, primes as p."""
    text = label[:200].replace("'", "p").replace("\u2032", "p").replace("_{", "_").replace("}", "")
    word = ""
    for c in unicodedata.normalize("NFKD", text):
        if "\u03b1" <= c.lower() <= "\u03c9":
            letter = GREEK[ord(c.lower()) - 0x3B1]
            word += letter if c.islower() else letter.capitalize()
        elif re.fullmatch("[A-Za-z0-9_]", c):
            word += c
    return (word if re.match("[A-Za-z]", word) else "P" + word)[:LONGEST]
