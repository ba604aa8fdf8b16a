"""GCLC's files: its construction commands and the statement of its prover. Drawing commands are passed over."""
# SPDX-License-Identifier: Apache-2.0
import re

from language import FORMS, read_program
from model import Left, Number, Out, Point, Unsaid
from prove import Statement
from reader import BadFile, Reader as AnyReader
from table import Forms

TOKEN = re.compile(r'"[^"\n]*"|[{}]|[^\s{}"]+')
PLAIN = re.compile(r"-?(?:[0-9]+\.?[0-9]*|\.[0-9]+)$")
OURS = {word.rstrip("!") for word in FORMS if word.endswith("!")} | {"prove", "assume"}
GCLC = Forms("GCLC")


def text_of(data):
    return data.decode("utf-8", "replace").removeprefix("\ufeff")


def first_words(text):
    return [line.split()[0] for line in text.split("\n") if re.match(r"\s*[a-z]", line)]


def is_gclc(data):
    """Whether this may be read as GCLC's: a line begins with a word of it, and none with one that our language has alone."""
    words = first_words(text_of(data))
    return any(map(is_known, words)) and not (is_ours(data) and any(word in OURS and not is_known(word) for word in words))


def is_foreign(data):
    """Whether this is GCLC's and no text of ours: a line begins with a word that GCLC has alone."""
    return any(is_known(word) and word not in OURS for word in first_words(text_of(data))) and not is_ours(data)


def is_ours(data):
    """Whether this reads as a program of our language."""
    try:
        read_program(text_of(data))
    except (LookupError, ValueError, RecursionError):
        return False
    return True


def is_known(word):
    return GCLC.knows(word) or word in ("point", "number", "prove")


def tokens_of(text):
    """The tokens with their lines."""
    for line, content in enumerate(text.split("\n"), 1):
        for token in TOKEN.findall(content.split("%")[0]):
            yield token, line


class Reader(AnyReader):
    tool = "GCLC"

    def __init__(self, data):
        super().__init__()
        self.tokens = list(tokens_of(text_of(data)))
        self.at = 0
        self.scribe.names.expect(token for token, _ in self.tokens if re.match("[A-Za-z]", token) and not is_known(token))

    def peek(self):
        return self.tokens[self.at][0] if self.at < len(self.tokens) else ""

    def take(self):
        if self.at >= len(self.tokens):
            line = self.tokens[-1][1] if self.tokens else 1
            raise BadFile(f"line {line}: it ends inside a command")
        self.at += 1
        return self.tokens[self.at - 1][0]

    def read(self):
        while self.peek():
            line, word = self.tokens[self.at][1], self.take()
            if word in self.forms.passed:
                self.pass_over()
                continue
            begin = self.at
            if word == "prove":
                self.prove(line)
            elif word in ("point", "number"):
                self.put_down(line, word)
            else:
                self.command(line, word, begin)

    def pass_over(self):
        """Skips what stands before the next command; what is in braces is no command."""
        depth = 0
        while self.peek() and (depth or not self.is_command()):
            token = self.take()
            depth = max(0, depth + (token == "{") - (token == "}"))

    def is_command(self):
        """Whether a command begins here: a known word that is no label, or a small letter at the beginning of a line."""
        word = self.peek()
        begins = self.at == 0 or self.tokens[self.at][1] != self.tokens[self.at - 1][1]
        return (is_known(word) or begins and re.match("[a-z]", word)) and (begins or word not in self.objects)

    def words_from(self, begin):
        return [token for token, _ in self.tokens[begin : self.at]]

    # commands

    def put_down(self, line, word):
        """A free point with its coordinates, or a number."""
        label = self.take()
        begin = self.at
        self.pass_over()
        numbers = [token for token in self.words_from(begin) if PLAIN.match(token)]
        self.begin(line, " ".join([word, label, *numbers]))
        if word == "number":
            self.objects[label] = Number(numbers[0], label) if numbers else self.left_number(line, label)
        else:
            at = tuple(float(text) for text in numbers[:2]) if len(numbers) > 1 else None
            self.objects[label] = self.scribe.free(label, at and all(abs(x) < 1e15 for x in at) and at or None)

    def left_number(self, line, label):
        self.leave(line, [label], f"number {label}", Unsaid("a number that is reckoned"))
        return self.objects[label]

    def command(self, line, word, begin):
        """One command: the forms of its word say how many of the words behind it are made, and the values of the others which form it is."""
        self.pass_over()
        words = self.words_from(begin)
        call = " ".join([word, *words])
        forms = [form for _, form in self.forms.makers.get(word, [])]
        labels = words[: forms[0].made] if forms else [word_ for word_ in words[:1] if word_ not in self.objects]
        self.begin(line, call)
        try:
            values = self.values(words[len(labels) :], max((len(form.letters) for form in forms), default=0))
            made = self.forms.made(self.scribe, word, values, Out(labels, []))
            self.objects.update(zip(labels, made))
        except Unsaid as unsaid:
            self.leave(line, labels or [word], call, unsaid)

    def values(self, words, most):
        """The values of the arguments; words behind the last one are of drawing."""
        words = words[:most]
        labels = [word for word in words if not PLAIN.match(word)]
        found = dict(zip(labels, self.all_found(labels)))
        return [Number(word, degrees=None) if PLAIN.match(word) else found[word] for word in words]

    # statements

    def prove(self, line):
        """A statement goes from `{` to the brace that closes it."""
        begin, depth = self.at, 0
        while True:
            token = self.take()
            depth += (token == "{") - (token == "}")
            if depth <= 0:
                break
        words = self.words_from(begin)
        self.begin(line, "prove")
        self.state(line, "prove " + " ".join(words), lambda: Statement(self, words[1:-1]).read())

    def points(self, labels):
        """The points of a statement; all that are left out are named."""
        for label, value in zip(labels, self.all_found(labels)):
            if not isinstance(value, Point | Left):
                raise Unsaid(f"{label[:60]} is no point")
        return [self.objects[label] for label in labels]
