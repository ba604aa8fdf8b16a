"""XML with the line of each element, of which the wanted ones are kept. Entities of the text's own are refused."""
# SPDX-License-Identifier: Apache-2.0
from dataclasses import dataclass, field
from xml.parsers import expat
from xml.sax import SAXParseException
from xml.sax.handler import ContentHandler

from reader import BadFile

try:  # the library that refuses entities, where it is installed
    from defusedxml import DefusedXmlException
    from defusedxml.sax import make_parser
except ImportError:
    make_parser, DefusedXmlException = None, SAXParseException

DEEPEST = 100
MOST_TAGS = 500_000


@dataclass
class Node:
    tag: str
    attributes: dict
    line: int
    children: list = field(default_factory=list)
    parts: list = field(default_factory=list)

    @property
    def text(self):
        return "".join(self.parts)

    def get(self, name, default=""):
        return self.attributes.get(name, default)

    def all(self, *tags):
        return [child for child in self.children if child.tag in tags]

    def first(self, tag):
        return next((child for child in self.children if child.tag == tag), None)


class Tree(ContentHandler):
    """Keeps the elements with the wanted tags; what stands inside others is passed over."""

    def __init__(self, wanted):
        super().__init__()
        self.wanted = wanted
        self.open = [Node("", {}, 0)]
        self.passed = self.tags = 0
        self.line_of = lambda: 0

    def startElement(self, name, attrs):
        self.tags += 1
        if self.tags > MOST_TAGS or len(self.open) + self.passed > DEEPEST:
            what = f"more than {MOST_TAGS:,} tags" if self.tags > MOST_TAGS else f"elements nested deeper than {DEEPEST}"
            raise BadFile(f"line {self.line_of()}: it has {what}")
        if self.passed or name not in self.wanted:
            self.passed += 1
            return
        node = Node(name, dict(attrs.items()), self.line_of())
        self.open[-1].children.append(node)
        self.open.append(node)

    def endElement(self, name):
        if self.passed:
            self.passed -= 1
        else:
            self.open.pop()

    def characters(self, content):
        if not self.passed:
            self.open[-1].parts.append(content)


def refused(line):
    return BadFile(f"line {line}: it declares an entity, and these are refused")


def feed_by_library(tree, data):
    parser = make_parser()
    parser.setContentHandler(tree)
    tree.line_of = parser.getLineNumber
    try:
        parser.feed(data)
        parser.close()
    except DefusedXmlException:
        raise refused(tree.line_of()) from None
    except SAXParseException as error:
        raise BadFile(f"line {error.getLineNumber()}: {error.getMessage()}") from None


def feed_plainly(tree, data):
    """The same by the standard library's parser, with entities off."""
    parser = expat.ParserCreate()
    tree.line_of = lambda: parser.CurrentLineNumber

    def refuse(*_):
        raise refused(parser.CurrentLineNumber)

    parser.StartElementHandler = tree.startElement
    parser.EndElementHandler = tree.endElement
    parser.CharacterDataHandler = tree.characters
    parser.EntityDeclHandler = parser.ExternalEntityRefHandler = refuse
    try:
        parser.Parse(data, True)
    except expat.ExpatError as error:
        raise BadFile(f"line {error.lineno}: {expat.errors.messages[error.code]}") from None


def parsed(data, wanted):
    """The root of an XML text, with the wanted elements below it."""
    tree = Tree(wanted)
    try:
        (feed_by_library if make_parser else feed_plainly)(tree, data)
    except (LookupError, UnicodeError, ValueError) as error:
        raise BadFile(f"line 1: {error}") from None
    roots = tree.open[0].children
    if not roots:
        raise BadFile(f"it has none of the elements {', '.join(sorted(wanted)[:3])}")
    return roots[0]
