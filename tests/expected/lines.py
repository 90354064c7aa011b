"""Lines, tokens and assignments: docs/FORMATS.md, "Lines, tokens and assignments"."""
import re
from collections import namedtuple

from .paths import Rejected

LINE_LIMIT = 1_048_576

COMMENT = re.compile(rb" *#")
CONTINUATION = rb"\$\r?\n *"
UNITS = re.compile(CONTINUATION + rb"|\$\r(?!\Z)|\$[^\r]|\n|[^$\n]+", re.S)
LEXICAL = re.compile(rb"(?P<good>" + CONTINUATION
                     + rb"|\$[$ :]|[^$\r\x00]+)|\x00|\r|\$[{A-Za-z0-9_-]|\$.", re.S)
PIECE = rb"(?:\$[$ :]|[^$ :|\r\n\x00])"
BLANK = rb" *(?:" + CONTINUATION + rb")*"
TOKEN = re.compile(BLANK + rb"(?:(?P<token>\|@|\|\||\||:|" + PIECE + rb"(?:(?:" + CONTINUATION
                   + rb")*" + PIECE + rb")*)|\Z)")
ASSIGNMENT = re.compile(BLANK + rb"(?P<name>[A-Za-z0-9_.-]+)" + BLANK + rb"=" + BLANK
                        + rb"(?P<value>.*)\Z", re.S)

Line = namedtuple("Line", "number text is_comment")


def line_end(text, start):
    """The end of the line that begins there, or None if it has no end."""
    if COMMENT.match(text, start):
        return text.find(b"\n", start) + 1 or None
    while True:
        units = UNITS.match(text, start)
        if not units:
            return None
        start = units.end()
        if units[0] == b"\n":
            return start


def lines_of(text, where=b""):
    """The lines of a text one by one; a line that is too long, or has no end, is rejected."""
    start, number = 0, 1
    while start < len(text):
        end = line_end(text, start)
        if (len(text) if end is None else end) - start >= LINE_LIMIT + (end is not None):
            raise Rejected(b"%sline %d: N5 LineTooLong" % (where, number))
        if end is None:
            raise Rejected(b"%sline %d: N6 Truncated" % (where, number))
        line = text[start:end]
        yield Line(number, line[:-2] if line.endswith(b"\r\n") else line[:-1],
                   bool(COMMENT.match(line)))
        start, number = end, number + line.count(b"\n")


def sound_lines(text, prefix=b""):
    """The position, the bytes and the tokens of each line that is not a comment. A line with a
    lexical error is rejected."""
    for line in lines_of(text, prefix):
        if line.is_comment:
            continue
        where = b"%sline %d: " % (prefix, line.number)
        fault = lexical_fault(line.text)
        if fault:
            raise Rejected(where + fault)
        yield where, line.text, tokens_of(line.text)


def lexical_fault(line):
    """The first lexical error of a line that is not a comment, or None."""
    at = 0
    while at < len(line):
        unit = LEXICAL.match(line, at)
        if not unit["good"]:
            if unit[0] == b"\x00":
                return b"N7 Nul at %d" % at
            if unit[0] == b"\r":
                return b"N8 LoneCr at %d" % at
            return b"%s at %d" % (b"N9 Variable" if re.match(rb"\$[{A-Za-z0-9_-]", unit[0])
                                  else b"N10 BadEscape", at)
        at = unit.end()
    return None


def tokens_of(line):
    """The tokens of a line without a lexical error: the offset and the bytes of each."""
    tokens, at = [], 0
    while at < len(line):
        found = TOKEN.match(line, at)
        if found["token"] is not None:
            tokens.append((found.start("token"), found["token"]))
        at = found.end()
    return tokens


def is_word(token):
    return token not in (b"|", b"||", b"|@", b":")


def value_of(raw):
    return re.sub(CONTINUATION + rb"|\$(.)", lambda it: it[1] or b"", raw, flags=re.S)


def assignment_of(line):
    """The offset of the name of an assignment, the name and the value,
    or None if the line is not an assignment."""
    found = ASSIGNMENT.match(line)
    return (found.start("name"), found["name"], value_of(found["value"])) if found else None
