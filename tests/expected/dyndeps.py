"""Dyndep files: docs/FORMATS.md, "Dyndep files, as the reader takes them" and "Dyndep files,
as they are written"."""
import re
from collections import namedtuple

from .lines import LINE_LIMIT, assignment_of, is_word, sound_lines, value_of
from .paths import Rejected, escaped

VERSION = b"ninja_dyndep_version = 1\n"

Statement = namedtuple("Statement", "output outputs inputs restat")


def statement_text(output, outputs, inputs, restat):
    line = b"build " + escaped(output)
    line += b" |" + b"".join(b" " + escaped(it) for it in outputs) if outputs else b""
    line += b": dyndep"
    line += b" |" + b"".join(b" " + escaped(it) for it in inputs) if inputs else b""
    return line + b"\n" + (b"  restat = 1\n" if restat else b"")


def dyndep_text(statements):
    """The text of a dyndep file; the first statement whose build line is too long is rejected."""
    for at, it in enumerate(statements):
        if len(statement_text(it.output, it.outputs, it.inputs, False)) > LINE_LIMIT:
            raise Rejected(b"Y2 StatementTooLong statement %d" % at)
    return VERSION + b"".join(statement_text(*it) for it in statements)


# For each position of a build line: the next position by the kind of token, or its error. A word
# that is taken keeps the position, except for the output and the rule.
BUILD_LINE = {"start": {"word": "named", "|": b"Y9 NoOutput", ":": b"Y9 NoOutput",
                        "||": b"Y9 NoOutput", "|@": b"Y9 NoOutput", "end": b"Y9 NoOutput"},
              "named": {"word": b"Y10 SecondOutput", "|": "outputs", ":": "rule",
                        "||": b"Y13 OrderOnly", "|@": b"Y14 Validation", "end": b"Y8 BadLine"},
              "outputs": {"word": "outputs", "|": b"Y8 BadLine", ":": "rule",
                          "||": b"Y13 OrderOnly", "|@": b"Y14 Validation", "end": b"Y8 BadLine"},
              "rule": {"word": "ruled", "|": b"Y11 BadRule", ":": b"Y11 BadRule",
                       "||": b"Y11 BadRule", "|@": b"Y11 BadRule", "end": b"Y11 BadRule"},
              "ruled": {"word": b"Y12 ExplicitInput", "|": "inputs", ":": b"Y8 BadLine",
                        "||": b"Y13 OrderOnly", "|@": b"Y14 Validation", "end": "done"},
              "inputs": {"word": "inputs", "|": b"Y8 BadLine", ":": b"Y8 BadLine",
                         "||": b"Y13 OrderOnly", "|@": b"Y14 Validation", "end": "done"},}


def statement_of(tokens, where):
    """The statement of a build line's tokens after the keyword, or the line's error."""
    position, words = "start", {"named": [], "outputs": [], "ruled": [], "inputs": []}
    for token in tokens + [None]:
        kind = "end" if token is None else "word" if is_word(token) else token.decode()
        then = BUILD_LINE[position][kind]
        if then == "ruled" and token != b"dyndep":
            then = b"Y11 BadRule"
        if isinstance(then, bytes):
            raise Rejected(where + then)
        if kind == "word":
            words[then].append(value_of(token))
        position = then
    return Statement(words["named"][0], words["outputs"], words["inputs"], False)


def dyndep_of(text):
    """The statements of a dyndep file, or the error of its first faulty line."""
    statements, is_versioned, is_open = [], False, False
    for where, line, tokens in sound_lines(text):
        assigned = assignment_of(line)
        if not tokens:
            is_open = False
        elif not is_versioned:
            version_checked(assigned, where)
            is_versioned = True
        elif line.startswith(b" "):
            statements[-1:] = [bound(statements[-1:], is_open, assigned, where)]
            is_open = False
        elif assigned and assigned[:2] == (0, b"ninja_dyndep_version"):
            raise Rejected(where + b"Y6 SecondVersion")
        elif tokens[0] == (0, b"build"):
            statements.append(statement_of([it for _, it in tokens[1:]], where))
            is_open = True
        else:
            raise Rejected(where + b"Y8 BadLine")
    if not is_versioned:
        raise Rejected(b"line %d: Y4 NoVersion" % (text.count(b"\n") + 1))
    return statements


def version_checked(assigned, where):
    if not assigned or assigned[:2] != (0, b"ninja_dyndep_version"):
        raise Rejected(where + b"Y4 NoVersion")
    if not re.match(rb"1(?:\Z|[^0-9.])|1\.0(?:\Z|[^0-9])", assigned[2]):
        raise Rejected(where + b"Y5 BadVersion")


def bound(last, is_open, assigned, where):
    """The last statement with the binding of an indented line below it."""
    if not is_open:
        raise Rejected(where + b"Y7 Indent")
    if not assigned or assigned[1] != b"restat":
        raise Rejected(where + b"Y15 BadBinding")
    return last[0]._replace(restat=assigned[2] != b"")
