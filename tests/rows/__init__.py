"""The rows: calls of the program, each with its expected result, from docs/FORMATS.md and
docs/GUIDE.md, never from the program.

A module for each subject has tables of them, as a person reads them: why the row is there, the
input and the result. Its ROWS are these tables as calls. Rows whose reason begins with `*` are also
used by `growths`, `damage` and `devices`.
"""
import os
import re
from collections import namedtuple

V = b"ninja_dyndep_version = 1\n"
FAULT = re.compile(r"\b[A-Z]\d+ [A-Z]\w+|\bcycle|\bcannot \w+|\busage|\bout of memory")


class Row(namedtuple("Row", "why words files status out line written")):
    """A call: its arguments, its files by name, and its result: its status, the text on standard
    output, the line on standard error after `dyncollate: `, and the files that it writes, in their
    order. A long text may be a function that makes it."""

    @property
    def name(self):
        """The command, the faults that are printed, and why the row is there."""
        faults = FAULT.findall((self.line or b"")[:200].decode(errors="replace"))
        return " ".join([*self.words[:1], *faults]) + ": " + self.why.lstrip("* ")

    @property
    def is_worked(self):
        return self.why.startswith("*")

    def texts(self):
        """The files before the run."""
        return {name: text() if callable(text) else text for name, text in self.files.items()}

    def printed(self):
        """The status and the two texts of the run."""
        return (self.status, self.out,
                b"" if self.line is None else b"dyncollate: " + self.line + b"\n")

    def made(self):
        """The files that the run writes, by their names' bytes."""
        return {os.fsencode(name): text for name, text in self.written.items()}


def prints(why, words, files, out):
    return Row(why, words, files, 0, out, None, {})


def writes(why, words, files, written):
    return Row(why, words, files, 0, b"", None, written)


def rejects(why, words, files, line):
    return Row(why, words, files, 1, b"", line, {})


def unread(why, words, files, name):
    return Row(why, words, files, 3, b"", b"cannot read " + name, {})


def usage(why, words, files):
    return Row(why, words, files, 2, b"", b"usage", {})
