"""The error of a command, taken apart. docs/FORMATS.md, "Lines that the program prints",
has the forms of its line."""
from __future__ import annotations

import re
from collections.abc import Sequence
from typing import Any, Optional

from ._library import ABSENT

# What has an error, and the lists of an entry, by their numbers in dyncollate.h.
DOCUMENTS = None, "target", "project", "scan", "info", "edges", "name", "dyndep"
LISTS = "", "provides", "requires", "path"
# The labels of a line, and the error after them: its code and its name.
LABELS = re.compile(r"\A(?:(?:target|scan|info|line) \d+: |(?:target|project|name|edges): )*")
CODED = re.compile(r"[A-Z]\d+ (\w+) ?")
# What the modules, files and targets of an error are printed as
MAKER = r"(?:object|info) (.*)"
SUBJECTS = {
    "M3": rf"(\S+) by {MAKER} and {MAKER}",
    "M4": rf"(.*?) by {MAKER} and {MAKER}",
    "M5": r"(\S+) in (.*)",
    "M6": r"(.*) (\S+) (\S+)",
    "M7": r"(.*) (\S+) (\S+)",
    "M9": rf"(\S+) of (.*?) in {MAKER}",
}


class Error(Exception):
    """A command that fails.

    status    its exit status: 1 if the input is not valid,
              3 if a file that a document names is missing
    line      its line on standard error, such as "dyncollate: target 2: scan 0:
              S6 BadName rule 1 requires 0"
    code      its code, "S6", and `name` the name after it, "BadName".
              Lines such as "cannot read main.ddi" have neither
    document  what has the error: "scan", "info", "target", "project", "edges", "name" or, for a
              dyndep file, "dyndep"; or None if
              no single document has it
    place     its position in the document: {"target": 2, "scan": 0, "rule": 1, "requires": 0}.
              Lines are numbered from 1, everything
              else from 0
    names     the modules, files and targets in the line, in its order;
              for a cycle all that are on it; for S3 the member

    The library says what the code, the document and the place are. That of version 1.1.0 does not,
    so all three are missing then.
    """

    def __init__(self, status: int, line: str, numbers: Sequence[int] = ()) -> None:
        """`numbers` are those of `dyncollate_location` in dyncollate.h."""
        super().__init__(line)
        self.status, self.line = status, line
        self.code: Optional[str] = None
        self.name: Optional[str] = None
        self.document: Optional[str] = None
        self.place: dict[str, int] = {}
        self.names: tuple[str, ...] = ()
        if numbers:
            self._take_numbers(numbers)
        self._take_names()

    def __reduce__(self) -> tuple[type[Error], tuple[int, str], dict[str, Any]]:
        return type(self), (self.status, self.line), vars(self)

    def _take_numbers(self, numbers: Sequence[int]) -> None:
        """Takes the code, the document and the place."""
        document, letter, number, list_, target, index, line, item, entry, offset = numbers
        if letter:
            self.code = f"{chr(letter)}{number}"
        self.document = DOCUMENTS[document]
        listed, part = (("info", "module") if self.document == "info"
                        else ("scan", "rule" if self.document else "statement"))
        place = {"target": target, listed: index, "line": line, part: item, LISTS[list_]: entry,
                 "offset": offset}
        self.place = {word: it for word, it in place.items() if it != ABSENT}

    def _take_names(self) -> None:
        """Takes the name of the error, and what it names."""
        rest = LABELS.sub("", self.line.removeprefix("dyncollate: "))
        if self.code and (coded := CODED.match(rest)):
            self.name = coded[1]
            self._take_subject(self.code, rest[coded.end():])
        elif rest.startswith("cycle "):
            self.names = tuple(rest.removeprefix("cycle ").split(" -> "))
        elif rest.startswith("cannot read "):
            self.names = (rest.removeprefix("cannot read "),)

    def _take_subject(self, code: str, subject: str) -> None:
        if code in SUBJECTS:
            found = re.fullmatch(SUBJECTS[code], subject, re.S)
            self.names = found.groups() if found else (subject,)
        elif code == "M8":
            self.names = tuple(subject.split(" -> "))
        elif code[0] in "MK" or code[0] == "E" and code not in ("E3", "E8"):
            self.names = (subject,) if subject else ()
        elif member := re.search(r" member (.*)", subject):
            self.names = (member[1],)
