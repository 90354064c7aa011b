"""What an error line means, in a few lines: the file that it is in, what is wrong, what to do."""
import functools
import re

import explain_codes
from error_line import error_of, named_by
from explain_build import kind_of
from explain_documents import (Target, beside, clash, file_of, parsed, printed, read, shown,
                               targets_of)
from explain_files import why_unread, why_unwritten
from explain_places import in_document
from explain_sources import Place

MOST_LINES, MOST_PLACES = 3, 4
MAPS = "clang", "gcc", None


@functools.lru_cache(None)
def meanings():
    """The table of meanings: a code and a name, or the form of a line without a code; its text."""
    table = parsed(read(beside("meanings.json")))
    return {f"{it['code']} {it['name']}".strip(): f"{it['meaning']} {it['advice']}" for it in table}


def advice(error):
    """What the table says about an error, and for an error of a path why the path is not valid."""
    whole = f"{error.code or error.name} {error.name if error.code else error.rest}"
    names = [whole] if error.code or whole in meanings() else [
        it for it in meanings() if it.startswith(error.name)][:1]
    if error.code == "E3" and error.name not in ("Form", "Path"):
        names = []
    if error.code in ("S7", "E8") or (error.code, error.name) == ("E3", "Path"):
        names += re.findall(r"\b(N\d+ \w+)", error.rest)
    found = [meanings()[it] for it in names if it in meanings()]
    return " ".join(found) or "`man dyncollate` describes this error."


class Explanation:
    """What an error line means for a document that has been read."""

    def __init__(self, name, line):
        self.name, self.line, self.of = name, line.removeprefix("dyncollate: "), ""
        self.project = targets_of(name) if kind_of(name) == "project" else []
        self.target = None if kind_of(name) == "project" else Target(name)
        if kind_of(name) == "one":
            self.target.scans = [name]
        self.error = error_of(self.line) or error_of(self.numbered())
        number = self.error.target if self.error else None
        if number is not None and number < len(self.project):
            self.target = self.project[number]
            self.of = f" of {self.target}"

    def numbered(self):
        """The line with the number of a document, if it has its name, as in a CMake build."""
        lists = {"scan": self.target.scans, "info": self.target.linked} if self.target else {}
        for kind, names in lists.items():
            for index, it in enumerate(names):
                if self.line.startswith(f"{it}: "):
                    return f"{kind} {index}{self.line[len(it):]}"
        return ""

    def lines(self):
        """The head, and the lines after it. Those that begin with a source's name are places."""
        error = self.error
        if not error:
            return [self.line]
        try:
            if error.document:
                head, *lines = self.of_document()
            elif self.line in meanings():
                head, lines = self.line, []
            elif error.name in ("cannot read", "cannot write"):
                head, *lines = self.of_file()
            else:
                head, *lines = explain_codes.explained(self)
        except (AttributeError, IndexError, KeyError, TypeError, ValueError, StopIteration):
            # The documents have changed since, or the line is not one of this version: it is shown.
            head = f"{self.code()}{self.of}: {error.rest}" if error.rest else self.line
            return [head, advice(error)]
        places = [it for it in lines if isinstance(it, Place)]
        others = [it for it in lines if it and not isinstance(it, Place)]
        return [head, *places[:MOST_PLACES], *others[:MOST_LINES], advice(error)]

    def code(self):
        return f"{self.error.code} {self.error.name}".strip()

    def of_document(self):
        error, target = self.error, self.target
        if error.document == "edges":
            return [f"{self.code()}: line {error.line} of the edge list {target.edges}{self.of}",
                    *line_in(target.edges, error.line)]
        if error.index is None:
            name = target.file if self.of else self.name
            return [f"{self.code()}: {name}",
                    *(self.other_maps() or in_document(name, error, error.document))]
        name = named_by(error, {"scans": target.scans, "linked": target.linked})
        path, why = clash(self.project or [target]) or ("", "")
        return [f"{self.code()}: {name} ({error.document} {error.index}{self.of})",
                *in_document(name, error, error.document),
                f"{why}." if file_of(name) == path else ""]

    def other_maps(self):
        """What differs if the targets of a project have different maps."""
        ours, first = self.target and self.target.document.get("map"), self.project[:1]
        if self.error.rest != "document member map" or not first or ours not in MAPS:
            return []
        theirs = shown(first[0].document.get("map"))
        return [f"It has member map: {shown(ours)}, and the first {first[0]} has {theirs}.",
                "All targets of a project have the same."]

    def of_file(self):
        verb, name = self.error.name.split()[1], self.error.rest
        if verb == "write":
            why = why_unwritten(name) or "A file can be written there now."
            return [f"cannot write: {name}", why]
        named = (f" ({what} of {target})" if self.project else f" ({what})"
                 for target in self.project or [self.target] for other, what in target.inputs()
                 if printed(other) == name and what != "the target document")
        what = next(named, "")
        return [f"cannot read: {name}{what}", *why_unread(name, self.name)]


def line_in(name, number):
    try:
        lines = read(name).split(b"\n")
    except (OSError, TypeError):
        return []
    line = b"".join(lines[number - 1:number]).decode(errors="replace")
    return [f"The line is {shown(line)}."] if number <= len(lines) else []
