"""The line that dyncollate prints if a run fails, and its parts.

dyncollate-explain and the step of a CMake build, which see only this line, take it apart here.
A program that calls libdyncollate gets the parts as numbers.
"""
import re
from collections import namedtuple

# `target` is the number of a target of a project. `document` is scan, info, target, project, name
# or edges, `index` the number of the scan document or info file, and `line` that of a line in an
# edge list or a dyndep file. A line without a code has `code` "" and its first words as `name`,
# such as `cannot read`. `rest` is what follows the name. What there is not is None, or "".
Error = namedtuple("Error", "target document index line code name rest")
FORM = re.compile(r"""
    (?: target \ (?P<target>\d+): \ )?
    (?: (?P<document>scan|info|target|project|name|edges) (?: \ (?P<index>\d+) )?: \ )?
    (?: line \ (?P<line>\d+): \ )?
    (?: (?P<code>[NYSMEK]\d+) \ (?P<name>\w+)
      | (?P<words>usage|cannot\ read|cannot\ write|out\ of\ memory|cycle) )
    (?: \ (?P<rest>.*) )?""", re.X | re.S)


def error_of(line):
    """The parts of an error line, with or without the program's name. Another line is None."""
    found = FORM.fullmatch(line.rstrip("\n").removeprefix("dyncollate: "))
    if not found:
        return None
    numbers = (None if found[it] is None else int(found[it]) for it in ("target", "index", "line"))
    target, index, line = numbers
    return Error(target, found["document"] or "", index, line, found["code"] or "",
                 found["name"] or found["words"], found["rest"] or "")


def last_line(text):
    """The last line of dyncollate in what a build has printed, or an empty text."""
    return (re.findall(r"^dyncollate: .*", text, re.M) or [""])[-1]


def status_of(line):
    """The exit status of a run that printed this line."""
    error = error_of(line)
    is_of_files = error and error.name in ("cannot read", "cannot write", "out of memory")
    return 3 if is_of_files else 2 if error and error.name == "usage" else 1


def named_by(error, target_document):
    """The scan document or info file of a target that an error has the number of, or None."""
    member = {"scan": "scans", "info": "linked"}.get(error.document)
    names = target_document.get(member) if member else None
    return names[error.index] if isinstance(names, list) and error.index < len(names) else None
