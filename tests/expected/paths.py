"""Paths and their escaped forms: docs/FORMATS.md, "Paths"."""
import re

PATH_LIMIT = 4096


class Rejected(Exception):
    """The line of a run that rejects its input, and its status."""

    def __init__(self, line, status=1):
        super().__init__(line)
        self.line, self.status = line, status


class PathFault(Exception):
    """Why a text is not a path: the code and name of the error."""

    def __init__(self, text):
        super().__init__(text)
        self.text = text


def reduced(path):
    """The components of a path that are left once it is made canonical."""
    parts = []
    for part in path.split(b"/"):
        if part in (b"", b"."):
            continue
        if part == b".." and parts and parts[-1] != b"..":
            parts.pop()
        else:
            parts.append(part)
    return parts


def placed(text, work=None, build=None):
    """The canonical path of a text, which is relative to a work directory, and made relative to a
    build directory, if there are any."""
    if not text:
        raise PathFault(b"N1 Empty")
    if work and not text.startswith(b"/"):
        text = work + b"/" + text
    parts, root = reduced(text), b"/" if text.startswith(b"/") else b""
    if not parts:
        raise PathFault(b"N1 Empty")
    if root and b".." in parts:
        raise PathFault(b"N2 AboveRoot")
    if re.search(rb"[|\x00\r\n]", text):
        raise PathFault(b"N3 Unwritable")
    if build and root:
        above = reduced(build)
        if parts[: len(above)] == above and len(parts) > len(above):
            parts, root = parts[len(above):], b""
    path = root + b"/".join(parts)
    if len(path) > PATH_LIMIT:
        raise PathFault(b"N4 TooLong")
    return path


def path_of(text):
    return placed(text)


def canonical(text):
    """The canonical path of a text, or None if it has none."""
    try:
        return path_of(text)
    except PathFault:
        return None


def escaped(path):
    return re.sub(rb"[$ :]", lambda it: b"$" + it[0], path)
