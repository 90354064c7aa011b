"""The output of a call of the program, and the files that it writes,
according to the files that exist."""
import os

from . import commands


def read(name):
    with open(name, "rb") as file:
        return file.read()


def opened(name):
    """The bytes of a file, or None if it cannot be read."""
    try:
        return read(name)
    except (OSError, ValueError):
        return None


def result_of(command, *given):
    """The result that a call has to have. The files of `effect` come after a name;
    otherwise the files come first."""
    call, names = getattr(commands, command), given[1:] if command == "effect" else given[:1]
    texts = [opened(name) for name in names]
    if None in texts:
        return commands.failed(3, b"cannot read " + os.fsencode(names[texts.index(None)]))
    if command == "one":
        return call(*texts, *map(os.fsencode, given[1:]))
    if command == "effect":
        return call(os.fsencode(given[0]), *texts)
    if command in ("collate", "project"):
        return call(*texts, opened)
    return call(*texts)


def ending(answer):
    """The status and the two texts of an answer once its files are written, and these files,
    up to one that cannot be."""
    written = {}
    for name, text in answer.files:
        if (b"\x00" in name or not os.path.isdir(os.path.dirname(name) or b".")
            or os.path.isdir(name) or len(name) > 255):
            return tuple(commands.failed(3, b"cannot write " + name)[:3]), written
        written[os.path.normpath(name)] = text
    return tuple(answer[:3]), written


def tree():
    """The files that are in the directory and below it."""
    return {os.path.normpath(os.path.join(folder, name)): read(os.path.join(folder, name))
            for folder, _, names in os.walk(b".") for name in names}
