"""The functions of libdyncollate, by `ctypes`.
dyncollate.h describes what they are given and what they return."""
from __future__ import annotations

import ctypes
import functools
import os
from collections.abc import Iterator, Mapping, Sequence
from pathlib import Path
from typing import Any, Union

Name = Union[str, "os.PathLike[str]"]
# The bytes of a file, or the path from which they are read.
File = Union[bytes, bytearray, memoryview, "os.PathLike[str]"]
# Files by their names in a document.
Files = Mapping[str, File]
Given = Union[Name, File, Files]

STRING: list[Any] = [ctypes.c_char_p, ctypes.c_size_t]
NUMBERS: list[Any] = [ctypes.POINTER(ctypes.c_size_t), ctypes.c_size_t]
# What the function of each command is given, in the order of dyncollate.h: a file, files,
# or a name.
COMMANDS = {
    "collate": ["file", "files"],
    "project": ["file", "files"],
    "one": ["file", "name", "name"],
    "effect": ["name", "file", "file"],
    "order": ["file"],
    "show": ["file"],
    "statements": ["file"],
}
# The parameters in C of each of these.
PARAMETERS = {"file": STRING, "files": NUMBERS + STRING, "name": STRING}
NO_MEMORY, MISUSED = 4, 5
ABSENT = ctypes.c_size_t(-1).value


class Outcome(ctypes.Structure):
    _fields_ = [("status", ctypes.c_uint32), ("written", ctypes.c_uint32),
                ("numbers", ctypes.c_size_t), ("text", ctypes.c_size_t)]


@functools.lru_cache(None)
def library() -> ctypes.CDLL:
    """The shared object."""
    near = Path(__file__).with_name("libdyncollate.so.1")
    name = os.environ.get("DYNCOLLATE_LIBRARY") or (str(near) if near.exists() else near.name)
    try:
        loaded = ctypes.CDLL(name)
        for command, kinds in COMMANDS.items():
            function = getattr(loaded, f"dyncollate_{command}")
            function.argtypes = [it for kind in kinds for it in PARAMETERS[kind]] + NUMBERS + STRING
            function.restype = Outcome
    except (OSError, AttributeError) as error:
        raise OSError(f"{error}; install a wheel of dyncollate, which has libdyncollate in it, or "
                      "install libdyncollate, or set DYNCOLLATE_LIBRARY to the path of "
                      "libdyncollate.so.1") from None
    return loaded


def linked_version() -> int:
    """DYNCOLLATE_VERSION of the shared object. That of version 1.1.0 does not have the function."""
    function = getattr(library(), "dyncollate_version", None)
    if function is None:
        return 10100
    function.restype = ctypes.c_uint32
    return int(function())


def bytes_of(file: File) -> bytes:
    if isinstance(file, (bytes, bytearray, memoryview)):
        return bytes(file)
    if isinstance(file, os.PathLike):
        return Path(file).read_bytes()
    raise TypeError(f"a file is given as bytes or as a path, not as {type(file).__name__}")


def encoded(name: Union[Name, bytes]) -> bytes:
    """A name in UTF-8. One with other bytes keeps them, so that the library rejects it."""
    name = os.fspath(name)
    return name if isinstance(name, bytes) else name.encode("utf-8", "surrogateescape")


def arguments(kinds: Sequence[str], given: Sequence[Any]) -> Iterator[Any]:
    """The arguments of a function in C for what it is given."""
    if len(kinds) != len(given):
        raise TypeError(f"{len(kinds)} arguments are needed, not {len(given)}")
    for kind, it in zip(kinds, given):
        if kind == "files":
            parts = [part for name, file in it.items() for part in (encoded(name), bytes_of(file))]
            yield from ((ctypes.c_size_t * len(parts))(*map(len, parts)), len(parts))
            text = b"".join(parts)
        else:
            text = bytes_of(it) if kind == "file" else encoded(it)
        yield from (text, len(text))


def call(command: str, given: Sequence[Given]) -> tuple[int, list[int], bytes]:
    """Calls a command, if need be again with as much room as it needs. Returns its status,
    numbers and text. The numbers of one that fails are followed by those of its location, but with
    version 1.1.0."""
    function, passed = (getattr(library(), f"dyncollate_{command}"),
                        list(arguments(COMMANDS[command], given)))
    room = 64, 1 << 14
    while True:
        numbers, text = (ctypes.c_size_t * room[0])(), ctypes.create_string_buffer(room[1])
        got = function(*passed, numbers, room[0], text, room[1])
        if got.status == NO_MEMORY:
            raise MemoryError
        if got.status == MISUSED:
            raise ValueError("a name is not UTF-8")
        if got.written:
            has_location = got.status and got.numbers == 2 and linked_version() >= 10200
            return (got.status, numbers[:12 if has_location else got.numbers],
                    ctypes.string_at(text, got.text))
        room = max(12, got.numbers), got.text
