"""python -m dyncollate COMMAND OPERANDS: the commands of the program, with files on disk, for a
machine that has this package and not the program.

It prints and writes the same, and ends with the same status. What it prints and writes is made by
the functions of libdyncollate, which are proved. That this file passes them the right files and
writes what they return is only tested."""
from __future__ import annotations

import contextlib
import json
import os
import secrets
import stat
import sys
from collections.abc import Iterable
from typing import Any

from ._commands import run
from ._library import COMMANDS

USAGE, SYSTEM = 2, 3


class Failed(Exception):
    """The status of a run that fails, and why, in one line."""


def operands_of(words: list[str]) -> tuple[Any, list[str]]:
    """The command and its operands. An argument that begins with a dash is one after `--`."""
    command, *given = words or [""]
    dashes = given.index("--") if "--" in given else len(given)
    kinds = [it for it in COMMANDS.get(command, []) if it != "files" and command != "statements"]
    operands = given[:dashes] + given[dashes + 1:]
    is_option = any(it.startswith("-") and len(it) > 1 for it in given[:dashes])
    if not kinds or is_option or len(operands) != len(kinds) or not all(map(is_utf_8, operands)):
        raise Failed(USAGE, "usage")
    return command, operands


def is_utf_8(name: str) -> bool:
    with contextlib.suppress(UnicodeEncodeError):
        return name.encode() is not None
    return False


def opened(name: str) -> bytes:
    try:
        with open(name, "rb") as file:
            return file.read()
    except (OSError, ValueError):
        raise Failed(SYSTEM, f"cannot read {name}") from None


def named(document: bytes, *members: str) -> list[str]:
    """The strings in these members of a document. If it is not valid, the library says why."""
    try:
        read: Any = json.loads(document, parse_int=str)
        lists = [read.get(member) for member in members]
    except (AttributeError, RecursionError, ValueError):
        return []
    return [it for found in lists for it in (found if isinstance(found, list) else [found])
            if isinstance(it, str) and is_utf_8(it)]


def read_all(names: Iterable[str], files: dict[str, bytes]) -> list[bytes]:
    """Reads files, each once. One that cannot be read is left out: the library says which."""
    for name in names:
        with contextlib.suppress(Failed):
            if name not in files:
                files[name] = opened(name)
    return [files[name] for name in names if name in files]


def files_for(command: str, document: bytes) -> dict[str, bytes]:
    """The files that a command reads besides its operands."""
    files: dict[str, bytes] = {}
    if command == "collate":
        read_all(named(document, "scans", "linked", "edges"), files)
    else:
        for target in read_all(named(document, "targets"), files):
            read_all(named(target, "scans", "edges"), files)
    return files


def print_to(number: int, data: bytes) -> None:
    rest = memoryview(data)
    while rest:
        rest = rest[os.write(number, rest):]


def write(name: str, data: bytes, may_be_left: bool) -> None:
    """Replaces a file as a whole, so that a reader finds the old bytes or the new ones. What is no
    regular file, or cannot be replaced, is written in place."""
    path, mode = os.path.realpath(name), 0
    with contextlib.suppress(FileNotFoundError):
        mode = os.stat(path).st_mode
    if mode and not stat.S_ISREG(mode):
        return write_to(path, "wb", data)
    with contextlib.suppress(Failed):
        if may_be_left and opened(path) == data:
            return None
    part = f"{path}.{secrets.token_hex(8)}.tmp"
    try:
        write_to(part, "xb", data)
        if mode:
            os.chmod(part, stat.S_IMODE(mode))
        return os.replace(part, path)
    except OSError as error:
        with contextlib.suppress(FileNotFoundError):
            os.remove(part)
        if not mode or not isinstance(error, PermissionError):
            raise
    return write_to(path, "wb", data)


def write_to(path: str, how: str, data: bytes) -> None:
    with open(path, how) as file:
        file.write(data)


def run_on_disk(words: list[str]) -> int:
    command, operands = operands_of(words)
    kinds = COMMANDS[command]
    given: list[Any] = [opened(it) if kind == "file" else it for kind, it in zip(kinds, operands)]
    if "files" in kinds:
        given.append(files_for(command, given[0]))
    result = run(command, *given)
    try:
        print_to(1, result.out)
    except OSError:
        raise Failed(SYSTEM, "cannot write standard output") from None
    for name, data in result.files.items():
        try:
            write(name, data, name in result.restat)
        except (OSError, ValueError, Failed):
            raise Failed(SYSTEM, f"cannot write {name}") from None
    with contextlib.suppress(OSError):
        print_to(2, result.err)
    return result.status


def main(words: list[str]) -> int:
    """Runs a command, and returns the status of the program."""
    try:
        return run_on_disk(words)
    except MemoryError:
        status, line = SYSTEM, "out of memory"
    except Failed as failed:
        status, line = failed.args
    except OSError as error:  # there is no library
        status, line = SYSTEM, str(error)
    shown = bytes(63 if it < 32 or it == 127 else it for it in os.fsencode(f"dyncollate: {line}"))
    with contextlib.suppress(OSError):
        print_to(2, shown + b"\n")
    return int(status)


if __name__ == "__main__":
    sys.exit(main(sys.argv[1:]))
