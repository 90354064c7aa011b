"""The commands, as functions."""
from __future__ import annotations

import io
import itertools
import os
from collections.abc import Sequence
from typing import Literal, NamedTuple, Union

from ._errors import Error
from ._library import File, Files, Name, bytes_of, call, linked_version

Command = Literal["collate", "project", "one", "effect", "order", "show"]


class Result(NamedTuple):
    """What a command prints and writes. A file that `restat` names is left alone if it already has
    these bytes."""
    status: int
    out: bytes
    err: bytes
    files: dict[str, bytes]
    restat: frozenset[str]


class Statement(NamedTuple):
    """A statement of a dyndep file: its output, its implicit outputs and inputs, and whether it has
    `restat`."""
    output: bytes
    outputs: list[bytes]
    inputs: list[bytes]
    restat: bool


def run(command: Command, *given: Union[Name, File, Files]) -> Result:
    """What a command prints and writes, also if it fails. The arguments are those of the function
    of this name."""
    return result_of(*call(command, given))


def result_of(status: int, numbers: Sequence[int], text: bytes) -> Result:
    read = io.BytesIO(text).read
    out, err = read(numbers[0]), read(numbers[1])
    files, restat = {}, set()
    for name_size, size, may_be_left in zip(*[iter(() if status else numbers[2:])] * 3):
        name = read(name_size).decode()
        files[name] = read(size)
        if may_be_left:
            restat.add(name)
    return Result(status, out, err, files, frozenset(restat))


def succeeds(command: Command, *given: Union[Name, File, Files]) -> Result:
    status, numbers, text = call(command, given)
    if status:
        raise Error(status, os.fsdecode(text).rstrip("\n"), numbers[2:])
    return result_of(status, numbers, text)


def collate(document: File, files: Files) -> dict[str, bytes]:
    """The files that `dyncollate collate` writes for a target document and the files that it
    names."""
    return succeeds("collate", document, files).files


def project(document: File, files: Files) -> dict[str, bytes]:
    """The files that `dyncollate project` writes for a project document, the target documents that
    it names, and their files."""
    return succeeds("project", document, files).files


def one(scan: File, module_dir: Name, module_ext: str) -> bytes:
    """The dyndep file of a scan document."""
    return succeeds("one", scan, module_dir, module_ext).out


def effect(name: Name, edges: File, dyndep: File) -> bytes:
    """The edge list as it is once Ninja has loaded the dyndep file under this name."""
    return succeeds("effect", name, edges, dyndep).out


def order(edges: File) -> list[bytes]:
    """The first outputs of the edges, each after those that it needs."""
    return succeeds("order", edges).out.splitlines()


def show(dyndep: File) -> bytes:
    """The dyndep file as `dyncollate` writes it."""
    return succeeds("show", dyndep).out


def statements(dyndep: File) -> list[Statement]:
    """The statements of a dyndep file."""
    data = bytes_of(dyndep)
    status, numbers, text = call("statements", (data,))
    if status:
        show(data)  # raises this error
    read, following = io.BytesIO(text).read, iter(numbers)
    found: list[Statement] = []
    for restat in following:
        outputs, inputs = next(following), next(following)
        paths = [read(length) for length in itertools.islice(following, 1 + outputs + inputs)]
        found.append(Statement(paths[0], paths[1:1 + outputs], paths[1 + outputs:], bool(restat)))
    return found


def version() -> str:
    """The version of the shared object, which need not be that of this package."""
    number = linked_version()
    return f"{number // 10000}.{number // 100 % 100}.{number % 100}"
