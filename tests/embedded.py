"""libdyncollate, which `./build library` leaves in crates/c_library/out, or in the directory that
the environment names as LIBRARY; and the arguments of its functions for a row."""
import functools
import importlib
import os
import shutil
import sys
import unittest

from tests.program import TOP, needs
from tests.run import output_of

EXAMPLES = f"{TOP}/examples/embed"
PACKAGE = f"{TOP}/python"
DIRECTORY = os.path.abspath(os.environ.get("LIBRARY", f"{TOP}/crates/c_library/out"))
SHARED, STATIC = f"{DIRECTORY}/libdyncollate.so.1", f"{DIRECTORY}/libdyncollate.a"


def needs_library(cls):
    """A decorator of a class: its tests need the library as it is in the sources.
    They are skipped if there is none."""
    is_there = os.path.exists(SHARED) and os.path.exists(STATIC)
    return (needs("library")(cls)
            if is_there else unittest.skip("there is no library; ./build library makes it")(cls))



def needs_tools(*names):
    missing = [name for name in names if not shutil.which(name)]
    return unittest.skipIf(missing, f"{', '.join(missing)}: not there")


@functools.lru_cache(None)
def module(name="dyncollate"):
    """The Python package, or a module of it, with the library that is tested."""
    os.environ["DYNCOLLATE_LIBRARY"] = SHARED
    sys.path.insert(0, PACKAGE)
    try:
        return importlib.import_module(name)
    finally:
        sys.path.remove(PACKAGE)


def calls():
    """The module of the package that calls the library."""
    return module("dyncollate._library")


def is_opened(row, index):
    """Whether an argument of the row's command is a file that the command opens first."""
    return index in ((1, 2) if row.words[0] == "effect" else (0,))


def arguments(row):
    words = list(row.words[1:])
    if "--" in words:
        words.remove("--")
    return words


def is_asked(row):
    """Whether a row is also a call of the library: its command line is valid, the caller can read
    the files that it names, and can write those that it makes."""
    return row.status != 2 and not (row.line or b"").startswith(b"cannot write") and all(
        word in row.files for index, word in enumerate(arguments(row)) if is_opened(row, index))


def given(row):
    """The arguments of the function for a row's command: strings of bytes, and a dictionary for
    files. A file is also in it by the name that a document uses, if the row uses another form of
    it."""
    files = row.texts()
    files |= {f"./{name}": text for name, text in files.items()
              if any(b'"./%s"' % name.encode() in it for it in files.values())}
    passed = [files[word] if is_opened(row, index) else os.fsencode(word)
              for index, word in enumerate(arguments(row))]
    return passed + [files] * (row.words[0] in ("collate", "project"))


def compiled(compiler, *words, to):
    """Compiles without a warning, and returns the name of the program."""
    output_of(compiler, "-Wall", "-Wextra", "-Werror", "-g", f"-I{TOP}/include", *words, "-o", to)
    return to
