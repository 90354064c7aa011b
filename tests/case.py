"""Tests in their own directories, which call the program and compare its status, its output, and
the files after the run."""
import os
import re
import tempfile
import unittest

from tests import program

MEMORY = "/dev/shm" if os.access("/dev/shm", os.W_OK) else None
USAGE = 2, b"", b"dyncollate: usage\n"


def cannot(what, name):
    """The result of a run that cannot `read` or `write` a file."""
    return 3, b"", b"dyncollate: cannot %s %s\n" % (what.encode(), os.fsencode(name))


def rejected(line):
    """The result of a run that rejects its input with this line."""
    return 1, b"", b"dyncollate: %s\n" % line


def write(name, text):
    os.makedirs(os.path.dirname(name) or ".", exist_ok=True)
    with open(name, "wb") as file:
        file.write(text)


def read(name):
    with open(name, "rb") as file:
        return file.read()


def tree(top=b"."):
    """The files that are in a directory and below it, by their names from there."""
    return {os.path.relpath(os.path.join(folder, name), top): read(os.path.join(folder, name))
            for folder, _, names in os.walk(top) for name in names}


def lay(files):
    """Puts these files, and nothing else, into the directory, which has no directory in it."""
    for name in os.listdir(b"."):
        os.remove(name)
    for name, text in files.items():
        write(name, text)


@program.needs("program")
class Case(unittest.TestCase):
    """A test in a directory of its own, which is its working directory. It is in memory, if the
    system has `/dev/shm`."""

    def setUp(self):
        folder = tempfile.TemporaryDirectory(prefix="dyncollate-", dir=MEMORY)
        self.addCleanup(folder.cleanup)
        self.addCleanup(os.chdir, os.getcwd())
        os.chdir(folder.name)
        self.caller = program.caller()

    def same(self, found, wanted, what=""):
        """Fails if the two differ. They may be long."""
        if found != wanted:
            self.fail(f"{what}{': ' if what else ''}{found!r:.800}, not {wanted!r:.800}")

    def has_its_result(self, row):
        """The call of a row prints and writes what the row says, and changes no other file."""
        lay(row.texts())
        before = tree()
        self.same(self.caller.run(*row.words), row.printed(), row.name)
        self.same(tree(), before | row.made(), row.name + ": its files")

    check = has_its_result


def each(things, name=str):
    """Gives a class a test for each of some things, which its method `check` takes. The test is
    named by the thing, with a number if several have the same name."""
    def with_tests(cls):
        for thing in things:
            title = "test_" + re.sub(r"\W+", "_", name(thing), flags=re.ASCII).strip("_")
            method, number = title, 1
            while hasattr(cls, method):
                number += 1
                method = f"{title}_{number}"
            setattr(cls, method, lambda self, thing=thing: self.check(thing))
        return cls
    return with_tests
