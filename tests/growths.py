"""Each allocation fails in turn: the first one of a run, then the second one,
and so on until a run ends without a failure.

- The worked rows, by the program. A run has to report that memory ran out, and leave a beginning of
  its files new and all others
  old, or it has to behave as if nothing had failed, because it can do without some allocations.
- The tests of the modules `growths` of library_tests (`crates/library_tests/src/*/growths.rt`). A
  test has to succeed, or to end
  with the error that memory ran out (`AllocError`, `AllocFailed`, `Failure::Memory`). A failed
  assertion, or any other end, is a failure.
"""
import glob
import itertools
import os
import re
import unittest

from tests.case import Case, each, lay, tree
from tests.program import TOP, caller, emptied, library
from tests.run import output_of
from tests.side_by_side import side_by_side
from tests.tables import worked

load_tests = side_by_side

CRATES = "library_tests",
NO_MEMORY = 3, b"", b"dyncollate: out of memory\n"
OUT_OF_MEMORY = re.compile(rb"^error: (Alloc(Error|Failed)\b|Memory$)", re.MULTILINE)


def runs(called, words):
    """What each run printed, and whether an allocation failed in it.
    In the last run none failed."""
    mark = os.memfd_create("mark")
    try:
        number, has_failed = 0, True
        while has_failed:
            number += 1
            ran = called.run(*words, others=[(3, mark)], LD_PRELOAD=library("failing_allocation.c"),
                             FAILING_ALLOCATION=str(number))
            has_failed = bool(emptied(mark))
            yield ran, has_failed
        if number == 1:
            raise AssertionError("the run allocates nothing")
    finally:
        os.close(mark)


def are_begun(there, before, made):
    """Whether a beginning of the files that the run makes is new, in the order in which it writes
    them, and all others are as they were: the name of a new file needs memory, so files before it
    may be new."""
    return any(there == before | dict(itertools.islice(made.items(), news))
               for news in range(len(made) + 1))


@each(worked(), lambda row: row.name)
class Program(Case):
    seconds = 2

    def check(self, row):
        before, made = row.texts(), row.made()
        lay(before)
        before = tree()
        for number, (ran, has_failed) in enumerate(runs(self.caller, row.words), 1):
            there = tree()
            if not (has_failed and ran == NO_MEMORY and are_begun(there, before, made)):
                what = f"allocation {number} failed" if has_failed else "no allocation failed"
                self.same((ran, there), (row.printed(), before | made), what)
                lay(row.texts())


def test_names(crate):
    """The tests of the modules `growths` of a crate, by their names in its sources."""
    source = f"{TOP}/crates/{crate}/src/"
    for file in sorted(glob.glob(source + "**/growths.rt", recursive=True)):
        module = file[len(source):-len(".rt")].replace("/", "::")
        with open(file, encoding="utf-8") as text:
            for name in re.findall(r"#\[test\]\s+(?:#\[.*\]\s+)*fn (\w+)", text.read()):
                yield crate, f"{module}::{name}"


def is_current(tests):
    """Whether these tests, which `rt ci` or `rt test` built, are newer than the sources."""
    if not os.access(tests, os.X_OK):
        return False
    return not output_of("find", f"{TOP}/crates", f"{TOP}/crates.txt", "-name", "out", "-prune",
                         "-o", "-type", "f", "(", "-name", "*.rt", "-o", "-name", "crates.txt", ")",
                         "-newer", tests, "-print", "-quit")


def tests_of(crate):
    """The program of the crate's tests, which the gate or `rt test` makes,
    or None if it is older than the sources."""
    tests = f"{TOP}/crates/{crate}/out/{crate}_tests"
    return tests if is_current(tests) else None


@each([it for crate in CRATES for it in test_names(crate)], "::".join)
class Libraries(unittest.TestCase):
    seconds = 20

    def check(self, it):
        crate, name = it
        tests = tests_of(crate)
        if not tests:
            # ./test runs the gate before, which makes them
            missing = self.fail if "TESTS" in os.environ else self.skipTest
            missing(
                f"the tests of the libraries are not built: `rt test` in crates/{crate} proves and "
                "builds them")
        for number, (ran, has_failed) in enumerate(runs(caller(tests), [name]), 1):
            status, _, err = ran
            if status and not (has_failed and OUT_OF_MEMORY.search(err)):
                self.fail(
                    f"{f'allocation {number}' if has_failed else 'no allocation'} failed: status "
                    f"{status}: {err!r:.300}")

    def test_each_crate_has_such_tests(self):
        self.assertEqual({crate for crate in CRATES for _ in test_names(crate)}, set(CRATES))
