"""The tests of libdyncollate catch libraries that are each broken in one way (broken_library.c)."""
import os
import re
import sys
import tempfile
import unittest
from pathlib import Path

from tests import embedded
from tests.case import each
from tests.program import TOP
from tests.run import output_of, run
from tests.side_by_side import SideBySide

NEEDS_LIBRARY = True

# Tests that pass with a library that works but accepts no input, and the broken libraries that they
# catch. The last three notice that it accepts no input.
BROKEN = {"library.InC.test_each_allocation_fails": ["A_LEAK", "A_LEAK_IF_AN_ALLOCATION_FAILS",
                                                     "A_BYTE_BEFORE_THE_ROOM"],
          "library.InC.test_threads": ["A_BYTE_AFTER_THE_INPUT"],
          "library.Rooms": ["A_NUMBER_AFTER_THE_RESULT", "A_NUMBER_IN_TOO_LITTLE_ROOM",
                            "TEXT_IN_TOO_LITTLE_ROOM"],
          "library_files.Linked": ["A_STATE", "A_CALL_OF_THE_SYSTEM", "ANOTHER_SYMBOL"],
          "fuzzing.Targets.test_show": ["A_LEAK", "A_BYTE_AFTER_THE_INPUT"], "library.Rows": [],
          "library.Misuses": [], "library_files.Examples": [],}


def built(folder, how):
    """Puts a library that is broken in this way into a directory,
    as `./build library` makes one."""
    commands = [["gcc", "-O1", "-fPIC", f"-D{how}", f"-I{TOP}/include",
                 "-c", f"{TOP}/tests/broken_library.c", "-o", "broken.o"],
                ["ar", "rcs", "libdyncollate.a", "broken.o"],
                ["gcc", "-shared", "-Wl,-soname,libdyncollate.so.1,--version-script=versions", "-o",
                 "libdyncollate.so.1", "broken.o"]]
    Path(folder, "versions").write_text("DYNCOLLATE_1 { global: dyncollate_*; local: *; };\n")
    for command in commands:
        output_of(*command, cwd=folder)


def tests_with(how, tests):
    """What tests print if the library is broken in this way."""
    with tempfile.TemporaryDirectory(prefix="dyncollate-") as folder:
        built(folder, how)
        return run(sys.executable, "-B", "-m", "unittest", f"tests.{tests}", cwd=TOP,
                   env=os.environ | {"LIBRARY": folder})[1]


@embedded.needs_tools("gcc", "ar")
@each(BROKEN)
class BrokenLibraries(unittest.TestCase):
    """The tests fail if the library is broken, and pass if it is not."""
    seconds = 10

    def check(self, tests):
        found = tests_with("NOTHING", tests)
        if re.search(r"OK \(skipped=", found):
            self.skipTest("a tool is not there")
        self.assertEqual(bool(re.search(r"\n\nOK", found)), bool(BROKEN[tests]), found[-3000:])
        for how in BROKEN[tests]:
            with self.subTest(how):
                self.assertRegex(tests_with(how, tests), r"\nFAILED \(failures=")


def load_tests(_loader, tests, _pattern):
    return SideBySide(tests)
