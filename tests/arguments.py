"""Command lines: which are valid, what each argument means, and which file is read."""
import os
import unittest

from tests.case import USAGE, Case, each
from tests.program import TOP
from tests.rows import arguments as rows
from tests.run import run, run_as_bytes


@each(rows.ROWS, lambda row: row.name)
class CommandLines(Case):
    """Calls with these arguments."""


class Script(Case):
    @unittest.skipIf("DYNCOLLATE" in os.environ,
                     "another program is to be tested than the one that is built here")
    def test_dyncollate_at_the_top(self):
        """The script at the top calls the program, which has to be current:
        otherwise the script would build it."""
        self.assertEqual(run(f"{TOP}/build", "--is-current"), (0, ""),
                         "the program is not current; ./build makes it")
        self.same(run_as_bytes(f"{TOP}/dyncollate"), USAGE)
