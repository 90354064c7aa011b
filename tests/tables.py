"""The tables of rows themselves, and the table of README.md."""
import hashlib
import importlib
import re
import unittest
from pathlib import Path

from tests import modules_with_tests

SUBJECTS = ["arguments", "scan_documents", "infos", "targets", "projects", "modules",
            "dyndep_files", "listings", "effects"]


def all_rows():
    """The rows of all subjects."""
    return [row for subject in SUBJECTS
            for row in importlib.import_module(f"tests.rows.{subject}").ROWS]


def worked():
    """The rows that are taken with more than a plain call."""
    return [row for row in all_rows() if row.is_worked]


class Tables(unittest.TestCase):
    def test_no_row_is_there_twice(self):
        """No two rows have the same arguments and the same files."""
        known, twice = {}, []
        for row in all_rows():
            files = ((name, hashlib.sha256(text).digest())
                     for name, text in sorted(row.texts().items()))
            earlier = known.setdefault((tuple(row.words), *files), row)
            if earlier is not row:
                twice.append((earlier.name, row.name))
        self.assertEqual(twice, [])

    def test_readme_lists_each_module(self):
        """The table of README.md has each module with tests, once."""
        rows = re.findall(r"^\| (`.*?) \|",
                          Path(__file__).with_name("README.md").read_text(encoding="utf-8"), re.M)
        listed = [name for row in rows for name in re.findall(r"`(\w+)`", row)]
        self.assertEqual(sorted(listed),
                         [it.__name__.split(".")[-1] for it in modules_with_tests()])
