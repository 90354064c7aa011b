"""The parts of an error line, as explain/error_line.py takes it apart."""
import os
import sys
import unittest
from pathlib import Path
from unittest import mock

from tests.tables import all_rows

EXPLAIN = str(Path(__file__).resolve().parent.parent / "explain")
with mock.patch.object(sys, "path", [EXPLAIN, *sys.path]):
    from error_line import error_of, named_by, status_of


class Lines(unittest.TestCase):
    def test_rows(self):
        """The parts of each line of the program make the line again."""
        lines = {os.fsdecode(row.line) for row in all_rows() if row.line}
        self.assertGreater(len(lines), 200)
        for line in lines:
            it = error_of(f"dyncollate: {line}\n")
            number = "" if it.index is None else f" {it.index}"
            self.assertEqual(line.rstrip(), "".join([
                f"target {it.target}: " if it.target is not None else "",
                f"{it.document}{number}: " if it.document else "",
                f"line {it.line}: " if it.line is not None else "",
                f"{it.code} {it.name} {it.rest}".strip()]))
            words = {"usage", "cannot read", "cannot write", "out of memory", "cycle"}
            self.assertEqual(it.code == "", it.name in words)

    def test_other_lines(self):
        for line in ("", "M5", "dyncollate: ", "b.ddi: S1 NotJson document",
                     "dyncollate-cmake: scan 0: S1 NotJson"):
            self.assertIsNone(error_of(line), line)
        lines = "usage", "cannot read x", "dyncollate: out of memory", "S1 NotJson document", "x"
        self.assertEqual([status_of(it) for it in lines], [2, 3, 3, 1, 1])
        document = {"scans": ["a", "b"], "linked": ["c"]}
        self.assertEqual([named_by(error_of(f"{it}: S1 NotJson document"), document) for it in (
            "scan 1", "info 0", "info 1", "target")], ["b", "c", None, None])
