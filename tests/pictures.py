"""The pictures of the times in docs/COMPARED.md are those that bench/picture draws from the page's
tables.

    python3 -m unittest tests.pictures
    bench/picture objects > docs/time.svg
    bench/picture targets > docs/targets.svg
    bench/picture layers > docs/cmake-layers.svg
    bench/picture chain > docs/cmake-chain.svg
"""
import sys
import unittest
from pathlib import Path

from tests.run import output_of

TOP = Path(__file__).resolve().parent.parent


class Pictures(unittest.TestCase):
    def check(self, what, picture):
        self.assertEqual((TOP / "docs" / picture).read_text(),
                         output_of(sys.executable, TOP / "bench/picture", what))

    def test_objects(self):
        """bench/picture objects > docs/time.svg"""
        self.check("objects", "time.svg")

    def test_targets(self):
        """bench/picture targets > docs/targets.svg"""
        self.check("targets", "targets.svg")

    def test_layers(self):
        """bench/picture layers > docs/cmake-layers.svg"""
        self.check("layers", "cmake-layers.svg")

    def test_chain(self):
        """bench/picture chain > docs/cmake-chain.svg"""
        self.check("chain", "cmake-chain.svg")


if __name__ == "__main__":
    unittest.main()
