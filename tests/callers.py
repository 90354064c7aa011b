"""How many functions of each crate are private and have one caller: a function that tells no story
of its own is read in two places.

    python3 -m unittest tests.callers
    python3 -m tests.callers            prints the share of each crate

A function counts if it has a body, is not `pub`, is in no impl of a trait, and is named in the
bodies of one other function or of itself. The share of a crate may fall, and never rise: SHARES has
what was reached, in percent.
"""
import re
import unittest
from collections import defaultdict

from tests.reading import CRATES, TOP, functions

SHARES = {"ninja_text": 19, "dep_order": 31, "dyndep_file": 25, "table_keys": 0,
          "document_values": 0, "scan_docs": 34, "module_maps": 29, "module_table": 42,
          "build_effect": 35, "collate_core": 33, "command_line": 75, "system_files": 27,
          "commands": 36, "disk_folder": 10, "dyncollate": 0, "in_memory": 29, "c_library": 0}


def of_crate(crate):
    """The functions of a crate, and those of them that are private and have one caller."""
    found = [one for path in sorted((TOP / crate / "src").rglob("*.rt"))
             for one in functions(crate, path)]
    texts = "\n".join(re.sub(r"//.*", "", path.read_text())
                      for path in sorted((TOP / crate / "src").rglob("*.rt")))
    callers = defaultdict(set)
    for one in found:
        for _, name in one.calls:
            callers[name].add((one.type, one.name))
    private = [one for one in found if not one.public and not one.trait and one.name != "main"
               and not re.search(rf"#\[test\]\n *fn {one.name}\b", texts)]
    return found, [one for one in private if len(callers[one.name] - {(one.type, one.name)}) == 1]


def shares():
    counted = {crate: of_crate(crate) for crate in CRATES if crate != "library_tests"}
    return {crate: (len(single), len(found)) for crate, (found, single) in counted.items()}


class Callers(unittest.TestCase):
    def test_shares(self):
        counted = shares()
        self.assertEqual(set(SHARES), set(counted))
        for crate, (single, whole) in counted.items():
            with self.subTest(crate):
                self.assertLessEqual(100 * single, SHARES[crate] * whole,
                                     f"{single} of {whole} functions have one caller")


if __name__ == "__main__":
    counts = shares()
    counts["in all"] = tuple(map(sum, zip(*counts.values())))
    for crate_, (single_, whole_) in counts.items():
        print(f"{crate_:14} {single_:4} of {whole_:4}  "
              f"{100 * single_ / whole_ if whole_ else 0:5.1f} %")
