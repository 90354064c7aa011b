"""A statement about lists, numbers or anything else is proved in one place.

    python3 -m unittest tests.lemmas
    python3 -m tests.lemmas             prints each statement that has several places

Two lemmas state the same if their types are equal up to the names of their variables. A lemma that
other crates need is in `proofs/ForCallers.antt` of the lowest crate that can state it.
"""
import re
import sys
import unittest
from collections import defaultdict
from pathlib import Path

TOP = Path(__file__).resolve().parent.parent / "crates"
# How many statements still have several places. It may fall, and never rise.
MOST = 1
DECLARED = re.compile(r"^(?:pub )?([^\s:(){}]+) : (.*(?:\n +.*)*)", re.M)
BINDER = re.compile(r"[({]([^(){}:]+) : ")
# What makes a type a statement: these words and signs are of propositions.
SAYS = re.compile(r"[≡≢≤<↔⊎⊥]|\b(?:All|Contains|Is[A-Z]\w*|Has[A-Z]\w*|Are[A-Z]\w*)\b")


def statement(type_):
    """A type with its variables numbered in order, and one space wherever it has any."""
    text = re.sub(r"\s+", " ", re.sub(r"--.*", "", type_)).strip()
    names = {}
    for binder in BINDER.finditer(text):
        for name in binder[1].split():
            names.setdefault(name, f"v{len(names)}")
    return re.sub(r"[^\s(){}.,;]+", lambda word: names.get(word[0], word[0]), text)


def statements():
    """The places of each statement: a file and the name of a lemma in it."""
    found = defaultdict(list)
    for path in sorted(TOP.glob("*/proofs/**/*.antt")):
        for name, type_ in DECLARED.findall(path.read_text()):
            text = statement(type_)
            if "(v" in text.replace("({", "(") or "{v" in text:
                if SAYS.search(text):
                    found[text].append((path.relative_to(TOP).as_posix(), name))
    return found


def repeated():
    return {text: places for text, places in statements().items() if len(places) > 1}


class Lemmas(unittest.TestCase):
    def test_names_of_variables(self):
        """Statements that differ in the names of variables alone are the same,
        and others are not."""
        one, other = ("{X : Type 0} (xs : List X) → xs ++ [] ≡ xs",
                      "{A : Type 0}\n  (as : List A) → as ++ [] ≡ as")
        self.assertEqual(statement(one), statement(other))
        self.assertNotEqual(statement(one), statement(other.replace("as ++ []", "[] ++ as")))

    def test_one_place(self):
        self.assertGreater(len(statements()), 1000)
        found = repeated()
        self.assertLessEqual(len(found), MOST,
                             "\n".join(f"{text}: {places}" for text, places in found.items()))


if __name__ == "__main__":
    for text_, places_ in sorted(repeated().items(), key=lambda one: -len(one[1])):
        print(f"{text_}\n    " + "\n    ".join(" ".join(place) for place in places_))
    print(len(repeated()), "statements have several places, of", len(statements()), file=sys.stderr)
