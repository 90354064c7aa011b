"""Calls the program on random documents, and compares the results with what must hold of them.

    python3 -m unittest tests.random_documents          a minute, in as many processes as there are
                                                        processors, up to four
    python3 -m tests.random_documents --minutes 60      a long run, in all processors;
                                                        --help shows its options

A round makes a dyndep file with random escapes and line ends, a scan document, an edge list and the
dyndep file of its objects, or a project (random_rounds.py). The expected results are known from how
the files were made. Then a file of the round is damaged some times, its bytes or the values of its
members. The modules in the directory `expected` also compute the result of any call.

A round is made from its kind and its seed, a number. The minute begins with the seed in the
environment's RANDOM_SEED, or with a random one, and tries each kind for RANDOM_SECONDS. The files
of a call that differs are made smaller before they are shown (smaller.py).
"""
import argparse
import copy
import json
import multiprocessing
import os
import random
import tempfile
import time
import unittest
from collections import namedtuple

from tests.case import MEMORY, read, tree, write
from tests.expected.runs import result_of, ending
from tests.program import Caller, needs
from tests.random_rounds import ROUNDS, Choices
from tests.side_by_side import SideBySide
from tests.smaller import smaller

PROCESSORS = len(os.sched_getaffinity(0))

# how often a file of a round is damaged
DAMAGES = 20
SEEDS = 1_000_000_000


class Differs(Exception):
    """A call with another result than it has to have, and what is wrong with it."""

    def __init__(self, words, wrong):
        super().__init__(wrong)
        self.words, self.wrong = words, wrong


class Program:
    """The program, called in the current directory."""

    def __init__(self):
        self.caller, self.calls = Caller(), 0

    def difference(self, words):
        """What the call prints, what it has to print, and what is wrong with it, or None:
        tests/expected works this out."""
        wanted, files = ending(result_of(*words))
        found = self.caller.run(*words)
        self.calls += 1
        if found != wanted:
            return found, wanted, f"printed {found!r:.1000}, not {wanted!r:.1000}"
        for name, text in files.items():
            there = read(name) if os.path.isfile(name) else None
            if there != text:
                return (found, wanted,
                        f"wrote {there!r:.1000} to {os.fsdecode(name)}, not {text!r:.1000}")
        return found, wanted, None

    def checked(self, words):
        found, _, wrong = self.difference(words)
        if wrong:
            raise Differs(words, wrong)
        return found

    def done(self, wanted, *words):
        """The call succeeds, and prints this text, or any text if none is given."""
        status, out, err = self.checked(words)
        if status or err or wanted not in (None, out):
            raise Differs(words, f"printed {(status, out, err)!r:.2000}, not {wanted!r:.2000}")
        return out

    def rejected(self, line, *words):
        """The call rejects its input with this line."""
        ran = self.checked(words)
        if ran != (1, b"", b"dyncollate: " + line + b"\n"):
            raise Differs(words, f"printed {ran!r:.1000}, not {line!r:.1000}")

    def equal(self, name, found, wanted):
        if found != wanted:
            raise Differs((), f"{name}: {found!r:.2000}, not {wanted!r:.2000}")

    def made_smaller(self, words):
        """The files of this directory, with as much left out as leaves the call wrong with the same
        two statuses, and what is wrong with it then; or None if the call has the result that
        tests/expected has."""
        def difference_with(files):
            for name in tree():
                os.remove(name)
            for name, text in files.items():
                write(name, text)
            found, wanted, wrong = self.difference(words)
            return wrong and (found[0], wanted[0]), wrong

        files = tree()
        statuses, wrong = difference_with(files) if words else (None, None)
        if not wrong:
            return None
        files = smaller(files, lambda files: difference_with(files)[0] == statuses)
        return files, difference_with(files)[1]


# ---- damage

BYTES = b"\x00\n\r $:|\"\\\x7f\x80\xff{}[],#=0a-"


def damaged(make, text):
    """The text with some of its bytes left out, put in or changed, or cut off."""
    text = bytearray(text)
    for _ in range(make.r.choice([1, 1, 2, 5])):
        at = make.r.randrange(len(text) + 1)
        how = make.r.randrange(4)
        if how == 0:
            del text[at:]
        elif how == 1:
            del text[at: at + make.r.randint(1, 4)]
        elif how == 2:
            text[at:at] = bytes([make.r.choice(BYTES)])
        elif at < len(text):
            text[at] = make.r.choice(BYTES)
    return bytes(text)


# members that may be added to any object, and values that may be in the place of any
MEMBERS = ["version", "rules", "primary-output", "work-directory", "provides", "requires",
           "logical-name", "compiled-module-path", "is-interface", "unique-on-source-path",
           "lookup-method", "target", "module-dir", "build-dir", "scans", "linked", "private",
           "info", "map", "edges", "restat", "modules", "bmi", "name", "visibility", "targets",
           "unknown"]
VALUES = [None, True, False, 0, 1, 2, 1.5, "", "a/..", "..", "/b", "/b/c", "x", "x:y", "x y",
          "x\x7f", "by-name", "include-angle", "private", "gcc", "clang", "edges", [], {}]


def turned(make, text):
    """The JSON text with some of its values taken out, doubled or added,
    or put in the place of others."""
    tree_of = {"": json.loads(text)}
    for _ in range(make.r.choice([1, 1, 2, 3])):
        values, left = [], [tree_of]
        for it in left:
            inner = list(it.items() if isinstance(it, dict) else enumerate(it))
            values += [(it, key, value) for key, value in inner]
            left += [value for _, value in inner if isinstance(value, (dict, list))]
        above, key, value = make.r.choice(values)
        how = make.r.randrange(3)
        if how == 0 and above is not tree_of:
            del above[key]
        elif how == 1 and isinstance(above, list):
            above.append(copy.deepcopy(value))
        else:
            key = make.r.choice(MEMBERS) if how == 1 and above is not tree_of else key
            above[key] = copy.deepcopy(make.r.choice([it for _, _, it in values] + VALUES))
    return json.dumps(tree_of[""]).encode()


def damage(make, program, words, file):
    """The result for damaged bytes of a file is the right one."""
    kept = read(file)
    is_document = file.endswith((".json", ".ddi", ".info"))
    write(file, turned(make, kept) if is_document and make.chance(60) else damaged(make, kept))
    status, out, _ = program.checked(words)
    if not status and words[0] == "show":
        write("again.dd", out)
        program.done(out, "show", "again.dd")
    write(file, kept)


# ---- rounds

def round_tried(program, kind, seed):
    """Makes a round in the current directory."""
    make = Choices(f"{kind} {seed}")
    words, file = ROUNDS[kind](make, program)
    for _ in range(DAMAGES):
        damage(make, program, words, file)


def shown(program, kind, seed, fault):
    """What is shown of a round that differs."""
    lines = [f"{kind}, seed {seed}: {' '.join(map(repr, fault.words))}: {fault.wrong}"]
    small = program.made_smaller(fault.words)
    if small:
        lines += ([f"with these files it {small[1]}"] + [f"    {os.fsdecode(name)}: {text!r}"
                                                         for name, text in small[0].items()])
    lines.append(f"again: python3 -m tests.random_documents --kind {kind} --seed {seed} --rounds 1")
    return "\n".join(lines)


# the numbers of rounds and calls, and the reports of calls with wrong results
Tried = namedtuple("Tried", "rounds calls failures")


def tried(kinds, seeds, until):
    """Rounds of these kinds, by these seeds, until a time, or until one differs."""
    program, rounds, failures = Program(), 0, []
    above = os.getcwd()
    for kind, seed in ((kind, seed) for seed in seeds for kind in kinds):
        if time.monotonic() >= until or failures:
            break
        with tempfile.TemporaryDirectory(prefix="dyncollate-", dir=MEMORY) as folder:
            os.chdir(folder)
            try:
                round_tried(program, kind, seed)
            except Differs as fault:
                failures.append(shown(program, kind, seed, fault))
            os.chdir(above)
        rounds += 1
    return Tried(rounds, program.calls, failures)


def tried_by_all(kinds, seeds, seconds, processes):
    """The same by several processes, each by some of the seeds."""
    until = time.monotonic() + seconds
    with multiprocessing.Pool(processes) as pool:
        parts = pool.starmap(tried,
                             [(kinds, seeds[at::processes], until) for at in range(processes)])
    return Tried(sum(it.rounds for it in parts), sum(it.calls for it in parts),
                 [text for it in parts for text in it.failures])


@needs("program")
class RandomDocuments(unittest.TestCase):
    """A minute, if there are four processors."""
    seconds = float(os.environ.get("RANDOM_SECONDS") or 15 * min(4, PROCESSORS))

    def check(self, kind):
        first = int(os.environ.get("RANDOM_SEED") or random.randrange(SEEDS))
        found = tried([kind], range(first, first + SEEDS), time.monotonic() + self.seconds)
        print(f"random documents: {kind}, from seed {first}: {found.rounds} rounds, {found.calls} "
              "calls", flush=True)
        self.assertTrue(found.rounds)
        self.assertFalse(found.failures, "\n" + "\n".join(found.failures))

    def test_dyndep_files(self):
        self.check("dyndep_files")

    def test_scan_documents(self):
        self.check("scan_documents")

    def test_listings(self):
        self.check("listings")

    def test_projects(self):
        self.check("projects")


def load_tests(_loader, tests, _pattern):
    return SideBySide(tests)


def main():
    parser = argparse.ArgumentParser(prog="python3 -m tests.random_documents",
                                     description="A run on documents made at random.")
    parser.add_argument("--minutes", type=float, default=1.0, help="how long it takes at most (1)")
    parser.add_argument("--rounds", type=int, default=SEEDS,
                        help="how many rounds of each kind are made at most")
    parser.add_argument("--seed", type=int, default=random.randrange(SEEDS),
                        help="the first seed (at random)")
    parser.add_argument("--kind", choices=ROUNDS, help="rounds of this kind only")
    parser.add_argument("--processes", type=int, default=PROCESSORS,
                        help="how many there are (as many as processors)")
    given = parser.parse_args()
    print(f"random documents: from seed {given.seed}", flush=True)
    begun = time.monotonic()
    kinds = [given.kind] if given.kind else list(ROUNDS)
    found = tried_by_all(kinds, range(given.seed, given.seed + given.rounds), given.minutes * 60,
                         given.processes)
    for text in found.failures:
        print(text)
    print(f"random documents: {found.rounds} rounds, {found.calls} calls in "
          f"{(time.monotonic() - begun) / 60:.1f} minutes, {len(found.failures)} differ")
    return 1 if found.failures else 0


if __name__ == "__main__":
    raise SystemExit(main())
