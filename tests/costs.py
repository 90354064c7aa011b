"""What a run costs follows the size of its input, without a clock: instructions, allocations, the
bytes that these ask for, and the most bytes that are held at once.

Twice the input costs at most 2.4 times as much, and an input that is made to be expensive costs at
most a small multiple of the ordinary input next to it. The inputs are those of `bench/run hostile`
(`bench/hostile/shapes.py`), in small sizes. valgrind counts the instructions, which are the same on
each machine with the same libraries, whatever else runs.
"""
import functools
import os
import re
import shutil
import sys
from pathlib import Path

from tests import embedded
from tests.case import Case, each
from tests.program import PROGRAM, TOP, caller, emptied, library
from tests.run import output_of
from tests.side_by_side import side_by_side

load_tests = side_by_side
NEEDS_LIBRARY = True

COSTS = "instructions", "allocations", "bytes asked for", "bytes held"
LIMIT = 1.2  # how many times as much a byte of the input may cost if there are twice as many

# Small, but so large that the cost of a shape would be seen: if a table searches all its entries,
# say, this is more than a tenth of what a run does.
SIZES = {"edges": 1 << 18, "dyndep": 1 << 18, "outputs": 2000, "lengths": 2000,
         "modules": 1500, "targets": 2500, "keyless": 1500, "sharing": 1500, "work-dir": 400,
         "ext": 400, "paths": 100, "requires": 1600, "info": 3200, "plugins": 40, "names": 1200,
         "services": 40, "providers": 100, "links": 60, "diamonds": 10, "shared": 40,
         "again": 2000, "rules": 2000, "linked": 2000, "relinked": 100}

# What costs no more than an ordinary input, by shape. All but the last differ by their names only.
ALIKE = {it: COSTS for it in ("edges", "dyndep", "outputs", "lengths", "modules", "targets",
                             "keyless", "sharing")}
ALIKE["paths"] = ["bytes held"]
ALIKE_LIMIT = 1.1

# The functions whose instructions are counted in place of all, by shape: reading the links of a
# project takes many times what it takes to look them up.
PARTS = {"links": "*::Pool::part"}


@functools.lru_cache(None)
def shapes():
    """The module with the inputs, and the program that finds names for it, which is compiled."""
    file = os.memfd_create("collide")
    os.environ["COLLIDE"] = path = f"/proc/{os.getpid()}/fd/{file}"
    output_of("g++", "-O2", "-std=c++20", "-o", path, f"{TOP}/bench/collide.cpp")
    sys.path.insert(0, f"{TOP}/bench/hostile")
    try:
        import shapes as found
    finally:
        sys.path.pop(0)
    return found


def size_of(directory):
    return sum(it.stat().st_size for it in Path(directory).rglob("*") if it.is_file())


def costs_of(*words, program=PROGRAM, ends=0, part=None):
    """What a run in this directory costs, in the order of COSTS. It has to end with this status.
    If there is a part, only the instructions of the function of this name are counted."""
    counts = os.memfd_create("counts")
    options = ["--tool=callgrind", "--callgrind-out-file=/dev/null"]
    options += [f"--toggle-collect={part}"] if part else []
    valgrind = caller(shutil.which("valgrind"))
    begun = valgrind.begin(*options, program, *words, others=[(3, counts)],
                           LD_PRELOAD=library("count_allocations.c"))
    status, _, err = valgrind.end(begun, seconds=300)
    found = re.search(rb"Collected : ([1-9]\d*)\n", err)
    counted = emptied(counts).split()
    os.close(counts)
    if status != ends or not found or len(counted) != len(COSTS) - 1:
        raise AssertionError(f"{words[:2]} ended with status {status}: {err[-1000:]!r}")
    return [int(it) for it in (found[1], *counted)]


class Costs(Case):
    seconds = 20

    def setUp(self):
        missing = [it for it in ("valgrind", "g++") if not shutil.which(it)]
        if missing:
            self.skipTest(f"{', '.join(missing)}: not there")
        super().setUp()
        self.room = Path.cwd()

    def at(self, directory, words, **given):
        """The bytes of the files in a directory, and what a run there costs."""
        os.chdir(self.room / directory)
        return size_of("."), costs_of(*words, **given)

    def grows(self, small, large, costs=COSTS, what=""):
        """A byte of the larger input costs no more than one of the smaller."""
        limit = LIMIT * large[0] / small[0]
        for name, before, after in zip(costs, small[1], large[1]):
            self.assertLessEqual(after, limit * before, f"{what} {name}: {before}, then {after}, "
                                 f"with {small[0]} and {large[0]} bytes of input")


@each(SIZES)
class Shapes(Costs):

    def check(self, label):
        _, shape, _, limit = next(it for it in shapes().SHAPES if it[0] == label)
        sizes = SIZES[label], 2 * SIZES[label]
        for size in sizes:
            words = shape(self.room / f"made{size}", self.room / f"ordinary{size}", size)
        part, ends = PARTS.get(label), int(label in shapes().REJECTED)
        small, large = (self.at(f"made{size}", words, part=part, ends=ends) for size in sizes)
        ordinary = self.at(f"ordinary{sizes[1]}", words, part=part)
        self.grows(small, large)
        for name, made, usual in zip(COSTS, large[1], ordinary[1]):
            most = ALIKE_LIMIT if name in ALIKE.get(label, ()) else limit
            self.assertLessEqual(made, most * usual, f"{name}: {made}, and {usual} if ordinary")


# A member that is nearly all of a document, and how many times the bytes of the document a run asks
# for at most, and holds at once.
DOCUMENTS = {"string": ("a" * 200_000, 5, 4), "values": ([{"a": 1}] * 25_000, 150, 150)}


@each(DOCUMENTS)
class Documents(Costs):
    """Scan documents and info files are held once, and so are their trees."""

    def check(self, kind):
        member, *limits = DOCUMENTS[kind]
        for name, other in ("scans", {"rules": []}), ("linked", {"target": "l", "modules": []}):
            directory = self.room / name
            shapes().write(directory / "file", {**other, "version": 1, "ignored": member})
            shapes().write_target(directory, **{"scans": [], name: ["file"]})
            size, (_, _, *counts) = self.at(name, ["collate", "target"])
            for what, limit, count in zip(COSTS[2:], limits, counts):
                self.assertLessEqual(count, limit * size, f"{name} {what}: {count}, for {size}")


@each(["one", "collate", "project", "order", "effect", "show"])
class Ordinary(Costs):
    """An ordinary input of each command."""

    def check(self, command):
        made = []
        for size in 300, 600:
            directory = self.room / str(size)
            words = getattr(self, command)(directory, size)
            made.append(self.at(directory, words))
        self.grows(*made, what=command)

    def rules(self, first, count):
        return [shapes().rule(f"o/{it}.o", [f"m{it}"], [f"m{it - 1}"] * (it % 9 > 0))
                for it in range(first, first + count)]

    def one(self, directory, size):
        shapes().write_scan(directory, self.rules(0, size))
        return "one", "scan", "mod", ".bmi"

    def collate(self, directory, size):
        self.one(directory, size)
        (directory / "o").mkdir()
        shapes().write_target(directory, map="clang")
        return "collate", "target"

    def project(self, directory, size):
        project = shapes().Project(directory)
        for number in range(size // 10):
            low = [f"t{it}" for it in range(number - number % 5, number)]
            names = [f"t{number}.m{it}" for it in range(10)]
            required = [[f"{it}.m9" for it in low]] + [[it] for it in names]
            project.add(f"t{number}", [([it], below) for it, below in zip(names, required)], low,
                        map="gcc")
        return project.written()

    def order(self, directory, size):
        lines = [f"build o{it}: r i{it} o{it // 2}.h || d\n  dyndep = d\n" for it in range(size)]
        shapes().write(directory / "edges", "".join(lines))
        return "order", "edges"

    def show(self, directory, size):
        lines = [f"build o{it} | b{it}: dyndep | b{it // 2}\n  restat = 1\n" for it in range(size)]
        shapes().write(directory / "d", "ninja_dyndep_version = 1\n" + "".join(lines))
        return "show", "d"

    def effect(self, directory, size):
        self.order(directory, size)
        self.show(directory, size)
        return "effect", "d", "edges", "d"


@embedded.needs_library
class Files(Costs):
    """A call of the library with many files, most of which nothing names. (The program that calls
    it asks for more and more.)"""

    def test_files(self):
        program = f"{self.room}/collate"
        output_of("gcc", "-O1", "-o", program, f"{embedded.EXAMPLES}/collate.c",
                  f"-I{TOP}/include", embedded.STATIC)
        made = []
        for size in 600, 1200:
            directory = self.room / str(size)
            names = [f"{number}.ddi" for number in range(size)]
            for number, name in enumerate(names):
                shapes().write_scan(directory, [{"primary-output": f"o/{number}"}], name)
            others = [f"other{number}" for number in range(10 * size)]
            for name in others:
                shapes().write(directory / name, "")
            shapes().write(directory / "target", shapes().target("t", scans=names))
            made.append(self.at(directory, ["target", *others, *names], program=program))
        self.grows(*made, costs=COSTS[:1])
