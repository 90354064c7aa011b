"""The Python package: its arguments, errors and types."""
import copy
import os
import pickle
import re
import sys
import tempfile
import unittest
from pathlib import Path

from tests import broken_libraries, embedded
from tests.case import each
from tests.program import TOP
from tests.run import InRoom, run
from tests.tables import all_rows

NEEDS_LIBRARY = True

TARGET = (
    b'{"version":1,"target":"app","module-dir":"bmi","module-ext":".pcm","scans":["main.ddi"],'
    b'"dyndep":"app.dd","info":"app.info.json"}')
SCAN = b'{"version":1,"rules":[{"primary-output":"main.o"}]}'
DYNDEP = b"ninja_dyndep_version = 1\nbuild main.o: dyndep\n"
# A line that the program prints after its name: the code and the name in it, the document,
# the place, and the names.
ERRORS = [
    ("scan 2: S1 NotJson document", "S1", "NotJson", "scan", {"scan": 2}, ()),
    ("info 0: S3 BadShape module 1 requires 4 member bmi", "S3", "BadShape", "info",
     {"info": 0, "module": 1, "requires": 4}, ("bmi",)),
    ("scan 0: S7 BadPath rule 3 provides 1 N1 Empty", "S7", "BadPath", "scan",
     {"scan": 0, "rule": 3, "provides": 1}, ()),
    ("target: S3 BadShape document member module-dir", "S3", "BadShape", "target", {},
     ("module-dir",)),
    ("target 1: target: S2 BadVersion document", "S2", "BadVersion", "target", {"target": 1}, ()),
    ("target 2: scan 0: S6 BadName rule 1 requires 0", "S6", "BadName", "scan",
     {"target": 2, "scan": 0, "rule": 1, "requires": 0}, ()),
    ("project: S8 TooLarge document", "S8", "TooLarge", "project", {}, ()),
    ("name: N2 AboveRoot", "N2", "AboveRoot", "name", {}, ()),
    ("line 2: N9 Variable at 6", "N9", "Variable", "dyndep", {"line": 2, "offset": 6}, ()),
    ("line 3: Y15 BadBinding", "Y15", "BadBinding", "dyndep", {"line": 3}, ()),
    ("edges: line 1: E3 Path N1 Empty", "E3", "Path", "edges", {"line": 1}, ()),
    ("target 1: edges: line 7: E3 Form", "E3", "Form", "edges", {"target": 1, "line": 7}, ()),
    ("edges: line 2: N10 BadEscape at 5", "N10", "BadEscape", "edges", {"line": 2, "offset": 5},
     ()),
    ("M1 ObjectTwice a b.o", "M1", "ObjectTwice", None, {}, ("a b.o",)),
    ("M2 InfoTwice a lib", "M2", "InfoTwice", None, {}, ("a lib",)),
    ("M3 ProvidedTwice A:p by object a b.o and info a lib", "M3", "ProvidedTwice", None, {},
     ("A:p", "a b.o", "a lib")),
    ("M4 BmiTwice m/A B.bmi by info k and info l", "M4", "BmiTwice", None, {},
     ("m/A B.bmi", "k", "l")),
    ("target 2: M5 ModuleUnknown sum in obj/my main.o", "M5", "ModuleUnknown", None, {"target": 2},
     ("sum", "obj/my main.o")),
    ("M6 InfoUnknown a lib K B", "M6", "InfoUnknown", None, {}, ("a lib", "K", "B")),
    ("M7 InfoDisagrees k K B", "M7", "InfoDisagrees", None, {}, ("k", "K", "B")),
    ("M8 ImportCycle a b.o -> c.o -> d.o", "M8", "ImportCycle", None, {}, ("a b.o", "c.o", "d.o")),
    ("M9 ModulePrivate B of a lib in object k.o", "M9", "ModulePrivate", None, {},
     ("B", "a lib", "k.o")),
    ("M10 PrivateUnknown B", "M10", "PrivateUnknown", None, {}, ("B",)),
    ("Y2 StatementTooLong statement 4", "Y2", "StatementTooLong", None, {"statement": 4}, ()),
    ("K1 MapPath my mods/A.bmi", "K1", "MapPath", None, {}, ("my mods/A.bmi",)),
    ("target 1: K2 TwoProvided a.o", "K2", "TwoProvided", None, {"target": 1}, ("a.o",)),
    ("target 2: K3 LinkedLater", "K3", "LinkedLater", None, {"target": 2}, ()),
    ("E5 NotBound b.o", "E5", "NotBound", None, {}, ("b.o",)),
    ("E8 BadPath statement 1 path 3 N1 Empty", "E8", "BadPath", None, {"statement": 1, "path": 3},
     ()),
    ("target 1: cycle a.o -> b.o -> gen.h", None, None, None, {"target": 1},
     ("a.o", "b.o", "gen.h")),
    ("cannot read scans/a -> b.ddi", None, None, None, {}, ("scans/a -> b.ddi",)),
]
DOCUMENTS = None, "target", "project", "scan", "info", "edges", "name", "dyndep"
LISTS = None, "provides", "requires", "path"


def numbers_of(code, document, place):
    """The numbers of the library for an error."""
    found = [next((it for it in names if it in place), None) for names in (
        ["target"], ["scan", "info"], ["line"], ["rule", "module", "statement"], LISTS, ["offset"])]
    return [DOCUMENTS.index(document), ord(code[0]) if code else 0, int(code[1:]) if code else 0,
            LISTS.index(found[4]), *(place.get(it, embedded.calls().ABSENT) for it in found)]


@embedded.needs_library
@each(ERRORS, lambda row: row[0])
class Errors(unittest.TestCase):
    """The parts of an error, by its line and its numbers. A copy has them also."""

    def check(self, row):
        line, code, name, document, place, names = row
        error = embedded.module().Error(1, f"dyncollate: {line}",
                                        numbers_of(code, document, place))
        error.more = line
        for it in (error, pickle.loads(pickle.dumps(error)), copy.copy(error),
                   copy.deepcopy(error)):
            self.assertEqual((it.code, it.name, it.document, it.place, it.names),
                             (code, name, document, place, names))
            self.assertEqual((it.status, it.line, str(it)),
                             (1, f"dyncollate: {line}", f"dyncollate: {line}"))
            self.assertEqual((type(it), vars(it)), (type(error), vars(error)))


@embedded.needs_library
class Lines(unittest.TestCase):
    seconds = 10

    def test_each_line_of_the_rows(self):
        """The code of a line is the first one in it. An error of modules names something, and one
        of a document has a place in it. The numbers of the place are those in the line, without
        those that may belong to a name."""
        codes, module = set(), embedded.module()
        for row in all_rows():
            if not row.status or not embedded.is_asked(row):
                continue
            with self.assertRaises(module.Error) as raised:
                getattr(module, row.words[0])(*embedded.given(row))
            error, line = raised.exception, os.fsdecode(row.line)
            self.assertEqual((error.status, error.line), (row.status, f"dyncollate: {line}"))
            code = (None if re.match(r"(target \d+: )?(cycle|cannot read) ", line)
                    else re.search(r"([A-Z]\d+) [A-Z]", line)[1])
            self.assertEqual(error.code, code, line)
            self.assertEqual(bool(error.names), code is None or code[0] in "ME"
                             and code not in ("E3", "E8") or code in ("K1", "K2", "S3"), line)
            self.assertEqual(error.document is not None, code is not None
                             and (code[0] in "SN" or code == "E3" or line.startswith("line")), line)
            labels = re.match(
                r"(?:(?:target|scan|info|line) \d+: |(?:target|project|edges|name): )*", line)[0]
            numbered = line if code and (code[0] in "SNY" or code == "E8") else labels
            words = re.findall(
                r"\b(target|scan|info|line|rule|module|provides|requires|statement|path|at) (\d+)",
                numbered)
            self.assertEqual(error.place, {"offset" if word == "at" else word: int(number)
                                           for word, number in words}, line)
            codes.add((code or "-")[0])
        self.assertEqual(codes, set("NYSMEK-"))


@embedded.needs_library
class Arguments(InRoom):
    """Files are bytes-like objects or paths."""

    def setUp(self):
        super().setUp()
        self.module = embedded.module()
        self.target, self.scan = self.room / "app.target.json", self.room / "main.ddi"
        self.target.write_bytes(TARGET)
        self.scan.write_bytes(SCAN)

    def test_files(self):
        for convert in (bytes, bytearray, memoryview, lambda _: self.scan):
            for document in (TARGET, bytearray(TARGET), memoryview(TARGET), self.target):
                made = self.module.collate(document, {"main.ddi": convert(SCAN)})
                self.assertEqual(list(made), ["app.info.json", "app.dd"])
                self.assertEqual(made["app.dd"], DYNDEP)
        self.assertEqual(self.module.one(self.scan, "mod", ".bmi"), DYNDEP)

    def test_what_is_no_file(self):
        for given in "app.target.json", None, 7:
            with self.assertRaises(TypeError):
                self.module.collate(given, {})
            with self.assertRaises(TypeError):
                self.module.collate(TARGET, {"main.ddi": given})
        with self.assertRaises(TypeError):
            self.module.run("one", SCAN)
        with self.assertRaises(TypeError):
            self.module.one(SCAN, 7, ".bmi")
        with self.assertRaises(FileNotFoundError):
            self.module.show(self.scan.with_name("none.dd"))

    def test_paths(self):
        """A directory and the name of a dyndep file are strings or paths."""
        scan = SCAN.replace(b"}]", b',"provides":[{"logical-name":"A"}]}]')
        self.assertEqual(self.module.one(scan, Path("mod/sub"), ".bmi"),
                         self.module.one(scan, "mod/sub", ".bmi"))
        edges = b"build a: x || t.dd\n  dyndep = t.dd\n"
        self.assertEqual(self.module.effect(Path("t.dd"), edges, DYNDEP.replace(b"main.o", b"a")),
                         edges)

    def test_public_names(self):
        """What a user sees is what `help` lists."""
        self.assertEqual({it for it in vars(self.module) if not it.startswith("_")},
                         set(self.module.__all__))
        error = self.module.Error(1, "dyncollate: usage")
        self.assertEqual({it for it in dir(error) if not it.startswith("_")} - set(dir(Exception)),
                         {"status", "line", "code", "name", "document", "place", "names"})

    def test_lines(self):
        """The line of an error is the whole line, whichever function reports it."""
        faulty = b"ninja_dyndep_version = 1\nbuild a$x: dyndep\n"
        for call in self.module.show, self.module.statements:
            with self.assertRaises(self.module.Error) as raised:
                call(faulty)
            self.assertEqual(raised.exception.line, "dyncollate: line 2: N9 Variable at 7")
            self.assertEqual(raised.exception.place, {"line": 2, "offset": 7})

    def test_commands(self):
        edges = b"build a: x | b || t.dd\n  dyndep = t.dd\nbuild b: x\n"
        self.assertEqual(self.module.order(edges), [b"b", b"a"])
        dyndep = b"ninja_dyndep_version = 1\nbuild a | c: dyndep\n"
        self.assertEqual(self.module.show(dyndep), dyndep)
        self.assertEqual(self.module.statements(dyndep), [(b"a", [b"c"], [], False)])
        self.assertEqual(self.module.effect("./t.dd", edges, dyndep),
                         edges.replace(b"build a:", b"build a | c:"))
        for command, given in (("order", [b"build a: x a\n"]), ("effect", ["t.dd", edges, b""]),
                               ("show", [b""])):
            with self.assertRaises(self.module.Error) as raised:
                getattr(self.module, command)(*given)
            self.assertEqual(raised.exception.status, 1)

    def test_version(self):
        """`version` is that of the shared object, and `__version__` that of the package."""
        version = Path(TOP, "VERSION").read_text().strip()
        self.assertEqual(self.module.__version__, version)
        self.assertEqual(self.module.version(), version)


# Prints the errors of a library that rejects everything.
OLDER = """
import dyncollate
print(dyncollate.version(), dyncollate.run("show", b"").err.decode(), end="")
for call in dyncollate.show, dyncollate.statements:
    try:
        call(b"")
    except dyncollate.Error as error:
        print(*vars(error).values())
"""


@embedded.needs_tools("gcc", "ar")
class Older(InRoom):
    """A library of version 1.1.0, which has no function that returns its version, and whose errors
    have no location."""

    def test_errors(self):
        broken_libraries.built(self.room, "OF_VERSION_1_1_0")
        environment = os.environ | {"PYTHONPATH": embedded.PACKAGE,
                                    "DYNCOLLATE_LIBRARY": f"{self.room}/libdyncollate.so.1"}
        line = "dyncollate: line 1: Y8 BadLine"
        self.assertEqual(run(sys.executable, "-c", OLDER, env=environment),
                         (0, f"1.1.0 {line}\n" + f"1 {line} None None None {{}} ()\n" * 2))


# Prints what a call raises if the process can get no more than this memory,
# and then what it returns if it can.
LIMITED = """
import dyncollate, resource
scan = b'{"version":1,"rules":[{"primary-output":"main.o"}],"a":[' + b"[]," * 1000000 + b"0]}"
dyncollate.one(b'{"version":1,"rules":[]}', "", "")
pages = int(open("/proc/self/statm").read().split()[0])
most = pages * resource.getpagesize() + (32 << 20)
resource.setrlimit(resource.RLIMIT_AS, (most, resource.RLIM_INFINITY))
try:
    dyncollate.one(scan, "", "")
except MemoryError:
    print("no memory")
resource.setrlimit(resource.RLIMIT_AS, (resource.RLIM_INFINITY, resource.RLIM_INFINITY))
print(dyncollate.one(scan, "", "").decode())
"""
MANY = """
import dyncollate
lines = b"".join(b"build %d: dyndep\\n" % it for it in range(200000))
print(dyncollate.statements(b"ninja_dyndep_version = 1\\n" + lines)[-1].output.decode())
"""


@embedded.needs_library
class Sizes(unittest.TestCase):
    """Calls of much, in a process of their own, which a time limit ends."""
    seconds = 20

    def prints(self, script, printed):
        environment = (os.environ | {"PYTHONPATH": embedded.PACKAGE,
                                     "DYNCOLLATE_LIBRARY": embedded.SHARED})
        self.assertEqual(run(sys.executable, "-c", script, env=environment, seconds=60),
                         (0, printed))

    def test_no_memory(self):
        """MemoryError is raised, and the next call works."""
        self.prints(LIMITED, f"no memory\n{DYNDEP.decode()}\n")

    def test_many_statements(self):
        """The time grows as their number does:
        in the square of 200,000 the limit is far exceeded."""
        self.prints(MANY, "199999\n")


# What a user writes, and what mypy says of it.
USES = [
    ('dyncollate.collate(Path("t.json"), {"a.ddi": b"", "b.ddi": Path("b")})["app.dd"].split(b" ")',
     ""),
    ('dyncollate.collate(bytearray(), {"a.ddi": memoryview(b"")})', ""),
    ('dyncollate.one(b"", "mod", ".bmi").decode()', ""),
    ('[it.output.decode() for it in dyncollate.statements(b"")]', ""),
    ('dyncollate.Error(1, "").place["scan"] + 1', ""),
    ('dyncollate.run("show", b"").restat.union({"a"})', ""),
    ('dyncollate.one(b"", Path("mod"), ".bmi") + dyncollate.effect(Path("t.dd"), b"", b"")', ""),
    ('files: dyncollate.Files = {"a.ddi": b""}', ""),
    ('dyncollate.collate("t.json", {})', "arg-type"),
    ('dyncollate.collate(b"", {"a.ddi": "text"})', "dict-item"),
    ('dyncollate.one(b"", b"mod", ".bmi")', "arg-type"),
    ('dyncollate.order(b"").upper()', "attr-defined"),
    ('dyncollate.run("none", b"")', "arg-type"),
    ('dyncollate.Error(1, "").code.upper()', "union-attr"),]


@embedded.needs_tools("mypy")
class Types(unittest.TestCase):
    seconds = 10

    def mypy(self, *words):
        return run("mypy", "--strict", "--python-version", "3.9", "--no-error-summary",
                   "--cache-dir", os.devnull, *words,
                   env=os.environ | {"MYPYPATH": embedded.PACKAGE})[1]

    def test_package(self):
        self.assertEqual(self.mypy(f"{embedded.PACKAGE}/dyncollate"), "")

    def test_uses(self):
        """What is right passes, and each wrong use has its error."""
        with tempfile.TemporaryDirectory() as folder:
            file = Path(folder, "uses.py")
            file.write_text("from pathlib import Path\nimport dyncollate\n"
                            + "".join(f"{use}\n" for use, _ in USES))
            found = {int(line): kind for line, kind in re.findall(r":(\d+): error: .*\[([\w-]+)\]$",
                                                                  self.mypy(file), re.M)}
        self.assertEqual(found, {line: kind for line, (_, kind) in enumerate(USES, 3) if kind})


if __name__ == "__main__":
    unittest.main()
