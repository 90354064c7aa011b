"""libdyncollate against the program: each row is a call of the shared object, by the Python
package. And what a call does if there is too little room, if an allocation fails, if it is misused,
and on several threads."""
import ctypes
import itertools
import json
import os
import re
import unittest

from tests import embedded, fuzzing
from tests.case import Case, each
from tests.program import TOP
from tests.rows import V
from tests.rows.forms import statement
from tests.run import InRoom, output_of, run
from tests.side_by_side import side_by_side
from tests.tables import all_rows, worked

NEEDS_LIBRARY = True

load_tests = side_by_side
ASKED = [row for row in all_rows() if embedded.is_asked(row)]
WORKED = [row for row in worked() if embedded.is_asked(row)]
NO_MEMORY, MISUSED = 4, 5
SANITIZED = (
    "-std=c11 -D_GNU_SOURCE -O1 -fsanitize=address,undefined -fno-sanitize-recover=all".split())


@embedded.needs_library
@each(ASKED, lambda row: row.name)
class Rows(unittest.TestCase):
    same = Case.same

    def check(self, row):
        found = embedded.module().run(row.words[0], *embedded.given(row))
        files = {os.path.normpath(os.fsencode(name)): data for name, data in found.files.items()}
        self.same((found.status, found.out, found.err), row.printed())
        self.same(files, row.made(), "its files")


def lengths_of(status, numbers):
    """The numbers of a result that are lengths: after the first two, two of three for each file."""
    return [it for index, it in enumerate(numbers) if index < 2 or not status and index % 3 != 1]


@embedded.needs_library
class Numbers(unittest.TestCase):
    seconds = 10

    def test_how_many(self):
        """A command that fails has two lengths, and the ten numbers of its location follow. Any
        other has two lengths, and three numbers per file."""
        for row in ASKED:
            status, numbers, text = embedded.calls().call(row.words[0], embedded.given(row))
            self.assertTrue(len(numbers) == 12 if status else len(numbers) % 3 == 2, row.name)
            self.assertEqual(sum(lengths_of(status, numbers)), len(text), row.name)

    def test_room_for_a_location(self):
        """An error needs no room for its location. With less than all of it, nothing of it is
        written."""
        calls, (command, *given, _, _) = embedded.calls(), ERRORS[0]
        given = [passed(it) for it in given]
        status, _, text = calls.call(command, given)
        arguments = list(calls.arguments(calls.COMMANDS[command], given))
        for room, written in (1, 0), (2, 1), (11, 1), (12, 1), (13, 1):
            self.assertEqual(outcome(command, arguments, room, len(text)),
                             ((status, written, 2, len(text)), True))

    def test_which_files_may_be_left_alone(self):
        """With `restat`, the maps and the info file; the dyndep file never."""
        rows = {row.why: row for row in ASKED}
        for why, flags in (("* an info and GCC's map that may be left alone", [1, 1, 0]),
                           ("GCC's map", [0, 0, 0])):
            row = rows[why]
            status, numbers, _ = embedded.calls().call("collate", embedded.given(row))
            self.assertEqual((status, numbers[4::3]), (0, flags), why)
            result = embedded.module().run("collate", *embedded.given(row))
            self.assertEqual([name in result.restat for name in result.files],
                             list(map(bool, flags)), why)


class Asked(unittest.TestCase):
    def test_all_rows_but_those_of_a_command_line_and_of_files_on_disk(self):
        for row in all_rows():
            if not embedded.is_asked(row):
                self.assertRegex(row.line, rb"\A(usage\Z|cannot (read|write) )", row.name)
        self.assertEqual({row.words[0] for row in WORKED},
                         set(embedded.calls().COMMANDS) - {"statements"})


@embedded.needs_library
@each([row for row in ASKED if row.words[0] == "show"
       and not (row.line or b"").startswith(b"Y2 ")], lambda row: row.name)
class Statements(unittest.TestCase):
    """The reader has the statements that `show` prints, or its error.
    It accepts what is too long to be printed."""

    def check(self, row):
        module = embedded.module()
        try:
            statements = module.statements(*embedded.given(row))
        except module.Error as error:
            self.assertEqual(row.status, 1)
            self.assertEqual(error.status, 1)
            self.assertEqual(error.line.encode(), b"dyncollate: " + row.line)
        else:
            self.assertEqual(b"".join([V, *map(statement_line, statements)]), row.out)


def statement_line(it):
    """A statement as `show` prints it."""
    outputs, inputs = (b"".join(b" " + re.sub(rb"[$ :]", rb"$\g<0>", path) for path in paths)
                       for paths in (it.outputs, it.inputs))
    output = re.sub(rb"[$ :]", rb"$\g<0>", it.output)
    return (statement(output, outputs[1:], inputs[1:]).replace(b"  restat = 1\n",
                                                               b"") + b"  restat = 1\n" * it.restat)


def target(**members):
    """A target document with these members besides, or in place of its own."""
    return ({"version": 1, "target": "t", "module-dir": "m", "module-ext": ".bmi",
             "scans": ["a", "b"], "dyndep": "t.dd", "info": "t.info"} | members)


def scan(*rules):
    return {"version": 1, "rules": rules}


def rule(output, **lists):
    """A rule with these names in its lists."""
    return ({"primary-output": output} | {name: [{"logical-name": it} for it in names]
                                          for name, names in lists.items()})


def info(*modules, target="k", version=2):
    return {"version": version, "target": target, "modules": modules}


def module(name, *requires):
    return {"name": name, "bmi": name, "visibility": "public", "requires": requires}


A, B = scan(rule("a.o", provides=["A"])), scan(rule("b.o", requires=["A"]))
LISTED = b"build a: x\nbuild b: a || t.dd\n  dyndep = t.dd\n"
HEAD = b"ninja_dyndep_version = 1\n"
LINKED = target(linked=["k", "l"])
PROJECT = {"version": 1, "targets": ["s.json", "t.json"]}
FIRST = target(target="s", scans=["a"], dyndep="s.dd", info="s.info")
# a command and what it is given, and the numbers of its error that are not 0 or absent. Bytes and
# names are passed as they are, and documents as JSON. Documents are 1 a target, 2 a project, 3 a
# scan, 4 an info file, 5 edges, 6 the name, 7 a dyndep file; the lists are 1 `provides`, 2
# `requires` and 3 paths.
ERRORS = [
    ("collate", target(scans=7), {}, "S3", dict(document=1)),
    ("collate", b"[", {}, "S1", dict(document=1)),
    ("project", {"version": 2}, {}, "S2", dict(document=2)),
    ("one", scan(rule("a.o"), rule("b.o"), rule("c.o", requires=["A", ""])), "", "", "S6",
     dict(document=3, index=0, item=2, list=2, entry=1)),
    ("one", scan({"provides": []}), "", "", "S4", dict(document=3, index=0, item=0)),
    ("collate", target(), {"a": A, "b": scan(rule("b.o", provides=["B", "A:"]))}, "S6",
     dict(document=3, index=1, item=0, list=1, entry=1)),
    ("collate", target(), {"a": A, "b": scan(rule("../../../.."), rule(""))}, "S7",
     dict(document=3, index=1, item=1)),
    ("collate", target(), {"a": A, "b": b"\xff"}, "S1", dict(document=3, index=1)),
    ("collate", LINKED, {"a": A, "b": B, "k": info(), "l": info(
        module("C"), module("D", {"name": "C", "bmi": "C"}, {"name": "", "bmi": ""}))}, "S6",
     dict(document=4, index=1, item=1, list=2, entry=1)),
    ("collate", LINKED, {"a": A, "b": B, "k": info(version=1), "l": info(module(""), target="l")},
     "S6", dict(document=4, index=1, item=0)),
    ("collate", target(), {"a": A, "b": A}, "M1", {}),
    ("collate", LINKED, {"a": A, "b": B, "k": info(), "l": info()}, "M2", {}),
    ("collate", target(), {"a": A, "b": scan(rule("rule 7", requires=["C"]))}, "M5", {}),
    ("collate", target(private=["Z"]), {"a": A, "b": B}, "M10", {}),
    ("collate", target(map="clang"), {"a": scan(rule("a.o", provides=["A", "C"])), "b": B}, "K2",
     {}),
    ("collate", target(), {"a": A}, "", {}),
    ("collate", target(edges="e"), {"a": A, "b": B, "e": b"build a.o: x\n\tx\n"}, "E3",
     dict(document=5, line=2)),
    ("collate", target(edges="e"), {"a": A, "b": B, "e": LISTED}, "E5", {}),
    ("project", PROJECT, {"s.json": FIRST, "a": A, "t.json": target(linked=["t.info"])}, "K3",
     dict(target=1)),
    ("project", PROJECT, {"s.json": FIRST, "t.json": target(map="gcc"), "a": A}, "S3",
     dict(document=1, target=1)),
    ("project", PROJECT, {"s.json": FIRST, "a": A, "t.json": b"{}"}, "S2",
     dict(document=1, target=1)),
    ("project", PROJECT,
     {"s.json": FIRST, "t.json": target(), "a": A, "b": scan(rule("b.o", requires=[""]))}, "S6",
     dict(document=3, target=1, index=1, item=0, list=2, entry=0)),
    ("project", PROJECT, {"s.json": FIRST, "t.json": target(), "a": A,
                          "b": scan(rule("b.o", requires=["C"]))}, "M5", dict(target=1)),
    ("effect", "", LISTED, HEAD, "N1", dict(document=6)),
    ("effect", "t.dd", b"build a: $x\n", HEAD, "N9", dict(document=5, line=1, offset=9)),
    ("effect", "t.dd", LISTED, HEAD + b"\nbuild b: dyndep | |\n", "Y8", dict(document=7, line=3)),
    ("effect", "t.dd", LISTED, HEAD + b"build b | c /..: dyndep\n", "E8",
     dict(item=0, list=3, entry=2)),
    ("effect", "t.dd", LISTED, HEAD, "E6", {}),
    ("show", HEAD + b"build a$x: dyndep\n", "N9", dict(document=7, line=2, offset=7)),
    ("show", b"", "Y4", dict(document=7, line=1)),
    ("order", b"build a: x b\nbuild b: x a\n", "", {}),
    ("order", b"build a: x\nbuild a: x\n", "E1", {}),
]


def passed(it):
    """What a command is passed: documents as JSON."""
    if isinstance(it, dict) and all(isinstance(value, (dict, bytes)) for value in it.values()):
        return {name: passed(value) for name, value in it.items()}
    return json.dumps(it).encode() if isinstance(it, dict) else it


# the numbers of a location, in their order
LOCATION = "document letter number list target index line item entry offset".split()


def numbers_of(location):
    """The code of a location, and its numbers that are not 0 or absent."""
    numbers = dict(zip(LOCATION, location))
    letter, number = numbers.pop("letter"), numbers.pop("number")
    kept = {name: it for name, it in numbers.items()
            if it != (0 if name in ("document", "list") else embedded.calls().ABSENT)}
    return f"{chr(letter)}{number}" if letter else "", kept


@embedded.needs_library
@each(ERRORS, lambda row: f"{row[0]} {row[-2]} {row[-1]}")
class Locations(unittest.TestCase):
    """Where the error of a command is, and which error it is, as numbers."""

    def check(self, row):
        command, *given, code, numbers = row
        status, found, text = embedded.calls().call(command, [passed(it) for it in given])
        self.assertNotEqual(status, 0)
        self.assertEqual(len(found), 2 + len(LOCATION))
        self.assertEqual(numbers_of(found[2:]), (code, numbers), text)


def outcome(command, given, numbers_room, text_room, spare=8):
    """An outcome in this room, as the fields of the struct, and whether what follows the result is
    unchanged, also after the room."""
    numbers = (ctypes.c_size_t * (numbers_room + spare))(*[77] * (numbers_room + spare))
    text = (ctypes.c_char * (text_room + spare))(*b"\x4d" * (text_room + spare))
    pointer = ctypes.cast(text, ctypes.c_char_p)
    got = getattr(embedded.calls().library(),
                  f"dyncollate_{command}")(*given, numbers, numbers_room, pointer, text_room)
    has_location = got.status and command != "statements" and numbers_room >= 12
    count = 12 if has_location else got.numbers
    after = numbers[count * got.written:], text[got.text * got.written:]
    unchanged = all(it == 77 for it in after[0]) and not after[1].strip(b"\x4d")
    return (got.status, got.written, got.numbers, got.text), unchanged


@embedded.needs_library
@each(WORKED, lambda row: row.name)
class Rooms(unittest.TestCase):
    """With too little room for a part nothing is written,
    and the outcome says how much is needed."""

    def check(self, row):
        calls, command = embedded.calls(), row.words[0]
        passed = list(calls.arguments(calls.COMMANDS[command], embedded.given(row)))
        status, numbers, text = calls.call(command, embedded.given(row))
        ends = itertools.accumulate(lengths_of(status, numbers))
        needed = 2 if status else len(numbers)  # the location of an error needs no room
        for numbers_room in range(needed):
            self.assertEqual(outcome(command, passed, numbers_room, len(text)),
                             ((status, 0, needed, len(text)), True))
        for text_room in {max(0, end - 1) for end in [*ends, len(text)]} - {len(text)}:
            self.assertEqual(outcome(command, passed, len(numbers), text_room),
                             ((status, 0, needed, len(text)), True))
        for spare in 0, 1:
            found = outcome(command, passed, len(numbers) + spare, len(text) + spare)
            self.assertEqual(found, ((status, 1, needed, len(text)), True))


SURROGATE, OVERLONG = b"\xed\xa0\x80", b"\xc0\xaf"
# the reason, a misuse, and a similar call that is valid: the command and its arguments, or for
# files their lengths and text
MISUSES = [
    ("an odd number of lengths", ("collate", b"{}", [1], b"a"), ("collate", b"{}", [1, 0], b"a")),
    ("lengths that end early", ("collate", b"{}", [1, 1], b"abc"),
     ("collate", b"{}", [1, 2], b"abc")),
    ("lengths that end late", ("project", b"{}", [1, 3], b"abc"),
     ("project", b"{}", [0, 3], b"abc")),
    ("no lengths of a text", ("project", b"{}", [], b"a"), ("project", b"{}", [], b"")),
    ("a length above all texts", ("collate", b"{}", [1, 2 ** 64 - 1], b""),
     ("collate", b"{}", [0, 0], b"")),
    ("lengths whose sum is beyond 64 bits", ("collate", b"{}", [2 ** 64 - 1, 2], b"a"),
     ("collate", b"{}", [1, 0], b"a")),
    ("a name that is not UTF-8", ("collate", b"{}", [1, 0], b"\xff"),
     ("collate", b"{}", [0, 1], b"\xff")),
    ("a name that is cut in a character", ("project", b"{}", [1, 1], "ñ".encode()),
     ("project", b"{}", [2, 0], "ñ".encode())),
    ("the second name", ("project", b"{}", [1, 0, 3, 0], b"a" + SURROGATE),
     ("project", b"{}", [1, 0, 1, 2], b"aa" + b"\xff\xff")),
    ("dir", ("one", b"{}", b"\xff", b""), ("one", b"\xff", b"", b"")),
    ("ext", ("one", b"{}", b"", OVERLONG), ("one", b"{}", b"", b"/")),
    ("the name of `effect`", ("effect", SURROGATE, b"", b""),
     ("effect", "ñ".encode(), SURROGATE, OVERLONG)),
]


@embedded.needs_library
@each(MISUSES, lambda row: row[0])
class Misuses(unittest.TestCase):
    """The status says so if and only if the lengths do not cut the text, or a name is not UTF-8.
    Nothing is written then."""

    def check(self, row):
        for (command, *given), is_misused in zip(row[1:], (True, False)):
            passed = []
            for it in given:
                passed += [(ctypes.c_size_t * len(it))(*it) if isinstance(it, list) else it,
                           len(it)]
            (status, written, numbers,
             text), unchanged = (outcome(command, passed, 64, 4096, spare=0))
            if is_misused:
                self.assertEqual((status, written, numbers, text, unchanged),
                                 (MISUSED, 0, 0, 0, True), given)
            else:
                self.assertNotIn(status, (NO_MEMORY, MISUSED), given)


@embedded.needs_library
@embedded.needs_tools("gcc")
class InC(InRoom):
    """Programs in C that call the library with the worked rows."""
    seconds = 20

    def setUp(self):
        super().setUp()
        self.files = {}
        for number, row in enumerate(WORKED):
            (self.room / str(number)).write_bytes(fuzzing.encoded(row))
            self.files.setdefault(row.words[0], []).append(self.room / str(number))
        self.files["statements"] = self.files["show"]

    def built(self, source, *words):
        sources = [f"{TOP}/tests/{source}.c", f"{TOP}/tests/fuzz/calls.c", embedded.STATIC]
        return embedded.compiled("gcc", *words, *sources, to=self.room / source)

    def test_each_allocation_fails(self):
        program = self.built("failing_allocations", *SANITIZED,
                             "-Wl,--wrap=malloc,--wrap=realloc,--wrap=free")
        for command, files in self.files.items():
            failed = re.fullmatch(r"(\d+) of \d+\n", output_of(program, command, *files))
            self.assertGreater(int(failed[1]), 0, command)

    def test_null_pointers(self):
        """A null pointer with the count 0 is like any other pointer to nothing."""
        program = embedded.compiled("gcc", *SANITIZED, f"{TOP}/tests/null_pointers.c",
                                    embedded.STATIC, to=self.room / "null_pointers")
        self.assertEqual(output_of(program), "224 alike\n")

    def test_threads(self):
        program = self.built("threads", "-std=c11", "-D_GNU_SOURCE", "-O1", "-fsanitize=thread",
                             "-pthread")
        if "unexpected memory mapping" in run(program)[1]:
            self.skipTest("ThreadSanitizer does not run on this kernel")
        for command, files in self.files.items():
            for file in files[:2]:
                self.assertEqual(output_of(program, command, file), "all alike\n")
