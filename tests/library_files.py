"""libdyncollate as it is linked: its header against the exports of crates/c_library, what the
archive and the shared object define and need, and the examples that embed it."""
import json
import os
import re
import tempfile
import unittest
from pathlib import Path

from tests import embedded
from tests.case import each, tree
from tests.files import DATA, TARGETS, document
from tests.program import TOP
from tests.python_package import ERRORS, numbers_of
from tests.run import InRoom, output_of, run, run_apart

NEEDS_LIBRARY = True

HEADER = Path(TOP, "include/dyncollate.h")
EXPORTS = Path(TOP, "crates/c_library/src/lib.rt")
# what writes the numbers of an error, and what reads them
REPLIES = Path(TOP, "crates/in_memory/src/reply.rt")
IN_PYTHON = Path(TOP, "python/dyncollate/_errors.py")
IN_JAVASCRIPT = Path(TOP, "web/dyncollate.mjs")
# the types of parameters in the exports: the pointer in C, and how the name of its count ends
POINTERS = {"&[u8]": ("const uint8_t *", "_size"), "&[usize]": ("const size_t *", "_count"),
            "&mut [usize]": ("size_t *", "_room"), "&mut [u8]": ("uint8_t *", "_room")}
FIELDS = {"u32": "uint32_t", "usize": "size_t"}
SANITIZED = "-g", "-fsanitize=address,undefined", "-fno-sanitize-recover=all"
# What the code of the library may call: the heap, and what compilers call by themselves.
CALLED = {"malloc", "realloc", "free", "memcpy", "memmove", "memset", "memcmp", "bcmp"}


def without_comments(text):
    return re.sub(r"/\*.*?\*/|//[^\n]*", "", text, flags=re.S)


def members(struct):
    """The members of a struct of the header: the type and the name of each."""
    found = re.search(rf"typedef struct {struct} \{{(.*?)\}}",
                      without_comments(HEADER.read_text()), re.S)[1]
    return re.findall(r"(\w+) (\w+);", found)


def declared():
    """The functions of the header that return an outcome:
    the type and the name of each parameter."""
    found = re.findall(r"dyncollate_outcome (dyncollate_\w+)\((.*?)\);",
                       without_comments(HEADER.read_text()), re.S)
    return {name: [tuple(re.fullmatch(r"(.*?)(\w+)", it.strip()).groups())
                   for it in parameters.split(",")] for name, parameters in found}


def exported():
    """The same by the exports. What has no bytes, such as the allocator, is no parameter in C."""
    functions = {}
    for name, parameters, returned in re.findall(r'extern "C" fn (\w+)\((.*?)\) -> (\w+)',
                                                 EXPORTS.read_text(), re.S):
        if returned != "Outcome":
            continue
        functions[name] = []
        for parameter, kind in re.findall(r"(\w+): ([^,\n]+)", parameters):
            if kind != "Global":
                pointer, ending = POINTERS[kind]
                counted = parameter.removesuffix("s") if ending == "_count" else parameter
                functions[name] += [(pointer, parameter), ("size_t ", counted + ending)]
    return functions


class Header(unittest.TestCase):
    def test_functions(self):
        """Their names, and the order, the names and the types of their parameters."""
        self.assertEqual(declared(), exported())
        exports = re.findall(r'extern "C" fn (\w+)', EXPORTS.read_text())
        self.assertEqual(set(exports), {*declared(), "dyncollate_version"})

    def test_outcome(self):
        """The fields of what the functions return."""
        fields = re.search(
            r"#\[repr\(C\)\]\n#\[derive\([^)]*\)\]\npub struct Outcome \{(.*?)\n\}",
            REPLIES.read_text(), re.S)[1]
        fields = [(FIELDS[kind], name)
                  for name, kind in re.findall(r"pub (\w+): (\w+)", without_comments(fields))]
        self.assertEqual(members("dyncollate_outcome"), fields)
        self.assertEqual([name for name, _ in embedded.calls().Outcome._fields_],
                         [name for _, name in fields])

    def test_location(self):
        """The order of its numbers, as the library writes them and as each package reads them."""
        names = [name for _, name in members("dyncollate_location")]
        self.assertEqual({kind for kind, _ in members("dyncollate_location")}, {"size_t"})
        for file, pattern in ((REPLIES, r"\[\s*(document, .*?),?\s*\]\n}"),
                              (IN_PYTHON, r"^ +(document, .*) = numbers$"),
                              (IN_JAVASCRIPT, r"^function locationOf\(\[(.*)\]\) \{$")):
            found = re.search(pattern, file.read_text(), re.M)[1].split(", ")
            self.assertEqual([it.rstrip("_") for it in found], names, file)

    def test_documents_and_lists(self):
        """Their numbers, in the header, in the library and in each package."""
        errors, javascript = embedded.module("dyncollate._errors"), IN_JAVASCRIPT.read_text()
        for first, kind, in_python, in_javascript in (
                ("TARGET", "Document", errors.DOCUMENTS, "DOCUMENT_KINDS"),
                ("PROVIDES", "Entry", errors.LISTS, "ENTRY_LISTS")):
            names = re.search(rf"enum {{\s+DYNCOLLATE_({first} = 1,.*?)\s}}",
                              without_comments(HEADER.read_text()), re.S)[1]
            names = re.sub(r" = 1|\s|DYNCOLLATE_", "", names).lower().replace("paths", "path")
            names = names.split(",")
            self.assertEqual(re.findall(rf"Some\({kind}::(\w+)(?:\(index\))?\) => \((\d),",
                                        REPLIES.read_text()),
                             [(name.capitalize(), str(at)) for at, name in enumerate(names, 1)])
            self.assertEqual(list(in_python[1:]), names)
            found = re.search(rf"^const {in_javascript} = \[undefined, (.*)\];", javascript, re.M)
            self.assertEqual(json.loads(f"[{found[1]}]"), names)

    def test_module(self):
        """The Python package has each function, and passes what the header declares."""
        calls = embedded.calls()
        self.assertEqual({f"dyncollate_{command}" for command in calls.COMMANDS}, set(declared()))
        kinds = {"const uint8_t *": calls.STRING, "const size_t *": calls.NUMBERS}
        for command, parameters in calls.COMMANDS.items():
            wanted = [it for kind, _ in declared()[f"dyncollate_{command}"][:-4:2]
                      for it in kinds[kind]]
            self.assertEqual([it for kind in parameters for it in calls.PARAMETERS[kind]], wanted,
                             command)


@embedded.needs_tools("gcc", "g++")
@each(["gcc -std=c99 -pedantic -x c", "g++ -std=c++98 -x c++", "gcc -std=c17 -x c",
       "g++ -std=c++20 -x c++"])
class Compiles(unittest.TestCase):
    def check(self, compiler):
        self.assertEqual(run(*compiler.split(), "-Wall", "-Wextra", "-Werror", "-fsyntax-only",
                             HEADER), (0, ""))


@embedded.needs_library
@embedded.needs_tools("nm", "readelf")
class Linked(unittest.TestCase):
    def defined(self, *words):
        return {line.split()[-1]
                for line in output_of("nm", "-g", "--defined-only", *words).splitlines()
                if len(line.split()) == 3}

    def test_symbols(self):
        """The functions of the header, and nothing else.
        In the shared object they have the version DYNCOLLATE_1."""
        functions = {*declared(), "dyncollate_version"}
        self.assertEqual(self.defined(embedded.STATIC), functions)
        self.assertEqual(self.defined("-D", embedded.SHARED),
                         {"DYNCOLLATE_1", *(f"{it}@@DYNCOLLATE_1" for it in functions)})

    @embedded.needs_tools("gcc")
    def test_version(self):
        """DYNCOLLATE_VERSION is that of VERSION, and the library returns it."""
        major, minor, patch = map(int, Path(TOP, "VERSION").read_text().split("."))
        with tempfile.TemporaryDirectory() as folder:
            Path(folder, "v.c").write_text(
                "#include <dyncollate.h>\n#include <stdio.h>\n"
                'int main(void) { printf("%u %u\\n", (unsigned)DYNCOLLATE_VERSION, '
                'dyncollate_version()); }\n')
            built = embedded.compiled("gcc", f"{folder}/v.c", embedded.STATIC, to=f"{folder}/v")
            self.assertEqual(output_of(built).split(),
                             [str(10000 * major + 100 * minor + patch)] * 2)

    def test_calls(self):
        """Only the heap: no file, socket or clock."""
        called = {line.split()[-1] for line in output_of("nm", "-u", embedded.STATIC).splitlines()
                  if line.startswith(" ")}
        self.assertTrue({"malloc", "free"} <= called <= CALLED, called)

    def test_shared_object(self):
        dynamic = re.findall(r"\((\w+)\)\s+(?:[\w ]+: )?(.*)",
                             output_of("readelf", "-W", "-d", embedded.SHARED))
        self.assertEqual([it for name, it in dynamic if name in ("NEEDED", "SONAME")],
                         ["[libc.so.6]", "[libdyncollate.so.1]"])
        self.assertEqual([(name, it) for name, it in dynamic if "TEXTREL" in name + it], [])
        self.assertRegex(output_of("readelf", "-W", "-l", embedded.SHARED), r"GNU_STACK.* RW ")

    def test_state(self):
        """The code has no data that it could change, so calls on several threads share none. The
        toolchain's heap functions have one byte, `nothing`, whose address is that of an empty
        block."""
        sections = re.findall(r"\] (\.\S+) +(?:PROGBITS|NOBITS) +\S+ \S+ (\S+) \S+ +(\w*) ",
                              output_of("readelf", "-W", "-S", embedded.STATIC))
        self.assertTrue([name for name, size, _ in sections if name.startswith(".text")
                         and int(size, 16)])
        changed = {name: int(size, 16) for name, size, flags in sections
                   if "W" in flags and not name.startswith(".data.rel.ro")}
        self.assertEqual([name for name, size in changed.items() if size > (name == ".bss")], [])
        self.assertLessEqual(set(re.findall(r"^\w+ [bBcCdD] (\S+)$",
                                            output_of("nm", embedded.STATIC), re.M)), {"nothing"})


def laid(files):
    """Files as the examples print them."""
    return "".join(f"==> {name} <==\n{text.decode()}" for name, text in files.items())


def expected(project, *targets):
    """What the program writes for these targets, in its order."""
    files = {os.fsdecode(name): text
             for name, text in tree(os.fsencode(f"{DATA}/{project}/expected")).items()}
    for target in targets:
        rules = [rule for scan in target["scans"]
                 for rule in document(f"{DATA}/{project}/{scan}")["rules"]]
        for name in [*(rule["primary-output"] + ".modmap" for rule in rules), target["info"],
                     target["dyndep"]]:
            yield name, files[name]


def inputs(project):
    return {name: Path(DATA, project, name).read_bytes()
            for name in sorted(os.listdir(f"{DATA}/{project}")) if name != "expected"}


@embedded.needs_library
class Examples(InRoom):
    seconds = 10

    @embedded.needs_tools("gcc")
    def test_c(self):
        program = embedded.compiled("gcc", "-std=c99", *SANITIZED, f"{embedded.EXAMPLES}/collate.c",
                                    embedded.STATIC, to=self.room / "collate")
        target = document(f"{DATA}/single/app.target.json")
        printed_files = laid(dict(expected("single", target)))
        self.assertEqual(run_apart(program, "app.target.json", *target["scans"],
                                   cwd=f"{DATA}/single"), (0, printed_files, ""))
        self.assertEqual(run_apart(program, "app.target.json", *target["scans"][1:],
                                   cwd=f"{DATA}/single"),
                         (3, "", f"dyncollate: cannot read {target['scans'][0]}\n"))
        self.assertEqual(run_apart(program), (2, "", "usage: collate TARGETFILE FILE..\n"))

    @embedded.needs_tools("g++")
    def test_cxx(self):
        program = embedded.compiled("g++", "-std=c++17", "-pthread", *SANITIZED,
                                    f"{embedded.EXAMPLES}/background.cpp", embedded.STATIC,
                                    to=self.room / "background")
        self.assertEqual(run_apart(program), (
            0, ("collating\n==> main.o.modmap <==\n-fmodule-file=greet=bmi/greet.pcm\n"
                "==> greet.o.modmap <==\n-x c++-module\n-fmodule-output=bmi/greet.pcm\n"
                '==> app.info.json <==\n'
                '{"modules":[{"bmi":"bmi/greet.pcm","name":"greet","requires":[],'
                '"visibility":"public"}],"target":"app","version":2}\n'
                "==> app.dd <==\nninja_dyndep_version = 1\nbuild main.o: dyndep | bmi/greet.pcm\n"
                "build greet.o | bmi/greet.pcm: dyndep\n  restat = 1\n"), ""))

    @embedded.needs_tools("g++")
    def test_wrapper(self):
        """dyncollate.hpp: statements, files and errors,
        and what it throws if an allocation fails."""
        program = self.wrapper()
        info = '{"modules":[],"target":"t","version":2}'
        dyndep = "ninja_dyndep_version = 1\nbuild b.o: dyndep\n"
        self.assertEqual(run_apart(program, seconds=60), (
            0, ("a restat: b c | d e f\ng: |\n3000 object2999.o m2999\n"
                + dyndep + f"i {len(info)} restat\nd {len(dyndep)}\n2\n"
                "3 dyncollate: cannot read s\n1 dyncollate: target: S2 BadVersion document\n"
                "dyncollate: a name is not UTF-8\n"
                "1 dyncollate: scan 0: S1 NotJson document\n1 dyncollate: line 2: Y9 NoOutput\n0\n"
                "3 S6 rule 2 requires 1\n7 Y9 line 2\n"
                "b\na\nbuild a | c: x | b || t.dd\n  dyndep = t.dd\nbuild b: x\n"
                "ninja_dyndep_version = 1\nbuild a: dyndep\n"
                "1 dyncollate: cycle a\n1 dyncollate: name: N1 Empty\n"
                "1 dyncollate: line 2: N9 Variable at 7\nno memory\n"), ""))

    def wrapper(self):
        wrapped = "-Wl,--wrap=malloc,--wrap=realloc"
        return embedded.compiled("g++", "-std=c++17", "-pedantic", "-Wconversion", *SANITIZED,
                                 wrapped, f"{TOP}/tests/wrapper.cpp", embedded.STATIC,
                                 to=self.room / "wrapper")

    @embedded.needs_tools("g++")
    def test_errors_of_wrapper(self):
        """dyncollate::error has the code and the names that the package for Python has."""
        lines = "".join(f"{' '.join(map(str, numbers_of(code, document, place)))} "
                        f"dyncollate: {line}\n" for line, code, _, document, place, _ in ERRORS)
        wanted = "".join("|".join([code or "", name or "", *names]) + "\n"
                         for _, code, name, _, _, names in ERRORS)
        self.assertEqual(run_apart(self.wrapper(), "errors", input=lines), (0, wanted, ""))

    @embedded.needs_tools("gcc")
    def test_header(self):
        """The program in the comment of the header."""
        code = re.search(r"( {7}#include <dyncollate.h>.*?\n {7}\}\n)", HEADER.read_text(), re.S)[1]
        Path(self.room, "b.c").write_text(re.sub(r"^ {7}", "", code, flags=re.M))
        program = embedded.compiled("gcc", "-std=c99", "-pedantic", *SANITIZED, self.room / "b.c",
                                    embedded.STATIC, to=self.room / "b")
        self.assertEqual(run_apart(program),
                         (0, "ninja_dyndep_version = 1\nbuild obj/b.o: dyndep\n", ""))

    def test_python(self):
        module = embedded.module()
        files = inputs("libs")
        targets = [document(f"{DATA}/libs/{name}.target.json") for name in TARGETS["libs"]]
        made = module.project(files["project.json"], files)
        self.assertEqual(list(made.items()), list(expected("libs", *targets)))
        for name, target in zip(TARGETS["libs"], targets):
            made = module.collate(files[f"{name}.target.json"],
                                  files | dict(expected("libs", *targets)))
            self.assertEqual(list(made.items()), list(expected("libs", target)), name)
        with self.assertRaises(module.Error) as raised:
            module.collate(files["app.target.json"], {})
        self.assertEqual((raised.exception.status, raised.exception.line),
                         (3, f"dyncollate: cannot read {targets[-1]['scans'][0]}"))
        with self.assertRaises(module.Error) as raised:
            module.one(b"", "mod", ".bmi")
        self.assertEqual((raised.exception.status, raised.exception.line),
                         (1, "dyncollate: scan 0: S1 NotJson document"))
        with self.assertRaises(ValueError):
            module.run("one", b"{}", b"\xff", b"")
