"""Builds the projects in examples/ with the real Ninja, clang-scan-deps, Clang and GCC, by the
manifests that examples/generate writes, and compares what is compiled, in which case, and to which
bytes. A test whose tool is missing is skipped.

The environment may name the tools: NINJA, CLANG, GCC, SCANNER. To build a further example, add it
to EXAMPLES and BUILT; what any example is tested for is in the class Built, and what one example is
tested for besides in a class of its own.
"""
import json
import os
import re
import shutil
import sys
import tempfile
import unittest
from collections import namedtuple
from pathlib import Path

from tests import program
from tests.run import output_of, run
from tests.tools import TOOLS, of_versions, tool, tools_of, version

TOP = Path(program.TOP)
JOBS = 8


# ---- examples

# A source of an example, and what compiling it by hand takes: its target, its module, or "", and
# the modules that it needs.
Source = namedtuple("Source", "target name module needs")
# What the program of an example prints, and its sources in an order in which they can be compiled.
Example = namedtuple("Example", "prints sources")

GEOMETRY = ["geometry", "geometry:point", "geometry:shapes", "units"]
SUM = ["number", "sum", "sum:detail"]
EXAMPLES = {
    "single": Example("600", [
        Source("app", "src/units.cppm", "units", []),
        Source("app", "src/point.cppm", "geometry:point", ["units"]),
        Source("app", "src/shapes.cppm", "geometry:shapes", ["geometry:point", "units"]),
        Source("app", "src/geometry.cppm", "geometry",
               ["geometry:point", "geometry:shapes", "units"]),
        Source("app", "src/geometry.cpp", "", GEOMETRY),
        Source("app", "src/main.cpp", "", GEOMETRY), Source("app", "src/plain.cpp", "", []),]),
    "libs": Example("42", [
        Source("base", "src/base/number.cppm", "number", []),
        Source("base", "src/base/number.cpp", "", ["number"]),
        Source("math", "src/math/detail.cppm", "sum:detail", ["number"]),
        Source("math", "src/math/sum.cppm", "sum", ["number", "sum:detail"]),
        Source("math", "src/math/sum.cpp", "", SUM),
        Source("app", "src/app/main.cpp", "", SUM),
    ]),
}


@program.needs("program")
class Directory(unittest.TestCase):
    """A test in a directory of its own, with the tools that it needs."""
    tools = ["ninja"]
    # about how long a test takes
    seconds = 20

    def setUp(self):
        missing = [TOOLS[it][0] for it in self.tools if not tool(it)]
        if missing:
            self.skipTest(f"{', '.join(missing)}: not there")
        folder = tempfile.TemporaryDirectory(prefix="dyncollate-")
        self.addCleanup(folder.cleanup)
        self.addCleanup(os.chdir, os.getcwd())
        os.chdir(folder.name)
        named = {it.upper(): tool(it) for it in self.tools}
        # GCC writes the time into a module's file
        self.environment = (os.environ | named | {"DYNCOLLATE": program.PROGRAM,
                                                  "SOURCE_DATE_EPOCH": "1"})

    def call(self, *words):
        """The status of the program dyncollate, and what it prints."""
        return run(program.PROGRAM, *words)

    def copy(self, example, form=None):
        """Puts a copy of an example into the directory, which becomes the working one."""
        shutil.copytree(TOP / "examples" / example, example)
        os.chdir(example)
        if form:
            self.generate(form)

    def generate(self, form, listed="targets"):
        """Writes the manifest of a project into this directory."""
        command = [sys.executable, TOP / "examples/generate", form, listed]
        self.assertEqual(run(*command, env=self.environment), (0, ""))

    def ninja(self, *words):
        """A run of Ninja: its status and its log."""
        self.status, self.log = run(tool("ninja"), f"-j{JOBS}", *words, env=self.environment)
        return self.status, self.log

    def steps(self, description):
        """What the last run did of a kind of step."""
        return sorted(re.findall(rf"^\[\d+/\d+\] {description} (.*)", self.log, re.M))

    def makes(self, text):
        """A run ends well, and the program that it made prints this."""
        self.assertEqual(self.ninja()[0], 0, self.log)
        self.assertEqual(run("./app"), (0, text + "\n"))

    def compiled(self, *sources):
        """The last run ended well and compiled exactly these sources."""
        self.assertEqual((self.status, self.steps("COMPILE")), (0, sorted(sources)), self.log)

    def compiles(self, *sources):
        """A run compiles exactly these sources, and the next has no work to do."""
        self.ninja()
        self.compiled(*sources)
        self.idle()

    def idle(self):
        self.assertEqual(self.ninja(), (0, "ninja: no work to do.\n"))

    def fails(self):
        """A run fails, and compiles nothing."""
        self.assertEqual(self.ninja()[0], 1, self.log)
        self.assertEqual(self.steps("COMPILE"), [])

    def reports(self, fault):
        """A run fails, compiles nothing, and prints the line of this error of the target app."""
        self.fails()
        self.assertIn(f"dyncollate: {fault}", self.log.splitlines())


def edit(name, pattern, replacement):
    """Changes each line of a file that has the pattern, which one at least has."""
    text, count = re.subn(pattern, replacement, Path(name).read_text(), flags=re.M)
    assert count, f"{name} has no {pattern}"
    Path(name).write_text(text)


def touch(name):
    os.utime(name)


def products():
    """The bytes of the object and module files that a build left."""
    found = [*Path("obj").rglob("*.o"), *Path("bmi").rglob("*")]
    return {str(it): it.read_bytes() for it in found if it.is_file()}


class Built:
    """What each example is tested for, by any form of manifest. A test begins with a build from
    scratch, with eight jobs."""
    example = form = ""

    def setUp(self):
        self.tools = tools_of(self.form)
        super().setUp()
        self.copy(self.example, self.form)
        self.makes(EXAMPLES[self.example].prints)
        self.idle()

    def generate(self, form="", listed="targets"):
        super().generate(form or self.form, listed)

    def restore(self, name):
        shutil.copy(TOP / "examples" / self.example / name, name)

    def reports(self, fault):
        if self.form == "project":
            targets = json.loads(Path("dd/project.json").read_text())["targets"]
            fault = f"target {targets.index('dd/app.target.json')}: {fault}"
        super().reports(fault)

    def by_hand(self, source, target_of):
        """Compiles one source as a person would. GCC finds the project's modules in hand.map."""
        result = ["-c", source.name, "-o", f"obj/{source.target}/{source.name}.o"]
        if self.form == "gcc":
            return [tool("gcc"), *"-std=c++20 -fmodules-ts -fmodule-mapper=hand.map -x c++".split(),
                    *result]
        file_of = {it: f"bmi/{target_of[it]}/{it.replace(':', '-')}.pcm" for it in target_of}
        provided = (["-x", "c++-module", f"-fmodule-output={file_of[source.module]}"]
                    if source.module else [])
        # which warnings there are is in a module's file
        found = [f"-fmodule-file={it}={file_of[it]}" for it in source.needs]
        return [tool("clang"), "-std=c++20", "-Wno-unused-command-line-argument", *provided, *found,
                *result]

    def test_objects_and_module_files_are_those_of_a_build_ordered_by_hand(self):
        """Clang 19 writes one of several texts for some module files, by the addresses that it
        gets. So this is tried some times: each file has to be as one of those by hand."""
        sources = EXAMPLES[self.example].sources
        target_of = {it.module: it.target for it in sources if it.module}
        Path("hand.map").write_text("".join(f"{it} bmi/{target_of[it]}/{it.replace(':', '-')}.gcm\n"
                                            for it in target_of))
        built = products()
        self.assertEqual(len(built), len(sources) + len(target_of))
        left = set(built)
        for _ in range(20):
            for name in built:
                os.remove(name)
            for source in sources:
                self.assertEqual(run(*self.by_hand(source, target_of), env=self.environment),
                                 (0, ""))
            by_hand = products()
            self.assertEqual(by_hand.keys(), built.keys())
            left -= {it for it in left if built[it] == by_hand[it]}
            if not left:
                return
        self.fail(f"{sorted(left)}: other bytes than by hand")

    def test_a_collation_alone(self):
        """In a directory that has only the files that it reads, and without an environment, it
        writes the same bytes."""
        targets = sorted(it.name.removesuffix(".target.json")
                         for it in Path("dd").glob("*.target.json"))
        if self.form == "project":
            return self.collate_alone("project", "dd/project.json", targets)
        for target in targets:
            self.collate_alone("collate", f"dd/{target}.target.json", [target])

    def collate_alone(self, command, document, targets):
        documents = [json.loads(Path(f"dd/{it}.target.json").read_text()) for it in targets]
        read = ([document] + [f"dd/{it}.target.json" for it in targets]
                + [name for it in documents for name in it["scans"]])
        read += [name for it in documents for name in it["linked"] if command == "collate"]
        written = [it[key] for it in documents for key in ("dyndep", "info")]
        written += [str(it) for target in targets for it in Path(f"obj/{target}").rglob("*.modmap")]
        self.assertEqual(len(written), sum(2 + len(it["scans"]) for it in documents))
        alone = Path(tempfile.mkdtemp(dir=".."))
        for name in written:
            (alone / name).parent.mkdir(parents=True, exist_ok=True)
        for name in set(read):
            (alone / name).parent.mkdir(parents=True, exist_ok=True)
            shutil.copy(name, alone / name)
            (alone / name).chmod(0o444)
        self.assertEqual(run(program.PROGRAM, command, document, cwd=alone, env={}), (0, ""))
        there = {str(it.relative_to(alone)) for it in alone.rglob("*") if it.is_file()}
        self.assertEqual(there - set(read), set(written))
        for name in written:
            self.assertEqual((alone / name).read_bytes(), Path(name).read_bytes(), name)


# ---- changes of the examples

class Single:
    users = ["src/point.cppm", "src/shapes.cppm", "src/geometry.cppm", "src/geometry.cpp",
             "src/main.cpp"]

    def test_a_touched_interface(self):
        """Its users are compiled, and no other source."""
        touch("src/point.cppm")
        self.compiles(*self.users)

    def test_a_touched_implementation(self):
        touch("src/geometry.cpp")
        self.compiles("src/geometry.cpp")

    def test_a_changed_header(self):
        """Who includes it is compiled, and the users of its module."""
        Path("src/scale.h").write_text("#define SCALE 20\n")
        self.makes("2400")
        self.compiled("src/units.cppm", *self.users)

    def reverse_import(self):
        edit("src/point.cppm", r"^import units;|scaled(\(.\))", r"\1")
        edit("src/units.cppm", r"^(export module units;)", r"\1\nimport geometry;")
        edit("src/units.cppm", r"SCALE \* length", "SCALE * at(length, 0).x")
        edit("src/main.cpp", r"^(import geometry;)", r"\1\nimport units;")
        edit("src/main.cpp", r"print\(area(.*)\); \}", r"print(scaled(area\1)); }")

    def test_a_reversed_import(self):
        """Both sources are compiled, and their users."""
        self.reverse_import()
        self.makes("60")
        self.compiled("src/units.cppm", *self.users)
        self.idle()

    def test_a_cycle(self):
        self.reverse_import()
        self.restore("src/point.cppm")
        names = ["geometry.cppm", "point.cppm", "units.cppm"]
        self.reports("M8 ImportCycle " + " -> ".join(f"obj/app/src/{it}.o" for it in names))
        self.restore("src/units.cppm")
        self.restore("src/main.cpp")
        self.makes("600")

    def test_a_new_source(self):
        Path("src/extra.cppm").write_text(
            "export module extra;\nimport units;\nexport int extra() { return scaled(1); }\n")
        edit("targets", r"^(program.*)", r"\1 src/extra.cppm")
        edit("src/main.cpp", r"^(import geometry;)", r"\1\nimport extra;")
        edit("src/main.cpp", r"print\(area(.*)\); \}", r"print(extra() + area\1); }")
        self.generate()
        self.makes("610")
        self.compiled("src/extra.cppm", "src/main.cpp")
        edit("targets", " src/extra.cppm", "")
        self.generate()
        self.reports("M5 ModuleUnknown extra in obj/app/src/main.cpp.o")
        self.restore("src/main.cpp")
        self.makes("600")
        self.compiled("src/main.cpp")
        self.idle()

    def test_a_broken_source(self):
        with open("src/main.cpp", "a", encoding="utf-8") as file:
            file.write("int\n")
        self.assertEqual(self.ninja()[0], 1)
        self.restore("src/main.cpp")
        self.makes("600")
        self.compiled("src/main.cpp")

    def test_a_source_that_cannot_be_scanned(self):
        """Its scan document stays as it was."""
        document = Path("scan/app/src/point.cppm.ddi")
        kept = document.read_bytes()
        edit("src/point.cppm", r"\A", 'module;\n#include "none.h"\n')
        self.fails()
        self.assertEqual(document.read_bytes(), kept)
        self.restore("src/point.cppm")
        self.makes("600")
        self.compiled(*self.users)

    def test_a_new_import(self):
        """The source alone is compiled, though all maps are written."""
        edit("src/main.cpp", r"\A", "import units;\n")
        self.compiles("src/main.cpp")


class Libs:
    main, number, lost = ("src/app/main.cpp", "src/base/number.cppm",
                          "obj/base/src/base/number.cppm.o")
    math = ["src/math/detail.cppm", "src/math/sum.cppm", "src/math/sum.cpp"]

    def test_a_touched_interface(self):
        """Its users in all targets are compiled."""
        touch(self.number)
        self.compiles(self.number, "src/base/number.cpp", *self.math, self.main)

    def test_a_touched_partition(self):
        """Its users are compiled, and no other source."""
        touch("src/math/detail.cppm")
        self.compiles(*self.math, self.main)

    def test_a_touched_implementation(self):
        touch("src/base/number.cpp")
        self.compiles("src/base/number.cpp")

    def test_a_changed_partition(self):
        edit("src/math/detail.cppm", r"plus\(number, number\)",
             "plus(number, plus(number, number))")
        self.makes("53")

    def test_a_dropped_import(self):
        edit(self.main, "^import number;", "")
        self.compiles(self.main)

    def test_a_lost_object_of_a_library(self):
        """What its user needs is made before it."""
        os.remove(self.lost)
        if self.form != "project":
            self.ninja(f"obj/app/{self.main}.o")
            self.compiled(self.number, *self.math[:2], self.main)
        self.makes("42")
        self.idle()

    def test_a_library_that_is_linked_no_more(self):
        edit("targets", "^(program.*)math", r"\1base")
        self.generate()
        self.reports(f"M5 ModuleUnknown sum in obj/app/{self.main}.o")
        self.restore("targets")
        self.generate()
        self.makes("42")


# Each example, the class with its own tests, and the forms of manifests that build it.
BUILT = {"single": (Single, ["clang", "gcc", "project"]),
         "libs": (Libs, ["clang", "gcc", "project"])}

for one, (changes, forms) in BUILT.items():
    for form_ in forms:
        title = f"{one.title()}{'InA' if form_ == 'project' else 'With'}{form_.title()}"
        globals()[title] = type(title, (changes, Built, Directory), {"example": one, "form": form_})

# ---- import std

def standard_modules(compiler, *asked):
    """The sources of the standard library's modules, if a compiler lists them and they exist."""
    listed = run(compiler, *asked)[1].strip() if compiler else ""
    if not os.path.isfile(listed):
        return None
    modules = json.loads(Path(listed).read_text())["modules"]
    found = [os.path.realpath(os.path.join(os.path.dirname(listed), it["source-path"]))
             for it in modules]
    return found if all(map(os.path.isfile, found)) else None


class ImportsStd:
    """What examples/std is tested for, by either form of manifest."""
    seconds = 60
    users = ["src/main.cpp", "src/words.cpp", "src/words.cppm"]

    def test_from_scratch_and_touched(self):
        """The modules std and std.compat are compiled once, before what imports them."""
        self.copy("std", self.form)
        self.makes("one 2\ntwo 1")
        self.compiled(*self.modules, *self.users)
        self.idle()
        touch("src/words.cppm")
        self.compiles(*self.users)
        edit("src/words.cpp", r"^import std\.compat;", "")
        edit("src/words.cpp", r"::isalpha", "std::isalpha")
        self.compiles("src/words.cpp")


class StdWithClang(ImportsStd, Directory):
    form, tools = "clang", ["ninja", "clang", "scanner"]

    def setUp(self):
        super().setUp()
        self.modules = standard_modules(tool("clang"), "-stdlib=libc++",
                                        "-print-file-name=libc++.modules.json")
        if not self.modules:
            self.skipTest("libc++-19-dev: not there")

    def test_the_guide_quotes_its_manifest(self):
        self.copy("std", "clang")
        page = (TOP / "docs/GUIDE.md").read_text()
        section = re.search(r"^### `import std;`\n.*?^### ", page, re.M | re.S)[0]
        targets, manifest = ([text for kind, text in re.findall("^```(.*)\n((?s:.*?))^```$",
                                                                section, re.M) if not kind])
        self.assertIn(targets, Path("targets").read_text())
        # the page has the directory of Debian's libc++-19-dev
        manifest = manifest.replace("/usr/lib/llvm-19/share/libc++/v1",
                                    os.path.dirname(self.modules[0]))
        written = Path("build.ninja").read_text().splitlines()
        self.assertEqual([it for it in manifest.splitlines() if it not in written], [])


class StdWithGcc(ImportsStd, Directory):
    form = "gcc"

    def setUp(self):
        super().setUp()
        for name in of_versions("g++", 15, 16):
            self.modules = standard_modules(shutil.which(name),
                                            "-print-file-name=libstdc++.modules.json")
            if self.modules:
                self.environment["GCC"] = name
                return
        self.skipTest("g++-15: not there")


# ---- other builds

class WithClang(Directory):
    tools = ["ninja", "clang", "scanner"]

    def test_one_step_collates_all_targets(self):
        """The manifest of a project has one step that collates all its targets."""
        self.copy("libs", "project")
        self.assertEqual(self.ninja("-t", "commands")[0], 0)
        self.assertEqual(len(re.findall(" project dd/project.json$", self.log, re.M)), 1)

    def test_hello(self):
        self.copy("hello")
        edit("build.ninja", "^dyncollate = .*", f"dyncollate = {program.PROGRAM}")
        edit("build.ninja", r"clang\+\+", tool("clang"))
        self.assertEqual(self.ninja()[0], 0, self.log)
        self.assertEqual(sorted(os.listdir("bmi")), ["greet.pcm", "words.pcm"])
        self.idle()
        touch("src/words.cppm")
        self.assertEqual(self.ninja()[0], 0, self.log)
        self.assertEqual(len(re.findall(r"^\[", self.log, re.M)), 4,
                         "all three sources, and the link")

    def test_a_scan_by_the_compilation_database(self):
        """It says the same as the scans of each source."""
        if version("scanner") < (17,):
            self.skipTest("a scanner that reads response files in a database: not there")
        self.copy("single", "clang")
        self.ninja()
        Path("all.ddi").write_text(output_of(tool("scanner"), "-format=p1689",
                                             "-compilation-database=compile_commands.json"))
        status, text = self.call("one", "all.ddi", "bmi/app", ".pcm")
        self.assertEqual((status, sorted(text.splitlines())),
                         (0, sorted(Path("dd/app.dd").read_text().splitlines())))


class Guide(Directory):
    tools = []
    page = (TOP / "docs/GUIDE.md").read_text()

    def test_its_manifests_are_those_of_generate(self):
        """The lines that docs/GUIDE.md quotes are in what examples/generate writes, if the tools
        have their usual names."""
        os.mkdir("bin")
        for it in "clang++", "g++", "clang-scan-deps", "dyncollate":
            os.symlink(shutil.which("true"), f"bin/{it}")
        for it in ("DYNCOLLATE", *map(str.upper, TOOLS)):
            self.environment.pop(it, None)
        self.environment["PATH"] = f"{os.getcwd()}/bin"
        written, top = set(), os.getcwd()
        for example in BUILT:
            for form in BUILT[example][1]:
                self.copy(example, form)
                written |= set(Path("build.ninja").read_text().splitlines())
                os.chdir(top)
                shutil.rmtree(example)
        quoted = "".join(re.findall("^```ninja\n(.*?)^```$", self.page, re.M | re.S)).splitlines()
        self.assertTrue(quoted)
        self.assertEqual([it for it in quoted if it not in written], [])

    def test_it_quotes_the_list_of_an_example(self):
        self.assertTrue(f"```\n{(TOP / 'examples/libs/targets').read_text()}```\n" in self.page)

    def test_its_packages_are_those_that_are_installed_for_the_tests(self):
        packages = re.search(r"^    apt-get install (.*)", self.page, re.M)[1].split()
        self.assertEqual([it for it in packages
                          if it not in re.split(r"[\s;]+", (TOP / ".ci/run").read_text())], [])


class GuideCommands(Directory):
    """The commands in docs/GUIDE.md, as they are printed,
    with Debian's names of the tools and the program in PATH."""

    def setUp(self):
        missing = [it for it in ("ninja", "clang++-19", "clang-scan-deps-19", "g++-12")
                   if not shutil.which(it)]
        if missing:
            self.skipTest(f"{', '.join(missing)}: not there")
        super().setUp()
        for name in "adapters", "examples":
            shutil.copytree(TOP / name, name,
                            ignore=shutil.ignore_patterns("build", "dd", "scan", "obj", "bmi"))
        os.mkdir("bin")
        os.symlink(program.PROGRAM, "bin/dyncollate")
        named = ("DYNCOLLATE", *map(str.upper, TOOLS))
        self.environment = {name: text for name, text in os.environ.items() if name not in named}
        self.environment["PATH"] = f"{os.getcwd()}/bin:{os.environ['PATH']}"

    def commands(self, title):
        """The commands of a section."""
        section = re.search(rf"^##+ {re.escape(title)}\n(.*?)(?=^##|\Z)", Guide.page,
                            re.M | re.S)[1]
        return [re.sub("^ {3}(?=.)", "", it, flags=re.M) if it.startswith("   ") else it
                for it in re.findall("^ *```sh\n(.*?)^ *```$", section, re.M | re.S)]

    def prints(self, *commands):
        """The commands succeed, one after the other in one shell, and print this at the end."""
        status, out = run("bash", "-ec", "\n".join(commands), env=self.environment)
        self.assertEqual(status, 0, out)
        return out.splitlines()

    def test_hello(self):
        self.assertEqual(self.prints(*self.commands("Tools"), *self.commands("An example"))[-1],
                         "hello")

    def test_a_build(self):
        self.assertEqual(self.prints(*self.commands("Tools"),
                                     *self.commands("Manifests that work"))[-1], "42")

    def test_import_std(self):
        if not standard_modules("clang++-19", "-stdlib=libc++",
                                "-print-file-name=libc++.modules.json"):
            self.skipTest("libc++-19-dev: not there")
        self.assertEqual(self.prints(*self.commands("Tools"), *self.commands("`import std;`"))[-2:],
                         ["one 2", "two 1"])

    def test_a_build_that_fails(self):
        """What it says about finding files, and the order of all edges, or their cycle."""
        names = self.commands("Tools")[0]
        self.prints(names, "cd examples/libs", "../generate project targets", "ninja")
        os.chdir("examples/libs")
        find, whole = self.commands("My build fails: what now")
        self.assertEqual(self.prints(find),
                         ["scan/math/src/math/detail.cppm.ddi", "dd/app.target.json"])
        order = self.prints(whole)
        objects = [it for it in order if it.endswith(".o")]
        self.assertEqual(objects, [f"obj/{it}.o" for it in (
            "base/src/base/number.cppm", "base/src/base/number.cpp", "math/src/math/detail.cppm",
            "math/src/math/sum.cppm", "math/src/math/sum.cpp", "app/src/app/main.cpp")])
        self.assertEqual(self.prints(names, *self.commands(
            "A dependency cycle that stays"))[-1].split()[0], "[16/16]")


# ---- dyndep files, as Ninja and the program take them

PARTS = "d/" * 60
V = "ninja_dyndep_version = 1\n"

# Who takes a dyndep file, why it is tested, and its text. The edge of `o` names it, and an edge
# makes `n`. If Ninja 1.11 does not take what later versions do, that is 1.11.
READERS = [
    ("both", "one statement", V + "build o: dyndep | in\n"),
    ("both", "lines that end in CR LF", "ninja_dyndep_version = 1\r\nbuild o: dyndep | in\r\n"),
    ("both", "a continuation", V + "build $\n  o: dyndep\n"),
    ("both", "version 1.0-extra", "ninja_dyndep_version = 1.0-extra\nbuild o: dyndep\n"),
    ("none", "version 1.1", "ninja_dyndep_version = 1.1\nbuild o: dyndep\n"),
    ("none", "no end of its last line", V + "build o: dyndep"),
    ("none", "an explicit input", V + "build o: dyndep in\n"),
    ("none", "another binding", V + "build o: dyndep\n  depfile = x\n"),
    ("ninja", "version 01", "ninja_dyndep_version = 01\nbuild o: dyndep\n"),
    ("ninja", "a variable in a path", V + "build o: dyndep | in$x\n"),
    ("ninja", "a variable in a binding", V + "build o: dyndep\n  restat = $x\n"),
    ("ninja", "a line of more than 1,048,576 bytes",
     V + "build o: dyndep" + " " * 1_048_600 + "\n"),
    ("dyncollate", "two statements for one output", V + "build o: dyndep\nbuild o: dyndep\n"),
    ("dyncollate", "no statement for an output that names it", V),
    ("dyncollate", "an output that does not name it", V + "build o: dyndep\nbuild p: dyndep\n"),
    ("dyncollate", "an added output that is already made", V + "build o | n: dyndep\n"),
    ("1.11", "a path of 61 components", V + f"build o: dyndep | {PARTS}x\n"),
    ("dyncollate", "a NUL in a comment", V + "# a\0b\nbuild o: dyndep\n"),]


class Readers(Directory):
    seconds = 1

    def test_who_takes_a_dyndep_file(self):
        Path("build.ninja").write_text("rule touch\n  command = touch $out\n"
                                       "build o: touch || t.dd\n  dyndep = t.dd\nbuild n: phony\n")
        Path("in").touch()
        Path(PARTS).mkdir(parents=True)
        Path(PARTS, "x").touch()
        for who, why, text in READERS:
            with self.subTest(why):
                Path("t.dd").write_bytes(text.encode())
                Path("o").unlink(missing_ok=True)
                taken = self.ninja()[0] == 0, self.call("show", "t.dd")[0] == 0
                if who == "1.11":
                    who = "dyncollate" if version("ninja") < (1, 12) else "both"
                self.assertEqual(taken, (who in ("both", "ninja"), who in ("both", "dyncollate")),
                                 "by Ninja and by dyncollate")
