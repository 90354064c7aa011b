"""The traps that docs/GUIDE.md speaks of: each test falls into one, by a manifest or a document
that does, and gets out if there is a way out. A trap of other tools is tested with the versions
that have it."""
import json
import os
import re
import shutil
import unittest
from pathlib import Path

from tests.builds import EXAMPLES, Directory, edit, touch
from tests.cmake_builds import cmake
from tests.run import run, run_apart
from tests.tools import tool, version

USERS = ["src/point.cppm", "src/geometry.cppm", "src/shapes.cppm", "src/geometry.cpp",
         "src/main.cpp"]


def reverse_import():
    """Reverses an import of examples/single."""
    edit("src/point.cppm", r"^import units;|scaled(\(.\))", r"\1")
    edit("src/units.cppm", "^(export module units;)", r"\1\nimport geometry;")


def write_all_maps():
    """From now on a collation also writes the maps that stay the same."""
    for document in Path("dd").glob("*.target.json"):
        edit(document, ',\n "restat": true', "")


def target_of_one_module(name="A", folder="bmi", style="clang", made="a.o", **members):
    """Writes the document of a target whose one object provides a module of this name."""
    rule = {"primary-output": made, "provides": [{"logical-name": name}]}
    Path("a.ddi").write_text(json.dumps({"version": 1, "rules": [rule]}, ensure_ascii=False))
    Path("t.target.json").write_text(json.dumps({"version": 1, "target": "t", "module-dir": folder,
                                                 "module-ext": ".pcm" if style == "clang"
                                                 else ".gcm", "scans": ["a.ddi"], "dyndep": "t.dd",
                                                 "info": "t.json", "map": style} | members))


class Manifests(Directory):
    tools = ["ninja", "clang", "scanner"]

    def test_maps_that_are_no_order_only_inputs(self):
        """One new import compiles all sources, unless maps that stay the same are left alone."""
        self.copy("single", "clang")
        edit("build.ninja", r"^(build obj.*) \|\| (dd.app.dd) (.*)", r"\1 | \3 || \2")
        write_all_maps()
        self.ninja()
        edit("src/main.cpp", r"\A", "import units;\n")
        self.ninja()
        self.compiled(*(it.name for it in EXAMPLES["single"].sources))

    def test_restat_in_a_document_and_not_in_the_rule(self):
        """The step runs each time, because a map is older than its inputs."""
        self.copy("single", "clang")
        edit("build.ninja", r"^(  description = COLLATE .*)\n  restat = 1", r"\1")
        self.makes("600")
        edit("src/main.cpp", r"\A", "import units;\n")
        self.makes("600")
        info = os.stat("dd/app.info.json")
        self.assertEqual(self.call("collate", "dd/app.target.json"), (0, ""))
        self.assertTrue(os.path.samestat(info, os.stat("dd/app.info.json")))
        for _ in range(2):
            self.ninja()
            self.assertEqual(self.steps("COLLATE"), ["dd/app.target.json"])

    def test_without_no_module_file_deps_a_turned_import_is_a_false_cycle(self):
        """It stays, also after everything was cleaned. The way out: the flag, and Ninja forgets."""
        if version("clang") >= (20,):
            self.skipTest("Clang 16 to 19: not there")
        self.copy("single", "clang")
        edit("build.ninja", "-fno-module-file-deps", "")
        self.ninja()
        self.assertIn(".pcm", run(tool("ninja"), "-t", "deps", "obj/app/src/point.cppm.o")[1])
        reverse_import()
        said = ("dependency cycle: bmi/app/geometry.pcm"
                if version("ninja") >= (1, 11) else "multiple rules generate bmi/app/")
        for words in [], ["-t", "clean"], []:
            self.ninja(*words)
            self.assertEqual((self.status, said in self.log), (not words, not words), self.log)
        edit("build.ninja", "-Wno-unused-command-line-argument", r"-fno-module-file-deps \g<0>")
        self.ninja()
        self.assertIn(said, self.log, "the flag alone is no way out")
        os.remove(".ninja_deps")
        os.remove(".ninja_log")
        self.ninja()
        self.compiled(*USERS, "src/units.cppm", "src/plain.cpp")
        self.assertNotIn(".pcm", run(tool("ninja"), "-t", "deps", "obj/app/src/point.cppm.o")[1])

    def test_without_the_phonies_of_its_libraries_an_object_is_taken_for_made(self):
        self.copy("libs", "clang")
        self.ninja()
        edit("build.ninja", r"^(build obj.app.*) \| dd.base.loaded dd.math.loaded \|\|", r"\1 ||")
        self.ninja()
        os.remove("obj/base/src/base/number.cppm.o")
        self.assertEqual(self.ninja("obj/app/src/app/main.cpp.o"), (0, "ninja: no work to do.\n"))

    def test_with_the_phonies_of_its_libraries_one_step_misses_users(self):
        self.copy("libs", "project")
        edit("build.ninja", r"^(build obj.math.*) \|\|", r"\1 | dd/base.loaded ||")
        edit("build.ninja", r"^(build obj.app.*) \|\|", r"\1 | dd/base.loaded dd/math.loaded ||")
        with open("build.ninja", "a", encoding="utf-8") as file:
            file.write("build dd/base.loaded: phony || obj/base/src/base/number.cppm.o\n"
                       "build dd/math.loaded: phony || obj/math/src/math/sum.cppm.o\n")
        self.ninja()
        touch("src/math/detail.cppm")
        self.ninja()
        self.compiled("src/math/detail.cppm")

    def test_a_collation_without_the_info_files_of_its_libraries_as_inputs(self):
        self.copy("libs", "clang")
        edit("build.ninja", r"^(build dd.app.dd.*) dd.base.info.json dd.math.info.json", r"\1")
        self.assertIn(self.ninja("dd/app.dd")[0], (1, 3),
                      "from Ninja 1.13 on it is the status of the step")
        self.assertIn("dyncollate: cannot read dd/base.info.json", self.log.splitlines())

    def test_cleandead(self):
        """Ninja 1.11 deletes all module files, and the next run makes them again. From 1.12 on it
        reads dyndep files first."""
        self.copy("libs", "clang")
        self.makes("42")
        modules = sorted(Path("bmi").rglob("*.pcm"))
        self.assertEqual(len(modules), 3)
        self.assertEqual(self.ninja("-t", "cleandead")[0], 0)
        self.assertEqual(sorted(Path("bmi").rglob("*.pcm")),
                         [] if version("ninja") < (1, 12) else modules)
        self.makes("42")
        self.assertEqual(sorted(Path("bmi").rglob("*.pcm")), modules)
        self.idle()

    def test_the_deps_lost_and_the_log_not(self):
        """Ninja 1.11 compiles importers before their module, which ends well, with the old program.
        From 1.12 on Ninja ends by a signal, run after run. The way out: the log is also deleted."""
        self.copy("single", "clang")
        self.makes("600")
        os.remove(".ninja_deps")
        Path("src/scale.h").write_text("#define SCALE 20\n")
        for _ in range(1 if version("ninja") < (1, 12) else 2):
            self.ninja("-j1")
            self.assertEqual(run("./app"), (0, "600\n"))
        if version("ninja") < (1, 12):
            compiled = re.findall("COMPILE (.*)", self.log)
            self.assertLess(compiled.index("src/main.cpp"), compiled.index("src/units.cppm"))
        else:
            self.assertEqual((self.status, "RefreshDyndepDependents" in self.log), (-6, True),
                             self.log)
        os.remove(".ninja_log")
        self.makes("2400")
        self.idle()

    def test_import_std(self):
        self.copy("single", "clang")
        edit("src/main.cpp", r"\A", "import std;\n")
        self.reports("M5 ModuleUnknown std in obj/app/src/main.cpp.o")


class Flags(Directory):
    """A compiled module is rejected by a compilation with another language standard."""
    tools = ["clang"]
    seconds = 1

    def rejects(self, compiler, module, *words):
        Path("a.cppm").write_text("export module a;\n")
        Path("b.cpp").write_text("import a;\n")
        Path("map").write_text("a a.gcm\n")
        self.assertEqual(run(compiler, "-std=c++20", *words, *module, "-c", "a.cppm", "-o",
                             "a.o")[0], 0)
        found = [] if "-fmodules-ts" in words else ["-fmodule-file=a=a.pcm"]
        importing = [compiler, *words, *found, "-c", "b.cpp", "-o", "b.o"]
        self.assertEqual([run(*importing, f"-std=c++{it}")[0] for it in ("20", "2b")], [0, 1])

    def test_with_clang(self):
        self.rejects(tool("clang"), ["-x", "c++-module", "-fmodule-output=a.pcm"])

    def test_with_gcc(self):
        if not tool("gcc"):
            self.skipTest("g++-12: not there")
        self.rejects(tool("gcc"), [], "-x", "c++", "-fmodules-ts", "-fmodule-mapper=map")


class Prebuilt(Directory):
    tools = ["clang"]
    seconds = 1

    def test_an_info_file_by_hand(self):
        """It makes a module that another build compiled known to the collation and, by the map,
        to the compiler."""
        os.mkdir("lib")
        Path("lib/pre.cppm").write_text("export module pre;\nexport int one();\n")
        Path("main.cpp").write_text("import pre;\nint main() { return one(); }\n")
        made = ("-std=c++20 -x c++-module -fmodule-output=lib/pre.pcm -c lib/pre.cppm -o "
                "lib/pre.o".split())
        self.assertEqual(run(tool("clang"), *made), (0, ""))
        Path("pre.info.json").write_text(json.dumps({"version": 2, "target": "pre", "modules": [
            {"name": "pre", "bmi": "lib/pre.pcm", "requires": [], "visibility": "public"}]}))
        target_of_one_module(linked=["pre.info.json"])
        Path("a.ddi").write_text('{"version":1,"rules":[{"primary-output":"main.o",'
                                 '"requires":[{"logical-name":"pre"}]}]}')
        self.assertEqual(self.call("collate", "t.target.json"), (0, ""))
        self.assertIn("build main.o: dyndep | lib/pre.pcm\n", Path("t.dd").read_text())
        self.assertEqual(run(tool("clang"), "-std=c++20", "@main.o.modmap", "-c", "main.cpp", "-o",
                             "main.o"), (0, ""))


class Scanner(Directory):
    tools = ["clang", "scanner"]
    seconds = 2

    def scan(self, source, language):
        """The status of the scanner on a source, and what it prints on both outputs."""
        Path("a.cpp").write_text(source)
        compiling = [tool("clang"), "-std=c++20", "-x", language, "-c", "a.cpp", "-o", "a.o"]
        return run_apart(tool("scanner"), "-format=p1689", "--", *compiling)

    def test_a_scanner_that_fails(self):
        """It leaves a document that is accepted, and has no rule."""
        status, scanned, _ = self.scan('#include "none.h"\nimport units;\n', "c++")
        self.assertNotEqual(status, 0)
        Path("broken.ddi").write_text(scanned)
        self.assertEqual(self.call("one", "broken.ddi", "bmi", ".pcm"),
                         (0, "ninja_dyndep_version = 1\n"))
        Path("empty.ddi").write_text("")
        self.assertEqual(self.call("one", "empty.ddi", "bmi", ".pcm"),
                         (1, "dyncollate: scan 0: S1 NotJson document\n"))

    def test_a_header_unit(self):
        """The scanner ends with status 1, and writes no rule."""
        Path("h.h").write_text("int h();\n")
        status, scanned, _ = self.scan('import "h.h";\n', "c++")
        self.assertEqual((status, json.loads(scanned)["rules"]), (1, []))

    def test_a_name_that_the_scanner_cannot_take(self):
        """The rule of a module `ñ` has no member `provides`."""
        if version("scanner") < (19,) or version("scanner") >= (20,):
            self.skipTest("clang-tools-19: not there")
        _, scanned, _ = self.scan("export module ñ;\n", "c++-module")
        self.assertEqual(re.findall("primary|provides", scanned), ["primary"])


class WithGcc(Directory):
    tools = ["ninja", "clang", "scanner", "gcc"]

    def without_sed(self):
        edit("build.ninja", r" \$\n    && sed.*", "")

    def copy_for_newer_gcc(self):
        newer = next((it for it in ("g++-16", "g++-15", "g++-14") if shutil.which(it)), None)
        if not newer:
            self.skipTest("g++-14: not there")
        self.environment["GCC"] = newer
        self.copy("single", "gcc")

    def test_what_a_scan_by_gcc_leaves_out(self):
        """An import of the source's own module. At a header unit, the scan fails."""
        self.copy_for_newer_gcc()
        for imported, said in (("units", "cannot import module in its own purview"),
                               ("<vector>", "failed to read compiled module")):
            edit("src/units.cppm", r"^export module units;\n(import .*\n)?",
                 f"export module units;\nimport {imported};\n")
            self.assertEqual(self.ninja()[0], 1, self.log)
            self.assertIn(said, self.log)
            self.assertNotIn("\ndyncollate:", self.log)

    def test_without_mno_modules_ninja_rejects_the_depfile(self):
        if version("gcc") >= (14,):
            self.skipTest("GCC 11 to 13: not there")
        self.copy("single", "gcc")
        self.without_sed()
        edit("build.ninja", "-Mno-modules", "")
        self.assertEqual(self.ninja()[0], 1)
        self.assertIn("inputs may not also have inputs", self.log)

    def test_module_files_in_the_depfile(self):
        """A new import compiles all sources, and an import that is reversed is a false cycle,
        also after a clean."""
        self.copy_for_newer_gcc()
        self.without_sed()
        write_all_maps()
        self.makes("600")
        self.assertRegex(run(tool("ninja"), "-t", "deps", "obj/app/src/main.cpp.o")[1],
                         r"\.gcm\n|\.modmap\n")
        edit("src/main.cpp", r"\A", "import units;\n")
        self.ninja()
        self.compiled(*(it.name for it in EXAMPLES["single"].sources))
        reverse_import()
        for words in [], ["-t", "clean"], []:
            self.ninja(*words)
            self.assertEqual((self.status, "dependency cycle" in self.log), (not words, not words),
                             self.log)

    def test_a_name_that_gcc_12_cannot_take_is_collated(self):
        if version("gcc")[0] != 12:
            self.skipTest("g++-12: not there")
        target_of_one_module("ñ", "", "gcc")
        self.assertEqual(self.call("collate", "t.target.json"), (0, ""))
        self.assertEqual(Path("a.o.modmap").read_text(), "ñ ñ.gcm\n")
        Path("name.cppm").write_text("export module ñ;\n")
        compiling = [tool("gcc"),
                     *"-std=c++20 -fmodules-ts -fmodule-mapper=a.o.modmap -x c++ -c name.cppm -o "
                     "a.o".split()]
        self.assertEqual(run(*compiling)[0], 1)


LISTS = """cmake_minimum_required(VERSION 3.28)
project(p CXX)
set(CMAKE_CXX_STANDARD 20)
add_executable(app main.cpp)
target_sources(app PRIVATE FILE_SET modules TYPE CXX_MODULES FILES a.cppm b.cppm)
"""
A = "export module a;\n%sexport int a() { return 1; }\n"
B = "export module b;\n%sexport int b() { return 41; }\n"


class CMake(Directory):
    """A build of CMake's own, without dyncollate, falls into the same trap."""
    tools = ["ninja", "clang", "scanner"]

    def configure(self, compiler, *words):
        if not cmake():
            self.skipTest("CMake 3.28 or newer: not there")
        given = [f"-DCMAKE_CXX_COMPILER={compiler}",
                 f"-DCMAKE_CXX_COMPILER_CLANG_SCAN_DEPS={tool('scanner')}",
                 f"-DCMAKE_MAKE_PROGRAM={tool('ninja')}", *words]
        status, log = run(cmake(), "-G", "Ninja", *given, ".", env=self.environment)
        self.assertEqual(status, 0, log)

    def write(self, a="import b;\n", b=""):
        Path("a.cppm").write_text(A % a)
        Path("b.cppm").write_text(B % b)

    def turned(self):
        """Builds a project, and reverses its import."""
        self.write()
        self.makes("42")
        self.write("", "import a;\n")

    def begin(self, compiler, *words):
        Path("CMakeLists.txt").write_text(LISTS)
        Path("main.cpp").write_text(
            '#include <cstdio>\nimport a;\nimport b;\nint main() { printf("%d\\n", a() + b()); }\n')
        self.write()
        self.configure(compiler, *words)
        self.turned()

    def stays(self):
        """The cycle stays after a clean, and ends when Ninja forgets."""
        for words in [], ["-t", "clean"], []:
            self.ninja(*words)
            self.assertEqual((self.status, "dependency cycle" in self.log), (not words, not words),
                             self.log)
        os.remove(".ninja_deps")
        os.remove(".ninja_log")
        self.makes("42")

    def test_with_clang(self):
        """The way out that lasts is the flag."""
        if version("clang") >= (20,):
            self.skipTest("Clang 16 to 19: not there")
        self.begin(tool("clang"))
        self.stays()
        self.configure(tool("clang"),
                       "-DCMAKE_CXX_FLAGS=-fno-module-file-deps -Wno-unused-command-line-argument")
        self.ninja("-t", "clean")
        os.remove(".ninja_deps")
        os.remove(".ninja_log")
        self.turned()
        self.makes("42")

    def test_with_gcc(self):
        newer = next((it for it in ("g++-16", "g++-15", "g++-14") if shutil.which(it)), None)
        if not newer:
            self.skipTest("g++-14: not there")
        self.begin(newer)
        self.stays()


class Documents(Directory):
    tools = []
    seconds = 1

    def test_a_space_in_the_path_of_a_module_file(self):
        target_of_one_module(folder="my mods")
        self.assertEqual(self.call("collate", "t.target.json"),
                         (1, "dyncollate: K1 MapPath my mods/A.pcm\n"))

    def test_header_units(self):
        """As GCC 14.2, 15.3 and 16.2 wrote them with `-fdeps-format=p1689r5`,
        and as P1689R5 says."""
        Path("gcc.ddi").write_text(
            '{"rules":[{"primary-output":"u.o","requires":[{"logical-name":"./h.h"}]}],'
            '"version":0,"revision":0}')
        self.assertEqual(self.call("one", "gcc.ddi", "bmi", ".gcm"),
                         (1, "dyncollate: scan 0: S6 BadName rule 0 requires 0\n"))
        Path("marked.ddi").write_text(
            '{"version":1,"rules":[{"primary-output":"u.o","requires":[{"logical-name":"./h.h",'
            '"lookup-method":"include-quote","unique-on-source-path":true}]}]}')
        self.assertEqual(self.call("one", "marked.ddi", "bmi", ".pcm"),
                         (1, "dyncollate: scan 0: S5 HeaderUnit rule 0 requires 0\n"))

    def test_a_scan_document_names_any_path(self):
        """Its map is written there."""
        os.makedirs("below/it")
        os.chdir("below/it")
        target_of_one_module(made="../../x")
        self.assertEqual(self.call("collate", "t.target.json"), (0, ""))
        self.assertTrue(os.path.exists("../../x.modmap"))

    def test_one_file_for_two_outputs(self):
        """What is written later stays."""
        target_of_one_module(info="t.dd")
        self.assertEqual(self.call("collate", "t.target.json"), (0, ""))
        self.assertTrue(Path("t.dd").read_text().startswith("ninja_dyndep_version"))

    def test_an_output_that_is_an_input(self):
        target_of_one_module(dyndep="a.ddi")
        self.assertEqual(self.call("collate", "t.target.json"), (0, ""))
        self.assertEqual(self.call("collate", "t.target.json"),
                         (1, "dyncollate: scan 0: S1 NotJson document\n"))

    def test_windows_paths(self):
        """A backslash is a byte like any, and a drive is the beginning of a relative path."""
        target_of_one_module(folder="bmi\\app")
        self.assertEqual(self.call("collate", "t.target.json"),
                         (1, "dyncollate: K1 MapPath bmi\\app/A.pcm\n"))
        target_of_one_module(made="C:/obj\\a.o")
        self.assertEqual(
            self.call("one", "a.ddi", "bmi", ".pcm"),
            (0, "ninja_dyndep_version = 1\nbuild C$:/obj\\a.o | bmi/A.pcm: dyndep\n  restat = 1\n"))


if __name__ == "__main__":
    unittest.main()
