"""Builds small projects with CMake, each with CMake's step and with dyncollate, and compares the
edges and what is compiled.

This needs CMake 3.28 or newer, which CMAKE may name, Ninja, and a compiler that CMake can scan:
Clang 16 or newer with clang-scan-deps, or GCC 14 or newer. The tests whose tools are missing are
skipped.
"""
import functools
import json
import os
import re
import shutil
import sys
from pathlib import Path

from tests import program
from tests.cmake import ADAPTER, NINJA, adapter, put, statements
from tests.run import InRoom, run, run_at_once
from tests.tools import of_versions, tool

# The value that CMake asks for before it supports `import std`, by its version.
IMPORT_STD = {(3, 30): "0e5b6991-d74f-4b3d-a41c-cf096e0b2508",
              (3, 31): "0e5b6991-d74f-4b3d-a41c-cf096e0b2508",
              (4, 3): "451f2fe2-a8a2-47c3-bc32-94786d8fc91b"}
HEAD = "cmake_minimum_required(VERSION 3.28)\nproject(p CXX)\nset(CMAKE_CXX_STANDARD 20)\n"

# A library with a partition, an implementation and a private module; two that link it, of which one
# does not pass that on; one that is not scanned; and two programs. `far` imports from `base` only
# through `hidden`.
PROJECT = {
    "CMakeLists.txt": HEAD + """set(CMAKE_POSITION_INDEPENDENT_CODE ON)
add_library(base STATIC base.cpp)
target_sources(base PUBLIC FILE_SET CXX_MODULES FILES b0.cppm b0p.cppm b1.cppm b2.cppm
               PRIVATE FILE_SET own TYPE CXX_MODULES FILES own.cppm)
add_library(mid STATIC)
target_sources(mid PUBLIC FILE_SET CXX_MODULES FILES m0.cppm m1.cppm)
target_link_libraries(mid PUBLIC base)
add_library(hidden SHARED)
target_sources(hidden PUBLIC FILE_SET CXX_MODULES FILES h0.cppm)
target_link_libraries(hidden PRIVATE base)
add_library(plain STATIC plain.cpp)
set_target_properties(plain PROPERTIES CXX_SCAN_FOR_MODULES OFF)
add_executable(app main.cpp u1.cpp u2.cpp)
target_link_libraries(app PRIVATE mid plain)
add_executable(far far.cpp)
target_link_libraries(far PRIVATE hidden)
""",
    "b0p.cppm": "export module b0:p;\nexport inline int fb0p() { return 1; }\n",
    "b0.cppm": "export module b0;\nexport import :p;\nexport inline int fb0() { return 1; }\n",
    "b1.cppm": "export module b1;\nimport b0;\nexport inline int fb1() { return 1; }\n",
    "b2.cppm": "export module b2;\nexport int fb2();\n",
    "own.cppm": "export module own;\nexport inline int fown() { return 1; }\n",
    "base.cpp": "module b2;\nimport own;\nint fb2() { return fown(); }\n",
    "m0.cppm": "export module m0;\nimport b1;\nexport inline int fm0() { return fb1(); }\n",
    "m1.cppm": "export module m1;\nexport inline int fm1() { return 1; }\n",
    "h0.cppm": "export module h0;\nimport b1;\nexport inline int fh0() { return fb1(); }\n",
    "plain.cpp": "int plain() { return 0; }\n",
    "main.cpp": "int u1(); int u2(); int plain();\nint main() { return plain() + u1() - u2(); }\n",
    "u1.cpp": "import m0;\nint u1() { return fm0(); }\n",
    "u2.cpp": "import m1;\nint u2() { return fm1(); }\n",
    "far.cpp": "import h0;\nint main() { return fh0() - 1; }\n",
}
# A package with two libraries, and a project that finds it.
PACKAGE = {
    "CMakeLists.txt": HEAD + """add_library(letters STATIC)
target_sources(letters PUBLIC FILE_SET CXX_MODULES BASE_DIRS src FILES src/sub/letters.cppm)
add_library(words STATIC words.cpp)
target_sources(words PUBLIC FILE_SET CXX_MODULES FILES words.cppm part.cppm
               PRIVATE FILE_SET own TYPE CXX_MODULES FILES own.cppm)
target_link_libraries(words PUBLIC letters)
foreach(name letters words)
  target_compile_features(${name} PUBLIC cxx_std_20)
endforeach()
install(TARGETS words letters EXPORT words FILE_SET CXX_MODULES DESTINATION lib/src
        CXX_MODULES_BMI DESTINATION lib/bmi PERMISSIONS OWNER_READ GROUP_READ)
install(EXPORT words NAMESPACE w:: DESTINATION lib/cmake/words CXX_MODULES_DIRECTORY modules
        FILE words-config.cmake)
export(EXPORT words NAMESPACE w:: CXX_MODULES_DIRECTORY modules
       FILE ${CMAKE_CURRENT_BINARY_DIR}/words-config.cmake)
""",
    "src/sub/letters.cppm": "export module letters;\nexport inline int letters() { return 1; }\n",
    "part.cppm": "export module words:part;\nimport letters;\n"
    "export inline int part() { return letters(); }\n",
    "words.cppm": "export module words;\nexport import :part;\nexport int words();\n",
    "own.cppm": "export module own;\nexport inline int own() { return 2; }\n",
    "words.cpp": "module words;\nimport own;\nint words() { return own(); }\n",
}
FINDS = {
    "CMakeLists.txt": HEAD + """find_package(words REQUIRED)
add_library(mid STATIC)
target_sources(mid PUBLIC FILE_SET CXX_MODULES FILES mid.cppm)
target_link_libraries(mid PRIVATE w::words)
add_executable(app main.cpp)
target_link_libraries(app PRIVATE mid)
""",
    "mid.cppm": "export module mid;\nimport words;\nexport inline int mid() { return part() + "
    "words(); }\n",
    "main.cpp": "import mid;\nint main() { return mid() - 3; }\n",
}
# A project with each kind of target: a library with a private module, a plain one, one that is
# exported, one that uses a package, and a program that has private modules of its own.
KINDS = {
    "CMakeLists.txt": HEAD + """find_package(words REQUIRED)
add_library(hides STATIC hides.cpp)
target_sources(hides PUBLIC FILE_SET CXX_MODULES FILES hides.cppm
               PRIVATE FILE_SET own TYPE CXX_MODULES FILES secret.cppm)
add_library(plain STATIC)
target_sources(plain PUBLIC FILE_SET CXX_MODULES FILES plain.cppm)
add_library(shown STATIC)
target_sources(shown PUBLIC FILE_SET CXX_MODULES FILES shown.cppm)
target_link_libraries(shown PUBLIC hides)
target_compile_features(shown PUBLIC cxx_std_20)
add_library(user STATIC)
target_sources(user PUBLIC FILE_SET CXX_MODULES FILES user.cppm)
target_link_libraries(user PUBLIC w::words shown plain)
add_executable(app main.cpp)
target_sources(app PRIVATE FILE_SET own TYPE CXX_MODULES FILES mine.cppm)
target_link_libraries(app PRIVATE user)
install(TARGETS shown hides EXPORT shown FILE_SET CXX_MODULES DESTINATION lib/src
        CXX_MODULES_BMI DESTINATION lib/bmi)
export(EXPORT shown NAMESPACE s:: CXX_MODULES_DIRECTORY modules
       FILE ${CMAKE_CURRENT_BINARY_DIR}/shown-config.cmake)
""",
    "plain.cppm": "export module plain;\nexport inline int plain() { return 1; }\n",
    "secret.cppm": "export module secret;\nexport inline int secret() { return 2; }\n",
    "hides.cppm": "export module hides;\nexport int hides();\n",
    "hides.cpp": "module hides;\nimport secret;\nint hides() { return secret(); }\n",
    "shown.cppm": "export module shown;\nimport hides;\n"
    "export inline int shown() { return hides(); }\n",
    "user.cppm": "export module user;\nimport plain;\nimport shown;\nimport words;\n"
                 "export inline int user() { return shown() + plain() + part() + words(); }\n",
    "mine.cppm": "export module mine;\nexport inline int mine() { return 6; }\n",
    "main.cpp": "import mine;\nimport user;\nint main() { return user() - mine(); }\n",
}
# A library that imports the standard library, and a program that links only this library.
STD = {
    "CMakeLists.txt": """cmake_minimum_required(VERSION 3.30)
set(CMAKE_EXPERIMENTAL_CXX_IMPORT_STD @VALUE@)
project(p CXX)
set(CMAKE_CXX_STANDARD 23)
add_library(words STATIC words.cpp)
target_sources(words PUBLIC FILE_SET CXX_MODULES FILES words.cppm)
set_target_properties(words PROPERTIES CXX_MODULE_STD ON)
add_executable(app main.cpp)
target_link_libraries(app PRIVATE words)
""",
    "words.cppm": "export module words;\nimport std;\nexport std::size_t words();\n",
    "words.cpp": "module words;\nimport std;\nstd::size_t words() { return std::string(2, "
    "'a').size(); }\n",
    "main.cpp": "import words;\nint main() { return words() == 2 ? 0 : 1; }\n",
}
# Links of each kind, and a target outside the build directory, which `app` reaches only through
# the PRIVATE links of a shared library.
LINKED = {
    "CMakeLists.txt": HEAD + """set(CMAKE_POSITION_INDEPENDENT_CODE ON)
add_subdirectory(lib ${CMAKE_BINARY_DIR}/../elsewhere)
add_library(objects OBJECT EXCLUDE_FROM_ALL)
target_sources(objects PUBLIC FILE_SET CXX_MODULES FILES o.cppm)
target_link_libraries(objects PUBLIC $<1:base>)
add_library(passes INTERFACE)
target_link_libraries(passes INTERFACE $<BUILD_INTERFACE:lib::base>)
add_library(hidden SHARED hidden.cpp)
target_sources(hidden PUBLIC FILE_SET CXX_MODULES FILES h.cppm)
target_link_libraries(hidden PRIVATE passes objects)
add_executable(app main.cpp)
target_link_libraries(app PRIVATE hidden)
""",
    "lib/CMakeLists.txt": """add_library(base STATIC)
add_library(lib::base ALIAS base)
target_sources(base PUBLIC FILE_SET CXX_MODULES FILES b.cppm)
""",
    "lib/b.cppm": "export module b;\nexport inline int fb() { return 1; }\n",
    "o.cppm": "export module o;\nimport b;\nexport inline int fo() { return fb(); }\n",
    "h.cppm": "export module h;\nexport int fh();\n",
    "hidden.cpp": "module h;\nimport b;\nimport o;\nint fh() { return fb() + fo(); }\n",
    "main.cpp": "import h;\nint main() { return fh() - 2; }\n",
}


def library(name, kind="STATIC", more="", private="", linked=""):
    """A library of CMake's language with the public module of its name, and an implementation of it
    if it has or links a helper."""
    return (
        f"add_library({name} {kind} {f'{name}.cpp' * bool(more or private or linked)})\n"
        f"target_sources({name} PUBLIC FILE_SET CXX_MODULES FILES {name}.cppm {more})\n"
        + f"target_sources({name} PRIVATE FILE_SET own TYPE CXX_MODULES FILES {private})\n" * bool(
            private) + f"target_link_libraries({name} PRIVATE {linked})\n" * bool(linked))


def shape(libraries, *linked, own=()):
    """A project whose libraries `a` and `b` have helper modules, all named `detail`,
    and a program that links these."""
    files = {f"{it}.cppm": f"export module {it};\nexport int {it}();\n" for it in linked}
    files.update(
        {f"{it}.cpp": f"module {it};\nimport detail;\nint {it}() {{ return {it}_detail(); }}\n"
         for it in linked})
    for it in (*linked, *own):
        files[f"{it}d.cppm"] = (
            f"export module detail;\nexport inline int {it}_detail() {{ return 1; }}\n")
    calls = [f"{it}()" for it in linked] + [f"{it}_detail()" for it in own]
    files["main.cpp"] = ("".join(f"import {it};\n" for it in (*linked, *["detail"] * len(own)))
                         + f"int main() {{ return {' + '.join(calls)} - {len(calls)}; }}\n")
    lists = (
        f"{HEAD}set(CMAKE_POSITION_INDEPENDENT_CODE ON)\n{libraries}add_executable(app main.cpp)\n"
        "target_link_libraries(app PRIVATE ")
    return {**files, "CMakeLists.txt": f"{lists}{' '.join(linked)})\n" + "".join(
        f"target_sources(app PRIVATE FILE_SET own TYPE CXX_MODULES FILES {it}d.cppm)\n"
        for it in own)}


HELPERS = library("ad") + library("bd")
# Modules of one name that CMake builds: private modules of two libraries; modules of libraries that
# only these link, as static and as shared ones; and a module of the program, with one that a shared
# library links, or with one of a library that the program links.
SHAPES = {
    "private": shape(library("a", private="ad.cppm") + library("b", private="bd.cppm"), "a", "b"),
    "linked": shape(HELPERS + library("a", linked="ad") + library("b", linked="bd"), "a", "b"),
    "shared": shape(HELPERS + library("a", "SHARED",
                                      linked="ad") + library("b", "SHARED", linked="bd"), "a", "b"),
    "own and hidden": shape(library("ad") + library("a", "SHARED", linked="ad"), "a", own=["own"]),
    "own and linked": shape(library("a", more="ad.cppm"), "a", own=["own"]),}


@functools.lru_cache(None)
def cmake():
    """Returns the path of a CMake that supports modules, or None."""
    name = shutil.which(os.environ.get("CMAKE", "cmake"))
    return name if name and cmake_version(name) >= (3, 28) else None


@functools.lru_cache(None)
def cmake_version(name):
    return tuple(map(int, re.search(r"(\d+)\.(\d+)", run(name, "--version")[1]).groups()))


@functools.lru_cache(None)
def gcc():
    """Returns the path of a GCC that scans, or None."""
    found = [shutil.which(it) for it in ([os.environ["GCC"]] if "GCC" in os.environ
                                         else of_versions("g++", 14, 15, 16))]
    return next((it for it in found if it and int(run(it, "-dumpversion")[1].split(".")[0]) >= 14),
                None)


def clang():
    """Returns the path of a Clang that has its scanner, or None."""
    return tool("scanner") and tool("clang")


def environment(**more):
    """The variables of a run of CMake, which may call dyncollate-ninja."""
    return os.environ | {"DYNCOLLATE": program.PROGRAM, "DYNCOLLATE_NINJA": tool("ninja")} | more


class Tree:
    """A project and its build directory.
    A run of Ninja leaves in `status` and `log` how it ended."""

    def __init__(self, top, files, compiler, generator, *options):
        self.top, self.build = top, top / "build"
        self.configuring = [cmake(), "-G", generator, "-S", top, "-B",
                            self.build, f"-DCMAKE_CXX_COMPILER={compiler}",
                            f"-DCMAKE_MAKE_PROGRAM={tool('ninja')}", *options]
        for name, text in files.items():
            put(top / name, text)
        self.configure()

    def configure(self, **more):
        status, log = run(*self.configuring, env=environment(**more))
        assert not status, log

    def adopted(self):
        """Whether the build calls dyncollate."""
        files = [*self.build.glob("*.ninja"), *self.build.glob("CMakeFiles/*.ninja")]
        return any(" collate CMakeFiles/" in it.read_text() for it in files)

    def ninja(self, *words):
        self.status, self.log = run(tool("ninja"), "-C", self.build, "-j2", *words,
                                    env=environment())

    def without_names(self, text):
        """Removes what differs from build to build: the directory, and a part of the directory
        names of imported targets."""
        return re.sub(r"@synth_[0-9a-f]+", "@synth", str(text).replace(str(self.top), ""))

    def steps(self, description):
        """What the last run did of a kind of step."""
        return sorted(re.findall(rf"^\[\d+/\d+\] {description} '?(.*?)'?$",
                                 self.without_names(self.log), re.M))

    def compiled(self):
        return self.steps("Building CXX object")

    def edges(self):
        """The statements of all dyndep files."""
        return {self.without_names(it): statements(self.without_names(it.read_text()))
                for it in self.top.rglob("CXX.dd")}


@program.needs("program")
class Builds(InRoom):
    """A project in two directories: `trees[0]` is built with CMake's step,
    `trees[1]` with dyncollate."""
    # a function that returns the compiler or None, and the package that has it
    compiler = package = None
    seconds = 60

    def setUp(self):
        for found, name in ((cmake(), "CMake 3.28 or newer"), (tool("ninja"), "ninja-build"),
                            (self.compiler(), self.package)):
            if not found:
                self.skipTest(f"{name}: not there")
        super().setUp()

    def lay(self, files, *options, generator="Ninja", folder="a project"):
        tops = [self.room / it / folder for it in ("cmakes", "ours")]
        self.trees = [Tree(it, files, self.compiler(), generator, *options) for it in tops]
        self.adopt()

    def adopt(self):
        status, said = adapter("adopt", str(self.trees[1].build))
        self.assertEqual(status, 0, said)

    def run_both(self, *words):
        for tree in self.trees:
            tree.ninja(*words)

    def builds(self, *sources):
        """Both builds end well, with the same edges, and compile exactly these sources."""
        self.run_both()
        for tree in self.trees:
            self.assertEqual(tree.status, 0, tree.log)
            self.assertEqual(sorted(map(os.path.basename, tree.compiled())),
                             sorted(f"{it}.o" for it in sources), tree.log)
        self.same_edges()
        self.idle()

    def same_edges(self):
        cmakes, ours = self.trees
        self.assertEqual(ours.edges(), cmakes.edges())
        self.assertEqual(ours.compiled(), cmakes.compiled(), ours.log)

    def is_clang(self):
        return "clang" in self.compiler()

    def idle(self):
        self.run_both()
        for tree in self.trees:
            self.assertIn("ninja: no work to do.", tree.log)

    def both_fail(self, line):
        """Both builds fail, and that by dyncollate with this line."""
        self.run_both()
        self.assertTrue(all(tree.status for tree in self.trees))
        self.assertIn(f"dyncollate: {line}", self.trees[1].log.splitlines())

    def each(self, change):
        for tree in self.trees:
            change(tree)

    def edit(self, name, pattern, replacement):
        for tree in self.trees:
            text, count = re.subn(pattern, replacement, (tree.top / name).read_text(), flags=re.M)
            assert count, f"{name} has no {pattern}"
            put(tree.top / name, text)

    def touch(self, name):
        self.each(lambda tree: os.utime(tree.top / name))

    def remove(self, name):
        self.each(lambda tree: os.remove(tree.build / name))


class Edits:
    """A project from scratch and after an edit of each kind."""
    base = ["b0.cppm", "b0p.cppm", "b1.cppm", "b2.cppm", "own.cppm", "base.cpp"]
    users = ["m0.cppm", "h0.cppm", "u1.cpp", "far.cpp"]
    others = ["m1.cppm", "main.cpp", "u2.cpp", "plain.cpp"]

    def setUp(self):
        super().setUp()
        self.lay(PROJECT)
        self.builds(*self.base, *self.users, *self.others)

    def test_touched_sources(self):
        for source, users in (("b0.cppm", ["b1.cppm", *self.users]),
                              ("b0p.cppm", ["b0.cppm", "b1.cppm", *self.users]),
                              ("m1.cppm", ["u2.cpp"]), ("own.cppm", ["base.cpp"]),
                              ("base.cpp", []), ("h0.cppm", ["far.cpp"])):
            with self.subTest(source):
                self.touch(source)
                self.builds(source, *users)

    def test_changed_imports(self):
        self.edit("u2.cpp", r"^import m1;", r"import m1;\nimport b2;")
        self.builds("u2.cpp")
        self.edit("u2.cpp", r"^import b2;\n", "")
        self.builds("u2.cpp")
        self.edit("m1.cppm", r"^(export module m1;)", r"\1\nimport b2;")
        self.builds("m1.cppm", "u2.cpp")

    def test_an_import_that_is_reversed(self):
        self.edit("b1.cppm", "^import b0;", "import b2;")
        self.builds("b1.cppm", *self.users)
        self.edit("b0.cppm", "^(export import :p;)", r"\1\nimport b1;")
        self.builds("b0.cppm")

    def test_a_cycle(self):
        self.edit("b0.cppm", "^(export import :p;)", r"\1\nimport b1;")
        folder = "CMakeFiles/base.dir"
        self.both_fail(f"M8 ImportCycle {folder}/b0.cppm.o -> {folder}/b1.cppm.o")
        self.edit("b0.cppm", r"^import b1;\n", "")
        self.builds("b0.cppm", "b1.cppm", *self.users)

    def test_an_import_two_targets_away(self):
        """It is in the map of `far`, which links neither of the two modules' targets."""
        self.edit("b1.cppm", "^(export module b1;)", r"\1\nimport b2;")
        self.builds("b1.cppm", *self.users)

    def test_an_import_that_a_link_hides(self):
        """`far` links `hidden`, which does not pass on that it links `base`. CMake with Clang
        builds `far` if another import of the source needs the module."""
        line = (
            "dyncollate-cmake: CMakeFiles/far.dir/far.cpp.o.ddi: imports b2 of CMakeFiles/base.dir,"
            " which far reaches only through links "
            "that hide it: target_link_libraries(far PRIVATE base) is missing")
        self.edit("far.cpp", "^import h0;", r"import h0;\nimport b2;")
        self.run_both()
        self.assertTrue(all(tree.status for tree in self.trees))
        self.assertIn("'b2' not found" if self.is_clang() else "b2", self.trees[0].log)
        self.assertIn(line, self.trees[1].log.splitlines())
        self.assertEqual(self.trees[1].compiled(), [])
        self.trees[1].ninja()
        self.assertIn(line, self.trees[1].log.splitlines())
        self.edit("far.cpp", "^import b2;", "import b1;")
        self.run_both()
        self.assertIn(line.replace("b2", "b1"), self.trees[1].log.splitlines())
        if self.is_clang():
            self.assertEqual(self.trees[0].status, 0, self.trees[0].log)
        self.edit("CMakeLists.txt", "^target_link_libraries.far PRIVATE hidden.",
                  "target_link_libraries(far PRIVATE hidden base)")
        self.run_both()
        self.assertEqual([tree.status for tree in self.trees], [0, 0], self.trees[1].log)
        self.assertEqual(*[tree.edges() for tree in self.trees])
        self.idle()

    def test_an_import_of_a_private_module(self):
        self.edit("u1.cpp", r"^(import m0;)", r"\1\nimport own;")
        self.both_fail(
            "M9 ModulePrivate own of CMakeFiles/base.dir in object CMakeFiles/app.dir/u1.cpp.o")
        self.edit("u1.cpp", r"^import own;\n", "")
        self.builds("u1.cpp")

    def test_a_renamed_module(self):
        self.edit("m1.cppm", "module m1;", "module m9;")
        self.both_fail("M5 ModuleUnknown m1 in CMakeFiles/app.dir/u2.cpp.o")
        self.edit("u2.cpp", "import m1;", "import m9;")
        self.run_both()
        self.same_edges()

    def test_a_new_source(self):
        """Ninja runs CMake again, and the build is still adopted."""
        self.each(lambda tree: put(tree.top / "b3.cppm", "export module b3;\nimport b0;\n"))
        self.edit("CMakeLists.txt", r"b2\.cppm", "b2.cppm b3.cppm")
        self.builds("b3.cppm")
        self.assertEqual([tree.adopted() for tree in self.trees], [False, True])

    def test_lost_files(self):
        for name, sources in (("base.dir/b2.cppm.o", ["b2.cppm", "base.cpp"]),
                              ("app.dir/u1.cpp.o.modmap", ["u1.cpp"]),
                              ("base.dir/CXXModules.json", []), ("mid.dir/CXX.dd", []),
                              (f"base.dir/b0{'.pcm' if self.is_clang() else '.gcm'}", None)):
            with self.subTest(name):
                self.remove(f"CMakeFiles/{name}")
                self.run_both()
                self.same_edges()
                if sources is not None:
                    self.assertEqual(sorted(map(os.path.basename, self.trees[1].compiled())),
                                     [f"{it}.o" for it in sources])
                self.idle()

    def test_lost_info_files(self):
        """The next build makes an info file again that is gone, and compiles nothing, whoever wrote
        it. A build that finds one truncated names it and fails, and the next one is well."""
        ours = self.trees[1]
        for name in "base", "mid", "hidden":
            info = ours.build / f"CMakeFiles/{name}.dir/CXXModules.json"
            before = info.read_text()
            os.remove(info)
            ours.ninja()
            self.assertEqual((ours.status, info.read_text(), ours.compiled()), (0, before, []),
                             ours.log)
            info.write_text(before[:-9])
            ours.ninja()
            self.assertNotEqual(ours.status, 0)
            self.assertRegex(
                ours.log,
                rf"(?m)^dyncollate-cmake: info \d was (.*/)?CMakeFiles/{name}.dir/CXXModules.json, "
                r"which is removed: the next build makes it again$")
            ours.ninja()
            self.assertEqual((ours.status, info.read_text(), ours.compiled()), (0, before, []),
                             ours.log)
            self.idle()

    def test_restored(self):
        """The Ninja files are CMake's again,
        and the build is well with either step after the other."""
        ours = self.trees[1]
        ours.configure()
        cmakes = {it: it.read_bytes() for it in ours.build.rglob("*.ninja")}
        self.adopt()
        self.assertNotEqual({it: it.read_bytes() for it in cmakes}, cmakes)
        self.assertEqual(adapter("restore", str(ours.build)), (0, ""))
        self.assertEqual({it: it.read_bytes() for it in cmakes}, cmakes)
        for change in lambda: None, self.adopt:
            change()
            ours.ninja()
            self.assertEqual(ours.status, 0, ours.log)
            self.assertEqual(len(ours.steps("Generating CXX dyndep file")), 5)
            self.assertEqual(ours.edges(), self.trees[0].edges())
            self.idle()


class Others:
    """Other projects and generators."""

    def exported(self, tree):
        """The mode of each file that was exported or installed, and the lines of those for CMake,
        which have no certain order."""
        files = [it for folder in ("installed", "build/modules")
                 for it in (tree.top / folder).rglob("*") if it.is_file()]
        self.assertGreater(len(files), 15)
        return {str(it.relative_to(tree.top)): (it.stat().st_mode, it.suffix == ".cmake" and sorted(
            it.read_text().replace(str(tree.top), "").splitlines())) for it in files
                if not it.name.endswith(".modules.json")}

    def test_an_installed_package(self):
        """What is exported and installed is what CMake's step exports and installs;
        another project finds it."""
        # on Debian 13 a build of CMake links a program in each run if there is a space in the path
        # of an installed library
        self.lay(PACKAGE, folder="package")
        self.builds("letters.cppm", "part.cppm", "words.cppm", "own.cppm", "words.cpp")
        for tree in self.trees:
            self.assertEqual(run(cmake(), "--install", tree.build, "--prefix",
                                 tree.top / "installed")[0], 0)
        self.assertEqual(*map(self.exported, self.trees))
        installed = self.trees[1].top / "installed"
        self.lay(FINDS, f"-DCMAKE_PREFIX_PATH={installed}", folder="user")
        self.run_both()
        for tree in self.trees:
            self.assertEqual((tree.status, len(tree.compiled())), (0, 5), tree.log)
            self.assertEqual(run(tree.build / "app"), (0, ""))
        self.same_edges()
        self.idle()
        os.utime(installed / "lib/src/part.cppm")
        self.run_both()
        self.same_edges()
        self.assertEqual([tree.status for tree in self.trees], [0, 0])
        self.idle()

    def test_each_kind_of_target(self):
        """Targets that are collated by the program alone, and by the step in Python, in one build.
        What is compiled after an edit is what CMake's step compiles."""
        self.lay(PACKAGE, folder="package")
        for tree in self.trees:
            tree.ninja()
            self.assertEqual(run(cmake(), "--install", tree.build, "--prefix",
                                 tree.top / "installed")[0], 0)
        installed = self.trees[1].top / "installed"
        self.lay(KINDS, f"-DCMAKE_PREFIX_PATH={installed}", folder="user")
        rules = (self.trees[1].build / "CMakeFiles/rules.ninja").read_text()
        steps = r" collate .*/CXX.target.json'? 2>&1\) && ", " --step .*/CXX.target.json\n"
        self.assertEqual([len(re.findall(it, rules)) for it in steps], [3, 4])
        self.run_both()
        for tree in self.trees:
            self.assertEqual((tree.status, run(tree.build / "app")), (0, (0, "")), tree.log)
        self.idle()
        for source, count in (("secret.cppm", 2), ("plain.cppm", 3), ("shown.cppm", 3),
                              ("hides.cppm", 5), ("mine.cppm", 2)):
            self.touch(source)
            self.run_both()
            self.assertEqual([len(tree.compiled()) for tree in self.trees], [count, count], source)
            self.assertEqual(*(tree.compiled() for tree in self.trees))
            self.idle()

    def test_kinds_of_links(self):
        self.lay(LINKED, folder="links")
        self.builds("b.cppm", "o.cppm", "h.cppm", "hidden.cpp", "main.cpp")
        self.assertEqual([len(tree.edges()) for tree in self.trees], [4, 4])
        self.edit("main.cpp", "^import h;", "import b;\\nimport h;")
        self.run_both()
        self.assertTrue(all(tree.status for tree in self.trees))
        self.assertRegex(self.trees[1].log,
                         "\ndyncollate-cmake: CMakeFiles/app.dir/main.cpp.o.ddi: "
                         "imports b of .*/elsewhere/CMakeFiles/base.dir, ")

    def test_modules_of_one_name(self):
        """Projects that CMake builds, because no import leads to two modules of one name, and what
        touched sources compile again."""
        for name, files in SHAPES.items():
            with self.subTest(name):
                self.lay(files, folder=name)
                self.builds(*[it for it in files if it.endswith((".cpp", ".cppm"))])
                self.assertEqual([run(tree.build / "app") for tree in self.trees], [(0, "")] * 2)
                for source in "ad.cppm", "a.cppm":
                    self.touch(source)
                    self.run_both()
                    self.same_edges()
                    self.idle()

    def test_two_modules_of_one_name(self):
        """Imports lead to both: no compiler builds that from the maps of CMake's step."""
        self.lay(SHAPES["linked"])
        for name in "a", "b":
            self.edit(f"{name}.cppm", f"^(export module {name};)", r"\1\nimport detail;")
        self.trees[1].ninja()
        self.assertIn(
            "dyncollate-cmake: CMakeFiles/app.dir: CMakeFiles/ad.dir and CMakeFiles/bd.dir both "
            "provide detail, and imports lead to "
            "both: a program can have only one module of a name", self.trees[1].log.splitlines())

    def test_a_directory_with_a_space(self):
        """A target in it has another directory for its modules,
        which only the program's module maps name."""
        if cmake_version(cmake()) < (4, 0):
            self.skipTest("CMake 4, which quotes such names in commands: not there")
        tree = Tree(self.room / "ours", {
            "CMakeLists.txt": HEAD + """add_subdirectory("a space")
add_executable(app main.cpp)
target_link_libraries(app PRIVATE space)
""",
            "a space/CMakeLists.txt": """add_library(space STATIC)
target_sources(space PUBLIC FILE_SET CXX_MODULES FILES space.cppm)
""",
            "a space/space.cppm": "export module space;\nexport inline int space() { return 1; }\n",
            "main.cpp": "import space;\nint main() { return space() - 1; }\n"},
            self.compiler(), "Ninja")
        self.assertEqual(adapter("adopt", str(tree.build))[0], 0)
        for compiled in 2, 0, 2:
            tree.ninja()
            self.assertEqual((tree.status, run(tree.build / "app")), (0, (0, "")), tree.log)
            self.assertEqual(len(tree.compiled()), compiled, tree.log)
            if not compiled:
                os.utime(tree.top / "a space/space.cppm")
        self.assertEqual(len(list(tree.build.glob("CMakeFiles/dyncollate/*/space.*"))), 1)

    def test_adoptions_at_once(self):
        """What four of them leave builds, and can be restored."""
        self.lay(PROJECT)
        ours = self.trees[1]
        ours.configure()
        cmakes = {it: it.read_bytes() for it in ours.build.rglob("*.ninja")}
        for _ in range(5):
            runs = run_at_once(*[[sys.executable, ADAPTER, "adopt", ours.build]] * 4,
                               env=environment())
            self.assertEqual([(status, printed.count("\n")) for status, printed in runs],
                             [(0, 1)] * 4, runs)
            self.assertTrue(ours.adopted())
            self.assertEqual(adapter("restore", str(ours.build)), (0, ""))
            self.assertEqual({it: it.read_bytes() for it in cmakes}, cmakes)
        self.adopt()
        self.builds(*Edits.base, *Edits.users, *Edits.others)

    def test_import_std(self):
        """The target that CMake makes of the standard library's modules is linked through
        `words`."""
        value = IMPORT_STD.get(cmake_version(cmake()))
        name, *flags = (("libc++.modules.json", "-stdlib=libc++")
                        if self.is_clang() else ("libstdc++.modules.json",))
        listed = Path(run(self.compiler(), *flags, f"-print-file-name={name}")[1].strip())
        # Debian's libc++-21-dev names sources that are not there
        sources = ([listed.parent / it["source-path"]
                    for it in json.loads(listed.read_text())["modules"]]
                   if listed.is_file() else [])
        if not value or not sources or not all(map(os.path.isfile, sources)):
            self.skipTest(f"CMake 3.30, 3.31 or 4.3, or {name} and its sources: not there")
        files = {name: text.replace("@VALUE@", value) for name, text in STD.items()}
        self.lay(files, f"-DCMAKE_CXX_FLAGS={' '.join(flags)}")
        self.run_both()
        for tree in self.trees:
            self.assertEqual(tree.status, 0, tree.log)
            self.assertEqual(run(tree.build / "app"), (0, ""))
        self.same_edges()
        self.touch("words.cppm")
        self.builds("words.cppm", "words.cpp", "main.cpp")

    def test_several_configurations(self):
        self.lay(PROJECT, generator="Ninja Multi-Config")
        for name in "Debug", "Release":
            self.run_both("-f", f"build-{name}.ninja")
            for tree in self.trees:
                self.assertEqual(tree.status, 0, tree.log)
            self.same_edges()
        self.touch("b0.cppm")
        self.builds("b0.cppm", "b1.cppm", *Edits.users)


class Hook:
    """Builds that dyncollate-ninja adopts."""
    option = f"-DCMAKE_MAKE_PROGRAM={NINJA}"

    def tree(self, *options, files=PROJECT, generator="Ninja", option=option):
        return Tree(self.room / "it", files, self.compiler(), generator,
                    *([option] if option else []), *options)

    def is_built(self, tree):
        """The build is adopted, builds, and is idle then."""
        self.assertTrue(tree.adopted())
        tree.ninja()
        self.assertEqual((tree.status, run(tree.build / "app")), (0, (0, "")), tree.log)
        tree.ninja()
        self.assertIn("ninja: no work to do.", tree.log)

    def test_it_stays_adopted(self):
        """After a run of CMake by hand and by Ninja nothing is compiled,
        and then only a new source."""
        tree = self.tree()
        self.is_built(tree)
        tree.configure()
        for _ in range(2):
            tree.ninja()
            self.assertEqual((tree.status, tree.adopted(), tree.compiled()), (0, True, []),
                             tree.log)
            self.is_built(tree)
            os.utime(tree.top / "CMakeLists.txt")
        put(tree.top / "b3.cppm", "export module b3;\nimport b0;\n")
        put(tree.top / "CMakeLists.txt",
            PROJECT["CMakeLists.txt"].replace("b2.cppm", "b2.cppm b3.cppm"))
        tree.ninja()
        self.assertEqual([os.path.basename(it) for it in tree.compiled()], ["b3.cppm.o"], tree.log)
        self.is_built(tree)
        status, log = run(cmake(), "--build", tree.build, env=environment())
        self.assertEqual((status, "no work to do" in log), (0, True), log)

    def test_several_configurations(self):
        tree = self.tree(generator="Ninja Multi-Config")
        self.assertTrue(tree.adopted())
        for name in "Debug", "Release":
            tree.ninja("-f", f"build-{name}.ninja")
            self.assertEqual((tree.status, run(tree.build / name / "app")), (0, (0, "")), tree.log)
        tree.configure()
        self.assertTrue(tree.adopted())
        tree.ninja()
        self.assertEqual((tree.status, tree.compiled()), (0, []), tree.log)

    def test_a_preset_and_a_workflow(self):
        """As GUIDE says it for CMakePresets.json."""
        variables = {"CMAKE_CXX_COMPILER": self.compiler(), "CMAKE_MAKE_PROGRAM": NINJA}
        presets = {
            "version": 6,
            "configurePresets": [{"name": "dev", "generator": "Ninja",
                                  "binaryDir": "${sourceDir}/build", "cacheVariables": variables}],
            "buildPresets": [{"name": "dev", "configurePreset": "dev"}],
            "workflowPresets": [{"name": "all", "steps": [{"type": "configure", "name": "dev"},
                                                          {"type": "build", "name": "dev"}]}]}
        for name, text in {**PROJECT, "CMakePresets.json": presets}.items():
            put(self.room / "it" / name, text)
        for built in True, False:
            status, log = run(cmake(), "--workflow", "--preset", "all", cwd=self.room / "it",
                              env=environment())
            self.assertEqual((status, "Building CXX object" in log), (0, built), log)
            rules = (self.room / "it/build/CMakeFiles/rules.ninja").read_text()
            self.assertEqual(rules.count(" collate CMakeFiles/"), 4)

    def test_an_initial_cache_and_a_toolchain_file(self):
        line = f'set(CMAKE_MAKE_PROGRAM "{NINJA}" CACHE FILEPATH "")\n'
        put(self.room / "cache.cmake", line)
        put(self.room / "toolchain.cmake", line)
        for option in (["-C", self.room / "cache.cmake"],
                       [f"-DCMAKE_TOOLCHAIN_FILE={self.room}/toolchain.cmake"]):
            tree = self.tree(*option, option="-UCMAKE_MAKE_PROGRAM")
            self.is_built(tree)
            shutil.rmtree(tree.top)

    def test_found_in_the_path(self):
        """As `dyncollate-ninja`, and under the name of Ninja."""
        for name, option in (("dyncollate-ninja", "-DCMAKE_MAKE_PROGRAM=dyncollate-ninja"),
                             ("ninja", "-UCMAKE_MAKE_PROGRAM")):
            (self.room / name).mkdir()
            os.symlink(NINJA, self.room / name / name)
            path = {"PATH": f"{self.room / name}:{os.environ['PATH']}"}
            tree = self.tree(option=None)
            shutil.rmtree(tree.build)
            tree.configuring += [option]
            tree.configure(**path)
            self.is_built(tree)
            shutil.rmtree(tree.top)

    def test_a_project_without_modules(self):
        """It is as with Ninja, also if there is no dyncollate."""
        files = {
            "CMakeLists.txt":
            "cmake_minimum_required(VERSION 3.28)\nproject(p CXX)\nadd_executable(app main.cpp)\n",
            "main.cpp": "int main() { return 0; }\n"}
        tree = self.tree(files=files)
        tree.configure(DYNCOLLATE="none")
        self.assertFalse(tree.adopted())
        tree.ninja()
        self.assertEqual((tree.status, run(tree.build / "app")), (0, (0, "")), tree.log)

    def test_what_the_configuration_says(self):
        """CMake's log has how many targets are collated, by what, and `status` prints it."""
        tree = self.tree()
        line = (
            f"dyncollate-cmake: 5 targets of {tree.build} are collated by {program.PROGRAM}, 1 of "
            "them from Python (1 with private modules)\n")
        self.assertIn(line, (tree.build / "CMakeFiles/CMakeConfigureLog.yaml").read_text())
        self.assertEqual(adapter("status", str(tree.build)),
                         (0, f"{line}CMakeFiles/base.dir: private modules\n"))

    def test_a_project_of_a_project(self):
        """ExternalProject configures with the variable that it is given, and then the log of that
        project has the line."""
        for name, text in PROJECT.items():
            put(self.room / "it/inner" / name, text)
        tree = self.tree(files={"CMakeLists.txt": f"""cmake_minimum_required(VERSION 3.28)
project(p CXX)
include(ExternalProject)
ExternalProject_Add(inner SOURCE_DIR ${{CMAKE_SOURCE_DIR}}/inner INSTALL_COMMAND ""
  CMAKE_ARGS -DCMAKE_MAKE_PROGRAM={NINJA} -DCMAKE_CXX_COMPILER={self.compiler()})
"""})
        tree.ninja()
        self.assertEqual(tree.status, 0, tree.log)
        inner, = tree.build.glob("inner-prefix/src/*-build")
        self.assertIn("dyncollate-cmake: 5 targets of ",
                      (inner / "CMakeFiles/CMakeConfigureLog.yaml").read_text())
        self.assertEqual(run(inner / "app"), (0, ""))

    def test_a_prefix_of_the_output_paths(self):
        """CMake does not call `-t restat` then: the build keeps its step,
        and `status` and a build say so."""
        tree = self.tree("-DCMAKE_NINJA_OUTPUT_PATH_PREFIX=sub/")
        self.assertFalse(tree.adopted())
        self.assertEqual(adapter("status", str(tree.build)), (
            1, f"dyncollate-cmake: {tree.build} has the CMAKE_NINJA_OUTPUT_PATH_PREFIX sub/, "
            "which is not supported\n"))
        self.assertIn("dyncollate-ninja: warning: CMake's step collates the modules of",
                      run(NINJA, "-C", tree.build, "-n", env=environment())[1])

    def test_optional(self):
        """A preset or a cache that says so: without dyncollate, the build keeps CMake's step,
        also if Ninja runs CMake."""
        tree = self.tree("-DDYNCOLLATE_OPTIONAL=ON", option="-UCMAKE_MAKE_PROGRAM")
        tree.configuring.append(self.option)
        for _ in range(2):
            tree.configure(DYNCOLLATE="none")
            self.assertFalse(tree.adopted())
            self.assertIn("CMake's step stays: none: there is no such program\n",
                          (tree.build / "CMakeFiles/CMakeConfigureLog.yaml").read_text())
        os.utime(tree.top / "CMakeLists.txt")
        status, log = run(NINJA, "-C", tree.build, env=environment(DYNCOLLATE="none"))
        self.assertEqual((status, log.count("dyncollate-ninja: warning: CMake's step collates")),
                         (0, 1), log)
        self.assertEqual(run(tree.build / "app"), (0, ""))
        tree.configure()
        self.is_built(tree)

    def test_what_is_not_handled_is_an_error_of_cmake(self):
        tree = self.tree()
        status, log = run(*tree.configuring, env=environment(DYNCOLLATE="none"))
        self.assertEqual(status, 1)
        self.assertIn("dyncollate-cmake: none: there is no such program\n", log)
        self.assertIn("CMake Generate step failed.", log)


class EditsWithClang(Edits, Builds):
    compiler, package = staticmethod(clang), "clang-19 or clang-tools-19"


class EditsWithGcc(Edits, Builds):
    compiler, package = staticmethod(gcc), "g++-14"


class OthersWithClang(Others, Builds):
    compiler, package = staticmethod(clang), "clang-19 or clang-tools-19"


class OthersWithGcc(Others, Builds):
    compiler, package = staticmethod(gcc), "g++-14"


class HookWithClang(Hook, Builds):
    compiler, package = staticmethod(clang), "clang-19 or clang-tools-19"


class HookWithGcc(Hook, Builds):
    compiler, package = staticmethod(gcc), "g++-14"
