"""How dyncollate-meson and dyncollate-ninja adopt a build that Meson configured, and restore it.

MESON names the Meson, otherwise it is the first one in the PATH. The tests whose tools are missing
are skipped. `meson_newer` repeats them with another Meson.
"""
import functools
import json
import os
import re
import shlex
import shutil
import sys

from tests import program
from tests.case import tree
from tests.cmake import NINJA, TOP, put
from tests.run import InRoom, output_of, run, run_at_once
from tests.tools import scans_by_itself, tool

ADAPTER = str(TOP / "adapters/meson/dyncollate-meson")
DATA = TOP / "tests/data/meson"
HEAD = "project('p', 'cpp', default_options: ['cpp_std=c++20'])\n"
# A program that imports the module of a library.
SMALL = {
    "meson.build": HEAD + "lib = static_library('lib', 'lib.cpp')\n"
                          "executable('app', 'main.cpp', link_with: lib)\n",
    "lib.cpp": "export module lib;\nexport int lib() { return 0; }\n",
    "main.cpp": "import lib;\nint main() { return lib(); }\n",
}
# The same without modules.
PLAIN = {**SMALL, "lib.cpp": "int lib() { return 0; }\n",
         "main.cpp": "int lib();\nint main() { return lib(); }\n"}
# Two libraries, of which no statement says that one links the other.
TWO = {
    "meson.build": HEAD + "a = static_library('a', 'a.cpp')\nb = static_library('b', 'b.cpp')\n"
                          "executable('app', 'main.cpp', link_with: [a, b])\n",
    "a.cpp": "export module a;\nexport int a() { return 0; }\n",
    "b.cpp": "export module b;\nimport a;\nexport int b() { return a(); }\n",
    "main.cpp": "import b;\nint main() { return b(); }\n",
}
# What newer versions of Meson write if all targets have -fmodules-ts and `b` links `a`.
LISTED = """
rule depaccumulate
 command = false

build liba.a.p/depscan.dd: depaccumulate liba.a.p/depscan.json
build libb.a.p/depscan.dd: depaccumulate libb.a.p/depscan.json liba.a.p/depscan.json
build app.p/depscan.dd: depaccumulate app.p/depscan.json liba.a.p/depscan.json libb.a.p/depscan.json
"""
# Runs a script, and kills it at the Nth moment: before it writes a temporary file, whose name has
# random bytes, or puts one in its place.
KILLED = """
import os, runpy, sys
number, calls = int(sys.argv[1]), []
def killed(real):
    def call(*words):
        calls.append(words)
        if len(calls) == number:
            os.kill(os.getpid(), 9)
        return real(*words)
    return call
os.replace, os.urandom = killed(os.replace), killed(os.urandom)
del sys.argv[0:2]
runpy.run_path(sys.argv[0], run_name="__main__")
"""
USAGE = "usage: dyncollate-meson adopt|restore BUILD_DIR, or dyncollate-meson --help"


@functools.lru_cache(None)
def meson(variable="MESON", usual="meson"):
    """Returns the command of Meson, or None."""
    command = shlex.split(os.environ.get(variable, usual))
    return command if command and shutil.which(command[0]) else None


def environment(**more):
    """The variables of a run that may adopt a build. NINJA is not among them: plain Ninja keeps a
    build adopted."""
    kept = {name: text for name, text in os.environ.items() if name != "NINJA"}
    return kept | {"DYNCOLLATE": program.PROGRAM, "DYNCOLLATE_NINJA": tool("ninja")} | more


def adapter(*words, **more):
    """A run of dyncollate-meson: its status and what it prints."""
    return run(sys.executable, ADAPTER, *words, env=environment(**more))


class Tree:
    """A project and its build directory. A run leaves in `status` and `log` how it ended."""
    COMPILED = re.compile(r"^\[\d+/\d+\] Compiling C\+\+ object .*/(.*)$", re.M)
    # a function that returns the command of the generator or None, and its package
    generator, package = staticmethod(meson), "meson"

    def __init__(self, top, files, compiler, *options, build="build", **more):
        self.top, self.build, self.compiler = top, top / build, compiler
        for name, text in files.items():
            put(top / name, text)
        self.setup(*options, **more)

    def setup(self, *options, **more):
        """Runs Meson with dyncollate-ninja, if `more` does not say otherwise."""
        c = self.compiler.replace("clang++", "clang").replace("g++", "gcc")
        variables = {"CC": c, "CXX": self.compiler, "NINJA": NINJA, **more}
        status, self.log = run(*self.generator(), "setup", self.build, self.top, *options,
                               env=environment(**variables))
        assert not status, self.log

    def text(self):
        return (self.build / "build.ninja").read_text()

    def adopted(self):
        return "\nrule dyncollate_scan\n" in self.text()

    def ninja(self, *words):
        self.status, self.log = run(tool("ninja"), "-C", self.build, "-j2", *words,
                                    env=environment())

    def compiled(self):
        """The objects that the last run compiled, without their directories."""
        return sorted(self.COMPILED.findall(self.log))


@program.needs("program")
class Builds(InRoom):
    # a function that returns the compiler or None, and its package
    compiler, package = staticmethod(lambda: tool("clang")), "clang-19"
    tree_class = Tree
    seconds = 60

    def setUp(self):
        compiler, tree_class = self.compiler(), self.tree_class
        for found, name in ((tree_class.generator(), tree_class.package),
                            (tool("ninja"), "ninja-build"), (compiler, self.package),
                            (scans_by_itself(compiler) or tool("scanner"), "clang-tools-19")):
            if not found:
                self.skipTest(f"{name}: not there")
        super().setUp()

    def lay(self, files, *options, folder="a project", **more):
        self.tree = self.tree_class(self.room / folder, files, self.compiler(), *options, **more)

    def edit(self, name, old, new):
        text = (self.tree.top / name).read_text()
        assert old in text
        put(self.tree.top / name, text.replace(old, new))

    def builds(self, *compiled):
        """The build ends well, compiles exactly these sources, if any are given, and has nothing to
        do then."""
        self.tree.ninja()
        log = self.tree.log
        self.assertEqual(self.tree.status, 0, log)
        if compiled:
            self.assertEqual(self.tree.compiled(), sorted(f"{it}.o" for it in compiled), log)
        self.tree.ninja()
        self.assertIn("ninja: no work to do.", self.tree.log, log)

    def fails(self, *lines):
        """The build fails with these lines."""
        self.tree.ninja()
        self.assertNotEqual(self.tree.status, 0)
        for line in lines:
            self.assertIn(line, self.tree.log.splitlines(), self.tree.log)


    def killed(self, script, check):
        """Kills adoption at each moment, until a run ends by itself. Ninja adopts what a run leaves
        that is not the generator's file. Returns how many runs there were, and how many Ninja
        continued."""
        number, ended, pending = 0, -9, 0
        while ended == -9:
            run(sys.executable, script, "restore", self.tree.build, env=environment())
            shutil.rmtree(*self.tree.build.glob("*-dyncollate"))
            before, number = self.tree.text(), number + 1
            words = ["-c", KILLED, str(number), script, "adopt", self.tree.build]
            ended, _ = run(sys.executable, *words, env=environment())
            if self.tree.text() != before:
                pending += not self.tree.adopted()
                self.tree.ninja("build.ninja")
                self.assertEqual(self.tree.status, 0, self.tree.log)
                check()
        self.assertEqual(ended, 0)
        return number, pending

    def at_once(self, script, left):
        """Four runs at once adopt the build, and four give back what is `left` of it otherwise."""
        before = left()
        adopt, restore = ([sys.executable, script, it, self.tree.build]
                          for it in ("adopt", "restore"))
        for _ in range(3):
            runs = run_at_once(*[adopt] * 4, env=environment())
            self.assertEqual([status for status, _ in runs], [0] * 4, runs)
            self.assertTrue(self.tree.adopted())
            self.assertEqual(run_at_once(*[restore] * 4, env=environment()), [(0, "")] * 4)
            self.assertEqual(left(), before)


def any_compiler():
    return tool("clang") or tool("gcc")


class Adoption(Builds):
    """What adoption does to a build directory."""
    compiler = staticmethod(any_compiler)

    def plain(self, files, *options, **more):
        """A build that is as Meson wrote it."""
        self.lay(files, *options, NINJA=tool("ninja"), **more)
        return self.tree.text()

    def adopt(self):
        said = f"2 of 2 C++ targets of {self.tree.build} are scanned for modules"
        self.assertEqual(adapter("adopt", self.tree.build), (0, f"dyncollate-meson: {said}\n"))

    def documents(self):
        """What adoption wrote next to the Ninja file, without temporary files of killed runs."""
        files = tree(self.tree.build / "meson-dyncollate")
        return {name: text for name, text in files.items() if not name.endswith(".new")}

    def test_restore(self):
        """It gives Meson's bytes back, and both commands can be repeated."""
        before = self.plain(SMALL, folder="a $ \xe9 project")
        for _ in range(2):
            self.adopt()
            adopted = self.tree.text()
            self.adopt()
            self.assertTrue(self.tree.adopted())
            self.assertEqual(self.tree.text(), adopted)
            for _ in range(2):
                self.assertEqual(adapter("restore", self.tree.build), (0, ""))
                self.assertEqual(self.tree.text(), before)

    def test_without_modules(self):
        """The file differs from Meson's only in the line in which Meson names its Ninja."""
        before = self.plain(PLAIN)
        self.tree.setup("--reconfigure")
        self.assertEqual(self.tree.text().replace(NINJA, tool("ninja")), before)
        lines = [it for it in self.tree.text().splitlines() if NINJA in it]
        self.assertEqual(lines, [f" COMMAND = {NINJA} -t clean"])
        self.assertFalse((self.tree.build / "meson-dyncollate/meson.ninja").exists())
        self.builds("lib.cpp", "main.cpp")

    def test_lines_that_read_like_modules(self):
        lines = "int importance, module;\nint\nimportant() { return importance; }\n"
        self.lay({**PLAIN, "lib.cpp": lines + "int lib() { return\n  module = 0; }\n"})
        self.assertFalse(self.tree.adopted())

    def test_kept_by_ninja(self):
        """If Ninja calls Meson, the build stays adopted. Without the variable, Meson writes a file
        of its own."""
        self.lay(SMALL)
        for _ in range(2):
            os.utime(self.tree.top / "meson.build")
            self.tree.ninja("build.ninja")
            self.assertIn("2 of 2 C++ targets", self.tree.log)
            self.assertTrue(self.tree.adopted())
        self.tree.setup("--reconfigure", NINJA=tool("ninja"))
        self.assertFalse(self.tree.adopted())
        self.adopt()
        self.assertTrue(self.tree.adopted())

    def test_a_warning(self):
        """If dyncollate-ninja builds what Meson configured without it, it says how to adopt it."""
        self.lay(SMALL)
        said = (f"dyncollate-ninja: warning: Meson wrote {self.tree.build}/build.ninja without "
                f"dyncollate-ninja: run `dyncollate-meson adopt {self.tree.build}`\n")
        for options, is_adopted in ({}, True), ({"NINJA": tool("ninja")}, False):
            self.tree.setup("--reconfigure", **options)
            _, printed = run(NINJA, "-C", self.tree.build, "-t", "targets", env=environment())
            self.assertNotIn("warning", printed)
            _, printed = run(NINJA, "-C", self.tree.build, "build.ninja", env=environment())
            self.assertEqual(said in printed, not is_adopted, printed)

    def test_a_header_unit(self):
        lines = SMALL["main.cpp"].replace("import lib;", "import lib;\nimport <vector>;")
        self.lay({**SMALL, "main.cpp": lines})
        said = ("dyncollate-meson: app.p imports a header unit, which is not handled: include the "
                "header")
        self.assertIn(said, self.tree.log.splitlines())

    def test_a_failure(self):
        """The build fails with its line. When it is mended, the next run of Ninja adopts it."""
        tools = self.room / "tools"
        self.lay(SMALL, DYNCOLLATE=str(tools / "dyncollate"))
        line = f"dyncollate-meson: {tools}/dyncollate: there is no such program"
        self.assertIn(line, self.tree.log.splitlines())
        for _ in range(2):
            self.fails(line)
            self.assertFalse(self.tree.adopted())
        tools.mkdir()
        (tools / "dyncollate").symlink_to(program.PROGRAM)
        self.builds("lib.cpp", "main.cpp")
        self.assertTrue(self.tree.adopted())

    def test_a_failure_can_be_restored(self):
        before = self.plain(SMALL)
        self.assertEqual(adapter("adopt", self.tree.build, DYNCOLLATE="/none")[0], 1)
        self.assertNotEqual(self.tree.text(), before)
        self.assertEqual(adapter("restore", self.tree.build), (0, ""))
        self.assertEqual(self.tree.text(), before)

    def test_killed(self):
        """A run that is killed at any moment leaves Meson's file, or one that the next run of Ninja
        adopts."""
        self.plain(SMALL)
        self.adopt()
        adopted = self.tree.text(), self.documents()
        runs = self.killed(ADAPTER, lambda: self.assertEqual(
            (self.tree.text(), self.documents()), adopted))
        # Meson's text and the file that adopts, two documents, and the Ninja file
        self.assertEqual(runs, (11, 6))

    def test_adoptions_at_once(self):
        self.plain(SMALL)
        self.at_once(ADAPTER, self.tree.text)
        self.assertEqual([it for it in os.listdir(self.tree.build) if it.endswith(".new")], [])

    def test_a_kept_text_that_is_another(self):
        self.lay(SMALL)
        kept = self.tree.build / "meson-dyncollate/meson.ninja"
        put(kept, "# another\n")
        said = (f"dyncollate-meson: {kept} is not what {self.tree.build}/build.ninja was made from:"
                " run `meson setup --reconfigure`\n")
        for command in "adopt", "restore":
            self.assertEqual(adapter(command, self.tree.build), (1, said))

    def test_what_is_rejected(self):
        other, text = self.room / "other", "rule a\n command = b\n"
        put(other / "build.ninja", text)
        for words, status, said in (
                ((), 2, USAGE), (("adopt",), 2, USAGE), (("restore", "a", "b"), 2, USAGE),
                (("adopt", "none"), 1, "none/build.ninja does not exist: run `meson setup` first"),
                (("adopt", other), 1, f"{other}/build.ninja is not as Meson writes it"),
                (("restore", other), 1, f"{other}/build.ninja is not as Meson writes it")):
            self.assertEqual(adapter(*words), (status, f"dyncollate-meson: {said}\n"))
        self.assertEqual((other / "build.ninja").read_text(), text)
        status, said = adapter("--help")
        self.assertEqual((status, said.split()[:3]), (0, ["Makes", "a", "build"]))

    def test_listed_links(self):
        """If Meson lists what each target links, each has a step of its own."""
        text = self.plain(TWO)
        for more, steps in ("", ["collate", "group"]), (LISTED, ["collate"] * 3):
            put(self.tree.build / "build.ninja", text + more)
            self.assertEqual(adapter("adopt", self.tree.build)[0], 0)
            found = re.findall("^build .*: dyncollate_(collate|group) ", self.tree.text(), re.M)
            self.assertEqual(sorted(found), steps)
        document = self.documents()["libb.a.p/target.json"]
        self.assertEqual(json.loads(document)["linked"], ["meson-dyncollate/liba.a.p/info.json"])

    def test_a_unity_build(self):
        said = ("dyncollate-meson: liblib.a.p uses modules and a unity build, "
                "in which a module can't begin: configure with -Dunity=off")
        self.lay(SMALL)
        self.builds()
        output_of(*self.tree.generator(), "configure", self.tree.build, "-Dunity=on")
        self.fails(said)
        # by Meson, which calls Ninja three times, and by Ninja
        self.assertEqual(self.tree.log.splitlines().count(said), 2)
        self.fails(said)
        self.lay(PLAIN, "--unity=on", folder="plain")
        self.builds()

    def test_no_scanner(self):
        if not tool("clang"):
            self.skipTest("clang-19: not there")
        clang = self.room / "clang++"
        clang.symlink_to(self.compiler())
        self.lay(SMALL, CXX=str(clang), SCANNER="")
        said = (f"dyncollate-meson: {self.room}/clang-scan-deps, which scans for {clang}, "
                "is not there; the environment variable SCANNER may name another")
        self.assertIn(said, self.tree.log.splitlines())
        self.assertFalse(self.tree.adopted())
