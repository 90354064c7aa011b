"""How dyncollate-gn adopts a build that GN wrote Ninja files for, what is built then, and how it is
restored.

The tests whose tools are missing are skipped.
"""
import json
import os
import re
import shutil
import sys
from pathlib import Path

from tests import program
from tests.case import tree
from tests.cmake import NINJA, TOP
from tests.meson import Builds, Tree, any_compiler, environment
from tests.run import output_of, run
from tests.tools import WithoutClang, tool

ADAPTER = str(TOP / "adapters/gn/dyncollate-gn")
DATA = TOP / "tests/data/gn"
AGAIN = ("dyncollate-gn: for a first `import std`, and for the first module of a library in a "
         "source that was there before, run `dyncollate-gn adopt`")
MAIN = ["obj/src/app.main"]


def adapter(*words, **more):
    """A run of dyncollate-gn: its status and what it prints."""
    return run(sys.executable, ADAPTER, *words, env=environment(**more))


class GnTree(Tree):
    COMPILED = re.compile(r"^\[\d+/\d+\] CXX (.*)$", re.M)
    generator, package = staticmethod(lambda: shutil.which("gn")), "generate-ninja"

    def setup(self, flags=("-std=c++20",), adopts=True, **more):
        """Runs GN, and dyncollate-gn if it `adopts` the build."""
        shutil.copytree(DATA, self.top, dirs_exist_ok=True)
        self.flags = flags
        self.gn()
        if adopts:
            self.status, self.log = adapter("adopt", self.build, **more)

    def gn(self, *words, **given):
        values = f"cxx=\"{self.compiler}\" flags={json.dumps(self.flags)}"
        output_of("gn", "gen", "-q", self.build, f"--args={values}", *words, cwd=self.top, **given)


class GnBuilds(Builds):
    tree_class = GnTree

    def prints(self, text):
        self.assertEqual(run("./app", cwd=self.tree.build), (0, text))

    def adopt(self):
        said = f"dyncollate-gn: 8 of 8 C++ targets of {self.tree.build} are scanned for modules\n"
        self.assertEqual(adapter("adopt", self.tree.build), (0, said))


class Adoption(GnBuilds):
    compiler = staticmethod(any_compiler)

    def plain(self):
        """A build that is as GN wrote it. Returns its files."""
        self.lay({}, adopts=False)
        return tree(self.tree.build)

    def left(self):
        """The files outside of our directory."""
        return {name: text for name, text in tree(self.tree.build).items()
                if not name.startswith("gn-dyncollate/")}

    def test_restore(self):
        """It gives GN's bytes back, and both commands can be repeated."""
        before = self.plain()
        for _ in range(2):
            self.adopt()
            adopted = tree(self.tree.build)
            self.adopt()
            self.assertEqual(tree(self.tree.build), adopted)
            changed = {it for it, text in adopted.items() if before.get(it) != text}
            self.assertEqual({it for it in changed if not it.startswith("gn-dyncollate/")},
                             {"build.ninja", "compile_commands.json"})
            for _ in range(2):
                self.assertEqual(adapter("restore", self.tree.build), (0, ""))
                self.assertEqual(self.left(), before)

    def test_without_modules(self):
        before = self.plain()
        for it in self.tree.top.glob("src/*.cc"):
            it.write_text("int number;\n")
        (self.tree.top / "make.py").write_text("import sys\nopen(sys.argv[2], 'w')\n")
        said = f"{self.tree.build} has no target whose sources have C++ modules"
        self.assertEqual(adapter("adopt", self.tree.build), (0, f"dyncollate-gn: {said}\n"))
        self.assertEqual(self.left(), before)

    def test_kept_by_ninja(self):
        """If Ninja calls GN, the build stays adopted. A run of GN by hand undoes it."""
        self.lay({})
        for _ in range(2):
            os.utime(self.tree.top / "BUILD.gn")
            self.tree.ninja("build.ninja")
            self.assertIn("8 of 8 C++ targets", self.tree.log)
            self.assertTrue(self.tree.adopted())
        self.tree.gn()
        self.assertFalse(self.tree.adopted())
        self.adopt()
        self.builds()

    def test_kept_by_gn(self):
        """GN calls the Ninja that it is given, if the project asks for Ninja 1.10 or newer."""
        self.plain()
        name = self.tree.top / ".gn"
        name.write_text(name.read_text() + 'ninja_required_version = "1.10.0"\n')
        for _ in range(2):
            self.tree.gn(f"--ninja-executable={NINJA}", env=environment())
            self.assertTrue(self.tree.adopted())
        self.builds()
        (self.tree.top / "BUILD.gn").touch()
        self.tree.ninja("build.ninja")
        self.assertTrue(self.tree.adopted())

    def test_a_clean_build(self):
        """After `gn clean`, Ninja calls GN."""
        self.lay({}, build="out")
        self.builds()
        output_of("gn", "clean", self.tree.build, cwd=self.tree.top)
        self.assertFalse((self.tree.build / "app").exists())
        self.builds()
        self.prints("303 12 9\n")
        self.assertTrue(self.tree.adopted())

    def test_a_warning(self):
        """If dyncollate-ninja builds what GN wrote without it, it says how to adopt it."""
        self.lay({})
        said = (f"dyncollate-ninja: warning: GN wrote {self.tree.build}/build.ninja without "
                f"dyncollate-ninja: run `dyncollate-gn adopt {self.tree.build}`\n")
        for is_adopted in True, False:
            _, printed = run(NINJA, "-C", self.tree.build, "build.ninja", env=environment())
            self.assertEqual(said in printed, not is_adopted, printed)
            self.tree.gn()

    def test_a_failure(self):
        """The build fails with its line. When it is mended, the next run of Ninja adopts it."""
        tools = self.room / "tools"
        self.lay({}, DYNCOLLATE=str(tools / "dyncollate"))
        line = f"dyncollate-gn: {tools}/dyncollate: there is no such program"
        self.assertEqual((self.tree.status, self.tree.log), (1, f"{line}\n"))
        for _ in range(2):
            self.fails(line)
            self.assertFalse(self.tree.adopted())
        tools.mkdir()
        (tools / "dyncollate").symlink_to(program.PROGRAM)
        self.builds()
        self.assertTrue(self.tree.adopted())

    def test_killed(self):
        """A run that is killed at any moment leaves GN's files, or one that the next run of Ninja
        adopts."""
        self.plain()
        self.adopt()
        adopted = tree(self.tree.build)

        def check():
            files = tree(self.tree.build)
            self.assertEqual({it: text for it, text in files.items() if it in adopted}, adopted)

        # GN's text, the file that adopts and the Ninja file, and what these name
        named = [it for it in adopted if it.startswith("gn-dyncollate/")]
        self.assertEqual(self.killed(ADAPTER, check), (2 * len(named) + 7, 2 * len(named) + 2))

    def test_adoptions_at_once(self):
        self.plain()
        self.at_once(ADAPTER, self.left)

    def test_compile_commands(self):
        """They have the maps. The file that GN wrote is restored."""
        self.plain()
        name = self.tree.build / "compile_commands.json"
        self.adopt()
        for it in json.loads(name.read_text()):
            self.assertIn(f"{it['output']}.modmap", it["command"])
            self.assertTrue((self.tree.build / it["directory"] / it["file"]).exists()
                            or it["file"] == "gen/made.cc")
        adapter("restore", self.tree.build)
        self.assertFalse(name.exists())
        self.tree.gn("--export-compile-commands")
        before = name.read_text()
        for _ in range(2):
            self.adopt()
            self.assertIn(".modmap", name.read_text())
        adapter("restore", self.tree.build)
        self.assertEqual(name.read_text(), before)

    def test_clangd(self):
        """It finds the modules."""
        clangd = (tool("clang") or "").replace("clang++", "clangd")
        if not shutil.which(clangd):
            self.skipTest("clangd-19: not there")
        self.lay({})
        self.builds()
        status, said = run(clangd, f"--compile-commands-dir={self.tree.build}",
                           f"--check={self.tree.top}/src/main.cc")
        self.assertEqual(status, 0, said)
        self.assertIn("All checks completed, 0 errors", said)

    def test_the_commands_of_guide(self):
        """As they are printed, with the programs in the PATH."""
        if not shutil.which("clang++-19"):
            self.skipTest("clang++-19: not there")
        self.plain()
        page = (TOP / "docs/GUIDE.md").read_text().partition("\n## In a GN project\n")[2]
        commands = re.search("^```sh\n(.*?)^```$", page, re.M | re.S)[1]
        (self.room / "bin").mkdir()
        for path in ADAPTER, program.PROGRAM:
            (self.room / "bin" / Path(path).name).symlink_to(path)
        variables = environment(PATH=f"{self.room}/bin:{os.environ['PATH']}")
        status, said = run("sh", "-ec", commands, cwd=self.tree.top, env=variables)
        self.assertEqual(status, 0, said)
        self.assertEqual(run("./app", cwd=self.tree.top / "out"), (0, "303 12 9\n"))

    def without(self, said, old, new):
        """Adoption fails with this line if the commands of compilations are changed so."""
        self.plain()
        name = Path(self.tree.top, "build/toolchain/BUILD.gn")
        name.write_text(name.read_text().replace(old, new, 1))
        self.tree.gn()
        status, printed = adapter("adopt", self.tree.build)
        self.assertEqual(status, 1)
        self.assertRegex(printed, rf"^dyncollate-gn: the command of \S+\.o {said}\n$")
        return printed

    def test_a_command_that_is_more(self):
        printed = self.without("is more than a call of the compiler", '-o {{output}}"',
                               '-o {{output}} && true"')
        self.fails(printed.rstrip())

    def test_a_command_without_flags(self):
        self.without(r"has no \{\{cflags_cc\}\}", "{{cflags_cc}}", "-std=c++20")

    def test_what_is_rejected(self):
        other = self.room / "other"
        other.mkdir()
        (other / "build.ninja").write_text("rule a\n command = b\n")
        usage = "usage: dyncollate-gn adopt|restore BUILD_DIR, or dyncollate-gn --help"
        for words, status, said in (
                ((), 2, usage), (("adopt",), 2, usage), (("restore", "a", "b"), 2, usage),
                (("adopt", "none"), 1, "none/build.ninja does not exist: run `gn gen` first"),
                (("adopt", other), 1, f"{other}/build.ninja is not as GN writes it")):
            self.assertEqual(adapter(*words), (status, f"dyncollate-gn: {said}\n"))


class Edits:
    """What is built after an edit."""

    def test_edits(self):
        self.lay({})
        self.builds()
        self.prints("303 12 9\n")
        source = self.tree.top / "src"
        (source / "value.h").write_text("#define VALUE 2\n")
        # by both toolchains, and what the program of one of them makes for the other
        self.builds("host/obj/src/libbase.base_impl", "obj/BUILD_DIR/gen/app.made", *MAIN,
                    "obj/src/libbase.base_impl")
        self.prints("304 13 10\n")
        self.edit("src/set.cc", "export int", "import base;\nexport int")
        self.builds("obj/src/set.set", "obj/src/libmath.math", *MAIN)
        self.edit("src/main.cc", "import math;\n", "import math;\nimport set;\n")
        self.edit("src/main.cc", "math(),", "set(),")
        self.builds(*MAIN)
        self.prints("4 13 10\n")

    def test_a_source_that_is_new(self):
        self.lay({})
        self.builds()
        Path(self.tree.top, "src/more.cc").write_text("export module more;\nint more();\n")
        self.edit("BUILD.gn", '"src/math.cc"', '"src/math.cc", "src/more.cc"')
        self.builds("obj/src/libmath.more")
        self.edit("src/math.cc", "import set;\n", "import set;\nimport more;\n")
        self.builds("obj/src/libmath.math", *MAIN)
        self.edit("BUILD.gn", ', "src/more.cc"', "")
        self.fails("dyncollate: M5 ModuleUnknown more in obj/src/libmath.math.o", AGAIN)
        self.edit("src/math.cc", "import more;\n", "")
        self.builds("obj/src/libmath.math", *MAIN)

    def test_threads(self):
        """One target has `-pthread`. Clang would reject an import from it."""
        self.lay({}, adopts=False)
        self.edit("BUILD.gn", '"src/math.cc" ]', '"src/math.cc" ]\n  cflags_cc = [ "-pthread" ]')
        self.tree.gn()
        self.adopt()
        entries = json.loads((self.tree.build / "compile_commands.json").read_text())
        objects = {it["output"] for it in entries}
        self.assertLess({"obj/src/app.main.o", "obj/src/libmath.math.o"}, objects)
        self.builds()
        self.prints("303 12 9\n")

    def test_what_is_not_linked(self):
        """A target imports only from what its `deps` lead to."""
        self.lay({})
        self.edit("src/base_impl.cc", "#include", "import math;\n#include")
        self.tree.ninja("-k0")  # two toolchains compile it, and either fails first
        self.assertNotEqual(self.tree.status, 0)
        self.assertLess({"dyncollate: M5 ModuleUnknown math in obj/src/libbase.base_impl.o", AGAIN},
                        {*self.tree.log.splitlines()}, self.tree.log)


class EditsWithClang(Edits, GnBuilds):
    def test_import_std(self):
        self.lay({}, flags=["-std=c++23", "-stdlib=libc++"], adopts=False)
        Path(self.tree.top, "src/main.cc").write_text(
            "import std;\nimport math;\nint main() { std::puts(std::to_string(math()).data()); }\n")
        self.adopt()
        self.builds()
        self.prints("303\n")


class EditsWithGcc(Edits, GnBuilds):
    compiler, package = staticmethod(lambda: tool("gcc")), "g++-12"


class WithoutAnyClang(WithoutClang, GnBuilds):
    compiler = staticmethod(lambda: tool("gcc"))

    def test_a_project(self):
        self.lay({})
        self.builds()
        self.prints("303 12 9\n")
