"""Builds projects with Meson and dyncollate-ninja: whole ones, what is compiled after edits, and
what errors look like."""
import json
import os
import re
import shutil

from tests.cmake import NINJA, put
from tests.meson import DATA, SMALL, TWO, Builds, environment
from tests.run import run
from tests.tools import WithoutClang, tool, version

CYCLE = "dyncollate-meson: libraries import each other's modules in a cycle: "
RECONFIGURE = ("dyncollate-meson: for a first `import std`, and for the first module of a library "
               "in a source that was there before, run `ninja reconfigure`")


CROSS = """[binaries]
c = 'aarch64-linux-gnu-gcc'
cpp = 'aarch64-linux-gnu-g++'
ar = 'aarch64-linux-gnu-ar'
[host_machine]
system = 'linux'
cpu_family = 'aarch64'
cpu = 'aarch64'
endian = 'little'
"""
WRITER = """writer = executable('writer', 'writer.cpp', 'number.cpp', native: true)
made = custom_target('made', output: 'made.cpp', command: writer, capture: true)
"""
WRITES = """#include <cstdio>
import number;
int main() { std::printf("export module made;\\nexport int made() { return %d; }\\n", number()); }
"""


class Projects:
    def lay_data(self, name, *options, **more):
        shutil.copytree(DATA / name, self.room / name)
        self.lay({}, *options, folder=name, **more)
        self.assertTrue(self.tree.adopted(), self.tree.log)

    def prints(self, text, status=0):
        self.assertEqual(run(self.tree.build / "app"), (status, text))

    def test_generated_sources(self):
        """A source and a header are made by a program that imports modules."""
        self.lay_data("generated")
        self.builds()
        self.prints("35 21 1 13\n")
        self.tree.ninja("test")
        self.assertEqual(self.tree.status, 0, self.tree.log)
        put(self.tree.top / "VALUE", "6\n")
        self.builds("src_core.cpp", "src_core_test.cpp", "src_main.cpp")
        self.prints("36 21 1 14\n")
        self.installed("36 21 1 14\n")

    def installed(self, text):
        """What Meson installs are the program and its library, and the program runs."""
        home = self.room / "installed"
        status, said = run(*self.tree.generator(), "install", "-C", self.tree.build,
                           env=environment(DESTDIR=str(home), NINJA=NINJA))
        self.assertEqual(status, 0, said)
        found = {it.name: it for it in home.rglob("*") if it.is_file()}
        self.assertEqual(set(found), {"app", "libshared.so"})
        libraries = str(found["libshared.so"].parent)
        self.assertEqual(run(found["app"], env={"LD_LIBRARY_PATH": libraries}), (0, text))

    def test_kinds_of_targets(self):
        self.lay_data("kinds")
        self.builds()
        self.prints("1 5 6 4 5\n")

    def test_shared_libraries_and_response_files(self):
        self.lay_data("kinds", "--default-library=shared", MESON_RSP_THRESHOLD="0")
        self.assertIn(": cpp_COMPILER_RSP", self.tree.text())
        self.builds()
        self.prints("1 5 6 4 5\n")

    def test_scans_of_meson(self):
        """Those of targets with a flag for modules are not run. Clang does not know the flag."""
        lists = SMALL["meson.build"]
        for it in "lib.cpp", "main.cpp":
            lists = lists.replace(f"'{it}'", f"'{it}', cpp_args: '-fmodules-ts'")
        self.lay({**SMALL, "meson.build": lists})
        self.builds("lib.cpp", "main.cpp")
        self.assertEqual([*self.tree.build.glob("*.p/*.dd")], [])

    def test_edits(self):
        """What is compiled after an import, a module and a source are added or removed."""
        self.lay({**SMALL, "other.cpp": "export module other;\nexport int other() { return 0; }\n"})
        self.builds("lib.cpp", "main.cpp")
        self.edit("meson.build", "'lib.cpp'", "'lib.cpp', 'other.cpp'")
        self.builds("other.cpp")
        self.edit("lib.cpp", "module lib;\n", "module lib;\nimport other;\n")
        self.builds("lib.cpp", "main.cpp")
        os.utime(self.tree.top / "other.cpp")
        self.builds("lib.cpp", "main.cpp", "other.cpp")
        self.edit("lib.cpp", "import other;\n", "")
        self.edit("meson.build", ", 'other.cpp'", "")
        self.builds("lib.cpp", "main.cpp")
        # Meson calls `-t cleandead`
        objects = [it.name for it in self.tree.build.glob("liblib.a.p/*.o")]
        self.assertEqual(objects, ["lib.cpp.o"])

    def test_threads(self):
        """One target has `-pthread`. Clang would reject an import from it, or by it."""
        for name in "lib.cpp", "main.cpp":
            lists = SMALL["meson.build"].replace(
                f"'{name}'", f"'{name}', dependencies: dependency('threads')")
            self.lay({**SMALL, "meson.build": lists}, folder=name)
            commands = (self.tree.build / "compile_commands.json").read_text()
            self.assertIn(" -pthread ", commands)
            self.builds("lib.cpp", "main.cpp")

    def test_flags_that_are_quoted(self):
        lists = SMALL["meson.build"].replace(
            "'main.cpp'", """'main.cpp', cpp_args: ['-DTEXT="a  $in \\'b\\'"', '-DNUMBER=7']""")
        self.lay({**SMALL, "meson.build": lists,
                  "main.cpp": 'extern "C" int puts(const char *);\nimport lib;\n'
                              "int main() { puts(TEXT); return lib() + NUMBER; }\n"})
        self.builds("lib.cpp", "main.cpp")
        self.prints("a  $in 'b'\n", 7)

    def test_other_flags(self):
        """Adoption names the import, before the compiler rejects it."""
        lists = SMALL["meson.build"].replace(
            "'main.cpp'", "'main.cpp', cpp_args: ['-fno-rtti', '-fPIC']")
        self.lay({**SMALL, "meson.build": lists})
        said = ("dyncollate-meson: app.p imports lib of liblib.a.p, which the compiler rejects, "
                "because these flags differ: -fno-rtti")
        self.assertIn(said, self.tree.log.splitlines())
        self.tree.ninja()
        self.assertNotEqual(self.tree.status, 0)
        self.assertIn("Compiling C++ object app.p/main.cpp.o", self.tree.log)
        self.edit("meson.build", "'-fno-rtti', ", "")
        self.builds("main.cpp")
        self.edit("main.cpp", "import lib;\n", "int lib();\n")
        self.edit("meson.build", "'-fPIC'", "'-fno-rtti'")
        self.tree.ninja("build.ninja")
        self.assertNotIn("differ", self.tree.log)

    def test_two_names_of_a_standard(self):
        """Clang compares whether there are GNU's extensions, and GCC does not."""
        flags = ["-std=c++2a"] + ["-std=gnu++20"] * (self.compiler() == tool("gcc"))
        for number, flag in enumerate(flags):
            lists = SMALL["meson.build"].replace("'main.cpp'", f"'main.cpp', cpp_args: '{flag}'")
            self.lay({**SMALL, "meson.build": lists}, folder=f"project {number}")
            self.assertNotIn("differ", self.tree.log)
            self.builds("lib.cpp", "main.cpp")

    def test_an_import_that_is_new(self):
        """A library takes part if it may import from another one, so no new adoption is needed."""
        self.lay({**TWO, "b.cpp": "int b() { return 0; }\n",
                  "main.cpp": "import a;\nint b();\nint main() { return a() + b(); }\n"})
        self.builds("a.cpp", "b.cpp", "main.cpp")
        put(self.tree.top / "b.cpp", "import a;\nint b() { return a(); }\n")
        self.builds("b.cpp")

    def test_what_is_collated(self):
        """An edit of a body collates nothing. An import collates its library alone in a group, and
        the program, because the info file of the library changes."""
        self.lay({**TWO, "b.cpp": TWO["b.cpp"].replace("import a;\n", "").replace("a()", "0")})
        self.builds()
        self.edit("a.cpp", "return 0", "return 1")
        self.assertEqual(self.collated(), ([], []))
        # the document was written within the same milliseconds as what was made from it
        made = self.tree.build / "meson-dyncollate/liba.a.p/modules.dd"
        os.utime(made.with_name("target.json"), ns=(made.stat().st_mtime_ns,) * 2)
        self.edit("b.cpp", "module b;\n", "module b;\nimport a;\n")
        self.assertEqual(self.collated(), (["app.p/target.json", "liba.a.p/group.json"],
                                           ["app.p/modules.dd", "libb.a.p/modules.dd"]))

    def collated(self):
        """The documents of the steps of a build, and the dyndep files of targets that it wrote."""
        files = sorted((self.tree.build / "meson-dyncollate").glob("*/modules.dd"))
        times = [it.stat().st_mtime_ns for it in files]
        self.tree.ninja()
        self.assertEqual(self.tree.status, 0, self.tree.log)
        written = [it for it, time in zip(files, times) if it.stat().st_mtime_ns != time]
        return (sorted(re.findall(r"Collating meson-dyncollate/(.*)", self.tree.log)),
                [f"{it.parent.name}/{it.name}" for it in written])

    def test_compile_commands(self):
        """They have the maps, by which clangd finds modules, and no scans."""
        self.lay(SMALL)
        entries = json.loads((self.tree.build / "compile_commands.json").read_text())
        outputs = [it["output"] for it in entries]
        self.assertEqual(outputs, ["liblib.a.p/lib.cpp.o", "app.p/main.cpp.o"])
        for it in entries:
            self.assertIn(f"{it['output']}.modmap", it["command"])

    def test_an_unknown_module(self):
        self.lay(SMALL)
        put(self.tree.top / "main.cpp", "import none;\nint main() {}\n")
        self.fails("dyncollate: M5 ModuleUnknown none in app.p/main.cpp.o", RECONFIGURE)
        put(self.tree.top / "main.cpp", SMALL["main.cpp"])
        self.builds()

    def test_libraries_that_import_each_other(self):
        self.lay(TWO)
        self.builds("a.cpp", "b.cpp", "main.cpp")
        self.edit("a.cpp", "module a;\n", "module a;\nimport b;\n")
        self.fails(f"{CYCLE}liba.a.p -> libb.a.p -> liba.a.p")
        self.edit("b.cpp", "import a;\n", "")
        self.edit("b.cpp", "a()", "0")
        self.builds("a.cpp", "b.cpp", "main.cpp")

    def test_a_module_that_two_libraries_have(self):
        self.lay({**TWO, "a.cpp": "export module b;\nexport int a() { return 0; }\n",
                  "b.cpp": "export module b;\nexport int b() { return 0; }\n"})
        self.fails("dyncollate: M3 ProvidedTwice b by info liba.a.p and info libb.a.p")

    def test_a_damaged_info_file(self):
        """The build that reads it removes it, and the next one makes it again."""
        self.lay(SMALL)
        self.builds()
        put(self.tree.build / "meson-dyncollate/liblib.a.p/info.json", "{")
        self.tree.ninja()
        self.assertNotEqual(self.tree.status, 0)
        self.assertIn("which is removed: the next build makes it again", self.tree.log)
        self.builds()

    def test_ccache(self):
        """No object of an importer is one of before its module changed."""
        if not shutil.which("ccache"):
            self.skipTest("ccache: not there")
        variables = {"CXX": f"ccache {self.compiler()}", "CCACHE_DIR": str(self.room / "ccache")}
        self.lay({**SMALL, "lib.cpp": SMALL["lib.cpp"].replace("int", "constexpr int")},
                 **variables)
        for before, after in "01", "10", "01":
            self.builds()
            self.prints("", int(before))
            self.edit("lib.cpp", before, after)

    def test_a_cache_of_objects(self):
        """It is not called for a target with modules, because it does not know their files."""
        cache = self.room / "ccache"
        calls = self.room / "calls"
        put(cache, f"#!/bin/sh\ncase $* in *' -c '*) echo $* >> {calls} ;; esac\nexec \"$@\"\n")
        cache.chmod(0o755)
        self.lay(SMALL, CXX=f"{cache} {self.compiler()}")
        put(calls, "")
        self.builds("lib.cpp", "main.cpp")
        self.edit("lib.cpp", "0", "1")
        self.builds("lib.cpp", "main.cpp")
        self.prints("", 1)
        self.assertEqual(calls.read_text(), "")


class ProjectsWithClang(Projects, Builds):
    def test_import_std(self):
        self.lay_data("std")
        link, = re.findall("^build app: .*", self.tree.text(), re.M)
        self.assertIn(" meson-dyncollate/std/std.cppm.o", link)
        self.builds()
        self.prints("3 2\n")

    def test_std_of_gcc(self):
        """Clang has the module also with the library of GCC 15 or newer, if that is there."""
        self.lay({**SMALL, "main.cpp": "import std;\n" + SMALL["main.cpp"]})
        name = "libstdc++.modules.json"
        if run(self.compiler(), f"-print-file-name={name}")[1].strip() != name:
            return self.builds()
        self.fails(f"dyncollate-meson: app.p imports std, and {self.compiler()} has no "
                   "libstdc++.modules.json: Clang has it with -stdlib=libc++, and GCC from version "
                   "15 on")
        return None


class ProjectsWithGcc(Projects, Builds):
    compiler, package = staticmethod(lambda: tool("gcc")), "g++-12"

    def test_a_cross_build(self):
        """A program for another processor, whose source a program with a module for this one
        writes."""
        if not shutil.which("aarch64-linux-gnu-g++"):
            self.skipTest("g++-aarch64-linux-gnu: not there")
        put(self.room / "cross", CROSS)
        lists = SMALL["meson.build"].replace("'main.cpp'", "'main.cpp', made")
        self.lay({**SMALL, "meson.build": lists.replace("lib = ", WRITER + "lib = "),
                  "writer.cpp": WRITES,
                  "number.cpp": "export module number;\nexport int number() { return 3; }\n",
                  "main.cpp": "import lib;\nimport made;\nint main() { return lib() + made(); }\n"},
                 f"--cross-file={self.room}/cross", "-Dbuild.cpp_std=c++20", CXX="", CC="")
        self.builds()
        self.assertIn("ARM aarch64", run("file", "-b", self.tree.build / "app")[1])
        if shutil.which("qemu-aarch64-static"):
            words = ["qemu-aarch64-static", "-L", "/usr/aarch64-linux-gnu", self.tree.build / "app"]
            self.assertEqual(run(*words), (3, ""))

    def test_import_std(self):
        """GCC has it from version 15 on."""
        if version("gcc") < (15,):
            self.skipTest("g++-15: not there")
        self.lay({**SMALL, "meson.build": SMALL["meson.build"].replace("c++20", "c++23"),
                  "main.cpp": "import std;\nimport lib;\n"
                              "int main() { std::puts(\"3\"); return lib(); }\n"})
        self.builds()
        self.prints("3\n")

    def test_a_precompiled_header(self):
        put(self.room / "a project/pch/all.h", "#include <cstdio>\n")
        lists = SMALL["meson.build"].replace("'main.cpp',", "'main.cpp', cpp_pch: 'pch/all.h',")
        self.lay({**SMALL, "meson.build": lists})
        self.fails("dyncollate-meson: app.p uses modules and a precompiled header, which GCC "
                   "rejects together with modules: configure with -Db_pch=false")


class WithoutAnyClang(WithoutClang, Builds):
    compiler = staticmethod(lambda: tool("gcc"))

    def test_a_module(self):
        self.lay(SMALL)
        self.builds("lib.cpp", "main.cpp")
