"""What examples/generate says of a faulty list,
and builds of projects that need more of it than the examples do."""
import json
import os
import re
import shutil
import sys
from pathlib import Path
from shlex import quote
from unittest import mock

from tests import program
from tests.builds import TOP, Directory, edit, touch
from tests.run import output_of, run, run_apart, run_at_once
from tests.tools import WithoutClang, of_versions, tool, tools_of, version

GENERATE = TOP / "examples/generate"

# Why a list is wrong, the list, and the message.
FAULTY = [("a misspelt kind", "libary a a.cpp", "line 1 of the list: there is no kind libary"),
          ("a kind alone", "# a comment\n\nlibrary",
           "line 3 of the list: a library needs a name of letters, digits, and _ . + -"),
          ("a name with a space", "program 'a b' a.cpp",
           "line 1 of the list: a program needs a name of letters, digits, and _ . + -"),
          ("a quote that is not closed", "program a 'a.cpp",
           "line 1 of the list: No closing quotation"),
          ("no source", "library a -DA", "line 1 of the list: a has no source"),
          ("a repeated target", "library a a.cpp\nlibrary a b.cpp",
           "line 2 of the list: there are two of a"),
          ("a repeated source", "library a a.cpp ./x/../a.cpp",
           "line 1 of the list: a has one source twice"),
          ("an unknown library", "program a a.cpp -- b", "a links b, which is no library"),
          ("a program that is linked",
           "program a a.cpp -- b\nprogram b b.cpp", "a links b, which is no library"),
          ("a cycle of targets", "library a a.cpp -- b\nlibrary b b.cpp -- c\nlibrary c c.cpp -- a",
           "targets link each other in a cycle: a -> b -> c -> a"),
          ("a target that links itself", "library a a.cpp -- a",
           "targets link each other in a cycle: a -> a"),]


def words(*texts):
    return " ".join(map(quote, texts))


class Lists(Directory):
    tools = []
    seconds = 1

    def setUp(self):
        super().setUp()
        self.environment |= {name: "true" for name in ("CLANG", "GCC", "SCANNER", "DYNCOLLATE")}

    def says(self, *words):
        """What the script prints on standard error, which is a line or nothing, and its status."""
        status, self.printed, said = run_apart(sys.executable, GENERATE, *words,
                                               env=self.environment)
        self.assertLessEqual(said.count("\n"), 1, said)
        return status, said

    def test_faulty_lists(self):
        for why, text, said in FAULTY:
            with self.subTest(why):
                Path("targets").write_text(text + "\n")
                self.assertEqual(self.says("clang", "targets"), (1, f"generate: {said}\n"))
                self.assertEqual(os.listdir(), ["targets"], "nothing was written")

    def test_a_list_that_cannot_be_read(self):
        self.assertEqual(self.says("clang", "none"),
                         (1, "generate: none: No such file or directory\n"))
        Path("targets").write_bytes(b"program \xff a.cpp\n")
        status, said = self.says("clang", "targets")
        self.assertEqual((status, said[:len("generate: 'utf-8'")]), (1, "generate: 'utf-8'"))

    def test_a_missing_tool(self):
        Path("targets").write_text("program a a.cpp\n")
        for name in ("CLANG", "GCC", "SCANNER", "DYNCOLLATE"):
            self.environment |= {name: "./none -x"}
            said = (f"generate: ./none -x is not there; the environment variable {name} may name "
                    "another\n")
            self.assertEqual(self.says("gcc", "targets"), (1, said))
            self.environment |= {name: "true"}

    def test_a_compiler_without_the_modules_of_the_standard_library(self):
        """It prints the name of the list as it is asked, or the list is not there,
        or it names what is not there."""
        Path("targets").write_text("standard std\n")
        Path("list.json").write_text(
            '{"modules":[{"logical-name":"std","source-path":"none/std.cppm"}]}')
        top = os.path.realpath(".")
        for printed, said in ([("libc++.modules.json", "./compiler has no libc++.modules.json"),
                               (f"{top}/no.json", f"{top}/no.json is not there"),
                               (f"{top}/list.json",
                                f"{top}/list.json names {top}/none/std.cppm, which is not there")]):
            self.compiler(f"echo {printed}")
            self.assertEqual(self.says("clang", "targets"),
                             (1, f"generate: line 1 of the list: {said}\n"))

    def test_a_list_whose_paths_are_only_right_next_to_the_compiler(self):
        """As with Debian's libc++-21-dev,
        whose compiler names a link to the list in another directory."""
        Path("targets").write_text("standard std\n")
        for name in "lib", "llvm/lib/clang/21", "llvm/share":
            os.makedirs(name)
        Path("llvm/lib/libc++.modules.json").write_text(
            '{"modules":[{"logical-name":"std","source-path":"../share/std.cppm"}]}')
        os.symlink("../llvm/lib/libc++.modules.json", "lib/libc++.modules.json")
        Path("llvm/share/std.cppm").write_text("export module std;\n")
        top = os.path.realpath(".")
        self.compiler(f"case $* in *resource*) echo {top}/llvm/lib/clang/21 ;; *) echo "
                      f"{top}/lib/libc++.modules.json ;; esac")
        self.assertEqual(self.says("clang", "targets"), (0, ""))
        self.assertIn(f": scan {top}/llvm/share/std.cppm\n", Path("build.ninja").read_text())

    def compiler(self, prints):
        """The compiler is a script that prints something."""
        Path("compiler").write_text(f"#!/bin/sh\n{prints}\n")
        Path("compiler").chmod(0o755)
        self.environment["CLANG"] = "./compiler"

    def test_words(self):
        self.assertEqual(self.says("--help"), (0, ""))
        self.assertIn("generate clang|gcc|project [LIST]", self.printed)
        usage = "generate: usage: generate clang|gcc|project [LIST]; --help says more\n"
        for words in [], ["clang", "a", "b"], ["msvc"]:
            self.assertEqual(self.says(*words), (1, usage))

    def test_each_linked_library_is_visited_once(self):
        """40 layers of two libraries, each linking both of the layer below:
        2 ** 40 ways lead down."""
        layers = [f"library {side}{number} {side}.cpp -- "
                  f"{f'l{number - 1} r{number - 1}' if number else ''}" for number in range(40)
                  for side in "lr"]
        Path("targets").write_text("\n".join(layers))
        self.assertEqual(self.says("clang", "targets"), (0, ""))
        document = json.loads(Path("dd/l39.target.json").read_text())
        self.assertEqual(document["linked"],
                         [f"dd/{side}{number}.info.json" for number in range(39) for side in "lr"])

    def test_an_explanation(self):
        """A failed collation calls dyncollate-explain,
        if it is next to dyncollate or in the PATH."""
        Path("targets").write_text("program a a.cpp\n")
        for folder, names in (("own $1", {"DYNCOLLATE": "'./own $1/dyncollate' -x"}),
                              ("path", {"PATH": f"{os.getcwd()}/path:{os.environ['PATH']}"})):
            self.assertEqual(self.says("clang", "targets"), (0, ""))
            self.assertIn("\n  command = $dyncollate collate $in\n",
                          Path("build.ninja").read_text())
            os.mkdir(folder)
            for name in "dyncollate", "dyncollate-explain":
                shutil.copy(shutil.which("true"), f"{folder}/{name}")
            with mock.patch.dict(self.environment, names):
                self.assertEqual(self.says("clang", "targets"), (0, ""))
            given = "'./own $$1/dyncollate' -x" if folder == "own $1" else "true"
            explains = "./own $$1" if folder == "own $1" else f"{os.getcwd()}/path"
            wanted = words("env", f"DYNCOLLATE={given}", f"{explains}/dyncollate-explain")
            self.assertIn(f"\n  command = $dyncollate collate $in || {wanted} $in\n",
                          Path("build.ninja").read_text())

    def test_a_list_from_standard_input(self):
        """The manifest does not write itself again then."""
        output_of(GENERATE, "clang", input="program a a.cpp\n", env=self.environment)
        self.assertNotIn("build build.ninja", Path("build.ninja").read_text())


# ---- builds out of source

class OutOfSource:
    """What each form of manifest is tested for in a directory below the project's."""
    form = "clang"

    @property
    def tools(self):
        return tools_of(self.form)

    def begin(self, example="libs"):
        self.copy(example)
        os.mkdir("build")
        os.chdir("build")
        self.generate(self.form, "../targets")

    def test_a_project(self):
        self.begin()
        self.makes("42")
        self.compiled(*(f"../src/{it}"
                        for it in ("app/main.cpp", "base/number.cpp", "base/number.cppm",
                                   "math/detail.cppm", "math/sum.cpp", "math/sum.cppm")))
        self.idle()
        touch("../src/math/detail.cppm")
        self.compiles("../src/math/detail.cppm", "../src/math/sum.cppm", "../src/math/sum.cpp",
                      "../src/app/main.cpp")

    def test_a_source_that_is_not_below_the_list(self):
        self.copy("libs")
        os.rename("src", "../src")
        edit("targets", "src/", "../src/")
        self.generate(self.form)
        self.makes("42")
        self.assertTrue(os.path.exists("obj/app/__/src/app/main.cpp.o"))
        self.idle()

    def test_an_import_is_reversed(self):
        """Between modules of a library; one is a partition in a `.cpp`. Then back."""
        self.begin()
        os.rename("../src/math/detail.cppm", "../src/math/detail.cpp")
        edit("../targets", "detail.cppm", "detail.cpp")
        Path("../src/math/extra.cpp").write_text(
            "export module sum:extra;\nexport import :detail;\n")
        edit("../targets", "(src/math/detail.cpp)", r"\1 src/math/extra.cpp")
        edit("../src/math/sum.cppm", "(export import :detail;)", r"\1\nexport import :extra;")
        self.makes("42")
        self.idle()
        before = {name: Path("../src/math", name).read_text()
                  for name in ("detail.cpp", "extra.cpp")}
        edit("../src/math/extra.cpp", "export import :detail;", "export constexpr int one = 1;")
        edit("../src/math/detail.cpp", "(import number;)", r"\1\nimport :extra;")
        for turned in range(2):
            self.makes("42")
            self.compiled(*(f"../src/{it}"
                            for it in ("math/detail.cpp", "math/extra.cpp", "math/sum.cpp",
                                       "math/sum.cppm", "app/main.cpp")))
            self.idle()
            for name in before:
                Path("../src/math", name).write_text(before[name])

    def test_the_list_has_changed(self):
        """Ninja writes the manifest again, and compiles the new sources."""
        self.begin()
        self.makes("42")
        Path("../src/app/more.cpp").write_text("int more() { return 1; }\n")
        edit("../targets", "(program app)", r"\1 src/app/more.cpp")
        self.makes("42")
        self.assertEqual(self.steps("GENERATE"), ["../targets"])
        self.compiled("../src/app/more.cpp")
        self.idle()
        touch("../targets")
        self.ninja()
        self.assertEqual((self.status, len(re.findall(r"^\[", self.log, re.M))), (0, 1),
                         "the same is written, all else stays")
        self.idle()
        with open("../targets", "a", encoding="utf-8") as file:
            file.write("libary\n")
        self.fails()
        self.assertIn("generate: line 6 of the list: there is no kind libary",
                      self.log.splitlines())
        edit("../targets", "^libary\n", "")
        self.makes("42")


class OutOfSourceWithClang(OutOfSource, Directory):
    pass


class OutOfSourceInAProject(OutOfSource, Directory):
    form = "project"


class OutOfSourceWithGcc(OutOfSource, Directory):
    form = "gcc"


class OutOfSourceWithoutClang(WithoutClang, OutOfSource, Directory):
    form, tools = "gcc", ["ninja", "gcc"]


class OutOfSourceWithNewerGcc(OutOfSource, Directory):
    """GCC 14 to 16 write module files and the map into the depfile."""
    form = "gcc"

    def setUp(self):
        super().setUp()
        found = [it for it in of_versions("g++", 16, 15, 14) if shutil.which(it) and it != "g++"]
        if not found:
            self.skipTest("g++-14: not there")
        self.environment["GCC"] = found[0]

    def test_a_new_import(self):
        """The source alone is compiled."""
        self.copy("single", self.form)
        self.makes("600")
        edit("src/main.cpp", r"\A", "import units;\n")
        self.compiles("src/main.cpp")


class ScansOfGcc(Directory):
    tools = []

    def test_from_version_14_on(self):
        """GCC scans by itself, with the line in docs/GUIDE.md, and no other compiler is needed."""
        Path("targets").write_text("program app a.cpp\n")
        self.environment |= {"GCC": "./g++", "CLANG": "./none", "SCANNER": "./none",
                             "DYNCOLLATE": "true"}
        command = [sys.executable, GENERATE, "gcc", "targets"]
        said = "generate: ./none is not there; the environment variable CLANG may name another\n"
        for version, result in ("13.2.0", (1, said)), ("14.1.0", (0, "")):
            Path("g++").write_text(f"#!/bin/sh\necho {version}\n")
            Path("g++").chmod(0o755)
            self.assertEqual(run(*command, env=self.environment), result)
        line, = (it for it in (TOP / "docs/GUIDE.md").read_text().splitlines()
                 if "-fdeps-format=p1689r5" in it and it.startswith("    "))
        self.assertIn(line, Path("build.ninja").read_text().splitlines())


# ---- projects that need more than the examples do

class WithClang(Directory):
    form = "clang"

    @property
    def tools(self):
        return tools_of(self.form)

    def test_an_info_that_stays_the_same(self):
        """The targets that link it are not collated. The step is done,
        and has nothing to do in the next run."""
        self.copy("libs", self.form)
        self.makes("42")
        edit("src/math/sum.cpp", "^module sum;", r"\g<0>\nimport number;")
        self.ninja()
        self.compiled("src/math/sum.cpp")
        self.assertEqual(self.steps("COLLATE"), ["dd/math.target.json"])
        self.idle()

    def project(self, **files):
        """Writes the list and the sources of a project,
        by names in which `__` is a slash and `_` a dot."""
        for name, text in files.items():
            name = name.replace("__", "/").replace("_", ".")
            Path(name).parent.mkdir(parents=True, exist_ok=True)
            Path(name).write_text(text)

    def test_flags_and_include_directories_of_a_target(self):
        self.project(targets="""program app src/main.cpp -DANSWER=40 '-DTEXT="a $b"' -- one two
                                library one src/one.cppm -DANSWER=1 -Iinc/one
                                library two src/two.cppm -Iinc/two\n""",
                     inc__one__own_h="#define OWN 0\n", inc__two__own_h="#define OWN 1\n",
                     src__one_cppm='module;\n#include "own.h"\nexport module one;\n'
                     'export int one() { return ANSWER + OWN; }\n',
                     src__two_cppm='module;\n#include "own.h"\nexport module two;\n#ifdef ANSWER\n'
                     '#error\n#endif\nexport int two() { return OWN; }\n',
                     src__main_cpp='#include <cstdio>\nimport one;\nimport two;\n'
                     'int main() { printf("%s %d\\n", TEXT, ANSWER + one() + two()); }\n')
        os.mkdir("build")
        os.chdir("build")
        self.generate(self.form, "../targets")
        self.makes("a $b 42")
        self.idle()

    def test_a_generated_header(self):
        """It is there before the sources of the targets that name it, or a library that does,
        are scanned."""
        self.project(targets="header number.h make.sh number\nprogram app main.cpp -- math\n"
                     "library math math.cppm -- number.h\n",
                     make_sh='echo "#define NUMBER $(cat "$1")"\n', number="41\n",
                     math_cppm='module;\n#include "number.h"\nexport module math;\n'
                     'export int number() { return NUMBER; }\n',
                     main_cpp='#include "number.h"\n#include <cstdio>\nimport math;\n'
                     'int main() { printf("%d %d\\n", NUMBER, number()); }\n')
        self.generate(self.form)
        self.makes("41 41")
        self.idle()
        Path("number").write_text("42\n")
        self.makes("42 42")
        self.assertEqual(self.steps("HEADER"), ["gen/number.h"])
        if version("ninja") < (1, 11):
            # it scans again
            self.ninja()
        self.idle()

    def test_names_that_are_escaped(self):
        """In Ninja's files, in commands, in scan documents, maps and depfiles."""
        self.project(
            targets="program app 'src/main $1 it.cpp' 'src/a:b c$.cppm' \"-DSAYS='x'\" -- math\n"
            "library math 'my math/m 1.cppm' '-Imy inc'\n")
        Path("src").mkdir()
        Path("my math").mkdir()
        Path("my inc").mkdir()
        Path("my inc/n.h").write_text("#define N 20\n")
        Path("src/a:b c$.cppm").write_text(
            "export module a;\nimport m;\nexport int a() { return m() + 1; }\n")
        Path("my math/m 1.cppm").write_text(
            'module;\n#include "n.h"\nexport module m;\nexport int m() { return N; }\n')
        Path("src/main $1 it.cpp").write_text(
            '#include <cstdio>\nimport a;\nint main() { printf("%d%c\\n", a(), SAYS); }\n')
        self.generate(self.form)
        self.makes("21x")
        self.idle()
        Path("my inc/n.h").write_text("#define N 30\n")
        self.makes("31x")
        self.idle()
        touch("my math/m 1.cppm")
        self.compiles("'my math/m 1.cppm'", "'src/a:b c$.cppm'", "'src/main $1 it.cpp'")

    def test_an_error_that_is_explained(self):
        """The line of dyncollate is the first one, the explanation follows, and the step fails."""
        os.mkdir("bin")
        os.symlink(program.PROGRAM, "bin/dyncollate")
        os.symlink(TOP / "explain/dyncollate-explain", "bin/dyncollate-explain")
        self.environment["DYNCOLLATE"] = f"{os.getcwd()}/bin/dyncollate"
        self.copy("libs", self.form)
        self.makes("42")
        edit("src/app/main.cpp", r"\A", "import numbers;\n")
        self.fails()
        lines = self.log.splitlines()
        at = lines.index("dyncollate: M5 ModuleUnknown numbers in obj/app/src/app/main.cpp.o")
        self.assertEqual(lines[at + 1:at + 4], [
            "M5 ModuleUnknown: obj/app/src/app/main.cpp.o imports numbers, and nothing provides it",
            "src/app/main.cpp:1:8: imports numbers", "src/base/number.cppm:1:15: provides number"])
        edit("src/app/main.cpp", r"\Aimport numbers;\n", "")
        self.makes("42")

    def test_compilation_commands(self):
        """They name the compiler and the map,
        so that each source can be compiled by itself once all were."""
        self.copy("libs", self.form)
        self.ninja()
        commands = json.loads(Path("compile_commands.json").read_text())
        self.assertEqual(len(commands), 6)
        for one in commands:
            self.assertEqual(run(*one["arguments"], "-fsyntax-only", cwd=one["directory"]), (0, ""))

    def test_clangd_finds_modules(self):
        clangd = next(filter(shutil.which,
                             of_versions("clangd", *re.findall(r"\d+", tool("clang"))[:1])), None)
        if not clangd or run(clangd, "--version")[1].count(version_text("clang")) == 0:
            self.skipTest("clangd of the version of Clang: not there")
        self.copy("libs", self.form)
        self.ninja()
        status, log = run(clangd, "--check=src/app/main.cpp", env=self.environment)
        self.assertEqual((status, re.findall("^E.*(?:error|Error|not found).*", log, re.M)),
                         (0, []), log)


def version_text(name):
    return re.search(r"\d+\.\d+\.\d+", run(tool(name), "--version")[1])[0]


class WithGcc(WithClang):
    form = "gcc"

    def test_clangd_finds_modules(self):
        """It cannot read GCC's module files."""
        self.skipTest("this is for Clang")


# ---- the repository

class Repository(Directory):
    tools = ["ninja", "clang", "scanner"]

    def test_what_the_examples_write_is_ignored(self):
        """So ./release, which takes a tree that is as committed, does not stop at it."""
        if not shutil.which("git"):
            self.skipTest("git: not there")
        # without what git tells a hook of the repository that it is called in
        environment = {name: text for name, text in os.environ.items()
                       if not name.startswith("GIT_")}

        def git(*words, **given):
            return run("git", *words, env=environment, **given)
        for name in "adapters", "examples":
            shutil.copytree(TOP / name, name, ignore=lambda folder, names: [
                it for it in names if git("check-ignore", "-q", Path(folder, it), cwd=TOP)[0] == 0])
        shutil.copy(TOP / ".gitignore", ".")
        for words in (["init", "-q"], ["add", "."],
                      ["-c", "user.name=a", "-c", "user.email=a@b", "commit", "-qm", "all"]):
            self.assertEqual(git(*words), (0, ""))
        top = os.getcwd()
        for folder, form, listed in ([("single", "clang", "targets"),
                                      ("single/build", "clang", "../targets"),
                                      ("libs", "project", "targets"), ("hello", "", "")]):
            os.makedirs(f"examples/{folder}", exist_ok=True)
            os.chdir(f"examples/{folder}")
            if form:
                self.generate(form, listed)
            self.assertEqual(self.ninja()[0], 0, self.log)
            os.chdir(top)
        self.assertEqual(git("status", "--porcelain"), (0, ""))


class Scans(Directory):
    """The command of a scan, with a scanner that takes its time."""
    tools = ["ninja"]
    seconds = 2

    def setUp(self):
        super().setUp()
        Path("scanner").write_text(
            "#!/bin/sh\nprintf '{\"version\":1,'; sleep 0.5; printf '\"rules\":[]}'\n"
            "exit ${STATUS:-0}\n")
        Path("scanner").chmod(0o755)
        Path("a b.cpp").write_text("")
        Path("targets").write_text("program app 'a b.cpp'\n")
        self.environment |= {"CLANG": "true", "GCC": "true", "SCANNER": "./scanner"}
        self.generate("clang")
        self.document = Path("scan/app/a b.cpp.ddi")
        self.document.parent.mkdir(parents=True)
        self.command = run(tool("ninja"), "-t", "commands", "-s", self.document)[1]

    def scans(self, *seconds, **more):
        """The statuses of scans that begin after that much time each."""
        commands = [["sh", "-c", f"sleep {it}; {self.command}"] for it in seconds]
        return [status for status, _ in run_at_once(*commands, env=self.environment | more)]

    def files(self):
        return sorted(it.name for it in self.document.parent.iterdir())

    def test_two_at_once(self):
        self.assertEqual(self.scans(0, 0.25), [0, 0])
        self.assertEqual((self.files(), self.document.read_text()),
                         ([self.document.name], '{"version":1,"rules":[]}'))

    def test_a_failure(self):
        """It leaves the document as it was, and no other file."""
        self.assertEqual(self.scans(0, STATUS="3"), [3])
        self.assertEqual(self.files(), [])
        self.document.write_text("old")
        self.assertEqual(self.scans(0, STATUS="3"), [3])
        self.assertEqual((self.files(), self.document.read_text()), ([self.document.name], "old"))

    def test_the_same_document(self):
        self.assertEqual(self.scans(0), [0])
        os.utime(self.document, ns=(1, 1))
        self.assertEqual(self.scans(0), [0])
        self.assertEqual((self.files(), self.document.stat().st_mtime_ns),
                         ([self.document.name], 1))
