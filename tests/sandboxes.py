"""Each step of the examples in a sandbox that has the files which docs/GUIDE.md lists for it, the
tools, and nothing else, as a remote executor runs it: it writes the files that GUIDE lists, with
the bytes that they have in an ordinary build. Without one of the files of a map, a compilation
fails that reads it. Debian's `bubblewrap` makes the sandboxes; a test whose tool is missing is
skipped."""
import json
import os
import re
import shutil
import sys
import tempfile
import unittest
from collections import namedtuple
from pathlib import Path

from tests import meson, program
from tests.builds import EXAMPLES, Directory, edit, standard_modules
from tests.run import run
from tests.side_by_side import side_by_side
from tests.tools import tool

load_tests = side_by_side
# A step: its kind, its command, and the files that it reads and writes.
Step = namedtuple("Step", "kind command reads writes")
# Clang 19 writes one of several texts for some module files, so a step is tried some times.
TRIES = 20


class Sandbox:
    """The steps of a build, which is in the working directory, in sandboxes."""
    seconds = 60
    form, programs = "", []

    def find_bubblewrap(self):
        if not shutil.which("bwrap") or run("bwrap", "--ro-bind", "/", "/", "true")[0]:
            self.skipTest("bubblewrap: not there, or not allowed")

    # ---- the steps, by the rules of GUIDE

    def asked(self, *words):
        status, text = run(tool("ninja"), "-t", *words, env=self.environment)
        self.assertEqual(status, 0, text)
        return text

    def below(self, name):
        """The files of the project that a depfile named, as Ninja has kept them.
        Others are the tools' own."""
        names = re.findall(r"^    (.*)$", self.asked("deps", name), re.M)
        return [it for it in map(os.path.normpath, names) if not os.path.isabs(it)]

    def of_documents(self, documents):
        """The files that a collation reads besides these documents,
        and the files that it writes."""
        targets = [json.loads(Path(it).read_text()) for it in documents]
        scans = [scan for it in targets for scan in it["scans"]]
        objects = [rule["primary-output"] for it in scans
                   for rule in json.loads(Path(it).read_text())["rules"]]
        return (targets, scans, [f"{it}.modmap" for it in objects]
                + [it[key] for it in targets for key in ("info", "dyndep")])

    def documents(self, name):
        return json.loads(Path(name).read_text()).get("targets", [name])

    def provided_and_needed(self, name):
        """The files in an object's map that the compilation writes,
        and the files that it may read."""
        lines = Path(f"{name}.modmap").read_text().splitlines()
        if self.form != "gcc":
            return ([it.split("=", 1)[1] for it in lines if it.startswith("-fmodule-output=")],
                    [it.split("=", 2)[2] for it in lines if it.startswith("-fmodule-file=")])
        files = [it.split(" ", 1)[1] for it in lines]
        return ([it for it in files if it in self.outputs[name]],
                [it for it in files if it not in self.outputs[name]])

    def step(self, kind, output, command, source):
        if kind in ("archive", "link"):
            return Step(kind, command,
                        set(re.findall(r"^    (?:\| )?([^|].*)$",
                                       self.asked("query", output).split("  outputs:")[0], re.M)),
                        {output})
        if kind == "scan":
            return Step(kind, command, {source, *self.below(output)}, {output, f"{output}.d"})
        if kind == "collate":
            documents = self.documents(source)
            targets, scans, written = self.of_documents(documents)
            linked = ([info for it in targets for info in it["linked"]]
                      if documents == [source] else [])
            return Step(kind, command, {source, *documents, *scans, *linked}, set(written))
        provided, needed = self.provided_and_needed(output)
        return Step(kind, command, {source, f"{output}.modmap", *self.below(output), *needed},
                    {output, f"{output}.d", *provided})

    def dyndep_files(self):
        return Path("dd").glob("*.dd")

    def steps(self, **rules):
        """All steps of the build, by their kinds, whose rules may have other names."""
        statements = re.findall(r"^build (\S+)(?: \| (.*))?: dyndep",
                                "".join(it.read_text() for it in self.dyndep_files()), re.M)
        self.outputs = {name: outputs.split(" ") for name, outputs in statements}
        for kind in "scan", "collate", "compile", "archive", "link":
            for it in json.loads(self.asked("compdb", *rules.get(kind, [kind]))):
                yield self.step(kind, os.path.normpath(it["output"]), it["command"],
                                os.path.normpath(it["file"]))

    # ---- sandboxes

    def sandbox(self, step, without=()):
        """Runs a step in a directory that has only the files that it reads. Returns its status,
        what it prints, and the files that it leaves."""
        room = Path(tempfile.mkdtemp(dir="..", prefix="alone-")).resolve()
        self.addCleanup(shutil.rmtree, room, ignore_errors=True)
        for name in step.reads | step.writes:
            (room / name).parent.mkdir(parents=True, exist_ok=True)
        reads = [it for it in step.reads if not os.path.isabs(it) and it not in without]
        for name in reads:
            shutil.copy(name, room / name)
            (room / name).chmod(0o444)
        words = ["bwrap", "--unshare-all", "--die-with-parent", "--ro-bind", "/usr", "/usr",
                 "--proc", "/proc", "--dev", "/dev", "--tmpfs", "/tmp", "--dir", "/var/tmp"]
        for name in "bin", "lib", "lib64", "sbin":
            words += (["--symlink", f"usr/{name}", f"/{name}"]
                      if os.path.islink(f"/{name}") else ["--ro-bind", f"/{name}", f"/{name}"])
        for name in {program.PROGRAM, *self.programs,
                     *(os.path.realpath(tool(it)) for it in self.tools)}:
            if not name.startswith("/usr/"):
                words += ["--ro-bind", name, name]
        words += ["--bind", room, os.getcwd(), "--chdir", os.getcwd(), "sh", "-c", step.command]
        status, printed = run(*words, env={"PATH": os.environ["PATH"], "SOURCE_DATE_EPOCH": "1"})
        left = {str(it.relative_to(room)): it.read_bytes() for it in room.rglob("*")
                if it.is_file()}
        return status, printed, {name: text for name, text in left.items() if name not in reads}

    def same(self, step):
        """A step writes what GUIDE lists. Ninja removes depfiles, so they are not compared."""
        different = set()
        for _ in range(TRIES):
            status, printed, left = self.sandbox(step)
            self.assertEqual((status, printed), (0, ""), step)
            self.assertEqual(set(left), step.writes, step)
            different = {name for name, text in left.items() if not name.endswith(".d")
                         and text != Path(name).read_bytes()}
            if not different:
                return
        self.fail(f"{sorted(different)}: other bytes than in the build, by {step}")


class Sandboxed(Sandbox, Directory):
    """A build of an example."""
    example = ""

    def setUp(self):
        self.tools = ["ninja", "clang", "scanner"] + (["gcc"] if self.form == "gcc" else [])
        super().setUp()
        self.find_bubblewrap()
        self.before()
        self.copy(self.example, self.form)
        self.assertEqual(self.ninja()[0], 0, self.log)

    def before(self):
        pass

    def test_each_step(self):
        kinds = [(step.kind, self.same(step)) for step in self.steps()]
        sources, targets = (len(list(Path("obj").rglob("*.o"))),
                            len(list(Path("dd").glob("*.target.json"))))
        collations = 1 if self.form == "project" else targets
        wanted = (["scan"] * sources + ["collate"] * collations + ["compile"] * sources
                  + ["archive"] * (targets - 1) + ["link"])
        self.assertEqual([kind for kind, _ in kinds], wanted)

    def test_a_file_of_a_map_that_is_missing(self):
        """The compilation fails, and names the file. GCC does not read a partition that the source
        does not import itself."""
        count = 0
        for step in self.steps():
            maps = [it for it in step.reads if it.endswith(".modmap")]
            for name in step.reads & self.modules() if step.kind == "compile" else ():
                required = self.required(maps[0].removesuffix(".modmap"))
                status, printed, left = self.sandbox(step, without={name})
                # (the file of a partition a:b is a-b.gcm)
                if self.form == "gcc" and name not in required and "-" in os.path.basename(name):
                    self.assertEqual((status, printed, set(left)), (0, "", step.writes),
                                     (step, name))
                else:
                    self.assertNotEqual(status, 0, (step, name))
                    self.assertIn(os.path.basename(name), printed)
                    count += 1
        self.assertGreater(count, 2)

    def modules(self):
        """The module files of the build."""
        return {name for names in self.outputs.values() for name in names if name}

    def required(self, name):
        """The module files that an object's source imports itself, as its dyndep file has them."""
        found = re.search(rf"^build {re.escape(name)}(?: \|[^:]*)?: dyndep(?: \| (.*))?$",
                          "".join(it.read_text() for it in Path("dd").glob("*.dd")), re.M)
        return (found[1] or "").split(" ")

    def test_a_file_that_is_not_declared(self):
        """What a step needs is really missing: without its source or its map it fails."""
        steps = {it.kind: it for it in self.steps()}
        for kind, suffix in (("scan", (".cpp", ".cppm")), ("collate", ".json"),
                             ("compile", (".cpp", ".cppm")), ("compile", ".modmap")):
            for name in steps[kind].reads:
                if name.endswith(suffix) and not os.path.isabs(name):
                    self.assertNotEqual(self.sandbox(steps[kind], without={name})[0], 0, name)


for one in EXAMPLES:
    for form_ in "clang", "gcc", "project":
        title = f"{one.title()}{'InA' if form_ == 'project' else 'With'}{form_.title()}"
        globals()[title] = type(title, (Sandboxed,), {"example": one, "form": form_})


class StdWithClang(Sandboxed):
    example, form, seconds = "std", "clang", 240

    def before(self):
        if not standard_modules(tool("clang"), "-stdlib=libc++",
                                "-print-file-name=libc++.modules.json"):
            self.skipTest("libc++-19-dev: not there")


class DeprecatedWithClang(Sandboxed):
    """A source uses a function of a module that is deprecated,
    and Clang quotes the line of the module."""
    example, form = "libs", "clang"
    test_each_step = test_a_file_of_a_map_that_is_missing = test_a_file_that_is_not_declared = None

    def copy(self, example, form=None):
        super().copy(example)
        edit("src/base/number.cppm", "^export struct",
             r"export [[deprecated]] inline int old() { return 0; }\n\g<0>")
        edit("src/math/sum.cpp", "^module sum;",
             r"\g<0>\nimport number;\nint use() { return old(); }")
        self.generate(form)

    def test_the_source_of_the_module(self):
        """Without it a correct program fails, unless it is in the module file."""
        for status, said in ((1, "fatal error: cannot open file"),
                             (0, "[[deprecated]] inline int old()")):
            step = next(it for it in self.steps() if "obj/math/src/math/sum.cpp.o" in it.writes)
            found, printed, _ = self.sandbox(step)
            self.assertEqual((found, "'old' is deprecated" in printed, said in printed),
                             (status, True, True), printed)
            edit("build.ninja", r"^  command = (\$clang .*@\$out\.modmap)",
                 r"  command = \1 -Xclang -fmodules-embed-all-files")
            self.assertEqual(self.ninja()[0], 0, self.log)


del Sandboxed


class InMesonsBuild(Sandbox, meson.Builds):
    """The steps of a build that Meson configured. The sources are below the build directory."""
    tools = ["ninja", "clang", "scanner"]
    # the step of a group is in Python
    programs = [sys.prefix, f"{program.TOP}/adapters"]

    def setUp(self):
        super().setUp()
        self.find_bubblewrap()
        self.addCleanup(os.chdir, os.getcwd())
        self.addCleanup(os.environ.pop, "SOURCE_DATE_EPOCH", None)
        os.environ["SOURCE_DATE_EPOCH"] = "1"
        self.environment = meson.environment()
        self.tree = meson.Tree(self.room / "build/source", meson.TWO, self.compiler(), build="..")
        os.chdir(self.room / "build")
        self.builds()

    def dyndep_files(self):
        return Path("meson-dyncollate").rglob("modules.dd")

    def step(self, kind, output, command, source):
        """The step of a group also writes the target documents and the dyndep files of its
        libraries, and Python's cache."""
        found = super().step(kind, output, command, source)
        if kind == "link":
            # the archives of Meson name the objects, and do not contain them
            return found._replace(reads=found.reads | {*map(str, Path().glob("*.p/*.o"))})
        if "--group" not in command:
            return found
        documents = {it["document"] for it in json.loads(Path(source).read_text())["targets"]}
        cached = {str(it) for it in Path("meson-dyncollate/python").rglob("*.pyc")}
        return Step("group", command, found.reads - documents | {source},
                    found.writes | documents | cached | {output})

    def documents(self, name):
        members = json.loads(Path(name).read_text()).get("targets")
        return [it["document"] for it in members] if members else [name]

    def test_each_step(self):
        names = re.findall("^rule (.*)", self.tree.text(), re.M)
        rules = {"scan": [it for it in names if it.startswith("dyncollate_scan")],
                 "collate": ["dyncollate_group", "dyncollate_collate"], "link": ["cpp_LINKER"],
                 "compile": [it for it in names if it.startswith("cpp_COMPILER")],
                 "archive": ["STATIC_LINKER"]}
        kinds = [(step.kind, self.same(step)) for step in self.steps(**rules)]
        self.assertEqual([kind for kind, _ in kinds], ["scan"] * 3 + ["group", "collate"]
                         + ["compile"] * 3 + ["archive"] * 2 + ["link"])


class InMesonsBuildWithGcc(InMesonsBuild):
    form, tools = "gcc", ["ninja", "gcc", "clang", "scanner"]
    compiler, package = staticmethod(lambda: tool("gcc")), "g++-12"


@unittest.skipUnless(shutil.which("ccache"), "ccache: not there")
class Ccache(Directory):
    """ccache with a source that imports a module, which changes."""
    tools = ["ninja", "clang", "scanner"]

    def setUp(self):
        super().setUp()
        if " version 4.7" not in run("ccache", "--version")[1]:
            self.skipTest("ccache 4.7: not there")
        self.environment |= {"CCACHE_DIR": f"{os.getcwd()}/ccache"}
        Path("targets").write_text("program app main.cpp a.cppm\n")
        Path("main.cpp").write_text('import a;\nextern "C" int printf(const char *, ...);\n'
                                    'int main() { printf("%d\\n", number()); }\n')
        Path("a.cppm").write_text("export module a;\nexport constexpr int number() { return 1; }\n")
        self.generate("clang", "targets")

    def test_a_stale_object(self):
        """The object of the importer is the old one."""
        edit("build.ninja", r"^  command = (\$clang .*@\$out\.modmap)", r"  command = ccache \1")
        self.makes("1")
        edit("a.cppm", "return 1", "return 2")
        self.makes("1")

    def test_the_files_of_the_map_in_the_key(self):
        """With the command of GUIDE the program is right,
        and an object that fits is taken from the cache."""
        command = re.search(r"^  command = CCACHE_EXTRAFILES=.*\n    .*\n",
                            (Path(program.TOP) / "docs/GUIDE.md").read_text(), re.M)[0]
        edit("build.ninja", r"^  command = \$clang .*@\$out\.modmap.*\n.*\n",
             command.replace("\\", r"\\"))
        for number, hits in (1, 0), (2, 0), (1, 1):
            edit("a.cppm", r"return \d", f"return {number}")
            self.makes(str(number))
            counted = run("ccache", "--print-stats", env=self.environment)[1]
            self.assertEqual(int(re.search(r"^direct_cache_hit\t(\d+)$", counted, re.M)[1]), hits)

if __name__ == "__main__":
    unittest.main()
