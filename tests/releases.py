"""The version, and the archive and the wheel that ./release makes."""
import gzip
import hashlib
import json
import os
import re
import shlex
import shutil
import sys
import tarfile
import tempfile
import time
import unittest
import zipfile
from pathlib import Path

from tests import embedded, program, web
from tests.run import output_of, run, run_apart
from tests.tools import tool

NEEDS_LIBRARY = True

TOP = Path(program.TOP)
VERSION = (TOP / "VERSION").read_text().strip()
NAME = f"dyncollate-{VERSION}-linux-x86_64"
WHEEL = f"dyncollate-{VERSION}-py3-none-manylinux_2_17_x86_64.manylinux2014_x86_64.whl"
PACKAGE, SUMS = f"dyncollate-{VERSION}.tgz", f"dyncollate-{VERSION}-SHA256SUMS"
MADE = sorted([f"{NAME}.tar.gz", WHEEL, PACKAGE, SUMS, f"dyncollate-{VERSION}.html"])
# the files that ./release takes from the commit, and the files that it needs itself
SOURCES = ["CHANGELOG.md", "VERSION", "adapters", "completions", "explain", "docs/GUIDE.md",
           "docs/FORMATS.md", *(f"docs/{it.name}" for it in sorted((TOP / "docs").glob("*.[13]"))),
           "docs/project.schema.json", "docs/target.schema.json", "examples", "include", "install",
           "python"]
TOOLS = [".gitignore", "ARCHIVE.md", "README.md", "build", "building", "cross", "crates.txt",
         "release", "web"]
# what ./build and ./build library make, by the directory where they leave it
BUILT = {"dyncollate": {"dyncollate": program.PROGRAM},
         "c_library": {"libdyncollate.a": embedded.STATIC, "libdyncollate.so.1": embedded.SHARED}}
PAGE = "the page that web/make makes"
# the module that web/build makes, if it is there
WASM = web.WASM.read_bytes() if web.WASM.exists() else b"the module"
# the files of the JavaScript package, and what they are in the sources
JAVASCRIPT = {"README.md": "package.md", "dyncollate.d.mts": "dyncollate.d.mts",
              "dyncollate.mjs": "dyncollate.mjs", "dyncollate.wasm": "out/dyncollate.wasm",
              "package.json": "package.json"}
EXAMPLE = "ninja_dyndep_version = 1\nbuild obj/b.o | mod/B.bmi: dyndep\n  restat = 1\n"
# what examples/embed/collate.c does
BY_MODULE = """
import dyncollate, sys
document, *files = [open(name, "rb").read() for name in sys.argv[1:]]
for name, text in dyncollate.collate(document, dict(zip(sys.argv[2:], files))).items():
    print(f"==> {name} <==\\n{text.decode()}", end="")
"""
HELLO = ("ninja_dyndep_version = 1\nbuild obj/main.o: dyndep | bmi/greet.pcm\n"
         "build obj/greet.o | bmi/greet.pcm: dyndep | bmi/words.pcm\n  restat = 1\n"
         "build obj/words.o | bmi/words.pcm: dyndep\n  restat = 1\n")


# without what git tells a hook of the repository that it is called in
ENVIRONMENT = {name: text for name, text in os.environ.items() if not name.startswith("GIT_")}


def call(*words, env=None, **given):
    """The status of a command, and what it prints on both outputs."""
    return run_apart(*words, env=env or ENVIRONMENT, **given)


def git(*words, cwd=TOP):
    return output_of("git", "-c", "user.name=a", "-c", "user.email=a@example.com", *words, cwd=cwd,
                     env=ENVIRONMENT)


def is_clone():
    return (bool(shutil.which("git"))
            and call("git", "-C", TOP, "rev-parse", "--show-toplevel")[1] == f"{TOP}\n")


# the functions of the library, by the version that they are new in
ADDED = {"1.1.0": "collate project one effect order show statements", "1.2.0": "version"}


def numbers_of(version):
    return tuple(map(int, version.split(".")))


class Version(unittest.TestCase):
    def test_form(self):
        self.assertRegex((TOP / "VERSION").read_text(), r"\A(0|[1-9]\d*)(\.(0|[1-9]\d*)){2}\n\Z")

    def test_changelog(self):
        """The changelog begins with this version, which has a day once it is released,
        as each earlier one has."""
        found = re.findall(r"^## (.*)$", (TOP / "CHANGELOG.md").read_text(), re.M)
        day = r"\d{4}-\d\d-\d\d"
        self.assertRegex(
            found[0],
            rf"\A\[{re.escape(VERSION)}\] - ({day if self.tags() else f'not released|{day}'})\Z")
        for heading in found[1:]:
            self.assertRegex(heading, rf"\A\[\d+\.\d+\.\d+\] - {day}\Z")
        versions = [numbers_of(it[1:it.index("]")]) for it in found]
        self.assertEqual(versions, sorted(set(versions), reverse=True))

    def test_manual(self):
        for page in (TOP / "docs").glob("*.[13]"):
            self.assertIn(f"\n.Os dyncollate {VERSION}\n", page.read_text(), page)

    def test_library(self):
        """The number in the header and in the export is that of the version."""
        major, minor, patch = numbers_of(VERSION)
        number = 10000 * major + 100 * minor + patch
        self.assertIn(f"\n#define DYNCOLLATE_VERSION {number}\n",
                      (TOP / "include/dyncollate.h").read_text())
        self.assertRegex((TOP / "crates/c_library/src/lib.rt").read_text(),
                         rf"dyncollate_version\(\) -> u32\n.*\n{{\n    {number}\n}}")

    def test_packages(self):
        self.assertIn(f'\n__version__ = "{VERSION}"\n',
                      (TOP / "python/dyncollate/__init__.py").read_text())
        self.assertEqual(json.loads((TOP / "web/package.json").read_text())["version"], VERSION)

    def tags(self):
        """The tags of versions that this commit has."""
        return git("tag", "--points-at", "HEAD", "--list", "v[0-9]*").split() if is_clone() else []

    def test_tag(self):
        if not is_clone():
            self.skipTest("this is no clone")
        self.assertIn(self.tags(), ([], [f"v{VERSION}"]))

    def test_functions(self):
        """This version is at least the one that each function of the header is new in."""
        self.assertEqual({it for names in ADDED.values() for it in names.split()}, {*re.findall(
            r"^\w+ dyncollate_(\w+)\(", (TOP / "include/dyncollate.h").read_text(), re.M)})
        self.assertLessEqual(max(map(numbers_of, ADDED)), numbers_of(VERSION))

    @embedded.needs_tools("readelf")
    def test_shared_object(self):
        """What `./build library` made has each of these functions, and returns this version."""
        if not os.path.exists(embedded.SHARED):
            self.skipTest("there is no library; ./build library makes it")
        shown = output_of("readelf", "-W", "--dyn-syms", embedded.SHARED)
        self.assertEqual(set(re.findall(r" FUNC .* dyncollate_(\w+)@@DYNCOLLATE_1\n", shown)),
                         {it for names in ADDED.values() for it in names.split()})
        self.assertEqual(embedded.module().version(), VERSION)


class Released(unittest.TestCase):
    """A test of the archive of a clone that has the files of this one,
    its program and its library."""
    seconds = 5

    @classmethod
    def setUpClass(cls):
        super().setUpClass()
        for tool in "readelf", "rt", "strip":
            if not shutil.which(tool):
                raise unittest.SkipTest(f"{tool} is missing")
        if not is_clone():
            raise unittest.SkipTest("this is no clone")
        folder = tempfile.TemporaryDirectory(prefix="dyncollate-")
        cls.addClassCleanup(folder.cleanup)
        cls.room = Path(folder.name)
        cls.clone = cls.room / "clone"
        for name in git("ls-files", *SOURCES, *TOOLS).splitlines():
            (cls.clone / name).parent.mkdir(parents=True, exist_ok=True)
            shutil.copy2(TOP / name, cls.clone / name)
        git("init", "-q", cwd=cls.clone)
        git("add", ".", cwd=cls.clone)
        git("commit", "-qm", "all", cwd=cls.clone)
        cls.build(cls.clone)
        cls.made = cls.release()
        cls.archive = cls.clone / f"{NAME}.tar.gz"
        cls.home = cls.room / NAME
        if cls.archive.exists():
            with tarfile.open(cls.archive) as tar:
                tar.extractall(cls.room)

    @staticmethod
    def build(clone, built=None, below=""):
        """The program and the library are there as ./build leaves them."""
        toolchain = call("rt", "version")[1]
        outs = {clone / f"crates/{crate}/out{below}": files
                for crate, files in (built or BUILT).items()}
        for out, files in outs.items():
            out.mkdir(parents=True)
            for name, file in files.items():
                shutil.copy2(file, out / name)
        time.sleep(0.02)
        for out in outs:
            (out / "built").write_bytes(b"crates.txt\0")
            (out / "digest").write_text(toolchain)
        (clone / "web/out").mkdir(exist_ok=True)
        (clone / "web/out/dyncollate.html").write_text(PAGE)
        (clone / "web/out/dyncollate.wasm").write_bytes(WASM)

    @classmethod
    def release(cls, *words, clone=None, processor="x86_64", **environment):
        clone = clone or cls.clone
        return call("./release", *[processor] * bool(processor), *words, cwd=clone,
                    env=ENVIRONMENT | environment)

    def in_memory(self, prefix, folder, targets):
        """A C program that pkg-config finds the library for makes of each target what the program
        wrote, and so does the Python module with the shared object that is installed."""
        environment = (ENVIRONMENT | {"PKG_CONFIG_PATH": f"{prefix}/lib/pkgconfig",
                                      "LD_LIBRARY_PATH": f"{prefix}/lib",
                                      "PYTHONPATH": str(self.home / "python")})
        self.assertEqual(call("pkg-config", "--modversion", "dyncollate", env=environment),
                         (0, f"{VERSION}\n", ""))
        flags = shlex.split(call("pkg-config", "--cflags", "--libs", "dyncollate",
                                 env=environment)[1])
        collate = self.room / f"collate of {folder.name}"
        self.assertEqual(call("gcc", self.home / "examples/embed/collate.c", *flags, "-o", collate),
                         (0, "", ""))
        for name in targets:
            text = json.loads((folder / name).read_text())
            read = [*text["scans"], *text.get("linked", [])]
            objects = [rule["primary-output"] for it in text["scans"]
                       for rule in json.loads((folder / it).read_text())["rules"]]
            made = [*(f"{it}.modmap" for it in objects), text["info"], text["dyndep"]]
            wanted = "".join(f"==> {it} <==\n{(folder / it).read_text()}" for it in made)
            self.assertEqual(call(collate, name, *read, cwd=folder, env=environment),
                             (0, wanted, ""), name)
            self.assertEqual(call(sys.executable, "-c", BY_MODULE, name, *read, cwd=folder,
                                  env=environment), (0, wanted, ""), name)


@embedded.needs_library
class Archive(Released):
    def test_made(self):
        self.assertEqual(self.made, (0, "".join(f"{it}\n" for it in MADE), ""))
        self.assertEqual((self.clone / f"dyncollate-{VERSION}.html").read_text(), PAGE)
        self.assertEqual(sorted(it.name for it in self.clone.glob("dyncollate-*")), MADE)

    def test_sums_of_all_that_is_made(self):
        """The file has the sum of each file next to it."""
        sums = "".join(f"{hashlib.sha256((self.clone / it).read_bytes()).hexdigest()}  {it}\n"
                       for it in MADE if it != SUMS)
        self.assertEqual((self.clone / SUMS).read_text(), sums)
        self.assertEqual(call("sha256sum", "--check", "--strict", "--quiet", SUMS, cwd=self.clone),
                         (0, "", ""))

    def test_javascript(self):
        """The package has the module and its types, also in the archive. npm installs it, and the
        example in its README works."""
        with tarfile.open(self.clone / PACKAGE) as tar:
            files = {it.name: tar.extractfile(it).read() for it in tar.getmembers() if it.isfile()}
        wanted = {name: (self.clone / "web" / source).read_bytes()
                  for name, source in JAVASCRIPT.items()}
        self.assertEqual(files, {f"package/{name}": data for name, data in wanted.items()})
        self.assertEqual({it.name: it.read_bytes() for it in (self.home / "javascript").iterdir()},
                         wanted)
        listed = json.loads(wanted["package.json"])
        self.assertEqual({listed["types"], *listed["exports"]["."].values(),
                          listed["exports"]["./dyncollate.wasm"]},
                         {f"./{it}" for it in wanted if it not in ("README.md", "package.json")})
        if not (web.WASM.exists() and shutil.which("npm") and shutil.which("node")):
            self.skipTest("there is no WebAssembly module, or no npm; web/build makes the module")
        folder = self.room / "uses it"
        folder.mkdir()
        (folder / "package.json").write_text("{}")
        status, printed = run("npm", "install", "--offline", "--no-audit", "--no-fund",
                              self.clone / PACKAGE, cwd=folder, env=ENVIRONMENT)
        self.assertEqual(status, 0, printed)
        example = re.search(r"```js\n(.*?)```\n", wanted["README.md"].decode(), re.S)[1]
        (folder / "a.mjs").write_text('const document = "{}", scan = "", info = "";\n' + example)
        line = "dyncollate: target: S2 BadVersion document { document: 'target', code: 'S2' }\n"
        self.assertEqual(call("node", "a.mjs", cwd=folder), (0, "", line))

    def test_twice_it_has_the_same_bytes(self):
        """Also from another clone of the commit, in another place,
        whose files are of other times and rights."""
        before = self.archive.read_bytes()
        other = self.room / "another" / "place"
        git("clone", "-q", self.clone, other)
        for path in other.rglob("*"):
            if ".git" not in path.parts:
                path.chmod(path.stat().st_mode & 0o700)
        self.build(other)
        self.assertEqual(self.release(clone=other, LANG="tr_TR.UTF-8", TZ="Asia/Kolkata")[0], 0)
        self.assertEqual(self.archive.read_bytes(), before)
        for name in MADE:
            self.assertEqual((other / name).read_bytes(), (self.clone / name).read_bytes(), name)

    def test_members(self):
        """What is in it: nothing of the machine, the user or the time when it was made."""
        committed = int(git("log", "-1", "--format=%ct", cwd=self.clone))
        with tarfile.open(self.archive) as tar:
            members = tar.getmembers()
        wanted = (git("ls-files", *SOURCES, cwd=self.clone).splitlines()
                  + ["PROVED.txt", "README.md", "SHA256SUMS", "dyncollate.html"])
        wanted += [f"javascript/{it}" for it in JAVASCRIPT]
        wanted += [name for files in BUILT.values() for name in files]
        self.assertEqual(sorted(it.name for it in members if it.isfile()),
                         sorted(f"{NAME}/{it}" for it in wanted))
        self.assertEqual([it.name for it in members], sorted(it.name for it in members))
        self.assertEqual({(it.uid, it.gid, it.uname, it.gname, it.mtime) for it in members},
                         {(0, 0, "", "", committed)})
        self.assertEqual({it.mode for it in members}, {0o644, 0o755})
        with open(self.archive, "rb") as file:
            self.assertEqual(file.read(8)[3:], bytes(5),
                             "neither a name nor a time in the head of gzip")
        self.assertNotIn(os.fsencode(self.room), gzip.decompress(self.archive.read_bytes()))

    def test_wheel(self):
        """It has the library of the archive."""
        with zipfile.ZipFile(self.clone / WHEEL) as wheel:
            self.assertEqual(wheel.read("dyncollate/libdyncollate.so.1"),
                             (self.home / "libdyncollate.so.1").read_bytes())

    def test_readme(self):
        """It has the example as the program prints it, and a user of the archive proves nothing."""
        text = (self.home / "README.md").read_text()
        begins = (TOP / "README.md").read_text().partition("**From the sources**")[0]
        self.assertEqual(text, begins + (TOP / "ARCHIVE.md").read_text())
        self.assertIn(f"```\n{EXAMPLE}```\n", text)
        self.assertNotRegex(text.replace("PROVED.txt", ""), r"(?i)pro(?:of|ve)|\brt\b")

    def test_links(self):
        """No page of the archive links to a file that is not in it."""
        pages = sorted(self.home.rglob("*.md"))
        self.assertTrue(pages)
        for page in pages:
            for name in re.findall(r"\]\((?!https?:|#)([^)#]+)", page.read_text()):
                with self.subTest(page.name, name=name):
                    self.assertTrue((page.parent / name).exists())

    def test_checksums(self):
        sums = dict(reversed(line.split("  ", 1))
                    for line in (self.home / "SHA256SUMS").read_text().splitlines())
        files = {str(it.relative_to(self.home)): it for it in self.home.rglob("*")
                 if it.is_file() and it.name != "SHA256SUMS"}
        self.assertEqual(sums, {name: hashlib.sha256(it.read_bytes()).hexdigest()
                                for name, it in files.items()})

    def test_what_was_proved(self):
        """PROVED.txt names the commit and the toolchain,
        and without results it says nothing about the gate."""
        text = (self.home / "PROVED.txt").read_text()
        self.assertIn(
            f"dyncollate {VERSION}, of commit {git('rev-parse', 'HEAD', cwd=self.clone).strip()}\n",
            text)
        self.assertIn(call("rt", "version")[1].strip(), text)
        self.assertIn("No results of ./test were given", text)
        self.assertNotIn("passed", text)

    def test_sums(self):
        """PROVED.txt has the sums of what ./build makes, which is not yet without symbols."""
        text = (self.home / "PROVED.txt").read_text()
        self.assertIn("\n./build and ./build library made files of these sums", text)
        found = re.findall(r"^([0-9a-f]{64})  (\S+)$", text, re.M)
        made = [(f"crates/{crate}/out/{name}", Path(file).read_bytes())
                for crate, files in BUILT.items() for name, file in files.items()]
        made += [("web/out/dyncollate.html", PAGE.encode()), ("web/out/dyncollate.wasm", WASM)]
        self.assertEqual(found, [(hashlib.sha256(data).hexdigest(), name) for name, data in made])
        self.assertIn(
            "\nThe page dyncollate.html and the module javascript/dyncollate.wasm were made from "
            "the library by\nweb/make. This step is not proved:\n", text)

    @embedded.needs_tools("aarch64-linux-gnu-gcc", "aarch64-linux-gnu-strip")
    def test_for_arm(self):
        """Without a processor, there is an archive for each. Here a program that does nothing is in
        place of the one for ARM."""
        clone, made = self.room / "both", self.room / "of arm"
        made.mkdir()
        (made / "dyncollate.c").write_text("int main(void) { return 0; }\n")
        cc = "aarch64-linux-gnu-gcc"
        for name, words in ({"dyncollate": [], "libdyncollate.so.1": ["-shared", "-fPIC"],
                             "libdyncollate.a": ["-c"]}.items()):
            self.assertEqual(call(cc, *words, made / "dyncollate.c", "-o", made / name),
                             (0, "", ""))
        git("clone", "-q", self.clone, clone)
        self.build(clone)
        built = {crate: {name: made / name for name in files} for crate, files in BUILT.items()}
        self.build(clone, built, "/aarch64")
        name = f"dyncollate-{VERSION}-linux-aarch64"
        names = sorted([*MADE, f"{name}.tar.gz", WHEEL.replace("x86_64", "aarch64")])
        self.assertEqual(self.release(clone=clone, processor=""),
                         (0, "".join(f"{it}\n" for it in names), ""))
        self.assertEqual((clone / f"{NAME}.tar.gz").read_bytes(), self.archive.read_bytes())
        with tarfile.open(clone / f"{name}.tar.gz") as tar, tarfile.open(self.archive) as other:
            self.assertEqual([it.replace(name, NAME) for it in tar.getnames()], other.getnames())
            for file in "dyncollate", "libdyncollate.so.1":
                # (of an ELF file, the processor: 183 is ARM64)
                self.assertEqual(tar.extractfile(f"{name}/{file}").read()[18:20], bytes([183, 0]),
                                 file)
            text = tar.extractfile(f"{name}/PROVED.txt").read().decode()
        self.assertIn("\n./build aarch64 and ./build library aarch64 made files of these sums",
                      text)
        for crate, files in built.items():
            for file, path in files.items():
                self.assertIn(f"\n{hashlib.sha256(path.read_bytes()).hexdigest()}  "
                              f"crates/{crate}/out/aarch64/{file}\n", text)

    def test_results(self):
        """PROVED.txt quotes what ./test has written,
        if that is of this commit and all tests passed."""
        gate = (
            "rt: ok; handles allowed: none; must-fail edits: 3 refused; every proof and must-fail "
            "edit was done in this run")
        good = {"commit": git("rev-parse", "HEAD", cwd=self.clone).strip(),
                "gate": [gate, "7 passed, 0 failed"], "passed": 9, "failed": 0,
                "skipped": {"tests.builds.Single.test_x": "ninja-build: not there"}}
        file = self.room / "test.json"
        for wrong, line in ([(good | {"commit": "0" * 40}, f"is not of commit {good['commit']}"),
                             (good | {"commit": None}, "is not of commit"),
                             (good | {"gate": []}, "says that not all tests passed"),
                             (good | {"failed": 1}, "says that not all tests passed"),
                             ({}, "is not a file that ./test has written"),
                             ([], "is not a file that ./test has written")]):
            file.write_text(json.dumps(wrong))
            status, out, err = self.release(str(file))
            self.assertEqual((status, out, err.count("\n")), (1, "", 1), err)
            self.assertTrue(err.startswith(f"release: {file} {line}"), err)
        file.write_text(json.dumps(good)[:-1])
        self.assertEqual(self.release(str(file)),
                         (1, "", f"release: {file} is not a file that ./test has written\n"))
        self.assertEqual(self.release("none"), (1, "", "release: there is no file none\n"))
        file.write_text(json.dumps(good))
        folder = self.room / "tested"
        folder.mkdir()
        self.assertEqual(call(self.clone / "release", "x86_64", file, cwd=folder),
                         (0, "".join(f"{it}\n" for it in MADE), ""))
        with tarfile.open(folder / f"{NAME}.tar.gz") as tar:
            text = tar.extractfile(f"{NAME}/PROVED.txt").read().decode()
        self.assertIn(f"\n    {gate}\n    7 passed, 0 failed\n    9 passed, 0 failed, 1 skipped\n",
                      text)

    def test_what_is_rejected(self):
        for change in lambda: (self.clone / "VERSION").write_text("9.9.9\n"), lambda: (
                self.clone / "further").write_text(""):
            change()
            self.assertEqual(self.release(),
                             (1, "", "release: the tree is not that of its commit (git status)\n"))
            git("checkout", "-q", "VERSION", cwd=self.clone)
            (self.clone / "further").unlink(missing_ok=True)
        self.assertEqual(self.release("a", "b")[0], 2)

    def test_sources_that_changed_since_the_program_was_built(self):
        """The library and the program are built first; here the toolchain for that is missing."""
        clone = self.room / "changed"
        git("clone", "-q", self.clone, clone)
        self.build(clone)
        time.sleep(0.02)
        os.utime(clone / "crates.txt")
        # rt is there, but no toolchain for it
        (self.room / "bin").mkdir()
        (self.room / "bin/rt").write_text("#!/bin/sh\nexit 1\n")
        (self.room / "bin/rt").chmod(0o755)
        status, out, err = self.release(clone=clone, PATH=f"{self.room}/bin:{ENVIRONMENT['PATH']}")
        self.assertEqual((status, out, err.splitlines()[-1]),
                         (3, "", "release: the library is not built, so it cannot be released"))

    def test_another_toolchain_than_that_of_the_program(self):
        """It is not the one that proved it."""
        clone, kit = self.room / "older", self.room / "kit"
        git("clone", "-q", self.clone, clone)
        self.build(clone)
        (kit / "bin").mkdir(parents=True)
        (kit / "bin/rt").write_text("#!/bin/sh\necho another kit\n")
        (kit / "bin/rt").chmod(0o755)
        status, out, err = self.release(clone=clone, PATH=f"{kit}/bin:{ENVIRONMENT['PATH']}")
        self.assertEqual((status, out), (1, ""))
        self.assertRegex(
            err, r"\Arelease: another toolchain has proved what is in crates/dyncollate/out: ")

    def test_in_an_empty_root(self):
        """With only the C library, the program prints the example of README, and collates."""
        as_root = [] if os.getuid() == 0 else ["unshare", "-r"]
        if call(*as_root, "chroot", "/", "true")[0]:
            self.skipTest("chroot is not allowed")
        root = self.room / "root"
        shutil.copytree(self.home, root)
        files = re.findall(r"(?:=> )?(/\S+) \(0x", call("ldd", root / "dyncollate")[1])
        self.assertEqual({os.path.basename(it) for it in files},
                         {"libc.so.6", "ld-linux-x86-64.so.2"})
        for file in files:
            (root / file[1:]).parent.mkdir(parents=True, exist_ok=True)
            shutil.copy(file, root / file[1:])
        self.assertEqual(call(*as_root, "chroot", root, "./dyncollate", "one", "examples/b.ddi",
                              "mod", ".bmi"), (0, EXAMPLE, ""))
        (root / "app.target.json").write_text(
            '{"version":1,"target":"app","module-dir":"bmi","module-ext":".pcm",'
            '"scans":["examples/hello/app.ddi"],'
            '"dyndep":"app.dd","info":"app.info.json","map":"clang"}')
        (root / "obj").mkdir()
        before = set(root.rglob("*"))
        self.assertEqual(call(*as_root, "chroot", root, "./dyncollate", "collate",
                              "app.target.json"), (0, "", ""))
        made = {str(it.relative_to(root)): it.read_text() for it in set(root.rglob("*")) - before}
        self.assertEqual(sorted(made),
                         ["app.dd", "app.info.json",
                          *(f"obj/{it}.o.modmap" for it in ("greet", "main", "words"))])
        self.assertEqual(made["app.dd"], HELLO)
        self.assertEqual(made["obj/main.o.modmap"],
                         "-fmodule-file=greet=bmi/greet.pcm\n-fmodule-file=words=bmi/words.pcm\n")

    def test_a_build(self):
        """The archive's generator writes the manifest, and Ninja calls the archive's program."""
        names = {"CLANG": tool("clang"), "SCANNER": tool("scanner"),
                 "DYNCOLLATE": str(self.home / "dyncollate")}
        if not (tool("ninja") and all(names.values())):
            self.skipTest("ninja-build, clang-19 or clang-tools-19: not there")
        folder = self.room / "build"
        shutil.copytree(self.home / "examples/libs", folder)
        output_of(self.home / "examples/generate", "clang", input=(folder / "targets").read_bytes(),
                  cwd=folder, env=ENVIRONMENT | names)
        self.assertEqual(call(tool("ninja"), cwd=folder)[0], 0)
        self.assertEqual(call(folder / "app"), (0, "42\n", ""))
        if shutil.which("gcc") and shutil.which("pkg-config"):
            self.assertEqual(call(self.home / "install", self.room / "of the build")[0], 0)
            self.in_memory(self.room / "of the build", folder,
                           [f"dd/{name}.target.json" for name in ("base", "math", "app")])
