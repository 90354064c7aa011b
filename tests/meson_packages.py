"""Packages of Debian that Meson builds: as they are, and with a module that a patch in
`data/packages` adds.

    PACKAGES=DIRECTORY python3 -m unittest tests.meson_packages

The sources are in DIRECTORY, into which `apt-get source` downloads what is missing. Without the
variable, the tests are skipped.
"""
import os
import tarfile
from pathlib import Path

from tests.cmake import NINJA, TOP, put
from tests.meson import Builds, Tree
from tests.run import output_of, run
from tests.tools import tool

PACKAGES = os.environ.get("PACKAGES")
PATCHES = TOP / "tests/data/packages"


def sources(package):
    """Returns the archive of a package, or None."""
    found = Path(PACKAGES).glob(f"{package}_*.orig.tar.*z")
    return next(iter([*found] or download(package)), None)


def download(package):
    """Downloads a package of the release that this system is, with lists of our own."""
    folder = Path(PACKAGES).resolve()
    release = Path("/etc/os-release").read_text().partition("VERSION_CODENAME=")[2].split()[0]
    names = ["apt-get", "indextargets", "--format", "$(CODENAME) $(REPO_URI)",
             "Created-By: Packages"]
    mirror = dict(it.split() for it in reversed(output_of(*names).splitlines()))[release]
    put(folder / "apt/sources.list", f"deb-src {mirror} {release} main\n")
    (folder / "apt/lists/partial").mkdir(parents=True, exist_ok=True)
    options = {"Dir::Etc::sourcelist": folder / "apt/sources.list", "Dir::State::lists":
               folder / "apt/lists", "Dir::Cache": folder / "apt", "Dir::Etc::sourceparts": "-"}
    command = ["apt-get", "-qq", *(f"-o{name}={it}" for name, it in options.items())]
    for words in ["update"], ["source", "--download-only", package]:
        run(*command, *words, cwd=folder)
    return [*folder.glob(f"{package}_*.orig.tar.*z")]


class Package:
    """A package: its library's options, and the object of the source that the patch adds."""
    options, added = [], "module.cpp"

    def setUp(self):
        if not PACKAGES:
            self.skipTest("PACKAGES names no directory")
        super().setUp()
        archive = sources(self.name)
        if not archive:
            self.skipTest(f"{self.name}: cannot be downloaded")
        with tarfile.open(archive) as file:
            file.extractall(self.room)
        self.top, = self.room.iterdir()

    def set_up(self, **more):
        options = ["--default-library=static", "-Dcpp_std=c++20", "-Dbuildtype=plain"]
        self.tree = Tree(self.top, {}, self.compiler(), *options, *self.options, **more)

    def test_as_it_is(self):
        """The Ninja file differs from Meson's only in the line in which Meson names its Ninja."""
        self.set_up(NINJA=tool("ninja"))
        before = self.tree.text()
        self.tree.setup("--reconfigure")
        self.assertEqual(self.tree.text().replace(NINJA, tool("ninja")), before)

    def test_with_a_module(self):
        output_of("patch", "-p1", "-i", PATCHES / f"{self.name}.patch", cwd=self.top)
        self.set_up()
        self.assertTrue(self.tree.adopted(), self.tree.log)
        self.builds()
        self.assertEqual(run(self.tree.build / "use"), (42, ""))
        name, = self.top.rglob("module.cpp")
        put(name, name.read_text().replace("answer() {", "answer() { return 1;"))
        self.builds(self.added, self.user)
        self.tree.ninja("test")
        self.assertEqual(self.tree.status, 0, self.tree.log)


class JsonCpp(Package, Builds):
    name, added, user = "libjsoncpp", "src_lib_json_module.cpp", "src_use.cpp"
    # its own tests are not C++20
    options = ["-Dtests=false"]


class TinyXml(Package, Builds):
    name, user = "tinyxml2", "use.cpp"


class HttpLib(Package, Builds):
    """Its header is made by the build. GCC 15 rejects inline functions of OpenSSL in a module."""
    name, user = "cpp-httplib", "use.cpp"
    options = ["-Dcpp-httplib_compile=true", "-Db_lto=false", "-Dcpp-httplib_openssl=disabled"]


class WithGcc:
    compiler, package = staticmethod(lambda: tool("gcc")), "g++-12"


class JsonCppWithGcc(WithGcc, JsonCpp):
    pass


class TinyXmlWithGcc(WithGcc, TinyXml):
    pass


class HttpLibWithGcc(WithGcc, HttpLib):
    pass
