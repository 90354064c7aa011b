"""The wheels and the source distribution of the Python package, which are installed in a virtual
environment, and its metadata."""
import email
import os
import re
import shutil
import sys
import tarfile
import zipfile
from pathlib import Path

from tests import embedded
from tests.program import TOP
from tests.python_package import DYNDEP, SCAN
from tests.run import InRoom, run, run_apart

NEEDS_LIBRARY = True

# the files of the package
PACKAGED = ["__init__.py", "__main__.py", "_commands.py", "_errors.py", "_library.py", "py.typed"]
VERSION = Path(TOP, "VERSION").read_text().strip()


@embedded.needs_library
class Installed(InRoom):
    """Wheels in a virtual environment, which nothing is downloaded for."""
    seconds = 15

    def setUp(self):
        super().setUp()
        self.environment = {name: text for name, text in os.environ.items()
                            if name not in ("DYNCOLLATE_LIBRARY", "PYTHONPATH")}

    def call(self, *words, cwd=None, **more):
        return run_apart(*words, cwd=cwd or self.room, env=self.environment | more)

    def wheel(self, *words):
        return self.call(sys.executable, f"{embedded.PACKAGE}/wheels.py", *words)

    def copy_sources(self):
        ignored = shutil.ignore_patterns("__pycache__")
        shutil.copytree(embedded.PACKAGE, self.room / "python", ignore=ignored)

    def install(self, *things):
        """The Python of a virtual environment in which this is installed,
        in place of what was there."""
        python = self.room / "venv/bin/python"
        if not python.exists() and self.call(sys.executable, "-m", "venv", "venv")[0]:
            self.skipTest("python3-venv: not there")
        words = ["--quiet", "--no-index", "--disable-pip-version-check", "--no-cache-dir",
                 "--force-reinstall"]
        self.assertEqual(self.call(python, "-m", "pip", "install", *words, *things), (0, "", ""))
        return python

    def says(self, python, expression, **more):
        return self.call(python, "-c", f"import dyncollate; print({expression})", **more)

    @embedded.needs_tools("readelf")
    def test_wheel(self):
        """It has the library and its types, and works with no other library. Then the sources are
        installed in its place."""
        status, name, err = self.wheel(embedded.SHARED, "x86_64")
        wanted = f"dyncollate-{VERSION}-py3-none-manylinux_2_17_x86_64.manylinux2014_x86_64.whl\n"
        self.assertEqual((status, name, err), (0, wanted, ""))
        python = self.install(self.room / name.strip())
        self.assertEqual(self.says(python, f"dyncollate.one({SCAN!r}, 'mod', '.bmi').decode()",
                                   LD_LIBRARY_PATH=""),
                         (0, DYNDEP.decode() + "\n", ""))
        self.assertEqual(self.says(python, "dyncollate.version(), dyncollate.__version__"),
                         (0, f"{VERSION} {VERSION}\n", ""))
        home = Path(self.says(python, "dyncollate.__path__[0]")[1].strip())
        self.assertEqual(home.parts[:len(self.room.parts) + 1], (*self.room.parts, "venv"))
        self.assertEqual((home / "libdyncollate.so.1").read_bytes(),
                         Path(embedded.SHARED).read_bytes())
        self.assertTrue((home / "py.typed").exists())
        self.the_sources()

    def the_sources(self):
        """`pip install` of the directory installs no library:
        the package loads that of the system."""
        self.copy_sources()
        python = self.install("./python")
        home = Path(self.says(python, "dyncollate.__path__[0]")[1].strip())
        self.assertEqual(sorted(it.name for it in home.iterdir() if it.is_file()), PACKAGED)
        (self.room / "lib").mkdir()
        shutil.copy(embedded.SHARED, self.room / "lib")
        expression = f"dyncollate.one({SCAN!r}, 'mod', '.bmi').decode()"
        self.assertEqual(self.says(python, expression, LD_LIBRARY_PATH=str(self.room / "lib")),
                         (0, DYNDEP.decode() + "\n", ""))
        self.assertEqual(self.says(python, expression, DYNCOLLATE_LIBRARY=embedded.SHARED)[0], 0)

    def hook(self, name):
        """What a hook of PEP 517 or 660 makes, as a frontend calls it:
        from the directory of the sources."""
        call = f"import sys, wheels; print(wheels.{name}(sys.argv[1]))"
        words = sys.executable, "-B", "-c", call, self.room
        status, made, err = self.call(*words, cwd=embedded.PACKAGE)
        self.assertEqual((status, err), (0, ""))
        return self.room / made.strip()

    def test_sdist(self):
        """It has what a wheel is built from, twice the same bytes, and installs."""
        made = self.hook("build_sdist")
        self.assertEqual(made.name, f"dyncollate-{VERSION}.tar.gz")
        with tarfile.open(made) as tar:
            members = tar.getmembers()
            found = {it.name: tar.extractfile(it).read() for it in members}
        self.assertEqual({(it.mtime, it.uid, it.uname) for it in members}, {(0, 0, "")})
        names = ["README.md", "pyproject.toml", "wheels.py",
                 *(f"dyncollate/{it}" for it in PACKAGED)]
        home = Path(embedded.PACKAGE)
        described = found.pop(f"dyncollate-{VERSION}/PKG-INFO")
        self.assertEqual(found,
                         {f"dyncollate-{VERSION}/{it}": (home / it).read_bytes() for it in names})
        before = made.read_bytes()
        self.assertEqual(self.hook("build_sdist").read_bytes(), before)
        python = self.install(made)
        found = self.says(python, "dyncollate.version()", DYNCOLLATE_LIBRARY=embedded.SHARED)
        self.assertEqual(found, (0, f"{VERSION}\n", ""))
        script = ("from importlib import metadata as it; "
                  "print(it.distribution('dyncollate').read_text('METADATA'))")
        self.assertEqual(self.call(python, "-c", script), (0, f"{described.decode()}\n", ""))

    def test_metadata(self):
        """It is that of pyproject.toml, and names no licence."""
        with zipfile.ZipFile(self.hook("build_wheel")) as wheel:
            text = wheel.read(next(it for it in wheel.namelist()
                                   if it.endswith("/METADATA"))).decode()
        fields = email.message_from_string(text)
        found = [fields[it] for it in ("Name", "Version", "Requires-Python", "Keywords")]
        self.assertEqual(found,
                         ["dyncollate", VERSION, ">=3.9", "C++20,modules,ninja,dyndep,P1689"])
        project = Path(embedded.PACKAGE, "pyproject.toml").read_text()
        classifiers = re.findall('"(.*)"',
                                 re.search(r"^classifiers = \[(.*?)^\]", project, re.M | re.S)[1])
        self.assertEqual(fields.get_all("Classifier"), classifiers)
        self.assertIn("Private :: Do Not Upload", classifiers)
        self.assertEqual(fields.get_payload(), Path(embedded.PACKAGE, "README.md").read_text())
        self.assertNotRegex(text, "(?i)licen[cs]e")

    def test_editable(self):
        """`pip install -e`: a change of the sources is in effect at once."""
        self.copy_sources()
        python = self.install("-e", "./python")
        self.assertEqual(self.says(python, "dyncollate.version()",
                                   DYNCOLLATE_LIBRARY=embedded.SHARED)[0], 0)
        with open(self.room / "python/dyncollate/__init__.py", "a", encoding="utf-8") as file:
            file.write("changed = 7\n")
        self.assertEqual(self.says(python, "dyncollate.changed"), (0, "7\n", ""))

    def test_build(self):
        """`python -m build` makes both."""
        builder = shutil.which("pyproject-build")
        if not builder:
            self.skipTest("python3-build: not there")
        self.copy_sources()
        status, printed = run(builder, "--outdir", "made", "python", cwd=self.room,
                              env=self.environment)
        self.assertEqual(status, 0, printed)
        made = sorted(it.name for it in (self.room / "made").iterdir())
        self.assertEqual(made,
                         [f"dyncollate-{VERSION}-py3-none-any.whl", f"dyncollate-{VERSION}.tar.gz"])

    @embedded.needs_tools("readelf")
    def test_twice_it_has_the_same_bytes(self):
        (self.room / "other").mkdir()
        self.assertEqual(self.wheel(embedded.SHARED, "x86_64", "other")[0], 0)
        name = self.wheel(embedded.SHARED, "x86_64")[1].strip()
        self.assertEqual((self.room / name).read_bytes(), (self.room / "other" / name).read_bytes())
        with zipfile.ZipFile(self.room / name) as wheel:
            self.assertIsNone(wheel.testzip())
            self.assertEqual({it.date_time for it in wheel.infolist()}, {(1980, 1, 1, 0, 0, 0)})

    @embedded.needs_tools("aarch64-linux-gnu-gcc", "readelf")
    def test_another_processor(self):
        (self.room / "a.c").write_text("int a(void) { return 0; }\n")
        self.assertEqual(self.call("aarch64-linux-gnu-gcc", "-shared", "-nostdlib", "a.c", "-o",
                                   "a.so"), (0, "", ""))
        status, name, err = self.wheel("a.so", "aarch64")
        self.assertEqual((status, name.split("-py3-none-")[1:], err),
                         (0, ["manylinux_2_17_aarch64.manylinux2014_aarch64.whl\n"], ""))
        with zipfile.ZipFile(self.room / name.strip()) as wheel:
            self.assertEqual(wheel.read("dyncollate/libdyncollate.so.1"),
                             (self.room / "a.so").read_bytes())
            tags = re.findall("^Tag: (.*)$", wheel.read(next(it for it in wheel.namelist()
                                                             if it.endswith("/WHEEL"))).decode(),
                              re.M)
        self.assertEqual(tags,
                         ["py3-none-manylinux_2_17_aarch64", "py3-none-manylinux2014_aarch64"])

    @embedded.needs_tools("gcc", "readelf")
    def test_libraries_that_get_no_wheel(self):
        (self.room / "libc.c").write_text("void of_newer(void) {}\n")
        (self.room / "libc.map").write_text("GLIBC_2.18 { global: of_newer; };\n")
        (self.room / "new.c").write_text("void of_newer(void);\nvoid calls(void) { of_newer(); }\n")
        shared = "gcc", "-shared", "-fPIC", "-nostdlib"
        self.assertEqual(self.call(*shared, "libc.c", "-Wl,--version-script=libc.map", "-o",
                                   "libc.so"), (0, "", ""))
        self.assertEqual(self.call(*shared, "new.c", "libc.so", "-o", "new.so"), (0, "", ""))
        for words, line in ([
            (["new.so", "aarch64"], "new.so is not a shared object for aarch64"),
            (["new.so", "x86_64"], "new.so needs glibc 2.18, and the wheel may need 2.17 at most"),
            (["new.c", "x86_64"], "new.c is not a shared object for x86_64"),
            (["new.so", "riscv64"], "MACHINE is one of x86_64, aarch64, not riscv64"),
            (["none.so", "x86_64"], "[Errno 2] No such file or directory: 'none.so'"),
            (["new.so"], "usage: wheels.py LIBRARY MACHINE [DIRECTORY]")]):
            self.assertEqual(self.wheel(*words), (1, "", f"wheels.py: {line}\n"))
        self.assertEqual(list(self.room.glob("*.whl")), [])
