"""The tools of a build, which the environment may name: NINJA, CLANG, GCC, SCANNER, FUZZER."""
import functools
import os
import re
import shutil
import tempfile
from pathlib import Path
from unittest import mock

from tests.run import run


def makes_modules(command, folder):
    return not run(command,
                   *"-std=c++20 -x c++-module -fmodule-output=a.pcm -c a.cppm -o a.o".split(),
                   cwd=folder)[0]


def is_gcc(command, folder):
    Path(folder, "a.map").write_text("a a.gcm\n")
    return "clang" not in run(command, "--version")[1] and not run(
        command, *"-std=c++20 -fmodules-ts -fmodule-mapper=a.map -x c++ -c a.cppm -o a.o".split(),
        cwd=folder)[0]


def scans(command, folder):
    compiling = [tool("clang"), *"-std=c++20 -x c++-module -c a.cppm -o a.o".split()]
    return (bool(tool("clang")) and '"a"' in run(command, "-format=p1689", "--", *compiling,
                                                 cwd=folder)[1])


def fuzzes(command, folder):
    Path(folder, "fuzz.c").write_text(
        "int LLVMFuzzerTestOneInput(const char *at, long size) { return !at && size; }\n")
    return not run(command, "-fsanitize=fuzzer,address,undefined", "fuzz.c", "-o", "fuzz",
                   cwd=folder)[0]


def of_versions(name, *versions):
    return [f"{name}-{it}" for it in versions] + [name]


# The package of each tool, the names that it may have,
# and a function that checks whether a command works.
TOOLS = {
    "ninja": ("ninja-build", ["ninja", "ninja-build"], lambda command, _: True),
    "clang": ("clang-19", of_versions("clang++", 19, 18, 17, 16, 20, 21), makes_modules),
    "scanner": ("clang-tools-19", of_versions("clang-scan-deps", 19, 18, 17, 16, 20, 21), scans),
    "fuzzer": ("libclang-rt-19-dev", of_versions("clang", 19, 18, 17, 16, 15, 14, 20, 21), fuzzes),
    "gcc": ("g++-12", of_versions("g++", 12, 13, 14, 15, 11), is_gcc),
}


@functools.lru_cache(None)
def tool(name):
    """The path of a tool, or None."""
    _, names, does = TOOLS[name]
    given = os.environ.get(name.upper())
    with tempfile.TemporaryDirectory() as folder:
        Path(folder, "a.cppm").write_text("export module a;\n")
        found = map(shutil.which, [given] if given else names)
        return next((it for it in found if it and does(it, folder)), None)


@functools.lru_cache(None)
def version(name):
    """The version of a tool, as numbers that can be compared."""
    text = run(tool(name), "-dumpfullversion" if name == "gcc" else "--version")[1]
    return tuple(map(int, re.search(r"\d+(\.\d+)+", text)[0].split(".")))


def scans_by_itself(compiler):
    """Whether this is GCC 14 or newer, which needs no Clang."""
    return compiler == tool("gcc") and version("gcc") >= (14,)


def tools_of(form):
    """The tools of a build in this form of `generate`."""
    scanning = ([] if form == "gcc" and tool("gcc") and scans_by_itself(tool("gcc"))
                else ["clang", "scanner"])
    return ["ninja", *["gcc"] * (form == "gcc"), *scanning]


class WithoutClang:
    """A test in whose PATH is no Clang, for a GCC that scans by itself."""

    def setUp(self):
        # these are found before the PATH changes, because later tests get the same paths
        if not all(map(tool, ("gcc", "ninja"))) or not scans_by_itself(tool("gcc")):
            self.skipTest("g++-14 and ninja-build: not there")
        folder = tempfile.TemporaryDirectory(prefix="dyncollate-")
        self.addCleanup(folder.cleanup)
        for it in (it for top in os.environ["PATH"].split(":") for it in Path(top).glob("*")):
            link = Path(folder.name, it.name)
            if "clang" not in it.name and not os.path.lexists(link):
                link.symlink_to(it)
        kept = {name: text for name, text in os.environ.items() if name not in ("CLANG", "SCANNER")}
        hidden = mock.patch.dict(os.environ, {**kept, "PATH": folder.name}, clear=True)
        hidden.start()
        self.addCleanup(hidden.stop)
        super().setUp()
