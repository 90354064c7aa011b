"""CMake's own tests of C++ modules, by their driver and as they are, with `dyncollate-ninja` as the
program that CMake calls. tests/newer runs them in a system with newer tools:

    SUITE=sid tests/newer ROOT tests.cmake_suite

PACKAGES names a directory with the sources of the CMake that is tested, as `apt-get source` leaves
them. Without the variable, the tests are skipped.

CMake's step stays only in builds that write a build database. As in a preset that others use,
DYNCOLLATE_OPTIONAL allows that, and the tests check that every other build is adopted.
"""
import os
import re
import sys
import tarfile
from pathlib import Path

from tests.cmake import NINJA
from tests.cmake_builds import clang, cmake, environment, gcc
from tests.program import needs
from tests.run import InRoom, output_of, run

PACKAGES = os.environ.get("PACKAGES")
# What compilers and generators can do, by the names that the driver has for it.
FEATURES = ["named", "compile_commands", "collation", "partitions", "internal_partitions", "shared",
            "export_bmi", "install_bmi", "bmionly", "build_database"]
STD = "libstdc++.modules.json"
# Which builds keep CMake's step, and what `dyncollate-ninja` says of each run of them.
DATABASES = re.compile("builddb|CompileDatabase")
WARNING = "dyncollate-ninja: warning: CMake's step collates the modules of "
SECONDS = 3600


@needs("program")
class Suite(InRoom):
    generator = "Ninja"

    def setUp(self):
        if not PACKAGES:
            self.skipTest("PACKAGES names no directory")
        for found, name in (cmake(), "CMake 3.28 or newer"), (self.compiler(), self.package):
            if not found:
                self.skipTest(f"{name}: not there")
        super().setUp()
        version = re.search(r"[\d.]+", output_of(cmake(), "--version"))[0]
        archive, = Path(PACKAGES).glob(f"cmake_{version}.orig.tar.*z")
        with tarfile.open(archive) as file:
            file.extractall(self.room, [it for it in file if "/Tests/RunCMake/" in it.name])
        self.tests, = self.room.glob("*/Tests/RunCMake")

    def passes(self, name, variant=""):
        source, builds = self.tests / name, self.room / "builds"
        if not source.exists():
            self.skipTest("the tests of this version have other parts")
        features = FEATURES + ["import_std23"] * os.path.exists(
            output_of(self.compiler(), f"-print-file-name={STD}").strip())
        given = {"CMAKE_MODULE_PATH": self.tests, "RunCMake_SOURCE_DIR": source,
                 "RunCMake_BINARY_DIR": builds, "RunCMake_GENERATOR": self.generator,
                 "RunCMake_GENERATOR_IS_MULTI_CONFIG": int("Multi" in self.generator),
                 "RunCMake_MAKE_PROGRAM": NINJA, "CMake_TEST_MODULE_VARIANT": variant,
                 "CMake_TEST_MODULE_COMPILATION": ",".join(features),
                 "RunCMake_TEST_EXTRA_IGNORE_LINE_REGEX": f"|{WARNING}"}
        given = [f"-D{name}={value}" for name, value in given.items()]
        of_c = self.compiler().replace("clang++", "clang").replace("g++", "gcc")
        variables = environment(CXX=self.compiler(), CC=of_c, DYNCOLLATE_OPTIONAL="1",
                                CMAKE_BUILD_PARALLEL_LEVEL="2")
        builds.mkdir()
        status, log = run(cmake(), *given, "-P", source / "RunCMakeTest.cmake", env=variables,
                          cwd=builds, seconds=SECONDS)
        passed, failed = (re.findall(rf"^(?:-- |  )(.*) - {it}", log, re.M)
                          for it in ("PASSED", "FAILED"))
        adopted, others = self.kinds_of_builds(builds)
        print(f"{name} {variant}: {len(passed)} passed, {len(failed)} failed; {len(adopted)} "
              f"builds are adopted, and {', '.join(others) or 'none'} not", file=sys.stderr)
        self.assertEqual((status, failed), (0, []), log)
        self.assertTrue(passed and adopted)
        self.assertEqual([it for it in others if not DATABASES.search(it)], [])

    @staticmethod
    def kinds_of_builds(top):
        """The names of the builds whose modules dyncollate collates, and those of all others."""
        found = [], []
        for it in sorted(top.rglob("build.ninja")):
            files = [it, *it.parent.glob("CMakeFiles/*.ninja")]
            text = "".join(file.read_text() for file in files)
            if re.search(r"^  dyndep = .*CXX", text, re.M):
                found["--program=" not in text].append(it.parent.name)
        return found

    def test_configurations(self):
        self.passes("CXXModules")

    def test_behavior(self):
        self.passes("CXXModulesCompile", "BuildBehavior")

    def test_imports_and_exports(self):
        self.passes("CXXModulesCompile", "BuildImportExport")

    def test_installations(self):
        self.passes("CXXModulesCompile", "Install")


class SuiteWithClang(Suite):
    compiler, package = staticmethod(clang), "clang-19 or clang-tools-19"


class SuiteWithGcc(Suite):
    compiler, package = staticmethod(gcc), "g++-14"


del Suite
