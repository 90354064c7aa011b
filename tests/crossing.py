"""The C functions in cross/, which programs for other processors are linked with in place of the
toolchain's, and those in web/, which the WebAssembly module is linked with.

They are tested on this processor: by themselves, and those in cross/ linked into the program, which
then has the same rows, also if allocations fail. What `./build aarch64` and `./build library
aarch64` make, if it is there, runs under qemu-aarch64-static."""
import os
import platform
import shutil
import sys
import unittest
from pathlib import Path

from tests import embedded, fuzzing
from tests.library import WORKED
from tests.program import TOP
from tests.run import InRoom, run

NEEDS_LIBRARY = True

CROSS = [f"{TOP}/cross/heap.c", f"{TOP}/cross/system.c"]
ROWS = [f"tests.{it}" for it in ("arguments", "documents", "modules", "listings", "effects")]
OBJECT = f"{TOP}/crates/dyncollate/out/dyncollate.o"
ARM = Path(TOP, "crates/dyncollate/out/aarch64/dyncollate")
ARM_LIBRARY = Path(TOP, "crates/c_library/out/aarch64")
EMULATOR = ["qemu-aarch64-static", "-L", "/usr/aarch64-linux-gnu"]

needs_emulator = embedded.needs_tools("aarch64-linux-gnu-gcc", EMULATOR[0])


def call(*words, **environment):
    """The status of a command, and what it prints."""
    return run(*words, cwd=TOP, env=os.environ | environment, seconds=1800)


class Crossing(InRoom):
    def runs(self, program, *tests):
        """The tests pass with this program, and none of them is skipped."""
        status, printed = call(sys.executable, "-m", "unittest", *tests, DYNCOLLATE=str(program))
        self.assertEqual(status, 0, printed[-3000:])
        self.assertRegex(printed, r"\nRan [1-9]\d+ tests ")


class Functions(Crossing):
    """What the comments of the functions say."""

    @embedded.needs_tools("gcc")
    def test_here(self):
        program = embedded.compiled("gcc", "-fsanitize=address,undefined", *CROSS,
                                    f"{TOP}/tests/cross_functions.c", to=self.room / "functions")
        self.assertEqual(call(program, "", "ab",
                              ASAN_OPTIONS="allocator_may_return_null=1:log_path=/dev/null"),
                         (0, ""))

    @embedded.needs_tools("gcc")
    def test_of_the_web(self):
        program = embedded.compiled("gcc", "-std=gnu11", "-O1", "-fsanitize=address,undefined",
                                    "-fno-sanitize-recover=all", f"{TOP}/tests/web_functions.c",
                                    to=self.room / "functions")
        self.assertEqual(call(program, "2000"), (0, ""))

    @needs_emulator
    def test_on_arm(self):
        program = embedded.compiled("aarch64-linux-gnu-gcc", "-O2", *CROSS,
                                    f"{TOP}/tests/cross_functions.c", to=self.room / "functions")
        self.assertEqual(call(*EMULATOR, program, "", "ab"), (0, ""))


@unittest.skipUnless(platform.machine() == "x86_64", "this is not the processor of the object file")
@unittest.skipUnless(shutil.which("rt"), "rt is missing")
@unittest.skipUnless(os.path.exists(OBJECT),
                     "there is no object file of the program; ./build makes it")
class Here(Crossing):
    """The program, linked with the functions in cross/."""
    seconds = 60

    def setUp(self):
        super().setUp()
        kit, target = Path(shutil.which("rt")).resolve().parent.parent, "x86_64-unknown-linux-gnu"
        made = []
        for source in CROSS:
            made.append(str(self.room / Path(source).with_suffix(".o").name))
            compiler = [f"{kit}/toolchain/bin/clang", f"--target={target}", "-O2", "-fPIC", "-c",
                        source, "-o", made[-1]]
            self.assertEqual(call(*compiler), (0, ""))
        self.program = self.room / "dyncollate"
        status, printed = call(f"{kit}/bin/rattle-link", "--target", target, "--toolchain",
                               f"{kit}/toolchain", "-o", str(self.program), OBJECT, *made)
        self.assertEqual(status, 0, printed)

    def test_rows(self):
        self.runs(self.program, *ROWS)

    def test_failing_allocations(self):
        self.runs(self.program, "tests.growths.Program")


@needs_emulator
class OnArm(Crossing):
    seconds = 200

    @unittest.skipUnless(ARM.exists(), "there is no program for ARM; ./build aarch64 makes it")
    def test_rows(self):
        program = self.room / "dyncollate"
        program.write_text(f"#!/bin/sh\nexec {' '.join(EMULATOR)} {ARM} \"$@\"\n")
        program.chmod(0o755)
        self.runs(program, *ROWS)

    @unittest.skipUnless((ARM_LIBRARY / "libdyncollate.a").exists(),
                         "there is no library for ARM; ./build library aarch64 makes it")
    def test_library(self):
        """Each allocation of each worked row fails in turn, in a program in C.
        tests/fuzz/calls.c checks each call."""
        program = embedded.compiled("aarch64-linux-gnu-gcc", "-std=c11", "-D_GNU_SOURCE",
                                    "-O2", "-Wl,--wrap=malloc,--wrap=realloc,--wrap=free",
                                    f"{TOP}/tests/failing_allocations.c",
                                    f"{TOP}/tests/fuzz/calls.c",
                                    str(ARM_LIBRARY / "libdyncollate.a"),
                                    to=self.room / "failing_allocations")
        files = {}
        for number, row in enumerate(WORKED):
            (self.room / str(number)).write_bytes(fuzzing.encoded(row))
            files.setdefault(row.words[0], []).append(str(self.room / str(number)))
        for command, named in files.items():
            status, printed = call(*EMULATOR, program, command, *named)
            self.assertEqual(status, 0, printed[-3000:])
            self.assertRegex(printed, r"\A[1-9]\d* of \d+\n\Z")
