"""The build is reproducible: each product has the same bytes if it is built in another directory,
with another number of jobs.

    python3 -m unittest tests.reproducible

This is not part of ./test, because it checks the crates of the program and of the library again,
twice for each processor: some minutes each. The libraries are those that ./build and ./build
library have proved."""
import hashlib
import os
import shutil
import sys
import tempfile
import unittest
from pathlib import Path

from tests.program import TOP
from tests.run import output_of, run

RUN_BY = "a person, for some minutes"

PARTS = ["build", "building", "crates.txt", "cross"]


def is_proved(is_library):
    """Whether only the last crate is left to be checked."""
    script = (
        "import subprocess, sys; from building.crates import *; *below, goal = "
        "read_crates(sys.argv[1]); "
        "rt = subprocess.run(['rt', 'version'], stdout=subprocess.PIPE, text=True).stdout.strip(); "
        "[setattr(it, 'digest', take_digest(it)) for it in below]; sys.exit(not all(is_made(it, "
        "rt) for it in below))")
    return (run(sys.executable, "-c", script, "c_library" if is_library else "dyncollate",
                cwd=TOP)[0] == 0)


def copied(file, to):
    try:
        os.link(file, to)
    except OSError:
        shutil.copy2(file, to)


@unittest.skipUnless(shutil.which("rt"), "rt is missing")
class Twice(unittest.TestCase):
    def built(self, words, room, processors):
        """The sums of what a copy of the checkout makes with these processors."""
        for name in PARTS:
            copy = shutil.copytree if os.path.isdir(f"{TOP}/{name}") else shutil.copy2
            os.makedirs(room, exist_ok=True)
            copy(f"{TOP}/{name}", room / name)
        for crate in os.listdir(f"{TOP}/crates"):
            for part in "src", "specs", "proofs", "out/proved":
                if os.path.isdir(f"{TOP}/crates/{crate}/{part}"):
                    shutil.copytree(f"{TOP}/crates/{crate}/{part}", room / "crates" / crate / part,
                                    copy_function=copied)
        output_of(room / "build", *words, seconds=3600,
                  preexec_fn=lambda: os.sched_setaffinity(0, processors))
        out = room / "crates" / ("c_library" if "library" in words else "dyncollate") / "out"
        made = (out / "aarch64" if "aarch64" in words else out).glob("*dyncollate*")
        return {it.name: hashlib.sha256(it.read_bytes()).hexdigest() for it in made if it.is_file()}

    def check(self, *words):
        if not is_proved("library" in words):
            self.skipTest(
                f"the crates below are not proved; ./build {' '.join(words[:1])} proves them")
        with tempfile.TemporaryDirectory(prefix="dyncollate-") as folder:
            processors = sorted(os.sched_getaffinity(0))
            first = self.built(words, Path(folder, "a"), processors[:1])
            second = self.built(words, Path(folder, "another", "place"), processors)
        self.assertEqual(first, second)
        self.assertIn("libdyncollate.so.1" if "library" in words else "dyncollate", first)

    def test_program(self):
        self.check()

    def test_library(self):
        self.check("library")

    @unittest.skipUnless(shutil.which("aarch64-linux-gnu-gcc"), "gcc-aarch64-linux-gnu: not there")
    def test_program_for_arm(self):
        self.check("aarch64")

    @unittest.skipUnless(shutil.which("aarch64-linux-gnu-gcc"), "gcc-aarch64-linux-gnu: not there")
    def test_library_for_arm(self):
        self.check("library", "aarch64")
