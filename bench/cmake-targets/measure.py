#!/usr/bin/env python3
"""Measures the collation of all targets of CMake builds, by CMake's step and by dyncollate after
`dyncollate-cmake adopt`.

    measure.py [TARGETS]

Builds have 50, 100 and 200 targets, as far as that is no more than TARGETS. All are static
libraries with three module interfaces and an implementation, except for one program. In `layers`
each library links two of the layer of 20 below it, in `chain` each links all before it. Nothing is
compiled: the sources are scanned once, by the script `scan`, and then Ninja makes all dyndep files,
with their maps and info files, again and again, one at a time. The time is the processor time of
Ninja and of all that it starts. Both builds are the same directory, and their dyndep files must say
the same.

A run of CMake's step that takes longer than LIMIT is stopped, and the table has `-`. The
environment may name CMAKE (3.28 or newer), NINJA and CXX, a Clang.

A second table has the time of CMake itself, for 200 and 1,000 targets as far as that is no more
than 5 TARGETS: with Ninja, and with `dyncollate-ninja`, which adopts the build at the end of each
run. The runs alternate, so both meet the same load.
"""
import os
import resource
import shutil
import signal
import statistics
import subprocess
import sys
import tempfile
import time
from pathlib import Path

TOP = Path(__file__).resolve().parents[2]
sys.path.insert(0, str(TOP))
from tests.cmake import statements  # noqa: E402, the path comes first

CMAKE, NINJA = os.environ.get("CMAKE", "cmake"), os.environ.get("NINJA", "ninja")
CXX = os.environ.get("CXX") or next(filter(shutil.which, ["clang++-19", "clang++-21", "clang++"]))
SIZES = 50, 100, 200
CONFIGURED = 200, 1000
ROUNDS, LIMIT, PATIENCE = 5, 300, 20
MODULES, WIDTH = 3, 20
STEPS = "CMake's step", "dyncollate"


# ---- projects

def links_of(form, number):
    """The libraries that a library links."""
    if form == "chain":
        # all before it are linked through the last one; the second link is one more use of a module
        return sorted({it for it in (number - 1, number // 2) if 0 <= it < number})
    below = (number // WIDTH - 1) * WIDTH
    return sorted({below + it % WIDTH for it in (number, number * 7 + 3)}) if below >= 0 else []


def write_library(top, number, links):
    """Writes the sources of a library. Each interface imports the one before it, the first one
    those of linked libraries."""
    folder, name = top / f"t{number}", f"t{number}"
    folder.mkdir()
    for module in range(MODULES):
        imported = [f"{name}m{module - 1}"] if module else [f"t{it}m{MODULES - 1}" for it in links]
        (folder / f"m{module}.cppm").write_text(f"export module {name}m{module};\n"
                                                + "".join(f"import {it};\n" for it in imported)
                                                + f"export int {name}f{module}();\n")
    (folder / "impl.cpp").write_text(f"module {name}m0;\nint {name}f0() {{ return {number}; }}\n")
    files = " ".join(f"{name}/m{it}.cppm" for it in range(MODULES))
    linked = (f"target_link_libraries({name} PUBLIC {' '.join(f't{it}' for it in links)})\n"
              if links else "")
    return (f"add_library({name} STATIC {name}/impl.cpp)\n"
            f"target_sources({name} PUBLIC FILE_SET CXX_MODULES FILES {files})\n{linked}")


def write_project(top, form, targets):
    top.mkdir()
    last = targets - 2
    libraries = "".join(write_library(top, number, links_of(form, number))
                        for number in range(targets - 1))
    (top / "main.cpp").write_text(
        f"import t{last}m0;\nint main() {{ return t{last}f0() - {last}; }}\n")
    (top / "CMakeLists.txt").write_text(
        "cmake_minimum_required(VERSION 3.28)\nproject(many CXX)\nset(CMAKE_CXX_STANDARD 20)\n"
        f"{libraries}"
        f"add_executable(use main.cpp)\ntarget_link_libraries(use PRIVATE t{last})\n")


# ---- builds

def processor_ms():
    """The processor time of all processes that have ended, in milliseconds."""
    used = resource.getrusage(resource.RUSAGE_CHILDREN)
    return (used.ru_utime + used.ru_stime) * 1e3


class Build:
    def __init__(self, room, form, targets):
        self.top = room / "build"
        write_project(room / "project", form, targets)
        self.call(CMAKE, "-G", "Ninja", "-S", room / "project", "-B", self.top,
                  f"-DCMAKE_CXX_COMPILER={CXX}", f"-DCMAKE_MAKE_PROGRAM={shutil.which(NINJA)}",
                  f"-DCMAKE_CXX_COMPILER_CLANG_SCAN_DEPS={TOP}/bench/cmake-targets/scan")
        listed = self.call(NINJA, "-C", self.top, "-t", "targets", "all").splitlines()
        self.dyndeps = [line.partition(": ")[0] for line in listed if "/CXX.dd: CXX_DYNDEP" in line]
        assert len(
            self.dyndeps) == targets, f"{CMAKE} has {len(self.dyndeps)} steps for {targets} targets"
        scans = [line.partition(": ")[0] for line in listed if ".ddi: CXX_SCAN" in line]
        self.call(NINJA, "-C", self.top, "-j2", *scans)

    @staticmethod
    def call(*words):
        return subprocess.run(words, stdout=subprocess.PIPE, text=True, check=True).stdout

    def adopt(self):
        self.call(sys.executable, TOP / "adapters/cmake/dyncollate-cmake", "adopt", self.top)

    def made(self):
        return [it for pattern in ("CXX.dd", "*.modmap", "CXXModules.json")
                for it in self.top.rglob(pattern)]

    def collate(self):
        """Collates all targets, and returns the processor time in milliseconds,
        or None if it took too long."""
        for it in self.made():
            it.unlink()
        before = processor_ms()
        run = subprocess.Popen([NINJA, "-C", self.top, "-j1", *self.dyndeps],
                               stdout=subprocess.DEVNULL, start_new_session=True)
        try:
            status = run.wait(LIMIT)
        except subprocess.TimeoutExpired:
            os.killpg(run.pid, signal.SIGTERM)
            run.wait()
            return None
        assert not status, "the collation failed"
        return processor_ms() - before

    def collations(self):
        """The times of some collations, fewer if they take long."""
        began, times = time.monotonic(), []
        while len(times) < ROUNDS and (not times or time.monotonic() - began < PATIENCE):
            times.append(self.collate())
            if times[-1] is None:
                return []
        return times

    def edges(self):
        return {it.relative_to(self.top): statements(it.read_text())
                for it in self.top.rglob("CXX.dd")}

    def info_bytes(self):
        return sum(it.stat().st_size for it in self.top.rglob("CXXModules.json"))


def measure(form, targets):
    """Prints a line for both steps: the best and the median time,
    and the bytes of all info files."""
    with tempfile.TemporaryDirectory(prefix="dyncollate-") as room:
        build, edges = Build(Path(room), form, targets), []
        for step in STEPS:
            if step == "dyncollate":
                build.adopt()
            times = build.collations()
            edges += [build.edges()] * bool(times)
            said = ([f"{it:,.0f}" for it in (min(times), statistics.median(times),
                                             build.info_bytes())] if times else ["-"] * 3)
            print(f"{form:8} {targets:8} {step:14} {len(times):6} {said[0]:>10} {said[1]:>10} "
                  f"{said[2]:>14}", flush=True)
        assert all(it == edges[0] for it in edges), "the dyndep files differ"


def measure_configuring(form, targets):
    """Prints the best and the median time of CMake with both programs, and how much longer the
    second takes at best."""
    with tempfile.TemporaryDirectory(prefix="dyncollate-") as room:
        write_project(Path(room, "project"), form, targets)
        times = {shutil.which(NINJA): [], f"{TOP}/adapters/cmake/dyncollate-ninja": []}
        for _ in range(ROUNDS):
            for program, its_times in times.items():
                before = processor_ms()
                Build.call(CMAKE, "-G", "Ninja", "-S", f"{room}/project", "-B",
                           f"{room}/{Path(program).name}", f"-DCMAKE_CXX_COMPILER={CXX}",
                           f"-DCMAKE_MAKE_PROGRAM={program}")
                its_times.append(processor_ms() - before)
        ninja, ours = times.values()
        said = [f"{it:,.0f}" for its in (ninja, ours) for it in (min(its), statistics.median(its))]
        print(f"{form:8} {targets:8} {' '.join(f'{it:>10}' for it in said)} "
              f"{min(ours) / min(ninja) - 1:7.0%}", flush=True)


def main(words):
    largest = int(words[0]) if words else SIZES[-1]
    print(Build.call(CMAKE, "--version").splitlines()[0], "with", CXX)
    print(f"{'':8} {'targets':>8} {'':14} {'rounds':>6} {'best ms':>10} {'median':>10} "
          f"{'info bytes':>14}")
    for form in "layers", "chain":
        for targets in SIZES:
            if targets <= largest:
                measure(form, targets)
    print(f"{'configure':17} {'ninja ms':>10} {'median':>10} {'hook ms':>10} {'median':>10} "
          f"{'more':>7}")
    for form in "layers", "chain":
        for targets in CONFIGURED:
            if targets <= 5 * largest:
                measure_configuring(form, targets)


if __name__ == "__main__":
    main(sys.argv[1:])
