"""Prints the processor time, in milliseconds, of runs of Meson and Ninja and all that they start,
and the instructions of Ninja with nothing to do.

    measure.py [SOURCES..]

A project has that many sources, 50, 200 and 1,000 by default, in static libraries of 25, each
linked with the one before, and a program. It is measured without modules and with one in each
source:

    setup      Meson, with Ninja and with dyncollate-ninja
    adopt      dyncollate-meson alone, of the build with modules
    build      Ninja, from scratch
    idle       Ninja, with nothing to do: the median of 9 runs, and its instructions
    collated   how many targets are collated after an edit of the last module's body, or imports

`generated` is plain Ninja with a manifest of `examples/generate` for the same sources and modules.
`baseline` is the same manifest and all that Meson wrote of its own: each rule and statement that
compiles, archives or links nothing, also the one that calls Meson, in place of the one that calls
`generate`. `added` is how many percent more instructions the adopted build takes than that. It has
rules for each target, and fewer statements name linked libraries: GUIDE, "In a Meson project".

This needs Meson, Ninja, Clang 19 and its scanner, and Valgrind. It takes a quarter of an hour of
processor time, mostly for compilations.
"""
import os
import re
import resource
import statistics
import subprocess
import sys
import tempfile
from pathlib import Path

TOP = Path(__file__).resolve().parents[2]
PER_LIBRARY = 25
# what Meson writes to compile, archive and link
BUILDING = re.compile(r"(rule|build .*:) (cpp_COMPILER|STATIC_LINKER|cpp_LINKER)\b")
# what `generate` writes to call itself
GENERATING = re.compile(r"rule generate\n|build build\.ninja ")
VARIABLES = {**os.environ, "CXX": "clang++-19", "CLANG": "clang++-19",
             "SCANNER": "clang-scan-deps-19"}


def printed(*words, **given):
    """What a command prints, which has to succeed."""
    return subprocess.run(words, check=True, stdout=subprocess.PIPE, stderr=subprocess.STDOUT,
                          text=True, env=VARIABLES, **given).stdout


def milliseconds(*words, **variables):
    before = resource.getrusage(resource.RUSAGE_CHILDREN)
    subprocess.run(words, check=True, stdout=subprocess.DEVNULL, stderr=subprocess.DEVNULL,
                   env={**VARIABLES, **variables})
    after = resource.getrusage(resource.RUSAGE_CHILDREN)
    return 1000 * (after.ru_utime + after.ru_stime - before.ru_utime - before.ru_stime)


def write_project(folder, count, modules):
    """Each source uses the one before it. `targets` is the list of `generate`."""
    folder.mkdir()
    lists, libraries, targets = "project('p', 'cpp', default_options: ['cpp_std=c++20'])\n", "", ""
    for number in range(count):
        used = f"f{number - 1}()" if number else "0"
        if modules:
            head = f"export module m{number};\n" + f"import m{number - 1};\n" * bool(number)
            body = f"export int f{number}() {{ return {used}; }}\n"
        else:
            head, body = f"int f{number - 1}();\n", f"int f{number}() {{ return {used}; }}\n"
        (folder / f"s{number}.cpp").write_text(head.replace("f-1", "f") + body)
    for first in range(0, count, PER_LIBRARY):
        numbers = range(first, min(count, first + PER_LIBRARY))
        words = [f"'l{first}'", *(f"'s{it}.cpp'" for it in numbers), f"link_with: [{libraries}]"]
        targets += f"library l{first} {' '.join(f's{it}.cpp' for it in numbers)} -- {libraries}\n"
        lists += f"l{first} = static_library({', '.join(words)})\n"
        libraries = f"l{first}"
    head = f"import m{count - 1};\n" if modules else f"int f{count - 1}();\n"
    (folder / "main.cpp").write_text(head + f"int main() {{ return f{count - 1}(); }}\n")
    lists += f"executable('app', 'main.cpp', link_with: [{libraries}])\n"
    (folder / "meson.build").write_text(lists)
    (folder / "targets").write_text(f"{targets}program app main.cpp -- {libraries}\n")


def measure(folder, count, modules):
    what = "modules" if modules else "plain"
    write_project(folder, count, modules)
    ours, built = str(TOP / "adapters/cmake/dyncollate-ninja"), str(folder / "ours")
    for name, ninja in ("ninja", "ninja"), ("ours", ours):
        time = milliseconds("meson", "setup", str(folder / name), str(folder), NINJA=ninja)
        print(f"setup.{what}.{name} {time:.0f}", flush=True)
    if modules:
        adapter = str(TOP / "adapters/meson/dyncollate-meson")
        print(f"adopt {milliseconds(sys.executable, adapter, 'adopt', str(folder / 'ninja')):.0f}")
    print(f"build.{what} {milliseconds('ninja', '-C', built):.0f}", flush=True)
    instructions = measure_idle(what, built)
    if modules:
        generated = folder / "generated"
        generated.mkdir()
        printed(TOP / "examples/generate", "clang", "../targets", cwd=generated)
        printed("ninja", "-C", generated)
        measure_idle("generated", str(generated))
        add_statements(generated, folder / "ninja/meson-dyncollate/meson.ninja")
        baseline = measure_idle("baseline", str(generated))
        print(f"idle.added {100 * (instructions / baseline - 1):+.1f}", flush=True)
        measure_edits(folder, built, count - 1)


def add_statements(generated, meson):
    """Adds what Meson wrote of its own."""
    def parts(name, dropped):
        found = re.split("^(?=rule |build |default )", name.read_text(), flags=re.M)
        return [it for it in found if not dropped.match(it)]

    (generated / "meson-private").mkdir()
    (generated / "meson-private/coredata.dat").touch()
    name = generated / "build.ninja"
    name.write_text("".join(parts(name, GENERATING) + parts(meson, BUILDING)))


def measure_idle(what, built):
    idle = statistics.median(milliseconds("ninja", "-C", built) for _ in range(9))
    valgrind = ["valgrind", "--tool=callgrind", "--callgrind-out-file=/dev/null"]
    said = printed(*valgrind, "ninja", "-C", built)
    assert "no work to do" in said, said
    instructions = int(re.search(r"Collected : (\d+)", said)[1])
    print(f"idle.{what} {idle:.1f}\nidle.{what}.instructions {instructions}", flush=True)
    return instructions


def measure_edits(folder, built, number):
    name = folder / f"s{number}.cpp"
    for what, old, new in ("body", "return", "return 1 +"), ("import", ";\n", ";\nimport m0;\n"):
        name.write_text(name.read_text().replace(old, new, 1))
        files = [*Path(built).glob("meson-dyncollate/*/info.json")]
        times = [it.stat().st_mtime_ns for it in files]
        steps = printed("ninja", "-C", built).count("] Collating ")
        targets = sum(it.stat().st_mtime_ns != time for it, time in zip(files, times))
        print(f"collated.{what}.steps {steps}\ncollated.{what}.targets {targets}", flush=True)


def main(*counts):
    for count in map(int, counts or (50, 200, 1000)):
        print(f"sources {count}", flush=True)
        with tempfile.TemporaryDirectory() as room:
            for modules in False, True:
                measure(Path(room) / f"modules-{modules}", count, modules)


main(*sys.argv[1:])
