"""Random edits of a project that CMake builds with dyncollate. After each edit the program prints
what it has to, exactly the sources that have to be compiled are compiled, and another run of Ninja
has nothing to do.

    python3 -m unittest tests.cmake_edits
    python3 -m tests.cmake_edits gcc --seed 7 --edits 300
    python3 -m tests.cmake_edits gcc --seeds 20
"""
import argparse
import os
import random
import sys
import time
from dataclasses import dataclass, field

from tests.cmake import NINJA, put
from tests.cmake_builds import HEAD, Builds, Tree, clang, gcc
from tests.run import run

# A target may import modules of itself and of those before it.
TARGETS = ["base", "mid", "app"]
# What `mid` is, how it links `base`, and what `app` links in addition.
# A shared library hides what it links with PRIVATE.
LINKS = [(kind, link, more) for kind in ("STATIC", "SHARED") for link in ("PUBLIC", "PRIVATE")
         for more in ("", "base", "passes")]
HIDING = "SHARED", "PRIVATE", ""
EDITS = 30


@dataclass(eq=False)
class Unit:
    """A source. An `interface` is that of a module; an `impl` implements one; a `part` is an
    exported partition and an `inner` one is private to its module; a `user` is a source of the
    program without a module. Each has a function, which adds a number to what the functions of
    imported modules return."""
    kind: str
    name: str
    target: str
    number: int = 1
    # the number is that of a generated header
    header: bool = False
    imports: list = field(default_factory=list)

    @property
    def module(self):
        return self.name.partition(":")[0]

    @property
    def file(self):
        ends = {"interface": ".cppm", "impl": "_impl.cpp", "part": ".cppm", "inner": ".cpp",
                "user": ".cpp"}
        return self.name.replace(":", "-") + ends[self.kind]

    @property
    def partition(self):
        return self.name.partition(":")[2]

    @property
    def function(self):
        return f"f_{self.name.replace(':', '_')}"


class Project:
    """The units of a project, the sources that they stand for,
    and what its program has to print."""

    def __init__(self, choice):
        self.choice, self.version, self.links = choice, 5, LINKS[0]
        self.units = ([Unit("interface", f"b{it}", "base") for it in range(4)]
                      + [Unit("interface", f"m{it}", "mid") for it in range(3)])
        self.units += [Unit("impl", "b0", "base"), Unit("impl", "m0", "mid"),
                       Unit("part", "b1:p", "base"), Unit("inner", "b0:q", "base"),
                       Unit("inner", "m0:q", "mid"),
                       *(Unit("user", f"u{it}", "app") for it in range(2))]
        self.units[3].header = True
        for unit in self.units:
            unit.number = choice.randrange(9)
        for _ in range(9):
            self.add_import()
        for unit in self.users():
            unit.imports = unit.imports or ["m0"]

    def of(self, *kinds, module=None):
        return [it for it in self.units if it.kind in kinds and module in (None, it.module)]

    def users(self):
        return self.of("user")

    def provider(self, name):
        return next(it for it in self.of("interface", "part", "inner") if it.name == name)

    # ---- sources

    def required(self, unit):
        """The names of all modules that a unit imports, also those that belong to its kind."""
        parts = {"interface": self.of("part", module=unit.module),
                 "impl": self.of("inner", module=unit.module)}.get(unit.kind, [])
        return unit.imports + [it.name for it in parts] + [unit.module] * (unit.kind == "impl")

    def text(self, unit):
        include = '#include "version.h"\n' if unit.header else ""
        imports = "".join(f"import {it};\n" for it in unit.imports)
        parts = [it for it in map(self.provider, self.required(unit)) if it.kind != "interface"]
        sum_of = " + ".join(["VERSION" if unit.header else str(unit.number)]
                            + [f"{self.provider(it).function}()" for it in unit.imports]
                            + [f"{it.function}()" for it in parts])
        begin = {"interface": f"export module {unit.name};\n", "impl": f"module {unit.module};\n",
                 "part": f"export module {unit.name};\n", "inner": f"module {unit.name};\n",
                 "user": ""}[unit.kind]
        own = "".join(f"{'export ' * (unit.kind == 'interface')}import :{it.partition};\n"
                      for it in parts)
        if unit.kind == "interface" and self.of("impl", module=unit.module):
            body = (
                f"export int {unit.function}();\nexport int g_{unit.name}() {{ return {sum_of}; "
                f"}}\n")
        elif unit.kind == "impl":
            body = f"int {unit.function}() {{ return g_{unit.module}() + {sum_of}; }}\n"
        else:
            body = (f"{'export ' * (unit.kind in ('interface', 'part'))}int {unit.function}() {{ "
                    f"return {sum_of}; }}\n")
        return ("module;\n" * bool(include and begin)) + include + begin + own + imports + body

    def files(self):
        """All files by name; that of each unit is the unit's text."""
        names = [it.function for it in self.users()]
        printed = " + ".join(f"{it}()" for it in names)
        main = ("#include <cstdio>\n" + "".join(f"int {it}();\n" for it in names)
                + f'int main() {{ std::printf("%d\\n", {printed}); }}\n')
        return {"main.cpp": main, "VERSION": f"{self.version}\n", "CMakeLists.txt": self.lists(),
                "version.sh": 'echo "#define VERSION $(cat "$1")"\n',
                **{it.file: self.text(it) for it in self.units}}

    def lists(self):
        text = HEAD + (
            "set(CMAKE_POSITION_INDEPENDENT_CODE ON)\nadd_custom_command(OUTPUT version.h DEPENDS "
            "${CMAKE_SOURCE_DIR}/VERSION\n"
            "  COMMAND sh ${CMAKE_SOURCE_DIR}/version.sh ${CMAKE_SOURCE_DIR}/VERSION > "
            "version.h)\n")
        for target in TARGETS:
            own = {kinds: sorted(it.file for it in self.of(*kinds.split()) if it.target == target)
                   for kinds in ("interface part", "impl user", "inner")}
            header = ["${CMAKE_BINARY_DIR}/version.h"] * any(it.header for it in self.units
                                                             if it.target == target)
            plain = " ".join(own["impl user"] + ["main.cpp"] * (target == "app") + header)
            kind = {"base": "STATIC ", "mid": f"{self.links[0]} ", "app": ""}[target]
            text += (f"{'add_executable' if target == 'app' else 'add_library'}({target} "
                     f"{kind}{plain})\n")
            text += f"target_include_directories({target} PRIVATE ${{CMAKE_BINARY_DIR}})\n"
            for visibility, kinds in (("PUBLIC FILE_SET CXX_MODULES", "interface part"),
                                      ("PRIVATE FILE_SET own TYPE CXX_MODULES", "inner")):
                if own[kinds]:
                    text += f"target_sources({target} {visibility} FILES {' '.join(own[kinds])})\n"
        return (f"{text}target_link_libraries(mid {self.links[1]} base)\n"
                f"target_link_libraries(app PRIVATE mid {self.links[2]})\n"
                "add_library(passes INTERFACE)\ntarget_link_libraries(passes INTERFACE base)\n")

    # ---- what is true of it

    def value(self, unit):
        """What the function of a unit returns."""
        total = self.version if unit.header else unit.number
        for name in self.required(unit):
            if name != unit.module or unit.kind != "impl":
                total += self.value(self.implementation(self.provider(name)))
        if unit.kind == "impl":
            total += self.value(self.provider(unit.module))
        return total

    def implementation(self, unit):
        """The unit whose function users of this one call."""
        return (next(iter(self.of("impl", module=unit.module)), unit)
                if unit.kind == "interface" else unit)

    def printed(self):
        return f"{sum(map(self.value, self.users()))}\n"

    def is_sound(self):
        """No module needs itself, whichever of its units does so, and no target needs a later one,
        or one that is hidden."""
        needed = {it.module: set() for it in self.units}
        for unit in self.units:
            needed[unit.module].update(self.provider(it).module for it in unit.imports
                                       if self.provider(it).module != unit.module)
            if any(TARGETS.index(self.provider(it).target) > TARGETS.index(unit.target)
                   for it in unit.imports):
                return False
        if self.hidden_imports():
            return False
        while free := [it for it in needed if not needed[it] & needed.keys()]:
            for it in free:
                del needed[it]
        return not needed

    def hidden_imports(self):
        """The units of the program that import from `base`, and their imports,
        if that is hidden."""
        found = [(unit, name) for unit in self.users() for name in unit.imports
                 if self.provider(name).target == "base"]
        return found if self.links == HIDING else []

    def dependents(self, changed):
        """The units that have to be compiled if these have changed."""
        found = set(changed)
        while more := {it for it in self.units if it not in found
                       and found.intersection(map(self.provider, self.required(it)))}:
            found |= more
        return found

    # ---- edits, which return what they did, or None if it is not possible

    def add_import(self):
        unit, module = self.choice.choice(self.units), self.choice.choice(self.of("interface"))
        if module.module == unit.module or module.name in unit.imports:
            return None
        unit.imports.append(module.name)
        if self.is_sound():
            return f"{unit.file} imports {module.name}"
        unit.imports.pop()
        return None

    def drop_import(self):
        unit = self.choice.choice(self.units)
        if len(unit.imports) <= (unit.kind == "user"):
            return None
        return (f"{unit.file} no longer imports "
                f"{unit.imports.pop(self.choice.randrange(len(unit.imports)))}")

    def reverse_import(self):
        unit = self.choice.choice([it for it in self.of("interface") if it.imports] or self.units)
        other = unit.imports and self.provider(self.choice.choice(unit.imports))
        if not other or other.target != unit.target or unit.kind != "interface":
            return None
        unit.imports.remove(other.name)
        other.imports.append(unit.name)
        if self.is_sound():
            return f"{other.name} imports {unit.name}, and not the other way"
        other.imports.pop()
        unit.imports.append(other.name)
        return None

    def change_number(self):
        unit = self.choice.choice([it for it in self.units if not it.header])
        unit.number += 1
        return f"another number in {unit.file}"

    def change_header(self):
        self.version += 1
        return "another version in the generated header"

    def new_module(self):
        target = self.choice.choice(TARGETS[self.links == HIDING:2])
        unit = Unit("interface", f"n{len(self.units)}_{self.choice.randrange(1000)}", target)
        self.units.append(unit)
        self.choice.choice(self.users()).imports.append(unit.name)
        return f"new module {unit.name}"

    def change_inner(self):
        """A private partition is added or removed: with the last one of a library,
        its step needs no Python."""
        module = self.choice.choice(self.of("impl"))
        found = self.of("inner", module=module.name)
        if found:
            self.units.remove(found[0])
            return f"{found[0].file} is gone"
        self.units.append(Unit("inner", f"{module.name}:q", module.target))
        return f"new partition in {module.name}"

    def rename(self):
        unit = self.choice.choice([it for it in self.of("interface") if it.name.startswith("n")]
                                  or [None])
        if not unit:
            return None
        old, unit.name = unit.name, f"{unit.name}x"
        for it in self.units:
            it.imports = [unit.name if name == old else name for name in it.imports]
        return f"{old} is now {unit.name}"

    def change_links(self):
        self.links = self.choice.choice([HIDING] * 6 + LINKS)
        return f"the links are {' '.join(self.links)}"

    def move(self):
        alone = [it for it in self.of("interface")
                 if not (it.header or self.of("impl", "part", "inner", module=it.name))]
        unit = self.choice.choice(alone)
        unit.target = "mid" if unit.target == "base" else "base"
        if self.is_sound():
            return f"{unit.name} is in {unit.target}"
        unit.target = "mid" if unit.target == "base" else "base"
        return None


class RandomEdits:
    """A build that dyncollate-ninja adopts, and edits of it."""
    seconds = 90

    def begin(self, seed):
        self.seed, self.choice = seed, random.Random(seed)
        self.project = Project(self.choice)
        # Clang's depfiles name module files,
        # which Ninja would keep as inputs after an import is reversed
        flags = (["-DCMAKE_CXX_FLAGS=-fno-module-file-deps -Wno-unused-command-line-argument"]
                 if self.is_clang() else [])
        self.tree = Tree(self.room / "a project", self.project.files(), self.compiler(), "Ninja",
                         f"-DCMAKE_MAKE_PROGRAM={NINJA}", *flags)
        self.written = self.project.files()
        self.assertTrue(self.tree.adopted())
        self.is_right("from scratch")

    def write(self):
        """Writes the files that changed, and returns the units whose sources did."""
        files = self.project.files()
        changed = {name for name, text in files.items() if self.written.get(name) != text}
        for name in changed:
            put(self.tree.top / name, files[name])
        for name in self.written.keys() - files.keys():
            os.remove(self.tree.top / name)
        self.written = files
        return [it for it in self.project.units if it.file in changed or it.header
                and "VERSION" in changed]

    def is_right(self, what, compiled=None):
        """The build ends well, with the right program, has compiled these files,
        and has nothing to do then."""
        self.tree.ninja()
        what = f"seed {self.seed}, {what}: {self.tree.log}"
        self.assertEqual(self.tree.status, 0, what)
        self.assertEqual(run(self.tree.build / "app")[1], self.project.printed(), what)
        if compiled is not None:
            self.assertEqual(sorted(map(os.path.basename, self.tree.compiled())),
                             sorted(f"{it}.o" for it in compiled), what)
        self.tree.ninja()
        self.assertIn("ninja: no work to do.", self.tree.log, what)

    def edit(self):
        """Makes an edit and checks the build, or returns None."""
        kind = self.choice.choices([self.change, self.restructure, self.lose, self.fail_and_repair],
                                   [50, 25, 15, 10])[0]
        return kind()

    def change(self):
        """Edits of sources: exactly the changed ones and those that import them are compiled."""
        project = self.project
        # GCC's depfiles keep module files (see GUIDE, "A dependency cycle that stays")
        turns = [project.reverse_import] * 4 if self.is_clang() else []
        what = self.choice.choice([project.add_import] * 5 + [project.drop_import] * 4
                                  + turns + [project.change_number, project.change_number,
                                             project.change_header])()
        if what:
            self.is_right(what, [it.file for it in project.dependents(self.write())])
        return what

    def restructure(self):
        """Edits of CMake's lists: CMake runs again, and the build stays adopted."""
        project = self.project
        what = self.choice.choice([project.new_module, project.change_inner, project.change_inner,
                                   project.rename, project.move, *[project.change_links] * 3])()
        if what:
            self.write()
            if project.hidden_imports():
                self.is_rejected(what)
            self.is_right(what)
            self.assertTrue(self.tree.adopted(), what)
        return what

    def is_rejected(self, what):
        """The program imports what is hidden now, until the imports are dropped."""
        self.tree.ninja()
        self.assertNotEqual(self.tree.status, 0, what)
        self.assertRegex(
            self.tree.log,
            r"\ndyncollate-cmake: .*: imports \w+ of CMakeFiles/base.dir, which app reaches only "
            r"through ")
        for unit, name in self.project.hidden_imports():
            unit.imports.remove(name)
            unit.imports = unit.imports or ["m0"]
        self.write()

    def lose(self):
        """A file that the build has made is deleted."""
        made = {".o", ".ddi", ".modmap", ".dd", ".pcm", ".gcm"}
        files = [it for it in self.tree.build.glob("CMakeFiles/*.dir/*")
                 if it.suffix in made or it.name == "CXXModules.json"]
        lost = self.choice.choice(sorted([*files, *self.tree.build.glob("*.a"),
                                          self.tree.build / "version.h", self.tree.build / "app"]))
        os.remove(lost)
        what = f"{lost.name} is deleted"
        self.is_right(what)
        return what

    def fail_and_repair(self):
        """An import of no module, or of one that imports this one."""
        unit = self.choice.choice(self.project.of("interface"))
        users = [it.name for it in self.project.of("interface") if unit.name in it.imports
                 and it.target == unit.target]
        name, code = ((users[0], "M8 ImportCycle") if users and self.choice.random() < 0.5
                      else ("none", "M5 ModuleUnknown none"))
        begin = f"export module {unit.name};\n"
        put(self.tree.top / unit.file,
            self.written[unit.file].replace(begin, f"{begin}import {name};\n"))
        self.tree.ninja()
        self.assertNotEqual(self.tree.status, 0)
        self.assertRegex(self.tree.log, rf"\ndyncollate: {code}")
        time.sleep(0.02)
        put(self.tree.top / unit.file, self.written[unit.file])
        self.is_right(f"{unit.file} imported {name}, which is repaired")
        return f"{unit.file} imported {name}"

    def edits(self, seed, count, progress=lambda *_: None):
        self.begin(seed)
        done = 0
        while done < count:
            time.sleep(0.02)
            what = self.edit()
            if what:
                done += 1
                progress(done, what)

    def test_edits(self):
        self.edits(int(os.environ.get("RANDOM_SEED") or random.randrange(1 << 30)), EDITS)


class EditsWithClang(RandomEdits, Builds):
    compiler, package = staticmethod(clang), "clang-19 or clang-tools-19"


class EditsWithGcc(RandomEdits, Builds):
    compiler, package = staticmethod(gcc), "g++-14"


def main(clang=EditsWithClang, gcc=EditsWithGcc, tool="CMake"):
    arguments = argparse.ArgumentParser(
        description=f"Random edits of a project that {tool} builds with dyncollate.")
    arguments.add_argument("compiler", choices=["clang", "gcc"])
    arguments.add_argument("--seed", type=int, default=random.randrange(1 << 30))
    arguments.add_argument("--seeds", type=int, default=1,
                           help="that many projects, by this seed and the next ones")
    arguments.add_argument("--edits", type=int, default=EDITS)
    given = arguments.parse_args()
    for seed in range(given.seed, given.seed + given.seeds):
        print("seed", seed, flush=True)
        test = (clang if given.compiler == "clang" else gcc)("test_edits")
        test.setUp()
        try:
            test.edits(seed, given.edits, lambda number, what: print(number, what, flush=True))
        finally:
            test.doCleanups()


if __name__ == "__main__":
    sys.exit(main())
