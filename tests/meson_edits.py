"""Random edits of a project that Meson builds with dyncollate. After each edit the program prints
what it has to, exactly the sources that have to be compiled are compiled, and another run of Ninja
has nothing to do.

    python3 -m unittest tests.meson_edits
    python3 -m tests.meson_edits gcc --seed 7 --edits 300
    python3 -m tests.meson_edits gcc --seeds 20
"""
import graphlib
import os
import random
import sys

from tests import cmake_edits
from tests.meson import Builds
from tests.tools import tool

LIBRARIES = ["base", "mid", "top"]
# the ends of the names of files that a build makes
MADE = (".o", ".ddi", ".modmap", ".dd", ".pcm", ".gcm", ".a", ".so", ".symbols", "info.json",
        "version.h", "/app")


class Unit(cmake_edits.Unit):
    @property
    def file(self):
        # Meson 1.0 knows no .cppm
        return super().file.replace(".cppm", ".cpp")


class Project(cmake_edits.Project):
    """Three libraries, static or shared. If all are static, no list says which one links which, but
    their imports."""

    def __init__(self, choice):
        self.kinds = choice.choices(["static", "shared"], [2, 1], k=3)
        super().__init__(choice)
        tops = [Unit("interface", f"t{it}", "top") for it in range(3)]
        self.units = [Unit(**vars(it)) for it in self.units] + tops
        for unit in self.units[:-3:2]:
            unit.imports.append(choice.choice(tops).name)
            if not self.is_sound():
                unit.imports.pop()

    def linked_to(self, library):
        """The libraries that one may import from, if the lists say so."""
        return LIBRARIES[:LIBRARIES.index(library)] if "shared" in self.kinds else []

    def files(self):
        files = super().files()
        files["meson.build"] = files.pop("CMakeLists.txt")
        return files

    def lists(self):
        text = ("project('random', 'cpp', default_options: ['cpp_std=c++20'])\n"
                "version = custom_target('version', output: 'version.h', input: 'VERSION',\n"
                "  capture: true, command: [find_program('sh'), files('version.sh'), '@INPUT@'])\n")
        for library, kind in zip(LIBRARIES, self.kinds):
            text += self.target(f"{kind}_library", library, [], self.linked_to(library))
        return text + self.target("executable", "app", ["main.cpp"], LIBRARIES)

    def target(self, kind, name, more, links):
        sources = sorted(it.file for it in self.units if it.target == name) + more
        words = [f"'{name}'", "version", *(f"'{it}'" for it in sources)]
        return f"{name} = {kind}({', '.join(words)}, link_with: [{', '.join(links)}])\n"

    def is_sound(self):
        """Neither modules nor libraries need each other in a cycle, and no source imports from a
        library that its own is not linked with."""
        modules, targets = {}, {}
        for unit in self.units:
            for it in map(self.provider, unit.imports):
                if it.module != unit.module:
                    modules.setdefault(unit.module, set()).add(it.module)
                if it.target != unit.target:
                    targets.setdefault(unit.target, set()).add(it.target)
        try:
            for graph in modules, targets:
                graphlib.TopologicalSorter(graph).prepare()
        except graphlib.CycleError:
            return False
        return "shared" not in self.kinds or all(
            found <= {*self.linked_to(name)} for name, found in targets.items() if name != "app")

    def new_module(self):
        name = f"n{len(self.units)}_{self.choice.randrange(1000)}"
        self.units.append(Unit("interface", name, self.choice.choice(LIBRARIES)))
        self.choice.choice(self.users()).imports.append(name)
        return f"new module {name}"

    def change_links(self):
        """They stay: Meson's lists have no links that hide modules."""
        return ""

    def move(self):
        targets = [it.target for it in self.units]
        what = super().move()
        if not what:
            for unit, target in zip(self.units, targets):
                unit.target = target
        return what


class RandomEdits(cmake_edits.RandomEdits):
    def begin(self, seed):
        self.seed, self.choice = seed, random.Random(seed)
        self.project = Project(self.choice)
        self.written = self.project.files()
        self.lay(self.written)
        self.assertTrue(self.tree.adopted(), self.tree.log)
        self.is_right("from scratch", [it.file for it in self.project.units] + ["main.cpp"])

    def is_clang(self):
        """Whether depfiles name no module file: none does, whichever the compiler is."""
        return True

    def lose(self):
        """A file that the build has made is deleted."""
        files = sorted(it for it in self.tree.build.rglob("*") if str(it).endswith(MADE))
        lost = self.choice.choice(files)
        os.remove(lost)
        what = f"{lost.name} is deleted"
        self.is_right(what)
        return what


class EditsWithClang(RandomEdits, Builds):
    pass


class EditsWithGcc(RandomEdits, Builds):
    compiler, package = staticmethod(lambda: tool("gcc")), "g++-12"


if __name__ == "__main__":
    sys.exit(cmake_edits.main(EditsWithClang, EditsWithGcc, "Meson"))
