"""The C++ targets of a build, those that are scanned, and from which each may import modules.

What differs between generators is in a module for each, such as `meson_generator`.
"""
import functools
import os
import re
from dataclasses import dataclass, field

from adapter_files import EXTENSIONS, Wrong
from compilers import CACHES, LAUNCHERS, kind

MODERN = re.compile(r"-std=(c|gnu)\+\+2[0-9a-z]$")
# A line that begins a module or imports one.
MODULE = re.compile(rb"^(?:\xef\xbb\xbf)?[ \t]*(?:export\s+)?(?:module|import)"
                    rb"(?:\s*[;:<\"]|\s+[A-Za-z_\x80-\xff])", re.M)
# The names of modules that a source begins or imports.
NAMES = re.compile(rb"^(?:\xef\xbb\xbf)?[ \t]*(?:export\s+)?(module|import)\s+([\w.]+)", re.M)
HEADER_UNIT = re.compile(rb"^[ \t]*(?:export\s+)?import\s*[<\"]", re.M)
UNITY = re.compile(r"-unity\d+\.cpp(\.o)?$")
HEADERS = (".gch", ".pch")
# Flags that a compiler compares between the source of a module and an importer. A group has what a
# flag is for, and the last flag for it counts.
BOTH = r"-(?:(std)=.*|(m)(?:32|64)|f(?:no-)?(exceptions|rtti|char8_t"
COMPARED = {"clang": re.compile(BOTH + r"|(?:un)?signed-char|openmp|fast-math|math-errno|builtin"
                                       r"|freestanding|wrapv|stack-protector(?:-strong|-all)?))$"),
            "gcc": re.compile(BOTH + "))$")}
# A standard by the name that it had before it was published.
DRAFT = re.compile(r"2([abc])$")
INCLUDED = re.compile(rb"^#include ?<(.*)>", re.M)


@dataclass(eq=False)
class Target:
    name: str
    # the directory of all that adoption and the steps write
    top: str
    compiles: list = field(default_factory=list)
    # what it links; and what it may also import from, if it is a static library
    links: set = field(default_factory=set)
    candidates: set = field(default_factory=set)
    # a target is collated before those of a higher level
    level: int = 0

    @property
    def folder(self):
        name = re.sub(r"[^\w./+-]", lambda it: f"%{ord(it[0]):x}%", self.name, flags=re.ASCII)
        return f"{self.top}/{name}"

    @property
    def objects(self):
        return [it.outputs[0] for it in self.compiles]

    @property
    def info(self):
        return f"{self.folder}/info.json"

    @property
    def imports_from(self):
        return self.links | self.candidates

    @functools.cached_property
    def words(self):
        """The command of its first compilation."""
        return self.compiles[0].words()

    @functools.cached_property
    def is_cached(self):
        """Whether a cache of objects comes before the compiler."""
        return os.path.basename(self.words[0]) in CACHES

    @functools.cached_property
    def is_launched(self):
        """Whether something else comes before the compiler."""
        return os.path.basename(self.words[0]) in LAUNCHERS

    @functools.cached_property
    def style(self):
        return kind(self.words[self.is_launched])[0]

    def is_modern(self):
        """Whether its language and its compiler have modules."""
        standard = [it for it in self.words if it.startswith("-std=")][-1:]
        return bool(standard) and bool(MODERN.match(standard[0])) and self.style != ""

    def compared_flags(self):
        # GCC does not compare whether there are its extensions
        extended = "gnu++" if self.style == "gcc" else "c++"
        words = [it.replace(extended, "c++") for it in self.words]
        words = [DRAFT.sub(lambda it: {"a": "20", "b": "23", "c": "26"}[it[1]], it) for it in words]
        found = filter(None, map(COMPARED[self.style].match, words))
        return frozenset({it[it.lastindex]: it[0] for it in found}.values())

    def document(self, build, linked):
        return {"version": 1, "target": self.name, "build-dir": build,
                "module-dir": f"{self.folder}/bmi", "module-ext": EXTENSIONS[self.style],
                "scans": [f"{it}.ddi" for it in self.objects], "linked": linked,
                "dyndep": f"{self.folder}/modules.dd", "info": self.info, "map": self.style,
                "restat": True}


def reachability(after):
    """Returns a function that returns all that can be reached from a node by a step or more."""
    known = {}

    def reached(node):
        if node not in known:
            known[node], ahead = set(), [node]
            while ahead:
                new = after(ahead.pop()) - known[node]
                known[node] |= new
                ahead += new
        return known[node]
    return reached


class Targets:
    """The C++ targets of a build, and those that are `scanned`, by their names."""

    def __init__(self, generator, folder, file, standard=None):
        """`standard` has the library std of each target that imports it."""
        self.generator, self.folder, self.file, self.all = generator, folder, file, {}
        for it in filter(self.is_compilation, file.builds):
            name = self.target_of(it)
            self.all.setdefault(name, Target(name, generator.FOLDER)).compiles.append(it)
        self.scanned = {name: it for name, it in self.all.items()
                        if it.is_modern() and self.can_be_scanned(it)}
        users = {name for name, it in self.scanned.items() if self.has_modules(it)}
        if users:
            generator.find_links(self)
            for name, library in (standard or {}).items():
                self.scanned[name].links.add(library)
                self.scanned[name].candidates.discard(library)
            users |= {name for name, it in self.scanned.items() if self.is_to_come(it)}
        self.keep(users)
        self.share_threads()

    def is_compilation(self, build):
        """Whether this compiles a C++ source, and not a header."""
        return bool(self.generator.COMPILE.match(build.rule)
                    and not build.outputs[0].endswith(HEADERS))

    def is_ours(self, name):
        """Whether this is a file or a target of the standard library."""
        return name.startswith(f"{self.generator.FOLDER}/")

    def target_of(self, build):
        name = os.path.dirname(build.outputs[0])
        return name if self.is_ours(name) else self.generator.target_of(build)

    def can_be_scanned(self, target):
        """Whether it can be scanned. Fails if it can't and has modules."""
        reason = ""
        if target.style == "gcc" and any(it.endswith(HEADERS) for build in target.compiles
                                         for it in build.implicit):
            reason = ("a precompiled header, which GCC rejects together with modules: "
                      + self.generator.NO_HEADER)
        elif any(UNITY.search(it) for it in target.objects):
            reason = "a unity build, in which a module can't begin: configure with -Dunity=off"
        if reason and self.has_modules(target):
            raise Wrong(f"{target.name} uses modules and {reason}")
        return not reason

    # ---- sources

    def sources(self, target):
        """Returns the contents of the sources that are there, also of those that a unity build
        includes."""
        ahead = [it for build in target.compiles for it in build.inputs]
        while ahead:
            name = ahead.pop()
            try:
                with open(os.path.join(self.folder, name), "rb") as file:
                    text = file.read()
            except OSError:
                continue  # made by a statement that has not run
            if UNITY.search(name):
                ahead += map(os.fsdecode, INCLUDED.findall(text))
            yield text

    def has_modules(self, target):
        return any(map(MODULE.search, self.sources(target)))

    def with_header_units(self):
        """Returns the names of the targets that import header units."""
        return [name for name, it in self.scanned.items() if not self.is_ours(name)
                and any(map(HEADER_UNIT.search, self.sources(it)))]

    def with_other_flags(self):
        """Yields for a target that imports a module of another one: its name, the module, the name
        of the other one, and the flags in which they differ."""
        flags = {name: it.compared_flags() for name, it in self.scanned.items()}
        if len({*flags.values()}) < 2:
            return
        names = {name: {*NAMES.findall(b"\n".join(self.sources(it)))}
                 for name, it in self.scanned.items()}
        for name, it in self.scanned.items():
            imported = {(b"module", module) for what, module in names[name] if what == b"import"}
            for other in sorted(it.imports_from):
                modules = imported & names[other]
                if modules and flags[name] != flags[other]:
                    module = min(modules)[1].decode("utf-8", "replace")
                    yield name, module, other, sorted(flags[name] ^ flags[other])

    def share_threads(self):
        """Gives all targets `-pthread` if one has it. Clang rejects the modules of a target that
        differs in this, and it changes nothing else."""
        clang = [it for it in self.scanned.values() if it.style == "clang"]
        missing = [it for it in clang if "-pthread" not in it.words]
        name = self.generator.FLAGS
        for target in missing if len(missing) < len(clang) else []:
            target.words.append("-pthread")
            for it in target.compiles:
                it.raw[name] = f"{it.raw.get(name, f'${{{name}}}')} -pthread"

    def is_to_come(self, target):
        """Whether a source is not there yet, and may have a module."""
        names = [os.path.join(self.folder, it) for build in target.compiles for it in build.inputs]
        return not all(map(os.path.exists, names))

    # ---- links

    def linked(self, build):
        """Returns the targets whose objects a program or library has, or is linked with, directly
        or through shared libraries."""
        found, seen, ahead = set(), set(), [build]
        while ahead:
            it = ahead.pop()
            if it not in seen:
                seen.add(it)
                targets, through = self.parts_of(it)
                found |= targets
                ahead += through
        return found & self.scanned.keys()

    @functools.lru_cache(None)
    def parts_of(self, build):
        """Returns the targets of the objects among the inputs, and the statements that make the
        libraries among them."""
        inputs = self.generator.linked_inputs(build)
        producers = [*filter(None, map(self.file.producers.get, inputs))]
        return ({self.target_of(it) for it in producers if self.is_compilation(it)},
                [it for it in producers if self.generator.THROUGH.match(it.rule)])

    def keep(self, users):
        """Keeps these targets and those that may import from them, so that a later import needs
        no new adoption."""
        reached = reachability(lambda name: self.scanned[name].imports_from)
        self.scanned = {name: it for name, it in self.scanned.items()
                        if name in users or reached(name) & users}
        for it in self.scanned.values():
            it.links &= self.scanned.keys()
            it.candidates &= self.scanned.keys()
