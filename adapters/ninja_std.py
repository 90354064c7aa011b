"""The modules std and std.compat, if a source of a build imports one of them.

Their sources, which the standard library ships, become a target like any other, as if the generator
had written it: one for all targets whose compilation differs in nothing that matters to a module.
Each program and shared library with a target that imports std is linked with its objects.
"""
import re
from dataclasses import dataclass

from adapter_files import Wrong
from compilers import standard_sources
from ninja_files import NinjaFile, escaped
from ninja_targets import Targets

IMPORT = re.compile(rb"^[ \t]*(?:export\s+)?import\s+std(?:\.compat)?\s*;", re.M)
# The flags that an importer of a module has to share, and those that only change the code. All code
# is position-independent, so that it can be linked everywhere.
SHARED = re.compile(r"-(std=|stdlib=|m|f|pthread|-?target|nostd|-?sysroot|isysroot|"
                    r"D_(GLIBCXX|LIBCPP|FORTIFY))")
CODE = re.compile(r"-f(no-)?(PIC|PIE|pic|pie|color|diagnostics|visibility|modules|module-)")


def with_standard_library(generator, folder, file):
    """Returns the targets of a Ninja file, with those of the standard library that they need."""
    targets = Targets(generator, folder, file)
    users = {name: it for name, it in targets.scanned.items()
             if any(map(IMPORT.search, targets.sources(it)))}
    if not users:
        return targets
    libraries, changed = {}, {}
    used = {name: library_of(generator, target, libraries) for name, target in users.items()}
    for build in filter(lambda it: generator.LINK.match(it.rule), file.builds):
        found = {used[it] for it in targets.linked(build) & users.keys()}
        more = sorted(name for it in found for name in it.objects)
        if more:
            text = build.text(build.rule, inputs=build.inputs + more)
            changed.setdefault(build.file, {})[build] = text
    texts = {it.name: it.changed(changed.get(it, {})) for it in file.files}
    for it in libraries.values():
        # there the rule is known
        texts[it.file.name] += f"\n{it.statements}"
    new = NinjaFile(texts.__getitem__)
    new.differs = {it.name for it in changed} | {it.file.name for it in libraries.values()}
    return Targets(generator, folder, new, {name: it.name for name, it in used.items()})


@dataclass(eq=False)
class Library:
    name: str
    file: NinjaFile
    objects: list
    statements: str


def library_of(generator, target, libraries):
    """Returns the library for a target: one of `libraries`, which has them by the rule and the
    flags."""
    command = target.words[target.is_launched:]
    flags = [it for it in command[1:] if SHARED.match(it) and not CODE.match(it)]
    build = target.compiles[0]
    key = build.rule, *flags
    if key not in libraries:
        if target.style == "clang":
            flags.append("-Wno-reserved-module-identifier")
        try:
            sources = standard_sources([command[0], *flags], target.style)
        except Wrong as wrong:
            raise Wrong(f"{target.name} imports std, and {wrong}: Clang has it with "
                        "-stdlib=libc++, and GCC from version 15 on") from None
        name = f"{generator.FOLDER}/std{len(libraries) or ''}"
        objects = [f"{name}/{it.rpartition('/')[2]}.o" for it in sources]
        text = "".join(statement(build.rule, it, source, generator.bindings(it, [*flags, "-fPIC"]))
                       for it, source in zip(objects, sources))
        libraries[key] = Library(name, build.file, objects, text)
    return libraries[key]


def statement(rule, name, source, variables):
    lines = [f"build {escaped(name)}: {rule} {escaped(source)}",
             *(f" {it} = {raw}" for it, raw in variables.items())]
    return "\n".join([*lines, ""])
