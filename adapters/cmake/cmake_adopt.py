"""Makes the Ninja files of a CMake build call dyncollate, and gives them back the bytes that CMake
wrote.

CMake's step of each C++ target is replaced: by the program, if a target document that is written
now says all that the step has to know, and otherwise by the step in Python. CMake's command stays
in a comment below the new one. What the step reads besides CMake's inputs is in a line of its own,
which continues the build statement.
"""
import collections
import json
import os
import re

from adapter_files import EXTENSIONS, Alone, Wrong, escaped, read, replace, write_if_changed
from cmake_ninja import AFTER_CMAKE, Files, as_cmake_wrote, ninja_files, program_of, shell

# Adoption begins again this often if CMake writes its Ninja files at the same time.
ATTEMPTS = 9
NO_MODULES = "has no target whose sources are scanned for C++ modules"


# ---- the targets

def check(steps, build):
    """Fails if there is a target that is not handled. All C++ targets of a build use the same step,
    because they read each other's files."""
    known = {it.path for it in steps}
    for it in steps:
        style = it.options.get("modmapfmt")
        unknown = sorted({*it.target["linked-target-dirs"]} - known)
        reason = ""
        if style not in EXTENSIONS:
            reason = f"its module maps are for {style or 'no compiler'}"
        elif it.target.get("database-info"):
            reason = "it is part of a build database"
        elif it.target.get("forward-modules-from-target-dirs"):
            reason = "it passes on modules that it does not link"
        elif unknown:
            reason = f"it links {unknown[0]}, whose modules are not collated in this build"
        if reason:
            raise Wrong(f"{build} is not adopted because of {it.folder}: {reason}")


def why_python(step, users):
    """Returns which of its modules need the step in Python, or None."""
    entries = step.target["cxx-modules"].values()
    private = {it["visibility"] == "PRIVATE" for it in entries}
    if any(it.get("bmi-only") for it in entries):
        # the module's file is the object, which the program rejects
        return "modules of packages"
    if True in private and (False in private or step.path in users):
        # only the scans say which names these modules have, and others must not import them
        return "private modules"
    if step.target["bmi-installation"]:
        return "installed modules"
    if any(it["cxx-module-info-dir"] for it in step.target["exports"]):
        return "exported modules"
    return None


def hidden_steps(steps):
    """Returns, by its path, the steps of targets that each reaches only through links that hide
    them, such as the PRIVATE ones of a shared library. CMake lists all others in
    `linked-target-dirs`."""
    # a bit for each step, so that large projects take no time
    bits = {it.path: 1 << index for index, it in enumerate(steps)}
    linked = {it.path: it.target["linked-target-dirs"] for it in steps}
    direct = {path: sum(map(bits.get, {*paths})) for path, paths in linked.items()}
    reached, before = dict(direct), None
    # in both orders, because CMake may write a target before or after those that it links
    order = [*linked.items()]
    while reached != before:
        before = dict(reached)
        for path, paths in order:
            for it in paths:
                reached[path] |= reached[it]
        order.reverse()
    hidden = {path: bits_of & ~direct[path] & ~bits[path] for path, bits_of in reached.items()}
    return {path: [it for it in steps if found & bits[it.path]] if found else []
            for path, found in hidden.items()}


def as_written(path, target):
    """Returns a path as the program writes it: without the build directory, if that has it."""
    below = os.path.relpath(path, target["dir-top-bld"])
    return path if below.split("/")[0] == ".." else below


def module_dir(target):
    """Returns the directory of the target's modules. The path of a module can't be quoted in a map,
    so another directory is used if there is a space, a quote or the like in it."""
    written = as_written(target["module-dir"], target)
    if not re.search(r"[\x00-\x20\x7f'\"\\]", written):
        return target["module-dir"]
    import hashlib  # only such a target needs it
    name = hashlib.sha256(written.encode("utf-8", "surrogateescape")).hexdigest()[:16]
    return f"{target['dir-top-bld']}/CMakeFiles/dyncollate/{name}"


def target_document(step, linked):
    style = step.options["modmapfmt"]
    return json.dumps({
        "version": 1, "target": step.folder, "build-dir": step.target["dir-top-bld"],
        "module-dir": module_dir(step.target), "module-ext": EXTENSIONS[style],
        "scans": step.scans, "linked": [it.info for it in linked], "dyndep": step.dyndep,
        "info": step.info, "map": style, "restat": True})


def statements_of(step):
    """Returns the lines of the dyndep file up to the part that says whether an object provides a
    module: exactly those do whose sources are in a file set of C++ modules."""
    objects = [it[:-len(".ddi")] for it in step.scans]
    ends = [" | " if it in step.target["cxx-modules"] else ": dyndep" for it in objects]
    lines = [f"build {escaped(it)}{end}" for it, end in zip(objects, ends)]
    return "\n".join(["ninja_dyndep_version", *lines, "  restat = 1", ""])


def inputs_from(hidden):
    """Returns what the line of an object has in the dyndep file if it imports from these
    targets."""
    found = set()
    for it in hidden:
        folder = as_written(module_dir(it.target), it.target)
        # a module of a package is its own object, which need not be in that directory
        objects = (name for name, its in it.target["cxx-modules"].items() if its.get("bmi-only"))
        found.update(f" {escaped(name)}\n" for name in (f"{folder}/", *objects))
    return "".join(sorted(found))


# ---- adopt and restore

class Adoption:
    """Ninja files as CMake wrote them, and how they are changed."""

    def __init__(self, build, program, this, texts):
        self.build, self.program = build, program
        self.this = shell([*this, f"--program={program}"])
        self.files = Files(texts, build)
        self.steps = self.files.steps
        check(self.steps, build)
        users = {path for it in self.steps for path in it.target["linked-target-dirs"]}
        self.with_python = {it.rule: why_python(it, users) for it in self.steps}

    def adopted(self, stays):
        """Writes the target documents and returns the texts that call dyncollate, also after Ninja
        has run CMake if that `stays`."""
        commands, statements = {}, {}
        by_path, hidden = {it.path: it for it in self.steps}, hidden_steps(self.steps)
        for step in self.steps:
            visible = [by_path[it] for it in dict.fromkeys(step.target["linked-target-dirs"])]
            files = self.write_documents(step, visible, hidden[step.path])
            commands[step.rule] = self.command(step, files)
            infos = [it.info for it in visible + hidden[step.path] if it.info not in step.inputs]
            statements[step.statement] = step.with_inputs(infos + files)
        again = f"{self.this} {AFTER_CMAKE} {shell([os.path.abspath(self.build)])}"
        return self.files.adopted(statements, commands, again if stays else None)

    def write_documents(self, step, visible, hidden):
        """Returns the names of what the step reads besides CMake's files, the target document
        last."""
        texts = {"CXX.target.json": target_document(step, visible + hidden)}
        if not self.with_python[step.rule]:
            # the step in Python knows these from CMake's document
            texts = {"CXX.statements": statements_of(step), "CXX.hidden": inputs_from(hidden),
                     **texts}
        for name, text in texts.items():
            if text:
                write_if_changed(os.path.join(self.build, step.folder, name), text)
        return [f"{step.folder}/{name}" for name, text in texts.items() if text]

    def command(self, step, files):
        """The program alone, and Python only if it fails, or if a source has a module that CMake
        does not allow, lacks one that CMake needs, or imports one that is hidden from it. Only
        status 1 of `grep` says that there is no such line."""
        *patterns, document = files
        if self.with_python[step.rule]:
            return f"{self.this} --step {shell([document])}"
        searches = (shell(["grep", flags, it, "--", step.dyndep])
                    for it, flags in zip(patterns, ("-qvFf", "-qFf")))
        checks = "".join(f" && {{ {it}; [ $$? = 1 ]; }}" for it in searches)
        return (f"said=$$({shell([self.program, 'collate', document])} 2>&1){checks} || "
                f"printf '%s\\n' \"$$said\" | {self.this} --why $$? {shell([document])}")

    def summary(self):
        reasons = collections.Counter(filter(None, self.with_python.values()))
        python = ", ".join(f"{count} with {reason}" for reason, count in reasons.items())
        return (f"{len(self.steps)} targets of {self.build} are collated by {self.program}"
                + f", {sum(reasons.values())} of them from Python ({python})" * bool(reasons))

    def report(self):
        print(f"dyncollate-cmake: {self.summary()}")
        if self.files.other_languages:
            print("dyncollate-cmake: languages other than C++ keep CMake's step")


def change(build, changed):
    """Replaces the Ninja files by what `changed` makes of their texts, as CMake wrote them. If
    CMake writes them at the same time, this begins again. Other runs wait."""
    before = ninja_files(build)
    os.makedirs(f"{build}/CMakeFiles/dyncollate", exist_ok=True)
    with Alone(f"{build}/CMakeFiles/dyncollate"):
        for _ in range(ATTEMPTS):
            texts = {name: as_cmake_wrote(text) for name, text in before.items()}
            after = {name: text for name, text in changed(texts).items() if text != before[name]}
            if replace(after, before):
                return
            before = ninja_files(build)
    raise Wrong(f"{build} is configured at the same time: call this again when `cmake` has ended")


def adopt(build, program, this, quiet=False, stays=True):
    """Adopts the build. `this` is the command that calls dyncollate-cmake. If the adoption `stays`,
    it is repeated after each run of CMake by Ninja. A `quiet` one may find no modules."""
    adoption = None

    def changed(texts):
        nonlocal adoption
        adoption = Adoption(build, program, this, texts)
        if not adoption.steps and not quiet:
            raise Wrong(f"{build} {NO_MODULES}")
        return adoption.adopted(stays)

    change(build, changed)
    if not quiet:
        adoption.report()
    elif adoption.steps:
        write_log(build, adoption.summary())


def write_log(build, line):
    """Adds a line to CMake's log of the configuration, because CMake does not print what is printed
    when it has generated."""
    name = f"{build}/CMakeFiles/CMakeConfigureLog.yaml"
    event = ["", "---", "events:", "  -", '    kind: "message-v1"', "    backtrace: []",
             "    message: |", f"      dyncollate-cmake: {line}", "...", ""]
    if os.path.exists(name) and not read(name).endswith("\n".join(event)):
        with open(name, "a", encoding="utf-8", errors="surrogateescape") as file:
            file.write("\n".join(event))


def is_optional(build):
    """Whether a build that is not handled keeps CMake's step: by the environment or, so that Ninja
    may run CMake, by its cache."""
    cache = f"{build}/CMakeCache.txt"
    cached = read(cache) if os.path.exists(cache) else ""
    cached = re.search(r"^DYNCOLLATE_OPTIONAL:\w+=(.*)$", cached, re.M)
    value = os.environ.get("DYNCOLLATE_OPTIONAL") or cached and cached[1] or ""
    return value.upper() in ("1", "ON", "TRUE", "YES")


def status(build, program):
    """Prints which program collates the targets of the build, and which of them need Python. Fails
    if CMake's step collates them, and says why. `program` returns the path of the program that
    `adopt` would use."""
    texts = ninja_files(build)
    used = program_of(texts)
    texts = {name: as_cmake_wrote(text) for name, text in texts.items()}
    adoption = Adoption(build, used or program(), [], texts)
    if not adoption.steps:
        raise Wrong(f"{build} {NO_MODULES}")
    if not used:
        raise Wrong(f"CMake's step collates {len(adoption.steps)} targets of {build}: adopt it, or "
                    "configure with dyncollate-ninja")
    adoption.report()
    for step in adoption.steps:
        if adoption.with_python[step.rule]:
            print(f"{step.folder}: {adoption.with_python[step.rule]}")


def restore(build):
    change(build, lambda texts: texts)
