"""The documents of a build as dyncollate reads them. What is faulty in them is left out."""
import errno
import functools
import json
import os
import re
from collections import namedtuple
from os.path import dirname, join, realpath

HERE = dirname(realpath(__file__))

# `provides` are names with their BMIs, `requires` names. `alone`: no other rule is in its scan.
Rule = namedtuple("Rule", "object scan index alone provides requires source")
Module = namedtuple("Module", "bmi requires private")
Info = namedtuple("Info", "target file modules")  # the modules by name


class Wrong(Exception):
    """Why nothing can be explained, in one line."""


def read(name):
    try:
        with open(name, "rb") as file:
            return file.read()
    except ValueError as error:  # a string that cannot be the name of a file
        raise FileNotFoundError(errno.ENOENT, os.strerror(errno.ENOENT), name) from error


def parsed(text):
    try:
        return json.loads(text)
    except (ValueError, RecursionError):
        return None


@functools.lru_cache(None)
def document(name):
    """The object in a file, or an empty one if the file has none."""
    try:
        found = parsed(read(name))
    except OSError:
        found = None
    return found if isinstance(found, dict) else {}


def beside(name, *directories):
    """A file next to this one, as after an installation, or in a directory of an archive or of the
    sources; or None."""
    names = (join(HERE, it, name) for it in (".", *directories))
    return next((it for it in names if os.path.exists(it)), None)


def strings(owner, member):
    return entries(owner, member, str)


def entries(owner, member, kind=dict):
    found = owner.get(member)
    return [it for it in found if isinstance(it, kind)] if isinstance(found, list) else []


def canonical(path, work="", build=""):
    """A path as the lines of dyncollate have it."""
    path = f"{work}/{path}" if work and not path.startswith("/") else path
    parts = []
    for part in path.split("/"):
        if part == ".." and parts and parts[-1] != "..":
            parts.pop()
        elif part not in ("", "."):
            parts.append(part)
    found = "/" * path.startswith("/") + "/".join(parts)
    return found[len(build) + 1:] if build and found.startswith(f"{build}/") else found


def file_of(name):
    """The name of a file from the working directory, so that two names of a file are the same."""
    return canonical(name, build=os.getcwd())


def printed(text):
    """A string as an error line has it."""
    return re.sub(r"[\x00-\x1f\x7f]", "?", text)


def shown(value):
    text = json.dumps(value, ensure_ascii=False)
    return text if len(text) <= 100 else text[:97] + "..."


class Target:
    """A target document, and what the documents have that it names."""

    def __init__(self, name, earlier=None):
        """`earlier` has the earlier targets of the project. Without it, linked targets are known
        from their info files."""
        self.file, self.document, self.earlier = name, document(name), earlier
        self.name = str(self.document.get("target"))
        self.scans, self.linked = strings(self.document, "scans"), strings(self.document, "linked")
        self.edges, info = self.document.get("edges"), self.document.get("info")
        self.writes = info if isinstance(info, str) else None

    def __str__(self):
        return f"target {self.name} ({self.file})"

    @functools.cached_property
    def rules(self):
        return [rule for scan in self.scans for rule in self.rules_of(scan)]

    @functools.cached_property
    def infos(self):
        if self.earlier is None:
            return [info for info in map(info_of, self.linked) if info]
        written = {it.writes: it for it in self.earlier}
        return [written[it].info() for it in self.linked if it in written]

    def rules_of(self, scan):
        build = self.document.get("build-dir")
        build = canonical(build) if isinstance(build, str) else ""
        rules = entries(document(scan), "rules")
        for index, rule in enumerate(rules):
            work, provided = rule.get("work-directory") or "", entries(rule, "provides")
            provides = [(str(it.get("logical-name")), self.bmi_of(it, work, build))
                        for it in provided]
            requires = [str(it.get("logical-name")) for it in entries(rule, "requires")]
            source = next((it["source-path"] for it in provided if it.get("source-path")), None)
            yield Rule(canonical(str(rule.get("primary-output")), work, build), scan, index,
                       len(rules) == 1, provides, requires, source and join(work, str(source)))

    def bmi_of(self, entry, work, build):
        if entry.get("compiled-module-path"):
            return canonical(str(entry["compiled-module-path"]), work, build)
        folder, end = (str(self.document.get(it, "")) for it in ("module-dir", "module-ext"))
        name = str(entry.get("logical-name")).replace(":", "-")
        return canonical(f"{folder}{'/' * bool(folder)}{name}{end}")

    def info(self):
        """The info file that is written for this target."""
        private = strings(self.document, "private")
        return Info(self.name, str(self.document.get("info")), {
            name: Module(bmi, {it: "" for it in rule.requires}, name in private)
            for rule in self.rules for name, bmi in rule.provides})

    def rule(self, path):
        """The rule of the object with this path in an error line."""
        return next((it for it in self.rules if printed(it.object) == path), None)

    def rule_of(self, module):
        """The rule that provides a module."""
        return next((it for it in self.rules if module in dict(it.provides)), None)

    def info_named(self, name):
        return next((it for it in self.infos if printed(it.target) == name), None)

    def outputs(self):
        """The files that a collation writes, in this order, each with what it is."""
        if self.document.get("map"):
            yield from ((f"{it.object}.modmap", f"the map of {it.object}") for it in self.rules)
        yield from ((self.document[it], f"`{it}`") for it in ("info", "dyndep")
                    if isinstance(self.document.get(it), str))

    def inputs(self):
        """The files that a collation reads, each with what it is."""
        yield self.file, "the target document"
        yield from ((it, f"scan {index}") for index, it in enumerate(self.scans))
        yield from ((it, f"info {index}") for index, it in enumerate(self.linked))
        if isinstance(self.edges, str):
            yield self.edges, "`edges`"


def clash(targets):
    """The file that a run would replace though it reads it or writes it twice, and why; or None."""
    targets = {file_of(it.file): it for it in targets}.values()
    known = {file_of(name): (what, it) for it in targets for name, what in it.inputs()
             if it.earlier is None or not what.startswith("info ")}
    for target in targets:
        for name, what in target.outputs():
            other, owner = known.setdefault(file_of(name), (what, target))
            if (other, owner) != (what, target):
                of = "" if owner is target else f" of {owner}"
                return file_of(name), f"{what} of {target}, {name}, is also {other}{of}"
    return None


def info_of(name):
    found = document(name)
    modules = {str(it.get("name")): Module(str(it.get("bmi")), {
        str(other.get("name")): str(other.get("bmi")) for other in entries(it, "requires")},
        it.get("visibility") == "private") for it in entries(found, "modules")}
    return Info(str(found.get("target")), name, modules) if found else None


def targets_of(name):
    """The targets of a project document, each with those before it."""
    found = []
    for it in strings(document(name), "targets"):
        found.append(Target(it, [*found]))
    return found
