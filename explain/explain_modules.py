"""The modules that an import may mean: of targets that are not linked, of scans that no target
lists, and those with like names."""
import difflib
import os
from collections import namedtuple
from os.path import dirname, join

from explain_build import build_documents, is_target
from explain_documents import Target, beside, document, file_of, info_of, parsed, read
from explain_sources import provides

# What provides a module, in words, and its rule if that is known.
Provider = namedtuple("Provider", "text rule")
STANDARD = ("std", "std.compat")


def nearest(target, project, name):
    """Lines about the documents that provide a module, or otherwise about what may be wrong."""
    found = provided(target)
    for other, provider in near(target, project):
        found.setdefault(other, provider)
    if name in found:
        return [f"{found[name].text}.", *provides(found[name].rule, name)]
    if name in STANDARD:
        return [f"No target provides {name}. Link one that compiles it, as GUIDE says in "
                '"`import std;`".']
    lines = [*without_rules(target, project), *unknown_members(target)]
    for it in like(name, found):
        lines += [f"A like name is {it}: {found[it].text}.", *provides(found[it].rule, it)]
    return lines


def provided(target):
    """All modules that objects of a target can import."""
    found = {name: Provider(f"{it.object} provides it", it)
             for it in target.rules for name, _ in it.provides}
    return found | {name: Provider(f"{it.target} provides it, by {it.file}",
                                   rule_in_build(it, name))
                    for it in target.infos for name in it.modules}


def rule_in_build(info, module):
    """The rule of a module of an info file, if the target that writes the file is found."""
    writer = next((it for it in build_documents()[1] if it.writes == info.file), None)
    return writer.rule_of(module) if writer else None


def near(target, project):
    """The modules of targets that a target does not link: of its project, or of this build."""
    known = project or [*build_documents()[1], *in_directory(target)]
    for other in known:
        if other.file != target.file and other.writes not in target.linked:
            yield from provided_by(other.rules, unlinked(other.name, other.writes, target))
    yield from unlisted(target)
    written = {it.writes for it in (target, *known)}
    for file in siblings(target.file, ".json") if not project else ():
        if "modules" in document(file) and file not in {*target.linked, *written}:
            info = info_of(file)
            text = unlinked(info.target, file, target)
            yield from ((name, Provider(text, None)) for name in info.modules)


def unlinked(name, info, target):
    return f"the target {name} provides it, and {info} is not in linked of {target.file}"


def provided_by(rules, text):
    return ((name, Provider(text, rule)) for rule in rules for name, _ in rule.provides)


def in_directory(target):
    return [Target(it) for it in siblings(target.file, ".json") if is_target(it)]


def siblings(name, end):
    folder = dirname(name)
    found = sorted(os.listdir(folder or ".")) if os.path.isdir(folder or ".") else []
    return [join(folder, it) for it in found if it.endswith(end)]


def unlisted(target):
    """The modules of scan documents that are next to those of a target and that no target lists."""
    listed = {file_of(it) for other in (target, *build_documents()[1]) for it in other.scans}
    files = {file_of(it) for folder in {dirname(it) for it in target.scans}
             for it in siblings(join(folder, "x"), ".ddi")}
    for scan in sorted(files - listed):
        text = f"{scan} provides it, and scans of {target.file} does not list it"
        yield from provided_by(target.rules_of(scan), text)


def without_rules(target, project):
    """A scan without rules, of the target or of one that it links."""
    for it in target, *(it for it in project or build_documents()[1] if it.writes in target.linked):
        for scan in it.scans:
            if document(scan).get("rules") == []:
                return [f"{scan} (of {it}) has no rules, as after a scan that failed."]
    return []


def unknown_members(target):
    """Members that dyncollate ignores, and that are like one that it knows."""
    schema = beside("target.schema.json", "../docs")
    known = parsed(read(schema))["properties"] if schema else target.document
    found = ((it, difflib.get_close_matches(it, known, 1, 0.7)) for it in target.document
             if it not in known)
    return [f"{target.file} has the member {it}, which is ignored, and {names[0]} may be meant."
            for it, names in found if names]


def like(name, names):
    """The names that may be meant: in another case, with letters in another order, of the same
    module, or otherwise close."""
    def close(it):
        return it.casefold() == name.casefold() or sorted(it) == sorted(name) or \
            it.partition(":")[0] == name.partition(":")[0]
    found = [it for it in names if close(it)]
    others = difflib.get_close_matches(name, names, 2, 0.7)
    return [*found, *(it for it in others if it not in found)][:2]
