"""The step of a group of static libraries: finds from their scans which library needs which,
collates each after those that it needs, and writes one dyndep file for all. A library that is up to
date is not collated again, so this does not call `dyncollate project`, which collates all.

It runs in the build directory, as Ninja calls it, and imports only modules that are quick to
import.
"""
import graphlib
import json
import os
import subprocess

from adapter_files import Wrong, document, read, write, write_if_changed


class Member:
    """A library of the group. `provided` has what each of its modules requires, and `required`
    what its sources require."""

    def __init__(self, given):
        self.name, self.content = given["document"], given["content"]
        self.candidates = given["candidates"]
        self.target, self.info = self.content["target"], self.content["info"]
        self.provided, self.required = {}, []
        for rule in (rule for scan in self.content["scans"] for rule in rules_of(scan)):
            names = [it["logical-name"] for it in rule.get("requires") or []]
            self.provided.update((it["logical-name"], names) for it in rule.get("provides") or [])
            self.required += names

    def linked(self, provided):
        """Returns the info files of what it imports from, directly or through others. `provided`
        has the modules of each info file. All modules of a file count, because the program reads
        it as a whole."""
        known = self.content["linked"]
        found, seen = set(known), {*self.provided}
        ahead = self.required + [name for info in known for name in required_by(provided[info])]
        while ahead:
            module = ahead.pop()
            if module in seen:
                continue
            seen.add(module)
            providers = [it for it in {*known, *self.candidates} if module in provided[it]]
            if len(providers) > 1:
                raise Wrong(f"{self.target} needs {module}, which several libraries that it may"
                            f" import from provide: {', '.join(sorted(providers))}")
            for info in {*providers} - found:
                found.add(info)
                ahead += required_by(provided[info])
        return sorted(found)


def rules_of(scan):
    try:
        return document(scan).get("rules") or []
    except (AttributeError, Wrong):
        return []  # the program says what is wrong with it


def required_by(modules):
    return [name for names in modules.values() for name in names]


def modules_of(info):
    return {it["name"]: [other["name"] for other in it["requires"]]
            for it in document(info)["modules"]}


def in_order(members, linked):
    """Returns the libraries, each after those that it links."""
    targets = {it.info: it.target for it in members}
    graph = {it.target: [targets[info] for info in linked[it.info] if info in targets]
             for it in members}
    try:
        order = [*graphlib.TopologicalSorter(graph).static_order()]
    except graphlib.CycleError as cycle:
        raise Wrong("libraries import each other's modules in a cycle: "
                    + " -> ".join(reversed(cycle.args[1]))) from None
    return sorted(members, key=lambda it: order.index(it.target))


def group(program, name):
    """Runs the step of this document and returns its status."""
    given = document(name)
    members = [*map(Member, given["targets"])]
    provided = {it.info: it.provided for it in members}
    for info in {info for it in members for info in (*it.content["linked"], *it.candidates)}:
        if info not in provided:
            provided[info] = modules_of(info)
    linked = {it.info: it.linked(provided) for it in members}
    members = in_order(members, linked)
    for it in members:
        status = collate(program, it, linked[it.info])
        if status:
            return status
    # the first line of each dyndep file has the version
    files = [read(it.content["dyndep"]).partition("\n") for it in members]
    write(given["dyndep"], "\n".join([files[0][0], "".join(rest for _, _, rest in files)]))
    return 0


def collate(program, member, linked):
    """Collates a library if it is out of date."""
    content = {**member.content, "linked": linked}
    write_if_changed(member.name, json.dumps(content, indent=1) + "\n")
    maps = [f"{it[:-len('.ddi')]}.modmap" for it in content["scans"]]
    inputs = [member.name, program, *content["scans"], *linked]
    if is_current([*maps, content["info"], content["dyndep"]], inputs):
        return 0
    status = subprocess.call([program, "collate", member.name])
    if status:
        import ninja_why  # only failures need it
        return ninja_why.why(program, member.name)
    return 0


def is_current(outputs, inputs):
    """Whether the outputs are there and the last one, which is written last, is not older than the
    inputs. Equal times are enough, as in Ninja: files of a few milliseconds may have one time."""
    try:
        newest = max(os.stat(it).st_mtime_ns for it in inputs)
        return all(map(os.path.exists, outputs)) and os.stat(outputs[-1]).st_mtime_ns >= newest
    except FileNotFoundError:
        return False
