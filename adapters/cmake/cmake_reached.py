"""Modules of one name: which of them the imports of a target lead to.

The program reads the info files of all targets that are linked, directly or not, and rejects two
modules of one name there. CMake builds such a project, as long as no import leads to both. Then the
target is collated without the modules that no import leads to.
"""
import json
import os

from adapter_files import Wrong, document, write_if_changed


def write_documents(given, target, objects):
    """Writes a target document, and info files for it, that have only the modules of linked targets
    that imports lead to. Returns the name of the document."""
    infos = [document(it) for it in given["linked"]]
    reached = reached_modules(given, target, objects, infos)
    check(given, objects, infos, reached)
    linked = []
    for number, (path, info) in enumerate(zip(given["linked"], infos)):
        modules = [it for it in info["modules"] if (number, it["name"]) in reached]
        if modules and len(modules) < len(info["modules"]):
            path = f"{given['target']}/CXX.reached-{number}.json"
            write_if_changed(path, json.dumps({**info, "modules": modules}))
        linked += [path] * bool(modules)
    name = f"{given['target']}/CXX.reached.json"
    write_if_changed(name, json.dumps({**given, "linked": linked}, indent=1))
    return name


def reached_modules(given, target, objects, infos):
    """Returns the modules of linked targets that imports lead to, each as the number of its info
    file and its name."""
    by_name, by_file = {}, {}
    for number, info in enumerate(infos):
        for it in info["modules"]:
            by_name.setdefault(it["name"], []).append((number, it))
            by_file[it["name"], it["bmi"]] = number, it
    shown = {f"{it}/CXXModules.json" for it in target["linked-target-dirs"]}
    own = {name for it in objects for name, _ in it.provides}

    def rank(found):
        number, module = found
        is_hidden = os.path.abspath(given["linked"][number]) not in shown
        return is_hidden, module.get("visibility") == "private"

    ahead, reached = [], set()
    for name in {name for it in objects for name in it.requires} - own:
        found = by_name.get(name, [])
        # what CMake finds: a public module of a linked target; otherwise one that makes an error
        best = min(map(rank, found), default=None)
        ahead += [it for it in found if rank(it) == best]
    while ahead:
        number, module = ahead.pop()
        if (number, module["name"]) not in reached:
            reached.add((number, module["name"]))
            required = ((it["name"], it["bmi"]) for it in module["requires"])
            ahead += [by_file[it] for it in required if it in by_file]
    return reached


def check(given, objects, infos, reached):
    """Fails if imports lead to two modules of one name, because a program can have only one."""
    providers = {name: given["target"] for it in objects for name, _ in it.provides}
    for number, name in sorted(reached):
        other = providers.setdefault(name, infos[number]["target"])
        if other != infos[number]["target"]:
            raise Wrong(
                f"{given['target']}: {other} and {infos[number]['target']} both provide "
                f"{name}, and imports lead to both: a program can have only one module of a "
                "name")
