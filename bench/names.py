"""What the generators of documents share: names of sources and modules, numbers drawn from a
sequence, and parts of documents.

A generator is called as GENERATOR NAME=VALUE.. with this directory in PYTHONPATH (`generate` of
common.sh). It prints one document, or writes several to a directory d. A target is collated in a
directory next to d.
"""
import json
import sys
from pathlib import Path
from types import SimpleNamespace

DIRECTORIES = "core", "data", "net", "view"


def arguments(**values):
    """The values of the command line, and of these those that it does not have."""
    for word in sys.argv[1:]:
        name, _, value = word.partition("=")
        values[name] = int(value) if value.isdigit() else value
    return SimpleNamespace(**values)


class Numbers:
    """The pseudorandom numbers of Park and Miller, the same in each run."""
    def __init__(self):
        self.state = 1

    def below(self, limit):
        self.state = self.state * 16807 % 2147483647
        return self.state % limit


def module(number):
    return f"{DIRECTORIES[number % 4]}.m{number}"


def path(root, number, ending):
    return f"{root}/{DIRECTORIES[number % 4]}/m{number}{ending}"


def dumped(value):
    return json.dumps(value, separators=(",", ":"))


def write(file, value):
    Path(file).write_text(dumped(value))


def rule(number, required, name=module):
    """A rule of a scan document: an object that provides a module and requires those of these
    names."""
    return {"primary-output": path("obj", number, ".o"),
            "provides": [{"is-interface": True, "logical-name": name(number),
                          "source-path": path("src", number, ".cppm")}],
            "requires": [{"logical-name": it} for it in required]}


def scan(rules):
    return {"revision": 0, "rules": rules, "version": 1}


def target(name, scans, linked, form, dyndep="t.dd", info="t.json"):
    """A target document, with maps of this form."""
    return {"dyndep": dyndep, "info": info, "linked": linked,
            **({} if form == "none" else {"map": form}), "module-dir": "mod", "module-ext": ".gcm",
            "scans": scans, "target": name, "version": 1}


def info_name(info, number):
    return f"lib{info}.m{number}"


def info_file(info, number):
    return f"lib{info}/m{number}.gcm"


def info(number, count):
    """An info file of that many modules, in chains of five."""
    def pair(local):
        return {"bmi": info_file(number, local), "name": info_name(number, local)}

    modules = [{**pair(local), "requires": [pair(local - 1)] if local % 5 else [],
                "visibility": "public"} for local in range(count)]
    return {"modules": modules, "target": f"lib{number}", "version": 2}


def dyndep_info(linked, numbers):
    """What CMake reads in place of a target document: the directories of the linked targets, and
    the sources of these objects."""
    modules = {path("obj", number, ".o"): {"name": "fs", "source": path("/s/src", number, ".cppm"),
                                           "relative-directory": "", "type": "CXX_MODULES",
                                           "visibility": "PUBLIC", "destination": None}
               for number in numbers}
    return {"language": "CXX", "compiler-id": "GNU", "dir-cur-bld": "/b", "dir-cur-src": "/s",
            "dir-top-bld": "/b", "dir-top-src": "/s", "include-dirs": [], "module-dir": "mod",
            "linked-target-dirs": linked, "cxx-modules": modules, "bmi-installation": None,
            "exports": [], "config": ""}
