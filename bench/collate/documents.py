"""Writes the documents of a target with that many objects: objects=OBJECTS d=DIR.

Each object provides a module and requires four: up to three of lower numbers in its block of 50,
and others of an info file, so that objects need few modules. DIR gets a scan document for each
object, one of all of them (all.ddi), ten info files, target documents of both for each form of maps
(each.none.json, all.none.json, ..), and what CMake reads in place of the target document and the
info files.
"""
from names import (Numbers, arguments, dyndep_info, info, info_file, info_name, module, rule, scan,
                   target, write)

LIBRARIES, MODULES = 10, 100
given = arguments()
numbers = Numbers()


def references(number):
    """What CMake reads in place of an info file: the files of modules,
    and all that each one needs."""
    def needed(local):
        return [info_name(number, it) for it in range(local - local % 5, local)]

    return {"modules": {info_name(number, it): info_file(number, it) for it in range(MODULES)},
            "references": {info_name(number, it): {"lookup-method": "by-name", "path": info_file(
                number, it)} for it in range(MODULES)},
            "usages": {info_name(number, it): needed(it) for it in range(MODULES)}}


def info_module(number, which):
    """One of the five modules of an info file that the block of an object uses."""
    block = number // 50
    return info_name(block % 10, block // 10 % 20 * 5 + which % 5)


def rule_of(number):
    local, drawn = number % 50, numbers.below(50)
    own = min(local, 3)
    return rule(number, [module(number - local + (drawn + entry) % local) for entry in range(own)] +
                [info_module(number, drawn + entry) for entry in range(own, 4)])


rules = [rule_of(number) for number in range(given.objects)]
write(f"{given.d}/all.ddi", scan(rules))
for number, one in enumerate(rules):
    write(f"{given.d}/{number}.ddi", scan([one]))
for library in range(LIBRARIES):
    write(f"{given.d}/lib{library}.json", info(library, MODULES))
    write(f"{given.d}/lib{library}/CXXModules.json", references(library))
linked = [f"../documents/lib{it}.json" for it in range(LIBRARIES)]
for form in "none", "gcc", "clang":
    write(f"{given.d}/each.{form}.json",
          target("t", [f"../documents/{it}.ddi" for it in range(given.objects)], linked, form))
    write(f"{given.d}/all.{form}.json", target("t", ["../documents/all.ddi"], linked, form))
write(f"{given.d}/DyndepInfo.json",
      dyndep_info([f"../documents/lib{it}" for it in range(LIBRARIES)], range(given.objects)))
