"""Writes a project whose targets link many others: targets=TARGETS each=OBJECTS links=LINKS d=DIR.

Each target has that many objects and links the first LINKS targets before it, or all of them if
LINKS is 0, as the targets of a monorepo do. Each object provides a module. It requires up to three
modules of its own target and two of the targets that it links. DIR gets a scan document and a
target document for each target, and project.json. With map=gcc there are maps. With cmake=1 there
is also what CMake reads instead: tTARGET gets a scan document for each object, and DyndepInfo.json,
which names the directories in which CMake collated the linked targets.
"""
from names import Numbers, arguments, dyndep_info, module, rule, scan, target, write

given = arguments(map="none", cmake=0)
numbers = Numbers()


def linked(number):
    """How many targets this one links, which are the first ones."""
    return min(given.links, number) if given.links else number


def rule_of(number, local):
    first, own = number * given.each, numbers.below(given.each)
    required = [module(first + (own + entry) % local) for entry in range(min(local, 3))]
    required += [module(numbers.below(linked(number) * given.each))
                 for _ in range(2 if number else 0)]
    return rule(first + local, required)


def write_target(number):
    rules = [rule_of(number, local) for local in range(given.each)]
    write(f"{given.d}/{number}.ddi", scan(rules))
    if given.cmake:
        for local, one in enumerate(rules):
            write(f"{given.d}/t{number}/{local}.ddi", scan([one]))
        write(f"{given.d}/t{number}/DyndepInfo.json",
              dyndep_info([f"t{it}" for it in range(linked(number))],
                          range(number * given.each, (number + 1) * given.each)))
    infos = [f"t{it}.json" for it in range(linked(number))]
    write(f"{given.d}/{number}.json", target(f"t{number}", [f"../documents/{number}.ddi"], infos,
                                             given.map, f"t{number}.dd", f"t{number}.json"))


for each in range(given.targets):
    write_target(each)
write(f"{given.d}/project.json",
      {"targets": [f"../documents/{it}.json" for it in range(given.targets)], "version": 1})
