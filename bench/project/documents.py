"""Writes a project of that many targets, with that many objects in total: targets=TARGETS
objects=OBJECTS map=FORM d=DIR.

The targets form ten layers of the same size. A target links one of each lower layer, those that are
below it. Each object provides a module, and requires three of lower numbers in its block of ten, as
far as there are, and one of the same block of the target directly below. So the modules of all
linked targets are read, and objects need few modules. DIR gets a scan document for each target, the
target documents and project.json.
"""
from names import Numbers, arguments, module, rule, scan, target, write

given = arguments(map="none")
numbers = Numbers()
layer, count = given.targets // 10, given.objects // given.targets


def rule_of(number, local):
    index, drawn = local % 10, numbers.below(10)
    start = number * count + local - index
    below = start - count * layer + numbers.below(min(count - local + index, 10))
    required = [module(start + (drawn + entry) % index) for entry in range(min(index, 3))]
    return rule(start + index, required + [module(below)] * (number >= layer))


for number in range(given.targets):
    write(f"{given.d}/{number}.ddi", scan([rule_of(number, local) for local in range(count)]))
    linked = [f"t{lower}.json" for lower in range(number % layer, number, layer)]
    write(f"{given.d}/{number}.json", target(f"t{number}", [f"../documents/{number}.ddi"], linked,
                                             given.map, f"t{number}.dd", f"t{number}.json"))
write(f"{given.d}/project.json",
      {"targets": [f"../documents/{it}.json" for it in range(given.targets)], "version": 1})
