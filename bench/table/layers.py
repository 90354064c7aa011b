"""Writes a target whose objects are in layers of ten: objects=OBJECTS d=DIR.

Each object provides a module and requires four of the layer below its own, so it needs nearly all
modules below it. DIR gets a scan document of all rules, and target documents without maps and with
maps for GCC.
"""
from names import Numbers, arguments, module, rule, scan, target, write

given = arguments()
numbers = Numbers()


def rule_of(number):
    first, drawn = number - number % 10 - 10, numbers.below(10)
    return rule(number,
                [module(first + (drawn + entry) % 10) for entry in range(4 if first >= 0 else 0)])


write(f"{given.d}/layers.ddi", scan([rule_of(number) for number in range(given.objects)]))
for form in "none", "gcc":
    write(f"{given.d}/layers.{form}.json", target("t", ["../documents/layers.ddi"], [], form))
