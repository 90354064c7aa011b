"""Prints a scan document: rules=RULES required=REQUIRED.

Each rule provides a module and requires others, of lower numbers and drawn from all of them. One
that is drawn twice is required twice. With libraries=COUNT the last required one is of one of that
many info files, which have 500 modules each. names=FILE has the names of the modules, one per line.
"""
from pathlib import Path

from names import Numbers, arguments, dumped, info_name, module, rule, scan

given = arguments(libraries=0, names=None)
numbers = Numbers()
names = Path(given.names).read_text().splitlines() if given.names else None
name = names.__getitem__ if names else module


def required(number, entry):
    if given.libraries and entry == given.required - 1:
        return info_name(numbers.below(given.libraries), numbers.below(500))
    return name(numbers.below(number))


print(dumped(scan([rule(number, [required(number, entry) for entry in range(
    given.required if number else 0)], name) for number in range(given.rules)])), end="")
