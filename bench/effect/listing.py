"""Writes an edge list of compilations that name a dyndep file, and that file: edges=EDGES d=DIR.

Each statement of the dyndep file adds a module's file as an output and up to four of lower numbers
as inputs.
"""
from names import Numbers, arguments, module, path

given = arguments()
numbers = Numbers()


def module_file(number):
    return f"mod/{module(number)}.gcm"


with open(f"{given.d}/listing", "w", encoding="utf-8") as listing, open(
        f"{given.d}/listing.dd", "w", encoding="utf-8") as dyndep:
    dyndep.write("ninja_dyndep_version = 1\n")
    for number in range(given.edges):
        output = path("obj", number, ".o")
        listing.write(
            f"build {output}: cxx {path('src', number, '.cppm')} || t.dd\n  dyndep = t.dd\n")
        inputs = "".join(f" {module_file(numbers.below(number))}"
                         for _ in range(4 if number else 0))
        dyndep.write(
            f"build {output} | {module_file(number)}: dyndep{' |' + inputs if inputs else ''}\n"
            "  restat = 1\n")
