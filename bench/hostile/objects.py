"""Prints a scan document with that many rules of one member, an object's path of nearly that many
bytes: rules=RULES bytes=BYTES.

Before the last name there are as many directories, and as many `..`, as fit.
"""
from names import arguments, dumped, scan

given = arguments()


def output(number):
    last = f"m{number}.o"
    levels = max(0, given.bytes - len(last)) // 5
    return "a/" * levels + "../" * levels + last


print(dumped(scan([{"primary-output": output(number)} for number in range(given.rules)])), end="")
