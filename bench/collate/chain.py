"""Writes a target whose objects each require the module of the next one, and with cycle=1 the last
one that of the first: objects=OBJECTS cycle=0|1 d=DIR. DIR gets a scan document of all rules and a
target document.
"""
from names import arguments, module, rule, scan, target, write

given = arguments()
shape = "cycle" if given.cycle else "chain"


def required(number):
    return ([module((number + 1) % given.objects)]
            if given.cycle or number + 1 < given.objects else [])


write(f"{given.d}/{shape}.ddi",
      scan([rule(number, required(number)) for number in range(given.objects)]))
write(f"{given.d}/{shape}.json", target("t", [f"../documents/{shape}.ddi"], [], "none"))
