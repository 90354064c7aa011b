"""Writes the target documents of alone.ddi and linked.ddi, and the 20 info files of 500 modules
that the second one links: d=DIR."""
from names import arguments, info, target, write

given = arguments()
for number in range(20):
    write(f"{given.d}/lib{number}.json", info(number, 500))
write(f"{given.d}/alone.json", target("t", ["../documents/alone.ddi"], [], "none"))
write(f"{given.d}/linked.json", target("t", ["../documents/linked.ddi"],
                                       [f"../documents/lib{it}.json" for it in range(20)], "none"))
