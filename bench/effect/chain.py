"""Prints an edge list in which each edge needs the output of the next one, and with cycle=1 the
last one that of the first: edges=EDGES cycle=0|1.
"""
from names import arguments, path

given = arguments()
for number in range(given.edges):
    needed = (path("gen", (number + 1) % given.edges, ".h")
              if given.cycle or number + 1 < given.edges else "first.txt")
    print(f"build {path('gen', number, '.h')}: gen {needed}")
