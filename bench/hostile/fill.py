"""Prints a document of 16 MiB, the most that one may have, or a little less: fill.py BEFORE PIECE
AFTER. The piece is between the others, as often as it fits."""
import sys

before, piece, after = sys.argv[1:]
count = (16_777_216 - len(before) - len(after)) // len(piece)
sys.stdout.write(before + piece * count + after)
