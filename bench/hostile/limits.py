"""Prints a table of the lines of `compare` and `alone` (common.sh), and the limits that each is
over: measure.sh says which they are."""
import sys

FORM = "{:9} {:>9} {:>9} {:>9} {:>6} {:>8} {:>8} {:>8} {:>9}  {}"
print(FORM.format("", "bytes", "best ms", "C++ best", "ratio", "ns/byte", "KB", "C++ KB",
                  "/document", "over"))
for line in sys.stdin:
    label, _, size, *words = line.split()
    best, _, held, *plain = map(float, words)
    each, memory = best * 1e6 / int(size), held * 1024 / int(size)
    over = ["time"] * (best > 3 * plain[0] if plain else each > 50) + ["memory"] * (memory > 10)
    print(FORM.format(label, size, f"{best:.2f}", f"{plain[0]:.2f}" if plain else "-",
                      f"{best / plain[0]:.2f}" if plain else "-", f"{each:.2f}", f"{held:.0f}",
                      f"{plain[2]:.0f}" if plain else "-", f"{memory:.2f}", " ".join(over)),
          flush=True)
