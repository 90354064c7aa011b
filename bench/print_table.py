"""Prints a table of the lines of `compare` and `alone` (common.sh), as they come: print_table.py
WHAT. They count WHAT, such as objects.

A row has the processor time of dyncollate and of plain C++, of the fastest run and of the median
one, and how many times that of plain dyncollate takes. The fastest runs of the expert's program and
of floor follow, each with such a ratio, then the kilobytes that dyncollate and plain hold at most,
and their ratio. The last columns are dyncollate's time per counted thing, and how much this grew
since the first row with the same label, except for digits at its end.
"""
import sys

HEAD = (
    "{:14} {:>8} {:>10} {:>9} {:>9} {:>9} {:>9} {:>6} {:>9} {:>6} {:>9} {:>6} {:>8} {:>8} {:>6} "
    "{:>9} {:>6}")
TITLES = ("", "bytes", "best ms", "median", "C++ best", "median", "ratio", "expert", "ratio",
          "floor", "ratio", "KB", "C++ KB", "ratio")


class Measured:
    """What `rounds` printed of a program, or nothing if it did not run."""
    def __init__(self, words):
        self.best, self.median, self.kilobytes = map(float, words) if words else (None, None, None)


def number(value, digits=2):
    return "-" if value is None else f"{value:.{digits}f}"


def ratio(one, other):
    return "-" if other is None else f"{one / other:.2f}"


def main():
    what = sys.argv[1]
    print(HEAD.format(TITLES[0], what, *TITLES[1:], f"us/{what[:6]}", "growth"))
    smallest = {}
    for line in sys.stdin:
        label, count, size, *words = line.split()
        ours, plain, floor, expert = (Measured(words[index:index + 3]) for index in range(0, 12, 3))
        each = ours.best / int(count) * 1e3
        first = smallest.setdefault(label.rstrip("0123456789"), each)
        print(HEAD.format(label, count, size, number(ours.best), number(ours.median),
                          number(plain.best), number(plain.median), ratio(ours.best, plain.best),
                          number(expert.best), ratio(ours.best, expert.best), number(floor.best),
                          ratio(ours.best, floor.best), number(ours.kilobytes, 0),
                          number(plain.kilobytes, 0), ratio(ours.kilobytes, plain.kilobytes),
                          number(each), number(each / first)), flush=True)


main()
