"""Measures inputs that are made to be expensive, each next to an ordinary one of the same size:
pairs.py PROGRAM COLLIDE ROUNDS [LABEL]..

It prints the processor time of the fastest round of both, and their ratio, and fails if that is
more than the limit of the row or if a run fails. A run that takes ten times as long, and two
seconds, is stopped. SHAPES of shapes.py has the labels, and its functions say what the inputs are.
The row files is about the library, from the directory that the environment names as LIBRARY, or
from that of `./build library`.
"""
import json
import os
import resource
import subprocess
import sys
import tempfile
import time
from pathlib import Path

TOP = Path(__file__).resolve().parents[2]
LIBRARY = Path(os.environ.get("LIBRARY", TOP / "crates/c_library/out"),
               "libdyncollate.so.1").resolve()
FORM = "{:10} {:>10} {:>10} {:>10} {:>10} {:>6} {:>6}  {}"
PROGRAM, os.environ["COLLIDE"] = os.path.abspath(sys.argv[1]), os.path.abspath(sys.argv[2])
from shapes import REJECTED, SHAPES, size_of, target  # noqa: E402, the environment comes first


# ---- measuring

def milliseconds(directory, words, limit=None, ends=0):
    """The processor time of a run that ends with this status,
    or None if it took more than that many seconds."""
    def set_limit():
        if limit:
            resource.setrlimit(resource.RLIMIT_CPU, (limit, limit + 1))

    run = subprocess.Popen([PROGRAM, *words], cwd=directory, stdout=subprocess.DEVNULL,
                           preexec_fn=set_limit)
    _, status, used = os.wait4(run.pid, 0)
    run.returncode = os.waitstatus_to_exitcode(status)
    if run.returncode != ends and not (limit and run.returncode < 0):
        sys.exit(f"{' '.join(words)} ended with status {run.returncode} in {directory}")
    return None if run.returncode < 0 else (used.ru_utime + used.ru_stime) * 1e3


def measured(shape, size, rounds, ends):
    """The bytes of both inputs, and the least times of both."""
    with tempfile.TemporaryDirectory(prefix="dyncollate-",
                                     dir="/dev/shm" if os.path.isdir("/dev/shm") else None) as room:
        directories = made, ordinary = Path(room, "made"), Path(room, "ordinary")
        words = shape(*directories, size)
        sizes, times = [size_of(it) for it in directories], []
        for _ in range(rounds):
            second = milliseconds(ordinary, words)
            times.append((milliseconds(made, words, 2 + int(second / 100), ends), second))
            if times[-1][0] is None:
                break
        return sizes, [None if None in each else min(each) for each in zip(*times)]


def library_files(count=40_000, calls=10):
    """The time of one call of the library with 40,000 files, and that of ten calls which have a
    tenth of the files each."""
    sys.path.insert(0, str(TOP / "python"))
    os.environ["DYNCOLLATE_LIBRARY"] = str(LIBRARY)
    import dyncollate  # its library is named first

    scans = [(f"{number}.ddi", json.dumps({"rules": [{"primary-output": f"o/{number}"}],
                                           "version": 1}).encode()) for number in range(count)]

    def time_of(each):
        begun = time.process_time()
        for first in range(0, count, each):
            files = dict(scans[first:first + each])
            document = json.dumps(target("t", scans=list(files))).encode()
            assert dyncollate.collate(document, files)["out/t.dd"].count(
                b"\nbuild ") == each, "the dyndep file is not that of these files"
        return (time.process_time() - begun) * 1e3

    return ([sum(len(name) + len(text) for name, text in scans)] * 2,
            [time_of(count), time_of(count // calls)])


def library_measured(rounds):
    each = [library_files() for _ in range(rounds)]
    return each[0][0], [min(times) for times in zip(*(times for _, times in each))]


def main(rounds, labels):
    print(FORM.format("", "bytes", "ordinary", "best ms", "ordinary", "ratio", "limit", "over"),
          flush=True)
    rows = [(label, limit, lambda shape=shape, size=size, ends=int(label in REJECTED): measured(
        shape, size, rounds, ends)) for label, shape, size, limit in SHAPES]
    if LIBRARY.exists():
        rows.append(("files", 2, lambda: library_measured(rounds)))
    else:
        print(f"no row files: {LIBRARY} is missing, and ./build library makes it")
    failed = False
    for label, limit, measure in rows:
        if labels and label not in labels:
            continue
        sizes, (made, ordinary) = measure()
        over = made is None or made > limit * ordinary
        failed |= over
        shown = ("stopped", "-") if made is None else (f"{made:.1f}", f"{made / ordinary:.2f}")
        print(FORM.format(label, *sizes, shown[0], f"{ordinary:.1f}", shown[1], limit,
                          "time" if over else ""), flush=True)
    sys.exit(1 if failed else 0)


main(int(sys.argv[3]), sys.argv[4:])
