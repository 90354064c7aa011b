"""Coverage-guided random tests of libdyncollate, by libFuzzer: a target in fuzz/ for each call,
which says what must hold of any input.

    python3 -m unittest tests.fuzzing             a few seconds for each target
    python3 -m tests.fuzzing --minutes 60         an hour, shared by the targets,
                                                  with the figures of each
    python3 -m tests.fuzzing --minutes 60 show    an hour for this one

The rows are the first inputs. The targets are compiled with AddressSanitizer and
UndefinedBehaviorSanitizer. The library is the shared object as it is, so fuzz/blocks.c counts which
of its basic blocks have run, and fuzz/calls.c puts each string before a page that nobody may read.
A long run leaves an input that fails in the current directory, as fuzz-TARGET-SUM.
"""
import argparse
import os
import re
import shutil
import tempfile
import unittest

from tests import embedded
from tests.case import each
from tests.program import TOP
from tests.run import output_of, run
from tests.tables import all_rows
from tests.tools import tool

NEEDS_LIBRARY = True

FUZZ = f"{TOP}/tests/fuzz"
TARGETS = "collate", "project", "one", "effect", "order", "show", "statements"
SECONDS, LONGEST = 4, 1 << 14
SEPARATOR = b"\n\xff\n"
FLAGS = ("-std=c11 -D_GNU_SOURCE -O1 -fsanitize=fuzzer,address,undefined "
         "-fno-sanitize-recover=all".split())
PADDING = re.compile(r"\bnop|^xchg +%ax,%ax")
JUMP = re.compile(r"(?:j\w+|call) +([0-9a-f]+) <")


def encoded(row):
    """The arguments of the function for a row, as the targets read them."""
    *strings, files = embedded.given(row) + [{}] * (row.words[0] not in ("collate", "project"))
    for name, text in files.items():
        strings += [name.encode(), text]
    return SEPARATOR.join(strings)


def first_inputs(target):
    """What the rows of the target's command pass; `statements` reads what `show` does."""
    command = "show" if target == "statements" else target
    inputs = {encoded(row) for row in all_rows() if row.words[:1] == [command]
              and embedded.is_asked(row)}
    return sorted(it for it in inputs if len(it) <= LONGEST)


def blocks():
    """The offsets of the basic blocks of the shared object: a block begins after each jump, and at
    the target of a jump or a call."""
    listing = output_of("objdump", "-d", "--no-show-raw-insn", "-j", ".text", embedded.SHARED)
    starts, code, after_jump = set(), set(), True
    for at, instruction in re.findall(r"^ *([0-9a-f]+):\t(.*)$", listing, re.M):
        code.add(int(at, 16))
        if after_jump and not PADDING.search(instruction):
            starts.add(int(at, 16))
            after_jump = False
        leads = JUMP.match(instruction)
        if leads:
            starts.add(int(leads[1], 16))
        after_jump |= instruction.startswith(("j", "ret"))
    return sorted(starts & code)


def build(target, folder):
    """Compiles a target, and writes its first inputs to a directory of its own."""
    starts = blocks()
    with open(f"{folder}/blocks.h", "w", encoding="ascii") as file:
        file.write(f"#define BLOCKS {len(starts)}\n#define OFFSETS {','.join(map(str, starts))}\n")
    shutil.copy(embedded.SHARED, folder)
    sources = [f"{FUZZ}/{it}.c" for it in (target, "calls", "blocks")]
    embedded.compiled(tool("fuzzer"), *FLAGS, f"-I{folder}", *sources,
                      f"{folder}/libdyncollate.so.1", f"-Wl,-rpath,{folder}",
                      to=f"{folder}/{target}")
    os.mkdir(f"{folder}/{target}.inputs")
    for number, text in enumerate(first_inputs(target)):
        with open(f"{folder}/{target}.inputs/{number}", "wb") as file:
            file.write(text)


def run_target(target, folder, seconds, failing):
    """Runs a target. Returns its status, and what it printed. The name of an input that fails
    begins with `failing`."""
    return run(f"{folder}/{target}", f"-max_total_time={seconds}", f"-max_len={LONGEST}",
               "-timeout=60", "-print_final_stats=1", f"-dict={FUZZ}/dictionary",
               f"-artifact_prefix={failing}", f"{folder}/{target}.inputs", seconds=seconds + 600)


def finding(printed):
    """What a target prints that fails, from its first line that says so."""
    begun = re.search(r"^.*(does not hold|ERROR: |runtime error: )", printed, re.M)
    return printed[begun.start() if begun else 0:][:1500] + printed[-500:]


def figures(printed):
    """How many inputs were tried, and how many basic blocks of the library ran."""
    runs, reached, all_blocks = (int(re.search(pattern, printed)[1]) for pattern in (
        r"stat::number_of_executed_units: +(\d+)", r"blocks: (\d+) of", r"blocks: \d+ of (\d+)"))
    return runs, reached, all_blocks


@embedded.needs_library
@embedded.needs_tools("objdump")
@each(TARGETS)
class Targets(unittest.TestCase):
    seconds = SECONDS + 10

    def check(self, target):
        if not tool("fuzzer"):
            self.skipTest("clang with libFuzzer: not there")
        with tempfile.TemporaryDirectory() as folder:
            build(target, folder)
            status, printed = run_target(target, folder, SECONDS, f"{folder}/")
        self.assertEqual(status, 0, finding(printed))
        runs, reached, all_blocks = figures(printed)
        self.assertGreater(runs, len(first_inputs(target)))
        self.assertTrue(0 < reached < all_blocks, (reached, all_blocks))


def main():
    words = argparse.ArgumentParser(description="Coverage-guided random tests of libdyncollate.")
    words.add_argument("--minutes", type=float, default=60)
    words.add_argument("targets", nargs="*", metavar="TARGET", choices=[*TARGETS, []])
    given = words.parse_args()
    targets, findings = given.targets or TARGETS, 0
    for target in targets:
        with tempfile.TemporaryDirectory() as folder:
            build(target, folder)
            status, printed = run_target(target, folder, int(60 * given.minutes / len(targets)),
                                         f"fuzz-{target}-")
        if status:
            findings += 1
            print(f"{target}: status {status}\n{finding(printed)}", flush=True)
        else:
            print("{}: {:,} runs, {:,} of {:,} basic blocks".format(target, *figures(printed)),
                  flush=True)
    print(f"{findings} findings")
    return 1 if findings else 0


if __name__ == "__main__":
    raise SystemExit(main())
