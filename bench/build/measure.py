"""bench/run build [--policy NAME].. [--crate NAME]..: how long the first command takes by each
policy, and what it costs.

    today        the policy of ./build, by which each prover keeps to as many processors as it has
                 jobs
    one          one job per crate, each on one processor
    today-free   the policy of ./build, but a prover may use all processors
    one-free     one job per crate, which may use all processors

Without --policy each of them proves a copy of the checkout from scratch and builds the program, one
after another, for an hour or so. With --crate only these crates and those below them are proved.
Run it alone on the machine; `taskset -c 0,1 bench/run build` measures two processors. For each
policy and each crate it prints the seconds by the clock, the seconds of processor time, and how
often a thread lost its processor to another one. The processor times of `one` are SECONDS in
building/crates.py.
"""
import argparse
import importlib.machinery
import importlib.util
import json
import os
import shutil
import subprocess
import sys
import tempfile
import time
from pathlib import Path

TOP = Path(__file__).resolve().parent.parent.parent
POLICIES = "today", "one", "today-free", "one-free"
FORM = "{:13} {:16} {:>4} {:>8} {:>10} {:>10}"


def measured(command):
    """The status of a command, and what it took, also in its children."""
    began = time.monotonic()
    _, status, usage = os.wait4(os.posix_spawnp(command[0], command, os.environ), 0)
    return status, [time.monotonic() - began, usage.ru_utime + usage.ru_stime, usage.ru_nivcsw]


def child(record, command):
    """Runs a prover, and leaves what it took in a file."""
    status, took = measured(command)
    Path(record).write_text(json.dumps(took))
    os._exit(1 if status else 0)


def prove(policy, names, room):
    """Proves what is in the working directory, a copy of the checkout, by this policy."""
    sys.path.insert(0, os.getcwd())
    loader = importlib.machinery.SourceFileLoader("build", os.path.abspath("build"))
    build = importlib.util.module_from_spec(importlib.util.spec_from_loader("build", loader))
    loader.exec_module(build)
    os.environ.setdefault("MIMALLOC_PURGE_DELAY", "-1")
    build.PINNED = not policy.endswith("-free")
    if policy.startswith("one"):
        build.jobs_and_nice = (lambda crate, waiting, running, longest, processors: (
            1 if len(running) < processors else 0, 0))

    class Run(build.Run):
        def command(self, crate, jobs):
            return [sys.executable, __file__, "--child", f"{room}/{crate.name} {jobs}",
                    *super().command(crate, jobs)]

    crates = build.read_crates("dyncollate")
    unknown = set(names) - {it.name for it in crates}
    if unknown:
        sys.exit(f"bench/run build: the program has no crate {min(unknown)}")
    for crate in crates:
        crate.digest = build.take_digest(crate)
        os.makedirs(crate.out, exist_ok=True)
    named = [it for it in crates if it.name in names]
    ours = ([it for it in crates if it in named or any(it in one.below for one in named)]
            if names else crates)
    rt = shutil.which("rt") or sys.exit("bench/run build: rt is missing")
    toolchain = subprocess.run([rt, "version"], stdout=subprocess.PIPE, text=True,
                               check=True).stdout.strip()
    run = Run(ours, False, False, Path(rt).resolve().parent.parent, toolchain)
    if names:
        run.goal = None
    return 0 if run.prove() else 1


def main():
    parser = argparse.ArgumentParser(prog="bench/run build", add_help=False)
    parser.add_argument("--policy", action="append", choices=POLICIES)
    parser.add_argument("--crate", action="append", default=[])
    words = parser.parse_args()
    print(f"{len(os.sched_getaffinity(0))} processors, load {os.getloadavg()[0]:.1f} before",
          flush=True)
    print(FORM.format("policy", "crate", "jobs", "clock", "processor", "switches"), flush=True)
    for policy in words.policy or POLICIES:
        with tempfile.TemporaryDirectory(prefix="dyncollate-bench-") as room:
            copy = f"{room}/copy"
            shutil.copytree(TOP, copy, ignore=shutil.ignore_patterns("out", ".git", "tests",
                                                                     "bench", "docs", "examples"))
            arguments = [sys.executable, __file__, "--prove", policy, room, copy, *words.crate]
            status, took = measured(arguments)
            for record in sorted(Path(room).glob("* *")):
                name, jobs = record.name.split()
                print(FORM.format(policy, name, jobs, *map(round, json.loads(record.read_text()))),
                      flush=True)
            print(FORM.format(policy, "all" if not status else "FAILED", "", *map(round, took)),
                  flush=True)


if __name__ == "__main__":
    if sys.argv[1:2] == ["--child"]:
        child(sys.argv[2], sys.argv[3:])
    if sys.argv[1:2] == ["--prove"]:
        os.chdir(sys.argv[4])
        sys.exit(prove(sys.argv[2], sys.argv[5:], sys.argv[3]))
    main()
