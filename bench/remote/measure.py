"""Prints how many milliseconds a compilation takes here, on a server, and from its cache.

    measure.py [RUNS [LAUNCHER..]]

The compiler is Clang 21. The server is buildbox-casd, on this machine, so times of executions
compare only with each other. The rows are

    here       the compiler
    executed   dyncollate-remote, with another comment each time
    recc       recc alone, as the launcher calls it, for a result that the cache has
    hit        dyncollate-remote, for the same result

for an interface of 4 lines, and for a source that imports std. A launcher that is named has a row
of its own, after that of this directory. Each row has the median and the mean of that many runs,
40 by default, which take turns, then the same of the processor's time, and how many times that of
recc the two medians are. In each build, the launcher also asks the server once for its compiler,
which takes about as long as an execution.
"""
import os
import shlex
import shutil
import statistics
import subprocess
import sys
import tempfile
import time
from pathlib import Path

TOP = Path(__file__).resolve().parents[2]
LAUNCHER = str(TOP / "adapters/remote/dyncollate-remote")
MOUNTS = ["/usr:/usr", "/usr/bin:/bin", "/usr/lib:/lib", "/usr/lib64:/lib64"]
ADDRESS = "127.0.0.1:50052"
# Writes the environment and the words with which the launcher calls recc.
RECC = "#!/bin/sh\nenv -0 > called.env\nprintf '%s\\0' \"$@\" > called.words\nexit 100\n"


def milliseconds(words, env):
    """Returns the time by the clock, and the processor's time."""
    null = [(os.POSIX_SPAWN_OPEN, it, os.devnull, os.O_WRONLY, 0) for it in (1, 2)]
    before = time.monotonic()
    child = os.posix_spawnp(words[0], words, env, file_actions=null)
    _, status, used = os.wait4(child, 0)
    if status:
        sys.exit(f"{' '.join(words)}: {status}")
    return 1000 * (time.monotonic() - before), 1000 * (used.ru_utime + used.ru_stime)


def recc_of(words):
    """Returns the command of recc that a launcher makes of another one, and its environment."""
    Path("bin").mkdir(exist_ok=True)
    Path("bin/recc").write_text(RECC, encoding="utf-8")
    os.chmod("bin/recc", 0o755)
    subprocess.run(words, env={**os.environ, "PATH": f"bin:{os.environ['PATH']}"},
                   stderr=subprocess.DEVNULL, check=False)
    called, env = (Path(f"called.{it}").read_text(encoding="utf-8").split("\0")[:-1]
                   for it in ("words", "env"))
    return ["recc", *called], {**dict(it.split("=", 1) for it in env), "PATH": os.environ["PATH"]}


def measure(runs, launchers, target, source):
    lines = subprocess.run(["ninja", "-t", "commands", f"obj/{target}.o"], stdout=subprocess.PIPE,
                           text=True, check=True).stdout.splitlines()
    words = shlex.split(next(it for it in lines if f" -o obj/{target}.o" in it and LAUNCHER in it))
    text, env = Path(source).read_text(encoding="utf-8"), dict(os.environ)
    milliseconds(words, env)  # asks for the compiler
    rows = {"here": (words[1:], env), "executed": (words, env), "recc": recc_of(words)}
    rows |= {it: ([it, *words[1:]], env) for it in launchers}
    found = {it: [] for it in rows}
    for number in range(runs + 1):
        for name, row in rows.items():
            comment = f"// {time.time_ns()}\n" if name == "executed" else ""
            Path(source).write_text(text + comment, encoding="utf-8")
            times = milliseconds(*row)
            found[name] += [times] if number else []  # the first ones fill the cache
    clock, processor = (statistics.median(it) for it in zip(*found["recc"]))
    for name, times in found.items():
        both = [(statistics.median(it), statistics.mean(it)) for it in zip(*times)]
        print(f"{'hit' if name == LAUNCHER else name[-40:]:10}",
              *(f"{it:9.1f}" for pair in both for it in pair),
              f"{both[0][0] / clock:9.2f} {both[1][0] / processor:9.2f}")


def build(example):
    shutil.copytree(TOP / "examples" / example, example)
    os.chdir(example)
    subprocess.run([TOP / "examples/generate", "clang", "targets"], check=True)
    subprocess.run(["ninja"], check=True, stdout=subprocess.DEVNULL)


def main(runs="40", *launchers):
    os.setpgid(0, 0)  # as Ninja's commands have a group, by which the launcher knows the build
    room = tempfile.mkdtemp()
    os.chdir(room)
    os.environ.update(RECC_SERVER=f"http://{ADDRESS}", LAUNCHER=LAUNCHER, DYNCOLLATE_REMOTE="only",
                      CLANG=os.environ.get("CLANG", "clang++-21"),
                      SCANNER=os.environ.get("SCANNER", "clang-scan-deps-21"))
    server = subprocess.Popen(
        ["buildbox-casd", f"--bind={ADDRESS}", "--jobs=4",
         "--buildbox-run=/usr/bin/buildbox-run-bubblewrap",
         *(f"--runner-arg=--ro-bind-mount={it}" for it in MOUNTS),
         "--runner-arg=--disable-localcas", f"{room}/casd"], stderr=subprocess.DEVNULL)
    time.sleep(2)
    try:
        for example, target, source in (("libs", "base", "src/base/number.cppm"),
                                        ("std", "app", "src/main.cpp")):
            build(example)
            print(f"\n{source}, load {os.getloadavg()[0]:.1f}\n{'':10}",
                  *(f"{it:>9}" for it in ("median", "mean", "processor", "mean", "times", "times")))
            measure(int(runs), [LAUNCHER, *launchers], f"{target}/{source}", source)
            os.chdir(room)
    finally:
        server.kill()
        shutil.rmtree(room)


main(*sys.argv[1:])
