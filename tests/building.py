"""./build and ./dyncollate on a made-up graph of crates, with a toolchain that proves nothing: its
prover is a script, which notes when it begins and ends, and does what a file with the name of the
crate says."""
import fcntl
import os
import runpy
import shutil
import signal
import subprocess
import sys
import time
import unittest
from pathlib import Path

from tests.program import TOP
from tests.run import InRoom, output_of, run

# `apart` and the library are not used by the program.
CRATES = """low: thiserror
left: low
right: low
apart:
top: left right std_io
dyncollate: top
in_memory: low
c_library staticlib: in_memory
"""
ABOVE = {"low": ["left", "right", "top"], "left": ["top"], "right": ["top"], "top": []}
PROVED = ["low", "left", "right", "top"]
NAMES = [*PROVED, "dyncollate"]
# What the prover does for a crate: `fails`; `killed`, with one job only if the file says so;
# `waits` as long as the file is there; `changes` a source of the crate. It fails if a crate below
# is not proved.
PROVER = r"""#!/bin/sh
echo "$*" >> "$CONTROL/calls"
echo "$MIMALLOC_PURGE_DELAY" >> "$CONTROL/delay"
shift
jobs='' out='' name=''
while [ $# -gt 0 ]; do
  case $1 in
  --crate-name) name=$2 ;;
  --jobs) jobs=$2 ;;
  -o) out=$2 ;;
  --extern) [ -e "${2#*=}" ] || { echo "there is no ${2#*=}"; exit 1; } ;;
  esac
  shift
done
echo "$name $jobs" >> "$CONTROL/begun"
echo $$ > "$CONTROL/$name.number" && mv "$CONTROL/$name.number" "$CONTROL/$name.process"
while [ -e "$CONTROL/$name.waits" ]; do sleep 0.02; done
killed=$CONTROL/$name.killed
if [ -e "$killed" ] && { [ "$jobs" -gt 1 ] || grep -q one "$killed"; }; then kill -KILL $$; fi
if [ -e "$CONTROL/$name.changes" ]; then rm "$CONTROL/$name.changes"; echo more >> src/lib.rt; fi
if [ -e "$CONTROL/$name.fails" ]; then echo "error: an open goal of $name"; exit 1; fi
case $out in
*.rlib) rm -rf "$out"; mkdir "$out"; cat src/* > "$out/mir" ;;
*) cat src/* > "$out" ;;
esac
echo "logic=proved functions=1 tests=0"
echo "logic=proved functions=7 tests=0"
echo "$name" >> "$CONTROL/ended"
"""
LINKER = r"""#!/bin/sh
while [ "$1" != -o ]; do shift; done
{ echo '#!/bin/sh'; echo "echo made of $(cat "$3"), called with \"\$@\""; } > "$2"
chmod +x "$2"
"""


def write(path, text, mode=0o644):
    path.parent.mkdir(parents=True, exist_ok=True)
    path.write_text(text)
    path.chmod(mode)


def default_signals():
    """A shell that starts the tests in the background makes them ignore SIGINT,
    and nohup SIGHUP."""
    for number in signal.SIGINT, signal.SIGTERM, signal.SIGHUP:
        signal.signal(number, signal.SIG_DFL)


class Made(InRoom):
    """A checkout of the made-up crates, and the toolchain."""

    def setUp(self):
        super().setUp()
        self.top, self.control, kit = (self.room / "checkout", self.room / "control",
                                       self.room / "kit")
        for name in ("build", "dyncollate", "building/crates.py", "building/link",
                     "building/loop.py", "cross/heap.c", "cross/system.c"):
            (self.top / name).parent.mkdir(parents=True, exist_ok=True)
            shutil.copy(f"{TOP}/{name}", self.top / name)
        write(self.top / "crates.txt", CRATES)
        for line in CRATES.splitlines():
            name = line.split(":")[0].split()[0]
            write(self.top / f"crates/{name}/src/{'main' if name == 'dyncollate' else 'lib'}.rt",
                  f"source of {name}\n")
            write(self.top / f"crates/{name}/specs/What.antt", "")
        write(kit / "bin/rattle", PROVER, 0o755)
        write(kit / "bin/rattle-link", LINKER, 0o755)
        write(kit / "bin/rt", "#!/bin/sh\necho a made-up kit\n", 0o755)
        for name in "std", "std_io", "thiserror":
            (kit / f"rlibs/{name}.rlib").mkdir(parents=True)
        self.control.mkdir()
        self.kit = kit
        self.environment = {**os.environ, "CONTROL": str(self.control),
                            "PATH": f"{kit}/bin:{os.environ['PATH']}", "LC_ALL": "C"}
        self.children = []
        self.addCleanup(self.end_all)

    def end_all(self):
        """Ends what a failed test has left running."""
        for path in self.control.glob("*.waits"):
            path.unlink()
        for child in self.children:
            if child.poll() is None:
                child.kill()
                child.communicate()

    def begin(self, *words, before=(), top=None, script="build", **environment):
        child = subprocess.Popen([*before, top or self.top / script, *words],
                                 env={**self.environment, **environment}, stdin=subprocess.DEVNULL,
                                 stdout=subprocess.PIPE, stderr=subprocess.PIPE, text=True,
                                 preexec_fn=default_signals)
        self.children.append(child)
        return child

    def finish(self, child):
        out, err = child.communicate(timeout=300)
        return child.returncode, out, err.splitlines()

    def build(self, *words, **given):
        return self.finish(self.begin(*words, **given))

    def control_file(self, name, text=""):
        (self.control / name).write_text(text)
        return self.control / name

    def taken(self, name):
        """The lines that the prover has noted since they were last taken."""
        path = self.control / name
        lines = path.read_text().splitlines() if path.exists() else []
        path.unlink(missing_ok=True)
        return lines

    def begun(self):
        return [it.split()[0] for it in self.taken("begun")]

    def wait_for(self, name):
        """Waits until the prover is at this crate."""
        limit = time.monotonic() + 120
        while not (self.control / f"{name}.process").exists():
            self.assertLess(time.monotonic(), limit, f"the proof of {name} did not begin")
            time.sleep(0.01)

    def begin_left_and_right(self):
        """Begins a build, and waits until both crates are being proved.
        The proof of `right` waits further."""
        self.control_file("left.waits")
        self.control_file("right.waits")
        child = self.begin()
        self.wait_for("left")
        self.wait_for("right")
        (self.control / "left.waits").unlink()
        return child

    def built(self):
        """Builds from scratch."""
        status, _, err = self.build()
        self.assertEqual(status, 0, err)
        self.assertCountEqual(self.begun(), NAMES)

    def edit(self, name, text="another\n"):
        # (change times are as fine as the clock's ticks, at most 10 milliseconds)
        time.sleep(0.02)
        with open(self.top / f"crates/{name}", "a") as file:
            file.write(text)


class Order(Made):
    def test_from_scratch(self):
        """Each crate is proved once, after those that it uses,
        and what the program does not use is not proved."""
        status, out, err = self.build()
        self.assertEqual((status, out), (0, ""), err)
        self.assertRegex(
            err[0],
            r"\Adyncollate: proving and building the program on \d+ processors: 0 of 5 crates are "
            r"proved already; ")
        self.assertRegex(err[-1], r"\Adyncollate: built in 0:\d\d\Z")
        self.assertEqual(sorted(it.partition(";")[0] for it in err[1:-1]),
                         sorted(f"dyncollate: {name}: 7 new functions proved" for name in NAMES))
        self.assertIn("100 % after 0:0", err[-2])
        order = self.begun()
        self.assertCountEqual(order, NAMES)
        # (the prover fails if a crate below is not there)
        for name, above in ABOVE.items():
            for it in [*above, "dyncollate"]:
                self.assertLess(order.index(name), order.index(it))
        self.assertEqual(output_of(self.top / "crates/dyncollate/out/dyncollate", "x"),
                         "made of source of dyncollate, called with x\n")
        self.assertEqual(self.build(), (0, "", []))
        self.assertEqual(self.begun(), [])

    def test_what_is_proved_already(self):
        self.control_file("dyncollate.fails")
        self.assertEqual(self.build()[0], 3)
        self.taken("begun")
        (self.control / "dyncollate.fails").unlink()
        status, _, err = self.build()
        self.assertEqual(status, 0)
        self.assertIn(": 4 of 5 crates are proved already;", err[0])
        self.assertEqual(self.begun(), ["dyncollate"])

    def test_crates_side_by_side(self):
        """`left` and `right` are proved at the same time."""
        child = self.begin_left_and_right()
        (self.control / "right.waits").unlink()
        self.assertEqual(self.finish(child)[0], 0)

    def test_commands(self):
        """The prover gets the crates of the kit and of the repository that a crate names, and the
        directories of the others."""
        self.built()
        words = {it.split()[2]: it.split() for it in self.taken("calls")}
        top = words["top"]
        named = [top[at + 1].split("=") for at, it in enumerate(top) if it == "--extern"]
        self.assertEqual([name for name, _ in named], ["std", "left", "right", "std_io"])
        self.assertEqual([Path(it).is_dir() for _, it in named], [True] * 4)
        found = [top[at + 1] for at, it in enumerate(top) if it == "-L"]
        self.assertCountEqual(found, [f"dependency={self.top}/crates/{it}/out/proved"
                                      for it in ("low", "left", "right")]
                              + [f"dependency={self.kit}/rlibs"])
        self.assertEqual(top[1:4], ["--crate-name", "top", "src/lib.rt"])
        self.assertEqual(words["dyncollate"][3], "src/main.rt")
        self.assertEqual([name for name in NAMES if "--statements" in words[name]], PROVED)
        self.assertEqual([name for name in NAMES if "--backend" in words[name]], ["dyncollate"])
        self.assertEqual([it for name in NAMES for it in words[name]
                          if it in ("--target", "--cpu")], [])
        self.assertEqual(set(self.taken("delay")), {"-1"})


class Failures(Made):
    def test_a_crate_that_is_not_proved(self):
        """Its log is printed, what runs meanwhile is kept, and the rest is not begun."""
        self.control_file("left.fails")
        child = self.begin_left_and_right()
        time.sleep(0.3)
        (self.control / "right.waits").unlink()
        status, out, err = self.finish(child)
        self.assertEqual((status, out), (3, ""))
        self.assertEqual(err[2:4],
                         ["error: an open goal of left", "dyncollate: left is not proved"])
        self.assertEqual(err[-1], "dyncollate: the program was not built")
        self.assertCountEqual(self.begun(), ["low", "left", "right"])
        (self.control / "left.fails").unlink()
        self.assertEqual(self.build()[0], 0)
        self.assertEqual(self.begun(), ["left", "top", "dyncollate"])

    def test_a_proof_that_is_killed(self):
        """It is tried again with one job, and once."""
        self.control_file("low.killed")
        self.assertEqual(self.build()[0], 0)
        jobs = [it for it in self.taken("begun") if it.startswith("low ")]
        if len(os.sched_getaffinity(0)) == 1:
            self.assertEqual(jobs, ["low 1"])
        else:
            self.assertRegex(jobs[0], r"\Alow [2-9]|\Alow \d\d")
            self.assertEqual(jobs[1:], ["low 1"])
        self.edit("low/src/lib.rt")
        self.control_file("low.killed", "one")
        status, _, err = self.build()
        self.assertEqual((status, err[-2:]), (3, ["dyncollate: low is not proved",
                                                  "dyncollate: the program was not built"]))
        self.assertEqual(self.begun(), ["low", "low"])

    def test_a_run_that_is_stopped(self):
        """Its provers end with it, and what is proved is kept."""
        for number in signal.SIGINT, signal.SIGTERM, signal.SIGHUP:
            self.control_file("left.waits")
            child = self.begin()
            self.wait_for("left")
            process = int((self.control / "left.process").read_text())
            child.send_signal(number)
            status, out, err = self.finish(child)
            self.assertEqual((status, out, err[-1]),
                             (130, "", "dyncollate: stopped; the crates that are proved are kept"))
            with self.assertRaises(ProcessLookupError):
                os.kill(process, 0)
            (self.control / "left.process").unlink()
        (self.control / "left.waits").unlink()
        self.assertEqual(self.build()[0], 0)
        begun = self.begun()
        self.assertEqual((begun.count("low"), begun.count("left")), (1, 4))

    def test_a_signal_that_is_ignored(self):
        """Under nohup a run continues when its terminal is closed."""
        self.control_file("left.waits")
        child = self.begin(before=["nohup"])
        self.wait_for("left")
        child.send_signal(signal.SIGHUP)
        time.sleep(0.3)
        (self.control / "left.waits").unlink()
        self.assertEqual(self.finish(child)[0], 0)

    def test_a_source_that_changes_meanwhile(self):
        for name in "left", "dyncollate":
            self.control_file(f"{name}.changes")
            if name == "dyncollate":
                (self.top / "crates/dyncollate/src/lib.rt").write_text("")
            status, _, err = self.build()
            self.assertEqual((status, err[-1]), (3, "dyncollate: the program was not built"))
            at = err.index(f"dyncollate: {name} changed while it was proved: run this again")
            self.assertEqual(err[at + 1], f"dyncollate: {name} is not proved")
            self.assertFalse((self.top / "crates/dyncollate/out/dyncollate").exists())
            self.begun()
            self.assertEqual(self.build()[0], 0)
            self.assertIn(name, self.begun())

    def test_what_is_missing(self):
        empty = self.room / "empty"
        empty.mkdir()
        for name in "python3", "env", "sh", "find", "nice":
            (empty / name).symlink_to(shutil.which(name))
        self.assertEqual(
            self.build(PATH=str(empty)),
            (3, "", ["dyncollate: the toolchain's command rt is not on the path (see README.md)"]))
        (empty / "rt").symlink_to(self.kit / "bin/rt")
        for words, tool, what in ((["library"], "ar", "the library"),
                                  (["aarch64"], "aarch64-linux-gnu-gcc",
                                   "the program for aarch64")):
            self.assertEqual(self.build(*words, PATH=str(empty)),
                             (3, "", [f"dyncollate: {tool} is missing: {what} is linked with it"]))
        (self.kit / "bin/rt").write_text("#!/bin/sh\nexit 1\n")
        self.assertEqual(self.build(),
                         (3, "", ["dyncollate: the toolchain's command rt fails (see README.md)"]))
        self.assertEqual(self.begun(), [])

    def test_crates_that_are_not_a_graph(self):
        for text, why in (("low:\n", "has no crate dyncollate"),
                          ("a: b\nb: a\ndyncollate: a\n", "has a cycle: a -> b -> a")):
            (self.top / "crates.txt").write_text(text)
            status, out, err = self.build()
            self.assertEqual((status, out, len(err)), (3, "", 1))
            self.assertIn(err[0],
                          [f"dyncollate: crates.txt {why}",
                           f"dyncollate: crates.txt {why}".replace("a -> b -> a", "b -> a -> b")])

    def test_words(self):
        status, out, err = self.build("--help")
        self.assertEqual((status, err, out.splitlines()[0]), (
            0, [],
            "usage: ./build [--is-current] [unproved | [library] [aarch64]] or ./build --check "
            "CRATE [FLAG..]"))
        for words in (["program"], ["library", "library"], ["aarch64", "library"],
                      ["library", "--is-current"], ["--help", "library"], [""],
                      ["unproved", "aarch64"], ["--is-current", "--check", "low"]):
            self.assertEqual(self.build(*words), (3, "", [f"dyncollate: {out.splitlines()[0]}"]),
                             words)
        self.assertEqual(self.begun(), [])


class Locks(Made):
    def test_two_runs(self):
        """One builds, and the other waits for it and has nothing to do."""
        self.control_file("low.waits")
        first = self.begin()
        self.wait_for("low")
        second = self.begin()
        self.assertEqual(second.stderr.readline(),
                         "dyncollate: another run is building; waiting for it\n")
        (self.control / "low.waits").unlink()
        self.assertEqual(self.finish(first)[0], 0)
        self.assertEqual(self.finish(second), (0, "", []))
        self.assertCountEqual(self.begun(), NAMES)

    def test_rt_in_a_crate(self):
        """A crate is not proved while rt works in its directory, but others are.
        And rt waits for a proof."""
        with Directory(self.top / "crates/left") as held:
            self.control_file("right.waits")
            fcntl.flock(held, fcntl.LOCK_EX)
            child = self.begin()
            self.wait_for("right")
            self.assertFalse((self.control / "left.process").exists())
            fcntl.flock(held, fcntl.LOCK_UN)
            self.wait_for("left")
            with Directory(self.top / "crates/right") as other:
                with self.assertRaises(BlockingIOError):
                    fcntl.flock(other, fcntl.LOCK_EX | fcntl.LOCK_NB)
            (self.control / "right.waits").unlink()
            self.assertEqual(self.finish(child)[0], 0)


class Directory:
    """A directory that is open."""

    def __init__(self, path):
        self.path = path

    def __enter__(self):
        self.file = os.open(self.path, os.O_RDONLY)
        return self.file

    def __exit__(self, *_):
        os.close(self.file)


class Changes(Made):
    def test_a_crate_that_changed(self):
        """It is proved again, with those above it, and nothing else is."""
        self.built()
        for name in PROVED:
            self.edit(f"{name}/specs/What.antt")
            self.assertEqual(self.build("--is-current"), (1, "", []))
            self.assertEqual(self.build()[0], 0)
            self.assertCountEqual(self.begun(), [name, *ABOVE[name], "dyncollate"])
        self.edit("apart/src/lib.rt")
        self.edit("low/README.md")
        self.assertEqual(self.build("--is-current"), (0, "", []))

    def changes(self):
        """Ways to change a source, each with what has to be proved then."""
        crate = self.top / "crates/right"
        yield ("a new file", lambda: (crate / "proofs").mkdir()
               or (crate / "proofs/P.antt").write_text(""), ["right", "top", "dyncollate"])
        yield "one of another name", lambda: (crate / "proofs/P.antt").rename(
            crate / "proofs/Q.antt"), ["right", "top", "dyncollate"]
        older = self.room / "older"
        older.write_text("older\n")
        os.utime(older, (1, 1))
        yield ("an older file moved there", lambda: older.rename(crate / "proofs/Q.antt"),
               ["right", "top", "dyncollate"])
        yield "without a file", (crate / "proofs/Q.antt").unlink, ["right", "top", "dyncollate"]
        link, flags = (self.top / f"building/{it}" for it in ("link", "crates.py"))
        yield ("another way to link", lambda: link.write_text(link.read_text() + "# more\n"),
               ["dyncollate"])
        yield ("another flag", lambda: flags.write_text(flags.read_text().replace(
            '"llvm"', '"other"')), ["dyncollate"])
        yield ("another use", lambda: (self.top / "crates.txt").write_text(CRATES.replace(
            "right: low", "right: low std_io")), ["right", "top", "dyncollate"])

    def test_each_kind_of_change(self):
        """./dyncollate sees it by its stamp."""
        self.built()
        for what, change, wanted in self.changes():
            with self.subTest(what):
                time.sleep(0.02)
                change()
                self.assertEqual(self.build("x", script="dyncollate")[:2],
                                 (0, "made of source of dyncollate, called with x\n"))
                self.assertCountEqual(self.begun(), wanted)

    def test_a_current_program_needs_no_python(self):
        self.built()
        self.build("x", script="dyncollate")
        few = self.room / "few"
        few.mkdir()
        for name in "find", "sh":
            (few / name).symlink_to(shutil.which(name))
        self.assertEqual(self.build("x", script="dyncollate", PATH=str(few)),
                         (0, "made of source of dyncollate, called with x\n", []))

    def test_another_toolchain(self):
        """What it has to prove is proved when something has changed."""
        self.built()
        write(self.kit / "bin/rt", "#!/bin/sh\necho another made-up kit\n", 0o755)
        self.edit("top/src/lib.rt")
        self.assertEqual(self.build()[0], 0)
        self.assertCountEqual(self.begun(), NAMES)

    def test_the_product_of_other_sources_is_not_run(self):
        self.built()
        self.edit("low/src/lib.rt")
        self.control_file("low.fails")
        self.assertEqual(self.build("x", script="dyncollate")[:2], (3, ""))
        self.assertFalse((self.top / "crates/dyncollate/out/dyncollate").exists())


class Copies(Made):
    def copy(self):
        """A copy whose files all have new times."""
        time.sleep(0.02)
        to = self.room / "copy"
        shutil.copytree(self.top, to, copy_function=shutil.copy)
        return to

    def test_a_copy_is_current(self):
        self.built()
        to = self.copy()
        self.assertEqual(self.build("--is-current", top=to / "build"), (0, "", []))
        self.assertEqual(self.build("x", top=to / "dyncollate"),
                         (0, "made of source of dyncollate, called with x\n", []))
        self.assertEqual(self.begun(), [])
        # Then its stamp is renewed, and ./dyncollate needs ./build no more.
        (to / "build").unlink()
        self.assertEqual(self.build("x", top=to / "dyncollate"),
                         (0, "made of source of dyncollate, called with x\n", []))

    def test_without_the_toolchain(self):
        self.built()
        to = self.copy()
        (self.kit / "bin/rt").unlink()
        path = os.pathsep.join(it for it in os.environ["PATH"].split(os.pathsep)
                               if not (Path(it) / "rt").exists())
        self.assertIsNone(shutil.which("rt", path=path))
        self.assertEqual(self.build("x", top=to / "dyncollate", PATH=path),
                         (0, "made of source of dyncollate, called with x\n", []))

    def test_what_is_proved_is_proved_in_a_copy(self):
        self.built()
        to = self.copy()
        (to / "crates/top/src/lib.rt").write_text("another\n")
        self.assertEqual(self.build("--is-current", top=to / "build"), (1, "", []))
        self.assertEqual(self.build(top=to / "build")[0], 0)
        self.assertEqual(self.begun(), ["top", "dyncollate"])

    def test_a_copy_that_is_not_whole(self):
        """A product with other bytes, or one without its record, is not current."""
        self.built()
        for name in "dyncollate", "digest":
            to = self.copy()
            with open(to / f"crates/dyncollate/out/{name}", "a") as file:
                file.write("\n")
            self.assertEqual(self.build("--is-current", top=to / "build"), (1, "", []))
            shutil.rmtree(to)


class Gate(Made):
    """What the gate rt ci leaves: its lock of when it began, a library of each crate in out/rlib,
    and the program."""

    def gate(self):
        write(self.top / ".git/rt-ci.lock", "")
        time.sleep(0.02)
        for name in PROVED:
            write(self.top / f"crates/{name}/out/rlib/{name}.rlib/mir", "proved by the gate\n")
        write(self.top / "crates/dyncollate/out/dyncollate", "#!/bin/sh\necho made by the gate\n",
              0o755)

    def test_all_is_adopted(self):
        self.gate()
        self.assertEqual(self.build(), (0, "", []))
        self.assertEqual(self.begun(), [])
        self.assertEqual(self.build("x", script="dyncollate"), (0, "made by the gate\n", []))
        self.edit("top/src/lib.rt")
        self.assertEqual(self.build()[0], 0)
        self.assertEqual(self.begun(), ["top", "dyncollate"])
        # a copy of it is current
        to = self.room / "copy"
        shutil.copytree(self.top, to, copy_function=shutil.copy)
        self.assertEqual(self.build("--is-current", top=to / "build"), (0, "", []))

    def test_its_libraries_for_the_library(self):
        self.gate()
        write(self.top / "crates/in_memory/out/rlib/in_memory.rlib/mir", "proved by the gate\n")
        self.control_file("c_library.fails")
        status, _, err = self.build("library")
        self.assertEqual(status, 3)
        self.assertIn("proving and building the library on", err[0])
        self.assertIn(": 2 of 3 crates are proved already;", err[0])
        self.assertEqual(self.begun(), ["c_library"])

    def test_a_change_since_it_began(self):
        self.gate()
        self.edit("left/src/lib.rt")
        self.assertEqual(self.build()[0], 0)
        self.assertCountEqual(self.begun(), NAMES)

    def test_a_gate_that_runs(self):
        """It holds the locks of the crates that it proves."""
        self.gate()
        (self.top / "crates/dyncollate/out/dyncollate").unlink()
        with Directory(self.top / "crates/dyncollate") as held:
            fcntl.flock(held, fcntl.LOCK_EX)
            child = self.begin()
            self.wait_for("low")
            fcntl.flock(held, fcntl.LOCK_UN)
            self.assertEqual(self.finish(child)[0], 0)
        self.assertCountEqual(self.begun(), NAMES)

    def test_what_is_not_of_the_gate(self):
        """A library of rt check has a stamp next to it.
        One that is older than the gate's beginning is not of this gate."""
        self.gate()
        write(self.top / "crates/right/out/rlib/stamp", "")
        os.utime(self.top / "crates/low/out/rlib/low.rlib", (1, 1))
        os.utime(self.top / "crates/dyncollate/out/dyncollate", (1, 1))
        self.assertEqual(self.build()[0], 0)
        self.assertCountEqual(self.begun(), ["low", "right", "dyncollate"])


class Policy(unittest.TestCase):
    """How many jobs a proof has, of four processors."""

    @classmethod
    def setUpClass(cls):
        sys.path.insert(0, TOP)
        cls.addClassCleanup(sys.path.remove, TOP)
        cls.build = runpy.run_path(f"{TOP}/build")
        cls.crates = runpy.run_path(f"{TOP}/building/crates.py")

    def jobs(self, chains, running=(), longest=100):
        """The jobs of the first of crates with these chains, while these run:
        pairs of a chain and a number of jobs."""
        made = [self.crates["Crate"](f"c{it}", [], [], it) for it in chains]
        others = [type("Job", (), {"crate": self.crates["Crate"](f"r{it}", [], [], it),
                                   "jobs": jobs}) for it, jobs in running]
        return self.build["jobs_and_nice"](made[0], made, others, longest, 4)

    def test_one_alone(self):
        self.assertEqual(self.jobs([100]), (4, 0))

    def test_the_longest_chain_leaves_others_a_processor(self):
        self.assertEqual(self.jobs([100, 90]), (3, 0))

    def test_the_longest_chain_keeps_three_quarters(self):
        self.assertEqual(self.jobs([100, 90, 80, 70]), (3, 0))

    def test_those_whose_time_is_far_off_fill_what_is_idle(self):
        self.assertEqual(self.jobs([30], [(100, 3)]), (1, 19))
        self.assertEqual(self.jobs([30], [(100, 4)])[0], 0)

    def progress(self, passed, finished, left, running=(), rate=1):
        """What is said after these seconds, when crates of these seconds are proved in this run, at
        this rate, and others are left, of which some run: how many jobs, for how long, and the
        seconds of the crate."""
        made = {it: self.crates["Crate"](f"c{it}", [], [])
                for it in [*left, *(it for _, _, it in running)]}
        for seconds, crate in made.items():
            crate.seconds = seconds
        run = self.build["Run"].__new__(self.build["Run"])
        now = time.monotonic()
        run.began, run.left, run.whole = now - passed, list(made.values()), finished + sum(made)
        run.todo, run.spent = run.whole, finished / rate
        run.running = [type("Job", (), {"crate": made[it], "jobs": jobs, "began": now - ago})
                       for jobs, ago, it in running]
        return run.progress()

    def test_progress(self):
        self.assertEqual(self.progress(30.5, 100, [300]), "25 % after 0:30")
        self.assertEqual(self.progress(100.5, 100, [300]), "25 % after 1:40, about 6 min left")
        # half of what is left has been done by two jobs that run
        self.assertEqual(self.progress(100.5, 100, [], [(2, 75, 300)]),
                         "25 % after 1:40, about 2 min left")
        # one that takes longer than expected is not yet done
        self.assertEqual(self.progress(3600.5, 100, [], [(2, 3600, 300)]),
                         "25 % after 60:00, about 5 min left")
        self.assertEqual(self.progress(100.5, 100, []), "100 % after 1:40")
        # on a machine of a third of the speed, two jobs have done 50 seconds of what is left
        self.assertEqual(self.progress(100.5, 100, [], [(2, 75, 300)], rate=1 / 3),
                         "25 % after 1:40, about 3 min left")

    def test_the_seconds(self):
        """Each crate that ./build proves has its seconds."""
        names = {line.split(":")[0].split()[0]
                 for line in Path(TOP, "crates.txt").read_text().splitlines()}
        self.assertEqual(set(self.crates["SECONDS"]), names - {"library_tests"})


class Old(InRoom):
    """A run of tests stops if ./build says that the program or the library is older than its
    sources."""

    def setUp(self):
        super().setUp()
        shutil.copytree(f"{TOP}/tests", self.room / "tests",
                        ignore=shutil.ignore_patterns("__pycache__"))
        write(self.room / "build", "#!/bin/sh\necho $* >> asked\nexit 1\n", 0o755)
        for name in ("dyncollate/out/dyncollate", "c_library/out/libdyncollate.a",
                     "c_library/out/libdyncollate.so.1"):
            write(self.room / "crates" / name, "#!/bin/sh\n", 0o755)
        self.environment = {name: it for name, it in os.environ.items()
                            if name not in ("DYNCOLLATE", "LIBRARY", "TESTS", "RESULTS",
                                            "UNPROVED")}

    def stops(self, *tests, command, **more):
        status, printed = run(sys.executable, "-B", "-m", "unittest", *tests, cwd=self.room,
                              env=self.environment | more)
        self.assertEqual(status, 1, printed)
        self.assertRegex(
            printed,
            rf" is missing, or older than its sources\. `{command}` builds it, and \w+ may name "
            r"another\.\n\Z")
        self.assertNotRegex(printed, "Ran |FAIL|ERROR")

    def test_program(self):
        """The tests of the second module run in several processes."""
        for tests in "tests.documents", "tests.damage":
            self.stops(tests, command="./build")
        self.stops("tests.documents", command="./build unproved", UNPROVED="1")
        self.assertEqual((self.room / "asked").read_text().splitlines()[-1],
                         "--is-current unproved")

    def test_library(self):
        self.stops("tests.fuzzing", command="./build library")

    def test_others(self):
        """Tests of another program run, and so do tests that need none."""
        for tests, more in (("tests.documents",
                             {"DYNCOLLATE": f"{self.room}/crates/dyncollate/out/dyncollate"}),
                            ("tests.run", {})):
            printed = run(sys.executable, "-B", "-m", "unittest", tests, cwd=self.room,
                          env=self.environment | more)[1]
            self.assertRegex(printed, r"\nRan [1-9]")
        self.assertFalse((self.room / "asked").exists())
