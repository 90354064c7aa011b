"""The crates of crates.txt, the products of each, and whether they are current."""
import contextlib
import fcntl
import graphlib
import hashlib
import os
import shutil
import sys
from dataclasses import dataclass
from pathlib import Path

# The processor time in seconds that a proof by one job takes, as bench/run build measures it
# (in_memory and c_library: rt all check, with other work on the machine). Only the proportions
# count: for the order and the progress.
SECONDS = {"ninja_text": 135, "dep_order": 92, "dyndep_file": 79, "table_keys": 10,
           "document_values": 28, "scan_docs": 205, "module_maps": 69, "module_table": 293,
           "build_effect": 212, "collate_core": 191, "command_line": 50, "system_files": 120,
           "commands": 252, "disk_folder": 60, "dyncollate": 97, "in_memory": 118, "c_library": 94}

# What is made of a crate that is no library for others.
MADE = {"dyncollate": ["dyncollate"], "c_library": ["libdyncollate.a", "libdyncollate.so.1"]}


@dataclass(eq=False)
class Crate:
    """A crate, with the crates of this repository that it uses, directly or through others, and
    what is made of it: of a library its proof, and of a program or a C library files."""
    name: str
    uses: list
    below: list
    chain: float = 0  # the seconds of the longest chain of crates that begins with it
    digest: str = ""  # of all that its proof reads, except the toolchain
    was_killed: bool = False

    def __post_init__(self):
        self.home, self.seconds = f"crates/{self.name}", SECONDS.get(self.name, 60)
        self.parts, self.proved = (("src", "specs", "proofs"),
                                   f"{self.home}/out/proved/{self.name}.rlib")
        self.makes(f"{self.home}/out/proved", [f"{self.name}.rlib"])

    def makes(self, out, names, flags=(), more_sources=()):
        self.out, self.products, self.flags, self.more_sources = (
            out, [f"{out}/{it}" for it in names], flags, more_sources)
        self.stamp, self.record = f"{out}/built", f"{out}/digest"

    def root(self):
        """The file of src/ that the compiler is given."""
        return "src/main.rt" if os.path.exists(f"{self.home}/src/main.rt") else "src/lib.rt"

    def is_there(self):
        return all(map(os.path.exists, self.products))

    def sources(self):
        """The directories and files that it is made of, without the crates below."""
        for folder, folders, names in (it for part in self.parts
                                       for it in os.walk(f"{self.home}/{part}")):
            folders.sort()
            yield from [folder, *(f"{folder}/{it}" for it in sorted(names))]
        yield from self.more_sources


def say(text, status=None):
    print(f"dyncollate: {text}", file=sys.stderr, flush=True)
    if status is not None:
        sys.exit(status)


def read_crates(goal, is_arm=False):
    """A crate of crates.txt and those below it, each after those that it uses. dyncollate and
    c_library make files for a processor."""
    lines = [line.partition(":") for line in Path("crates.txt").read_text().splitlines()
             if line.strip()]
    uses, crates = {head.split()[0]: tail.split() for head, _, tail in lines}, {}
    if goal not in uses:
        say(f"crates.txt has no crate {goal}", 3)
    graph = graphlib.TopologicalSorter({name: [it for it in uses[name] if it in uses]
                                        for name in uses})
    try:
        order = list(graph.static_order())
    except graphlib.CycleError as error:
        say(f"crates.txt has a cycle: {' -> '.join(reversed(error.args[1]))}", 3)
    for name in order:
        direct = [crates[it] for it in uses[name] if it in crates]
        crates[name] = Crate(name, uses[name], list(dict.fromkeys(it for lower in direct
                                                                  for it in [*lower.below, lower])))
    ours = [*crates[goal].below, crates[goal]]
    for crate in reversed(ours):
        crate.chain += crate.seconds
        for lower in crate.below:
            lower.chain = max(lower.chain, crate.chain)
    if goal in MADE:
        is_library, link = (goal == "c_library",
                            ["building/link", *["cross/heap.c", "cross/system.c"] * is_arm])
        flags = ["--crate-type", "staticlib"] * is_library + ["--backend", "llvm"]
        flags += (["--target", "aarch64-unknown-linux-gnu", "--cpu", "generic"] * is_arm
                  or ["--cpu", "x86-64"] * is_library)
        ours[-1].makes(f"crates/{goal}/out" + "/aarch64" * is_arm, MADE[goal], flags, link)
    return ours


def read_unproved():
    """The crates of the program, which is made of the code alone."""
    *_, goal = crates = read_crates("dyncollate")
    goal.makes("crates/dyncollate/out/unproved", MADE["dyncollate"],
               more_sources=["building/loop.py"])
    for crate in crates:
        crate.parts = ("src",)
    return crates


def prover_words(crate, kit):
    """What each call of the prover says of a crate, as the gate rt ci makes it,
    in the crate's directory."""
    ours = {it.name: os.path.abspath(it.proved) for it in crate.below}
    words = ["--crate-name", crate.name, crate.root()]
    for name in ["std", *crate.uses]:
        words += ["--extern", f"{name}={ours.get(name, f'{kit}/rlibs/{name}.rlib')}"]
    for folder in [*map(os.path.dirname, ours.values()), f"{kit}/rlibs"]:
        words += ["-L", f"dependency={folder}"]
    words += ["--antt-project", f"{kit}/rattle/logic/antt-project.json", "--logic-built",
              f"{kit}/logic_built"]
    return [*words, "--links", f"{crate.name}="]


def lock_of(folder, waits=None):
    """Takes the lock of a directory, as rt does, until the file is closed here and in each process
    that has it. If another holds it: None, or, with something to say, waits."""
    file = os.open(folder, os.O_RDONLY)
    try:
        fcntl.flock(file, fcntl.LOCK_EX | fcntl.LOCK_NB)
    except BlockingIOError:
        if not waits:
            os.close(file)
            return None
        say(waits)
        fcntl.flock(file, fcntl.LOCK_EX)
    except OSError:
        pass  # some file systems have no locks
    return file


# A stamp lists the files and directories that the goal is made of, and its time is when the build
# began. Change times tell what has changed since: an edit in place, a removal and a file that is
# moved in all renew them, and nobody sets them back. (./dyncollate looks at the stamp by itself.) A
# copy has new change times. So a record has the toolchain, and digests of the sources and of the
# product.
def write_stamp(stamp, goal):
    Path(stamp).touch()
    since = os.stat(stamp).st_mtime_ns
    # (a crate's directory changes if it gets its first file of specs or proofs)
    paths = ["crates.txt", "building/crates.py",
             *(it for crate in [*goal.below, goal] for it in [crate.home, *crate.sources()])]
    Path(stamp).write_bytes(b"".join(os.fsencode(it) + b"\0" for it in paths))
    os.utime(stamp, ns=(since, since))


def has_stamp(goal):
    with contextlib.suppress(OSError):
        return (is_unchanged(Path(goal.stamp).read_bytes().split(b"\0")[:-1],
                             os.stat(goal.stamp).st_mtime_ns) and goal.is_there())
    return False


def is_unchanged(paths, since):
    return all(os.lstat(it).st_ctime_ns <= since for it in paths)


def digest_of(paths, text=""):
    """The digest of the bytes of files, and of the text. A directory counts only by its name."""
    sums = [f"{'' if os.path.isdir(it) else hashlib.sha256(Path(it).read_bytes()).hexdigest()} {it}"
            for it in paths]
    return hashlib.sha256(os.fsencode("\n".join([*sums, text]))).hexdigest()


def take_digest(crate):
    """Those of the crates below have been taken."""
    return digest_of(crate.sources(), f"{crate.name}: "
                     f"{' '.join([*crate.uses, *(it.digest for it in crate.below), *crate.flags])}")


def is_made(crate, toolchain):
    """Whether its product is of these sources, and by this toolchain,
    or by any if there is none here."""
    with contextlib.suppress(OSError, ValueError):
        known, *digests = Path(crate.record).read_text().splitlines()
        return digests == [crate.digest, digest_of(crate.products)] and toolchain in (known, None)
    return False


def record(crate, toolchain):
    Path(crate.record).write_text(f"{toolchain}\n{crate.digest}\n{digest_of(crate.products)}\n")


def adopt_from_gate(goal, toolchain):
    """The gate rt ci takes its lock when it begins, and proves all crates from scratch: if nothing
    has changed since, the libraries and the program that it left are as good as those made here."""
    lock = lock_of(goal.home)
    if lock is None:
        return
    os.close(lock)
    with contextlib.suppress(OSError):
        began = os.stat(".git/rt-ci.lock").st_mtime_ns
        if not is_unchanged(["crates.txt", *(it for crate in [*goal.below, goal]
                                             for it in crate.sources())], began):
            return
        for crate in goal.below:
            made = f"{crate.home}/out/rlib"
            if (not is_made(crate, toolchain) and not os.path.exists(f"{made}/stamp")
                and is_newer(f"{made}/{crate.name}.rlib", began)):
                shutil.rmtree(crate.products[0], ignore_errors=True)
                shutil.copytree(f"{made}/{crate.name}.rlib", crate.products[0], symlinks=True,
                                copy_function=os.link)
                record(crate, toolchain)
        if (goal.products == ["crates/dyncollate/out/dyncollate"]
            and is_newer(goal.products[0], began)):
            record(goal, toolchain)


def is_newer(path, since):
    return os.path.exists(path) and os.stat(path).st_mtime_ns > since
