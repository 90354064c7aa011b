"""Files and devices that fail, vanish, are slow, or are shared by two runs at once.

- Standard output that is closed, full, limited after each number of bytes, a pipe that nobody
  reads, or one that is full; and
  standard input and standard error that are closed.
- Files that may have no more bytes than each number, a full disk (full_disk.py), and directories
  that vanish before a file in
  them is written.
- Files that vanish once the document that names them was read, that are devices or directories, or
  that may not be read, and
  names that are not UTF-8.
- Each file of a run in turn as a pipe that gives one byte at a time,
  also if the run is stopped and continued meanwhile.
- Concurrent runs in one directory, of one target and of several.
- A system that gives no random bytes, or little memory.

The tables of rows have the results of runs in which nothing fails.
"""
import fcntl
import os
import resource
import shutil
import signal
import sys
import tempfile
import threading
import time

from tests.case import USAGE, Case, cannot, each, lay, read, rejected, tree, write
from tests.program import PROGRAM, TOP, library
from tests.rows import V, targets
from tests.rows.dyndep_files import TWO
from tests.rows.forms import target
from tests.run import run, run_apart, run_as_bytes
from tests.side_by_side import side_by_side
from tests.tables import worked

load_tests = side_by_side

UNWRITTEN = 3, b"", b"dyncollate: cannot write standard output\n"


def row(command, why):
    return next(it for it in worked() if it.words[:1] == [command] and it.why == "* " + why)


SHOW = row("show", "two statements")
REJECTED = row("show", "another rule")
CYCLE = row("one", "two objects after another")
COLLATE = row("collate", "GCC's maps")
PROJECT = row("project", "three targets")
# a call of each command that prints, and calls that read every kind of file
PRINTED = [SHOW, row("one", "two rules, in their order"), row("effect", "two statements"),
           row("order", "after an effect")]
WRITTEN = [COLLATE, PROJECT]
READ = (PRINTED + WRITTEN + [REJECTED, row("collate", "edges that have an order"),
                             row("collate", "a cycle through a file that is generated")])


def situations(rows, *methods):
    """Each of these methods of a class, with each row."""
    return [(method, it) for method in methods for it in rows]


def title(situation):
    return f"{situation[0]} {situation[1].name}"


class Devices(Case):
    """Its tests are pairs of a method and a row."""

    def check(self, situation):
        method, it = situation
        lay(it.files)
        getattr(self, method)(it)

    def prints(self, it, wanted, what="", **given):
        """The call of a row prints this."""
        self.same(self.caller.run(*it.words, **given), wanted, what)

    def leaves(self, it, wanted, what="", **given):
        """The call of a row, after its files are written again, prints this, and then there are the
        files of the row and those that it writes."""
        lay(it.files)
        before = tree()
        self.same((self.caller.run(*it.words, **given), tree()), (wanted, before | it.made()), what)


# ---- standard output

@each(situations(PRINTED, "closed", "full",
                 "limited") + situations(WRITTEN, "closed_files", "full_next_to_files"), title)
class Output(Devices):
    def closed(self, it):
        self.prints(it, UNWRITTEN, "standard output closed", closed=[1])
        self.prints(it, it.printed(), "standard input closed", closed=[0])
        self.prints(it, it.printed(), "standard error closed", closed=[2])
        self.prints(it, (3, b"", b""), "all closed", closed=[0, 1, 2])

    def closed_files(self, it):
        for closed in ([0], [1], [2], [0, 1, 2]):
            self.leaves(it, it.printed(), f"{closed} closed", closed=closed)

    def full(self, it):
        with open("/dev/full", "wb") as full:
            self.prints(it, UNWRITTEN, "standard output full", out=full.fileno())
            self.prints(it, (3, b"", b""), "both full", out=full.fileno(), err=full.fileno())

    def full_next_to_files(self, it):
        with open("/dev/full", "wb") as full:
            self.leaves(it, it.printed(), "both full", out=full.fileno(), err=full.fileno())

    def limited(self, it):
        """Standard output may have no more bytes than each number."""
        for size in range(len(it.out)):
            self.same(self.run_limited(size, *it.words), (3, it.out[:size], UNWRITTEN[2]),
                      f"{size} bytes")
        self.same(self.run_limited(len(it.out), *it.words), it.printed(), "all bytes")

    def run_limited(self, size, *words, **given):
        return run_limited(self.caller, size, *words, **given)

    def test_errors(self):
        """They need no standard output, and have their status also without standard error."""
        lay(REJECTED.files | CYCLE.files)
        with open("/dev/full", "wb") as full:
            self.prints(REJECTED, REJECTED.printed(), "standard output closed", closed=[0, 1])
            self.prints(REJECTED, (1, b"", b""), "all closed", closed=[0, 1, 2])
            self.prints(REJECTED, (1, b"", b""), "standard error full", err=full.fileno())
            self.prints(CYCLE, CYCLE.printed(), "standard output full", out=full.fileno())
            self.prints(CYCLE, (1, b"", b""), "standard error full", err=full.fileno())

    def test_pipes_that_nobody_reads(self):
        lay(SHOW.files)
        for signals in [], [signal.SIGPIPE]:
            unread, pipe = os.pipe()
            os.close(unread)
            self.prints(SHOW, UNWRITTEN, str(signals), out=pipe, signals=signals)
            os.close(pipe)

    def test_a_pipe_that_is_full(self):
        lay(SHOW.files)
        end, pipe = os.pipe()
        os.set_blocking(pipe, False)
        filled = 0
        try:
            while True:
                filled += os.write(pipe, b"x" * 4096)
        except BlockingIOError:
            pass
        self.prints(SHOW, UNWRITTEN, out=pipe)
        os.close(pipe)
        with open(end, "rb") as file:
            self.same(file.read(), b"x" * filled, "what is in it")

    def test_a_pipe_that_is_read_byte_by_byte(self):
        """It has room for much less than the text."""
        text = V + b"".join(b"build %d.o: dyndep\n" % it for it in range(10_000))
        lay({"t.dd": text})
        end, pipe = os.pipe()
        child = self.caller.begin("show", "t.dd", out=pipe)
        os.close(pipe)
        with open(end, "rb", buffering=0) as file:
            self.same(b"".join(iter(lambda: file.read(1), b"")), text)
        self.same(self.caller.end(child), (0, b"", b""))


# ---- files that get no more bytes

class Limited:
    """Meanwhile no file that is written may have more bytes."""

    def __init__(self, size):
        self.size = size

    def __enter__(self):
        self.before = resource.getrlimit(resource.RLIMIT_FSIZE)
        resource.setrlimit(resource.RLIMIT_FSIZE, (self.size, self.before[1]))

    def __exit__(self, *_):
        resource.setrlimit(resource.RLIMIT_FSIZE, self.before)


def run_limited(caller, size, *words, **given):
    """A run whose files may have no more bytes; standard error is a pipe, which is no such file."""
    end, pipe = os.pipe()
    with Limited(size):
        child = caller.begin(*words, err=pipe, **given)
    os.close(pipe)
    status, out, _ = caller.end(child)
    with open(end, "rb") as file:
        return status, out, file.read()


def wholly_before(test, it, failing, before, folder="", what=""):
    """The files before the one that cannot be written are whole,
    and of this there is no more than a beginning."""
    files = [(os.fsencode(folder + name), text) for name, text in it.written.items()]
    at = [name for name, _ in files].index(os.fsencode(failing))
    there = tree()
    half = there.pop(files[at][0], b"")
    test.same(there, before | dict(files[:at]), f"{what}: the files before it")
    test.same(half, files[at][1][:len(half)], f"{what}: what there is of it")


@each(situations(WRITTEN, "limited"), title)
class Files(Devices):
    seconds = 5

    def limited(self, it):
        """Files may have no more bytes than each number."""
        before = tree()
        for size in range(max(map(len, it.written.values())) + 1):
            lay(it.files)
            ran = run_limited(self.caller, size, *it.words)
            failing = next((name for name, text in it.written.items() if len(text) > size), None)
            if failing:
                self.same(ran, cannot("write", failing), f"{size} bytes")
                wholly_before(self, it, failing, before, what=f"{size} bytes")
                # with standard error closed, a file may get its number; the line must not go there
                lay(it.files)
                ran = run_limited(self.caller, size, *it.words, closed=[2])
                self.same(ran, (3, b"", b""), f"{size} bytes, no standard error")
                wholly_before(self, it, failing, before, what=f"{size} bytes, no standard error")
            else:
                self.same((ran, tree()), (it.printed(), before | it.made()), f"{size} bytes")

    def test_a_full_device_for_a_file(self):
        for member, whole in ((b"t.json", ["a.o.modmap", "b.o.modmap"]),
                              (b"t.dd", ["a.o.modmap", "b.o.modmap", "t.json"])):
            files = dict(COLLATE.files)
            files["t.target.json"] = files["t.target.json"].replace(b'"%s"' % member,
                                                                    b'"/dev/full"')
            lay(files)
            before = tree()
            self.prints(COLLATE, cannot("write", "/dev/full"))
            self.same(tree(), before | {os.fsencode(it): COLLATE.written[it] for it in whole})

    def test_a_full_disk(self):
        """The tests of full_disk.py, in a place that nobody else sees."""
        if not shutil.which("unshare"):
            self.skipTest("there is no unshare")
        unshare = ["unshare", "-m"] if os.getuid() == 0 else ["unshare", "-rm"]
        tests = [sys.executable, "-m", "unittest", "-v", "tests.full_disk"]
        status, printed = run(*unshare, *tests, cwd=TOP)
        if "skipped" in printed or "unshare failed" in printed:
            self.skipTest("no small disk was mounted: " + printed[-300:])
        self.assertEqual(status, 0, printed)


# ---- files that vanish, and names of things that are not files

class Piped:
    """Meanwhile a file is a pipe. Its bytes are given in pieces,
    and something is done before the last one ends."""

    def __init__(self, name, by_byte=False, meanwhile=lambda at: None):
        self.name, self.text, self.by_byte, self.meanwhile = name, read(name), by_byte, meanwhile
        os.remove(name)
        os.mkfifo(name)
        self.thread = threading.Thread(target=self.give, daemon=True)

    def give(self):
        pieces = ([self.text[at:at + 1] for at in range(len(self.text))]
                  if self.by_byte else [self.text])
        try:
            with open(self.name, "wb", buffering=0) as file:
                for at, piece in enumerate(pieces):
                    file.write(piece)
                    self.meanwhile(at)
                    while (self.by_byte and int.from_bytes(fcntl.ioctl(file, 0x541B, bytes(4)),
                                                           sys.byteorder)):
                        time.sleep(0)
        except BrokenPipeError:
            pass

    def __enter__(self):
        self.thread.start()

    def __exit__(self, *_):
        self.thread.join(10)
        os.remove(self.name)
        write(self.name, self.text)


def read_in_order(it):
    """The files that a run reads, in order."""
    command = it.words[0]
    if command == "effect":
        return [it.words[2], it.words[3]]
    if command == "project":
        return (["project.json"] + [f"{at}.{ending}" for at in range(3)
                                    for ending in ("json", "ddi")])
    if command == "collate":
        return [name for name in ("t.target.json", "m.ddi", "two.ddi", "l.json", "t.edges")
                if name in it.files]
    return [it.words[1]]


@each(situations(READ, "vanishes", "byte_by_byte", "stopped", "no_random_bytes", "no_text"), title)
class Inputs(Devices):
    seconds = 2

    def vanishes(self, it):
        """A file vanishes once the run reads the one before it."""
        names = read_in_order(it)
        for first, then in zip(names, names[1:]):
            lay(it.files)
            before = tree()
            with Piped(first, meanwhile=lambda _: os.remove(then)):
                ran = self.caller.run(*it.words)
            before.pop(os.fsencode(then))
            self.same((ran, tree()), (cannot("read", then), before), f"{then} vanishes")

    def byte_by_byte(self, it, stops=False):
        """Each file in turn gives one byte at a time."""
        for name in read_in_order(it):
            lay(it.files)
            before = tree()

            def meanwhile(at):
                if stops and at == len(it.files[name]) // 2:
                    os.kill(self.caller.child, signal.SIGSTOP)
                    time.sleep(0.002)
                    os.kill(self.caller.child, signal.SIGCONT)

            with Piped(name, by_byte=True, meanwhile=meanwhile):
                ran = self.caller.run(*it.words)
            self.same((ran, tree()), (it.printed(), before | it.made()), name)

    def stopped(self, it):
        """The same, and the run is stopped in the middle of each file, and continues."""
        self.byte_by_byte(it, stops=True)

    def no_random_bytes(self, it):
        """New files get no names at random: they are written in place.
        Nothing else needs random bytes."""
        before = tree()
        ran = self.caller.run(*it.words, LD_PRELOAD=library("no_random_bytes.c"))
        self.same((ran, tree()), (it.printed(), before | it.made()))

    def no_text(self, it):
        """An argument that is not UTF-8 is an invalid command line, at each position."""
        for at in range(len(it.words)):
            for name in (b"\xff", b"t\x80.dd", b"\xed\xa0\x80", b"\xc0\xaf"):
                words = [os.fsencode(word) for word in it.words]
                words[at] = name
                write(name, it.files.get(it.words[at], b""))
                self.same(self.caller.run(*words), USAGE, str(words))
                os.remove(name)

    def test_the_directory_of_a_file_vanishes(self):
        """So it does while the last file is read, and a file in it is to be written."""
        for member in (b"t.json", b"t.dd"):
            files = dict(COLLATE.files)
            files["t.target.json"] = files["t.target.json"].replace(b'"%s"' % member,
                                                                    b'"away/%s"' % member)
            lay(files)
            os.mkdir("away")
            with Piped("l.json", meanwhile=lambda _: os.rmdir("away")):
                self.prints(COLLATE, cannot("write", "away/" + member.decode()))
            whole = {it: text for it, text in COLLATE.written.items()
                     if it.endswith(".modmap") or member == b"t.dd" and it == "t.json"}
            self.same(tree(), {os.fsencode(it): text for it, text in (files | whole).items()},
                      member.decode())

    def test_standard_input_by_its_name(self):
        lay(SHOW.files)
        end, pipe = os.pipe()
        os.write(pipe, TWO)
        os.close(pipe)
        self.same(self.caller.run("show", f"/proc/{os.getpid()}/fd/{end}"), SHOW.printed())
        os.close(end)

    def test_files_without_an_end(self):
        """A document is read up to its limit, and a file of lines up to the limit of a line."""
        document, line = b"S8 TooLarge document", b"line 1: N5 LineTooLong"
        lay({"t.dd": TWO, "t.edges": b"", "scan.json": target(b',"scans":["/dev/zero"]'),
             "info.json": target(b',"linked":["/dev/zero"]'),
             "edges.json": target(b',"edges":"/dev/zero"'),
             "project.json": b'{"version":1,"targets":["/dev/zero"]}'})
        for words, answer in ((["one", "/dev/zero", "m", ".pcm"], b"scan 0: " + document),
                              (["collate", "/dev/zero"], b"target: " + document),
                              (["project", "/dev/zero"], b"project: " + document),
                              (["project", "project.json"], b"target 0: target: " + document),
                              (["collate", "scan.json"], b"scan 0: " + document),
                              (["collate", "info.json"], b"info 0: " + document),
                              (["collate", "edges.json"], b"edges: " + line),
                              (["show", "/dev/zero"], line),
                              (["order", "/dev/zero"], b"edges: " + line),
                              (["effect", "t.dd", "/dev/zero", "t.dd"], b"edges: " + line),
                              (["effect", "t.dd", "t.edges", "/dev/zero"], line)):
            self.same(self.caller.run(*words), rejected(answer), " ".join(words))

    def test_a_pipe_that_stays_open_after_a_faulty_line(self):
        """The run ends with the fault while the writer still has the pipe open,
        and more could come."""
        lay({"t.dd": TWO, "t.edges": b"", "edges.json": target(b',"edges":"pipe"')})
        for words, text, answer in (
                (["show", "pipe"], V + b"rule r\n", b"line 2: Y8 BadLine"),
                (["order", "pipe"], b"rule r\n", b"edges: line 1: E3 Form"),
                (["effect", "t.dd", "pipe", "t.dd"], b"rule r\n", b"edges: line 1: E3 Form"),
                (["effect", "t.dd", "t.edges", "pipe"], V + b"rule r\n", b"line 2: Y8 BadLine"),
                (["collate", "edges.json"], b"rule r\n", b"edges: line 1: E3 Form")):
            os.mkfifo("pipe")
            pipe = os.open("pipe", os.O_RDWR)
            os.write(pipe, text)
            self.same(self.caller.run(*words), rejected(answer), " ".join(words))
            os.close(pipe)
            os.remove("pipe")

    def test_a_pipe_gives_its_text_to_the_first_that_reads_it(self):
        """A list reads it once, however often it names it. Each list reads it by itself."""
        for members, error in ((b',"scans":["/dev/stdin","/dev/stdin"]', b"M1 ObjectTwice main.o"),
                               (b',"scans":["/dev/stdin"],"linked":["/dev/stdin"]',
                                b"info 0: S1 NotJson document")):
            with self.subTest(members):
                lay({"t.target.json": target(members)})
                end, pipe = os.pipe()
                os.write(pipe, targets.MAIN)
                os.close(pipe)
                ran = self.caller.run("collate", "t.target.json", others=[(0, end)])
                os.close(end)
                self.same(ran, rejected(error))


CALLS = [["show"], ["one", "mod", ".bmi"], ["collate"], ["order"], ["effect", "t.dd", "/dev/null"]]
EMPTY = {"show": rejected(b"line 1: Y4 NoVersion"), "one": rejected(b"scan 0: S1 NotJson document"),
         "collate": rejected(b"target: S1 NotJson document"), "order": (0, b"", b""),
         "effect": rejected(b"line 1: Y4 NoVersion")}
NO_FILES = [".", "folder", "/", "", "loop", "dangling", "none", "folder/none", "/dev/null/none",
            "/proc/self/mem", "x" * 256, "y/" * 2100, "/dev/null/"]


@each(CALLS, lambda call: call[0])
class Names(Devices):
    """Names of devices, directories and links, and names that no file can have."""

    def check(self, call):
        os.symlink("loop", "loop")
        os.symlink("nothing", "dangling")
        os.mkdir("folder")
        command, *given = call
        for name in NO_FILES:
            words = [command, *given, name] if command == "effect" else [command, name, *given]
            self.same(self.caller.run(*words), cannot("read", name), name)
        words = ([command, *given, "/dev/null"]
                 if command == "effect" else [command, "/dev/null", *given])
        self.same(self.caller.run(*words), EMPTY[command], "/dev/null")

    def test_names_of_any_text(self):
        for name in (b"\xc3\xa9 \xf0\x9f\x98\x80.dd", b" ", b"a b", b"'\"$*?[]", b"a\nb\x7f",
                     b"..dd", b"x" * 255):
            lay({})
            self.same(self.caller.run("show", name),
                      cannot("read", name.replace(b"\n", b"?").replace(b"\x7f", b"?")))
            write(name, TWO)
            self.same(self.caller.run("show", name), (0, TWO, b""), repr(name))


# ---- rights and memory

class Rights(Case):
    def test_a_file_without_read_rights(self):
        """The user root reads any file, so there the program is run as nobody, from a directory in
        which programs may be run."""
        folder = tempfile.TemporaryDirectory()
        self.addCleanup(folder.cleanup)
        os.chdir(folder.name)
        os.chmod(folder.name, 0o755)
        anyone = (["setpriv", "--reuid=65534", "--regid=65534", "--clear-groups"]
                  if os.getuid() == 0 else [])
        shutil.copy(PROGRAM, "program")
        os.chmod("program", 0o755)
        for it in PRINTED[:2]:
            name = it.words[1]
            write(name, it.files[name])
            os.chmod(name, 0)
            self.same(run_as_bytes(*anyone, "./program", *it.words), cannot("read", name), it.name)

    def test_no_memory_for_a_file(self):
        """What it means needs more memory than the program may have,
        although it has no more bytes than it may have."""
        lay({"t.target.json": target(b',"scans":["huge"]'),
             "huge": b"[" + b"0," * 8_000_000 + b"0]",
             "huge.dd": V + b"".join(b"build %d: dyndep\n" % it for it in range(1_000_000))})
        for words in ["show", "huge.dd"], ["collate", "t.target.json"]:
            ran = run_apart("sh", "-c", 'ulimit -v 131072 && exec "$@"', "sh", PROGRAM, *words)
            self.same(ran, (3, "", "dyncollate: out of memory\n"), words[0])


# ---- runs at once

@each(situations(WRITTEN, "at_once"), title)
class AtOnce(Devices):
    seconds = 5

    def at_once(self, it):
        """Runs of the same call at once leave each file whole."""
        for round_of in range(100):
            lay(it.files)
            before = tree()
            children = [self.caller.begin(*it.words) for _ in range(2 + round_of % 3)]
            ended = [self.caller.end(child) for child in children]
            self.same((ended, tree()), ([it.printed()] * len(children), before | it.made()),
                      f"{len(children)} at once")

    def test_six_targets(self):
        files, made = dict(targets.LINKED), {}
        for at in range(6):
            files[f"{at}.json"] = target(targets.LINKS + b',"dyndep":"%d.dd","info":"%d.info"'
                                         % (at, at), name=b"t%d" % at)
            made[b"%d.dd" % at] = targets.LINKED_FILES["t.dd"]
            made[b"%d.info" % at] = targets.LINKED_FILES["t.json"].replace(b'"t"', b'"t%d"' % at)
        for _ in range(50):
            lay(files)
            before = tree()
            children = [self.caller.begin("collate", f"{at}.json") for at in range(6)]
            ended = [self.caller.end(child) for child in children]
            self.same((ended, tree()), ([(0, b"", b"")] * 6, before | made))
