"""Files are replaced whole: the contents of a file after a run that was killed or whose calls
failed, and while others read it."""
import errno
import itertools
import os
import re
import resource
import shutil
import signal
import stat
import tempfile
import threading

from tests import program
from tests.case import MEMORY, Case, cannot, lay, read, tree, write
from tests.run import output_of, run_apart, run_as_bytes

DONE = 0, b"", b""


def scan(users=(b"b.o",)):
    """A scan of an object that provides a module, and of those that require it."""
    return (b'{"version":1,"rules":[{"primary-output":"a.o","provides":[{"logical-name":"A"}]}%s]}'
            % b"".join(b',{"primary-output":"%s","requires":[{"logical-name":"A"}]}' % it
                       for it in users))


def target(folder, dyndep=b"t.dd"):
    """A target whose modules are in this directory, which is in each file that is written."""
    return (b'{"version":1,"target":"t","module-dir":"%s","module-ext":".bmi","scans":["t.ddi"],'
            b'"dyndep":"%s","info":"t.json","map":"clang"}' % (folder, dyndep))


def written(folder, dyndep=b"t.dd", users=(b"b.o",)):
    """The files of that target, in the order in which they are written."""
    file = folder + b"/A.bmi"
    return {
        b"a.o.modmap": b"-x c++-module\n-fmodule-output=%s\n" % file,
        **{it + b".modmap": b"-fmodule-file=A=%s\n" % file for it in users}, b"t.json":
        b'{"modules":[{"bmi":"%s","name":"A","requires":[],"visibility":"public"}],"target":"t",'
        b'"version":2}' % file,
        dyndep: b"ninja_dyndep_version = 1\nbuild a.o | %s: dyndep\n  restat = 1\n" % file
        + b"".join(b"build %s: dyndep | %s\n" % (it, file) for it in users)}


def failed(what, name, error):
    """The result of a run in which a call that reads or writes this file fails with this error."""
    return ((3, b"", b"dyncollate: out of memory\n")
            if error == errno.ENOMEM else cannot(what, os.fsdecode(name)))


SCAN = scan()
READ = {"t.target.json": target(b"new"), "t.ddi": SCAN}
NEW = written(b"new")
OLD = {name: b"before\n" for name in NEW}
TEMPORARY = re.compile(rb"(.+)\.[0-9]{1,20}\.tmp")


class Faulty(Case):
    """Runs of a target with a fault at a call on files."""
    given, new = READ, NEW

    @classmethod
    def setUpClass(cls):
        super().setUpClass()
        folder = tempfile.TemporaryDirectory(prefix="dyncollate-")
        cls.addClassCleanup(folder.cleanup)
        cls.library = f"{folder.name}/fault_at_call.so"
        output_of(f"{program.TOP}/tests/preload", f"{program.TOP}/tests/fault_at_call.c",
                  cls.library)

    def run_with_fault(self, old, number, **more):
        """The result of a run with a fault at the call of this number, and the contents of the
        files that it writes."""
        lay(self.given | {os.fsdecode(name): text for name, text in old.items()})
        answer = self.call_with_fault(["collate", "t.target.json"], number, **more)
        left = tree()
        for name, text in self.given.items():
            self.same(left.pop(os.fsencode(name)), text, name)
        return answer, left

    def call_with_fault(self, words, number, **more):
        before = dict(self.caller.environment)
        self.caller.environment.update(LD_PRELOAD=self.library, KILLED_AT=str(number), **more)
        answer = self.caller.run(*words)
        self.caller.environment = before
        return answer

    def calls(self, old, **more):
        """How many calls of this kind a run makes: it is killed at each of them."""
        return next(number for number in itertools.count()
                    if self.run_with_fault(old, number + 1, **more)[0] == DONE)

    def whole(self, old, left, temporaries):
        """Each file has all bytes from before, or all of the new ones, and these come first in the
        order of the files. Nothing else is there, except at most this number of temporary files,
        with a beginning of the new bytes."""
        left = dict(left)
        found = [left.pop(name, None) for name in self.new]
        news = sum(text == self.new[name] for name, text in zip(self.new, found))
        self.same(found, [*self.new.values()][:news] + [old.get(name) for name in self.new][news:],
                  "the files")
        self.assertLessEqual(len(left), temporaries, left)
        for name, text in left.items():
            of = TEMPORARY.fullmatch(name)
            self.assertTrue(of and self.new[of[1]].startswith(text), (name, text))
        return news


class ManyFiles(Faulty):
    """A target with 200 objects, and so with 202 files."""
    seconds = 10
    users = [b"%d.o" % at for at in range(199)]
    given, new = READ | {"t.ddi": scan(users)}, written(b"new", users=users)

    def test_killed(self):
        """At 200 moments of a run: whatever it has replaced or not,
        the files that are new come first."""
        for old in {}, {name: b"before\n" for name in self.new}:
            seen = set()
            for number in range(1, 6 * len(self.new), 12):
                answer, left = self.run_with_fault(old, number)
                self.assertIn(answer, [DONE, (-signal.SIGKILL, b"", b"")])
                seen.add(self.whole(old, left, 1))
            self.assertGreater(len(seen), 80, "how many files were new")


class Faults(Faulty):
    """Runs with a fault at each call on files in turn."""
    seconds = 10

    def killed(self, old):
        """What a kill at each call in turn leaves: how many files are new, and the temporaries."""
        for number in itertools.count(1):
            answer, left = self.run_with_fault(old, number)
            if answer[0] == 0:
                self.same((answer, left), (DONE, NEW))
                return
            with self.subTest(number):
                self.same(answer, (-signal.SIGKILL, b"", b""))
                yield (self.whole(old, left, 1),
                       {name: text for name, text in left.items() if name not in NEW})
                self.same(self.caller.run("collate", "t.target.json"), DONE, "the next run")
                self.same({name: text for name, text in tree().items() if name in NEW}, NEW,
                          "the next run")

    def test_killed(self):
        for old in {}, OLD:
            seen = list(self.killed(old))
            self.assertGreaterEqual(len(seen), 5 * len(NEW), "calls")
            self.assertGreaterEqual({news for news, _ in seen}, set(range(len(NEW))))
            halves = {TEMPORARY.fullmatch(name)[1] for _, left in seen
                      for name, text in left.items() if text}
            self.assertEqual(halves, set(NEW), "temporaries that were half written")

    def test_permissions_come_before_the_bytes(self):
        """Nobody can read in a temporary file what may not be read in the file that it replaces."""
        found = set()
        for number in itertools.count(1):
            lay(READ | {os.fsdecode(name): text for name, text in OLD.items()})
            for name in OLD:
                os.chmod(name, 0o600)
            answer = self.call_with_fault(["collate", "t.target.json"], number)
            filled = [it for it in os.listdir(b".") if TEMPORARY.fullmatch(it)
                      and os.path.getsize(it)]
            found |= {stat.S_IMODE(os.stat(it).st_mode) for it in filled}
            if answer == DONE:
                break
        self.same(found, {0o600})

    def test_failed_calls(self):
        """A call that fails, because space or rights are missing or for another reason, leaves
        whole files and no temporary one."""
        for old in {}, OLD:
            calls = self.calls(old)
            errors = (errno.ENOSPC, errno.EDQUOT, errno.EACCES, errno.EIO, errno.EMFILE,
                      errno.EINTR, errno.ENOMEM)
            for error, number in itertools.product(errors, range(1, calls + 1)):
                with self.subTest(old=old, error=errno.errorcode[error], call=number):
                    answer, left = self.run_with_fault(old, number, FAILS_WITH=str(error))
                    news = self.whole(old, left, 0)
                    if news == len(NEW):
                        self.same(answer, DONE)
                    else:
                        self.assertIn(answer, [failed("read", it, error) for it in READ]
                                      + [failed("write", [*NEW][news], error)])

    def test_interrupted_and_short_calls(self):
        """A read or a write that a signal interrupts is made again, and one that does half is
        followed by one for the rest."""
        for call, old in itertools.product(("read", "write"), ({}, OLD)):
            calls = self.calls(old, COUNTED=call)
            self.assertGreaterEqual(calls, len(NEW) if call == "write" else 2 * len(READ))
            for number, fault in (itertools.product(
                range(1, calls + 1), ({"FAILS_WITH": str(errno.EINTR)}, {"HALVED": "1"}))):
                with self.subTest(old=old, call=call, number=number, fault=fault):
                    self.same(self.run_with_fault(old, number, COUNTED=call, **fault), (DONE, NEW))

    def test_interrupted_and_short_reads_of_lines(self):
        text = written(b"new", users=ManyFiles.users)[b"t.dd"] * 10
        lay({"t.dd": text})
        shown = self.caller.run("show", "t.dd")
        for number, fault in (itertools.product((1, 2, 3), ({"FAILS_WITH": str(errno.EINTR)},
                                                            {"HALVED": "1"}))):
            self.same(self.call_with_fault(["show", "t.dd"], number, COUNTED="read", **fault),
                      shown, (number, fault))

    def test_no_file_can_be_made(self):
        """After an error that says that no new file can be made here, or take the place of the old
        one, the file is written in place."""
        errors = (errno.EACCES, errno.EPERM, errno.EROFS, errno.ENAMETOOLONG, errno.EINVAL,
                  errno.EXDEV, errno.EBUSY, errno.ENOSYS, errno.EOPNOTSUPP)
        for error, call, old in itertools.product(errors, ("create", "rename"), ({}, OLD)):
            with self.subTest(error=errno.errorcode[error], call=call, old=old):
                self.same(self.run_with_fault(old, 1, FAILS_WITH=str(error), COUNTED=call),
                          (DONE, NEW))

    def test_other_errors(self):
        """If a new file can't be created or renamed for another reason, as a full disk, the run
        ends with status 3, and the old file stays."""
        errors = (errno.ENOSPC, errno.EDQUOT, errno.EIO, errno.EMFILE, errno.ENFILE, errno.ENOMEM,
                  errno.ESTALE)
        for error, call, old in itertools.product(errors, ("create", "rename"), ({}, OLD)):
            for number, name in enumerate(NEW, 1):
                with self.subTest(error=errno.errorcode[error], call=call, old=old, name=name):
                    answer, left = self.run_with_fault(old, number, FAILS_WITH=str(error),
                                                       COUNTED=call)
                    self.same(answer, failed("write", name, error))
                    self.assertEqual(self.whole(old, left, 0), number - 1)

    def test_names_of_temporary_files(self):
        """They have a random number of 64 bits, so that two runs at once do not share a name: in 40
        runs each bit takes both values."""
        numbers = []
        for _ in range(40):
            _, left = self.run_with_fault({}, 1, COUNTED="rename")
            (temporary,) = left
            self.assertTrue(TEMPORARY.fullmatch(temporary), temporary)
            numbers.append(int(temporary.split(b".")[-2]))
        for bit in range(64):
            self.assertEqual({number >> bit & 1 for number in numbers}, {0, 1}, f"bit {bit}")


class Replaced(Case):
    """What becomes of the file that is replaced."""

    def collate(self, **more):
        lay(READ | more)
        return self.caller.run("collate", "t.target.json")

    def test_a_file_that_may_not_be_written(self):
        lay(READ | {"t.dd": b"before\n"})
        os.chmod("t.dd", 0o444)
        self.same(self.caller.run("collate", "t.target.json"), DONE)
        self.same((stat.S_IMODE(os.stat("t.dd").st_mode), read("t.dd")), (0o444, NEW[b"t.dd"]))

    def test_a_hard_link_keeps_the_bytes(self):
        lay(READ | {"t.dd": b"before\n"})
        os.link("t.dd", "cached")
        self.same(self.caller.run("collate", "t.target.json"), DONE)
        self.same((read("cached"), read("t.dd")), (b"before\n", NEW[b"t.dd"]))

    def test_a_link_stays_and_its_file_is_replaced(self):
        for there in True, False:
            lay(READ)
            with tempfile.TemporaryDirectory(dir=MEMORY) as other:
                if there:
                    write(f"{other}/file", b"before\n")
                os.symlink(f"{other}/file", f"{other}/link")
                os.symlink(f"{other}/link", "t.dd")
                self.same(self.caller.run("collate", "t.target.json"), DONE)
                self.same((os.readlink("t.dd"), tree(os.fsencode(other))),
                          (f"{other}/link", {b"file": NEW[b"t.dd"], b"link": NEW[b"t.dd"]}), there)
            os.remove("t.dd")
            self.same(set(os.listdir(b".")), set(map(os.fsencode, READ)) | set(NEW) - {b"t.dd"},
                      there)

    def test_a_pipe_is_written(self):
        for link in False, True:
            lay(READ)
            os.mkfifo("pipe" if link else "t.dd")
            if link:
                os.symlink("pipe", "t.dd")
            found = []
            reader = threading.Thread(target=lambda: found.append(read("t.dd")), daemon=True)
            reader.start()
            self.same(self.caller.run("collate", "t.target.json"), DONE)
            reader.join(10)
            self.same((found, stat.S_ISFIFO(os.stat("t.dd").st_mode)), ([NEW[b"t.dd"]], True), link)

    def test_a_name_too_long_for_a_temporary_one(self):
        name = b"d" * 250
        for _ in range(2):
            self.same(self.collate(**{"t.target.json": target(b"new", name)}), DONE)
            self.same(tree(), {b"t.target.json": target(b"new", name),
                               b"t.ddi": SCAN} | written(b"new", name))

    def test_a_file_too_large(self):
        """A file that can't be written to its end is as it was."""
        for size in range(len(NEW[b"a.o.modmap"])):
            lay(READ | {os.fsdecode(name): text for name, text in OLD.items()})
            before = tree()
            unread, pipe = os.pipe()
            limits = resource.getrlimit(resource.RLIMIT_FSIZE)
            resource.setrlimit(resource.RLIMIT_FSIZE, (size, limits[1]))
            child = self.caller.begin("collate", "t.target.json", err=pipe)
            resource.setrlimit(resource.RLIMIT_FSIZE, limits)
            os.close(pipe)
            ended = self.caller.end(child)
            with open(unread, "rb") as said:
                self.same((ended[0], said.read(), tree()),
                          (3, cannot("write", "a.o.modmap")[2], before), size)

    def test_a_directory_that_may_not_be_written(self):
        """What could be written without another name still can."""
        lay(READ | {os.fsdecode(name): text for name, text in OLD.items()})
        for name in NEW:
            os.chmod(name, 0o666)
        os.chmod(".", 0o555)
        nobody = {"user": 65534, "group": 65534, "extra_groups": []} if os.getuid() == 0 else {}
        with tempfile.TemporaryDirectory(prefix="dyncollate-") as room:
            # a copy that anybody may run
            os.chmod(room, 0o755)
            os.chmod(shutil.copy(program.PROGRAM, room), 0o755)
            ran = run_as_bytes(f"{room}/{os.path.basename(program.PROGRAM)}", "collate",
                               "t.target.json", **nobody)
        os.chmod(".", 0o755)
        self.same(ran, DONE)
        self.same(tree(), {os.fsencode(name): text for name, text in READ.items()} | NEW)

    def test_a_mount_point(self):
        """A file that can't be renamed onto is written in place."""
        lay(READ | {"t.dd": b"before\n"})
        mounted = 'mount --bind t.dd t.dd 2> /dev/null || exit 99; exec "$@"'
        unshare = ["unshare", "-m" if os.getuid() == 0 else "-rm"]
        ran = run_apart(*unshare, "sh", "-c", mounted, "sh", program.PROGRAM, "collate",
                        "t.target.json")
        if ran[0] == 99 or ran[2].startswith("unshare:"):
            self.skipTest("no file was mounted")
        self.same(ran, (0, "", ""))
        self.same(tree(), {os.fsencode(name): text for name, text in READ.items()} | NEW)


class AtOnce(Case):
    """Runs at once that write other bytes to the same files."""
    seconds = 10

    def test_each_file_is_of_one_run(self):
        """And so it is whenever another program reads it."""
        folders = b"1" * 500, b"2" * 3500, b"3" * 2000
        news = [written(folder) for folder in folders]
        files = ({f"{at}.json": target(folder) for at, folder in enumerate(folders)}
                 | {"t.ddi": SCAN})
        seen = {name: set() for name in NEW}
        for _ in range(150):
            lay(files | {os.fsdecode(name): text for name, text in OLD.items()})
            children = [self.caller.begin("collate", f"{at}.json") for at in range(len(folders))]
            for _ in range(20):
                for name in NEW:
                    text = read(name)
                    self.assertIn(text, [OLD[name]] + [new[name] for new in news])
                    seen[name].add(text)
            self.same([self.caller.end(child) for child in children], [DONE] * len(folders))
            left = tree()
            for name in NEW:
                self.assertIn(left.pop(name), [new[name] for new in news])
            self.same(left, {os.fsencode(name): text for name, text in files.items()})
        for name, texts in seen.items():
            self.assertGreater(len(texts), 2, f"{name}: the reader saw too few of the files")
