"""`python -m dyncollate`: the rows of the program, and how files are replaced."""
import os
import stat
import subprocess
import sys
from pathlib import Path

from tests import embedded, program
from tests.case import USAGE, Case, cannot, each, lay, tree
from tests.files import DONE
from tests.run import run_apart, run_as_bytes
from tests.side_by_side import side_by_side
from tests.tables import all_rows

NEEDS_LIBRARY = True

load_tests = side_by_side
TARGET = (b'{"version":1,"target":"t","module-dir":"m","module-ext":".x","scans":["a.ddi"],'
          b'"dyndep":"t.dd","info":"t.json","restat":true}')
SCAN = b'{"version":1,"rules":[{"primary-output":"a.o"}]}'
READ = {"t.target.json": TARGET, "a.ddi": SCAN}
INFO = b'{"modules":[],"target":"t","version":2}'
DYNDEP = b"ninja_dyndep_version = 1\nbuild a.o: dyndep\n"
ENVIRONMENT = {"PYTHONPATH": embedded.PACKAGE, "PYTHONDONTWRITEBYTECODE": "1"}


class Copy(program.Caller):
    """Runs the commands in copies of this process, which start faster than Python does."""

    def begin(self, *words, **given):
        main = embedded.module("dyncollate.__main__").main
        child = os.fork()
        if not child:
            try:
                os.dup2(self.out, 1)
                os.dup2(self.err, 2)
                os._exit(main([os.fsdecode(it) for it in words]))
            finally:
                os._exit(99)
        return child


class InCopies(Case):
    def setUp(self):
        super().setUp()
        self.caller = Copy()
        for file in self.caller.out, self.caller.err:
            self.addCleanup(os.close, file)


@embedded.needs_library
@each(all_rows(), lambda row: row.name)
class Rows(InCopies):
    """It prints and writes what the program does."""


@embedded.needs_library
class Files(InCopies):
    def collates(self, **more):
        self.assertEqual(self.caller.run("collate", "t.target.json", **more), DONE)

    def test_a_file_that_may_be_left(self):
        """With `restat` an info file that has its bytes is left alone. The dyndep file, and one
        with other bytes, are replaced."""
        lay(READ | {"t.json": INFO, "t.dd": DYNDEP})
        for name in "t.json", "t.dd":
            os.utime(name, ns=(1, 1))
        self.collates()
        self.assertEqual([os.stat(it).st_mtime_ns == 1 for it in ("t.json", "t.dd")], [True, False])
        Path("t.json").write_bytes(b"old")
        self.collates()
        self.assertEqual(Path("t.json").read_bytes(), INFO)

    def test_a_file_is_replaced_as_a_whole(self):
        """Who has the old file open reads its old bytes, and the file keeps its permissions."""
        lay(READ | {"t.dd": b"old"})
        os.chmod("t.dd", 0o640)
        with open("t.dd", "rb") as old:
            self.collates()
            self.assertEqual(old.read(), b"old")
        self.assertEqual(Path("t.dd").read_bytes(), DYNDEP)
        self.assertEqual(stat.S_IMODE(os.stat("t.dd").st_mode), 0o640)

    def test_a_link_and_a_pipe(self):
        """The file that a link names is replaced. A pipe is written in place."""
        lay(READ | {"real.dd": b"old"})
        os.symlink("real.dd", "t.dd")
        os.mkfifo("t.json")
        with subprocess.Popen(["cat", "t.json"], stdout=subprocess.PIPE) as reader:
            self.collates()
            self.assertEqual(reader.communicate()[0], INFO)
        self.assertEqual((os.readlink("t.dd"), Path("real.dd").read_bytes()), ("real.dd", DYNDEP))

    def test_a_file_that_cannot_be_written(self):
        """The files before it stay, and no other file is left."""
        lay(READ)
        os.mkdir("t.dd")
        self.assertEqual(self.caller.run("collate", "t.target.json"), cannot("write", "t.dd"))
        self.assertEqual(set(tree()), {b"t.target.json", b"a.ddi", b"t.json"})
        Path("t.target.json").write_bytes(TARGET.replace(b"t.json", b"none/\\nt.json"))
        found = self.caller.run("collate", "t.target.json")
        self.assertEqual(found, cannot("write", "none/?t.json"))


@embedded.needs_library
class Run(Case):
    """As it is called."""

    def called(self, *words, **given):
        environment = os.environ | ENVIRONMENT | {"DYNCOLLATE_LIBRARY": embedded.SHARED}
        return run_as_bytes(*words, env=environment, **given)

    def test_commands(self):
        lay(READ)
        module = sys.executable, "-m", "dyncollate"
        self.assertEqual(self.called(*module, "collate", "t.target.json"), DONE)
        made = {b"t.json": INFO, b"t.dd": DYNDEP}
        self.assertEqual(tree(), {b"t.target.json": TARGET, b"a.ddi": SCAN} | made)
        self.assertEqual(self.called(*module, "show", "--", "t.dd"), (0, DYNDEP, b""))
        line = b"dyncollate: line 1: N6 Truncated\n"
        self.assertEqual(self.called(*module, "show", "a.ddi"), (1, b"", line))
        self.assertEqual(self.called(*module, "statements", "t.dd"), USAGE)

    def test_outputs(self):
        """A full or a closed standard output has the line of the program. A closed standard error
        changes no status."""
        lay({"t.dd": DYNDEP})
        line = b"dyncollate: cannot write standard output\n"
        for operands, err in [("t.dd > /dev/full", line), ("t.dd >&-", line), ("none 2>&-", b"")]:
            command = f"'{sys.executable}' -m dyncollate show {operands}"
            self.assertEqual(self.called("sh", "-c", command), (3, b"", err), operands)


class WithoutLibrary(Case):
    """What is said if there is no library, or another one."""

    def test_it_says_what_to_do(self):
        advice = ("; install a wheel of dyncollate, which has libdyncollate in it, or install "
                  "libdyncollate, or set DYNCOLLATE_LIBRARY to the path of libdyncollate.so.1\n")
        missing = "none.so: cannot open shared object file: No such file or directory"
        lay({"t.dd": DYNDEP})
        for why in missing, "/libc.so.6: undefined symbol: dyncollate_collate":
            name = why.partition(":")[0].lstrip("/")
            environment = os.environ | ENVIRONMENT | {"DYNCOLLATE_LIBRARY": name}
            for words, begin in [(["-m", "dyncollate", "show", "t.dd"], "dyncollate: "),
                                 (["-c", "import dyncollate; dyncollate.version()"], "OSError: "),
                                 (["-c", "import dyncollate; dyncollate.show(b'')"], "OSError: ")]:
                status, out, err = run_apart(sys.executable, *words, env=environment)
                line = err.splitlines(True)[-1]
                self.assertTrue(line.startswith(begin) and line.endswith(why + advice), err)
                self.assertEqual((out, err == line), ("", begin == "dyncollate: "))
                self.assertEqual(status, 3 if err == line else 1)
