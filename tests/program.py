"""Calls the program dyncollate, many times and quickly."""
import functools
import os
import signal
import sys
import tempfile

from tests.run import output_of, run

TOP = os.path.dirname(os.path.dirname(os.path.abspath(__file__)))
# UNPROVED=1 has the tests take the program of ./build unproved,
# and leaves out the line that it prints at each run.
IS_UNPROVED = os.environ.get("UNPROVED") == "1"
NOTICE = b"dyncollate: this program is not proved\n"
PROGRAM = os.path.abspath(os.environ.get(
    "DYNCOLLATE", f"{TOP}/crates/dyncollate/out/{'unproved/' * IS_UNPROVED}dyncollate"))


@functools.lru_cache(None)
def stop_unless_current(product):
    """Ends the run of tests if the program or the library is older than its sources, unless the
    environment names another one."""
    variable, *command = {"program": ("DYNCOLLATE", "./build", *["unproved"] * IS_UNPROVED),
                          "library": ("LIBRARY", "./build", "library")}[product]
    if variable not in os.environ and run(f"{TOP}/build", "--is-current", *command[1:])[0]:
        sys.exit(
            f"The {product} is missing, or older than its sources. `{' '.join(command)}` builds "
            f"it, and {variable} may name another.")
    if product == "program" and not os.access(PROGRAM, os.X_OK):
        sys.exit(f"There is no program {PROGRAM}.")


def needs(product):
    """A decorator of a class: its tests need the program or the library as it is in the sources."""
    def decorated(cls):
        def run_test(self, result=None):
            stop_unless_current(product)
            return super(cls, self).run(result)
        cls.run = run_test
        return cls
    return decorated


class Caller:
    """Calls a program. Its output goes to two files, which are read and emptied after each call."""

    def __init__(self, program=PROGRAM):
        self.program = program
        self.out, self.err = (os.memfd_create(name) for name in ("out", "err"))
        self.environment = dict(os.environ)
        self.child = None

    def begin(self, *words, out=None, err=None, others=(), closed=(), signals=(), **more):
        """Begins a run. Standard output and standard error may go to other files, other files may
        be open under their numbers, and files 0 to 2 may be closed. These signals have their usual
        effect, also if Python ignores them. `more` are additional variables of the environment."""
        files = [(os.POSIX_SPAWN_OPEN, 0, "/dev/null", os.O_RDONLY, 0),
                 (os.POSIX_SPAWN_DUP2, self.out if out is None else out, 1),
                 (os.POSIX_SPAWN_DUP2, self.err if err is None else err, 2)]
        files += [(os.POSIX_SPAWN_DUP2, file, number) for number, file in others]
        files += [(os.POSIX_SPAWN_CLOSE, it) for it in closed]
        self.child = os.posix_spawn(self.program, [self.program, *words],
                                    {**self.environment, **more}, file_actions=files,
                                    setsigdef=signals)
        return self.child

    def end(self, child, seconds=60):
        """The status of a run that was begun, or the negative number of the signal that ended it,
        and what it printed."""
        self.child = child
        signal.signal(signal.SIGALRM, lambda *_: os.kill(child, signal.SIGKILL))
        signal.alarm(seconds)
        _, status = os.waitpid(child, 0)
        signal.alarm(0)
        said = emptied(self.err)
        return (os.waitstatus_to_exitcode(status), emptied(self.out),
                said.removeprefix(NOTICE) if IS_UNPROVED else said)

    def run(self, *words, **given):
        return self.end(self.begin(*words, **given))


@functools.lru_cache(None)
def caller(program=PROGRAM):
    """The caller of a program in this process."""
    return Caller(program)


os.register_at_fork(after_in_child=caller.cache_clear)


def emptied(file):
    """Returns the bytes of a file, and empties it."""
    text = os.pread(file, os.fstat(file).st_size, 0)
    if text:
        os.ftruncate(file, 0)
        os.lseek(file, 0, os.SEEK_SET)
    return text


@functools.lru_cache(None)
def library(source):
    """Compiles a C file here to a library that can be loaded before the C library. Returns its
    name, which is valid as long as this process runs."""
    with tempfile.TemporaryDirectory() as folder:
        output_of(f"{TOP}/tests/preload", f"{TOP}/tests/{source}", f"{folder}/library.so")
        file = os.memfd_create(source)
        with open(f"{folder}/library.so", "rb") as bytes_of_it:
            os.write(file, bytes_of_it.read())
    return f"/proc/{os.getpid()}/fd/{file}"
