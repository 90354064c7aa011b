"""Makes the Ninja file of a build call dyncollate, and gives it back the bytes that the generator
wrote.

While a build is adopted, and if that fails, its Ninja file is one that adopts it: the next run of
Ninja does so, or says why not. The generator's own text is kept in the build directory.
"""
import contextlib
import hashlib
import os
from itertools import filterfalse

from adapter_files import Alone, Wrong, read, replace, say, write_if_changed
from ninja_files import NinjaFile, shell
from ninja_statements import Statements
from ninja_std import with_standard_library
from ninja_steps import documents_of, steps_of

# The first line of a file that is ours says which text of the generator it was made from.
MARK = "# Adopted by dyncollate, from the text with the SHA-256 sum "
# What an adoption heeds of its environment, for the next one.
VARIABLES = ["DYNCOLLATE", "DYNCOLLATE_NINJA", "SCANNER"]
# The build while it is adopted, and if that fails.
PENDING = """\
rule adopt
 command = {} adopt .
 description = Adopting this build
 generator = 1
build build.ninja: adopt always
build always: phony
"""


class Build:
    """A build directory, which no other run changes. `made` is the text that the generator
    wrote."""

    def __init__(self, generator, folder):
        self.generator, self.folder, self.name = generator, folder, f"{folder}/build.ninja"
        self.kept = f"{folder}/{generator.FOLDER}/{generator.NAME}.ninja"
        self.text = self.made = read(self.name)
        if self.is_ours:
            self.made = read(self.kept) if os.path.exists(self.kept) else ""
            if not self.text.startswith(mark(self.made)):
                raise Wrong(f"{self.kept} is not what {self.name} was made from: "
                            f"run `{generator.AGAIN}`")
        if not generator.MADE.match(self.made):
            raise Wrong(f"{self.name} is not as {generator.MAKER} writes it")

    @property
    def is_ours(self):
        return self.text.startswith(MARK)

    @property
    def is_adopted(self):
        return self.is_ours and "\nrule adopt\n" not in self.text

    def replace(self, text):
        if text != self.text and not replace({self.name: text}, {self.name: self.text}):
            raise Wrong(f"{self.folder} is configured at the same time: "
                        f"call this again when `{self.generator.NAME}` has ended")
        self.text = text

    def begin(self, command):
        """Makes the next run of Ninja adopt the build."""
        write_if_changed(self.kept, self.made)
        head = self.generator.MADE.match(self.made)[0]
        self.replace(mark(self.made) + head + PENDING.format(shell(command)))

    def restore(self):
        self.replace(self.made)
        self.generator.restored(self.folder)
        with contextlib.suppress(FileNotFoundError):
            os.remove(self.kept)

    def texts(self, name):
        """Returns the text that the generator wrote into a file."""
        return self.made if name == "build.ninja" else read(f"{self.folder}/{name}")


def mark(made):
    return f"{MARK}{hashlib.sha256(made.encode('utf-8', 'surrogateescape')).hexdigest()}\n"


@contextlib.contextmanager
def alone(generator, folder):
    """Waits until no other run adopts or restores the build."""
    if not os.path.exists(f"{folder}/build.ninja"):
        raise Wrong(f"{folder}/build.ninja does not exist: run `{generator.CONFIGURE}` first")
    with Alone(folder):
        yield Build(generator, folder)


def adopt(generator, folder, program, this, wrapper, again=True):
    """Adopts the build, also `again` if it is adopted. `program` returns the path of the program,
    `this` is the command that calls this adapter, and `wrapper` what the generator takes for Ninja.
    Returns a line that says what was done, or None."""
    kept = [f"{name}={os.environ[name]}" for name in VARIABLES if os.environ.get(name)]
    command = ["env", *kept, *this]
    with alone(generator, folder) as build:
        if build.is_adopted and not again:
            return None
        if not build.is_adopted:
            build.begin(command)
        targets = with_standard_library(generator, folder, NinjaFile(build.texts))
        if not targets.scanned:
            build.restore()
            return f"{folder} has no target whose sources have C++ modules"
        for name in targets.with_header_units():
            say(f"{name} imports a header unit, which is not handled: include the header")
        for name, module, other, flags in targets.with_other_flags():
            say(f"{name} imports {module} of {other}, which the compiler rejects, because these "
                f"flags differ: {' '.join(flags)}")
        steps = steps_of(targets.scanned)
        texts = documents_of(steps, targets.scanned, os.path.abspath(folder))
        texts.update(Statements(generator, targets.file, steps, program(), this).texts())
        generator.adopted(folder, texts)
        text = generator.regenerating(texts.pop("build.ninja"), command, wrapper, kept)
        for name, content in texts.items():
            write_if_changed(f"{folder}/{name}", content)
        build.replace(mark(build.made) + text)
        scanned, total = (len([*filterfalse(targets.is_ours, it)])
                          for it in (targets.scanned, targets.all))
        return f"{scanned} of {total} C++ targets of {folder} are scanned for modules"


def restore(generator, folder):
    with alone(generator, folder) as build:
        build.restore()
