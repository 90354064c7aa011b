"""Files that are there before a run. Those that it writes have its bytes alone afterwards, and keep
their rights; a run that fails before it writes leaves them as they were. Standard input is not
read."""
import os
import stat

from tests.case import Case, each, lay, tree, write
from tests.rows import projects, targets

ROWS = [row for row in targets.ROWS + projects.ROWS if row.is_worked]
# The files that rows write, and more bytes than they write.
NAMES = sorted({name for row in ROWS for name in row.written})
EARLIER = b"earlier\n" * 1000


def of_earlier(files):
    for name in NAMES:
        if name not in files:
            write(name, EARLIER)


@each(ROWS, lambda row: row.name)
class Overwritten(Case):
    """A file that a run writes is replaced, and every other one stays."""

    def check(self, row):
        lay(row.texts())
        of_earlier(row.files)
        before = tree()
        self.same(self.caller.run(*row.words), row.printed())
        self.same(tree(), before | row.made())


class Rights(Case):
    row = next(it for it in ROWS if it.written)

    def run_under(self, mask, earlier=()):
        """The rights of the files that a run writes, if earlier files have these rights."""
        lay(self.row.texts())
        for name in earlier:
            write(name, EARLIER)
            os.chmod(name, 0o604)
        self.addCleanup(os.umask, os.umask(mask))
        self.same(self.caller.run(*self.row.words), self.row.printed())
        return {stat.S_IMODE(os.stat(name).st_mode) for name in self.row.written}

    def test_new_files_have_what_the_mask_leaves(self):
        self.same(self.run_under(0o027), {0o640})
        self.same(self.run_under(0o000), {0o666})

    def test_files_that_are_there_keep_theirs(self):
        self.same(self.run_under(0o077, self.row.written), {0o604})


class StandardInput(Case):
    def test_it_is_not_read(self):
        for row in ROWS:
            lay(row.texts())
            end, other = os.pipe()
            os.write(other, b"x")
            os.close(other)
            self.same(self.caller.run(*row.words, others=[(0, end)]), row.printed(), row.name)
            self.same(os.read(end, 2), b"x", row.name)
            os.close(end)
