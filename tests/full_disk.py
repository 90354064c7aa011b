"""A disk of a few pages, of which more and more are free, and a disk that can have only a few
files. devices.py runs these tests in a place where they may mount it."""
import os
import resource

from tests.case import Case, cannot, each, read, tree, write
from tests.devices import UNWRITTEN, WRITTEN, wholly_before
from tests.rows import V
from tests.run import output_of, run
from tests.whole_files import DONE, SCAN, target, written

RUN_BY = "devices"

PAGE, PAGES = resource.getpagesize(), 16


def below(it, folder):
    """The row, with the files that it writes below a directory."""
    objects = [name.removesuffix(".modmap").encode() for name in it.written
               if name.endswith(".modmap")]
    files, made = dict(it.files), dict(it.written)
    for name, text in files.items():
        for path in objects:
            text = text.replace(b'"primary-output":"%s"' % path,
                                b'"primary-output":"%s/%s"' % (folder, path))
        for written in it.written:
            if not written.endswith(".modmap"):
                text = text.replace(b'"%s"' % written.encode(),
                                    b'"%s/%s"' % (folder, written.encode()))
        files[name] = text
    for path in objects:
        made = {name: text.replace(b"build %s" % path, b"build %s/%s" % (folder, path))
                for name, text in made.items()}
    return it._replace(files=files, written=made)


class Disk(Case):
    """A test with a small disk at `full`."""
    limit = ""

    def setUp(self):
        super().setUp()
        os.mkdir("full")
        status, printed = run("mount", "-t", "tmpfs", "-o", self.limit, "none", "full")
        if status:
            self.skipTest("no tmpfs was mounted: " + printed)
        self.addCleanup(output_of, "umount", os.path.abspath("full"))


class FullOfFiles(Disk):
    """A disk that has space, but can have two files at most, besides its directory."""
    limit = "nr_inodes=3"

    def test_no_file_can_be_created(self):
        """Without a temporary file, a file is not replaced: it keeps its old bytes. It is written
        as soon as there is place."""
        files = {"t.target.json": target(b"new", b"full/t.dd"), "t.ddi": SCAN,
                 "full/t.dd": b"before\n", "full/other": b"other\n"}
        for name, text in files.items():
            write(name, text)
        before, new = tree(), written(b"new", b"full/t.dd")
        dyndep = new.pop(b"full/t.dd")
        self.same(self.caller.run("collate", "t.target.json"), cannot("write", "full/t.dd"))
        self.same(tree(), before | new)
        os.remove("full/other")
        self.same(self.caller.run("collate", "t.target.json"), DONE)
        self.same(read("full/t.dd"), dyndep)


@each(WRITTEN, lambda it: it.name)
class FullDisk(Disk):
    limit = f"size={PAGES * PAGE}"

    def leave(self, free):
        """Leaves this number of pages of the disk."""
        for name in os.listdir("full"):
            os.remove("full/" + name)
        write("full/filler", b"x" * PAGE * (PAGES - free))

    def check(self, row):
        row = below(row, b"full")
        names = list(row.written)
        for name, text in row.files.items():
            write(name, text)
        for free in range(len(names) + 1):
            self.leave(free)
            before = tree()
            ran = self.caller.run(*row.words)
            if free < len(names):
                self.same(ran, cannot("write", "full/" + names[free]), f"{free} pages")
                wholly_before(self, row, "full/" + names[free], before, "full/", f"{free} pages")
            else:
                files = {os.fsencode("full/" + it): text for it, text in row.written.items()}
                self.same((ran, tree()), (row.printed(), before | files), f"{free} pages")

    def test_show(self):
        text = V + b"".join(b"build %d.o: dyndep\n" % it for it in range(10 * PAGE // 16))
        write("t.dd", text)
        for free in range(4):
            self.leave(free)
            with open("full/out", "wb") as file:
                self.same(self.caller.run("show", "t.dd", out=file.fileno()), UNWRITTEN,
                          f"{free} pages")
            self.same(read("full/out"), text[:PAGE * free], f"{free} pages: what is written")
            os.remove("full/out")
