"""The files of two real projects, in data/: each as it has to come out, and each that a run reads
or writes, missing or in the way in turn. An independent implementation made the files in
data/*/expected, and the real Ninja and Clang took them."""
import json
import os
import re
import shutil

from tests.case import Case, cannot, each, read, rejected, tree, write
from tests.program import TOP
from tests.rows.projects import PROJECT, WRITTEN

DONE = 0, b"", b""
DATA = f"{TOP}/tests/data"
TARGETS = {"single": ["app"], "libs": ["base", "math", "io", "legacy", "engine", "app"]}
TARGET = "%s.target.json"


def document(name):
    with open(name, "rb") as file:
        return json.load(file)


def written_by(text):
    """The files that collating a target writes, in order."""
    rules = [rule for scan in text["scans"] for rule in document(scan)["rules"]]
    return [rule["primary-output"] + ".modmap" for rule in rules] + [text["info"], text["dyndep"]]


def expected():
    """The files that have to come out."""
    return tree(b"expected")


def left():
    """The files that runs wrote."""
    return {it: text for it, text in tree().items() if it.startswith((b"dd/", b"obj/"))}


def paths(text):
    """The lines of a map in either style, of each the path alone."""
    lines = [it for it in text.splitlines() if not it.startswith(b"-x ")]
    return [re.sub(rb"-fmodule-output=|-fmodule-file=[^=]*=|[^ ]* ", b"", it, count=1)
            for it in lines]


class Real(Case):
    """The working directory is a copy of a project in data/,
    with the directories of what is written."""

    def lay(self, name):
        shutil.copytree(f"{DATA}/{name}", ".", dirs_exist_ok=True)
        self.empty()

    def empty(self):
        """Makes the directories of what is written, without files."""
        for it in "dd", "obj":
            shutil.rmtree(it, ignore_errors=True)
        for folder, folders, _ in os.walk("expected"):
            for it in folders:
                os.makedirs(os.path.relpath(f"{folder}/{it}", "expected"), exist_ok=True)

    def every_read(self, words, names):
        """Each of these files, which a run reads, is missing in turn, then a directory. Runs that
        read no file write none."""
        for name in names:
            os.rename(name, "aside")
            self.same(self.caller.run(*words), cannot("read", name), f"without {name}")
            os.mkdir(name)
            self.same(self.caller.run(*words), cannot("read", name), f"{name} is a directory")
            os.rmdir(name)
            os.rename("aside", name)
        self.same(left(), {})

    def every_write(self, words, names):
        """In the place of each of these files, which a run writes in this order, is a directory in
        turn. The files before it are written, and none after it."""
        for at, name in enumerate(names):
            self.empty()
            os.mkdir(name)
            self.same(self.caller.run(*words), cannot("write", name), f"{name} in the way")
            self.same(left(), {os.fsencode(it): read(f"expected/{it}") for it in names[:at]},
                      f"{name} in the way")


@each([(name, style) for name in TARGETS for style in ("clang", "gcc")], " ".join)
class Collated(Real):
    """All targets of a project, one after the other."""

    def check(self, it):
        name, style = it
        self.lay(name)
        for each_target in TARGETS[name]:
            text = document(TARGET % each_target)
            self.assertEqual(text["map"], "clang")
            write(TARGET % each_target, json.dumps(text | {"map": style}).encode())
            self.same(self.caller.run("collate", TARGET % each_target), DONE, each_target)
        found, wanted = left(), expected()
        self.same(found.keys(), wanted.keys())
        for file, text in wanted.items():
            if style == "clang" or not file.endswith(b".modmap"):
                self.same(found[file], text, repr(file))
            else:
                # maps of the other style, with the same paths in the same lines
                self.same(paths(found[file]), paths(text), repr(file))
                self.assertNotRegex(found[file], rb"(?m)^-")


@each(["libs"])
class Projected(Real):
    """All targets of a project by one run."""

    def check(self, name):
        self.lay(name)
        self.same(self.caller.run("project", "project.json"), DONE)
        self.same(left(), expected())


@each([(name, it) for name in TARGETS for it in TARGETS[name]], " ".join)
class CollatedWithout(Real):
    """Each file of a target is missing or in the way in turn, those before it being collated."""
    seconds = 1

    def check(self, it):
        name, target = it
        self.lay(name)
        text = document(TARGET % target)
        # the info files are read from a directory of their own,
        # so that dd has only the files that are written
        linked = ["in/" + os.path.basename(info) for info in text["linked"]]
        for info in text["linked"]:
            write("in/" + os.path.basename(info), read("expected/" + info))
        write("linked.json", json.dumps(text | {"linked": linked}).encode())
        words = ["collate", "linked.json"]
        self.every_read(words, ["linked.json"] + text["scans"] + linked)
        self.every_write(words, written_by(text))


@each(TARGETS)
class ProjectedWithout(Real):
    """Each file of a project is missing or in the way in turn."""
    seconds = 2

    def check(self, name):
        self.lay(name)
        texts = {it: document(it) for it in document("project.json")["targets"]}
        words = ["project", "project.json"]
        self.every_read(words, ["project.json"] + [file for it, text in texts.items()
                                                   for file in [it] + text["scans"]])
        self.every_write(words, [file for text in texts.values() for file in written_by(text)])


class Failing(Real):
    """Runs that fail write nothing more."""

    def test_documents_that_are_cut(self):
        self.lay("single")
        name = "app__point.cppm.ddi"
        whole, target = read(name), read("app.target.json")
        for size in 0, 100, 364:
            write(name, whole[:size])
            self.same(self.caller.run("collate", "app.target.json"),
                      rejected(b"scan 5: S1 NotJson document"), str(size))
        write(name, whole)
        for size in 0, 200:
            write("begun.json", target[:size])
            self.same(self.caller.run("collate", "begun.json"),
                      rejected(b"target: S1 NotJson document"), str(size))
        self.same(left(), {})

    def test_no_directory_for_a_map(self):
        self.lay("single")
        os.rmdir("obj/app")
        self.same(self.caller.run("collate", "app.target.json"),
                  cannot("write", "obj/app/main.cpp.o.modmap"))
        self.same(left(), {})

    def test_an_info_in_the_way_of_a_project(self):
        """The files of the targets before it stay, and none comes after it."""
        for name, text in PROJECT.items():
            write(name, text)
        before = tree()
        os.mkdir("1.info")
        self.same(self.caller.run("project", "project.json"), cannot("write", "1.info"))
        whole = ["l.o.modmap", "0.info", "0.dd", "k.o.modmap"]
        self.same(tree(), before | {os.fsencode(it): WRITTEN[it] for it in whole})
