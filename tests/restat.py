"""The member `restat` of a target document: which files a run leaves alone, by their times."""
import json
import os
import stat
import threading

from tests.case import Case, lay, read, tree, write

DONE = 0, b"", b""
# a file of more than one piece
LONG = "m" * 4084
FILES = {
    "a.o.modmap": b"-x c++-module\n-fmodule-output=%s/A.bmi\n" % LONG.encode(),
    "b.o.modmap": b"-fmodule-file=A=%s/A.bmi\n" % LONG.encode(), "t.json":
    b'{"modules":[{"bmi":"%s/A.bmi","name":"A","requires":[],"visibility":"public"}],"target":"t",'
    b'"version":2}' % LONG.encode(),
    "t.dd": b"ninja_dyndep_version = 1\nbuild a.o | %s/A.bmi: dyndep\n  restat = 1\n"
    b"build b.o: dyndep | %s/A.bmi\n" % (LONG.encode(), LONG.encode())}
LEFT = [it for it in FILES if it != "t.dd"]
CALLS = [("collate", "t.target.json"), ("project", "t.project.json")]
# a time in the past, in nanoseconds
EARLIER = 10 ** 18


def documents(**members):
    """A target of two objects, with these members more, and a project of it alone."""
    scan = {"version": 1, "rules": [{"primary-output": "a.o", "provides": [{"logical-name": "A"}]},
                                    {"primary-output": "b.o", "requires": [{"logical-name": "A"}]}]}
    target = {"version": 1, "target": "t", "module-dir": LONG, "module-ext": ".bmi",
              "scans": ["t.ddi"], "dyndep": "t.dd", "info": "t.json", "map": "clang"}
    project = {"version": 1, "targets": ["t.target.json"]}
    texts = {"t.ddi": scan, "t.target.json": target | members, "t.project.json": project}
    return {name: json.dumps(it).encode() for name, it in texts.items()}


def changed(text):
    """Other bytes than these: one that differs, one more, fewer, and none."""
    for at in 0, 4095, 4096, len(text) - 1:
        yield text[:at] + b"?" + text[at + 1:]
    yield text + b"\n"
    yield text[:-1]
    yield text[:4096]
    yield b""


class Restat(Case):
    seconds = 2

    def written(self, call, **earlier):
        """Runs a command. Returns the names of the files that it writes.
        All files have their bytes afterwards."""
        for name in FILES:
            if os.path.exists(name) and not stat.S_ISFIFO(os.stat(name).st_mode):
                os.utime(name, ns=(EARLIER, EARLIER))
        before = {name: os.stat(name).st_ino for name in FILES if os.path.exists(name)}
        self.same(self.caller.run(*call), DONE)
        self.same({name: read(name) for name in FILES}, FILES)
        after = {name: os.stat(name) for name in FILES}
        return [name for name in FILES
                if (after[name].st_mtime_ns, after[name].st_ino) != (EARLIER, before.get(name))]

    def test_files_that_have_their_bytes(self):
        """With the member the dyndep file alone is written, and without it every file."""
        for call in CALLS:
            for members, names in (({}, [*FILES]), ({"restat": None}, [*FILES]),
                                   ({"restat": False}, [*FILES]),
                                   ({"restat": True}, ["t.dd"])):
                lay(documents(**members) | FILES)
                self.same(self.written(call), names, (call, members))

    def test_a_file_that_differs(self):
        """It is written, and no other but the dyndep file."""
        for call in CALLS:
            for name in LEFT:
                for text in changed(FILES[name]):
                    lay(documents(restat=True) | FILES | {name: text})
                    self.same(self.written(call), [name, "t.dd"], (call, name, text))

    def test_a_file_that_is_not_there(self):
        for call in CALLS:
            for name in LEFT:
                lay(documents(restat=True) | {it: text for it, text in FILES.items() if it != name})
                self.same(self.written(call), [name, "t.dd"], (call, name))

    def test_a_file_that_may_not_be_read(self):
        """It is written. Root may read every file."""
        for call in CALLS:
            lay(documents(restat=True) | FILES)
            os.chmod("t.json", 0)
            names = [] if os.access("t.json", os.R_OK) else ["t.json"]
            for name in FILES:
                os.utime(name, ns=(EARLIER, EARLIER))
            self.same(self.caller.run(*call), DONE)
            self.same([it for it in FILES if os.stat(it).st_mtime_ns != EARLIER], [*names, "t.dd"],
                      call)

    def test_a_file_that_a_link_leads_to(self):
        for call in CALLS:
            lay(documents(restat=True) | FILES)
            os.rename("t.json", "other.json")
            os.symlink("other.json", "t.json")
            self.same(self.written(call), ["t.dd"], call)
            write("other.json", b"{}")
            self.same(self.written(call), ["t.json", "t.dd"], call)
            self.same(os.readlink("t.json"), "other.json")

    def test_a_pipe_is_written(self):
        """It is not read, which would wait for a writer."""
        lay(documents(restat=True))
        os.mkfifo("t.json")
        found = []
        reader = threading.Thread(target=lambda: found.append(read("t.json")), daemon=True)
        reader.start()
        self.same(self.caller.run(*CALLS[0]), DONE)
        reader.join(10)
        self.same(found, [FILES["t.json"]])

    def test_a_file_that_may_not_be_written(self):
        """A file that has its bytes needs no right to write."""
        lay(documents(restat=True) | FILES)
        for name in LEFT:
            os.chmod(name, 0o444)
        self.same(self.written(CALLS[0]), ["t.dd"])

    def test_a_project_of_which_one_target_has_the_member(self):
        """The files of the others are all written."""
        targets = {}
        for name, members in ("t", {"restat": True}), ("u", {}):
            document = json.loads(documents(scans=[], **members)["t.target.json"])
            targets[f"{name}.target.json"] = json.dumps(document
                                                        | {"target": name, "dyndep": f"{name}.dd",
                                                           "info": f"{name}.json"}).encode()
        lay(targets | {"p.json": b'{"version":1,"targets":["t.target.json","u.target.json"]}'})
        self.same(self.caller.run("project", "p.json"), DONE)
        before = tree()
        names = "t.json", "t.dd", "u.json", "u.dd"
        for name in names:
            os.utime(name, ns=(EARLIER, EARLIER))
        self.same(self.caller.run("project", "p.json"), DONE)
        self.same(tree(), before)
        self.same([it for it in names if os.stat(it).st_mtime_ns == EARLIER], ["t.json"])
