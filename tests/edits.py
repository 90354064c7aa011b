"""The wrong bodies in crates/*/must-fail can be applied: each `old:` is in its file once, and with
each `new:` the file still reads. The gate fails for neither: it says BAD EDIT, and continues."""
import re
import shutil
import unittest
from pathlib import Path

from tests.program import TOP
from tests.run import InRoom, run

PAIRS = re.compile(r"^file: (?P<file>\S+)$|^old: (?P<old>.+)\n(?P<new>new:.*)$|^(?P<other>.+)$",
                   re.M)


def edited(edit):
    """The files of its crate that an edit changes, with their texts, by their paths there."""
    path, texts = None, {}
    for line in PAIRS.finditer(edit.read_text()):
        if line["other"]:
            raise ValueError(f"this line is not read: {line['other']:.60}")
        if line["file"]:
            path = line["file"]
            texts.setdefault(path, (edit.parent.parent / path).read_text())
            continue
        found = texts[path].count(line["old"])
        if found != 1:
            raise ValueError(f"{path} has this {found} times: {line['old'].strip():.60}")
        texts[path] = texts[path].replace(line["old"],
                                          line["new"].removeprefix("new:").removeprefix(" "))
    if all(text == (edit.parent.parent / path).read_text() for path, text in texts.items()):
        raise ValueError("it changes nothing")
    return texts


class Edits(InRoom):
    def wrong(self, top):
        """What is wrong with each edit below a directory.
        The toolchain's formatter reads the files."""
        says, files, rt = {}, {}, shutil.which("rt")
        for edit in sorted(Path(top).glob("*/must-fail/*.edit")):
            name = f"{edit.parent.parent.name}/{edit.stem}"
            try:
                for path, text in edited(edit).items():
                    file = self.room / "edited" / name / path.replace("/", "-")
                    file.parent.mkdir(parents=True, exist_ok=True)
                    file.write_text(text)
                    files[str(file)] = name
            except (ValueError, OSError) as error:
                says[name] = str(error)
        if rt:
            printed = run(Path(rt).resolve().parent / "rattle", "fmt", "--write", *files)[1]
            says |= {name: line[len(file) + 2:] for file, name in files.items()
                     for line in printed.splitlines() if line.startswith(f"{file}: ")}
        return says

    def test_each_can_be_applied(self):
        self.assertGreater(len(list(Path(TOP).glob("crates/*/must-fail/*.edit"))), 100)
        self.assertEqual(self.wrong(f"{TOP}/crates"), {})

    def test_tables(self):
        """The table of a crate's page has edits of the crate: all, or those of a part of it."""
        table = r"^The prover rejects these wrong bodies( of .*)?, which are .*\n\n"
        table += r"(\| wrong body \|.*\n(?:\|.*\n)+)"
        counts = []
        for page in sorted(Path(TOP).glob("crates/*/README.md")):
            for found in re.finditer(table, page.read_text(), re.M):
                rows = [line.split(" | ")[-1] for line in found[2].splitlines()]
                named = sorted(name for row in rows for name in re.findall(r"`(\w+)`", row))
                edits = sorted(edit.stem for edit in page.parent.glob("must-fail/*.edit"))
                if found[1]:
                    edits = sorted(set(edits) & set(named))
                with self.subTest(page.parent.name):
                    self.assertEqual(named, edits)
                counts.append(len(named))
        self.assertGreater(sum(counts), 80)

    def test_what_is_wrong(self):
        edits = {"right": ("old: 1\nnew: 2\nold: fn a\nnew: fn b", None),
                 "missing": ("old: 3\nnew: 4", "src/lib.rt has this 0 times: 3"),
                 "twice": ("old: u\nnew: b", "src/lib.rt has this 2 times: u"),
                 "same": ("old: 1\nnew: 1", "it changes nothing"),
                 "empty": ("", "it changes nothing"),
                 "two_lines": ("old: 1\nnew: 2\n3", "this line is not read: 3")}
        if shutil.which("rt"):
            edits["open"] = (
                "old: 1\nnew: 1 +",
                "it does not parse: at 3:1: error[unexpected-token]: expected expression, found "
                "`}`")
        (self.room / "one/src").mkdir(parents=True)
        (self.room / "one/must-fail").mkdir()
        (self.room / "one/src/lib.rt").write_text("fn a() -> usize {\n    1\n}\nfn u() {}\n")
        for name, (text, _) in edits.items():
            (self.room / f"one/must-fail/{name}.edit").write_text(f"file: src/lib.rt\n{text}\n")
        self.assertEqual(self.wrong(self.room),
                         {f"one/{name}": why for name, (_, why) in edits.items() if why})
