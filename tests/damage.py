"""The worked rows with each of their files damaged: cut off after each byte, each byte changed to
some others, and each byte left out. If a text begins or ends like an earlier one of its kind, that
part is damaged only in the earlier one.

Each result (the status, both texts and the files afterwards) is compared with what the package
`expected` computes. A prefix of a document has to be S1, and prefixes of one dyndep file have to
give what its row says. Every run has to end with status 0, with status 1 and one line on standard
error, or, if the damage names another file, with status 3 and such a line.
"""
import os
import re
from collections import namedtuple

from tests.case import Case, each, lay, tree, write
from tests.expected.runs import result_of, ending
from tests.rows.dyndep_files import CUT, TWO
from tests.side_by_side import side_by_side
from tests.tables import worked

load_tests = side_by_side

BYTES = b"\x00\n\r $:|\"\\\x7f\x80\xff"
LINE = re.compile(rb"dyncollate: [^\x00-\x1f\x7f]+\n")
NOT_JSON = re.compile(
    rb"dyncollate: (target \d+: )?(scan|info|target|project)[ 0-9]*: S1 NotJson document\n")
KINDS = "cut off", "changed", "left out"

# a kind of damage to a file of a row: which it is, and the bytes that are damaged
Damage = namedtuple("Damage", "row file kind start stop")


def damaged(text, damage):
    """The damaged texts, each with what was done."""
    for at in range(damage.start, damage.stop):
        if damage.kind == "cut off":
            yield f"cut to {at} bytes", text[:at]
        elif damage.kind == "left out":
            yield f"without byte {at}", text[:at] + text[at + 1:]
        else:
            for byte in BYTES:
                if text[at] != byte:
                    yield f"byte {at} changed to {byte}", text[:at] + bytes([byte]) + text[at + 1:]


def all_damage(rows):
    """Each kind of damage to each file of each row."""
    known = {}
    for row in rows:
        for file, text in row.files.items():
            earlier = known.setdefault((row.words[0], kind_of(file)), [])
            if text in earlier:
                continue
            begins = max((common(text, it) for it in earlier), default=0)
            ends = max((common(text[::-1], it[::-1]) for it in earlier), default=0)
            earlier.append(text)
            for kind in KINDS:
                stop = len(text) - (0 if kind == "cut off" else ends)
                if begins < stop:
                    yield Damage(row, file, kind, begins, stop)


def kind_of(file):
    """Infos have several names, and so have the documents of a project."""
    return re.sub(r"^[a-z0-9]+(?=\.(json|info|ddi)$)", "", file) if file != "project.json" else file


def common(one, other):
    return len(os.path.commonprefix([one, other]))


def is_known(damage, text, printed):
    """Whether the result for a file that is cut off is the one that is known without the package
    `expected`."""
    if damage.file.endswith((".ddi", ".json")):
        return NOT_JSON.fullmatch(printed[2])
    if damage.row.words[0] == "show" and damage.row.files[damage.file] == TWO:
        line = next(line for last, line in CUT if len(text) <= last)
        return (printed == ((0, text, b"")
                            if line is None else (1, b"", b"dyncollate: " + line + b"\n")))
    return True


def is_an_end(status, out, err):
    """Whether a run may end so."""
    return not err if status == 0 else status in (1, 3) and not out and LINE.fullmatch(err)


@each(all_damage(row for row in worked()
                 if row.words), lambda it: f"{it.kind} {it.file} of {it.row.name}")
class Damages(Case):
    seconds = 3

    def check(self, damage):
        lay(damage.row.files)
        before, name = tree(), os.fsencode(damage.file)
        for what, text in damaged(damage.row.files[damage.file], damage):
            write(name, text)
            before[name] = text
            printed, written = ending(result_of(*damage.row.words))
            if damage.kind == "cut off":
                self.assertTrue(is_known(damage, text, printed),
                                f"{what}: tests/expected has {printed!r:.300}")
            self.checked(damage.row.words, before, printed, written, what)

    def checked(self, words, before, printed, written, what):
        """A run prints and writes this, and then the directory is as it was."""
        ran = self.caller.run(*words)
        there = tree()
        self.assertTrue(is_an_end(*ran), f"{what}: ended with {ran!r:.600}")
        self.same(ran, printed, what)
        self.same(there, before | written, what)
        for name in there.keys() - before.keys():
            os.remove(name)
        for name in before:
            if there.get(name) != before[name]:
                write(name, before[name])
