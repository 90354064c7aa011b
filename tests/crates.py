"""The picture of the crates in docs/ARCHITECTURE.md is that of crates.txt.

    python3 -m unittest tests.crates        compares the two
    python3 -m tests.crates --write         puts the picture into the page

An arrow leads from a crate to one that it uses. Left out are the kit's libraries, and arrows to
what a crate also uses through another.
"""
import re
import shutil
import subprocess
import sys
import unittest
from pathlib import Path

TOP = Path(__file__).resolve().parent.parent
PAGE = TOP / "docs/ARCHITECTURE.md"
# What a crate offers of a crate below it: items that its users need for its calls.
OFFERED = {"scan_docs": ["document_values::{Info, InfoModule, Name, Rule, TargetName}"],
           "collate_core":
           ["module_maps::{Clang, Gcc, MapEntry, MapFault, MapStyle, ModuleMap, UnwritableMap}"],
           "in_memory": ["commands::Answer"]}
SUFFIXES = (".c", ".cpp", ".fish", ".h", ".hpp", ".html", ".in", ".mjs", ".mts", ".py", ".sh")
CRATES = sorted(path.parent.name for path in TOP.glob("crates/*/src")
                if path.parent.name != "library_tests")
PICTURE = re.compile(r"(?<=^```mermaid\n).*?(?=^```$)", re.M | re.S)


def scripts():
    """The files of code outside of the crates, without those that tests read."""
    for top in TOP.iterdir():
        for path in top.rglob("*") if top.is_dir() else [top]:
            parts = set(path.relative_to(TOP).parts)
            if not path.is_file() or parts & {".git", "crates", "data", "out"}:
                continue
            is_script = not path.suffix and path.read_bytes()[:2] == b"#!"
            if is_script or path.suffix in SUFFIXES or path.name.endswith(".rt.bench"):
                yield path


def uses(text):
    """The repository's crates that each crate uses, in the order of crates.txt."""
    lines = [line.split(":") for line in text.replace(" staticlib:", ":").splitlines()]
    crates = [name for name, _ in lines]
    return {name: [one for one in crates if one in used.split()] for name, used in lines}


def picture(used):
    below = {}
    for crate in used:  # each comes after those that it uses
        below[crate] = set(used[crate]).union(*(below[one] for one in used[crate]))
    lines = ["flowchart BT"]
    for crate, ones in used.items():
        through = set().union(*(below[one] for one in ones))
        lines += [f"  {crate} --> {one}" for one in ones if one not in through] or [f"  {crate}"]
    return "\n".join(lines) + "\n"


def modules(folder):
    """The modules of a crate that each module names by paths from the crate's root,
    outside of comments."""
    texts = {"::".join(path.relative_to(folder).with_suffix("").parts): re.sub(r"//.*", "",
                                                                               path.read_text())
             for path in folder.rglob("*.rt")}
    return {name: {one for one in texts if one != name and re.search(rf"\bcrate::{one}\b", text)}
            for name, text in texts.items()}


class Crates(unittest.TestCase):
    def test_picture(self):
        """python3 -m tests.crates --write"""
        self.assertEqual(PICTURE.findall(PAGE.read_text()),
                         [picture(uses((TOP / "crates.txt").read_text()))])

    def test_arrows(self):
        """A crate that is used through another has no arrow of its own."""
        used = uses("low: std_library\nmiddle: low\nhigh: low middle\n")
        self.assertEqual(picture(used),
                         "flowchart BT\n  low\n  middle --> low\n  high --> middle\n")

    def test_table(self):
        """The table of the page has each crate, once and in the order of crates.txt."""
        rows = re.findall(r"^\| \[`(\w+)`\]\(\.\./crates/\1\) \|", PAGE.read_text(), re.M)
        self.assertEqual(rows, list(uses((TOP / "crates.txt").read_text())))

    def test_public_paths(self):
        """Within a crate an item has one public path: the root takes items from private modules,
        and what OFFERED lists."""
        crates = list(uses((TOP / "crates.txt").read_text()))
        for crate in crates:
            root = TOP / "crates" / crate / "src/lib.rt"
            text = root.read_text() if root.exists() else ""
            own = re.findall(r"^mod (\w+);", text, re.M)
            taken = re.findall(r"^pub use (?:crate::|self::)?((\w+)::[^;]+);", text, re.M)
            with self.subTest(crate):
                self.assertEqual([path for path, module in taken if module not in own],
                                 OFFERED.get(crate, []))

    def test_modules(self):
        """No two modules of a crate use each other, directly or through others."""
        for crate in CRATES:
            with self.subTest(crate):
                used = modules(TOP / "crates" / crate / "src")
                for _ in used:  # each round adds what is used through one module more
                    used = {name: ones.union(*(used[one] for one in ones))
                            for name, ones in used.items()}
                self.assertEqual([name for name, ones in used.items() if name in ones], [])

    def test_widths(self):
        """No line of code has more than 100 columns, in any language. The tests of the libraries
        have texts that are longer."""
        sources = [path for crate in CRATES for path in TOP.glob(f"crates/{crate}/src/**/*.rt")]
        for path in sources + list(scripts()):
            lines = path.read_text(encoding="utf-8").splitlines()
            with self.subTest(path.relative_to(TOP).as_posix()):
                self.assertEqual([line for line in lines if len(line) > 100], [])

    def test_layout(self):
        """`rt fmt` changes no file of a crate: the gate proves none that it would change."""
        files = sorted(path for kind in ("rt", "antt")
                       for path in TOP.glob(f"crates/*/*/**/*.{kind}") if "out" not in path.parts)
        checked = subprocess.run([Path(shutil.which("rt")).resolve().with_name("rattle"), "fmt",
                                  "--check", *files], stdout=subprocess.PIPE,
                                 stderr=subprocess.STDOUT, text=True, check=False)
        self.assertEqual((checked.stdout, checked.returncode), ("", 0))


if __name__ == "__main__":
    if sys.argv[1:] != ["--write"]:
        raise SystemExit(__doc__)
    PAGE.write_text(PICTURE.sub(lambda _: picture(uses((TOP / "crates.txt").read_text())),
                                PAGE.read_text()))
