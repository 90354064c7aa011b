"""Compares the fault codes, the commands and the limits of the manual page with those of the
program's sources, its DIAGNOSTICS with the table of meanings, and the functions of the library's
page with its header: each of either has to be in the other.

    python3 -m tests.manual --write    writes the meanings of the table into the manual page
"""
import json
import re
import shutil
import sys
import textwrap
import unittest
from pathlib import Path

from tests.run import output_of, run

TOP = Path(__file__).resolve().parent.parent
PAGE, LIBRARY_PAGE = TOP / "docs/dyncollate.1", TOP / "docs/dyncollate.3"
MEANINGS = TOP / "explain/meanings.json"
FAULT = r"[NYSMEK][0-9]+ [A-Z][A-Za-z]+"


def sources():
    """The texts of the program's sources, without those of the tests' crates."""
    return [path.read_text() for path in sorted(TOP.glob("crates/*/src/**/*.rt"))
            if "_tests" not in str(path)]


def section(text, first, after):
    return re.search(rf"^\.Sh {first}.*?^\.Sh {after}", text, re.M | re.S)[0]


def meanings():
    """The table of meanings: a title of the manual page, such as `M5 ModuleUnknown`; its text."""
    table = json.loads(MEANINGS.read_text())
    return {f"{it['code']} {it['name']}".strip(): f"{it['meaning']} {it['advice']}" for it in table}


def in_mdoc(text):
    """A text of the table in the manual page's language: a line per sentence, which is wrapped."""
    for sentence in re.split(r"(?<=\.) (?=[A-Z])", text):
        for part in re.split(r"(`[^`]*`[.,;:]?) ?", sentence):
            found = re.fullmatch(r"`(.*)`(.?)", part)
            yield from [f".Ql {found[1]} {found[2]}".rstrip()] if found else textwrap.wrap(
                part, 80, break_on_hyphens=False, break_long_words=False)


def with_meanings(page):
    """The manual page, in which each error of DIAGNOSTICS has the text of the table."""
    known = meanings()

    def item(found):
        return found[1] + "".join(f"{line}\n" for line in in_mdoc(known[found[2]]))
    start, errors, end = re.split(r"(^\.Sh DIAGNOSTICS.*?)(?=^\.Sh LIMITS)", page, 1, re.M | re.S)
    errors = re.sub(r"^(\.It (?:Sy|Li) (.*)\n)(?:.*\n)*?(?=\.(?:It|El))", item, errors, flags=re.M)
    return start + errors + end


class Manual(unittest.TestCase):
    def setUp(self):
        self.page = PAGE.read_text()

    def test_meanings(self):
        """DIAGNOSTICS has each entry of the table, in its order, and its text."""
        errors = section(self.page, "DIAGNOSTICS", "LIMITS")
        self.assertEqual(re.findall(r"^\.It (?:Sy|Li) (.*)", errors, re.M), list(meanings()))
        self.assertEqual(with_meanings(self.page), self.page,
                         "see `python3 -m tests.manual --write`")

    def equal_lists(self, in_sources, in_page):
        """A list of the sources is not empty, and the page has each of its entries once,
        and no other."""
        self.assertTrue(in_sources)
        for one in sorted(set(in_sources) | set(in_page)):
            with self.subTest(one):
                self.assertEqual((one in in_sources, in_page.count(one)), (True, 1),
                                 "whether a source has it, and how often the manual has it")

    def test_faults(self):
        in_sources = [one for text in sources() for one in re.findall(rf'"({FAULT})', text)]
        self.equal_lists(in_sources, re.findall(rf"^\.It Sy ({FAULT})$", self.page, re.M))

    def test_commands(self):
        arguments = (TOP / "crates/command_line/src/lib.rt").read_text()
        table = re.search(r"^const COMMANDS: .* = \[\n(.*?)^\];", arguments, re.M | re.S)[1]
        commands = re.findall(r'^    \("([a-z]+)", ', table, re.M)
        self.assertEqual(len(commands), table.count("\n"),
                         "each line of the table begins with the name of a command")
        self.equal_lists(commands, re.findall(r"^\.Cm (.*)",
                                              section(self.page, "SYNOPSIS", "DESCRIPTION"), re.M))

    def test_help(self):
        """./dyncollate --help has the commands and operands of the manual page,
        in the same order."""
        printed = output_of(TOP / "dyncollate", "--help")
        in_page = re.findall(r"^\.Cm (.*)\n\.Ar (.*)",
                             section(self.page, "SYNOPSIS", "DESCRIPTION"), re.M)
        self.assertEqual(re.findall(r"^([a-z]+) ([A-Z ]*[A-Z])  ", printed, re.M),
                         [(name, them.upper()) for name, them in in_page])

    def test_limits(self):
        limits = re.findall(r"^(?:pub )?const (\w+_LIMIT): usize = ([0-9_]+);",
                            "\n".join(sources()), re.M)
        self.assertTrue(limits)
        in_page = re.findall(r"^\.It (.*)", section(self.page, "LIMITS", "SEE"), re.M)
        for name, number in limits:
            with self.subTest(name):
                self.assertIn(f"{int(number):,}", in_page)

    def test_form(self):
        """mandoc reports nothing, except that pages which are not installed name each other. Each
        page has its name, and that of dyncollate names the others."""
        pages = sorted((TOP / "docs").glob("*.[13]"))
        self.assertGreater(len(pages), 4)
        allowed = re.compile(r"manual not found: Xr dyncollate(-\w+)? [13]")
        for page in pages:
            name, chapter = page.name.rsplit(".", 1)
            if shutil.which("mandoc"):
                lines = run("mandoc", "-T", "lint", "-W", "style", page)[1].splitlines()
                self.assertEqual([it for it in lines if not allowed.search(it)], [])
            self.assertRegex(page.read_text(), rf"(?m)^\.Dt {name.upper()} {chapter}$")
            if page != PAGE:
                self.assertRegex(self.page, rf"(?m)^\.Xr {name} {chapter}\b")

    def test_scripts(self):
        """The page of a script has the options and the commands that its help shows."""
        adapters = [TOP / f"adapters/{it}/dyncollate-{it}" for it in ("cmake", "gn", "meson")]
        for script in TOP / "explain/dyncollate-explain", *adapters:
            page = (TOP / f"docs/{script.name}.1").read_text()
            synopsis = section(page, "SYNOPSIS", "DESCRIPTION")
            used = re.findall(rf"^ +{script.name} (?:-(-[a-z]+)|([a-z]+))",
                              output_of(script, "--help"), re.M)
            self.assertGreater(len(used), 1)
            for option, command in used:
                self.assertRegex(synopsis, rf"{option}\b" if option else rf"(?m)^\.Cm {command}$")

    def test_functions(self):
        """The library's page has the functions of the header, with their parameters in order."""
        header = re.sub(r"/\*.*?\*/", "", (TOP / "include/dyncollate.h").read_text(), flags=re.S)
        found = re.findall(r"^(\w+) (dyncollate_\w+)\(([^)]*)\);", header, re.M)
        self.assertTrue(found)
        page = LIBRARY_PAGE.read_text()
        in_page = re.findall(r'^\.Ft (\w+)\n\.Fo (\w+)\n((?:\.Fa ".*"\n)+)', page, re.M)
        in_page = [(kind, name, ", ".join(re.findall('"(.*)"', parameters)))
                   for kind, name, parameters in in_page]
        in_page += re.findall(r"^\.Ft (\w+)\n\.Fn (\w+) (\w+)$", page, re.M)
        wanted = [(kind, name, re.sub(r"\s+", " ", parameters.strip()))
                  for kind, name, parameters in found]
        self.assertEqual(sorted(in_page), sorted(wanted))
        named = re.search(r"^\.Sh NAME\n(.*?)^\.Nd", page, re.M | re.S)[1]
        self.assertEqual(sorted(re.findall(r"^\.Nm (\w+)", named, re.M)),
                         sorted(name for _, name, _ in found))


if __name__ == "__main__":
    if sys.argv[1:] == ["--write"]:
        PAGE.write_text(with_meanings(PAGE.read_text()))
    else:
        unittest.main()
