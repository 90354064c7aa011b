"""The pages, the comments of the sources, the scripts and tests, and the subjects of commits are in
plain English, as the Rust book and the Ninja manual are.

    python3 -m unittest tests.words
    python3 -m tests.words             prints each turn in the comments of `.rt` and `.antt` files,
                                       and in scripts and tests

TURNS has what is not written, and what is written instead. TURNS_OF_SCRIPTS has more, for scripts,
tests and definitions. The comments and texts of scripts and tests are read, and the names that
tests define. Code in a text is passed over, and so is what EXCEPTIONS has.
"""
import ast
import io
import re
import shutil
import tokenize
import unittest
from pathlib import Path

from tests.run import run

TOP = Path(__file__).resolve().parent.parent

# A turn, what is written in its place, and the same thing said by both.
TURNS = [
    (r"told", "known from, reported", "a comment is told by its bytes",
     "a comment is known from its bytes"),
    (r"st(?:and|ands|ood|anding)(?!\s+for\b)", "is", "at each index stands a node",
     "an escaped form stands for its path"),
    (r"behind", "after, below", "a word behind a command", "a word after a command"),
    (r"(?:one|two|three|four|once|twice)\s+(?:(?!as|by|for|from|has|in|is|of|on|to|with)\w+\s+)?"
     r"an?\s+(?:byte|call|cell|clause|crate|edge|edit|file|line|module|name|node|object|path|piece|"
     r"row|run|statement|target)", "per",
     "one statement an object", "one statement per object"),
    (r"(?:and|or)\s+else|Else", "and otherwise, or", "and else reports the first",
     "and otherwise reports the first"),
    (r"wants?\s+(?:of\s+)?memory|for\s+want\s+of", "out of memory, because an allocation failed",
     "it reports want of memory", "it reports that memory ran out"),
    (r"memory\s+aside", "unless memory runs out", "it succeeds, memory aside",
     "it succeeds, unless memory runs out"),
    (r"but\s+for", "except for", "all but for one", "for all but one"),
    (r"from\s+nothing", "from scratch", "it builds all from nothing", "it builds all from scratch"),
    (r"hand(?:s|ed|ing)?\s+(?:it\s+|them\s+|this\s+)?(?:on|in)", "pass on, pass in",
     "it hands on the keys", "it passes on the keys"),
    (r"beside", "besides, next to", "beside these there are laws", "besides these there are laws"),
    (r"so\s+(?:many\s+(?:bytes|calls|lines)|often)", "that many", "at most so many bytes",
     "at most that many bytes"),
    (r"go(?:es|ing)?\s+on|went\s+on", "continue", "no edge list goes on so",
     "no edge list continues so"),
    (r"com(?:e|es|ing)\s+to|came\s+to", "become, lead to", "a scan that comes to a document",
     "a scan that makes a document"),
    (r"at\s+hand", "available, here", "the line at hand", "the line that is borrowed"),
    (r"owes?|owed", "has to", "what a style owes", "what a style has to prove"),
    (r"answer(?:s|ed|ing)", "returns, reports, prints", "it answers the path",
     "it returns the path"),
    (r"Of", "the subject first", "Of several the first is reported",
     "The first of several is reported"),
    (r"(?<!there )(?:is|are)\s+none", "is not a valid .., there is no ..", "a path that is none",
     "a string that is not a valid path"),
    (r"once\s+more", "again, a copy", "the same name once more", "a copy of the name"),
    (r"so\s+many", "that many", "after so many steps", "after that many steps"),
    (r"(?<=,\s)where", "if, when", "the first, where there is one", "the first, if there is one"),
    (r"[Rr]efus\w+", "rejected, an error", "a path that is refused", "a path that is rejected"),
    (r"lends?|lent", "borrows, borrowed, returns a reference", "a line that was lent",
     "a line that was borrowed"),
    (r"infos", "info files", "the infos of targets", "the info files of targets"),
    (r"rings?", "cycle", "the least ring", "the least cycle"),
    (r"[Ss]pell(?:s|ed|ing|ings)?", "escapes, writes, the escaped form", "a path's spelling",
     "a path's escaped form"),
    (r"growths?", "allocation", "a growth that fails", "an allocation that fails"),
    (r"proper\s+(?:call|beginning|one)s?", "valid, a proper prefix",
     "the words are no proper call", "the command line is not valid"),
    (r"too(?=[.,;:)])", "also", "a file is read, too.", "a file is also read."),
    (r"folders?", "directory", "the folder of a file", "the directory of a file"),
]
TURNS_OF_SCRIPTS = [
    (r"(?<!\.)(?<!\bis )(?<!\bstay )(?<!\bputs )(?<!\bto )(?<!\bplace )(?<!\bdirectory )where",
     "if, when", "it fails where the two differ", "it fails if the two differ"),
    (r"makers?", "producer", "a file of two makers", "a file of two producers"),
    (r"turn(?:s|ed)?\s+round", "reverses",
     "an import that is turned round", "an import that is reversed"),
    (r"words?\s+too|empty\s+words?|words?\s+of\s+a\s+call", "argument", "a word too many",
     "an argument too many"),
    (r"looked\s+at", "checked, read", "a document is looked at", "a document is checked"),
    (r"(?:is|are)\s+meant", "counts", "of two names the last is meant",
     "the last of two names counts"),
    (r"nothing\s+but", "only", "it has nothing but the heap", "it has only the heap"),
    (r"anew", "again", "it draws the picture anew", "it draws the picture again"),
    (r"for\s+want\s+of", "because .. is missing", "no status for want of a file",
     "no status because a file is missing"),]
# The turns that comments of the sources are checked for, from the first on:
# they call a `Folder` a folder.
CHECKED_IN_COMMENTS = len(TURNS) - 1
# What is written all the same: subjects of commits, and what rt prints.
EXCEPTIONS = ["tests: a run needs no random bytes but for names of new files",
              "FORMATS: fewer words once more", "must-fail edits: 3 refused",]
# The scripts and tests, and those of them that are not read yet.
# This file has the turns themselves.
SCRIPTS = ["build", "dyncollate", "install", "release", "test", ".ci/run", "bench/**/*",
           "building/*", "adapters/**/*", "completions/*/*", "cross/*", "examples/generate",
           "examples/embed/*", "explain/*", "include/*", "python/**/*", "tests/**/*", "web/*"]
NOT_READ = re.compile(
    r"/__pycache__/|/out/|tests/data/|tests/words\.py$|/dictionary$|/deps$|"
    r"\.(?:bench|css|html|md|toml|typed|in|svg)$")
# The commit after which subjects are checked.
CHECKED_SINCE = "dfbbbcd"
FOUND, FOUND_IN_SCRIPTS = ([(re.compile(rf"\b(?:{turn})\b"), instead)
                            for turn, instead, _, _ in turns]
                           for turns in (TURNS, TURNS_OF_SCRIPTS))
CODE = re.compile(r"^```[^`]*^```$|^(?: {4}|\t)[^\n]*$|`[^`]*`|^\.Dl [^\n]*$|\]\([^)]*\)|"
                  + "|".join(map(re.escape, EXCEPTIONS)), re.M)


def wrong(text, found=FOUND):
    """Each turn in a text that is not written, with its line and what is written in its place."""
    plain = CODE.sub(lambda code: re.sub(r"[^\n]", " ", code[0]), text)
    for pattern, instead in found:
        for turn in pattern.finditer(plain):
            yield (f"line {plain.count(chr(10), 0, turn.start()) + 1}: '{turn[0]}' is written: "
                   f"{instead}")


def comments(path):
    """The comments of a source, each in its line. A line without one ends a sentence."""
    mark = r"(?:^|\s)--+ ?(.*)" if path.suffix == ".antt" else r"(?:^|\s)//[/!]? ?(.*)"
    return "\n".join((re.search(mark, line) or ["", "."])[1]
                     for line in path.read_text().splitlines())


# A comment, or a text, of a program in C or JavaScript, and of any other script.
PART_OF_C = re.compile(r'//[^\n]*|/\*.*?\*/|"(?:\\.|[^"\\\n])*"', re.S)
PART_OF_SCRIPT = re.compile(r"""(?:^|(?<=\s))#[^\n]*|"(?:\\.|[^"\\\n])*"|'[^'\n]*'""", re.M)


def is_prose(text):
    """Whether a text has two words, so that it is more than a name."""
    return " " in text and len(re.findall(r"[a-z]{2,}", text)) > 1


def text_of(node, rows):
    """The text of a string in a program, without its parts that are computed, or None.
    Raw strings are patterns."""
    begins = rows[node.lineno - 1].encode()[node.col_offset:] if hasattr(node, "lineno") else b""
    if isinstance(node, ast.JoinedStr):
        text = "".join(it.value for it in node.values if isinstance(it, ast.Constant))
    elif isinstance(node, ast.Constant) and isinstance(node.value, str):
        text = re.sub(r"\{\w*\}", "", node.value)
    else:
        return None
    if re.match(b"f?r", begins, re.I) or not is_prose(text):
        return ""
    return (text if re.match(b"f?(\"\"\"|''')", begins, re.I) else text.replace("\n", " ")) + " ."


def parts_of_python(source, has_names):
    """The comments and texts of a script, and the names of functions, classes and constants, each
    with the number of its line."""
    for token in tokenize.generate_tokens(io.StringIO(source).readline):
        if token.type == tokenize.COMMENT:
            yield token.start[0], token.string.strip("#! ")
    tree, rows = ast.parse(source), source.splitlines()
    nodes, names = ([tree], [it for node in tree.body if isinstance(node, ast.Assign)
                             for it in node.targets if isinstance(it, ast.Name)])
    for node in nodes:
        if isinstance(node, (ast.FunctionDef, ast.ClassDef)):
            names.append(node)
        text = text_of(node, rows)
        if text:
            yield node.lineno, text
        elif text is None:
            nodes.extend(ast.iter_child_nodes(node))
    for it in names if has_names else []:
        name = it.id if isinstance(it, ast.Name) else it.name
        yield it.lineno, re.sub(r"_+|(?<=[a-z])(?=[A-Z])", " ", name).strip().lower() + " ."


def script_text(source, suffix, has_names):
    """What a script or a test says, each part in its line.
    A line that says nothing ends a sentence."""
    if suffix == ".py" or re.match("#!.*python", source):
        parts = parts_of_python(source, has_names)
    else:
        pattern = PART_OF_C if suffix in (".c", ".cpp", ".h", ".hpp", ".mjs") else PART_OF_SCRIPT
        parts = [(source.count("\n", 0, it.start()) + 1,
                  re.sub(r"\$\w+", "", it[0].strip("/*#! \"'"))) for it in pattern.finditer(source)
                 if it[0][0] in "#/" or is_prose(it[0])]
    lines = [""] * (source.count("\n") + 2)
    for number, text in parts:
        for at, line in enumerate(text.split("\n"), number - 1):
            lines[at] += line.strip() + " "
    return "\n".join(line.strip() or "." for line in lines)


def scripts():
    """The scripts and tests, each by its name and with what it says."""
    files = {path.relative_to(TOP).as_posix(): path for pattern in SCRIPTS
             for path in TOP.glob(pattern) if path.is_file()}
    return {name: script_text(path.read_text(), path.suffix, name.startswith("tests/"))
            for name, path in sorted(files.items()) if not NOT_READ.search(name)}


def pages():
    return sorted([*TOP.glob("*.md"), *TOP.glob("docs/*.[m13]*"), *TOP.glob("crates/*/README.md"),
                   *TOP.glob("python/*.md"), *TOP.glob("tests/*.md")])


def sources():
    return sorted(path for pattern in ("src/**/*.rt", "specs/**/*.antt", "proofs/**/*.antt")
                  for path in TOP.glob(f"crates/*/{pattern}"))


class Words(unittest.TestCase):
    def test_turns(self):
        """Each turn is found where it is, and not in what is written in its place."""
        for (turn, _, has,
             mended), (pattern, _) in (zip(TURNS + TURNS_OF_SCRIPTS, FOUND + FOUND_IN_SCRIPTS)):
            with self.subTest(turn):
                self.assertTrue(pattern.search(has))
                self.assertEqual(list(wrong(mended, FOUND + FOUND_IN_SCRIPTS)), [])

    def test_pages(self):
        for page in pages():
            with self.subTest(page.relative_to(TOP).as_posix()):
                self.assertEqual(list(wrong(page.read_text())), [])

    def test_comments(self):
        self.assertTrue(sources())
        for path in sources():
            with self.subTest(path.relative_to(TOP).as_posix()):
                self.assertEqual(list(wrong(comments(path), FOUND[:CHECKED_IN_COMMENTS])), [])

    def test_definitions(self):
        """The comments of definitions also have no turn of TURNS_OF_SCRIPTS."""
        found = {path.relative_to(TOP / "crates").as_posix(): list(wrong(comments(path),
                                                                         FOUND + FOUND_IN_SCRIPTS))
                 for path in TOP.glob("crates/*/specs/**/*.antt")}
        self.assertGreater(len(found), 100)
        self.assertEqual({name: it for name, it in found.items() if it}, {})

    def test_scripts(self):
        said = scripts()
        self.assertLessEqual({"build", "install", "release", "test", "building/link", "bench/run",
                              "adapters/cmake/dyncollate-ninja", "adapters/meson/dyncollate-meson",
                              "adapters/gn/dyncollate-gn", "cross/heap.c", "examples/generate",
                              "explain/dyncollate-explain", "python/wheels.py", "tests/preload",
                              "tests/fuzz/calls.c", "web/page.mjs"}, set(said))
        for name, text in said.items():
            with self.subTest(name):
                self.assertEqual(list(wrong(text, FOUND + FOUND_IN_SCRIPTS)), [])

    def test_parts_of_scripts(self):
        """Comments, texts and names are read, and nothing else."""
        for suffix, source, said in [
                (".py", "# one rule\ndef two_rules(x=b'no bytes here', y='three rules'):\n"
                 "    four = 5  # five\nSIX = r'no raw text'\n",
                 ["one rule", "three rules . two rules .", "five", "six ."]),
                ("", "#!/usr/bin/env python3\nx = f'one {two} rule'\n",
                 ["/usr/bin/env python3", "one  rule . x ."]),
                (".c",
                 'int x; // one rule\n/* two\n rules */ char *y = "three rules", *z = "four";\n',
                 ["one rule", "two", "rules three rules"]),
                ("", "#!/bin/sh\n# one rule\nx=$#; echo 'two rules' \"three $x rules\" 'four'\n",
                 ["bin/sh", "one rule", "two rules three  rules"]),
                (".awk", '# one rule\n{ x = $1; print "two rules" }\n', ["one rule", "two rules"])]:
            with self.subTest(source):
                self.assertEqual([it for it in script_text(source, suffix, True).split("\n")
                                  if it != "."], said)

    def test_subjects(self):
        """The subject of a commit has at most 72 columns, and no turn. Older commits than this
        check are passed over."""
        if not shutil.which("git") or not (TOP / ".git").exists():
            self.skipTest("no git checkout")
        status, subjects = run("git", "log", "--format=%s", f"{CHECKED_SINCE}..HEAD", cwd=TOP)
        if status:
            self.skipTest(f"the checkout does not reach back to {CHECKED_SINCE}")
        for subject in set(subjects.splitlines()) - set(EXCEPTIONS):
            with self.subTest(subject):
                self.assertLessEqual(len(subject), 72)
                self.assertEqual(list(wrong(subject)), [])


def main():
    for path in sources():
        for one in wrong(comments(path), FOUND[:CHECKED_IN_COMMENTS]):
            print(f"{path.relative_to(TOP).as_posix()} {one}")
    for name, text in scripts().items():
        for one in wrong(text, FOUND + FOUND_IN_SCRIPTS):
            print(f"{name} {one}")


if __name__ == "__main__":
    main()
