"""Compares docs/PROVED.md and the pages of the crates with the sources, looks for public calls that
no test makes, and checks that definitions name the kinds of lists of numbers.

    python3 -m unittest tests.reading       each row of a table, each example and each file that a
                                            page names, each public call that may run out of memory,
                                            and the words of definitions
    python3 -m tests.reading --write        puts the table of what one has to read into
                                            docs/PROVED.md, and the examples into the crates' pages

The table of what one has to read counts lines for theorems. A theorem is the contract of a call, or
one clause of it. A line of `specs/` counts if it belongs to a definition (the comment above it, its
type and its body) that the contract names, or that a definition which counts names. Types that are
declared in `src/`, and the words of the kit's library, do not count.

No contract can state that memory is available, so a body that always returns that memory ran out
would be proved. So each public call that can return this is made by a test, or by code of another
crate, which the program's tests run.
"""
import re
import sys
import unittest
from collections import defaultdict, namedtuple
from pathlib import Path

TOP = Path(__file__).resolve().parent.parent / "crates"
PAGE = TOP.parent / "docs/PROVED.md"
CRATES = [re.split("[ :]", line)[0]
          for line in (TOP.parent / "crates.txt").read_text().splitlines()]
COMMANDS = ("one", "collate", "project", "effect", "order", "show")
# How the table calls a theorem; its crate, its call, and its clause, or "" for the whole contract.
LAWS = ["no_race", "no_false_rebuild", "no_false_cycle"]
THEOREMS = ([(f"`{call}`", "commands", call, "") for call in COMMANDS]
            + [("the headline", "collate_core", "collate", "headline")]
            + [(f"`{law}`", "collate_core", law, "") for law in LAWS])
HEAD = ["| file in `crates/*/specs/` | its lines | to read for "
        f"{' | '.join(theorem[0] for theorem in THEOREMS)} | names |",
        "|---" * (len(THEOREMS) + 3) + "|"]
BEGINNING = re.compile(r"^(?:abbrev|unfoldable|pub record|pub data) (?:pub )?(\S+)", re.M)
DECLARED = re.compile(
    r"\b(?:abbrev|unfoldable|record|data|fn|struct|enum|trait|ensures|ghost) (?:pub )?(\w+)|^ "
    r"+(?:pub )?(\w+) :", re.M)


def names_used(text):
    """What the `use` lines of a file bring: names, each with its file and what it is called there,
    and names of files."""
    names, files = {}, {}
    for crate, inside, listed, alias in (re.findall(
        r"^ *(?:ghost |pub )?use Rattle\.(\w+)\.specs\.([\w.]+?)(?:\.\{(.*)\})?(?: as (\w+))?;?$",
        text, re.M)):
        file = f"{crate}/specs/{inside.replace('.', '/')}.antt"
        names |= {name.strip("◌"): (file, name.strip("◌")) for name in listed.split(", ")}
        files |= {alias: file} if alias else {}
    return names, files


class Specs:
    """A file of specs/: its definitions by name, and in which of them each name is defined."""

    def __init__(self, path):
        text = path.read_text()
        self.length = text.count("\n")
        self.names, self.files = names_used(text)
        self.definitions, self.homes = {}, {}
        for part in re.split(r"\n\n+",
                             re.sub(r"^(use|pub use|pub mod) .*\n", "", text, flags=re.M)):
            defined = [name.strip("◌") for name in BEGINNING.findall(part)]
            if defined:
                self.definitions[defined[0]] = part.strip("\n")
                variants = (re.findall(r"^  (\w+) :", part, re.M)
                            if "\npub data " in "\n" + part else [])
                self.homes |= {name: defined[0] for name in variants + defined}
        self.names |= {name: (path.relative_to(TOP).as_posix(), name) for name in self.homes}


SPECS = {path.relative_to(TOP).as_posix(): Specs(path) for crate in CRATES
         for path in (TOP / crate / "specs").rglob("*.antt")}


def named(text, names, files):
    """The definitions that a text names."""
    for before, name in (re.findall(r"(?<![\w.])(?:(\w+)\.)?(\w+)",
                                    re.sub(r"--.*|codes \"[^\"]*\"", "", text))):
        file, name = ((files[before], name)
                      if before in files else names.get(before or name, ("", "")))
        while file in SPECS and name not in SPECS[file].homes and name in SPECS[file].names:
            file, name = SPECS[file].names[name]  # the file passes it on by `pub use`
        if file in SPECS and name in SPECS[file].homes:
            yield file, SPECS[file].homes[name]


def rests_on(crate, call, clause):
    """The definitions that a theorem rests on."""
    for path in sorted((TOP / crate / "src").rglob("*.rt")):
        text = path.read_text()
        contract = re.search(rf"^ *pub(?:\(crate\))? fn {call}\b.*?^ *\{{$", text, re.M | re.S)
        if contract:
            break
    else:
        raise LookupError(f"{crate} has no call {call}")
    clauses = re.split(r"\n *(?=ensures )", contract[0])[1:]
    said = [one for one in clauses if not clause or one.startswith(f"ensures {clause} ")]
    waiting = list(named("\n".join(said), *names_used(text)))
    done = set()
    while waiting:
        one = waiting.pop()
        if one not in done:
            done.add(one)
            specs = SPECS[one[0]]
            waiting += named(specs.definitions[one[1]], specs.names, specs.files)
    return done


def shown(file):
    """How the table writes the name of a file."""
    return file.replace("/specs/", "/")


def reading_table(old):
    """The rows, in the order of the old ones; a file that is new comes last."""
    read = [rests_on(*theorem[1:]) for theorem in THEOREMS]
    order = re.findall(r"^\| `([^`]+)` \|", old, re.M)

    def index(file):
        return (order + [shown(file)]).index(shown(file)), file
    rows, counts = [], []
    for file in sorted({file for one in read for file, _ in one}, key=index):
        specs = SPECS[file]
        here = [[name for name in specs.definitions if (file, name) in one] for one in read]
        counts.append([sum(specs.definitions[name].count("\n") + 1 for name in names)
                       for names in here])
        names = [f"`{name}`" for name in specs.definitions if any(name in one for one in here)]
        listed = "all" if len(names) == len(specs.definitions) else ", ".join(names)
        rows.append(f"| `{shown(file)}` | {specs.length} | "
                    f"{' | '.join(str(count or '') for count in counts[-1])} | {listed} |")
    sums = [f"{sum(column)} of {sum(map(bool, column))} files" for column in zip(*counts)]
    return HEAD + rows + [f"| in all | | {' | '.join(sums)} | |"]


NAMES = {path: {name for pair in DECLARED.findall(re.sub(r"(--|//).*", "", path.read_text()))
                for name in pair} for crate in CRATES for folder in ("src", "specs")
         for path in (TOP / crate / folder).rglob("*.*t")}


def unknown(crate, row):
    """What a row of a crate's table names and the crate, or another that it names, does not have.
    Names that come after a file, up to the next semicolon, have to be declared in that file."""
    call, _, clauses, definitions = [cell.strip() for cell in re.split(r"(?<!\\)\|", row)[1:-1]]
    crates = [crate] + [one for one in CRATES if f"`{one}`" in row]
    for group in [call, clauses] + definitions.split(";"):
        quoted = [one for one in re.findall(r"`([^`]+)`", group) if one not in CRATES]
        files = [one for one in quoted if re.search(r"\.(antt|rt)$", one)]
        there = [path for one in files for path in (TOP / one, TOP / crate / one,
                                                    TOP / crate / "specs" / one) if path.is_file()]
        if len(there) < len(files):
            yield " or ".join(files)
        known = set().union(*(NAMES[path] for path in there or NAMES if path in there
                              or path.relative_to(TOP).parts[0] in crates))
        yield from (one for one in quoted if one not in files and re.search(r"\w", one)
                    and one.split("::")[-1] not in known)


# ---- public calls that can run out of memory

HEADER = re.compile(
    r"^( *)(pub )?(?:pub\(\w+\) )?fn (\w+)(.*?)(?=;$| \{$|^ *\{$|^ *(?:requires|ensures)\b)",
    re.M | re.S)
IMPL = re.compile(r"^impl(?:<[^{]*?>)? (?:([\w:]+)(?:<[^{]*?>)? for )?(\w+)[^{]*\{$.*?^\}$",
                  re.M | re.S)
# What comes before a name that is called, or passed on as `Path::of`: a type or a crate,
# or the dot of a method.
CALL = re.compile(
    r"(?:\b(\w+)(?:::<[^()]*?>)?::|(\.)|\b)(?:([a-z]\w*)(?:::<[^()]*?>)?\(|(?<=::)([a-z]\w*)\b)")
TYPE = re.compile(r"\b[A-Z]\w+")

# A function with a body: its crate, its type and trait if it is a method, whether it is `pub`, its
# result, its calls, the types and fields that its text names, and the names that its file brings
# from each crate.
Function = namedtuple("Function", "crate type trait public name result calls types fields brought")


def functions(crate, path):
    """The functions of a file that have a body. Clauses do not count as their text."""
    text = re.sub(r"//.*", "", path.read_text())
    text = re.sub(r"^pub trait .*?^\}$", lambda found: "\n" * found[0].count("\n"), text,
                  flags=re.M | re.S)
    impls = [(range(*found.span()), found[2], found[1]) for found in IMPL.finditer(text)]
    brought = frozenset((one, name)
                        for one, names in re.findall(r"^ *use (\w+)::(.*?);$", text, re.M | re.S)
                        for name in re.findall(r"\w+", names))
    for head in HEADER.finditer(text):
        type_, trait = next(((type_, trait) for span, type_, trait in impls
                             if head.start() in span), ("", None))
        rest = re.match(rf"(?:(?!^{head[1]}\}}$).)*", text[head.end():], re.M | re.S)[0]
        body = re.split(rf"^{head[1]}\{{$", rest, maxsplit=1, flags=re.M)[-1]
        signature, body = (part.replace("Self", type_ or "Self") for part in (head[4], body))
        calls = frozenset((before or dot, called or handed_on)
                          for before, dot, called, handed_on in CALL.findall(body))
        types = frozenset(TYPE.findall(signature + body)) | {type_}
        fields = frozenset(re.findall(r"\.(\w+)\b(?!\()", body))
        yield Function(crate, type_, trait, bool(head[2]), head[3], signature.rpartition("-> ")[2],
                       calls, types, fields, brought)


def offered(crate):
    """The names that a crate offers: those of `pub use`,
    and those declared in its root file and its public modules."""
    root = (TOP / crate / "src/lib.rt").read_text()
    texts = ([root] + [(TOP / crate / f"src/{name}.rt").read_text()
                       for name in re.findall(r"^pub mod (\w+);", root, re.M)])
    used = " ".join(re.findall(r"^pub use \w+::(.*?);", root, re.M | re.S))
    return (set(re.findall(r"\w+", used))
            | set(re.findall(r"^pub (?:fn|struct|enum) (\w+)", "\n".join(texts), re.M)))


class Calls:
    """The functions of all crates, and which of them another crate calls."""

    def __init__(self):
        sources = [(crate, path) for crate in CRATES
                   for path in sorted((TOP / crate / "src").rglob("*.rt"))]
        self.functions = [one for source in sources for one in functions(*source)]
        self.results, self.fields = defaultdict(set), defaultdict(set)
        for one in self.functions:
            for before in (one.type, "." if one.type else ""):
                self.results[before, one.name] |= set(TYPE.findall(one.result))
        for _, path in sources:
            for name, type_ in (re.findall(r"^ +(?:pub(?:\(crate\))? )?(\w+): (.*),$",
                                           path.read_text(), re.M)):
                self.fields[name] |= set(TYPE.findall(type_))

    def public(self):
        """The public calls of the libraries whose result may be that memory ran out. Those of
        `commands` are not among them: they are what the program runs in each of its tests."""
        names = {crate: offered(crate) for crate in CRATES
                 if crate != "commands" and (TOP / crate / "src/lib.rt").exists()}
        return [one for one in self.functions if one.crate in names and (one.public or one.trait)
                and (one.type or one.name) in names[one.crate]
                and re.match(r"Result<.*\b(AllocError|Failure<)", one.result, re.S)]

    def has_in_sight(self, caller, type_, method):
        """Whether a function names a type, or gets it from a field or from a call,
        except for calls of that very method."""
        return (type_ in caller.types or any(type_ in self.fields[name] for name in caller.fields)
                or any(type_ in self.results[call] | self.results["", call[1]]
                       for call in caller.calls if call[1] != method))

    def reached(self, caller):
        """The calls that a function makes, and those of its crate that it calls."""
        done, waiting = set(), [caller]
        while waiting:
            one = waiting.pop()
            if one not in done:
                done.add(one)
                names = {name for _, name in one.calls}
                waiting += [other for other in self.functions if other.crate == one.crate
                            and other.name in names]
        return {call for one in done for call in one.calls}

    def is_called(self, one):
        """Whether another crate's function makes the call. Methods of one name are distinguished by
        the types in its sight; one of a trait may be called in a function that gets the value, for
        any type with the trait."""
        for caller in self.functions:
            if caller.crate == one.crate:
                continue
            if not one.type:
                is_made = (one.crate, one.name) in caller.calls | caller.brought and \
                    {("", one.name), (one.crate, one.name)} & caller.calls
            elif (one.type, one.name) in caller.calls:
                is_made = True
            elif one.trait:
                is_made = one.type in caller.types and (".", one.name) in self.reached(caller)
            else:
                is_made = ((".", one.name) in caller.calls
                           and self.has_in_sight(caller, one.type, one.name))
            if is_made:
                return True
        return False


def by_file(table):
    return {row.split("|")[1].strip(): row for row in table.splitlines()}


def table_in(page):
    return re.search(r"^\| file in `crates/.*\n(?:\|.*\n)*", page, re.M)[0].rstrip("\n")


# ---- the pages

def page_of(crate):
    return TOP / crate / "README.md"


def rows_of_calls():
    """Each row of the tables of calls and laws, and its crate: in docs/PROVED.md the one that the
    section's heading names."""
    pages = [(crate, page_of(crate).read_text()) for crate in CRATES]
    for heading, section in (re.findall(r"^## (.*)\n(.*?)(?=^## |\Z)", PAGE.read_text(),
                                        re.M | re.S)):
        pages += [(crate, section) for crate in CRATES if heading.endswith(f"`{crate}`")]
    for crate, page in pages:
        for table in re.findall(r"^\| call or law .*\n\|-.*\n((?:\|.*\n)*)", page, re.M):
            yield from ((crate, row) for row in table.splitlines())


EXAMPLES = {path.stem.removesuffix("_example"): path
            for path in sorted((TOP / "library_tests/src/examples").glob("*.rt"))}
QUOTED = re.compile(r"(?<=^```rust\n).*?(?=^```$)", re.M | re.S)


def example(path):
    """What a page quotes of an example: all that comes after the lines that say what it is."""
    return re.sub(r"^(//!.*\n)+", "", path.read_text())


def with_example(page, path):
    """The page of a crate with the example in the block of code after its name."""
    name = re.escape(f"`{path.relative_to(TOP.parent).as_posix()}`")
    return re.sub(rf"({name}:\n\n```rust\n).*?(?=^```$)", lambda found: found[1] + example(path),
                  page, flags=re.M | re.S)


def named_files(page):
    """The files that a page names by their paths from the top, that a crate's page names by theirs
    in the crate, outside of its tables, or that a page links to; NAME is any name."""
    text = page.read_text()
    for name in re.findall(r"`((?:bench|crates|docs|examples|tests)/[^\s`]*)`", text):
        if not name.endswith("/out"):
            yield TOP.parent, name.replace("NAME", "*")
    for name in re.findall(r"\]\((?!https?:|#)([^)#]+)", text):
        yield page.parent, name
    if page.parent.parent == TOP:
        for name in re.findall(r"`((?:must-fail|proofs|specs|src)/[^\s`]*)`",
                               re.sub(r"^\|.*", "", text, flags=re.M)):
            yield page.parent, name.replace("NAME", "*")


class Reading(unittest.TestCase):
    def test_what_one_has_to_read(self):
        """The table of what one has to read is that of the sources:
        python3 -m tests.reading --write"""
        had = by_file(table_in(PAGE.read_text()))
        has = by_file("\n".join(reading_table(table_in(PAGE.read_text()))))
        for file in had | has:
            with self.subTest(file):
                self.assertEqual(had.get(file), has.get(file))

    def test_rows_of_calls(self):
        """The sources have what a row names."""
        rows = list(rows_of_calls())
        self.assertEqual({crate for crate, _ in rows},
                         set(CRATES) - {"dyncollate", "library_tests"})
        for crate, row in rows:
            with self.subTest(crate=crate, row=row):
                self.assertEqual(list(unknown(crate, row)), [])

    def test_examples(self):
        """The page of a library quotes its example: python3 -m tests.reading --write"""
        self.assertEqual(set(EXAMPLES), set(CRATES) - {"c_library", "command_line", "commands",
                                                       "disk_folder", "dyncollate", "library_tests",
                                                       "system_files", "table_keys"})
        for crate, path in EXAMPLES.items():
            with self.subTest(crate):
                self.assertIn(example(path), QUOTED.findall(page_of(crate).read_text()))

    def test_quotations(self):
        """Code in the page of a crate is, word for word,
        in a file that the page names before it."""
        for crate in CRATES:
            page = page_of(crate).read_text()
            for block in QUOTED.finditer(page):
                files = [TOP.parent / name
                         for name in re.findall(r"`(crates/[^`]+\.rt)`", page[:block.start()])]
                with self.subTest(crate, code=block[0]):
                    self.assertTrue(any(block[0] in file.read_text() for file in files))

    def test_example_of_a_contract(self):
        """CONTRIBUTING.md quotes a function and its definition word for word, from the files that
        it names before them."""
        page = (TOP.parent / "CONTRIBUTING.md").read_text()
        blocks = list(re.finditer(r"(?<=^```)(rust|text)\n(.*?)(?=^```$)", page, re.M | re.S))
        self.assertEqual([it[1] for it in blocks], ["rust", "text"])
        for block in blocks:
            file = re.findall(r"`(crates/[^`]+\.(?:rt|antt))`", page[:block.start()])[-1]
            self.assertIn(block[2], (TOP.parent / file).read_text())

    def test_named_files(self):
        """The files that a page names are there."""
        for page in [*TOP.parent.glob("*.md"), *TOP.parent.glob("docs/*.md"),
                     *TOP.glob("*/README.md")]:
            for folder, name in named_files(page):
                with self.subTest(page.relative_to(TOP.parent).as_posix(), name=name):
                    self.assertTrue(any(folder.glob(name))
                                    if "*" in name else (folder / name).exists())

    def test_wrong_bodies(self):
        """The edits that docs/PROVED.md and the tables of the crates' pages name are there."""
        section = re.search(r"^## Wrong bodies.*?(?=^## )", PAGE.read_text(), re.M | re.S)[0]
        edits = re.findall(r"`(\w+)/(\w+)`", section)
        for crate in CRATES:
            tables = re.findall(r"^\| wrong body .*\n\|-.*\n((?:\|.*\n)*)",
                                page_of(crate).read_text(), re.M)
            cells = re.findall(r"\| ([^|]*) \|$", "".join(tables), re.M)
            edits += [(crate, name) for name in re.findall(r"`(\w+)`", "".join(cells))]
        self.assertGreater(len(edits), 100)
        for crate, name in edits:
            with self.subTest(crate, name=name):
                self.assertTrue((TOP / crate / f"must-fail/{name}.edit").is_file())

    def test_walk(self):
        """The sources have what the walk of docs/ARCHITECTURE.md names."""
        walk = re.search(r"^## The walk.*?(?=^## )",
                         (TOP.parent / "docs/ARCHITECTURE.md").read_text(), re.M | re.S)[0]
        known = set(re.findall(r"\w+",
                               (TOP.parent / "crates.txt").read_text())).union(*NAMES.values())
        for name in re.findall(r"`([\w:]+)`", walk):
            with self.subTest(name):
                self.assertIn(name.split("::")[-1], known)
        for file in re.findall(r"`([\w/]+\.rt)`", walk):
            with self.subTest(file):
                self.assertTrue(any(path.as_posix().endswith(f"/{file}") for path in NAMES))

    def test_public_calls(self):
        """A test or another crate makes each public call that may return that memory ran out."""
        calls = Calls()
        self.assertTrue(calls.public())
        for one in calls.public():
            with self.subTest("::".join(filter(None, (one.crate, one.type, one.name)))):
                self.assertTrue(calls.is_called(one), "no test and no other crate makes this call")


# ---- the words of definitions

# The files that give names to lists of numbers, and to the numbers of bytes.
FILES_OF_NAMES = ("ninja_text/specs/Bytes.antt", "dep_order/specs/Numbers.antt",
                  "module_table/specs/Indexes.antt", "table_keys/specs/Hashed.antt",
                  "command_line/specs/Arguments.antt")
BYTE_NUMBER = re.compile(r"(?:== |∷ |\bthen |\belse |\bnat_l[et] (?:\w+ )?)\d\d+\b|\b\d\d+ ∷")


def read_by_callers():
    """The definitions that a caller reads: all of specs/ but those for private clauses, and the
    lemmas of a trait's laws."""
    for file, specs in SPECS.items():
        if "/inner/" not in file and "_laws/" not in file:
            for name, text in specs.definitions.items():
                yield file, name, re.sub(r"--.*|codes \"[^\"]*\"", "", text)


class Words(unittest.TestCase):
    def test_one_crate_for_a_name(self):
        """No definition has the name of one in another crate."""
        crates = defaultdict(set)
        for file, name, _ in read_by_callers():
            crates[name].add(file.split("/")[0])
        self.assertTrue(crates)
        for name, found in crates.items():
            with self.subTest(name):
                self.assertEqual(len(found), 1, sorted(found))

    def test_bytes_have_names(self):
        """Definitions call a byte by its name."""
        for file, name, text in read_by_callers():
            if file not in FILES_OF_NAMES:
                with self.subTest(file, name=name):
                    self.assertEqual(BYTE_NUMBER.findall(text), [])

    def test_lists_of_numbers_have_names(self):
        """Definitions and contracts say what a list of numbers is: a text, a path, a name."""
        for file, name, text in read_by_callers():
            if file not in FILES_OF_NAMES:
                with self.subTest(file, name=name):
                    self.assertNotIn("List ℕ", text)
        for crate in CRATES:
            for path in sorted((TOP / crate / "src").rglob("*.rt")):
                with self.subTest(path.relative_to(TOP).as_posix()):
                    self.assertNotIn("List ℕ", re.sub(r"//.*", "", path.read_text()))


def main():
    if sys.argv[1:] != ["--write"]:
        print(__doc__)
        return 2
    page = PAGE.read_text()
    old = table_in(page)
    PAGE.write_text(page.replace(old, "\n".join(reading_table(old))))
    for crate, path in EXAMPLES.items():
        page_of(crate).write_text(with_example(page_of(crate).read_text(), path))
    return 0


if __name__ == "__main__":
    raise SystemExit(main())
