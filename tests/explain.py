"""dyncollate-explain: for each error of a document, of modules, edges, maps and files, which file
it names and what it says about it."""
import contextlib
import io
import os
import pty
import re
import shutil
import sys
from pathlib import Path
from unittest import mock

from tests import embedded, program
from tests.case import Case, each, lay, tree, write
from tests.manual import meanings
from tests.rows.forms import edge, info, module, sources, target
from tests.run import output_of, run, run_apart
from tests.side_by_side import side_by_side
from tests.tables import all_rows

load_tests = side_by_side

TOP = Path(program.TOP)
EXPLAIN = TOP / "explain/dyncollate-explain"
MEANINGS = meanings()

A_B, B = sources(b"obj/a.o|A|B"), sources(b"obj/b.o|B|")
L_INFO = info(module(b"L", b"lib/L.pcm"))
SCANS = b',"scans":["a.ddi","b.ddi"]'
LINKS = b',"scans":["a.ddi"],"linked":["l.json","k.json"]'


def of(text, more=SCANS, **files):
    """The files of a target t.target.json whose second scan document is this text."""
    return ({"t.target.json": target(more), "a.ddi": A_B,
             "b.ddi": text} | {name.replace("_", "."): it for name, it in files.items()})


def linking(*infos, scan=sources(b"obj/a.o||"), more=LINKS):
    """The files of a target t.target.json that links these info files."""
    return {"t.target.json": target(more), "a.ddi": scan, **dict(zip(("l.json", "k.json"), infos))}


def project(**files):
    """A project of two targets, 0 and 1; the second links the first."""
    return ({"project.json": b'{"version":1,"targets":["0.json","1.json"]}',
             "0.json": target(b',"scans":["0.ddi"]', b"base"), "0.ddi": sources(b"base.o|base|"),
             "1.json": target(b',"scans":["1.ddi"],"linked":["base.json"]', b"app"),
             "1.ddi": sources(b"app.o||base")} | {f"{name[1:].replace('_', '.')}": it
                                                  for name, it in files.items()})


EDGES = edge(b"obj/a.o: cxx a.cpp || t.dd") + edge(b"obj/b.o: cxx b.cpp || t.dd")


def edged(edges, scan=B):
    return of(scan, SCANS + b',"edges":"edges"') | {"edges": edges}


PRIVATE = module(b"P", b"lib/P.pcm", visibility=b"private")
# Why, the files, the error, and the lines that explain it, without the manual's. The document is
# t.target.json or project.json.
CASES = [
    ("an empty scan", of(b""), "scan 1: S1 NotJson document",
     ["S1 NotJson: b.ddi (scan 1)", "The file is empty."]),
    ("a scan of spaces", of(b" \n"), "scan 1: S1 NotJson document",
     ["S1 NotJson: b.ddi (scan 1)", "The file is empty, except for white space."]),
    ("a scan of zeros", of(bytes(5)), "scan 1: S1 NotJson document",
     ["S1 NotJson: b.ddi (scan 1)",
      "The file has only zero bytes, as after a crash of the system."]),
    ("a byte-order mark", of(b"\xef\xbb\xbf" + B), "scan 1: S1 NotJson document",
     ["S1 NotJson: b.ddi (scan 1)",
      "The file begins with a byte-order mark (UTF-8). Write it as UTF-8 without one."]),
    ("the mark of UTF-16", of(B.decode().encode("utf-16")), "scan 1: S1 NotJson document",
     ["S1 NotJson: b.ddi (scan 1)",
      "The file begins with a byte-order mark (UTF-16). Write it as UTF-8 without one."]),
    ("a truncated scan",
     of(b'{"version":1,\n "rules":[{"primary-output":"a.o"'), "scan 1: S1 NotJson document",
     ["S1 NotJson: b.ddi (scan 1)",
      "Line 2, column 34: Expecting ',' delimiter. The file ends there, so it was cut off."]),
    ("a scan that is cut in a string", of(b'{"version":1,\n "rules":[{"primary-out'),
     "scan 1: S1 NotJson document",
     ["S1 NotJson: b.ddi (scan 1)",
      "Line 2, column 12: Unterminated string starting at. The file ends there, so it was cut "
      "off."]),
    ("a missing comma", of(b'{"version":1\n "rules":[]}'), "scan 1: S1 NotJson document",
     ["S1 NotJson: b.ddi (scan 1)", "Line 2, column 2: Expecting ',' delimiter."]),
    ("a byte that is not UTF-8", of(b'{"version":1,\n "a":"\xff","rules":[]}'),
     "scan 1: S1 NotJson document",
     ["S1 NotJson: b.ddi (scan 1)", "Line 2, column 7: this byte (0xff) is not UTF-8."]),
    ("too many levels", of(b'{"version":1,"rules":[],"a":' + b"[" * 200 + b"]" * 200 + b"}"),
     "scan 1: S1 NotJson document",
     ["S1 NotJson: b.ddi (scan 1)", "Line 1, column 155: more than 127 levels."]),
    ("a version", of(b'{"version":7,"rules":[]}'), "scan 1: S2 BadVersion document",
     ["S2 BadVersion: b.ddi (scan 1)", "Its version is 7."]),
    ("no version", of(b'{"rules":[]}'), "scan 1: S2 BadVersion document",
     ["S2 BadVersion: b.ddi (scan 1)", "It has no member version."]),
    ("a member of another type",
     of(b'{"version":1,"rules":[{"primary-output":"obj/b.o","provides":7}]}'),
     "scan 1: S3 BadShape rule 0 member provides",
     ["S3 BadShape: b.ddi (scan 1)", "It has rule 0 (obj/b.o) member provides: 7.",
      "`provides` is an array."]),
    ("a missing member",
     of(b'{"version":1,"rules":[{"primary-output":"obj/b.o","provides":[{}]}]}'),
     "scan 1: S3 BadShape rule 0 provides 0 member logical-name",
     ["S3 BadShape: b.ddi (scan 1)",
      "It is missing: rule 0 (obj/b.o) provides 0 member logical-name.",
      "`logical-name` is a string."]),
    ("no object file", of(b'{"version":1,"rules":[{"provides":[]}]}'),
     "scan 1: S4 NoPrimaryOutput rule 0",
     ["S4 NoPrimaryOutput: b.ddi (scan 1)", 'It has rule 0: {"provides": []}.']),
    ("a header unit",
     of(b'{"version":1,"rules":[{"primary-output":"obj/b.o","requires":[{"logical-name":"h.h",'
        b'"lookup-method":"include-quote"}]}]}'), "scan 1: S5 HeaderUnit rule 0 requires 0",
     ["S5 HeaderUnit: b.ddi (scan 1)",
      'It has rule 0 (obj/b.o) requires 0: {"logical-name": "h.h", "lookup-method": '
      '"include-quote"}.']),
    ("a name", of(sources(b"obj/b.o||./h.h")), "scan 1: S6 BadName rule 0 requires 0",
     ["S6 BadName: b.ddi (scan 1)",
      'It has rule 0 (obj/b.o) requires 0: {"logical-name": "./h.h"}.']),
    ("a path", of(b'{"version":1,"rules":[{"primary-output":"a/.."}]}'),
     "scan 1: S7 BadPath rule 0 N1 Empty",
     ["S7 BadPath: b.ddi (scan 1)", 'It has rule 0 (a/..): {"primary-output": "a/.."}.']),
    ("too many rules", of(b'{"version":1,"rules":[' + b"7," * 65536 + b"7]}"),
     "scan 1: S8 TooLarge document",
     ["S8 TooLarge: b.ddi (scan 1)", "It has 131,097 bytes and 65,537 rules."]),
    ("an info file", linking(b'{"version":7}', L_INFO), "info 0: S2 BadVersion document",
     ["S2 BadVersion: l.json (info 0)", "Its version is 7."]),
    ("a module of an info file", linking(L_INFO, info(module(b"K", b"a/.."))),
     "info 1: S7 BadPath module 0 N1 Empty",
     ["S7 BadPath: k.json (info 1)",
      'It has module 0 (K): {"bmi": "a/..", "name": "K", "requires": []}.']),
    ("the target document",
     {"t.target.json": b'{"version":1,"target":"t"'}, "target: S1 NotJson document",
     ["S1 NotJson: t.target.json",
      "Line 1, column 26: Expecting ',' delimiter. The file ends there, so it was cut off."]),
    ("a member of the target document", {"t.target.json": target(b',"map":"msvc"')},
     "target: S3 BadShape document member map",
     ["S3 BadShape: t.target.json", 'It has member map: "msvc".', "`map` is one of clang, gcc."]),
    ("the member edges",
     {"t.target.json": target(b',"edges":7')}, "target: S3 BadShape document member edges",
     ["S3 BadShape: t.target.json", "It has member edges: 7.", "`edges` is a string."]),
    ("the project document", {"project.json": b'{"version":2,"targets":[]}'},
     "project: S2 BadVersion document", ["S2 BadVersion: project.json", "Its version is 2."]),
    ("the list of a project", {"project.json": b'{"version":1,"targets":[7]}'},
     "project: S3 BadShape document member targets",
     ["S3 BadShape: project.json", "It has member targets: [7].",
      "`targets` is an array of strings."]),
    ("a target of a project", project(_1_json=b'{"version":1}'),
     "target 1: target: S3 BadShape document member target",
     ["S3 BadShape: 1.json", "It is missing: member target.",
      "`target` is a string that is not empty."]),
    ("a scan of a target of a project", project(_1_ddi=b""),
     "target 1: scan 0: S1 NotJson document",
     ["S1 NotJson: 1.ddi (scan 0 of target app (1.json))", "The file is empty."]),

    ("an object twice", of(sources(b"obj/b.o|B|", b"x/../obj/a.o||")), "M1 ObjectTwice obj/a.o",
     ["M1 ObjectTwice: obj/a.o is the object of 2 rules",
      "They are in a.ddi and rule 1 of b.ddi."]),
    ("an info file twice", linking(L_INFO, L_INFO), "M2 InfoTwice l",
     ["M2 InfoTwice: the target l is linked 2 times", "Its info files are l.json and k.json."]),
    ("a module twice", of(sources(b"obj/b.o|B|", b"obj/c.o|A|")),
     "M3 ProvidedTwice A by object obj/a.o and object obj/c.o",
     ["M3 ProvidedTwice: the module A is provided twice", "One is obj/a.o, a.ddi.",
      "The other is obj/c.o, rule 1 of b.ddi."]),
    ("a module of an info file, twice",
     linking(L_INFO, scan=sources(b"obj/a.o|L|"), more=LINKS.replace(b',"k.json"', b"")),
     "M3 ProvidedTwice L by object obj/a.o and info l",
     ["M3 ProvidedTwice: the module L is provided twice", "One is obj/a.o, a.ddi.",
      "The other is the target l, by l.json."]),
    ("a file of two modules", of(sources(b"obj/b.o|B|", b"obj/c.o|m:n|", b"obj/d.o|m-n|")),
     "M4 BmiTwice mod/m-n.bmi by object obj/c.o and object obj/d.o",
     ["M4 BmiTwice: two things are the file mod/m-n.bmi", "One is obj/c.o, rule 1 of b.ddi.",
      "The other is obj/d.o, rule 2 of b.ddi.", "It is the BMI of m:n and m-n."]),
    ("a module that nothing provides", of(sources(b"obj/b.o||")), "M5 ModuleUnknown B in obj/a.o",
     ["M5 ModuleUnknown: obj/a.o imports B, and nothing provides it", "obj/a.o is in a.ddi."]),
    ("a module with a like name", of(sources(b"obj/b.o|shapes|", b"obj/c.o|B|shape")),
     "M5 ModuleUnknown shape in obj/c.o",
     ["M5 ModuleUnknown: obj/c.o imports shape, and nothing provides it",
      "obj/c.o is rule 1 of b.ddi.", "A like name is shapes: obj/b.o provides it."]),
    ("a module of a target that is not linked",
     of(sources(b"obj/b.o||"), other_json=target(b',"scans":["c.ddi"]', b"o"),
        c_ddi=sources(b"obj/c.o|B|")), "M5 ModuleUnknown B in obj/a.o",
     ["M5 ModuleUnknown: obj/a.o imports B, and nothing provides it", "obj/a.o is in a.ddi.",
      "the target o provides it, and o.json is not in linked of t.target.json."]),
    ("a module of an info file that is not linked",
     of(sources(b"obj/b.o||"), l_json=info(module(b"B", b"lib/B.pcm"))),
     "M5 ModuleUnknown B in obj/a.o",
     ["M5 ModuleUnknown: obj/a.o imports B, and nothing provides it", "obj/a.o is in a.ddi.",
      "the target l provides it, and l.json is not in linked of t.target.json."]),
    ("a module of another target of the project",
     project(_1_json=target(b',"scans":["1.ddi"]', b"app")),
     "target 1: M5 ModuleUnknown base in app.o",
     ["M5 ModuleUnknown of target app (1.json): app.o imports base, and nothing provides it",
      "app.o is in 1.ddi.",
      "the target base provides it, and base.json is not in linked of 1.json."]),
    ("a module of a linked target", linking(info(module(b"L", b"lib/L.pcm", (b"lib/X.pcm", b"X"))),
                                            more=LINKS.replace(b',"k.json"', b"")),
     "M6 InfoUnknown l L X",
     ["M6 InfoUnknown: the module L of the target l requires X, and no linked target provides it",
      "l.json says that L requires it."]),
    ("a module with two files", linking(info(module(b"L", b"lib/L.pcm", (b"old/K.pcm", b"K"))),
                                        info(module(b"K", b"new/K.pcm"), target=b"k")),
     "M7 InfoDisagrees l L K",
     ["M7 InfoDisagrees: two info files have different BMIs of the module K",
      "l.json (target l, module L) has old/K.pcm.", "k.json (target k) has new/K.pcm."]),
    ("a cycle", of(sources(b"obj/b.o|B|C", b"obj/c.o|C D|A")),
     "M8 ImportCycle obj/a.o -> obj/b.o -> obj/c.o",
     ["M8 ImportCycle: A -> B -> C -> A",
      "obj/a.o imports B of obj/b.o; obj/b.o imports C of obj/c.o; obj/c.o imports A of obj/a.o."]),
    ("an object that imports itself", of(sources(b"obj/b.o|B|B")), "M8 ImportCycle obj/b.o",
     ["M8 ImportCycle: B -> B", "obj/b.o imports B of obj/b.o."]),
    ("a private module", linking(info(PRIVATE, version=2), scan=sources(b"obj/a.o||P"),
                                 more=LINKS.replace(b',"k.json"', b"")),
     "M9 ModulePrivate P of l in object obj/a.o",
     ["M9 ModulePrivate: obj/a.o imports P, which is private to the target l",
      "obj/a.o is in a.ddi.", "l.json has it as private."]),
    ("a private module that a linked target requires",
     linking(info(PRIVATE, version=2), info(module(b"K", b"lib/K.pcm", (b"lib/P.pcm", b"P")),
                                            target=b"k")), "M9 ModulePrivate P of l in info k",
     ["M9 ModulePrivate: the target k imports P, which is private to the target l",
      "k.json says so.", "l.json has it as private."]),
    ("a private module of the target", of(B, SCANS + b',"private":["detail","AA"]'),
     "M10 PrivateUnknown detail",
     ["M10 PrivateUnknown: t.target.json lists detail as private, and no object of the target "
      "provides it"]),
    ("a path of a map", of(sources(b"obj/b.o|B|"), SCANS + b',"map":"gcc","module-dir":"my dir"'),
     "K1 MapPath my dir/A.bmi",
     ["K1 MapPath: my dir/A.bmi cannot be written into a module map",
      "It is the BMI of A, of obj/a.o in a.ddi.", 'module-dir is "my dir" in t.target.json.']),
    ("two modules of an object", of(sources(b"obj/b.o|B C|"), SCANS + b',"map":"clang"'),
     "K2 TwoProvided obj/b.o",
     ["K2 TwoProvided: obj/b.o provides B and C", "obj/b.o is in b.ddi."]),
    ("a target that is linked before it is there",
     project(_project_json=b'{"version":1,"targets":["1.json","0.json"]}'),
     "target 0: K3 LinkedLater",
     ["K3 LinkedLater of target app (1.json): it links base.json",
      "It is the info file of the target base (0.json), which is not earlier in project.json."]),
    ("a target that is not in the project",
     project(_1_json=target(b',"linked":["x.json"]', b"app")), "target 1: K3 LinkedLater",
     ["K3 LinkedLater of target app (1.json): it links x.json",
      "No target in project.json has this info file."]),
    ("a statement that is too long", of(sources(
        b"obj/b.o|B|", b"obj/c.o||" + b" ".join(b"A" * 900 + b"%d" % it for it in range(1300)),
        *(b"%d.o|%s%d|" % (it, b"A" * 900, it) for it in range(1300)))),
     "Y2 StatementTooLong statement 2",
     ["Y2 StatementTooLong: the statement of obj/c.o", "obj/c.o is rule 1 of b.ddi.",
      "It provides 0 modules and imports 1,300."]),

    ("a line of the edge list", edged(EDGES + b"rule cc\n"), "edges: line 5: E3 Form",
     ["E3 Form: line 5 of the edge list edges", 'The line is "rule cc".']),
    ("a path of the edge list", edged(b"build a/..: cxx\n"), "edges: line 1: E3 Path N1 Empty",
     ["E3 Path: line 1 of the edge list edges", 'The line is "build a/..: cxx".']),
    ("a variable in the edge list", edged(b"build $x: cxx\n"), "edges: line 1: N9 Variable at 6",
     ["N9 Variable: line 1 of the edge list edges", 'The line is "build $x: cxx".']),
    ("an edge list that is cut off", edged(b"build a: c"), "edges: line 1: N6 Truncated",
     ["N6 Truncated: line 1 of the edge list edges", 'The line is "build a: c".']),
    *[(f"edges with {error}", edged(edges),
       error, [error.replace(" ", ": ", 2).replace(": ", " ", 1),
               "The edge list is edges, and the dyndep file is t.dd."]) for error, edges
      in [("E1 ProducedTwice obj/b.o", EDGES + b"build obj/b.o: cp x\n"),
          ("E2 DyndepNotInput c.o", EDGES + edge(b"c.o: cxx c.cpp")),
          ("E5 NotBound obj/b.o", edge(b"obj/a.o: cxx a.cpp || t.dd") + b"build obj/b.o: cxx\n"),
          ("E6 NotMentioned c.o", EDGES + edge(b"c.o: cxx || t.dd")),
          ("E7 AddedTwice mod/B.bmi", EDGES + b"build mod/B.bmi: cp x\n"),
          ("E4 StatementTwice obj/b.o", edge(b"obj/a.o obj/b.o: cxx || t.dd"))]],
    ("edges in a cycle", edged(edge(b"obj/a.o: cxx || t.dd") + edge(b"obj/b.o: cxx gen.h || t.dd")
                               + b"build gen.h: gen obj/a.o\n"),
     "cycle obj/a.o -> obj/b.o -> gen.h",
     ["cycle: obj/a.o -> obj/b.o -> gen.h -> obj/a.o",
      "obj/a.o needs obj/b.o; obj/b.o needs gen.h; gen.h needs obj/a.o.",
      "The edge list is edges."]),
    ("edges of a target of a project",
     project(_1_json=target(b',"scans":["1.ddi"],"linked":["base.json"],"edges":"edges"', b"app"),
             _edges=b"rule cc\n"), "target 1: edges: line 1: E3 Form",
     ["E3 Form: line 1 of the edge list edges of target app (1.json)", 'The line is "rule cc".']),

    ("a missing scan", {"t.target.json": target(SCANS), "a.ddi": A_B}, "cannot read b.ddi",
     ["cannot read: b.ddi (scan 1)", "No such file or directory."]),
    ("a scan with a like name", {"t.target.json": target(b',"scans":["main.ddi"]'), "main.dd1": B},
     "cannot read main.ddi",
     ["cannot read: main.ddi (scan 0)", "No such file or directory.", "There is main.dd1."]),
    ("a directory", {"t.target.json": target(b',"scans":["sub"]'), "sub/x": b""},
     "cannot read sub", ["cannot read: sub (scan 0)", "Is a directory."]),
    ("a directory that is missing", of(B, SCANS + b',"map":"gcc"'), "cannot write obj/a.o.modmap",
     ["cannot write: obj/a.o.modmap", "obj: No such file or directory."]),
    ("a directory in place of a file", of(B) | {"t.dd/x": b""}, "cannot write t.dd",
     ["cannot write: t.dd", "Is a directory."]),
]


def document_of(files):
    return "project.json" if "project.json" in files else "t.target.json"


def environment_with(**more):
    return os.environ | {"DYNCOLLATE": program.PROGRAM} | more


class Explained(Case):
    seconds = 0.3

    def explain(self, *words, line=None, **environment):
        """The status and the lines of the script; it prints nothing on standard error."""
        status, out, err = run_apart(sys.executable, EXPLAIN, *words, input=line,
                                     env=environment_with(**environment))
        self.assertEqual(err, "")
        return status, out.splitlines()


@each(CASES, lambda case: f"{case[2].partition(': ')[2] or case[2]}: {case[0]}"[:90])
class Errors(Explained):
    def check(self, case):
        """The program reports the error, and the script explains it, by calling the program again
        or by the line. It changes no file."""
        _, files, error, wanted = case
        name = document_of(files)
        for file, text in files.items():
            write(file, text)
        status, lines = self.explain(name)
        self.same(tree(), {os.fsencode(it): text for it, text in files.items()},
                  "the files after the explanation")
        found = self.caller.run("project" if name == "project.json" else "collate", name)
        self.same(found, (3 if error.startswith("cannot") else 1, b"",
                          b"dyncollate: %s\n" % error.encode()))
        self.assertEqual(status, found[0])
        self.assertTrue(2 <= len(lines) <= 5, lines)
        self.assertEqual(lines[:-1], wanted[:1] + [f"  {it}" for it in wanted[1:]])
        self.assertEqual(lines[-1], "  " + advice(error))
        if not error.startswith("cannot write"):
            self.assertEqual(self.explain(name, "-", line=found[2].decode()), (status, lines))


def advice(error):
    """The table's texts, looked up in another way than the script does."""
    codes = [" ".join(it) for it in re.findall(r"\b([NYSMEK]\d+) (\w+)", error)]
    return " ".join(MEANINGS[it] for it in codes
                    or [next(it for it in MEANINGS if it.split()[:2] == error.split()[:2]
                             or it.split()[0] == error.split()[0] == "cycle")])


class Meanings(Case):
    def test_codes(self):
        """Each code is in one case at least that names a file,
        except for those that no collation reports."""
        explained = {code for case in CASES for code in re.findall(r"\b[NYSMEK]\d+\b", case[2])}
        listed = re.findall(r"\b[NYSMEK]\d+\b", " ".join(MEANINGS))
        of_paths_and_lines = {"N2", "N3", "N4", "N5", "N7", "N8", "N10"}
        of_other_commands = {f"Y{it}" for it in range(1, 17)} - {"Y2"} | {"K4", "E8", "E9"}
        self.assertEqual(set(listed) - explained, of_paths_and_lines | of_other_commands)

    def test_as_it_is_printed(self):
        """mandoc prints the same texts."""
        if not shutil.which("mandoc"):
            self.skipTest("mandoc: not there")
        printed = re.sub(r".\x08", "", output_of("mandoc", "-T", "utf8", "-O", "width=999",
                                                 TOP / "docs/dyncollate.1"))
        self.assertGreater(len(MEANINGS), 60)
        for name, text in MEANINGS.items():
            text = re.sub("`([^`]*)`", "‘\\1’", text)
            self.assertIn(re.sub(r"\s+", " ", f" {name} {text} "), re.sub(r"\s+", " ", printed))


def script():
    """The script as a module, without what its modules remember of other documents."""
    from importlib import machinery, util
    loader = machinery.SourceFileLoader("explain", str(EXPLAIN))
    loaded = util.module_from_spec(util.spec_from_loader("explain", loader))
    for name in [it for it in sys.modules if it.startswith("explain_")]:
        del sys.modules[name]
    sys.path[:] = [it for it in sys.path if it != str(EXPLAIN.parent)]
    loader.exec_module(loaded)
    return loaded


EXPLAINED = [row for row in all_rows()
             if embedded.is_asked(row) and row.words[0] in ("collate", "project")
             and sum(map(len, row.texts().values())) < 1 << 20]


@each(EXPLAINED, lambda row: row.name[:90])
class Rows(Case):
    """Each error of a row is explained in two to five lines, and a row without an error has none.
    No file is written or changed."""

    def check(self, row):
        lay(row.texts())
        before, said = tree(), io.StringIO()
        explain = script()
        name = next(it for it in row.words[1:] if it != "--")
        with mock.patch.dict(os.environ,
                             {"DYNCOLLATE": program.PROGRAM}), contextlib.redirect_stdout(said):
            status = explain.main([f"./{name}" if name.startswith("-") else name])
        self.same(tree(), before)
        lines = said.getvalue().splitlines()
        if row.status == 0 and row.why.startswith("the last of two info files of one name counts"):
            self.assertEqual(
                (status, "`info` of target t1 (1.json), 0.info, is also `info` of" in lines[0]),
                (1, True))
        elif row.status == 0:
            self.assertEqual((status, lines[0].split(" has ")[-1]),
                             (1, "no error now. Run the step again."))
        else:
            self.assertEqual(status, row.status)
            self.assertTrue(2 <= len(lines) <= 5, lines)
            self.assertIn(re.search(rb"[NYSMEK]\d+ \w+|cannot read|cycle", row.line)[0].decode(),
                          lines[0])
            self.assertTrue(len(lines) > 2
                            or lines[1] != "  `man dyncollate` describes this error.", lines)


class Runs(Explained):
    def test_no_error(self):
        """It says so, ends with status 1, and writes nothing, also if files are there and with an
        edge list of its own."""
        for more, edges in ((SCANS, b""), (SCANS + b',"edges":"edges","restat":true', EDGES),
                            (SCANS + b',"edges":"edges"', EDGES + b"# $\n")):
            files = of(B, more) | {"edges": edges, "t.dd": b"old", "t.target.json.old": b"old"}
            lay(files)
            before = {name: os.stat(name).st_mtime_ns for name in files}
            self.assertEqual(self.explain("t.target.json"),
                             (1, ["t.target.json has no error now. Run the step again."]))
            self.assertEqual({name: os.stat(name).st_mtime_ns for name in os.listdir()}, before)
        for file, text in project().items():
            write(file, text)
        self.assertEqual(self.explain("project.json"),
                         (1, ["project.json has no error now. Run the step again."]))
        self.assertFalse(os.path.exists("base.dd"))

    def test_a_scan_document(self):
        write("a.ddi", sources(b"obj/a.o|A|B", b"obj/b.o|BB|"))
        self.assertEqual(self.explain("a.ddi")[1][:2],
                         ["M5 ModuleUnknown: obj/a.o imports B, and nothing provides it",
                          "  obj/a.o is rule 0 of a.ddi."])
        write("a.ddi", b"")
        self.assertEqual(self.explain("a.ddi")[1][:2],
                         ["S1 NotJson: a.ddi (scan 0)", "  The file is empty."])

    def test_a_line_among_others(self):
        """The last line of dyncollate counts. A line that names the document in place of its number
        is that of dyncollate-cmake."""
        for file, text in of(b"").items():
            write(file, text)
        for line in ("dyncollate: usage\nFAILED: x\ndyncollate: scan 1: S1 NotJson document\n"
                     "ninja: stopped\n", "dyncollate: b.ddi: S1 NotJson document\n"):
            self.assertEqual(self.explain("t.target.json", "-", line=line)[1][1:],
                             ["  The file is empty.", "  " + advice("S1 NotJson document")])

    def test_colour(self):
        """On a terminal, except for NO_COLOR and a dumb one; never in a pipe."""
        for file, text in of(b"").items():
            write(file, text)
        for environment, has in (({"TERM": "xterm"}, True), ({"TERM": "xterm", "NO_COLOR": "1"},
                                                             False), ({"TERM": "dumb"}, False)):
            ours, theirs = pty.openpty()
            run_apart(sys.executable, EXPLAIN, "t.target.json", stdout=theirs,
                      env=environment_with(**{"NO_COLOR": ""} | environment))
            os.close(theirs)
            self.assertEqual(b"\x1b[1;31mS1 NotJson\x1b[0m: b.ddi" in os.read(ours, 1 << 16), has,
                             environment)
            os.close(ours)
        self.assertNotIn("\x1b", "".join(self.explain("t.target.json", TERM="xterm")[1]))

    def test_words(self):
        """A call that cannot explain anything says why, in one line,
        and ends with a status other than 0."""
        write("t.target.json", target())
        for words, text, status, environment in [
                (["--no"],
                 "usage: dyncollate-explain [--page PAGE] [FILE [-] | DIRECTORY]; --help says more",
                 2, {}),
                (["t.target.json", "x"],
                 "usage: dyncollate-explain [--page PAGE] [FILE [-] | DIRECTORY]; --help says more",
                 2, {}),
                (["t.target.json", "-"], "standard input has no line of dyncollate", 1, {}),
                (["t.target.json"],
                 "./none is not there; the environment variable DYNCOLLATE may name another "
                 "program", 1, {"DYNCOLLATE": "./none"}),
                (["t.target.json"], "false ended with status 1 and no line", 1,
                 {"DYNCOLLATE": "false"})]:
            self.assertEqual(run_apart(sys.executable, EXPLAIN, *words,
                                       env=environment_with(**environment)),
                             (status, "", f"dyncollate-explain: {text}\n"))

    def test_installed(self):
        """./install puts the script into bin,
        and its modules and the table into share/dyncollate."""
        os.makedirs("bin")
        shutil.copy(EXPLAIN, "bin")
        shutil.copytree(EXPLAIN.parent, "share/dyncollate",
                        ignore=shutil.ignore_patterns("dyncollate-explain", "__pycache__"))
        write("t.target.json", b"")
        printed = run(sys.executable, "bin/dyncollate-explain", "t.target.json",
                      env=environment_with())[1]
        self.assertEqual(printed.splitlines()[-1].strip(), advice("S1 NotJson"))
