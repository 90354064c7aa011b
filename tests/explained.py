"""dyncollate-explain on whole builds: the line of a source, modules that may be meant, files that
are no target document, and directories."""
import json
import os
import sys
import time

from tests import embedded
from tests.case import each, tree, write
from tests.explain import EXPLAIN, MEANINGS, Explained, advice, environment_with
from tests.program import PROGRAM
from tests.rows.forms import info, module, sources, target
from tests.run import run, run_apart
from tests.side_by_side import side_by_side

load_tests = side_by_side

ONE_SCAN = b',"scans":["a.ddi"]'
USES_B = {"t.target.json": target(ONE_SCAN), "a.ddi": sources(b"obj/a.o|A|B")}
HEAD = "M5 ModuleUnknown: obj/a.o imports B, and nothing provides it"


def commands(**source_of):
    """A compile_commands.json: the objects obj/NAME.o of these sources."""
    return json.dumps([{"directory": os.path.abspath("."), "file": source, "command":
                        f"c++ -c {source} -o obj/{name}.o"} for name,
                        source in source_of.items()]).encode()


def imports(path, provides=b"", *requires, name=b"obj/a.o"):
    return {"compile_commands.json": lambda: commands(a="a.cpp"), "t.target.json": target(ONE_SCAN),
            "a.cpp": path, "a.ddi": sources(b"%s|%s|%s" % (name, provides, b" ".join(requires)))}


def cycle(count):
    """A target whose sources import each other in a cycle."""
    names = [b"m%d" % it for it in range(count)]
    scan = sources(*(b"obj/%s.o|%s|%s" % (one, one, other) for one, other in zip(names,
    names[1:] + names[:1])))
    return {"t.target.json": target(ONE_SCAN), "a.ddi": scan}


def cycle_with_sources(count):
    names = [f"m{it}" for it in range(count)]
    listed = {it: f"{it}.cpp" for it in names}
    return cycle(count) | {"compile_commands.json": lambda: commands(**listed)} | {
        f"{one}.cpp": f"export module {one};\nexport import {other};\n".encode()
        for one, other in zip(names, names[1:] + names[:1])}


BASE = {"base.target.json": target(b',"scans":["base.ddi"]', b"base"),
"base.ddi": sources(b"obj/base.o|B|")}
# Why, the files, the words, the status and the lines without the last, which has the meaning.
CASES = [
    # ---- the line of a source
    ("an import", imports(b"int x;\nimport B;\n", b"", b"B"), ["t.target.json"], 1,
     [HEAD, "a.cpp:2:8: imports B", "  obj/a.o is in a.ddi."]),
    ("an import that is exported, after spaces and with an attribute",
     imports(b"module;\n\nexport module A;\n\texport  import   B [[x]];", b"A", b"B"),
     ["t.target.json"], 1,
     [HEAD, "a.cpp:4:19: imports B", "  obj/a.o is in a.ddi."]),
    ("imports in comments and texts", imports(
        b'// import B;\n/* import B;\n*/ auto a = "import B;"; auto b = R"x(\nimport B;)x";\n'
        b"import B;\n", b"", b"B"),
     ["t.target.json"], 1, [HEAD, "a.cpp:5:8: imports B", "  obj/a.o is in a.ddi."]),
    ("a source that implements a module", imports(b"module B;\n", b"", b"B"), ["t.target.json"], 1,
     [HEAD, "a.cpp:1:8: imports B", "  obj/a.o is in a.ddi."]),
    ("a partition", imports(b"export module A;\nimport :part;\n", b"A", b"A:part"),
     ["t.target.json"], 1,
     [HEAD.replace("B", "A:part"), "a.cpp:2:8: imports A:part", "a.cpp:1:15: provides A",
      "  obj/a.o is in a.ddi.", "  A like name is A: obj/a.o provides it."]),
    ("an import by a macro", imports(b"#define X import B;\nX\n", b"", b"C"), ["t.target.json"], 1,
     [HEAD.replace("B", "C"), "  a.cpp has no line that imports C: a header or a macro does.",
      "  obj/a.o is in a.ddi."]),
    ("an import in a header", imports(b'#include "h.h"\n#include "no.h"\n', b"", b"B") | {
        "h.h": b'\n#include "h.h"\nimport B;'}, ["t.target.json"], 1,
     [HEAD, "h.h:3:8: imports B", "  obj/a.o is in a.ddi."]),
    ("an output in its entry", USES_B | {"src/a.cpp": b"import B;",
     "compile_commands.json": json.dumps([
        7, {"file": "a.cpp", "directory": "src", "output": "../obj/a.o"}]).encode()},
        ["t.target.json"], 1,
     [HEAD, "src/a.cpp:1:8: imports B", "  obj/a.o is in a.ddi."]),
    ("arguments in its entry", USES_B | {"a b.cpp": b"import B;",
     "compile_commands.json": json.dumps([
        {"file": "a b.cpp", "directory": ".", "arguments": ["c++", "-o", "obj/a.o",
         "a b.cpp"]}]).encode()},
     ["t.target.json"], 1, [HEAD, "a b.cpp:1:8: imports B", "  obj/a.o is in a.ddi."]),
    ("source-path", USES_B | {"src/a.cpp": b"import B;",
     "a.ddi": b'{"version":1,"rules":[{"work-directory":".",'
                              b'"primary-output":"obj/a.o","provides":[{"logical-name":"A",'
                              b'"source-path":"src/a.cpp"}],'
                              b'"requires":[{"logical-name":"B"}]}]}'}, ["t.target.json"], 1,
     [HEAD, "src/a.cpp:1:8: imports B", "  obj/a.o is in a.ddi."]),
    ("build.ninja", USES_B | {"a b.cpp": b"import B;",
     "build.ninja": b"build obj/a.o | $\n  mod/A.bmi: cxx a$ b.cpp | x\n"},
     ["t.target.json"], 1, [HEAD, "a b.cpp:1:8: imports B", "  obj/a.o is in a.ddi."]),
    ("a header unit", imports(b'#include "h.h"\nimport "inc/h.h";\n', b"", b"") | {
        "a.ddi": sources(b"obj/a.o||./inc/h.h")},
     ["t.target.json"], 1, ["S6 BadName: a.ddi (scan 0)", "a.cpp:2:8: imports ./inc/h.h",
      '  It has rule 0 (obj/a.o) requires 0: {"logical-name": "./inc/h.h"}.']),
    ("a module twice", imports(b"export module A;") | {
        "compile_commands.json": lambda: commands(a="a.cpp", b="b.cpp"),
        "b.cpp": b"\nexport module A;",
        "a.ddi": sources(b"obj/a.o|A|", b"obj/b.o|A|")}, ["t.target.json"], 1,
     ["M3 ProvidedTwice: the module A is provided twice", "a.cpp:1:15: provides A",
      "b.cpp:2:15: provides A",
      "  One is obj/a.o, rule 0 of a.ddi.", "  The other is obj/b.o, rule 1 of a.ddi."]),
    ("a private module", imports(b"import P;", b"", b"P") | {
        "t.target.json": target(ONE_SCAN + b',"linked":["l.json"]'),
        "l.json": info(module(b"P", b"lib/P.pcm", visibility=b"private"), version=2)},
        ["t.target.json"], 1,
     ["M9 ModulePrivate: obj/a.o imports P, which is private to the target l",
      "a.cpp:1:8: imports P",
      "  obj/a.o is in a.ddi.", "  l.json has it as private."]),
    ("a cycle of two", cycle_with_sources(2), ["t.target.json"], 1,
     ["M8 ImportCycle: m0 -> m1 -> m0", "m0.cpp:2:15: imports m1", "m1.cpp:2:15: imports m0"]),
    ("a cycle of 40", cycle(40), ["t.target.json"], 1,
     ["M8 ImportCycle: m0 -> m1 -> m2 -> m3 -> m4 -> .. 35 more .. -> m0",
      "  obj/m0.o imports m1 of obj/m1.o; obj/m1.o imports m2 of obj/m2.o; obj/m2.o imports m3 of "
      "obj/m3.o; "
      "obj/m3.o imports m4 of obj/m4.o; obj/m4.o imports m5 of obj/m5.o; .. 34 more ..; "
      "obj/m39.o imports m0 of obj/m0.o."]),
    ("a cycle of 40 with sources", cycle_with_sources(40), ["t.target.json"], 1,
     ["M8 ImportCycle: m0 -> m1 -> m2 -> m3 -> m4 -> .. 35 more .. -> m0",
      *(f"m{it}.cpp:2:15: imports m{it + 1}" for it in range(4)), "  .. and 36 more imports."]),

    # ---- what may be meant
    ("a short name with letters in another order", USES_B | {"a.ddi": sources(b"obj/a.o|sum|",
     b"obj/b.o||smu")},
     ["t.target.json"], 1, ["M5 ModuleUnknown: obj/b.o imports smu, and nothing provides it",
                            "  obj/b.o is rule 1 of a.ddi.",
                            "  A like name is sum: obj/a.o provides it."]),
    ("a module that has only a partition", USES_B | {"a.ddi": sources(b"obj/a.o|shape:impl|",
     b"obj/b.o||shape")},
     ["t.target.json"], 1, ["M5 ModuleUnknown: obj/b.o imports shape, and nothing provides it",
                            "  obj/b.o is rule 1 of a.ddi.",
                            "  A like name is shape:impl: obj/a.o provides it."]),
    ("another case", USES_B | {"a.ddi": sources(b"obj/a.o|Net|", b"obj/b.o||net")},
     ["t.target.json"], 1,
     ["M5 ModuleUnknown: obj/b.o imports net, and nothing provides it",
      "  obj/b.o is rule 1 of a.ddi.",
      "  A like name is Net: obj/a.o provides it."]),
    *[(f"import {name}", USES_B | {"a.ddi": sources(b"obj/a.o||" + name.encode())},
         ["t.target.json"], 1,
       [f"M5 ModuleUnknown: obj/a.o imports {name}, and nothing provides it",
        "  obj/a.o is in a.ddi.",
        f"  No target provides {name}. Link one that compiles it, as GUIDE says in "
        '"`import std;`".'])
      for name in ("std", "std.compat")],
    ("a scan without rules", USES_B | {"t.target.json": target(b',"scans":["a.ddi","b.ddi"]'),
     "b.ddi": sources()},
     ["t.target.json"], 1, [HEAD, "  obj/a.o is in a.ddi.",
      "  b.ddi (of target t (t.target.json)) has no rules, as after a scan that failed."]),
    ("a scan without rules of a linked target", USES_B | BASE | {
        "base.ddi": sources(), "base.json": info(target=b"base"),
        "t.target.json": target(ONE_SCAN + b',"linked":["base.json"]')}, ["t.target.json"], 1,
     [HEAD, "  obj/a.o is in a.ddi.",
      "  base.ddi (of target base (base.target.json)) has no rules, as after a scan that failed."]),
    ("a scan that is not listed", USES_B | {"b.ddi": sources(b"obj/b.o|B|")}, ["t.target.json"], 1,
     [HEAD, "  obj/a.o is in a.ddi.",
      "  b.ddi provides it, and scans of t.target.json does not list it."]),
    ("a member that is misspelt", USES_B |
     {"t.target.json": target(ONE_SCAN + b',"linkd":["base.json"]')},
     ["t.target.json"], 1, [HEAD, "  obj/a.o is in a.ddi.",
      "  t.target.json has the member linkd, which is ignored, and linked may be meant."]),
    ("a required member that is misspelt", {"t.target.json": target().replace(b"module-dir",
     b"modul-dir")},
     ["t.target.json"], 1, ["S3 BadShape: t.target.json", "  It is missing: member module-dir.",
                            "  It has the member modul-dir.", "  `module-dir` is a string."]),
    ("a required member that is missing", {
        "t.target.json": target().replace(b'"module-dir":"mod",', b"")}, ["t.target.json"], 1,
     ["S3 BadShape: t.target.json", "  It is missing: member module-dir.",
      "  `module-dir` is a string."]),
    ("a lookup method", USES_B |
     {"a.ddi": b'{"version":1,"rules":[{"primary-output":"a","requires":[{"logical-name":'
                                  b'"B","lookup-method":"x"}]}]}'}, ["t.target.json"], 1,
     ["S3 BadShape: a.ddi (scan 0)", '  It has rule 0 (a) requires 0 member lookup-method: "x".',
      "  `lookup-method` is one of by-name, include-angle, include-quote."]),
    ("an info file that is not there yet", USES_B | BASE |
     {"t.target.json": target(ONE_SCAN + b',"linked":["base.json"]')},
     ["t.target.json"], 3, ["cannot read: base.json (info 0)", "  No such file or directory.",
      "  base.target.json writes it, so it has to be an input of this step in the Ninja file."]),
    ("a scan that Ninja makes", {"t.target.json": target(ONE_SCAN),
     "build.ninja": b"build a.ddi: scan a.cpp\n"},
     ["t.target.json"], 3, ["cannot read: a.ddi (scan 0)", "  No such file or directory.",
      "  `ninja a.ddi` makes it."]),
    ("another directory", {f"out/{name}": text for name, text in USES_B.items()},
     ["out/t.target.json"], 3,
     ["cannot read: a.ddi (scan 0)", "  No such file or directory.",
      "  There is out/a.ddi: the names in out/t.target.json are for the directory out."]),

    ("a dyndep file without a name", {"t.target.json": target(b',"dyndep":"a/.."')},
     ["t.target.json"], 1, ["S7 BadPath: t.target.json", '  Its dyndep is "a/..".']),
    ("a name of a private module", {"t.target.json": target(b',"private":["A B"]')},
     ["t.target.json"], 1,
     ["S6 BadName: t.target.json", '  Its target is "t".', '  Its private is ["A B"].']),
    ("an empty string", {"t.target.json": target(b',"info":""')}, ["t.target.json"], 1,
     ["S3 BadShape: t.target.json", '  It has member info: "".',
      "  `info` is a string that is not empty."]),
    ("a relative directory", {"t.target.json": target(b',"build-dir":"b"')}, ["t.target.json"], 1,
     ["S3 BadShape: t.target.json", '  It has member build-dir: "b".',
      "  `build-dir` is a string that begins with /."]),

    ("a scan that is listed twice", USES_B | {
        "t.target.json": target(b',"scans":["a.ddi","a.ddi"]')}, ["t.target.json"], 1,
      ["M1 ObjectTwice: obj/a.o is the object of 2 rules",
      "  They are in a.ddi, which is listed twice."]),

    # ---- other files
    ("a scan of a target", USES_B, ["a.ddi"], 1,
     [HEAD, "  a.ddi is scan 0 of the target t (t.target.json).", "  obj/a.o is in a.ddi."]),
    ("an info file that is written", USES_B, ["t.json"], 1,
     [HEAD, "  t.json is `info` of the target t (t.target.json).", "  obj/a.o is in a.ddi."]),
    ("a dyndep file", USES_B, ["t.dd"], 1,
     [HEAD, "  t.dd is `dyndep` of the target t (t.target.json).", "  obj/a.o is in a.ddi."]),
    ("an info file that is damaged", BASE | {"base.json": b"",
     "t.target.json": target(b',"linked":["base.json"]')},
     ["base.json"], 1, ["S1 NotJson: base.json (info 0)",
      "  base.json is info 0 of the target t (t.target.json).", "  The file is empty."]),
    ("an info file alone", {"l.json": info(version=7)}, ["l.json"], 1,
     ["S2 BadVersion: l.json (info 0)", "  Its version is 7."]),
    ("a dyndep file alone", {"t.dd": b"ninja_dyndep_version = 1\nbuild a.o: cxx\n"}, ["t.dd"], 1,
     ["Y11 BadRule: line 2 of t.dd", '  The line is "build a.o: cxx".']),
    ("an edge list alone", {"edges": b"build a.o: cxx\nrule cxx\n"}, ["edges"], 1,
     ["E3 Form: line 2 of edges", '  The line is "rule cxx".']),
    ("an edge list in a cycle", {"edges": b"build a: x b\nbuild b: x a\n"}, ["edges"], 1,
     ["cycle: a -> b -> a", "  a needs b; b needs a."]),
    ("a manifest", USES_B | {"build.ninja": b""}, ["build.ninja"], 1, [HEAD,
     "  obj/a.o is in a.ddi."]),

    # ---- directories
    ("this directory", USES_B | BASE, [], 1,
     [HEAD, "  obj/a.o is in a.ddi.",
      "  the target base provides it, and base.json is not in linked of t.target.json."]),
    ("another directory's build", {f"out/{name}": text for name, text in imports(b"import B;", b"",
     b"B").items()
                                   if name != "compile_commands.json"} | {
        "out/build.ninja": b"build obj/a.o: cxx a.cpp\n"}, ["out"], 1,
     [HEAD, "out/a.cpp:1:8: imports B", "  obj/a.o is in a.ddi."]),
    ("a target below a directory, in the order of links", {
        "x/a.target.json": target(b',"linked":["b.json"]', b"a"),
        "x/b.target.json": target(b',"scans":["no.ddi"]', b"b")}, ["."], 3,
     ["cannot read: no.ddi (scan 0)", "  No such file or directory."]),
    ("a target document that is cut off", {"t.target.json": target()[:20]}, [], 1,
     ["S1 NotJson: t.target.json",
      "  Line 1, column 14: Unterminated string starting at. The file ends there, so it was "
      "cut off."]),
    ("an info file of the target that is out of date", USES_B | {
        "t.json": info(module(b"B", b"b.bmi"), target=b"t")}, ["."], 1,
     [HEAD, "  obj/a.o is in a.ddi."]),
    ("a project", {"p.json": b'{"version":1,"targets":["t.target.json"]}', **USES_B}, [], 1,
     [HEAD.replace(":", " of target t (t.target.json):"), "  obj/a.o is in a.ddi."]),

    # ---- what a document may not do
    ("maps that differ", BASE | {
        "p.json": b'{"version":1,"targets":["base.target.json","t.target.json"]}',
        "t.target.json": target(b',"map":"gcc"')},
     ["p.json"], 1, ["S3 BadShape: t.target.json",
      '  It has member map: "gcc", and the first target base '
                     "(base.target.json) has null.", "  All targets of a project have the same."]),
    *[(f"{what}: {why}", {"t.target.json": target(ONE_SCAN),
         "a.ddi": b'{"version":1,\n "a":[1, %s],"rules":[]}' % value},
       ["t.target.json"], 1, ["S1 NotJson: a.ddi (scan 0)", f"  Line 2, column {column}: {why}."])
      for what, value, why, column in [
        ("NaN", b"NaN", "NaN is not JSON", 10), ("Infinity", b"-Infinity", "-Infinity is not JSON",
         10),
        ("1e400", b"1e400", "the number is too large", 10), ("half a pair", rb'"x\ud800"',
         "half of a surrogate pair", 12)]],
    ("control bytes", USES_B |
     {"a.ddi": b'{"version":1,"rules":[{"primary-output":"obj/\\u001b[31m\\u0007.o",'
               b'"requires":7}]}'},
     ["t.target.json"], 1, ["S3 BadShape: a.ddi (scan 0)",
      "  It has rule 0 (obj/?[31m?.o) member requires: 7.",
                            "  `requires` is an array."]),
    ("a dyndep file with the name of a scan", {
        "t.target.json": target(b',"scans":["t.dd"]'), "t.dd": sources()}, ["t.target.json"], 1,
     ["t.target.json: `dyndep` of target t (t.target.json), t.dd, is also scan 0"]),
    ("a scan that a run has replaced", {
        "t.target.json": target(b',"scans":["./t.dd"]'), "t.dd": b"ninja_dyndep_version = 1\n"},
        ["t.target.json"], 1,
     ["S1 NotJson: ./t.dd (scan 0)", "  It is a dyndep file.",
      "  `dyndep` of target t (t.target.json), t.dd, is also scan 0."]),
    ("a map with the name of an info file", {
        "t.target.json": target(ONE_SCAN + b',"map":"gcc","info":"a.o.modmap"'),
        "a.ddi": sources(b"a.o||")},
     ["t.target.json"], 1,
      ["t.target.json: `info` of target t (t.target.json), a.o.modmap, is also the map of a.o"]),
    ("two targets of a project with the same dyndep file", BASE | {
        "p.json": b'{"version":1,"targets":["base.target.json","t.target.json"]}',
        "t.target.json": target(b',"dyndep":"base.dd"')}, ["p.json"], 1,
     ["p.json: `dyndep` of target t (t.target.json), base.dd, is also `dyndep` of "
      "target base (base.target.json)"]),
]
LAST = {"a/..": advice("S7 BadPath document N1 Empty"),
        "json: `": "A run would replace it. Give each file its own name."}


@each(CASES, lambda case: case[0])
class Builds(Explained):
    def check(self, case):
        """The lines, and the meaning of the error as the last one. No file is changed."""
        _, files, words, wanted_status, wanted = case
        for name, text in files.items():
            write(name, text() if callable(text) else text)
        before = tree()
        status, lines = self.explain(*words)
        self.same(tree(), before)
        self.assertEqual(lines[:-1], wanted)
        last = next((text for part, text in LAST.items() if part in " ".join(wanted)), None)
        self.assertEqual(lines[-1], "  " + (last or advice(" ".join(wanted[:2]).replace(":",
        "").strip())))
        self.assertEqual(status, wanted_status)


class Runs(Explained):
    def lay(self, files):
        for name, text in files.items():
            write(name, text() if callable(text) else text)

    def test_a_source_that_has_changed(self):
        self.lay(imports(b"", b"", b"B"))
        os.utime("a.cpp", (time.time() + 9, time.time() + 9))
        self.assertEqual(self.explain("t.target.json")[1][1],
                         "  a.cpp has no line that imports B: it has changed since its scan.")

    def test_an_absolute_name(self):
        """A file has two names, as in a CMake build."""
        path = os.path.abspath("base.json")
        self.lay(BASE | {"t.target.json": target(b',"linked":["%s"]' % os.fsencode(path))})
        self.assertEqual(self.explain("t.target.json"), (3, [
            f"cannot read: {path} (info 0)", "  No such file or directory.",
            "  base.target.json writes it, so it has to be an input of this step in the Ninja "
            "file.",
            "  " + advice("cannot read")]))

    def test_a_build_without_an_error(self):
        self.lay(BASE | {"x/y.json": b"{}", "obj/x": b""})
        self.assertEqual(self.explain(), (1,
        ["No target of this build has an error now. Run the step again."]))

    def test_no_build(self):
        os.mkdir("x")
        self.assertEqual(run_apart(sys.executable, EXPLAIN, "x", env=environment_with()),
                         (1, "",
                          "dyncollate-explain: there is no target document in x or below it\n"))

    def test_standard_output(self):
        """It is no file; the line of a run that could not write it is explained by its meaning."""
        self.lay(USES_B)
        self.assertEqual(self.explain("a.ddi", "-",
        line="dyncollate: cannot write standard output\n"), (
            3, ["cannot write standard output", "  " + MEANINGS["cannot write standard output"]]))

    def test_version_and_help(self):
        version = (EXPLAIN.parent.parent / "VERSION").read_text()
        self.assertEqual(self.explain("--version"), (0, [f"dyncollate-explain {version}".strip()]))
        for word in "--help", "-h":
            status, lines = self.explain(word)
            self.assertEqual((status, lines[0][:4]), (0, "Says"))

    @embedded.needs_tools("bwrap")
    def test_a_full_disk(self):
        """The error is named, also if the run that failed was another one, and if nothing can be
        written to the directory of temporary files."""
        self.lay(BASE)
        script = "cp /srv/* . && head -c 9999999 /dev/zero > full; $0 collate base.target.json; "
        within = ["bwrap", "--ro-bind", "/", "/", "--dev", "/dev", "--proc", "/proc", "--size",
        "200000", "--tmpfs",
                  "/mnt", "--bind", os.getcwd(), "/srv", "--chdir", "/mnt", "--setenv", "TMPDIR",
                  "/mnt", "sh", "-c"]
        if run(*within, "true")[0]:
            self.skipTest("bwrap is not allowed")
        status, printed = run(*within, script + "$1 $2 base.target.json", PROGRAM, sys.executable,
        EXPLAIN,
                              env=environment_with())
        self.assertEqual((status, printed.splitlines()[-4:]), (3, [
            "dyncollate: cannot write base.json", "cannot write: base.json",
            "  .: No space left on device.",
            "  " + advice("cannot write")]))
