"""Builds that are each broken in one way, in Ninja: the step fails, and dyncollate-explain names
the file that is at fault, and the line of a source if a source is.

    python3 -m tests.broken_builds      prints a table of them, with what is said of each
"""
import os
import re
import sys
from collections import namedtuple
from pathlib import Path

from tests import builds, page_builds
from tests.case import each
from tests.explain import EXPLAIN, advice
from tests.run import run_apart
from tests.side_by_side import side_by_side

load_tests = side_by_side

# What is wrong; the edits, of which each is a file, a text in it or None, and what is put there;
# what is said before the meaning of the error; the form of the build, the outputs that are asked
# for, and edits after the step has failed.
Build = namedtuple("Build", "why edits says form outputs later")

LISTED = "src/math/sum.cppm src/math/sum.cpp src/math/detail.cppm"
MAIN, SUM, SUM_CPP, DETAIL, NUMBER, NUMBER_CPP = PATHS = (
    "src/app/main.cpp", "src/math/sum.cppm", "src/math/sum.cpp", "src/math/detail.cppm",
    "src/base/number.cppm", "src/base/number.cpp")
APP, MATH, BASE = (f"dd/{it}.target.json" for it in ("app", "math", "base"))
RULES = re.compile(r'"rules": \[.*\]', re.S)


def of(path, form="obj/{}/{}.o"):
    """The object or the scan of a source. Its target is the name of its directory."""
    return form.format(path.split("/")[1], path)


def scan(path):
    return of(path, "scan/{}/{}.ddi")


def broken(why, edits, *says, form="clang", outputs=("dd/app.dd",), later=()):
    return Build(why, edits, [*says], form, outputs, later)


def unknown(path, name, *others, of_target=""):
    """What is said of an import that nothing provides: the places of sources, why there is none,
    the scan, and other lines."""
    places = [it for it in others if re.match(r"[\w/.]+:\d", it)]
    why = [f"  {it}" for it in others if "has no line" in it]
    return [f"M5 ModuleUnknown{of_target}: {of(path)} imports {name}, and nothing provides it",
            *places, *why, f"  {of(path)} is in {scan(path)}.",
            *(f"  {it}" for it in others if it not in places and f"  {it}" not in why)]


def document(why, name, before, after, *says, **more):
    return broken(why, [(name, before, after)], *says, **more)


LIKE_SUM = ["src/math/sum.cppm:1:15: provides sum",
            "A like name is sum: math provides it, by dd/math.info.json."]
# ---- a source is at fault
OF_SOURCES = [
    broken("two letters are swapped", [(MAIN, "import sum;", "import smu;")], *unknown(
        MAIN, "smu", "src/app/main.cpp:2:8: imports smu", *LIKE_SUM)),
    broken("a capital letter", [(MAIN, "import sum;", "import Sum;")], *unknown(
        MAIN, "Sum", "src/app/main.cpp:2:8: imports Sum", *LIKE_SUM)),
    broken("an import with spaces", [(MAIN, "import sum;", "  import   smu ;")], *unknown(
        MAIN, "smu", "src/app/main.cpp:2:12: imports smu", *LIKE_SUM)),
    broken("imports in comments come first", [
        (MAIN, "import sum;", "// import smu;\n/*\nimport smu; */ import smu;")], *unknown(
        MAIN, "smu", "src/app/main.cpp:4:23: imports smu", *LIKE_SUM)),
    broken("an import in a header", [
        (MAIN, "import sum;", '#include "uses.h"'), ("src/app/uses.h", None, "\nimport smu;\n")],
        *unknown(MAIN, "smu", "src/app/uses.h:2:8: imports smu", *LIKE_SUM)),
    broken("an import under a condition", [
        ("targets", MAIN, f"{MAIN} -DTWICE"),
        (MAIN, "import sum;", "#ifdef TWICE\nimport twice;\n#endif\nimport sum;")], *unknown(
        MAIN, "twice", "src/app/main.cpp:3:8: imports twice")),
    broken("an import by a macro", [(MAIN, "import sum;", "#define MODULE smu\nimport MODULE;")],
        *unknown(MAIN, "smu", LIKE_SUM[0],
                 "src/app/main.cpp has no line that imports smu: a header or a macro does.",
                 LIKE_SUM[1])),
    broken("a dot in place of a colon", [(MAIN, "import sum;", "import sum.detail;")], *unknown(
        MAIN, "sum.detail", "src/app/main.cpp:2:8: imports sum.detail",
        "src/math/detail.cppm:1:15: provides sum:detail",
        "A like name is sum:detail: math provides it, by dd/math.info.json.")),
    broken("a partition is not there", [(SUM, ":detail", ":details")], *unknown(
        SUM, "sum:details", "src/math/sum.cppm:4:15: imports sum:details",
        "src/math/sum.cppm:1:15: provides sum", "src/math/detail.cppm:1:15: provides sum:detail",
        f"A like name is sum: {of(SUM)} provides it.",
        f"A like name is sum:detail: {of(DETAIL)} provides it.")),
    broken("a partition has another name", [(DETAIL, "sum:detail", "sum:twice")], *unknown(
        SUM, "sum:detail", "src/math/sum.cppm:4:15: imports sum:detail",
        "src/math/sum.cppm:1:15: provides sum", "src/math/detail.cppm:1:15: provides sum:twice",
        f"A like name is sum: {of(SUM)} provides it.",
        f"A like name is sum:twice: {of(DETAIL)} provides it.")),
    broken("an implementation of no module", [(SUM_CPP, "module sum;", "module sums;")], *unknown(
        SUM_CPP, "sums", "src/math/sum.cpp:1:8: imports sums",
        "src/math/sum.cppm:1:15: provides sum", f"A like name is sum: {of(SUM)} provides it.")),
    broken("a module has another name", [(NUMBER, "module number;", "module numbers;")], *unknown(
        NUMBER_CPP, "number", "src/base/number.cpp:1:8: imports number",
        "src/base/number.cppm:1:15: provides numbers",
        f"A like name is numbers: {of(NUMBER)} provides it.")),
    broken("a library imports its user", [(NUMBER_CPP, "number;", "number;\nimport sum;")],
           *unknown(
               NUMBER_CPP, "sum", "src/base/number.cpp:2:8: imports sum",
               "src/math/sum.cppm:1:15: provides sum",
               f"the target math provides it, and dd/math.info.json is not in linked of {BASE}.")),
    broken("a library is not linked", [("targets", " -- math", "")], *unknown(
        MAIN, "number", "src/app/main.cpp:1:8: imports number",
        "src/base/number.cppm:1:15: provides number",
        f"the target base provides it, and dd/base.info.json is not in linked of {APP}."),
        outputs=("-k0", "dd/base.dd", "dd/app.dd")),
    broken("a source is not listed", [("targets", f" {DETAIL}", "")], *unknown(
        SUM, "sum:detail", "src/math/sum.cppm:4:15: imports sum:detail",
        "src/math/sum.cppm:1:15: provides sum", f"A like name is sum: {of(SUM)} provides it.")),
    *(broken(f"import {name} without its target", [(NUMBER, "number;", f"number;\nimport {name};")],
             *unknown(NUMBER, name, f"src/base/number.cppm:2:8: imports {name}",
                      f"No target provides {name}. Link one that compiles it, as GUIDE says in "
                      '"`import std;`".')) for name in ("std", "std.compat")),
    broken("a partition imports its module",
           [(DETAIL, "import number;", "import number;\nimport sum;")],
           "M8 ImportCycle: sum -> sum:detail -> sum",
           "src/math/sum.cppm:4:15: imports sum:detail", "src/math/detail.cppm:4:8: imports sum"),
    broken("a module imports itself", [(NUMBER, "number;", "number;\nimport number;")],
        "M8 ImportCycle: number -> number", "src/base/number.cppm:2:8: imports number"),
    broken("a cycle of three", [("targets", LISTED, f"{LISTED} a.cppm b.cppm c.cppm"),
                                *((f"{one}.cppm", None, f"export module {one};\nimport {other};\n")
                                  for one, other in ("ab", "bc", "ca"))],
           "M8 ImportCycle: a -> b -> c -> a", "a.cppm:2:8: imports b", "b.cppm:2:8: imports c",
           "c.cppm:2:8: imports a"),
    broken("two sources have one module", [(NUMBER_CPP, "module", "export module")],
           "M3 ProvidedTwice: the module number is provided twice",
           "src/base/number.cppm:1:15: provides number",
           "src/base/number.cpp:1:15: provides number", f"  One is {of(NUMBER)}, {scan(NUMBER)}.",
           f"  The other is {of(NUMBER_CPP)}, {scan(NUMBER_CPP)}."),
    broken("a module of a linked target has a copy", [(DETAIL, "sum:detail;", "number;")],
           "M3 ProvidedTwice: the module number is provided twice",
           "src/math/detail.cppm:1:15: provides number",
           "src/base/number.cppm:1:15: provides number", f"  One is {of(DETAIL)}, {scan(DETAIL)}.",
           "  The other is the target base, by dd/base.info.json."),
    broken("a private module is imported", [(MATH, '"restat"', '"private": ["sum"],\n "restat"')],
        f"M9 ModulePrivate: {of(MAIN)} imports sum, which is private to the target math",
        "src/app/main.cpp:2:8: imports sum", f"  {of(MAIN)} is in {scan(MAIN)}.",
        "  dd/math.info.json has it as private."),
    broken(
        "a linked target imports what is not linked",
        [(MAIN, "import number;\n", ""), (APP, '"dd/base.info.json",', "")],
        "M6 InfoUnknown: the module sum of the target math requires number, and no linked target "
        "provides it", "src/math/sum.cppm:3:15: imports number",
        "src/base/number.cppm:1:15: provides number",
        "  dd/math.info.json says that sum requires it.",
        f"  the target base provides it, and dd/base.info.json is not in linked of {APP}."),
    broken(
        "a source has changed since its scan", [(MAIN, "import sum;", "import smu;")],
        *unknown(MAIN, "smu", LIKE_SUM[0],
                 "src/app/main.cpp has no line that imports smu: it has changed since its scan.",
                 LIKE_SUM[1]), later=[(MAIN, "import smu;", "import sum;")]),
]


def not_json(name, why):
    return f"S1 NotJson: {name}", f"  {why}"


SCAN_0 = f"{scan(MAIN)} (scan 0)"
INFO_0 = "dd/base.info.json (info 0)"
CUT_OFF = "The file ends there, so it was cut off."
EDGES, OF_EDGES = ('"edges": "edges", "restat"',
                   "  The edge list is edges, and the dyndep file is dd/app.dd.")
# ---- a document is at fault
OF_DOCUMENTS = [
    document("a target document is cut off", APP, '"module-dir": "bmi/app"', None, *not_json(
        APP, f"Line 4, column 25: Expecting ',' delimiter. {CUT_OFF}")),
    document("a comma at the end of a target document", APP, '"restat": true', '"restat": true,',
             *not_json(APP,
                       "Line 17, column 1: Expecting property name enclosed in double quotes.")),
    document("a byte-order mark", APP, "{", "\ufeff{", *not_json(
        APP, "The file begins with a byte-order mark (UTF-8). Write it as UTF-8 without one.")),
    document("a version that is not there yet", APP, '"version": 1', '"version": 2',
             f"S2 BadVersion: {APP}", "  Its version is 2."),
    document("no directory for modules", APP, ' "module-dir": "bmi/app",\n', "",
             f"S3 BadShape: {APP}", "  It is missing: member module-dir.",
             "  `module-dir` is a string."),
    document("a map for no compiler", APP, '"map": "clang"', '"map": "msvc"', f"S3 BadShape: {APP}",
             '  It has member map: "msvc".', "  `map` is one of clang, gcc."),
    document("a string in place of a list", APP, f'[\n  "{scan(MAIN)}"\n ]', f'"{scan(MAIN)}"',
             f"S3 BadShape: {APP}", f'  It has member scans: "{scan(MAIN)}".',
             "  `scans` is an array of strings."),
    document("a relative build directory", APP, '"restat"', '"build-dir": "out",\n "restat"',
             f"S3 BadShape: {APP}", '  It has member build-dir: "out".',
             "  `build-dir` is a string that begins with /."),
    document("a member is misspelt", APP, '"linked"', '"linkd"', *unknown(
        MAIN, "number", "src/app/main.cpp:1:8: imports number",
        "src/base/number.cppm:1:15: provides number",
        f"the target base provides it, and dd/base.info.json is not in linked of {APP}.")),
    document("an info file is misspelt", APP, "dd/math.info.json", "dd/maths.info.json",
             "cannot read: dd/maths.info.json (info 1)", "  No such file or directory.",
             "  There is dd/math.info.json."),
    document("a target is linked twice", APP, '"dd/math.info.json"',
             '"dd/math.info.json", "./dd/math.info.json"',
             "M2 InfoTwice: the target math is linked 2 times",
             "  Its info files are dd/math.info.json and ./dd/math.info.json."),
    document(
        "a private module is misspelt", MATH, '"restat"', '"private": ["sums"],\n "restat"',
        f"M10 PrivateUnknown: {MATH} lists sums as private, and no object of the target provides "
        "it", "src/math/sum.cppm:1:15: provides sum", "  Its objects provide sum."),
    document("a space in the directory for modules", MATH, '"bmi/math"', '"my bmi"',
             "K1 MapPath: my bmi/sum.pcm cannot be written into a module map",
             f"  It is the BMI of sum, of {of(SUM)} in {scan(SUM)}.",
             f'  module-dir is "my bmi" in {MATH}.'),
    broken("modules have the names of objects",
           [(BASE, '"bmi/base"', '"obj/base/src/base"'), (BASE, '".pcm"', '".cppm.o"')],
           f"M4 BmiTwice: two things are the file {of(NUMBER)}",
           "src/base/number.cppm:1:15: provides number",
           f"  Both are of {of(NUMBER)}, {scan(NUMBER)}.", "  It is the BMI of number."),
    document("a scan is listed twice", APP, f'"{scan(MAIN)}"', f'"{scan(MAIN)}", "{scan(MAIN)}"',
             f"M1 ObjectTwice: {of(MAIN)} is the object of 2 rules",
             f"  They are in {scan(MAIN)}, which is listed twice."),
    document("a scan is not listed", MATH, f',\n  "{scan(DETAIL)}"', "", *unknown(
        SUM, "sum:detail", "src/math/sum.cppm:4:15: imports sum:detail",
        "src/math/detail.cppm:1:15: provides sum:detail",
        f"{scan(DETAIL)} provides it, and scans of {MATH} does not list it.")),
    document("a dyndep file has the name of a scan", APP, '"dd/app.dd"', f'"{scan(MAIN)}"',
             *not_json(SCAN_0, "It is a dyndep file."),
             f"  `dyndep` of target app ({APP}), {scan(MAIN)}, is also scan 0."),
    document("an info file in no directory", APP, '"dd/app.info.json"', '"none/app.info.json"',
             "cannot write: none/app.info.json", "  none: No such file or directory."),
    document("a scan that is no step's output", APP, scan(MAIN), "scan/main.ddi",
             "cannot read: scan/main.ddi (scan 0)", "  No such file or directory."),
    document("a scanner that was stopped", scan(MAIN), None, "",
             *not_json(SCAN_0, "The file is empty.")),
    document("a scan is cut off", scan(MAIN), '"rules"', None, *not_json(
        SCAN_0, f"Line 3, column 10: Expecting ':' delimiter. {CUT_OFF}")),
    document("a scan after a crash of the system", scan(MAIN), None, "\0" * 99, *not_json(
        SCAN_0, "The file has only zero bytes, as after a crash of the system.")),
    document("a scan in UTF-16", scan(MAIN), None, "{}".encode("utf-16"), *not_json(
        SCAN_0, "The file begins with a byte-order mark (UTF-16). Write it as UTF-8 without one.")),
    document("a scan with NaN", scan(MAIN), '"revision": 0', '"revision": NaN', *not_json(
        SCAN_0, "Line 2, column 15: NaN is not JSON.")),
    document("a scan of a later version", scan(MAIN), '"version": 1', '"version": 9',
             f"S2 BadVersion: {SCAN_0}", "  Its version is 9."),
    document("a scan without rules", scan(SUM), RULES, '"rules": []', *unknown(
        SUM_CPP, "sum", "src/math/sum.cpp:1:8: imports sum",
        "src/math/detail.cppm:1:15: provides sum:detail",
        f"{scan(SUM)} (of target math ({MATH})) has no rules, as after a scan that failed.",
        f"A like name is sum:detail: {of(DETAIL)} provides it.")),
    document("a scan without the member rules", scan(MAIN), '"rules"', '"ruls"',
             f"S3 BadShape: {SCAN_0}", "  It is missing: member rules.",
             "  It has the member ruls.", "  `rules` is an array."),
    document("a scan of no object", scan(MAIN), '"primary-output"', '"primary"',
             f"S4 NoPrimaryOutput: {SCAN_0}"),
    document("a header unit", scan(MAIN), '"sum"', '"sum", "lookup-method": "include-angle"',
             f"S5 HeaderUnit: {SCAN_0}"),
    document("a name with a space", scan(MAIN), '"sum"', '"s um"', f"S6 BadName: {SCAN_0}"),
    document("an object without a name", scan(MAIN), of(MAIN), "obj/..", f"S7 BadPath: {SCAN_0}"),
    document("an info file is empty", "dd/base.info.json", None, "",
             *not_json(INFO_0, "The file is empty.")),
    document("an info file of a later version", "dd/base.info.json", '"version":2', '"version":9',
             f"S2 BadVersion: {INFO_0}", "  Its version is 9."),
    document("an info file with another BMI", "dd/math.info.json", "bmi/base/number.pcm",
             "bmi/number.pcm",
             "M7 InfoDisagrees: two info files have different BMIs of the module number",
             "  dd/math.info.json (target math, module sum) has bmi/number.pcm.",
             "  dd/base.info.json (target base) has bmi/base/number.pcm."),
    broken("an info file is no input of the step", [
        ("build.ninja", re.compile("(?<=collate dd/app.target.json).*"), f" | {scan(MAIN)}")],
           "cannot read: dd/base.info.json (info 0)", "  No such file or directory.",
           f"  {BASE} writes it, so it has to be an input of this step in the Ninja file."),
    *(broken(f"the edge list has {why}", [(APP, '"restat"', EDGES), ("edges", None, text)], *says)
      for why, text, *says
      in [("a rule", "rule cc\n", "E3 Form: line 1 of the edge list edges",
           '  The line is "rule cc".'),
          ("no end", "build a: cxx",
           "N6 Truncated: line 1 of the edge list edges", '  The line is "build a: cxx".'),
          ("an output twice", "build a: x\nbuild a: x\n", "E1 ProducedTwice: a", OF_EDGES),
          ("an object without its dyndep file", f"build {of(MAIN)}: cxx\n",
           f"E5 NotBound: {of(MAIN)}", OF_EDGES)]),
    document("an edge list is not there", APP, '"restat"', EDGES,
             "cannot read: edges (`edges`)", "  No such file or directory."),
]
PROJECT = "dd/project.json"
# ---- all targets by one step
OF_PROJECTS = [it._replace(form="project") for it in [
    broken("two letters are swapped, in a project", [(MAIN, "import sum;", "import smu;")],
           *unknown(MAIN, "smu", "src/app/main.cpp:2:8: imports smu",
                    *LIKE_SUM, of_target=f" of target app ({APP})")),
    document("a target is misspelt", PROJECT, APP, "dd/apps.target.json",
             "cannot read: dd/apps.target.json"),
    document(
        "a target comes before what it links", PROJECT,
        re.compile(r'("dd/math.*?"),\s*("dd/app.*?")'),
        r"\2, \1", f"K3 LinkedLater of target app ({APP}): it links dd/math.info.json",
        f"  It is the info file of the target math ({MATH}), which is not earlier in {PROJECT}."),
    document("maps that differ", APP, '"map": "clang"', '"map": "gcc"', f"S3 BadShape: {APP}",
             f'  It has member map: "gcc", and the first target base ({BASE}) has "clang".',
             "  All targets of a project have the same."),
    document("a project document is cut off", PROJECT, '"targets"', None,
             *not_json(PROJECT, f"Line 3, column 11: Expecting ':' delimiter. {CUT_OFF}")),]]
# ---- builds of CMake that dyncollate-cmake adopted; their sources have absolute names
OF_CMAKE = [it._replace(form="cmake") for it in [
    broken("a misspelt import, with CMake", [("main.cpp", "mid", "mdi")],
           "M5 ModuleUnknown: CMakeFiles/app.dir/main.cpp.o imports mdi, and nothing provides it",
           "TOP/main.cpp:1:8: imports mdi"),
    broken("two sources have one module, with CMake", [("part.cppm", "base:part", "base")],
           "M3 ProvidedTwice: the module base is provided twice",
           "TOP/base.cppm:1:15: provides base", "TOP/part.cppm:1:15: provides base"),
    broken("a cycle, with CMake", [("part.cppm", "part;", "part;\nimport base;")],
           "M8 ImportCycle: base -> base:part -> base",
           "TOP/base.cppm:2:15: imports base:part", "TOP/part.cppm:2:8: imports base"),
    broken("a library imports its user, with CMake", [("base.cppm", "base;", "base;\nimport mid;")],
           "M5 ModuleUnknown: CMakeFiles/base.dir/base.cppm.o imports mid, and nothing provides it",
           "TOP/base.cppm:2:8: imports mid"),]]
BUILDS = [*OF_SOURCES, *OF_DOCUMENTS, *OF_PROJECTS, *OF_CMAKE]


def put(name, before, after):
    """An edit of a file. Without a text in it, all of it is new; without a new text,
    it ends after the old one."""
    path = Path(name)
    path.parent.mkdir(parents=True, exist_ok=True)
    if before is not None:
        text = path.read_text()
        changed = (text[:text.index(before) + len(before)]
                   if after is None else re.sub(before, after, text, 1)
                   if isinstance(before, re.Pattern) else text.replace(before, after, 1))
        assert changed != text, f"{name} has no {before}"
        after = changed
    path.write_bytes(after if isinstance(after, bytes) else after.encode())


@each(BUILDS, lambda build: build.why)
class Broken(builds.Directory):
    tools = ["ninja", "clang", "scanner"]
    seconds = 8

    def check(self, build):
        """The step fails, in Ninja, and what is said of the build is about that error. The last
        line has its meaning."""
        (self.break_cmake if build.form == "cmake" else self.break_generated)(build)
        error = re.findall("^dyncollate: (.*)", self.log, re.M)
        for edit in build.later:
            put(*edit)
        status, printed, err = run_apart(sys.executable, EXPLAIN, env=self.environment)
        self.said = printed.replace(os.path.dirname(os.getcwd()), "TOP").splitlines()
        self.assertEqual((err, self.said[:len(build.says)]), ("", build.says))
        self.assertEqual(status, 3 if build.says[0].startswith("cannot") else 1)
        if error:
            self.assertEqual(self.said[-1], f"  {advice(error[-1])}")
            self.assertIn(re.search(r"[A-Z]\d+ \w+|cannot \w+", error[-1])[0], self.said[0])

    def break_generated(self, build):
        self.copy("libs")
        sources = [it for it in build.edits if it[0].endswith((".cpp", ".cppm", ".h", "targets"))]
        others = [it for it in build.edits if it not in sources]
        for edit in sources:
            put(*edit)
        self.generate(build.form)
        if any(it[0].endswith((".ddi", ".info.json")) for it in others):
            self.assertEqual(self.ninja(*build.outputs)[0], 0, self.log)
        for name, *edit in others:
            time = os.stat(name).st_mtime_ns if name.endswith(".ddi") else None
            put(name, *edit)
            if time:
                # (with another time, Ninja scans again)
                os.utime(name, ns=(time, time))
                for dyndep in Path("dd").glob("*.dd"):
                    dyndep.unlink()
        self.assertEqual(self.ninja(*build.outputs)[0], 1, self.log)

    def break_cmake(self, build):
        os.chdir(page_builds.cmake_build(os.getcwd()))
        for name, *edit in build.edits:
            put(f"../{name}", *edit)
        self.assertEqual(self.ninja()[0], 1, self.log)


def table():
    """What is said of each build, in Markdown."""
    print("| what is wrong | what is said |\n|---|---|")
    test = Broken("check")
    for build in BUILDS:
        test.setUp()
        test.check(build)
        test.doCleanups()
        print(f"| {build.why} | {'<br>'.join(test.said).replace('|', '&#124;')} |", flush=True)


if __name__ == "__main__":
    table()
