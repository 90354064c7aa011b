"""Target documents with the files that they name, and what `collate` prints and writes
(docs/FORMATS.md, "Target documents", "Module maps" and "Lines that the program prints"). Errors of
info files and modules are in `infos.py` and `modules.py`."""
from tests.rows import V, Row, rejects, unread, writes
from tests.rows.documents import MEGABYTE, of_kind
from tests.rows.dyndep_files import ONE as ONE_STATEMENT, TWO as TWO_STATEMENTS
from tests.rows.forms import document, edge, info, module, sources, statement, target
from tests.rows.scan_documents import COUNT, LONG_PATH, LONG_RULE, NAME, ONE, TWO, rules

NO_MODULES = b'{"modules":[],"target":"t","version":2}'
MAIN = sources(b"main.o||B")
L_INFO = info(module(b"B", b"./lib//B.bmi"))
LINKS = b',"scans":["m.ddi"],"linked":["l.json"]'
LINKED = {"m.ddi": MAIN, "l.json": L_INFO}
LINKED_FILES = {"t.json": NO_MODULES, "t.dd": V + statement(b"main.o", b"", b"lib/B.bmi")}
TWO_FILES = {
    "t.json":
    b'{"modules":[{"bmi":"mod/A.bmi","name":"A","requires":[{"bmi":"mod/B.bmi","name":"B"}],'
    b'"visibility":"public"},'
    b'{"bmi":"mod/B.bmi","name":"B","requires":[],"visibility":"public"}],"target":"t",'
    b'"version":2}', "t.dd": TWO_STATEMENTS}

MAPPED = {"m.ddi": document(
    b'{"primary-output":"a.o","provides":[{"logical-name":"A"}],"requires":[{"logical-name":"L"}]}',
    b'{"primary-output":"b.o","provides":[{"logical-name":"M:p"}],'
    b'"requires":[{"logical-name":"A"}]}'),
          "l.json": info(module(b"L", b"lib/L.bmi", (b"lib/B.bmi", b"B"), visibility=b"public"),
                         module(b"B", b"lib/B.bmi", visibility=b"private"), version=2)}
MAPPED_FILES = {
    "t.json":
    b'{"modules":[{"bmi":"mod/A.bmi","name":"A","requires":[{"bmi":"lib/L.bmi","name":"L"}],'
    b'"visibility":"public"},'
    b'{"bmi":"mod/M-p.bmi","name":"M:p","requires":[{"bmi":"mod/A.bmi","name":"A"}],'
    b'"visibility":"private"}],"target":"t","version":2}',
    "t.dd": V + statement(b"a.o", b"mod/A.bmi",
                          b"lib/L.bmi") + statement(b"b.o", b"mod/M-p.bmi", b"mod/A.bmi")}
GCC_MAPS = {"a.o.modmap": b"A mod/A.bmi\nB lib/B.bmi\nL lib/L.bmi\n",
            "b.o.modmap": b"M:p mod/M-p.bmi\nA mod/A.bmi\nB lib/B.bmi\nL lib/L.bmi\n"}
CLANG_MAPS = {
    "a.o.modmap": b"-x c++-module\n-fmodule-output=mod/A.bmi\n-fmodule-file=B=lib/B.bmi\n"
    b"-fmodule-file=L=lib/L.bmi\n",
    "b.o.modmap": b"-x c++-module\n-fmodule-output=mod/M-p.bmi\n-fmodule-file=A=mod/A.bmi\n"
    b"-fmodule-file=B=lib/B.bmi\n-fmodule-file=L=lib/L.bmi\n"}
PRIVATE_INFO = (
    b'{"modules":[{"bmi":"mod/L.bmi","name":"L","requires":[{"bmi":"mod/B.bmi","name":"B"}],'
    b'"visibility":"public"},'
    b'{"bmi":"mod/B.bmi","name":"B","requires":[],"visibility":"private"}],"target":"t",'
    b'"version":2}')
AC = sources(b"a.o|A C|")
WORK = b'{"primary-output":"%s","work-directory":"%s"}'

# the reason, the members besides the required ones, the files that they name,
# and the files that are written
WRITTEN = [
    ("no other members", b"", {}, {"t.json": NO_MODULES, "t.dd": V}),
    ("null for members", b',"build-dir":null', {}, {"t.json": NO_MODULES, "t.dd": V}),
    ("null for lists, and an empty one", b',"private":null,"scans":null,"linked":[]', {},
     {"t.json": NO_MODULES, "t.dd": V}),
    ("null for maps and edges", b',"map":null,"edges":null', {}, {"t.json": NO_MODULES, "t.dd": V}),
    ("null for restat", b',"restat":null', {}, {"t.json": NO_MODULES, "t.dd": V}),
    ("a number for restat, which counts as absent", b',"restat":1', {},
     {"t.json": NO_MODULES, "t.dd": V}),
    ("a string for restat, which counts as absent", b',"restat":"true"', {},
     {"t.json": NO_MODULES, "t.dd": V}),
    ("an array for restat, which counts as absent", b',"restat":[true]', {},
     {"t.json": NO_MODULES, "t.dd": V}),
    ("* an info and GCC's map that may be left alone", LINKS + b',"map":"gcc","restat":true',
     LINKED, {"main.o.modmap": b"B lib/B.bmi\n"} | LINKED_FILES),
    ("one object", b',"scans":["b.ddi"]', {"b.ddi": ONE},
     {"t.json": b'{"modules":[{"bmi":"mod/B.bmi","name":"B","requires":[],"visibility":"public"}],'
      b'"target":"t","version":2}', "t.dd": ONE_STATEMENT}),
    ("* an info that is linked", LINKS, LINKED, LINKED_FILES),
    ("GCC's map", LINKS + b',"map":"gcc"', LINKED,
     {"main.o.modmap": b"B lib/B.bmi\n"} | LINKED_FILES),
    ("Clang's map", LINKS + b',"map":"clang"', LINKED,
     {"main.o.modmap": b"-fmodule-file=B=lib/B.bmi\n"} | LINKED_FILES),
    ("GCC's maps of two objects", b',"scans":["two.ddi"],"map":"gcc"', {"two.ddi": TWO},
     {"a.o.modmap": b"A mod/A.bmi\nB mod/B.bmi\n", "b.o.modmap": b"B mod/B.bmi\n"} | TWO_FILES),
    ("Clang's maps of two objects", b',"scans":["two.ddi"],"map":"clang"', {"two.ddi": TWO},
     {"a.o.modmap": b"-x c++-module\n-fmodule-output=mod/A.bmi\n-fmodule-file=B=mod/B.bmi\n",
      "b.o.modmap": b"-x c++-module\n-fmodule-output=mod/B.bmi\n"} | TWO_FILES),
    ("* GCC's maps", LINKS + b',"map":"gcc","private":["M:p"],"edges":null', MAPPED,
     GCC_MAPS | MAPPED_FILES),
    ("* Clang's maps", LINKS + b',"map":"clang","private":["M:p"],"edges":null', MAPPED,
     CLANG_MAPS | MAPPED_FILES),
    ("an empty map for Clang", b',"scans":["a.ddi"],"map":"clang"', {"a.ddi": sources(b"a.o||")},
     {"a.o.modmap": b"", "t.json": NO_MODULES, "t.dd": V + statement(b"a.o")}),
    ("two provided modules in GCC's map", b',"scans":["ac.ddi"],"map":"gcc"', {"ac.ddi": AC},
     {"a.o.modmap": b"A mod/A.bmi\nC mod/C.bmi\n",
      "t.json": b'{"modules":[{"bmi":"mod/A.bmi","name":"A","requires":[],"visibility":"public"},'
      b'{"bmi":"mod/C.bmi","name":"C","requires":[],"visibility":"public"}],"target":"t",'
      b'"version":2}', "t.dd": V + statement(b"a.o", b"mod/A.bmi mod/C.bmi")}),
    ("a private module is in the info",
     b',"scans":["l.ddi"],"private":["B"]', {"l.ddi": sources(b"l.o|L|B", b"b.o|B|")},
     {"t.json": PRIVATE_INFO,
      "t.dd": V + statement(b"l.o", b"mod/L.bmi", b"mod/B.bmi") + statement(b"b.o", b"mod/B.bmi")}),
    ("a private module is in maps", LINKS + b',"map":"gcc"',
     {"m.ddi": sources(b"main.o||L"), "l.json": PRIVATE_INFO},
     {"main.o.modmap": b"B mod/B.bmi\nL mod/L.bmi\n", "t.json": NO_MODULES,
      "t.dd": V + statement(b"main.o", b"", b"mod/L.bmi")}),
    ("a private module that is named twice",
     b',"scans":["s.ddi"],"linked":[],"private":["A","A"]', {"s.ddi": sources(b"a.o|A|")},
     {"t.json":
      b'{"modules":[{"bmi":"mod/A.bmi","name":"A","requires":[],"visibility":"private"}],'
      b'"target":"t","version":2}', "t.dd": V + statement(b"a.o", b"mod/A.bmi")}),
    ("quotation marks and backslashes are escaped in the info",
     b',"scans":["a.ddi"],"target":"a\\"b\\\\c"',
     {"a.ddi": document(b'{"primary-output":"a.o","provides":[{"logical-name":"A",'
                        b'"compiled-module-path":"m\\"d/\\\\.bmi"}]}')},
     {"t.json":
      b'{"modules":[{"bmi":"m\\"d/\\\\.bmi","name":"A","requires":[],"visibility":"public"}],'
      b'"target":"a\\"b\\\\c","version":2}', "t.dd": V + statement(b"a.o", b'm"d/\\.bmi')}),
    ("paths below the build directory are relative to it", b',"scans":["a.ddi"],"build-dir":"/w"',
     {"a.ddi": document(WORK % (b"../o/a.o", b"/w/b"), b'{"primary-output":"/w/o/b.o"}')},
     {"t.json": NO_MODULES, "t.dd": V + statement(b"o/a.o") + statement(b"o/b.o")}),
    ("paths next to the build directory, at it, and above it",
     b',"scans":["a.ddi"],"build-dir":"/w/b"',
     {"a.ddi": document(b'{"primary-output":"/w/bc/x"}', b'{"primary-output":"/w/b"}',
                        b'{"primary-output":"/w"}', b'{"primary-output":"/w/./b/x/../y"}',
                        b'{"primary-output":"w/b/x"}', WORK % (b"obj/a.o", b"/w/b"))},
     {"t.json": NO_MODULES, "t.dd": V
      + b"".join(map(statement, (b"/w/bc/x", b"/w/b", b"/w", b"y", b"w/b/x", b"obj/a.o")))}),
    ("a path's length is counted from the build directory", b',"scans":["a.ddi"],"build-dir":"/w"',
     {"a.ddi": document(WORK % (LONG_PATH, b"/w"))},
     {"t.json": NO_MODULES, "t.dd": V + statement(LONG_PATH)}),
    ("a member twice", LINKS + b',"dyndep":"x","dyndep":"t.dd"', LINKED, LINKED_FILES),
    ("as many rules as may be, in two documents", b',"scans":["m.ddi","n.ddi"]',
     {"m.ddi": lambda: rules(COUNT - 1),
      "n.ddi": document(b'{"primary-output":"%d.o"}' % (COUNT - 1))},
     {"t.json": NO_MODULES, "t.dd": V + b"".join(statement(b"%d.o" % it) for it in range(COUNT))}),
    ("a scan document of a megabyte", LINKS, LINKED | {"m.ddi": MAIN.ljust(MEGABYTE)},
     LINKED_FILES),
]

# names of targets, and strings that are not names, with JSON's escapes
NAMES = [b"my target: $x/\xc3\xa9", b"z", b"t" * NAME]
NO_NAMES = [b"", b"a\\nb", b"\\u007f", b"t" * (NAME + 1)]

# why, the members, the line of the error after `target: `
MEMBERS = [("a relative build directory", b'"build-dir":"b"',
            b"S3 BadShape document member build-dir"),
           ("a number for the build directory", b'"build-dir":7',
            b"S3 BadShape document member build-dir"),
           ("a build directory above the root", b'"build-dir":"/.."',
            b"S3 BadShape document member build-dir"),
           ("a text for scans, before private", b'"scans":"x","private":7',
            b"S3 BadShape document member scans"),
           ("a number in linked, before private", b'"linked":[7],"private":7',
            b"S3 BadShape document member linked"),
           ("a number in private, before a faulty name",
            b'"private":["a..b",7]', b"S3 BadShape document member private"),
           ("a faulty name in private", b'"private":["A","a..b"]', b"S6 BadName document"),
           ("another kind of map", b'"map":"msvc"', b"S3 BadShape document member map"),
           ("a number for edges", b'"edges":7', b"S3 BadShape document member edges"),
           ("a text for restat, after edges", b'"restat":"true","edges":7',
            b"S3 BadShape document member edges"),
           ("null for the dyndep file, after a text", LINKS[1:] + b',"dyndep":null',
            b"S3 BadShape document member dyndep"),]

# why, the document, the line of the error after `target: `
DOCUMENTS = [
    ("a document that is begun", b"{", b"S1 NotJson document"),
    ("another version comes before the name", b'{"version":2,"target":7}',
     b"S2 BadVersion document"),
    ("no name", b'{"version":1}', b"S3 BadShape document member target"),
    ("a faulty name comes before the directory", b'{"version":1,"target":"\\n"}',
     b"S6 BadName document"),
    ("no directory", b'{"version":1,"target":"t"}', b"S3 BadShape document member module-dir"),
    ("no ending", b'{"version":1,"target":"t","module-dir":""}',
     b"S3 BadShape document member module-ext"),
    ("a faulty name in private comes before the dyndep file",
     b'{"version":1,"target":"t","module-dir":"","module-ext":"","private":["a b"]}',
     b"S6 BadName document"),
    ("no dyndep file", b'{"version":1,"target":"t","module-dir":"","module-ext":""}',
     b"S3 BadShape document member dyndep"),
    ("an empty path for the dyndep file",
     b'{"version":1,"target":"t","module-dir":"","module-ext":"","dyndep":"a/.."}',
     b"S7 BadPath document N1 Empty"),
    ("the dyndep file's path comes before the info",
     b'{"version":1,"target":"t","module-dir":"","module-ext":"","build-dir":"/w","dyndep":"/w/a|",'
     b'"info":""}', b"S7 BadPath document N3 Unwritable"),
    ("an empty text for the info",
     b'{"version":1,"target":"t","module-dir":"","module-ext":"","dyndep":"t.dd","info":""}',
     b"S3 BadShape document member info"),]

UNFIT = document(
    b'{"primary-output":"a.o","provides":[{"logical-name":"A","compiled-module-path":"my '
    b'mods/A.bmi"},{"logical-name":"C"}]}')
UNFIT_A = {"a.ddi": document(
    b'{"primary-output":"a.o","provides":[{"logical-name":"A","compiled-module-path":"my '
    b'mods/A.bmi"}]}')}
UNFIT_CD = {"ab.ddi": sources(b"a.o|A B|D C"),
            "l.json": info(module(b"D", b"it's"), module(b"C", b"my mods/C"))}
CD = b',"scans":["ab.ddi"],"linked":["l.json"]'
UNFIT_B = {"m.ddi": MAIN, "l.json": info(module(b"B", b"it's"))}
S4 = document(b"{}")
ALL = {"two.ddi": TWO, "m.ddi": MAIN,
       "unfit.ddi": UNFIT, "l.json": L_INFO, "begun": b"{", "v3.json": info(version=3),
       "k.json": info(module(b"K", b"mod/K.bmi", (b"mod/B.bmi", b"B")), target=b"k")}


def naming(scans, linked, more=b',"map":"clang"'):
    return b',"scans":[%s],"linked":[%s]%s' % (scans, linked, more)


# why, the members, the files that they name, the line of the error
REJECTED = [
    ("scan documents come before info files", b',"scans":["a","b"],"linked":["c","d"]',
     {"a": TWO, "b": S4, "c": b"", "d": b""}, b"scan 1: S4 NoPrimaryOutput rule 0"),
    ("info files come before the modules", b',"scans":["a","b"],"linked":["c","d"]',
     {"a": TWO, "b": TWO, "c": L_INFO, "d": b'{"version":3}'}, b"info 1: S2 BadVersion document"),
    ("a scan document comes before an info", naming(b'"two.ddi","begun"', b'"l.json","begun"'), ALL,
     b"scan 1: S1 NotJson document"),
    ("an info comes before the maps", naming(b'"two.ddi","unfit.ddi"', b'"l.json","begun"'), ALL,
     b"info 1: S1 NotJson document"),
    ("an info's version comes before the maps", naming(b'"two.ddi","unfit.ddi"', b'"v3.json"'), ALL,
     b"info 0: S2 BadVersion document"),
    ("objects come before info files that are linked twice",
     naming(b'"two.ddi","two.ddi"', b'"l.json","l.json"'), ALL, b"M1 ObjectTwice a.o"),
    ("modules come before the maps", naming(b'"unfit.ddi","m.ddi"', b'"k.json","l.json"'), ALL,
     b"M7 InfoDisagrees k K B"),
    ("* an info twice", b',"scans":["m.ddi"],"linked":["l.json","l.json"]', LINKED,
     b"M2 InfoTwice l"),
    ("info files that are linked twice come before the maps",
     naming(b'"unfit.ddi","m.ddi"', b'"l.json","l.json"'), ALL, b"M2 InfoTwice l"),
    ("a path comes before two modules", naming(b'"unfit.ddi"', b""), ALL,
     b"K1 MapPath my mods/A.bmi"),
    ("a path with a space in GCC's map", b',"scans":["a.ddi"],"map":"gcc"', UNFIT_A,
     b"K1 MapPath my mods/A.bmi"),
    ("a path with a space in Clang's map", b',"scans":["a.ddi"],"map":"clang"', UNFIT_A,
     b"K1 MapPath my mods/A.bmi"),
    ("the first of needed names in GCC's map", CD + b',"map":"gcc"', UNFIT_CD,
     b"K1 MapPath my mods/C"),
    ("the first of needed names in Clang's map, before two modules", CD + b',"map":"clang"',
     UNFIT_CD, b"K1 MapPath my mods/C"),
    ("an apostrophe in GCC's map", LINKS + b',"map":"gcc"', UNFIT_B, b"K1 MapPath it's"),
    ("an apostrophe in Clang's map", LINKS + b',"map":"clang"', UNFIT_B, b"K1 MapPath it's"),
    ("control bytes in a path of a map", LINKS + b',"map":"gcc"',
     {"m.ddi": MAIN, "l.json": info(module(b"B", b"lib\\t/\xc3\xa9\\u007f"))},
     b"K1 MapPath lib?/\xc3\xa9?"),
    ("two modules of an object in Clang's map", b',"scans":["ac.ddi"],"map":"clang"',
     {"ac.ddi": AC}, b"K2 TwoProvided a.o"),
    ("two modules of the second object in Clang's map", b',"scans":["ab.ddi"],"map":"clang"',
     {"ab.ddi": sources(b"a.o||", b"ab.o|A B|")}, b"K2 TwoProvided ab.o"),
    ("a statement too long to write, the second", b',"scans":["long.ddi"]',
     {"long.ddi": document(b'{"primary-output":"a.o"}', LONG_RULE)},
     b"Y2 StatementTooLong statement 1"),
    ("an empty path in a work directory below the build directory",
     b',"scans":["a.ddi"],"build-dir":"/w"', {"a.ddi": document(WORK % (b"", b"/w/b"))},
     b"scan 0: S7 BadPath rule 0 N1 Empty"),
    ("the root for a path", b',"scans":["a.ddi"],"build-dir":"/w"',
     {"a.ddi": document(WORK % (b"../..", b"/w/b"))}, b"scan 0: S7 BadPath rule 0 N1 Empty"),
    ("a path that is too long in its work directory", b',"scans":["a.ddi"]',
     {"a.ddi": document(WORK % (LONG_PATH, b"/w"))}, b"scan 0: S7 BadPath rule 0 N4 TooLong"),
    ("as many rules as may be, two with one object", b',"scans":["full.ddi"]',
     {"full.ddi": lambda: document(*[b'{"primary-output":"x"}'] * COUNT)}, b"M1 ObjectTwice x"),
    ("a rule too many, in the second document, with one object",
     b',"scans":["full.ddi","one.ddi"]',
     {"full.ddi": lambda: document(*[b'{"primary-output":"x"}'] * COUNT),
      "one.ddi": document(b'{"primary-output":"x"}')}, b"scan 1: S8 TooLarge document"),
    ("a rule too many, in the second document", b',"scans":["m.ddi","n.ddi"]',
     {"m.ddi": lambda: rules(COUNT), "n.ddi": rules(1, b".p")}, b"scan 1: S8 TooLarge document"),
    ("a rule too many, in the document before a faulty one", b',"scans":["m.ddi","n.ddi","o.ddi"]',
     {"m.ddi": lambda: rules(COUNT), "n.ddi": rules(1, b".p"), "o.ddi": b"{"},
     b"scan 1: S8 TooLarge document"),
    ("a rule too many, which is faulty", b',"scans":["m.ddi","n.ddi"]',
     {"m.ddi": lambda: rules(COUNT), "n.ddi": S4}, b"scan 1: S4 NoPrimaryOutput rule 0"),
]

# why, the members, the files that are there, the file that cannot be read
UNREAD = [("the first of two", LINKS, {}, b"m.ddi"),
          ("a scan document before info files", LINKS, {"l.json": L_INFO}, b"m.ddi"),
          ("an info before any document is checked", LINKS, {"m.ddi": b""}, b"l.json"),
          ("no listing of edges", b',"scans":["two.ddi"],"edges":"t.edges"', {"two.ddi": TWO},
           b"t.edges"),
          ("control bytes in a file's name", b',"scans":["a\\u0001\\tb\\u007f\\n"]', {}, b"a??b??"),
          ("a NUL in a file's name", b',"scans":["m.ddi\\u0000"]', {"m.ddi": MAIN}, b"m.ddi?"),]

# The edge list that a target document names is checked last.
A_EDGE, B_EDGE = edge(b"a.o: cxx a.cpp || t.dd"), edge(b"b.o: cxx b.cpp || t.dd")
EDGES = b',"scans":["two.ddi"],"edges":"t.edges","build-dir":"/w"'
EDGED = {"t.json": TWO_FILES["t.json"], "t.dd": TWO_STATEMENTS}
GENERATED = A_EDGE + edge(b"b.o: cxx b.cpp gen.h || t.dd")

# why, the edge list, the line of the error or None
LISTINGS = [
    ("* edges that have an order", GENERATED + b"build gen.h: gen gen.in\n", None),
    ("* a cycle through a file that is generated", GENERATED + b"build gen.h: gen a.o\n",
     b"cycle a.o -> b.o -> gen.h"),
    ("edges of objects and of a library", A_EDGE + B_EDGE + b"build lib: ar a.o b.o\n", None),
    ("a faulty line of the listing", A_EDGE + b"rule cc\n", b"edges: line 3: E3 Form"),
    ("a listing without its last line's end", A_EDGE + b"build b.o: cxx",
     b"edges: line 3: N6 Truncated"),
    ("a file that two edges make", A_EDGE + B_EDGE + b"build b.o: cp x\n", b"E1 ProducedTwice b.o"),
    ("an edge that names a file which it does not wait for", edge(b"a.o: cxx a.cpp"),
     b"E2 DyndepNotInput a.o"),
    ("an object whose edge names no dyndep file", A_EDGE + b"build b.o: cxx b.cpp\n",
     b"E5 NotBound b.o"),
    ("an edge that names the file, with no statement",
     A_EDGE + B_EDGE + edge(b"c.o: cxx || t.dd"), b"E6 NotMentioned c.o"),
    ("a module's file that an edge makes", A_EDGE + B_EDGE + b"build mod/B.bmi: cp x\n",
     b"E7 AddedTwice mod/B.bmi"),]

CALL = ["collate", "t.target.json"]


def given(members, files):
    return {"t.target.json": target(members)} | files


def kind(why, text, fault):
    """A target document that is rejected, or otherwise taken as LINKED."""
    files = LINKED | {"t.target.json": text}
    return (rejects(why, CALL, files, b"target: " + fault)
            if fault else writes(why, CALL, files, LINKED_FILES))


def listed(why, listing, line):
    files = given(EDGES, {"two.ddi": TWO, "t.edges": listing})
    return rejects(why, CALL, files, line) if line else writes(why, CALL, files, EDGED)


ROWS = ([writes(why, CALL, given(members, files), written)
         for why, members, files, written in WRITTEN]
        + [rejects(why, CALL, given(members, files), line)
           for why, members, files, line in REJECTED]
        + [rejects(why, CALL, given(b"," + members, {}), b"target: " + line)
           for why, members, line in MEMBERS]
        + [rejects(why, CALL, {"t.target.json": text}, b"target: " + line)
           for why, text, line in DOCUMENTS]
        + [unread(why, CALL, given(members, files), name) for why, members, files, name in UNREAD]
        + [unread("* no target document", CALL, {}, b"t.target.json")]
        + [listed(*row) for row in LISTINGS]
        + [rejects("an error comes before the edges", CALL,
                   given(EDGES, {"two.ddi": S4, "t.edges": b"rule"}),
                   b"scan 0: S4 NoPrimaryOutput rule 0"),
           Row("control bytes in the name of a file that cannot be written",
               CALL, given(LINKS + b',"info":"none\\u001b/t\\u007f"', LINKED), 3, b"",
               b"cannot write none?/t?", {})]
        + [writes(f"the name {name[:20]}", CALL, given(b',"target":"%s"' % name, {}),
                  {"t.json": NO_MODULES.replace(b'"t"', b'"%s"' % name), "t.dd": V})
           for name in NAMES]
        + [rejects(f"no name {name[:20]}", CALL, given(b',"target":"%s"' % name, {}),
                   b"target: S6 BadName document") for name in NO_NAMES]
        + [kind(*row) for row in of_kind(target(LINKS))])
