"""Project documents with the files that their targets name, and what `project` prints and writes
(docs/FORMATS.md, "Project documents"). Each row is the project of three targets below, with some
files changed or missing.
"""
from tests.rows import V, rejects, unread, writes
from tests.rows.documents import MEGABYTE, of_kind
from tests.rows.forms import edge, sources, statement

GCC = b',"map":"gcc"'


def member(number, *linked, more=GCC):
    """The target document of a number, which links the info files of others. If a member is there
    twice, the last one counts."""
    return (
        b'{"version":1,"target":"t%d","module-dir":"mod","module-ext":".bmi","scans":["%d.ddi"],'
        b'"linked":[%s],"dyndep":"%d.dd","info":"%d.info"%s}'
        % (number, number, b",".join(b'"%d.info"' % it for it in linked), number, number, more))


# The third target requires a module of the second, which requires one of the first.
PROJECT = {
    "project.json": b'{"targets":["0.json","1.json","2.json"],"version":1}',
    "0.json": member(0), "1.json": member(1, 0), "2.json": member(2, 0, 1),
    "0.ddi": sources(b"l.o|B|"), "1.ddi": sources(b"k.o|K|B"), "2.ddi": sources(b"main.o||K")}
ZEROTH = {
    "l.o.modmap": b"B mod/B.bmi\n",
    "0.info": b'{"modules":[{"bmi":"mod/B.bmi","name":"B","requires":[],"visibility":"public"}],'
    b'"target":"t0","version":2}', "0.dd": V + statement(b"l.o", b"mod/B.bmi")}
FIRST = {"k.o.modmap": b"K mod/K.bmi\nB mod/B.bmi\n", "1.info":
         b'{"modules":[{"bmi":"mod/K.bmi","name":"K","requires":[{"bmi":"mod/B.bmi","name":"B"}],'
         b'"visibility":"public"}],"target":"t1","version":2}',
         "1.dd": V + statement(b"k.o", b"mod/K.bmi", b"mod/B.bmi")}
SECOND = {"main.o.modmap": b"B mod/B.bmi\nK mod/K.bmi\n",
          "2.info": b'{"modules":[],"target":"t2","version":2}',
          "2.dd": V + statement(b"main.o", b"", b"mod/K.bmi")}
WRITTEN = ZEROTH | FIRST | SECOND


def without_maps(files):
    return {name: text for name, text in files.items() if not name.endswith(".modmap")}


TWO_TARGETS = b'{"targets":["0.json","1.json"],"version":1}'
L_EDGES, K_EDGES = (edge(b"l.o: cxx l.cpp || 0.dd", b"0.dd"),
                    edge(b"k.o: cxx k.cpp || 1.dd", b"1.dd"))
X_EDGES = b"build x.o: cxx\n"
EDGED = {"0.json": member(0, more=GCC + b',"edges":"0.edges"'),
         "1.json": member(1, 0, more=GCC + b',"edges":"1.edges"')}
ONE_LIST = {"0.json": member(0, more=GCC + b',"edges":"edges"'),
            "1.json": member(1, 0, more=GCC + b',"edges":"edges"')}
PRIVATE_B = member(0, more=GCC + b',"target":"l","private":["B"]')
NO_B = {"1.json": member(1, more=GCC + b',"info":"0.info"'), "1.ddi": sources(b"k.o|K|"),
        "2.json": member(2, 0)}

# why, the files that are others, and the files that are written
DONE = [
    ("* three targets", {}, WRITTEN),
    ("* no targets", {"project.json": b'{"targets":[],"version":1}'}, {}),
    ("other members, one twice, and another form of a document's name",
     {"project.json":
      b'{"other":[7],"target":3,"targets":["1.json"],"targets":["./0.json"],"version":1}'}, ZEROTH),
    ("a target twice", {"project.json": b'{"targets":["0.json","0.json"],"version":1}'}, ZEROTH),
    ("no maps",
     {"0.json": member(0, more=b',"map":null'), "1.json": member(1, 0, more=b',"map":null'),
      "2.json": member(2, 0, 1, more=b',"map":null')}, without_maps(WRITTEN)),
    ("the last of two info files of one name counts, and no file of that name is read",
     NO_B | {"0.info": b"no info"},
     {"l.o.modmap": ZEROTH["l.o.modmap"], "0.dd": ZEROTH["0.dd"], "k.o.modmap": b"K mod/K.bmi\n",
      "0.info": b'{"modules":[{"bmi":"mod/K.bmi","name":"K","requires":[],"visibility":"public"}],'
      b'"target":"t1","version":2}', "1.dd": V + statement(b"k.o", b"mod/K.bmi"),
      "main.o.modmap": b"K mod/K.bmi\n"} | {name: SECOND[name] for name in ("2.info", "2.dd")}),
    ("a private module is reached and mapped like another",
     {"project.json": TWO_TARGETS, "0.json": PRIVATE_B, "0.ddi": sources(b"l.o|L|B", b"b.o|B|"),
      "1.ddi": sources(b"main.o||L")},
     {"l.o.modmap": b"L mod/L.bmi\nB mod/B.bmi\n", "b.o.modmap": b"B mod/B.bmi\n", "0.info":
      b'{"modules":[{"bmi":"mod/L.bmi","name":"L","requires":[{"bmi":"mod/B.bmi","name":"B"}],'
      b'"visibility":"public"},'
      b'{"bmi":"mod/B.bmi","name":"B","requires":[],"visibility":"private"}],"target":"l",'
      b'"version":2}', "0.dd": V + statement(b"l.o", b"mod/L.bmi", b"mod/B.bmi")
      + statement(b"b.o", b"mod/B.bmi"), "main.o.modmap": b"B mod/B.bmi\nL mod/L.bmi\n",
      "1.info": b'{"modules":[],"target":"t1","version":2}',
      "1.dd": V + statement(b"main.o", b"", b"mod/L.bmi")}),
    ("edges that have an order", EDGED | {"0.edges": L_EDGES, "1.edges": K_EDGES}, WRITTEN),
    ("one edge list of two targets", ONE_LIST | {"edges": L_EDGES + K_EDGES}, WRITTEN),
    ("one edge list, in which both dyndep files make a cycle, and neither alone",
     ONE_LIST | {"edges": edge(b"l.o: cxx l.cpp || 0.dd mod/K.bmi", b"0.dd") + K_EDGES}, WRITTEN),
    ("scan documents of a megabyte",
     {name: PROJECT[name].ljust(MEGABYTE) for name in ("0.ddi", "1.ddi", "2.ddi")}, WRITTEN),
]

CYCLE = edge(b"k.o: cxx k.cpp gen.h || 1.dd", b"1.dd") + b"build gen.h: gen k.o\n"
CLANG = {f"{it}.json": PROJECT[f"{it}.json"].replace(b'"gcc"', b'"clang"') for it in range(3)}

# why, the files that are changed or, if None, missing, and the line of the error
REJECTED = [
    ("* an info's requirement that is not linked", {"2.json": member(2, 1)},
     b"target 2: M6 InfoUnknown t1 K B"),
    ("* a target that links itself", {"2.json": member(2, 2)}, b"target 2: K3 LinkedLater"),
    ("it comes before the files of the target", {"2.json": member(2, 2), "2.ddi": None},
     b"target 2: K3 LinkedLater"),
    ("a target that links a later one", {"0.json": member(0, 1)}, b"target 0: K3 LinkedLater"),
    ("a file that no target writes",
     {"1.json": member(1).replace(b'"linked":[]', b'"linked":["other"]'), "other": b""},
     b"target 1: K3 LinkedLater"),
    ("* a target that is linked twice", {"1.json": member(1, 0, 0)}, b"target 1: M2 InfoTwice t0"),
    ("* a module that is not linked", {"2.json": member(2, 0)},
     b"target 2: M5 ModuleUnknown K in main.o"),
    ("the last of two info files of one name counts", NO_B | {"2.ddi": sources(b"main.o||B")},
     b"target 2: M5 ModuleUnknown B in main.o"),
    ("* a private module", {"0.json": PRIVATE_B},
     b"target 1: M9 ModulePrivate B of l in object k.o"),
    ("a private module that nobody provides",
     {"0.json": member(0, more=GCC + b',"private":["B","X"]')}, b"target 0: M10 PrivateUnknown X"),
    ("maps for another compiler", {"1.json": member(1, 0, more=b',"map":"clang"')},
     b"target 1: target: S3 BadShape document member map"),
    ("null for maps", {"1.json": member(1, 0, more=b',"map":null')},
     b"target 1: target: S3 BadShape document member map"),
    ("* no maps, after a target with maps", {"1.json": member(1, 0, more=b"")},
     b"target 1: target: S3 BadShape document member map"),
    ("maps, after a target without", {"0.json": member(0, more=b',"map":null')},
     b"target 1: target: S3 BadShape document member map"),
    ("a path with a space", {"0.json": member(0, more=GCC + b',"module-dir":"my mods"')},
     b"target 0: K1 MapPath my mods/B.bmi"),
    ("two modules of an object, for Clang", CLANG | {"1.ddi": sources(b"k.o|K K2|B")},
     b"target 1: K2 TwoProvided k.o"),
    ("* a target document without members", {"1.json": b"{}"},
     b"target 1: target: S2 BadVersion document"),
    ("another version of a target document", {"1.json": b'{"version":2}'},
     b"target 1: target: S2 BadVersion document"),
    ("* a scan document that is begun", {"1.ddi": b"{"}, b"target 1: scan 0: S1 NotJson document"),
    ("a rule without an object", {"0.ddi": b'{"version":1,"rules":[{}]}'},
     b"target 0: scan 0: S4 NoPrimaryOutput rule 0"),
    ("an object twice", {"1.ddi": sources(b"k.o|K|B", b"k.o||")}, b"target 1: M1 ObjectTwice k.o"),
    ("an object and an info", {"1.ddi": sources(b"k.o|B|B")},
     b"target 1: M3 ProvidedTwice B by object k.o and info t0"),
    ("a cycle", {"1.ddi": sources(b"x.o|X|Y", b"y.o|Y|X")}, b"target 1: M8 ImportCycle x.o -> y.o"),
    ("a cycle of edges of the second target", EDGED | {"0.edges": L_EDGES, "1.edges": CYCLE},
     b"target 1: cycle k.o -> gen.h"),
    ("* a cycle of edges", {"2.json": member(2, 0, 1, more=GCC + b',"edges":"edges"'),
                            "edges": edge(b"main.o: cxx gen.h || 2.dd", b"2.dd")
                            + b"build gen.h: gen main.o\n"}, b"target 2: cycle main.o -> gen.h"),
    ("one edge list, with a cycle after the second dyndep file",
     ONE_LIST | {"edges": L_EDGES + edge(b"k.o: cxx k.cpp gen.h || 1.dd", b"1.dd")
                 + b"build gen.h: gen mod/K.bmi\n"}, b"target 1: cycle k.o -> gen.h"),
    ("one edge list, with a faulty line", ONE_LIST | {"edges": b"rule cc\n"},
     b"target 0: edges: line 1: E3 Form"),
    ("one edge list, without the second object", ONE_LIST | {"edges": L_EDGES},
     b"target 1: E5 NotBound k.o"),
    ("a faulty line of a listing", EDGED | {"0.edges": L_EDGES, "1.edges": b"rule cc\n"},
     b"target 1: edges: line 1: E3 Form"),
    ("an object that no edge makes", EDGED | {"0.edges": L_EDGES, "1.edges": X_EDGES},
     b"target 1: E5 NotBound k.o"),
    ("of the edges of two targets the first", EDGED | {"0.edges": X_EDGES, "1.edges": X_EDGES},
     b"target 0: E5 NotBound l.o"),
    ("modules of a later target come before edges",
     EDGED | {"0.edges": X_EDGES, "1.edges": K_EDGES, "2.ddi": sources(b"main.o||X")},
     b"target 2: M5 ModuleUnknown X in main.o"),
]

# why, the files that are others or, if None, not there, and the file that cannot be read
UNREAD = [("* no project document", dict.fromkeys(PROJECT), b"project.json"),
          ("no project document, but what it would name", {"project.json": None}, b"project.json"),
          ("a target document", {"1.json": None}, b"1.json"),
          ("a scan document comes before the next target document", {"0.ddi": None, "1.json": None},
           b"0.ddi"),
          ("a scan document comes before a faulty target document",
           {"0.ddi": None, "1.json": b"{}"}, b"0.ddi"),
          ("a listing of edges", {"1.json": EDGED["1.json"]}, b"1.edges"),
          ("a scan document comes before a listing", {"1.json": EDGED["1.json"], "1.ddi": None},
           b"1.ddi"),
          ("all are read before any is checked", {"0.ddi": b"{}", "2.ddi": None}, b"2.ddi"),]

# why, the project document, the line of the error after `project: `
DOCUMENTS = [
    ("a document that is begun", b'{"targets"', b"S1 NotJson document"),
    ("no end", b'{"targets":["0.json"],"version":1', b"S1 NotJson document"),
    ("version 2", b'{"targets":["0.json"],"version":2}', b"S2 BadVersion document"),
    ("version 0", b'{"targets":["0.json"],"version":0}', b"S2 BadVersion document"),
    ("version 2, before the list", b'{"targets":7,"version":2}', b"S2 BadVersion document"),
    ("no version next to a list", b'{"targets":["0.json"]}', b"S2 BadVersion document"),
    ("no list", b'{"version":1}', b"S3 BadShape document member targets"),
    ("null for the list", b'{"targets":null,"version":1}', b"S3 BadShape document member targets"),
    ("a text for the list", b'{"targets":"0.json","version":1}',
     b"S3 BadShape document member targets"),
    ("a number in the list", b'{"targets":["0.json",7],"version":1}',
     b"S3 BadShape document member targets"),]

CALL = ["project", "project.json"]


def given(others):
    return {name: text for name, text in (PROJECT | others).items() if text is not None}


def kind(why, text, fault):
    files = given({"project.json": text})
    return (rejects(why, CALL, files, b"project: " + fault)
            if fault else writes(why, CALL, files, WRITTEN))


ROWS = ([writes(why, CALL, given(others), written) for why, others, written in DONE]
        + [rejects(why, CALL, given(others), line) for why, others, line in REJECTED]
        + [unread(why, CALL, given(others), name) for why, others, name in UNREAD]
        + [kind(*row) for row in DOCUMENTS]
        + [kind(*row) for row in of_kind(PROJECT["project.json"])])
