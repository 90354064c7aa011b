"""Modules of a target and of the targets that it links: the errors that they have together, and
what an object needs (docs/FORMATS.md, "The modules of a target" and "Module maps").
"""
from tests.rows import V, prints, rejects
from tests.rows.forms import document, info, module, sources, statement, target
from tests.rows.targets import L_INFO

NAMED_A = b'{"primary-output":"%s","provides":[{"logical-name":"A","compiled-module-path":"%s"}]}'
LONG_CYCLE = 20_000

# why, the document, the line of the error by `one`
ONE_DOCUMENT = [
    ("* control bytes in a path",
     document(b'{"primary-output":"a\\u0001.o"}', b'{"primary-output":"./a\\u0001.o"}'),
     b"M1 ObjectTwice a?.o"),
    ("control bytes in two that look alike", sources(b"a\\tb\\u007f.o||", b"a\\tb\\u007f.o||"),
     b"M1 ObjectTwice a?b?.o"),
    ("a control byte, in the second object only", sources(b"a\\t.o|A|", b"a\\t.o||"),
     b"M1 ObjectTwice a?.o"),
    ("one path in two forms", sources(b"x/../a.o||", b"b.o||", b"a.o||"), b"M1 ObjectTwice a.o"),
    ("it comes before an unknown module", sources(b"a.o||", b"a.o||X"), b"M1 ObjectTwice a.o"),
    ("of two the one whose later member comes first",
     sources(b"a.o||", b"b.o||", b"b.o||", b"a.o||"), b"M1 ObjectTwice b.o"),
    ("by two objects", sources(b"a.o|A|", b"b.o|A|"),
     b"M3 ProvidedTwice A by object a.o and object b.o"),
    ("by the first and the third object", sources(b"a.o|A|", b"b.o|B|", b"c.o|A|"),
     b"M3 ProvidedTwice A by object a.o and object c.o"),
    ("* twice by one object", sources(b"a.o|A A|"),
     b"M3 ProvidedTwice A by object a.o and object a.o"),
    ("twice by one object, with another file",
     document(b'{"primary-output":"a.o","provides":[{"logical-name":"A"},'
              b'{"logical-name":"A","compiled-module-path":"2.bmi"}]}'),
     b"M3 ProvidedTwice A by object a.o and object a.o"),
    ("of two the one whose later member comes first", sources(b"a.o|A B|", b"b.o|B|", b"c.o|A|"),
     b"M3 ProvidedTwice B by object a.o and object b.o"),
    ("with its earliest partner", sources(b"a.o|A|", b"b.o|B|", b"c.o|B A|", b"d.o|B|"),
     b"M3 ProvidedTwice B by object b.o and object c.o"),
    ("control bytes in two producers", sources(b"a\\t.o|A|", b"a\\u007f.o|A|"),
     b"M3 ProvidedTwice A by object a?.o and object a?.o"),
    ("two names, one file", sources(b"a.o|a:b|", b"b.o|a-b|"),
     b"M4 BmiTwice mod/a-b.bmi by object a.o and object b.o"),
    ("a module and an object, before an unknown module", sources(b"a.o|A|", b"mod/A.bmi||X"),
     b"M4 BmiTwice mod/A.bmi by object mod/A.bmi and object a.o"),
    ("a module that is a later object",
     document(NAMED_A % (b"a.o", b"b.o"), b'{"primary-output":"b.o"}'),
     b"M4 BmiTwice b.o by object b.o and object a.o"),
    ("* a module that is its object", document(NAMED_A % (b"obj/a.o", b"./obj/a.o")),
     b"M4 BmiTwice obj/a.o by object obj/a.o and object obj/a.o"),
    ("control bytes in a file", document(NAMED_A % (b"a\\t.o", b"a\\u0009.o")),
     b"M4 BmiTwice a?.o by object a?.o and object a?.o"),
    ("* nobody provides it", sources(b"a.o||X"), b"M5 ModuleUnknown X in a.o"),
    ("the first one of the first object that has one",
     sources(b"a.o|A|A", b"b.o||A Y:Z X", b"c.o||X"), b"M5 ModuleUnknown Y:Z in b.o"),
    ("the first one of an object", sources(b"a.o|A|", b"b.o||A Y X", b"c.o||X"),
     b"M5 ModuleUnknown Y in b.o"),
    ("control bytes, and a name beyond ASCII", sources(b"\xc3\xa9\\u001b.o||\xc3\xa9"),
     b"M5 ModuleUnknown \xc3\xa9 in \xc3\xa9?.o"),
    ("a control byte in an object that provides", sources(b"a\\t.o|A|X"),
     b"M5 ModuleUnknown X in a?.o"),
    ("* two objects after another", sources(b"a.o||B", b"b.o|B|C", b"c.o|C|B"),
     b"M8 ImportCycle b.o -> c.o"),
    ("an object that requires itself", sources(b"a.o|A|A"), b"M8 ImportCycle a.o"),
    ("of two as short the least list", sources(b"a.o|A|C B", b"b.o|B|A", b"c.o|C|A"),
     b"M8 ImportCycle a.o -> b.o"),
    ("the shortest through the least object",
     sources(b"a.o||", b"b.o|B|C", b"c.o|C|D C", b"d.o|D|E B", b"e.o|E|B"),
     b"M8 ImportCycle b.o -> c.o -> d.o"),
    ("a control byte in a path", sources(b"a\\t.o|A|A"), b"M8 ImportCycle a?.o"),
]

K_INFO = info(module(b"K", b"mod/K.bmi", (b"mod/B.bmi", b"B")), target=b"k")
B_INFO = info(module(b"B", b"lib/B.bmi", visibility=b"public"), version=2)
PRIVATE_B = info(module(b"B", b"lib/B.bmi", visibility=b"private"), version=2)
NEEDS_B = info(module(b"M", b"lib/M.bmi", (b"lib/B.bmi", b"B"), visibility=b"public"), version=2,
               target=b"m")
A_B = info(module(b"a:b", b"lib/a-b.bmi"), target=b"k"), info(module(b"a-b", b"lib/a-b.bmi"))

# why, the sources, the info files, the line of the error by `collate`
TOGETHER = [
    ("one path in two forms", [b"a.o||", b"./x/../a.o||X"], [], b"M1 ObjectTwice a.o"),
    ("two info files of one target", [b"main.o||B"], [L_INFO, L_INFO], b"M2 InfoTwice l"),
    ("the second and the third info", [], [info(target=b"k", version=2), B_INFO, B_INFO],
     b"M2 InfoTwice l"),
    ("quotation marks and backslashes in the target's name", [b"main.o||B"],
     [L_INFO.replace(b'"l"', b'"a\\u0022b\\\\c"')] * 2, b'M2 InfoTwice a"b\\c'),
    ("by the first and the third object", [b"a.o|A|", b"b.o|B|", b"c.o|A|"], [],
     b"M3 ProvidedTwice A by object a.o and object c.o"),
    ("objects come before info files", [b"obj/b.o|B|", b"a.o|A|B", b"b.o|B|"], [L_INFO],
     b"M3 ProvidedTwice B by object obj/b.o and object b.o"),
    ("an object and an info", [b"obj/b.o|B|"], [L_INFO],
     b"M3 ProvidedTwice B by object obj/b.o and info l"),
    ("* a name of this target's in an info", [b"main.o|B|"], [info(module(b"B", b"x"))],
     b"M3 ProvidedTwice B by object main.o and info l"),
    ("an object and an info of version 2", [b"a.o|A|"],
     [info(module(b"A", b"lib/A.bmi", visibility=b"public"), version=2)],
     b"M3 ProvidedTwice A by object a.o and info l"),
    ("* one name twice in an info", [b"main.o||B"], [info(module(b"B", b"x"), module(b"B", b"y"))],
     b"M3 ProvidedTwice B by info l and info l"),
    ("one name twice in an info, and no objects", [],
     [info(module(b"A", b"a"), module(b"A", b"b"))], b"M3 ProvidedTwice A by info l and info l"),
    ("two names, one file", [b"a.o|a:b|", b"b.o|a-b|"], [],
     b"M4 BmiTwice mod/a-b.bmi by object a.o and object b.o"),
    ("two names, one file, in two info files", [], A_B,
     b"M4 BmiTwice lib/a-b.bmi by info k and info l"),
    ("* one file twice in an info", [b"main.o||B"],
     [info(module(b"B", b"x"), module(b"C", b"./x"))], b"M4 BmiTwice x by info l and info l"),
    ("an info's file is the second object", [b"a.o||", b"b.o||"], [info(module(b"B", b"b.o"))],
     b"M4 BmiTwice b.o by object b.o and info l"),
    ("* an info's file is this target's object", [b"main.o||B"], [info(module(b"B", b"main.o"))],
     b"M4 BmiTwice main.o by object main.o and info l"),
    ("an info requires what an object provides", [b"obj/b.o|B|"], [K_INFO],
     b"M6 InfoUnknown k K B"),
    ("* an info requires what no info provides", [b"main.o|B|"],
     [info(module(b"K", b"lib/K.bmi", (b"mod/B.bmi", b"B")), target=b"k")],
     b"M6 InfoUnknown k K B"),
    ("the second requirement of the second module", [b"c.o|C|"],
     [info(module(b"A", b"lib/A.bmi", (b"lib/B.bmi", b"B")),
           module(b"B", b"lib/B.bmi", (b"lib/A.bmi", b"A"), (b"mod/C.bmi", b"C")))],
     b"M6 InfoUnknown l B C"),
    ("another file for a module", [], [L_INFO, K_INFO], b"M7 InfoDisagrees k K B"),
    ("* another file for a module that an object requires", [b"main.o||B"],
     [info(module(b"B", b"lib/B.bmi")), K_INFO], b"M7 InfoDisagrees k K B"),
    ("the info with the module comes first", [],
     [info(module(b"C", b"lib/C.bmi"), target=b"k"),
      info(module(b"B", b"lib/B.bmi", (b"other/C.bmi", b"C")))], b"M7 InfoDisagrees l B C"),
    ("a right and a wrong file for a requirement", [],
     [info(module(b"B", b"lib/B.bmi", (b"lib/C.bmi", b"C"), (b"other/C.bmi", b"C"))),
      info(module(b"C", b"lib/C.bmi"), target=b"k")], b"M7 InfoDisagrees l B C"),
    ("* two files for a requirement", [b"main.o||B"],
     [info(module(b"A", b"a", (b"b", b"B"), (b"c", b"B")), module(b"B", b"b"))],
     b"M7 InfoDisagrees l A B"),
    ("two objects after another", [b"a.o||B", b"b.o|B|C", b"c.o|C|B"], [],
     b"M8 ImportCycle b.o -> c.o"),
    ("an object that requires itself", [b"a.o|A|A"], [], b"M8 ImportCycle a.o"),
    ("a private module of a target of this one's name", [b"main.o||B"],
     [info(module(b"L", b"mod/L.bmi", (b"mod/B.bmi", b"B"), visibility=b"public"),
           module(b"B", b"mod/B.bmi", visibility=b"private"), version=2, target=b"t")],
     b"M9 ModulePrivate B of t in object main.o"),
    ("* an object requires it", [b"main.o||B"],
     [info(module(b"B", b"b", visibility=b"private"), version=2)],
     b"M9 ModulePrivate B of l in object main.o"),
    ("an object and an info require it", [b"main.o||", b"k.o|K|B"], [PRIVATE_B, NEEDS_B],
     b"M9 ModulePrivate B of l in object k.o"),
    ("an info requires it, and an object that info's module", [b"main.o||M"], [PRIVATE_B, NEEDS_B],
     b"M9 ModulePrivate B of l in info m"),
    ("* an info requires it", [b"main.o||"],
     [info(module(b"B", b"b", visibility=b"private"), version=2),
      info(module(b"K", b"k", (b"b", b"B")), target=b"k")], b"M9 ModulePrivate B of l in info k"),
]

# why, the sources, the info files, the names that the target keeps private, the line of the error
PRIVATE = [("no objects", [], [], b'"X"', b"M10 PrivateUnknown X"),
           ("an info provides it, and the next is unknown too", [b"a.o|A|"], [B_INFO],
            b'"A","B","X"', b"M10 PrivateUnknown B"),]

K = module(b"K", b"k/K.bmi", (b"l/L.bmi", b"L"))

# why, the sources, the info files, GCC's map of each object in order
NEEDS = [("provided modules are in order of provision", [b"main.o||", b"a.o|A A:p|"],
          [], [b"", b"A mod/A.bmi\nA:p mod/A-p.bmi\n"]),
         ("modules that are needed through others are there once, in byte order",
          [b"main.o||a B a", b"a.o|a|A:p B", b"b.o|B|A:p", b"p.o|A:p|"], [],
          [b"A:p mod/A-p.bmi\nB mod/B.bmi\na mod/a.bmi\n",
           b"a mod/a.bmi\nA:p mod/A-p.bmi\nB mod/B.bmi\n",
           b"B mod/B.bmi\nA:p mod/A-p.bmi\n", b"A:p mod/A-p.bmi\n"]),
         ("through info files", [b"main.o||A", b"a.o|A|K"],
          [info(module(b"L", b"l/L.bmi")), info(module(b"J", b"k/J.bmi"), K, target=b"k")],
          [b"A mod/A.bmi\nK k/K.bmi\nL l/L.bmi\n", b"A mod/A.bmi\nK k/K.bmi\nL l/L.bmi\n"]),
         ("a cycle inside an info is no error", [b"main.o||K"],
          [info(module(b"J", b"k/J.bmi", (b"k/K.bmi", b"K")),
                module(b"K", b"k/K.bmi", (b"k/J.bmi", b"J")), target=b"k")],
          [b"J k/J.bmi\nK k/K.bmi\n"]),
         ("private modules are needed as others are", [b"main.o||K"],
          [info(module(b"K", b"k/K.bmi", (b"k/K-own.bmi", b"K:own"), visibility=b"public"),
                module(b"K:own", b"k/K-own.bmi", visibility=b"private"), version=2, target=b"k")],
          [b"K k/K.bmi\nK:own k/K-own.bmi\n"]),]

CALL = ["collate", "t.target.json"]


def linking(its_sources, infos, more=b""):
    """A target with these sources, and the info files that it links."""
    names = [f"{it}.json" for it in range(len(infos))]
    linked = b",".join(b'"%s"' % it.encode() for it in names)
    text = target(b',"scans":["s.ddi"],"linked":[%s]%s' % (linked, more))
    return {"t.target.json": text, "s.ddi": sources(*its_sources)} | dict(zip(names, infos))


def chain(count, last):
    """Objects that each require the module of the next; the last one requires this name."""
    at = count - 1
    return sources(*(b"o%d.o|m%d|m%d" % (it, it, it + 1) for it in range(at)),
                   b"o%d.o|m%d|%s" % (at, at, last))


CHAIN = (V + b"".join(statement(b"o%d.o" % it, b"mod/m%d.bmi" % it, b"mod/m%d.bmi" % (it + 1))
                      for it in range(LONG_CYCLE - 1))
         + statement(b"o%d.o" % (LONG_CYCLE - 1), b"mod/m%d.bmi" % (LONG_CYCLE - 1)))

ONE = ["one", "t.ddi", "mod", ".bmi"]
ROWS = ([rejects(why, ONE, {"t.ddi": text}, line) for why, text, line in ONE_DOCUMENT]
        + [rejects(why, CALL, linking(its_sources, infos), line)
           for why, its_sources, infos, line in TOGETHER]
        + [rejects(why, CALL, linking(its_sources, infos, b',"private":[%s]' % names), line)
           for why, its_sources, infos, names, line in PRIVATE]
        + [prints("a chain of 20,000 objects", ONE, {"t.ddi": lambda: chain(LONG_CYCLE, b"")},
                  CHAIN),
           rejects("a cycle of 20,000 objects", ONE, {"t.ddi": lambda: chain(LONG_CYCLE, b"m0")},
                   b"M8 ImportCycle " + b" -> ".join(b"o%d.o" % it for it in range(LONG_CYCLE)))])
