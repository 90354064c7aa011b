"""Info files of the targets that a target links, and what `collate` prints (docs/FORMATS.md,
"Info files")."""
from tests.rows import V, rejects, writes
from tests.rows.documents import of_kind
from tests.rows.forms import info, module, sources, statement, target
from tests.rows.targets import CALL, LINKED, LINKED_FILES, LINKS, L_INFO, NO_MODULES

A_PUBLIC = b'{"bmi":"a","name":"A","requires":[],"visibility":"public"}'

# why, the info, the line of the error after `info 0: `
FAULTS = [
    ("version 0", b'{"modules":[],"target":"i","version":0}', b"S2 BadVersion document"),
    ("* version 3", info(version=3), b"S2 BadVersion document"),
    ("version 3 comes before shapes", b'{"modules":7,"target":7,"version":3}',
     b"S2 BadVersion document"),
    ("no version at all", b'{"modules":[],"target":"i"}', b"S2 BadVersion document"),
    ("a number for the target", b'{"modules":7,"target":7,"version":1}',
     b"S3 BadShape document member target"),
    ("an empty name of the target comes before modules", b'{"modules":7,"target":"","version":1}',
     b"S6 BadName document"),
    ("* a control byte in the target's name", info(target=b"l\\u0007"), b"S6 BadName document"),
    ("a number for modules", b'{"modules":7,"target":"i","version":1}',
     b"S3 BadShape document member modules"),
    ("an array for a module", b'{"modules":[[]],"target":"l","version":1}',
     b"S3 BadShape module 0 member entry"),
    ("no visibility of the second module, before its name",
     b'{"modules":[%s,{"bmi":"","name":"","requires":[]}],"target":"i","version":2}' % A_PUBLIC,
     b"S3 BadShape module 1 member visibility"),
    ("* no visibility", info(module(b"B", b"b"), version=2),
     b"S3 BadShape module 0 member visibility"),
    ("another visibility", info(module(b"A", b"a", visibility=b"other"), version=2, target=b"i"),
     b"S3 BadShape module 0 member visibility"),
    ("no requirements come before a faulty visibility",
     b'{"modules":[{"bmi":"a","name":"A","visibility":7}],"target":"i","version":2}',
     b"S3 BadShape module 0 member requires"),
    ("a faulty name", info(module(b"a..b", b"a")), b"S6 BadName module 0"),
    ("* a faulty name of a module", info(module(b"a..b", b"x")), b"S6 BadName module 0"),
    ("a path above the root comes before requirements",
     b'{"modules":[{"bmi":"/..","name":"a","requires":[7]}],"target":"l","version":1}',
     b"S7 BadPath module 0 N2 AboveRoot"),
    ("* a path above the root", info(module(b"B", b"/..")), b"S7 BadPath module 0 N2 AboveRoot"),
    ("no file of a requirement",
     b'{"modules":[{"bmi":"a","name":"a","requires":[{"name":"b"}]}],"target":"l","version":1}',
     b"S3 BadShape module 0 requires 0 member bmi"),
    ("an empty file of a requirement", info(module(b"a", b"a", (b"", b"b"))),
     b"S7 BadPath module 0 requires 0 N1 Empty"),
    ("* a file of a requirement that is no path", info(module(b"B", b"b", (b"c/..", b"C"))),
     b"S7 BadPath module 0 requires 0 N1 Empty"),
    ("* a faulty name in a requirement", info(module(b"B", b"b", (b"c", b"C"), (b"d", b"D:"))),
     b"S6 BadName module 0 requires 1"),
]

GCC = b',"map":"gcc"'

# why, the info, the members of the target besides those that link it, the object,
# and the files that are written
TAKEN = [
    ("version 1", info(target=b"i"), b"", b"main.o||",
     {"t.json": NO_MODULES, "t.dd": V + statement(b"main.o")}),
    ("version 2", info(target=b"i", version=2), b"", b"main.o||",
     {"t.json": NO_MODULES, "t.dd": V + statement(b"main.o")}),
    ("modules of version 1 are public whatever is said, and texts are read without their escapes",
     b' {"version":1, "target":"a\\u0022b\\\\c","modules":[{"bmi":"m\\u0022d/\\\\.bmi","name":"B",'
     b'"requires":[],"visibility":"private"}] } ', b"", b"main.o||B",
     {"t.json": NO_MODULES, "t.dd": V + statement(b"main.o", b"", b'm"d/\\.bmi')}),
    ("* a cycle of its own",
     info(module(b"A", b"a", (b"b", b"B")), module(b"B", b"b", (b"a", b"A"))), GCC, b"main.o||A",
     {"main.o.modmap": b"A a\nB b\n", "t.json": NO_MODULES,
      "t.dd": V + statement(b"main.o", b"", b"a")}),]

# why, the info, the line of the error
UNKNOWN = [
    ("a module's name twice, the last one counts",
     info(b'{"bmi":"a","name":"B","requires":[],"name":"C"}'), b"M5 ModuleUnknown B in main.o"),
]


def linking(info, more=b"", scan=LINKED["m.ddi"]):
    return {"t.target.json": target(LINKS + more), "m.ddi": scan, "l.json": info}


def kind(why, text, fault):
    """An info file that is rejected, or otherwise taken as that of LINKED."""
    return rejects(why, CALL, linking(text), b"info 0: " + fault) if fault else \
        writes(why, CALL, linking(text), LINKED_FILES)


ROWS = ([kind(*row) for row in FAULTS]
        + [writes(why, CALL, linking(text, more, sources(object)), written)
           for why, text, more, object, written in TAKEN] + [rejects(why, CALL, linking(text), line)
                                                             for why, text, line in UNKNOWN]
        + [kind(*row) for row in of_kind(L_INFO)])
