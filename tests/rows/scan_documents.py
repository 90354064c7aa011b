"""Scan documents, and what `one` prints (docs/FORMATS.md, "Paths" and "Scan documents")."""
from tests.rows import V, prints, rejects, unread
from tests.rows.documents import of_kind
from tests.rows.forms import document, entries, sources, statement

ONE = sources(b"obj/b.o|B|")
TWO = sources(b"a.o|A|B", b"b.o|B|")
ALL = (b'{"revision":0,"rules":[{"work-directory":"/w","primary-output":"./o//a.o","outputs":["x",'
       b'{"y":[1,2.5e3,null]}],'
       b'"provides":[{"logical-name":"A","source-path":"a","compiled-module-path":"x/../A.pcm",'
       b'"is-interface":false,'
       b'"unique-on-source-path":false}],"requires":[{"logical-name":"A\\u002eb",'
       b'"lookup-method":"by-name"}]},'
       b'{"primary-output":"\\/b\\\\\xc3\xa9.o","provides":[{"logical-name":"A.b"}]}],"version":0}')
EMPTY = b'{"version":1,"rules":[]}'
TWO_STATEMENTS = statement(b"a.o", b"mod/A.bmi", b"mod/B.bmi") + statement(b"b.o", b"mod/B.bmi")
NAME, PATH, COUNT = 1024, 4096, 65_536

# why, the document, the line of the error after `scan 0: `
DOCUMENTS = [
    ("* version 2", b'{"version":2,"rules":[]}', b"S2 BadVersion document"),
    ("no version", b'{"rules":[]}', b"S2 BadVersion document"),
    ("no version, and rules of another type", b'{"rules":7}', b"S2 BadVersion document"),
    ("rules of another type", b'{"version":1,"rules":{}}', b"S3 BadShape document member rules"),
    ("no rules", b'{"version":1}', b"S3 BadShape document member rules"),
    ("null for the rules", b'{"version":1,"rules":null}', b"S3 BadShape document member rules"),
    ("no end", b'{"version":1,"rules":[]', b"S1 NotJson document"),
    ("a byte that is no UTF-8, in a member that nobody reads",
     b'{"version":1,"rules":[],"x":"\xff"}', b"S1 NotJson document"),
    ("a byte that is no UTF-8, in a path", document(b'{"primary-output":"a\xff.o"}'),
     b"S1 NotJson document"),
    ("a number too small, deep in a member that nobody reads",
     b'{"version":1,"rules":[],"x":[{"y":[0,-1e309]}]}', b"S1 NotJson document"),
    ("arrays too deep, and nothing in them",
     b'{"version":1,"rules":[],"x":' + b"[" * 127 + b"]" * 127 + b"}", b"S1 NotJson document"),
    ("lists twice, the last one faulty", b'{"rules":[],"version":1,"rules":[{}]}',
     b"S4 NoPrimaryOutput rule 0"),]

# why, the rule, the line of the error after `scan 0: `
RULES = [
    ("a number for a rule", b"7", b"S3 BadShape rule 0 member rule"),
    ("a number for the object", b'{"primary-output":7}',
     b"S3 BadShape rule 0 member primary-output"),
    ("an array for the work directory",
     b'{"work-directory":[]}', b"S3 BadShape rule 0 member work-directory"),
    ("a text for what is provided, and no object", b'{"provides":"A"}',
     b"S3 BadShape rule 0 member provides"),
    ("* a text for what is provided",
     b'{"primary-output":"a.o","provides":"x"}', b"S3 BadShape rule 0 member provides"),
    ("* a text for what is required, and no object", b'{"requires":"x"}',
     b"S3 BadShape rule 0 member requires"),
    ("* no object", b"{}", b"S4 NoPrimaryOutput rule 0"),
    ("no object comes before an entry's shape", b'{"provides":[7]}', b"S4 NoPrimaryOutput rule 0"),
    ("null for the object", b'{"primary-output":null}', b"S4 NoPrimaryOutput rule 0"),
    ("the path comes before an entry's shape", b'{"primary-output":"/a/../..","requires":[7]}',
     b"S7 BadPath rule 0 N2 AboveRoot"),
    ("a number for an entry", b'{"primary-output":"a.o","provides":[7]}',
     b"S3 BadShape rule 0 provides 0 member entry"),
    ("* a number for a truth value",
     b'{"primary-output":"a.o","provides":[{"logical-name":"A","is-interface":1}]}',
     b"S3 BadShape rule 0 provides 0 member is-interface"),
    ("an entry's shape comes before its name",
     b'{"primary-output":"a.o","provides":[{"logical-name":"a..b","is-interface":0}]}',
     b"S3 BadShape rule 0 provides 0 member is-interface"),
    ("another way to look up",
     b'{"primary-output":"a.o","requires":[{"logical-name":"A","lookup-method":"other"}]}',
     b"S3 BadShape rule 0 requires 0 member lookup-method"),
    ("a module that is unique by its source",
     b'{"primary-output":"a.o","provides":[{"logical-name":"A","unique-on-source-path":true}]}',
     b"S5 HeaderUnit rule 0 provides 0"),
    ("a required module that is unique by its source",
     b'{"primary-output":"a.o","requires":[{"logical-name":"A","unique-on-source-path":true}]}',
     b"S5 HeaderUnit rule 0 requires 0"),
    ("a module that is looked up as a quoted header",
     b'{"primary-output":"a.o","requires":[{"logical-name":"A","lookup-method":"include-quote"}]}',
     b"S5 HeaderUnit rule 0 requires 0"),
    ("* a header unit with a faulty name",
     b'{"primary-output":"a.o","requires":[{"logical-name":"a..b",'
     b'"lookup-method":"include-angle"}]}', b"S5 HeaderUnit rule 0 requires 0"),
    ("* a faulty name", b'{"primary-output":"a.o","provides":[{"logical-name":"a..b"}]}',
     b"S6 BadName rule 0 provides 0"),
    ("a faulty name comes before a faulty path",
     b'{"primary-output":"a.o","provides":[{"logical-name":"A"},{"logical-name":"a..b",'
     b'"compiled-module-path":""}]}', b"S6 BadName rule 0 provides 1"),
    ("an empty name is required after another",
     b'{"primary-output":"a.o","requires":[{"logical-name":"A"},{"logical-name":""}]}',
     b"S6 BadName rule 0 requires 1"),
    ("an empty name in the second rule",
     b'{"primary-output":"a.o"},{"primary-output":"b.o","requires":[{"logical-name":"A"},'
     b'{"logical-name":""}]}', b"S6 BadName rule 1 requires 1"),
    ("* an empty path",
     b'{"primary-output":"a.o","provides":[{"logical-name":"A","compiled-module-path":""}]}',
     b"S7 BadPath rule 0 provides 0 N1 Empty"),]

# the object's path, JSON's escapes in it, the work directory or None, and the fault
LONG_PATH = b"a" * PATH
PATHS = [(b"", None, b"N1 Empty"), (b"a/..", None, b"N1 Empty"), (b"/", None, b"N1 Empty"),
         (b"./.", None, b"N1 Empty"),
         (b"a|b/..", None, b"N1 Empty"),
         (b"/./b/../" + LONG_PATH + b"|/..", None, b"N1 Empty"), (b"", b"/w", b"N1 Empty"),
         (b"..", b"/w", b"N1 Empty"),
         (b"/a/../..", None, b"N2 AboveRoot"), (b"/..|", None, b"N3 Unwritable"),
         (b"/../a|b", None, b"N2 AboveRoot"),
         (b"/./b/../" + LONG_PATH + b"|/../..", None, b"N2 AboveRoot"),
         (b"../../x", b"/w", b"N2 AboveRoot"),
         (b"a|b/../c", None, b"N3 Unwritable"), (b"a\\n", None, b"N3 Unwritable"),
         (b"\\u0000", None, b"N3 Unwritable"),
         (b"a\\u0000", None, b"N3 Unwritable"), (b"\\r", None, b"N3 Unwritable"),
         (b"\\rb", None, b"N3 Unwritable"),
         (b"ab\\n|", None, b"N3 Unwritable"), (b"a|b", b"/w", b"N3 Unwritable"),
         (b"./b/../" + LONG_PATH + b"|", None, b"N3 Unwritable"),
         (b"/./b/../" + LONG_PATH + b"|", None, b"N3 Unwritable"),
         (LONG_PATH + b"a", None, b"N4 TooLong"),]

# names of modules, and strings that are not names, with JSON's escapes
NAMES = [b"A", b"M:P", b"a.b:c.d", b"std", b"\xc3\xa9", b"a-b", b"a-b_c", b"a%b", b"1", b"\\u0061",
         b"a{}*?", b"n" * NAME]
NO_NAMES = [b"", b".", b":", b"a:b:c", b"a..b", b"a.", b".a", b":a", b"a.:b", b"a b", b"a/b",
            b"a=b", b"a|b", b"a$b", b"a'b", b'a\\"b', b"a\\\\b", b"a\\tb", b"\\u007f", b"a\\u007f",
            b"a\\u0000", b"n" * (NAME + 1)]

# why, the document, the statements
COLLATED = [
    ("* a rule that provides", ONE, statement(b"obj/b.o", b"mod/B.bmi")),
    ("* two rules, in their order", TWO, TWO_STATEMENTS),
    ("* a requirement twice, and a partition", sources(b"main.o||A A M:P", b"a.o|A|", b"p.o|M:P|"),
     statement(b"main.o", b"", b"mod/A.bmi mod/M-P.bmi") + statement(b"a.o", b"mod/A.bmi")
     + statement(b"p.o", b"mod/M-P.bmi")),
    ("* all members", ALL, statement(b"/w/o/a.o", b"/w/A.pcm", b"mod/A.b.bmi")
     + statement(b"/b\\\xc3\xa9.o", b"mod/A.b.bmi")),
    ("* no rules", b'{"version":0,"revision":0,"rules":[]}', b""),
    ("* a work directory",
     document(b'{"primary-output":"a.o","work-directory":"/w","provides":[{"logical-name":"A"}]}'),
     statement(b"/w/a.o", b"mod/A.bmi")),
    ("no rules and no revision", b'{"version":0,"rules":[]}', b""),
    ("a great number deep in a member that nobody reads",
     b'{"version":1,"rules":[],"x":[{"y":[0,18446744073709551616]}]}', b""),
    ("the smallest number deep in a member that nobody reads",
     b'{"version":1,"rules":[],"x":[{"y":[0,-1e308]}]}', b""),
    ("arrays as deep as may be, and nothing in them",
     b'{"version":1,"rules":[],"x":' + b"[" * 126 + b"]" * 126 + b"}", b""),
    ("members that nobody reads may hold anything",
     b'{"revision":"x","version":0,"other":{},"rules":[{"primary-output":"a.o","source-path":7,\n'
     b'"outputs":3,"requires":[{"logical-name":"A","compiled-module-path":5,"source-path":{},'
     b'"lookup-method":"by-name"}]},\n'
     b'{"primary-output":"b.o","provides":[{"logical-name":"A"}]}]}',
     statement(b"a.o", b"", b"mod/A.bmi") + statement(b"b.o", b"mod/A.bmi")),
    ("a member twice, once with an escape in its name",
     document(b'{"primary-output":"x.o","requires":[{"logical-name":"\\u0041"}],'
              b'"primary-\\u006futput":"a\\u002eo"}',
              b'{"primary-output":"b.o","provides":[{"logical-name":"A"}]}'),
     statement(b"a.o", b"", b"mod/A.bmi") + statement(b"b.o", b"mod/A.bmi")),
    ("a member of a rule three times",
     document(b'{"primary-output":1,"primary-output":"a","primary-output":"b"}'), statement(b"b")),
    ("lists twice", b'{"rules":[{}],"version":1,"rules":[]}', b""),
    ("a path out of its work directory",
     document(b'{"primary-output":"../o/a.o","work-directory":"/w/b"}'), statement(b"/w/o/a.o")),
    ("work directories that are relative, empty, or next to an absolute path",
     document(b'{"primary-output":"a.o","work-directory":"../w"}',
              b'{"primary-output":"/x/y","work-directory":"/w"}',
              b'{"primary-output":"./a.o","work-directory":""}'),
     statement(b"../w/a.o") + statement(b"/x/y") + statement(b"a.o")),
    ("a module's file in its work directory",
     document(b'{"primary-output":"a.o","work-directory":"/w","provides":'
              b'[{"logical-name":"A","compiled-module-path":"./x.bmi"}]}'),
     statement(b"/w/a.o", b"/w/x.bmi")),
    ("a partition, an empty work directory, and null for the required modules",
     document(b'{"primary-output":"a.o","work-directory":"","provides":[{"logical-name":"M:P"}],'
              b'"requires":null}'), statement(b"a.o", b"mod/M-P.bmi")),
    ("modules with a file of their own and without",
     document(b'{"primary-output":"../o/a.o","work-directory":"/w/b","provides":'
              b'[{"logical-name":"A","compiled-module-path":"a.pcm"}]}',
              b'{"primary-output":"b.o","work-directory":"/w","provides":[{"logical-name":"B"}]}'),
     statement(b"/w/o/a.o", b"/w/b/a.pcm") + statement(b"/w/b.o", b"mod/B.bmi")),
    ("the file that a requirement names counts for nothing",
     document(b'{"primary-output":"main.o","work-directory":"/w","requires":'
              b'[{"logical-name":"A","compiled-module-path":"b.pcm"}]}',
              b'{"primary-output":"a.o","work-directory":"/w","provides":'
              b'[{"logical-name":"A","compiled-module-path":"./a$.pcm"}]}'),
     statement(b"/w/main.o", b"", b"/w/a$$.pcm") + statement(b"/w/a.o", b"/w/a$$.pcm")),
    ("modules that are reached through others are no inputs",
     sources(b"a.o||B", b"b.o|B|C", b"c.o|C|"), statement(b"a.o", b"", b"mod/B.bmi")
     + statement(b"b.o", b"mod/B.bmi", b"mod/C.bmi") + statement(b"c.o", b"mod/C.bmi")),
    ("inputs in order of first mention", sources(b"a.o|B A|", b"main.o||C A C B A", b"c.o|C|"),
     statement(b"a.o", b"mod/B.bmi mod/A.bmi") + statement(b"main.o", b"",
                                                           b"mod/C.bmi mod/A.bmi mod/B.bmi")
     + statement(b"c.o", b"mod/C.bmi")),
    ("of two modules in a chain the first is required",
     sources(b"a.o|A|B", b"b.o|B|", b"main.o||A"),
     TWO_STATEMENTS + statement(b"main.o", b"", b"mod/A.bmi")),
    ("the longest path", document(b'{"primary-output":"./b/../%s"}' % LONG_PATH),
     statement(LONG_PATH)),
    ("the longest path, and a name before ..",
     document(b'{"primary-output":"x/../%s"}' % LONG_PATH), statement(LONG_PATH)),
]

# why, the document, the directory and the extension of modules, the statements
DIRECTORIES = [
    ("* a directory of bytes that are escaped", sources(b"a.o|A|"), "my mods/$x:y", ".bmi",
     statement(b"a.o", b"my$ mods/$$x$:y/A.bmi")),
    ("a directory of any bytes, and an extension", ONE, "my mods/$x:y", ".pcm",
     statement(b"obj/b.o", b"my$ mods/$$x$:y/B.pcm")),
    ("files in order of provision, and no directory puts none before them", document(
        b'{"primary-output":"./p//q.o","provides":[{"logical-name":"M:P"},{"logical-name":"A",'
        b'"is-interface":false}]}', b'{"primary-output":"m.o","provides":null,"requires":[]}'), "",
     ".bmi", statement(b"p/q.o", b"M-P.bmi A.bmi") + statement(b"m.o")),]


# ---- counts and sizes

def rules(count, ending=b".o"):
    return document(*(b'{"primary-output":"%d%s"}' % (it, ending) for it in range(count)))


def of_entries(member, count):
    names = b" ".join(b"m%d" % (it if member == b"provides" else 0) for it in range(count))
    return document(b'{"primary-output":"a.o","%s":[%s]}' % (member, entries(names)))


# 260 files of 4,096 bytes at most are more than the 1,048,576 bytes of a line
LONG_RULE = b'{"primary-output":"b.o","provides":[%s]}' % b",".join(
    b'{"logical-name":"m%d","compiled-module-path":"%s%d"}' % (it, b"a" * 4093, it)
    for it in range(260))
A_RULE, AN_ENTRY = b'{"primary-output":"a"},', b'{"logical-name":"A"},'

# why, how the document is made, the line of the error
COUNTS = [
    ("a rule too many", lambda: rules(COUNT + 1), b"scan 0: S8 TooLarge document"),
    ("a rule too many, all of one object", lambda: document(*[b'{"primary-output":"x"}'] * (
        COUNT + 1)), b"scan 0: S8 TooLarge document"),
    ("a rule too many, and the first one faulty", lambda: rules(COUNT + 1).replace(b"primary",
                                                                                   b"Primary", 1),
     b"scan 0: S8 TooLarge document"),
    ("a rule too many, and the last ones faulty", lambda: document(A_RULE * (COUNT - 1) + b"{},{}"),
     b"scan 0: S8 TooLarge document"),
    ("the last rule faulty of as many as may be", lambda: document(A_RULE * (COUNT - 1) + b"{}"),
     b"scan 0: S4 NoPrimaryOutput rule 65535"),
    ("the last entry faulty of as many as may be", lambda: document(
        b'{"primary-output":"a","requires":[%s7]}' % (AN_ENTRY * (COUNT - 1))),
     b"scan 0: S3 BadShape rule 0 requires 65535 member entry"),
    ("an entry too many, and the last ones faulty", lambda: document(
        b'{"primary-output":"a","requires":[%s7,7]}' % (AN_ENTRY * (COUNT - 1))),
     b"scan 0: S8 TooLarge rule 0"),
    ("as many requirements as may be", lambda: of_entries(b"requires", COUNT),
     b"M5 ModuleUnknown m0 in a.o"),
    ("a requirement too many", lambda: of_entries(b"requires", COUNT + 1),
     b"scan 0: S8 TooLarge rule 0"),
    ("a provided module too many", lambda: of_entries(b"provides", COUNT + 1),
     b"scan 0: S8 TooLarge rule 0"),
    ("a statement too long to write", lambda: document(LONG_RULE),
     b"Y2 StatementTooLong statement 0"),]

CALL = ["one", "t.ddi", "mod", ".bmi"]


def outcome(why, text, line):
    """The error of a document, or, if it has none, a dyndep file without statements."""
    files = {"t.ddi": text}
    return rejects(why, CALL, files, b"scan 0: " + line) if line else prints(why, CALL, files, V)


def object_at(path, folder):
    return document(b'{"primary-output":"%s"%s}' % (path, b',"work-directory":"%s"' % folder
                                                    if folder is not None else b""))


def providing(name):
    return {"t.ddi": document(
        b'{"primary-output":"a.o","provides":[{"logical-name":"%s","compiled-module-path":"b"}]}'
        % name)}


def requiring(name):
    return {"t.ddi": sources(b"a.o||x").replace(b'"x"', b'"%s"' % name)}


def unescaped(name):
    return name.replace(b"\\u0061", b"a")


ROWS = ([outcome(*row) for row in DOCUMENTS]
        + [outcome(why, document(rule), line) for why, rule, line in RULES]
        + [outcome(f"{path[:20]} in {folder}", object_at(path, folder),
                   b"S7 BadPath rule 0 " + fault) for path, folder, fault in PATHS]
        + [prints(why, CALL, {"t.ddi": text}, V + out) for why, text, out in COLLATED]
        + [prints(why, ["one", "t.ddi", folder, ending], {"t.ddi": text}, V + out)
           for why, text, folder, ending, out in DIRECTORIES]
        + [prints(f"the name {name[:20]}", CALL, providing(name), V + statement(b"a.o", b"b"))
           for name in NAMES]
        + [rejects(f"no name {name[:20]}", CALL, providing(name),
                   b"scan 0: S6 BadName rule 0 provides 0") for name in NO_NAMES]
        + [rejects(f"the name {name[:20]} required", CALL, requiring(name),
                   b"M5 ModuleUnknown %s in a.o" % unescaped(name)) for name in NAMES]
        + [rejects(f"no name {name[:20]} required", CALL, requiring(name),
                   b"scan 0: S6 BadName rule 0 requires 0") for name in NO_NAMES]
        + [outcome(f"cut to {size} bytes", ONE[:size], b"S1 NotJson document")
           for size in range(1, len(ONE))]
        + [rejects(why, CALL, {"t.ddi": text}, line) for why, text, line in COUNTS]
        + [prints("as many rules as may be", CALL, {"t.ddi": lambda: rules(COUNT)},
                  V + b"".join(statement(b"%d.o" % it) for it in range(COUNT)))]
        + [outcome(*row) for row in of_kind(EMPTY)]
        + [unread("* no file", CALL, {}, b"t.ddi")])
