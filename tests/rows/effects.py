"""Effects of dyndep files on edge lists, and what `effect` prints (docs/FORMATS.md,
"The effect of a dyndep file")."""
from tests.rows import V, prints, rejects, unread
from tests.rows.dyndep_files import TWO
from tests.rows.forms import edge, statement
from tests.rows.listings import AFTER, LIST

A_EDGE, A_STATEMENT = edge(b"a.o: cxx a.cpp || t.dd"), statement(b"a.o", b"mod/A.bmi", b"mod/B.bmi")
B_STATEMENT = statement(b"b.o", b"mod/B.bmi")
EIGHT = b"".join(b"build %c: r\n" % it for it in b"abcdefgh")
NINE = range(9)

# why, the dyndep file's name, the listing, the text after the version line, the listing after it.
# Names are compared as canonical paths, and added paths come last.
CHANGED = [("* two statements", "t.dd", LIST, TWO[len(V):], AFTER),
           ("the name and the binding in other forms",
            "./t.dd", LIST.replace(b"= t.dd", b"= ./x/../t.dd"), TWO[len(V):], AFTER),
           ("all names in other forms",
            "./t.dd", b"build a.o: cxx a.cpp || ./x/../t.dd\n  dyndep = ./x/../t.dd\n",
            b"build .//a.o | mod/./A.bmi: dyndep\n  restat = 1\n",
            b"build a.o | mod/A.bmi: cxx a.cpp || t.dd\n  dyndep = t.dd\n  restat = 1\n"),
           ("* an implicit output", "./t.dd", edge(b"a.o | a.d: cxx a.cpp || t.dd"),
            b"build a.d | mod/A.bmi: dyndep\n", edge(b"a.o | a.d mod/A.bmi: cxx a.cpp || t.dd")),
           ("an implicit output, and the name as it is", "t.dd",
            edge(b"a.o | a.d: cxx a.cpp || t.dd"), b"build a.d | mod/A.bmi: dyndep\n",
            edge(b"a.o | a.d mod/A.bmi: cxx a.cpp || t.dd")),
           ("inputs after those that are there, and a flag that stays", "t.dd",
            edge(b"a.o: cxx a.cpp | a.h t.h || t.dd") + b"  restat = 1\n",
            b"build a.o: dyndep | mod/C.bmi mod/B.bmi\n",
            edge(b"a.o: cxx a.cpp | a.h t.h mod/C.bmi mod/B.bmi || t.dd") + b"  restat = 1\n"),
           ("no statements and no edges", "t.dd", b"", b"", b""),
           ("* nine edges, of which one is changed", "t", EIGHT + edge(b"i: r || t", b"t"),
            b"build i: dyndep | a\n", EIGHT + edge(b"i: r | a || t", b"t")),
           ("nine edges, each of which makes a module's file and needs the file of the first",
            "t.dd", b"".join(edge(b"%d.o: cxx %d.cpp || t.dd" % (it, it)) for it in NINE),
            b"".join(statement(b"%d.o" % it, b"mod/%d.bmi" % it, b"mod/0.bmi") for it in NINE),
            b"".join(edge(b"%d.o | mod/%d.bmi: cxx %d.cpp | mod/0.bmi || t.dd" % (it, it, it))
                     + b"  restat = 1\n" for it in NINE)),]


def wide(start, byte):
    """A line that keeps the limit, and does not with the words of another."""
    return start + b"".join(b" %d%s" % (it, byte * 4000) for it in range(1, 151))


# why, the dyndep file's name, the edge list, the text after the version line, the line of the error
REJECTED = [
    ("the name above the root is checked first", "/..", b"x\n", b"x\n", b"name: N2 AboveRoot"),
    ("the empty name", "", b"x\n", b"x\n", b"name: N1 Empty"),
    ("the edge list is checked before the dyndep file", "t.dd", b"x\n", b"x\n",
     b"edges: line 1: E3 Form"),
    ("another statement", "t.dd", LIST, b"rule cc\n", b"line 2: Y8 BadLine"),
    ("a path that two edges make", "t.dd", b"build a.o: cxx a.cpp\nbuild ./a.o: cxx b.cpp\n", b"",
     b"E1 ProducedTwice a.o"),
    ("* no statements", "t.dd", edge(b"a.o: cxx"), b"", b"E2 DyndepNotInput a.o"),
    ("a statement", "t.dd", edge(b"a.o: cxx a.cpp"), A_STATEMENT, b"E2 DyndepNotInput a.o"),
    ("a statement in two forms", "t.dd", LIST, b"build a.o: dyndep\nbuild ./a.o: dyndep\n",
     b"E4 StatementTwice a.o"),
    ("a statement in two forms, and one of the other edge", "t.dd", LIST,
     b"build a.o: dyndep\nbuild ./a.o: dyndep\nbuild b.o: dyndep\n", b"E4 StatementTwice a.o"),
    ("it comes before an edge without a statement", "t.dd", LIST, b"build a.o | lib: dyndep\n" * 2,
     b"E4 StatementTwice a.o"),
    ("an edge that names no dyndep file", "t.dd", A_EDGE + b"build b.o: cxx b.cpp || t.dd\n",
     b"build a.o | mod/A.bmi: dyndep | mod/B.bmi\nbuild b.o | mod/B.bmi: dyndep\n",
     b"E5 NotBound b.o"),
    ("an edge that names no dyndep file, next to a library", "t.dd",
     A_EDGE + b"build b.o: cxx b.cpp || t.dd\nbuild lib: ar a.o b.o\n", A_STATEMENT + B_STATEMENT,
     b"E5 NotBound b.o"),
    ("edges that name another dyndep file", "u.dd", LIST,
     b"build a.o | mod/A.bmi: dyndep | mod/B.bmi\nbuild b.o | mod/B.bmi: dyndep\n",
     b"E5 NotBound a.o"),
    ("it comes before a statement twice", "t.dd", LIST,
     b"build a.o | lib: dyndep\n" * 2 + b"build x.o: dyndep\n", b"E5 NotBound x.o"),
    ("* the second edge", "t.dd", LIST, A_STATEMENT, b"E6 NotMentioned b.o"),
    ("no flag", "t.dd", LIST, b"build a.o | mod/A.bmi: dyndep | mod/B.bmi\n",
     b"E6 NotMentioned b.o"),
    ("it comes before a file that is added twice", "t.dd", LIST, b"build a.o | lib: dyndep\n",
     b"E6 NotMentioned b.o"),
    ("an edge makes it", "t.dd", LIST + b"build mod/B.bmi: cp x\n", A_STATEMENT + B_STATEMENT,
     b"E7 AddedTwice mod/B.bmi"),
    ("an edge makes it, and no flags", "t.dd", LIST + b"build mod/B.bmi: cp x\n",
     b"build a.o | mod/A.bmi: dyndep | mod/B.bmi\nbuild b.o | mod/B.bmi: dyndep\n",
     b"E7 AddedTwice mod/B.bmi"),
    ("two statements add it", "t.dd", LIST,
     b"build a.o | mod/A.bmi: dyndep\nbuild b.o | mod/B.bmi mod/../mod/A.bmi: dyndep\n",
     b"E7 AddedTwice mod/A.bmi"),
    ("a statement adds its own output", "t.dd", A_EDGE, b"build a.o | a.o: dyndep\n",
     b"E7 AddedTwice a.o"),
    ("an empty path", "t.dd", LIST, b"build a/..: dyndep\n",
     b"E8 BadPath statement 0 path 0 N1 Empty"),
    ("the last path of a statement, before one without an edge", "t.dd", LIST,
     b"build x.o: dyndep\nbuild b.o | mod/B.bmi: dyndep | mod/C.bmi /..\n",
     b"E8 BadPath statement 1 path 3 N2 AboveRoot"),
    ("two lines that keep the limit", "t", wide(b"build a:cxx", b"a") + b" t\n dyndep=t\n",
     wide(b"build a:dyndep|", b"b") + b"\n", b"E9 ListingTooLong a"),
]

# why, the dyndep file's name, the files that are there, the one that cannot be read
UNREAD = [
    ("* neither", "t.dd", {}, b"edges"),
    ("the listing", "t.dd", {"t.dd": V}, b"edges"),
    ("* the dyndep file", "t.dd", {"edges": LIST}, b"t.dd"),
    ("the dyndep file, before the name is checked", "/..", {"edges": b"x\n"}, b"t.dd"),
]


def call(name):
    return ["effect", name, "edges", "t.dd"]


ROWS = ([prints(why, call(name), {"edges": edges, "t.dd": V + text}, out)
         for why, name, edges, text, out in CHANGED]
        + [rejects(why, call(name), {"edges": edges, "t.dd": V + text}, line)
           for why, name, edges, text, line in REJECTED] + [unread(why, call(name), files, file)
                                                            for why, name, files, file in UNREAD]
        + [rejects("a dyndep file without a version", call("t.dd"), {"edges": LIST, "t.dd": b"x\n"},
                   b"line 1: Y4 NoVersion")])
