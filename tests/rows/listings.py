"""Edge lists, and what `order` prints (docs/FORMATS.md, "Edge lists" and "The effect of a dyndep
file"). A dyndep file that no edge names and that has no statements changes no edge, so `effect`
prints the same errors."""
from tests.rows import V, prints, rejects, unread
from tests.rows.dyndep_files import LINE
from tests.rows.forms import edge

# why, the edge list, the line of the error
FAULTS = [
    ("a line of another form after a binding", b"build a: cp a\n  restat = 1\nrule cp\n",
     b"edges: line 3: E3 Form"),
    ("a blank line above a binding", b"build a: r\n\n  restat = 1\n", b"edges: line 3: E3 Form"),
    ("a binding twice", b"build a: r\n  restat = 1\n  restat = 1\n", b"edges: line 3: E3 Form"),
    ("another binding, after a continuation", b"build a: r $\n b\n  depfile = d\n",
     b"edges: line 3: E3 Form"),
    ("* another binding", b"build a: r\n  depfile = x\n", b"edges: line 2: E3 Form"),
    ("a binding and no edge, before its path", b"  dyndep = a/..\n", b"edges: line 1: E3 Form"),
    ("no output", b"build : r a\n", b"edges: line 1: E3 Form"),
    ("no rule", b"build a:\n", b"edges: line 1: E3 Form"),
    ("a rule with a plus sign in its name", b"build a: c+x\n", b"edges: line 1: E3 Form"),
    ("implicit inputs after order-only ones", b"build a: r || b | c\n", b"edges: line 1: E3 Form"),
    ("a validation", b"build a: r |@ b\n", b"edges: line 1: E3 Form"),
    ("another statement", b"rule r\n", b"edges: line 1: E3 Form"),
    ("a word alone", b"x\n", b"edges: line 1: E3 Form"),
    ("an empty path among inputs", b"build a: r b a/.. ../b\n", b"edges: line 1: E3 Path N1 Empty"),
    ("a dyndep file above the root", b"build a: r\n dyndep = /../t\n",
     b"edges: line 2: E3 Path N2 AboveRoot"),
    ("* an output above the root", b"build /..: r\n", b"edges: line 1: E3 Path N2 AboveRoot"),
    ("a path that is too long", b"build " + b"a" * 4097 + b": r\n",
     b"edges: line 1: E3 Path N4 TooLong"),
    ("a line that is too long", b"build " + b"a" * LINE + b": r\n",
     b"edges: line 1: N5 LineTooLong"),
    ("a last line without its end", b"build a: r\nbuild b", b"edges: line 2: N6 Truncated"),
    ("a first line without its end", b"build a.o: cxx", b"edges: line 1: N6 Truncated"),
    ("a variable in another statement", b"build a: r\nrule $x\n",
     b"edges: line 2: N9 Variable at 5"),
    ("a variable in an output", b"build $x: cxx\n", b"edges: line 1: N9 Variable at 6"),
    ("one path in two forms", b"build a: r\nbuild b ./a: r\n", b"E1 ProducedTwice a"),
    ("one in two forms, in the first line of two edges",
     b"build a.o: cxx a.cpp\nbuild ./a.o: cxx b.cpp\n", b"E1 ProducedTwice a.o"),
    ("an implicit output", b"build a: cp b\nbuild b | ./a: cp c\n", b"E1 ProducedTwice a"),
    ("* an output and an implicit one", b"build a: r\nbuild b | ./a: r\n", b"E1 ProducedTwice a"),
    ("the first of the edge's outputs that is made before",
     b"build a.o: cxx a.cpp\nbuild b.o: cxx b.cpp\nbuild ./b.o a.o: cp x\n",
     b"E1 ProducedTwice b.o"),
    ("twice by one edge", b"build x | y x: cp\n", b"E1 ProducedTwice x"),
    ("it comes before an edge that does not wait", edge(b"a.o: cxx a.cpp") + b"build a.o: cp x\n",
     b"E1 ProducedTwice a.o"),
    ("an edge that does not wait for its file", edge(b"a: r b"), b"E2 DyndepNotInput a"),
    ("the second edge does not wait",
     edge(b"b.o: cxx b.cpp || t.dd") + edge(b"a.o a.d: cxx a.cpp"), b"E2 DyndepNotInput a.o"),
]

LIST = (edge(b"a.o: cxx a.cpp || t.dd") + edge(b"b.o: cxx b.cpp || t.dd")
        + b"build lib: ar a.o b.o\n")
AFTER = (b"build a.o | mod/A.bmi: cxx a.cpp | mod/B.bmi || t.dd\n  dyndep = t.dd\n  restat = 1\n"
         b"build b.o | mod/B.bmi: cxx b.cpp || t.dd\n  dyndep = t.dd\n  restat = 1\n"
         b"build lib: ar a.o b.o\n")
LONG = 65_536

# why, the listing, the first outputs of its edges in their order
ORDERS = [("* after an effect", AFTER, b"b.o a.o lib"),
          ("* no edges", b"", b""),
          ("a comment and blank lines", b"# none\n \n\n", b""),
          ("edges that are in order", LIST, b"a.o b.o lib"),
          ("implicit outputs and inputs", b"build a.o | mod/A.bmi: cxx a.cpp | mod/B.bmi || t.dd\n"
           b"build b.o | mod/B.bmi: cxx b.cpp || t.dd\nbuild lib: ar a.o b.o\n", b"b.o a.o lib"),
          ("a header that is made of an object",
           b"build a.o: cxx a.cpp\nbuild b.o: cxx b.cpp gen.h\nbuild gen.h: gen a.o\n",
           b"a.o gen.h b.o"),
          ("a header that is made of an object, and edges that name a dyndep file",
           edge(b"a.o: cxx a.cpp || t.dd") + edge(b"b.o: cxx b.cpp gen.h || t.dd")
           + b"build gen.h: gen a.o\n", b"a.o gen.h b.o"),
          ("an input twice", b"build a: r b b\nbuild b: r\n", b"b a"),
          ("inputs of all kinds, and an implicit output",
           b"build a: cc || b\nbuild b: cc | d\nbuild c | d: cc source\n", b"c b a"),
          ("* crooked lines",
           b"# x\r\nbuild  z/../a$\n   b | c:r-1 d||e\n # y\n restat = \n dyndep=./x/../e\n\n"
           b"build e : r_ $\r\n  f$ g|h\r\n", b"e ab"),
          ("control bytes", b"build a\tb\x01\x7f\x80: r\n", b"a?b??\x80"),
          ("a tab and DEL", b"build a\tb\x7f c: cp d\n", b"a?b?"),]

# why, the edge list, the line of the error
CYCLES = [("an edge that needs itself", b"build a: cc b\nbuild b: cc b\n", b"cycle b"),
          ("first outputs are named",
           b"build c: cp b\nbuild a d: cp c\nbuild b: cp a\n", b"cycle c -> b -> a"),
          ("* inputs of all kinds", b"build a: r c\nbuild b: r | a\nbuild c: r || b\n",
           b"cycle a -> c -> b"),
          ("after an effect",
           b"build a.o | mod/A.bmi: cxx a.cpp | mod/B.bmi || t.dd\n  dyndep = t.dd\n  restat = 1\n"
           b"build b.o | mod/B.bmi: cxx b.cpp gen.h || t.dd\n  dyndep = t.dd\n  restat = 1\n"
           b"build gen.h: gen a.o\n", b"cycle a.o -> b.o -> gen.h"),
          ("a control byte", b"build a\t: r a\t\n", b"cycle a?"),]

# why, the listing, as it is written again by an effect that changes nothing
WRITTEN = [("a comment and blank lines", b"# none\n \n\n", b""),
           ("no bytes", b"", b""),
           ("all lists, continuations and bindings in another order",
            b"build a $\n  ./b | x/../c : r.1 d $\r\n e | f || g $\n\n  restat = 1\n # a comment\n"
            b"  dyndep = ./g\n", b"build a b | c: r.1 d e | f || g\n  dyndep = g\n  restat = 1\n"),
           ("empty lists and an empty binding", b"build a |: r | ||\n restat =\n", b"build a: r\n"),
           ("paths in other forms, escapes, and bytes beyond ASCII",
            b"build a: r ./obj//x/../a.o obj/a.o /w/b /w/bc/x ../../x a/../../x //w/./b/ a$ "
            b"b$$c$:d\t\xff\n",
            b"build a: r obj/a.o obj/a.o /w/b /w/bc/x ../../x ../x /w/b a$ b$$c$:d\t\xff\n"),
           ("escapes in all places",
            b"build a$ b c | d: r e$$ | f$:g || h\n  dyndep = f$:g\n  restat = 1\n",
            b"build a$ b c | d: r e$$ | f$:g || h\n  dyndep = f$:g\n  restat = 1\n"),
           ("a dyndep file in two forms", edge(b"a.o: cxx a.cpp || ./t.dd", b"./x/../t.dd"),
            edge(b"a.o: cxx a.cpp || t.dd")),
           ("a dyndep file in two more", edge(b"b.o: cxx b.cpp || x//../t.dd", b"./x/../t.dd"),
            edge(b"b.o: cxx b.cpp || t.dd")),
           ("a dyndep file that is an input", edge(b"a.o: cxx a.cpp t.dd"),
            edge(b"a.o: cxx a.cpp t.dd")),
           ("a dyndep file that is an implicit input", edge(b"b.o: cxx b.cpp | b.h t.dd"),
            edge(b"b.o: cxx b.cpp | b.h t.dd")),
           ("edges that name another dyndep file", LIST, LIST),
           ("every byte that a path may have",
            *[b"build a: r%s\n" % b"".join(b" a%s%cb" % (b"$" if byte in b" $:" else b"", byte)
                                           for byte in range(1, 256) if byte not in b"\n\r|")] * 2),
           ("the longest line", *[b"build a: " + b"r" * (LINE - 10) + b"\n"] * 2),]


# ---- long graphs: as many edges as there may be rules

def listing(needs):
    return b"".join(b"build n%d: r%s\n" % (node, b"".join(b" n%d" % it for it in row))
                    for node, row in enumerate(needs))


def chain(count, *last):
    """Each edge needs the next one, and the last one these."""
    return [[node + 1] for node in range(count - 1)] + [list(last)]


# the four edges of two cycles have the highest numbers
AT = LONG - 4
TWO_CYCLES = chain(AT, AT + 2) + [[AT + 1], [AT, 0], [AT + 3], [AT + 2]]

# why, how the edge list is made, the line of the error
LONG_CYCLES = [("a long cycle", lambda: listing(chain(LONG, 0)),
                b"cycle " + b" -> ".join(b"n%d" % node for node in range(LONG))),
               ("a long chain to an edge that needs itself", lambda: listing(chain(LONG, LONG - 1)),
                b"cycle n%d" % (LONG - 1)),
               ("a long chain from a cycle to a cycle", lambda: listing(TWO_CYCLES),
                b"cycle n%d -> n%d" % (AT, AT + 1)),]

ORDER, UNCHANGED = ["order", "edges"], ["effect", "no.dd", "edges", "none.dd"]
ROWS = ([rejects(why, ORDER, {"edges": text}, line)
         for why, text, line in FAULTS + CYCLES + LONG_CYCLES]
        + [rejects(why.lstrip("* "), UNCHANGED, {"edges": text, "none.dd": V}, line)
           for why, text, line in FAULTS]
        + [prints(why, ORDER, {"edges": text}, b"".join(it + b"\n" for it in order.split()))
           for why, text, order in ORDERS]
        + [prints(why, UNCHANGED, {"edges": text, "none.dd": V}, written)
           for why, text, written in WRITTEN]
        + [prints("a long chain", ORDER, {"edges": lambda: listing(chain(LONG))},
                  b"".join(b"n%d\n" % node for node in reversed(range(LONG)))),
           rejects("a line that gets too long by the space after its colon", UNCHANGED,
                   {"edges": b"build a: r\nbuild bb:" + b"r" * (LINE - 10) + b"\n", "none.dd": V},
                   b"E9 ListingTooLong bb"), unread("* no file", ORDER, {}, b"edges")])
