"""Dyndep files, and what `show` prints (docs/FORMATS.md, "Lines,
tokens and assignments" and "Dyndep files")."""
from tests.rows import V, prints, rejects, unread

TWO = (V
       + b"build a.o | mod/A.bmi: dyndep | mod/B.bmi\n  restat = 1\nbuild b.o | mod/B.bmi: dyndep\n"
       b"  restat = 1\n")
ONE = V + b"build obj/b.o | mod/B.bmi: dyndep\n  restat = 1\n"

# why, the text after the version line, the line of the error
FAULTS = [
    ("* a last line without its end", b"build a.o: dyndep", b"line 2: N6 Truncated"),
    ("* a NUL", b"build a\x00b: dyndep\n", b"line 2: N7 Nul at 7"),
    ("* a CR in a word", b"build a\rb: dyndep\n", b"line 2: N8 LoneCr at 7"),
    ("* two CR before the line's end", b"build a: dyndep\r\r\n", b"line 2: N8 LoneCr at 15"),
    ("* a variable", b"build $x: dyndep\n", b"line 2: N9 Variable at 6"),
    ("a variable in braces", b"build ${x}: dyndep\n", b"line 2: N9 Variable at 6"),
    ("* an escape that there is not", b"build a$.b: dyndep\n", b"line 2: N10 BadEscape at 7"),
    ("* an escaped CR", b"build a$\rb: dyndep\n", b"line 2: N10 BadEscape at 7"),
    ("an escaped NUL, in a line of no form", b"a$\x00\r\n", b"line 2: N10 BadEscape at 1"),
    ("* a second version", V, b"line 2: Y6 SecondVersion"),
    ("an indented line and no statement", b"  restat = 1\n", b"line 2: Y7 Indent"),
    ("* a blank line above a binding", b"build a: dyndep\n\n  restat = 1\n", b"line 4: Y7 Indent"),
    ("a second binding", b"build a: dyndep\n  restat = 1\n  restat = 1\n", b"line 4: Y7 Indent"),
    ("* another statement", b"rule cc\n", b"line 2: Y8 BadLine"),
    ("a continuation before build", b"$\nbuild a: dyndep\n", b"line 2: Y8 BadLine"),
    ("no rule", b"build a\n", b"line 2: Y8 BadLine"),
    ("implicit outputs and no rule", b"build a | b\n", b"line 2: Y8 BadLine"),
    ("two rules", b"build a: dyndep | b : c\n", b"line 2: Y8 BadLine"),
    ("an error after continuations, by its physical line", b"build a $\n $\n : dyndep\nx\n",
     b"line 5: Y8 BadLine"),
    ("* no output", b"build : dyndep\n", b"line 2: Y9 NoOutput"),
    ("build alone", b"build\n", b"line 2: Y9 NoOutput"),
    ("* two outputs", b"build a b: dyndep\n", b"line 2: Y10 SecondOutput"),
    ("* another rule", b"build a: phony\n", b"line 2: Y11 BadRule"),
    ("the rule is empty", b"build a:\n", b"line 2: Y11 BadRule"),
    ("another rule after continuations", b"build a$\n$\n: phony\n", b"line 2: Y11 BadRule"),
    ("* an explicit input", b"build a: dyndep x\n", b"line 2: Y12 ExplicitInput"),
    ("* an order-only input", b"build a: dyndep || x\n", b"line 2: Y13 OrderOnly"),
    ("* a validation", b"build a: dyndep |@ x\n", b"line 2: Y14 Validation"),
    ("* another binding", b"build a: dyndep\n  depfile = x\n", b"line 3: Y15 BadBinding"),]

# why, the whole text, the line of the error
FAULTS_OF_VERSION = [("* nothing", b"", b"line 1: Y4 NoVersion"),
                     ("a comment alone", b"# only\n\n", b"line 3: Y4 NoVersion"),
                     ("a statement", b"build a: dyndep\n", b"line 1: Y4 NoVersion"),
                     ("a binding", b"  restat = 1\n", b"line 1: Y4 NoVersion"),
                     ("a line of no form", b"x\n", b"line 1: Y4 NoVersion"),
                     ("* version 1.1", b"ninja_dyndep_version = 1.1\n", b"line 1: Y5 BadVersion"),
                     ("version 12", b"ninja_dyndep_version = 12\n", b"line 1: Y5 BadVersion"),
                     ("version 2", b"ninja_dyndep_version = 2\n", b"line 1: Y5 BadVersion"),
                     ("an error after lines that end in CR LF",
                      b"ninja_dyndep_version=1.0\r\n\r\nbuild a$\r\n  b.o: dyndep | : dyndep\n",
                      b"line 3: Y8 BadLine"),]

# the reason, the whole text, and the lines that are shown after the version line
SHOWN = [
    ("* two statements", TWO, TWO[len(V):]),
    ("* one statement", ONE, ONE[len(V):]),
    ("* no statement", V, b""),
    ("* escapes", V + b"build a.o | my$ mods/$$x$:y/A.bmi: dyndep\n",
     b"build a.o | my$ mods/$$x$:y/A.bmi: dyndep\n"),
    ("escapes in all places, a continuation, and $ before spaces",
     V + b"build a.o | my$ mods/$$x$:y/A.bmi: dyndep\n restat = 1\n"
     b"build C$:\\b$ o: dyndep | $$ $ x\n",
     b"build a.o | my$ mods/$$x$:y/A.bmi: dyndep\n  restat = 1\n"
     b"build C$:\\b$ o: dyndep | $$ $ x\n"),
    ("* a continuation in a word", V + b"build a$\n  b.o: dyndep\n", b"build ab.o: dyndep\n"),
    ("* a continuation in a word, and CR LF",
     b"ninja_dyndep_version = 1\r\nbuild a$\r\n  b.o: dyndep\r\n", b"build ab.o: dyndep\n"),
    ("a continuation in a word, and CR LF in this line alone",
     V + b"build a$\r\n  b.o: dyndep\r\n", b"build ab.o: dyndep\n"),
    ("* a continuation after a word", V + b"build a.o $\n: dyndep\n", b"build a.o: dyndep\n"),
    ("a continuation after a word, and CR LF", V + b"build a.o $\r\n: dyndep\r\n",
     b"build a.o: dyndep\n"),
    ("a continuation between words, and escapes", V + b"build a.o | b $\n c: dyndep | d$ e $$f\n",
     b"build a.o | b c: dyndep | d$ e $$f\n"),
    ("* a comment, and no spaces", V + b"#x\nbuild a|b:dyndep|c\n", b"build a | b: dyndep | c\n"),
    ("* a comment above a binding", V + b"build a: dyndep\n # x\n  restat = 1\n",
     b"build a: dyndep\n  restat = 1\n"),
    ("a comment keeps the statement open, and any value sets the flag",
     V + b"build a: dyndep\n# kept open\n  restat = 0\n", b"build a: dyndep\n  restat = 1\n"),
    ("a comment with a variable", V + b"build a$:b: dyndep\n\n# a $x comment\n",
     b"build a$:b: dyndep\n"),
    ("* a comment of any bytes", V + b"#\x00$x\n", b""),
    ("comments of any bytes before the version", b"# \x00 $x\r\n\n  \nninja_dyndep_version=1\r\n",
     b""),
    ("comments of any bytes end at their first LF", V + b"#\x00$x\n  #\x00$x$\r\r\n#$\n", b""),
    ("* version 1.0-extra", b"ninja_dyndep_version = 1.0-extra\n", b""),
    ("version 1.0-extra, and a statement", b"ninja_dyndep_version = 1.0-extra\nbuild a: dyndep\n",
     b"build a: dyndep\n"),
    ("* an empty binding", V + b"build a: dyndep\n  restat =\n", b"build a: dyndep\n"),
    ("* empty lists", V + b"build a | : dyndep |\n", b"build a: dyndep\n"),
    ("CR LF, blank lines, a comment and a binding",
     b"ninja_dyndep_version=1.0\r\n\r\nbuild a$\r\n  b.o: dyndep |\r\n  # why\r\n  restat = x\r\n",
     b"build ab.o: dyndep\n  restat = 1\n"),
    ("two inputs", V + b"build main.o: dyndep | mod/A.bmi mod/M-P.bmi\n",
     b"build main.o: dyndep | mod/A.bmi mod/M-P.bmi\n"),
    ("control bytes stay as they are", V + b"build a\tb\x01\x7f\x80: dyndep\n",
     b"build a\tb\x01\x7f\x80: dyndep\n"),
    ("many continuations", V + b"build a" + b"$\n " * 100_000 + b": dyndep\n",
     b"build a: dyndep\n"),
]

# What `show` prints for the text TWO, cut to its first bytes: the last number of bytes of each
# kind, and the line of the error, or None if these bytes are shown as they are.
CUT = [(0, b"line 1: Y4 NoVersion"), (24, b"line 1: N6 Truncated"), (25, None),
       (66, b"line 2: N6 Truncated"), (67, None),
       (79, b"line 3: N6 Truncated"), (80, None), (109, b"line 4: N6 Truncated"), (110, None),
       (122, b"line 5: N6 Truncated"),
       (123, None)]

# A line has 1,048,576 bytes at most, its end counted, when it is read and when it is shown.
LINE = 1_048_576
LONGEST = b"build " + b"a" * (LINE - len(b"build : dyndep\n")) + b": dyndep\n"

# why, the text after the version line, the line of the error or None if it is shown as it is
LIMITS = [
    ("the longest line", LONGEST, None),
    ("a comment of a byte more", b"#" + LONGEST, b"line 2: N5 LineTooLong"),
    ("a line of a byte more, of no form", b"a" * LINE + b"\n", b"line 2: N5 LineTooLong"),
    ("a line that gets too long by the space after its colon", LONGEST.replace(b": ", b"a:"),
     b"Y2 StatementTooLong statement 0"),
    ("a line that gets too long by that space, and an escape", LONGEST.replace(b"a: ", b"$$:"),
     b"Y2 StatementTooLong statement 0"),
    ("the longest line without its end", b"a" * (LINE - 1), b"line 2: N6 Truncated"),
    ("a longer line without its end", b"a" * LINE, b"line 2: N5 LineTooLong"),
]
LIMITS_OF_VERSION = [("a faulty line comes before a longer one", b"x\n" + b"a" * LINE,
                      b"line 1: Y4 NoVersion"),
                     ("a comment of a byte more, before the version", b"#" * LINE + b"\n" + V,
                      b"line 1: N5 LineTooLong"),]
LONGEST_COMMENTS = [
    ("the longest comment", V + b"#" + b"\x00" * (LINE - 2) + b"\n", b""),
    ("the longest comment, before the version", b"#" * (LINE - 1) + b"\n" + V, b""),
]

SHOW = ["show", "t.dd"]


def shows(why, text, line):
    files = {"t.dd": text}
    return prints(why, SHOW, files, text) if line is None else rejects(why, SHOW, files, line)


ROWS = (
    [shows(why, V + text, line) for why, text, line in FAULTS + LIMITS]
    + [shows(*row) for row in FAULTS_OF_VERSION + LIMITS_OF_VERSION]
    + [prints(why, SHOW, {"t.dd": text}, V + out) for why, text, out in SHOWN + LONGEST_COMMENTS]
    + [shows(f"cut to {size} bytes", TWO[:size], next(line for last, line in CUT if size <= last))
       for size in range(1, len(TWO)) if size != len(V)] + [unread("* no file", SHOW, {}, b"t.dd")])
