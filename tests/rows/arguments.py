"""Command lines. A command line is a command and its operands. What follows `--` is an operand."""
from tests.rows import V, prints, unread, usage

B = b'{"version":1,"rules":[{"primary-output":"obj/b.o","provides":[{"logical-name":"B"}]}]}'
SHOWN = V + b"build a | b: dyndep | c\n"
FILES = {"b.ddi": B, "b": B, "one": B, "-b": B, "-": B, "t.dd": SHOWN}
NAMED = ["-", "-x", "--", "show", "a b"]

# the reason, the arguments
INVALID = [
    ("* no command", []),
    ("an empty command", ["", "b.ddi", "mod", ".bmi"]),
    ("no such command", ["two", "b.ddi", "mod", ".bmi"]),
    ("a command in capitals", ["One", "b.ddi", "mod", ".bmi"]),
    ("a command begun", ["on", "b.ddi", "mod", ".bmi"]),
    ("no arguments", ["one"]),
    ("an argument too few", ["one", "b.ddi", "mod"]),
    ("an argument too many", ["one", "b.ddi", "mod", ".bmi", "x"]),
    ("no argument", ["show"]),
    ("an argument too many", ["show", "t.dd", "x"]),
    ("no argument", ["collate"]),
    ("an argument too many", ["collate", "t.json", "x"]),
    ("no argument", ["project"]),
    ("an argument too many", ["project", "a", "b"]),
    ("no arguments", ["effect"]),
    ("an argument too few", ["effect", "t.dd", "lib.edges"]),
    ("an argument too many", ["effect", "t.dd", "lib.edges", "two.dd", "x"]),
    ("no argument", ["order"]),
    ("an argument too many", ["order", "lib.edges", "x"]),
    ("no help", ["--help"]),
    ("no help in short", ["-h"]),
    ("no command for help", ["help"]),
    ("no version", ["--version"]),
    ("no help for a command", ["one", "--help"]),
    ("no help as a command's only argument", ["one", "help"]),
    ("no help after the arguments", ["one", "b.ddi", "mod", ".bmi", "--help"]),
    ("a command in place of another's argument", ["show", "one", "b.ddi", "mod", ".bmi"]),
    ("an option for a file", ["show", "-x"]),
    ("an option for a file of three arguments", ["one", "-b", "mod", ".bmi"]),
    ("a long option for an extension", ["one", "b.ddi", "mod", "--ext"]),
    ("a negative number for a directory", ["one", "b.ddi", "-1", ".bmi"]),
    ("an option too many", ["show", "t.dd", "-x"]),
    ("-- before the command", ["--", "show", "t.dd"]),
    ("-- before one", ["--", "one", "b", "m", "x"]),
    ("--, and an argument too many", ["show", "--", "t.dd", "x"]),
    ("--, and an argument too many of four", ["one", "b", "m", "x", "--", "y"]),
    ("--, and an argument too few", ["one", "b.ddi", "mod", "--"]),
    ("a second -- is an argument", ["show", "--", "t.dd", "--"]),
]

# the reason, the arguments, and the file of the module B,
# which shows what is used as directory and extension
TAKEN = [("no directory and no extension", ["one", "b.ddi", "", ""], b"B"),
         ("no directory, and - for an extension", ["one", "b.ddi", "", "-"], b"B-"),
         ("- for each argument", ["one", "-", "-", "-"], b"-/B-"),
         ("the command's name for a file, a directory with a space, and = for an extension",
          ["one", "one", "a b", "="], b"a$ b/B="),
         ("options after --", ["one", "--", "-b", "-m", "--"], b"-m/B--"),
         ("-- between arguments", ["one", "b", "--", "-m", "x"], b"-m/Bx"),
         ("-- between arguments, and as one", ["one", "b.ddi", "--", "-m", "--"], b"-m/B--"),
         ("-- after the last argument", ["one", "b", "m", "x", "--"], b"m/Bx"),
         ("a second -- for a directory", ["one", "b", "--", "--", "-"], b"--/B-"),]

# the reason, the arguments; each names a file that is shown
SHOWS = [
    ("- names a file", ["show", "-"]),
    ("an option after -- names a file", ["show", "--", "-x"]),
    ("a second -- names a file", ["show", "--", "--"]),
    ("-- after the last argument", ["show", "t.dd", "--"]),
    ("a command's name for a file", ["show", "show"]),
    ("a name with a space", ["show", "a b"]),
]

# the reason, the arguments, and the file that cannot be read
UNREAD = [
    ("three empty arguments", ["one", "", "", ""], b""),
    ("an empty argument", ["show", ""], b""),
    ("control bytes in a name", ["show", "a\tb\n\x7f"], b"a?b??"),
]

ROWS = ([usage(why, words, FILES) for why, words in INVALID]
        + [prints(why, words, FILES, V + b"build obj/b.o | %s: dyndep\n  restat = 1\n" % file)
           for why, words, file in TAKEN]
        + [prints(why, words, dict.fromkeys(NAMED, SHOWN) | {"t.dd": SHOWN}, SHOWN)
           for why, words in SHOWS] + [unread(why, words, FILES, name)
                                       for why, words, name in UNREAD])
