"""Breaks the program in one way each, and sees that the tests catch it: what `main` and the
functions around it do that no contract reaches (crates/commands/README.md, "What is only tested").

A broken program is a script that calls the built one, `$real`, and breaks what goes in or comes
out; or it loads before the C library one that breaks a call of the system (broken.c).
"""
import ast
import functools
import os
import re
import sys
import tempfile
import unittest
from collections import namedtuple
from pathlib import Path

from tests import program
from tests.case import each
from tests.run import output_of, run
from tests.side_by_side import SideBySide

# How the program is broken, in words, and by what: a way of broken.c, or the lines of a script; and
# the tests that have to catch it, of a module or class, whose names have a part.
Broken = namedtuple("Broken", "why how tests part")

CALL = '"$real" "$@"'


def filtered(output, command):
    """Standard output or standard error goes through a command, and the status is kept."""
    run = f"{CALL} 3>&- 4>&-" if output == "out" else f"{CALL} 2>&1 >&3 3>&- 4>&-"
    there = ">&3" if output == "out" else ">&2"
    return f"exec 3>&1; exit $({{ {{ {run}; echo $? >&4; }} | {command} {there}; }} 4>&1)"


def ended(status, then):
    """A run that would end with this status calls a command instead, which ends it."""
    return f"{CALL}; status=$?; [ $status != {status} ] || {then}; exit $status"


def with_words(command):
    """The arguments are changed one by one: the command adds `$word` to `$@`."""
    return f"for word; do shift; {command}; done; exec {CALL}"


def called_with(pattern, words):
    """Some commands are called with other arguments."""
    return f"case $1 in {pattern}) set -- {words};; esac; exec {CALL}"


PRINTING = [Broken("output on standard error", f"exec {CALL} >&2", "arguments", "names_a_file"),
            Broken("errors on standard output", f"exec {CALL} 2>&1", "arguments", "no_command"),
            Broken("no line for an error", f"exec {CALL} 2> /dev/null", "arguments", "no_command"),
            Broken("an error line without its end", filtered("err", "tr -d '\\n'"), "arguments",
                   "no_command"),
            Broken("an error line without the program's name",
                   filtered("err", "sed 's/^dyncollate: //'"), "arguments", "no_command"),
            Broken("an error line twice", filtered("err", "sed p"), "arguments", "no_command"),
            Broken("output without its last line", filtered("out", "sed '$d'"), "arguments",
                   "names_a_file"),
            Broken("a line too many", f"{CALL} && echo", "arguments", "names_a_file"),
            Broken("lines that end in CR LF", filtered("out", "sed 's/$/\\r/'"), "arguments",
                   "names_a_file"), Broken("closed standard output not reported",
                                           f"[ -e /proc/$$/fd/1 ] || exec > /dev/null; exec {CALL}",
                                           "devices.Output", "test_closed_show"),
            Broken("output of a run that failed",
                   f"{CALL} || {{ status=$?; echo ninja_dyndep_version = 1; exit $status; }}",
                   "arguments", "no_command"),]

STATUSES = [Broken("status 1 for a missing file", ended(3, "exit 1"), "arguments", "cannot_read"),
            Broken("status 1 for an invalid command line", ended(2, "exit 1"), "arguments",
                   "no_command"),
            Broken("status 0 for no arguments", f"[ $# != 0 ] || exit 0; exec {CALL}", "arguments",
                   "no_command"), Broken("a signal ends a run that fails",
                                         ended(2, "kill -TERM $$"), "arguments", "no_command"),]

WORDS = [Broken("empty arguments dropped", with_words('[ -z "$word" ] || set -- "$@" "$word"'),
                "arguments", "empty"),
         Broken("options taken for arguments",
                'command=$1; [ $# = 0 ] || shift; exec "$real" "$command" -- "$@"', "arguments",
                "an_option"),
         Broken("-- kept as an argument",
                with_words('[ "$word" != -- ] || set -- "$@" --; set -- "$@" "$word"'),
                "arguments", "an_option_after"),
         Broken("surplus arguments dropped", called_with("show|order|collate|project", '"$1" "$2"'),
                "arguments", "an_argument_too_many"),
         Broken("capitals in arguments ignored",
                with_words('set -- "$@" "$(printf %s "$word" | tr A-Z a-z)"'), "arguments",
                "a_command_in_capitals"),
         Broken("bytes that are not UTF-8 dropped",
                with_words('set -- "$@" "$(printf %s "$word" | LC_ALL=C tr -d "\\200-\\377")"'),
                "devices.Inputs", "no_text_show"),
         Broken("help",
                f'case " $* " in *" --help "*|*" -h "*) echo help; exit 0;; esac; exec {CALL}',
                "arguments", "no_help"),
         Broken("directory and extension exchanged", called_with("one", '"$1" "$2" "$4" "$3"'),
                "arguments", "no_directory"),
         Broken("arguments divided at spaces", 'exec "$real" $@', "arguments", "space"),
         Broken("another name of a file", called_with("show|order|collate|project", '"$1" "./$2"'),
                "arguments", "cannot_read"),]

RESULTS = [Broken("a restat left out", filtered("out", "sed '/restat/d'"),
                  "random_documents", "dyndep_files"),
           Broken("an order that is reversed",
                  filtered("out", '{ [ "$1" = order ] && sort -r || cat; }'), "random_documents",
                  "listings"),]

# calls of the system; the files that are read and written, and standard output
CALLS = [
    Broken("files without their last byte", "a_file_without_its_last_byte", "documents.Targets",
           "GCC_s_maps"),
    Broken("output without its last byte", "output_without_its_last_byte", "arguments",
           "names_a_file"),
    Broken("half of a file written", "a_long_write_cut_off", "documents.Targets", "GCC_s_maps"),
    Broken("a pipe that nobody reads ends it by a signal", "a_broken_pipe_is_a_signal",
           "devices.Output", "nobody_reads"),
    Broken("a file that cannot be written not reported", "a_failed_write_of_a_file",
           "devices.Files", "full_device"),
    Broken("output that cannot be written not reported", "a_failed_write_of_the_output",
           "devices.Output", "test_full_show"),
    Broken("output that is written in part not reported", "a_short_write_is_an_end",
           "devices.Output", "limited_show"),
    Broken("the first piece of a file taken for all", "a_file_read_in_one_piece", "devices.Inputs",
           "byte_by_byte_show"),
    Broken("a directory taken for an empty file", "a_failed_read_is_an_end", "devices.Names",
           "test_show"),
    Broken("files read without their last byte", "a_file_read_without_its_last_byte", "arguments",
           "names_a_file"),
    Broken("files opened twice", "a_file_opened_twice", "devices.Inputs", "byte_by_byte_show"),
    Broken("files not emptied before they are written", "a_file_not_emptied",
           "earlier_files.Overwritten", "GCC_s_maps"),
    Broken("files added to", "a_file_added_to", "earlier_files.Overwritten", "GCC_s_maps"),
    Broken("files written in place", "a_file_in_place", "whole_files.AtOnce", ""),
    Broken("files written in place if no file can be created on a full disk",
           "a_full_disk_at_creation", "whole_files.Faults", "other_errors"),
    Broken("files written in place if none can be renamed on a full disk",
           "a_full_disk_at_renaming", "whole_files.Faults", "other_errors"),
    Broken("the same names of temporary files in each run", "the_same_random_bytes",
           "whole_files.Faults", "names_of_temporary"),
    Broken("permissions set after the bytes", "permissions_after_the_bytes", "whole_files.Faults",
           "permissions_come_before"),
    Broken("only files that exist are written", "no_file_made", "documents.Targets", "GCC_s_maps"),
    Broken("files written to the current directory", "a_file_in_this_directory", "files.Collated",
           "single_clang"),
    Broken("a dyndep file written nowhere", "the_dyndep_file_nowhere", "documents.Targets",
           "GCC_s_maps"),
    Broken("an error line written to a file", "the_line_in_a_file", "devices.Files",
           "limited_collate"),
    Broken("a file that is not there taken for an empty one", "no_file_is_an_empty_one",
           "devices.Names", "test_show"),
    Broken("a file that cannot be made not reported", "a_file_that_cannot_be_made",
           "files.CollatedWithout", "single_app"),
    Broken("no line if memory runs out", "no_line_without_memory", "growths.Program", "show_two"),
    Broken("status 1 if memory runs out", "status_1_without_memory", "growths.Program", "show_two"),
    Broken("a signal if memory runs out", "an_abort_without_memory", "growths.Program", "show_two"),
    Broken("a file written if memory runs out", "a_file_without_memory", "growths.Program",
           "show_two"),
]

# files that a run of `collate` writes or removes and should not
LEFT = [
    Broken("a file of its own left", f"{CALL}; status=$?; : > t.tmp; exit $status", "arguments",
           "no_command"),
    Broken("a file written though it is rejected", ended(1, ": > t.dd"), "documents.Targets", "S1"),
    Broken("files emptied before the answer is whole",
           f'[ "$1" != collate ] || : > t.dd; exec {CALL}', "earlier_files.Overwritten", "cycle"),
    Broken("a dyndep file written although a map cannot be",
           ended(3, """sed -n 's/.*"dyndep": *"\\([^"]*\\)".*/\\1/p' "$2" | xargs touch"""),
           "files.CollatedWithout", "single_app"),
    Broken("a file in common of runs at once",
           f"{CALL} > .out 2> .err; status=$?; cat .out; cat .err >&2; rm .out .err; exit $status",
           "devices.AtOnce", "at_once_collate"),
    Broken("files that nobody else may read", f"umask 077; exec {CALL}", "earlier_files.Rights",
           "mask"), Broken("files that are there taken away first",
                           f'[ "$1" != collate ] || rm -f t.dd t.json; exec {CALL}',
                           "earlier_files.Rights", "keep"),
    Broken("standard input read", f"cat > /dev/null; exec {CALL}", "earlier_files.StandardInput",
           ""), Broken("another directory", f"cd /; exec {CALL}", "arguments", "names_a_file"),]

ROWS = PRINTING + STATUSES + WORDS + RESULTS + CALLS + LEFT


def is_way(how):
    """Whether it is a way of broken.c."""
    return re.fullmatch(r"\w+", how)


def broken(folder, how):
    """A program that is broken."""
    path, library = Path(folder, "dyncollate"), Path(folder, "broken.so")
    if is_way(how):
        compiled("broken.c", library)
        defined = {"PROGRAM": program.PROGRAM, "LIBRARY": library, "WAY": how}
        compiled("broken_call.c", path, "-static", "-nostdlib", "-fno-builtin",
                 "-fno-stack-protector", *(f'-D{name}="{text}"' for name, text in defined.items()))
    else:
        path.write_text(f"#!/bin/sh\nreal={program.PROGRAM}\n{how}\n")
        path.chmod(0o755)
    return path


def compiled(source, result, *flags):
    output_of(f"{program.TOP}/tests/preload", f"{program.TOP}/tests/{source}", result, *flags)


# of documents made at random as few as show a difference
SHORT = {"RANDOM_SECONDS": "3", "RANDOM_SEED": "1"}


@functools.lru_cache(None)
def tests_with(how, tests, part):
    """What tests print if the program is broken in one way."""
    with tempfile.TemporaryDirectory(prefix="dyncollate-") as folder:
        command = ([sys.executable, "-B", "-m", "unittest",
                    f"tests.{tests}"] + (["-k", part] if part else []))
        return run(*command, cwd=program.TOP,
                   env=os.environ | SHORT | {"DYNCOLLATE": broken(folder, how)})[1]


@program.needs("program")
@each(ROWS, lambda row: row.why)
class BrokenPrograms(unittest.TestCase):
    """The tests of a row fail if the program is broken, and pass if it is called in the same way
    and nothing is broken."""
    seconds = 3

    def check(self, row):
        found = tests_with("nothing" if is_way(row.how) else f"exec {CALL}", row.tests, row.part)
        if not re.search(r"Ran [1-9]\d* tests? in .*\n\nOK", found):
            self.fail("nothing is broken, but not all tests passed:\n" + found)
        found = tests_with(row.how, row.tests, row.part)
        if not re.search(r"(?m)^FAILED \(failures=\d+", found):
            self.fail("no test failed:\n" + found)

    def test_a_document_made_at_random_is_made_smaller(self):
        """If `$:` is written as `:`, a document with one such path is left, and nothing else."""
        found = tests_with("a_colon_without_its_escape", "random_documents", "scan_documents")
        documents = [ast.literal_eval(it) for it in re.findall(r"^    t\.ddi: (.*)", found, re.M)]
        self.assertIn("FAILED", found)
        self.assertTrue(documents, found)
        for text in documents:
            self.assertLessEqual(len(text), 100)


def load_tests(_loader, tests, _pattern):
    return SideBySide(tests)
