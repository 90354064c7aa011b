"""Runs a command in a test, and makes a directory for a test.

    status, printed = run("ninja", "-C", "out")    what it prints on both outputs, as one text
    status, out, err = run_apart("./install", prefix)
    text = output_of("nm", "-u", library)          of a command that has to succeed

A command gets `input`, or nothing, on standard input. A test fails if a command takes more than
`seconds`, or if it has to succeed and does not. The failure shows the command and what it printed.
All other arguments are those of `subprocess.run`.
"""
import shlex
import subprocess
import tempfile
import unittest
from concurrent.futures import ThreadPoolExecutor
from pathlib import Path


def fail(words, what, *printed):
    command = shlex.join(str(it) for it in words)
    raise AssertionError(f"{command:.1000} {what}:\n" + "".join(as_text(it)[-3000:]
                                                                for it in printed))


def as_text(printed):
    return (printed or b"").decode(errors="replace")


def finished(words, input=None, seconds=600, **given):
    """A command that has ended, with what it printed as bytes."""
    files = {"stdin": subprocess.DEVNULL, "stdout": subprocess.PIPE, "stderr": subprocess.PIPE}
    if input is not None:
        files.pop("stdin")
        given["input"] = input.encode() if isinstance(input, str) else input
    try:
        return subprocess.run(words, timeout=seconds, check=False, **files | given)
    except subprocess.TimeoutExpired as error:
        return fail(words, f"did not end within {seconds} s, and printed", error.output,
                    error.stderr)


def run(*words, **given):
    """The status of a command, and what it prints on both outputs."""
    ran = finished(words, stderr=subprocess.STDOUT, **given)
    return ran.returncode, as_text(ran.stdout)


def run_apart(*words, **given):
    """The status of a command, and what it prints on standard output and on standard error."""
    ran = finished(words, **given)
    return ran.returncode, as_text(ran.stdout), as_text(ran.stderr)


def run_as_bytes(*words, **given):
    """The same, with bytes in place of text, as `program.Caller` returns them."""
    ran = finished(words, **given)
    return ran.returncode, ran.stdout, ran.stderr


def output_of(*words, **given):
    """What a command prints on standard output, which has to succeed."""
    ran = finished(words, **given)
    if ran.returncode:
        fail(words, f"ended with status {ran.returncode}, and printed", ran.stdout, ran.stderr)
    return as_text(ran.stdout)


def run_at_once(*commands, **given):
    """The status of each command and what it prints on both outputs. They run at the same time."""
    with ThreadPoolExecutor(len(commands)) as pool:
        return list(pool.map(lambda words: run(*words, **given), commands))


class InRoom(unittest.TestCase):
    """A test with a directory of its own, `room`."""

    def setUp(self):
        folder = tempfile.TemporaryDirectory(prefix="dyncollate-")
        self.addCleanup(folder.cleanup)
        self.room = Path(folder.name)


class Run(unittest.TestCase):
    """What a failure says."""

    def test_a_command_that_fails(self):
        with self.assertRaisesRegex(AssertionError,
                                    r"\Ash -c .* ended with status 3, and printed:\nout\nerr\n\Z"):
            output_of("sh", "-c", "echo out; echo err >&2; exit 3")
        self.assertEqual(run("sh", "-c", "echo out; echo err >&2; exit 3"), (3, "out\nerr\n"))

    def test_a_command_that_takes_too_long(self):
        with self.assertRaisesRegex(AssertionError,
                                    r"\Ash -c .* did not end within 0.2 s, and printed:\nout\n\Z"):
            run_apart("sh", "-c", "echo out; exec sleep 60", seconds=0.2)

    def test_standard_input(self):
        self.assertEqual(run("cat"), (0, ""))
        self.assertEqual(output_of("cat", input="a\n"), "a\n")
        self.assertEqual(run_at_once(["cat"], ["printf", "b"], input="a"), [(0, "a"), (0, "b")])
