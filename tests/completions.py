"""What bash, zsh and fish complete for the program and its scripts."""
import os
import pty
import re
import select
import shlex
import signal
import time
import unittest
from pathlib import Path

from tests import embedded
from tests.run import InRoom, output_of

TOP = Path(__file__).resolve().parent.parent
COMPLETIONS = TOP / "completions"
# zsh prints this when it begins to read a line
READS = b"\x1b[?2004h"
FILES = ["a.ddi", "b.json", "c.dd", "d.txt"]


def commands():
    """The commands that the manual page lists."""
    page = (TOP / "docs/dyncollate.1").read_text()
    return sorted(re.findall(r"^\.Cm (.*)", page[:page.index(".Sh DESCRIPTION")], re.M))


# What is written on the command line, and what it is completed to.
CASES = [
    ("dyncollate ", commands()), ("dyncollate one ", ["a.ddi", "sub/"]),
    ("dyncollate collate ", ["b.json", "sub/"]), ("dyncollate show ", ["c.dd", "sub/"]),
    ("dyncollate-cmake ", ["adopt", "restore", "status"]), ("dyncollate-cmake adopt ", ["sub/"]),
    ("dyncollate-gn ", ["adopt", "restore"]), ("dyncollate-meson restore ", ["sub/"]),
    ("dyncollate-explain --", ["--help", "--page", "--version"]),
    ("dyncollate-explain ", [*FILES, "sub/"]),
]


class Completions(InRoom):
    def setUp(self):
        super().setUp()
        for name in FILES:
            (self.room / name).write_text("")
        (self.room / "sub").mkdir()

    @embedded.needs_tools("bash")
    def test_bash(self):
        for line, wanted in CASES:
            words = line.split(" ")
            name = re.sub(r"\W", "_", words[0])
            file = shlex.quote(str(COMPLETIONS / "bash" / words[0]))
            script = (f"source {file}; COMP_WORDS=({shlex.join(words)}); "
                      f"COMP_CWORD={len(words) - 1}; _{name}; printf '%s\\n' \"${{COMPREPLY[@]}}\"")
            found = output_of("bash", "--norc", "-c", script, cwd=self.room).split()
            found = sorted(f"{it}/" if it == "sub" else it for it in found)
            found = [it for it in found if not it.startswith("--") or line.endswith("--")]
            # (by `-o default`, bash itself completes files if nothing else is found)
            self.assertEqual(found, [] if wanted == [*FILES, "sub/"] else wanted, line)

    @embedded.needs_tools("fish")
    def test_fish(self):
        """It lists files of other kinds after those that fit."""
        for line, wanted in CASES:
            name = line.split(" ")[0]
            file = shlex.quote(str(COMPLETIONS / "fish" / f"{name}.fish"))
            script = f"source {file}; complete -C {shlex.quote(line)}"
            printed = output_of("fish", "-N", "-c", script, cwd=self.room).splitlines()
            found, first = [it.split("\t")[0] for it in printed], wanted[:1]
            is_sorted = len(set(wanted) & set(FILES)) == 1
            self.assertEqual(found[:1] if is_sorted else sorted(found),
                             first if is_sorted else wanted, line)

    @embedded.needs_tools("zsh")
    def test_zsh(self):
        for line, wanted in CASES:
            self.assertEqual(self.by_zsh(line), sorted(wanted), line)

    def by_zsh(self, line):
        """What zsh lists for a line at a terminal, if one asks it to."""
        child, terminal = pty.fork()
        if not child:
            os.chdir(self.room)
            os.execvpe("zsh", ["zsh", "-f", "-i"], os.environ | {"TERM": "xterm", "COLUMNS": "200"})
        try:
            self.until(terminal, READS)
            setup = f"fpath=({shlex.quote(str(COMPLETIONS / 'zsh'))} $fpath); autoload -Uz compinit"
            os.write(terminal, f"{setup}; compinit -u -D; PROMPT=\n".encode())
            self.until(terminal, READS)
            os.write(terminal, line.encode() + b"\x04#end")
            printed = self.until(terminal, b"#end")
        finally:
            os.kill(child, signal.SIGKILL)
            os.waitpid(child, 0)
            os.close(terminal)
        text = re.sub(r"\x1b\[[0-9;?]*[A-Za-z]|[\x07\r]", " ", printed.decode())
        found = set(re.findall(r"[-\w./]+", text.replace(line.strip(), "")))
        return sorted(found & {it for _, names in CASES for it in names})

    def until(self, terminal, mark):
        """What is printed up to a mark."""
        found, end = b"", time.time() + 60
        while mark not in found and time.time() < end:
            if select.select([terminal], [], [], 1)[0]:
                found += os.read(terminal, 1 << 16)
        return found
