"""libdyncollate as WebAssembly, which web/build makes: each row,
in Node and in a page of Chromium."""
import base64
import gzip
import json
import os
import re
import shutil
import tempfile
import unittest
from pathlib import Path

from tests import browser, embedded, program
from tests.run import InRoom, output_of, run_apart
from tests.tables import all_rows

NEEDS_LIBRARY = True

TOP = Path(program.TOP)
WASM = TOP / "web/out/dyncollate.wasm"
ASKED = [row for row in all_rows() if embedded.is_asked(row)]

needs_module = unittest.skipUnless(WASM.exists(),
                                   "there is no WebAssembly module; web/build makes it")
needs_node = unittest.skipUnless(shutil.which("node"), "nodejs: not there")
needs_chromium = unittest.skipUnless(browser.CHROMIUM, "chromium: not there")


def text_of(data):
    return base64.b64encode(data).decode()


def packed(row):
    """A row as tests/web_rows.mjs reads it."""
    given = [text_of(it) if isinstance(it, bytes)
             else {name: text_of(text) for name, text in it.items()} for it in embedded.given(row)]
    return text_of(gzip.compress(json.dumps({"command": row.words[0], "given": given}).encode(), 1))


def unpacked(result):
    """The status, the two outputs, and the files by their names' bytes."""
    status, out, err, files = json.loads(result)
    data = base64.b64decode
    return (status, data(out), data(err),
            {os.path.normpath(data(name)): data(text) for name, text in files})


class Rows:
    """The results of all rows, by one process."""

    def check_all(self, results):
        wrong, count = [], 0
        for row, result in zip(ASKED, results):
            count += 1
            if unpacked(result) != (*row.printed(), row.made()):
                wrong.append(f"{row.name}: {result[:300]}")
        self.assertEqual((wrong[:3], len(wrong), count), ([], 0, len(ASKED)))
        self.assertGreater(count, 1000)


class Build(InRoom):
    """What web/build says if it cannot make the module, with a toolchain of shell scripts."""

    def setUp(self):
        super().setUp()
        for name in "web/build", "web/heap.c", "web/wide.c", "include/dyncollate.h":
            (self.room / name).parent.mkdir(exist_ok=True)
            shutil.copy(TOP / name, self.room / name)
        (self.room / "crates/c_library/src").mkdir(parents=True)
        self.script("build", "exit 0")
        self.script("kit/bin/rt", "echo a kit")
        self.script("kit/bin/rattle", "echo logic=proved functions=7")
        self.script("kit/toolchain/bin/clang", "exit 1")
        self.script("bin/wasm-opt", "exit 1")

    def script(self, name, text):
        (self.room / name).parent.mkdir(parents=True, exist_ok=True)
        (self.room / name).write_text(f"#!/bin/sh\n{text}\n")
        (self.room / name).chmod(0o755)

    def says(self, line, *before):
        """It prints the line at the end, ends with status 3, and leaves no module."""
        path = f"{self.room}/bin:{self.room}/kit/bin:/usr/bin:/bin"
        said = "".join(f"{it}\n" for it in [*before, f"web/build: {line}"])
        self.assertEqual(run_apart(self.room / "web/build", env={"PATH": path}), (3, "", said))
        self.assertFalse((self.room / "web/out").exists())

    def test_a_library_that_is_not_built(self):
        self.script("build", "echo build: no >&2; exit 3")
        self.says("the library is not built", "build: no")

    def test_a_library_that_is_not_proved(self):
        self.script("kit/bin/rattle", "echo an open goal; exit 1")
        self.says("c_library is not proved", "an open goal")

    def test_a_toolchain_that_does_not_say_that_it_proved(self):
        self.script("kit/bin/rattle", "echo done")
        self.says("the toolchain does not say that c_library is proved")

    def test_a_toolchain_that_leaves_no_module(self):
        self.says("the toolchain (a kit) passes no module.bc to its clang, so there is nothing to "
                  "compile")

    def test_a_module_that_is_not_compiled(self):
        """The toolchain calls the clang of its directory where module.bc is.
        That clang compiles nothing here."""
        self.script("kit/toolchain/bin/clang", "echo clang: no >&2; exit 1")
        self.script("kit/bin/rattle", """while [ "$1" != --toolchain ]; do shift; done
            cd "$(mktemp -d)" && echo module > module.bc
            "$2/bin/clang" || echo logic=proved functions=7""")
        self.says("the module is not compiled for WebAssembly", "clang: no")


@needs_module
@needs_node
class InNode(Rows, unittest.TestCase):
    seconds = 60

    def test_rows(self):
        with tempfile.TemporaryFile("w+") as lines:
            for row in ASKED:
                lines.write(packed(row) + "\n")
            lines.seek(0)
            self.check_all(output_of("node", TOP / "tests/web_rows.mjs", WASM,
                                     stdin=lines).splitlines())


@needs_module
@needs_chromium
class InChromium(Rows, unittest.TestCase):
    seconds = 120

    def test_rows(self):
        page = browser.Browser()
        self.addCleanup(page.close)
        script = "".join(re.sub(r"^export ", "", (TOP / name).read_text(),
                                flags=re.M).partition("\nif (globalThis.process")[0]
                         for name in ("web/dyncollate.mjs", "tests/web_rows.mjs"))
        page.evaluate(f"(async () => {{ {script}\n"
                      f"const {{ run }} = await load(bytesOf('{text_of(WASM.read_bytes())}'));\n"
                      "window.resultOf = (packed) => resultOf(run, packed); })()")
        self.check_all(page.evaluate(f"resultOf('{packed(row)}')") for row in ASKED)


if __name__ == "__main__":
    unittest.main()
