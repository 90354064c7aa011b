"""The page that web/make makes, in Chromium: what it shows for projects and for errors, with the
mouse, the keyboard and dropped files. tests/page_builds.py has the builds of real tools, also in
Firefox."""
import json
import os
import re
import sys
import unittest
from pathlib import Path
from xml.etree import ElementTree

from tests import browser, program
from tests.files import DATA
from tests.rows.forms import info, module, sources, target
from tests.run import InRoom, run

NEEDS_LIBRARY = True

TOP = Path(program.TOP)
PAGE = TOP / "web/out/dyncollate.html"
EXPLAIN = TOP / "explain/dyncollate-explain"

needs_page = unittest.skipUnless(PAGE.exists(), "there is no page; web/make makes it")
needs_chromium = unittest.skipUnless(browser.CHROMIUM, "chromium: not there")


def project_of(count, size):
    """A project of targets, each of which imports a module of the one before it,
    and links all before it."""
    files = {"project.json": json.dumps({
        "version": 1, "targets": [f"t{it}.target.json" for it in range(count)]}).encode()}
    for number in range(count):
        linked = b",".join(b'"t%d.json"' % it for it in range(number))
        files[f"t{number}.target.json"] = target(b',"scans":["t%d.ddi"],"linked":[%s]'
                                                 % (number, linked), b"t%d" % number)
        first = b"t%d/0.o|m%d|%s" % (number, number, b"m%d" % (number - 1) if number else b"")
        others = [b"t%d/%d.o||m%d" % (number, it, number) for it in range(1, size)]
        files[f"t{number}.ddi"] = sources(first, *others)
    return files


CYCLE = {"t.target.json": target(b',"scans":["a.ddi","b.ddi","c.ddi","main.ddi"]'),
         "a.ddi": sources(b"a.o|A|B"), "b.ddi": sources(b"b.o|B|C"), "c.ddi": sources(b"c.o|C|A"),
         "main.ddi": sources(b"main.o||A")}


@needs_page
class Shown(InRoom):
    """A test with the page in a browser, which a class names."""
    seconds = 10
    Browser = None

    @classmethod
    def setUpClass(cls):
        super().setUpClass()
        cls.page = cls.Browser()
        cls.addClassCleanup(cls.page.close)

    def setUp(self):
        super().setUp()
        self.page.resize(1280, 860)

    def tearDown(self):
        """The page asked for nothing, and no script failed."""
        self.assertEqual(self.page.errors(), ([], []))

    def lay(self, files):
        for name, text in files.items():
            path = self.room / "build" / name
            path.parent.mkdir(parents=True, exist_ok=True)
            path.write_bytes(text)
        return self.room / "build"

    def show(self, files, name):
        """Opens the page that dyncollate-explain writes for these files."""
        command = [sys.executable, EXPLAIN, "--page", self.room / "page.html", name]
        ran = run(*command, cwd=self.lay(files), env=os.environ | {"DYNCOLLATE": program.PROGRAM})
        self.assertTrue((self.room / "page.html").exists(), ran)
        self.page.open((self.room / "page.html").as_uri())

    def text(self, selector):
        return self.page.evaluate(
            f"document.querySelector({json.dumps(selector)}).innerText").strip()

    def each(self, selector, expression):
        """The values of an expression for `it`, each element that is selected."""
        return self.page.evaluate(
            f"[...document.querySelectorAll({json.dumps(selector)})].map((it) => {expression})")

    def texts(self, selector):
        return self.each(selector, "it.textContent.trim()")

    def nodes(self, kind):
        """The labels of the nodes of a kind. The first line of a label says what the node is."""
        return sorted(self.each(f"#view .node{kind}",
                                "it.getAttribute('aria-label').split('\\n')[0]"))

    def edges(self, kind=""):
        return sorted(self.texts(f"#view .edge{kind} title"))

    def press(self, *keys):
        """The identifier or the name of what has the focus after these keys."""
        self.page.press(*keys)
        return self.page.evaluate("((it) => it.id || it.getAttribute('aria-label') || "
                                  "it.textContent)(document.activeElement)")


@needs_chromium
class Page(Shown):
    Browser = browser.Browser

    def test_a_real_project(self):
        """Its targets, objects and imports, and the files that dyncollate writes, byte for byte."""
        files = {it.name: it.read_bytes() for it in Path(DATA, "libs").iterdir() if it.is_file()}
        self.show(files, "project.json")
        self.assertEqual(
            self.page.evaluate("document.querySelector('#view svg').getAttribute('aria-label')"),
            "13 objects, 17 imports")
        self.assertEqual(self.nodes(".bad"), [])
        self.assertIn("obj/math/math/vec.cppm.o", self.nodes(".provides"))
        self.assertIn("obj/app/app/main.cpp.o imports engine", self.edges())
        self.assertEqual(self.edges(".bad"), [])
        expected = Path(DATA, "libs/expected")
        wanted = {str(it.relative_to(expected)): it.read_text() for it in expected.rglob("*")
                  if it.is_file()}
        self.assertEqual(self.text("#result"), f"Accepted: dyncollate writes {len(wanted)} files.")
        shown = {}
        for tab in self.texts("#tabs button:not([hidden])")[1:]:
            self.each("#tabs button", f"it.textContent === {json.dumps(tab)} && it.click()")
            self.page.settle()
            shown |= dict(zip(self.texts("#view h3"), self.each("#view pre", "it.textContent")))
        self.assertEqual(set(shown), set(wanted))
        for name, text in wanted.items():
            if name.endswith(".json"):
                self.assertEqual(json.loads(shown[name]), json.loads(text), name)
            else:
                self.assertEqual(shown[name], text, name)

    def test_a_cycle(self):
        self.show(CYCLE, "t.target.json")
        self.assertEqual(self.text("#result .line"), "dyncollate: M8 ImportCycle a.o -> b.o -> c.o")
        self.assertEqual(self.text("#result .where"),
                         "a.o imports B of b.o; b.o imports C of c.o; c.o imports A of a.o.")
        self.assertIn("Remove one of the imports.", self.text("#result"))
        self.assertEqual(self.nodes(".bad"), ["a.o", "b.o", "c.o"])
        self.assertEqual(self.edges(".bad"), ["a.o imports B", "b.o imports C", "c.o imports A"])
        self.assertEqual(self.edges(),
                         ["a.o imports B", "b.o imports C", "c.o imports A", "main.o imports A"])
        red = "getComputedStyle(document.querySelector('#view .node.bad .box')).stroke"
        self.assertEqual(self.page.evaluate(red), "rgb(198, 40, 40)")
        self.page.resize(1280, 860, dark=True)
        self.assertEqual(self.page.evaluate(red), "rgb(255, 123, 114)")

    def test_a_missing_module(self):
        files = CYCLE | {"c.ddi": sources(b"c.o|C|X Y")}
        self.show(files, "t.target.json")
        self.assertEqual(self.text("#result .line"), "dyncollate: M5 ModuleUnknown X in c.o")
        self.assertEqual(self.nodes(".missing"), ["missing module X: nothing provides it",
                                                  "missing module Y: nothing provides it"])
        self.assertNotEqual(self.page.evaluate(
            "getComputedStyle(document.querySelector('#view .missing .box')).strokeDasharray"),
                            "none")
        self.assertEqual(self.nodes(".object.bad"), ["c.o"])

    def test_a_module_of_a_target_that_is_not_linked(self):
        files = project_of(2, 2) | {"t1.target.json": target(b',"scans":["t1.ddi"]', b"t1")}
        self.show(files, "project.json")
        self.assertEqual(self.nodes(".missing"), ["missing module m0: only in t0, not linked"])

    def test_a_truncated_scan(self):
        self.show(CYCLE | {"b.ddi": CYCLE["b.ddi"][:40]}, "t.target.json")
        self.assertEqual(self.text("#result .line"), "dyncollate: scan 1: S1 NotJson document")
        self.assertRegex(
            self.text("#result .where"),
            r"^scan 1 is b\.ddi\. Line 1, column \d+: the file ends here, so it was cut off\.$")
        self.page.evaluate("document.querySelector('#result .link').click()")
        self.page.settle()
        self.assertEqual(self.page.evaluate("document.activeElement.id"), "text")
        self.assertEqual(self.page.evaluate("document.activeElement.value"),
                         CYCLE["b.ddi"][:40].decode())

    def test_a_file_that_is_not_utf_8(self):
        """It is passed on byte for byte, so the error is the program's."""
        self.show(CYCLE | {"b.ddi": b'{"version":1,"rules":[],"a":"\xff"}'}, "t.target.json")
        self.assertEqual(self.text("#result .line"), "dyncollate: scan 1: S1 NotJson document")

    def test_an_info_file_alone(self):
        """Its modules and their imports; its error is the program's."""
        self.page.open(PAGE.as_uri())
        (self.room / "l.info.json").write_bytes(info(module(b"L", b"l.pcm", (b"p.pcm", b"P")),
                                                     module(b"P", b"p.pcm")))
        self.page.drop(str(self.room / "l.info.json"))
        self.assertEqual(self.text("#result"), "Accepted.")
        self.assertEqual(self.nodes(""), ["module L of l.info.json", "module P of l.info.json"])
        self.assertEqual(self.edges(), ["L imports P"])
        (self.room / "l.info.json").write_bytes(b'{"version":2,"target":"l","modules":[{}]}')
        self.page.open(PAGE.as_uri())
        self.page.drop(str(self.room / "l.info.json"))
        self.assertEqual(self.text("#result .line"),
                         "dyncollate: info 0: S3 BadShape module 0 member bmi")
        self.assertEqual(self.text("#result .where"), "info 0 is l.info.json.")

    def test_a_large_file(self):
        """Its error is the program's, and the rest is shown."""
        folder = self.lay(CYCLE)
        with open(folder / "a.ddi", "r+b") as file:
            file.truncate((16 << 20) + 9)
        self.page.open(PAGE.as_uri())
        self.page.drop(str(folder))
        self.assertEqual(self.text("#taken"),
                         "a.ddi is larger than 16 MiB, which dyncollate rejects.")
        self.assertEqual(self.text("#result .line"), "dyncollate: scan 0: S8 TooLarge document")
        self.assertEqual(self.text("#result .where"), "scan 0 is a.ddi.")
        self.assertEqual(self.nodes(".object"), ["b.o", "c.o", "main.o"])

    def ask(self, address):
        """Answers the question of an address, and returns what is said and the boxes."""
        self.page.evaluate(f"(location.hash = {json.dumps(address)}, 1)")
        self.page.wait("document.querySelector('#question').value === "
                       f"{json.dumps(address)}.match(/question=(\\w+)/)[1]")
        self.page.settle()
        return self.text("#reply"), self.nodes("")

    def test_questions(self):
        """An address has a question, whose answer is drawn and is the table."""
        files = {it.name: it.read_bytes() for it in Path(DATA, "libs").iterdir() if it.is_file()}
        self.show(files, "project.json")
        said, boxes = self.ask("#question=rebuilt&name=io")
        self.assertEqual(said, "A change of io compiles 5 objects.")
        self.assertEqual(boxes, ["obj/app/app/main.cpp.o", "obj/engine/engine/engine.cpp.o",
                                 "obj/engine/engine/engine.cppm.o", "obj/io/io/io.cpp.o",
                                 "obj/io/io/io.cppm.o"])
        self.assertEqual(self.nodes(".chosen"), ["obj/io/io/io.cppm.o"])
        self.page.evaluate("document.querySelector('#tab-table').click()")
        self.page.settle()
        self.assertEqual(sorted(self.texts("#view tbody td:nth-child(2)")), boxes)
        self.page.evaluate("document.querySelector('#tab-graph').click()")
        self.page.settle()
        self.assertEqual(self.ask("#question=path&name=math:vec&other=engine")[0],
                         "engine imports math:vec: engine → math → math:vec.")
        self.assertEqual(self.ask("#question=needed&name=none"),
                         ("There is no none here.", self.ask("#question=most")[1]))
        self.assertIn("is imported most, by", self.text("#reply"))

    def test_what_is_kept(self):
        """The drawing is a whole file, with its colours, and Graphviz reads the graph."""
        self.show(CYCLE, "t.target.json")
        kept = self.page.evaluate("""(async () => {
            const blobs = [];
            URL.createObjectURL = (it) => (blobs.push(it), "#");
            for (const id of ["svg", "dot"]) document.getElementById(id).click();
            await new Promise((done) => setTimeout(done, 500));
            return Promise.all(blobs.map((it) => it.text())); })()""")
        self.assertIn("--accent: #1d5fd1", kept[0].replace("rgb(29, 95, 209)", "#1d5fd1"))
        self.assertEqual(len(ElementTree.fromstring(kept[0]).findall(".//{*}g[@role='button']")), 4)
        self.assertIn('[label="A", color=red];', kept[1])
        self.assertEqual(kept[1].count("[color=red];"), 3)

    def contrasts(self):
        """The contrast of each colour of text or lines with what it is drawn on."""
        names = [("text", "back"), ("soft", "back"), ("soft", "fill"), ("soft", "panel"),
                 ("accent", "panel"), ("bad", "bad-fill"), ("bad", "panel"), ("good", "good-fill"),
                 ("good", "panel"), ("good", "fill"), ("bad", "fill"), ("text", "fill"),
                 ("edge", "back"), ("edge", "panel")]
        colours = self.page.evaluate("""(() => {
            const style = getComputedStyle(document.documentElement);
            const canvas = document.createElement("canvas");
            const context = canvas.getContext("2d", { willReadFrequently: true });
            const of = (name) => {
              context.fillStyle = style.getPropertyValue(`--${name}`);
              context.fillRect(0, 0, 1, 1);
              return [...context.getImageData(0, 0, 1, 1).data];
            };
            const names = "text soft accent bad good edge back fill panel bad-fill good-fill";
            return Object.fromEntries(names.split(" ").map((name) => [name, of(name)])); })()""")

        def light(name):
            parts = [it / 255 for it in colours[name][:3]]
            parts = [it / 12.92 if it <= 0.04045 else ((it + 0.055) / 1.055) ** 2.4 for it in parts]
            return 0.2126 * parts[0] + 0.7152 * parts[1] + 0.0722 * parts[2]
        return {(front, back): (max(light(front),
                                    light(back)) + 0.05) / (min(light(front), light(back)) + 0.05)
                for front, back in names}

    def test_contrasts(self):
        """Text has 4.5 : 1, and arrows and boxes 3 : 1, in light and in dark colours."""
        self.page.open(PAGE.as_uri())
        for dark in False, True:
            self.page.resize(1280, 860, dark=dark)
            low = {names: round(it, 2) for names, it in self.contrasts().items()
                   if it < (3 if names[0] == "edge" else 4.5)}
            self.assertEqual(low, {}, f"dark: {dark}")
            style = 'getComputedStyle(it, "::placeholder")'
            colours = self.each(
                "#name, #count",
                f"it.id === 'name' ? {style}.color + {style}.opacity : getComputedStyle(it).color "
                "+ '1'")
            self.assertEqual(colours[0], colours[1])

    def test_print(self):
        """The result and the whole graph are on the page, and no controls."""
        self.show(CYCLE, "t.target.json")
        self.page.evaluate("[...document.querySelectorAll('#view .node')].at(-1).focus()")
        self.assertEqual({*self.each("#view .dim", "getComputedStyle(it).opacity")},
                         {"0.12", "0.35"})
        self.page.call("Emulation.setEmulatedMedia", media="print")
        self.assertEqual({*self.each("#view .dim", "getComputedStyle(it).opacity")}, {"1"})
        shown = ("[...document.querySelectorAll('header, #side, #questions, #row, footer, #result, "
                 "#view svg')].filter((it) => it.getClientRects().length)")
        self.assertEqual(self.page.evaluate(f"{shown}.map((it) => it.id || it.tagName)"),
                         ["result", "svg"])
        self.assertEqual(self.each("#view svg", "[it.getBoundingClientRect().right <= innerWidth, "
                                   "getComputedStyle(it.parentNode.parentNode).overflow]"),
                         [[True, "visible"]])

    def test_an_info_file(self):
        files = {"t.target.json": target(b',"scans":["a.ddi"],"linked":["l.json"]'),
                 "a.ddi": sources(b"a.o||L"), "l.json": info(module(b"L", b"l.pcm"))}
        self.show(files, "t.target.json")
        self.assertEqual(self.nodes(".linked"), ["module L of l.json"])

    def test_600_objects_and_2000(self):
        """Each target is a box, and the target with the error is red."""
        self.show(project_of(6, 100), "project.json")
        self.assertEqual(self.nodes(""), [f"target t{it}, 100 objects" for it in range(6)])
        self.assertEqual(self.edges(), [f"t{it} imports t{it - 1}, 1 time" for it in range(1, 6)])
        files = (project_of(20, 100)
                 | {"t7.ddi": project_of(20, 100)["t7.ddi"].replace(b"m6", b"other")})
        self.show(files, "project.json")
        self.assertEqual(self.text("#result .line"),
                         "dyncollate: target 7: M5 ModuleUnknown other in t7/0.o")
        self.assertIn("2,000 objects and 1,999 imports in 20 targets.", self.text("#legend"))
        self.assertEqual(
            self.page.evaluate("document.querySelectorAll('#view .node.target').length"), 20)
        self.assertEqual(self.nodes(".target.bad"), ["target t7, 100 objects, with the error"])
        self.assertEqual(self.nodes(".object"), [])
        self.assertEqual(self.nodes(".missing"), ["missing module other: nothing provides it"])

    def test_dropped_files(self):
        """A directory, whose documents are read; then further files."""
        self.page.open(PAGE.as_uri())
        folder = self.lay(CYCLE | {"obj/a.o": b"\x7fELF", "compile_commands.json": b"[]",
                                   "sub/e.ddi": sources(b"e.o||")})
        self.page.drop(str(folder))
        self.assertEqual(sorted(self.texts("#files .name span")), sorted([*CYCLE, "sub/e.ddi"]))
        self.assertEqual(self.nodes(".bad"), ["a.o", "b.o", "c.o"])
        (self.room / "c.ddi").write_bytes(sources(b"c.o|C|"))
        self.page.drop(str(self.room / "c.ddi"))
        self.assertEqual(self.page.evaluate("document.querySelector('#result').className"), "good")
        self.assertEqual(self.nodes(".bad"), [])
        (self.room / "empty").mkdir()
        (self.room / "empty/x.o").write_bytes(b"")
        self.page.drop(str(self.room / "empty"))
        self.assertEqual(self.text("#taken"), "None of 1 file is a document that dyncollate reads.")

    def test_a_chosen_directory(self):
        """The dialog for directories gives a handle. If the browser does not allow it, there is the
        dialog of an element."""
        self.page.open(PAGE.as_uri())
        self.page.evaluate("""(addEventListener("drop", (event) => {
            const handle = event.dataTransfer.items[0].getAsFileSystemHandle();
            window.showDirectoryPicker = () => handle;
            document.documentElement.dataset.busy = "no";
            event.stopImmediatePropagation();
            event.preventDefault(); }, { capture: true, once: true }), 1)""")
        self.page.drop(str(self.lay(CYCLE)))
        self.page.evaluate("document.querySelector('#directories').click()")
        self.page.wait("document.querySelector('#count').textContent === '5 files'")
        self.page.settle()
        self.assertEqual(self.nodes(".bad"), ["a.o", "b.o", "c.o"])
        clicks = [self.page.evaluate(f"""new Promise((done) => {{ let count = 0;
            document.querySelector("#directorychooser").click = () => count++;
            window.showDirectoryPicker = async () => {{ throw new DOMException("no", "{name}"); }};
            document.querySelector("#directories").click();
            setTimeout(() => done(count), 50); }})""") for name in ("SecurityError", "AbortError")]
        self.assertEqual(clicks, [1, 0])

    def test_a_directory_that_cannot_be_read(self):
        """It is said why, and what comes next is read."""
        self.page.open(PAGE.as_uri())
        self.page.evaluate("(window.showDirectoryPicker = async () => ({ kind: 'directory' }), "
                           "document.querySelector('#directories').click())")
        self.page.wait("document.querySelector('#taken').textContent")
        self.page.settle()
        self.assertEqual(
            self.text("#taken"),
            "This browser cannot read all of it (it.values is not a function). Choose it with the "
            "buttons. None of 0 files is a document that dyncollate reads.")
        self.page.drop(str(self.lay(CYCLE)))
        self.assertEqual((self.text("#taken"), self.text("#count")), ("", "5 files"))

    def test_an_edit(self):
        """The result follows the text, and a change of the maps or of the command."""
        self.page.open(PAGE.as_uri() + "#one-module")
        self.assertEqual(self.text("#result .line"), "Accepted.")
        self.page.evaluate(
            "document.querySelector('#text').focus(), document.querySelector('#text').select()")
        self.page.type(sources(b"b.o|B|C").decode())
        self.page.wait("document.querySelector('#result').className === 'bad'")
        self.assertEqual(self.text("#result .line"), "dyncollate: M5 ModuleUnknown C in b.o")
        self.page.evaluate("document.querySelector('#text').select()")
        self.page.type(sources(b"b.o|B|").decode())
        self.page.wait("document.querySelector('#result').className === 'good'")
        self.each("#command", "(it.selectedIndex = 1, it.dispatchEvent(new Event('input')))")
        self.each("#map", "(it.value = 'gcc', it.dispatchEvent(new Event('input')))")
        self.page.settle()
        self.page.evaluate("document.querySelector('#tab-map').click()")
        self.page.settle()
        self.assertEqual(self.page.evaluate("document.querySelector('#view pre').textContent"),
                         "B bmi/B.gcm\n")

    def test_the_keyboard(self):
        """Tab goes through the page, the arrow keys through the tabs and the graph, and Enter opens
        the file of an object."""
        self.show(CYCLE, "t.target.json")
        self.assertEqual([self.press("Tab") for _ in range(3)], ["example", "command", "tab-graph"])
        self.assertEqual(self.press("ArrowRight"), "tab-table")
        self.page.settle()
        self.assertEqual(self.press("ArrowRight"), "tab-graph", "an error has no other tab")
        self.page.settle()
        found = [self.press("Tab").split("\n")[0] for _ in range(11)]
        self.assertEqual(found, ["smaller", "fit", "larger", "svg", "dot", "name", "question",
                                 "Show", "whole", "a.o", "choose"])
        self.page.call("Input.dispatchKeyEvent", type="rawKeyDown", key="Tab", code="Tab",
                       windowsVirtualKeyCode=9, modifiers=8)
        at = [self.press(key).split("\n")[0] for key in ("ArrowLeft", "ArrowLeft", "ArrowRight")]
        self.assertEqual(at, ["b.o", "c.o", "b.o"], "an arrow leads from a module to its importer")
        self.press("Enter")
        self.page.settle()
        self.assertEqual((self.page.evaluate("document.activeElement.id"), self.text("#textname")),
                         ("text", "b.ddi"))

    def test_names(self):
        """Each control has a name that a screen reader reads, and identifiers are unique."""
        self.show(CYCLE, "t.target.json")
        tree = self.page.call("Accessibility.getFullAXTree")["nodes"]
        roles = "button", "combobox", "textbox", "tab", "group", "tabpanel"
        controls = [it for it in tree if it.get("role", {}).get("value") in roles
                    and not it["ignored"]]
        self.assertGreater(len(controls), 15)
        self.assertEqual([it["role"]["value"] for it in controls
                          if not it.get("name", {}).get("value")], [])
        names = self.each("[id]", "it.id")
        self.assertEqual(len(set(names)), len(names))

    def test_a_narrow_screen(self):
        """Nothing is wider than a phone, except for what scrolls by itself; and on a wide one the
        page does not scroll."""
        for name in "a-project-of-six-targets", "a-cycle", "a-truncated-scan":
            self.page.resize(360, 740)
            self.page.open(f"{PAGE.as_uri()}#{name}")
            self.assertEqual(self.page.evaluate("document.documentElement.scrollWidth"), 360, name)
            self.page.resize(1280, 860)
            self.assertEqual(self.each("html", "[it.scrollWidth, it.scrollHeight]"), [[1280, 860]],
                             name)

    def test_what_stays_in_its_place(self):
        """The graph and the files stay where they are if the result changes from an error of one
        line to another."""
        self.show(CYCLE, "t.target.json")
        places = ("JSON.stringify(['row', 'view', 'side', 'text'].map((id) => "
                  "document.getElementById(id).getBoundingClientRect().left))")
        before = self.page.evaluate(places)
        self.page.evaluate(
            "document.querySelector('#text').focus(), document.querySelector('#text').select()")
        self.page.type("{}")
        self.page.wait("document.querySelector('#result').textContent.includes('S2 BadVersion')")
        self.assertEqual(self.page.evaluate(places), before)

    def test_what_is_proved(self):
        """The page says what is not, with the lines of C that it has."""
        self.page.open(PAGE.as_uri())
        self.page.evaluate("document.querySelector('footer summary').click()")
        lines = sum(len((TOP / "web" / it).read_text().splitlines()) for it in ("heap.c", "wide.c"))
        self.assertIn(f"{lines} lines of C", self.text("footer"))
        self.assertIn("Not proved:", self.text("footer"))

    def test_one_file(self):
        """It names no other, and its size is less than 300,000 bytes."""
        page = PAGE.read_text()
        self.assertNotRegex(page, r"https?://(?!www\.w3\.org/2000/svg)")
        self.assertLess(len(page.encode()), 300_000)
        self.assertIn("default-src 'none'", page)


if __name__ == "__main__":
    unittest.main()
