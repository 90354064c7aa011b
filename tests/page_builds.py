"""The page of web/make with the directories of builds, in Chromium and in Firefox: an adopted build
of CMake, builds of examples/generate, 300 and 20,000 objects, and a cycle of 30. Firefox is
Debian's `firefox-esr`.

    python3 -m tests.page_builds --screenshot      draws docs/page.png again, of a build by CMake
"""
import json
import os
import shutil
import subprocess
import sys
import tempfile
import time
import unittest
from pathlib import Path

from tests import browser, cmake_builds, page, program
from tests.cmake import adapter, put
from tests.rows.forms import sources
from tests.run import output_of
from tests.tools import tool

NEEDS_LIBRARY = True

# base <- mid <- app; base has a partition
MODULES = {"part.cppm": "export module base:part;\n",
           "base.cppm": "export module base;\nexport import :part;\n",
           "mid.cppm": "export module mid;\nimport base;\n",
           "main.cpp": "import mid;\nint main() {}\n",
           "CMakeLists.txt": cmake_builds.HEAD + """add_library(base STATIC)
target_sources(base PUBLIC FILE_SET CXX_MODULES FILES base.cppm part.cppm)
add_library(mid STATIC)
target_sources(mid PUBLIC FILE_SET CXX_MODULES FILES mid.cppm)
target_link_libraries(mid PUBLIC base)
add_executable(app main.cpp)
target_link_libraries(app PRIVATE mid)
"""}


def cmake_build(room, name="modules"):
    """The directory below `room` of a build that CMake configured, dyncollate-cmake adopted,
    and Ninja built."""
    project = {"modules": MODULES, "project": cmake_builds.PROJECT}[name]
    if not (cmake_builds.cmake() and tool("clang") and tool("scanner") and tool("ninja")):
        raise unittest.SkipTest("CMake 3.28, Clang, clang-scan-deps or Ninja: not there")
    top = Path(room, name)
    for source, text in project.items():
        put(top / source, text)
    words = "-G", "Ninja", "-S", top, "-B", top / "out", f"-DCMAKE_MAKE_PROGRAM={tool('ninja')}"
    output_of(cmake_builds.cmake(), *words, f"-DCMAKE_CXX_COMPILER={tool('clang')}")
    status, said = adapter("adopt", str(top / "out"))
    if status:
        raise AssertionError(said)
    output_of(tool("ninja"), "-C", top / "out")
    return top / "out"


def generated(room, form):
    """The directory below `room` of examples/libs, built by a manifest of examples/generate."""
    if not (tool("clang") and tool("scanner") and tool("ninja")):
        raise unittest.SkipTest("Clang, clang-scan-deps or Ninja: not there")
    top = Path(room, form)
    shutil.copytree(page.TOP / "examples/libs", top)
    named = {it.upper(): tool(it) for it in ("clang", "scanner")} | {"DYNCOLLATE": program.PROGRAM}
    output_of(sys.executable, page.TOP / "examples/generate", form, "targets", cwd=top,
              env=os.environ | named)
    output_of(tool("ninja"), "-C", top)
    return top


def made(room, targets, size):
    """A directory below `room` of targets with a step each, and of `size` objects in each. Target N
    links N // 2, and what that links. The first module of a target is imported by all others of it,
    and imports that of the target that it links."""
    top = Path(room, f"made{targets}")
    for number in range(targets):
        linked = [number >> it for it in range(1, number.bit_length() + 1)]
        scans = [f"obj/t{number}/{it}.ddi" for it in range(size)]
        put(top / f"dd/t{number}.target.json",
            {"version": 1, "target": f"t{number}", "module-dir": "bmi", "module-ext": ".pcm",
             "map": "clang", "scans": scans, "linked": [f"dd/t{it}.info.json" for it in linked],
             "dyndep": f"dd/t{number}.dd", "info": f"dd/t{number}.info.json"})
        (top / f"obj/t{number}").mkdir(parents=True)
        for it, name in enumerate(scans):
            required = f"t{number}.m0" if it else " ".join(f"t{one}.m0" for one in linked[:1])
            text = f"obj/t{number}/{it}.o|t{number}.m{it}|{required}"
            (top / name).write_bytes(sources(text.encode()))
    return top


def cycle(count):
    files = {f"m{it}.ddi": sources(b"m%d.o|m%d|m%d" % (it, it, (it + 1) % count))
             for it in range(count)}
    return (files | {"t.target.json": page.target(b',"scans":[%s]' % b",".join(b'"%s"' % it.encode()
                                                                               for it in files))})


# Takes 0.5 s of an idle processor of 2.5 GHz.
COMPRESS = "import zlib; zlib.compress(b''.join(b'%d' % it for it in range(400_000)), 9)"


def slowness():
    """How many times as long as on such processors two programs take that run now."""
    began = time.monotonic()
    for run in [subprocess.Popen([sys.executable, "-c", COMPRESS]) for _ in range(2)]:
        run.wait()
    return (time.monotonic() - began) / 0.5


# The part of a page that is read by the script below: the boxes in the view,
# and the sizes of the texts that are shown.
SEEN = """(() => {
  const view = document.querySelector("#view").getBoundingClientRect();
  const isIn = (it) => it.left < view.right && it.right > view.left
    && it.top < view.bottom && it.bottom > view.top;
  const nodes = [...document.querySelectorAll("#view .node")];
  const boxes = nodes.filter((it) => isIn(it.querySelector(".box").getBoundingClientRect()));
  const svg = document.querySelector("#view svg");
  const scale = svg.getBoundingClientRect().width / svg.viewBox.baseVal.width;
  const styles = [...svg.querySelectorAll("text")].map((it) => getComputedStyle(it));
  const sizes = styles.filter((it) => it.display !== "none").map((it) => parseFloat(it.fontSize));
  return { boxes: boxes.map((it) => it.getAttribute("aria-label").split("\\n")[0]),
    count: nodes.length, smallest: Math.min(...sizes) * scale }; })()"""


class Builds(page.Shown):
    seconds = 60

    def setUp(self):
        super().setUp()
        self.page.open(page.PAGE.as_uri())

    def drop(self, *names):
        self.page.drop(*map(str, names))

    def result(self):
        return self.text("#result .line")

    def seen(self):
        found = self.page.evaluate(SEEN)
        self.assertGreaterEqual(found["smallest"] or 9, 9)
        return found

    def ask(self, name, question, other=""):
        for field, value in ("name", name), ("question", question), ("other", other):
            self.each(f"#{field}",
                      f"(it.value = {json.dumps(value)}, it.dispatchEvent(new Event('input')), 1)")
        self.page.evaluate("(document.querySelector('#questions').requestSubmit(), 1)")
        self.page.wait("location.hash.includes('=')")
        self.page.settle()
        return self.text("#reply")

    def press_until(self, key, name, most=40):
        for _ in range(most):
            if self.press(key).split("\n")[0] == name:
                return
        self.fail(f"{most} presses of {key} do not reach {name}")

    # ---- builds of tools

    def check_cmake(self, folder):
        self.drop(folder)
        self.assertRegex(self.result(), r"^3 of 3 targets accepted: dyncollate writes \d+ files\.$")
        of = "CMakeFiles/{0}.dir/{1}.o imports {2}".format
        self.assertEqual(self.edges(),
                         sorted([of("base", "base.cppm", "base:part"),
                                 of("mid", "mid.cppm", "base"), of("app", "main.cpp", "mid")]))
        self.assertEqual(self.nodes(".linked") + self.nodes(".missing"), [])
        self.assertFalse(any("DependInfo" in it for it in self.texts("#files .name span")))

    def test_an_adopted_cmake_build(self):
        """CMake names files by absolute paths, which are found below the directory,
        and below the one above."""
        built = cmake_build(self.room)
        self.check_cmake(built)
        self.check_cmake(built.parent)

    def test_a_wrong_target_of_a_cmake_build(self):
        """What links it is not run, and it is open."""
        shutil.copytree(cmake_build(self.room), self.room / "out")
        (self.room / "out/CMakeFiles/mid.dir/mid.cppm.o.ddi").write_bytes(
            sources(b"CMakeFiles/mid.dir/mid.cppm.o|mid|bass"))
        self.drop(self.room / "out")
        self.assertEqual(self.texts("#result .line"), [
            "1 of 3 targets accepted, 1 not run because what they link is wrong.",
            "CMakeFiles/mid.dir/CXX.target.json: dyncollate: M5 ModuleUnknown bass in "
            "CMakeFiles/mid.dir/mid.cppm.o"])
        self.assertEqual(self.text("#textname"), "CMakeFiles/mid.dir/CXX.target.json")
        self.assertEqual(self.texts("#files .name:is(.right, .wrong, .waits)"),
                         ["CMakeFiles/app.dir/CXX.target.jsonnot run",
                          "CMakeFiles/base.dir/CXX.target.json✓ right",
                          "CMakeFiles/mid.dir/CXX.target.json✗ wrong"])
        self.assertEqual(self.nodes(".missing"), ["missing module bass: nothing provides it"])
        self.assertIn("missing module bass: nothing provides it", self.seen()["boxes"])

    def test_a_generated_build(self):
        """Its targets in order, also if its files are chosen one by one,
        and the seconds of its log."""
        top = generated(self.room, "clang")
        self.drop(top)
        self.assertRegex(self.result(), r"^3 of 3 targets accepted:")
        edges = self.edges()
        self.assertIn("obj/app/src/app/main.cpp.o imports sum", edges)
        self.assertRegex(
            self.ask("", "chain"),
            r"^The longest chain of imports has \d objects, \d+\.\d s by \.ninja_log: number → "
            r".*\.o\.$")
        self.page.open(page.PAGE.as_uri())
        self.drop(*sorted([*top.rglob("*.ddi"), *top.rglob("*.target.json")]))
        self.assertRegex(self.result(), r"^3 of 3 targets accepted:")
        self.assertEqual(self.edges(), edges)

    def test_a_project(self):
        self.drop(generated(self.room, "project"))
        self.assertRegex(self.result(), r"^Accepted: dyncollate writes \d+ files\.$")
        self.assertEqual(
            self.page.evaluate("document.querySelector('#command').selectedOptions[0].textContent"),
            "project dd/project.json")
        self.assertIn("obj/app/src/app/main.cpp.o imports sum", self.edges())

    # ---- sizes

    def test_300_objects(self):
        """Targets are boxes, which open; something is in the first view,
        and Fit shows everything."""
        self.drop(made(self.room, 6, 50))
        self.assertEqual(self.nodes(""), [f"target t{it}, 50 objects" for it in range(6)])
        self.assertTrue(self.seen()["boxes"])
        self.click("#smaller")
        self.seen()
        self.click("#fit")
        self.assertIn("t1 imports t0, 1 time", self.edges())
        self.open_box("target t0, 50 objects")
        seen = self.seen()
        self.assertEqual(seen["count"], 55)
        self.assertTrue(seen["boxes"])
        self.assertEqual(self.texts("#legend button"), ["t0 ×"])
        self.page.evaluate("(document.querySelector('#fit').click(), 1)")
        self.assertEqual(len(self.seen()["boxes"]), 55)
        self.page.evaluate("(document.querySelector('#legend button').click(), 1)")
        self.page.wait("document.querySelectorAll('#view .target').length === 6")

    def test_a_view_of_a_large_graph(self):
        """The first view has the module that is imported most. It is dragged, and the overview
        shows which part one sees."""
        self.page.resize(900, 600)
        files = {"t.target.json": page.target(b',"scans":["a.ddi"]'), "a.ddi": sources(
            *[b"m%d.o|m%d|%s" % (it, it, b"m%d" % (it // 3) if it else b"") for it in range(90)])}
        self.drop(self.lay(files))
        self.assertIn("m1.o", self.seen()["boxes"], "it is imported most")
        self.assertEqual(
            self.page.evaluate("document.querySelector('#overview').hasAttribute('hidden')"), False)
        place = ("[Math.round(document.querySelector('#view').scrollLeft), "
                 "Math.round(document.querySelector('#view').scrollTop)]")
        self.each("#view", "(it.scrollTo(100, 100), 1)")
        self.page.click(600, 500, to=(560, 470))
        self.assertEqual(self.page.evaluate(place), [140, 130])
        part = float(self.each("#overview .part", "it.getAttribute('y')")[0])
        self.page.evaluate("(document.querySelector('#larger').click(), 1)")
        self.assertNotEqual(float(self.each("#overview .part", "it.getAttribute('y')")[0]), part)
        width = "document.querySelector('#view svg').getBoundingClientRect().width"
        before = self.page.evaluate(width)
        for is_ctrl, factor in ("false", 1), ("true", 1.15):
            self.each(
                "#view",
                f"it.dispatchEvent(new WheelEvent('wheel', {{ ctrlKey: {is_ctrl}, deltaY: -100, "
                f"cancelable: true }}))")
            self.assertAlmostEqual(self.page.evaluate(width) / before, factor, 2)

    def test_20000_objects(self):
        """They are shown within 20 s of idle processors of 2.5 GHz. They are read, asked about,
        opened and kept, and the page is never blocked for 100 ms. In the best of three tries: what
        else runs meanwhile only adds to the time."""
        top = made(self.room, 200, 100)
        self.check_best(20, lambda: self.seconds_of_drop(top))
        self.check_best(100, lambda: self.page.longest_block(lambda: self.look_through(top)))

    def check_best(self, limit, measured):
        """After each try the page is opened again."""
        found = []
        while not found or found[-1] >= limit:
            self.assertLess(len(found), 3, found)
            found.append(measured())
            self.page.open(page.PAGE.as_uri())

    def seconds_of_drop(self, *names):
        """As many as it would take on idle processors of 2.5 GHz."""
        before, began = slowness(), time.monotonic()
        self.drop(*names)
        return (time.monotonic() - began) / max(before, slowness())

    def look_through(self, top):
        self.page.evaluate("""(() => {
            const progress = document.querySelector("#progress");
            window.said = new Set();
            new MutationObserver(() => progress.hidden
              || said.add(progress.firstChild.data.split(" ")[0]))
              .observe(progress, { characterData: true, subtree: true, attributes: true }); })()""")
        self.drop(top)
        self.assertEqual(self.page.evaluate("[...said].filter(Boolean)"), ["Reading", "Collating"])
        self.assertRegex(self.result(), r"^200 of 200 targets accepted:")
        self.assertEqual(self.text("#count"), "20,200 files")
        self.assertIn("20,000 objects", self.text("#legend"))
        self.assertTrue(self.seen()["boxes"])
        self.open_box("target t0, 100 objects")
        self.assertEqual(len(self.nodes(".object")), 100)
        self.assertEqual(self.ask("t0.m0", "rebuilt"), "A change of t0.m0 compiles 20,000 objects.")
        self.assertRegex(self.ask("", "chain"),
                         r"^The longest chain of imports has 10 objects: t0\.m0 → ")
        self.assertEqual(self.ask("t7.m0", "near"), "40 boxes near t7.m0.")
        # itself, the module that it imports,
        # and of those that import it as many as there is room for
        self.assertEqual(sorted(self.seen()["boxes"]),
                         ["target t3, 1 object", "target t7, 39 objects"])
        self.assertRegex(self.ask("", "most"), r"^t1\.m0 is imported most, by 101 objects")
        self.click("#tab-table")
        self.assertEqual(len(self.texts("#view tbody tr")), 200)
        self.click("#whole")
        self.assertEqual(len(self.texts("#view tbody tr")), 300)
        kept = self.page.evaluate(
            "new Promise((done) => { URL.createObjectURL = done; HTMLAnchorElement.prototype.click "
            "= () => 1;"
            " document.querySelector('#view button').click(); }).then((it) => it.text())")
        self.assertEqual(kept.count("\n"), 20_001)

    def click(self, selector):
        self.page.evaluate(f"(document.querySelector({json.dumps(selector)}).click(), 1)")
        self.page.settle()

    def open_box(self, label):
        """Clicks on a box in the view, and leaves the mouse there."""
        x, y = self.each(
            f"#view .node[aria-label={json.dumps(label)}] .box",
            "(it.scrollIntoView({ block: 'center' }), [it.getBoundingClientRect().x + 20, "
            "it.getBoundingClientRect().y + 9])")[0]
        self.page.click(x, y)
        self.page.wait("document.querySelectorAll('#view .object').length")
        self.page.settle()

    def test_a_cycle_of_30(self):
        """It is red and shortened, in the first view, and its error names modules. What is left out
        opens, and a search finds it."""
        self.drop(self.lay(cycle(30)))
        self.assertEqual(
            self.result(),
            "dyncollate: M8 ImportCycle m0.o -> m1.o -> m2.o -> … 25 more … -> m28.o -> m29.o")
        self.assertEqual(
            self.text("#result .where"),
            "m0 imports m1 imports m2 imports … 25 more … imports m28 imports m29 imports m0.")
        boxes = ["27 more objects of the cycle", "m0.o", "m1.o", "m29.o"]
        self.assertEqual((self.nodes(".bad"), sorted(self.seen()["boxes"])), (boxes, boxes))
        self.assertEqual(self.edges(".bad"),
                         ["imports of the cycle"] * 2 + ["m0.o imports m1", "m29.o imports m0"])
        self.ask("m15", "find")
        self.assertEqual((len(self.nodes(".bad")), self.nodes(".chosen")), (30, ["m15.o"]))
        self.click("#whole")
        self.assertEqual(self.nodes(".bad"), boxes)
        self.each("#view .rest", "it.dispatchEvent(new Event('click', { bubbles: true }))")
        self.page.settle()
        self.assertEqual((len(self.nodes(".bad")), len(self.edges(".bad"))), (30, 30))

    def test_a_name_that_is_not_utf_8(self):
        """The file is left out, which Firefox says and Chromium cannot know,
        and the rest is shown."""
        folder = self.lay({"a.ddi": sources(b"a.o|A|"), "b.ddi": sources(b"b.o||A")})
        Path(os.fsdecode(os.fsencode(folder) + b"/odd\xff.ddi")).write_bytes(sources(b"odd.o||"))
        self.drop(folder)
        said = "odd\ufffd.ddi is left out: its name is not UTF-8, so no document can name it."
        self.assertEqual(self.text("#taken"), said if self.Browser is browser.Firefox else "")
        self.assertEqual(self.edges(), ["b.o imports A"])

    # ---- by keyboard

    def test_the_keyboard(self):
        """The key / leads to the names, the arrow keys through the graph,
        and Enter opens a target and a file."""
        self.drop(made(self.room, 6, 50))
        self.assertEqual(self.press("/"), "name")
        self.press_until("Tab", "target t1, 50 objects")
        self.assertEqual(self.press("ArrowRight").split(",")[0][:8], "target t")
        self.page.press("Enter")
        self.page.settle()
        self.assertEqual(len(self.nodes(".object")), 50)
        self.press_until("Tab", "dd/t0.target.json✓ right")
        self.assertEqual(self.press("ArrowDown"), "dd/t1.target.json✓ right")
        stops = (
            "[...document.querySelectorAll('#files *')].filter((it) => it.tabIndex >= 0).map((it) "
            "=> it.dataset.name)")
        self.assertEqual(self.page.evaluate(stops), ["dd/t1.target.json"], "the files are one stop")
        self.page.press("Enter")
        self.page.settle()
        self.assertEqual(self.text("#textname"), "dd/t1.target.json")
        self.page.press("Delete")
        self.page.settle()
        self.assertNotIn("dd/t1.target.json", "".join(self.texts("#files .name")))


@unittest.skipUnless(browser.CHROMIUM, "chromium: not there")
class InChromium(Builds):
    Browser = browser.Browser


@unittest.skipUnless(browser.FIREFOX, "firefox-esr: not there")
class InFirefox(Builds):
    Browser = browser.Firefox


del Builds


def screenshot():
    shown, room = browser.Browser(), tempfile.TemporaryDirectory(prefix="dyncollate-")
    try:
        shown.resize(1280, 720, scale=2)
        shown.open(page.PAGE.as_uri())
        shown.drop(str(cmake_build(room.name, "project")))
        # (a file without the path of this directory)
        shown.evaluate("([...document.querySelectorAll('#files .name')].find((it) => "
                       "it.title.endsWith('mid.dir/CXX.dd')).click(), 1)")
        shown.settle()
        shown.screenshot(page.TOP / "docs/page.png")
    finally:
        shown.close()
        room.cleanup()


if __name__ == "__main__":
    screenshot() if sys.argv[1:] == ["--screenshot"] else unittest.main()
