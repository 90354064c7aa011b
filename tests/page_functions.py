"""What the page computes without a browser, in Node: which file a document means, the order of
steps, questions about the graph, places of boxes, and what an error means."""
import json
import re
import shutil
import unittest
from pathlib import Path

from tests import program
from tests.run import run_apart

WEB, TABLE = Path(program.TOP) / "web", Path(program.TOP) / "explain/meanings.json"
SCRIPTS = [
    f"{it}.mjs" for it
    in ("documents finding steps graph boxes questions layout meanings suspects exports reading "
        "replies session").split()]
SCAN = """const scan = (path, provides, ...requires) => JSON.stringify({ version: 1, rules: [{
  "primary-output": path, provides: provides ? [{ "logical-name": provides }] : [],
  requires: requires.map((it) => ({ "logical-name": it })) }] });
const target = (name, more) => JSON.stringify({ version: 1, target: name, "module-dir": "m",
  "module-ext": ".x", dyndep: `${name}.dd`, info: `${name}.json`, ...more });
const filesOf = (contents) =>
  new Map(Object.entries(contents).map(([name, it]) => [name, fileOf(name, it)]));
const graphFor = (contents, command, settings = {}) =>
  graphOf(requestOf(command, filesOf(contents), settings));
const named = (graph, name) =>
  graph.nodes.find((it) => it.provides[0] === name || it.path === name);
const namesOf = (nodes) => nodes.map(nameOf);
const upTo = (count) => [...Array(count).keys()];
const scans = (count, required) => Object.fromEntries(upTo(count).map((it) =>
  [`m${it}.ddi`, scan(`m${it}.o`, `m${it}`, ...required(it).map((other) => `m${other}`))]));
"""
# modules a to d, each of which imports the next but d, and main, which imports a and c
CHAIN = """const CHAIN = {
  "a.ddi": scan("a.o", "a", "b"), "b.ddi": scan("b.o", "b", "c"), "c.ddi": scan("c.o", "c", "d"),
  "d.ddi": scan("d.o", "d"), "main.ddi": scan("main.o", "", "a", "c"), "t.target.json":
  target("t", { scans: ["a.ddi", "b.ddi", "c.ddi", "d.ddi", "main.ddi"] }) };
const chain = graphFor(CHAIN, { command: "collate", name: "t.target.json" });
"""


@unittest.skipUnless(shutil.which("node"), "nodejs: not there")
class Functions(unittest.TestCase):
    def value(self, expression, setting=""):
        """The value of an expression, which has the functions of the page's scripts."""
        imports = "".join(
            f"Object.assign(globalThis, await import({json.dumps((WEB / it).as_uri())}));\n"
            for it in SCRIPTS)
        script = f"{imports}{SCAN}{CHAIN}{setting}\nconsole.log(JSON.stringify({expression}));"
        status, out, err = run_apart("node", "--input-type=module", "-e", script)
        self.assertEqual((status, err), (0, ""))
        return json.loads(out)

    def kinds(self, **contents):
        return self.value(
            f"Object.entries({json.dumps(contents)}).map(([name, it]) => fileOf(name, it).kind)")

    def test_kinds(self):
        """A target document has a version, a directory and a dyndep file.
        A file that is cut off is known by its name."""
        texts = {"CXXDependInfo.json": '{"module-dir":"m","sources":{}}',
                 "a.json": '{"version":1,"module-dir":"m","dyndep":"d"}',
                 "b.target.json": '{"version":', "c.ddi": '{"rules":[]}',
                 "d.json": '{"version":2,"modules":[]}', "CXXModules.json": '{"modules":{"a":{}}}',
                 "e.info.json": "{", "p.json": '{"version":1,"targets":[]}',
                 "reply.json": '{"targets":[]}', "f.dd": "ninja_dyndep_version = 1\n",
                 "g": "build a: b\n", ".ninja_log": "# ninja log v5\n", "h.json": "[]",
                 "project.json": '{"version":1,"targ'}
        self.assertEqual(dict(zip(texts, self.kinds(**texts))),
                         {"CXXDependInfo.json": "other", "a.json": "target",
                          "b.target.json": "target", "c.ddi": "scan", "d.json": "info",
                          "CXXModules.json": "other", "e.info.json": "info", "p.json": "project",
                          "reply.json": "other", "f.dd": "dyndep", "g": "edges",
                          ".ninja_log": "log", "h.json": "other", "project.json": "project"})

    def test_the_list_of_files(self):
        """Projects and targets come first, each kind by name,
        in whatever order the browser has them."""
        contents = {"b.ddi": '{"rules":[]}',
                    "b.json": '{"version":1,"module-dir":"m","dyndep":"d"}',
                    "p.json": '{"version":1,"targets":[]}', "a.ddi": '{"rules":[]}',
                    "a.json": '{"version":1,"module-dir":"m","dyndep":"d"}',
                    "a.dd": "ninja_dyndep_version = 1\n"}
        names = self.value(f"sorted(filesOf({json.dumps(contents)})).map((it) => it.name)")
        self.assertEqual(names, ["p.json", "a.json", "b.json", "a.ddi", "b.ddi", "a.dd"])

    def found(self, names, strings, document="t.target.json", **members):
        """The files that a document means by these strings."""
        given = {"version": 1, "module-dir": "m", "dyndep": "d", "linked": strings, **members}
        contents = {name: "" for name in names} | {document: json.dumps(given)}
        return self.value(
            f"{json.dumps(strings)}.map((it) => find(it, files.get({json.dumps(document)})) ?? "
            "null)", f"const files = filesOf({json.dumps(contents)}), find = finderOf(files);")

    def test_names_of_files(self):
        self.assertEqual(self.found(["a.json", "x/b.json"],
                                    ["./a.json", "x/y/../b.json", "c.json"]),
                         ["a.json", "x/b.json", None])

    def test_absolute_names_below_the_build_directory(self):
        self.assertEqual(self.found(["lib/i.json"], ["/b/lib/i.json", "/c/i.json"],
                                    **{"build-dir": "/b/"}), ["lib/i.json", None])
        # (another file of this name is not there)
        self.assertEqual(self.found(["i.json"], ["/b/i.json", "/c/d/i.json"],
                                    **{"build-dir": "/b"}), ["i.json", None])

    def test_absolute_names_without_a_build_directory(self):
        """The directory that is not there is found by the names. A file of the same name in another
        directory is not taken."""
        self.assertEqual(self.found(["lib/i.json", "app/i.json"],
                                    ["/b/lib/i.json", "/b/app/i.json", "/b/mid/i.json"]),
                         ["lib/i.json", "app/i.json", None])

    def test_the_directory_above(self):
        """Each document means the files of its own build."""
        names = ["one/a.json", "two/a.json"]
        self.assertEqual(self.found(names, ["a.json"], "one/dd/t.target.json"), ["one/a.json"])
        self.assertEqual(self.found(names, ["a.json"], "two/dd/t.target.json"), ["two/a.json"])

    def test_files_one_by_one(self):
        """Their names have no directory. One that two names may mean is found by the one whose
        directory has more of them."""
        self.assertEqual(self.found(["a.json", "b.json"], ["x/a.json", "x/b.json", "y/b.json"]),
                         ["a.json", "b.json", None])
        self.assertEqual(self.found(["b.json"], ["x/b.json", "y/b.json"]), [None, None])

    def test_files_are_read_while_others_are_found(self):
        """A hundred at once. A directory's own name is no part of theirs,
        and what is no document is left out."""
        said, read = self.value("[said, read.map((it) => [it.name, it.content])]", """
            const said = [], reading = new Reading((...it) => said.push(it));
            const blobOf = (it) => new Blob([`{"rules":[]}${" ".repeat(it % 7)}`]);
            const pairs = upTo(250).map((it) => [`top/${it}.ddi`, blobOf(it)]);
            const others = [["top/x.o", null], ["top/x.json", new Blob(["[]"])]];
            reading.take([...others, ...pairs.slice(0, 148)]), reading.take(pairs.slice(148));
            const { read } = await reading.end();""")
        self.assertEqual(said, [["Reading", 0, 149], ["Reading", 100, 251], ["Reading", 200, 251]])
        self.assertEqual(
            read, [[f"{it}.ddi", '{"rules":[]}' + " " * (it % 7)] for it in range(250)])

    def test_files_that_cannot_be_read(self):
        """They are named, and the others are read, also one that is not UTF-8."""
        said, read = self.value("[said, read.map((it) => [it.name, [...it.content]])]", """
            const gone = { size: 1, toString() { throw new Error("gone"); } };
            const bytes = new Blob([new Uint8Array([34, 255, 34])]), reading = new Reading(() => 0);
            reading.take([["a.ddi", new Blob(["[]"])], ["b.ddi", gone], ["c.ddi", bytes],
              ["e.ddi", "not there"], ["\ufffd.ddi", gone]]);
            const { said, read } = await reading.end();""")
        self.assertEqual(read, [["a.ddi", ["[", "]"]], ["c.ddi", [34, 255, 34]]])
        self.assertEqual(
            said,
            "e.ddi is left out: not there \ufffd.ddi is left out: its name is not UTF-8, so no "
            "document can name it. b.ddi is left out: gone")
        read = self.value("read.map((it) => it.content)", """
            const reading = new Reading(() => 0), blob = new Blob(["[]"]);
            const other = { size: 9, toString: () => "{}" };
            reading.take([["a.ddi", blob], ["b.ddi", other], ["c.ddi", blob]]);
            const { read } = await reading.end();""")
        self.assertEqual(read, ["[]", "{}", "[]"], "the size of one is not the one that was said")

    def order(self, **contents):
        made = ", ".join(
            f"{json.dumps(name + '.target.json')}: target({json.dumps(name)}, {json.dumps(more)})"
            for name, more in contents.items())
        return self.value(
            "request.targets.map((it) => [it.name, it.linked.map((each) => each.target?.name ?? "
            "null)])",
            f"const request = requestOf({{ command: 'steps' }}, filesOf({{ {made} }}), {{}});")

    def test_the_order_of_steps(self):
        """Each target comes after those that it links, and otherwise by name.
        An info file can be named in two ways."""
        order = self.order(app={"linked": ["/b/mid.json", "/b/base.json"], "build-dir": "/b"},
                           base={}, mid={"linked": ["./base.json"]}, aaa={})
        self.assertEqual(order,
                         [["aaa", []], ["base", []], ["mid", ["base"]], ["app", ["mid", "base"]]])

    def test_targets_that_link_each_other(self):
        self.assertEqual(self.order(a={"linked": ["b.json"]}, b={"linked": ["a.json"]}),
                         [["b", [None]], ["a", ["b"]]])

    def test_steps(self):
        """A step gets the info files of those that it links, and waits for no other. One that links
        a wrong one is not run."""
        runs = self.value("""[...runs].map(([{ name }, it]) => [name, it.state, it.line])
            .concat([saidOf(runs)], given)""", """
            const files = filesOf({
              "base.target.json": target("base"), "bad.target.json": target("bad"),
              "app.target.json": target("app", { linked: ["base.json"] }),
              "top.target.json": target("top", { linked: ["bad.json", "base.json"] }) });
            const given = [], { targets } = requestOf({ command: "steps" }, files, {});
            const runs = await runSteps(targets, async ([command, , read], { name }) => {
              given.push([command, name, [...read]]);
              const made = name === "bad" ? [] : [[`${name}.json`, `info of ${name}`]];
              return { line: name === "bad" ? "no" : "", files: new Map(made) };
            });""")
        self.assertEqual(runs,
                         [["base", "right", ""], ["app", "right", ""], ["bad", "wrong", "no"],
                          ["top", "waits", "it links bad"],
                          "2 of 4 targets accepted, 1 not run because what they link is wrong",
                          ["collate", "base", []], ["collate", "bad", []],
                          ["collate", "app", [["base.json", "info of base"]]]])

    def test_what_runs_again(self):
        """A step runs again if a file that it reads has changed. What is shown of the runs, or
        asked about them, runs nothing."""
        called, took = self.value("[calls, took]", """
            const calls = [], run = (command, document) => {
              calls.push(JSON.parse(document).target);
              return { status: 0, out: "", err: "", files: new Map(), took: 3 };
            };
            const session = new Session({ run }, {}, () => 0);
            const steps = () => session.run({ command: "steps", name: "" }, {});
            session.put(Object.entries({
              "a.target.json": target("a", { scans: ["a.ddi"] }), "a.ddi": scan("a.o", "a"),
              "b.target.json": target("b", { scans: ["b.ddi"] }), "b.ddi": scan("b.o", "b") }));
            await steps();
            for (const it of ["dyndep", "info", "map", "output"]) session.outputs(it);
            session.ask({ question: "most" }, []), session.table(), session.list();
            await steps(), session.edit("b.ddi", scan("b.o", "b", "a"));
            const { took } = await steps();""")
        self.assertEqual((called, took), (["a", "b", "b"], 6))

    def test_the_document_that_a_step_of_cmake_writes(self):
        """It stands for the target, in place of the document that CMake's build has."""
        steps = self.value("targets.map((it) => it.file)", """
            const files = filesOf({ "a/CXX.step.json": target("a"),
              "a/CXX.target.json": target("a"), "b.target.json": target("b") });
            const { targets } = requestOf({ command: 'steps' }, files, {});""")
        self.assertEqual(steps, ["a/CXX.step.json", "b.target.json"])

    def test_commands(self):
        """The usual one is first: the project, else all targets, else all scans."""
        first = "commandsFor(filesOf({})).map((it) => it.label)[0]"
        files = (
            '"p.json": \'{"version":1,"targets":[]}\', "a.target.json": target("a"), '
            '"b.target.json": target("b"), "c.ddi": scan("c.o", "c"), "d.ddi": scan("d.o", "d")')
        self.assertEqual(self.value(first.replace("{}", f"{{ {files} }}")), "project p.json")
        self.assertEqual(self.value(first.replace("{}", f"{{ {files.partition(', ')[2]} }}")),
                         "each target by a step")
        self.assertEqual(self.value(first.replace(
            "{}", '{ "c.ddi": scan("c.o", "c"), "d.ddi": scan("d.o", "d") }')),
                         "all scans as one target")
        self.assertEqual(self.value(first.replace("{}", '{ "i.info.json": \'{"modules":[]}\' }')),
                         "info i.info.json")

    def test_a_graph_over_targets(self):
        """A module of a target that is linked, one that only an info file has,
        and one that nobody provides."""
        graph = self.value("""nodes.map((it) =>
            [it.kind, it.provides[0] ?? it.path, it.path, namesOf(it.from)])""", """
            const graph = graphFor({
              "l.ddi": scan("l.o", "l"), "l.target.json": target("l", { scans: ["l.ddi"] }),
              "o.ddi": scan("o.o", "other"), "o.target.json": target("o", { scans: ["o.ddi"] }),
              "far.json": '{"version":2,"modules":[{"name":"far","requires":[]},{"name":"no"}]}',
              "a.ddi": scan("a.o", "", "l", "far", "other", "none"), "a.target.json":
              target("a", { scans: ["a.ddi"], linked: ["l.json", "far.json"] }) },
              { command: "steps" });
            const nodes = graph.nodes.filter((it) => it.kind !== "object" || it.path === "a.o");""")
        self.assertEqual(sorted(graph), [["linked", "far", "far.json", []],
                                         ["missing", "none", "nothing provides it", []],
                                         ["missing", "other", "only in o, not linked", []],
                                         ["object", "a.o", "a.o", ["l", "far", "other", "none"]]])

    def test_an_info_file_alone(self):
        graph = self.value("graph.nodes.map((it) => [nameOf(it), namesOf(it.to)])", """
            const info = { version: 2, modules: [
              { name: "a", requires: [{ name: "b" }, { name: "x" }] },
              { name: "b", requires: [] }] };
            const graph = graphFor({ "i.info.json": JSON.stringify(info) },
              { command: "info", name: "i.info.json" });""")
        self.assertEqual(graph, [["a", []], ["b", ["a"]]])

    def test_what_a_change_reaches(self):
        self.assertEqual(self.value("namesOf(reached([named(chain, 'c')], 'to'))"),
                         ["c", "b", "main.o", "a"])
        self.assertEqual(self.value("namesOf(reached([named(chain, 'b')], 'from'))"),
                         ["b", "c", "d"])

    def test_ways(self):
        """The shortest, in the direction of the imports."""
        self.assertEqual(self.value(
            "namesOf(wayBetween([named(chain, 'main.o')], [named(chain, 'd')], 'from'))"),
                         ["main.o", "c", "d"])
        self.assertEqual(
            self.value("wayBetween([named(chain, 'd')], [named(chain, 'main.o')], 'from')"), [])

    def test_the_longest_chain(self):
        """By the number of objects, or by seconds; an import that closes a cycle does not count."""
        longest = "(({ chain, length }) => [namesOf(chain), length])(longestChain(graph.nodes, {}))"
        self.assertEqual(self.value(longest.replace("{}", "() => 1"), "const graph = chain;"),
                         [["d", "c", "b", "a", "main.o"], 5])
        seconds = (
            "(it) => ({ d: 1, c: 1, a: 0, b: 0 })[it.provides[0]] ?? (it.path === 'main.o' ? 0 : "
            "9)")
        self.assertEqual(self.value(longest.replace("{}", seconds), "const graph = chain;")[1], 2)
        cycle = (
            'const graph = graphFor({ "a.ddi": scan("a.o", "a", "b"), "b.ddi": scan("b.o", "b", '
            '"a", "c"), "c.ddi": scan("c.o", "c") }, { command: "all" });')
        self.assertEqual(self.value(longest.replace("{}", "() => 1"), cycle)[1], 3)

    def test_what_is_imported_most_and_near(self):
        self.assertEqual(self.value("namesOf(mostImported(chain.nodes, 2))"), ["c", "a"])
        self.assertEqual(self.value("namesOf(near(named(chain, 'd'), 3))"), ["d", "c", "b"])

    def test_a_search(self):
        """The same name comes first, then names that begin with the text, then those that contain
        it, the shorter before."""
        self.assertEqual(
            self.value("searched(['core.io', 'iostream', 'io', 'IO.x', 'other'], 'io')"),
            ["io", "IO.x", "iostream", "core.io"])

    def boxes(self, settings="{}"):
        """What is drawn of two targets of 30 objects,
        of which one module of the second imports one of the first."""
        return self.value(f"""drawnGraph(graph, {settings}).boxes.map((it) =>
            [it.kind, it.name, it.count,
              [...it.users].map(([to, count]) => [to.name, count])])""", """
            const contents = {};
            for (const name of ["x", "y"]) {
              const files = upTo(30).map((it) => `${name}${it}`), isUser = name === "y";
              files.forEach((file, it) => {
                const imports = isUser && it < 2 ? [`x${it}`] : [];
                contents[`${file}.ddi`] = scan(`${file}.o`, file, ...imports);
              });
              contents[`${name}.target.json`] = target(name, {
                scans: files.map((it) => `${it}.ddi`), linked: isUser ? ["x.json"] : [] });
            }
            const graph = graphFor(contents, { command: "steps" });""")

    def test_boxes_of_targets(self):
        """From 40 objects on a target is a box, and its edges count the imports.
        An open one is its objects."""
        self.assertEqual(self.boxes(), [["target", "x", 30, [["y", 2]]], ["target", "y", 30, []]])
        opened = self.boxes("{ opened: new Set([0]) }")
        self.assertEqual((len(opened), opened[0], opened[-1]),
                         (31, ["object", "x0", 1, [["y", 1]]], ["target", "y", 30, []]))
        few = self.boxes("{ only: new Set(graph.nodes.filter((it) => /0/.test(it.path))) }")
        self.assertEqual([it[0] for it in few], ["object"] * 6)

    def test_boxes_near_the_centre(self):
        drawn = self.value("""[boxes.length, left, boxes.includes(centre),
            boxes.every((it) => it.to.every((to) => boxes.includes(to)))]""", """
            const contents = scans(500, (it) => it ? [it >> 1] : []);
            const { boxes, left, centre } = drawnGraph(graphFor(contents, { command: "all" }));""")
        self.assertEqual(drawn, [60, 440, True, True])

    def test_the_centre(self):
        """The error, a box of an object before that of a target;
        otherwise what is imported most."""
        boxes = """[{ name: "a", to: [1] }, { name: "b", to: [1, 2] },
            { name: "c", to: [], kind: "target", isBad: IN_TARGET },
            { name: "d", to: [], kind: "object", isBad: IN_OBJECT }]"""
        found = [self.value(
            f"centreOf({boxes.replace('IN_TARGET', one).replace('IN_OBJECT', other)}).name")
                 for one, other in (("false", "false"), ("true", "false"), ("true", "true"))]
        self.assertEqual(found, ["b", "c", "d"])

    def test_places(self):
        """No two boxes overlap, and each is to the right of what it imports."""
        placed = self.value("""[edges.every(({ from, to }) => from.x + SIZE.width < to.x),
            boxes.every((one) => boxes.every((it) => one === it || areApart(one, it)))]""", """
            const { boxes } = drawnGraph(chain), { edges } = layout(boxes);
            const areApart = (one, other) =>
              one.x !== other.x || Math.abs(one.y - other.y) >= SIZE.height;""")
        self.assertEqual(placed, [True, True])

    def test_graphs_that_are_not_joined(self):
        """No band of the drawing is empty."""
        edges = {"b0": ["p"], "b1": ["b0"], "m0": ["b1"], "h0": ["b1"], "u1": ["m0"], "far": ["h0"],
                 "base": ["b2", "own"], "u2": ["m1"]}
        names = sorted({*edges, *sum(edges.values(), []), "main"})
        scans = ", ".join(
            f'"{it}.ddi": scan("{it}.o", {json.dumps(it)}, ...{json.dumps(edges.get(it, []))})'
            for it in names)
        rows = self.value(
            "[boxes.map((it) => it.y).sort((one, other) => one - other), SIZE]",
            f'const {{ boxes }} = drawnGraph(graphFor({{ {scans} }}, {{ command: "all" }})); '
            'layout(boxes);')
        ys, size = rows
        self.assertEqual(ys[0], size["margin"] + (size["row"] - size["height"]) / 2)
        self.assertLessEqual(max(after - before for before, after in zip(ys, ys[1:])), size["row"])

    def test_a_long_cycle(self):
        """It is said by modules, and shortened; a short one by each import."""
        count = 30
        line = "dyncollate: M8 ImportCycle " + " -> ".join(f"m{it}.o" for it in range(count))
        said = self.value("[shortLine(line), meaningOf(line, 0, request, graph, {}).detail]", f"""
            const line = {json.dumps(line)};
            const files = filesOf(scans({count}, (it) => [(it + 1) % {count}]));
            const request = requestOf({{ command: "all" }}, files, {{}});
            const graph = graphOf(request);""")
        self.assertEqual(said, [
            "dyncollate: M8 ImportCycle m0.o -> m1.o -> m2.o -> … 25 more … -> m28.o -> m29.o",
            "m0 imports m1 imports m2 imports … 25 more … imports m28 imports m29 imports m0."])

    def test_meanings(self):
        """Each error has the text of the table,
        and an error of a path also why the path is not valid."""
        table = [(f"{it['code']} {it['name']}".strip(), f"{it['meaning']} {it['advice']}")
                 for it in json.loads(TABLE.read_text())]
        errors = {name: re.sub("(FILE|PATH) ?", "a.ddi ", name) for name, _ in table}
        empty = dict(table)["N1 Empty"]
        more = {f"{where}: {name} {rest}N1 Empty": f"{dict(table)[name]} {empty}"
                for where, name, rest in (("scan 0", "S7 BadPath", "rule 0 "),
                                          ("target 1: target", "S7 BadPath", "document "),
                                          ("edges: line 1", "E3 Path", ""),
                                          ("statement 2", "E8 BadPath", ""))}
        wanted = [text for _, text in table] + [*more.values()]
        said = self.value(
            "lines.map((it) => meaningOf(`dyncollate: ${it}`, null, { command: 'order' }, { "
            "targets: [] }, advice).text)", f"const advice = {json.dumps(dict(table))}, lines = "
            f"{json.dumps([*errors.values(), *more])};")
        self.assertEqual(said, wanted)

    def test_what_is_known_about_modules(self):
        """Both that provide a name, the info file with the error,
        and names that are like an unknown one."""
        errors = ["M1 ObjectTwice a.o", "M3 ProvidedTwice A by object a.o and object b.o",
                  "M4 BmiTwice x by object b.o and info far lib", "M5 ModuleUnknown smu in b.o",
                  "M5 ModuleUnknown shape in b.o", "M5 ModuleUnknown other in b.o",
                  "M6 InfoUnknown far lib K B", "M7 InfoDisagrees far lib K B", "K1 MapPath a.o"]
        about = self.value(f"{errors}.map((error) => aboutModules(error, graph.targets[0]))", """
            const graph = graphFor({ "one.ddi": scan("a.o", "sum"),
              "two.ddi": scan("a.o", "shape:impl"), "b.ddi": scan("b.o", "", "smu"),
              "dd/far.json": '{"version":2,"target":"far lib","modules":[{"name":"sums"}]}',
              "t.target.json": target("t",
                { scans: ["one.ddi", "two.ddi", "b.ddi"], linked: ["dd/far.json"] }) },
              { command: "collate", name: "t.target.json" });""")
        info = "the info file of far lib is dd/far.json"
        self.assertEqual(about,
                         ["a.o is in one.ddi; a.o is in two.ddi.",
                          "a.o is in one.ddi; b.o is in b.ddi.", f"b.o is in b.ddi; {info}.",
                          "There is sum.", "There is shape:impl.", "", f"{info}.", f"{info}.", ""])

    def test_seconds_of_a_log(self):
        """The last run of an output counts."""
        log = "# ninja log v5\n0\t1500\t9\ta.o\tabc\n10\t20\t9\tb.o\tabc\n0\t2500\t9\t./a.o\tabc\n"
        self.assertEqual(self.value(f"[...secondsOf({json.dumps(log)})]"),
                         [["a.o", 2.5], ["b.o", 0.01]])

    def test_a_table(self):
        table = self.value("tableOf(chain.nodes, chain.targets, 2)")
        self.assertEqual(table,
                         {"head": ["Module", "Object", "Target", "Imports", "Imported by"],
                          "rows": [["a", "a.o", "t", 1, 1], ["b", "b.o", "t", 1, 1]], "left": 3})

    @unittest.skipUnless(shutil.which("dot"), "graphviz: not there")
    def test_dot_reads_it(self):
        text = self.value(
            'dotOf({ boxes: [{ provides: [\'a"b\\\\\'], kind: "object", target: 0 }, { provides: '
            '[], path: "b.o", kind: "object", target: 1 }], '
            'edges: [{ from: 0, to: 1, isBad: true }] }, [{ name: "x" }, { name: "y" }])')
        status, out, err = run_apart("dot", "-Tplain", input=text)
        self.assertEqual((status, err), (0, ""))
        self.assertIn("edge n0 n1", out)

    def test_dot(self):
        text = self.value(
            'dotOf({ boxes: [{ provides: [\'a"b\'], kind: "object", target: 0, isBad: true }, { '
            'provides: ["t"], kind: "target", target: 1 }], '
            'edges: [{ from: 0, to: 1 }] }, [{ name: "x" }, { name: "y" }])')
        self.assertEqual(text.splitlines(),
                         ["digraph modules {", "rankdir=LR;", "node [shape=box];",
                          'n1 [label="t"];', "subgraph cluster_0 {", 'label="x";',
                          'n0 [label="a\\"b", color=red];', "}", "n0 -> n1;", "}"])


if __name__ == "__main__":
    unittest.main()
