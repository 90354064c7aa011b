"""web/dyncollate.mjs and its types: what a program in Node passes and gets, with the module that
web/build makes."""
import json
import re
import shutil
import unittest
from pathlib import Path

from tests import embedded
from tests.library import ERRORS, passed
from tests.program import TOP
from tests.run import InRoom, run, run_apart
from tests.web import WASM, needs_module, needs_node

NEEDS_LIBRARY = True

WEB = Path(TOP, "web")
START = f"""
    import {{ load, DyncollateError }} from {json.dumps((WEB / "dyncollate.mjs").as_uri())};
    import {{ readFileSync }} from "node:fs";
    import vm from "node:vm";
    const dyncollate = await load(readFileSync({json.dumps(str(WASM))}));
    const text = (it) => new TextDecoder("utf-8", {{ ignoreBOM: true }}).decode(it);
    const bytes = (it) => new TextEncoder().encode(it);
    const rule = {{ "primary-output": "a.o", provides: [{{ "logical-name": "A" }}] }};
    const scan = JSON.stringify({{ version: 1, rules: [rule] }});
    const target = (members) => JSON.stringify({{ version: 1, target: "t", "module-dir": "m",
      "module-ext": ".x", scans: ["a.ddi"], dyndep: "t.dd", info: "t.json", ...members }});
    const error = (call) => {{ try {{ return call(); }} catch (it) {{ return it; }} }};
    const says = (call) => {{ const it = error(call); console.log(it.name, it.message); }};
    """
DECLARED = (WEB / "dyncollate.d.mts").read_text(encoding="utf-8")
DYNDEP = "ninja_dyndep_version = 1\nbuild a.o | m/A.x: dyndep\n  restat = 1\n"
INFO = ('{"modules":[{"bmi":"m/A.x","name":"A","requires":[],"visibility":"public"}],'
        '"target":"t","version":2}')


def location(code, document=0, item=None, list=0, entry=None, **numbers):
    """The location of an error with this code and these numbers."""
    kind = [None, "target", "project", "scan", "info", "edges", "name", "dyndep"][document]
    found = {"document": kind, "code": code or None,
             {"scan": "rule", "info": "module"}.get(kind, "statement"): item,
             [None, "provides", "requires", "path"][list]: entry, **numbers}
    return {name: it for name, it in found.items() if it is not None}


@needs_module
@needs_node
class Interface(unittest.TestCase):
    """As the package for Python has it."""
    seconds = 20

    def lines(self, script):
        """The lines that a script prints."""
        words = "node", "--input-type=module", "-e", START + script
        status, out, err = run_apart(*words, seconds=60)
        self.assertEqual((status, err), (0, ""))
        return out.splitlines()

    def test_files(self):
        """Files in and out, in an object or in a Map."""
        self.assertEqual(self.lines(r"""
    const files = { "a.ddi": scan };
    const maps = [new Map([["a.ddi", bytes(scan)]]), new Map([[bytes("a.ddi"), scan]])];
    for (const it of [files, ...maps])
      for (const [name, data] of dyncollate.collate(target(), it))
        console.log(name, text(data).trim());
    const made = dyncollate.project('{"version":1,"targets":["t"]}', { t: target(), ...files });
    console.log([...made.keys()].join());
    const got = dyncollate.run("collate", target({ restat: true }), files);
    console.log(got.status, got.out.length, got.err.length, got.files.size, [...got.restat].join());
            """), [*f"t.json {INFO}\nt.dd {DYNDEP}".splitlines() * 3, "t.json,t.dd",
                   "0 0 0 2 t.json"])

    def test_commands(self):
        self.assertEqual(self.lines(r"""
    const edges = "build a: x | b || t.dd\n  dyndep = t.dd\nbuild b: x\n";
    const print = (it) => console.log(text(it).trim()), head = "ninja_dyndep_version = 1\n";
    print(dyncollate.one(scan, "m", ".x"));
    console.log(dyncollate.order(edges).map(text), dyncollate.order("").length);
    print(dyncollate.show(`${head}build   a: dyndep\n`));
    print(dyncollate.effect("./t.dd", edges, `${head}build a | c: dyndep\n`));
    const lines = `${head}build a | b c: dyndep | d\nbuild e: dyndep\n  restat = 1\n`;
    for (const it of dyncollate.statements(lines))
      console.log(text(it.output), it.outputs.map(text), it.inputs.map(text), it.restat);
    console.log(dyncollate.version());
            """), [*DYNDEP.splitlines(), "[ 'b', 'a' ] 0",
                   "ninja_dyndep_version = 1", "build a: dyndep",
                   "build a | c: x | b || t.dd", "  dyndep = t.dd", "build b: x",
                   "a [ 'b', 'c' ] [ 'd' ] false", "e [] [] true",
                   Path(TOP, "VERSION").read_text().strip()])

    def test_bytes(self):
        """A string, an ArrayBuffer of this context or of another one, and each view of one."""
        self.assertEqual(self.lines(r"""
    const even = scan + " ".repeat(scan.length % 2), size = even.length;
    const copied = (buffer) => (new Uint8Array(buffer).set(bytes(even)), buffer);
    const buffer = copied(new ArrayBuffer(size));
    const within = bytes(`xyz${even}xy`).subarray(3, 3 + size);
    const other = copied(vm.runInNewContext("new ArrayBuffer(size)", { size }));
    const views = [new DataView(buffer), new Uint16Array(buffer), within, Buffer.from(even)];
    for (const it of [even, buffer, copied(new SharedArrayBuffer(size)), other, ...views])
      console.log(text(dyncollate.one(it, "m", ".x")) === text(dyncollate.one(scan, "m", ".x")),
        text(dyncollate.collate(target(), { "a.ddi": it }).get("t.dd")).length);
            """), [f"true {len(DYNDEP)}"] * 8)

    def test_what_is_not_taken(self):
        """Each call throws a TypeError that says what is taken."""
        self.assertEqual(self.lines(r"""
    const wrong = [[1, 2, 3], [scan, ""], [scan, "", "", ""], [scan, null, ""], [[scan], "", ""]];
    for (const given of wrong) says(() => dyncollate.one(...given));
    const others = [new ArrayBuffer(8), bytes(scan), [["a.ddi", scan]], "a.ddi", null, undefined];
    for (const files of [...others, { "a.ddi": 1 }, { "a.ddi": {} }, { "\ud800": scan }])
      says(() => dyncollate.collate(target(), files));
    for (const given of [["none"], ["toString", ""], ["statements", ""], [], ["order"]])
      says(() => dyncollate.run(...given));
    says(() => dyncollate.run("one", scan, new Uint8Array([255]), ""));
    says(() => dyncollate.statements());
    console.log(text(dyncollate.one(scan, "m", ".x")).length);
            """), [*(f"TypeError {it}" for it in [
                "bytes are a string, an ArrayBuffer or a view of one, not Number",
                "one takes 3 arguments, not 2", "one takes 3 arguments, not 4",
                "bytes are a string, an ArrayBuffer or a view of one, not Null",
                "bytes are a string, an ArrayBuffer or a view of one, not Array",
                *(f"files are an object or a Map, not {it}" for it in (
                    "ArrayBuffer", "Uint8Array", "Array", "String", "Null", "Undefined")),
                "bytes are a string, an ArrayBuffer or a view of one, not Number",
                "bytes are a string, an ArrayBuffer or a view of one, not Object",
                "a string cannot be written in UTF-8", "there is no command none",
                "there is no command toString", "there is no command statements",
                "there is no command undefined", "order takes 1 arguments, not 0",
                "a name is not UTF-8", "statements takes 1 arguments, not 0"]), str(len(DYNDEP))])

    def test_errors(self):
        """An error has the whole line, and its location as numbers. An error of an info file has
        the module, and no rule."""
        self.assertEqual(self.lines(r"""
    const info = (...modules) => JSON.stringify({ version: 2, target: "k", modules });
    const module = (name, requires) => ({ name, bmi: "b", visibility: "public", requires });
    const requires = [{ "logical-name": "A" }, { "logical-name": "" }];
    const rules = [rule, { "primary-output": "b.o", requires }];
    const faulty = JSON.stringify({ version: 1, rules });
    const linked = (...modules) => () =>
      dyncollate.collate(target({ linked: ["k"] }), { "a.ddi": scan, k: info(...modules) });
    for (const call of [
      () => dyncollate.one("", "m", ".x"),
      () => dyncollate.one(faulty, "", ""),
      linked(module("B", []), module("", [])),
      linked(module("B", [{ name: "C", bmi: "c" }, { name: "", bmi: "" }])),
      () => dyncollate.statements("build a: dyndep\n"),
      () => dyncollate.effect("", "", ""),
      () => dyncollate.effect("t", "", "ninja_dyndep_version = 1\nbuild a | $x: dyndep\n"),
      () => dyncollate.collate(target(), {}),
    ]) {
      const it = error(call);
      console.log(it instanceof DyncollateError && it.line === it.message, it.status, it.line);
      console.log(JSON.stringify(it.location));
    }
            """), [it for line, location in [
                ("1 dyncollate: scan 0: S1 NotJson document",
                 '"document":"scan","code":"S1","index":0'),
                ("1 dyncollate: scan 0: S6 BadName rule 1 requires 1",
                 '"document":"scan","code":"S6","index":0,"rule":1,"requires":1'),
                ("1 dyncollate: info 0: S6 BadName module 1",
                 '"document":"info","code":"S6","index":0,"module":1'),
                ("1 dyncollate: info 0: S6 BadName module 0 requires 1",
                 '"document":"info","code":"S6","index":0,"module":0,"requires":1'),
                ("1 dyncollate: line 1: Y4 NoVersion", '"document":"dyndep","code":"Y4","line":1'),
                ("1 dyncollate: name: N1 Empty", '"document":"name","code":"N1"'),
                ("1 dyncollate: line 2: N9 Variable at 10",
                 '"document":"dyndep","code":"N9","line":2,"offset":10'),
                ("3 dyncollate: cannot read a.ddi", "")]
                for it in (f"true {line}", f"{{{location}}}")])

    def test_locations(self):
        """The errors of tests/library.py, as `run` returns them. A command that succeeds has no
        location."""
        def listed(it):
            it = it.encode() if isinstance(it, str) else it
            return list(it) if isinstance(it, bytes) else {name: list(data)
                                                           for name, data in it.items()}
        calls = [[command, *(listed(passed(it)) for it in given)]
                 for command, *given, _, _ in ERRORS]
        printed = self.lines(f"""
    const files = (it) => Object.entries(it).map(([name, data]) => [name, new Uint8Array(data)]);
    const passed = (it) => Array.isArray(it) ? new Uint8Array(it) : new Map(files(it));
    for (const [command, ...given] of {json.dumps(calls)})
      console.log(JSON.stringify(dyncollate.run(command, ...given.map(passed)).location));
    console.log("location" in dyncollate.run("one", scan, "m", ".x"));
            """)
        self.assertEqual([json.loads(it) for it in printed],
                         [*(location(code, **numbers) for *_, code, numbers in ERRORS), False])

    def test_a_name_that_begins_with_a_byte_order_mark(self):
        """It keeps the mark, as each file and each path does."""
        self.assertEqual(self.lines(r"""
    const name = "\ufeffa.ddi";
    const members = { scans: [name], info: "\ufefft.json", dyndep: "\ufefft.dd", restat: true };
    const collated = (data) => dyncollate.run("collate", target(members), { [name]: data });
    console.log(collated(`\ufeff${scan}`).status);
    const { files, restat } = collated(scan);
    console.log(JSON.stringify([...files.keys(), ...restat]));
    console.log(JSON.stringify(error(() => dyncollate.collate(target(members), {})).line));
    const importer = scan.replace("provides", "requires").replace("a.o", "\ufeffa.o");
    console.log(JSON.stringify(error(() => dyncollate.one(importer, "", "")).line));
            """), ["1", '["\ufefft.json","\ufefft.dd","\ufefft.json"]',
                   '"dyncollate: cannot read \ufeffa.ddi"',
                   '"dyncollate: M5 ModuleUnknown A in \ufeffa.o"'])

    def test_statements_that_are_many(self):
        """They take a time that grows as their number does."""
        self.assertEqual(self.lines(r"""
    const count = 200000, made = ["ninja_dyndep_version = 1\n"];
    for (let at = 0; at < count; at++) made.push(`build ${at}: dyndep\n`);
    console.log(text(dyncollate.statements(made.join("")).at(-1).output));
            """), ["199999"])

    def test_memory_that_runs_out(self):
        """The call throws, and the next one works."""
        self.assertEqual(self.lines(r"""
    const { Instance } = WebAssembly;
    const many = `{"version":1,"rules":[],"a":[${"[],".repeat(200000)}0]}`;
    for (const pages of [16, 160, null]) {
      // an instance whose heap has this many pages and can get no more, because the others are
      // taken; then one that can
      WebAssembly.Instance = function (module) {
        const instance = new Instance(module), { malloc, memory } = instance.exports;
        if (pages === null) return instance;
        memory.grow(pages);
        malloc(1n);
        for (let taken = 4096; taken >= 1; taken /= 2)
          try { for (;;) memory.grow(taken); } catch { /* fewer are left */ }
        return instance;
      };
      const got = error(() => dyncollate.run("one", many, "", ""));
      console.log(got.status ?? `${got.name} ${got.message}`);
    }
            """), ["RangeError out of memory", "RangeError out of memory", "0"])

    def test_declared(self):
        """dyncollate.d.mts declares each function and class, and no other."""
        declared = re.search(r"^export interface Dyncollate \{\n(.*?)^\}", DECLARED, re.M | re.S)[1]
        functions = sorted(set(re.findall(r"^  (\w+)\(", declared, re.M)))
        exported = sorted(re.findall(r"^export (?:class|function) (\w+)", DECLARED, re.M))
        url = json.dumps((WEB / "dyncollate.mjs").as_uri())
        self.assertEqual(self.lines(f"""
    console.log(Object.keys(dyncollate).sort().join());
    console.log(Object.keys(await import({url})).sort().join());
            """), [",".join(functions), ",".join(exported)])


# What a user writes, and the number of the error that the compiler reports.
USES = [
    ('made.collate("", { a: "", b: new Uint8Array(), c: new ArrayBuffer(1) }).get("")!.at(0);', ""),
    ('made.collate(new DataView(new ArrayBuffer(1)), new Map([["a", ""]])).size.toFixed();', ""),
    ('made.run("order", "").restat.has(made.version());', ""),
    ('made.run("project", "", {}).files.get("a")?.length;', ""),
    ('made.order("").map((it) => it.length);', ""),
    ('made.statements("").map(({ output, inputs, restat }) => restat && [output, ...inputs]);', ""),
    ('new DyncollateError(1, "", {}).location.rule?.toFixed();', ""),
    ('made.run("order", "").location?.offset?.toFixed();', ""),
    ('made.one(1, 2, 3);', "2345"),
    ('made.one("", "");', "2554"),
    ('made.collate("", new ArrayBuffer(1));', "2345"),
    ('const file: Uint8Array = made.project("", {}).get("a");', "2322"),
    ('made.run("none", "");', "2345"),
    ('made.run("one", "");', "2345"),
    ('made.effect("", "", "").toUpperCase();', "2339"),
    ('const rule: number = new DyncollateError(1, "", {}).location.rule;', "2322"),
    ('load("dyncollate.wasm");', "2345"),
]


@embedded.needs_tools("tsc")
class Types(InRoom):
    seconds = 20

    def test_uses(self):
        """What is right passes, and each wrong use has its error."""
        package = self.room / "node_modules/dyncollate"
        package.mkdir(parents=True)
        for name in "package.json", "dyncollate.mjs", "dyncollate.d.mts":
            shutil.copy(WEB / name, package)
        lines = ['import { load, DyncollateError } from "dyncollate";',
                 "const made = await load(new Uint8Array());", *(use for use, _ in USES)]
        (self.room / "uses.mts").write_text("".join(f"{it}\n" for it in lines))
        words = "--strict --noEmit --pretty false --target es2022 --lib es2022 --module node16"
        _, printed = run("tsc", *words.split(), "uses.mts", cwd=self.room)
        found = re.findall(r"^(\S+)\((\d+),\d+\): error TS(\d+):", printed, re.M)
        wanted = [("uses.mts", str(at), error) for at, (_, error) in enumerate(USES, 3) if error]
        self.assertEqual(found, wanted, printed)
