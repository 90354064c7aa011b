"""Random documents and their expected results, which are known from how the documents were made.

A round makes files and calls the program with them. It returns a call of the round, and one of its
files that may be damaged. `program.done` and `program.rejected` compare the result of a call with
what is known, and with tests/expected.
"""
import itertools
import json
import os
import random
import re

from tests.case import read, write
from tests.expected.commands import firsts, shown
from tests.expected.digraphs import least_cycle, least_order, repeated
from tests.expected.documents import info_text
from tests.expected.dyndeps import VERSION, statement_text
from tests.expected.edges import edge_of, listing_text, made_by, needs_of
from tests.expected.modules import map_text
from tests.expected.paths import canonical, escaped


class Choices:
    """Makes what a round needs, the same from the same seed."""

    def __init__(self, seed):
        self.r = random.Random(seed)

    def chance(self, percent):
        return self.r.randrange(100) < percent

    def word(self, letters=b"abcxyz019_.-"):
        return bytes(self.r.choice(letters) for _ in range(self.r.randint(1, 5)))

    def path(self, letters=b"ab.$ :#=\t\x80\xff-9"):
        """A text that has a canonical path."""
        while True:
            parts = [self.r.choice([b".", b"..", b"", self.word(), self.word(letters)])
                     for _ in range(self.r.randint(1, 5))]
            path = self.r.choice([b"", b"", b"/"]) + b"/".join(parts)
            if canonical(path):
                return path

    def crooked(self, path):
        """Another text of the same canonical path, which is relative and begins with no `..`."""
        parts = []
        for part in path.split(b"/"):
            parts += self.r.choice([[], [], [b"."], [b""], [b"q", b".."]]) if parts else []
            parts.append(part)
        return self.r.choice([b"", b"./", b"z/../"]) + b"/".join(parts)

    # -- lines, with escapes

    def gap(self):
        return self.r.choice([b" ", b" ", b"  ", b" $\n", b" $\r\n    ", b"   $\n $\n "])

    def escaped(self, path):
        """The path in an escaped form, perhaps over several lines."""
        pieces = re.findall(rb"\$.|[^$]", escaped(path), re.S)
        joints = [self.r.choice([b"$\n", b"$\n   ", b"$\r\n "]) if self.chance(3) else b""
                  for _ in pieces[1:]]
        return b"".join(it for both in zip(pieces, joints) for it in both) + pieces[-1]

    def end(self):
        return self.r.choice([b"\n", b"\n", b"\r\n"])

    def between(self, blank=True):
        lines = ([b"#" + self.word(b"a$|:\t\x00") + b"\n",
                  b"  # x\n"] + ([b"\n", b"   \n", b"\r\n"] if blank else []))
        return b"".join(self.r.choice(lines) for _ in range(self.r.choice([0, 0, 0, 1, 2])))

    def part(self, mark, paths):
        """A part of a build line that may be left out if it is empty."""
        if not paths and self.chance(80):
            return b""
        return self.gap() + mark + b"".join(self.gap() + self.escaped(it) for it in paths)


# ---- dyndep files

def dyndep_round(make, program):
    """A dyndep file in a form of its own is shown as the writer writes it."""
    text = make.between() + b"ninja_dyndep_version" + make.r.choice([b"=", b" = ", b" $\n="]) + \
        make.r.choice([b"1", b" 1.0", b" 1.0-x"]) + make.end()
    wanted = VERSION
    for _ in range(make.r.randint(0, 6)):
        output, restat = make.path(), make.chance(50)
        outputs, inputs = ([make.path() for _ in range(make.r.randint(0, 3))] for _ in range(2))
        text += (make.between() + b"build" + make.gap() + make.escaped(output)
                 + make.part(b"|", outputs))
        text += (make.r.choice([b":", b" :", b": "]) + make.r.choice([b"", b" "]) + b"dyndep"
                 + make.part(b"|", inputs) + make.end())
        if restat or make.chance(20):
            value = make.r.choice([b"1", b"x $: y", b"0"]) if restat else b""
            text += (make.between(blank=False) + b" restat =" + make.r.choice([b"", b" "]) + value
                     + make.end())
        wanted += statement_text(output, outputs, inputs, restat)
    text += make.between()
    write("t.dd", text)
    program.done(wanted, "show", "t.dd")
    write("shown.dd", wanted)
    program.done(wanted, "show", "shown.dd")
    return ["show", "t.dd"], "t.dd"


# ---- scan documents

def rules_of(make, names, foreign=(), acyclic=False, prefix=b"obj/"):
    """Rules that provide these names, and require some of them and of the foreign ones."""
    rules = []
    rest = list(names)
    for at in range(make.r.randint(1, 6)):
        provided = [rest.pop() for _ in range(min(len(rest), make.r.choice([0, 1, 1, 2])))]
        known = [it for rule in rules for it in rule["provides"]] if acyclic else list(names)
        pool = known + list(foreign)
        required = [make.r.choice(pool) for _ in range(make.r.randint(0, 4))] if pool else []
        rules.append({"object": prefix + b"%d%s.o" % (at, make.word(b"ab $:")),
                      "provides": provided, "requires": required})
    return rules


def document_of(make, rules):
    """A scan document of the rules, with members that nobody reads."""
    made = []
    for rule in rules:
        it = {"primary-output": make.crooked(rule["object"]).decode()}
        if rule["provides"] or make.chance(30):
            it["provides"] = [{"logical-name": name.decode(), "is-interface": True}
                              for name in rule["provides"]]
        if rule["requires"] or make.chance(30):
            it["requires"] = [{"logical-name": name.decode(), "source-path": "x"}
                              for name in rule["requires"]]
        if make.chance(20):
            it["outputs"] = ["x", {"y": [1, 2.5e3, None]}]
        made.append(dict(make.r.sample(list(it.items()), len(it))))
    return json.dumps({"rules": made, "revision": 0, "version": make.r.choice([0, 1])},
                      indent=make.r.choice([None, 1])).encode()


def file_of(folder, name, ending):
    """The canonical path of a module's file."""
    return canonical((folder + b"/" if folder else b"") + name.replace(b":", b"-") + ending)


def fault_of(rules, files):
    """The line of the error that the rules of one document have, or None."""
    objects = [rule["object"] for rule in rules]
    provided = [(at, name) for at, rule in enumerate(rules) for name in rule["provides"]]
    twice = repeated(objects)
    if twice:
        return b"M1 ObjectTwice " + twice[0]
    twice = repeated([name for _, name in provided])
    if twice:
        producers = tuple(objects[provided[it][0]] for it in twice[1:])
        return b"M3 ProvidedTwice %s by object %s and object %s" % (twice[0], *producers)
    paths = ([(at, it) for at, it in enumerate(objects)] + [(at, files[name])
                                                            for at, name in provided])
    twice = repeated([it for _, it in paths])
    if twice:
        producers = tuple(objects[paths[it][0]] for it in twice[1:])
        return b"M4 BmiTwice %s by object %s and object %s" % (twice[0], *producers)
    producer = {name: at for at, name in provided}
    for rule in rules:
        for name in rule["requires"]:
            if name not in producer:
                return b"M5 ModuleUnknown %s in %s" % (name, rule["object"])
    cycle = least_cycle([{producer[name] for name in rule["requires"]} for rule in rules])
    return b"M8 ImportCycle " + b" -> ".join(objects[it] for it in cycle) if cycle else None


def dyndep_text(rules, files):
    return VERSION + b"".join(statement_text(rule["object"], [files[it] for it in rule["provides"]],
                                             [files[it] for it in firsts(rule["requires"])],
                                             bool(rule["provides"])) for rule in rules)


def scan_round(make, program):
    """A scan document becomes the statements of its rules, or has the expected error."""
    names = firsts([make.word(b"abc") + make.r.choice([b"", b":", b"-"]) + make.word(b"xy")
                    for _ in range(6)])
    if make.chance(15):
        names.append(make.r.choice(names))
    unknown = [b"nobody"] if make.chance(8) else []
    rules = rules_of(make, names[: make.r.randint(0, len(names))], unknown, acyclic=make.chance(60))
    provided = {it for rule in rules for it in rule["provides"]}
    for rule in rules:
        rule["requires"] = [it for it in rule["requires"] if it in provided or it in unknown]
    if make.chance(5):
        rules.append(dict(rules[0]))
    folder, ending = (make.r.choice([b"mod", b"my mods/$x:y", b"", b"a/../m"]),
                      make.r.choice([b".bmi", b".pcm", b""]))
    files = {it: file_of(folder, it, ending) for it in names}
    write("t.ddi", document_of(make, rules))
    fault = fault_of(rules, files)
    words = ["one", "t.ddi", folder.decode(), ending.decode()]
    if fault:
        program.rejected(shown(fault), *words)
    else:
        program.done(dyndep_text(rules, files), *words)
    return words, "t.ddi"


# ---- listings

def crooked_listing(make, edges):
    """A listing of the edges in a form of its own."""
    text = make.between()
    for edge in edges:
        text += (b"build" + b"".join(make.gap() + make.escaped(make.crooked(it))
                                     for it in edge["outputs"]))
        text += (make.part(b"|", [make.crooked(it) for it in edge["implicit"]])
                 + make.r.choice([b":", b" : "]) + edge["rule"])
        text += b"".join(make.gap() + make.escaped(make.crooked(it)) for it in edge["inputs"])
        text += make.part(b"|", [make.crooked(it) for it in edge["implicit inputs"]])
        text += make.part(b"||", [make.crooked(it) for it in edge["order only"]]) + make.end()
        bindings = ([b"  dyndep = " + make.escaped(make.crooked(edge["dyndep"])) + make.end()]
                    if edge["dyndep"] else [])
        bindings += [b" restat = x" + make.end()] if edge["restat"] else []
        for it in make.r.sample(bindings, len(bindings)):
            text += make.between(blank=False) + it
        text += make.between()
    return text


def edges_for(make, rules, name):
    """Edges that make the objects, each naming the dyndep file, and others, in any order."""
    edges = []
    for at, rule in enumerate(rules):
        outputs, implicit = [rule["object"]], [b"d/%d.d" % at] if make.chance(30) else []
        if implicit and make.chance(30):
            outputs, implicit = implicit, outputs
        inputs = [[b"src/%d.cpp" % at] if make.chance(80) else [] for _ in range(2)]
        lists = [inputs[0], inputs[1] if make.chance(20) else [],
                 [b"gen.h"] if make.chance(30) else []]
        lists[make.r.randrange(3)].append(name)
        edges.append(edge_of(b"cxx", outputs, implicit, *lists, name, make.chance(20)))
    others = [edge_of(b"gen", [b"gen.h"], [], [b"gen.in"], [], []),
              edge_of(b"link", [b"app"], [b"app.map"], [it["object"] for it in rules], [], [])]
    edges += [it for it in others if make.chance(70)]
    make.r.shuffle(edges)
    return edges


def after(edges, rules, files, name):
    """The edges with what the objects' rules add."""
    edges = [dict(it) for it in edges]
    for rule in rules:
        for edge in edges:
            if rule["object"] in made_by(edge):
                edge["implicit"] = edge["implicit"] + [files[it] for it in rule["provides"]]
                edge["implicit inputs"] = (edge["implicit inputs"]
                                           + [files[it] for it in firsts(rule["requires"])])
                edge["restat"] = edge["restat"] or bool(rule["provides"])
    return edges


def ordered(program, edges, listing):
    """The edges of the listing are put in their order, or their least cycle is printed."""
    needs = needs_of(edges)
    first = [(edge["outputs"])[0] for edge in edges]
    cycle = least_cycle(needs)
    if cycle:
        program.rejected(shown(b"cycle " + b" -> ".join(first[it] for it in cycle)), "order",
                         listing)
    else:
        program.done(b"".join(shown(first[it]) + b"\n" for it in least_order(needs)), "order",
                     listing)


def effect_round(make, program):
    """The dyndep file of a scan document adds exactly what its objects provide and require."""
    names = [b"m%d" % it for it in range(make.r.randint(0, 5))]
    rules = rules_of(make, names, acyclic=True)
    files = {it: file_of(b"mod", it, b".bmi") for it in names}
    write("t.ddi", document_of(make, rules))
    write("t.dd", program.done(dyndep_text(rules, files), "one", "t.ddi", "mod", ".bmi"))
    edges = edges_for(make, rules, b"t.dd")
    write("edges", crooked_listing(make, edges))
    ordered(program, edges, "edges")
    then = after(edges, rules, files, b"t.dd")
    write("after", program.done(listing_text(then), "effect",
                                make.r.choice(["t.dd", "./t.dd", "x/../t.dd"]), "edges", "t.dd"))
    ordered(program, then, "after")
    write("none.dd", VERSION)
    program.done(listing_text(then), "effect", "none.dd", "after", "none.dd")
    return ["effect", "t.dd", "edges", "t.dd"], make.r.choice(["edges", "t.dd"])


# ---- projects

def project_of(make):
    """The targets of a project without an error, and the files that it has to write."""
    form = make.r.choice([None, "gcc", "clang"])
    targets, wanted, files, producer, rule_of = [], {}, {}, {}, {}
    for at in range(make.r.randint(1, 3)):
        linked = set()
        for other in range(at):
            if make.chance(70):
                linked |= {other} | targets[other]["linked"]
        foreign = [it for other in sorted(linked) for it in targets[other]["public"]]
        names = [b"t%d.m%d" % (at, it) for it in range(make.r.randint(0, 4))]
        prefix = b"o%d/" % at
        rules = rules_of(make, names, foreign, acyclic=True, prefix=prefix)
        if form == "clang":
            for rule in rules:
                rule["provides"] = rule["provides"][:1]
        for rule in rules:
            rule["object"] = rule["object"].translate(bytes.maketrans(b" $:", b"_._"))
        provided = {it for rule in rules for it in rule["provides"]}
        for rule in rules:
            rule["requires"] = [it for it in rule["requires"] if it in provided or it in foreign]
            for name in rule["provides"]:
                files[name] = file_of(b"bmi/%d" % at, name, b".x")
                rule_of[name] = rule
        private = sorted(it for it in provided if make.chance(25))
        targets.append({"name": f"t{at}", "linked": linked, "rules": rules, "private": private,
                        "public": sorted(provided - set(private)), "form": form})
        modules = [(name, files[name], [(it, files[it]) for it in firsts(rule["requires"])],
                    name in private) for rule in rules for name in rule["provides"]]
        wanted[f"{at}.info"] = info_text(b"t%d" % at, modules)
        wanted[f"{at}.dd"] = dyndep_text(rules, files)
        for rule in rules:
            reached, left = set(), list(rule["requires"])
            while left:
                name = left.pop()
                if name not in reached:
                    reached.add(name)
                    left += rule_of[name]["requires"]
            if form:
                wanted[rule["object"].decode() + ".modmap"] = map_text(
                    form.encode(), [(it, files[it]) for it in rule["provides"]],
                    [(it, files[it]) for it in sorted(reached)])
    return targets, wanted, files


def write_project(make, targets):
    """Writes the project document, the target documents and their scan documents."""
    for at, target in enumerate(targets):
        rules = target["rules"]
        cut = make.r.randint(0, len(rules))
        scans = [f"{at}.{it}.ddi" for it in range(2)]
        write(scans[0], document_of(make, rules[:cut]))
        write(scans[1], document_of(make, rules[cut:]))
        document = {"version": 1, "target": target["name"], "module-dir": f"bmi/{at}",
                    "module-ext": ".x", "scans": scans,
                    "linked": [f"{it}.info" for it in sorted(target["linked"])],
                    "info": f"{at}.info", "dyndep": f"{at}.dd",
                    "private": [it.decode() for it in target["private"]]}
        if target["form"]:
            document["map"] = target["form"]
        write(f"{at}.json", json.dumps(document).encode())
        os.makedirs(f"o{at}", exist_ok=True)
    write("project.json",
          json.dumps({"version": 1,
                      "targets": [f"{at}.json" for at in range(len(targets))]}).encode())


def check_written(program, how, wanted):
    """These files are there as they have to be; they are taken away."""
    for name, text in wanted.items():
        program.equal(f"{how}: {name}", read(name) if os.path.exists(name) else None, text)
        os.remove(name)


def edges_of(make, targets):
    """Edges for all targets; the files that edges of different targets make are different."""
    edges = [edge for at, target in enumerate(targets)
             for edge in edges_for(make, target["rules"], b"%d.dd" % at) if edge["rule"] == b"cxx"]
    for at, edge in enumerate(edges):
        for part in ("implicit", "outputs"):
            edge[part] = [it if it.endswith(b".o") else b"d/all%d.d" % at for it in edge[part]]
    return edges


def project_round(make, program):
    """The targets of a project come out as they have to,
    and their dyndep files end alike in every order."""
    targets, wanted, files = project_of(make)
    write_project(make, targets)
    program.done(b"", "project", "project.json")
    check_written(program, "project", wanted)
    for at in range(len(targets)):
        program.done(b"", "collate", f"{at}.json")
    check_written(program, "collate", wanted)
    for it in wanted:
        write(it, wanted[it])
    then = edges_of(make, targets)
    write("edges", crooked_listing(make, then))
    for at, target in enumerate(targets):
        then = after(then, target["rules"], files, b"%d.dd" % at)
    for order in itertools.permutations(range(len(targets))):
        listing = "edges"
        for step, at in enumerate(order):
            write(f"step{step}", program.done(None, "effect", f"{at}.dd", listing, f"{at}.dd"))
            listing = f"step{step}"
        program.equal(f"effects in the order {order}", read(listing), listing_text(then))
    ordered(program, then, listing)
    last = len(targets) - 1
    if make.chance(50):
        at = make.r.randint(0, last)
        return (["project", "project.json"],
                make.r.choice(["project.json", f"{at}.json", f"{at}.0.ddi", f"{at}.1.ddi"]))
    infos = [f"{it}.info" for it in targets[last]["linked"]]
    return (["collate", f"{last}.json"],
            make.r.choice([f"{last}.json", f"{last}.0.ddi", f"{last}.1.ddi"] + infos))


ROUNDS = {"dyndep_files": dyndep_round, "scan_documents": scan_round, "listings": effect_round,
          "projects": project_round}
