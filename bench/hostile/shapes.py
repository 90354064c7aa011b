"""Inputs that are made to be expensive, each next to an ordinary one of about the same size.

Each function of SHAPES fills two directories, `made` and `ordinary`, and returns the command line
for both. The input grows with `size`.
"""
import hashlib
import json
import os
import random
import subprocess

COLLIDE = os.environ.get("COLLIDE", "collide")  # the program of collide.cpp


def write(file, value):
    file.parent.mkdir(parents=True, exist_ok=True)
    file.write_text(value if isinstance(value, str) else json.dumps(value, separators=(",", ":")))


def collided(*words, text=""):
    words = [COLLIDE, *map(str, words)]
    ran = subprocess.run(words, input=text, stdout=subprocess.PIPE, text=True, check=True)
    return ran.stdout.split()


def size_of(directory):
    return sum(file.stat().st_size for file in directory.rglob("*") if file.is_file())


def digest(text):
    return hashlib.sha512(text.encode()).hexdigest()


# ---- tables whose key would not cover what they hold

def cut_paths(size):
    """Two lists of paths that are one string, cut into pieces of the same lengths in another order.
    If the key of a table is the digest of the string, however it is cut, the paths of the first
    list fall into few groups of the table."""
    chance = random.Random(1)
    text = "".join(chance.choices("abcdefghijklmnopqrstuvwxyzABCDEF", k=size))
    made = collided("cut", digest(text), 15, 1024, text=text)
    ends = [0]
    for path in chance.sample(made, len(made)):
        ends.append(ends[-1] + len(path))
    return made, [text[start:end] for start, end in zip(ends, ends[1:])]


def parts(paths, most=10_000):
    """The paths in lists that fit in a line each."""
    return [paths[first:first + most] for first in range(0, len(paths), most)]


def edges(made, ordinary, size):
    """Edges that produce the paths."""
    for directory, paths in zip((made, ordinary), cut_paths(size)):
        write(directory / "edges", "".join(f"build {' '.join(part)}: r\n" for part in parts(paths)))
    return "order", "edges"


def dyndep(made, ordinary, size):
    """A dyndep file that adds the paths to the outputs of a few edges."""
    for directory, paths in zip((made, ordinary), cut_paths(size)):
        each = list(enumerate(parts(paths)))
        lines = [f"build {number}: r || d\n  dyndep = d\n" for number, _ in each]
        write(directory / "edges", "".join(lines))
        added = "".join(f"build {number} | {' '.join(part)}: dyndep\n" for number, part in each)
        write(directory / "d", "ninja_dyndep_version = 1\n" + added)
    return "effect", "d", "edges", "d"


def names_for(size, entries=""):
    """Names of ten bytes that share a group of a table if these entries are all that its key
    covers, and as many others."""
    return collided("names", digest(entries), 12, size), [f"y{it:09}" for it in range(size)]


def modules(made, ordinary, size):
    """An object whose modules are private. Their names share a group of a table, and so do their
    files. Another object requires the last one often."""
    for directory, names in zip((made, ordinary), names_for(2 * size)):
        provider = rule("o", zip(names[:size], names[size:]))
        write_scan(directory, [provider, rule("u", [], names[size - 1:size] * size)])
        write_target(directory, private=names[:size])
    return "collate", "target"


def targets(made, ordinary, size):
    """A target that links many targets, whose names share a group of a table."""
    for directory, names in zip((made, ordinary), names_for(size)):
        for name in names:
            write(directory / f"i/{name}", {"version": 2, "target": name, "modules": []})
        write_target(directory, scans=[], linked=[f"i/{name}" for name in names])
    return "collate", "target"


def keyless(made, ordinary, size):
    """A project with a library whose modules have such names and files, and a library and a program
    that require the last one often."""
    for directory, names in zip((made, ordinary), names_for(2 * size)):
        project, last = Project(directory), names[size - 1:size]
        project.add("a", [(zip(names[:size], names[size:]), [])], [])
        project.add("b", [([f"b{number}"], last) for number in range(size)], ["a"])
        project.add("c", [([], last * size)], ["a"])
        words = project.written()
    return words


def sharing(made, ordinary, size):
    """A project with two libraries whose modules have the same files. Those of the second, by their
    names and files, share a group of a table. Another library requires the last one often. Programs
    link all of them."""
    found = collided("pairs", digest(""), 12, size)
    other = [f"{kind}{it:015}" for it in range(size) for kind in "xy"]
    for directory, pairs in (made, found), (ordinary, other):
        project, names, files = Project(directory), pairs[::2], pairs[1::2]
        project.add("a", [(zip([f"a{it}" for it in range(size)], files), [])], [])
        project.add("b", [(zip(names, files), [])], [])
        project.add("c", [([f"c{it}"], names[-1:]) for it in range(size)], ["b"])
        for below in ["a"], ["b", "c"]:
            project.add(f"u{below[-1]}", [([], [f"{below[-1]}0"])], below)
        words = project.written()
    return words


def produced(entries):
    """Edges that produce files that share a group of a table if its key covers only this of each.
    """
    def shape(made, ordinary, size):
        for directory, names in zip((made, ordinary), names_for(size, entries * size)):
            write(directory / "edges", "".join(f"build {name}: r\n" for name in names))
        return "order", "edges"
    return shape


outputs, lengths = produced(""), produced("\n")  # the byte 10 is the length of each name


# ---- strings that are reduced

def work_directory(made, ordinary, size):
    """One object with many modules. Half of the document is the work directory, or a member that is
    ignored."""
    long = "a/../" * (size * 128 // 5) + "w"
    provides = [{"compiled-module-path": f"x{number}", "logical-name": f"m{number:070}"}
                for number in range(size)]
    for directory, ignored, used in (made, "w", long), (ordinary, long, "w"):
        write_scan(directory, [{"ignored": ignored, "primary-output": "o", "provides": provides,
                                "work-directory": used}])
    return "one", "scan", "mod", ".bmi"


def module_ext(made, ordinary, size):
    """Modules whose files have a long ending, which is as long as a short one once it is reduced.
    """
    long = "/a/.." * (size * 128 // 5) + "/x"
    for directory, ignored, used in (made, "/x", long), (ordinary, long, "/x"):
        write_scan(directory, [rule(f"o/{number}", [f"m{number}"]) for number in range(size)])
        write_target(directory, ignored=ignored, **{"module-ext": used})
    return "collate", "target"


def reduced_paths(made, ordinary, size):
    """Objects whose paths are short once they are reduced, or short paths next to members that are
    ignored. Each is in a document of its own, so that the paths take most of the memory."""
    long = "a/../" * 800
    names = [f"s/{number}" for number in range(size)]
    for directory, ignored, used in (made, "", long), (ordinary, long, ""):
        for number, name in enumerate(names):
            write_scan(directory, [{**rule(f"{used}{number}", []), "ignored": ignored}], name)
        write_target(directory, scans=names)
    return "collate", "target"


# ---- names that are repeated

def requires(made, ordinary, size):
    """A chain of objects that each require the one below often, and objects that require the last,
    with maps. Or what is repeated is in a member that is ignored."""
    for directory, member in (made, "requires"), (ordinary, "ignored"):
        rules = [rule("x0.o", ["x0"])]
        for number in range(1, 9):
            again = [{"logical-name": f"x{number - 1}"}] * (size // 8)
            own = rule(f"x{number}.o", [f"x{number}"], [f"x{number - 1}"])
            rules.append({**own, member: again})
        write_scan(directory, rules + [rule(f"u{it}.o", [], ["x8"]) for it in range(size // 4)])
        write_target(directory, map="clang")
    return "collate", "target"


def info_requires(made, ordinary, size):
    """An info file whose module requires another one often, and objects that require it, with maps.
    Or what is repeated is in a member that is ignored."""
    for directory, member in (made, "requires"), (ordinary, "ignored"):
        low = {"name": "j", "bmi": "bj", "requires": [], "visibility": "public"}
        pair = {"name": "j", "bmi": "bj"}
        high = {"name": "i", "bmi": "bi", "visibility": "public", "requires": [pair],
                member: [pair] * size}
        write(directory / "i.json", {"version": 2, "target": "x", "modules": [low, high]})
        write_scan(directory, [rule(f"u{number}.o", [], ["i"]) for number in range(size // 4)])
        write_target(directory, linked=["i.json"], map="gcc")
    return "collate", "target"


# ---- projects

def write_scan(directory, rules, name="scan"):
    write(directory / name, {"rules": rules, "version": 1})


def rule(output, provided, required=()):
    """A rule of an object, which provides modules by their names or by names and files."""
    pairs = [it if isinstance(it, tuple) else (it,) for it in provided]
    return {"primary-output": output,
            "provides": [dict(zip(("logical-name", "compiled-module-path"), it)) for it in pairs],
            "requires": [{"logical-name": it} for it in required]}


def target(name, **members):
    return {"version": 1, "target": name, "module-dir": "m", "module-ext": ".x",
            "dyndep": f"out/{name}.dd", "info": f"out/{name}.json", **members}


def write_target(directory, **members):
    write(directory / "target", target("t", **{"scans": ["scan"], **members}))
    (directory / "out").mkdir()


def write_project(directory, listed):
    for number, value in enumerate(listed):
        write(directory / f"t/{number}", value)
    names = [f"t/{number}" for number in range(len(listed))]
    write(directory / "project", {"version": 1, "targets": names})
    (directory / "out").mkdir()


class Project:
    """The targets of a project, whose objects have the given modules and require those."""
    def __init__(self, directory):
        self.directory, self.targets = directory, []

    def add(self, name, objects, linked, **members):
        rules = [rule(f"o/{name}/{number}", *modules) for number, modules in enumerate(objects)]
        write_scan(self.directory, rules, f"s/{name}")
        (self.directory / "o" / name).mkdir(parents=True)  # for maps
        own = {"module-dir": f"m/{name}", "scans": [f"s/{name}"]}
        infos = [f"out/{it}.json" for it in linked]
        self.targets.append(target(name, linked=infos, **{**own, **members}))

    def add_libraries(self, count, modules):
        """Libraries that each link those before them."""
        for number in range(count):
            own = [f"l{number}.m{it}" for it in range(modules)]
            below = ([f"l{number - 1}.m0"] if number else [None]) + own
            objects = [([name], [low] if low else []) for name, low in zip(own, below)]
            self.add(f"l{number}", objects, [f"l{it}" for it in range(number)])
        return [f"l{it}" for it in range(count)]

    def written(self):
        write_project(self.directory, self.targets)
        return "project", "project"


def plugins(made, ordinary, size):
    """Plugins, each with a program that links it and many libraries, and the plugins provide
    modules of one name or of different ones."""
    for directory, name in (made, "plugin"), (ordinary, "plugin{}"):
        project = Project(directory)
        count = size // 2
        libraries = project.add_libraries(count, 100)
        for number in range(size):
            own = name.format(number)
            names = [own, *(f"p{number}.m{it}" for it in range(5))]
            project.add(f"p{number}", [([it], []) for it in names], [])
            used = [f"l{(number * 7 + it) % count}.m{it}" for it in range(10)]
            project.add(f"e{number}", [([], [own, it]) for it in used], libraries + [f"p{number}"])
        words = project.written()
    return words


def services(made, ordinary, size):
    """Services that link 40 libraries and have a module of one name or of different ones, each with
    a program that links it."""
    for directory, name in (made, "config"), (ordinary, "config{}"):
        project = Project(directory)
        libraries = project.add_libraries(40, 20)
        for number in range(size):
            own, module = name.format(number), f"s{number}.m"
            used = f"l{number % 40}.m{number % 20}"
            project.add(f"s{number}", [([own], [used]), ([module], [own])], libraries)
            project.add(f"e{number}", [([], [module, own, used])], libraries + [f"s{number}"])
        words = project.written()
    return words


def providers(made, ordinary, size):
    """Two targets that provide one name in one file, and three that provide different names in one
    file. For each file a library links one of its targets, and programs link both libraries and a
    large one. Or each target has a file of its own."""
    for directory, is_shared in (made, True), (ordinary, False):
        project = Project(directory)
        project.add("large", [([f"l{number}"], []) for number in range(size)], [])
        for own, name in ("p0", "p"), ("p1", "p"), ("q0", "q0"), ("q1", "q1"), ("q2", "q2"):
            file = f"m/{own[0] if is_shared else own}"
            project.add(own, [([(name, file)], [])], [])
            project.add(f"{own}.user", [([], [name])], [own])
        project.add("a", [(["a"], ["p"])], ["p0"])
        project.add("b", [(["b"], ["q1"])], ["q1"])
        for number in range(size // 8):
            project.add(f"u{number}", [([], ["l0", "a", "b"])], ["large", "p0", "q1", "a", "b"])
        words = project.written()
    return words


def shared_names(made, ordinary, size):
    """Two libraries whose modules have the same names, or different ones, and programs that link
    one or the other."""
    for directory, names in (made, "ll"), (ordinary, "lm"):
        project = Project(directory)
        for library, name in zip("ab", names):
            project.add(library, [([f"{name}{number}" for number in range(size)], [])], [])
        for number in range(size // 2):
            library, name = "ab"[number % 2], names[number % 2]
            project.add(f"u{number}", [([], [f"{name}0"])], [library])
        words = project.written()
    return words


def links(made, ordinary, size):
    """Libraries that link the same targets and require a module of each, or as many modules of the
    first one, and programs that link the targets and the libraries."""
    low, high = [f"t{it}" for it in range(size)], [f"l{it}" for it in range(size)]
    names = [f"m{it:05}" for it in range(size)]
    for directory, is_first in (made, False), (ordinary, True):
        project = Project(directory)
        for number, name in enumerate(low):
            own = names[number:number + 1]
            if is_first:
                own = [] if number else names
            project.add(name, [([it], []) for it in own], [])
        for name in high:
            project.add(name, [([name], names)], low)
        for number, name in enumerate(high):
            project.add(f"u{number}", [([], [name])], low + high)
        words = project.written()
    return words


def diamonds(made, ordinary, size):
    """A library of two modules in each of many levels, which require both modules below, or one of
    them twice; and programs that require the highest, with maps."""
    for directory, other in (made, 1), (ordinary, 0):
        project = Project(directory)
        below = [[]] * 2
        objects = []
        for number in range(size):
            names = [f"m{number}.{it}" for it in range(2)]
            objects += [([name], required) for name, required in zip(names, below)]
            below = [[names[it], names[it ^ other]] for it in range(2)]
        project.add("lib", objects, [], map="gcc")
        for number in range(4):
            project.add(f"u{number}", [([], [f"m{size - 1}.0"])], ["lib"], map="gcc")
        words = project.written()
    return words


def shared_edges(made, ordinary, size):
    """Targets that all name one edge list, or each a list of its own edges."""
    for directory, is_shared in (made, True), (ordinary, False):
        project = Project(directory)
        lists = []
        for number in range(size):
            name, own = f"t{number}", [f"t{number}.m{it}" for it in range(20)]
            dyndep = f"out/{name}.dd"
            end = f": cxx s || {dyndep}\n  dyndep = {dyndep}\n"
            lines = [f"build o/{name}/{it}{end}" for it in range(20)]
            lists.append("".join(lines))
            listed = "edges" if is_shared else f"e/{number}"
            project.add(name, [([it], []) for it in own], [], edges=listed)
        for number, text in enumerate(["".join(lists)] if is_shared else lists):
            write(directory / ("edges" if is_shared else f"e/{number}"), text)
        words = project.written()
    return words


def listed_again(member, document):
    """A large document that a target lists a hundred times, or once, with the other names in a
    member that nothing reads."""
    def shape(made, ordinary, size):
        for directory in made, ordinary:
            write(directory / "large", {**document, "version": 1, "ignored": [{"a": 1}] * size})
        names = ["large"] * 100
        write_target(made, **{"scans": [], member: names})
        write_target(ordinary, **{"scans": [], member: names[:1], "ignored": names[1:]})
        return "collate", "target"
    return shape


again = listed_again("scans", {"rules": []})
again_with_rules = listed_again("scans", {"rules": [rule("a.o", [])]})
again_linked = listed_again("linked", {"target": "l", "modules": []})


def relinked(made, ordinary, size):
    """A project whose last target links the one before a hundred times, or once, with the other
    names in a member that nothing reads. The first is rejected after two readings of the info file,
    which the other does not need."""
    for directory, count in (made, 100), (ordinary, 1):
        project = Project(directory)
        project.add("l", [([f"m{number}"], []) for number in range(size)], [])
        ignored = ["out/l.json"] * (100 - count)
        project.add("u", [], ["l"] * count, ignored=ignored)
        words = project.written()
    return words


# The shapes that have an error, and end with status 1: M1 and M2.
REJECTED = "rules", "linked", "relinked"

# The label, the inputs, the size that bench/run hostile takes, and how many times as long as the
# ordinary input it may take.
SHAPES = [
    ("edges", edges, 1 << 22, 2), ("dyndep", dyndep, 1 << 22, 2), ("outputs", outputs, 40_000, 2),
    ("lengths", lengths, 40_000, 2), ("modules", modules, 20_000, 2),
    ("targets", targets, 20_000, 2), ("keyless", keyless, 20_000, 2),
    ("sharing", sharing, 20_000, 2),
    ("work-dir", work_directory, 65_536, 2), ("ext", module_ext, 65_536, 2),
    ("paths", reduced_paths, 4000, 3),
    ("requires", requires, 40_000, 2), ("info", info_requires, 80_000, 2),
    ("plugins", plugins, 400, 1.5), ("services", services, 400, 2),
    ("providers", providers, 4000, 2), ("names", shared_names, 20_000, 1.1),
    ("links", links, 400, 2), ("diamonds", diamonds, 40, 2), ("shared", shared_edges, 800, 2),
    ("again", again, 1_900_000, 2), ("rules", again_with_rules, 1_900_000, 2),
    ("linked", again_linked, 1_900_000, 2), ("relinked", relinked, 20_000, 2.5),
]
