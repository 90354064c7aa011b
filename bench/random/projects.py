"""Runs two programs on projects made at random and compares what they leave:
projects.py PLAIN PROGRAM PROJECTS SEED.

A project has two to seven targets, each with one to four objects and links to some of the targets
before it. Most links are closed, most required modules are visible and most names differ; sometimes
a link is missing or there twice, a name is taken or unknown, a module is private, a module names
its own file, or targets share a directory of modules or have maps. So some projects collate and the
others have errors of many kinds.
"""
import json
import random
import shutil
import subprocess
import sys
import tempfile
from collections import Counter
from pathlib import Path


def chance(share):
    return random.random() < share


def rules_of(number, names, visible, provided):
    """The rules of a target's objects. The names that they provide are added to `provided`."""
    rules = []
    for index in range(random.randint(1, 4)):
        own = []
        if chance(0.8):
            name = random.choice(names)
            if chance(0.9):
                name = f"t{number}.{name}" if chance(0.8) else f"t{number}:{name}"
            if name not in provided and (name not in visible or chance(0.1)):
                own.append(name)
                provided.append(name)
        known = visible + provided
        required = ([random.choice(known) for _ in range(random.randint(0, 3))
                     if known and chance(0.97)] + ["unknown"] * chance(0.02))
        provides = [{"logical-name": name,
                     **({"compiled-module-path": f"x/{random.choice(names)}.pcm"}
                        if chance(0.05) else {})} for name in own]
        requires = [{"logical-name": name} for name in dict.fromkeys(required) if name not in own]
        rules.append({"primary-output": f"o/{number}/{index}.o", "provides": provides,
                      "requires": requires})
    return rules


def write_project(folder):
    """Writes the documents of a project, and returns how many targets it has."""
    count = random.randint(2, 7)
    names = [f"n{number}" for number in range(random.choice([8, 20, 60]))]
    form = random.choice([None, None, "clang", "gcc"])
    links, provided = [], []
    for number in range(count):
        linked = {before for before in range(number) if chance(0.5)}
        if chance(0.85):
            linked |= {far for near in linked for far in links[near]}
        links.append(linked)
        order = random.sample(sorted(linked), len(linked))
        order += order[:1] * chance(0.03)
        visible = [name for before in linked for name in provided[before]]
        provided.append([])
        scan = {"version": 1, "revision": 0,
                "rules": rules_of(number, names, visible, provided[number])}
        target = {"version": 1, "target": f"t{number}" if chance(0.97) else "t0",
                  "module-dir": f"b/{number}" if chance(0.8) else "b", "module-ext": ".pcm",
                  "scans": [f"t{number}.ddi"],
                  "linked": [f"out/t{before}.json" for before in order],
                  "dyndep": f"out/t{number}.dd", "info": f"out/t{number}.json"}
        if provided[number] and chance(0.1):
            target["private"] = [random.choice(provided[number])]
        if form:
            target["map"] = form
        (folder / f"t{number}.ddi").write_text(json.dumps(scan))
        (folder / f"t{number}.json").write_text(json.dumps(target))
    (folder / "project.json").write_text(
        json.dumps({"version": 1, "targets": [f"t{number}.json" for number in range(count)]}))


def run(program, documents, folder):
    """What the program leaves on these documents: its status, its two outputs,
    and every file with its bytes."""
    shutil.rmtree(folder, ignore_errors=True)
    shutil.copytree(documents, folder)
    for needed in ("out", *(f"o/{number}" for number in range(7))):
        (folder / needed).mkdir(parents=True)
    ended = subprocess.run([program, "project", "project.json"], cwd=folder, capture_output=True)
    files = {str(path.relative_to(folder)): path.read_bytes() for path in folder.rglob("*")
             if path.is_file()}
    return ended.returncode, ended.stdout, ended.stderr, files


def main(plain, program, projects, seed):
    random.seed(seed)
    ends = Counter()
    for number in range(projects):
        documents = Path("documents")
        shutil.rmtree(documents, ignore_errors=True)
        documents.mkdir()
        write_project(documents)
        ours, theirs = run(program, documents, Path("ours")), run(plain, documents, Path("theirs"))
        if ours != theirs:
            kept = tempfile.mkdtemp(prefix="dyncollate-differs-")
            shutil.copytree(documents, kept, dirs_exist_ok=True)
            sys.exit(
                f"project {number} of seed {seed} differs, its documents are in {kept}: {ours[:3]} "
                f"and {theirs[:3]}")
        codes = [word for word in ours[2].decode().split() if len(word) == 2 and word[0].isupper()
                 and word[1].isdigit()]
        ends[codes[0] if codes else "collated" if ours[0] == 0 else "another error"] += 1
    print(f"{projects} projects of seed {seed}, no difference:",
          ", ".join(f"{end} {count}" for end, count in ends.most_common()))


main(sys.argv[1], sys.argv[2], int(sys.argv[3]), int(sys.argv[4]))
