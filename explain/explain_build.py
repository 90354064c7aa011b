"""The target documents of a build, and runs of dyncollate that write no file."""
import functools
import itertools
import json
import os
import shlex
import subprocess
import sys
from os.path import dirname, join, realpath

from explain_documents import Target, Wrong, canonical, document, file_of, read, strings

SPACE = b" \t\r\n"
# More documents than these, and documents in more directories, are not searched.
MOST_DOCUMENTS, MOST_DIRECTORIES = 5000, 50000


# ---- the documents

def kind_of(name):
    """The command that reads a document."""
    found = document(name)
    if "targets" in found:
        return "project"
    return "one" if "rules" in found or not found and name.endswith(".ddi") else "collate"


def is_target(name):
    """Whether a file is a target document, perhaps a faulty one with a usual name."""
    found = document(name)
    is_one = found.get("version") == 1 and "module-dir" in found
    return is_one and isinstance(found.get("dyndep"), str) or name.endswith(".target.json")


def is_project(name):
    """Whether a file is a project document, perhaps one with the usual name that is cut off."""
    found = document(name)
    is_one = found.get("version") == 1 and strings(found, "targets")
    return bool(is_one or not found and name.endswith("project.json"))


def json_files():
    """The documents of this directory and of those below it that may be of targets or projects."""
    for folder, below, names in itertools.islice(os.walk("."), MOST_DIRECTORIES):
        below[:] = sorted(it for it in below if not it.startswith("."))
        for name in sorted(names):
            # The step of a CMake build in Python writes a document with more than the first one.
            is_first = name == "CXX.target.json" and "CXX.step.json" in names
            if name.endswith(".json") and name != "compile_commands.json" and not is_first:
                yield canonical(join(folder, name))


def has(name, *members):
    try:
        text = read(name)
    except OSError:
        return False
    return all(b'"%s"' % it in text for it in members)


@functools.lru_cache(None)
def build_documents():
    """The names of the project documents below this directory, and the targets that it has."""
    names = list(itertools.islice(json_files(), MOST_DOCUMENTS))
    projects = [it for it in names if has(it, b"targets") and is_project(it)]
    found = [it for it in names if it.endswith(".target.json") or
             has(it, b"module-dir", b"dyndep") and is_target(it)]
    return projects, in_order([Target(it) for it in found])


def in_order(targets):
    """Targets, each after those that it links, if there is such an order."""
    import graphlib
    writers, by_file = {it.writes: it.file for it in targets}, {it.file: it for it in targets}
    links = {it.file: [writers[name] for name in it.linked if name in writers] for it in targets}
    try:
        return [by_file[it] for it in graphlib.TopologicalSorter(links).static_order()]
    except graphlib.CycleError:
        return targets


def build_names(directory):
    """The project documents of this build, and the target documents that are in none, in order."""
    projects, targets = build_documents()
    known = {file_of(it) for project in projects for it in strings(document(project), "targets")}
    names = [*projects, *(it.file for it in targets if file_of(it.file) not in known)]
    if not names:
        raise Wrong(f"there is no target document in {directory} or below it")
    return names


# ---- runs that write no file

def program():
    import shutil
    beside = join(dirname(realpath(sys.argv[0])), "dyncollate")
    beside = shlex.quote(beside) if os.access(beside, os.X_OK) else "dyncollate"
    command = shlex.split(os.environ.get("DYNCOLLATE") or beside)
    if not command or not shutil.which(command[0]):
        raise Wrong(f"{' '.join(command)} is not there; the environment variable DYNCOLLATE may "
                    "name another program")
    return command


# An edge list that is faulty, and edges in a cycle that are appended to one; the errors of both.
FAULTY, FAULTY_ERROR = b"dyncollate-explain\n", "edges: line 1: E3 Form"
CYCLE = b"""
build dyncollate-explain/1: cycle dyncollate-explain/2
build dyncollate-explain/2: cycle dyncollate-explain/1
"""
CYCLE_ERROR = "cycle dyncollate-explain/1 -> dyncollate-explain/2"


class Copies(list):
    """Files in memory, which the program opens by name, so that a full disk is no obstacle."""

    def add(self, text):
        self.append(os.memfd_create("dyncollate-explain"))
        with open(self[-1], "wb", closefd=False) as file:
            file.write(text)
        return f"/proc/self/fd/{self[-1]}"

    def __enter__(self):
        return self

    def __exit__(self, *_):
        for it in self:
            os.close(it)


def with_member(text, name, value):
    """The text of an object with one more member. If a member is repeated, the last one counts.
    Other texts stay the same."""
    start = text.rstrip(SPACE)
    if not start.endswith(b"}"):
        return text
    start = start[:-1].rstrip(SPACE)
    comma = b"" if start.strip(SPACE) == b"{" else b","
    return start + comma + json.dumps({name: value}).encode()[1:]


def unfinished(name, copies):
    """The name of a copy of a target document with an edge list that ends in an error, and that
    error. dyncollate checks the edge list last, and writes no file if there is an error. So a run
    reports the first error of the document, or otherwise the error that is put here. A document
    that is faulty in any case has no copy."""
    try:
        text, edges, ours, error = read(name), document(name).get("edges"), FAULTY, FAULTY_ERROR
        if isinstance(edges, str):
            ours, error = read(edges), CYCLE_ERROR
            # (a last line without an end is an error)
            ours += CYCLE if ours[-1:] in (b"", b"\n") else b""
        elif edges is not None:
            return name, ""
    except OSError:
        return name, ""
    return copies.add(with_member(text, "edges", copies.add(ours))), error


def command_of(name, copies):
    """The arguments of a run that writes no file and reports the error of the document `name`, and
    the error that it ends with if the document has none."""
    kind = kind_of(name)
    if kind == "one":
        return [kind, "--", name, "bmi", ".pcm"], ""
    if kind == "collate":
        made, error = unfinished(name, copies)
        return [kind, "--", made], error
    names, error = document(name)["targets"], ""
    if names and isinstance(names, list) and all(isinstance(it, str) for it in names):
        last, error = unfinished(names[-1], copies)
        error = error and f"target {len(names) - 1}: {error}"
        name = copies.add(with_member(read(name), "targets", names[:-1] + [last]))
    return [kind, "--", name], error


def called(copies, *words):
    """The status and the error line of a call of the program."""
    ran = subprocess.run([*program(), *words], stdin=subprocess.DEVNULL, stdout=subprocess.DEVNULL,
                         stderr=subprocess.PIPE, check=False, pass_fds=copies)
    line = os.fsdecode(ran.stderr).rstrip("\n")
    if ran.returncode and not line:
        raise Wrong(f"{' '.join(program())} ended with status {ran.returncode} and no line")
    return ran.returncode, line


def rerun(name):
    """The status and the error line of a run that writes no file, or 0 and an empty text."""
    with Copies() as copies:
        words, error = command_of(name, copies)
        status, line = called(copies, *words)
    return (0, "") if error and line == f"dyncollate: {error}" else (status, line)
