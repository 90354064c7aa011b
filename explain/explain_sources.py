"""The line of a source that imports or provides a module, in the form to which editors jump.

The source of an object is taken from compile_commands.json next to build.ninja, otherwise from
`source-path` of its scan document, otherwise from build.ninja.
"""
import functools
import os
import re
import shlex
from os.path import dirname, isabs, join, relpath

from explain_documents import canonical, entries, parsed, read

# The directory in which this script was called. Relative names of sources are printed from there.
START = os.getcwd()
# What is no code: comments and texts, also raw ones.
PASSED_OVER = re.compile(rb'//[^\n]*|/\*.*?\*/|R"(\w*)\(.*?\)\1"|"(?:\\.|[^"\\\n])*"|'
                         rb"'(?:\\.|[^'\\\n])*'", re.S)
INCLUDED = re.compile(rb'^\s*#\s*include\s*"([^"\n]+)"', re.M)


class Place(str):
    """A line that begins with the name of a source, its line and its column."""


@functools.lru_cache(None)
def compiled():
    """The sources by their objects, from compile_commands.json."""
    try:
        commands = parsed(read("compile_commands.json"))
    except OSError:
        return {}
    here, found = os.getcwd(), {}
    for it in entries({"all": commands}, "all"):
        directory, source, output = str(it.get("directory", "")), it.get("file"), output_of(it)
        if output and isinstance(source, str):
            found[canonical(output, directory, here)] = source if isabs(source) else \
                relpath(join(directory, source))
    return found


def output_of(command):
    """The object file of a compile command."""
    if isinstance(command.get("output"), str):
        return command["output"]
    words = command.get("arguments")
    if isinstance(words, list):
        return str((words[words.index("-o") + 1:] or [""])[0]) if "-o" in words else None
    found = re.search(r"\s-o\s*('[^']*'|\"[^\"]*\"|(?:\\.|\S)+)", str(command.get("command", "")))
    try:
        return found and "".join(shlex.split(found[1]))
    except ValueError:
        return None


@functools.lru_cache(None)
def manifest():
    """The text of build.ninja, with its continuations joined."""
    try:
        text = os.fsdecode(read("build.ninja"))
    except OSError:
        return ""
    return re.sub(r"\$\n *", "", text)


def in_manifest(path):
    """The first input of the statement that has a path as its first output, or None."""
    escaped = re.escape(re.sub(r"([$ :])", r"$\1", path))
    found = re.search(rf"^build {escaped}(?: [^:\n]*(?:\$:[^:\n]*)*)?: \S+ ((?:\$.|[^ $\n])+)",
                      manifest(), re.M)
    return found and re.sub(r"\$(.)", r"\1", found[1])


def source_of(rule):
    """The source of an object, if it is there."""
    for it in compiled().get(rule.object), rule.source, in_manifest(rule.object):
        if it and os.path.isfile(it):
            return it
    return None


def name_of(source):
    """A source as it is printed."""
    return source if isabs(source) else relpath(source, START)


def declarations(name):
    """What imports a module in a source, and what provides it. One group is its name."""
    module, colon, partition = (re.escape(it).replace(rb"\.", rb"\s*\.\s*")
                                for it in os.fsencode(name).partition(b":"))
    end = rb"\s*(?:;|\[\[)"
    if partition:
        return (rb"\bimport\s*(:\s*%s)%s" % (partition, end),
                rb"\bmodule\s+(%s\s*:\s*%s)%s" % (module, partition, end))
    # (a source with `module M;` imports M)
    return (rb"\bimport\s+(%s)%s|^\s*module\s+(%s)%s" % (module, end, module, end),
            rb"\bmodule\s+(%s)%s" % (module, end))


def imports(rule, name):
    """The line of an object's source that imports a module, in a list that is empty without one."""
    return at(rule, declarations(name)[0], f"imports {name}")


def provides(rule, name):
    return at(rule, declarations(name)[1], f"provides {name}")


def imports_header(rule, name):
    end = re.escape(os.fsencode(os.path.basename(name)))
    return at(rule, rb'\bimport\s*([<"](?:[^\n">]*/)?%s[>"])' % end, f"imports {name}", texts=True)


def at(rule, pattern, what, texts=False):
    """Where the source of an object has a pattern. Texts are passed over, except if asked for."""
    source = source_of(rule) if rule else None
    if not source:
        return []
    try:
        for file in with_headers(source):
            text = PASSED_OVER.sub(lambda it: it[0] if texts and it[0][:1] == b'"' else
                                   re.sub(rb"[^\n]", b" ", it[0]), read(file))
            found = re.search(pattern, text, re.M)
            if found:
                at = found.start(found.lastindex)
                line, column = text.count(b"\n", 0, at) + 1, at - text.rfind(b"\n", 0, at)
                return [Place(f"{name_of(file)}:{line}:{column}: {what}")]
        is_newer = os.path.getmtime(source) > os.path.getmtime(rule.scan)
    except OSError as error:
        return [f"{error.filename}: {error.strerror}."]
    why = "it has changed since its scan" if is_newer else "a header or a macro does"
    return [f"{name_of(source)} has no line that {what}: {why}."]


def with_headers(source):
    """A source, and then the headers next to it that it includes, directly or through others."""
    files = [source]
    for file in files:
        yield file
        names = (join(dirname(file), os.fsdecode(it)) for it in INCLUDED.findall(read(file)))
        files += [it for it in names if os.path.isfile(it) and it not in files]
