"""Scan, info, target and project documents: docs/FORMATS.md, "Documents".

Python's json module reads the JSON. It accepts some texts that the program rejects, and they are
rejected here: bytes that are not UTF-8 (a byte order mark is not JSON in either), `NaN` and
`Infinity`, numbers too large for a float, lone halves of surrogate pairs, and nesting deeper than
127 levels. `-0` is a float.
"""
import json
import math
import re
from collections import namedtuple

from .paths import PathFault, Rejected, path_of, placed

DOCUMENT_LIMIT = 16_777_216
COUNT_LIMIT = 65_536
NAME_LIMIT = 1024
DEPTH_LIMIT = 127

Rule = namedtuple("Rule", "object provides requires")
InfoModule = namedtuple("InfoModule", "name file required is_private")
Info = namedtuple("Info", "target modules")
Spec = namedtuple(
    "Spec",
    "target module_dir module_ext build_dir scans linked private dyndep path info map edges restat")


# ---- JSON

def number(text):
    if math.isinf(float(text)):
        raise ValueError("no float holds it")
    return float(text) if re.search(r"[.eE]", text) or text == "-0" else int(text)


def constant(text):
    raise ValueError(text + " is no JSON")


def check_texts(value):
    """Each text of a value has an encoding. Objects in it were checked when they were read."""
    if isinstance(value, str):
        value.encode()
    elif isinstance(value, list):
        for it in value:
            check_texts(it)


def members(pairs):
    for key, value in pairs:
        check_texts(key)
        check_texts(value)
    return dict(pairs)


def depth(text):
    """How deep the text of a JSON value nests."""
    deepest = level = 0
    for bracket in re.findall(r"[][{}]", re.sub(r'"(?:[^"\\]|\\.)*"', "", text, flags=re.S)):
        level += 1 if bracket in "[{" else -1
        deepest = max(deepest, level)
    return deepest


def tree_of(document, where):
    """The JSON object of a document."""
    if len(document) > DOCUMENT_LIMIT:
        raise Rejected(where + b"S8 TooLarge document")
    try:
        text = document.decode()
        tree = json.loads(text, parse_float=number, parse_int=number, parse_constant=constant,
                          object_pairs_hook=members)
        check_texts(tree)
    except (ValueError, RecursionError) as error:
        raise Rejected(where + b"S1 NotJson document") from error
    if depth(text) > DEPTH_LIMIT:
        raise Rejected(where + b"S1 NotJson document")
    if not isinstance(tree, dict):
        raise Rejected(where + b"S3 BadShape document member document")
    return tree


# ---- members

class Reading:
    """An object of a document, and its place: it gives the values of members, or rejects them."""

    def __init__(self, tree, where, place=b"document"):
        self.tree, self.where, self.place = tree, where, place

    def rejected(self, code, more=b""):
        raise Rejected(self.where + code + b" " + self.place + more)

    def misshapen(self, member):
        self.rejected(b"S3 BadShape", b" member " + member.encode())

    def is_object(self, member):
        if not isinstance(self.tree, dict):
            self.misshapen(member)

    def get(self, member, kind, needed=False):
        """The value of a member, or None if it is absent or null, unless it is needed."""
        value = self.tree.get(member)
        if (value is not None or needed) and not isinstance(value, kind):
            self.misshapen(member)
        return value

    def text(self, member, needed=True):
        value = self.get(member, str, needed)
        return None if value is None else value.encode()

    def texts(self, member, needed=False):
        values = self.get(member, list, needed) or []
        if not all(isinstance(it, str) for it in values):
            self.misshapen(member)
        return [it.encode() for it in values]

    def entries(self, member, place, needed=False):
        """The entries of an array, each with its own place, which numbers them."""
        above = b"" if self.place == b"document" else self.place + b" "
        return [Reading(it, self.where, above + place % at)
                for at, it in enumerate(self.get(member, list, needed) or [])]

    def version(self, *versions):
        version = self.tree.get("version")
        if type(version) is not int or version not in versions:
            self.rejected(b"S2 BadVersion")
        return version

    def name(self, text):
        if not is_name(text):
            self.rejected(b"S6 BadName")
        return text

    def path(self, text, *given):
        try:
            return placed(text, *given)
        except PathFault as fault:
            return self.rejected(b"S7 BadPath", b" " + fault.text)


def is_name(text):
    return (1 <= len(text) <= NAME_LIMIT
            and text.count(b":") <= 1 and b"" not in re.split(rb"[.:]", text)
            and not re.search(rb"[\x00-\x20\x7f/\\\"'=|$]", text))


def is_target(text):
    return 1 <= len(text) <= NAME_LIMIT and not re.search(rb"[\x00-\x1f\x7f]", text)


def document_of(text, where):
    return Reading(tree_of(text, where), where)


# ---- scan documents

def rules_of(text, folder, ending, build, where):
    """The rules of a scan document, or its error."""
    document = document_of(text, where)
    document.version(0, 1)
    entries = document.entries("rules", b"rule %d", needed=True)
    if len(entries) > COUNT_LIMIT:
        document.rejected(b"S8 TooLarge")
    return [rule_of(it, folder, ending, build) for it in entries]


def rule_of(rule, folder, ending, build):
    rule.is_object("rule")
    output, work = (rule.text("primary-output", needed=False),
                    rule.text("work-directory", needed=False))
    provides = rule.entries("provides", b"provides %d")
    requires = rule.entries("requires", b"requires %d")
    if output is None:
        rule.rejected(b"S4 NoPrimaryOutput")
    path = rule.path(output, work, build)
    if max(len(provides), len(requires)) > COUNT_LIMIT:
        rule.rejected(b"S8 TooLarge")
    return Rule(path, [provided_of(it, work, folder, ending, build) for it in provides],
                [required_of(it) for it in requires])


def provided_of(entry, work, folder, ending, build):
    """The name and the file of a provided module."""
    entry.is_object("entry")
    name, file = entry.text("logical-name"), entry.text("compiled-module-path", needed=False)
    is_header = entry.get("unique-on-source-path", bool)
    entry.get("is-interface", bool)
    if is_header:
        entry.rejected(b"S5 HeaderUnit")
    entry.name(name)
    if file is None:
        file, work = (folder + b"/" if folder else b"") + name.replace(b":", b"-") + ending, None
    return name, entry.path(file, work, build)


def required_of(entry):
    """The name of a required module."""
    entry.is_object("entry")
    name = entry.text("logical-name")
    is_header = entry.get("unique-on-source-path", bool)
    method = entry.get("lookup-method", str)
    if method not in (None, "by-name", "include-angle", "include-quote"):
        entry.misshapen("lookup-method")
    if is_header or method not in (None, "by-name"):
        entry.rejected(b"S5 HeaderUnit")
    return entry.name(name)


# ---- info files

def info_of(text, where):
    """What an info document tells, or its error."""
    document = document_of(text, where)
    version = document.version(1, 2)
    target = document.text("target")
    if not is_target(target):
        document.rejected(b"S6 BadName")
    return Info(target, [module_of(it, version)
                         for it in document.entries("modules", b"module %d", needed=True)])


def module_of(module, version):
    module.is_object("entry")
    file, name = module.text("bmi"), module.text("name")
    requires = list(module.entries("requires", b"requires %d", needed=True))
    visibility = module.tree.get("visibility") if version == 2 else "public"
    if visibility not in ("public", "private"):
        module.misshapen("visibility")
    module.name(name)
    path = module.path(file)
    return InfoModule(name, path, [needed_of(it) for it in requires], visibility == "private")


def needed_of(entry):
    """The name and the file of a module that a module of an info requires."""
    entry.is_object("entry")
    file, name = entry.text("bmi"), entry.text("name")
    return entry.name(name), entry.path(file)


def info_text(target, modules):
    """The text of an info. Each module is a name, a file, pairs of what it requires,
    and whether it is private."""
    made = [{"bmi": file.decode(), "name": name.decode(),
             "requires": [{"bmi": it[1].decode(), "name": it[0].decode()} for it in required],
             "visibility": "private" if is_private else "public"}
            for name, file, required, is_private in modules]
    tree = {"modules": made, "target": target.decode(), "version": 2}
    return json.dumps(tree, ensure_ascii=False, separators=(",", ":")).encode()


# ---- target and project documents

def spec_of(text, where):
    """What a target document asks for, or its error."""
    document = document_of(text, where)
    document.version(1)
    target = document.text("target")
    if not is_target(target):
        document.rejected(b"S6 BadName")
    folder, ending = document.text("module-dir"), document.text("module-ext")
    build = build_of(document)
    scans, linked, private = (document.texts(it) for it in ("scans", "linked", "private"))
    for name in private:
        document.name(name)
    dyndep = document.text("dyndep")
    path = document.path(dyndep, None, build)
    info = document.text("info")
    if not info:
        document.misshapen("info")
    form = document.text("map", needed=False)
    if form not in (None, b"gcc", b"clang"):
        document.misshapen("map")
    return Spec(target, folder, ending, build, scans, linked, private, dyndep, path, info, form,
                document.text("edges", needed=False), document.tree.get("restat") is True)


def build_of(document):
    """The build directory, which is an absolute path."""
    text = document.text("build-dir", needed=False)
    if text is None:
        return None
    try:
        path = path_of(text)
    except PathFault:
        document.misshapen("build-dir")
    if not path.startswith(b"/"):
        document.misshapen("build-dir")
    return path


def project_of(text, where):
    """The names of a project's target documents, or the project document's error."""
    document = document_of(text, where)
    document.version(1)
    return document.texts("targets", needed=True)
