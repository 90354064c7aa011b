"""The result of each command for the bytes of its files."""
import re
from collections import namedtuple

from .documents import COUNT_LIMIT, info_of, info_text, project_of, rules_of, spec_of
from .dyndeps import Statement, dyndep_of, dyndep_text
from .edges import after, listing_of, listing_text, order_of
from .modules import map_of, table_of
from .paths import PathFault, Rejected, path_of


# the result of a run: its status, its output on standard output and standard error,
# and the files that it writes
Answer = namedtuple("Answer", "status out err files")


def done(out=b"", files=()):
    return Answer(0, out, b"", list(files))


def failed(status, message):
    return Answer(status, b"", b"dyncollate: " + shown(message) + b"\n", [])


def shown(text):
    return re.sub(rb"[\x00-\x1f\x7f]", b"?", text)


def with_errors(command):
    """The command, with a line for an error."""
    def run(*given):
        try:
            return command(*given)
        except Rejected as rejection:
            return failed(rejection.status, rejection.line)
    return run


def firsts(things):
    return list(dict.fromkeys(things))


# ---- one document or listing

@with_errors
def show(text):
    return done(dyndep_text(dyndep_of(text)))


@with_errors
def effect(name, edges, dyndep):
    try:
        name = path_of(name)
    except PathFault as fault:
        raise Rejected(b"name: " + fault.text) from fault
    edges = listing_of(edges)
    return done(listing_text(after(edges, dyndep_of(dyndep), name)))


@with_errors
def order(edges):
    return done(b"".join(shown(it) + b"\n" for it in order_of(listing_of(edges))))


@with_errors
def one(scan, folder, ending):
    rules = rules_of(scan, folder, ending, None, b"scan 0: ")
    return done(dyndep_text(statements_of(rules, table_of(rules, [], []))))


def statements_of(rules, producer):
    return [Statement(rule.object, [file for _, file in rule.provides],
                      [producer[it].file for it in firsts(rule.requires)], bool(rule.provides))
            for rule in rules]


# ---- targets and projects

def collated(spec, scans, infos):
    """The statements of a target, its info, and the files that are written,
    or why it is rejected."""
    rules = []
    for at, scan in enumerate(scans):
        rules += rules_of(scan, spec.module_dir, spec.module_ext, spec.build_dir, b"scan %d: " % at)
        if len(rules) > COUNT_LIMIT:
            raise Rejected(b"scan %d: S8 TooLarge document" % at)
    infos = [info_of(info, b"info %d: " % at) for at, info in enumerate(infos)]
    producer = table_of(rules, infos, spec.private)
    statements = statements_of(rules, producer)
    text = dyndep_text(statements)
    maps = ([(rule.object + b".modmap", map_of(spec.map, rule, producer)) for rule in rules]
            if spec.map else [])
    modules = [(name, file, [(it, producer[it].file) for it in firsts(rule.requires)],
                name in spec.private) for rule in rules for name, file in rule.provides]
    info = info_text(spec.target, modules)
    return statements, info, maps + [(spec.info, info), (spec.dyndep, text)]


def check_edges(spec, listing, statements):
    """The edges that a target document names have to have an order after the effect of its
    statements."""
    if listing is not None:
        order_of(after(listing_of(listing), statements, spec.path))


def opened(files, name):
    """The bytes of a file; `files` gives them by name, or None if it cannot be read."""
    text = files(name)
    if text is None:
        raise Rejected(b"cannot read " + name, 3)
    return text


@with_errors
def collate(document, files):
    """`files` gives the bytes of a file by its name, or None if it cannot be read."""
    spec = spec_of(document, b"target: ")
    scans = [opened(files, it) for it in spec.scans]
    infos = [opened(files, it) for it in spec.linked]
    listing = opened(files, spec.edges) if spec.edges is not None else None
    statements, _, written = collated(spec, scans, infos)
    check_edges(spec, listing, statements)
    return done(files=written)


@with_errors
def project(document, files):
    """As `collate` of each target in order,
    which links the info files that earlier targets write."""
    specs, scans, listings, links = [], [], [], []
    for at, name in enumerate(project_of(document, b"project: ")):
        where = b"target %d: " % at
        spec = spec_of(opened(files, name), where + b"target: ")
        specs.append(spec)
        if spec.map != specs[0].map:
            raise Rejected(where + b"target: S3 BadShape document member map")
        links.append([latest(specs[:-1], it, where) for it in spec.linked])
        scans.append([opened(files, it) for it in spec.scans])
        listings.append(opened(files, spec.edges) if spec.edges is not None else None)
    made = []
    for at, spec in enumerate(specs):
        made.append(at_target(at, collated, spec, scans[at], [made[it][1] for it in links[at]]))
    for at, spec in enumerate(specs):
        at_target(at, check_edges, spec, listings[at], made[at][0])
    return done(files=[it for _, _, files in made for it in files])


def latest(specs, text, where):
    """The latest target whose info is this text."""
    found = [at for at, it in enumerate(specs) if it.info == text]
    if not found:
        raise Rejected(where + b"K3 LinkedLater")
    return found[-1]


def at_target(at, call, *given):
    try:
        return call(*given)
    except Rejected as rejection:
        raise Rejected(b"target %d: %s" % (at, rejection.line)) from rejection
