"""The modules of a target and its module maps: docs/FORMATS.md, "The modules of a target"."""
import re
from collections import namedtuple

from .digraphs import least_cycle, repeated
from .paths import Rejected


# a module that is provided: who provides it, its name, its file, what it requires,
# and whether it is private
Module = namedtuple("Module", "producer name file required is_private")


def table_of(rules, infos, kept):
    """Who provides each name. Takes the rules and the info files of a target,
    and raises the first of their errors."""
    own = [Module((b"object", at), name, file, rule.requires, name in kept)
           for at, rule in enumerate(rules) for name, file in rule.provides]
    linked = [Module((b"info", at), it.name, it.file, it.required, it.is_private)
              for at, info in enumerate(infos) for it in info.modules]
    check_repetitions(rules, infos, own + linked)
    producer = {it.name: it for it in own + linked}
    check_requirements(rules, infos, linked, producer)
    objects = [rule.object for rule in rules]
    users = [[producer[name].producer for name in rule.requires] for rule in rules]
    cycle = least_cycle([{at for kind, at in producers if kind == b"object"}
                         for producers in users])
    if cycle:
        raise Rejected(b"M8 ImportCycle " + b" -> ".join(objects[it] for it in cycle))
    check_private(rules, infos, linked, producer)
    for name in kept:
        if name not in producer or producer[name].producer[0] == b"info":
            raise Rejected(b"M10 PrivateUnknown " + name)
    return producer


def producer_text(producer, rules, infos):
    kind, at = producer
    return kind + b" " + (rules[at].object if kind == b"object" else infos[at].target)


def check_repetitions(rules, infos, modules):
    twice = repeated([rule.object for rule in rules])
    if twice:
        raise Rejected(b"M1 ObjectTwice " + twice[0])
    twice = repeated([info.target for info in infos])
    if twice:
        raise Rejected(b"M2 InfoTwice " + twice[0])
    objects = [((b"object", at), rule.object) for at, rule in enumerate(rules)]
    for code, producers, things in (
            (b"M3 ProvidedTwice", [it.producer for it in modules], [it.name for it in modules]),
            (b"M4 BmiTwice", [it for it, _ in objects] + [it.producer for it in modules],
             [it for _, it in objects] + [it.file for it in modules])):
        twice = repeated(things)
        if twice:
            both = b" and ".join(producer_text(producers[it], rules, infos) for it in twice[1:])
            raise Rejected(b"%s %s by %s" % (code, twice[0], both))


def check_requirements(rules, infos, linked, producer):
    for rule in rules:
        for name in rule.requires:
            if name not in producer:
                raise Rejected(b"M5 ModuleUnknown %s in %s" % (name, rule.object))
    by_info = {it.name: it.file for it in linked}
    asked = [(infos[it.producer[1]].target, it.name, name, file) for it in linked
             for name, file in it.required]
    for target, module, name, _ in asked:
        if name not in by_info:
            raise Rejected(b"M6 InfoUnknown %s %s %s" % (target, module, name))
    for target, module, name, file in asked:
        if by_info[name] != file:
            raise Rejected(b"M7 InfoDisagrees %s %s %s" % (target, module, name))


def check_private(rules, infos, linked, producer):
    asked = [((b"object", at), name) for at, rule in enumerate(rules) for name in rule.requires]
    asked += [(it.producer, name) for it in linked for name, _ in it.required]
    for user, name in asked:
        found = producer[name]
        if found.producer[0] == b"info" and found.is_private and found.producer != user:
            raise Rejected(b"M9 ModulePrivate %s of %s in %s" % (
                name, infos[found.producer[1]].target, producer_text(user, rules, infos)))


def needed_of(rule, producer):
    """The names that chains of requirements lead to from an object, with their files."""
    reached, left = set(), list(rule.requires)
    while left:
        name = left.pop()
        if name not in reached:
            reached.add(name)
            left += [it[0] if isinstance(it, tuple) else it for it in producer[name].required]
    return [(name, producer[name].file) for name in sorted(reached)]


# ---- module maps

def map_text(form, provided, needed):
    if form == b"gcc":
        return b"".join(b"%s %s\n" % it for it in provided + needed)
    text = b"".join(b"-x c++-module\n-fmodule-output=%s\n" % file for _, file in provided)
    return text + b"".join(b"-fmodule-file=%s=%s\n" % it for it in needed)


def map_of(form, rule, producer):
    needed = needed_of(rule, producer)
    for _, file in rule.provides + needed:
        if re.search(rb"[\x00-\x20\x7f'\"\\]", file):
            raise Rejected(b"K1 MapPath " + file)
    if form == b"clang" and len(rule.provides) > 1:
        raise Rejected(b"K2 TwoProvided " + rule.object)
    return map_text(form, rule.provides, needed)
