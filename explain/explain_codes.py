"""What each error of modules, edges and maps means: a head, and lines after it. `it` is the
explanation, with the target that the error is in, and `rest` what follows the error's name."""
import re

from explain_documents import printed, shown
from explain_modules import like, nearest, rule_in_build
from explain_sources import Place, imports, provides


def explained(it):
    return CODES[it.error.code](it, it.error.rest)


def head(it, text):
    return f"{it.code()}{it.of}: {text}"


def where(rule):
    """The scan document of an object, and the number of its rule if it has several."""
    if not rule:
        return []
    return [f"{rule.object} is {'in ' * rule.alone}{of_scan(rule)}."]


def of_scan(rule):
    return rule.scan if rule.alone else f"rule {rule.index} of {rule.scan}"


def few(steps, joint):
    """The steps of a cycle, of which a long one has the first ones and the last."""
    if len(steps) > 8:
        steps = [*steps[:5], f".. {len(steps) - 6} more ..", steps[-1]]
    return joint.join(steps)


def producers(it, text, name=None):
    """What provides something twice, from `object PATH and info TARGET`: files and sources."""
    known = {f"object {printed(rule.object)}": (f"{rule.object}, {of_scan(rule)}", rule)
             for rule in it.target.rules}
    for info in it.target.infos:
        known[f"info {printed(info.target)}"] = (f"the target {info.target}, by {info.file}",
                                                 rule_in_build(info, name))
    for found in re.finditer(" and ", text):
        one, other = text[:found.start()], text[found.end():]
        if one in known and other in known:
            (first, rule), (second, last) = known[one], known[other]
            if one == other:
                return [f"Both are of {first}."]
            return [f"One is {first}.", f"The other is {second}.",
                    *(place for rule in (rule, last) if name for place in provides(rule, name))]
    return []


def object_twice(it, path):
    found = [of_scan(rule) for rule in it.target.rules if printed(rule.object) == path]
    return [head(it, f"{path} is the object of {len(found)} rules"),
            f"They are in {each_of(found)}"]


def each_of(files):
    is_one = len(set(files)) == 1
    return f"{files[0]}, which is listed twice." if is_one else f"{' and '.join(files[:4])}."


def info_twice(it, name):
    found = [info.file for info in it.target.infos if printed(info.target) == name]
    return [head(it, f"the target {name} is linked {len(found)} times"),
            f"Its info files are {each_of(found)}"]


def provided_twice(it, rest):
    name, _, makers = rest.partition(" by ")
    return [head(it, f"the module {name} is provided twice"), *producers(it, makers, name)]


def bmi_twice(it, rest):
    path, _, makers = rest.partition(" by ")
    rules = {name: rule for rule in it.target.rules for name, bmi in rule.provides
             if printed(bmi) == path}
    names = [*rules, *(name for info in it.target.infos for name, module in info.modules.items()
                       if printed(module.bmi) == path)]
    is_of = [f"It is the BMI of {' and '.join(names)}."] if names else []
    return [head(it, f"two things are the file {path}"), *producers(it, makers), *is_of,
            *(place for name, rule in rules.items() for place in provides(rule, name))]


def module_unknown(it, rest):
    name, _, path = rest.partition(" in ")
    rule = it.target.rule(path)
    return [head(it, f"{path} imports {name}, and nothing provides it"), *imports(rule, name),
            *where(rule), *nearest(it.target, it.project, name)]


def info_unknown(it, rest):
    target, module, name = rest.rsplit(" ", 2)
    info = it.target.info_named(target)
    says = [f"{info.file} says that {module} requires it."] if info else []
    return [head(it, f"the module {module} of the target {target} requires {name}, "
                     "and no linked target provides it"), *says,
            *(imports(rule_in_build(info, module), name) if info else []),
            *nearest(it.target, it.project, name)]


def info_disagrees(it, rest):
    target, module, name = rest.rsplit(" ", 2)
    user = it.target.info_named(target)
    provider = next(info for info in it.target.infos if name in info.modules)
    bmi = user.modules[module].requires[name]
    return [head(it, f"two info files have different BMIs of the module {name}"),
            f"{user.file} (target {target}, module {module}) has {bmi}.",
            f"{provider.file} (target {provider.target}) has {provider.modules[name].bmi}."]


def import_cycle(it, rest):
    rules = [it.target.rule(path) for path in rest.split(" -> ")]
    names = [[name for name, _ in after.provides if name in rule.requires]
             for rule, after in zip(rules, rules[1:] + rules[:1])]
    modules = [each[0] for each in names[-1:] + names]
    steps = [f"{rule.object} imports {' and '.join(each)} of {after.object}"
             for rule, after, each in zip(rules, rules[1:] + rules[:1], names)]
    places = [place for rule, each in zip(rules, names) for place in imports(rule, each[0])]
    if all(isinstance(place, Place) for place in places) and len(places) == len(rules):
        more = len(places) - 4
        steps = [f".. and {more} more imports." if more > 0 else ""]
    else:
        steps, places = [f"{few(steps, '; ')}."], []
    return [head(it, few(modules, " -> ")), *places, *steps]


def module_private(it, rest):
    name, target, kind, user = re.fullmatch(r"(\S+) of (.*) in (object|info) (.*)", rest).groups()
    rule = it.target.rule(user) if kind == "object" else None
    says = where(rule) if rule else [f"{it.target.info_named(user).file} says so."]
    user = user if rule else f"the target {user}"
    return [head(it, f"{user} imports {name}, which is private to the target {target}"),
            *imports(rule, name), *says, f"{it.target.info_named(target).file} has it as private."]


def private_unknown(it, name):
    found = like(name, [module for rule in it.target.rules for module, _ in rule.provides])
    return [head(it, f"{it.target.file} lists {name} as private, and no object of the target "
                     "provides it"),
            *([f"Its objects provide {' and '.join(found)}."] if found else []),
            *(place for module in found for place in provides(it.target.rule_of(module), module))]


def statement_too_long(it, rest):
    rule = it.target.rules[int(rest.split()[-1])]
    return [head(it, f"the statement of {rule.object}"), *where(rule),
            f"It provides {len(rule.provides):,} modules and imports {len(rule.requires):,}."]


def map_path(it, path):
    names = [f"{name}, of {rule.object} in {rule.scan}"
             for rule in it.target.rules for name, bmi in rule.provides if printed(bmi) == path]
    names += [f"{name}, of {info.file}" for info in it.target.infos
              for name, module in info.modules.items() if printed(module.bmi) == path]
    return [head(it, f"{path} cannot be written into a module map"),
            *([f"It is the BMI of {names[0]}."] if names else []),
            f"module-dir is {shown(it.target.document.get('module-dir'))} in {it.target.file}."]


def two_provided(it, path):
    rule = it.target.rule(path)
    names = [name for name, _ in rule.provides]
    return [head(it, f"{path} provides {' and '.join(names)}"), *where(rule),
            *(place for name in names for place in provides(rule, name))]


def linked_later(it, _):
    earlier = {target.writes for target in it.target.earlier}
    found = next((name for name in it.target.linked if name not in earlier), None)
    later = next((target for target in it.project if target.writes == found), None)
    what = f"It is the info file of the {later}, which is not earlier in {it.name}." if later else \
        f"No target in {it.name} has this info file."
    close = [] if later else like(found, [name for name in earlier if name])
    return [head(it, f"it links {found}"), what, *(f"A like name is {name}." for name in close[:1])]


def edges_cycle(it, rest):
    paths = rest.split(" -> ")
    steps = [f"{one} needs {other}" for one, other in zip(paths, paths[1:] + paths[:1])]
    return [head(it, few(paths + paths[:1], " -> ")), f"{few(steps, '; ')}.",
            f"The edge list is {it.target.edges}." if it.target.edges else ""]


def of_edges(it, rest):
    return [head(it, rest), f"The edge list is {it.target.edges}, and the dyndep file is "
                            f"{it.target.document.get('dyndep')}."]


CODES = {
    "M1": object_twice, "M2": info_twice, "M3": provided_twice, "M4": bmi_twice,
    "M5": module_unknown, "M6": info_unknown, "M7": info_disagrees, "M8": import_cycle,
    "M9": module_private, "M10": private_unknown, "Y2": statement_too_long, "K1": map_path,
    "K2": two_provided, "K3": linked_later, "": edges_cycle,
    **dict.fromkeys([f"E{it}" for it in range(1, 10)], of_edges),
}
