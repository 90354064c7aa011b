"""The Ninja file of an adopted build: compilations read maps and dyndep files, and each source is
scanned with the flags of its compilation. All other statements stay, except that the one which
calls the generator keeps the build adopted."""
import re

from adapter_files import Wrong
from compilers import compile_flags, filtered, scan_command
from ninja_files import VARIABLE, escaped, paths, shell, value

# What comes before this is kept by `gn clean`, so that Ninja calls GN.
FIRST_STATEMENT = re.compile(r"^(subninja |build (?!build\.ninja))", re.M)
# Words of a compilation that are no flags of a scan. Those of the second list have their value in
# the next word.
NO_FLAGS = {"-MD", "-MMD", "-MP", "-c"}
OUTPUT_FLAGS = {"-MF", "-MQ", "-MT", "-o"}
# What the names of rules that compile with a map have in addition, and a number.
OWN = "_dyncollate"
# Words of a command that is more than a call of the compiler.
OPERATORS = {"&&", "||", ";", "|", ">", "&"}


class Statements:
    """The Ninja files of a build after adoption. `this` is the command that calls it."""

    def __init__(self, generator, file, steps, program, this):
        self.generator, self.file, self.steps, self.program = generator, file, steps, program
        self.this = shell([*this, f"--program={program}"])
        self.below = {it for step in steps for it in step.below}
        # by what they begin with, the names of the rules, by their bindings
        self.rules = {}

    def texts(self):
        """Returns the texts by their names. What the generator wrote into files that build.ninja
        names stays there: a file that differs is in our directory."""
        changed, texts = {}, {}
        for step in self.steps:
            for target in step.targets:
                for build in target.compiles:
                    text = self.compiled(step, target, build) + self.scanned(target, build)
                    changed.setdefault(build.file, {})[build] = text
        # each file comes after the one that names it
        for file in reversed(self.file.files):
            for it in file.below:
                if it.named in changed or it.named.name in self.file.differs:
                    name = f"{self.generator.FOLDER}/{it.named.name}"
                    texts[name] = it.named.changed(changed.get(it.named, {}))
                    changed.setdefault(file, {})[it] = f"subninja {escaped(name)}\n"
        text = self.file.changed(changed[self.file])
        at = FIRST_STATEMENT.search(text).start()
        steps = [*map(self.collated, self.steps)]
        rules = [f"rule {name}\n{lines}\n" for same in self.rules.values()
                 for lines, name in same.items()]
        return {**texts, self.file.name: "".join([text[:at], *rules, *steps, "\n", text[at:]])}

    def rule(self, name, bindings):
        """Returns the name of a rule with these bindings."""
        same = self.rules.setdefault(name, {})
        lines = "".join(f" {key} = {raw}\n" for key, raw in bindings.items())
        return same.setdefault(lines, f"{name}{len(same) or ''}")

    def collated(self, step):
        objects = [it for target in step.targets for it in target.objects]
        infos = [it.info for it in step.targets]
        inputs = [f"{it}.ddi" for it in objects]
        inputs += [target.info for it in step.below for target in it.targets]
        name, command = (("dyncollate_group", f"{self.this} --group $in") if step.is_group else
                         ("dyncollate_collate", f"{shell([self.program, 'collate'])} $in"
                                                f" || {self.this} --why $in"))
        rule = self.rule(name, {"command": command, "description": "Collating $in", "restat": 1})
        text = (f"build{paths([step.dyndep])} |"
                f"{paths(infos + [f'{it}.modmap' for it in objects])}:"
                f" {rule}{paths([step.document])} |{paths(inputs)}\n")
        if step in self.below:
            # after an object of the step, Ninja has read its dyndep file
            text += f"build{paths([step.loaded])}: phony ||{paths(objects[:1])}\n"
        if len(step.below) > 1:
            below = paths(it.loaded for it in step.below)
            text += f"build{paths(step.waits)}: phony |{below}\n"
        return text

    def compiled(self, step, target, build):
        raw = {key: it for key, it in build.raw.items() if key not in self.generator.DEPFILES}
        rule = self.compile_rule(target, build, raw.pop(self.generator.FLAGS, None))
        raw["dyndep"] = value(step.dyndep)
        return build.text(rule, raw=raw, implicit=build.implicit + step.waits,
                          order_only=waits(build) + [step.dyndep, f"{build.outputs[0]}.modmap"])

    def compile_rule(self, target, build, flags):
        """Returns the name of a rule that compiles with a map, and with the flags that the
        statement has. There are few rules, and many statements, which Ninja reads each time."""
        name = self.generator.FLAGS
        flags = f"${{{name}}}" if flags is None else " ".join(
            it for it in flags.split(" ") if it not in self.generator.MODULE_FLAGS)
        known = {**dict.fromkeys(self.generator.DEPFILES, "$out.d"),
                 name: f"{flags} {' '.join(compile_flags(target.style, '$out'))}"}
        rule = {key: VARIABLE.sub(lambda it: known.get(it[1] or it[2], it[0]), raw)
                for key, raw in build.file.rule(build.rule).items()}
        if target.is_cached:
            # a cache does not know the module files that an object depends on
            rule["command"] = rule["command"].partition(" ")[2]
        if target.style == "gcc":
            rule["command"] += f" && {filtered('$out.d')}"
        return self.rule(f"{build.rule}{OWN}", rule)

    def scanned(self, target, build):
        name, words = build.outputs[0], build.words()[target.is_launched:]
        if not OPERATORS.isdisjoint(words):
            raise Wrong(f"the command of {name} is more than a call of the compiler")
        flags = [it for before, it in zip(words, words[1:])
                 if OUTPUT_FLAGS.isdisjoint((before, it))
                 and it not in NO_FLAGS and it not in self.generator.MODULE_FLAGS
                 and it not in build.inputs]
        kept = target.is_launched and not target.is_cached
        rule = self.rule("dyncollate_scan", {
            "command": scan_command(words[0], flags, kept), "description": "Scanning $in",
            "depfile": "$out.d", "deps": "gcc", "restat": 1})
        return build.text(rule, outputs=[f"{name}.ddi"], order_only=waits(build), raw={})


def waits(build):
    """Returns what a compilation waits for, except the dyndep file of Meson's own scan."""
    return [it for it in build.order_only if it != build.variable("dyndep")]
