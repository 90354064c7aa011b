"""Reads and writes Ninja files: build statements with their places, rules and variables."""
import os
import re
import shlex
from dataclasses import dataclass, field

from adapter_files import escaped

LINE = re.compile(r"(?:[^$\n]|\$(?:.|\n))*\n?", re.S)
TOKEN = re.compile(r"(?:\$(?:\{[\w.-]+\}|\r?\n *|.)|[^$ :|\r\n])+|\|\||\|@|\||:")
VARIABLE = re.compile(r"\$(?:\{([\w.-]+)\}|([\w-]+)|\r?\n *|(.))", re.S)
# The kinds of inputs of a statement, by what precedes them.
INPUTS = {"|": "implicit", "||": "order_only", "|@": "validations"}


def paths(names):
    """Returns paths as they are written in a build statement, each after a space."""
    return "".join(f" {escaped(it)}" for it in names)


def value(text):
    """Returns a text as it is written in a binding."""
    return text.replace("$", "$$")


def shell(words):
    """Returns a command as it is written in a binding."""
    return value(shlex.join(words))


def evaluated(text, variable):
    def meant(found):
        name = found[1] or found[2]
        return variable(name) if name else found[3] or ""

    return VARIABLE.sub(meant, text) if "$" in text else text


@dataclass(eq=False)
class Build:
    """A build statement. Paths are canonical. `raw` has the bindings as they are written."""
    file: "NinjaFile"
    rule: str
    start: int
    end: int
    outputs: list
    implicit_outputs: list
    inputs: list
    implicit: list = field(default_factory=list)
    order_only: list = field(default_factory=list)
    validations: list = field(default_factory=list)
    raw: dict = field(default_factory=dict)

    def variable(self, name):
        """Returns the value of a variable in the statement's command."""
        if name in ("in", "out"):
            return shlex.join(self.inputs if name == "in" else self.outputs)
        if name in self.raw:
            return evaluated(self.raw[name], self.file.variable)
        rule = self.file.rule(self.rule)
        if name in rule:
            return evaluated(rule[name], self.variable)
        return self.file.variable(name)

    def words(self):
        """Returns the words of the command, with those of its response file."""
        command, response = self.variable("command"), self.variable("rspfile")
        if response:
            command = command.replace(f"@{response}", self.variable("rspfile_content"))
        # shlex takes a third of a millisecond
        return shlex.split(command) if re.search(r"['\"\\]", command) else command.split()

    def needed(self):
        return self.inputs + self.implicit + self.order_only

    def text(self, rule, **changed):
        """Returns the statement with another rule, and other paths or bindings."""
        part = {**vars(self), **changed}
        more = f" |{paths(part['implicit_outputs'])}" if part["implicit_outputs"] else ""
        line = f"build{paths(part['outputs'])}{more}: {rule}{paths(part['inputs'])}"
        line += "".join(f" {mark}{paths(part[it])}" for mark, it in INPUTS.items() if part[it])
        return "\n".join([line, *(f" {name} = {raw}" for name, raw in part["raw"].items()), ""])


@dataclass(eq=False)
class Subninja:
    file: "NinjaFile"
    start: int
    end: int
    named: "NinjaFile"


class NinjaFile:
    """A Ninja file. `files` has it and those that it names by `subninja`, and `builds` the
    statements of all of them. `texts` returns the text of a file."""

    def __init__(self, texts, name="build.ninja", above=None):
        self.text, self.texts, self.name, self.above = texts(name), texts, name, above
        self.builds, self.files = (above.builds, above.files) if above else ([], [])
        self.rules, self.variables, self.below = {}, {}, []
        # the names of those that differ from what the generator wrote
        self.differs = set()
        self.files.append(self)
        self.read()
        if not above:
            self.producers = {out: it for it in self.builds
                              for out in it.outputs + it.implicit_outputs}

    def variable(self, name):
        if name in self.variables or not self.above:
            return self.variables.get(name, "")
        return self.above.variable(name)

    def rule(self, name):
        if name in self.rules or not self.above:
            return self.rules.get(name, {})
        return self.above.rule(name)

    def changed(self, changed):
        """Returns the text with other texts for these of its statements."""
        parts, at = [], 0
        for it in sorted(changed, key=lambda it: it.start):
            parts += [self.text[at:it.start], changed[it]]
            at = it.end
        return "".join([*parts, self.text[at:]])

    def read(self):
        bindings, at = None, 0
        while at < len(self.text):
            found = LINE.match(self.text, at)
            line, start, at = found[0], at, found.end()
            if not line.strip() or line.lstrip().startswith("#"):
                continue
            if line[0] == " ":
                name, _, raw = line.partition("=")
                bindings[name.strip()] = raw.strip()
                if self.builds and bindings is self.builds[-1].raw:
                    self.builds[-1].end = at
            else:
                bindings = self.begun(line, start, at)

    def begun(self, line, start, end):
        """Reads the first line of a statement and returns what gets the bindings below it."""
        word, _, rest = line.partition(" ")
        if word == "rule":
            return self.rules.setdefault(rest.strip(), {})
        if word == "build":
            self.builds.append(self.build_of(rest, start, end))
            return self.builds[-1].raw
        if word == "subninja":
            name = evaluated(rest.strip(), self.variable)
            self.below.append(Subninja(self, start, end, NinjaFile(self.texts, name, self)))
            return {}
        name, equals, raw = line.partition("=")
        if word not in ("default", "pool") and equals:
            self.variables[name.strip()] = evaluated(raw.strip(), self.variable)
        return {}

    def build_of(self, rest, start, end):
        parts, current, rule = {}, "outputs", None
        for token in TOKEN.findall(rest):
            if token == ":" and rule is None:
                rule = ""
            elif token in INPUTS:
                current = "implicit_outputs" if rule is None else INPUTS[token]
            elif rule == "":
                rule, current = token, "inputs"
            else:
                path = os.path.normpath(evaluated(token, self.variable))
                parts.setdefault(current, []).append(path)
        given = {"implicit_outputs": [], "inputs": [], **parts}
        return Build(self, rule, start, end, **given)
