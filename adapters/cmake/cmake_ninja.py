"""The Ninja files of a CMake build: CMake's steps in them, and what replaces them.

Each line of CMake that is replaced stays in a comment, or is continued by a line of its own, so
`as_cmake_wrote` finds it again.
"""
import os
import re
import shlex

from adapter_files import Wrong, escaped, read
from cmake_files import MAKERS, depend_info

AFTER_CMAKE = "--after-cmake"
MADE_BY_CMAKE = "# CMAKE generated file"
# Before the command of CMake's step, and before a binding that only this command needs.
OLD_COMMAND, OLD_BINDING = "  # CMake: ", "  # CMake's "
# The line of a statement with what dyncollate reads in addition begins with this, and has the
# target document as its last input.
MORE_INPUTS, DOCUMENT = " " * 8, "/CXX.target.json"

STEP = " -E cmake_ninja_dyndep "
# Each begins with the end of the line before, which is quicker to find than the begin of a line.
BUILD = re.compile(r"\nbuild ([^$:\n]*(?:\$.[^$:\n]*)*): (\S+) (.*)")
RULE = re.compile(r"\nrule (.*)(?:\n  .*)*")
COMMAND = re.compile(rf"\n  command = (.*{STEP}.*)")
DYNDEP = re.compile(r"\n  dyndep = (.*)")
RUN_OF_CMAKE = re.compile(r"\n  (?:command|COMMAND) = .* --regenerate-during-build .*")
OUR_RUN_OF_CMAKE = re.compile(rf"(.* --regenerate-during-build .*) && .* {AFTER_CMAKE} .*")


class Step:
    """CMake's step of a target."""

    def __init__(self, statement, options, build):
        """Reads its statement. `options` are those of the command of its rule."""
        self.statement, self.options = statement[0], options
        outputs, self.rule, inputs = statement.groups()
        # as the statement names them, because Ninja knows a file by its name
        self.dyndep, *others = words_of(outputs)
        self.info = next((it for it in others if os.path.basename(it) == "CXXModules.json"), None)
        if not self.info:
            raise Wrong(f"{build}: the statement of {self.dyndep} is not what {MAKERS} writes")
        self.scans = words_of(inputs.split(" | ")[0].split(" || ")[0])
        self.inputs = {*words_of(inputs)}
        # the directory of the target's files, and what CMake says of the target
        self.folder = os.path.dirname(options["tdi"])
        self.target = depend_info(os.path.join(build, options["tdi"]))
        self.path = os.path.join(self.target["dir-top-bld"], self.folder)

    def with_inputs(self, more):
        """The statement with these files as inputs, before the order-only ones. The last one is
        the target document."""
        start, bar, order_only = self.statement.partition(" || ")
        mark = "" if " | " in start.split(f": {self.rule} ", 1)[1] else "| "
        more = " ".join(map(escaped, more))
        return f"{start} $\n{MORE_INPUTS}{mark}{more}{bar}{order_only}"


def words_of(text):
    """Returns the paths of a part of a build statement."""
    if "$" not in text:
        return text.replace("|", " ").split()
    return [re.sub(r"\$(.)", r"\1", it) for it in re.findall(r"(?:\$.|[^ $|])+", text)]


def shell(words):
    """Returns a command as it is written in a Ninja file."""
    return shlex.join(words).replace("$", "$$")


def words_of_shell(command):
    """Returns the words of a command in a Ninja file."""
    command = command.replace("$$", "$")
    return shlex.split(command) if {*"\"'\\"} & {*command} else command.split()


def ninja_files(build):
    """Returns the texts of the Ninja files by name."""
    if not os.path.exists(f"{build}/build.ninja"):
        raise Wrong(f"{build}/build.ninja does not exist: run `cmake -G Ninja` first")
    names = [f"{folder}/{name}" for folder in (build, f"{build}/CMakeFiles")
             for name in sorted(os.listdir(folder))]
    texts = {name: read(name) for name in names if name.endswith(".ninja")}
    for name in f"{build}/build.ninja", f"{build}/CMakeFiles/rules.ninja":
        if not texts.get(name, "").startswith(MADE_BY_CMAKE):
            raise Wrong(f"{name} is not as CMake writes it: run `cmake` again")
    for text in texts.values():
        prefix = re.search(r"\ninclude (.+)CMakeFiles/rules\.ninja\n", text)
        if prefix:
            raise Wrong(f"{build} has the CMAKE_NINJA_OUTPUT_PATH_PREFIX {prefix[1]}, "
                        "which is not supported")
    return texts


# ---- what CMake wrote

def as_cmake_wrote(text):
    if not any(mark in text for mark in (OLD_COMMAND, OLD_BINDING, DOCUMENT, AFTER_CMAKE)):
        return text
    found = []
    for line in text.split("\n"):
        if line.startswith(OLD_COMMAND):
            found[-1] = f"  command = {line[len(OLD_COMMAND):]}"
        elif line.startswith(OLD_BINDING):
            found.append(f"  {line[len(OLD_BINDING):]}")
        elif line.startswith(MORE_INPUTS) and DOCUMENT in line and found[-1].endswith(" $"):
            found[-1] = found[-1][:-len(" $")] + line.partition(DOCUMENT)[2]
        else:
            ours = OUR_RUN_OF_CMAKE.match(line)
            found.append(ours[1] if ours else line)
    return "\n".join(found)


def program_of(texts):
    """Returns the path of the program that an adopted build calls, or None."""
    for text in texts.values():
        ours = re.search(rf"\n  command = (.*)\n{OLD_COMMAND}", text)
        for word in words_of_shell(ours[1]) if ours else []:
            if word.startswith("--program="):
                return word.partition("=")[2]
    return None


def replaced(pattern, change, text):
    """Replaces each match of a pattern, if `restore` can undo that."""
    def checked(found):
        new = change(found)
        if new != found[0] and as_cmake_wrote(new) != found[0]:
            raise Wrong(f"`restore` could not undo what is written for: {found[0].strip()}")
        return new
    return pattern.sub(checked, text)


class Files:
    """The Ninja files, as CMake wrote them, and the steps in them. Patterns find what is read and
    what is changed, because a loop over all lines takes several times as long."""

    def __init__(self, texts, build):
        self.texts, self.build = texts, build
        # of the commands of steps, by the names of their rules
        self.options = {}
        for text in texts.values():
            for found in RULE.finditer(text) if STEP in text else ():
                if STEP in found[0]:
                    self.options[found[1]] = self.options_of(found)
        self.other_languages = any(it["lang"] != "CXX" for it in self.options.values())
        self.steps = []
        self.find_steps()

    def options_of(self, rule):
        """Returns the options of CMake's step by their names."""
        try:
            words = words_of_shell(COMMAND.search(rule[0])[1])
        except (TypeError, ValueError):
            words = []
        words = (it[len("--"):].partition("=") for it in words if it.startswith("--"))
        found = {name: value for name, equals, value in words if equals}
        if not {"lang", "tdi"} <= found.keys():
            raise Wrong(f"{self.build}: the command of {rule[1]} is not what {MAKERS} writes")
        return found

    def find_steps(self):
        """Finds the steps of C++ targets that are scanned. Fails if a compilation reads a dyndep
        file that no known step writes."""
        # CMake also writes the step of a target that is not scanned, and that has no document
        scanned = {rule for rule, it in self.options.items()
                   if it["lang"] == "CXX" and os.path.exists(os.path.join(self.build, it["tdi"]))}
        known, needed = set(), set()
        for text in self.texts.values():
            for found in BUILD.finditer(text):
                if found[2] in self.options:
                    known.add(found[1].partition(" |")[0].replace("$", ""))
                    if found[2] in scanned:
                        self.steps.append(Step(found, self.options[found[2]], self.build))
            needed.update(it.replace("$", "") for it in DYNDEP.findall(text))
        for name in sorted(needed - known):
            raise Wrong(f"{self.build} is not adopted because of {name}: its step is not one that "
                        f"{MAKERS} writes")

    def adopted(self, statements, commands, after_cmake):
        """Returns the texts with these statements, these commands of rules, and this command after
        each run of CMake, if there is one."""
        def rule(found):
            if found[1] not in commands:
                return found[0]
            text = found[0].replace("\n  rspfile", f"\n{OLD_BINDING}rspfile")
            new = f"\n  command = {commands[found[1]]}\n{OLD_COMMAND}"
            return text.replace("\n  command = ", new, 1)

        def changed(text):
            text = replaced(BUILD, lambda it: statements.get(it[0], it[0]), text)
            if STEP in text:
                text = replaced(RULE, rule, text)
            if after_cmake:
                text = replaced(RUN_OF_CMAKE, lambda it: f"{it[0]} && {after_cmake}", text)
            return text

        return {name: changed(text) for name, text in self.texts.items()}
