"""The step of a target that the program can't collate alone, and what is printed if a step fails.

The step does what `cmake -E cmake_ninja_dyndep` does. It runs in the build directory, as Ninja
calls it, and imports only modules that are quick to import.
"""
import json
import os
import re
import sys

from adapter_files import Wrong, document, escaped, read, say, write, write_if_changed
from cmake_exports import write_exports
from cmake_files import depend_info

# A shell adds this to the number of the signal that killed a program, and has these statuses if it
# could not run one.
SIGNAL, NOT_RUN = 128, (126, 127)
# Two modules have one name, or one file.
CLASH = "M3", "M4"


class Object:
    """An object of a target. `entry` is what CMake says of its source if that is in a file set of
    C++ modules, and otherwise empty."""

    def __init__(self, scan, entries):
        self.scan, self.entry = scan, entries.get(scan[:-len(".ddi")], {})
        try:
            self.rule, = document(scan)["rules"]
            self.path = self.rule["primary-output"]
            self.provides = [(it["logical-name"], it.get("is-interface", True))
                             for it in self.rule.get("provides") or []]
            self.requires = [it["logical-name"] for it in self.rule.get("requires") or []]
        except (AttributeError, KeyError, TypeError, ValueError) as error:
            raise Wrong(f"{scan}: not the scan of one source: {error!r}") from None
        self.is_private = self.entry.get("visibility") == "PRIVATE"
        # CMake compiles a module of a package to its module file alone, and calls that file the
        # object.
        self.is_module_file = self.entry.get("bmi-only", False)

    def scan_for_program(self):
        """Returns the name of the scan document that the program reads. The program rejects an
        object that is a module file (M4), so this document has the object `PATH.o`, which nobody
        compiles."""
        if not self.is_module_file:
            return self.scan
        provides = [{**it, "compiled-module-path": self.path} for it in self.rule.get("provides")
                    or []]
        rule = {**self.rule, "primary-output": f"{self.path}.o", "provides": provides}
        write(f"{self.path}.o.ddi", json.dumps({"version": 1, "rules": [rule]}))
        return f"{self.path}.o.ddi"


def objects_of(target_document):
    """Returns what CMake says of the target, and its objects."""
    target = depend_info(f"{target_document['target']}/CXXDependInfo.json")
    return target, [Object(it, target["cxx-modules"]) for it in target_document["scans"]]


def check_file_sets(objects):
    """Reports what CMake's step rejects and dyncollate does not, in CMake's words."""
    private = {name for it in objects if it.is_private for name, _ in it.provides}
    for it in objects:
        hidden = sorted(private.intersection(it.requires))
        if it.provides and not it.entry:
            raise of_cmake(f"Output {it.path} provides the `{it.provides[0][0]}` module but it is "
                           "not found in a `FILE_SET` of type `CXX_MODULES`")
        if it.entry and not it.provides:
            raise of_cmake(f"Output {it.path} is of type `CXX_MODULES` but does not provide a "
                           "module interface unit or partition")
        if it.provides and not it.is_private and hidden:
            raise of_cmake(f"Public C++ module source `{it.entry['source']}` requires the "
                           f"`{hidden[0]}` C++ module which is provided by a private source")


def of_cmake(text):
    return Wrong(f"CMake Error: {text}")


def hidden_modules(target, target_document, objects):
    """Returns, by its name, the target of each module that only targets have which this one
    reaches, but does not link."""
    linked = {f"{it}/CXXModules.json" for it in target["linked-target-dirs"]}
    shown = {name for it in objects for name, _ in it.provides}
    hidden = {}
    for path in target_document["linked"]:
        info = document(path)
        names = {it["name"]: info["target"] for it in info["modules"]}
        if os.path.abspath(path) in linked:
            shown.update(names)
        else:
            hidden.update(names)
    return {name: it for name, it in hidden.items() if name not in shown}


def check_imports(target, target_document, objects):
    """Reports an import of a module that CMake does not find, because a link of another target
    hides it."""
    hidden = hidden_modules(target, target_document, objects)
    for it in objects:
        for name in it.requires:
            if name in hidden:
                user, other = map(target_name, (target_document["target"], hidden[name]))
                raise Wrong(f"{it.scan}: imports {name} of {hidden[name]}, which {user} reaches "
                            "only through links that hide it: "
                            f"target_link_libraries({user} PRIVATE {other}) is missing")


def target_name(folder):
    """Returns the name that CMake's language has for the target of this directory."""
    return re.search(r"([^/]*?)(?:@synth_\w+)?(?:\.dir(?:/.*)?)?$", folder)[1]


# ---- the step

def step(program, name):
    """Collates the target of this document, and returns the status."""
    given = document(name)
    target, objects = objects_of(given)
    check_file_sets(objects)
    own = f"{given['target']}/CXX.step.json"
    scans = [it.scan_for_program() for it in objects]
    private = [name for it in objects if it.is_private for name, _ in it.provides]
    given.update(scans=scans, private=private)
    write_if_changed(own, json.dumps(given, indent=1))
    status, said = call(program, own)
    if code_in(said) in CLASH:
        status, said, own = without_unreached(program, given, target, objects)
    if status:
        pass_on(said)
        return explained(program, status, said, own)
    check_imports(target, given, objects)
    finish_module_files([it.path for it in objects if it.is_module_file], given["dyndep"])
    write_exports(target, objects, given)
    return 0


def without_unreached(program, given, target, objects):
    """Collates the target without the linked modules that no import leads to, and returns also the
    name of that document."""
    import cmake_reached  # only such a target needs it
    name = cmake_reached.write_documents(given, target, objects)
    return *call(program, name), name


def call(program, name):
    """Collates the target of this document. Returns the status, as a shell does, and what the
    program prints."""
    output, its_output = os.pipe()
    try:
        files = [(os.POSIX_SPAWN_DUP2, its_output, 1), (os.POSIX_SPAWN_DUP2, its_output, 2)]
        child = os.posix_spawn(program, [program, "collate", name], os.environ, file_actions=files)
    except OSError as error:
        raise Wrong(f"{program}: {error.strerror}", 3) from None
    finally:
        os.close(its_output)
    with os.fdopen(output, encoding="utf-8", errors="surrogateescape") as file:
        said = file.read()
    status = os.waitstatus_to_exitcode(os.waitpid(child, 0)[1])
    return status if status >= 0 else SIGNAL - status, said


def finish_module_files(paths, dyndep):
    """Gives objects that are module files their own maps, and their own statements in the dyndep
    file."""
    text = read(dyndep)
    for path in paths:
        write_if_changed(f"{path}.modmap", read(f"{path}.o.modmap"))
        name = escaped(path)
        text = text.replace(f"build {name}.o | {name}: ", f"build {name}: ")
    if paths:
        write(dyndep, text)


# ---- a step that is not well

def why(program, status, name):
    """Ends the step of the target of this document that the program alone did not do, and returns
    the status. Standard input has what the program printed. If that is nothing, its dyndep file has
    a module that CMake does not allow, or lacks one that CMake needs, or imports one that is
    hidden. Otherwise the step is well, and done."""
    said = sys.stdin.buffer.read().decode(errors="surrogateescape").lstrip("\n")
    if status in NOT_RUN:
        status, said = call(program, name)
    clash = code_in(said) in CLASH
    if not clash:
        pass_on(said)
    if status > SIGNAL:
        return explained(program, status, said, name)
    given = document(name)
    target, objects = objects_of(given)
    check_file_sets(objects)
    if clash:
        status, said, name = without_unreached(program, given, target, objects)
        pass_on(said)
    if said:
        return explained(program, status, said, name)
    check_imports(target, given, objects)
    return 0


def error_in(said):
    """Returns the parts of the line that a run of the program that failed printed, or None."""
    from error_line import error_of, last_line  # only failures need it
    return error_of(last_line(said))


def code_in(said):
    error = said and error_in(said)
    return error.code if error else ""


def explained(program, status, said, name):
    """Says more about a run of the program that failed and printed this line. Returns the
    status."""
    import subprocess
    from error_line import named_by
    if status > SIGNAL:
        raise Wrong(f"{program} was killed by signal {status - SIGNAL}", 3)
    error, given = error_in(said), document(name)
    if error and (words := words_of_cmake(error, given["scans"])):
        say(words)
    explainer = program_beside(program, "dyncollate-explain")
    if explainer:
        line = said.encode(errors="surrogateescape")
        subprocess.run([explainer, name, "-"], input=line, check=False)
    named = error and named_by(error, given)
    if named and error.document == "info":
        # Ninja makes a file again that is not there, but does not know that this one is damaged
        try:
            os.remove(named)
        except FileNotFoundError:
            pass  # the step of another target did so
        say(f"info {error.index} was {named}, which is removed: the next build makes it again")
    elif named and not explainer:
        say(f"{error.document} {error.index} is {named}")
    return status


def words_of_cmake(error, scans):
    """Returns what CMake's step says of an error, or Clang if the step leaves it to the compiler:
    the words that pages about CMake have. Other errors have none."""
    name = error.rest.partition(" ")[0]
    if error.code == "M5":
        return f"module '{name}' not found"
    if error.code == "M8":
        rules = (rule for it in scans for rule in document(it)["rules"])
        cycle = error.rest.split(" -> ")
        names = '", "'.join(sorted(it["logical-name"] for rule in rules
                                   if rule["primary-output"] in cycle for it in rule["provides"]))
        return ("CMake Error: Circular dependency detected in the C++ module import graph. "
                f'See modules named: "{names}"')
    if error.code == "M9":
        return (f"CMake Error: Unable to use module '{name}' as it is 'PRIVATE' and therefore not "
                "accessible outside of its owning target.")
    return None


def pass_on(said):
    sys.stderr.buffer.write(said.encode(errors="surrogateescape"))
    sys.stderr.buffer.flush()


def program_beside(program, name):
    """Returns the path of another program that is installed next to this one or in the PATH, or
    None."""
    folders = [os.path.dirname(program), *os.get_exec_path()]
    return next((path for it in folders if os.access(path := os.path.join(it, name), os.X_OK)),
                None)
