"""The Ninja files of GN.

Each target that compiles something has a file of its own. The last statement of that file makes the
target, and has all that it depends on among its inputs, also the order-only ones. So what a target
links is known.
"""
import contextlib
import json
import os
import re

from adapter_files import Wrong, read, write, write_if_changed
from ninja_files import NinjaFile, shell

NAME, MAKER = "gn", "GN"
MADE = re.compile(r"ninja_required_version = .*\n\n(?=rule gn\n)")
CONFIGURE = AGAIN = "gn gen"
NO_HEADER = "remove precompiled_header"
# The directory of all that adoption and the steps write.
FOLDER = "gn-dyncollate"
# The rules of a toolchain other than the default one begin with its name.
COMPILE = re.compile(r"(\w+_)?cxx$")
LINK = re.compile(r"(\w+_)?(link|solink|solink_module)$")
# statements whose inputs are linked by what names their outputs
THROUGH = re.compile(r"(\w+_)?(alink|solink|solink_module|stamp|phony)$")
# statements that compilation databases have
FOR_EDITORS = re.compile(r"(\w+_)?(cc|cxx|objc|objcxx)(_dyncollate\d*)?$")
# only our compile_commands.json has this, because in strings quotes are escaped
OURS = '\n  "output": '
MODULE_FLAGS = frozenset()
# The variables of a compilation that have its flags, and its depfile, which is `$out.d`.
FLAGS, DEPFILES = "cflags_cc", ()
REGENERATE = re.compile(r"^(rule gn\n  command = .*)", re.M)


def regenerating(text, adopting, _wrapper, _kept):
    """Returns the text with a command that adopts the build again if Ninja calls GN."""
    return REGENERATE.sub(lambda it: f"{it[1]} && {shell([*adopting, 'adopt', '.'])}", text)


def bindings(_name, flags):
    """Returns the variables of a compilation with these flags that makes the object."""
    return {"cflags_cc": shell(flags), "cflags": "", "defines": "", "include_dirs": ""}


def target_of(build):
    return build.file.name[:-len(".ninja")]


# ---- links

def linked_inputs(build):
    return build.inputs + build.implicit + build.order_only


def find_links(targets):
    made = {it.file: it for it in targets.file.builds if not targets.is_compilation(it)}
    for name, it in targets.scanned.items():
        build = it.compiles[0]
        if FLAGS not in build.file.rule(build.rule).get("command", ""):
            raise Wrong(f"the command of {build.outputs[0]} has no {{{{{FLAGS}}}}}")
        if not targets.is_ours(name):
            it.links = targets.linked(made[build.file]) - {name}


# ---- the compilations, for editors

def adopted(folder, texts):
    """Writes compile_commands.json, which names the maps. If GN also wrote one, that is kept."""
    name, kept = commands(folder)
    if os.path.exists(name) and OURS not in read(name):
        write(kept, read(name))
    file = NinjaFile(lambda it: texts.get(it) or read(f"{folder}/{it}"))
    entries = [{"directory": os.path.abspath(folder), "file": it.inputs[0],
                "output": it.outputs[0], "command": it.variable("command").partition(" && ")[0]}
               for it in file.builds if FOR_EDITORS.match(it.rule)]
    write_if_changed(name, json.dumps(entries, indent=1) + "\n")


def restored(folder):
    name, kept = commands(folder)
    if os.path.exists(name) and OURS in read(name):
        os.remove(name)
    with contextlib.suppress(FileNotFoundError):
        os.replace(kept, name)


def commands(folder):
    return [f"{it}/compile_commands.json" for it in (folder, f"{folder}/{FOLDER}")]
