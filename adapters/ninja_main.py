"""What the programs that adopt the builds of Meson and of GN do with their arguments."""
import importlib
import os
import sys

from adapter_files import Wrong, say

HERE = os.path.dirname(os.path.realpath(sys.argv[0]))
NAME = os.path.basename(sys.argv[0])


def beside(name, *folders):
    """Returns the path of a program that is next to the one that runs, in one of these directories
    in the sources, or in the PATH."""
    import shutil
    paths = [os.path.join(HERE, it, name) for it in ("", *folders)]
    found = next((it for it in paths if os.access(it, os.X_OK)), None) or shutil.which(name)
    if not found:
        raise Wrong(f"{name}: there is no such program")
    return os.path.abspath(found)


def adoption(wrapper=None):
    """Returns how the program, the one that runs and the wrapper of Ninja are called."""
    return (lambda: beside(os.environ.get("DYNCOLLATE") or "dyncollate"),
            [sys.executable, "-IS", os.path.abspath(sys.argv[0])],
            wrapper or beside("dyncollate-ninja", "../cmake"))


def called_by_ninja(program, option, name):
    """What the Ninja file of an adopted build calls."""
    step = "group" if option == "--group" else "why"
    return getattr(importlib.import_module(f"ninja_{step}"), step)(program, name)


def version():
    paths = [os.path.join(HERE, it, "VERSION") for it in ("../share/dyncollate", "../..")]
    with open(next(filter(os.path.exists, paths)), encoding="utf-8") as file:
        return file.read().strip()


def adopt_or_restore(generator, command, folder):
    import ninja_adopt
    if command == "adopt":
        print(f"{NAME}: {ninja_adopt.adopt(generator, folder, *adoption())}")
    else:
        ninja_adopt.restore(generator, folder)


def run(generator, description, words):
    if words in (["--help"], ["-h"]):
        print(description.strip())
    elif words == ["--version"]:
        print(NAME, version())
    elif len(words) == 2 and words[0] in ("adopt", "restore"):
        adopt_or_restore(importlib.import_module(generator), *words)
    elif len(words) > 3 and words[0] == "--generated":
        import meson_hook
        return meson_hook.called(words[2], words[3:], *adoption(words[1]))
    elif len(words) == 3 and words[0].startswith("--program="):
        return called_by_ninja(words[0].partition("=")[2], *words[1:])
    else:
        raise Wrong(f"usage: {NAME} adopt|restore BUILD_DIR, or {NAME} --help", 2)
    return 0


def main(generator, description):
    """Returns the status of the program, whose generator's module has this name."""
    try:
        return run(generator, description, sys.argv[1:])
    except Wrong as wrong:
        say(wrong)
        return wrong.status
    except OSError as error:
        say(f"{error.filename}: {error.strerror}" if error.filename else error)
        return 3
