"""What Meson calls in place of Ninja after it wrote the Ninja file: the calls adopt the build."""
import contextlib
import os
import re

import meson_generator
import ninja_adopt
from adapter_files import Wrong, read, say
from ninja_files import NinjaFile
from ninja_statements import OWN


def called(ninja, words, *adoption):
    """Adopts the build in the current directory, and then calls Ninja with these words, or does
    what it would do."""
    is_last = words[:2] == ["-t", "compdb"]
    try:
        said = ninja_adopt.adopt(meson_generator, ".", *adoption, again=False)
    except Wrong as wrong:
        if is_last:
            raise
        return wrong.status  # the last call says why
    if said:
        say(said)
    with ninja_adopt.alone(meson_generator, ".") as build:
        is_adopted = build.is_adopted
    if is_adopted and words[:2] == ["-t", "cleandead"]:
        clean_dead(NinjaFile(read))
        return 0
    if is_adopted and is_last:
        rules = re.findall(r"^rule (.*)", read("build.ninja"), re.M)
        words += [it for it in rules if it.rpartition(OWN)[0] in words]
    return os.execv(ninja, [ninja, *words])


def clean_dead(file):
    """Removes what earlier builds made and no statement names. Ninja would also remove module
    files, which only dyndep files name: always before version 1.12, and later those of a target to
    which a source was added or from which one was removed."""
    known = {name for it in file.builds
             for name in (*it.outputs, *it.implicit_outputs, *it.needed())}
    lines = read(".ninja_log").splitlines() if os.path.exists(".ninja_log") else []
    logged = {line.split("\t")[3] for line in lines if line.count("\t") == 4}
    for name in logged - known:
        if not name.startswith(f"{meson_generator.FOLDER}/"):
            with contextlib.suppress(FileNotFoundError, IsADirectoryError):
                os.remove(name)
