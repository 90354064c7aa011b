"""What differs between compilers: how a source is scanned and compiled, and what may not stay in
its depfile."""
import functools
import json
import os
import re
import shlex
import shutil
import subprocess

from adapter_files import Wrong
from ninja_files import shell

# From this version on GCC scans by itself.
GCC_SCANS = 14
# The names of clang-scan-deps, which scans for older versions of GCC.
SCANNERS = ["clang-scan-deps", *(f"clang-scan-deps-{it}" for it in range(22, 15, -1))]
# What may come before a compiler. Only the last one knows the files of modules.
CACHES = {"ccache", "sccache"}
LAUNCHERS = {*CACHES, "dyncollate-remote"}
# The flags of GCC that matter to a scan and that Clang also knows. Those of the second list have
# their value in the next word.
KNOWN = re.compile(r"-([DUI].|std=|m|O|pthread|nostdinc|"
                   r"f(no-)?(exceptions|rtti|PIC|PIE|pic|pie|openmp|char8_t)$)")
WITH_VALUE = {"-D", "-U", "-I", "-isystem", "-iquote", "-idirafter", "-include", "-imacros"}


@functools.lru_cache(None)
def kind(*compiler):
    """Returns the style of the compiler's module maps, or "" if it is not known, and its major
    version."""
    try:
        ran = subprocess.run([*compiler, "--version"], stdout=subprocess.PIPE,
                             stderr=subprocess.STDOUT, text=True, check=False)
    except OSError as error:
        raise Wrong(f"{compiler[0]}: {error.strerror}", 3) from None
    makers = {"clang": "clang", "Free Software Foundation": "gcc"}
    style = next((style for name, style in makers.items() if name in ran.stdout), "")
    version = re.search(r"\b(\d+)\.\d+\.\d+", ran.stdout)
    return style, int(version[1]) if version else 0


@functools.lru_cache(None)
def scanner(compiler):
    """Returns the command of clang-scan-deps: that of this Clang, or any for GCC."""
    if os.environ.get("SCANNER"):
        return shlex.split(os.environ["SCANNER"])
    clang = re.fullmatch(r"(.*)clang\+\+(-\d+)?", compiler)
    names = [f"{clang[1]}clang-scan-deps{clang[2] or ''}"] if clang else SCANNERS
    found = next(filter(shutil.which, names), None)
    if not found:
        raise Wrong(f"{names[0]}, which scans for {compiler}, is not there; "
                    "the environment variable SCANNER may name another")
    return [found]


def compile_flags(style, name):
    """Returns the flags by which the compilation of an object reads its map. No module file may
    get into its depfile."""
    if style == "clang":
        return ["-x", "c++", f"@{name}.modmap", "-fno-module-file-deps",
                "-Wno-unused-command-line-argument"]
    return ["-fmodules-ts", f"-fmodule-mapper={name}.modmap", "-Mno-modules", "-x", "c++"]


def scan_lines(command, scanner_command="", keeps_depfile=False, name="$object"):
    """Returns the command of a rule that scans `$in`, the source of the object with this name, in
    parts that `&&` joins. `command` compiles it. Without another scanner, GCC scans. A scan that
    fails leaves nothing, and one that finds the same document leaves it alone. Ninja removes a
    depfile of which no copy is kept."""
    depfile = "-MD -MF $out.d -MQ $out"
    if scanner_command:
        scan = (f"{scanner_command} -format=p1689 -- {command} -x c++ -c $in -o {name} {depfile} "
                '> "$$t"')
    else:
        scan = (f"{command} -fmodules-ts -Mno-modules -E -x c++ $in {depfile} -fdeps-format=p1689r5"
                f' -fdeps-target={name} -o /dev/null -fdeps-file="$$t"')
    return ["""t=$out.$$$$ && trap 'rm -f "$$t"' EXIT""", scan,
            *["cp $out.d $out.deps"] * keeps_depfile,
            """{ cmp -s "$$t" $out || mv "$$t" $out; }"""]


def scan_command(compiler, flags, keeps_depfile=False):
    """Returns the command of a rule that scans what this compiler compiles with these flags.
    `$out` is the name of the object and `.ddi`."""
    style, version = kind(compiler)
    more = ""
    if style != "gcc" or version < GCC_SCANS:
        flags = flags if style == "clang" else known_to_clang(flags)
        more = shell(scanner(compiler))
    return " && ".join(scan_lines(shell([compiler, *flags]), more, keeps_depfile,
                                  '"$${t%.ddi.*}"'))


def filtered(depfile):
    """Returns the command of a rule that removes module files and maps from a depfile. GCC leaves
    them there, from version 14 on also with -Mno-modules. Ninja would keep them as inputs, even of
    a source that imports them no more."""
    return (r"sed -E ':a; s/ (\\ |[^ ])*\.(gcm|modmap)( |$$)/\3/; ta' {0} > {0}.tmp"
            " && mv {0}.tmp {0}").format(depfile)


def known_to_clang(flags):
    return [it for before, it in zip(["", *flags], flags)
            if KNOWN.match(it) or not WITH_VALUE.isdisjoint((before, it))]


def standard_sources(command, style):
    """Returns the sources of the modules std and std.compat: those of the first list whose sources
    are all there. The flags of the command choose the standard library."""
    def printed(*options):
        return subprocess.run([*command, *options], stdout=subprocess.PIPE, text=True,
                              check=False).stdout.strip()

    is_libcxx = style == "clang" and "-stdlib=libc++" in command
    name = "libc++.modules.json" if is_libcxx else "libstdc++.modules.json"
    lists, missing = [printed(f"-print-file-name={name}")], []
    if not os.path.isabs(lists[0]):
        # it is printed as it was asked
        raise Wrong(f"{command[0]} has no {name}")
    if style == "clang":
        # Debian's libc++-21-dev has a link to the list in another directory, and only next to Clang
        # its paths are right
        folder = os.path.join(printed("-print-resource-dir"), "../..")
        lists.append(os.path.join(os.path.normpath(folder), name))
    for it in filter(os.path.exists, lists):
        found = sources_of(it)
        absent = next((source for source in found if not os.path.exists(source)), None)
        if not absent:
            return found
        missing.append(f"{it} names {absent}, which is not there")
    raise Wrong(missing[0] if missing else f"{lists[0]} is not there")


def sources_of(name):
    """Returns the sources that a list of modules has."""
    with open(name, encoding="utf-8") as file:
        modules = json.load(file)["modules"]
    folder = os.path.dirname(name)
    return [os.path.realpath(os.path.join(folder, it["source-path"])) for it in modules]
