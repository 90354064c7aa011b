"""A compilation on a server: its files, why it may stay here, its key, and the engine."""
import os
from _blake2 import blake2b  # hashlib takes some milliseconds

from adapter_files import Alone, Wrong, read, write, write_if_changed

ENV = dict(os.environ)
ONLY = ENV.get("DYNCOLLATE_REMOTE") == "only"
ROOT = ENV.get("RECC_PROJECT_ROOT", os.getcwd()).rstrip("/") + "/"
# What is below these directories is not sent: the server has to have it.
SYSTEM = tuple(ENV.get("DYNCOLLATE_REMOTE_SYSTEM", "/usr/").split(":"))
STATE = ".dyncollate-remote"  # what a build has found out
OUTPUTS = ("-o", "-MF", "-MQ", "-MT")
# Options and variables that concern files which no map or depfile lists.
UNLISTED = tuple("""@ -B -MJ -Wp,-M --config --coverage --gcc-toolchain --save-temps
    --serialize-diagnostics -coverage -fauto-profile -fcallgraph-info -fdump- -fmodule-header
    -fmodule-output -foptimization-record-file -fpass-plugin -fplugin -fprebuilt-module-path
    -fprofile- -fsave-optimization-record -fstack-usage -ftest-coverage -ftime-trace -gsplit-dwarf
    -include-pch -ivfsoverlay -load -save-temps -serialize-diagnostics -specs CCC_OVERRIDE_OPTIONS
    COMPILER_PATH CPATH CPLUS_INCLUDE_PATH DEPENDENCIES_OUTPUT GCC_EXEC_PREFIX""".split())


def main(words, scan):
    after = dict(zip(words, words[1:]))
    try:
        status, text = Compilation(words, after, scan).compile()
    except (OSError, Wrong) as why:
        status = ONLY or os.spawnvp(os.P_WAIT, words[0], words)
        is_new = ONLY or status == 0 and once(str(why), str)[1]
        output = after.get("-o", words[-1]) + " is compiled here" * (not ONLY)
        text = f"dyncollate-remote: {output}: {why}\n" * is_new
    os.write(2, os.fsencode(text))
    os._exit(status)  # Python's own end takes some milliseconds


class Compilation:
    """A command that compiles, and the files that it reads and writes."""

    def __init__(self, words, after, scan):
        self.words, output = words, after.get("-o", "")
        self.depfile = after.get("-MF", os.path.splitext(output)[0] + ".d")
        mapper = next((it for it in words if it.endswith(".modmap")), "")
        self.gcc, modmap = mapper[:1] == "-", mapper.rpartition("=")[2].lstrip("@")
        left = {"-c", "-MD", "-MMD", mapper, *OUTPUTS, *map(after.get, OUTPUTS)}
        self.rest = [it for it in words if it not in left]
        scan = next(filter(os.path.exists, (scan, f"scan{output[3:-2]}.ddi")), f"{output}.ddi")
        lines = read(modmap).replace('"', "").splitlines() if modmap else []  # CMake's have quotes
        made = [it[16:] for it in lines if it.startswith("-fmodule-output=")]
        used = [it.split("=", 2)[-1] for it in lines if it.startswith("-fmodule-file=")]
        if self.gcc:
            # a map begins with what is provided. GCC makes at most one module of a source
            provides = '"provides":[{' in "".join(read(scan).split())
            files = [it.partition(" ")[2] for it in lines if not it.startswith("$")]
            made, used = files[:provides], files[provides:]
        elif made:
            # Clang has to find the source of a module if it quotes it in a note
            words[1:1] = ["-Xclang", "-fmodules-embed-all-files"]
        self.kept = [it for it in (f"{scan}.deps", f"{scan}.d") if modmap and os.path.exists(it)]
        rules = read(self.kept[0]) if self.kept else run([*self.rest, "-M"])[0]
        # GCC writes more rules, about modules
        self.listed = rules.replace("\\\n", " ").split("\n", 1)[0].partition(": ")[2]
        files = {it.replace("\0", " ").replace("$$", "$").replace("\\#", "#")
                 for it in self.listed.replace("\\ ", "\0").split()}
        files.update(filter(os.path.isfile, [it.rpartition("=")[2] for it in self.rest[1:]]))
        self.system = sorted(it for it in files if it.startswith(SYSTEM))
        self.sent = files.difference(self.system)
        self.inputs, self.outputs = {*self.sent, *used, modmap} - {""}, [output, *made]

    def refusals(self):
        """Yields reasons to compile here."""
        compiler = os.path.basename(self.words[0])
        # recc sends only the first word of a command whose compiler has another name
        if compiler.rstrip("-.0123456789") not in {"c++", "cc", "clang", "clang++", "g++", "gcc"}:
            yield f"recc does not know the compiler {self.words[0]}"
        words = *self.rest[1:], *filter(ENV.get, UNLISTED)
        yield from (f"{it} may concern other files" for it in words
                    if it.startswith(UNLISTED) or it.endswith("=native")
                    or it in ("-fmodules", "-fmodules-ts") and not self.gcc)
        if not self.outputs[0] or not self.listed:
            yield "-o names no object, or no depfile lists what it reads"
        yield from (f"{it} is not below RECC_PROJECT_ROOT, or recc cannot have its name"
                    for it in (*self.inputs, *self.outputs) if "," in it
                    or not it.isprintable() or not os.path.abspath(it).startswith(ROOT))
        sought = [".incbin", "__DATE__", "__TIME__", "__TIMESTAMP__"]
        if self.kept or "clang" not in compiler:  # depfiles of GCC and of scans lack these files
            sought += ["#embed", "__has_embed", "__has_include"]
        yield from (f"{it} in {name}" for name in self.sent for text in [read(name)]
                    for it in sought if it.strip("#") in text and it in "".join(text.split()))

    def compile(self):
        """Returns the status and what is printed, or fails with the reason."""
        for why in self.refusals():
            raise Wrong(why)
        opts = [it for it in self.words if it.startswith(("-m", "-std", "--sysroot=", "--target="))]
        found, _ = once([self.words[0], *opts], compiler)
        if "\n" not in found:
            raise Wrong(found)
        # an upgraded package changes sizes or times of the files that are not sent
        stats = [(it.st_size, it.st_mtime_ns) for it in map(os.stat, self.system)]
        key = found, self.system, stats, ENV.get("RECC_ACTION_SALT")
        salt = blake2b(repr(key).encode()).hexdigest()
        # a module file of GCC has digests of what it imports: the same one stays as old as it was
        before = [(it, os.stat(it).st_mtime_ns, read(it)) for it in self.outputs[1:]
                  if self.gcc and os.path.exists(it)]
        status, text = recc(self.words, self.inputs, self.outputs, RECC_ACTION_SALT=salt)
        if status > 99 or status and not ONLY:
            raise Wrong(text.split("\n")[0])
        for name, time, content in before:
            if read(name) == content:
                os.utime(name, ns=(time, time))
        if {"-MD", "-MMD"} & {*self.words}:
            output = self.outputs[0].replace("$", "$$").replace("#", "\\#").replace(" ", "\\ ")
            write(self.depfile, f"{output}: {self.listed}\n")  # the server's has its paths
        return status, text


def compiler(words):
    """Returns lines with digests of the compiler's files and macros, or why no server has them."""
    name = f"{STATE}/macros"  # they have its version, and its library's
    ask = [*words, "-x", "c++", "-dM", "-E", "-include", "cstddef", os.devnull, "-o"]
    status, text = recc([*ask, name], [], [name], RECC_SKIP_CACHE="1")
    if status:
        return f"{words[0]} fails on the server: " * (status < 100) + text.split("\n")[0]
    if read(name) != run([*ask, "-"])[0]:
        return f"the server's {words[0]} or its standard library is not the one here"
    script = 'sha256sum "$1" "$(command -v "$0")" "$("$0" -print-prog-name=cc1plus)"'
    return run(["sh", "-c", script, words[0], name])[0]


def once(key, find):
    """Returns what `find` makes of the key, once in a build, and whether it did so now."""
    build = os.getpgid(0)
    for field in 1, 19:  # this group's parent is Ninja, whose start tells builds apart
        stat = f"/proc/{build}/stat"  # not there if Ninja is outside of this container
        build = read(stat).split(")")[-1].split()[field] if os.path.exists(stat) else os.urandom(9)
    os.makedirs(STATE, exist_ok=True)
    name = f"{STATE}/{blake2b(repr(key).encode()).hexdigest()}"
    with Alone(STATE):
        before = read(name) if os.path.exists(name) else ""
        text = before if before.startswith(f"{build}\n") else f"{build}\n{find(key)}"
        write_if_changed(name, text)
    return text.partition("\n")[2], text != before


def run(words, stream=1, env=ENV):
    """Returns what a program prints on this stream, and its status."""
    ours, theirs = os.pipe()
    to = [(os.POSIX_SPAWN_OPEN, 2, os.devnull, os.O_WRONLY, 0),
          (os.POSIX_SPAWN_DUP2, theirs, stream)]
    child = os.posix_spawnp(words[0], words, env, file_actions=to)
    os.close(theirs)
    return read(ours), os.waitstatus_to_exitcode(os.waitpid(child, 0)[1])


def recc(words, inputs, outputs, **more):
    """Returns the status of a command on the server, and what it printed."""
    # with debug information the directory is in what is made, so others cannot share it
    debugs = any(it.startswith("-g") for it in words) and "-compilation-dir=" not in str(words)
    env = {"SOURCE_DATE_EPOCH": "1",  # GCC writes the time into a module file
           "RECC_WORKING_DIR_PREFIX": ROOT.strip("/") * debugs,
           "RECC_REMOTE_ENV_PATH": "/usr/local/bin:/usr/bin:/bin",
           "RECC_CACHE_UPLOAD_LOCAL_BUILD": "1", "RECC_IGNORE_FAILURE_RESULT": "1", **ENV,
           "RECC_ENV_TO_READ": "SOURCE_DATE_EPOCH", "RECC_FORCE_REMOTE": "1",
           "RECC_DEPS_OVERRIDE": ",".join(sorted(inputs)),
           "RECC_OUTPUT_FILES_OVERRIDE": ",".join(outputs), **more}
    # the kernel takes at most 131,071 bytes for a variable
    if len(os.fsencode(env["RECC_DEPS_OVERRIDE"])) > 100_000:
        if "RECC_CONFIG_DIRECTORY" in ENV:
            raise Wrong("more inputs than a variable takes, and RECC_CONFIG_DIRECTORY is set")
        env["RECC_CONFIG_DIRECTORY"] = folder = f"{outputs[0]}.recc"
        write(f"{folder}/recc.conf", f"deps_override={env.pop('RECC_DEPS_OVERRIDE')}\n")
    text, status = run(["recc", *words], 2, env)
    # lower ones are the compiler's. With a cache alone recc compiles itself, after some errors
    if status > 99 or "RECC_CACHE_ONLY" in ENV and "[ERROR]" in text:
        return 100, f"recc cannot use {ENV.get('RECC_SERVER', 'its server')}"
    return status, text
