"""dyncollate-remote: what a Remote Execution server compiles and what its cache has, for builds of
generate, CMake and Meson, with Clang and GCC. The server is BuildBox's or justbuild, if they are
installed, and otherwise `recc` in this directory, which runs each command in a sandbox that has
only the declared files."""
import json
import os
import random
import re
import shutil
import socket
import subprocess
import sys
import threading
import time
import unittest
from pathlib import Path

from tests import program
from tests.builds import EXAMPLES, TOP, Directory, edit, products
from tests.cmake import NINJA, put
from tests.run import output_of, run
from tests.side_by_side import side_by_side
from tests.tools import tool, version

load_tests = side_by_side
LAUNCHER = str(TOP / "adapters/remote/dyncollate-remote")
MESON = os.environ.get("MESON", "meson")
SAID = "dyncollate-remote: "
MOUNTS = ["/usr:/usr", "/usr/lib:/lib", "/usr/lib64:/lib64", "/usr/bin:/bin"]
N, B, S, D = ("src/base/number.cppm", "src/base/number.cpp", "src/math/sum.cpp",
              "src/math/detail.cppm")
LIBS = [N, B, D, "src/math/sum.cppm", S, "src/app/main.cpp"]


# ---- servers

class Sandbox:
    """The `recc` in this directory."""
    programs = ["bwrap"]

    def start(self, room):
        self.room = room
        (room / "bin").mkdir()
        os.symlink(TOP / "tests/recc", room / "bin/recc")
        (room / "server").mkdir()
        return {"PATH": f"{room}/bin:{os.environ['PATH']}", "RECC_SERVER": f"{room}/server"}

    def stop(self):
        os.rename(self.room / "server", self.room / "stopped")

    def again(self):
        os.rename(self.room / "stopped", self.room / "server")


class Casd:
    """buildbox-casd, which runs commands in sandboxes."""
    programs = ["recc", "buildbox-casd", "buildbox-run-bubblewrap"]

    def start(self, room):
        with socket.socket() as it:
            it.bind(("127.0.0.1", 0))
            self.address = it.getsockname()
        self.room = room
        self.again()
        return {"RECC_SERVER": "http://%s:%d" % self.address}

    def command(self):
        mounts = [f"--runner-arg=--ro-bind-mount={it}" for it in MOUNTS]
        return ["buildbox-casd", "--bind=%s:%d" % self.address, "--jobs=4",
                "--buildbox-run=/usr/bin/buildbox-run-bubblewrap", *mounts,
                "--runner-arg=--disable-localcas", self.room / "casd"]

    def again(self):
        with open(self.room / "log", "w", encoding="utf-8") as log:
            self.process = subprocess.Popen(self.command(), stdout=log, stderr=log)
        for _ in range(100):
            with socket.socket() as it:
                if not it.connect_ex(self.address):
                    break
            time.sleep(0.1)

    def stop(self):
        self.process.kill()
        self.process.wait()


class Just(Casd):
    """justbuild, which runs commands in directories."""
    programs = ["recc", "justbuild"]

    def command(self):
        return ["justbuild", "execute", "--compatible", "-i", self.address[0], "-p",
                str(self.address[1]), "--local-build-root", self.room / "just"]


class Elsewhere(Casd):
    """buildbox-casd in another network and with another root, as on another machine. It has this
    system's /usr, in which some files may be `changed`."""
    programs, changed = [*Casd.programs, "ip"], ()

    def start(self, room):
        self.room, number = room, os.getpid()
        self.name, net = f"server{number}", f"10.{number // 256 % 256}.{number % 256}"
        self.address = f"{net}.2", 50051
        # those of the test before, which disappear later otherwise
        run("ip", "netns", "delete", self.name)
        run("ip", "link", "delete", f"v{number}")
        for words in (f"netns add {self.name}",
                      f"link add v{number} type veth peer name eth0 netns {self.name}",
                      f"addr add {net}.1/30 dev v{number}", f"link set v{number} up",
                      f"-n {self.name} addr add {net}.2/30 dev eth0",
                      f"-n {self.name} link set eth0 up", f"-n {self.name} link set lo up"):
            output_of("ip", *words.split())
        (room / "casd").mkdir()
        self.again()
        return {"RECC_SERVER": "http://%s:%d" % self.address}

    def command(self):
        links = [word for it in ("bin", "lib", "lib64")
                 for word in ("--symlink", f"usr/{it}", f"/{it}")]
        return ["ip", "netns", "exec", self.name, "bwrap", "--die-with-parent", "--cap-add", "ALL",
                "--ro-bind", "/usr", "/usr", *self.changed, *links, "--bind", "/proc",
                "/proc", "--dev", "/dev", "--tmpfs", "/tmp", "--bind", self.room / "casd",
                self.room / "casd", *super().command()]


SERVERS = {"BySandbox": Sandbox, "ByCasd": Casd, "ByJust": Just, "Elsewhere": Elsewhere}
if shutil.which("recc"):
    SERVERS.pop("BySandbox")


class Remote(Directory):
    """A project that is built here, and one that a server compiles."""
    form, server, seconds = "clang", Sandbox, 60

    def setUp(self):
        self.tools = ["ninja", "clang", "scanner", "gcc"]
        super().setUp()
        missing = [it for it in self.server.programs if not shutil.which(it)]
        if missing:
            self.skipTest(f"{', '.join(missing)}: not there")
        self.room = Path.cwd()
        self.compiler = tool(self.form)
        self.log_folder = self.room / "logs"
        self.log_folder.mkdir()
        self.serves = self.server()
        self.local = self.environment
        self.remote = {**self.local, **self.serves.start(self.room), "RECC_LOG_LEVEL": "info",
                       "LAUNCHER": LAUNCHER, "RECC_LOG_DIRECTORY": str(self.log_folder)}
        if isinstance(self.serves, Casd):
            self.addCleanup(self.serves.stop)
        self.counted = [0, 0]

    def counts(self):
        """How many commands ran on the server since the last call, and how many results its cache
        had. A command asks the server for its compiler in each build."""
        text = "".join(it.read_text(errors="replace") for it in self.log_folder.iterdir()
                       if it.is_file() and not it.is_symlink())
        found = [text.count("Executing action remotely"), text.count("Action Cache hit")]
        before, self.counted = self.counted, found
        return found[0] - before[0], found[1] - before[1]

    def lay(self, example, name, environment):
        """Puts a copy of an example into a directory of this name."""
        self.environment = environment
        shutil.copytree(TOP / "examples" / example, self.room / name)
        self.enter(name, environment)
        self.generate(self.form)

    def enter(self, name, environment):
        os.chdir(self.room / name)
        self.environment = environment

    def both(self, example):
        self.lay(example, "here", self.local)
        self.lay(example, "there", self.remote)

    def built(self, name, environment):
        """Builds in a directory. Returns what is compiled, and the objects."""
        self.enter(name, environment)
        self.assertEqual(self.ninja()[0], 0, self.log)
        return (self.steps("COMPILE"),
                {name: text for name, text in products().items() if name.endswith(".o")})

    def builds(self, executed, hits, here=True):
        """Both are built: the same sources are compiled to the same objects,
        that many of them on the server."""
        compiled, objects = self.built("there", self.remote)
        self.assertNotIn(SAID, self.log)
        self.assertEqual(self.counts(), (executed + bool(compiled), hits), self.log)
        if here:
            self.assertEqual((compiled, objects), self.built("here", self.local))
        self.enter("there", self.remote)

    def clean(self):
        for name in "obj", "bmi", "scan", ".ninja_deps", ".ninja_log":
            shutil.rmtree(name, ignore_errors=True)
            if os.path.exists(name):
                os.remove(name)
        for name in Path("dd").glob("*.dd"):
            name.unlink()

    def edit(self, name, pattern, replacement):
        for it in "here", "there":
            edit(self.room / it / name, pattern, replacement)


# ---- what is compiled

class Examples(Remote):
    def from_scratch_and_from_the_cache(self, example, count):
        self.both(example)
        self.builds(count, 0)
        self.idle()
        self.clean()
        self.builds(0, count, here=False)
        (self.room / "far/from").mkdir(parents=True)
        shutil.copytree(self.room / "there", self.room / "far/from/there")
        self.enter("far/from/there", self.remote)
        self.clean()
        self.generate(self.form)
        self.assertEqual(self.ninja()[0], 0, self.log)
        self.assertEqual(self.counts(), (1, count))

    def test_single(self):
        self.from_scratch_and_from_the_cache("single", 7)

    def test_libs(self):
        self.from_scratch_and_from_the_cache("libs", 6)

    def test_std(self):
        (self.room / "list").mkdir()
        status, printed = run(sys.executable, TOP / "examples/generate", self.form,
                              TOP / "examples/std/targets", cwd="list", env=self.local)
        if status:
            self.skipTest(printed.strip())
        self.from_scratch_and_from_the_cache("std", 5)

    def stays_the_same(self):
        """Whether a module file does after an edit that does not matter. With justbuild, it has
        another directory each time."""
        return self.form == "gcc" and self.server is not Just

    def test_edits(self):
        """Objects are those of a local build. What was there before comes from the cache."""
        self.both("libs")
        self.builds(6, 0)
        for name, old, new, count in (
                [(N, "int value;", "int value; int pad = 7;", 6),
                 (D, "plus\\(number, number\\)", "plus(plus(number, number), number)",
                  1 if self.stays_the_same() else 4),
                 (B, "left.value \\+ right.value", "left.value + right.value + 1", 1),
                 (N, "int value;", "int pad = 0, value;", 6)]):
            before = (self.room / "here" / name).read_text()
            self.edit(name, old, new)
            compiled, objects = self.built("there", self.remote)
            executed, hits = self.counts()
            self.assertEqual((len(compiled), executed + hits), (count, count + 1), self.log)
            self.assertGreater(executed, 1)
            self.assertEqual(objects, self.built("here", self.local)[1])
            for it in "here", "there":
                (self.room / it / name).write_text(before)
            objects = self.built("there", self.remote)[1]
            self.assertEqual((self.counts(), objects),
                             ((1, count), self.built("here", self.local)[1]))

    def test_only_a_cache(self):
        if self.server is Sandbox:
            self.skipTest("the sandbox is a server")
        self.remote["RECC_CACHE_ONLY"] = "1"
        self.both("libs")
        # justbuild takes no results from clients
        for hits in 0, 0 if self.server is Just else 6:
            objects = self.built("there", self.remote)[1]
            self.assertNotIn(SAID, self.log)
            self.clean()
            self.assertEqual((self.counts(), objects),
                             ((0, hits), self.built("here", self.local)[1]))

    def test_an_error(self):
        """It is the compiler's, here."""
        self.both("libs")
        self.builds(6, 0)
        self.edit(S, "plus\\(", "minus(")
        for name, environment in ("there", self.remote), ("here", self.local):
            self.enter(name, environment)
            self.assertEqual(self.ninja()[0], 1)
            self.assertRegex(self.log, "sum.cpp:.* error: .*minus")
            self.assertNotIn(SAID, self.log)
        self.edit(S, "minus\\(", "plus(")
        self.counts()
        self.builds(0, 1)

    def test_a_header(self):
        """Its edit is seen after an execution, and after a hit."""
        self.both("libs")
        for it in "here", "there":
            put(self.room / it / "src/base/value.h", "#define VALUE 0\n")
        self.edit(B, "^module number;", 'module;\n#include "value.h"\nmodule number;')
        self.edit(B, "left.value", "VALUE + left.value")
        self.builds(6, 0)
        self.edit("src/base/value.h", "VALUE 0", "VALUE 1")
        self.builds(1, 0)
        self.clean()
        self.builds(0, 6, here=False)
        self.edit("src/base/value.h", "VALUE 1", "VALUE 2")
        self.builds(1, 0)

    def test_a_comment_in_an_interface(self):
        """GCC writes the same module file, which stays as old as it was,
        so that nothing else is compiled."""
        self.both("libs")
        self.builds(6, 0)
        self.edit(N, "^export module number;", "export module number; // a comment")
        compiled, objects = self.built("there", self.remote)
        self.assertEqual(compiled, [N] if self.stays_the_same() else sorted(LIBS))
        self.idle()
        self.assertEqual(objects, self.built("here", self.local)[1])
        self.edit(N, "int value;", "int value; int pad = 7;")
        self.assertEqual(self.built("there", self.remote), self.built("here", self.local))

    def test_debug_information(self):
        """It has the directory, so the objects are those of a local build in this directory."""
        if self.server is Just:
            self.skipTest("justbuild runs commands in a directory of its own")
        self.lay("libs", "there", self.remote)
        edit("targets", "\\.cpp( |$)", r".cpp -g\1")
        self.generate(self.form)
        objects = self.built("there", self.remote)[1]
        self.assertEqual(self.counts(), (7, 0))
        self.environment = self.local
        self.generate(self.form)
        self.assertEqual(objects, self.built("there", self.local)[1])

    def test_another_standard_library(self):
        """Nothing is sent to a server whose /usr has another one."""
        if self.server is not Elsewhere:
            self.skipTest("the server has this system's /usr")
        self.lay("libs", "there", self.remote)
        listed = output_of(self.compiler, "-x", "c++", "-M", "-include", "cstddef", "/dev/null")
        header = next(it for it in listed.split() if it.endswith("/c++config.h"))
        text, count = re.subn(r"(define __GLIBCXX__) \d+", r"\1 20200101", Path(header).read_text())
        self.assertEqual(count, 1)
        put(self.room / "config.h", text)
        name = os.path.basename(self.compiler)
        for changed, lines, counts in (
                (["--ro-bind", self.room / "config.h", header],
                 [f"the server's {name} or its standard library is not the one here"],
                 (1, 0)), ((), [], (7, 0))):
            self.serves.stop()
            self.serves.changed = changed
            self.serves.again()
            self.clean()
            self.assertEqual(self.ninja()[0], 0, self.log)
            found = [it.partition("here: ")[2].replace(self.compiler, name)
                     for it in self.log.splitlines() if SAID in it]
            self.assertEqual((found, self.counts()), (lines, counts), self.log)

    def test_a_warning_that_quotes_a_module(self):
        self.lay("libs", "there", self.remote)
        edit(N, "^export struct",
             "export [[deprecated]] inline int old() { return 0; }\nexport struct")
        edit(S, "^module sum;", "module sum;\nimport number;\nint use() { return old(); }")
        self.assertEqual(self.ninja()[0], 0, self.log)
        self.assertIn("deprecated", self.log)
        self.assertNotIn(SAID, self.log)

    def test_two_clients(self):
        """20 random edits of a project that two clients build, one of them in another directory."""
        seed = int(os.environ.get("RANDOM_SEED", random.randrange(10**6)))
        choices = random.Random(seed)
        self.both("libs")
        self.lay("libs", "far", self.remote)
        edits = [(N, "int .*;$", ["int value;", "int value; int pad = 7;", "int pad = 0, value;"]),
                 (N, "^export module number;.*",
                  ["export module number;", "export module number; // x",
                   "export module number;  // y"]),
                 (B, "return .*?;",
                  ["return {left.value + right.value};", "return {left.value + right.value + 1};",
                   "return {right.value + left.value};"]),
                 (D, "return .*?;",
                  ["return plus(number, number);", "return plus(plus(number, number), number);"])]
        hits = 0
        for number in range(20):
            name, pattern, texts = choices.choice(edits)
            text = choices.choice(texts)
            for it in "here", "there", "far":
                edit(self.room / it / name, pattern, text)
            what = f"RANDOM_SEED={seed}, edit {number}: {name}: {text}"
            found = self.built("here", self.local)[1]
            clients = ["there", "far"]
            choices.shuffle(clients)
            for it in clients[:choices.choice([1, 2])] if number < 19 else clients:
                self.assertEqual(self.built(it, self.remote)[1], found, what)
                self.assertNotIn(SAID, self.log)
            hits += self.counts()[1]
        self.assertGreater(hits, 20)


class Failures(Remote):
    """Servers that stop or are others."""

    def test_no_server(self):
        self.both("libs")
        self.serves.stop()
        compiled, objects = self.built("there", self.remote)
        lines = [it for it in self.log.splitlines() if SAID in it]
        self.assertEqual(lines, [f"{SAID}{lines[0].split()[1]} is compiled here: recc cannot use "
                                 f"{self.remote['RECC_SERVER']}"])
        self.assertEqual((compiled, objects), self.built("here", self.local))
        self.enter("there", {**self.remote, "DYNCOLLATE_REMOTE": "only"})
        edit(B, "left", "left ")
        self.assertEqual(self.ninja()[0], 1)
        self.assertIn(f"{SAID}obj/base/{B}.o: recc cannot use {self.remote['RECC_SERVER']}",
                      self.log)
        self.serves.again()
        self.assertEqual(self.built("there", self.environment)[1].keys(), objects.keys())

    def test_a_server_that_is_killed(self):
        """The build continues, and says so once. The next one is right."""
        self.both("single")
        stopped = threading.Thread(target=self.stop_after, args=[2])
        stopped.start()
        compiled, objects = self.built("there", self.remote)
        stopped.join()
        self.assertEqual(self.log.count(SAID), 1, self.log)
        self.assertEqual((compiled, objects), self.built("here", self.local))
        self.serves.again()
        self.counts()
        self.edit("src/units.cppm", "SCALE \\*", "2 * SCALE *")
        compiled, objects = self.built("there", self.remote)
        self.assertEqual((self.counts()[0] > 1, self.log.count(SAID)), (True, 0))
        self.assertEqual((compiled, objects), self.built("here", self.local))

    def stop_after(self, count):
        for _ in range(600):
            text = "".join(it.read_text(errors="replace") for it in self.log_folder.iterdir()
                           if it.is_file() and not it.is_symlink())
            if text.count("Executing action remotely") > count:
                break
            time.sleep(0.05)
        self.serves.stop()

    def test_a_compiler_that_is_exchanged(self):
        """Nothing that another compiler made is taken,
        whether the client or the server has it first."""
        if self.server is not Sandbox:
            self.skipTest("the server has the compilers of this system")
        self.lay("libs", "there", self.remote)
        self.exchange(False, False)
        self.assertEqual(self.ninja()[0], 0, self.log)
        self.counts()
        for client, server in (True, False), (False, True), (True, True):
            self.exchange(client, server)
            self.clean()
            self.assertEqual(self.ninja()[0], 0, self.log)
            if client and server:
                self.assertEqual(self.counts(), (7, 0))
            else:
                lines = [it.partition("here: ")[2] for it in self.log.splitlines() if SAID in it]
                name = os.path.basename(self.compiler)
                self.assertEqual(
                    lines, [f"the server's {name} or its standard library is not the one here"])
                self.assertEqual(self.counts(), (1, 0))
        self.exchange(False, False)
        self.clean()
        self.assertEqual(self.ninja()[0], 0, self.log)
        self.assertEqual(self.counts(), (1, 6))

    def compiled(self, *words, **more):
        """Compiles a.cpp on the server. Returns the object, how many commands ran there,
        and the hits."""
        shutil.rmtree(".dyncollate-remote", ignore_errors=True)
        status, printed = run(LAUNCHER, *words, "-c", "a.cpp", "-o", "a.o",
                              env={**self.remote, "DYNCOLLATE_REMOTE": "only", **more})
        self.assertEqual((status, printed), (0, ""))
        return Path("a.o").read_bytes(), *self.counts()

    def test_a_compiler_with_the_same_macros(self):
        """Its bytes are others, as after a mended bug, or those of the program that GCC calls."""
        if self.server is not Sandbox:
            self.skipTest("recc sends the path that a compiler has here")
        put("a.cpp", "int main() {}\n")
        name, made = os.path.basename(self.compiler), []
        for text, proper in ("1", "1"), ("2", "1"), ("2", "2"), ("1", "1"):
            put(self.room / "proper", proper)
            put(self.room / "tools" / name, f"""#!/bin/sh
                # {text}
                if [ "$1" = -print-prog-name=cc1plus ]; then echo {self.room}/proper
                else exec {self.compiler} "$@"; fi""")
            (self.room / "tools" / name).chmod(0o755)
            made.append(self.compiled(name, PATH=f"{self.room}/tools:{self.remote['PATH']}")[1:])
        self.assertEqual(made, [(2, 0), (2, 0), (2, 0), (1, 1)])

    def test_a_header_that_is_not_sent(self):
        """A package brings another one, with another size, or of another time."""
        header = Path(f"/usr/local/include/dyncollate-{os.getpid()}.h")
        if not os.access(header.parent, os.W_OK):
            self.skipTest("no directory for a header that the server has")
        self.addCleanup(header.unlink)
        put("a.cpp", f"#include <{header.name}>\nint value = VALUE;\n")
        made = []
        for text, at in (("#define VALUE 10\n", 1), ("#define VALUE 9\n", 1),
                         ("#define VALUE 11\n", 2), ("#define VALUE 10\n", 1)):
            header.write_text(text)
            os.utime(header, (at, at))
            made.append(self.compiled(self.compiler))
        self.assertEqual([it[1:] for it in made], [(2, 0), (2, 0), (2, 0), (1, 1)])
        self.assertEqual((made[0][0], len({it[0] for it in made})), (made[3][0], 3))

    def test_a_name_of_another_compiler(self):
        """A name is first one compiler, and then another one, here and on the server."""
        if self.server is Sandbox or not os.access("/usr/local/bin", os.W_OK):
            self.skipTest("no directory for a compiler that the server has")
        put("a.cpp", "int main() {}\n")
        name, made = f"/usr/local/bin/c++-{os.getpid()}", []
        self.addCleanup(os.remove, name)
        os.symlink("none", name)
        for it in ["clang", "gcc"] * 2:
            os.remove(name)
            os.symlink(tool(it), name)
            made.append(self.compiled(name))
        self.assertEqual([it[1:] for it in made], [(2, 0), (2, 0), (1, 1), (1, 1)])
        objects = [it[0] for it in made]
        self.assertEqual((objects[:2], objects[0] == objects[1]), (objects[2:], False))

    def test_a_compiler_with_the_name_of_its_language(self):
        if not os.access("/usr/local/bin", os.W_OK):
            self.skipTest("no directory for a compiler that the server has")
        folder = f"/usr/local/bin/dyncollate-{os.getpid()}"
        os.mkdir(folder)
        self.addCleanup(shutil.rmtree, folder)
        os.symlink(tool(self.form), f"{folder}/c++")
        put("a.cpp", "int main() {}\n")
        paths = {"PATH": f"{folder}:{self.remote['PATH']}",
                 "RECC_REMOTE_ENV_PATH": f"{folder}:/usr/bin:/bin"}
        self.assertEqual(self.compiled("c++", "-x", "c++", **paths)[1:], (2, 0))

    def test_a_container_without_ninja(self):
        """Builds look alike there, so each compilation asks for the compiler."""
        put("a.cpp", "int main() {}\n")
        inside = ["unshare", "--pid", "--fork", "--mount-proc"]
        if run(*inside, "true")[0]:
            self.skipTest("no right to make a container")
        for counts in (2, 0), (1, 1), (1, 1):
            status, printed = run(*inside, LAUNCHER, self.compiler, "-c", "a.cpp", "-o", "a.o",
                                  env={**self.remote, "DYNCOLLATE_REMOTE": "only"})
            self.assertEqual((status, printed, self.counts()), (0, "", counts))

    def exchange(self, client, server):
        """Another compiler is one with another macro."""
        name = os.path.basename(self.compiler)
        put(self.room / "other",
            f'#!/bin/sh\nexec {self.compiler} -DOTHER "$@"\n' if client else "")
        put(self.room / "server/option", "-DOTHER" * server)
        shutil.rmtree(self.room / "tools", ignore_errors=True)
        (self.room / "tools").mkdir()
        if client:
            shutil.copy(self.room / "other", self.room / "tools" / name)
            (self.room / "tools" / name).chmod(0o755)
        self.environment = {**self.remote, self.form.upper(): name,
                            "PATH": f"{self.room}/tools:{self.remote['PATH']}"}
        self.generate(self.form)


class CompiledHere(Remote):
    """What is not sent."""

    def stays(self, why, *words, source="a.cpp", text="int main() {}\n", **more):
        """A compilation is made here, which is said once in a build, or it is an error."""
        put(self.room / source, text)
        shutil.rmtree(".dyncollate-remote", ignore_errors=True)
        compiler = more.pop("compiler", self.compiler)
        command = [LAUNCHER, compiler, *words, *["-o", "a.o"][:2 * ("-o" not in words)], "-c",
                   source]
        for said in f"{SAID}a.o is compiled here: {why}\n", "":
            status, printed = run(*command, env={**self.remote, **more})
            self.assertEqual((status, printed), (0, said))
            os.remove("a.o")
        status, printed = run(*command, env={**self.remote, **more, "DYNCOLLATE_REMOTE": "only"})
        self.assertEqual((status, printed, os.path.exists("a.o")),
                         (1, f"{SAID}a.o: {why}\n", False))

    def test_options(self):
        put("x", "-DX=1")
        options = ["@x", "-gsplit-dwarf", "-save-temps", "-march=native", "-fprofile-generate"]
        options += {"clang": ["-ftime-trace", "-fsave-optimization-record",
                              "-fmodule-output=x.pcm"],
                    "gcc": ["-fstack-usage", "-fdump-tree-original", "-fmodules-ts",
                            "-Wp,-MD,x.d"]}[self.form]
        for option in options:
            self.stays(f"{option} may concern other files", option,
                       *["-Wno-unused-command-line-argument"] * (self.form == "clang"))
        self.stays("CPATH may concern other files", CPATH="/tmp")

    def test_commands(self):
        put("a.cpp", "int main() {}\n")
        unlisted = "-o names no object, or no depfile lists what it reads"
        for words, why in ((["-c", "a.cpp"], f"{SAID}a.cpp: {unlisted}\n"),
                           (["-o", "a.o", "-c"], f"{SAID}a.o: {unlisted}\n"),
                           (["a.cpp", "-o", "a.o", "-c"], "")):
            status, printed = run(LAUNCHER, self.compiler, *words,
                                  env={**self.remote, "DYNCOLLATE_REMOTE": "only"})
            self.assertEqual((status, printed), (bool(why), why))
        put("a.o.modmap", "")
        words = {"clang": ["-std=c++20", "@a.o.modmap"],
                 "gcc": ["-std=c++20", "-fmodules-ts", "-fmodule-mapper=a.o.modmap"]}[self.form]
        if self.form == "gcc":
            self.stays("[Errno 2] No such file or directory: 'a.o.ddi'", *words)
        put("a.o.ddi", "{}")
        put("a.o.ddi.d", "")
        self.stays(unlisted, *words)

    def test_a_depfile_without_a_name(self):
        """It is next to the object, as compilers have it."""
        put("in/value.h", "")
        put("a.cpp", '#include "in/value.h"\nint main() {}\n')
        for option in "-MD", "-MMD":
            command = self.compiler, option, "-c", "a.cpp", "-o", "in/a.cpp.o"
            found = []
            for words, more in (command, {}), ((LAUNCHER, *command), {"DYNCOLLATE_REMOTE": "only"}):
                self.assertEqual(run(*words, env={**self.remote, **more}), (0, ""))
                target, names = Path("in/a.cpp.d").read_text().replace("\\\n", "").split(":")
                found.append((target, {it for it in names.split() if not it.startswith("/usr/")}))
                os.remove("in/a.cpp.d")
            self.assertEqual(found, [("in/a.cpp.o", {"a.cpp", "in/value.h"})] * 2)

    def test_an_installed_launcher(self):
        """Its modules are in another directory,
        and their compiled forms next to what the build has found out."""
        (self.room / "prefix/bin").mkdir(parents=True)
        shutil.copy(LAUNCHER, self.room / "prefix/bin")
        (self.room / "prefix/share/dyncollate").mkdir(parents=True)
        for it in "adapter_files.py", "remote/remote_compile.py":
            shutil.copy(TOP / "adapters" / it, self.room / "prefix/share/dyncollate")
        before = sorted((self.room / "prefix").rglob("*"))
        put("a.cpp", "int main() {}\n")
        for counts in (2, 0), (0, 1):
            status, printed = run("prefix/bin/dyncollate-remote", self.compiler, "-c", "a.cpp",
                                  "-o", "a.o", env={**self.remote, "DYNCOLLATE_REMOTE": "only"})
            self.assertEqual((status, printed, self.counts()), (0, "", counts))
        self.assertEqual(sorted((self.room / "prefix").rglob("*")), before)
        self.assertEqual(len([*Path(".dyncollate-remote/python").rglob("*.pyc")]), 2)

    def test_a_compiler_that_fails_there(self):
        """The line has its message, also if it is not UTF-8."""
        put("a.cpp", "int main() {}\n")
        put(self.room / "server/option", "-no-such-option")
        name = os.fsdecode(b"\xff/") + os.path.basename(self.compiler)
        os.mkdir(os.path.dirname(name))
        os.symlink(self.compiler, name)
        for compiler, message in (self.compiler, "no-such-option"), (name, "No such file"):
            said = (rf"{re.escape(os.fsencode(compiler).decode(errors='replace'))} fails on the "
                    rf"server: .*{message}.*\n")
            for only in "", "only", "only":
                status, printed = run(LAUNCHER, compiler, "-c", "a.cpp", "-o", "a.o",
                                      env={**self.remote, "DYNCOLLATE_REMOTE": only})
                self.assertEqual(status, bool(only))
                self.assertRegex(printed,
                                 rf"\A{SAID}a.o{'' if only else ' is compiled here'}: {said}\Z")

    def test_names(self):
        unfit = "is not below RECC_PROJECT_ROOT, or recc cannot have its name"
        self.stays(f"a,b.cpp {unfit}", source="a,b.cpp")
        self.stays(f"a\ufffd.cpp {unfit}", source=os.fsdecode(b"a\xff.cpp"))
        os.symlink(self.compiler, "other-name")
        self.stays("recc does not know the compiler ./other-name", compiler="./other-name")
        (self.room / "in").mkdir()
        os.chdir("in")
        source = str(self.room / "a.cpp")
        self.stays(f"{source} {unfit}", source=source)

    def test_what_a_source_has(self):
        self.stays("__DATE__ in a.cpp", text="const char *date = __DATE__;\n")
        self.stays("__TIMESTAMP__ in a.cpp", text="const char *date = __TIMESTAMP__;\n")
        self.stays(".incbin in a.cpp", text='asm(".incbin \\"a.cpp\\"");\n')

    def test_what_a_source_looks_for(self):
        """Depfiles of scans and of GCC do not list it. That of Clang's -M does."""
        texts = {"__has_include": '#if __has_include("x")\n#endif',
                 "__has_embed": '#if __has_embed("x")\n#endif', "#embed": '# \tembed "x"'}
        for what, text in texts.items():
            if self.form == "gcc":
                self.stays(f"{what} in a.cpp", text=f"#if 0\n{text}\n#endif\nint main() {{}}\n")
        put("x", "")
        put("a.cpp", '#if __has_include("x")\nint x;\n#endif\n')
        if self.form == "clang":
            found = []
            for words in [], [LAUNCHER]:
                self.assertEqual(run(*words, self.compiler, "-c", "a.cpp", "-o", "a.o",
                                     env={**self.remote, "DYNCOLLATE_REMOTE": "only"}), (0, ""))
                found.append(Path("a.o").read_bytes())
            self.assertEqual(found[0], found[1])
        for name, text in ("a.o.modmap", ""), ("a.o.ddi", "{}"), ("a.o.ddi.d", "a.o: a.cpp\n"):
            put(name, text)
        words = {"clang": ["-std=c++20", "@a.o.modmap"],
                 "gcc": ["-std=c++20", "-fmodules-ts", "-fmodule-mapper=a.o.modmap"]}[self.form]
        for what, text in texts.items():
            self.stays(f"{what} in a.cpp", *words, text=f"#if 0\n{text}\n#endif\nint main() {{}}\n")

    def test_what_the_server_has(self):
        """DYNCOLLATE_REMOTE_SYSTEM names its directories, in place of /usr/.
        Headers below them are not sent."""
        put("sdk/value.h", "#define VALUE 3\n")
        put("a.cpp", '#include "value.h"\nint value = VALUE;\n')
        put("b.cpp", "#include <cstddef>\n")
        for source, directories, printed in [
                ("a.cpp", "/usr/", "^$"),
                ("a.cpp", f"/usr/:{self.room}/sdk/", "a.cpp:1:.*value.h.*(not found|No such file)"),
                ("b.cpp", "/usr/", "^$"),
                ("b.cpp", f"{self.room}/sdk/", "/usr/.* is not below RECC_PROJECT_ROOT")]:
            status, log = run(LAUNCHER, self.compiler, f"-I{self.room}/sdk", "-c", source, "-o",
                              "a.o", env={**self.remote, "DYNCOLLATE_REMOTE": "only",
                                          "DYNCOLLATE_REMOTE_SYSTEM": directories})
            self.assertRegex(log, printed)
            self.assertEqual(status, printed != "^$")

    def test_long_lists(self):
        """More than a variable takes is in a file, unless the environment names such a file."""
        names = [f"{number:03}{'a' * 240}.h" for number in range(450)]
        for name in names:
            put(self.room / name, "")
        text = "".join(f'#include "{it}"\n' for it in names) + "int main() {}\n"
        put(self.room / "b.cpp", text)
        for count in (2, 0), (0, 1):
            status, printed = run(LAUNCHER, self.compiler, "-c", "b.cpp", "-o", "b.o",
                                  env={**self.remote, "DYNCOLLATE_REMOTE": "only"})
            self.assertEqual((status, printed, self.counts()), (0, "", count))
        self.stays("more inputs than a variable takes, and RECC_CONFIG_DIRECTORY is set", text=text,
                   RECC_CONFIG_DIRECTORY="/etc")

    def test_once_in_a_build(self):
        os.symlink(self.compiler, "other-name")
        self.remote[self.form.upper()] = str(self.room / "other-name")
        self.lay("libs", "there", self.remote)
        for name in N, B:
            compiled, _ = self.built("there", self.remote)
            self.assertIn(name, compiled)
            self.assertEqual(self.log.count(
                f"is compiled here: recc does not know the compiler {self.room}/other-name\n"), 1,
                             self.log)
            edit(B, "left", "left ")

    def test_other_commands(self):
        """They are run as they are."""
        status, printed = run(LAUNCHER, self.compiler, "--version", env=self.remote)
        self.assertEqual((status, printed), run(self.compiler, "--version"))
        put(self.room / "a.cpp", "int main() { return 3; }\n")
        self.assertEqual(run(LAUNCHER, self.compiler, "a.cpp", "-o", "a", env=self.remote), (0, ""))
        self.assertEqual((run("./a"), self.counts()), ((3, ""), (0, 0)))
        self.assertEqual(run(LAUNCHER)[0], 1)


class Maps(Remote):
    """Each file of each map."""

    def test_a_file_that_is_missing(self):
        """Without it, a compilation on the server fails and names it.
        GCC does not read a partition of another module."""
        count = 0
        for example in EXAMPLES:
            self.lay(example, example, self.remote)
            self.built(example, self.remote)
            statements = "".join(it.read_text() for it in Path("dd").glob("*.dd"))
            count += self.without_each(statements)
        self.assertGreater(count, 10)

    def without_each(self, statements):
        count = 0
        for one in json.loads(run(tool("ninja"), "-t", "compdb", "compile")[1]):
            own, needed = (
                re.search(rf"^build {re.escape(one['output'])}(?: \| (\S+))?: dyndep(?: \| (.*))?$",
                          statements, re.M).groups())
            listed = re.findall(r"\S+\.[gp]cm$",
                                Path(one["output"] + ".modmap").read_text().replace("=", " "), re.M)
            for name in {*listed} - {own}:
                environment = {**self.remote, "WITHOUT": name, "DYNCOLLATE_REMOTE": "only",
                               "RECC_SKIP_CACHE": "1"}
                status, printed = run("sh", "-c", one["command"], env=environment)
                if (self.form == "gcc" and name not in (needed or "").split(" ")
                    and "-" in os.path.basename(name)):
                    self.assertEqual(status, 0, printed)
                else:
                    self.assertNotEqual(status, 0, (one["output"], name))
                    self.assertIn(os.path.basename(name), printed)
                    count += 1
        return count


# ---- other builds

class Others(Remote):
    """Builds of CMake, of GN and of Meson."""
    seconds = 120

    def from_scratch(self, prints, configure, compiling, variables):
        """A project is built here and there, then again from the cache."""
        found = {}
        for name, environment in (("here", {**self.local, **variables}),
                                  ("there", {**self.remote, **variables,
                                             "RECC_PROJECT_ROOT": str(self.room / "there")})):
            os.chdir(self.room / name)
            status, log = run(*configure(environment is not self.local and name == "there"),
                              env=environment)
            self.assertEqual(status, 0, log)
            os.chdir("build")
            self.environment = environment
            self.counts()
            self.assertEqual(self.ninja()[0], 0, self.log)
            self.assertEqual(run("./app"), (0, prints))
            self.assertNotIn(SAID, self.log)
            found[name] = {str(it): it.read_bytes() for it in Path().rglob("*.o")
                           if "meson-private" not in it.parts}
        count = len(re.findall(compiling, self.log))
        self.assertEqual((self.counts(), len(found["there"])), ((count + 1, 0), count), self.log)
        self.assertEqual(found["here"], found["there"])
        for name in found["there"]:
            os.remove(name)
        self.assertEqual(self.ninja()[0], 0, self.log)
        self.assertEqual(self.counts(), (1, count), self.log)
        self.idle()

    def lay_files(self, files):
        for name in "here", "there":
            for it, text in files.items():
                put(self.room / name / it, text)

    def test_cmake(self):
        from tests.cmake_builds import PROJECT, cmake
        if not cmake() or self.form == "gcc" and version("gcc") < (14,):
            self.skipTest("CMake 3.28, or a compiler that it can scan: not there")
        self.lay_files({**PROJECT, "CMakeLists.txt": PROJECT["CMakeLists.txt"]
                        + 'include_directories("${CMAKE_SOURCE_DIR}/include")\n',
                        "include/value.h": "#define VALUE 0\n",
                        "plain.cpp": '#include "value.h"\nint plain() { return VALUE; }\n'})
        self.from_scratch(
            "", lambda remote: [cmake(), "-G", "Ninja", "-B", "build",
                                f"-DCMAKE_CXX_COMPILER={self.compiler}",
                                f"-DCMAKE_MAKE_PROGRAM={NINJA}",
                                *[f"-DCMAKE_CXX_COMPILER_LAUNCHER={LAUNCHER}"] * remote],
            "Building CXX object", {})

    def test_gn(self):
        from tests.gn import ADAPTER, DATA
        if not shutil.which("gn"):
            self.skipTest("generate-ninja: not there")
        for name in "here", "there":
            shutil.copytree(DATA, self.room / name)
        compilers = [self.compiler, f"{LAUNCHER} {self.compiler}"]
        self.from_scratch("303 12 9\n", lambda remote: ["sh", "-ec", f"""
            gn gen -q build --args='cxx="{compilers[remote]}"'
            {sys.executable} {ADAPTER} adopt build"""],
                          r"\] CXX ", {"DYNCOLLATE_NINJA": tool("ninja")})

    def test_meson(self):
        from tests.meson import DATA, meson
        if not meson():
            self.skipTest("meson: not there")
        for name in "here", "there":
            shutil.copytree(DATA / "generated", self.room / name)
        self.from_scratch(
            "35 21 1 13\n", lambda remote: ["env",
                                            f"CXX={(LAUNCHER + ' ') * remote}{self.compiler}",
                                            *meson(), "setup", "build", "-Dbuildtype=plain"],
            r"Compiling C\+\+ object", {"NINJA": NINJA, "DYNCOLLATE_NINJA": tool("ninja")})


@unittest.skipUnless(shutil.which("buildbox-casd") and shutil.which("clang++-21")
                     and shutil.which("g++-15"), "buildbox, clang-21 or g++-15: not there")
class Guide(Directory):
    """The commands of docs/GUIDE.md with what is installed, except for the first one,
    which installs packages."""

    def setUp(self):
        super().setUp()
        for name in "bin", "share":
            os.mkdir(name)
        os.symlink(program.PROGRAM, "bin/dyncollate")
        shutil.copy(LAUNCHER, "bin")
        shutil.copytree(TOP / "examples", "share/dyncollate/examples")
        for it in (TOP / "adapters").rglob("*.py"):
            shutil.copy(it, "share/dyncollate")
        named = {"CLANG", "GCC", "SCANNER", "DYNCOLLATE"}
        self.environment = {name: text for name, text in self.environment.items()
                            if name not in named}
        self.environment["PATH"] = f"{os.getcwd()}/bin:{self.environment['PATH']}"

    def commands(self, *changes):
        section = (TOP / "docs/GUIDE.md").read_text().partition(
            "\n## Builds on more than one machine, and caches\n")[2]
        install, _, commands = (re.search(r"^```sh\n(.*?)^```$", section,
                                          re.M | re.S)[1].partition("\n"))
        self.assertIn("apt-get install", install)
        ready = "until (: > /dev/tcp/127.0.0.1/50051); do sleep 0.1; done 2> /dev/null\n"
        for old, new in (("/var/tmp/casd", f"{os.getcwd()}/casd"),
                         ("casd.log &\n", f"casd.log &\n{ready}"), *changes):
            self.assertIn(old, commands)
            commands = commands.replace(old, new)
        status, log = run("bash", "-ec", f"trap 'kill %1' EXIT\n{commands}", env=self.environment,
                          cwd="share/dyncollate")
        self.assertEqual((status, log.splitlines()[-1]),
                         (0, re.search(r"The last line prints (\d+)", section)[1]), log)
        self.assertNotIn(SAID, log)

    def test_the_commands(self):
        """They have one address, so Clang's and GCC's come one after the other."""
        self.commands()
        shutil.rmtree("share/dyncollate/examples/libs/build")
        self.commands(("CLANG=clang++-21 SCANNER=clang-scan-deps-21", "GCC=g++-15"),
                      ("generate clang", "generate gcc"))


for name_, server_ in SERVERS.items():
    for kind in Examples, Failures, CompiledHere, Maps, Others:
        if server_ is Sandbox or kind in (Examples, Others) or server_ is Casd and kind is Failures:
            for form_ in "clang", "gcc":
                title = f"{kind.__name__}{name_}With{form_.title()}"
                globals()[title] = type(title, (kind,), {"form": form_, "server": server_})
del Remote, Examples, Failures, CompiledHere, Maps, Others, kind

if __name__ == "__main__":
    unittest.main()
