"""What ./install puts where, from an archive of ./release and from the sources."""
import os
import re
import shlex
import shutil
import tempfile
import unittest
from pathlib import Path

from tests import embedded, program, releases
from tests.files import DATA, TARGETS
from tests.releases import ENVIRONMENT, EXAMPLE, TOP, VERSION, call
from tests.run import InRoom, run_at_once

NEEDS_LIBRARY = True

REAL = f"libdyncollate.so.{VERSION}"
# what ./install puts below its prefix, and examples. LIB is the directory of the libraries.
INSTALLED = ["bin/dyncollate",
             *(f"bin/dyncollate-{it}"
               for it in ("cmake", "explain", "gn", "meson", "ninja", "remote")),
             "include/dyncollate.h", "include/dyncollate.hpp",
             *(f"LIB/{it}"
               for it in ("libdyncollate.a", REAL, "libdyncollate.so.1", "libdyncollate.so",
                          "pkgconfig/dyncollate.pc", "cmake/dyncollate/dyncollate-config.cmake",
                          "cmake/dyncollate/dyncollate-config-version.cmake")),
             *(f"share/man/man1/dyncollate{it}.1"
               for it in ("", "-cmake", "-explain", "-gn", "-meson", "-ninja")),
             "share/man/man3/dyncollate.3",
             *(f"share/{it}" for name in ("dyncollate", "dyncollate-cmake", "dyncollate-explain",
                                          "dyncollate-gn", "dyncollate-meson")
               for it in (f"bash-completion/completions/{name}",
                          f"fish/vendor_completions.d/{name}.fish")),
             "share/zsh/site-functions/_dyncollate",
             *(f"share/doc/dyncollate/{it}.md" for it in ("CHANGELOG", "FORMATS", "GUIDE")),
             *(f"share/dyncollate/cmake_{it}.py"
               for it in ("adopt", "exports", "files", "ninja", "reached", "step")),
             *(f"share/dyncollate/ninja_{it}.py"
               for it in ("adopt", "files", "group", "main", "statements", "std", "steps",
                          "targets", "why")),
             *(f"share/dyncollate/{it}.py"
               for it in ("adapter_files", "compilers", "gn_generator", "meson_generator",
                          "meson_hook", "remote_compile")),
             *(f"share/dyncollate/{it}"
               for it in ("VERSION", "dyncollate.html", "installed", "meanings.json",
                          "project.schema.json", "target.schema.json", "error_line.py")),
             *(f"share/dyncollate/explain_{it}.py"
               for it in ("build", "codes", "documents", "errors", "files", "modules", "others",
                          "page", "places", "sources"))]
# what version 1.1.0 installed, and the directories that it recorded
OF_1_1_0 = ["bin/dyncollate", "bin/dyncollate-cmake", "share/man/man1/dyncollate.1",
            "include/dyncollate.h", "lib/libdyncollate.a", "lib/libdyncollate.so.1",
            "lib/libdyncollate.so", "lib/pkgconfig/dyncollate.pc"]
RECORD_OF_1_1_0 = (
    "bin\ninclude\nlib\nlib/pkgconfig\nshare\nshare/man\nshare/man/man1\nshare/dyncollate\n")


class InstallProgram(InRoom):
    """The program and the scripts, of sources whose library is not built."""

    def test_install(self):
        home, prefix = self.room / "home", self.room / "prefix"
        for name in "adapters", "completions", "docs", "examples", "explain":
            shutil.copytree(TOP / name, home / name)
        for name in "install", "CHANGELOG.md", "VERSION":
            shutil.copy(TOP / name, home / name)
        (home / "crates/dyncollate/out").mkdir(parents=True)
        (home / "crates/dyncollate/out/dyncollate").write_text("#!/bin/sh\n")
        (home / "build").write_text("#!/bin/sh\nexit $#\n")
        os.chmod(home / "build", 0o755)
        self.assertEqual(call(home / "install", prefix),
                         (3, "", "install: the library is not built, so nothing was installed\n"))
        status, out, err = call(home / "install", "--program", prefix)
        files = {it.relative_to(prefix).as_posix() for it in prefix.rglob("*") if it.is_file()}
        self.assertEqual((status, {os.path.relpath(it, prefix) for it in out.splitlines()}, err),
                         (0, files, ""))
        of_library = {it for it in INSTALLED if it.startswith(("include/", "LIB/"))
                      or it.endswith(("man3/dyncollate.3", ".html"))}
        self.assertEqual({it for it in files if "/examples/" not in it}, {*INSTALLED} - of_library)
        self.assertTrue(any("/examples/std/" in it for it in files))
        self.assertEqual(call(prefix / "share/dyncollate/examples/generate", "--help")[::2],
                         (0, ""))
        for name in "dyncollate-cmake", "dyncollate-gn", "dyncollate-meson":
            self.assertEqual(call(prefix / "bin" / name, "--version"),
                             (0, f"{name} {(TOP / 'VERSION').read_text()}", ""))
        self.assertFalse(any("/embed/" in it for it in files))
        self.assertEqual(call(home / "install", "--uninstall", prefix)[0], 0)
        self.assertEqual([*prefix.iterdir()], [])


@embedded.needs_library
class Install(releases.Released):
    def installed(self, prefix, lib="lib"):
        """What ./install puts below a prefix. The examples are those of the archive."""
        examples = sorted(it for it in (self.home / "examples").rglob("*") if it.is_file())
        return ([prefix / it.replace("LIB", lib) for it in INSTALLED]
                + [prefix / "share/dyncollate" / it.relative_to(self.home) for it in examples])

    def test_install(self):
        """It says what it puts where, also a second time, and takes away exactly that."""
        prefix = self.room / "a prefix"
        (prefix / "share/doc").mkdir(parents=True)
        installed = sorted(self.installed(prefix))
        before = sorted(prefix.rglob("*"))
        for _ in range(2):
            status, out, err = call(self.home / "install", prefix)
            self.assertEqual((status, sorted(out.splitlines()), err),
                             (0, sorted(map(str, installed)), ""))
        self.assertEqual(sorted(it for it in prefix.rglob("*") if it.is_file()), installed)
        self.assertEqual({it: os.readlink(it) for it in installed if it.is_symlink()},
                         {prefix / "lib/libdyncollate.so": "libdyncollate.so.1",
                          prefix / "lib/libdyncollate.so.1": REAL})
        self.assertEqual({it for it in installed
                          if it.stat().st_mode & 0o777 == 0o755 and not it.is_symlink()},
                         {prefix / it for it in ("bin/dyncollate", "bin/dyncollate-cmake",
                                                 "bin/dyncollate-explain", "bin/dyncollate-gn",
                                                 "bin/dyncollate-meson", "bin/dyncollate-ninja",
                                                 "bin/dyncollate-remote", f"lib/{REAL}",
                                                 "share/dyncollate/examples/generate")})
        self.assertEqual({it.stat().st_mode & 0o777 for it in installed}, {0o644, 0o755})
        self.assertEqual(call(prefix / "bin/dyncollate", "one",
                              prefix / "share/dyncollate/examples/b.ddi", "mod", ".bmi"),
                         (0, EXAMPLE, ""))
        self.assertEqual((prefix / "share/man/man1/dyncollate.1").read_bytes(),
                         (self.home / "docs/dyncollate.1").read_bytes())
        for folder, name in (("adapters/cmake", "dyncollate-cmake"),
                             ("adapters/meson", "dyncollate-meson"),
                             ("adapters/gn", "dyncollate-gn"),
                             ("adapters/remote", "dyncollate-remote")):
            self.assertEqual(call(prefix / "bin" / name, "--help"),
                             call(self.home / folder / name, "--help"))
        version = (self.home / "VERSION").read_text()
        for name in "dyncollate-cmake", "dyncollate-explain":
            self.assertEqual(call(prefix / "bin" / name, "--version"), (0, f"{name} {version}", ""))
        status, out, err = call(self.home / "install", "--uninstall", prefix)
        self.assertEqual((status, err), (0, ""))
        self.assertEqual(sorted(prefix.rglob("*")), before)
        record = prefix / "share/dyncollate/installed"
        self.assertEqual({Path(it.removeprefix("removed ")) for it in out.splitlines()
                          if not it.endswith("/src")} & set(installed), set(installed) - {record})
        self.assertEqual(call(self.home / "install", "--uninstall", prefix),
                         (1, "", f"install: nothing is installed there: there is no {record}\n"))

    def test_links_of_installed_pages(self):
        """They lead to installed files, and so do the names of files in the manual."""
        prefix = self.room / "pages"
        self.assertEqual(call(self.home / "install", prefix)[0], 0)
        links = [(page, name) for page in (prefix / "share/doc/dyncollate").iterdir()
                 for name in re.findall(r"\]\((?!https?:|#)([^)#]+)", page.read_text())]
        self.assertGreater(len(links), 10)
        self.assertEqual([(page, name) for page, name in links
                          if not (page.parent / name).exists()], [])
        pages = "".join(it.read_text() for it in (self.home / "docs").glob("*.[13]"))
        names = re.findall(r"(?:bin|include|lib|share)/[^ ,\n]+", pages)
        self.assertGreater(len(names), 10)
        self.assertEqual([name for name in names if not (prefix / name).exists()], [])

    def test_everyone_may_read_what_is_installed(self):
        """Also if the files of the user are private."""
        prefix = self.room / "for everyone"
        self.assertEqual(call("sh", "-c", 'umask 077; exec "$@"', "sh", self.home / "install",
                              prefix)[0], 0)
        modes = {it.relative_to(prefix).as_posix(): it.stat().st_mode & 0o777
                 for it in [prefix, *prefix.rglob("*")]}
        self.assertEqual({name: mode for name, mode in modes.items() if mode not in (0o644, 0o755)},
                         {})

    def test_install_keeps_what_others_put_there(self):
        prefix = self.room / "shared"
        self.assertEqual(call(self.home / "install", prefix)[0], 0)
        (prefix / "bin/other").write_text("")
        self.assertEqual(call(self.home / "install", "--uninstall", prefix)[0], 0)
        self.assertEqual(sorted(prefix.rglob("*")), [prefix / "bin", prefix / "bin/other"])

    def test_install_over_an_earlier_version(self):
        """What version 1.1.0 installed is removed,
        with or without an installation of this version over it."""
        for name in "earlier", "renewed":
            prefix = self.room / name
            for it in [*OF_1_1_0, "share/dyncollate/installed"]:
                (prefix / it).parent.mkdir(parents=True, exist_ok=True)
                (prefix / it).write_text(RECORD_OF_1_1_0 if it.endswith("/installed") else "")
            if name == "renewed":
                self.assertEqual(call(self.home / "install", prefix)[0], 0)
                self.assertEqual(sorted(it for it in prefix.rglob("*") if it.is_file()),
                                 sorted(self.installed(prefix)))
            self.assertEqual(call(self.home / "install", "--uninstall", prefix)[0], 0)
            self.assertEqual(list(prefix.iterdir()), [])

    def test_install_to_another_directory_of_libraries(self):
        for lib in "lib64", "lib/x86_64-linux-gnu":
            prefix = self.room / f"with {lib.replace('/', ' ')}"
            environment = ENVIRONMENT | {"LIBDIR": lib}
            self.assertEqual(call(self.home / "install", prefix, env=environment)[0], 0)
            self.assertEqual(sorted(it for it in prefix.rglob("*") if it.is_file()),
                             sorted(self.installed(prefix, lib)))
            self.assertIn(f"\nlibdir=${{prefix}}/{lib}\n",
                          (prefix / lib / "pkgconfig/dyncollate.pc").read_text())
            if shutil.which("cmake") and shutil.which("gcc"):
                self.found_by_cmake(prefix, lib)
            self.assertEqual(call(self.home / "install", "--uninstall", prefix)[0], 0)
            self.assertEqual(list(prefix.iterdir()), [])
        for lib in "/usr/lib", "../lib", "a/../..", "a b", "lib/":
            status, out, err = call(self.home / "install", self.room / "none",
                                    env=ENVIRONMENT | {"LIBDIR": lib})
            self.assertEqual((status, out, err), (
                2, "", f"install: LIBDIR is a directory below PREFIX, such as lib64, not {lib}\n"))
        self.assertFalse((self.room / "none").exists())

    def found_by_cmake(self, prefix, lib="lib"):
        """find_package has both libraries, and says whether a version fits."""
        folder = Path(tempfile.mkdtemp(dir=self.room))
        shutil.copy(self.home / "examples/embed/collate.c", folder)
        major, minor, _ = VERSION.split(".")
        fits = [f"{major}.0", f"{major}.{minor}", VERSION, f"{VERSION} EXACT",
                f"{major}.0...<{int(major) + 1}", ""]
        fits_not = [f"{major}.{int(minor) + 1}", f"{int(major) + 1}.0", f"{int(major) - 1}.9",
                    f"{major}.0 EXACT", f"0.1...<{VERSION}"]
        text = "cmake_minimum_required(VERSION 3.19)\nproject(x C)\n"
        text += "".join(f"find_package(dyncollate {it} REQUIRED)\n" for it in fits)
        for it in fits_not:
            text += (f'find_package(dyncollate {it} QUIET)\n'
                     f'message(STATUS "found {it}: ${{dyncollate_FOUND}}")\n')
        for kind in "dyncollate", "static":
            text += (f"add_executable(collate_{kind} collate.c)\n"
                     f"target_link_libraries(collate_{kind} dyncollate::{kind})\n")
        (folder / "CMakeLists.txt").write_text(text)
        # (on Debian, CMake does not look into lib64)
        where = (f"-Ddyncollate_DIR={prefix}/lib64/cmake/dyncollate"
                 if lib == "lib64" else f"-DCMAKE_PREFIX_PATH={prefix}")
        status, out, err = call("cmake", "-S", folder, "-B", folder / "build", where,
                                "-DCMAKE_C_COMPILER=gcc")
        self.assertEqual((status, err), (0, ""), out)
        self.assertEqual(re.findall(r"^-- found (.*): (.*)$", out, re.M),
                         [(it, "0") for it in fits_not])
        self.assertEqual(call("cmake", "--build", folder / "build")[0], 0)
        for kind in "dyncollate", "static":
            binary = folder / f"build/collate_{kind}"
            self.assertEqual(call(binary, self.home / "VERSION")[:2], (1, ""))
            self.assertEqual(f"{prefix}/{lib}/libdyncollate.so.1" in call("ldd", binary)[1],
                             kind == "dyncollate")

    @embedded.needs_tools("cmake", "gcc", "ldd")
    def test_cmake(self):
        prefix = self.room / "for cmake"
        self.assertEqual(call(self.home / "install", prefix)[0], 0)
        self.found_by_cmake(prefix)

    def test_install_words(self):
        for words in ([], ["a", "b"], [""], ["-x"], ["--uninstall"], ["--uninstall", "-x"],
                      ["--program"]):
            status, out, err = call(self.home / "install", *words, cwd=self.room)
            self.assertEqual((status, out, err.split(":")[:2]), (2, "", ["install", " usage"]),
                             words)

    def test_install_from_the_sources(self):
        """The program and the library are not those of the archive, which are at the top there."""
        prefix = self.room / "of sources"
        self.assertEqual(call(self.clone / "install", prefix)[0], 0)
        self.assertEqual((prefix / "bin/dyncollate").read_bytes(),
                         Path(program.PROGRAM).read_bytes())
        self.assertEqual((prefix / "lib/libdyncollate.so").read_bytes(),
                         Path(embedded.SHARED).read_bytes())

    def test_install_for_another_place(self):
        """With DESTDIR the files are put below it, and speak of the prefix alone."""
        staged = self.room / "staged"
        environment = ENVIRONMENT | {"DESTDIR": str(staged)}
        status, out, err = call(self.home / "install", "/no/such/prefix", env=environment)
        self.assertEqual((status, set(out.splitlines()), err),
                         (0, set(map(str, self.installed(staged / "no/such/prefix"))), ""))
        self.assertTrue(
            (staged / "no/such/prefix/lib/pkgconfig/dyncollate.pc").read_text().startswith(
                "prefix=/no/such/prefix\n"))
        self.assertEqual([it for it in self.installed(staged / "no/such/prefix")
                          if it.is_symlink() and not it.exists()], [])
        self.assertFalse(Path("/no/such/prefix").exists())
        self.assertEqual(call(self.home / "install", "prefix", env=environment, cwd=self.room)[0],
                         2)
        self.assertEqual(call(self.home / "install", "--uninstall", "/no/such/prefix",
                              env=environment)[0], 0)
        self.assertEqual(list((staged / "no/such/prefix").iterdir()), [])

    def test_two_installations_at_once(self):
        """Both succeed, and what they leave is removed completely."""
        for number in range(2):
            prefix = self.room / f"at once {number}"
            lines = sorted(map(str, self.installed(prefix)))
            for status, printed in (run_at_once(*[[self.home / "install", prefix]] * 3,
                                                env=ENVIRONMENT)):
                self.assertEqual((status, sorted(printed.splitlines())), (0, lines))
            self.assertEqual(sorted(it for it in prefix.rglob("*") if it.is_file()),
                             sorted(self.installed(prefix)))
            self.assertEqual(call(self.home / "install", "--uninstall", prefix)[0], 0)
            self.assertEqual(list(prefix.iterdir()), [])

    def test_an_installation_that_fails_leaves_nothing(self):
        """A file is in the way of a directory, or a directory in the way of a file."""
        (self.room / "file").write_text("")
        self.assertEqual(call(self.home / "install", self.room / "file"),
                         (1, "", f"install: cannot make the directory {self.room}/file\n"))
        prefix = self.room / "in the way"
        (prefix / "share").mkdir(parents=True)
        (prefix / "share/doc").write_text("")
        before = sorted(prefix.rglob("*"))
        self.assertEqual(call(self.home / "install", prefix),
                         (1, "", f"install: cannot make the directory {prefix}/share/doc\n"))
        self.assertEqual(sorted(prefix.rglob("*")), before)
        (self.room / "parent").write_text("")
        self.assertEqual(call(self.home / "install", self.room / "parent/a/b")[0], 1)

    @embedded.needs_tools("bwrap")
    def test_install_on_a_full_disk(self):
        """It says which file cannot be written, and leaves nothing, not even the prefix."""
        prefix = self.room / "for its size"
        self.assertEqual(call(self.home / "install", prefix)[0], 0)
        size_of_all = sum(it.stat().st_size for it in self.installed(prefix) if not it.is_symlink())
        for size in size_of_all // 20, size_of_all // 2, size_of_all * 9 // 10:
            within = ["bwrap", "--ro-bind", "/", "/", "--dev", "/dev", "--size", str(size),
                      "--tmpfs", "/mnt", "sh", "-c", '"$1" /mnt/a/b; echo $?; ls -A /mnt', "sh"]
            if call(*within, "true")[0]:
                self.skipTest("bwrap is not allowed")
            status, out, err = call(*within, self.home / "install")
            self.assertEqual((status, out), (0, "1\n"), err)
            self.assertRegex(err, r"\Ainstall: cannot write /mnt/a/b/\S+\n\Z")

    @embedded.needs_tools("bwrap")
    def test_install_without_proc(self):
        prefix = self.room / "without proc"
        prefix.mkdir()
        within = ["bwrap", "--ro-bind", "/", "/", "--tmpfs", "/proc", "--dev", "/dev", "--bind",
                  prefix, prefix]
        if call(*within, "true")[0]:
            self.skipTest("bwrap is not allowed")
        self.assertEqual(call(*within, self.home / "install", prefix)[::2], (0, ""))
        self.assertEqual(sorted(it for it in prefix.rglob("*") if it.is_file()),
                         sorted(self.installed(prefix)))
        self.assertEqual(call(*within, self.home / "install", "--uninstall", prefix)[::2], (0, ""))
        self.assertEqual(list(prefix.iterdir()), [])

    def test_a_stopped_installation_leaves_nothing(self):
        """The signal comes while files are copied."""
        prefix, home = self.room / "stopped", self.room / "slow"
        shutil.copytree(self.home, home)
        (home / "bin").mkdir()
        (home / "bin/cp").write_text(
            "#!/bin/sh\ncase $1 in *dyncollate.3) kill -TERM $PPID; sleep 0.2 ;; esac\n"
            "exec /bin/cp \"$@\"\n")
        (home / "bin/cp").chmod(0o755)
        status, out, err = call(home / "install", prefix,
                                env=ENVIRONMENT | {"PATH": f"{home}/bin:{ENVIRONMENT['PATH']}"})
        self.assertEqual((status, out, err, prefix.exists()), (130, "", "", False))

    def test_ldconfig(self):
        """It is named if the loader looks in the directory,
        and does not know the library there yet."""
        tools = self.room / "tools"
        tools.mkdir()
        lines = {"-N": "{lib}: (from /etc/ld.so.conf.d/libc.conf:2)\n\tliba.so.1 -> liba.so.1.0\n",
                 "-p": "\tliba.so.1 (libc6) => {lib}/liba.so.1\n"}
        known = "\tlibdyncollate.so.1 (libc6,x86-64) => {lib}/libdyncollate.so.1\n"
        for name, listed, cached, staged, is_named in (
                [("for loader", lines["-N"], lines["-p"], False, True),
                 ("for loader", lines["-N"], lines["-p"] + known, False, False),
                 ("for loader", lines["-N"], lines["-p"], True, False),
                 ("elsewhere", lines["-N"].replace("{lib}", "/lib"), lines["-p"], False, False)]):
            prefix = self.room / "of the loader" / name.replace(" ", "-")
            lib = f"{prefix}/lib"
            (tools / "ldconfig").write_text(
                f"#!/bin/sh\ncase $1 in -p) cat << END\n{cached}END\n;; *) cat << END\n"
                f"{listed}END\n;; esac\n".replace("{lib}", lib))
            (tools / "ldconfig").chmod(0o755)
            environment = (ENVIRONMENT | {"PATH": f"{tools}:{ENVIRONMENT['PATH']}"}
                           | ({"DESTDIR": str(self.room / "staged")} if staged else {}))
            status, _, err = call(self.home / "install", prefix, env=environment)
            wanted = ("install: run ldconfig, so that programs find "
                      f"{lib}/libdyncollate.so.1\n" * is_named)
            self.assertEqual((status, err), (0, wanted))

    @embedded.needs_tools("gcc", "pkg-config")
    def test_embedded(self):
        prefix, folder = self.room / "with library", self.room / "libs"
        self.assertEqual(call(self.home / "install", prefix)[0], 0)
        shutil.copytree(f"{DATA}/libs", folder)
        for made in folder.glob("expected/*"):
            shutil.copytree(made, folder / made.name)
        for file in [*folder.glob("dd/*"), *folder.glob("obj/**/*.modmap")]:
            file.unlink()
        self.assertEqual(call(prefix / "bin/dyncollate", "project", "project.json", cwd=folder),
                         (0, "", ""))
        self.in_memory(prefix, folder, [f"{name}.target.json" for name in TARGETS["libs"]])

    @embedded.needs_tools("gcc", "g++", "pkg-config", "ldd")
    def test_static(self):
        """A C program by `pkg-config --static`, and a C++ program with the shared object."""
        prefix = self.room / "for static"
        self.assertEqual(call(self.home / "install", prefix)[0], 0)
        environment = (ENVIRONMENT | {"PKG_CONFIG_PATH": f"{prefix}/lib/pkgconfig",
                                      "LD_LIBRARY_PATH": f"{prefix}/lib"})
        flags = shlex.split(call("pkg-config", "--static", "--cflags", "--libs", "dyncollate",
                                 env=environment)[1])
        examples, collate, background = (prefix / "share/dyncollate/examples",
                                         self.room / "static collate",
                                         self.room / "shared background")
        self.assertEqual(call("gcc", "-static", examples / "embed/collate.c", *flags, "-o",
                              collate), (0, "", ""))
        self.assertIn("not a dynamic executable", "".join(call("ldd", collate)[1:]))
        (self.room / "a.json").write_text("{}")
        self.assertEqual(call(collate, "a.json", cwd=self.room),
                         (1, "", "dyncollate: target: S2 BadVersion document\n"))
        flags = shlex.split(call("pkg-config", "--cflags", "--libs", "dyncollate",
                                 env=environment)[1])
        self.assertEqual(call("g++", "-std=c++17", "-pthread", examples / "embed/background.cpp",
                              *flags, "-o", background), (0, "", ""))
        self.assertEqual(call(background, env=environment)[::2], (0, ""))
        self.assertIn(f"{prefix}/lib/libdyncollate.so.1",
                      call("ldd", background, env=environment)[1])


if __name__ == "__main__":
    unittest.main()
