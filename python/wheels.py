#!/usr/bin/env python3
"""Makes wheels of the package dyncollate.

    wheels.py LIBRARY MACHINE [DIRECTORY]

writes one into the directory that has the shared object LIBRARY in it, for MACHINE, x86_64 or
aarch64, and prints its name. The library may need glibc 2.17 at most, as the tag manylinux2014
says. The same files give the same bytes.

pip and other frontends also call this file, by pyproject.toml (PEP 517 and 660). What they make has
no library in it, and loads the one that the system finds.
"""
import base64
import gzip
import hashlib
import io
import json
import re
import subprocess
import sys
import tarfile
import zipfile
from pathlib import Path

HERE = Path(__file__).resolve().parent
GLIBC = 2, 17
# the value of e_machine in an ELF file
MACHINES = {"x86_64": 62, "aarch64": 183}


class Wrong(Exception):
    """Why no wheel is made, in one line."""


def metadata():
    """The name and the version of the package, and its METADATA."""
    values = re.findall(r'^([\w-]+) = (".*"|\[[^]]*\])$', text_of("pyproject.toml"), re.M)
    project = {name: json.loads(value) for name, value in values}
    version = re.search(r'^__version__ = "(.*)"$', text_of("dyncollate/__init__.py"), re.M)[1]
    fields = [("Metadata-Version", "2.1"), ("Name", project["name"]), ("Version", version),
              ("Summary", project["description"]), ("Keywords", ",".join(project["keywords"])),
              *(("Classifier", it) for it in project["classifiers"]),
              ("Requires-Python", project["requires-python"]),
              ("Description-Content-Type", "text/markdown")]
    lines = "".join(f"{name}: {value}\n" for name, value in fields)
    return project["name"], version, f"{lines}\n{text_of(project['readme'])}"


def text_of(name):
    return (HERE / name).read_text(encoding="utf-8")


def check(library, machine):
    """The library is for this machine, and needs no glibc that is newer than the tag says."""
    if machine not in MACHINES:
        raise Wrong(f"MACHINE is one of {', '.join(MACHINES)}, not {machine}")
    data = library.read_bytes()
    if data[:4] != b"\x7fELF" or int.from_bytes(data[18:20], "little") != MACHINES[machine]:
        raise Wrong(f"{library} is not a shared object for {machine}")
    needs = subprocess.run(["readelf", "-W", "-V", library], stdout=subprocess.PIPE, text=True,
                           check=True).stdout
    newest = max(tuple(map(int, it.split("."))) for it in re.findall(r"GLIBC_([0-9.]+)", needs)
                 or ["0"])
    if newest > GLIBC:
        raise Wrong(f"{library} needs glibc {'.'.join(map(str, newest))}, and the wheel may need "
                    f"{'.'.join(map(str, GLIBC))} at most")
    return data


def recorded(name, data):
    digest = base64.urlsafe_b64encode(hashlib.sha256(data).digest()).decode().rstrip("=")
    return f"{name},sha256={digest},{len(data)}\n"


def modules(name):
    """The files of the package, by their paths in a wheel."""
    files = [*sorted((HERE / name).glob("*.py")), HERE / name / "py.typed"]
    return {f"{name}/{it.name}": it.read_bytes() for it in files}


def write(folder, library=None, machine=None):
    """Writes a wheel, with the library for the machine or without one. Returns its name."""
    name = metadata()[0]
    files = modules(name)
    if library:
        files[f"{name}/libdyncollate.so.1"] = check(Path(library), machine)
    platforms = ["manylinux_{}_{}_".format(*GLIBC) + str(machine), f"manylinux2014_{machine}"]
    return pack(folder, files, platforms if library else ["any"])


def pack(folder, files, platforms):
    """Writes a wheel of these files for these platforms. Returns its name."""
    name, version, described = metadata()
    is_pure = str(platforms == ["any"]).lower()
    info = f"{name}-{version}.dist-info"
    files[f"{info}/METADATA"] = described.encode()
    lines = ["Wheel-Version: 1.0", "Generator: dyncollate", f"Root-Is-Purelib: {is_pure}",
             *(f"Tag: py3-none-{it}" for it in platforms)]
    files[f"{info}/WHEEL"] = "".join(f"{it}\n" for it in lines).encode()
    record = "".join(recorded(*it) for it in files.items())
    files[f"{info}/RECORD"] = f"{record}{info}/RECORD,,\n".encode()
    wheel = f"{name}-{version}-py3-none-{'.'.join(platforms)}.whl"
    with zipfile.ZipFile(Path(folder, wheel), "w") as archive:
        for path, data in files.items():
            entry = zipfile.ZipInfo(path, (1980, 1, 1, 0, 0, 0))
            entry.external_attr = (0o100755 if path.endswith(".so.1") else 0o100644) << 16
            archive.writestr(entry, data, zipfile.ZIP_DEFLATED, 9)
    return wheel


def build_wheel(wheel_directory, config_settings=None, metadata_directory=None):
    return write(wheel_directory)


def build_editable(wheel_directory, config_settings=None, metadata_directory=None):
    """A wheel that has only the path of the sources: their changes are in effect at once."""
    return pack(wheel_directory, {"dyncollate.pth": f"{HERE}\n".encode()}, ["any"])


def build_sdist(sdist_directory, config_settings=None):
    name, version, described = metadata()
    files = modules(name) | {"PKG-INFO": described.encode()}
    files |= {it: (HERE / it).read_bytes() for it in ("README.md", "pyproject.toml", "wheels.py")}
    packed = io.BytesIO()
    with tarfile.open(fileobj=packed, mode="w") as archive:
        for path, data in files.items():
            entry = tarfile.TarInfo(f"{name}-{version}/{path}")
            entry.size = len(data)
            archive.addfile(entry, io.BytesIO(data))
    file = f"{name}-{version}.tar.gz"
    Path(sdist_directory, file).write_bytes(gzip.compress(packed.getvalue(), mtime=0))
    return file


def main(words):
    if len(words) not in (2, 3):
        sys.exit("wheels.py: usage: wheels.py LIBRARY MACHINE [DIRECTORY]")
    print(write(words[2] if len(words) == 3 else ".", *words[:2]))


if __name__ == "__main__":
    try:
        main(sys.argv[1:])
    except (Wrong, OSError) as wrong:
        sys.exit(f"wheels.py: {wrong}")
