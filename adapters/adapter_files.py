"""What the adapters share: errors, locks, and files that are replaced as a whole.

The steps of builds import this, so it needs only modules that are quick to import.
"""
import fcntl
import os
import sys

# What a compiled module's name ends with, by the style of module maps.
EXTENSIONS = {"clang": ".pcm", "gcc": ".gcm"}


class Wrong(Exception):
    """An error: a line of text and the exit status."""

    def __init__(self, text, status=1):
        super().__init__(text)
        self.status = status


def read(name):
    with open(name, "rb") as file:
        return file.read().decode("utf-8", "surrogateescape")


def replace(texts, before=None):
    """Replaces files as a whole: all, or none if one of them can't be written. If `before` has the
    texts that the files had and one of the files has changed since, that one and all after it are
    left alone, and the result is False."""
    new, current = {}, None
    try:
        for current, text in texts.items():
            folder = os.path.dirname(current) or "."
            if not os.path.exists(folder):
                os.makedirs(folder, exist_ok=True)
            new[current] = f"{current}.{os.urandom(6).hex()}.new"
            with open(new[current], "xb") as file:
                file.write(text.encode("utf-8", "surrogateescape"))
        for current in texts:
            if before and read(current) != before[current]:
                return False
            os.replace(new[current], current)
            del new[current]
        return True
    except OSError as error:
        raise Wrong(f"{current}: {error.strerror}", 3) from None
    finally:
        for it in filter(os.path.exists, new.values()):
            os.remove(it)


def write(name, text):
    replace({name: text})


def write_if_changed(name, text):
    """Leaves a file alone that already has this text, so that Ninja sees no change."""
    try:
        if read(name) == text:
            return
    except FileNotFoundError:
        pass
    write(name, text)


def document(name):
    import json  # it takes as long to import as Python to start
    try:
        return json.loads(read(name))
    except (RecursionError, ValueError) as error:
        raise Wrong(f"{name}: {error}") from None


def escaped(path):
    """A path as it is written in a Ninja file."""
    return path.translate({ord(it): f"${it}" for it in "$ :"})


class Alone:
    """Waits until no other run has this directory, and has it until the end of the block."""

    def __init__(self, folder):
        self.handle = os.open(folder, os.O_RDONLY)

    def __enter__(self):
        fcntl.flock(self.handle, fcntl.LOCK_EX)

    def __exit__(self, *error):
        os.close(self.handle)


def say(line):
    """Prints a line of the program that runs."""
    print(f"{os.path.basename(sys.argv[0])}: {line}", file=sys.stderr)
