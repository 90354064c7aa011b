"""Why a file cannot be read or written."""
import errno
import functools
import os
from os.path import dirname, isdir, isfile, join, realpath

from explain_others import users
from explain_documents import read
from explain_sources import in_manifest

SIZE = 1 << 16


def why_unread(name, document):
    """The system's reason, by reading it again; the directory that has it, or what makes it."""
    try:
        read(name)
    except OSError as error:
        is_missing = error.errno == errno.ENOENT
        return [f"{error.strerror}.", *(found_elsewhere(name, document) if is_missing else [])]
    return ["It can be read now."]


def found_elsewhere(name, document):
    """The directory in which the program has to run, or what makes the file, or a like name."""
    above = ancestors(dirname(document)) if not os.path.isabs(name) else []
    right = next((it for it in above if isfile(join(it, name))), None)
    if right:
        return [f"There is {join(right, name)}: the names in {document} are for the directory "
                f"{right}."]
    writer = next((it for it, what in users(name) if what in ("`info`", "`dyndep`")), None)
    if writer:
        return [f"{writer.file} writes it, so it has to be an input of this step in the Ninja "
                "file."]
    if in_manifest(name):
        return [f"`ninja {name}` makes it."]
    import difflib
    folder = dirname(name)
    names = os.listdir(folder or ".") if isdir(folder or ".") else []
    found = difflib.get_close_matches(os.path.basename(name), names, 1, 0.85)
    return [f"There is {join(folder, it)}." for it in found]


def ancestors(folder):
    """A directory and those above it, except for the working directory."""
    while True:
        if realpath(folder or ".") != realpath("."):
            yield folder
        if dirname(folder) == folder:
            return
        folder = dirname(folder)


def why_unwritten(name):
    """The system's reason, by a file without a name in the same directory; or an empty text."""
    try:
        if isdir(name):
            return f"{os.strerror(errno.EISDIR)}."
        if os.path.exists(name) and not isfile(name):
            return ""  # a device or a pipe
        folder = dirname(realpath(name)) if os.path.islink(name) else dirname(name) or "."
        os.stat(folder)
        if isfile(name) and os.access(name, os.W_OK) and not os.access(folder, os.W_OK):
            return ""
        os.lstat(name)
    except FileNotFoundError as error:
        if error.filename != name:
            return f"{error.filename}: {error.strerror}."
    except (OSError, ValueError) as error:
        return f"{getattr(error, 'strerror', error)}."
    reason = why_full(folder)
    return reason and f"{folder}: {reason}."


@functools.lru_cache(None)
def why_full(folder):
    """Why a file of 64 KiB cannot be made in a directory."""
    left = bytes(SIZE)
    try:
        file = os.open(folder, os.O_TMPFILE | os.O_WRONLY, 0o600)
        try:
            while left:
                left = left[os.write(file, left):]
        finally:
            os.close(file)
    except OSError as error:
        if error.errno not in (errno.EOPNOTSUPP, errno.EINVAL, errno.EISDIR):
            return error.strerror
        room = os.statvfs(folder)
        return os.strerror(errno.ENOSPC) if room.f_bavail * room.f_frsize < SIZE else ""
    return ""


def unwritable(targets):
    """The first file of a collation that cannot be written, or None."""
    names = (name for target in targets for name, _ in target.outputs())
    return next(filter(why_unwritten, names), None)
