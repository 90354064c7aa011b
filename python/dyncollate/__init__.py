"""The commands of `dyncollate` for files in memory, by the C library libdyncollate.

    import dyncollate
    from pathlib import Path

    files = dyncollate.collate(document, {"main.ddi": scan,
                                          "dd/base.info.json": Path("dd/base.info.json")})

`document` is a target document: its bytes, or the path of a file. The dictionary has the files that
the document names, under the names that it has for them. The result has the files that
`dyncollate collate` writes, by name, in the order in which they are to be written. If the input is
not valid, `dyncollate.Error` is raised:

    except dyncollate.Error as error:
        error.line   # "dyncollate: M5 ModuleUnknown sum in obj/main.o"
        error.code   # "M5"
        error.names  # ("sum", "obj/main.o")

`MemoryError` is raised if an allocation fails, and `ValueError` if a name cannot be written in
UTF-8.

`python -m dyncollate` has the same commands for files on disk, for a machine that has only pip.

The shared object is the one that the environment variable DYNCOLLATE_LIBRARY names. Without this
variable it is libdyncollate.so.1 next to this file, as in a wheel, and otherwise the one that the
system finds under this name. Without one, each function raises OSError.
"""
from ._commands import (Command, Result, Statement, collate, effect, one, order, project, run, show,
                        statements, version)
from ._errors import Error
from ._library import File, Files, Name

__all__ = ["Command", "Error", "File", "Files", "Name", "Result", "Statement", "collate", "effect",
           "one", "order", "project", "run", "show", "statements", "version"]
__version__ = "1.2.0"
