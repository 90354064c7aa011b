"""What is printed if the collation of a target fails."""
import os
import sys

from adapter_files import say
from cmake_step import call, code_in, explained

# what adopts a build again, by the name of the program
AGAIN = {"dyncollate-meson": "ninja reconfigure", "dyncollate-gn": "dyncollate-gn adopt"}


def why(program, name):
    """Says why the target of this document is not collated, and returns the status of another
    run."""
    status, said = call(program, name)
    if status:
        explained(program, status, said, name)
        if code_in(said) == "M5":
            say("for a first `import std`, and for the first module of a library in a source that "
                f"was there before, run `{AGAIN[os.path.basename(sys.argv[0])]}`")
    return status
