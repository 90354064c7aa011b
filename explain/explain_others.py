"""Files of a build that are no target document: the targets that have them, and what they say."""
import json
import os

from explain_build import Copies, FAULTY, build_documents, called
from explain_documents import Target, document, file_of, read


# A target document that only links an info file.
LINKING = {"version": 1, "target": "dyncollate-explain", "module-dir": "", "module-ext": "",
           "dyndep": "dyncollate-explain.dd", "info": "dyncollate-explain.json"}


def has_own_run(name):
    """Whether a file is a target or project document, or not known to be another one."""
    found = document(name)
    if found:
        return "rules" not in found and ("modules" not in found or "module-dir" in found)
    return not users(name) and command_of(name) == "collate"


def users(name):
    """The targets of this build that write a file, then those that read it; what it is there."""
    path, targets = file_of(name), build_documents()[1]
    return [(it, what) for kind in (Target.outputs, Target.inputs) for it in targets
            for other, what in kind(it)
            if file_of(other) == path and what != "the target document"]


def command_of(name):
    """The command that reads a file by itself."""
    try:
        text = read(name)
    except OSError:
        text = b""
    if "rules" in document(name) or name.endswith(".ddi"):
        return "one"
    if text.startswith(b"ninja_dyndep_version") or name.endswith(".dd"):
        return "show"
    return "order" if text.startswith(b"build ") else "collate"


def by_itself(name):
    """The status of a run that reads only this file, and its lines, if it has an error."""
    from explain_errors import Explanation, line_in
    command = command_of(name)
    with Copies() as copies:
        if command == "one":
            words, explained = ("one", "--", name, "bmi", ".pcm"), name
        elif command == "collate":
            explained = copies.add(json.dumps(LINKING | {
                "linked": [name], "edges": copies.add(FAULTY)}).encode())
            words = "collate", "--", explained
        else:
            words, explained = (command, "--", name), name
        status, line = called(copies, *words)
        if not status or line.endswith("edges: line 1: E3 Form") and command == "collate":
            return 1, []
        explanation = Explanation(explained, line)
        error = explanation.error
        if error and error.line is not None:
            head = f"{explanation.code()}: line {error.line} of {name}"
            return status, [head, *line_in(name, error.line), explanation.lines()[-1]]
        return status, explanation.lines()
