"""The page for browsers that shows the modules of a build as a graph."""
import base64
import json

from explain_build import kind_of
from explain_documents import Wrong, beside, document, read, strings

MARK = '<script type="application/json" id="given">'


def documents(name):
    """The files that a run reads, by name. A file that is not UTF-8 is in base64."""
    kind, found = kind_of(name), document(name)
    targets = strings(found, "targets") if kind == "project" else [name] * (kind == "collate")
    names = [name, *targets]
    for it in map(document, targets):
        edges = it.get("edges")
        names += strings(it, "scans") + (strings(it, "linked") if kind == "collate" else [])
        names += [edges] if isinstance(edges, str) else []
    files = {}
    for it in names:
        try:
            text = read(it)
        except OSError:
            continue
        try:
            files[it] = text.decode()
        except UnicodeDecodeError:
            files[it] = {"base64": base64.b64encode(text).decode()}
    return files


def write_page(page, name):
    template = beside("dyncollate.html", "..", "../web/out")
    if not template:
        raise Wrong("there is no page dyncollate.html next to this installation, so none was "
                    "written")
    with open(template, encoding="utf-8") as file:
        start, mark, end = file.read().partition(MARK)
    if not mark:
        raise Wrong(f"{template} is not a page of this version")
    given = {"command": kind_of(name), "name": name, "files": documents(name)}
    given = json.dumps(given, ensure_ascii=True).replace("<", "\\u003c")
    with open(page, "w", encoding="utf-8") as file:
        file.write(start + mark + given + end[end.index("</script>"):])
