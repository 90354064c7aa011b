"""Makes files with which a call fails smaller, as long as it fails:
by delta debugging (Zeller and Hildebrandt, 2002)."""
import json


def smaller(files, fails):
    """Some of these files, with some of their bytes, of which almost none can be left out: `fails`
    still holds of them. Members, elements and characters of a JSON text are left out, and lines and
    bytes of any text."""
    files = dict(least(list(files.items()), lambda parts: fails(dict(parts))))
    before = None
    while files != before:
        before = files
        for name in sorted(files, key=lambda it: -len(files[it])):
            files = (files | {name: least_text(
                files[name], lambda text, name=name: fails(files | {name: text}))})
    return files


def least_text(text, fails):
    text = least_document(text, fails)
    text = b"".join(least(text.splitlines(keepends=True), lambda parts: fails(b"".join(parts))))
    return bytes(least(list(text), lambda parts: fails(bytes(parts))))


def least(parts, fails):
    """Leaves out parts, in runs that get shorter, and in the end one by one.
    Returns the parts that are left."""
    run, before = len(parts), None
    while run:
        at = 0
        while at < len(parts):
            fewer = parts[:at] + parts[at + run:]
            if fails(fewer):
                parts = fewer
            else:
                at += run
        if run > 1:
            run //= 2
        elif len(parts) == before:
            run = 0
        before = len(parts)
    return parts


def least_document(text, fails):
    """A JSON text with fewer members and elements; any other text, and one that fails only in its
    own form, stays as it is."""
    def fails_as(tree):
        return fails(json.dumps(tree).encode())

    try:
        tree = json.loads(text)
    except (ValueError, RecursionError):
        return text
    return json.dumps(least_tree(tree, fails_as)).encode() if fails_as(tree) else text


def least_tree(tree, fails):
    if isinstance(tree, str):
        return "".join(least(list(tree), lambda parts: fails("".join(parts))))
    if not isinstance(tree, (dict, list)):
        return tree
    made = dict if isinstance(tree, dict) else lambda parts: [value for _, value in parts]
    parts = list(tree.items() if isinstance(tree, dict) else enumerate(tree))
    parts = least(parts, lambda parts: fails(made(parts)))
    for at, (key, value) in enumerate(parts):
        def fails_there(value, at=at, key=key):
            return fails(made(parts[:at] + [(key, value)] + parts[at + 1:]))

        parts[at] = key, least_tree(value, fails_there)
    return made(parts)
