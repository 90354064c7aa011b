"""What is wrong in a document at the place that an error of it names."""
import codecs
import json
import os
import re

from explain_documents import Rule, beside, canonical, entries, parsed, read, shown
from explain_sources import imports_header

SPACE = b" \t\r\n"
DEEPEST = 127
HALF = re.compile(r"\\u[dD][89abAB]..(?!\\u[dD][c-fC-F])|(?<!\\u[dD][89abAB]..)\\u[dD][c-fC-F]")
# What the members of scan documents and info files have to be. The schemas say it of the others.
MEMBERS = {
    **dict.fromkeys(("rules", "provides", "requires", "modules"), "an array"),
    **dict.fromkeys(("primary-output", "work-directory", "logical-name", "compiled-module-path",
                     "target", "name", "bmi"), "a string"),
    **dict.fromkeys(("unique-on-source-path", "is-interface"), "true or false"),
    "lookup-method": "one of by-name, include-angle, include-quote",
    "visibility": "one of public, private", "rule": "an object", "entry": "an object",
}


def why_not_json(text):
    """The line and the column of an error of JSON, and what it is."""
    marks = {codecs.BOM_UTF8: "UTF-8", codecs.BOM_UTF16_LE: "UTF-16", codecs.BOM_UTF16_BE: "UTF-16"}
    for mark, name in marks.items():
        if text.startswith(mark):
            return f"The file begins with a byte-order mark ({name}). Write it as UTF-8 without " \
                "one."
    if not text.strip(SPACE):
        return f"The file is empty{', except for white space' if text else ''}."
    if not text.strip(b"\0"):
        return "The file has only zero bytes, as after a crash of the system."
    if text.startswith(b"ninja_dyndep_version"):
        return "It is a dyndep file."
    try:
        text = text.decode()
        json.loads(text, parse_int=len)
    except UnicodeDecodeError as error:
        line, column = line_and_column(text, error.start, b"\n")
        return f"Line {line}, column {column}: this byte ({text[error.start]:#04x}) is not UTF-8."
    except json.JSONDecodeError as error:
        is_cut = error.pos >= len(error.doc.rstrip()) or "Unterminated" in error.msg
        cut = " The file ends there, so it was cut off." if is_cut else ""
        return f"Line {error.lineno}, column {error.colno}: {error.msg}.{cut}"
    except RecursionError:
        pass
    at, what = not_read(text)
    return "Line {}, column {}: {}.".format(*line_and_column(text, at, "\n"), what)


def line_and_column(text, at, end):
    return text.count(end, 0, at) + 1, at - text.rfind(end, 0, at)


def not_read(text):
    """The offset of what dyncollate does not read as JSON though Python does, and what it is."""
    depth = 0
    for token in re.finditer(r'"(?:[^"\\]|\\.)*"|-?Infinity|NaN|-?\d[-+.\deE]*|[\[{]|[\]}]', text):
        word = token[0]
        depth += (word in "[{") - (word in "]}")
        half = HALF.search(word.replace("\\\\", "  "))
        if depth > DEEPEST:
            return token.start(), f"more than {DEEPEST} levels"
        if half and word[0] == '"':
            return token.start() + half.start(), "half of a surrogate pair"
        if word in ("NaN", "Infinity", "-Infinity"):
            return token.start(), f"{word} is not JSON"
        if word[0] in "-0123456789" and float(word) in (float("inf"), -float("inf")):
            return token.start(), "the number is too large"
    return 0, "not JSON"


def allowed(kind, member):
    """What a member of a document has to be, in a list that is empty if that is not known."""
    name = beside(f"{kind}.schema.json", "../docs")
    given = parsed(read(name))["properties"].get(member, {}) if name else {}
    values = [str(it) for it in given.get("enum", []) if it is not None]
    if values:
        return [f"`{member}` is one of {', '.join(values)}."]
    if "const" in given:
        return [f"`{member}` is {given['const']}."]
    kinds, types = {"string": "a string", "array": "an array of strings"}, given.get("type", [])
    types = [types] if isinstance(types, str) else types
    found = next((kinds[it] for it in types if it in kinds), None)
    found = found or (MEMBERS.get(member) if kind in ("scan", "info") else None)
    more = " that begins with /" if given.get("pattern") == "^/" else \
        " that is not empty" if given.get("minLength") else ""
    return [f"`{member}` is {found}{more}."] if found else []


def in_document(name, error, kind):
    """What is in a document at the place of an error, such as `rule 0 member provides`."""
    try:
        text = read(name)
    except OSError as problem:
        return [f"It cannot be read now: {problem.strerror}."]
    value = parsed(text)
    if error.code == "S1":
        return [why_not_json(text)]
    if error.code == "S2":
        version = value.get("version") if isinstance(value, dict) else None
        is_missing = version is None
        return ["It has no member version." if is_missing else f"Its version is {shown(version)}."]
    if error.code == "S8" and error.rest == "document":
        rules = entries(value or {}, "rules", object)
        return [f"It has {len(text):,} bytes and {len(rules):,} rules."]
    if kind == "target" and error.code in ("S6", "S7"):
        members = ("dyndep",) if error.code == "S7" else ("target", "private")
        return [f"Its {it} is {shown(value[it])}." for it in members if it in value]
    value, where, rule = at_place(value, error.rest, name)
    if value is None and not where:
        return []
    member = error.rest.partition(" member ")[2]
    if member and isinstance(value, dict) and member not in ("document", "rule", "entry"):
        where, value, owner = f"{where} member {member}", value.get(member), value
        found = [f"It has{where}: {shown(value)}."] if value is not None else [
            f"It is missing:{where}.", *misspelt(owner, member, kind)]
        return [*found, *allowed(kind, member)]
    found = [f"It has{where}: {shown(value)}."] if where else []
    named = value.get("logical-name") if isinstance(value, dict) else None
    is_header = error.code == "S5" or error.code == "S6" and "/" in str(named)
    return [*found, *(imports_header(rule, str(named)) if is_header else [])]


def at_place(value, place, scan):
    """The value at a place, the place with the names of its objects, and the rule that it is in."""
    words, where, rule = place.split(), "", None
    for word, index in zip(words[::2], words[1::2]):
        if word not in ("rule", "module", "provides", "requires"):
            continue
        try:
            value = value[{"rule": "rules", "module": "modules"}.get(word, word)][int(index)]
        except (LookupError, TypeError, ValueError):
            return None, "", None
        where += f" {word} {index}"
        if isinstance(value, dict) and word in ("rule", "module"):
            path = value.get("primary-output", value.get("name"))
            where += f" ({path})" if isinstance(path, str) else ""
            path = canonical(str(path), value.get("work-directory") or "", os.getcwd())
            rule = Rule(path, scan, int(index), False, [], [], None)
    return value, where, rule


def misspelt(owner, member, kind):
    """The member that is written in place of another."""
    import difflib
    unknown = [it for it in owner if not allowed(kind, it)]
    return [f"It has the member {it}." for it in difflib.get_close_matches(member, unknown, 1, 0.7)]
