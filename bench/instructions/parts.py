"""Adds up the instructions in a profile of callgrind by parts: parts.py PROFILE.
measure.sh says what the parts are.

A function belongs to the part that its name or its library belongs to, and counts without what it
calls. memset is left out of the sum: it sets many bytes by one instruction, which callgrind counts
for each of them.
"""
import re
import sys
from collections import Counter

ORDER = ("start", "arguments", "files", "JSON", "documents", "paths, names", "table", "texts",
         "program", "library", "memory", "copies")
# The part of the functions whose library or name has this in it. The first line that fits counts.
LIBRARY, NAME = 0, 1
PARTS = [(what, re.compile(pattern), part) for what, pattern, part in [
    (LIBRARY, r"ld-linux|/ld-", "start"),
    (NAME,
     r"^_?_?(libc_)?(int_)?(malloc|free|realloc|calloc)|malloc_consolidate|unlink_chunk|sysmalloc"
     r"|systrim|^rattle_(re|de)?alloc|tcache|alloc_perturb|^_int_", "memory"),
    (NAME, r"memset", "set"),
    (NAME, r"mem(cpy|move|cmp)|^bcmp", "copies"),
    (LIBRARY, r"libc|libpthread", "files"),
    (NAME,
     r"system_files|SystemFiles|::fs::|std_io|io::|rattle_(open|read|write|close|rename|file|fs)",
     "files"),
    (NAME, r"^(serde_json|serde|json|simdutf8|itoa|ryu|fast_float|arrayvec)::|serde_json\+\+",
     "JSON"),
    (NAME, r"^clap|^command_line|^strsim", "arguments"),
    (NAME, r"^ninja_text::(paths|reduction)|Path\+|scan_docs::(name|target_name)", "paths, names"),
    (NAME, r"^scan_docs", "documents"),
    (NAME, r"^(module_table|dep_order|indexmap)|indexmap|Hasher|hash", "table"),
    (NAME, r"^(dyndep_file|module_maps|build_effect|ninja_text)", "texts"),
    (NAME, r"^(collate_core|commands|dyncollate)", "program"),
    (NAME, r"", "library"),]]
MENTIONED = re.compile(r"(c?)(ob|fl|fi|fe|fn)=\((\d+)\)(?: (.*))?")
COST = re.compile(r"[+*-]?\d* (\d+)")


def counted(lines):
    """The instructions of each function, by its library and its name."""
    # a file, a library or a function has a number, and its name only at its first mention
    names, counts = {}, Counter()
    library = name = ""
    for line in lines:
        mentioned = MENTIONED.match(line)
        if mentioned:
            called, kind, number, text = mentioned.groups()
            key = "fl" if kind in ("fi", "fe") else kind, number
            if text:
                names[key] = text
            if not called and kind == "ob":
                library = names[key]
            elif not called and kind == "fn":
                name = names[key]
        elif line.startswith("calls="):
            next(lines)  # what the called function counts
        else:
            cost = COST.fullmatch(line.rstrip("\n"))
            if cost:
                counts[library, name] += int(cost[1])
    return counts


def main():
    parts = Counter()
    with open(sys.argv[1], encoding="utf-8") as profile:
        for function, count in counted(iter(profile)).items():
            parts[next(part for what, pattern, part in PARTS
                       if pattern.search(function[what]))] += count
    print(*(parts[part] for part in ORDER), sum(parts.values()) - parts["set"])


main()
