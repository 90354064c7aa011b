"""Compares docs/target.schema.json and docs/project.schema.json with the rows: a document that is
rejected for what it says itself is not valid, and one that is accepted is, unless it has members
that the program ignores. Python's `jsonschema` is needed, as Debian has it in
python3-jsonschema."""
import json
import os
import re
import unittest
from pathlib import Path

from tests.tables import all_rows

try:
    import jsonschema
except ImportError:
    jsonschema = None

DOCS = Path(__file__).resolve().parent.parent / "docs"
# What no schema can say: for JSON 1.0 and 1e0 are 1, and which paths are above the root.
BEYOND = {"S2 BadVersion: version b'1.0'", "S2 BadVersion: version b'1e0'",
          "S3 BadShape: a build directory above the root"}

# The members that FORMATS has, and `$schema`, which editors read.
MEMBERS = {"target": {"version", "target", "module-dir", "module-ext", "build-dir", "scans",
                      "linked", "private", "dyndep", "info", "map", "edges", "restat", "$schema"},
           "project": {"version", "targets", "$schema"}}


def documents(row):
    """The target and project documents of a row that are known to be accepted or rejected: the
    kind, the text, and which. Whether a text is JSON, and how long it may be, is no matter of a
    schema."""
    files, line = row.texts(), (row.line or b"").decode(errors="replace")
    kind = {"collate": "target", "project": "project"}.get("".join(row.words[:1]))
    if (len(row.words) != 2 or not kind or row.words[1] not in files
        or re.search("S1 NotJson|S8 TooLarge", line)):
        return
    text, name = files[row.words[1]], row.name.split(" ", 1)[1]
    if name not in BEYOND:
        yield kind, text, not line.startswith(f"{kind}: ")
    if kind == "project" and not line.startswith("project: "):
        members = json.loads(text)["targets"]
        rejected = re.match(r"target (\d+): target: (?!.* member map)", line)
        for name in members if row.status == 0 else [members[int(rejected[1])]] if rejected else []:
            yield "target", files[os.path.normpath(name)], row.status == 0


@unittest.skipUnless(jsonschema, "python3-jsonschema: not there")
class Schemas(unittest.TestCase):
    @classmethod
    def setUpClass(cls):
        super().setUpClass()
        schemas = {it: json.loads((DOCS / f"{it}.schema.json").read_text())
                   for it in ("target", "project")}
        for schema in schemas.values():
            jsonschema.Draft7Validator.check_schema(schema)
        cls.valid = {it: jsonschema.Draft7Validator(schema).is_valid
                     for it, schema in schemas.items()}

    def test_rows(self):
        counts = dict.fromkeys([(kind, accepted) for kind in self.valid
                                for accepted in (False, True)], 0)
        for row in all_rows():
            for kind, text, accepted in documents(row):
                with self.subTest(row.name, line=row.line):
                    document = json.loads(text)
                    if isinstance(document, dict) and set(document) - MEMBERS[kind]:
                        self.assertFalse(self.valid[kind](document), "it has other members")
                        document = {name: value for name, value in document.items()
                                    if name in MEMBERS[kind]}
                    self.assertEqual(self.valid[kind](document), accepted)
                    counts[kind, accepted] += 1
        self.assertTrue(all(count >= 10 for count in counts.values()), counts)

    def test_misspelt_members(self):
        """Each member with a letter less, with another one, and in capitals. As it should be,
        it is valid."""
        smallest = {"target": {"version": 1, "target": "t", "module-dir": "", "module-ext": "",
                               "dyndep": "d", "info": "i"},
                    "project": {"version": 1, "targets": []}}
        for kind, document in smallest.items():
            for member in MEMBERS[kind]:
                right = (document
                         | {member: document.get(member, "x" if member == "$schema" else None)})
                self.assertTrue(self.valid[kind](right), member)
                for wrong in ({member[:at] + more + member[at + 1:] for at in range(len(member))
                               for more in ("", "q")} | {member.upper()}):
                    if wrong not in MEMBERS[kind]:
                        self.assertFalse(self.valid[kind](right | {wrong: right[member]}), wrong)

    def test_documents_of_the_pages(self):
        """Those that GUIDE and the manual show are valid."""
        pages = [(DOCS / it).read_text() for it in ("GUIDE.md", "dyncollate.1")]
        texts = [it for page in pages
                 for it in re.findall(r'^ *(\{"version":1,\s*"target.*?\})$', page, re.M | re.S)]
        shown = [json.loads(it) for it in texts]
        for document in shown:
            self.assertTrue(self.valid["project" if "targets" in document else "target"](document),
                            document)
        self.assertGreaterEqual(len(shown), 4)


if __name__ == "__main__":
    unittest.main()
