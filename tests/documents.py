"""Scan documents, info files, target and project documents, and dyndep files: how the commands
read each kind, and what they print and write for it."""
from tests.case import Case, each
from tests.rows import dyndep_files, infos, projects, scan_documents, targets

for name, subject in {"ScanDocuments": scan_documents, "InfoFiles": infos, "Targets": targets,
                      "Projects": projects, "DyndepFiles": dyndep_files}.items():
    globals()[name] = each(subject.ROWS, lambda row: row.name)(
        type(name, (Case,), {"__module__": __name__, "__doc__": subject.__doc__}))
