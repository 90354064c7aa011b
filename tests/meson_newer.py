"""The tests of Meson builds with a second Meson, which NEWER_MESON names, or none."""
from tests import meson, meson_builds, meson_edits


class Tree(meson.Tree):
    generator = staticmethod(lambda: meson.meson("NEWER_MESON", ""))
    package = "the Meson that NEWER_MESON names"


class Newer:
    tree_class = Tree


class Adoption(Newer, meson.Adoption):
    pass


class ProjectsWithClang(Newer, meson_builds.ProjectsWithClang):
    pass


class ProjectsWithGcc(Newer, meson_builds.ProjectsWithGcc):
    pass


class EditsWithClang(Newer, meson_edits.EditsWithClang):
    pass


class EditsWithGcc(Newer, meson_edits.EditsWithGcc):
    pass
