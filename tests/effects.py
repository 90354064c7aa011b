"""Effects of dyndep files on listings of edges."""
import itertools

from tests.case import Case, each, lay, write
from tests.rows import effects as rows
from tests.rows.forms import edge
from tests.rows.projects import WRITTEN

OBJECTS = [b"l.o: cxx l.cpp", b"k.o: cxx k.cpp", b"main.o: cxx main.cpp"]
ENDED = (edge(b"l.o | mod/B.bmi: cxx l.cpp || 0.dd", b"0.dd") + b"  restat = 1\n"
         + edge(b"k.o | mod/K.bmi: cxx k.cpp | mod/B.bmi || 1.dd", b"1.dd") + b"  restat = 1\n"
         + edge(b"main.o: cxx main.cpp | mod/K.bmi || 2.dd", b"2.dd"))


@each(rows.ROWS, lambda row: row.name)
class Effects(Case):
    """Calls of `effect`."""


@each(itertools.permutations(range(3)), lambda order: f"dyndep files {order}")
class Orders(Case):
    """The dyndep files of the three targets of a project change a listing to the same edges in any
    order."""

    def check(self, order):
        lay({f"{it}.dd": WRITTEN[f"{it}.dd"] for it in order})
        text = b"".join(edge(b"%s || %d.dd" % (it, at), b"%d.dd" % at)
                        for at, it in enumerate(OBJECTS))
        for it in order:
            write("edges", text)
            status, text, err = self.caller.run("effect", f"{it}.dd", "edges", f"{it}.dd")
            self.same((status, err), (0, b""))
        self.same(text, ENDED)
