"""Modules of a target and of the targets that it links: errors, and the modules that an object
needs through others."""
from tests.case import Case, each, lay, read
from tests.rows import V
from tests.rows import modules as rows
from tests.rows.forms import document, rule, statement, target
from tests.rows.modules import NEEDS


@each(rows.ROWS, lambda row: row.name)
class Faults(Case):
    """Calls of `one` and `collate` on modules that do not fit together."""


def collate(test, files, more):
    """Collates a target with these files."""
    lay(files | {"t.target.json": target(more)})
    test.same(test.caller.run("collate", "t.target.json"), (0, b"", b""))


@each(NEEDS, lambda row: row[0])
class Needs(Case):
    """What an object needs, as GCC's map tells it."""

    def check(self, row):
        _, its_sources, infos, maps = row
        lay(rows.linking(its_sources, infos, b',"map":"gcc"'))
        self.same(self.caller.run(*rows.CALL), (0, b"", b""))
        self.same([read(it.split(b"|")[0] + b".modmap") for it in its_sources], maps)

    def test_the_statement_of_a_cycle_inside_an_info_file(self):
        _, its_sources, infos, _ = next(row for row in NEEDS if row[0].startswith("a cycle"))
        lay(rows.linking(its_sources, infos))
        self.same(self.caller.run(*rows.CALL), (0, b"", b""))
        self.same(read("t.dd"), V + statement(b"main.o", b"", b"k/K.bmi"))


COUNT, WIDTH = 1000, 100


def below(number):
    """The two objects of the layer below that an object requires."""
    at = number % WIDTH
    base = number - WIDTH - at
    return {base + (7 * at + 3) % WIDTH, base + (13 * at + 5) % WIDTH} if base >= 0 else set()


def layered(number):
    """A rule of an object in a layer. Later objects have names that come first."""
    required = b" ".join(b"m%d" % (9999 - it) for it in sorted(below(number)))
    name = 9999 - number
    text = rule(b"o%d.o|m%d|%s" % (number, name, required))
    return text.replace(b'"m%d"}' % name,
                        b'"m%d","compiled-module-path":"mod/m%d.bmi"}' % (name, number), 1)


def reached(number):
    """The objects that a plain search from layer to layer finds."""
    found = layer = below(number)
    while layer:
        layer = set().union(*map(below, layer))
        found = found | layer
    return found


class Long(Case):
    seconds = 2

    def test_needs_of_a_thousand_objects_in_layers(self):
        """Each module of a layer, except the lowest of ten, requires two of the layer below."""
        collate(self, {"s.ddi": document(*map(layered, range(COUNT)))},
                b',"scans":["s.ddi"],"map":"gcc"')
        for number in range(COUNT):
            wanted = [number] + sorted(reached(number), reverse=True)
            self.same(read(f"o{number}.o.modmap"),
                      b"".join(b"m%d mod/m%d.bmi\n" % (9999 - it, it) for it in wanted))

    def test_collate_a_chain_of_20_000_objects(self):
        collate(self, {"s.ddi": rows.chain(rows.LONG_CYCLE, b"")}, b',"scans":["s.ddi"]')
        self.same(read("t.dd"), rows.CHAIN)
