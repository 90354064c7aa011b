"""Listings of build edges, as `order` and `effect` read and write them,
and the orders and cycles of their edges."""
from tests.case import Case, each, lay, read, rejected
from tests.rows import listings as rows
from tests.rows.forms import info, module, sources, target


@each(rows.ROWS, lambda row: row.name)
class Listings(Case):
    """Calls of `order` on a listing, and of `effect` with a dyndep file that changes nothing."""


class Graph:
    """A graph of up to three nodes. Each bit of a number is a need."""

    def __init__(self, count, bits):
        self.nodes = range(count)
        self.needs = [{to for to in self.nodes if bits >> (node * count + to) & 1}
                      for node in self.nodes]

    def order(self):
        """The first node that is ready comes next, until no node is left."""
        placed = []
        while True:
            ready = [node for node in self.nodes if node not in placed
                     and self.needs[node] <= set(placed)]
            if not ready:
                return placed
            placed.append(ready[0])

    def cycle(self):
        """The first of the shortest cycles through the first node that is on one."""
        for a in self.nodes:
            for cycle in ([(a,)] + [(a, b) for b in self.nodes] + [(a, b, c) for b in self.nodes
                                                                   for c in self.nodes]):
                if all(to in self.needs[node] for node, to in zip(cycle, cycle[1:] + cycle[:1])):
                    return cycle
        return None

    def near(self, a):
        """What a node leads to, and itself."""
        return [b for b in self.nodes if a == b or b in self.needs[a]
                or any(k in self.needs[a] and b in self.needs[k] for k in self.nodes)]


@each(range(4), lambda count: f"graphs of {count} edges")
class Graphs(Case):
    """Every graph of up to three edges, against a plain search."""

    def check(self, count):
        for bits in range(1 << count * count):
            graph = Graph(count, bits)
            self.ordered(graph)
            self.mapped(graph)

    def ordered(self, graph):
        lay({"edges": rows.listing([sorted(it) for it in graph.needs])})
        order = graph.order()
        wanted = ((0, b"".join(b"n%d\n" % it for it in order), b"")
                  if len(order) == len(graph.nodes)
                  else rejected(b"cycle " + b" -> ".join(b"n%d" % it for it in graph.cycle())))
        self.same(self.caller.run("order", "edges"), wanted, str(graph.needs))

    def mapped(self, graph):
        """What is needed, in the maps of objects that require modules of an info which require each
        other as the edges do."""
        modules = [module(b"m%d" % node, b"x/m%d" % node,
                          *((b"x/m%d" % it, b"m%d" % it) for it in graph.needs[node]))
                   for node in graph.nodes]
        lay({"l.info": info(*modules),
             "s.ddi": sources(*(b"o%d||m%d" % (it, it) for it in graph.nodes)),
             "t.target.json": target(b',"scans":["s.ddi"],"linked":["l.info"],"map":"gcc"')})
        self.same(self.caller.run("collate", "t.target.json"), (0, b"", b""), str(graph.needs))
        for node in graph.nodes:
            self.same(read(f"o{node}.modmap"),
                      b"".join(b"m%d x/m%d\n" % (it, it) for it in graph.near(node)),
                      str(graph.needs))
