"""Edge listings, what dyndep files do to edges, and the order of edges: docs/FORMATS.md,
"Edge listings"."""
import re

from .digraphs import least_cycle, least_order, repeated
from .dyndeps import Statement
from .lines import LINE_LIMIT, assignment_of, sound_lines, value_of
from .paths import PathFault, Rejected, escaped, path_of


def edge_of(rule, outputs, implicit, inputs, implicit_inputs, order_only, dyndep=None,
            restat=False):
    return {"rule": rule, "outputs": outputs, "implicit": implicit, "inputs": inputs,
            "implicit inputs": implicit_inputs, "order only": order_only, "dyndep": dyndep,
            "restat": restat}


def made_by(edge):
    return edge["outputs"] + edge["implicit"]


def needed_by(edge):
    return edge["inputs"] + edge["implicit inputs"] + edge["order only"]


def edge_text(edge):
    line = b"build" + b"".join(b" " + escaped(it) for it in edge["outputs"])
    for mark, part in ((b" |", "implicit"),
                       (b": " + edge["rule"], "inputs"), (b" |", "implicit inputs"),
                       (b" ||", "order only")):
        if edge[part] or part == "inputs":
            line += mark + b"".join(b" " + escaped(it) for it in edge[part])
    return line + b"\n"


def listing_text(edges):
    """The text of a listing; the first edge whose build line is too long is rejected."""
    text = []
    for edge in edges:
        line = edge_text(edge)
        if len(line) > LINE_LIMIT:
            raise Rejected(b"E9 ListingTooLong " + edge["outputs"][0])
        text.append(line)
        text.append(b"  dyndep = " + escaped(edge["dyndep"]) + b"\n" if edge["dyndep"] else b"")
        text.append(b"  restat = 1\n" if edge["restat"] else b"")
    return b"".join(text)


# a build line with a letter for each token
EDGE = re.compile(r"bw+(\|w*)?:ww*(\|w*)?(ow*)?")
LETTERS = {b"|": "|", b":": ":", b"||": "o", b"|@": "@"}


def edge_read(tokens):
    """The edge of a build line's tokens, with unescaped paths,
    or None if the line has another form."""
    letters = "".join(LETTERS.get(it, "w") for it in tokens[1:])
    if not EDGE.fullmatch("b" + letters):
        return None
    at = tokens.index(b":")
    rule = tokens[at + 1]
    if not re.fullmatch(rb"[A-Za-z0-9_.-]+", rule):
        return None
    made, needed = divided(tokens[1:at], [b"|"]), divided(tokens[at + 2:], [b"|", b"||"])
    return edge_of(rule, *made, *needed)


def divided(tokens, marks):
    """The words before the first of these marks, and after each of them: none,
    if a mark is left out."""
    parts = {mark: [] for mark in [b""] + marks}
    mark = b""
    for token in tokens:
        if token in marks:
            mark = token
        else:
            parts[mark].append(value_of(token))
    return list(parts.values())


PARTS = ("outputs", "implicit", "inputs", "implicit inputs", "order only")


def listing_of(text):
    """The edges of a listing, or the error of its first faulty line, or why they are no graph."""
    edges, taken = [], None
    for where, line, tokens in sound_lines(text, b"edges: "):
        if not tokens:
            taken = None
        elif line.startswith(b" "):
            edge_bound(edges, taken, assignment_of(line), where)
        elif tokens[0] == (0, b"build"):
            edges.append(edge_placed(edge_read([it for _, it in tokens]), where))
            taken = set()
        else:
            raise Rejected(where + b"E3 Form")
    return graph_of(edges)


def edge_bound(edges, taken, assigned, where):
    """Gives the last edge the binding of an indented line.
    `taken` has the names of those that it has."""
    if (taken is None or not assigned or assigned[1] not in (b"dyndep", b"restat")
        or assigned[1] in taken):
        raise Rejected(where + b"E3 Form")
    taken.add(assigned[1])
    if assigned[1] == b"restat":
        edges[-1]["restat"] = assigned[2] != b""
    else:
        edges[-1]["dyndep"] = listed_path(assigned[2], where)


def edge_placed(edge, where):
    """The edge with its paths made canonical."""
    if edge is None:
        raise Rejected(where + b"E3 Form")
    for part in PARTS:
        edge[part] = [listed_path(it, where) for it in edge[part]]
    return edge


def listed_path(path, where):
    try:
        return path_of(path)
    except PathFault as fault:
        raise Rejected(where + b"E3 Path " + fault.text) from fault


def graph_of(edges):
    twice = repeated([it for edge in edges for it in made_by(edge)])
    if twice:
        raise Rejected(b"E1 ProducedTwice " + twice[0])
    for edge in edges:
        if edge["dyndep"] and edge["dyndep"] not in needed_by(edge):
            raise Rejected(b"E2 DyndepNotInput " + edge["outputs"][0])
    return edges


def after(edges, statements, name):
    """The edges after the effect of the statements of a dyndep file of this name,
    or why they have none."""
    placed = [statement_placed(at, it) for at, it in enumerate(statements)]
    producer = {it: at for at, edge in enumerate(edges) for it in made_by(edge)}
    for it in placed:
        if it.output not in producer or edges[producer[it.output]]["dyndep"] != name:
            raise Rejected(b"E5 NotBound " + it.output)
    on = [producer[it.output] for it in placed]
    twice = repeated(on)
    if twice:
        raise Rejected(b"E4 StatementTwice " + placed[twice[2]].output)
    for at, edge in enumerate(edges):
        if edge["dyndep"] == name and at not in on:
            raise Rejected(b"E6 NotMentioned " + edge["outputs"][0])
    made = set(producer)
    for it in placed:
        for path in it.outputs:
            if path in made:
                raise Rejected(b"E7 AddedTwice " + path)
            made.add(path)
    edges = [dict(it) for it in edges]
    for at, it in zip(on, placed):
        edge = edges[at]
        edge["implicit"] = edge["implicit"] + it.outputs
        edge["implicit inputs"] = edge["implicit inputs"] + it.inputs
        edge["restat"] = edge["restat"] or it.restat
    return edges


def statement_placed(at, statement):
    """The statement with its paths made canonical."""
    paths = []
    for path in [statement.output] + statement.outputs + statement.inputs:
        try:
            paths.append(path_of(path))
        except PathFault as fault:
            raise Rejected(b"E8 BadPath statement %d path %d %s" % (at, len(paths),
                                                                    fault.text)) from fault
    behind = 1 + len(statement.outputs)
    return Statement(paths[0], paths[1:behind], paths[behind:], statement.restat)


# ---- orders

def needs_of(edges):
    producer = {it: at for at, edge in enumerate(edges) for it in made_by(edge)}
    return [{producer[it] for it in needed_by(edge) if it in producer} for edge in edges]


def order_of(edges):
    """The first outputs of the edges in their order, or their least cycle."""
    needs = needs_of(edges)
    first = [edge["outputs"][0] for edge in edges]
    cycle = least_cycle(needs)
    if cycle:
        raise Rejected(b"cycle " + b" -> ".join(first[it] for it in cycle))
    return [first[it] for it in least_order(needs)]
