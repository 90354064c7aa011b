// The graph in forms to keep: a table, and DOT for Graphviz.
import { nameOf } from "./graph.mjs";

const HEAD = ["Module", "Object", "Target", "Imports", "Imported by", "Seconds"];

/** The rows of nodes, as many as are asked for, with a head. */
export function tableOf(nodes, targets, most) {
  const rows = nodes.slice(0, most).map((node) => [
    node.provides.join(", "), node.kind === "object" ? node.path : `(${node.kind})`,
    targets[node.target]?.name ?? "", node.from.length, node.to.length,
    node.seconds?.toFixed(2) ?? ""]);
  const isTimed = nodes.some((node) => node.seconds !== undefined);
  const cut = (row) => (isTimed ? row : row.slice(0, -1));
  return { head: cut(HEAD), rows: rows.map(cut), left: nodes.length - rows.length };
}

const quoted = (text) => `"${text.replace(/["\\]/g, "\\$&")}"`;

/** The drawn graph in DOT, with a cluster for each target. */
export function dotOf({ boxes, edges }, targets) {
  const line = (box, index) =>
    `n${index} [label=${quoted(nameOf(box))}${box.isBad ? ", color=red" : ""}];`;
  const lines = ["digraph modules {", "rankdir=LR;", "node [shape=box];"], ofTarget = new Map();
  boxes.forEach((box, index) => {
    const isInside = box.kind === "object" && targets.length > 1;
    if (isInside) ofTarget.set(box.target, [...(ofTarget.get(box.target) ?? []), line(box, index)]);
    else lines.push(line(box, index));
  });
  for (const [target, inside] of ofTarget) {
    const label = `label=${quoted(targets[target].name)};`;
    lines.push(`subgraph cluster_${target} {`, label, ...inside, "}");
  }
  const arrow = ({ from, to, isBad }) => `n${from} -> n${to}${isBad ? " [color=red]" : ""};`;
  return [...lines, ...edges.map(arrow), "}"].join("\n") + "\n";
}
