// What is drawn of a graph: boxes and edges with their places. A target can be one box.
import { plural } from "./documents.mjs";
import { nameOf } from "./graph.mjs";
import { layout } from "./layout.mjs";
import { near } from "./questions.mjs";

// From this number of objects on, each target is a box that can be opened. More boxes or edges
// than these are not drawn.
const FOLDED_FROM = 40;
const MOST = { boxes: 400, edges: 900, near: 60, cycle: 8 };
// What is opened if the objects in the middle of a long cycle are drawn.
export const REST = "rest";

/**
 * The boxes that are drawn for the nodes in `only`, or for all: targets that are not `opened`, and
 * objects.
 */
export function drawnGraph({ nodes, targets }, given = {}) {
  const { only = null, opened = new Set(), starts = [] } = given;
  const shown = only ? nodes.filter((node) => only.has(node)) : nodes;
  const objects = shown.filter((node) => node.kind === "object");
  const isFolded = targets.length > 1 && objects.length >= FOLDED_FROM;
  const boxes = new Map(), boxOf = new Map(), rest = restOfCycle(shown, opened, starts);
  for (const node of shown) {
    const isInTarget = isFolded && node.target !== null && !opened.has(node.target);
    const key = isInTarget ? targets[node.target] : rest.has(node) ? rest : node;
    if (!boxes.has(key)) {
      boxes.set(key, isInTarget ? boxOfTarget(key) : key === rest ? boxOfRest(rest)
        : boxOfNode(node, targets));
    }
    const box = boxes.get(key);
    box.count++;
    box.isBad ||= node.isBad && node.kind !== "missing";
    boxOf.set(node, box);
  }
  for (const node of shown) joinUsers(node, boxOf);
  const all = [...boxes.values()];
  for (const box of all) box.label = labelOf(box, targets);
  return { ...limited(all), isFolded, objects: shown.length };
}

function joinUsers(node, boxOf) {
  const from = boxOf.get(node);
  for (const user of node.to) {
    const to = boxOf.get(user);
    if (!to || (to === from && user !== node)) continue;
    if (!from.users.has(to)) {
      from.users.set(to, 0);
      from.to.push(to);
      to.from.push(from);
    }
    from.users.set(to, from.users.get(to) + 1);
    if (user.badFrom?.includes(node)) from.bad.add(to);
  }
}

/** The objects of a long cycle without the first two and the last, if they are not to be drawn. */
function restOfCycle(nodes, opened, starts) {
  const cycle = [], first = nodes.find((it) => it.badFrom?.length);
  for (let at = first; at && !cycle.includes(at); [at] = at.badFrom) cycle.push(at);
  const rest = cycle.slice(2, -1);
  const isDrawn = opened.has(REST) || starts.some((it) => rest.includes(it));
  return new Set(isDrawn || cycle.length <= MOST.cycle ? [] : rest);
}

const boxOfRest = ({ size }) => ({
  kind: REST, path: "of the cycle", target: null, name: `${size} more`, provides: [`${size} more`],
  requires: [], isBad: true, count: 0, ...noUsers() });

const boxOfTarget = (target) => ({
  kind: "target", path: target.file, file: target.file, target: target.index, name: target.name,
  provides: [target.name], requires: [], isBad: target.isBad, count: 0, ...noUsers() });

const boxOfNode = (node, targets) => ({
  kind: node.kind, path: node.path, file: node.file, target: node.target, isBad: node.isBad,
  provides: node.provides, requires: node.requires, name: nameOf(node),
  targetName: targets[node.target]?.name, count: 0, ...noUsers() });

const noUsers = () => ({ to: [], from: [], users: new Map(), bad: new Set() });

function labelOf(box, targets) {
  const name = box.provides.join(", "), more = box.requires.length > 30 ? ", …" : "";
  const imports = box.requires.slice(0, 30).join(", ") + more;
  if (box.kind === "missing") return `missing module ${name}: ${box.path}`;
  if (box.kind === "linked") return `module ${name} of ${box.path}`;
  if (box.kind === REST) return `${name} objects of the cycle`;
  if (box.kind === "target") {
    return `target ${name}, ${plural(box.count, "object")}` + (box.isBad ? ", with the error" : "");
  }
  const target = targets.length > 1 && `target ${box.targetName}`;
  return [box.path, name && `provides ${name}`, imports && `imports ${imports}`, target,
    box.isBad && "with the error"].filter(Boolean).join("\n");
}

/** What a view begins with: the error, else what is imported most. */
export function centreOf(boxes) {
  const bad = boxes.filter((it) => it.isBad);
  const more = (most, it) => (most?.to.length >= it.to.length ? most : it);
  return bad.find((it) => it.kind !== "target") ?? bad[0] ?? boxes.reduce(more, undefined);
}

/** As many boxes as can be drawn, those that are near the centre. */
function limited(boxes) {
  const centre = centreOf(boxes), count = boxes.reduce((sum, box) => sum + box.to.length, 0);
  if (boxes.length <= MOST.boxes && count <= MOST.edges) return { boxes, centre, left: 0 };
  let edges = 0;
  const found = new Set();
  for (const box of near(centre, MOST.near)) {
    edges += [...box.to, ...box.from].filter((it) => found.has(it)).length;
    if (edges > MOST.edges) break;
    found.add(box);
  }
  for (const box of found) box.to = box.to.filter((it) => found.has(it));
  return { boxes: [...found], centre, left: boxes.length - found.size };
}

/**
 * The drawing of an reply, or of the whole graph, as the page gets it: an edge has the indexes of
 * its boxes.
 */
export function drawingOf(graph, reply, opened) {
  const only = reply.found && reply.question !== "most" ? new Set(reply.found) : null;
  const { boxes, centre, left, isFolded } = drawnGraph(graph, { only, opened: new Set(opened),
    starts: reply.starts });
  const { edges, width, height } = layout(boxes);
  const hasCycle = graph.nodes.some((it) => it.badFrom?.length);
  const indexes = new Map(boxes.map((box, index) => [box, index])), [start] = reply.starts;
  const isStart = (box) => start && box.target === start.target
    && (box.kind === "target" || box.path === start.path);
  const drawn = edges.map((edge) => edgeOf(edge, indexes, hasCycle));
  return {
    boxes: boxes.map(sentBox), width, height, isFolded, left, said: reply.said,
    edges: drawn.sort((one, other) => one.isBad - other.isBad),
    chosen: boxes.findIndex(isStart), centre: indexes.get(centre) ?? -1,
    targets: graph.targets.map(({ name, index }) => ({ name, index })),
    objects: graph.nodes.filter((it) => it.kind === "object").length,
    imports: graph.nodes.reduce((sum, it) => sum + it.to.length, 0),
  };
}

const sentBox = ({ kind, path, file, target, isBad, provides, name, label, count, x, y, column }) =>
  ({ kind, path, file, target, isBad, provides: provides.slice(0, 3), name, label, count, x, y,
    column });

function edgeOf({ from, to, via = [], isBack, inCycle, low }, indexes, hasCycle) {
  return { from: indexes.get(from), to: indexes.get(to), isBack, low,
    via: via.map(({ x, middle }) => ({ x, middle })), count: from.users.get(to),
    isBad: hasCycle ? from.bad.has(to) : inCycle };
}
