// Draws a graph as SVG. Each box is an element that can have the focus; the arrow keys move from
// box to box.
import { REST } from "./boxes.mjs";
import { plural } from "./documents.mjs";
import { fill } from "./elements.mjs";
import { SIZE } from "./layout.mjs";

const SVG = "http://www.w3.org/2000/svg";

export function element(tag, attributes, ...inside) {
  const made = document.createElementNS(SVG, tag);
  for (const [name, value] of Object.entries(attributes)) made.setAttribute(name, value);
  made.append(...inside);
  return made;
}

/**
 * The drawing of boxes and edges, with what an error is about in red. `opens` is called with a box
 * that is chosen. `draw` draws them.
 */
export function drawing(graph, opens) {
  const { boxes, edges, width, height } = graph, isColoured = graph.targets.length > 1;
  const svg = element("svg", { viewBox: `0 0 ${width} ${height}`, role: "group",
    "aria-label": titleOf(graph) });
  svg.size = { width, height };
  const layers = ["lines", "boxes"].map((name) => element("g", { class: name }));
  const lines = [], groups = [];
  svg.append(...layers);
  // (a listener for the focus on the SVG itself would make it a place for the focus)
  const frame = document.createElement("div");
  frame.className = "frame";
  frame.append(svg);
  const focus = react(frame, graph, groups, lines, opens);
  const draw = async () => {
    await fill(layers[1], boxes, (box) => drawnBox(box, isColoured), groups);
    focus();
    await fill(layers[0], edges, (edge) => drawnEdge(edge, boxes), lines);
  };
  return { frame, svg, draw };
}

function titleOf({ boxes, edges }) {
  const kinds = [["target", "target"], ["object", "object"], ["linked", "linked module"],
    ["missing", "missing module"]];
  const countOf = (kind) => boxes.filter((box) => box.kind === kind).length;
  const counts = kinds.map(([kind, word]) => [countOf(kind), word]).filter(([count]) => count);
  return [...counts, [edges.length, "import"]].map((it) => plural(...it)).join(", ");
}

const short = (text, size) => (text.length > size ? `…${text.slice(1 - size)}` : text);

function drawnEdge(edge, boxes) {
  const [from, to] = [boxes[edge.from], boxes[edge.to]];
  const group = element("g", { class: edge.isBad ? "edge bad" : "edge" });
  const user = to.kind === "object" ? to.path : to.name;
  const isOfTargets = [from, to].some((box) => box.kind === "target");
  const isOfRest = [from, to].some((box) => box.kind === REST);
  const text = isOfRest ? "imports of the cycle"
    : isOfTargets ? `${user} imports ${from.name}, ${plural(edge.count, "time")}`
    : `${user} imports ${from.provides.join(", ") || from.path}`;
  group.append(element("path", { d: wayOf(edge, from, to), class: "way" }),
    element("path", { d: `M${to.x},${middleOf(to)}l-9,-4.5v9z`, class: "head" }),
    element("title", {}, text));
  return group;
}

const middleOf = (box) => box.y + SIZE.height / 2;

function wayOf({ via, isBack, low }, from, to) {
  let x = from.x + SIZE.width, y = middleOf(from), way = `M${x},${y}`;
  const end = middleOf(to);
  if (isBack) {
    const right = x + SIZE.turn, left = to.x - SIZE.turn;
    const turn = `C${left},${low} ${left},${end} ${to.x - 8},${end}`;
    return `${way}C${right},${y} ${right},${low} ${x},${low}H${to.x}${turn}`;
  }
  const curve = (toX, toY) => {
    way += `C${(x + toX) / 2},${y} ${(x + toX) / 2},${toY} ${toX},${toY}`;
    [x, y] = [toX, toY];
  };
  for (const bend of via) {
    curve(bend.x, bend.middle);
    x = bend.x + SIZE.width;
    way += `H${x}`;
  }
  curve(to.x - 8, end);
  return way;
}

/**
 * A box with the modules of an object and its path. With several targets a stripe has the target's
 * colour.
 */
function drawnBox(box, isColoured) {
  const module = box.kind === "object" && !box.provides.length ? "" : box.provides.join(", ");
  const marks = [box.isBad && "bad", box.provides.length && "provides"].filter(Boolean);
  const group = element("g", {
    class: ["node", box.kind, ...marks].join(" "), transform: `translate(${box.x},${box.y})`,
    role: "button", tabindex: "-1", "aria-label": box.label });
  group.append(element("rect", { width: SIZE.width, height: SIZE.height, rx: 7, class: "box" }));
  if (isColoured && box.target !== null) {
    const stripe = element("rect", { width: 4, height: SIZE.height - 14, x: 6, y: 7, rx: 2,
      class: "stripe" });
    stripe.style.fill = hueOf(box.target);
    group.append(stripe);
  }
  const left = isColoured ? 17 : 11, most = isColoured ? 20 : 22;
  if (module) group.append(element("text", { x: left, y: 18, class: "module" },
    short(module, most)));
  const below = box.kind === "target" ? plural(box.count, "object") : box.path;
  const place = module ? { x: left, y: 33, class: "path" } : { x: left, y: 25, class: "module" };
  group.append(element("text", place, short(below, module ? most + 4 : most)),
    element("title", {}, box.label));
  return group;
}

/** A colour for each target: hues as far apart as the golden angle. */
export const hueOf = (index) => `oklch(58% 0.14 ${Math.round((index * 137.5 + 250) % 360)})`;

/**
 * The mouse and the focus show the edges of a box; the arrow keys move the focus, and Enter opens
 * it.
 */
function react(frame, { boxes, edges, chosen, centre }, groups, lines, opens) {
  const indexOf = (event) => groups.indexOf(event.target.closest?.(".node"));
  const show = (index) => {
    const near = new Set([index]);
    edges.forEach((edge, at) => {
      const touches = index < 0 || edge.from === index || edge.to === index;
      lines[at]?.classList.toggle("dim", !touches);
      if (touches && index >= 0) near.add(edge.from).add(edge.to);
    });
    groups.forEach((group, at) => group.classList.toggle("dim", index >= 0 && !near.has(at)));
  };
  const focus = (index) => {
    for (const group of frame.querySelectorAll(".node[tabindex='0']")) {
      group.setAttribute("tabindex", "-1");
    }
    groups[index]?.setAttribute("tabindex", "0");
  };
  frame.addEventListener("pointerover", (event) => show(indexOf(event)));
  frame.addEventListener("pointerleave", () => show(-1));
  frame.addEventListener("focusin", (event) => {
    show(indexOf(event));
    focus(indexOf(event));
  });
  frame.addEventListener("focusout", () => show(-1));
  frame.addEventListener("click", (event) => indexOf(event) >= 0 && opens(boxes[indexOf(event)]));
  frame.addEventListener("keydown", (event) => {
    const index = indexOf(event);
    if (index < 0) return;
    if (event.key === "Enter" || event.key === " ") opens(boxes[index]);
    const next = neighbour(event.key, index, boxes, edges);
    groups[next]?.focus();
    const isOurs = next !== undefined || [" ", "Enter"].includes(event.key);
    if (isOurs || event.key.startsWith("Arrow")) event.preventDefault();
  });
  return () => {
    focus(Math.max(0, chosen, chosen < 0 ? centre : 0));
    groups[chosen]?.classList.add("chosen");
  };
}

/**
 * The box that an arrow key moves to: along an edge to the left or right, or in the same column up
 * or down.
 */
function neighbour(key, index, boxes, edges) {
  const { y, column } = boxes[index];
  const distance = (at) => Math.abs(boxes[at].y - y);
  const nearest = (found) => found.sort((one, other) => distance(one) - distance(other))[0];
  const along = (start, end) => nearest(edges
    .filter((edge) => edge[start] === index && edge[end] !== index).map((edge) => edge[end]));
  const inColumn = (is) => nearest([...boxes.keys()]
    .filter((at) => boxes[at].column === column && is(boxes[at].y)));
  return { ArrowRight: () => along("from", "to"), ArrowLeft: () => along("to", "from"),
    ArrowDown: () => inColumn((it) => it > y),
    ArrowUp: () => inColumn((it) => it < y) }[key]?.();
}
