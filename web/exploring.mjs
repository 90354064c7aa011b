// The tabs, the graph, and questions about it. An address is
// #EXAMPLE&name=NAME&question=QUESTION&other=NAME.
import { ask, busily } from "./asking.mjs";
import { REST } from "./boxes.mjs";
import { boxesOf, fileOf, plural } from "./documents.mjs";
import { drawing, hueOf } from "./drawing.mjs";
import { $, fill, keep, make, state } from "./elements.mjs";
import { openFile } from "./filing.mjs";

const TABS = { graph: "Graph", table: "Table", output: "Output", dyndep: "Dyndep files",
  map: "Module maps", info: "Info files" };

const isOfGraph = (name) => name === "graph" || name === "table";

/** Shows the tabs that have something. */
export function fillTabs() {
  const counts = state.summary?.counts ?? {}, has = (name) => isOfGraph(name) || counts[name] > 0;
  if (!has(state.tab)) state.tab = "graph";
  for (const [name, title] of Object.entries(TABS)) {
    const tab = $(`tab-${name}`);
    tab.hidden = !has(name);
    tab.setAttribute("aria-selected", String(name === state.tab));
    tab.tabIndex = name === state.tab ? 0 : -1;
    tab.textContent = isOfGraph(name) || name === "output" ? title : `${title} ${counts[name]}`;
  }
  $("view").setAttribute("aria-labelledby", `tab-${state.tab}`);
  for (const id of ["zoom", "legend"]) $(id).hidden = state.tab !== "graph";
  $("questions").hidden = $("reply").hidden = !isOfGraph(state.tab);
}

export function makeTabs() {
  $("tabs").replaceChildren(...Object.entries(TABS).map(([name, title]) =>
    make("button", { role: "tab", id: `tab-${name}`, "aria-controls": "view",
      onclick: () => busily(selectTab, name) }, title)));
  $("tabs").addEventListener("keydown", moveInTabs);
}

function moveInTabs(event) {
  const shown = Object.keys(TABS).filter((name) => !$(`tab-${name}`).hidden);
  const index = shown.indexOf(state.tab), last = shown.length - 1;
  const to = { ArrowRight: index + 1, ArrowLeft: index + last, Home: 0, End: last }[event.key];
  if (to === undefined) return;
  event.preventDefault();
  const name = shown[to % shown.length];
  busily(selectTab, name);
  $(`tab-${name}`).focus();
}

async function selectTab(name) {
  state.tab = name;
  fillTabs();
  await showTab();
}

async function showTab() {
  if (state.tab === "graph") return showGraph();
  state.look.clear();
  if (state.tab === "table") return showTable();
  return $("view").replaceChildren(...await shownOutputs());
}

async function shownOutputs() {
  const { shown, left } = await ask("outputs", state.tab);
  const textOf = (name, text) => (name.endsWith(".json") ? indented(text) : text);
  const sections = shown.map(([name, text]) => make("section", { class: "output" },
    make("h3", {}, name), make("pre", { tabindex: "0", "aria-label": name }, textOf(name, text))));
  const note = make("p", { class: "note" }, `${plural(left, "more file")} not shown.`);
  return left > 0 ? [...sections, note] : sections;
}

function indented(text) {
  const file = fileOf("", text);
  return file.value === null ? text : JSON.stringify(file.value, null, 1);
}

async function showTable() {
  const { head, rows, left } = await ask("table");
  const keeps = make("button", { onclick: () => busily(keepTable) }, "Keep all rows");
  const cells = (tag, row) => make("tr", {}, ...row.map((it) => make(tag, {}, String(it))));
  const more = left > 0 ? ` ${plural(left, "more row")} not shown.` : "";
  const body = make("tbody"), label = $("reply").textContent || "All objects";
  const table = make("table", { "aria-label": label }, make("thead", {}, cells("th", head)), body);
  $("view").replaceChildren(make("p", { class: "note" }, keeps, more), table);
  await fill(body, rows, (row) => cells("td", row));
}

async function keepTable() {
  keep("modules.tsv", "text/tab-separated-values", await ask("tableText"));
}

// ---- the graph

/** Asks a question about the graph, and shows the answer. */
export async function askGraph(asks) {
  const all = { name: "", question: "find", other: "", ...asks };
  for (const [name, value] of Object.entries(all)) $(name).value = value;
  $("otherlabel").hidden = $("question").value !== "path";
  state.drawn = await ask("ask", asks, [...state.opened]);
  $("reply").textContent = state.drawn.said;
  await showTab();
}

async function showGraph() {
  const { drawn } = state;
  legend(drawn);
  if (!drawn.boxes.length) {
    state.look.clear();
    const text = state.summary ? "These documents have no object to draw." : "";
    return $("view").replaceChildren(make("p", { class: "note" }, text));
  }
  const { frame, svg, draw } = drawing(drawn, (box) => busily(choose, box));
  $("view").replaceChildren(frame);
  state.look.show(svg, drawn.boxes, drawn.boxes[drawn.chosen < 0 ? drawn.centre : drawn.chosen]);
  return draw();
}

/** A target opens, or closes; the file of an object opens. */
async function choose(box) {
  address({ ...asksOfAddress(), name: box.name });
  $("name").value = box.name;
  if (box.kind === "target") return toggle(box.target);
  if (box.kind === REST) return toggle(REST);
  if (box.file) await openFile(box.file);
  return null;
}

async function toggle(target) {
  if (!state.opened.delete(target)) state.opened.add(target);
  await askGraph(asksOfAddress());
  $("view").querySelector(".node[tabindex='0']")?.focus({ preventScroll: true });
}

// The kinds of boxes that the legend explains: a class of style, what it means, and which boxes are
// of it.
const LEGEND = [
  ["provides target", "a target, which opens", (box) => box.kind === "target"],
  ["provides", "a module and its object", (box) => box.kind === "object" && box.provides.length],
  ["plain", "an object without a module", (box) => box.kind === "object" && !box.provides.length],
  ["linked", "from an info file", (box) => box.kind === "linked"],
  ["missing", "missing", (box) => box.kind === "missing"],
  ["bad", "the error", (box) => box.isBad && !["missing", REST].includes(box.kind)],
  ["bad rest", "more of the cycle, which open", (box) => box.kind === REST],
];
const MOST_COLOURS = 12;

function legend({ boxes, targets, isFolded, left, objects, imports }) {
  const kinds = LEGEND.filter(([, , is]) => boxes.some(is))
    .map(([name, text]) => make("li", {}, make("i", { class: `key ${name}` }), text));
  const shown = new Set(boxes.filter((box) => box.kind === "object").map((box) => box.target));
  const coloured = targets.length > 1 ? targets.filter((it) => shown.has(it.index)) : [];
  const colours = coloured.slice(0, MOST_COLOURS).map(keyOfTarget(isFolded));
  const counts = `${plural(objects, "object")} and ${plural(imports, "import")}`;
  const texts = [isFolded && `${counts} in ${plural(targets.length, "target")}.`,
    left > 0 && `${boxesOf(left)} further away are not drawn: search by name.`,
    boxes.length && "An arrow leads to the importer."];
  const text = texts.filter(Boolean).join(" ");
  $("legend").replaceChildren(make("ul", {}, ...kinds, ...colours), make("p", {}, text));
}

/** The colour of a target. An open one has a button that closes it. */
const keyOfTarget = (isFolded) => ({ name, index }) => {
  const key = make("i", { class: "key stripe" });
  key.style.background = hueOf(index);
  const closes = { class: "link", title: "Close", onclick: () => busily(toggle, index) };
  const isOpen = isFolded && state.opened.has(index);
  return make("li", {}, key, isOpen ? make("button", closes, `${name} ×`) : name);
};

// ---- addresses and questions

const words = () => location.hash.slice(1).split("&").filter(Boolean);
export const slug = (name) => name.replaceAll(" ", "-");

/** The name of the example that the address has. */
export const exampleOfAddress = () =>
  Object.keys(state.examples).find((name) => words().includes(slug(name)));

/** The question that the address has. */
export function asksOfAddress() {
  const found = words().filter((it) => it.includes("=")).map((it) => it.split("="));
  return Object.fromEntries(found.map(([name, value]) => [name, decodeURIComponent(value)])
    .filter(([name]) => ["name", "question", "other"].includes(name)));
}

/** Gives what is shown an address, with which it is shown again. */
export function address(asks, isNew = false) {
  const example = words().filter((it) => !it.includes("="));
  const said = Object.entries(asks).filter(([, it]) => it)
    .map(([name, it]) => `${name}=${encodeURIComponent(it)}`);
  const hash = `#${[...example, ...said].join("&")}`;
  if (isNew) location.hash = hash;
  else history.replaceState(null, "", hash);
}

export function askQuestion(event) {
  event.preventDefault();
  const question = $("question").value, asks = { name: $("name").value,
    question: question === "find" ? "" : question,
    other: question === "path" ? $("other").value : "" };
  const before = location.hash;
  address(asks, true);
  if (location.hash === before) busily(askGraph, asks);
}

/** Offers names that are like the text of a field. */
export async function suggest(event) {
  const names = await ask("names", event.target.value);
  $("names").replaceChildren(...names.map((value) => make("option", { value })));
}

// ---- files to keep

/** The drawing with the styles that it has in the page. */
export function keepSvg() {
  const svg = $("view").querySelector("svg")?.cloneNode(true);
  if (!svg) return;
  svg.removeAttribute("style");
  const rules = [...document.styleSheets[0].cssRules].map((it) => it.cssText)
    .filter((it) => /^(:root|svg)/.test(it));
  const style = document.createElementNS(svg.namespaceURI, "style");
  style.textContent = rules.join("\n");
  svg.prepend(style);
  svg.setAttribute("xmlns", svg.namespaceURI);
  keep("modules.svg", "image/svg+xml", new XMLSerializer().serializeToString(svg));
}
