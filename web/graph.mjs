// The graph of the objects of targets: an edge leads from the object that provides a module to one
// that imports it.
import { canonicalPath, isObject, listOf, stringsOf } from "./documents.mjs";

/**
 * The objects of the targets of a request: what each provides and requires, and those that import
 * it.
 */
export function graphOf(request, seconds = new Map()) {
  const targets = (request?.targets ?? []).map((target, index) => {
    const objects = objectsOf(target, index), modules = new Map();
    for (const object of objects) {
      object.seconds = seconds.get(object.path);
      for (const name of object.provides) if (!modules.has(name)) modules.set(name, object);
    }
    return { ...target, index, objects, modules };
  });
  const indexes = new Map((request?.targets ?? []).map((target, index) => [target, index]));
  const nodes = new Set(targets.flatMap((target) => target.objects));
  for (const target of targets) {
    const linked = target.linked.map((it) => (it.target ? targets[indexes.get(it.target)].modules
      : linkedModules(it.file)));
    if (request.command === "info") for (const node of linked.flatMap(joined)) nodes.add(node);
    const others = new Map();
    for (const object of target.objects) {
      for (const name of new Set(object.requires)) {
        const found = target.modules.get(name) ?? linked.find((it) => it.has(name))?.get(name);
        const node = found ?? others.get(name) ?? missing(name, target, targets);
        if (!found) others.set(name, node);
        nodes.add(node);
        node.to.push(object);
      }
    }
  }
  for (const node of nodes) for (const user of node.to) user.from.push(node);
  return { nodes: [...nodes], targets };
}

const nodeOf = (it) => ({ file: undefined, target: null, requires: [], to: [], from: [], ...it });

function objectsOf(target, index) {
  const names = (list) => listOf(list).map((it) => it?.["logical-name"])
    .filter((it) => typeof it === "string");
  const build = typeof target.document["build-dir"] === "string"
    ? canonicalPath(target.document["build-dir"]) : "";
  const objectOf = (file, rule) => nodeOf({
    kind: "object", file: file.name, target: index,
    path: canonicalPath(String(rule["primary-output"] ?? "?"), rule["work-directory"], build),
    provides: names(rule.provides), requires: names(rule.requires) });
  return target.scans.flatMap(({ file }) =>
    listOf(file?.value?.rules).filter(isObject).map((rule) => objectOf(file, rule)));
}

/** The modules of an info file. */
function linkedModules(file) {
  const modules = listOf(file?.value?.modules).filter((it) => typeof it?.name === "string");
  return new Map(modules.map(({ name, requires }) => [name, nodeOf({
    kind: "linked", path: file.name, file: file.name, provides: [name],
    requires: stringsOf(listOf(requires).map((it) => it?.name)) })]));
}

/** The modules of an info file that is shown alone, with the edges between them. */
function joined(modules) {
  for (const node of modules.values()) {
    const others = node.requires.filter((it) => it !== node.provides[0]);
    for (const required of others) modules.get(required)?.to.push(node);
  }
  return [...modules.values()];
}

function missing(name, target, targets) {
  const elsewhere = targets.find((it) => it.modules.has(name));
  const path = elsewhere ? `only in ${elsewhere.name}, not linked` : "nothing provides it";
  return nodeOf({ kind: "missing", path, provides: [name] });
}

// ---- the error in the graph

/** The objects of a cycle in an error line: each requires the next, and the last the first. */
export const cycleOf = (line) => /M8 ImportCycle (.*)/.exec(line)?.[1].split(" -> ") ?? [];

/**
 * Marks what an error line is about: the objects and imports of its cycle, and what it names.
 * `index` is that of the target.
 */
export function mark({ nodes, targets }, line, index) {
  const cycle = cycleOf(line), words = new Set(line.split(/\s+/));
  const next = new Map(cycle.map((path, at) => [path, cycle[(at + 1) % cycle.length]]));
  for (const node of nodes) {
    const isOfError = line !== "" && (index === null || [index, null].includes(node.target));
    const isNamed = [node.path, ...node.provides].some((name) => words.has(name));
    const isInCycle = isOfError && next.has(node.path);
    node.badFrom = isInCycle ? node.from.filter((it) => it.path === next.get(node.path)) : [];
    node.isBad = node.kind === "missing" || isInCycle || (isOfError && isNamed && !cycle.length);
  }
  for (const target of targets) target.isBad = line !== "" && target.index === index;
}

/** What a node is called in addresses, in questions and in tables. */
export const nameOf = (node) => node.provides[0] ?? node.path;
