// Replies to questions about a graph: the nodes, and a sentence.
import { boxesOf, plural } from "./documents.mjs";
import { nameOf } from "./graph.mjs";
import { longestChain, mostImported, near, reached, wayBetween } from "./questions.mjs";

// How many nodes are near another one, are imported most, and have their names in a sentence.
const NEAR = 40, MOST_IMPORTED = 300, NAMES = 12;

const isTimed = (graph) => graph.nodes.some((it) => it.seconds !== undefined);

/** What a name means: an object by its module or its path, or all objects of a target. */
function nodesNamed({ nodes, targets }, name) {
  const found = nodes.find((it) => it.provides.includes(name))
    ?? nodes.find((it) => it.path === name);
  return found ? [found] : targets.find((it) => it.name === name)?.objects ?? [];
}

const QUESTIONS = {
  rebuilt: (graph, starts) => reached(starts, "to"),
  needed: (graph, starts) => reached(starts, "from"),
  near: (graph, [start]) => near(start, NEAR),
  path(graph, starts, ends) {
    const way = wayBetween(starts, ends, "from");
    return way.length ? way : wayBetween(ends, starts, "from");
  },
  chain(graph) {
    const lengthOf = isTimed(graph) ? (it) => it.seconds ?? 0 : () => 1;
    return longestChain(graph.nodes, lengthOf).chain;
  },
  most: (graph) => mostImported(graph.nodes, MOST_IMPORTED),
};

/**
 * The reply to a question, if there is one: the nodes in `found`, and those that it is about in
 * `starts`.
 */
export function replyTo(graph, { question = "find", name = "", other = "" }) {
  const starts = nodesNamed(graph, name), ends = nodesNamed(graph, other);
  const isAbout = !["chain", "most"].includes(question);
  const nothing = (said) => ({ question, starts, found: null, said });
  if (isAbout && name && !starts.length) return nothing(`There is no ${name} here.`);
  if (!QUESTIONS[question] || (isAbout && !name)) return nothing("");
  const found = QUESTIONS[question](graph, starts, ends);
  return { question, starts: isAbout ? starts : [], found,
    said: sayings(found, graph, name, other)[question]() };
}

function sayings(found, graph, name, other) {
  const objects = found.filter((it) => it.kind === "object");
  const seconds = objects.reduce((sum, it) => sum + (it.seconds ?? 0), 0);
  const time = isTimed(graph) ? `, ${seconds.toFixed(1)} s by .ninja_log` : "";
  const count = plural(objects.length, "object") + time;
  const more = found.length > NAMES ? " → …" : "";
  const names = found.slice(0, NAMES).map(nameOf).join(" → ") + more;
  const [first, last] = [found[0], found.at(-1)].map((it) => it && nameOf(it));
  return {
    rebuilt: () => `A change of ${name} compiles ${count}.`,
    needed: () => `${name} needs ${count}, including itself.`,
    near: () => `${boxesOf(found.length)} near ${name}.`,
    path: () => (found.length ? `${first} imports ${last}: ${names}.`
      : `No path between ${name} and ${other}.`),
    chain: () => `The longest chain of imports has ${count}: ${names}.`,
    most: () => (first ? `${first} is imported most, by ${plural(found[0].to.length, "object")}.`
      : "Nothing is imported."),
  };
}
