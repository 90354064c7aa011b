// What one asks a graph of modules. A node has those that import it in `to`, and those that it
// imports in `from`.

/**
 * Nodes whose names are like a text: the same, then those that begin with it, then those that
 * contain it.
 */
export function searched(named, text, most = 30) {
  const wanted = text.toLowerCase(), ranks = [[], [], []];
  if (!wanted) return [];
  for (const name of named) {
    const at = name.toLowerCase().indexOf(wanted);
    if (at >= 0) ranks[at > 0 ? 2 : name.length > text.length ? 1 : 0].push(name);
  }
  const shorter = (one, other) => one.length - other.length || (one < other ? -1 : 1);
  return ranks.flatMap((it) => it.sort(shorter)).slice(0, most);
}

/**
 * The nodes that are reached over one side, `to` or `from`, with those that it starts from, the
 * nearest first.
 */
export function reached(starts, side) {
  const found = new Set(starts);
  for (const node of found) for (const next of node[side]) found.add(next);
  return [...found];
}

/** A shortest way from one of the nodes over a side to one of others, or nothing. */
export function wayBetween(starts, ends, side) {
  const before = new Map(starts.map((node) => [node, null])), wanted = new Set(ends);
  for (const node of before.keys()) {
    if (wanted.has(node)) {
      const way = [];
      for (let at = node; at; at = before.get(at)) way.unshift(at);
      return way;
    }
    for (const next of node[side]) if (!before.has(next)) before.set(next, node);
  }
  return [];
}

/** The nodes around one, the nearest first. */
export function near(centre, most) {
  const found = new Set([centre].filter(Boolean));
  for (const node of found) {
    for (const next of [...node.from, ...node.to]) if (found.size < most) found.add(next);
  }
  return [...found];
}

/**
 * The chain of imports that takes longest, from the first module to the last importer. An import
 * that closes a cycle does not count.
 */
export function longestChain(nodes, lengthOf) {
  const best = new Map(), open = new Set();
  const enter = (node) => open.add(node) && { node, next: 0 };
  const leave = (node) => {
    const lengthAfter = (it) => best.get(it)?.length ?? -1;
    const after = node.to.reduce((most, it) => (lengthAfter(it) > lengthAfter(most) ? it : most),
      null);
    best.set(node, { length: lengthOf(node) + Math.max(0, lengthAfter(after)), after });
    open.delete(node);
  };
  // (from what imports nothing, so that a cycle is entered by an import from outside)
  for (const root of [...nodes].sort((one, other) => Boolean(one.from.length) - Boolean(
    other.from.length))) {
    const work = best.has(root) ? [] : [enter(root)];
    while (work.length) {
      const top = work.at(-1), next = top.node.to[top.next++];
      if (!next) leave(work.pop().node);
      else if (!best.has(next) && !open.has(next)) work.push(enter(next));
    }
  }
  const chain = [], longer = (one, other) => !one || best.get(other).length > best.get(one).length;
  for (let at = nodes.reduce((most, it) => (longer(most, it) ? it : most),
    null); at; at = best.get(at).after) chain.push(at);
  return { chain, length: best.get(chain[0])?.length ?? 0 };
}

/** The nodes that most others import. */
export const mostImported = (nodes, most) => nodes.filter((node) => node.to.length)
  .sort((one, other) => other.to.length - one.to.length).slice(0, most);
