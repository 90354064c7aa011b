// Places the nodes of a graph in columns: each node is to the right of those with an edge to it,
// except for edges that close a cycle.

export const SIZE = {
  width: 172, height: 42, row: 56, bend: 14, gap: 76, margin: 20, lane: 14, turn: 34,
};

// With more bends, edges over several columns are drawn without them, because they take long.
const MOST_BENDS = 4000;

/**
 * Gives each node `x` and `y`, and returns the edges with their points, and the size of the whole.
 * `to` has the nodes after a node.
 */
export function layout(nodes) {
  const edges = nodes.flatMap((from) => from.to.map((to) => ({ from, to })));
  findCycles(nodes, edges);
  const columns = columnsOf(nodes, edges);
  addBends(columns, edges);
  order(columns);
  const height = addLanes(columns, edges, place(columns));
  const turn = edges.some((edge) => edge.isBack) ? SIZE.turn : 0;
  for (const node of columns.flat()) node.x += turn;
  const inner = columns.length * (SIZE.width + SIZE.gap) - SIZE.gap;
  return { edges, width: inner + 2 * (SIZE.margin + turn), height };
}

/**
 * Gives each node the number of its strongly connected part, and marks edges within one, and those
 * that lead back (Tarjan).
 */
function findCycles(nodes, edges) {
  const parts = new Map(), numbers = new Map(), lows = new Map();
  const stack = [], open = new Set(), path = new Set();
  const lower = (node, number) => lows.set(node, Math.min(lows.get(node), number));
  const out = new Map(nodes.map((node) => [node, []]));
  for (const edge of edges) out.get(edge.from).push(edge);
  const leave = (node) => {
    path.delete(node);
    if (lows.get(node) !== numbers.get(node)) return;
    let last;
    do {
      last = stack.pop();
      open.delete(last);
      parts.set(last, numbers.get(node));
    } while (last !== node);
  };
  const enter = (node) => {
    numbers.set(node, numbers.size);
    lows.set(node, numbers.get(node));
    stack.push(node);
    open.add(node);
    path.add(node);
    return { node, next: 0 };
  };
  for (const root of nodes) {
    const work = numbers.has(root) ? [] : [enter(root)];
    while (work.length) {
      const top = work.at(-1), edge = out.get(top.node)[top.next++];
      if (!edge) {
        work.pop();
        leave(top.node);
        if (work.length) lower(work.at(-1).node, lows.get(top.node));
      } else if (!numbers.has(edge.to)) {
        work.push(enter(edge.to));
      } else {
        edge.isBack = path.has(edge.to);
        if (open.has(edge.to)) lower(top.node, numbers.get(edge.to));
      }
    }
  }
  for (const edge of edges) edge.inCycle = parts.get(edge.from) === parts.get(edge.to);
}

/** The nodes by column: one more than the greatest column of a node with an edge to it. */
function columnsOf(nodes, edges) {
  const waits = new Map(nodes.map((node) => [node, 0]));
  const out = new Map(nodes.map((node) => [node, []]));
  for (const { from, to } of edges.filter((edge) => !edge.isBack)) {
    waits.set(to, waits.get(to) + 1);
    out.get(from).push(to);
  }
  for (const node of nodes) node.column = 0;
  const ready = nodes.filter((node) => waits.get(node) === 0), columns = [];
  for (const node of ready) {
    (columns[node.column] ??= []).push(node);
    for (const to of out.get(node)) {
      to.column = Math.max(to.column, node.column + 1);
      waits.set(to, waits.get(to) - 1);
      if (waits.get(to) === 0) ready.push(to);
    }
  }
  return columns;
}

/** An edge over several columns bends in each column between. `via` has its bends. */
function addBends(columns, edges) {
  for (const node of columns.flat()) Object.assign(node, { before: [], after: [] });
  let bends = 0;
  for (const edge of edges.filter((it) => !it.isBack)) {
    const span = edge.to.column - edge.from.column - 1;
    edge.via = [];
    if (bends + span <= MOST_BENDS) {
      bends += span;
      for (let column = edge.from.column + 1; column < edge.to.column; column++) {
        const bend = { isBend: true, column, before: [], after: [] };
        columns[column].push(bend);
        edge.via.push(bend);
      }
    }
    const way = [edge.from, ...edge.via, edge.to];
    way.slice(1).forEach((node, index) => {
      way[index].after.push(node);
      node.before.push(way[index]);
    });
  }
}

/**
 * Sorts each column by the mean position of the neighbours, from left to right and back, so that
 * few edges cross.
 */
function order(columns) {
  const number = (column) => column.forEach((node, index) => {
    node.rank = (index + 0.5) / column.length;
  });
  columns.forEach(number);
  for (let round = 0; round < 10; round++) {
    const side = round % 2 ? "after" : "before";
    for (const column of round % 2 ? columns.slice().reverse() : columns) {
      for (const node of column) node.wish = mean(node[side].map((it) => it.rank), node.rank);
      column.sort((one, other) => one.wish - other.wish);
      number(column);
    }
  }
}

const sum = (numbers) => numbers.reduce((all, it) => all + it, 0);
const mean = (numbers, otherwise) => (numbers.length ? sum(numbers) / numbers.length : otherwise);
const rowOf = (node) => (node.isBend ? SIZE.bend : SIZE.row);
const bottomOf = (nodes) => Math.max(...nodes.map((node) => node.middle + rowOf(node) / 2));

/** Gives each node its coordinates, close to the mean of its neighbours, and returns the height. */
function place(columns) {
  for (const [index, column] of columns.entries()) {
    let y = 0;
    for (const node of column) {
      node.x = SIZE.margin + index * (SIZE.width + SIZE.gap);
      node.middle = y + rowOf(node) / 2;
      y += rowOf(node);
    }
  }
  for (let round = 0; round < 12; round++) {
    const side = round % 2 ? "after" : "before";
    for (const column of round % 2 ? columns.slice().reverse() : columns) relax(column, side);
  }
  const all = columns.flat();
  closeGaps(all);
  for (const node of all) node.y = node.middle - SIZE.height / 2;
  return bottomOf(all) + SIZE.margin;
}

/** Takes out bands in which no column has a node, so that the first node is at the margin. */
function closeGaps(nodes) {
  const topOf = (node) => node.middle - rowOf(node) / 2;
  let end = SIZE.margin, shift = Infinity;
  for (const node of nodes.sort((one, other) => topOf(one) - topOf(other))) {
    shift = Math.min(shift, end - topOf(node));
    node.middle += shift;
    end = Math.max(end, topOf(node) + rowOf(node));
  }
}

/**
 * An edge that leads back runs below the columns between its ends, in a lane of its own. Returns
 * the height with the lanes.
 */
function addLanes(columns, edges, height) {
  const bottoms = columns.map(bottomOf);
  const spanOf = (edge) => edge.from.column - edge.to.column;
  const back = edges.filter((edge) => edge.isBack);
  back.sort((one, other) => spanOf(one) - spanOf(other));
  let lowest = height - SIZE.margin;
  for (const edge of back) {
    const between = bottoms.slice(edge.to.column, edge.from.column + 1);
    edge.low = Math.max(...between) + SIZE.lane;
    bottoms.fill(edge.low, edge.to.column, edge.from.column + 1);
    lowest = Math.max(lowest, edge.low);
  }
  return lowest + SIZE.margin;
}

/** Moves the nodes of a column to their neighbours, as far as their order and size allow. */
function relax(column, side) {
  const wishes = column.map((node) => mean(node[side].map((it) => it.middle), node.middle));
  let end = -Infinity;
  column.forEach((node, index) => {
    node.middle = Math.max(wishes[index], end + rowOf(node) / 2);
    end = node.middle + rowOf(node) / 2;
  });
  const shift = mean(column.map((node, index) => wishes[index] - node.middle), 0);
  for (const node of column) node.middle += shift;
}
