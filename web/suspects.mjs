// What the page knows about an error of modules: who provides a name twice, which info file has the
// error, and names that are like an unknown one.

// Names differ in at most a third of their letters, and in at most this many.
const MOST_EDITS = 2;

/** A sentence about an error of a target's modules, or nothing. */
export function aboutModules(error, target) {
  const [, twice] = /^M1 \w+ (\S+)$/.exec(error) ?? [];
  const [, ...makers] = /^M[34] \w+ \S+ by (\w+ .*) and (\w+ .*)$/.exec(error) ?? [];
  const [, unknown] = /^M5 \w+ (\S+) in /.exec(error) ?? [];
  const [, info] = /^M[67] \w+ (.*) \S+ \S+$/.exec(error) ?? [];
  if (!target) return "";
  if (unknown) return similarTo(unknown, target);
  const named = info ? [`info ${info}`] : makers;
  const found = twice ? filesOf(twice, target) : named.flatMap((it) => placeOf(it, target));
  return found.length ? `${[...new Set(found)].join("; ")}.` : "";
}

const filesOf = (path, { objects }) =>
  objects.filter((it) => it.path === path).map((it) => `${path} is in ${it.file}`);

/** Where `object PATH` or `info TARGET` is. */
function placeOf(maker, target) {
  const [, kind, name] = /^(\w+) (.*)$/.exec(maker);
  if (kind === "object") return filesOf(name, target).slice(0, 1);
  const infoFiles = target.linked.filter(({ file, target: before }) =>
    (before?.name ?? file?.value?.target) === name);
  return infoFiles.map(({ string, file }) => `the info file of ${name} is ${file?.name ?? string}`);
}

function similarTo(unknown, target) {
  const linked = target.linked.flatMap(({ file }) => file?.value?.modules ?? []);
  const names = [...target.modules.keys(), ...linked.map((it) => it?.name)];
  const most = Math.min(MOST_EDITS, Math.ceil(unknown.length / 3));
  const isLike = (it) => typeof it === "string" && isNear(it, unknown, most);
  const near = [...new Set(names)].filter(isLike);
  return near.length ? `There is ${near.slice(0, 3).join(", ")}.` : "";
}

/** Whether few letters are added, dropped, changed or swapped, or one is a partition. */
function isNear(one, other, most) {
  if (one.split(":")[0] === other || other.split(":")[0] === one) return true;
  if (Math.abs(one.length - other.length) > most) return false;
  let row = [...Array(other.length + 1).keys()], before = row;
  for (const [at, letter] of [...one].entries()) {
    const next = [at + 1];
    for (let to = 0; to < other.length; to++) {
      const changed = row[to] + (letter === other[to] ? 0 : 1);
      const isSwap = at > 0 && letter === other[to - 1] && one[at - 1] === other[to];
      const swapped = isSwap ? before[to - 1] + 1 : Infinity;
      next.push(Math.min(changed, swapped, row[to + 1] + 1, next[to] + 1));
    }
    [before, row] = [row, next];
  }
  return row.at(-1) <= most;
}
