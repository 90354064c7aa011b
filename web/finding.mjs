// Finds the files that documents name: under the name itself, below the build directory, below a
// directory above the document, and below the directory that names must lose to be names of files.
import { canonicalPath, stringsOf } from "./documents.mjs";

/** The directories above a file, the nearest first, and at last the one of all files. */
function above(name) {
  const parts = name.split("/").slice(0, -1);
  return [...parts.map((_, index) => `${parts.slice(0, parts.length - index).join("/")}/`), ""];
}

/** A path without its first directories, the longest first. */
function shortened(path) {
  const parts = path.split("/").slice(1);
  return parts.map((_, index) => parts.slice(index).join("/"));
}

const buildOf = ({ value }) => (typeof value?.["build-dir"] === "string"
  ? canonicalPath(value["build-dir"]) : "");

/** What documents name. */
const namesIn = ({ value }) => [value?.scans, value?.linked, value?.targets].flatMap(stringsOf)
  .concat(stringsOf([value?.edges]));

/**
 * Returns a function for the name of the file that a document means by a string, or undefined. If a
 * name only fits after its first directories are cut off, the directory that most names lose comes
 * first, and no file is found by two names.
 */
export function finderOf(files) {
  const documents = [...files.values()].filter((it) => it.kind === "target"
    || it.kind === "project");
  const counts = new Map(), owners = new Map();
  const cutOf = (path) => {
    const name = shortened(path).find((it) => files.has(it));
    return name && { name, lost: path.slice(0, path.length - name.length) };
  };
  const all = new Map();
  for (const document of documents) {
    for (const path of namesIn(document).map((it) => canonicalPath(it, "", buildOf(document)))) {
      const name = direct(path, document, files);
      if (name !== undefined) owners.set(name, { path, count: Infinity });
      else if (!all.has(path)) all.set(path, cutOf(path));
    }
  }
  for (const { lost } of [...all.values()].filter(Boolean)) {
    counts.set(lost, (counts.get(lost) ?? 0) + 1);
  }
  for (const [path, found] of all) {
    if (!found) continue;
    const count = counts.get(found.lost), before = owners.get(found.name);
    if (!before || before.count < count) owners.set(found.name, { path, count });
    else if (before.count === count) before.path = null;
  }
  return (string, document) => {
    const path = canonicalPath(string, "", buildOf(document)),
      found = direct(path, document, files);
    if (found !== undefined) return found;
    const name = all.get(path)?.name;
    return name !== undefined && owners.get(name).path === path ? name : undefined;
  };
}

function direct(path, document, files) {
  if (files.has(path)) return path;
  const directory = above(document.name).find((it) => files.has(it + path));
  return directory === undefined ? undefined : directory + path;
}

/** What a document means by a string, in a form that is the same in all documents of a build. */
export function keyOf(string, document, find) {
  const path = canonicalPath(string, "", buildOf(document));
  if (path.startsWith("/")) return path;
  const known = namesIn(document).find((it) => find(it, document));
  const relative = known && canonicalPath(known, "", buildOf(document));
  const file = known && find(known, document);
  return (file?.endsWith(`/${relative}`) ? file.slice(0, -relative.length) : "") + path;
}
