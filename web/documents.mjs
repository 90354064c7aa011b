// What the page reads of files: which kind of document each is, and its JSON value. It reads
// leniently and decides nothing: whether a document is valid, dyncollate says.

// dyncollate rejects a larger document, so not more of it is read.
export const LARGEST = 16 << 20;
const KINDS = ["project", "target", "scan", "info", "edges", "dyndep", "log", "other"];

export const isObject = (it) => it !== null && typeof it === "object" && !Array.isArray(it);
export const listOf = (it) => (Array.isArray(it) ? it : []);
export const stringsOf = (it) => listOf(it).filter((each) => typeof each === "string");
export const textOf = (it) => (typeof it === "string" ? it : new TextDecoder().decode(it));
const NUMBERS = new Intl.NumberFormat("en");
export const inWords = (count) => NUMBERS.format(count);
export const plural = (count, word) => `${inWords(count)} ${word}${count === 1 ? "" : "s"}`;
export const boxesOf = (count) => (count === 1 ? "1 box" : `${inWords(count)} boxes`);

/** A file: its content as dyncollate gets it, the JSON value in it, and the kind of document. */
export function fileOf(name, content, kindBefore = "other") {
  const text = content.length > LARGEST ? "" : textOf(content);
  let value = null;
  try {
    value = JSON.parse(text);
  } catch {
    // It is not JSON, or an S1 error, which dyncollate reports.
  }
  const kind = kindOf(name, text, value);
  return { name, content, value, kind: kind === "other" ? kindBefore : kind };
}

function kindOf(name, text, value) {
  if (isObject(value)) {
    const isProject = value.version === 1 || /project\.json$/.test(name);
    if ("targets" in value && isProject) return "project";
    if (value.version === 1 && "module-dir" in value && "dyndep" in value) return "target";
    if (Array.isArray(value.modules) && !("module-dir" in value)) return "info";
    if ("rules" in value) return "scan";
  }
  if (/^ninja_dyndep_version/.test(text)) return "dyndep";
  if (/^# ninja log/.test(text)) return "log";
  const ending = /(\.ddi|(\.target|\.info|CXXModules|project)\.json)$/.exec(name)?.[1];
  if (ending === ".ddi") return "scan";
  if (ending === "project.json") return value === null ? "project" : "other";
  // (what CMake's own step writes as CXXModules.json is no info file)
  if (ending && !isObject(value?.modules)) return ending === ".target.json" ? "target" : "info";
  return value === null && /^build /m.test(text) ? "edges" : "other";
}

/** The files as they are listed: projects and targets first, each kind by name. */
export const sorted = (files) => [...files.values()].sort((one, other) =>
  KINDS.indexOf(one.kind) - KINDS.indexOf(other.kind) || (one.name < other.name ? -1 : 1));

export const named = (files, kind) => sorted(files).filter((it) => it.kind === kind)
  .map((it) => it.name);

/** The seconds that each output took, by `.ninja_log`. The last run counts. */
export function secondsOf(text) {
  const lines = text.split("\n").filter((line) => line && !line.startsWith("#"));
  return new Map(lines.map((line) => line.split("\t")).filter((it) => it.length >= 4)
    .map(([start, end, , output]) => [canonicalPath(output), (end - start) / 1000]));
}

/** A path as dyncollate prints it. */
export function canonicalPath(path, work, build) {
  const parts = [], whole = work && !path.startsWith("/") ? `${work}/${path}` : path;
  for (const part of whole.split("/")) {
    if (part === ".." && parts.length && parts.at(-1) !== "..") parts.pop();
    else if (part !== "" && part !== ".") parts.push(part);
  }
  const found = (whole.startsWith("/") ? "/" : "") + parts.join("/");
  return build && found.startsWith(`${build}/`) ? found.slice(build.length + 1) : found;
}
