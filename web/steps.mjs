// Which commands files allow, what each command is given, and the targets in the order of their
// steps.
import { canonicalPath, fileOf, inWords, isObject, named, plural,
  stringsOf } from "./documents.mjs";
import { finderOf, keyOf } from "./finding.mjs";

// More documents of a kind than these are not offered one by one.
const MOST_ONES = 200;

/** The commands that these files allow, the usual one first. */
export function commandsFor(files) {
  const of = (kind, command) => named(files, kind).slice(0, MOST_ONES)
    .map((name) => ({ command, name, label: `${command} ${name}` }));
  const scans = named(files, "scan"), targets = of("target", "collate"), ones = of("scan", "one");
  const steps = targets.length > 1 ? [{ command: "steps", name: "",
    label: "each target by a step" }] : [];
  const together = scans.length === 1 ? `${scans[0]} as a target` : "all scans as one target";
  const all = scans.length ? [{ command: "all", name: "", label: together }] : [];
  const infos = scans.length ? [] : of("info", "info");
  const ofScans = scans.length === 1 ? [...ones, ...all] : [...all, ...ones];
  return [...of("project", "project"), ...steps, ...targets, ...ofScans, ...infos,
    ...of("dyndep", "show"), ...of("edges", "order")];
}

/** The target document of the page's own target, which has all scan documents. */
const OWN = "the target of this page";
function ownTarget(scans, linked, { directory, extension, map }) {
  const document = { version: 1, target: "page", "module-dir": directory, "module-ext": extension,
    scans, linked,
    dyndep: "page.dd", info: "page.info.json", ...(map && { map }) };
  return fileOf(OWN, JSON.stringify(document), "target");
}

/** A target: its document, and for each name in it the file that is found. */
function targetOf(file, files, find) {
  const document = isObject(file.value) ? file.value : {};
  const found = (strings) => strings.map((string) => ({ string,
    file: files.get(find(string, file)) }));
  return { name: String(document.target ?? file.name), file: file.name, content: file.content,
    document,
    scans: found(stringsOf(document.scans)), linked: found(stringsOf(document.linked)),
      edges: found(stringsOf([document.edges])) };
}

/**
 * The targets that a command reads, and what dyncollate is given for the command, if it is not a
 * step for each target.
 */
export function requestOf({ command, name }, files, settings) {
  const find = finderOf(files);
  if (command === "steps") return { command, name, targets: orderedTargets(files, find) };
  if (command === "project") return projectOf(files.get(name), files, find);
  if (command === "one") {
    const file = files.get(name);
    const target = { name: "", file: name, scans: [{ string: name, file }], linked: [], edges: [],
      document: { "module-dir": settings.directory } };
    return { command, name, targets: [target], given: ["one", file.content, settings.directory,
      settings.extension] };
  }
  if (command === "show" || command === "order") return { command, name, targets: [],
    given: [command, files.get(name).content] };
  const own = command === "all" ? ownTarget(named(files, "scan"), named(files, "info"), settings)
    : ownTarget([], [name], settings);
  return { command, name, targets: [targetOf(command === "collate" ? files.get(name) : own, files,
    find)] };
}

/** In a project a string of `linked` is the `info` of an earlier target. */
function projectOf(file, files, find) {
  const documents = stringsOf(file.value?.targets).map((string) =>
    ({ string, file: files.get(find(string, file)) }));
  const targets = documents.map(({ string, file: found }) =>
    targetOf(found ?? fileOf(string, ""), files, find));
  targets.forEach((target, index) => {
    for (const linked of target.linked) {
      linked.target = targets.slice(0, index).findLast((it) => it.document.info === linked.string);
      linked.file = undefined;
    }
  });
  const read = new Map([...documents, ...targets.flatMap((it) => [...it.scans, ...it.edges])]
    .filter((it) => it.file).map((it) => [it.string, it.file.content]));
  return { command: "project", name: file.name, targets, given: ["project", file.content, read] };
}

/** All targets, each after those whose info files it links. */
function orderedTargets(files, find) {
  const all = new Map();
  for (const name of named(files, "target")) {
    const file = files.get(name), target = targetOf(file, files, find),
      key = keyOf(String(file.value?.dyndep ?? name), file, find);
    // CMake's adapter writes the document that dyncollate reads, if that is another one than the
    // build's, as CXX.step.json
    if (!all.has(key) || !all.get(key).file.endsWith(".step.json")) all.set(key, target);
  }
  const keys = (it, string) => keyOf(string, files.get(it.file), find);
  const targets = [...all.values()], makers = new Map(targets.map((it) =>
    [keys(it, String(it.document.info)), it]));
  for (const target of targets) {
    for (const linked of target.linked) linked.target = makers.get(keys(target, linked.string));
  }
  const ordered = new Set(), seen = new Set();
  for (const root of targets) {
    const work = [root];
    while (work.length) {
      const target = work.at(-1), next = seen.has(target) ? undefined : target.linked;
      seen.add(target);
      const before = (next ?? []).map((it) => it.target).filter((it) => it && !seen.has(it));
      if (before.length) work.push(...before.reverse());
      else ordered.add(work.pop());
    }
  }
  // What is linked in a circle is read from the files that are there.
  const done = new Set();
  for (const target of ordered) {
    for (const linked of target.linked) if (linked.target
      && !done.has(linked.target)) linked.target = undefined;
    done.add(target);
  }
  return [...ordered];
}

/**
 * What dyncollate is given for a target. `infoOf` returns the info file of one whose step was run
 * before.
 */
export function givenFor(target, infoOf) {
  const read = [...target.scans, ...target.edges, ...target.linked].map(
    ({ string, file, target: maker }) =>
    [string, maker ? infoOf(maker) : file?.content]);
  return ["collate", target.content, new Map(read.filter(([, content]) => content !== undefined))];
}

/**
 * Runs a step for each target as soon as those that it links are done, and leaves out those that
 * link one whose step failed.
 */
export async function runSteps(targets, run, progress) {
  const runs = new Map(targets.map((target) => [target, null])), begun = new Map();
  let count = 0;
  const step = async (target) => {
    const linked = target.linked.map((it) => it.target).filter(Boolean);
    await Promise.all(linked.map((it) => begun.get(it)));
    runs.set(target, await stepOf(target, linked, runs, run));
    progress?.(++count, targets.length);
  };
  for (const target of targets) begun.set(target, step(target));
  await Promise.all(begun.values());
  return runs;
}

async function stepOf(target, linked, runs, run) {
  const failed = linked.find((it) => runs.get(it).state !== "right");
  if (failed) return { state: "waits", line: `it links ${failed.name}`, status: 0, out: "",
    files: new Map() };
  const infoOf = (maker) => infoIn(runs.get(maker).files, String(maker.document.info));
  const done = await run(givenFor(target, infoOf), target);
  return { ...done, state: done.line ? "wrong" : "right" };
}

const infoIn = (files, name) => files.get(name) ?? files.get(canonicalPath(name));

/** How many steps are right, in words. */
export function saidOf(runs) {
  const all = [...runs.values()], count = (state) => all.filter((it) => it.state === state).length;
  const waits = count("waits");
  return `${inWords(count("right"))} of ${plural(all.length, "target")} accepted` +
    (waits ? `, ${inWords(waits)} not run because what they link is wrong` : "");
}
