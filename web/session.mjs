// What is known about the files of a page: what dyncollate makes of them, their graph, and the last
// reply.
import { fileOf, named, plural, secondsOf, sorted, textOf } from "./documents.mjs";
import { replyTo } from "./replies.mjs";
import { drawingOf } from "./boxes.mjs";
import { dotOf, tableOf } from "./exports.mjs";
import { graphOf, mark, nameOf } from "./graph.mjs";
import { meaningOf, shortLine } from "./meanings.mjs";
import { searched } from "./questions.mjs";
import { Reading, passFiles } from "./reading.mjs";
import { commandsFor, givenFor, requestOf, runSteps, saidOf } from "./steps.mjs";

// More files, outputs or rows than these are not sent to the page, and of a longer text its
// beginning is.
const MOST = { files: 200, outputs: 200, rows: 300, text: 1 << 18, lines: 8 };
// Whose kind stays if they are edited, so that they are still read.
const KEPT_KINDS = ["project", "target", "scan", "info"];
const WRITING = ["collate", "project", "steps", "all"];

export class Session {
  constructor(dyncollate, advice, report) {
    Object.assign(this, { dyncollate, advice, report, files: new Map(), chosen: null,
      reading: new Reading(report), cache: new Map() });
    this.forget();
  }

  forget() {
    Object.assign(this, { request: null, runs: new Map(), graph: { nodes: [], targets: [] } });
    this.reply = replyTo(this.graph, {});
  }

  // ---- files

  /** Begins to read some files of a drop or of a choice: pairs of a path and a File. */
  find(some) {
    this.reading.take(some);
  }

  async findBelow(handles) {
    await passFiles(handles, (some) => this.find(some));
  }

  /**
   * Reads what was found. A directory comes in place of the files that are there, and files do if
   * those are not kept. Returns how many documents there are, and what is said about the others.
   */
  async read(isKeeping) {
    const { read, isDirectory, said } = await this.reading.end();
    this.reading = new Reading(this.report);
    if (read.length && (isDirectory || !isKeeping)) this.files = new Map();
    for (const file of read) this.files.set(file.name, file);
    return { count: read.length, said };
  }

  /** Puts files in place of those that are there. */
  put(entries) {
    this.files = new Map(entries.map(([name, content]) => [name, fileOf(name, content)]));
  }

  /**
   * Puts the files of dyncollate-explain in place of those that are there, and returns the command
   * that it explains. The kind of the file that the command is called with is known.
   */
  putGiven(text) {
    const { command, name, files } = JSON.parse(text);
    const kind = { project: "project", collate: "target", one: "scan" }[command];
    const contentOf = (it) => (typeof it === "string" ? it : bytesOfBase64(it.base64));
    this.put(Object.entries(files).map(([file, it]) => [file, contentOf(it)]));
    this.files.set(name, fileOf(name, this.files.get(name)?.content ?? "", kind));
    return { command, name };
  }

  edit(name, text) {
    const kind = this.files.get(name)?.kind;
    this.files.set(name, fileOf(name, text, KEPT_KINDS.includes(kind) ? kind : "other"));
  }

  remove(name) {
    this.files.delete(name);
  }

  list(filter = "") {
    const all = sorted(this.files).filter((it) => it.name.includes(filter));
    const states = new Map(this.request?.command === "steps"
      ? [...this.runs].map(([{ file }, { state }]) => [file, state]) : []);
    const rows = all.slice(0, MOST.files).map(({ name, kind }) =>
      ({ name, kind, state: states.get(name) }));
    return { rows, left: all.length - rows.length, count: this.files.size };
  }

  text(name) {
    const content = this.files.get(name)?.content ?? "";
    return { text: textOf(content.slice(0, MOST.text)), isWhole: content.length <= MOST.text };
  }

  // ---- runs

  commands() {
    return commandsFor(this.files);
  }

  /** Runs a command, and returns what comes of it. */
  async run(command, settings) {
    if (JSON.stringify(command) !== JSON.stringify(this.chosen)) this.cache = new Map();
    this.forget();
    this.chosen = command;
    if (!command) return null;
    this.request = requestOf(command, this.files, settings);
    this.runs = await this.runAll();
    const logs = named(this.files, "log").flatMap((name) =>
      [...secondsOf(textOf(this.files.get(name).content))]);
    this.graph = graphOf(this.request, new Map(logs));
    return this.summary();
  }

  async runAll() {
    const { command, targets, given } = this.request;
    const progress = (done, of) => this.report("Collating", done, of);
    if (command === "steps") return runSteps(targets, (it, target) => this.call(it, target.file),
      progress);
    return new Map([[targets[0], await this.call(given ?? givenFor(targets[0]), command)]]);
  }

  /** Calls dyncollate, unless it was called with the same before. */
  async call([command, ...given], key) {
    const flat = [command, ...given.flatMap((it) => (it instanceof Map ? [...it].flat() : [it]))];
    const before = this.cache.get(key), isSame = (it, index) => it === before.flat[index];
    if (before?.flat.length === flat.length && flat.every(isSame)) return before.done;
    const done = await this.called(command, given);
    this.cache.set(key, { flat, done });
    return done;
  }

  async called(command, given) {
    try {
      const { out, err, ...done } = await this.dyncollate.run(command, ...given);
      return { ...done, line: textOf(err).trimEnd(), out: textOf(out) };
    } catch (error) {
      return { line: `dyncollate: ${error.message}`, status: 4, out: "", files: new Map() };
    }
  }

  summary() {
    const all = [...this.runs], isSteps = this.request.command === "steps";
    const isFirst = ([, it]) => it.line && it.state !== "waits";
    const [failed, { line, status }] = all.find(isFirst) ?? all[0];
    const index = line ? this.indexOfError(line, failed) : null;
    mark(this.graph, line, index);
    const sum = (of) => all.reduce((total, [, it]) => total + of(it), 0);
    const counts = Object.entries(this.allOutputs()).map(([kind, { length }]) => [kind, length]);
    return {
      line, short: shortLine(line), status, took: sum((it) => it.took ?? 0),
      steps: isSteps ? this.steps() : null, failed: line && isSteps ? failed.file : null,
      good: this.saidOfSuccess(sum((it) => it.files.size)), counts: Object.fromEntries(counts),
      meaning: line ? meaningOf(line, index, this.request, this.graph, this.advice) : null,
    };
  }

  saidOfSuccess(count) {
    const accepted = this.request.command === "steps" ? saidOf(this.runs) : "Accepted";
    const isWriting = WRITING.includes(this.request.command);
    return isWriting ? `${accepted}: dyncollate writes ${plural(count, "file")}.` : `${accepted}.`;
  }

  /** The index of the target that an error is in, or null for a project document. */
  indexOfError(line, failed) {
    const outer = /^dyncollate: target (\d+): /.exec(line);
    if (this.request.command === "project") return outer ? Number(outer[1]) : null;
    return Math.max(0, this.request.targets.indexOf(failed));
  }

  /** How many steps are right, and those that are not. */
  steps() {
    const wrong = [...this.runs].filter(([, it]) => it.state !== "right");
    const lines = wrong.slice(0, MOST.lines).map(([{ name, file }, { line }]) =>
      ({ name, file, line: shortLine(line) }));
    return { said: saidOf(this.runs), wrong: lines, count: wrong.length };
  }

  allOutputs() {
    const found = { output: [], dyndep: [], map: [], info: [] };
    if (this.request.command === "info") return found;
    for (const { out, files } of this.runs.values()) {
      if (out) found.output.push(["standard output", out]);
      for (const [name, bytes] of files) found[kindOfOutput(name, bytes)].push([name, bytes]);
    }
    return found;
  }

  outputs(kind) {
    const all = this.allOutputs()[kind], some = all.slice(0, MOST.outputs);
    return { shown: some.map(([name, it]) => [name, textOf(it).slice(0, MOST.text)]),
      left: all.length - some.length };
  }

  // ---- the graph

  /** Asks a question, and returns the drawing. */
  ask(asked, opened) {
    this.reply = replyTo(this.graph, asked);
    this.drawn = drawingOf(this.graph, this.reply, opened);
    return this.drawn;
  }

  /** Names that are like a text. */
  names(text) {
    const { targets, nodes } = this.graph;
    return searched(new Set([...targets.map((it) => it.name),
      ...nodes.flatMap((it) => [...it.provides, nameOf(it)])]), text);
  }

  /** The nodes of the reply, or of the graph, as rows. */
  table(most = MOST.rows) {
    return tableOf(this.reply.found ?? this.graph.nodes, this.graph.targets, most);
  }

  /** All of them, as text. */
  tableText() {
    const { head, rows } = this.table(Infinity);
    return [head, ...rows].map((row) => `${row.join("\t")}\n`).join("");
  }

  dot() {
    return dotOf(this.drawn, this.graph.targets);
  }
}

const bytesOfBase64 = (text) => Uint8Array.from(atob(text), (it) => it.charCodeAt(0));

function kindOfOutput(name, bytes) {
  if (name.endsWith(".modmap")) return "map";
  return textOf(bytes.subarray(0, 20)).startsWith("ninja_dyndep_version") ? "dyndep" : "info";
}
