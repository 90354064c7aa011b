// Reads the files of a drop or of a choice, in the worker: a directory may have many thousands.
import { LARGEST, fileOf, plural } from "./documents.mjs";

// How many files are opened or read at once, how many bytes of them, and how many that are not read
// are named.
const AT_ONCE = 100, MOST_BYTES = 1 << 24, MOST_NOTES = 3;
// These files of a directory are read. Other files are read if they are given one by one.
const DOCUMENTS = /\.(ddi|json|dd|edges)$|\/(edges|\.ninja_log)$/;
const isWanted = (name) => !name.includes("/") || DOCUMENTS.test(name);
const NO_NAME = "its name is not UTF-8, so no document can name it.";
const TOO_LARGE = "is larger than 16 MiB, which dyncollate rejects.";
const below = (name) => name.slice(name.indexOf("/") + 1);

/** A File, or why it cannot be opened, for example because its name is not UTF-8. */
export const opened = (promise) => promise.catch((error) => error.message);

/** Passes on Chromium's handles and those below: pairs of a path and a File, if it is wanted. */
export async function passFiles(handles, pass, path = "") {
  const directories = [];
  let some = [];
  const pairOf = async (name, it) => [name, isWanted(name) ? await opened(it.getFile()) : null];
  for await (const it of handles) {
    if (it.kind === "file") some.push(pairOf(path + it.name, it));
    else directories.push(it);
    if (some.length === AT_ONCE) pass(await Promise.all(some.splice(0)));
  }
  pass(await Promise.all(some));
  for (const it of directories) await passFiles(it.values(), pass, `${path}${it.name}/`);
}

/** Reads files, some at a time, while others are still found. */
export class Reading {
  constructor(report) {
    Object.assign(this, { report, tops: new Set(), isDeep: false, found: 0, waiting: [], done: 0,
      read: [], notes: [], isReading: false, running: null });
  }

  /** Takes pairs of a path and a File, or why it cannot be opened. */
  take(some) {
    const wanted = some.filter(([name]) => isWanted(name));
    for (const [name] of some) this.tops.add(name.split("/")[0]);
    this.isDeep ||= some.some(([name]) => name.includes("/"));
    this.found += some.length;
    for (const [name, file] of wanted) {
      const error = below(name).includes("\ufffd") ? NO_NAME : file;
      const isReadable = typeof error !== "string";
      if (isReadable) this.waiting.push([name, file]);
      else this.notes.push([name, `is left out: ${error}`]);
      if (isReadable && file.size > LARGEST) this.notes.push([name, TOO_LARGE]);
    }
    if (!this.isReading) this.running = this.readWaiting();
  }

  async readWaiting() {
    this.isReading = true;
    while (this.waiting.length) {
      this.report("Reading", this.done, this.done + this.waiting.length);
      const some = this.next(), contents = await contentsOf(some.map(([, file]) => file));
      some.forEach(([name], index) => this.keep(name, contents[index]));
      this.done += some.length;
    }
    this.isReading = false;
  }

  /** The next files that are read at once, at least one. */
  next() {
    let size = 0;
    const end = this.waiting.slice(0, AT_ONCE)
      .findIndex(([, file]) => (size += file.size) > MOST_BYTES);
    return this.waiting.splice(0, end < 0 ? AT_ONCE : Math.max(1, end));
  }

  keep(name, content) {
    if (content.error) this.notes.push([name, `is left out: ${content.error}`]);
    else this.read.push(fileOf(name, content));
  }

  /**
   * Returns the documents, by their names below the directory if all are in one, whether they are,
   * and what is said about the others.
   */
  async end() {
    await this.running;
    const isDirectory = this.tops.size === 1 && this.isDeep;
    const nameOf = (name) => (isDirectory ? below(name) : name);
    const read = this.read.filter((it) => !(isDirectory && it.kind === "other"))
      .map((it) => ({ ...it, name: nameOf(it.name) }));
    const notes = this.notes.map(([name, note]) => `${nameOf(name)} ${note}`);
    const more = notes.length - MOST_NOTES;
    const said = [...notes.slice(0, MOST_NOTES), more > 0 && `And ${plural(more, "file")} more.`,
      !read.length && `None of ${plural(this.found, "file")} is a document that dyncollate reads.`];
    return { read, isDirectory, said: said.filter(Boolean).join(" ") };
  }
}

/**
 * What is in some files, or why one cannot be read. They are read as one Blob, because a browser
 * takes several times as long for each by itself.
 */
async function contentsOf(files) {
  const parts = files.map((it) => (it.size > LARGEST ? it.slice(0, LARGEST + 1) : it));
  try {
    const bytes = new Uint8Array(await new Blob(parts).arrayBuffer());
    if (files.length === 1) return [textOrBytes(bytes)];
    let at = 0;
    const contents = parts.map(({ size }) => textOrBytes(bytes.subarray(at, (at += size))));
    if (at === bytes.length) return contents;
  } catch (error) {
    if (files.length === 1) return [{ error: error.message }];
  }
  return (await Promise.all(files.map((it) => contentsOf([it])))).flat();
}

/** A file is edited as a string, and passed as bytes if it is not UTF-8. */
function textOrBytes(bytes) {
  try {
    return new TextDecoder("utf-8", { fatal: true, ignoreBOM: true }).decode(bytes);
  } catch {
    return bytes.slice();
  }
}
