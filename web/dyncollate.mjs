// dyncollate in JavaScript, for browsers and Node: the commands over files in memory, by
// libdyncollate as a WebAssembly module.
//
//     import { load } from "./dyncollate.mjs";
//     const dyncollate = await load(bytes);  // the bytes of dyncollate.wasm
//     const files = dyncollate.collate(document, { "main.ddi": scan, "dd/base.info.json": info });
//
// `document` has the bytes of a target document, and the object those of the files that it names,
// by the names that it has for them. The result is a Map with the bytes of the files that
// `dyncollate collate` writes, by name, in the order in which they are to be written. If the input
// is not valid, a DyncollateError is thrown, with the `status` and the `line` that the program ends
// with, and the `location` of the error, such as
// { document: "scan", index: 2, code: "S6", rule: 0, requires: 1 }.
//
// Bytes are an ArrayBuffer, a view of one such as a Uint8Array or Node's Buffer, or a string, which
// is passed as UTF-8. Files are an object or a Map. For anything else a TypeError is thrown, and if
// memory runs out, a RangeError.

// What each command is given: bytes or files.
const COMMANDS = {
  collate: "bytes files",
  project: "bytes files",
  one: "bytes bytes bytes",
  effect: "bytes bytes bytes",
  order: "bytes",
  show: "bytes",
  statements: "bytes",
};
const NO_MEMORY = 4, MISUSED = 5;

// What has an error, and the lists that an entry can be in, by their numbers in dyncollate.h.
const DOCUMENT_KINDS = [undefined, "target", "project", "scan", "info", "edges", "name", "dyndep"];
const ENTRY_LISTS = [undefined, "provides", "requires", "path"];
const ABSENT = Number(2n ** 64n - 1n);

/** A command that fails: its status, its line on standard error, and the location of the error. */
export class DyncollateError extends Error {
  constructor(status, line, location) {
    super(line);
    this.name = "DyncollateError";
    this.status = status;
    this.line = line;
    this.location = location;
  }
}

/** Returns the functions of a module, which is given by its bytes or compiled. */
export async function load(given) {
  const isCompiled = given instanceof WebAssembly.Module;
  const module = isCompiled ? given : await WebAssembly.compile(given);
  let instance = null;

  const exports = () => (instance ??= new WebAssembly.Instance(module).exports);

  /** Calls a function of the module. If WebAssembly stops it, its memory is dropped, and the next
   * call begins with a new one. */
  function call(command, ...given) {
    const passed = partsOf(command, given);
    try {
      return called(exports(), command, passed);
    } catch (error) {
      if (!(error instanceof TypeError)) instance = null;
      if (!(error instanceof WebAssembly.RuntimeError)) throw error;
      throw new RangeError(`out of memory: ${error.message}`);
    }
  }

  /** What a command prints and writes, and the location of its error if it fails. `restat` names
   * the files that may be left alone if they already have their bytes. */
  function run(command, ...given) {
    if (command === "statements") throw new TypeError("there is no command statements");
    const { status, numbers, text } = call(command, ...given);
    const next = pieces(text), out = next(numbers[0]), err = next(numbers[1]);
    const files = new Map(), restat = new Set();
    if (status) return { status, out, err, files, restat, location: locationOf(numbers.slice(2)) };
    for (let index = 2; index < numbers.length; index += 3) {
      const name = decoded(next(numbers[index]));
      files.set(name, next(numbers[index + 1]));
      if (numbers[index + 2]) restat.add(name);
    }
    return { status, out, err, files, restat };
  }

  function checked(command, ...given) {
    const result = run(command, ...given), { status, err, location } = result;
    if (status) throw new DyncollateError(status, decoded(err).trimEnd(), location);
    return result;
  }

  return {
    run,
    /** The files that `dyncollate collate` writes for a target document and these files. */
    collate: (...given) => checked("collate", ...given).files,
    /** The files that `dyncollate project` writes for a project document and these files. */
    project: (...given) => checked("project", ...given).files,
    /** The dyndep file of a scan document. */
    one: (...given) => checked("one", ...given).out,
    /** The edge list as it is once Ninja has loaded the dyndep file under this name. */
    effect: (...given) => checked("effect", ...given).out,
    /** The first outputs of the edges, each after those that it needs. */
    order: (...given) => outputLines(checked("order", ...given).out),
    /** The dyndep file as `dyncollate` writes it. */
    show: (...given) => checked("show", ...given).out,
    /** The statements of a dyndep file. Their paths are bytes. */
    statements: (...given) => {
      const { status, numbers, text } = call("statements", ...given);
      if (status) checked("show", ...given); // throws this error
      return statementsOf(numbers, text);
    },
    /** The version of the module, such as "1.2.3". */
    version: () => {
      const number = exports().dyncollate_version();
      return [number / 10000, (number / 100) % 100, number % 100].map(Math.floor).join(".");
    },
  };
}

function statementsOf(numbers, text) {
  const statements = [], next = pieces(text);
  for (let index = 0; index < numbers.length;) {
    const [restat, outputs, inputs] = numbers.slice(index, index + 3);
    const [output, ...paths] = numbers.slice(index + 3, index + 4 + outputs + inputs).map(next);
    const parts = { outputs: paths.slice(0, outputs), inputs: paths.slice(outputs) };
    statements.push({ output, ...parts, restat: restat === 1 });
    index += 4 + paths.length;
  }
  return statements;
}

const decoded = (bytes) => new TextDecoder("utf-8", { ignoreBOM: true }).decode(bytes);

/** What an object is, such as "Map" or "ArrayBuffer", also if another window or context made it. */
const tagOf = (it) => Object.prototype.toString.call(it).slice(8, -1);

/** What a command is given, as bytes, or for files as a list of names and bytes. */
function partsOf(command, given) {
  if (!Object.hasOwn(COMMANDS, command)) throw new TypeError(`there is no command ${command}`);
  const kinds = COMMANDS[command].split(" ");
  if (given.length !== kinds.length) {
    throw new TypeError(`${command} takes ${kinds.length} arguments, not ${given.length}`);
  }
  return given.map((it, at) => (kinds[at] === "files" ? pairsOf(it).flat().map(rawOf) : rawOf(it)));
}

function rawOf(it) {
  if (typeof it === "string") {
    if (/\p{Surrogate}/u.test(it)) throw new TypeError("a string cannot be written in UTF-8");
    return new TextEncoder().encode(it);
  }
  if (ArrayBuffer.isView(it)) return new Uint8Array(it.buffer, it.byteOffset, it.byteLength);
  if (/^(Shared)?ArrayBuffer$/.test(tagOf(it))) return new Uint8Array(it);
  throw new TypeError(`bytes are a string, an ArrayBuffer or a view of one, not ${tagOf(it)}`);
}

function pairsOf(files) {
  if (tagOf(files) === "Map") return [...files];
  if (tagOf(files) === "Object") return Object.entries(files);
  throw new TypeError(`files are an object or a Map, not ${tagOf(files)}`);
}

function outputLines(bytes) {
  const lines = [];
  for (let at = 0, end; at < bytes.length; at = end + 1) {
    end = bytes.indexOf(10, at);
    lines.push(bytes.subarray(at, end));
  }
  return lines;
}

/** A function that returns the next bytes of a text, as many as it is asked for. */
function pieces(text) {
  let at = 0;
  return (length) => text.subarray(at, (at += length));
}

/** Files as the library takes them: two lengths per file, and one string of all names and bytes. */
function joined(parts) {
  const text = new Uint8Array(parts.reduce((sum, part) => sum + part.length, 0));
  parts.reduce((at, part) => (text.set(part, at), at + part.length), 0);
  return { lengths: new BigUint64Array(parts.map((part) => BigInt(part.length))), text };
}

/** Blocks of an instance's memory. Addresses and counts are BigInts. */
function blocksOf(instance) {
  const blocks = [];
  const allocate = (size) => {
    const address = instance.malloc(BigInt(size || 1));
    if (!address) throw new RangeError("out of memory");
    blocks.push(address);
    return address;
  };
  const put = (bytes, count = bytes.length) => {
    const address = allocate(bytes.byteLength), raw = rawOf(bytes);
    new Uint8Array(instance.memory.buffer, Number(address), raw.length).set(raw);
    return [address, BigInt(count)];
  };
  return { blocks, allocate, put };
}

/** The location with the numbers of `dyncollate_location` in dyncollate.h. What the error does not
 * have is not there. */
function locationOf([document, letter, number, list, target, index, line, item, entry, offset]) {
  const kind = DOCUMENT_KINDS[document], part = { scan: "rule", info: "module" }[kind];
  const code = letter ? String.fromCharCode(letter) + number : undefined;
  const indexes = { target, index, line, [part ?? "statement"]: item, [ENTRY_LISTS[list]]: entry };
  const found = Object.entries({ ...indexes, offset }).filter(([, it]) => it !== ABSENT);
  return { document: kind, code, ...Object.fromEntries(found) };
}

/** Calls a function of an instance, if need be again with as much room as it needs. */
function called(instance, command, given) {
  const { blocks, allocate, put } = blocksOf(instance);
  const passed = (it) => {
    if (!Array.isArray(it)) return put(it);
    const { lengths, text } = joined(it);
    return [...put(lengths), ...put(text)];
  };
  try {
    const words = given.flatMap(passed), outcome = allocate(24);
    for (let numbersRoom = 64, textRoom = 1 << 16; ;) {
      const numbersAt = allocate(8 * numbersRoom), textAt = allocate(textRoom);
      const room = [numbersAt, BigInt(numbersRoom), textAt, BigInt(textRoom)];
      instance[`dyncollate_${command}`](outcome, ...words, ...room);
      const { status, written, numbers, text } = outcomeAt(instance, outcome);
      if (status === NO_MEMORY) throw new RangeError("out of memory");
      if (status === MISUSED) throw new TypeError("a name is not UTF-8");
      if (written) {
        // The location of an error follows the two numbers of a command that fails.
        const found = numbersIn(instance, numbersAt, status ? 12 : numbers);
        return { status, numbers: found, text: bytesIn(instance, textAt, text) };
      }
      instance.free(blocks.pop());
      instance.free(blocks.pop());
      [numbersRoom, textRoom] = [Math.max(12, numbers), text];
    }
  } finally {
    for (const address of blocks) instance.free(address);
  }
}

/** `dyncollate_outcome` of dyncollate.h. */
function outcomeAt(instance, address) {
  const view = new DataView(instance.memory.buffer, Number(address), 24);
  const [numbers, text] = [8, 16].map((at) => Number(view.getBigUint64(at, true)));
  return { status: view.getUint32(0, true), written: view.getUint32(4, true), numbers, text };
}

function numbersIn(instance, address, count) {
  return Array.from(new BigUint64Array(instance.memory.buffer, Number(address), count), Number);
}

function bytesIn(instance, address, size) {
  return new Uint8Array(instance.memory.buffer, Number(address), size).slice();
}
