/** Bytes. A string is passed as UTF-8. */
export type Bytes = string | ArrayBufferLike | ArrayBufferView;

/** Files, by the names that a document has for them. */
export type Files = ReadonlyMap<string, Bytes> | { readonly [name: string]: Bytes };

/** Where an error is. What it does not have is not there. Lines count from 1, everything else
 * from 0. */
export interface Location {
  /** What has the error; a dyndep file is "dyndep". */
  document?: "target" | "project" | "scan" | "info" | "edges" | "name" | "dyndep";
  /** The code of the error, such as "S6". */
  code?: string;
  /** Which target of a project. */
  target?: number;
  /** Which scan document or info file, in the list of the target document. */
  index?: number;
  line?: number;
  /** Which rule of a scan document, module of an info file, or statement. */
  rule?: number;
  module?: number;
  statement?: number;
  /** Which entry of a list. */
  provides?: number;
  requires?: number;
  path?: number;
  /** Which byte of the line. */
  offset?: number;
}

/** A command that fails: its status, its line on standard error, and the location of the error. */
export class DyncollateError extends Error {
  constructor(status: number, line: string, location: Location);
  status: number;
  line: string;
  location: Location;
}

/** What a command prints and writes, and the location of its error if it fails. `restat` names the
 * files that may be left alone if they already have their bytes. */
export interface Result {
  status: number;
  out: Uint8Array;
  err: Uint8Array;
  files: Map<string, Uint8Array>;
  restat: Set<string>;
  location?: Location;
}

/** A statement of a dyndep file: its output, its implicit outputs and inputs. */
export interface Statement {
  output: Uint8Array;
  outputs: Uint8Array[];
  inputs: Uint8Array[];
  restat: boolean;
}

export interface Dyncollate {
  /** What a command prints and writes, also if it fails. */
  run(command: "collate" | "project", document: Bytes, files: Files): Result;
  run(command: "one", scan: Bytes, directory: Bytes, extension: Bytes): Result;
  run(command: "effect", name: Bytes, edges: Bytes, dyndep: Bytes): Result;
  run(command: "order" | "show", file: Bytes): Result;
  /** The files that `dyncollate collate` writes for a target document and these files. */
  collate(document: Bytes, files: Files): Map<string, Uint8Array>;
  /** The files that `dyncollate project` writes for a project document and these files. */
  project(document: Bytes, files: Files): Map<string, Uint8Array>;
  /** The dyndep file of a scan document. */
  one(scan: Bytes, directory: Bytes, extension: Bytes): Uint8Array;
  /** The edge list as it is once Ninja has loaded the dyndep file under this name. */
  effect(name: Bytes, edges: Bytes, dyndep: Bytes): Uint8Array;
  /** The first outputs of the edges, each after those that it needs. */
  order(edges: Bytes): Uint8Array[];
  /** The dyndep file as `dyncollate` writes it. */
  show(dyndep: Bytes): Uint8Array;
  /** The statements of a dyndep file. */
  statements(dyndep: Bytes): Statement[];
  /** The version of the module, such as "1.2.3". */
  version(): string;
}

/** Returns the functions of a module, which is given by the bytes of dyncollate.wasm. */
export function load(bytes: ArrayBuffer | ArrayBufferView): Promise<Dyncollate>;
