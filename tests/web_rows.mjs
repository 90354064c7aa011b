// What libdyncollate in JavaScript returns for a row: in Node, for rows from standard input,
// and in a page of tests/web.py.

function bytesOf(text) {
  const bytes = atob(text), made = new Uint8Array(bytes.length);
  for (let at = 0; at < made.length; at++) made[at] = bytes.charCodeAt(at);
  return made;
}

function base64Of(bytes) {
  let text = "";
  for (let at = 0; at < bytes.length; at += 32768) {
    text += String.fromCharCode(...bytes.subarray(at, at + 32768));
  }
  return btoa(text);
}

/** A row is compressed JSON: a command, and what it is given. All bytes are in base64. */
export async function resultOf(run, packed) {
  const stream = new Blob([bytesOf(packed)]).stream().pipeThrough(new DecompressionStream("gzip"));
  const { command, given } = JSON.parse(await new Response(stream).text());
  const passed = given.map((it) => (typeof it === "string" ? bytesOf(it)
    : new Map(Object.entries(it).map(([name, text]) => [name, bytesOf(text)]))));
  const { status, out, err, files } = run(command, ...passed);
  const written = [...files].map(([name, text]) =>
    [base64Of(new TextEncoder().encode(name)), base64Of(text)]);
  return JSON.stringify([status, base64Of(out), base64Of(err), written]);
}

if (globalThis.process?.argv[2]) {
  const { readFileSync } = await import("node:fs");
  const { createInterface } = await import("node:readline");
  const { load } = await import("../web/dyncollate.mjs");
  const { run } = await load(readFileSync(process.argv[2]));
  for await (const line of createInterface({ input: process.stdin })) {
    console.log(await resultOf(run, line));
  }
}
