// Passes the files of a drop or of a choice on to the worker, some at a time, so that a directory
// of many files does not block the page.
import { ask } from "./asking.mjs";
import { opened } from "./reading.mjs";

const AT_ONCE = 100;

/** Returns a function that passes the files of a choice on. */
export const chosenFiles = (files) => async () => {
  const pairOf = (file) => [file.webkitRelativePath || file.name, file];
  for (let at = 0; at < files.length; at += AT_ONCE) {
    const some = Array.from({ length: Math.min(AT_ONCE, files.length - at) },
      (_, index) => pairOf(files[at + index]));
    await ask("find", some);
  }
};

/**
 * Returns a function that passes the files of a drop on. Chromium has handles, which also work in a
 * page from the file system, and the worker opens them: the page would be blocked when it frees
 * many. Other browsers have entries.
 */
export function droppedFiles(transfer) {
  const items = [...transfer.items].filter((item) => item.kind === "file");
  const handles = items.map((item) => item.getAsFileSystemHandle?.());
  const entries = items.map((item) => item.webkitGetAsEntry?.());
  const files = items.map((item) => item.getAsFile());
  return async () => {
    for (const [index, handle] of (await Promise.all(handles)).entries()) {
      if (handle) await ask("findBelow", [handle]);
      else if (entries[index]?.isDirectory) await passEntry(entries[index], "");
      else if (files[index]) await ask("find", [[files[index].name, files[index]]]);
    }
  };
}

async function passEntry(entry, path) {
  const later = (call) => new Promise((resolve, reject) => call(resolve, reject));
  const below = `${path}${entry.name}/`, reader = entry.createReader();
  const pairOf = async (it) =>
    [below + it.name, await opened(later((resolve, reject) => it.file(resolve, reject)))];
  for (let some = [0]; some.length;) {
    some = await later((resolve, reject) => reader.readEntries(resolve, reject));
    await ask("find", await Promise.all(some.filter((it) => it.isFile).map(pairOf)));
    for (const it of some.filter((it) => it.isDirectory)) await passEntry(it, below);
  }
}
