// The page: files in, a call of dyncollate after each change, and what comes of it. Nothing leaves
// the browser. A worker, which runs the same script, does all work.
import { ask, busily, soon, startWorker } from "./asking.mjs";
import { chosenFiles, droppedFiles } from "./dropping.mjs";
import { $, keep, make, state } from "./elements.mjs";
import * as exploring from "./exploring.mjs";
import { listFiles, moveInFiles, showFile } from "./filing.mjs";
import { lookingAt } from "./looking.mjs";
import { say } from "./saying.mjs";
import { serve } from "./worker.mjs";

const { address, askGraph, askQuestion, asksOfAddress, exampleOfAddress, fillTabs } = exploring;
const { keepSvg, makeTabs, slug, suggest } = exploring;

// ---- files

async function putFiles(chosen = null) {
  Object.assign(state, { opened: new Set(), isNew: true, shown: null });
  await fillCommands(chosen);
  await update();
  const { rows } = await ask("list");
  if (state.shown === null) await showFile(chosen?.name ?? rows[0]?.name ?? null);
}

async function removeFile(name) {
  const { rows } = await ask("list", $("filter").value), names = rows.map((it) => it.name);
  const index = names.indexOf(name);
  await ask("remove", name);
  if (state.shown === name) await showFile(names[index + 1] ?? names[index - 1] ?? null);
  await fillCommands();
  await update();
  const buttons = $("files").querySelectorAll("button.name");
  (buttons[Math.min(index, buttons.length - 1)] ?? $("choose")).focus();
}

let taken = Promise.resolve();

/** Takes the files of a drop or of a choice, which `pass` passes on, after those before. */
const takeNext = (pass) => (taken = taken.then(() => takeFiles(pass)));

async function takeFiles(pass) {
  const cannot = ({ message }) => `This browser cannot read all of it (${message}). `
    + "Choose it with the buttons. ";
  const failed = (await pass().catch(cannot)) ?? "";
  const { count, said } = await ask("read", !state.isExample);
  $("taken").textContent = failed + said;
  if (!count) return;
  $("example").value = "";
  state.isExample = false;
  await putFiles();
}

/**
 * Chromium has a dialog that returns a handle. With an element for files it would make a File for
 * each at once.
 */
async function chooseDirectory() {
  try {
    const handle = await showDirectoryPicker();
    busily(takeNext, () => ask("findBelow", [handle]));
  } catch (error) {
    if (error.name !== "AbortError") $("directorychooser").click();
  }
}

async function pasteFile() {
  if (state.isExample) await ask("put", []);
  state.isExample = false;
  $("example").value = "";
  const names = new Set((await ask("list")).rows.map((it) => it.name));
  let number = 1;
  while (names.has(`${number}.ddi`)) number++;
  await ask("edit", `${number}.ddi`, "");
  await putFiles();
  await showFile(`${number}.ddi`);
  $("text").focus();
}

// ---- the command and its run

async function fillCommands(chosen) {
  const before = $("command").value, all = await ask("commands");
  const option = (it) => make("option", { value: JSON.stringify(it) }, it.label);
  $("command").replaceChildren(...all.map(option));
  const isChosen = (it) => it.command === chosen.command && it.name === chosen.name;
  const wanted = all.find((it) => (chosen ? isChosen(it) : JSON.stringify(it) === before));
  if (wanted) $("command").value = JSON.stringify(wanted);
  $("command").disabled = all.length < 2;
}

async function update() {
  const turn = ++state.turn, chosen = $("command").value ? JSON.parse($("command").value) : null;
  $("settings").hidden = !chosen || !["all", "one"].includes(chosen.command);
  $("maps").hidden = chosen?.command !== "all";
  const fields = ["directory", "extension", "map"];
  const settings = Object.fromEntries(fields.map((id) => [id, $(id).value]));
  const summary = await ask("run", chosen, settings);
  if (turn !== state.turn) return;
  state.summary = summary;
  say(summary);
  if (state.isNew && summary?.failed) await showFile(summary.failed);
  state.isNew = false;
  await listFiles();
  fillTabs();
  await askGraph(asksOfAddress());
}

async function followAddress() {
  const example = exampleOfAddress();
  if (example && $("example").value !== example) await showExample(example);
  else await askGraph(asksOfAddress());
}

// ---- events

function listen() {
  const on = (id, event, does) => $(id).addEventListener(event, does);
  on("text", "input", () => {
    ask("edit", state.shown, $("text").value);
    busily(fillCommands);
    soon(update);
  });
  on("command", "input", () => busily(update));
  on("directory", "input", () => soon(update));
  on("extension", "input", () => soon(update));
  on("map", "input", () => {
    if ($("map").value) $("extension").value = $("map").value === "gcc" ? ".gcm" : ".pcm";
    busily(update);
  });
  on("example", "input", () => $("example").value && (location.hash = slug($("example").value)));
  on("choose", "click", () => $("chooser").click());
  on("directories", "click", chooseDirectory);
  on("drop", "change", ({ target }) => {
    busily(takeNext, chosenFiles(target.files));
    // (a new element, so that the next choice leaves the files of this one alone)
    target.outerHTML = target.outerHTML;
  });
  on("paste", "click", () => busily(pasteFile));
  on("filter", "input", () => busily(listFiles));
  on("files", "keydown", moveInFiles);
  addEventListener("hashchange", () => busily(followAddress));
  listenToGraph(on);
  listenToDrops();
}

function listenToGraph(on) {
  on("larger", "click", () => state.look.zoom(1.25));
  on("smaller", "click", () => state.look.zoom(0.8));
  on("fit", "click", () => state.look.fit());
  on("svg", "click", keepSvg);
  on("dot", "click", () => busily(keepDot));
  on("questions", "submit", askQuestion);
  on("question", "input", () => ($("otherlabel").hidden = $("question").value !== "path"));
  on("whole", "click", () => {
    address({}, true);
    busily(askGraph, {});
  });
  on("name", "input", suggest);
  on("other", "input", suggest);
  addEventListener("keydown", (event) => {
    if (event.key !== "/" || event.target.matches("input, textarea, select")) return;
    event.preventDefault();
    $("name").focus();
  });
}

const keepDot = async () => keep("modules.dot", "text/vnd.graphviz", await ask("dot"));

function listenToDrops() {
  let depth = 0;
  const over = (isOver) => document.body.classList.toggle("over", isOver);
  addEventListener("dragenter", () => over(++depth > 0));
  addEventListener("dragleave", () => over(--depth > 0));
  addEventListener("dragover", (event) => event.preventDefault());
  addEventListener("drop", (event) => {
    event.preventDefault();
    over(Boolean((depth = 0)));
    busily(takeNext, droppedFiles(event.dataTransfer));
  });
}

// ---- the beginning

async function showExample(name) {
  state.isExample = true;
  $("taken").textContent = "";
  $("example").value = name;
  await ask("put", Object.entries(state.examples[name]));
  await putFiles();
}

/** Begins. `unpacked` returns the bytes of an element. `scriptAddress` is where this script is. */
export async function begin(unpacked, scriptAddress) {
  const parts = JSON.parse(new TextDecoder().decode(await unpacked("parts")));
  state.examples = parts.examples;
  startWorker(scriptAddress);
  await ask("begin", await unpacked("wasm"), await unpacked("script"), parts.advice);
  state.look = lookingAt($("view"), $("overview"));
  state.removes = removeFile;
  $("example").append(...Object.keys(state.examples).map((name) => make("option", {}, name)));
  makeTabs();
  listen();
  const given = $("given").textContent;
  if (given === "null") return showExample(exampleOfAddress() ?? Object.keys(state.examples)[0]);
  state.isExample = false;
  $("example").value = "";
  const chosen = await ask("putGiven", given);
  document.title = `${chosen.name} - dyncollate`;
  return putFiles(chosen);
}

if (!globalThis.document) serve(globalThis);
