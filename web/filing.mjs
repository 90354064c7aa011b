// The files: their list, and the text of one.
import { ask, busily } from "./asking.mjs";
import { plural } from "./documents.mjs";
import { $, make, state } from "./elements.mjs";

const MARKS = { right: "✓ right", wrong: "✗ wrong", waits: "not run" };

/** Shows the text of a file. */
export async function showFile(name) {
  const { text, isWhole } = name === null ? { text: "", isWhole: false } : await ask("text", name);
  state.shown = name;
  $("text").value = text;
  $("text").disabled = name === null;
  $("text").readOnly = !isWhole;
  $("textname").textContent = name === null ? "No file" : isWhole ? name : `${name}, its beginning`;
  for (const button of $("files").querySelectorAll("button.name")) {
    button.setAttribute("aria-current", button.dataset.name === name);
  }
}

/** The list is one stop of the Tab key: the arrow keys move in it, and Delete removes a file. */
export async function listFiles() {
  const { rows, left, count } = await ask("list", $("filter").value);
  const stop = (rows.find((it) => it.name === state.shown) ?? rows[0])?.name;
  $("files").replaceChildren(...rows.map((row) => shownRow(row, row.name === stop)));
  if (left) {
    const note = `${plural(left, "more file")}: search by name.`;
    $("files").append(make("li", { class: "note" }, note));
  }
  $("count").textContent = plural(count, "file");
  $("filter").hidden = count < 20;
}

function shownRow({ name, kind, state: mark }, isStop) {
  const opens = { "data-name": name, title: name, "aria-current": String(name === state.shown),
    tabindex: isStop ? "0" : "-1", onclick: () => busily(showFile, name) };
  const removes = { title: "Remove", "aria-label": `Remove ${name}`, tabindex: "-1",
    onclick: () => busily(state.removes, name) };
  const button = make("button", { class: `name ${mark ?? ""}`, ...opens },
    make("span", {}, name), make("small", {}, mark ? MARKS[mark] : kind));
  return make("li", {}, button, make("button", { class: "remove", ...removes }, "×"));
}

export function moveInFiles(event) {
  const names = [...$("files").querySelectorAll("button.name")];
  const index = names.findIndex((it) => it.parentNode.contains(event.target));
  const places = { ArrowDown: index + 1, ArrowUp: index - 1, Home: 0, End: names.length - 1 };
  const to = places[event.key];
  if (index < 0 || (to === undefined && event.key !== "Delete")) return;
  event.preventDefault();
  if (to === undefined) return void busily(state.removes, names[index].dataset.name);
  names[index].tabIndex = -1;
  const next = names[to] ?? names[index];
  next.tabIndex = 0;
  next.focus();
}

/** Shows the text of a file, and goes there. */
export async function openFile(name) {
  await showFile(name);
  $("files").querySelector("[aria-current=true]")?.scrollIntoView({ block: "nearest" });
  $("text").scrollIntoView({ block: "nearest" });
  $("text").focus();
}
