// What the page says about a run.
import { busily } from "./asking.mjs";
import { plural } from "./documents.mjs";
import { $, make } from "./elements.mjs";
import { openFile } from "./filing.mjs";

/** The result: accepted, or the error line, what it means, and the file that it is in. */
export function say(summary) {
  $("result").className = !summary ? "" : summary.line ? "bad" : "good";
  $("took").textContent = summary ? `status ${summary.status}, ${summary.took.toFixed(1)} ms` : "";
  const said = summary ? saidOfRun(summary) : [line("Drop some documents to begin.")];
  $("result").replaceChildren(...said);
}

const line = (...inside) => make("p", { class: "line" }, ...inside);

function saidOfRun({ line: whole, short, steps, meaning, failed, good }) {
  if (!whole) return [line(good)];
  const inTarget = failed ? [linkTo(failed), ": "] : [];
  const details = short === whole ? [] : [folded("The whole line", make("code", {}, whole))];
  const error = line(...inTarget, make("code", {}, short)), text = make("p", {}, meaning.text);
  const lines = steps ? [line(`${steps.said}.`), error] : [error];
  return [...lines, ...where(meaning), text, ...details, ...others(steps)];
}

const folded = (title, ...inside) => make("details", {}, make("summary", {}, title), ...inside);

function linkTo(name, text = name) {
  return make("button", { class: "link", onclick: () => busily(openFile, name) }, text);
}

/** The file that the error is in, which opens, and what is wrong there. */
function where({ what, file, isThere, detail }) {
  const inside = detail ? [make("span", {}, detail)] : [];
  if (file && isThere) inside.unshift(`${what} `, linkTo(file), ". ");
  else if (file) inside.unshift(`${what} `, make("b", {}, file), ", which is not there. ");
  return inside.length ? [make("p", { class: "where" }, ...inside)] : [];
}

/** The other targets that are not right. */
function others(steps) {
  const rest = steps?.wrong.slice(1) ?? [];
  if (!rest.length) return [];
  const items = rest.map(({ name, file, line }) => make("li", {}, linkTo(file, name), `: ${line}`));
  const left = steps.count - steps.wrong.length;
  if (left) items.push(make("li", {}, `${plural(left, "more target")}.`));
  return [folded(plural(steps.count - 1, "other target"), make("ul", {}, ...items))];
}
