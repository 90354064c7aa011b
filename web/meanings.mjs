// What an error line means: what the manual says about the error, the file that it is in, and what
// is wrong there.
import { textOf } from "./documents.mjs";
import { cycleOf } from "./graph.mjs";
import { aboutModules } from "./suspects.mjs";

// A longer cycle is said by some of its modules.
const MOST_STEPS = 8;

/** The meaning of a line. `index` is the index of its target in the graph. */
export function meaningOf(line, index, request, graph, advice) {
  const error = line.replace(/^dyncollate: /, "").replace(/^target \d+: /, "");
  const code = /\b([NYSMEK]\d+) (\w+)/.exec(error)?.[0] ?? "";
  const cause = /^(?:\w+(?: \d+)?: )*(?:S7|E3|E8) .*?(N\d+ \w+)/.exec(error)?.[1];
  const named = advice[code || error] ?? adviceWithoutCode(error, advice);
  const texts = [named, advice[cause]].filter(Boolean);
  const target = graph.targets[index], isOfProject = request.command === "project"
    && index !== null;
  const file = fileNamedBy(error, isOfProject ? index : null, target, request);
  const detail = code.startsWith("S1 ") && file?.content !== undefined ? whyNotJson(file.content)
    : stepsOf(cycleOf(error), target) || aboutModules(error, target);
  return { text: texts.join(" "), detail, what: file?.what, file: file?.name,
    isThere: file?.content !== undefined };
}

const adviceWithoutCode = (error, advice) =>
  Object.entries(advice).find(([name]) => error.startsWith(
    name.replace(/ (FILE|PATH).*/, "")))?.[1] ?? "";

function fileNamedBy(error, outer, target, request) {
  const found = /^(scan|info) (\d+): /.exec(error), of = (name, file, what) =>
    ({ name, content: file?.content, what });
  if (found) {
    const named = (found[1] === "scan" ? target?.scans : target?.linked)?.[found[2]];
    const where = outer === null ? "" : ` of target ${target.name}`;
    return named && of(named.file?.name ?? named.string, named.file,
      `${found[1]} ${found[2]}${where} is`);
  }
  if (/^edges: /.test(error)) return target?.edges[0] && of(target.edges[0].file?.name,
    target.edges[0].file, "the edge list is");
  if (/^project: /.test(error)) return of(request.name, { content: request.given[1] },
    "the project document is");
  const path = /^M8 /.test(error) ? ""
    : / (?:in|object|MapPath|TwoProvided|ObjectTwice) (\S+)$/.exec(error)?.[1];
  const object = path && target?.objects.find((it) => it.path === path);
  if (object) return of(object.file, { content: "" }, `${path} is in`);
  const isOfTarget = /^target: /.test(error) || outer !== null;
  return isOfTarget && target ? of(target.file, target, outer === null ? "the target document is"
    : `target ${outer} is`) : null;
}

function whyNotJson(content) {
  const bytes = typeof content === "string" ? new TextEncoder().encode(content.slice(0, 3))
    : content, text = textOf(content);
  if (bytes[0] === 0xef && bytes[1] === 0xbb
    && bytes[2] === 0xbf) return "The file begins with a byte-order mark.";
  if (!text.trim()) return "The file is empty.";
  try {
    JSON.parse(text);
    return "A byte of the file is not UTF-8, or it has too many levels.";
  } catch (error) {
    return sayWhere(error.message.replace(/^JSON\.parse: /, ""), text);
  }
}

/**
 * What a browser says about text that is not JSON, with the place in the form that editors have.
 */
function sayWhere(message, text) {
  const isCut = /end of|unterminated/i.test(message), at = /position (\d+)/.exec(message)?.[1];
  const line = /line (\d+) column (\d+)/.exec(message), before = at ? text.slice(0, Number(at))
    : isCut ? text : null;
  const place = before !== null ? [before.split("\n").length,
    before.length - before.lastIndexOf("\n")] : line?.slice(1);
  const why = isCut ? "the file ends here, so it was cut off."
    : `${message.replace(/ ((in JSON )?at position|at line).*/, "")}.`;
  return `${place ? `Line ${place[0]}, column ${place[1]}: ` : ""}${why}`;
}

/** The imports of a cycle, up to the one that closes it. */
function stepsOf(paths, target) {
  const byPath = new Map(target?.objects.map((it) => [it.path, it])),
    objects = paths.map((path) => byPath.get(path));
  if (!objects.length || objects.includes(undefined)) return "";
  if (objects.length > MOST_STEPS) {
    const names = objects.map((it) => it.provides[0]), left = `… ${objects.length - 5} more …`;
    return [...names.slice(0, 3), left, ...names.slice(-2), names[0]].join(" imports ") + ".";
  }
  const steps = objects.map((object, index) => {
    const next = objects[(index + 1) % objects.length],
      names = next.provides.filter((name) => object.requires.includes(name));
    return `${object.path} imports ${names.join(" and ")} of ${next.path}`;
  });
  return `${steps.join("; ")}.`;
}

/** A line in which a long cycle is shortened. */
export function shortLine(line) {
  const paths = cycleOf(line);
  if (paths.length <= MOST_STEPS) return line;
  const start = line.slice(0, line.indexOf(paths[0]));
  return start + [...paths.slice(0, 3), `… ${paths.length - 5} more …`,
    ...paths.slice(-2)].join(" -> ");
}
