// What runs next to the page, so that the page never waits. A message names a task, which is a
// function of a session, or of dyncollate in a worker of the worker, and what it is given. One task
// runs after another.
import { load } from "./dyncollate.mjs";
import { helpersWith } from "./helpers.mjs";
import { Session } from "./session.mjs";

/** Calls of dyncollate, with the milliseconds that each took. */
const timed = ({ run }) => ({ run: (...given) => {
  const began = performance.now(), result = run(...given);
  return { ...result, took: performance.now() - began };
} });

export function serve(scope) {
  let served, before = Promise.resolve();
  const report = (what, done, of) => scope.postMessage({ what, done, of });
  const begins = {
    begin: async (bytes, script, advice) => {
      // (Chromium accepts only an address that is made here)
      const address = URL.createObjectURL(new Blob([script], { type: "text/javascript" }));
      const run = helpersWith(await WebAssembly.compile(bytes), address);
      served = new Session({ run }, advice, report);
    },
    help: async (module) => void (served = timed(await load(module))),
  };
  const does = async (task, given) => (begins[task] ?? served[task].bind(served))(...given);
  scope.onmessage = ({ data: { number, task, given } }) => {
    before = before.then(() => does(task, given)).then(
      (result) => task !== "help" && scope.postMessage({ number, result }),
      (error) => scope.postMessage({ number, error: error.message }));
  };
}
