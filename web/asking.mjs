// The worker of the page, which runs the same script, and whether it has something to do.
import { inWords } from "./documents.mjs";
import { $ } from "./elements.mjs";

let worker, asked = 0, waiting = 0, timer;
const replies = new Map();

export function startWorker(address) {
  worker = new Worker(address);
  worker.onmessage = ({ data: { number, result, error, what, done, of } }) => {
    if (number === undefined) return showProgress(what, done, of);
    const { resolve, reject } = replies.get(number);
    replies.delete(number);
    if (error === undefined) resolve(result);
    else reject(new Error(error));
  };
}

const isBusy = () => (document.documentElement.dataset.busy = waiting || timer ? "yes" : "no");

/** What the worker returns for a task. */
export function ask(task, ...given) {
  worker.postMessage({ number: ++asked, task, given });
  return new Promise((resolve, reject) => replies.set(asked, { resolve, reject }));
}

/** Does something that takes a while. */
export async function busily(does, ...given) {
  waiting++;
  isBusy();
  try {
    return await does(...given);
  } finally {
    waiting--;
    if (!waiting) showProgress("", 0, 0);
    isBusy();
  }
}

/** Does something after a moment in which more may come. */
export function soon(does) {
  clearTimeout(timer);
  timer = setTimeout(() => {
    timer = null;
    busily(does);
  }, 150);
  isBusy();
}

export function showProgress(what, done, of) {
  $("progress").hidden = of < 200;
  $("progress").firstChild.data = what ? `${what} ${inWords(done)} of ${inWords(of)} ` : "";
  [$("bar").value, $("bar").max] = [done, of || 1];
}
