// Workers of the page's worker, which call dyncollate side by side.

const MOST = 4;

/**
 * Returns a function that calls dyncollate, the module that was compiled, in a worker that has
 * nothing to do. A worker is started if all others are busy.
 */
export function helpersWith(module, address) {
  const idle = [], waiting = [], most = Math.min(MOST, navigator.hardwareConcurrency || 1);
  // (Firefox ends a worker that nothing refers to, even if it is busy)
  const all = [];

  function started() {
    const worker = new Worker(address);
    all.push(worker);
    worker.postMessage({ task: "help", given: [module] });
    return worker;
  }

  /** Gives the next call to a worker. */
  function give() {
    const worker = idle.pop() ?? (all.length < most ? started() : null);
    if (!worker) return;
    const { given, resolve, reject } = waiting.shift();
    worker.postMessage({ task: "run", given });
    worker.onerror = ({ message }) => reject(new Error(message));
    worker.onmessage = ({ data: { result, error } }) => {
      idle.push(worker);
      if (waiting.length) give();
      if (error === undefined) resolve(result);
      else reject(new Error(error));
    };
  }

  return (...given) => new Promise((resolve, reject) => {
    waiting.push({ given, resolve, reject });
    give();
  });
}
