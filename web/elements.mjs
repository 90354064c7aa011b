// The elements of the page, and what they show now.

export const $ = (id) => document.getElementById(id);

export const state = { shown: null, tab: "graph", isExample: true, isNew: false, opened: new Set(),
  turn: 0, summary: null, drawn: null, examples: {}, look: null, removes: null };

export function make(tag, attributes = {}, ...inside) {
  const made = document.createElement(tag);
  for (const [name, value] of Object.entries(attributes)) {
    if (name.startsWith("on")) made.addEventListener(name.slice(2), value);
    else if (value !== false) made.setAttribute(name, value === true ? "" : value);
  }
  made.append(...inside);
  return made;
}

// How many things are made in one frame at most, in how many milliseconds, and how long a frame is
// waited for: a page that is hidden has none.
const SLICE = 60, TIME = 8, LATEST = 100;

const frame = () => new Promise((resolve) => {
  requestAnimationFrame(resolve);
  setTimeout(resolve, LATEST);
});

/** Puts what is made of all things into an element, a slice of them in each frame. */
export async function fill(parent, all, make, made = []) {
  for (let at = 0; at < all.length && parent.isConnected;) {
    const begin = performance.now(), some = [];
    const isLeft = () => some.length < SLICE && performance.now() - begin < TIME;
    do some.push(make(all[at++])); while (at < all.length && isLeft());
    made.push(...some);
    parent.append(...some);
    if (at < all.length) await frame();
  }
}

/** Gives the user a file to keep. */
export function keep(name, type, text) {
  const link = make("a", { href: URL.createObjectURL(new Blob([text], { type })), download: name });
  link.click();
  setTimeout(() => URL.revokeObjectURL(link.href), 60000);
}
