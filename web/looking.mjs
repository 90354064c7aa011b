// How one looks at a drawing that is larger than its view: sizes, dragging, and an overview.
import { element } from "./drawing.mjs";
import { SIZE } from "./layout.mjs";

// Text that would be smaller than 9 pixels is hidden: module names below the first scale, paths
// below the second.
const READABLE = [9 / 12.5, 9 / 10.5];
const SMALLEST = 0.02, LARGEST_SCALE = 2.5, MOVED = 4;

/** Returns functions that show a drawing in a view that scrolls, and that change its size. */
export function lookingAt(view, overview) {
  let svg = null, scale = 1, isFitted = true;

  const fitting = () => Math.min(1, (view.clientWidth - 4) / svg.size.width,
    (view.clientHeight - 12) / svg.size.height);

  function resize(wanted) {
    scale = Math.min(LARGEST_SCALE, Math.max(SMALLEST, wanted));
    svg.style.width = `${svg.size.width * scale}px`;
    svg.style.height = `${svg.size.height * scale}px`;
    svg.classList.toggle("small", scale < READABLE[1]);
    svg.classList.toggle("tiny", scale < READABLE[0]);
    showPart();
  }

  /** Changes the size around a point of the view, its middle if there is none. */
  function zoom(factor, x = view.clientWidth / 2, y = view.clientHeight / 2) {
    if (!svg) return;
    const [left, top] = [(view.scrollLeft + x) / scale, (view.scrollTop + y) / scale];
    isFitted = false;
    resize(scale * factor);
    view.scrollTo(left * scale - x, top * scale - y);
  }

  function fit() {
    if (!svg) return;
    isFitted = true;
    resize(fitting());
  }

  /** Shows a drawing: all of it if it is readable then, and otherwise the box that it begins at. */
  function show(drawn, boxes, box) {
    svg = drawn;
    isFitted = fitting() >= READABLE[0];
    overview.replaceChildren(...partsOf(svg, boxes));
    resize(isFitted ? fitting() : 1);
    if (!isFitted && box) centre(box.x + SIZE.width / 2, box.y + SIZE.height / 2);
  }

  function centre(x, y) {
    view.scrollTo(x * scale - view.clientWidth / 2, y * scale - view.clientHeight / 2);
    showPart();
  }

  /** The overview: all boxes as one shape, and the part that is in the view. */
  function partsOf({ size }, boxes) {
    overview.setAttribute("viewBox", `0 0 ${size.width} ${size.height}`);
    const shape = (is) => boxes.filter(({ isBad }) => is === Boolean(isBad))
      .map(({ x, y }) => `M${x},${y}h${SIZE.width}v${SIZE.height}h${-SIZE.width}z`).join("");
    return [element("path", { d: shape(false), class: "boxes" }),
      element("path", { d: shape(true), class: "boxes bad" }), element("rect", { class: "part" })];
  }

  function showPart() {
    const part = overview.querySelector(".part"), { clientWidth, clientHeight } = view;
    const { scrollWidth, scrollHeight } = view;
    overview.toggleAttribute("hidden", !svg?.isConnected
      || (scrollWidth <= clientWidth + 1 && scrollHeight <= clientHeight + 1));
    if (overview.hasAttribute("hidden")) return;
    const place = { x: view.scrollLeft / scale, y: view.scrollTop / scale,
      width: clientWidth / scale, height: clientHeight / scale };
    for (const [name, value] of Object.entries(place)) part.setAttribute(name, value);
  }

  function clear() {
    svg = null;
    showPart();
  }

  listenToDrags(view);
  view.addEventListener("scroll", showPart);
  view.addEventListener("wheel", (event) => {
    if (!event.ctrlKey || !svg) return;
    event.preventDefault();
    const { left, top } = view.getBoundingClientRect();
    zoom(event.deltaY < 0 ? 1.15 : 1 / 1.15, event.clientX - left, event.clientY - top);
  }, { passive: false });
  const move = (event) => {
    const { left, top, width, height } = overview.getBoundingClientRect(), { size } = svg;
    const factor = Math.min(width / size.width, height / size.height);
    centre((event.clientX - left - (width - size.width * factor) / 2) / factor,
      (event.clientY - top - (height - size.height * factor) / 2) / factor);
  };
  overview.addEventListener("pointerdown", (event) => {
    overview.setPointerCapture(event.pointerId);
    move(event);
  });
  overview.addEventListener("pointermove", (event) => event.buttons && move(event));
  addEventListener("resize", () => (svg && isFitted ? fit() : showPart()));
  return { show, zoom, fit, clear, scale: () => scale };
}

/** The mouse drags what is in a view that scrolls. A drag is no click. */
function listenToDrags(view) {
  let start = null, isMoved = false;
  view.addEventListener("pointerdown", (event) => {
    if (event.pointerType !== "mouse" || event.button || !event.target.closest?.("svg")) return;
    [start, isMoved] = [[event.clientX + view.scrollLeft, event.clientY + view.scrollTop], false];
  });
  addEventListener("pointermove", (event) => {
    if (!start) return;
    const to = [start[0] - event.clientX, start[1] - event.clientY];
    isMoved ||= Math.hypot(to[0] - view.scrollLeft, to[1] - view.scrollTop) > MOVED;
    if (isMoved) view.scrollTo(...to);
  });
  addEventListener("pointerup", () => (start = null));
  view.addEventListener("click", (event) => {
    if (isMoved) event.stopPropagation();
    isMoved = false;
  }, { capture: true });
}
