// Lines that are drawn by the pointer.
import {draw} from "./acting.js";
import {stretch} from "./curves.js";
import {byId, say} from "./dom.js";
import {redraw} from "./redraw.js";
import {toggle} from "./trees.js";

let drag = null;
const otherSide = (side) => (side === "source" ? "target" : "source");

export function startPointer() {
  const diagram = byId("diagram");
  const under = (event) =>
      document.elementFromPoint(event.clientX, event.clientY)?.closest?.(`#${otherSide(drag.side)} .row`) ?? null;
  for (const side of ["source", "target"]) {
    byId(side).addEventListener("pointerdown", (event) => {
      const row = event.target.closest(side === "source" ? ".row" : ".row.column");
      if (!row || event.button !== 0) return;
      drag = {
        side,
        column: [row.dataset.set, row.dataset.column ?? null],
        x: event.clientX,
        y: event.clientY,
        moved: false,
        over: null,
        event
      };
    });
  }
  addEventListener("pointermove", (event) => {
    if (!drag) return;
    if (!drag.moved && Math.hypot(event.clientX - drag.x, event.clientY - drag.y) < 5) return;
    if (!drag.moved) {
      drag.moved = true;
      diagram.classList.add("dragging");
      requestAnimationFrame(edgeScroll);
    }
    event.preventDefault();
    drag.event = event;
    follow();
  });
  function follow() {
    stretch(drag.side, drag.column, drag.event);
    const now = under(drag.event);
    if (now === drag.over) return;
    clearTimeout(drag.timer);
    drag.over?.classList.remove("drop");
    drag.over = now;
    if (now?.dataset.column) now.classList.add("drop");
    else if (now?.getAttribute("aria-expanded") === "false")
      drag.timer = setTimeout(() => {
        if (drag?.over === now) {
          toggle(otherSide(drag.side), now.dataset.set, true);
          redraw();
          drag.over = null;
        }
      }, 500);
  }
  // At the rims of the other side it scrolls as long as the pointer stays there.
  function edgeScroll() {
    if (!drag?.moved) return;
    const box = byId(otherSide(drag.side)), rim = box.getBoundingClientRect(), {clientX: x, clientY: y} = drag.event;
    if (x > rim.left && x < rim.right) {
      if (y < rim.top + 24) box.scrollTop -= 8;
      else if (y > rim.bottom - 24) box.scrollTop += 8;
      follow();
    }
    requestAnimationFrame(edgeScroll);
  }
  const end = (event, done) => {
    if (!drag) return;
    const row = done && drag.moved ? under(event) : null, one = drag;
    drag = null;
    clearTimeout(one.timer);
    stretch(null);
    one.over?.classList.remove("drop");
    diagram.classList.remove("dragging");
    if (!done || !one.moved) return;
    const other = row && [row.dataset.set, row.dataset.column ?? null];
    if (other && one.side === "target") draw(other, one.column);
    else if (other && other[1] !== null) draw(one.column, other);
    else say(`no ${otherSide(one.side)} column there`);
    const swallow = (click) => click.stopPropagation();  // the click that a browser may make of this pointer's way
    addEventListener("click", swallow, {capture: true});
    setTimeout(() => removeEventListener("click", swallow, {capture: true}), 0);
  };
  addEventListener("pointerup", (event) => end(event, true));
  addEventListener("pointercancel", (event) => end(event, false));
}
