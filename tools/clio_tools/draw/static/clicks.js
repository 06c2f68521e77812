// Clicks on both sides and on the curves.
import {choose} from "./acting.js";
import {byId, counted, later, say} from "./dom.js";
import {select, setNamed} from "./model.js";
import {curves, redraw} from "./redraw.js";
import {foldAll, show, sides, toggle} from "./trees.js";

// Clicks, filters and folds of both sides.
export function startClicks() {
  for (const side of ["source", "target"]) {
    byId(side).addEventListener("click", (event) => {
      const row = event.target.closest(".row");
      if (!row) {
        select(null);
        return;
      }
      sides[side].rows.forEach((one) => { one.tabIndex = one === row ? 0 : -1; });
      row.focus({preventScroll: true});
      const ref = event.target.closest("[data-ref]"), text = event.target.closest("[data-line]"),
            menu = event.target.closest("[data-menu]");
      if (menu) select({kind: "set", side, set: row.dataset.set});
      else if (ref) select({kind: "ref", side, set: row.dataset.set, index: Number(ref.dataset.ref)});
      else if (text) select({kind: "line", index: Number(text.dataset.line)});
      else if (row.dataset.column) choose(side, row.dataset.set, row.dataset.column);
      else {
        toggle(side, row.dataset.set);
        redraw();
      }
    });
    byId(side).addEventListener("dblclick", (event) => {
      const ref = event.target.closest("[data-ref]"), row = event.target.closest(".row");
      if (!ref) return;
      const found = setNamed(side, row.dataset.set).refs[Number(ref.dataset.ref)];
      show(side, found.set, found.referred[0])?.focus();
      curves();
    });
    byId(side).addEventListener("scroll", curves, {passive: true});
    byId(`${side}-filter`)
        .addEventListener(
            "input", later(() => 80, () => {
              sides[side].filter = byId(`${side}-filter`).value.trim();
              redraw();
              say(`${counted(sides[side].rows.filter((row) => row.dataset.column).length, "column")} shown`);
            }));
    byId(`${side}-lined`).addEventListener("change", (event) => {
      sides[side].lined = event.target.checked;
      redraw();
    });
    byId(`${side}-fold`).addEventListener("click", () => {
      foldAll(side);
      redraw();
    });
  }
  byId("curves").addEventListener("click", (event) => {
    const group = event.target.closest("[data-line]"), bundle = event.target.closest("[data-sets]");
    if (bundle) {
      const [from, to] = bundle.dataset.sets.split(">");
      toggle("source", from, true);
      toggle("target", to, true);
      redraw();
      show("source", from);
      show("target", to);
      curves();
      return;
    }
    select(group ? {kind: "line", index: Number(group.dataset.line)} : null);
  });
}
