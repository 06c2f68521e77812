// All that the pointer can do, by the keyboard.
import {choose} from "./acting.js";
import {byId, say} from "./dom.js";
import {edit, model, nameOf, redo, select, undo} from "./model.js";
import {redraw} from "./redraw.js";
import {focusRow, sides, toggle} from "./trees.js";

function treeKey(side, event) {
  const row = event.target.closest(".row");
  if (!row || event.ctrlKey || event.metaKey || event.altKey) return;
  const rows = sides[side].rows, place = rows.indexOf(row), set = row.dataset.set, column = row.dataset.column;
  const act = {
    ArrowDown: () => focusRow(side, place + 1),
    ArrowUp: () => focusRow(side, place - 1),
    Home: () => focusRow(side, 0),
    End: () => focusRow(side, rows.length - 1),
    PageDown: () => focusRow(side, place + 15),
    PageUp: () => focusRow(side, place - 15),
    ArrowRight: () => {
      if (!column) {
        toggle(side, set, true);
        redraw();
        focusRow(side, sides[side].at.get(set).place);
      } else if (side === "source") focusRow("target", nearest("target"));
    },
    ArrowLeft: () => {
      if (!column) {
        toggle(side, set, false);
        redraw();
        focusRow(side, sides[side].at.get(set).place);
      } else focusRow(side, sides[side].at.get(set)?.place ?? 0);
    },
    Enter: () => pick(side, set, column),
    " ": () => pick(side, set, column),
    ContextMenu: () => select({kind: "set", side, set}),
    F10: () => event.shiftKey && select({kind: "set", side, set}),
    Escape: () => {
      model.picked = model.pairing = null;
      select(null);
      say("nothing is picked");
    },
    Delete: () => removeAt(side, set, column),
    Backspace: () => removeAt(side, set, column),
  }[event.key];
  if (act) {
    event.preventDefault();
    act();
    return;
  }
  if (/^[a-z0-9_]$/i.test(event.key)) {  // the next row whose name begins so
    const next = [...rows.slice(place + 1), ...rows.slice(0, place + 1)].find(
        (one) => (one.dataset.column ?? one.dataset.set ?? "").toLowerCase().startsWith(event.key.toLowerCase()));
    if (next) focusRow(side, rows.indexOf(next));
  }
  function nearest(name) {
    const box = byId(name);
    return Math.max(0, sides[name].rows.findIndex((one) => one.tabIndex === 0 || one.offsetTop >= box.scrollTop));
  }
}

function pick(side, set, column) {
  if (!column) {
    toggle(side, set);
    redraw();
    focusRow(side, sides[side].at.get(set).place);
    return;
  }
  if (side === "source" && model.pairing === null) {
    model.picked = [set, column];
    select({kind: "column", side, set, column});
    say(`${set}.${column} is picked: choose a target column and press Enter`);
    const box = byId("target"), rows = sides.target.rows;
    focusRow(
        "target",
        Math.max(
            0,
            rows.findIndex((row) => row.tabIndex === 0 && row.dataset.column) >= 0 ?
                rows.findIndex((row) => row.tabIndex === 0) :
                rows.findIndex((row) => row.dataset.column && row.offsetTop >= box.scrollTop)));
  } else choose(side, set, column);
}

function removeAt(side, set, column) {
  const one = model.selection;
  if (one?.kind === "line") edit({do: "delete", kind: "line", index: one.index}, "line deleted");
  else if (column) {
    const name = `${set}.${column}`;
    const found =
        model.outline.lines.map((line, index) => [line, index])
            .filter(([line]) => (side === "source" ? line.columns : [line.target]).some((end) => nameOf(end) === name));
    if (found.length === 1) edit({do: "delete", kind: "line", index: found[0][1]}, "line deleted");
    else say(found.length ? "several lines end here: select one of them first" : "no line ends here");
  }
}

export function startKeys(save) {
  for (const side of ["source", "target"]) byId(side).addEventListener("keydown", (event) => treeKey(side, event));
  addEventListener("keydown", (event) => {
    const key = event.key.toLowerCase(), control = event.ctrlKey || event.metaKey;
    if (control && key === "s") {
      event.preventDefault();
      save();
    } else if (control && (key === "z" || key === "y")) {
      const inField = document.activeElement?.matches?.("input, .hand textarea");
      if (inField) return;
      event.preventDefault();
      if (key === "y" || event.shiftKey) redo();
      else undo();
    } else if (event.key === "Escape" && (model.picked || model.pairing !== null)) {
      model.picked = model.pairing = null;
      select(null);
    } else if (
        (event.key === "Delete" || event.key === "Backspace") && model.selection?.kind === "line" &&
        document.activeElement === document.body)
      edit({do: "delete", kind: "line", index: model.selection.index}, "line deleted");
  });
}
