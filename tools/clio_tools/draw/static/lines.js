// All lines as a list, for the keyboard and for screen readers.
import {fill, h} from "./dom.js";
import {edit, lineText, model, select} from "./model.js";
import {onOpen, panels, title} from "./tabs.js";
import {show} from "./trees.js";

export function showLines() {
  if (!model.outline) return;
  const sets = (side) => {
    const found = new Map();
    const walk = (trees) => trees.forEach((tree) => {
      found.set(tree.name, new Set(tree.columns.map((one) => one.name)));
      walk(tree.inner);
    });
    walk(model.outline[side]);
    return found;
  };
  const source = sets("source"), target = sets("target");
  title("lines", model.outline.lines.length);
  if (panels.lines.hidden) return;
  fill(
      panels.lines,
      model.outline.lines.length ? h("ul", {class: "list"}, model.outline.lines.map((line, index) => {
        const isThere =
            line.columns.every(([set, column]) => (column === null ? source.has(set) : source.get(set)?.has(column))) &&
            target.get(line.target[0])?.has(line.target[1]);
        return h(
            "li", {class: model.selection?.kind === "line" && model.selection.index === index ? "selected" : ""},
            h("code", {class: isThere ? "" : "broken"}, lineText(line)),
            !isThere && h("span", {class: "broken"}, "no such column"),
            h("button", {
              onclick: () => {
                select({kind: "line", index});
                if (isThere) reach(line);
              }
            },
              "select"),
            h("button", {
              "aria-label": `Delete ${lineText(line)}`,
              onclick: () => edit({do: "delete", kind: "line", index}, "line deleted")
            },
              "delete"));
      })) :
                                   h("p", {class: "empty"}, "No lines yet."));
}

// Brings both ends of a line into sight.
export function reach(line) {
  line.columns.forEach((column) => show("source", ...column));
  show("target", ...line.target);
}

onOpen("lines", showLines);
