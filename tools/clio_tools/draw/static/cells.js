// Cells, source rows and cures, as all panels show them.
import {h} from "./dom.js";
import {because, edit} from "./model.js";

// A null as a chip. Its colour is made of its numbers: the same null has the same colour everywhere, and after each
// change.
const NULL = /^\?(\d+)\.(\d+)\.(\d+)$/;
export function cell(text) {
  const found = NULL.exec(text);
  if (found) {
    const chip = h("span", {class: "null", title: "a null: a value that nobody gave"}, text);
    chip.style.setProperty("--hue", Math.round(found[1] * 83 + found[2] * 47 + found[3] * 137.5) % 360);
    return chip;
  }
  if (text === "") return h("span", {class: "empty"}, "empty");
  return text.startsWith("??") ? text.slice(1) : text;
}
export const IN_SIGHT = 15;  // rows of a table

// A long text is cut in its cell, and all of it is there for a pointer. Cells of short ones are never cut: a browser
// takes long over thousands of boxes that may be.
export const ifLong = (text) => (text.length > 30 ? {title: text, class: "long"} : {});
export const cells = (row) => row.flatMap((text, place) => [place ? ", " : "", cell(text)]);

// A row of the source with its place.
export const sourceRow = (row) =>
    h("div", {class: "source-row"},
      h("span", {class: "where"}, `${row.made_up ? "made-up " : ""}${row.set}, ${row.file} ${row.where}: `),
      row.cells.flatMap(
          ([name, text], place) =>
              [place ? ", " : "", name, " = ", text === "" ? h("span", {class: "empty"}, "empty") : h("b", {}, text)]));

// The edits that answer a fault or a warning.
export const cureButtons = (cures) =>
    (cures ?? []).map((one) => h("button", {class: "cure", onclick: () => edit(one.action, one.title)}, one.title));

// The button that closes what is said of a row.
export const closeButton = (box, element) =>
    h("button", {
      class: "close",
      "aria-label": "Close",
      onclick: () => {
        box.hidden = true;
        because([]);
        element.classList.remove("selected");
        element.querySelector("button").focus();
      }
    },
      "×");
