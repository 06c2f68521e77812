// The whole text as one picture, by the code of clio-picture; a click on a line selects it.
import {ask} from "./api.js";
import {byId, fill, s, say} from "./dom.js";
import {model, select} from "./model.js";
import {show} from "./trees.js";
import {curves} from "./redraw.js";

const made = ([tag, attributes, inside]) =>
    s(tag, attributes, ...inside.map((one) => (typeof one === "string" ? one : made(one))));

export function startPicture() {
  byId("show-picture").addEventListener("click", open);
  byId("picture-close").addEventListener("click", () => byId("picture").close());
  byId("picture-paper").addEventListener("click", (event) => {
    const line = event.target.closest("[data-line]");
    if (!line) return;
    byId("picture").close();
    const index = Number(line.dataset.line), {columns, target} = model.outline.lines[index];
    if (columns.length) show("source", ...columns[0]);
    show("target", ...target);
    curves();
    select({kind: "line", index});
  });
}

async function open() {
  const text = model.text, found = await ask("picture", {text});
  if (text !== model.text) return;
  if (found.error) {
    say(found.error);
    return;
  }
  fill(byId("picture-paper"), made(found.picture));
  byId("picture").showModal();
}
