// Chosen examples: a match of each rule, a merge of each key, rows with and without a partner, and rows that are not
// used.
import {ask} from "./api.js";
import {cells, sourceRow} from "./cells.js";
import {fill, h} from "./dom.js";
import {model} from "./model.js";
import {onOpen, panels} from "./tabs.js";
import {stepOf} from "./why.js";

let examplesFor = null;
export async function showExamples() {
  if (panels.examples.hidden) {
    examplesFor = null;
    return;
  }
  if (examplesFor === model.live || !model.live?.tables) return;
  const live = examplesFor = model.live;
  const {examples, error} = await ask("examples", {whole: live.whole, run: live.run});
  if (live !== model.live) return;
  fill(
      panels.examples,
      error               ? h("p", {class: "note"}, error) :
          examples.length ? examples.map(exampleCard) :
                            h("p", {class: "empty"}, "There is nothing to show yet."));
}

function exampleCard(one) {
  if (one.kind === "key")
    return h(
        "div", {class: "card example"}, h("p", {}, h("strong", {}, one.says), " made two rows agree:"),
        stepOf(one.step));
  return h(
      "div", {class: "card example"}, h("p", {}, h("strong", {}, one.says)), one.sources.map(sourceRow),
      one.made.length > 0 && h("p", {}, "asks for"),
      one.made.map((made) => h("p", {class: "made-row"}, h("strong", {}, made.table), "(", cells(made.cells), ")")));
}

onOpen("examples", showExamples);
