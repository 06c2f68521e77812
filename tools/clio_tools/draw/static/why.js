// Why a row of the target is there.
import {ask} from "./api.js";
import {cell, cells, closeButton, sourceRow} from "./cells.js";
import {byId, counted, fill, h, say} from "./dom.js";
import {because, model, select} from "./model.js";
import {open} from "./tabs.js";
import {show} from "./trees.js";

// Why a row is there.
export async function why(name, row, element) {
  const box = byId("why");
  document.querySelectorAll("tr.selected").forEach((one) => one.classList.remove("selected"));
  element.classList.add("selected");
  const found = await ask("why", {whole: model.kept.whole, run: model.kept.run, table: name, row});
  box.hidden = false;
  const close = closeButton(box, element);
  const head = h("p", {class: "made-row"}, h("strong", {}, name), "(", cells(row), ")");
  if (found.error || found.unknown) {
    fill(box, close, head, h("p", {}, found.error ?? found.unknown));
    return;
  }
  const rules = found.rules;
  fill(
      box, close, head,
      h("p", {},
        `${counted(found.count, "match asks", "matches ask")} for it, by ${
            rules.length === 1 ? `rule ${rules[0]}` : `rules ${rules.join(", ")}`}.`),
      h("table", {class: "cells"},
        h("tbody", {},
          found.cells.map(
              (one) =>
                  h("tr", {}, h("th", {scope: "row"}, one.column), h("td", {}, cell(one.text)),
                    h("td", {}, cellWords(one)))))),
      h("h3", {}, "The rules that ask for it"), ...found.asked.slice(0, 3).map((one) => askedBy(one)),
      found.asked.length > 3 &&
          h("details", {}, h("summary", {}, `${found.asked.length - 3} more`),
            found.asked.slice(3).map((one) => askedBy(one))),
      found.count > found.asked.length &&
          h("p", {class: "empty"}, `and ${counted(found.count - found.asked.length, "more match", "more matches")}`),
      found.replaced.length > 0 && h("h3", {}, "What took the place of its nulls"), ...found.replaced.map(stepOf));
  box.focus({preventScroll: true});
  element.scrollIntoView({block: "nearest"});  // what is said of it took room
  const lines = rules.flatMap((rule) => model.kept.rules[rule]?.words?.lines ?? [])
                    .filter((index) => model.outline.lines[index]?.target[0] === name);
  because(lines, found.asked[0].rule);
  const first = lines.map((index) => model.outline.lines[index]).find((line) => line.columns.length);
  if (first) {
    show("source", ...first.columns[0]);
    show("target", ...first.target);
  }
  say(`why: ${counted(rules.length, "rule asks", "rules ask")} for it`);
}

// Where the text of a cell is from.
const cellWords = (one) => {
  const line = one.line === null ?
      null :
      h("button", {class: "badge", title: "selects the line", onclick: () => select({kind: "line", index: one.line})},
        "line");
  const by =
      [" by rule ", one.rule, line && [", ", line], one.instead_of && [", in the place of ", cell(one.instead_of)]];
  if (one.kind === "open")
    return [
      `nobody gave it: rule ${one.rule} left it open`, one.shared.length > 1 && `; it links ${one.shared.join(", ")}`
    ];
  return one.kind === "literal" ? ["a text of the mapping", by] : [h("code", {}, one.says), ` (${one.where})`, by];
};

function askedBy(one) {
  const rule = model.kept.rules[one.rule];
  return h(
      "div", {class: "step"},
      h("p", {},
        h("button", {
          class: "badge",
          onclick: () => {
            open("rules");
            document.getElementById(`rule-${one.rule}`)?.scrollIntoView({block: "center"});
          }
        },
          `rule ${one.rule}`),
        " asks for ",
        h("span", {class: "made-row"}, rule?.words ? rule.words.made[one.atom].name : "", "(", cells(one.row), ")"),
        one.matches.length > 1 || one.more ? `, by ${one.more ? "several" : one.matches.length} matches, from` :
                                             " from"),
      one.matches.map((match, place) => [place > 0 && h("p", {class: "empty"}, "and from"), match.map(sourceRow)]));
}

// A step by which a value came in the place of a null.
export function stepOf(step) {
  if (step.by === "unknown")
    return h(
        "div", {class: "step"},
        h("p", {}, cell(step.null), " is ", cell(step.value), ": the way there is too long to be looked for."));
  if (step.by === "core")
    return h(
        "div", {class: "step"},
        h("p", {}, cell(step.null), " is ", cell(step.value),
          ": core mode left the first out, since the row with the second says all that its row says."),
        step.rows.map(stepRow(step)));
  const agreed = step.columns.flatMap((name, place) => [place ? ", " : "", name, " = ", cell(step.agreed[place])]);
  return h(
      "div", {class: "step"},
      h("p", {}, cell(step.null), " is ", cell(step.value),
        `, since two rows of ${step.set} agree on ${step.by === "key" ? "its key" : "what it depends on,"} (${
            step.columns.join(", ")}): `,
        agreed),
      step.rows.map(stepRow(step)));
}

const stepRow = (step) => (row) =>
    [h("p", {class: "made-row"}, `${step.set}(`, cells(row.row), `) by rule ${row.rule}, from`),
     (row.matches[0] ?? []).map(sourceRow)];
