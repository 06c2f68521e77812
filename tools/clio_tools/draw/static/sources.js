// The rows of the source: which rules use each, or what it missed; and where a row goes.
import {ask} from "./api.js";
import {cells, closeButton, cureButtons, ifLong, IN_SIGHT, sourceRow} from "./cells.js";
import {counted, fill, h} from "./dom.js";
import {because, model} from "./model.js";
import {onOpen, panels, title} from "./tabs.js";

let sourcesFor = null;
export async function showSources() {
  if (panels.sources.hidden) {
    sourcesFor = null;
    return;
  }
  if (sourcesFor === model.live || !model.live?.tables) return;
  const live = sourcesFor = model.live;
  const {tables, error} = await ask("sources", {whole: live.whole, run: live.run});
  if (live !== model.live) return;
  if (error) {
    fill(panels.sources, h("div", {class: "tables"}, h("p", {class: "note"}, error)));
    return;
  }
  const lost = tables.reduce((sum, table) => sum + table.unused, 0);
  title("sources", lost ? `${lost} not used` : null);
  const where = h("aside", {class: "why", hidden: true, "aria-label": "Where a row goes", tabindex: -1});
  fill(
      panels.sources,
      h("div", {class: "tables"},
        h("p", {class: "note"}, "Click a row to see where it goes. A row that no rule uses is grey, with the reason."),
        tables.map((table) => sourceTable(table, where))),
      where);
}

function sourceTable(table, where) {
  const body = h("tbody", {}, table.rows.map((row, number) => {
    const act = () => forward(table, number, made, where);
    const made =
        h("tr", {class: row.why ? "unused" : "", onclick: act},
          h("td", {class: "why-cell"},
            h("button", {
              "aria-label": `Where does this row of ${table.name} go: ${row.cells.join(", ").slice(0, 80)}`,
              onclick: (event) => {
                event.stopPropagation();
                act();
              }
            },
              row.why ? "–" : "→")),
          row.cells.map((text) => h("td", ifLong(text), text === "" ? h("span", {class: "empty"}, "empty") : text)),
          h("td", {class: "reason"}, row.why ?? ""));
    return made;
  }));
  const notes = [
    table.unused > 0 && `${table.unused} not used`, !table.counted && "of the first 20,000",
    table.repeats > 0 && `${table.repeats} repeat another`, table.made_up && "made up"
  ].filter(Boolean).join(", ");
  return h(
      "section",
      {class: "target-table", "data-source": table.name, "aria-label": `${table.name}, ${counted(table.count, "row")}`},
      h("h3", {}, table.name, h("span", {}, ` ${counted(table.count, "row")}${notes && ` (${notes})`}`)),
      table.groups.map(
          (group) =>
              h("p", {class: "group"}, `${counted(group.count, "row is", "rows are")} not used: ${group.says} `,
                cureButtons(group.cures))),
      h("div", {class: `scroll ${table.rows.length > IN_SIGHT ? "tall" : ""}`},
        h("table", {},
          h("thead", {},
            h("tr", {}, h("th"), table.columns.map((column) => h("th", {scope: "col", ...ifLong(column)}, column)),
              h("th", {}, table.unused ? "why not used" : ""))),
          body)));
}

async function forward(table, number, element, box) {
  document.querySelectorAll("tr.selected").forEach((one) => one.classList.remove("selected"));
  element.classList.add("selected");
  const found = await ask("forward", {whole: model.kept.whole, run: model.kept.run, table: table.name, row: number});
  box.hidden = false;
  const close = closeButton(box, element);
  if (found.error) {
    fill(box, close, found.error);
    return;
  }
  const rules = found.rules;
  fill(
      box, close, h("p", {}, h("strong", {}, "Where it goes")), sourceRow(found.row),
      found.misses.length > 0 && h("p", {}, "Nowhere: no rule uses it."),
      found.misses.map((lines) => lines.map((line) => h("p", {}, line))),
      found.cures.length > 1 && h("p", {}, "It is kept by these changes together:"), cureButtons(found.cures),
      found.count > 0 &&
          h("p", {},
            `It is in ${counted(found.count, "match", "matches")}, which ${found.count === 1 ? "asks" : "ask"} for:`),
      found.rows.map(
          (one) =>
              h("p", {class: "step"},
                h("span", {class: "made-row"}, h("strong", {}, one.table), "(", cells(one.cells), ")"),
                ` by rule ${one.rule}`)));
  because(
      rules.flatMap((rule) => model.kept.rules[rule]?.words?.lines ?? [])
          .filter((index) => model.outline.lines[index]?.columns.some(([set]) => set === table.name)),
      rules[0] ?? null);
  box.focus({preventScroll: true});
  element.scrollIntoView({block: "nearest"});
}

onOpen("sources", showSources);
