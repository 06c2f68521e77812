// The rows of the target.
import {ask} from "./api.js";
import {cell, cells, ifLong, IN_SIGHT} from "./cells.js";
import {counted, fill, h, keep, say} from "./dom.js";
import {change, model} from "./model.js";
import {panels, title} from "./tabs.js";
import {why} from "./why.js";

function sourceNote(live) {
  const told = Object.values(live.sources);
  const made = told.filter((one) => one.kind === "made up").map((one) => one.file),
        taken = told.filter((one) => one.kind === "sample");
  return [
    made.length > 0 && `${made.join(", ")} ${made.length === 1 ? "isn't" : "aren't"} in the folder: rows are made up. `,
    taken.length > 0 &&
        `The files are large: of each the first rows are taken, with those that they lead to (${
            taken.slice(0, 3)
                .map((one) => `${one.rows.toLocaleString("en")} of ${one.of.toLocaleString("en")} of ${one.file}`)
                .join(", ")}${
            taken.length > 3 ?
                `, and so of ${taken.length - 3} more` :
                ""}). What only other rows do, a clash too, isn't seen here, and nulls have other numbers than in a whole run. `,
    "Click a row to see why it is there."
  ].filter(Boolean)
      .join("");
}

// The tables of the target. A table keeps its element, and of one that changed each row and each cell that is as it
// was: what is drawn anew is what changed. Of many tables those are made that come into sight.
const EAGER = 12;
const tables = h("div", {class: "tables"}), note = h("p", {class: "note"});
const reason = h("aside", {id: "why", class: "why", hidden: true, "aria-label": "Why a row is there", tabindex: -1});
let shown = new Map();
const watcher = new IntersectionObserver(
    (entries) => entries.forEach((entry) => {
      if (entry.isIntersecting) {
        watcher.unobserve(entry.target);
        entry.target.make();
      }
    }),
    {rootMargin: "400px"});

export function showRows(live) {
  title("rows", Object.values(live.tables).reduce((sum, table) => sum + table.count, 0));
  const names = Object.keys(live.tables), next = new Map(), told = sourceNote(live);
  let isNew = told !== note.textContent || names.join() !== [...shown.keys()].join();
  for (const name of names) {
    const json = JSON.stringify([live.tables[name], change(name)]), one = shown.get(name) ?? emptyTable(name);
    next.set(name, one);
    if (one.json === json) continue;
    isNew = true;
    one.json = json;
    putTable(one, live.tables[name], names.length > EAGER);
  }
  shown = next;
  if (!isNew) return;
  note.textContent = told;
  document.querySelectorAll("#panel-rows tr.selected").forEach((one) => one.classList.remove("selected"));
  reason.hidden = true;
  keep(tables, [note, ...[...next.values()].map((one) => one.section)]);
  keep(panels.rows, [tables, reason]);
}

function emptyTable(name) {
  const head = h("h3"), groups = h("div", {class: "groups"}), content = h("div");
  const section = h("section", {class: "target-table", "data-table": name}, head, groups, content);
  return {name, section, head, groups, content, body: null};
}

// Puts the rows of a table into its element.
function putTable(one, table, isLazy) {
  const {name, section, head, groups} = one, count = counted(table.count, "row");
  one.table = table;
  section.setAttribute("aria-label", `${name}, ${count}`);
  fill(
      head, name, h("span", {}, ` ${count}${change(name)} `),
      table.count > 1 && h("button", {class: "badge", onclick: () => group(name, groups)}, "by reason"));
  fill(groups);
  section.make = () => {
    section.style.minHeight = "";
    putContent(one);
  };
  if (isLazy && table.count && !one.body) {
    section.style.flexBasis = "100%";
    section.style.minHeight = `${Math.min(table.rows.length + 1, 13) * 24 + 24}px`;
    watcher.observe(section);
  } else section.make();
}

function rulesIn(rules) {
  if (rules.length === 1) return `rule ${rules[0]}`;
  return `rules ${rules.slice(0, -1).join(", ")} and ${rules.at(-1)}`;
}

// The rows of a table that are there for one reason, with how many they are.
async function group(name, box) {
  if (box.childElementCount) {
    fill(box);
    return;
  }
  const {groups, cut, error} = await ask("groups", {whole: model.kept.whole, run: model.kept.run, table: name});
  if (error) {
    say(error);
    return;
  }
  fill(
      box,
      groups.map(
          (one) =>
              h("details", {},
                h("summary", {}, `${counted(one.count, "row is", "rows are")} there by ${rulesIn(one.rules)}`),
                one.rows.map((row) => h("p", {class: "made-row"}, name, "(", cells(row), ")")),
                one.count > one.rows.length && h("p", {class: "empty"}, `and ${one.count - one.rows.length} more`))),
      cut && h("p", {class: "empty"}, "of the first 5,000 rows"));
}

function putContent(one) {
  const {name, table, content} = one, columns = table.columns.join();
  if (!table.count) {
    one.body = null;
    fill(content, h("p", {class: "empty"}, "no rows"));
    return;
  }
  if (!one.body || one.columns !== columns) {
    one.columns = columns;
    one.body = h("tbody");
    fill(
        content,
        h("div", {class: "scroll"},
          h("table", {},
            h("thead", {},
              h("tr", {}, h("th", {}, h("span", {class: "hidden"}, "why")),
                table.columns.map((column) => h("th", {scope: "col", ...ifLong(column)}, column)))),
            one.body)));
  }
  putRows(one.body, name, table);
  one.body.closest(".scroll").classList.toggle("tall", table.rows.length > IN_SIGHT);
  keep(content, [content.firstChild, ...(table.rows.length < table.count ? [moreButton(one)] : [])]);
}

// Puts rows in the place of those of a body.
function putRows(body, name, {rows, empty}) {
  const old = [...body.children], nothing = new Set(empty);
  rows.forEach((row, place) => putRow(old[place] ?? body.appendChild(rowOf(name, row)), name, row, nothing.has(place)));
  old.slice(rows.length).forEach((row) => row.remove());
}

function moreButton({name, table, body}) {
  const more =
      h("button", {
        onclick: async () => {
          const start = body.children.length;
          const next = await ask("more", {whole: model.kept.whole, run: model.kept.run, table: name, start});
          if (next.error) {
            say(next.error);
            return;
          }
          const nothing = new Set(next.empty);
          next.rows.forEach(
              (row, place) => putRow(body.appendChild(rowOf(name, row)), name, row, nothing.has(start + place)));
          if (body.children.length >= table.count) more.remove();
          else more.textContent = counted(table.count - body.children.length, "more row");
        }
      },
        counted(table.count - table.rows.length, "more row"));
  return more;
}

// The element of a row, without its texts.
function rowOf(name, row) {
  const asked = () => why(name, made.texts, made);
  const made =
      h("tr", {onclick: asked},
        h("td", {class: "why-cell"},
          h("button", {
            title: "Why is this row here?",
            onclick: (event) => {
              event.stopPropagation();
              asked();
            }
          },
            "?")),
        row.map(() => h("td")));
  made.texts = [];
  return made;
}

// Puts texts into the element of a row. A row of nothing but nulls is red: a click says which rule made it, and its
// lines.
function putRow(made, name, row, isNothing) {
  if (made.classList.toggle("nothing", isNothing)) made.title = "nothing is known of this row";
  else made.removeAttribute("title");
  if (row.every((text, place) => text === made.texts[place])) return;
  made.firstChild.firstChild.setAttribute("aria-label", `Why is this row in ${name}: ${row.join(", ").slice(0, 80)}`);
  row.forEach((text, place) => {
    if (text === made.texts[place]) return;
    const one = h("td", ifLong(text), cell(text));
    made.children[place + 1].replaceWith(one);
  });
  made.texts = row;
}
