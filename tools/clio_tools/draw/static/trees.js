// Both sides as trees: sets with their columns, keys, refs, conditions and texts. Rows that are filtered out or
// collapsed aren't there.
import {ask} from "./api.js";
import {byId, counted, h, keep, say} from "./dom.js";
import {change, model, nameOf, rowsOf, select, setsOf} from "./model.js";

const MANY = 200;  // with more columns on a side, its sets begin collapsed
const sideOf = (name) => ({
  name,
  collapsed: new Set(),
  known: new Set(),
  filter: "",
  lined: false,
  rows: [],
  at: new Map(),
  kept: new Map()  // the row of each key, with what it shows
});
export const sides = {
  source: sideOf("source"),
  target: sideOf("target")
};
export const keyOf = (set, column) => (column === undefined || column === null ? set : `${set}.${column}`);

// The columns of each side that lines lead from and to, and what stands beside columns.
function marks() {
  const lined = {source: new Set(), target: new Set()}, texts = new Map(), tests = new Map(),
        ends = {source: new Map(), target: new Map()};
  const add = (side, key, other) => {
    const listed = ends[side].get(key);
    if (listed) listed.push(other);
    else ends[side].set(key, [other]);
  };
  model.outline.lines.forEach((line, index) => {
    line.columns.forEach((column) => add("source", keyOf(...column), line.target.join(".")));
    if (line.literal === null) add("target", keyOf(...line.target), line.columns.map(nameOf).join(" and "));
    line.columns.forEach((column) => lined.source.add(keyOf(...column)));
    lined.target.add(keyOf(...line.target));
    if (line.literal !== null)
      texts.set(keyOf(...line.target), [...(texts.get(keyOf(...line.target)) ?? []), [line.literal, index]]);
  });
  model.outline.conditions.forEach(
      (one) => tests.set(keyOf(...one.column), [...(tests.get(keyOf(...one.column)) ?? []), one.test]));
  for (const rule of model.live?.rules ?? []) {
    if (!rule.by_hand) continue;
    for (const made of rule.words.made)
      for (const cell of made.cells)
        if (cell[1] === "is") {
          lined.target.add(keyOf(made.set, cell[0]));
          cell[3].forEach((column) => lined.source.add(keyOf(...column)));
        }
  }
  return {lined, texts, tests, ends};
}

export function drawTrees() {
  if (!model.outline) return;
  const found = marks();
  for (const side of Object.values(sides)) drawSide(side, found);
}

// The sets in the order of the text, or as they were arranged; new ones at the end.
function arranged(side) {
  const trees = model.outline[side.name];
  if (!side.order) return trees;
  const place = new Map(side.order.map((name, at) => [name, at]));
  return [...trees].sort((one, other) => (place.get(one.name) ?? 1e6) - (place.get(other.name) ?? 1e6));
}

function drawSide(side, {lined, texts, tests, ends}) {
  const box = byId(side.name), sets = [...setsOf(arranged(side))];
  const total = sets.reduce((sum, [tree]) => sum + tree.columns.length, 0);
  const active = document.activeElement?.closest?.(`#${side.name} .row`)?.dataset.key;
  const parents = new Map();
  sets.forEach(([tree]) => tree.inner.forEach((inner) => parents.set(inner.name, tree.name)));
  for (const [tree] of sets) {
    if (!side.known.has(tree.name)) {
      side.known.add(tree.name);
      if (total > MANY) side.collapsed.add(tree.name);
    }
  }
  const filter = side.filter.toLowerCase();
  const rows = [], old = side.kept;
  side.kept = new Map();
  side.at = new Map();
  // A row that shows what it showed stays, with its focus.
  const add = (key, shows, make) => {
    const json = JSON.stringify(shows), known = old.get(key);
    old.delete(key);
    const row = known?.json === json ? known.row : make();
    row.tabIndex = -1;
    side.kept.set(key, {json, row});
    rows.push(row);
  };
  const hidden = (name) => {
    for (let up = parents.get(name); up; up = parents.get(up))
      if (!filter && side.collapsed.has(up)) return up;
    return null;
  };
  for (const [tree, level] of sets) {
    const whole = !filter || tree.name.toLowerCase().includes(filter);
    let columns = tree.columns.filter(
        (column) => (whole || column.name.toLowerCase().includes(filter)) &&
            (!side.lined || lined[side.name].has(keyOf(tree.name, column.name))));
    const isOpen = filter ? true : !side.collapsed.has(tree.name);
    const under = hidden(tree.name);
    if (under) {
      side.at.set(tree.name, {set: under});
      tree.columns.forEach((column) => side.at.set(keyOf(tree.name, column.name), {set: under}));
      continue;
    }
    if ((filter || side.lined) && !columns.length && !(whole && filter) && !(side.lined && tree.inner.length)) continue;
    addSet(side, tree, level, isOpen, columns.length, add);
    const clauses = JSON.stringify([tree.keys, tree.deps, tree.refs.map(({at, ...ref}) => ref)]);
    for (const column of tree.columns) {
      const key = keyOf(tree.name, column.name);
      if (!isOpen) {
        side.at.set(key, {set: tree.name});
        continue;
      }
      if (!columns.includes(column)) continue;
      const told = {
        lined: lined[side.name].has(key),
        texts: texts.get(key),
        tests: tests.get(key),
        ends: ends[side.name].get(key) ?? []
      };
      add(key, [level, clauses, told], () => columnRow(side, tree, column, level, told));
    }
  }
  side.rows = rows;
  rows.forEach((row, place) => { side.at.set(row.dataset.key, {place}); });
  if (!rows.length)
    rows.push(h(
        "p", {class: "empty panel"},
        filter ?
            "nothing matches" :
            "no sets yet: draft them from a database or from files by the button above, or declare them in the text"));
  keep(box, rows);
  byId(`${side.name}-fold`).textContent = sets.some(([tree]) => !side.collapsed.has(tree.name)) ? "collapse" : "expand";
  const again = active && rows.find((row) => row.dataset.key === active);
  const tabbed = again || rows.find((row) => row.classList.contains("row"));
  if (tabbed) tabbed.tabIndex = 0;
  if (again) again.focus({preventScroll: true});
}

function addSet(side, tree, level, isOpen, count, add) {
  add(tree.name, [level, isOpen, count, menuOf(side, tree.name)], () => setRow(side, tree, level, isOpen, count));
  putCount(side, side.kept.get(tree.name).row);
}

function setRow(side, tree, level, isOpen, count) {
  const row =
      h("div", {
        class: "row set",
        role: "treeitem",
        tabindex: -1,
        "aria-level": level,
        "aria-expanded": String(isOpen),
        "data-key": tree.name,
        "data-set": tree.name,
        "aria-label": `${level > 1 ? "inner set" : "set"} ${tree.name}, ${counted(count, "column")}${
            side.name === "target" && rowsOf(tree.name).length ? `, rows ${menuOf(side, tree.name)}` : ""}`
      },
        side.name === "target" && h("span", {class: "port", "aria-hidden": "true"}),
        h("span", {class: "twist", "aria-hidden": "true"}, isOpen ? "▾" : "▸"), h("span", {class: "name"}, tree.name),
        h("button", {
          class: "badge menu",
          tabindex: -1,
          "data-menu": "",
          title: side.name === "target" ? "From which set its rows come; keys and refs" : "Keys, refs and lookups",
          "aria-label": `Set ${tree.name}`
        },
          menuOf(side, tree.name)),
        h("span", {class: "count", "data-count": count}),
        side.name === "source" && h("span", {class: "port", "aria-hidden": "true"}));
  row.style.paddingLeft = `${8 + 14 * (level - 1)}px`;
  return row;
}

// What the button of a set shows: the sets that its rows come from, as far as the text says so.
function menuOf(side, name) {
  if (side.name === "source") return model.outline.lookups.includes(name) ? "looked up" : "⋯";
  const sets = [...new Set(rowsOf(name).map((one) => one.source))];
  return sets.length ? `from ${sets.join(", ")}` : model.outline.drawing ? "from ?" : "⋯";
}

function countOf(side, name, isOpen, count) {
  const source = side.name === "source" ? model.live?.sources?.[name] : null,
        rows = side.name === "target" ? model.live?.tables?.[name] : null;
  const told = source ? {
    "made up": "made-up rows",
    whole: source.file,
    sample: `${source.rows} of ${source.of?.toLocaleString("en")} rows`
  }[source.kind] :
      rows ? counted(rows.count, "row") + change(name) :
             "";
  return [isOpen ? "" : counted(count, "column"), told].filter(Boolean).join(" · ");
}

// What a live run changes in the trees: the numbers of rows; and if rules were written by hand, what they lead to.
let byHand = "";
export function liveTrees() {
  const now = JSON.stringify((model.live?.rules ?? []).filter((rule) => rule.by_hand).map((rule) => rule.text));
  if (now !== byHand && model.live?.rules) {
    byHand = now;
    drawTrees();
    markRows();
    return;
  }
  for (const side of Object.values(sides))
    for (const row of side.rows)
      if (row.classList.contains("set")) putCount(side, row);
}

function putCount(side, row) {
  const count = row.querySelector(".count");
  const told =
      countOf(side, row.dataset.set, row.getAttribute("aria-expanded") === "true", Number(count.dataset.count));
  if (count.textContent !== told) count.textContent = told;
}

function columnRow(side, tree, column, level, {lined, texts, tests, ends}) {
  const name = column.name, badges = [], said = [];
  const keys = tree.keys.filter((key) => key.includes(name));
  if (keys.length) {
    const told = keys.map((key) => (key.length > 1 ? `key (${key.join(", ")})` : "key")).join(", ");
    badges.push(
        h("span", {class: "badge key", title: keys.map((key) => `key (${key.join(", ")})`).join("; ")},
          keys.every((key) => key.length > 1) ? "key+" : "key"));
    said.push(told);
  }
  for (const [left, right] of tree.deps)
    if (left.includes(name) || right.includes(name)) {
      badges.push(
          h("span", {class: "badge key", title: `dep (${left.join(", ")}) -> (${right.join(", ")})`},
            left.includes(name) ? "dep→" : "→dep"));
      said.push(left.includes(name) ? `decides ${right.join(", ")}` : `follows from ${left.join(", ")}`);
    }
  tree.refs.forEach((ref, index) => {
    if (ref.own[0] !== name && !ref.own.includes(name)) return;
    const to = `${ref.set}.${ref.referred[ref.own.indexOf(name)]}`;
    badges.push(
        h("button", {
          class: "badge",
          tabindex: -1,
          "data-ref": index,
          title:
              `ref (${ref.own.join(", ")}) -> ${ref.set} (${ref.referred.join(", ")})${ref.optional ? " optional" : ""}`
        },
          `${ref.optional ? "⇢" : "→"} ${to}`));
    said.push(`${ref.optional ? "optional ref" : "ref"} to ${to}`);
  });
  (tests ?? []).forEach((test) => {
    badges.push(h("span", {class: "badge only"}, `only ${test}`));
    said.push(`only ${test}`);
  });
  (texts ?? []).forEach(([text, index]) => {
    badges.push(
        h("button", {class: "badge literal", tabindex: -1, "data-line": index, title: `line ${JSON.stringify(text)}`},
          JSON.stringify(text)));
    said.push(`text ${text}`);
  });
  if (ends.length)
    said.push(`${counted(ends.length, "line")} ${side.name === "source" ? "to" : "from"} ${ends.join(", ")}`);
  const row =
      h("div", {
        class: `row column${lined ? " lined" : ""}`,
        role: "treeitem",
        tabindex: -1,
        "aria-level": level + 1,
        "data-key": keyOf(tree.name, name),
        "data-set": tree.name,
        "data-column": name,
        "aria-label": [`column ${name} of ${tree.name}`, ...said].join(", ")
      },
        side.name === "target" && h("span", {class: "port"}),
        h("span", {class: "name", title: `${tree.name}.${name}`}, name), ...badges,
        side.name === "source" && h("span", {class: "port"}));
  row.style.paddingLeft = `${26 + 14 * (level - 1)}px`;
  return row;
}

// Classes that follow what is selected, without drawing anew.
export function markRows() {
  const one = model.selection, line = one?.kind === "line" ? model.outline?.lines[one.index] : null;
  const chosen = new Set(), why = new Set();
  if (line) {
    line.columns.forEach((column) => chosen.add("source:" + keyOf(...column)));
    chosen.add("target:" + keyOf(...line.target));
  }
  if (one?.kind === "set") chosen.add(`${one.side}:${one.set}`);
  if (one?.kind === "column") chosen.add(`${one.side}:${keyOf(one.set, one.column)}`);
  for (const index of model.because) {
    const other = model.outline?.lines[index];
    if (other) {
      other.columns.forEach((column) => why.add("source:" + keyOf(...column)));
      why.add("target:" + keyOf(...other.target));
    }
  }
  const clash = /^clash: table (\w+), key \(([^)]*)\): .* in column (\S+)$/s.exec(model.live?.fault?.message ?? "");
  const clashing =
      new Set(clash ? [...clash[2].split(", "), clash[3]].map((column) => `target:${keyOf(clash[1], column)}`) : []);
  for (const side of Object.values(sides))
    for (const row of side.rows) {
      const key = `${side.name}:${row.dataset.key}`;
      row.classList.toggle("clash", clashing.has(key));
      row.classList.toggle("selected", chosen.has(key));
      row.classList.toggle("because", why.has(key));
      row.classList.toggle(
          "picked", side.name === "source" && model.picked !== null && row.dataset.key === keyOf(...model.picked));
      if (row.dataset.column) row.setAttribute("aria-selected", String(chosen.has(key)));
    }
}

// How far a row is below the first one, also if it is the head of a set that sticks to the rim.
export const topOf = (side, place) => place * side.rows[place].offsetHeight;

export function show(side, set, column) {
  const one = sides[side];
  if (one.at.get(keyOf(set, column))?.place === undefined) {
    one.filter = "";
    one.lined = false;
    byId(`${side}-filter`).value = "";
    byId(`${side}-lined`).checked = false;
    const parents = new Map();
    for (const [tree] of setsOf(model.outline[side])) tree.inner.forEach((inner) => parents.set(inner.name, tree.name));
    for (let up = set; up; up = parents.get(up)) one.collapsed.delete(up);
    drawTrees();
    markRows();
  }
  const row = one.rows[one.at.get(keyOf(set, column))?.place];
  if (row) {
    const box = byId(side), top = topOf(one, one.at.get(keyOf(set, column)).place);
    if (top < box.scrollTop + 24 || top > box.scrollTop + box.clientHeight - 44)
      box.scrollTop = Math.max(0, top - box.clientHeight / 2);
  }
  return row;
}

export function toggle(side, set, wanted) {
  const one = sides[side];
  const isOpen = !one.collapsed.has(set);
  if (wanted === isOpen) return;
  if (isOpen) one.collapsed.add(set);
  else one.collapsed.delete(set);
  say(`${set} ${isOpen ? "collapsed" : "expanded"}`);
}

export function foldAll(side) {
  const one = sides[side], names = [...setsOf(model.outline[side])].map(([tree]) => tree.name);
  if (names.some((name) => !one.collapsed.has(name))) names.forEach((name) => one.collapsed.add(name));
  else one.collapsed.clear();
}

// Another order of the sets on the page, not in the text: with few crossings, or that of the text again.
export async function arrange() {
  if (sides.source.order) {
    sides.source.order = sides.target.order = null;
    byId("arrange").textContent = "Arrange sets";
    say("the order of the text");
    return;
  }
  const found = await ask("arrange", {text: model.text});
  if (found.error) {
    say(found.error);
    return;
  }
  sides.source.order = found.source;
  sides.target.order = found.target;
  byId("arrange").textContent = "Order of the text";
  say("arranged so that few lines cross");
}

export function focusRow(side, place) {
  const rows = sides[side].rows.filter((row) => row.classList.contains("row"));
  const row = rows[Math.max(0, Math.min(rows.length - 1, place))];
  if (!row) return;
  rows.forEach((one) => { one.tabIndex = -1; });
  row.tabIndex = 0;
  row.focus();
}

export {select};
