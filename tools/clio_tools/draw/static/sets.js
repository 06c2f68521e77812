// What can be done with a set: from which sets its rows come, and its keys, dependencies and refs.
import {counted, fill, h, say} from "./dom.js";
import {edit, model, rowsOf, select, setNamed, setsOf} from "./model.js";

const NAMED = 3;  // sets that are named at most

export function ofSet(box, {side, set}) {
  const tree = setNamed(side, set),
        clauses = h("div", {class: "clauses"}, keysOf(side, tree), depsOf(side, tree), refsOf(side, tree));
  fill(
      box, h("code", {}, `set ${set}`), side === "target" ? origins(set) : lookup(set), clauses, addClause(side, tree));
}

// --- the rows of a target set ---

function origins(set) {
  const rows = rowsOf(set);
  return h("div", {class: "origins"}, rows.map((one) => origin(one)), addOrigin(set, rows));
}

function origin(one) {
  const source =
      h("select", {"aria-label": `Rows of ${one.target} from`},
        sourceSets().map((name) => h("option", {value: name}, name)));
  source.value = one.source;
  const musts =
      h("input",
        {type: "text", value: one.with.join(", "), "aria-label": "With", placeholder: "refs that must lead somewhere"});
  const where = h("input", {type: "text", value: one.where, "aria-label": "Where", placeholder: "column = \"text\""});
  const change = () => {
    for (const field of [musts, where]) field.blur();
    edit(
        {
          do: "change_rows",
          index: one.index,
          asked: {source: source.value, by: one.by, with: musts.value, where: where.value}
        },
        `rows from ${source.value}`);
  };
  source.addEventListener("change", change);
  return h(
      "div", {class: "origin"}, h("label", {}, "each row comes from a row of ", source), h("label", {}, "with ", musts),
      h("label", {}, "where ", where), h("button", {onclick: change}, "set"),
      h("button", {
        "aria-label": `Delete rows from ${one.source}`,
        onclick: () => edit({do: "delete", kind: "rows", index: one.index}, "rows deleted")
      },
        "delete"));
}

// The sets that lines to this one take come first.
function addOrigin(set, rows) {
  const lined = model.outline.lines.filter((line) => line.target[0] === set)
                    .flatMap((line) => line.columns.map(([name]) => name));
  const names = [...new Set([...lined, ...sourceSets()])].filter((name) => !rows.some((one) => one.source === name));
  if (!names.length) return null;
  const choice =
      h("select", {"aria-label": `Rows of ${set} from`}, names.map((name) => h("option", {value: name}, name)));
  const add = (source) => edit({do: "add_rows", target: set, source}, `rows ${set} from ${source}`);
  if (rows.length)
    return h(
        "div", {class: "origin"}, h("label", {}, "and from ", choice),
        h("button", {onclick: () => add(choice.value)}, "add"));
  const near = [...new Set(lined)].slice(0, 4);
  return h(
      "div", {class: "origin"}, h("span", {}, `${linesSay(set)} Or each row comes from a row of `),
      near.map((name) => h("button", {onclick: () => add(name)}, name)), choice,
      h("button", {onclick: () => add(choice.value)}, "take it"));
}

// What a set without `rows` gets its rows of: of lines to it, and to what its refs lead to, directly or by others.
function linesSay(set) {
  const reached = new Set([set]);
  for (const name of reached) setNamed("target", name)?.refs.forEach((ref) => reached.add(ref.set));
  const others = [...reached].slice(1), more = others.length - NAMED;
  if (!others.length) return "Its rows are what lines to it say.";
  const named = [...others.slice(0, NAMED), ...(more > 0 ? [counted(more, "other set")] : [])];
  const last = named.length > 1 ? ` and ${named.at(-1)}` : "";
  return `Its rows are what lines to it, and to ${named.slice(0, last ? -1 : 1).join(", ")}${
      last}, say: its refs lead there.`;
}

const sourceSets = () => [...setsOf(model.outline.source)].map(([tree]) => tree.name);

function lookup(set) {
  const isOne = model.outline.lookups.includes(set);
  const draw = () => {
    model.picked = [set, null];
    select(model.selection);
    say(`from the whole set ${set}: choose a target column with a ref`);
  };
  return h(
      "span", {}, h("button", {onclick: draw}, "draw a line from the whole set"), " ",
      h("label", {}, h("input", {
          type: "checkbox",
          checked: isOne,
          onchange: () => edit({do: "lookup", name: set, wanted: !isOne}, isOne ? "no lookup" : `lookup ${set}`)
        }),
        " links to it go through a set of their own (lookup)"));
}

// --- its clauses ---

const shown = (side, set, kind, index, text) =>
    h("span", {class: "clause"}, h("code", {}, text),
      h("button", {
        "aria-label": `Delete ${text}`,
        onclick: () => edit({do: "delete_clause", side, set_name: set, kind, index}, `${kind} deleted`)
      },
        "×"));
const keysOf = (side, tree) =>
    tree.keys.map((key, index) => shown(side, tree.name, "key", index, `key (${key.join(", ")})`));
const depsOf = (side, tree) => tree.deps.map(
    ([left, right], index) =>
        shown(side, tree.name, "dep", index, `dep (${left.join(", ")}) -> (${right.join(", ")})`));
const refsOf = (side, tree) => tree.refs.map(
    (ref, index) => h(
        "span", {class: "clause"},
        h("button", {class: "badge", onclick: () => select({kind: "ref", side, set: tree.name, index})},
          `ref (${ref.own.join(", ")}) -> ${ref.set} (${ref.referred.join(", ")})${ref.optional ? " optional" : ""}`)));

// A new key, dependency or ref, of columns that are named with commas between them.
function addClause(side, tree) {
  const field = (label, hint) => h("input", {type: "text", "aria-label": label, placeholder: hint, size: 14});
  const own = field("Columns", "columns"), other = field("Other columns", "columns");
  const kind =
      h("select", {"aria-label": "Kind"}, ["key", "ref", "dep"].map((name) => h("option", {value: name}, name)));
  const set =
      h("select", {"aria-label": "Set that it leads to"},
        [...setsOf(model.outline[side])].map(([one]) => h("option", {value: one.name}, one.name)));
  const rest = h("span", {hidden: true}, "-> ", set, " ", other);
  kind.addEventListener("change", () => {
    rest.hidden = kind.value === "key";
    set.hidden = kind.value !== "ref";
  });
  const words = (box) => box.value.split(",").map((word) => word.trim()).filter(Boolean);
  const add = () => {
    if (!words(own).length) {
      say("name a column");
      own.focus();
      return;
    }
    for (const box of [own, other]) box.blur();
    const more = kind.value === "ref" ? {set: set.value, referred: words(other)} :
        kind.value === "dep"          ? {decided: words(other)} :
                                        {};
    edit(
        {do: "add_clause", side, set_name: tree.name, clause: {kind: kind.value, columns: words(own), ...more}},
        `${kind.value} added`);
  };
  return h("span", {class: "clause"}, kind, " ", own, " ", rest, " ", h("button", {onclick: add}, "add"));
}
