// The state of the page: the text, which is the one thing that is edited, its outline, and what is selected. Parts of
// the page listen to it.
import {ask} from "./api.js";
import {say} from "./dom.js";

const listeners = {
  text: [],
  outline: [],
  selection: [],
  live: [],
  saved: []
};
export const on = (what, act) => listeners[what].push(act);
const tell = (what) => listeners[what].forEach((act) => act());

export const model = {
  text: "",
  saved: "",
  digest: null,
  ends: "\n",
  name: "",
  folder: "",      // its file, and where that is
  outline: null,   // of the last text that could be read: lines may still be wrong
  current: false,  // whether the outline is that of the text
  undo: [],
  redo: [],
  typed: 0,
  selection: null,  // {kind: "line", index} or {kind: "column", side, set, column} or {kind: "ref", side, set, index}
  picked: null,     // a source column that waits for its target: [set, column]
  pairing: null,    // a line that waits for more columns of a conversion: {index, name, columns}
  conversions: {},  // how many columns each takes
  tests: [],
  because: new Set(),
  becauseRule: null,
  ghost: null,
  kept: null,  // the last run that had rows
  live: null,
  liveText: null,
  shown: null,
  drafted: {source: [], target: []},  // what clio-draft remarked
  base: new Map(),  // the numbers of rows of the text that was saved last, for each kind of run
};

let queue = Promise.resolve();

export async function open() {
  const read = await ask("open");
  if (read.error) {
    say(read.error);
    return;
  }
  Object.assign(
      model,
      {
        text: read.text,
        saved: read.text,
        digest: read.digest,
        ends: read.ends,
        name: read.name,
        folder: read.folder,
        conversions: read.conversions,
        tests: read.tests
      });
  take(read.outline);
  tell("text");
  tell("outline");
  tell("saved");
}

function take(outline) {
  model.current = outline.readable;
  if (outline.readable) model.outline = outline;
}

const remember = () => {
  model.undo.push(model.text);
  if (model.undo.length > 500) model.undo.shift();
  model.redo = [];
};

// A text that was typed. What is typed in one go is undone in one go.
export function typed(text) {
  if (text === model.text) return;
  const now = Date.now();
  if (now - model.typed > 800 || !model.undo.length) remember();
  model.typed = now;
  set(text);
}

function set(text) {
  model.text = text;
  model.current = false;
  model.pairing = null;
  tell("text");
  refresh();
}

let wanted = 0;
async function refresh() {
  const number = ++wanted;
  const text = model.text;
  const {outline, error} = await ask("outline", {text});
  if (error) {
    say(error);
    return;
  }
  if (number !== wanted || text !== model.text) return;
  take(outline);
  keepSelection();
  tell("outline");
}

// A change by the picture: the server changes the text where it must be changed. Changes wait for each other.
export function edit(action, said) {
  queue = queue.then(async () => {
    const before = model.text;
    const made = await ask("edit", {text: before, action});
    if (made.error) {
      say(made.error);
      return false;
    }
    if (model.text !== before) {
      say("the text changed meanwhile: try again");
      return false;
    }
    remember();
    model.typed = 0;
    model.text = made.text;
    wanted++;
    take(made.outline);
    model.shown = made.shown;
    if (action.do === "add_line" || action.do === "change_line") selectAt(made.shown[0]);
    else keepSelection();
    tell("text");
    tell("outline");
    tell("selection");
    model.shown = null;
    if (said) say(said);
    return true;
  });
  return queue;
}

// A text that the server has made: it is one step of undo.
export function replaceText(made) {
  remember();
  model.typed = 0;
  Object.assign(model, {text: made.text, selection: null, shown: made.shown});
  wanted++;
  take(made.outline);
  tell("text");
  tell("outline");
  tell("selection");
  model.shown = null;
}

function selectAt(place) {
  const index = model.outline.lines.findIndex((line) => line.at[0] === place);
  if (index >= 0) model.selection = {kind: "line", index};
}

function keepSelection() {
  const one = model.selection;
  if (one && one.kind === "line" && one.index >= model.outline.lines.length) model.selection = null;
}

function step(from, to, word) {
  if (!from.length) {
    say(`nothing to ${word}`);
    return;
  }
  to.push(model.text);
  const text = from.pop();
  model.typed = 0;
  model.selection = model.picked = model.pairing = null;
  set(text);
  tell("selection");
  say(`${word}: done`);
}
export const undo = () => step(model.undo, model.redo, "undo");
export const redo = () => step(model.redo, model.undo, "redo");

export async function save(over = null) {
  const text = model.text;
  const made = await ask("save", {text, name: model.name, digest: over ?? model.digest, ends: model.ends});
  if (made.digest) {
    Object.assign(model, {digest: made.digest, name: made.name, saved: text});
    say(made.name !== "drawing.clio" ? "saved" :
            made.in_the_way          ? "saved as drawing.clio: remove mapping.clio, then clio-rules --write makes it anew" :
                                       "saved as drawing.clio, of which clio-rules --write makes mapping.clio");
    keepBase();
    tell("saved");
  } else if (made.error) say(`not saved: ${made.error}`);
  return made;
}

// What somebody else wrote; the own text stays in undo.
export async function loadTheirs() {
  const read = await ask("open");
  if (read.error) {
    say(read.error);
    return;
  }
  remember();
  Object.assign(
      model,
      {text: read.text, saved: read.text, digest: read.digest, ends: read.ends, name: read.name, selection: null});
  wanted++;
  take(read.outline);
  tell("text");
  tell("outline");
  tell("selection");
  tell("saved");
}

export function select(selection) {
  model.selection = selection;
  const goesOn = selection?.kind === "column" || selection?.kind === "line" && selection.index === model.pairing?.index;
  if (!goesOn) model.pairing = null;
  tell("selection");
}

export function because(lines, rule = null) {
  model.because = new Set(lines);
  model.becauseRule = rule;
  tell("selection");
}

// The text changed: the lines of a reason may be others.
export function forget() {
  model.because = new Set();
  model.becauseRule = null;
}

export function ghost(proposal) {
  model.ghost = proposal;
  tell("selection");
}

export function setLive(live, text) {
  model.live = live;
  model.liveText = text;
  keepBase();
  tell("live");
}

// Whether a run has read all rows of the source.
export const isWhole = (live) => live.whole || !Object.values(live.sources).some((one) => one.kind === "sample");
const kindOf = (live) => `${live.core} ${isWhole(live)}`;

function keepBase() {
  const live = model.live;
  if (live?.tables && model.liveText === model.saved)
    model.base.set(
        kindOf(live), Object.fromEntries(Object.entries(live.tables).map(([name, one]) => [name, one.count])));
}

// How many rows more or fewer a table has than with the text that was saved last.
export function change(name) {
  const base = model.live?.tables && model.base.get(kindOf(model.live)), now = model.live?.tables?.[name]?.count;
  if (!base || now === undefined) return "";
  const more = now - (base[name] ?? 0);
  return more ? ` (${more > 0 ? "+" : "−"}${Math.abs(more).toLocaleString("en")})` : "";
}

export const nameOf = ([set, column]) => (column === null ? set : `${set}.${column}`);

export const lineText = (line) => {
  const columns = line.columns.map(
      (column, place) => nameOf(column) + (line.conversion && line.by[place] ? ` by ${line.by[place]}` : ""));
  const left = line.literal !== null ? JSON.stringify(line.literal) :
      line.conversion                ? `${line.conversion}(${columns.join(", ")})` :
                                       columns[0];
  const notes = [
    !line.conversion && line.by[0] && `by ${line.by[0]}`, line.from && `from ${line.from}`,
    line.where && `where ${line.where}`
  ].filter(Boolean);
  return [`${left} → ${line.target.join(".")}`, ...notes].join(" ");
};

// The left side of a line as an edit takes it, with changes.
export const leftOf = (line, changes = {}) =>
    (line.literal !== null ? {literal: line.literal} :
                             {columns: line.columns, by: line.by, conversion: line.conversion, ...changes});

export function setNamed(side, name) {
  for (const [tree] of setsOf(model.outline?.[side]))
    if (tree.name === name) return tree;
  return null;
}

// The `rows` statements of a target set, each with its number in the text.
export const rowsOf = (set) =>
    (model.outline?.rows ?? []).map((one, index) => ({...one, index})).filter((one) => one.target === set);

export function* setsOf(trees, level = 1) {
  for (const tree of trees ?? []) {
    yield [tree, level];
    yield* setsOf(tree.inner, level + 1);
  }
}
