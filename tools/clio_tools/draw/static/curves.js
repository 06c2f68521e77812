// The lines between both sides. A line is drawn if one of its ends is in sight; an end that is scrolled away is at the
// rim, an end in a collapsed set at the set. The picture of the whole text (picture.js) is drawn by clio-picture's code;
// here both sides scroll, fold and have the focus, so where an end is only the browser knows.
import {byId, s} from "./dom.js";
import {lineText, model, setsOf} from "./model.js";
import {keyOf, sides, topOf} from "./trees.js";

const COLOURS = 8;

// Where a column's end is: its height in the gap, whether it is in sight, and whether its set stands for it. Nothing if
// it is filtered out.
function end(side, set, column, frame) {
  const one = sides[side], found = one.at.get(keyOf(set, column));
  if (!found) return null;
  const isSet = found.set !== undefined;
  const place = isSet ? one.at.get(found.set)?.place : found.place;
  const row = one.rows[place];
  if (!row) return null;
  const box = frame[side];
  const y = box.top + topOf(one, place) - box.scroll + row.offsetHeight / 2;
  const top = box.top + 2, low = box.top + box.height - 2;
  return {y: Math.max(top, Math.min(low, y)), seen: y >= top && y <= low, isSet};
}

function frameOf() {
  const gap = byId("gap").getBoundingClientRect(), frame = {width: gap.width, height: gap.height};
  for (const side of ["source", "target"]) {
    const box = byId(side), rect = box.getBoundingClientRect();
    frame[side] = {top: rect.top - gap.top, height: rect.height, scroll: box.scrollTop};
  }
  return frame;
}

const curve = (from, to, width) => `M0 ${from.toFixed(1)}C${(width * .45).toFixed(0)} ${from.toFixed(1)} ${
    (width * .55).toFixed(0)} ${to.toFixed(1)} ${width.toFixed(0)} ${to.toFixed(1)}`;

function path(from, to, frame, kind, title, colour) {
  const way = curve(from.y, to.y, frame.width);
  const group =
      s("g", {class: `${kind}${from.seen && to.seen ? "" : " away"}${from.isSet || to.isSet ? " set-end" : ""}`});
  group.append(s("title", {}, title), s("path", {d: way, class: "wide"}), s("path", {d: way, class: "thin"}));
  if (colour !== undefined) group.style.color = `var(--c${colour % COLOURS})`;
  return group;
}

let counts = {drawn: 0, of: 0};
export const drawnCounts = () => counts;

export function drawCurves() {
  if (!model.outline) return;
  const svg = byId("curves"), frame = frameOf(), made = [];
  svg.setAttribute("viewBox", `0 0 ${frame.width} ${frame.height}`);
  const chosen = model.selection?.kind === "line" ? model.selection.index : -1;
  let drawn = 0;
  const bundles = new Map(), colours = coloursOf(model.outline.source);
  model.live?.rules?.forEach((rule, number) => {
    if (!rule.by_hand) return;
    made.push(...ruleCurves(rule, number, frame));
  });
  model.outline.lines.forEach((line, index) => {
    if (line.literal !== null) return;
    const to = end("target", ...line.target, frame);
    if (!to) return;
    const colour = colours.get(line.columns[0][0]);
    let any = false;
    if (line.columns.length === 1 && index !== chosen &&
        !model.because.has(index)) {  // all lines between two collapsed sets are one
      const one = sides.source.at.get(keyOf(...line.columns[0]))?.set,
            other = sides.target.at.get(keyOf(...line.target))?.set;
      if (one !== undefined && other !== undefined) {
        const pair = `${one}>${other}`;
        bundles.set(pair, [...(bundles.get(pair) ?? []), line]);
        return;
      }
    }
    for (const column of line.columns) {
      const from = end("source", ...column, frame);
      if (!from || !(from.seen || to.seen)) continue;
      any = true;
      const group = path(from, to, frame, "line", lineText(line), colour);
      group.dataset.line = index;
      group.classList.toggle("selected", index === chosen);
      group.classList.toggle("because", model.because.has(index));
      const way = line.by[line.columns.indexOf(column)],
            label = [line.conversion, way && `by ${way}`].filter(Boolean).join(" ");
      if (label && to.seen) group.append(s("text", {x: frame.width - 10, y: to.y - 4, "text-anchor": "end"}, label));
      if (index === chosen || model.because.has(index)) made.push(group);
      else made.unshift(group);
    }
    drawn += any;
  });
  for (const [pair, lines] of bundles) {
    const from = end("source", ...lines[0].columns[0], frame), to = end("target", ...lines[0].target, frame);
    if (!from || !to || !(from.seen || to.seen)) continue;
    const group = path(
        from, to, frame, lines.length > 1 ? "line bundle" : "line",
        `${lines.length} lines from ${pair.replace(">", " to ")}: a click opens both sets`, colours.get(pair.split(">")[0]));
    group.dataset.sets = pair;
    if (lines.length > 1 && from.seen && to.seen)
      group.append(s("text", {x: frame.width - 24, y: to.y - 4}, String(lines.length)));
    made.unshift(group);
    drawn++;
  }
  if (model.ghost) {
    const from = end("source", ...model.ghost.source, frame), to = end("target", ...model.ghost.target, frame);
    if (from && to) made.push(path(from, to, frame, "ghost", "a proposal"));
  }
  svg.classList.toggle("one-selected", chosen >= 0);
  svg.replaceChildren(...made, rubber);
  counts = {drawn, of: model.outline.lines.length};
}

// A rule that no line made: what goes from column to column, dotted.
function ruleCurves(rule, number, frame) {
  const made = [], done = new Set();
  for (const atom of rule.words.made)
    for (const cell of atom.cells) {
      if (cell[1] !== "is") continue;
      for (const column of cell[3]) {
        const key = `${column}>${atom.set}.${cell[0]}`;
        if (done.has(key)) continue;
        done.add(key);
        const from = end("source", ...column, frame), to = end("target", atom.set, cell[0], frame);
        if (!from || !to || !(from.seen || to.seen)) continue;
        const group = path(from, to, frame, "rule", `by rule ${number}, written by hand`);
        group.classList.toggle("because", model.becauseRule === number);
        made.push(group);
      }
    }
  return made;
}

// A colour for each root of the source, as in the picture; the inner sets of a root have its own.
function coloursOf(trees) {
  const found = new Map();
  trees.forEach((root, place) => [...setsOf([root])].forEach(([tree]) => found.set(tree.name, place)));
  return found;
}

// The line that follows the pointer.
const rubber = s("g", {class: "ghost"}, s("path", {class: "thin"}));
export function stretch(side, column, event) {
  const frame = frameOf(), from = side && end(side, ...column, frame);
  if (!from) {
    rubber.firstChild.setAttribute("d", "");
    return;
  }
  const gap = byId("gap").getBoundingClientRect();
  const x = Math.max(0, Math.min(frame.width, event.clientX - gap.left)), y = event.clientY - gap.top;
  rubber.firstChild.setAttribute("d", side === "source" ? curve(from.y, y, x) : `M${x} ${y}L${frame.width} ${from.y}`);
}
