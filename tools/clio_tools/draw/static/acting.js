// What a choice of a column does.
import {say} from "./dom.js";
import {edit, leftOf, model, nameOf, select, setNamed} from "./model.js";
import {connect} from "./ways.js";

// Drawing a line: from a source column, or from a whole set if the target column has a ref, to a target column.
export function draw(from, target) {
  model.picked = null;
  const isRef = setNamed("target", target[0])?.refs.some((ref) => ref.own.includes(target[1]));
  if (from[1] === null && !isRef) {
    say(`a line from a whole set goes to a column with a ref: take a column of ${from[0]}`);
    return false;
  }
  return connect(from, target);
}

// One more column of the conversion that waits for columns. With all of them the line gets it.
function pair(column) {
  const {index, name, columns} = model.pairing, line = model.outline.lines[index];
  columns.push(column);
  if (columns.length < model.conversions[name]) {
    select(model.selection);
    return;
  }
  model.pairing = null;
  edit(
      {
        do: "change_line",
        index,
        source: leftOf(line, {conversion: name, columns, by: columns.map((_, place) => (place ? "" : line.by[0]))})
      },
      `${name} with ${nameOf(column)}`);
}

// A column was clicked, or chosen by Enter.
export function choose(side, set, column) {
  if (model.pairing !== null && side === "source") pair([set, column]);
  else if (model.picked && side === "target") draw(model.picked, [set, column]);
  else select({kind: "column", side, set, column});
}
