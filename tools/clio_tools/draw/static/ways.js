// A line that can be meant in several ways: the page asks at once, with a row of the source for each.
import {ask} from "./api.js";
import {byId, fill, h, say} from "./dom.js";
import {edit, leftOf, model, nameOf} from "./model.js";

// Draws a line from a column, or a whole set, to a target column.
export async function connect(from, target) {
  const name = `${nameOf(from)} to ${target.join(".")}`, text = model.text;
  const found = await ask("ways", {text, source: from, target});
  if (found.error) {
    say(found.error);
    return false;
  }
  const draw = (choice) => edit(
      {
        do: "add_line",
        source: {columns: [from], by: [choice?.by ?? ""]},
        target,
        ...(choice && !found.noted ? {rows: choice.from} : {}),
        ...(choice && several(found.choices) && found.noted ? {of: choice.from} : {})
      },
      `line drawn: ${name}`);
  if (!found.choices.length) return draw(null);
  return new Promise(
      (done) => offer(
          `Which ${nameOf(from)} is meant for ${target.join(".")}?`, found,
          (choice) => done(choice === undefined ? false : draw(choice))));
}

const several = (choices) => new Set(choices.map((one) => one.from)).size > 1;

// Another way of a line that is there.
export async function chooseWay(index, place = 0) {
  const line = model.outline.lines[index];
  const found = await ask("ways", {text: model.text, source: line.columns[place], target: line.target});
  if (found.error) {
    say(found.error);
    return;
  }
  if (!found.choices.length) {
    say("there is one way");
    return;
  }
  offer(
      `Which ${nameOf(line.columns[place])} is meant for ${line.target.join(".")}?`, {...found, noted: true},
      (choice) => {
        if (!choice) return;
        const by = line.by.map((way, at) => (at === place ? choice.by : way));
        edit({do: "change_line", index, source: leftOf(line, {by})}, `by ${choice.by}`);
      });
}

function offer(title, found, done) {
  const dialog = byId("ways");
  const close = (choice) => {
    dialog.close();
    done(choice);
  };
  byId("ways-title").textContent = title;
  fill(
      byId("ways-list"),
      found.choices.map(
          (one) =>
              h("li", {}, h("button", {onclick: () => close(one)}, one.by ? `by ${one.by}` : `of ${one.from} itself`),
                h("span", {}, one.says,
                  found.choices.some((other) => other.from !== one.from) && `, for the rows from ${one.from}`),
                sampleOf(one))));
  fill(
      byId("ways-more"),
      !found.noted &&
          h("p", {},
            `Then each row comes from a row of ${
                    [...new Set(found.choices.map((one) => one.from))].join(" or ")}, and the text becomes a drawing.`),
      h("div", {class: "buttons"},
        !found.noted && h("button", {onclick: () => close(null)}, "all ways, as a line without a note"),
        h("button", {onclick: () => close(undefined)}, "none")));
  dialog.oncancel = () => done(undefined);
  dialog.showModal();
}

const cellsOf = (cells) => cells.map(([name, text]) => `${name} = ${text}`).join(", ");

function sampleOf({sample}) {
  if (!sample) return null;
  const value = sample.value === null ?
      h("span", {class: "empty"}, "nothing there") :
      h("b", {}, typeof sample.value === "string" ? sample.value || "empty" : cellsOf(sample.value));
  return h("span", {class: "sample"}, value, ` for ${cellsOf(sample.row)}`);
}
