// The rules in words.
import {counted, fill, h} from "./dom.js";
import {because} from "./model.js";
import {onOpen, panels, title} from "./tabs.js";

let rules = null, shownRules = "";
export function takeRules(made) {
  rules = made;
  title("rules", rules.length);
  showRules();
}

function showRules() {
  if (panels.rules.hidden || !rules) return;
  const json = JSON.stringify(rules);
  if (json === shownRules) return;
  shownRules = json;
  fill(
      panels.rules, ...(rules.length ? rules.map(ruleCard) : [h("p", {class: "empty"}, "No rules yet: draw a line.")]));
}

function ruleCard(rule, number) {
  const words = rule.words;
  const card = h("div", {class: "rule-card", id: `rule-${number}`});
  if (!words) {
    card.append(h("p", {}, h("code", {}, rule.text)));
    return card;
  }
  const taken = words.taken.flatMap(
      (one, place) =>
          [place ? " with a row of " : "row of ", h("strong", {}, one.name),
           one.joined.length > 0 &&
               h("span", {class: "join"}, " where ", one.joined.map(([a, b]) => `${a} = ${b}`).join(" and ")),
           one.tests.length > 0 && h("span", {class: "join"}, ` (only ${one.tests.join(", ")})`)]);
  const by = !rule.by_hand ?
      h("button",
        {class: "badge", title: "shows the lines behind this rule", onclick: () => because(words.lines, number)},
        counted(words.lines.length, "line")) :
      h("button", {class: "badge", onclick: () => because([], number)}, "written by hand");
  card.append(
      h("div", {class: "words"},
        h("p", {}, h("strong", {}, `Rule ${number}`), " (", by, "): for each ", ...taken, ", there is"),
        h("ul", {},
          words.made.map(
              (made) =>
                  h("li", {}, "a row of ", h("strong", {}, made.name), ": ",
                    made.cells.flatMap(
                        ([column, kind, says], place) => [place ? "; " : "", column, valueWords(kind, says)]))))),
      h("details", {}, h("summary", {class: "empty"}, "as clio prints it"), h("pre", {}, rule.text)));
  return card;
}

const valueWords = (kind, says) => ({
  is: h("span", {}, " = ", h("code", {}, says)),
  text: h("span", {}, " = ", h("code", {}, JSON.stringify(says))),
  link: h("span", {class: "join"}, ` = ${says} (one unknown value that links them)`),
  open: h("span", {class: "open"}, " is left open")
}[kind]);

onOpen("rules", showRules);
