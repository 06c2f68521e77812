// Rules that are written by hand, each in a field of its own.
import {fill, h} from "./dom.js";
import {edit, model} from "./model.js";
import {panels, title} from "./tabs.js";

export function showHand() {
  if (!model.outline || panels.hand.contains(document.activeElement) && document.activeElement.tagName === "TEXTAREA")
    return;
  const rules = model.outline.rules;
  title("hand", rules.length);
  const field = (text, label) => h(
      "textarea", {rows: Math.max(2, text.split("\n").length), "aria-label": label, value: text, spellcheck: "false"});
  const fresh = field("", "A new rule");
  fresh.placeholder = "rule emp(n, b) -> person(p, n, \"text\");";
  fill(
      panels.hand,
      h("div", {class: "hand"}, rules.map((rule, index) => {
        const box = field(rule.text, `Rule ${index + 1} by hand`);
        return h(
            "div", {class: "card"}, box,
            h("div", {class: "buttons"},
              h("button", {
                onclick: () => {
                  box.blur();
                  edit({do: "change_rule", index, text: box.value}, "rule changed");
                }
              },
                "put into the text"),
              h("button", {onclick: () => edit({do: "delete", kind: "rule", index}, "rule deleted")}, "delete")));
      }),
        h("div", {class: "card"},
          h("p", {},
            "A rule says: for each match of its left side in the source, the rows of its right side are in the target. Cells are the columns in order; names on the right alone are left open."),
          fresh,
          h("div", {class: "buttons"},
            h("button", {
              onclick: () => {
                fresh.blur();
                edit({do: "add_rule", text: fresh.value}, "rule added");
              }
            },
              "add the rule")),
          h("p", {class: "empty"}, skeleton()))));
}

// How the sets are written in a rule.
function skeleton() {
  const told = (side) => {
    const made = [];
    const walk = (trees, isInner) => trees.forEach((tree) => {
      made.push(`${tree.name}(${
              [...(tree.inner.length ? ["#id"] : []), ...(isInner ? ["#up"] : []),
               ...tree.columns.map((one) => one.name)]
                  .join(", ")})`);
      walk(tree.inner, true);
    });
    walk(model.outline[side], false);
    return made;
  };
  const all = [...told("source"), "→", ...told("target")];
  return all.length > 40 ? "" : all.join("  ");
}
