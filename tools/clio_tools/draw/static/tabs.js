// The tabs below the drawing, and the panel of each.
import {byId, h} from "./dom.js";

const TABS = [
  ["rows", "Target rows"], ["sources", "Source rows"], ["examples", "Examples"], ["rules", "Rules"],
  ["warnings", "Warnings"], ["lines", "Lines"], ["proposals", "Proposals"], ["hand", "By hand"]
];
export const panels = {}, buttons = {};
const openers = {};

// What is done when a tab is opened.
export const onOpen = (name, act) => { openers[name] = act;};

export function startTabs() {
  TABS.forEach(([name, title], place) => {
    panels[name] = h("div", {
      class: `panel ${name}-panel${name === "sources" ? " rows-panel" : ""}`,
      role: "tabpanel",
      id: `panel-${name}`,
      "aria-labelledby": `tab-${name}`,
      hidden: place > 0,
      tabindex: -1
    });
    buttons[name] =
        h("button", {
          role: "tab",
          id: `tab-${name}`,
          "aria-controls": `panel-${name}`,
          "aria-selected": String(place === 0),
          tabindex: place ? -1 : 0,
          onclick: () => open(name)
        },
          title);
    byId("tabs").append(buttons[name]);
    byId("panels").append(panels[name]);
  });
  byId("tabs").addEventListener("keydown", (event) => {
    const now = TABS.findIndex(([name]) => buttons[name] === document.activeElement);
    const next = {ArrowRight: now + 1, ArrowLeft: now - 1, Home: 0, End: TABS.length - 1}[event.key];
    if (next === undefined) return;
    event.preventDefault();
    const name = TABS[(next + TABS.length) % TABS.length][0];
    open(name);
    buttons[name].focus();
  });
}

export function open(name) {
  for (const [one] of TABS) {
    panels[one].hidden = one !== name;
    buttons[one].setAttribute("aria-selected", String(one === name));
    buttons[one].tabIndex = one === name ? 0 : -1;
  }
  openers[name]?.();
}

export const title = (name, count) => {
  buttons[name].textContent = TABS.find(([one]) => one === name)[1] + (count === null ? "" : ` (${count})`);
};
