// Lines that could be meant; none is drawn without a click.
import {ask} from "./api.js";
import {fill, h, say} from "./dom.js";
import {ghost, model} from "./model.js";
import {onOpen, panels, title} from "./tabs.js";
import {show} from "./trees.js";
import {connect} from "./ways.js";

let proposals = null, proposedFor = null;
async function propose() {
  if (proposedFor === model.text) return;
  proposedFor = model.text;
  const made = await ask("proposals", {text: model.text});
  proposals = made.error ? null : made.proposals;
  showProposals(made.error);
}

// The text changed: what was proposed may be drawn.
export function textChanged() {
  if (!panels.proposals.hidden) propose();
  else title("proposals", null);
}

// Proposals that were refused stay refused as long as this page is there.
const refused = new Set(JSON.parse(sessionStorage.getItem("refused") ?? "[]"));
const nameOfProposal = (one) => `${one.source.join(".")} → ${one.target.join(".")}`;
function refuse(one) {
  refused.add(nameOfProposal(one));
  sessionStorage.setItem("refused", JSON.stringify([...refused]));
  ghost(null);
  showProposals();
  say(`refused: ${nameOfProposal(one)}`);
}

function showProposals(error) {
  if (!proposals) {
    fill(panels.proposals, h("p", {class: "empty"}, error ?? ""));
    return;
  }
  const open = proposals.filter((one) => !refused.has(nameOfProposal(one)));
  title("proposals", open.length);
  fill(
      panels.proposals,
      h("p", {class: "empty"},
        "None is added by itself. Points: names alike up to 70, sets 15, same texts (if the folder has rows of the target in given/) 30."),
      h("ul", {class: "list"},
        open.map(
            (one) =>
                h("li", {
                  onmouseenter: () => ghost(one),
                  onmouseleave: () => ghost(null),
                  onfocusin: () => ghost(one),
                  onfocusout: () => ghost(null)
                },
                  h("span", {class: "score"}, String(one.score)), h("code", {}, nameOfProposal(one)),
                  h("button", {
                    onclick: () => {
                      ghost(null);
                      connect(one.source, one.target);
                    },
                    "aria-label": `Draw ${one.source.join(".")} to ${one.target.join(".")}`
                  },
                    "draw it"),
                  h("button", {
                    onclick: () => {
                      show("source", ...one.source);
                      show("target", ...one.target);
                      ghost(one);
                    }
                  },
                    "show"),
                  h("button", {
                    onclick: () => refuse(one),
                    "aria-label": `Refuse ${one.source.join(".")} to ${one.target.join(".")}`
                  },
                    "refuse"),
                  h("span", {class: "reasons"}, one.reasons.join("; "))))));
}

onOpen("proposals", propose);
