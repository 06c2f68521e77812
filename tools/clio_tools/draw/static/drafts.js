// A side drafted from a database, from files or from a document.
import {ask} from "./api.js";
import {byId, say} from "./dom.js";
import {model, replaceText} from "./model.js";

const WHAT = {
  sqlite: "file",
  postgres: "connection, as psql -d takes it",
  csv: "folder",
  json: "file"
};
const FIELDS = ["draft-kind", "draft-place", "draft-schema"];
const entered = {source: {}, target: {}};  // by side what stands in these fields
let side = "source";

export function startDrafts(again) {
  for (const fields of Object.values(entered)) keep(fields);
  for (const button of document.querySelectorAll("button.draft"))
    button.addEventListener("click", () => offer(button.dataset.side));
  byId("draft-kind").addEventListener("change", showKind);
  byId("draft-no").addEventListener("click", () => byId("draft").close());
  byId("draft-form").addEventListener("submit", (event) => {
    event.preventDefault();
    draft(again);
  });
}

function keep(fields) {
  for (const field of FIELDS) fields[field] = byId(field).value;
}

function offer(which) {
  keep(entered[side]);
  side = which;
  for (const field of FIELDS) byId(field).value = entered[side][field];
  byId("draft-title").textContent = `Draft the ${side}`;
  byId("draft-data-line").hidden = side === "target";
  byId("draft-fault").textContent = "";
  showKind();
  byId("draft").showModal();
  byId("draft-place").focus();
}

function showKind() {
  const kind = byId("draft-kind").value;
  byId("draft-what").textContent = WHAT[kind];
  byId("draft-schema-line").hidden = kind !== "postgres";
}

async function draft(again) {
  const text = model.text;
  byId("draft-do").disabled = true;
  const made = await ask("draft", {
    text,
    side,
    kind: byId("draft-kind").value,
    place: byId("draft-place").value.trim(),
    schema: byId("draft-schema").value.trim(),
    drawing: byId("draft-drawing").checked,
    data: side === "source" && byId("draft-data").checked
  });
  byId("draft-do").disabled = false;
  if (made.error) {
    byId("draft-fault").textContent = made.error;
    return;
  }
  if (text !== model.text) {
    byId("draft-fault").textContent = "the text changed meanwhile: try again";
    return;
  }
  byId("draft").close();
  replaceText(made);
  model.drafted[side] = made.remarks;
  if (made.files.length) again();
  say([
    `the ${side} is drafted`, made.files.length && `${made.files.length} files written`,
    made.remarks.length && `${made.remarks.length} remarks in Warnings`
  ].filter(Boolean)
          .join(", "));
}
