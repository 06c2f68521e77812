// Puts the parts together: what is drawn when, the pointer, the keyboard, and the live run.
import {ask} from "./api.js";
import {startClicks} from "./clicks.js";
import {drawCurves, drawnCounts} from "./curves.js";
import {byId, counted, later, said, say} from "./dom.js";
import {startDrafts} from "./drafts.js";
import {showHand} from "./hand.js";
import {showInspector} from "./inspector.js";
import {startKeys} from "./keys.js";
import {showLines} from "./lines.js";
import {forget, isWhole, loadTheirs, model, on, open, redo, save, setLive, undo} from "./model.js";
import {startPicture} from "./picture.js";
import {startPointer} from "./pointer.js";
import {textChanged} from "./proposals.js";
import {curves, redraw} from "./redraw.js";
import {showLive} from "./results.js";
import {startTabs} from "./tabs.js";
import * as textpane from "./textpane.js";
import {arrange, drawTrees, liveTrees, markRows, sides} from "./trees.js";

// The live run of the last text: on the first rows of large files, and then on the whole of them. It ends those before
// it.
let runs = 0;
async function run() {
  const number = ++runs, text = model.text, began = performance.now();
  const asked = {text, core: byId("core").checked, rows: Number(byId("rows").value)};
  let before = said();
  byId("results").setAttribute("aria-busy", "true");
  let live = await ask("live", {...asked, whole: false});
  if (number !== runs) return;
  model.liveMs = performance.now() - began;
  byId("results").removeAttribute("aria-busy");
  show({...live, core: asked.core}, text, before);
  if (!live.tables || isWhole(live)) return;
  byId("whole").textContent = "the whole source is being read";
  before = said();
  live = await ask("live", {...asked, whole: true});
  if (number !== runs) return;
  byId("whole").textContent = "";
  if (live.error || live.stopped) say(`not the whole source: ${live.error ?? live.stopped}`);
  else show({...live, core: asked.core}, text, before);
}

// What came of a run. If something was said meanwhile, as that the text is saved, its numbers don't take that place.
function show(live, text, before) {
  byId("whole").textContent = "";
  if (live.error) {
    setLive(
        {
          rules: null,
          fault: {message: live.error, lines: [], at: null},
          stopped: null,
          tables: null,
          sources: {},
          core: live.core
        },
        text);
    say(live.error);
    return;
  }
  setLive(live, text);
  if (live.fault) say(`fault: ${live.fault.message.slice(0, 120)}`);
  else if (live.stopped) say(live.stopped);
  else if (live.tables && said() === before) {
    const rows = Object.values(live.tables).reduce((sum, one) => sum + one.count, 0);
    say(`${counted(live.rules.length, "rule")}, ${counted(rows, "target row")}${
        live.whole ? " of the whole source" : ""}, ${Math.round(model.liveMs)} ms`);
  }
}

// What was drawn runs at once. What is typed waits for more of it, as long as a run takes, but not long.
const live = later(() => (model.typed ? Math.min(model.liveMs ?? 0, 200) : 0), run);

on("text", () => {
  textpane.showText();
  changed();
  live();
});
on("outline", () => {
  forget();
  redraw();
  textpane.drawMarks();
  showLines();
  showHand();
  textChanged();
  showInspector();
});
on("selection", () => {
  markRows();
  curves();
  textpane.drawMarks();
  showLines();
  showInspector();
  revealSelected();
});
on("live", () => {
  liveTrees();
  markRows();
  curves();
  showLive();
  textpane.showFault();
});
on("saved", changed);

let revealed = null;
function revealSelected() {
  const one = model.selection, line = one?.kind === "line" && model.current ? model.outline.lines[one.index] : null;
  if (line && revealed !== one && document.activeElement !== byId("text")) textpane.reveal(line.at[0]);
  revealed = one;
}

function changed() {
  const is = model.text !== model.saved;
  byId("changed").textContent = is ? "● not saved" : "";
  byId("undo").disabled = !model.undo.length;
  byId("redo").disabled = !model.redo.length;
  byId("save").disabled = !is && model.digest !== "absent";
  const folder = model.folder.split("/").pop();
  byId("title").textContent = `clio-draw · ${folder}`;
  byId("file").textContent = model.name;
  document.title = `${is ? "● " : ""}${folder} · clio-draw`;
}

async function trySave() {
  const made = await save();
  if (made.changed) byId("conflict").showModal();
}

function start() {
  byId("undo").addEventListener("click", undo);
  byId("redo").addEventListener("click", redo);
  byId("save").addEventListener("click", trySave);
  byId("arrange").addEventListener("click", async () => {
    await arrange();
    redraw();
  });
  byId("core").addEventListener("change", run);
  byId("rows").addEventListener("change", run);
  byId("conflict-load").addEventListener("click", async () => {
    byId("conflict").close();
    await loadTheirs();
  });
  byId("conflict-over").addEventListener("click", async () => {
    byId("conflict").close();
    const {digest} = await ask("disk", {name: model.name});
    await save(digest);
  });
  byId("conflict-stay").addEventListener("click", () => byId("conflict").close());
  addEventListener("beforeunload", (event) => {
    if (model.text !== model.saved) event.preventDefault();
  });
  new ResizeObserver(curves).observe(byId("diagram"));
  startTabs();
  textpane.start();
  startPointer();
  startClicks();
  startKeys(trySave);
  startDrafts(run);
  startPicture();
  open();
}
start();

// For the tests of this page.
globalThis.clioDraw = {
  model,
  sides,
  drawnCounts,
  drawTrees,
  drawCurves
};
