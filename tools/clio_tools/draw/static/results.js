// What the last run has made, in all panels; and what clio-explain warns of.
import {ask} from "./api.js";
import {cureButtons} from "./cells.js";
import {fill, h, later} from "./dom.js";
import {showExamples} from "./examples.js";
import {model} from "./model.js";
import {takeRules} from "./rules.js";
import {showSources} from "./sources.js";
import {panels, title} from "./tabs.js";
import {showRows} from "./targets.js";

export function showLive() {
  const live = model.live;
  if (!live) return;
  const isGood = Boolean(live.tables);
  for (const name of ["rows", "sources", "examples", "rules"]) mark(name, live);
  if (live.rules) takeRules(live.rules);
  if (isGood) {
    model.kept = live;
    showRows(live);
  }
  if (isGood) warn();
  else showWarnings(live, []);
  showSources();
  showExamples();
}

// A panel that shows what an earlier run made is pale; one that has nothing yet says why.
function mark(name, live) {
  const panel = panels[name], isStale = !live.tables && !(name === "rules" && live.rules);
  panel.classList.toggle("stale", isStale);
  if (isStale && !panel.childElementCount)
    fill(panel, h("p", {class: "empty"}, live.fault ? "There are no rows until the fault is mended." : live.stopped));
}

// What is warned of takes longer than a run, so it is asked for when the text rests.
const warn = later(() => 300, async () => {
  const live = model.live;
  if (!live.tables || model.liveText !== model.text) return;
  const {warnings, error} = await ask("warnings", {whole: live.whole, run: live.run});
  if (live === model.live) showWarnings(live, warnings ?? [{lines: [{text: error}]}]);
});

function showWarnings(live, list) {
  const drafted = [...model.drafted.source, ...model.drafted.target].map((text) => ({lines: [{text}]}));
  list = [...drafted, ...(live.remarks ?? []), ...list];
  title("warnings", list.length);
  fill(
      panels.warnings,
      ...(list.length ?
              list.map(
                  (one) =>
                      h("div", {class: "warning"},
                        one.lines.map((line, place) => h("p", {class: place ? "more" : ""}, line.text.trim())),
                        cureButtons(one.cures))) :
              [h("p", {class: "empty"}, live.fault ? "None while there is a fault." : "None.")]));
}
