// What is drawn anew, and when.
import {drawCurves} from "./curves.js";
import {onceAPicture} from "./dom.js";
import {drawTrees, markRows} from "./trees.js";

export const curves = onceAPicture(drawCurves);
export const redraw = () => {
  drawTrees();
  markRows();
  curves();
};
