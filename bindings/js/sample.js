import { load } from "./src/i_shape.js";

const shapes = await load();
const contour = Int32Array.of(0, 0, 2, 0, 4, 0, 4, 4, 0, 4);
console.log(shapes.simplify(contour).join(" "));
