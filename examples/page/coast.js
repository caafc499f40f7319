/** The shorelines of three islands, rounded down to coarser grids and cleaned. */
import { drawFrame, element, frameOf, pathOf } from "./board.js";

/** How many units of the shorelines the slider's grids are wide. */
const GRIDS = [1, 50, 100, 200, 400, 800, 1500, 3000];
const LEAST_TIME = 5;

/** Returns the points of a text `x y x y ..`, as the library takes them. */
function readCoast(text) {
    return Int32Array.from(text.trim().split(/\s+/), Number);
}

/** Returns the text of an island's shoreline. */
async function fetchCoast(name) {
    const answer = await fetch(`coastlines/${name}.txt`);
    if (!answer.ok) throw new Error(`${answer.url}: ${answer.status} ${answer.statusText}`);
    return answer.text();
}

/** Returns the mean milliseconds of a call, of so many calls that the clock can measure them. */
function timeOf(call) {
    const start = performance.now();
    let calls = 0;
    do {
        call();
        calls++;
    } while (performance.now() - start < LEAST_TIME);
    return (performance.now() - start) / calls;
}

/** The points of a ring on a grid, each in the middle of its square. */
function pointsOn(grid, coordinates) {
    const middle = (each) => (each + 0.5) * grid;
    return Array.from({ length: coordinates.length / 2 }, (_, k) => [middle(coordinates[2 * k]), middle(coordinates[2 * k + 1])]);
}

/** Shows an island by what is chosen, and again at each choice. */
export function startCoast(shapes, byId) {
    const texts = new Map();
    const draw = async () => {
        const name = byId("island").value;
        if (!texts.has(name)) texts.set(name, await fetchCoast(name));
        if (name !== byId("island").value) return; // another one was chosen meanwhile
        const given = readCoast(texts.get(name));
        const grid = GRIDS[Number(byId("grid").value)];
        const rounded = given.map((each) => Math.floor(each / grid));
        const left = shapes.simplify(rounded);
        const ring = pointsOn(1, given);
        byId("coast").replaceChildren(
            ...drawFrame(byId("coast"), frameOf([[ring]], byId("coast").clientWidth || undefined)),
            element("path", { class: "given", d: pathOf([ring]) }),
            element("path", { class: "cleaned", d: pathOf([pointsOn(grid, left)]) }),
        );
        byId("grid").setAttribute("aria-valuetext", `${grid}`);
        byId("coast-grid").textContent = `${grid}`;
        byId("coast-given").textContent = `${given.length / 2} points`;
        byId("coast-left").textContent = left.length ? `${left.length / 2} points` : "none: it collapses";
        byId("coast-time").textContent = `${timeOf(() => shapes.simplify(rounded)).toPrecision(2)} ms`;
    };
    const show = () => draw().catch((error) => {
        byId("problem").textContent = error.message;
    });
    for (const id of ["island", "grid"]) byId(id).addEventListener("input", show);
    return show();
}
