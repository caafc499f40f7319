/** A polygon that is drawn or pasted, what is left of it, and why. */
import { answersOf, polygonsIn } from "./answers.js";
import { drawFrame, edgesOf, element, frameOf, marks, pathOf } from "./board.js";
import { startCoast } from "./coast.js";
import { FILL_RULES, load } from "./i_shape/src/i_shape.js";
import { flat } from "./polygons.js";

// A square with straight points, a spike, a point that comes twice and a bend to the right; and a hole.
const EXAMPLE = [[
    [[-4, -3], [-1, -3], [2, -3], [3, -3], [3, 0], [4, 0], [3, 0], [3, 3], [3, 3], [0, 3], [-2, 1], [-4, 3], [-4, -1]],
    [[-2, -2], [-2, -1], [0, -1], [2, -1], [1, -2]],
]];

// The greatest safe coordinate of 32 bits.
const GREATEST = 2 ** 30 - 1;
// A text of more characters is read by a worker.
const LONG = 100_000;
// The radius of a mark, in pixels.
const RADIUS = 7;

const byId = (id) => document.getElementById(id);
const say = (id, text) => {
    byId(id).textContent = text;
};
const board = byId("board");

const shapes = await load().catch((error) => {
    say("problem", `the page has no library: ${error.message}`);
    throw error;
});
let polygons = structuredClone(EXAMPLE);
// What is there at first, until something is done with it: a first point begins anew.
let untouched = polygons;
let answers;
let frame;
let cursor = [0, 0];
let worker;

function written(point) {
    return `(${point[0]}, ${point[1]})`;
}

function counted(number, word) {
    return `${number} ${word}${number === 1 ? "" : "s"}`;
}

/** A half of a number, as text. */
function halfOf(twice) {
    const sign = twice < 0n ? "-" : "";
    const size = twice < 0n ? -twice : twice;
    return `${sign}${size / 2n}${size % 2n ? ".5" : ""}`;
}

/** Two edges of a ring in words, or that there are none. */
function contactText([first, second]) {
    return first ? `edges ${first.index} and ${second.index} meet, from ${written(first.ends[0])} and ${written(second.ends[0])}` : "none";
}

function showNumbers({ left, removed, start, contact, areaTwo, isConvex }) {
    const rings = polygons.flat();
    const [given, leftPoints] = [rings.flat().length, left.flat(2).length];
    const gone = Object.entries(removed).filter(([, those]) => those.length > 0);
    const count = gone.reduce((sum, [, those]) => sum + those.length, 0);
    say("given", `${counted(given, "point")} in ${counted(rings.filter((ring) => ring.length > 0).length, "ring")}`);
    say("left", given > 0 && leftPoints === 0 ? "none: it collapses" : `${counted(leftPoints, "point")} in ${counted(left.flat().length, "ring")}`);
    say("removed", `${count}${count ? ": " : ""}${gone.map(([reason, those]) => `${those.length} ${reason}`).join(", ")}`);
    say("area", halfOf(areaTwo));
    say("convex", isConvex === undefined ? "-" : isConvex ? "yes" : "no");
    say("start", start ? written(start) : "-");
    say("contact", contactText(contact));
}

function draw({ left, removed, start, contact }) {
    frame = frameOf(polygons, board.clientWidth || undefined);
    const radius = RADIUS * frame.pixel;
    board.replaceChildren(
        ...drawFrame(board, frame),
        element("path", { class: "cleaned", d: pathOf(left.flat()) }),
        element("path", { class: "given", d: pathOf(polygons.flat()) }),
        element("path", { class: "contact", d: edgesOf(contact.map(({ ends }) => ends)) }),
        marks("kept", left.flat(2), radius * 0.7),
        ...Object.entries(removed).filter(([, points]) => points.length > 0).map(([reason, points]) => marks(reason, points, radius)),
        marks("start", start ? [start] : [], radius * 1.6),
        element("path", { class: "cursor", id: "cross", d: "" }),
    );
    showCursor();
}

/** Shows the polygons, and what the library returns of them, or has returned in a worker. */
function show(known) {
    answers = known ?? answersOf(shapes, polygons);
    draw(answers);
    showNumbers(answers);
    say("problem", "");
}

function showCursor() {
    const [[x, y], arm] = [cursor, 1.5 * RADIUS * frame.pixel];
    byId("cross").setAttribute("d", `M${x - arm} ${-y}h${2 * arm}M${x} ${-y - arm}v${2 * arm}`);
    const { points, ringOffsets } = answers.all;
    const about = Int32Array.of(x, y);
    const [winding] = shapes.windingNumbers(points, ringOffsets, about);
    const rules = FILL_RULES.filter((rule) => shapes.containsPoints(points, ringOffsets, about, rule)[0]);
    say("cursor", written(cursor));
    say("winding", `${winding}`);
    say("filled", rules.length ? `by ${rules.join(", ")}` : "by no rule");
}

/** The point of the grid that is next to a place of the window. */
function pointAt({ clientX, clientY }) {
    const { step, minX, minY, maxX, maxY } = frame;
    const { x, y } = new DOMPoint(clientX, clientY).matrixTransform(board.getScreenCTM().inverse());
    return [within(minX, x, maxX, step), within(minY, -y, maxY, step)];
}

function within(least, value, greatest, step) {
    return Math.max(least, -GREATEST, Math.min(greatest, GREATEST, Math.round(value / step) * step)) + 0;
}

function lastPolygon() {
    if (polygons.length === 0) polygons.push([[]]);
    return polygons.at(-1);
}

function addPoint(point) {
    if (polygons === untouched) polygons = [];
    const polygon = lastPolygon();
    if (polygon.length === 0) polygon.push([]);
    polygon.at(-1).push(point);
    show();
}

/** Takes the last point away, and a ring that has none left, but for the first. */
function undo() {
    untouched = undefined;
    const polygon = lastPolygon();
    if (polygon.at(-1)?.length === 0 && polygon.length > 1) polygon.pop();
    polygon.at(-1)?.pop();
    show();
}

function addRing() {
    untouched = undefined;
    if (lastPolygon().at(-1)?.length !== 0) lastPolygon().push([]);
    show();
}

function clear() {
    polygons = [[[]]];
    show();
}

/** Does what is asked for, and shows where it fails. */
function attempt(action) {
    try {
        action();
    } catch (error) {
        say("problem", error.message);
    }
}

function given(id) {
    return { text: byId(id).value, scale: Number(byId("scale").value) };
}

/** Takes polygons that were read, with what is known of them. */
function take({ polygons: read, proposed, answers: known }) {
    polygons = read;
    show(known);
    propose(proposed);
}

/** Offers a scale for coordinates that have fractions. */
function propose(proposed) {
    byId("proposal").hidden = !proposed;
    if (!proposed) return;
    const { scale, areDegrees } = proposed;
    say("proposed", `Rounded to whole numbers. By a scale of ${scale} a step is ${1 / scale}${areDegrees ? " of a degree, if these are degrees" : ""}:`);
    byId("rescale").onclick = () => attempt(() => {
        byId("scale").value = scale;
        read();
    });
}

/** Reads the text; a long one in a worker, which another reading ends. */
function read() {
    worker?.terminate();
    say("reading", "");
    const { text, scale } = given("text");
    if (text.length <= LONG) return take(polygonsIn(shapes, text, scale));
    say("reading", "Reading ..");
    worker = new Worker(new URL("worker.js", import.meta.url), { type: "module" });
    worker.onmessage = ({ data }) => {
        worker.terminate();
        say("reading", "");
        if (data.problem) say("problem", data.problem);
        else take(data);
    };
    worker.postMessage({ text, scale });
}

function write() {
    byId("text").value = answers.left.map((rings) => rings.map((ring) => ring.flat().join(" ")).join("\n")).join("\n\n");
}

function compare() {
    say("same", "");
    const { text, scale } = given("other");
    const other = flat(polygonsIn(shapes, text, scale).polygons);
    const verdicts = [[true, "the same polygons"], [false, "the same polygons, but for the way round of a ring"]];
    say("same", verdicts.find(([oriented]) => shapes.samePolygons(answers.all, other, { oriented }))?.[1] ?? "other polygons");
}

const STEPS = { ArrowLeft: [-1, 0], ArrowRight: [1, 0], ArrowUp: [0, 1], ArrowDown: [0, -1] };
const KEYS = { Enter: () => addPoint(cursor), " ": () => addPoint(cursor), Backspace: undo, n: addRing, N: addRing };

function pressKey(event) {
    const direction = STEPS[event.key];
    const action = direction ? () => moveCursor(direction, event.shiftKey ? 5 : 1) : KEYS[event.key];
    if (!action || event.ctrlKey || event.altKey || event.metaKey) return;
    event.preventDefault();
    action();
}

function moveCursor([x, y], steps) {
    const { step, minX, minY, maxX, maxY } = frame;
    cursor = [within(minX, cursor[0] + x * steps * step, maxX, step), within(minY, cursor[1] + y * steps * step, maxY, step)];
    showCursor();
}

const listeners = {
    click: (event) => {
        cursor = pointAt(event);
        addPoint(cursor);
    },
    pointermove: (event) => {
        cursor = pointAt(event);
        showCursor();
    },
    keydown: pressKey,
};
for (const [name, listen] of Object.entries(listeners)) board.addEventListener(name, (event) => attempt(() => listen(event)));
const actions = {
    undo,
    clear,
    ring: addRing,
    read,
    write,
    compare,
    example: () => {
        polygons = structuredClone(EXAMPLE);
        show();
    },
};
for (const [id, action] of Object.entries(actions)) byId(id).addEventListener("click", () => attempt(action));

say("version", `i_shape ${shapes.version}, in WebAssembly.`);
show();
let width = board.clientWidth;
new ResizeObserver(() => {
    if (width !== board.clientWidth) draw(answers);
    width = board.clientWidth;
}).observe(board);
await startCoast(shapes, byId);
document.body.dataset.ready = "yes";
