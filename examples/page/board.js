/** The drawing of polygons. The board's y runs down, and that of the points up. */

const SVG = "http://www.w3.org/2000/svg";

export function element(name, attributes) {
    const made = document.createElementNS(SVG, name);
    for (const [key, value] of Object.entries(attributes)) made.setAttribute(key, value);
    return made;
}

/** The `d` of a path through rings, each closed. */
export function pathOf(rings) {
    const steps = (ring) => ring.map(([x, y], k) => `${k ? "L" : "M"}${x} ${-y}`).join("");
    return rings.filter((ring) => ring.length > 0).map((ring) => `${steps(ring)}Z`).join("");
}

/** The `d` of a path of edges, each by its two ends. */
export function edgesOf(edges) {
    return edges.map(([[fromX, fromY], [toX, toY]]) => `M${fromX} ${-fromY}L${toX} ${-toY}`).join("");
}

// A cell is as wide as a thumb, where the board has room for so many to either side of 0.
const CELL = 40;
const [FEWEST, MOST] = [4, 12];

/**
 * What a board of a width in pixels shows: all polygons, on a grid with a step of 1, 2 or 5 times a power of ten; where they are small, the grid that is drawn
 * upon. `pixel` is a pixel in units of the points.
 */
export function frameOf(polygons, width = 1000) {
    const half = Math.max(FEWEST, Math.min(MOST, Math.floor((width / CELL - 1) / 2)));
    const height = Math.max(FEWEST, Math.round((half * 2) / 3));
    const points = polygons.flat(2);
    const isSmall = points.every(([x, y]) => Math.abs(x) <= half && Math.abs(y) <= height);
    if (isSmall) return framed({ minX: -half, minY: -height, maxX: half, maxY: height, step: 1 }, width);
    const [left, right, bottom, top] = [extreme(points, 0, Math.min), extreme(points, 0, Math.max), extreme(points, 1, Math.min), extreme(points, 1, Math.max)];
    const step = roundStep(Math.max(right - left, top - bottom) / (2 * half));
    const down = (value) => Math.floor(value / step - 1) * step;
    const up = (value) => Math.ceil(value / step + 1) * step;
    return framed({ minX: down(left), minY: down(bottom), maxX: up(right), maxY: up(top), step }, width);
}

function framed(frame, width) {
    return { ...frame, pixel: (frame.maxX - frame.minX + frame.step) / width };
}

/** The least step of 1, 2 or 5 times a power of ten that isn't below a size, and not below 1. */
function roundStep(size) {
    const power = 10 ** Math.floor(Math.log10(Math.max(size, 1)));
    return [1, 2, 5, 10].map((each) => each * power).find((each) => each >= size);
}

/** The least or the greatest coordinate of points on an axis. */
function extreme(points, axis, of) {
    return points.reduce((found, point) => of(found, point[axis]), points[0][axis]);
}

/** The lines of a frame, and the viewBox that shows it. */
export function drawFrame(svg, { minX, minY, maxX, maxY, step }) {
    svg.setAttribute("viewBox", `${minX - step / 2} ${-maxY - step / 2} ${maxX - minX + step} ${maxY - minY + step}`);
    const lines = { grid: "", axis: "" };
    for (let x = minX; x <= maxX; x += step) lines[x === 0 ? "axis" : "grid"] += `M${x} ${-maxY}V${-minY}`;
    for (let y = minY; y <= maxY; y += step) lines[y === 0 ? "axis" : "grid"] += `M${minX} ${-y}H${maxX}`;
    return Object.entries(lines).map(([name, d]) => element("path", { class: name, d }));
}

const round = (x, y, r) => `M${x - r} ${y}a${r} ${r} 0 1 0 ${2 * r} 0a${r} ${r} 0 1 0 ${-2 * r} 0z`;
const MARKS = {
    kept: round,
    start: round,
    straight: (x, y, r) => `M${x} ${y - r}l${r} ${r}l${-r} ${r}l${-r} ${-r}z`,
    spike: (x, y, r) => `M${x - r} ${y - r}l${2 * r} ${2 * r}m0 ${-2 * r}l${-2 * r} ${2 * r}`,
    repeated: (x, y, r) => `M${x - r} ${y - r}h${2 * r}v${2 * r}h${-2 * r}z`,
    collapsed: (x, y, r) => `M${x} ${y - r}l${r} ${2 * r}h${-2 * r}z`,
};

/** The marks of points of a kind, as one path. */
export function marks(kind, points, radius) {
    return element("path", { class: kind, d: points.map(([x, y]) => MARKS[kind](x, -y, radius)).join("") });
}
