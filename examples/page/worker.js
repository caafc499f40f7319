/** Reads and cleans a large text beside the page. */
import { answersOf, polygonsIn } from "./answers.js";
import { load } from "./i_shape/src/i_shape.js";

const library = load();

onmessage = async ({ data: { text, scale } }) => {
    try {
        const shapes = await library;
        const { polygons, proposed } = polygonsIn(shapes, text, scale);
        postMessage({ polygons, proposed, answers: answersOf(shapes, polygons) });
    } catch (error) {
        postMessage({ problem: error.message });
    }
};
