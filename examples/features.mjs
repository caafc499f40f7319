// Cleans the features of GeoJSON, which keep what they have besides coordinates.
import { load } from "../bindings/js/src/i_shape.js";

const { cleanFeatures } = await load();
const coordinates = [[[13.1, 52.3], [13.4, 52.3], [13.7, 52.3], [13.7, 52.6], [13.1, 52.3]]];
const feature = { type: "Feature", id: 7, properties: { name: "Berlin" }, geometry: { type: "Polygon", coordinates } };
const collection = { type: "FeatureCollection", features: [feature, { type: "Feature", id: 8, properties: null, geometry: null }] };
const cleaned = cleanFeatures(collection, { step: 1e-7, call: "simplify" });
for (const { id, geometry } of cleaned.features) console.log(id, JSON.stringify(geometry?.coordinates ?? null));
