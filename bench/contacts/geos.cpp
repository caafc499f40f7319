// GEOS: whether the rings are simple as lines, and whether they are valid as polygons.
#include "contacts.hpp"

#include <algorithm>
#include <geos_c.h>
#include <memory>
#include <stdexcept>

namespace {

using Geometry = std::shared_ptr<GEOSGeometry>;
using Test = char (*)(const GEOSGeometry *);

void quiet(const char *, ...) {}

Geometry owned(GEOSGeometry *geometry) {
    if (!geometry) throw std::runtime_error("GEOS makes no geometry");
    return Geometry(geometry, GEOSGeom_destroy);
}

GEOSCoordSequence *closed(const Ring &ring) {
    GEOSCoordSequence *sequence = GEOSCoordSeq_create(unsigned(ring.size()) + 1, 2);
    for (std::size_t k = 0; k <= ring.size(); k++) GEOSCoordSeq_setXY(sequence, unsigned(k), ring[k % ring.size()].x, ring[k % ring.size()].y);
    return sequence;
}

GEOSGeometry *collection(int type, std::vector<GEOSGeometry *> parts) { return GEOSGeom_createCollection(type, parts.data(), unsigned(parts.size())); }

GEOSGeometry *polygon(const Ring *rings, std::size_t count) {
    std::vector<GEOSGeometry *> holes;
    for (std::size_t k = 1; k < count; k++) holes.push_back(GEOSGeom_createLinearRing(closed(rings[k])));
    return GEOSGeom_createPolygon(GEOSGeom_createLinearRing(closed(rings[0])), holes.data(), unsigned(holes.size()));
}

std::vector<Geometry> lines_of(const Drawing &drawing) {
    if (drawing.question == Question::of_rings) {
        std::vector<GEOSGeometry *> lines;
        for (const Ring &ring : drawing.rings) lines.push_back(GEOSGeom_createLineString(closed(ring)));
        return {owned(collection(GEOS_MULTILINESTRING, lines))};
    }
    std::vector<Geometry> rings;
    for (const Ring &ring : drawing.rings) rings.push_back(owned(GEOSGeom_createLinearRing(closed(ring))));
    return rings;
}

std::vector<Geometry> polygons_of(const Drawing &drawing) {
    std::vector<GEOSGeometry *> polygons;
    for (std::size_t from = 0; from < drawing.rings.size(); from += drawing.rings_of_polygon)
        polygons.push_back(polygon(&drawing.rings[from], std::min(drawing.rings_of_polygon, drawing.rings.size() - from)));
    if (drawing.question == Question::of_rings) return {owned(collection(GEOS_MULTIPOLYGON, polygons))};
    std::vector<Geometry> each;
    for (GEOSGeometry *one : polygons) each.push_back(owned(one));
    return each;
}

template <Test test> Call count(std::vector<Geometry> geometries) {
    return [geometries = std::move(geometries)] {
        std::size_t count = 0;
        for (const Geometry &geometry : geometries) {
            char answer = test(geometry.get());
            if (answer == 2) throw std::runtime_error("GEOS returned an exception");
            count += std::size_t(answer);
        }
        return count;
    };
}

template <int flags> std::string fault(const std::vector<Ring> &rings) {
    Geometry given = owned(polygon(rings.data(), rings.size()));
    char *told = nullptr;
    char answer = GEOSisValidDetail(given.get(), flags, &told, nullptr);
    if (answer == 2) throw std::runtime_error("GEOS returned an exception");
    std::string fault = answer == 0 ? told : "";
    GEOSFree(told);
    return fault;
}

} // namespace

std::vector<Column> geos_columns() {
    initGEOS(quiet, quiet);
    return {{"GEOS isSimple", [](const Drawing &drawing) { return count<GEOSisSimple>(lines_of(drawing)); }},
            {"GEOS isValid", [](const Drawing &drawing) { return count<GEOSisValid>(polygons_of(drawing)); }}};
}

Notion geos_notion() {
    initGEOS(quiet, quiet);
    return {std::string("GEOS ") + GEOSversion(), fault<0>};
}

Notion touching_geos_notion() { return {geos_notion().name + ", self-touching rings", fault<GEOSVALID_ALLOW_SELFTOUCHING_RING_FORMING_HOLE>}; }
