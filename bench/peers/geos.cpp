// The calls of GEOS, on polygons without holes.
#include "peer.hpp"

#include <geos_c.h>
#include <memory>
#include <stdexcept>

using Geometry = std::shared_ptr<GEOSGeometry>;

static void quiet(const char *, ...) {}

static Geometry owned(GEOSGeometry *geometry) {
    if (!geometry) throw std::runtime_error("GEOS reports a fault");
    return Geometry(geometry, GEOSGeom_destroy);
}

static Geometry give(const Ring &ring) {
    GEOSCoordSequence *sequence = GEOSCoordSeq_create(unsigned(ring.size()) + 1, 2);
    for (std::size_t k = 0; k <= ring.size(); k++) {
        auto [x, y] = ring[k % ring.size()];
        GEOSCoordSeq_setXY(sequence, unsigned(k), x, y);
    }
    return owned(GEOSGeom_createPolygon(GEOSGeom_createLinearRing(sequence), nullptr, 0));
}

static Ring read_linear(const GEOSGeometry *linear) {
    const GEOSCoordSequence *sequence = GEOSGeom_getCoordSeq(linear);
    unsigned count = 0;
    GEOSCoordSeq_getSize(sequence, &count);
    Ring ring(count > 0 ? count - 1 : 0);
    for (unsigned k = 0; k + 1 < count; k++) GEOSCoordSeq_getXY(sequence, k, &ring[k].first, &ring[k].second);
    return ring;
}

static std::vector<Ring> read_answer(const Geometry &answer) {
    std::vector<Ring> rings;
    for (int part = 0; part < GEOSGetNumGeometries(answer.get()); part++) {
        const GEOSGeometry *one = GEOSGetGeometryN(answer.get(), part);
        if (GEOSGeomTypeId(one) != GEOS_POLYGON || GEOSisEmpty(one)) continue;
        rings.push_back(read_linear(GEOSGetExteriorRing(one)));
        for (int hole = 0; hole < GEOSGetNumInteriorRings(one); hole++) rings.push_back(read_linear(GEOSGetInteriorRingN(one, hole)));
    }
    return rings;
}

static Geometry normalized(Geometry geometry) {
    if (GEOSNormalize(geometry.get()) < 0) throw std::runtime_error("GEOS reports a fault");
    return geometry;
}

int main(int count, char **words) {
    initGEOS(quiet, quiet);
    auto simplify = [](const Geometry &given) { return owned(GEOSSimplify(given.get(), 0)); };
    Library<Geometry, Geometry> library{
        give,
        {{"GEOSSimplify,0", simplify},
         {"GEOSTopologyPreserveSimplify,0", [](const Geometry &given) { return owned(GEOSTopologyPreserveSimplify(given.get(), 0)); }},
         {"GEOSRemoveRepeatedPoints,0", [](const Geometry &given) { return owned(GEOSRemoveRepeatedPoints(given.get(), 0)); }},
         {"GEOSMakeValid", [](const Geometry &given) { return owned(GEOSMakeValid(given.get())); }},
         {"GEOSNormalize", [](const Geometry &given) { return normalized(owned(GEOSGeom_clone(given.get()))); }},
         {"GEOSSimplify,0,GEOSNormalize", [=](const Geometry &given) { return normalized(simplify(given)); }}},
        read_answer};
    return run(count, words, library);
}
