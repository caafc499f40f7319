// Boost.Geometry: whether polygons intersect themselves, and whether they are valid.
#include "contacts.hpp"

#include <boost/geometry.hpp>
#include <boost/geometry/geometries/multi_polygon.hpp>
#include <boost/geometry/geometries/point_xy.hpp>
#include <boost/geometry/geometries/polygon.hpp>
#include <boost/version.hpp>
#include <memory>

namespace {

namespace geometry = boost::geometry;
using Polygon = geometry::model::polygon<geometry::model::d2::point_xy<double>>;
using MultiPolygon = geometry::model::multi_polygon<Polygon>;

void close_into(Polygon::ring_type &to, const Ring &ring) {
    for (auto [x, y] : ring) to.emplace_back(x, y);
    to.emplace_back(ring[0].x, ring[0].y);
}

MultiPolygon polygons_of(const std::vector<Ring> &rings, std::size_t rings_of_polygon) {
    MultiPolygon polygons;
    for (std::size_t k = 0; k < rings.size(); k++) {
        if (k % rings_of_polygon == 0) {
            close_into(polygons.emplace_back().outer(), rings[k]);
        } else {
            close_into(polygons.back().inners().emplace_back(), rings[k]);
        }
    }
    geometry::correct(polygons);
    return polygons;
}

template <class Test> Call count(const Drawing &drawing, Test is_free) {
    auto polygons = std::make_shared<MultiPolygon>(polygons_of(drawing.rings, drawing.rings_of_polygon));
    if (drawing.question == Question::of_rings) return [polygons, is_free] { return std::size_t(is_free(*polygons)); };
    return [polygons, is_free] { return std::size_t(std::count_if(polygons->begin(), polygons->end(), is_free)); };
}

std::string fault(const std::vector<Ring> &rings) {
    geometry::validity_failure_type failure;
    bool valid = geometry::is_valid(polygons_of(rings, rings.size())[0], failure);
    return valid ? "" : geometry::validity_failure_type_message(failure);
}

} // namespace

std::vector<Column> boost_columns() {
    auto is_free = [](const auto &given) { return !geometry::intersects(given); };
    auto is_valid = [](const auto &given) { return geometry::is_valid(given); };
    return {{"Boost intersects", [=](const Drawing &drawing) { return count(drawing, is_free); }},
            {"Boost is_valid", [=](const Drawing &drawing) { return count(drawing, is_valid); }}};
}

Notion boost_notion() { return {"Boost.Geometry " BOOST_LIB_VERSION, fault}; }
