// CGAL's test for simple polygons, with exact predicates. It has none for rings together.
#include "contacts.hpp"

#include <CGAL/Exact_predicates_inexact_constructions_kernel.h>
#include <CGAL/Polygon_2_algorithms.h>
#include <algorithm>

namespace {

using Kernel = CGAL::Exact_predicates_inexact_constructions_kernel;
using Points = std::vector<Kernel::Point_2>;

Points points_of(const Ring &ring) {
    Points points;
    for (auto [x, y] : ring) points.emplace_back(x, y);
    return points;
}

bool is_simple_2(const Points &points) { return CGAL::is_simple_2(points.begin(), points.end(), Kernel()); }

Call is_simple(const Drawing &drawing) {
    if (drawing.question == Question::of_rings) return {};
    std::vector<Points> given;
    for (const Ring &ring : drawing.rings) given.push_back(points_of(ring));
    return [given = std::move(given)] { return std::size_t(std::count_if(given.begin(), given.end(), is_simple_2)); };
}

} // namespace

std::vector<Column> cgal_columns() { return {{"CGAL is_simple_2", is_simple}}; }

Notion cgal_notion() {
    return {"CGAL " CGAL_VERSION_STR, [](const std::vector<Ring> &polygon) { return is_simple_2(points_of(polygon[0])) ? "" : "not simple"; }};
}
