// CGAL's simplification of polygons, at the least threshold above 0: at 0 it does nothing. It asks for simple polygons, and others can end the program, so
// that these are printed as faults.
#include "peer.hpp"

#include <limits>
#include <stdexcept>

#include <CGAL/Exact_predicates_inexact_constructions_kernel.h>
#include <CGAL/Polygon_2.h>
#include <CGAL/Polyline_simplification_2/Squared_distance_cost.h>
#include <CGAL/Polyline_simplification_2/Stop_above_cost_threshold.h>
#include <CGAL/Polyline_simplification_2/simplify.h>

namespace simplification = CGAL::Polyline_simplification_2;
using Kernel = CGAL::Exact_predicates_inexact_constructions_kernel;
using Polygon = CGAL::Polygon_2<Kernel>;

static Polygon give(const Ring &ring) {
    Polygon polygon;
    for (auto [x, y] : ring) polygon.push_back(Kernel::Point_2(x, y));
    return polygon;
}

static std::vector<Ring> read_answer(const Polygon &answer) {
    Ring ring;
    for (const auto &point : answer.container()) ring.emplace_back(point.x(), point.y());
    return ring.empty() ? std::vector<Ring>() : std::vector<Ring>{ring};
}

int main(int count, char **words) {
    CGAL::set_error_behaviour(CGAL::THROW_EXCEPTION);
    auto simplify = [](const Polygon &polygon) {
        if (!polygon.is_simple()) throw std::invalid_argument("not simple");
        return simplification::simplify(polygon, simplification::Squared_distance_cost(), simplification::Stop_above_cost_threshold(std::numeric_limits<double>::min()));
    };
    Library<Polygon, Polygon> library{give, {{"simplify", simplify}}, read_answer};
    return run(count, words, library);
}
