// The calls of Boost.Geometry, on open rings of points of doubles.
#include "peer.hpp"

#include <boost/geometry.hpp>
#include <boost/geometry/geometries/point_xy.hpp>
#include <boost/geometry/geometries/ring.hpp>

namespace geometry = boost::geometry;
using Given = geometry::model::ring<geometry::model::d2::point_xy<double>, false, false>;

static Given give(const Ring &ring) {
    Given given;
    for (auto [x, y] : ring) given.emplace_back(x, y);
    return given;
}

// A ring that is closed all the same isn't read with its first point twice.
static std::vector<Ring> read_answer(const Given &answer) {
    Ring ring;
    for (const auto &point : answer) ring.emplace_back(point.x(), point.y());
    if (ring.size() > 1 && ring.front() == ring.back()) ring.pop_back();
    return ring.empty() ? std::vector<Ring>() : std::vector<Ring>{ring};
}

int main(int count, char **words) {
    auto simplify = [](const Given &given) {
        Given left;
        geometry::simplify(given, left, 0);
        return left;
    };
    auto remove_spikes = [](Given given) {
        geometry::remove_spikes(given);
        return given;
    };
    auto unique = [](Given given) {
        geometry::unique(given);
        return given;
    };
    Library<Given, Given> library{give, {{"simplify,0", simplify}, {"remove_spikes", remove_spikes}, {"unique", unique}}, read_answer};
    return run(count, words, library);
}
