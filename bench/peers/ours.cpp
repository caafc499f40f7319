// The calls of this library, over whole numbers of 32 bits.
#include "peer.hpp"

#include <i_shape.h>
#include <stdexcept>

using Points = std::vector<i_shape_point_i32>;

static Points give(const Ring &ring) {
    Points points;
    for (auto [x, y] : ring) points.push_back({std::int32_t(x), std::int32_t(y)});
    return points;
}

static std::vector<Ring> read_answer(const Points &answer) {
    Ring ring;
    for (auto [x, y] : answer) ring.emplace_back(x, y);
    return ring.empty() ? std::vector<Ring>() : std::vector<Ring>{ring};
}

template <auto call> Points cleaned(const Points &points) {
    Points left(points.size());
    std::ptrdiff_t count = call(points.data(), points.size(), left.data(), left.size());
    if (count < 0) throw std::runtime_error("a code");
    left.resize(std::size_t(count));
    return left;
}

int main(int count, char **words) {
    Library<Points, Points> library{give,
                                    {{"simplify", cleaned<i_shape_simplify_i32>},
                                     {"despike", cleaned<i_shape_despike_i32>},
                                     {"canonical", cleaned<i_shape_canonical_i32>}},
                                    read_answer};
    return run(count, words, library);
}
