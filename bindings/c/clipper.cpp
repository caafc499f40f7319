#include <i_shape.hpp>
#include <iostream>
#include <polyclipping/clipper.hpp>

int main() {
    const ClipperLib::Paths paths = {{{0, 0}, {2, 0}, {4, 0}, {4, 4}, {0, 4}}, {{1, 1}, {2, 2}, {3, 3}}};
    const auto all = i_shape::flat(paths);
    const ClipperLib::Paths left = i_shape::nested(i_shape::simplify_contours(all.points, all.offsets));
    for (const ClipperLib::Path &path : left) std::cout << path.size() << " points are left\n";
}
