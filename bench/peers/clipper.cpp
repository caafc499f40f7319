// The calls of Clipper 6.4, over whole numbers of 64 bits.
#include "peer.hpp"

#include <polyclipping/clipper.hpp>

using ClipperLib::Path;
using ClipperLib::Paths;

static Path give(const Ring &ring) {
    Path path;
    for (auto [x, y] : ring) path.emplace_back(ClipperLib::cInt(x), ClipperLib::cInt(y));
    return path;
}

static std::vector<Ring> read_answer(const Paths &answer) {
    std::vector<Ring> rings;
    for (const Path &path : answer) {
        if (path.empty()) continue;
        Ring &ring = rings.emplace_back();
        for (const auto &point : path) ring.emplace_back(double(point.X), double(point.Y));
    }
    return rings;
}

static Paths clean(const Path &path, double distance) {
    Paths left(1);
    ClipperLib::CleanPolygon(path, left[0], distance);
    return left;
}

int main(int count, char **words) {
    auto simplify = [](const Path &path) {
        Paths left;
        ClipperLib::SimplifyPolygon(path, left, ClipperLib::pftEvenOdd);
        return left;
    };
    Library<Path, Paths> library{give,
                                 {{"CleanPolygon,0", [](const Path &path) { return clean(path, 0); }},
                                  {"CleanPolygon,1.415", [](const Path &path) { return clean(path, 1.415); }},
                                  {"SimplifyPolygon,even-odd", simplify}},
                                 read_answer};
    return run(count, words, library);
}
