#include "families.hpp"

#include <algorithm>
#include <cmath>
#include <fstream>
#include <random>
#include <sstream>
#include <stdexcept>

namespace {

constexpr double PI = 3.14159265358979323846;
constexpr double RADIUS = 1 << 29; // safe at 32 bits

Point rounded(double x, double y) { return {std::int32_t(std::lround(x)), std::int32_t(std::lround(y))}; }

// From the lowest point on, so that the middle of a ring round the origin lies in the middle of its width.
Point at_turn(double turns, double radius) { return rounded(radius * std::sin(2 * PI * turns), -radius * std::cos(2 * PI * turns)); }

// A ring. For a contact an edge in its middle is crossed: the line from the point after the edge through its midpoint goes on, by half, to the next point.
std::optional<Drawing> ring_of(Ring ring, bool contact) {
    if (contact) {
        Point *edge = &ring[ring.size() / 2 - 2];
        auto beyond = [](std::int64_t from, std::int64_t to, std::int64_t after) { return std::int32_t((3 * (from + to) - 2 * after) / 4); };
        edge[3] = {beyond(edge[0].x, edge[1].x, edge[2].x), beyond(edge[0].y, edge[1].y, edge[2].y)};
    }
    return Drawing{Question::of_ring, {ring}};
}

std::optional<Drawing> circle(std::size_t edges, bool contact) {
    Ring ring;
    for (std::size_t k = 0; k < edges; k++) ring.push_back(at_turn(double(k) / double(edges), RADIUS));
    return ring_of(ring, contact);
}

// Every second point is near the centre, so that the boxes of most edges overlap.
std::optional<Drawing> star(std::size_t edges, bool contact) {
    Ring ring;
    for (std::size_t k = 0; k < edges; k++) ring.push_back(at_turn(double(k) / double(edges), k % 2 == 0 ? RADIUS : RADIUS / 4));
    return ring_of(ring, contact);
}

// A band wound towards the centre: its outer strand inwards, then its inner one back.
std::optional<Drawing> spiral(std::size_t edges, bool contact) {
    std::size_t length = edges / 2, turns = std::max(1l, std::lround(std::sqrt(double(edges)) / 6)), of_turn = std::max<std::size_t>(5, length / turns);
    double thinner = RADIUS / 2 / double(length), band = thinner * double(of_turn) / 2;
    auto at = [&](std::size_t k, double inwards) { return at_turn(double(k) / double(of_turn), RADIUS - thinner * double(k) - inwards); };
    Ring ring;
    for (std::size_t k = 0; k < length; k++) ring.push_back(at(k, 0));
    for (std::size_t k = length; k-- > 0;) ring.push_back(at(k, band));
    return ring_of(ring, contact);
}

std::optional<Drawing> comb(std::size_t edges, bool contact) {
    std::size_t teeth = (edges - 2) / 4;
    std::int32_t height = 1 << 29, width = height / std::int32_t(2 * teeth);
    Ring ring;
    for (std::int32_t k = 0; k < std::int32_t(2 * teeth); k++) {
        ring.push_back({k * width, k % 2 == 0 ? 0 : height});
        ring.push_back({k * width, k % 2 == 0 ? height : 0});
    }
    ring.push_back({std::int32_t(2 * teeth - 1) * width, -height});
    ring.push_back({0, -height});
    return ring_of(ring, contact);
}

std::optional<Drawing> stairs(std::size_t edges, bool contact) {
    std::int32_t steps = std::int32_t(edges - 2) / 2, size = (1 << 29) / steps;
    Ring ring{{0, 0}};
    for (std::int32_t k = 0; k < steps; k++) {
        ring.push_back({k * size, (k + 1) * size});
        ring.push_back({(k + 1) * size, (k + 1) * size});
    }
    ring.push_back({steps * size, 0});
    return ring_of(ring, contact);
}

// Draws the edge from a to b, without b, as four edges with a bump of so many degrees, and each of them in the same way, as often as bumps are left. Where
// bumps of at most 50 degrees lie, on either side, no two parts meet; those of 60 degrees on one side are Koch's.
class Bumps {
  public:
    Bumps(double degrees, bool on_either_side) : height(std::tan(degrees * PI / 180) / 6), on_either_side(on_either_side) {}

    Ring triangle(std::size_t bumps) {
        ring.clear();
        for (int side = 0; side < 3; side++) draw(corner(side), corner(side + 1), share(bumps, 3, side));
        return ring;
    }

  private:
    struct Place {
        double x, y;
    };

    // Clockwise from the lowest, so that the left side is outside.
    static Place corner(int k) { return {-RADIUS * std::sin(2 * PI * k / 3), -RADIUS * std::cos(2 * PI * k / 3)}; }

    static std::size_t share(std::size_t of, std::size_t parts, std::size_t k) { return of / parts + (k < of % parts); }

    void draw(Place a, Place b, std::size_t bumps) {
        if (bumps == 0) {
            ring.push_back(rounded(a.x, a.y));
            return;
        }
        double side = on_either_side && numbers() % 2 == 0 ? -height : height, x = b.x - a.x, y = b.y - a.y;
        Place c{a.x + x / 3, a.y + y / 3}, d{a.x + x / 2 - side * y, a.y + y / 2 + side * x}, e{a.x + x * 2 / 3, a.y + y * 2 / 3};
        draw(a, c, share(bumps - 1, 4, 0));
        draw(c, d, share(bumps - 1, 4, 1));
        draw(d, e, share(bumps - 1, 4, 2));
        draw(e, b, share(bumps - 1, 4, 3));
    }

    double height;
    bool on_either_side;
    std::mt19937 numbers{1};
    Ring ring;
};

std::optional<Drawing> coast(std::size_t edges, bool contact) { return ring_of(Bumps(50, true).triangle((edges - 3) / 3), contact); }

// Whole steps of the curve, 3 times a power of 4 edges: those that are nearest to so many.
std::optional<Drawing> koch(std::size_t edges, bool contact) {
    double steps = std::round(std::log2(double(edges) / 3) / 2);
    return ring_of(Bumps(60, false).triangle(std::size_t(std::pow(4, steps)) - 1), contact);
}

std::optional<Drawing> line(std::size_t edges, bool contact) {
    if (!contact) return {};
    Ring ring;
    for (std::size_t k = 0; k < edges; k++) ring.push_back({std::int32_t(2 * k), std::int32_t(k)});
    return Drawing{Question::of_ring, {ring}};
}

std::optional<Drawing> equal(std::size_t edges, bool contact) {
    if (!contact) return {};
    return Drawing{Question::of_ring, {Ring(edges, {1, 2})}};
}

Ring square(std::int32_t x, std::int32_t y, std::int32_t size) { return {{x, y}, {x + size, y}, {x + size, y + size}, {x, y + size}}; }

// Squares of 8 units, 8 apart. For a contact a corner of one in the middle lies in the next one.
std::vector<Ring> squares(std::size_t columns, std::size_t count, bool contact) {
    std::vector<Ring> rings;
    for (std::size_t k = 0; k < count; k++) rings.push_back(square(std::int32_t(16 * (k % columns)), std::int32_t(16 * (k / columns)), 8));
    if (contact) {
        std::size_t k = count / 2;
        if (k % columns == columns - 1 || k == count - 1) k--;
        rings[k][1].x += 12;
        rings[k][1].y += 4;
    }
    return rings;
}

std::optional<Drawing> squares_in_order(std::size_t edges, bool contact) { return Drawing{Question::of_rings, squares(edges / 4, edges / 4, contact)}; }

std::optional<Drawing> squares_shuffled(std::size_t edges, bool contact) {
    std::vector<Ring> rings = squares(edges / 4, edges / 4, contact);
    std::mt19937 numbers(1);
    for (std::size_t k = rings.size(); k > 1; k--) std::swap(rings[k - 1], rings[numbers() % k]);
    return Drawing{Question::of_rings, rings};
}

std::optional<Drawing> grid(std::size_t edges, bool contact) {
    return Drawing{Question::of_rings, squares(std::size_t(std::ceil(std::sqrt(double(edges / 4)))), edges / 4, contact)};
}

// One square in the other, from the outermost on; each second one is a hole of the one before. For a contact a corner of one in the middle lies outside the
// one around it.
std::optional<Drawing> nested(std::size_t edges, bool contact) {
    std::size_t count = edges / 4;
    std::vector<Ring> rings;
    for (std::int32_t k = std::int32_t(count); k > 0; k--) rings.push_back(square(-8 * k, -8 * k, 16 * k));
    if (contact) {
        rings[count / 2][2].x += 12;
        rings[count / 2][2].y += 12;
    }
    return Drawing{Question::of_rings, rings, 2};
}

// Parcels of four corners that share them, as in examples/parcels.py, each by itself. For a contact one in the middle has two corners in the wrong order.
std::optional<Drawing> parcels(std::size_t edges, bool contact) {
    std::size_t side = std::size_t(std::lround(std::sqrt(double(edges) / 4)));
    std::mt19937 numbers(1);
    auto shaken = [&](std::size_t place) { return std::int32_t(4000 * place) + 2 * (std::int32_t(numbers() % 1001) - 500); };
    std::vector<Point> corners;
    for (std::size_t x = 0; x <= side; x++)
        for (std::size_t y = 0; y <= side; y++) corners.push_back({shaken(x), shaken(y)});
    std::vector<Ring> rings;
    for (std::size_t x = 0; x < side; x++)
        for (std::size_t y = 0; y < side; y++) {
            const Point *here = &corners[x * (side + 1) + y], *right = here + side + 1;
            rings.push_back({here[0], right[0], right[1], here[1]});
        }
    if (contact) std::swap(rings[rings.size() / 2][1], rings[rings.size() / 2][2]);
    return Drawing{Question::of_each, rings};
}

std::vector<Ring> read_rings(const std::string &name) {
    std::ifstream file(name);
    if (!file) throw std::runtime_error("no file " + name);
    std::vector<Ring> rings;
    for (std::string line; std::getline(file, line);) {
        std::istringstream words(line);
        Ring ring;
        for (Point point; words >> point.x >> point.y;) ring.push_back(point);
        rings.push_back(ring);
    }
    return rings;
}

} // namespace

std::vector<Family> all_families(const std::string &shorelines) {
    constexpr std::size_t MANY = 100'000, MOST = 1'000'000;
    std::vector<Family> families;
    if (!shorelines.empty()) {
        auto rings = read_rings(shorelines);
        // The ring whose number of points has the least ratio to that of the edges.
        auto shoreline = [rings](std::size_t edges, bool contact) {
            auto off = [edges](const Ring &ring) { return std::abs(std::log(double(ring.size()) / double(edges))); };
            return ring_of(*std::min_element(rings.begin(), rings.end(), [off](const Ring &a, const Ring &b) { return off(a) < off(b); }), contact);
        };
        families.push_back({"shoreline", MOST, shoreline});
    }
    for (const Family &family : std::vector<Family>{{"coast", MOST, coast},
                                                    {"koch", MOST, koch},
                                                    {"circle", MANY, circle},
                                                    {"comb", MANY, comb},
                                                    {"stairs", MANY, stairs},
                                                    {"spiral", MANY, spiral},
                                                    {"star", MANY, star},
                                                    {"line", MANY, line},
                                                    {"equal", MANY, equal},
                                                    {"squares", MANY, squares_in_order},
                                                    {"shuffled", MANY, squares_shuffled},
                                                    {"grid", MANY, grid},
                                                    {"nested", MANY, nested},
                                                    {"parcels", MANY, parcels}})
        families.push_back(family);
    return families;
}
