// notions
//
// Asks each library whether small polygons are valid, and counts them by each of this library's two notions and the other's, with the first polygon of each count. Plain
// loops over whole numbers find by each notion whether a polygon is valid, and say why two notions differ. Where a library returns something else, the row says
// that it isn't expected, and the program fails.
//
// The polygons are all rings of three to six points of a grid of 4 by 4, once for all starts and both directions; and all pairs of an outer ring and a hole of
// three or four points each, each ring once for these, and the outer one once for the symmetries of the grid too.
#include "contacts.hpp"

#include <algorithm>
#include <bitset>
#include <cstdio>
#include <exception>
#include <map>
#include <tuple>

namespace {

using Polygon = std::vector<Ring>;
constexpr int SIDE = 4, POINTS = SIDE * SIDE;
using Points = std::bitset<POINTS>;

bool operator==(Point a, Point b) { return a.x == b.x && a.y == b.y; }

// Above 0 if c lies to the left of the way from a to b, 0 if on their line.
int side(Point a, Point b, Point c) { return (b.x - a.x) * (c.y - a.y) - (b.y - a.y) * (c.x - a.x); }

// Of points on one line: above 0 if a and c lie to the same side of b, below 0 if on either side.
int along(Point a, Point b, Point c) { return (a.x - b.x) * (c.x - b.x) + (a.y - b.y) * (c.y - b.y); }

struct Edge {
    Point from, to;
    bool has(Point p) const { return side(from, to, p) == 0 && along(from, p, to) <= 0; }
    bool has_inside(Point p) const { return has(p) && !(p == from) && !(p == to); }
    bool parts(Edge edge) const { return side(from, to, edge.from) * side(from, to, edge.to) < 0; }
};

Edge edge(const Ring &ring, std::size_t k) { return {ring[k % ring.size()], ring[(k + 1) % ring.size()]}; }

// Whether two edges share one point that is an end of neither.
bool cross(Edge a, Edge b) { return a.parts(b) && b.parts(a); }

// The ends of two edges that lie on both: one where they touch, two where they overlap.
Points shared_ends(Edge a, Edge b) {
    Points shared;
    for (Point p : {a.from, a.to, b.from, b.to})
        if (a.has(p) && b.has(p)) shared.set(std::size_t(SIDE * p.x + p.y));
    return shared;
}

Ring without_repeated(const Ring &ring) {
    Ring rest;
    for (std::size_t k = 0; k < ring.size(); k++)
        if (auto [from, to] = edge(ring, k); !(from == to)) rest.push_back(from);
    return rest;
}

// Of a ring without repeated points: whether it has fewer than three, or two edges in contact.
bool has_contact(const Ring &ring) {
    std::size_t count = ring.size();
    for (std::size_t k = 0; k < count; k++) {
        Edge first = edge(ring, k), next = edge(ring, k + 1);
        if (first.from == next.to || (side(first.from, first.to, next.to) == 0 && along(first.from, first.to, next.to) > 0)) return true;
        for (std::size_t l = k + 2; l < count && l + 1 < count + k; l++)
            if (Edge later = edge(ring, l); cross(first, later) || shared_ends(first, later).any()) return true;
    }
    return count < 3;
}

int area_two(const Ring &ring) {
    int area = 0;
    for (std::size_t k = 0; k < ring.size(); k++) area += side(ring[0], edge(ring, k).from, edge(ring, k).to);
    return area;
}

// How a ring goes through a point.
struct Way {
    Point from, at, to;
    Way reversed() const { return {to, at, from}; }
    bool has_right(const Way &other) const { return has_right(other.from) && has_right(other.to); }
    // Whether a point lies to the right, and on neither half-line.
    bool has_right(Point p) const {
        bool of_first = side(from, at, p) < 0, of_second = side(at, to, p) < 0;
        int turn = side(from, at, to);
        if (turn == 0) return of_first && along(from, at, to) < 0;
        return turn > 0 ? of_first || of_second : of_first && of_second;
    }
};

// How a ring in contact with itself only touches itself at points: all from outside, so that its inside stays in one piece, or some from inside.
struct Touches {
    bool are_all = true, from_inside = false, from_inside_at_top = false;

    explicit Touches(Ring ring) {
        if (area_two(ring) < 0) std::reverse(ring.begin(), ring.end());
        int top = std::max_element(ring.begin(), ring.end(), [](Point a, Point b) { return a.y < b.y; })->y;
        for (std::size_t k = 0; k < ring.size(); k++) {
            for (std::size_t l = 0; l < k; l++) are_all &= !cross(edge(ring, k), edge(ring, l));
            look_at(ways_through(ring, ring[k]), ring[k].y == top);
        }
    }

  private:
    static std::vector<Way> ways_through(const Ring &ring, Point p) {
        std::vector<Way> ways;
        for (std::size_t k = 0; k < ring.size(); k++) {
            Edge now = edge(ring, k);
            if (now.to == p) ways.push_back({now.from, p, edge(ring, k + 1).to});
            if (now.has_inside(p)) ways.push_back({now.from, p, now.to});
        }
        return ways;
    }

    // The inside lies to the left.
    void look_at(const std::vector<Way> &ways, bool at_top) {
        for (std::size_t k = 0; k < ways.size(); k++) {
            for (std::size_t l = 0; l < k; l++) {
                bool inside = ways[k].reversed().has_right(ways[l]);
                are_all &= inside || ways[k].has_right(ways[l]);
                from_inside |= inside;
                from_inside_at_top |= inside && at_top;
            }
        }
    }
};

// Of a point on no edge: whether the ring goes around it an odd number of times.
bool is_inside(const Ring &ring, Point p) {
    bool inside = false;
    for (std::size_t k = 0; k < ring.size(); k++) {
        auto [a, b] = edge(ring, k);
        if ((a.y > p.y) != (b.y > p.y) && (side(a, b, p) > 0) == (b.y > a.y)) inside = !inside;
    }
    return inside;
}

// What the notions look at.
struct Traits {
    bool all_equal = false, repeats = false;
    // Without the repeated points: of any ring, of the only one, and of a hole and the outer ring if neither meets itself.
    bool meets_itself = false, touches_from_outside = false, touches_at_top = false, crosses = false, overlaps = false, leaves = false;
    std::size_t touches = 0;

    explicit Traits(const Polygon &polygon) {
        Polygon rings;
        for (const Ring &ring : polygon) {
            rings.push_back(without_repeated(ring));
            all_equal |= rings.back().empty();
            repeats |= rings.back().size() < ring.size();
            meets_itself |= has_contact(rings.back());
        }
        if (rings.size() == 1 && rings[0].size() > 2 && meets_itself) look_at(rings[0]);
        if (rings.size() == 2 && !meets_itself) look_at(rings[0], rings[1]);
    }

    std::string our_fault() const {
        bool contact = repeats || meets_itself || crosses || touches > 0;
        return all_equal ? "too few points" : contact ? "contact" : leaves ? "hole outside" : "";
    }
    // Whether a fault is that of a polygon whose rings may touch. Of touches at two points and a hole outside, either may be it: plain tests of vertices miss an edge
    // that leaves the outer ring between two touches.
    bool is_our_fault(const std::string &fault) const { return fault == our_fault(); }
    bool is_our_touching_fault(const std::string &fault) const {
        if (all_equal) return fault == "too few points";
        if (repeats || meets_itself || crosses || overlaps) return fault == "contact";
        if (touches > 1) return fault == "disconnected" || fault == "hole outside";
        return fault == (leaves ? "hole outside" : "");
    }
    bool is_simple() const { return !repeats && !meets_itself; }
    // By OGC's rules. A hole that touches the outer ring at two points parts the inside.
    bool is_valid() const { return !meets_itself && !crosses && touches < 2 && !leaves; }
    bool is_valid_with_touches() const { return is_valid() || touches_from_outside; }

    // Why a polygon isn't valid here but by another notion.
    std::string why(bool may_touch) const {
        std::string why;
        for (auto [is_so, what] : {std::pair{repeats, "a point is repeated"}, {touches == 1 && !may_touch, "the hole touches the outer ring at one point"},
                                   {touches_from_outside, "the ring touches itself from outside"}})
            if (is_so) why += (why.empty() ? "" : "; ") + std::string(what);
        return why;
    }

  private:
    void look_at(const Ring &ring) {
        Touches touches(ring);
        touches_from_outside = touches.are_all && !touches.from_inside;
        touches_at_top = touches.are_all && touches.from_inside_at_top;
    }

    void look_at(const Ring &outer, const Ring &hole) {
        Points on_both;
        for (std::size_t k = 0; k < outer.size(); k++) {
            for (std::size_t l = 0; l < hole.size(); l++) {
                crosses |= cross(edge(outer, k), edge(hole, l));
                Points shared = shared_ends(edge(outer, k), edge(hole, l));
                overlaps |= shared.count() > 1;
                on_both |= shared;
            }
        }
        touches = on_both.count();
        for (Point p : hole) leaves |= !on_both[std::size_t(SIDE * p.x + p.y)] && !is_inside(outer, p);
    }
};

// Points by their numbers in the grid.
using Numbers = std::vector<int>;

Ring ring_of(const Numbers &numbers) {
    Ring ring;
    for (int number : numbers) ring.push_back({number / SIDE, number % SIDE});
    return ring;
}

// Whether no start and direction makes the other ring less than this one.
bool is_least(const Numbers &ring, const Numbers &other) {
    std::size_t count = ring.size();
    for (std::size_t start = 0; start < count; start++) {
        for (std::size_t step : {std::size_t(1), count - 1}) {
            std::size_t k = 0;
            while (k < count && other[(start + k * step) % count] == ring[k]) k++;
            if (k < count && other[(start + k * step) % count] < ring[k]) return false;
        }
    }
    return true;
}

// Whether no symmetry of the grid makes the ring less.
bool is_least_of_grid(const Numbers &ring) {
    Numbers other = ring;
    for (int turn = 0; turn < 8; turn++) {
        for (int &number : other) number = turn % 2 ? number / SIDE + number % SIDE * SIDE : POINTS - SIDE - number + 2 * (number % SIDE);
        if (!is_least(ring, other)) return false;
    }
    return true;
}

template <class Use> void for_each_ring(std::size_t count, Use use) {
    Numbers ring(count);
    while (true) {
        if (is_least(ring, ring)) use(ring);
        std::size_t k = count;
        for (; k > 0 && ring[k - 1] == POINTS - 1; k--) ring[k - 1] = 0;
        if (k == 0) return;
        ring[k - 1]++;
    }
}

std::string wkt(const Polygon &polygon) {
    std::string text;
    for (const Ring &ring : polygon) {
        text += text.empty() ? "POLYGON ((" : ", (";
        for (auto [x, y] : ring) text += std::to_string(x) + " " + std::to_string(y) + ", ";
        text += std::to_string(ring[0].x) + " " + std::to_string(ring[0].y) + ")";
    }
    return text + ")";
}

struct Other {
    Notion notion;
    bool (Traits::*is_valid)() const;
    // What was observed to be valid by it, against its notion: how a ring is, and what is said of it.
    bool Traits::*is_odd = nullptr;
    std::string odd = "";
};

struct Ours {
    Notion notion;
    bool (Traits::*is_fault)(const std::string &) const;
    // Whether one touch of two rings is a reason for another answer.
    bool may_touch;
};

class Table {
  public:
    Table(std::string polygons, Ours ours, std::vector<Other> others)
        : polygons(std::move(polygons)), ours(std::move(ours)), others(std::move(others)), rows(this->others.size()) {}

    void add(const Polygon &polygon) {
        Traits traits(polygon);
        std::string fault = ours.notion.fault(polygon);
        for (std::size_t k = 0; k < others.size(); k++) {
            std::string other = others[k].notion.fault(polygon);
            Row &row = rows[k][{fault, other, why(others[k], traits, fault, other)}];
            if (row.count++ == 0) row.first = polygon;
        }
        count++;
    }

    // Whether all was expected.
    bool print() const {
        bool expected = true;
        for (std::size_t k = 0; k < others.size(); k++) {
            std::printf("\n| %s | %s | of %zu %s | the first | why they differ |\n|---|---|---|---|---|\n", ours.notion.name.c_str(),
                        others[k].notion.name.c_str(), count, polygons.c_str());
            for (const auto &[key, row] : rows[k]) {
                auto [fault, other, why] = key;
                std::printf("| %s | %s | %zu | %s | %s |\n", fault.empty() ? "valid" : fault.c_str(), other.empty() ? "valid" : other.c_str(), row.count,
                            wkt(row.first).c_str(), why.c_str());
                expected &= why != UNEXPECTED;
            }
        }
        return expected;
    }

  private:
    struct Row {
        std::size_t count = 0;
        Polygon first;
    };

    static constexpr const char *UNEXPECTED = "not expected";

    std::string why(const Other &other, const Traits &traits, const std::string &fault, const std::string &others_fault) const {
        bool is_valid = others_fault.empty();
        if (!(traits.*ours.is_fault)(fault)) return UNEXPECTED;
        if (is_valid != (traits.*other.is_valid)()) return is_valid && other.is_odd && traits.*other.is_odd ? other.odd : UNEXPECTED;
        if (is_valid == fault.empty()) return "";
        std::string why = traits.why(ours.may_touch);
        return why.empty() ? UNEXPECTED : why;
    }

    std::string polygons;
    Ours ours;
    std::vector<Other> others;
    std::vector<std::map<std::tuple<std::string, std::string, std::string>, Row>> rows;
    std::size_t count = 0;
};

} // namespace

int main() try {
    std::vector<Other> others;
#ifdef WITH_GEOS
    others.push_back({geos_notion(), &Traits::is_valid});
    others.push_back({touching_geos_notion(), &Traits::is_valid_with_touches, &Traits::touches_at_top,
                      "observed: the ring touches itself from inside, at a highest point"});
#endif
#ifdef WITH_BOOST
    others.push_back({boost_notion(), &Traits::is_valid});
#endif
    std::vector<Other> of_holes = others;
#ifdef WITH_CGAL
    others.push_back({cgal_notion(), &Traits::is_simple});
#endif
    std::vector<Table> rings, pairs;
    for (const Ours &ours : {Ours{our_notion(), &Traits::is_our_fault, false}, Ours{our_touching_notion(), &Traits::is_our_touching_fault, true}}) {
        rings.emplace_back("rings", ours, others);
        pairs.emplace_back("pairs", ours, of_holes);
    }
    auto add = [](std::vector<Table> &tables, const Polygon &polygon) {
        for (Table &table : tables) table.add(polygon);
    };
    for (std::size_t count : {3, 4, 5, 6}) for_each_ring(count, [&](const Numbers &ring) { add(rings, {ring_of(ring)}); });
    for (auto [outer_count, hole_count] : {std::pair{3, 3}, {3, 4}, {4, 3}, {4, 4}}) {
        Polygon holes;
        for_each_ring(std::size_t(hole_count), [&](const Numbers &hole) { holes.push_back(ring_of(hole)); });
        for_each_ring(std::size_t(outer_count), [&](const Numbers &outer) {
            if (!is_least_of_grid(outer)) return;
            for (const Ring &hole : holes) add(pairs, {ring_of(outer), hole});
        });
    }
    bool expected = true;
    for (const std::vector<Table> &tables : {rings, pairs})
        for (const Table &table : tables) expected &= table.print();
    return expected ? 0 : 1;
} catch (const std::exception &error) {
    std::fprintf(stderr, "notions: %s\n", error.what());
    return 2;
}
