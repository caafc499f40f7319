/* Tests of i_shape.hpp at each width, over points of several types: worked contours by each call, each code, small and large. The points of
 * Clipper and Boost are taken where their headers are, and are counted as skipped else. KLayout's has a stand-in. */
#include "i_shape.hpp"

#include <array>
#include <cstdio>
#include <cstdlib>
#include <functional>
#include <memory_resource>
#include <string>

#if __has_include(<polyclipping/clipper.hpp>)
#define HAS_CLIPPER
#include <polyclipping/clipper.hpp>
#endif
#if __has_include(<boost/polygon/point_data.hpp>) && __has_include(<boost/geometry/geometries/point_xy.hpp>)
#define HAS_BOOST
#include <boost/geometry/geometries/point_xy.hpp>
#include <boost/polygon/point_data.hpp>
#endif

#include "rows.h"

/* The archive takes these in place of its own. */
struct tried {
    std::uintptr_t ok;
    void *at;
};

static bool has_no_memory;
static char nothing;

extern "C" {
tried rattle_alloc(std::size_t size, std::size_t align);
tried rattle_realloc(void *at, std::size_t kept, std::size_t size, std::size_t align);
void rattle_dealloc(void *at);

tried rattle_alloc(std::size_t size, std::size_t align) {
    void *at = has_no_memory ? nullptr : std::malloc(size != 0 ? size : align);
    return {at != nullptr, at != nullptr ? at : &nothing};
}

tried rattle_realloc(void *before, std::size_t, std::size_t size, std::size_t align) {
    void *at = has_no_memory ? nullptr : std::realloc(before, size != 0 ? size : align);
    return {at != nullptr, at != nullptr ? at : &nothing};
}

void rattle_dealloc(void *at) {
    std::free(at);
}
}

template <class Coordinate>
struct Lower {
    Coordinate x, y;
};

template <class Coordinate>
struct Upper {
    Coordinate X, Y;
};

/* A point without a default constructor: it can be read, and written over. */
template <class Coordinate>
struct Given {
    Given(Coordinate across, Coordinate up) : x(across), y(up) {}
    Coordinate x, y;
};

/* A point as a library with private members has it. */
template <class Coordinate>
class Private {
public:
    Private() = default;
    Private(Coordinate x, Coordinate y) : across_(x), up_(y) {}
    Coordinate x() const { return across_; }
    Coordinate y() const { return up_; }

private:
    Coordinate across_, up_;
};

/* A stand-in for KLayout's db::point, whose headers Debian doesn't have: a class over the type of its coordinates, which are its only members and private, with
 * accessors and setters of their names, converted from a point of another type and compared. */
namespace stand_in {

template <class C>
class point {
public:
    typedef C coord_type;

    point() : m_x(0), m_y(0) {}
    point(C x, C y) : m_x(x), m_y(y) {}
    template <class D>
    explicit point(const point<D> &other) : m_x(static_cast<C>(other.x())), m_y(static_cast<C>(other.y())) {}

    C x() const { return m_x; }
    C y() const { return m_y; }
    void set_x(C x) { m_x = x; }
    void set_y(C y) { m_y = y; }
    bool operator==(const point &other) const { return m_x == other.m_x && m_y == other.m_y; }
    bool operator<(const point &other) const { return m_y != other.m_y ? m_y < other.m_y : m_x < other.m_x; }

private:
    C m_x, m_y;
};

} // namespace stand_in

namespace i_shape {

template <class C>
struct PointTraits<stand_in::point<C>> {
    using Coordinate = C;
    static constexpr std::size_t x_offset = 0;
    static constexpr std::size_t y_offset = sizeof(C);
};

template <class Coordinate_>
struct PointTraits<Private<Coordinate_>> {
    using Coordinate = Coordinate_;
    static constexpr std::size_t x_offset = 0;
    static constexpr std::size_t y_offset = sizeof(Coordinate);
};

#ifdef HAS_BOOST
template <class Coordinate_>
struct PointTraits<boost::polygon::point_data<Coordinate_>> {
    using Coordinate = Coordinate_;
    static constexpr std::size_t x_offset = 0;
    static constexpr std::size_t y_offset = sizeof(Coordinate);
};

template <class Coordinate_>
struct PointTraits<boost::geometry::model::d2::point_xy<Coordinate_>> {
    using Coordinate = Coordinate_;
    static constexpr std::size_t x_offset = 0;
    static constexpr std::size_t y_offset = sizeof(Coordinate);
};
#endif

} // namespace i_shape

namespace {

int passed, failed;

class Checks {
protected:
    explicit Checks(const char *kind) : kind_(kind) {}

    void check(bool holds, const char *call, const char *what) const {
        (holds ? passed : failed)++;
        if (!holds) std::printf("failed: C++, %s, %s: %s\n", kind_, call, what);
    }

    void throws(i_shape::Code code, const char *call, const char *what, const std::function<void()> &called) const {
        try {
            called();
            check(false, call, what);
        } catch (const i_shape::Error &error) {
            const std::string said = error.what();
            check(error.code() == code && said.rfind("i_shape: ", 0) == 0 && said.find(words_of(code)) != std::string::npos, call, what);
        }
    }

private:
    /* What the text of a code has, and those of the others have not. */
    static const char *words_of(i_shape::Code code) {
        switch (code) {
        case i_shape::Code::unsafe: return "a point isn't in the safe range";
        case i_shape::Code::bad_offsets: return "the offsets don't divide the points";
        case i_shape::Code::no_room: return "the array of the answer is too short";
        case i_shape::Code::no_memory: break;
        }
        return "out of memory";
    }

    const char *kind_;
};

/* The tests over one type of point. */
template <class Point>
class Tests : Checks {
public:
    explicit Tests(const char *kind) : Checks(kind) {}

    void run_all() const {
        run_some();
        test_kinds_of_arrays();
        test_shapes();
        test_forms();
        test_features();
        test_compact();
        test_chunks();
        test_area();
        test_codes();
        test_codes_of_cleaners();
        test_places();
        test_allocators();
        test_large();
    }

    /* Those that read, write and copy a point in each way. */
    void run_some() const {
        test_rows();
        test_contours();
        test_measures();
        test_contacts();
        test_kinds();
        test_validity();
        test_touching_validity();
        test_holders();
        test_tests();
        test_windings();
    }

private:
    using Coordinate = typename i_shape::PointTraits<Point>::Coordinate;
    using Contour = std::vector<Point>;
    static constexpr auto least_unsafe = static_cast<Coordinate>(Coordinate{1} << (8 * sizeof(Coordinate) - 2));

    static Point point(long long x, long long y) {
        return Point{static_cast<Coordinate>(x), static_cast<Coordinate>(y)};
    }

    static Contour contour(const int (*points)[2], std::size_t count) {
        Contour made;
        for (std::size_t k = 0; k < count; k++) made.push_back(point(points[k][0], points[k][1]));
        return made;
    }

    /* The coordinates at the places that the traits tell. */
    static std::array<Coordinate, 2> coordinates(const Point &of) {
        std::array<Coordinate, 2> both;
        const char *bytes = reinterpret_cast<const char *>(&of);
        std::memcpy(&both[0], bytes + i_shape::PointTraits<Point>::x_offset, sizeof both[0]);
        std::memcpy(&both[1], bytes + i_shape::PointTraits<Point>::y_offset, sizeof both[1]);
        return both;
    }

    static bool are_equal(const Contour &one, const Contour &other) {
        if (one.size() != other.size()) return false;
        for (std::size_t k = 0; k < one.size(); k++)
            if (coordinates(one[k]) != coordinates(other[k])) return false;
        return true;
    }

    static Contour square() { return {point(0, 0), point(4, 0), point(4, 4), point(0, 4)}; }

    /* A square whose lower edge has count points too many. */
    static Contour straight(int count) {
        Contour made;
        for (int k = 0; k <= count; k++) made.push_back(point(k, 0));
        made.insert(made.end(), {point(count + 1, 0), point(count + 1, 4), point(0, 4)});
        return made;
    }

    void test_rows() const {
        for (const row &row : rows) {
            const Contour given = contour(row.points, row.count);
            const Contour answers[CLEANERS] = {i_shape::simplify(given), i_shape::despike(given), i_shape::canonical(given), i_shape::canonical_unoriented(given)};
            Contour into[CLEANERS] = {given, given, given, given};
            const std::size_t counts[CLEANERS] = {i_shape::simplify_into(given, into[0]), i_shape::despike_into(given, into[1]),
                                                  i_shape::canonical_into(given, into[2]), i_shape::canonical_unoriented_into(given, into[3])};
            for (int k = 0; k < CLEANERS; k++) {
                const Contour left = contour(row.left[k].points, row.left[k].count);
                check(are_equal(answers[k], left), cleaner_names[k], row.name);
                into[k].resize(counts[k]);
                check(are_equal(into[k], left), cleaner_names[k], row.name);
            }
            check(i_shape::is_simple(given) == (row.is_simple != 0), "is_simple", row.name);
            check(i_shape::has_no_spikes(given) == (row.has_no_spikes != 0), "has_no_spikes", row.name);
            check(i_shape::is_convex(given) == (row.is_convex != 0), "is_convex", row.name);
            check(i_shape::is_simple_polygon(given) == (row.is_simple_polygon != 0), "is_simple_polygon", row.name);
            check(i_shape::is_safe(given), "is_safe", row.name);
        }
    }

    void test_kinds_of_arrays() const {
        const Point plain[] = {point(0, 0), point(2, 0), point(4, 0), point(0, 4)};
        const std::array<Point, 4> array = {plain[0], plain[1], plain[2], plain[3]};
        const Contour left = {plain[0], plain[2], plain[3]};
        check(are_equal(i_shape::simplify(plain), left), "simplify", "an array of C");
        check(are_equal(i_shape::simplify(array), left), "simplify", "a std::array");
        check(are_equal(i_shape::simplify(i_shape::Span<const Point>(plain, 4)), left), "simplify", "a pointer and a count");
        check(i_shape::simplify(i_shape::Span<const Point>(nullptr, 0)).empty(), "simplify", "no pointer, of no point");
        check(i_shape::simplify(Contour()).empty(), "simplify", "no point");
        check(i_shape::simplify_into(Contour(), i_shape::Span<Point>(nullptr, 0)) == 0, "simplify_into", "no point");
        check(i_shape::detail::read(i_shape::Span<const Point>(nullptr, 0)) != nullptr, "read", "an address where there is no pointer");
        struct Longer : Point {};
        check(std::is_constructible_v<i_shape::Span<const Point>, Contour &>, "Span", "items that are read only");
        check(!std::is_constructible_v<i_shape::Span<Point>, const Contour &>, "Span", "items that aren't to be written");
        check(!std::is_constructible_v<i_shape::Span<const Point>, std::vector<Longer> &>, "Span", "items of a class below");
        const std::vector<Given<Coordinate>> given = {{0, 0}, {2, 0}, {4, 0}, {0, 4}};
        std::vector<Given<Coordinate>> into = given;
        check(i_shape::simplify_into(given, into) == 3 && into[1].x == 4, "simplify_into", "points without a default constructor");
    }

    void test_contours() const {
        std::vector<Contour> given, left[CLEANERS];
        for (const row &row : rows) {
            given.push_back(contour(row.points, row.count));
            for (int k = 0; k < CLEANERS; k++) left[k].push_back(contour(row.left[k].points, row.left[k].count));
        }
        const i_shape::Contours<Point> all = i_shape::flat(given);
        const i_shape::Contours<Point> answers[CLEANERS] = {i_shape::simplify_contours(all.points, all.offsets),
                                                            i_shape::despike_contours(all.points, all.offsets),
                                                            i_shape::canonical_contours(all.points, all.offsets),
                                                            i_shape::canonical_unoriented_contours(all.points, all.offsets)};
        for (int k = 0; k < CLEANERS; k++) {
            const std::vector<Contour> contours = i_shape::nested(answers[k]);
            check(contours.size() == left[k].size() && answers[k].points.size() == answers[k].offsets.back(), cleaner_names[k], "many contours");
            for (std::size_t r = 0; r < left[k].size() && r < contours.size(); r++)
                check(are_equal(contours[r], left[k][r]), cleaner_names[k], "one of many contours");
        }
        const i_shape::Contours<Point> none = i_shape::flat(std::vector<Contour>());
        check(i_shape::nested(i_shape::simplify_contours(none.points, none.offsets)).empty(), "simplify_contours", "no contour");
    }

    /* Tests and areas of many contours. */
    void test_measures() const {
        std::vector<Contour> given;
        std::vector<std::uint8_t> wanted[TESTS];
        for (const row &row : rows) {
            given.push_back(contour(row.points, row.count));
            for (int k = 0; k < TESTS; k++) wanted[k].push_back(static_cast<std::uint8_t>(told(&row, k)));
        }
        const i_shape::Contours<Point> all = i_shape::flat(given), none = i_shape::flat(std::vector<Contour>());
        const std::vector<std::uint8_t> answers[TESTS] = {i_shape::is_simple_contours(all.points, all.offsets),
                                                          i_shape::has_no_spikes_contours(all.points, all.offsets),
                                                          i_shape::is_convex_contours(all.points, all.offsets),
                                                          i_shape::are_simple_polygons(all.points, all.offsets),
                                                          i_shape::is_safe_contours(all.points, all.offsets)};
        for (int k = 0; k < TESTS; k++) check(answers[k] == wanted[k], test_names[k], "many contours");
        const auto areas = i_shape::area_two_contours(all.points, all.offsets);
        check(areas.size() == given.size(), "area_two", "how many contours");
        for (std::size_t r = 0; r < areas.size(); r++) check(is_area(areas[r], rows[r].area_two), "area_two", rows[r].name);
        check(i_shape::is_simple_contours(none.points, none.offsets).empty(), "is_simple_contours", "no contour");
        check(i_shape::area_two_contours(none.points, none.offsets).empty(), "area_two_contours", "no contour");
        const Contour unsafe = {point(least_unsafe, 0), point(0, 1), point(0, 0)};
        const std::array<std::size_t, 3> offsets = {0, 1, 3};
        check(i_shape::is_safe_contours(unsafe, offsets) == std::vector<std::uint8_t>{0, 1}, "is_safe_contours", "a point that isn't safe");
    }

    /* A square with three holes, of which one collapses; a polygon that collapses, with a hole; an empty one; and a triangle. */
    void test_shapes() const {
        const Contour outer = {point(10, 0), point(10, 10), point(0, 10), point(0, 0), point(5, 0)};
        const Contour inner = {point(8, 6), point(6, 6), point(6, 8), point(7, 7)}, other = {point(2, 4), point(4, 2), point(2, 2)};
        const Contour line = {point(1, 1), point(2, 2), point(3, 3)}, triangle = {point(0, -4), point(4, 0), point(-4, 0)};
        const i_shape::Shapes<Point> all = i_shape::flat(std::vector<std::vector<Contour>>{{outer, inner, line, other}, {line, other}, {}, {triangle}});
        const i_shape::Shapes<Point> answers[CLEANERS] = {i_shape::simplify_shapes(all.points, all.contours, all.shapes),
                                                                  i_shape::remove_spikes(all.points, all.contours, all.shapes),
                                                                  i_shape::canonical_shapes(all.points, all.contours, all.shapes),
                                                                  i_shape::canonical_unoriented_shapes(all.points, all.contours, all.shapes)};
        for (int k = 0; k < CLEANERS; k++) {
            const polygons &left = polygons_left[k];
            check(are_equal(answers[k].points, contour(left.points, left.contours[4])), cleaner_names[k], "points of polygons");
            check(answers[k].contours == std::vector<std::size_t>(left.contours, left.contours + 5), cleaner_names[k], "contours of polygons");
            check(answers[k].shapes == std::vector<std::size_t>(left.shapes, left.shapes + 4), cleaner_names[k], "polygons");
        }
        const auto shapes = i_shape::nested(answers[0]);
        check(shapes.size() == 3 && shapes[0].size() == 3 && shapes[1].empty() && shapes[2].size() == 1 && are_equal(shapes[2][0], triangle),
              "nested", "polygons");
        const auto none = i_shape::flat(std::vector<std::vector<Contour>>());
        check(i_shape::nested(i_shape::simplify_shapes(none.points, none.contours, none.shapes)).empty(), "simplify_shapes", "no polygon");
    }

    /* A square with three holes, of which one collapses, and a triangle. */
    void test_forms() const {
        const Contour outer = {point(10, 0), point(10, 10), point(0, 10), point(0, 0), point(5, 0)};
        const Contour inner = {point(8, 6), point(6, 6), point(6, 8), point(7, 7)}, other = {point(2, 4), point(4, 2), point(2, 2)};
        const Contour line = {point(1, 1), point(2, 2), point(3, 3)}, triangle = {point(0, -4), point(4, 0), point(-4, 0)};
        const i_shape::Shapes<Point> all = i_shape::flat(std::vector<std::vector<Contour>>{{outer, inner, line, other}, {triangle}});
        const std::vector<Contour> forms = i_shape::nested(i_shape::canonical_polygons(all.points, all.contours, all.shapes));
        const std::vector<Contour> unoriented = i_shape::nested(i_shape::canonical_unoriented_polygons(all.points, all.contours, all.shapes));
        check(forms.size() == 5 && unoriented.size() == 5, "canonical_polygons", "how many contours");
        check(are_equal(forms[0], {point(0, 0), point(10, 0), point(10, 10), point(0, 10)}), "canonical_polygons", "an outer contour");
        check(are_equal(unoriented[0], {point(0, 0), point(0, 10), point(10, 10), point(10, 0)}), "canonical_unoriented_polygons", "an outer contour");
        check(forms[1].empty() && unoriented[1].empty(), "canonical_polygons", "a hole that collapses");
        check(are_equal(forms[2], {point(2, 2), point(2, 4), point(4, 2)}) && are_equal(unoriented[2], forms[2]), "canonical_polygons", "the lesser hole");
        check(are_equal(forms[3], {point(6, 6), point(6, 8), point(8, 6)}) && are_equal(unoriented[3], forms[3]), "canonical_polygons", "the greater hole");
        check(are_equal(forms[4], {point(-4, 0), point(0, -4), point(4, 0)}) && are_equal(unoriented[4], forms[4]), "canonical_polygons", "another polygon");
        names(i_shape::Array::shapes, 1, [&] { i_shape::canonical_polygons(all.points, all.contours, std::vector<std::uint16_t>{0, 6}); });
    }

    /* Four polygons, of which one collapses, in two features: the two of the first change places. */
    void test_features() const {
        const Contour square = {point(10, 0), point(10, 10), point(0, 10), point(0, 0)}, line = {point(1, 1), point(2, 2), point(3, 3)};
        const Contour triangle = {point(0, -4), point(4, 0), point(-4, 0)};
        const i_shape::Shapes<Point> all = i_shape::flat(std::vector<std::vector<Contour>>{{square}, {triangle}, {square}, {line}});
        const std::vector<std::uint16_t> features = {0, 2, 4};
        const auto forms = i_shape::nested(i_shape::canonical_features(all.points, all.contours, all.shapes, features));
        const auto unoriented = i_shape::nested(i_shape::canonical_unoriented_features(all.points, all.contours, all.shapes, features));
        check(forms.size() == 4 && unoriented.size() == 4, "canonical_features", "how many polygons");
        check(are_equal(forms[0][0], {point(-4, 0), point(0, -4), point(4, 0)}) && are_equal(unoriented[0][0], forms[0][0]), "canonical_features", "the lesser polygon");
        check(are_equal(forms[1][0], {point(0, 0), point(10, 0), point(10, 10), point(0, 10)}), "canonical_features", "the greater polygon");
        check(are_equal(unoriented[1][0], {point(0, 0), point(0, 10), point(10, 10), point(10, 0)}), "canonical_unoriented_features", "the greater polygon");
        check(forms[2].empty() && unoriented[2].empty(), "canonical_features", "a polygon that collapses");
        check(are_equal(forms[3][0], forms[1][0]) && are_equal(unoriented[3][0], unoriented[1][0]), "canonical_features", "the other feature");
        names(i_shape::Array::features, 1, [&] { i_shape::canonical_features(all.points, all.contours, all.shapes, std::vector<std::size_t>{0, 5}); });
        names(i_shape::Array::shapes, 1, [&] { i_shape::canonical_features(all.points, all.contours, std::vector<std::size_t>{0, 5}, features); });
    }

    /* The polygons of test_shapes, whose contours are cleaned before. */
    void test_compact() const {
        const std::vector<std::size_t> contours = {0, 4, 7, 7, 10, 10, 13, 16}, none;
        const std::vector<std::uint16_t> shapes = {0, 4, 6, 6, 7};
        const i_shape::Indices left = i_shape::compact_shapes(contours, shapes);
        check(left.contours == std::vector<std::size_t>{0, 1, 3, 6}, "compact_shapes", "contours");
        check(left.shapes == std::vector<std::size_t>{0, 2, 3}, "compact_shapes", "polygons");
        check(left.offsets == std::vector<std::size_t>{0, 3, 3, 4}, "compact_shapes", "offsets");
        check(i_shape::compact_shapes(std::vector<std::size_t>{7}, std::vector<std::size_t>{0}).shapes.empty(), "compact_shapes", "no polygon");
        names(i_shape::Array::offsets, 1, [&] { i_shape::compact_shapes(std::vector<std::size_t>{1, 0}, none); });
        names(i_shape::Array::offsets, std::nullopt, [&] { i_shape::compact_shapes(none, shapes); });
        names(i_shape::Array::shapes, 1, [&] { i_shape::compact_shapes(contours, std::vector<std::size_t>{0, 8}); });
        names(i_shape::Array::shapes, std::nullopt, [&] { i_shape::compact_shapes(contours, none); });
    }

    /* Two triangles, the second with a hole, none, and another, behind a point that is of no contour. */
    void test_chunks() const {
        const Contour points = {point(least_unsafe, 0), point(0, 0), point(4, 0), point(0, 4), point(9, 0), point(19, 0), point(9, 9),
                                point(10, 1), point(12, 1), point(10, 3), point(0, 0), point(2, 0), point(0, 2)};
        const std::vector<std::uint16_t> contours = {1, 4, 7, 10, 13};
        const std::vector<std::size_t> shapes = {0, 1, 3, 3, 4};
        const auto all = i_shape::chunks(points, contours, shapes, 2);
        check(all.size() == 2 && all[0].points.data() == points.data() + 1 && all[0].points.size() == 9 && all[1].points.data() == points.data() + 10 &&
                  all[1].points.size() == 3, "chunks", "points");
        check(all[0].contours == std::vector<std::size_t>{0, 3, 6, 9} && all[0].shapes == std::vector<std::size_t>{0, 1, 3}, "chunks", "the first");
        check(all[1].contours == std::vector<std::size_t>{0, 3} && all[1].shapes == std::vector<std::size_t>{0, 0, 1}, "chunks", "an empty polygon");
        check(i_shape::simplify_shapes(all[0].points, all[0].contours, all[0].shapes).points.size() == 9, "chunks", "cleaned");
        check(i_shape::chunks(points, contours, shapes, 0).size() == 4 && i_shape::chunks(points, contours, shapes, SIZE_MAX).size() == 1, "chunks", "lengths");
        check(i_shape::chunks(points, contours, std::vector<std::size_t>{2}, 1).empty(), "chunks", "no polygon");
        names(i_shape::Array::offsets, 0, [&] { i_shape::chunks(points, std::vector<std::size_t>{14}, shapes, 1); });
        names(i_shape::Array::shapes, 1, [&] { i_shape::chunks(points, contours, std::vector<std::size_t>{0, 5}, 1); });
    }

    void test_tests() const {
        check(i_shape::contains(square(), point(1, 1)), "contains", "a point inside");
        check(!i_shape::contains(square(), point(5, 1)), "contains", "a point outside");
        check(!i_shape::contains(Contour(), point(5, 1)), "contains", "no contour");
        const Contour right = {point(0, 0), point(0, 4), point(4, 4), point(4, 0)};
        check(!i_shape::contains(right, point(1, 1), i_shape::FillRule::positive), "contains", "a rule that doesn't fill it");
        check(i_shape::contains(right, point(1, 1), i_shape::FillRule::negative), "contains", "a rule that fills it");
        check(!i_shape::is_safe(Contour{point(0, least_unsafe)}), "is_safe", "a point that isn't safe");
    }

    /* A square that turns left, and in it one that turns right. */
    void test_windings() const {
        Contour given = square();
        given.insert(given.end(), {point(1, 1), point(1, 3), point(3, 3), point(3, 1)});
        const Contour about = {point(2, 2), point(0, 2), point(4, 2)};
        const std::array<std::size_t, 3> offsets = {0, 4, 8};
        check(i_shape::winding(square(), point(2, 2)) == 1, "winding", "a square that turns left");
        check(i_shape::winding(Contour(given.begin() + 4, given.end()), point(2, 2)) == -1, "winding", "a square that turns right");
        check(i_shape::windings(given, offsets, about) == std::vector<std::ptrdiff_t>{0, 1, 0}, "windings", "two contours together");
        check(i_shape::windings(given, offsets, Contour()).empty(), "windings", "about no point");
        check(i_shape::windings(i_shape::nested(i_shape::Contours<Point>{given, {0, 4, 8}}), about) == std::vector<std::ptrdiff_t>{0, 1, 0},
              "windings", "two vectors together");
        using i_shape::FillRule;
        check(i_shape::contains_points(given, offsets, about, FillRule::positive) == std::vector<std::uint8_t>{0, 1, 0}, "contains_points", "two contours");
        check(i_shape::locate(given, offsets, about, FillRule::even_odd) == std::vector<std::int8_t>{-1, 0, 0}, "locate", "two contours");
    }

    /* Two squares that overlap, and an empty polygon before them. */
    void test_holders() const {
        const Contour other = {point(2, 2), point(9, 2), point(9, 9), point(2, 9)}, about = {point(1, 1), point(3, 3), point(6, 6), point(10, 1)};
        const auto all = i_shape::flat(std::vector<std::vector<Contour>>{{}, {square()}, {other}});
        using i_shape::FillRule, i_shape::no_shape;
        check(i_shape::locate_in_shapes(all.points, all.contours, all.shapes, about, FillRule::nonzero) == std::vector<std::size_t>{1, 1, 2, no_shape}, "locate_in_shapes", "two squares");
        check(i_shape::locate_in_shapes(all.points, std::array<std::uint32_t, 1>{7}, std::array<std::uint16_t, 1>{0}, about, FillRule::even_odd) == std::vector<std::size_t>(4, no_shape),
              "locate_in_shapes", "no polygon, by other offsets");
    }

    static bool is_area(std::int32_t area, std::int64_t wanted) { return area == wanted; }
    static bool is_area(std::int64_t area, std::int64_t wanted) { return area == wanted; }
    static bool is_area(i_shape_halves area, std::int64_t wanted) {
        return area.low == static_cast<std::uint64_t>(wanted) && area.high == (wanted < 0 ? UINT64_MAX : 0);
    }

    void test_area() const {
        const Contour left = square(), right(left.rbegin(), left.rend());
        check(!i_shape::area_two(Contour()), "area_two", "no point");
        check(is_area(i_shape::area_two(left).value(), 32), "area_two", "a square that turns left");
        check(is_area(i_shape::area_two(right).value(), -32), "area_two", "a square that turns right");
    }

    /* A bow tie, a triangle, and one that touches it; a bow tie of no pointer. */
    void test_contacts() const {
        const Contour bow_tie = {point(0, 0), point(4, 4), point(4, 0), point(0, 4)};
        const Contour triangle = {point(6, 0), point(9, 0), point(6, 9)}, other = {point(7, 0), point(7, -2), point(8, -2)};
        const auto is_contact = [](std::optional<i_shape::Contact> found, std::size_t first, std::size_t second) {
            return found && found->first == first && found->second == second;
        };
        check(is_contact(i_shape::first_contact(bow_tie), 0, 2), "first_contact", "a bow tie");
        check(!i_shape::first_contact(triangle) && !i_shape::first_contact(Contour()), "first_contact", "a triangle, and no point");
        const i_shape::Contours<Point> all = i_shape::flat(std::vector<Contour>{bow_tie, triangle, other});
        const i_shape::Span<const std::size_t> last(all.offsets.data() + 1, 3);
        check(is_contact(i_shape::first_contact_of_rings(all.points, all.offsets), 0, 2), "first_contact_of_rings", "within a contour");
        check(is_contact(i_shape::first_contact_of_rings(all.points, last), 4, 7), "first_contact_of_rings", "between two contours");
        check(!i_shape::first_contact_of_rings(all.points, std::array<std::uint32_t, 2>{4, 7}), "first_contact_of_rings", "one contour, by other offsets");
        const auto is_one = [](const std::vector<i_shape::Contact> &found, std::size_t first, std::size_t second) {
            return found.size() == 1 && found[0].first == first && found[0].second == second;
        };
        check(is_one(i_shape::contacts(bow_tie), 0, 2), "contacts", "a bow tie");
        check(i_shape::contacts(triangle).empty() && i_shape::contacts(Contour()).empty(), "contacts", "a triangle, and no point");
        const auto between = i_shape::contacts_of_rings(all.points, last);
        check(between.size() == 2 && between[1].first == 4 && between[1].second == 9, "contacts_of_rings", "between two contours");
        check(is_one(i_shape::contacts_of_rings(all.points, std::array<std::uint32_t, 2>{0, 4}), 0, 2), "contacts_of_rings", "one contour, by other offsets");
        const auto many = i_shape::contacts(Contour(9, point(0, 0)));
        check(many.size() == 27 && many[26].first == 6 && many[26].second == 8, "contacts", "more than points");
    }

    void test_kinds() const {
        using i_shape::ContactKind;
        const Contour bow_tie = {point(0, 0), point(4, 4), point(4, 0), point(0, 4)};
        Contour pairs = bow_tie;
        pairs.insert(pairs.end(), {point(0, 0), point(4, 0), point(2, 0), point(6, 0)});
        pairs.insert(pairs.end(), {point(0, 0), point(4, 0), point(2, 3), point(2, 0)});
        pairs.insert(pairs.end(), {point(0, 0), point(4, 0), point(5, 0), point(6, 0)});
        const std::vector<ContactKind> kinds = {ContactKind::crossing, ContactKind::overlap, ContactKind::touch, ContactKind::none};
        check(i_shape::kinds_of_contacts(pairs) == kinds, "kinds_of_contacts", "each kind");
        check(i_shape::kinds_of_contacts(Contour()).empty(), "kinds_of_contacts", "no pair");
        /* behind a point that isn't read, the same and a triangle whose closing edge overlaps an edge of it; an empty contour lies between them */
        const Contour rings = {point(least_unsafe, 0), point(0, 0), point(4, 4), point(4, 0), point(0, 4), point(1, 1), point(6, 0), point(2, 2)};
        const std::array<std::uint32_t, 4> offsets = {1, 5, 5, 8};
        const std::vector<i_shape::Contact> pairs_of_rings = {{1, 3}, {1, 7}, {4, 2}, {4, 5}, {7, 5}};
        const std::vector<ContactKind> kinds_of_rings = {ContactKind::crossing, ContactKind::overlap, ContactKind::none, ContactKind::none, ContactKind::touch};
        check(i_shape::kinds_of_contacts(rings, offsets, pairs_of_rings) == kinds_of_rings, "kinds_of_contacts", "edges of contours");
        check(i_shape::kinds_of_contacts(bow_tie, i_shape::contacts(bow_tie)) == std::vector{ContactKind::crossing}, "kinds_of_contacts", "what contacts returns");
        for (const std::size_t place : std::array<std::size_t, 2>{0, 8}) {
            bool is_thrown = false;
            try {
                i_shape::kinds_of_contacts(rings, offsets, std::array<i_shape::Contact, 1>{{{1, place}}});
            } catch (const std::out_of_range &) {
                is_thrown = true;
            }
            check(is_thrown, "kinds_of_contacts", "a place in no contour");
        }
    }

    /* A polygon of each kind: a bow tie with a line of two points for a hole, a hole that touches the outer contour, one outside it and one in another; and an
     * empty one, with which they aren't the first. */
    void test_validity() const {
        using i_shape::FaultKind;
        const Contour outer = {point(0, 0), point(9, 0), point(9, 9), point(0, 9)}, bow_tie = {point(0, 0), point(4, 4), point(4, 0), point(0, 4)};
        const Contour hole = {point(2, 2), point(6, 2), point(2, 6)}, inner = {point(3, 3), point(4, 3), point(3, 4)}, line = {point(1, 1), point(2, 1)};
        const Contour touching = {point(4, 9), point(2, 4), point(6, 4)}, outside = {point(10, 0), point(12, 0), point(12, 2)};
        const auto all = i_shape::flat(std::vector<std::vector<Contour>>{{outer, hole}, {}, {bow_tie, line}, {outer, touching}, {outer, hole, outside}, {outer, hole, inner}});
        const auto faults = i_shape::validity(all.points, all.contours, all.shapes);
        const auto is_fault = [&](std::size_t polygon, FaultKind kind, std::size_t first, std::size_t second) {
            return faults[polygon].kind == kind && faults[polygon].first == first && faults[polygon].second == second;
        };
        check(faults.size() == 6 && is_fault(0, FaultKind::valid, 0, 0) && is_fault(1, FaultKind::valid, 0, 0), "validity", "valid polygons");
        check(is_fault(2, FaultKind::too_few_points, 3, 0) && is_fault(3, FaultKind::contact, 15, 17), "validity", "a contour that collapses, and a contact");
        check(is_fault(4, FaultKind::hole_outside, 8, 0) && is_fault(5, FaultKind::hole_within, 11, 10), "validity", "holes outside and within");
        check(i_shape::validity(all.points, std::array<std::uint32_t, 1>{7}, std::array<std::uint16_t, 1>{0}).empty(), "validity", "no polygon, by other offsets");
    }

    /* A polygon of each kind: a hole that touches the outer contour, a bow tie, a hole that touches it from outside, one in a hole that it touches, and one that
     * parts the inside; and an empty one. */
    void test_touching_validity() const {
        using i_shape::FaultKind;
        const Contour outer = {point(0, 0), point(9, 0), point(9, 9), point(0, 9)}, bow_tie = {point(0, 0), point(4, 4), point(4, 0), point(0, 4)};
        const Contour touching = {point(4, 9), point(2, 4), point(6, 4)}, line = {point(1, 1), point(2, 1)}, outside = {point(9, 4), point(10, 3), point(10, 5)};
        const Contour hole = {point(2, 2), point(6, 2), point(2, 6)}, inner = {point(2, 2), point(4, 3), point(3, 4)};
        const Contour parting = {point(4, 0), point(6, 4), point(4, 9), point(2, 4)};
        const auto all = i_shape::flat(std::vector<std::vector<Contour>>{{outer, touching}, {}, {outer, line}, {bow_tie}, {outer, outside}, {outer, hole, inner}, {outer, parting}});
        const auto faults = i_shape::touching_validity(all.points, all.contours, all.shapes);
        const auto is_fault = [&](std::size_t polygon, FaultKind kind, std::size_t first, std::size_t second) {
            return faults[polygon].kind == kind && faults[polygon].first == first && faults[polygon].second == second;
        };
        check(faults.size() == 7 && is_fault(0, FaultKind::valid, 0, 0) && is_fault(1, FaultKind::valid, 0, 0), "touching_validity", "valid polygons");
        check(is_fault(2, FaultKind::too_few_points, 3, 0) && is_fault(3, FaultKind::contact, 13, 15), "touching_validity", "a line, and a bow tie");
        check(is_fault(4, FaultKind::hole_outside, 6, 0) && is_fault(5, FaultKind::hole_within, 9, 8), "touching_validity", "holes outside and within");
        check(is_fault(6, FaultKind::disconnected, 36, 39), "touching_validity", "a hole that parts the inside");
        check(i_shape::touching_validity(all.points, std::array<std::uint32_t, 1>{7}, std::array<std::uint16_t, 1>{0}).empty(), "touching_validity", "no polygon, by other offsets");
    }

    void test_codes() const {
        using i_shape::Code;
        Contour unsafe = square();
        unsafe[2] = point(least_unsafe, 0);
        const std::vector<std::size_t> whole = {0, 4}, one = {0, 1}, none;
        throws(Code::unsafe, "is_simple", "a point that isn't safe", [&] { i_shape::is_simple(unsafe); });
        throws(Code::unsafe, "has_no_spikes", "a point that isn't safe", [&] { i_shape::has_no_spikes(unsafe); });
        throws(Code::unsafe, "is_convex", "a point that isn't safe", [&] { i_shape::is_convex(unsafe); });
        throws(Code::unsafe, "is_simple_polygon", "a point that isn't safe", [&] { i_shape::is_simple_polygon(unsafe); });
        throws(Code::unsafe, "first_contact", "a point that isn't safe", [&] { i_shape::first_contact(unsafe); });
        throws(Code::unsafe, "first_contact_of_rings", "a point that isn't safe", [&] { i_shape::first_contact_of_rings(unsafe, whole); });
        throws(Code::bad_offsets, "first_contact_of_rings", "no offset", [&] { i_shape::first_contact_of_rings(square(), none); });
        throws(Code::unsafe, "contacts", "a point that isn't safe", [&] { i_shape::contacts(unsafe); });
        throws(Code::unsafe, "contacts_of_rings", "a point that isn't safe", [&] { i_shape::contacts_of_rings(unsafe, whole); });
        throws(Code::bad_offsets, "contacts_of_rings", "no offset", [&] { i_shape::contacts_of_rings(square(), none); });
        throws(Code::unsafe, "kinds_of_contacts", "a point that isn't safe", [&] { i_shape::kinds_of_contacts(unsafe); });
        throws(Code::bad_offsets, "kinds_of_contacts", "a point too few", [&] { i_shape::kinds_of_contacts(Contour(3, point(0, 0))); });
        const std::vector<i_shape::Contact> pair = {{0, 2}};
        throws(Code::unsafe, "kinds_of_contacts", "an end that isn't safe", [&] { i_shape::kinds_of_contacts(unsafe, pair); });
        throws(Code::bad_offsets, "kinds_of_contacts", "no offset", [&] { i_shape::kinds_of_contacts(square(), none, pair); });
        throws(Code::unsafe, "are_simple_polygons", "a point that isn't safe", [&] { i_shape::are_simple_polygons(unsafe, whole); });
        throws(Code::bad_offsets, "are_simple_polygons", "no offset", [&] { i_shape::are_simple_polygons(square(), none); });
        throws(Code::unsafe, "validity", "a point that isn't safe", [&] { i_shape::validity(unsafe, whole, one); });
        throws(Code::bad_offsets, "validity", "no offset", [&] { i_shape::validity(square(), none, one); });
        throws(Code::bad_offsets, "validity", "no offset of polygons", [&] { i_shape::validity(square(), whole, none); });
        has_no_memory = true;
        throws(Code::no_memory, "validity", "no memory", [&] { i_shape::validity(square(), whole, one); });
        has_no_memory = false;
        throws(Code::unsafe, "touching_validity", "a point that isn't safe", [&] { i_shape::touching_validity(unsafe, whole, one); });
        throws(Code::bad_offsets, "touching_validity", "no offset of polygons", [&] { i_shape::touching_validity(square(), whole, none); });
        has_no_memory = true;
        throws(Code::no_memory, "touching_validity", "no memory", [&] { i_shape::touching_validity(square(), whole, one); });
        has_no_memory = false;
        throws(Code::unsafe, "locate_in_shapes", "a point that isn't safe", [&] { i_shape::locate_in_shapes(square(), whole, one, unsafe, i_shape::FillRule::nonzero); });
        throws(Code::unsafe, "locate_in_shapes", "a vertex that isn't safe", [&] { i_shape::locate_in_shapes(unsafe, whole, one, square(), i_shape::FillRule::nonzero); });
        throws(Code::bad_offsets, "locate_in_shapes", "no offset of polygons", [&] { i_shape::locate_in_shapes(square(), whole, none, square(), i_shape::FillRule::nonzero); });
        throws(Code::unsafe, "contains", "a vertex that isn't safe", [&] { i_shape::contains(unsafe, point(1, 1)); });
        throws(Code::unsafe, "contains", "a point that isn't safe", [&] { i_shape::contains(square(), point(least_unsafe, 1)); });
        throws(Code::unsafe, "winding", "a point that isn't safe", [&] { i_shape::winding(square(), point(least_unsafe, 1)); });
        throws(Code::unsafe, "windings", "a vertex that isn't safe", [&] { i_shape::windings(unsafe, whole, square()); });
        throws(Code::bad_offsets, "locate", "no offset", [&] { i_shape::locate(square(), none, square(), i_shape::FillRule::nonzero); });
        throws(Code::bad_offsets, "windings", "no offset", [&] { i_shape::windings(square(), none, square()); });
        throws(Code::unsafe, "is_simple_contours", "a point that isn't safe", [&] { i_shape::is_simple_contours(unsafe, whole); });
        throws(Code::unsafe, "has_no_spikes_contours", "a point that isn't safe", [&] { i_shape::has_no_spikes_contours(unsafe, whole); });
        throws(Code::unsafe, "is_convex_contours", "a point that isn't safe", [&] { i_shape::is_convex_contours(unsafe, whole); });
        throws(Code::bad_offsets, "is_simple_contours", "no offset", [&] { i_shape::is_simple_contours(square(), none); });
        throws(Code::bad_offsets, "has_no_spikes_contours", "no offset", [&] { i_shape::has_no_spikes_contours(square(), none); });
        throws(Code::bad_offsets, "is_convex_contours", "no offset", [&] { i_shape::is_convex_contours(square(), none); });
        throws(Code::bad_offsets, "is_safe_contours", "no offset", [&] { i_shape::is_safe_contours(square(), none); });
        throws(Code::bad_offsets, "area_two_contours", "no offset", [&] { i_shape::area_two_contours(square(), none); });
    }

    /* Calls throw the code of each way in which they can fail. Clean one, contours and shapes are those of one cleaner. */
    template <class Clean, class Into, class CleanContours, class CleanShapes>
    void test_codes_of(const char *name, Clean clean, Into into, CleanContours clean_contours, CleanShapes clean_shapes) const {
        using i_shape::Code;
        const Contour given = {point(0, 0), point(4, 0), point(4, 8), point(4, 4), point(0, 4)};
        const std::vector<std::size_t> whole = {0, 5}, none, outside = {0, 9}, polygon = {0, 1};
        Contour unsafe = given, out(given.size(), point(7, 7));
        unsafe[2] = point(least_unsafe, 0);
        const Contour before = out;
        throws(Code::unsafe, name, "a point that isn't safe", [&] { clean(unsafe); });
        throws(Code::unsafe, name, "a point that isn't safe, into", [&] { into(unsafe, out); });
        throws(Code::unsafe, name, "a point that isn't safe, of contours", [&] { clean_contours(unsafe, whole); });
        throws(Code::unsafe, name, "a point that isn't safe, of polygons", [&] { clean_shapes(unsafe, whole, polygon); });
        throws(Code::no_room, name, "room for all points but one", [&] { into(given, i_shape::Span<Point>(out.data(), out.size() - 1)); });
        throws(Code::bad_offsets, name, "no offset", [&] { clean_contours(given, none); });
        throws(Code::bad_offsets, name, "an offset out of the points", [&] { clean_contours(given, outside); });
        throws(Code::bad_offsets, name, "no offset of polygons", [&] { clean_shapes(given, whole, none); });
        throws(Code::bad_offsets, name, "a contour out of the points", [&] { clean_shapes(given, outside, polygon); });
        has_no_memory = true;
        throws(Code::no_memory, name, "no memory", [&] { clean(given); });
        throws(Code::no_memory, name, "no memory, into", [&] { into(given, out); });
        throws(Code::no_memory, name, "no memory, of contours", [&] { clean_contours(given, whole); });
        throws(Code::no_memory, name, "no memory, of polygons", [&] { clean_shapes(given, whole, polygon); });
        has_no_memory = false;
        check(are_equal(out, before), name, "what a code leaves");
    }

    /* An error names what is at fault. */
    void test_places() const {
        using i_shape::Array;
        using Offsets = std::vector<std::uint16_t>;
        Contour unsafe = square();
        unsafe[2] = unsafe[3] = point(least_unsafe, 0);
        const Offsets whole = {0, 4}, first = {0, 2}, backwards = {0, 3, 2, 4}, outside = {0, 9}, none;
        names(Array::points, 2, [&] { i_shape::simplify(unsafe); });
        names(Array::points, 2, [&] { i_shape::winding(unsafe, point(1, 1)); });
        names(Array::points, 3, [&] { i_shape::is_simple_contours(unsafe, Offsets{3, 4}); });
        names(Array::points, 2, [&] { i_shape::simplify_shapes(unsafe, whole, Offsets{0}); });
        names(Array::about, 2, [&] { i_shape::windings(square(), whole, unsafe); });
        names(Array::about, 0, [&] { i_shape::contains(square(), unsafe[2]); });
        names(Array::about, 0, [&] { i_shape::winding(square(), unsafe[2]); });
        names(Array::offsets, 2, [&] { i_shape::area_two_contours(square(), backwards); });
        names(Array::offsets, 1, [&] { i_shape::simplify_shapes(square(), outside, first); });
        names(Array::offsets, std::nullopt, [&] { i_shape::simplify_contours(square(), none); });
        names(Array::shapes, 1, [&] { i_shape::canonical_shapes(square(), whole, first); });
        names(Array::shapes, std::nullopt, [&] { i_shape::canonical_shapes(square(), whole, none); });
        names(Array::out, std::nullopt, [&] { i_shape::despike_into(square(), i_shape::Span<Point>(unsafe.data(), 3)); });
        const std::string bits = std::to_string(8 * sizeof(Coordinate)), bound = std::to_string(8 * sizeof(Coordinate) - 2);
        const std::string range = "[2] is (" + std::to_string(least_unsafe) + ", 0), and not strictly between -2^" + bound + " and 2^" + bound + ", the safe range of " + bits + " bits";
        says(std::nullopt, "points" + range, [&] { i_shape::simplify(unsafe); });
        says(2, "contour 2: points" + range, [&] { i_shape::simplify_contours(unsafe, Offsets{0, 1, 1, 4}); });
        says(0, "contour 0: points" + range, [&] { i_shape::canonical_shapes(unsafe, Offsets{1, 4}, Offsets{0, 1}); });
        says(std::nullopt, "about" + range, [&] { i_shape::locate(square(), whole, unsafe, i_shape::FillRule::nonzero); });
        says(std::nullopt, "offsets[2] is 2, below the one before it, 3", [&] { i_shape::area_two_contours(square(), backwards); });
        says(std::nullopt, "offsets[1] is 9, above the count, 4", [&] { i_shape::simplify_shapes(square(), outside, first); });
        says(std::nullopt, "shapes[1] is 2, above the count, 1", [&] { i_shape::canonical_shapes(square(), whole, first); });
        says(std::nullopt, "there are no offsets", [&] { i_shape::simplify_contours(square(), none); });
        says(std::nullopt, "there are no shapes", [&] { i_shape::canonical_shapes(square(), whole, none); });
        says(std::nullopt, "out has room for 3 points, fewer than the 4 given", [&] { i_shape::despike_into(square(), i_shape::Span<Point>(unsafe.data(), 3)); });
        check(i_shape::simplify_contours(square(), whole).points.size() == 4, "simplify_contours", "offsets of 16 bits");
    }

    template <class Call>
    void names(i_shape::Array array, std::optional<std::size_t> place, Call call) const {
        try {
            call();
            check(false, "an error", "it is thrown");
        } catch (const i_shape::Error &error) {
            const std::string what = error.what();
            check(error.array() == array && error.place() == place, "an error", what.c_str());
            check(!place || what.find('[' + std::to_string(*place) + ']') != std::string::npos, "what", what.c_str());
        }
    }

    /* The words of an error end with these, and it names this contour. */
    template <class Call>
    void says(std::optional<std::size_t> contour, const std::string &words, Call call) const {
        try {
            call();
            check(false, "what", words.c_str());
        } catch (const i_shape::Error &error) {
            const std::string what = error.what();
            check(error.contour() == contour && what.size() > words.size() + 2 && what.substr(what.size() - words.size() - 2) == ": " + words, words.c_str(), what.c_str());
        }
    }

    /* Vectors of another allocator lie end to end as others do. */
    void test_allocators() const {
        const Contour corners = square();
        std::pmr::vector<std::pmr::vector<std::pmr::vector<Point>>> given(1);
        given[0].emplace_back(corners.begin(), corners.end());
        const auto all = i_shape::flat(given);
        check(are_equal(all.points, corners) && all.shapes == std::vector<std::size_t>{0, 1}, "flat", "polygons of another allocator");
        check(i_shape::flat(given[0]).offsets == std::vector<std::size_t>{0, 4}, "flat", "contours of another allocator");
    }

    void test_codes_of_cleaners() const {
        using Offsets = std::vector<std::size_t>;
        test_codes_of("simplify", i_shape::simplify<Contour>, i_shape::simplify_into<Contour>, i_shape::simplify_contours<Contour, Offsets>,
                      i_shape::simplify_shapes<Contour, Offsets, Offsets>);
        test_codes_of("despike", i_shape::despike<Contour>, i_shape::despike_into<Contour>, i_shape::despike_contours<Contour, Offsets>,
                      i_shape::remove_spikes<Contour, Offsets, Offsets>);
        test_codes_of("canonical", i_shape::canonical<Contour>, i_shape::canonical_into<Contour>, i_shape::canonical_contours<Contour, Offsets>,
                      i_shape::canonical_shapes<Contour, Offsets, Offsets>);
        test_codes_of("canonical_unoriented", i_shape::canonical_unoriented<Contour>, i_shape::canonical_unoriented_into<Contour>,
                      i_shape::canonical_unoriented_contours<Contour, Offsets>, i_shape::canonical_unoriented_shapes<Contour, Offsets, Offsets>);
    }

    void test_large() const {
        constexpr int count = 10000;
        const Contour given = straight(count), corners = {point(0, 0), point(count + 1, 0), point(count + 1, 4), point(0, 4)};
        check(are_equal(i_shape::simplify(given), corners), "simplify", "a large contour");
        check(are_equal(i_shape::canonical(given), corners), "canonical", "a large contour");
        check(are_equal(i_shape::despike(given), given), "despike", "a large contour");
        const auto many = i_shape::flat(std::vector<Contour>(100, given));
        check(i_shape::simplify_contours(many.points, many.offsets).points.size() == 400, "simplify_contours", "large contours");
        check(i_shape::is_convex(given) && !i_shape::is_simple(given) && i_shape::has_no_spikes(given), "tests", "a large contour");
        check(i_shape::contains(given, point(count / 2, 1)) && i_shape::winding(given, point(count / 2, 1)) == 1, "contains", "a large contour");
        check(is_area(i_shape::area_two(given).value(), 8 * (count + 1)), "area_two", "a large contour");
    }
};

} // namespace

int main() {
    int skipped = 0;
    Tests<Upper<std::int16_t>>("X and Y at 16 bits").run_all();
    Tests<Lower<std::int32_t>>("x and y at 32 bits").run_all();
    Tests<Private<std::int64_t>>("private members at 64 bits").run_all();
    Tests<Lower<long>>("x and y of type long").run_some();
    Tests<Lower<long long>>("x and y of type long long").run_some();
    Tests<i_shape_point_i16>("C's point").run_some();
    Tests<stand_in::point<std::int32_t>>("a stand-in for KLayout's point").run_some();
    Tests<stand_in::point<std::int64_t>>("a stand-in for KLayout's point at 64 bits").run_some();
#ifdef HAS_CLIPPER
    Tests<ClipperLib::IntPoint>("Clipper's point").run_some();
#else
    skipped++;
    std::puts("Clipper's point is not tested: Debian's libpolyclipping-dev has it");
#endif
#ifdef HAS_BOOST
    Tests<boost::polygon::point_data<int>>("Boost.Polygon's point").run_some();
    Tests<boost::geometry::model::d2::point_xy<std::int16_t>>("Boost.Geometry's point").run_some();
#else
    skipped += 2;
    std::puts("Boost's points are not tested: Debian's libboost-dev has them");
#endif
    if (skipped == 0) std::printf("%d passed, %d failed\n", passed, failed);
    else std::printf("%d passed, %d failed, %d skipped\n", passed, failed, skipped);
    return failed != 0;
}
