/* The calls of i_shape.h for C++17, for points of any type that is two signed integers of one type. These are templates
 * over libi_shape.a or libi_shape.so. Each call but flat, nested and chunks makes the C call of its name, less _into, which
 * i_shape.h describes; remove_spikes makes despike_shapes, contains makes contains_by, validity makes validity_shapes,
 * and touching_validity makes touching_validity_shapes. docs/CPP.md has samples.
 *
 * These take points and offsets from whatever std::data and std::size take: a vector, an array, or a pointer and a count
 * as i_shape::Span. Offsets are of any unsigned type; those of another one than std::size_t are copied. Results of
 * several items are vectors. A code of C is thrown as i_shape::Error. If a vector gets no memory, std::bad_alloc is
 * thrown, and if kinds_of_contacts is given an index of no point, std::out_of_range. After any exception, arguments are
 * unchanged. */
#ifndef I_SHAPE_HPP
#define I_SHAPE_HPP

#if __cplusplus < 201703L && (!defined(_MSVC_LANG) || _MSVC_LANG < 201703L)
#error "i_shape.hpp needs C++17 or later: -std=c++17, or /std:c++17 of MSVC"
#else

#include "i_shape.h"

#include <algorithm>
#include <cstddef>
#include <cstdint>
#include <cstdio>
#include <cstring>
#include <exception>
#include <iterator>
#include <optional>
#include <stdexcept>
#include <type_traits>
#include <utility>
#include <vector>

namespace i_shape {

enum class Code : std::int32_t {
    unsafe = I_SHAPE_UNSAFE,           /* a point that the call reads isn't safe */
    bad_offsets = I_SHAPE_BAD_OFFSETS, /* the offsets don't divide the points, the contours or the polygons */
    no_memory = I_SHAPE_NO_MEMORY,     /* an allocation failed */
    no_room = I_SHAPE_NO_ROOM,         /* the array of the answer is too short */
    unfit [[deprecated("its name is bad_offsets, and no_room is another code")]] = bad_offsets
};

/* The array of a call that has the error: points, points that are asked about, offsets of contours, offsets
 * of polygons, the array of the answer, offsets of features; nothing where there is no memory. */
enum class Array { none, points, about, offsets, shapes, out, features };

class Error : public std::exception {
public:
    explicit Error(Code code, Array array = Array::none, std::optional<std::size_t> place = std::nullopt) noexcept
        : code_(code), array_(array), place_(place) {
        static constexpr const char *names[] = {"", ": points", ": about", ": offsets", ": shapes", ": out", ": features"};
        std::snprintf(what_, sizeof what_, place ? "i_shape: %s%s[%zu]" : "i_shape: %s%s", words_of(code), names[static_cast<int>(array)], place.value_or(0));
    }

    /* The same with the fault in words. */
    Error(Code code, Array array, std::optional<std::size_t> place, std::optional<std::size_t> contour, const char *words) noexcept
        : code_(code), array_(array), place_(place), contour_(contour) {
        std::snprintf(what_, sizeof what_, "i_shape: %s: %s", words_of(code), words);
    }

    Code code() const noexcept { return code_; }
    Array array() const noexcept { return array_; }

    /* The place in that array of the first point that isn't safe, or of the first offset that is below the one before it
     * or above the count. Nothing where the array has no item, or is too short. */
    std::optional<std::size_t> place() const noexcept { return place_; }

    /* The contour that has that point. Nothing of a call on one contour, and of a point that is asked about. */
    std::optional<std::size_t> contour() const noexcept { return contour_; }

    /* The same in words, with the value at fault and its bound. */
    const char *what() const noexcept override { return what_; }

private:
    static const char *words_of(Code code) noexcept {
        switch (code) {
        case Code::unsafe: return "a point isn't in the safe range";
        case Code::bad_offsets: return "the offsets don't divide the points, the contours or the polygons";
        case Code::no_room: return "the array of the answer is too short";
        case Code::no_memory: break;
        }
        return "out of memory";
    }

    Code code_;
    Array array_;
    std::optional<std::size_t> place_;
    std::optional<std::size_t> contour_;
    char what_[288];
};

/* A pointer and a count: items that lie somewhere else. Items of a class below Item aren't taken: they may lie further
 * apart. */
template <class Item>
class Span {
public:
    constexpr Span(Item *items, std::size_t count) noexcept : items_(items), count_(count) {}

    template <class Items, class Given = std::remove_pointer_t<decltype(std::data(std::declval<Items &>()))>,
              class = std::enable_if_t<std::is_convertible_v<Given (*)[], Item (*)[]>>>
    constexpr Span(Items &items) : items_(std::data(items)), count_(std::size(items)) {}

    constexpr Item *data() const noexcept { return items_; }
    constexpr std::size_t size() const noexcept { return count_; }

private:
    Item *items_;
    std::size_t count_;
};

namespace detail {

/* Whether a type is no point, but a vector or an array of points or of such. */
template <class Type, class = void>
inline constexpr bool is_nested = false;

template <class Type>
inline constexpr bool is_nested<Type, std::enable_if_t<std::is_class_v<std::remove_pointer_t<decltype(std::data(std::declval<const Type &>()))>>>> = true;

template <class Type>
inline constexpr bool is_none = !std::is_same_v<Type, Type>;

} // namespace detail

/* The type of a point's coordinates, and where in the point they lie. It is here for points with public members x and y,
 * or X and Y; specialise it for a point of yours whose members are private or have other names. */
template <class Point, class = void>
struct PointTraits {
    static_assert(!detail::is_nested<Point>, "i_shape: nested vectors: put them end to end by i_shape::flat() for the calls on contours and shapes");
    static_assert(detail::is_nested<Point> || detail::is_none<Point>, "i_shape: a point has public members x and y, or X and Y, of one type, or its PointTraits");
};

template <class Point>
struct PointTraits<Point, std::enable_if_t<std::is_member_object_pointer_v<decltype(&Point::x)> &&
                                           std::is_same_v<decltype(&Point::x), decltype(&Point::y)>>> {
    using Coordinate = decltype(Point::x);
    static constexpr std::size_t x_offset = offsetof(Point, x);
    static constexpr std::size_t y_offset = offsetof(Point, y);
};

template <class Point>
struct PointTraits<Point, std::enable_if_t<std::is_member_object_pointer_v<decltype(&Point::X)> &&
                                           std::is_same_v<decltype(&Point::X), decltype(&Point::Y)>>> {
    using Coordinate = decltype(Point::X);
    static constexpr std::size_t x_offset = offsetof(Point, X);
    static constexpr std::size_t y_offset = offsetof(Point, Y);
};

/* Contours end to end: contour k has the points from offsets[k] up to, but without, offsets[k + 1]. */
template <class Point>
struct Contours {
    std::vector<Point> points;
    std::vector<std::size_t> offsets;
};

/* Polygons end to end: polygon k has the contours from shapes[k] up to, but without, shapes[k + 1], its outer contour
 * first. */
template <class Point>
struct Shapes {
    std::vector<Point> points;
    std::vector<std::size_t> contours;
    std::vector<std::size_t> shapes;
};

/* Which contours and polygons are left, as indices: polygon shapes[k] of those given has of its contours
 * contours[offsets[k]] up to, but without, contours[offsets[k + 1]]. */
struct Indices {
    std::vector<std::size_t> contours;
    std::vector<std::size_t> shapes;
    std::vector<std::size_t> offsets;
};

/* Some of many polygons: their points where they lie, and offsets of these points. */
template <class Point>
struct Chunk {
    Span<const Point> points;
    std::vector<std::size_t> contours;
    std::vector<std::size_t> shapes;
};

/* Two edges that are in contact, first before second, each by the place of the point from which it leads. */
struct Contact {
    std::size_t first;
    std::size_t second;
};

/* How two edges meet. An edge includes its ends, and may be a single point. */
enum class ContactKind : std::uint8_t {
    none = I_SHAPE_NO_CONTACT,   /* they share no point */
    crossing = I_SHAPE_CROSSING, /* the ends of each lie on both sides of the line of the other, none on it */
    touch = I_SHAPE_TOUCH,       /* they share one point, and don't cross: so does an edge with the one that follows it */
    overlap = I_SHAPE_OVERLAP    /* they share more than one point */
};

/* The kinds of a polygon's fault, in the order in which it is tested for them. */
enum class FaultKind : std::size_t {
    valid = I_SHAPE_VALID,                   /* no fault */
    too_few_points = I_SHAPE_TOO_FEW_POINTS, /* first: a contour with fewer than three points, or with all points equal */
    contact = I_SHAPE_CONTACT,               /* first, second: the points from which two edges in contact lead */
    hole_outside = I_SHAPE_HOLE_OUTSIDE,     /* first: a hole with a vertex about which the outer contour doesn't wind */
    hole_within = I_SHAPE_HOLE_WITHIN,       /* first: a hole with a vertex about which another hole winds; second: that hole */
    disconnected = I_SHAPE_DISCONNECTED      /* of touching_validity alone: the edges first and second touch, and close a circle of contours */
};

/* The first fault of a polygon. The places are those in the contours and points of all polygons, 0 where the kind has
 * none. */
struct Fault {
    FaultKind kind;
    std::size_t first;
    std::size_t second;
};

static_assert(sizeof(Fault) == sizeof(i_shape_fault), "i_shape: a fault lies in memory as C's does");
static_assert(sizeof(Contact) == sizeof(i_shape_contact), "i_shape: a contact lies in memory as C's does");

namespace detail {

/* The calls of C for coordinates of this many bytes. */
template <std::size_t Bytes>
struct Calls {
    static_assert(Bytes == 4, "i_shape: a coordinate has 16, 32 or 64 bits");
};

#define I_SHAPE_CALLS(W, AREA) \
    template <> \
    struct Calls<W / 8> { \
        using Point = i_shape_point_i##W; \
        using Area = AREA; \
        static constexpr auto simplify = i_shape_simplify_i##W; \
        static constexpr auto despike = i_shape_despike_i##W; \
        static constexpr auto canonical = i_shape_canonical_i##W; \
        static constexpr auto canonical_unoriented = i_shape_canonical_unoriented_i##W; \
        static constexpr auto simplify_contours = i_shape_simplify_contours_i##W; \
        static constexpr auto despike_contours = i_shape_despike_contours_i##W; \
        static constexpr auto canonical_contours = i_shape_canonical_contours_i##W; \
        static constexpr auto canonical_unoriented_contours = i_shape_canonical_unoriented_contours_i##W; \
        static constexpr auto simplify_shapes = i_shape_simplify_shapes_i##W; \
        static constexpr auto despike_shapes = i_shape_despike_shapes_i##W; \
        static constexpr auto canonical_shapes = i_shape_canonical_shapes_i##W; \
        static constexpr auto canonical_unoriented_shapes = i_shape_canonical_unoriented_shapes_i##W; \
        static constexpr auto canonical_polygons = i_shape_canonical_polygons_i##W; \
        static constexpr auto canonical_unoriented_polygons = i_shape_canonical_unoriented_polygons_i##W; \
        static constexpr auto canonical_features = i_shape_canonical_features_i##W; \
        static constexpr auto canonical_unoriented_features = i_shape_canonical_unoriented_features_i##W; \
        static constexpr auto is_simple = i_shape_is_simple_i##W; \
        static constexpr auto has_no_spikes = i_shape_has_no_spikes_i##W; \
        static constexpr auto is_convex = i_shape_is_convex_i##W; \
        static constexpr auto contains = i_shape_contains_by_i##W; \
        static constexpr auto is_safe = i_shape_is_safe_i##W; \
        static constexpr auto first_unsafe = i_shape_first_unsafe_i##W; \
        static constexpr auto winding = i_shape_winding_i##W; \
        static constexpr auto windings = i_shape_windings_i##W; \
        static constexpr auto contains_points = i_shape_contains_points_i##W; \
        static constexpr auto locate = i_shape_locate_i##W; \
        static constexpr auto locate_in_shapes = i_shape_locate_in_shapes_i##W; \
        static constexpr auto is_simple_polygon = i_shape_is_simple_polygon_i##W; \
        static constexpr auto first_contact = i_shape_first_contact_i##W; \
        static constexpr auto first_contact_of_rings = i_shape_first_contact_of_rings_i##W; \
        static constexpr auto contacts = i_shape_contacts_i##W; \
        static constexpr auto contacts_of_rings = i_shape_contacts_of_rings_i##W; \
        static constexpr auto kinds_of_contacts = i_shape_kinds_of_contacts_i##W; \
        static constexpr auto validity_shapes = i_shape_validity_shapes_i##W; \
        static constexpr auto touching_validity_shapes = i_shape_touching_validity_shapes_i##W; \
        static constexpr auto area_two = i_shape_area_two_i##W; \
        static constexpr auto is_simple_contours = i_shape_is_simple_contours_i##W; \
        static constexpr auto has_no_spikes_contours = i_shape_has_no_spikes_contours_i##W; \
        static constexpr auto is_convex_contours = i_shape_is_convex_contours_i##W; \
        static constexpr auto are_simple_polygons = i_shape_are_simple_polygons_i##W; \
        static constexpr auto is_safe_contours = i_shape_is_safe_contours_i##W; \
        static constexpr auto area_two_contours = i_shape_area_two_contours_i##W; \
    };

I_SHAPE_CALLS(16, std::int32_t)
I_SHAPE_CALLS(32, std::int64_t)
I_SHAPE_CALLS(64, i_shape_halves)

#undef I_SHAPE_CALLS

/* The calls for a point, which lies in memory as C's point does. */
template <class Point>
struct CallsFor : Calls<sizeof(typename PointTraits<Point>::Coordinate)> {
    using Coordinate = typename PointTraits<Point>::Coordinate;
    static_assert(std::is_integral_v<Coordinate> && std::is_signed_v<Coordinate>, "i_shape: a coordinate is a signed whole number");
    static_assert(!std::is_const_v<Coordinate>, "i_shape: a coordinate isn't const");
    static_assert(std::is_standard_layout_v<Point>, "i_shape: a point has standard layout");
    static_assert(sizeof(Point) == 2 * sizeof(Coordinate), "i_shape: a point is its two coordinates and nothing else");
    static_assert(PointTraits<Point>::x_offset == 0 && PointTraits<Point>::y_offset == sizeof(Coordinate),
                  "i_shape: x lies at the front of a point, and y behind it");
    static_assert(alignof(Point) >= alignof(typename CallsFor::Point), "i_shape: a point is aligned as its coordinates are");
};

template <class Points>
using PointOf = std::remove_cv_t<std::remove_pointer_t<decltype(std::data(std::declval<const Points &>()))>>;

template <class Points>
using CallsOf = CallsFor<PointOf<Points>>;

/* The items as C's. For a null pointer, as an empty vector may have, it is an address too: a call of C takes no null. */
template <class To, class Item>
To *address(Item *items) noexcept {
    static std::remove_const_t<To> nothing{};
    return items != nullptr ? reinterpret_cast<To *>(items) : &nothing;
}

/* What a call of C is given for where an array lies. */
template <class Points>
const typename CallsOf<Points>::Point *read(const Points &points) noexcept {
    return address<const typename CallsOf<Points>::Point>(std::data(points));
}

template <class Point>
typename CallsFor<Point>::Point *write(std::vector<Point> &points) noexcept {
    return address<typename CallsFor<Point>::Point>(points.data());
}

using Offsets = Span<const std::size_t>;

/* An offset of any type. One that C's has no room for lies above each count, as the greatest of C's does. */
template <class Offset>
std::size_t as_offset(Offset offset) noexcept {
    constexpr std::size_t most = static_cast<std::size_t>(-1);
    if constexpr (sizeof(Offset) > sizeof most) {
        if (offset > most) return most;
    }
    return static_cast<std::size_t>(offset);
}

/* Offsets where they lie, or a copy of those that C would read as others. */
template <class Given>
auto as_offsets(const Given &given) {
    using Offset = std::remove_cv_t<std::remove_pointer_t<decltype(std::data(given))>>;
    static_assert(std::is_integral_v<Offset> && std::is_unsigned_v<Offset> && !std::is_same_v<Offset, bool>, "i_shape: offsets are of an unsigned type");
    if constexpr (std::is_same_v<Offset, std::size_t>) return Offsets(std::data(given), std::size(given));
    else {
        std::vector<std::size_t> all(std::size(given));
        std::transform(std::data(given), std::data(given) + std::size(given), all.begin(), as_offset<Offset>);
        return all;
    }
}

inline const std::size_t *read_offsets(Offsets offsets) noexcept {
    return address<const std::size_t>(offsets.data());
}

/* Some offsets, less the first of them. */
inline std::vector<std::size_t> offsets_from(const std::size_t *first, const std::size_t *end) {
    std::vector<std::size_t> less;
    less.reserve(static_cast<std::size_t>(end - first));
    std::transform(first, end, std::back_inserter(less), [first](std::size_t offset) { return offset - *first; });
    return less;
}

template <class Point>
typename CallsFor<Point>::Point as_c(const Point &point) noexcept {
    typename CallsFor<Point>::Point copy;
    std::memcpy(&copy, &point, sizeof copy);
    return copy;
}

/* The place of the first point from first on, and before end, that isn't safe. */
template <class Points>
std::optional<std::size_t> first_unsafe(const Points &points, std::size_t first, std::size_t end) noexcept {
    const std::size_t place = first + CallsOf<Points>::first_unsafe(detail::read(points) + first, end - first);
    return place < end ? std::optional(place) : std::nullopt;
}

/* The error of the first point from first on, and before end, that isn't safe; nothing where each is. The contour of a
 * place is what contour_of returns. */
template <class Points, class ContourOf>
std::optional<Error> unsafe_point(Array array, const Points &points, std::size_t first, std::size_t end, ContourOf contour_of) noexcept {
    const auto place = first_unsafe(points, first, end);
    if (!place) return std::nullopt;
    const auto point = as_c(std::data(points)[*place]);
    const std::optional<std::size_t> contour = contour_of(*place);
    const int bits = 8 * static_cast<int>(sizeof point.x);
    char where[32] = "", words[224];
    if (contour) std::snprintf(where, sizeof where, "contour %zu: ", *contour);
    std::snprintf(words, sizeof words, "%s%s[%zu] is (%lld, %lld), and not strictly between -2^%d and 2^%d, the safe range of %d bits", where,
                  array == Array::about ? "about" : "points", *place, static_cast<long long>(point.x), static_cast<long long>(point.y), bits - 2, bits - 2, bits);
    return Error(Code::unsafe, array, place, contour, words);
}

inline constexpr auto no_contour = [](std::size_t) noexcept -> std::optional<std::size_t> { return std::nullopt; };

/* The error of offsets that don't divide so many items; nothing where they do. */
inline std::optional<Error> bad_offsets(Array array, Offsets offsets, std::size_t count) noexcept {
    const char *name = array == Array::features ? "features" : array == Array::shapes ? "shapes" : "offsets";
    const std::size_t place = i_shape_first_bad_offset(count, read_offsets(offsets), offsets.size());
    char words[128];
    if (offsets.size() == 0) {
        std::snprintf(words, sizeof words, "there are no %s", name);
        return Error(Code::bad_offsets, array, std::nullopt, std::nullopt, words);
    }
    if (place == offsets.size()) return std::nullopt;
    const std::size_t offset = offsets.data()[place];
    const bool is_below = place > 0 && offset < offsets.data()[place - 1];
    std::snprintf(words, sizeof words, "%s[%zu] is %zu, %s %zu", name, place, offset, is_below ? "below the one before it," : "above the count,",
                  is_below ? offsets.data()[place - 1] : count);
    return Error(Code::bad_offsets, array, place, std::nullopt, words);
}

/* The error of so many points, which aren't four for each pair of edges. */
inline Error bad_pairs(std::size_t count) noexcept {
    char words[96];
    std::snprintf(words, sizeof words, "there are %zu points, not four for each pair of edges", count);
    return Error(Code::bad_offsets, Array::points, std::nullopt, std::nullopt, words);
}

/* The error of an array for the result that is too short. */
inline Error no_room(std::size_t room, std::size_t needed) noexcept {
    char words[96];
    std::snprintf(words, sizeof words, "out has room for %zu points, fewer than the %zu given", room, needed);
    return Error(Code::no_room, Array::out, std::nullopt, std::nullopt, words);
}

/* The error of a code of a call on a contour. */
template <class Points>
Error error_of(Code code, const Points &points) noexcept {
    if (code == Code::unsafe) return unsafe_point(Array::points, points, 0, std::size(points), no_contour).value_or(Error(code, Array::points));
    return Error(code, code == Code::no_room ? Array::out : Array::none);
}

/* The same of many contours. */
template <class Points>
Error error_of(Code code, const Points &points, Offsets offsets) noexcept {
    if (code == Code::bad_offsets) return bad_offsets(Array::offsets, offsets, std::size(points)).value_or(Error(code));
    if (code != Code::unsafe) return error_of(code, points);
    const std::size_t *begin = offsets.data(), *end = begin + offsets.size();
    const auto contour_of = [=](std::size_t place) noexcept { return std::optional<std::size_t>(static_cast<std::size_t>(std::upper_bound(begin, end, place) - begin) - 1); };
    return unsafe_point(Array::points, points, *begin, *(end - 1), contour_of).value_or(Error(code, Array::points));
}

/* The same of polygons. */
template <class Points>
Error error_of(Code code, const Points &points, Offsets contours, Offsets shapes) noexcept {
    const Error error = error_of(code, points, contours);
    if (code != Code::bad_offsets || error.array() == Array::offsets) return error;
    return bad_offsets(Array::shapes, shapes, contours.size() - 1).value_or(error);
}

/* The same of features. */
template <class Points>
Error error_of(Code code, const Points &points, Offsets contours, Offsets shapes, Offsets features) noexcept {
    const Error error = error_of(code, points, contours, shapes);
    if (code != Code::bad_offsets || error.array() != Array::none) return error;
    return bad_offsets(Array::features, features, shapes.size() - 1).value_or(error);
}

/* The answer of a call, or the error of its code. What the call was given is named behind it. */
template <class... Given>
std::size_t count_of(std::ptrdiff_t answer, const Given &...given) {
    if (answer < 0) throw error_of(static_cast<Code>(answer), given...);
    return static_cast<std::size_t>(answer);
}

/* Throws where a point that is asked about isn't safe. */
template <class About>
void check_asked(const About &about) {
    if (const auto error = unsafe_point(Array::about, about, 0, std::size(about), no_contour)) throw *error;
}

/* The vector of an answer, before its points are written. */
template <class Point>
std::vector<Point> room_for(std::size_t count) {
    static_assert(std::is_default_constructible_v<Point>, "i_shape: the points of a vector have a default constructor");
    return std::vector<Point>(count);
}

template <class Points, class Call>
std::size_t clean_into(Call call, const Points &points, Span<PointOf<Points>> out) {
    using Point = typename CallsOf<Points>::Point;
    const std::ptrdiff_t answer = call(detail::read(points), std::size(points), address<Point>(out.data()), out.size());
    if (answer == I_SHAPE_NO_ROOM) throw no_room(out.size(), std::size(points));
    return count_of(answer, points);
}

template <class Points, class Call>
std::vector<PointOf<Points>> clean(Call call, const Points &points) {
    auto left = room_for<PointOf<Points>>(std::size(points));
    left.resize(clean_into(call, points, left));
    return left;
}

template <class Points, class Given, class Call>
Contours<PointOf<Points>> clean_contours(Call call, const Points &points, const Given &given) {
    const auto all = as_offsets(given);
    const Offsets offsets = all;
    Contours<PointOf<Points>> left;
    left.points = room_for<PointOf<Points>>(std::size(points));
    left.offsets.resize(offsets.size());
    left.points.resize(count_of(call(detail::read(points), std::size(points), read_offsets(offsets), offsets.size(), detail::write(left.points),
                                     left.points.size(), address<std::size_t>(left.offsets.data()), left.offsets.size()), points, offsets));
    return left;
}

/* What a call leaves of polygons. At most one more array of offsets is given: that of features. */
template <class Points, class GivenContours, class GivenShapes, class Call, class... Features>
Shapes<PointOf<Points>> clean_shapes(Call call, const Points &points, const GivenContours &given_contours, const GivenShapes &given_shapes,
                                     Features... features) {
    const auto all_contours = as_offsets(given_contours);
    const auto all_shapes = as_offsets(given_shapes);
    const Offsets contours = all_contours, shapes = all_shapes;
    Shapes<PointOf<Points>> left;
    left.points = room_for<PointOf<Points>>(std::size(points));
    left.contours.resize(contours.size());
    left.shapes.resize(shapes.size());
    const std::size_t count = count_of(call(detail::read(points), std::size(points), read_offsets(contours), contours.size(), read_offsets(shapes),
                                            shapes.size(), read_offsets(features)..., features.size()..., detail::write(left.points),
                                            left.points.size(), address<std::size_t>(left.contours.data()), left.contours.size(),
                                            address<std::size_t>(left.shapes.data()), left.shapes.size()), points, contours, shapes, features...);
    left.shapes.resize(count + 1);
    left.contours.resize(left.shapes.back() + 1);
    left.points.resize(left.contours.back());
    return left;
}

/* The form of each feature, whose polygons the given offsets of features divide too. */
template <class Points, class GivenContours, class GivenShapes, class GivenFeatures, class Call>
Shapes<PointOf<Points>> form_features(Call call, const Points &points, const GivenContours &contours, const GivenShapes &shapes, const GivenFeatures &given_features) {
    const auto all_features = as_offsets(given_features);
    return clean_shapes(call, points, contours, shapes, Offsets(all_features));
}

/* How many of the points lie between the first of the offsets and the last. */
inline std::size_t count_between(Offsets offsets, std::size_t count) {
    if (offsets.size() == 0) return 0;
    const std::size_t first = offsets.data()[0], last = offsets.data()[offsets.size() - 1];
    return last < first ? 0 : std::min(last - first, count);
}

/* All contacts that a call lists. It is called again where there are more than expected. */
template <class Call, class Points, class... Given>
std::vector<Contact> listed(Call call, std::size_t expected, const Points &points, const Given &...given) {
    std::vector<Contact> contacts(expected);
    for (;;) {
        const std::size_t room = contacts.size();
        const std::size_t count = count_of(call(address<i_shape_contact>(contacts.data()), room), points, given...);
        contacts.resize(count);
        if (count <= room) return contacts;
    }
}

/* The place of the point that follows another on its contour. */
inline std::size_t next_place(Offsets offsets, std::size_t place) {
    const std::size_t *first = offsets.data(), *last = first + offsets.size() - 1;
    if (place < *first || place >= *last) throw std::out_of_range("i_shape: a contact names a point that no contour has");
    const std::size_t *end = std::upper_bound(first, last, place);
    return place + 1 < *end ? place + 1 : *(end - 1);
}

/* The ends of the two edges of each contact: four points. */
template <class Points>
auto edges_of(const Points &points, Offsets offsets, Span<const Contact> contacts) {
    std::vector<typename CallsOf<Points>::Point> edges;
    edges.reserve(4 * contacts.size());
    const auto add_edge = [&](std::size_t place) {
        const std::size_t next = next_place(offsets, place);
        edges.insert(edges.end(), {as_c(std::data(points)[place]), as_c(std::data(points)[next])});
    };
    std::for_each(contacts.data(), contacts.data() + contacts.size(), [&](const Contact &pair) {
        add_edge(pair.first);
        add_edge(pair.second);
    });
    return edges;
}

/* How the edges of each of many pairs meet, by their ends. What the call was given is named behind these. */
template <class Points, class Edges, class... Given>
std::vector<ContactKind> kinds_of(const Edges &edges, const Given &...given) {
    std::vector<ContactKind> kinds(std::size(edges) / 4);
    const std::int32_t answer = CallsOf<Points>::kinds_of_contacts(address<const typename CallsOf<Points>::Point>(std::data(edges)), std::size(edges),
                                                                   address<std::uint8_t>(kinds.data()), kinds.size());
    if (answer == I_SHAPE_BAD_OFFSETS) throw bad_pairs(std::size(edges));
    count_of(answer, given...);
    return kinds;
}

/* The form of each polygon, whose contours the given offsets of polygons divide too. */
template <class Points, class GivenContours, class GivenShapes, class Call>
Contours<PointOf<Points>> form_polygons(Call call, const Points &points, const GivenContours &given_contours, const GivenShapes &given_shapes) {
    const auto all_contours = as_offsets(given_contours);
    const auto all_shapes = as_offsets(given_shapes);
    const Offsets contours = all_contours, shapes = all_shapes;
    Contours<PointOf<Points>> forms;
    forms.points = room_for<PointOf<Points>>(std::size(points));
    forms.offsets.resize(contours.size());
    forms.points.resize(count_of(call(detail::read(points), std::size(points), read_offsets(contours), contours.size(), read_offsets(shapes),
                                      shapes.size(), detail::write(forms.points), forms.points.size(), address<std::size_t>(forms.offsets.data()),
                                      forms.offsets.size()), points, contours, shapes));
    return forms;
}

template <class Points, class Call>
bool test(Call call, const Points &points) {
    return count_of(call(detail::read(points), std::size(points)), points) != 0;
}

/* An item of each contour, by a call that returns 0. */
template <class Item, class Points, class Given, class Call>
std::vector<Item> measure_contours(Call call, const Points &points, const Given &given) {
    const auto all = as_offsets(given);
    const Offsets offsets = all;
    std::vector<Item> items(offsets.size() == 0 ? 0 : offsets.size() - 1);
    count_of(call(detail::read(points), std::size(points), read_offsets(offsets), offsets.size(), address<Item>(items.data()), items.size()), points,
             offsets);
    return items;
}

/* What a call writes of each of the points about, by a rule. */
template <class Item, class Call, class Points, class Given, class About>
std::vector<Item> tell_points(Call call, const Points &points, const Given &given, const About &about, std::int32_t rule) {
    static_assert(std::is_same_v<PointOf<Points>, PointOf<About>>, "i_shape: the points of both are of one type");
    const auto all = as_offsets(given);
    const Offsets offsets = all;
    std::vector<Item> items(std::size(about));
    const std::ptrdiff_t answer = call(detail::read(points), std::size(points), read_offsets(offsets), offsets.size(), detail::read(about),
                                       std::size(about), rule, address<Item>(items.data()), items.size());
    if (answer == I_SHAPE_UNSAFE) check_asked(about);
    count_of(answer, points, offsets);
    return items;
}

} // namespace detail

/* The type of the points of a vector, an array or a Span. */
template <class Points>
using PointOf = detail::PointOf<Points>;

/* Twice an area: std::int32_t of coordinates of 16 bits, std::int64_t of 32, and of 64 the halves of 128 bits. */
template <class Points>
using AreaOf = typename detail::CallsOf<Points>::Area;

/* One contour: what is left of it, nothing where it collapses. Those of the name .._into write it to the front of out and
 * answer how many points that is; they throw Code::no_room where out is shorter than the points. out shares no memory
 * with these. */

template <class Points>
std::vector<PointOf<Points>> simplify(const Points &points) {
    return detail::clean(detail::CallsOf<Points>::simplify, points);
}

template <class Points>
std::size_t simplify_into(const Points &points, Span<PointOf<Points>> out) {
    return detail::clean_into(detail::CallsOf<Points>::simplify, points, out);
}

template <class Points>
std::vector<PointOf<Points>> despike(const Points &points) {
    return detail::clean(detail::CallsOf<Points>::despike, points);
}

template <class Points>
std::size_t despike_into(const Points &points, Span<PointOf<Points>> out) {
    return detail::clean_into(detail::CallsOf<Points>::despike, points, out);
}

template <class Points>
std::vector<PointOf<Points>> canonical(const Points &points) {
    return detail::clean(detail::CallsOf<Points>::canonical, points);
}

template <class Points>
std::size_t canonical_into(const Points &points, Span<PointOf<Points>> out) {
    return detail::clean_into(detail::CallsOf<Points>::canonical, points, out);
}

template <class Points>
std::vector<PointOf<Points>> canonical_unoriented(const Points &points) {
    return detail::clean(detail::CallsOf<Points>::canonical_unoriented, points);
}

template <class Points>
std::size_t canonical_unoriented_into(const Points &points, Span<PointOf<Points>> out) {
    return detail::clean_into(detail::CallsOf<Points>::canonical_unoriented, points, out);
}

/* Many contours: what is left of each, empty at its place where it collapses. */

template <class Points, class Offsets>
Contours<PointOf<Points>> simplify_contours(const Points &points, const Offsets &offsets) {
    return detail::clean_contours(detail::CallsOf<Points>::simplify_contours, points, offsets);
}

template <class Points, class Offsets>
Contours<PointOf<Points>> despike_contours(const Points &points, const Offsets &offsets) {
    return detail::clean_contours(detail::CallsOf<Points>::despike_contours, points, offsets);
}

template <class Points, class Offsets>
Contours<PointOf<Points>> canonical_contours(const Points &points, const Offsets &offsets) {
    return detail::clean_contours(detail::CallsOf<Points>::canonical_contours, points, offsets);
}

template <class Points, class Offsets>
Contours<PointOf<Points>> canonical_unoriented_contours(const Points &points, const Offsets &offsets) {
    return detail::clean_contours(detail::CallsOf<Points>::canonical_unoriented_contours, points, offsets);
}

/* Polygons: what is left of them, without contours that collapse and polygons whose outer contour does. */

template <class Points, class Offsets, class ShapeOffsets>
Shapes<PointOf<Points>> simplify_shapes(const Points &points, const Offsets &contours, const ShapeOffsets &shapes) {
    return detail::clean_shapes(detail::CallsOf<Points>::simplify_shapes, points, contours, shapes);
}

/* A contour that has no spikes stays as it is, also with points that repeat, which despike removes. */
template <class Points, class Offsets, class ShapeOffsets>
Shapes<PointOf<Points>> remove_spikes(const Points &points, const Offsets &contours, const ShapeOffsets &shapes) {
    return detail::clean_shapes(detail::CallsOf<Points>::despike_shapes, points, contours, shapes);
}

template <class Points, class Offsets, class ShapeOffsets>
[[deprecated("its name is remove_spikes")]]
Shapes<PointOf<Points>> despike_shapes(const Points &points, const Offsets &contours, const ShapeOffsets &shapes) {
    return i_shape::remove_spikes(points, contours, shapes);
}

template <class Points, class Offsets, class ShapeOffsets>
Shapes<PointOf<Points>> canonical_shapes(const Points &points, const Offsets &contours, const ShapeOffsets &shapes) {
    return detail::clean_shapes(detail::CallsOf<Points>::canonical_shapes, points, contours, shapes);
}

template <class Points, class Offsets, class ShapeOffsets>
Shapes<PointOf<Points>> canonical_unoriented_shapes(const Points &points, const Offsets &contours, const ShapeOffsets &shapes) {
    return detail::clean_shapes(detail::CallsOf<Points>::canonical_unoriented_shapes, points, contours, shapes);
}

/* The form of each polygon alone, its holes sorted: shapes divides the contours that are returned too, since those that
 * collapse are empty. */

template <class Points, class Offsets, class ShapeOffsets>
Contours<PointOf<Points>> canonical_polygons(const Points &points, const Offsets &contours, const ShapeOffsets &shapes) {
    return detail::form_polygons(detail::CallsOf<Points>::canonical_polygons, points, contours, shapes);
}

template <class Points, class Offsets, class ShapeOffsets>
Contours<PointOf<Points>> canonical_unoriented_polygons(const Points &points, const Offsets &contours, const ShapeOffsets &shapes) {
    return detail::form_polygons(detail::CallsOf<Points>::canonical_unoriented_polygons, points, contours, shapes);
}

/* The form of each feature, which is a list of polygons: their forms, sorted. A polygon that collapses stays, without
 * contours, so features divides the polygons that are returned too. */

template <class Points, class Offsets, class ShapeOffsets, class FeatureOffsets>
Shapes<PointOf<Points>> canonical_features(const Points &points, const Offsets &contours, const ShapeOffsets &shapes, const FeatureOffsets &features) {
    return detail::form_features(detail::CallsOf<Points>::canonical_features, points, contours, shapes, features);
}

template <class Points, class Offsets, class ShapeOffsets, class FeatureOffsets>
Shapes<PointOf<Points>> canonical_unoriented_features(const Points &points, const Offsets &contours, const ShapeOffsets &shapes, const FeatureOffsets &features) {
    return detail::form_features(detail::CallsOf<Points>::canonical_unoriented_features, points, contours, shapes, features);
}

/* What is said of these calls without offsets. */
#define I_SHAPE_TAKES_OFFSETS(CALL) \
    template <class Points> \
    void CALL(const Points &) { \
        static_assert(detail::is_none<Points>, "i_shape: " #CALL " takes points and offsets: i_shape::flat() makes both of nested vectors"); \
    }

I_SHAPE_TAKES_OFFSETS(simplify_contours)
I_SHAPE_TAKES_OFFSETS(despike_contours)
I_SHAPE_TAKES_OFFSETS(canonical_contours)
I_SHAPE_TAKES_OFFSETS(canonical_unoriented_contours)
I_SHAPE_TAKES_OFFSETS(simplify_shapes)
I_SHAPE_TAKES_OFFSETS(remove_spikes)
I_SHAPE_TAKES_OFFSETS(canonical_shapes)
I_SHAPE_TAKES_OFFSETS(canonical_unoriented_shapes)
I_SHAPE_TAKES_OFFSETS(canonical_polygons)
I_SHAPE_TAKES_OFFSETS(canonical_unoriented_polygons)
I_SHAPE_TAKES_OFFSETS(canonical_features)
I_SHAPE_TAKES_OFFSETS(canonical_unoriented_features)

#undef I_SHAPE_TAKES_OFFSETS

/* Which polygons and contours are left after a call such as simplify_contours, which leaves contours that collapse empty:
 * a polygon is left where its outer contour has points, or where it has no contours, and a contour of it where it has
 * points. Throws Code::bad_offsets, of Array::offsets or Array::shapes. */
template <class Offsets, class ShapeOffsets>
Indices compact_shapes(const Offsets &contours, const ShapeOffsets &shapes) {
    const auto all_contours = detail::as_offsets(contours);
    const auto all_shapes = detail::as_offsets(shapes);
    if (const auto error = detail::bad_offsets(Array::offsets, all_contours, SIZE_MAX)) throw *error;
    if (const auto error = detail::bad_offsets(Array::shapes, all_shapes, all_contours.size() - 1)) throw *error;
    Indices left;
    left.contours.resize(all_contours.size() - 1);
    left.shapes.resize(all_shapes.size() - 1);
    left.offsets.resize(all_shapes.size());
    const std::ptrdiff_t answer = i_shape_compact_shapes(detail::read_offsets(all_contours), all_contours.size(), detail::read_offsets(all_shapes), all_shapes.size(),
                                                         detail::address<std::size_t>(left.contours.data()), left.contours.size(),
                                                         detail::address<std::size_t>(left.shapes.data()), left.shapes.size(), left.offsets.data(), left.offsets.size());
    if (answer < 0) throw Error(static_cast<Code>(answer));
    const std::size_t count = static_cast<std::size_t>(answer);
    left.shapes.resize(count);
    left.offsets.resize(count + 1);
    left.contours.resize(left.offsets.back());
    return left;
}

/* The polygons in chunks of so many, of at least one each, so that several threads clean them: a call on a chunk reads no
 * other points. Throws Code::bad_offsets, of Array::offsets or Array::shapes. */
template <class Points, class Offsets, class ShapeOffsets>
std::vector<Chunk<PointOf<Points>>> chunks(const Points &points, const Offsets &contours, const ShapeOffsets &shapes, std::size_t length) {
    const auto all_contours = detail::as_offsets(contours);
    const auto all_shapes = detail::as_offsets(shapes);
    const detail::Offsets of_points = all_contours, of_contours = all_shapes;
    if (const auto error = detail::bad_offsets(Array::offsets, of_points, std::size(points))) throw *error;
    if (const auto error = detail::bad_offsets(Array::shapes, of_contours, of_points.size() - 1)) throw *error;
    std::vector<Chunk<PointOf<Points>>> all;
    for (std::size_t first = 0, end; first + 1 < of_contours.size(); first = end) {
        end = first + std::min(std::max<std::size_t>(length, 1), of_contours.size() - 1 - first);
        const std::size_t first_contour = of_contours.data()[first], end_contour = of_contours.data()[end];
        const std::size_t first_point = of_points.data()[first_contour];
        all.push_back({{std::data(points) + first_point, of_points.data()[end_contour] - first_point},
                       detail::offsets_from(of_points.data() + first_contour, of_points.data() + end_contour + 1),
                       detail::offsets_from(of_contours.data() + first, of_contours.data() + end + 1)});
    }
    return all;
}

/* Tests of a contour. All but is_safe throw Code::unsafe where a point isn't safe. */

template <class Points>
bool is_simple(const Points &points) {
    return detail::test(detail::CallsOf<Points>::is_simple, points);
}

template <class Points>
bool has_no_spikes(const Points &points) {
    return detail::test(detail::CallsOf<Points>::has_no_spikes, points);
}

template <class Points>
bool is_convex(const Points &points) {
    return detail::test(detail::CallsOf<Points>::is_convex, points);
}

template <class Points>
bool is_safe(const Points &points) {
    return detail::test(detail::CallsOf<Points>::is_safe, points);
}

/* Which points contours fill, by how often they wind about them together. */
enum class FillRule : std::int32_t {
    even_odd = I_SHAPE_EVEN_ODD,
    nonzero = I_SHAPE_NONZERO,
    positive = I_SHAPE_POSITIVE,
    negative = I_SHAPE_NEGATIVE,
};

/* What locate_in_shapes returns for a point that no polygon holds: above every index. */
inline constexpr std::size_t no_shape = I_SHAPE_NO_SHAPE;

/* Whether the rule fills a point, by how often a contour winds about it. It throws as winding does. */
template <class Points>
bool contains(const Points &points, const PointOf<Points> &about, FillRule rule = FillRule::even_odd) {
    const auto at = detail::as_c(about);
    const std::int32_t answer =
        detail::CallsOf<Points>::contains(detail::read(points), std::size(points), at.x, at.y, static_cast<std::int32_t>(rule));
    if (answer == I_SHAPE_UNSAFE) detail::check_asked(Span<const PointOf<Points>>(&about, 1));
    return detail::count_of(answer, points) != 0;
}

/* How often a contour winds about a point. It throws Code::unsafe where that point or one of the contour isn't safe. */
template <class Points>
std::ptrdiff_t winding(const Points &points, const PointOf<Points> &about) {
    const auto at = detail::as_c(about);
    const std::ptrdiff_t number = detail::CallsOf<Points>::winding(detail::read(points), std::size(points), at.x, at.y);
    if (number != I_SHAPE_NO_WINDING) return number;
    detail::check_asked(Span<const PointOf<Points>>(&about, 1));
    throw detail::error_of(Code::unsafe, points);
}

/* How often many contours together wind about each of the points about. */
template <class Points, class Offsets, class About>
std::vector<std::ptrdiff_t> windings(const Points &points, const Offsets &offsets, const About &about) {
    static_assert(std::is_same_v<PointOf<Points>, PointOf<About>>, "i_shape: the points of both are of one type");
    const auto all = detail::as_offsets(offsets);
    std::vector<std::ptrdiff_t> numbers(std::size(about));
    const std::ptrdiff_t answer =
        detail::CallsOf<Points>::windings(detail::read(points), std::size(points), detail::read_offsets(all), all.size(), detail::read(about),
                                          std::size(about), detail::address<std::ptrdiff_t>(numbers.data()), numbers.size());
    if (answer == I_SHAPE_UNSAFE) detail::check_asked(about);
    detail::count_of(answer, points, detail::Offsets(all));
    return numbers;
}

/* Whether the rule fills each of the points about, by how often many contours together wind about it: 1 or 0. */
template <class Points, class Offsets, class About>
std::vector<std::uint8_t> contains_points(const Points &points, const Offsets &offsets, const About &about, FillRule rule) {
    return detail::tell_points<std::uint8_t>(detail::CallsOf<Points>::contains_points, points, offsets, about, static_cast<std::int32_t>(rule));
}

/* Where each of the points about lies: 0 on an edge, and elsewhere 1 where the rule fills it, and -1 where it doesn't. */
template <class Points, class Offsets, class About>
std::vector<std::int8_t> locate(const Points &points, const Offsets &offsets, const About &about, FillRule rule) {
    return detail::tell_points<std::int8_t>(detail::CallsOf<Points>::locate, points, offsets, about, static_cast<std::int32_t>(rule));
}

/* The index of the first of many polygons, which lie as in Shapes, that holds each of the points about: which the rule
 * fills there, by how often the polygon's contours together wind about it; or no_shape. It throws Code::bad_offsets
 * where the offsets don't divide the points or the contours, and Code::unsafe where a point isn't safe. */
template <class Points, class GivenContours, class GivenShapes, class About>
std::vector<std::size_t> locate_in_shapes(const Points &points, const GivenContours &given_contours, const GivenShapes &given_shapes, const About &about,
                                          FillRule rule) {
    static_assert(std::is_same_v<PointOf<Points>, PointOf<About>>, "i_shape: the points of both are of one type");
    const auto all_contours = detail::as_offsets(given_contours);
    const auto all_shapes = detail::as_offsets(given_shapes);
    const detail::Offsets contours = all_contours, shapes = all_shapes;
    std::vector<std::size_t> holders(std::size(about));
    const std::int32_t answer = detail::CallsOf<Points>::locate_in_shapes(
        detail::read(points), std::size(points), detail::read_offsets(contours), contours.size(), detail::read_offsets(shapes), shapes.size(),
        detail::read(about), std::size(about), static_cast<std::int32_t>(rule), detail::address<std::size_t>(holders.data()), holders.size());
    if (answer == I_SHAPE_UNSAFE) detail::check_asked(about);
    detail::count_of(answer, points, contours, shapes);
    return holders;
}

/* Whether a contour is the boundary of a simple polygon: at least three points, not all equal, and no contact. It throws
 * Code::unsafe where a point isn't safe. */
template <class Points>
bool is_simple_polygon(const Points &points) {
    return detail::test(detail::CallsOf<Points>::is_simple_polygon, points);
}

/* The first contact of the edges of a contour; nothing where there is none. It throws Code::unsafe where a point isn't
 * safe. */
template <class Points>
std::optional<Contact> first_contact(const Points &points) {
    std::size_t places[2];
    if (detail::count_of(detail::CallsOf<Points>::first_contact(detail::read(points), std::size(points), places, 2), points) == 0) return std::nullopt;
    return Contact{places[0], places[1]};
}

/* The same of many contours together, within one or between two. The places are those in points. It throws
 * Code::bad_offsets where the offsets don't divide the points, and Code::no_memory where there is none for a copy of
 * offsets of which the first isn't 0. */
template <class Points, class Offsets>
std::optional<Contact> first_contact_of_rings(const Points &points, const Offsets &offsets) {
    const auto all = detail::as_offsets(offsets);
    std::size_t places[2];
    const std::int32_t answer =
        detail::CallsOf<Points>::first_contact_of_rings(detail::read(points), std::size(points), detail::read_offsets(all), all.size(), places, 2);
    if (detail::count_of(answer, points, detail::Offsets(all)) == 0) return std::nullopt;
    return Contact{places[0], places[1]};
}

/* All contacts of a contour, by the first edge and then by the second; kinds_of_contacts returns how these edges meet. It
 * throws Code::unsafe where a point isn't safe. */
template <class Points>
std::vector<Contact> contacts(const Points &points) {
    return detail::listed(
        [&](i_shape_contact *out, std::size_t room) { return detail::CallsOf<Points>::contacts(detail::read(points), std::size(points), out, room); },
        std::size(points), points);
}

/* The same of many contours together, within one or between two. The places are those in points. It throws as
 * first_contact_of_rings does. */
template <class Points, class Offsets>
std::vector<Contact> contacts_of_rings(const Points &points, const Offsets &offsets) {
    const auto all = detail::as_offsets(offsets);
    const detail::Offsets of_points = all;
    return detail::listed(
        [&](i_shape_contact *out, std::size_t room) {
            return detail::CallsOf<Points>::contacts_of_rings(detail::read(points), std::size(points), detail::read_offsets(of_points), of_points.size(), out,
                                                              room);
        },
        detail::count_between(of_points, std::size(points)), points, of_points);
}

/* How the two edges of each contact of a contour meet, or of any other two, by the points from which they lead, as
 * contacts returns them. It throws Code::unsafe where an end isn't safe, with the first unsafe point of the contour, and
 * std::out_of_range where there is no such point. */
template <class Points, class Contacts>
std::vector<ContactKind> kinds_of_contacts(const Points &points, const Contacts &contacts) {
    const std::size_t whole[] = {0, static_cast<std::size_t>(std::size(points))};
    return detail::kinds_of<Points>(detail::edges_of(points, whole, contacts), points);
}

/* The same of many contours, as contacts_of_rings returns them. It throws Code::bad_offsets too, where the offsets don't
 * divide the points. */
template <class Points, class Offsets, class Contacts>
std::vector<ContactKind> kinds_of_contacts(const Points &points, const Offsets &offsets, const Contacts &contacts) {
    const auto all = detail::as_offsets(offsets);
    if (const auto error = detail::bad_offsets(Array::offsets, all, std::size(points))) throw *error;
    return detail::kinds_of<Points>(detail::edges_of(points, all, contacts), points, detail::Offsets(all));
}

/* The same of any pairs of edges. There are four points for each pair: the ends of the first edge, and those of the
 * second. It throws Code::bad_offsets where the number of points isn't a multiple of four, and Code::unsafe where a
 * point isn't safe. */
template <class Points>
std::vector<ContactKind> kinds_of_contacts(const Points &edges) {
    return detail::kinds_of<Points>(edges, edges);
}

namespace detail {
/* What a call of C that writes a fault for each polygon writes. */
template <class Points, class Call, class GivenContours, class GivenShapes>
std::vector<Fault> faults_of(Call call, const Points &points, const GivenContours &given_contours, const GivenShapes &given_shapes) {
    const auto all_contours = as_offsets(given_contours);
    const auto all_shapes = as_offsets(given_shapes);
    const Offsets contours = all_contours, shapes = all_shapes;
    std::vector<Fault> faults(shapes.size() == 0 ? 0 : shapes.size() - 1);
    count_of(call(read(points), std::size(points), read_offsets(contours), contours.size(), read_offsets(shapes), shapes.size(),
                  address<i_shape_fault>(faults.data()), faults.size()), points, contours, shapes);
    return faults;
}
} // namespace detail

/* The first fault of each of many polygons, which lie as in Shapes. It throws Code::bad_offsets where the offsets don't
 * divide the points or the contours, Code::unsafe where a point isn't safe, and Code::no_memory where there is none for
 * a copy of the offsets of one polygon. */
template <class Points, class GivenContours, class GivenShapes>
std::vector<Fault> validity(const Points &points, const GivenContours &given_contours, const GivenShapes &given_shapes) {
    return detail::faults_of(detail::CallsOf<Points>::validity_shapes, points, given_contours, given_shapes);
}

/* The same if two contours of a polygon may touch, by OGC's rules, except that repeated points are faults. It throws
 * Code::no_memory also where there is none for the faults, or for the contacts of a polygon. */
template <class Points, class GivenContours, class GivenShapes>
std::vector<Fault> touching_validity(const Points &points, const GivenContours &given_contours, const GivenShapes &given_shapes) {
    return detail::faults_of(detail::CallsOf<Points>::touching_validity_shapes, points, given_contours, given_shapes);
}

/* Twice the area of a contour, above 0 where it turns left; nothing where it has no point. A sum that doesn't fit wraps. */
template <class Points>
std::optional<AreaOf<Points>> area_two(const Points &points) noexcept {
    AreaOf<Points> area;
    if (!detail::CallsOf<Points>::area_two(detail::read(points), std::size(points), &area)) return std::nullopt;
    return area;
}

/* Tests of many contours: a byte for each, 1 or 0, since items of a vector of bool have no address. All but
 * is_safe_contours throw Code::unsafe where a point isn't safe, and each throws Code::bad_offsets where the offsets don't
 * divide the points. */

template <class Points, class Offsets>
std::vector<std::uint8_t> is_simple_contours(const Points &points, const Offsets &offsets) {
    return detail::measure_contours<std::uint8_t>(detail::CallsOf<Points>::is_simple_contours, points, offsets);
}

template <class Points, class Offsets>
std::vector<std::uint8_t> has_no_spikes_contours(const Points &points, const Offsets &offsets) {
    return detail::measure_contours<std::uint8_t>(detail::CallsOf<Points>::has_no_spikes_contours, points, offsets);
}

template <class Points, class Offsets>
std::vector<std::uint8_t> is_convex_contours(const Points &points, const Offsets &offsets) {
    return detail::measure_contours<std::uint8_t>(detail::CallsOf<Points>::is_convex_contours, points, offsets);
}

template <class Points, class Offsets>
std::vector<std::uint8_t> are_simple_polygons(const Points &points, const Offsets &offsets) {
    return detail::measure_contours<std::uint8_t>(detail::CallsOf<Points>::are_simple_polygons, points, offsets);
}

template <class Points, class Offsets>
std::vector<std::uint8_t> is_safe_contours(const Points &points, const Offsets &offsets) {
    return detail::measure_contours<std::uint8_t>(detail::CallsOf<Points>::is_safe_contours, points, offsets);
}

/* Twice the area of each of many contours, 0 where it has no point. It throws Code::bad_offsets as the tests do. */
template <class Points, class Offsets>
std::vector<AreaOf<Points>> area_two_contours(const Points &points, const Offsets &offsets) {
    return detail::measure_contours<AreaOf<Points>>(detail::CallsOf<Points>::area_two_contours, points, offsets);
}

/* Contours, each in a vector of its own, end to end, and back. The vectors given may have any allocators. */

template <class Point, class A, class B>
Contours<Point> flat(const std::vector<std::vector<Point, A>, B> &contours) {
    Contours<Point> all{{}, {0}};
    for (const auto &contour : contours) {
        all.points.insert(all.points.end(), contour.begin(), contour.end());
        all.offsets.push_back(all.points.size());
    }
    return all;
}

template <class Point>
std::vector<std::vector<Point>> nested(const Contours<Point> &all) {
    std::vector<std::vector<Point>> contours;
    for (std::size_t k = 0; k + 1 < all.offsets.size(); k++)
        contours.emplace_back(all.points.data() + all.offsets[k], all.points.data() + all.offsets[k + 1]);
    return contours;
}

/* The winding numbers of such contours. */
template <class Point, class A, class B, class About>
std::vector<std::ptrdiff_t> windings(const std::vector<std::vector<Point, A>, B> &contours, const About &about) {
    const auto all = i_shape::flat(contours);
    return i_shape::windings(all.points, all.offsets, about);
}

/* Polygons, each a vector of contours, end to end, and back. */

template <class Point, class A, class B, class C>
Shapes<Point> flat(const std::vector<std::vector<std::vector<Point, A>, B>, C> &shapes) {
    Shapes<Point> all{{}, {0}, {0}};
    for (const auto &shape : shapes) {
        for (const auto &contour : shape) {
            all.points.insert(all.points.end(), contour.begin(), contour.end());
            all.contours.push_back(all.points.size());
        }
        all.shapes.push_back(all.contours.size() - 1);
    }
    return all;
}

template <class Point>
std::vector<std::vector<std::vector<Point>>> nested(const Shapes<Point> &all) {
    const auto contours = i_shape::nested(Contours<Point>{all.points, all.contours});
    std::vector<std::vector<std::vector<Point>>> shapes;
    for (std::size_t k = 0; k + 1 < all.shapes.size(); k++)
        shapes.emplace_back(contours.data() + all.shapes[k], contours.data() + all.shapes[k + 1]);
    return shapes;
}

} // namespace i_shape

#endif
#endif
