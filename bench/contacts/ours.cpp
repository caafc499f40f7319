// The calls of this library, over whole numbers of 32 and of 64 bits.
#include "contacts.hpp"

#include <i_shape.h>
#include <numeric>
#include <stdexcept>
#include <tuple>

namespace {

struct Bits32 {
    using Point = i_shape_point_i32;
    static constexpr auto first_contact = i_shape_first_contact_i32;
    static constexpr auto first_contact_of_rings = i_shape_first_contact_of_rings_i32;
    static constexpr auto is_simple_polygon = i_shape_is_simple_polygon_i32;
    static constexpr auto are_simple_polygons = i_shape_are_simple_polygons_i32;
};

struct Bits64 {
    using Point = i_shape_point_i64;
    static constexpr auto first_contact = i_shape_first_contact_i64;
    static constexpr auto first_contact_of_rings = i_shape_first_contact_of_rings_i64;
    static constexpr auto is_simple_polygon = i_shape_is_simple_polygon_i64;
    static constexpr auto are_simple_polygons = i_shape_are_simple_polygons_i64;
};

template <class Bits> struct Given {
    std::vector<typename Bits::Point> points;
    std::vector<std::size_t> offsets{0};

    explicit Given(const std::vector<Ring> &rings) {
        for (const Ring &ring : rings) {
            for (auto [x, y] : ring) points.push_back({x, y});
            offsets.push_back(points.size());
        }
    }
};

std::size_t checked(std::int32_t answer) {
    if (answer < 0) throw std::runtime_error("i_shape returned a code");
    return std::size_t(answer);
}

template <class Bits> std::size_t are_rings_free(const Given<Bits> &given) {
    std::size_t edges[2];
    auto [points, offsets] = std::tie(given.points, given.offsets);
    return 1 - checked(Bits::first_contact_of_rings(points.data(), points.size(), offsets.data(), offsets.size(), edges, 2));
}

template <class Bits> std::size_t count_free(const Given<Bits> &given) {
    std::size_t edges[2], free = 0;
    for (std::size_t ring = 0; ring + 1 < given.offsets.size(); ring++) {
        std::size_t from = given.offsets[ring], to = given.offsets[ring + 1];
        free += 1 - checked(Bits::first_contact(given.points.data() + from, to - from, edges, 2));
    }
    return free;
}

template <class Bits> std::size_t count_simple_polygons(const Given<Bits> &given, std::vector<std::uint8_t> &answers) {
    auto [points, offsets] = std::tie(given.points, given.offsets);
    checked(Bits::are_simple_polygons(points.data(), points.size(), offsets.data(), offsets.size(), answers.data(), answers.size()));
    return std::accumulate(answers.begin(), answers.end(), std::size_t(0));
}

template <class Bits> Call first_contact(const Drawing &drawing) {
    Given<Bits> given(drawing.rings);
    if (drawing.question == Question::of_rings) return [given] { return are_rings_free(given); };
    return [given] { return count_free(given); };
}

template <class Bits> Call is_simple_polygon(const Drawing &drawing) {
    Given<Bits> given(drawing.rings);
    switch (drawing.question) {
    case Question::of_ring: return [given] { return checked(Bits::is_simple_polygon(given.points.data(), given.points.size())); };
    case Question::of_each:
        return [given, answers = std::vector<std::uint8_t>(drawing.rings.size())]() mutable { return count_simple_polygons(given, answers); };
    default: return {};
    }
}

template <auto find_faults> std::string fault(const std::vector<Ring> &polygon) {
    static const char *const kinds[] = {"", "too few points", "contact", "hole outside", "hole within", "disconnected"};
    auto [points, offsets] = Given<Bits32>(polygon);
    std::size_t shapes[] = {0, polygon.size()};
    i_shape_fault fault;
    checked(find_faults(points.data(), points.size(), offsets.data(), offsets.size(), shapes, 2, &fault, 1));
    return kinds[fault.kind];
}

} // namespace

std::vector<Column> our_columns() {
    return {{"first_contact i32", first_contact<Bits32>},
            {"is_simple_polygon i32", is_simple_polygon<Bits32>},
            {"first_contact i64", first_contact<Bits64>},
            {"is_simple_polygon i64", is_simple_polygon<Bits64>}};
}

Notion our_notion() { return {"i_shape", fault<i_shape_validity_shapes_i32>}; }

Notion our_touching_notion() { return {"i_shape, touching", fault<i_shape_touching_validity_shapes_i32>}; }
