/* Points that i_shape.hpp rejects when it is compiled, one for each number of REJECTED, and behind the number what the compiler says. */
#include "i_shape.hpp"

#if REJECTED == 1 /* a coordinate is a signed whole number */
struct Point { std::uint32_t x, y; };
#elif REJECTED == 2 /* a coordinate is a signed whole number */
struct Point { float x, y; };
#elif REJECTED == 3 /* a point is its two coordinates and nothing else */
struct Point { std::int32_t x, y, z; };
#elif REJECTED == 4 /* x lies at the front of a point, and y behind it */
struct Point { std::int32_t y, x; };
#elif REJECTED == 5 /* a point is aligned as its coordinates are */
struct __attribute__((packed)) Point { std::int32_t x, y; };
#elif REJECTED == 6 /* a point has standard layout */
struct Across { std::int32_t x; };
struct Point : Across { std::int32_t y; };
template <>
struct i_shape::PointTraits<Point> {
    using Coordinate = std::int32_t;
    static constexpr std::size_t x_offset = 0, y_offset = 4;
};
#elif REJECTED == 7 /* public members x and y, or X and Y, of one type */
struct Point { std::int16_t x; std::int32_t y; };
#elif REJECTED == 8 /* public members x and y, or X and Y, of one type */
struct Point { std::int32_t across, up; };
#elif REJECTED == 9 /* a coordinate has 16, 32 or 64 bits */
struct Point { std::int8_t x, y; };
#elif REJECTED == 10 /* the points of a vector have a default constructor */
struct Point { Point(std::int32_t across, std::int32_t up) : x(across), y(up) {} std::int32_t x, y; };
#elif REJECTED == 11 /* a coordinate isn't const */
struct Point { const std::int32_t x = 0, y = 0; };
#elif REJECTED == 12 /* offsets are of an unsigned type */
struct Point { std::int32_t x, y; };
std::vector<std::uint8_t> told(const std::vector<Point> &points, const std::vector<int> &offsets);
std::vector<std::uint8_t> told(const std::vector<Point> &points, const std::vector<int> &offsets) {
    return i_shape::is_simple_contours(points, offsets);
}
#elif REJECTED == 13 /* nested vectors: put them end to end by i_shape::flat() */
struct Corner { std::int32_t x, y; };
using Point = std::vector<Corner>;
#elif REJECTED == 14 /* simplify_contours takes points and offsets: i_shape::flat() makes both of nested vectors */
struct Point { std::int32_t x, y; };
void cleaned(const std::vector<std::vector<Point>> &contours);
void cleaned(const std::vector<std::vector<Point>> &contours) {
    i_shape::simplify_contours(contours);
}
#endif

std::vector<Point> left(const std::vector<Point> &points);
std::vector<Point> left(const std::vector<Point> &points) {
    return i_shape::simplify(points);
}
