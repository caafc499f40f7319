#include <i_shape.hpp>
#include <iostream>

struct Vertex {
    std::int16_t x, y;
};

static void clean(const std::vector<Vertex> &points, const std::vector<std::size_t> &offsets) {
    try {
        const auto left = i_shape::simplify_contours(points, offsets);
        std::cout << left.points.size() << " points are left\n";
    } catch (const i_shape::Error &error) {
        switch (error.code()) {
        case i_shape::Code::unsafe: std::cout << "point " << *error.place() << " is out of the safe range: scale down, or take 32 bits\n"; break;
        case i_shape::Code::bad_offsets: std::cout << "the offsets don't divide the points\n"; break;
        case i_shape::Code::no_room: std::cout << "there is no room for the answer\n"; break;
        case i_shape::Code::no_memory: std::cout << "there is no memory for it\n"; break;
        }
    }
}

int main() {
    clean({{0, 0}, {2, 0}, {4, 0}, {4, 4}}, {0, 4});
    clean({{0, 0}, {2, 0}, {4, 0}, {4, 4}}, {0, 5});
    clean({{0, 0}, {20000, 0}, {4, 4}}, {0, 3});
}
