#include <i_shape.hpp>
#include <iostream>

struct Vertex {
    std::int32_t x, y;
};

int main() {
    const std::vector<Vertex> contour = {{0, 0}, {2, 0}, {4, 0}, {4, 4}, {0, 4}};
    for (const Vertex &corner : i_shape::simplify(contour)) std::cout << corner.x << ' ' << corner.y << '\n';
}
