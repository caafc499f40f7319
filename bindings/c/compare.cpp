/* compare ROUNDS LIBRARY LIBRARY: whether two builds of the shared library answer the same. In each round each call is given random points, at each width,
 * some of them unsafe and some offsets unfit; the answers and all that is written are compared. The status is 0 where they are equal. */
#include "i_shape.h"

#include <array>
#include <cstdio>
#include <cstdlib>
#include <cstring>
#include <dlfcn.h>
#include <string>
#include <type_traits>
#include <vector>

namespace {

constexpr int BUILDS = 2;
void *libraries[BUILDS];
long equal, different;

class Random {
public:
    /* A number from 0 to bound - 1. */
    std::size_t below(std::size_t bound) {
        state_ += 0x9e3779b97f4a7c15;
        std::uint64_t mixed = state_;
        mixed = (mixed ^ (mixed >> 30)) * 0xbf58476d1ce4e5b9;
        mixed = (mixed ^ (mixed >> 27)) * 0x94d049bb133111eb;
        return static_cast<std::size_t>((mixed ^ (mixed >> 31)) % bound);
    }

    bool one_in(std::size_t count) { return below(count) == 0; }

private:
    std::uint64_t state_ = 1;
};

/* A call in both builds. */
template <class Call>
struct Both {
    std::string name;
    std::array<Call *, BUILDS> calls;

    explicit Both(const std::string &of) : name(of) {
        for (std::size_t k = 0; k < BUILDS; k++) {
            calls[k] = reinterpret_cast<Call *>(dlsym(libraries[k], name.c_str()));
            if (calls[k] == nullptr) {
                std::printf("a library has no %s\n", name.c_str());
                std::exit(2);
            }
        }
    }
};

template <class Call>
std::vector<Both<Call>> each(const std::vector<std::string> &names, const std::string &behind) {
    std::vector<Both<Call>> found;
    for (const std::string &name : names) found.emplace_back("i_shape_" + name + behind);
    return found;
}

/* Two vectors of the same length have the same bytes. */
template <class Item>
bool are_same(const std::vector<Item> &one, const std::vector<Item> &other) {
    return one.empty() || std::memcmp(one.data(), other.data(), one.size() * sizeof(Item)) == 0;
}

template <class Point, class Area>
class Comparison {
public:
    Comparison(Random &random, int width) : random_(random), behind_("_i" + std::to_string(width)) {}

    void round() {
        make_input();
        for (const auto &both : cleaners_)
            compare(both, [&](auto call, Output &out) { return call(points_.data(), count_, out.points.data(), room_); });
        for (const auto &both : batches_)
            compare(both, [&](auto call, Output &out) {
                return call(points_.data(), count_, contours_.data(), contours_.size(), out.points.data(), room_, out.contours.data(), contours_.size());
            });
        for (const auto &both : polygons_)
            compare(both, [&](auto call, Output &out) {
                return call(points_.data(), count_, contours_.data(), contours_.size(), shapes_.data(), shapes_.size(), out.points.data(), room_,
                            out.contours.data(), contours_.size(), out.shapes.data(), shapes_.size());
            });
        for (const auto &both : tests_)
            compare(both, [&](auto call, Output &) { return call(points_.data(), count_); });
        compare(contains_, [&](auto call, Output &) { return call(points_.data(), count_, about_.x, about_.y); });
        compare(winding_, [&](auto call, Output &) { return call(points_.data(), count_, about_.x, about_.y); });
        compare(windings_, [&](auto call, Output &out) {
            return call(points_.data(), count_, contours_.data(), contours_.size(), points_.data(), count_, out.numbers.data(), room_);
        });
        for (const auto &both : tests_of_many_)
            compare(both, [&](auto call, Output &out) {
                return call(points_.data(), count_, contours_.data(), contours_.size(), out.bytes.data(), room_of_contours_);
            });
        compare(areas_, [&](auto call, Output &out) {
            return call(points_.data(), count_, contours_.data(), contours_.size(), out.areas.data(), room_of_contours_);
        });
        compare(area_two_, [&](auto call, Output &out) { return call(points_.data(), count_, &out.area); });
    }

private:
    using Coordinate = decltype(Point::x);
    using CleanOne = std::ptrdiff_t(const Point *, std::size_t, Point *, std::size_t);
    using CleanMany = std::ptrdiff_t(const Point *, std::size_t, const std::size_t *, std::size_t, Point *, std::size_t, std::size_t *, std::size_t);
    using CleanShapes = std::ptrdiff_t(const Point *, std::size_t, const std::size_t *, std::size_t, const std::size_t *, std::size_t, Point *, std::size_t,
                                       std::size_t *, std::size_t, std::size_t *, std::size_t);
    using Test = std::int32_t(const Point *, std::size_t);
    using Contains = std::int32_t(const Point *, std::size_t, Coordinate, Coordinate);
    using Winding = std::ptrdiff_t(const Point *, std::size_t, Coordinate, Coordinate);
    using Windings = std::int32_t(const Point *, std::size_t, const std::size_t *, std::size_t, const Point *, std::size_t, std::ptrdiff_t *, std::size_t);
    using TestMany = std::int32_t(const Point *, std::size_t, const std::size_t *, std::size_t, std::uint8_t *, std::size_t);
    using Areas = std::int32_t(const Point *, std::size_t, const std::size_t *, std::size_t, Area *, std::size_t);
    using AreaTwo = bool(const Point *, std::size_t, Area *);

    /* What a call returns and writes. */
    struct Output {
        std::ptrdiff_t answer;
        Area area;
        std::vector<Point> points;
        std::vector<std::size_t> contours, shapes;
        std::vector<std::ptrdiff_t> numbers;
        std::vector<std::uint8_t> bytes;
        std::vector<Area> areas;

        bool operator==(const Output &other) const {
            return answer == other.answer && std::memcmp(&area, &other.area, sizeof area) == 0 && are_same(points, other.points) &&
                   are_same(contours, other.contours) && are_same(shapes, other.shapes) && are_same(numbers, other.numbers) &&
                   are_same(bytes, other.bytes) && are_same(areas, other.areas);
        }
    };

    template <class Call, class Run>
    void compare(const Both<Call> &both, Run run) {
        std::array<Output, BUILDS> outputs;
        for (std::size_t k = 0; k < BUILDS; k++) {
            outputs[k] = {0, {}, std::vector<Point>(count_ + 1), std::vector<std::size_t>(contours_.size()), std::vector<std::size_t>(shapes_.size()),
                          std::vector<std::ptrdiff_t>(count_ + 1), std::vector<std::uint8_t>(contours_.size()), std::vector<Area>(contours_.size())};
            outputs[k].answer = static_cast<std::ptrdiff_t>(run(both.calls[k], outputs[k]));
        }
        const bool are_equal = outputs[0] == outputs[1];
        (are_equal ? equal : different)++;
        if (!are_equal && different < 10) std::printf("%s of %zu points: %td and %td\n", both.name.c_str(), count_, outputs[0].answer, outputs[1].answer);
    }

    /* Numbers of a grid of a few lines, as far apart as the width allows or next to one another; now and then an unsafe one. */
    Coordinate coordinate() {
        constexpr auto unsafe = static_cast<Coordinate>(Coordinate{1} << (8 * sizeof(Coordinate) - 2));
        if (random_.one_in(4096)) return unsafe;
        const auto line = static_cast<Coordinate>(random_.below(2 * lines_ + 1)) - static_cast<Coordinate>(lines_);
        return static_cast<Coordinate>(line * (is_wide_ ? static_cast<Coordinate>(static_cast<std::size_t>(unsafe - 1) / lines_) : 1));
    }

    /* Offsets that divide so many items, or now and then don't. */
    std::vector<std::size_t> offsets(std::size_t items) {
        std::vector<std::size_t> made = {0};
        while (made.back() < items) made.push_back(made.back() + 1 + random_.below(items - made.back()));
        if (random_.one_in(16)) made[random_.below(made.size())] = random_.below(items + 3);
        return made;
    }

    void make_input() {
        count_ = random_.one_in(64) ? random_.below(300) : random_.below(24);
        lines_ = std::size_t{1} << random_.below(5);
        is_wide_ = random_.one_in(2);
        points_.resize(count_ + 1);
        for (Point &point : points_) point = {coordinate(), coordinate()};
        about_ = points_.back();
        contours_ = offsets(count_);
        shapes_ = offsets(contours_.size() - 1);
        room_ = random_.one_in(16) ? random_.below(count_ + 1) : count_;
        room_of_contours_ = random_.one_in(16) ? random_.below(contours_.size()) : contours_.size() - 1;
    }

    Random &random_;
    std::string behind_;
    std::vector<Both<CleanOne>> cleaners_ = each<CleanOne>({"simplify", "despike", "canonical", "canonical_unoriented"}, behind_);
    std::vector<Both<CleanMany>> batches_ =
        each<CleanMany>({"simplify_contours", "despike_contours", "canonical_contours", "canonical_unoriented_contours"}, behind_);
    std::vector<Both<CleanShapes>> polygons_ =
        each<CleanShapes>({"simplify_shapes", "despike_shapes", "canonical_shapes", "canonical_unoriented_shapes"}, behind_);
    std::vector<Both<Test>> tests_ = each<Test>({"is_simple", "has_no_spikes", "is_convex", "is_safe"}, behind_);
    Both<Contains> contains_ = Both<Contains>("i_shape_contains" + behind_);
    Both<Winding> winding_ = Both<Winding>("i_shape_winding" + behind_);
    Both<Windings> windings_ = Both<Windings>("i_shape_windings" + behind_);
    std::vector<Both<TestMany>> tests_of_many_ =
        each<TestMany>({"is_simple_contours", "has_no_spikes_contours", "is_convex_contours", "is_safe_contours"}, behind_);
    Both<Areas> areas_ = Both<Areas>("i_shape_area_two_contours" + behind_);
    Both<AreaTwo> area_two_ = Both<AreaTwo>("i_shape_area_two" + behind_);

    std::size_t count_ = 0, lines_ = 1, room_ = 0, room_of_contours_ = 0;
    bool is_wide_ = false;
    std::vector<Point> points_;
    std::vector<std::size_t> contours_, shapes_;
    Point about_{};
};

} // namespace

int main(int count, char **words) {
    if (count != BUILDS + 2) return 2;
    for (int k = 0; k < BUILDS; k++) {
        libraries[k] = dlopen(words[k + 2], RTLD_NOW | RTLD_LOCAL);
        if (libraries[k] == nullptr) {
            std::printf("%s\n", dlerror());
            return 2;
        }
    }
    Random random;
    Comparison<i_shape_point_i16, std::int32_t> at16(random, 16);
    Comparison<i_shape_point_i32, std::int64_t> at32(random, 32);
    Comparison<i_shape_point_i64, i_shape_halves> at64(random, 64);
    for (long rounds = std::atol(words[1]); rounds > 0; rounds--) {
        at16.round();
        at32.round();
        at64.round();
    }
    std::printf("%ld calls answer the same in both, %ld don't\n", equal, different);
    return different != 0;
}
