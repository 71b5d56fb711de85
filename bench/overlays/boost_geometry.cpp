// Boost.Geometry, in floating point: it has no whole numbers that stay whole in an overlay.
#include <algorithm>
#include <boost/geometry.hpp>
#include <boost/geometry/geometries/multi_polygon.hpp>
#include <boost/geometry/geometries/point_xy.hpp>
#include <boost/geometry/geometries/polygon.hpp>

#include "shapes.hpp"

namespace {

namespace bg = boost::geometry;

using Corner = bg::model::d2::point_xy<double>;
using One = bg::model::polygon<Corner, false, false>;
using Many = bg::model::multi_polygon<One>;

One one_of(const Polygon &polygon) {
    One one;
    one.inners().resize(polygon.size() - 1);
    for (std::size_t place = 0; place < polygon.size(); place++) {
        auto &ring = place == 0 ? one.outer() : one.inners()[place - 1];
        for (const auto &point : polygon[place]) ring.push_back(Corner(point.x, point.y));
    }
    return one;
}

/// The bits of two numbers in turn: an order in which what lies near stands near.
std::uint64_t in_turn(const Corner &corner) {
    const auto x = std::uint64_t(corner.x() + 2147483648.0), y = std::uint64_t(corner.y() + 2147483648.0);
    std::uint64_t found = 0;
    for (int bit = 0; bit < 32; bit++) found |= (x >> bit & 1) << 2 * bit | (y >> bit & 1) << (2 * bit + 1);
    return found;
}

Many many_of(const Shape &shape) {
    Many many;
    for (const auto &polygon : shape) many.push_back(one_of(polygon));
    std::sort(many.begin(), many.end(), [](const One &one, const One &other) {
        return in_turn(one.outer().front()) < in_turn(other.outer().front());
    });
    return many;
}

/// The union of the polygons from one place on and before another: those of the halves, united.
Many united(const Many &many, std::size_t begin, std::size_t end) {
    Many found;
    if (end - begin < 2) {
        found.insert(found.end(), many.begin() + std::ptrdiff_t(begin), many.begin() + std::ptrdiff_t(end));
        return found;
    }
    const std::size_t middle = begin + (end - begin) / 2;
    bg::union_(united(many, begin, middle), united(many, middle, end), found);
    return found;
}

class ByBoostGeometry : public Overlay {
public:
    explicit ByBoostGeometry(const Input &input)
        : subject_(many_of(input.subject)),
          clip_(many_of(input.clip)),
          operation_(input.operation),
          are_apart_(input.are_apart) {}

    void run() override {
        if (!are_apart_) {
            subject_ = united(subject_, 0, subject_.size());
            clip_ = united(clip_, 0, clip_.size());
        }
        switch (operation_) {
        case Operation::both: bg::intersection(subject_, clip_, found_); break;
        case Operation::either: bg::union_(subject_, clip_, found_); break;
        case Operation::first_alone: bg::difference(subject_, clip_, found_); break;
        default: bg::sym_difference(subject_, clip_, found_);
        }
    }

    double area() const override { return bg::area(found_); }

private:
    Many subject_, clip_, found_;
    Operation operation_;
    bool are_apart_;
};

}  // namespace

std::unique_ptr<Overlay> boost_geometry_of(const Input &input) { return made<ByBoostGeometry>(input); }
