// Whether polygons are valid: ours beside GEOS's.
//
// HAVE_GEOS: it is there beside ours. The arguments are how many points there are, and files that bench/land.py writes. A line
// is as that of sweeps.cpp.
#include <cmath>
#include <stdexcept>

#include "overlays/shapes.hpp"
#include "overlays/inputs.hpp"
#include "timing.hpp"
#ifdef HAVE_GEOS
#include <geos_c.h>
#endif

namespace {

/// As far as points lie from the origin.
constexpr double FAR = 1e9;

Ring circle(std::size_t size) {
    Ring ring;
    for (std::size_t place = 0; place < size; place++) {
        const double angle = 2 * M_PI * double(place) / double(size);
        ring.push_back(
            {std::int32_t(std::lround(FAR * std::cos(angle))), std::int32_t(std::lround(FAR * std::sin(angle)))});
    }
    return ring;
}

/// The same circle, but two points that follow one another, half way round, change places: so its edges cross there.
Ring crossed(std::size_t size) {
    Ring ring = circle(size);
    std::swap(ring[size / 2], ring[size / 2 + 1]);
    return ring;
}

Ring square(std::int32_t x, std::int32_t y, std::int32_t side) {
    return {{x, y}, {x + side, y}, {x + side, y + side}, {x, y + side}};
}

/// Squares that lie apart, or one square with them as its holes.
Shape squares(std::size_t size, bool are_holes) {
    const auto columns = std::int32_t(std::sqrt(double(size) / 4));
    const auto step = std::int32_t(FAR / columns), side = step / 10 * 9;
    Shape shape;
    if (are_holes) shape.push_back({square(-step, -step, step * (columns + 1))});
    for (std::int32_t place = 0; place < columns * columns; place++) {
        Ring ring = square(place / columns * step, place % columns * step, side);
        if (are_holes) {
            shape[0].push_back(std::move(ring));
        } else {
            shape.push_back({std::move(ring)});
        }
    }
    return shape;
}

/// The black squares of a board, which touch at their corners.
Shape black(std::size_t size) {
    const auto columns = std::int32_t(std::sqrt(double(size) / 2));
    return board(0, 0, std::int32_t(FAR / columns), columns, columns);
}

/// Triangles that touch at the origin.
Shape fan(std::size_t size) {
    const Ring corners = circle(size / 3 * 2);
    Shape shape;
    for (std::size_t place = 0; place + 1 < corners.size(); place += 2) {
        shape.push_back({{{0, 0}, corners[place], corners[place + 1]}});
    }
    return shape;
}

class ByItree {
public:
    explicit ByItree(const Shape &shape) {
        for (const auto &polygon : shape) {
            for (const auto &ring : polygon) {
                points_.insert(points_.end(), ring.begin(), ring.end());
                ring_ends_.push_back(points_.size());
            }
            ends_.push_back(ring_ends_.size());
        }
    }

    std::uint64_t run() const {
        const itree_shapes polygons{points_.data(),    points_.size(), ring_ends_.data(),
                                    ring_ends_.size(), ends_.data(),   ends_.size()};
        itree_fault_place fault{};
        const auto status = itree_polygons_fault(&polygons, &fault);
        if (status != ITREE_ANSWERED) throw std::runtime_error("status " + std::to_string(status));
        return fault.kind == ITREE_VALID;
    }

    std::size_t size() const { return points_.size(); }

private:
    std::vector<itree_point> points_;
    std::vector<std::size_t> ring_ends_, ends_;
};

#ifdef HAVE_GEOS
class ByGeos {
public:
    explicit ByGeos(const Shape &shape) {
        std::vector<GEOSGeometry *> polygons;
        for (const auto &polygon : shape) {
            std::vector<GEOSGeometry *> rings;
            for (const auto &ring : polygon) rings.push_back(ring_of(ring));
            polygons.push_back(GEOSGeom_createPolygon_r(geos_, rings[0], rings.data() + 1, unsigned(rings.size() - 1)));
        }
        shape_ = GEOSGeom_createCollection_r(geos_, GEOS_MULTIPOLYGON, polygons.data(), unsigned(polygons.size()));
    }
    ~ByGeos() {
        GEOSGeom_destroy_r(geos_, shape_);
        GEOS_finish_r(geos_);
    }
    ByGeos(const ByGeos &) = delete;
    ByGeos &operator=(const ByGeos &) = delete;

    std::uint64_t run() const { return std::uint64_t(GEOSisValid_r(geos_, shape_)); }

private:
    GEOSGeometry *ring_of(const Ring &ring) const {
        std::vector<double> numbers;
        for (std::size_t place = 0; place <= ring.size(); place++) {
            const auto &point = ring[place % ring.size()];
            numbers.insert(numbers.end(), {double(point.x), double(point.y)});
        }
        const auto points = GEOSCoordSeq_copyFromBuffer_r(geos_, numbers.data(), unsigned(ring.size() + 1), 0, 0);
        return GEOSGeom_createLinearRing_r(geos_, points);
    }

    GEOSContextHandle_t geos_ = GEOS_init_r();
    GEOSGeometry *shape_ = nullptr;
};
#endif

void measure(const std::string &workload, const Shape &shape) {
    const ByItree itree(shape);
    std::vector<timing::Side> sides{{"itree", [&] { return itree.run(); }}};
#ifdef HAVE_GEOS
    const ByGeos geos(shape);
    sides.emplace_back("GEOS", [&] { return geos.run(); });
#endif
    timing::measure("validity: " + workload, itree.size(), timing::runs_at(itree.size()), sides);
}

/// So many triangles at most: GEOS compares each with each.
constexpr std::size_t MOST_OF_FAN = 10'000;

void measure_all(std::size_t size) {
    measure("circle", {{circle(size)}});
    measure("circle that crosses itself", {{crossed(size)}});
    measure("wavy ring", wavy(size, 0, 0));
    measure("squares apart", squares(size, false));
    measure("square with holes", squares(size, true));
    measure("squares that touch", black(size));
    if (size <= MOST_OF_FAN) measure("triangles round a point", fan(size));
}

}  // namespace

int main(int count, char **words) {
    for (int place = 1; place < count; place++) {
        char *end = nullptr;
        const std::size_t size = std::strtoull(words[place], &end, 10);
        if (*end == '\0') {
            measure_all(size);
        } else {
            std::int32_t degree = 0, west = 0, columns = 0;
            measure("land", land_alone(words[place], degree, west, columns));
        }
    }
}
