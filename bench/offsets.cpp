// Polygons that grow by a circle: ours beside Clipper's, GEOS's and Boost.Geometry's, each with as many corners.
//
// HAVE_CLIPPER, HAVE_GEOS, HAVE_BOOST: the sides that are there beside ours. The arguments are what each number of
// edges is divided by, and files that bench/land.py writes.
//
// A line is as that of overlays.cpp, but the length is that of all edges of the input times the radius: so areas differ
// by shares of the radius, as those sides go round a corner from where its edges end, and ours by one circle's corners.
#include <cmath>
#include <stdexcept>

#include "overlays/measure.hpp"
#ifdef HAVE_BOOST
#include <boost/geometry.hpp>
#include <boost/geometry/geometries/multi_polygon.hpp>
#include <boost/geometry/geometries/point_xy.hpp>
#include <boost/geometry/geometries/polygon.hpp>
#endif
#ifdef HAVE_CLIPPER
#include <polyclipping/clipper.hpp>
#endif
#ifdef HAVE_GEOS
#include <geos_c.h>
#endif

namespace {

constexpr int CORNERS = 32, TURNS = 3;

/// What it grows by stands as the one ring of the clip, from the corner to the right of the origin on.
Ring circle(std::int32_t radius) {
    Ring ring;
    for (int corner = 0; corner < CORNERS; corner++) {
        const double angle = 2 * M_PI * corner / CORNERS;
        ring.push_back({std::int32_t(radius * std::cos(angle)), std::int32_t(radius * std::sin(angle))});
    }
    return ring;
}

Input grown(const std::string &workload, Shape shape, std::int32_t radius, bool are_apart) {
    return {"offset: " + workload, std::move(shape), {{circle(radius)}}, Operation::either, are_apart};
}

double radius_of(const Input &input) { return input.clip[0][0][0].x; }

__extension__ typedef __int128 Product;

class ByItree : public Overlay {
public:
    explicit ByItree(const Input &input) : shape_(input.clip[0][0]) {
        for (const auto &polygon : input.subject) {
            for (const auto &ring : polygon) {
                points_.insert(points_.end(), ring.begin(), ring.end());
                ends_.push_back(points_.size());
            }
        }
    }
    ~ByItree() override { itree_polygons_free(found_); }

    void run() override {
        const auto status = itree_minkowski(points_.data(), points_.size(), ends_.data(), ends_.size(), shape_.data(),
                                            shape_.size(), ITREE_NON_ZERO, &found_);
        if (status != ITREE_ANSWERED) throw std::runtime_error("status " + std::to_string(status));
    }

    double area() const override {
        const itree_point *points = nullptr;
        const std::size_t *rings = nullptr;
        itree_polygons_points(found_, &points);
        const std::size_t count = itree_polygons_ring_offsets(found_, &rings) - 1;
        Product twice = 0;
        for (std::size_t ring = 0; ring < count; ring++) {
            for (std::size_t place = rings[ring]; place < rings[ring + 1]; place++) {
                const auto &one = points[place], &next = points[place + 1 == rings[ring + 1] ? rings[ring] : place + 1];
                twice += Product(one.x) * next.y - Product(one.y) * next.x;
            }
        }
        return double(twice) / 2;
    }

private:
    std::vector<itree_point> points_;
    std::vector<std::size_t> ends_;
    Ring shape_;
    itree_polygons *found_ = nullptr;
};

#ifdef HAVE_CLIPPER
class ByClipper : public Overlay {
public:
    explicit ByClipper(const Input &input) : radius_(radius_of(input)) {
        for (const auto &polygon : input.subject) {
            for (const auto &ring : polygon) {
                ClipperLib::Path path;
                for (const auto &point : ring) path.push_back(ClipperLib::IntPoint(point.x, point.y));
                paths_.push_back(std::move(path));
            }
        }
    }

    void run() override {
        ClipperLib::ClipperOffset offset(2, radius_ * (1 - std::cos(M_PI / CORNERS)));
        offset.AddPaths(paths_, ClipperLib::jtRound, ClipperLib::etClosedPolygon);
        offset.Execute(found_, radius_);
    }

    double area() const override {
        double area = 0;
        for (auto node = found_.GetFirst(); node; node = node->GetNext()) {
            area += (node->IsHole() ? -1 : 1) * std::abs(ClipperLib::Area(node->Contour));
        }
        return area;
    }

private:
    double radius_;
    ClipperLib::Paths paths_;
    ClipperLib::PolyTree found_;
};
#endif

#ifdef HAVE_GEOS
class ByGeos : public Overlay {
public:
    explicit ByGeos(const Input &input) : radius_(radius_of(input)) {
        std::vector<GEOSGeometry *> polygons;
        for (const auto &polygon : input.subject) {
            std::vector<GEOSGeometry *> rings;
            for (const auto &ring : polygon) rings.push_back(ring_of(ring));
            polygons.push_back(GEOSGeom_createPolygon_r(geos_, rings[0], rings.data() + 1, unsigned(rings.size() - 1)));
        }
        shape_ = GEOSGeom_createCollection_r(geos_, GEOS_MULTIPOLYGON, polygons.data(), unsigned(polygons.size()));
    }
    ~ByGeos() override { GEOS_finish_r(geos_); }

    void run() override {
        found_ = GEOSBuffer_r(geos_, shape_, radius_, CORNERS / 4);
        if (!found_) throw std::runtime_error("no answer");
    }

    double area() const override {
        double area = 0;
        GEOSArea_r(geos_, found_, &area);
        return area;
    }

private:
    GEOSGeometry *ring_of(const Ring &ring) const {
        std::vector<double> numbers;
        for (std::size_t place = 0; place <= ring.size(); place++) {
            const auto &point = ring[place % ring.size()];
            numbers.insert(numbers.end(), {double(point.x), double(point.y)});
        }
        const auto points = GEOSCoordSeq_copyFromBuffer_r(geos_, numbers.data(), unsigned(ring.size() + 1), 0, 0);
        return GEOSGeom_createLinearRing_r(geos_, points);
    }

    GEOSContextHandle_t geos_ = GEOS_init_r();
    double radius_;
    GEOSGeometry *shape_ = nullptr, *found_ = nullptr;
};
#endif

#ifdef HAVE_BOOST
namespace bg = boost::geometry;

class ByBoost : public Overlay {
    using Corner = bg::model::d2::point_xy<double>;
    using One = bg::model::polygon<Corner, false, false>;
    using Many = bg::model::multi_polygon<One>;

public:
    explicit ByBoost(const Input &input) : radius_(radius_of(input)) {
        for (const auto &polygon : input.subject) {
            One one;
            one.inners().resize(polygon.size() - 1);
            for (std::size_t place = 0; place < polygon.size(); place++) {
                auto &ring = place == 0 ? one.outer() : one.inners()[place - 1];
                for (const auto &point : polygon[place]) ring.push_back(Corner(point.x, point.y));
            }
            shape_.push_back(one);
        }
    }

    void run() override {
        namespace by = bg::strategy::buffer;
        bg::buffer(shape_, found_, by::distance_symmetric<double>(radius_), by::side_straight(),
                   by::join_round(CORNERS), by::end_round(CORNERS), by::point_circle(CORNERS));
    }

    double area() const override { return bg::area(found_); }

private:
    double radius_;
    Many shape_, found_;
};
#endif

const std::vector<Side> sides{
    {"itree", made<ByItree>},
#ifdef HAVE_CLIPPER
    {"Clipper", made<ByClipper>},
#endif
#ifdef HAVE_GEOS
    {"GEOS", made<ByGeos>},
#endif
#ifdef HAVE_BOOST
    {"Boost.Geometry", made<ByBoost>},
#endif
};

void measure_grown(const Input &input) {
    const std::size_t size = size_of({input.workload, input.subject, {}, input.operation, input.are_apart});
    const auto least = least_of(sides, TURNS, [&](const Side &side) { return run(side, input); });
    const double length = length_of({input.workload, input.subject, {}, input.operation, input.are_apart});
    for (std::size_t place = 0; place < sides.size(); place++) {
        if (least[place].seconds > 0)
            print(input.workload, size, sides[place], least[place], length * radius_of(input));
    }
    std::fflush(stdout);
}

/// As long as so many of its edges are, in the middle.
std::int32_t edges_long(double edges, const Shape &shape) {
    const Input input{"", shape, {}, Operation::either, true};
    return std::int32_t(edges * length_of(input) / double(size_of(input)));
}

void measure_shape(const std::string &workload, const Shape &shape, std::initializer_list<double> edges,
                   bool are_apart) {
    for (const double count : edges) {
        const auto radius = edges_long(count, shape);
        const auto long_ = std::to_string(count);
        measure_grown(
            grown(workload + ", " + long_.substr(0, long_.find('.') + 2) + " edges", shape, radius, are_apart));
    }
}

}  // namespace

int main(int count, char **words) {
    const std::size_t divisor = count > 1 ? std::strtoull(words[1], nullptr, 10) : 1;
    for (const std::size_t size : {10'000, 100'000}) measure_shape("stars", stars(size / divisor, 7), {0.2, 1}, false);
    measure_shape("wavy ring", wavy(100'000 / divisor, 0, 0), {2, 10, 200}, true);
    for (int place = 2; place < count; place++) {
        std::int32_t degree = 0, west = 0, columns = 0;
        const Shape land = land_alone(words[place], degree, west, columns);
        const double kilometre = degree * 360 / 40'030.0;
        measure_grown(grown("land, 1 km", land, std::int32_t(kilometre), true));
        measure_grown(grown("land, 50 km", land, std::int32_t(50 * kilometre), true));
    }
}
