// GEOS, by its calls for C, in floating point, and on a grid of the unit 1.
#include <geos_c.h>

#include <stdexcept>

#include "shapes.hpp"

namespace {

class ByGeos : public Overlay {
public:
    ByGeos(const Input &input, bool is_on_grid)
        : subject_(shape_of(input.subject)),
          clip_(shape_of(input.clip)),
          operation_(input.operation),
          are_apart_(input.are_apart),
          is_on_grid_(is_on_grid) {}

    ~ByGeos() override { GEOS_finish_r(geos_); }

    void run() override {
        if (!are_apart_) {
            subject_ = united(subject_);
            clip_ = united(clip_);
        }
        if (found_) GEOSGeom_destroy_r(geos_, found_);
        found_ = there(overlaid());
    }

    double area() const override {
        double area = 0;
        GEOSArea_r(geos_, found_, &area);
        return area;
    }

private:
    /// The shape, or an error where GEOS has none.
    static GEOSGeometry *there(GEOSGeometry *shape) {
        if (!shape) throw std::runtime_error("no answer");
        return shape;
    }

    GEOSGeometry *ring_of(const Ring &ring) const {
        std::vector<double> numbers;
        for (std::size_t place = 0; place <= ring.size(); place++) {
            const auto &point = ring[place % ring.size()];
            numbers.insert(numbers.end(), {double(point.x), double(point.y)});
        }
        const auto points = GEOSCoordSeq_copyFromBuffer_r(geos_, numbers.data(), unsigned(ring.size() + 1), 0, 0);
        return there(GEOSGeom_createLinearRing_r(geos_, points));
    }

    GEOSGeometry *shape_of(const Shape &shape) const {
        std::vector<GEOSGeometry *> polygons;
        for (const auto &polygon : shape) {
            std::vector<GEOSGeometry *> rings;
            for (const auto &ring : polygon) rings.push_back(ring_of(ring));
            const auto holes = unsigned(rings.size() - 1);
            polygons.push_back(there(GEOSGeom_createPolygon_r(geos_, rings[0], rings.data() + 1, holes)));
        }
        const auto count = unsigned(polygons.size());
        return there(GEOSGeom_createCollection_r(geos_, GEOS_MULTIPOLYGON, polygons.data(), count));
    }

    GEOSGeometry *united(const GEOSGeometry *shape) const {
        return there(is_on_grid_ ? GEOSUnaryUnionPrec_r(geos_, shape, 1) : GEOSUnaryUnion_r(geos_, shape));
    }

    GEOSGeometry *overlaid() const {
        const bool grid = is_on_grid_;
        switch (operation_) {
        case Operation::both:
            return grid ? GEOSIntersectionPrec_r(geos_, subject_, clip_, 1)
                        : GEOSIntersection_r(geos_, subject_, clip_);
        case Operation::either:
            return grid ? GEOSUnionPrec_r(geos_, subject_, clip_, 1) : GEOSUnion_r(geos_, subject_, clip_);
        case Operation::first_alone:
            return grid ? GEOSDifferencePrec_r(geos_, subject_, clip_, 1) : GEOSDifference_r(geos_, subject_, clip_);
        default:
            return grid ? GEOSSymDifferencePrec_r(geos_, subject_, clip_, 1)
                        : GEOSSymDifference_r(geos_, subject_, clip_);
        }
    }

    GEOSContextHandle_t geos_ = GEOS_init_r();
    GEOSGeometry *subject_, *clip_, *found_ = nullptr;
    Operation operation_;
    bool are_apart_, is_on_grid_;
};

}  // namespace

std::unique_ptr<Overlay> geos_of(const Input &input) { return std::make_unique<ByGeos>(input, false); }

std::unique_ptr<Overlay> geos_on_grid_of(const Input &input) { return std::make_unique<ByGeos>(input, true); }
