// Ours, by its call for C.
#include <itree.h>

#include <stdexcept>

#include "shapes.hpp"

namespace {

__extension__ typedef __int128 Product;

/// Rings as the call takes them: all points, and where each ring stops among them.
struct Rings {
    std::vector<itree_point> points;
    std::vector<std::size_t> ends;

    explicit Rings(const Shape &shape) {
        for (const auto &polygon : shape) {
            for (const auto &ring : polygon) {
                points.insert(points.end(), ring.begin(), ring.end());
                ends.push_back(points.size());
            }
        }
    }
};

std::int32_t code_of(Operation operation) {
    switch (operation) {
    case Operation::both: return ITREE_INTERSECTION;
    case Operation::either: return ITREE_UNION;
    case Operation::first_alone: return ITREE_DIFFERENCE;
    default: return ITREE_XOR;
    }
}

Product cross(const itree_point &one, const itree_point &other) {
    return Product(one.x) * other.y - Product(one.y) * other.x;
}

/// What a call of the library answers, which this owns.
class Found {
public:
    Found(const Rings &subject, const Rings &clip, std::int32_t operation) {
        const auto status = itree_overlay(subject.points.data(), subject.points.size(), subject.ends.data(),
                                          subject.ends.size(), clip.points.data(), clip.points.size(), clip.ends.data(),
                                          clip.ends.size(), ITREE_NON_ZERO, operation, &polygons_);
        if (status != ITREE_ANSWERED) throw std::runtime_error("status " + std::to_string(status));
        point_count_ = itree_polygons_points(polygons_, &points_);
        ring_count_ = itree_polygons_ring_offsets(polygons_, &rings_) - 1;
    }
    ~Found() { itree_polygons_free(polygons_); }
    Found(const Found &) = delete;
    Found &operator=(const Found &) = delete;

    double area() const {
        Product twice = 0;
        for (std::size_t ring = 0; ring < ring_count_; ring++) {
            for (std::size_t place = rings_[ring]; place < rings_[ring + 1]; place++) {
                const bool is_last = place + 1 == rings_[ring + 1];
                twice += cross(points_[place], points_[is_last ? rings_[ring] : place + 1]);
            }
        }
        return double(twice) / 2;
    }

    std::size_t points() const { return point_count_; }

    Shape shape() const {
        const std::size_t *ends = nullptr;
        const std::size_t count = itree_polygons_polygon_offsets(polygons_, &ends);
        Shape shape(count - 1);
        for (std::size_t polygon = 0; polygon + 1 < count; polygon++) {
            for (std::size_t ring = ends[polygon]; ring < ends[polygon + 1]; ring++) {
                shape[polygon].emplace_back(points_ + rings_[ring], points_ + rings_[ring + 1]);
            }
        }
        return shape;
    }

private:
    itree_polygons *polygons_ = nullptr;
    const itree_point *points_ = nullptr;
    const std::size_t *rings_ = nullptr;
    std::size_t point_count_ = 0, ring_count_ = 0;
};

class ByItree : public Overlay {
public:
    explicit ByItree(const Input &input)
        : subject_(input.subject), clip_(input.clip), operation_(code_of(input.operation)) {}

    void run() override { found_ = std::make_unique<Found>(subject_, clip_, operation_); }
    double area() const override { return found_->area(); }
    std::size_t points() const override { return found_->points(); }

private:
    Rings subject_, clip_;
    std::int32_t operation_;
    std::unique_ptr<Found> found_;
};

}  // namespace

std::unique_ptr<Overlay> itree_of(const Input &input) { return made<ByItree>(input); }

Shape united_by_itree(const Shape &shape) { return Found(Rings(shape), Rings(Shape{}), ITREE_UNION).shape(); }
