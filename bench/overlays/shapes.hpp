// Polygons as each side of the measurement of overlays gets them, and what a side is.
#ifndef SHAPES_HPP
#define SHAPES_HPP

#include <itree.h>

#include <memory>
#include <string>
#include <vector>

/// Points of a ring in order; the last one's edge leads to the first one.
using Ring = std::vector<itree_point>;

/// Its outer ring, counterclockwise, and behind it its holes, clockwise.
using Polygon = std::vector<Ring>;

using Shape = std::vector<Polygon>;

enum class Operation { both, either, first_alone, one_alone };

/// What is measured: an operation on the points in some polygon of the one shape, and those in some of the other one.
struct Input {
    std::string workload;
    Shape subject, clip;
    Operation operation;
    /// Whether no two polygons of one shape have an inner point in common. GEOS and Boost.Geometry want that: where it
    /// isn't so, they unite the polygons of each shape first.
    bool are_apart;
};

/// A run of one side. It is made with the input in the side's own form; what it then does is measured, up to its answer
/// in the side's own form.
class Overlay {
public:
    virtual ~Overlay() = default;
    virtual void run() = 0;
    virtual double area() const = 0;
    /// How many points the answer has. Ours alone says it.
    virtual std::size_t points() const { return 0; }
};

template <typename Sided>
std::unique_ptr<Overlay> made(const Input &input) {
    return std::make_unique<Sided>(input);
}

std::unique_ptr<Overlay> itree_of(const Input &input);
std::unique_ptr<Overlay> clipper_of(const Input &input);
std::unique_ptr<Overlay> boost_polygon_of(const Input &input);
std::unique_ptr<Overlay> boost_geometry_of(const Input &input);
std::unique_ptr<Overlay> geos_of(const Input &input);
std::unique_ptr<Overlay> geos_on_grid_of(const Input &input);
std::unique_ptr<Overlay> cgal_of(const Input &input);

/// The union of the polygons, by ours.
Shape united_by_itree(const Shape &shape);

#endif
