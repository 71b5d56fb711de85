// CGAL's sets of polygons, with exact constructions: its answer isn't rounded.
#include <CGAL/Boolean_set_operations_2.h>
#include <CGAL/Exact_predicates_exact_constructions_kernel.h>
#include <CGAL/Polygon_set_2.h>

#include "shapes.hpp"

namespace {

using Kernel = CGAL::Exact_predicates_exact_constructions_kernel;
using Set = CGAL::Polygon_set_2<Kernel>;
using One = Set::Polygon_with_holes_2;

One one_of(const Polygon &polygon) {
    std::vector<CGAL::Polygon_2<Kernel>> rings;
    for (const auto &ring : polygon) {
        rings.emplace_back();
        for (const auto &point : ring) rings.back().push_back({point.x, point.y});
    }
    return One(rings.front(), rings.begin() + 1, rings.end());
}

std::vector<One> many_of(const Shape &shape) {
    std::vector<One> many;
    for (const auto &polygon : shape) many.push_back(one_of(polygon));
    return many;
}

class ByCgal : public Overlay {
public:
    explicit ByCgal(const Input &input)
        : subject_(many_of(input.subject)), clip_(many_of(input.clip)), operation_(input.operation) {}

    void run() override {
        Set found, clip;
        found.join(subject_.begin(), subject_.end());
        clip.join(clip_.begin(), clip_.end());
        switch (operation_) {
        case Operation::both: found.intersection(clip); break;
        case Operation::either: found.join(clip); break;
        case Operation::first_alone: found.difference(clip); break;
        default: found.symmetric_difference(clip);
        }
        found.polygons_with_holes(std::back_inserter(found_));
    }

    double area() const override {
        Kernel::FT area = 0;
        for (const auto &polygon : found_) {
            area += polygon.outer_boundary().area();
            for (const auto &hole : polygon.holes()) area += hole.area();
        }
        return CGAL::to_double(area);
    }

private:
    std::vector<One> subject_, clip_, found_;
    Operation operation_;
};

}  // namespace

std::unique_ptr<Overlay> cgal_of(const Input &input) { return made<ByCgal>(input); }
