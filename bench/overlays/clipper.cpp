// Clipper 6, with coordinates of 64 bits, and a tree of polygons as its answer.
#include <polyclipping/clipper.hpp>

#include "shapes.hpp"

namespace {

using namespace ClipperLib;

Paths paths_of(const Shape &shape) {
    Paths paths;
    for (const auto &polygon : shape) {
        for (const auto &ring : polygon) {
            Path path;
            for (const auto &point : ring) path.push_back(IntPoint(point.x, point.y));
            paths.push_back(std::move(path));
        }
    }
    return paths;
}

ClipType type_of(Operation operation) {
    switch (operation) {
    case Operation::both: return ctIntersection;
    case Operation::either: return ctUnion;
    case Operation::first_alone: return ctDifference;
    default: return ctXor;
    }
}

class ByClipper : public Overlay {
public:
    explicit ByClipper(const Input &input)
        : subject_(paths_of(input.subject)), clip_(paths_of(input.clip)), type_(type_of(input.operation)) {}

    void run() override {
        Clipper clipper;
        clipper.AddPaths(subject_, ptSubject, true);
        clipper.AddPaths(clip_, ptClip, true);
        clipper.Execute(type_, found_, pftNonZero, pftNonZero);
    }

    double area() const override {
        double area = 0;
        for (auto node = found_.GetFirst(); node; node = node->GetNext()) {
            area += (node->IsHole() ? -1 : 1) * std::abs(Area(node->Contour));
        }
        return area;
    }

private:
    Paths subject_, clip_;
    ClipType type_;
    PolyTree found_;
};

}  // namespace

std::unique_ptr<Overlay> clipper_of(const Input &input) { return made<ByClipper>(input); }
