// Boost.Polygon, with coordinates of 32 bits.
#include <boost/polygon/polygon.hpp>

#include "shapes.hpp"

namespace {

namespace bp = boost::polygon;
using namespace bp::operators;

using Set = bp::polygon_set_data<int>;

Set set_of(const Shape &shape) {
    Set set;
    for (const auto &polygon : shape) {
        for (const auto &ring : polygon) {
            std::vector<bp::point_data<int>> points;
            for (const auto &point : ring) points.push_back({point.x, point.y});
            const bp::polygon_data<int> one(points.begin(), points.end());
            set.insert(one, &ring != &polygon.front());
        }
    }
    return set;
}

class ByBoostPolygon : public Overlay {
public:
    explicit ByBoostPolygon(const Input &input)
        : subject_(set_of(input.subject)), clip_(set_of(input.clip)), operation_(input.operation) {}

    void run() override {
        Set found;
        switch (operation_) {
        case Operation::both: found = subject_ & clip_; break;
        case Operation::either: found = subject_ | clip_; break;
        case Operation::first_alone: found = subject_ - clip_; break;
        default: found = subject_ ^ clip_;
        }
        found.get(polygons_);
    }

    double area() const override {
        double area = 0;
        for (const auto &polygon : polygons_) area += double(bp::area(polygon));
        return area;
    }

private:
    Set subject_, clip_;
    Operation operation_;
    std::vector<bp::polygon_with_holes_data<int>> polygons_;
};

}  // namespace

std::unique_ptr<Overlay> boost_polygon_of(const Input &input) { return made<ByBoostPolygon>(input); }
