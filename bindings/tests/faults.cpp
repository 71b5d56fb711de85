// Whether polygons are valid, or what is wrong with them, from C++: at shapes of each kind, at faults, and with refused memory.
#include <itree.hpp>

#include "counted.h"
#include "refuse.h"

namespace {

using itree::FaultKind;
using Ring = std::vector<itree::Point>;
using Shape = std::vector<Ring>;

const Ring big{{0, 0}, {9, 0}, {9, 9}, {0, 9}}, inner{{1, 1}, {2, 1}, {1, 2}}, far{{11, 1}, {12, 1}, {11, 2}};
const Ring bow{{0, 0}, {9, 9}, {9, 0}, {0, 9}}, across{{0, 4}, {4, 3}, {9, 4}, {4, 5}};

/// Whether it is a fault of this kind.
bool is_of(const std::optional<itree::PolygonsFault> &fault, FaultKind kind) { return fault && fault->kind == kind; }

bool is_point(const itree::Point &point, std::int32_t x, std::int32_t y) { return point == itree::Point{x, y}; }

void checks_kinds() {
    check("a square", itree::is_valid(Shape{big}) && !itree::polygons_fault(Shape{big}));
    check("a polygon with a hole", itree::is_valid(std::vector<Shape>{{big, inner}}));
    check("no polygons", itree::is_valid(std::vector<Shape>{}));
    const auto few = itree::polygons_fault(std::vector<Shape>{{big}, {{{0, 0}, {4, 4}}}});
    check("few points", is_of(few, FaultKind::few_points) && few->ring == 1);
    const auto itself = itree::polygons_fault(Shape{bow});
    check("a bow-tie", is_of(itself, FaultKind::meets_itself) && itself->ring == 0 &&
                           itself->one == itree::Edge{0, 0, 9, 9} && itself->other == itree::Edge{9, 0, 0, 9});
    const auto crossed = itree::polygons_fault(Shape{big, {{8, 4}, {12, 4}, {12, 5}}});
    check("squares that cross", is_of(crossed, FaultKind::rings_cross) && crossed->one != crossed->other);
    const auto outside = itree::polygons_fault(std::vector<Shape>{{far}, {big, far}});
    check("a polygon twice", is_of(outside, FaultKind::rings_cross));
    const auto hole = itree::polygons_fault(std::vector<Shape>{{inner}, {big, far}});
    check("a hole outside",
          is_of(hole, FaultKind::holes_outside) && hole->polygon == 1 && is_point(hole->point, 11, 1));
    const auto overlap = itree::polygons_fault(Shape{big, inner});
    check("a polygon in another one", is_of(overlap, FaultKind::polygons_overlap) && is_point(overlap->point, 1, 1));
    const auto apart = itree::polygons_fault(std::vector<Shape>{{far}, {big, across}});
    check("a polygon in two pieces", is_of(apart, FaultKind::disconnected) && apart->polygon == 1 && apart->ring == 1 &&
                                         is_point(apart->point, 9, 4));
    check("none of these is valid", !itree::is_valid(Shape{bow}) && !itree::is_valid(Shape{big, inner}));
}

void checks_shapes() {
    const auto polygons =
        itree::overlay(Shape{big}, Shape{inner}, itree::Operation::difference, itree::FillRule::non_zero);
    check("an answer", polygons.size() == 1 && polygons[0].size() == 2 && itree::is_valid(polygons));
    check("its lists", itree::is_valid(polygons.layer()));
    const itree::OwnLayer own(std::vector<Shape>{{big, inner}});
    check("a copy", itree::is_valid(own));
    const std::vector<std::size_t> ends{4};
    check("rings where they lie", !itree::is_valid(itree::Rings(bow, ends)));
    const std::vector<std::vector<itree::Position>> thin{{{0, 0}, {1, 0}, {1, 0.125}}};
    check("positions", itree::is_valid(thin, itree::Grid({0, 0, -3})));
    const auto fault = itree::polygons_fault(thin, itree::Grid({0, 0, 0}));
    check("are rounded to the grid", is_of(fault, FaultKind::few_points));
}

/// What a call throws, if it is this.
template <typename Fault, typename Call>
std::string thrown(const Call &call) {
    try {
        (void)call();
    } catch (const Fault &fault) {
        return fault.what();
    }
    return "";
}

void checks_faults() {
    const std::vector<std::size_t> behind{5}, four{4}, one{1}, none{};
    for (const auto &layer :
         {itree::Layer(big, behind, one), itree::Layer(big, four, behind), itree::Layer(big, four, none)}) {
        check("rings or polygons that stop where they can't",
              thrown<std::invalid_argument>([&] { return itree::is_valid(layer); }) != "");
    }
    std::size_t requests = 0;
    for (bool refused = true; refused; requests++) {
        const itree::OwnLayer own(std::vector<Shape>{{big, across}});
        refuse_after(requests);
        refused = thrown<std::bad_alloc>([&] { return itree::polygons_fault(own); }) != "";
        refuse_after(SIZE_MAX);
    }
    check("each request is refused in turn", requests > 5);
}

}  // namespace

int main() {
    checks_kinds();
    checks_shapes();
    checks_faults();
    return told();
}
