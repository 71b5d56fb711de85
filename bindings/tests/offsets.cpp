// Polygons that grow and shrink, and lines that grow, from C++: by hand, at faults, and with refused memory.
#include <itree.hpp>

#include "counted.h"
#include "plain_overlay.h"
#include "refuse.h"

namespace {

using itree::FillRule;
using PointRings = std::vector<std::vector<itree::Point>>;

const PointRings field{{{0, 0}, {9, 0}, {9, 9}, {0, 9}}};
const std::vector<itree::Point> square{{-1, -1}, {1, -1}, {1, 1}, {-1, 1}};

/// What a call throws, if it is this.
template <typename Fault, typename Call>
std::string thrown(const Call &call) {
    try {
        (void)call();
    } catch (const Fault &fault) {
        return fault.what();
    }
    return "";
}

bool is_ring(const itree::Polygons &polygons, itree::Span<itree::Point> wanted) {
    return polygons.size() == 1 && polygons[0].size() == 1 &&
           ::is_ring(polygons.points().data(), polygons.points().size(), wanted.data(), wanted.size());
}

void checks_grown() {
    const auto wider = itree::minkowski(field, square, FillRule::non_zero);
    check("a square by a square", is_ring(wider, {{-1, -1}, {10, -1}, {10, 10}, {-1, 10}}));
    const auto braces =
        itree::minkowski({{{0, 0}, {9, 0}, {9, 9}, {0, 9}}}, {{2, 0}, {0, 2}, {-2, 0}, {0, -2}}, FillRule::even_odd);
    check("rings and a shape in braces",
          is_ring(braces, {{0, -2}, {9, -2}, {11, 0}, {11, 9}, {9, 11}, {0, 11}, {-2, 9}, {-2, 0}}));
    const PointRings holed{field[0], {{3, 3}, {3, 5}, {5, 5}, {5, 3}}};
    check("a hole of two units closes",
          is_ring(itree::minkowski(holed, square, FillRule::non_zero), {{-1, -1}, {10, -1}, {10, 10}, {-1, 10}}));
    const auto again = itree::minkowski(wider, square, FillRule::positive);
    check("an answer grows again", is_ring(again, {{-2, -2}, {11, -2}, {11, 11}, {-2, 11}}));
    check("nothing stays nothing", itree::minkowski(PointRings(), square, FillRule::non_zero).empty());
    check("and so does what the rule leaves out", itree::minkowski(field, square, FillRule::negative).empty());
    const std::vector<std::vector<itree::Position>> half{{{0, 0}, {0.5, 0}, {0.5, 0.5}, {0, 0.5}}};
    const auto rounded = itree::minkowski(half, square, FillRule::non_zero, itree::Grid({0, 0, -2}));
    check("positions by a shape of a grid's units", is_ring(rounded, {{-1, -1}, {3, -1}, {3, 3}, {-1, 3}}));
}

void checks_joined() {
    using itree::Join;
    const std::vector<itree::Point> rhomb{{2, 0}, {0, 2}, {-2, 0}, {0, -2}};
    const auto mitred = itree::minkowski_joined(field, rhomb, FillRule::non_zero, Join::mitre);
    check("a square by a rhomb, mitred", is_ring(mitred, {{-2, -2}, {11, -2}, {11, 11}, {-2, 11}}));
    const auto limited = itree::minkowski_joined(field, rhomb, FillRule::non_zero, Join::mitre, 199);
    const auto round = itree::minkowski_joined(field, rhomb, FillRule::non_zero, Join::round);
    check("beyond the limit it is round", limited.points().size() == 8 && round.points().size() == 8);
    const std::vector<itree::Point> octagon{{3, 0}, {2, 2}, {0, 3}, {-2, 2}, {-3, 0}, {-2, -2}, {0, -3}, {2, -2}};
    const auto bevelled =
        itree::minkowski_joined({{{0, 0}, {9, 0}, {9, 9}, {0, 9}}}, octagon, FillRule::non_zero, Join::bevel);
    check("bevelled in braces",
          is_ring(bevelled, {{0, -3}, {9, -3}, {12, 0}, {12, 9}, {9, 12}, {0, 12}, {-3, 9}, {-3, 0}}));
    const std::vector<std::vector<itree::Position>> half{{{0, 0}, {0.5, 0}, {0.5, 0.5}, {0, 0.5}}};
    const auto on_grid =
        itree::minkowski_joined(half, rhomb, FillRule::non_zero, Join::mitre, 500, itree::Grid({0, 0, -2}));
    check("positions, mitred", is_ring(on_grid, {{-2, -2}, {4, -2}, {4, 4}, {-2, 4}}));
    check("a join that is none", thrown<std::invalid_argument>([&] {
                                     return itree::minkowski_joined(field, {}, FillRule::non_zero,
                                                                    static_cast<Join>(3));
                                 }) == "there is no such rule or join");
}

void checks_shrunk() {
    const auto less = itree::erode(field, square, FillRule::non_zero);
    check("a square less a square", is_ring(less, {{1, 1}, {8, 1}, {8, 8}, {1, 8}}));
    const auto braces =
        itree::erode({{{0, 0}, {9, 0}, {9, 9}, {0, 9}}}, {{-1, -1}, {5, -1}, {-1, 5}}, FillRule::even_odd);
    check("rings in braces, less a shape that lies aside", is_ring(braces, {{1, 1}, {4, 1}, {4, 4}, {1, 4}}));
    const PointRings holed{field[0], {{4, 4}, {4, 5}, {5, 5}, {5, 4}}};
    const auto larger = itree::erode(holed, square, FillRule::non_zero);
    check("a hole becomes larger", larger.size() == 1 && larger[0].size() == 2 && larger.points().size() == 8);
    const PointRings rooms{
        {{0, 0}, {9, 0}, {9, 4}, {20, 4}, {20, 0}, {29, 0}, {29, 9}, {20, 9}, {20, 6}, {9, 6}, {9, 9}, {0, 9}}};
    const auto apart = itree::erode(rooms, square, FillRule::non_zero);
    check("a corridor opens", apart.size() == 2 && apart.points().size() == 8);
    const auto again = itree::erode(less, square, FillRule::positive);
    check("an answer shrinks again", is_ring(again, {{2, 2}, {7, 2}, {7, 7}, {2, 7}}));
    check("until nothing is left",
          itree::erode(field, {{-5, -5}, {5, -5}, {5, 5}, {-5, 5}}, FillRule::non_zero).empty());
    check("nothing stays nothing", itree::erode(PointRings(), square, FillRule::non_zero).empty());
    const std::vector<std::vector<itree::Position>> half{{{0, 0}, {2.5, 0}, {2.5, 2.5}, {0, 2.5}}};
    const auto rounded = itree::erode(half, square, FillRule::non_zero, itree::Grid({0, 0, -2}));
    check("positions less a shape of a grid's units", is_ring(rounded, {{1, 1}, {9, 1}, {9, 9}, {1, 9}}));
}

void checks_lines() {
    const PointRings bend{{{0, 0}, {9, 0}, {9, 9}, {9, 0}}};
    const auto wide = itree::grow_lines(bend, square);
    check("a bend and back", is_ring(wide, {{-1, -1}, {10, -1}, {10, 10}, {8, 10}, {8, 1}, {-1, 1}}));
    const auto braces = itree::grow_lines({{{0, 0}, {9, 0}}}, {{-1, -1}, {5, -1}, {-1, 5}});
    check("lines in braces, by a shape that lies aside", is_ring(braces, {{-1, -1}, {14, -1}, {8, 5}, {-1, 5}}));
    const PointRings cross{{{0, 0}, {9, 0}}, {{4, -4}, {4, 4}}, {{20, 20}}, {}};
    const auto apart = itree::grow_lines(cross, square);
    check("a cross, and a line of one point", apart.size() == 2 && apart.points().size() == 12 + 4);
    const auto closed = itree::grow_lines(PointRings{{{0, 0}, {9, 0}, {9, 9}, {0, 9}, {0, 0}}}, square);
    check("a line that goes round leaves a hole", closed.size() == 1 && closed[0].size() == 2);
    check("no lines", itree::grow_lines(PointRings(), square).empty());
    const std::vector<std::vector<itree::Position>> half{{{0, 0}, {2.25, 0}}};
    const auto rounded = itree::grow_lines(half, square, itree::Grid({0, 0, -2}));
    check("positions by a shape of a grid's units", is_ring(rounded, {{-1, -1}, {10, -1}, {10, 1}, {-1, 1}}));
}

void checks_circles() {
    const auto circle = itree::circle(1000, 64);
    check("a circle", circle.corners.size() == 64 && circle.inner < 1000 && circle.inner > 990);
    check("its first corner", circle.corners[0] == itree::Point{1000, 0});
    const auto wider = itree::minkowski(field, circle.corners, FillRule::non_zero);
    check("grows a field", wider.size() == 1 && wider.points().size() == 68);
    for (const auto &[radius, most] : {std::pair<std::int32_t, std::size_t>{0, 64}, {5, 3}}) {
        const auto call = [r = radius, m = most] { return itree::circle(r, m); };
        check("no circle", thrown<std::invalid_argument>(call) == "a radius below 1, or fewer corners than 4");
    }
    refuse_after(0);
    check("no memory for one", thrown<std::bad_alloc>([] { return itree::circle(5, 64); }) != "");
    refuse_after(SIZE_MAX);
}

/// What a call by which polygons grow or shrink, or lines grow, throws of faulty shapes and rings.
template <typename By>
void checks_faults(const By &by) {
    check("a shape that runs clockwise", thrown<itree::ShapeFault>([&] {
                                             return by(field, {{-1, -1}, {-1, 1}, {1, 1}, {1, -1}}, FillRule::non_zero);
                                         }) == "a shape to grow or shrink by isn't convex around the origin");
    const std::size_t falling[] = {3, 2};
    check("faulty rings", thrown<std::invalid_argument>([&] {
                              return by(itree::Rings{field[0], falling}, square, FillRule::non_zero);
                          }) == "a ring stops before it begins, or behind the points");
    std::size_t requests = 0;
    for (bool refused = true; refused; requests++) {
        refuse_after(requests);
        try {
            (void)by(field, square, FillRule::non_zero);
            refused = false;
        } catch (const std::bad_alloc &) {
        }
        refuse_after(SIZE_MAX);
    }
    check("refused memory is thrown", requests > 4);
}

/// What one throws that takes a rule.
template <typename By>
void checks_rule(const By &by) {
    check("a rule that is none comes before", thrown<std::invalid_argument>([&] {
                                                  return by(field, {}, static_cast<FillRule>(4));
                                              }) == "there is no such rule or operation");
}

void checks_range() {
    const std::string words = "what grows or shrinks leaves 32 bits";
    const PointRings far{{{0, 0}, {INT32_MAX, 0}, {0, 9}}},
        thin{{{INT32_MAX - 1, 0}, {INT32_MAX, 0}, {INT32_MAX, 9}, {INT32_MAX - 1, 9}}};
    const auto grown = [&] { return itree::minkowski(far, square, FillRule::non_zero); };
    const auto left = [&] { return itree::erode(thin, {{-2, -2}, {2, -2}, {2, 2}, {-2, 2}}, FillRule::non_zero); };
    check("what leaves 32 bits", thrown<itree::RangeFault>(grown) == words);
    check("a side that moves out of them", thrown<itree::RangeFault>(left) == words);
    const auto line = [&] { return itree::grow_lines(far, square); };
    check("a line that leaves them", thrown<itree::RangeFault>(line) == words);
}

}  // namespace

int main() {
    checks_grown();
    checks_joined();
    checks_shrunk();
    checks_lines();
    checks_circles();
    const auto grow = [](const auto &rings, itree::Span<itree::Point> shape, FillRule rule) {
        return itree::minkowski(rings, shape, rule);
    };
    const auto shrink = [](const auto &rings, itree::Span<itree::Point> shape, FillRule rule) {
        return itree::erode(rings, shape, rule);
    };
    const auto widen = [](const auto &lines, itree::Span<itree::Point> shape, FillRule) {
        return itree::grow_lines(lines, shape);
    };
    checks_faults(grow);
    checks_faults(shrink);
    checks_faults([](const auto &rings, itree::Span<itree::Point> shape, FillRule rule) {
        return itree::minkowski_joined(rings, shape, rule, itree::Join::mitre);
    });
    checks_faults(widen);
    checks_rule(grow);
    checks_rule(shrink);
    checks_range();
    return told();
}
