// Overlays from C++ beside a plain model, at faults, and with refused memory.
#include <algorithm>
#include <array>
#include <future>
#include <itree.hpp>
#include <random>

#include "counted.h"
#include "plain_overlay.h"
#include "refuse.h"

namespace {

using PointRing = std::vector<itree::Point>;
using PointRings = std::vector<PointRing>;

/// The ring from its least point on.
PointRing turned(itree::Span<itree::Point> ring) {
    PointRing points(ring.begin(), ring.end());
    const auto is_less = [](const itree::Point &one, const itree::Point &other) {
        return std::pair(one.x, one.y) < std::pair(other.x, other.y);
    };
    std::rotate(points.begin(), std::min_element(points.begin(), points.end(), is_less), points.end());
    return points;
}

/// The rings of each polygon, each from its least point on, and the polygons by the first of these.
std::vector<PointRings> in_order(const itree::Polygons &polygons) {
    std::vector<PointRings> all;
    for (const auto &polygon : polygons) {
        PointRings rings{turned(polygon.outer())};
        for (const auto &hole : polygon.holes()) rings.push_back(turned(hole));
        all.push_back(rings);
    }
    const auto key = [](const PointRings &rings) { return std::pair(rings[0][0].x, rings[0][0].y); };
    std::sort(all.begin(), all.end(), [&](const auto &one, const auto &other) { return key(one) < key(other); });
    return all;
}

using itree::FillRule;
using itree::Operation;

void checks_overlay() {
    const PointRings low{{{0, 0}, {2, 0}, {2, 2}, {0, 2}}}, high{{{1, 1}, {1, 3}, {3, 3}, {3, 1}, {1, 1}}};
    const PointRing left{{0, 0}, {2, 0}, {2, 1}, {1, 1}, {1, 2}, {0, 2}}, common{{1, 1}, {2, 1}, {2, 2}, {1, 2}};
    const PointRing right{{1, 2}, {2, 2}, {2, 1}, {3, 1}, {3, 3}, {1, 3}};
    const PointRing both{{0, 0}, {2, 0}, {2, 1}, {3, 1}, {3, 3}, {1, 3}, {1, 2}, {0, 2}};
    using Wanted = std::vector<PointRings>;
    const auto answer = [&](Operation operation) {
        return in_order(itree::overlay(low, high, operation, FillRule::non_zero));
    };
    check("the union of two squares", answer(Operation::union_) == Wanted{{both}});
    check("their intersection", answer(Operation::intersection) == Wanted{{common}});
    check("the one less the other", answer(Operation::difference) == Wanted{{left}});
    check("what is of just one", answer(Operation::xor_) == Wanted{{left}, {right}});
    const PointRings large{{{0, 0}, {9, 0}, {9, 9}, {0, 9}}}, small{{{3, 3}, {6, 3}, {6, 6}, {3, 6}}};
    const PointRings next{{{9, 9}, {12, 9}, {12, 12}, {9, 12}}};
    const auto with_hole = itree::overlay(large, small, Operation::difference, FillRule::even_odd);
    check("a square less a smaller one", in_order(with_hole) == Wanted{{large[0], {{3, 3}, {3, 6}, {6, 6}, {6, 3}}}});
    check("it has one hole", with_hole[0].size() == 2 && with_hole[0].holes().size() == 1 && !with_hole[0].empty());
    check("its points", with_hole.points().size() == 8 && with_hole[0][1].begin() == with_hole.points().begin() + 4);
    const auto filled = itree::overlay(with_hole, small, Operation::union_, FillRule::positive);
    check("polygons are rings of a further call", in_order(filled) == Wanted{large});
    check("and so are their rings",
          in_order(itree::simplify(with_hole.rings(), FillRule::positive)) == in_order(with_hole));
    check("the rings of one of them",
          in_order(itree::simplify(with_hole[0].holes(), FillRule::negative)) == Wanted{small});
    const auto corners = itree::overlay(large, next, Operation::union_, FillRule::non_zero);
    check("squares that touch at a corner", in_order(corners) == Wanted{large, next});
    const PointRings bow_tie{{{0, 0}, {3, 1}, {3, 0}, {0, 1}}};
    const PointRing tie{{0, 0}, {2, 1}, {0, 1}}, bow{{2, 1}, {3, 0}, {3, 1}};
    check("a ring that crosses itself", in_order(itree::simplify(bow_tie, FillRule::even_odd)) == Wanted{{tie}, {bow}});
}

void checks_rings() {
    const itree::Point points[] = {{0, 0}, {2, 0}, {2, 2}, {0, 2}, {5, 5}};
    const std::size_t ends[] = {4}, falling[] = {3, 2}, behind[] = {6};
    const std::array<std::array<itree::Point, 3>, 1> triangle{{{{{0, 0}, {2, 0}, {2, 2}}}}};
    const std::vector<PointRings> square{{{{0, 0}, {2, 0}, {2, 2}, {0, 2}}}}, half{{{{0, 0}, {2, 0}, {2, 2}}}};
    check("points and ends",
          in_order(itree::overlay({points, ends}, {}, Operation::xor_, FillRule::positive)) == square);
    const auto common =
        itree::overlay(itree::Rings(points, ends), triangle, Operation::intersection, FillRule::non_zero);
    check("with arrays of arrays", in_order(common) == half);
    auto polygons = itree::overlay({}, {}, Operation::union_, FillRule::non_zero);
    check("no polygons", polygons.empty() && polygons.points().empty() && polygons.begin() == polygons.end());
    check("offsets of 0 alone", polygons.ring_offsets().size() == 1 && polygons.polygon_offsets().size() == 1);
    polygons = itree::simplify(triangle, FillRule::non_zero);
    const auto first = polygons.points().data();
    auto moved = std::move(polygons);
    check("polygons that are moved stay where they are", moved.points().data() == first && moved.size() == 1);
    polygons = itree::Polygons();
    check("nothing is a polygon",
          polygons.empty() && polygons.rings().ends.empty() && polygons.polygon_offsets().empty());
    polygons = std::move(moved);
    check("polygons are taken over", in_order(polygons) == half && !std::is_copy_constructible_v<itree::Polygons>);
    check("they are taken to another thread",
          std::async(std::launch::async, [it = std::move(polygons)] { return it.points().size(); }).get() == 3);
    for (const auto &faulty : {itree::Rings(points, falling), itree::Rings(points, behind)}) {
        try {
            (void)itree::overlay(triangle, faulty, Operation::union_, FillRule::non_zero);
            check("a faulty ring is thrown", false);
        } catch (const std::invalid_argument &fault) {
            check("a faulty ring is thrown",
                  std::string(fault.what()) == "a ring stops before it begins, or behind the points");
        }
    }
    try {
        (void)itree::simplify(triangle, static_cast<FillRule>(4));
        check("a rule that is none is thrown", false);
    } catch (const std::invalid_argument &fault) {
        check("a rule that is none is thrown", std::string(fault.what()) == "there is no such rule or operation");
    }
    std::size_t requests = 0;
    for (bool refused = true; refused; requests++) {
        refuse_after(requests);
        try {
            (void)itree::overlay({points, ends}, {points, ends}, Operation::intersection, FillRule::non_zero);
            refused = false;
        } catch (const std::bad_alloc &) {
        }
        refuse_after(SIZE_MAX);
    }
    check("refused memory is thrown for polygons", requests > 4);
}

/// Rectangles by chance, which go either way.
PointRings random_rectangles(std::mt19937 &random) {
    const auto number = [&] { return static_cast<std::int32_t>(random() % 8); };
    PointRings rings;
    for (std::size_t count = random() % 5; count > 0; count--) {
        const auto x0 = number(), y0 = number(), x1 = number(), y1 = number();
        rings.push_back({{x0, y0}, {x1, y0}, {x1, y1}, {x0, y1}});
    }
    return rings;
}

int winding(const itree::Rings &rings, std::int32_t x, std::int32_t y) {
    return plain_winding(rings.points.data(), rings.ends.data(), rings.ends.size(), x, y);
}

void checks_overlays() {
    std::mt19937 random(37);
    bool ok = true;
    for (int round = 0; round < 2000; round++) {
        const auto subject = random_rectangles(random), clip = random_rectangles(random);
        const auto operation = static_cast<Operation>(round % 4);
        const auto rule = static_cast<FillRule>(round / 4 % 4);
        const auto polygons = itree::overlay(subject, clip, operation, rule);
        const auto subject_rings = itree::detail::rings_of(subject), clip_rings = itree::detail::rings_of(clip);
        for (std::int32_t place = 0; place < 81; place++) {
            const auto x = place % 9 - 1, y = place / 9 - 1;
            const auto wanted = plain_is_result(static_cast<std::int32_t>(rule), static_cast<std::int32_t>(operation),
                                                winding(subject_rings, x, y), winding(clip_rings, x, y));
            ok = ok && winding(polygons.rings(), x, y) == wanted;
        }
    }
    check("overlays of rectangles, as a plain look at each edge", ok);
}

}  // namespace

int main() {
    checks_overlay();
    checks_rings();
    checks_overlays();
    return told();
}
