// Many shapes at once from C++: by numbers that were reckoned by hand, beside plain models, at faults, and with refused
// memory.
#include <algorithm>
#include <array>
#include <itree.hpp>
#include <limits>
#include <random>

#include "counted.h"
#include "plain_overlay.h"
#include "refuse.h"

namespace {

using itree::Border;
using itree::FillRule;
using itree::Grid;
using itree::Operation;
using itree::Pair;
using itree::Side;

using PointRing = std::vector<itree::Point>;
using PointShape = std::vector<PointRing>;
using PointShapes = std::vector<PointShape>;

/// A point as another library has it.
struct Corner {
    double x, y;
};

using Corners = std::vector<Corner>;

PointRing square(std::int32_t x, std::int32_t y, std::int32_t side) {
    return {{x, y}, {x + side, y}, {x + side, y + side}, {x, y + side}};
}

/// The pairs in order.
std::vector<Pair> sorted(const itree::Pairs &pairs) {
    std::vector<Pair> all(pairs.begin(), pairs.end());
    std::sort(all.begin(), all.end());
    return all;
}

/// Whether the polygons are one ring, which has the wanted points from whichever on.
bool is_one_ring(const itree::PolygonList &polygons, const PointRing &wanted) {
    if (polygons.size() != 1 || polygons[0].size() != 1) return false;
    const auto ring = polygons[0].outer();
    return is_ring(ring.data(), ring.size(), wanted.data(), wanted.size()) != 0;
}

/// What a call throws of this type, in words; or nothing where it doesn't.
template <typename Fault, typename Call>
std::string thrown(Call call) {
    try {
        call();
    } catch (const Fault &fault) {
        return fault.what();
    }
    return "";
}

/// Whether each request for memory of a call, refused in turn, is thrown, and how many are made is more than 0.
template <typename Call>
bool throws_refusals(Call call) {
    std::size_t requests = 0;
    for (bool refused = true; refused; requests++) {
        refuse_after(requests);
        try {
            call();
            refused = false;
        } catch (const std::bad_alloc &) {
        }
        refuse_after(SIZE_MAX);
    }
    return requests > 1;
}

const PointShapes fields{{square(0, 0, 4)}, {square(10, 0, 4), {{11, 1}, {11, 3}, {13, 3}, {13, 1}}}, {}};
const PointShapes ponds{{square(2, 2, 10)}, {square(3, 3, 1), square(20, 20, 1)}};

void checks_candidates() {
    const std::vector<Pair> wanted{{0, 0}, {0, 1}, {1, 0}, {1, 1}};
    check("pairs whose boxes meet", sorted(itree::candidate_pairs(fields, ponds)) == wanted);
    const itree::OwnLayer own(fields);
    check("of a layer",
          own.size() == 3 && sorted(itree::candidate_pairs(own, own.layer())) == std::vector<Pair>{{0, 0}, {1, 1}});
    const auto all = itree::simplify(std::vector{square(0, 0, 2), square(5, 5, 2)}, FillRule::non_zero);
    check("of polygons", itree::candidate_pairs(all, all).size() == 2);
    const std::vector<PointRing> rings{square(0, 0, 2), square(2, 2, 2), square(9, 9, 1)};
    check("of rings, each a shape",
          sorted(itree::candidate_pairs(rings, rings)) == std::vector<Pair>{{0, 0}, {0, 1}, {1, 0}, {1, 1}, {2, 2}});
    check("of rings where they lie", itree::candidate_pairs(all.rings(), rings).size() == 2);
    check("of nothing", itree::candidate_pairs(PointShapes(), fields).empty() &&
                            itree::candidate_pairs(itree::Layer(), itree::Layer()).empty());
}

void checks_overlays() {
    const std::vector<Pair> pairs{{0, 0}, {1, 1}, {0, 1}, {2, 0}};
    const auto both = itree::overlay_each(fields, ponds, pairs, Operation::intersection, FillRule::non_zero);
    check("an answer for each pair", both.size() == 4 && both.ends().size() == 4 && both.all().size() == 2);
    check("the first", is_one_ring(both[0], square(2, 2, 2)));
    check("one that is empty", both[1].empty() && both[1].begin() == both[1].end());
    check("one behind it", is_one_ring(both[2], square(3, 3, 1)) && both[3].empty());
    std::size_t points = 0, count = 0;
    for (const auto &polygons : both) {
        for (const auto &polygon : polygons) points += polygon.outer().size();
        count++;
    }
    check("all of them in order", points == 8 && count == 4);
    const auto rest = itree::overlay_each(fields, ponds, {{1, 0}}, Operation::difference, FillRule::even_odd);
    check("a shape with its hole", rest[0].size() == 1 && rest[0][0].outer().size() == 10);
    auto again =
        itree::overlay_each(both.all(), itree::OwnLayer(ponds), {{1, 1}, {0, 0}}, Operation::xor_, FillRule::non_zero);
    check("polygons are shapes of a further call", is_one_ring(again[0], square(20, 20, 1)) && again[1].size() == 1);
    auto moved = std::move(again);
    check("overlays that are moved", moved.size() == 2 && !std::is_copy_constructible_v<itree::Overlays>);
    const std::vector<Pair> none;
    check("no pairs", itree::overlay_each(fields, ponds, none, Operation::union_, FillRule::non_zero).empty());
}

void checks_groups() {
    const PointShapes cells{{square(0, 0, 2)}, {square(2, 0, 2)}, {square(9, 9, 1)}, {square(0, 2, 2)}};
    const std::size_t places[] = {0, 1, 2, 0, 3}, ends[] = {2, 3, 3, 5}, none[] = {0, 0, 0, 0};
    const auto unions =
        itree::overlay_groups(cells, {places, ends}, itree::Layer(), {{}, none}, Operation::union_, FillRule::non_zero);
    const PointRing across{{0, 0}, {4, 0}, {4, 2}, {0, 2}}, up{{0, 0}, {2, 0}, {2, 4}, {0, 4}};
    check("unions of groups", unions.size() == 4 && is_one_ring(unions[0], across) && is_one_ring(unions[3], up));
    check("of one, and of none", is_one_ring(unions[1], square(9, 9, 1)) && unions[2].empty());
}

void checks_points() {
    const std::vector<itree::Point> points{{1, 1}, {4, 4}, {12, 2}, {10, 0}, {30, 30}};
    using Wanted = std::vector<Pair>;
    const auto answer = [&](Border border) {
        const auto pairs = itree::points_in(points, fields, FillRule::non_zero, border);
        return Wanted(pairs.begin(), pairs.end());
    };
    check("points in shapes, with the border", answer(Border::closed) == Wanted{{0, 0}, {1, 0}, {3, 1}});
    check("without it", answer(Border::open) == Wanted{{0, 0}});
    check("with its left and lower part", answer(Border::half_open) == Wanted{{0, 0}, {3, 1}});
    const auto all = itree::simplify(fields[1], FillRule::non_zero);
    check("points in braces, in polygons",
          itree::points_in({{10, 2}, {12, 2}}, all, FillRule::positive, Border::closed).size() == 1);
    check("no points", itree::points_in({}, fields, FillRule::positive, Border::closed).empty());
}

void checks_lines() {
    const std::vector<PointRing> roads{{{-2, 3}, {6, 3}}, {{5, 5}, {8, 8}}, {{1, -3}, {1, 2}, {2, 2}, {2, -9}}, {}};
    const auto inside = itree::clip_lines(roads, fields[0], Side::inside, FillRule::non_zero);
    const auto is_line = [](itree::Span<itree::Point> piece, const PointRing &wanted) {
        return std::equal(piece.begin(), piece.end(), wanted.begin(), wanted.end());
    };
    check("pieces inside", inside.size() == 4 && inside[0].size() == 1 && is_line(inside[0][0], {{0, 3}, {4, 3}}));
    check("none, and one that turns", inside[1].empty() && inside[2].size() == 1 && inside[3].empty() &&
                                          is_line(inside[2][0], {{1, 0}, {1, 2}, {2, 2}, {2, 0}}));
    check("their lists", inside.points().size() == 6 && inside.piece_offsets().size() == 3 &&
                             inside.line_offsets().size() == 5 && inside.line_offsets()[3] == 2);
    const auto outside = itree::clip_lines(roads, fields[0], Side::outside, FillRule::non_zero);
    check("pieces outside", outside[0].size() == 2 && is_line(outside[0][0], {{-2, 3}, {0, 3}}) &&
                                is_line(outside[0][1], {{4, 3}, {6, 3}}) && is_line(outside[1][0], roads[1]));
    const auto along =
        itree::clip_lines({{{0, 0}, {4, 0}}}, {{{0, 0}, {4, 0}, {4, 4}}}, Side::inside, FillRule::even_odd);
    check("in braces, along a border", along.size() == 1 && is_line(along[0][0], {{0, 0}, {4, 0}}));
    check("no lines", itree::clip_lines({}, fields[0], Side::inside, FillRule::non_zero).empty());
}

void checks_parents() {
    const std::vector<PointRing> rings{square(0, 0, 20), square(2, 2, 10), square(4, 4, 6),
                                       square(5, 5, 3),  square(6, 6, 1),  square(30, 0, 5)};
    const auto polygons = itree::simplify(rings, FillRule::even_odd);
    const auto parents = itree::parents(polygons);
    const auto with_corner = [&](std::int32_t x, std::int32_t y) -> std::optional<std::size_t> {
        for (std::size_t place = 0; place < polygons.size(); place++) {
            for (const auto &point : polygons[place].outer()) {
                if (point == itree::Point{x, y}) return place;
            }
        }
        return std::nullopt;
    };
    const auto land = with_corner(0, 0), island = with_corner(4, 4), far = with_corner(30, 0);
    check("who lies in no hole", polygons.size() == 4 && parents.size() == 4 && !parents[*land] && !parents[*far]);
    check("an island's land, and its own", parents[*island] == land && parents[*with_corner(6, 6)] == island);
    check("of a layer", itree::parents(polygons.layer()) == parents && itree::parents(itree::Layer()).empty());
}

void checks_positions() {
    const std::vector<std::vector<Corners>> plots{{{{0, 0}, {1, 0}, {1, 1}, {0, 1}}}, {{{5, 5}, {6, 5}, {6, 6}}}};
    const std::array<Corners, 1> half{{{{0.5, 0}, {1.5, 0}, {1.5, 1}, {0.5, 1}}}};
    const Corners wells{{0.75, 0.5}, {0.25, 0.25}, {5.75, 5.5}};
    const auto fitted = Grid::fit(plots, half, wells);
    check("a grid of shapes, of rings and of points",
          fitted.origin() == itree::Position{3, 3} && fitted == Grid::fit(plots));
    const Grid grid(::itree_grid{0, 0, -2});
    const auto pairs = itree::candidate_pairs(plots, half, grid);
    check("pairs of positions", sorted(pairs) == std::vector<Pair>{{0, 0}});
    const auto both = itree::overlay_each(plots, half, pairs, Operation::intersection, FillRule::non_zero, grid);
    check("an overlay of each", is_one_ring(both[0], {{2, 0}, {4, 0}, {4, 4}, {2, 4}}));
    const itree::OwnLayer own(plots, grid);
    check("a layer of them",
          itree::overlay_each(own, half, pairs, Operation::union_, FillRule::non_zero, grid)[0].size() == 1 &&
              sorted(itree::candidate_pairs(own, half, grid)) == sorted(pairs));
    const std::size_t two[] = {0, 1}, end[] = {2}, none[] = {0};
    const auto together =
        itree::overlay_groups(plots, {two, end}, half, {{}, none}, Operation::union_, FillRule::non_zero, grid);
    check("a group of them", together.size() == 1 && together[0].size() == 2);
    const auto in = itree::points_in(wells, plots, FillRule::non_zero, Border::open, grid);
    check("positions in shapes", std::vector<Pair>(in.begin(), in.end()) == std::vector<Pair>{{0, 0}, {1, 0}, {2, 1}});
    const auto pieces =
        itree::clip_lines(std::vector<Corners>{{{-1, 0.5}, {2, 0.5}}}, half, Side::inside, FillRule::non_zero, grid);
    check("lines of positions",
          pieces[0].size() == 1 && pieces[0][0].size() == 2 && pieces[0][0].front() == itree::Point{2, 2});
    check("positions in braces",
          itree::clip_lines({{{0, 0}, {0.5, 0.5}}}, {}, Side::outside, FillRule::non_zero, grid).points().size() == 2);
    const std::vector<std::vector<Corners>> faulty{{{{0, 0}, {std::numeric_limits<double>::infinity(), 1}}}};
    check("a position that isn't finite is thrown", thrown<itree::OffGrid>([&] {
                                                        (void)itree::OwnLayer(faulty, grid);
                                                    }) == "the point at place 1 isn't finite or is off the grid");
    check("for a fitted grid, too", !thrown<itree::OffGrid>([&] { (void)Grid::fit(plots, faulty); }).empty());
}

void checks_faults() {
    const itree::Point points[] = {{0, 0}, {2, 0}, {2, 2}};
    const std::size_t three[] = {3}, one[] = {1}, falling[] = {3, 2}, behind[] = {2};
    const itree::Layer good(points, three, one), rings(points, falling, one), shapes(points, three, behind);
    const std::string said = "a ring, a shape or a group stops where it can't, or a place is that of no shape";
    for (const auto &both : {std::pair(good, rings), std::pair(shapes, good)}) {
        check("faulty shapes are thrown",
              thrown<std::invalid_argument>([&] {
                  (void)itree::overlay_each(both.first, both.second, {{0, 0}}, Operation::union_, FillRule::non_zero);
              }) == said);
        check("for pairs of them, too",
              thrown<std::invalid_argument>([&] { (void)itree::candidate_pairs(both.first, both.second); }) == said);
    }
    for (const auto &pair : {Pair{1, 0}, Pair{0, 1}}) {
        check("a pair of no shape is thrown", thrown<std::invalid_argument>([&] {
                                                  (void)itree::overlay_each(good, good, {pair}, Operation::union_,
                                                                            FillRule::non_zero);
                                              }) == said);
    }
    check("groups that differ are thrown",
          thrown<std::invalid_argument>([&] {
              (void)itree::overlay_groups(good, {{}, {}}, good, {one, one}, Operation::union_, FillRule::non_zero);
          }) == said);
    check("of points in shapes", thrown<std::invalid_argument>([&] {
                                     (void)itree::points_in(points, shapes, FillRule::non_zero, Border::closed);
                                 }) == said);
    check("of lines", thrown<std::invalid_argument>([&] {
                          (void)itree::clip_lines(itree::Rings(points, falling), itree::Rings(points, three),
                                                  Side::inside, FillRule::non_zero);
                      }) == said);
    check("of parents", thrown<std::invalid_argument>([&] { (void)itree::parents(shapes); }) == said);
    const std::string choice = "there is no such rule, operation, border or side";
    check("a rule that is none is thrown",
          thrown<std::invalid_argument>([&] {
              (void)itree::overlay_each(good, good, {{0, 0}}, Operation::union_, static_cast<FillRule>(4));
          }) == choice);
    check("a border that is none is thrown",
          thrown<std::invalid_argument>(
              [&] { (void)itree::points_in(points, good, FillRule::non_zero, static_cast<Border>(3)); }) == choice);
    check("a side that is none is thrown",
          thrown<std::invalid_argument>(
              [&] { (void)itree::clip_lines({}, {}, static_cast<Side>(2), FillRule::non_zero); }) == choice);
}

void checks_refusals() {
    const itree::OwnLayer layer(fields), other(ponds);
    const itree::Point points[] = {{1, 1}, {3, 3}};
    const std::vector<PointRing> roads{{{-2, 1}, {6, 1}}};
    check("refused memory is thrown for pairs", throws_refusals([&] { (void)itree::candidate_pairs(layer, other); }));
    check("for overlays", throws_refusals([&] {
              (void)itree::overlay_each(layer, other, {{0, 0}, {1, 0}}, Operation::xor_, FillRule::non_zero);
          }));
    check("for points",
          throws_refusals([&] { (void)itree::points_in(points, layer, FillRule::non_zero, Border::closed); }));
    check("for lines",
          throws_refusals([&] { (void)itree::clip_lines(roads, fields[0], Side::inside, FillRule::non_zero); }));
    check("for parents", throws_refusals([&] { (void)itree::parents(layer.layer()); }));
}

/// Rectangles by chance, which go either way.
PointShape random_rectangles(std::mt19937 &random) {
    const auto number = [&] { return static_cast<std::int32_t>(random() % 8); };
    PointShape rings;
    for (std::size_t count = random() % 4; count > 0; count--) {
        const auto x0 = number(), y0 = number(), x1 = number(), y1 = number();
        rings.push_back({{x0, y0}, {x1, y0}, {x1, y1}, {x0, y1}});
    }
    return rings;
}

PointShapes random_shapes(std::mt19937 &random) {
    PointShapes shapes;
    for (std::size_t count = random() % 5; count > 0; count--) shapes.push_back(random_rectangles(random));
    return shapes;
}

/// Whether the boxes of two shapes share a point, by a look at each point.
bool boxes_meet(const PointShape &one, const PointShape &other) {
    const auto box = [](const PointShape &shape) {
        std::array<std::int32_t, 4> sides{99, 99, -99, -99};
        for (const auto &ring : shape) {
            for (const auto &[x, y] : ring) {
                sides = {std::min(sides[0], x), std::min(sides[1], y), std::max(sides[2], x), std::max(sides[3], y)};
            }
        }
        return sides;
    };
    const auto a = box(one), b = box(other);
    return a[0] <= b[2] && b[0] <= a[2] && a[1] <= b[3] && b[1] <= a[3];
}

bool is_same(const itree::PolygonList &some, const itree::Polygons &others) {
    auto other = others.begin();
    if (some.size() != others.size()) return false;
    for (const auto &polygon : some) {
        const auto same = *other++;
        if (polygon.size() != same.size()) return false;
        for (std::size_t ring = 0; ring < same.size(); ring++) {
            const auto one = polygon[ring], two = same[ring];
            if (!std::equal(one.begin(), one.end(), two.begin(), two.end())) return false;
        }
    }
    return true;
}

void checks_by_chance() {
    std::mt19937 random(41);
    bool pairs_are = true, overlays_are = true, points_are = true;
    for (int round = 0; round < 300; round++) {
        const auto shapes = random_shapes(random), others = random_shapes(random);
        const auto operation = static_cast<Operation>(round % 4);
        const auto rule = static_cast<FillRule>(round / 4 % 4);
        std::vector<Pair> wanted, all;
        for (std::size_t one = 0; one < shapes.size(); one++) {
            for (std::size_t other = 0; other < others.size(); other++) {
                if (boxes_meet(shapes[one], others[other])) wanted.push_back({one, other});
                all.push_back({one, other});
            }
        }
        pairs_are = pairs_are && sorted(itree::candidate_pairs(shapes, others)) == wanted;
        const auto overlays = itree::overlay_each(shapes, others, all, operation, rule);
        for (std::size_t place = 0; place < all.size(); place++) {
            const auto alone = itree::overlay(shapes[all[place].first], others[all[place].second], operation, rule);
            overlays_are = overlays_are && is_same(overlays[place], alone);
        }
        // The middles of unit squares, of coordinates that are twice as great, lie on no edge.
        PointShapes doubled = shapes;
        std::vector<itree::Point> middles;
        std::vector<Pair> in;
        for (auto &shape : doubled) {
            for (auto &ring : shape) {
                for (auto &point : ring) point = {2 * point.x, 2 * point.y};
            }
        }
        for (std::int32_t place = 0; place < 81; place++) {
            const auto x = place % 9 - 1, y = place / 9 - 1;
            middles.push_back({2 * x + 1, 2 * y + 1});
            for (std::size_t at = 0; at < shapes.size(); at++) {
                const auto rings = itree::detail::rings_of(shapes[at]);
                const auto winding = plain_winding(rings.points.data(), rings.ends.data(), rings.ends.size(), x, y);
                if (plain_is_inside(static_cast<std::int32_t>(rule), winding)) {
                    in.push_back({static_cast<std::size_t>(place), at});
                }
            }
        }
        const auto border = static_cast<Border>(round % 3);
        const auto found = itree::points_in(middles, doubled, rule, border);
        points_are = points_are && std::equal(found.begin(), found.end(), in.begin(), in.end());
    }
    check("pairs as a plain look at each box", pairs_are);
    check("overlays as one by one", overlays_are);
    check("points as a plain look at each edge", points_are);
}

}  // namespace

int main() {
    checks_candidates();
    checks_overlays();
    checks_groups();
    checks_points();
    checks_lines();
    checks_parents();
    checks_positions();
    checks_faults();
    checks_refusals();
    checks_by_chance();
    return told();
}
