// Grids, positions and well-known binary from C++: by numbers that were reckoned by hand, at faults, and with refused
// memory.
#include <array>
#include <cstring>
#include <itree.hpp>
#include <limits>
#include <string_view>

#include "counted.h"
#include "refuse.h"

namespace {

using itree::FillRule;
using itree::Grid;
using itree::Operation;

/// A point as another library has it.
struct Corner {
    double x, y;
};

/// A point that converts to one of the library's.
struct Pixel {
    std::int32_t column, row;

    operator itree::Point() const { return {column, row}; }
};

using Corners = std::vector<std::vector<Corner>>;
using PointRing = std::vector<itree::Point>;

constexpr double none = std::numeric_limits<double>::quiet_NaN();

/// Whether the polygons are one ring, which has the wanted points from whichever on.
bool is_one_ring(const itree::Polygons &polygons, const PointRing &wanted) {
    if (polygons.size() != 1 || polygons[0].size() != 1 || polygons.points().size() != wanted.size()) return false;
    const auto ring = polygons[0].outer();
    for (std::size_t turn = 0; turn < wanted.size(); turn++) {
        bool is_same = true;
        for (std::size_t place = 0; place < wanted.size(); place++) {
            is_same = is_same && ring[(place + turn) % wanted.size()] == wanted[place];
        }
        if (is_same) return true;
    }
    return false;
}

/// What a call throws of this type, in words; or nothing where it doesn't.
template <typename Fault, typename Call>
std::string thrown(Call call) {
    try {
        call();
    } catch (const Fault &fault) {
        return fault.what();
    }
    return "";
}

void checks_braces() {
    const PointRing square{{0, 0}, {2, 0}, {2, 2}, {0, 2}}, both{{0, 0}, {3, 0}, {3, 2}, {0, 2}};
    check("rings in braces",
          is_one_ring(itree::overlay({{{0, 0}, {2, 0}, {2, 2}, {0, 2}}}, {{{2, 0}, {3, 0}, {3, 2}, {2, 2}}},
                                     Operation::union_, FillRule::non_zero),
                      both));
    check("two of them",
          is_one_ring(itree::overlay({{{0, 0}, {2, 0}, {2, 2}, {0, 2}}, {{2, 0}, {3, 0}, {3, 2}, {2, 2}}}, {},
                                     Operation::union_, FillRule::non_zero),
                      both));
    check("vectors in braces", is_one_ring(itree::simplify({square, square}, FillRule::non_zero), square));
    check("a ring in braces",
          is_one_ring(itree::simplify({{{0, 0}, {2, 0}, {2, 2}, {0, 2}}}, FillRule::positive), square));
    check("an empty one", itree::simplify({{}}, FillRule::non_zero).empty());
    const std::vector<std::array<Pixel, 4>> pixels{{Pixel{0, 0}, Pixel{2, 0}, Pixel{2, 2}, Pixel{0, 2}}};
    check("what converts to points", is_one_ring(itree::simplify(pixels, FillRule::non_zero), square));
}

void checks_grids() {
    const Corners square{{{0, 0}, {1, 0}, {1, 1}, {0, 1}}}, far{{{3, 3}, {5, 3}, {5, 5}}};
    const auto grid = Grid::fit(square);
    check("a fitted grid", grid.unit() == 0x1p-31 && grid.origin() == itree::Position{0.5, 0.5});
    check("its numbers", grid.get() == ::itree_grid{1 << 30, 1 << 30, -31});
    check("of two ranges", Grid::fit(square, far) == Grid(::itree_grid{5 << 27, 5 << 27, -28}));
    check("of none", Grid::fit() == Grid() && Grid::fit(Corners()) == Grid() && Grid() != grid);
    check("a point and back", grid.round({0.75, 0.25}) == itree::Point{1 << 29, -(1 << 29)} &&
                                  grid.back({1 << 29, -(1 << 29)}) == itree::Position{0.75, 0.25});
    const std::vector<itree::Position> two{{0.5, 0.5}, {1, 0}};
    const auto points = grid.round_all(two);
    check("points and back", points == PointRing{{0, 0}, {1 << 30, -(1 << 30)}} && grid.back_all(points) == two);
    check("no points", grid.round_all({}).empty() && grid.back_all({}).empty());
    check("a grid that is none", thrown<std::invalid_argument>([] {
                                     (void)Grid(::itree_grid{0, 0, 971});
                                 }) == "there is no such grid");
    check("a position off the grid", thrown<itree::OffGrid>([&] {
                                         (void)grid.round_all({{0, 0}, {7, 0}});
                                     }) == "the point at place 1 isn't finite or is off the grid");
    check("one that isn't finite", !thrown<itree::OffGrid>([&] {
                                        (void)Grid::fit(square, Corners{{{0, none}}});
                                    }).empty());
    check("positions too far apart", thrown<std::invalid_argument>([] {
                                         (void)Grid::fit(Corners{{{-1e308, 0}, {1e308, 0}}});
                                     }) == "the points lie too far apart for a grid");
}

void checks_positions() {
    const Corners square{{{0, 0}, {1, 0}, {1, 1}, {0, 1}}};
    const std::array<std::array<Corner, 4>, 1> half{{{{{0.5, 0}, {1, 0}, {1, 1}, {0.5, 1}}}}};
    const Grid grid(::itree_grid{0, 0, -2});
    const PointRing left{{0, 0}, {2, 0}, {2, 4}, {0, 4}}, whole{{0, 0}, {4, 0}, {4, 4}, {0, 4}};
    const auto rest = itree::overlay(square, half, Operation::difference, FillRule::non_zero, grid);
    check("an overlay of positions", is_one_ring(rest, left));
    check("polygons are of the grid",
          is_one_ring(itree::overlay(rest, half, Operation::union_, FillRule::non_zero, grid), whole));
    check("rings are too",
          is_one_ring(itree::overlay(square, rest.rings(), Operation::intersection, FillRule::non_zero, grid), left));
    check("positions in braces", is_one_ring(itree::overlay({{{0, 0}, {0.5, 0}, {0.5, 1}, {0, 1}}}, {},
                                                            Operation::union_, FillRule::non_zero, grid),
                                             left));
    check("simplified", is_one_ring(itree::simplify(square, FillRule::even_odd, grid), whole));
    const std::vector<std::vector<itree::Position>> own{{{0, 0}, {0.5, 0}, {0.5, 1}, {0, 1}}};
    check("positions of the library", is_one_ring(itree::simplify(own, FillRule::even_odd, grid), left));
    try {
        (void)itree::simplify(Corners{{{0, 0}, {1, 0}}, {{1, none}}}, FillRule::non_zero, grid);
        check("a position that isn't finite is thrown", false);
    } catch (const itree::OffGrid &fault) {
        check("a position that isn't finite is thrown", fault.index() == 2);
    }
}

void checks_wkb() {
    const Grid grid(::itree_grid{0, 0, -1});
    const auto polygons = itree::overlay({{{0, 0}, {18, 0}, {18, 18}, {0, 18}}}, {{{6, 6}, {12, 6}, {12, 12}, {6, 12}}},
                                         Operation::difference, FillRule::non_zero);
    const auto bytes = itree::to_wkb(polygons, grid, 4326);
    check("a MultiPolygon", bytes.size() == 13 + 9 + 2 * (4 + 5 * 16) && itree::wkb_srid(bytes) == 4326);
    const auto shapes = itree::read_wkb(itree::Wkb(bytes), grid);
    check("is read again",
          shapes.size() == 1 && shapes[0].size() == 2 && shapes.points().size() == 8 && !shapes.empty());
    check("its points", std::equal(shapes.points().begin(), shapes.points().end(), polygons.points().begin()));
    check("its offsets", shapes.ring_offsets()[2] == 8 && shapes.shape_offsets().size() == 2);
    const auto again = itree::overlay(shapes, {}, Operation::union_, FillRule::positive);
    check("shapes are rings", again.size() == 1 && again[0].holes().size() == 1);
    const auto each = itree::to_wkb_each(polygons, grid);
    check("each polygon", each.offsets == std::vector<std::size_t>{0, 9 + 2 * (4 + 5 * 16)} &&
                              each.bytes.size() == each.offsets.back() && itree::wkb_srid(each.bytes) == 0);
    check("and in it the same", std::memcmp(each.bytes.data() + 1, bytes.data() + 14, each.bytes.size() - 1) == 0 &&
                                    itree::read_wkb(each.wkb(), grid).points().size() == 8);
    const Grid fitted = Grid::fit(itree::Wkb(bytes));
    check("a grid for it",
          fitted == Grid::fit(Corners{{{0, 0}, {9, 9}}}) && fitted == Grid::fit(Corners{{{3, 3}, {4, 9}}}, each.wkb()));
}

void checks_faulty_wkb() {
    const Grid grid(::itree_grid{0, 0, -1});
    const std::string_view text("\1\1\0\0\0", 5);
    try {
        (void)itree::read_wkb(itree::Wkb(text), grid);
        check("a faulty shape is thrown", false);
    } catch (const itree::WkbFault &fault) {
        check("a faulty shape is thrown", fault.kind() == ITREE_WKB_KIND && fault.shape() == 0 && fault.byte() <= 1);
        check("in words", std::string(fault.what()).find("a geometry is no polygon") != std::string::npos);
    }
    check("by fit too", !thrown<itree::WkbFault>([&] { (void)Grid::fit(itree::Wkb(text)); }).empty());
    check("nothing is written of nothing", itree::to_wkb(itree::Polygons(), grid).size() == 9 &&
                                               itree::to_wkb_each(itree::Polygons(), grid).bytes.empty());
    check("no shapes", itree::read_wkb(itree::Wkb({}, {}), grid).empty());
    const auto bytes = itree::to_wkb(itree::simplify({{{0, 0}, {2, 0}, {2, 2}}}, FillRule::non_zero), grid);
    std::size_t requests = 0;
    for (bool refused = true; refused; requests++) {
        refuse_after(requests);
        try {
            (void)itree::read_wkb(itree::Wkb(bytes), grid);
            refused = false;
        } catch (const std::bad_alloc &) {
        }
        refuse_after(SIZE_MAX);
    }
    check("refused memory is thrown for shapes", requests > 2);
}

void checks_limits() {
    const auto call = [] { return itree::simplify({{{0, 0}, {2, 0}, {2, 2}, {0, 2}}}, FillRule::non_zero).size(); };
    check("a call holds memory", call() == 1 && itree::memory_peak() > 0);
    const auto peak = itree::memory_peak();
    {
        const itree::MemoryLimit limit(peak - 1);
        check("one beyond a limit is refused", !thrown<std::bad_alloc>(call).empty());
    }
    const itree::MemoryLimit limit(peak);
    check("one within it answers", call() == 1);
    {
        itree::Stopper stopper;
        check("one that isn't stopped answers", call() == 1 && !stopper.is_stopped());
        stopper.stop();
        check("one that is doesn't", thrown<itree::Stopped>(call) == "the call was stopped" && stopper.is_stopped());
    }
    check("nothing stops it any more", call() == 1);
}

}  // namespace

int main() {
    checks_braces();
    checks_grids();
    checks_positions();
    checks_wkb();
    checks_faulty_wkb();
    checks_limits();
    return told();
}
