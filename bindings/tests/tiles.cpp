// Overlays within a window from C++ beside a plain model, and rings that are cropped to one: at faults, and with refused memory.
#include <itree.hpp>
#include <random>

#include "counted.h"
#include "plain_overlay.h"
#include "refuse.h"

namespace {

using itree::FillRule;
using itree::Operation;
using PointRings = std::vector<std::vector<itree::Point>>;

const PointRings field{{{0, 0}, {9, 0}, {9, 9}, {0, 9}}}, pond{{{3, 3}, {6, 3}, {6, 6}, {3, 6}}};

/// What a call throws, if it is this.
template <typename Fault, typename Call>
std::string thrown(const Call &call) {
    try {
        (void)call();
    } catch (const Fault &fault) {
        return fault.what();
    }
    return "";
}

bool is_ring(const itree::Polygons &polygons, itree::Span<itree::Point> wanted) {
    return polygons.size() == 1 && polygons[0].size() == 1 &&
           ::is_ring(polygons.points().data(), polygons.points().size(), wanted.data(), wanted.size());
}

void checks_windows() {
    const itree::Window left{-1, -1, 5, 10}, right{5, -1, 10, 10};
    const auto one = itree::overlay_in(left, field, pond, Operation::difference, FillRule::non_zero);
    check("a tile", is_ring(one, {{0, 0}, {5, 0}, {5, 3}, {3, 3}, {3, 6}, {5, 6}, {5, 9}, {0, 9}}));
    const auto other = itree::overlay_in(right, field, pond, Operation::difference, FillRule::non_zero);
    check("and the next", is_ring(other, {{5, 0}, {9, 0}, {9, 9}, {5, 9}, {5, 6}, {6, 6}, {6, 3}, {5, 3}}));
    const auto braces = itree::overlay_in({-1, -1, 5, 10}, {{{0, 0}, {9, 0}, {9, 9}, {0, 9}}}, {}, Operation::union_,
                                          FillRule::even_odd);
    check("rings in braces", is_ring(braces, {{0, 0}, {5, 0}, {5, 9}, {0, 9}}));
    const std::vector<std::vector<itree::Position>> half{{{0, 0}, {0.5, 0}, {0.5, 0.5}, {0, 0.5}}};
    const auto grid = itree::Grid({0, 0, -2});
    const auto rounded = itree::overlay_in({0, 0, 1, 9}, half, {}, Operation::union_, FillRule::non_zero, grid);
    check("a window of a grid", is_ring(rounded, {{0, 0}, {1, 0}, {1, 2}, {0, 2}}));
    check("windows are compared", left == itree::Window{-1, -1, 5, 10} && left != right);
}

void checks_faults() {
    const auto call = [](const itree::Window &window, Operation operation) {
        return itree::overlay_in(window, field, pond, operation, FillRule::non_zero);
    };
    for (const auto &window : {itree::Window{5, 0, 5, 9}, itree::Window{0, 0, INT32_MAX, 9}}) {
        check("a window without points, or too far",
              thrown<itree::WindowFault>([&] { return call(window, Operation::union_); }) != "");
        check("an operation that is none comes before", thrown<std::invalid_argument>([&] {
                                                            return call(window, static_cast<Operation>(4));
                                                        }) == "there is no such rule or operation");
    }
    std::size_t requests = 0;
    for (bool refused = true; refused; requests++) {
        refuse_after(requests);
        try {
            (void)call({0, 0, 5, 9}, Operation::difference);
            refused = false;
        } catch (const std::bad_alloc &) {
        }
        refuse_after(SIZE_MAX);
    }
    check("refused memory is thrown for a tile", requests > 4);
}

void checks_cropped() {
    const PointRings rings{{{-50, -50}, {50, -50}, {50, 50}, {-50, 50}}, {{70, 70}, {80, 70}, {80, 80}}};
    const itree::Window window{0, 0, 4, 4};
    const auto cropped = itree::crop(window, rings);
    const std::vector<itree::Point> corners{{-2, -2}, {6, -2}, {6, 6}, {-2, 6}};
    check("a ring around a window has its corners, widened",
          cropped.size() == 2 && std::equal(corners.begin(), corners.end(), cropped[0].begin(), cropped[0].end()));
    check("and one far off nothing", cropped[1].empty());
    const itree::Rings again{cropped.points(), {cropped.offsets().begin() + 1, cropped.size()}};
    check("they are rings again", is_ring(itree::overlay_in(window, again, {}, Operation::union_, FillRule::non_zero),
                                          {{0, 0}, {4, 0}, {4, 4}, {0, 4}}));
    const auto grid = itree::Grid({0, 0, -2});
    const auto rounded = itree::crop(window, {{{0.25, 0.25}, {0.75, 0.25}, {0.25, 0.5}}}, grid);
    const std::vector<itree::Point> inner{{1, 1}, {3, 1}, {1, 2}};
    check("a ring within a window of a grid stays",
          std::equal(inner.begin(), inner.end(), rounded[0].begin(), rounded[0].end()));
    check("a window without points to crop to", thrown<itree::WindowFault>([&] {
                                                    return itree::crop({4, 0, 4, 4}, rings);
                                                }) != "");
    const std::size_t falling[] = {3, 2};
    check("faulty rings to crop", thrown<std::invalid_argument>([&] {
                                      return itree::crop(window, itree::Rings{rings[0], falling});
                                  }) == "a ring stops before it begins, or behind the points");
    refuse_after(0);
    check("refused memory is thrown for these",
          thrown<std::bad_alloc>([&] { return itree::crop(window, again); }) != "");
    refuse_after(SIZE_MAX);
}

/// Rectangles by chance, which go either way.
PointRings random_rectangles(std::mt19937 &random) {
    const auto number = [&] { return static_cast<std::int32_t>(random() % 8); };
    PointRings rings;
    for (std::size_t count = random() % 5; count > 0; count--) {
        const auto x0 = number(), y0 = number(), x1 = number(), y1 = number();
        rings.push_back({{x0, y0}, {x1, y0}, {x1, y1}, {x0, y1}});
    }
    return rings;
}

int winding(const itree::Rings &rings, std::int32_t x, std::int32_t y) {
    return plain_winding(rings.points.data(), rings.ends.data(), rings.ends.size(), x, y);
}

void checks_tiles() {
    std::mt19937 random(47);
    bool ok = true;
    for (int round = 0; round < 2000; round++) {
        const auto subject = random_rectangles(random), clip = random_rectangles(random);
        const auto operation = static_cast<Operation>(round % 4);
        const auto rule = static_cast<FillRule>(round / 4 % 4);
        const auto x0 = static_cast<std::int32_t>(random() % 8), y0 = static_cast<std::int32_t>(random() % 8);
        const itree::Window window{x0 - 1, y0 - 1, x0 + 1 + static_cast<std::int32_t>(random() % 8), y0 + 3};
        const auto polygons = itree::overlay_in(window, subject, clip, operation, rule);
        const auto all = itree::overlay(subject, clip, operation, rule);
        for (std::int32_t place = 0; place < 144; place++) {
            const auto x = place % 12 - 2, y = place / 12 - 2;
            const auto is_in = window.left <= x && x < window.right && window.low <= y && y < window.high;
            ok = ok && winding(polygons.rings(), x, y) == (is_in ? winding(all.rings(), x, y) : 0);
        }
    }
    check("tiles of rectangles, as the overlay in the window", ok);
}

}  // namespace

int main() {
    checks_windows();
    checks_faults();
    checks_cropped();
    checks_tiles();
    return told();
}
