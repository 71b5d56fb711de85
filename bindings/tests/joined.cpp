// Tiles joined from C++, and overlays by threads, beside those of one call.
#include <algorithm>
#include <itree.hpp>
#include <random>

#include "counted.h"
#include "plain_overlay.h"
#include "refuse.h"

namespace {

using itree::FillRule;
using itree::Operation;
using PointRing = std::vector<itree::Point>;
using PointRings = std::vector<PointRing>;

/// What a call throws, if it is this.
template <typename Fault, typename Call>
std::string thrown(const Call &call) {
    try {
        (void)call();
    } catch (const Fault &fault) {
        return fault.what();
    }
    return "";
}

/// The rings of each polygon, each from its least point on, in order.
std::vector<PointRings> in_order(const itree::Polygons &polygons) {
    const auto is_less = [](const itree::Point &one, const itree::Point &other) {
        return std::pair(one.x, one.y) < std::pair(other.x, other.y);
    };
    const auto is_before = [&](const PointRing &one, const PointRing &other) {
        return std::lexicographical_compare(one.begin(), one.end(), other.begin(), other.end(), is_less);
    };
    std::vector<PointRings> all;
    for (const auto &polygon : polygons) {
        PointRings rings;
        for (const auto &ring : polygon) {
            rings.emplace_back(ring.begin(), ring.end());
            std::rotate(rings.back().begin(), std::min_element(rings.back().begin(), rings.back().end(), is_less),
                        rings.back().end());
        }
        std::sort(rings.begin() + 1, rings.end(), is_before);
        all.push_back(rings);
    }
    std::sort(all.begin(), all.end(), [&](const PointRings &one, const PointRings &other) {
        return std::lexicographical_compare(one.begin(), one.end(), other.begin(), other.end(), is_before);
    });
    return all;
}

void checks_join() {
    const PointRings field{{{0, 0}, {9, 0}, {9, 9}, {0, 9}}}, pond{{{3, 3}, {6, 3}, {6, 6}, {3, 6}}};
    const itree::Window left{-1, -1, 5, 10}, right{5, -1, 10, 10};
    const auto in = [&](const itree::Window &window) {
        return itree::overlay_in(window, field, pond, Operation::difference, FillRule::non_zero);
    };
    const auto one = in(left), other = in(right);
    const auto wanted = in_order(itree::overlay(field, pond, Operation::difference, FillRule::non_zero));
    const auto joined = itree::join({{left, one.layer()}, {right, other.layer()}});
    check("a field with its pond is joined", in_order(joined) == wanted);
    check("in any order", in_order(itree::join({{right, other.layer()}, {left, one.layer()}})) == wanted);
    check("and again", in_order(itree::join({{{-1, -1, 10, 10}, joined.layer()}})) == wanted);
    check("no tiles are nothing", itree::join({}).empty());
    check("windows that overlap are thrown", thrown<itree::WindowFault>([&] {
                                                 return itree::join({{left, one.layer()}, {left, one.layer()}});
                                             }) != "");
    const std::size_t behind[] = {9}, first[] = {1}, four[] = {4};
    for (const auto &faulty :
         {itree::Layer(field[0], behind, first), itree::Layer(field[0], four, behind), itree::Layer({}, four, first)}) {
        check("a ring that stops behind the points is thrown",
              thrown<std::invalid_argument>([&] {
                  return itree::join({{left, faulty}});
              }) == "a ring stops before it begins, or behind the points");
    }
    const std::size_t rings[] = {4, 4}, stops[] = {1};
    check("what is left over is left out",
          itree::join({{{0, 0, 9, 9}, {field[0], rings, stops}}, {{9, 0, 20, 9}, {}}}).size() == 1);
}

void checks_unfit() {
    const PointRing square{{0, 0}, {5, 0}, {5, 5}, {0, 5}};
    const std::size_t four[] = {4}, one[] = {1};
    check("a polygon that leaves its window is thrown", thrown<itree::Unfit>([&] {
                                                            return itree::join({{{0, 0, 4, 5}, {square, four, one}}});
                                                        }) != "");
}

PointRings random_rectangles(std::mt19937 &random, std::size_t count, std::int32_t side, std::int32_t widest) {
    const auto number = [&](std::int32_t below) {
        return static_cast<std::int32_t>(random() % static_cast<std::uint32_t>(below));
    };
    PointRings rings;
    for (std::size_t place = 0; place < count; place++) {
        const auto x = number(side), y = number(side), across = 1 + number(widest), up = 1 + number(widest);
        rings.push_back({{x, y}, {x + across, y}, {x + across, y + up}, {x, y + up}});
    }
    return rings;
}

/// The same by so many windows or so, few points though there are.
itree::Polygons by_windows(const PointRings &subject, const PointRings &clip, Operation operation, FillRule rule,
                           std::size_t count, std::size_t threads) {
    const auto subject_rings = itree::detail::rings_of(subject), clip_rings = itree::detail::rings_of(clip);
    const auto sample =
        itree::detail::sample_of(itree::detail::points_of(subject_rings), itree::detail::points_of(clip_rings));
    const auto windows = itree::detail::windows_of({-1, -1, 100, 90}, sample, count);
    return itree::detail::overlay_windows(subject_rings, clip_rings, operation, rule, windows, threads);
}

void checks_windows() {
    std::mt19937 random(57);
    bool ok = true;
    for (int round = 0; round < 500; round++) {
        const auto subject = random_rectangles(random, 20, 64, 16), clip = random_rectangles(random, 20, 64, 16);
        const auto operation = static_cast<Operation>(round % 4);
        const auto rule = static_cast<FillRule>(round / 4 % 4);
        const auto wanted = in_order(itree::overlay(subject, clip, operation, rule));
        const auto count = 1 + random() % 16, threads = 1 + random() % 4;
        ok = ok && in_order(by_windows(subject, clip, operation, rule, count, threads)) == wanted;
    }
    check("rectangles by windows, as by one call", ok);
}

/// Goes over the edges of rings, from end to end.
template <typename Do>
void for_edges(const itree::Rings &rings, const Do &act) {
    std::size_t start = 0;
    for (const auto end : rings.ends) {
        for (auto place = start; place < end; place++) {
            act(rings.points[place], rings.points[place + 1 < end ? place + 1 : start]);
        }
        start = end;
    }
}

/// How far the point at these halves lies to the left of the edge, times its length, in quarters.
std::int32_t leftwards(const itree::Point &from, const itree::Point &to, const itree::Point &halves) {
    return (to.x - from.x) * 2 * (halves.y - 2 * from.y) - (halves.x - 2 * from.x) * (to.y - from.y) * 2;
}

/// How often the rings wind around the point at these halves.
int winding(const itree::Rings &rings, const itree::Point &halves) {
    int found = 0;
    for_edges(rings, [&](const itree::Point &from, const itree::Point &to) {
        const bool is_from = 2 * from.y <= halves.y, is_to = 2 * to.y <= halves.y;
        if (is_from && !is_to) found += leftwards(from, to, halves) > 0;
        if (!is_from && is_to) found -= leftwards(from, to, halves) < 0;
    });
    return found;
}

/// Whether an edge that doesn't run along an axis comes as near as half a unit, on both axes, to the point at these halves.
bool is_near(const itree::Rings &rings, const itree::Point &halves) {
    bool found = false;
    for_edges(rings, [&](const itree::Point &from, const itree::Point &to) {
        if (from.x == to.x || from.y == to.y) return;
        const auto reach = 2 * (std::abs(to.x - from.x) + std::abs(to.y - from.y));
        found = found || (std::abs(leftwards(from, to, halves)) <= reach &&
                          std::abs(halves.x - from.x - to.x) <= std::abs(to.x - from.x) + 1 &&
                          std::abs(halves.y - from.y - to.y) <= std::abs(to.y - from.y) + 1);
    });
    return found;
}

PointRings random_triangles(std::mt19937 &random, std::size_t count) {
    const auto number = [&] { return static_cast<std::int32_t>(random() % 40); };
    PointRings rings;
    for (std::size_t place = 0; place < count; place++) {
        rings.push_back({{number(), number()}, {number(), number()}, {number(), number()}});
    }
    return rings;
}

/// Slanted edges may be moved at borders of windows: what lies further off than half a unit stays.
void checks_slanted() {
    std::mt19937 random(87);
    bool ok = true;
    std::size_t told = 0;
    for (int round = 0; round < 200; round++) {
        const auto subject = random_triangles(random, 5), clip = random_triangles(random, 5);
        const auto rule = round % 4, operation = round / 4 % 4;
        const auto subject_rings = itree::detail::rings_of(subject), clip_rings = itree::detail::rings_of(clip);
        const auto made = by_windows(subject, clip, static_cast<Operation>(operation), static_cast<FillRule>(rule),
                                     1 + random() % 16, 2);
        for (std::int32_t place = 0; place < 80 * 80; place++) {
            const itree::Point halves{place % 80, place / 80};
            if (is_near(subject_rings, halves) || is_near(clip_rings, halves)) continue;
            ok = ok && winding(made.rings(), halves) == plain_is_result(rule, operation, winding(subject_rings, halves),
                                                                        winding(clip_rings, halves));
            told++;
        }
    }
    check("triangles by windows, away from their edges", ok && told > 100000);
}

/// Whether the windows part a rectangle: their areas add up, and no two overlap.
bool are_parts(const std::vector<itree::Window> &windows, const itree::Window &whole) {
    std::int64_t area = 0;
    for (const auto &it : windows) {
        area += (std::int64_t(it.right) - it.left) * (std::int64_t(it.high) - it.low);
        const auto overlaps = [&](const itree::Window &other) {
            return it.left < other.right && other.left < it.right && it.low < other.high && other.low < it.high;
        };
        if (it.right <= it.left || it.high <= it.low || it.left < whole.left || it.right > whole.right) return false;
        if (it.low < whole.low || it.high > whole.high) return false;
        if (std::count_if(windows.begin(), windows.end(), overlaps) != 1) return false;
    }
    return area == (std::int64_t(whole.right) - whole.left) * (std::int64_t(whole.high) - whole.low);
}

void checks_parts() {
    std::mt19937 random(67);
    bool ok = true;
    for (std::uint32_t round = 0; round < 2000; round++) {
        const auto number = [&] { return static_cast<std::int32_t>(random() % (1 + round % 50)); };
        std::vector<itree::Point> sample(1 + random() % 30);
        for (auto &point : sample) point = {number(), number()};
        ok = ok && are_parts(itree::detail::windows_of({-1, -1, 50, 60}, sample, 1 + random() % 64), {-1, -1, 50, 60});
    }
    check("windows part what they are made for", ok);
}

void checks_threads() {
    std::mt19937 random(77);
    const auto subject = random_rectangles(random, 40000, 4000, 20), clip = random_rectangles(random, 5000, 4000, 20);
    const auto small = random_rectangles(random, 9, 64, 16);
    const auto call = [&](std::size_t threads) {
        return itree::overlay_threads(subject, clip, Operation::difference, FillRule::even_odd, threads);
    };
    const auto one = call(1), four = call(4);
    check("many points", one.points().size() > 1000);
    check("the number of threads makes no difference",
          std::equal(one.points().begin(), one.points().end(), four.points().begin(), four.points().end()));
    check("nor do threads",
          in_order(one) == in_order(itree::overlay(subject, clip, Operation::difference, FillRule::even_odd)));
    check("few points are one call",
          in_order(itree::overlay_threads(small, {}, Operation::union_, FillRule::non_zero, 0)) ==
              in_order(itree::simplify(small, FillRule::non_zero)));
    auto far = subject;
    far.push_back({{INT32_MIN, 0}, {INT32_MAX, 0}, {0, INT32_MAX}});
    check("so are points at the ends of 32 bits",
          itree::overlay_threads(far, {}, Operation::union_, FillRule::non_zero, 2).points()[0].x == INT32_MIN);
    const itree::MemoryLimit limit(1000);
    check("a fault of a thread is thrown", thrown<std::bad_alloc>([&] { return call(2); }) != "");
    itree::Stopper stopper;
    stopper.stop();
    check("so is a stop of this one", thrown<itree::Stopped>([&] { return call(1); }) != "");
    const std::vector<itree::Point> points{{0, 0}, {9, 0}, {9, 9}};
    const std::size_t falling[] = {3, 2};
    check("so are faulty rings",
          thrown<std::invalid_argument>([&] {
              return itree::overlay_threads({points, falling}, {}, Operation::union_, FillRule::non_zero, 2);
          }) == "a ring stops before it begins, or behind the points");
}

void checks_whole_window() {
    const itree::Window left{0, 0, 5, 9}, right{5, 0, 9, 9};
    check("two windows make up one", itree::whole_window({left, right}) == itree::Window{0, 0, 9, 9});
    check("and a gap none", !itree::whole_window({left, {6, 0, 9, 9}}) && !itree::whole_window({}));
    check("windows that overlap", thrown<itree::WindowFault>([&] { return itree::whole_window({left, left}); }) != "");
}

void checks_refused() {
    const PointRings field{{{0, 0}, {9, 0}, {9, 9}, {0, 9}}};
    const itree::Window left{-1, -1, 5, 10}, right{5, -1, 10, 10};
    const auto one = itree::overlay_in(left, field, {}, Operation::union_, FillRule::non_zero);
    const auto other = itree::overlay_in(right, field, {}, Operation::union_, FillRule::non_zero);
    std::size_t requests = 0;
    for (bool refused = true; refused; requests++) {
        refuse_after(requests);
        try {
            (void)itree::join({{left, one.layer()}, {right, other.layer()}});
            refused = false;
        } catch (const std::bad_alloc &) {
        }
        refuse_after(SIZE_MAX);
    }
    check("refused memory is thrown for what is joined", requests > 4);
}

}  // namespace

int main() {
    checks_join();
    checks_whole_window();
    checks_unfit();
    checks_windows();
    checks_slanted();
    checks_parts();
    checks_threads();
    checks_refused();
    return told();
}
