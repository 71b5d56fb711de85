// The calls from C++ beside a plain sweep over std::map, at faults, with refused memory, and over a million segments.
#include <algorithm>
#include <array>
#include <cstdio>
#include <future>
#include <itree.hpp>
#include <map>
#include <numeric>
#include <random>

#include "counted.h"
#include "plain_locate.hpp"
#include "plain_meetings.hpp"
#include "plain_sweep.hpp"
#include "refuse.h"

namespace {

using Heights = std::vector<std::optional<std::int32_t>>;

/// Random segments and points in a box of this width and height.
struct Scene {
    std::vector<itree::Segment> segments;
    std::vector<itree::Point> points;

    Scene(std::mt19937 &random, std::size_t count, std::uint32_t width, std::uint32_t height, std::uint32_t longest) {
        const auto number = [&](std::uint32_t limit) { return static_cast<std::int32_t>(random() % limit); };
        for (std::size_t place = 0; place < count; place++) {
            const auto x0 = number(width);
            segments.push_back({x0, x0 + number(longest) - 2, number(height)});
            points.push_back({number(width), number(height)});
        }
    }
};

/// What `below` gives: heights, or the index of an overlap.
std::pair<Heights, std::optional<std::size_t>> outcome(const Scene &scene) {
    try {
        return {itree::below(scene.segments, scene.points), std::nullopt};
    } catch (const itree::Overlap &overlap) {
        return {{}, overlap.index()};
    }
}

void checks_random() {
    std::mt19937 random(27);
    bool ok = true;
    int overlapping = 0;
    for (std::size_t round = 0; round < 4000; round++) {
        const Scene scene(random, round % 14, 40, 8, 12);
        const auto wanted = plain::below(scene.segments, scene.points);
        ok = ok && outcome(scene) == wanted;
        overlapping += wanted.second.has_value();
    }
    check("a sweep answers as a plain one", ok);
    check("a quarter of random sweeps overlap, and a quarter doesn't", 1000 < overlapping && overlapping < 3000);
}

void checks_a_million() {
    std::mt19937 random(28);
    Scene scene(random, 1'000'000, 1'000'000'000, 2'000'000'000, 2000);
    check("a million segments and points", outcome(scene) == plain::below(scene.segments, scene.points));
    scene.segments.push_back(scene.segments[500'000]);
    scene.segments.back().x1 = scene.segments.back().x0 = scene.segments[500'000].x1 = scene.segments[500'000].x0;
    check("a million segments of which two collide", outcome(scene).second == 1'000'000);
}

void checks_spans() {
    const itree::Segment segments[] = {{0, 10, 5}, {2, 6, 8}, {6, 9, 3}};
    const std::array<itree::Point, 3> points{{{6, 7}, {2, 9}, {11, 9}}};
    const Heights wanted{5, 8, std::nullopt};
    check("an array of C, and one of C++", itree::below(segments, points) == wanted);
    check("a pointer and a length", itree::below({segments, 1}, {points.data(), 1}) == Heights{5});
    check("no segments", itree::below({}, points) == Heights(3));
    check("no points", itree::below(segments, {}).empty());
    check("empty vectors", itree::below(std::vector<itree::Segment>(), std::vector<itree::Point>()).empty());
}

void checks_braces() {
    check("one segment in braces", itree::below({{0, 10, 5}}, {{6, 7}}) == Heights{5});
    check("two, and a point at 0", itree::below({{0, 10, 5}, {2, 6, 8}}, {{0, 7}, {6, 9}}) == Heights{5, 8});
    check("an edge in braces", itree::meetings({{0, 0, 9, 9}}).empty());
    const std::vector<itree::Pair> wanted{{0, 1}};
    check("edges in braces", itree::meetings({{0, 0, 9, 9}, {0, 9, 9, 0}}) == wanted);
    check("an edge and a point in braces", itree::locate({{0, 0, 9, 9}}, {{0, 7}}).front() == 0u);
    check("nothing in braces",
          itree::below({}, {}).empty() && itree::meetings({}).empty() && itree::locate({}, {}).empty());
}

void checks_equality() {
    const itree::Segment segment{1, 2, 3};
    const itree::Point point{1, 2};
    const itree::Edge edge{1, 2, 3, 4};
    const itree::Pair pair{1, 2};
    check("equal segments", segment == itree::Segment{1, 2, 3} && segment != itree::Segment{1, 2, 4});
    check("equal points", point == itree::Point{1, 2} && point != itree::Point{1, 3});
    check("equal edges", edge == itree::Edge{1, 2, 3, 4} && edge != itree::Edge{1, 2, 3, 5});
    check("equal pairs", pair == itree::Pair{1, 2} && pair != itree::Pair{0, 2});
    check("pairs in order", pair < itree::Pair{2, 0} && pair < itree::Pair{1, 3} && !(pair < pair));
    const std::vector<itree::Edge> edges{{0, 0, 0, 0}, edge};
    check("an edge is found by std", std::find(edges.begin(), edges.end(), edge) == edges.begin() + 1);
}

void checks_a_null_span() {
    try {
        (void)itree::meetings(itree::Span<itree::Edge>(nullptr, 3));
        check("a null span is thrown", false);
    } catch (const std::invalid_argument &fault) {
        const std::string wanted = "a span is null, misaligned or larger than memory can be";
        check("a null span is thrown", fault.what() == wanted);
    }
}

void checks_faults() {
    const std::vector<itree::Segment> segments{{0, 9, 1}, {8, 9, 1}, {3, 4, 1}};
    try {
        (void)itree::below(segments, {});
        check("an overlap is thrown", false);
    } catch (const std::invalid_argument &fault) {
        check("an overlap is thrown", std::string(fault.what()) == "the segment at place 2 overlaps an earlier one");
    }
    std::size_t requests = 0;
    for (bool refused = true; refused; requests++) {
        refuse_after(requests);
        try {
            (void)itree::below({segments.data(), 2}, {});
            refused = false;
        } catch (const std::bad_alloc &) {
        } catch (const itree::Overlap &) {
            refused = false;
        }
        refuse_after(SIZE_MAX);
    }
    check("refused memory is thrown", requests > 2);
}

/// Edges by chance, of which many share an end, lie along one line, or are points.
std::vector<itree::Edge> random_edges(std::mt19937 &random, std::size_t count) {
    const auto number = [&] { return static_cast<std::int32_t>(random() % 9); };
    std::vector<itree::Edge> edges;
    for (std::size_t place = 0; place < count; place++) edges.push_back({number(), number(), number(), number()});
    return edges;
}

using Places = std::vector<std::pair<std::size_t, std::size_t>>;

/// The places of pairs, in order.
Places sorted(const std::vector<itree::Pair> &pairs) {
    Places places;
    for (const auto &pair : pairs) places.push_back({pair.first, pair.second});
    std::sort(places.begin(), places.end());
    return places;
}

void checks_meetings() {
    std::mt19937 random(29);
    bool ok = true;
    for (std::size_t round = 0; round < 2000; round++) {
        const auto edges = random_edges(random, round % 14);
        ok = ok && sorted(itree::meetings(edges)) == plain::meetings(edges);
    }
    check("pairs of edges that meet, as a plain look at each pair", ok);
    check("no edges", itree::meetings({}).empty());
    std::size_t requests = 0;
    for (bool refused = true; refused; requests++) {
        const auto edges = random_edges(random, 30);
        refuse_after(requests);
        try {
            (void)itree::meetings(edges);
            refused = false;
        } catch (const std::bad_alloc &) {
        }
        refuse_after(SIZE_MAX);
    }
    check("refused memory is thrown for pairs", requests > 2);
}

void checks_pairs() {
    std::mt19937 random(30);
    bool ok = true;
    for (std::size_t round = 0; round < 500; round++) {
        const auto edges = random_edges(random, round % 14);
        auto pairs = itree::meetings_all(edges);
        std::sort(pairs.begin(), pairs.end());
        ok = ok && sorted({pairs.begin(), pairs.end()}) == plain::meetings(edges) &&
             pairs.empty() == (pairs.size() == 0);
    }
    check("pairs where the library wrote them, which are sorted there", ok);
    const std::vector<itree::Edge> edges{{0, 0, 9, 9}, {0, 9, 9, 0}};
    auto pairs = itree::meetings_all(edges);
    const itree::Pair *const first = pairs.data();
    auto moved = std::move(pairs);
    check("pairs that are moved stay where they are",
          moved.data() == first && moved.size() == 1 && moved[0].second == 1);
    pairs = itree::meetings_all({});
    check("no pairs", pairs.empty() && pairs.data() == nullptr && pairs.begin() == pairs.end());
    pairs = std::move(moved);
    check("pairs are taken over", pairs.size() == 1 && pairs.data() == first);
    moved = itree::Pairs();
    check("nothing is a pair", moved.empty() && !std::is_copy_constructible_v<itree::Pairs>);
    check("they are taken to another thread",
          std::async(std::launch::async, [it = std::move(pairs)] { return it.size(); }).get() == 1);
    // Some hundred edges and fewer may be compared with one another, which takes next to no memory.
    std::vector<itree::Edge> many;
    for (std::int32_t place = 0; place < 400; place++) many.push_back({0, place, 9, place + 1});
    std::size_t requests = 0;
    for (bool refused = true; refused; requests++) {
        refuse_after(requests);
        try {
            (void)itree::meetings_all(many);
            refused = false;
        } catch (const std::bad_alloc &) {
        }
        refuse_after(SIZE_MAX);
    }
    check("refused memory is thrown for pairs in one call", requests > 4);
}

void checks_between() {
    std::mt19937 random(32);
    bool ok = true;
    int meeting = 0;
    for (std::size_t round = 0; round < 2000; round++) {
        const auto edges = random_edges(random, round % 14), others = random_edges(random, round % 11);
        const auto pairs = itree::meetings_between(edges, others);
        ok = ok && sorted({pairs.begin(), pairs.end()}) == plain::meetings_between(edges, others);
        const auto few = random_edges(random, round % 6);
        const auto pair = itree::first_meeting(few);
        ok = ok && pair.has_value() == !plain::meetings(few).empty();
        if (pair) ok = ok && pair->first < pair->second && plain::meet(few.at(pair->first), few.at(pair->second));
        meeting += pair.has_value();
    }
    check("pairs of two lists, and two edges that meet, as a plain look at each pair", ok);
    check("of few edges some meet, and some don't", 200 < meeting && meeting < 1800);
    check("two lists of none", itree::meetings_between({}, {}).empty() && !itree::first_meeting({}));
    const itree::Edge edges[] = {{50, 0, 60, 0}, {0, 0, 9, 9}}, others[] = {{0, 9, 9, 0}};
    check("a place of each list", itree::meetings_between(edges, others)[0] == itree::Pair{1, 0});
    std::size_t requests = 0;
    for (bool refused = true; refused; requests++) {
        refuse_after(requests);
        try {
            (void)itree::meetings_between(edges, others);
            (void)itree::first_meeting(edges);
            refused = false;
        } catch (const std::bad_alloc &) {
        }
        refuse_after(SIZE_MAX);
    }
    check("refused memory is thrown for two lists", requests > 4);
}

void checks_how_they_meet() {
    std::mt19937 random(36);
    bool ok = true;
    std::size_t told[4] = {0, 0, 0, 0};
    for (std::uint32_t limit : {3u, 9u, 0xffffffffu}) {
        const auto number = [&] { return static_cast<std::int32_t>(random() % limit); };
        for (int round = 0; round < 2000; round++) {
            const itree::Edge one{number(), number(), number(), number()};
            const itree::Edge other{number(), number(), number(), number()};
            const auto kind = itree::how_they_meet(one, other);
            ok = ok && kind == plain::how_they_meet(one, other) && kind == itree::how_they_meet(other, one);
            told[static_cast<std::size_t>(kind)]++;
        }
    }
    check("how two edges meet, as a plain count of shared ends", ok);
    for (const std::size_t count : told) check("each kind is told", count > 30);
    const itree::Edge edge{0, 0, 9, 9};
    check("an edge shares a stretch with itself", itree::how_they_meet(edge, edge) == itree::Meeting::share);
    check("edges in braces", itree::how_they_meet({0, 0, 9, 9}, {0, 9, 9, 0}) == itree::Meeting::cross);
}

using Chains = std::vector<std::vector<itree::Point>>;

/// The points of each chain.
Chains copied(const itree::Chains &chains) {
    Chains all;
    for (const auto &chain : chains) all.emplace_back(chain.begin(), chain.end());
    return all;
}

void checks_snap() {
    const std::vector<itree::Edge> whole{{0, 0, 10, 10}, {0, 10, 10, 0}}, slanted{{0, 0, 3, 1}, {0, 1, 3, 0}};
    const Chains wanted{{{0, 0}, {5, 5}, {10, 10}}, {{0, 10}, {5, 5}, {10, 0}}};
    check("edges that meet at a whole point", copied(itree::snap(whole)) == wanted);
    check("and at none", copied(itree::snap(slanted)) == Chains{{{0, 0}, {2, 1}, {3, 1}}, {{0, 1}, {2, 1}, {3, 0}}});
    check("a point in braces", copied(itree::snap({{7, 8, 7, 8}})) == Chains{{{7, 8}}});
    auto chains = itree::snap(whole);
    check("a chain by its place",
          chains.size() == 2 && chains[1].size() == 3 && chains[1].front() == itree::Point{0, 10});
    check("its last point", chains[1].back() == itree::Point{10, 0} && chains[1][1] == itree::Point{5, 5});
    const auto offsets = chains.offsets();
    const std::vector<std::size_t> stops{0, 3, 6};
    check("offsets from 0 on", std::equal(offsets.begin(), offsets.end(), stops.begin(), stops.end()));
    const auto points = chains.points();
    check("all points side by side", points.size() == 6 && points.begin() == chains[0].begin());
    check("chains are counted", std::distance(chains.begin(), chains.end()) == 2 && chains.begin() != chains.end());
    auto moved = std::move(chains);
    check("chains that are moved stay where they are", moved.points().data() == points.data() && moved.size() == 2);
    chains = itree::snap({});
    check("no chains", chains.empty() && chains.points().empty() && chains.offsets().size() == 1);
    chains = std::move(moved);
    check("chains are taken over", chains.size() == 2 && chains.points().data() == points.data());
    moved = itree::Chains();
    check("nothing is a chain", moved.empty() && moved.begin() == moved.end() && moved.offsets().empty());
    check("they aren't copied", moved.points().empty() && !std::is_copy_constructible_v<itree::Chains>);
    check("chains are taken to another thread",
          std::async(std::launch::async, [it = std::move(chains)] { return it.points().size(); }).get() == 6);
    std::size_t requests = 0;
    for (bool refused = true; refused; requests++) {
        refuse_after(requests);
        try {
            (void)itree::snap(whole);
            refused = false;
        } catch (const std::bad_alloc &) {
        }
        refuse_after(SIZE_MAX);
    }
    check("refused memory is thrown for chains", requests > 4);
}

void checks_node() {
    const std::vector<itree::Edge> triangle{{0, 7, 2, 0}, {2, 0, 2, 2}, {2, 2, 0, 7}};
    const Chains sides{{{0, 7}, {2, 0}}, {{2, 0}, {2, 2}}, {{2, 2}, {0, 7}}};
    check("a side that passes close by a corner stays", copied(itree::node(triangle)) == sides);
    check("by snap rounding it goes over this",
          copied(itree::snap(triangle))[0] == Chains::value_type{{0, 7}, {2, 2}, {2, 0}});
    const std::vector<itree::Edge> slanted{{0, 0, 3, 1}, {0, 1, 3, 0}, {10, 0, 14, 2}, {12, 1, 12, 1}, {11, 1, 11, 1}};
    check("edges that cross at a point with fractions are moved, and no others",
          copied(itree::node(slanted)) == Chains{{{0, 0}, {2, 1}, {3, 1}},
                                                 {{0, 1}, {2, 1}, {3, 0}},
                                                 {{10, 0}, {12, 1}, {14, 2}},
                                                 {{12, 1}},
                                                 {{11, 1}}});
    check("a point in braces stays", copied(itree::node({{7, 8, 7, 8}})) == Chains{{{7, 8}}});
    check("of no edges there are no chains", itree::node({}).empty());
    std::size_t requests = 0;
    for (bool refused = true; refused; requests++) {
        refuse_after(requests);
        try {
            (void)itree::node(slanted);
            refused = false;
        } catch (const std::bad_alloc &) {
        }
        refuse_after(SIZE_MAX);
    }
    check("refused memory is thrown for these chains", requests > 4);
}

using Found = std::vector<std::optional<std::size_t>>;

/// What `locate` gives: places, or a pair that crosses.
std::pair<Found, std::optional<itree::Pair>> located(itree::Span<itree::Edge> edges, itree::Span<itree::Point> points) {
    try {
        return {itree::locate(edges, points), std::nullopt};
    } catch (const itree::Crossing &crossing) {
        return {{}, crossing.pair()};
    }
}

void checks_locate() {
    std::mt19937 random(30);
    const auto number = [&](std::uint32_t limit) { return static_cast<std::int32_t>(random() % limit); };
    bool ok = true;
    int crossing = 0;
    for (std::size_t round = 0; round < 4000; round++) {
        std::vector<itree::Edge> edges;
        std::vector<itree::Point> points;
        for (std::size_t place = 0; place < round % 14; place++) {
            const auto x = number(16), y = number(6);
            edges.push_back({x, y, x + number(11) - 5, y + number(7) - 3});
            points.push_back({number(20) - 2, number(12) - 3});
        }
        const auto [found, pair] = located(edges, points);
        ok = ok && plain::any_cross(edges) == pair.has_value();
        crossing += pair.has_value();
        if (pair) {
            ok = ok && pair->first < pair->second && plain::cross(edges.at(pair->first), edges.at(pair->second));
            continue;
        }
        ok = ok && found.size() == points.size();
        for (std::size_t place = 0; ok && place < points.size(); place++) {
            ok = plain::is_below(edges, points[place], found[place]);
        }
    }
    check("points among edges, as a plain look at each edge", ok);
    check("a quarter of random edges cross, and a quarter doesn't", 1000 < crossing && crossing < 3000);
}

/// Lines that go to the right in steps of 10, one above the other: none of their edges crosses another, and of each
/// point the edge below is known by the band that it lies in.
void checks_many_edges() {
    constexpr std::int32_t lines = 500, steps = 400, band = 100;
    std::mt19937 random(31);
    std::vector<std::int32_t> heights;
    std::vector<itree::Edge> edges;
    for (std::int32_t line = 0; line < lines; line++) {
        for (std::int32_t step = 0; step <= steps; step++) {
            heights.push_back(line * band + static_cast<std::int32_t>(random() % 50));
            if (step == 0) continue;
            edges.push_back({step * 10 - 10, heights[heights.size() - 2], step * 10, heights.back()});
        }
    }
    std::vector<itree::Point> points;
    for (int count = 0; count < 200'000; count++) {
        const auto x = static_cast<std::int32_t>(random() % (steps * 10));
        points.push_back({x, static_cast<std::int32_t>(random() % (lines * band))});
    }
    const auto [found, pair] = located(edges, points);
    bool ok = !pair && found.size() == points.size();
    for (std::size_t place = 0; ok && place < points.size(); place++) {
        const auto point = points[place];
        auto line = point.y / band;
        const auto at = [&] { return static_cast<std::size_t>(line * steps + point.x / 10); };
        if (!plain::height_under(edges[at()], point)) line--;
        ok = found[place] == (line < 0 ? std::nullopt : std::optional(at()));
    }
    check("200,000 edges that don't cross, and as many points", ok);
    edges.push_back({0, -1, steps * 10, lines * band});
    const auto last = located(edges, points).second;
    check("one edge more that crosses", last && last->first < last->second && last->second == edges.size() - 1);
}

void checks_locate_faults() {
    const itree::Edge edges[] = {{0, 0, 10, 10}, {20, 0, 21, 0}, {10, 0, 0, 10}};
    const itree::Point points[] = {{4, 4}, {4, 3}, {10, 99}};
    check("two edges and three points", located({edges, 2}, points).first == Found{0, std::nullopt, std::nullopt});
    check("no edges", located({}, points).first == Found(3));
    check("no points", located({edges, 2}, {}).first.empty());
    try {
        (void)itree::locate(edges, {});
        check("a crossing is thrown", false);
    } catch (const std::invalid_argument &fault) {
        check("a crossing is thrown", std::string(fault.what()) == "the edges at places 0 and 2 cross");
    }
    std::size_t requests = 0;
    for (bool refused = true; refused; requests++) {
        refuse_after(requests);
        try {
            (void)itree::locate({edges, 2}, points);
            refused = false;
        } catch (const std::bad_alloc &) {
        }
        refuse_after(SIZE_MAX);
    }
    check("refused memory is thrown for points among edges", requests > 2);
}

}  // namespace

int main() {
    checks_random();
    checks_a_million();
    checks_spans();
    checks_braces();
    checks_equality();
    checks_a_null_span();
    checks_faults();
    checks_meetings();
    checks_pairs();
    checks_between();
    checks_how_they_meet();
    checks_snap();
    checks_node();
    checks_locate();
    checks_many_edges();
    checks_locate_faults();
    return told();
}
