// Edges broken where they meet, at whole coordinates: ours beside what people use for it.
//
// HAVE_SNAP: ours, by its calls for C++. HAVE_GEOS: GEOS's SnapRoundingNoder at the scale 1, by its headers for C++.
// HAVE_OTHERS: sides of another file, which is linked with this one. The arguments are sizes, or files of edges, which are
// four numbers of 32 bits each.
//
// A line has workload, size, side, seconds on a processor, the most memory beside the edges in MB, and the pieces that the
// side gave. Each run is a process of its own, so that no side finds memory that another one left. Sides that give other
// pieces than the first one are told: GEOS computes where edges meet in numbers that aren't whole.
#include <cmath>
#include <cstring>
#include <fstream>
#include <iostream>
#include <itree.hpp>
#include <iterator>
#include <numeric>

#include "apart.hpp"
#include "timing.hpp"

#ifdef HAVE_GEOS
#define USE_UNSTABLE_GEOS_CPP_API
#include <geos/geom/CoordinateArraySequence.h>
#include <geos/geom/PrecisionModel.h>
#include <geos/noding/NodedSegmentString.h>
#include <geos/noding/snapround/SnapRoundingNoder.h>
#endif

using Edges = std::vector<itree::Edge>;

/// Pieces as two numbers, whatever their order: how many there are, and a sum over them.
struct Pieces {
    std::uint64_t count = 0, sum = 0;

    void add(std::int64_t x0, std::int64_t y0, std::int64_t x1, std::int64_t y1) {
        std::uint64_t all = 0;
        for (const auto number : {x0, y0, x1, y1})
            all = (all ^ std::uint64_t(number)) * 0x9e3779b97f4a7c15u + (all >> 29);
        sum += all ^ (all >> 32);
        count++;
    }
};

#ifdef HAVE_OTHERS
/// A side of another file: it calls `add` with each piece of each edge, in the edge's direction.
struct Other {
    const char *name;
    void (*pieces)(const Edges &edges, void (*add)(Pieces &, itree::Edge), Pieces &given);
};
extern const std::vector<Other> others;
#endif

namespace {

constexpr std::int64_t range = 1'000'000'000;

/// A side that takes longer than so many seconds runs once.
constexpr double LONG = 5;

using Side = std::pair<std::string, std::function<Pieces(const Edges &)>>;

#ifdef HAVE_SNAP
Pieces by_itree(const Edges &edges) {
    Pieces pieces;
    for (const auto &chain : itree::snap(edges)) {
        for (std::size_t place = 1; place < chain.size(); place++) {
            pieces.add(chain[place - 1].x, chain[place - 1].y, chain[place].x, chain[place].y);
        }
    }
    return pieces;
}
#endif

#ifdef HAVE_GEOS
using geos::noding::SegmentString;

/// Edges as GEOS takes them. It has no strings of one point.
std::vector<SegmentString *> strings_of(const Edges &edges) {
    std::vector<SegmentString *> strings;
    strings.reserve(edges.size());
    for (const auto &it : edges) {
        if (it.x0 == it.x1 && it.y0 == it.y1) continue;
        std::vector<geos::geom::Coordinate> ends{{double(it.x0), double(it.y0)}, {double(it.x1), double(it.y1)}};
        const auto sequence = new geos::geom::CoordinateArraySequence(std::move(ends));
        strings.push_back(new geos::noding::NodedSegmentString(sequence, nullptr));
    }
    return strings;
}

Pieces by_geos(const Edges &edges) {
    const geos::geom::PrecisionModel grid(1.0);
    auto strings = strings_of(edges);
    Pieces pieces;
    {
        geos::noding::snapround::SnapRoundingNoder noder(&grid);
        noder.computeNodes(&strings);
        const std::unique_ptr<std::vector<SegmentString *>> noded(noder.getNodedSubstrings());
        for (const auto string : *noded) {
            for (std::size_t place = 1; place < string->size(); place++) {
                const auto &begin = string->getCoordinate(place - 1), &end = string->getCoordinate(place);
                pieces.add(std::int64_t(begin.x), std::int64_t(begin.y), std::int64_t(end.x), std::int64_t(end.y));
            }
            delete string;
        }
    }
    for (const auto string : strings) delete string;
    return pieces;
}
#endif

std::vector<Side> all_sides() {
    std::vector<Side> sides;
#ifdef HAVE_SNAP
    sides.push_back({"itree", by_itree});
#endif
#ifdef HAVE_OTHERS
    for (const auto &other : others) {
        sides.push_back({other.name, [&](const Edges &edges) {
                             Pieces pieces;
                             const auto add = [](Pieces &pieces, itree::Edge it) {
                                 pieces.add(it.x0, it.y0, it.x1, it.y1);
                             };
                             other.pieces(edges, add, pieces);
                             return pieces;
                         }});
    }
#endif
#ifdef HAVE_GEOS
    sides.push_back({"GEOS", by_geos});
#endif
    return sides;
}

using Run = apart::Run<Pieces>;

Run run_apart(const Side &side, const Edges &edges) {
    return apart::run<Pieces>(side.first, [&] { return apart::timed<Pieces>([&] { return side.second(edges); }); });
}

/// The least seconds and memory of several runs, in turn.
void measure(const std::string &workload, const Edges &edges) {
    const auto sides = all_sides();
    std::vector<Run> least(sides.size());
    for (int turn = 0; turn < (edges.size() < 200'000 ? 5 : 3); turn++) {
        for (std::size_t place = 0; place < sides.size(); place++) {
            if (turn > 0 && !(0 < least[place].seconds && least[place].seconds < LONG)) continue;
            const Run it = run_apart(sides[place], edges);
            if (turn == 0 || it.seconds < least[place].seconds) least[place] = it;
        }
    }
    for (std::size_t place = 0; place < sides.size(); place++) {
        const auto &[seconds, megabytes, pieces] = least[place];
        if (pieces.sum != least[0].answer.sum || pieces.count != least[0].answer.count) {
            std::cerr << workload << ", " << edges.size() << ": " << sides[place].first << " gives other pieces than "
                      << sides[0].first << ", " << pieces.count << " and " << least[0].answer.count << "\n";
        }
        std::printf("%s\t%zu\t%s\t%.6f\t%.1f\t%llu\n", workload.c_str(), edges.size(), sides[place].first.c_str(),
                    seconds, megabytes, static_cast<unsigned long long>(pieces.count));
    }
    std::fflush(stdout);
}

/// Edges that begin anywhere in a square, and reach so far at most along each axis.
Edges spread(std::size_t size, double longest) {
    timing::Chance chance(27);
    const auto reach = [&] { return chance.below(2 * std::int64_t(longest) + 1) - std::int32_t(longest); };
    Edges edges;
    for (std::size_t place = 0; place < size; place++) {
        const auto x = chance.below(range), y = chance.below(range);
        edges.push_back({x, y, x + reach(), y + reach()});
    }
    return edges;
}

/// Edges from anywhere to anywhere in a square, of which each crosses about a quarter of the others.
Edges anywhere(std::size_t size) {
    timing::Chance chance(28);
    Edges edges;
    for (std::size_t place = 0; place < size; place++) {
        edges.push_back({chance.below(range), chance.below(range), chance.below(range), chance.below(range)});
    }
    return edges;
}

/// Rings of ten edges around centres anywhere in a square, each of which meets some others.
Edges stars(std::size_t size) {
    constexpr std::size_t corners = 10;
    std::mt19937 numbers(7);
    std::uniform_real_distribution<double> share(0, 1);
    const std::size_t rings = size / corners;
    const double radius = 0.5 * double(range) / std::sqrt(double(rings));
    Edges edges;
    for (std::size_t ring = 0; ring < rings; ring++) {
        const double x = (share(numbers) * 2 - 1) * double(range), y = (share(numbers) * 2 - 1) * double(range);
        std::vector<itree::Point> points;
        for (std::size_t corner = 0; corner < corners; corner++) {
            const double angle = 2 * M_PI * double(corner) / corners, reach = radius * (0.4 + 0.6 * share(numbers));
            points.push_back({std::int32_t(std::lround(x + reach * std::cos(angle))),
                              std::int32_t(std::lround(y + reach * std::sin(angle)))});
        }
        for (std::size_t corner = 0; corner < corners; corner++) {
            const auto &begin = points[corner], &end = points[(corner + 1) % corners];
            edges.push_back({begin.x, begin.y, end.x, end.y});
        }
    }
    return edges;
}

Edges read(const char *file) {
    std::ifstream stream(file, std::ios::binary);
    const std::vector<char> bytes((std::istreambuf_iterator<char>(stream)), std::istreambuf_iterator<char>());
    Edges edges(bytes.size() / sizeof(itree::Edge));
    std::memcpy(edges.data(), bytes.data(), edges.size() * sizeof(itree::Edge));
    return edges;
}

/// The edges, and as many again, so far aside.
Edges twice(Edges edges, std::int32_t x, std::int32_t y) {
    const std::size_t size = edges.size();
    for (std::size_t place = 0; place < size; place++) {
        const auto it = edges[place];
        edges.push_back({it.x0 + x, it.y0 + y, it.x1 + x, it.y1 + y});
    }
    return edges;
}

void measure_shapes(std::size_t size) {
    const double side = double(range) / std::sqrt(double(size));
    if (size <= 3'000) measure("snap: from anywhere to anywhere", anywhere(size));
    if (size <= 10'000) measure("snap: long edges", spread(size, range / 10));
    measure("snap: short edges", spread(size, side));
    measure("snap: stars", stars(size));
}

}  // namespace

int main(int count, char **words) {
    for (int place = 1; place < count; place++) {
        const auto size = std::strtoull(words[place], nullptr, 10);
        if (size) {
            measure_shapes(size);
        } else {
            const auto edges = read(words[place]);
            measure("snap: the world's coastlines", edges);
            measure("snap: coastlines, and these moved aside", twice(edges, 50'000, 30'000));
        }
    }
}
