// Which edges meet: ours beside what people find candidates with, each followed by the same exact test.
//
// HAVE_CGAL: CGAL's box_self_intersection_d. HAVE_BOOST: Boost.Geometry's R-tree, packed. HAVE_GEOS: GEOS's STRtree, by
// its calls for C. HAVE_RUST: the Rust crate's tree of segments. The arguments are sizes, or files of edges, which are
// four numbers of 32 bits each.
#include <cmath>
#include <cstring>
#include <fstream>
#include <itree.hpp>

#include "exact.hpp"
#include "timing.hpp"

#ifdef HAVE_CGAL
#include <CGAL/box_intersection_d.h>
#endif
#ifdef HAVE_BOOST
#include <boost/geometry.hpp>
#include <boost/geometry/geometries/box.hpp>
#include <boost/geometry/geometries/point.hpp>
#include <boost/geometry/index/rtree.hpp>
#include <boost/iterator/function_output_iterator.hpp>
#endif
#ifdef HAVE_GEOS
#include <geos_c.h>
#endif

#ifdef HAVE_RUST
// Of bench/rust_sweep.rs.
extern "C" void rust_candidates(const itree_edge *edges, std::size_t edge_count,
                                void (*found)(void *, std::size_t, std::size_t), void *given);
#endif

namespace {

constexpr std::int64_t range = 1'000'000'000;

using Edges = std::vector<itree::Edge>;

/// Pairs as one number, whatever their order.
class Pairs {
public:
    void add(std::size_t one, std::size_t other) {
        const std::uint64_t first = std::min(one, other), second = std::max(one, other);
        sum_ += (first * 0x9e3779b97f4a7c15u) ^ (second * 0xc2b2ae3d27d4eb4fu);
        count_++;
    }
    std::uint64_t answer() const { return timing::mixed(sum_, count_); }

private:
    std::uint64_t sum_ = 0, count_ = 0;
};

std::uint64_t by_itree(const Edges &edges) {
    Pairs pairs;
    for (const auto &pair : itree::meetings(edges)) pairs.add(pair.first, pair.second);
    return pairs.answer();
}

#ifdef HAVE_CGAL
std::uint64_t by_cgal(const Edges &edges) {
    using Box = CGAL::Box_intersection_d::Box_with_info_d<std::int32_t, 2, std::size_t>;
    std::vector<Box> boxes;
    boxes.reserve(edges.size());
    for (std::size_t place = 0; place < edges.size(); place++) {
        const auto &it = edges[place];
        std::int32_t low[] = {std::min(it.x0, it.x1), std::min(it.y0, it.y1)};
        std::int32_t high[] = {std::max(it.x0, it.x1), std::max(it.y0, it.y1)};
        boxes.push_back(Box(low, high, place));
    }
    Pairs pairs;
    CGAL::box_self_intersection_d(boxes.begin(), boxes.end(), [&](const Box &one, const Box &other) {
        if (exact::meet(edges[one.info()], edges[other.info()])) pairs.add(one.info(), other.info());
    });
    return pairs.answer();
}
#endif

#ifdef HAVE_BOOST
std::uint64_t by_boost(const Edges &edges) {
    namespace bg = boost::geometry;
    using Corner = bg::model::point<std::int32_t, 2, bg::cs::cartesian>;
    using Box = bg::model::box<Corner>;
    using Entry = std::pair<Box, std::size_t>;
    std::vector<Entry> entries;
    entries.reserve(edges.size());
    for (std::size_t place = 0; place < edges.size(); place++) {
        const auto &it = edges[place];
        const Corner low(std::min(it.x0, it.x1), std::min(it.y0, it.y1));
        entries.push_back({Box(low, Corner(std::max(it.x0, it.x1), std::max(it.y0, it.y1))), place});
    }
    const bg::index::rtree<Entry, bg::index::rstar<16>> tree(entries);
    Pairs pairs;
    for (const auto &[box, place] : entries) {
        const auto found = [&, here = place](const Entry &other) {
            if (here < other.second && exact::meet(edges[here], edges[other.second])) pairs.add(here, other.second);
        };
        tree.query(bg::index::intersects(box), boost::make_function_output_iterator(found));
    }
    return pairs.answer();
}
#endif

#ifdef HAVE_GEOS
struct Asked {
    const Edges &edges;
    std::size_t place;
    Pairs pairs;
};

void found_by_geos(void *item, void *given) {
    auto &asked = *static_cast<Asked *>(given);
    const auto other = reinterpret_cast<std::uintptr_t>(item);
    if (asked.place < other && exact::meet(asked.edges[asked.place], asked.edges[other])) {
        asked.pairs.add(asked.place, other);
    }
}

std::uint64_t by_geos(const Edges &edges) {
    const auto geos = GEOS_init_r();
    std::vector<GEOSGeometry *> lines;
    lines.reserve(edges.size());
    const auto tree = GEOSSTRtree_create_r(geos, 10);
    for (std::size_t place = 0; place < edges.size(); place++) {
        const auto &it = edges[place];
        const double numbers[] = {double(it.x0), double(it.y0), double(it.x1), double(it.y1)};
        lines.push_back(GEOSGeom_createLineString_r(geos, GEOSCoordSeq_copyFromBuffer_r(geos, numbers, 2, 0, 0)));
        GEOSSTRtree_insert_r(geos, tree, lines[place], reinterpret_cast<void *>(std::uintptr_t(place)));
    }
    Asked asked{edges, 0, {}};
    for (; asked.place < edges.size(); asked.place++) {
        GEOSSTRtree_query_r(geos, tree, lines[asked.place], found_by_geos, &asked);
    }
    GEOSSTRtree_destroy_r(geos, tree);
    for (const auto line : lines) GEOSGeom_destroy_r(geos, line);
    GEOS_finish_r(geos);
    return asked.pairs.answer();
}
#endif

#ifdef HAVE_RUST
std::uint64_t by_rust(const Edges &edges) {
    std::pair<const Edges &, Pairs> given{edges, {}};
    const auto found = [](void *given, std::size_t one, std::size_t other) {
        auto &[edges, pairs] = *static_cast<std::pair<const Edges &, Pairs> *>(given);
        if (exact::boxes_meet(edges[one], edges[other]) && exact::meet(edges[one], edges[other])) pairs.add(one, other);
    };
    rust_candidates(edges.data(), edges.size(), found, &given);
    return given.second.answer();
}
#endif

void measure(const std::string &workload, const Edges &edges) {
    const std::vector<timing::Side> sides{
        {"itree", [&] { return by_itree(edges); }},
#ifdef HAVE_CGAL
        {"CGAL", [&] { return by_cgal(edges); }},
#endif
#ifdef HAVE_BOOST
        {"Boost", [&] { return by_boost(edges); }},
#endif
#ifdef HAVE_GEOS
        {"GEOS", [&] { return by_geos(edges); }},
#endif
#ifdef HAVE_RUST
        {"Rust crate", [&] { return by_rust(edges); }},
#endif
    };
    timing::measure(workload, edges.size(), timing::runs_at(edges.size()), sides);
}

/// Edges that begin anywhere in a box from 0 to a width and a height, and reach so far at most along each axis.
Edges spread(std::size_t size, std::int64_t width, std::int64_t height, double longest, double tallest) {
    timing::Chance chance(27);
    const auto reach = [&](double most) { return chance.below(2 * std::int64_t(most) + 1) - std::int32_t(most); };
    Edges edges;
    for (std::size_t place = 0; place < size; place++) {
        const auto x = chance.below(width), y = chance.below(height);
        edges.push_back({x, y, x + reach(longest), y + reach(tallest)});
    }
    return edges;
}

void measure_shapes(std::size_t size) {
    const double part = double(range) / double(size), side = double(range) / std::sqrt(double(size));
    measure("edges: short", spread(size, range, range, side, side));
    measure("edges: longer", spread(size, range, range, 4 * side, 4 * side));
    measure("edges: thin and wide", spread(size, range, range, range / 4, part));
    measure("edges: tall", spread(size, range, range, part, range / 4));
    measure("edges: in a narrow band", spread(size, range, range / 1000, 30 * part, range / 30'000));
}

Edges read(const char *file) {
    std::ifstream stream(file, std::ios::binary);
    const std::vector<char> bytes((std::istreambuf_iterator<char>(stream)), std::istreambuf_iterator<char>());
    Edges edges(bytes.size() / sizeof(itree::Edge));
    std::memcpy(edges.data(), bytes.data(), edges.size() * sizeof(itree::Edge));
    return edges;
}

}  // namespace

int main(int count, char **words) {
    for (int place = 1; place < count; place++) {
        const auto size = std::strtoull(words[place], nullptr, 10);
        if (size) {
            measure_shapes(size);
        } else {
            measure("edges: the world's coastlines", read(words[place]));
        }
    }
}
