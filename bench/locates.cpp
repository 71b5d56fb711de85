// The edge straight below each point, among sloped edges that don't cross: ours, which tells by itself that none do, beside
// a plain sweep over the Rust crate's tree, which doesn't, where that is built.
#include <itree.hpp>
#include <cmath>
#include <cstdint>
#include <optional>

#include "timing.hpp"

#ifdef HAVE_RUST
// The plain sweep over the Rust crate's KeyExpTree, of bench/rust_sweep.rs.
extern "C" void rust_locate(const itree_edge *edges, std::size_t edge_count, const itree_point *points,
                            std::size_t point_count, std::size_t *places);
#endif

namespace {

constexpr std::int32_t range = 1'000'000'000;

struct Scene {
    std::vector<itree::Edge> edges;
    std::vector<itree::Point> points;
};

/// As many points as edges, anywhere.
Scene with_points(std::vector<itree::Edge> edges, timing::Chance &chance) {
    Scene scene{std::move(edges), {}};
    for (std::size_t place = 0; place < scene.edges.size(); place++) {
        scene.points.push_back({chance.below(range), chance.below(range)});
    }
    return scene;
}

/// Short edges, each in a square of its own, in any direction.
Scene in_squares(std::size_t size) {
    timing::Chance chance(27);
    const auto rows = static_cast<std::int32_t>(std::ceil(std::sqrt(double(size))));
    const auto side = range / rows;
    std::vector<itree::Edge> edges;
    for (std::size_t place = 0; place < size; place++) {
        const auto x = std::int32_t(place) % rows * side, y = std::int32_t(place) / rows * side;
        const auto within = [&] { return chance.below(side - 1); };
        edges.push_back({x + within(), y + within(), x + within(), y + within()});
    }
    chance.shuffle(edges);
    return with_points(std::move(edges), chance);
}

/// Heights in order, no two the same.
std::vector<std::int32_t> heights(std::size_t size, timing::Chance &chance) {
    const auto step = range / static_cast<std::int32_t>(size);
    std::vector<std::int32_t> found;
    for (std::size_t place = 0; place < size; place++) {
        found.push_back(std::int32_t(place) * step + chance.below(step));
    }
    return found;
}

/// Edges from one end of the range to the other, all live at once, in one order at both ends.
Scene across(std::size_t size) {
    timing::Chance chance(27);
    const auto left = heights(size, chance), right = heights(size, chance);
    std::vector<itree::Edge> edges;
    for (std::size_t place = 0; place < size; place++) {
        edges.push_back({0, left[place], range, right[place]});
    }
    chance.shuffle(edges);
    return with_points(std::move(edges), chance);
}

std::uint64_t answer_of(const std::vector<std::optional<std::size_t>> &places) {
    std::uint64_t answer = 0;
    for (const auto &place : places) answer = timing::mixed(answer, place ? *place : 1ull << 40);
    return answer;
}

#ifdef HAVE_RUST
std::vector<std::optional<std::size_t>> by_rust(const Scene &scene) {
    std::vector<std::size_t> places(scene.points.size());
    rust_locate(scene.edges.data(), scene.edges.size(), scene.points.data(), scene.points.size(), places.data());
    std::vector<std::optional<std::size_t>> found(places.size());
    for (std::size_t place = 0; place < found.size(); place++) {
        if (places[place] != SIZE_MAX) found[place] = places[place];
    }
    return found;
}
#endif

void measure(const std::string &workload, std::size_t size, const Scene &scene) {
    const std::vector<timing::Side> sides{
        {"itree", [&] { return answer_of(itree::locate(scene.edges, scene.points)); }},
#ifdef HAVE_RUST
        {"Rust crate", [&] { return answer_of(by_rust(scene)); }},
#endif
    };
    timing::measure(workload, size, timing::runs_at(size), sides);
}

}  // namespace

int main(int count, char **words) {
    for (const auto size : timing::sizes_of(count, words)) {
        measure("edge below: short edges", size, in_squares(size));
        measure("edge below: long edges, all live at once", size, across(size));
    }
}
