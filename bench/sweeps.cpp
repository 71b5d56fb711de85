// Sweeps over horizontal segments: ours beside the plain sweep over std::map, and beside the Rust crate's tree where it
// is built.
#include <itree.hpp>
#include <numeric>

#include "../bindings/tests/plain_sweep.hpp"
#include "timing.hpp"

#ifdef HAVE_RUST
// The plain sweep over the Rust crate's KeyExpTree, of bench/rust_sweep.rs.
extern "C" void rust_below(const itree_segment *segments, std::size_t segment_count, const itree_point *points,
                           std::size_t point_count, itree_height *heights);
#endif

namespace {

constexpr std::int64_t range = 1'000'000'000;

struct Scene {
    std::vector<itree::Segment> segments;
    std::vector<itree::Point> points;
};

/// As many segments as points, each segment at a height of its own. `longest` is the length of the longest.
Scene spread(std::size_t size, std::int64_t longest) {
    timing::Chance chance(27);
    std::vector<std::int32_t> heights(size);
    std::iota(heights.begin(), heights.end(), 0);
    chance.shuffle(heights);
    Scene scene;
    for (std::size_t place = 0; place < size; place++) {
        const auto x0 = chance.below(range);
        scene.segments.push_back({x0, static_cast<std::int32_t>(x0 + chance.below(longest)), heights[place]});
        scene.points.push_back({chance.below(range), chance.below(static_cast<std::int64_t>(size))});
    }
    return scene;
}

std::uint64_t answer_of(const std::vector<std::optional<std::int32_t>> &heights) {
    std::uint64_t answer = 0;
    for (const auto &height : heights) {
        answer = timing::mixed(answer, height ? static_cast<std::uint32_t>(*height) : 1ull << 40);
    }
    return answer;
}

#ifdef HAVE_RUST
std::vector<std::optional<std::int32_t>> by_rust(const Scene &scene) {
    std::vector<itree_height> heights(scene.points.size());
    rust_below(scene.segments.data(), scene.segments.size(), scene.points.data(), scene.points.size(), heights.data());
    std::vector<std::optional<std::int32_t>> found(heights.size());
    for (std::size_t place = 0; place < found.size(); place++) {
        if (heights[place].found) found[place] = heights[place].y;
    }
    return found;
}
#endif

void measure(const std::string &workload, std::size_t size, const Scene &scene) {
    const std::vector<timing::Side> sides{
        {"itree", [&] { return answer_of(itree::below(scene.segments, scene.points)); }},
        {"std::map", [&] { return answer_of(plain::below(scene.segments, scene.points).first); }},
#ifdef HAVE_RUST
        {"Rust crate", [&] { return answer_of(by_rust(scene)); }},
#endif
    };
    timing::measure(workload, size, timing::runs_at(size), sides);
}

}  // namespace

int main(int count, char **words) {
    for (const auto size : timing::sizes_of(count, words)) {
        const auto part = range / static_cast<std::int64_t>(size);
        measure("sweep: 10 live at once", size, spread(size, 20 * part));
        measure("sweep: a hundredth live at once", size, spread(size, range / 50));
        measure("sweep: a third live at once", size, spread(size, range));
    }
}
