// Polygons overlaid: ours beside what people use for it. A file in bench/overlays says what each side does.
//
// HAVE_CLIPPER, HAVE_BOOST (Boost.Polygon and Boost.Geometry), HAVE_GEOS, HAVE_CGAL: the sides that are there beside
// ours. The arguments are sizes, or files that bench/land.py writes.
//
// A line has workload, size, side, seconds on a processor, the most memory beside the input in MB, the area of the
// answer, and the length of all edges of the input, both in units. Each run is a process of its own. It ends where it
// takes over 60 seconds: then no line is printed, nor is the side run with more edges of the workload.
#include "overlays/measure.hpp"

namespace {

const std::vector<Side> sides{
    {"itree", itree_of},
#ifdef HAVE_CLIPPER
    {"Clipper", clipper_of},
#endif
#ifdef HAVE_BOOST
    {"Boost.Polygon", boost_polygon_of},
    {"Boost.Geometry", boost_geometry_of},
#endif
#ifdef HAVE_GEOS
    {"GEOS on a grid", geos_on_grid_of},
    {"GEOS", geos_of},
#endif
#ifdef HAVE_CGAL
    {"CGAL", cgal_of, 20'000},
#endif
};

/// How often each side runs with so many edges: the shorter a run, the more of it is chance.
int turns_of(std::size_t size) { return size <= 2'000 ? 40 : size < 200'000 ? 5 : 3; }

void measure_edges(const Input &input, std::vector<Side> &left) {
    const std::size_t size = size_of(input);
    measure(input, size, turns_of(size), left);
}

}  // namespace

int main(int count, char **words) {
    const auto inputs = generated();
    std::vector<std::vector<Side>> left(inputs.size(), sides);
    for (int place = 1; place < count; place++) {
        const auto size = std::strtoull(words[place], nullptr, 10);
        for (std::size_t input = 0; size && input < inputs.size(); input++)
            measure_edges(inputs[input](size), left[input]);
        if (size) continue;
        for (const auto &input : land_of(words[place])) {
            auto all = sides;
            measure_edges(input, all);
        }
    }
}
