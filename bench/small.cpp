// Many small polygons, two by two: ours beside Clipper and GEOS.
//
// HAVE_CLIPPER, HAVE_GEOS: the sides that are there beside ours. The argument is what the seconds of a measurement are
// divided by; 1 if there is none.
//
// A line is as that of overlays.cpp, but the size is that of the points of a polygon, and the seconds are those of one call.
#include "overlays/measure.hpp"
#include "shapes/inputs.hpp"

namespace {

const std::vector<Side> sides{
    {"itree", itree_of},
#ifdef HAVE_CLIPPER
    {"Clipper", clipper_of},
#endif
#ifdef HAVE_GEOS
    {"GEOS", geos_of},
#endif
};

/// How often each side is measured.
constexpr int TURNS = 5;

/// Polygons are overlaid again and again for so many seconds.
constexpr double LEAST = 0.3;

/// The seconds of one call among many, on pair after pair, and the area of all answers.
Run run_often(const Side &side, const std::vector<Input> &pairs, double least) {
    const auto work = [&] {
        std::vector<std::unique_ptr<Overlay>> overlays;
        for (const auto &pair : pairs) overlays.push_back(side.of(pair));
        const auto runs = [&](int rounds) {
            return apart::timed<double>([&] {
                for (int round = 0; round < rounds; round++) {
                    for (const auto &it : overlays) it->run();
                }
                return 0;
            });
        };
        Run it = runs(1);
        const int rounds = std::max(int(least / it.seconds), 1);
        if (rounds > 1) it = runs(rounds);
        it.seconds /= double(rounds) * double(pairs.size());
        for (const auto &overlay : overlays) it.answer += overlay->area();
        return it;
    };
    return apart::run<double>(side.name, work, MOST);
}

void measure_small(bool is_spiky, std::size_t points, Operation operation, double least) {
    const auto pairs = small_pairs(is_spiky, points, operation);
    const auto runs = [&](const Side &side) { return run_often(side, pairs, least); };
    const auto found = least_of(sides, TURNS, runs);
    double length = 0;
    for (const auto &pair : pairs) length += length_of(pair);
    const std::string workload = std::string("two ") + (is_spiky ? "spiky" : "convex") + ", " +
                                 (operation == Operation::both ? "intersection" : "union");
    for (std::size_t place = 0; place < sides.size(); place++) {
        if (found[place].seconds > 0) print(workload, points, sides[place], found[place], length);
    }
    std::fflush(stdout);
}

}  // namespace

int main(int count, char **words) {
    const double least = LEAST / (count > 1 ? std::strtod(words[1], nullptr) : 1);
    for (const auto operation : {Operation::both, Operation::either}) {
        for (const std::size_t points : {4, 10, 30}) measure_small(false, points, operation, least);
        for (const std::size_t points : {10, 30, 100, 300, 1'000}) measure_small(true, points, operation, least);
    }
}
