// Shapes at which a way to find what meets may be slow, ours beside Clipper and GEOS.
//
// HAVE_CLIPPER, HAVE_GEOS: the sides that are there beside ours. The argument is what each number of pieces is divided by;
// 1 if there is none.
//
// A line is as that of overlays.cpp, but the size is a number of pieces, as the workload's name says. A side that takes over
// 60 seconds, or would by its two sizes before, has no line.
#include <cmath>

#include "overlays/measure.hpp"
#include "shapes/inputs.hpp"

namespace {

const std::string GEOS = "GEOS";

const std::vector<Side> sides{
    {"itree", itree_of},
#ifdef HAVE_CLIPPER
    {"Clipper", clipper_of},
#endif
#ifdef HAVE_GEOS
    {GEOS, geos_of},
#endif
};

/// How often each side runs: once where that is long.
constexpr int TURNS = 5;

/// The seconds that a side would take if they went on growing as they did; 0 where nothing says it.
double guessed(const Side &side, std::size_t size) {
    if (side.taken.size() < 2) return 0;
    const auto [last, seconds] = side.taken.back();
    const auto [before, seconds_before] = side.taken[side.taken.size() - 2];
    const double power = std::log(seconds / seconds_before) / std::log(double(last) / double(before));
    return seconds * std::pow(double(size) / double(last), power);
}

/// Takes away the sides that would take too long.
void leave_out_slow(const std::string &workload, std::size_t size, std::vector<Side> &left) {
    const auto is_slow = [&](const Side &side) {
        const double seconds = guessed(side, size);
        if (seconds > MOST) std::cerr << side.name << ", " << workload << ": " << seconds << " s, so it isn't run\n";
        return seconds > MOST;
    };
    left.erase(std::remove_if(left.begin(), left.end(), is_slow), left.end());
}

void measure_kind(const Kind &kind, std::size_t divisor) {
    auto left = sides;
    const auto is_out = [&](const Side &side) { return !kind.is_simple && side.name == GEOS; };
    left.erase(std::remove_if(left.begin(), left.end(), is_out), left.end());
    for (const auto count : kind.counts) {
        const std::size_t size = std::max<std::size_t>(count / divisor, 2);
        auto input = kind.of(size);
        input.workload = kind.name;
        leave_out_slow(input.workload, size, left);
        measure(input, size, TURNS, left);
    }
}

}  // namespace

int main(int count, char **words) {
    const std::size_t divisor = count > 1 ? std::strtoull(words[1], nullptr, 10) : 1;
    for (const auto &kind : kinds()) measure_kind(kind, divisor);
}
