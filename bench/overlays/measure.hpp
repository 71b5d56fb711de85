// Runs sides of the measurement of overlays in turn, each run in a process of its own, and prints what each took.
#ifndef MEASURE_HPP
#define MEASURE_HPP

#include <algorithm>
#include <utility>

#include "../apart.hpp"
#include "../timing.hpp"
#include "inputs.hpp"

/// A side that takes longer than so many seconds runs once.
constexpr double LONG = 5;

/// Seconds that a run may take, with what it makes of the input before.
constexpr double MOST = 60;

/// Its answer is an area.
using Run = apart::Run<double>;

struct Side {
    std::string name;
    std::unique_ptr<Overlay> (*of)(const Input &input);
    /// It isn't run with more.
    std::size_t most = SIZE_MAX;
    /// The sizes that it ran with, and the seconds of each.
    std::vector<std::pair<std::size_t, double>> taken{};
};

inline Run run(const Side &side, const Input &input) {
    const auto work = [&] {
        const auto overlay = side.of(input);
        Run it = apart::timed<double>([&] { return overlay->run(), 0; });
        it.answer = overlay->area();
        return it;
    };
    return apart::run<double>(side.name + ", " + input.workload, work, MOST);
}

/// A line: workload, size, side, seconds, MB, the area of the answer, and the length of all edges of the input.
inline void print(const std::string &workload, std::size_t size, const Side &side, const Run &run, double length) {
    std::printf("%s\t%zu\t%s\t%.9f\t%.1f\t%.17g\t%.17g\n", workload.c_str(), size, side.name.c_str(), run.seconds,
                run.megabytes, run.answer, length);
}

/// The least seconds of so many turns of each side, by what a run of a side gives. A run of 0 seconds has failed.
template <typename Runs>
std::vector<Run> least_of(const std::vector<Side> &sides, int turns, const Runs &runs) {
    std::vector<Run> least(sides.size());
    for (int turn = 0; turn < turns; turn++) {
        for (std::size_t place = 0; place < sides.size(); place++) {
            const double before = least[place].seconds;
            if (turn > 0 && !(0 < before && before < LONG)) continue;
            const Run it = runs(sides[place]);
            if (turn == 0 || it.seconds < before) least[place] = it;
        }
    }
    return least;
}

/// Runs the sides so often, and prints a line for each. One that comes to nothing is no longer one of those left.
inline void measure(const Input &input, std::size_t size, int turns, std::vector<Side> &left) {
    const auto is_too_much = [&](const Side &side) { return size > side.most; };
    left.erase(std::remove_if(left.begin(), left.end(), is_too_much), left.end());
    const auto least = least_of(left, turns, [&](const Side &side) { return run(side, input); });
    for (std::size_t place = 0; place < left.size(); place++) {
        if (least[place].seconds == 0) continue;
        left[place].taken.emplace_back(size, least[place].seconds);
        print(input.workload, size, left[place], least[place], length_of(input));
    }
    std::fflush(stdout);
    const auto has_failed = [&](const Side &side) { return side.taken.empty() || side.taken.back().first != size; };
    left.erase(std::remove_if(left.begin(), left.end(), has_failed), left.end());
}

#endif
