// For measurements: sides that do the same on the same input, in turn, and the least time of each.
#ifndef TIMING_HPP
#define TIMING_HPP

#include <time.h>

#include <algorithm>
#include <cstdint>
#include <cstdio>
#include <cstdlib>
#include <functional>
#include <random>
#include <string>
#include <utility>
#include <vector>

namespace timing {

/// Seconds of this process on a processor: what else the machine does counts less than by a clock on the wall. No side
/// has threads.
inline double seconds() {
    timespec now;
    clock_gettime(CLOCK_PROCESS_CPUTIME_ID, &now);
    return double(now.tv_sec) + double(now.tv_nsec) / 1e9;
}

/// A side: its name, and what it does. Its answer, as one number, has to be the other sides' answer.
using Side = std::pair<std::string, std::function<std::uint64_t()>>;

/// A side that takes longer than so many seconds runs once.
constexpr double LONG = 20;

/// Runs each of the sides so often, in turn, and prints a line for each: workload, size, side, seconds of its fastest
/// run.
inline void measure(const std::string &workload, std::size_t size, int runs, const std::vector<Side> &sides) {
    std::vector<double> least(sides.size(), 1e9);
    std::vector<std::uint64_t> answers(sides.size());
    for (int run = 0; run < runs; run++) {
        for (std::size_t side = 0; side < sides.size(); side++) {
            if (run > 0 && least[side] > LONG) continue;
            const double begun = seconds();
            answers[side] = sides[side].second();
            least[side] = std::min(least[side], seconds() - begun);
        }
    }
    for (std::size_t side = 0; side < sides.size(); side++) {
        if (answers[side] != answers[0]) {
            std::fprintf(stderr, "%s, %zu: %s and %s answer differently\n", workload.c_str(), size,
                         sides[0].first.c_str(), sides[side].first.c_str());
            std::exit(1);
        }
        std::printf("%s\t%zu\t%s\t%.6f\n", workload.c_str(), size, sides[side].first.c_str(), least[side]);
    }
    std::fflush(stdout);
}

/// How often each side runs at a size: the noise is less where a run is long.
inline int runs_at(std::size_t size) { return size <= 10'000 ? 15 : size <= 100'000 ? 7 : 3; }

/// The sizes of the command line, or 1,000 to 1,000,000.
inline std::vector<std::size_t> sizes_of(int count, char **words) {
    std::vector<std::size_t> sizes;
    for (int place = 1; place < count; place++) sizes.push_back(std::strtoull(words[place], nullptr, 10));
    return sizes.empty() ? std::vector<std::size_t>{1'000, 10'000, 100'000, 1'000'000} : sizes;
}

/// Whole numbers by chance, the same in each run.
class Chance {
public:
    explicit Chance(std::uint64_t seed) : numbers_(seed) {}
    /// A number from 0 up to the one before the limit, which is at least 1.
    std::int32_t below(std::int64_t limit) {
        return static_cast<std::int32_t>(numbers_() % static_cast<std::uint64_t>(std::max<std::int64_t>(limit, 1)));
    }
    template <typename Items>
    void shuffle(Items &items) {
        std::shuffle(items.begin(), items.end(), numbers_);
    }

private:
    std::mt19937_64 numbers_;
};

/// One more number into an answer.
inline std::uint64_t mixed(std::uint64_t answer, std::uint64_t number) {
    return (answer ^ number) * 1099511628211u + 1;
}

}  // namespace timing

#endif
