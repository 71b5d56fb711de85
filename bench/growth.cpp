// How ours grows: shapes of n, 2 n, 4 n, ... pieces.
//
// The arguments are how often n is doubled, and the seconds behind which it isn't doubled again; 8 and 10 if there are none.
// Nor is it where a call takes over 1,000 MB.
//
// A line has workload, edges, side, seconds on a processor, the least of up to five runs, each in a process of its own, the
// points of the answer, and the most memory beside the input in MB.
#include "overlays/measure.hpp"
#include "shapes/inputs.hpp"

namespace {

using Counted = apart::Run<std::size_t>;

/// A size is run again while all its runs would take no longer than so many seconds.
constexpr double AGAIN = 1;

constexpr int RUNS = 5;

constexpr double MEGABYTES = 1'000;

Counted counted(const Input &input) {
    const auto work = [&] {
        const auto overlay = itree_of(input);
        Counted it = apart::timed<std::size_t>([&] { return overlay->run(), 0; });
        it.answer = overlay->points();
        return it;
    };
    return apart::run<std::size_t>(input.workload, work, MOST);
}

Counted least_counted(const Input &input) {
    Counted least = counted(input);
    for (int runs = 1; runs < RUNS && least.seconds > 0 && least.seconds * (runs + 1) < AGAIN; runs++) {
        const Counted it = counted(input);
        if (it.seconds < least.seconds) least = it;
    }
    return least;
}

void measure_growth(const Kind &kind, int doublings, double most) {
    std::size_t count = kind.first;
    for (int doubled = 0; doubled <= doublings; doubled++, count *= 2) {
        auto input = kind.of(count);
        input.workload = "growth: " + kind.name;
        const Counted it = least_counted(input);
        if (it.seconds == 0) return;
        std::printf("%s\t%zu\titree\t%.9f\t%zu\t%.1f\n", input.workload.c_str(), size_of(input), it.seconds, it.answer,
                    it.megabytes);
        std::fflush(stdout);
        if (it.seconds > most || it.megabytes > MEGABYTES) return;
    }
}

}  // namespace

int main(int count, char **words) {
    const int doublings = count > 1 ? std::atoi(words[1]) : 8;
    const double most = count > 2 ? std::atof(words[2]) : 10;
    for (const auto &kind : kinds()) {
        if (kind.first > 0) measure_growth(kind, doublings, most);
    }
}
