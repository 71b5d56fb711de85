// One overlay of bench/overlays, for bench/instructions. The arguments are the number of the workload and a size.
#include <cstdio>
#include <cstdlib>

#include "overlays/inputs.hpp"

int main(int count, char **words) {
    if (count != 3) return 2;
    const auto workloads = generated();
    const auto which = static_cast<std::size_t>(std::atoi(words[1]));
    if (which >= workloads.size()) return 3;
    const Input input = workloads[which](static_cast<std::size_t>(std::atoi(words[2])));
    itree_of(input)->run();
    std::puts(input.workload.c_str());
}
