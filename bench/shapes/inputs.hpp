// Shapes at which a way to find what meets may be slow: each is made for any number of its pieces, the same in each run.
#ifndef SHAPES_INPUTS_HPP
#define SHAPES_INPUTS_HPP

#include "../overlays/inputs.hpp"

struct Kind {
    /// What it is of: n is the number that is asked for.
    std::string name;
    Input (*of)(std::size_t count);
    /// For how many it is measured beside others, the least first.
    std::vector<std::size_t> counts;
    /// From how many on its growth is measured; 0 where it isn't.
    std::size_t first = 0;
    /// Whether no ring meets itself. GEOS takes no others.
    bool is_simple = true;
};

/// All of them.
std::vector<Kind> kinds();

/// Some pairs of polygons of so many points each, no two the same, which lie over each other in part: with corners on a circle, or
/// stars of which every other point reaches less far.
std::vector<Input> small_pairs(bool is_spiky, std::size_t points, Operation operation);

#endif
