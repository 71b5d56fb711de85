// A field less a pond: its polygons, ring by ring.
#include <iostream>
#include <itree.hpp>

static void print_ring(const char *name, const itree::Ring &ring) {
    std::cout << name;
    for (const auto &[x, y] : ring) std::cout << " (" << x << ", " << y << ")";
    std::cout << "\n";
}

int main() {
    using Rings = std::vector<std::vector<itree::Point>>;
    const Rings field{{{0, 0}, {9, 0}, {9, 9}, {0, 9}}}, pond{{{3, 3}, {6, 3}, {6, 6}, {3, 6}}};
    for (const auto &polygon : itree::overlay(field, pond, itree::Operation::difference, itree::FillRule::non_zero)) {
        print_ring("polygon", polygon.outer());
        for (const auto &hole : polygon.holes()) print_ring("hole", hole);
    }
}
