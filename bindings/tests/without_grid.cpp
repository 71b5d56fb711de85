// It doesn't compile, and the compiler says why: points with floating-point coordinates want a grid.
#include <itree.hpp>

struct Corner {
    double x, y;
};

int main() {
    const std::vector<std::vector<Corner>> square{{{0, 0}, {1, 0}, {1, 1}, {0, 1}}};
#if OF_SHAPES
    return static_cast<int>(itree::candidate_pairs(square, square).size());
#else
    return static_cast<int>(itree::simplify(square, itree::FillRule::non_zero).size());
#endif
}
