// Whether two edges share a point, in whole numbers: the test that every side of a measurement but ours makes of the
// pairs that its index finds. It is the library's test in C++.
#ifndef EXACT_HPP
#define EXACT_HPP

#include <algorithm>
#include <cstdint>
#include <itree.hpp>

namespace exact {

__extension__ typedef __int128 Product;

/// How far it is from one point to another.
struct Way {
    std::int64_t x, y;
};

inline Way way(std::int32_t x0, std::int32_t y0, std::int32_t x1, std::int32_t y1) {
    return {std::int64_t(x1) - x0, std::int64_t(y1) - y0};
}

inline Product cross(Way one, Way other) { return Product(one.x) * other.y - Product(one.y) * other.x; }

/// Whether the part lies between 0 and the whole.
inline bool is_part(Product part, Product whole) {
    return whole < 0 ? whole <= part && part <= 0 : 0 <= part && part <= whole;
}

inline bool boxes_meet(const itree::Edge &one, const itree::Edge &other) {
    return std::min(one.x0, one.x1) <= std::max(other.x0, other.x1) &&
           std::min(other.x0, other.x1) <= std::max(one.x0, one.x1) &&
           std::min(one.y0, one.y1) <= std::max(other.y0, other.y1) &&
           std::min(other.y0, other.y1) <= std::max(one.y0, one.y1);
}

inline bool meet(const itree::Edge &one, const itree::Edge &other) {
    const Way one_way = way(one.x0, one.y0, one.x1, one.y1), other_way = way(other.x0, other.y0, other.x1, other.y1);
    const Way between = way(one.x0, one.y0, other.x0, other.y0);
    const Product whole = cross(one_way, other_way);
    return is_part(cross(between, other_way), whole) && is_part(cross(between, one_way), whole) &&
           (whole != 0 || boxes_meet(one, other));
}

}  // namespace exact

#endif
