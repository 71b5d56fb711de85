// Which edges cross, and which lie straight below a point, by a plain look at each: what the library is compared with.
#ifndef PLAIN_LOCATE_HPP
#define PLAIN_LOCATE_HPP

#include <algorithm>
#include <cstddef>
#include <cstdint>
#include <itree.hpp>
#include <optional>
#include <utility>
#include <vector>

namespace plain {

/// The edge from its lesser end to its greater.
inline itree::Edge rightwards(const itree::Edge &edge) {
    return edge.x0 <= edge.x1 ? edge : itree::Edge{edge.x1, edge.y1, edge.x0, edge.y0};
}

/// A height is a fraction, whose lower number is more than 0. For numbers up to a million.
struct Fraction {
    std::int64_t upper, lower;

    bool operator<(const Fraction &other) const { return upper * other.lower < other.upper * lower; }
};

/// The height at x of an edge that goes to the right.
inline Fraction height(const itree::Edge &edge, std::int64_t x) {
    const std::int64_t run = std::int64_t(edge.x1) - edge.x0;
    return {edge.y0 * run + (std::int64_t(edge.y1) - edge.y0) * (x - edge.x0), run};
}

/// Whether the one is below the other at some whole x that both span, and above it at another.
inline bool cross(const itree::Edge &edge, const itree::Edge &other_edge) {
    const auto one = rightwards(edge), other = rightwards(other_edge);
    if (one.x0 == one.x1 || other.x0 == other.x1) return false;
    bool below = false, above = false;
    for (auto x = std::max(one.x0, other.x0); x <= std::min(one.x1, other.x1); x++) {
        below = below || height(one, x) < height(other, x);
        above = above || height(other, x) < height(one, x);
    }
    return below && above;
}

inline bool any_cross(const std::vector<itree::Edge> &edges) {
    for (std::size_t place = 0; place < edges.size(); place++) {
        for (std::size_t other = 0; other < place; other++) {
            if (cross(edges[place], edges[other])) return true;
        }
    }
    return false;
}

/// The height at the point's x of an edge that is under it.
inline std::optional<Fraction> height_under(const itree::Edge &edge, const itree::Point &point) {
    const auto right = rightwards(edge);
    if (point.x < right.x0 || right.x1 <= point.x) return std::nullopt;
    const auto found = height(right, point.x);
    if (Fraction{point.y, 1} < found) return std::nullopt;
    return found;
}

/// Whether the answer is the place of an edge under the point than which no other one is higher, there or at the next
/// x, or none where none is under it.
inline bool is_below(const std::vector<itree::Edge> &edges, const itree::Point &point,
                     std::optional<std::size_t> answer) {
    const auto told = answer ? height_under(edges.at(*answer), point) : std::nullopt;
    if (answer && !told) return false;
    const auto next = [&](const itree::Edge &edge) { return height(rightwards(edge), std::int64_t(point.x) + 1); };
    return std::none_of(edges.begin(), edges.end(), [&](const itree::Edge &edge) {
        const auto other = height_under(edge, point);
        return other && (!told || *told < *other || next(edges.at(*answer)) < next(edge));
    });
}

}  // namespace plain

#endif
