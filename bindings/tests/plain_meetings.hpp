// Which edges meet, by a plain test of each pair: what the library is compared with.
#ifndef PLAIN_MEETINGS_HPP
#define PLAIN_MEETINGS_HPP

#include <algorithm>
#include <cstddef>
#include <itree.hpp>
#include <set>
#include <utility>
#include <vector>

namespace plain {

__extension__ typedef __int128 Product;

/// On which side of the line through the edge's ends the point lies: -1, 0 or 1.
inline int side_of(const itree::Edge &edge, std::int64_t x, std::int64_t y) {
    const Product one = Product(std::int64_t(edge.x1) - edge.x0) * (y - edge.y0);
    const Product other = Product(std::int64_t(edge.y1) - edge.y0) * (x - edge.x0);
    return (other < one) - (one < other);
}

/// Whether the edges meet: their boxes do, and neither has both ends on one side of the other.
inline bool meet(const itree::Edge &one, const itree::Edge &other) {
    return std::min(one.x0, one.x1) <= std::max(other.x0, other.x1) &&
           std::min(other.x0, other.x1) <= std::max(one.x0, one.x1) &&
           std::min(one.y0, one.y1) <= std::max(other.y0, other.y1) &&
           std::min(other.y0, other.y1) <= std::max(one.y0, one.y1) &&
           side_of(one, other.x0, other.y0) * side_of(one, other.x1, other.y1) <= 0 &&
           side_of(other, one.x0, one.y0) * side_of(other, one.x1, one.y1) <= 0;
}

/// How the edges meet: by how many different ends are of both.
inline itree::Meeting how_they_meet(const itree::Edge &one, const itree::Edge &other) {
    if (!meet(one, other)) return itree::Meeting::apart;
    std::set<std::pair<std::int32_t, std::int32_t>> shared;
    for (const auto &[x, y] : {std::pair(one.x0, one.y0), std::pair(one.x1, one.y1), std::pair(other.x0, other.y0),
                               std::pair(other.x1, other.y1)}) {
        if (meet(one, {x, y, x, y}) && meet(other, {x, y, x, y})) shared.insert({x, y});
    }
    if (shared.empty()) return itree::Meeting::cross;
    return shared.size() == 1 ? itree::Meeting::touch : itree::Meeting::share;
}

/// The places of edges that meet, in order.
inline std::vector<std::pair<std::size_t, std::size_t>> meetings(const std::vector<itree::Edge> &edges) {
    std::vector<std::pair<std::size_t, std::size_t>> pairs;
    for (std::size_t first = 0; first < edges.size(); first++) {
        for (std::size_t second = first + 1; second < edges.size(); second++) {
            if (meet(edges[first], edges[second])) pairs.push_back({first, second});
        }
    }
    return pairs;
}

/// The places of edges of two lists that meet, in order.
inline std::vector<std::pair<std::size_t, std::size_t>> meetings_between(const std::vector<itree::Edge> &edges,
                                                                         const std::vector<itree::Edge> &others) {
    std::vector<std::pair<std::size_t, std::size_t>> pairs;
    for (std::size_t first = 0; first < edges.size(); first++) {
        for (std::size_t second = 0; second < others.size(); second++) {
            if (meet(edges[first], others[second])) pairs.push_back({first, second});
        }
    }
    return pairs;
}

}  // namespace plain

#endif
