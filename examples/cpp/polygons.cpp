// Where the sides of two polygons meet, and which points lie inside one of them.
#include <algorithm>
#include <iostream>
#include <itree.hpp>

namespace {

using Polygon = std::vector<itree::Point>;

/// The sides of a polygon, from each corner to the next one, and from the last to the first.
std::vector<itree::Edge> sides_of(const Polygon &corners) {
    std::vector<itree::Edge> sides;
    for (std::size_t place = 0; place < corners.size(); place++) {
        const auto from = corners[place], to = corners[(place + 1) % corners.size()];
        sides.push_back({from.x, from.y, to.x, to.y});
    }
    return sides;
}

/// Prints which side of the one polygon meets which of the other.
void print_meetings(const Polygon &one, const Polygon &other) {
    auto sides = sides_of(one);
    const auto count = sides.size();
    for (const auto &side : sides_of(other)) sides.push_back(side);
    auto pairs = itree::meetings(sides);
    std::sort(pairs.begin(), pairs.end());
    for (const auto &[first, second] : pairs) {
        if (first < count && count <= second) {
            std::cout << "side " << first << " meets side " << second - count << " of the other\n";
        }
    }
}

/// Prints whether each point lies inside a polygon whose corners run counter-clockwise: the inside lies above the sides
/// that run to the right.
void print_whether_inside(const Polygon &polygon, const std::vector<itree::Point> &points) {
    const auto sides = sides_of(polygon);
    const auto below = itree::locate(sides, points);
    for (std::size_t place = 0; place < points.size(); place++) {
        const bool inside = below[place] && sides[*below[place]].x0 < sides[*below[place]].x1;
        const auto [x, y] = points[place];
        std::cout << "(" << x << ", " << y << ") lies " << (inside ? "inside" : "outside") << "\n";
    }
}

}  // namespace

int main() {
    const Polygon square{{0, 0}, {10, 0}, {10, 10}, {0, 10}};
    const Polygon arrow{{5, 5}, {15, 4}, {12, 6}, {15, 8}};
    print_meetings(square, arrow);
    print_whether_inside(arrow, {{8, 5}, {14, 6}, {12, 5}, {4, 5}});
    try {
        print_whether_inside({{0, 0}, {9, 9}, {9, 0}, {0, 9}}, {{1, 5}});
    } catch (const itree::Crossing &crossing) {
        std::cout << crossing.what() << "\n";
    }
}
