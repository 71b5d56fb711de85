// What of a parcel is dry: of a parcel in well-known binary, as a database sends it, and a pond in degrees.
#include <algorithm>
#include <iostream>
#include <itree.hpp>

namespace {

/// A point of the pond.
struct Place {
    double x, y;
};

/// The parcel, a square from (0, 0) to (1, 1), in EWKB: PostGIS prints it so, with the reference system 4326.
constexpr char parcel[] =
    "0103000020E61000000100000005000000"
    "00000000000000000000000000000000"
    "000000000000F03F0000000000000000"
    "000000000000F03F000000000000F03F"
    "0000000000000000000000000000F03F"
    "00000000000000000000000000000000";

std::vector<std::byte> bytes_of(const std::string &digits) {
    std::vector<std::byte> bytes;
    for (std::size_t place = 0; place < digits.size(); place += 2) {
        bytes.push_back(static_cast<std::byte>(std::stoi(digits.substr(place, 2), nullptr, 16)));
    }
    return bytes;
}

/// Prints where the least and the greatest coordinates of a ring lie.
void print_corners(const std::vector<itree::Position> &ring) {
    const auto [left, right] =
        std::minmax_element(ring.begin(), ring.end(), [](auto &a, auto &b) { return a.x < b.x; });
    const auto [low, high] = std::minmax_element(ring.begin(), ring.end(), [](auto &a, auto &b) { return a.y < b.y; });
    std::cout << "from (" << left->x << ", " << low->y << ") to (" << right->x << ", " << high->y << ")\n";
}

}  // namespace

int main() {
    const auto bytes = bytes_of(parcel);
    const std::vector<std::vector<Place>> pond{{{0.25, 0.25}, {0.5, 0.25}, {0.5, 0.5}, {0.25, 0.5}}};
    try {
        const auto grid = itree::Grid::fit(itree::Wkb(bytes), pond);
        const auto land = itree::read_wkb(itree::Wkb(bytes), grid);
        const auto dry = itree::overlay(land, pond, itree::Operation::difference, itree::FillRule::non_zero, grid);
        for (const auto &polygon : dry) {
            std::cout << "a polygon ";
            print_corners(grid.back_all(polygon.outer()));
            for (const auto &hole : polygon.holes()) {
                std::cout << "without a hole ";
                print_corners(grid.back_all(hole));
            }
        }
        const auto written = itree::to_wkb(dry, grid, itree::wkb_srid(bytes));
        std::cout << written.size() << " bytes, of the reference system " << itree::wkb_srid(written) << "\n";
    } catch (const std::exception &fault) {
        std::cerr << fault.what() << "\n";
        return 1;
    }
}
