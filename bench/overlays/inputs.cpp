#include "inputs.hpp"

#include <algorithm>
#include <cmath>
#include <fstream>
#include <numeric>
#include <random>

itree_point rounded(double x, double y) { return {std::int32_t(std::lround(x)), std::int32_t(std::lround(y))}; }

Shape stars(std::size_t size, unsigned seed) {
    constexpr std::size_t corners = 10;
    std::mt19937 numbers(seed);
    const auto share = [&] { return double(numbers()) / 4294967296.0; };
    const std::size_t count = std::max<std::size_t>(size / corners, 1);
    const double radius = range / std::sqrt(double(count)), inside = range - radius;
    Shape found;
    for (std::size_t star = 0; star < count; star++) {
        const double x = (share() * 2 - 1) * inside, y = (share() * 2 - 1) * inside;
        Ring ring;
        for (std::size_t corner = 0; corner < corners; corner++) {
            const double angle = 2 * M_PI * double(corner) / corners, reach = radius * (0.4 + 0.6 * share());
            ring.push_back(rounded(x + reach * std::cos(angle), y + reach * std::sin(angle)));
        }
        found.push_back({ring});
    }
    return found;
}

namespace {

Polygon square(std::int32_t x, std::int32_t y, std::int32_t side) {
    return {{{x, y}, {x + side, y}, {x + side, y + side}, {x, y + side}}};
}

}  // namespace

Shape board(std::int32_t x, std::int32_t y, std::int32_t side, std::int32_t columns, std::int32_t rows) {
    Shape found;
    for (std::int32_t place = 0; place < columns * rows; place++) {
        const auto column = place % columns, row = place / columns;
        if ((column + row) % 2 == 0) found.push_back(square(x + column * side, y + row * side, side));
    }
    return found;
}

Shape wavy(std::size_t size, double x, double y) {
    constexpr double radius = 0.9 * range, height = 0.05, waves = 200;
    Ring ring;
    for (std::size_t place = 0; place < size; place++) {
        const double angle = 2 * M_PI * double(place) / double(size);
        const double reach = radius * (1 + height * std::sin(waves * angle));
        ring.push_back(rounded(x + reach * std::cos(angle), y + reach * std::sin(angle)));
    }
    return {{ring}};
}

namespace {

Input united_stars(std::size_t size) { return {"overlay: stars, union", stars(size, 7), {}, Operation::either, false}; }

Input common_stars(std::size_t size) {
    return {"overlay: stars, intersection", stars(size, 7), stars(size, 8), Operation::both, false};
}

Input boards(std::size_t size) {
    const auto columns = std::int32_t(std::sqrt(double(size) / 4));
    const auto half = std::int32_t(range / (columns + 1));
    const auto low = -half * columns, side = 2 * half;
    return {"overlay: checkerboards, intersection", board(low, low, side, columns, columns),
            board(low + half, low + half, side, columns, columns), Operation::both, true};
}

Input rings(const char *workload, Operation operation, std::size_t size) {
    constexpr double aside = 0.01 * range;
    return {workload, wavy(size / 2, -aside, 0), wavy(size / 2, aside, aside), operation, true};
}

Input common_rings(std::size_t size) { return rings("overlay: two rings, intersection", Operation::both, size); }

Input first_ring_alone(std::size_t size) {
    return rings("overlay: two rings, difference", Operation::first_alone, size);
}

template <typename Work>
void for_each_ring(const Input &input, const Work &work) {
    for (const auto shape : {&input.subject, &input.clip}) {
        for (const auto &polygon : *shape) std::for_each(polygon.begin(), polygon.end(), work);
    }
}

std::int32_t number(std::ifstream &stream) {
    std::int32_t found = 0;
    stream.read(reinterpret_cast<char *>(&found), sizeof found);
    return found;
}

Polygon read_polygon(std::ifstream &stream) {
    Polygon polygon(std::size_t(number(stream)));
    for (auto &ring : polygon) {
        ring.resize(std::size_t(number(stream)));
        stream.read(reinterpret_cast<char *>(ring.data()), std::streamsize(ring.size() * sizeof(itree_point)));
    }
    return polygon;
}

Shape moved(Shape shape, std::int32_t x, std::int32_t y) {
    for (auto &polygon : shape) {
        for (auto &ring : polygon) {
            for (auto &point : ring) point = {point.x + x, point.y + y};
        }
    }
    return shape;
}

}  // namespace

std::size_t size_of(const Input &input) {
    std::size_t size = 0;
    for_each_ring(input, [&](const Ring &ring) { size += ring.size(); });
    return size;
}

double length_of(const Input &input) {
    double length = 0;
    for_each_ring(input, [&](const Ring &ring) {
        for (std::size_t place = 0; place < ring.size(); place++) {
            const auto &one = ring[place], &next = ring[(place + 1) % ring.size()];
            length += std::hypot(double(next.x) - one.x, double(next.y) - one.y);
        }
    });
    return length;
}

std::vector<Input (*)(std::size_t size)> generated() {
    return {united_stars, common_stars, boards, common_rings, first_ring_alone};
}

Shape land_alone(const char *file, std::int32_t &degree, std::int32_t &west, std::int32_t &columns) {
    std::ifstream stream(file, std::ios::binary);
    degree = number(stream), west = number(stream), columns = number(stream);
    Shape land;
    for (auto left = number(stream); left > 0; left--) land.push_back(read_polygon(stream));
    return united_by_itree(land);
}

std::vector<Input> land_of(const char *file) {
    std::int32_t degree = 0, west = 0, columns = 0;
    const Shape land = land_alone(file, degree, west, columns);
    const Shape cells = board(west * degree, 0, degree, columns, 180);
    return {{"overlay: land and cells, intersection", land, cells, Operation::both, true},
            {"overlay: land and land moved aside, intersection", land, moved(land, 50'000, 30'000), Operation::both,
             true}};
}
