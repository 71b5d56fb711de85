#include "inputs.hpp"

#include <algorithm>
#include <cmath>
#include <random>

namespace {

constexpr double turn = 2 * M_PI;

/// Numbers by chance, the same in each run.
class Chance {
public:
    explicit Chance(unsigned seed) : numbers_(seed) {}
    /// From the least one up to the greatest one.
    double between(double least, double most) { return least + (most - least) * double(numbers_()) / 4294967296.0; }

private:
    std::mt19937 numbers_;
};

itree_point around(double x, double y, double reach, double angle) {
    return rounded(x + reach * std::cos(angle), y + reach * std::sin(angle));
}

Ring rectangle(double left, double low, double right, double high) {
    return {rounded(left, low), rounded(right, low), rounded(right, high), rounded(left, high)};
}

/// From one point to another one, half of its width on either side.
Ring bar(double x, double y, double x1, double y1, double width) {
    const double length = std::hypot(x1 - x, y1 - y) * 2 / width;
    const double aside = (y - y1) / length, up = (x1 - x) / length;
    return {rounded(x - aside, y - up), rounded(x1 - aside, y1 - up), rounded(x1 + aside, y1 + up),
            rounded(x + aside, y + up)};
}

/// So many polygons of a ring each, by the place of each.
template <typename Work>
Shape rings_of(std::size_t count, const Work &work) {
    Shape found;
    for (std::size_t place = 0; place < count; place++) found.push_back({work(double(place))});
    return found;
}

Input united(Shape shape) { return {"", std::move(shape), {}, Operation::either, false}; }

/// Two shapes, neither of which has two polygons with an inner point in common.
Input united(Shape one, Shape other) { return {"", std::move(one), std::move(other), Operation::either, true}; }

/// The same, the left side on the right.
Shape mirrored(Shape shape) {
    for (auto &polygon : shape) {
        for (auto &ring : polygon) {
            for (auto &point : ring) point.x = -point.x;
            std::reverse(ring.begin(), ring.end());
        }
    }
    return shape;
}

/// The same, turned round by a half.
Shape turned(Shape shape) {
    for (auto &polygon : shape) {
        for (auto &ring : polygon) {
            for (auto &point : ring) point = {-point.x, -point.y};
        }
    }
    return shape;
}

Shape steep_bars(std::size_t count) {
    const double step = 1.2 * range / double(count), low = -0.7 * range, high = -low;
    return rings_of(count, [&](double place) -> Ring {
        const double x = -range + place * step, x1 = x + 0.7 * range;
        return {rounded(x, low), rounded(x + step / 2, low), rounded(x1 + step / 2, high), rounded(x1, high)};
    });
}

Input hatching(std::size_t count) { return united(steep_bars(count)); }

Input flat_hatching(std::size_t count) {
    const double step = 1.2 * range / double(count), left = -0.9 * range, right = -left, up = (right - left) / 6;
    return united(rings_of(count, [&](double place) -> Ring {
        const double y = -range + place * step, y1 = y + up;
        return {rounded(left, y), rounded(right, y1), rounded(right, y1 + step / 2), rounded(left, y + step / 2)};
    }));
}

Input crossing_bars(std::size_t count) {
    const Shape bars = steep_bars(std::max<std::size_t>(count / 2, 1));
    return united(bars, mirrored(bars));
}

/// Triangles round the middle, side by side, each of which reaches as far as it is told.
template <typename Work>
Input round_middle(std::size_t count, const Work &reach) {
    return united(rings_of(count, [&](double place) -> Ring {
        const double far = reach(), angle = turn * place / double(count), next = turn * (place + 1) / double(count);
        return {{0, 0}, around(0, 0, far, angle), around(0, 0, far, next)};
    }));
}

Input fan(std::size_t count) {
    return round_middle(count, [] { return range; });
}

Input view(std::size_t count) {
    Chance chance(11);
    return round_middle(count, [&] { return chance.between(0.3, 1) * range; });
}

Input equal_squares(std::size_t count) {
    constexpr double half = range / 2;
    return united(rings_of(count, [](double) { return rectangle(-half, -half, half, half); }));
}

/// A path of so many edges, gone there and back so often.
Input there_and_back(std::size_t edges, std::size_t times) {
    Chance chance(12);
    std::vector<itree_point> path;
    for (std::size_t place = 0; place <= edges; place++) {
        path.push_back(rounded(chance.between(-range, range), chance.between(-range, range)));
    }
    Ring ring;
    for (std::size_t time = 0; time < times; time++) {
        ring.insert(ring.end(), path.begin(), path.end() - 1);
        ring.insert(ring.end(), path.rbegin(), path.rend() - 1);
    }
    return united(Shape{{ring}});
}

Input line_there_and_back(std::size_t count) { return there_and_back(1, count); }

Input path_there_and_back(std::size_t count) { return there_and_back(10, count); }

/// The ring of a spiral's outer and inner arm, and a square over its middle, so that there is something to unite.
Input spiral(std::size_t count) {
    constexpr std::size_t each_turn = 100;
    const double gap = range / (double(count) / each_turn + 2);
    const auto on_arm = [&](std::size_t place, double inside) {
        const double turns = double(place) / each_turn;
        return around(0, 0, gap * (turns + 1 - inside), turn * turns);
    };
    Ring ring;
    for (std::size_t place = 0; place <= count; place++) ring.push_back(on_arm(place, 0));
    for (std::size_t place = count + 1; place-- > 0;) ring.push_back(on_arm(place, 0.5));
    return united(Shape{{ring}}, Shape{{rectangle(-2 * gap, -2 * gap, 2 * gap, 2 * gap)}});
}

Input nested_bars(std::size_t count) {
    return united(rings_of(count, [&](double place) {
        const double share = (place + 1) / double(count);
        return rectangle(0, 0, range * share, range * share / 2);
    }));
}

Input nested_triangles(std::size_t count) {
    return united(rings_of(count, [&](double place) -> Ring {
        const double far = range * (place + 1) / double(count);
        return {rounded(-far, 0), rounded(far, 0), rounded(0, far / 2)};
    }));
}

Input stack(std::size_t count) {
    Chance chance(13);
    const double height = 1.8 * range / double(count);
    return united(rings_of(count, [&](double place) {
        const double aside = chance.between(-0.1, 0.1) * range, low = place * height - 0.9 * range;
        return rectangle(aside - 0.8 * range, low, aside + 0.8 * range, low + height);
    }));
}

Input many_stars(std::size_t count) { return united(stars(count * 10, 7)); }

Input two_wavy_rings(std::size_t count) {
    constexpr double aside = 0.01 * range;
    return united(wavy(count, -aside, 0), wavy(count, aside, aside));
}

/// Two circles that overlap, of so many points each, which begin at a share of a turn.
Input circles(std::size_t count, double begin) {
    const auto circle = [&](double x) {
        Ring ring;
        for (std::size_t place = 0; place < count; place++) {
            ring.push_back(around(x, 0, 0.6 * range, turn * (begin + double(place) / double(count))));
        }
        return Shape{{ring}};
    };
    return {"", circle(-0.2 * range), circle(0.2 * range), Operation::both, true};
}

Input circles_from_right(std::size_t count) { return circles(count, 0); }

Input circles_from_top(std::size_t count) { return circles(count, 0.25); }

Input circles_from_aside(std::size_t count) { return circles(count, 0.617); }

Input boards(std::size_t count) {
    const auto columns = std::max(std::int32_t(std::sqrt(double(count))), 1);
    const auto half = std::int32_t(range / (columns + 1)), low = -half * columns;
    return united(board(low, low, 2 * half, columns, columns),
                  board(low + half, low + half, 2 * half, columns, columns));
}

/// Two combs with upright teeth, those of the one between those of the other one, each as far as the other one's back.
Input combs(std::size_t count) {
    const double step = 1.8 * range / double(count), left = -0.9 * range;
    const double low = -0.8 * range, back = -0.7 * range, high = 0.75 * range;
    Ring ring{rounded(left, low), rounded(-left, low)};
    for (std::size_t tooth = count; tooth-- > 0;) {
        const double x = left + double(tooth) * step, x1 = x + 0.45 * step;
        for (const auto &[across, up] : {std::pair{x1, back}, {x1, high}, {x, high}, {x, back}}) {
            ring.push_back(rounded(across + 0.03 * step, up));
        }
    }
    const Shape comb{{ring}};
    return united(comb, turned(comb));
}

/// Two bands that go up and down so often, one up where the other one goes down.
Input zigzags(std::size_t count) {
    const double step = 1.8 * range / double(count), width = 0.1 * range;
    const auto band = [&](std::size_t first) {
        Ring below, above;
        for (std::size_t place = 0; place <= count; place++) {
            const double x = double(place) * step - 0.9 * range, y = ((place + first) % 2 ? 0.5 : -0.5) * range;
            below.push_back(rounded(x, y));
            above.push_back(rounded(x, y + width));
        }
        below.insert(below.end(), above.rbegin(), above.rend());
        return Shape{{below}};
    };
    return united(band(0), band(1));
}

/// Bars in any direction, each of which crosses some two or three others.
Input long_bars(std::size_t count) {
    Chance chance(14);
    const double half = 2 * range / std::sqrt(double(count));
    return united(rings_of(count, [&](double) {
        const double x = chance.between(-range, range), y = chance.between(-range, range);
        const double angle = chance.between(0, turn), aside = half * std::cos(angle), up = half * std::sin(angle);
        return bar(x - aside, y - up, x + aside, y + up, half / 25);
    }));
}

Input ring_anywhere(std::size_t count) {
    Chance chance(15);
    Ring ring;
    for (std::size_t place = 0; place < count; place++) {
        ring.push_back(rounded(chance.between(-range, range), chance.between(-range, range)));
    }
    return united(Shape{{ring}});
}

/// Bars of twenty to a road, each on from the end of the one before, in nearly its direction.
Input roads(std::size_t count) {
    Chance chance(16);
    const double length = std::min(2 / std::sqrt(double(count)), 0.05) * range;
    double x = 0, y = 0, angle = 0;
    return united(rings_of(count, [&](double place) {
        if (std::fmod(place, 20) == 0) {
            x = chance.between(-0.8, 0.8) * range, y = chance.between(-0.8, 0.8) * range;
            angle = chance.between(0, turn);
        }
        angle += chance.between(-0.3, 0.3);
        const double from = x, above = y;
        x += length * std::cos(angle), y += length * std::sin(angle);
        return bar(from, above, x, y, length / 8);
    }));
}

Ring small(Chance &chance, bool is_spiky, std::size_t points, double x, double y) {
    constexpr double radius = 1'000'000;
    std::vector<double> angles;
    for (std::size_t place = 0; place < points; place++) {
        angles.push_back(turn * (double(place) + chance.between(0, 0.9)) / double(points));
    }
    Ring ring;
    for (std::size_t place = 0; place < points; place++) {
        const double share = !is_spiky ? 1 : place % 2 ? chance.between(0.7, 1) : chance.between(0.3, 0.6);
        ring.push_back(around(x, y, radius * share, angles[place]));
    }
    return ring;
}

}  // namespace

std::vector<Kind> kinds() {
    return {
        {"hatching: n parallelograms side by side", hatching, {1'000, 10'000, 100'000}, 250},
        {"hatching of slope 1 in 6: n parallelograms", flat_hatching, {1'000, 10'000, 100'000}, 250},
        {"two hatchings that cross: n parallelograms", crossing_bars, {100, 400}, 32},
        {"fan: n triangles round one point", fan, {2'000, 20'000}, 333},
        {"view: n triangles round one point, each as far as it reaches", view, {2'000, 20'000}},
        {"n equal squares", equal_squares, {500, 2'000}, 250},
        {"a line, n times there and back", line_there_and_back, {1'000, 4'000}, 500, false},
        {"a path of ten edges, n times there and back", path_there_and_back, {100, 400}, 0, false},
        {"spiral: two arms of n edges", spiral, {10'000, 100'000}, 500},
        {"n nested bars, from one corner", nested_bars, {1'000, 4'000}, 250},
        {"n nested triangles, on one line", nested_triangles, {1'000, 4'000}, 333},
        {"stack: n bars, each on the one before", stack, {1'000, 10'000, 100'000}, 250},
        {"n stars", many_stars, {1'000, 10'000}, 100},
        {"two wavy rings of n edges", two_wavy_rings, {10'000, 100'000}},
        {"two circles of n edges, from the right", circles_from_right, {10'000, 100'000, 1'000'000}},
        {"two circles of n edges, from the top", circles_from_top, {10'000, 100'000, 1'000'000}},
        {"two circles of n edges, from aside", circles_from_aside, {10'000, 100'000, 1'000'000}, 500},
        {"two checkerboards: n squares", boards, {1'000, 10'000}, 250},
        {"two combs of n teeth", combs, {1'000, 10'000}},
        {"two zigzags of n turns", zigzags, {1'000, 10'000}},
        {"n long bars anywhere", long_bars, {1'000, 10'000}, 250},
        {"a ring of n points anywhere", ring_anywhere, {100, 400}, 0, false},
        {"roads: n bars", roads, {1'000, 10'000, 100'000}, 250},
    };
}

std::vector<Input> small_pairs(bool is_spiky, std::size_t points, Operation operation) {
    const std::size_t count = std::clamp<std::size_t>(3'000 / points, 3, 50);
    Chance chance(17);
    std::vector<Input> found;
    for (std::size_t pair = 0; pair < count; pair++) {
        const double x = chance.between(-600'000, 600'000), y = chance.between(-600'000, 600'000);
        const Ring one = small(chance, is_spiky, points, 0, 0), other = small(chance, is_spiky, points, x, y);
        found.push_back({"", {{one}}, {{other}}, operation, true});
    }
    return found;
}
