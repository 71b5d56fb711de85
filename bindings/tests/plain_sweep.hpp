// A plain sweep over std::map, as one writes it by hand: what the proved one is compared with, in tests and in speed.
#ifndef PLAIN_SWEEP_HPP
#define PLAIN_SWEEP_HPP

#include <algorithm>
#include <cstddef>
#include <cstdint>
#include <itree.hpp>
#include <map>
#include <numeric>
#include <optional>
#include <utility>
#include <vector>

namespace plain {

/// Heights for the points, or the place of the first segment, by x0 and then by place, that collides with one before
/// it.
using Outcome = std::pair<std::vector<std::optional<std::int32_t>>, std::optional<std::size_t>>;

/// What is done where, in this order at one x: segments begin, points are answered, segments end.
enum class Task { begin, answer, end };

struct Event {
    std::int32_t x;
    Task task;
    std::size_t place;

    bool operator<(const Event &other) const {
        if (x != other.x) return x < other.x;
        if (task != other.task) return task < other.task;
        return place < other.place;
    }
};

inline Outcome below(const std::vector<itree::Segment> &segments, const std::vector<itree::Point> &points) {
    std::vector<Event> events;
    events.reserve(2 * segments.size() + points.size());
    for (std::size_t place = 0; place < segments.size(); place++) {
        if (segments[place].x1 < segments[place].x0) continue;
        events.push_back({segments[place].x0, Task::begin, place});
        events.push_back({segments[place].x1, Task::end, place});
    }
    for (std::size_t place = 0; place < points.size(); place++) {
        events.push_back({points[place].x, Task::answer, place});
    }
    std::sort(events.begin(), events.end());
    std::vector<std::optional<std::int32_t>> heights(points.size());
    std::map<std::int32_t, std::size_t> active;
    for (const auto &event : events) {
        if (event.task == Task::begin) {
            if (!active.emplace(segments[event.place].y, event.place).second) return {{}, event.place};
        } else if (event.task == Task::end) {
            active.erase(segments[event.place].y);
        } else {
            const auto above = active.upper_bound(points[event.place].y);
            if (above != active.begin()) heights[event.place] = std::prev(above)->first;
        }
    }
    return {heights, std::nullopt};
}

}  // namespace plain

#endif
