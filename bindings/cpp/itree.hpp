// The calls of itree.h for C++17: spans in, a vector out, or an exception.
//
//     c++ -std=c++17 program.cpp $(pkg-config --cflags --libs itree)
#ifndef ITREE_HPP
#define ITREE_HPP

#include <itree.h>

#include <algorithm>
#include <atomic>
#include <cmath>
#include <cstddef>
#include <cstdint>
#include <exception>
#include <functional>
#include <initializer_list>
#include <iterator>
#include <memory>
#include <new>
#include <optional>
#include <stdexcept>
#include <string>
#include <system_error>
#include <thread>
#include <type_traits>
#include <utility>
#include <vector>

// They stand beside their types, in no namespace, so that std finds them.
constexpr bool operator==(const itree_segment &one, const itree_segment &other) noexcept {
    return one.x0 == other.x0 && one.x1 == other.x1 && one.y == other.y;
}
constexpr bool operator==(const itree_point &one, const itree_point &other) noexcept {
    return one.x == other.x && one.y == other.y;
}
constexpr bool operator==(const itree_edge &one, const itree_edge &other) noexcept {
    return one.x0 == other.x0 && one.y0 == other.y0 && one.x1 == other.x1 && one.y1 == other.y1;
}
constexpr bool operator==(const itree_pair &one, const itree_pair &other) noexcept {
    return one.first == other.first && one.second == other.second;
}
constexpr bool operator==(const itree_window &one, const itree_window &other) noexcept {
    return one.left == other.left && one.low == other.low && one.right == other.right && one.high == other.high;
}
constexpr bool operator==(const itree_position &one, const itree_position &other) noexcept {
    return one.x == other.x && one.y == other.y;
}
constexpr bool operator==(const itree_grid &one, const itree_grid &other) noexcept {
    return one.x == other.x && one.y == other.y && one.exponent == other.exponent;
}
constexpr bool operator!=(const itree_position &one, const itree_position &other) noexcept { return !(one == other); }
constexpr bool operator!=(const itree_grid &one, const itree_grid &other) noexcept { return !(one == other); }
constexpr bool operator!=(const itree_segment &one, const itree_segment &other) noexcept { return !(one == other); }
constexpr bool operator!=(const itree_point &one, const itree_point &other) noexcept { return !(one == other); }
constexpr bool operator!=(const itree_edge &one, const itree_edge &other) noexcept { return !(one == other); }
constexpr bool operator!=(const itree_pair &one, const itree_pair &other) noexcept { return !(one == other); }
constexpr bool operator!=(const itree_window &one, const itree_window &other) noexcept { return !(one == other); }
/// By `first`, then by `second`.
constexpr bool operator<(const itree_pair &one, const itree_pair &other) noexcept {
    return one.first < other.first || (one.first == other.first && one.second < other.second);
}

namespace itree {

using Segment = ::itree_segment;
using Point = ::itree_point;
using Edge = ::itree_edge;
using Position = ::itree_position;

/// A rectangle with whole corners. A point lies in it from its left and its lower side on, and before its right and its upper
/// one: so of windows side by side one has it.
using Window = ::itree_window;

/// The places of two edges that meet: of one list, `first` below `second`, or one of each of two lists.
using Pair = ::itree_pair;

/// Items that stand one behind the other in memory and are only read: of a vector, an array, a list in braces, or a
/// pointer and a length. It owns nothing, so what it is made of has to live as long: a list in braces does as an
/// argument of a call.
template <typename T>
class Span {
public:
    Span() = default;
    Span(const T *items, std::size_t count) : items_(items), count_(count) {}
    template <std::size_t count>
    Span(const T (&items)[count]) : items_(items), count_(count) {}
    Span(std::initializer_list<T> items) : items_(first_of(items)), count_(items.size()) {}
    template <typename Items, typename Data = decltype(std::declval<const Items &>().data()),
              typename = std::enable_if_t<std::is_convertible_v<Data, const T *>>>
    Span(const Items &items) : items_(items.data()), count_(items.size()) {}

    std::size_t size() const { return count_; }
    bool empty() const { return count_ == 0; }
    const T *data() const { return items_; }
    const T *begin() const { return items_; }
    const T *end() const { return items_ + count_; }
    /// The item at a place below `size()`.
    const T &operator[](std::size_t place) const { return items_[place]; }
    const T &front() const { return items_[0]; }
    const T &back() const { return items_[count_ - 1]; }

private:
    static const T *first_of(const std::initializer_list<T> &items) { return items.begin(); }

    const T *items_ = nullptr;
    std::size_t count_ = 0;
};

/// Two segments have one height and cover one x.
class Overlap : public std::invalid_argument {
public:
    explicit Overlap(std::size_t index)
        : std::invalid_argument("the segment at place " + std::to_string(index) + " overlaps an earlier one"),
          index_(index) {}
    /// The place of the first segment, in the order of `x0` and then of place, that collides with one before it.
    std::size_t index() const { return index_; }

private:
    std::size_t index_;
};

/// Two edges cross.
class Crossing : public std::invalid_argument {
public:
    explicit Crossing(Pair pair)
        : std::invalid_argument("the edges at places " + std::to_string(pair.first) + " and " +
                                std::to_string(pair.second) + " cross"),
          pair_(pair) {}
    /// The places of two edges that cross, `first` below `second`.
    Pair pair() const { return pair_; }

private:
    Pair pair_;
};

/// A call was stopped, by a `Stopper`.
class Stopped : public std::runtime_error {
public:
    Stopped() : std::runtime_error("the call was stopped") {}
};

/// A coordinate isn't finite, or has no place on a grid.
class OffGrid : public std::invalid_argument {
public:
    explicit OffGrid(std::size_t index)
        : std::invalid_argument("the point at place " + std::to_string(index) + " isn't finite or is off the grid"),
          index_(index) {}
    /// The place of the first such point, counted over all rings of an argument.
    std::size_t index() const { return index_; }

private:
    std::size_t index_;
};

/// No point lies in a window, it comes too near to the ends of 32 bits, or two windows overlap.
class WindowFault : public std::invalid_argument {
public:
    WindowFault()
        : std::invalid_argument("a window has no points or comes too near to the ends of 32 bits, or two overlap") {}
};

/// Tiles don't fit: a polygon leaves its window, or polygons at borders overlap.
class Unfit : public std::invalid_argument {
public:
    Unfit() : std::invalid_argument("tiles don't fit: a polygon leaves its window, or polygons at borders overlap") {}
};

/// A shape to grow or shrink by isn't convex around the origin.
class ShapeFault : public std::invalid_argument {
public:
    ShapeFault() : std::invalid_argument("a shape to grow or shrink by isn't convex around the origin") {}
};

/// What grows or shrinks leaves 32 bits.
class RangeFault : public std::invalid_argument {
public:
    RangeFault() : std::invalid_argument("what grows or shrinks leaves 32 bits") {}
};

namespace detail {

/// Throws what a status says that each call may return.
inline void throw_unless_answered(std::int32_t status) {
    if (status == ITREE_STOPPED) throw Stopped();
    if (status == ITREE_WINDOW) throw WindowFault();
    if (status == ITREE_UNFIT) throw Unfit();
    if (status == ITREE_SHAPE) throw ShapeFault();
    if (status == ITREE_RANGE) throw RangeFault();
    if (status == ITREE_POINTER) throw std::invalid_argument("a span is null, misaligned or larger than memory can be");
    if (status == ITREE_LENGTHS) throw std::invalid_argument("a ring stops before it begins, or behind the points");
    if (status == ITREE_CHOICE) throw std::invalid_argument("there is no such rule or operation");
    if (status != ITREE_ANSWERED) throw std::bad_alloc();
}

}  // namespace detail

/// While it lives, no call of the thread that made it holds more bytes at once than so many: one that would throws
/// `std::bad_alloc`. What this header copies, vectors that it answers and handles don't count.
class MemoryLimit {
public:
    explicit MemoryLimit(std::size_t bytes) noexcept { ::itree_limit_memory(bytes); }
    MemoryLimit(const MemoryLimit &) = delete;
    MemoryLimit &operator=(const MemoryLimit &) = delete;
    ~MemoryLimit() { ::itree_limit_memory(0); }
};

/// The most bytes that this thread's last call held at once.
[[nodiscard]] inline std::size_t memory_peak() noexcept { return ::itree_memory_peak(); }

/// While it lives, calls of the thread that made it throw `Stopped` once `stop()` was called, by any thread or a signal
/// handler: the call that runs where it next asks for memory, and those after it.
class Stopper {
public:
    Stopper() noexcept { ::itree_stop_flag(reinterpret_cast<const volatile int *>(&flag_)); }
    Stopper(const Stopper &) = delete;
    Stopper &operator=(const Stopper &) = delete;
    ~Stopper() { ::itree_stop_flag(nullptr); }
    void stop() noexcept { flag_.store(1, std::memory_order_relaxed); }
    [[nodiscard]] bool is_stopped() const noexcept { return flag_.load(std::memory_order_relaxed) != 0; }

private:
    static_assert(sizeof(std::atomic<int>) == sizeof(int) && std::atomic<int>::is_always_lock_free);

    std::atomic<int> flag_{0};
};

/// For each point, in order, the greatest height at most its own among the segments that cover its x, if there is one.
/// Throws `Overlap` where two segments collide, and `std::bad_alloc` where memory was refused, which may be in that case
/// too.
[[nodiscard]] inline std::vector<std::optional<std::int32_t>> below(Span<Segment> segments, Span<Point> points) {
    std::vector<::itree_height> heights(points.size());
    std::size_t overlap = 0;
    const auto status = ::itree_below(segments.data(), segments.size(), points.data(), points.size(), heights.data(),
                                      points.size(), &overlap);
    if (status == ITREE_OVERLAP) throw Overlap(overlap);
    detail::throw_unless_answered(status);
    std::vector<std::optional<std::int32_t>> found(points.size());
    for (std::size_t place = 0; place < found.size(); place++) {
        if (heights[place].found) found[place] = heights[place].y;
    }
    return found;
}

/// Pairs of places, which stand one behind the other in memory that is theirs. They are moved, and not copied. Any number
/// of threads may read them.
class Pairs {
public:
    Pairs() = default;
    /// Takes over a handle of itree.h.
    explicit Pairs(::itree_pairs *handle) noexcept
        : handle_(handle), first_(::itree_pairs_first(handle)), count_(::itree_pairs_count(handle)) {}
    Pairs(Pairs &&other) noexcept
        : handle_(std::move(other.handle_)),
          first_(std::exchange(other.first_, nullptr)),
          count_(std::exchange(other.count_, 0)) {}
    Pairs &operator=(Pairs &&other) noexcept {
        handle_ = std::move(other.handle_);
        first_ = std::exchange(other.first_, nullptr);
        count_ = std::exchange(other.count_, 0);
        return *this;
    }

    [[nodiscard]] std::size_t size() const noexcept { return count_; }
    [[nodiscard]] bool empty() const noexcept { return count_ == 0; }
    /// Where the first pair lies, or null where there is none.
    [[nodiscard]] Pair *data() noexcept { return first_; }
    [[nodiscard]] const Pair *data() const noexcept { return first_; }
    [[nodiscard]] Pair *begin() noexcept { return first_; }
    [[nodiscard]] const Pair *begin() const noexcept { return first_; }
    [[nodiscard]] Pair *end() noexcept { return first_ + count_; }
    [[nodiscard]] const Pair *end() const noexcept { return first_ + count_; }
    /// The pair at a place below `size()`.
    [[nodiscard]] const Pair &operator[](std::size_t place) const noexcept { return first_[place]; }

private:
    struct Free {
        void operator()(::itree_pairs *handle) const noexcept { ::itree_pairs_free(handle); }
    };

    std::unique_ptr<::itree_pairs, Free> handle_;
    Pair *first_ = nullptr;
    std::size_t count_ = 0;
};

/// The pairs of edges that share a point, each once, in no particular order, where the library wrote them. Throws
/// `std::bad_alloc` where memory was refused.
[[nodiscard]] inline Pairs meetings_all(Span<Edge> edges) {
    ::itree_pairs *handle = nullptr;
    detail::throw_unless_answered(::itree_meetings_all(edges.data(), edges.size(), &handle));
    return Pairs(handle);
}

/// The same in a vector, into which the pairs are copied.
[[nodiscard]] inline std::vector<Pair> meetings(Span<Edge> edges) {
    const Pairs pairs = meetings_all(edges);
    return {pairs.begin(), pairs.end()};
}

/// The pairs of an edge of the first list and one of the second that share a point, each once, in no particular order,
/// where the library wrote them: `first` is a place of the first list, and `second` one of the second list. Throws
/// `std::bad_alloc` where memory was refused.
[[nodiscard]] inline Pairs meetings_between(Span<Edge> edges, Span<Edge> others) {
    ::itree_pairs *handle = nullptr;
    detail::throw_unless_answered(
        ::itree_meetings_between(edges.data(), edges.size(), others.data(), others.size(), &handle));
    return Pairs(handle);
}

/// Goes over lists of points that stand one behind the other, by where each begins and stops.
class PointsIterator {
public:
    using iterator_category = std::input_iterator_tag;
    using value_type = Span<Point>;
    using difference_type = std::ptrdiff_t;
    using pointer = const Span<Point> *;
    using reference = Span<Point>;

    PointsIterator() = default;
    PointsIterator(const Point *points, const std::size_t *offset) noexcept : points_(points), offset_(offset) {}
    Span<Point> operator*() const noexcept { return {points_ + offset_[0], offset_[1] - offset_[0]}; }
    PointsIterator &operator++() noexcept {
        ++offset_;
        return *this;
    }
    PointsIterator operator++(int) noexcept {
        const PointsIterator before = *this;
        ++offset_;
        return before;
    }
    friend bool operator==(const PointsIterator &one, const PointsIterator &other) noexcept {
        return one.offset_ == other.offset_;
    }
    friend bool operator!=(const PointsIterator &one, const PointsIterator &other) noexcept { return !(one == other); }

private:
    const Point *points_ = nullptr;
    const std::size_t *offset_ = nullptr;
};

/// A chain of points, which stand one behind the other in memory that is its `Chains`'.
using Chain = Span<Point>;

/// Chains of points, one for each edge, or for each ring, in memory that is theirs. They are moved, and not copied. Any number of threads
/// may read them.
class Chains {
public:
    using Iterator = PointsIterator;

    Chains() = default;
    /// Takes over a handle of itree.h.
    explicit Chains(::itree_chains *handle) noexcept
        : handle_(handle),
          points_(::itree_chains_points(handle)),
          offsets_(::itree_chains_offsets(handle)),
          count_(::itree_chains_count(handle)) {}
    Chains(Chains &&other) noexcept
        : handle_(std::move(other.handle_)),
          points_(std::exchange(other.points_, nullptr)),
          offsets_(std::exchange(other.offsets_, nullptr)),
          count_(std::exchange(other.count_, 0)) {}
    Chains &operator=(Chains &&other) noexcept {
        handle_ = std::move(other.handle_);
        points_ = std::exchange(other.points_, nullptr);
        offsets_ = std::exchange(other.offsets_, nullptr);
        count_ = std::exchange(other.count_, 0);
        return *this;
    }

    /// How many chains there are: as many as there were edges, or rings.
    [[nodiscard]] std::size_t size() const noexcept { return count_; }
    [[nodiscard]] bool empty() const noexcept { return count_ == 0; }
    /// The chain at a place below `size()`: that of the edge, or of the ring, at this place.
    [[nodiscard]] Chain operator[](std::size_t place) const noexcept { return *Iterator(points_, offsets_ + place); }
    [[nodiscard]] Iterator begin() const noexcept { return {points_, offsets_}; }
    [[nodiscard]] Iterator end() const noexcept { return {points_, offsets_ + count_}; }
    /// The points of all chains, one chain behind the other.
    [[nodiscard]] Span<Point> points() const noexcept { return {points_, offsets_ == nullptr ? 0 : offsets_[count_]}; }
    /// Where each chain begins among the points, and at last how many points there are: `size() + 1` numbers, or none
    /// where nothing was taken over.
    [[nodiscard]] Span<std::size_t> offsets() const noexcept {
        return {offsets_, offsets_ == nullptr ? 0 : count_ + 1};
    }

private:
    struct Free {
        void operator()(::itree_chains *handle) const noexcept { ::itree_chains_free(handle); }
    };

    std::unique_ptr<::itree_chains, Free> handle_;
    const Point *points_ = nullptr;
    const std::size_t *offsets_ = nullptr;
    std::size_t count_ = 0;
};

/// The chains that the edges become by snap rounding, one for each edge, in their order, where the library wrote them.
/// Which points are of a chain is said at `itree_snap` of itree.h; it begins and ends as its edge does. Throws
/// `std::bad_alloc` where memory was refused.
[[nodiscard]] inline Chains snap(Span<Edge> edges) {
    ::itree_chains *handle = nullptr;
    detail::throw_unless_answered(::itree_snap(edges.data(), edges.size(), &handle));
    return Chains(handle);
}

/// The chains that the edges become where they are moved only where they must be, one for each edge, in their order, where
/// the library wrote them. Which edges are moved, and which points are of a chain, is said at `itree_node` of itree.h.
/// Where no two edges cross at a point with fractions, each edge stays where it is. Throws what `snap` does.
[[nodiscard]] inline Chains node(Span<Edge> edges) {
    ::itree_chains *handle = nullptr;
    detail::throw_unless_answered(::itree_node(edges.data(), edges.size(), &handle));
    return Chains(handle);
}

/// Which points are inside of rings: by how often the rings go round a point counterclockwise, where y points upwards,
/// less how often they go round it clockwise.
enum class FillRule : std::int32_t {
    /// An odd number of times.
    even_odd = ITREE_EVEN_ODD,
    /// Any number of times but 0.
    non_zero = ITREE_NON_ZERO,
    /// More than 0 times.
    positive = ITREE_POSITIVE,
    /// Less than 0 times.
    negative = ITREE_NEGATIVE
};

/// What becomes of the inside of a subject and that of a clip.
enum class Operation : std::int32_t {
    /// The points of either.
    union_ = ITREE_UNION,
    /// The points of both.
    intersection = ITREE_INTERSECTION,
    /// The points of the subject that aren't of the clip.
    difference = ITREE_DIFFERENCE,
    /// The points of just one of the two.
    xor_ = ITREE_XOR
};

/// Whether a point on an edge of a shape is in it.
enum class Border : std::int32_t {
    /// It is.
    closed = ITREE_CLOSED,
    /// It isn't.
    open = ITREE_OPEN,
    /// One on a left or a lower border is, and one on a right or an upper border isn't: so of shapes that cover the plane side
    /// by side each point is in just one.
    half_open = ITREE_HALF_OPEN
};

/// Which part of lines is kept.
enum class Side : std::int32_t {
    /// What lies inside of rings or along their border.
    inside = ITREE_INSIDE,
    /// The rest.
    outside = ITREE_OUTSIDE
};

/// Rings that are only read: the points of all of them, one ring after the other, and where each stops among these. So
/// the ends are the offsets of the Arrow format without the first, which is 0; points behind the last end are of no
/// ring.
struct Rings {
    Rings() = default;
    Rings(Span<Point> all_points, Span<std::size_t> all_ends) : points(all_points), ends(all_ends) {}

    Span<Point> points;
    Span<std::size_t> ends;
};

/// Shapes that are only read, each some rings, as a polygon with its holes: the points of all rings, one ring after the
/// other; where each ring stops among these; and where each shape stops among the rings. So the ends are the offsets of
/// the Arrow format without the first, which is 0.
struct Layer {
    Layer() = default;
    Layer(Span<Point> all_points, Span<std::size_t> all_ring_ends, Span<std::size_t> all_shape_ends)
        : points(all_points), ring_ends(all_ring_ends), shape_ends(all_shape_ends) {}

    Span<Point> points;
    Span<std::size_t> ring_ends, shape_ends;
};

/// Groups of shapes that are only read: the places of the shapes of all groups, one group after the other, and where each
/// group stops among these.
struct Groups {
    Groups() = default;
    Groups(Span<std::size_t> all_places, Span<std::size_t> all_ends) : places(all_places), ends(all_ends) {}

    Span<std::size_t> places, ends;
};

/// A ring of points, which stand one behind the other in memory that is its `Polygons`'.
using Ring = Span<Point>;

/// Rings that stand one behind the other in memory that is their `Polygons`'.
class RingList {
public:
    using Iterator = PointsIterator;

    RingList() = default;
    RingList(const Point *points, const std::size_t *offsets, std::size_t count) noexcept
        : points_(points), offsets_(offsets), count_(count) {}

    [[nodiscard]] std::size_t size() const noexcept { return count_; }
    [[nodiscard]] bool empty() const noexcept { return count_ == 0; }
    /// The ring at a place below `size()`.
    [[nodiscard]] Ring operator[](std::size_t place) const noexcept { return *Iterator(points_, offsets_ + place); }
    [[nodiscard]] Iterator begin() const noexcept { return {points_, offsets_}; }
    [[nodiscard]] Iterator end() const noexcept { return {points_, offsets_ + count_}; }

protected:
    const Point *points_ = nullptr;
    const std::size_t *offsets_ = nullptr;
    std::size_t count_ = 0;
};

/// The rings of a polygon: the outer one, which runs counterclockwise, and behind it its holes, which run clockwise.
class Polygon : public RingList {
public:
    using RingList::RingList;

    [[nodiscard]] Ring outer() const noexcept { return (*this)[0]; }
    [[nodiscard]] RingList holes() const noexcept { return {points_, offsets_ + 1, count_ - 1}; }
};

/// Polygons in memory that is theirs. They are moved, and not copied. Any number of threads may read them.
class Polygons {
public:
    /// Goes over polygons.
    class Iterator {
    public:
        using iterator_category = std::input_iterator_tag;
        using value_type = Polygon;
        using difference_type = std::ptrdiff_t;
        using pointer = const Polygon *;
        using reference = Polygon;

        Iterator() = default;
        Iterator(const Point *points, const std::size_t *rings, const std::size_t *offset) noexcept
            : points_(points), rings_(rings), offset_(offset) {}
        Polygon operator*() const noexcept { return {points_, rings_ + offset_[0], offset_[1] - offset_[0]}; }
        Iterator &operator++() noexcept {
            ++offset_;
            return *this;
        }
        Iterator operator++(int) noexcept {
            const Iterator before = *this;
            ++offset_;
            return before;
        }
        friend bool operator==(const Iterator &one, const Iterator &other) noexcept {
            return one.offset_ == other.offset_;
        }
        friend bool operator!=(const Iterator &one, const Iterator &other) noexcept { return !(one == other); }

    private:
        const Point *points_ = nullptr;
        const std::size_t *rings_ = nullptr;
        const std::size_t *offset_ = nullptr;
    };

    Polygons() = default;
    /// Takes over a handle of itree.h.
    explicit Polygons(::itree_polygons *handle) noexcept : handle_(handle) {
        const Point *points = nullptr;
        const std::size_t *offsets = nullptr;
        const auto point_count = ::itree_polygons_points(handle, &points);
        points_ = {points, point_count};
        const auto ring_count = ::itree_polygons_ring_offsets(handle, &offsets);
        ring_offsets_ = {offsets, ring_count};
        const auto polygon_count = ::itree_polygons_polygon_offsets(handle, &offsets);
        polygon_offsets_ = {offsets, polygon_count};
    }
    Polygons(Polygons &&other) noexcept
        : handle_(std::move(other.handle_)),
          points_(std::exchange(other.points_, Span<Point>())),
          ring_offsets_(std::exchange(other.ring_offsets_, Span<std::size_t>())),
          polygon_offsets_(std::exchange(other.polygon_offsets_, Span<std::size_t>())) {}
    Polygons &operator=(Polygons &&other) noexcept {
        handle_ = std::move(other.handle_);
        points_ = std::exchange(other.points_, Span<Point>());
        ring_offsets_ = std::exchange(other.ring_offsets_, Span<std::size_t>());
        polygon_offsets_ = std::exchange(other.polygon_offsets_, Span<std::size_t>());
        return *this;
    }

    /// How many polygons there are.
    [[nodiscard]] std::size_t size() const noexcept {
        return polygon_offsets_.empty() ? 0 : polygon_offsets_.size() - 1;
    }
    [[nodiscard]] bool empty() const noexcept { return size() == 0; }
    /// The polygon at a place below `size()`.
    [[nodiscard]] Polygon operator[](std::size_t place) const noexcept { return *at(place); }
    [[nodiscard]] Iterator begin() const noexcept { return at(0); }
    [[nodiscard]] Iterator end() const noexcept { return at(size()); }
    /// The points of all rings, one ring behind the other.
    [[nodiscard]] Span<Point> points() const noexcept { return points_; }
    /// Where each ring begins among the points, and at last how many points there are; or nothing where nothing was
    /// taken over.
    [[nodiscard]] Span<std::size_t> ring_offsets() const noexcept { return ring_offsets_; }
    /// Where each polygon begins among the rings, and at last how many rings there are: `size() + 1` numbers, or none
    /// where nothing was taken over.
    [[nodiscard]] Span<std::size_t> polygon_offsets() const noexcept { return polygon_offsets_; }
    /// The rings of all polygons, as a further call takes them. They stay with these polygons.
    [[nodiscard]] Rings rings() const noexcept {
        if (ring_offsets_.empty()) return {};
        return {points_, {ring_offsets_.data() + 1, ring_offsets_.size() - 1}};
    }
    /// The polygons as shapes, as a further call takes them. They stay with these polygons.
    [[nodiscard]] Layer layer() const noexcept {
        const auto all = rings();
        if (polygon_offsets_.empty()) return {};
        return {all.points, all.ends, {polygon_offsets_.data() + 1, size()}};
    }

private:
    struct Free {
        void operator()(::itree_polygons *handle) const noexcept { ::itree_polygons_free(handle); }
    };

    [[nodiscard]] Iterator at(std::size_t place) const noexcept {
        return {points_.data(), ring_offsets_.data(), polygon_offsets_.data() + place};
    }

    std::unique_ptr<::itree_polygons, Free> handle_;
    Span<Point> points_;
    Span<std::size_t> ring_offsets_, polygon_offsets_;
};

/// Shapes that were read, in memory that is theirs: for each the rings of all its polygons. They are moved, and not copied.
/// Any number of threads may read them.
class Shapes : private Polygons {
public:
    using Polygons::empty;
    using Polygons::layer;
    using Polygons::points;
    using Polygons::Polygons;
    using Polygons::ring_offsets;
    using Polygons::rings;
    using Polygons::size;

    /// The rings of the shape at a place below `size()`.
    [[nodiscard]] RingList operator[](std::size_t place) const noexcept { return Polygons::operator[](place); }
    /// Where each shape begins among the rings, and at last how many rings there are: `size() + 1` numbers, or none
    /// where nothing was taken over.
    [[nodiscard]] Span<std::size_t> shape_offsets() const noexcept { return polygon_offsets(); }
};

/// Polygons that stand one behind the other in memory that is their `Overlays`'.
class PolygonList {
public:
    using Iterator = Polygons::Iterator;

    PolygonList() = default;
    PolygonList(const Point *points, const std::size_t *rings, const std::size_t *offsets, std::size_t count) noexcept
        : points_(points), rings_(rings), offsets_(offsets), count_(count) {}

    [[nodiscard]] std::size_t size() const noexcept { return count_; }
    [[nodiscard]] bool empty() const noexcept { return count_ == 0; }
    /// The polygon at a place below `size()`.
    [[nodiscard]] Polygon operator[](std::size_t place) const noexcept { return *at(place); }
    [[nodiscard]] Iterator begin() const noexcept { return at(0); }
    [[nodiscard]] Iterator end() const noexcept { return at(count_); }

private:
    [[nodiscard]] Iterator at(std::size_t place) const noexcept { return {points_, rings_, offsets_ + place}; }

    const Point *points_ = nullptr;
    const std::size_t *rings_ = nullptr;
    const std::size_t *offsets_ = nullptr;
    std::size_t count_ = 0;
};

/// What `overlay_each` answers: for each pair, or for each group, its polygons, in memory that is theirs. They are moved,
/// and not copied. Any number of threads may read them.
class Overlays {
public:
    /// Goes over the polygons of each pair.
    class Iterator {
    public:
        using iterator_category = std::input_iterator_tag;
        using value_type = PolygonList;
        using difference_type = std::ptrdiff_t;
        using pointer = const PolygonList *;
        using reference = PolygonList;

        Iterator() = default;
        Iterator(const Overlays *overlays, std::size_t place) noexcept : overlays_(overlays), place_(place) {}
        PolygonList operator*() const noexcept { return (*overlays_)[place_]; }
        Iterator &operator++() noexcept {
            ++place_;
            return *this;
        }
        Iterator operator++(int) noexcept {
            const Iterator before = *this;
            ++place_;
            return before;
        }
        friend bool operator==(const Iterator &one, const Iterator &other) noexcept {
            return one.place_ == other.place_;
        }
        friend bool operator!=(const Iterator &one, const Iterator &other) noexcept { return !(one == other); }

    private:
        const Overlays *overlays_ = nullptr;
        std::size_t place_ = 0;
    };

    Overlays() = default;
    /// Takes over all polygons, and where those of each pair stop among them.
    Overlays(Polygons all, std::vector<std::size_t> ends) noexcept : all_(std::move(all)), ends_(std::move(ends)) {}

    /// How many pairs there were, or groups.
    [[nodiscard]] std::size_t size() const noexcept { return ends_.size(); }
    [[nodiscard]] bool empty() const noexcept { return ends_.empty(); }
    /// The polygons of the pair at a place below `size()`.
    [[nodiscard]] PolygonList operator[](std::size_t place) const noexcept {
        const auto start = place == 0 ? 0 : ends_[place - 1];
        return {all_.points().data(), all_.ring_offsets().data(), all_.polygon_offsets().data() + start,
                ends_[place] - start};
    }
    [[nodiscard]] Iterator begin() const noexcept { return {this, 0}; }
    [[nodiscard]] Iterator end() const noexcept { return {this, size()}; }
    /// The polygons of all pairs, one pair behind the other.
    [[nodiscard]] const Polygons &all() const noexcept { return all_; }
    /// Where the polygons of each pair stop among all.
    [[nodiscard]] Span<std::size_t> ends() const noexcept { return ends_; }

private:
    Polygons all_;
    std::vector<std::size_t> ends_;
};

/// Pieces of lines, in memory that is theirs: for each line a list of its pieces, each of which is a span of points. They
/// are moved, and not copied. Any number of threads may read them.
class Pieces : private Polygons {
public:
    using Polygons::empty;
    using Polygons::points;
    using Polygons::Polygons;
    using Polygons::size;

    /// The pieces of the line at a place below `size()`, in order along it.
    [[nodiscard]] RingList operator[](std::size_t place) const noexcept { return Polygons::operator[](place); }
    /// Where each piece begins among the points, and at last how many points there are; or nothing where nothing was
    /// taken over.
    [[nodiscard]] Span<std::size_t> piece_offsets() const noexcept { return ring_offsets(); }
    /// Where the pieces of each line begin among all, and at last how many pieces there are: `size() + 1` numbers, or none
    /// where nothing was taken over.
    [[nodiscard]] Span<std::size_t> line_offsets() const noexcept { return polygon_offsets(); }
};

/// Bytes that are only read: a vector of `std::byte`, a string or what else has characters or bytes side by side. It owns
/// nothing.
class Bytes {
public:
    Bytes() = default;
    Bytes(const void *bytes, std::size_t count) : bytes_(static_cast<const std::uint8_t *>(bytes)), count_(count) {}
    template <typename Items, typename Data = decltype(std::declval<const Items &>().data()),
              typename = std::enable_if_t<sizeof(*std::declval<Data>()) == 1>>
    Bytes(const Items &items) : Bytes(items.data(), items.size()) {}

    [[nodiscard]] const std::uint8_t *data() const noexcept { return bytes_; }
    [[nodiscard]] std::size_t size() const noexcept { return count_; }

private:
    const std::uint8_t *bytes_ = nullptr;
    std::size_t count_ = 0;
};

/// Shapes in well-known binary that are only read: one, or many, of which the one at i is the bytes from the offset at i on
/// and before that at i + 1, as in a list of the Arrow format. Which ones are read is said at `itree_wkb_read` of itree.h.
class Wkb {
public:
    explicit Wkb(Bytes one) : bytes_(one), ends_{0, one.size()} {}
    Wkb(Bytes all, Span<std::size_t> offsets) : bytes_(all), offsets_(offsets), is_many_(true) {}

    [[nodiscard]] Bytes bytes() const noexcept { return bytes_; }
    [[nodiscard]] Span<std::size_t> offsets() const noexcept { return is_many_ ? offsets_ : Span<std::size_t>(ends_); }

private:
    Bytes bytes_;
    std::size_t ends_[2] = {0, 0};
    Span<std::size_t> offsets_;
    bool is_many_ = false;
};

/// A shape in well-known binary is faulty.
class WkbFault : public std::invalid_argument {
public:
    explicit WkbFault(const ::itree_wkb_place &fault)
        : std::invalid_argument("the shape at place " + std::to_string(fault.shape) + ", from byte " +
                                std::to_string(fault.byte) + " on: " + text_of(fault.kind)),
          fault_(fault) {}
    /// One of `itree_wkb_fault`.
    [[nodiscard]] std::size_t kind() const noexcept { return fault_.kind; }
    /// The place of the shape.
    [[nodiscard]] std::size_t shape() const noexcept { return fault_.shape; }
    /// The place among all bytes at which what is faulty begins.
    [[nodiscard]] std::size_t byte() const noexcept { return fault_.byte; }

private:
    static const char *text_of(std::size_t kind) {
        switch (kind) {
        case ITREE_WKB_SHORT: return "the bytes end before it does";
        case ITREE_WKB_BYTE_ORDER: return "a byte order is neither 0 nor 1";
        case ITREE_WKB_KIND: return "a geometry is no polygon, multipolygon or collection";
        case ITREE_WKB_NESTED: return "collections lie within one another too deep";
        case ITREE_WKB_NOT_FINITE: return "a coordinate isn't finite";
        case ITREE_WKB_OFF_GRID: return "a position is off the grid";
        case ITREE_WKB_LEFT_OVER: return "bytes are left over";
        default: return "an offset is faulty";
        }
    }

    ::itree_wkb_place fault_;
};

namespace detail {

/// Rings in memory of their own.
template <typename Item>
struct OwnRings {
    std::vector<Item> points;
    std::vector<std::size_t> ends;

    operator Rings() const { return {points, ends}; }
};

/// What an argument in braces is: rings in braces, points and ends, or nothing. It is read before the call ends.
template <typename Item>
struct InBraces {
    InBraces() = default;
    InBraces(std::initializer_list<Span<Item>> all) {
        for (const auto &ring : all) {
            own.points.insert(own.points.end(), ring.begin(), ring.end());
            own.ends.push_back(own.points.size());
        }
        points = own.points;
        ends = own.ends;
    }
    InBraces(Span<Item> all_points, Span<std::size_t> all_ends) : points(all_points), ends(all_ends) {}
    InBraces(const InBraces &) = delete;
    InBraces &operator=(const InBraces &) = delete;

    OwnRings<Item> own;
    Span<Item> points;
    Span<std::size_t> ends;
};

template <typename Items, typename = void>
struct HasRings : std::false_type {};
template <typename Items>
struct HasRings<Items, std::enable_if_t<std::is_convertible_v<decltype(std::declval<const Items &>().rings()), Rings>>>
    : std::true_type {};

template <typename Item, typename = void>
struct HasDoubles : std::false_type {};
template <typename Item>
struct HasDoubles<Item,
                  std::enable_if_t<std::is_floating_point_v<std::decay_t<decltype(std::declval<const Item &>().x)>>>>
    : std::is_floating_point<std::decay_t<decltype(std::declval<const Item &>().y)>> {};

/// What the rings of a range have.
template <typename Items>
using ItemOf = std::decay_t<decltype(*std::begin(*std::begin(std::declval<const Items &>())))>;

template <typename Item, typename Ring, typename As>
void add_ring(OwnRings<Item> &rings, const Ring &ring, As as) {
    for (const auto &point : ring) rings.points.push_back(as(point));
    rings.ends.push_back(rings.points.size());
}

/// Each ring's points, made by `as`, behind those of the ring before it.
template <typename Item, typename Items, typename As>
OwnRings<Item> copied(const Items &items, As as) {
    OwnRings<Item> rings;
    for (const auto &ring : items) add_ring(rings, ring, as);
    return rings;
}

template <typename Items, typename = void>
struct HasLayer : std::false_type {};
template <typename Items>
struct HasLayer<Items, std::enable_if_t<std::is_convertible_v<decltype(std::declval<const Items &>().layer()), Layer>>>
    : std::true_type {};

template <typename Item>
constexpr bool is_point = HasDoubles<Item>::value || std::is_convertible_v<Item, Point>;

/// What a range has, and what the rings of shapes have: of a range of rings each ring is a shape.
template <typename Items>
using OneOf = std::decay_t<decltype(*std::begin(std::declval<const Items &>()))>;
template <typename Items, bool is_of_rings = is_point<ItemOf<Items>>>
struct PointOf {
    using Type = ItemOf<Items>;
};
template <typename Items>
struct PointOf<Items, false> {
    using Type = ItemOf<OneOf<Items>>;
};

/// Shapes in memory of their own.
template <typename Item>
struct CopiedShapes {
    OwnRings<Item> rings;
    std::vector<std::size_t> ends;

    operator Layer() const { return {rings.points, rings.ends, ends}; }
};

/// Rings where they lie, each a shape.
struct RingShapes {
    Rings rings;
    std::vector<std::size_t> ends;

    operator Layer() const { return {rings.points, rings.ends, ends}; }
};

/// 1, 2, 3 and so on: where each of so many items stops that stands alone.
inline std::vector<std::size_t> ends_of_each(std::size_t count) {
    std::vector<std::size_t> ends(count);
    for (std::size_t place = 0; place < count; place++) ends[place] = place + 1;
    return ends;
}

/// Each shape's rings, their points made by `as`, behind those of the shape before it.
template <typename Item, typename Items, typename As>
CopiedShapes<Item> copied_shapes(const Items &items, As as) {
    CopiedShapes<Item> shapes;
    for (const auto &shape : items) {
        if constexpr (is_point<OneOf<OneOf<Items>>>) {
            add_ring(shapes.rings, shape, as);
        } else {
            for (const auto &ring : shape) add_ring(shapes.rings, ring, as);
        }
        shapes.ends.push_back(shapes.rings.ends.size());
    }
    return shapes;
}

/// Whether shapes lie as the library takes them.
template <typename Items>
constexpr bool are_lists = std::is_same_v<Items, Layer> || std::is_same_v<Items, Rings> || HasLayer<Items>::value;

/// Shapes as the library takes them: as they are, or each shape's rings behind those of the shape before it.
template <typename Items>
auto shapes_of(const Items &items) {
    if constexpr (std::is_same_v<Items, Layer>) {
        return items;
    } else if constexpr (std::is_same_v<Items, Rings>) {
        return RingShapes{items, ends_of_each(items.ends.size())};
    } else if constexpr (HasLayer<Items>::value) {
        return items.layer();
    } else {
        using Item = typename PointOf<Items>::Type;
        static_assert(!HasDoubles<Item>::value,
                      "the points have floating-point coordinates: give a grid as the last argument, as in "
                      "candidate_pairs(shapes, others, itree::Grid::fit(shapes, others))");
        static_assert(HasDoubles<Item>::value || std::is_convertible_v<Item, Point>,
                      "shapes are ranges of rings, which are ranges of itree::Point, or of what converts to it");
        return copied_shapes<Point>(items, [](const auto &point) -> Point { return point; });
    }
}

/// Rings as the library takes them: as they are, or each ring's points behind those of the ring before it.
template <typename Items>
auto rings_of(const Items &items) {
    if constexpr (std::is_same_v<Items, Rings>) {
        return items;
    } else if constexpr (std::is_same_v<Items, InBraces<Point>>) {
        return Rings(items.points, items.ends);
    } else if constexpr (HasRings<Items>::value) {
        return items.rings();
    } else {
        using Item = ItemOf<Items>;
        static_assert(!HasDoubles<Item>::value,
                      "the points have floating-point coordinates: give a grid as the last argument, as in overlay("
                      "subject, clip, operation, rule, itree::Grid::fit(subject, clip))");
        static_assert(HasDoubles<Item>::value || std::is_convertible_v<Item, Point>,
                      "rings are ranges of itree::Point, or of what converts to it");
        return copied<Point>(items, [](const auto &point) -> Point { return point; });
    }
}

template <typename Item>
Position position_of(const Item &point) {
    static_assert(HasDoubles<Item>::value,
                  "with a grid, rings are ranges of points with floating-point x and y; or itree::Rings, Polygons or "
                  "Shapes, which are points of the grid");
    return {static_cast<double>(point.x), static_cast<double>(point.y)};
}

/// Positions of rings, side by side.
template <typename Items>
OwnRings<Position> positions_of(const Items &items) {
    return copied<Position>(items, [](const auto &point) { return position_of(point); });
}

inline Polygons overlay(const Rings &subject, const Rings &clip, Operation operation, FillRule rule) {
    ::itree_polygons *handle = nullptr;
    throw_unless_answered(::itree_overlay(subject.points.data(), subject.points.size(), subject.ends.data(),
                                          subject.ends.size(), clip.points.data(), clip.points.size(), clip.ends.data(),
                                          clip.ends.size(), static_cast<std::int32_t>(rule),
                                          static_cast<std::int32_t>(operation), &handle));
    return Polygons(handle);
}

/// The least and the greatest coordinates of positions.
class Corners {
public:
    /// Adds all positions of rings, or of shapes. Throws where one isn't finite, or a shape is faulty.
    template <typename Items>
    void add(const Items &items) {
        if constexpr (std::is_same_v<Items, Wkb>) {
            add_shapes(items);
        } else {
            std::size_t place = 0;
            add_each(items, place);
        }
    }
    [[nodiscard]] ::itree_grid fitted() const {
        ::itree_grid grid{0, 0, 0};
        const auto status = ::itree_grid_fit(corners_, is_empty_ ? 0 : 2, &grid, nullptr);
        if (status == ITREE_FAULTY) throw std::invalid_argument("the points lie too far apart for a grid");
        throw_unless_answered(status);
        return grid;
    }

private:
    /// Points, rings, shapes: whatever lies how deep.
    template <typename Items>
    void add_each(const Items &items, std::size_t &place) {
        using Item = OneOf<Items>;
        for (const auto &item : items) {
            if constexpr (is_point<Item>) {
                const auto position = position_of(item);
                if (!std::isfinite(position.x) || !std::isfinite(position.y)) throw OffGrid(place);
                add_one(position);
                place++;
            } else {
                add_each(item, place);
            }
        }
    }
    void add_shapes(const Wkb &shapes) {
        Position corners[2] = {{0, 0}, {0, 0}};
        std::size_t found = 0;
        ::itree_wkb_place fault{0, 0, 0};
        const auto offsets = shapes.offsets();
        const auto status = ::itree_wkb_corners(shapes.bytes().data(), shapes.bytes().size(), offsets.data(),
                                                offsets.size(), corners, 2, &found, &fault);
        if (status == ITREE_FAULTY) throw WkbFault(fault);
        throw_unless_answered(status);
        for (std::size_t place = 0; place < found; place++) add_one(corners[place]);
    }
    void add_one(const Position &position) {
        if (is_empty_) corners_[0] = corners_[1] = position;
        is_empty_ = false;
        corners_[0] = {std::fmin(corners_[0].x, position.x), std::fmin(corners_[0].y, position.y)};
        corners_[1] = {std::fmax(corners_[1].x, position.x), std::fmax(corners_[1].y, position.y)};
    }

    Position corners_[2] = {{0, 0}, {0, 0}};
    bool is_empty_ = true;
};

}  // namespace detail

/// A grid, by which positions in doubles become points in whole numbers, and positions again. Its unit is a power of two.
/// Which grids there are is said at `itree_grid` of itree.h.
class Grid {
public:
    /// The grid of the unit 1 and the origin (0, 0).
    Grid() = default;
    /// Throws `std::invalid_argument` where this is no grid.
    explicit Grid(const ::itree_grid &grid) : grid_(grid) {
        if (::itree_grid_positions(&grid_, nullptr, 0, nullptr, 0) != ITREE_ANSWERED) {
            throw std::invalid_argument("there is no such grid");
        }
    }
    /// The grid of the finest unit by which all positions lie within 2^30 units of its origin, their middle: of ranges of
    /// points with floating-point `x` and `y`, of ranges of these, as rings are, or of ranges of these again, as shapes are,
    /// and of `Wkb`. Throws `OffGrid` where a position isn't finite,
    /// `WkbFault` where a shape is faulty, and `std::invalid_argument` where they lie too far apart.
    template <typename... Items>
    [[nodiscard]] static Grid fit(const Items &...items) {
        detail::Corners corners;
        (corners.add(items), ...);
        return Grid(corners.fitted());
    }

    /// How far the lines of the grid lie apart.
    [[nodiscard]] double unit() const { return std::ldexp(1.0, grid_.exponent); }
    /// The point (0, 0).
    [[nodiscard]] Position origin() const { return back({0, 0}); }
    /// The grid as itree.h has it.
    [[nodiscard]] const ::itree_grid &get() const noexcept { return grid_; }

    /// The point that is nearest to a position on each axis. Throws `OffGrid` where there is none.
    [[nodiscard]] Point round(const Position &position) const {
        Point point{0, 0};
        round_to(&position, 1, &point);
        return point;
    }
    /// The points of positions, in order.
    [[nodiscard]] std::vector<Point> round_all(Span<Position> positions) const {
        std::vector<Point> points(positions.size());
        round_to(positions.data(), positions.size(), points.data());
        return points;
    }
    /// The position of a point of the grid. It is exact.
    [[nodiscard]] Position back(const Point &point) const {
        Position position{0, 0};
        detail::throw_unless_answered(::itree_grid_positions(&grid_, &point, 1, &position, 1));
        return position;
    }
    /// The positions of points, in order.
    [[nodiscard]] std::vector<Position> back_all(Span<Point> points) const {
        std::vector<Position> positions(points.size());
        detail::throw_unless_answered(
            ::itree_grid_positions(&grid_, points.data(), points.size(), positions.data(), positions.size()));
        return positions;
    }

    friend bool operator==(const Grid &one, const Grid &other) noexcept { return one.grid_ == other.grid_; }
    friend bool operator!=(const Grid &one, const Grid &other) noexcept { return !(one == other); }

private:
    void round_to(const Position *positions, std::size_t count, Point *points) const {
        std::size_t fault = 0;
        const auto status = ::itree_grid_round(&grid_, positions, count, points, count, &fault);
        if (status == ITREE_FAULTY) throw OffGrid(fault);
        detail::throw_unless_answered(status);
    }

    ::itree_grid grid_{0, 0, 0};
};

namespace detail {

/// Rings on a grid: those that are on it, or positions that are rounded to it.
template <typename Items>
auto rings_on(const Grid &grid, const Items &items) {
    if constexpr (std::is_same_v<Items, Rings> || HasRings<Items>::value) {
        return rings_of(items);
    } else if constexpr (std::is_same_v<Items, InBraces<Position>>) {
        return OwnRings<Point>{grid.round_all(items.points), {items.ends.begin(), items.ends.end()}};
    } else {
        auto rings = positions_of(items);
        return OwnRings<Point>{grid.round_all(rings.points), std::move(rings.ends)};
    }
}

}  // namespace detail

/// The polygons of what the operation makes of the inside of the subject and that of the clip, where the library wrote
/// them. What they are is said at `itree_overlay` of itree.h.
///
/// Subject and clip are `Rings`, `Polygons` or `Shapes`, which are read where they lie; or a vector of vectors of points,
/// or any other range of ranges, which is copied; or rings in braces, as `{{{0, 0}, {2, 0}, {2, 2}}}`; or `{}`. A ring may
/// run either way, cross itself and others, and end with its first point again. Throws `std::invalid_argument` where a ring
/// of `Rings` stops before it begins or behind the points, `std::bad_alloc` where memory was refused, and `Stopped` where a
/// `Stopper` stopped it.
template <typename Subject = detail::InBraces<Point>, typename Clip = detail::InBraces<Point>>
[[nodiscard]] Polygons overlay(const Subject &subject, const Clip &clip, Operation operation, FillRule rule) {
    const auto subject_rings = detail::rings_of(subject);
    const auto clip_rings = detail::rings_of(clip);
    return detail::overlay(subject_rings, clip_rings, operation, rule);
}

/// The same of positions: ranges of ranges of points with floating-point `x` and `y`, or rings in braces, are first rounded
/// to the grid; `Rings`, `Polygons` and `Shapes` are points of the grid. So are the polygons: `grid.back_all(polygon.outer())`
/// are positions. Throws `OffGrid` where a position isn't finite, or is off the grid, and what `overlay` throws.
template <typename Subject = detail::InBraces<Position>, typename Clip = detail::InBraces<Position>>
[[nodiscard]] Polygons overlay(const Subject &subject, const Clip &clip, Operation operation, FillRule rule,
                               const Grid &grid) {
    const auto subject_rings = detail::rings_on(grid, subject);
    const auto clip_rings = detail::rings_on(grid, clip);
    return detail::overlay(subject_rings, clip_rings, operation, rule);
}

namespace detail {

inline Polygons overlay_in(const Window &window, const Rings &subject, const Rings &clip, Operation operation,
                           FillRule rule) {
    ::itree_polygons *handle = nullptr;
    throw_unless_answered(::itree_overlay_in(&window, subject.points.data(), subject.points.size(), subject.ends.data(),
                                             subject.ends.size(), clip.points.data(), clip.points.size(),
                                             clip.ends.data(), clip.ends.size(), static_cast<std::int32_t>(rule),
                                             static_cast<std::int32_t>(operation), &handle));
    return Polygons(handle);
}

}  // namespace detail

/// The polygons of what of `overlay`'s result lies in a window: a tile. What they are is said at `itree_overlay_in` of itree.h.
/// Tiles of windows side by side cover no point twice, and `join` makes one set of polygons of them.
///
///     const auto left = itree::overlay_in({0, 0, 50, 100}, fields, ponds, itree::Operation::difference,
///                                         itree::FillRule::non_zero);
///
/// It takes and throws what `overlay` does; and `WindowFault` where no point lies in the window, or a side of it is less than
/// 2 away from what 32 bits hold.
template <typename Subject = detail::InBraces<Point>, typename Clip = detail::InBraces<Point>>
[[nodiscard]] Polygons overlay_in(const Window &window, const Subject &subject, const Clip &clip, Operation operation,
                                  FillRule rule) {
    const auto subject_rings = detail::rings_of(subject);
    const auto clip_rings = detail::rings_of(clip);
    return detail::overlay_in(window, subject_rings, clip_rings, operation, rule);
}

/// The same of positions, which are first rounded to the grid. The window is one of the grid's points.
template <typename Subject = detail::InBraces<Position>, typename Clip = detail::InBraces<Position>>
[[nodiscard]] Polygons overlay_in(const Window &window, const Subject &subject, const Clip &clip, Operation operation,
                                  FillRule rule, const Grid &grid) {
    const auto subject_rings = detail::rings_on(grid, subject);
    const auto clip_rings = detail::rings_on(grid, clip);
    return detail::overlay_in(window, subject_rings, clip_rings, operation, rule);
}

namespace detail {

inline Chains crop(const Window &window, const Rings &rings) {
    ::itree_chains *handle = nullptr;
    throw_unless_answered(
        ::itree_crop(&window, rings.points.data(), rings.points.size(), rings.ends.data(), rings.ends.size(), &handle));
    return Chains(handle);
}

}  // namespace detail

/// What each ring becomes for a window, in their order, without its first point once more, as is said at `itree_crop` of itree.h:
/// nothing where it lies far off. `overlay_in` of the window promises of these rings what it does of those given: so
/// who makes its tile needs no more of them.
///
///     const auto near = itree::crop({0, 0, 50, 100}, fields);
///     send(near.points(), near.offsets());
///
/// `Rings{near.points(), {near.offsets().begin() + 1, near.size()}}` are the rings again. It takes rings as `overlay` does, and
/// throws what `overlay_in` does.
template <typename Items = detail::InBraces<Point>>
[[nodiscard]] Chains crop(const Window &window, const Items &rings) {
    const auto all = detail::rings_of(rings);
    return detail::crop(window, all);
}

/// The same of positions, which are first rounded to the grid. The window is one of the grid's points, and so are the answers.
template <typename Items = detail::InBraces<Position>>
[[nodiscard]] Chains crop(const Window &window, const Items &rings, const Grid &grid) {
    const auto all = detail::rings_on(grid, rings);
    return detail::crop(window, all);
}

/// The polygons of what is inside of the rings: the union of them with nothing. So of rings that cross themselves
/// polygons are made whose edges don't cross. It takes and throws what `overlay` does.
template <typename Items = detail::InBraces<Point>>
[[nodiscard]] Polygons simplify(const Items &rings, FillRule rule) {
    return overlay(rings, Rings(), Operation::union_, rule);
}

/// The same of positions, which are first rounded to the grid.
template <typename Items = detail::InBraces<Position>>
[[nodiscard]] Polygons simplify(const Items &rings, FillRule rule, const Grid &grid) {
    return overlay(rings, Rings(), Operation::union_, rule, grid);
}

/// How a corner that turns left is joined where polygons grow. One that turns right needs no join.
enum class Join : std::int32_t {
    /// By the sides of the shape there, as `minkowski` joins it: round where the shape is a circle.
    round = ITREE_JOIN_ROUND,
    /// By one straight line between the ends of the moved edges.
    bevel = ITREE_JOIN_BEVEL,
    /// By the moved edges, carried on to where they cross; or round, where that is beyond a limit.
    mitre = ITREE_JOIN_MITRE
};

namespace detail {

inline Polygons minkowski(const Rings &rings, Span<Point> shape, FillRule rule) {
    ::itree_polygons *handle = nullptr;
    throw_unless_answered(::itree_minkowski(rings.points.data(), rings.points.size(), rings.ends.data(),
                                            rings.ends.size(), shape.data(), shape.size(),
                                            static_cast<std::int32_t>(rule), &handle));
    return Polygons(handle);
}

inline Polygons minkowski_joined(const Rings &rings, Span<Point> shape, FillRule rule, Join join, std::uint32_t limit) {
    ::itree_polygons *handle = nullptr;
    const auto status =
        ::itree_minkowski_joined(rings.points.data(), rings.points.size(), rings.ends.data(), rings.ends.size(),
                                 shape.data(), shape.size(), static_cast<std::int32_t>(rule),
                                 static_cast<std::int32_t>(join), limit, &handle);
    if (status == ITREE_CHOICE) throw std::invalid_argument("there is no such rule or join");
    throw_unless_answered(status);
    return Polygons(handle);
}

inline Polygons erode(const Rings &rings, Span<Point> shape, FillRule rule) {
    ::itree_polygons *handle = nullptr;
    throw_unless_answered(::itree_erode(rings.points.data(), rings.points.size(), rings.ends.data(), rings.ends.size(),
                                        shape.data(), shape.size(), static_cast<std::int32_t>(rule), &handle));
    return Polygons(handle);
}

inline Polygons grow_lines(const Rings &lines, Span<Point> shape) {
    ::itree_polygons *handle = nullptr;
    throw_unless_answered(::itree_grow_lines(lines.points.data(), lines.points.size(), lines.ends.data(),
                                             lines.ends.size(), shape.data(), shape.size(), &handle));
    return Polygons(handle);
}

}  // namespace detail

/// The polygons of the Minkowski sum of what is inside of the rings and a shape: of the points that one of the inside and one of
/// the shape add up to. So what is inside grows by the shape on all sides, as is said at `itree_minkowski` of itree.h.
///
///     const auto wider = itree::minkowski(fields, {{-5, -5}, {5, -5}, {5, 5}, {-5, 5}}, itree::FillRule::non_zero);
///
/// The shape is the corners of a convex polygon with the origin inside, counterclockwise. It takes rings as `overlay` does, and
/// throws what `overlay` does; `ShapeFault` where the shape isn't such a polygon; and `RangeFault` where a corner of the curve around
/// the sum is no point of 32 bits.
template <typename Items = detail::InBraces<Point>>
[[nodiscard]] Polygons minkowski(const Items &rings, Span<Point> shape, FillRule rule) {
    const auto all = detail::rings_of(rings);
    return detail::minkowski(all, shape, rule);
}

/// The same of positions, which are first rounded to the grid. The shape is one of the grid's units, and so is the answer.
template <typename Items = detail::InBraces<Position>>
[[nodiscard]] Polygons minkowski(const Items &rings, Span<Point> shape, FillRule rule, const Grid &grid) {
    const auto all = detail::rings_on(grid, rings);
    return detail::minkowski(all, shape, rule);
}

/// The polygons that what is inside of the rings becomes when it grows by a shape, with corners joined so, as is said at
/// `itree_minkowski_joined` of itree.h.
///
///     const auto wider = itree::minkowski_joined(fields, itree::circle(500, 64).corners, itree::FillRule::non_zero,
///                                                itree::Join::mitre);
///
/// A mitre goes no farther out than the shape would if it were `limit` hundredths of its size; a corner where it would is round. It
/// takes what `minkowski` does, and throws what that does; `RangeFault` also where the tip of a mitre is no point of 32 bits.
template <typename Items = detail::InBraces<Point>>
[[nodiscard]] Polygons minkowski_joined(const Items &rings, Span<Point> shape, FillRule rule, Join join,
                                        std::uint32_t limit = 500) {
    const auto all = detail::rings_of(rings);
    return detail::minkowski_joined(all, shape, rule, join, limit);
}

/// The same of positions, which are first rounded to the grid. The shape is one of the grid's units, and so is the answer.
template <typename Items = detail::InBraces<Position>>
[[nodiscard]] Polygons minkowski_joined(const Items &rings, Span<Point> shape, FillRule rule, Join join,
                                        std::uint32_t limit, const Grid &grid) {
    const auto all = detail::rings_on(grid, rings);
    return detail::minkowski_joined(all, shape, rule, join, limit);
}

/// The polygons of what is left of the inside of the rings where a shape is taken along outside: of each point from which the whole
/// shape lies inside. So what is inside shrinks by the shape on all sides, as is said at `itree_erode` of itree.h.
///
///     const auto within = itree::erode(fields, itree::circle(500, 64).corners, itree::FillRule::non_zero);
///
/// It takes what `minkowski` does, and throws what that does; `RangeFault` where a corner of the curve around what is outside, or of
/// the shape turned by half a turn, is no point of 32 bits.
template <typename Items = detail::InBraces<Point>>
[[nodiscard]] Polygons erode(const Items &rings, Span<Point> shape, FillRule rule) {
    const auto all = detail::rings_of(rings);
    return detail::erode(all, shape, rule);
}

/// The same of positions, which are first rounded to the grid. The shape is one of the grid's units, and so is the answer.
template <typename Items = detail::InBraces<Position>>
[[nodiscard]] Polygons erode(const Items &rings, Span<Point> shape, FillRule rule, const Grid &grid) {
    const auto all = detail::rings_on(grid, rings);
    return detail::erode(all, shape, rule);
}

/// The polygons of the Minkowski sum of lines and a shape: of the points that one of a line and one of the shape add up to. So lines
/// become as wide as the shape is, and their ends take its form, as is said at `itree_grow_lines` of itree.h.
///
///     const auto roads = itree::grow_lines(middles, itree::circle(500, 64).corners);
///
/// A line goes from each of its points to the next one, and not back to the first; one of one point becomes the shape there. Lines
/// are given as `clip_lines` takes them, and the shape as `minkowski` does. It throws what that does; `RangeFault` where a corner of
/// the shape at a point, or of the parallelogram along an edge, is no point of 32 bits.
template <typename Lines = detail::InBraces<Point>>
[[nodiscard]] Polygons grow_lines(const Lines &lines, Span<Point> shape) {
    const auto all = detail::rings_of(lines);
    return detail::grow_lines(all, shape);
}

/// The same of positions, which are first rounded to the grid. The shape is one of the grid's units, and so is the answer.
template <typename Lines = detail::InBraces<Position>>
[[nodiscard]] Polygons grow_lines(const Lines &lines, Span<Point> shape, const Grid &grid) {
    const auto all = detail::rings_on(grid, lines);
    return detail::grow_lines(all, shape);
}

/// A convex polygon around the origin that stands for a circle.
struct Circle {
    /// Its corners, counterclockwise. None is farther from the origin than the radius.
    std::vector<Point> corners;
    /// No side is nearer to the origin: the greatest such whole number up to the radius.
    std::int32_t inner;
};

/// A circle of a radius around the origin, with so many corners at most, as is said at `itree_circle` of itree.h.
///
///     const auto wider = itree::minkowski(fields, itree::circle(500, 64).corners, itree::FillRule::non_zero);
///
/// Throws `std::invalid_argument` where the radius is below 1 or `most` below 4, and as `overlay` where memory is refused.
[[nodiscard]] inline Circle circle(std::int32_t radius, std::size_t most) {
    std::size_t count = 0;
    Circle made{{}, 0};
    auto status = ::itree_circle(radius, most, nullptr, 0, &count, &made.inner);
    if (status == ITREE_CHOICE) throw std::invalid_argument("a radius below 1, or fewer corners than 4");
    detail::throw_unless_answered(status);
    made.corners.resize(count);
    status = ::itree_circle(radius, most, made.corners.data(), count, &count, &made.inner);
    detail::throw_unless_answered(status);
    return made;
}

namespace detail {

/// Shapes on a grid: those that are on it, or positions that are rounded to it.
template <typename Items>
auto shapes_on(const Grid &grid, const Items &items) {
    if constexpr (are_lists<Items>) {
        return shapes_of(items);
    } else {
        auto shapes = copied_shapes<Position>(items, [](const auto &point) { return position_of(point); });
        return CopiedShapes<Point>{{grid.round_all(shapes.rings.points), std::move(shapes.rings.ends)},
                                   std::move(shapes.ends)};
    }
}

/// Throws what a status says that a call of shapes may return.
inline void throw_unless_shapes_answered(std::int32_t status) {
    if (status == ITREE_LENGTHS) {
        throw std::invalid_argument("a ring, a shape or a group stops where it can't, or a place is that of no shape");
    }
    if (status == ITREE_CHOICE) throw std::invalid_argument("there is no such rule, operation, border or side");
    throw_unless_answered(status);
}

inline ::itree_shapes of_c(const Layer &layer) {
    return {layer.points.data(),    layer.points.size(),     layer.ring_ends.data(),
            layer.ring_ends.size(), layer.shape_ends.data(), layer.shape_ends.size()};
}

inline ::itree_groups of_c(const Groups &groups) {
    return {groups.places.data(), groups.places.size(), groups.ends.data(), groups.ends.size()};
}

inline Overlays overlay_groups(const Layer &subjects, const Groups &subject_groups, const Layer &clips,
                               const Groups &clip_groups, Operation operation, FillRule rule) {
    const auto subjects_of_c = of_c(subjects), clips_of_c = of_c(clips);
    const auto subject_groups_of_c = of_c(subject_groups), clip_groups_of_c = of_c(clip_groups);
    std::vector<std::size_t> ends(subject_groups.ends.size());
    ::itree_polygons *handle = nullptr;
    throw_unless_shapes_answered(::itree_overlay_each(&subjects_of_c, &subject_groups_of_c, &clips_of_c,
                                                      &clip_groups_of_c, static_cast<std::int32_t>(rule),
                                                      static_cast<std::int32_t>(operation), ends.data(), ends.size(),
                                                      &handle));
    return {Polygons(handle), std::move(ends)};
}

inline Overlays overlay_each(const Layer &subjects, const Layer &clips, Span<Pair> pairs, Operation operation,
                             FillRule rule) {
    std::vector<std::size_t> firsts, seconds;
    firsts.reserve(pairs.size());
    seconds.reserve(pairs.size());
    for (const auto &pair : pairs) {
        firsts.push_back(pair.first);
        seconds.push_back(pair.second);
    }
    const auto ends = ends_of_each(pairs.size());
    return overlay_groups(subjects, {firsts, ends}, clips, {seconds, ends}, operation, rule);
}

inline Pairs candidate_pairs(const Layer &shapes, const Layer &others) {
    const auto shapes_of_c = of_c(shapes), others_of_c = of_c(others);
    ::itree_pairs *handle = nullptr;
    throw_unless_shapes_answered(::itree_box_pairs(&shapes_of_c, &others_of_c, &handle));
    return Pairs(handle);
}

inline Pairs points_in(Span<Point> points, const Layer &shapes, FillRule rule, Border border) {
    const auto shapes_of_c = of_c(shapes);
    ::itree_pairs *handle = nullptr;
    throw_unless_shapes_answered(::itree_points_in(points.data(), points.size(), &shapes_of_c,
                                                   static_cast<std::int32_t>(rule), static_cast<std::int32_t>(border),
                                                   &handle));
    return Pairs(handle);
}

inline Pieces clip_lines(const Rings &lines, const Rings &rings, Side side, FillRule rule) {
    const ::itree_lines lines_of_c{lines.points.data(), lines.points.size(), lines.ends.data(), lines.ends.size()};
    ::itree_polygons *handle = nullptr;
    throw_unless_shapes_answered(
        ::itree_clip_lines(&lines_of_c, rings.points.data(), rings.points.size(), rings.ends.data(), rings.ends.size(),
                           static_cast<std::int32_t>(rule), static_cast<std::int32_t>(side), &handle));
    return Pieces(handle);
}

}  // namespace detail

/// Shapes in memory of their own: a copy that is made once, for several calls.
class OwnLayer {
public:
    OwnLayer() = default;
    /// Of shapes as `overlay_each` takes them.
    template <typename Items>
    explicit OwnLayer(const Items &shapes) : OwnLayer(detail::shapes_of(shapes), 0) {}
    /// Of shapes of positions, which are rounded to the grid. Throws `OffGrid` where one isn't finite, or is off the grid.
    template <typename Items>
    OwnLayer(const Items &shapes, const Grid &grid) : OwnLayer(detail::shapes_on(grid, shapes), 0) {}

    /// How many shapes there are.
    [[nodiscard]] std::size_t size() const noexcept { return shape_ends_.size(); }
    [[nodiscard]] bool empty() const noexcept { return shape_ends_.empty(); }
    /// The shapes, as calls take them. They stay with this layer.
    [[nodiscard]] Layer layer() const noexcept { return {points_, ring_ends_, shape_ends_}; }

private:
    OwnLayer(const Layer &layer, int)
        : points_(layer.points.begin(), layer.points.end()),
          ring_ends_(layer.ring_ends.begin(), layer.ring_ends.end()),
          shape_ends_(layer.shape_ends.begin(), layer.shape_ends.end()) {}
    OwnLayer(detail::CopiedShapes<Point> &&shapes, int) noexcept
        : points_(std::move(shapes.rings.points)),
          ring_ends_(std::move(shapes.rings.ends)),
          shape_ends_(std::move(shapes.ends)) {}

    std::vector<Point> points_;
    std::vector<std::size_t> ring_ends_, shape_ends_;
};

/// For each pair the polygons of what the operation makes of the inside of the first shape, one of the subjects, and that of
/// the second, one of the clips: as many calls of `overlay`, in one. Small shapes cost little more than their points.
///
///     const auto pairs = itree::candidate_pairs(parcels, floods, grid);
///     const auto wet = itree::overlay_each(parcels, floods, pairs, itree::Operation::intersection,
///                                          itree::FillRule::non_zero, grid);
///     for (std::size_t place = 0; place < pairs.size(); place++) {
///         for (const auto &polygon : wet[place]) add(pairs[place].first, grid.back_all(polygon.outer()));
///     }
///
/// Subjects and clips are each a `Layer`, `Polygons`, `Shapes` or an `OwnLayer`, which are read where they lie; or a range of
/// shapes, which is copied: each a range of rings, which are ranges of points. A ring may be a shape, too: so a range of rings,
/// and `Rings`, are as many shapes. Rings are as `overlay` takes them. Throws `std::invalid_argument` where a ring or a shape
/// stops before it begins, or behind the points or the rings, or a pair has the place of no shape; `std::bad_alloc` where
/// memory was refused; and `Stopped` where a `Stopper` stopped it.
template <typename Subjects, typename Clips>
[[nodiscard]] Overlays overlay_each(const Subjects &subjects, const Clips &clips, Span<Pair> pairs, Operation operation,
                                    FillRule rule) {
    const auto subject_shapes = detail::shapes_of(subjects);
    const auto clip_shapes = detail::shapes_of(clips);
    return detail::overlay_each(subject_shapes, clip_shapes, pairs, operation, rule);
}

/// The same of positions: ranges of shapes whose points have floating-point `x` and `y` are first rounded to the grid; what
/// is read where it lies is points of the grid. So are the polygons. Throws `OffGrid` where a position isn't finite, or is off
/// the grid, and what `overlay_each` throws.
template <typename Subjects, typename Clips>
[[nodiscard]] Overlays overlay_each(const Subjects &subjects, const Clips &clips, Span<Pair> pairs, Operation operation,
                                    FillRule rule, const Grid &grid) {
    const auto subject_shapes = detail::shapes_on(grid, subjects);
    const auto clip_shapes = detail::shapes_on(grid, clips);
    return detail::overlay_each(subject_shapes, clip_shapes, pairs, operation, rule);
}

/// The same of groups: for each group of the subjects all of its shapes' rings together, and those of the clips' group at the
/// same place. Groups of the subjects and as many empty ones of the clips, and `Operation::union_`, make the union of each
/// group. A group may have no shape, and a shape may be in several groups. Throws what `overlay_each` does, and
/// `std::invalid_argument` where a group stops before it begins or behind the places, or there aren't as many groups of both.
template <typename Subjects, typename Clips>
[[nodiscard]] Overlays overlay_groups(const Subjects &subjects, const Groups &subject_groups, const Clips &clips,
                                      const Groups &clip_groups, Operation operation, FillRule rule) {
    const auto subject_shapes = detail::shapes_of(subjects);
    const auto clip_shapes = detail::shapes_of(clips);
    return detail::overlay_groups(subject_shapes, subject_groups, clip_shapes, clip_groups, operation, rule);
}

/// The same of positions, which are first rounded to the grid.
template <typename Subjects, typename Clips>
[[nodiscard]] Overlays overlay_groups(const Subjects &subjects, const Groups &subject_groups, const Clips &clips,
                                      const Groups &clip_groups, Operation operation, FillRule rule, const Grid &grid) {
    const auto subject_shapes = detail::shapes_on(grid, subjects);
    const auto clip_shapes = detail::shapes_on(grid, clips);
    return detail::overlay_groups(subject_shapes, subject_groups, clip_shapes, clip_groups, operation, rule);
}

/// The pairs of a shape of the first list and one of the second whose boxes share a point, each once, in no particular order:
/// those that an overlay has to look at. `first` is a place of the first list, and `second` one of the second. The box of a
/// shape goes from its least x and y to its greatest, with its border; a shape without points has none. It takes and throws
/// what `overlay_each` does.
template <typename Items, typename Others>
[[nodiscard]] Pairs candidate_pairs(const Items &shapes, const Others &others) {
    const auto one = detail::shapes_of(shapes);
    const auto other = detail::shapes_of(others);
    return detail::candidate_pairs(one, other);
}

/// The same of positions, which are first rounded to the grid.
template <typename Items, typename Others>
[[nodiscard]] Pairs candidate_pairs(const Items &shapes, const Others &others, const Grid &grid) {
    const auto one = detail::shapes_on(grid, shapes);
    const auto other = detail::shapes_on(grid, others);
    return detail::candidate_pairs(one, other);
}

/// The pairs of a point and a shape that it is in: by the place of the point, and of one point by that of the shape. `first`
/// is the place of the point, and `second` that of the shape. It is exact: nothing is rounded.
///
///     for (const auto &pair : itree::points_in(wells, parcels, itree::FillRule::non_zero, itree::Border::closed)) {
///         add(pair.first, pair.second);
///     }
///
/// Shapes are as `overlay_each` takes them, and it throws what `overlay_each` does.
template <typename Items>
[[nodiscard]] Pairs points_in(Span<Point> points, const Items &shapes, FillRule rule, Border border) {
    const auto all = detail::shapes_of(shapes);
    return detail::points_in(points, all, rule, border);
}

/// The same of positions: a range of points with floating-point `x` and `y`, and shapes. All are first rounded to the grid,
/// and what they are then is told.
template <typename Points, typename Items>
[[nodiscard]] Pairs points_in(const Points &points, const Items &shapes, FillRule rule, Border border,
                              const Grid &grid) {
    std::vector<Position> positions;
    for (const auto &point : points) positions.push_back(detail::position_of(point));
    const auto all = detail::shapes_on(grid, shapes);
    return detail::points_in(grid.round_all(positions), all, rule, border);
}

/// The pieces of each line that lie inside of rings or along their border, or the pieces that don't. Which ones they are is
/// said at `itree_clip_lines` of itree.h: a line may be moved by half a unit where others cross it, or end at or beside it.
///
///     const auto wet = itree::clip_lines(roads, flood, itree::Side::inside, itree::FillRule::non_zero);
///     for (const auto &piece : wet[0]) draw(piece);
///
/// A line goes from each of its points to the next one, and not back to the first. Lines and rings are each given as `overlay`
/// takes rings: `Rings` of points and of where each line stops, ranges of ranges of points, or either in braces. Throws what
/// `overlay` does.
template <typename Lines = detail::InBraces<Point>, typename Items = detail::InBraces<Point>>
[[nodiscard]] Pieces clip_lines(const Lines &lines, const Items &rings, Side side, FillRule rule) {
    const auto all_lines = detail::rings_of(lines);
    const auto all_rings = detail::rings_of(rings);
    return detail::clip_lines(all_lines, all_rings, side, rule);
}

/// The same of positions, which are first rounded to the grid. The pieces are points of the grid.
template <typename Lines = detail::InBraces<Position>, typename Items = detail::InBraces<Position>>
[[nodiscard]] Pieces clip_lines(const Lines &lines, const Items &rings, Side side, FillRule rule, const Grid &grid) {
    const auto all_lines = detail::rings_on(grid, lines);
    const auto all_rings = detail::rings_on(grid, rings);
    return detail::clip_lines(all_lines, all_rings, side, rule);
}

/// For each polygon, in order, the place of the polygon in whose hole it lies, the nearest around it; or nothing, where no
/// other goes round it. So the parent of an island in a lake is the land around the lake.
///
///     const auto parent = itree::parents(polygons);
///     for (std::size_t place = 0; place < polygons.size(); place++) {
///         if (!parent[place]) draw_with_what_lies_in_it(polygons[place]);
///     }
///
/// It is given an answer of `overlay` or `simplify`, or a `Layer` of such polygons, whose first rings are the outer ones.
/// Throws `std::invalid_argument` where a ring or a polygon stops before it begins, or behind the points or the rings, and
/// `std::bad_alloc` where memory was refused.
[[nodiscard]] inline std::vector<std::optional<std::size_t>> parents(const Layer &polygons) {
    const auto polygons_of_c = detail::of_c(polygons);
    std::vector<std::size_t> places(polygons.shape_ends.size());
    detail::throw_unless_shapes_answered(::itree_polygon_parents(&polygons_of_c, places.data(), places.size()));
    std::vector<std::optional<std::size_t>> found(places.size());
    for (std::size_t place = 0; place < found.size(); place++) {
        if (places[place] != SIZE_MAX) found[place] = places[place];
    }
    return found;
}
[[nodiscard]] inline std::vector<std::optional<std::size_t>> parents(const Polygons &polygons) {
    return parents(polygons.layer());
}

/// What is wrong with polygons that aren't valid.
enum class FaultKind : std::size_t {
    /// The ring has fewer than three points.
    few_points = ITREE_FEW_POINTS,
    /// The ring crosses or touches itself: two edges of it do.
    meets_itself = ITREE_MEETS_ITSELF,
    /// Two edges cross or share more than one point; of one ring that is `meets_itself`.
    rings_cross = ITREE_RINGS_CROSS,
    /// A hole of the polygon lies outside of its outer ring, or in another hole.
    holes_outside = ITREE_HOLES_OUTSIDE,
    /// Two polygons overlap.
    polygons_overlap = ITREE_POLYGONS_OVERLAP,
    /// The inside of the polygon is no one piece: its rings touch along a circle.
    disconnected = ITREE_DISCONNECTED
};

/// What is wrong with polygons, and where; 0 stands where nothing is told.
struct PolygonsFault {
    FaultKind kind;
    /// Where holes lie outside, or the inside is no one piece: the place of the polygon.
    std::size_t polygon;
    /// Where a ring has few points or meets itself, its place among all rings; where the inside of a polygon is no one piece, that
    /// of a ring among the polygon's.
    std::size_t ring;
    /// Where holes lie outside or polygons overlap, a point near which they do; where the inside is no one piece, the point in which
    /// the ring touches another one.
    Point point;
    /// Where a ring meets itself or rings cross: the two edges.
    Edge one, other;
};

namespace detail {

inline std::optional<PolygonsFault> polygons_fault(const Layer &polygons) {
    const auto polygons_of_c = of_c(polygons);
    ::itree_fault_place fault{};
    throw_unless_shapes_answered(::itree_polygons_fault(&polygons_of_c, &fault));
    if (fault.kind == ITREE_VALID) return std::nullopt;
    return PolygonsFault{
        static_cast<FaultKind>(fault.kind), fault.polygon, fault.ring, fault.point, fault.one, fault.other};
}

}  // namespace detail

/// What is wrong with polygons, or nothing where they are valid. It is exact: nothing is rounded.
///
///     if (const auto fault = itree::polygons_fault(parcels)) mark(fault->point);
///
/// Each shape is a polygon: its first ring is the outer one, those behind it are its holes. Rings may run either way. When
/// polygons are valid is said at `itree_polygons_fault` of itree.h. They are given as `overlay_each` takes shapes, and each ring
/// alone is a polygon, too; all of them together are looked at. Throws what `overlay_each` does, and `std::invalid_argument` where
/// rings stand behind the last polygon.
template <typename Items>
[[nodiscard]] std::optional<PolygonsFault> polygons_fault(const Items &polygons) {
    const auto all = detail::shapes_of(polygons);
    return detail::polygons_fault(all);
}

/// The same of positions, which are first rounded to the grid: so what is told is true of the polygons on the grid.
template <typename Items>
[[nodiscard]] std::optional<PolygonsFault> polygons_fault(const Items &polygons, const Grid &grid) {
    const auto all = detail::shapes_on(grid, polygons);
    return detail::polygons_fault(all);
}

/// Whether polygons are valid: whether `polygons_fault` finds nothing. It takes and throws what that does.
template <typename Items>
[[nodiscard]] bool is_valid(const Items &polygons) {
    return !polygons_fault(polygons);
}

/// The same of positions, which are first rounded to the grid.
template <typename Items>
[[nodiscard]] bool is_valid(const Items &polygons, const Grid &grid) {
    return !polygons_fault(polygons, grid);
}

/// Polygons within a window, as `overlay_in` makes them, that are only read.
struct Tile {
    Window window;
    Layer polygons;
};

namespace detail {

/// The lists of tiles, those of each behind those of the one before it.
struct JoinedTiles {
    std::vector<Window> windows;
    std::vector<std::size_t> tile_ends, polygon_ends, ring_ends;
    std::vector<Point> points;

    /// Points and rings behind the last are of no polygon, and left out.
    void add(const Tile &tile) {
        const auto &layer = tile.polygons;
        const auto rings = layer.shape_ends.empty() ? 0 : layer.shape_ends.back();
        if (rings > layer.ring_ends.size()) throw_unless_answered(ITREE_LENGTHS);
        const auto count = rings == 0 ? 0 : layer.ring_ends[rings - 1];
        if (count > layer.points.size()) throw_unless_answered(ITREE_LENGTHS);
        const auto first_ring = ring_ends.size(), first_point = points.size();
        for (const auto end : layer.shape_ends) polygon_ends.push_back(first_ring + end);
        for (std::size_t ring = 0; ring < rings; ring++) ring_ends.push_back(first_point + layer.ring_ends[ring]);
        points.insert(points.end(), layer.points.begin(), layer.points.begin() + count);
        windows.push_back(tile.window);
        tile_ends.push_back(polygon_ends.size());
    }
};

}  // namespace detail

/// The polygons of tiles as one set: borders between them are gone, and nothing is moved. Which polygons fit is said at
/// `itree_join` of itree.h. They stand in any order; what was joined can be joined again, by a window around all of its own.
///
///     const auto both = itree::join({{{0, 0, 50, 100}, left.layer()}, {{50, 0, 100, 100}, right.layer()}});
///
/// Throws `WindowFault` where no point lies in a window, or two windows overlap, `Unfit` where a polygon leaves its window, or
/// polygons at borders overlap, `std::invalid_argument` where a ring or a polygon stops where it can't, and
/// `std::bad_alloc` where memory was refused.
[[nodiscard]] inline Polygons join(Span<Tile> tiles) {
    detail::JoinedTiles all;
    for (const auto &tile : tiles) all.add(tile);
    ::itree_polygons *handle = nullptr;
    detail::throw_unless_answered(::itree_join(all.windows.data(), all.windows.size(), all.tile_ends.data(),
                                               all.tile_ends.size(), all.polygon_ends.data(), all.polygon_ends.size(),
                                               all.ring_ends.data(), all.ring_ends.size(), all.points.data(),
                                               all.points.size(), &handle));
    return Polygons(handle);
}

/// The window that several make up without a gap: it has each point of theirs, and no other. Nothing where they leave a gap, or
/// there are none. Throws `WindowFault` where no point lies in a window, or two windows overlap.
[[nodiscard]] inline std::optional<Window> whole_window(Span<Window> windows) {
    Window whole{};
    std::int32_t found = 0;
    detail::throw_unless_answered(::itree_whole_window(windows.data(), windows.size(), &whole, &found));
    if (found == 0) return std::nullopt;
    return whole;
}

namespace detail {

/// The points of all rings. Throws where a ring stops behind the points.
inline Span<Point> points_of(const Rings &rings) {
    const auto count = rings.ends.empty() ? 0 : rings.ends.back();
    if (count > rings.points.size()) throw_unless_answered(ITREE_LENGTHS);
    return {rings.points.data(), count};
}

/// The box around points, or around none one with no point.
inline Window box_of(Span<Point> one, Span<Point> other) {
    Window box{INT32_MAX, INT32_MAX, INT32_MIN, INT32_MIN};
    for (const auto &points : {one, other}) {
        for (const auto &point : points) {
            box = {std::min(box.left, point.x), std::min(box.low, point.y), std::max(box.right, point.x),
                   std::max(box.high, point.y)};
        }
    }
    return box;
}

/// Points of both, one of so many that there are few.
inline std::vector<Point> sample_of(Span<Point> subject, Span<Point> clip) {
    constexpr std::size_t most = 1 << 16;
    const auto count = subject.size() + clip.size(), step = count / most + 1;
    std::vector<Point> sample;
    for (std::size_t place = 0; place < count; place += step) {
        sample.push_back(place < subject.size() ? subject[place] : clip[place - subject.size()]);
    }
    return sample;
}

/// The sides of so many parts between two numbers: with as many of the sorted ones in each, but where these repeat.
inline std::vector<std::int32_t> sides_of(std::int32_t first, std::int32_t last,
                                          const std::vector<std::int32_t> &sorted, std::size_t parts) {
    std::vector<std::int32_t> sides{first};
    for (std::size_t part = 1; part < parts; part++) {
        const auto side = sorted[sorted.size() * part / parts];
        if (sides.back() < side && side < last) sides.push_back(side);
    }
    sides.push_back(last);
    return sides;
}

/// So many windows or a few more or less, which part a rectangle: columns, each cut into rows, with as many points in each.
inline std::vector<Window> windows_of(const Window &bounds, std::vector<Point> sample, std::size_t count) {
    const auto columns = static_cast<std::size_t>(std::ceil(std::sqrt(static_cast<double>(count))));
    std::sort(sample.begin(), sample.end(), [](const Point &one, const Point &other) { return one.x < other.x; });
    std::vector<std::int32_t> xs(sample.size());
    std::transform(sample.begin(), sample.end(), xs.begin(), [](const Point &point) { return point.x; });
    const auto sides = sides_of(bounds.left, bounds.right, xs, columns);
    std::vector<Window> windows;
    std::size_t place = 0;
    for (std::size_t column = 1; column < sides.size(); column++) {
        std::vector<std::int32_t> ys;
        for (; place < sample.size() && sample[place].x < sides[column]; place++) ys.push_back(sample[place].y);
        std::sort(ys.begin(), ys.end());
        const auto rows = (ys.size() * count + sample.size() / 2) / sample.size();
        const auto heights = sides_of(bounds.low, bounds.high, ys, rows);
        for (std::size_t row = 1; row < heights.size(); row++) {
            windows.push_back({sides[column - 1], heights[row - 1], sides[column], heights[row]});
        }
    }
    return windows;
}

/// Does the work by so many threads at once, of which this is one. What it throws ends the program.
template <typename Work>
void work_by(std::size_t threads, const Work &work) {
    struct Others {
        ~Others() {
            for (auto &thread : threads) thread.join();
        }
        std::vector<std::thread> threads;
    } others;
    others.threads.reserve(threads);
    try {
        while (others.threads.size() + 1 < threads) others.threads.emplace_back(std::cref(work));
    } catch (const std::system_error &) {
        // There are no more threads: those that there are do it.
    }
    work();
}

/// A tile for each window, by so many threads at once, joined. Throws what the first of the calls that fail throws.
inline Polygons overlay_windows(const Rings &subject, const Rings &clip, Operation operation, FillRule rule,
                                const std::vector<Window> &windows, std::size_t threads) {
    std::vector<Polygons> tiles(windows.size());
    std::vector<std::exception_ptr> faults(windows.size());
    std::atomic<std::size_t> next{0};
    work_by(std::min(threads, windows.size()), [&] {
        for (auto place = next++; place < windows.size(); place = next++) {
            try {
                tiles[place] = detail::overlay_in(windows[place], subject, clip, operation, rule);
            } catch (...) {
                faults[place] = std::current_exception();
                next = windows.size();
            }
        }
    });
    for (const auto &fault : faults) {
        if (fault) std::rethrow_exception(fault);
    }
    std::vector<Tile> all;
    for (std::size_t place = 0; place < tiles.size(); place++) all.push_back({windows[place], tiles[place].layer()});
    return join(all);
}

inline Polygons overlay_threads(const Rings &subject, const Rings &clip, Operation operation, FillRule rule,
                                std::size_t threads) {
    constexpr std::size_t points_of_window = 60000, most = 64;
    constexpr std::int32_t least_side = INT32_MIN + 2, greatest_side = INT32_MAX - 2;
    const auto subject_points = points_of(subject), clip_points = points_of(clip);
    const auto all = box_of(subject_points, clip_points);
    const auto count = std::min((subject_points.size() + clip_points.size()) / points_of_window, most);
    if (count < 2 || std::min(all.left, all.low) < least_side || std::max(all.right, all.high) > greatest_side) {
        return detail::overlay(subject, clip, operation, rule);
    }
    const Window around{std::max(all.left - 1, least_side), std::max(all.low - 1, least_side),
                        std::min(all.right + 1, greatest_side), std::min(all.high + 1, greatest_side)};
    if (threads == 0) threads = std::max(std::thread::hardware_concurrency(), 1u);
    return overlay_windows(subject, clip, operation, rule,
                           windows_of(around, sample_of(subject_points, clip_points), count), threads);
}

}  // namespace detail

/// What `overlay` answers of the same, by so many threads at once, of which this is one; 0 is as many as there are processors.
/// Each makes tiles of windows that hold about 60,000 points, 64 windows at most, and these are joined. The windows depend
/// on the points alone, so the answer doesn't depend on the number of threads. Where an edge comes through a side of a
/// window, it is broken there, at a whole point, and may be moved a little: the polygons are right where `overlay_in` says so.
///
///     const auto wet = itree::overlay_threads(parcels, floods, itree::Operation::intersection,
///                                             itree::FillRule::non_zero, 4);
///
/// Few points are one call of `overlay`, and so are points that come nearer than 2 to the ends of 32 bits, which no window
/// reaches. A `MemoryLimit` and a `Stopper` of this thread don't hold for the others. It takes and throws what `overlay` does;
/// what a call in another thread throws is thrown here. Where glibc is older than 2.34 the program is linked with -pthread.
template <typename Subject = detail::InBraces<Point>, typename Clip = detail::InBraces<Point>>
[[nodiscard]] Polygons overlay_threads(const Subject &subject, const Clip &clip, Operation operation, FillRule rule,
                                       std::size_t threads) {
    const auto subject_rings = detail::rings_of(subject);
    const auto clip_rings = detail::rings_of(clip);
    return detail::overlay_threads(subject_rings, clip_rings, operation, rule, threads);
}

/// The same of positions, which are first rounded to the grid.
template <typename Subject = detail::InBraces<Position>, typename Clip = detail::InBraces<Position>>
[[nodiscard]] Polygons overlay_threads(const Subject &subject, const Clip &clip, Operation operation, FillRule rule,
                                       std::size_t threads, const Grid &grid) {
    const auto subject_rings = detail::rings_on(grid, subject);
    const auto clip_rings = detail::rings_on(grid, clip);
    return detail::overlay_threads(subject_rings, clip_rings, operation, rule, threads);
}

/// The rings of shapes in well-known binary, their positions rounded to the grid: outer rings counterclockwise, and holes
/// clockwise. What is read is said at `itree_wkb_read` of itree.h. Throws `WkbFault` where a shape is faulty, and
/// `std::bad_alloc` where memory was refused.
[[nodiscard]] inline Shapes read_wkb(const Wkb &shapes, const Grid &grid) {
    ::itree_polygons *handle = nullptr;
    ::itree_wkb_place fault{0, 0, 0};
    const auto offsets = shapes.offsets();
    const auto status = ::itree_wkb_read(shapes.bytes().data(), shapes.bytes().size(), offsets.data(), offsets.size(),
                                         &grid.get(), &handle, &fault);
    if (status == ITREE_FAULTY) throw WkbFault(fault);
    detail::throw_unless_answered(status);
    return Shapes(handle);
}

/// The number of the reference system that a shape in EWKB has, or 0 where it has none.
[[nodiscard]] inline std::uint32_t wkb_srid(Bytes shape) {
    std::uint32_t srid = 0;
    detail::throw_unless_answered(::itree_wkb_srid(shape.data(), shape.size(), &srid));
    return srid;
}

namespace detail {

/// Polygons of a grid in well-known binary.
inline std::vector<std::byte> written(const Polygons &polygons, const Grid &grid, std::int32_t form,
                                      std::uint32_t srid) {
    const auto rings = polygons.rings();
    const auto stops = polygons.polygon_offsets();
    const auto write = [&](std::byte *bytes, std::size_t count, std::size_t *size) {
        throw_unless_answered(::itree_wkb_write(rings.points.data(), rings.points.size(), rings.ends.data(),
                                                rings.ends.size(), stops.empty() ? nullptr : stops.data() + 1,
                                                polygons.size(), &grid.get(), form, srid,
                                                reinterpret_cast<std::uint8_t *>(bytes), count, size));
    };
    std::size_t size = 0;
    write(nullptr, 0, &size);
    std::vector<std::byte> bytes(size);
    if (size != 0) write(bytes.data(), size, &size);
    return bytes;
}

}  // namespace detail

/// Polygons of a grid as one MultiPolygon in well-known binary, and in EWKB where the number of a reference system is
/// given. Throws `std::bad_alloc` where memory was refused.
[[nodiscard]] inline std::vector<std::byte> to_wkb(const Polygons &polygons, const Grid &grid, std::uint32_t srid = 0) {
    return detail::written(polygons, grid, ITREE_WKB_MULTIPOLYGON, srid);
}

/// Polygons in well-known binary, one behind the other: the one at i is the bytes from the offset at i on and before that
/// at i + 1.
struct EachWkb {
    std::vector<std::byte> bytes;
    std::vector<std::size_t> offsets;

    /// They are read while this stays.
    [[nodiscard]] Wkb wkb() const { return {bytes, offsets}; }
};

/// The same, each polygon a shape of its own.
[[nodiscard]] inline EachWkb to_wkb_each(const Polygons &polygons, const Grid &grid, std::uint32_t srid = 0) {
    EachWkb each{detail::written(polygons, grid, ITREE_WKB_EACH_POLYGON, srid), {0}};
    for (const auto &polygon : polygons) {
        auto size = each.offsets.back() + (srid == 0 ? 9 : 13);
        for (const auto &ring : polygon) size += 4 + 16 * (ring.size() + 1);
        each.offsets.push_back(size);
    }
    return each;
}

/// The places of some two edges that share a point, `first` below `second`, or nothing where no two do. Throws
/// `std::bad_alloc` where memory was refused.
[[nodiscard]] inline std::optional<Pair> first_meeting(Span<Edge> edges) {
    Pair pair{0, 0};
    const auto status = ::itree_first_meeting(edges.data(), edges.size(), &pair.first, &pair.second);
    if (status == ITREE_MEETING) return pair;
    detail::throw_unless_answered(status);
    return std::nullopt;
}

/// How two edges meet.
enum class Meeting : std::int32_t {
    /// They share no point.
    apart = ITREE_EDGES_APART,
    /// They share one point alone, and it is an end of one of them or of both.
    touch = ITREE_EDGES_TOUCH,
    /// They share one point alone, and it is an end of neither.
    cross = ITREE_EDGES_CROSS,
    /// They share more than one point: a whole stretch of a line.
    share = ITREE_EDGES_SHARE
};

/// How two edges meet, exactly. An edge may be a point. It takes no memory.
[[nodiscard]] inline Meeting how_they_meet(const Edge &one, const Edge &other) noexcept {
    std::int32_t meeting = ITREE_EDGES_APART;
    ::itree_how_they_meet(&one, &other, &meeting);
    return static_cast<Meeting>(meeting);
}

/// For each point, in order, the place of the edge straight below it, if there is one. Which edge that is, and when two
/// cross, is said at `itree_locate` of itree.h; an upright edge is never told. Throws `Crossing` where two edges cross,
/// and `std::bad_alloc` where memory was refused, which may be in that case too.
[[nodiscard]] inline std::vector<std::optional<std::size_t>> locate(Span<Edge> edges, Span<Point> points) {
    std::vector<::itree_place> places(points.size());
    Pair pair{0, 0};
    const auto status = ::itree_locate(edges.data(), edges.size(), points.data(), points.size(), places.data(),
                                       points.size(), &pair.first, &pair.second);
    if (status == ITREE_CROSSING) throw Crossing(pair);
    detail::throw_unless_answered(status);
    std::vector<std::optional<std::size_t>> found(points.size());
    for (std::size_t place = 0; place < found.size(); place++) {
        if (places[place].found) found[place] = places[place].place;
    }
    return found;
}

}  // namespace itree

#endif
