// The answers of one library to the workloads of bench/overlays.cpp, as lines that can be compared with another's.
//
// The argument is a shared object. Each workload is overlaid as it is given, and with every second ring turned round, so
// that no two rules answer alike; by each operation and each rule, of 100 to 100,000 edges, of the two rings 1,000,000 too.
// Workloads of the same shapes are overlaid once.
//
// A line has workload, edges, how the rings run, operation, rule, the numbers of points, rings and polygons of the answer,
// and a hash of its points and offsets (FNV-1a of 64 bits, over numbers of 64 bits).
#include <dlfcn.h>

#include <algorithm>
#include <cstdio>
#include <cstdlib>
#include <set>
#include <stdexcept>

#include "overlays/inputs.hpp"

namespace {

const std::vector<std::size_t> sizes{100, 1'000, 10'000, 100'000, 1'000'000};

/// Of more edges the two rings alone are overlaid.
constexpr std::size_t most_of_all = 100'000;

const std::vector<std::pair<const char *, std::int32_t>> operations{{"union", ITREE_UNION},
                                                                    {"intersection", ITREE_INTERSECTION},
                                                                    {"difference", ITREE_DIFFERENCE},
                                                                    {"xor", ITREE_XOR}};

const std::vector<std::pair<const char *, std::int32_t>> rules{{"evenodd", ITREE_EVEN_ODD},
                                                               {"nonzero", ITREE_NON_ZERO},
                                                               {"positive", ITREE_POSITIVE},
                                                               {"negative", ITREE_NEGATIVE}};

/// The calls of the library that is named.
struct Calls {
    decltype(&itree_overlay) overlay;
    decltype(&itree_polygons_points) points;
    decltype(&itree_polygons_ring_offsets) rings;
    decltype(&itree_polygons_polygon_offsets) polygons;
    decltype(&itree_polygons_free) free;

    explicit Calls(const char *file) {
        void *library = dlopen(file, RTLD_NOW | RTLD_LOCAL);
        if (!library) throw std::runtime_error(dlerror());
        find(library, "itree_overlay", overlay);
        find(library, "itree_polygons_points", points);
        find(library, "itree_polygons_ring_offsets", rings);
        find(library, "itree_polygons_polygon_offsets", polygons);
        find(library, "itree_polygons_free", free);
    }

private:
    template <typename Call>
    static void find(void *library, const char *name, Call &call) {
        call = reinterpret_cast<Call>(dlsym(library, name));
        if (!call) throw std::runtime_error(std::string("the library has no ") + name);
    }
};

/// Rings as the calls take them: all points, and where each ring stops among them.
struct Rings {
    std::vector<itree_point> points;
    std::vector<std::size_t> ends;

    /// With every second ring turned round, where that is wanted: counted behind so many rings before.
    Rings(const Shape &shape, bool turned, std::size_t before) {
        for (const auto &polygon : shape) {
            for (auto ring : polygon) {
                if (turned && (before + ends.size()) % 2 == 1) std::reverse(ring.begin(), ring.end());
                points.insert(points.end(), ring.begin(), ring.end());
                ends.push_back(points.size());
            }
        }
    }
};

class Hash {
public:
    void add(std::uint64_t number) {
        for (int byte = 0; byte < 8; byte++) value_ = (value_ ^ (number >> (8 * byte) & 255)) * 1099511628211u;
    }
    void add(const itree_point *points, std::size_t count) {
        for (std::size_t place = 0; place < count; place++) {
            add(std::uint64_t(points[place].x));
            add(std::uint64_t(points[place].y));
        }
    }
    void add(const std::size_t *offsets, std::size_t count) {
        for (std::size_t place = 0; place < count; place++) add(offsets[place]);
    }
    std::uint64_t value() const { return value_; }

private:
    std::uint64_t value_ = 14695981039346656037u;
};

/// What is overlaid, and what a line says of it.
struct Given {
    Rings subject, clip;
    std::string said;
};

Given given_of(const Input &input, bool turned) {
    const std::string way = turned ? "every second ring turned" : "as given";
    const Rings subject(input.subject, turned, 0);
    return {subject, Rings(input.clip, turned, subject.ends.size()),
            input.workload + "\t" + std::to_string(size_of(input)) + "\t" + way};
}

std::uint64_t hash_of(const Given &given) {
    Hash hash;
    for (const auto rings : {&given.subject, &given.clip}) {
        hash.add(rings->points.data(), rings->points.size());
        hash.add(rings->ends.data(), rings->ends.size());
    }
    return hash.value();
}

/// Prints the answer's line. What is refused has a line too, with the status.
void answer(const Calls &calls, const Given &given, const std::pair<const char *, std::int32_t> &operation,
            const std::pair<const char *, std::int32_t> &rule) {
    std::printf("%s\t%s\t%s\t", given.said.c_str(), operation.first, rule.first);
    const auto &[subject, clip, said] = given;
    itree_polygons *found = nullptr;
    const auto status = calls.overlay(subject.points.data(), subject.points.size(), subject.ends.data(),
                                      subject.ends.size(), clip.points.data(), clip.points.size(), clip.ends.data(),
                                      clip.ends.size(), rule.second, operation.second, &found);
    if (status != ITREE_ANSWERED) {
        std::printf("status %d\n", int(status));
        return;
    }
    const itree_point *points = nullptr;
    const std::size_t *rings = nullptr, *polygons = nullptr;
    const std::size_t point_count = calls.points(found, &points), ring_offsets = calls.rings(found, &rings),
                      polygon_offsets = calls.polygons(found, &polygons);
    Hash hash;
    hash.add(points, point_count);
    hash.add(rings, ring_offsets);
    hash.add(polygons, polygon_offsets);
    std::printf("%zu\t%zu\t%zu\t%016llx\n", point_count, ring_offsets - 1, polygon_offsets - 1,
                static_cast<unsigned long long>(hash.value()));
    calls.free(found);
}

void answer_all(const Calls &calls, const Given &given) {
    for (const auto &operation : operations) {
        for (const auto &rule : rules) answer(calls, given, operation, rule);
    }
    std::fflush(stdout);
}

void answer_workloads(const Calls &calls) {
    std::set<std::uint64_t> done;
    for (const auto size : sizes) {
        for (const auto generate : generated()) {
            const auto input = generate(size);
            if (size > most_of_all && input.workload.find("two rings") == std::string::npos) continue;
            for (const bool turned : {false, true}) {
                const auto given = given_of(input, turned);
                if (done.insert(hash_of(given)).second) answer_all(calls, given);
            }
        }
    }
}

}  // namespace

/// The land of inputs.cpp is no workload here.
Shape united_by_itree(const Shape &) { throw std::logic_error("no land is united"); }

int main(int count, char **words) {
    if (count != 2) {
        std::fprintf(stderr, "usage: answers LIBRARY\n");
        return 2;
    }
    try {
        answer_workloads(Calls(words[1]));
    } catch (const std::exception &fault) {
        std::fprintf(stderr, "answers: %s\n", fault.what());
        return 2;
    }
}
