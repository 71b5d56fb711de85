/* The calls from C beside a plain model, at faults, and with each request for memory refused in turn. */
#include <itree.h>
#include <stdio.h>
#include <string.h>

#include "counted.h"
#include "refuse.h"

enum { MOST = 12 };

static int collide(struct itree_segment one, struct itree_segment other) {
    const int32_t first = one.x0 > other.x0 ? one.x0 : other.x0;
    const int32_t last = one.x1 < other.x1 ? one.x1 : other.x1;
    return one.y == other.y && first <= last;
}

static int comes_before(const struct itree_segment *segments, size_t one, size_t other) {
    return segments[one].x0 < segments[other].x0 || (segments[one].x0 == segments[other].x0 && one < other);
}

/* The place of the first segment that collides with one before it, or count where none does. */
static size_t plain_overlap(const struct itree_segment *segments, size_t count) {
    size_t first = count;
    for (size_t place = 0; place < count; place++) {
        for (size_t earlier = 0; earlier < count; earlier++) {
            if (comes_before(segments, earlier, place) && collide(segments[earlier], segments[place]) &&
                (first == count || comes_before(segments, place, first))) {
                first = place;
            }
        }
    }
    return first;
}

static struct itree_height plain_height(const struct itree_segment *segments, size_t count, struct itree_point point) {
    struct itree_height height = {0, 0};
    for (size_t place = 0; place < count; place++) {
        const struct itree_segment it = segments[place];
        if (it.x0 <= point.x && point.x <= it.x1 && it.y <= point.y && (!height.found || height.y < it.y)) {
            height.found = 1;
            height.y = it.y;
        }
    }
    return height;
}

/* Whether a sweep over such segments and points answers as the plain model, and leaves alone what it has to. */
static int is_as_plain(const struct itree_segment *segments, size_t segment_count, const struct itree_point *points,
                       size_t point_count) {
    struct itree_height heights[MOST], before[MOST];
    size_t overlap = 77;
    memset(heights, 0x5a, sizeof heights);
    memcpy(before, heights, sizeof heights);
    const int32_t status = itree_below(segments, segment_count, points, point_count, heights, point_count, &overlap);
    const size_t wanted = plain_overlap(segments, segment_count);
    if (wanted < segment_count) {
        return status == ITREE_OVERLAP && overlap == wanted && !memcmp(heights, before, sizeof heights);
    }
    for (size_t place = 0; place < point_count; place++) {
        before[place] = plain_height(segments, segment_count, points[place]);
    }
    return status == ITREE_ANSWERED && overlap == 77 && !memcmp(heights, before, sizeof heights);
}

static void checks_random(void) {
    int ok = 1, overlapping = 0;
    for (int round = 0; round < 4000; round++) {
        struct itree_segment segments[MOST];
        struct itree_point points[MOST];
        const size_t segment_count = (size_t)random_below(MOST + 1), point_count = (size_t)random_below(MOST + 1);
        for (size_t place = 0; place < segment_count; place++) {
            const int32_t x0 = random_below(40) - 20;
            segments[place] = (struct itree_segment){x0, x0 + random_below(12) - 2, random_below(8) - 4};
        }
        for (size_t place = 0; place < point_count; place++) {
            points[place] = (struct itree_point){random_below(60) - 30, random_below(12) - 6};
        }
        ok = ok && is_as_plain(segments, segment_count, points, point_count);
        overlapping += plain_overlap(segments, segment_count) < segment_count;
    }
    check("a sweep answers as the plain model", ok);
    check("a quarter of random sweeps overlap, and a quarter doesn't", 1000 < overlapping && overlapping < 3000);
}

static void checks_nothing(void) {
    const struct itree_segment segment = {1, 2, 3};
    const struct itree_point point = {1, 2};
    struct itree_height height = {9, 9};
    size_t overlap = 7;
    check("no segments and no points", itree_below(&segment, 0, &point, 0, &height, 0, &overlap) == ITREE_ANSWERED);
    check("no points", itree_below(&segment, 1, &point, 0, &height, 0, &overlap) == ITREE_ANSWERED);
    check("neither writes", height.found == 9 && height.y == 9 && overlap == 7);
    check("no segments", itree_below(&segment, 0, &point, 1, &height, 1, &overlap) == ITREE_ANSWERED);
    check("nothing lies below", height.found == 0 && height.y == 0 && overlap == 7);
}

static void checks_lengths(void) {
    const struct itree_segment segment = {0, 9, 1};
    const struct itree_point points[] = {{1, 2}, {3, 4}};
    struct itree_height heights[3] = {{9, 9}, {9, 9}, {9, 9}};
    size_t overlap = 7;
    check("fewer heights than points", itree_below(&segment, 1, points, 2, heights, 1, &overlap) == ITREE_LENGTHS);
    check("more heights than points", itree_below(&segment, 1, points, 2, heights, 3, &overlap) == ITREE_LENGTHS);
    check("nothing is written then", heights[0].found == 9 && heights[0].y == 9 && overlap == 7);
}

static void checks_refusals(void) {
    struct itree_segment segments[50];
    struct itree_point points[50];
    struct itree_height heights[50], before[50];
    size_t overlap = 7, requests = 0;
    int ok = 1;
    for (int32_t y = 0; y < 50; y++) {
        segments[y] = (struct itree_segment){0, 100, y};
        points[y] = (struct itree_point){3, y};
    }
    memset(heights, 0x5a, sizeof heights);
    memcpy(before, heights, sizeof heights);
    while (1) {
        refuse_after(requests);
        const int32_t status = itree_below(segments, 50, points, 50, heights, 50, &overlap);
        refuse_after(SIZE_MAX);
        if (status != ITREE_REFUSED) break;
        ok = ok && !memcmp(heights, before, sizeof heights) && overlap == 7;
        requests++;
    }
    check("each request is refused in turn", requests > 5);
    check("nothing is written where memory is refused", ok);
    for (int32_t y = 0; y < 50; y++) ok = ok && heights[y].found == 1 && heights[y].y == y;
    check("with all requests granted it answers", ok);
}

static int sign_of(int64_t number) { return (0 < number) - (number < 0); }

/* On which side of the line through the edge's ends the point lies. */
static int side_of(struct itree_edge edge, int64_t x, int64_t y) {
    return sign_of((edge.x1 - edge.x0) * (y - edge.y0) - (edge.y1 - edge.y0) * (x - edge.x0));
}

static int ranges_meet(int32_t start, int32_t end, int32_t other_start, int32_t other_end) {
    const int32_t low = start < end ? start : end, high = start < end ? end : start;
    const int32_t other_low = other_start < other_end ? other_start : other_end;
    const int32_t other_high = other_start < other_end ? other_end : other_start;
    return low <= other_high && other_low <= high;
}

/* Whether the edges meet: neither has both ends on one side of the other, and their boxes meet. */
static int plainly_meet(struct itree_edge one, struct itree_edge other) {
    return ranges_meet(one.x0, one.x1, other.x0, other.x1) && ranges_meet(one.y0, one.y1, other.y0, other.y1) &&
           side_of(one, other.x0, other.y0) * side_of(one, other.x1, other.y1) <= 0 &&
           side_of(other, one.x0, one.y0) * side_of(other, one.x1, one.y1) <= 0;
}

/* Whether each of the pairs is one of edges that meet, and none stands there twice. */
static int are_meetings(const struct itree_edge *edges, const struct itree_pair *pairs, size_t count) {
    for (size_t place = 0; place < count; place++) {
        const struct itree_pair it = pairs[place];
        if (it.second <= it.first || !plainly_meet(edges[it.first], edges[it.second])) return 0;
        for (size_t other = 0; other < place; other++) {
            if (pairs[other].first == it.first && pairs[other].second == it.second) return 0;
        }
    }
    return 1;
}

static size_t plain_count(const struct itree_edge *edges, size_t count) {
    size_t found = 0;
    for (size_t second = 0; second < count; second++) {
        for (size_t first = 0; first < second; first++) found += (size_t)plainly_meet(edges[first], edges[second]);
    }
    return found;
}

static void checks_meetings(void) {
    enum { ROOM = MOST * MOST / 2 };
    int ok = 1, full = 0;
    for (int round = 0; round < 4000; round++) {
        struct itree_edge edges[MOST];
        struct itree_pair pairs[ROOM], before[ROOM];
        const size_t edge_count = (size_t)random_below(MOST + 1), room = (size_t)random_below(16);
        for (size_t place = 0; place < edge_count; place++) {
            edges[place] = (struct itree_edge){random_below(9), random_below(9), random_below(9), random_below(9)};
        }
        memset(pairs, 0x5a, sizeof pairs);
        memcpy(before, pairs, sizeof pairs);
        const size_t wanted = plain_count(edges, edge_count), written = wanted < room ? wanted : room;
        size_t count = 0;
        ok = ok && itree_meetings(edges, edge_count, pairs, room, &count) == ITREE_ANSWERED && count == wanted;
        ok = ok && are_meetings(edges, pairs, written);
        ok = ok && !memcmp(pairs + written, before + written, (ROOM - written) * sizeof *pairs);
        full += room < wanted;
    }
    check("pairs of edges that meet, as the plain model", ok);
    check("some had too little room, and some enough", 500 < full && full < 3500);
}

static void checks_refused_meetings(void) {
    struct itree_edge edges[40];
    struct itree_pair pair = {7, 7};
    size_t count = 7, requests = 0;
    int ok = 1;
    for (int32_t place = 0; place < 40; place++) edges[place] = (struct itree_edge){0, place, 40, 40 - place};
    while (1) {
        refuse_after(requests);
        const int32_t status = itree_meetings(edges, 40, &pair, 1, &count);
        refuse_after(SIZE_MAX);
        if (status != ITREE_REFUSED) break;
        ok = ok && pair.first == 7 && pair.second == 7 && count == 7;
        requests++;
    }
    check("each request for pairs is refused in turn", requests > 2);
    check("nothing is written then", ok);
    check("with all requests granted all meet", count == 780 && pair.first < pair.second);
}

/* Whether the handle of edges that meet has all pairs, and they may be written. */
static int are_all_meetings(const struct itree_edge *edges, size_t edge_count) {
    struct itree_pairs *pairs = NULL;
    if (itree_meetings_all(edges, edge_count, &pairs) != ITREE_ANSWERED || pairs == NULL) return 0;
    const size_t count = itree_pairs_count(pairs);
    struct itree_pair *first = itree_pairs_first(pairs);
    int ok = count == plain_count(edges, edge_count) && (first == NULL) == (count == 0);
    ok = ok && are_meetings(edges, first, count) && itree_pairs_first(pairs) == first;
    if (count > 0) memset(first, 0x5a, count * sizeof *first);
    ok = ok && itree_pairs_count(pairs) == count;
    itree_pairs_free(pairs);
    return ok;
}

static void checks_all_meetings(void) {
    int ok = 1;
    for (int round = 0; round < 4000; round++) {
        struct itree_edge edges[MOST];
        const size_t edge_count = (size_t)random_below(MOST + 1);
        for (size_t place = 0; place < edge_count; place++) {
            edges[place] = (struct itree_edge){random_below(9), random_below(9), random_below(9), random_below(9)};
        }
        ok = ok && are_all_meetings(edges, edge_count);
    }
    check("a handle has all pairs of edges that meet, as the plain model", ok);
}

static void fill_with_edges(struct itree_edge *edges, size_t count) {
    for (size_t place = 0; place < count; place++) {
        edges[place] = (struct itree_edge){random_below(9), random_below(9), random_below(9), random_below(9)};
    }
}

/* Whether the handle of edges of two lists that meet has each pair once, as the plain model. */
static int are_all_between(const struct itree_edge *edges, size_t edge_count, const struct itree_edge *others,
                           size_t other_count) {
    int told[MOST][MOST] = {{0}}, ok = 1;
    struct itree_pairs *pairs = NULL;
    if (itree_meetings_between(edges, edge_count, others, other_count, &pairs) != ITREE_ANSWERED) return 0;
    const size_t count = itree_pairs_count(pairs);
    const struct itree_pair *first = itree_pairs_first(pairs);
    for (size_t place = 0; ok && place < count; place++) {
        ok = first[place].first < edge_count && first[place].second < other_count;
        if (ok) told[first[place].first][first[place].second]++;
    }
    for (size_t one = 0; one < edge_count; one++) {
        for (size_t other = 0; other < other_count; other++) {
            ok = ok && told[one][other] == plainly_meet(edges[one], others[other]);
        }
    }
    itree_pairs_free(pairs);
    return ok;
}

static void checks_between(void) {
    int ok = 1;
    for (int round = 0; round < 4000; round++) {
        struct itree_edge edges[MOST], others[MOST];
        const size_t edge_count = (size_t)random_below(MOST + 1), other_count = (size_t)random_below(MOST + 1);
        fill_with_edges(edges, edge_count);
        fill_with_edges(others, other_count);
        ok = ok && are_all_between(edges, edge_count, others, other_count);
        ok = ok && are_all_between(edges, edge_count, edges, edge_count);
    }
    check("a handle has all pairs of edges of two lists that meet, as the plain model", ok);
    struct itree_edge edges[20], others[30];
    struct itree_pairs *pairs = NULL;
    size_t requests = 0;
    for (int32_t place = 0; place < 20; place++) edges[place] = (struct itree_edge){0, place, 40, place};
    for (int32_t place = 0; place < 30; place++) others[place] = (struct itree_edge){place, 0, place, 40};
    while (1) {
        pairs = (void *)edges;
        refuse_after(requests);
        const int32_t status = itree_meetings_between(edges, 20, others, 30, &pairs);
        refuse_after(SIZE_MAX);
        if (status != ITREE_REFUSED) break;
        ok = ok && pairs == NULL;
        requests++;
    }
    check("each request for a handle of two lists is refused in turn", requests > 4 && ok);
    check("with all requests granted each meets each", itree_pairs_count(pairs) == 600);
    itree_pairs_free(pairs);
}

static void checks_faulty_between(void) {
    const struct itree_edge edges[] = {{0, 0, 9, 9}, {0, 9, 9, 0}};
    uint64_t words[8] = {0};
    char *const odd = (char *)words + 1;
    struct itree_pairs *pairs = (void *)words;
    check("no handle of two lists", itree_meetings_between(edges, 2, edges, 2, NULL) == ITREE_POINTER);
    check("no first list", itree_meetings_between(NULL, 2, edges, 2, &pairs) == ITREE_POINTER);
    check("no second list", itree_meetings_between(edges, 2, NULL, 2, &pairs) == ITREE_POINTER);
    check("a second list at an odd address", itree_meetings_between(edges, 2, (void *)odd, 2, &pairs) == ITREE_POINTER);
    check("a second list larger than memory",
          itree_meetings_between(edges, 2, edges, SIZE_MAX / 16, &pairs) == ITREE_POINTER);
    check("the handle stays as it was there", pairs == (void *)words);
    check("null for two lists of none", itree_meetings_between(NULL, 0, NULL, 0, &pairs) == ITREE_ANSWERED);
    check("none of them meet", pairs != NULL && itree_pairs_count(pairs) == 0);
    itree_pairs_free(pairs);
}

static void checks_first_meeting(void) {
    int ok = 1, meeting = 0;
    for (int round = 0; round < 4000; round++) {
        struct itree_edge edges[MOST];
        const size_t edge_count = (size_t)random_below(6);
        size_t first = 77, second = 78;
        fill_with_edges(edges, edge_count);
        const int32_t status = itree_first_meeting(edges, edge_count, &first, &second);
        if (plain_count(edges, edge_count) == 0) {
            ok = ok && status == ITREE_ANSWERED && first == 77 && second == 78;
            continue;
        }
        meeting++;
        ok = ok && status == ITREE_MEETING && first < second && second < edge_count;
        ok = ok && plainly_meet(edges[first], edges[second]);
    }
    check("two edges that meet, as the plain model", ok);
    check("some edges meet, and some don't", 500 < meeting && meeting < 3500);
    struct itree_edge edges[40];
    size_t first = 7, second = 8, requests = 0;
    for (int32_t place = 0; place < 40; place++) edges[place] = (struct itree_edge){0, 2 * place, 40, 2 * place};
    while (1) {
        refuse_after(requests);
        const int32_t status = itree_first_meeting(edges, 40, &first, &second);
        refuse_after(SIZE_MAX);
        if (status != ITREE_REFUSED) break;
        requests++;
    }
    check("each request for two edges is refused in turn", requests > 0 && first == 7 && second == 8);
    edges[39].y1 = 0;
    check("two that meet", itree_first_meeting(edges, 40, &first, &second) == ITREE_MEETING && second == 39);
    check("nobody asks which", itree_first_meeting(edges, 40, NULL, NULL) == ITREE_MEETING);
    check("no edges for two", itree_first_meeting(NULL, 1, &first, &second) == ITREE_POINTER);
    check("a number at an odd address",
          itree_first_meeting(edges, 1, (void *)((char *)edges + 1), NULL) == ITREE_POINTER);
    check("null for no edges of which two meet", itree_first_meeting(NULL, 0, NULL, NULL) == ITREE_ANSWERED);
}

static int is_of_both(struct itree_edge one, struct itree_edge other, int32_t x, int32_t y) {
    const struct itree_edge point = {x, y, x, y};
    return plainly_meet(one, point) && plainly_meet(other, point);
}

/* How the edges meet: by how many different ends are of both. */
static int32_t plain_kind(struct itree_edge one, struct itree_edge other) {
    const int32_t ends[4][2] = {{one.x0, one.y0}, {one.x1, one.y1}, {other.x0, other.y0}, {other.x1, other.y1}};
    int shared = 0, last = 0;
    if (!plainly_meet(one, other)) return ITREE_EDGES_APART;
    for (int end = 0; end < 4; end++) {
        if (!is_of_both(one, other, ends[end][0], ends[end][1])) continue;
        if (shared && ends[end][0] == ends[last][0] && ends[end][1] == ends[last][1]) continue;
        if (shared) return ITREE_EDGES_SHARE;
        shared = 1;
        last = end;
    }
    return shared ? ITREE_EDGES_TOUCH : ITREE_EDGES_CROSS;
}

static void checks_how_they_meet(void) {
    int ok = 1, told[4] = {0, 0, 0, 0};
    for (int round = 0; round < 8000; round++) {
        struct itree_edge edges[2];
        int32_t kind = 77, turned = 78;
        fill_with_edges(edges, 2);
        if (round % 2) edges[1].x1 = edges[1].x0;
        if (round % 4 == 3) edges[0].x0 = edges[0].x1 = edges[1].x0;
        ok = ok && itree_how_they_meet(&edges[0], &edges[1], &kind) == ITREE_ANSWERED;
        ok = ok && itree_how_they_meet(&edges[1], &edges[0], &turned) == ITREE_ANSWERED;
        ok = ok && kind == plain_kind(edges[0], edges[1]) && turned == kind;
        if (ok) told[kind]++;
    }
    check("how two edges meet, as the plain model", ok);
    for (int kind = 0; kind < 4; kind++) check("each kind is told", told[kind] > 200);
    const struct itree_edge least = {INT32_MIN, INT32_MIN, INT32_MAX, INT32_MAX};
    const struct itree_edge other = {INT32_MIN, INT32_MAX, INT32_MAX, INT32_MIN};
    int32_t kind = 77;
    refuse_after(0);
    check("it takes no memory", itree_how_they_meet(&least, &other, &kind) == ITREE_ANSWERED);
    refuse_after(SIZE_MAX);
    check("edges from end to end cross", kind == ITREE_EDGES_CROSS);
    check("an edge and itself",
          itree_how_they_meet(&least, &least, &kind) == ITREE_ANSWERED && kind == ITREE_EDGES_SHARE);
    uint64_t words[8] = {0};
    char *const odd = (char *)words + 1;
    kind = 77;
    check("no first edge", itree_how_they_meet(NULL, &other, &kind) == ITREE_POINTER);
    check("no second edge", itree_how_they_meet(&least, NULL, &kind) == ITREE_POINTER);
    check("no place for a kind", itree_how_they_meet(&least, &other, NULL) == ITREE_POINTER);
    check("a first edge at an odd address", itree_how_they_meet((void *)odd, &other, &kind) == ITREE_POINTER);
    check("a second edge at an odd address", itree_how_they_meet(&least, (void *)odd, &kind) == ITREE_POINTER);
    check("a kind at an odd address", itree_how_they_meet(&least, &other, (void *)odd) == ITREE_POINTER);
    check("no kind is written there", kind == 77);
}

/* More pairs than the library moves in one go. */
static void checks_many_meetings(void) {
    enum { MANY = 2400 };
    static struct itree_edge edges[MANY];
    struct itree_pairs *pairs = NULL;
    for (int32_t place = 0; place < MANY; place++) edges[place] = (struct itree_edge){0, place, MANY, MANY - place};
    check("2,878,800 pairs", itree_meetings_all(edges, MANY, &pairs) == ITREE_ANSWERED);
    const size_t count = itree_pairs_count(pairs);
    const struct itree_pair *first = itree_pairs_first(pairs);
    size_t sum = 0;
    int ok = 1;
    for (size_t place = 0; place < count; place++) {
        ok = ok && first[place].first < first[place].second && first[place].second < MANY;
        sum += MANY * first[place].first + first[place].second;
    }
    /* Each place is the lesser one of as many pairs as there are places behind it. */
    size_t wanted = 0;
    for (size_t place = 0; place < MANY; place++) wanted += MANY * place * (MANY - 1 - place) + place * place;
    check("each of them once", ok && count == 2878800 && sum == wanted);
    itree_pairs_free(pairs);
}

static void checks_refused_handle(void) {
    struct itree_edge edges[40];
    struct itree_pairs *pairs = NULL;
    size_t requests = 0;
    int ok = 1;
    for (int32_t place = 0; place < 40; place++) edges[place] = (struct itree_edge){0, place, 40, 40 - place};
    while (1) {
        /* What the handle was before isn't looked at. */
        pairs = (void *)edges;
        refuse_after(requests);
        const int32_t status = itree_meetings_all(edges, 40, &pairs);
        refuse_after(SIZE_MAX);
        if (status != ITREE_REFUSED) break;
        ok = ok && pairs == NULL;
        requests++;
    }
    check("each request for a handle is refused in turn", requests > 4);
    check("the handle is null then", ok);
    check("with all requests granted it has all", itree_pairs_count(pairs) == 780);
    itree_pairs_free(pairs);
}

static void checks_null_handle(void) {
    const struct itree_edge edges[] = {{0, 0, 9, 9}, {0, 9, 9, 0}};
    uint64_t words[8] = {0};
    char *const odd = (char *)words + 1;
    struct itree_pairs *pairs = (void *)words;
    check("no pairs at null", itree_pairs_count(NULL) == 0 && itree_pairs_first(NULL) == NULL);
    itree_pairs_free(NULL);
    check("no handle", itree_meetings_all(edges, 2, NULL) == ITREE_POINTER);
    check("a handle at an odd address", itree_meetings_all(edges, 2, (void *)odd) == ITREE_POINTER);
    check("no edges for a handle", itree_meetings_all(NULL, 2, &pairs) == ITREE_POINTER);
    check("edges at an odd address", itree_meetings_all((void *)odd, 2, &pairs) == ITREE_POINTER);
    check("more edges than memory", itree_meetings_all(edges, SIZE_MAX / 16, &pairs) == ITREE_POINTER);
    check("the handle stays as it was", pairs == (void *)words);
    check("null for no edges", itree_meetings_all(NULL, 0, &pairs) == ITREE_ANSWERED && pairs != NULL);
    check("none meet", itree_pairs_count(pairs) == 0 && itree_pairs_first(pairs) == NULL);
    itree_pairs_free(pairs);
}

/* The edge from its lesser end to its greater. */
static struct itree_edge rightwards(struct itree_edge it) {
    return it.x0 <= it.x1 ? it : (struct itree_edge){it.x1, it.y1, it.x0, it.y0};
}

/* The height at x of an edge that goes to the right, times how far it goes and how far the other does. */
static int64_t height_by_runs(struct itree_edge it, struct itree_edge other, int64_t x) {
    return (it.y0 * (it.x1 - x) + it.y1 * (x - it.x0)) * (other.x1 - other.x0);
}

/* Whether the one is below the other at some whole x that both span, and above it at another. */
static int plainly_cross(struct itree_edge one, struct itree_edge other) {
    one = rightwards(one);
    other = rightwards(other);
    const int32_t first = one.x0 > other.x0 ? one.x0 : other.x0;
    const int32_t last = one.x1 < other.x1 ? one.x1 : other.x1;
    int below = 0, above = 0;
    for (int32_t x = first; x <= last; x++) {
        below = below || height_by_runs(one, other, x) < height_by_runs(other, one, x);
        above = above || height_by_runs(other, one, x) < height_by_runs(one, other, x);
    }
    return below && above;
}

static int any_cross(const struct itree_edge *edges, size_t count) {
    for (size_t place = 0; place < count; place++) {
        for (size_t other = 0; other < place; other++) {
            if (plainly_cross(edges[place], edges[other])) return 1;
        }
    }
    return 0;
}

static int is_under(struct itree_edge edge, struct itree_point point) {
    const struct itree_edge it = rightwards(edge);
    const int64_t x = point.x, run = it.x1 - it.x0;
    return it.x0 <= x && x < it.x1 && it.y0 * (it.x1 - x) + it.y1 * (x - it.x0) <= point.y * run;
}

/* Whether the answer tells an edge under the point than which no other one is higher, there or at the next x, or none
 * where none is under it. */
static int is_straight_below(const struct itree_edge *edges, size_t count, struct itree_point point,
                             struct itree_place answer) {
    if (answer.found > 1 || (!answer.found && answer.place) || (answer.found && answer.place >= count)) return 0;
    if (answer.found && !is_under(edges[answer.place], point)) return 0;
    for (size_t place = 0; place < count; place++) {
        if (!is_under(edges[place], point)) continue;
        const struct itree_edge it = rightwards(edges[place]), told = rightwards(edges[answer.place]);
        if (!answer.found) return 0;
        for (int64_t x = point.x; x <= (int64_t)point.x + 1; x++) {
            if (height_by_runs(told, it, x) < height_by_runs(it, told, x)) return 0;
        }
    }
    return 1;
}

/* Whether such edges and points are answered as the plain model says, and what has to be is left alone. */
static int is_located(const struct itree_edge *edges, size_t edge_count, const struct itree_point *points,
                      size_t point_count) {
    struct itree_place places[MOST], before[MOST];
    size_t first = 77, second = 78;
    memset(places, 0x5a, sizeof places);
    memcpy(before, places, sizeof places);
    const int32_t status = itree_locate(edges, edge_count, points, point_count, places, point_count, &first, &second);
    if (any_cross(edges, edge_count)) {
        return status == ITREE_CROSSING && first < second && second < edge_count &&
               plainly_cross(edges[first], edges[second]) && !memcmp(places, before, sizeof places);
    }
    if (status != ITREE_ANSWERED || first != 77 || second != 78) return 0;
    for (size_t place = 0; place < point_count; place++) {
        if (!is_straight_below(edges, edge_count, points[place], places[place])) return 0;
    }
    return !memcmp(places + point_count, before + point_count, (MOST - point_count) * sizeof *places);
}

static void checks_locate(void) {
    int ok = 1, crossing = 0;
    for (int round = 0; round < 4000; round++) {
        struct itree_edge edges[MOST];
        struct itree_point points[MOST];
        const size_t edge_count = (size_t)random_below(MOST + 1), point_count = (size_t)random_below(MOST + 1);
        for (size_t place = 0; place < edge_count; place++) {
            const int32_t x = random_below(16), y = random_below(6);
            edges[place] = (struct itree_edge){x, y, x + random_below(11) - 5, y + random_below(7) - 3};
        }
        for (size_t place = 0; place < point_count; place++) {
            points[place] = (struct itree_point){random_below(20) - 2, random_below(12) - 3};
        }
        ok = ok && is_located(edges, edge_count, points, point_count);
        crossing += any_cross(edges, edge_count);
    }
    check("points among edges, as the plain model", ok);
    check("a quarter of random edges cross, and a quarter doesn't", 1000 < crossing && crossing < 3000);
}

static void checks_located_nothing(void) {
    const struct itree_edge edge = {0, 0, 9, 9};
    const struct itree_point points[] = {{1, 2}, {9, 9}};
    struct itree_place places[2] = {{9, 9}, {9, 9}};
    size_t first = 7, second = 8;
    int32_t status = itree_locate(&edge, 0, points, 0, places, 0, &first, &second);
    check("no edges and no points", status == ITREE_ANSWERED && places[0].found == 9);
    status = itree_locate(&edge, 1, points, 2, places, 1, &first, &second);
    check("fewer places than points", status == ITREE_LENGTHS && places[0].found == 9 && places[0].place == 9);
    status = itree_locate(&edge, 0, points, 2, places, 2, &first, &second);
    check("no edges", status == ITREE_ANSWERED && places[0].found == 0 && places[0].place == 0);
    places[1].found = 9;
    status = itree_locate(&edge, 1, points, 2, places, 2, &first, &second);
    check("one edge", status == ITREE_ANSWERED && places[0].found == 1 && places[0].place == 0 && places[1].found == 0);
    check("no pair is written", first == 7 && second == 8);
}

static void checks_refused_locate(void) {
    struct itree_edge edges[50];
    struct itree_point points[50];
    struct itree_place places[50], before[50];
    size_t first = 7, second = 8, requests = 0;
    int ok = 1;
    for (int32_t y = 0; y < 50; y++) {
        edges[y] = (struct itree_edge){0, y, 100, y + 1};
        points[y] = (struct itree_point){3, y + 1};
    }
    memset(places, 0x5a, sizeof places);
    memcpy(before, places, sizeof places);
    while (1) {
        refuse_after(requests);
        const int32_t status = itree_locate(edges, 50, points, 50, places, 50, &first, &second);
        refuse_after(SIZE_MAX);
        if (status != ITREE_REFUSED) break;
        ok = ok && !memcmp(places, before, sizeof places) && first == 7 && second == 8;
        requests++;
    }
    check("each request for places is refused in turn", requests > 5);
    check("no place is written then", ok);
    for (size_t y = 0; y < 50; y++) ok = ok && places[y].found == 1 && places[y].place == y;
    check("with all requests granted the places are written", ok);
}

static void checks_null(void) {
    const struct itree_segment segment = {0, 9, 1};
    const struct itree_edge edges[] = {{0, 0, 9, 9}, {0, 9, 9, 0}};
    const struct itree_point point = {3, 4};
    struct itree_height height = {9, 9};
    struct itree_place place = {9, 9};
    size_t count = 7;
    check("null for no segments and points", itree_below(NULL, 0, NULL, 0, NULL, 0, &count) == ITREE_ANSWERED);
    check("null for no edges and pairs", itree_meetings(NULL, 0, NULL, 0, &count) == ITREE_ANSWERED && count == 0);
    check("null for no edges and points", itree_locate(NULL, 0, NULL, 0, NULL, 0, &count, &count) == ITREE_ANSWERED);
    check("null for no segments", itree_below(NULL, 0, &point, 1, &height, 1, NULL) == ITREE_ANSWERED && !height.found);
    check("null for no points", itree_below(&segment, 1, NULL, 0, NULL, 0, NULL) == ITREE_ANSWERED);
    check("null for no heights", itree_below(&segment, 1, &point, 1, NULL, 0, NULL) == ITREE_LENGTHS);
    check("null for no edges",
          itree_locate(NULL, 0, &point, 1, &place, 1, NULL, NULL) == ITREE_ANSWERED && !place.found);
    check("pairs are counted", itree_meetings(edges, 2, NULL, 0, &count) == ITREE_ANSWERED && count == 1);
    const struct itree_segment twice[] = {{0, 9, 1}, {3, 4, 1}};
    check("an overlap isn't told", itree_below(twice, 2, NULL, 0, NULL, 0, NULL) == ITREE_OVERLAP);
    check("no count is told", itree_meetings(edges, 2, NULL, 0, NULL) == ITREE_ANSWERED);
    check("the second of a pair is told", itree_locate(edges, 2, NULL, 0, NULL, 0, NULL, &count) == ITREE_CROSSING);
    check("it is the second", count == 1);
}

static void checks_faulty_pointers(void) {
    const struct itree_segment segment = {0, 9, 1};
    const struct itree_edge edge = {0, 0, 9, 9};
    const struct itree_point point = {3, 4};
    struct itree_height height = {9, 9};
    struct itree_place place = {9, 9};
    struct itree_pair pair = {9, 9};
    size_t first = 7, second = 8;
    char *const odd = (char *)&first + 1;
    check("no segments", itree_below(NULL, 1, &point, 1, &height, 1, &first) == ITREE_POINTER);
    check("no points", itree_below(&segment, 1, NULL, 1, &height, 1, &first) == ITREE_POINTER);
    check("no heights", itree_below(&segment, 1, &point, 1, NULL, 1, &first) == ITREE_POINTER);
    check("no edges", itree_meetings(NULL, 1, &pair, 1, &first) == ITREE_POINTER);
    check("no pairs", itree_meetings(&edge, 1, NULL, 1, &first) == ITREE_POINTER);
    check("no edges to locate among", itree_locate(NULL, 1, &point, 1, &place, 1, &first, &second) == ITREE_POINTER);
    check("no points to locate", itree_locate(&edge, 1, NULL, 1, &place, 1, &first, &second) == ITREE_POINTER);
    check("no places", itree_locate(&edge, 1, &point, 1, NULL, 1, &first, &second) == ITREE_POINTER);
    check("segments at an odd address", itree_below((void *)odd, 1, &point, 1, &height, 1, &first) == ITREE_POINTER);
    check("an overlap at an odd address",
          itree_below(&segment, 1, &point, 1, &height, 1, (void *)odd) == ITREE_POINTER);
    check("pairs at an odd address", itree_meetings(&edge, 1, (void *)odd, 1, &first) == ITREE_POINTER);
    check("places at an odd address", itree_locate(&edge, 1, &point, 1, (void *)odd, 1, &first, NULL) == ITREE_POINTER);
    check("more edges than memory", itree_meetings(&edge, SIZE_MAX / 16, NULL, 0, &first) == ITREE_POINTER);
    check("more points than memory", itree_below(NULL, 0, &point, SIZE_MAX, NULL, 0, &first) == ITREE_POINTER);
    check("no answer is written", height.found == 9 && place.found == 9 && pair.first == 9);
    check("no place is written", first == 7 && second == 8);
    check("an odd address for no edges", itree_meetings((void *)odd, 0, (void *)odd, 0, &second) == ITREE_ANSWERED);
    check("there are no pairs", second == 0);
}

/* Whether a chain has these points. */
static int is_chain(struct itree_chains *chains, size_t place, const struct itree_point *wanted, size_t count) {
    const size_t *offsets = itree_chains_offsets(chains);
    return offsets[place + 1] - offsets[place] == count &&
           !memcmp(itree_chains_points(chains) + offsets[place], wanted, count * sizeof *wanted);
}

static void checks_snap(void) {
    const struct itree_edge whole[] = {{0, 0, 10, 10}, {0, 10, 10, 0}}, slanted[] = {{0, 0, 3, 1}, {0, 1, 3, 0}};
    const struct itree_point rising[] = {{0, 0}, {5, 5}, {10, 10}}, falling[] = {{0, 10}, {5, 5}, {10, 0}};
    const struct itree_point up[] = {{0, 0}, {2, 1}, {3, 1}}, down[] = {{0, 1}, {2, 1}, {3, 0}};
    struct itree_chains *chains = NULL;
    check("edges that meet at a whole point", itree_snap(whole, 2, &chains) == ITREE_ANSWERED);
    check("two chains, of six points", itree_chains_count(chains) == 2 && itree_chains_point_count(chains) == 6);
    check("offsets from 0 on", itree_chains_offsets(chains)[0] == 0 && itree_chains_offsets(chains)[2] == 6);
    check("both are broken there", is_chain(chains, 0, rising, 3) && is_chain(chains, 1, falling, 3));
    itree_chains_free(chains);
    check("edges that meet at no whole point", itree_snap(slanted, 2, &chains) == ITREE_ANSWERED);
    check("both are broken where it rounds to", is_chain(chains, 0, up, 3) && is_chain(chains, 1, down, 3));
    memset(itree_chains_points(chains), 0x5a, 6 * sizeof(struct itree_point));
    memset(itree_chains_offsets(chains), 0x5a, 3 * sizeof(size_t));
    check("points and offsets may be written",
          itree_chains_count(chains) == 2 && itree_chains_point_count(chains) == 6);
    itree_chains_free(chains);
    const struct itree_edge last[] = {{7, 8, 7, 8}, {INT32_MIN, INT32_MIN, INT32_MAX, INT32_MAX}};
    const struct itree_point point = {7, 8}, ends[] = {{INT32_MIN, INT32_MIN}, {INT32_MAX, INT32_MAX}};
    check("a point, and an edge from end to end", itree_snap(last, 2, &chains) == ITREE_ANSWERED);
    check("a point is its chain", is_chain(chains, 0, &point, 1) && is_chain(chains, 1, ends, 2));
    itree_chains_free(chains);
}

static void checks_node(void) {
    const struct itree_edge triangle[] = {{0, 7, 2, 0}, {2, 0, 2, 2}, {2, 2, 0, 7}};
    const struct itree_point left[] = {{0, 7}, {2, 0}}, right[] = {{2, 0}, {2, 2}}, top[] = {{2, 2}, {0, 7}};
    const struct itree_point over[] = {{0, 7}, {2, 2}, {2, 0}};
    struct itree_chains *chains = NULL;
    check("a side that passes close by a corner", itree_node(triangle, 3, &chains) == ITREE_ANSWERED);
    check("three chains, of six points", itree_chains_count(chains) == 3 && itree_chains_point_count(chains) == 6);
    check("no side is moved",
          is_chain(chains, 0, left, 2) && is_chain(chains, 1, right, 2) && is_chain(chains, 2, top, 2));
    itree_chains_free(chains);
    check("the same by snap rounding", itree_snap(triangle, 3, &chains) == ITREE_ANSWERED);
    check("it has no side of its own left", is_chain(chains, 0, over, 3) && is_chain(chains, 2, top, 2));
    itree_chains_free(chains);
    /* The first two cross at (30/13, 3/13). The third is a point, which the first passes, and the fourth. The last passes
     * (9, 4), which is an end of the one before it, and no edge that is moved passes that. */
    const struct itree_edge edges[] = {{0, 0, 10, 1}, {0, 1, 3, 0}, {8, 1, 8, 1},
                                       {6, 2, 9, 1},  {9, 4, 9, 4}, {8, 4, 12, 5}};
    const struct itree_point first[] = {{0, 0}, {2, 0}, {3, 0}, {8, 1}, {9, 1}, {10, 1}};
    const struct itree_point second[] = {{0, 1}, {2, 0}, {3, 0}}, fourth[] = {{6, 2}, {8, 1}, {9, 1}},
                             last[] = {{8, 4}, {12, 5}};
    check("edges that cross at a point with fractions", itree_node(edges, 6, &chains) == ITREE_ANSWERED);
    check("both are moved", is_chain(chains, 0, first, 6) && is_chain(chains, 1, second, 3));
    check("so is what passes a point that they pass", is_chain(chains, 3, fourth, 3));
    check("another stays", is_chain(chains, 5, last, 2) && itree_chains_point_count(chains) == 16);
    itree_chains_free(chains);
}

static void checks_no_chains(void) {
    const struct itree_edge edges[] = {{0, 0, 9, 9}, {0, 9, 9, 0}};
    uint64_t words[8] = {0};
    char *const odd = (char *)words + 1;
    struct itree_chains *chains = (void *)words;
    check("no handle for chains", itree_snap(edges, 2, NULL) == ITREE_POINTER);
    check("a handle for chains at an odd address", itree_snap(edges, 2, (void *)odd) == ITREE_POINTER);
    check("no edges to break", itree_snap(NULL, 2, &chains) == ITREE_POINTER);
    check("edges to break at an odd address", itree_snap((void *)odd, 2, &chains) == ITREE_POINTER);
    check("more edges to break than memory", itree_snap(edges, SIZE_MAX / 16, &chains) == ITREE_POINTER);
    check("nor for these",
          itree_node(edges, 2, NULL) == ITREE_POINTER && itree_node(NULL, 2, &chains) == ITREE_POINTER);
    check("these at odd addresses",
          itree_node(edges, 2, (void *)odd) == ITREE_POINTER && itree_node((void *)odd, 2, &chains) == ITREE_POINTER);
    check("the handle of chains stays as it was there", chains == (void *)words);
    check("null for no edges to break", itree_snap(NULL, 0, &chains) == ITREE_ANSWERED && chains != NULL);
    check("there are no chains", itree_chains_count(chains) == 0 && itree_chains_point_count(chains) == 0);
    check("nor points", itree_chains_points(chains) == NULL && itree_chains_offsets(chains)[0] == 0);
    itree_chains_free(chains);
    check("null for none of these", itree_node(NULL, 0, &chains) == ITREE_ANSWERED && chains != NULL);
    check("there are none", itree_chains_count(chains) == 0 && itree_chains_offsets(chains)[0] == 0);
    itree_chains_free(chains);
    check("null has no chains", itree_chains_count(NULL) == 0 && itree_chains_point_count(NULL) == 0);
    check("nor points or offsets", itree_chains_points(NULL) == NULL && itree_chains_offsets(NULL) == NULL);
    itree_chains_free(NULL);
}

/* A call that makes chains of edges. */
typedef int32_t breaking(const struct itree_edge *edges, size_t edge_count, struct itree_chains **chains);

/* The chains of the edges, once each request for memory was refused in turn. */
static struct itree_chains *refused_in_turn(breaking *call, const struct itree_edge *edges, size_t count) {
    struct itree_chains *chains = NULL;
    size_t requests = 0;
    int ok = 1;
    while (1) {
        chains = (void *)(uintptr_t)edges;
        refuse_after(requests);
        const int32_t status = call(edges, count, &chains);
        refuse_after(SIZE_MAX);
        if (status != ITREE_REFUSED) break;
        ok = ok && chains == NULL;
        requests++;
    }
    check("each request for chains is refused in turn", requests > 4 && ok);
    return chains;
}

static void checks_refused_chains(void) {
    struct itree_edge edges[40];
    for (int32_t place = 0; place < 20; place++) {
        edges[place] = (struct itree_edge){0, place, 40, place};
        edges[20 + place] = (struct itree_edge){place, 0, place, 40};
    }
    breaking *const calls[] = {itree_snap, itree_node};
    for (size_t place = 0; place < 2; place++) {
        struct itree_chains *chains = refused_in_turn(calls[place], edges, 40);
        /* Each edge has 20 points where it meets others, of which its start is one, and its end. */
        check("with all requests granted each is broken", itree_chains_point_count(chains) == 40 * 21);
        itree_chains_free(chains);
    }
    const struct itree_edge slanted[] = {{0, 0, 10, 1}, {0, 1, 3, 0}, {8, 1, 8, 1}, {6, 2, 9, 1}};
    struct itree_chains *chains = refused_in_turn(itree_node, slanted, 4);
    check("with all requests granted edges are moved", itree_chains_point_count(chains) == 13);
    itree_chains_free(chains);
}

int main(void) {
    checks_random();
    checks_nothing();
    checks_lengths();
    checks_refusals();
    checks_meetings();
    checks_refused_meetings();
    checks_all_meetings();
    checks_many_meetings();
    checks_refused_handle();
    checks_null_handle();
    checks_between();
    checks_faulty_between();
    checks_first_meeting();
    checks_how_they_meet();
    checks_snap();
    checks_node();
    checks_no_chains();
    checks_refused_chains();
    checks_locate();
    checks_located_nothing();
    checks_refused_locate();
    checks_null();
    checks_faulty_pointers();
    return told();
}
