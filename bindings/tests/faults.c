/* Whether polygons are valid, or what is wrong with them, from C: at polygons worked by hand, turned, moved and with points
 * repeated; at faults; and with each request for memory refused in turn. */
#include <itree.h>
#include <stdio.h>
#include <string.h>

#include "counted.h"
#include "refuse.h"

enum { POINTS = 14, RINGS = 4 };

/* Polygons, where their rings and they stop, and what is wrong with them. Which of several faults is told, and at which of
 * several points, is open, and may change with the library. */
struct row {
    const char *name;
    size_t point_count, ring_count, polygon_count;
    struct itree_point points[POINTS];
    size_t ring_ends[RINGS], polygon_ends[RINGS];
    struct itree_fault_place wanted;
};

#define NO_EDGES                                                                                                       \
    {0, 0, 0, 0}, { 0, 0, 0, 0 }

static const struct row rows[] = {
    {"nothing", 0, 0, 0, {{0, 0}}, {0}, {0}, {ITREE_VALID, 0, 0, {0, 0}, NO_EDGES}},
    {"a square", 4, 1, 1, {{0, 0}, {9, 0}, {9, 9}, {0, 9}}, {4}, {1}, {ITREE_VALID, 0, 0, {0, 0}, NO_EDGES}},
    {"a hole that touches the outer ring once",
     7,
     2,
     1,
     {{0, 0}, {9, 0}, {9, 9}, {0, 9}, {0, 4}, {3, 3}, {3, 6}},
     {4, 7},
     {2},
     {ITREE_VALID, 0, 0, {0, 0}, NO_EDGES}},
    {"squares that touch at a corner",
     8,
     2,
     2,
     {{0, 0}, {4, 0}, {4, 4}, {0, 4}, {4, 4}, {9, 4}, {9, 9}, {4, 9}},
     {4, 8},
     {1, 2},
     {ITREE_VALID, 0, 0, {0, 0}, NO_EDGES}},
    {"two points, and a ring before them",
     5,
     2,
     2,
     {{0, 0}, {9, 0}, {9, 9}, {20, 0}, {24, 4}},
     {3, 5},
     {1, 2},
     {ITREE_FEW_POINTS, 0, 1, {0, 0}, NO_EDGES}},
    {"a bow-tie",
     4,
     1,
     1,
     {{0, 0}, {9, 9}, {9, 0}, {0, 9}},
     {4},
     {1},
     {ITREE_MEETS_ITSELF, 0, 0, {0, 0}, {0, 0, 9, 9}, {9, 0, 0, 9}}},
    {"rings that cross, and touch at a corner",
     7,
     2,
     2,
     {{0, 0}, {4, 0}, {4, 4}, {0, 4}, {2, 2}, {6, 2}, {4, 4}},
     {4, 7},
     {1, 2},
     {ITREE_RINGS_CROSS, 0, 0, {0, 0}, {4, 0, 4, 4}, {2, 2, 6, 2}}},
    {"squares with a side in common",
     8,
     2,
     2,
     {{0, 0}, {4, 0}, {4, 4}, {0, 4}, {4, 0}, {8, 0}, {8, 4}, {4, 4}},
     {4, 8},
     {1, 2},
     {ITREE_RINGS_CROSS, 0, 0, {0, 0}, {4, 0, 4, 4}, {4, 4, 4, 0}}},
    {"a hole beside its outer ring",
     7,
     2,
     1,
     {{0, 0}, {9, 0}, {9, 9}, {0, 9}, {11, 1}, {12, 1}, {11, 2}},
     {4, 7},
     {2},
     {ITREE_HOLES_OUTSIDE, 0, 0, {11, 1}, NO_EDGES}},
    {"a hole in a hole, of the second polygon",
     14,
     4,
     2,
     {{20, 0},
      {29, 0},
      {29, 9},
      {0, 0},
      {9, 0},
      {9, 9},
      {0, 9},
      {1, 1},
      {8, 1},
      {8, 8},
      {1, 8},
      {3, 3},
      {4, 3},
      {3, 4}},
     {3, 7, 11, 14},
     {1, 4},
     {ITREE_HOLES_OUTSIDE, 1, 0, {3, 3}, NO_EDGES}},
    {"a polygon in another one",
     7,
     2,
     2,
     {{0, 0}, {9, 0}, {9, 9}, {0, 9}, {1, 1}, {2, 1}, {1, 2}},
     {4, 7},
     {1, 2},
     {ITREE_POLYGONS_OVERLAP, 0, 0, {1, 1}, NO_EDGES}},
    {"a hole from side to side",
     8,
     2,
     1,
     {{0, 0}, {12, 0}, {12, 9}, {0, 9}, {0, 4}, {6, 3}, {12, 4}, {6, 5}},
     {4, 8},
     {2},
     {ITREE_DISCONNECTED, 0, 1, {12, 4}, NO_EDGES}},
};

enum { ROWS = sizeof rows / sizeof rows[0] };

static int is_same(const struct itree_fault_place *one, const struct itree_fault_place *other) {
    return one->kind == other->kind && one->polygon == other->polygon && one->ring == other->ring &&
           memcmp(&one->point, &other->point, sizeof one->point) == 0 &&
           memcmp(&one->one, &other->one, sizeof one->one) == 0 &&
           memcmp(&one->other, &other->other, sizeof one->other) == 0;
}

static struct itree_shapes shapes_of(const struct row *row) {
    return (struct itree_shapes){row->points,     row->point_count,  row->ring_ends,
                                 row->ring_count, row->polygon_ends, row->polygon_count};
}

static const struct itree_fault_place before = {77, 77, 77, {7, 7}, {7, 7, 7, 7}, {7, 7, 7, 7}};

static void checks_rows(void) {
    for (int place = 0; place < ROWS; place++) {
        const struct itree_shapes polygons = shapes_of(&rows[place]);
        struct itree_fault_place fault = before;
        const int32_t status = itree_polygons_fault(&polygons, &fault);
        check(rows[place].name, status == ITREE_ANSWERED && is_same(&fault, &rows[place].wanted));
    }
}

/* The kind of fault is the same where each ring runs the other way, begins at its second point and has each point twice. */
static void checks_turned(void) {
    for (int place = 0; place < ROWS; place++) {
        const struct row *const row = &rows[place];
        struct itree_point points[2 * POINTS];
        size_t ring_ends[RINGS], start = 0;
        for (size_t ring = 0; ring < row->ring_count; ring++) {
            const size_t stop = row->ring_ends[ring], count = stop - start;
            for (size_t point = 0; point < count; point++) {
                points[2 * (start + point)] = points[2 * (start + point) + 1] =
                    row->points[start + (2 * count - point) % count];
            }
            ring_ends[ring] = 2 * stop;
            start = stop;
        }
        const struct itree_shapes polygons = {points,          2 * start,         ring_ends,
                                              row->ring_count, row->polygon_ends, row->polygon_count};
        struct itree_fault_place fault = before;
        check("turned", itree_polygons_fault(&polygons, &fault) == ITREE_ANSWERED && fault.kind == row->wanted.kind &&
                            fault.polygon == row->wanted.polygon);
    }
}

static void checks_lengths(void) {
    const struct itree_point *const points = rows[2].points;
    const size_t rising[] = {3, 6}, behind[] = {3, 8}, falling[] = {6, 3}, one_two[] = {1, 2}, two_one[] = {2, 1};
    const struct itree_shapes faulty[] = {
        {points, 7, falling, 2, one_two, 2}, {points, 7, behind, 2, one_two, 2}, {points, 7, rising, 2, two_one, 2},
        {points, 7, rising, 2, rising, 2},   {points, 7, rising, 2, one_two, 1}, {points, 7, rising, 2, NULL, 0},
    };
    for (int which = 0; which < 6; which++) {
        struct itree_fault_place fault = before;
        check("polygons that can't be", itree_polygons_fault(&faulty[which], &fault) == ITREE_LENGTHS);
        check("nothing is written", is_same(&fault, &before));
    }
    const struct itree_shapes more = {points, 7, rising, 1, one_two, 1};
    struct itree_fault_place fault = before;
    check("points behind the last ring", itree_polygons_fault(&more, &fault) == ITREE_ANSWERED && fault.kind == 0);
}

static void checks_pointers(void) {
    const struct itree_shapes good = shapes_of(&rows[5]);
    struct itree_shapes null[] = {good, good, good, good};
    struct itree_fault_place fault[2] = {before, before};
    null[0].points = NULL;
    null[1].ring_ends = (void *)((char *)fault + 1);
    null[2].shape_ends = NULL;
    null[3].point_count = SIZE_MAX / 8;
    for (int which = 0; which < 4; which++) {
        check("a faulty pointer", itree_polygons_fault(&null[which], fault) == ITREE_POINTER);
    }
    check("no polygons", itree_polygons_fault(NULL, fault) == ITREE_POINTER);
    check("no room", itree_polygons_fault(&good, NULL) == ITREE_POINTER);
    check("room between two", itree_polygons_fault(&good, (void *)((char *)fault + 1)) == ITREE_POINTER);
    check("none of them writes", is_same(&fault[0], &before) && is_same(&fault[1], &before));
}

static void checks_refused(void) {
    for (int place = 1; place < ROWS; place++) {
        const struct itree_shapes polygons = shapes_of(&rows[place]);
        size_t requests = 0;
        int ok = 1;
        while (1) {
            struct itree_fault_place fault = before;
            refuse_after(requests);
            const int32_t status = itree_polygons_fault(&polygons, &fault);
            refuse_after(SIZE_MAX);
            if (status != ITREE_REFUSED) {
                ok = ok && status == ITREE_ANSWERED && is_same(&fault, &rows[place].wanted);
                break;
            }
            ok = ok && is_same(&fault, &before);
            requests++;
        }
        check("each request is refused in turn", ok && requests > 0);
    }
}

/* Squares of random places: valid where no two of them meet or lie in each other. */
static void checks_squares(void) {
    int valid = 0, ok = 1;
    for (int round = 0; round < 20000; round++) {
        struct itree_point points[12];
        struct itree_window boxes[3];
        const size_t ring_ends[] = {4, 8, 12}, polygon_ends[] = {1, 2, 3};
        for (int place = 0; place < 3; place++) {
            const int32_t x = random_below(12), y = random_below(12), side = 1 + random_below(6);
            const struct itree_point corners[] = {{x, y}, {x + side, y}, {x + side, y + side}, {x, y + side}};
            for (int corner = 0; corner < 4; corner++) points[4 * place + corner] = corners[corner];
            boxes[place] = (struct itree_window){x, y, x + side, y + side};
        }
        int apart = 1;
        for (int one = 0; one < 3; one++) {
            for (int other = 0; other < one; other++) {
                const int32_t wide = (boxes[one].right < boxes[other].right ? boxes[one].right : boxes[other].right) -
                                     (boxes[one].left > boxes[other].left ? boxes[one].left : boxes[other].left);
                const int32_t high = (boxes[one].high < boxes[other].high ? boxes[one].high : boxes[other].high) -
                                     (boxes[one].low > boxes[other].low ? boxes[one].low : boxes[other].low);
                /* They may have a corner in common. */
                apart = apart && (wide < 0 || high < 0 || (wide == 0 && high == 0));
            }
        }
        const struct itree_shapes polygons = {points, 12, ring_ends, 3, polygon_ends, 3};
        struct itree_fault_place fault = before;
        ok = ok && itree_polygons_fault(&polygons, &fault) == ITREE_ANSWERED && (fault.kind == ITREE_VALID) == apart;
        valid += apart;
    }
    check("squares are valid together where they are apart", ok);
    check("some are and some aren't", valid > 1000 && valid < 19000);
}

int main(void) {
    checks_rows();
    checks_turned();
    checks_lengths();
    checks_pointers();
    checks_refused();
    checks_squares();
    return told();
}
