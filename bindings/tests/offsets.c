/* Polygons that grow and shrink, and lines that grow, from C beside a plain model, at faults, and with each request for memory refused in turn. */
#include <itree.h>
#include <stdio.h>
#include <string.h>

#include "counted.h"
#include "plain_overlay.h"
#include "refuse.h"

enum { MOST = 5, SIDE = 9, FAR = 3 };

static const struct itree_point square[] = {{-1, -1}, {1, -1}, {1, 1}, {-1, 1}};
static const struct itree_point field[] = {{0, 0}, {9, 0}, {9, 9}, {0, 9}};
static const size_t one_ring[] = {4};

/* A call by which polygons grow or shrink, or lines grow; whether they shrink, and whether it takes a rule. */
struct door {
    int32_t (*call)(const struct itree_point *, size_t, const size_t *, size_t, const struct itree_point *, size_t,
                    int32_t, struct itree_polygons **);
    int shrinks, has_rule;
};

static int32_t grow_lines(const struct itree_point *points, size_t point_count, const size_t *ends, size_t count,
                          const struct itree_point *shape, size_t corners, int32_t rule,
                          struct itree_polygons **polygons) {
    (void)rule;
    return itree_grow_lines(points, point_count, ends, count, shape, corners, polygons);
}

static int32_t grow_round(const struct itree_point *points, size_t point_count, const size_t *ends, size_t count,
                          const struct itree_point *shape, size_t corners, int32_t rule,
                          struct itree_polygons **polygons) {
    return itree_minkowski_joined(points, point_count, ends, count, shape, corners, rule, ITREE_JOIN_ROUND, 0,
                                  polygons);
}

static int32_t grow_bevelled(const struct itree_point *points, size_t point_count, const size_t *ends, size_t count,
                             const struct itree_point *shape, size_t corners, int32_t rule,
                             struct itree_polygons **polygons) {
    return itree_minkowski_joined(points, point_count, ends, count, shape, corners, rule, ITREE_JOIN_BEVEL, 0,
                                  polygons);
}

static int32_t grow_mitred(const struct itree_point *points, size_t point_count, const size_t *ends, size_t count,
                           const struct itree_point *shape, size_t corners, int32_t rule,
                           struct itree_polygons **polygons) {
    return itree_minkowski_joined(points, point_count, ends, count, shape, corners, rule, ITREE_JOIN_MITRE, 500,
                                  polygons);
}

static const struct door grows = {itree_minkowski, 0, 1}, shrinks = {itree_erode, 1, 1}, widens = {grow_lines, 0, 0},
                         rounds = {grow_round, 0, 1}, bevels = {grow_bevelled, 0, 1}, mitres = {grow_mitred, 0, 1};

static int32_t by(const struct door *door, const struct itree_point *points, const size_t *ends, size_t rings,
                  const struct itree_point *shape, size_t corners, struct itree_polygons **polygons) {
    return door->call(points, rings ? ends[rings - 1] : 0, ends, rings, shape, corners, ITREE_NON_ZERO, polygons);
}

static int32_t grow(const struct itree_point *points, const size_t *ends, size_t rings, const struct itree_point *shape,
                    size_t corners, struct itree_polygons **polygons) {
    return by(&grows, points, ends, rings, shape, corners, polygons);
}

/* Whether the polygons are one with so many rings, the first of which has the wanted points from whichever on. */
static int is_one(const struct itree_polygons *polygons, size_t rings, const struct itree_point *wanted, size_t count) {
    const struct itree_point *points;
    const size_t *offsets, *stops;
    itree_polygons_points(polygons, &points);
    return itree_polygons_polygon_offsets(polygons, &stops) == 2 && stops[1] == rings &&
           itree_polygons_ring_offsets(polygons, &offsets) == rings + 1 && is_ring(points, offsets[1], wanted, count);
}

/* Rings, a shape, and the outer ring of the one polygon that they add up to, with how many rings it has. */
struct row {
    const char *what;
    struct itree_point points[12];
    size_t ends[2], rings;
    struct itree_point shape[8];
    size_t corners;
    struct itree_point wanted[12];
    size_t wanted_count, wanted_rings;
};

static const struct row rows[] = {
    {"a square by a square",
     {{0, 0}, {9, 0}, {9, 9}, {0, 9}},
     {4},
     1,
     {{-1, -1}, {1, -1}, {1, 1}, {-1, 1}},
     4,
     {{-1, -1}, {10, -1}, {10, 10}, {-1, 10}},
     4,
     1},
    {"a square by a rhomb",
     {{0, 0}, {9, 0}, {9, 9}, {0, 9}},
     {4},
     1,
     {{2, 0}, {0, 2}, {-2, 0}, {0, -2}},
     4,
     {{0, -2}, {9, -2}, {11, 0}, {11, 9}, {9, 11}, {0, 11}, {-2, 9}, {-2, 0}},
     8,
     1},
    {"a shape that lies aside",
     {{0, 0}, {9, 0}, {9, 9}, {0, 9}},
     {4},
     1,
     {{-1, -1}, {5, -1}, {-1, 5}},
     3,
     {{-1, -1}, {14, -1}, {14, 8}, {8, 14}, {-1, 14}},
     5,
     1},
    {"a hole of two units closes",
     {{0, 0}, {9, 0}, {9, 9}, {0, 9}, {3, 3}, {3, 5}, {5, 5}, {5, 3}},
     {4, 8},
     2,
     {{-1, -1}, {1, -1}, {1, 1}, {-1, 1}},
     4,
     {{-1, -1}, {10, -1}, {10, 10}, {-1, 10}},
     4,
     1},
    {"and one of three is left",
     {{0, 0}, {9, 0}, {9, 9}, {0, 9}, {3, 3}, {3, 6}, {6, 6}, {6, 3}},
     {4, 8},
     2,
     {{-1, -1}, {1, -1}, {1, 1}, {-1, 1}},
     4,
     {{-1, -1}, {10, -1}, {10, 10}, {-1, 10}},
     4,
     2},
    {"two parts become one",
     {{0, 0}, {2, 0}, {2, 9}, {0, 9}, {4, 0}, {6, 0}, {6, 9}, {4, 9}},
     {4, 8},
     2,
     {{-1, -1}, {1, -1}, {1, 1}, {-1, 1}},
     4,
     {{-1, -1}, {7, -1}, {7, 10}, {-1, 10}},
     4,
     1},
    {"a corner that turns right",
     {{0, 0}, {9, 0}, {9, 4}, {4, 4}, {4, 9}, {0, 9}},
     {6},
     1,
     {{-1, -1}, {1, -1}, {1, 1}, {-1, 1}},
     4,
     {{-1, -1}, {10, -1}, {10, 5}, {5, 5}, {5, 10}, {-1, 10}},
     6,
     1},
};

/* The same of lines. */
static const struct row rows_of_lines[] = {
    {"a line along an axis",
     {{0, 0}, {9, 0}},
     {2},
     1,
     {{-1, -1}, {1, -1}, {1, 1}, {-1, 1}},
     4,
     {{-1, -1}, {10, -1}, {10, 1}, {-1, 1}},
     4,
     1},
    {"a slanted line",
     {{9, 9}, {0, 0}},
     {2},
     1,
     {{-1, -1}, {1, -1}, {1, 1}, {-1, 1}},
     4,
     {{-1, -1}, {1, -1}, {10, 8}, {10, 10}, {8, 10}, {-1, 1}},
     6,
     1},
    {"by a rhomb",
     {{0, 0}, {9, 0}},
     {2},
     1,
     {{2, 0}, {0, 2}, {-2, 0}, {0, -2}},
     4,
     {{-2, 0}, {0, -2}, {9, -2}, {11, 0}, {9, 2}, {0, 2}},
     6,
     1},
    {"by a shape that lies aside",
     {{0, 0}, {9, 0}},
     {2},
     1,
     {{-1, -1}, {5, -1}, {-1, 5}},
     3,
     {{-1, -1}, {14, -1}, {8, 5}, {-1, 5}},
     4,
     1},
    {"a line of one point, and one of none",
     {{5, 5}},
     {1, 1},
     2,
     {{-1, -1}, {1, -1}, {1, 1}, {-1, 1}},
     4,
     {{4, 4}, {6, 4}, {6, 6}, {4, 6}},
     4,
     1},
    {"a line of the same point twice",
     {{5, 5}, {5, 5}},
     {2},
     1,
     {{-1, -1}, {1, -1}, {1, 1}, {-1, 1}},
     4,
     {{4, 4}, {6, 4}, {6, 6}, {4, 6}},
     4,
     1},
    {"a bend, and back again",
     {{0, 0}, {9, 0}, {9, 9}, {9, 0}},
     {4},
     1,
     {{-1, -1}, {1, -1}, {1, 1}, {-1, 1}},
     4,
     {{-1, -1}, {10, -1}, {10, 10}, {8, 10}, {8, 1}, {-1, 1}},
     6,
     1},
    {"a line that goes round",
     {{0, 0}, {9, 0}, {9, 9}, {0, 9}, {0, 0}},
     {5},
     1,
     {{-1, -1}, {1, -1}, {1, 1}, {-1, 1}},
     4,
     {{-1, -1}, {10, -1}, {10, 10}, {-1, 10}},
     4,
     2},
    {"and one that stops before",
     {{0, 0}, {9, 0}, {9, 9}, {0, 9}},
     {4},
     1,
     {{-1, -1}, {1, -1}, {1, 1}, {-1, 1}},
     4,
     {{-1, -1}, {10, -1}, {10, 10}, {-1, 10}, {-1, 8}, {8, 8}, {8, 1}, {-1, 1}},
     8,
     1},
    {"two lines become one",
     {{0, 0}, {9, 0}, {0, 2}, {9, 2}},
     {2, 4},
     2,
     {{-1, -1}, {1, -1}, {1, 1}, {-1, 1}},
     4,
     {{-1, -1}, {10, -1}, {10, 3}, {-1, 3}},
     4,
     1},
};

/* With mitres up to 5 times the shape. */
static const struct row rows_mitred[] = {
    {"a square by a rhomb, mitred",
     {{0, 0}, {9, 0}, {9, 9}, {0, 9}},
     {4},
     1,
     {{2, 0}, {0, 2}, {-2, 0}, {0, -2}},
     4,
     {{-2, -2}, {11, -2}, {11, 11}, {-2, 11}},
     4,
     1},
    {"a corner that turns right needs no mitre",
     {{0, 0}, {20, 0}, {20, 8}, {8, 8}, {8, 20}, {0, 20}},
     {6},
     1,
     {{2, 0}, {0, 2}, {-2, 0}, {0, -2}},
     4,
     {{-2, -2}, {22, -2}, {22, 10}, {10, 10}, {10, 22}, {-2, 22}},
     6,
     1},
};

/* With bevels: one corner in place of two sides of an octagon. */
static const struct row rows_bevelled[] = {
    {"a square by an octagon, bevelled",
     {{0, 0}, {9, 0}, {9, 9}, {0, 9}},
     {4},
     1,
     {{3, 0}, {2, 2}, {0, 3}, {-2, 2}, {-3, 0}, {-2, -2}, {0, -3}, {2, -2}},
     8,
     {{0, -3}, {9, -3}, {12, 0}, {12, 9}, {9, 12}, {0, 12}, {-3, 9}, {-3, 0}},
     8,
     1},
};

static void checks_these(const struct door *door, const struct row *these, size_t count) {
    for (size_t place = 0; place < count; place++) {
        const struct row *const row = &these[place];
        struct itree_polygons *polygons = NULL;
        const int ok =
            by(door, row->points, row->ends, row->rings, row->shape, row->corners, &polygons) == ITREE_ANSWERED;
        check(row->what, ok && is_one(polygons, row->wanted_rings, row->wanted, row->wanted_count));
        itree_polygons_free(polygons);
    }
}

static void checks_rows(void) {
    checks_these(&grows, rows, sizeof rows / sizeof *rows);
    checks_these(&widens, rows_of_lines, sizeof rows_of_lines / sizeof *rows_of_lines);
    checks_these(&rounds, rows, sizeof rows / sizeof *rows);
    checks_these(&mitres, rows_mitred, sizeof rows_mitred / sizeof *rows_mitred);
    checks_these(&bevels, rows_bevelled, sizeof rows_bevelled / sizeof *rows_bevelled);
}

/* Rings, a shape, and all the rings that are left of them, in so many polygons. */
struct row_left {
    const char *what;
    struct itree_point points[12];
    size_t ends[2], rings;
    struct itree_point shape[8];
    size_t corners;
    struct itree_point wanted[12];
    size_t wanted_ends[2], wanted_rings, wanted_polygons;
};

static const struct row_left rows_left[] = {
    {"a square less a square",
     {{0, 0}, {9, 0}, {9, 9}, {0, 9}},
     {4},
     1,
     {{-1, -1}, {1, -1}, {1, 1}, {-1, 1}},
     4,
     {{1, 1}, {8, 1}, {8, 8}, {1, 8}},
     {4},
     1,
     1},
    {"a square less a rhomb",
     {{0, 0}, {9, 0}, {9, 9}, {0, 9}},
     {4},
     1,
     {{2, 0}, {0, 2}, {-2, 0}, {0, -2}},
     4,
     {{2, 2}, {7, 2}, {7, 7}, {2, 7}},
     {4},
     1,
     1},
    {"less a shape that lies aside",
     {{0, 0}, {9, 0}, {9, 9}, {0, 9}},
     {4},
     1,
     {{-1, -1}, {5, -1}, {-1, 5}},
     3,
     {{1, 1}, {4, 1}, {4, 4}, {1, 4}},
     {4},
     1,
     1},
    {"nothing is left of what is narrower",
     {{0, 0}, {9, 0}, {9, 9}, {0, 9}},
     {4},
     1,
     {{-5, -5}, {5, -5}, {5, 5}, {-5, 5}},
     4,
     {{0, 0}},
     {0},
     0,
     0},
    {"nor of what is as wide",
     {{0, 0}, {9, 0}, {9, 2}, {0, 2}},
     {4},
     1,
     {{-1, -1}, {1, -1}, {1, 1}, {-1, 1}},
     4,
     {{0, 0}},
     {0},
     0,
     0},
    {"a corridor of two opens, and two rooms are left",
     {{0, 0}, {9, 0}, {9, 4}, {20, 4}, {20, 0}, {29, 0}, {29, 9}, {20, 9}, {20, 6}, {9, 6}, {9, 9}, {0, 9}},
     {12},
     1,
     {{-1, -1}, {1, -1}, {1, 1}, {-1, 1}},
     4,
     {{1, 1}, {8, 1}, {8, 8}, {1, 8}, {21, 1}, {28, 1}, {28, 8}, {21, 8}},
     {4, 8},
     2,
     2},
    {"and one of three is left",
     {{0, 0}, {9, 0}, {9, 4}, {20, 4}, {20, 0}, {29, 0}, {29, 9}, {20, 9}, {20, 7}, {9, 7}, {9, 9}, {0, 9}},
     {12},
     1,
     {{-1, -1}, {1, -1}, {1, 1}, {-1, 1}},
     4,
     {{1, 1}, {8, 1}, {8, 5}, {21, 5}, {21, 1}, {28, 1}, {28, 8}, {21, 8}, {21, 6}, {8, 6}, {8, 8}, {1, 8}},
     {12},
     1,
     1},
    {"a hole becomes larger",
     {{0, 0}, {9, 0}, {9, 9}, {0, 9}, {4, 4}, {4, 5}, {5, 5}, {5, 4}},
     {4, 8},
     2,
     {{-1, -1}, {1, -1}, {1, 1}, {-1, 1}},
     4,
     {{1, 1}, {8, 1}, {8, 8}, {1, 8}, {3, 3}, {3, 6}, {6, 6}, {6, 3}},
     {4, 8},
     2,
     1},
    {"and reaches both sides",
     {{0, 0}, {9, 0}, {9, 9}, {0, 9}, {1, 4}, {1, 5}, {8, 5}, {8, 4}},
     {4, 8},
     2,
     {{-1, -1}, {1, -1}, {1, 1}, {-1, 1}},
     4,
     {{1, 1}, {8, 1}, {8, 3}, {1, 3}, {1, 6}, {8, 6}, {8, 8}, {1, 8}},
     {4, 8},
     2,
     2},
    {"a corner that turns right, less a rhomb",
     {{0, 0}, {20, 0}, {20, 8}, {8, 8}, {8, 20}, {0, 20}},
     {6},
     1,
     {{2, 0}, {0, 2}, {-2, 0}, {0, -2}},
     4,
     {{2, 2}, {18, 2}, {18, 6}, {8, 6}, {6, 8}, {6, 18}, {2, 18}},
     {7},
     1,
     1},
};

/* Whether one of the rings has these points, from whichever on. */
static int has_ring(const struct itree_polygons *polygons, const struct itree_point *wanted, size_t count) {
    const struct itree_point *points;
    const size_t *offsets;
    itree_polygons_points(polygons, &points);
    const size_t rings = itree_polygons_ring_offsets(polygons, &offsets) - 1;
    for (size_t ring = 0; ring < rings; ring++) {
        if (is_ring(points + offsets[ring], offsets[ring + 1] - offsets[ring], wanted, count)) return 1;
    }
    return 0;
}

static void checks_rows_left(void) {
    for (size_t place = 0; place < sizeof rows_left / sizeof *rows_left; place++) {
        const struct row_left *const row = &rows_left[place];
        struct itree_polygons *polygons = NULL;
        int ok =
            by(&shrinks, row->points, row->ends, row->rings, row->shape, row->corners, &polygons) == ITREE_ANSWERED;
        ok = ok && itree_polygons_polygon_offsets(polygons, NULL) == row->wanted_polygons + 1;
        ok = ok && itree_polygons_ring_offsets(polygons, NULL) == row->wanted_rings + 1;
        for (size_t ring = 0; ring < row->wanted_rings; ring++) {
            const size_t from = ring ? row->wanted_ends[ring - 1] : 0;
            ok = ok && has_ring(polygons, row->wanted + from, row->wanted_ends[ring] - from);
        }
        check(row->what, ok);
        itree_polygons_free(polygons);
    }
}

/* Whether the unit square at a point is of what rings become that grow, or shrink, by a rectangle: where its opposite there covers
 * one that is inside, or where it covers none there that is outside. */
static int is_covered(const struct door *door, const struct itree_point *points, const size_t *ends, size_t rings,
                      int32_t rule, const struct itree_point *shape, int32_t x, int32_t y) {
    const struct itree_point low = shape[0], high = shape[2];
    const int32_t x0 = door->shrinks ? x + low.x : x - high.x, x1 = door->shrinks ? x + high.x : x - low.x;
    const int32_t y0 = door->shrinks ? y + low.y : y - high.y, y1 = door->shrinks ? y + high.y : y - low.y;
    for (int32_t i = x0; i <= x1; i++) {
        for (int32_t j = y0; j <= y1; j++) {
            const int is_inside = plain_is_inside(rule, plain_winding(points, ends, rings, i, j));
            if (is_inside != door->shrinks) return !door->shrinks;
        }
    }
    return door->shrinks;
}

/* Whether rectangles by chance, grown or shrunk by one around the origin, cover the unit squares that they are to. */
static int is_right(const struct door *door, int32_t rule) {
    struct itree_point points[4 * MOST];
    size_t ends[MOST], count = (size_t)random_below(MOST + 1);
    const int32_t left = 1 + random_below(FAR), low = 1 + random_below(FAR), right = 1 + random_below(FAR),
                  high = 1 + random_below(FAR);
    const struct itree_point shape[] = {{-left, -low}, {right, -low}, {right, high}, {-left, high}};
    for (size_t ring = 0; ring < count; ring++) {
        const int32_t x0 = random_below(SIDE), y0 = random_below(SIDE), x1 = random_below(SIDE),
                      y1 = random_below(SIDE);
        const struct itree_point corners[] = {{x0, y0}, {x1, y0}, {x1, y1}, {x0, y1}};
        memcpy(points + 4 * ring, corners, sizeof corners);
        ends[ring] = 4 * ring + 4;
    }
    struct itree_polygons *polygons = NULL;
    if (door->call(points, 4 * count, ends, count, shape, 4, rule, &polygons) != ITREE_ANSWERED) return 0;
    const struct itree_point *made;
    const size_t *offsets;
    itree_polygons_points(polygons, &made);
    const size_t rings = itree_polygons_ring_offsets(polygons, &offsets) - 1;
    int ok = 1;
    for (int32_t x = -FAR - 1; x < SIDE + FAR; x++) {
        for (int32_t y = -FAR - 1; y < SIDE + FAR; y++) {
            const int wanted = is_covered(door, points, ends, count, rule, shape, x, y);
            ok = ok && plain_winding(made, offsets + 1, rings, x, y) == wanted;
        }
    }
    itree_polygons_free(polygons);
    return ok;
}

/* Whether the unit square at a point is of what an edge along an axis becomes, by a rectangle. */
static int is_along(struct itree_point start, struct itree_point stop, const struct itree_point *shape, int32_t x,
                    int32_t y) {
    const int32_t left = start.x < stop.x ? start.x : stop.x, right = start.x < stop.x ? stop.x : start.x;
    const int32_t below = start.y < stop.y ? start.y : stop.y, above = start.y < stop.y ? stop.y : start.y;
    return left + shape[0].x <= x && x < right + shape[2].x && below + shape[0].y <= y && y < above + shape[2].y;
}

/* Whether lines by chance, along axes, cover the unit squares that they are to where they grow by a rectangle. */
static int is_right_of_lines(void) {
    struct itree_point points[4 * MOST];
    size_t ends[MOST], count = (size_t)random_below(MOST + 1), total = 0;
    const int32_t left = 1 + random_below(FAR), low = 1 + random_below(FAR), right = 1 + random_below(FAR),
                  high = 1 + random_below(FAR);
    const struct itree_point shape[] = {{-left, -low}, {right, -low}, {right, high}, {-left, high}};
    for (size_t line = 0; line < count; line++) {
        struct itree_point at = {random_below(SIDE), random_below(SIDE)};
        for (int32_t rest = random_below(5); rest > 0; rest--) {
            points[total++] = at;
            *(rest % 2 ? &at.x : &at.y) = random_below(SIDE);
        }
        ends[line] = total;
    }
    struct itree_polygons *polygons = NULL;
    if (itree_grow_lines(points, total, ends, count, shape, 4, &polygons) != ITREE_ANSWERED) return 0;
    const struct itree_point *made;
    const size_t *offsets;
    itree_polygons_points(polygons, &made);
    const size_t rings = itree_polygons_ring_offsets(polygons, &offsets) - 1;
    int ok = 1;
    for (int32_t x = -FAR - 1; x < SIDE + FAR; x++) {
        for (int32_t y = -FAR - 1; y < SIDE + FAR; y++) {
            int wanted = 0;
            for (size_t line = 0, place = 0; line < count; line++) {
                const size_t start = place;
                for (; place < ends[line]; place++) {
                    const struct itree_point before = points[place == start ? place : place - 1];
                    wanted = wanted || is_along(before, points[place], shape, x, y);
                }
            }
            ok = ok && plain_winding(made, offsets + 1, rings, x, y) == wanted;
        }
    }
    itree_polygons_free(polygons);
    return ok;
}

static void checks_by_chance(void) {
    int ok = 1;
    for (int32_t round = 0; round < 2000; round++) ok = ok && is_right(&grows, round % 4);
    check("rectangles by rectangles, as the plain model", ok);
    for (int32_t round = 0; round < 2000; round++) ok = ok && is_right(&shrinks, round % 4);
    check("rectangles less rectangles, as the plain model", ok);
    for (int32_t round = 0; round < 1000; round++)
        ok = ok && is_right(&mitres, round % 4) && is_right(&rounds, round % 4);
    check("rectangles by rectangles, mitred and round, as the plain model", ok);
    for (int32_t round = 0; round < 2000; round++) ok = ok && is_right_of_lines();
    check("lines by rectangles, as the plain model", ok);
}

static void checks_faulty_pointers(const struct door *door) {
    uint64_t words[8] = {0};
    char *const odd = (char *)words + 1;
    struct itree_polygons *polygons = (void *)words;
    check("no points", door->call(NULL, 4, one_ring, 1, square, 4, 1, &polygons) == ITREE_POINTER);
    check("no ends", door->call(field, 4, NULL, 1, square, 4, 1, &polygons) == ITREE_POINTER);
    check("no shape", door->call(field, 4, one_ring, 1, NULL, 4, 1, &polygons) == ITREE_POINTER);
    check("points at an odd address",
          door->call((void *)odd, 1, one_ring, 1, square, 4, 1, &polygons) == ITREE_POINTER);
    check("a shape at an odd address",
          door->call(field, 4, one_ring, 1, (void *)odd, 4, 1, &polygons) == ITREE_POINTER);
    check("a shape of more than there is",
          door->call(field, 4, one_ring, 1, square, SIZE_MAX, 1, &polygons) == ITREE_POINTER);
    check("the handle stays as it was there", polygons == (void *)words);
    check("no handle of what is made", door->call(field, 4, one_ring, 1, square, 4, 1, NULL) == ITREE_POINTER);
    check("null for no rings", door->call(NULL, 0, NULL, 0, square, 4, 1, &polygons) == ITREE_ANSWERED &&
                                   itree_polygons_points(polygons, NULL) == 0);
    itree_polygons_free(polygons);
}

/* Whether this ends so, and there is no handle. */
static int ends_so(const struct door *door, const struct itree_point *points, const size_t *ends,
                   const struct itree_point *shape, size_t corners, int32_t rule, int32_t wanted) {
    struct itree_polygons *polygons = (void *)&polygons;
    return door->call(points, 4, ends, 1, shape, corners, rule, &polygons) == wanted && polygons == NULL;
}

/* Shapes that are none. */
static const struct {
    const char *what;
    struct itree_point corners[10];
    size_t count;
} faulty_shapes[] = {
    {"no corners", {{0, 0}}, 0},
    {"one corner", {{1, 1}}, 1},
    {"two corners", {{-1, 0}, {1, 0}}, 2},
    {"corners that run clockwise", {{-1, -1}, {-1, 1}, {1, 1}, {1, -1}}, 4},
    {"a corner that turns right", {{-2, -2}, {2, -2}, {1, 0}, {2, 2}, {-2, 2}}, 5},
    {"a corner on a straight line", {{-2, -2}, {0, -2}, {2, -2}, {2, 2}, {-2, 2}}, 5},
    {"the origin on a side", {{-1, 0}, {1, 0}, {0, 1}}, 3},
    {"the origin outside", {{1, 1}, {2, 1}, {2, 2}, {1, 2}}, 4},
    {"a shape that goes round twice", {{-1, -1}, {1, -1}, {1, 1}, {-1, 1}, {-1, -1}, {1, -1}, {1, 1}, {-1, 1}}, 8},
    {"a star", {{0, 9}, {-5, -7}, {9, 3}, {-9, 3}, {5, -7}}, 5},
};

static void checks_faults(const struct door *door) {
    const size_t behind[] = {5};
    for (size_t place = 0; place < sizeof faulty_shapes / sizeof *faulty_shapes; place++) {
        const struct itree_point *const corners = faulty_shapes[place].corners;
        const size_t count = faulty_shapes[place].count;
        check(faulty_shapes[place].what, ends_so(door, field, one_ring, corners, count, ITREE_NON_ZERO, ITREE_SHAPE));
        check("a ring behind the points comes first", ends_so(door, field, behind, corners, count, 1, ITREE_LENGTHS));
        check("and before that a rule that is none",
              !door->has_rule || (ends_so(door, field, behind, corners, count, 4, ITREE_CHOICE) &&
                                  ends_so(door, field, behind, corners, count, -1, ITREE_CHOICE)));
    }
}

static void checks_range(void) {
    const struct itree_point far[] = {{0, 0}, {INT32_MAX, 0}, {INT32_MAX, 9}, {0, 9}},
                             low[] = {{0, INT32_MIN}, {9, INT32_MIN}, {9, 9}, {0, 9}};
    check("what leaves 32 bits to the right", ends_so(&grows, far, one_ring, square, 4, 1, ITREE_RANGE));
    check("and what leaves them below", ends_so(&grows, low, one_ring, square, 4, 1, ITREE_RANGE));
    check("a line that does", ends_so(&widens, far, one_ring, square, 4, 1, ITREE_RANGE) &&
                                  ends_so(&widens, low, one_ring, square, 4, 1, ITREE_RANGE));
    struct itree_polygons *polygons = NULL;
    const struct itree_point nearly[] = {{0, 0}, {INT32_MAX - 1, 0}, {INT32_MAX - 1, 9}, {0, 9}};
    const struct itree_point wanted[] = {{-1, -1}, {INT32_MAX, -1}, {INT32_MAX, 10}, {-1, 10}};
    check("what comes up to them", grow(nearly, one_ring, 1, square, 4, &polygons) == ITREE_ANSWERED);
    check("is there", is_one(polygons, 1, wanted, 4));
    itree_polygons_free(polygons);
}

/* Which corners a limit leaves round, in hundredths of the shape; numbers that are no join's; and tips that leave 32 bits. */
static void checks_joins(void) {
    const struct itree_point rhomb[] = {{2, 0}, {0, 2}, {-2, 0}, {0, -2}};
    const struct itree_point far[] = {{0, 0}, {INT32_MAX - 2, 0}, {INT32_MAX - 2, 9}, {0, 9}};
    const struct {
        uint32_t limit;
        size_t points;
    } limits[] = {{0, 8}, {100, 8}, {199, 8}, {200, 4}, {500, 4}, {UINT32_MAX, 4}};
    struct itree_polygons *polygons = NULL;
    for (size_t place = 0; place < sizeof limits / sizeof *limits; place++) {
        check("a limit", itree_minkowski_joined(field, 4, one_ring, 1, rhomb, 4, ITREE_NON_ZERO, ITREE_JOIN_MITRE,
                                                limits[place].limit, &polygons) == ITREE_ANSWERED &&
                             itree_polygons_points(polygons, NULL) == limits[place].points);
        itree_polygons_free(polygons);
    }
    const int32_t none[] = {-1, 3, INT32_MIN, INT32_MAX};
    for (size_t place = 0; place < sizeof none / sizeof *none; place++) {
        polygons = (void *)&polygons;
        check("a join that is none", itree_minkowski_joined(field, 4, one_ring, 1, NULL, 0, ITREE_NON_ZERO, none[place],
                                                            500, &polygons) == ITREE_CHOICE &&
                                         polygons == NULL);
    }
    check("a mitre up to the end of 32 bits",
          itree_minkowski_joined(far, 4, one_ring, 1, rhomb, 4, ITREE_NON_ZERO, ITREE_JOIN_MITRE, 500, &polygons) ==
                  ITREE_ANSWERED &&
              itree_polygons_points(polygons, NULL) == 4);
    itree_polygons_free(polygons);
    const struct itree_point spike[] = {{INT32_MAX - 1003, 0}, {INT32_MAX - 3, 100}, {INT32_MAX - 1003, 200}};
    const size_t three[] = {3};
    polygons = (void *)&polygons;
    check("the tip of one that leaves them",
          itree_minkowski_joined(spike, 3, three, 1, rhomb, 4, ITREE_NON_ZERO, ITREE_JOIN_MITRE, UINT32_MAX,
                                 &polygons) == ITREE_RANGE &&
              polygons == NULL);
    check("and is round within a limit", itree_minkowski_joined(spike, 3, three, 1, rhomb, 4, ITREE_NON_ZERO,
                                                                ITREE_JOIN_MITRE, 500, &polygons) == ITREE_ANSWERED);
    itree_polygons_free(polygons);
}

static void checks_range_left(void) {
    const int32_t least = INT32_MIN, most = INT32_MAX;
    const struct itree_point all[] = {{least, least}, {most, least}, {most, most}, {least, most}};
    const struct itree_point thin[] = {{most - 1, 0}, {most, 0}, {most, 9}, {most - 1, 9}};
    const struct itree_point low[] = {{least + 1, 0}, {least + 9, 0}, {least + 9, 9}, {least + 1, 9}};
    const struct itree_point one[] = {{1, 0}, {0, 1}, {-1, 0}, {0, -1}}, two[] = {{2, 0}, {0, 2}, {-2, 0}, {0, -2}};
    const struct itree_point without[] = {{least, -1}, {1, -1}, {1, 1}, {least, 1}};
    const struct itree_point with[] = {{least + 1, -1}, {1, -1}, {1, 1}, {least + 1, 1}};
    const struct itree_point wanted[] = {{least + 1, least + 1},
                                         {most - 1, least + 1},
                                         {most - 1, most - 1},
                                         {least + 1, most - 1}};
    struct itree_polygons *polygons = NULL;
    check("a side that moves out of 32 bits", ends_so(&shrinks, thin, one_ring, two, 4, 1, ITREE_RANGE));
    check("one that moves up to their end", by(&shrinks, thin, one_ring, 1, one, 4, &polygons) == ITREE_ANSWERED &&
                                                itree_polygons_points(polygons, NULL) == 0);
    itree_polygons_free(polygons);
    check("a shape with a corner that has no opposite", ends_so(&shrinks, low, one_ring, without, 4, 1, ITREE_RANGE));
    check("one whose corners have", by(&shrinks, low, one_ring, 1, with, 4, &polygons) == ITREE_ANSWERED &&
                                        itree_polygons_points(polygons, NULL) == 0);
    itree_polygons_free(polygons);
    check("all of 32 bits", by(&shrinks, all, one_ring, 1, one, 4, &polygons) == ITREE_ANSWERED);
    check("shrinks by one", is_one(polygons, 1, wanted, 4));
    itree_polygons_free(polygons);
}

/* Whether the corners are those of a convex polygon that goes round the origin, none of which lies outside of the circle, and no
 * side of which is nearer than inner, while one is nearer than one more. */
static int is_circle(const struct itree_point *corners, size_t count, int64_t radius, int64_t inner) {
    int near = inner == radius;
    for (size_t place = 0; place < count; place++) {
        const struct itree_point from = corners[place], to = corners[(place + 1) % count],
                                 then = corners[(place + 2) % count];
        const int64_t across = (int64_t)to.x - from.x, up = (int64_t)to.y - from.y;
        const int64_t swept = (int64_t)from.x * to.y - (int64_t)to.x * from.y, length = across * across + up * up;
        if ((int64_t)from.x * from.x + (int64_t)from.y * from.y > radius * radius) return 0;
        if (swept <= 0 || across * (then.y - to.y) - up * (then.x - to.x) <= 0) return 0;
        if (swept * swept < inner * inner * length) return 0;
        near = near || swept * swept < (inner + 1) * (inner + 1) * length;
    }
    return near;
}

static void checks_circles(void) {
    enum { ROOM = 64 };
    struct itree_point corners[ROOM];
    const int32_t radii[] = {1, 2, 5, 6, 7, 30, 100, 1000, 9999};
    const size_t mosts[] = {4, 7, 8, 16, 31, ROOM};
    int ok = 1;
    for (size_t which = 0; which < 9; which++) {
        for (size_t fewer = 0; fewer < 6; fewer++) {
            size_t count = 0, again = 0;
            int32_t inner = -1, its = -1;
            ok = ok && itree_circle(radii[which], mosts[fewer], NULL, 0, &count, &inner) == ITREE_ANSWERED;
            ok = ok && 4 <= count && count <= mosts[fewer];
            ok = ok && itree_circle(radii[which], mosts[fewer], corners, count, &again, &its) == ITREE_ANSWERED;
            ok = ok && again == count && its == inner && is_circle(corners, count, radii[which], inner);
        }
    }
    check("circles lie between two circles", ok);
    const struct itree_point diamond[] = {{5, 0}, {0, 5}, {-5, 0}, {0, -5}}, before = {7, 7};
    size_t count = 9;
    int32_t inner = 9;
    check("a small one is a diamond", itree_circle(5, 64, corners, 4, NULL, &inner) == ITREE_ANSWERED && inner == 3 &&
                                          is_ring(corners, 4, diamond, 4));
    corners[0] = before;
    inner = 9;
    check("no radius", itree_circle(0, 64, corners, 4, &count, &inner) == ITREE_CHOICE);
    check("one below 0", itree_circle(INT32_MIN, 64, corners, 4, &count, &inner) == ITREE_CHOICE);
    check("too few corners", itree_circle(5, 3, corners, 4, &count, &inner) == ITREE_CHOICE);
    check("no room for a circle", itree_circle(5, 64, NULL, 4, &count, &inner) == ITREE_POINTER);
    refuse_after(0);
    check("no memory for one", itree_circle(5, 64, corners, 4, &count, &inner) == ITREE_REFUSED);
    refuse_after(SIZE_MAX);
    check("nothing is written there", count == 9 && inner == 9 && corners[0].x == before.x && corners[0].y == before.y);
    check("too little room",
          itree_circle(5, 64, corners, 3, &count, &inner) == ITREE_LENGTHS && count == 4 && inner == 3);
    check("too much", itree_circle(5, 64, corners, 5, &count, NULL) == ITREE_LENGTHS && count == 4);
    check("no corner is written there", corners[0].x == before.x && corners[0].y == before.y);
    struct itree_polygons *polygons = NULL;
    check("a circle of 32", itree_circle(100, 32, corners, 32, NULL, NULL) == ITREE_ANSWERED);
    check("is a shape to grow by", grow(field, one_ring, 1, corners, 32, &polygons) == ITREE_ANSWERED &&
                                       itree_polygons_points(polygons, NULL) == 36);
    itree_polygons_free(polygons);
}

static void checks_refused(const struct door *door) {
    enum { BARS = 12 };
    struct itree_point points[8 * BARS];
    size_t ends[2 * BARS], requests = 0;
    struct itree_polygons *polygons = NULL;
    int ok = 1;
    /* Lines go there and back. */
    const int32_t wide = door->has_rule ? 10 : 0;
    for (int32_t bar = 0; bar < BARS; bar++) {
        const int32_t at = 20 * bar;
        const struct itree_point across[] = {{0, at}, {240, at}, {240, at + wide}, {0, at + wide}};
        const struct itree_point up[] = {{at, 0}, {at + wide, 0}, {at + wide, 240}, {at, 240}};
        memcpy(points + 8 * bar, across, sizeof across);
        memcpy(points + 8 * bar + 4, up, sizeof up);
        ends[2 * bar] = (size_t)(8 * bar + 4);
        ends[2 * bar + 1] = (size_t)(8 * bar + 8);
    }
    for (int32_t status = ITREE_REFUSED; status == ITREE_REFUSED; requests++) {
        polygons = (void *)points;
        refuse_after(requests);
        status = by(door, points, ends, 2 * BARS, square, 4, &polygons);
        refuse_after(SIZE_MAX);
        ok = ok && (status == ITREE_ANSWERED || (status == ITREE_REFUSED && polygons == NULL));
    }
    check("each request is refused in turn", requests > 10 && ok);
    check("a lattice keeps its holes", itree_polygons_ring_offsets(polygons, NULL) == 1 + 1 + (BARS - 1) * (BARS - 1));
    itree_polygons_free(polygons);
}

int main(void) {
    checks_rows();
    checks_rows_left();
    checks_by_chance();
    checks_faulty_pointers(&grows);
    checks_faulty_pointers(&shrinks);
    checks_faulty_pointers(&widens);
    checks_faulty_pointers(&mitres);
    checks_faults(&grows);
    checks_faults(&shrinks);
    checks_faults(&widens);
    checks_faults(&mitres);
    checks_faults(&bevels);
    checks_joins();
    checks_range();
    checks_range_left();
    checks_circles();
    checks_refused(&grows);
    checks_refused(&shrinks);
    checks_refused(&widens);
    checks_refused(&mitres);
    checks_refused(&bevels);
    return told();
}
