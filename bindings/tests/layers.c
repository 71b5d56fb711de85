/* Calls over many shapes from C: by answers that were reckoned by hand, beside plain models, at faults, and with each request
 * for memory refused in turn. */
#include <itree.h>
#include <stdio.h>
#include <stdlib.h>
#include <string.h>

#include "counted.h"
#include "plain_overlay.h"
#include "refuse.h"

enum { ROOM = 1000 };

/* Shapes that are put together. */
struct layer {
    struct itree_point points[4 * ROOM];
    size_t ring_ends[ROOM], shape_ends[ROOM];
    struct itree_shapes shapes;
};

static void begin(struct layer *layer) {
    layer->shapes = (struct itree_shapes){layer->points, 0, layer->ring_ends, 0, layer->shape_ends, 0};
}

/* Adds a ring of four corners, which goes clockwise where one of the two comes before the other. */
static void add_ring(struct layer *layer, int32_t x0, int32_t y0, int32_t x1, int32_t y1) {
    struct itree_point *const at = layer->points + layer->shapes.point_count;
    at[0] = (struct itree_point){x0, y0};
    at[1] = (struct itree_point){x1, y0};
    at[2] = (struct itree_point){x1, y1};
    at[3] = (struct itree_point){x0, y1};
    layer->shapes.point_count += 4;
    layer->ring_ends[layer->shapes.ring_count++] = layer->shapes.point_count;
}

/* The rings since the last shape are one. */
static void end_shape(struct layer *layer) {
    layer->shape_ends[layer->shapes.shape_count++] = layer->shapes.ring_count;
}

static void add_square(struct layer *layer, int32_t x, int32_t y, int32_t size) {
    add_ring(layer, x, y, x + size, y + size);
    end_shape(layer);
}

/* Groups whose places and ends are arrays. */
#define GROUPS(places, ends)                                                                                           \
    { places, sizeof(places) / sizeof *(places), ends, sizeof(ends) / sizeof *(ends) }

static struct layer subjects, clips;
/* So many groups of one shape each, the first, the second and so on. */
static size_t firsts[ROOM], ones[ROOM];

static void make_layers(void) {
    for (size_t place = 0; place < ROOM; place++) {
        firsts[place] = place;
        ones[place] = place + 1;
    }
    begin(&subjects);
    add_square(&subjects, 0, 0, 4);
    add_square(&subjects, 10, 0, 4);
    add_square(&subjects, 0, 0, 4);
    begin(&clips);
    add_square(&clips, 2, 2, 4);
    add_square(&clips, 12, 2, 4);
    add_square(&clips, 50, 0, 4);
    add_square(&clips, -1, -1, 2);
}

/* Whether the handle has the wanted polygons of one ring each. */
static int are_rings(const struct itree_polygons *polygons, const struct itree_point *wanted, const size_t *stops,
                     size_t count) {
    const struct itree_point *points;
    const size_t *rings, *ends;
    if (itree_polygons_polygon_offsets(polygons, &ends) != count + 1) return 0;
    if (itree_polygons_ring_offsets(polygons, &rings) != count + 1) return 0;
    itree_polygons_points(polygons, &points);
    for (size_t place = 0; place < count; place++) {
        const size_t start = place == 0 ? 0 : stops[place - 1];
        if (ends[place + 1] != place + 1 ||
            !is_ring(points + rings[place], rings[place + 1] - rings[place], wanted + start, stops[place] - start)) {
            return 0;
        }
    }
    return 1;
}

static void checks_pairs_of_squares(void) {
    const struct itree_groups groups = {firsts, 3, ones, 3};
    const struct itree_point wanted[] = {{2, 2}, {4, 2}, {4, 4}, {2, 4}, {12, 2}, {14, 2}, {14, 4}, {12, 4}};
    const size_t stops[] = {4, 8};
    size_t ends[3] = {9, 9, 9};
    struct itree_polygons *polygons = NULL;
    check("pairs", itree_overlay_each(&subjects.shapes, &groups, &clips.shapes, &groups, ITREE_NON_ZERO,
                                      ITREE_INTERSECTION, ends, 3, &polygons) == ITREE_ANSWERED);
    check("what each two share", are_rings(polygons, wanted, stops, 2));
    check("where each group stops", ends[0] == 1 && ends[1] == 2 && ends[2] == 2);
    itree_polygons_free(polygons);
}

static void checks_groups(void) {
    const size_t first[] = {0}, one[] = {1}, around[] = {3, 0, 3}, all[] = {3};
    const struct itree_groups of_one = GROUPS(first, one), of_three = GROUPS(around, all);
    const struct itree_point wanted[] = {{1, 0}, {4, 0}, {4, 2}, {2, 2}, {2, 4}, {0, 4}, {0, 1}, {1, 1}};
    const size_t stops[] = {8};
    size_t ends[1] = {9};
    struct itree_polygons *polygons = NULL;
    check("a square less several",
          itree_overlay_each(&subjects.shapes, &of_one, &clips.shapes, &of_three, ITREE_NON_ZERO, ITREE_DIFFERENCE,
                             ends, 1, &polygons) == ITREE_ANSWERED);
    check("is one ring", are_rings(polygons, wanted, stops, 1) && ends[0] == 1);
    itree_polygons_free(polygons);
}

static void checks_unions(void) {
    const size_t places[] = {0, 3, 2, 1}, stop[] = {0, 2, 2, 4}, none[] = {0, 0, 0, 0};
    const struct itree_groups groups = GROUPS(places, stop), empty = {NULL, 0, none, 4};
    const struct itree_shapes nothing = {NULL, 0, NULL, 0, NULL, 0};
    const struct itree_point wanted[] = {{2, 2},  {6, 2},  {6, 6},  {2, 6},  {-1, -1}, {1, -1}, {1, 1},  {-1, 1},
                                         {50, 0}, {54, 0}, {54, 4}, {50, 4}, {12, 2},  {16, 2}, {16, 6}, {12, 6}};
    const size_t in_order[] = {4, 8, 12, 16};
    size_t ends[4];
    struct itree_polygons *polygons = NULL;
    check("unions", itree_overlay_each(&clips.shapes, &groups, &nothing, &empty, ITREE_NON_ZERO, ITREE_UNION, ends, 4,
                                       &polygons) == ITREE_ANSWERED);
    check("each has two polygons or none", ends[0] == 0 && ends[1] == 2 && ends[2] == 2 && ends[3] == 4);
    const struct itree_point *points;
    const size_t *rings;
    itree_polygons_points(polygons, &points);
    check("of one ring each", itree_polygons_ring_offsets(polygons, &rings) == 5);
    for (size_t place = 0; place < 4; place++) {
        int ok = 0;
        for (size_t other = place / 2 * 2; other < place / 2 * 2 + 2; other++) {
            ok = ok || is_ring(points + rings[place], rings[place + 1] - rings[place], wanted + in_order[other] - 4, 4);
        }
        check("which is a square of its group", ok);
    }
    itree_polygons_free(polygons);
    check("no groups",
          itree_overlay_each(&nothing, &empty, &nothing, &empty, 0, 0, NULL, 0, &polygons) == ITREE_LENGTHS);
    const struct itree_groups no_groups = {NULL, 0, NULL, 0};
    check("no groups at all",
          itree_overlay_each(&nothing, &no_groups, &nothing, &no_groups, 0, 0, NULL, 0, &polygons) == ITREE_ANSWERED &&
              itree_polygons_polygon_offsets(polygons, NULL) == 1);
    itree_polygons_free(polygons);
}

static void make_random(struct layer *layer, int count) {
    begin(layer);
    for (int place = 0; place < count; place++) {
        for (int ring = random_below(4); ring > 0; ring--) {
            add_ring(layer, random_below(12), random_below(12), random_below(12), random_below(12));
        }
        end_shape(layer);
    }
}

/* The points and the ends of the rings of one shape, as itree_overlay takes them. */
static size_t rings_of(const struct layer *layer, size_t shape, const struct itree_point **points, size_t *count,
                       size_t *ends) {
    const size_t first = shape == 0 ? 0 : layer->shape_ends[shape - 1], last = layer->shape_ends[shape];
    const size_t start = first == 0 ? 0 : layer->ring_ends[first - 1];
    *points = layer->points + start;
    *count = (last == 0 ? 0 : layer->ring_ends[last - 1]) - start;
    for (size_t ring = first; ring < last; ring++) ends[ring - first] = layer->ring_ends[ring] - start;
    return last - first;
}

/* Whether the handle's polygons of one group are those of an overlay of the shapes at this place. */
static int is_overlay(const struct itree_polygons *each, size_t from, size_t to, size_t shape, int32_t rule,
                      int32_t operation) {
    const struct itree_point *points[2], *all, *those;
    size_t counts[2], ends[2][4];
    const size_t *stops, *rings, *alone, *alone_rings;
    const size_t one = rings_of(&subjects, shape, &points[0], &counts[0], ends[0]);
    const size_t other = rings_of(&clips, shape, &points[1], &counts[1], ends[1]);
    struct itree_polygons *polygons = NULL;
    itree_overlay(points[0], counts[0], ends[0], one, points[1], counts[1], ends[1], other, rule, operation, &polygons);
    itree_polygons_points(each, &all);
    itree_polygons_ring_offsets(each, &rings);
    itree_polygons_polygon_offsets(each, &stops);
    const size_t count = itree_polygons_points(polygons, &those);
    const size_t ring_count = itree_polygons_ring_offsets(polygons, &alone_rings) - 1;
    int ok = itree_polygons_polygon_offsets(polygons, &alone) == to - from + 1;
    for (size_t place = 0; ok && place <= to - from; place++) ok = stops[from + place] == stops[from] + alone[place];
    for (size_t ring = 0; ok && ring <= ring_count; ring++) {
        ok = rings[stops[from] + ring] == rings[stops[from]] + alone_rings[ring];
    }
    ok = ok && (count == 0 || memcmp(all + rings[stops[from]], those, count * sizeof *those) == 0);
    itree_polygons_free(polygons);
    return ok;
}

static void checks_random_pairs(void) {
    const struct itree_groups groups = {firsts, 40, ones, 40};
    size_t ends[40];
    int ok = 1;
    for (int round = 0; round < 64; round++) {
        struct itree_polygons *polygons = NULL;
        make_random(&subjects, 40);
        make_random(&clips, 40);
        ok = ok && itree_overlay_each(&subjects.shapes, &groups, &clips.shapes, &groups, round % 4, round / 4 % 4, ends,
                                      40, &polygons) == ITREE_ANSWERED;
        for (size_t place = 0; ok && place < 40; place++) {
            ok = is_overlay(polygons, place == 0 ? 0 : ends[place - 1], ends[place], place, round % 4, round / 4 % 4);
        }
        itree_polygons_free(polygons);
    }
    check("overlays of pairs, as one by one", ok);
    make_layers();
}

static void checks_faulty_groups(void) {
    const size_t place[] = {0}, behind[] = {4}, one[] = {1}, two[] = {2}, falling[] = {1, 0}, both[] = {1, 1};
    const struct itree_groups good = GROUPS(place, one), faulty[] = {GROUPS(behind, one), GROUPS(place, two),
                                                                     GROUPS(place, falling), GROUPS(place, both)};
    size_t ends[2] = {7, 7};
    struct itree_polygons *polygons;
    int32_t status;
    for (size_t which = 0; which < 8; which++) {
        const struct itree_groups *const subject = which < 4 ? &faulty[which] : &good;
        const struct itree_groups *const clip = which < 4 ? &good : &faulty[which - 4];
        polygons = (void *)ends;
        status = itree_overlay_each(&subjects.shapes, subject, &clips.shapes, clip, 0, 0, ends, 1, &polygons);
        check("groups that can't be", status == ITREE_LENGTHS && polygons == NULL && ends[0] == 7 && ends[1] == 7);
    }
    polygons = (void *)ends;
    status = itree_overlay_each(&subjects.shapes, &good, &clips.shapes, &good, 0, 0, ends, 2, &polygons);
    check("more ends than groups", status == ITREE_LENGTHS && polygons == NULL && ends[0] == 7 && ends[1] == 7);
    polygons = (void *)ends;
    status = itree_overlay_each(&subjects.shapes, &good, &clips.shapes, &good, 0, 0, NULL, 0, &polygons);
    check("none", status == ITREE_LENGTHS && polygons == NULL);
    const int32_t numbers[][2] = {{-1, 0}, {4, 0}, {0, -1}, {0, 4}};
    for (size_t which = 0; which < 4; which++) {
        polygons = (void *)ends;
        status = itree_overlay_each(&subjects.shapes, &faulty[which], &clips.shapes, &good, numbers[which][0],
                                    numbers[which][1], ends, 2, &polygons);
        check("no such rule or operation", status == ITREE_CHOICE && polygons == NULL && ends[0] == 7);
    }
}

/* Shapes that stop where they can't: two rings, and two shapes. */
static const struct itree_point corners[] = {{0, 0}, {9, 0}, {0, 9}};
static const size_t rising[] = {1, 2}, behind_points[] = {3, 4}, behind_rings[] = {2, 3}, falling[] = {2, 1};
static const struct itree_shapes faulty_shapes[] = {
    {corners, 3, falling, 2, rising, 2},
    {corners, 3, behind_points, 2, rising, 2},
    {corners, 3, rising, 2, falling, 2},
    {corners, 3, rising, 2, behind_rings, 2},
};

static void checks_faulty_shapes(void) {
    const struct itree_groups none = {NULL, 0, NULL, 0};
    const struct itree_lines lines = {corners, 3, rising, 2};
    size_t parents[2] = {7, 7};
    for (size_t which = 0; which < 4; which++) {
        const struct itree_shapes *const faulty = &faulty_shapes[which];
        struct itree_polygons *polygons[3] = {(void *)parents, (void *)parents, (void *)parents};
        struct itree_pairs *pairs[3] = {(void *)parents, (void *)parents, (void *)parents};
        check("overlays of shapes that can't be",
              itree_overlay_each(faulty, &none, &clips.shapes, &none, 0, 0, NULL, 0, &polygons[0]) == ITREE_LENGTHS &&
                  itree_overlay_each(&clips.shapes, &none, faulty, &none, 0, 0, NULL, 0, &polygons[1]) ==
                      ITREE_LENGTHS);
        check("boxes of such", itree_box_pairs(faulty, &clips.shapes, &pairs[0]) == ITREE_LENGTHS &&
                                   itree_box_pairs(&clips.shapes, faulty, &pairs[1]) == ITREE_LENGTHS);
        check("points in such", itree_points_in(corners, 3, faulty, 0, 0, &pairs[2]) == ITREE_LENGTHS);
        check("parents of such", itree_polygon_parents(faulty, parents, 2) == ITREE_LENGTHS && parents[0] == 7);
        polygons[2] = which < 2 ? polygons[2] : NULL;
        check("lines in rings that can't be", which > 1 || itree_clip_lines(&lines, corners, 3, faulty->ring_ends, 2, 0,
                                                                            0, &polygons[2]) == ITREE_LENGTHS);
        check("no handles", polygons[0] == NULL && polygons[1] == NULL && polygons[2] == NULL && pairs[0] == NULL &&
                                pairs[1] == NULL && pairs[2] == NULL);
    }
    struct itree_polygons *pieces = (void *)parents;
    const struct itree_lines falls = {corners, 3, falling, 2}, passes = {corners, 3, behind_points, 2};
    check("lines that stop where they can't",
          itree_clip_lines(&falls, NULL, 0, NULL, 0, 0, 0, &pieces) == ITREE_LENGTHS && pieces == NULL);
    pieces = (void *)parents;
    check("or behind the points",
          itree_clip_lines(&passes, NULL, 0, NULL, 0, 0, 0, &pieces) == ITREE_LENGTHS && pieces == NULL);
    check("room for more parents", itree_polygon_parents(&clips.shapes, parents, 2) == ITREE_LENGTHS);
    check("the parents stay as they were", parents[0] == 7 && parents[1] == 7);
}

static void checks_faulty_choices(void) {
    const struct itree_lines lines = {corners, 3, falling, 2};
    const int32_t numbers[][3] = {{-1, 0, 0}, {4, 0, 0}, {0, -1, -1}, {0, 3, 2}, {0, INT32_MIN, INT32_MAX}};
    for (size_t which = 0; which < 5; which++) {
        struct itree_pairs *pairs = (void *)&pairs;
        struct itree_polygons *pieces = (void *)&pieces;
        check("no such rule or border", itree_points_in(corners, 3, &faulty_shapes[0], numbers[which][0],
                                                        numbers[which][1], &pairs) == ITREE_CHOICE &&
                                            pairs == NULL);
        check("no such rule or side", itree_clip_lines(&lines, corners, 3, falling, 2, numbers[which][0],
                                                       numbers[which][2], &pieces) == ITREE_CHOICE &&
                                          pieces == NULL);
    }
}

/* Compares pairs by first and then by second. */
static int before(const void *one, const void *other) {
    const struct itree_pair *const a = one, *const b = other;
    if (a->first != b->first) return a->first < b->first ? -1 : 1;
    return a->second < b->second ? -1 : a->second > b->second;
}

/* Whether these are the pairs, which it gives back. Those of boxes are in no order. */
static int are_pairs(struct itree_pairs *pairs, int is_ordered, const struct itree_pair *wanted, size_t count) {
    struct itree_pair *const first = itree_pairs_first(pairs);
    int ok = itree_pairs_count(pairs) == count;
    if (ok && count > 0 && !is_ordered) qsort(first, count, sizeof *first, before);
    for (size_t place = 0; ok && place < count; place++) ok = before(first + place, wanted + place) == 0;
    itree_pairs_free(pairs);
    return ok;
}

static void checks_box_pairs(void) {
    static struct layer layer;
    begin(&layer);
    end_shape(&layer);
    add_ring(&layer, 0, 0, 1, 1);
    add_ring(&layer, 9, 9, 10, 10);
    end_shape(&layer);
    add_square(&layer, 4, 4, 1);
    add_square(&layer, 11, 0, 3);
    const struct itree_pair wanted[] = {{1, 0}, {1, 1}, {1, 3}, {2, 0}, {2, 3}, {3, 1}};
    struct itree_pairs *pairs = NULL;
    /* A corner, an edge, and a box within one whose points lie apart. */
    const struct itree_point points[] = {{5, 5}, {3, 5}, {10, 2}, {11, 2}, {20, 20}, {-3, 4}, {12, 4}};
    const size_t ring_ends[] = {2, 4, 5, 7}, shape_ends[] = {1, 2, 3, 4};
    const struct itree_shapes others = {points, 7, ring_ends, 4, shape_ends, 4};
    check("boxes", itree_box_pairs(&layer.shapes, &others, &pairs) == ITREE_ANSWERED);
    check("that share a point", are_pairs(pairs, 0, wanted, 6));
    check("no boxes", itree_box_pairs(&layer.shapes, &(struct itree_shapes){NULL, 0, NULL, 0, shape_ends, 0}, &pairs) ==
                          ITREE_ANSWERED);
    check("make no pairs", are_pairs(pairs, 0, NULL, 0));
}

/* The least and the greatest coordinates of a shape, or 0 where it has no points. */
static int box_of(const struct layer *layer, size_t shape, int32_t *box) {
    const struct itree_point *points;
    size_t count, ends[4];
    rings_of(layer, shape, &points, &count, ends);
    for (size_t place = 0; place < count; place++) {
        const int32_t x = points[place].x, y = points[place].y;
        if (place == 0 || x < box[0]) box[0] = x;
        if (place == 0 || y < box[1]) box[1] = y;
        if (place == 0 || x > box[2]) box[2] = x;
        if (place == 0 || y > box[3]) box[3] = y;
    }
    return count > 0;
}

static void checks_random_boxes(void) {
    static struct itree_pair wanted[ROOM * 10];
    int ok = 1;
    for (int round = 0; round < 50; round++) {
        struct itree_pairs *pairs = NULL;
        size_t count = 0;
        make_random(&subjects, 60);
        make_random(&clips, 40);
        for (size_t i = 0; i < 60; i++) {
            for (size_t j = 0; j < 40; j++) {
                int32_t one[4] = {0}, other[4] = {0};
                if (box_of(&subjects, i, one) && box_of(&clips, j, other) && one[0] <= other[2] && other[0] <= one[2] &&
                    one[1] <= other[3] && other[1] <= one[3]) {
                    wanted[count++] = (struct itree_pair){i, j};
                }
            }
        }
        ok = ok && itree_box_pairs(&subjects.shapes, &clips.shapes, &pairs) == ITREE_ANSWERED;
        ok = ok && are_pairs(pairs, 0, wanted, count);
    }
    check("pairs of boxes, as the plain model", ok);
    make_layers();
}

/* A square with a hole, one beside it, a triangle below, and one that lies on the first. */
static void make_cells(struct layer *layer) {
    begin(layer);
    add_ring(layer, 0, 0, 8, 8);
    add_ring(layer, 2, 6, 6, 2);
    end_shape(layer);
    add_square(layer, 8, 0, 8);
    const struct itree_point triangle[] = {{0, 0}, {0, -7}, {7, 0}};
    memcpy(layer->points + layer->shapes.point_count, triangle, sizeof triangle);
    layer->shapes.point_count += 3;
    layer->ring_ends[layer->shapes.ring_count++] = layer->shapes.point_count;
    end_shape(layer);
    end_shape(layer);
    add_square(layer, 1, 1, 14);
}

static void checks_points_in(void) {
    static struct layer cells;
    /* Inside, in the hole, on the edge of two cells, at a corner, on the slope, outside, and on the hole's left and right. */
    const struct itree_point points[] = {{9, 5}, {4, 4}, {8, 7}, {0, 0}, {3, -4}, {99, 0}, {2, 4}, {6, 4}};
    const struct itree_pair closed[] = {{0, 1}, {0, 4}, {1, 4}, {2, 0}, {2, 1}, {2, 4}, {3, 0},
                                        {3, 2}, {4, 2}, {6, 0}, {6, 4}, {7, 0}, {7, 4}};
    const struct itree_pair open[] = {{0, 1}, {0, 4}, {1, 4}, {2, 4}, {6, 4}, {7, 4}};
    const struct itree_pair half_open[] = {{0, 1}, {0, 4}, {1, 4}, {2, 1}, {2, 4},
                                           {3, 0}, {4, 2}, {6, 4}, {7, 0}, {7, 4}};
    struct itree_pairs *pairs = NULL;
    make_cells(&cells);
    check("closed", itree_points_in(points, 8, &cells.shapes, ITREE_NON_ZERO, ITREE_CLOSED, &pairs) == ITREE_ANSWERED);
    check("with borders", are_pairs(pairs, 1, closed, 13));
    check("open", itree_points_in(points, 8, &cells.shapes, ITREE_EVEN_ODD, ITREE_OPEN, &pairs) == ITREE_ANSWERED);
    check("without borders", are_pairs(pairs, 1, open, 6));
    check("half open",
          itree_points_in(points, 8, &cells.shapes, ITREE_POSITIVE, ITREE_HALF_OPEN, &pairs) == ITREE_ANSWERED);
    check("with the left and the lower borders", are_pairs(pairs, 1, half_open, 10));
    check("rings that run clockwise",
          itree_points_in(points, 8, &cells.shapes, ITREE_NEGATIVE, ITREE_OPEN, &pairs) == ITREE_ANSWERED);
    check("are nowhere", are_pairs(pairs, 1, NULL, 0));
    check("no points", itree_points_in(NULL, 0, &cells.shapes, 0, 0, &pairs) == ITREE_ANSWERED);
    check("are in nothing", are_pairs(pairs, 1, NULL, 0));
}

/* Whether a point lies on an edge of rings along the axes. */
static int is_on_edge(const struct itree_point *points, const size_t *ends, size_t rings, int32_t x, int32_t y) {
    size_t start = 0;
    for (size_t ring = 0; ring < rings; ring++) {
        for (size_t place = start; place < ends[ring]; place++) {
            const struct itree_point a = points[place], b = points[place + 1 < ends[ring] ? place + 1 : start];
            if ((a.x <= x || b.x <= x) && (a.x >= x || b.x >= x) && (a.y <= y || b.y <= y) && (a.y >= y || b.y >= y)) {
                return 1;
            }
        }
        start = ends[ring];
    }
    return 0;
}

static int plain_is_in(const struct itree_point *at, size_t shape, int32_t rule, int32_t border) {
    const struct itree_point *points;
    size_t count, ends[4];
    const size_t rings = rings_of(&subjects, shape, &points, &count, ends);
    const int is_on = is_on_edge(points, ends, rings, at->x, at->y);
    const int is_inside = plain_is_inside(rule, plain_winding(points, ends, rings, at->x, at->y));
    if (border == ITREE_CLOSED) return is_on || is_inside;
    return border == ITREE_OPEN ? is_inside && !is_on : is_inside;
}

static void checks_random_points(void) {
    static struct itree_pair wanted[60 * ROOM];
    static struct itree_point points[100];
    int ok = 1;
    for (int round = 0; round < 120; round++) {
        struct itree_pairs *pairs = NULL;
        size_t count = 0;
        make_random(&subjects, 60);
        for (size_t i = 0; i < 100; i++) {
            points[i] = (struct itree_point){random_below(14) - 1, random_below(14) - 1};
            for (size_t j = 0; j < 60; j++) {
                if (plain_is_in(&points[i], j, round % 4, round / 4 % 3)) {
                    wanted[count++] = (struct itree_pair){i, j};
                }
            }
        }
        ok = ok && itree_points_in(points, 100, &subjects.shapes, round % 4, round / 4 % 3, &pairs) == ITREE_ANSWERED;
        ok = ok && are_pairs(pairs, 1, wanted, count);
    }
    check("points in shapes, as the plain model", ok);
    make_layers();
}

/* Whether the handle has these pieces and, for each line, so many. It is given back. */
static int are_pieces(struct itree_polygons *pieces, const struct itree_point *wanted, const size_t *stops,
                      size_t count, const size_t *line_stops, size_t lines) {
    const struct itree_point *points;
    const size_t *ends, *line_ends;
    const size_t point_count = itree_polygons_points(pieces, &points);
    int ok = itree_polygons_ring_offsets(pieces, &ends) == count + 1 &&
             itree_polygons_polygon_offsets(pieces, &line_ends) == lines + 1;
    for (size_t place = 0; ok && place < count; place++) ok = ends[place + 1] == stops[place];
    for (size_t line = 0; ok && line < lines; line++) ok = line_ends[line + 1] == line_stops[line];
    ok = ok && point_count == (count == 0 ? 0 : stops[count - 1]) && ends[0] == 0 && line_ends[0] == 0;
    ok = ok && (point_count == 0 || memcmp(points, wanted, point_count * sizeof *wanted) == 0);
    itree_polygons_free(pieces);
    return ok;
}

/* Straight through, around a corner inside and out again, nothing, one point, along the border, and within. */
static const struct itree_point line_points[] = {{-2, 2}, {6, 2}, {1, -3}, {1, 3}, {7, 3}, {2, 2},
                                                 {0, 0},  {0, 4}, {2, 6},  {1, 1}, {2, 1}, {2, 2}};
static const size_t line_stops[] = {2, 5, 5, 6, 9, 12};
static const struct itree_lines lines = {line_points, 12, line_stops, 6};

static void checks_clipped_lines(void) {
    const struct itree_point square[] = {{0, 0}, {4, 0}, {4, 4}, {0, 4}};
    const size_t end[] = {4};
    /* They are broken by one another, too: the first two at (1, 2), and where the last one begins and ends. */
    const struct itree_point inside[] = {{0, 2}, {1, 2}, {2, 2}, {4, 2}, {1, 0}, {1, 1}, {1, 2}, {1, 3},
                                         {4, 3}, {0, 0}, {0, 2}, {0, 4}, {1, 1}, {2, 1}, {2, 2}};
    const size_t inside_stops[] = {4, 9, 12, 15}, inside_lines[] = {1, 2, 2, 2, 3, 4};
    const struct itree_point outside[] = {{-2, 2}, {0, 2}, {4, 2}, {6, 2}, {1, -3},
                                          {1, 0},  {4, 3}, {7, 3}, {0, 4}, {2, 6}};
    const size_t outside_stops[] = {2, 4, 6, 8, 10}, outside_lines[] = {2, 4, 4, 4, 5, 5};
    struct itree_polygons *pieces = NULL;
    check("lines are clipped",
          itree_clip_lines(&lines, square, 4, end, 1, ITREE_NON_ZERO, ITREE_INSIDE, &pieces) == ITREE_ANSWERED);
    check("to what lies inside", are_pieces(pieces, inside, inside_stops, 4, inside_lines, 6));
    check("lines are cut",
          itree_clip_lines(&lines, square, 4, end, 1, ITREE_EVEN_ODD, ITREE_OUTSIDE, &pieces) == ITREE_ANSWERED);
    check("to what lies outside", are_pieces(pieces, outside, outside_stops, 5, outside_lines, 6));
    const size_t none[] = {0, 0, 0, 0, 0, 0}, whole[] = {5, 10, 14, 17}, each[] = {1, 2, 2, 2, 3, 4};
    const struct itree_point all[] = {{-2, 2}, {0, 2}, {1, 2}, {2, 2}, {6, 2}, {1, -3}, {1, 1}, {1, 2}, {1, 3},
                                      {7, 3},  {0, 0}, {0, 2}, {0, 4}, {2, 6}, {1, 1},  {2, 1}, {2, 2}};
    check("no rings", itree_clip_lines(&lines, NULL, 0, NULL, 0, 0, ITREE_INSIDE, &pieces) == ITREE_ANSWERED);
    check("hold no line", are_pieces(pieces, NULL, NULL, 0, none, 6));
    check("no rings", itree_clip_lines(&lines, NULL, 0, NULL, 0, 0, ITREE_OUTSIDE, &pieces) == ITREE_ANSWERED);
    check("leave all lines", are_pieces(pieces, all, whole, 4, each, 6));
    check("no lines", itree_clip_lines(&(struct itree_lines){NULL, 0, NULL, 0}, square, 4, end, 1, 0, 0, &pieces) ==
                          ITREE_ANSWERED);
    check("have no pieces", are_pieces(pieces, NULL, NULL, 0, NULL, 0));
}

/* A land with two lakes, in the one an island that has a lake with an islet, in the other a rock; and a land beside it. */
static void checks_parents(void) {
    static struct layer layer;
    const size_t wanted[] = {2, SIZE_MAX, 4, 4, SIZE_MAX, SIZE_MAX, SIZE_MAX};
    size_t parents[7];
    begin(&layer);
    add_square(&layer, 22, 22, 2);
    add_square(&layer, 200, 0, 9);
    add_ring(&layer, 20, 20, 28, 28);
    add_ring(&layer, 21, 27, 27, 21);
    end_shape(&layer);
    add_square(&layer, 50, 50, 3);
    add_ring(&layer, 0, 0, 100, 100);
    add_ring(&layer, 10, 30, 30, 10);
    add_ring(&layer, 40, 60, 60, 40);
    end_shape(&layer);
    end_shape(&layer);
    add_ring(&layer, 110, 110, 120, 120);
    end_shape(&layer);
    check("parents", itree_polygon_parents(&layer.shapes, parents, 7) == ITREE_ANSWERED);
    for (int place = 0; place < 7; place++) check("of each polygon", parents[place] == wanted[place]);
    check("no polygons",
          itree_polygon_parents(&(struct itree_shapes){NULL, 0, NULL, 0, NULL, 0}, NULL, 0) == ITREE_ANSWERED);
}

static void checks_null_shapes(void) {
    const struct itree_shapes *const good = &clips.shapes;
    struct itree_shapes null[] = {*good, *good, *good, *good};
    const struct itree_groups groups = {firsts, 1, ones, 1};
    size_t parents[4] = {7, 7, 7, 7};
    struct itree_polygons *polygons = (void *)parents;
    struct itree_pairs *pairs = (void *)parents;
    null[0].points = NULL;
    null[1].ring_ends = (void *)((char *)parents + 1);
    null[2].shape_ends = NULL;
    null[3].point_count = SIZE_MAX / 8;
    for (int which = 0; which < 5; which++) {
        const struct itree_shapes *const shapes = which == 4 ? NULL : &null[which];
        check("faulty subjects and clips",
              itree_overlay_each(shapes, &groups, good, &groups, 9, 9, parents, 1, &polygons) == ITREE_POINTER &&
                  itree_overlay_each(good, &groups, shapes, &groups, 0, 0, parents, 1, &polygons) == ITREE_POINTER);
        check("faulty boxes", itree_box_pairs(shapes, good, &pairs) == ITREE_POINTER &&
                                  itree_box_pairs(good, shapes, &pairs) == ITREE_POINTER);
        check("faulty shapes around points", itree_points_in(corners, 3, shapes, 9, 9, &pairs) == ITREE_POINTER);
        check("faulty polygons", itree_polygon_parents(shapes, parents, 4) == ITREE_POINTER);
    }
    check("the handles stay as they were", polygons == (void *)parents && pairs == (void *)parents);
    check("the parents too", parents[0] == 7 && parents[3] == 7);
}

static void checks_null_others(void) {
    const struct itree_shapes *const good = &clips.shapes;
    const struct itree_groups groups = {firsts, 1, ones, 1}, null[] = {{NULL, 1, ones, 1}, {firsts, 1, NULL, 1}};
    const struct itree_lines no_points = {NULL, 2, ones, 1}, no_ends = {corners, 3, NULL, 1};
    size_t ends[1] = {7};
    char *const odd = (char *)ends + 1;
    struct itree_polygons *polygons = (void *)ends;
    struct itree_pairs *pairs = (void *)ends;
    for (int which = 0; which < 3; which++) {
        const struct itree_groups *const faulty = which == 2 ? NULL : &null[which];
        check("faulty groups",
              itree_overlay_each(good, faulty, good, &groups, 0, 0, ends, 1, &polygons) == ITREE_POINTER &&
                  itree_overlay_each(good, &groups, good, faulty, 0, 0, ends, 1, &polygons) == ITREE_POINTER);
    }
    check("no room for ends",
          itree_overlay_each(good, &groups, good, &groups, 0, 0, NULL, 1, &polygons) == ITREE_POINTER &&
              itree_overlay_each(good, &groups, good, &groups, 0, 0, (void *)odd, 1, &polygons) == ITREE_POINTER);
    check("no handles", itree_overlay_each(good, &groups, good, &groups, 0, 0, ends, 1, NULL) == ITREE_POINTER &&
                            itree_box_pairs(good, good, NULL) == ITREE_POINTER &&
                            itree_points_in(corners, 3, good, 0, 0, (void *)odd) == ITREE_POINTER &&
                            itree_clip_lines(&lines, corners, 3, ones, 1, 0, 0, NULL) == ITREE_POINTER);
    check("no points to look for", itree_points_in(NULL, 3, good, 0, 0, &pairs) == ITREE_POINTER);
    check("faulty lines", itree_clip_lines(NULL, corners, 3, ones, 1, 0, 0, &polygons) == ITREE_POINTER &&
                              itree_clip_lines(&no_points, corners, 3, ones, 1, 0, 0, &polygons) == ITREE_POINTER &&
                              itree_clip_lines(&no_ends, corners, 3, ones, 1, 0, 0, &polygons) == ITREE_POINTER);
    check("faulty rings", itree_clip_lines(&lines, NULL, 3, ones, 1, 0, 0, &polygons) == ITREE_POINTER &&
                              itree_clip_lines(&lines, corners, 3, (void *)odd, 1, 0, 0, &polygons) == ITREE_POINTER);
    check("no room for parents", itree_polygon_parents(good, NULL, 4) == ITREE_POINTER);
    check("nothing is written", polygons == (void *)ends && pairs == (void *)ends && ends[0] == 7);
}

/* One of the calls, with a handle that is given back, or NULL where there is none. */
static int32_t call(int which, size_t *ends) {
    const struct itree_groups groups = {firsts, 20, ones, 20};
    struct itree_polygons *polygons = (void *)ends;
    struct itree_pairs *pairs = (void *)ends;
    int32_t status = -1;
    switch (which) {
    case 0:
        status = itree_overlay_each(&subjects.shapes, &groups, &clips.shapes, &groups, 1, 0, ends, 20, &polygons);
        break;
    case 1: status = itree_box_pairs(&subjects.shapes, &clips.shapes, &pairs); break;
    case 2: status = itree_points_in(clips.points, clips.shapes.point_count, &subjects.shapes, 1, 0, &pairs); break;
    case 3:
        status = itree_clip_lines(&lines, clips.points, clips.shapes.point_count, clips.ring_ends,
                                  clips.shapes.ring_count, 1, 0, &polygons);
        break;
    case 4: return itree_polygon_parents(&subjects.shapes, ends, 20);
    }
    const int is_right = status == ITREE_ANSWERED || (which == 1 || which == 2 ? pairs == NULL : polygons == NULL);
    if (status == ITREE_ANSWERED && (which == 1 || which == 2)) itree_pairs_free(pairs);
    if (status == ITREE_ANSWERED && (which == 0 || which == 3)) itree_polygons_free(polygons);
    return is_right ? status : -1;
}

static void checks_refused(void) {
    make_random(&subjects, 20);
    make_random(&clips, 20);
    for (int which = 0; which < 5; which++) {
        size_t ends[20] = {7}, requests = 0;
        int32_t status;
        int ok = 1;
        while (1) {
            refuse_after(requests);
            status = call(which, ends);
            refuse_after(SIZE_MAX);
            if (status != ITREE_REFUSED) break;
            ok = ok && ends[0] == 7;
            requests++;
        }
        check("each request is refused in turn", status == ITREE_ANSWERED && requests > 2 && ok);
        const size_t peak = itree_memory_peak();
        for (size_t limit = 1; limit < peak; limit += peak / 100 + 1) {
            itree_limit_memory(limit);
            status = call(which, ends);
            /* Groups of shapes take a smaller arena where a larger one is refused. */
            ok = ok && (status == ITREE_REFUSED || (which == 0 && status == ITREE_ANSWERED));
            ok = ok && itree_memory_peak() <= limit;
        }
        itree_limit_memory(peak);
        check("and within each limit", ok && call(which, ends) == ITREE_ANSWERED);
        itree_limit_memory(0);
    }
    make_layers();
}

/* How often the overlays of so many pairs of small squares ask for memory. */
static size_t requests_of(size_t pairs) {
    static size_t ends[ROOM];
    const struct itree_groups groups = {firsts, pairs, ones, pairs};
    struct itree_polygons *polygons = NULL;
    begin(&subjects);
    begin(&clips);
    for (size_t place = 0; place < pairs; place++) {
        add_square(&subjects, (int32_t)place * 9, random_below(9), 6);
        add_square(&clips, (int32_t)place * 9 + random_below(3), random_below(9), 7);
    }
    const size_t before_it = requests_made();
    const int32_t status = itree_overlay_each(&subjects.shapes, &groups, &clips.shapes, &groups, ITREE_NON_ZERO,
                                              ITREE_XOR, ends, pairs, &polygons);
    const size_t requests = requests_made() - before_it;
    itree_polygons_free(polygons);
    return status == ITREE_ANSWERED ? requests : 0;
}

static void checks_requests(void) {
    const size_t few = requests_of(100), many = requests_of(1000);
    check("pairs of small squares take no memory of their own", few > 0 && many >= few && many - few < 100);
    make_layers();
}

int main(void) {
    make_layers();
    checks_pairs_of_squares();
    checks_groups();
    checks_unions();
    checks_random_pairs();
    checks_faulty_groups();
    checks_faulty_shapes();
    checks_faulty_choices();
    checks_box_pairs();
    checks_random_boxes();
    checks_points_in();
    checks_random_points();
    checks_clipped_lines();
    checks_parents();
    checks_null_shapes();
    checks_null_others();
    checks_refused();
    checks_requests();
    return told();
}
