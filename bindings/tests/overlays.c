/* Overlays from C beside a plain model, at faults, and with each request for memory refused in turn. */
#include <itree.h>
#include <stdio.h>
#include <string.h>

#include "counted.h"
#include "plain_overlay.h"
#include "refuse.h"

enum { MOST = 12 };

/* Rings as a caller has them. */
struct rings {
    struct itree_point points[5 * MOST];
    size_t ends[MOST];
    size_t count, point_count;
};

/* Adds the ring from (x0, y0) to (x1, y1), which goes clockwise where one of the two comes before the other, and ends
 * with its first point again or not. */
static void add_rectangle(struct rings *rings, int32_t x0, int32_t y0, int32_t x1, int32_t y1, int again) {
    const struct itree_point corners[] = {{x0, y0}, {x1, y0}, {x1, y1}, {x0, y1}, {x0, y0}};
    for (int corner = 0; corner < 4 + again; corner++) rings->points[rings->point_count++] = corners[corner];
    rings->ends[rings->count++] = rings->point_count;
}

static struct rings rectangle(int32_t x0, int32_t y0, int32_t x1, int32_t y1) {
    struct rings rings = {.count = 0};
    add_rectangle(&rings, x0, y0, x1, y1, 0);
    return rings;
}

static int32_t overlay(const struct rings *subject, const struct rings *clip, int32_t rule, int32_t operation,
                       struct itree_polygons **polygons) {
    return itree_overlay(subject->points, subject->point_count, subject->ends, subject->count, clip->points,
                         clip->point_count, clip->ends, clip->count, rule, operation, polygons);
}

/* Whether the polygons have so many rings, the polygon and the ring at these places stop where they should, and the
 * ring has the wanted points from whichever on. */
static int has_ring(const struct itree_polygons *polygons, size_t rings, size_t place, const struct itree_point *wanted,
                    size_t count) {
    const struct itree_point *points;
    const size_t *offsets;
    itree_polygons_points(polygons, &points);
    return itree_polygons_ring_offsets(polygons, &offsets) == rings + 1 && offsets[0] == 0 &&
           is_ring(points + offsets[place], offsets[place + 1] - offsets[place], wanted, count);
}

/* Whether the polygons have these numbers of rings. */
static int have_rings(const struct itree_polygons *polygons, const size_t *wanted, size_t count) {
    const size_t *offsets;
    if (itree_polygons_polygon_offsets(polygons, &offsets) != count + 1 || offsets[0] != 0) return 0;
    for (size_t place = 0; place < count; place++) {
        if (offsets[place + 1] - offsets[place] != wanted[place]) return 0;
    }
    return 1;
}

/* Whether the call answers one polygon with the wanted ring, and nothing else. */
static int is_one_ring(const struct rings *subject, const struct rings *clip, int32_t rule, int32_t operation,
                       const struct itree_point *wanted, size_t count) {
    const size_t one[] = {1};
    struct itree_polygons *polygons = NULL;
    if (overlay(subject, clip, rule, operation, &polygons) != ITREE_ANSWERED) return 0;
    const int ok = have_rings(polygons, one, 1) && has_ring(polygons, 1, 0, wanted, count) &&
                   itree_polygons_points(polygons, NULL) == count;
    itree_polygons_free(polygons);
    return ok;
}

static int is_nothing(const struct rings *subject, const struct rings *clip, int32_t rule, int32_t operation) {
    struct itree_polygons *polygons = NULL;
    if (overlay(subject, clip, rule, operation, &polygons) != ITREE_ANSWERED || polygons == NULL) return 0;
    const struct itree_point *points = subject->points;
    const int ok = have_rings(polygons, NULL, 0) && itree_polygons_ring_offsets(polygons, NULL) == 1 &&
                   itree_polygons_points(polygons, &points) == 0 && points == NULL;
    itree_polygons_free(polygons);
    return ok;
}

static void checks_two_squares(void) {
    const struct rings low = rectangle(0, 0, 2, 2), high = rectangle(1, 1, 3, 3);
    const struct itree_point both[] = {{0, 0}, {2, 0}, {2, 1}, {3, 1}, {3, 3}, {1, 3}, {1, 2}, {0, 2}};
    const struct itree_point common[] = {{1, 1}, {2, 1}, {2, 2}, {1, 2}};
    const struct itree_point left[] = {{0, 0}, {2, 0}, {2, 1}, {1, 1}, {1, 2}, {0, 2}};
    const struct itree_point right[] = {{3, 3}, {1, 3}, {1, 2}, {2, 2}, {2, 1}, {3, 1}};
    check("the union of two squares", is_one_ring(&low, &high, ITREE_NON_ZERO, ITREE_UNION, both, 8));
    check("their intersection", is_one_ring(&low, &high, ITREE_NON_ZERO, ITREE_INTERSECTION, common, 4));
    check("the one less the other", is_one_ring(&low, &high, ITREE_NON_ZERO, ITREE_DIFFERENCE, left, 6));
    check("and the other way", is_one_ring(&high, &low, ITREE_NON_ZERO, ITREE_DIFFERENCE, right, 6));
    struct itree_polygons *polygons = NULL;
    const size_t two[] = {1, 1};
    check("what is of just one", overlay(&low, &high, ITREE_NON_ZERO, ITREE_XOR, &polygons) == ITREE_ANSWERED);
    const size_t first = (size_t)!has_ring(polygons, 2, 0, left, 6);
    check("two polygons of one ring", have_rings(polygons, two, 2) && itree_polygons_points(polygons, NULL) == 12);
    check("both", has_ring(polygons, 2, first, left, 6) && has_ring(polygons, 2, 1 - first, right, 6));
    itree_polygons_free(polygons);
}

static void checks_a_hole(void) {
    const struct rings large = rectangle(0, 0, 9, 9), small = rectangle(3, 3, 6, 6), next = rectangle(9, 9, 12, 12);
    const struct itree_point outer[] = {{0, 0}, {9, 0}, {9, 9}, {0, 9}}, hole[] = {{3, 3}, {3, 6}, {6, 6}, {6, 3}};
    const struct itree_point corner[] = {{9, 9}, {12, 9}, {12, 12}, {9, 12}};
    const size_t with_hole[] = {2}, apart[] = {1, 1};
    struct itree_polygons *polygons = NULL;
    check("a square less a smaller one",
          overlay(&large, &small, ITREE_NON_ZERO, ITREE_DIFFERENCE, &polygons) == ITREE_ANSWERED);
    check("one polygon of two rings", have_rings(polygons, with_hole, 1) && itree_polygons_points(polygons, NULL) == 8);
    check("counterclockwise, and a hole clockwise",
          has_ring(polygons, 2, 0, outer, 4) && has_ring(polygons, 2, 1, hole, 4));
    itree_polygons_free(polygons);
    check("squares that touch at a corner",
          overlay(&large, &next, ITREE_NON_ZERO, ITREE_UNION, &polygons) == ITREE_ANSWERED);
    const size_t first = (size_t)!has_ring(polygons, 2, 0, outer, 4);
    check("are two polygons", have_rings(polygons, apart, 2) && has_ring(polygons, 2, first, outer, 4) &&
                                  has_ring(polygons, 2, 1 - first, corner, 4));
    itree_polygons_free(polygons);
}

static void checks_rules(void) {
    const struct rings none = {.count = 0}, clockwise = rectangle(2, 0, 0, 2);
    const struct itree_point square[] = {{0, 0}, {2, 0}, {2, 2}, {0, 2}};
    struct rings twice = rectangle(0, 0, 2, 2);
    add_rectangle(&twice, 0, 0, 2, 2, 1);
    check("a square that goes clockwise", is_one_ring(&clockwise, &none, ITREE_EVEN_ODD, ITREE_UNION, square, 4));
    check("is inside by all rules", is_one_ring(&clockwise, &none, ITREE_NON_ZERO, ITREE_XOR, square, 4));
    check("but one", is_nothing(&clockwise, &none, ITREE_POSITIVE, ITREE_UNION));
    check("and by the last one", is_one_ring(&clockwise, &none, ITREE_NEGATIVE, ITREE_UNION, square, 4));
    check("a square twice is even", is_nothing(&twice, &none, ITREE_EVEN_ODD, ITREE_UNION));
    check("and not 0", is_one_ring(&none, &twice, ITREE_NON_ZERO, ITREE_UNION, square, 4));
    check("and above 0", is_one_ring(&twice, &twice, ITREE_POSITIVE, ITREE_INTERSECTION, square, 4));
    check("not below", is_nothing(&twice, &clockwise, ITREE_NEGATIVE, ITREE_INTERSECTION));
    check("less itself", is_nothing(&clockwise, &twice, ITREE_NON_ZERO, ITREE_DIFFERENCE));
    check("no rings", is_nothing(&none, &none, ITREE_EVEN_ODD, ITREE_XOR));
}

static void checks_odd_rings(void) {
    const struct rings none = {.count = 0};
    const struct itree_point bow_tie[] = {{0, 0}, {3, 1}, {3, 0}, {0, 1}}, whole[] = {{INT32_MIN, INT32_MIN},
                                                                                      {INT32_MAX, INT32_MIN},
                                                                                      {INT32_MAX, INT32_MAX},
                                                                                      {INT32_MIN, INT32_MAX}};
    const struct itree_point left[] = {{0, 0}, {2, 1}, {0, 1}}, right[] = {{2, 1}, {3, 0}, {3, 1}};
    const size_t stop = 4, stops[] = {0, 0, 1, 1, 3}, two[] = {1, 1};
    struct itree_polygons *polygons = NULL;
    check("a bow-tie", itree_overlay(bow_tie, 4, &stop, 1, NULL, 0, NULL, 0, ITREE_EVEN_ODD, ITREE_UNION, &polygons) ==
                           ITREE_ANSWERED);
    const size_t first = (size_t)!has_ring(polygons, 2, 0, left, 3);
    check("is two triangles, where it is rounded", have_rings(polygons, two, 2) &&
                                                       has_ring(polygons, 2, first, left, 3) &&
                                                       has_ring(polygons, 2, 1 - first, right, 3));
    itree_polygons_free(polygons);
    struct rings odd = rectangle(0, 0, 2, 2);
    memcpy(odd.ends, stops, sizeof stops);
    odd.count = 5;
    check("rings of none, one and two points", is_nothing(&odd, &none, ITREE_NON_ZERO, ITREE_UNION));
    odd.count = 1;
    odd.ends[0] = 3;
    const struct itree_point triangle[] = {{0, 0}, {2, 0}, {2, 2}};
    check("a point behind the last ring", is_one_ring(&odd, &none, ITREE_NON_ZERO, ITREE_UNION, triangle, 3));
    struct rings widest = rectangle(INT32_MIN, INT32_MIN, INT32_MAX, INT32_MAX);
    check("from the least to the greatest number", is_one_ring(&widest, &none, ITREE_NON_ZERO, ITREE_UNION, whole, 4));
}

/* Rectangles by chance, some of them without a width, which go either way. */
static struct rings random_rectangles(void) {
    struct rings rings = {.count = 0};
    const int32_t count = random_below(5);
    for (int32_t place = 0; place < count; place++) {
        add_rectangle(&rings, random_below(8), random_below(8), random_below(8), random_below(8), random_below(2));
    }
    return rings;
}

/* Whether the polygons go once round each unit square of the result, and not at all round any other. */
static int is_plain_overlay(const struct rings *subject, const struct rings *clip, int32_t rule, int32_t operation) {
    struct itree_polygons *polygons = NULL;
    const struct itree_point *points;
    const size_t *offsets;
    if (overlay(subject, clip, rule, operation, &polygons) != ITREE_ANSWERED) return 0;
    itree_polygons_points(polygons, &points);
    const size_t rings = itree_polygons_ring_offsets(polygons, &offsets) - 1;
    int ok = 1;
    for (int32_t place = 0; place < 81; place++) {
        const int32_t x = place % 9 - 1, y = place / 9 - 1;
        const int wanted =
            plain_is_result(rule, operation, plain_winding(subject->points, subject->ends, subject->count, x, y),
                            plain_winding(clip->points, clip->ends, clip->count, x, y));
        ok = ok && plain_winding(points, offsets + 1, rings, x, y) == wanted;
    }
    itree_polygons_free(polygons);
    return ok;
}

static void checks_overlays(void) {
    int ok = 1;
    for (int32_t round = 0; round < 4000; round++) {
        const struct rings subject = random_rectangles(), clip = random_rectangles();
        ok = ok && is_plain_overlay(&subject, &clip, round % 4, round / 4 % 4);
    }
    check("overlays of rectangles, as the plain model", ok);
}

static void checks_faulty_rings(void) {
    const struct rings square = rectangle(0, 0, 9, 9);
    const size_t falling[] = {3, 2}, behind[] = {2, 5};
    struct itree_polygons *polygons = (void *)&polygons;
    struct rings faulty = square;
    faulty.count = 2;
    memcpy(faulty.ends, falling, sizeof falling);
    check("a ring that stops before it begins",
          overlay(&faulty, &square, 0, 0, &polygons) == ITREE_LENGTHS && polygons == NULL);
    memcpy(faulty.ends, behind, sizeof behind);
    polygons = (void *)&polygons;
    check("a ring that stops behind the points",
          overlay(&square, &faulty, 0, 0, &polygons) == ITREE_LENGTHS && polygons == NULL);
    const int32_t faults[][2] = {{-1, 0}, {4, 0}, {0, -1}, {0, 4}, {INT32_MAX, INT32_MIN}};
    for (int place = 0; place < 5; place++) {
        polygons = (void *)&polygons;
        const int32_t status = overlay(&faulty, &square, faults[place][0], faults[place][1], &polygons);
        check("no such rule or operation, though a ring is faulty too", status == ITREE_CHOICE && polygons == NULL);
    }
    refuse_after(0);
    check("faults take no memory", overlay(&square, &faulty, 3, 3, &polygons) == ITREE_LENGTHS);
    check("nor do numbers", overlay(&square, &square, 4, 3, &polygons) == ITREE_CHOICE);
    check("a square does", overlay(&square, &square, 3, 3, &polygons) == ITREE_REFUSED);
    refuse_after(SIZE_MAX);
}

static void checks_faulty_overlays(void) {
    const struct itree_point points[] = {{0, 0}, {9, 0}, {0, 9}};
    const size_t ends[] = {3};
    uint64_t words[8] = {0};
    char *const odd = (char *)words + 1;
    struct itree_polygons *polygons = (void *)words;
    check("no subject", itree_overlay(NULL, 3, ends, 1, points, 3, ends, 1, 0, 0, &polygons) == ITREE_POINTER);
    check("no ends of it", itree_overlay(points, 3, NULL, 1, points, 3, ends, 1, 0, 0, &polygons) == ITREE_POINTER);
    check("no clip", itree_overlay(points, 3, ends, 1, NULL, 3, ends, 1, 0, 0, &polygons) == ITREE_POINTER);
    check("no ends of that", itree_overlay(points, 3, ends, 1, points, 3, NULL, 1, 0, 0, &polygons) == ITREE_POINTER);
    check("no handle of polygons", itree_overlay(points, 3, ends, 1, points, 3, ends, 1, 0, 0, NULL) == ITREE_POINTER);
    check("a subject at an odd address",
          itree_overlay((void *)odd, 3, ends, 1, points, 3, ends, 1, 0, 0, &polygons) == ITREE_POINTER);
    check("ends at an odd address",
          itree_overlay(points, 3, ends, 1, points, 3, (void *)odd, 1, 0, 0, &polygons) == ITREE_POINTER);
    check("a handle of polygons at an odd address",
          itree_overlay(points, 3, ends, 1, points, 3, ends, 1, 0, 0, (void *)odd) == ITREE_POINTER);
    check("a clip larger than memory",
          itree_overlay(points, 3, ends, 1, points, SIZE_MAX / 8, ends, 1, 0, 0, &polygons) == ITREE_POINTER);
    check("a faulty pointer comes before a number",
          itree_overlay(points, 3, ends, 1, points, 3, NULL, 1, 9, 9, &polygons) == ITREE_POINTER);
    check("the handle of polygons stays as it was there", polygons == (void *)words);
    check("null for no rings",
          itree_overlay(NULL, 0, NULL, 0, NULL, 0, NULL, 0, 0, 0, &polygons) == ITREE_ANSWERED && polygons != NULL);
    itree_polygons_free(polygons);
    const struct itree_point *first = points;
    const size_t *rings = ends, *stops = ends;
    check("null has no points", itree_polygons_points(NULL, &first) == 0 && first == NULL);
    check("nor rings", itree_polygons_ring_offsets(NULL, &rings) == 0 && rings == NULL);
    check("nor polygons", itree_polygons_polygon_offsets(NULL, &stops) == 0 && stops == NULL);
    check("nobody asks where",
          itree_polygons_points(NULL, NULL) == 0 && itree_polygons_polygon_offsets(NULL, NULL) == 0);
    itree_polygons_free(NULL);
}

static void checks_refused_polygons(void) {
    struct rings subject = {.count = 0}, clip = {.count = 0};
    struct itree_polygons *polygons = NULL;
    size_t requests = 0;
    int ok = 1;
    for (int32_t place = 0; place < MOST; place++) {
        add_rectangle(&subject, 0, 20 * place, 240, 20 * place + 10, 0);
        add_rectangle(&clip, 20 * place, 0, 20 * place + 10, 240, 0);
    }
    while (1) {
        polygons = (void *)&subject;
        refuse_after(requests);
        const int32_t status = overlay(&subject, &clip, ITREE_NON_ZERO, ITREE_INTERSECTION, &polygons);
        refuse_after(SIZE_MAX);
        if (status != ITREE_REFUSED) break;
        ok = ok && polygons == NULL;
        requests++;
    }
    check("each request for polygons is refused in turn", requests > 4 && ok);
    check("with all requests granted each meets each",
          itree_polygons_polygon_offsets(polygons, NULL) == MOST * MOST + 1);
    itree_polygons_free(polygons);
}

int main(void) {
    checks_two_squares();
    checks_a_hole();
    checks_rules();
    checks_odd_rings();
    checks_overlays();
    checks_faulty_rings();
    checks_faulty_overlays();
    checks_refused_polygons();
    return told();
}
