/* Tiles joined from C beside a plain model, at faults, and with each request for memory refused in turn. */
#include <itree.h>
#include <stdio.h>
#include <string.h>

#include "counted.h"
#include "plain_overlay.h"
#include "refuse.h"

enum { MOST = 12, SIDE = 9, ROOM = 4000 };

/* Rings as a caller has them. */
struct rings {
    struct itree_point points[4 * MOST];
    size_t ends[MOST];
    size_t count, point_count;
};

static void add_rectangle(struct rings *rings, int32_t x0, int32_t y0, int32_t x1, int32_t y1) {
    const struct itree_point corners[] = {{x0, y0}, {x1, y0}, {x1, y1}, {x0, y1}};
    for (int corner = 0; corner < 4; corner++) rings->points[rings->point_count++] = corners[corner];
    rings->ends[rings->count++] = rings->point_count;
}

static struct rings rectangle(int32_t x0, int32_t y0, int32_t x1, int32_t y1) {
    struct rings rings = {.count = 0};
    add_rectangle(&rings, x0, y0, x1, y1);
    return rings;
}

static int32_t overlay_in(const struct itree_window *window, const struct rings *subject, const struct rings *clip,
                          int32_t rule, int32_t operation, struct itree_polygons **polygons) {
    return itree_overlay_in(window, subject->points, subject->point_count, subject->ends, subject->count, clip->points,
                            clip->point_count, clip->ends, clip->count, rule, operation, polygons);
}

/* Tiles as itree_join takes them. */
struct tiles {
    struct itree_window windows[MOST];
    size_t tile_ends[MOST], polygon_ends[ROOM], ring_ends[ROOM];
    struct itree_point points[ROOM];
    size_t count, polygon_count, ring_count, point_count;
};

static void add_tile(struct tiles *tiles, struct itree_window window, const struct itree_polygons *polygons) {
    const struct itree_point *points;
    const size_t *rings, *stops;
    const size_t point_count = itree_polygons_points(polygons, &points);
    const size_t ring_count = itree_polygons_ring_offsets(polygons, &rings) - 1;
    const size_t count = itree_polygons_polygon_offsets(polygons, &stops) - 1;
    for (size_t place = 0; place < count; place++) {
        tiles->polygon_ends[tiles->polygon_count++] = tiles->ring_count + stops[place + 1];
    }
    for (size_t place = 0; place < ring_count; place++) {
        tiles->ring_ends[tiles->ring_count++] = tiles->point_count + rings[place + 1];
    }
    for (size_t place = 0; place < point_count; place++) tiles->points[tiles->point_count++] = points[place];
    tiles->windows[tiles->count] = window;
    tiles->tile_ends[tiles->count++] = tiles->polygon_count;
}

/* A tile of one polygon with one ring. */
static void add_ring(struct tiles *tiles, struct itree_window window, const struct itree_point *ring, size_t count) {
    for (size_t place = 0; place < count; place++) tiles->points[tiles->point_count++] = ring[place];
    tiles->ring_ends[tiles->ring_count++] = tiles->point_count;
    tiles->polygon_ends[tiles->polygon_count++] = tiles->ring_count;
    tiles->windows[tiles->count] = window;
    tiles->tile_ends[tiles->count++] = tiles->polygon_count;
}

static int32_t join(const struct tiles *tiles, struct itree_polygons **polygons) {
    return itree_join(tiles->windows, tiles->count, tiles->tile_ends, tiles->count, tiles->polygon_ends,
                      tiles->polygon_count, tiles->ring_ends, tiles->ring_count, tiles->points, tiles->point_count,
                      polygons);
}

/* Whether the polygons are one with so many rings, the first of which has the wanted points from whichever on. */
static int is_one(const struct itree_polygons *polygons, size_t rings, const struct itree_point *wanted, size_t count) {
    const struct itree_point *points;
    const size_t *offsets, *stops;
    itree_polygons_points(polygons, &points);
    return itree_polygons_polygon_offsets(polygons, &stops) == 2 && stops[1] == rings &&
           itree_polygons_ring_offsets(polygons, &offsets) == rings + 1 && is_ring(points, offsets[1], wanted, count);
}

static void checks_a_seam(void) {
    static struct tiles tiles;
    const struct rings field = rectangle(0, 0, 9, 9), pond = rectangle(3, 3, 6, 6);
    const struct itree_window left = {-1, -1, 5, 10}, right = {5, -1, 10, 10};
    const struct itree_point one[] = {{0, 0}, {5, 0}, {5, 3}, {3, 3}, {3, 6}, {5, 6}, {5, 9}, {0, 9}};
    const struct itree_point other[] = {{5, 0}, {9, 0}, {9, 9}, {5, 9}, {5, 6}, {6, 6}, {6, 3}, {5, 3}};
    const struct itree_point whole[] = {{0, 0}, {9, 0}, {9, 9}, {0, 9}};
    struct itree_polygons *polygons = NULL;
    check("a tile", overlay_in(&left, &field, &pond, 1, ITREE_DIFFERENCE, &polygons) == ITREE_ANSWERED);
    check("is what lies in its window", is_one(polygons, 1, one, 8));
    add_tile(&tiles, left, polygons);
    itree_polygons_free(polygons);
    check("and the next", overlay_in(&right, &field, &pond, 1, ITREE_DIFFERENCE, &polygons) == ITREE_ANSWERED);
    check("what lies in that", is_one(polygons, 1, other, 8));
    add_tile(&tiles, right, polygons);
    itree_polygons_free(polygons);
    check("tiles are joined", join(&tiles, &polygons) == ITREE_ANSWERED);
    check("to one polygon with its hole", is_one(polygons, 2, whole, 4) && itree_polygons_points(polygons, NULL) == 8);
    itree_polygons_free(polygons);
}

static struct rings random_rectangles(void) {
    struct rings rings = {.count = 0};
    const int32_t count = random_below(5);
    for (int32_t place = 0; place < count; place++) {
        add_rectangle(&rings, random_below(SIDE), random_below(SIDE), random_below(SIDE), random_below(SIDE));
    }
    return rings;
}

/* Windows in two columns, each cut at a height of its own. */
static void random_windows(struct itree_window *windows) {
    const int32_t across = 1 + random_below(SIDE - 2);
    for (int column = 0; column < 2; column++) {
        const int32_t up = 1 + random_below(SIDE - 2);
        for (int row = 0; row < 2; row++) {
            windows[2 * column + row] =
                (struct itree_window){column ? across : -1, row ? up : -1, column ? SIDE : across, row ? SIDE : up};
        }
    }
}

/* Whether the polygons wind once round each unit square that is wanted, and round no other. */
static int are_right(const struct itree_polygons *polygons, const int *wanted) {
    const struct itree_point *points;
    const size_t *offsets;
    int ok = 1;
    itree_polygons_points(polygons, &points);
    const size_t rings = itree_polygons_ring_offsets(polygons, &offsets) - 1;
    for (int32_t x = -1; x < SIDE; x++) {
        for (int32_t y = -1; y < SIDE; y++) {
            ok = ok && plain_winding(points, offsets + 1, rings, x, y) == wanted[(x + 1) * (SIDE + 1) + y + 1];
        }
    }
    return ok;
}

/* Whether what the tiles of four windows are joined to is right. */
static int is_joined_right(int32_t rule, int32_t operation) {
    static struct tiles tiles;
    struct itree_window windows[4];
    struct itree_polygons *polygons = NULL;
    int wanted[(SIDE + 1) * (SIDE + 1)], ok = 1;
    const struct rings subject = random_rectangles(), clip = random_rectangles();
    for (int32_t place = 0; place < (SIDE + 1) * (SIDE + 1); place++) {
        const int32_t x = place / (SIDE + 1) - 1, y = place % (SIDE + 1) - 1;
        wanted[place] =
            plain_is_result(rule, operation, plain_winding(subject.points, subject.ends, subject.count, x, y),
                            plain_winding(clip.points, clip.ends, clip.count, x, y));
    }
    memset(&tiles, 0, sizeof tiles);
    random_windows(windows);
    for (int place = 0; place < 4; place++) {
        ok = ok && overlay_in(&windows[place], &subject, &clip, rule, operation, &polygons) == ITREE_ANSWERED;
        add_tile(&tiles, windows[place], polygons);
        itree_polygons_free(polygons);
    }
    ok = ok && join(&tiles, &polygons) == ITREE_ANSWERED && are_right(polygons, wanted);
    itree_polygons_free(polygons);
    return ok;
}

static void checks_joined(void) {
    int ok = 1;
    for (int32_t round = 0; round < 2000; round++) ok = ok && is_joined_right(round % 4, round / 4 % 4);
    check("tiles of rectangles are joined, as the plain model", ok);
}

static int is_window(const struct itree_window *window, const struct itree_window *wanted) {
    return window->left == wanted->left && window->low == wanted->low && window->right == wanted->right &&
           window->high == wanted->high;
}

static void checks_faulty_pointers(void) {
    const struct itree_point it[] = {{0, 0}, {9, 0}, {0, 9}};
    const struct itree_window window = {0, 0, 9, 9};
    const size_t ends[] = {3};
    uint64_t words[8] = {0};
    char *const odd = (char *)words + 1;
    struct itree_polygons *polygons = (void *)words;
    check("no windows", itree_join(NULL, 1, ends, 1, ends, 1, ends, 1, it, 3, &polygons) == ITREE_POINTER);
    check("no ends of tiles", itree_join(&window, 1, NULL, 1, ends, 1, ends, 1, it, 3, &polygons) == ITREE_POINTER);
    check("none of polygons", itree_join(&window, 1, ends, 1, NULL, 1, ends, 1, it, 3, &polygons) == ITREE_POINTER);
    check("none of rings", itree_join(&window, 1, ends, 1, ends, 1, NULL, 1, it, 3, &polygons) == ITREE_POINTER);
    check("no points", itree_join(&window, 1, ends, 1, ends, 1, ends, 1, NULL, 3, &polygons) == ITREE_POINTER);
    check("points at an odd address",
          itree_join(&window, 1, ends, 1, ends, 1, ends, 1, (void *)odd, 3, &polygons) == ITREE_POINTER);
    check("no handle of what is joined",
          itree_join(&window, 1, ends, 1, ends, 1, ends, 1, it, 3, NULL) == ITREE_POINTER);
    check("the handle stays as it was there", polygons == (void *)words);
    check("null for no tiles",
          itree_join(NULL, 0, NULL, 0, NULL, 0, NULL, 0, NULL, 0, &polygons) == ITREE_ANSWERED && polygons != NULL);
    itree_polygons_free(polygons);
}

/* Whether the tiles are faulty by the status. */
static int are_faulty(const struct tiles *tiles, int32_t status) {
    struct itree_polygons *polygons = (void *)&polygons;
    return join(tiles, &polygons) == status && polygons == NULL;
}

static void checks_faulty_tiles(void) {
    static struct tiles right, faulty;
    const struct itree_point one[] = {{0, 0}, {5, 0}, {5, 5}, {0, 5}}, next[] = {{5, 0}, {9, 0}, {9, 5}, {5, 5}};
    const struct itree_point twice[] = {{5, 0}, {9, 0}, {9, 5}, {5, 5}, {5, 0}, {9, 0}, {9, 5}, {5, 5}};
    const struct itree_window left = {0, 0, 5, 5}, beside = {5, 0, 9, 5};
    struct itree_polygons *polygons = NULL;
    add_ring(&right, left, one, 4);
    add_ring(&right, beside, next, 4);
    check("two tiles", join(&right, &polygons) == ITREE_ANSWERED && itree_polygons_points(polygons, NULL) == 4);
    itree_polygons_free(polygons);
    faulty = right;
    faulty.windows[1].left = 4;
    check("windows that overlap", are_faulty(&faulty, ITREE_WINDOW));
    faulty = right;
    faulty.windows[1].high = 0;
    check("one without points", are_faulty(&faulty, ITREE_WINDOW));
    faulty = right;
    faulty.windows[1].right = 8;
    check("a polygon that leaves its window", are_faulty(&faulty, ITREE_UNFIT));
    memset(&faulty, 0, sizeof faulty);
    add_ring(&faulty, left, one, 4);
    add_ring(&faulty, beside, twice, 8);
    check("one that goes round twice", are_faulty(&faulty, ITREE_UNFIT));
    faulty = right;
    faulty.tile_ends[1] = 1;
    check("a polygon of no tile", are_faulty(&faulty, ITREE_LENGTHS));
    faulty = right;
    faulty.polygon_ends[1] = 1;
    check("a ring of no polygon", are_faulty(&faulty, ITREE_LENGTHS));
    faulty = right;
    faulty.ring_ends[1] = 9;
    check("a ring that stops behind the points", are_faulty(&faulty, ITREE_LENGTHS));
    polygons = (void *)&polygons;
    check("fewer tiles than windows", itree_join(right.windows, 2, right.tile_ends, 1, right.polygon_ends, 2,
                                                 right.ring_ends, 2, right.points, 8, &polygons) == ITREE_LENGTHS &&
                                          polygons == NULL);
}

static void checks_refused_tiles(void) {
    static struct tiles tiles;
    struct rings subject = {.count = 0}, clip = {.count = 0};
    const struct itree_window windows[] = {{-1, -1, 125, 241}, {125, -1, 241, 241}};
    struct itree_polygons *polygons = NULL;
    size_t requests = 0;
    int ok = 1;
    for (int32_t place = 0; place < MOST; place++) {
        add_rectangle(&subject, 0, 20 * place, 240, 20 * place + 10);
        add_rectangle(&clip, 20 * place, 0, 20 * place + 10, 240);
    }
    for (int which = 0; which < 2; which++) {
        ok = ok && overlay_in(&windows[which], &subject, &clip, ITREE_NON_ZERO, ITREE_INTERSECTION, &polygons) ==
                       ITREE_ANSWERED;
        add_tile(&tiles, windows[which], polygons);
        itree_polygons_free(polygons);
    }
    for (int32_t status = ITREE_REFUSED; status == ITREE_REFUSED; requests++) {
        polygons = (void *)&subject;
        refuse_after(requests);
        status = join(&tiles, &polygons);
        refuse_after(SIZE_MAX);
        ok = ok && (status == ITREE_ANSWERED || (status == ITREE_REFUSED && polygons == NULL));
    }
    check("each request for what is joined is refused in turn", requests > 4 && ok);
    check("joined each meets each", itree_polygons_polygon_offsets(polygons, NULL) == MOST * MOST + 1);
    itree_polygons_free(polygons);
}

static void checks_whole_window(void) {
    const struct itree_window windows[] = {{0, 0, 5, 9}, {5, 4, 9, 9}, {5, 0, 9, 4}, {9, 0, 10, 8}},
                              before = {1, 2, 3, 4};
    const struct itree_window overlapping[] = {{0, 0, 5, 9}, {4, 0, 9, 9}}, empty[] = {{0, 0, 0, 9}};
    struct itree_window whole = before;
    int32_t found = 7;
    uint64_t words[4] = {0};
    check("windows that overlap make up none", itree_whole_window(overlapping, 2, &whole, &found) == ITREE_WINDOW);
    check("nor do windows without points", itree_whole_window(empty, 1, &whole, &found) == ITREE_WINDOW);
    check("windows nowhere", itree_whole_window(NULL, 1, &whole, &found) == ITREE_POINTER &&
                                 itree_whole_window((void *)((char *)words + 1), 1, &whole, &found) == ITREE_POINTER);
    check("no room for a window or for whether there is one",
          itree_whole_window(windows, 1, NULL, &found) == ITREE_POINTER &&
              itree_whole_window(windows, 1, &whole, NULL) == ITREE_POINTER);
    check("nothing is written there", found == 7 && is_window(&whole, &before));
    check("three that make up one", itree_whole_window(windows, 3, &whole, &found) == ITREE_ANSWERED && found == 1 &&
                                        is_window(&whole, &(struct itree_window){0, 0, 9, 9}));
    whole = before;
    check("and a gap", itree_whole_window(windows, 4, &whole, &found) == ITREE_ANSWERED && found == 0);
    found = 1;
    check("no windows", itree_whole_window(NULL, 0, &whole, &found) == ITREE_ANSWERED && found == 0);
    check("of which none is written", is_window(&whole, &before));
}

int main(void) {
    checks_whole_window();
    checks_a_seam();
    checks_joined();
    checks_faulty_pointers();
    checks_faulty_tiles();
    checks_refused_tiles();
    return told();
}
