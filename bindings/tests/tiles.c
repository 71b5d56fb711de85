/* Overlays within a window from C beside a plain model, and rings that are cropped to one: at faults, and with each request for
 * memory refused in turn. */
#include <itree.h>
#include <stdio.h>
#include <string.h>

#include "counted.h"
#include "plain_overlay.h"
#include "refuse.h"

enum { MOST = 12, SIDE = 9 };

/* Rings as a caller has them. */
struct rings {
    struct itree_point points[4 * MOST];
    size_t ends[MOST];
    size_t count, point_count;
};

static void add_rectangle(struct rings *rings, int32_t x0, int32_t y0, int32_t x1, int32_t y1) {
    const struct itree_point corners[] = {{x0, y0}, {x1, y0}, {x1, y1}, {x0, y1}};
    for (int corner = 0; corner < 4; corner++) rings->points[rings->point_count++] = corners[corner];
    rings->ends[rings->count++] = rings->point_count;
}

static struct rings rectangle(int32_t x0, int32_t y0, int32_t x1, int32_t y1) {
    struct rings rings = {.count = 0};
    add_rectangle(&rings, x0, y0, x1, y1);
    return rings;
}

static int32_t overlay_in(const struct itree_window *window, const struct rings *subject, const struct rings *clip,
                          int32_t rule, int32_t operation, struct itree_polygons **polygons) {
    return itree_overlay_in(window, subject->points, subject->point_count, subject->ends, subject->count, clip->points,
                            clip->point_count, clip->ends, clip->count, rule, operation, polygons);
}

/* Whether the polygons are one with one ring, which has the wanted points from whichever on. */
static int is_one(const struct itree_polygons *polygons, const struct itree_point *wanted, size_t count) {
    const struct itree_point *points;
    const size_t *offsets, *stops;
    itree_polygons_points(polygons, &points);
    return itree_polygons_polygon_offsets(polygons, &stops) == 2 && stops[1] == 1 &&
           itree_polygons_ring_offsets(polygons, &offsets) == 2 && is_ring(points, offsets[1], wanted, count);
}

static void checks_two_windows(void) {
    const struct rings field = rectangle(0, 0, 9, 9), pond = rectangle(3, 3, 6, 6);
    const struct itree_window left = {-1, -1, 5, 10}, right = {5, -1, 10, 10};
    const struct itree_point one[] = {{0, 0}, {5, 0}, {5, 3}, {3, 3}, {3, 6}, {5, 6}, {5, 9}, {0, 9}};
    const struct itree_point other[] = {{5, 0}, {9, 0}, {9, 9}, {5, 9}, {5, 6}, {6, 6}, {6, 3}, {5, 3}};
    struct itree_polygons *polygons = NULL;
    check("a tile", overlay_in(&left, &field, &pond, 1, ITREE_DIFFERENCE, &polygons) == ITREE_ANSWERED);
    check("is what lies in its window", is_one(polygons, one, 8));
    itree_polygons_free(polygons);
    check("and the next", overlay_in(&right, &field, &pond, 1, ITREE_DIFFERENCE, &polygons) == ITREE_ANSWERED);
    check("what lies in that", is_one(polygons, other, 8));
    itree_polygons_free(polygons);
    const struct itree_window far = {20, 20, 30, 30};
    check("a window far off", overlay_in(&far, &field, &pond, 1, ITREE_UNION, &polygons) == ITREE_ANSWERED);
    check("has nothing", itree_polygons_polygon_offsets(polygons, NULL) == 1);
    itree_polygons_free(polygons);
}

static struct rings random_rectangles(void) {
    struct rings rings = {.count = 0};
    const int32_t count = random_below(5);
    for (int32_t place = 0; place < count; place++) {
        add_rectangle(&rings, random_below(SIDE), random_below(SIDE), random_below(SIDE), random_below(SIDE));
    }
    return rings;
}

/* Windows in two columns, each cut at a height of its own. */
static void random_windows(struct itree_window *windows) {
    const int32_t across = 1 + random_below(SIDE - 2);
    for (int column = 0; column < 2; column++) {
        const int32_t up = 1 + random_below(SIDE - 2);
        for (int row = 0; row < 2; row++) {
            windows[2 * column + row] =
                (struct itree_window){column ? across : -1, row ? up : -1, column ? SIDE : across, row ? SIDE : up};
        }
    }
}

/* Whether the polygons wind once round each unit square that is wanted and lies in the window, and round no other. */
static int are_right(const struct itree_polygons *polygons, const struct itree_window *window, const int *wanted) {
    const struct itree_point *points;
    const size_t *offsets;
    int ok = 1;
    itree_polygons_points(polygons, &points);
    const size_t rings = itree_polygons_ring_offsets(polygons, &offsets) - 1;
    for (int32_t x = -1; x < SIDE; x++) {
        for (int32_t y = -1; y < SIDE; y++) {
            const int is_in = window->left <= x && x < window->right && window->low <= y && y < window->high;
            const int is_wanted = is_in && wanted[(x + 1) * (SIDE + 1) + y + 1];
            ok = ok && plain_winding(points, offsets + 1, rings, x, y) == is_wanted;
        }
    }
    return ok;
}

/* Whether the tiles of four windows are right. */
static int are_tiles_right(int32_t rule, int32_t operation) {
    struct itree_window windows[4];
    struct itree_polygons *polygons = NULL;
    int wanted[(SIDE + 1) * (SIDE + 1)], ok = 1;
    const struct rings subject = random_rectangles(), clip = random_rectangles();
    for (int32_t place = 0; place < (SIDE + 1) * (SIDE + 1); place++) {
        const int32_t x = place / (SIDE + 1) - 1, y = place % (SIDE + 1) - 1;
        wanted[place] =
            plain_is_result(rule, operation, plain_winding(subject.points, subject.ends, subject.count, x, y),
                            plain_winding(clip.points, clip.ends, clip.count, x, y));
    }
    random_windows(windows);
    for (int place = 0; place < 4; place++) {
        ok = ok && overlay_in(&windows[place], &subject, &clip, rule, operation, &polygons) == ITREE_ANSWERED;
        ok = ok && are_right(polygons, &windows[place], wanted);
        itree_polygons_free(polygons);
    }
    return ok;
}

static void checks_tiles(void) {
    int ok = 1;
    for (int32_t round = 0; round < 2000; round++) ok = ok && are_tiles_right(round % 4, round / 4 % 4);
    check("tiles of rectangles, as the plain model", ok);
}

static void checks_faulty_windows(void) {
    const struct rings square = rectangle(0, 0, 9, 9);
    const struct itree_window windows[] = {{5, 0, 5, 9},
                                           {9, 0, 0, 9},
                                           {0, 4, 9, 4},
                                           {INT32_MIN + 1, 0, 9, 9},
                                           {0, INT32_MIN + 1, 9, 9},
                                           {0, 0, INT32_MAX - 1, 9},
                                           {0, 0, 9, INT32_MAX - 1}};
    struct itree_polygons *polygons = NULL;
    struct rings faulty = square;
    for (int place = 0; place < 7; place++) {
        polygons = (void *)&polygons;
        const int32_t status = overlay_in(&windows[place], &square, &square, 1, 0, &polygons);
        check("a window without points, or too far", status == ITREE_WINDOW && polygons == NULL);
    }
    const struct itree_window widest = {INT32_MIN + 2, INT32_MIN + 2, INT32_MAX - 2, INT32_MAX - 2};
    check("the widest one", overlay_in(&widest, &square, &square, 1, 0, &polygons) == ITREE_ANSWERED);
    check("has all", itree_polygons_points(polygons, NULL) == 4);
    itree_polygons_free(polygons);
    faulty.ends[0] = 5;
    polygons = (void *)&polygons;
    check("a faulty ring comes before a window",
          overlay_in(&windows[0], &square, &faulty, 1, 0, &polygons) == ITREE_LENGTHS && polygons == NULL);
    polygons = (void *)&polygons;
    check("and a number before both",
          overlay_in(&windows[0], &square, &faulty, 1, 4, &polygons) == ITREE_CHOICE && polygons == NULL);
    refuse_after(0);
    check("faulty windows take no memory", overlay_in(&windows[0], &square, &square, 1, 0, &polygons) == ITREE_WINDOW);
    check("others do", overlay_in(&widest, &square, &square, 1, 0, &polygons) == ITREE_REFUSED);
    refuse_after(SIZE_MAX);
}

static void checks_faulty_pointers(void) {
    const struct itree_point it[] = {{0, 0}, {9, 0}, {0, 9}};
    const struct itree_window window = {0, 0, 9, 9};
    const size_t ends[] = {3};
    uint64_t words[8] = {0};
    char *const odd = (char *)words + 1;
    struct itree_polygons *polygons = (void *)words;
    check("no window", itree_overlay_in(NULL, it, 3, ends, 1, it, 3, ends, 1, 0, 0, &polygons) == ITREE_POINTER);
    check("one at an odd address",
          itree_overlay_in((void *)odd, it, 3, ends, 1, it, 3, ends, 1, 0, 0, &polygons) == ITREE_POINTER);
    check("no subject", itree_overlay_in(&window, NULL, 3, ends, 1, it, 3, ends, 1, 0, 0, &polygons) == ITREE_POINTER);
    check("no ends of it", itree_overlay_in(&window, it, 3, NULL, 1, it, 3, ends, 1, 0, 0, &polygons) == ITREE_POINTER);
    check("no clip", itree_overlay_in(&window, it, 3, ends, 1, NULL, 3, ends, 1, 0, 0, &polygons) == ITREE_POINTER);
    check("no ends of that",
          itree_overlay_in(&window, it, 3, ends, 1, it, 3, NULL, 1, 9, 0, &polygons) == ITREE_POINTER);
    check("no handle", itree_overlay_in(&window, it, 3, ends, 1, it, 3, ends, 1, 0, 0, NULL) == ITREE_POINTER);
    check("the handle stays as it was there", polygons == (void *)words);
    check("null for no rings",
          itree_overlay_in(&window, NULL, 0, NULL, 0, NULL, 0, NULL, 0, 0, 0, &polygons) == ITREE_ANSWERED &&
              polygons != NULL);
    itree_polygons_free(polygons);
}

static void checks_refused_tiles(void) {
    struct rings subject = {.count = 0}, clip = {.count = 0};
    const struct itree_window window = {-1, -1, 125, 241};
    struct itree_polygons *polygons = NULL;
    size_t requests = 0;
    int ok = 1;
    for (int32_t place = 0; place < MOST; place++) {
        add_rectangle(&subject, 0, 20 * place, 240, 20 * place + 10);
        add_rectangle(&clip, 20 * place, 0, 20 * place + 10, 240);
    }
    while (1) {
        polygons = (void *)&subject;
        refuse_after(requests);
        const int32_t status = overlay_in(&window, &subject, &clip, ITREE_NON_ZERO, ITREE_INTERSECTION, &polygons);
        refuse_after(SIZE_MAX);
        if (status != ITREE_REFUSED) break;
        ok = ok && polygons == NULL;
        requests++;
    }
    check("each request for a tile is refused in turn", requests > 4 && ok);
    check("with all granted half of them meet", itree_polygons_polygon_offsets(polygons, NULL) == 7 * MOST + 1);
    itree_polygons_free(polygons);
}

/* A ring around the window, one far off, and one in it, with its first point once more. */
static const struct itree_point around_far_in[] = {{-50, -50}, {50, -50}, {50, 50}, {-50, 50}, {70, 70}, {80, 70},
                                                   {80, 80},   {1, 1},    {3, 1},   {3, 3},    {1, 1}};
static const size_t three_rings[] = {4, 7, 11};
static const struct itree_window small = {0, 0, 4, 4};

static void checks_cropped(void) {
    const struct itree_point wanted[] = {{-2, -2}, {6, -2}, {6, 6}, {-2, 6}, {1, 1}, {3, 1}, {3, 3}};
    const size_t offsets[] = {0, 4, 4, 7};
    struct itree_chains *cropped = NULL;
    check("rings cropped", itree_crop(&small, around_far_in, 11, three_rings, 3, &cropped) == ITREE_ANSWERED);
    check("a chain for each", itree_chains_count(cropped) == 3 && itree_chains_point_count(cropped) == 7);
    check("as by hand", !memcmp(itree_chains_points(cropped), wanted, sizeof wanted) &&
                            !memcmp(itree_chains_offsets(cropped), offsets, sizeof offsets));
    itree_chains_free(cropped);
    check("no rings", itree_crop(&small, NULL, 0, NULL, 0, &cropped) == ITREE_ANSWERED && cropped != NULL);
    check("no chains", itree_chains_count(cropped) == 0 && itree_chains_offsets(cropped)[0] == 0);
    itree_chains_free(cropped);
}

/* Whether a call writes null, and answers this. */
static int crops(const struct itree_window *window, const size_t *ends, size_t count, int32_t wanted) {
    struct itree_chains *cropped = (void *)&cropped;
    return itree_crop(window, around_far_in, 11, ends, count, &cropped) == wanted && cropped == NULL;
}

static void checks_faults_of_cropped(void) {
    const struct itree_window none = {4, 0, 4, 4}, far = {0, 0, 4, INT32_MAX - 1};
    const size_t behind[] = {4, 12}, falling[] = {4, 3};
    uint64_t words[8] = {0};
    struct itree_chains *cropped = (void *)words;
    check("a ring behind the points", crops(&small, behind, 2, ITREE_LENGTHS));
    check("one that stops before it begins", crops(&none, falling, 2, ITREE_LENGTHS));
    check("a window without points", crops(&none, three_rings, 3, ITREE_WINDOW));
    check("one too far off, and no ring", crops(&far, NULL, 0, ITREE_WINDOW));
    check("no window to crop to", itree_crop(NULL, around_far_in, 11, three_rings, 3, &cropped) == ITREE_POINTER);
    check("no points to crop", itree_crop(&small, NULL, 11, three_rings, 3, &cropped) == ITREE_POINTER);
    check("no ends of these", itree_crop(&small, around_far_in, 11, NULL, 3, &cropped) == ITREE_POINTER);
    check("the handle of chains stays as it was there", cropped == (void *)words);
    check("no handle for these", itree_crop(&small, around_far_in, 11, three_rings, 3, NULL) == ITREE_POINTER);
    size_t requests = 0;
    int32_t status = ITREE_REFUSED;
    for (; status == ITREE_REFUSED; requests++) {
        refuse_after(requests);
        status = itree_crop(&small, around_far_in, 11, three_rings, 3, &cropped);
        refuse_after(SIZE_MAX);
        check("refused, and there is no handle", (status == ITREE_REFUSED) == (cropped == NULL));
    }
    check("with all granted rings are cropped", requests > 3 && status == ITREE_ANSWERED);
    itree_chains_free(cropped);
}

int main(void) {
    checks_two_windows();
    checks_cropped();
    checks_faults_of_cropped();
    checks_tiles();
    checks_faulty_windows();
    checks_faulty_pointers();
    checks_refused_tiles();
    return told();
}
