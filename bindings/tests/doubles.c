/* Grids and well-known binary from C: by numbers and bytes that were reckoned by hand, at faults, and with each request
 * for memory refused in turn. */
#include <itree.h>
#include <math.h>
#include <stdio.h>
#include <string.h>

#include "counted.h"
#include "plain_overlay.h"
#include "refuse.h"

static int is_grid(const struct itree_grid *grid, int64_t x, int64_t y, int32_t exponent) {
    return grid->x == x && grid->y == y && grid->exponent == exponent;
}

/* Whether the grid that is fitted to two positions has these numbers. */
static int is_fitted(double x0, double y0, double x1, double y1, int64_t x, int64_t y, int32_t exponent) {
    const struct itree_position both[] = {{x0, y0}, {x1, y1}};
    struct itree_grid grid = {7, 7, 7};
    return itree_grid_fit(both, 2, &grid, NULL) == ITREE_ANSWERED && is_grid(&grid, x, y, exponent);
}

static void checks_fitted(void) {
    const int64_t half = INT64_C(1) << 30;
    struct itree_grid grid = {7, 7, 7};
    check("a unit square", is_fitted(0, 0, 1, 1, half, half, -31));
    check("in any order", is_fitted(1, 0, 0, 1, half, half, -31));
    check("wider than high", is_fitted(-3, 0, 5, 1, half / 4, half / 8, -28));
    check("one position, as fine as doubles are", is_fitted(1, 0.5, 1, 0.5, INT64_C(1) << 52, INT64_C(1) << 51, -52));
    check("far off", is_fitted(0x1p60, 0, 0x1p60, 0, INT64_C(1) << 52, 0, 8));
    check("the least double", is_fitted(0x1p-1074, 0, 0, 0, 0, 0, -1022));
    check("as far apart as can be", is_fitted(-0x1p1000, 0, 0x1p1000, 0, 0, 0, 970));
    check("all 0", is_fitted(0, 0, -0.0, 0, 0, 0, 0));
    check("no positions", itree_grid_fit(NULL, 0, &grid, NULL) == ITREE_ANSWERED && is_grid(&grid, 0, 0, 0));
}

static void checks_faulty_fits(void) {
    const struct itree_position faulty[][3] = {{{0, 0}, {1, NAN}, {NAN, 0}}, {{0, 0}, {-INFINITY, 0}, {0, INFINITY}}};
    const struct itree_position apart[] = {{-1e308, 0}, {1e308, 0}};
    const struct itree_grid before = {7, 7, 7};
    struct itree_grid grid = before;
    uint64_t words[8] = {0};
    char *const odd = (char *)words + 1;
    size_t fault = 9;
    for (int place = 0; place < 2; place++) {
        check("a position that isn't finite", itree_grid_fit(faulty[place], 3, &grid, &fault) == ITREE_FAULTY &&
                                                  fault == 1 && memcmp(&grid, &before, sizeof grid) == 0);
    }
    check("positions too far apart", itree_grid_fit(apart, 2, &grid, &fault) == ITREE_FAULTY && fault == 2);
    check("nobody asks which", itree_grid_fit(apart, 2, &grid, NULL) == ITREE_FAULTY);
    check("no positions to fit", itree_grid_fit(NULL, 1, &grid, &fault) == ITREE_POINTER);
    check("no grid", itree_grid_fit(apart, 2, NULL, &fault) == ITREE_POINTER);
    check("a grid at an odd address", itree_grid_fit(apart, 2, (void *)odd, &fault) == ITREE_POINTER);
    check("a fault at an odd address", itree_grid_fit(apart, 2, &grid, (void *)odd) == ITREE_POINTER);
    check("the grid stays as it was", memcmp(&grid, &before, sizeof grid) == 0 && fault == 2);
}

/* The number to which one coordinate rounds, or 77 where it is faulty. */
static int32_t rounded(int64_t origin, int32_t exponent, double coordinate) {
    const struct itree_grid grid = {origin, 0, exponent};
    const struct itree_position position = {coordinate, 0};
    struct itree_point point = {0, 0};
    const int32_t status = itree_grid_round(&grid, &position, 1, &point, 1, NULL);
    return status == ITREE_ANSWERED ? point.x : status == ITREE_FAULTY ? 77 : 78;
}

static void checks_rounded(void) {
    check("halves to even", rounded(0, 0, 0.5) == 0 && rounded(0, 0, 1.5) == 2 && rounded(0, 0, 2.5) == 2);
    check("below 0 too", rounded(0, 0, -0.5) == 0 && rounded(0, 0, -1.5) == -2 && rounded(0, 0, -2.5) == -2);
    check("even with the origin", rounded(1, 0, 0.5) == -1 && rounded(1, 0, 1.5) == 1 && rounded(-3, 1, 1) == 3);
    check("just beside a half", rounded(0, 0, 0.49999999999999994) == 0 && rounded(0, 0, 1.4999999999999998) == 1);
    check("fine units", rounded(0, -31, 0x1p-32) == 0 && rounded(0, -31, 0x1.8p-31) == 2);
    check("coarse units", rounded(0, 970, 0x1p969) == 0 && rounded(0, 970, 0x1.8p970) == 2 && rounded(0, 970, 1) == 0);
    check("the least double", rounded(5, -1022, 0x1p-1074) == -5 && rounded(0, -1022, 0x1.8p-1022) == 2);
    check("the greatest points",
          rounded(0, 0, 2147483647.25) == INT32_MAX && rounded(0, 0, -2147483648.5) == INT32_MIN);
    check("off the grid", rounded(0, 0, 2147483647.5) == 77 && rounded(0, 0, -2147483649.0) == 77);
    check("far off it", rounded(0, 0, 1e308) == 77 && rounded(0, -1022, 1e308) == 77 && rounded(-1, 0, 0x1p31) == 77);
    check("not finite", rounded(0, 0, NAN) == 77 && rounded(0, 0, -INFINITY) == 77);
}

static void checks_there_and_back(void) {
    int is_back = 1, is_near = 1;
    for (int round = 0; round < 20000; round++) {
        const struct itree_grid grid = {random_below(1 << 30) * INT64_C(4194304), -random_below(1 << 30),
                                        random_below(40) - 20};
        const struct itree_point points[] = {{random_below(1 << 30), -random_below(1 << 30)}, {INT32_MIN, INT32_MAX}};
        struct itree_position positions[2];
        struct itree_point again[2];
        is_back = is_back && itree_grid_positions(&grid, points, 2, positions, 2) == ITREE_ANSWERED &&
                  itree_grid_round(&grid, positions, 2, again, 2, NULL) == ITREE_ANSWERED &&
                  memcmp(points, again, sizeof points) == 0 &&
                  positions[0].x == ldexp((double)(points[0].x + grid.x), grid.exponent) &&
                  positions[1].y == ldexp((double)(points[1].y + grid.y), grid.exponent);
        const struct itree_position moved = {positions[0].x + ldexp(0.3125, grid.exponent), positions[0].y};
        is_near = is_near && itree_grid_round(&grid, &moved, 1, again, 1, NULL) == ITREE_ANSWERED &&
                  fabs(ldexp((double)(again[0].x + grid.x), grid.exponent) - moved.x) <= ldexp(0.5, grid.exponent);
    }
    check("points go there and back", is_back);
    check("positions go to a point within half a unit", is_near);
}

static void checks_faulty_rounding(void) {
    const struct itree_grid grid = {0, 0, 0};
    const int64_t most = (INT64_C(1) << 53) - (INT64_C(1) << 31);
    const struct itree_grid none[] = {
        {0, 0, 971}, {0, 0, -1023}, {most + 1, 0, 0}, {0, -most - 1, 0}, {0, 0, INT32_MIN}};
    const struct itree_grid last[] = {{most, -most, 970}, {-most, most, -1022}};
    const struct itree_point middle = {0, 0};
    const struct itree_position positions[] = {{1, 2}, {3, 4e9}, {NAN, 0}};
    struct itree_point points[3] = {{0, 0}};
    struct itree_position back[3];
    size_t fault = 9;
    check("the first faulty position",
          itree_grid_round(&grid, positions, 3, points, 3, &fault) == ITREE_FAULTY && fault == 1);
    for (int place = 0; place < 5; place++) {
        check("a grid that is none", itree_grid_round(&none[place], positions, 1, points, 2, &fault) == ITREE_CHOICE &&
                                         itree_grid_positions(&none[place], points, 1, back, 2) == ITREE_CHOICE);
    }
    for (int place = 0; place < 2; place++) {
        check("the last grids", itree_grid_positions(&last[place], &middle, 1, back, 1) == ITREE_ANSWERED &&
                                    back[0].x == ldexp((double)last[place].x, last[place].exponent) &&
                                    isfinite(back[0].y));
    }
    check("lengths that differ", itree_grid_round(&grid, positions, 1, points, 2, &fault) == ITREE_LENGTHS &&
                                     itree_grid_positions(&grid, points, 2, back, 1) == ITREE_LENGTHS);
    check("no positions", itree_grid_round(&grid, NULL, 0, NULL, 0, NULL) == ITREE_ANSWERED &&
                              itree_grid_positions(&grid, NULL, 0, NULL, 0) == ITREE_ANSWERED);
    check("the fault stays as it was", fault == 1);
}

static void checks_faulty_pointers_of_rounding(void) {
    const struct itree_grid grid = {0, 0, 0};
    const struct itree_position positions[] = {{1, 2}};
    struct itree_point points[1] = {{0, 0}};
    struct itree_position back[1];
    uint64_t words[8] = {0};
    char *const odd = (char *)words + 1;
    check("no grid to round to", itree_grid_round(NULL, positions, 1, points, 1, NULL) == ITREE_POINTER &&
                                     itree_grid_positions(NULL, points, 1, back, 1) == ITREE_POINTER);
    check("null positions", itree_grid_round(&grid, NULL, 1, points, 1, NULL) == ITREE_POINTER &&
                                itree_grid_positions(&grid, points, 1, NULL, 1) == ITREE_POINTER);
    check("null points", itree_grid_round(&grid, positions, 1, NULL, 1, NULL) == ITREE_POINTER &&
                             itree_grid_positions(&grid, NULL, 1, back, 1) == ITREE_POINTER);
    check("at odd addresses", itree_grid_round(&grid, (void *)odd, 1, points, 1, NULL) == ITREE_POINTER &&
                                  itree_grid_positions(&grid, points, 1, (void *)odd, 1) == ITREE_POINTER &&
                                  itree_grid_round((void *)odd, positions, 1, points, 1, NULL) == ITREE_POINTER &&
                                  itree_grid_round(&grid, positions, 1, points, 1, (void *)odd) == ITREE_POINTER);
}

/* Bytes that are put together, of one byte order. */
struct bytes {
    uint8_t at[4096];
    size_t count;
    int is_big;
};

static void add_number(struct bytes *bytes, uint64_t number, size_t size) {
    for (size_t place = 0; place < size; place++) {
        const size_t shift = 8 * (bytes->is_big ? size - 1 - place : place);
        bytes->at[bytes->count++] = (uint8_t)(number >> shift);
    }
}

static void add_double(struct bytes *bytes, double number) {
    uint64_t bits;
    memcpy(&bits, &number, sizeof bits);
    add_number(bytes, bits, 8);
}

/* A geometry's byte order, type and, but at 0, SRID, and how many parts it has. */
static void add_head(struct bytes *bytes, uint32_t type, uint32_t srid, uint32_t parts) {
    add_number(bytes, !bytes->is_big, 1);
    add_number(bytes, type | (srid ? 0x20000000u : 0), 4);
    if (srid) add_number(bytes, srid, 4);
    add_number(bytes, parts, 4);
}

/* A ring whose positions have so many coordinates, of which the first two are told. */
static void add_ring(struct bytes *bytes, const struct itree_position *positions, uint32_t count, int coordinates) {
    add_number(bytes, count, 4);
    for (uint32_t place = 0; place < count; place++) {
        add_double(bytes, positions[place].x);
        add_double(bytes, positions[place].y);
        for (int more = 2; more < coordinates; more++) add_double(bytes, NAN);
    }
}

/* A square that goes counterclockwise, or the other way, and ends with its first position again. */
static const struct itree_position around[] = {{0, 0}, {9, 0}, {9, 9}, {0, 9}, {0, 0}};
static const struct itree_position back_around[] = {{3, 3}, {3, 6}, {6, 6}, {6, 3}, {3, 3}};
/* The points of the same two on a grid of halves: as an outer ring, and as a hole. */
static const struct itree_grid halves = {0, 0, -1};
static const struct itree_point outer[] = {{0, 0}, {18, 0}, {18, 18}, {0, 18}};
static const struct itree_point hole[] = {{6, 6}, {6, 12}, {12, 12}, {12, 6}};

/* Whether one shape is read as so many rings, of which the first is the square, and the second is the hole. */
static int is_read(const struct bytes *bytes, size_t rings) {
    const size_t ends[] = {0, bytes->count};
    const struct itree_point *points;
    const size_t *offsets, *stops;
    struct itree_polygons *shapes = NULL;
    if (itree_wkb_read(bytes->at, bytes->count, ends, 2, &halves, &shapes, NULL) != ITREE_ANSWERED) return 0;
    itree_polygons_points(shapes, &points);
    int ok = itree_polygons_ring_offsets(shapes, &offsets) == rings + 1 && offsets[0] == 0 &&
             itree_polygons_polygon_offsets(shapes, &stops) == 2 && stops[0] == 0 && stops[1] == rings;
    ok = ok && (rings < 1 || is_ring(points, offsets[1], outer, 4));
    ok = ok && (rings < 2 || is_ring(points + offsets[1], offsets[2] - offsets[1], hole, 4));
    itree_polygons_free(shapes);
    return ok;
}

/* A polygon with a hole, each of whose rings runs the one way or the other, and ends with its first position or not. */
static struct bytes polygon(int is_big, uint32_t type, uint32_t srid, int coordinates, int is_turned, int is_open) {
    struct bytes bytes = {.count = 0, .is_big = is_big};
    struct itree_position rings[2][5];
    for (int place = 0; place < 5; place++) {
        rings[0][place] = around[is_turned ? 4 - place : place];
        rings[1][place] = back_around[is_turned ? 4 - place : place];
    }
    add_head(&bytes, type, srid, 2);
    for (int ring = 0; ring < 2; ring++) add_ring(&bytes, rings[ring], is_open ? 4 : 5, coordinates);
    return bytes;
}

static void checks_read(void) {
    const struct {
        uint32_t type;
        int coordinates;
    } kinds[] = {{3, 2}, {1003, 3}, {2003, 3}, {3003, 4}, {0x80000003, 3}, {0x40000003, 3}, {0xC0000003, 4}};
    for (int way = 0; way < 16; way++) {
        for (int place = 0; place < 7; place++) {
            const struct bytes bytes =
                polygon(way & 1, kinds[place].type, way & 2 ? 4326 : 0, kinds[place].coordinates, way & 4, way & 8);
            uint32_t srid = 1;
            check("a polygon with a hole", is_read(&bytes, 2));
            check("its reference system",
                  itree_wkb_srid(bytes.at, bytes.count, &srid) == ITREE_ANSWERED && srid == (way & 2 ? 4326 : 0));
        }
    }
    struct bytes bytes = {.count = 0};
    add_head(&bytes, 3, 0, 0);
    check("a polygon without rings", is_read(&bytes, 0));
    bytes.count = 0;
    add_head(&bytes, 6, 0, 0);
    check("no polygons", is_read(&bytes, 0));
    bytes.count = 0;
    add_head(&bytes, 7, 31, 0);
    check("an empty collection", is_read(&bytes, 0));
    uint32_t srid = 7;
    check("bytes too few for a reference system", itree_wkb_srid(bytes.at, 8, &srid) == ITREE_ANSWERED && srid == 0);
    check("no bytes have none", itree_wkb_srid(NULL, 0, &srid) == ITREE_ANSWERED && srid == 0);
}

/* A collection of an empty one, a MultiPolygon of the one byte order, and a polygon of the other. */
static struct bytes collection(void) {
    struct bytes bytes = {.count = 0};
    add_head(&bytes, 7, 4326, 3);
    add_head(&bytes, 7, 0, 0);
    bytes.is_big = 1;
    add_head(&bytes, 1006, 0, 1);
    add_head(&bytes, 1003, 0, 2);
    add_ring(&bytes, around, 5, 3);
    add_ring(&bytes, back_around, 5, 3);
    bytes.is_big = 0;
    add_head(&bytes, 3, 4326, 1);
    add_ring(&bytes, around, 4, 2);
    return bytes;
}

static struct bytes nested(int deep) {
    struct bytes bytes = {.count = 0};
    for (int place = 0; place < deep; place++) add_head(&bytes, 7, 0, 1);
    add_head(&bytes, 3, 0, 1);
    add_ring(&bytes, around, 5, 2);
    return bytes;
}

static void checks_collections(void) {
    const struct bytes mixed = collection(), deep = nested(16);
    check("a collection", is_read(&mixed, 3));
    check("collections 16 deep", is_read(&deep, 1));
    struct bytes two = polygon(0, 3, 0, 2, 0, 0);
    const size_t first = two.count;
    add_head(&two, 6, 0, 0);
    const size_t second = two.count;
    add_head(&two, 3, 0, 1);
    add_ring(&two, back_around, 5, 2);
    const size_t ends[] = {0, first, second, two.count}, behind = two.count;
    struct itree_polygons *shapes = NULL;
    const size_t *stops, *offsets;
    const struct itree_point *points;
    check("three shapes", itree_wkb_read(two.at, two.count, ends, 4, &halves, &shapes, NULL) == ITREE_ANSWERED);
    itree_polygons_points(shapes, &points);
    itree_polygons_ring_offsets(shapes, &offsets);
    check("stop among the rings", itree_polygons_polygon_offsets(shapes, &stops) == 4 && stops[0] == 0 &&
                                      stops[1] == 2 && stops[2] == 2 && stops[3] == 3);
    const struct itree_point turned[] = {{6, 6}, {12, 6}, {12, 12}, {6, 12}};
    check("an outer ring is turned", is_ring(points + offsets[2], offsets[3] - offsets[2], turned, 4));
    itree_polygons_free(shapes);
    check("some of the bytes",
          itree_wkb_read(two.at, two.count, ends + 1, 2, &halves, &shapes, NULL) == ITREE_ANSWERED);
    check("are one shape",
          itree_polygons_polygon_offsets(shapes, NULL) == 2 && itree_polygons_points(shapes, NULL) == 0);
    itree_polygons_free(shapes);
    check("one offset, no shape",
          itree_wkb_read(two.at, two.count, &behind, 1, &halves, &shapes, NULL) == ITREE_ANSWERED);
    check("has no rings", itree_polygons_polygon_offsets(shapes, NULL) == 1);
    itree_polygons_free(shapes);
    check("nothing", itree_wkb_read(NULL, 0, NULL, 0, &halves, &shapes, NULL) == ITREE_ANSWERED);
    check("has none",
          itree_polygons_polygon_offsets(shapes, NULL) == 1 && itree_polygons_ring_offsets(shapes, NULL) == 1);
    itree_polygons_free(shapes);
}

static void checks_corners(void) {
    const struct bytes bytes = collection();
    const size_t ends[] = {0, bytes.count};
    struct itree_position corners[2] = {{5, 5}, {5, 5}};
    size_t found = 9;
    check("corners", itree_wkb_corners(bytes.at, bytes.count, ends, 2, corners, 2, &found, NULL) == ITREE_ANSWERED &&
                         found == 2 && corners[0].x == 0 && corners[0].y == 0 && corners[1].x == 9 &&
                         corners[1].y == 9);
    check("no corners", itree_wkb_corners(NULL, 0, NULL, 0, corners, 2, &found, NULL) == ITREE_ANSWERED && found == 0 &&
                            corners[1].x == 9);
    check("room for one", itree_wkb_corners(bytes.at, bytes.count, ends, 2, corners, 1, &found, NULL) == ITREE_LENGTHS);
    check("no room", itree_wkb_corners(bytes.at, bytes.count, ends, 2, NULL, 2, &found, NULL) == ITREE_POINTER);
    check("found nowhere", itree_wkb_corners(bytes.at, bytes.count, ends, 2, corners, 2, NULL, NULL) == ITREE_POINTER);
}

/* What is faulty of one shape, whose handle is NULL then: the kind, or 0 where it isn't, and where it begins. */
static size_t fault_of(const uint8_t *bytes, size_t count, size_t *byte) {
    const size_t ends[] = {0, count};
    struct itree_wkb_place fault = {0, 7, 0};
    struct itree_polygons *shapes = (void *)&fault;
    if (itree_wkb_read(bytes, count, ends, 2, &halves, &shapes, &fault) != ITREE_FAULTY) return 0;
    *byte = fault.byte;
    return shapes == NULL && fault.shape == 0 ? fault.kind : 0;
}

static void checks_faulty_shapes(void) {
    const struct bytes good = collection();
    size_t byte = 0;
    int is_short = 1;
    for (size_t count = 0; count < good.count; count++) {
        is_short = is_short && fault_of(good.at, count, &byte) == ITREE_WKB_SHORT && byte <= count;
    }
    check("each part of a shape is too short", is_short);
    struct bytes bytes = good;
    bytes.at[bytes.count] = 0;
    check("a byte left over", fault_of(bytes.at, bytes.count + 1, &byte) == ITREE_WKB_LEFT_OVER && byte == good.count);
    bytes.at[0] = 2;
    check("a byte order that is none", fault_of(bytes.at, bytes.count, &byte) == ITREE_WKB_BYTE_ORDER && byte == 0);
    bytes = good;
    bytes.at[13] = 7;
    check("that of a part", fault_of(bytes.at, bytes.count, &byte) == ITREE_WKB_BYTE_ORDER && byte == 13);
    const uint32_t kinds[] = {0, 1, 2, 4, 5, 8, 17, 4003, 10003, 0x10000003};
    for (int place = 0; place < 10; place++) {
        bytes.count = 0;
        add_head(&bytes, kinds[place], 0, 0);
        check("a kind that isn't read", fault_of(bytes.at, bytes.count, &byte) == ITREE_WKB_KIND && byte <= 1);
    }
    bytes.count = 0;
    add_head(&bytes, 6, 0, 1);
    add_head(&bytes, 7, 0, 0);
    check("a collection within a MultiPolygon", fault_of(bytes.at, bytes.count, &byte) == ITREE_WKB_KIND && byte >= 9);
    const struct bytes deep = nested(60);
    check("collections 60 deep", fault_of(deep.at, deep.count, &byte) == ITREE_WKB_NESTED);
}

static void checks_faulty_coordinates(void) {
    const double faults[] = {NAN, INFINITY, -INFINITY, 2e9, -0x1p1000};
    size_t byte = 0;
    for (int place = 0; place < 5; place++) {
        struct itree_position ring[5];
        struct bytes bytes = {.count = 0};
        memcpy(ring, around, sizeof ring);
        ring[2].x = faults[place];
        add_head(&bytes, 3, 0, 1);
        add_ring(&bytes, ring, 5, 2);
        const size_t kind = place < 3 ? ITREE_WKB_NOT_FINITE : ITREE_WKB_OFF_GRID;
        check("a faulty coordinate", fault_of(bytes.at, bytes.count, &byte) == kind && byte == 13 + 2 * 16);
    }
    struct bytes two = polygon(0, 3, 0, 2, 0, 0);
    const size_t first = two.count;
    add_head(&two, 1, 0, 0);
    const size_t faulty[] = {0, first, two.count}, falling[] = {0, first, 5}, behind[] = {0, first, two.count + 1};
    struct itree_wkb_place fault = {0, 0, 0};
    struct itree_polygons *shapes = NULL;
    check("the second shape", itree_wkb_read(two.at, two.count, faulty, 3, &halves, &shapes, &fault) == ITREE_FAULTY &&
                                  fault.kind == ITREE_WKB_KIND && fault.shape == 1 && fault.byte >= first);
    check("offsets that fall",
          itree_wkb_read(two.at, two.count, falling, 3, &halves, &shapes, &fault) == ITREE_FAULTY &&
              fault.kind == ITREE_WKB_OFFSETS && fault.shape == 1);
    check("an offset behind the bytes",
          itree_wkb_read(two.at, two.count, behind, 3, &halves, &shapes, &fault) == ITREE_FAULTY &&
              fault.kind == ITREE_WKB_OFFSETS && fault.shape == 1);
    struct itree_position corners[2];
    size_t found;
    check("their corners",
          itree_wkb_corners(two.at, two.count, behind, 3, corners, 2, &found, &fault) == ITREE_FAULTY &&
              fault.kind == ITREE_WKB_OFFSETS);
    check("nobody asks what", itree_wkb_read(two.at, two.count, behind, 3, &halves, &shapes, NULL) == ITREE_FAULTY);
}

static void checks_faulty_calls(void) {
    const struct bytes bytes = polygon(0, 3, 0, 2, 0, 0);
    const size_t ends[] = {0, bytes.count}, count = bytes.count;
    const struct itree_grid none = {0, 0, 971};
    uint64_t words[8] = {0};
    char *const odd = (char *)words + 1;
    struct itree_polygons *shapes = (void *)words;
    check("no bytes", itree_wkb_read(NULL, count, ends, 2, &halves, &shapes, NULL) == ITREE_POINTER);
    check("no offsets", itree_wkb_read(bytes.at, count, NULL, 2, &halves, &shapes, NULL) == ITREE_POINTER);
    check("no grid to read to", itree_wkb_read(bytes.at, count, ends, 2, NULL, &shapes, NULL) == ITREE_POINTER);
    check("no handle of shapes", itree_wkb_read(bytes.at, count, ends, 2, &halves, NULL, NULL) == ITREE_POINTER);
    check("a fault at an odd address",
          itree_wkb_read(bytes.at, count, ends, 2, &halves, &shapes, (void *)odd) == ITREE_POINTER);
    check("offsets at an odd address",
          itree_wkb_read(bytes.at, count, (void *)odd, 2, &halves, &shapes, NULL) == ITREE_POINTER);
    check("the handle of shapes stays as it was there", shapes == (void *)words);
    check("a grid that is none to read to",
          itree_wkb_read(bytes.at, count, ends, 2, &none, &shapes, NULL) == ITREE_CHOICE && shapes == NULL);
    check("no reference system", itree_wkb_srid(bytes.at, count, NULL) == ITREE_POINTER);
    check("nor bytes", itree_wkb_srid(NULL, 1, (uint32_t *)words) == ITREE_POINTER);
}

static void checks_refused_shapes(void) {
    const struct bytes bytes = collection();
    const size_t ends[] = {0, bytes.count};
    struct itree_polygons *shapes = NULL;
    size_t requests = 0;
    int ok = 1;
    while (1) {
        shapes = (void *)&bytes;
        refuse_after(requests);
        const int32_t status = itree_wkb_read(bytes.at, bytes.count, ends, 2, &halves, &shapes, NULL);
        refuse_after(SIZE_MAX);
        if (status != ITREE_REFUSED) break;
        ok = ok && shapes == NULL;
        requests++;
    }
    check("each request for shapes is refused in turn", requests > 2 && ok);
    check("with all requests granted there are three rings", itree_polygons_ring_offsets(shapes, NULL) == 4);
    itree_polygons_free(shapes);
}

/* Whether the polygon with a hole, and the hole alone as another one, are written as these bytes. */
static int is_written(int32_t form, uint32_t srid, const struct bytes *wanted) {
    struct itree_point points[12];
    const size_t ends[] = {4, 8, 12}, stops[] = {2, 3};
    uint8_t bytes[1024];
    size_t size = 0;
    memcpy(points, outer, sizeof outer);
    memcpy(points + 4, hole, sizeof hole);
    memcpy(points + 8, hole, sizeof hole);
    int ok = itree_wkb_write(points, 12, ends, 3, stops, 2, &halves, form, srid, NULL, 0, &size) == ITREE_ANSWERED &&
             size == wanted->count;
    memset(bytes, 0xee, sizeof bytes);
    ok = ok &&
         itree_wkb_write(points, 12, ends, 3, stops, 2, &halves, form, srid, bytes, wanted->count + 1, &size) ==
             ITREE_LENGTHS &&
         size == wanted->count && bytes[0] == 0xee;
    ok = ok && itree_wkb_write(points, 12, ends, 3, stops, 2, &halves, form, srid, bytes, wanted->count, NULL) ==
                   ITREE_ANSWERED;
    return ok && memcmp(bytes, wanted->at, wanted->count) == 0 && bytes[wanted->count] == 0xee;
}

static void checks_written(void) {
    for (int32_t form = 0; form < 2; form++) {
        for (uint32_t srid = 0; srid < 4326 * 2; srid += 4326) {
            struct bytes wanted = {.count = 0};
            const uint32_t own = form == ITREE_WKB_EACH_POLYGON ? srid : 0;
            if (form == ITREE_WKB_MULTIPOLYGON) add_head(&wanted, 6, srid, 2);
            add_head(&wanted, 3, own, 2);
            add_ring(&wanted, around, 5, 2);
            add_ring(&wanted, back_around, 5, 2);
            add_head(&wanted, 3, own, 1);
            add_ring(&wanted, back_around, 5, 2);
            check("polygons as they are written", is_written(form, srid, &wanted));
        }
    }
    uint8_t bytes[16];
    struct bytes none = {.count = 0};
    size_t size = 9;
    add_head(&none, 6, 0, 0);
    check("no polygons have 9 bytes",
          itree_wkb_write(NULL, 0, NULL, 0, NULL, 0, &halves, 0, 0, bytes, 9, &size) == ITREE_ANSWERED && size == 9 &&
              memcmp(bytes, none.at, 9) == 0);
    check("or none",
          itree_wkb_write(NULL, 0, NULL, 0, NULL, 0, &halves, 1, 7, NULL, 0, &size) == ITREE_ANSWERED && size == 0);
}

static void checks_faulty_writing(void) {
    const size_t ends[] = {4}, stops[] = {1}, far[] = {5}, beyond[] = {2}, falling[] = {4, 3}, two[] = {2};
    const struct itree_grid none = {0, 0, -1023};
    uint64_t words[8] = {0};
    char *const odd = (char *)words + 1;
    uint8_t bytes[8];
    size_t size = 77;
    check("a form that is none",
          itree_wkb_write(outer, 4, ends, 1, stops, 1, &halves, 2, 0, NULL, 0, &size) == ITREE_CHOICE);
    check("a grid that is none to write from",
          itree_wkb_write(outer, 4, ends, 1, stops, 1, &none, 0, 0, NULL, 0, &size) == ITREE_CHOICE);
    check("a ring behind the points",
          itree_wkb_write(outer, 4, far, 1, stops, 1, &halves, 0, 0, NULL, 0, &size) == ITREE_LENGTHS);
    check("a ring that falls",
          itree_wkb_write(outer, 4, falling, 2, two, 1, &halves, 0, 0, NULL, 0, &size) == ITREE_LENGTHS);
    check("a polygon behind the rings",
          itree_wkb_write(outer, 4, ends, 1, beyond, 1, &halves, 0, 0, NULL, 0, &size) == ITREE_LENGTHS);
    check("null points", itree_wkb_write(NULL, 4, ends, 1, stops, 1, &halves, 0, 0, NULL, 0, &size) == ITREE_POINTER);
    check("null ends", itree_wkb_write(outer, 4, NULL, 1, stops, 1, &halves, 0, 0, NULL, 0, &size) == ITREE_POINTER);
    check("null stops", itree_wkb_write(outer, 4, ends, 1, NULL, 1, &halves, 0, 0, NULL, 0, &size) == ITREE_POINTER);
    check("a null grid", itree_wkb_write(outer, 4, ends, 1, stops, 1, NULL, 0, 0, NULL, 0, &size) == ITREE_POINTER);
    check("null bytes", itree_wkb_write(outer, 4, ends, 1, stops, 1, &halves, 0, 0, NULL, 1, &size) == ITREE_POINTER);
    check("a size at an odd address",
          itree_wkb_write(outer, 4, ends, 1, stops, 1, &halves, 0, 0, bytes, 8, (void *)odd) == ITREE_POINTER);
}

/* An overlay of shapes that were read, written and read again. */
static void checks_all_together(void) {
    const struct bytes bytes = polygon(1, 3, 0, 2, 1, 0);
    const size_t ends[] = {0, bytes.count};
    struct itree_polygons *shapes = NULL, *polygons = NULL, *again = NULL;
    const struct itree_point *points, *read;
    const size_t *rings, *stops;
    uint8_t written[1024];
    size_t size = 0;
    check("shapes", itree_wkb_read(bytes.at, bytes.count, ends, 2, &halves, &shapes, NULL) == ITREE_ANSWERED);
    size_t count = itree_polygons_points(shapes, &points);
    size_t ring_count = itree_polygons_ring_offsets(shapes, &rings) - 1;
    check("their overlay", itree_overlay(points, count, rings + 1, ring_count, outer, 4, rings + 1, 1, ITREE_NON_ZERO,
                                         ITREE_DIFFERENCE, &polygons) == ITREE_ANSWERED &&
                               itree_polygons_points(polygons, NULL) == 0);
    itree_polygons_free(polygons);
    check("their union", itree_overlay(points, count, rings + 1, ring_count, NULL, 0, NULL, 0, ITREE_NON_ZERO,
                                       ITREE_UNION, &polygons) == ITREE_ANSWERED);
    count = itree_polygons_points(polygons, &points);
    ring_count = itree_polygons_ring_offsets(polygons, &rings) - 1;
    const size_t polygon_count = itree_polygons_polygon_offsets(polygons, &stops) - 1;
    itree_wkb_write(points, count, rings + 1, ring_count, stops + 1, polygon_count, &halves, 0, 0, NULL, 0, &size);
    check("is written", itree_wkb_write(points, count, rings + 1, ring_count, stops + 1, polygon_count, &halves, 0, 0,
                                        written, size, NULL) == ITREE_ANSWERED);
    const size_t all[] = {0, size};
    check("and read", itree_wkb_read(written, size, all, 2, &halves, &again, NULL) == ITREE_ANSWERED &&
                          itree_polygons_points(again, &read) == 8 && memcmp(points, read, 8 * sizeof *read) == 0);
    itree_polygons_free(again);
    itree_polygons_free(polygons);
    itree_polygons_free(shapes);
}

int main(void) {
    checks_fitted();
    checks_faulty_fits();
    checks_rounded();
    checks_there_and_back();
    checks_faulty_rounding();
    checks_faulty_pointers_of_rounding();
    checks_read();
    checks_collections();
    checks_corners();
    checks_faulty_shapes();
    checks_faulty_coordinates();
    checks_faulty_calls();
    checks_refused_shapes();
    checks_written();
    checks_faulty_writing();
    checks_all_together();
    return told();
}
