/* A million of what each call takes: memory that is there isn't refused. The answers are counted by hand. */
#include <itree.h>
#include <stdlib.h>

#include "counted.h"

enum { SIDE = 500, SQUARES = SIDE * SIDE, MANY = 4 * SQUARES, APART = 8 };

static struct itree_point corners[MANY], within[MANY], middles[SQUARES];
static size_t ends[SQUARES], shapes_end[SQUARES], places[SQUARES], parents[SQUARES];
static struct itree_edge edges[MANY], lines_across[MANY];
static struct itree_segment segments[MANY];
static struct itree_height heights[MANY];
static struct itree_place found[SQUARES];

/* Squares in rows, each counterclockwise, one within each, and the middles of all. */
static void draw(void) {
    for (int32_t place = 0; place < SQUARES; place++) {
        const int32_t x = place % SIDE * APART, y = place / SIDE * APART;
        const int32_t xs[] = {0, 6, 6, 0}, ys[] = {0, 0, 6, 6};
        for (int corner = 0; corner < 4; corner++) {
            const int next = (corner + 1) % 4, at = 4 * place + corner;
            corners[at] = (struct itree_point){x + xs[corner], y + ys[corner]};
            within[at] = (struct itree_point){x + 2 + xs[corner] / 3, y + 2 + ys[corner] / 3};
            edges[at] = (struct itree_edge){x + xs[corner], y + ys[corner], x + xs[next], y + ys[next]};
            lines_across[at] = (struct itree_edge){x + 1 + corner, y - 1, x + 1 + corner, y + 1};
            segments[at] = (struct itree_segment){x + 2 * corner, x + 2 * corner + 1, y};
        }
        middles[place] = (struct itree_point){x + 3, y + 3};
        ends[place] = 4 * (size_t)(place + 1);
        shapes_end[place] = places[place] = (size_t)place;
        shapes_end[place]++;
    }
}

static void overlays(void) {
    struct itree_polygons *polygons = NULL;
    int32_t status =
        itree_overlay(corners, MANY, ends, SQUARES, NULL, 0, NULL, 0, ITREE_NON_ZERO, ITREE_UNION, &polygons);
    check("a union", status == ITREE_ANSWERED && itree_polygons_points(polygons, NULL) == MANY);
    itree_polygons_free(polygons);
    status = itree_overlay(corners, MANY, ends, SQUARES, within, MANY, ends, SQUARES, ITREE_NON_ZERO, ITREE_DIFFERENCE,
                           &polygons);
    check("a difference", status == ITREE_ANSWERED && itree_polygons_points(polygons, NULL) == 2 * MANY);
    check("its holes", itree_polygons_ring_offsets(polygons, NULL) == 2 * SQUARES + 1);
    check("its polygons", itree_polygons_polygon_offsets(polygons, NULL) == SQUARES + 1);
    itree_polygons_free(polygons);
}

/* One ring of a million points, with a tooth for each two. */
static void long_ring(void) {
    const size_t end = MANY;
    struct itree_polygons *polygons = NULL;
    for (int32_t place = 0; place < MANY; place++) within[place] = (struct itree_point){place, place % 2 * 9};
    within[MANY - 2].y = within[MANY - 1].y = -9;
    within[MANY - 1].x = 0;
    const int32_t status =
        itree_overlay(within, MANY, &end, 1, NULL, 0, NULL, 0, ITREE_EVEN_ODD, ITREE_UNION, &polygons);
    check("one ring", status == ITREE_ANSWERED && itree_polygons_points(polygons, NULL) == MANY);
    itree_polygons_free(polygons);
}

static void edges_alone(void) {
    struct itree_chains *chains = NULL;
    check("snap", itree_snap(edges, MANY, &chains) == ITREE_ANSWERED && itree_chains_point_count(chains) == 2 * MANY);
    itree_chains_free(chains);
    check("node", itree_node(edges, MANY, &chains) == ITREE_ANSWERED && itree_chains_point_count(chains) == 2 * MANY);
    itree_chains_free(chains);
    struct itree_pairs *pairs = NULL;
    check("meetings", itree_meetings_all(edges, MANY, &pairs) == ITREE_ANSWERED && itree_pairs_count(pairs) == MANY);
    itree_pairs_free(pairs);
    check("meetings of two lists", itree_meetings_between(edges, MANY, lines_across, MANY, &pairs) == ITREE_ANSWERED &&
                                       itree_pairs_count(pairs) == MANY);
    itree_pairs_free(pairs);
    size_t count = 0, first = 0, second = 0;
    check("meetings counted", itree_meetings(edges, MANY, NULL, 0, &count) == ITREE_ANSWERED && count == MANY);
    check("a first meeting", itree_first_meeting(edges, MANY, &first, &second) == ITREE_MEETING);
    check("locate", itree_locate(edges, MANY, middles, SQUARES, found, SQUARES, NULL, NULL) == ITREE_ANSWERED &&
                        found[SQUARES - 1].found == 1 && found[SQUARES - 1].place == MANY - 4);
    check("below", itree_below(segments, MANY, corners, MANY, heights, MANY, &first) == ITREE_ANSWERED &&
                       heights[MANY - 1].found == 1 && heights[MANY - 1].y == corners[MANY - 4].y);
}

static void many_shapes(void) {
    const struct itree_shapes shapes = {corners, MANY, ends, SQUARES, shapes_end, SQUARES};
    const struct itree_groups groups = {places, SQUARES, shapes_end, SQUARES};
    const struct itree_lines lines = {corners, MANY, ends, SQUARES};
    struct itree_polygons *polygons = NULL;
    struct itree_pairs *pairs = NULL;
    static size_t each[SQUARES];
    check("each with each", itree_overlay_each(&shapes, &groups, &shapes, &groups, ITREE_NON_ZERO, ITREE_INTERSECTION,
                                               each, SQUARES, &polygons) == ITREE_ANSWERED &&
                                each[SQUARES - 1] == SQUARES);
    itree_polygons_free(polygons);
    check("boxes", itree_box_pairs(&shapes, &shapes, &pairs) == ITREE_ANSWERED && itree_pairs_count(pairs) == SQUARES);
    itree_pairs_free(pairs);
    check("points in",
          itree_points_in(middles, SQUARES, &shapes, ITREE_NON_ZERO, ITREE_CLOSED, &pairs) == ITREE_ANSWERED &&
              itree_pairs_count(pairs) == SQUARES);
    itree_pairs_free(pairs);
    check("lines", itree_clip_lines(&lines, corners, MANY, ends, SQUARES, ITREE_NON_ZERO, ITREE_INSIDE, &polygons) ==
                           ITREE_ANSWERED &&
                       itree_polygons_points(polygons, NULL) == MANY);
    itree_polygons_free(polygons);
    check("parents", itree_polygon_parents(&shapes, parents, SQUARES) == ITREE_ANSWERED && parents[0] == SIZE_MAX);
    struct itree_fault_place fault = {1, 0, 0, {0, 0}, {0, 0, 0, 0}, {0, 0, 0, 0}};
    check("valid", itree_polygons_fault(&shapes, &fault) == ITREE_ANSWERED && fault.kind == ITREE_VALID);
    const struct itree_window all = {0, 0, SIDE * APART, SIDE * APART}, column = {0, 0, 4, SIDE * APART};
    struct itree_chains *chains = NULL;
    check("cropped", itree_crop(&all, corners, MANY, ends, SQUARES, &chains) == ITREE_ANSWERED &&
                         itree_chains_point_count(chains) == MANY);
    itree_chains_free(chains);
    check("most far off", itree_crop(&column, corners, MANY, ends, SQUARES, &chains) == ITREE_ANSWERED &&
                              itree_chains_count(chains) == SQUARES && itree_chains_point_count(chains) == 4 * SIDE);
    itree_chains_free(chains);
    const struct itree_point square[] = {{-1, -1}, {1, -1}, {1, 1}, {-1, 1}};
    check("grown into one square",
          itree_minkowski(corners, MANY, ends, SQUARES, square, 4, ITREE_NON_ZERO, &polygons) == ITREE_ANSWERED &&
              itree_polygons_points(polygons, NULL) == 4);
    itree_polygons_free(polygons);
    check("grown with mitres", itree_minkowski_joined(corners, MANY, ends, SQUARES, square, 4, ITREE_NON_ZERO,
                                                      ITREE_JOIN_MITRE, 500, &polygons) == ITREE_ANSWERED &&
                                   itree_polygons_points(polygons, NULL) == 4);
    itree_polygons_free(polygons);
    check("shrunk", itree_erode(corners, MANY, ends, SQUARES, square, 4, ITREE_NON_ZERO, &polygons) == ITREE_ANSWERED &&
                        itree_polygons_points(polygons, NULL) == MANY);
    itree_polygons_free(polygons);
    check("lines of one point",
          itree_grow_lines(middles, SQUARES, shapes_end, SQUARES, square, 4, &polygons) == ITREE_ANSWERED &&
              itree_polygons_points(polygons, NULL) == MANY);
    itree_polygons_free(polygons);
}

/* A polygon of a million points to well-known binary and back. */
static void binary(void) {
    const struct itree_grid grid = {0, 0, 0};
    const size_t end = MANY, one = 1;
    size_t size = 0;
    check("its size", itree_wkb_write(within, MANY, &end, 1, &one, 1, &grid, ITREE_WKB_EACH_POLYGON, 0, NULL, 0,
                                      &size) == ITREE_ANSWERED);
    uint8_t *bytes = malloc(size);
    const size_t offsets[] = {0, size};
    struct itree_polygons *polygons = NULL;
    check("written", bytes && itree_wkb_write(within, MANY, &end, 1, &one, 1, &grid, ITREE_WKB_EACH_POLYGON, 0, bytes,
                                              size, NULL) == ITREE_ANSWERED);
    check("read", bytes && itree_wkb_read(bytes, size, offsets, 2, &grid, &polygons, NULL) == ITREE_ANSWERED &&
                      itree_polygons_points(polygons, NULL) == MANY);
    itree_polygons_free(polygons);
    free(bytes);
}

int main(void) {
    draw();
    overlays();
    edges_alone();
    many_shapes();
    long_ring();
    binary();
    return told();
}
