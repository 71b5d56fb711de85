/* A field less a pond: its polygons, ring by ring. */
#include <itree.h>
#include <stdio.h>

static const struct itree_point field[] = {{0, 0}, {9, 0}, {9, 9}, {0, 9}};
static const struct itree_point pond[] = {{3, 3}, {6, 3}, {6, 6}, {3, 6}};
static const size_t end = 4; /* where the one ring of each stops */

static void print_polygons(const struct itree_polygons *polygons) {
    const struct itree_point *points;
    const size_t *rings, *stops;
    itree_polygons_points(polygons, &points);
    itree_polygons_ring_offsets(polygons, &rings);
    const size_t count = itree_polygons_polygon_offsets(polygons, &stops) - 1;
    for (size_t place = 0; place < count; place++) {
        for (size_t ring = stops[place]; ring < stops[place + 1]; ring++) {
            printf(ring == stops[place] ? "polygon" : "hole");
            for (size_t at = rings[ring]; at < rings[ring + 1]; at++) printf(" (%d, %d)", points[at].x, points[at].y);
            printf("\n");
        }
    }
}

int main(void) {
    struct itree_polygons *dry;
    const int32_t status = itree_overlay(field, 4, &end, 1, pond, 4, &end, 1, ITREE_NON_ZERO, ITREE_DIFFERENCE, &dry);
    if (status != ITREE_ANSWERED) {
        fprintf(stderr, "%s\n", itree_status_text(status));
        return 1;
    }
    print_polygons(dry);
    itree_polygons_free(dry);
    return 0;
}
