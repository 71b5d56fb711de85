/* What of a field is dry: the field less a pond and a river, in metres and parts of them.
 *
 *     cc -o overlay overlay.c $(pkg-config --cflags --libs itree) && ./overlay
 */
#include <itree.h>
#include <stdio.h>
#include <stdlib.h>

enum { FIELD = 4, WATER = 8, ALL = FIELD + WATER };

/* The field, the pond and the river, one ring behind the other. */
static const struct itree_position shapes[ALL] = {
    {0.5, 0.5}, {9.5, 0.5}, {9.5, 9.5}, {0.5, 9.5}, /* the field */
    {3, 3},     {6, 3},     {6, 6},     {3, 6},     /* the pond */
    {8, 0},     {9, 0},     {9, 10},    {8, 10},    /* the river */
};
/* Where the rings of each stop. */
static const size_t field_ends[] = {4}, water_ends[] = {4, 8};

/* What a ring goes round counterclockwise. */
static double area_of(const struct itree_position *ring, size_t count) {
    double twice = 0;
    for (size_t i = 0; i < count; i++) {
        const struct itree_position from = ring[i], to = ring[(i + 1) % count];
        twice += from.x * to.y - to.x * from.y;
    }
    return twice / 2;
}

/* Prints how much the polygons cover. The first ring of each is the outer one, and the others are holes, whose areas
 * are negative. */
static int print_polygons(const struct itree_grid *grid, const struct itree_polygons *polygons) {
    const struct itree_point *points;
    const size_t *rings;
    const size_t count = itree_polygons_points(polygons, &points);
    const size_t ring_count = itree_polygons_ring_offsets(polygons, &rings) - 1;
    const size_t polygon_count = itree_polygons_polygon_offsets(polygons, NULL) - 1;
    struct itree_position *positions = malloc((count + 1) * sizeof *positions);
    if (!positions) return ITREE_REFUSED;
    const int32_t status = itree_grid_positions(grid, points, count, positions, count);
    if (status == ITREE_ANSWERED) {
        double area = 0;
        for (size_t i = 0; i < ring_count; i++) area += area_of(positions + rings[i], rings[i + 1] - rings[i]);
        printf("%g square metres are dry\n", area);
        printf("%zu polygons, %zu holes\n", polygon_count, ring_count - polygon_count);
    }
    free(positions);
    return status;
}

/* Prints the field less the water. The call may hold a megabyte. */
static int print_dry(void) {
    struct itree_point points[ALL];
    struct itree_grid grid;
    struct itree_polygons *polygons;
    int32_t status = itree_grid_fit(shapes, ALL, &grid, NULL);
    if (status == ITREE_ANSWERED) status = itree_grid_round(&grid, shapes, ALL, points, ALL, NULL);
    if (status != ITREE_ANSWERED) return status;
    itree_limit_memory(1000000);
    status = itree_overlay(points, FIELD, field_ends, 1, points + FIELD, WATER, water_ends, 2, ITREE_NON_ZERO,
                           ITREE_DIFFERENCE, &polygons);
    if (status != ITREE_ANSWERED) return status;
    status = print_polygons(&grid, polygons);
    itree_polygons_free(polygons);
    return status;
}

int main(void) {
    const int32_t status = print_dry();
    if (status != ITREE_ANSWERED) fprintf(stderr, "overlay: %s\n", itree_status_text(status));
    return status == ITREE_ANSWERED ? EXIT_SUCCESS : EXIT_FAILURE;
}
