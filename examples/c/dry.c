/* The land that no water covers. */
#include <itree.h>
#include <stdio.h>

int main(void) {
    const struct itree_point land[] = {{0, 0}, {9, 0}, {9, 9}, {0, 9}}, water[] = {{3, 3}, {12, 3}, {12, 6}, {3, 6}};
    const size_t ends[] = {4}; /* where each ring stops */
    struct itree_polygons *dry;
    if (itree_overlay(land, 4, ends, 1, water, 4, ends, 1, ITREE_NON_ZERO, ITREE_DIFFERENCE, &dry)) return 1;
    printf("%zu points\n", itree_polygons_points(dry, NULL));
    itree_polygons_free(dry);
}
