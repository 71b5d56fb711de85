/* Which edges meet, which edge lies straight below a point, and which of some horizontal segments does.
 *
 *     cc -o example example.c $(pkg-config --cflags --libs itree) && ./example
 */
#include <itree.h>
#include <stdio.h>
#include <stdlib.h>

static int no_memory(void) {
    fprintf(stderr, "no memory\n");
    return EXIT_FAILURE;
}

/* Prints the pairs that meet. The first call has room for some, and says how many there are. */
static int print_meetings(const struct itree_edge *edges, size_t edge_count) {
    struct itree_pair few[2], *pairs = few;
    size_t count = 0;
    if (itree_meetings(edges, edge_count, few, 2, &count) != ITREE_ANSWERED) return no_memory();
    if (count > 2) {
        pairs = malloc(count * sizeof *pairs);
        if (!pairs || itree_meetings(edges, edge_count, pairs, count, NULL) != ITREE_ANSWERED) {
            free(pairs);
            return no_memory();
        }
    }
    printf("%zu pairs of edges meet\n", count);
    if (pairs != few) free(pairs);
    return EXIT_SUCCESS;
}

static int print_edges_below(const struct itree_edge *edges, size_t edge_count) {
    const struct itree_point points[] = {{4, 3}, {4, 1}, {20, 9}};
    struct itree_place places[3];
    size_t first = 0, second = 0;
    const int32_t status = itree_locate(edges, edge_count, points, 3, places, 3, &first, &second);
    if (status == ITREE_CROSSING) {
        printf("edges %zu and %zu cross\n", first, second);
        return EXIT_SUCCESS;
    }
    if (status != ITREE_ANSWERED) return no_memory();
    for (size_t i = 0; i < 3; i++) {
        printf("below (%d, %d): ", points[i].x, points[i].y);
        if (places[i].found) {
            printf("edge %zu\n", places[i].place);
        } else {
            printf("nothing\n");
        }
    }
    return EXIT_SUCCESS;
}

static int print_heights_below(void) {
    const struct itree_segment segments[] = {{0, 10, 5}, {2, 6, 8}, {6, 9, 3}};
    const struct itree_point points[] = {{6, 7}, {2, 9}, {11, 9}};
    struct itree_height heights[3];
    size_t overlap = 0;
    const int32_t status = itree_below(segments, 3, points, 3, heights, 3, &overlap);
    if (status == ITREE_OVERLAP) {
        fprintf(stderr, "segment %zu overlaps an earlier one\n", overlap);
        return EXIT_FAILURE;
    }
    if (status != ITREE_ANSWERED) return no_memory();
    for (size_t i = 0; i < 3; i++) {
        printf("below (%d, %d): ", points[i].x, points[i].y);
        if (heights[i].found) {
            printf("height %d\n", heights[i].y);
        } else {
            printf("nothing\n");
        }
    }
    return EXIT_SUCCESS;
}

int main(void) {
    const struct itree_edge roof[] = {{0, 0, 8, 4}, {12, 0, 8, 4}};
    const struct itree_edge crossed[] = {{0, 0, 9, 9}, {0, 9, 9, 0}, {4, 0, 4, 9}};
    if (print_meetings(roof, 2) || print_meetings(crossed, 3)) return EXIT_FAILURE;
    if (print_edges_below(roof, 2) || print_edges_below(crossed, 3)) return EXIT_FAILURE;
    return print_heights_below();
}
