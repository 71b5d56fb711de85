/* For tests: which unit squares an overlay of rings along the axes covers, by a look at each edge; and rings compared.
 */
#ifndef PLAIN_OVERLAY_H
#define PLAIN_OVERLAY_H

#include <itree.h>

/* How often rings along the axes go round the middle of the unit square whose lower left corner is (x, y). */
static inline int plain_winding(const struct itree_point *points, const size_t *ends, size_t rings, int32_t x,
                                int32_t y) {
    int winding = 0;
    size_t start = 0;
    for (size_t ring = 0; ring < rings; ring++) {
        for (size_t place = start; place < ends[ring]; place++) {
            const struct itree_point from = points[place], to = points[place + 1 < ends[ring] ? place + 1 : start];
            if (from.x <= x) continue;
            winding += from.y <= y && y < to.y;
            winding -= to.y <= y && y < from.y;
        }
        start = ends[ring];
    }
    return winding;
}

static inline int plain_is_inside(int32_t rule, int winding) {
    switch (rule) {
    case ITREE_EVEN_ODD: return winding % 2 != 0;
    case ITREE_NON_ZERO: return winding != 0;
    case ITREE_POSITIVE: return winding > 0;
    default: return winding < 0;
    }
}

static inline int plain_is_result(int32_t rule, int32_t operation, int subject_winding, int clip_winding) {
    const int subject = plain_is_inside(rule, subject_winding), clip = plain_is_inside(rule, clip_winding);
    switch (operation) {
    case ITREE_UNION: return subject || clip;
    case ITREE_INTERSECTION: return subject && clip;
    case ITREE_DIFFERENCE: return subject && !clip;
    default: return subject != clip;
    }
}

/* Whether the ring has the wanted points in this order, from whichever on. */
static inline int is_ring(const struct itree_point *ring, size_t count, const struct itree_point *wanted,
                          size_t wanted_count) {
    size_t turn = 0;
    if (count != wanted_count) return 0;
    while (turn < count && (ring[turn].x != wanted[0].x || ring[turn].y != wanted[0].y)) turn++;
    for (size_t place = 0; place < count; place++) {
        const struct itree_point it = ring[(turn + place) % count];
        if (it.x != wanted[place].x || it.y != wanted[place].y) return 0;
    }
    return 1;
}

#endif
