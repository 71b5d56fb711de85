/* What a call from C meets first. The proved calls take slices: pointers that are aligned and not null, also where
 * there are no items. Here a pointer at which no items can stand is told by a status, and null does where there is
 * none. A call that takes memory begins and ends within the limits of its thread.
 *
 * bindings/build gives the proved calls the names that they have here, and keeps those to itself. */
#include <itree.h>
#include <stdalign.h>

#include "call_limits.h"

int32_t proved_itree_below(const struct itree_segment *segments, size_t segment_count, const struct itree_point *points,
                           size_t point_count, struct itree_height *heights, size_t height_count, size_t *overlap);
int32_t proved_itree_meetings(const struct itree_edge *edges, size_t edge_count, struct itree_pair *pairs,
                              size_t pair_count, size_t *count);
int32_t proved_itree_meetings_all(const struct itree_edge *edges, size_t edge_count, struct itree_pairs **pairs);
int32_t proved_itree_meetings_between(const struct itree_edge *edges, size_t edge_count,
                                      const struct itree_edge *others, size_t other_count, struct itree_pairs **pairs);
int32_t proved_itree_first_meeting(const struct itree_edge *edges, size_t edge_count, size_t *first, size_t *second);
int32_t proved_itree_how_they_meet(const struct itree_edge *one, const struct itree_edge *other, int32_t *meeting);
size_t proved_itree_pairs_first(const struct itree_pairs *pairs, struct itree_pair **first);
void proved_itree_pairs_free(struct itree_pairs *pairs);
int32_t proved_itree_snap(const struct itree_edge *edges, size_t edge_count, struct itree_chains **chains);
int32_t proved_itree_node(const struct itree_edge *edges, size_t edge_count, struct itree_chains **chains);
size_t proved_itree_chains_points(const struct itree_chains *chains, struct itree_point **first);
size_t proved_itree_chains_offsets(const struct itree_chains *chains, size_t **first);
void proved_itree_chains_free(struct itree_chains *chains);
int32_t proved_itree_overlay(const struct itree_point *subject, size_t subject_count, const size_t *subject_ends,
                             size_t subject_rings, const struct itree_point *clip, size_t clip_count,
                             const size_t *clip_ends, size_t clip_rings, int32_t rule, int32_t operation,
                             struct itree_polygons **polygons);
int32_t proved_itree_overlay_in(const struct itree_window *window, const struct itree_point *subject,
                                size_t subject_count, const size_t *subject_ends, size_t subject_rings,
                                const struct itree_point *clip, size_t clip_count, const size_t *clip_ends,
                                size_t clip_rings, int32_t rule, int32_t operation, struct itree_polygons **polygons);
int32_t proved_itree_crop(const struct itree_window *window, const struct itree_point *points, size_t point_count,
                          const size_t *ring_ends, size_t ring_count, struct itree_chains **cropped);
int32_t proved_itree_whole_window(const struct itree_window *windows, size_t window_count, struct itree_window *whole,
                                  int32_t *found);
int32_t proved_itree_join(const struct itree_window *windows, size_t window_count, const size_t *tile_ends,
                          size_t tile_count, const size_t *polygon_ends, size_t polygon_count, const size_t *ring_ends,
                          size_t ring_count, const struct itree_point *points, size_t point_count,
                          struct itree_polygons **polygons);
int32_t proved_itree_minkowski(const struct itree_point *points, size_t point_count, const size_t *ring_ends,
                               size_t ring_count, const struct itree_point *shape, size_t corner_count, int32_t rule,
                               struct itree_polygons **polygons);
int32_t proved_itree_minkowski_joined(const struct itree_point *points, size_t point_count, const size_t *ring_ends,
                                      size_t ring_count, const struct itree_point *shape, size_t corner_count,
                                      int32_t rule, int32_t join, uint32_t limit, struct itree_polygons **polygons);
int32_t proved_itree_erode(const struct itree_point *points, size_t point_count, const size_t *ring_ends,
                           size_t ring_count, const struct itree_point *shape, size_t corner_count, int32_t rule,
                           struct itree_polygons **polygons);
int32_t proved_itree_grow_lines(const struct itree_point *points, size_t point_count, const size_t *line_ends,
                                size_t line_count, const struct itree_point *shape, size_t corner_count,
                                struct itree_polygons **polygons);
int32_t proved_itree_circle(int32_t radius, size_t most, struct itree_point *corners, size_t corner_count,
                            size_t *count, int32_t *inner);
size_t proved_itree_polygons_points(const struct itree_polygons *polygons, const struct itree_point **first);
size_t proved_itree_polygons_ring_offsets(const struct itree_polygons *polygons, const size_t **first);
size_t proved_itree_polygons_polygon_offsets(const struct itree_polygons *polygons, const size_t **first);
void proved_itree_polygons_free(struct itree_polygons *polygons);
int32_t proved_itree_locate(const struct itree_edge *edges, size_t edge_count, const struct itree_point *points,
                            size_t point_count, struct itree_place *places, size_t place_count, size_t *first,
                            size_t *second);
int32_t proved_itree_grid_fit(const struct itree_position *positions, size_t count, struct itree_grid *grid,
                              size_t *fault);
int32_t proved_itree_grid_round(const struct itree_grid *grid, const struct itree_position *positions, size_t count,
                                struct itree_point *points, size_t point_count, size_t *fault);
int32_t proved_itree_grid_positions(const struct itree_grid *grid, const struct itree_point *points, size_t count,
                                    struct itree_position *positions, size_t position_count);
int32_t proved_itree_wkb_corners(const uint8_t *bytes, size_t byte_count, const size_t *offsets, size_t offset_count,
                                 struct itree_position *corners, size_t corner_count, size_t *found,
                                 struct itree_wkb_place *fault);
int32_t proved_itree_wkb_read(const uint8_t *bytes, size_t byte_count, const size_t *offsets, size_t offset_count,
                              int64_t x, int64_t y, int32_t exponent, struct itree_polygons **shapes);
int32_t proved_itree_wkb_fault(const uint8_t *bytes, size_t byte_count, const size_t *offsets, size_t offset_count,
                               const struct itree_grid *grid, struct itree_wkb_place *fault);
int32_t proved_itree_wkb_srid(const uint8_t *bytes, size_t byte_count, uint32_t *srid);
int32_t proved_itree_wkb_write(const struct itree_point *points, size_t point_count, const size_t *ring_ends,
                               size_t rings, const size_t *polygon_ends, size_t polygons, const struct itree_grid *grid,
                               int32_t form, uint32_t srid, uint8_t *bytes, size_t byte_count, size_t *size);
int32_t proved_itree_overlay_each(const struct itree_point *subjects, size_t subject_points,
                                  const size_t *subject_ring_ends, size_t subject_rings,
                                  const size_t *subject_shape_ends, size_t subject_shapes, const size_t *subject_places,
                                  size_t subject_place_count, const size_t *subject_group_ends, size_t subject_groups,
                                  const struct itree_point *clips, size_t clip_points, const size_t *clip_ring_ends,
                                  size_t clip_rings, const size_t *clip_shape_ends, size_t clip_shapes,
                                  const size_t *clip_places, size_t clip_place_count, const size_t *clip_group_ends,
                                  size_t clip_groups, int32_t rule, int32_t operation, size_t *ends, size_t end_count,
                                  struct itree_polygons **polygons);
int32_t proved_itree_box_pairs(const struct itree_point *points, size_t point_count, const size_t *ring_ends,
                               size_t rings, const size_t *shape_ends, size_t shapes,
                               const struct itree_point *other_points, size_t other_point_count,
                               const size_t *other_ring_ends, size_t other_rings, const size_t *other_shape_ends,
                               size_t others, struct itree_pairs **pairs);
int32_t proved_itree_points_in(const struct itree_point *points, size_t count, const struct itree_point *shape_points,
                               size_t shape_point_count, const size_t *ring_ends, size_t rings,
                               const size_t *shape_ends, size_t shapes, int32_t rule, int32_t border,
                               struct itree_pairs **pairs);
int32_t proved_itree_clip_lines(const struct itree_point *lines, size_t line_points, const size_t *line_ends,
                                size_t line_count, const struct itree_point *rings, size_t count,
                                const size_t *ring_ends, size_t ring_count, int32_t rule, int32_t side,
                                struct itree_polygons **pieces);
int32_t proved_itree_polygon_parents(const struct itree_point *points, size_t point_count, const size_t *ring_ends,
                                     size_t rings, const size_t *shape_ends, size_t shapes, size_t *parents,
                                     size_t parent_count);
int32_t proved_itree_polygons_fault(const struct itree_point *points, size_t point_count, const size_t *ring_ends,
                                    size_t rings, const size_t *shape_ends, size_t shapes,
                                    struct itree_fault_place *fault);

#define OF(type) sizeof(type), alignof(type)

/* Where no items stand. It is aligned for each type of itree.h, and nothing reads or writes it. */
static uint64_t nothing;

/* Whether so many items of a size can stand at the pointer. */
static int can_hold(const void *items, size_t count, size_t size, size_t alignment) {
    return count == 0 || (items != NULL && (uintptr_t)items % alignment == 0 && count <= PTRDIFF_MAX / size);
}

/* Whether the pointer is null or a number can stand there. */
static int can_take(const size_t *number) { return number == NULL || can_hold(number, 1, OF(size_t)); }

static void *slice(const void *items, size_t count) { return count == 0 ? &nothing : (void *)items; }

int32_t itree_below(const struct itree_segment *segments, size_t segment_count, const struct itree_point *points,
                    size_t point_count, struct itree_height *heights, size_t height_count, size_t *overlap) {
    size_t untold = 0;
    if (!can_hold(segments, segment_count, OF(struct itree_segment)) ||
        !can_hold(points, point_count, OF(struct itree_point)) ||
        !can_hold(heights, height_count, OF(struct itree_height)) || !can_take(overlap)) {
        return ITREE_POINTER;
    }
    limits_begin();
    return limits_end(proved_itree_below(slice(segments, segment_count), segment_count, slice(points, point_count),
                                         point_count, slice(heights, height_count), height_count,
                                         overlap ? overlap : &untold));
}

int32_t itree_meetings(const struct itree_edge *edges, size_t edge_count, struct itree_pair *pairs, size_t pair_count,
                       size_t *count) {
    size_t untold = 0;
    if (!can_hold(edges, edge_count, OF(struct itree_edge)) || !can_hold(pairs, pair_count, OF(struct itree_pair)) ||
        !can_take(count)) {
        return ITREE_POINTER;
    }
    limits_begin();
    return limits_end(proved_itree_meetings(slice(edges, edge_count), edge_count, slice(pairs, pair_count), pair_count,
                                            count ? count : &untold));
}

int32_t itree_meetings_all(const struct itree_edge *edges, size_t edge_count, struct itree_pairs **pairs) {
    if (!can_hold(edges, edge_count, OF(struct itree_edge)) || !can_hold(pairs, 1, OF(struct itree_pairs *))) {
        return ITREE_POINTER;
    }
    limits_begin();
    return limits_end(proved_itree_meetings_all(slice(edges, edge_count), edge_count, pairs));
}

int32_t itree_meetings_between(const struct itree_edge *edges, size_t edge_count, const struct itree_edge *others,
                               size_t other_count, struct itree_pairs **pairs) {
    if (!can_hold(edges, edge_count, OF(struct itree_edge)) || !can_hold(others, other_count, OF(struct itree_edge)) ||
        !can_hold(pairs, 1, OF(struct itree_pairs *))) {
        return ITREE_POINTER;
    }
    limits_begin();
    return limits_end(proved_itree_meetings_between(slice(edges, edge_count), edge_count, slice(others, other_count),
                                                    other_count, pairs));
}

int32_t itree_first_meeting(const struct itree_edge *edges, size_t edge_count, size_t *first, size_t *second) {
    size_t untold[2] = {0, 0};
    if (!can_hold(edges, edge_count, OF(struct itree_edge)) || !can_take(first) || !can_take(second)) {
        return ITREE_POINTER;
    }
    limits_begin();
    return limits_end(proved_itree_first_meeting(slice(edges, edge_count), edge_count, first ? first : &untold[0],
                                                 second ? second : &untold[1]));
}

int32_t itree_how_they_meet(const struct itree_edge *one, const struct itree_edge *other, int32_t *meeting) {
    if (!can_hold(one, 1, OF(struct itree_edge)) || !can_hold(other, 1, OF(struct itree_edge)) ||
        !can_hold(meeting, 1, OF(int32_t))) {
        return ITREE_POINTER;
    }
    return proved_itree_how_they_meet(one, other, meeting);
}

/* The proved call tells both at once. */
size_t itree_pairs_count(const struct itree_pairs *pairs) {
    struct itree_pair *first;
    return pairs == NULL ? 0 : proved_itree_pairs_first(pairs, &first);
}

struct itree_pair *itree_pairs_first(struct itree_pairs *pairs) {
    struct itree_pair *first = NULL;
    return pairs == NULL || proved_itree_pairs_first(pairs, &first) == 0 ? NULL : first;
}

void itree_pairs_free(struct itree_pairs *pairs) {
    if (pairs != NULL) proved_itree_pairs_free(pairs);
}

int32_t itree_snap(const struct itree_edge *edges, size_t edge_count, struct itree_chains **chains) {
    if (!can_hold(edges, edge_count, OF(struct itree_edge)) || !can_hold(chains, 1, OF(struct itree_chains *))) {
        return ITREE_POINTER;
    }
    limits_begin();
    return limits_end(proved_itree_snap(slice(edges, edge_count), edge_count, chains));
}

int32_t itree_node(const struct itree_edge *edges, size_t edge_count, struct itree_chains **chains) {
    if (!can_hold(edges, edge_count, OF(struct itree_edge)) || !can_hold(chains, 1, OF(struct itree_chains *))) {
        return ITREE_POINTER;
    }
    limits_begin();
    return limits_end(proved_itree_node(slice(edges, edge_count), edge_count, chains));
}

/* There is one offset more than there are chains. */
size_t itree_chains_count(const struct itree_chains *chains) {
    size_t *first;
    return chains == NULL ? 0 : proved_itree_chains_offsets(chains, &first) - 1;
}

size_t itree_chains_point_count(const struct itree_chains *chains) {
    struct itree_point *first;
    return chains == NULL ? 0 : proved_itree_chains_points(chains, &first);
}

struct itree_point *itree_chains_points(struct itree_chains *chains) {
    struct itree_point *first = NULL;
    return chains == NULL || proved_itree_chains_points(chains, &first) == 0 ? NULL : first;
}

size_t *itree_chains_offsets(struct itree_chains *chains) {
    size_t *first = NULL;
    if (chains != NULL) proved_itree_chains_offsets(chains, &first);
    return first;
}

void itree_chains_free(struct itree_chains *chains) {
    if (chains != NULL) proved_itree_chains_free(chains);
}

/* Whether rings can stand there: their points, and where each stops. */
static int can_be_rings(const struct itree_point *points, size_t count, const size_t *ends, size_t rings) {
    return can_hold(points, count, OF(struct itree_point)) && can_hold(ends, rings, OF(size_t));
}

int32_t itree_overlay(const struct itree_point *subject, size_t subject_count, const size_t *subject_ends,
                      size_t subject_rings, const struct itree_point *clip, size_t clip_count, const size_t *clip_ends,
                      size_t clip_rings, int32_t rule, int32_t operation, struct itree_polygons **polygons) {
    if (!can_be_rings(subject, subject_count, subject_ends, subject_rings) ||
        !can_be_rings(clip, clip_count, clip_ends, clip_rings) || !can_hold(polygons, 1, OF(struct itree_polygons *))) {
        return ITREE_POINTER;
    }
    limits_begin();
    return limits_end(proved_itree_overlay(slice(subject, subject_count), subject_count,
                                           slice(subject_ends, subject_rings), subject_rings, slice(clip, clip_count),
                                           clip_count, slice(clip_ends, clip_rings), clip_rings, rule, operation,
                                           polygons));
}

int32_t itree_overlay_in(const struct itree_window *window, const struct itree_point *subject, size_t subject_count,
                         const size_t *subject_ends, size_t subject_rings, const struct itree_point *clip,
                         size_t clip_count, const size_t *clip_ends, size_t clip_rings, int32_t rule, int32_t operation,
                         struct itree_polygons **polygons) {
    if (!can_hold(window, 1, OF(struct itree_window)) ||
        !can_be_rings(subject, subject_count, subject_ends, subject_rings) ||
        !can_be_rings(clip, clip_count, clip_ends, clip_rings) || !can_hold(polygons, 1, OF(struct itree_polygons *))) {
        return ITREE_POINTER;
    }
    limits_begin();
    return limits_end(proved_itree_overlay_in(window, slice(subject, subject_count), subject_count,
                                              slice(subject_ends, subject_rings), subject_rings,
                                              slice(clip, clip_count), clip_count, slice(clip_ends, clip_rings),
                                              clip_rings, rule, operation, polygons));
}

int32_t itree_crop(const struct itree_window *window, const struct itree_point *points, size_t point_count,
                   const size_t *ring_ends, size_t ring_count, struct itree_chains **cropped) {
    if (!can_hold(window, 1, OF(struct itree_window)) || !can_be_rings(points, point_count, ring_ends, ring_count) ||
        !can_hold(cropped, 1, OF(struct itree_chains *))) {
        return ITREE_POINTER;
    }
    limits_begin();
    return limits_end(proved_itree_crop(window, slice(points, point_count), point_count, slice(ring_ends, ring_count),
                                        ring_count, cropped));
}

int32_t itree_whole_window(const struct itree_window *windows, size_t window_count, struct itree_window *whole,
                           int32_t *found) {
    if (!can_hold(windows, window_count, OF(struct itree_window)) || !can_hold(whole, 1, OF(struct itree_window)) ||
        !can_hold(found, 1, OF(int32_t))) {
        return ITREE_POINTER;
    }
    return proved_itree_whole_window(slice(windows, window_count), window_count, whole, found);
}

int32_t itree_join(const struct itree_window *windows, size_t window_count, const size_t *tile_ends, size_t tile_count,
                   const size_t *polygon_ends, size_t polygon_count, const size_t *ring_ends, size_t ring_count,
                   const struct itree_point *points, size_t point_count, struct itree_polygons **polygons) {
    if (!can_hold(windows, window_count, OF(struct itree_window)) || !can_hold(tile_ends, tile_count, OF(size_t)) ||
        !can_hold(polygon_ends, polygon_count, OF(size_t)) ||
        !can_be_rings(points, point_count, ring_ends, ring_count) ||
        !can_hold(polygons, 1, OF(struct itree_polygons *))) {
        return ITREE_POINTER;
    }
    limits_begin();
    return limits_end(proved_itree_join(slice(windows, window_count), window_count, slice(tile_ends, tile_count),
                                        tile_count, slice(polygon_ends, polygon_count), polygon_count,
                                        slice(ring_ends, ring_count), ring_count, slice(points, point_count),
                                        point_count, polygons));
}

int32_t itree_minkowski(const struct itree_point *points, size_t point_count, const size_t *ring_ends,
                        size_t ring_count, const struct itree_point *shape, size_t corner_count, int32_t rule,
                        struct itree_polygons **polygons) {
    if (!can_be_rings(points, point_count, ring_ends, ring_count) ||
        !can_hold(shape, corner_count, OF(struct itree_point)) || !can_hold(polygons, 1, OF(struct itree_polygons *))) {
        return ITREE_POINTER;
    }
    limits_begin();
    return limits_end(proved_itree_minkowski(slice(points, point_count), point_count, slice(ring_ends, ring_count),
                                             ring_count, slice(shape, corner_count), corner_count, rule, polygons));
}

int32_t itree_minkowski_joined(const struct itree_point *points, size_t point_count, const size_t *ring_ends,
                               size_t ring_count, const struct itree_point *shape, size_t corner_count, int32_t rule,
                               int32_t join, uint32_t limit, struct itree_polygons **polygons) {
    if (!can_be_rings(points, point_count, ring_ends, ring_count) ||
        !can_hold(shape, corner_count, OF(struct itree_point)) || !can_hold(polygons, 1, OF(struct itree_polygons *))) {
        return ITREE_POINTER;
    }
    limits_begin();
    return limits_end(
        proved_itree_minkowski_joined(slice(points, point_count), point_count, slice(ring_ends, ring_count), ring_count,
                                      slice(shape, corner_count), corner_count, rule, join, limit, polygons));
}

int32_t itree_erode(const struct itree_point *points, size_t point_count, const size_t *ring_ends, size_t ring_count,
                    const struct itree_point *shape, size_t corner_count, int32_t rule,
                    struct itree_polygons **polygons) {
    if (!can_be_rings(points, point_count, ring_ends, ring_count) ||
        !can_hold(shape, corner_count, OF(struct itree_point)) || !can_hold(polygons, 1, OF(struct itree_polygons *))) {
        return ITREE_POINTER;
    }
    limits_begin();
    return limits_end(proved_itree_erode(slice(points, point_count), point_count, slice(ring_ends, ring_count),
                                         ring_count, slice(shape, corner_count), corner_count, rule, polygons));
}

int32_t itree_grow_lines(const struct itree_point *points, size_t point_count, const size_t *line_ends,
                         size_t line_count, const struct itree_point *shape, size_t corner_count,
                         struct itree_polygons **polygons) {
    if (!can_be_rings(points, point_count, line_ends, line_count) ||
        !can_hold(shape, corner_count, OF(struct itree_point)) || !can_hold(polygons, 1, OF(struct itree_polygons *))) {
        return ITREE_POINTER;
    }
    limits_begin();
    return limits_end(proved_itree_grow_lines(slice(points, point_count), point_count, slice(line_ends, line_count),
                                              line_count, slice(shape, corner_count), corner_count, polygons));
}

int32_t itree_circle(int32_t radius, size_t most, struct itree_point *corners, size_t corner_count, size_t *count,
                     int32_t *inner) {
    size_t untold = 0;
    int32_t untold_inner = 0;
    if (!can_hold(corners, corner_count, OF(struct itree_point)) || !can_take(count) ||
        !(inner == NULL || can_hold(inner, 1, OF(int32_t)))) {
        return ITREE_POINTER;
    }
    limits_begin();
    return limits_end(proved_itree_circle(radius, most, slice(corners, corner_count), corner_count,
                                          count ? count : &untold, inner ? inner : &untold_inner));
}

size_t itree_polygons_points(const struct itree_polygons *polygons, const struct itree_point **first) {
    const struct itree_point *points = NULL;
    const size_t count = polygons == NULL ? 0 : proved_itree_polygons_points(polygons, &points);
    if (first != NULL) *first = count == 0 ? NULL : points;
    return count;
}

size_t itree_polygons_ring_offsets(const struct itree_polygons *polygons, const size_t **first) {
    const size_t *offsets = NULL;
    const size_t count = polygons == NULL ? 0 : proved_itree_polygons_ring_offsets(polygons, &offsets);
    if (first != NULL) *first = offsets;
    return count;
}

size_t itree_polygons_polygon_offsets(const struct itree_polygons *polygons, const size_t **first) {
    const size_t *offsets = NULL;
    const size_t count = polygons == NULL ? 0 : proved_itree_polygons_polygon_offsets(polygons, &offsets);
    if (first != NULL) *first = offsets;
    return count;
}

void itree_polygons_free(struct itree_polygons *polygons) {
    if (polygons != NULL) proved_itree_polygons_free(polygons);
}

/* Whether shapes can stand there, groups, lines. */
static int can_be_many(const struct itree_shapes *shapes) {
    return can_hold(shapes, 1, OF(struct itree_shapes)) &&
           can_be_rings(shapes->points, shapes->point_count, shapes->ring_ends, shapes->ring_count) &&
           can_hold(shapes->shape_ends, shapes->shape_count, OF(size_t));
}

static int can_be_groups(const struct itree_groups *groups) {
    return can_hold(groups, 1, OF(struct itree_groups)) && can_hold(groups->places, groups->place_count, OF(size_t)) &&
           can_hold(groups->ends, groups->group_count, OF(size_t));
}

static int can_be_lines(const struct itree_lines *lines) {
    return can_hold(lines, 1, OF(struct itree_lines)) &&
           can_be_rings(lines->points, lines->point_count, lines->ends, lines->line_count);
}

/* Shapes, groups and lines as a proved call takes them. */
#define SHAPES(it)                                                                                                     \
    slice((it)->points, (it)->point_count), (it)->point_count, slice((it)->ring_ends, (it)->ring_count),               \
        (it)->ring_count, slice((it)->shape_ends, (it)->shape_count), (it)->shape_count
#define GROUPS(it)                                                                                                     \
    slice((it)->places, (it)->place_count), (it)->place_count, slice((it)->ends, (it)->group_count), (it)->group_count
#define LINES(it)                                                                                                      \
    slice((it)->points, (it)->point_count), (it)->point_count, slice((it)->ends, (it)->line_count), (it)->line_count

int32_t itree_overlay_each(const struct itree_shapes *subjects, const struct itree_groups *subject_groups,
                           const struct itree_shapes *clips, const struct itree_groups *clip_groups, int32_t rule,
                           int32_t operation, size_t *ends, size_t end_count, struct itree_polygons **polygons) {
    if (!can_be_many(subjects) || !can_be_groups(subject_groups) || !can_be_many(clips) ||
        !can_be_groups(clip_groups) || !can_hold(ends, end_count, OF(size_t)) ||
        !can_hold(polygons, 1, OF(struct itree_polygons *))) {
        return ITREE_POINTER;
    }
    limits_begin();
    return limits_end(proved_itree_overlay_each(SHAPES(subjects), GROUPS(subject_groups), SHAPES(clips),
                                                GROUPS(clip_groups), rule, operation, slice(ends, end_count), end_count,
                                                polygons));
}

int32_t itree_box_pairs(const struct itree_shapes *shapes, const struct itree_shapes *others,
                        struct itree_pairs **pairs) {
    if (!can_be_many(shapes) || !can_be_many(others) || !can_hold(pairs, 1, OF(struct itree_pairs *))) {
        return ITREE_POINTER;
    }
    limits_begin();
    return limits_end(proved_itree_box_pairs(SHAPES(shapes), SHAPES(others), pairs));
}

int32_t itree_points_in(const struct itree_point *points, size_t count, const struct itree_shapes *shapes, int32_t rule,
                        int32_t border, struct itree_pairs **pairs) {
    if (!can_hold(points, count, OF(struct itree_point)) || !can_be_many(shapes) ||
        !can_hold(pairs, 1, OF(struct itree_pairs *))) {
        return ITREE_POINTER;
    }
    limits_begin();
    return limits_end(proved_itree_points_in(slice(points, count), count, SHAPES(shapes), rule, border, pairs));
}

int32_t itree_clip_lines(const struct itree_lines *lines, const struct itree_point *rings, size_t count,
                         const size_t *ring_ends, size_t ring_count, int32_t rule, int32_t side,
                         struct itree_polygons **pieces) {
    if (!can_be_lines(lines) || !can_be_rings(rings, count, ring_ends, ring_count) ||
        !can_hold(pieces, 1, OF(struct itree_polygons *))) {
        return ITREE_POINTER;
    }
    limits_begin();
    return limits_end(proved_itree_clip_lines(LINES(lines), slice(rings, count), count, slice(ring_ends, ring_count),
                                              ring_count, rule, side, pieces));
}

int32_t itree_polygon_parents(const struct itree_shapes *polygons, size_t *parents, size_t parent_count) {
    if (!can_be_many(polygons) || !can_hold(parents, parent_count, OF(size_t))) return ITREE_POINTER;
    limits_begin();
    return limits_end(proved_itree_polygon_parents(SHAPES(polygons), slice(parents, parent_count), parent_count));
}

int32_t itree_polygons_fault(const struct itree_shapes *polygons, struct itree_fault_place *fault) {
    if (!can_be_many(polygons) || !can_hold(fault, 1, OF(struct itree_fault_place))) return ITREE_POINTER;
    limits_begin();
    return limits_end(proved_itree_polygons_fault(SHAPES(polygons), fault));
}

int32_t itree_locate(const struct itree_edge *edges, size_t edge_count, const struct itree_point *points,
                     size_t point_count, struct itree_place *places, size_t place_count, size_t *first,
                     size_t *second) {
    size_t untold[2] = {0, 0};
    if (!can_hold(edges, edge_count, OF(struct itree_edge)) || !can_hold(points, point_count, OF(struct itree_point)) ||
        !can_hold(places, place_count, OF(struct itree_place)) || !can_take(first) || !can_take(second)) {
        return ITREE_POINTER;
    }
    limits_begin();
    return limits_end(proved_itree_locate(slice(edges, edge_count), edge_count, slice(points, point_count), point_count,
                                          slice(places, place_count), place_count, first ? first : &untold[0],
                                          second ? second : &untold[1]));
}

int32_t itree_grid_fit(const struct itree_position *positions, size_t count, struct itree_grid *grid, size_t *fault) {
    size_t untold = 0;
    if (!can_hold(positions, count, OF(struct itree_position)) || !can_hold(grid, 1, OF(struct itree_grid)) ||
        !can_take(fault)) {
        return ITREE_POINTER;
    }
    return proved_itree_grid_fit(slice(positions, count), count, grid, fault ? fault : &untold);
}

int32_t itree_grid_round(const struct itree_grid *grid, const struct itree_position *positions, size_t count,
                         struct itree_point *points, size_t point_count, size_t *fault) {
    size_t untold = 0;
    if (!can_hold(grid, 1, OF(struct itree_grid)) || !can_hold(positions, count, OF(struct itree_position)) ||
        !can_hold(points, point_count, OF(struct itree_point)) || !can_take(fault)) {
        return ITREE_POINTER;
    }
    return proved_itree_grid_round(grid, slice(positions, count), count, slice(points, point_count), point_count,
                                   fault ? fault : &untold);
}

int32_t itree_grid_positions(const struct itree_grid *grid, const struct itree_point *points, size_t count,
                             struct itree_position *positions, size_t position_count) {
    if (!can_hold(grid, 1, OF(struct itree_grid)) || !can_hold(points, count, OF(struct itree_point)) ||
        !can_hold(positions, position_count, OF(struct itree_position))) {
        return ITREE_POINTER;
    }
    return proved_itree_grid_positions(grid, slice(points, count), count, slice(positions, position_count),
                                       position_count);
}

/* Whether shapes in well-known binary can stand there, and what is faulty of them can be told. */
static int can_be_shapes(const uint8_t *bytes, size_t byte_count, const size_t *offsets, size_t offset_count,
                         const struct itree_wkb_place *fault) {
    return can_hold(bytes, byte_count, OF(uint8_t)) && can_hold(offsets, offset_count, OF(size_t)) &&
           (fault == NULL || can_hold(fault, 1, OF(struct itree_wkb_place)));
}

int32_t itree_wkb_corners(const uint8_t *bytes, size_t byte_count, const size_t *offsets, size_t offset_count,
                          struct itree_position *corners, size_t corner_count, size_t *found,
                          struct itree_wkb_place *fault) {
    struct itree_wkb_place untold = {0, 0, 0};
    if (!can_be_shapes(bytes, byte_count, offsets, offset_count, fault) ||
        !can_hold(corners, corner_count, OF(struct itree_position)) || !can_hold(found, 1, OF(size_t))) {
        return ITREE_POINTER;
    }
    limits_begin();
    return limits_end(proved_itree_wkb_corners(slice(bytes, byte_count), byte_count, slice(offsets, offset_count),
                                               offset_count, slice(corners, corner_count), corner_count, found,
                                               fault ? fault : &untold));
}

/* What is faulty is told by a second call, for the first writes a handle alone. */
int32_t itree_wkb_read(const uint8_t *bytes, size_t byte_count, const size_t *offsets, size_t offset_count,
                       const struct itree_grid *grid, struct itree_polygons **shapes, struct itree_wkb_place *fault) {
    struct itree_wkb_place untold = {0, 0, 0};
    int32_t status;
    if (!can_be_shapes(bytes, byte_count, offsets, offset_count, fault) || !can_hold(grid, 1, OF(struct itree_grid)) ||
        !can_hold(shapes, 1, OF(struct itree_polygons *))) {
        return ITREE_POINTER;
    }
    limits_begin();
    status = proved_itree_wkb_read(slice(bytes, byte_count), byte_count, slice(offsets, offset_count), offset_count,
                                   grid->x, grid->y, grid->exponent, shapes);
    if (status == ITREE_FAULTY) {
        status = proved_itree_wkb_fault(slice(bytes, byte_count), byte_count, slice(offsets, offset_count),
                                        offset_count, grid, fault ? fault : &untold);
    }
    return limits_end(status);
}

int32_t itree_wkb_srid(const uint8_t *bytes, size_t byte_count, uint32_t *srid) {
    if (!can_hold(bytes, byte_count, OF(uint8_t)) || !can_hold(srid, 1, OF(uint32_t))) return ITREE_POINTER;
    return proved_itree_wkb_srid(slice(bytes, byte_count), byte_count, srid);
}

int32_t itree_wkb_write(const struct itree_point *points, size_t point_count, const size_t *ring_ends, size_t rings,
                        const size_t *polygon_ends, size_t polygons, const struct itree_grid *grid, int32_t form,
                        uint32_t srid, uint8_t *bytes, size_t byte_count, size_t *size) {
    size_t untold = 0;
    if (!can_be_rings(points, point_count, ring_ends, rings) || !can_hold(polygon_ends, polygons, OF(size_t)) ||
        !can_hold(grid, 1, OF(struct itree_grid)) || !can_hold(bytes, byte_count, OF(uint8_t)) || !can_take(size)) {
        return ITREE_POINTER;
    }
    limits_begin();
    return limits_end(proved_itree_wkb_write(slice(points, point_count), point_count, slice(ring_ends, rings), rings,
                                             slice(polygon_ends, polygons), polygons, grid, form, srid,
                                             slice(bytes, byte_count), byte_count, size ? size : &untold));
}
