/* itree, for C: sweeps over horizontal segments, pairs of edges that meet, edges broken where they meet, polygons of what
 * two sets of rings make, the same for many shapes at once, points among edges and in shapes, lines that are clipped,
 * doubles rounded to a grid, and well-known binary read and written.
 *
 * Each call looks at the pointers that it is given, and then makes one that is proved in Rattle: that answers as said
 * here for every input, reads and writes inside the arrays that it is given, and returns. Link it by what
 * `pkg-config --cflags --libs itree` prints.
 *
 * The caller owns every array, but for what a handle owns. An array is a pointer and how many items it has. Where it has none, the pointer may be
 * anything, as NULL. A pointer is faulty where there is an item and it is NULL or isn't aligned, or where no memory is
 * as large as so many items: then a call returns ITREE_POINTER. Nothing checks the rest: so many items stand there,
 * what is read has values, what is written overlaps nothing else that the call is given, and no other thread writes an
 * array during the call. What is written needs no values before. The library keeps no pointer but that of a thread's stop
 * flag, has no state but a thread's limits, and gives back what it takes from malloc before it returns, but for what a
 * handle owns: so several threads may call it at once.
 *
 * Numbers are 32-bit and whole, in a unit of the caller's: pixels, or millionths of a degree; doubles become such numbers
 * by a grid, and doubles again. Places count from 0. */
#ifndef ITREE_H
#define ITREE_H

#include <stddef.h>
#include <stdint.h>

/* The version of this header and of the library beside it. It is 0.0.0 in a checkout. */
#define ITREE_VERSION "0.0.0"

#ifdef __cplusplus
extern "C" {
#endif

/* What a call returns. At every status but ITREE_ANSWERED no array is written, unless the call says so. */
enum itree_status {
    ITREE_ANSWERED = 0, /* The answers are written. */
    ITREE_REFUSED = 1,  /* Memory was refused; or itree_below or itree_locate met more than 4,294,967,294 at once. */
    ITREE_OVERLAP = 2,  /* Two segments collide. */
    ITREE_LENGTHS = 3,  /* The lengths of two arrays don't fit each other, or a ring stops where it can't. */
    ITREE_POINTER = 4,  /* A pointer is faulty. */
    ITREE_CHOICE = 5,   /* A rule, an operation or the like is none of their numbers, or a grid is none. */
    ITREE_CROSSING = 6, /* Two edges cross. */
    ITREE_MEETING = 7,  /* Two edges meet. */
    ITREE_FAULTY = 8,   /* A coordinate or a geometry is faulty. */
    ITREE_STOPPED = 9,  /* The flag of itree_stop_flag stopped the call. */
    ITREE_WINDOW = 10,  /* A window has no points or comes too near to the ends of 32 bits, or two windows overlap. */
    ITREE_UNFIT = 11,   /* Tiles don't fit: a polygon leaves its window, or polygons at borders overlap. */
    ITREE_SHAPE = 12,   /* A shape to grow or shrink by isn't convex around the origin. */
    ITREE_RANGE = 13    /* What grows or shrinks leaves 32 bits. */
};

/* A status in words, which stay as long as the library does; of a number that is none, that it is none. */
const char *itree_status_text(int32_t status);

/* The version of the library, as "0.7.1". It is ITREE_VERSION of the header that came with it. */
const char *itree_version(void);

/* Limits the memory of this thread's calls, from the next one on: no call holds more bytes at once than so many, of those
 * that it has asked malloc for; 0 is no limit, as at first. A call that would is refused memory, gives back all it took,
 * and returns ITREE_REFUSED. Arrays of the caller's and handles of calls before don't count. */
void itree_limit_memory(size_t bytes);

/* The most bytes that this thread's last call held at once, whatever its status was; 0 before the first. A handle that it
 * wrote is among them. Calls that take no memory, as those that read a handle or give it back, and those with a faulty
 * pointer aren't counted. */
size_t itree_memory_peak(void);

/* Gives this thread's calls a flag that stops them, from the next one on; NULL takes it away. Where *flag isn't 0 when a
 * call asks for memory, the call gives back all it took, and returns ITREE_STOPPED. It is looked at there alone: a call
 * that asks for nothing any more answers. Another thread may write the flag, and a signal handler of this one. It has to
 * stay where it is until it is taken away. */
void itree_stop_flag(const volatile int *flag);

/* A horizontal segment at the height y, from x0 to x1, both of which it covers. One with x1 < x0 covers nothing. */
struct itree_segment {
    int32_t x0, x1, y;
};

struct itree_point {
    int32_t x, y;
};

/* What lies straight below a point: found is 1 and y a height, or both are 0 where nothing does. */
struct itree_height {
    int32_t found, y;
};

/* Writes for each point, in order, the greatest height at most its own among the segments that cover its x.
 *
 * Two segments collide where they have one height and both cover some x. The call returns
 *   ITREE_ANSWERED  and no two collide;
 *   ITREE_OVERLAP   and two do: *overlap is the place of the first segment, in the order of x0 and then of place,
 *                   that collides with one before it;
 *   ITREE_REFUSED   and two may collide or not;
 *   ITREE_POINTER   exactly where a pointer is faulty;
 *   ITREE_LENGTHS   exactly where none is, and height_count isn't point_count.
 * *overlap is written at ITREE_OVERLAP alone, and heights at ITREE_ANSWERED alone; overlap may be NULL. For n segments
 * and points it makes O(n log n) steps, and takes room for n events and answers. */
int32_t itree_below(const struct itree_segment *segments, size_t segment_count, const struct itree_point *points,
                    size_t point_count, struct itree_height *heights, size_t height_count, size_t *overlap);

/* A straight line from (x0, y0) to (x1, y1), both of which are of it. It may be a point. */
struct itree_edge {
    int32_t x0, y0, x1, y1;
};

/* The places of two edges of one list, first below second; or one of each of two lists. */
struct itree_pair {
    size_t first, second;
};

/* Writes the pairs of edges that share a point, each once, in no particular order, as many as fit: *count is how many
 * there are, which may be more than pair_count. A call with room for *count pairs then writes all; one with
 * pair_count 0 counts.
 *
 * It is exact: nothing is rounded. The call returns
 *   ITREE_ANSWERED  the first of the pairs are written, and *count is; what is left of the room stays as it was;
 *   ITREE_REFUSED   and nothing is written;
 *   ITREE_POINTER   exactly where a pointer is faulty.
 * count may be NULL. */
int32_t itree_meetings(const struct itree_edge *edges, size_t edge_count, struct itree_pair *pairs, size_t pair_count,
                       size_t *count);

/* Tells whether any two edges share a point, and two that do. It stops at the first edge of its sweep that meets
 * others before it. It is exact: nothing is rounded. The call returns
 *   ITREE_ANSWERED  and no two meet;
 *   ITREE_MEETING   and two do: *first and *second are the places of two that meet, *first below *second;
 *   ITREE_REFUSED   and two may meet or not;
 *   ITREE_POINTER   exactly where a pointer is faulty.
 * *first and *second are written at ITREE_MEETING alone, and may be NULL. */
int32_t itree_first_meeting(const struct itree_edge *edges, size_t edge_count, size_t *first, size_t *second);

/* How two edges meet. */
enum itree_meeting {
    ITREE_EDGES_APART = 0, /* They share no point. */
    ITREE_EDGES_TOUCH = 1, /* They share one point alone, and it is an end of one of them or of both. */
    ITREE_EDGES_CROSS = 2, /* They share one point alone, and it is an end of neither. */
    ITREE_EDGES_SHARE = 3  /* They share more than one point: a whole stretch of a line. */
};

/* Tells how two edges meet. It is exact: nothing is rounded. An edge may be a point. The call returns
 *   ITREE_ANSWERED  and *meeting is one of itree_meeting;
 *   ITREE_POINTER   exactly where a pointer is faulty, and nothing is written.
 * No pointer may be NULL; one and other may be the same. It takes no memory, so it is never refused. */
int32_t itree_how_they_meet(const struct itree_edge *one, const struct itree_edge *other, int32_t *meeting);

/* A handle of pairs, which owns them. It is read by the calls below, and given back by itree_pairs_free, once. One call
 * at a time takes a handle, by any thread; different handles don't concern each other. */
struct itree_pairs;

/* Writes a handle of all pairs of edges that share a point, each once, in no particular order: in one call, where
 * itree_meetings wants a second one for more pairs than there was room for. The call returns
 *   ITREE_ANSWERED  and *pairs is the caller's, also where no edges meet;
 *   ITREE_REFUSED   and *pairs is NULL;
 *   ITREE_POINTER   exactly where a pointer is faulty, and *pairs stays as it was.
 * pairs may not be NULL. What *pairs was before isn't looked at. It writes to little more memory than the pairs take. */
int32_t itree_meetings_all(const struct itree_edge *edges, size_t edge_count, struct itree_pairs **pairs);

/* The same of two lists: a handle of all pairs of an edge of the first list and one of the second that share a point,
 * each once, in no particular order. There first is a place of the first list and second one of the second list, so
 * first needn't be below second. Edges of one list aren't compared with each other; both lists may be one array. The
 * call returns what itree_meetings_all does, and *pairs is as there. */
int32_t itree_meetings_between(const struct itree_edge *edges, size_t edge_count, const struct itree_edge *others,
                               size_t other_count, struct itree_pairs **pairs);

/* How many pairs there are; 0 at NULL. */
size_t itree_pairs_count(const struct itree_pairs *pairs);

/* Where the first pair lies, and behind it the others, side by side; NULL where there is none, and at NULL. They are the
 * handle's, and stay until it is given back. The library neither reads nor writes them again: the caller may write them,
 * as to sort them, and any number of threads may read them. */
struct itree_pair *itree_pairs_first(struct itree_pairs *pairs);

/* Gives back the handle and its pairs. At NULL it does nothing. */
void itree_pairs_free(struct itree_pairs *pairs);

/* A handle of chains, which owns them. It is read by the calls below, and given back by itree_chains_free, once. One
 * call at a time takes a handle, by any thread; different handles don't concern each other. */
struct itree_chains;

/* Writes a handle of the chains that the edges become by snap rounding: one for each edge, in the order of the edges.
 *
 * A point rounds to the whole point that is nearest on each axis, a half upwards. Hot points are all ends of the edges,
 * and what the points round to in which two edges that aren't parallel meet. The chain of an edge is the hot points that
 * some point of the edge rounds to, each once, in the order along it from (x0, y0) to (x1, y1). So it begins and ends as
 * the edge does; that of an edge that is a point is this point alone. The pieces of the chains, from each point to the
 * next, meet at common ends alone, or are the same. What rounds is told exactly. The call returns
 *   ITREE_ANSWERED  and *chains is the caller's, also where there are no edges;
 *   ITREE_REFUSED   and *chains is NULL;
 *   ITREE_POINTER   exactly where a pointer is faulty, and *chains stays as it was.
 * chains may not be NULL. What *chains was before isn't looked at. */
int32_t itree_snap(const struct itree_edge *edges, size_t edge_count, struct itree_chains **chains);

/* Writes a handle of the chains that the edges become where they are moved only where they must be: one for each edge, in
 * the order of the edges.
 *
 * An edge passes the hot points of its chain of itree_snap. Where two edges cross at a point with fractions, what this
 * rounds to moves the edges that pass it and that it doesn't lie on; so does each hot point that a moved edge passes. The
 * chain of a moved edge is that of itree_snap. Any other edge stays where it is: its chain is the hot points that lie on
 * it exactly. So where no two edges cross at a point with fractions, none is moved. Each chain begins and ends as its
 * edge does, and the pieces of the chains meet at common ends alone, or are the same. The call returns what itree_snap
 * does, and *chains is as there. */
int32_t itree_node(const struct itree_edge *edges, size_t edge_count, struct itree_chains **chains);

/* How many chains there are: as many as there were edges, or rings; 0 at NULL. */
size_t itree_chains_count(const struct itree_chains *chains);

/* How many points all chains have together; 0 at NULL. */
size_t itree_chains_point_count(const struct itree_chains *chains);

/* Where the first point of the first chain lies, and behind it the others, side by side, one chain behind the other; NULL
 * where there is none, and at NULL. They are the handle's, as the offsets are, and both stay until it is given back. The
 * library neither reads nor writes either again: the caller may write them, and any number of threads may read them. */
struct itree_point *itree_chains_points(struct itree_chains *chains);

/* Where the offsets lie, side by side, one more than there are chains: the first is 0, and the one at i + 1 is where the
 * chain at i stops among the points. So the chain at i has the points from the offset at i on and before that at i + 1, as
 * in a list of the Arrow format. NULL at NULL, and at no other handle. */
size_t *itree_chains_offsets(struct itree_chains *chains);

/* Gives back the handle and its chains. At NULL it does nothing. */
void itree_chains_free(struct itree_chains *chains);

/* Which points are inside of rings: by how often the rings go round a point counterclockwise, where y points upwards, less
 * how often they go round it clockwise. */
enum itree_fill_rule {
    ITREE_EVEN_ODD = 0, /* An odd number of times. */
    ITREE_NON_ZERO = 1, /* Any number of times but 0. */
    ITREE_POSITIVE = 2, /* More than 0 times. */
    ITREE_NEGATIVE = 3  /* Less than 0 times. */
};

/* What becomes of the inside of a subject and that of a clip. */
enum itree_operation {
    ITREE_UNION = 0,        /* The points of either. */
    ITREE_INTERSECTION = 1, /* The points of both. */
    ITREE_DIFFERENCE = 2,   /* The points of the subject that aren't of the clip. */
    ITREE_XOR = 3           /* The points of just one of the two. */
};

/* A handle of polygons, which owns them. It is read by the calls below, and given back by itree_polygons_free, once. One
 * call at a time takes a handle, by any thread; different handles don't concern each other. */
struct itree_polygons;

/* Writes a handle of the polygons of what the operation makes of the inside of the subject and that of the clip, by one of
 * itree_fill_rule and one of itree_operation.
 *
 * Subject and clip are rings: the points of all of them, one ring after the other, and for each ring the place among the
 * points at which it stops. So the ends are the offsets of the Arrow format without the first, which is 0; points behind
 * the last end are of no ring. A ring goes from each of its points to the next one, and from the last to the first. It may
 * end with its first point again, run either way, and have one point or none. Rings may cross, touch and lie along each
 * other and themselves, and stand there more than once.
 *
 * The first ring of a polygon is its outer one, which runs counterclockwise; those behind it are its holes, which run
 * clockwise. The polygons wind once around each point of the result, and not at all around any other, if each edge of the rings
 * given isn't moved, or runs along an axis, or isn't within half a unit, on both axes, of the point. Around no point do they
 * wind more often. Only such edges are moved as pass what two edges cross at, a point with fractions that is rounded, or
 * what a moved edge passes; so valid polygons keep their region. The rings visit no point twice, and have no points on
 * straight lines: with these, edges of rings meet only at common ends, so a corner may touch the side of a ring. The call
 * returns
 *   ITREE_ANSWERED  and *polygons is the caller's, also where nothing is of the result;
 *   ITREE_REFUSED   and *polygons is NULL;
 *   ITREE_POINTER   exactly where a pointer is faulty, and *polygons stays as it was;
 *   ITREE_CHOICE    exactly where none is, and rule or operation is none of their numbers: *polygons is NULL;
 *   ITREE_LENGTHS   exactly where all that is well, and a ring stops before it begins or behind the points: *polygons is
 *                   NULL.
 * polygons may not be NULL. What *polygons was before isn't looked at. Subject and clip may be the same arrays. */
int32_t itree_overlay(const struct itree_point *subject, size_t subject_count, const size_t *subject_ends,
                      size_t subject_rings, const struct itree_point *clip, size_t clip_count, const size_t *clip_ends,
                      size_t clip_rings, int32_t rule, int32_t operation, struct itree_polygons **polygons);

/* How many points all rings have together; 0 at NULL. Where first isn't NULL, *first is where the first of them lies, and
 * behind it the others, side by side, one ring behind the other; or NULL where there is none. They are the handle's, as the
 * offsets below are, and all stay until it is given back; any number of threads may read them. */
size_t itree_polygons_points(const struct itree_polygons *polygons, const struct itree_point **first);

/* How many offsets of rings there are, one more than there are rings; 0 at NULL. Where first isn't NULL, *first is where
 * they lie, side by side: the first is 0, and the one at i + 1 is where the ring at i stops among the points. So the ring
 * at i has the points from the offset at i on and before that at i + 1. At NULL *first is NULL. */
size_t itree_polygons_ring_offsets(const struct itree_polygons *polygons, const size_t **first);

/* How many offsets of polygons there are, one more than there are polygons; 0 at NULL. Where first isn't NULL, *first is
 * where they lie, side by side: the first is 0, and the one at i + 1 is where the polygon at i stops among the rings. So the
 * polygon at i has the rings from the offset at i on and before that at i + 1. At NULL *first is NULL. */
size_t itree_polygons_polygon_offsets(const struct itree_polygons *polygons, const size_t **first);

/* Gives back the handle and its polygons. At NULL it does nothing. */
void itree_polygons_free(struct itree_polygons *polygons);

/* A rectangle with whole corners. A point lies in it from its left and its lower side on, and before its right and its upper
 * one: so of windows side by side one has it. */
struct itree_window {
    int32_t left, low, right, high;
};

/* Writes a handle of the polygons of what of the result of itree_overlay lies in a window: a tile. The rings given, the rule, the
 * operation and the handle are as there.
 *
 * The polygons wind once around each point of the window that is of the result, and not at all around any other, if each edge
 * of the rings given runs along an axis, or isn't within half a unit, on both axes, of the point. Around no point do they
 * wind more often, and around none outside of the window at all. Where an edge comes through a side of the window it is
 * broken there, at a whole point, so it may be moved a little. itree_join makes one set of polygons of the tiles of windows side
 * by side. The call returns
 *   ITREE_ANSWERED  and *polygons is the caller's, also where nothing of the result lies in the window;
 *   ITREE_REFUSED   and *polygons is NULL;
 *   ITREE_POINTER   exactly where a pointer is faulty, and *polygons stays as it was;
 *   ITREE_CHOICE    exactly where none is, and rule or operation is none of their numbers: *polygons is NULL;
 *   ITREE_LENGTHS   exactly where all that is well, and a ring stops before it begins or behind the points: *polygons is
 *                   NULL;
 *   ITREE_WINDOW    exactly where all that is well, and no point lies in the window, or a side of it is less than 2 away from
 *                   what 32 bits hold: *polygons is NULL.
 * window and polygons may not be NULL. What *polygons was before isn't looked at. Subject and clip may be the same arrays. */
int32_t itree_overlay_in(const struct itree_window *window, const struct itree_point *subject, size_t subject_count,
                         const size_t *subject_ends, size_t subject_rings, const struct itree_point *clip,
                         size_t clip_count, const size_t *clip_ends, size_t clip_rings, int32_t rule, int32_t operation,
                         struct itree_polygons **polygons);

/* Writes a handle of what rings become for a window: a chain for each ring, in their order, without its first point once more; an
 * empty one where all points of the ring lie beyond one side of the window, widened by 2, or on the line along it. The rings are
 * given as to itree_overlay.
 *
 * Around each point of the window a ring winds as often as before, and its edges that come within half a unit of such a point, on
 * both axes, are edges of it before. Each point is one of the ring before, or lies in the window widened by 2 or on its sides. So
 * itree_overlay_in of the window promises of these rings what it does of those given: who makes its tile needs no more of them.
 * The call returns
 *   ITREE_ANSWERED  and *cropped is the caller's, also where there are no rings;
 *   ITREE_REFUSED   and *cropped is NULL;
 *   ITREE_POINTER   exactly where a pointer is faulty, and *cropped stays as it was;
 *   ITREE_LENGTHS   exactly where none is, and a ring stops before it begins or behind the points: *cropped is NULL;
 *   ITREE_WINDOW    exactly where all that is well, and no point lies in the window, or a side of it is less than 2 away from
 *                   what 32 bits hold: *cropped is NULL.
 * window and cropped may not be NULL. What *cropped was before isn't looked at. */
int32_t itree_crop(const struct itree_window *window, const struct itree_point *points, size_t point_count,
                   const size_t *ring_ends, size_t ring_count, struct itree_chains **cropped);

/* Writes the window that several make up without a gap, where there is one: it has each point of theirs, and no other. So one
 * tells that windows leave no gap. The call returns
 *   ITREE_ANSWERED  and *found is 1 and *whole is the window; or *found is 0, and there is no such window, as the windows leave
 *                   a gap, or there are none: *whole stays as it was;
 *   ITREE_POINTER   exactly where a pointer is faulty;
 *   ITREE_WINDOW    exactly where none is, and no point lies in one of the windows, or two of them have one in common.
 * Where it isn't ITREE_ANSWERED nothing is written. whole and found may not be NULL. It takes no memory. */
int32_t itree_whole_window(const struct itree_window *windows, size_t window_count, struct itree_window *whole,
                           int32_t *found);

/* Writes a handle of the polygons of the tiles of several windows, as one set: borders between the windows are gone, nothing is
 * moved, and polygons that come to no border are as they were. The polygons of each window are as itree_overlay_in writes them, and
 * stand behind those of the window before it.
 *
 * There are tile_count windows, and tile_ends[k] is the place among all polygons at which those of the windows at k stop; the
 * other ends are as a handle of itree_overlay has its offsets, without the first, which is 0. Around each point the polygons
 * wind as often as those of all tiles together. No two windows may have a point in common; they needn't lie side by side. The
 * call returns
 *   ITREE_ANSWERED  and *polygons is the caller's, also where there are none;
 *   ITREE_REFUSED   and *polygons is NULL;
 *   ITREE_POINTER   exactly where a pointer is faulty, and *polygons stays as it was;
 *   ITREE_LENGTHS   exactly where none is, and a ring, a polygon or a tile stops before it begins or behind the points, the rings
 *                   or the polygons, or some polygons are of no tile or rings of no polygon, or there aren't as many tiles as
 *                   windows: *polygons is NULL;
 *   ITREE_WINDOW    exactly where all that is well, and no point lies in one of the windows, or two of them have one in common:
 *                   *polygons is NULL;
 *   ITREE_UNFIT     and all that is well, but a point of a polygon lies neither in its window nor on its sides, or the polygons that come to the sides
 *                   of their windows wind around some point neither once nor not at all: *polygons is NULL.
 * polygons may not be NULL. What *polygons was before isn't looked at. */
int32_t itree_join(const struct itree_window *windows, size_t window_count, const size_t *tile_ends, size_t tile_count,
                   const size_t *polygon_ends, size_t polygon_count, const size_t *ring_ends, size_t ring_count,
                   const struct itree_point *points, size_t point_count, struct itree_polygons **polygons);

/* Writes a handle of the polygons of the Minkowski sum of what is inside of rings, by one of itree_fill_rule, and a shape: of the
 * points that one of the inside and one of the shape add up to. So what is inside grows by the shape on all sides; parts that come
 * to touch become one, and holes that are small close.
 *
 * The rings are as itree_overlay takes them. The shape is the corners of a convex polygon, counterclockwise, with the origin
 * inside: at each corner it turns left, none stands there twice, and the origin lies left of each side. It goes once around.
 *
 * What is inside is bounded by rings first, as those of itree_overlay of it and nothing: exactly where it moves no edge. The
 * polygons are as itree_overlay writes them, too. Of what those rings bound they wind once around each point of the sum, and not at
 * all around any other, if each edge of the curve around the sum isn't moved, or runs along an axis, or isn't within half a unit, on
 * both axes, of the point, and none goes through it. The curve is each edge of those rings, moved by the corner of the shape that
 * lies furthest to the right of it, and what joins these at corners: around one that turns left the sides of the shape, and at one
 * that turns right the ways to the corner itself and on, or nothing where the same corner of the shape moves both edges. Around no
 * point do they wind more often. The call returns
 *   ITREE_ANSWERED  and *polygons is the caller's, also where there are none;
 *   ITREE_REFUSED   and *polygons is NULL;
 *   ITREE_POINTER   exactly where a pointer is faulty, and *polygons stays as it was;
 *   ITREE_CHOICE    exactly where none is, and rule is none of its numbers: *polygons is NULL;
 *   ITREE_LENGTHS   exactly where all that is well, and a ring stops before it begins or behind the points: *polygons is
 *                   NULL;
 *   ITREE_SHAPE     exactly where all that is well, and the shape isn't such a polygon: *polygons is NULL;
 *   ITREE_RANGE     and all that is well, but a corner of the curve is no point of 32 bits: *polygons is NULL.
 * polygons may not be NULL. What *polygons was before isn't looked at. */
int32_t itree_minkowski(const struct itree_point *points, size_t point_count, const size_t *ring_ends,
                        size_t ring_count, const struct itree_point *shape, size_t corner_count, int32_t rule,
                        struct itree_polygons **polygons);

/* How a corner that turns left is joined where polygons grow. One that turns right needs no join. */
enum itree_join_style {
    ITREE_JOIN_ROUND = 0, /* By the sides of the shape there, as itree_minkowski joins it. */
    ITREE_JOIN_BEVEL = 1, /* By one straight line between the ends of the moved edges. */
    ITREE_JOIN_MITRE = 2  /* By the moved edges, carried on to where they cross; or round beyond a limit. */
};

/* Writes a handle of the polygons that the inside of rings, by one of itree_fill_rule, becomes when it grows by a shape, with corners
 * joined by one of itree_join_style. A square of 10 that grows by the diamond (2, 0), (0, 2), (-2, 0), (0, -2) becomes a square of 14
 * with mitres, and one with slanted corners without.
 *
 * Rings and shape are as itree_minkowski takes them, and the curve is that of it but at corners that turn left. Bevelled, one straight
 * line stands there in place of the sides of the shape, from the corner of the shape that moves the one edge to that which moves the
 * next, where the origin lies left of that line. Mitred, the triangle of these two corners and of the tip comes to the curve, where the
 * tip lies to the right of the line. The tip is where the moved edges cross, rounded to a whole point. Where it is farther out than the
 * shape would reach if it were limit hundredths of its size, the corner stays round: 200 is twice as large. The limit is looked at for
 * mitres alone.
 *
 * The polygons wind once around each point that the curve winds around, and not at all around any other, as those of itree_minkowski do.
 * The call returns what itree_minkowski does; ITREE_CHOICE comes exactly where no pointer is faulty, and rule or join is none of their
 * numbers, and ITREE_RANGE also where the tip of a mitre is no point of 32 bits. */
int32_t itree_minkowski_joined(const struct itree_point *points, size_t point_count, const size_t *ring_ends,
                               size_t ring_count, const struct itree_point *shape, size_t corner_count, int32_t rule,
                               int32_t join, uint32_t limit, struct itree_polygons **polygons);

/* Writes a handle of the polygons of what is left of the inside of rings, by one of itree_fill_rule, where a shape is taken along
 * outside: of each point from which the whole shape lies inside. So what is inside shrinks by the shape on all sides; narrow parts
 * go, and polygons come apart there.
 *
 * Rings and shape are as itree_minkowski takes them. The polygons wind once around each point that is left, and not at all around
 * any other, as those of itree_minkowski do: the curve is that of what bounds the inside, the other way round, and of the shape turned
 * by half a turn. The call returns what itree_minkowski does; ITREE_RANGE comes where a corner of that curve, or of the shape turned,
 * is no point of 32 bits. */
int32_t itree_erode(const struct itree_point *points, size_t point_count, const size_t *ring_ends, size_t ring_count,
                    const struct itree_point *shape, size_t corner_count, int32_t rule,
                    struct itree_polygons **polygons);

/* Writes a handle of the polygons of the Minkowski sum of lines and a shape: of the points that one of a line and one of the shape
 * add up to. So lines become as wide as the shape is, and their ends take its form; lines that come to touch become one.
 *
 * A line goes from each of its points to the next one, and not back to the first. The points of all lines stand one line after the
 * other, and line_ends has for each line the place among them at which it stops, as those of rings. A line of one point becomes the
 * shape there, and one of none nothing. The shape is as itree_minkowski takes it.
 *
 * The polygons are as itree_overlay writes them. They wind once around each point of the sum, and not at all around any other, as
 * those of itree_minkowski do: in place of the curve there are the shape at each point of a line, and along each edge the parallelogram
 * between the edge moved by the corner of the shape that lies furthest to the right of it, and the edge moved by that furthest to the
 * left. The call returns
 *   ITREE_ANSWERED  and *polygons is the caller's, also where there are none;
 *   ITREE_REFUSED   and *polygons is NULL;
 *   ITREE_POINTER   exactly where a pointer is faulty, and *polygons stays as it was;
 *   ITREE_LENGTHS   exactly where none is, and a line stops before it begins or behind the points: *polygons is NULL;
 *   ITREE_SHAPE     exactly where all that is well, and the shape isn't one: *polygons is NULL;
 *   ITREE_RANGE     and all that is well, but a corner of such a shape or parallelogram is no point of 32 bits: *polygons is NULL.
 * polygons may not be NULL. What *polygons was before isn't looked at. */
int32_t itree_grow_lines(const struct itree_point *points, size_t point_count, const size_t *line_ends,
                         size_t line_count, const struct itree_point *shape, size_t corner_count,
                         struct itree_polygons **polygons);

/* Writes the corners of a convex polygon that stands for a circle around the origin, counterclockwise: a shape for
 * itree_minkowski, itree_erode and itree_grow_lines. It has at most so many corners: 8, 16, 24 or more, up to 8,192, as far as most allows, and no more than eight
 * times the root of a sixth of the radius; below 8, or where the radius is below 6, it is a diamond. No corner is farther from the
 * origin than the radius, and *inner is the greatest whole number up to it such that no side is nearer.
 *
 * *count is how many corners there are. They are written where corner_count is *count; where it is 0 they are counted alone. The
 * call returns
 *   ITREE_ANSWERED  and *count and *inner are written, and so are the corners, or none are where corner_count is 0;
 *   ITREE_POINTER   exactly where a pointer is faulty;
 *   ITREE_CHOICE    exactly where none is, and the radius is below 1 or most below 4;
 *   ITREE_LENGTHS   and all that is well, but corner_count is neither 0 nor how many corners there are, which *count is then;
 *   ITREE_REFUSED   and nothing is written.
 * count and inner may be NULL. */
int32_t itree_circle(int32_t radius, size_t most, struct itree_point *corners, size_t corner_count, size_t *count,
                     int32_t *inner);

/* Shapes: each is some rings, as a polygon with its holes, or a multipolygon. The points of all rings, one ring after the
 * other; for each ring the place among the points at which it stops; and for each shape the place among the rings at
 * which it stops, both as the ends of itree_overlay. A handle of itree_wkb_read has shapes. Points behind the last ring
 * and rings behind the last shape are of no shape. A ring is as itree_overlay takes it; a shape may have no ring. */
struct itree_shapes {
    const struct itree_point *points;
    size_t point_count;
    const size_t *ring_ends;
    size_t ring_count;
    const size_t *shape_ends;
    size_t shape_count;
};

/* Groups of shapes: the places of the shapes of all groups, one group after the other, and for each group the place among
 * these at which it stops. A group may have no shape; a shape may be in several groups, and in one more than once. */
struct itree_groups {
    const size_t *places;
    size_t place_count;
    const size_t *ends;
    size_t group_count;
};

/* Lines: the points of all, one line after the other, and for each line the place among the points at which it stops. A
 * line goes from each of its points to the next one, and not back to the first. Points behind the last are of none. */
struct itree_lines {
    const struct itree_point *points;
    size_t point_count;
    const size_t *ends;
    size_t line_count;
};

/* Writes a handle of the polygons of what the operation makes of groups: for each group of the subjects, one after the
 * other, all rings of its shapes together, and those of the clips' group at the same place. They are the polygons that
 * itree_overlay writes of these rings. ends[k] is the place among all polygons of the handle at which those of the groups
 * at k stop: so these are the polygons from ends[k - 1] on, or from the first on, and before ends[k].
 *
 * Pairs of shapes are groups of one shape each. Unions of many shapes each are groups of the subjects and as many empty
 * groups of the clips. Groups of few points take no memory of their own, so that many small ones cost little more than
 * their points. The call returns
 *   ITREE_ANSWERED  and *polygons is the caller's, also where there are none, and the ends are written;
 *   ITREE_REFUSED   and *polygons is NULL;
 *   ITREE_POINTER   exactly where a pointer is faulty, and *polygons stays as it was;
 *   ITREE_CHOICE    exactly where none is, and rule or operation is none of their numbers: *polygons is NULL;
 *   ITREE_LENGTHS   exactly where all that is well, and a ring, a shape or a group stops before it begins or behind the
 *                   points, the rings or the places; or a place is that of no shape; or there are not end_count groups of
 *                   both: *polygons is NULL.
 * The ends are written at ITREE_ANSWERED alone. No pointer but those of the structs may be NULL, and ends where end_count
 * is 0. What *polygons was before isn't looked at. Subjects and clips may be the same. */
int32_t itree_overlay_each(const struct itree_shapes *subjects, const struct itree_groups *subject_groups,
                           const struct itree_shapes *clips, const struct itree_groups *clip_groups, int32_t rule,
                           int32_t operation, size_t *ends, size_t end_count, struct itree_polygons **polygons);

/* Writes a handle of the pairs of a shape of the first shapes and one of the others whose boxes share a point, each once,
 * in no particular order. There first is a place of the first shapes and second one of the others. The box of a shape
 * goes from the least x and y of its points to the greatest, with its border; a shape without points has none. So these
 * are the pairs that an overlay has to look at. The call returns
 *   ITREE_ANSWERED  and *pairs is the caller's, also where there are none;
 *   ITREE_REFUSED   and *pairs is NULL;
 *   ITREE_POINTER   exactly where a pointer is faulty, and *pairs stays as it was;
 *   ITREE_LENGTHS   exactly where none is, and a ring or a shape stops before it begins or behind the points or the
 *                   rings: *pairs is NULL.
 * No pointer but those of the structs may be NULL. What *pairs was before isn't looked at. Both may be the same. */
int32_t itree_box_pairs(const struct itree_shapes *shapes, const struct itree_shapes *others,
                        struct itree_pairs **pairs);

/* Whether a point on an edge of a shape is in it. By ITREE_HALF_OPEN one on a left or a lower border is, and one on a right or
 * an upper border isn't: so of shapes that cover the plane side by side each point is in just one. */
enum itree_border {
    ITREE_CLOSED = 0,   /* It is. */
    ITREE_OPEN = 1,     /* It isn't. */
    ITREE_HALF_OPEN = 2 /* It is on a left or a lower border. */
};

/* Writes a handle of the pairs of a point and a shape that it is in, each once: by the place of the point, and of one
 * point by that of the shape. There first is the place of the point and second that of the shape. A point is inside of a
 * shape by one of itree_fill_rule and one of itree_border. It is exact: nothing is rounded. The call returns
 *   ITREE_ANSWERED  and *pairs is the caller's, also where there are none;
 *   ITREE_REFUSED   and *pairs is NULL;
 *   ITREE_POINTER   exactly where a pointer is faulty, and *pairs stays as it was;
 *   ITREE_CHOICE    exactly where none is, and rule or border is none of their numbers: *pairs is NULL;
 *   ITREE_LENGTHS   exactly where all that is well, and a ring or a shape stops before it begins or behind the points or
 *                   the rings: *pairs is NULL.
 * shapes and pairs may not be NULL. What *pairs was before isn't looked at. */
int32_t itree_points_in(const struct itree_point *points, size_t count, const struct itree_shapes *shapes, int32_t rule,
                        int32_t border, struct itree_pairs **pairs);

/* Which part of lines is kept. */
enum itree_side {
    ITREE_INSIDE = 0, /* What lies inside of the rings or along their border. */
    ITREE_OUTSIDE = 1 /* The rest. */
};

/* Writes a handle of the pieces of lines that lie inside of rings, or of those that don't, by one of itree_fill_rule and
 * one of itree_side. The rings are as itree_overlay takes them.
 *
 * Lines and rings are broken where they meet, lines one another, too, each at a whole point, as itree_snap breaks edges;
 * so a line that others cross, or end at or beside, may be moved by half a unit on either axis, and has the points where
 * they do. A part between two such points is inside where its middle is, or where that lies on an edge of the broken
 * rings. Parts that are kept and follow each other along a line are one piece, which has the points between them too. In
 * the handle the pieces are the rings, and the pieces of each line are a polygon: itree_polygons_ring_offsets tells
 * where each piece stops among the points, and itree_polygons_polygon_offsets where those of each line stop among the
 * pieces. A piece runs as its line does, and has two points at least; it isn't closed. The call returns
 *   ITREE_ANSWERED  and *pieces is the caller's, also where there are none;
 *   ITREE_REFUSED   and *pieces is NULL;
 *   ITREE_POINTER   exactly where a pointer is faulty, and *pieces stays as it was;
 *   ITREE_CHOICE    exactly where none is, and rule or side is none of their numbers: *pieces is NULL;
 *   ITREE_LENGTHS   exactly where all that is well, and a line or a ring stops before it begins or behind its points:
 *                   *pieces is NULL.
 * lines and pieces may not be NULL. What *pieces was before isn't looked at. */
int32_t itree_clip_lines(const struct itree_lines *lines, const struct itree_point *rings, size_t count,
                         const size_t *ring_ends, size_t ring_count, int32_t rule, int32_t side,
                         struct itree_polygons **pieces);

/* Writes for each polygon, in order, the place of the polygon in whose hole it lies, the nearest around it; or SIZE_MAX,
 * where no other goes round it.
 *
 * The polygons are as itree_overlay writes them: the first ring of each shape is its outer one. Whether an outer ring
 * goes round another polygon is told by the middle of the first edge of that one's outer ring: it does where its winding
 * number around that middle isn't 0. Of several that go round a polygon the nearest is the one around which the most go;
 * where as many go round two of them, the first. A polygon whose outer ring has no point goes round none. The call
 * returns
 *   ITREE_ANSWERED  and the parents are written;
 *   ITREE_REFUSED   and nothing is written;
 *   ITREE_POINTER   exactly where a pointer is faulty;
 *   ITREE_LENGTHS   exactly where none is, and a ring or a shape stops before it begins or behind the points or the
 *                   rings, or parent_count isn't shape_count.
 * polygons may not be NULL. */
int32_t itree_polygon_parents(const struct itree_shapes *polygons, size_t *parents, size_t parent_count);

/* What is wrong with polygons that aren't valid. */
enum itree_fault {
    ITREE_VALID = 0,         /* Nothing is. */
    ITREE_FEW_POINTS = 1,    /* The ring has fewer than three points. */
    ITREE_MEETS_ITSELF = 2,  /* The ring crosses or touches itself: two edges of it do. */
    ITREE_RINGS_CROSS = 3,   /* Two edges cross or share more than one point; of one ring that is ITREE_MEETS_ITSELF. */
    ITREE_HOLES_OUTSIDE = 4, /* A hole of the polygon lies outside of its outer ring, or in another hole. */
    ITREE_POLYGONS_OVERLAP = 5, /* Two polygons overlap. */
    ITREE_DISCONNECTED = 6      /* The inside of the polygon is no one piece: its rings touch along a circle. */
};

/* What is wrong, one of itree_fault, and where; 0 stands where nothing is told. */
struct itree_fault_place {
    size_t kind;
    size_t polygon;           /* At ITREE_HOLES_OUTSIDE and ITREE_DISCONNECTED: the place of the polygon. */
    size_t ring;              /* At ITREE_FEW_POINTS and ITREE_MEETS_ITSELF the place of the ring among all; at
                               * ITREE_DISCONNECTED among those of the polygon. */
    struct itree_point point; /* At ITREE_HOLES_OUTSIDE and ITREE_POLYGONS_OVERLAP: a point near which it is. At
                               * ITREE_DISCONNECTED: where the ring touches another one on the circle. */
    struct itree_edge one;    /* At ITREE_MEETS_ITSELF and ITREE_RINGS_CROSS: the two edges. */
    struct itree_edge other;
};

/* Tells whether polygons are valid, as OGC has it, or what is wrong with them, and where: the first fault that is found. It
 * is exact: nothing is rounded.
 *
 * The first ring of each shape is its outer one, those behind it are its holes. Rings may run either way, and a point that is
 * the next one again, as the first one at the end of its ring, counts once. Polygons are valid where each ring has three
 * points or more, visits none twice, and neither crosses nor touches itself; where edges of several rings meet only in single
 * points, at an end of one of them; where holes lie in their outer ring, side by side; where no two polygons overlap; and
 * where the inside of each polygon is one piece. They may touch in points, and so may a hole and its outer ring or another
 * hole, but rings along no circle. Edges are told as they stand in the ring given at ITREE_MEETS_ITSELF; and at
 * ITREE_RINGS_CROSS as they are where outer rings run counterclockwise and holes clockwise. For n edges that meet in k pairs
 * it takes O((n + k) log (n + k)) steps, and room for k pairs: k is n where rings lie apart, and n * n where n triangles touch in
 * one point. The call returns
 *   ITREE_ANSWERED  and *fault is written, whose kind is ITREE_VALID exactly where the polygons are valid;
 *   ITREE_REFUSED   and they may be valid or not;
 *   ITREE_POINTER   exactly where a pointer is faulty;
 *   ITREE_LENGTHS   exactly where none is, and a ring or a shape stops before it begins, or behind the points or the rings;
 *                   or rings stand behind the last shape.
 * *fault is written at ITREE_ANSWERED alone. polygons and fault may not be NULL. */
int32_t itree_polygons_fault(const struct itree_shapes *polygons, struct itree_fault_place *fault);

/* The edge straight below a point: found is 1 and place its place, or both are 0 where there is none. */
struct itree_place {
    size_t found, place;
};

/* Writes for each point, in order, the place of the edge straight below it.
 *
 * An edge covers the x's from its lesser end up to its greater, which it doesn't cover: where one edge of a chain ends
 * and the next begins, one of them covers the x. An upright edge or a point covers nothing. An edge is under a point
 * where it covers the point's x at a height that is at most the point's, and straight below it where none that is under
 * it is higher there. Of edges that are as high there, it is the one that is highest just right of the point; of edges
 * along one line any may be told.
 *
 * Two edges cross where the one is below the other at some whole x that both reach, and above it at another; edges that
 * touch, end on each other or lie along one line don't. An upright edge crosses none, though it goes through another:
 * it is never told; itree_meetings tells it. It is exact: nothing is rounded. The call returns
 *   ITREE_ANSWERED  and no two cross;
 *   ITREE_CROSSING  and two do: *first and *second are the places of two that cross, *first below *second;
 *   ITREE_REFUSED   and two may cross or not;
 *   ITREE_POINTER   exactly where a pointer is faulty;
 *   ITREE_LENGTHS   exactly where none is, and place_count isn't point_count.
 * *first and *second are written at ITREE_CROSSING alone, and places at ITREE_ANSWERED alone; first and second may be
 * NULL. For n edges and points it makes O(n log n) steps, and takes room for n events and answers. */
int32_t itree_locate(const struct itree_edge *edges, size_t edge_count, const struct itree_point *points,
                     size_t point_count, struct itree_place *places, size_t place_count, size_t *first, size_t *second);

/* Where something is: two doubles. */
struct itree_position {
    double x, y;
};

/* A grid, by which positions become points, and points positions. Its unit is 2 to the power of its exponent, from -1022
 * to 970; its origin is told in units, each number of which is at most 2^53 - 2^31 from 0. The point (n, m) is the position
 * ((n + x) * unit, (m + y) * unit), which is exact. A grid that isn't so is none. */
struct itree_grid {
    int64_t x, y;
    int32_t exponent;
};

/* Writes the grid of the finest unit by which all positions lie within 2^30 units of its origin, which is the middle of
 * them, but not a finer one than doubles lie apart at the greatest coordinate. Where there are no positions, or all are
 * (0, 0), the unit is 1 and the origin (0, 0). The call returns
 *   ITREE_ANSWERED  and *grid is written;
 *   ITREE_FAULTY    and *fault is the place of the first position that isn't finite; or count, where all are and they lie
 *                   too far apart for a grid;
 *   ITREE_POINTER   exactly where a pointer is faulty.
 * *fault is written at ITREE_FAULTY alone; fault may be NULL, and grid may not. It takes no memory. To fit a grid to more
 * than one array, fit it to their corners. */
int32_t itree_grid_fit(const struct itree_position *positions, size_t count, struct itree_grid *grid, size_t *fault);

/* Writes for each position, in order, the point of the grid that is nearest to it on each axis; where two are, the one
 * whose number and the origin's make an even one. So a position that itree_grid_positions writes becomes its point again.
 * The call returns
 *   ITREE_ANSWERED  and the points are written;
 *   ITREE_FAULTY    and *fault is the place of the first position that isn't finite, or whose nearest point has no numbers
 *                   of 32 bits: then points before that place may be written;
 *   ITREE_POINTER   exactly where a pointer is faulty;
 *   ITREE_CHOICE    exactly where none is, and the grid is none;
 *   ITREE_LENGTHS   exactly where all that is well, and point_count isn't count.
 * *fault is written at ITREE_FAULTY alone; fault may be NULL, and grid may not. It takes no memory. */
int32_t itree_grid_round(const struct itree_grid *grid, const struct itree_position *positions, size_t count,
                         struct itree_point *points, size_t point_count, size_t *fault);

/* Writes for each point of the grid, in order, its position. It is exact. The call returns
 *   ITREE_ANSWERED  and the positions are written;
 *   ITREE_POINTER   exactly where a pointer is faulty;
 *   ITREE_CHOICE    exactly where none is, and the grid is none;
 *   ITREE_LENGTHS   exactly where all that is well, and position_count isn't count.
 * grid may not be NULL. It takes no memory. */
int32_t itree_grid_positions(const struct itree_grid *grid, const struct itree_point *points, size_t count,
                             struct itree_position *positions, size_t position_count);

/* What is faulty of shapes in well-known binary. */
enum itree_wkb_fault {
    ITREE_WKB_SHORT = 1,      /* The shape's bytes end before it does. */
    ITREE_WKB_BYTE_ORDER = 2, /* A byte order is neither 0 nor 1. */
    ITREE_WKB_KIND = 3,       /* A geometry is of another kind than a Polygon, a MultiPolygon or a collection. */
    ITREE_WKB_NESTED = 4,     /* Collections lie within one another more than 16 deep. */
    ITREE_WKB_NOT_FINITE = 5, /* A coordinate isn't finite. */
    ITREE_WKB_OFF_GRID = 6,   /* The point that is nearest to a position has no numbers of 32 bits. */
    ITREE_WKB_LEFT_OVER = 7,  /* Bytes stand behind the shape's geometry. */
    ITREE_WKB_OFFSETS = 8     /* An offset is less than the one before it, or stands behind the bytes. */
};

/* What is faulty, one of itree_wkb_fault; of which shape; and the place among all bytes at which it begins. */
struct itree_wkb_place {
    size_t kind, shape, byte;
};

/* Tells the least and the greatest coordinates of shapes in well-known binary, to which a grid is fitted. The shapes are as
 * itree_wkb_read takes them. The call returns
 *   ITREE_ANSWERED  and *found is 2, where there is a position: corners[0] has the least x and the least y of all, and
 *                   corners[1] the greatest; or 0, where there is none, and corners stay as they were;
 *   ITREE_FAULTY    and *fault tells what is faulty;
 *   ITREE_REFUSED   and nothing is told;
 *   ITREE_POINTER   exactly where a pointer is faulty;
 *   ITREE_LENGTHS   exactly where none is, and corner_count isn't 2.
 * *fault is written at ITREE_FAULTY alone; fault may be NULL, and found may not. */
int32_t itree_wkb_corners(const uint8_t *bytes, size_t byte_count, const size_t *offsets, size_t offset_count,
                          struct itree_position *corners, size_t corner_count, size_t *found,
                          struct itree_wkb_place *fault);

/* Writes a handle of shapes that stand in well-known binary, their positions rounded to a grid as itree_grid_round does.
 *
 * The shape at i is the bytes from the offset at i on and before that at i + 1, as in a list of the Arrow format: there is
 * one offset more than there are shapes, or none. It is a Polygon, a MultiPolygon, or a GeometryCollection of these and of
 * such collections, by ISO's format or EWKB, of either byte order. Coordinates z and m and an SRID are passed over. A ring
 * that ends with its first position again loses it. Outer rings are turned counterclockwise, and the others clockwise,
 * before they are rounded: so their even-odd and their non-zero inside is that of the shape.
 *
 * The handle is as itree_overlay's, but for each shape where it stops among the rings stands where for each polygon does
 * there; and the rings are as they were given. The call returns
 *   ITREE_ANSWERED  and *shapes is the caller's, also where there are none;
 *   ITREE_FAULTY    and *fault tells what is faulty; *shapes is NULL;
 *   ITREE_REFUSED   and *shapes is NULL;
 *   ITREE_POINTER   exactly where a pointer is faulty, and *shapes stays as it was;
 *   ITREE_CHOICE    exactly where none is, and the grid is none: *shapes is NULL.
 * *fault is written at ITREE_FAULTY alone; fault may be NULL, and grid and shapes may not. */
int32_t itree_wkb_read(const uint8_t *bytes, size_t byte_count, const size_t *offsets, size_t offset_count,
                       const struct itree_grid *grid, struct itree_polygons **shapes, struct itree_wkb_place *fault);

/* Tells the number of the reference system that the bytes of one shape in EWKB have, or 0 where they have none. It looks at
 * the first 9 bytes at most. The call returns
 *   ITREE_ANSWERED  and *srid is written;
 *   ITREE_POINTER   exactly where a pointer is faulty.
 * srid may not be NULL. It takes no memory. */
int32_t itree_wkb_srid(const uint8_t *bytes, size_t byte_count, uint32_t *srid);

/* As what polygons are written. */
enum itree_wkb_form {
    ITREE_WKB_MULTIPOLYGON = 0, /* As one MultiPolygon. */
    ITREE_WKB_EACH_POLYGON = 1  /* Each as a Polygon, one behind the other. */
};

/* Writes polygons in well-known binary, little-endian, their points as positions of a grid, each ring's first one once more
 * at its end. Where srid isn't 0, it is written as EWKB has it.
 *
 * *size is how many bytes there are. They are written where byte_count is *size; where it is 0 they are counted alone. In
 * the form ITREE_WKB_EACH_POLYGON a polygon has 9 bytes, 4 more with an SRID, and for each ring 4 and 16 for each point and
 * for the first one again; so it is known where each begins. Points, ends and polygons are as a handle of itree_overlay has
 * them, the offsets without the first, which is 0. A ring without points is written without any. The call returns
 *   ITREE_ANSWERED  and *size is written, and so are the bytes, or none are where byte_count is 0;
 *   ITREE_POINTER   exactly where a pointer is faulty;
 *   ITREE_CHOICE    exactly where none is, and the form is none of itree_wkb_form, or the grid is none;
 *   ITREE_LENGTHS   exactly where all that is well, and a ring or a polygon stops before it begins or behind the points or
 *                   the rings, or has more parts than 32 bits count; or byte_count is neither 0 nor how many bytes there
 *                   are, which *size is then;
 *   ITREE_REFUSED   and nothing is written.
 * size may be NULL, and grid may not. */
int32_t itree_wkb_write(const struct itree_point *points, size_t point_count, const size_t *ring_ends, size_t rings,
                        const size_t *polygon_ends, size_t polygons, const struct itree_grid *grid, int32_t form,
                        uint32_t srid, uint8_t *bytes, size_t byte_count, size_t *size);

#ifdef __cplusplus
}
#endif

#endif
