/* Limits of a thread's calls from C: memory, a flag that stops them, handles that another thread gives back, and a
 * small stack; statuses in words, and the version. */
#ifndef _GNU_SOURCE
#define _GNU_SOURCE
#endif
#include <itree.h>
#include <pthread.h>
#include <stdio.h>
#include <stdlib.h>
#include <string.h>
#include <sys/mman.h>
#include <time.h>

#include "counted.h"
#include "refuse.h"

enum { MANY = 200, LONG = 3000 };

/* A status in words of this file's: it compiles as each has its own number. */
static const char *word_of(enum itree_status status) {
    switch (status) {
    case ITREE_ANSWERED: return "answered";
    case ITREE_REFUSED: return "refused";
    case ITREE_OVERLAP: return "overlap";
    case ITREE_LENGTHS: return "lengths";
    case ITREE_POINTER: return "pointer";
    case ITREE_CHOICE: return "choice";
    case ITREE_CROSSING: return "crossing";
    case ITREE_MEETING: return "meeting";
    case ITREE_FAULTY: return "faulty";
    case ITREE_STOPPED: return "stopped";
    case ITREE_WINDOW: return "window";
    case ITREE_UNFIT: return "unfit";
    case ITREE_SHAPE: return "shape";
    case ITREE_RANGE: return "range";
    }
    return "none";
}

static void checks_words(void) {
    const char *const none = itree_status_text(ITREE_RANGE + 1);
    int ok = 1;
    for (int32_t status = 0; status <= ITREE_RANGE; status++) {
        const char *const text = itree_status_text(status);
        ok = ok && strlen(text) > 10 && strcmp(text, none) != 0 &&
             strcmp(word_of((enum itree_status)status), "none") != 0;
        for (int32_t other = 0; other < status; other++) ok = ok && strcmp(text, itree_status_text(other)) != 0;
    }
    check("each status has words of its own", ok);
    check("a number that is none has others", strcmp(none, itree_status_text(-1)) == 0 && strlen(none) > 10);
    int first = -1, second = -1, third = -1;
    char rest = 0;
    check("the version is three numbers",
          sscanf(itree_version(), "%d.%d.%d%c", &first, &second, &third, &rest) == 3 && first >= 0 && third >= 0);
}

static struct itree_edge edges[MANY];
static struct itree_segment segments[MANY];
static struct itree_point points[MANY];

/* A shape in well-known binary: a polygon with one ring of four positions, all of which are (0, 0). */
static uint8_t shape[13 + 64] = {1, 3, 0, 0, 0, 1, 0, 0, 0, 4};
static const size_t shape_ends[] = {0, sizeof shape};
static const struct itree_grid grid = {0, 0, 0};

static void make_items(void) {
    for (int32_t place = 0; place < MANY; place++) {
        edges[place] = (struct itree_edge){place, 0, place, 9};
        segments[place] = (struct itree_segment){0, 9, place};
        points[place] = (struct itree_point){random_below(9), random_below(999)};
    }
}

/* The calls that take memory. They answer, but where they are refused. A handle is given back, and is NULL where there
 * is none. */
static int32_t call(int which) {
    static struct itree_height heights[MANY];
    static struct itree_place places[MANY];
    static struct itree_pair found[MANY];
    const size_t end = MANY, first = 0, one = 1, three = 3;
    const struct itree_shapes shapes = {points, MANY, &end, 1, &one, 1};
    const struct itree_groups groups = {&first, 1, &one, 1};
    const struct itree_lines lines = {points, MANY, &end, 1};
    const struct itree_window window = {0, 0, 9, 999};
    const struct itree_point corners[] = {{0, 0}, {9, 0}, {0, 9}};
    const struct itree_point around[] = {{1, 0}, {0, 1}, {-1, 0}, {0, -1}};
    size_t stop = 0;
    struct itree_fault_place fault;
    struct itree_pairs *pairs = NULL;
    struct itree_chains *chains = NULL;
    struct itree_polygons *polygons = NULL;
    int32_t status = -1;
    switch (which) {
    case 0: return itree_below(segments, MANY, points, MANY, heights, MANY, NULL);
    case 1: return itree_meetings(edges, MANY, found, MANY, NULL);
    case 2: status = itree_meetings_all(edges, MANY, &pairs); break;
    case 3: status = itree_meetings_between(edges, MANY, edges, MANY, &pairs); break;
    case 4: return itree_first_meeting(edges, MANY, NULL, NULL);
    case 5: status = itree_snap(edges, MANY, &chains); break;
    case 6: status = itree_overlay(points, MANY, &end, 1, points, MANY, &end, 1, 1, 0, &polygons); break;
    case 7: return itree_locate(edges, MANY, points, MANY, places, MANY, NULL, NULL);
    case 8: status = itree_wkb_read(shape, sizeof shape, shape_ends, 2, &grid, &polygons, NULL); break;
    case 9: status = itree_overlay_each(&shapes, &groups, &shapes, &groups, 1, 0, &stop, 1, &polygons); break;
    case 10: status = itree_box_pairs(&shapes, &shapes, &pairs); break;
    case 11: status = itree_points_in(points, MANY, &shapes, 1, 0, &pairs); break;
    case 12: status = itree_clip_lines(&lines, points, MANY, &end, 1, 1, 0, &polygons); break;
    case 13: return itree_polygon_parents(&shapes, &stop, 1);
    case 14: status = itree_node(edges, MANY, &chains); break;
    case 15: status = itree_overlay_in(&window, points, MANY, &end, 1, points, MANY, &end, 1, 1, 0, &polygons); break;
    case 16: status = itree_join(&window, 1, &one, 1, &one, 1, &three, 1, corners, 3, &polygons); break;
    case 17: status = itree_crop(&window, points, MANY, &end, 1, &chains); break;
    case 18: status = itree_minkowski(points, MANY, &end, 1, around, 4, ITREE_NON_ZERO, &polygons); break;
    case 19: return itree_circle(1000, MANY, NULL, 0, NULL, NULL);
    case 20: status = itree_erode(points, MANY, &end, 1, around, 4, ITREE_NON_ZERO, &polygons); break;
    case 21: status = itree_grow_lines(points, MANY, &end, 1, around, 4, &polygons); break;
    case 22: status = itree_minkowski_joined(points, MANY, &end, 1, around, 4, 1, 2, 500, &polygons); break;
    case 23: return itree_polygons_fault(&shapes, &fault);
    }
    const int has_handle = pairs != NULL || chains != NULL || polygons != NULL;
    itree_pairs_free(pairs);
    itree_chains_free(chains);
    itree_polygons_free(polygons);
    return has_handle == (status == ITREE_ANSWERED) ? status : -1;
}

enum { EACH = 9, CALLS = 24 };

static void checks_memory(void) {
    for (int which = 0; which < CALLS; which++) {
        check("a call answers", call(which) == ITREE_ANSWERED);
        const size_t peak = itree_memory_peak();
        check("it held memory", peak > 0);
        itree_limit_memory(peak);
        check("with so much it answers", call(which) == ITREE_ANSWERED && itree_memory_peak() == peak);
        itree_limit_memory(peak - 1);
        check("with less it is refused", call(which) == ITREE_REFUSED && itree_memory_peak() < peak);
        int ok = 1;
        for (size_t limit = 1; limit < peak; limit += peak / 50 + 1) {
            itree_limit_memory(limit);
            const int32_t status = call(which);
            /* Groups of shapes take a smaller arena where a larger one is refused. */
            ok = ok && (status == ITREE_REFUSED || (which == EACH && status == ITREE_ANSWERED));
            ok = ok && itree_memory_peak() <= limit;
        }
        check("and with much less", ok);
        itree_limit_memory(0);
        check("without a limit it answers", call(which) == ITREE_ANSWERED && itree_memory_peak() == peak);
        refuse_after(0);
        check("malloc refuses too", call(which) == ITREE_REFUSED && itree_memory_peak() == 0);
        refuse_after(SIZE_MAX);
    }
}

static void checks_flag(void) {
    volatile int flag = 0;
    for (int which = 0; which < CALLS; which++) {
        itree_stop_flag(&flag);
        check("a flag that is 0", call(which) == ITREE_ANSWERED);
        flag = 1;
        check("a flag stops the call", call(which) == ITREE_STOPPED && itree_memory_peak() == 0);
        flag = -5;
        itree_limit_memory(1);
        check("within a limit too", call(which) == ITREE_STOPPED);
        flag = 0;
        check("a flag that is 0 again", call(which) == ITREE_REFUSED);
        itree_limit_memory(0);
        flag = 1;
        itree_stop_flag(NULL);
        check("no flag", call(which) == ITREE_ANSWERED);
        flag = 0;
    }
    itree_stop_flag(&flag);
    flag = 1;
    int32_t meeting = 9;
    struct itree_grid fitted;
    check("what takes no memory answers", itree_how_they_meet(edges, edges, &meeting) == ITREE_ANSWERED &&
                                              meeting == ITREE_EDGES_SHARE &&
                                              itree_grid_fit(NULL, 0, &fitted, NULL) == ITREE_ANSWERED);
    itree_stop_flag(NULL);
}

static volatile int long_flag;

static void *stop_soon(void *none) {
    const struct timespec soon = {0, 50000000};
    nanosleep(&soon, NULL);
    long_flag = 1;
    return none;
}

static void checks_long_call(void) {
    static struct itree_point ring[LONG];
    const size_t end = LONG;
    struct itree_polygons *polygons = (void *)ring;
    pthread_t other;
    for (int place = 0; place < LONG; place++) {
        ring[place] = (struct itree_point){random_below(1000000), random_below(1000000)};
    }
    itree_stop_flag(&long_flag);
    check("another thread", pthread_create(&other, NULL, stop_soon, NULL) == 0);
    check("stops a long call", itree_overlay(ring, LONG, &end, 1, NULL, 0, NULL, 0, ITREE_NON_ZERO, ITREE_UNION,
                                             &polygons) == ITREE_STOPPED &&
                                   polygons == NULL);
    check("that had begun", itree_memory_peak() > 0);
    pthread_join(other, NULL);
    itree_stop_flag(NULL);
}

/* Takes over a handle, and makes one of its own, within its own limits. */
static void *take_over(void *handle) {
    struct itree_pairs *pairs = NULL;
    int ok = itree_memory_peak() == 0;
    itree_pairs_free(handle);
    ok = ok && itree_meetings_all(edges, MANY, &pairs) == ITREE_ANSWERED;
    const size_t peak = itree_memory_peak();
    itree_limit_memory(peak);
    itree_pairs_free(pairs);
    for (int round = 0; round < 3; round++) {
        ok = ok && call(2) == ITREE_ANSWERED && itree_memory_peak() == peak;
    }
    itree_limit_memory(1);
    return ok ? edges : NULL;
}

static void checks_threads(void) {
    struct itree_pairs *pairs = NULL;
    volatile int flag = 1;
    pthread_t other;
    void *told_by = NULL;
    check("a handle", itree_meetings_all(edges, MANY, &pairs) == ITREE_ANSWERED);
    const size_t peak = itree_memory_peak();
    itree_stop_flag(&flag);
    itree_limit_memory(peak);
    check("its thread", pthread_create(&other, NULL, take_over, pairs) == 0);
    pthread_join(other, &told_by);
    check("another thread has its own limits", told_by == edges);
    itree_stop_flag(NULL);
    check("and the first one its own", call(2) == ITREE_ANSWERED && itree_memory_peak() == peak);
    itree_limit_memory(0);
}

#if defined(__SANITIZE_ADDRESS__)
#define IS_WITH_SANITIZERS 1
#elif defined(__has_feature)
#if __has_feature(address_sanitizer)
#define IS_WITH_SANITIZERS 1
#endif
#endif

#ifndef IS_WITH_SANITIZERS
/* Bytes of collections within one another, 16 deep. */
static uint8_t nested[16 * 9 + 9];

static void *call_all(void *none) {
    const size_t ends[] = {0, sizeof nested};
    struct itree_polygons *shapes = NULL;
    int ok = 1;
    for (int which = 0; which < CALLS; which++) ok = ok && call(which) == ITREE_ANSWERED;
    ok = ok && itree_wkb_read(nested, sizeof nested, ends, 2, &grid, &shapes, NULL) == ITREE_ANSWERED;
    itree_polygons_free(shapes);
    return ok ? edges : none;
}

/* All calls in a thread whose stack has 16 KB, below which nothing may be written. */
static void checks_stack(void) {
    const uint8_t collection[9] = {1, 7, 0, 0, 0, 1, 0, 0, 0}, polygon[9] = {1, 3, 0, 0, 0, 0, 0, 0, 0};
    for (int deep = 0; deep < 16; deep++) memcpy(nested + 9 * deep, collection, 9);
    memcpy(nested + 16 * 9, polygon, 9);
    const size_t size = 16384;
    pthread_attr_t how;
    pthread_t other;
    void *told_by = NULL;
    char *const stack = mmap(NULL, 2 * size, PROT_READ | PROT_WRITE, MAP_PRIVATE | MAP_ANONYMOUS, -1, 0);
    if (stack != MAP_FAILED && mprotect(stack, size, PROT_NONE) == 0 && pthread_attr_init(&how) == 0 &&
        pthread_attr_setstack(&how, stack + size, size) == 0 && pthread_create(&other, &how, call_all, NULL) == 0) {
        pthread_join(other, &told_by);
    }
    check("a stack of 16 KB is enough", told_by == edges);
    munmap(stack, 2 * size);
}
#else
static void checks_stack(void) {}
#endif

int main(void) {
    make_items();
    checks_words();
    checks_memory();
    checks_flag();
    checks_long_call();
    checks_threads();
    checks_stack();
    return told();
}
