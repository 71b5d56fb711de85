/* A thread's limits. Each block has its size before it, so that what a call holds is known where it gives a block back.
 *
 * What is held is counted from 0 in each call. A handle is given back outside of a call, by any thread, and counts
 * there for nothing: the next call begins anew. */
#include "call_limits.h"

#include <itree.h>
#include <stdalign.h>
#include <stdlib.h>

/* The numbers of a thread. They stand where a thread's own memory begins, so that nothing has to be taken for them. */
#if defined(__GNUC__)
#define AT_ONCE __attribute__((tls_model("initial-exec")))
#else
#define AT_ONCE
#endif

static AT_ONCE _Thread_local struct {
    size_t limit, held, peak;
    const volatile int *flag;
    int is_stopped;
} thread;

/* What stands before a block. It is as long as malloc aligns, so the block is aligned as malloc's. */
struct before {
    alignas(max_align_t) size_t size;
};

void itree_limit_memory(size_t bytes) { thread.limit = bytes; }

size_t itree_memory_peak(void) { return thread.peak; }

void itree_stop_flag(const volatile int *flag) { thread.flag = flag; }

void limits_begin(void) {
    thread.held = 0;
    thread.peak = 0;
    thread.is_stopped = 0;
}

int32_t limits_end(int32_t status) { return status == ITREE_REFUSED && thread.is_stopped ? ITREE_STOPPED : status; }

/* Whether the call may hold so many bytes more in place of so many. A call that was stopped stays so. */
static int may_hold(size_t size, size_t instead_of) {
    if (thread.flag != NULL && *thread.flag != 0) thread.is_stopped = 1;
    if (thread.is_stopped || size > PTRDIFF_MAX - sizeof(struct before)) return 0;
    const size_t rest = thread.held - instead_of;
    return thread.limit == 0 || (rest <= thread.limit && size <= thread.limit - rest);
}

/* The block behind what was taken, which is now held in place of so many bytes. */
static void *block_of(struct before *taken, size_t size, size_t instead_of) {
    taken->size = size;
    thread.held += size - instead_of;
    if (thread.held > thread.peak) thread.peak = thread.held;
    return taken + 1;
}

void *limits_malloc(size_t size) {
    struct before *const taken = may_hold(size, 0) ? malloc(sizeof *taken + size) : NULL;
    return taken == NULL ? NULL : block_of(taken, size, 0);
}

void *limits_realloc(void *block, size_t size) {
    struct before *const taken = (struct before *)block - 1;
    const size_t before = taken->size;
    struct before *const moved = may_hold(size, before) ? realloc(taken, sizeof *taken + size) : NULL;
    return moved == NULL ? NULL : block_of(moved, size, before);
}

void limits_free(void *block) {
    struct before *const taken = (struct before *)block - 1;
    thread.held -= taken->size;
    free(taken);
}
