/* For tests: what passes and what fails, and numbers without visible order. */
#ifndef COUNTED_H
#define COUNTED_H

#include <stdint.h>
#include <stdio.h>

static int passed, failed;

static inline void check(const char *what, int ok) {
    if (ok) {
        passed++;
    } else {
        failed++;
        printf("FAILED %s\n", what);
    }
}

static uint64_t state = 27;

/* A number below the limit, without visible order. */
static inline int32_t random_below(uint32_t limit) {
    state = state * 6364136223846793005u + 1442695040888963407u;
    return (int32_t)((uint32_t)(state >> 33) % limit);
}

/* Prints how many passed and failed, and answers how a program ends then. */
static inline int told(void) {
    printf("%d passed, %d failed\n", passed, failed);
    return failed != 0;
}

#endif
