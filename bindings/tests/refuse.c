/* For tests: memory that is refused. Linked with -Wl,--wrap=malloc,--wrap=realloc, so that the library asks here. */
#include "refuse.h"

#include <stdint.h>

void *__real_malloc(size_t size);
void *__real_realloc(void *block, size_t size);

static size_t left = SIZE_MAX, made;

void refuse_after(size_t granted) { left = granted; }

size_t requests_made(void) { return made; }

static int grants(void) {
    made++;
    if (left == SIZE_MAX) return 1;
    if (left == 0) return 0;
    left--;
    return 1;
}

void *__wrap_malloc(size_t size) { return grants() ? __real_malloc(size) : NULL; }

void *__wrap_realloc(void *block, size_t size) { return grants() ? __real_realloc(block, size) : NULL; }
