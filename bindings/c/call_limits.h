/* How much memory a call may take, and whether it is stopped, looked at where memory is asked for. It is of the library
 * alone, and no caller's: itree.h has the calls by which a thread sets its limits. */
#ifndef ITREE_CALL_LIMITS_H
#define ITREE_CALL_LIMITS_H

#include <stddef.h>
#include <stdint.h>

/* A call of this thread begins: nothing is held, and nothing has stopped it. */
void limits_begin(void);

/* The status with which the call ends: ITREE_STOPPED where it is ITREE_REFUSED since the flag stopped it. */
int32_t limits_end(int32_t status);

/* malloc, realloc and free within the limits. bindings/build gives the toolchain's calls of these three the names here.
 */
void *limits_malloc(size_t size);
void *limits_realloc(void *block, size_t size);
void limits_free(void *block);

#endif
