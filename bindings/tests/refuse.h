/* For tests: memory that is refused. */
#ifndef REFUSE_H
#define REFUSE_H

#include <stddef.h>

#ifdef __cplusplus
extern "C" {
#endif

/* Grants so many requests for memory, and refuses those behind them. SIZE_MAX grants all. */
void refuse_after(size_t granted);

/* How many requests for memory there were, granted or not. */
size_t requests_made(void);

#ifdef __cplusplus
}
#endif

#endif
