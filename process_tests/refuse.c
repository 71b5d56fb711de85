/* For tests: memory that is refused, and streams that fail in the middle. Preloaded (LD_PRELOAD) into the program.
 *
 * REFUSED_REQUEST=N  the Nth request for memory after the start is refused, and a byte is written to the stream TELLS_REFUSAL
 * FAILED_READ=N      the Nth read of standard input fails
 * ROOM_1=N, ROOM_2=N standard output, or standard error, takes N bytes, and then fails
 * HALVES=1           a read or a write gives or takes half of what is asked, rounded up
 */
#define _GNU_SOURCE
#include <errno.h>
#include <stdlib.h>
#include <sys/syscall.h>
#include <unistd.h>

void *__libc_malloc(size_t size);
void *__libc_realloc(void *block, size_t size);

static const unsigned long NEVER = -1ul;

static unsigned long refused = NEVER, failed = NEVER, room[3] = {NEVER, NEVER, NEVER};
static int tells = -1, halves = 0;

static unsigned long number_of(const char *name) {
    const char *text = getenv(name);
    return text == NULL ? NEVER : strtoul(text, NULL, 10);
}

__attribute__((constructor)) static void begin(void) {
    failed = number_of("FAILED_READ");
    room[1] = number_of("ROOM_1");
    room[2] = number_of("ROOM_2");
    halves = getenv("HALVES") != NULL;
    tells = (int)number_of("TELLS_REFUSAL");
    refused = number_of("REFUSED_REQUEST");
}

/* Whether a count that goes down by one has come to nothing. */
static int has_come(unsigned long *count) { return *count != NEVER && *count != 0 && --*count == 0; }

static size_t some_of(size_t count) { return halves ? count - count / 2 : count; }

static int grants(void) {
    if (!has_come(&refused)) return 1;
    if (tells >= 0) syscall(SYS_write, tells, "!", 1);
    errno = ENOMEM;
    return 0;
}

void *malloc(size_t size) { return grants() ? __libc_malloc(size) : NULL; }

void *realloc(void *block, size_t size) { return grants() ? __libc_realloc(block, size) : NULL; }

ssize_t read(int from, void *into, size_t count) {
    if (from == 0 && has_come(&failed)) {
        errno = EIO;
        return -1;
    }
    return syscall(SYS_read, from, into, from == 0 ? some_of(count) : count);
}

ssize_t write(int to, const void *from, size_t count) {
    if (to != 1 && to != 2) return syscall(SYS_write, to, from, count);
    if (count != 0 && room[to] == 0) {
        errno = ENOSPC;
        return -1;
    }
    count = some_of(count);
    ssize_t taken = syscall(SYS_write, to, from, count < room[to] ? count : room[to]);
    if (taken > 0 && room[to] != NEVER) room[to] -= (unsigned long)taken;
    return taken;
}

ssize_t __write(int to, const void *from, size_t count) { return write(to, from, count); }
