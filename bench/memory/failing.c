/* Stands before the C library's calls that give memory. The call of the number in FAIL_AT, counted from 1, finds none, and so do
   those behind it, FAIL_FOR in all: 1 where that isn't set, and all that come where it is 0. At the end the number of calls
   is written into the file that COUNT_IN names. */
#include "counting.h"
#include <errno.h>

void *__libc_malloc(size_t size);
void *__libc_calloc(size_t count, size_t size);
void *__libc_realloc(void *old, size_t size);
void *__libc_memalign(size_t alignment, size_t size);

static unsigned long calls;
static unsigned long fail_at;
static unsigned long fail_for;

static int fails(void) {
    unsigned long call = __atomic_add_fetch(&calls, 1, __ATOMIC_SEQ_CST);
    if (fail_at == 0 || call < fail_at || (fail_for != 0 && call - fail_at >= fail_for)) {
        return 0;
    }
    errno = ENOMEM;
    return 1;
}

void *malloc(size_t size) {
    return fails() ? NULL : __libc_malloc(size);
}

void *calloc(size_t count, size_t size) {
    return fails() ? NULL : __libc_calloc(count, size);
}

void *realloc(void *old, size_t size) {
    return fails() ? NULL : __libc_realloc(old, size);
}

void *memalign(size_t alignment, size_t size) {
    return fails() ? NULL : __libc_memalign(alignment, size);
}

void *aligned_alloc(size_t alignment, size_t size) {
    return memalign(alignment, size);
}

int posix_memalign(void **to, size_t alignment, size_t size) {
    void *made = memalign(alignment, size);
    if (made == NULL) {
        return ENOMEM;
    }
    *to = made;
    return 0;
}

__attribute__((constructor)) static void begin(void) {
    calls = 0;
    fail_for = number("FAIL_FOR", 1);
    fail_at = number("FAIL_AT", 0);
}

static void end(void) {
    char text[24];
    int length = snprintf(text, sizeof text, "%lu\n", calls);
    write_counts(text, length);
}
