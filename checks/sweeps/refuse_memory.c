/* Loaded before the C library: refuses the growth whose number FAIL_AT gives, counted from 1, and grants all others.
   FAIL_TIMES says how many are refused in a row, from that one on; 1 where it is not there.
   COUNT_TO names a file that gets the number of all growths. */
#define _GNU_SOURCE
#include <dlfcn.h>
#include <errno.h>
#include <stddef.h>
#include <stdlib.h>

#include "count.h"

static long refused = -1, last = -1;
static void *(*next_malloc)(size_t);
static void *(*next_realloc)(void *, size_t);

static int is_refused(void) {
    if (!next_malloc) {
        next_malloc = dlsym(RTLD_NEXT, "malloc");
        next_realloc = dlsym(RTLD_NEXT, "realloc");
        const char *at = getenv("FAIL_AT");
        if (at) {
            const char *times = getenv("FAIL_TIMES");
            refused = atol(at);
            last = refused + (times ? atol(times) : 1) - 1;
        }
    }
    long now = __atomic_add_fetch(&count, 1, __ATOMIC_SEQ_CST);
    if (refused > 0 && refused <= now && now <= last) {
        errno = ENOMEM;
        return 1;
    }
    return 0;
}

void *malloc(size_t size) {
    return is_refused() ? NULL : next_malloc(size);
}

void *realloc(void *old, size_t size) {
    return is_refused() ? NULL : next_realloc(old, size);
}
