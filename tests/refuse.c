// A library to be loaded before the C library (LD_PRELOAD): it refuses the growth of memory whose number stands
// in REFUSE_GROWTH, counted from 1, and passes all others on. Where one was refused, it says so on standard error
// when the program ends.
#define _GNU_SOURCE
#include <dlfcn.h>
#include <errno.h>
#include <stddef.h>
#include <stdlib.h>
#include <unistd.h>

static long count;
static long target = -1;

static int refuses(void) {
    if (target < 0) {
        const char *number = getenv("REFUSE_GROWTH");
        target = number ? atol(number) : 0;
    }
    if (++count != target) return 0;
    errno = ENOMEM;
    return 1;
}

__attribute__((destructor)) static void say(void) {
    if (target > 0 && count >= target) (void)!write(2, "refused\n", 8);
}

void *malloc(size_t size) {
    static void *(*next)(size_t);
    if (!next) next = (void *(*)(size_t))dlsym(RTLD_NEXT, "malloc");
    return refuses() ? NULL : next(size);
}

void *realloc(void *old, size_t size) {
    static void *(*next)(void *, size_t);
    if (!next) next = (void *(*)(void *, size_t))dlsym(RTLD_NEXT, "realloc");
    return refuses() ? NULL : next(old, size);
}
