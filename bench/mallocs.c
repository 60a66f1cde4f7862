// Counts the calls by which a program takes memory, and says at its end how many there were.
//
// Build: cc -O2 -shared -fPIC -o mallocs.so mallocs.c -ldl
// Usage: MALLOCS=FILE LD_PRELOAD=./mallocs.so PROGRAM ..
#define _GNU_SOURCE
#include <dlfcn.h>
#include <stdio.h>
#include <stdlib.h>

static unsigned long count;

void *malloc(size_t size) {
    static void *(*next)(size_t);
    if (!next) next = dlsym(RTLD_NEXT, "malloc");
    count++;
    return next(size);
}

void *realloc(void *old, size_t size) {
    static void *(*next)(void *, size_t);
    if (!next) next = dlsym(RTLD_NEXT, "realloc");
    count++;
    return next(old, size);
}

void *aligned_alloc(size_t alignment, size_t size) {
    static void *(*next)(size_t, size_t);
    if (!next) next = dlsym(RTLD_NEXT, "aligned_alloc");
    count++;
    return next(alignment, size);
}

int posix_memalign(void **to, size_t alignment, size_t size) {
    static int (*next)(void **, size_t, size_t);
    if (!next) next = dlsym(RTLD_NEXT, "posix_memalign");
    count++;
    return next(to, alignment, size);
}

__attribute__((destructor)) static void tell(void) {
    const char *name = getenv("MALLOCS");
    unsigned long counted = count;
    FILE *file = name ? fopen(name, "w") : NULL;
    if (file) {
        fprintf(file, "%lu\n", counted);
        fclose(file);
    }
}
