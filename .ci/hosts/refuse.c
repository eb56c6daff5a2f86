/* Loaded before the C library: refuses the request for memory of the number in REFUSED, counted from 1, and with REFUSED_ON each
   one after it too. At the end it writes to the descriptor in REFUSED_TO how many requests there were. */
#define _GNU_SOURCE
#include <dlfcn.h>
#include <errno.h>
#include <stddef.h>
#include <stdio.h>
#include <stdlib.h>

static unsigned long requests;

static int is_refused(void) {
    const char *number = getenv("REFUSED");
    unsigned long first = number ? strtoul(number, NULL, 10) : 0;

    requests++;
    return first != 0 && (requests == first || (requests > first && getenv("REFUSED_ON") != NULL));
}

static void *refuse(void) {
    errno = ENOMEM;
    return NULL;
}

void *malloc(size_t size) {
    void *(*next)(size_t) = (void *(*)(size_t))dlsym(RTLD_NEXT, "malloc");

    return is_refused() ? refuse() : next(size);
}

void *realloc(void *old, size_t size) {
    void *(*next)(void *, size_t) = (void *(*)(void *, size_t))dlsym(RTLD_NEXT, "realloc");

    return is_refused() ? refuse() : next(old, size);
}

__attribute__((destructor)) static void tell(void) {
    const char *to = getenv("REFUSED_TO");

    if (to != NULL) {
        dprintf(atoi(to), "%lu\n", requests);
    }
}
