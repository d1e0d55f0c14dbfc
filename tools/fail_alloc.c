/* Preloaded, it makes the request for memory of the number in FAIL_ALLOC fail, and counts the others. */
#define _GNU_SOURCE
#include <dlfcn.h>
#include <stdlib.h>

static unsigned long count;
static unsigned long wanted;

static int fails(void) {
    if (wanted == 0) {
        const char *word = getenv("FAIL_ALLOC");
        wanted = word ? strtoul(word, 0, 10) : (unsigned long)-1;
    }
    return ++count == wanted;
}

void *malloc(size_t size) {
    static void *(*next)(size_t);
    if (!next) next = (void *(*)(size_t))dlsym(RTLD_NEXT, "malloc");
    return fails() ? 0 : next(size);
}

void *realloc(void *old, size_t size) {
    static void *(*next)(void *, size_t);
    if (!next) next = (void *(*)(void *, size_t))dlsym(RTLD_NEXT, "realloc");
    return fails() ? 0 : next(old, size);
}
