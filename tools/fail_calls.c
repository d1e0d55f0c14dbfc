/* Preloaded, it makes the call on files of the number in FAIL_CALL fail, or the request for memory of the number in FAIL_ALLOC, and writes how many
   of each were made into the file FAIL_COUNTS at the end. */
#define _GNU_SOURCE
#include <dlfcn.h>
#include <errno.h>
#include <fcntl.h>
#include <stdarg.h>
#include <stdio.h>
#include <stdlib.h>
#include <sys/stat.h>
#include <sys/types.h>

static unsigned long calls, requests;

static unsigned long number(const char *name) {
    const char *word = getenv(name);
    return word ? strtoul(word, 0, 10) : 0;
}

static int call_fails(int why) {
    static unsigned long wanted = -1ul;
    if (wanted == -1ul) wanted = number("FAIL_CALL");
    if (++calls != wanted) return 0;
    errno = why;
    return 1;
}

static int request_fails(void) {
    static unsigned long wanted = -1ul;
    if (wanted == -1ul) wanted = number("FAIL_ALLOC");
    return ++requests == wanted;
}

#define NEXT(name) __typeof__(name) *next = (__typeof__(name) *)dlsym(RTLD_NEXT, #name)

void *malloc(size_t size) {
    static void *(*next)(size_t);
    if (!next) next = (void *(*)(size_t))dlsym(RTLD_NEXT, "malloc");
    return request_fails() ? 0 : next(size);
}

void *realloc(void *old, size_t size) {
    static void *(*next)(void *, size_t);
    if (!next) next = (void *(*)(void *, size_t))dlsym(RTLD_NEXT, "realloc");
    return request_fails() ? 0 : next(old, size);
}

int open(const char *path, int flags, ...) {
    va_list rest;
    va_start(rest, flags);
    mode_t mode = va_arg(rest, mode_t);
    va_end(rest);
    NEXT(open);
    return call_fails(flags & O_CREAT ? ENOSPC : EIO) ? -1 : next(path, flags, mode);
}

int openat(int at, const char *path, int flags, ...) {
    va_list rest;
    va_start(rest, flags);
    mode_t mode = va_arg(rest, mode_t);
    va_end(rest);
    NEXT(openat);
    return call_fails(flags & O_CREAT ? ENOSPC : EIO) ? -1 : next(at, path, flags, mode);
}

ssize_t write(int file, const void *bytes, size_t count) {
    NEXT(write);
    return file > 2 && call_fails(ENOSPC) ? -1 : next(file, bytes, count);
}

ssize_t read(int file, void *bytes, size_t count) {
    NEXT(read);
    return call_fails(EIO) ? -1 : next(file, bytes, count);
}

int rename(const char *from, const char *to) {
    NEXT(rename);
    return call_fails(EIO) ? -1 : next(from, to);
}

int fsync(int file) {
    NEXT(fsync);
    return call_fails(EIO) ? -1 : next(file);
}

int fdatasync(int file) {
    NEXT(fdatasync);
    return call_fails(EIO) ? -1 : next(file);
}

int unlink(const char *path) {
    NEXT(unlink);
    return call_fails(EIO) ? -1 : next(path);
}

int mkdir(const char *path, mode_t mode) {
    NEXT(mkdir);
    return call_fails(ENOSPC) ? -1 : next(path, mode);
}

int flock(int file, int what) {
    extern int flock(int, int);
    NEXT(flock);
    return call_fails(EIO) ? -1 : next(file, what);
}

int fchmod(int file, mode_t mode) {
    NEXT(fchmod);
    return call_fails(EIO) ? -1 : next(file, mode);
}

int statx(int at, const char *restrict path, int flags, unsigned mask, struct statx *restrict found) {
    NEXT(statx);
    return call_fails(EIO) ? -1 : next(at, path, flags, mask, found);
}

char *realpath(const char *restrict path, char *restrict found) {
    NEXT(realpath);
    return call_fails(EIO) ? 0 : next(path, found);
}

__attribute__((destructor)) static void tell(void) {
    const char *path = getenv("FAIL_COUNTS");
    FILE *file = path ? fopen(path, "w") : 0;
    if (!file) return;
    fprintf(file, "%lu %lu\n", calls, requests);
    fclose(file);
}
